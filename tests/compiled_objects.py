#!/usr/bin/env python3
"""Compiles the files of tests/c, and compares the program's table of each object with the one that readelf gives.

usage: tests/compiled_objects.py [PROGRAM]

PROGRAM is crates/yilmacrab/out/yilmacrab if left out. Run from the root of the repository, once the program is built. It needs gcc,
clang, readelf, ld and objcopy; other linkers and copiers are used where they are installed.

Every file is compiled by gcc and clang in several ways, by clang for other machines too; the objects of each way are joined (ld -r) and
each is copied (objcopy, strip). The table that `PROGRAM table` writes has to be, byte for byte, that of tools/readelf_table.py. Some that
are copied are refused, and have to be: these tools renumber symbols and leave the address-significance table as it was, so that it may
list numbers of no symbol. Then come objects that docs/OBJECT.md refuses by other rules: the F row has to be the one that is
told here, with the place found by readelf. The status is 1 where anything differs.
"""
import os
import shutil
import subprocess
import sys
import tempfile
from collections import Counter, namedtuple

ROOT = os.path.join(os.path.dirname(os.path.abspath(__file__)), "..")
sys.path.insert(0, os.path.join(ROOT, "tools"))
import readelf_table

SOURCES = ["calls", "data", "start", "threads", "weak", "many"]
APART = ["-ffunction-sections", "-fdata-sections"]
MORE = ["-g", "-fPIC", "-fcommon"]

WAYS = [["gcc", level, *more] for level in ("-O0", "-O2") for more in ([], MORE)]
WAYS += [["clang", level, sign, *more] for level in ("-O0", "-O2") for sign in ("-faddrsig", "-fno-addrsig") for more in ([], MORE)]
MACHINES = ["aarch64-linux-gnu", "powerpc64le-linux-gnu", "riscv64-linux-gnu"]
ABROAD = [["clang", f"--target={machine}", "-O2", "-faddrsig"] for machine in MACHINES]

LINKERS = ["ld", "ld.gold", "ld.lld"]
LEFT_OUT = [".symtab", ".strtab", ".group", ".rela.eh_frame", ".llvm_addrsig"]

# What renames, prefixes, aligns, strips. No compiler writes an alignment of 0, nor sections of these types that take memory.
COPIERS = [
    ["objcopy", "--strip-debug", "--rename-section", ".comment=.remark,alloc,readonly,data"],
    ["objcopy", "--set-section-alignment", ".data=32", "--prefix-symbols=their_"],
    ["strip", "--strip-unneeded", "-o"],
    ["llvm-objcopy", "--strip-debug", "--set-section-alignment=.text=0"],
    ["llvm-objcopy", *(f"--set-section-flags={name}=alloc" for name in LEFT_OUT)],
]

# An object that is refused: what it is, how it is compiled, of which C text; the refusal's number, place and layer; and why. A place is a
# number alone, or a number after the header of a section, or after the first entry in a section.
Refused = namedtuple("Refused", "what words source number place layer why")

MANY = "".join(f"int f{i}(void) {{ return {i}; }}\n" for i in range(1100))
ABSENT = '__asm__(".section .remark\\nheard: .byte 1\\n.data\\n.quad heard\\n");'
GCC, LIBRARY = ["gcc", "-c"], ["gcc", "-shared", "-nostdlib", "-fPIC"]
REFUSED = [
    Refused("a shared library", LIBRARY, "int x;", 2, (16,), 2, "e_type is 3"),
    Refused("an object for 32 bits", ["clang", "--target=i386-linux-gnu", "-c"], "int x;", 2, (0,), 2, "the class is 1"),
    Refused("an object of a big-endian machine", ["clang", "--target=s390x-linux-gnu", "-c"], "int x;", 2, (0,), 2, "the byte order is 2"),
    Refused("1,100 functions", GCC, MANY, 3, (60,), 2, "e_shnum is over 1,024"),
    Refused("65,536 zeros", GCC, "char large[65536];", 3, ("header", ".bss.large", 32), 2, "sh_size is over 65,535"),
    Refused("65,536 bytes", GCC, "char large[65536] = {1};", 3, ("header", ".data.large", 32), 2, "sh_size is over 65,535"),
    Refused("far aligned", GCC, "_Alignas(131072) char x = 1;", 5, ("header", ".data.x", 48), 2, "sh_addralign is over 65,536"),
    Refused("no addends", ["clang", "--target=bpfel", "-c"], "int f(void); int g(void) { return f(); }",
            5, ("header", ".rel.text.g", 4), 2, "relocations of type 9 for a present section"),
    Refused("far away", GCC, "extern char x; char *y = &x + (1L << 31);", 5, ("entry", ".rela.data.rel.y", 16), 2, "r_addend is 2^31"),
    Refused("points into a remark", GCC, ABSENT, 4, ("entry", ".rela.data", 8), 2, "the symbol is in a section that is not present"),
]


def run(words, **more):
    done = subprocess.run(words, capture_output=True, text=True, **more)
    if done.returncode:
        raise RuntimeError(f"{' '.join(words)}: {done.stderr.strip()}")


class Comparison:
    def __init__(self, program):
        self.program, self.same, self.unknown, self.wrong, self.counts = program, 0, 0, 0, Counter()

    def told(self, path):
        """What the program writes of an object: its table, or an F row."""
        out = path + ".table"
        done = subprocess.run([self.program, "table", path, "-o", out], capture_output=True, text=True)
        if done.returncode:
            return done.stdout
        with open(out, encoding="ascii", newline="") as file:
            return file.read()

    def compare(self, name, path):
        ours, theirs = self.told(path), readelf_table.table(path)
        if ours != theirs:
            self.wrong += 1
            row = next((pair for pair in zip(ours.splitlines(), theirs.splitlines()) if pair[0] != pair[1]), ("cut short", "cut short"))
            print(f"{name}: the program has\n{row[0]}\nand readelf\n{row[1]}")
            return
        if theirs.startswith("F"):
            self.unknown += 1
            print(f"{theirs.rstrip()}  {name}: the address-significance table lists a number of no symbol")
            return
        self.same += 1
        self.counts.update(line[0] for line in theirs.splitlines())
        sections = [line.split() for line in theirs.splitlines() if line[0] == "S"]
        self.counts["foldable"] += sum(section[-1] == "0" for section in sections)
        self.counts["bytes"] += sum(int(section[4]) for section in sections)
        self.counts["retained"] += sum(bool(int(section[2]) & 0x200000) for section in sections)

    def refuse(self, case, path):
        expected = readelf_table.row("F", case.number, place_of(path, *case.place), case.layer)
        told = self.told(path)
        if told != expected:
            self.wrong += 1
            print(f"{case.what}: the program has\n{told.rstrip()}\nand readelf's places give\n{expected.rstrip()}")
        print(f"{expected.rstrip()}  {case.what}: {case.why}")


def place_of(path, *place):
    if len(place) == 1:
        return place[0]
    what, name, more = place
    sections = readelf_table.sections_of(path)
    number = next(s for s, section in sections.items() if section.name == name)
    return (sections[number].offset if what == "entry" else readelf_table.headers_at(path) + 64 * number) + more


def copied(path, words):
    copy = f"{path}.{COPIERS.index(words)}.{words[0]}"
    run([*words, copy, path] if words[-1] == "-o" else [*words, path, copy])
    return copy


def compare_way(comparison, folder, way, linkers, copiers):
    same, unknown, wrong = comparison.same, comparison.unknown, comparison.wrong
    objects = []
    for source in SOURCES:
        path = os.path.join(folder, f"{source}.o")
        run([*way, *APART, "-c", os.path.join(ROOT, "tests/c", f"{source}.c"), "-o", path])
        objects.append(path)
    for linker in linkers:
        path = os.path.join(folder, f"{linker}.o")
        run([linker, "-r", *objects[: len(SOURCES)], "-o", path])
        objects.append(path)
    objects += [copied(path, words) for path in list(objects) for words in copiers]
    for path in objects:
        comparison.compare(f"{' '.join(way)} {os.path.basename(path)}", path)
    refused = f", {comparison.unknown - unknown} refused" if comparison.unknown > unknown else ""
    print(f"{' '.join(way):60}{comparison.same - same:4} the same{refused}, {comparison.wrong - wrong} wrong")


def main():
    if "-h" in sys.argv or "--help" in sys.argv or len(sys.argv) > 2:
        print(__doc__.strip())
        return 0 if len(sys.argv) == 2 else 1
    comparison = Comparison(sys.argv[1] if len(sys.argv) == 2 else os.path.join(ROOT, "crates/yilmacrab/out/yilmacrab"))
    linkers = [x for x in LINKERS if shutil.which(x)]
    copiers = [x for x in COPIERS if shutil.which(x[0])]
    missing = {*LINKERS, *(x[0] for x in COPIERS)} - {*linkers, *(x[0] for x in copiers)}
    for way in WAYS + ABROAD:
        with tempfile.TemporaryDirectory() as folder:
            at_home = way in WAYS
            compare_way(comparison, folder, way, linkers if at_home else [], copiers if at_home else [])
    with tempfile.TemporaryDirectory() as folder:
        for case in REFUSED:
            path = os.path.join(folder, "refused.o")
            run([*case.words, *APART, "-x", "c", "-", "-o", path], input=case.source)
            comparison.refuse(case, path)
    if missing:
        print(f"not installed: {', '.join(sorted(missing))}")
    counts = comparison.counts
    print(
        f"{comparison.same} objects have the table that readelf tells, {comparison.unknown} list what is no symbol and are refused for it, "
        f"{len(REFUSED)} others are refused, {comparison.wrong} wrong; in the tables "
        f"{counts['S']} sections, {counts['foldable']} foldable, {counts['retained']} retained, {counts['bytes']} bytes, "
        f"{counts['R']} relocations, {counts['T']} roots"
    )
    return 1 if comparison.wrong else 0


if __name__ == "__main__":
    sys.exit(main())
