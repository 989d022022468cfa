#!/usr/bin/env python3
"""Writes the section table of an ELF64 object, made from what readelf says of it and from nothing else.

usage: tools/readelf_table.py OBJECT

docs/OBJECT.md tells which graph an object has, and docs/TABLE.md how its table is written. This program shares no code with any reader
of this repository and opens no object itself: it asks readelf for headers (-h, -S, -t), symbols (-s), relocations (-r) and bytes (-x).
It checks only one of the rules by which objects are refused, that numbers in the address-significance table are those of symbols, and
writes the F row where one is not. It ends with an error where it cannot understand what readelf prints.
"""
import re
import subprocess
import sys
from collections import namedtuple

# The letters of readelf -S, as bits of sh_flags. Bits without a letter of their own are told by one of the last three.
LETTERS = {"W": 0x1, "A": 0x2, "X": 0x4, "M": 0x10, "S": 0x20, "I": 0x40, "L": 0x80, "O": 0x100, "G": 0x200, "T": 0x400, "C": 0x800}
LETTERS |= {"R": 0x200000, "D": 0x1000000, "l": 0x10000000, "E": 0x80000000}
NAMELESS = set("xop")

# The types of sections that are in no graph, and those of roots.
ADDRSIG = ("LOOS+0xfff4c03", "LLVM_ADDRSIG")
LEFT_OUT = {"NULL", "SYMTAB", "STRTAB", "RELA", "REL", "GROUP", "SYMTAB SECTION INDICES", *ADDRSIG}
ROOTS = {"INIT_ARRAY", "FINI_ARRAY", "PREINIT_ARRAY"}
OUTSIDE = {"UND", "ABS", "COM"}

Section = namedtuple("Section", "name type offset size flags info alignment")

SECTION = re.compile(
    r"\s*\[\s*(\d+)\] (.*?)\s*(NULL|SYMTAB SECTION INDICES|\S+)\s+"
    r"[0-9a-f]{16} ([0-9a-f]{6,}) ([0-9a-f]{6,}) [0-9a-f]{2,}\s+([A-Za-z]*)\s+\d+\s+(\d+)\s+(\d+)$"
)
DETAIL = re.compile(r"\s*\[\s*(\d+)\] ")
BITS = re.compile(r"\s*\[([0-9a-f]{16})\]:")
SYMBOL = re.compile(r"\s*(\d+): ([0-9a-f]{16})\s+\S+\s+\S+\s+\S+\s+(?:DEFAULT|HIDDEN|INTERNAL|PROTECTED)\s+(?:\[.*?\]\s+)?(\S+)")
ENTRY = re.compile(r"([0-9a-f]{16})\s+([0-9a-f]{8})([0-9a-f]{8}) .*?(?: ([-+]) |\s(-?))([0-9a-f]+)$")
RELOCATIONS = re.compile(r"Relocation section '.*' at offset 0x([0-9a-f]+) contains (\d+) entr")
DUMP = re.compile(r"  0x[0-9a-f]{8} ")


def readelf(path, *words):
    said = subprocess.run(["readelf", "-W", *words, path], capture_output=True, text=True, env={"LC_ALL": "C", "PATH": "/usr/bin:/bin"})
    if said.returncode or "Error" in said.stderr:
        raise ValueError(f"readelf {' '.join(words)} {path}: {said.stderr.strip()}")
    return said.stdout.splitlines()


def detailed_flags(path):
    """The bits of each section's flags as readelf -t writes them."""
    flags, section = {}, None
    for line in readelf(path, "-t"):
        if found := DETAIL.match(line):
            section = int(found[1])
        elif found := BITS.match(line):
            flags[section] = int(found[1], 16)
    return flags


def flags_of(letters, bits):
    """The flags that the letters spell; where a letter stands for bits without a name, the rest is that of readelf -t."""
    spelled = sum(LETTERS[x] for x in letters if x not in NAMELESS)
    if spelled != bits and not (NAMELESS & set(letters) and spelled & bits == spelled):
        raise ValueError(f"the letters {letters} do not spell {bits:#x}")
    return bits


def in_header(path, words):
    """A number of the object's header, after these words."""
    return next(int(line.split(":")[1].split()[0]) for line in readelf(path, "-h") if words in line)


def headers_at(path):
    return in_header(path, "Start of section headers")


def sections_of(path):
    count = in_header(path, "Number of section headers")
    bits = detailed_flags(path)
    sections = {}
    for found in filter(None, map(SECTION.match, readelf(path, "-S"))):
        number, name, kind, offset, size, letters, info, alignment = found.groups()
        flags = flags_of(letters, bits[int(number)])
        sections[int(number)] = Section(name, kind, int(offset, 16), int(size, 16), flags, int(info), int(alignment))
    if sorted(sections) != list(range(count)):
        raise ValueError(f"{path}: {len(sections)} of {count} section headers were understood")
    return sections


def symbols_of(path):
    """Of each symbol where it is, a word for outside or the number of a section, and its value."""
    symbols = {}
    for found in filter(None, map(SYMBOL.match, readelf(path, "-s"))):
        number, value, where = found.groups()
        symbols[int(number)] = (where if where in OUTSIDE else int(where), int(value, 16))
    return symbols


def relocations_of(path, sections):
    """The entries (offset, type, symbol, addend) of each section that has any."""
    owners = {x.offset: x.info for x in sections.values() if x.type == "RELA" and x.size}
    entries, expected, owner = {}, {}, None
    for line in readelf(path, "-r"):
        if found := RELOCATIONS.match(line):
            owner = owners[int(found[1], 16)]
            entries[owner], expected[owner] = [], int(found[2])
        elif found := ENTRY.match(line):
            offset, symbol, kind, sign, minus, addend = found.groups()
            addend = int(addend, 16) * (-1 if "-" in (sign, minus) else 1)
            entries[owner].append((int(offset, 16), int(kind, 16), int(symbol, 16), addend))
    for owner, count in expected.items():
        if len(entries[owner]) != count:
            raise ValueError(f"{path}: {len(entries[owner])} of {count} entries of section {owner} were understood")
    return entries


def bytes_of(path, sections, wanted):
    """The bytes of the wanted sections, dumped by readelf in ascending order."""
    contents = {s: bytes(sections[s].size) for s in wanted if sections[s].type == "NOBITS" or not sections[s].size}
    dumped = [s for s in sorted(wanted) if s not in contents]
    if not dumped:
        return contents
    texts = []
    for line in readelf(path, *(word for s in dumped for word in ("-x", str(s)))):
        if line.startswith("Hex dump of section "):
            texts.append("")
        elif found := DUMP.match(line):
            texts[-1] += line[found.end() :][:36].replace(" ", "")
    contents |= {s: bytes.fromhex(text) for s, text in zip(dumped, texts, strict=True)}
    for s in dumped:
        if len(contents[s]) != sections[s].size:
            raise ValueError(f"{path}: {len(contents[s])} of {sections[s].size} bytes of section {s} were understood")
    return contents


def uleb128_numbers(data):
    """The numbers, each behind the place of its first byte."""
    numbers, place, number, weight = [], 0, 0, 1
    for after, byte in enumerate(data, 1):
        number += byte % 128 * weight
        weight *= 128
        if byte < 128:
            numbers.append((place, number))
            place, number, weight = after, 0, 1
    return numbers


def row(letter, *numbers, width=12):
    return letter + "".join(str(z).rjust(width) for z in numbers) + "\n"


def table(path):
    """The table of an object, as text, or the row of the refusal where the address-significance table lists what is no symbol."""
    sections, symbols = sections_of(path), symbols_of(path)
    present = [s for s, x in sections.items() if x.flags & 0x2 and x.type not in LEFT_OUT]
    roots = [s for s in present if sections[s].type in ROOTS or sections[s].flags & 0x200000]
    lists = [s for s, x in sections.items() if x.type in ADDRSIG]
    contents = bytes_of(path, sections, present + lists)
    listing = [(sections[s].offset + place, symbol) for s in lists for place, symbol in uleb128_numbers(contents[s])]
    if unknown := [place for place, symbol in listing if symbol not in symbols]:
        return row("F", 4, unknown[0], 2)
    listed = {symbols[symbol][0] for _, symbol in listing}

    entries = relocations_of(path, sections)

    def target(symbol, addend):
        where, value = symbols[symbol]
        return (1, symbol, addend) if where in OUTSIDE else (0, where, value + addend)

    def foldable(s):
        special = sections[s].flags & (0x1 | 0x10 | 0x80 | 0x400)
        return sections[s].type == "PROGBITS" and s not in roots and not special and bool(lists) and s not in listed

    text = row("H", len(sections), len(roots))
    for s in present:
        section, data = sections[s], contents[s]
        relocations = [(offset, kind, *target(symbol, addend)) for offset, kind, symbol, addend in entries.get(s, [])]
        counts = len(data), len(relocations)
        text += row("S", s, section.flags & ~0x200, section.alignment or 1, *counts, 0 if foldable(s) else 1)
        text += "".join(row("B", *data[k : k + 16], width=4) for k in range(0, len(data), 16))
        text += "".join(row("R", *relocation) for relocation in relocations)
    return text + "".join(row("T", s) for s in roots) + row("E", len(present))


def main():
    if len(sys.argv) != 2 or sys.argv[1] in ("-h", "--help"):
        print(__doc__.strip())
        return 0 if sys.argv[1:] in (["-h"], ["--help"]) else 1
    print(table(sys.argv[1]), end="")
    return 0


if __name__ == "__main__":
    sys.exit(main())
