#!/usr/bin/env python3
"""Writes what the programs whose names end in _case are given, and what they have to print.

The expectations come from the small pile below, which was written from docs/PILE.md, docs/TABLE.md and docs/MAP.md and shares no
code with the library, and, of objects with relocations, from tools/object_reference.py, an independent reader of objects.
Run from the root of the repository: tests/program_cases.py
"""
import os, struct, sys

sys.path.append("tools")
import object_reference


def row(letter, *numbers, width=12):
    return letter + "".join(str(z).rjust(width) for z in numbers) + "\n"


class Section:
    def __init__(self, data, relocations=(), flags=6, alignment=1, pinned=0):
        self.data, self.relocations = list(data), list(relocations)
        self.flags, self.alignment, self.pinned = flags, alignment, pinned


class Pile:
    """A graph and the calls on it. A relocation is (offset, type, 0 for a section or 1 for outside, target, displacement)."""

    def __init__(self, count, sections, roots):
        self.count, self.sections, self.roots = count, dict(sections), list(roots)
        self.below, self.went, self.bound, self.added, self.closed = set(sections), {}, set(), 0, False

    # what is read off the graph

    def table(self):
        out = row("H", self.count, len(self.roots))
        for s, x in sorted(self.sections.items()):
            out += row("S", s, x.flags, x.alignment, len(x.data), len(x.relocations), x.pinned)
            out += "".join(row("B", *x.data[i : i + 16], width=4) for i in range(0, len(x.data), 16))
            out += "".join(row("R", *r) for r in x.relocations)
        return out + "".join(row("T", t) for t in self.roots) + row("E", len(self.sections))

    def description(self):
        here = self.sections.values()
        pinned = sum(x.pinned for x in here)
        names = {r[3] for x in here for r in x.relocations if r[2] == 1}
        return (
            f"sections       {self.count}, {len(here)} present\n"
            f"settings       {pinned} pinned, {len(here) - pinned} foldable\n"
            f"bytes          {sum(len(x.data) for x in here)}\n"
            f"relocations    {sum(len(x.relocations) for x in here)}\n"
            f"outside names  {len(names)}\n"
            f"roots          {len(self.roots)}\n"
        )

    def place(self, s):
        """A number, or "swept", "absent" or a refusal."""
        if s >= self.count:
            return f"refused 8 {s} 3"
        if s not in self.below:
            return "absent"
        while self.went.get(s, s) != s:
            s = self.went[s]
            if s == "swept":
                break
        return s

    def map(self):
        out = ""
        for s in sorted(self.below):
            p = self.place(s)
            out += row("M", s, 3, 0) if p == "swept" else row("M", s, 1 if p == s else 2, p)
        return out

    # the calls; each answers what the line says behind the call

    def no_section(self, s):
        return self.closed and "refused 7 0 3" or s not in self.sections and f"refused 8 {s} 3"

    def bind(self, e, s):
        if self.no_section(s):
            return self.no_section(s)
        if e in self.bound:
            return f"refused 9 {e} 3"
        if len(self.bound) == 64:
            return "refused 10 0 3"
        self.bound.add(e)
        for x in self.sections.values():
            x.relocations = [(o, k, 0, s, d) if (sort, t) == (1, e) else (o, k, sort, t, d) for o, k, sort, t, d in x.relocations]
        return "ok"

    def pin(self, s):
        if self.no_section(s):
            return self.no_section(s)
        self.sections[s].pinned = 1
        return "ok"

    def root(self, s):
        if self.no_section(s):
            return self.no_section(s)
        if self.added == 64 or len(self.roots) == 4096:
            return "refused 10 0 3"
        self.roots.append(s)
        self.added += 1
        return "ok"

    def sweep(self):
        reached, ahead = set(), list(self.roots)
        while ahead:
            s = ahead.pop()
            if s not in reached:
                reached.add(s)
                ahead += [t for o, k, sort, t, d in self.sections[s].relocations if sort == 0]
        dropped = set(self.sections) - reached
        for s in dropped:
            del self.sections[s]
            self.went[s] = "swept"
        self.closed = True
        return f"{len(self.sections)} {len(dropped)}"

    def deeper(self, told):
        """What is told of each section one step deeper, with told as what is told of the targets."""
        def one(s, x):
            links = [(o, k, d, (sort, t if sort else told[t])) for o, k, sort, t, d in x.relocations]
            return repr((s if x.pinned else "foldable", x.flags, x.alignment, x.data, links))

        number = {}
        return {s: number.setdefault(one(s, x), len(number)) for s, x in self.sections.items()}

    def groups(self, told):
        found = {}
        for s, x in sorted(self.sections.items()):
            if not x.pinned:
                found.setdefault(told[s], []).append(s)
        return sorted(found.values())

    def fold(self):
        told, rounds = {s: s + 1 if x.pinned else 0 for s, x in self.sections.items()}, 0
        while self.groups(told) != self.groups(self.deeper(told)):
            told, rounds = self.deeper(told), rounds + 1
        lowest = {s: group[0] for group in self.groups(told) for s in group}
        merged = [s for s in lowest if lowest[s] != s]
        for s in merged:
            del self.sections[s]
            self.went[s] = lowest[s]
        for x in self.sections.values():
            x.relocations = [(o, k, sort, t if sort else lowest.get(t, t), d) for o, k, sort, t, d in x.relocations]
        self.roots = [lowest.get(t, t) for t in self.roots]
        self.closed = True
        return f"{len(self.sections)} {len(merged)} {rounds}"

    def line(self, line):
        """A line of run, and what it has to print."""
        verb, *numbers = line.split()
        return f"{line} {getattr(self, verb)(*map(int, numbers))}\n"

    def folded(self, calls, names=lambda s: None, mapped=True):
        """What fold prints where the table and the map, if it is wanted, go to standard output too, and whether it was done."""
        out = self.description()
        for call in calls:
            said = self.line(call)
            name = names(int(call.split()[-1]))
            out += said if name is None else f"{said[:-1]}   ({name})\n"
            if "refused" in said:
                return out + row("F", *said.split()[-3:]), False
        present, dropped = self.sweep().split()
        out += f"swept          {dropped} sections dropped, {present} present\n"
        present, merged, rounds = self.fold().split()
        out += f"folded         {merged} sections merged, {present} present, {rounds} rounds\n"
        out += self.table() + f"table          {len(self.table())} bytes\n"
        if mapped:
            out += self.map() + f"map            {len(self.map())} bytes\n"
        return out, True


def call(target, offset=0, kind=4, displacement=-4):
    return (offset, kind, 0, target, displacement)


def outside(name, offset=0, kind=4, displacement=-4):
    return (offset, kind, 1, name, displacement)


def sample():
    """Two chains alike but for the byte at their ends, a second head of the first, a pair that calls a pair, and some that no root reaches."""
    chain = lambda t: Section(range(20), [call(t)], alignment=16)
    sections = {
        1: chain(2),
        2: chain(3),
        3: Section([195]),
        4: chain(5),
        5: chain(6),
        6: Section([204]),
        7: Section([232, 0], [call(9, 1)]),
        8: Section([232, 0], [call(10, 1)]),
        9: Section([195]),
        10: Section([195]),
        11: Section([7], [outside(70)]),
        12: Section([8], [outside(71, displacement=-(2**31))], flags=3, pinned=1),
        14: Section([], flags=2**32 - 1),
        15: chain(2),
    }
    return Pile(16, sections, [1, 4, 7, 15, 1])


# what the names in an object come to


def escaped(name):
    short = {9: r"\t", 10: r"\n", 13: r"\r", 34: r"\"", 39: r"\'", 92: r"\\"}
    shown = "".join(short.get(x) or (chr(x) if 32 <= x < 127 else f"\\x{x:02x}") for x in name[:200])
    return shown + (".." if len(name) > 200 else "")


NAMES = [
    b"",
    b".text.weigh",
    b".text.scale",
    b".text.grams",
    b"\x1b[31m.red\xff\"'\\\n",
    None,
    b"",
    b".text." + b"long" * 60,
    b".symtab",
    b".llvm_addrsig",
    b".shstrtab",
]


def an_object():
    """Sections 1 to 7 are present and foldable, and all alike but section 2. The name of 5 would start past the table of names; 6 has none."""
    out = bytearray(64)

    def put(data):
        at = len(out)
        out.extend(data)
        return at

    texts = [(put(bytes([195] * (2 if s == 2 else 1))), 2 if s == 2 else 1) for s in range(1, 8)]
    symbols = b"".join(struct.pack("<IBBHQQ", 0, 0, 0, s, 0, 0) for s in (0, 0, 1))
    table = put(symbols)
    strings, starts = b"\0", []
    for name in NAMES:
        starts.append(0 if not name else len(strings))
        strings += name + b"\0" if name else b""
    starts[5] = len(strings)
    names = put(strings)
    out.extend(bytes(-len(out) % 8))
    header = lambda s, kind, flags, at, size, link=0, entry=0: struct.pack(
        "<IIQQQQIIQQ", starts[s], kind, flags, 0, at, size, link, 0, 1, entry
    )
    headers = header(0, 0, 0, 0, 0)
    for s, (at, size) in enumerate(texts, 1):
        headers += header(s, 1, 6, at, size)
    headers += header(8, 2, 0, table, len(symbols), entry=24)
    headers += header(9, 0x6FFF4C03, 0, 0, 0, link=8)
    headers += header(10, 3, 0, names, len(strings))
    struct.pack_into("<7s", out, 0, b"\x7fELF\x02\x01\x01")
    struct.pack_into("<HHIQQQIHHHHHH", out, 16, 1, 62, 1, 0, 0, len(out), 0, 64, 0, 0, 64, len(NAMES), 10)
    graph = Pile(len(NAMES), {s: Section([195] * (2 if s == 2 else 1)) for s in range(1, 8)}, [])
    return bytes(out + headers), graph


def name_of(s):
    return escaped(NAMES[s]) if s < len(NAMES) and NAMES[s] else None


def named(s):
    return f"{s} ({name_of(s)})" if name_of(s) else str(s)


def elf(sections):
    """An object of some sections, each a name, a type, flags, a link, an info, an alignment, an entry size and bytes, or the length of bytes that are all 0."""
    out, headers, strings = bytearray(64), bytes(64), b"\0"
    sections = [*sections, (".shstrtab", 3, 0, 0, 0, 1, 0, None)]
    starts = []
    for name, *_ in sections:
        starts.append(len(strings))
        strings += name.encode() + b"\0"
    for start, (_, kind, flags, link, info, alignment, entry, data) in zip(starts, sections):
        data = strings if data is None else data
        size = data if isinstance(data, int) else len(data)
        headers += struct.pack("<IIQQQQIIQQ", start, kind, flags, 0, len(out), size, link, info, alignment, entry)
        out += b"" if isinstance(data, int) else data
    struct.pack_into("<7s", out, 0, b"\x7fELF\x02\x01\x01")
    count = len(headers) // 64
    struct.pack_into("<HHIQQQIHHHHHH", out, 16, 1, 62, 1, 0, 0, len(out), 0, 64, 0, 0, 64, count, count - 1)
    return bytes(out + headers)


def linked_object():
    """Section 1 calls an outside name as 2 calls 3, so that a bind makes 1 and 2 alike. A list says whose address counts."""
    # outside, then the starts of sections 3, 2, 1, 7 and 5, and a place in 5
    symbols = [(0, 0), (0, 0), (3, 0), (2, 0), (1, 0), (7, 0), (5, 0), (5, 12)]
    symbols = b"".join(struct.pack("<IBBHQQ", 0, 0, 0, s, value, 0) for s, value in symbols)
    rela = lambda *entries: b"".join(struct.pack("<QQq", at, y << 32 | kind, addend) for at, kind, y, addend in entries)
    data = elf([
        (".text.gross", 1, 0x206, 0, 0, 0, 0, bytes([232, 0, 0, 0, 0])),
        (".text.net", 1, 6, 0, 0, 1, 0, bytes([232, 0, 0, 0, 0])),
        (".text.tare", 1, 6, 0, 0, 16, 0, bytes([195])),
        (".data.scales", 1, 3, 0, 0, 8, 0, bytes(range(40, 65))),
        (".bss", 8, 3, 0, 0, 32, 0, 20),
        (".init_array", 14, 3, 0, 0, 8, 0, bytes(16)),
        (".text.seal", 1, 6, 0, 0, 1, 0, bytes([195])),
        (".text.lost\t", 1, 6, 0, 0, 1, 0, bytes([195])),
        (".rela.text.gross", 4, 0, 13, 1, 8, 24, rela((1, 4, 1, -4))),
        (".rela.text.net", 4, 0, 13, 2, 8, 24, rela((1, 4, 2, -4))),
        (".rela.data.scales", 4, 0, 13, 4, 8, 24, rela((8, 1, 7, 2**31 - 1), (16, 1, 5, -(2**31)))),
        (".rela.init_array", 4, 0, 13, 6, 8, 24, rela((0, 1, 4, 0), (8, 1, 3, 0))),
        (".symtab", 2, 0, 0, 0, 8, 24, symbols),
        (".llvm_addrsig", 0x6FFF4C03, 0x80000000, 13, 0, 1, 0, bytes([5, 0x81, 0])),
    ])
    count, sections, roots = object_reference.read(data)
    made = {s: Section(x, links, flags, alignment, pinned) for s, (flags, alignment, x, pinned, links) in sections.items()}
    graph = Pile(count, made, roots)
    assert graph.table() == object_reference.text((count, sections, roots))

    def names(s):
        name = object_reference.section_name(data, s)
        return escaped(name) if name else None

    return data, graph, names


def merged(places):
    """What merged prints of a map."""
    out, kept = "", [s for s, p in places.items() if p == s]
    for k in kept:
        folded = [s for s, p in places.items() if p == k and s != k]
        if folded:
            out += f"merged         {named(k)} <- {', '.join(map(named, folded))}\n"
    swept = [s for s, p in places.items() if p == "swept"]
    if swept:
        out += f"swept          {', '.join(map(named, swept))}\n"
    gone = len(places) - len(kept) - len(swept)
    return out + f"sections       {len(kept)} kept, {gone} merged, {len(swept)} swept\n"


def write(program, **files):
    for name, data in files.items():
        path = os.path.join("crates", program, *name.split("__"))
        os.makedirs(os.path.dirname(path), exist_ok=True)
        with open(path, "wb") as out:
            out.write(data if isinstance(data, bytes) else data.encode())


def words(text):
    return "".join(word + "\n" for word in text.split())


def fold_case():
    calls = ["bind 70 11", "pin 9", "pin 9", "root 8", "root 11", "bind 1000 3"]
    text = sample().table()
    printed, done = sample().folded(calls)
    assert done
    write("fold_case", data__sample=text, stdout=printed, args=words(
        "fold sample --bind 70=11 --pin 9 --pin 9 --root 8 -o /dev/stdout --root 11 -m /dev/stdout --bind 1000=3"
    ))


def run_case():
    pile = sample()
    lines = ["place 1", "pin 16", "pin 13", "pin 10", "root 12", "root 0", "bind 71 2", "bind 71 3", "bind 72 65535"]
    lines += [f"bind {e} 14" for e in range(100, 163)] + ["bind 163 14"]
    lines += ["fold", "place 2", "place 5", "place 9", "place 10", "sweep", "bind 5 1", "pin 1", "root 1"]
    lines += ["fold", "sweep"] + [f"place {s}" for s in (0, 3, 8, 9, 14, 15, 16, 65535)]
    text = pile.table()
    printed = "".join(pile.line(x) for x in lines) + pile.table() + pile.map()
    write("run_case", data__sample=text, stdin="".join(x + "\n" for x in lines), stdout=printed, args=words(
        "run sample -o /dev/stdout -m /dev/stdout"
    ))


def merged_case():
    data, _ = an_object()
    # no fold of that object: it tells of more than one group, and of sections that the object does not have
    places = {1: 1, 2: 2, 3: 1, 4: "swept", 5: 1, 6: 2, 10: 10, 11: 11, 12: "swept", 1023: 11}
    text = "".join(row("M", s, 3, 0) if p == "swept" else row("M", s, 1 if p == s else 2, p) for s, p in places.items())
    write("merged_case", data__map=text, data__object=data, stdout=merged(places), args=words("merged map -n object"))


def refused_case():
    data, graph = an_object()
    calls = ["pin 1", "root 7", "pin 4", "bind 3 5", "root 6", "pin 9", "pin 2"]
    printed, done = graph.folded(calls, name_of)
    assert not done
    write("refused_case", data__object=data, stdout=printed, status="1\n", args=words(
        "fold object --pin 1 --root 7 --pin 4 --bind 3=5 --root 6 --pin 9 --pin 2 -o left -m map"
    ))


def object_case():
    data, graph, names = linked_object()
    calls = ["root 4", "bind 1 3", "pin 8"]
    printed, done = graph.folded(calls, names, mapped=False)
    assert done and graph.went == {2: 1, 8: "swept"}
    write("object_case", data__object=data, stdout=printed, args=words(
        "fold object --root 4 --bind 1=3 --pin 8 -o /dev/stdout"
    ))


def check_case():
    data, graph, _ = linked_object()
    printed = f"an ELF64 object\n{graph.description()}its table would have {len(graph.table())} bytes\n"
    write("check_case", data__object=data, stdout=printed, args=words("check object"))


def table_case():
    data, graph, _ = linked_object()
    write("table_case", data__object=data, stdout=graph.table() + graph.description(), args=words(
        "table object -o /dev/stdout"
    ))


def run_refused_case():
    """The third line is no text. What comes before it is done and printed, and no table or map is written."""
    data, graph, _ = linked_object()
    lines = [b"bind 1 3", b"place 9", b"pin \xff1", b"fold"]
    printed = "".join(graph.line(x.decode()) for x in lines[:2])
    write("run_refused_case", data__object=data, stdin=b"".join(x + b"\n" for x in lines), stdout=printed, status="1\n", args=words(
        "run object -o /dev/stdout -m /dev/stdout"
    ))


fold_case()
run_case()
merged_case()
refused_case()
object_case()
check_case()
table_case()
run_refused_case()
