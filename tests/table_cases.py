#!/usr/bin/env python3
"""Writes the cases that crates/table_cases runs, and what is expected of each.

The expectations come from the small reader below, which was written from docs/TABLE.md and shares no
code with the library. Run from the root of the repository: tests/table_cases.py
"""
import re

FORM = re.compile(rb" *(0|-?[1-9][0-9]*)$")
POWERS = [1 << k for k in range(17)]
LOW, HIGH = -(2**31), 2**31 - 1


def numbers(row, width, count):
    """The numbers of a row in its columns, or None."""
    body = row[1:-1]
    if row[-1:] != b"\n" or len(body) % width or (count is not None and len(body) != width * count):
        return None
    cells = [body[i : i + width] for i in range(0, len(body), width)]
    if not all(FORM.match(c) for c in cells):
        return None
    return [int(c) for c in cells]


def verdict(text):
    """None, or (number, place) of the refusal."""
    rows, at, places = re.findall(rb"[^\n]*\n|[^\n]+$", text), 0, []
    for r in rows:
        places.append(at)
        at += len(r)
    n = roots = size = due_bytes = due_relocations = -1
    seen, low, state, names = set(), 0, "start", []
    for r, p in zip(rows, places):
        bad = (6, p)
        kind, settled = r[:1], due_bytes <= 0 and due_relocations <= 0
        if state == "start":
            v = numbers(r, 12, 2) if kind == b"H" else None
            if not v or not (0 <= v[0] <= 1024 and 0 <= v[1] <= 4096):
                return bad
            n, roots, state = v[0], v[1], "sections"
            due_bytes = due_relocations = 0
        elif state == "done":
            return bad
        elif kind == b"S" and settled and state == "sections":
            v = numbers(r, 12, 6)
            if not v or not (low <= v[0] < n and 0 <= v[1] < 2**32 and v[2] in POWERS):
                return bad
            if not (0 <= v[3] < 65536 and 0 <= v[4] < 65536 and v[5] in (0, 1)):
                return bad
            seen.add(v[0])
            low, size, due_bytes, due_relocations = v[0] + 1, v[3], v[3], v[4]
        elif kind == b"B" and due_bytes > 0:
            v = numbers(r, 4, min(16, due_bytes))
            if not v or not all(0 <= x < 256 for x in v):
                return bad
            due_bytes -= len(v)
        elif kind == b"R" and due_bytes == 0 and due_relocations > 0:
            v = numbers(r, 12, 5)
            if not v or not (0 <= v[0] < size and 0 <= v[1] < 2**32 and v[2] in (0, 1) and 0 <= v[3] < 65536):
                return bad
            if not LOW <= v[4] <= HIGH + (65535 if v[2] == 0 else 0):
                return bad
            due_relocations -= 1
            if v[2] == 0:
                names.append((v[3], p))
        elif kind == b"T" and settled and roots > 0:
            v = numbers(r, 12, 1)
            if not v or not 0 <= v[0] < 65536:
                return bad
            roots, state = roots - 1, "roots"
            names.append((v[0], p))
        elif kind == b"E" and settled and roots == 0:
            v = numbers(r, 12, 1)
            if not v or v[0] != len(seen):
                return bad
            state = "done"
        else:
            return bad
    if state != "done":
        return (6, len(text))
    for s, p in names:
        if s not in seen:
            return (4, p)
    return None


def row(letter, *zs, w=12):
    return letter + "".join(str(z).rjust(w) for z in zs) + "\n"


def section(s, data=(), relocations=(), flags=6, alignment=1, pinned=0):
    out = row("S", s, flags, alignment, len(data), len(relocations), pinned)
    for i in range(0, len(data), 16):
        out += row("B", *data[i : i + 16], w=4)
    return out + "".join(row("R", *r) for r in relocations)


def table(n, sections, roots=(), present=None):
    body = "".join(sections) + "".join(row("T", t) for t in roots)
    return row("H", n, len(roots)) + body + row("E", len(sections) if present is None else present)


CALL = (0, 4, 0, 1, 0)
ONE = section(1, [195], [CALL])
GOOD = table(3, [ONE, section(2, [1, 2, 3])], [1, 1])


def change(old, new, text=GOOD):
    assert old in text, old
    return text.replace(old, new, 1)


CASES = {
    "the empty graph": table(0, []),
    "two sections": GOOD,
    "absent sections only": table(5, []),
    "all of 1,024 sections": table(1024, [section(s) for s in range(1024)], [0, 1023]),
    "4,096 roots": table(1, [section(0)], [0] * 4096),
    "65,535 bytes": table(1, [section(0, [i % 256 for i in range(65535)])]),
    "one row of sixteen bytes": table(1, [section(0, range(16))]),
    "seventeen bytes": table(1, [section(0, range(17))]),
    "no bytes, no relocations": table(1, [section(0)]),
    "alignment 65,536": table(1, [section(0, alignment=65536)]),
    "flags of 32 bits": table(1, [section(0, flags=2**32 - 1)]),
    "pinned": table(1, [section(0, pinned=1)]),
    "lowest displacements": table(1, [section(0, [1], [(0, 0, 0, 0, LOW), (0, 0, 1, 0, LOW)])]),
    "highest displacements": table(1, [section(0, [1], [(0, 0, 0, 0, HIGH + 65535), (0, 0, 1, 65535, HIGH)])]),
    "a later section is named": table(2, [section(0, [1], [CALL]), section(1)]),
    # texts that break one rule
    "no text": "",
    "no header": GOOD[26:],
    "a second header": GOOD[:26] + GOOD,
    "a letter that is none": change("S ", "X "),
    "a small letter": change("S ", "s "),
    "no letter": change("S ", "  "),
    "1,025 sections": change("H           3", "H        1025"),
    "4,097 roots": change("           2\nS", "        4097\nS"),
    "a leading zero": change("H           3", "H          03"),
    "a minus before 0": change("           0\nT", "          -0\nT") if "           0\nT" in GOOD else change("           0\nB", "          -0\nB"),
    "a plus": change("H           3", "H          +3"),
    "a blank after the number": change("H           3", "H          3 "),
    "a tab": change("H           3", "H\t          3"),
    "no number": change("H           3", "H            "),
    "a minus alone": change("H           3", "H           -"),
    "a minus not directly before its digits": change(row("R", *CALL), row("R", 0, 4, 0, 1, "-          4")),
    "a letter in a column": change("H           3", "H           x"),
    "a column too few": change("           1           0\nB", "           1\nB"),
    "a column too many": change("           2\nS", "           2           0\nS"),
    "a blank at the line end": change("           2\nS", "           2 \nS"),
    "a carriage return": change("           2\nS", "           2\r\nS"),
    "a negative count": change("H           3", "H          -3"),
    "a negative number of roots": row("H", 1, -1) + section(0) + row("E", 1),
    "a number not below the count": change("S           2", "S           3"),
    "sections out of order": change("S           2", "S           0"),
    "a section twice": change("S           2", "S           1"),
    "a negative section": table(1, [section(-1)]),
    "flags of 33 bits": change("           6", "  4294967296"),
    "negative flags": table(1, [section(0, flags=-1)]),
    "an alignment of 0": table(1, [section(0, alignment=0)]),
    "an alignment of 3": table(1, [section(0, alignment=3)]),
    "a negative alignment": table(1, [section(0, alignment=-1)]),
    "an alignment of 131,072": table(1, [section(0, alignment=131072)]),
    "65,536 bytes": table(1, [row("S", 0, 6, 1, 65536, 0, 0)]),
    "65,536 relocations": table(1, [row("S", 0, 6, 1, 1, 65536, 0) + "B   1\n"]),
    "a negative number of bytes": table(1, [row("S", 0, 6, 1, -1, 0, 0)]),
    "a negative number of relocations": table(1, [row("S", 0, 6, 1, 0, -1, 0)]),
    "a setting of 2": table(1, [section(0, pinned=2)]),
    "a negative setting": table(1, [section(0, pinned=-1)]),
    "bytes missing": change("B   1   2   3\n", ""),
    "bytes too few": change("B   1   2   3\n", "B   1   2\n"),
    "bytes too many": change("B   1   2   3\n", "B   1   2   3   4\n"),
    "a row of fifteen bytes": table(1, [row("S", 0, 6, 1, 16, 0, 0) + row("B", *range(15), w=4) + row("B", 1, w=4)]),
    "a row of seventeen bytes": table(1, [row("S", 0, 6, 1, 17, 0, 0) + row("B", *range(17), w=4)]),
    "a byte of 256": change("B   1   2", "B   1 256"),
    "a negative byte": change("B   1   2", "B   1  -2"),
    "bytes in three columns": change("B   1   2   3\n", row("B", 1, 2, 3, w=3)),
    "bytes in twelve columns": change("B   1   2   3\n", row("B", 1, 2, 3)),
    "bytes where none are due": change("T           1\n", "B   1\nT           1\n"),
    "relocations before bytes": table(1, [row("S", 0, 6, 1, 1, 1, 0) + row("R", 0, 4, 1, 1, 0) + "B   1\n"]),
    "a relocation missing": change(row("R", *CALL), ""),
    "a relocation too many": change(row("R", *CALL), row("R", *CALL) * 2),
    "an offset at the end": change("R           0", "R           1"),
    "an offset without bytes": table(1, [row("S", 0, 6, 1, 0, 1, 0) + row("R", 0, 4, 1, 1, 0)]),
    "a negative offset": table(1, [section(0, [1], [(-1, 0, 1, 0, 0)])]),
    "a kind of 33 bits": table(1, [section(0, [1], [(0, 2**32, 1, 0, 0)])]),
    "a negative type": table(1, [section(0, [1], [(0, -1, 1, 0, 0)])]),
    "a target of another sort": table(1, [section(0, [1], [(0, 0, 2, 0, 0)])]),
    "a target of a negative sort": table(1, [section(0, [1], [(0, 0, -1, 0, 0)])]),
    "an outside name of 65,536": table(1, [section(0, [1], [(0, 0, 1, 65536, 0)])]),
    "a negative outside name": table(1, [section(0, [1], [(0, 0, 1, -1, 0)])]),
    "a target of 65,536": table(1, [section(0, [1], [(0, 0, 0, 65536, 0)])]),
    "a negative target": table(1, [section(0, [1], [(0, 0, 0, -1, 0)])]),
    "a displacement too low": table(1, [section(0, [1], [(0, 0, 0, 0, LOW - 1)])]),
    "a displacement too low, outside": table(1, [section(0, [1], [(0, 0, 1, 0, LOW - 1)])]),
    "a displacement too high, at a section": table(1, [section(0, [1], [(0, 0, 0, 0, HIGH + 65536)])]),
    "a displacement too high, outside": table(1, [section(0, [1], [(0, 0, 1, 0, HIGH + 1)])]),
    "a root missing": change("T           1\n", ""),
    "a root too many": change("T           1\n", "T           1\n" * 2),
    "a root of 65,536": change("T           1", "T       65536"),
    "a negative root": table(1, [section(0)], [-1]),
    "a section after a root": table(2, [section(0), row("T", 0), section(1)], [0], 2).replace("           1\nS", "           2\nS", 1),
    "the wrong count at the end": change("E           2", "E           3"),
    "no end": GOOD[:-14],
    "an end too early": change("T           1\n", "E           2\n"),
    "a row after the end": GOOD + row("E", 2),
    "a byte after the end": GOOD + "x",
    "a line end after the end": GOOD + "\n",
    "cut in the first row": GOOD[:10],
    "cut in a later row": GOOD[:60],
    "cut before the last line end": GOOD[:-1],
    "cut between two rows": GOOD[:100],
    "a relocation to an absent section": change("R           0           4           0           1", "R           0           4           0           0"),
    "a relocation past the count": change("R           0           4           0           1", "R           0           4           0       65535"),
    "an absent root": change("T           1", "T           0"),
    "a root past the count": change("T           1", "T       65535"),
    "two that dangle": change("T           1", "T           0", change("R           0           4           0           1", "R           0           4           0           0")),
    "one that dangles before a bad row": change("E           2", "E           3", change("T           1", "T           0")),
}


def main():
    cases, lines, bad = b"", [], 0
    for name, text in CASES.items():
        data = text.encode()
        cases += b"\x01" + name.encode() + b"\n" + data
        v = verdict(data)
        if v is None:
            lines.append(f"{name}: accepted, {len(data)} bytes")
        else:
            bad += 1
            lines.append(f"{name}: {v[0]} at {v[1]}, layer 2")
    lines.append(f"{len(CASES) - bad} accepted, {bad} refused")
    open("crates/table_cases/data/cases", "wb").write(cases)
    open("crates/table_cases/stdout", "w").write("\n".join(lines) + "\n")


main()
