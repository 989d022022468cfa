#!/usr/bin/env python3
"""Writes the ULEB128 numbers that crates/number_cases reads, and what is expected of each.

The expectations come from the few lines below, written from docs/OBJECT.md. Run from the root of the repository: tests/number_cases.py
"""


def told(data):
    """The value and the length of the number that the bytes begin with, or None where it is refused."""
    for length, last in enumerate(data[:5], 1):
        if last < 128:
            value = sum((x & 127) * 128**i for i, x in enumerate(data[:length]))
            return (value, length) if value < 2**32 else None
    return None


# the worked examples, written by hand
WORKED = {
    "E5 8E 26": (624485, 3),
    "FF FF FF FF 0F": (4294967295, 5),
    "80 80 80 80 10": None,
}
OTHERS = """
00
7F
80 00
80 01
80 01 05
FF 7F
80 80 01
FF FF FF 7F
80 80 80 80 00
80 80 80 80 01
80 80 80 80 0F
FF FF FF FF 10
FF FF FF FF 1F
FF FF FF FF 7F
FF FF FF FF 8F
80 80 80 80 80 00
FF FF FF FF FF 0F
80
FF FF FF FF
""".split("\n")[1:-1] + [""]


def main():
    lines = []
    for line in [*WORKED, *OTHERS]:
        answer = told(bytes.fromhex(line))
        assert answer == WORKED.get(line, answer), line
        if answer:
            lines.append("{}: {}, length {}\n".format(line, *answer))
        else:
            lines.append(f"{line}: refused with 5 at 7, layer 1: a field has a value that is not allowed\n")
    open("crates/number_cases/data/cases", "w").write("".join(line + "\n" for line in [*WORKED, *OTHERS]))
    open("crates/number_cases/stdout", "w").write("".join(lines))


main()
