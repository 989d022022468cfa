"""What the benchmark reads: sections as plain values, written as section tables (docs/TABLE.md) and as ELF64 objects (docs/OBJECT.md)."""
import functools
import hashlib
import os
import struct
from collections import namedtuple

# A section: its bytes, and the sections that it calls. Call j is at 5 * j: a call instruction, whose last four bytes are relocated.
Section = namedtuple("Section", "bytes calls")

CALL = b"\xe8\x00\x00\x00\x00"
PLT32 = 4


def section(content, calls=()):
    return Section(CALL * len(calls) + content, tuple(calls))


def noise(seed, size):
    """Bytes that depend on the seed from the first on."""
    return hashlib.shake_128(str(seed).encode()).digest(size)


def caller(count):
    """A section that calls all others of `count`."""
    return section(b"\xc3", range(1, count))


# Sections of which only the last tells itself apart.


def chain(count):
    """Each calls the next; all are alike but the last, so that one more is told apart in each round."""
    links = [section(b"\x90" * 11, [s + 1]) for s in range(count - 1)]
    return links + [section(b"\x90" * 15 + b"\xc3")]


def alike_but_last_byte(count, size):
    """A caller, and `count` sections that differ in their last byte alone."""
    body = noise("body", size - 1)
    return [caller(count + 1)] + [section(body + bytes([s % 256])) for s in range(count)]


def alike(count, calls):
    """Each calls the `calls` sections after it, all alike."""
    return [section(b"\xc3", [(s + 1 + j) % count for j in range(calls)]) for s in range(count)]


def apart(count, size):
    """A caller, and sections that differ from the first byte on."""
    return [caller(count + 1)] + [section(noise(s, size)) for s in range(count)]


def one_pattern(count, size):
    """Each calls the next, the last one the first: nothing is asked of it but to be read and written."""
    return [section(bytes(k % 256 for k in range(size - 5)), [(s + 1) % count]) for s in range(count)]


def callers_and_leaves(callers, each, leaves):
    """A tree of calls, `each` from every caller, and leaves of 16 to 79 bytes, some of them alike."""
    first = 1 + callers
    root = section(b"\xc3", [*range(1, first), *(first + k for k in range(each - callers))])
    middle = [section(noise(c, 16), [first + (each * c + k) % leaves for k in range(each)]) for c in range(callers)]
    low = [section(noise(leaf % (leaves * 2 // 3), 16 + leaf % (leaves * 2 // 3) % 64)) for leaf in range(leaves)]
    return [root, *middle, *low]


def twins(count, size):
    """A caller, and sections of which each has one other with the same bytes."""
    return [caller(count + 1)] + [section(noise(s // 2, size)) for s in range(count)]


def calling_twins(count, calls):
    """Sections of which each has one other with the same bytes and the same calls, many of them."""
    return [section(noise(s // 2, 16), [(s // 2 * 2 + 1 + j) % count for j in range(calls)]) for s in range(count)]


# As a section table: every section is foldable, and the first is the root.


def row(letter, *numbers):
    return letter + "".join(str(z).rjust(12) for z in numbers) + "\n"


@functools.lru_cache(maxsize=65536)
def byte_row(cells):
    return "B" + "".join(str(x).rjust(4) for x in cells) + "\n"


def write_table(path, sections):
    with open(path, "w") as out:
        out.write(row("H", len(sections), 1))
        for s, (content, calls) in enumerate(sections):
            out.write(row("S", s, 6, 16, len(content), len(calls), 0))
            out.writelines(byte_row(content[at : at + 16]) for at in range(0, len(content), 16))
            out.writelines(row("R", 5 * j + 1, PLT32, 0, target, -4) for j, target in enumerate(calls))
        out.write(row("T", 0) + row("E", len(sections)))
    return os.path.getsize(path)


# As an object: code sections with a global function symbol at the start of each; the first is the entry, is kept, and is in the
# address-significance list, so that all others are foldable.

HEADER = struct.Struct("<IIQQQQIIQQ")
SYMBOL = struct.Struct("<IBBHQQ")
ENTRY = struct.Struct("<QQq")


class Names:
    """A string table."""

    def __init__(self):
        self.bytes = bytearray(1)

    def add(self, name):
        at = len(self.bytes)
        self.bytes += name.encode() + b"\0"
        return at


class Writer:
    """An object as it is written: contents first, headers at the end."""

    def __init__(self, out):
        self.out = out
        self.at = 64
        self.names = Names()
        self.headers = [bytes(64)]
        out.write(bytes(64))

    def add(self, name, kind, flags, content, link=0, info=0, align=1, entry=0):
        pad = -self.at % max(align, 1)
        self.out.write(bytes(pad) + content)
        self.headers.append(HEADER.pack(self.names.add(name), kind, flags, 0, self.at + pad, len(content), link, info, align, entry))
        self.at += pad + len(content)

    def finish(self):
        self.add(".shstrtab", 3, 0, bytes(self.names.bytes + b".shstrtab\0"))
        pad = -self.at % 8
        self.out.write(bytes(pad) + b"".join(self.headers))
        count = len(self.headers)
        if count > 1024:
            raise ValueError(f"{count} sections are too many")
        start = b"\x7fELF\x02\x01\x01".ljust(16, b"\0")
        self.out.seek(0)
        self.out.write(start + struct.pack("<HHIQQQIHHHHHH", 1, 62, 1, 0, 0, self.at + pad, 0, 64, 0, 0, 64, count, count - 1))


def write_object(path, sections):
    relocating = [s for s, x in enumerate(sections) if x.calls]
    symbols = 1 + len(sections) + len(relocating)
    strings = Names()
    names = [strings.add("_start")] + [strings.add(f"f{s}") for s in range(1, len(sections))]
    with open(path, "wb") as out:
        writer = Writer(out)
        for s, (content, _) in enumerate(sections):
            kept = 0 if s else 0x200000
            writer.add(f".text.f{s}", 1, 6 | kept, content, align=16)
        for s in relocating:
            entries = b"".join(ENTRY.pack(5 * j + 1, target + 1 << 32 | PLT32, -4) for j, target in enumerate(sections[s].calls))
            writer.add(f".rela.text.f{s}", 4, 0x40, entries, symbols, s + 1, 8, 24)
        table = SYMBOL.pack(0, 0, 0, 0, 0, 0) + b"".join(SYMBOL.pack(names[s], 0x12, 0, s + 1, 0, len(x.bytes)) for s, x in enumerate(sections))
        writer.add(".symtab", 2, 0, table, symbols + 1, 1, 8, 24)
        writer.add(".strtab", 3, 0, bytes(strings.bytes))
        writer.add(".llvm_addrsig", 0x6FFF4C03, 0x80000000, b"\x01", symbols)
        writer.finish()
    return os.path.getsize(path)
