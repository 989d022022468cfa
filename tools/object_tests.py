#!/usr/bin/env python3
# Makes the data of crates/object_tests and the output that is expected of it, from an independent reading of the rules
# (object_reference.py, written after docs/OBJECT.md) and, for the objects that compilers made, from readelf (readelf_table.py).
import os, struct, sys
here = os.path.dirname(os.path.abspath(__file__))
sys.path.insert(0, here)
import readelf_table
from object_reference import faults, read, section_name, text, Bad
crate = os.path.join(here, '..', 'crates', 'object_tests')
data = os.path.join(crate, 'data')

# a small object with a section of every kind that the rules speak of; what the rules say nothing of is 0
def small():
    out = bytearray(64)
    def put(x):
        at = len(out); out.extend(x); return at
    t1 = put(bytes(range(8)))
    t2 = put(b'\xc3' * 8)
    arr = put(bytes(8))
    sym = put(b''.join(struct.pack('<IBBHQQ', 0, 0, 0, x, v, 0) for x, v in
              [(0, 0), (1, 0), (1, 8), (2, 4), (0xfff1, 99), (0xfff2, 8), (7, 0), (3, 1000), (0, 0)]))
    rel = put(b''.join(struct.pack('<QQq', o, y << 32 | k, a) for o, y, k, a in
              [(0, 3, 2, -4), (7, 8, 4, 2**31 - 1), (3, 2, 1, -2**31)]))
    rel2 = put(struct.pack('<QQq', 0, 1 << 32 | 1, 0))
    sig = put(bytes([1, 0x82, 0x00, 3]))
    strings = [b'', b'.text', b'.bss', b'.symtab', b'.rela.text', b'.llvm_addrsig', b'.init_array', b'.text.b', b'.rela.text.b', b'.shstrtab']
    texts = b'\0'.join(strings[:2] + [x for x in strings[2:] if x != b'.text.b']) + b'\0'
    names = put(texts)
    while len(out) % 8: out.append(0)
    off = len(out)
    numbers = iter(strings)
    # a name may be the end of another
    H = lambda t, f, o, z, l=0, i=0, a=1, e=0: struct.pack('<IIQQQQIIQQ', texts.index(next(numbers) + b'\0'), t, f, 0, o, z, l, i, a, e)
    out += H(0, 0, 0, 0, a=0)
    out += H(1, 6, t1, 8, a=16)
    out += H(8, 3, 1 << 40, 32, a=65536)
    out += H(2, 0, sym, 9 * 24, e=24)
    out += H(4, 0x40, rel, 3 * 24, 3, 1, 8, 24)
    out += H(0x6fff4c03, 0, sig, 4, 3)
    out += H(14, 3, arr, 8, a=8)
    out += H(1, 0x206, t2, 8, a=0)
    out += H(4, 0x40, rel2, 24, 3, 6, 8, 24)
    out += H(3, 0, names, len(texts))
    n = 10
    struct.pack_into('<7sxQ', out, 0, bytes([0x7f, 0x45, 0x4c, 0x46, 2, 1, 1]), 0)
    struct.pack_into('<HHIQQQIHHHHHH', out, 16, 1, 62, 1, 0, 0, off, 0, 64, 0, 0, 64, n, 9)
    return bytes(out), off, sym, rel, sig, rel2

base, off, sym, rel, sig, rel2 = small()
end = len(base)
at = lambda i, k: off + 64 * i + k
q = lambda j: sym + 24 * j
e = lambda j: rel + 24 * j
kind = lambda i, k: (at(i, 4), 4, k)
flags = lambda i, f: (at(i, 8), 8, f)
place = lambda i, p: (at(i, 24), 8, p)
size = lambda i, z: (at(i, 32), 8, z)
link = lambda i, l: (at(i, 40), 4, l)
info = lambda i, t: (at(i, 44), 4, t)
align = lambda i, a: (at(i, 48), 8, a)
stride = lambda i, z: (at(i, 56), 8, z)
count = lambda n: (60, 2, n)
headers = lambda p: (40, 8, p)
bits = lambda p, x: (p, len(x), int.from_bytes(x, 'little'))
# the address-significance table moved behind the end, with these bytes
listing = lambda *x: [place(5, end), size(5, len(x)), bits(end, bytes(x))]
# no symbol table, and no relocations that would link it
no_table = [kind(3, 3), kind(4, 3), kind(8, 3)]
big = 2**64

# each line: what it breaks, and nothing else, the patches (place, width, value), the refusal, and the length, where it is not that of the
# small object: a longer one goes on with zeros, of which the symbols, entries and headers that are put there are made
cases = [
    # the header of the object
    ('no bytes', [], (1, 0, 1), 0),
    ('63 bytes', [], (1, 63, 1), 63),
    ('64 bytes', [count(1), headers(0)], None, 64),
    ('first byte', [(0, 1, 0x7e)], (2, 0, 2)),
    ('second byte', [(1, 1, 0x65)], (2, 0, 2)),
    ('third byte', [(2, 1, 0)], (2, 0, 2)),
    ('fourth byte', [(3, 1, 0)], (2, 0, 2)),
    ('class', [(4, 1, 1)], (2, 0, 2)),
    ('byte order', [(5, 1, 2)], (2, 0, 2)),
    ('version of the identification', [(6, 1, 0)], (2, 0, 2)),
    ('the byte after it is free', [(7, 1, 3)], None),
    ('type', [(16, 2, 2)], (2, 16, 2)),
    ('type, its high byte', [(16, 2, 0x101)], (2, 16, 2)),
    ('entry size of headers', [(58, 2, 63)], (2, 58, 2)),
    ('entry size of headers, its high byte', [(58, 2, 64 + 256)], (2, 58, 2)),
    ('no sections', [count(0)], (3, 60, 2)),
    ('1,024 sections', [count(1024)], None, off + 64 * 1024),
    ('1,025 sections', [count(1025)], (3, 60, 2), off + 64 * 1025),
    ('the most sections that a header can tell', [count(65535)], (3, 60, 2), off + 64 * 65535),
    ('headers past the end', [count(11)], (1, 40, 1)),
    ('headers past the end by a byte', [], (1, 40, 1), end - 1),
    ('headers far past the end', [headers(2**32)], (1, 40, 1)),
    ('headers that end at 2^64', [headers(big - 640)], (1, 40, 1)),
    ('headers near 2^64', [headers(big - 64)], (1, 40, 1)),
    ('headers at 2^64 - 1', [headers(big - 1)], (1, 40, 1)),
    # extents
    ('extent', [place(1, end - 7)], (1, at(1, 24), 1)),
    ('extent to the end', [place(1, end - 8)], None),
    ('extent by its size', [size(9, end)], (1, at(9, 24), 1)),
    ('extent that ends at 2^64', [place(1, big - 8)], (1, at(1, 24), 1)),
    ('extent past 2^64', [place(9, big - 1)], (1, at(9, 24), 1)),
    ('extent of 2^64 - 1 bytes', [size(9, big - 1)], (1, at(9, 24), 1)),
    ('both near 2^64', [place(9, big - 1), size(9, big - 1)], (1, at(9, 24), 1)),
    ('empty section at the end', [place(9, end), size(9, 0)], None),
    ('empty section past the end', [place(9, end + 1), size(9, 0)], (1, at(9, 24), 1)),
    ('no extent of type 0', [place(0, big - 1), size(0, big - 1)], None),
    ('no extent of type 8', [place(2, big - 1)], None),
    # present sections
    ('flags', [(at(1, 12), 4, 1)], (5, at(1, 8), 2)),
    ('flags, the highest', [flags(1, 2**63 + 6)], (5, at(1, 8), 2)),
    ('flags of 32 bits', [flags(1, 2**32 - 1)], None),
    ('flags of an absent section', [(at(3, 12), 4, 1)], None),
    ('size of 65,535', [place(1, end), size(1, 65535)], None, end + 65535),
    ('size of 65,536', [place(1, end), size(1, 65536)], (3, at(1, 32), 2), end + 65536),
    ('size of 65,535 zeros', [size(2, 65535)], None),
    ('size of 65,536 zeros', [size(2, 65536)], (3, at(2, 32), 2)),
    ('size of 2^64 - 1 zeros', [size(2, big - 1)], (3, at(2, 32), 2)),
    ('size of an absent section', [place(9, end), size(9, 65536)], None, end + 65536),
    ('alignment of 3', [align(1, 3)], (5, at(1, 48), 2)),
    ('alignment of 131,072', [align(2, 131072)], (5, at(2, 48), 2)),
    ('alignment of 2^63', [align(2, 2**63)], (5, at(2, 48), 2)),
    ('alignment of 2^32 + 1', [align(2, 2**32 + 1)], (5, at(2, 48), 2)),
    ('alignment of an absent section', [align(3, 3)], None),
    # the symbol table
    ('second symbol table', [kind(9, 2)], (5, at(9, 4), 2)),
    ('size of a symbol', [stride(3, 16)], (5, at(3, 56), 2)),
    ('size of a symbol, its high half', [stride(3, 2**32 + 24)], (5, at(3, 56), 2)),
    ('size of the symbol table', [size(3, 9 * 24 + 1)], (5, at(3, 32), 2)),
    ('65,536 symbols', [place(3, end), size(3, 24 * 65536)], None, end + 24 * 65536),
    ('65,537 symbols', [place(3, end), size(3, 24 * 65537)], (3, at(3, 32), 2), end + 24 * 65537),
    ('reserved index', [(q(1) + 6, 2, 0xff00)], (5, q(1) + 6, 2)),
    ('index before absolute', [(q(1) + 6, 2, 0xfff0)], (5, q(1) + 6, 2)),
    ('index after common', [(q(1) + 6, 2, 0xfff3)], (5, q(1) + 6, 2)),
    ('extended index', [(q(1) + 6, 2, 0xffff)], (5, q(1) + 6, 2)),
    ('dangling index', [(q(1) + 6, 2, 10)], (4, q(1) + 6, 2)),
    ('last index that is not reserved', [(q(1) + 6, 2, 0xfeff)], (4, q(1) + 6, 2)),
    ('value past the section', [(q(2) + 8, 8, 9)], (5, q(2) + 8, 2)),
    ('value of 2^64 - 1', [(q(2) + 8, 8, big - 1)], (5, q(2) + 8, 2)),
    ('value of a symbol in an absent section', [(q(7) + 8, 8, big - 1)], None),
    ('value of a symbol outside', [(q(4) + 8, 8, big - 1)], None),
    # relocations
    ('target of relocations', [info(4, 10)], (4, at(4, 44), 2)),
    ('target of 65,537', [info(4, 65537)], (4, at(4, 44), 2)),
    ('target of 2^32 - 1', [info(4, 2**32 - 1)], (4, at(4, 44), 2)),
    ('target that is absent', [info(4, 9)], None),
    ('nothing more is asked then', [info(4, 9), kind(4, 9), link(4, 9), stride(4, 1), size(4, 1)], None),
    ('relocations without addends', [kind(4, 9)], (5, at(4, 4), 2)),
    ('second relocations of a section', [info(8, 1)], (5, at(8, 44), 2)),
    ('link of relocations', [link(4, 9)], (4, at(4, 40), 2)),
    ('link of 65,539', [link(4, 65539)], (4, at(4, 40), 2)),
    ('link with no symbol table', [kind(3, 3), kind(8, 3), size(4, 0), size(5, 0)], (4, at(4, 40), 2)),
    ('size of an entry', [stride(4, 25)], (5, at(4, 56), 2)),
    ('size of relocations', [size(4, 71)], (5, at(4, 32), 2)),
    ('65,535 entries', [place(4, end), size(4, 24 * 65535)], None, end + 24 * 65535),
    ('65,536 entries', [place(4, end), size(4, 24 * 65536)], (3, at(4, 32), 2), end + 24 * 65536),
    ('offset of an entry', [(e(1), 8, 8)], (5, e(1), 2)),
    ('offset of 2^64 - 1', [(e(1), 8, big - 1)], (5, e(1), 2)),
    ('offset in an empty section', [size(6, 0)], (5, rel2, 2)),
    ('symbol of an entry', [(e(1) + 12, 4, 9)], (4, e(1) + 8, 2)),
    ('symbol of 2^32 - 1', [(e(1) + 12, 4, 2**32 - 1)], (4, e(1) + 8, 2)),
    ('symbol in an absent section', [(e(1) + 12, 4, 7)], (4, e(1) + 8, 2)),
    ('addend too high', [(e(1) + 16, 8, 2**31)], (5, e(1) + 16, 2)),
    ('addend too low', [(e(2) + 16, 8, big - 2**31 - 1)], (5, e(2) + 16, 2)),
    ('addend of 2^63 - 1', [(e(1) + 16, 8, 2**63 - 1)], (5, e(1) + 16, 2)),
    ('addend of -2^63', [(e(1) + 16, 8, 2**63)], (5, e(1) + 16, 2)),
    # the address-significance table
    ('second address-significance table', [kind(9, 0x6fff4c03)], (5, at(9, 4), 2)),
    ('number without an end', [(sig + 3, 1, 0x83)], (5, sig + 3, 1)),
    ('number of six bytes', listing(0x80, 0x80, 0x80, 0x80, 0x80, 0), (5, end, 1), end + 6),
    ('number of 2^32', listing(0x80, 0x80, 0x80, 0x80, 0x10), (5, end, 1), end + 5),
    ('number of 2^32 - 1', listing(0xff, 0xff, 0xff, 0xff, 0x0f), (4, end, 2), end + 5),
    ('number longer than it needs', listing(0x88, 0x80, 0x80, 0x80, 0), None, end + 5),
    ('number of no symbol', [(sig + 3, 1, 9)], (4, sig + 3, 2)),
    ('number with no symbol table', no_table + [size(5, 1)], (4, sig, 2)),
    ('no numbers with no symbol table', no_table + [size(5, 0)], None),
]
# which of two comes first: each check and the next one
orders = [
    ('length before identification', [(0, 1, 0)], (1, 63, 1), 63),
    ('identification before type', [(6, 1, 0), (16, 2, 2)], (2, 0, 2)),
    ('type before entry size', [(16, 2, 2), (58, 2, 63)], (2, 16, 2)),
    ('entry size before count', [(58, 2, 63), count(0)], (2, 58, 2)),
    ('type before count', [(16, 2, 2), count(0)], (2, 16, 2)),
    ('count before headers', [count(1025)], (3, 60, 2)),
    ('headers before extents', [count(11), place(1, end)], (1, 40, 1)),
    ('one extent before the next', [place(1, end), place(3, end)], (1, at(1, 24), 1)),
    ('extents before contents', [align(1, 3), place(9, 2**63)], (1, at(9, 24), 1)),
    ('flags before size', [flags(2, 2**32 + 3), size(2, 65536)], (5, at(2, 8), 2)),
    ('size before alignment', [size(2, 65536), align(2, 3)], (3, at(2, 32), 2)),
    ('one section before the next', [(at(7, 12), 4, 1), align(1, 3)], (5, at(1, 48), 2)),
    ('contents before a second symbol table', [align(7, 3), kind(9, 2)], (5, at(7, 48), 2)),
    ('contents before the symbol table', [align(7, 3), stride(3, 16)], (5, at(7, 48), 2)),
    ('second table before the first', [kind(9, 2), stride(3, 16)], (5, at(9, 4), 2)),
    ('second table before the third', [kind(5, 2), kind(9, 2)], (5, at(5, 4), 2)),
    ('size of a symbol before that of the table', [stride(3, 16), size(3, 25)], (5, at(3, 56), 2)),
    ('size of the table before its count', [place(3, end), size(3, 24 * 65537 + 1)], (5, at(3, 32), 2), end + 24 * 65537 + 1),
    ('count before the first symbol', [place(3, end), size(3, 24 * 65537), (end + 6, 2, 10)], (3, at(3, 32), 2), end + 24 * 65537),
    ('one symbol before the next', [(q(2) + 8, 8, 9), (q(6) + 6, 2, 10)], (5, q(2) + 8, 2)),
    ('symbols before relocations', [(q(6) + 6, 2, 10), info(4, 10)], (4, q(6) + 6, 2)),
    ('target before type', [info(4, 10), kind(4, 9)], (4, at(4, 44), 2)),
    ('type before second', [info(8, 1), kind(8, 9)], (5, at(8, 4), 2)),
    ('type before link', [kind(4, 9), link(4, 9)], (5, at(4, 4), 2)),
    ('second before link', [info(8, 1), link(8, 9)], (5, at(8, 44), 2)),
    ('link before entry size', [link(4, 9), stride(4, 25)], (4, at(4, 40), 2)),
    ('entry size before size', [stride(4, 25), size(4, 71)], (5, at(4, 56), 2)),
    ('size before count', [place(4, end), size(4, 24 * 65536 + 1)], (5, at(4, 32), 2), end + 24 * 65536 + 1),
    ('count before the first entry', [place(4, end), size(4, 24 * 65536), (end, 8, 8)], (3, at(4, 32), 2), end + 24 * 65536),
    ('offset before symbol', [(e(0), 8, 8), (e(0) + 12, 4, 9)], (5, e(0), 2)),
    ('symbol before addend', [(e(0) + 12, 4, 9), (e(0) + 16, 8, 2**31)], (4, e(0) + 8, 2)),
    ('one entry before the next', [(e(1), 8, 8), (e(0) + 16, 8, 2**31)], (5, e(0) + 16, 2)),
    ('entries before the next section', [(e(2), 8, 8), info(8, 10)], (5, e(2), 2)),
    ('relocations before a second list', [(e(2), 8, 8), kind(9, 0x6fff4c03)], (5, e(2), 2)),
    ('relocations before address significance', [(sig, 1, 9), (e(2), 8, 8)], (5, e(2), 2)),
    ('second list before the first', [kind(9, 0x6fff4c03), (sig, 1, 9)], (5, at(9, 4), 2)),
    ('form before symbol count', [(sig, 1, 0x89), (sig + 1, 1, 0x80), (sig + 2, 1, 0x80), (sig + 3, 1, 0x80)], (5, sig, 1)),
    ('number before the next', [(sig, 1, 9), (sig + 3, 1, 0x83)], (4, sig, 2)),
]
def patched(ps, length):
    b = bytearray(base[:length].ljust(length, b'\0'))
    for p, w, v in ps: b[p:p + w] = v.to_bytes(w, 'little')
    return bytes(b)
def verdict(b):
    try: read(b); return None
    except Bad as x: return x.args[0]
# pairs whose second check cannot be looked at where the first does not hold
apart = {'length before identification', 'headers before extents', 'target before type', 'form before symbol count'}
blob = b''
singles = {case[0] for case in cases}
for name, ps, want, *length in cases + orders:
    length = length[0] if length else end
    b = patched(ps, length)
    assert len(b) == length, name
    got = verdict(b)
    assert got == want, (name, got, want)
    found = faults(b)
    if name in singles: assert found == ([want] if want else []), (name, found)
    else: assert found[0] == want and (len(found) > 1 or name in apart), (name, found)
    zeros = base[:length].ljust(length, b'\0')
    flat = [(p + k, v >> 8 * k & 255) for p, w, v in ps for k in range(w)]
    flat = [(p, x) for p, x in flat if zeros[p] != x]
    assert len(flat) < 256, name
    blob += struct.pack('<IB', length, len(flat)) + b''.join(struct.pack('<IB', *x) for x in flat)
open(os.path.join(data, 'small.o'), 'wb').write(base)
open(os.path.join(data, 'patches'), 'wb').write(blob)

def row(v): return 'accepted\n' if v is None else 'F%12d%12d%12d\n' % v
M = 2**32
def mixed(h, v): return h * 31 % M if v is None else (h * 31 + v[0] * 7 + v[1] * 3 + v[2] + 1) % M
def changed(b):
    for p in range(len(b)):
        for x in (0, 255, b[p] ^ 255): yield b[:p] + bytes([x]) + b[p + 1:]
        yield b[:p]
def sweep(b):
    h = 0; good = 0
    for x in changed(b):
        v = verdict(x); h = mixed(h, v); good += v is None
    return 'swept%12d%12d\n' % (good, h)
# the names of the first 16 numbers, also of objects that are refused
def names_swept(b):
    h = 0; good = 0
    for x in changed(b):
        for i in range(16):
            v = section_name(x, i); h = h * 31 % M; good += v is not None
            for c in v or b'': h = (h * 31 + c + 1) % M
    return 'named%12d%12d\n' % (good, h)

# what readelf tells of an object that a compiler made must be what the reference tells: the whole table, and the names
def readelf(path, b):
    assert text(read(b)) == readelf_table.table(path), path
    for i, s in readelf_table.sections_of(path).items(): assert section_name(b, i) == s.name.encode(), (path, i)

out = ''
for name in ('gcc.o', 'clang_addrsig.o', 'clang_plain.o', 'small.o'):
    path = os.path.join(data, name)
    b = open(path, 'rb').read()
    if name != 'small.o': readelf(path, b)
    g = read(b)
    out += name + '\n' + text(g)
    for i in range(g[0]): out += 'N%12d %s\n' % (i, section_name(b, i).decode())
for name, ps, want, *length in cases + orders: out += row(want)
other = open(os.path.join(data, 'clang_addrsig.o'), 'rb').read()
for b in (base, other): out += sweep(b) + names_swept(b)
open(os.path.join(crate, 'stdout'), 'w').write(out)
