"""Section graphs, unfoldings and piles, for the scripts beside this file.

It was written from docs/SECTION_GRAPH.md, UNFOLDING.md, PILE.md, TABLE.md and MAP.md and shares no code with the library. Unfoldings
are told apart as what they are, nested tuples; each is kept once and named by a number, so that they can be compared.
"""
from typing import NamedTuple

WIDTHS = {"B": 4}


class Relocation(NamedTuple):
    target: tuple  # ("section", t) or ("outside", e)
    offset: int = 0
    type: int = 4
    displacement: int = 0


class Section(NamedTuple):
    data: tuple = (195,)
    relocations: tuple = ()
    flags: int = 6
    alignment: int = 1
    pinned: bool = False


class Graph(NamedTuple):
    sections: tuple
    roots: tuple = ()

    def present(self):
        return [s for s, section in enumerate(self.sections) if section]

    def foldable(self):
        return [s for s in self.present() if not self.sections[s].pinned]


# the lowest and the highest displacement of a relocation to an outside name
LOW, HIGH = -(2**31), 2**31 - 1


def to(t, **other):
    """A relocation to a section."""
    return Relocation(("section", t), **other)


def out(e, **other):
    """A relocation to an outside name."""
    return Relocation(("outside", e), **other)


def holding(*relocations, **other):
    """A section with some relocations."""
    return Section(relocations=relocations, **other)


def calls(*targets, **other):
    """A section that calls some sections."""
    return holding(*map(to, targets), **other)


def graph(*sections, roots=()):
    """A graph of some sections, None where one is absent."""
    return Graph(sections, tuple(roots))


# rows as tuples of a letter and numbers


def table(graph):
    """The rows of the graph's table."""
    yield "H", len(graph.sections), len(graph.roots)
    for s in graph.present():
        data, relocations, flags, alignment, pinned = graph.sections[s]
        yield "S", s, flags, alignment, len(data), len(relocations), int(pinned)
        for i in range(0, len(data), 16):
            yield "B", *data[i : i + 16]
        for (sort, number), offset, kind, displacement in relocations:
            yield "R", offset, kind, ["section", "outside"].index(sort), number, displacement
    for t in graph.roots:
        yield "T", t
    yield "E", len(graph.present())


def text(rows):
    """Rows as they stand in a file."""
    return "".join(r[0] + "".join(str(z).rjust(WIDTHS.get(r[0], 12)) for z in r[1:]) + "\n" for r in rows)


def reached(graph):
    """The sections that a chain of relocations from a root reaches."""
    found = set()
    new = set(graph.roots)
    while new:
        found |= new
        new = {number for s in new for (sort, number), *_ in graph.sections[s].relocations if sort == "section"} - found
    return sorted(found)


def unfoldings(graph, depth):
    """For each present section the number of its unfolding at a depth: the same number, the same unfolding."""
    numbers = {}

    def number(told):
        return numbers.setdefault(told, len(numbers))

    def target(sort, where, below):
        return (sort, below[where]) if sort == "section" else (sort, where)

    marks = {s: s if graph.sections[s].pinned else "foldable" for s in graph.present()}
    at = {s: number(mark) for s, mark in marks.items()}
    for _ in range(depth):
        at = {
            s: number(
                (mark, section.flags, section.alignment, section.data)
                + tuple((r.offset, r.type, r.displacement, target(*r.target, at)) for r in section.relocations)
            )
            for s, mark in marks.items()
            for section in [graph.sections[s]]
        }
    return at


def groups(graph, depth):
    """The present foldable sections, those together that unfold alike at a depth."""
    at = unfoldings(graph, depth)
    together = {}
    for s in graph.foldable():
        together.setdefault(at[s], []).append(s)
    return sorted(together.values())


def settled(graph):
    """The groups at every depth."""
    return groups(graph, 2 * len(graph.sections) + 2)


def rounds(graph):
    """The least depth whose groups are those of the next."""
    k = 0
    while groups(graph, k) != groups(graph, k + 1):
        k += 1
    return k


class Refused(Exception):
    pass


class Pile:
    """What a pile over a graph does, call by call. Its `graph` is what it holds now."""

    def __init__(self, below):
        self.below = self.graph = below
        self.slots = {}  # for those that are not untouched: a number, or "swept"
        self.bound = []
        self.added = 0
        self.closed = False

    def check(self, section):
        if self.closed:
            raise Refused(7, 0)
        if section >= len(self.below.sections) or not self.below.sections[section]:
            raise Refused(8, section)

    def change(self, change):
        """Each present section changed."""
        sections = tuple(section and change(s, section) for s, section in enumerate(self.graph.sections))
        self.graph = self.graph._replace(sections=sections)

    def bind(self, name, section):
        self.check(section)
        if name in self.bound:
            raise Refused(9, name)
        if len(self.bound) == 64:
            raise Refused(10, 0)
        self.bound.append(name)
        self.aim({("outside", name): ("section", section)})
        return ["ok"]

    def aim(self, new):
        """Relocations to some targets go to others."""
        self.change(
            lambda s, section: section._replace(
                relocations=tuple(r._replace(target=new.get(r.target, r.target)) for r in section.relocations)
            )
        )

    def pin(self, section):
        self.check(section)
        self.change(lambda s, old: old._replace(pinned=old.pinned or s == section))
        return ["ok"]

    def root(self, section):
        self.check(section)
        if self.added == 64 or len(self.graph.roots) == 4096:
            raise Refused(10, 0)
        self.added += 1
        self.graph = self.graph._replace(roots=self.graph.roots + (section,))
        return ["ok"]

    def take_out(self, gone):
        """The sections of `gone` become absent, and get the slots that it has for them."""
        self.closed = True
        self.slots.update(gone)
        self.change(lambda s, section: None if s in gone else section)

    def sweep(self):
        gone = {s: "swept" for s in set(self.graph.present()) - set(reached(self.graph))}
        self.take_out(gone)
        return [len(self.graph.present()), len(gone)]

    def fold(self):
        depth = rounds(self.graph)
        gone = {s: first for first, *others in settled(self.graph) for s in others}
        self.take_out(gone)
        self.aim({("section", s): ("section", first) for s, first in gone.items()})
        self.graph = self.graph._replace(roots=tuple(gone.get(t, t) for t in self.graph.roots))
        return [len(self.graph.present()), len(gone), depth]

    def place(self, section):
        """A number, or "swept"; of a section that is present below."""
        while section in self.slots:
            section = self.slots[section]
            if section == "swept":
                break
        return section

    def places(self):
        """Where each section is found."""
        return [self.place(s) if section else "absent" for s, section in enumerate(self.below.sections)]

    def map(self):
        """The rows of its fold map."""
        for s in self.below.present():
            place = self.place(s)
            yield ("M", s, 3, 0) if place == "swept" else ("M", s, 1 if place == s else 2, place)
