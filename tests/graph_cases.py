#!/usr/bin/env python3
"""Writes the cases that crates/graph_cases runs, and what is expected of each.

The expectations were written by hand, with the reason beside them, and are compared here with what graphs.py finds by the definitions.
Run from the root of the repository: tests/graph_cases.py
"""
from graphs import HIGH, LOW, Section, calls, graph, holding, out, reached, rounds, settled, table, text, to


def apart(*numbers):
    return [(s, s) for s in numbers]


PLAIN = Section()
OTHER = Section(data=(144,))
PINNED = Section(pinned=True)
TWO = (1, 2)
LONG = tuple(range(40, 57))
SHARED, APART = [(0, 0), (1, 0)], apart(0, 1)

# name: the graph, the sections reached, the class of each present foldable section, the rounds
CASES = {
    # nothing to divide: depths 0 and 1 agree
    "the empty graph": (graph(), [], [], 0),
    "absent sections only": (graph(None, None), [], [], 0),
    "one section": (graph(PLAIN), [], apart(0), 0),
    "one section, a root": (graph(PLAIN, roots=[0]), [0], apart(0), 0),
    # being a root is no part of an unfolding
    "two alike": (graph(PLAIN, PLAIN), [], SHARED, 0),
    "two alike, one a root": (graph(PLAIN, PLAIN, roots=[1]), [1], SHARED, 0),
    "two alike, another between them": (graph(PLAIN, OTHER, PLAIN), [], [(0, 0), (1, 1), (2, 0)], 1),
    "two alike between absent ones": (graph(None, PLAIN, None, PLAIN, None, roots=[3]), [3], [(1, 1), (3, 1)], 0),
    "the first and the last of 1,024": (
        graph(PLAIN, *[None] * 1022, PLAIN, roots=[1023]), [1023], [(0, 0), (1023, 0)], 0),
    # what a section has besides its targets is seen at depth 1 and not at depth 0
    "alignments 4 and 16": (graph(Section(alignment=4), Section(alignment=16)), [], APART, 1),
    "the highest alignment": (graph(Section(alignment=65536), Section(alignment=65536)), [], SHARED, 0),
    "flags that differ": (graph(Section(flags=6), Section(flags=2)), [], APART, 1),
    "flags that differ in the highest bit": (graph(Section(flags=2**31 + 6), Section(flags=6)), [], APART, 1),
    "a byte that differs": (graph(PLAIN, OTHER), [], APART, 1),
    "the last of 17 bytes differs": (graph(Section(LONG), Section(LONG[:16] + (0,))), [], APART, 1),
    "17 bytes alike": (graph(Section(LONG), Section(LONG)), [], SHARED, 0),
    "one more byte": (graph(Section((195,)), Section((195, 0))), [], APART, 1),
    "bytes in another order": (graph(Section((1, 2)), Section((2, 1))), [], APART, 1),
    "two with no bytes": (graph(Section(()), Section(())), [], SHARED, 0),
    "no bytes and one byte": (graph(Section(()), Section((0,))), [], APART, 1),
    # each part of a relocation counts, seen at depth 1, unless it is what the target is
    "the same outside name": (graph(holding(out(7)), holding(out(7))), [], SHARED, 0),
    "outside names that differ": (graph(holding(out(7)), holding(out(8))), [], APART, 1),
    "the lowest and the highest outside name": (graph(holding(out(0)), holding(out(65535))), [], APART, 1),
    "a section and an outside name of one number": (graph(calls(1), PLAIN, holding(out(1))), [], apart(0, 1, 2), 1),
    "displacements that differ": (graph(holding(out(7)), holding(out(7, displacement=-4))), [], APART, 1),
    "displacements that differ, at a section": (
        graph(calls(2), holding(to(2, displacement=1)), PLAIN), [], apart(0, 1, 2), 1),
    "the highest and the lowest displacement": (
        graph(holding(out(7, displacement=HIGH)), holding(out(7, displacement=LOW))), [], APART, 1),
    "the highest displacement at a section": (
        graph(holding(to(0, displacement=HIGH + 65535)), holding(to(1, displacement=HIGH + 65535))), [], SHARED, 0),
    "displacements that differ by 2 to the 31st": (
        graph(holding(out(7, displacement=LOW)), holding(out(7, displacement=0))), [], APART, 1),
    "offsets that differ": (
        graph(Section(TWO, (out(7, offset=0),)), Section(TWO, (out(7, offset=1),))), [], APART, 1),
    "types that differ": (graph(holding(out(7, type=2)), holding(out(7, type=4))), [], APART, 1),
    "types that differ in the highest bit": (graph(holding(out(7, type=2**31)), holding(out(7, type=0))), [], APART, 1),
    "relocations in another order": (graph(holding(out(7), out(8)), holding(out(8), out(7))), [], APART, 1),
    "one more relocation": (graph(holding(out(7)), holding(out(7), out(7))), [], APART, 1),
    "a relocation and none": (graph(holding(out(7)), PLAIN), [], APART, 1),
    # a target counts by its own unfolding, one depth lower
    "two that call themselves": (graph(calls(0), calls(1), roots=[1]), [1], SHARED, 0),
    "one calls itself, one is called by it": (graph(calls(0), calls(0)), [], SHARED, 0),
    "a calls b, b calls a, c calls itself": (
        graph(calls(1), calls(0), calls(2), roots=[2]), [2], [(0, 0), (1, 0), (2, 0)], 0),
    "cycles of three and of two": (
        graph(calls(1), calls(2), calls(0), calls(4), calls(3), roots=[3]), [3, 4], [(s, 0) for s in range(5)], 0),
    # b and d differ at depth 1, so a and c, which call them, at depth 2
    "a calls b, c calls d, b and d differ": (
        graph(calls(1), PLAIN, calls(3), OTHER, roots=[0]), [0, 1], apart(0, 1, 2, 3), 2),
    "a calls b, c calls d, b and d alike": (
        graph(calls(1), PLAIN, calls(3), PLAIN), [], [(0, 0), (1, 1), (2, 0), (3, 1)], 1),
    # 9 calls nothing, which depth 1 tells; its caller stands out at depth 2, and so on up to 0 and 1 at depth 9
    "a chain of 10": (
        graph(*[calls(s + 1) for s in range(9)], PLAIN, roots=[0]), list(range(10)), apart(*range(10)), 9),
    "a chain of 10, entered in the middle": (
        graph(*[calls(s + 1) for s in range(9)], PLAIN, roots=[6]), [6, 7, 8, 9], apart(*range(10)), 9),
    # position by position they share; depth 4 is the first to tell the first position from the second
    "two chains of 5": (
        graph(*[calls(s + 1) for s in range(4)], PLAIN, *[calls(s + 6) for s in range(4)], PLAIN, roots=[5]),
        [5, 6, 7, 8, 9], [(s, s % 5) for s in range(10)], 4),
    # the ends differ at depth 1, their callers at depth 2, the first ones at depth 5
    "two chains of 5 with ends that differ": (
        graph(*[calls(s + 1) for s in range(4)], PLAIN, *[calls(s + 6) for s in range(4)], OTHER),
        [], apart(*range(10)), 5),
    # 2 and 5 stand out at depth 1, their callers at depth 2; the copy shares with the original
    "a cycle of three with one that differs, twice": (
        graph(calls(1), calls(2), calls(0, data=(1,)), calls(4), calls(5), calls(3, data=(1,)), roots=[4]),
        [3, 4, 5], [(s, s % 3) for s in range(6)], 2),
    # one leaf twice or two leaves that are alike is all the same
    "a leaf called twice and two alike called": (
        graph(calls(1, 1), PLAIN, calls(3, 4), PLAIN, PLAIN), [], [(0, 0), (1, 1), (2, 0), (3, 1), (4, 1)], 1),
    # only the second target differs
    "the second target differs": (
        graph(calls(2, 3), calls(2, 2), PLAIN, OTHER), [], apart(0, 1, 2, 3), 2),
    # a pinned section is told from all others by its number, at depth 0 already, so its caller sees it at depth 1
    "a pinned one and a foldable one": (graph(PLAIN, PINNED), [], apart(0), 0),
    "two pinned ones": (graph(PINNED, PINNED, roots=[0]), [0], [], 0),
    "calls to one pinned section": (graph(calls(2), calls(2), PINNED), [], SHARED, 0),
    "calls to two pinned sections": (graph(calls(2), calls(3), PINNED, PINNED), [], APART, 1),
    "calls to a pinned and to a foldable one": (
        graph(calls(1), PINNED, calls(3), PLAIN), [], apart(0, 2, 3), 1),
    # the way ends at the pinned section's number: what it calls was compared with itself
    "calls to one pinned section that calls on": (
        graph(calls(2), calls(2), calls(3, pinned=True), PLAIN), [], [(0, 0), (1, 0), (3, 3)], 1),
    # reaching goes along relocations to sections, from the roots alone
    "no root": (graph(calls(1), calls(0)), [], SHARED, 0),
    "a cycle that no root reaches": (graph(calls(1), calls(0), OTHER, roots=[2]), [2], [(0, 0), (1, 0), (2, 2)], 1),
    "a cycle that calls a root": (graph(calls(1), calls(0, 2), PLAIN, roots=[2]), [2], apart(0, 1, 2), 1),
    "roots repeated": (graph(PLAIN, PLAIN, roots=[1, 1, 1]), [1], SHARED, 0),
    "roots not in order": (graph(PLAIN, PLAIN, PLAIN, roots=[2, 0]), [0, 2], [(0, 0), (1, 0), (2, 0)], 0),
    "a root that calls itself": (graph(calls(0), PLAIN, roots=[0]), [0], APART, 1),
    "reached by the last of three relocations": (
        graph(holding(out(1), to(0), to(2)), PLAIN, PLAIN, roots=[0]), [0, 2], [(0, 0), (1, 1), (2, 1)], 1),
    "reached through a pinned section": (
        graph(calls(1), calls(2, pinned=True), PLAIN, PLAIN, roots=[0]), [0, 1, 2], [(0, 0), (2, 2), (3, 2)], 1),
    "an outside name reaches nothing": (graph(holding(out(1)), PLAIN, roots=[0]), [0], APART, 1),
    "reached with a displacement past the end": (
        graph(holding(to(1, displacement=1000)), PLAIN, roots=[0]), [0, 1], APART, 1),
    "two ways to one section": (
        graph(calls(1, 2), calls(3), calls(3), PLAIN, PLAIN, roots=[0]),
        [0, 1, 2, 3], [(0, 0), (1, 1), (2, 1), (3, 3), (4, 3)], 1),
}


def found(graph):
    """What the definitions give."""
    classes = sorted((s, group[0]) for group in settled(graph) for s in group)
    return reached(graph), classes, rounds(graph)


def main():
    cases, lines = [], []
    for name, (graph, *expected) in CASES.items():
        assert tuple(expected) == found(graph), (name, expected, found(graph))
        cases.append(f"= {name}\n{text(table(graph))}")
        lines.append("{}: reached {}, classes {}, rounds {}\n".format(name, *expected))
    open("crates/graph_cases/data/cases", "w").write("".join(cases))
    open("crates/graph_cases/stdout", "w").write("".join(lines))


main()
