#!/usr/bin/env python3
"""Writes the cases that crates/pile_cases runs, and what is expected of each.

What is expected of the worked examples was written by hand, line by line, and is compared here with what the pile of graphs.py does; of
the random cases it is what that pile does. Run from the root of the repository: tests/pile_cases.py
"""
import random
from graphs import HIGH, LOW, Pile, Refused, Section, calls, graph, holding, out, table, text, to

UNCHANGED = "below unchanged"

# what a pile is asked to do, and what comes of it, as lines; rows have single blanks


def compact(row):
    return " ".join(map(str, row))


def rows(order, some):
    some = list(some)
    return [f"{order} {len(text(some))}"] + [compact(row) for row in some]


def place(section, *told):
    return compact(["place", section, *told])


def places(found):
    """The lines that tell where sections are found, and what is said of the first number past them and of the highest."""
    lines = [place(s, where) for s, where in enumerate(found)]
    return lines + [place(s, "refused", 8, s, 3) for s in (len(found), 65535)]


def told(pile, order):
    """The lines that come of an order."""
    verb, *numbers = order.split()
    if verb == "table":
        return rows(verb, table(pile.graph))
    if verb == "map":
        return rows(verb, pile.map())
    if verb == "places":
        return places(pile.places())
    try:
        answer = getattr(pile, verb)(*map(int, numbers))
        return [compact([order, *answer])]
    except Refused as refusal:
        return [compact([order, "refused", *refusal.args, 3]) + ", unchanged"]


def play(graph, orders):
    """A pile over the graph after some orders, and the lines that come of them."""
    pile = Pile(graph)
    return pile, ["pile", *[line for order in orders for line in told(pile, order)], UNCHANGED]


def play_all(graph, orders):
    """The lines that come of the orders; "pile" begins a new pile over the one before."""
    piles = []
    for order in orders:
        if order == "pile":
            piles.append([])
        else:
            piles[-1].append(order)
    lines = []
    for some in piles:
        pile, more = play(graph, some)
        lines += more
        graph = pile.graph
    return lines


PLAIN = Section()
OTHER = Section(data=(144,))
TWO = graph(PLAIN, PLAIN)
# only 1 and 2 are present, alike, and 2 is the root
PAIR = graph(None, PLAIN, PLAIN, roots=[2])
# 0 names what 1 calls
NAMING = graph(holding(out(7)), calls(2), PLAIN)
SINGLE = graph(PLAIN)

# "places" stands for the lines that `places` makes of what follows; of each pile is said at its end that the graph below is unchanged
WORKED = [
    ("the empty graph", graph(), """
        pile
        places
        sweep 0 0
        fold 0 0 0
        table 40
        H 0 0
        E 0
        map 0
        places"""),
    ("two alike share", TWO, """
        pile
        fold 1 1 0
        places 0 0
        table 120
        H 2 0
        S 0 6 1 1 0 0
        B 195
        E 1
        map 76
        M 0 1 0
        M 1 2 0"""),
    ("two alike that call themselves share", graph(calls(0), calls(1)), """
        pile
        fold 1 1 0
        places 0 0
        table 182
        H 2 0
        S 0 6 1 1 1 0
        B 195
        R 0 4 0 0 0
        E 1"""),
    ("a calls b, b calls a, c calls itself: all three share", graph(calls(1), calls(0), calls(2)), """
        pile
        fold 1 2 0
        places 0 0 0
        table 182
        H 3 0
        S 0 6 1 1 1 0
        B 195
        R 0 4 0 0 0
        E 1"""),
    ("a calls b, c calls d, and b and d differ: none share", graph(calls(1), PLAIN, calls(3), OTHER), """
        pile
        fold 4 0 2
        places 0 1 2 3"""),
    ("a calls b, c calls d, all else alike: both pairs share", graph(calls(1), PLAIN, calls(3), PLAIN), """
        pile
        fold 2 2 1
        places 0 1 0 1"""),
    ("alignments 4 and 16 stay apart", graph(Section(alignment=4), Section(alignment=16)), """
        pile
        fold 2 0 1
        places 0 1"""),
    ("a sweep, then a fold", PAIR, """
        pile
        places absent 1 2
        sweep 1 1
        places absent swept 2
        fold 1 0 0
        places absent swept 2
        table 134
        H 3 1
        S 2 6 1 1 0 0
        B 195
        T 2
        E 1
        map 76
        M 1 3 0
        M 2 1 2"""),
    ("a fold, then a sweep", PAIR, """
        pile
        fold 1 1 0
        places absent 1 1
        sweep 1 0
        places absent 1 1
        table 134
        H 3 1
        S 1 6 1 1 0 0
        B 195
        T 1
        E 1
        map 76
        M 1 1 1
        M 2 2 1"""),
    ("sweeps and folds again, the sweep first", PAIR, """
        pile
        sweep 1 1
        sweep 1 0
        fold 1 0 0
        sweep 1 0
        fold 1 0 0
        places absent swept 2"""),
    ("sweeps and folds again, the fold first", PAIR, """
        pile
        fold 1 1 0
        fold 1 0 0
        sweep 1 0
        fold 1 0 0
        sweep 1 0
        places absent 1 1"""),
    ("what refold prints of its sample", graph(None, calls(1), calls(2), roots=[1, 2]), """
        pile
        sweep 2 0
        fold 1 1 0
        table 210
        H 3 2
        S 1 6 1 1 1 0
        B 195
        R 0 4 0 1 0
        T 1
        T 1
        E 1"""),
    ("one that was folded into one that is swept has no place", TWO, """
        pile
        fold 1 1 0
        places 0 0
        sweep 0 1
        places swept swept
        map 76
        M 0 3 0
        M 1 3 0
        fold 0 0 0"""),
    ("a sweep of what no root reaches: a cycle, and what it calls", graph(calls(1), calls(0, 2), PLAIN, OTHER, roots=[3, 3]), """
        pile
        sweep 1 3
        places swept swept swept 3"""),
    ("a bind keeps displacement, offset and type, and leaves other names alone",
     graph(Section(relocations=(out(7, displacement=-4, type=2), out(8, displacement=5))), PLAIN), """
        pile
        bind 7 1 ok
        table 324
        H 2 0
        S 0 6 1 1 2 0
        B 195
        R 0 2 0 1 -4
        R 0 4 1 8 5
        S 1 6 1 1 0 0
        B 195
        E 2"""),
    ("not bound, they stay apart", NAMING, """
        pile
        fold 3 0 1"""),
    ("bound to what the other calls, they share", NAMING, """
        pile
        bind 7 2 ok
        fold 2 1 1
        places 0 0 2"""),
    ("bound to another, they stay apart", NAMING, """
        pile
        bind 7 1 ok
        fold 3 0 2"""),
    ("a pin keeps apart", TWO, """
        pile
        pin 1 ok
        pin 1 ok
        fold 2 0 0
        places 0 1"""),
    ("an added root is the last, and is kept by a sweep", PAIR, """
        pile
        root 1 ok
        root 2 ok
        table 242
        H 3 3
        S 1 6 1 1 0 0
        B 195
        S 2 6 1 1 0 0
        B 195
        T 2
        T 1
        T 2
        E 2
        sweep 2 0"""),
    ("the 64th bind is accepted and the 65th is not", SINGLE, "\n".join(
        ["pile", *[f"bind {e} 0 ok" for e in range(64)], "bind 64 0 refused 10 0 3, unchanged", "pin 0 ok", "root 0 ok"])),
    ("a refused bind does not count, and its name stays free", PAIR, "\n".join(
        ["pile", "bind 5 0 refused 8 0 3, unchanged", "bind 5 1 ok", "bind 5 2 refused 9 5 3, unchanged",
         *[f"bind {e} 1 ok" for e in range(6, 69)], "bind 69 1 refused 10 0 3, unchanged"])),
    ("the 64th added root is accepted and the 65th is not", SINGLE, "\n".join(
        ["pile", *["root 0 ok"] * 64, "root 0 refused 10 0 3, unchanged", "pin 0 ok", "bind 9 0 ok", "fold 1 0 0"])),
    ("six roots more than 4,090 are accepted and the seventh is not", graph(PLAIN, roots=[0] * 4090), "\n".join(
        ["pile", *["root 0 ok"] * 6, "root 0 refused 10 0 3, unchanged", "root 1 refused 8 1 3, unchanged", "bind 9 0 ok",
         "sweep 1 0", "root 0 refused 7 0 3, unchanged"])),
    ("no root more than 4,096, in a pile over the pile as well", graph(PLAIN, roots=[0] * 4095), """
        pile
        root 0 ok
        root 0 refused 10 0 3, unchanged
        pile
        root 0 refused 10 0 3, unchanged
        pin 0 ok
        pile
        root 0 refused 10 0 3, unchanged"""),
    # closed is checked first, then no section, then bound, then full; calls that break several of these
    ("refusals in their order: no section before bound, closed before both", PAIR, """
        pile
        bind 5 1 ok
        bind 5 0 refused 8 0 3, unchanged
        bind 5 3 refused 8 3 3, unchanged
        bind 5 2 refused 9 5 3, unchanged
        sweep 1 1
        bind 6 2 refused 7 0 3, unchanged
        bind 6 0 refused 7 0 3, unchanged
        bind 5 2 refused 7 0 3, unchanged
        bind 5 0 refused 7 0 3, unchanged
        pin 2 refused 7 0 3, unchanged
        pin 0 refused 7 0 3, unchanged
        pin 9 refused 7 0 3, unchanged
        root 2 refused 7 0 3, unchanged
        root 0 refused 7 0 3, unchanged
        root 9 refused 7 0 3, unchanged
        fold 1 0 0
        places absent swept 2"""),
    ("refusals in their order: full after all others", PAIR, "\n".join(
        ["pile", *[f"bind {e} 1 ok" for e in range(64)], *["root 1 ok"] * 64,
         # no section and full; no section, bound and full; bound and full; full
         "bind 64 0 refused 8 0 3, unchanged", "bind 3 0 refused 8 0 3, unchanged", "bind 3 9 refused 8 9 3, unchanged",
         "bind 3 1 refused 9 3 3, unchanged", "bind 64 1 refused 10 0 3, unchanged",
         "root 0 refused 8 0 3, unchanged", "root 3 refused 8 3 3, unchanged", "root 1 refused 10 0 3, unchanged",
         "pin 0 refused 8 0 3, unchanged", "pin 1 ok", "fold 2 0 0",
         # closed and full; closed, bound and full; closed, no section and full; all four
         "bind 64 1 refused 7 0 3, unchanged", "bind 3 1 refused 7 0 3, unchanged", "bind 64 0 refused 7 0 3, unchanged",
         "bind 3 0 refused 7 0 3, unchanged", "root 1 refused 7 0 3, unchanged", "root 0 refused 7 0 3, unchanged",
         "pin 1 refused 7 0 3, unchanged"])),
    ("the place of a refusal is 0, the section, or the name", PAIR, """
        pile
        bind 40000 3 refused 8 3 3, unchanged
        bind 40000 65535 refused 8 65535 3, unchanged
        bind 40000 1 ok
        bind 40000 2 refused 9 40000 3, unchanged
        bind 65535 2 ok
        bind 65535 2 refused 9 65535 3, unchanged
        pin 1024 refused 8 1024 3, unchanged
        root 65535 refused 8 65535 3, unchanged"""),
    # 2 is folded into 1, 4 is swept, and 5, like it, was folded into it before; 0 is absent
    ("a fold map with every outcome", graph(None, PLAIN, PLAIN, Section(pinned=True), OTHER, OTHER, roots=[2, 3]), """
        pile
        fold 3 2 1
        sweep 2 1
        places absent 1 1 3 swept swept
        map 190
        M 1 1 1
        M 2 2 1
        M 3 1 3
        M 4 3 0
        M 5 3 0"""),
    # what is closed, bound and full is each pile's own; what the pile below folded or swept is absent above
    ("a pile over a pile over a pile", graph(holding(out(7)), holding(out(8)), calls(3), PLAIN, OTHER, PLAIN, roots=[0, 1, 2]), """
        pile
        bind 7 3 ok
        fold 4 2 1
        bind 8 5 refused 7 0 3, unchanged
        places 0 1 0 3 4 3
        pile
        places 0 1 absent 3 4 absent
        bind 7 3 ok
        bind 8 5 refused 8 5 3, unchanged
        bind 8 4 ok
        pin 2 refused 8 2 3, unchanged
        root 3 ok
        fold 4 0 2
        table 540
        H 6 4
        S 0 6 1 1 1 0
        B 195
        R 0 4 0 3 0
        S 1 6 1 1 1 0
        B 195
        R 0 4 0 4 0
        S 3 6 1 1 0 0
        B 195
        S 4 6 1 1 0 0
        B 144
        T 0
        T 1
        T 0
        T 3
        E 4
        map 152
        M 0 1 0
        M 1 1 1
        M 3 1 3
        M 4 1 4
        pile
        pin 0 ok
        root 4 ok
        sweep 4 0
        fold 4 0 1
        places 0 1 absent 3 4 absent"""),
    ("each pile sweeps what the one below kept", graph(PLAIN, OTHER, calls(1), roots=[2]), """
        pile
        pin 0 ok
        root 0 ok
        fold 3 0 1
        pile
        sweep 3 0
        pile
        pin 1 ok
        sweep 3 0
        places 0 1 2"""),
]


ARGUMENTS = {"bind": 2, "pin": 1, "root": 1}


def by_hand(script):
    """The orders of a script, and the lines that are expected of them."""
    orders, lines = [], []
    for line in map(str.strip, script.strip().split("\n")):
        verb, *words = line.split()
        if not verb.isupper():
            orders.append(compact([verb, *words[: ARGUMENTS.get(verb, 0)]]))
        if verb == "pile" and lines:
            lines.append(UNCHANGED)
        lines += places(words) if verb == "places" else [line]
    return orders, lines + [UNCHANGED]


# the random cases


class Chance:
    """Chances by `random` alone, which gives the same numbers in every version of Python."""

    def __init__(self, seed):
        self.source = random.Random(seed)

    def below(self, n):
        return int(self.source.random() * n)

    def one_of(self, some):
        return some[self.below(len(some))]

    def happens(self, percent):
        return self.below(100) < percent


def random_relocation(chance, targets, length):
    other = dict(
        offset=chance.below(length),
        type=chance.one_of([4, 4, 4, 2]),
        displacement=chance.one_of([0, 0, 0, 0, -4, LOW, HIGH]),
    )
    if targets and chance.happens(75):
        return to(chance.one_of(targets), **other)
    return out(chance.below(4), **other)


def random_section(chance, targets):
    length = chance.one_of([0, 1, 1, 2, 2, 17])
    return Section(
        data=tuple(chance.one_of([195, 195, 0]) for _ in range(length)),
        relocations=tuple(random_relocation(chance, targets, length) for _ in range(chance.below(3) if length else 0)),
        flags=chance.one_of([6, 6, 6, 2]),
        alignment=chance.one_of([1, 1, 1, 16]),
        pinned=chance.happens(10),
    )


def random_numbers(chance, most):
    """A count, and which sections are present."""
    count = chance.below(most + 1)
    return count, [s for s in range(count) if chance.happens(85)]


def with_roots(chance, sections):
    present = [s for s, section in enumerate(sections) if section]
    roots = [chance.one_of(present) for _ in range(chance.below(5))] if present else []
    return graph(*sections, roots=roots)


def scattered(chance):
    """A graph of random sections."""
    count, present = random_numbers(chance, 9)
    return with_roots(chance, [random_section(chance, present) if s in present else None for s in range(count)])


def alike(chance):
    """A graph of sections that differ in what they call, and some in a byte."""
    count, present = random_numbers(chance, 12)
    data = lambda: (chance.one_of([195] * 9 + [0]),)
    section = lambda: calls(*[chance.one_of(present) for _ in range(chance.one_of([0, 1, 1, 1, 2]))], data=data())
    return with_roots(chance, [section() if s in present else None for s in range(count)])


def changed(chance, section):
    """The section with one thing changed."""
    if not section.relocations or chance.happens(25):
        return chance.one_of([
            section._replace(flags=section.flags ^ 1),
            section._replace(alignment=32),
            section._replace(data=section.data[:-1] + (7,)),
            section._replace(relocations=section.relocations[::-1]),
            section._replace(pinned=True),
        ])
    first, *others = section.relocations
    sort, number = first.target
    first = chance.one_of([
        first._replace(offset=len(section.data) - 1 - first.offset),
        first._replace(type=first.type ^ 1),
        first._replace(displacement=first.displacement ^ 1),
        first._replace(target=(sort, number // 2)),
        first._replace(target=("outside", number)),
    ])
    return section._replace(relocations=(first, *others))


def copied(chance):
    """A graph and its copy, in which relocations go from one to the other as well; in most, one thing in one section is changed."""
    count = 1 + chance.below(5)
    half = [random_section(chance, list(range(count)))._replace(pinned=False) for _ in range(count)]

    def astray(r):
        sort, number = r.target
        return r if sort == "outside" else r._replace(target=(sort, number + count * chance.below(2)))

    both = [section._replace(relocations=tuple(map(astray, section.relocations))) for section in half + half]
    if chance.happens(75):
        s = chance.below(2 * count)
        both[s] = changed(chance, both[s])
    return with_roots(chance, both)


def chained(chance):
    """Some chains, each section calling the next one; they end in a section of their own, or in one that is there already."""
    sections = []
    for _ in range(1 + chance.below(3)):
        for _ in range(chance.below(7)):
            sections.append(calls(len(sections) + 1))
        if sections and chance.happens(30):
            sections.append(calls(chance.below(len(sections))))
        else:
            sections.append(chance.one_of([PLAIN, PLAIN, OTHER]))
    return with_roots(chance, sections)


def random_call(chance, graph):
    present = graph.present()
    section = chance.one_of(present) if present and chance.happens(85) else chance.below(len(graph.sections) + 1)
    verb = chance.one_of(["bind", "bind", "bind", "pin", "root", "root"])
    return f"bind {chance.below(4)} {section}" if verb == "bind" else f"{verb} {section}"


def random_orders(chance, graph):
    orders = [random_call(chance, graph) for _ in range(chance.below(5))]
    for _ in range(chance.one_of([0, 1, 1, 2, 2, 3])):
        orders.append(chance.one_of(["sweep", "fold", "fold"]))
        if chance.happens(20):
            orders.append(random_call(chance, graph))
    return orders + ["places", "map", "table"]


def random_case(seed):
    """A graph, orders to one, two or three piles, and the lines that come of them."""
    chance = Chance(seed)
    below = now = chance.one_of([scattered, alike, alike, copied, copied, copied, chained, chained])(chance)
    orders, lines = [], []
    for _ in range(chance.one_of([1, 1, 2, 3])):
        some = random_orders(chance, now)
        pile, more = play(now, some)
        orders += ["pile", *some]
        lines += more
        now = pile.graph
    return below, orders, lines


def digest(data):
    """FNV-1a."""
    value = 0xCBF29CE484222325
    for x in data:
        value = (value ^ x) * 0x100000001B3 % 2**64
    return value


def wide(lines):
    """Lines with the numbers of rows in columns."""
    return "".join(text([line.split()]) if line[0].isupper() else line + "\n" for line in lines)


def case(name, graph, *parts):
    """A case as it stands in a file: its name and table, and more parts, each behind an empty line."""
    lines = [f"= {name}", *map(compact, table(graph))]
    for part in parts:
        lines += ["", *part]
    return "".join(line + "\n" for line in lines)


COUNT = 240


def main():
    worked, random_cases, said, every = [], [], [], []
    for name, below, script in WORKED:
        orders, lines = by_hand(script)
        assert lines == play_all(below, orders), (name, lines, play_all(below, orders))
        worked.append(case(name, below, orders))
        said.append(f"{name}\n{wide(lines)}\n")
    for seed in range(1, COUNT + 1):
        below, orders, lines = random_case(seed)
        random_cases.append(case(seed, below, orders, lines))
        data = wide(lines).encode()
        said.append(f"{seed}: {len(data)} bytes, digest {digest(data):016x}\n")
        every += lines
    said.append(f"{COUNT} cases, 0 differ\n")
    # the random cases are worth something
    for number in (7, 8, 9):
        assert sum(f" refused {number} " in line and "unchanged" in line for line in every) > 20, number
    for k in range(6):
        assert sum(line.startswith("fold") and line.endswith(f" {k}") for line in every) > 3, k
    open("crates/pile_cases/data/worked", "w").write("".join(worked))
    open("crates/pile_cases/data/random", "w").write("".join(random_cases))
    open("crates/pile_cases/stdout", "w").write("".join(said))


main()
