#!/usr/bin/env python3
"""Times the compiled program, and the linkers that are installed, and prints one table.

Run from the root of the repository, once the program is built (in crates/yilmacrab: rt run -- --help): bench/run.py [RUNS]

Each line is one program on a large input and, in the first part, on a smaller one, with the ratios of the sizes and of the times and the
ratio of the times that one would expect. In the second part linkers sweep and fold the same object, and the last column tells how many
times as long the program of this repository took: `fold` writes a table, `run` sweeps and folds and writes none. Each time is the least of
RUNS runs (7 if left out, and three times as many in the second part), less the least that the program took for an object of one section in
the same runs. All programs of an input take turns.
"""
import os
import re
import subprocess
import sys
import tempfile
import time
from collections import namedtuple

import inputs
import linkers

PROGRAM = "crates/yilmacrab/out/yilmacrab"
LIMIT = 1000

# What is told of a program's time less that of its start: less is lost in the start's own ups and downs.
LEAST = 0.5

# How an input is written and made, large and small; the command; what the times should go by, and so their ratio; and how many sections
# of the large input are merged, in how many rounds.
Growth = namedtuple("Growth", "name write make large small doing expected merged rounds")

# The first three are to end within the limit.
BOUNDED = 3
GROWTH = [
    Growth("chain of 1,024 near-alike sections, a table", inputs.write_table, inputs.chain, (1024,), (102,), "fold", "100: rounds x relocations", 0, 1023),
    Growth("1,000 sections of 60 kB, last byte apart, an object", inputs.write_object, inputs.alike_but_last_byte, (1000, 60000), (1000, 6000), "fold", "10: bytes", 744, 1),
    Growth("1,000 alike sections, 60 relocations each, a table", inputs.write_table, inputs.alike, (1000, 60), (100, 60), "fold", "10: bytes", 999, 0),
    Growth("1,000 sections of 6 kB, last byte apart, a table", inputs.write_table, inputs.alike_but_last_byte, (1000, 6000), (1000, 600), "fold", "10: bytes", 744, 1),
    Growth("1,024 sections, an object of 60 MB", inputs.write_object, inputs.apart, (1017, 59000), (1017, 5900), "table", "10: bytes", None, None),
    Growth("1,024 sections, an object of 60 MB", inputs.write_object, inputs.apart, (1017, 59000), (1017, 5900), "fold", "10: bytes", 0, 1),
    Growth("1,024 sections, a table of 63 MB", inputs.write_table, inputs.one_pattern, (1024, 15000), (1024, 1500), "check", "10: bytes", None, None),
]

# An object that linkers are given too.
Linked = namedtuple("Linked", "name make size merged rounds")

LINKED = [
    Linked("1,000 small sections, 1,900 relocations", inputs.callers_and_leaves, (18, 100, 981), 327, 1),
    Linked("320 sections of 17.8 kB", inputs.twins, (319, 17800), 159, 1),
    Linked("135 sections, 600,000 relocations", inputs.calling_twins, (135, 4445), 66, 1),
    Linked("chain of 500 near-alike sections", inputs.chain, (500,), 0, 498),
]

# A program on an input and on an object of one section: its name, both lists of words, and what it reads from standard input.
Job = namedtuple("Job", "name words idle typed")


def ours(doing, path, tiny):
    return Job(f"yilmacrab {doing}", [PROGRAM, doing, path], [PROGRAM, doing, tiny], b"sweep\nfold\n" if doing == "run" else b"")


def theirs(name, path, tiny, output):
    return Job(name, linkers.command(name, path, output), linkers.command(name, tiny, output), b"")


def took(words, typed):
    start = time.perf_counter()
    subprocess.run(words, input=typed, check=True, stdout=subprocess.DEVNULL, stderr=subprocess.DEVNULL)
    return 1000 * (time.perf_counter() - start)


def net(jobs, runs):
    """The least time of each job, less that of its program's start, in milliseconds."""
    turns = [[(took(job.words, job.typed), took(job.idle, job.typed)) for job in jobs] for _ in range(runs)]
    return [max(min(t for t, _ in column) - min(t for _, t in column), LEAST) for column in zip(*turns)]


def check(path, merged, rounds):
    """That the program folds an input as it should."""
    told = subprocess.run([PROGRAM, "fold", path, "-o", os.devnull], check=True, capture_output=True, text=True).stdout
    line = re.search(r"^folded .*$", told, re.M).group()
    if not re.fullmatch(rf"folded +{merged} sections merged, \d+ present, {rounds} rounds", line):
        sys.exit(f"{merged} sections should be merged in {rounds} rounds, and it is: {line}")


def row(name, program, small_size, small, large_size, large, sizes, times, expected, ratios):
    print(f"{name:52}{program:16}{small_size:>7}{small:>8}{large_size:>8}{large:>8}{sizes:>7}{times:>7}  {expected:27}{ratios}".rstrip(), flush=True)


def mega(size):
    return f"{size / 1e6:.2f}"


def one(number):
    return f"{number:.1f}"


def milli(t):
    return one(t) if t > LEAST else f"<{LEAST}"


def growth(work, folder, tiny, runs):
    """Prints the line of a workload, and answers the time of the large input."""
    large, small = os.path.join(folder, "large"), os.path.join(folder, "small")
    sizes = work.write(large, work.make(*work.large)), work.write(small, work.make(*work.small))
    if work.merged is not None:
        check(large, work.merged, work.rounds)
    times = net([ours(work.doing, path, tiny) for path in (large, small)], runs)
    row(work.name, f"yilmacrab {work.doing}", mega(sizes[1]), milli(times[1]), mega(sizes[0]), milli(times[0]),
        one(sizes[0] / sizes[1]), one(times[0] / times[1]), work.expected, "")
    return times[0]


def linked(work, folder, tiny, runs):
    """Prints the lines of an object that linkers are given too."""
    path, output = os.path.join(folder, "large"), os.path.join(folder, "out")
    size = inputs.write_object(path, work.make(*work.size))
    check(path, work.merged, work.rounds)
    jobs = [ours(doing, path, tiny) for doing in ("fold", "run")] + [theirs(name, path, tiny, output) for name in linkers.installed()]
    times = net(jobs, runs)
    for k, (job, t) in enumerate(zip(jobs, times)):
        merged, ratios = work.merged, ""
        if k >= 2:
            merged = linkers.merged(job.name, path, output)
            ratios = f"fold {times[0] / t:.1f}, run {times[1] / t:.1f}" if t > LEAST else "too little to tell"
        row(work.name, job.name, "", "", mega(size), milli(t), "", "", f"{merged} merged", ratios)


def main():
    runs = int(sys.argv[1]) if len(sys.argv) > 1 else 7
    if not os.path.exists(PROGRAM):
        sys.exit("build it first, in crates/yilmacrab: rt run -- --help")
    row("", "", "MB", "ms", "MB", "ms", "sizes", "times", "expected", "ours to theirs")
    with tempfile.TemporaryDirectory() as folder:
        tiny = os.path.join(folder, "tiny")
        inputs.write_object(tiny, [inputs.section(b"\xc3")])
        times = [growth(work, folder, tiny, runs) for work in GROWTH]
        for work in LINKED:
            linked(work, folder, tiny, 3 * runs)
    slow = [work.name for work, t in zip(GROWTH[:BOUNDED], times) if t > LIMIT]
    if slow:
        sys.exit(f"over {LIMIT} ms: {'; '.join(slow)}")


main()
