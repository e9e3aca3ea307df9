#!/usr/bin/env python3
"""Prints the rate of `record` and `show` for judgings of 10 tests and of 1,000 tests.

    bench/script/rows.py [PROGRAM]

PROGRAM is the built program, `crates/farm/out/farm` of this repository if none is given. The scripts of both
sizes have 500,000 records and as many shows: after each record the judging is shown. Each result is the first of
its cell, so each is counted, and all are correct, so a judging is pending until its last cell is filled. The
cells are filled judging by judging from the first test on, the same from the last test on, and in random order
over all judgings. Printed are lines a second of the processor for both sizes, without what the problem and the
submissions cost, the ratio, and whether the replies are the right ones.
"""

import random
import sys

sys.dont_write_bytecode = True

from run import path, run  # noqa: E402
from place import program_and_numbers  # noqa: E402

SIZES = [10, 1_000]
RECORDS = 500_000
RUNS = 7


def from_the_first(tests):
    return [(judging, test) for judging in range(1, RECORDS // tests + 1) for test in range(1, tests + 1)]


def from_the_last(tests):
    return [(judging, tests + 1 - test) for judging, test in from_the_first(tests)]


def at_random(tests):
    cells = from_the_first(tests)
    random.Random(3).shuffle(cells)
    return cells


ORDERS = [from_the_first, from_the_last, at_random]


def write_setup(lines, replies, tests):
    lines.write(f"problem p {tests}\n")
    replies.write("problem p version 1\n")
    for judging in range(1, RECORDS // tests + 1):
        lines.write("submit p\n")
        replies.write(f"submission {judging} judging {judging}\n")


def write_cells(lines, replies, tests, order):
    empty = [tests] * (RECORDS // tests + 1)
    for judging, test in order(tests):
        empty[judging] -= 1
        lines.write(f"record {judging} {test} correct\nshow {judging}\n")
        replies.write(f"counted\n{'pending' if empty[judging] else 'final correct'}\n")


def names(tests, order):
    name = f"rows {tests} {order.__name__ if order else 'none'}"
    return path(name, ".lines"), path(name, ".replies"), path(name, ".out")


def make(tests, order=None):
    """Writes a script and the replies to it; without an order it has the problem and the submissions alone."""
    source, want, _ = names(tests, order)
    with open(source, "w") as lines, open(want, "w") as replies:
        write_setup(lines, replies, tests)
        if order:
            write_cells(lines, replies, tests, order)


def cost(program, tests, order=None):
    """Seconds of the processor of one run, and whether the replies are the right ones."""
    source, want, got = names(tests, order)
    _, processor, status = run(program, source, got)
    with open(want, "rb") as wanted, open(got, "rb") as came:
        return processor, status == 0 and wanted.read() == came.read()


def measure(program, order):
    """The rates of both sizes, which take turns in running, and whether all replies are the right ones."""
    least, sound = {}, True
    for _ in range(RUNS):
        for tests in SIZES:
            for part in [None, order]:
                seconds, right = cost(program, tests, part)
                least[tests, part] = min(seconds, least.get((tests, part), seconds))
                sound = sound and right
    return [2 * RECORDS / (least[tests, order] - least[tests, None]) for tests in SIZES], sound


def main():
    program, _ = program_and_numbers(sys.argv[1:])
    sound = True
    for order in [None] + ORDERS:
        for tests in SIZES:
            make(tests, order)
    for order in ORDERS:
        rates, right = measure(program, order)
        shown = "; ".join(f"{tests:,} tests {rate:,.0f} lines/s" for tests, rate in zip(SIZES, rates))
        print(f"{order.__name__.replace('_', ' ')}: {shown}; {rates[1] / rates[0]:.2f} times the rate")
        print(f"  replies {'are the right ones' if right else 'are NOT the right ones'}")
        sys.stdout.flush()
        sound = sound and right
    return 0 if sound else 1


if __name__ == "__main__":
    sys.exit(main())
