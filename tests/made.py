#!/usr/bin/env python3
"""Checks what `farm make` writes beside a model of the contests that it makes, written apart from the program.

    tests/made.py [PROGRAM [TURNS [SEED]]]

PROGRAM is the built program, `crates/farm/out/farm` of this repository if none is given. The model draws the contest
from its number, knows what each of the seven programs gives for an input, takes the verdict of all tests of a
submission, and makes the counts and the digest of the table. Compared are sizes at the limits, as many random ones as
are said, each run twice, and words that are no command line. The status is 1 where one differs.
"""

import hashlib
import random
import subprocess
import sys
from functools import reduce

sys.dont_write_bytecode = True

from place import program_and_numbers  # noqa: E402
from rule_model import KINDS, Rule  # noqa: E402

SIZES = [(0, 1, 1), (0, 1, 3), (1, 3, 20), (4294967295, 50, 100), (7, 50, 2000)]
REFUSED = ["", "1", "1 1", "1 1 1 1", "4294967296 1 1", "1 0 1", "1 51 1", "1 1 0", "1 1 2001", "01 1 1", "1 +1 1", "-1 1 1", "1 1 x"]


class Draws:
    def __init__(self, number):
        self.state = number

    def draw(self):
        self.state = (self.state * 1664525 + 1013904223) % 2**32
        return self.state // 65536


def kind_of(program, number):
    """The kind that the program of this number gives where the test's input is this number."""
    small = str(number)[0] < "5"
    return ["correct", "no-output", "timelimit", "run-error", "correct" if small else "timelimit", "memory-limit"][program]


def table_of(number, problems, submissions):
    draws, rule = Draws(number), Rule()
    inputs = [[draws.draw() % 1000 for _ in range(1 + draws.draw() % 5)] for _ in range(problems)]
    for s in range(1, submissions + 1):
        problem, program, team = 1 + draws.draw() % problems, draws.draw() % 7, draws.draw() % 10
        verdict = "compiler-error"
        if program < 6:
            verdict = reduce(rule.better, [kind_of(program, number) for number in inputs[problem - 1]])
        yield f"{s} t{team} p{problem} {verdict}\n"


def wanted(number, problems, submissions):
    rows = list(table_of(number, problems, submissions))
    verdicts = [row.split()[3] for row in rows]
    counts = "".join(f"{kind} {verdicts.count(kind)}\n" for kind in [*KINDS, "compiler-error"])
    return counts + "table " + hashlib.sha256("".join(rows).encode()).hexdigest() + "\n"


def run(program, words):
    done = subprocess.run([program, "make", *words], stdin=subprocess.DEVNULL, capture_output=True, check=False, timeout=300)
    return done.returncode, done.stdout.decode()


def main():
    program, numbers = program_and_numbers(sys.argv[1:])
    turns, seed = numbers + [20, 1][len(numbers) :]
    draw = random.Random(seed)
    sizes = SIZES + [(draw.randrange(2**32), draw.randint(1, 50), draw.randint(1, 200)) for _ in range(turns)]
    for size in sizes:
        words = [str(number) for number in size]
        for _ in range(2):
            if run(program, words) != (0, wanted(*size)):
                print(f"differs: farm make {' '.join(words)}")
                return 1
    for text in REFUSED:
        if run(program, text.split()) != (2, ""):
            print(f"not refused: farm make {text}")
            return 1
    print(f"{2 * len(sizes)} contests made, {len(REFUSED)} command lines refused")
    return 0


if __name__ == "__main__":
    sys.exit(main())
