#!/usr/bin/env python3
"""Writes the tests of the three problems: inputs that are drawn, and answers by ways of their own.

    examples/contest/sources/tests.py
"""

import os
import random
from fractions import Fraction

PROBLEMS = os.path.join(os.path.dirname(os.path.dirname(os.path.abspath(__file__))), "problems")


def write(problem, test, given, answer):
    for end, text in [("in", given), ("ans", answer)]:
        path = os.path.join(PROBLEMS, problem, "data", f"{test}.{end}")
        os.makedirs(os.path.dirname(path), exist_ok=True)
        with open(path, "w") as file:
            file.write(text)


def mean(test, tenths):
    value = Fraction(sum(tenths), 10 * len(tenths))
    texts = [f"{'-' if t < 0 else ''}{abs(t) // 10}.{abs(t) % 10}" for t in tenths]
    write("mean", test, f"{len(texts)}\n{' '.join(texts)}\n", f"{float(value):.9f}\n")


def pair(test, values, target):
    places = {value: place for place, value in enumerate(values, 1)}
    found = [(i, places[target - v]) for i, v in enumerate(values, 1) if places.get(target - v, 0) > i]
    write("pair", test, f"{len(values)} {target}\n{' '.join(map(str, values))}\n", " ".join(map(str, found[0])) + "\n" if found else "none\n")


def common(test, first, second):
    # The lengths of the ends of the words, from the last letters on.
    lengths = {}
    for i in range(len(first), -1, -1):
        for j in range(len(second), -1, -1):
            if i == len(first) or j == len(second):
                lengths[i, j] = 0
            elif first[i] == second[j]:
                lengths[i, j] = 1 + lengths[i + 1, j + 1]
            else:
                lengths[i, j] = max(lengths[i + 1, j], lengths[i, j + 1])
    write("common", test, f"{first}\n{second}\n", f"{lengths[0, 0]}\n")


def main():
    drawn = random.Random(1)
    mean("sample/1", [35, -12, 70])
    mean("secret/01-one", [-5])
    mean("secret/02-thirds", [1, 1, 2])
    mean("secret/03-many", [drawn.randrange(-400, 400) for _ in range(500)])
    pair("sample/1", [3, 9, 4, 8], 12)
    pair("secret/01-none", [1, 2, 4, 8, 16], 7)
    pair("secret/02-half", [50, 6, 50, 94], 100)
    pair("secret/03-large", drawn.sample(range(2, 100_001, 2), 3000), 77_777)
    common("sample/1", "abcbdab", "bdcaba")
    common("secret/01-nothing", "aaaa", "bbb")
    common("secret/02-same", "contest" * 20, "contest" * 20)
    common("secret/03-long", *["".join(drawn.choice("abcd") for _ in range(500)) for _ in range(2)])


if __name__ == "__main__":
    main()
