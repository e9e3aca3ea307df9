#!/usr/bin/env python3
"""Times `validate` beside a straightforward C++ program that does the same, on the same texts, in one run.

    bench/validator/run.py [SIZE] [TURNS]

The texts are pairs of an answer and an output of SIZE bytes (16 MiB if none is said): whole numbers, floats with a
tolerance, words. The two programs take turns, TURNS times (5), each reading both texts from files; the least processor
time of each counts. Printed are MB a second and the ratio (above 1: faster than the C++ program). `validate` is built
by `./farm --build validate`, the other one here by `g++`.
"""

import os
import resource
import subprocess
import sys

TOP = os.path.dirname(os.path.dirname(os.path.dirname(os.path.abspath(__file__))))
HERE = os.path.join(TOP, "bench", "validator")
OUT = os.path.join(TOP, "bench", "out", "validator")
OURS = os.path.join(TOP, "crates", "validate", "out", "validate")
THEIRS = os.path.join(OUT, "validator")

PAIRS = [("numbers", ""), ("floats", "float_tolerance 1e-6"), ("words", "")]


def seconds(words, source, status):
    """The processor time of one run, which ends with this status."""
    before = resource.getrusage(resource.RUSAGE_CHILDREN)
    with open(source, "rb") as stdin:
        done = subprocess.run(words, stdin=stdin, stdout=subprocess.DEVNULL, check=False)
    after = resource.getrusage(resource.RUSAGE_CHILDREN)
    if done.returncode != status:
        sys.exit(f"status {done.returncode} of {words}")
    return after.ru_utime + after.ru_stime - before.ru_utime - before.ru_stime


def main():
    words = sys.argv[1:]
    size, turns = words[0] if words else "16777216", int(words[1]) if len(words) > 1 else 5
    os.makedirs(OUT, exist_ok=True)
    if not os.path.exists(OURS):
        sys.exit(f"{OURS} is not there: build it by `./farm --build validate`")
    subprocess.run(["g++", "-O2", "-std=c++17", "-o", THEIRS, os.path.join(HERE, "validator.cc")], check=True)
    subprocess.run([sys.executable, os.path.join(HERE, "make_texts.py"), OUT, size], check=True)
    print(f"{'texts':8}{'proved MB/s':>13}{'C++ MB/s':>11}{'ratio':>8}")
    for name, flags in PAIRS:
        answer, output = (os.path.join(OUT, f"{name}.{ending}") for ending in ("ans", "out"))
        ours, theirs = [], []
        for _ in range(turns):
            ours.append(seconds([OURS, answer, answer, OUT, *flags.split()], output, 42))
            theirs.append(seconds([THEIRS, flags, answer, output], output, 42))
        size_in_mb = (os.path.getsize(answer) + os.path.getsize(output)) / 1e6
        print(f"{name:8}{size_in_mb / min(ours):13.0f}{size_in_mb / min(theirs):11.0f}{min(theirs) / min(ours):8.2f}")


if __name__ == "__main__":
    main()
