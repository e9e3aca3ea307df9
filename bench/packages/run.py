#!/usr/bin/env python3
"""Reads problem packages by `package_info` and beside it only lists and reads the same files, and prints both.

    bench/packages/run.py [ROUNDS]

The packages have 500 tests with 200 MiB in all, and 1,000 tests of a few bytes; they are written to `bench/out` and
stay in the system's cache. Printed are, for each, the seconds (the best of the rounds, 5 if none are said, taken in
turn), the ratio, and for the large one the most memory. The plain reader is `plain.c`, which keeps the bytes
of all files too.
"""

import os
import shutil
import subprocess
import sys
import time

sys.dont_write_bytecode = True

HERE = os.path.dirname(os.path.abspath(__file__))
TOP = os.path.dirname(os.path.dirname(HERE))
OUT = os.path.join(TOP, "bench", "out", "packages")
PROGRAM = os.path.join(TOP, "crates", "package_info", "out", "package_info")

# The name, how many tests, and the bytes of each input and each answer.
PACKAGES = [("large", 500, 419_430, 1), ("many", 1_000, 2, 2)]


def write(name, tests, size, answer):
    folder = os.path.join(OUT, name)
    shutil.rmtree(folder, ignore_errors=True)
    os.makedirs(os.path.join(folder, "data", "secret"))
    with open(os.path.join(folder, "problem.yaml"), "w") as file:
        file.write(f"name: {name}\n")
    for number in range(tests):
        path = os.path.join(folder, "data", "secret", f"{number:04}")
        with open(path + ".in", "wb") as file:
            file.write(b"12345678\n" * (size // 9) + b"\n" * (size % 9))
        with open(path + ".ans", "wb") as file:
            file.write(b"7" * answer)
    return folder


def run(program, folder):
    """Seconds and the most memory, in bytes, of one run."""
    start = time.perf_counter()
    child = subprocess.Popen([program, folder], stdout=subprocess.DEVNULL)
    _, status, usage = os.wait4(child.pid, 0)
    seconds = time.perf_counter() - start
    child.returncode = os.waitstatus_to_exitcode(status)
    if child.returncode:
        sys.exit(f"{program} {folder}: status {child.returncode}")
    return seconds, usage.ru_maxrss * 1024


def measure(plain, rounds, name, tests, size, answer):
    folder = write(name, tests, size, answer)
    total = tests * (size + answer)
    ours, theirs = [], []
    for _ in range(rounds):
        ours.append(run(PROGRAM, folder))
        theirs.append(run(plain, folder))
    seconds, other = min(ours)[0], min(theirs)[0]
    print(f"{tests:,} tests, {total / 2**20:,.1f} MiB: {seconds * 1e3:,.1f} ms; listed and read alone: {other * 1e3:,.1f} ms; "
          f"ratio {seconds / other:.2f}")
    # The most memory that is counted is at least that of this script, from which the programs are started.
    if total > 2**26:
        print(f"  most memory {max(ours)[1] / 2**20:,.1f} MiB; of the plain reader {max(theirs)[1] / 2**20:,.1f} MiB")
    shutil.rmtree(folder)


def main():
    rounds = int(sys.argv[1]) if len(sys.argv) > 1 else 5
    if not os.access(PROGRAM, os.X_OK):
        sys.exit(f"{PROGRAM} is not there; build it by './farm --build package_info'")
    os.makedirs(OUT, exist_ok=True)
    plain = os.path.join(OUT, "plain")
    subprocess.run(["gcc", "-O2", "-Wall", "-Wextra", "-o", plain, os.path.join(HERE, "plain.c")], check=True)
    for package in PACKAGES:
        measure(plain, rounds, *package)


main()
