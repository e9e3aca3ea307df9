#!/usr/bin/env python3
"""Times `farm judge` with 0, 1, 2 and 4 hosts, and prints its most memory with up to 16.

    bench/judge/hosts.py [PROGRAM] [LONG [SHORT]]

Three contests are judged, each by every number of hosts in turn, five times, and the best counts: LONG submissions (48 if
none are said) that run for 50 million instructions; SHORT submissions (200) of a program of the example contest, which reads a
few numbers and writes two, in 100 tests each; and as many of the shortest program that is right at all, ten instructions that
read a line and write it. Every table must be the one without hosts. Printed are tests a second by the clock, the ratio to no
hosts, and for the shortest runs how much longer a test takes with one host than with none, which is what a turn on the board
costs besides the farm's own work. Then as many submissions as there may be hosts, each of which takes 64 MiB, are judged with
0, 1, 4 and 16 hosts: the most memory, in pages of machines (64 MiB each).
"""

import os
import shutil
import subprocess
import sys
import time

TOP = os.path.dirname(os.path.dirname(os.path.dirname(os.path.abspath(__file__))))
sys.dont_write_bytecode = True
sys.path.insert(0, os.path.join(TOP, "tests"))

import judge_model as model  # noqa: E402
from judge import write  # noqa: E402
from place import program_and_numbers  # noqa: E402

OUT = os.path.join(TOP, "bench", "out", "judge")
EXAMPLE = os.path.join(TOP, "examples", "contest")
ROUNDS = 5
# Takes a page after the other, 16,384 of them, which is 64 MiB, and then loops.
WIDE = model.program("lui x11,0x100; lui x15,1; lui x16,0x4100; sb x0,0(x11); add x11,x11,x15; bltu x11,x16,-8; jal x0,0")


def contest(name, image, count, seconds, memory=1, tests=1, texts=("7\n", "7\n")):
    folder = os.path.join(OUT, name)
    shutil.rmtree(folder, ignore_errors=True)
    data = {f"problems/one/data/secret/{test}.{end}": text for test in range(1, tests + 1) for end, text in zip(("in", "ans"), texts)}
    write(folder, data | {
        "farm.json": '{"instructions_per_second": 100000000}',
        "problems/one/problem.yaml": f"name: One\nlimits:\n  memory: {memory}\n",
        "problems/one/domjudge-problem.ini": f"timelimit={seconds}\n",
        "submissions/image.rv32": image,
        "submissions.txt": "".join(f"{number} team one image.rv32\n" for number in range(1, count + 1)),
    })
    return folder


def read(path):
    with open(path, "rb") as file:
        return file.read()


def judged(program, folder, hosts):
    """The table and the seconds by the clock."""
    begin = time.monotonic()
    table = subprocess.run([program, "judge", folder, "--hosts", str(hosts)], capture_output=True, check=True).stdout
    return table, time.monotonic() - begin


def compare(program, name, folder, count):
    """The best time for each number of hosts."""
    numbers, best, table = [0, 1, 2, 4], {}, None
    for _ in range(ROUNDS):
        for hosts in numbers:
            got, seconds = judged(program, folder, hosts)
            table = table or got
            if got != table:
                sys.exit(f"{name}: another table with {hosts} hosts")
            best[hosts] = min(best.get(hosts, seconds), seconds)
    print(f"{name}: {count} tests, load average {os.getloadavg()[0]:.1f}")
    for hosts in numbers:
        print(f"  {hosts} hosts: {best[hosts]:7.3f} s, {count / best[hosts]:9.0f} tests/s, {best[0] / best[hosts]:.2f} times no hosts")
    return best


def memory_of(program, folder, hosts):
    peak, said = os.path.join(OUT, "peak"), os.path.join(OUT, "peak.txt")
    subprocess.run([peak, said, program, "judge", folder, "--hosts", str(hosts)], stdout=subprocess.DEVNULL, check=True)
    with open(said) as file:
        return int(file.read().split()[0]) / 1024


def main():
    program, numbers = program_and_numbers(sys.argv[1:])
    long, short = (numbers + [48, 200][len(numbers):])[:2]
    if not os.access(program, os.X_OK):
        print(f"skipped: {program} is not there; build it by './farm --build farm', or name another one")
        return 0
    os.makedirs(OUT, exist_ok=True)
    compare(program, "long runs", contest("long", model.LOOP, long, 0.5), long)
    image, *texts = (read(os.path.join(EXAMPLE, part)) for part in ["submissions/pair_right.rv32", "problems/pair/data/sample/1.in", "problems/pair/data/sample/1.ans"])
    compare(program, "short runs", contest("short", image, short, 1, tests=100, texts=texts), 100 * short)
    best = compare(program, "the shortest runs", contest("shortest", model.ECHO, short, 1, tests=100), 100 * short)
    print(f"  with one host a test takes {(best[1] - best[0]) / (100 * short) * 1e6:.2f} microseconds more than with none: a turn on the board")
    subprocess.run(["cc", "-O2", "-o", os.path.join(OUT, "peak"), os.path.join(TOP, "bench", "machine", "peak.c")], check=True)
    folder = contest("wide", WIDE, 16, 0.05, memory=66)
    for hosts in [0, 1, 4, 16]:
        memory = memory_of(program, folder, hosts)
        print(f"16 submissions of 64 MiB, {hosts} hosts: {memory:.0f} MiB, {memory / 64:.1f} machines")
    return 0


if __name__ == "__main__":
    sys.exit(main())
