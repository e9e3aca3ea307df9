#!/usr/bin/env python3
"""Speed and memory of the machine beside three plain C interpreters of the same machine, in one run.

cached: a decoded cache by pc and one switch a step; threaded: whole pages are decoded and each instruction jumps to
the next by computed goto; paged: whole pages are decoded, and one switch a step (by clang -O3 where it is there, else
by gcc -O2 as the others). All four have the same meter, page limit and calls. Prints million instructions a second (the
best of the rounds, which are taken in turn), ratios, their geometric means and peak memory. Where a process took less of
the processor than its run took by the clock, since others had it in between, the processor's time counts.

usage: bench.py [ROUNDS]    RVRUN names the machine's program, if it is not crates/rvrun/out/rvrun
"""
import math
import os
import re
import shutil
import subprocess
import sys

HERE = os.path.dirname(os.path.abspath(__file__))
OUT = os.path.join(HERE, "..", "out")
RVRUN = os.environ.get("RVRUN", os.path.join(HERE, "..", "..", "crates", "rvrun", "out", "rvrun"))
PROGRAMS = ["arithmetic", "walk", "calls", "hashing", "backtracking", "matrices"]
ENDING = re.compile(r"ending (\S+) cost (\d+) pages (\d+) load (\d+) run (\d+)")


def build():
    os.makedirs(OUT, exist_ok=True)
    done = subprocess.run([os.path.join(HERE, "..", "programs", "build.sh"), *PROGRAMS, "echo"])
    if done.returncode == 77:
        sys.exit(0)
    done.check_returncode()
    paged = ["clang", "-O3"] if shutil.which("clang") else ["gcc", "-O2"]
    for name, compiler in [("cached", ["gcc", "-O2"]), ("threaded", ["gcc", "-O2"]), ("paged", paged),
                           ("peak", ["gcc", "-O2"])]:
        subprocess.run([*compiler, "-Wall", "-Wextra", "-o", os.path.join(OUT, name),
                        os.path.join(HERE, name + ".c")], check=True)


def run(interpreter, image, stdin=b""):
    """What a run wrote, its ending, cost, pages, nanoseconds of load and run, its peak memory in KiB, and nanoseconds of
    the processor."""
    with open(os.path.join(OUT, "stdin"), "wb") as file:
        file.write(stdin)
    with open(os.path.join(OUT, "stdin"), "rb") as given, open(os.path.join(OUT, "stdout"), "wb") as out, \
            open(os.path.join(OUT, "stderr"), "wb") as err:
        status = subprocess.run([os.path.join(OUT, "peak"), os.path.join(OUT, "peak.txt"), interpreter,
                                 "--instructions", "20000000000", "--pages", "65536", "--output", "16777216",
                                 os.path.join(OUT, image + ".rv32")],
                                stdin=given, stdout=out, stderr=err).returncode
    with open(os.path.join(OUT, "stderr")) as file:
        found = ENDING.search(file.read())
    if status != 0 or not found:
        sys.exit(f"{interpreter} {image}: status {status}")
    with open(os.path.join(OUT, "stdout"), "rb") as file:
        wrote = file.read()
    with open(os.path.join(OUT, "peak.txt")) as file:
        peak, took = map(int, file.read().split())
    return (wrote, found[1], int(found[2]), int(found[3])), int(found[4]), int(found[5]), peak, 1000 * took


def main():
    rounds = int(sys.argv[1]) if len(sys.argv) > 1 else 5
    if not os.access(RVRUN, os.X_OK):
        print(f"skipped: {RVRUN} is not there; build it by './farm --build rvrun', or name it in RVRUN")
        return
    build()
    others = ["cached", "threaded", "paged"]
    interpreters = {"machine": RVRUN, **{name: os.path.join(OUT, name) for name in others}}
    ratios = {name: [] for name in others}
    print(f"{'program':<13}{'instructions':>13}" + "".join(f"{name + ' M/s':>15}" for name in interpreters)
          + "".join(f"{'/' + name:>11}" for name in others) + "   peak MiB")
    for program in PROGRAMS:
        best, peak, meaning = {}, {}, {}
        for _ in range(rounds):
            for name, path in interpreters.items():
                meaning[name], _, nanoseconds, memory, took = run(path, program)
                speed = meaning[name][2] * 1e3 / min(nanoseconds, took)
                best[name] = max(best.get(name, 0), speed)
                peak[name] = max(peak.get(name, 0), memory)
        if len(set(meaning.values())) != 1:
            sys.exit(f"{program}: the interpreters disagree: {meaning}")
        for name in others:
            ratios[name].append(best["machine"] / best[name])
        print(f"{program:<13}{meaning['machine'][2]:>13}" + "".join(f"{best[name]:>15.0f}" for name in interpreters)
              + "".join(f"{best['machine'] / best[name]:>11.2f}" for name in others) + "   "
              + ", ".join(f"{name} {peak[name] / 1024:.1f}" for name in interpreters))
    print("geometric means: " + ", ".join(f"/{name} {math.prod(ratios[name]) ** (1 / len(PROGRAMS)):.2f}" for name in others))
    for name, path in interpreters.items():
        times = sorted((load, total) for _, load, total, _, _ in (run(path, "echo", b"7\n") for _ in range(21)))
        print(f"{name}: a small image loads in {times[10][0] / 1e3:.1f} us and runs in "
              f"{sorted(total for _, total in times)[10] / 1e3:.1f} us (median of 21 processes)")


main()
