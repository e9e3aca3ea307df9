#!/usr/bin/env python3
"""Times `farm judge` on a contest of real programs, beside a C interpreter in a process of its own for each test.

    bench/judge/run.py [PROGRAM [SUBMISSIONS [SEED]]]

The contest is that of `make.py`, with 500 submissions if none are said; then the same without the submissions that loop
without an end, whose runs are as long as the limit lets them be. Each is run three times in turn, and the best counts.
The C interpreters are those of `bench/machine` that decode pages whole. They run the same tests, of the raw form of each
submission, and stop a submission where `farm` does; they check no output and run no validators. Printed are submissions
and tests a second, the ratio to the faster interpreter (over 1: `farm judge` is faster), the most memory beside the
contest's bytes, also with a page that n processes have in common counted as an n-th (the PSS of Linux: most of libc's
pages are other processes' as well), and how long reading and the table take at most: that is the whole time of the same
contest where each run is given one instruction. Last comes the most memory with a problem of 50 MiB more. Rates are by
the time of the processor, whose worst round is printed too.
"""

import os
import resource
import shutil
import subprocess
import sys
import time

sys.dont_write_bytecode = True

import compare  # noqa: E402
import make  # noqa: E402
import problems  # noqa: E402

HERE = make.HERE
OUT = os.path.join(make.TOP, "bench", "out", "judge")
PAGES = 4 * 256
INSTRUCTIONS_A_SECOND = 10_000_000
OUTPUT = 1 << 20


def build():
    clang = shutil.which("clang")
    machine = os.path.join(make.TOP, "bench", "machine")
    for name, folder, compiler in [("paged", machine, ["clang", "-O3"] if clang else ["gcc", "-O2"]), ("threaded", machine, ["gcc", "-O2"]),
                                   ("peak", machine, ["gcc", "-O2"]), ("processes", HERE, ["gcc", "-O2"])]:
        subprocess.run([*compiler, "-o", os.path.join(OUT, name), os.path.join(folder, f"{name}.c")], check=True)


def timed(command, stdin=subprocess.DEVNULL):
    """What a command wrote, its seconds by the clock and of the processor, and its most memory in bytes."""
    peak = os.path.join(OUT, "peak.txt")
    before, start = resource.getrusage(resource.RUSAGE_CHILDREN), time.monotonic()
    wrote = subprocess.run([os.path.join(OUT, "peak"), peak, *command], stdin=stdin, stdout=subprocess.PIPE, check=True).stdout
    seconds, after = time.monotonic() - start, resource.getrusage(resource.RUSAGE_CHILDREN)
    with open(peak) as file:
        memory = 1024 * int(file.read().split()[0])
    return wrote, seconds, after.ru_utime + after.ru_stime - before.ru_utime - before.ru_stime, memory


def most_proportional(command):
    """The most bytes that a command took, looked at every 10 ms, where a page that n processes have counts as an n-th."""
    most = 0
    with subprocess.Popen(command, stdin=subprocess.DEVNULL, stdout=subprocess.DEVNULL) as process:
        while process.poll() is None:
            try:
                with open(f"/proc/{process.pid}/smaps_rollup") as file:
                    most = max([most, *(1024 * int(line.split()[1]) for line in file if line.startswith("Pss:"))])
            except ProcessLookupError:
                pass  # it has ended, and is not waited for yet
            time.sleep(0.01)
    return most


def tests_of(folder, name):
    found = []
    for part in ["sample", "secret"]:
        place = os.path.join(folder, "problems", name, "data", part)
        found += sorted(os.path.join(place, file) for file in os.listdir(place) if file.endswith(".in"))
    return found


def write_jobs(folder, path):
    """The jobs of the C interpreters, in the order of submissions and ranks."""
    with open(path, "w") as file:
        for number, _, name, image in compare.submissions(folder):
            instructions = INSTRUCTIONS_A_SECOND * problems.SECONDS.get(name, problems.SECONDS_OF_OTHERS)
            raw = os.path.join(make.BUILT, os.path.splitext(image)[0], f"{name}.rv32")
            for test in tests_of(folder, name):
                file.write(f"{number} {instructions} {PAGES} {OUTPUT} {raw} {test}\n")


def bytes_of(folder):
    """The bytes that a contest takes: tests, and an image per submission."""
    tests = sum(os.path.getsize(path[:-2] + end) for name in os.listdir(os.path.join(folder, "problems"))
                for path in tests_of(folder, name) for end in ("in", "ans"))
    return tests + sum(os.path.getsize(os.path.join(folder, "submissions", image)) for _, _, _, image in compare.submissions(folder))


def make_short(folder, short):
    """The same contest with one instruction for each run."""
    shutil.copytree(folder, short)
    make.write(os.path.join(short, "farm.json"), '{"instructions_per_second": 1000}')
    for name in os.listdir(os.path.join(short, "problems")):
        make.write(os.path.join(short, "problems", name, "domjudge-problem.ini"), "timelimit = 0.001\n")


def make_ending(folder, ending):
    """The same contest without the submissions that loop."""
    shutil.copytree(folder, ending)
    kept = [words for words in compare.submissions(folder) if "-loop-" not in words[3]]
    make.write(os.path.join(ending, "submissions.txt"), "".join(" ".join([str(n), *words[1:]]) + "\n" for n, words in enumerate(kept, 1)))


def make_large(folder, large):
    """The same contest with a problem of 50 tests of 1 MiB, to which nothing is submitted."""
    shutil.copytree(folder, large)
    problem = os.path.join(large, "problems", "large")
    make.write(os.path.join(problem, "problem.yaml"), "name: Large\n")
    make.write(os.path.join(problem, "domjudge-problem.ini"), "timelimit = 2\n")
    for test in range(50):
        path = os.path.join(problem, "data", "secret" if test else "sample", f"{test:02}")
        make.write(path + ".in", "1234567\n" * 2**17)
        make.write(path + ".ans", "7\n")


def best_of(*commands, jobs=None, rounds=3):
    """For each command what it wrote, the least of its times and memory, and the most time of the processor."""
    rows = [[] for _ in commands]
    for _ in range(rounds):
        for row, command in zip(rows, commands):
            with open(jobs or os.devnull) as stdin:
                row.append(timed(command, stdin=stdin))
    return [(row[0][0], *(min(column) for column in list(zip(*row))[1:]), max(one[2] for one in row)) for row in rows]


def measure(program, name, folder):
    jobs = os.path.join(OUT, "jobs.txt")
    write_jobs(folder, jobs)
    interpreters = ["paged", "threaded"]
    results = best_of([program, "judge", folder, "--hosts", "0"], *([os.path.join(OUT, "processes"), os.path.join(OUT, one)] for one in interpreters), jobs=jobs)
    runs, cost = map(int, results[1][0].split())
    count = len(list(compare.submissions(folder)))
    print(f"{name}: {count} submissions, {runs} tests run, {cost / 1e6:.0f} million instructions and bytes, load average {os.getloadavg()[0]:.1f}")
    for said, (_, clock, processor, _, worst) in zip(["farm judge", *(f"C, {one}, a process a test" for one in interpreters)], results):
        print(f"  {said:<31}{clock:7.2f} s, of the processor {processor:6.2f} s (worst {worst:.2f}): {count / processor:6.0f} submissions/s, "
              f"{runs / processor:6.0f} tests/s, {cost / processor / 1e6:4.0f} M/s")
    _, clock, processor, memory, _ = results[0]
    print(f"  over the faster one: {min(peer[2] for peer in results[1:]) / processor:.2f} by the processor, {min(peer[1] for peer in results[1:]) / clock:.2f} by the clock")
    print_memory(program, memory, folder)


def print_memory(program, memory, folder):
    contest, machine, part = bytes_of(folder), 4096 * PAGES, most_proportional([program, "judge", folder, "--hosts", "0"])
    print(f"  most memory {memory / 2**20:.2f} MiB, {part / 2**20:.2f} MiB with common pages in parts; the contest's bytes {contest / 2**20:.2f} MiB "
          f"and one machine's pages {machine / 2**20:.2f} MiB: {memory / (contest + machine):.3f} and {part / (contest + machine):.3f} of their sum")


def main():
    words = sys.argv[1:]
    program = os.path.abspath(words.pop(0)) if words and not words[0].isdigit() else compare.FARM
    submissions, seed = ([int(word) for word in words] + [500, 1][len(words):])[:2]
    if not os.access(program, os.X_OK):
        print(f"skipped: {program} is not there; build it by './farm --build farm', or name another one")
        return 0
    os.makedirs(OUT, exist_ok=True)
    folder, ending, short, large = (os.path.join(OUT, name) for name in ["contest", "ending", "short", "large"])
    for old in (folder, ending, short, large):
        shutil.rmtree(old, ignore_errors=True)
    build()
    make.make(folder, submissions, seed)
    make_ending(folder, ending)
    make_short(folder, short)
    make_large(ending, large)
    measure(program, "all submissions", folder)
    measure(program, "without those that loop", ending)
    [(_, _, processor, memory, _)] = best_of([program, "judge", short, "--hosts", "0"])
    print(f"reading, the table and one instruction for each submission: {processor:.3f} s of the processor, {memory / 2**20:.1f} MiB")
    print("without those that loop, and a problem of 50 MiB more:")
    print_memory(program, timed([program, "judge", large, "--hosts", "0"])[3], large)
    return 0


if __name__ == "__main__":
    sys.exit(main())
