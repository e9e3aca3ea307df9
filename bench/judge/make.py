#!/usr/bin/env python3
"""Makes a contest of real programs in a folder.

    bench/judge/make.py FOLDER [SUBMISSIONS [SEED]]

The programs are those of `programs/`, right and with one thing wrong each: a wrong answer, a trap, a status that is not
0, no output, a loop without an end, output without an end, memory without an end. Each is built as an executable and as
a raw image, by -O0 and by -O2, and the same program in these four forms is handed in by four teams in a row. The tests
are those of `problems.py`. `known.txt` says the verdicts that depend on limits alone, for `compare.py`.

Wants Debian's gcc-riscv64-unknown-elf. What is built is kept in `bench/out/judge/built`.
"""

import os
import random
import shutil
import subprocess
import sys
from concurrent.futures import ThreadPoolExecutor

sys.dont_write_bytecode = True

import problems  # noqa: E402

HERE = os.path.dirname(os.path.abspath(__file__))
TOP = os.path.dirname(os.path.dirname(HERE))
STARTER = os.path.join(TOP, "examples", "starter", "build.sh")
BUILT = os.path.join(TOP, "bench", "out", "judge", "built")

FAULTS = ["RIGHT", "WRONG", "TRAP", "STATUS", "SILENT", "LOOP", "FLOOD", "GREEDY"]
KNOWN = {"LOOP": "timelimit", "FLOOD": "output-limit", "GREEDY": "memory-limit"}
FORMS = [("O2", "elf"), ("O0", "elf"), ("O2", "rv32"), ("O0", "rv32")]


def build(name, fault, level):
    """The folder with both forms of a program."""
    folder = os.path.join(BUILT, f"{name}-{fault.lower()}-{level}")
    source = os.path.join(HERE, "programs", f"{name}.c")
    parts = [os.path.join(HERE, "programs", "faults.h"), source, *(os.path.join(os.path.dirname(STARTER), part) for part in os.listdir(os.path.dirname(STARTER)))]
    image = os.path.join(folder, f"{name}.rv32")
    if not os.path.exists(image) or os.path.getmtime(image) < max(map(os.path.getmtime, parts)):
        os.makedirs(folder, exist_ok=True)
        # Linux runs code that a program writes where its segments may be executed: -N makes one segment of all.
        more = ["-Wl,-N"] if name == "patching" else []
        done = subprocess.run([STARTER, folder, source, f"-{level}", f"-DFAULT={fault}", *more], check=False)
        if done.returncode == 77:
            sys.exit(77)
        done.check_returncode()
    return folder


def write(path, data):
    os.makedirs(os.path.dirname(path), exist_ok=True)
    with open(path, "wb") as file:
        file.write(data if isinstance(data, bytes) else data.encode())


def write_problem(folder, name, draw):
    write(os.path.join(folder, "problem.yaml"), f"name: {name}\n{problems.MORE.get(name, '')}limits:\n  memory: 4\n  output: 1\n")
    write(os.path.join(folder, "domjudge-problem.ini"), f"timelimit = {problems.SECONDS.get(name, problems.SECONDS_OF_OTHERS)}\n")
    for number, size in enumerate(problems.SIZES.get(name, problems.SIZES_OF_OTHERS)):
        given, answer = getattr(problems, name)(draw, size)
        test = os.path.join(folder, "data", "secret" if number else "sample", f"{number:02}")
        write(test + ".in", given)
        write(test + ".ans", answer)
    if "custom" in problems.MORE.get(name, ""):
        image = os.path.join(build(f"check_{name}", "RIGHT", "O2"), f"check_{name}.rv32")
        os.makedirs(os.path.join(folder, "output_validators"))
        shutil.copy(image, os.path.join(folder, "output_validators", "check.rv32"))


def make(folder, submissions, seed):
    draw = random.Random(seed)
    if os.path.exists(folder) and os.listdir(folder):
        sys.exit(f"{folder} is not empty")
    chosen = []
    while 4 * len(chosen) < submissions:
        # Every program once that is right, and then as drawn.
        name = problems.NAMES[len(chosen)] if len(chosen) < len(problems.NAMES) else draw.choice(problems.NAMES)
        fault = "RIGHT" if len(chosen) < len(problems.NAMES) else draw.choice(["RIGHT", "RIGHT", "WRONG", "WRONG"] + FAULTS[2:])
        chosen.append((name, fault))
    with ThreadPoolExecutor(os.cpu_count()) as pool:
        list(pool.map(lambda one: build(*one), sorted({(name, fault, level) for name, fault in chosen for level in ("O0", "O2")})))
    for name in sorted({name for name, _ in chosen}):
        write_problem(os.path.join(folder, "problems", name), name, draw)
    lines, known = [], []
    for number in range(1, submissions + 1):
        name, fault = chosen[(number - 1) // 4]
        level, end = FORMS[(number - 1) % 4]
        file = f"{name}-{fault.lower()}-{level}.{end}"
        to = os.path.join(folder, "submissions", file)
        if not os.path.exists(to):
            os.makedirs(os.path.dirname(to), exist_ok=True)
            shutil.copyfile(os.path.join(build(name, fault, level), f"{name}.{end}"), to)
        lines.append(f"{number} team{(number - 1) % 4 + 1} {name} {file}\n")
        if fault in KNOWN:
            known.append(f"{number} {KNOWN[fault]}\n")
    write(os.path.join(folder, "submissions.txt"), "".join(lines))
    write(os.path.join(folder, "known.txt"), "".join(known))


def main():
    if len(sys.argv) < 2:
        sys.exit(__doc__)
    if shutil.which("riscv64-unknown-elf-gcc") is None:
        print("skipped: riscv64-unknown-elf-gcc is not installed (Debian: apt-get install gcc-riscv64-unknown-elf)")
        return 77
    numbers = [int(word) for word in sys.argv[2:]]
    submissions, seed = (numbers + [500, 1][len(numbers):])[:2]
    make(sys.argv[1], submissions, seed)
    return 0


if __name__ == "__main__":
    sys.exit(main())
