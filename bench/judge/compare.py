#!/usr/bin/env python3
"""Compares the table of `farm judge` with what `qemu-riscv32` and a comparison of texts say.

    bench/judge/compare.py FOLDER [--program PROGRAM] [--table FILE] [--without N,N..]

Every submission of the contest is run on every test under `qemu-riscv32`, with the test's input as its standard input:
a status other than 0 or a signal is `run-error`, an output without an end `output-limit`, a program without an end
`timelimit`, and an output that is not accepted `no-output` where it is empty, else `wrong-answer`. A raw image is run as
an executable with one segment. The result with the greatest of DOMjudge's priorities is the verdict. `qemu-riscv32`
counts neither instructions nor pages: a submission whose verdict depends on its limits is compared with the line
`NUMBER VERDICT` that `known.txt` of the contest's folder has for it, or is left out by --without.

The table is that of PROGRAM (`crates/farm/out/farm`), or is read from FILE. The status is 1 where a line differs.
"""

import argparse
import os
import shutil
import struct
import subprocess
import sys
import tempfile
from concurrent.futures import ThreadPoolExecutor
from fractions import Fraction

TOP = os.path.dirname(os.path.dirname(os.path.dirname(os.path.abspath(__file__))))
FARM = os.path.join(TOP, "crates", "farm", "out", "farm")

PRIORITIES = {"correct": 1, "no-output": 10, "wrong-answer": 30, "run-error": 99, "timelimit": 99, "output-limit": 99, "judging-error": 99}
SECONDS = 60


def read(path):
    with open(path, "rb") as file:
        return file.read()


def as_executable(image):
    """An ELF executable with a raw image as its one segment, which may be read, written and run."""
    room = 48 << 20
    header = b"\x7fELF\x01\x01\x01".ljust(16, b"\0") + struct.pack("<HHIIIIIHHHHHH", 2, 243, 1, 0x10000, 52, 0, 0, 52, 32, 1, 40, 0, 0)
    segment = struct.pack("<8I", 1, 0x1000, 0x10000, 0x10000, len(image), len(image) + room, 7, 0x1000)
    return (header + segment).ljust(0x1000, b"\0") + image


class Problem:
    """What is looked at of a package: tests in rank order, a tolerance, and the validator."""

    def __init__(self, folder, scratch):
        self.name = os.path.basename(folder)
        self.tests, self.tolerance, self.validator, self.output = [], None, None, 8 << 20
        for line in read(os.path.join(folder, "problem.yaml")).decode().splitlines():
            key, _, value = line.strip().partition(": ")
            if key == "validator_flags" and value.split()[:1] == ["float_tolerance"]:
                self.tolerance = Fraction(value.split()[1])
            elif key == "output":
                self.output = int(value) << 20
            elif key == "validation" and value == "custom":
                self.validator = os.path.join(scratch, f"validator-{self.name}")
        if self.validator:
            place = os.path.join(folder, "output_validators")
            write_program(self.validator, read(os.path.join(place, os.listdir(place)[0])))
        for part in ["sample", "secret"]:
            names = []
            for place, _, files in os.walk(os.path.join(folder, "data", part)):
                names += [os.path.join(place, name)[:-3] for name in files if name.endswith(".in")]
            self.tests += sorted(names, key=os.fsencode)

    def accepts(self, test, output):
        if self.validator:
            with open(test + ".in", "rb") as given, open(test + ".ans", "rb") as answer:
                def set_up():
                    # The files get high numbers first, so that none is closed by the other's.
                    high = [os.dup2(given.fileno(), 103), os.dup2(answer.fileno(), 104)]
                    os.dup2(high[0], 3)
                    os.dup2(high[1], 4)
                done = subprocess.run(["qemu-riscv32", self.validator], input=output, capture_output=True, check=False, close_fds=False, preexec_fn=set_up)
            return {42: True, 43: False}.get(done.returncode)
        wanted, given = read(test + ".ans").split(), output.split()
        return len(wanted) == len(given) and all(self.agree(w, g) for w, g in zip(wanted, given))

    def agree(self, wanted, given):
        if wanted.lower() == given.lower():
            return True
        if self.tolerance is None:
            return False
        try:
            w, g = Fraction(wanted.decode()), Fraction(given.decode())
        except ValueError:
            return False
        return abs(w - g) <= self.tolerance * max(1, abs(w))


def write_program(path, data):
    with open(path, "wb") as file:
        file.write(data if data.startswith(b"\x7fELF") else as_executable(data))
    os.chmod(path, 0o755)


def result(program, problem, test):
    """The result of one test."""
    with open(test + ".in", "rb") as given, tempfile.TemporaryFile() as out:
        # Left running, a program that writes without an end is ended by the limit on its file.
        command = ["sh", "-c", f'ulimit -f {problem.output // 512 + 1}; exec qemu-riscv32 "$0"', program]
        try:
            status = subprocess.run(command, stdin=given, stdout=out, stderr=subprocess.DEVNULL, timeout=SECONDS, check=False).returncode
        except subprocess.TimeoutExpired:
            return "timelimit"
        size = out.seek(0, os.SEEK_END)
        out.seek(0)
        output = out.read(problem.output + 1)
    if size > problem.output:
        return "output-limit"
    if status != 0:
        return "run-error"
    accepted = problem.accepts(test, output)
    if accepted is None:
        return "judging-error"
    return "correct" if accepted else "wrong-answer" if output else "no-output"


def verdict(path, problem, scratch):
    data = read(path)
    if not data.startswith(b"\x7fELF") and (len(data) % 4 or not 0 < len(data) <= 1 << 20):
        return "compiler-error"
    program = os.path.join(scratch, f"{problem.name}-{os.path.basename(path)}")
    write_program(program, data)
    decides = None
    for test in problem.tests:
        found = result(program, problem, test)
        if decides is None or PRIORITIES[found] > PRIORITIES[decides]:
            decides = found
        if PRIORITIES[decides] == 99:
            break
    return decides


def submissions(folder):
    for line in read(os.path.join(folder, "submissions.txt")).decode().splitlines():
        if line.strip(" ") and not line.startswith("#"):
            yield line.split(" ")


def table_of(folder, without, known):
    """The lines of the table, or None for one that is left out."""
    with tempfile.TemporaryDirectory() as scratch, ThreadPoolExecutor(os.cpu_count()) as pool:
        problems, jobs, seen = {}, [], {}
        for number, team, name, file in submissions(folder):
            if name not in problems:
                problems[name] = Problem(os.path.join(folder, "problems", name), scratch)
            found = None
            if number not in known and number not in without:
                if (name, file) not in seen:
                    seen[name, file] = pool.submit(verdict, os.path.join(folder, "submissions", file), problems[name], scratch)
                found = seen[name, file]
            jobs.append((number, team, name, found))
        for number, team, name, found in jobs:
            said = known.get(number) or (found and found.result())
            yield None if number in without else f"{number} {team} {name} {said}"


def main():
    reader = argparse.ArgumentParser()
    reader.add_argument("folder")
    reader.add_argument("--program", default=FARM)
    reader.add_argument("--table")
    reader.add_argument("--without", default="")
    words = reader.parse_args()
    if shutil.which("qemu-riscv32") is None:
        print("skipped: qemu-riscv32 is not installed (Debian: apt-get install qemu-user)")
        return 0
    if words.table:
        got = read(words.table).decode().splitlines()
    else:
        got = subprocess.run([words.program, "judge", words.folder, "--hosts", "0"], stdout=subprocess.PIPE, check=True).stdout.decode().splitlines()
    path = os.path.join(words.folder, "known.txt")
    known = dict(line.split() for line in read(path).decode().splitlines()) if os.path.exists(path) else {}
    wanted = list(table_of(words.folder, words.without.split(","), known))
    differ = [(w, g) for w, g in zip(wanted, got) if w is not None and w != g]
    for w, g in differ:
        print(f"wanted {w}\n   got {g}")
    if len(wanted) != len(got):
        print(f"{len(wanted)} lines wanted, {len(got)} written")
    left = sum(w is None for w in wanted)
    print(f"{len(wanted)} submissions, {len(known)} with a known verdict, {left} left out, {len(differ)} differ")
    return 1 if differ or len(wanted) != len(got) else 0


if __name__ == "__main__":
    sys.exit(main())
