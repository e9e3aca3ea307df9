#!/usr/bin/env python3
"""Compares the tables of `farm judge` with those of a model on contests drawn at random.

    tests/judge_random.py [PROGRAM] [TURNS [SEED]]

PROGRAM is the built program, `crates/farm/out/farm` of this repository if none is given. A contest has a few problems
with flags and limits as drawn, or with a validator of its own, settings, and small programs: known ones, and known ones
with a bit changed, some of them as executables. Some files are spoiled, so that the contest may be refused. It is judged
by 0 to 16 hosts. The status is 1 where a table is not the model's; the contest is left in a folder then.
"""

import json
import os
import random
import shutil
import subprocess
import sys
import tempfile

sys.dont_write_bytecode = True

import judge_model as model  # noqa: E402
from place import program_and_numbers, without_notes  # noqa: E402
from rule_model import KINDS  # noqa: E402

KNOWN = [model.ECHO] * 12 + [model.SILENT, model.LOOP, model.FAIL, model.HALF, model.GREEDY, model.BROKEN, model.byte(55), model.byte(57), model.byte(65)]
FLAGS = ["", "", "case_sensitive", "space_change_sensitive", "float_tolerance 1e-6", "float_absolute_tolerance 0.5 case_sensitive",
         "float_relative_tolerance 0.01", "space_change_sensitive float_tolerance 1e-3"]
# Inputs, which some programs write again, and answers that are near to them.
TEXTS = ["7\n", "7", " 7\n", "3.14\n", "3.1400001\n", "3.15\n", "A\n", "a\n", "", "\n", "5e1\n", "50\n", "4\n", "9\n", "no such\n", "No  such\n", "1e9999\n", "-0\n",
         "0\n", "1.\n", ".5\n", "x" * 60 + "\n", "9999999999999\n"]
ANSWERS = [text for text in TEXTS if "e9999" not in text]
VALIDATORS = [model.GUESS, model.GUESS, model.GUESS, model.program("exit 42"), model.program("exit 43"), model.program("exit 1"), model.BROKEN + bytes(1)]


class Drawn:
    """The files of a contest."""

    def __init__(self, seed):
        self.random = random.Random(seed)
        self.files = {}
        second = self.random.choice([1000, 5000, 20_000, 100_000, 500_000])
        self.draw_settings(second)
        self.names = self.random.sample(["a", "A", "b-2", "echo", "z_"], self.random.randrange(1, 4))
        for name in self.names:
            self.draw_problem(name)
        lines = []
        for number in range(1, self.random.randrange(2, 25)):
            team, name = self.random.choice(["ann", "bob", "team-3"]), self.random.choice(self.names)
            lines.append(f"{number} {team} {name} {number}.rv32\n" + self.random.choice([""] * 8 + ["\n", "# more\n", "  \n"]))
            self.files[f"submissions/{number}.rv32"] = self.draw_image()
        self.files["submissions.txt"] = "".join(lines).encode()
        for _ in range(self.random.choice([0, 0, 0, 1, 2])):
            self.spoil()

    def spoil(self):
        """Changes a file at one place, takes one away, or puts one in that is in the way."""
        texts = [name for name in self.files if not name.endswith(".rv32")]
        name = self.random.choice(texts)
        part = self.random.randrange(8)
        if part == 0:
            del self.files[self.random.choice(list(self.files))]
        elif part == 1:
            problem = self.random.choice(self.names)
            self.files[self.random.choice([
                f"problems/{problem}/data/testdata.yaml", f"problems/{problem}/data/sample/g/testdata.yaml", f"problems/{problem}/data/secret/x/y.in",
                f"problems/{problem}/output_validators/more", f"problems/{problem}/data/secret/alone.ans", f"problems/{problem}/data/other/1.in",
                "problems/no.name/x", "problems/notes", "problems/Z/x", f"problems/{problem}/output_validators/a/b"])] = b""
        else:
            data, at = bytearray(self.files[name]), self.random.randrange(len(self.files[name]) + 1)
            new = bytes([self.random.choice(b" \t\r\n0179azAZ_-.:#'\"{}[],=\x00\x7f")])
            data[at : at + self.random.choice([0, 1, 1, 5])] = self.random.choice([new, b"", new * 2])
            self.files[name] = bytes(data)

    def draw_settings(self, second):
        settings = {"instructions_per_second": second}
        if self.random.random() < 0.4:
            settings["results_prio"] = {kind: self.random.randrange(5) for kind in KINDS if self.random.random() < 0.7}
        if self.random.random() < 0.3:
            settings["results_remap"] = {kind: self.random.choice(KINDS) for kind in KINDS if self.random.random() < 0.3}
        if self.random.random() < 0.3:
            settings["lazy_eval_results"] = self.random.random() < 0.5
        if self.random.random() < 0.4:
            names = ["a", "A", "b-2", "echo", "z_", "none"]
            settings["problem_modes"] = {name: self.random.choice(["lazy", "full", "on-demand"]) for name in names if self.random.random() < 0.5}
        self.files["farm.json"] = json.dumps(settings).encode()

    def draw_problem(self, name):
        yaml = "name: drawn\nlimits:\n  memory: 1\n  output: 1\n"
        if self.random.random() < 0.4:
            yaml += "validation: custom\n"
            self.files[f"problems/{name}/output_validators/check.rv32"] = self.random.choice(VALIDATORS)
        else:
            yaml += f"validator_flags: {self.random.choice(FLAGS)}\n"
        ini = f"timelimit = {self.random.choice(['0.001', '0.002', '0.01', '0.02', '0.016'])}\n"
        parts = sorted(self.random.choices(["sample", "secret"], k=self.random.randrange(1, 5)))
        for number, part in enumerate(parts):
            given = self.random.choice(TEXTS).encode()
            answer = given if self.random.random() < 0.4 and given != b"1e9999\n" else self.random.choice(ANSWERS).encode()
            self.files[f"problems/{name}/data/{part}/{number}.in"] = given
            self.files[f"problems/{name}/data/{part}/{number}.ans"] = answer
        self.files[f"problems/{name}/problem.yaml"] = yaml.encode()
        self.files[f"problems/{name}/domjudge-problem.ini"] = ini.encode()

    def draw_image(self):
        data = bytearray(self.random.choice(KNOWN))
        for _ in range(self.random.choice([0, 0, 0, 1, 1, 2])):
            data[self.random.randrange(len(data))] ^= 1 << self.random.randrange(8)
        data = bytes(data)
        if self.random.random() < 0.35 and len(data) % 4 == 0:
            data = self.draw_elf(data)
        return data

    def draw_elf(self, code):
        """An executable of a program in one or two pieces, perhaps with something wrong with it."""
        at = self.random.choice([0x10000, 0x10054, 0x1000, 0xFFC, 0x7FFF0000, 0])
        cut = min(len(code), self.random.choice([0, 0, 4, 8]))
        segments = [(at, code[:cut], cut), (at + cut, code[cut:], len(code) - cut + self.random.choice([0, 0, 5000]))]
        if not cut and self.random.random() < 0.7:
            segments.pop(0)
        if self.random.random() < 0.2:
            segments.append((self.random.choice([at + 4, at + 8192, 0xFFFFFFF0, 0xFFFFFFF8]), b"data", self.random.choice([4, 16, 3])))
        self.random.shuffle(segments)
        wrong = self.random.choice([{}] * 12 + [{"class": 2}, {"order": 2}, {"kind": 3}, {"machine": 62}, {"entry_size": 56}, {"count": 0}, {"count": 17}, {"table": 4000}])
        data = model.elf(segments, at + self.random.choice([0] * 8 + [2, 4]), **wrong)
        return data[: self.random.choice([len(data)] * 8 + [len(data) - 1, 60, 51, 4])]

    def write(self, folder):
        for name, data in self.files.items():
            path = os.path.join(folder, name)
            os.makedirs(os.path.dirname(path), exist_ok=True)
            with open(path, "wb") as file:
                file.write(data)


def fault_of(program, seed, counts):
    """What is wrong with the table of a contest, with the contest's folder left; or None."""
    drawn = Drawn(seed)
    folder = tempfile.mkdtemp(prefix="contest-")
    drawn.write(folder)
    hosts = str(drawn.random.randrange(17))
    done = subprocess.run([program, "judge", folder, "--hosts", hosts], capture_output=True, check=False)
    status, wanted = model.judge(folder)
    if (done.returncode, done.stdout) != (status, wanted) or without_notes(done.stderr).count(b"\n") != (1 if status else 0):
        differ = [(w, g) for w, g in zip(wanted.split(b"\n"), done.stdout.split(b"\n")) if w != g]
        return f"contest {seed} in {folder} with {hosts} hosts: status {done.returncode}, wanted {status}, said {done.stderr!r}, (wanted, written): {differ[:5]}"
    shutil.rmtree(folder)
    for word in ["refused"] if status else [line.split()[3] for line in wanted.decode().splitlines()]:
        counts[word] = counts.get(word, 0) + 1
    return None


def main():
    program, numbers = program_and_numbers(sys.argv[1:])
    turns, seed = (numbers + [100, 0][len(numbers):])[:2]
    counts = {}
    for turn in range(turns):
        fault = fault_of(program, seed + turn, counts)
        if fault:
            print(fault)
            return 1
    print(f"{turns} contests as the model says: " + ", ".join(f"{verdict} {counts[verdict]}" for verdict in sorted(counts)))
    return 0


if __name__ == "__main__":
    sys.exit(main())
