#!/usr/bin/env python3
"""Compares `farm script` with a model of the whole farm on random scripts.

    tests/random_scripts.py [PROGRAM] [COUNT]

PROGRAM is the built program, `crates/farm/out/farm` of this repository if none is given. COUNT random scripts (1,000
if no number is given) of 300 lines of every kind, under random settings, are compared with the model in
`farm_model.py`, which was written apart from the program, byte for byte. The first difference is printed, and the
status is 1 where there is one.
"""

import json
import os
import random
import subprocess
import sys

sys.dont_write_bytecode = True

from farm_model import Farm  # noqa: E402
from place import OUT, program_and_numbers  # noqa: E402
from rule_model import KINDS, Rule  # noqa: E402

LINES = 300
PROBLEMS = ["A", "B"]
HOSTS = ["h1", "h2", "h3"]
PEOPLE = ["", "", "", "@ann ", "@bob-2 ", "@jury "]


class Drawer:
    """Draws lines that are near what the farm knows, so that most of them are accepted and the others just refused."""

    def __init__(self, seed, farm):
        self.random = random.Random(seed)
        self.farm = farm

    def near(self, items):
        """A number that some item has, more often a late one, and sometimes one that none has."""
        if not items or self.random.random() < 0.04:
            return self.random.choice([0, len(items) + 1])
        return max(self.random.randrange(len(items)), self.random.randrange(len(items))) + 1

    def kind(self):
        return self.random.choices(KINDS, [12, 3, 1, 1, 1, 1, 1, 1])[0]

    def numbers(self):
        size = self.random.choices([0, 1, 2, 3], [1, 6, 3, 2])[0]
        return ",".join(str(self.near(self.farm.submissions)) for _ in range(size))

    def one_of(self, weighted):
        """One of the lines, each by its weight."""
        weights, lines = zip(*weighted)
        return self.random.choices(lines, weights)[0]

    def task(self):
        """A host and a task: most often one that it holds."""
        if self.farm.leases and self.random.random() < 0.7:
            judging, test = self.random.choice(sorted(self.farm.leases))
            return f"{self.farm.leases[judging, test][0]} {judging} {test}"
        return f"{self.random.choice(HOSTS)} {self.near(self.farm.judgings)} {self.random.choice([1, 1, 1, 2, 2, 3])}"

    def jury_line(self):
        problem, rejudging = self.random.choice(PROBLEMS), self.near(self.farm.rejudgings)
        return self.random.choice(PEOPLE) + self.one_of([
            (2, f"problem {problem} {self.random.randrange(0, 4)}"),
            (2, f"replace {problem} {self.random.choice([0, 1, 1, 1, 2, 2, 3])}"),
            (6, f"rejudge {self.numbers()}"),
            (3, f"apply {rejudging}"),
            (1, f"cancel {rejudging}"),
            (6, f"verify {self.near(self.farm.judgings)}"),
            (4, f"ask {self.near(self.farm.judgings)}"),
        ])

    def host_line(self):
        host, task = self.random.choice(HOSTS), self.task()
        return self.one_of([
            (8, f"result {task} {self.kind()}"),
            (5, f"claim {host}"),
            (4, f"fetch {host} {self.random.choice([1, 2, 2, 3, 16])}"),
            (2, f"renew {task}"),
            (2, f"host {host}"),
            (1, f"down {host}"),
        ])

    def question(self):
        rejudging, judging = self.near(self.farm.rejudgings), self.near(self.farm.judgings)
        return self.random.choice([f"matrix {rejudging}", f"show {judging}", f"owner {judging}", "board", "audit"])

    def line(self):
        judging, test = self.near(self.farm.judgings), self.random.choice([0, 1, 1, 1, 1, 1, 2, 2, 2, 3])
        words = self.random.choice(["", "", " low", " high", " normal broken", " broken"])
        return self.one_of([
            (30, self.jury_line()),
            (20, self.host_line()),
            (20, f"record {judging} {test} {self.kind()}"),
            (8, f"submit {self.random.choice(PROBLEMS)}{words}"),
            (5, f"tick {self.farm.now + self.random.randrange(0, 40)}"),
            (15, self.question()),
            (2, self.random.choice(BAD_LINES)),
        ])


FIRST_LINES = ["problem A 1", "problem B 2", "host h1", "host h2"] + ["submit A", "submit A", "submit B"] * 2

BAD_LINES = [
    "",
    "# @ann verify 1",
    "@ann",
    "@ann board",
    "@ann @bob verify 1",
    "@a.b verify 1",
    "@ verify 1",
    "rejudge 1,",
    "rejudge ,1",
    "rejudge 1,,2",
    "rejudge 01",
    "rejudge 1 2",
    "rejudge 4294967296",
    "board 1",
    "audit now",
    "apply",
    "cancel 1 1",
    "verify x",
    "ask",
    "ask 1 1",
    "fetch h1",
    "fetch h1 0",
    "fetch h1 17",
    "@ann fetch h1 1",
    "owner",
]


def draw_settings(draw):
    """Settings as the model takes them, and as the file of settings says them."""
    priorities = {kind: draw.randrange(1000) for kind in KINDS if draw.random() < 0.2}
    remap = {kind: draw.choice(KINDS) for kind in KINDS if draw.random() < 0.2}
    lazy, verification, lease = draw.random() < 0.7, draw.random() < 0.5, draw.choice([1, 20, 60])
    modes = {name: draw.choice(["lazy", "full", "on-demand"]) for name in PROBLEMS + ["C"] if draw.random() < 0.3}
    kept = {"rule": Rule(priorities, remap), "lazy": lazy, "verification": verification, "lease": lease, "modes": modes}
    said = {"results_prio": priorities, "results_remap": remap, "lease": lease, "problem_modes": modes}
    return kept, {**said, "lazy_eval_results": lazy, "verification_required": verification}


def random_script(seed):
    """Settings, lines and the replies to them."""
    kept, said = draw_settings(random.Random(f"settings {seed}"))
    farm = Farm(**kept)
    drawer = Drawer(seed, farm)
    lines, replies = [], []
    for at in range(LINES):
        line = FIRST_LINES[at] if at < len(FIRST_LINES) else drawer.line()
        lines.append(line)
        replies += farm.answer(line.encode())
    return json.dumps(said), lines, replies


def compare(program, count):
    """Whether the replies to all scripts are those of the model; the first that differs is printed."""
    settings = os.path.join(OUT, "settings.json")
    asked, words = 0, {}
    for seed in range(count):
        said, lines, replies = random_script(seed)
        with open(settings, "w") as file:
            file.write(said)
        done = subprocess.run(
            [program, "script", "--config", settings], input="\n".join(lines).encode(), capture_output=True, check=False
        )
        got = done.stdout.decode().splitlines()
        if done.returncode or got != replies:
            at = next((at for at, pair in enumerate(zip(got, replies)) if pair[0] != pair[1]), min(len(got), len(replies)))
            print(f"script {seed}, status {done.returncode}: reply {at} is {got[at:at + 1]}, and {replies[at:at + 1]} was wanted")
            return False
        asked += len(lines)
        for reply in replies:
            words[reply.split()[0]] = words.get(reply.split()[0], 0) + 1
    print(f"{count:,} random scripts, {asked:,} lines: replies as the model gives them")
    rare = ["rejudging", "applied", "cancelled", "matrix", "verified", "busy", "twice", "unfinished", "closed", "already", "dropped"]
    print("  among the replies: " + ", ".join(f"{words.get(word, 0):,} {word}" for word in rare))
    sys.stdout.flush()
    return True


def main():
    program, numbers = program_and_numbers(sys.argv[1:])
    return 0 if compare(program, (numbers or [1_000])[0]) else 1


if __name__ == "__main__":
    sys.exit(main())
