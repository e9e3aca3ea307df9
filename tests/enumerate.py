#!/usr/bin/env python3
"""Compares `show`, `claim` and `fetch` of `farm script` with all ways to fill rows, by brute force.

    tests/enumerate.py [PROGRAM] [COUNT]

PROGRAM is the built program, `crates/farm/out/farm` of this repository if none is given. COUNT judgings
(5,000 if no number is given) of 2 to 4 tests are filled with random results in random order, ten under each
settings: priorities from few values, remapping that leaves one to eight kinds, lazy or full judging. Before the
first result and after each one the row is compared: what `show` replies, the tasks that `claim` hands out until there
is nothing, and then those that `fetch` hands out at once. While all wanted tests are held a result is entered, and the
leases that are left then are counted: those on the cells that matter still. The walk of `rule_model.py` is compared too. Printed are how many rows were compared and
the first difference, and the status is 1 where there is one.
"""

import json
import os
import random
import subprocess
import sys
import time
from collections import Counter
from itertools import product

sys.dont_write_bytecode = True

from place import OUT, program_and_numbers  # noqa: E402
from rule_model import KINDS, Rule  # noqa: E402

JUDGINGS_PER_SETTINGS = 10
TESTS = [2, 3, 4]
PRIORITIES = [0, 1, 30, 99, 100, 999]


def some_kinds(chance):
    """All kinds, or some of them: those that are left out keep what is standard."""
    return KINDS if chance.randrange(2) else [kind for kind in KINDS if chance.randrange(2)]


def random_settings(chance):
    settings = {}
    if chance.randrange(8):
        values = chance.sample(PRIORITIES, chance.randint(1, 4))
        settings["results_prio"] = {kind: chance.choice(values) for kind in some_kinds(chance)}
    if chance.randrange(4):
        targets = chance.sample(KINDS, chance.randint(1, len(KINDS)))
        settings["results_remap"] = {kind: chance.choice(targets) for kind in some_kinds(chance)}
    if chance.randrange(2):
        settings["lazy_eval_results"] = bool(chance.randrange(3))
    if chance.randrange(2):
        settings["lease"] = chance.randint(1, 1_000_000)
    return settings


class Enumeration:
    """What a row comes to by the settings, seen over all ways to fill its empty cells."""

    def __init__(self, settings):
        self.lazy = settings.get("lazy_eval_results", True)
        self.rule = Rule(settings.get("results_prio"), settings.get("results_remap"))
        self.looks = {}

    def completions(self, row):
        """Each way to fill the row, with its verdict: of the greatest kinds `max` gives the first."""
        cells = [self.rule.possible if kept is None else [kept] for kept in row]
        return {kinds: max(kinds, key=self.rule.priorities.get) for kinds in product(*cells)}

    def look(self, row):
        """What `show` replies, and the tests of the cells that matter."""
        if row not in self.looks:
            completions = self.completions(row)
            verdicts = set(completions.values())
            report = f"final {verdicts.pop()}" if len(verdicts) == 1 else "pending"
            self.looks[row] = report, [test for test in empty_tests(row) if differ_there(completions, test)]
        return self.looks[row]

    def answer(self, row):
        """What is wanted of the program: with full judging, final once no cell is empty, and each empty cell."""
        report, tests = self.look(row)
        if self.lazy or None not in row:
            return report, tests
        return "pending", empty_tests(row)

    def walk(self, row):
        """The same as `look` by the walk."""
        return self.rule.report(row), [test for test in empty_tests(row) if self.rule.matters(row, test - 1)]


def empty_tests(row):
    return [test for test, kept in enumerate(row, 1) if kept is None]


def differ_there(completions, test):
    """Whether two of the completions that differ at this test alone have different verdicts."""
    seen = {}
    for kinds, verdict in completions.items():
        if seen.setdefault(kinds[: test - 1] + kinds[test:], verdict) != verdict:
            return True
    return False


class Script:
    """The lines of some judgings under one settings, with the replies that the enumeration gives."""

    def __init__(self, settings, chance):
        self.chance = chance
        self.wanted = Enumeration(settings)
        self.until = settings.get("lease", 60)
        # The line, the reply, and the row that it is about.
        self.lines = []
        self.judging = 0
        self.row = ()
        self.counts = Counter()
        self.wrong_walk = None
        self.put("host h", "host h")
        for tests in TESTS:
            self.put(f"problem p{tests} {tests}", f"problem p{tests} version 1")

    def put(self, line, reply):
        self.lines.append((line, reply, self.row))

    def look(self):
        """Shows the judging, and claims until there is nothing. It is the only one with empty cells."""
        report, tests = self.wanted.answer(self.row)
        self.put(f"show {self.judging}", report)
        for test in tests:
            self.put("claim h", f"task {self.judging} {test} until {self.until}")
        self.put("claim h", "nothing")
        self.put("down h", f"ended {len(tests)}")
        self.put("host h", "host h")
        self.fetch(tests)
        if self.wanted.walk(self.row) != self.wanted.look(self.row):
            self.wrong_walk = self.wrong_walk or self.row
        self.counts["rows"] += 1
        self.counts["early"] += None in self.row and report != "pending"
        self.counts["empty"] += self.row.count(None)
        self.counts["handed"] += len(tests)

    def fetch(self, tests):
        """Fetches the same tests at once, which are few enough for that, and holds them."""
        words = ",".join(str(test) for test in tests)
        self.put("fetch h 16", f"batch {self.judging} {words} until {self.until}" if tests else "nothing")
        self.put("fetch h 1", "nothing")

    def count_leases(self):
        """Counts the leases that are left once a result came: each is on a cell that is wanted still."""
        _, tests = self.wanted.answer(self.row)
        self.put("down h", f"ended {len(tests)}")
        self.put("host h", "host h")

    def record(self, test):
        """Fills the cell, and enters another result, which does not count."""
        kind, again = self.chance.choices(KINDS, k=2)
        kept, given = self.wanted.rule.remap[kind], self.wanted.rule.remap[again]
        self.put(f"record {self.judging} {test} {kind}", "counted")
        self.row = self.row[: test - 1] + (kept,) + self.row[test:]
        repeat = f"repeat {kept}" if kept == given else f"differs {kept} {given}"
        self.put(f"record {self.judging} {test} {again}", repeat)

    def fill(self):
        """A judging, from its empty row to its full one."""
        tests = self.chance.choice(TESTS)
        self.judging += 1
        self.row = (None,) * tests
        self.put(f"submit p{tests}", f"submission {self.judging} judging {self.judging}")
        self.look()
        for test in self.chance.sample(range(1, tests + 1), tests):
            self.record(test)
            self.count_leases()
            self.look()


def difference(program, settings, script):
    """The first difference between the program, the enumeration and the walk, or None."""
    config = os.path.join(OUT, "enumerate.json")
    with open(config, "w") as file:
        json.dump(settings, file)
    text = "".join(line + "\n" for line, _, _ in script.lines)
    done = subprocess.run(
        [program, "script", "--config", config], input=text, capture_output=True, text=True, check=False
    )
    got = done.stdout.splitlines()
    for at, (line, reply, row) in enumerate(script.lines):
        came = got[at] if at < len(got) else None
        if came != reply:
            return f"`{line}` with the row {list(row)}: wanted {reply!r}, came {came!r} (status {done.returncode})"
    if done.returncode != 0 or len(got) != len(script.lines):
        return f"status {done.returncode}, {len(got)} replies to {len(script.lines)} lines"
    if script.wrong_walk:
        return f"the walk of rule_model.py, with the row {list(script.wrong_walk)}"
    return None


def compare(program, count):
    """Goes on until `count` judgings were compared or something differs: what was counted, and the difference."""
    chance = random.Random(9)
    counts, fault = Counter(), None
    while counts["judgings"] < count and not fault:
        settings = random_settings(chance)
        script = Script(settings, chance)
        for _ in range(min(JUDGINGS_PER_SETTINGS, count - counts["judgings"])):
            script.fill()
        fault = difference(program, settings, script)
        counts.update(script.counts, settings=1, judgings=script.judging)
    return counts, f"{fault}\n  settings {json.dumps(settings)}" if fault else None


def main():
    program, numbers = program_and_numbers(sys.argv[1:])
    start = time.perf_counter()
    counts, fault = compare(program, numbers[0] if numbers else 5_000)
    seconds = time.perf_counter() - start
    print(f"{counts['rows']:,} rows of {counts['judgings']:,} judgings under {counts['settings']:,} settings: {seconds:.1f} s")
    print(f"  {counts['early']:,} rows are final with empty cells")
    print(f"  {counts['handed']:,} of the rows' {counts['empty']:,} empty cells are handed out")
    print(f"  FIRST DIFFERENCE: {fault}" if fault else "  all replies are as the enumeration gives them")
    return 1 if fault else 0


if __name__ == "__main__":
    sys.exit(main())
