"""Scripts of contest lines, with the replies that an independent model gives to them.

A script has the lines of problems, submissions, records and shows in the order in which a running
contest makes them: a submission, results of the submissions before it in any order, and questions
about any of them.
"""

import random

from line_writer import LineWriter
from rule_model import KINDS, Rule

PROBLEMS = 1_000
TESTS = 5
# The most submissions that a farm accepts.
SUBMISSIONS = 100_000


class Script(LineWriter):
    """A contest whose results all come from outside."""

    def __init__(self, lines, replies, comment=0):
        super().__init__(lines, replies, comment)
        self.rows = []
        self.waiting = []
        self.rule = Rule()
        self.random = random.Random(20)

    def problem(self, number):
        self.put(f"problem p{number} {TESTS}", f"problem p{number} version 1")

    def submit(self):
        self.rows.append([None] * TESTS)
        judging = len(self.rows)
        for test in range(TESTS):
            self.waiting.append((judging, test))
        problem = self.random.randrange(PROBLEMS)
        self.put(f"submit p{problem}", f"submission {judging} judging {judging}")

    def record(self):
        # A result of one of the last few judgings, in no order.
        at = self.random.randrange(max(0, len(self.waiting) - 200), len(self.waiting))
        self.waiting[at], self.waiting[-1] = self.waiting[-1], self.waiting[at]
        judging, test = self.waiting.pop()
        kind = self.random.choice(KINDS)
        self.rows[judging - 1][test] = kind
        self.put(f"record {judging} {test + 1} {kind}", "counted")

    def show(self):
        judging = self.random.randrange(len(self.rows)) + 1
        self.put(f"show {judging}", self.rule.report(self.rows[judging - 1]))


def write_script(lines, replies, count=None, size=None, comment=0):
    """Writes a script of `count` lines, or of at least `size` bytes, and returns it."""
    script = Script(lines, replies, comment)
    for number in range(PROBLEMS):
        script.problem(number)
    script.submit()
    while script.count < count if count else script.size < size:
        part = script.random.randrange(10)
        if part == 0 and len(script.rows) < SUBMISSIONS:
            script.submit()
        elif part <= 5 and script.waiting:
            script.record()
        else:
            script.show()
    return script
