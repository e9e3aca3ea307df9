"""What is reported of a row and which of its cells matter, by walking the row from left to right.

A row has a kind per test in rank order, as results count after remapping, and None where a cell is empty. The
walk carries every kind that can be the best so far: where one is left at the end, all ways to fill the row have
that verdict. Whether a cell matters is seen by carrying pairs: the best with one kind in this cell, and the best
with another. That is not how the program does it.
"""

from itertools import product

KINDS = [
    "correct",
    "wrong-answer",
    "run-error",
    "timelimit",
    "no-output",
    "output-limit",
    "memory-limit",
    "judging-error",
]
PRIORITIES = dict(zip(KINDS, [1, 30, 99, 99, 10, 99, 99, 99]))


class Rule:
    """Priorities and remapping. A kind that is not named has its standard priority and counts as itself."""

    def __init__(self, priorities=None, remap=None):
        self.priorities = {**PRIORITIES, **(priorities or {})}
        self.remap = {kind: kind for kind in KINDS} | (remap or {})
        self.possible = sorted(set(self.remap.values()))
        self.reports = {}
        self.mattering = {}

    def better(self, best, kind):
        """The best of a kind and what stands before it: the earlier one on a tie."""
        return kind if best is None or self.priorities[kind] > self.priorities[best] else best

    def verdicts(self, row):
        """The verdicts that some way to fill the row has."""
        bests = {None}
        for kept in row:
            choices = self.possible if kept is None else [kept]
            bests = {self.better(best, kind) for best in bests for kind in choices}
        return bests

    def pairs(self, row, cell):
        """The pairs of verdicts that two ways to fill the row have which differ in this cell at most."""
        pairs = {(None, None)}
        for at, kept in enumerate(row):
            choices = self.possible if kept is None else [kept]
            both = product(choices, repeat=2) if at == cell else zip(choices, choices)
            pairs = {
                (self.better(one, kind), self.better(two, other))
                for (one, two), (kind, other) in product(pairs, both)
            }
        return pairs

    def report(self, row):
        """What `show` replies."""
        row = tuple(row)
        if row not in self.reports:
            verdicts = self.verdicts(row)
            self.reports[row] = f"final {verdicts.pop()}" if len(verdicts) == 1 else "pending"
        return self.reports[row]

    def matters(self, row, cell):
        """Whether two ways to fill the row that differ in this cell alone have different verdicts."""
        at = tuple(row), cell
        if at not in self.mattering:
            self.mattering[at] = any(one != two for one, two in self.pairs(row, cell))
        return self.mattering[at]
