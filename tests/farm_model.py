"""The whole farm as one class that answers event lines, written apart from the program.

It keeps dictionaries and plain lists, looks at every task at a claim, and takes its digests from Python's `hashlib`.
`rule_model` says what is reported of a row and which cell matters.
"""

import hashlib
import re
from collections import Counter

from rule_model import KINDS, Rule

NAME = re.compile(rb"[A-Za-z0-9_-]{1,32}\Z")
NUMBER = re.compile(rb"(0|[1-9][0-9]*)\Z")
CLASSES = [b"high", b"normal", b"low"]
# The answers in the order of a matrix.
ANSWERS = KINDS + ["compiler-error", "pending"]
JURY = [b"problem", b"replace", b"rejudge", b"apply", b"cancel", b"verify", b"ask"]


class Bad(Exception):
    """The line is none of the grammar's."""


def name_of(word):
    if not NAME.match(word):
        raise Bad
    return word.decode()


def number_of(word, most=4_294_967_295):
    if not NUMBER.match(word) or int(word) > most:
        raise Bad
    return int(word)


def kind_of(word):
    if word.decode("latin-1") not in KINDS:
        raise Bad
    return word.decode()


def count(words, *numbers):
    if len(words) not in numbers:
        raise Bad
    return words


class Farm:
    """A farm from its start on. Numbers of submissions, judgings and rejudgings are from 1."""

    def __init__(self, lazy=True, lease=60, verification=False, rule=None, modes=None):
        self.rule = rule or Rule()
        self.lazy = lazy
        # The modes of problems by name: "lazy", "full" or "on-demand".
        self.modes = modes or {}
        self.lease = lease
        self.verification = verification
        self.now = 0
        self.problems = {}
        self.up = {}
        self.submissions = []
        self.judgings = []
        self.leases = {}
        self.rejudgings = []
        self.texts = []
        self.head = hashlib.sha256().digest()

    # Lines

    def answer(self, line):
        """The replies to a line, as lines; none where it is empty or a comment."""
        words = [word for word in line.split(b" ") if word]
        if not words or words[0].startswith(b"#"):
            return []
        try:
            return self.event(words)
        except Bad:
            return ["bad-line"]

    def event(self, words):
        who = "jury"
        if words[0].startswith(b"@"):
            who = name_of(words[0][1:])
            words = words[1:]
            if not words or words[0] not in JURY:
                raise Bad
        word, rest = words[0], words[1:]
        call = getattr(self, "on_" + word.decode("latin-1"), None) if re.match(rb"[a-z]+\Z", word) else None
        if call is None:
            raise Bad
        if word not in JURY:
            return call(rest)
        # An event of the jury that is accepted gives its replies and its words, a refused one its reply alone.
        reply = call(rest)
        if isinstance(reply, tuple):
            reply, text = reply
            self.log(f"{who} {word.decode()}{' ' if text else ''}{text}")
        return reply

    def log(self, text):
        self.texts.append(text)
        self.head = hashlib.sha256(self.head + text.encode()).digest()

    # What is known of judgings

    def report(self, judging):
        kept = self.judgings[judging - 1]
        row = kept["row"]
        if not row:
            return "final compiler-error"
        if kept["lazy"] or None not in row:
            return self.rule.report(row)
        return "pending"

    def outcome(self, judging):
        return self.report(judging).removeprefix("final ")

    def is_final(self, judging):
        return self.report(judging) != "pending"

    def public(self, submission):
        judging = self.submissions[submission - 1]["current"]
        if self.verification and not self.judgings[judging - 1]["verified"]:
            return "pending"
        return self.outcome(judging)

    def add_judging(self, rank, submission, again=False):
        entered = self.submissions[submission - 1]
        tests = 0 if entered["broken"] else self.problems[entered["problem"]][1]
        mode = self.modes.get(entered["problem"], "lazy" if self.lazy else "full")
        kept = {"rank": rank, "row": [None] * tests, "handed": set(), "dropped": False, "verified": False, "of": submission}
        # Judgings on demand wait to be asked for, but for those of rejudgings.
        self.judgings.append({**kept, "lazy": mode != "full", "asked": again or mode != "on-demand"})
        return len(self.judgings)

    def is_wanted(self, judging, test):
        """Whether the test is still to be judged: its cell is empty, and lazily matters."""
        kept = self.judgings[judging - 1]
        return kept["row"][test - 1] is None and (not kept["lazy"] or self.rule.matters(kept["row"], test - 1))

    def open_tasks(self):
        """The open tasks, by class, judging and test."""
        return sorted(
            (kept["rank"], judging, test)
            for judging, kept in enumerate(self.judgings, 1)
            if kept["asked"] and not kept["dropped"]
            for test in range(1, len(kept["row"]) + 1)
            if (judging, test) not in self.leases and self.is_wanted(judging, test)
        )

    # Problems, hosts, submissions

    def on_problem(self, words):
        name, tests = count(words, 2)
        name, tests = name_of(name), number_of(tests)
        if not 1 <= tests <= 1000:
            return [f"bad-tests {tests}"]
        if name in self.problems:
            return [f"known {name}"]
        if len(self.problems) >= 1000:
            return ["full 1000"]
        self.problems[name] = [1, tests]
        return [f"problem {name} version 1"], f"{name} {tests}"

    def on_replace(self, words):
        name, tests = count(words, 2)
        name, tests = name_of(name), number_of(tests)
        if not 1 <= tests <= 1000:
            return [f"bad-tests {tests}"]
        if name not in self.problems:
            return [f"no-problem {name}"]
        version = self.problems[name][0]
        if version >= 1000:
            return ["full 1000"]
        self.problems[name] = [version + 1, tests]
        return [f"problem {name} version {version + 1}"], f"{name} {tests}"

    def on_host(self, words):
        name = name_of(*count(words, 1))
        if self.up.get(name):
            return [f"known {name}"]
        if name not in self.up and len(self.up) >= 1000:
            return ["full 1000"]
        self.up[name] = True
        return [f"host {name}"]

    def on_submit(self, words):
        name = name_of(count(words, 1, 2, 3)[0])
        rest = words[1:]
        rank = CLASSES.index(rest.pop(0)) if rest and rest[0] in CLASSES else 1
        if rest not in ([], [b"broken"]):
            raise Bad
        if name not in self.problems:
            return [f"no-problem {name}"]
        if len(self.submissions) >= 100_000:
            return ["full 100000"]
        if len(self.judgings) >= 400_000:
            return ["full 400000"]
        self.submissions.append({"problem": name, "broken": bool(rest), "current": 0})
        number = len(self.submissions)
        judging = self.add_judging(rank, number)
        self.submissions[-1]["current"] = judging
        return [f"submission {number} judging {judging}"]

    # Tasks

    def hand_out(self, host, most):
        """What a host is answered that asks for so many tasks, or the judging and the tests that it is given."""
        if not self.up.get(host):
            return [f"no-host {host}"], None
        held = sum(holder == host for holder, _ in self.leases.values())
        if held >= 64:
            return ["holding 64"], None
        tasks = self.open_tasks()
        if not tasks:
            return ["nothing"], None
        judging = tasks[0][1]
        tests = [test for _, other, test in tasks if other == judging][: min(most, 64 - held)]
        for test in tests:
            self.leases[judging, test] = (host, self.now + self.lease)
            self.judgings[judging - 1]["handed"].add(test)
        return None, (judging, tests)

    def on_claim(self, words):
        reply, given = self.hand_out(name_of(*count(words, 1)), 1)
        return reply or [f"task {given[0]} {given[1][0]} until {self.now + self.lease}"]

    def on_fetch(self, words):
        host, most = count(words, 2)
        host, most = name_of(host), number_of(most, 16)
        if most == 0:
            raise Bad
        reply, given = self.hand_out(host, most)
        return reply or [f"batch {given[0]} {','.join(map(str, given[1]))} until {self.now + self.lease}"]

    def task_fault(self, judging, test):
        if not 1 <= judging <= len(self.judgings):
            return [f"no-judging {judging}"]
        if not 1 <= test <= len(self.judgings[judging - 1]["row"]):
            return [f"no-test {test}"]
        return None

    def enter(self, judging, test, kind):
        kept = self.judgings[judging - 1]
        given = self.rule.remap[kind]
        cell = kept["row"][test - 1]
        if cell is not None:
            return [f"repeat {cell}" if cell == given else f"differs {cell} {given}"]
        if kept["dropped"]:
            return ["dropped"]
        kept["row"][test - 1] = given
        self.leases.pop((judging, test), None)
        # A lease ends with its use: on a cell that lazily does not matter any more.
        self.end_leases(lambda task, host, until: task[0] == judging and not self.is_wanted(*task))
        return ["counted"]

    def on_result(self, words):
        host, judging, test, kind = count(words, 4)
        host, judging, test, kind = name_of(host), number_of(judging), number_of(test), kind_of(kind)
        if not self.up.get(host):
            return [f"no-host {host}"]
        fault = self.task_fault(judging, test)
        if fault is None and test not in self.judgings[judging - 1]["handed"]:
            fault = ["not-handed"]
        return fault or self.enter(judging, test, kind)

    def on_record(self, words):
        judging, test, kind = count(words, 3)
        judging, test, kind = number_of(judging), number_of(test), kind_of(kind)
        return self.task_fault(judging, test) or self.enter(judging, test, kind)

    def on_renew(self, words):
        host, judging, test = count(words, 3)
        host, judging, test = name_of(host), number_of(judging), number_of(test)
        if not self.up.get(host):
            return [f"no-host {host}"]
        fault = self.task_fault(judging, test)
        if fault is None and self.leases.get((judging, test), (None, 0))[0] != host:
            fault = ["no-lease"]
        if fault is None:
            for task, (holder, _) in self.leases.items():
                if holder == host and task[0] == judging:
                    self.leases[task] = (host, self.now + self.lease)
        return fault or [f"until {self.now + self.lease}"]

    def end_leases(self, ends):
        gone = [task for task, lease in self.leases.items() if ends(task, *lease)]
        for task in gone:
            del self.leases[task]
        return len(gone)

    def on_tick(self, words):
        self.now = max(self.now, number_of(*count(words, 1), 10**18 - 1))
        return [f"ended {self.end_leases(lambda task, host, until: until <= self.now)}"]

    def on_down(self, words):
        host = name_of(*count(words, 1))
        if not self.up.get(host):
            return [f"no-host {host}"]
        self.up[host] = False
        return [f"ended {self.end_leases(lambda task, holder, until: holder == host)}"]

    # What is shown

    def on_show(self, words):
        judging = number_of(*count(words, 1))
        if not 1 <= judging <= len(self.judgings):
            return [f"no-judging {judging}"]
        return [self.report(judging)]

    def on_owner(self, words):
        judging = number_of(*count(words, 1))
        if not 1 <= judging <= len(self.judgings):
            return [f"no-judging {judging}"]
        return [f"owner {self.judgings[judging - 1]['of']}"]

    def on_board(self, words):
        count(words, 0)
        numbers = range(1, len(self.submissions) + 1)
        return [f"{number} {self.public(number)}" for number in numbers] + [f"board {len(numbers)}"]

    def on_matrix(self, words):
        number = number_of(*count(words, 1))
        if not 1 <= number <= len(self.rejudgings):
            return [f"no-rejudging {number}"]
        members = self.rejudgings[number - 1]["members"]
        pairs = Counter((self.outcome(old), self.outcome(new)) for _, old, new in members)
        rows = sorted(pairs, key=lambda pair: [ANSWERS.index(answer) for answer in pair])
        return [f"{old} {new} {pairs[old, new]}" for old, new in rows] + [f"matrix {len(members)}"]

    def on_audit(self, words):
        count(words, 0)
        return [f"audit {len(self.texts)} {self.head.hex()}"]

    # Rejudgings and verification

    def busy_in(self, submission):
        for number, kept in enumerate(self.rejudgings, 1):
            if kept["state"] == "open" and submission in [member[0] for member in kept["members"]]:
                return number
        return None

    def rejudge_fault(self, numbers):
        if not numbers:
            return ["empty-set"]
        for number in numbers:
            if not 1 <= number <= len(self.submissions):
                return [f"no-submission {number}"]
        for number in numbers:
            if not self.is_final(self.submissions[number - 1]["current"]):
                return [f"not-final {number}"]
        if len(self.rejudgings) >= 10_000:
            return ["full 10000"]
        if len(self.judgings) + len(numbers) > 400_000:
            return ["full 400000"]
        for at, number in enumerate(numbers):
            if number in numbers[:at]:
                return [f"twice {number}"]
        for number in numbers:
            if self.busy_in(number):
                return [f"busy {number} {self.busy_in(number)}"]
        return None

    def on_rejudge(self, words):
        numbers = [number_of(part) for word in count(words, 0, 1) for part in word.split(b",")]
        fault = self.rejudge_fault(numbers)
        if fault:
            return fault
        olds = [self.submissions[number - 1]["current"] for number in numbers]
        news = [self.add_judging(2, number, again=True) for number in numbers]
        self.rejudgings.append({"members": list(zip(numbers, olds, news)), "state": "open"})
        replies = [f"rejudging {len(self.rejudgings)} judgings {news[0]} to {news[-1]}"]
        return replies, ",".join(str(number) for number in numbers)

    def close_fault(self, number):
        if not 1 <= number <= len(self.rejudgings):
            return [f"no-rejudging {number}"]
        state = self.rejudgings[number - 1]["state"]
        return None if state == "open" else [f"closed {state}"]

    def on_apply(self, words):
        number = number_of(*count(words, 1))
        fault = self.close_fault(number)
        if fault:
            return fault
        kept = self.rejudgings[number - 1]
        for _, _, new in kept["members"]:
            if not self.is_final(new):
                return [f"unfinished {new}"]
        for submission, _, new in kept["members"]:
            self.submissions[submission - 1]["current"] = new
        kept["state"] = "applied"
        return [f"applied {len(kept['members'])}"], str(number)

    def on_cancel(self, words):
        number = number_of(*count(words, 1))
        fault = self.close_fault(number)
        if fault:
            return fault
        kept = self.rejudgings[number - 1]
        news = {new for _, _, new in kept["members"]}
        for new in news:
            self.judgings[new - 1]["dropped"] = True
        self.end_leases(lambda task, host, until: task[0] in news)
        kept["state"] = "cancelled"
        return [f"cancelled {len(kept['members'])}"], str(number)

    def on_verify(self, words):
        judging = number_of(*count(words, 1))
        if not 1 <= judging <= len(self.judgings):
            return [f"no-judging {judging}"]
        kept = self.judgings[judging - 1]
        if kept["dropped"]:
            return ["dropped"]
        if not self.is_final(judging):
            return [f"not-final {judging}"]
        if kept["verified"]:
            return [f"already {judging}"]
        kept["verified"] = True
        return [f"verified {judging}"], str(judging)

    def on_ask(self, words):
        judging = number_of(*count(words, 1))
        if not 1 <= judging <= len(self.judgings):
            return [f"no-judging {judging}"]
        kept = self.judgings[judging - 1]
        if kept["dropped"]:
            return ["dropped"]
        if kept["asked"]:
            return [f"already {judging}"]
        kept["asked"] = True
        return [self.report(judging)], str(judging)
