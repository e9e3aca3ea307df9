"""Scripts of a contest with hosts, with the replies that an independent model gives to them.

Hosts claim tasks, answer, renew their leases, let them end, die and come back, while submissions and results from
outside come in.
The model keeps what is open in a heap and leases in a dictionary, which is not how the program does it.
"""

import heapq
import random

from line_writer import LineWriter
from rule_model import KINDS, Rule

HOSTS = 1_000
PROBLEMS = 10
TESTS = 3
LEASE = 60
HELD = 64
CLASSES = ["high", "normal", "low"]


class Contest(LineWriter):
    """A contest whose results come from hosts and from outside."""

    def __init__(self, lines, replies):
        super().__init__(lines, replies)
        self.rule = Rule()
        self.random = random.Random(5)
        self.now = 0
        self.rows = []
        self.classes = []
        # Entries of tasks that were open once: looked at again when they come to the front.
        self.open = []
        # The host and the end of the lease on a task, and the ends in their order.
        self.leases = {}
        self.ends = []
        self.tasks_of = {}
        self.up = []
        self.down_hosts = []
        # Tasks that were handed out and have no result yet, with the host that had each last.
        self.handed = []

    def start(self):
        for number in range(PROBLEMS):
            self.put(f"problem p{number} {TESTS}", f"problem p{number} version 1")
        for number in range(HOSTS):
            host = f"h{number}"
            self.put(f"host {host}", f"host {host}")
            self.up.append(host)
            self.tasks_of[host] = set()

    def submit(self):
        self.rows.append([None] * TESTS)
        judging = len(self.rows)
        rank = self.random.choices([0, 1, 2], [1, 8, 1])[0]
        self.classes.append(rank)
        for test in range(1, TESTS + 1):
            heapq.heappush(self.open, (rank, judging, test))
        word = "" if rank == 1 else " " + CLASSES[rank]
        problem = self.random.randrange(PROBLEMS)
        self.put(f"submit p{problem}{word}", f"submission {judging} judging {judging}")

    def is_wanted(self, judging, test):
        """Whether the cell is empty and matters. Where it does not, it never does later."""
        return self.rule.matters(self.rows[judging - 1], test - 1)

    def first_open(self):
        """The least open task. What is not wanted leaves the heap for good, and what is held comes back."""
        while self.open:
            _, judging, test = self.open[0]
            if (judging, test) not in self.leases and self.is_wanted(judging, test):
                return judging, test
            heapq.heappop(self.open)
        return None

    def grant(self, host, task, until):
        self.leases[task] = (host, until)
        self.tasks_of[host].add(task)
        heapq.heappush(self.ends, (until, task))

    def end(self, task):
        host, _ = self.leases.pop(task)
        self.tasks_of[host].discard(task)
        judging, test = task
        if self.is_wanted(judging, test):
            heapq.heappush(self.open, (self.classes[judging - 1], judging, test))

    def tasks(self, judging):
        return [(judging, test) for test in range(1, TESTS + 1)]

    def fetch(self):
        host = self.random.choice(self.up)
        most = self.random.randrange(1, 5)
        line = f"fetch {host} {most}"
        held = len(self.tasks_of[host])
        if held >= HELD:
            self.put(line, f"holding {HELD}")
            return
        first = self.first_open()
        if first is None:
            self.put(line, "nothing")
            return
        until = self.now + LEASE
        tests = []
        for task in self.tasks(first[0]):
            if task not in self.leases and self.is_wanted(*task) and len(tests) < min(most, HELD - held):
                self.grant(host, task, until)
                self.handed.append((task, host))
                tests.append(str(task[1]))
        self.put(line, f"batch {first[0]} {','.join(tests)} until {until}")

    def claim(self):
        host = self.random.choice(self.up)
        if len(self.tasks_of[host]) >= HELD:
            self.put(f"claim {host}", f"holding {HELD}")
            return
        task = self.first_open()
        if task is None:
            self.put(f"claim {host}", "nothing")
            return
        until = self.now + LEASE
        self.grant(host, task, until)
        self.handed.append((task, host))
        self.put(f"claim {host}", f"task {task[0]} {task[1]} until {until}")

    def result(self):
        """A result of a task that was handed out at some time, perhaps by a host that lost its lease."""
        at = self.random.randrange(len(self.handed))
        self.handed[at], self.handed[-1] = self.handed[-1], self.handed[at]
        (judging, test), host = self.handed[-1]
        if self.random.randrange(50):
            self.handed.pop()
        kind = self.random.choices(KINDS, [20, 3, 1, 1, 1, 1, 1, 1])[0]
        line = f"result {host} {judging} {test} {kind}"
        if host in self.down_hosts:
            self.put(line, f"no-host {host}")
        else:
            self.enter(line, judging, test, kind)

    def record(self):
        """A result from outside of a task that waits: some judgings are final before they are claimed."""
        _, judging, test = self.random.choice(self.open)
        kind = self.random.choice(KINDS)
        self.enter(f"record {judging} {test} {kind}", judging, test, kind)

    def enter(self, line, judging, test, kind):
        kept = self.rows[judging - 1][test - 1]
        if kept is not None:
            self.put(line, f"repeat {kept}" if kept == kind else f"differs {kept} {kind}")
            return
        self.rows[judging - 1][test - 1] = kind
        for task in self.tasks(judging):
            if task in self.leases and not self.is_wanted(*task):
                self.end(task)
        self.put(line, "counted")

    def renew(self):
        (judging, test), host = self.random.choice(self.handed)
        line = f"renew {host} {judging} {test}"
        if host in self.down_hosts:
            self.put(line, f"no-host {host}")
        elif self.leases.get((judging, test), (None, 0))[0] != host:
            self.put(line, "no-lease")
        else:
            until = self.now + LEASE
            for task in self.tasks(judging):
                if self.leases.get(task, (None, 0))[0] == host:
                    self.grant(host, task, until)
            self.put(line, f"until {until}")

    def tick(self):
        self.now += self.random.randrange(1, 3)
        count = 0
        while self.ends and self.ends[0][0] <= self.now:
            until, task = heapq.heappop(self.ends)
            if self.leases.get(task, (None, None))[1] == until:
                self.end(task)
                count += 1
        self.put(f"tick {self.now}", f"ended {count}")

    def die(self):
        at = self.random.randrange(len(self.up))
        host = self.up.pop(at)
        self.down_hosts.append(host)
        tasks = list(self.tasks_of[host])
        for task in tasks:
            self.end(task)
        self.put(f"down {host}", f"ended {len(tasks)}")

    def come_back(self):
        host = self.down_hosts.pop(self.random.randrange(len(self.down_hosts)))
        self.up.append(host)
        self.put(f"host {host}", f"host {host}")

    def show(self):
        judging = self.random.randrange(len(self.rows)) + 1
        self.put(f"show {judging}", self.rule.report(self.rows[judging - 1]))


def write_contest(lines, replies, submissions):
    """Writes a contest of so many submissions, in which about a thousand tasks are held at a time."""
    contest = Contest(lines, replies)
    contest.start()
    while len(contest.rows) < submissions or contest.first_open() is not None:
        part = contest.random.randrange(1000)
        held = len(contest.leases)
        if part < 120:
            if len(contest.rows) < submissions and len(contest.open) < 1500:
                contest.submit()
        elif part < 600:
            if held < HOSTS:
                contest.fetch() if part >= 520 else contest.claim()
        elif part < 900:
            if contest.handed:
                contest.result()
        elif part < 930:
            if contest.handed:
                contest.renew()
        elif part < 960:
            if contest.open:
                contest.record()
        elif part < 968:
            contest.tick()
        elif part < 971:
            if len(contest.up) > HOSTS // 2:
                contest.die()
        elif part < 974:
            if contest.down_hosts:
                contest.come_back()
        elif contest.rows:
            contest.show()
    return contest
