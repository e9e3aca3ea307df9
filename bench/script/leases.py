#!/usr/bin/env python3
"""Prints what lines cost in `farm script` while 64,000 leases are held, 64 by each of 1,000 hosts.

    bench/script/leases.py [PROGRAM]

PROGRAM is the built program, `crates/farm/out/farm` of this repository if none is given. Figures of many lines are the
processor's time of a script less that of the same script without these lines, the least of three runs: granting in
the order of judgings and of classes that change from one to the next, while time stands still, so that all leases end
together, and renewing a lease of each host, with the 63 others that it holds of the judging. Figures of one line are by the
clock, from when it is written to a pipe until its reply is read from another, less that of `show 1`, whose work is next
to nothing, the least of three runs: a `down` of one host and the mean of all; a `tick` that ends all leases; and a `cancel` of
each of 20 rejudgings, of 500 members each, while 60,000 leases are held.
"""

import subprocess
import sys
import time

sys.dont_write_bytecode = True

from run import path, run  # noqa: E402
from place import program_and_numbers  # noqa: E402

HOSTS, EACH = 1_000, 64
HELD = HOSTS * EACH
# The tests of a judging that ten hosts hold.
OF_TEN = 10 * EACH
RUNS = 3
IN_A_LINE = 500


def seconds(program, name, lines):
    """The least seconds of the processor of some runs, and the replies."""
    source, got = path(name, ".lines"), path(name, ".out")
    with open(source, "w") as file:
        file.writelines(line + "\n" for line in lines)
    results = [run(program, source, got) for _ in range(RUNS)]
    with open(got) as out:
        replies = out.read().splitlines()
    if any(status != 0 for _, _, status in results):
        sys.exit(f"{name}: status {[status for _, _, status in results]}")
    return min(processor for _, processor, _ in results), replies


def hosts():
    return [f"host h{number}" for number in range(HOSTS)]


def contest(classes, tests=1_000):
    """As many judgings of so many tests as have 64,000 together, whose classes take turns."""
    submits = [f"submit p{classes[number % len(classes)]}" for number in range(HELD // tests)]
    return [f"problem p {tests}"] + hosts() + submits


def claims():
    return [f"claim h{number % HOSTS}" for number in range(HELD)]


def fetches():
    """Each host fetches 64 tests, 16 at a time, one host after the other."""
    return [f"fetch h{number} 16" for number in range(HOSTS) for _ in range(EACH // 16)]


def show(what, cost, count, each):
    print(f"{what}: {cost * 1e3:,.2f} ms in all, {cost / count * 1e6:,.2f} us {each}")
    sys.stdout.flush()


def wanted(replies, reply, what):
    if replies != reply:
        sys.exit(f"{what}: the replies are NOT as wanted: {replies[:3]} ..")


def grants(program):
    for name, classes in [("one class", [""]), ("classes in turns", [" low", "", " high"])]:
        lines = contest(classes)
        before, _ = seconds(program, "granting", lines)
        after, replies = seconds(program, "granted", lines + claims())
        tasks = [reply for reply in replies if reply.startswith("task ") and reply.endswith(" until 60")]
        wanted([len(tasks)], [HELD], name)
        show(f"claims until {HELD:,} leases are held, {name}", after - before, HELD, "a claim")
    before, _ = seconds(program, "granting", contest([""], OF_TEN))
    after, replies = seconds(program, "granted", held())
    wanted([reply.count(",") for reply in replies if reply.startswith("batch ")], [15] * (HELD // 16), "fetches")
    show("fetches of 16 tests until as many are held", after - before, HELD // 16, "a fetch")


def held():
    return contest([""], OF_TEN) + fetches()


def renewals(program):
    """Ten hosts hold the tests of each judging."""
    lines = [f"renew h{number} {number // 10 + 1} {number % 10 * EACH + 1}" for number in range(HOSTS)]
    before, _ = seconds(program, "held", held())
    after, replies = seconds(program, "renewed", held() + ["tick 10"] + lines)
    wanted(replies[-HOSTS:], ["until 70"] * HOSTS, "renewals")
    show("renewals, each of a host's 64 leases", after - before, HOSTS, "a line")


class Conversation:
    """A running `farm script` that answers line by line."""

    def __init__(self, program):
        self.process = subprocess.Popen([program, "script"], stdin=subprocess.PIPE, stdout=subprocess.PIPE)

    def __enter__(self):
        return self

    def __exit__(self, *_):
        self.process.stdin.close()
        if self.process.wait() != 0:
            sys.exit(f"status {self.process.returncode}")

    def say(self, lines):
        """The replies to many lines, of which so few are under way that no pipe is ever full."""
        replies = []
        for at in range(0, len(lines), 100):
            some = lines[at:at + 100]
            self.process.stdin.write("".join(line + "\n" for line in some).encode())
            self.process.stdin.flush()
            replies += [self.process.stdout.readline().decode().rstrip("\n") for _ in some]
        return replies

    def time(self, line):
        """The reply to a line, and the seconds until it was there."""
        begin = time.perf_counter()
        [reply] = self.say([line])
        return reply, time.perf_counter() - begin


def timed(program, before, lines, reply, what):
    """The seconds of each of these lines behind others, the least of some runs, less those of a line without work."""
    best = [float("inf")] * len(lines)
    for _ in range(RUNS):
        with Conversation(program) as farm:
            farm.say(before)
            nothing = min(farm.time("show 1")[1] for _ in range(100))
            for at, line in enumerate(lines):
                got, taken = farm.time(line)
                wanted(got, reply, what)
                best[at] = min(best[at], taken - nothing)
    return best


def ends(program):
    for what, lines, reply, each in [
        ("a `down` of one host", ["down h500"], "ended 64", "a host"),
        ("a `down` of each host", [f"down h{number}" for number in range(HOSTS)], "ended 64", "a host"),
        (f"a `tick` that ends {HELD:,} leases", ["tick 60"], f"ended {HELD}", "a line"),
    ]:
        taken = timed(program, held(), lines, reply, what)
        show(what, sum(taken), len(lines), each)


def cancels(program):
    """10,000 submissions are judged anew by 500, and 60,000 tests of others and of these are held when that is cancelled."""
    members = 10_000
    before = ["problem q 6"] + hosts() + ["submit q"] * members
    before += [f"record {number} 1 run-error" for number in range(1, members + 1)]
    lists = [range(at, min(at + IN_A_LINE, members + 1)) for at in range(1, members + 1, IN_A_LINE)]
    before += [f"rejudge {','.join(map(str, numbers))}" for numbers in lists]
    before += [f"fetch h{number} 16" for number in range(HOSTS) for _ in range(10)]
    cancels = [f"cancel {number}" for number in range(1, len(lists) + 1)]
    with Conversation(program) as farm:
        held_now = sum(reply.count(",") + 1 for reply in farm.say(before) if reply.startswith("batch "))
        replies = farm.say(cancels + ["tick 60"])
    wanted(replies[-1], "ended 0", "cancel")
    taken = timed(program, before, cancels, replies[0], "cancel")
    show(f"cancels of {members:,} members, {IN_A_LINE} a line, while {held_now:,} leases are held", sum(taken), len(taken), "a line")


def main():
    program, _ = program_and_numbers(sys.argv[1:])
    grants(program)
    renewals(program)
    ends(program)
    cancels(program)
    return 0


if __name__ == "__main__":
    sys.exit(main())
