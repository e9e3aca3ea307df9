#!/usr/bin/env python3
"""Runs `farm script` on contests with 1,000 hosts and prints its figures.

    bench/script/hosts.py [PROGRAM] [SUBMISSIONS ..]

PROGRAM is the built program, `crates/farm/out/farm` of this repository if none is given. The contests have
1,000, 10,000 and 100,000 submissions of three tests each, or as many as the words say: claims, results,
renewals, ticks and deaths mixed. Printed are, for each, lines a second and what a line costs (the best of
five runs, in turn with the peer), the most memory, and whether the replies are those of an independent model,
byte for byte; and lines a second of a straightforward C++ program (`script.cc`) on the same lines, where there
is `g++`.

Then 1,000 hosts claim tests of problems with 1,000 tests until 64,000 leases are held, 64 by each host: what a
claim costs while the leases grow from one count to the next. It ends early where one count took over 20 seconds.
"""

import filecmp
import sys

sys.dont_write_bytecode = True

from run import build_peer, most_memory, path, print_peer, run  # noqa: E402
from hosts_model import write_contest  # noqa: E402
from line_writer import LineWriter  # noqa: E402
from place import program_and_numbers  # noqa: E402

SIZES = [1_000, 10_000, 100_000]
# Each program is run so often, in turn, and the best counts.
TURNS = 5

# How many leases are held: up to 64 by each of 1,000 hosts.
HELD = [0, 250, 500, 1_000, 2_000, 4_000, 8_000, 16_000, 32_000, 64_000]
PATIENCE = 20


def measure(program, peer, submissions):
    name = f"hosts {submissions}"
    source, want, got = path(name, ".lines"), path(name, ".replies"), path(name, ".out")
    with open(source, "w") as lines, open(want, "w") as replies:
        contest = write_contest(lines, replies, submissions)
    results, of_peer = [], []
    for _ in range(TURNS):
        results.append(run(program, source, got))
        if peer:
            of_peer.append(run(peer, source, path(name, ".peer")))
    status, same = max(result[2] for result in results), filecmp.cmp(want, got, shallow=False)
    seconds, processor = (min(result[part] for result in results) for part in (0, 1))
    print(f"{submissions:,} submissions, 1,000 hosts: {contest.count:,} lines, {contest.size:,} bytes")
    print(f"  status {status}; replies {'as the model gives them' if same else 'NOT those of the model'}")
    print(f"  {seconds:.3f} s; {contest.count / seconds:,.0f} lines/s; {processor / contest.count * 1e6:,.2f} us of the processor a line")
    if peer:
        same = print_peer(contest.count, seconds, of_peer, want, path(name, ".peer")) and same
    print(f"  most memory {most_memory(program, source):,.1f} MiB")
    sys.stdout.flush()
    return status == 0 and same


def write_claims(lines, replies, held):
    """A contest in which so many tests of 64 submissions are claimed: in order, since no result comes."""
    writer = LineWriter(lines, replies)
    writer.put("problem p 1000", "problem p version 1")
    for number in range(1000):
        writer.put(f"host h{number}", f"host h{number}")
    for number in range(1, 65):
        writer.put("submit p", f"submission {number} judging {number}")
    for number in range(held):
        judging, test = number // 1000 + 1, number % 1000 + 1
        writer.put(f"claim h{number % 1000}", f"task {judging} {test} until 60")


def measure_claims(program):
    """Prints what a claim costs with many leases held."""
    before, count, same = 0.0, None, True
    for held in HELD:
        name = f"claims {held}"
        source, want, got = path(name, ".lines"), path(name, ".replies"), path(name, ".out")
        with open(source, "w") as lines, open(want, "w") as replies:
            write_claims(lines, replies, held)
        _, processor, status = run(program, source, got)
        same = same and status == 0 and filecmp.cmp(want, got, shallow=False)
        if count is not None:
            cost = (processor - before) / (held - count)
            print(f"  {count:,} to {held:,} leases: {cost * 1e6:,.1f} us of the processor a claim"
                  f"{'' if same else '; the replies are NOT as wanted'}")
            sys.stdout.flush()
        before, count = processor, held
        if processor > PATIENCE:
            break
    return same


def main():
    program, sizes = program_and_numbers(sys.argv[1:])
    peer = build_peer()
    if peer is None:
        print("no g++ here: the C++ program is not run beside")
    sound = all([measure(program, peer, size) for size in sizes or SIZES])
    print("claims, in judgings of 1,000 tests:")
    sound = measure_claims(program) and sound
    if peer:
        print("claims by the C++ program:")
        sound = measure_claims(peer) and sound
    return 0 if sound else 1


if __name__ == "__main__":
    sys.exit(main())
