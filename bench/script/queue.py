#!/usr/bin/env python3
"""Prints how many pairs of a claim and its result `farm script` answers a second beside SQLite.

    bench/script/queue.py [PROGRAM] [SUBMISSIONS [PAIRS]]

PROGRAM is the built program, `crates/farm/out/farm` of this repository if none is given. 100,000 submissions of one test
each wait (or as many as are said), and hosts claim 50,000 of them and send a result for each, one pair after the other
(or as many pairs as are said). SQLite, by Python's `sqlite3` in memory, does the same in two statements a pair over a
table with an index on what is open: an update that claims the least open row, and one that enters the result. The time
of the farm is that of the whole script less that of the same script without the pairs, the best of nine each, in turn.

A last line prints what 50 claims cost behind 8,000 judgings of 1,000 tests that the result of their first test settled.
"""

import sqlite3
import sys
import time

sys.dont_write_bytecode = True

from run import path, run, write  # noqa: E402
from place import program_and_numbers  # noqa: E402

RUNS = 9


def least(program, sources):
    """For each source the least seconds by the clock of some runs, in turn with the others, and the status."""
    results = [[run(program, source, path("out", ".out")) for source in sources] for _ in range(RUNS)]
    return [(min(result[0] for result in column), max(result[2] for result in column)) for column in zip(*results)]


def farm_seconds(program, submissions, pairs):
    """What the pairs take, and whether every claim was handed its task and every result counted."""
    lines = ["problem p 1", "host h"] + ["submit p"] * submissions
    both = [line for n in range(1, pairs + 1) for line in ("claim h", f"result h {n} 1 correct")]
    (without, first), (whole, second) = least(program, [write("queue", lines), write("queue pairs", lines + both)])
    with open(path("out", ".out")) as out:
        replies = out.read().splitlines()[len(lines):]
    wanted = [reply for n in range(1, pairs + 1) for reply in (f"task {n} 1 until 60", "counted")]
    return whole - without, first == second == 0 and replies == wanted


def settled_seconds(program, judgings, claims):
    """What claims take behind judgings of 1,000 tests that are settled, and whether each was handed its task."""
    lines = ["problem big 1000", "problem p 1", "host h"] + ["submit big"] * judgings + ["submit p"] * claims
    lines += [f"record {judging} 1 run-error" for judging in range(1, judgings + 1)]
    (without, first), (whole, second) = least(
        program, [write("settled", lines), write("settled claims", lines + ["claim h"] * claims)]
    )
    with open(path("out", ".out")) as out:
        replies = out.read().splitlines()[len(lines):]
    wanted = [f"task {judgings + n} 1 until 60" for n in range(1, claims + 1)]
    return whole - without, first == second == 0 and replies == wanted


def table(submissions):
    """A table of tasks in memory, the open ones by class, judging and test."""
    base = sqlite3.connect(":memory:", isolation_level=None)
    base.execute(
        "CREATE TABLE task (id INTEGER PRIMARY KEY, class INTEGER, judging INTEGER, test INTEGER,"
        " host TEXT, until INTEGER, kind TEXT)"
    )
    base.execute("CREATE INDEX open_tasks ON task (class, judging, test) WHERE host IS NULL AND kind IS NULL")
    base.execute("BEGIN")
    rows = ((1, judging, 1) for judging in range(1, submissions + 1))
    base.executemany("INSERT INTO task (class, judging, test) VALUES (?, ?, ?)", rows)
    base.execute("COMMIT")
    return base


CLAIM = (
    "UPDATE task SET host = ?, until = ? WHERE id = (SELECT id FROM task WHERE host IS NULL AND kind IS NULL"
    " ORDER BY class, judging, test LIMIT 1) RETURNING id, judging, test"
)
RESULT = "UPDATE task SET kind = ?, host = NULL WHERE id = ? AND kind IS NULL"


def sqlite_seconds(submissions, pairs):
    """What the pairs take in one transaction, which is what suits SQLite best."""
    base = table(submissions)
    base.execute("BEGIN")
    start, sound = time.perf_counter(), True
    for n in range(1, pairs + 1):
        task, judging, _ = base.execute(CLAIM, ("h", 60)).fetchone()
        sound = sound and judging == n and base.execute(RESULT, ("correct", task)).rowcount == 1
    seconds = time.perf_counter() - start
    base.execute("COMMIT")
    return seconds, sound


def main():
    program, numbers = program_and_numbers(sys.argv[1:])
    submissions, pairs = (numbers + [100_000, 50_000][len(numbers):])[:2]
    seconds, sound = farm_seconds(program, submissions, pairs)
    other = [sqlite_seconds(submissions, pairs) for _ in range(RUNS)]
    least_other = min(seconds for seconds, _ in other)
    print(f"{pairs:,} pairs of a claim and its result, {submissions:,} open tasks at the start")
    print(f"  farm script: {pairs / seconds:,.0f} pairs/s{'' if sound else '; the replies are NOT as wanted'}")
    print(f"  SQLite {sqlite3.sqlite_version} in memory, by Python's sqlite3: {pairs / least_other:,.0f} pairs/s")
    print(f"  ratio {least_other / seconds:,.1f}")
    judgings, claims = 8_000, 50
    behind, handed = settled_seconds(program, judgings, claims)
    print(f"{claims} claims behind {judgings:,} settled judgings of 1,000 tests: {behind * 1000:,.1f} ms in all"
          f"{'' if handed else '; the replies are NOT as wanted'}")
    return 0 if sound and handed and all(sound for _, sound in other) else 1


if __name__ == "__main__":
    sys.exit(main())
