#!/usr/bin/env python3
"""Times `farm script --store` beside SQLite, and the opening of a store beside the reading of its lines.

    bench/store/run.py [PROGRAM [EVENTS [RECORDS]]]

PROGRAM is the built program, `crates/farm/out/farm` of this repository if none is given. EVENTS events, 2,000 if not said, are
stored by the program and, in turn, by Python's `sqlite3` (journal in WAL, synchronous FULL, a transaction an event), on the machine's
disk and in /dev/shm: events a second and the ratio. Then a store of RECORDS events, 1,000,000 if not said, is opened, beside `farm
script` that reads the same lines without a store, and listed: seconds of the processor and by the clock, and the most memory.
"""

import os
import select
import shutil
import sqlite3
import subprocess
import sys
import tempfile
import threading
import time

sys.dont_write_bytecode = True

TOP = os.path.dirname(os.path.dirname(os.path.dirname(os.path.abspath(__file__))))
sys.path.insert(0, os.path.join(TOP, "tests"))

from place import program_and_numbers  # noqa: E402
from store import config_line, file_of  # noqa: E402

ROUNDS = 3


def lines_of(count):
    """Events that a farm accepts: a problem of 1,000 tests, and submissions with results, until there are so many."""
    lines, judging = [b"problem A 1000"], 0
    while len(lines) < count:
        judging += 1
        lines.append(b"submit A")
        lines += [b"record %d %d correct" % (judging, test) for test in range(1, 1000)]
    return lines[:count]


def stored(program, folder, lines):
    """Seconds in which the program stores the lines, each answered before the next is written, as a client of it sees them."""
    path = os.path.join(folder, "store")
    text = b"\n".join(lines) + b"\n"
    begun = time.monotonic()
    done = subprocess.run([program, "script", "--store", path], input=text, stdout=subprocess.PIPE, check=True)
    took = time.monotonic() - begun
    if done.stdout.count(b"\n") != len(lines):
        sys.exit("lines were refused")
    os.remove(path)
    return took


def by_sqlite(folder, lines):
    path = os.path.join(folder, "lines.db")
    db = sqlite3.connect(path, isolation_level=None)
    mode = db.execute("pragma journal_mode=wal").fetchone()[0]
    db.execute("pragma synchronous=full")
    db.execute("create table lines(number integer primary key, line blob)")
    begun = time.monotonic()
    for number, line in enumerate(lines):
        db.execute("begin")
        db.execute("insert into lines values(?, ?)", (number, line))
        db.execute("commit")
    took = time.monotonic() - begun
    db.close()
    for name in os.listdir(folder):
        os.remove(os.path.join(folder, name))
    if mode != "wal":
        sys.exit(f"the journal is in {mode}")
    return took


def both(program, name, parent, count):
    lines = lines_of(count)
    with tempfile.TemporaryDirectory(dir=parent) as folder:
        ours, theirs = [], []
        for _ in range(ROUNDS):
            ours.append(stored(program, folder, lines))
            theirs.append(by_sqlite(folder, lines))
    best, peer = len(lines) / min(ours), len(lines) / min(theirs)
    print(f"{name}: {best:,.0f} events a second; SQLite {peer:,.0f}; ratio {best / peer:.2f}", flush=True)


def timed(words, source):
    """Seconds of the processor and by the clock."""
    with open(source, "rb") as lines, tempfile.TemporaryFile() as out:
        begun = time.monotonic()
        run = subprocess.Popen(words, stdin=lines, stdout=out)
        _, status, used = os.wait4(run.pid, 0)
        took = time.monotonic() - begun
    run.returncode = os.waitstatus_to_exitcode(status)
    if status:
        sys.exit(f"{words} ended with {status}")
    return used.ru_utime + used.ru_stime, took


def most_memory(words, source):
    """The most memory, in MiB, that is seen while all that it writes is read, and before its input ends."""
    run = subprocess.Popen(words, stdin=subprocess.PIPE, stdout=subprocess.PIPE)

    def feed():
        with open(source, "rb") as lines:
            shutil.copyfileobj(lines, run.stdin, 65536)
        run.stdin.flush()

    feeder = threading.Thread(target=feed)
    feeder.start()
    most, quiet = 0, 0
    while quiet < 20:
        ready, _, _ = select.select([run.stdout], [], [], 0.05)
        quiet = 0 if ready else quiet + (not feeder.is_alive())
        with open(f"/proc/{run.pid}/status") as rows:
            most = max([most] + [int(row.split()[1]) for row in rows if row.startswith("VmHWM:")])
        if ready and not os.read(run.stdout.fileno(), 65536):
            break
    feeder.join()
    run.communicate()
    return most / 1024


def opened(program, count):
    lines = lines_of(count)
    with tempfile.TemporaryDirectory() as folder:
        path, plain, asked = (os.path.join(folder, name) for name in ("store", "lines", "asked"))
        for name, data in [(path, file_of([config_line(), *lines])), (plain, b"\n".join(lines) + b"\n"), (asked, b"audit\n")]:
            with open(name, "wb") as file:
                file.write(data)
        print(f"a store of {len(lines):,} events, {os.path.getsize(path):,} bytes; seconds of the processor, and by the clock:")
        runs = [
            ("it is opened", [program, "script", "--store", path], asked),
            ("its lines are read and answered without a store", [program, "script"], plain),
            ("it is listed", [program, "store", path], os.devnull),
        ]
        took = {name: [] for name, _, _ in runs}
        for _ in range(ROUNDS):
            for name, words, source in runs:
                took[name].append(timed(words, source))
        for name, words, source in runs:
            print(f"  {name}: {min(took[name])[0]:.2f} s, {min(time for _, time in took[name]):.2f} s, {most_memory(words, source):.1f} MiB")
        ratio = min(took[runs[1][0]])[0] / min(took[runs[0][0]])[0]
    print(f"  the ratio of reading to opening: {ratio:.2f}")


def main():
    program, numbers = program_and_numbers(sys.argv[1:])
    events, records = (numbers + [2_000, 1_000_000][len(numbers):])[:2]
    both(program, "the machine's disk", None, events)
    if os.path.isdir("/dev/shm"):
        both(program, "/dev/shm", "/dev/shm", events)
    opened(program, records)


if __name__ == "__main__":
    main()
