#!/usr/bin/env python3
"""Plays the journals of `farm judge` as scripts: each line must get the reply that stands beside it.

    tests/journal.py [PROGRAM] [TURNS [SEED]]

PROGRAM is the built program, `crates/farm/out/farm` of this repository if none is given. The contests are the example, the
realistic one, and as many as are said of those that `judge_random.py` draws, each judged by 0 to 16 hosts. A journal
stands behind the table, which is what is written without it. Its lines are fed to `farm script`, by the contest's
settings, whose replies must be those of the journal. And pass 1 must have entered nothing but claims of host h1 and
results of the tests that it was handed, each once, and so on; the last verdicts must be those of the table, and no task
may be open. The status is 1 where one of these is not so.
"""

import os
import random
import shutil
import subprocess
import sys
import tempfile

sys.dont_write_bytecode = True

from judge import REALISTIC, write  # noqa: E402
from judge_random import Drawn  # noqa: E402
from place import TOP, program_and_numbers  # noqa: E402


def judged(program, folder, hosts, *more):
    done = subprocess.run([program, "judge", folder, "--hosts", str(hosts), *more], capture_output=True, check=False, timeout=300)
    return done.returncode, done.stdout.decode()


def replies_to(program, folder, lines):
    """What `farm script` answers to the lines, by the settings of the contest's folder."""
    settings = os.path.join(folder, "farm.json")
    words = ["--config", settings] if os.path.exists(settings) else []
    done = subprocess.run([program, "script", *words], input="".join(line + "\n" for line in lines), capture_output=True, text=True, check=True)
    return done.stdout.splitlines()


def calls_of(journal):
    """The pass, the line and the reply of each call."""
    for line in journal:
        said, reply = line.split(" => ")
        word, number, event = said.split(" ", 2)
        if word != "journal":
            raise ValueError(line)
        yield int(number), event.split(), reply.split()


def host_fault(calls, hosts):
    """What a host has entered that it should not have, or None."""
    handed = {}
    for number, event, reply in calls:
        if event[0] == "claim":
            if reply[0] == "task":
                handed[tuple(reply[1:3])] = event[1]
        elif event[0] == "result":
            if handed.pop(tuple(event[2:4]), None) != event[1]:
                return f"{event} without a claim of this host"
            if reply != ["counted"]:
                return f"{event} is answered {reply}"
        elif number:
            return f"{event} by a host"
        if number and (number > hosts or event[1] != f"h{number}"):
            return f"{event} by pass {number} of {hosts}"
    return None


def fault_of(program, folder, hosts):
    """What is wrong with a journal of the contest, or None."""
    status, table = judged(program, folder, hosts)
    if status:
        return None if judged(program, folder, hosts, "--journal") == (status, table) else "another fault with a journal"
    again, written = judged(program, folder, hosts, "--journal")
    if again or not written.startswith(table):
        return f"status {again}, or another table"
    journal = written[len(table):].splitlines()
    calls = list(calls_of(journal))
    replies = replies_to(program, folder, [line.split(" ", 2)[2].split(" => ")[0] for line in journal])
    for line, reply in zip(journal, replies):
        if line.split(" => ")[1] != reply:
            return f"{line}, but the reply is {reply}"
    if len(replies) != len(journal):
        return f"{len(journal)} lines, {len(replies)} replies"
    shown = [reply for _, event, reply in calls if event[0] == "show"]
    if [["final", row.split()[3]] for row in table.splitlines()] != shown:
        return f"shown {shown[:5]}"
    if [reply for _, event, reply in calls if event == ["claim", "h0"]][-1:] != [["nothing"]]:
        return "the last claim is not answered by nothing"
    return host_fault(calls, hosts)


def contests(turns, seed):
    """A name, a folder and a number of hosts for each contest."""
    for hosts in [0, 1, 2, 3, 4, 8, 16]:
        yield "the example", os.path.join(TOP, "examples", "contest"), hosts
    with tempfile.TemporaryDirectory() as top:
        folder = os.path.join(top, "realistic")
        write(folder, REALISTIC)
        for hosts in range(17):
            yield "the realistic contest", folder, hosts
        for turn in range(turns):
            folder = os.path.join(top, "drawn")
            drawn = Drawn(seed + turn)
            drawn.write(folder)
            yield f"contest {seed + turn}", folder, random.Random(turn).randrange(17)
            shutil.rmtree(folder)


def main():
    program, numbers = program_and_numbers(sys.argv[1:])
    turns, seed = (numbers + [50, 0][len(numbers):])[:2]
    count = 0
    for name, folder, hosts in contests(turns, seed):
        fault = fault_of(program, folder, hosts)
        if fault:
            print(f"{name} with {hosts} hosts: {fault}")
            return 1
        count += 1
    print(f"{count} contests, whose journals are replayed as they stand")
    return 0


if __name__ == "__main__":
    sys.exit(main())
