#!/usr/bin/env python3
"""Runs the merge gate and prints what each crate costs it, in minutes of one processor.

    bench/gate/costs.py

It is `rt ci`, or `rt ci --anew` where the kit has that flag, so that nothing is taken that earlier runs on this machine have
proved. Printed are, for each crate, the processor time of its own proofs, of its tests, of the check of the whole crate
that its must-fail edits begin with ("whole"), and of the edits themselves, and their sums, and how long the run took.
In kits without the flag the first edit of a crate and the check of the whole crate are one, and counted as the latter. The
times are read from /proc twice a second, so that of a process that lives for less than half a second is missing.
"""

import os
import subprocess
import sys
import time
from collections import defaultdict

TOP = os.path.dirname(os.path.dirname(os.path.dirname(os.path.abspath(__file__))))
TICKS = os.sysconf("SC_CLK_TCK")
PARTS = ["proofs", "tests", "whole", "edits"]


def processes():
    """Each process: its parent, its processor time in seconds, its words and its folder."""
    for name in os.listdir("/proc"):
        if not name.isdigit():
            continue
        try:
            with open(f"/proc/{name}/stat") as stat:
                fields = stat.read().rsplit(")", 1)[1].split()
            with open(f"/proc/{name}/cmdline", "rb") as words:
                command = words.read().decode(errors="replace").split("\0")
            folder = os.readlink(f"/proc/{name}/cwd")
        except OSError:
            continue
        yield int(name), int(fields[1]), (int(fields[11]) + int(fields[12])) / TICKS, command, folder


def is_below(process, parents, top):
    """Whether the process was started by that one, or by one that it started."""
    while process in parents and process != top:
        process = parents[process]
    return process == top


def part_of(command, folder, begun):
    """What a process of the checker is for; `begun` has the folders over which edits were checked before."""
    if "/rt-edit" not in folder:
        return "tests" if "--test" in command else "proofs"
    over = command[command.index("--incremental") + 1] if "--incremental" in command else folder
    is_first = over not in begun
    begun.add(over)
    # Where the kit has a folder `seed`, each edit is checked over a copy of it, else over what the edits before it left.
    if any(kept.endswith("/seed") for kept in begun):
        is_first = over.endswith("/seed")
    return "whole" if is_first else "edits"


def watch(child):
    """The greatest time that was seen of each process of the checker, by crate and part."""
    seen, parts, begun = {}, {}, set()
    while child.poll() is None:
        found = list(processes())
        parents = {process: parent for process, parent, _, _, _ in found}
        for process, _, seconds, command, folder in found:
            if "--crate-name" in command and is_below(process, parents, child.pid):
                crate = command[command.index("--crate-name") + 1]
                if (process, folder) not in parts:
                    parts[process, folder] = part_of(command, folder, begun)
                seen[process, crate, parts[process, folder]] = seconds
        time.sleep(0.5)
    costs = defaultdict(float)
    for (_, crate, part), seconds in seen.items():
        costs[crate, part] += seconds / 60
    return costs


def command():
    """The words that run the gate from nothing."""
    said = subprocess.run(["rt"], capture_output=True, text=True, check=False)
    return ["rt", "ci"] + ["--anew"] * ("--anew" in said.stdout + said.stderr)


def main():
    start = time.time()
    child = subprocess.Popen(command(), cwd=TOP)
    costs = watch(child)
    crates = sorted({crate for crate, _ in costs}, key=lambda crate: -sum(costs[crate, part] for part in PARTS))
    print(f"\n{'minutes of a processor':24}" + "".join(f"{part:>9}" for part in PARTS) + f"{'all':>9}")
    for crate in crates:
        row = [costs[crate, part] for part in PARTS]
        print(f"{crate:24}" + "".join(f"{cost:9.1f}" for cost in row + [sum(row)]))
    sums = [sum(costs[crate, part] for crate in crates) for part in PARTS]
    print(f"{'all crates':24}" + "".join(f"{cost:9.1f}" for cost in sums + [sum(sums)]))
    print(f"{(time.time() - start) / 60:.1f} minutes in all")
    return child.returncode


if __name__ == "__main__":
    sys.exit(main())
