#!/usr/bin/env python3
"""Refuses each allocation of `farm script` in turn, one a run, and looks at how the program ends.

    tests/memory.py [PROGRAM]

PROGRAM is the built program, `crates/farm/out/farm` of this repository if none is given. Some scripts are played, with
the n-th allocation refused in the n-th run, until a run asks for fewer. Wanted is status 6 with a prefix of the replies,
or status 0 with all of them where the program could do with less memory, and nothing else; and where nothing can be written
either, status 6 in the same runs, since memory was wanted first, and 5 in the others. `refuse.c`, which a C
compiler makes a shared object of, refuses the allocations. Printed are how many allocations each script asks for, and
each run that ends otherwise.
"""

import os
import shutil
import subprocess
import sys

sys.dont_write_bytecode = True

from place import OUT, TOP, program_and_numbers  # noqa: E402

SCRIPTS = {
    "smallest path": """problem A 2
submit A
record 1 1 correct
show 1
record 1 2 correct
show 1
""",
    "apply is one change": """problem A 1
submit A
submit A
record 1 1 correct
record 2 1 wrong-answer
rejudge 1,2
record 3 1 wrong-answer
apply 1
board
record 4 1 correct
matrix 1
apply 1
board
apply 1
""",
    "every event that takes memory": """problem A 1
@ann replace A 2
host h1
submit A broken
submit A low
rejudge 1
@ann cancel 1
rejudge 1
apply 2
claim h1
result h1 2 1 run-error
verify 2
matrix 2
board
audit
down h1
host h1
""",
}


def make_refuser():
    """The shared object that refuses an allocation."""
    compiler = shutil.which("cc") or shutil.which("gcc")
    if compiler is None:
        sys.exit("no C compiler here")
    library = os.path.join(OUT, "refuse.so")
    source = os.path.join(TOP, "tests", "refuse.c")
    subprocess.run([compiler, "-O1", "-shared", "-fPIC", "-o", library, source, "-ldl"], check=True)
    return library


def refuse_each(count, end_of):
    """Whether each of so many allocations can be refused. `end_of` runs with the one of this number refused, and gives the
    name of the run's end and, where that is not as wanted, what happened."""
    sound, ends = True, {}
    for refused in range(1, count + 1):
        end, fault = end_of(refused)
        ends[end] = ends.get(end, 0) + 1
        if fault is not None:
            print(f"  allocation {refused} refused: {fault}")
            sound = False
    print(f"{count} allocations, each refused in turn: {'as wanted' if sound else 'NOT as wanted'}; the ends: {ends}")
    return sound


def play(program, library, lines, refused, out=subprocess.PIPE):
    """The status, what was written, and how many allocations were asked for."""
    asked = os.path.join(OUT, "asked")
    env = dict(os.environ, LD_PRELOAD=library, REFUSE=str(refused), REFUSE_COUNT=asked)
    done = subprocess.run([program, "script"], input=lines.encode(), stdout=out, stderr=subprocess.PIPE, env=env, check=False)
    with open(asked) as file:
        return done.returncode, done.stdout, int(file.read())


def play_on_a_full_disk(program, library, lines, refused):
    """The status where nothing can be written."""
    with open("/dev/full", "w") as full:
        return play(program, library, lines, refused, full)[0]


def measure(program, library, name):
    """Whether every run ends as it should."""
    lines = SCRIPTS[name]
    status, replies, asked = play(program, library, lines, 0)
    prefixes = set()

    def end_of(refused):
        status, written, _ = play(program, library, lines, refused)
        prefixes.add(written)
        # A list that is made with room for all that may come is made with less where that was refused.
        done = status == 0 and written == replies
        out = status == 6 and replies.startswith(written)
        # The lines come in one piece, so nothing is written before the memory is wanted: that is then the end, not the disk.
        first = play_on_a_full_disk(program, library, lines, refused)
        good = (done or out) and first == (5 if done else 6)
        return "done" if done else f"status {status}", None if good else (status, written, first)

    print(f"{name}:")
    sound = status == 0 and refuse_each(asked, end_of)
    print(f"  {len(prefixes)} different prefixes")
    return sound


def main():
    program, _ = program_and_numbers(sys.argv[1:])
    library = make_refuser()
    return 0 if all([measure(program, library, name) for name in SCRIPTS]) else 1


if __name__ == "__main__":
    sys.exit(main())
