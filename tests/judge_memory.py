#!/usr/bin/env python3
"""Refuses each allocation of `farm judge` in turn, one a run, and looks at how the program ends.

    tests/judge_memory.py [PROGRAM] [HOSTS]

PROGRAM is the built program, `crates/farm/out/farm` of this repository if none is given. The realistic contest is judged
by so many hosts, none if nothing is said, with the n-th allocation refused in the n-th run, until a run asks for fewer.
Wanted is status 6 with a prefix of the table, or status 0 with all of it where the program could do with less memory, and
nothing else. With hosts it differs from run to run which allocation is the n-th. It takes too long for `tests/run`.
"""

import os
import subprocess
import sys
import tempfile

sys.dont_write_bytecode = True

from judge import REALISTIC, TABLE, write  # noqa: E402
from memory import make_refuser, refuse_each  # noqa: E402
from place import OUT, program_and_numbers, without_notes  # noqa: E402


def play(program, library, folder, hosts, refused):
    """The status, what was written to standard output and to standard error but notes, and how many allocations were asked for."""
    asked = os.path.join(OUT, "asked")
    env = dict(os.environ, LD_PRELOAD=library, REFUSE=str(refused), REFUSE_COUNT=asked)
    done = subprocess.run([program, "judge", folder, "--hosts", str(hosts)], capture_output=True, env=env, check=False)
    with open(asked) as file:
        return done.returncode, done.stdout, without_notes(done.stderr), int(file.read())


def main():
    program, numbers = program_and_numbers(sys.argv[1:])
    hosts = (numbers + [0])[0]
    library = make_refuser()
    with tempfile.TemporaryDirectory() as folder:
        write(folder, REALISTIC)
        status, table, _, asked = play(program, library, folder, hosts, 0)

        def end_of(refused):
            status, written, said, _ = play(program, library, folder, hosts, refused)
            done = status == 0 and written == TABLE and not said
            out = status == 6 and TABLE.startswith(written) and said.count(b"\n") == 1
            return f"status {status}", None if done or out else (status, written, said)

        sound = (status, table) == (0, TABLE) and refuse_each(asked, end_of)
    return 0 if sound else 1


if __name__ == "__main__":
    sys.exit(main())
