#!/usr/bin/env python3
"""Refuses each allocation of `farm host` in turn, one a run, and looks at how the program ends and at what it has posted.

    tests/host_memory.py [PROGRAM]

PROGRAM is the built program, `crates/farm/out/farm` of this repository if none is given. A host has a talk of one task, with the
n-th allocation refused in the n-th run, until a run asks for fewer; then the same with a user and a password. Wanted is each time that it ends as without, or with status 6
(or 10, where there is no memory for the connection), nothing on standard output, and a prefix of its requests.
"""

import os
import sys

sys.dont_write_bytecode = True

from host import LOGIN, PASSWORD, TALK, met, requests_with  # noqa: E402
from memory import make_refuser, refuse_each  # noqa: E402
from place import OUT, program_and_numbers  # noqa: E402


def refuse_all(program, asked, words, requests):
    """Whether a host of these further words ends well whichever of its allocations is refused; these are the requests of its talk."""
    os.environ["REFUSE"] = "0"
    whole = met(program, TALK, *words)
    with open(asked) as file:
        count = int(file.read())

    def end_of(refused):
        os.environ["REFUSE"] = str(refused)
        got, made = met(program, TALK, *words)
        # the last of them may be cut
        front = all(full.startswith(some) for some, full in zip(made, requests)) and len(made) <= len(requests)
        good = (got, made) == whole or (got[0] in (6, 10) and got[1] == b"" and got[2].count(b"\n") == 1 and front)
        return f"status {got[0]}", None if good else (got, made)

    return whole[0][0] == 0 and whole[1] == requests and refuse_each(count, end_of)


def main():
    program, _ = program_and_numbers(sys.argv[1:])
    library, asked = make_refuser(), os.path.join(OUT, "asked")
    path = os.path.join(OUT, "password")
    with open(path, "w") as file:
        file.write(f"{PASSWORD}\n")
    os.environ.update(LD_PRELOAD=library, REFUSE_COUNT=asked)
    sound = refuse_all(program, asked, [], requests_with(b""))
    login = ["--user", "north", "--password-file", path]
    sound = refuse_all(program, asked, login, requests_with(LOGIN + b"\r\n")) and sound
    return 0 if sound else 1


if __name__ == "__main__":
    sys.exit(main())
