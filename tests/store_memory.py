#!/usr/bin/env python3
"""Refuses each allocation of `farm script --store` and of `farm store` in turn, one a run, and looks at how the program ends.

    tests/store_memory.py [PROGRAM]

PROGRAM is the built program, `crates/farm/out/farm` of this repository if none is given. Wanted is each time status 0 with all
that is to be written, or status 6 (12 where there is no memory for the file's path) with a prefix of it; and that the store can be
opened then, and holds each event that was acknowledged.
"""

import os
import sys
import tempfile

sys.dont_write_bytecode = True

from memory import SCRIPTS, make_refuser, refuse_each  # noqa: E402
from place import OUT, program_and_numbers  # noqa: E402
from store import held, read, replayed, run, script, text_of, write  # noqa: E402


def refused_in(program, library, path, before, words, lines, look):
    """Whether each run of these words ends as it should, on a store that has these bytes before."""
    asked = os.path.join(OUT, "asked")

    def end_of(refused):
        if before is None:
            if os.path.exists(path):
                os.remove(path)
        else:
            write(path, before)
        env = dict(os.environ, LD_PRELOAD=library, REFUSE=str(refused), REFUSE_COUNT=asked)
        got = run(program, words, lines, env=env)
        return f"status {got[0]}", None if look(got) else got

    end, fault = end_of(0)
    with open(asked) as file:
        count = int(file.read())
    return fault is None and end == "status 0" and refuse_each(count, end_of)


def measure(program, library, folder, name):
    path = os.path.join(folder, "store")
    lines = SCRIPTS[name].splitlines()
    texts, replies, counts = replayed({}, lines)
    whole = text_of(reply for line in replies for reply in line)

    def played(got):
        """The replies are a prefix, what was acknowledged is held, and the store opens."""
        text, count = b"", 1
        for at in range(len(lines)):
            if len(text) >= len(got[1]):
                break
            text, count = text + text_of(replies[at]), counts[at]
        now = held(read(path))[0] if os.path.exists(path) else []
        ended = got[:2] == (0, whole) or got[0] in (6, 12) and whole.startswith(got[1])
        return ended and now == texts[: len(now)] and (len(now) >= count or got[1] == b"") and script(program, path)[0] == 0

    words = ["script", "--store", path]
    print(f"{name}:")
    sound = refused_in(program, library, path, None, words, SCRIPTS[name].encode(), played)
    script(program, path, SCRIPTS[name].encode())
    data = read(path)
    board = script(program, path, b"board\naudit\n")[1]
    print("  opened again:")
    again = lambda got: (got[:2] == (0, board) or got[0] in (6, 12) and board.startswith(got[1])) and read(path) == data  # noqa: E731
    sound = refused_in(program, library, path, data, words, b"board\naudit\n", again) and sound
    listing = run(program, ["store", path])[1]
    print("  listed:")
    listed = lambda got: (got[:2] == (0, listing) or got[0] in (6, 12) and listing.startswith(got[1])) and read(path) == data  # noqa: E731
    return refused_in(program, library, path, data, ["store", path], b"", listed) and sound


def main():
    program, _ = program_and_numbers(sys.argv[1:])
    library = make_refuser()
    with tempfile.TemporaryDirectory() as folder:
        return 0 if all([measure(program, library, folder, name) for name in SCRIPTS]) else 1


if __name__ == "__main__":
    sys.exit(main())
