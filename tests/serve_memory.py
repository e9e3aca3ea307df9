#!/usr/bin/env python3
"""Refuses each allocation of `farm serve` in turn, one a run, and looks at how the conversation and the program end.

    tests/serve_memory.py [PROGRAM]

PROGRAM is the built program, `crates/farm/out/farm` of this repository if none is given. A host comes up, asks for a task and
gives its result, over one connection, with the n-th allocation refused in the n-th run, until a run asks for fewer. Wanted
is, each time, one of these: all goes as without; the connection ends with `memory` behind a prefix of the responses, and the
board is written; the program ends with status 6 and has written the connection's whole line or nothing; or it ends with
status 8, since there is no memory for the connection.
"""

import os
import re
import sys
import tempfile

sys.dont_write_bytecode = True

from judge import write  # noqa: E402
from memory import make_refuser, refuse_each  # noqa: E402
from place import OUT, program_and_numbers  # noqa: E402
from serve import FILES, Server, request, sent  # noqa: E402

TALK = b"".join([
    request("POST", "/judgehosts", '{"hostname":"h1"}'),
    request("POST", "/judgehosts/fetch-work", '{"hostname":"h1"}'),
    request("POST", "/judgehosts/add-judging-run", '{"hostname":"h1","judging":1,"test":1,"result":"correct"}'),
    request("GET", "/board"),
])


def play(program, folder):
    """The status, what was written, what was sent, and what was said, where the server comes to listen."""
    with Server(program, folder, lanes=1, connections=1) as server:
        try:
            got = sent(server, TALK) if server.port else b""
        except OSError:
            got = b""
        return (*server.ended(), re.sub(rb'"until":\d+', b'"until":0', got), server.said)


def named_end(run, whole):
    """The name of a run's end, or none where it is not as wanted."""
    status, written, got, _ = run
    if (status, written, got) == whole[:3]:
        return "as without"
    if status == 0 and re.match(r"conn 1 requests [0-3] memory\n1 \w+\n2 \w+\nboard 2\n$", written) and whole[2].startswith(got):
        return "the connection ends"
    if status == 6 and re.fullmatch(r"(conn 1 requests \d \S+\n)?", written):
        return "the program ends"
    if (status, written, got) == (8, "", b""):
        return "no connection"
    return None


def main():
    program, _ = program_and_numbers(sys.argv[1:])
    library, asked = make_refuser(), os.path.join(OUT, "asked")
    os.environ.update(LD_PRELOAD=library, REFUSE_COUNT=asked, REFUSE="0")
    with tempfile.TemporaryDirectory() as folder:
        write(folder, FILES)
        whole = play(program, folder)
        with open(asked) as file:
            count = int(file.read())

        def end_of(refused):
            os.environ["REFUSE"] = str(refused)
            run = play(program, folder)
            end = named_end(run, whole)
            return end, run if end is None else None

        sound = refuse_each(count, end_of)
    return 0 if sound else 1


if __name__ == "__main__":
    sys.exit(main())
