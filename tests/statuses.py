#!/usr/bin/env python3
"""Ends `farm` in every way that a real system has, and looks at the status and at what is said.

    tests/statuses.py [PROGRAM]

PROGRAM is the built program, `crates/farm/out/farm` of this repository if none is given. One line is printed for each
look, and the status is 1 where one shows something else than is wanted. Every end but the first says one line on
standard error, and a faulty command line which word is wrong, and the usage.
"""

import os
import subprocess
import sys
import tempfile

sys.dont_write_bytecode = True

from place import TOP, program_and_numbers  # noqa: E402

LINES = b"problem A 2\nsubmit A\nshow 1\n"
COMMANDS = ["judge", "script", "store", "make", "serve", "host"]
REPLIES = b"problem A version 1\nsubmission 1 judging 1\npending\n"


def ended(program, words, stdin=subprocess.DEVNULL, stdout=subprocess.PIPE, text=None, **more):
    """The status, what was written to standard output, and to standard error."""
    more.update({"input": text} if text is not None else {"stdin": stdin})
    done = subprocess.run([program, *words], stdout=stdout, stderr=subprocess.PIPE, timeout=60, check=False, **more)
    return done.returncode, done.stdout or b"", done.stderr


def fault_of(got, status, written, said):
    """What is wrong with an end. `said` are words that its line on standard error must have."""
    if got[0] != status:
        return f"status {got[0]}"
    if written is not None and got[1] != written:
        return f"wrote {got[1][:200]!r}"
    if status != 2 and (got[2].count(b"\n") != (1 if status else 0)):
        return f"said {got[2][:200]!r}"
    return None if all(word in got[2] for word in said) else f"said {got[2][:200]!r}"


def helped(got):
    """What is wrong with an end where help or the version was asked for."""
    return fault_of(got, 0, None, []) or (None if got[1].endswith(b"\n") else f"wrote {got[1]!r}")


def looks(program, folder):
    """The name of each look, and what is wrong there."""
    def path(name):
        return os.path.join(folder, name)

    with open(path("good.json"), "wb") as file:
        file.write(b'{"lease": 7}')
    with open(path("bad.json"), "wb") as file:
        file.write(b'{"lease": 0}')
    with open(path("large"), "wb") as file:
        file.truncate((1 << 24) + 1)
    script = ["script"]

    for words in [["--help"], ["-h"], ["help"], ["--version"], ["-V"]] + [words for command in COMMANDS for words in (["help", command], [command, "--help"], [command, "-h"])]:
        yield f"0: {words}", helped(ended(program, words))
    yield "0: done", fault_of(ended(program, script, text=LINES), 0, REPLIES, [])
    yield "0: with settings", fault_of(ended(program, script + ["--config", path("good.json")], text=LINES), 0, REPLIES, [])
    serve = ["serve", "c", "--port", "0", "--lanes", "17", "--connections", "1"]
    for words in [[], ["scripts"], ["script", "more"], ["script", "--config"], ["script", "--config", ""], serve]:
        yield f"2: words {words}", fault_of(ended(program, words), 2, b"", [b"error: ", b"\nUsage: farm"])
    yield "3: no file", fault_of(
        ended(program, script + ["--config", path("none")], text=LINES), 3, b"bad contest: no config\n", [path("none").encode()])
    yield "3: a folder", fault_of(
        ended(program, script + ["--config", folder], text=LINES), 3, b"bad contest: no config\n", [folder.encode()])
    yield "3: a bad value", fault_of(
        ended(program, script + [f"--config={path('bad.json')}"], text=LINES), 3,
        b"bad contest: farm.json: bad value lease\n", [path("bad.json").encode()])
    yield "3: a large file", fault_of(
        ended(program, script + ["--config", path("large")], text=LINES), 3,
        b"bad contest: too large " + path("large").encode() + b"\n", [path("large").encode()])
    place = os.open(TOP, os.O_RDONLY)
    yield "4: input that cannot be read", fault_of(ended(program, script, stdin=place), 4, b"", [b"standard input"])
    os.close(place)
    with open("/dev/full", "wb") as full:
        for words in [["--help"], ["-V"], ["help", "judge"]]:
            yield f"5: {words} on a full device", fault_of(ended(program, words, stdout=full), 5, None, [b"standard output"])
        yield "5: a full device", fault_of(ended(program, script, stdout=full, text=LINES), 5, None, [b"standard output"])
    reader, writer = os.pipe()
    os.close(reader)
    yield "5: a closed output", fault_of(ended(program, script, stdout=writer, text=LINES), 5, None, [b"standard output"])
    os.close(writer)
    yield "7: a name that the system refuses", fault_of(
        ended(program, script + ["--config", "a" * 5000], text=LINES), 7, b"", [b"aaa"])
    yield "7: a file that cannot be read", fault_of(
        ended(program, script + ["--config", "/proc/self/mem"], text=LINES), 7, b"", [b"/proc/self/mem"])
    name = b"/bin/\xff\xfe"
    yield "0: the program's name is not looked at", fault_of(
        named(program, name), 0, REPLIES, [])


def named(program, name):
    """A run under a name that is no UTF-8."""
    done = subprocess.run([name, b"script"], executable=program, input=LINES, capture_output=True, timeout=60, check=False)
    return done.returncode, done.stdout, done.stderr


def main():
    program, _ = program_and_numbers(sys.argv[1:])
    sound = True
    with tempfile.TemporaryDirectory() as folder:
        for name, fault in looks(program, folder):
            print(f"{'ok  ' if fault is None else 'NOT '} {name}{'' if fault is None else ': ' + fault}")
            sound = sound and fault is None
    return 0 if sound else 1


if __name__ == "__main__":
    sys.exit(main())
