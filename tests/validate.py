#!/usr/bin/env python3
"""Runs `validate` as a judge would, and looks at its status and at what it says.

    tests/validate.py

One line is printed for each look, and the status is 1 where one shows something else than is wanted.
"""

import os
import subprocess
import sys
import tempfile

sys.dont_write_bytecode = True

from place import TOP  # noqa: E402

PROGRAM = os.path.join(TOP, "crates", "validate", "out", "validate")

# The flags, the answer, the output, the status, and the message or the line on standard error: the whole of it where
# that ends with a line feed, else what it has.
CASES = [
    ([], b"7\n", b" 7", 42, None),
    ([], b"7\n", b"8\n", 43, b"token 1 of the answer is `7`, and the output has `8`"),
    ([], b"7\n", b"", 43, b"the output ends before token 1"),
    ([], b"", b"", 42, None),
    ([], b"a b\n", b"A  b", 42, None),
    ([], b"1 2 3", b"1 2", 43, b"Wrong answer: the output ends before token 3, and the answer has `3`\n"),
    ([], b"1", b"1 2", 43, b"Wrong answer: the answer ends before token 2, and the output has `2`\n"),
    ([], b"x", b"0123456789" * 4 + b"_", 43,
     b"Wrong answer: token 1 of the answer is `x`, and the output has `0123456789012345678901234567890123456789..`\n"),
    (["float_tolerance", "1e-6"], b"0.0314\n", b"3.14000000e-2\n", 42, None),
    (["float_tolerance", "1e-6"], b"0.0314", b"3.14000000e-2", 42, None),
    (["float_absolute_tolerance", "1e-6"], b"1.0\n", b"1.000002\n", 43,
     b"Wrong answer: token 1 of the answer is `1.0`, and the output has `1.000002`\n"),
    (["case_sensitive"], b"a\n", b"A\n", 43, b"token 1"),
    (["case_sensitive"], b"a b\n", b"A b\n", 43, b"Wrong answer: token 1 of the answer is `a`, and the output has `A`\n"),
    (["space_change_sensitive"], b"a b\n", b"a  b\n", 43, b"white space"),
    (["space_change_sensitive"], b"1\n", b"1", 43, b"Wrong answer: the white space differs\n"),
    (["float_tolerance"], b"1\n", b"1\n", 1, b"validate: word 1 of the flags wants a value behind it\n"),
    (["fast"], b"1\n", b"1\n", 1, b"validate: word 1 of the flags is no flag\n"),
    (["float_tolerance", "1e-6"], b"1e12\n", b"1e12\n", 1,
     b"/answer: token 0 (from 0) is a number of 10^12 or more, which a tolerance cannot be used with"),
]


def judged(folder, flags, answer, output):
    path = os.path.join(folder, "answer")
    with open(path, "wb") as file:
        file.write(answer)
    done = subprocess.run([PROGRAM, "none", path, folder, *flags], input=output, capture_output=True, check=False)
    message = os.path.join(folder, "judgemessage.txt")
    said = b""
    if os.path.exists(message):
        with open(message, "rb") as file:
            said = file.read()
        os.remove(message)
    return done.returncode, said + done.stderr, done.stdout


def fault_of(got, status, said):
    if got[0] != status or got[2]:
        return f"status {got[0]}, wrote {got[2]!r}"
    if said is None:
        return f"said {got[1]!r}" if got[1] else None
    if said.endswith(b"\n"):
        return None if got[1] == said else f"said {got[1]!r}"
    return None if said in got[1] and got[1].count(b"\n") == 1 else f"said {got[1]!r}"


def looks():
    with tempfile.TemporaryDirectory() as folder:
        for flags, answer, output, status, said in CASES:
            yield f"{status}: {flags} {answer!r} {output!r}", fault_of(judged(folder, flags, answer, output), status, said)
        done = subprocess.run([PROGRAM, "none", folder + "/none", folder], input=b"", capture_output=True, check=False)
        yield "1: no answer", fault_of((done.returncode, done.stderr, done.stdout), 1, b"cannot read the answer")
        odd = folder + "/an\n\x1b[31mswer"
        done = subprocess.run([PROGRAM, "none", odd, folder], input=b"", capture_output=True, check=False)
        shown = f"cannot read the answer {folder}/an??[31mswer: ".encode()
        yield "1: no answer with an odd name", fault_of((done.returncode, done.stderr, done.stdout), 1, shown)
        done = subprocess.run([PROGRAM, "none", "answer"], input=b"", capture_output=True, check=False)
        yield "2: words", None if done.returncode == 2 and b"Usage: validate" in done.stderr else f"status {done.returncode}"
        with open(folder + "/answer", "wb") as file:
            file.write(b"7\n")
        words = [PROGRAM, "none", folder + "/answer", folder + "/no/folder"]
        done = subprocess.run(words, input=b"8", capture_output=True, check=False)
        yield "43: no feedback folder", fault_of((done.returncode, done.stderr, done.stdout), 43, b"cannot write")


def main():
    sound = True
    for name, fault in looks():
        print(f"{'ok  ' if fault is None else 'NOT '} {name}{'' if fault is None else ': ' + fault}")
        sound = sound and fault is None
    return 0 if sound else 1


if __name__ == "__main__":
    sys.exit(main())
