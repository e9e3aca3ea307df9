#!/usr/bin/env python3
"""Looks at how far the judging is said to be, on a terminal and elsewhere.

    tests/progress.py [PROGRAM]

PROGRAM is the built program, `crates/farm/out/farm` of this repository if none is given. One line is printed for each
look, and the status is 1 where one shows something else than is wanted.
"""

import os
import pty
import re
import subprocess
import sys
import tempfile
import threading
import time

sys.dont_write_bytecode = True

from judge import write  # noqa: E402
from place import program_and_numbers  # noqa: E402

# li t0, 1000000 / 1: addi t0, t0, -1 / bnez t0, 1b / li a7, 93 / li a0, 0 / ecall
SLOW = b"".join(word.to_bytes(4, "little") for word in (0x000F42B7, 0x24028293, 0xFFF28293, 0xFE029EE3, 0x05D00893, 0x00000513, 0x00000073))
TESTS, SUBMISSIONS = 10, 20
LINE = re.compile(rb"\r\x1b\[K(?:(\d+) tests run)?")


def contest(folder):
    files = {"problems/wait/problem.yaml": "name: Wait\n", "problems/wait/domjudge-problem.ini": "timelimit = 10\n"}
    for test in range(1, TESTS + 1):
        files[f"problems/wait/data/secret/{test:02}.in"] = "x\n"
        files[f"problems/wait/data/secret/{test:02}.ans"] = ""
    files["submissions.txt"] = "".join(f"{number} otters wait slow.rv32\n" for number in range(1, SUBMISSIONS + 1))
    write(folder, files)
    os.makedirs(os.path.join(folder, "submissions"), exist_ok=True)
    with open(os.path.join(folder, "submissions", "slow.rv32"), "wb") as file:
        file.write(SLOW)


def on_a_terminal(words):
    """What comes on standard output and on standard error, where that is a terminal, and how many seconds it took."""
    ours, theirs = pty.openpty()
    said = []

    def listen():
        try:
            while piece := os.read(ours, 65536):
                said.append(piece)
        except OSError:
            pass  # the other side was closed

    begun = time.monotonic()
    process = subprocess.Popen(words, stdin=subprocess.DEVNULL, stdout=subprocess.PIPE, stderr=theirs)
    os.close(theirs)
    listener = threading.Thread(target=listen)
    listener.start()
    out = process.communicate()[0]
    took = time.monotonic() - begun
    listener.join(timeout=10)
    os.close(ours)
    return out, b"".join(said), took


def looks(program, folder):
    for hosts in (0, 1, 4, 16):
        words = [program, "judge", folder, "--hosts", str(hosts)]
        plain = subprocess.run(words, capture_output=True, stdin=subprocess.DEVNULL, check=False)
        yield f"{hosts} hosts, no terminal: nothing is said", plain.returncode == 0 and plain.stderr == b"", plain.stderr[-200:]
        out, said, took = on_a_terminal(words)
        yield f"{hosts} hosts, a terminal: the table is the same", out == plain.stdout, out[-200:]
        numbers = [int(found[1]) for found in LINE.finditer(said) if found[1]]
        yield "it is said how many tests were run", len(numbers) > 1 and LINE.sub(b"", said) == b"", said[-200:]
        good = all(low < high for low, high in zip(numbers, numbers[1:])) and numbers and numbers[-1] <= TESTS * SUBMISSIONS
        yield "more each time, and never more than there are", good, numbers[-5:]
        yield f"{len(numbers)} times in {took:.2f} s, at most ten times a second", len(numbers) <= 10 * took + 2, numbers
        yield "and the line is taken away", said.endswith(b"\r\x1b[K"), said[-40:]


def main():
    program, _ = program_and_numbers(sys.argv[1:])
    sound = True
    with tempfile.TemporaryDirectory() as folder:
        contest(folder)
        for name, good, got in looks(program, folder):
            print(f"{'ok  ' if good else 'NOT '} {name}{'' if good else f': {got!r}'}")
            sound = sound and good
    return 0 if sound else 1


if __name__ == "__main__":
    sys.exit(main())
