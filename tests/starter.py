#!/usr/bin/env python3
"""Builds programs with the starter kit, by gcc and by clang, and runs them on the model of the machine.

    tests/starter.py

The program of the kit adds numbers; another one divides numbers of 64 bits, for which the machine has no instruction. Each
is built as an executable and as a raw image, the first one by -O2 and by -O0. A compiler that is not installed is left out. One line is
printed for each look, and the status is 1 where one shows something else than is wanted.
"""

import os
import subprocess
import sys
import tempfile

sys.dont_write_bytecode = True

import judge_model as model  # noqa: E402
from place import TOP  # noqa: E402

KIT = os.path.join(TOP, "examples", "starter")

DIVISIONS = r"""
#include "contest.h"
int main(void) {
    int64_t a, b;
    while (read_int64(&a) && read_int64(&b)) {
        write_int64(a / b), write_char(' '), write_int64(a % b), write_char(' ');
        write_uint64((uint64_t)a / (uint64_t)b), write_char(' '), write_uint64((uint64_t)a % (uint64_t)b), write_char('\n');
    }
    return 0;
}
"""

PAIRS = [
    (7, 2), (-7, 2), (7, -2), (-7, -2), (0, 5), (1 << 40, 3), (-(1 << 40), 1000003), ((1 << 63) - 1, 10), (-(1 << 63), 7),
    (-(1 << 63), (1 << 63) - 1), (5, 1 << 33), ((1 << 32) + 1, 1 << 32), (-1, 3), (1, -1), (4294967295, 4294967295),
]


def divided(a, b):
    """The line that the program writes: signed and unsigned quotients and rests, as C has them."""
    quotient = abs(a) // abs(b) * (1 if (a < 0) == (b < 0) else -1)
    c, d = a % (1 << 64), b % (1 << 64)
    return f"{quotient} {a - quotient * b} {c // d} {c % d}\n"


def ran(path, given):
    with open(path, "rb") as file:
        image = model.image_of(file.read())
    machine = model.Machine(image, 10_000_000, 16_384, 1 << 20, {0: given})
    return machine.run(), bytes(machine.output)


def looks(folder):
    divisions = os.path.join(folder, "divisions.c")
    with open(divisions, "w", encoding="ascii") as file:
        file.write(DIVISIONS)
    rows = [
        (os.path.join(KIT, "sum.c"), ["-O2", "-O0"], b"1 2 3\n-10 x", b"-4\n"),
        (divisions, ["-O2"], "".join(f"{a} {b}\n" for a, b in PAIRS).encode(), "".join(divided(a, b) for a, b in PAIRS).encode()),
    ]
    for compiler in ["gcc", "clang"]:
        for source, options, given, wanted in rows:
            for option in options:
                name = f"{compiler} {option} {os.path.basename(source)}"
                words = [os.path.join(KIT, "build.sh"), folder, source, option]
                done = subprocess.run(words, env=os.environ | {"STARTER_COMPILER": compiler}, capture_output=True, check=False)
                if done.returncode == 77:
                    print(f"left out: {name}: {done.stdout.decode().strip()}")
                    continue
                if done.returncode or done.stderr:
                    yield name, f"status {done.returncode}, said {done.stderr!r}"
                    continue
                for ending in [".elf", ".rv32"]:
                    got = ran(os.path.join(folder, os.path.basename(source)[:-2] + ending), given)
                    yield name + ending, None if got == (("exit", 0), wanted) else f"{got}"
    done = subprocess.run([os.path.join(KIT, "build.sh")], capture_output=True, check=False)
    yield "no words", None if done.returncode == 2 and done.stderr.startswith(b"usage: ") else f"{done}"


def main():
    sound = True
    with tempfile.TemporaryDirectory() as folder:
        for name, fault in looks(folder):
            print(f"{'ok  ' if fault is None else 'NOT '} {name}{'' if fault is None else ': ' + fault}")
            sound = sound and fault is None
    return 0 if sound else 1


if __name__ == "__main__":
    sys.exit(main())
