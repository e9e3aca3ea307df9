#!/usr/bin/env python3
"""What a page takes of a run's memory: bytes of the process's most memory for each page of data, for each page of data
that was touched before a page of code, and for each page of code, on the machine and on the C interpreters.

The images are made here: they store a word in each of so many pages of data, and then write two instructions into each of
so many pages behind these and run from page to page. A figure is the difference between 20,000 and 40,000 pages, the
least of the rounds, divided by 20,000.

usage: memory.py [ROUNDS]    RVRUN names the machine's program, if it is not crates/rvrun/out/rvrun
"""
import os
import re
import subprocess
import sys

HERE = os.path.dirname(os.path.abspath(__file__))
OUT = os.path.join(HERE, "..", "out")
RVRUN = os.environ.get("RVRUN", os.path.join(HERE, "..", "..", "crates", "rvrun", "out", "rvrun"))
FEW, MANY = 20_000, 40_000
FIRST = 0x100000  # the first page of data
PAGE = 4096
# Numbers of registers, by the names that the calling convention gives them.
t0, t1, t2, s0, t3, t4 = 5, 6, 7, 8, 28, 29
EXIT = [0x00000513, 0x05D00893, 0x00000073]  # li a0, 0; li a7, 93; ecall


def upper(rd, number):  # lui rd, number
    return (number & 0xFFFFF) << 12 | rd << 7 | 0x37


def add(rd, one, other):  # add rd, one, other
    return other << 20 | one << 15 | rd << 7 | 0x33


def store(value, at, offset):  # sw value, offset(at)
    return value << 20 | at << 15 | 2 << 12 | offset << 7 | 0x23


def jump(to):  # jr to
    return to << 15 | 0x67


def unequal(one, other, words):  # bne one, other, so many words back
    offset = -4 * words & 0x1FFF
    return (offset >> 12 & 1) << 31 | (offset >> 5 & 63) << 25 | other << 20 | one << 15 | 1 << 12 | \
        (offset >> 1 & 15) << 8 | (offset >> 11 & 1) << 7 | 0x63


def load(rd, value):  # li rd, value
    high = value + 0x800 >> 12
    return [upper(rd, high), (value - (high << 12) & 0xFFF) << 20 | rd << 15 | rd << 7 | 0x13]


def image(data, code):
    behind = FIRST + PAGE * data
    words = [upper(t2, 1)]
    if data:
        words += [*load(t0, FIRST), *load(t1, behind), store(t0, t0, 0), add(t0, t0, t2), unequal(t0, t1, 2)]
    if code:
        words += [*load(t0, behind), *load(t1, behind + PAGE * code), *load(t3, add(s0, s0, t2)), *load(t4, jump(s0)),
                  store(t3, t0, 0), store(t4, t0, 4), add(t0, t0, t2), unequal(t0, t1, 3)]
        for place, word in enumerate(EXIT):
            words += [*load(t3, word), store(t3, t1, 4 * place)]
        words += [*load(s0, behind), jump(s0)]
    else:
        words += EXIT
    return b"".join((word & 0xFFFFFFFF).to_bytes(4, "little") for word in words)


def peak(interpreter, data, code):
    """The most memory of a run, in bytes."""
    path = os.path.join(OUT, "paging.rv32")
    with open(path, "wb") as file:
        file.write(image(data, code))
    done = subprocess.run([os.path.join(OUT, "peak"), os.path.join(OUT, "peak.txt"), interpreter, "--instructions", "1000000",
                           "--pages", "65536", "--output", "0", path], stdin=subprocess.DEVNULL, capture_output=True, text=True)
    if not re.search(r"ending exit=0 ", done.stderr):
        sys.exit(f"{interpreter}: {done.stderr}")
    with open(os.path.join(OUT, "peak.txt"), encoding="ascii") as file:
        return 1024 * int(file.read().split()[0])


def main():
    rounds = int(sys.argv[1]) if len(sys.argv) > 1 else 3
    if not os.access(RVRUN, os.X_OK):
        print(f"skipped: {RVRUN} is not there; build it by './farm --build rvrun', or name it in RVRUN")
        return
    os.makedirs(OUT, exist_ok=True)
    for name in ["cached", "threaded", "paged", "peak"]:
        subprocess.run(["gcc", "-O2", "-o", os.path.join(OUT, name), os.path.join(HERE, name + ".c")], check=True)
    for name, path in [("machine", RVRUN), *((name, os.path.join(OUT, name)) for name in ["cached", "threaded", "paged"])]:
        figures = []
        for few, many in [((FEW, 0), (MANY, 0)), ((FEW, 1), (MANY, 1)), ((0, FEW), (0, MANY))]:
            least = [min(peak(path, *pages) for _ in range(rounds)) for pages in (few, many)]
            figures.append((least[1] - least[0]) / (MANY - FEW))
        print("{}: {:.0f} bytes a page of data, {:.0f} before a page of code, {:.0f} a page of code".format(name, *figures))


main()
