#!/usr/bin/env python3
"""Runs `rvrun` on images of a few words, and looks at its status and at what it says.

    tests/rvrun.py

One line is printed for each look, and the status is 1 where one shows something else than is wanted.
"""

import os
import struct
import subprocess
import sys
import tempfile

sys.dont_write_bytecode = True

import judge_model as model  # noqa: E402
from place import TOP  # noqa: E402

PROGRAM = os.path.join(TOP, "crates", "rvrun", "out", "rvrun")

# x17 = 93 (exit) or 64 (write); the stack pointer is x2. Each image is its words (RISC-V Unprivileged ISA, RV32I).
EXIT_0 = [0x05D00893, 0x00000073]  # addi a7, x0, 93; ecall
EXIT_7 = [0x00700513, *EXIT_0]  # addi a0, x0, 7
LOOP = [0x0000006F]  # jal x0, 0
BREAK = [0x00100073]  # ebreak
ILLEGAL = [0]
CALL = [0x00000073]  # ecall with x17 = 0
JUMP = [0x00200067]  # jalr x0, 2(x0)
MISALIGNED = [0x00102003]  # lw x0, 1(x0)
STORE = [0x00012023, *EXIT_0]  # sw x0, 0(sp)
# addi a0, x0, 1; addi a1, sp, 0; addi a2, x0, 3; addi a7, x0, 64; ecall
WRITE_3 = [0x00100513, 0x00010593, 0x00300613, 0x04000893, 0x00000073]
# addi a0, x0, 1; addi a1, x0, -1; addi a2, x0, 3; addi a7, x0, 64; ecall
RANGE = [0x00100513, 0xFFF00593, 0x00300613, 0x04000893, 0x00000073]

# The options, the words, and what stands between `ending` and the times. The costs are those of the instructions.
CASES = [
    ([], EXIT_0, "exit=0 cost 2 pages 1"),
    ([], EXIT_7, "exit=7 cost 3 pages 1"),
    (["--instructions", "2"], EXIT_0, "exit=0 cost 2 pages 1"),
    (["--instructions", "1"], EXIT_0, "time cost 1 pages 1"),
    (["--instructions", "1000"], LOOP, "time cost 1000 pages 1"),
    ([], BREAK, "trap=break cost 0 pages 1"),
    ([], ILLEGAL, "trap=illegal cost 0 pages 1"),
    ([], CALL, "trap=call cost 0 pages 1"),
    ([], JUMP, "trap=jump cost 0 pages 1"),
    ([], MISALIGNED, "trap=misaligned cost 0 pages 1"),
    ([], RANGE, "trap=range cost 4 pages 1"),
    (["--pages", "2"], STORE, "exit=0 cost 3 pages 2"),
    (["--pages", "1"], STORE, "memory cost 0 pages 1"),
    (["--pages", "0"], EXIT_0, "memory cost 0 pages 0"),
    (["--output", "2"], WRITE_3, "output cost 4 pages 1"),
    (["--pages", "9", "--output", "3", "--instructions", "8"], WRITE_3, "time cost 8 pages 2"),
]

# Words that are no command line.
USAGES = [
    [],
    ["--pages"],
    ["--pages", "1"],
    ["--page", "1", "image"],
    ["--pages", "x", "image"],
    ["--pages", "-1", "image"],
    ["--pages", "+1", "image"],
    ["--pages", "4294967296", "image"],
    ["--instructions", "18446744073709551616", "image"],
    ["--pages", "01", "image"],
    ["--pages=", "image"],
    ["--pages=-1", "image"],
    ["--pages", "1", "--pages", "1", "image"],
    ["--", "image"],
    [""],
    ["image", "1", "1", "1"],
]

# Ways in which a run of LOOP is told to cost at most 1000.
ORDERS = [
    ["--instructions=1000", "image"],
    ["image", "--instructions=1000"],
    ["image", "--instructions", "1000"],
    ["--pages", "9", "image", "--output=0", "--instructions", "1000"],
]


def run(words, folder):
    return subprocess.run([PROGRAM, *words], input=b"", capture_output=True, check=False, cwd=folder)


def write(folder, words, odd=b""):
    with open(os.path.join(folder, "image"), "wb") as file:
        file.write(struct.pack(f"<{len(words)}I", *words) + odd)


def looks():
    with tempfile.TemporaryDirectory() as folder:
        for options, words, ending in CASES:
            write(folder, words)
            done = run([*options, "image"], folder)
            said = done.stderr.decode()
            sound = done.returncode == 0 and said.startswith(f"ending {ending} load ") and said.count("\n") == 1
            yield f"0: {ending}", sound, done
        write(folder, LOOP)
        for words in ORDERS:
            done = run(words, folder)
            sound = done.returncode == 0 and done.stderr.startswith(b"ending time cost 1000 pages 1 load ")
            yield f"0: {words}", sound, done
        write(folder, [0x00700513, *WRITE_3[:1], 0x00010593, 0x00300613, 0x04000893, 0x00000073, *EXIT_0])
        done = run(["image"], folder)
        yield "0: three zeros are written", done.returncode == 0 and done.stdout == bytes(3), done
        for words in USAGES:
            done = run(words, folder)
            sound = done.returncode == 2 and done.stderr.startswith(b"error: ") and b"\nUsage: rvrun" in done.stderr and not done.stdout
            yield f"2: {words}", sound, done
        done = run(["none"], folder)
        yield "1: no image", done.returncode == 1 and b"cannot read the image none" in done.stderr, done
        for words, odd in [([], b""), ([], b"abc"), (EXIT_0, b"x"), ([0x13] * 262_145, b"")]:
            write(folder, words, odd)
            done = run(["image"], folder)
            sound = done.returncode == 1 and b"rvrun: image is no program: it " in done.stderr and not done.stdout
            yield f"1: an image of {4 * len(words) + len(odd)} bytes", sound, done
        yield from judged(folder)


# ---- programs as the judge runs them

# What the program is, the options, the standard input, the ending and the verdict. The answer is `7` and a line feed.
VERDICTS = [
    ("echo.rv32", [], b"7\n", "exit=0", "correct"),
    ("echo.elf", [], b"7\n", "exit=0", "correct"),
    ("echo.elf", [], b"8\n", "exit=0", "wrong-answer"),
    ("echo.elf", [], b"7.0\n", "exit=0", "wrong-answer"),
    ("echo.elf", ["--flags", "float_tolerance 1e-6"], b"7.0\n", "exit=0", "correct"),
    ("echo.elf", [], b"", "exit=0", "no-output"),
    ("echo.elf", ["--instructions", "3"], b"7\n", "time", "timelimit"),
    ("fail.rv32", [], b"7\n", "exit=1", "run-error"),
    ("echo.elf", ["--validator", "guess.rv32"], b"4\n", "exit=0", "correct"),
    ("echo.elf", ["--validator", "guess.rv32"], b"3\n", "exit=0", "wrong-answer"),
    ("echo.elf", ["--validator", "guess.rv32"], b"9\n", "exit=0", "judging-error"),
]

# What is wrong: the words behind the program's name, and what is said.
REFUSED = [
    (["echo.rv32", "--answer", "none"], b"rvrun: cannot read the answer none: "),
    (["no\n\x1b[31mne"], b"rvrun: cannot read the image no??[31mne: "),
    (["echo.rv32", "--answer", "answer", "--validator", "none"], b"rvrun: cannot read the validator none: "),
    (["echo.rv32", "--answer", "answer", "--validator", "echo.elf2"], b"rvrun: echo.elf2: it is no raw image, which has 1 to 262144 words of 4 bytes\n"),
    (["echo.rv32", "--answer", "answer", "--flags", "fast"], b"rvrun: word 1 of the flags is no flag\n"),
    (["echo.rv32", "--answer", "wide", "--flags", "float_tolerance 1"], b"rvrun: wide: token 0 (from 0) is a number of 10^12 or more, which a tolerance cannot be used with\n"),
    (["text"], b"rvrun: text is no program: it is text, and nothing is compiled here\n"),
]


def judged(folder):
    code = model.ECHO
    files = {"echo.rv32": code, "echo.elf": model.elf([(0x10000, code, len(code))], 0x10000), "fail.rv32": model.FAIL, "guess.rv32": model.GUESS,
             "answer": b"7\n", "wide": b"1e12\n", "text": b"print(7)\n", "echo.elf2": b"abc"}
    for name, data in files.items():
        with open(os.path.join(folder, name), "wb") as file:
            file.write(data)
    for name, options, given, ending, verdict in VERDICTS:
        done = subprocess.run([PROGRAM, name, "--answer", "answer", *options], input=given, capture_output=True, check=False, cwd=folder)
        said = done.stderr.decode().splitlines()
        sound = done.returncode == 0 and len(said) == 2 and said[0].startswith(f"ending {ending} cost ") and said[1] == f"verdict {verdict}"
        yield f"0: {name} {options} on {given!r}", sound, done
    for words, said in REFUSED:
        done = run(words, folder)
        yield f"1: {words}", done.returncode == 1 and said in done.stderr, done
    for words in [["echo.rv32", "--validator", "guess.rv32"], ["echo.rv32", "--flags", "x"]]:
        done = run(words, folder)
        yield f"2: {words}", done.returncode == 2 and b"--answer" in done.stderr and not done.stdout, done


def main():
    sound = True
    for name, good, done in looks():
        said = "" if good else f": status {done.returncode}, wrote {done.stdout[:80]!r}, said {done.stderr[:200]!r}"
        print(f"{'ok  ' if good else 'NOT '} {name}{said}")
        sound = sound and good
    return 0 if sound else 1


if __name__ == "__main__":
    sys.exit(main())
