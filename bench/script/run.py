#!/usr/bin/env python3
"""Runs `farm script` on large scripts and prints its figures.

    bench/script/run.py [PROGRAM]

PROGRAM is the built program, `crates/farm/out/farm` of this repository if none is given. The scripts
have 10,000, 100,000 and 1,000,000 lines, and one has 100 MB. Printed are, for each, lines and bytes a
second (the best of some runs, reading a file and writing to one), those of a straightforward C++ program
that plays the same lines (`script.cc`, in turn with the program, where there is `g++`), the most memory, the
calls of read and write as `strace` counts them, and whether the replies are those of an independent model,
byte for byte. The last lines print what a line costs as the script grows. The most memory is that of a run
from a pipe.
"""

import fcntl
import filecmp
import os
import re
import shutil
import struct
import subprocess
import sys
import termios
import time

sys.dont_write_bytecode = True
sys.path.append(os.path.join(os.path.dirname(os.path.abspath(__file__)), "..", "..", "tests"))

from place import OUT, program_and_numbers  # noqa: E402
from script_model import write_script  # noqa: E402

# The name, how much is written, how often it is run.
SCRIPTS = [
    ("10,000 lines", {"count": 10_000}, 31),
    ("100,000 lines", {"count": 100_000}, 31),
    ("1,000,000 lines", {"count": 1_000_000}, 31),
    ("100 MB with comments", {"size": 100_000_000, "comment": 80}, 7),
    ("100 MB without comments", {"size": 100_000_000}, 5),
]


def path(name, ending):
    return os.path.join(OUT, re.sub(r"\W+", "_", name) + ending)


def write(name, lines):
    """The path of the file in which these lines were written."""
    with open(path(name, ".lines"), "w") as file:
        file.writelines(line + "\n" for line in lines)
    return path(name, ".lines")


def make(name, amount):
    with open(path(name, ".lines"), "w") as lines, open(path(name, ".replies"), "w") as replies:
        return write_script(lines, replies, **amount)


def run(program, source, target):
    """Seconds, seconds of the processor and status of one run from a file to a file."""
    with open(source, "rb") as lines, open(target, "wb") as out:
        start = time.perf_counter()
        child = subprocess.Popen([program, "script"], stdin=lines, stdout=out)
        _, status, usage = os.wait4(child.pid, 0)
        seconds = time.perf_counter() - start
    child.returncode = os.waitstatus_to_exitcode(status)
    return seconds, usage.ru_utime + usage.ru_stime, child.returncode


def build_peer():
    """The C++ program that plays the same lines, where it can be built."""
    if shutil.which("g++") is None:
        return None
    peer = os.path.join(OUT, "peer")
    source = os.path.join(os.path.dirname(os.path.abspath(__file__)), "script.cc")
    subprocess.run(["g++", "-O2", "-std=c++20", "-Wall", "-Wextra", "-o", peer, source], check=True)
    return peer


def print_peer(count, seconds, results, want, got):
    """What the peer's runs say, beside the seconds of the program; whether its replies are as wanted."""
    least = min(result[0] for result in results)
    same = filecmp.cmp(want, got, shallow=False)
    print(f"  C++: {least:.4f} s; {count / least:,.0f} lines/s; ratio {least / seconds:.2f}"
          f"{'' if same else '; its replies are NOT those of the model'}")
    return same


def most_memory(program, source):
    """The most memory, in MiB, of a run from a pipe, seen where all was read and the end has not come."""
    child = subprocess.Popen([program, "script"], stdin=subprocess.PIPE, stdout=subprocess.DEVNULL)
    with open(source, "rb") as lines:
        shutil.copyfileobj(lines, child.stdin, 65536)
    child.stdin.flush()
    waiting = 1
    while waiting:
        time.sleep(0.05)
        waiting = struct.unpack("i", fcntl.ioctl(child.stdin, termios.FIONREAD, b"\0\0\0\0"))[0]
    time.sleep(0.05)
    with open(f"/proc/{child.pid}/status") as rows:
        memory = [int(row.split()[1]) for row in rows if row.startswith("VmHWM:")]
    child.stdin.close()
    child.wait()
    return memory[0] / 1024


def calls(program, source):
    """The calls of read and write of one run, from and to files."""
    if shutil.which("strace") is None:
        return None
    report = os.path.join(OUT, "strace")
    command = ["strace", "-f", "-c", "-e", "trace=read,write", "-o", report, program, "script"]
    with open(source, "rb") as lines, open(os.path.join(OUT, "traced"), "wb") as out:
        subprocess.run(command, stdin=lines, stdout=out, check=False)
    counts = {"read": 0, "write": 0}
    with open(report) as rows:
        for row in rows:
            words = row.split()
            if words and words[-1] in counts:
                counts[words[-1]] = int(words[3])
    return counts


def measure(program, peer, name, amount, runs):
    script = make(name, amount)
    source, want, got = path(name, ".lines"), path(name, ".replies"), path(name, ".out")
    results, peers = [], []
    for _ in range(runs):
        results.append(run(program, source, got))
        if peer:
            peers.append(run(peer, source, path(name, ".peer")))
    seconds = min(result[0] for result in results)
    processor = min(result[1] for result in results)
    status = results[0][2]
    with open(got, "rb") as out:
        replies = sum(chunk.count(b"\n") for chunk in iter(lambda: out.read(1 << 20), b""))
    same = filecmp.cmp(want, got, shallow=False)
    print(f"{name}: {script.count} lines, {script.size} bytes; {script.replied} replies, {script.reply_size} bytes")
    print(f"  status {status}; {replies} replies came, {'as the model gives them' if same else 'NOT those of the model'}")
    print(f"  {seconds:.4f} s ({processor:.4f} s of the processor); {script.count / seconds:,.0f} lines/s; {script.size / seconds / 1e6:,.1f} MB/s")
    if peer:
        same = print_peer(script.count, seconds, peers, want, path(name, ".peer")) and same
    print(f"  most memory {most_memory(program, source):,.1f} MiB")
    counts = calls(program, source)
    if counts is None:
        print("  reads and writes: no strace here")
    else:
        print(
            f"  {counts['read']} reads ({script.size / 65536:,.1f} blocks of 64 KiB), {counts['write']} writes"
        )
    sys.stdout.flush()
    return script.count, processor, status == 0 and same and replies == script.replied


def main():
    program, _ = program_and_numbers(sys.argv[1:])
    peer = build_peer()
    if peer is None:
        print("no g++ here: the C++ program is not run beside")
    empty = os.path.join(OUT, "empty")
    open(empty, "w").close()
    start = min(run(program, empty, os.path.join(OUT, "none"))[1] for _ in range(9))
    print(f"no lines: {start * 1000:.2f} ms of the processor, which the costs below do not count")
    costs, sound = [], True
    for name, amount, runs in SCRIPTS:
        count, processor, right = measure(program, peer, name, amount, runs)
        costs.append((name, (processor - start) / count))
        sound = sound and right
    least = min(cost for _, cost in costs)
    for name, cost in costs:
        print(f"{name}: {cost * 1e9:,.0f} ns of the processor a line, {cost / least:.2f} times the least")
    return 0 if sound else 1


if __name__ == "__main__":
    sys.exit(main())
