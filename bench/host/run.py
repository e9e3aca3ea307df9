#!/usr/bin/env python3
"""Times `farm host` over loopback beside `farm judge --hosts 1`, on the same contests.

    bench/host/run.py [PROGRAM [TESTS]]

Contests of TESTS tests (500 if no number is given), each of whose runs is short or takes ten million instructions, with images of
1 KB and 1 MB and inputs of some bytes and of 1 MB. Printed are microseconds a test by `judge`, by a host, the better of two
runs of each, and what the host adds; and the most memory of the server and of the host.
"""

import os
import re
import resource
import subprocess
import sys
import tempfile
import time

sys.dont_write_bytecode = True
TOP = os.path.dirname(os.path.dirname(os.path.dirname(os.path.abspath(__file__))))
sys.path.insert(0, os.path.join(TOP, "tests"))

from judge import write  # noqa: E402
from judge_model import program as assembled  # noqa: E402
from place import program_and_numbers  # noqa: E402
from serve import Server, ask  # noqa: E402

SHORT = "exit 0"
# Counts down from some five million, by two instructions each.
LONG = "lui x13,1220; addi x13,x13,-1; bne x13,x0,-4; exit 0"


def contest(folder, text, image, size, tests):
    """A problem whose tests have inputs of this size, and one submission, an image of so many bytes."""
    data = assembled(text).ljust(image, b"\x13")
    files = {
        "problems/p/problem.yaml": "limits:\n  memory: 64\n",
        "problems/p/domjudge-problem.ini": "timelimit=10\n",
        "farm.json": '{"lease": 1000, "lazy_eval_results": false}',
        "submissions.txt": "",
    }
    for number in range(1, tests + 1):
        files[f"problems/p/data/secret/{number:04}.in"] = "7" * (size - 1) + "\n"
        files[f"problems/p/data/secret/{number:04}.ans"] = ""
    write(folder, files)
    os.makedirs(f"{folder}/submissions", exist_ok=True)
    with open(f"{folder}/submissions/a.rv32", "wb") as file:
        file.write(data)
    with open(f"{folder}/submissions.txt", "w") as file:
        file.write("1 alpha p a.rv32\n")


def seconds_of_judge(program, folder):
    """The better of two runs: the first one reads the files."""
    seconds = []
    for _ in range(2):
        begun = time.perf_counter()
        subprocess.run([program, "judge", folder, "--hosts", "1"], capture_output=True, check=True)
        seconds.append(time.perf_counter() - begun)
    return min(seconds)


def seconds_of_host(program, folder, tests):
    with Server(program, folder, lanes=2, connections=3) as server:
        words = [program, "host", "127.0.0.1", "--port", str(server.port), "--name", "h1", "--fuel", "100000"]
        begun = time.perf_counter()
        done = subprocess.run(words, capture_output=True, check=True)
        seconds = time.perf_counter() - begun
        with open(f"/proc/{server.process.pid}/status") as file:
            kib = int(re.search(r"VmHWM:\s+(\d+)", file.read())[1])
        board = ask(server.client(), "GET", "/board")[1]
    if done.stdout.split()[5] != b"%d" % tests or board["rows"][0]["verdict"] == "pending":
        sys.exit(f"the host did not run all tests: {done.stdout}, {board}")
    return seconds, kib


def main():
    program, numbers = program_and_numbers(sys.argv[1:])
    count = (numbers or [500])[0]
    for name, text, image, size, part in [
        ("short runs, image 1 KB, input 8 bytes", SHORT, 1024, 8, 1),
        ("short runs, image 1 MB, input 8 bytes", SHORT, 1 << 20, 8, 4),
        ("short runs, image 1 KB, input 1 MB", SHORT, 1024, 1 << 20, 4),
        ("runs of 10 million instructions, image 1 KB", LONG, 1024, 8, 4),
    ]:
        tests = max(1, count // part)
        with tempfile.TemporaryDirectory() as folder:
            contest(folder, text, image, size, tests)
            judged = seconds_of_judge(program, folder)
            hosted, kib = min(seconds_of_host(program, folder, tests) for _ in range(2))
        judge, host = judged / tests * 1e6, hosted / tests * 1e6
        print(f"{name}, {tests} tests: judge {judge:,.0f} us a test, host {host:,.0f}, more {host - judge:,.0f}; server {kib // 1024} MiB", flush=True)
    most = resource.getrusage(resource.RUSAGE_CHILDREN).ru_maxrss
    print(f"the most memory of a process that was waited for: {most // 1024} MiB")


if __name__ == "__main__":
    main()
