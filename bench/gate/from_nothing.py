#!/usr/bin/env python3
"""Builds the program on a machine that has proved nothing, and prints how long that takes.

    bench/gate/from_nothing.py [--processors N] [--folder FOLDER] [NAME ..]

NAME is a program that `./farm --build` knows, `farm` if none is named. The build runs on N processors, or on all. A folder
(a new one, or one below FOLDER, which should be on the toolchain's file system) gets the files of this checkout as they
stand, and the toolchain by hard links, since `rt` keeps beside the toolchain what it has proved on a machine. Printed are
what the build prints, how long it and its processors took, the most memory of one process, the chain of crates for which
the others waited, and then how long a build takes where a line of `crates/farm/src/main.rt` changed. Other work on the
processors is in the figures. The folder is removed in the end.
"""

import argparse
import os
import re
import resource
import shutil
import subprocess
import sys
import tempfile
import time

TOP = os.path.dirname(os.path.dirname(os.path.dirname(os.path.abspath(__file__))))
PROVED = re.compile(r"crates: (\w+) is proved, in (\d+):(\d+)")


def lay_out(folder):
    """The checkout's files and the toolchain in a folder, with nothing that was proved."""
    kit = os.path.dirname(os.path.dirname(os.path.realpath(shutil.which("rt") or sys.exit("there is no rt on the path"))))
    listed = subprocess.run(["git", "ls-files", "-z", "-co", "--exclude-standard"], cwd=TOP, capture_output=True, check=True).stdout
    for name in listed.decode().split("\0"):
        if name and os.path.isfile(f"{TOP}/{name}"):
            os.makedirs(os.path.dirname(f"{folder}/checkout/{name}"), exist_ok=True)
            shutil.copy2(f"{TOP}/{name}", f"{folder}/checkout/{name}")
    linked = subprocess.run(["cp", "-al", kit, f"{folder}/toolchain"], check=False, stderr=subprocess.DEVNULL)
    if linked.returncode != 0:
        shutil.rmtree(f"{folder}/toolchain", ignore_errors=True)
        subprocess.run(["cp", "-a", kit, f"{folder}/toolchain"], check=True)


def build(folder, names, processors):
    """Builds the programs, and returns the seconds, those of the processors and what was said of each crate."""
    env = {**os.environ, "PATH": f"{folder}/toolchain/bin:{os.environ['PATH']}", "FARM_BUILD": f"{folder}/build"}
    words = ["taskset", "-c", f"0-{processors - 1}"] if processors else []
    began, before, seconds = time.time(), resource.getrusage(resource.RUSAGE_CHILDREN), {}
    child = subprocess.Popen(
        [*words, "./farm", "--build", *names], cwd=f"{folder}/checkout", env=env, stderr=subprocess.PIPE, text=True
    )
    try:
        for line in child.stderr:
            print(line, end="", flush=True)
            found = PROVED.search(line)
            if found:
                seconds[found[1]] = int(found[2]) * 60 + int(found[3])
    except KeyboardInterrupt:
        child.terminate()
        child.wait()
        raise
    if child.wait() != 0:
        sys.exit("the build failed")
    after = resource.getrusage(resource.RUSAGE_CHILDREN)
    spent = after.ru_utime + after.ru_stime - before.ru_utime - before.ru_stime
    return time.time() - began, spent, seconds


def longest(seconds):
    """The chain of crates, each on top of the one before, that took longest."""
    below, chains = {}, {}
    with open(f"{TOP}/crates.txt", encoding="utf-8") as lines:
        for line in lines:
            name, _, rest = line.split("#")[0].partition(":")
            below[name.strip()] = [it for it in rest.split() if it in seconds]

    def chain(name):
        if name not in chains:
            under = max((chain(it) for it in below[name]), default=(0, []))
            chains[name] = (under[0] + seconds[name], [*under[1], name])
        return chains[name]

    return max(map(chain, seconds), default=(0, []))


def main():
    parser = argparse.ArgumentParser(usage="from_nothing.py [--processors N] [--folder FOLDER] [NAME ..]")
    parser.add_argument("--processors", type=int)
    parser.add_argument("--folder")
    parser.add_argument("names", nargs="*", default=["farm"])
    words = parser.parse_args()
    count = words.processors or len(os.sched_getaffinity(0))
    folder = tempfile.mkdtemp(prefix="farm-from-nothing-", dir=words.folder)
    try:
        lay_out(folder)
        took, spent, seconds = build(folder, words.names, words.processors)
        chain = longest(seconds)
        most = resource.getrusage(resource.RUSAGE_CHILDREN).ru_maxrss / 1024
        print(f"{' '.join(words.names)} from nothing on {count} processors: {took / 60:.1f} minutes, {spent / 60:.1f} of a processor")
        print(f"the most memory of one process: {most:,.0f} MiB")
        print(f"the longest chain, {chain[0] / 60:.1f} minutes: " + ", ".join(f"{it} {seconds[it]} s" for it in chain[1]))
        if "farm" in words.names:
            with open(f"{folder}/checkout/crates/farm/src/main.rt", "a", encoding="utf-8") as file:
                file.write("// A line that changes nothing.\n")
            took, spent, _ = build(folder, ["farm"], words.processors)
            print(f"farm where only its own crate changed: {took / 60:.1f} minutes, {spent / 60:.1f} of a processor")
    finally:
        shutil.rmtree(folder, ignore_errors=True)


if __name__ == "__main__":
    main()
