#!/usr/bin/env python3
"""What a run of a small image costs: microseconds to load and run a program of 20 instructions, which touches one page
or two, over and over in one process.

The program that does so is made in a folder of its own (farm-small-runs in the folder for temporary files), from the
machine's crates as they stand here, and is proved as every program: that takes a minute at first, and seconds later.

usage: small.py [ROUNDS]
"""
import os
import shutil
import subprocess
import sys
import tempfile

HERE = os.path.dirname(os.path.abspath(__file__))
CRATES = os.path.join(HERE, "..", "..", "crates")
PLACE = os.path.join(tempfile.gettempdir(), "farm-small-runs")
LINES = ["farm_kinds:", "rv_word:", "rv_memory:", "rv_machine: farm_kinds rv_word rv_memory", "small_runs: farm_kinds rv_machine"]
RUNS = 100_000
# Counts down from 8, and exits with 0.
ONE_PAGE = [0x00800293, 0xFFF28293, 0xFE029EE3, 0x00000513, 0x05D00893, 0x00000073]
# Stores below the stack pointer first, and counts down from 7.
TWO_PAGES = [0xFE512E23, 0x00000013, 0x00700293, *ONE_PAGE[1:]]

MAIN = """//! Times runs of small images.
#![tactic(auto)]

ghost use Rattle.std.specs.Prelude.{◌≤◌, ℕ};

use farm_kinds::{Limits, raw_image};
use rv_machine::{Ending, Files, Machine};
use std::alloc::Global;
use std::io;
use std::process::ExitCode;
use std::time::Instant;

static ONE_PAGE: [u8; %d] = %s;

static TWO_PAGES: [u8; %d] = %s;

fn main(rt: HostRuntime) -> ExitCode {
    match times(&rt, &ONE_PAGE).and_then(|_| times(&rt, &TWO_PAGES)) {
        Ok(()) => ExitCode::SUCCESS,
        Err(_) => ExitCode::FAILURE,
    }
}

fn times(rt: &HostRuntime, image: &[u8]) -> io::Result<()> {
    let start = Instant::now(rt)?;
    let done = run_all(rt.alloc(), image);
    let nanoseconds = start.elapsed(rt)?.as_nanos();
    println!(rt; "{done} {nanoseconds}")
}

// How many of the runs end as they should.
fn run_all(alloc: Global, image: &[u8]) -> u64 {
    let mut done = 0u64;
    for k in 0..%d {
        if done <= k && is_run(alloc, image) {
            done += 1;
        }
    }
    done
}

fn is_run(alloc: Global, image: &[u8]) -> bool {
    if !raw_image(image) {
        return false;
    }
    let limits = Limits {
        instructions: 1000,
        pages: 16,
        output: 100,
    };
    let files = Files {
        stdin: b"",
        extra: None,
    };
    let Ok(mut machine) = Machine::load(alloc, image, limits, files) else {
        return false;
    };
    match machine.run() {
        Ok(Ending::Exit(0)) => machine.cost() == 20,
        _ => false,
    }
}
"""


def bytes_of(words):
    return [byte for word in words for byte in word.to_bytes(4, "little")]


def make():
    """The program's crate, beside copies of the machine's."""
    for line in LINES[:-1]:
        name = line.split(":")[0]
        for part in ["src", "specs", "proofs"]:
            source = os.path.join(CRATES, name, part)
            if os.path.isdir(source):
                shutil.rmtree(os.path.join(PLACE, "crates", name, part), ignore_errors=True)
                shutil.copytree(source, os.path.join(PLACE, "crates", name, part))
    crate = os.path.join(PLACE, "crates", "small_runs")
    for part, name, text in [
            ("src", "main.rt", MAIN % (4 * len(ONE_PAGE), bytes_of(ONE_PAGE), 4 * len(TWO_PAGES), bytes_of(TWO_PAGES), RUNS)),
            ("specs", "Lib.antt", ""), ("proofs", "Lib.antt", "")]:
        os.makedirs(os.path.join(crate, part), exist_ok=True)
        with open(os.path.join(crate, part, name), "w", encoding="utf-8") as file:
            file.write(text)
    with open(os.path.join(PLACE, "crates.txt"), "w", encoding="utf-8") as file:
        file.write("\n".join(LINES) + "\n")
    done = subprocess.run(["rt", "run"], cwd=crate, capture_output=True, text=True)
    if done.returncode != 0:
        sys.exit(done.stdout + done.stderr)
    return os.path.join(crate, "out", "small_runs")


def main():
    rounds = int(sys.argv[1]) if len(sys.argv) > 1 else 9
    if not shutil.which("rt"):
        print("skipped: rt is not there")
        return
    program = make()
    best = [float("inf")] * 2
    for _ in range(rounds):
        out = subprocess.run([program], capture_output=True, text=True, check=True).stdout
        for k, line in enumerate(out.splitlines()):
            done, nanoseconds = map(int, line.split())
            if done != RUNS:
                sys.exit(f"{done} runs of {RUNS} ended as they should")
            best[k] = min(best[k], nanoseconds / RUNS / 1e3)
    print(f"a run of 20 instructions: {best[0]:.2f} us in one page, {best[1]:.2f} us in two pages "
          f"(the best of {rounds} rounds of {RUNS})")


main()
