#!/usr/bin/env python3
"""Prints what rejudgings, boards and the audit log cost in `farm script`.

    bench/script/rejudgings.py [PROGRAM]

PROGRAM is the built program, `crates/farm/out/farm` of this repository if none is given. Printed are what an `audit`
line costs behind logs of several lengths, what a `board` of 100,000 submissions costs and how it is written, and a
rejudging of 10,000 submissions, applied and cancelled, beside the replies of the model in `tests/farm_model.py`.
"""

import shutil
import sys
import time

sys.dont_write_bytecode = True

from run import calls, most_memory, path, run, write  # noqa: E402
from farm_model import Farm  # noqa: E402
from place import program_and_numbers  # noqa: E402

# The most numbers in a list of a line of at most 4,096 bytes, with up to six digits each.
IN_A_LINE = 500


def least(program, source, runs=5):
    """The least seconds of the processor of some runs, and the status."""
    results = [run(program, source, path("out", ".out")) for _ in range(runs)]
    return min(result[1] for result in results), results[0][2]


def audit_costs(program):
    """What an `audit` line costs behind logs of several lengths."""
    asked, sound = 1_000_000, True
    for entries in [1_000, 10_000, 100_000, 1_000_000]:
        problems = (entries + 999) // 1000
        log = [f"problem p{number} 1" for number in range(problems)]
        log += [f"replace p{at % problems} {at % 1000 + 1}" for at in range(entries - problems)]
        without, first = least(program, write(f"log {entries}", log))
        behind, second = least(program, write(f"audit {entries}", log + ["audit"] * asked))
        print(
            f"audit behind {entries:,} entries: {(behind - without) / asked * 1e9:,.0f} ns of the processor a line;"
            f" an entry cost {without / entries * 1e9:,.0f} ns"
        )
        sys.stdout.flush()
        sound = sound and first == second == 0
    return sound


def contest(submissions):
    return ["problem A 1"] + ["submit A"] * submissions + [f"record {number} 1 correct" for number in range(1, submissions + 1)]


def board_costs(program):
    """What a `board` of 100,000 submissions costs, and how it is written."""
    lines, boards = contest(100_000), 10
    bare, whole = write("no board", lines), write("boards", lines + ["board"] * boards)
    one = write("one board", lines + ["board"])
    without, first = least(program, bare)
    behind, second = least(program, whole)
    _, third = least(program, one, 1)
    print(f"board of 100,000 submissions: {(behind - without) / boards * 1e3:,.2f} ms of the processor")
    counts, more = calls(program, bare), calls(program, one)
    if counts:
        print(f"  one board more: {more['write'] - counts['write']} writes more (strace)")
    print(f"  most memory without a board {most_memory(program, bare):,.1f} MiB, with one {most_memory(program, one):,.1f} MiB")
    sys.stdout.flush()
    return first == second == third == 0


def rejudged(submissions, close):
    """Lines that rejudge all submissions, by as many numbers as a line holds, and close each rejudging."""
    lists = [range(at, min(at + IN_A_LINE, submissions + 1)) for at in range(1, submissions + 1, IN_A_LINE)]
    lines = [f"rejudge {','.join(str(number) for number in numbers)}" for numbers in lists]
    lines += [f"record {submissions + number} 1 wrong-answer" for number in range(1, submissions + 1)]
    lines += [f"matrix {number}" for number in range(1, len(lists) + 1)]
    return lines + [f"{close} {number}" for number in range(1, len(lists) + 1)] + ["board"]


def rejudging_costs(program):
    """A rejudging of 10,000 submissions, applied and cancelled, beside the model's replies."""
    lines, sound = contest(10_000), True
    without, _ = least(program, write("contest", lines))
    for close in ["apply", "cancel"]:
        more = rejudged(10_000, close)
        source = write(close, lines + more)
        seconds, status = least(program, source)
        farm = Farm()
        replies = "".join(reply + "\n" for line in lines + more for reply in farm.answer(line.encode()))
        with open(path("out", ".out")) as out:
            same = out.read() == replies
        print(
            f"10,000 submissions rejudged and {close} on each: {(seconds - without) * 1e3:,.1f} ms of the processor,"
            f" {len(more):,} lines; replies {'as the model gives them' if same else 'NOT those of the model'}"
        )
        sys.stdout.flush()
        sound = sound and same and status == 0
    return sound


def main():
    program, _ = program_and_numbers(sys.argv[1:])
    start = time.perf_counter()
    parts = [audit_costs(program), board_costs(program), rejudging_costs(program)]
    print(f"{time.perf_counter() - start:,.0f} s in all{'' if shutil.which('strace') else '; no strace here'}")
    return 0 if all(parts) else 1


if __name__ == "__main__":
    sys.exit(main())
