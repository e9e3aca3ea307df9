#!/usr/bin/env python3
"""Prints the most memory that `farm script` takes with as many judgings as there may be.

    bench/script/limits.py [PROGRAM] [TESTS ..]

PROGRAM is the built program, `crates/farm/out/farm` of this repository if none is given. 100,000 submissions to a problem
of TESTS tests (1 and 1,000 if no number is given) are judged anew three times, so that there are 400,000 judgings.
Printed is the most memory, and what that is for each judging and for each of its tests, over a contest of one test.
"""

import sys

sys.dont_write_bytecode = True

from run import most_memory, path, run  # noqa: E402
from place import program_and_numbers  # noqa: E402

SUBMISSIONS, IN_A_LINE, ROUNDS = 100_000, 500, 3


def write(tests):
    """The lines of a contest in which every submission is final by one result, and is judged anew and given up."""
    source, count = path(f"limits {tests}", ".lines"), 0
    with open(source, "w") as lines:
        lines.write(f"problem p {tests}\n" + "submit p\n" * SUBMISSIONS)
        lines.writelines(f"record {number} 1 run-error\n" for number in range(1, SUBMISSIONS + 1))
        for _ in range(ROUNDS):
            for first in range(1, SUBMISSIONS + 1, IN_A_LINE):
                count += 1
                numbers = range(first, min(first + IN_A_LINE, SUBMISSIONS + 1))
                lines.write(f"rejudge {','.join(map(str, numbers))}\ncancel {count}\n")
        lines.write("submit p\nshow 400000\nshow 400001\n")
    return source


def main():
    program, numbers = program_and_numbers(sys.argv[1:])
    base, sound = None, True
    for tests in numbers or [1, 1_000]:
        source, got = write(tests), path("limits", ".out")
        seconds, _, status = run(program, source, got)
        with open(got) as out:
            last = out.read().splitlines()[-3:]
        sound = sound and status == 0 and last == ["full 100000", "pending", "no-judging 400001"]
        most = most_memory(program, source)
        print(f"400,000 judgings of {tests:,} tests: {most:,.0f} MiB, {seconds:.1f} s{'' if sound else '; NOT as wanted'}")
        sys.stdout.flush()
        if base is None:
            base = most, tests
        elif tests > base[1]:
            each = (most - base[0]) * 2**20 / 400_000 / (tests - base[1])
            print(f"  {each:.2f} bytes for each test of a judging, over a contest of {base[1]:,} test a judging")
    return 0 if sound else 1


if __name__ == "__main__":
    sys.exit(main())
