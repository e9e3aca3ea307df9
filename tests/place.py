"""Where the built program is, and where the scripts of `tests/` and `bench/` write."""

import os

TOP = os.path.dirname(os.path.dirname(os.path.abspath(__file__)))
FARM = os.path.join(TOP, "crates", "farm", "out", "farm")
OUT = os.path.join(TOP, "bench", "out", "script")


def without_notes(said):
    """What was said on standard error but the notes on a contest."""
    return b"".join(line for line in said.splitlines(True) if not line.startswith(b"note: "))


def program_and_numbers(words):
    """The program that the first word names, or else the built one, and the numbers behind it."""
    program = FARM
    if words and not words[0].isdigit():
        program, words = words[0], words[1:]
    os.makedirs(OUT, exist_ok=True)
    return os.path.abspath(program), [int(word) for word in words]
