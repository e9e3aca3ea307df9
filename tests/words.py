#!/usr/bin/env python3
"""Gives the programs words that ask for help or for the version, and words that are wrong, and looks at what they say.

    tests/words.py

The programs are those that `rt ci` has built. Help and the version are written to standard output, with status 0. Wrong
words are told on standard error, with status 2: which word is wrong, what was wanted, and the usage of that command
alone. Each row has whole lines that must stand there. One line is printed for each look, and the status is 1 where one
shows something else than is wanted.
"""

import os
import subprocess
import sys

sys.dont_write_bytecode = True

from place import TOP  # noqa: E402

FARM = "Usage: farm <COMMAND>"
JUDGE = "Usage: farm judge [OPTIONS] --hosts <N> <FOLDER>"
SCRIPT = "Usage: farm script [OPTIONS]"
STORE = "Usage: farm store <FILE>"
MAKE = "Usage: farm make <NUMBER> <PROBLEMS> <SUBMISSIONS>"
SERVE = "Usage: farm serve [OPTIONS] --port <P> --lanes <N> <FOLDER>"
HOST = "Usage: farm host [OPTIONS] --port <P> --name <NAME> --fuel <F> <ADDRESS>"
RVRUN = "Usage: rvrun [OPTIONS] <IMAGE>"
VALIDATE = "Usage: validate <INPUT> <ANSWER> <FEEDBACK_FOLDER> [FLAGS]..."
PACKAGE_INFO = "Usage: package_info <FOLDER>"
MORE = "For more information, try '--help'."

# A program, its words, and lines that must stand on standard output.
HELP = [
    ("farm", ["--help"], [FARM, "Commands:", "Options:"]),
    ("farm", ["-h"], [FARM, "Commands:"]),
    ("farm", ["help"], [FARM, "Commands:"]),
    ("farm", ["help", "judge"], [JUDGE, "Arguments:", "Options:"]),
    ("farm", ["judge", "--help"], [JUDGE, "Arguments:", "Options:"]),
    ("farm", ["judge", "-h"], [JUDGE]),
    ("farm", ["judge", "c", "--hosts", "99", "--help"], [JUDGE]),
    ("farm", ["script", "--help"], [SCRIPT, "Lines:", "  audit                          the audit log's length and last digest"]),
    ("farm", ["store", "--help"], [STORE, "Arguments:"]),
    ("farm", ["make", "--help"], [MAKE]),
    ("farm", ["help", "serve"], [SERVE]),
    ("farm", ["host", "--help"], [HOST, "Arguments:", "Options:"]),
    ("farm", ["--version"], ["farm 0.1.0"]),
    ("farm", ["-V"], ["farm 0.1.0"]),
    ("rvrun", ["--help"], [RVRUN, "Arguments:", "Options:"]),
    ("rvrun", ["-h"], [RVRUN]),
    ("rvrun", ["image", "--help"], [RVRUN]),
    ("rvrun", ["--version"], ["rvrun 0.1.0"]),
    ("rvrun", ["-V"], ["rvrun 0.1.0"]),
    ("validate", ["--help"], [VALIDATE, "Arguments:", "Options:"]),
    ("validate", ["-h"], [VALIDATE]),
    ("validate", ["--version"], ["validate 0.1.0"]),
    ("validate", ["-V"], ["validate 0.1.0"]),
    ("package_info", ["--help"], [PACKAGE_INFO, "Arguments:", "Options:"]),
    ("package_info", ["-h"], [PACKAGE_INFO]),
    ("package_info", ["--version"], ["package_info 0.1.0"]),
    ("package_info", ["-V"], ["package_info 0.1.0"]),
]


def number(option, value, least, most):
    """The line on a number that is not in its range."""
    return f"error: invalid value '{value}' for '{option}': wanted is a number from {least} to {most}, without a sign or a leading zero"


# A program, its words, and lines that must stand on standard error.
WRONG = [
    ("farm", [], ["error: 'farm' requires a subcommand but one was not provided", FARM, MORE]),
    ("farm", ["scripts"], ["error: unrecognized subcommand 'scripts'", "  tip: a similar subcommand exists: 'script'", FARM, MORE]),
    ("farm", ["judge"], ["error: the following required arguments were not provided:", "  --hosts <N>", "  <FOLDER>", MORE]),
    ("farm", ["judge", "c"], ["error: the following required arguments were not provided:", "  --hosts <N>"]),
    ("farm", ["judge", "c", "--host", "1"], ["error: unexpected argument '--host' found", "  tip: a similar argument exists: '--hosts'"]),
    ("farm", ["judge", "c", "--hosts", "17"], [number("--hosts <N>", "17", 0, 16), JUDGE, MORE]),
    ("farm", ["judge", "c", "--hosts=01"], [number("--hosts <N>", "01", 0, 16), JUDGE]),
    ("farm", ["judge", "c", "--hosts", "x"], [number("--hosts <N>", "x", 0, 16), JUDGE]),
    ("farm", ["judge", "c", "--hosts"], ["error: a value is required for '--hosts <N>' but none was supplied", JUDGE]),
    ("farm", ["judge", "c", "d", "--hosts", "1"], ["error: unexpected argument 'd' found", JUDGE]),
    ("farm", ["judge", "c", "--hosts", "1", "--hosts", "1"], ["error: the argument '--hosts <N>' cannot be used multiple times", JUDGE]),
    ("farm", ["judge", "", "--hosts", "1"], ["error: an empty word found, and none is taken", JUDGE]),
    ("farm", ["judge", "-", "--hosts", "1"], ["error: unexpected argument '-' found", JUDGE]),
    ("farm", ["script", "--config="], ["error: invalid value '' in '--config=': a value is not empty and does not begin with '-'", SCRIPT]),
    ("farm", ["script", "--"], ["error: unexpected argument '--' found", SCRIPT]),
    ("farm", ["script", "--store", "s", "--store=s"], ["error: the argument '--store <FILE>' cannot be used multiple times", SCRIPT]),
    ("farm", ["store"], ["error: the following required arguments were not provided:", "  <FILE>", STORE, MORE]),
    ("farm", ["store", "s", "t"], ["error: unexpected argument 't' found", STORE]),
    ("farm", ["make", "1", "51", "3"], [number("<PROBLEMS>", "51", 1, 50), MAKE]),
    ("farm", ["make", "1", "50", "2001"], [number("<SUBMISSIONS>", "2001", 1, 2000), MAKE]),
    ("farm", ["make", "4294967296", "5", "2"], [number("<NUMBER>", "4294967296", 0, 4294967295), MAKE]),
    ("farm", ["serve", "c", "--port", "65536", "--lanes", "1", "--connections", "1"], [number("--port <P>", "65536", 0, 65535), SERVE]),
    ("farm", ["serve", "c", "--port", "0", "--lanes", "0", "--connections", "1"], [number("--lanes <N>", "0", 1, 16), SERVE]),
    ("farm", ["serve", "c", "--port", "0", "--lanes", "1", "--connections", "100001"], [number("--connections <M>", "100001", 1, 100000), SERVE]),
    ("farm", ["serve", "c", "--port", "0", "--lanes", "1", "--connections", "1", "--patience=3601"], [number("--patience <SECONDS>", "3601", 1, 3600), SERVE]),
    ("farm", ["serve", "c", "--port", "0", "--lanes", "1", "--connections", "1", "--address", "localhost"],
     ["error: invalid value 'localhost' for '--address <ADDRESS>': wanted is an IPv4 or IPv6 address, as 0.0.0.0 or ::1", SERVE, MORE]),
    ("farm", ["host"], ["error: the following required arguments were not provided:", "  --port <P>", "  --name <NAME>", "  --fuel <F>", "  <ADDRESS>"]),
    ("farm", ["host", "a", "--port", "0", "--name", "h", "--fuel", "1"], [number("--port <P>", "0", 1, 65535), HOST, MORE]),
    ("farm", ["host", "a", "--port", "1", "--name", "h", "--fuel", "0"], [number("--fuel <F>", "0", 1, 4294967295), HOST]),
    ("farm", ["host", "a", "--port", "1", "--name", "h", "--fuel", "1", "--wait=61"], [number("--wait <SECONDS>", "61", 1, 60), HOST]),
    ("farm", ["host", "a", "--port", "1", "--name", "h.1", "--fuel", "1"],
     ["error: invalid value 'h.1' for '--name <NAME>': wanted are 1 to 32 letters, digits, '_' and '-'", HOST, MORE]),
    ("farm", ["host", "a", "--port", "1", "--name", "h", "--fuel", "1", "--user", "u:v", "--password-file", "p"],
     ["error: invalid value 'u:v' for '--user <USER>': wanted is a name without ':' and without control characters", HOST, MORE]),
    ("farm", ["host", "a", "--port", "1", "--name", "h", "--fuel", "1", "--user=u"],
     ["error: '--user <USER>' is given without '--password-file <FILE>'", HOST, MORE]),
    ("farm", ["host", "a", "--port", "1", "--name", "h", "--fuel", "1", "--password-file=p"],
     ["error: '--password-file <FILE>' is given without '--user <USER>'", HOST, MORE]),
    ("farm", ["judge", b"\xff", "--hosts", "1"], ["error: a word of the command line is no UTF-8", FARM, MORE]),
    ("farm", ["help", "juge"], ["error: unrecognized subcommand 'juge'"]),
    # A control character of a word, a line end too, is shown as `?`, whoever says what is wrong.
    ("farm", ["\x1b[31mjudge"], ["error: unrecognized subcommand '?[31mjudge'", FARM, MORE]),
    ("farm", ["judge", "c", "d\x1b[31m", "--hosts", "1"], ["error: unexpected argument 'd?[31m' found", JUDGE, MORE]),
    ("farm", ["judge", "c", "--\x1b[31m", "--hosts", "1"], ["error: unexpected argument '--?[31m' found", "Usage: farm judge --hosts <N> <FOLDER>", MORE]),
    ("farm", ["judge", "c", "--hosts", "1\n\x9b31m"], [number("--hosts <N>", "1??31m", 0, 16), JUDGE, MORE]),
    ("farm", ["script", "--config=-\x07"], ["error: invalid value '-?' in '--config=-?': a value is not empty and does not begin with '-'", SCRIPT]),
    ("farm", ["make", "1", "\x1b", "3"], [number("<PROBLEMS>", "?", 1, 50), MAKE]),
    ("farm", ["serve", "c", "--port", "0", "--lanes", "1", "--address", "::1\n"],
     ["error: invalid value '::1?' for '--address <ADDRESS>': wanted is an IPv4 or IPv6 address, as 0.0.0.0 or ::1", SERVE, MORE]),
    ("farm", ["host", "a", "--port", "1", "--name", "h\t", "--fuel", "1"],
     ["error: invalid value 'h?' for '--name <NAME>': wanted are 1 to 32 letters, digits, '_' and '-'", HOST, MORE]),
    ("farm", ["host", "a", "--port", "1", "--name", "h", "--fuel", "1", "--user", "u\x1b[31mv", "--password-file", "p"],
     ["error: invalid value 'u?[31mv' for '--user <USER>': wanted is a name without ':' and without control characters", HOST, MORE]),
    ("rvrun", [], ["error: the following required arguments were not provided:", "  <IMAGE>", "Usage: rvrun <IMAGE>", MORE]),
    ("rvrun", ["image", "--pages", "x"], [number("--pages <N>", "x", 0, 4294967295), RVRUN, MORE]),
    ("rvrun", ["image", "--pages=01"], [number("--pages <N>", "01", 0, 4294967295), RVRUN, MORE]),
    ("rvrun", ["image", "--output=4294967296"], [number("--output <N>", "4294967296", 0, 4294967295), RVRUN, MORE]),
    ("rvrun", ["image", "--instructions", "18446744073709551616"],
     [number("--instructions <N>", "18446744073709551616", 0, 18446744073709551615), RVRUN, MORE]),
    ("rvrun", ["image", "--pages"], ["error: a value is required for '--pages <N>' but none was supplied", RVRUN, MORE]),
    ("rvrun", ["image", "--pages="], ["error: invalid value '' in '--pages=': a value is not empty and does not begin with '-'", RVRUN, MORE]),
    ("rvrun", ["image", "--pages", "1", "--pages", "1"], ["error: the argument '--pages <N>' cannot be used multiple times", RVRUN, MORE]),
    ("rvrun", ["image", "other"], ["error: unexpected argument 'other' found", RVRUN, MORE]),
    ("rvrun", ["--page", "1", "image"], ["error: unexpected argument '--page' found", "  tip: a similar argument exists: '--pages'"]),
    ("rvrun", ["image", "--pages", "\x1b[31m"], [number("--pages <N>", "?[31m", 0, 4294967295), RVRUN, MORE]),
    ("rvrun", ["image", "other\nerror: none"], ["error: unexpected argument 'other?error: none' found", RVRUN, MORE]),
    ("rvrun", ["image", "--pages=-\x1b[31m"], ["error: invalid value '-?[31m' in '--pages=-?[31m': a value is not empty and does not begin with '-'", RVRUN, MORE]),
    ("validate", [], ["error: the following required arguments were not provided:", "  <INPUT>", "  <ANSWER>", "  <FEEDBACK_FOLDER>", VALIDATE, MORE]),
    ("validate", ["a", "b"], ["error: the following required arguments were not provided:", "  <FEEDBACK_FOLDER>", VALIDATE, MORE]),
    ("validate", ["a", "", "c"], ["error: an empty word found, and none is taken", VALIDATE, MORE]),
    ("validate", ["a", "-", "c"], ["error: unexpected argument '-' found", VALIDATE, MORE]),
    ("validate", ["--helps"], ["error: unexpected argument '--helps' found", "  tip: a similar argument exists: '--help'"]),
    ("validate", ["--\x1b[31m"], ["error: unexpected argument '--?[31m' found"]),
    ("validate", ["a", "--x=-\x1b[31m", "c"], ["error: unexpected argument '--x' found"]),
    ("package_info", [], ["error: the following required arguments were not provided:", "  <FOLDER>", PACKAGE_INFO, MORE]),
    ("package_info", [""], ["error: an empty word found, and none is taken", PACKAGE_INFO, MORE]),
    ("package_info", ["a", "b"], ["error: unexpected argument 'b' found", PACKAGE_INFO, MORE]),
    ("package_info", ["a", "b\x1b[31m"], ["error: unexpected argument 'b?[31m' found", PACKAGE_INFO, MORE]),
    ("package_info", ["--\u009b31m", "a"], ["error: unexpected argument '--?31m' found", PACKAGE_INFO, MORE]),
    ("package_info", ["--notes", "a"], ["error: unexpected argument '--notes' found", PACKAGE_INFO, MORE]),
]


def ended(name, words):
    program = os.path.join(TOP, "crates", name, "out", name)
    return subprocess.run([program, *words], stdin=subprocess.DEVNULL, capture_output=True, timeout=60, check=False)


def fault_of(done, status, said, other, lines):
    """What is wrong with an end: its lines must stand in what it said, and nothing in the other stream."""
    if done.returncode != status:
        return f"status {done.returncode}, said {said!r}"
    if other:
        return f"wrote {other[:200]!r}"
    if any(character in said.decode() for character in "\x1b\x07\t\x9b"):
        return f"a control character in {said!r}"
    lacking = [line for line in lines if line not in said.decode().split("\n")]
    return f"lacks {lacking} in {said.decode()!r}" if lacking else None


def remarks_fault(done):
    """What is wrong with the lines of help that stand by themselves: none is longer than 84 characters."""
    text = done.stdout.decode()
    wide = [line for line in text.split("\n") if len(line) > 84 and not line.startswith(("  ", "Usage: ")) and line != text.split("\n")[0]]
    return f"wide lines {wide}" if wide else None


def looks():
    for words in [["--help"], *([command, "--help"] for command in ("judge", "script", "store", "make", "serve", "host"))]:
        yield f"short lines: farm {words}", remarks_fault(ended("farm", words))
    for name, words, lines in HELP:
        done = ended(name, words)
        yield f"0: {name} {words}", fault_of(done, 0, done.stdout, done.stderr, lines)
    for name, words, lines in WRONG:
        done = ended(name, words)
        yield f"2: {name} {words}", fault_of(done, 2, done.stderr, done.stdout, lines)


def main():
    sound = True
    for name, fault in looks():
        print(f"{'ok  ' if fault is None else 'NOT '} {name}{'' if fault is None else ': ' + fault}")
        sound = sound and fault is None
    return 0 if sound else 1


if __name__ == "__main__":
    sys.exit(main())
