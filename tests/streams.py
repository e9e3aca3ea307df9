#!/usr/bin/env python3
"""Looks at `farm script` on real streams and files: files, a pipe, a terminal, a pipe that is closed, settings.

    tests/streams.py [PROGRAM]

PROGRAM is the built program, `crates/farm/out/farm` of this repository if none is given. One line is
printed for each look, and the status is 1 where one shows something else than is wanted.
"""

import os
import pty
import select
import subprocess
import sys
import tempfile
import termios
import time

sys.dont_write_bytecode = True

from place import TOP, program_and_numbers  # noqa: E402

LINES = b"problem A 2\nsubmit A\nshow 1\n"
REPLIES = b"problem A version 1\nsubmission 1 judging 1\npending\n"

# What is read, and what is written for it.
TEXTS = [
    ("no byte", b"", b""),
    ("CR LF", LINES.replace(b"\n", b"\r\n"), REPLIES),
    ("no last LF", LINES[:-1], REPLIES),
    ("empty lines and comments", b"\n \n# a\n\r\n" + LINES, REPLIES),
    ("bytes that are no text", b"\xff\x00\xfe\n" + LINES, b"bad-line\n" + REPLIES),
    ("a line of 4,096 bytes", b"#" * 4096 + b"\n" + LINES, REPLIES),
    ("a line of 4,097 bytes", b"#" * 4097 + b"\n" + LINES, b"too-long 4097\n" + REPLIES),
    ("a line of 10,000,000 bytes", b"a" * 10_000_000 + b"\n" + LINES, b"too-long 10000000\n" + REPLIES),
    ("a long line without LF", LINES + b"a" * 70_000, REPLIES + b"too-long 70000\n"),
]


def run(program, stdin, **more):
    return subprocess.run([program, "script"], stdin=stdin, capture_output=True, timeout=60, **more)


def from_file(program, text):
    with tempfile.TemporaryFile() as source:
        source.write(text)
        source.seek(0)
        return run(program, source)


def from_pipe(program, text):
    return subprocess.run([program, "script"], input=text, capture_output=True, timeout=60)


def from_slow_pipe(program, text):
    """Three bytes at a time."""
    child = subprocess.Popen([program, "script"], stdin=subprocess.PIPE, stdout=subprocess.PIPE, stderr=subprocess.PIPE)
    for at in range(0, len(text), 3):
        child.stdin.write(text[at : at + 3])
        child.stdin.flush()
        time.sleep(0.002)
    child.stdin.close()
    out, err = child.stdout.read(), child.stderr.read()
    return subprocess.CompletedProcess([], child.wait(timeout=60), out, err)


def read_some(file, seconds=5.0):
    """What comes within some seconds, as soon as it comes."""
    ready, _, _ = select.select([file], [], [], seconds)
    return os.read(file, 65536) if ready else b""


def at_terminal(program):
    """Whether each reply comes before the next line is written."""
    control, terminal = pty.openpty()
    modes = termios.tcgetattr(terminal)
    modes[3] &= ~termios.ECHO
    modes[1] &= ~termios.OPOST
    termios.tcsetattr(terminal, termios.TCSANOW, modes)
    child = subprocess.Popen([program, "script"], stdin=terminal, stdout=terminal, stderr=subprocess.PIPE)
    os.close(terminal)
    wanted = REPLIES.splitlines(keepends=True)
    for line, reply in zip(LINES.splitlines(keepends=True), wanted):
        os.write(control, line)
        got = b""
        while len(got) < len(reply):
            part = read_some(control)
            if not part:
                break
            got += part
        if got != reply:
            child.kill()
            child.wait()
            return f"{got!r} came for {line!r}"
    os.write(control, b"\x04")
    status = child.wait(timeout=10)
    os.close(control)
    return None if status == 0 else f"status {status}"


def to_closed_pipe(program):
    """The status, and what is said, where the reader of the replies has gone."""
    reader, writer = os.pipe()
    os.close(reader)
    with tempfile.TemporaryFile() as source:
        source.write(LINES + b"show 1\n" * 100_000)
        source.seek(0)
        child = subprocess.Popen([program, "script"], stdin=source, stdout=writer, stderr=subprocess.PIPE)
        os.close(writer)
        _, err = child.communicate(timeout=60)
    if child.returncode != 5:
        return f"status {child.returncode}"
    return None if err.count(b"\n") <= 1 else f"{err.count(10)} lines on standard error"


def from_folder(program):
    """The status where standard input cannot be read."""
    folder = os.open(TOP, os.O_RDONLY)
    done = run(program, folder)
    os.close(folder)
    return None if (done.returncode, done.stdout) == (4, b"") else f"status {done.returncode}"


def usage(program):
    """Wrong words: a text on standard error alone, and status 2."""
    for words in [[], ["scripts"], ["script", "more"]]:
        done = subprocess.run([program] + words, stdin=subprocess.DEVNULL, capture_output=True, timeout=60)
        if done.returncode != 2 or done.stdout or not done.stderr:
            return f"status {done.returncode} for {words}"
    return None


# A settings' file, or None where there is none; then how the program ends, and what it writes.
SETTINGS = [
    ("no file", None, 3, b"bad contest: no config\n"),
    ("good settings", b'{"lease": 7}', 0, REPLIES),
    ("an empty file", b"", 3, b"bad contest: farm.json: not json\n"),
    ("an unknown key", b'{"leases": 7}', 3, b"bad contest: farm.json: unknown key leases\n"),
    ("a bad value", b'{"lease": 0}', 3, b"bad contest: farm.json: bad value lease\n"),
    ("a file of 16 MiB", b" " * (1 << 24), 3, b"bad contest: farm.json: not json\n"),
]


def configured(program, path):
    words = [program, "script", "--config", path]
    done = subprocess.run(words, input=LINES, capture_output=True, timeout=60)
    return done.returncode, done.stdout


def by_settings(program, text, status, want):
    """What is written by the settings of a file of this text."""
    with tempfile.TemporaryDirectory() as folder:
        path = os.path.join(folder, "farm.json")
        if text is not None:
            with open(path, "wb") as settings:
                settings.write(text)
        got = configured(program, path)
    return None if got == (status, want) else f"status {got[0]}, wrote {got[1][:200]!r}"


def by_other_files(program):
    """A folder, a file that is too large, and a name that the system refuses."""
    with tempfile.TemporaryDirectory() as folder:
        large = os.path.join(folder, "large")
        with open(large, "wb") as settings:
            settings.truncate((1 << 24) + 1)
        cases = [
            (folder, (3, b"bad contest: no config\n")),
            (large, (3, b"bad contest: too large " + large.encode() + b"\n")),
            ("a" * 5000, (7, b"")),
        ]
        for path, want in cases:
            got = configured(program, path)
            if got != want:
                return f"status {got[0]}, wrote {got[1][:200]!r} for {path[:60]}"
    return None


def compared(done, want):
    if done.returncode != 0:
        return f"status {done.returncode}"
    if done.stdout != want:
        return f"wrote {done.stdout[:200]!r}"
    return None if not done.stderr else "text on standard error"


def main():
    program, _ = program_and_numbers(sys.argv[1:])
    looks = []
    for name, text, want in TEXTS:
        looks.append((f"file: {name}", compared(from_file(program, text), want)))
        looks.append((f"pipe: {name}", compared(from_pipe(program, text), want)))
    looks.append(("pipe: three bytes at a time", compared(from_slow_pipe(program, LINES * 1), REPLIES)))
    looks.append(("terminal: each reply at once", at_terminal(program)))
    looks.append(("closed pipe: status 5, no storm", to_closed_pipe(program)))
    looks.append(("input that cannot be read: status 4", from_folder(program)))
    looks.append(("wrong words: usage and status 2", usage(program)))
    for name, text, status, want in SETTINGS:
        looks.append((f"settings: {name}", by_settings(program, text, status, want)))
    looks.append(("settings: a folder, a large file, a refused name", by_other_files(program)))
    for name, fault in looks:
        print(f"{'ok  ' if fault is None else 'NOT '} {name}{'' if fault is None else ': ' + fault}")
    return 1 if any(fault for _, fault in looks) else 0


if __name__ == "__main__":
    sys.exit(main())
