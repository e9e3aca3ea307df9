#!/usr/bin/env python3
"""Runs `package_info` on the example packages and on folders with one fault each, and looks at what it says.

    tests/packages.py

One line is printed for each look, and the status is 1 where one shows something else than is wanted.
"""

import os
import subprocess
import sys
import tempfile
import time

sys.dont_write_bytecode = True

from package_rows import ECHO, LARGE, ROWS, TOO_LARGE, files_of  # noqa: E402
from place import TOP  # noqa: E402

PROGRAM = os.path.join(TOP, "crates", "package_info", "out", "package_info")
EXAMPLES = os.path.join(TOP, "examples", "packages")

PLAIN = {
    "problem.yaml": "name: Plain\nvalidator_flags: float_tolerance 1e-6\n",
    "domjudge-problem.ini": "timelimit='0.5'\n",
    "data/sample/1.in": "1\n",
    "data/sample/1.ans": "1\n",
    "data/secret/b.in": "22\n",
    "data/secret/b.ans": "2\n",
    "data/secret/a-b.in": "",
    "data/secret/a-b.ans": "",
    "data/secret/a.in": "",
    "data/secret/a.ans": "",
}
PLAIN_SAID = """name Plain
limits instructions 5000000 pages 16384 output 8388608
check default
test sample/1 input 2 answer 2
test secret/a input 0 answer 0
test secret/a-b input 0 answer 0
test secret/b input 3 answer 2
tests 4
"""

# What is changed in the plain package (None takes a file away), and what is said then.
FAULTS = [
    ({"problem.yaml": None}, "there is no problem.yaml"),
    ({"problem.yaml": "name: a\n\tlimits:\n"}, "problem.yaml line 2: a tab stands in the indentation"),
    ({"problem.yaml": "name: a\nvalidation: default\n  x: y\n"}, "problem.yaml line 3: it is indented, and no such line may stand there"),
    ({"problem.yaml": "name: a\nlimits\n"}, "problem.yaml line 2: there is no colon behind a key"),
    ({"problem.yaml": "name: a\nname: b\n"}, "problem.yaml line 2: its key stood before"),
    ({"problem.yaml": "# one\nname: 'a\n"}, "problem.yaml line 2: a quote is not closed"),
    ({"problem.yaml": 'name: "\\a"\n'}, 'problem.yaml line 1: a backslash stands before another character than ", \\, n and t'),
    ({"problem.yaml": "name: [a]\n"}, "problem.yaml line 1: the value has a form of YAML that is not read, or goes on behind its closing quote"),
    ({"problem.yaml": "limits:\n  memory: many\n"}, "problem.yaml line 2: memory is no whole number of MiB from 1 to 1000000"),
    ({"problem.yaml": "limits:\n  output: 0\n"}, "problem.yaml line 2: output is no whole number of MiB from 1 to 1000000"),
    ({"problem.yaml": "limits: {memory: 0}\n"}, "problem.yaml line 1: memory or output is no whole number of MiB from 1 to 1000000"),
    ({"problem.yaml": "validation: fast\n"}, "problem.yaml line 1: validation is neither default nor custom"),
    ({"problem.yaml": "validation: custom interactive\n"}, "problem.yaml line 1: the problem is interactive, and such problems are not judged"),
    ({"problem.yaml": "validation: custom score\n"}, "problem.yaml line 1: the validator gives scores, and such problems are not judged"),
    ({"domjudge-problem.ini": "color=red\ntimelimit=0\n"}, "domjudge-problem.ini line 2: timelimit is no number of seconds from 0.001 to 1000"),
    ({"problem.yaml": "validator_flags: fast\n"}, "problem.yaml: validator_flags: word 1 of the flags is no flag"),
    ({"problem.yaml": "validator_flags: float_tolerance\n"}, "problem.yaml: validator_flags: word 1 of the flags wants a value behind it"),
    ({"problem.yaml": "validator_flags: float_tolerance -1\n"}, "problem.yaml: validator_flags: word 2 of the flags is no tolerance"),
    ({"data/secret/g/testdata.yaml": ""}, "data/secret/g/testdata.yaml: groups of tests are not judged"),
    ({"data/secret/b.ans": None}, "data/secret/b: there is no .ans file beside the .in file"),
    ({name: None for name in PLAIN if name.endswith(".in")}, "there are no tests, which are .in files below data/sample and data/secret"),
    ({f"data/secret/{n}.{end}": "" for n in range(1000) for end in ("in", "ans")}, "there are 1004 tests, and at most 1000 are judged"),
    ({"data/secret/b.ans": "1 1e12\n"},
     "data/secret/b.ans: token 1 (from 0) is a number of 10^12 or more, which a tolerance cannot be used with"),
    ({"problem.yaml": "validation: custom\n"}, "there is no validator in output_validators, for which validation: custom asks"),
    ({"problem.yaml": "validation: custom\n", "output_validators/check.cpp": ""},
     "output_validators/check.cpp: source text is not built: a raw image NAME.rv32 is wanted"),
    ({"problem.yaml": "validation: custom\n", "output_validators/a.rv32": "abc"},
     "output_validators/a.rv32: it is no raw image, which has 1 to 262144 words of 4 bytes"),
    ({"problem.yaml": "validation: custom\n", "output_validators/a.rv32": "", "output_validators/b": ""},
     "there are 2 files and folders in output_validators, where one validator is wanted"),
    ({"data/secret/b.in": "x" * 16_777_217}, "data/secret/b.in: the file has 16777217 bytes, and at most 16777216 are read"),
]

YAML = PLAIN["problem.yaml"]
# What is changed in the plain package, and the notes on it. Behind each note stands a near miss that gives none.
NOTES = [
    ({}, []),
    ({"problem.yaml": YAML + "memroy: 64\n"}, ["problem.yaml line 3: memroy is not read"]),
    ({"problem.yaml": YAML + "# memroy: 64\n"}, []),
    ({"problem.yaml": YAML + "keywords:\n- memroy: 1\n- b\n"}, ["problem.yaml line 3: keywords is not read"]),
    ({"problem.yaml": YAML + "limits:\n  memroy: 64\n"}, ["problem.yaml line 4: limits: memroy is not read"]),
    ({"problem.yaml": YAML + "limits: {memroy: 64}\n"}, ["problem.yaml line 3: limits: memroy is not read"]),
    ({"problem.yaml": YAML + "limits:\n  memory: 64\n"}, []),
    ({"problem.yaml": YAML + "limits:\n  memory: 257\n"}, ["problem.yaml: memory of 257 MiB is cut down to 256, the most that there is"]),
    ({"problem.yaml": YAML + "limits:\n  output: 65\n"}, ["problem.yaml: output of 65 MiB is cut down to 64, the most that there is"]),
    ({"problem.yaml": YAML + "limits:\n  memory: 256\n  output: 64\n"}, []),
    ({"domjudge-problem.ini": "color=red\ntimelimit=1\n"}, ["domjudge-problem.ini line 1: color is not read"]),
    ({"domjudge-problem.ini": "; color=red\ntimelimit=1\n"}, []),
    ({"domjudge-problem.ini": None}, ["domjudge-problem.ini: nothing sets timelimit, so it is 1 second"]),
    ({"domjudge-problem.ini": "# timelimit=1\n"}, ["domjudge-problem.ini: nothing sets timelimit, so it is 1 second"]),
    ({"data/secret/x.ans": ""}, ["data/secret/x.ans: there is no input beside this answer, so it is not read"]),
    ({"data/secret/x.ans": "", "data/secret/x.in": ""}, []),
    ({"data/secret/01.IN": ""}, ["data/secret/01.IN: it ends neither in .in nor in .ans, so it is not read"]),
    ({"data/sample/g/a.desc": ""}, ["data/sample/g/a.desc: it ends neither in .in nor in .ans, so it is not read"]),
    ({"data/1.in": ""}, ["data/1.in: it lies neither in data/sample nor in data/secret, so it is not read"]),
    ({"data/secrets/1.in": "", "data/secrets/1.ans": ""}, ["data/secrets: it is neither data/sample nor data/secret, so it is not read"]),
    ({"output_validators/a.rv32": "1234"}, ["output_validators: problem.yaml does not set validation to custom, so it is not read"]),
    ({"output_validators/a.rv32": "1234", "problem.yaml": "validation: custom\n"}, []),
    ({"output_validators/a.rv32": "\x7fELF", "problem.yaml": "validation: custom\n"},
     ["output_validators/a.rv32: it begins as an ELF file, and is run as a raw image"]),
    ({"output_validators/a.rv32": "\x7fELE", "problem.yaml": "validation: custom\n"}, []),
    ({"problem_statement/problem.tex": "", "submissions/accepted/a.c": "", "output_validator/a": ""}, []),
    ({"problem.yaml": "memroy: 5\nlimits:\n  memory: 512\n", "domjudge-problem.ini": "color=red\n", "data/secret/c.ans": "", "data/secret/A": "",
      "data/x": "", "data/more/y": "", "data/more/z": "", "data/again/x": "", "output_validators/v.cpp": ""},
     ["problem.yaml line 1: memroy is not read", "problem.yaml: memory of 512 MiB is cut down to 256, the most that there is",
      "domjudge-problem.ini line 1: color is not read", "domjudge-problem.ini: nothing sets timelimit, so it is 1 second",
      "data/secret/A: it ends neither in .in nor in .ans, so it is not read",
      "data/secret/c.ans: there is no input beside this answer, so it is not read",
      "data/x: it lies neither in data/sample nor in data/secret, so it is not read",
      "data/again: it is neither data/sample nor data/secret, so it is not read",
      "data/more: it is neither data/sample nor data/secret, so it is not read",
      "output_validators: problem.yaml does not set validation to custom, so it is not read"]),
]


def write(folder, files):
    for name, text in files.items():
        if text is not None:
            path = os.path.join(folder, name)
            os.makedirs(os.path.dirname(path), exist_ok=True)
            with open(path, "w") as file:
                file.write(text)


def run(*words):
    return subprocess.run([PROGRAM, *words], capture_output=True, timeout=120, check=False)


def is_fault(done, said):
    line = done.stderr.decode()
    return done.returncode == 1 and not done.stdout and line.count("\n") == 1 and said in line


def is_told(done, folder, said):
    """Whether this line, and no other one, is told of the package in the folder."""
    return done.returncode == 1 and not done.stdout and done.stderr.decode() == f"package_info: {folder}: {said}\n"


def is_noted(done, notes):
    """Whether the package is told, and these notes on it."""
    return done.returncode == 0 and done.stdout and done.stderr.decode() == "".join(f"note: {note}\n" for note in notes)


def is_said(done, said):
    """Whether this fault is told, or a package with this name, these instructions, this check and these tests."""
    if isinstance(said, str):
        return is_fault(done, said)
    name, instructions, check, tests = said
    lines = done.stdout.decode().splitlines()
    head = [f"name {name}", f"limits instructions {instructions} pages 16384 output 8388608", f"check {check}"]
    return done.returncode == 0 and lines[:3] == head and [line.split(" ")[1] for line in lines[3:-1]] == tests.split(" ")


def rows(top):
    """The rows, and files at the limits of their sizes and numbers."""
    for number, (changes, said) in enumerate(ROWS):
        folder = os.path.join(top, f"row {number}")
        write(folder, files_of(changes))
        yield changes or "no change", said, run(folder)
    for path, said in TOO_LARGE:
        folder = os.path.join(top, f"large {path.replace('/', ' ')}")
        write(folder, {**ECHO, path: "x" * LARGE})
        yield f"{path} with {LARGE} bytes", said, run(folder)
    just = os.path.join(top, "just")
    write(just, {**ECHO, "data/secret/01.in": "x" * (LARGE - 1)})
    yield "a byte less", ("Echo", 100000, "default", "sample/1 secret/01"), run(just)
    for count, said in [(8, ("Echo", 100000, "default", " ".join(f"secret/{n}" for n in range(8)))), (9, "the files of the tests have 285212672 bytes and more, and at most 268435456 are read")]:
        folder = os.path.join(top, f"{count} heavy tests")
        write(folder, {name: text for name, text in ECHO.items() if not name.startswith("data/")})
        for number in range(count):
            for end in ("in", "ans"):
                write(folder, {f"data/secret/{number}.{end}": ""})
                os.truncate(os.path.join(folder, "data", "secret", f"{number}.{end}"), LARGE - 1)
        yield f"{count} tests of twice 16 MiB", said, run(folder)
    many = os.path.join(top, "many")
    write(many, ECHO | {f"data/secret/g/{n}.{end}": "" for n in range(998) for end in ("in", "ans")})
    names = sorted(f"secret/g/{n}" for n in range(998))
    yield "1,000 tests", ("Echo", 100000, "default", " ".join(["sample/1", "secret/01", *names])), run(many)


UNREAD = "a file or folder could not be read"
NO_FILE = "it is a pipe, a socket or a device, and no file"
LEADS_BACK = "it is a link to a folder above itself"
# What is read and is no file, and links that lead back (the target of each link): what is said of a path below them.
SPECIAL = [
    ("a pipe in the place of an input", "data/secret/b.in", None, NO_FILE),
    ("a pipe in the place of problem.yaml", "problem.yaml", None, NO_FILE),
    ("a link to a device", "data/secret/b.ans", "/dev/zero", NO_FILE),
    ("links that lead back", "data/x", ".", LEADS_BACK),
    ("links that lead back further", "data/secret/x", "../..", LEADS_BACK),
]
# What is not read, and a link that leads to another folder.
BESIDE = [
    ("a pipe that is no test", "data/secret/b.txt", None, b"tests 4\n"),
    ("a link to a folder beside", "data/sample/more", "../secret", b"tests 10\n"),
    ("a link above data", "inner", ".", b"tests 4\n"),
]


def special(folder, path, target):
    """The plain package with a pipe at the path, or with a link, and beside it another one of the same target."""
    write(folder, {name: text for name, text in PLAIN.items() if name != path})
    if target is None:
        os.mkfifo(os.path.join(folder, path))
        return
    for place in (path, path + "2"):
        os.symlink(target, os.path.join(folder, place))


def unreadable(folder):
    """A folder of tests that cannot be listed: it leads to itself."""
    write(folder, PLAIN)
    os.symlink("loop", os.path.join(folder, "data", "loop"))


def looks():
    with tempfile.TemporaryDirectory() as top:
        plain = os.path.join(top, "plain")
        write(plain, PLAIN)
        done = run(plain)
        yield "a plain package", done.returncode == 0 and done.stdout.decode() == PLAIN_SAID, done
        for number, (changes, said) in enumerate(FAULTS):
            folder = os.path.join(top, str(number))
            write(folder, {**PLAIN, **changes})
            done = run(folder)
            yield said, is_told(done, folder, said), done
        for number, (changes, notes) in enumerate(NOTES):
            folder = os.path.join(top, f"note {number}")
            write(folder, {**PLAIN, **changes})
            done = run(folder)
            yield f"{len(notes)} notes: {' '.join(notes)[:60] or list(changes)}", is_noted(done, notes), done
        for name, said, done in rows(top):
            yield name, is_said(done, said), done
        deep = os.path.join(top, "deep")
        write(deep, PLAIN)
        inner = os.path.join(deep, "data", "secret", *["d" * 100] * 30)
        write(inner, {"x.in": "", "x.ans": ""})
        done = run(deep)
        yield "30 folders deep", done.returncode == 0 and b"tests 5\n" in done.stdout, done
        loop = os.path.join(top, "loop")
        unreadable(loop)
        done = run(loop)
        yield "a link to itself", is_told(done, loop, f"{UNREAD}: {loop}/data/loop: Too many levels of symbolic links (os error 40)"), done
        for name, path, target, why in SPECIAL:
            folder = os.path.join(top, name)
            special(folder, path, target)
            begun = time.monotonic()
            done = run(folder)
            line = done.stderr.decode()
            named = line.startswith(f"package_info: {folder}: {UNREAD}: {folder}/{path}") and line.endswith(f": {why}\n")
            yield name, done.returncode == 1 and not done.stdout and named and time.monotonic() - begun < 1, done
        odd = os.path.join(top, "odd\n\x1b[31m")
        write(odd, {**PLAIN, "data/secret/a\n\x1b[31mb": ""})
        done = run(odd)
        yield "a note on an odd name", is_noted(done, ["data/secret/a??[31mb: it ends neither in .in nor in .ans, so it is not read"]), done
        os.remove(os.path.join(odd, "problem.yaml"))
        done = run(odd)
        yield "a folder with an odd name", is_told(done, os.path.join(top, "odd??[31m"), "there is no problem.yaml"), done
        for name, path, target, said in BESIDE:
            folder = os.path.join(top, name)
            special(folder, path, target)
            done = run(folder)
            yield name, done.returncode == 0 and said in done.stdout, done
    for name, status, said in [("circle", 0, b"tests 4\n"), ("sum", 0, b"check custom\n"), ("broken", 1, b"")]:
        done = run(os.path.join(EXAMPLES, name))
        yield f"examples/packages/{name}", done.returncode == status and said in done.stdout, done
    done = run()
    yield "usage", done.returncode == 2 and b"\nUsage: package_info" in done.stderr, done


def main():
    sound = True
    for name, good, done in looks():
        said = "" if good else f": status {done.returncode}, wrote {done.stdout[:200]!r}, said {done.stderr[:200]!r}"
        print(f"{'ok  ' if good else 'NOT '} {name}{said}")
        sound = sound and good
    return 0 if sound else 1


if __name__ == "__main__":
    sys.exit(main())
