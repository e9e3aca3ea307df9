"""What may stand in a package's folder, each beside a near miss, and what is said then.

A row's first text says what is changed in the files of `ECHO`, parted by `|`: `PATH=TEXT` for a file with this text, in which
`~` is a line feed, and `PATH` alone for one that is left out. Behind it stands the line of the fault, or the name, the
instructions, the check and the tests of the package.
"""

ECHO = {
    "problem.yaml": "name: Echo\nvalidator_flags: float_tolerance 1e-6\n",
    "domjudge-problem.ini": "timelimit='0.01'\n",
    "data/sample/1.in": "3.14\n",
    "data/sample/1.ans": "3.14\n",
    "data/secret/01.in": "7\n",
    "data/secret/01.ans": "7\n",
    "data/secret/01.desc": "seven\n",
}

LARGE = 16_777_217
READ = ("Echo", 100000, "default", "sample/1 secret/01")

ROWS = [
    ("", READ),
    # problem.yaml
    ("problem.yaml", "there is no problem.yaml"),
    ("problem.yaml|problem.yaml/x=", "there is no problem.yaml"),
    ("problem.yaml=", ("", 100000, "default", "sample/1 secret/01")),
    ("problem.yaml=name: a~name: b~", "problem.yaml line 2"),
    # domjudge-problem.ini
    ("domjudge-problem.ini", ("Echo", 10000000, "default", "sample/1 secret/01")),
    ("domjudge-problem.ini=color=red~timelimit=0~", "domjudge-problem.ini line 2"),
    ("domjudge-problem.ini=timelimit=1000~", ("Echo", 10000000000, "default", "sample/1 secret/01")),
    # flags
    ("problem.yaml=validator_flags: case_sensitive fast~", "validator_flags: word 2 of the flags"),
    ("problem.yaml=validator_flags: float_tolerance~", "validator_flags: word 1 of the flags"),
    ("problem.yaml=validator_flags: float_tolerance -1~", "validator_flags: word 2 of the flags"),
    ("problem.yaml=validation: custom~validator_flags: fast~", "there is no validator"),
    # groups
    ("data/testdata.yaml=", "data/testdata.yaml: groups of tests"),
    ("data/secret/testdata.yaml=|data/secret/g/testdata.yaml=", "data/secret/g/testdata.yaml: groups of tests"),
    ("data/other/testdata.yaml=|data/secret/01.ans", "data/other/testdata.yaml: groups of tests"),
    ("testdata.yaml=|data/secret/a-testdata.yaml=|data/testdata.yaml/x=", READ),
    # answers
    ("data/secret/01.ans", "data/secret/01: there is no .ans file"),
    ("data/secret/01.ans|data/sample/1.ans", "data/sample/1: there is no .ans file"),
    ("data/secret/01.ans|data/secret/01.ans/x=", "data/secret/01: there is no .ans file"),
    ("data/secret/2.ans=|data/3.in=|data/samples/4.in=|data/secret/5.IN=", READ),
    # tests
    ("data/sample/1.in|data/secret/01.in", "there are no tests"),
    ("data/sample/1.in", ("Echo", 100000, "default", "secret/01")),
    ("data/secret/a.in=|data/secret/a.ans=|data/secret/a-b.in=|data/secret/a-b.ans=|data/secret/g/h/x.in=|data/secret/g/h/x.ans=", ("Echo", 100000, "default", "sample/1 secret/01 secret/a secret/a-b secret/g/h/x")),
    ("data/sample/z.in=|data/sample/z.ans=|data/secret/.in=|data/secret/.ans=", ("Echo", 100000, "default", "sample/1 sample/z secret/ secret/01")),
    # wide answers
    ("data/secret/01.ans=1 1000000000000.0~", "data/secret/01.ans: token 1 (from 0)"),
    ("data/secret/01.ans=1 999999999999.9~", READ),
    ("problem.yaml=name: Echo~|data/secret/01.ans=1 1000000000000.0~", READ),
    # validators
    ("output_validators/check.cpp=int", READ),
    ("problem.yaml=validation: custom|output_validators/check.cpp=int", "output_validators/check.cpp: source text"),
    ("problem.yaml=validation: custom|output_validators/check.rv32/main=int", "output_validators/check.rv32: source text"),
    ("problem.yaml=validation: custom|output_validators/a.rv32=1234|output_validators/b=", "there are 2 files and folders in output_validators"),
    ("problem.yaml=validation: custom|output_validators=1234", "there is no validator"),
    ("problem.yaml=validation: custom|output_validators/a.rv32=12345", "output_validators/a.rv32: it is no raw image"),
    ("problem.yaml=validation: custom|output_validators/a.rv32=", "output_validators/a.rv32: it is no raw image"),
    ("problem.yaml=validation: custom~validator_flags: 'a b'|output_validators/a.rv32=1234", ("", 100000, "custom", "sample/1 secret/01")),
    ("problem.yaml=validation: custom|output_validators/.rv32=12345678", ("", 100000, "custom", "sample/1 secret/01")),
    # the order of faults
    ("problem.yaml=x|domjudge-problem.ini=timelimit=0", "problem.yaml line 1"),
    ("problem.yaml=validator_flags: x|data/testdata.yaml=", "validator_flags: word 1 of the flags"),
]

# What is said where this file is too large, by a byte.
TOO_LARGE = [
    ("problem.yaml", f"problem.yaml: the file has {LARGE} bytes"),
    ("domjudge-problem.ini", f"domjudge-problem.ini: the file has {LARGE} bytes"),
    ("data/secret/01.in", f"data/secret/01.in: the file has {LARGE} bytes"),
    ("data/sample/1.ans", f"data/sample/1.ans: the file has {LARGE} bytes"),
    ("data/secret/01.desc", READ),
]


def files_of(changes):
    """The files of `ECHO` with these changes."""
    files = dict(ECHO)
    for change in filter(None, changes.split("|")):
        files.pop(change.partition("=")[0], None)
    for path, sign, text in (change.partition("=") for change in changes.split("|")):
        if sign:
            files[path] = text.replace("~", "\n")
    return files
