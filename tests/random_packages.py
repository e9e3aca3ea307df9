#!/usr/bin/env python3
"""Compares `package_info` with a model of `problem.yaml` and `domjudge-problem.ini` on texts drawn at random.

    tests/random_packages.py [TURNS [SEED]]

Some texts are also cut at each byte. The status is 1 where a reply is not the model's, and then the text is printed.
"""

import os
import random
import re
import subprocess
import sys
import tempfile

sys.dont_write_bytecode = True

from package_model import Fault, Yaml, read_ini  # noqa: E402
from place import TOP  # noqa: E402

PROGRAM = os.path.join(TOP, "crates", "package_info", "out", "package_info")

SCALARS = [b"", b"a", b"Two words", b"'It''s'", b"'open", b'"q\\n"', b'"\\t\\\\\\""', b'"\\x"', b'"open', b'"open\\', b"a # c", b"a#c",
           b"# c", b"'a' # c", b"'a'#c", b"'a' b", b"''", b"|", b"> x", b"[a]", b"&a", b"*a", b"!a", b"{a: b}", b"a: b", b"-", b"  a  "]
VALIDATIONS = [b"default", b"custom", b"custom interactive", b"custom score", b"custom  x score", b"customs", b"Default", b"'default'", b"' custom'"]
FLAGS = [b"case_sensitive", b"float_tolerance 1e-6", b"", b"'case_sensitive'"]
# Those of these flags, and of their beginnings, that are read.
FLAGS_READ = [b"", b"case_sensitive", b"float_tolerance 1e-6", b"float_tolerance 1"]
SIZES = [b"1", b"0", b"256", b"257", b"1000000", b"1000001", b"007", b"x", b"'5'", b"-1", b"+1", b"1.0", b"", b"64 # c", b"[", b"5 5"]
BRACES = [b"{}", b"{ }", b"{memory: 5}", b"{memory: 5, output: 6}", b"{memory: 5,output: 65}", b"{x: y, memory: 300} # c", b"{memory: 5, memory: 6}",
          b"{memory: 0}", b"{memory: '5'}", b"{memory: 5", b"{memory: 5} x", b"{memory: 5}}", b"{memory}", b"{memory: 5, }", b"{memory:5}", b"{x: [}"]
LIMITS = [b"", b"", b"", b"5", b"''", b"'x", b"# c", b"|"]
LIMIT_KEYS = [b"memory", b"output", b"memory", b"output", b"time_multiplier", b"memory ", b""]
TIMES = [b"1", b"0.001", b"0.0001", b"0", b"1000", b"1000.0", b"1000.001", b"'2'", b'"0.5"', b"'2", b"' 2'", b"2 ", b".5", b"1.", b"007.5", b"x", b"", b"'"]


class Drawn:
    """Texts drawn by a seed."""

    def __init__(self, seed):
        self.random = random.Random(seed)

    def pick(self, choices):
        return self.random.choice(choices)

    def space(self):
        return b" " * self.pick([1, 1, 1, 2])

    def indent(self):
        return self.pick([b"  "] * 12 + [b" ", b"    ", b"\t", b" \t"])

    def block(self, content):
        return [self.indent() + content() for _ in range(self.random.randrange(4))]

    def limit(self):
        return self.pick(LIMIT_KEYS) + self.pick([b": ", b": ", b": ", b":", b":  "]) + self.pick(SIZES)

    def entry(self):
        part = self.random.randrange(12)
        if part <= 2:
            below = self.block(lambda: self.pick([b"en: Name", b"en: 'a", b"Name", b"x:", b"'a' b"])) if self.random.randrange(2) else []
            return [b"name:" + (b"" if below else self.space() + self.pick(SCALARS))] + below
        if part <= 4:
            return [b"validation:" + self.space() + self.pick(VALIDATIONS)]
        if part == 5:
            return [b"validator_flags:" + self.space() + self.pick(FLAGS)]
        if part <= 8:
            if self.random.randrange(3) == 0:
                return [b"limits: " + self.pick(BRACES)]
            return [b"limits:" + self.space() + self.pick(LIMITS)] + self.block(self.limit)
        if part == 9:
            return [b"license:" + self.space() + self.pick(SCALARS)] + self.block(lambda: self.pick([b"x", b"- y: z", b"\tz"])) + self.pick([[], [b"- a"], [b"-"], [b"-a"]])
        if part == 10:
            return [self.pick([b"", b"  ", b"# c", b"  # c", b"\t", b"---", b"key", b"key :x", b"a:b", b": x", b" x", b"- a"])]
        return [self.pick([b"name: again", b"memory: 5", b"author: x"])]

    def yaml(self):
        lines = [line for _ in range(self.random.randrange(6)) for line in self.entry()]
        start = self.pick([b""] * 8 + [b"\xef\xbb\xbf", b"---\n"])
        return start + b"".join(line + self.pick([b"\n"] * 9 + [b"\r\n"]) for line in lines) + self.pick([b"", b"", b"x: y", b"\r"])

    def ini(self):
        lines = [
            self.pick([b"timelimit", b"timelimit", b" timelimit ", b"Timelimit", b"color"]) + self.pick([b"=", b" = ", b""]) + self.pick(TIMES)
            for _ in range(self.random.randrange(4))
        ]
        return b"".join(line + self.pick([b"\n", b"\n", b"\r\n"]) for line in lines)


# What is told of a faulty line.
WHY = {
    "Tab": "a tab stands in the indentation",
    "Indent": "it is indented, and no such line may stand there",
    "NoColon": "there is no colon behind a key",
    "Repeated": "its key stood before",
    "Open": "a quote is not closed",
    "BadEscape": "a backslash stands before another character",
    "Form": "the value has a form of YAML that is not read",
    "Interactive": "the problem is interactive",
    "Score": "the validator gives scores",
}
BAD_VALUE = re.compile(rb": (memory is|output is|memory or output is) no whole number of MiB |: validation is neither default nor custom\n")


def wanted(yaml, ini):
    """What the program says of a package with these texts, one test, and a validator of its own."""
    try:
        said = Yaml(yaml).said
    except Fault as fault:
        return 1, b"problem.yaml line %d: %s" % (fault.args[0], WHY.get(fault.args[1], "").encode())
    try:
        limit = read_ini(ini)
    except Fault as fault:
        return 1, b"domjudge-problem.ini line %d: timelimit is no number" % fault.args[0]
    if said["validation"] == "default" and said["flags"] not in FLAGS_READ:
        return 1, b": validator_flags: word "
    return 0, b"name %s\nlimits instructions %d pages %d output %d\ncheck %s\ntest secret/1 input 0 answer 0\ntests 1\n" % (
        said["name"], limit * 10_000, said["memory"] * 256, said["output"] << 20, said["validation"].encode())


def is_said(folder, yaml, ini):
    for name, text in [("problem.yaml", yaml), ("domjudge-problem.ini", ini)]:
        with open(os.path.join(folder, name), "wb") as file:
            file.write(text)
    done = subprocess.run([PROGRAM, folder], capture_output=True, check=False)
    status, said = wanted(yaml, ini)
    sound = done.returncode == status and (done.stdout == said if status == 0 else said in done.stderr and not done.stdout)
    # Behind a byte order mark the key of line 1 is not told.
    marked = yaml.startswith(b"\xef\xbb\xbf") and b" line 1: its key takes no such value\n" in done.stderr
    if status == 1 and said.endswith(b": ") and not marked and not BAD_VALUE.search(done.stderr):
        sound = False
    if not sound:
        print(f"problem.yaml: {yaml!r}\ndomjudge-problem.ini: {ini!r}\nwanted {status}: {said!r}\nstatus {done.returncode}: {done.stdout!r} {done.stderr!r}")
    return sound


def texts(turns, seed):
    for turn in range(turns):
        drawn = Drawn(seed + turn)
        yaml, ini = drawn.yaml(), drawn.ini()
        yield yaml, ini
        if turn % 50 == 0:
            yield from ((yaml[:end], ini) for end in range(len(yaml)))
            yield from ((b"", ini[:end]) for end in range(len(ini)))


def main():
    words = [int(word) for word in sys.argv[1:]]
    turns, seed = (words + [2000, 0][len(words):])[:2]
    count = wrong = 0
    with tempfile.TemporaryDirectory() as folder:
        for inner in ["data/secret", "output_validators"]:
            os.makedirs(os.path.join(folder, inner))
        for name, data in [("data/secret/1.in", b""), ("data/secret/1.ans", b""), ("output_validators/check.rv32", bytes(4))]:
            with open(os.path.join(folder, name), "wb") as file:
                file.write(data)
        for yaml, ini in texts(turns, seed):
            count += 1
            if not is_said(folder, yaml, ini):
                wrong += 1
                if wrong == 5:
                    break
    print(f"{count} packages, {wrong} not as the model says")
    return 1 if wrong else 0


if __name__ == "__main__":
    sys.exit(main())
