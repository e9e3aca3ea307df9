#!/usr/bin/env python3
"""Runs `farm judge` on contest folders of every kind, and looks at the status and at what is said.

    tests/judge.py [PROGRAM]

PROGRAM is the built program, `crates/farm/out/farm` of this repository if none is given. One line is printed for each
look, and the status is 1 where one shows something else than is wanted. Every end but the first says one line on
standard error behind the notes (`tests/reasons.py` looks at what they say), which names the contest's folder where it lies in it, and a faulty command line which word is wrong.
"""

import os
import subprocess
import sys
import tempfile

sys.dont_write_bytecode = True

import judge_model as model  # noqa: E402
import package_model  # noqa: E402
from place import program_and_numbers, without_notes  # noqa: E402

# The realistic contest: two problems, one with a validator of its own, and a submission of every kind of verdict.
REALISTIC = {
    "problems/echo/problem.yaml": "name: Echo\nvalidator_flags: float_tolerance 1e-6\n",
    "problems/echo/domjudge-problem.ini": "timelimit='0.01'\n",
    "problems/echo/data/sample/1.in": "3.14\n",
    "problems/echo/data/sample/1.ans": "3.14\n",
    "problems/echo/data/secret/01.in": "7\n",
    "problems/echo/data/secret/01.ans": "7\n",
    "problems/guess/problem.yaml": "validation: custom\n",
    "problems/guess/domjudge-problem.ini": "timelimit='0.01'\n",
    "problems/guess/output_validators/guess.rv32": model.GUESS,
    "problems/guess/data/sample/1.in": "4\n",
    "problems/guess/data/sample/1.ans": "4\n",
    "problems/guess/data/secret/01.in": "4\n",
    "problems/guess/data/secret/01.ans": "4\n",
    "submissions/echo.rv32": model.ECHO,
    "submissions/silent.rv32": model.SILENT,
    "submissions/loop.rv32": model.LOOP,
    "submissions/broken.rv32": model.BROKEN,
    "submissions/nine.rv32": model.byte(57),
    "submissions/three.rv32": model.byte(51),
    "submissions.txt": "1 alpha echo echo.rv32\n2 beta echo silent.rv32\n3 gamma echo loop.rv32\n4 delta echo broken.rv32\n"
                       "5 alpha guess echo.rv32\n6 beta guess nine.rv32\n7 gamma guess three.rv32\n",
}
TABLE = (b"1 alpha echo correct\n2 beta echo no-output\n3 gamma echo timelimit\n4 delta echo compiler-error\n"
         b"5 alpha guess correct\n6 beta guess judging-error\n7 gamma guess wrong-answer\n")
# The changes that leave nothing of it.
NOTHING = {name: None for name in REALISTIC}
LARGE = (1 << 24) + 1


class Size(int):
    """A file of so many zeros, without a place on the disk."""


class Link(str):
    """A link to a path."""


def write(folder, files):
    for name, data in files.items():
        if data is None:
            continue
        path = os.path.join(os.fsencode(folder), os.fsencode(name))
        os.makedirs(os.path.dirname(path), exist_ok=True)
        if isinstance(data, Link):
            os.symlink(os.fsencode(data), path)
        elif isinstance(data, Size):
            with open(path, "wb") as file:
                file.truncate(data)
        else:
            with open(path, "wb") as file:
                file.write(data if isinstance(data, bytes) else data.encode())


def judged(program, folder, hosts="0"):
    return ended(program, ["judge", folder, "--hosts", hosts])


def ended(program, words, **more):
    """The status, what was written to standard output, and to standard error but notes."""
    more = {"stdin": subprocess.DEVNULL, "stdout": subprocess.PIPE} | more
    done = subprocess.run([program, *words], stderr=subprocess.PIPE, timeout=120, check=False, **more)
    return done.returncode, done.stdout or b"", without_notes(done.stderr)


def fault_of(got, status, written, said=b""):
    """What is wrong with an end, or None."""
    if got[0] != status:
        return f"status {got[0]}, wrote {got[1][:200]!r}, said {got[2][:200]!r}"
    if written is not None and got[1] != written:
        return f"wrote {got[1][:200]!r}"
    if status != 2 and got[2].count(b"\n") != (1 if status else 0):
        return f"said {got[2][:200]!r}"
    return None if said in got[2] else f"said {got[2][:200]!r}"


# The changes of the realistic contest (None takes a file away), and the text behind `bad contest: `.
def faults():
    listed = REALISTIC["submissions.txt"]
    yield {"farm.json": "{"}, "farm.json: not json"
    yield {"farm.json": "[]"}, "farm.json: not json"
    yield {"farm.json": ""}, "farm.json: not json"
    yield {"farm.json": '{"hosts": 1}'}, "farm.json: unknown key hosts"
    yield {"farm.json": '{"a\\u0001b\\u007f": 1}'}, "farm.json: unknown key a?b?"
    yield {"farm.json": '{"results_prio": {"fine": 1}}'}, "farm.json: unknown key fine"
    yield {"farm.json": '{"lease": 0}'}, "farm.json: bad value lease"
    yield {"farm.json": '{"results_prio": {"correct": 1000}}'}, "farm.json: bad value correct"
    yield {"farm.json": '{"instructions_per_second": 999}'}, "farm.json: bad value instructions_per_second"
    yield {"farm.json": '{"problem_modes": {"echo": "always"}}'}, "farm.json: bad value echo"
    yield {"farm.json": '{"problem_modes": {"no.name": "lazy"}}'}, "farm.json: unknown key no.name"
    yield {"farm.json": '{"lease": 0}', "problems/a b/problem.yaml": ""}, "farm.json: bad value lease"
    yield {"farm.json": Size(LARGE)}, "too large farm.json"
    yield {"problems/a b/problem.yaml": ""}, "bad name a b"
    yield {"problems/zz.1/x": "", "problems/echo.2/x": ""}, "bad name echo.2"
    yield {f"problems/{'n' * 33}/x": ""}, f"bad name {'n' * 33}"
    yield {"problems/a\x01\x7fb/x": "", "problems/echo/problem.yaml": None}, "bad name a??b"
    yield {f"problems/p{n}/x": "" for n in range(999)} | {"problems/echo/problem.yaml": None}, "too many problems 1001"
    yield {"submissions.txt": None}, "no submissions.txt"
    yield {"submissions.txt": None, "submissions.txt/x": ""}, "no submissions.txt"
    yield {"submissions.txt": Size(LARGE)}, "too large submissions.txt"
    yield {"submissions.txt": listed + "8 alpha other echo.rv32\n"}, "line 8: no problem"
    yield {"submissions.txt": "# one\n\n  \n" + listed + "8 alpha other echo.rv32"}, "line 11: no problem"
    yield {"submissions.txt": listed + "8 alpha echo none.rv32\n"}, "line 8: no image"
    yield {"submissions.txt": listed + "8 alpha echo folder\n", "submissions/folder/x": ""}, "line 8: no image"
    yield {"submissions.txt": "1 a echo none.rv32\n2 a other echo.rv32\n3 a echo .x\n4 a\n"}, "line 3: bad line"
    yield {"submissions.txt": "1 a echo none.rv32\n2 a other echo.rv32\n3 a other none.rv32\n"}, "line 2: no problem"
    yield {"submissions.txt": "".join(f"{n} a echo e\n" for n in range(1, 100_002)), "submissions/e": b""}, "too many submissions 100001"
    yield from package_faults()
    # Each package may have 256 MiB of tests, and their links lead to one file: five packages have more than 1 GiB.
    tests = {f"problems/p{p}/data/secret/{n}.{end}": Link("../../../../large") for p in range(5) for n in range(8) for end in ("in", "ans")}
    more = {f"problems/p{p}/problem.yaml": "" for p in range(5)} | {"large": Size(1 << 24)}
    yield NOTHING | more | tests | {"submissions.txt": ""}, f"too much {(1 << 30) + (1 << 24)}"


def package_faults():
    def echo(changes, said):
        return {f"problems/echo/{name}": data for name, data in changes.items()}, f"problem echo: {said}"

    tests = ["data/sample/1.in", "data/sample/1.ans", "data/secret/01.in", "data/secret/01.ans"]
    yield echo({"problem.yaml": None}, "no problem.yaml")
    yield echo({"problem.yaml": "name: a\nname: b\n"}, "problem.yaml line 2")
    yield echo({"domjudge-problem.ini": "color=red\ntimelimit=0\n"}, "domjudge-problem.ini line 2")
    yield echo({"problem.yaml": "validator_flags: case_sensitive fast\n"}, "flags word 2")
    yield echo({"data/secret/g/testdata.yaml": ""}, "groups secret/g/testdata.yaml")
    yield echo({"data/secret/01.ans": None}, "missing answer secret/01")
    yield echo({"data/secret/a\tb.in": ""}, "missing answer secret/a?b")
    yield echo({name: None for name in tests}, "no tests")
    yield echo({f"data/secret/x{n}.{end}": "" for n in range(999) for end in ("in", "ans")}, "too many tests 1001")
    # The last file passes the limit: eight tests of 32 MiB, and 14 bytes of the others before it.
    large = {f"data/secret/{n}.{end}": Link("../../../../large") for n in range(8) for end in ("in", "ans")}
    changes, said = echo(large, f"too much {14 + (1 << 28)}")
    yield changes | {"large": Size(1 << 24)}, said
    yield echo({"data/secret/01.ans": "1 2\n1e12\n"}, "wide answer secret/01 token 2")
    yield echo({"data/secret/01.in": Size(LARGE)}, "too large data/secret/01.in")
    yield echo({"problem.yaml": Size(LARGE)}, "too large problem.yaml")
    place = "problems/guess/output_validators/"
    for changes, said in [
        ({"guess.rv32": None}, "no validator"),
        ({"other.rv32": model.GUESS}, "many validators 2"),
        ({"guess.rv32": None, "check.cpp": ""}, "source validator check.cpp"),
        ({"guess.rv32": None, "guess.rv32/x": ""}, "source validator guess.rv32"),
        ({"guess.rv32": b"abc"}, "bad validator guess.rv32"),
        ({"guess.rv32": b""}, "bad validator guess.rv32"),
        ({"guess.rv32": bytes((1 << 20) + 4)}, "bad validator guess.rv32"),
        ({"guess.rv32": Size(LARGE)}, "too large output_validators/guess.rv32"),
    ]:
        yield {place + name: data for name, data in changes.items()}, f"problem guess: {said}"
    # The first package in byte order is told, whichever fault comes later in one.
    yield {"problems/echo/data/secret/01.ans": None, "problems/guess/problem.yaml": None}, "problem echo: missing answer secret/01"
    yield {"problems/B/x": "", "problems/echo/problem.yaml": None}, "problem B: no problem.yaml"


# Lines that are none, in the place of line 8.
BAD_LINES = [
    b"8 alpha echo", b"8 alpha echo echo.rv32 more", b"8  alpha echo echo.rv32", b"8 alpha echo  echo.rv32", b" 8 alpha echo echo.rv32",
    b"8 alpha echo echo.rv32 ", b"8\talpha echo echo.rv32", b"08 alpha echo echo.rv32", b"7 alpha echo echo.rv32", b"9 alpha echo echo.rv32",
    b"0 alpha echo echo.rv32", b"-8 alpha echo echo.rv32", b"+8 alpha echo echo.rv32", b"x alpha echo echo.rv32", b"8 al.pha echo echo.rv32",
    b"8 %b echo echo.rv32" % (b"a" * 33), b"8 alpha ec!ho echo.rv32", b"8 alpha %b echo.rv32" % (b"a" * 33), b"8 alpha echo .rv32",
    b"8 alpha echo ../echo.rv32", b"8 alpha echo a/b", b"8 alpha echo %b" % (b"a" * 65), b"8 alpha echo echo.rv32\r", b"8 alpha echo \xc3\xa9",
    b"8 alpha echo echo.rv32\0", b" # no comment", b"\t", b"8", b"alpha echo echo.rv32", b"18446744073709551624 alpha echo echo.rv32",
    b"4294967304 alpha echo echo.rv32",
]

# Words that are no command line.
USAGES = [
    ["judge"], ["judge", "c"], ["judge", "--hosts", "0"], ["judge", "c", "--hosts"], ["judge", "c", "--journal"], ["judge", "c", "--hosts", "17"],
    ["judge", "c", "--hosts", "1", "--journal", "--journal"], ["judge", "c", "--hosts", "1", "--journal=1"], ["judge", "c", "--hosts", "--journal"],
    ["judge", "c", "--hosts", "00"], ["judge", "c", "--hosts", "-1"], ["judge", "c", "--hosts", "x"], ["judge", "c", "--hosts="],
    ["judge", "c", "--hosts", ""], ["judge", "c", "--hosts", "0", "--hosts", "0"], ["judge", "c", "--hosts=0", "--hosts", "0"],
    ["judge", "c", "d", "--hosts", "0"], ["judge", "", "--hosts", "0"], ["judge", "-", "--hosts", "0"], ["judge", "--", "c", "--hosts", "0"],
    ["judge", "c", "--hosts", "0", "--config", "x"], ["judge", "c", "--hosts", "0", "-x"], ["judge", "c", "--hosts", "4294967296"],
    ["judge", "c", "--host", "0"], ["judges", "c", "--hosts", "0"], ["script", "c", "--hosts", "0"],
]


class Looks:
    def __init__(self, program, top):
        self.program, self.top, self.count = program, top, 0

    def contest(self, changes):
        """A folder with the realistic contest, but for some changes."""
        self.count += 1
        folder = os.path.join(self.top, str(self.count))
        write(folder, REALISTIC | changes)
        return folder

    def refused(self, changes, text):
        folder = self.contest(changes)
        return fault_of(judged(self.program, folder), 3, b"bad contest: " + text.encode() + b"\n", os.fsencode(folder))

    def table(self, changes, table, hosts="0"):
        return fault_of(judged(self.program, self.contest(changes), hosts), 0, table)

    def all(self):
        for hosts in range(17):
            yield f"0: the realistic contest with {hosts} hosts", self.table({}, TABLE, str(hosts))
        yield from self.good()
        for changes, text in faults():
            yield f"3: {text[:60]}", self.refused(changes, text)
        for line in BAD_LINES:
            listed = REALISTIC["submissions.txt"].encode() + line + b"\n9 alpha echo none.rv32\n"
            yield f"3: the line {line[:40]!r}", self.refused({"submissions.txt": listed}, "line 8: bad line")
        yield "3: a folder that is absent", fault_of(
            judged(self.program, os.path.join(self.top, "none")), 3, b"bad contest: no submissions.txt\n", b"none")
        yield "3: a file in the folder's place", fault_of(
            judged(self.program, os.path.join(self.top, "1", "submissions.txt")), 3, b"bad contest: no submissions.txt\n", b"submissions.txt")
        yield from self.words()
        yield from self.streams()
        yield from self.unreadable()
        yield from self.cuts()
        yield from self.cut_images()

    def good(self):
        yield "0: no problems and no submissions", self.table(NOTHING | {"submissions.txt": ""}, b"")
        yield "0: hosts with nothing to do", self.table(NOTHING | {"submissions.txt": ""}, b"", "16")
        yield "0: a folder of problems that is empty", self.table(NOTHING | {"submissions.txt": "# none\n\n", "problems/notes.txt": "no problem"}, b"")
        yield "0: problems without submissions", self.table({"submissions.txt": ""}, b"")
        yield "3: submissions without problems", self.refused(NOTHING | {"submissions.txt": "1 a echo x\n"}, "line 1: no problem")
        yield "0: no line feed at the end", self.table({"submissions.txt": REALISTIC["submissions.txt"][:-1]}, TABLE)
        yield "0: blank lines and comments", self.table({"submissions.txt": "# a\n" + REALISTIC["submissions.txt"].replace("\n", "\n\n#b\n  \n")}, TABLE)
        yield "0: settings, of which the last value counts", self.table({"farm.json": '{"lease": 0, "lease": 7}'}, TABLE)
        yield "0: every test is run", self.table({"farm.json": '{"lazy_eval_results": false}'}, TABLE)
        modes = '{"problem_modes": {"echo": "on-demand", "guess": "full"}}'
        yield "0: all of a contest on demand is asked for", self.table({"farm.json": modes}, TABLE)
        yield "0: verification withholds nothing here", self.table({"farm.json": '{"verification_required": true}'}, TABLE)
        yield "0: a result that counts as another", self.table(
            {"farm.json": '{"results_remap": {"timelimit": "no-output", "judging-error": "correct"}}'},
            TABLE.replace(b"timelimit", b"no-output").replace(b"judging-error", b"correct"))
        late = {"farm.json": '{"instructions_per_second": 1500}'}  # 15 instructions, and ECHO of "7" and a line feed costs 16
        yield "0: one instruction too few", self.table(late, TABLE.replace(b"echo correct", b"echo timelimit").replace(b"guess correct", b"guess timelimit"))
        images = {"size-1M": bytes(1 << 20), "over": bytes((1 << 20) + 4), "size-16M": Size(1 << 24), "over-16M": Size(LARGE), "none": b"",
                  "text": "print(7)", "names": "print(7)\n", "flood": model.FLOOD, "greedy": model.GREEDY, "fail": model.FAIL}
        verdicts = ["run-error", "compiler-error", "compiler-error", "compiler-error", "compiler-error", "run-error", "compiler-error",
                    "output-limit", "memory-limit", "run-error"]
        limits = {"problems/echo/problem.yaml": "limits:\n  memory: 2\n  output: 1\n", "problems/echo/domjudge-problem.ini": "timelimit=1\n"}
        yield "0: images of every size", self.table(
            limits | {f"submissions/{name}": data for name, data in images.items()}
            | {"submissions.txt": "".join(f"{n} team echo {name}\n" for n, name in enumerate(images, 1))},
            "".join(f"{n} team echo {verdict}\n" for n, verdict in enumerate(verdicts, 1)).encode())

    def words(self):
        folder = self.contest({})
        for words in [["--hosts=0", folder], ["--hosts", "2", folder], [folder, "--hosts=3"], [folder + "/", "--hosts", "0"]]:
            yield f"0: {[word.replace(folder, 'c') for word in words]}", fault_of(ended(self.program, ["judge", *words]), 0, TABLE)
        yield "0: a path from here", fault_of(ended(self.program, ["judge", ".", "--hosts", "0"], cwd=folder), 0, TABLE)
        for words in USAGES:
            yield f"2: {words}", fault_of(ended(self.program, words, cwd=self.top), 2, b"", b"Usage: farm")
        yield "2: a name that is no UTF-8", fault_of(ended(self.program, ["judge", b"\xff", "--hosts", "0"]), 2, b"", b"Usage: farm")

    def streams(self):
        folder = self.contest({})
        with open("/dev/full", "wb") as full:
            yield "5: a full device", fault_of(ended(self.program, ["judge", folder, "--hosts", "0"], stdout=full), 5, None, b"standard output")
        reader, writer = os.pipe()
        os.close(reader)
        yield "5: a closed output", fault_of(ended(self.program, ["judge", folder, "--hosts", "0"], stdout=writer), 5, None, b"standard output")
        os.close(writer)

    def unreadable(self):
        yield "7: a name that the system refuses", fault_of(judged(self.program, "a" * 5000), 7, b"", b"aaa")
        os.symlink("loop", os.path.join(self.top, "loop"))
        yield "7: a folder that leads to itself", fault_of(judged(self.program, os.path.join(self.top, "loop")), 7, b"", b"loop")
        broken = Link("/proc/self/mem")
        for name in ["farm.json", "submissions.txt", "submissions/echo.rv32", "problems/echo/problem.yaml", "problems/echo/domjudge-problem.ini",
                     "problems/echo/data/sample/1.in", "problems/echo/data/secret/01.ans", "problems/guess/output_validators/guess.rv32"]:
            folder = self.contest({name: broken})
            yield f"7: {name} cannot be read", fault_of(judged(self.program, folder), 7, b"", os.fsencode(folder))
        for name in ["problems/loop", "problems/echo/data/secret/loop"]:
            folder = self.contest({name: Link("loop")})
            yield f"7: {name} leads to itself", fault_of(judged(self.program, folder), 7, b"", os.fsencode(folder))
        folder = self.contest({b"problems/\xff/x": ""})
        yield "7: a folder whose name is no UTF-8", fault_of(judged(self.program, folder), 7, b"", os.fsencode(folder))

    def cuts(self):
        """Each file of a contest cut at each byte is read, or refused by its name."""
        settings = '{"lease": 7, "results_prio": {"correct": 5}, "lazy_eval_results": true}'
        folder = self.contest({"farm.json": settings})
        prefixes = {"problems/echo/": b"problem echo: ", "problems/guess/": b"problem guess: ", "farm.json": b"farm.json: ", "submissions.txt": b"line "}
        for name, prefix in prefixes.items():
            for path in [path for path in REALISTIC | {"farm.json": settings} if path.startswith(name)]:
                yield f"each cut of {path}", self.cut(folder, path, prefix)

    def cut(self, folder, path, prefix):
        path_there = os.path.join(folder, path)
        with open(path_there, "rb") as file:
            whole = file.read()
        for end in range(len(whole)):
            write(folder, {path: whole[:end]})
            got = judged(self.program, folder)
            if got[0] == 0:
                good = fault_of(got, 0, None) is None and got[1].count(b"\n") <= 7
            else:
                good = fault_of(got, 3, None) is None and got[1].startswith(b"bad contest: " + prefix)
            wanted = self.refusal(path, whole[:end])
            if not good or (wanted is not None and got[1] != b"bad contest: " + prefix + wanted + b"\n"):
                return f"cut to {end} bytes: status {got[0]}, wrote {got[1]!r}, said {got[2]!r}"
        write(folder, {path: whole})
        return None

    def refusal(self, path, text):
        """What a text is refused for, where a model says it."""
        name = os.path.basename(path)
        read = {"problem.yaml": package_model.Yaml, "domjudge-problem.ini": package_model.read_ini}.get(name)
        if read:
            try:
                read(text)
            except package_model.Fault as fault:
                return b"%b line %d" % (name.encode(), fault.args[0])
        return None

    def cut_images(self):
        """Each beginning of an image is a submission of its own; the model says what becomes of it."""
        code = model.ECHO
        images = [code[:end] for end in range(len(code) + 1)]
        for whole in [model.elf([(0x10054, code, len(code) + 8)], 0x10054), model.elf([(0x20000, b"7\n", 9), (0x10000, code, len(code))], 0x10000)]:
            images += [whole[:end] for end in range(len(whole) + 1)]
        files = {f"submissions/{n}": data for n, data in enumerate(images, 1)}
        files["submissions.txt"] = "".join(f"{n} t echo {n}\n" for n in range(1, len(images) + 1))
        folder = self.contest(files)
        yield "each cut of an image", fault_of(judged(self.program, folder), *model.judge(folder))


def main():
    program, _ = program_and_numbers(sys.argv[1:])
    sound, count = True, 0
    with tempfile.TemporaryDirectory() as top:
        for name, fault in Looks(program, top).all():
            print(f"{'ok  ' if fault is None else 'NOT '} {name}{'' if fault is None else ': ' + fault}")
            sound, count = sound and fault is None, count + 1
    print(f"{count} looks")
    return 0 if sound else 1


if __name__ == "__main__":
    sys.exit(main())
