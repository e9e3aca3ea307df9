#!/usr/bin/env python3
"""Looks at what `farm judge` says on standard error of a contest: the notes, and why a folder is no contest; and beside it
what `farm serve` says, and `farm script` of a file of settings.

    tests/reasons.py [PROGRAM]

PROGRAM is the built program, `crates/farm/out/farm` of this repository if none is given. Whole lines are compared. In the end a
contest with ten mistakes is mended, one after the other, by nothing but what standard error says. One line is printed for each
look, and the status is 1 where one shows something else than is wanted.
"""

import os
import re
import struct
import subprocess
import sys
import tempfile
import time

sys.dont_write_bytecode = True

import judge_model as model  # noqa: E402
from judge import Size, write  # noqa: E402
from place import program_and_numbers  # noqa: E402

# A contest on which there is no note.
PLAIN = {
    "farm.json": '{"problem_modes": {"echo": "full"}}',
    "problems/echo/problem.yaml": "name: Echo\n",
    "problems/echo/domjudge-problem.ini": "timelimit='0.01'\n",
    "problems/echo/data/sample/1.in": "7\n",
    "problems/echo/data/sample/1.ans": "7\n",
    "submissions/a.rv32": model.ECHO,
    "submissions.txt": "# a comment\n1 otters echo a.rv32\n\n2 newts echo a.rv32\n",
}
LISTED = PLAIN["submissions.txt"]


def header(kind=2, machine=243, bits=1, order=1, **fields):
    """An ELF header (System V ABI, "ELF Header") whose one segment is a file of 84 bytes at 0x10000."""
    head = b"\x7fELF" + bytes([bits, order, 1]) + bytes(9)
    count, at = fields.get("count", 1), fields.get("at", 0x10000)
    head += struct.pack("<HHIIIIIHHHHHH", kind, machine, 1, fields.get("entry", 0x10000), 52, 0, 0, 52, fields.get("size", 32), count, 0, 0, 0)
    segment = struct.pack("<IIIIIIII", fields.get("type", 1), fields.get("offset", 0), at, at, 84, fields.get("memory", 84), 5, 0)
    return head + segment * fields.get("segments", 1)


# What stands in `submissions/b`, and what is said of it; None where it is a program.
PROGRAMS = [
    (b"\x13\0\0\0", None),
    (b"", "is empty"),
    (b"print(7)\n", "is text, and nothing is compiled here"),
    (b"\x13\0\0\0\x13", "is no ELF file, and its 5 bytes are no multiple of 4 as those of a raw image"),
    (Size((1 << 20) + 4), "has 1048580 bytes, and a program has at most 1048576"),
    (Size((1 << 24) + 1), "has 16777217 bytes, and a program has at most 1048576"),
    (header(), None),
    (header()[:40], "is an ELF file that is cut off in its header"),
    (header(bits=2, machine=62), "is a 64-bit ELF file for x86-64, and no 32-bit one for RISC-V"),
    (header(bits=2), "is a 64-bit ELF file for RISC-V, and no 32-bit one"),
    (header(bits=2, machine=183), "is a 64-bit ELF file for ARM, and no 32-bit one for RISC-V"),
    (header(bits=2, machine=8), "is a 64-bit ELF file, and no 32-bit one for RISC-V"),
    (header(order=2), "is an ELF file for a big-endian machine"),
    (header(kind=1), "is an ELF object file that was not linked"),
    (header(kind=4), "is an ELF file that is no executable"),
    (header(kind=3), "is an ELF shared library or position-independent executable (link it with -static -no-pie)"),
    (header(machine=3), "is an ELF file for x86, and not for RISC-V"),
    (header(machine=40), "is an ELF file for ARM, and not for RISC-V"),
    (header(machine=62), "is an ELF file for x86-64, and not for RISC-V"),
    (header(machine=8), "is an ELF file for another machine than RISC-V"),
    (header(size=31), "is an ELF file whose program headers have another size than 32"),
    (header(count=17), "is an ELF file with more than 16 program headers"),
    (header(count=2), "is an ELF file that ends before its program headers do"),
    (header(offset=1), "is an ELF file that ends before its segments do"),
    (header(memory=83), "is an ELF file with a segment that has more bytes in the file than in memory"),
    (header(at=0xFFFFFFF0), "is an ELF file with a segment that ends past 2^32"),
    (header(count=2, segments=2), "is an ELF file whose segments overlap in memory"),
    (header(type=2), "is an ELF file without a segment that is loaded"),
    (header(entry=0x10002), "is an ELF file that begins at an address which is no multiple of 4"),
]

# What is changed in the plain contest, and the notes on it.
NOTES = [
    ({}, []),
    ({"problems/echo/problem.yaml": "name: Echo\nlimits:\n  memroy: 64\n"}, ["problem echo: problem.yaml line 3: limits: memroy is not read"]),
    ({"problems/echo/domjudge-problem.ini": None, "problems/add/problem.yaml": "license: cc0\n", "problems/add/data/secret/1.in": "",
      "problems/add/data/secret/1.ans": "", "problems/add/domjudge-problem.ini": "timelimit=1\n"},
     ["problem add: problem.yaml line 1: license is not read",
      "problem echo: domjudge-problem.ini: nothing sets timelimit, so it is 1 second"]),
    ({"problems/echo/data/secret/1.IN": ""}, ["problem echo: data/secret/1.IN: it ends neither in .in nor in .ans, so it is not read"]),
    ({"problems/echo/data/secret/a\n\x1b[31mb\x7f": ""},
     ["problem echo: data/secret/a??[31mb?: it ends neither in .in nor in .ans, so it is not read"]),
    ({"problems/notes.txt": ""}, []),
    ({"farm.json": '{"problem_modes": {"echoo": "full"}}'}, ['farm.json: problem_modes: there is no problem "echoo" in problems/']),
    ({"farm.json": None}, []),
    ({"submissions/unlisted": "no program"}, []),
    # A comment that names a file is no submission.
    ({"submissions/unlisted": "no program", "submissions.txt": LISTED + "# 3 voles echo unlisted\n#3 voles echo unlisted\n"}, []),
    ({"farm.json": '{"problem_modes": {"add": "full", "echo": "lazy", "zoo": "lazy"}}'},
     ['farm.json: problem_modes: there is no problem "add" in problems/', 'farm.json: problem_modes: there is no problem "zoo" in problems/']),
]

# What is changed, and why it is no contest then, between the folder's name and what came of it.
REASONS = [
    ({"farm.json": "{"}, "farm.json: it is no JSON object, or is nested deeper than 127"),
    ({"farm.json": '{"leese": 7}'}, 'farm.json: no setting, kind of result or problem can have the key "leese"'),
    ({"farm.json": '{"lease": 0}'}, "farm.json: the value of lease is not a whole number from 1 to 1000000"),
    ({"farm.json": '{"lazy_eval_results": 1}'}, "farm.json: the value of lazy_eval_results is not true or false"),
    ({"farm.json": '{"verification_required": "no"}'}, "farm.json: the value of verification_required is not true or false"),
    ({"farm.json": '{"instructions_per_second": 999}'},
     "farm.json: the value of instructions_per_second is not a whole number from 1000 to 100000000"),
    ({"farm.json": '{"problem_modes": []}'}, "farm.json: the value of problem_modes is not an object from names of problems to their modes"),
    ({"farm.json": '{"results_prio": 1}'}, "farm.json: the value of results_prio is not an object from kinds of results to numbers"),
    ({"farm.json": '{"results_remap": null}'}, "farm.json: the value of results_remap is not an object from kinds of results to kinds"),
    ({"farm.json": '{"results_prio": {"correct": 1000}}'},
     "farm.json: the value of correct is not a whole number from 0 to 999 in results_prio, or a kind in results_remap"),
    ({"farm.json": '{"le\\u001b[31mese": 7}'}, 'farm.json: no setting, kind of result or problem can have the key "le?[31mese"'),
    ({"farm.json": Size((1 << 24) + 1)}, "farm.json: the file has 16777217 bytes, and at most 16777216 are read"),
    ({"farm.json": '{"problem_modes": {"echo": "always"}}'}, "farm.json: the value of echo is not lazy, full or on-demand"),
    ({"problems/a b/x": ""}, "problems/a b: the name of a problem has 1 to 32 letters, digits, _ and -"),
    ({"problems/a\x1b[31mb/x": ""}, "problems/a?[31mb: the name of a problem has 1 to 32 letters, digits, _ and -"),
    ({f"problems/p{number}/x": "" for number in range(1000)}, "problems has 1001 folders, and a contest has at most 1000 problems"),
    ({"problems/echo/problem.yaml": None}, "problem echo: there is no problem.yaml"),
    ({"problems/echo/problem.yaml": "limits:\n  memory: many\n"},
     "problem echo: problem.yaml line 2: memory is no whole number of MiB from 1 to 1000000"),
    ({"problems/echo/data/secret/1.in": ""}, "problem echo: data/secret/1: there is no .ans file beside the .in file"),
    ({"submissions.txt": None}, "there is no submissions.txt"),
    ({"submissions.txt": "".join(f"{number} otters echo a.rv32\n" for number in range(1, 100_002))},
     "submissions.txt has 100001 submissions, and a contest has at most 100000"),
    ({"submissions.txt": Size((1 << 24) + 1)}, "submissions.txt: the file has 16777217 bytes, and at most 16777216 are read"),
]

# Lines in the place of line 5 of the list, which is to be submission 3, and what is wrong with each.
LINES = [
    (b"3 voles echo a.rv32\r", "ends in a carriage return (CRLF line ends)"),
    (b"\r", "ends in a carriage return (CRLF line ends)"),
    (b"\xef\xbb\xbf3 voles echo a.rv32", "begins with a byte order mark"),
    (b"3\tvoles echo a.rv32", "has a tab, where single spaces are wanted"),
    (b" 3 voles echo a.rv32", "begins with a space"),
    (b" # a comment", "begins with a space"),
    (b"3 voles echo a.rv32 ", "ends in a space"),
    (b"3 voles  echo a.rv32", "has two spaces between words"),
    (b"3 voles echo", "has 3 words, where NUMBER TEAM PROBLEM FILE are wanted"),
    (b"3 voles echo a.rv32 again", "has 5 words, where NUMBER TEAM PROBLEM FILE are wanted"),
    (b"5 voles echo a.rv32", "the number is 5, but the next one is 3"),
    (b"03 voles echo a.rv32", "the number is 03, but the next one is 3"),
    (b"3 vo.les echo a.rv32", "the team vo.les has the character '.'"),
    (b"3 vo\x1b[31mles echo a.rv32", "the team vo?[31mles has the character '\\u{1b}'"),
    (b"3 " + b"v" * 33 + b" echo a.rv32", "the team " + "v" * 33 + " has more than 32 characters"),
    (b"3 voles ec/ho a.rv32", "the problem ec/ho has the character '/'"),
    (b"3 voles echo ../a", "the file ../a begins with a point"),
    (b"3 voles echo a,b", "the file a,b has the character ','"),
    (b"3 voles echo " + b"a" * 65, "the file " + "a" * 65 + " has more than 64 characters"),
    (b"3 voles ad a.rv32", 'there is no problem "ad" in problems/'),
    (b"3 voles echo late.elf", "there is no file submissions/late.elf"),
]

# What cannot be read: the path, a link's target or None for a pipe, and what is said of which path.
UNREAD = [
    ("submissions/a.rv32", None, "submissions/a.rv32: it is a pipe, a socket or a device, and no file"),
    ("problems/echo/data/sample/1.in", "/dev/zero", "problems/echo/data/sample/1.in: it is a pipe, a socket or a device, and no file"),
    ("problems/echo/data/x", ".", "problems/echo/data/x: it is a link to a folder above itself"),
    ("problems/echo/data/loop", "loop", "problems/echo/data/loop: Too many levels of symbolic links (os error 40)"),
    ("problems/echo/data/a\n\x1b[31mb", "a\n\x1b[31mb", "problems/echo/data/a??[31mb: Too many levels of symbolic links (os error 40)"),
    ("farm.json", "/proc/self/mem", "farm.json: Input/output error (os error 5)"),
]

# What stands in a file of settings, or None where there is none, and why it gives none.
SETTINGS = [
    ('{"lease": 7}', None),
    (None, "there is no such file"),
    ("{", "it is no JSON object, or is nested deeper than 127"),
    ('{"lease": 0}', "the value of lease is not a whole number from 1 to 1000000"),
    ('{"leese": 7}', 'no setting, kind of result or problem can have the key "leese"'),
    (Size((1 << 24) + 1), "it has 16777217 bytes, and at most 16777216 are read"),
]


def said(program, *words):
    """The status, and the lines of standard error."""
    done = subprocess.run([program, *words], stdin=subprocess.DEVNULL, capture_output=True, timeout=60, check=False)
    return done.returncode, done.stderr.decode(errors="replace").split("\n")[:-1]


def judged(program, folder):
    return said(program, "judge", folder, "--hosts", "0")


def served(program, folder):
    """What is said of a contest that is served until standard input ends, which is at once."""
    return said(program, "serve", folder, "--port", "0", "--lanes", "1", "--until-input-ends")


def contest(top, name, changes):
    folder = os.path.join(top, name)
    os.makedirs(folder)
    write(folder, PLAIN | changes)
    return folder


def differ(got, wanted):
    return None if got == wanted else f"{got}, and not {wanted}"


def looks(program, top):
    """The name of each look, and what is wrong there."""
    for number, (changes, notes) in enumerate(NOTES):
        folder = contest(top, f"note {number}", changes)
        yield f"notes {notes or list(changes)}", differ(judged(program, folder), (0, [f"note: {note}" for note in notes]))
    for number, (data, fault) in enumerate(PROGRAMS):
        folder = contest(top, f"program {number}", {"submissions/b": data, "submissions.txt": LISTED + "3 voles echo b\n"})
        notes = [f"note: submission 3: submissions/b {fault}; it is a compiler-error"] if fault else []
        yield f"a program that {fault or 'is one'}", differ(judged(program, folder), (0, notes))
    lines = [({"submissions.txt": LISTED.encode() + line + b"\n"}, f"submissions.txt line 5: {wrong}") for line, wrong in LINES]
    for number, (changes, reason) in enumerate(REASONS + lines):
        folder = contest(top, f"reason {number}", changes)
        status, lines = judged(program, folder)
        yield reason[:80], differ((status, lines[-1:]), (3, [f"farm: {folder} is no contest: {reason}; nothing was judged"]))
    for number, (path, target, reason) in enumerate(UNREAD):
        folder = contest(top, f"unread {number}", {path: None})
        special = os.path.join(folder, path)
        os.makedirs(os.path.dirname(special), exist_ok=True)
        os.mkfifo(special) if target is None else os.symlink(target, special)
        begun = time.monotonic()
        status, lines = judged(program, folder)
        slow = "it took over a second" if time.monotonic() - begun > 1 else None
        yield f"{path!r} -> {target}", slow or differ((status, lines[-1:]), (7, [f"farm: {folder} cannot be read: {folder}/{reason}; nothing was judged"]))
    none = os.path.join(top, "nofolder")
    yield "no folder", differ(judged(program, none), (3, [f"farm: {none} is no contest: there is no folder {none}; nothing was judged"]))
    odd = os.path.join(top, "no\n\x1b[31mfolder")
    shown = os.path.join(top, "no??[31mfolder")
    yield "no folder with an odd name", differ(judged(program, odd), (3, [f"farm: {shown} is no contest: there is no folder {shown}; nothing was judged"]))
    yield from serving_looks(program, top)
    yield from settings_looks(program, top)
    yield "ten mistakes", mended(program, os.path.join(top, "mistakes"))


def serving_looks(program, top):
    """The same is told of a contest that is to be served."""
    folder = contest(top, "served", {"problems/echo/domjudge-problem.ini": None})
    status, lines = served(program, folder)
    notes = [line for line in lines if line.startswith("note: ")]
    yield "a note where a contest is served", differ((status, notes), (0, ["note: problem echo: domjudge-problem.ini: nothing sets timelimit, so it is 1 second"]))
    folder = contest(top, "not served", {"submissions.txt": None})
    yield "no contest to be served", differ(served(program, folder), (3, [f"farm: {folder} is no contest: there is no submissions.txt; nobody was served"]))
    folder = contest(top, "unread and not served", {"farm.json": None})
    os.mkfifo(os.path.join(folder, "farm.json"))
    reason = f"farm: {folder} cannot be read: {folder}/farm.json: it is a pipe, a socket or a device, and no file; nobody was served"
    yield "a pipe where a contest is to be served", differ(served(program, folder), (7, [reason]))


def settings_looks(program, top):
    """What is told of a file of settings, with a store and without one."""
    for number, (text, reason) in enumerate(SETTINGS):
        folder = os.path.join(top, f"settings {number}")
        os.makedirs(folder)
        file = os.path.join(folder, "farm.json")
        write(folder, {"farm.json": text})
        wanted = (3, [f"farm: {file} gives no settings: {reason}; no line was read"]) if reason else (0, [])
        for store in [[], ["--store", os.path.join(folder, "store")]]:
            yield f"settings: {reason} {store[:1]}", differ(said(program, "script", "--config", file, *store), wanted)


# ---- a contest with ten mistakes at once

MISTAKES = {
    "farm.json": '{"lease": 0}',
    "problems/echo/problem.yaml": "name: Echo\nlimits:\n  memory: 64MB\n",
    "problems/echo/domjudge-problem.ini": "timelimit=0\n",
    "problems/echo/data/sample/1.in": "7\n",
    "problems/echo/data/sample/1.ans": "7\n",
    "problems/echo/data/secret/2.in": "8\n",
    "submissions/a.rv32": model.ECHO,
    "submissions.txt": "1 otters echo a.rv32\r\n2 newts  echo a.rv32\n4 voles echo a.rv32\n4 her.ons echo a.rv32\n5 otters ecko a.rv32\n6 otters echo b.rv32\n",
}


def edited(folder, file, line, edit):
    """Edits a line, counted from 1, of a file."""
    path = os.path.join(folder, file)
    with open(path, newline="", encoding="ascii") as there:
        lines = there.read().split("\n")
    lines[int(line) - 1] = edit(lines[int(line) - 1])
    with open(path, "w", newline="", encoding="ascii") as there:
        there.write("\n".join(lines))


def word(place, text):
    return lambda line: " ".join(text if at == place else old for at, old in enumerate(line.split(" ")))


# What is said, and what one who reads it does: nothing else is known of the contest.
MENDED = [
    (r"farm\.json: the value of (\w+) is not a whole number from (\d+) to \d+", lambda f, m: write(f, {"farm.json": '{"%s": %s}' % m.groups()})),
    (r"problem (\w+): problem\.yaml line (\d+): (\w+) is no whole number of MiB from 1 to 1000000",
     lambda f, m: edited(f, f"problems/{m[1]}/problem.yaml", m[2], lambda line: re.sub(r": .*", ": 64", line))),
    (r"problem (\w+): domjudge-problem\.ini line (\d+): timelimit is no number of seconds from (\S+) to 1000",
     lambda f, m: edited(f, f"problems/{m[1]}/domjudge-problem.ini", m[2], lambda line: f"timelimit={m[3]}")),
    (r"problem (\w+): (data/\S+): there is no \.ans file beside the \.in file", lambda f, m: write(f, {f"problems/{m[1]}/{m[2]}.ans": "8\n"})),
    (r"submissions\.txt line (\d+): ends in a carriage return .*", lambda f, m: edited(f, "submissions.txt", m[1], lambda line: line.rstrip("\r"))),
    (r"submissions\.txt line (\d+): has two spaces between words", lambda f, m: edited(f, "submissions.txt", m[1], lambda line: line.replace("  ", " "))),
    (r"submissions\.txt line (\d+): the number is \S+, but the next one is (\d+)", lambda f, m: edited(f, "submissions.txt", m[1], word(0, m[2]))),
    (r"submissions\.txt line (\d+): the team (\S+) has the character '(.)'",
     lambda f, m: edited(f, "submissions.txt", m[1], lambda line: line.replace(m[2], m[2].replace(m[3], "_")))),
    (r'submissions\.txt line (\d+): there is no problem "\w+" in problems/', lambda f, m: edited(f, "submissions.txt", m[1], word(2, "echo"))),
    (r"submissions\.txt line \d+: there is no file (submissions/\S+)", lambda f, m: write(f, {m[1]: model.ECHO})),
]


def mended(program, folder):
    """Mends the contest by what is said, and gives what is wrong with that, or None."""
    write(folder, MISTAKES)
    seen = set()
    for _ in range(len(MENDED) + 1):
        status, said = judged(program, folder)
        if status == 0:
            return None if len(seen) == len(MENDED) else f"only {len(seen)} mistakes were told"
        found = re.fullmatch(re.escape(f"farm: {folder} is no contest: ") + "(.*); nothing was judged", said[-1])
        reason = found[1] if found else said[-1]
        for number, (pattern, mend) in enumerate(MENDED):
            match = re.fullmatch(pattern, reason)
            if match:
                mend(folder, match)
                seen.add(number)
                break
        else:
            return f"nobody knows what to do: {reason}"
    return f"it is still no contest: {said}"


def main():
    program, _ = program_and_numbers(sys.argv[1:])
    sound = True
    with tempfile.TemporaryDirectory() as top:
        for name, fault in looks(program, top):
            print(f"{'ok  ' if fault is None else 'NOT '} {name}{'' if fault is None else ': ' + fault}")
            sound = sound and fault is None
    return 0 if sound else 1


if __name__ == "__main__":
    sys.exit(main())
