"""What `farm judge` makes of a contest, written apart from the program.

The machine executes one instruction after the other on a map of pages, with all numbers of Python; decimals are
fractions that are cut; every test of a submission is run, and the verdict is taken of all results. The texts of a
package are read by `package_model.py`. Files of over 16 MiB and more than 1 GiB are no matter of this model.
"""

import json
import math
import os
import re
import struct
from fractions import Fraction

import package_model
from rule_model import KINDS, Rule

UNITS = 10**12
DECIMAL = re.compile(rb"[+-]?(?:[0-9]+(\.)?[0-9]*|(\.)[0-9]+)(?:([eE])([+-]?[0-9]{1,4}))?\Z")
TOKEN = re.compile(rb"[^ \t\n\v\f\r]+")
LIMIT = 1 << 20

# How an operand of an instruction is written.
REGISTER, BASE = re.compile(r"x([0-9]+)\Z"), re.compile(r"(-?[0-9]+)\(x([0-9]+)\)\Z")


class Ended(Exception):
    """How a run ended."""


def signed(value, bits=32):
    value &= (1 << bits) - 1
    return value - (1 << bits) if value >> (bits - 1) else value


# ---------------------------------------------------------------------------------------------------------------------
# Images

def raw_image(data):
    return len(data) % 4 == 0 and 4 <= len(data) <= LIMIT


def read_elf(data):
    """The pieces (address, bytes) and the entry of an executable, or None."""
    if len(data) < 52 or data[:4] != b"\x7fELF" or data[4] != 1 or data[5] != 1:
        return None
    kind, machine = struct.unpack_from("<HH", data, 16)
    entry, table = struct.unpack_from("<II", data, 24)
    entry_size, count = struct.unpack_from("<HH", data, 42)
    if (kind, machine, entry_size) != (2, 243, 32) or count > 16 or table + 32 * count > len(data):
        return None
    pieces, spans = [], []
    for k in range(count):
        kind, offset, at, _, length, size, _, _ = struct.unpack_from("<8I", data, table + 32 * k)
        if kind != 1:
            continue
        if offset + length > len(data) or length > size or at + size > 1 << 32:
            return None
        if size and any(at < end and start < at + size for start, end in spans):
            return None
        if size:
            spans.append((at, at + size))
            pieces.append((at, data[offset : offset + length]))
    if not pieces or entry % 4:
        return None
    return pieces, entry


def image_of(data):
    """The pieces and the entry of a submission's image, or None where it is broken."""
    if len(data) > LIMIT:
        return None
    if data[:4] == b"\x7fELF":
        return read_elf(data)
    return ([(0x10000, data)], 0x10000) if raw_image(data) else None


# ---------------------------------------------------------------------------------------------------------------------
# The machine

class Machine:
    def __init__(self, image, instructions, pages, output, files):
        pieces, self.pc = image
        self.limit, self.most_pages, self.most_output = instructions, pages, output
        self.files = {number: [data, 0] for number, data in files.items()}
        self.x, self.pages, self.output, self.cost = [0] * 32, {}, bytearray(), 0
        self.x[2] = 0x7FFFFFF0
        self.too_large = len({page for at, data in pieces for page in range(at >> 12, (at + len(data) + 4095) >> 12)}) > pages
        if not self.too_large:
            for at, data in pieces:
                self.put(at, data)

    def touch(self, at, length):
        new = {page for page in range(at >> 12, (at + length + 4095) >> 12)} - self.pages.keys()
        if len(self.pages) + len(new) > self.most_pages:
            raise Ended("memory")
        for page in new:
            self.pages[page] = bytearray(4096)

    def get(self, at, length):
        self.touch(at, length)
        return bytes(self.pages[a >> 12][a & 4095] for a in range(at, at + length)) if length < 16 else self.get_long(at, length)

    def get_long(self, at, length):
        data = bytearray()
        while length:
            n = min(length, 4096 - (at & 4095))
            data += self.pages[at >> 12][at & 4095 : (at & 4095) + n]
            at, length = at + n, length - n
        return bytes(data)

    def put(self, at, data):
        self.touch(at, len(data))
        done = 0
        while done < len(data):
            page, start = self.pages[(at + done) >> 12], (at + done) & 4095
            n = min(len(data) - done, 4096 - start)
            page[start : start + n] = data[done : done + n]
            done += n

    def run(self):
        if self.too_large:
            return "memory"
        try:
            while True:
                self.step()
        except Ended as ended:
            return ended.args[0]

    def step(self):
        if self.cost + 1 > self.limit:
            raise Ended("time")
        word = int.from_bytes(self.get(self.pc, 4), "little")
        op, rd, f3, rs1, rs2, f7 = word & 127, word >> 7 & 31, word >> 12 & 7, word >> 15 & 31, word >> 20 & 31, word >> 25
        a, b = self.x[rs1], self.x[rs2]
        imm_i, after, result = signed(word >> 20, 12), self.pc + 4, None
        if op == 0x37:
            result = word & 0xFFFFF000
        elif op == 0x17:
            result = self.pc + (word & 0xFFFFF000)
        elif op == 0x6F:
            offset = (word >> 31) << 20 | (word >> 12 & 255) << 12 | (word >> 20 & 1) << 11 | (word >> 21 & 1023) << 1
            result, after = after, self.jump(self.pc + signed(offset, 21))
        elif op == 0x67 and f3 == 0:
            result, after = after, self.jump((a + imm_i) & ~1)
        elif op == 0x63 and f3 not in (2, 3):
            offset = (word >> 31) << 12 | (word >> 7 & 1) << 11 | (word >> 25 & 63) << 5 | (word >> 8 & 15) << 1
            less = signed(a) < signed(b) if f3 & 6 == 4 else a < b if f3 & 6 == 6 else a == b
            if less != bool(f3 & 1):
                after = self.jump(self.pc + signed(offset, 13))
        elif op == 0x03 and f3 in (0, 1, 2, 4, 5):
            size = 1 << (f3 & 3)
            data = int.from_bytes(self.get(self.aligned(a + imm_i, size), size), "little")
            result = data if f3 & 4 else signed(data, 8 * size)
        elif op == 0x23 and f3 in (0, 1, 2):
            size = 1 << f3
            at = self.aligned(a + signed(f7 << 5 | rd, 12), size)
            self.put(at, (b & ((1 << 8 * size) - 1)).to_bytes(size, "little"))
        elif op == 0x13 and (f3 not in (1, 5) or f7 == 0 or (f3 == 5 and f7 == 0x20)):
            result = self.alu(f3, f7 == 0x20 and f3 == 5, a, rs2 if f3 in (1, 5) else imm_i & 0xFFFFFFFF)
        elif op == 0x33 and (f7 == 0 or (f7 == 0x20 and f3 in (0, 5))):
            result = a - b if f7 and f3 == 0 else self.alu(f3, f7 == 0x20, a, b)
        elif op == 0x33 and f7 == 1:
            result = self.product(f3, a, b)
        elif op == 0x0F and f3 == 0:
            pass
        elif word == 0x00100073:
            raise Ended("trap")
        elif word == 0x73:
            self.call()
            return
        else:
            raise Ended("trap")
        if rd and result is not None:
            self.x[rd] = result & 0xFFFFFFFF
        self.cost += 1
        self.pc = after & 0xFFFFFFFF

    def jump(self, at):
        if at & 3:
            raise Ended("trap")
        return at

    def aligned(self, at, size):
        if at % size:
            raise Ended("trap")
        return at & 0xFFFFFFFF

    def alu(self, f3, arithmetic, a, b):
        shift = b & 31
        return [a + b, a << shift, signed(a) < signed(b), a < b, a ^ b, (signed(a) if arithmetic else a) >> shift, a | b, a & b][f3] + 0

    def product(self, f3, a, b):
        if f3 == 0:
            return a * b
        if f3 < 4:
            left, right = signed(a) if f3 < 3 else a, signed(b) if f3 == 1 else b
            return left * right >> 32
        x, y = (signed(a), signed(b)) if f3 in (4, 6) else (a, b)
        if y == 0:
            return -1 if f3 < 6 else x
        quotient = abs(x) // abs(y) * (1 if (x < 0) == (y < 0) else -1)
        return quotient if f3 < 6 else x - quotient * y

    def call(self):
        number, which, at, length = self.x[17], self.x[10], self.x[11], self.x[12]
        if number == 93:
            self.cost += 1
            raise Ended(("exit", which))
        if number not in (63, 64):
            raise Ended("trap")
        if which not in (self.files if number == 63 else (1, 2)):
            self.x[10] = 0xFFFFFFFF
            self.cost += 1
            self.pc += 4
            return
        n = length
        if number == 63:
            data, done = self.files[which]
            n = min(length, len(data) - done)
        if at + n > 1 << 32:
            raise Ended("trap")
        if self.cost + 1 + n > self.limit:
            raise Ended("time")
        if n:
            self.touch(at, n)
        if number == 64 and which == 1:
            if len(self.output) + n > self.most_output:
                raise Ended("output")
            self.output += self.get_long(at, n)
        if number == 63:
            self.put(at, data[done : done + n])
            self.files[which][1] += n
        self.x[10] = n
        self.cost += 1 + n
        self.pc = self.pc + 4 & 0xFFFFFFFF


# ---------------------------------------------------------------------------------------------------------------------
# The default validator

def decimal(word):
    """The value in units, and whether it is floating point; or None."""
    found = DECIMAL.match(word)
    if not found:
        return None
    value = Fraction(word.decode()) * UNITS
    return int(value), bool(found[1] or found[2] or found[3])


class Refused(Exception):
    """Why a contest is refused."""


class Flags:
    def __init__(self, text):
        words = text.split()
        self.case, self.space, self.relative, self.absolute = False, False, None, None
        at = 0
        while at < len(words):
            word, at = words[at], at + 1
            if word == b"case_sensitive":
                self.case = True
            elif word == b"space_change_sensitive":
                self.space = True
            elif word in (b"float_tolerance", b"float_relative_tolerance", b"float_absolute_tolerance"):
                if at == len(words):
                    raise Refused(f"flags word {at}")
                self.tolerance(word, words[at], at + 1)
                at += 1
            else:
                raise Refused(f"flags word {at}")

    def tolerance(self, word, amount, at):
        found = DECIMAL.match(amount)
        units = Fraction(amount.decode()) * UNITS if found and not amount.startswith(b"-") else Fraction(1, 2)
        if units.denominator != 1:
            raise Refused(f"flags word {at}")
        if word != b"float_absolute_tolerance":
            if units > UNITS:
                raise Refused(f"flags word {at}")
            self.relative = units
        if word != b"float_relative_tolerance":
            if units >= 10**24:
                raise Refused(f"flags word {at}")
            self.absolute = units

    def wide(self, answer):
        """The first token of an answer that no tolerance can be taken of, or None."""
        if self.relative is None and self.absolute is None:
            return None
        wide = [at for at, number in enumerate(map(decimal, answer.split())) if number and number[1] and abs(number[0]) >= 10**24]
        return wide[0] if wide else None

    def agree(self, wanted, given):
        if wanted == given if self.case else wanted.lower() == given.lower():
            return True
        j, t = decimal(wanted), decimal(given)
        if (self.relative is None and self.absolute is None) or j is None or t is None or abs(j[0]) >= 10**24 or abs(t[0]) >= 10**25:
            return False
        away = abs(t[0] - j[0])
        return (self.relative is not None and away * UNITS <= self.relative * abs(j[0])) or (self.absolute is not None and away <= self.absolute)

    def accepts(self, answer, output):
        wanted, given = answer.split(), output.split()
        if self.space and TOKEN.split(answer) != TOKEN.split(output):
            return False
        return len(wanted) == len(given) and all(self.agree(w, g) for w, g in zip(wanted, given))


# ---------------------------------------------------------------------------------------------------------------------
# Cases and contests

def value(image, problem, given, answer):
    """The result of one test."""
    machine = Machine(image, problem.instructions, problem.pages, problem.output, {0: given})
    ending = machine.run()
    if ending != ("exit", 0):
        return {"time": "timelimit", "memory": "memory-limit", "output": "output-limit"}.get(ending, "run-error")
    output = bytes(machine.output)
    if problem.validator is None:
        accepted = Flags(problem.flags).accepts(answer, output)
    else:
        files = {0: output, 3: given, 4: answer, 5: problem.flags}
        ending = Machine(([(0x10000, problem.validator)], 0x10000), 100_000_000, 16_384, 8_388_608, files).run()
        if ending not in (("exit", 42), ("exit", 43)):
            return "judging-error"
        accepted = ending == ("exit", 42)
    return "correct" if accepted else "wrong-answer" if output else "no-output"


class Problem:
    """A package: its flags, limits and tests in rank order, and the validator's image where it has one."""

    def __init__(self, said, milliseconds, tests, validator, second):
        self.flags, self.tests, self.validator = said["flags"], tests, validator
        self.instructions = milliseconds * second // 1000
        self.pages, self.output = said["memory"] * 256, said["output"] << 20


def read(path):
    """A file's bytes, or None where there is no file."""
    if not os.path.isfile(path):
        return None
    with open(path, "rb") as file:
        return file.read()


def shown(name):
    return "".join("?" if c < " " or c == "\x7f" else c for c in name)


def files_below(folder):
    """The paths below a folder, as bytes in their order."""
    paths = [os.path.relpath(os.path.join(place, name), folder) for place, _, names in os.walk(folder) for name in names]
    return sorted(map(os.fsencode, paths))


def read_package(folder, second):
    text = read(os.path.join(folder, "problem.yaml"))
    if text is None:
        raise Refused("no problem.yaml")
    try:
        said = package_model.Yaml(text).said
    except package_model.Fault as fault:
        raise Refused(f"problem.yaml line {fault.args[0]}") from None
    try:
        milliseconds = package_model.read_ini(read(os.path.join(folder, "domjudge-problem.ini")) or b"")
    except package_model.Fault as fault:
        raise Refused(f"domjudge-problem.ini line {fault.args[0]}") from None
    flags = Flags(said["flags"]) if said["validation"] == "default" else None
    data = os.path.join(folder, "data")
    tests = read_tests(data)
    if flags:
        for name, _, answer in tests:
            if flags.wide(answer) is not None:
                raise Refused(f"wide answer {shown(name)} token {flags.wide(answer)}")
    validator = None if flags else read_validator(os.path.join(folder, "output_validators"))
    return Problem(said, milliseconds, [test[1:] for test in tests], validator, second)


def read_tests(data):
    paths = [path.decode() for path in files_below(data)]
    groups = [path for path in paths if path.split("/")[-1] == "testdata.yaml"]
    if groups:
        raise Refused(f"groups {shown(groups[0])}")
    names = [path[:-3] for path in paths if path.endswith(".in") and path.split("/")[0] in ("sample", "secret") and "/" in path]
    names.sort(key=lambda name: name.encode())
    for name in names:
        if f"{name}.ans" not in paths:
            raise Refused(f"missing answer {shown(name)}")
    if not names:
        raise Refused("no tests")
    if len(names) > 1000:
        raise Refused(f"too many tests {len(names)}")
    return [(name, read(os.path.join(data, f"{name}.in")), read(os.path.join(data, f"{name}.ans"))) for name in names]


def read_validator(folder):
    names = sorted(os.listdir(folder)) if os.path.isdir(folder) else []
    if len(names) != 1:
        raise Refused(f"many validators {len(names)}" if names else "no validator")
    image = read(os.path.join(folder, names[0]))
    if image is None or not names[0].endswith(".rv32"):
        raise Refused(f"source validator {shown(names[0])}")
    if not raw_image(image):
        raise Refused(f"bad validator {shown(names[0])}")
    return image


def is_whole(value, low, high):
    return isinstance(value, int) and not isinstance(value, bool) and low <= value <= high


def finite(text):
    if math.isinf(float(text)):
        raise ValueError(text)
    return float(text)


def no_constant(text):
    raise ValueError(text)


def read_settings(text):
    try:
        # A whole number with a sign in front of 0 is a fraction to the program's library.
        settings = json.loads(text.decode(), parse_constant=no_constant, parse_float=finite, parse_int=lambda n: 0.5 if n == "-0" else int(n))
    except ValueError:
        settings = None
    if not isinstance(settings, dict):
        raise Refused("farm.json: not json")
    values = {
        "instructions_per_second": lambda v: is_whole(v, 1000, 100_000_000),
        "lazy_eval_results": lambda v: isinstance(v, bool),
        "lease": lambda v: is_whole(v, 1, 1_000_000),
        "problem_modes": lambda v: isinstance(v, dict) and by_names(v, lambda m: m in ["lazy", "full", "on-demand"]),
        "results_prio": lambda v: isinstance(v, dict) and by_kinds(v, lambda n: is_whole(n, 0, 999)),
        "results_remap": lambda v: isinstance(v, dict) and by_kinds(v, lambda n: n in KINDS),
        "verification_required": lambda v: isinstance(v, bool),
    }
    by_keys(settings, values)
    return settings


def by_kinds(given, is_good):
    by_keys(given, dict.fromkeys(KINDS, is_good))
    return True


def by_names(given, is_good):
    # A key that is no name is unknown.
    by_keys(given, {key: is_good for key in given if NAME.match(key.encode(errors="replace"))})
    return True


def by_keys(given, values):
    for key in sorted(given, key=lambda key: key.encode()):
        if key not in values:
            raise Refused(f"farm.json: unknown key {shown(key)}")
        if not values[key](given[key]):
            raise Refused(f"farm.json: bad value {shown(key)}")


NAME = re.compile(rb"[A-Za-z0-9_-]{1,32}\Z")
FILE = re.compile(rb"[A-Za-z0-9_-][A-Za-z0-9_.-]{0,63}\Z")


def read_submissions(folder, problems):
    text = read(os.path.join(folder, "submissions.txt"))
    if text is None:
        raise Refused("no submissions.txt")
    entries = []
    for line, words in enumerate(text.split(b"\n"), 1):
        if not words.strip(b" ") or words.startswith(b"#"):
            continue
        parts = words.split(b" ")
        if len(parts) != 4 or parts[0] != b"%d" % (len(entries) + 1) or not (NAME.match(parts[1]) and NAME.match(parts[2]) and FILE.match(parts[3])):
            raise Refused(f"line {line}: bad line")
        entries.append((line, *(part.decode() for part in parts[1:])))
    for line, _, name, _ in entries:
        if name not in problems:
            raise Refused(f"line {line}: no problem")
    images = [(line, read(os.path.join(folder, "submissions", file))) for line, _, _, file in entries]
    for line, image in images:
        if image is None:
            raise Refused(f"line {line}: no image")
    if len(entries) > 100_000:
        raise Refused(f"too many submissions {len(entries)}")
    return [(team, name, image) for (_, team, name, _), (_, image) in zip(entries, images)]


def read_contest(folder):
    """Problems by name, submissions and settings."""
    text = read(os.path.join(folder, "farm.json"))
    settings = read_settings(text) if text is not None else {}
    place = os.path.join(folder, "problems")
    names = sorted((name for name in os.listdir(place) if os.path.isdir(os.path.join(place, name))), key=os.fsencode) if os.path.isdir(place) else []
    for name in names:
        if not NAME.match(name.encode()):
            raise Refused(f"bad name {shown(name)}")
    if len(names) > 1000:
        raise Refused(f"too many problems {len(names)}")
    problems = {}
    for name in names:
        try:
            problems[name] = read_package(os.path.join(place, name), settings.get("instructions_per_second", 10_000_000))
        except Refused as refused:
            raise Refused(f"problem {name}: {refused}") from None
    return problems, read_submissions(folder, problems), settings


def judge(folder):
    """The status, and what is written."""
    try:
        return 0, table_of(*read_contest(folder))
    except Refused as refused:
        return 3, f"bad contest: {refused}\n".encode()


def table_of(problems, submissions, settings):
    """The table: `submissions` are team, problem and the bytes of the image."""
    rule, lines, seen = Rule(settings.get("results_prio"), settings.get("results_remap")), [], {}
    for number, (team, name, data) in enumerate(submissions, 1):
        image = image_of(data)
        if (name, data) not in seen:
            results = [value(image, problems[name], *test) for test in problems[name].tests] if image else None
            seen[name, data] = "compiler-error" if results is None else decided(rule, results)
        lines.append(f"{number} {team} {name} {seen[name, data]}\n")
    return "".join(lines).encode()


def decided(rule, results):
    best = None
    for result in results:
        best = rule.better(best, rule.remap[result])
    return best


# ---------------------------------------------------------------------------------------------------------------------
# Programs

def instruction(text):
    name, *words = re.findall(r"[^\s,]+", text)
    words = [BASE.match(word).groups()[::-1] if BASE.match(word) else REGISTER.match(word)[1] if REGISTER.match(word) else word for word in words]
    n = [tuple(int(w, 0) for w in word) if isinstance(word, tuple) else int(word, 0) for word in words]
    if name == "ecall":
        return 0x73
    if name == "lui":
        return n[1] << 12 | n[0] << 7 | 0x37
    if name == "jal":
        offset = n[1] & 0x1FFFFF
        return (offset >> 20) << 31 | (offset >> 1 & 1023) << 21 | (offset >> 11 & 1) << 20 | (offset >> 12 & 255) << 12 | n[0] << 7 | 0x6F
    if name == "addi":
        return (n[2] & 4095) << 20 | n[1] << 15 | n[0] << 7 | 0x13
    if name == "add":
        return n[2] << 20 | n[1] << 15 | n[0] << 7 | 0x33
    if name == "lbu":
        return (n[1][1] & 4095) << 20 | n[1][0] << 15 | 4 << 12 | n[0] << 7 | 0x03
    if name == "sb":
        return (n[1][1] >> 5 & 127) << 25 | n[0] << 20 | n[1][0] << 15 | (n[1][1] & 31) << 7 | 0x23
    f3 = {"bltu": 6, "bne": 1}[name]
    return (n[2] >> 12 & 1) << 31 | (n[2] >> 5 & 63) << 25 | n[1] << 20 | n[0] << 15 | f3 << 12 | (n[2] >> 1 & 15) << 8 | (n[2] >> 11 & 1) << 7 | 0x63


SHORT = {
    "read": "lui x11,0x20; addi x10,x0,0; addi x12,x0,64; addi x17,x0,63; ecall",
    "write": "addi x12,x10,0; addi x10,x0,1; addi x17,x0,64; ecall",
}


def program(text):
    """The image of a program: instructions, `read`, `write` and `exit N`, with `;` between them."""
    words = []
    for part in map(str.strip, text.split(";")):
        part = f"addi x10,x0,{part[5:]}; addi x17,x0,93; ecall" if part.startswith("exit ") else SHORT.get(part, part)
        words += [instruction(one) for one in part.split(";")]
    return struct.pack(f"<{len(words)}I", *words)


def byte(b):
    return program(f"lui x11,0x20; addi x12,x0,{b}; sb x12,0(x11); addi x10,x0,1; addi x12,x0,1; addi x17,x0,64; ecall; exit 0")


ECHO = program("read; write; exit 0")
SILENT = program("exit 0")
LOOP = program("jal x0,0")
FAIL = program("exit 1")
HALF = program("read; lbu x13,0(x11); addi x14,x0,53; bltu x13,x14,8; jal x0,0; write; exit 0")
GREEDY = program("lui x11,0x100; lui x15,1; sb x0,0(x11); add x11,x11,x15; jal x0,-8")
BROKEN = bytes(3)
# Writes a byte more than 1 MiB.
FLOOD = program("lui x11,0x20; lui x12,0x100; addi x12,x12,1; addi x10,x0,1; addi x17,x0,64; ecall; exit 0")
GUESS = program("""lui x11,0x20; addi x10,x0,0; addi x12,x0,1; addi x17,x0,63; ecall; lbu x13,0(x11); addi x10,x0,1; addi x14,x0,52;
    bne x13,x14,8; addi x10,x0,42; addi x14,x0,51; bne x13,x14,8; addi x10,x0,43; addi x17,x0,93; ecall""".replace("\n", " "))


def elf(segments, entry, **fields):
    """An executable: segments are address, bytes, and how many bytes of memory; `fields` are set over the header's."""
    header = {"class": 1, "order": 1, "kind": 2, "machine": 243, "table": 52, "entry_size": 32, "count": len(segments)} | fields
    data = b"\x7fELF" + bytes([header["class"], header["order"], 1]) + bytes(9)
    data += struct.pack("<HHIIIIIHHHHHH", header["kind"], header["machine"], 1, entry, header["table"], 0, 0, 52, header["entry_size"], header["count"], 40, 0, 0)
    offset, table, rest = 52 + 32 * len(segments), b"", b""
    for at, piece, size in segments:
        table += struct.pack("<8I", 1, offset + len(rest), at, at, len(piece), size, 7, 4)
        rest += piece
    return data + table + rest
