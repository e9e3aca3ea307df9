"""What `problem.yaml` and `domjudge-problem.ini` say, written apart from the program.

The lines are walked one after the other by a small machine with a place in a list, and values are taken by regular
expressions, which is not how the program does it.
"""

import re

FIELD = re.compile(rb"(.*?):(?: (.*)|)\Z", re.DOTALL)
# A quote that ends a text is not followed by another one: two stand for one.
SINGLE = re.compile(rb"'((?:[^']|'')*)'(?!')(.*)\Z", re.DOTALL)
DOUBLE = re.compile(rb'"((?:[^"\\]|\\.)*)"(.*)\Z', re.DOTALL)
ESCAPES = {b'"': b'"', b"\\": b"\\", b"n": b"\n", b"t": b"\t"}
TIME = re.compile(rb"[0-9]+(\.[0-9]{1,3})?\Z")


class Fault(Exception):
    """The first fault of a text: a word, at a line."""


class Word(Exception):
    """A fault whose line is not known here."""


def lines_of(text):
    """The numbers and the lines that are looked at."""
    text = text.removeprefix(b"\xef\xbb\xbf")
    lines = text.split(b"\n")
    if not lines[-1]:
        lines.pop()
    kept = []
    for number, line in enumerate(lines, 1):
        line = line.removesuffix(b"\r")
        past = line.lstrip(b" ")
        if past and not past.startswith(b"#") and not (number == 1 and line == b"---"):
            kept.append((number, line))
    return kept


def depth(line):
    return len(line) - len(line.lstrip(b" \t"))


def field_of(content):
    found = FIELD.match(content)
    if not found:
        raise Word("NoColon")
    return found[1], found[2] or b""


def is_ended(rest):
    """Whether nothing stands behind a value but spaces and a comment after a space."""
    past = rest.lstrip(b" ")
    return not past or (past.startswith(b"#") and rest.startswith(b" "))


def scalar(value):
    """The text of a value, and whether there is one."""
    past = value.lstrip(b" ")
    if past[:1] in (b"'", b'"'):
        return quoted(past), True
    if past[:1] and past[:1] in b"|>[&*!{":
        raise Word("Form")
    plain = re.split(rb"(?:(?<= )|\A)#", b" " + value, maxsplit=1)[0].strip(b" ")
    return plain, bool(plain)


def quoted(past):
    found = (SINGLE if past[:1] == b"'" else DOUBLE).match(past)
    if past[:1] == b"'":
        if not found:
            raise Word("Open")
        text = found[1].replace(b"''", b"'")
    else:
        # Escapes are looked at from the left, also where the quote is not closed.
        for escape in re.findall(rb"\\(.|\Z)", re.match(rb'"((?:[^"\\]|\\.|\\\Z)*)', past, re.DOTALL)[1], re.DOTALL):
            if not escape:
                raise Word("Open")
            if escape not in ESCAPES:
                raise Word("BadEscape")
        if not found:
            raise Word("Open")
        text = re.sub(rb"\\(.)", lambda escape: ESCAPES[escape[1]], found[1], flags=re.DOTALL)
    if not is_ended(found[2]):
        raise Word("Form")
    return text


def size(text):
    if not re.match(rb"[0-9]+\Z", text) or not 1 <= int(text) <= 1_000_000:
        raise Word("BadValue")
    return int(text)


class Yaml:
    """What a text says, in `said`, or its first fault."""

    def __init__(self, text):
        self.said = {"name": b"", "validation": "default", "flags": b"", "memory": 64, "output": 8}
        self.seen = set()
        self.lines = lines_of(text)
        self.at = 0
        while self.at < len(self.lines):
            number, line = self.lines[self.at]
            try:
                self.entry(line)
            except Word as word:
                # The line that was looked at last is the faulty one.
                raise Fault(self.lines[self.at][0], str(word)) from None
            self.at += 1

    def below(self):
        """Goes to the next line where that is indented."""
        if self.at + 1 < len(self.lines) and depth(self.lines[self.at + 1][1]):
            self.at += 1
            return self.lines[self.at][1]
        return None

    def entry(self, line):
        if depth(line):
            raise Word("Tab" if b"\t" in line[: depth(line)] else "Indent")
        key, value = field_of(line)
        if key not in (b"name", b"validation", b"validator_flags", b"limits"):
            self.skip()
            return
        if key in self.seen:
            raise Word("Repeated")
        self.seen.add(key)
        if key == b"limits":
            self.limits(value)
            return
        text, there = scalar(value)
        if key == b"name":
            self.said["name"] = text if there else self.name_below()
        elif key == b"validation":
            self.said["validation"] = self.validation(text)
        else:
            self.said["flags"] = text

    def skip(self):
        while self.at + 1 < len(self.lines):
            line = self.lines[self.at + 1][1]
            if not (depth(line) or line.startswith(b"- ") or line == b"-"):
                break
            self.at += 1

    def validation(self, text):
        if text in (b"", b"default"):
            return "default"
        words = text.split(b" ")
        if words[0] != b"custom":
            raise Word("BadValue")
        rest = [word for word in words[1:] if word]
        if rest[:1] == [b"interactive"]:
            raise Word("Interactive")
        if rest[:1] == [b"score"]:
            raise Word("Score")
        return "custom"

    def name_below(self):
        line = self.below()
        if line is None:
            return b""
        first = depth(line)
        if b"\t" in line[:first]:
            raise Word("Tab")
        content = line[first:]
        try:
            _, content = field_of(content)
        except Word:
            pass
        name, _ = scalar(content)
        while (line := self.below()) is not None:
            if b"\t" in line[: depth(line)]:
                raise Word("Tab")
            if depth(line) < first:
                raise Word("Indent")
        return name

    def limits(self, value):
        past = value.lstrip(b" ")
        if past.startswith(b"{"):
            self.braces(past)
            return
        _, there = scalar(value)
        if there:
            raise Word("BadValue")
        self.block()

    def set_size(self, key, text, seen):
        if key in seen:
            raise Word("Repeated")
        seen.add(key)
        most = 256 if key == b"memory" else 64
        self.said[key.decode()] = min(size(text()), most)

    def block(self):
        first = skipping = None
        seen = set()
        while (line := self.below()) is not None:
            here = depth(line)
            if skipping and here > first:
                continue
            if b"\t" in line[:here]:
                raise Word("Tab")
            first = first or here
            if here != first:
                raise Word("Indent")
            key, value = field_of(line[here:])
            skipping = key not in (b"memory", b"output")
            if not skipping:
                self.set_size(key, lambda: scalar(value)[0], seen)

    def braces(self, past):
        inside, closed, rest = past[1:].partition(b"}")
        if not closed:
            raise Word("Form")
        seen = set()
        items = inside.split(b",") if inside.strip(b" ") else []
        for item in items:
            found = FIELD.match(item.strip(b" "))
            if not found:
                raise Word("Form")
            key, text = found[1], (found[2] or b"").strip(b" ")
            if text[:1] and text[:1] in b"'\"|>[&*!{":
                raise Word("Form")
            if key in (b"memory", b"output"):
                self.set_size(key, lambda: text, seen)
        if not is_ended(rest):
            raise Word("Form")


def read_ini(text):
    """The time limit in milliseconds."""
    limit = 1000
    lines = text.removeprefix(b"\xef\xbb\xbf").split(b"\n")
    for number, line in enumerate(lines, 1):
        key, equals, value = line.removesuffix(b"\r").partition(b"=")
        if not equals or key.strip(b" ") != b"timelimit":
            continue
        value = value.strip(b" ")
        if len(value) >= 2 and value[:1] == value[-1:] and value[:1] in b"'\"":
            value = value[1:-1]
        if not TIME.match(value):
            raise Fault(number, "no time limit from 0.001 to 1000")
        whole, _, part = value.partition(b".")
        milliseconds = int(whole) * 1000 + int(part.ljust(3, b"0"))
        if not 1 <= milliseconds <= 1_000_000:
            raise Fault(number, "no time limit from 0.001 to 1000")
        limit = milliseconds
    return limit
