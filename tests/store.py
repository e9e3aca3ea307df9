#!/usr/bin/env python3
"""Plays scripts over stores, kills the program, breaks files, and looks at what a store holds.

    tests/store.py [PROGRAM] [SEED [KILLS]]

PROGRAM is the built program, `crates/farm/out/farm` of this repository if none is given. It is killed 300 times, or as often as KILLS
says. The file of a store and what opening it does are written here once more, apart from the program; `farm_model` answers the lines. One line is printed for each look, and the
status is 1 where one shows something else than is wanted. A look that the machine does not allow is named as skipped.
"""

import hashlib
import os
import random
import resource
import signal
import subprocess
import sys
import tempfile
import threading
import time

sys.dont_write_bytecode = True

from farm_model import Farm  # noqa: E402
from place import program_and_numbers  # noqa: E402
from random_scripts import draw_settings, random_script  # noqa: E402

# The file of a store.


def config_line(config=b""):
    return b"config " + hashlib.sha256(config).hexdigest().encode()


def record(line):
    return b"\1" + len(line).to_bytes(2, "little") + line


def file_of(lines):
    return b"".join(map(record, lines)) + b"\0"


def held(data):
    """The lines of the held records, and where they end."""
    lines, at = [], 0
    while len(data) - at >= 3 and data[at] == 1:
        size = int.from_bytes(data[at + 1 : at + 3], "little")
        if len(data) - at - 3 <= size:
            break
        lines.append(data[at + 3 : at + 3 + size])
        at += 3 + size
    return lines, at


def is_config(line):
    digits = line[7:]
    return line.startswith(b"config ") and len(digits) == 64 and all(digit in b"0123456789abcdef" for digit in digits)


def is_unborn(data):
    """Whether a crash of a first opening leaves these bytes."""
    first = data[1:3] == b"\x47\0" and len(data) == 75 and is_config(data[3:74]) and data[74] == 0
    return len(data) <= 1 or (len(data) <= 75 and (data[0] == 0 or first))


# The events that are stored.

ACCEPTED = {
    "problem": ["problem"], "replace": ["problem"], "host": ["host"], "submit": ["submission"], "claim": ["task"], "fetch": ["batch"],
    "result": ["counted"], "record": ["counted"], "renew": ["until"], "tick": ["ended"], "down": ["ended"], "rejudge": ["rejudging"],
    "apply": ["applied"], "cancel": ["cancelled"], "verify": ["verified"], "ask": ["pending", "final"],
}


def stored_text(line, replies):
    """What is stored of a line with these replies. None where nothing is."""
    words = line.decode("latin-1").split(" ")
    words = [word for word in words if word]
    who = words.pop(0) if words and words[0].startswith("@") else "@jury"
    if not words or not replies or replies[0].split(" ")[0] not in ACCEPTED.get(words[0], []):
        return None
    if words[0] == "submit":
        words = [word for at, word in enumerate(words) if at < 2 or word != "normal"]
    return " ".join(([] if who == "@jury" else [who]) + words).encode("latin-1")


class Played:
    """A farm and the lines that its store holds."""

    def __init__(self, config=b"", **kept):
        self.farm, self.lines = Farm(**kept), [config_line(config)]

    def answer(self, line):
        replies = self.farm.answer(line)
        text = stored_text(line, replies)
        if text is not None:
            self.lines.append(text)
        return replies


def opened(data, config=b"", **kept):
    """What opening answers: the farm that was played, or the line that is told; and the bytes that the file has then."""
    lines, at = held(data)
    played = Played(config, **kept)
    if not lines:
        if not is_unborn(data):
            return b"bad store: record 1\n", data
        begun = file_of([config_line(config)])
        return played, begun + data[len(begun):]
    if not is_config(lines[0]):
        return b"bad store: record 1\n", data
    if lines[0] != config_line(config):
        return b"bad store: other config\n", data
    for number, line in enumerate(lines[1:], 2):
        before = len(played.lines)
        played.answer(line)
        if played.lines[before:] != [line]:
            return b"bad store: record %d\n" % number, data
    return played, data[:at] + (b"\0" if data[at] == 1 else data[at : at + 1]) + data[at + 1 :]


# Runs of the program.


def run(program, words, lines=b"", **more):
    """The status, standard output and standard error."""
    done = subprocess.run([program, *words], input=lines, capture_output=True, timeout=120, check=False, **more)
    return done.returncode, done.stdout, done.stderr


def script(program, store, lines=b"", config=None, **more):
    return run(program, ["script", "--store", store, *(["--config", config] if config else [])], lines, **more)


def read(path):
    with open(path, "rb") as file:
        return file.read()


def write(path, data):
    with open(path, "wb") as file:
        file.write(data)


def text_of(replies):
    return "".join(reply + "\n" for reply in replies).encode()


def is_told(got, status, line, written=b""):
    """It ended so, and told a person why by this line."""
    return got == (status, written, line.encode())


# What a person is told.

GOES_ON = "; what was answered is stored, and the next call with this store goes on from there\n"
UNWRITTEN = "; nothing was written to it\n"
UNREAD = "; nothing was written to it, and no line was read\n"


def unusable(path, reason, behind=GOES_ON):
    return f"farm: the store cannot be used: {path}: {reason}{behind}"


def failing(path):
    return f"farm: the store {path} could not be read or written (is the disk full?){GOES_ON}"


def no_store(path):
    return f"farm: {path} is no store: it does not begin with the record of a configuration{UNWRITTEN}"


def changed(path, number):
    return (
        f"farm: record {number} of {path} is no event that this farm would have stored there, so the file was changed; "
        f"'farm store {path}' writes its records, the {number}th as line {number}{UNREAD}"
    )


def begun_otherwise(path, digest):
    if digest == hashlib.sha256(b"").hexdigest():
        return f"farm: {path} was begun without --config, and goes on without it alone{UNREAD}"
    return f"farm: {path} was begun with another --config FILE: one whose SHA-256 digest is {digest} (compare 'sha256sum FILE'){UNREAD}"


def unfinished(path, size):
    return f"note: {path}: behind its last record stand {size} bytes of one that was not finished, and that is not held\n"


def flaw_of(path, data, answer):
    """What is told of a file for which opening answers this line."""
    if answer == b"bad store: other config\n":
        return begun_otherwise(path, held(data)[0][0][7:].decode())
    number = int(answer.split()[-1])
    return no_store(path) if number == 1 else changed(path, number)


QUESTIONS = ["board", "audit"] + [f"show {number}" for number in range(1, 30)] + [f"matrix {number}" for number in range(1, 5)]


def plays_on(program, folder, seed, count=40):
    """Scripts in pieces, one run a piece, beside the same script in one; and the store as a script."""
    wrong, events = [], 0
    store, settings = os.path.join(folder, "pieces"), os.path.join(folder, "pieces.json")
    for turn in range(seed, seed + count):
        kept, _ = draw_settings(random.Random(f"settings {turn}"))
        said, lines, replies = random_script(turn)
        write(settings, said.encode())
        if os.path.exists(store):
            os.remove(store)
        draw = random.Random(f"pieces {turn}")
        cuts = sorted(draw.randrange(len(lines) + 1) for _ in range(draw.choice([0, 1, 3, 10])))
        played, text = Played(said.encode(), **kept), b""
        for line in lines:
            played.answer(line.encode())
        for first, last in zip([0] + cuts, cuts + [len(lines)]):
            got = script(program, store, "\n".join(lines[first:last]).encode(), settings)
            text += got[1]
            if got[0] or got[2]:
                wrong.append((turn, got))
        if text != text_of(replies) or read(store) != file_of(played.lines):
            wrong.append((turn, held(read(store))[0][-3:], played.lines[-3:]))
        listing = run(program, ["store", store])
        asked = "\n".join(QUESTIONS).encode()
        wanted = (0, b"# " + b"".join(line + b"\n" for line in played.lines), b"")
        again = run(program, ["script", "--config", settings], listing[1] + asked)
        here = script(program, store, asked, settings)
        if listing != wanted or not again[1].endswith(here[1]) or len(here[1]) < 100 or read(store) != file_of(played.lines):
            wrong.append((turn, listing[:1], again[1][-100:], here[1][-100:]))
        events += len(played.lines)
    yield f"{count} scripts in pieces, {events} records", not wrong, wrong[:2]


class Client:
    """Writes lines to a program piece by piece, and reads the replies, until the program is killed. Before each piece it waits for so
    many bytes of replies to the lines before it."""

    def __init__(self, program, words, lines, sizes, awaited):
        self.run = subprocess.Popen([program, *words], stdin=subprocess.PIPE, stdout=subprocess.PIPE, stderr=subprocess.PIPE)
        self.text, self.ended, self.heard = b"", False, threading.Condition()
        self.threads = [threading.Thread(target=self.write, args=(lines, sizes, awaited)), threading.Thread(target=self.read)]
        for thread in self.threads:
            thread.start()

    def write(self, lines, sizes, awaited):
        at = 0
        try:
            while at < len(lines):
                self.wait(sum(awaited[:at]))
                size = next(sizes)
                self.run.stdin.write(b"".join(line.encode() + b"\n" for line in lines[at : at + size]))
                self.run.stdin.flush()
                at += size
        except OSError:
            pass

    def read(self):
        while piece := self.run.stdout.read1(65536):
            with self.heard:
                self.text += piece
                self.heard.notify_all()
        with self.heard:
            self.ended = True
            self.heard.notify_all()

    def wait(self, count, seconds=None):
        """Waits until so many bytes were read, or for so long."""
        with self.heard:
            self.heard.wait_for(lambda: self.ended or len(self.text) >= count, seconds)

    def kill(self):
        self.run.send_signal(signal.SIGKILL)
        self.run.wait()
        for thread in self.threads:
            thread.join()
        try:
            self.run.stdin.close()
        except OSError:
            pass
        said = self.run.stderr.read()
        self.run.stdout.close()
        self.run.stderr.close()
        return self.text, said


def replayed(kept, lines):
    """For each line of a script the replies to it, and how many records a store holds once it is answered."""
    played, all_replies, counts = Played(**kept), [], []
    for line in lines:
        all_replies.append(played.answer(line.encode()))
        counts.append(len(played.lines))
    return played.lines, all_replies, counts


class Killed:
    """Scripts that are played one after the other by a client, and a program that is killed while it does."""

    def __init__(self, program, folder, seed):
        self.program, self.store = program, os.path.join(folder, f"killed {seed}")
        self.draw, self.turn = random.Random(f"kills {seed}"), seed * 1000
        self.lines, self.wrong, self.acknowledged, self.lost, self.ends = [], [], 0, 0, 0

    def begin(self):
        """The next script."""
        self.turn += 1
        _, self.lines, _ = random_script(self.turn)
        self.texts, self.replies, self.counts = replayed({}, self.lines)
        self.at, self.first = 0, 1
        if os.path.exists(self.store):
            os.remove(self.store)

    def kill(self):
        """Plays on until a moment that is drawn, and looks at what the store holds."""
        if not self.lines:
            self.begin()
        largest = self.draw.choice([1, 3, 40])
        sizes = iter(lambda: self.draw.randrange(1, largest + 1), 0)
        replies = [len(text_of(line)) for line in self.replies[self.at :]]
        awaited = self.draw.choice([replies, replies, [0] * len(replies)])
        client = Client(self.program, ["script", "--store", self.store], self.lines[self.at :], sizes, awaited)
        client.wait(self.draw.randrange(sum(replies) + 1), self.draw.choice([0.01, 0.1, 1]))
        time.sleep(self.draw.choice([0, self.draw.random() * 0.002]))
        text, said = client.kill()
        now = held(read(self.store) if os.path.exists(self.store) else b"")[0]
        # what the client read is a prefix of the replies, and each event to whose reply a part of it belongs is held
        wanted, count, reached = b"", self.first, self.at
        while len(wanted) < len(text) and reached < len(self.lines):
            wanted += text_of(self.replies[reached])
            count = self.counts[reached]
            reached += 1
        none = not text and len(now) in (0, self.first)
        if said or not wanted.startswith(text) or now != self.texts[: len(now)] or not (len(now) >= count or none):
            self.wrong.append((self.turn, len(now), count, said, text[-100:]))
            self.lines = []
            return
        self.acknowledged += count - self.first
        self.lost += reached < len(self.lines)
        # goes on behind the last line whose event is held
        self.first = max(len(now), 1)
        self.at = next((place for place, count in enumerate(self.counts) if count > self.first), len(self.lines))
        if self.at == len(self.lines):
            self.ends, self.lines = self.ends + 1, []

    def run(self, rounds):
        for _ in range(rounds):
            self.kill()


def kills(program, folder, seed, rounds):
    """Clients that read replies and remember them; the program of each is killed at any moment, and played on from what its store
    holds. One half of the stores is in memory, the other on the machine's disk."""
    with tempfile.TemporaryDirectory(dir="/dev/shm" if os.path.isdir("/dev/shm") else None) as quick:
        clients = [Killed(program, [folder, quick][number % 2], seed * 10 + number) for number in range(6)]
        threads = [threading.Thread(target=client.run, args=(-(-rounds // len(clients)),)) for client in clients]
        for thread in threads:
            thread.start()
        for thread in threads:
            thread.join()
    wrong = [found for client in clients for found in client.wrong]
    acknowledged, lost, ends = (sum(getattr(client, name) for client in clients) for name in ("acknowledged", "lost", "ends"))
    name = f"killed {rounds} times, {lost} of them within a script; {acknowledged} events acknowledged, {ends} scripts ended"
    yield name, not wrong and acknowledged > rounds and lost * 2 > rounds, wrong[:2]


SMALL = b"problem A 1\nsubmit A\n@ann rejudge\nrecord 1 1 correct\ntick 5\n@ann rejudge 1\n"


def small_file(program, folder):
    path = os.path.join(folder, "small")
    if os.path.exists(path):
        os.remove(path)
    script(program, path, SMALL)
    return read(path)


def look_at(program, path, data):
    """What is otherwise than wanted where a store of these bytes is opened. None where nothing is."""
    write(path, data)
    answer, then = opened(data)
    got = script(program, path, b"audit\nboard\n")
    if isinstance(answer, bytes):
        good = is_told(got, 13, flaw_of(path, data, answer), written=answer)
    else:
        good = got == (0, text_of(answer.answer(b"audit") + answer.answer(b"board")), b"")
    if good and read(path) == then:
        return None
    return data, got, read(path)


def look_at_list(program, path, data):
    """The same of its listing, which leaves the file as it is."""
    write(path, data)
    lines, at = held(data)
    got = run(program, ["store", path])
    if lines and is_config(lines[0]) or not lines and is_unborn(data):
        text = b"# " + b"".join(line + b"\n" for line in lines) if lines else b""
        rest = len(data) - at - 1
        good = got == (0, text, unfinished(path, rest).encode() if rest > 0 else b"")
    else:
        good = is_told(got, 13, no_store(path), written=b"bad store: record 1\n")
    return None if good and read(path) == data else (data, got, read(path))


def broken(program, folder, seed):
    data = small_file(program, folder)
    path, draw = os.path.join(folder, "broken"), random.Random(f"broken {seed}")
    cuts = [data[:size] for size in range(len(data) + 1)]
    yield f"a store of {len(data)} bytes that is cut behind each", *both(program, path, cuts)
    changes = []
    for at in range(len(data)):
        for byte in {0, 1, 255, data[at] ^ 1, data[at] ^ 32, draw.randrange(256)} - {data[at]}:
            changes.append(data[:at] + bytes([byte]) + data[at + 1 :])
    yield f"{len(changes)} changes of one byte", *both(program, path, changes)
    tails = [data + bytes(tail) for tail in ([0], [1], [1, 2, 0, 65], [1, 0, 0, 0], [9] * 100)]
    tails += [data[:-1] + bytes(tail) for tail in ([1], [1, 5], [1, 5, 0], [1, 5, 0, 65], [7], [7, 1, 0, 0], [1, 255, 255] + [65] * 9)]
    tails += [b"", b"\0", b"\1", b"x", b"xy", b"{}\n", b"\0" * 75, b"\0" * 76, data[:75], b"x" + data[1:74] + b"\0", b"x" + data[1:74] + b"\1"]
    yield f"{len(tails)} files that end otherwise, or are none", *both(program, path, tails)
    orders = []
    lines = held(data)[0]
    for at in range(len(lines)):
        for line in [b"board", b"show 1", b"tick 05", b" tick 5", b"@jury submit A", b"submit A normal", b"claim h1", b"\xff", b"", b"# x", lines[0]]:
            orders += [file_of(lines[:at] + [line] + lines[at:]), file_of(lines[:at] + [line] + lines[at + 1 :])]
    yield f"{len(orders)} stores with a line that is none of theirs", *both(program, path, orders)


def both(program, path, files):
    wrong = [found for data in files for look in (look_at, look_at_list) for found in [look(program, path, data)] if found]
    return not wrong, wrong[:2]


def configurations(program, folder):
    store = os.path.join(folder, "configured")
    one, two, none = (os.path.join(folder, name) for name in ("one.json", "two.json", "none.json"))
    write(one, b'{"lease": 7}')
    write(two, b'{"lease":7}')
    got = script(program, store, b"problem A 1\n", one)
    data = read(store)
    yield "settings of a file", got[0] == 0 and held(data)[0] == [config_line(b'{"lease": 7}'), b"problem A 1"], (got, data)
    got = script(program, store, b"problem B 1\n", two)
    begun = begun_otherwise(store, hashlib.sha256(read(one)).hexdigest())
    good = is_told(got, 13, begun, written=b"bad store: other config\n")
    yield "the same settings in other bytes", good and read(store) == data, got
    got = script(program, store, b"problem B 1\n")
    yield "none", is_told(got, 13, begun, written=b"bad store: other config\n") and read(store) == data, got
    got = script(program, store, b"problem B 1\n", one)
    yield "these again", got == (0, b"problem B version 1\n", b"") and len(held(read(store))[0]) == 3, got
    fresh = os.path.join(folder, "never")
    got = script(program, fresh, b"problem A 1\n", none)
    good = got[:2] == (3, b"bad contest: no config\n") and got[2].count(b"\n") == 1 and none.encode() in got[2]
    yield "a file of settings that is not there", good and not os.path.exists(fresh), got
    script(program, fresh, b"problem A 1\n")
    got = script(program, fresh, b"", one)
    begun = begun_otherwise(fresh, hashlib.sha256(b"").hexdigest())
    yield "begun without", is_told(got, 13, begun, written=b"bad store: other config\n"), got


MISSING, DENIED = "No such file or directory (os error 2)", "Permission denied (os error 13)"
DEVICE = "it is a pipe, a socket or a device, and a file is wanted"


def are_unusable(got, listed, path, reason):
    """Both a script on the store and its listing ended so, and told why."""
    return is_told(got, 12, unusable(path, reason)) and is_told(listed, 12, unusable(path, reason, UNWRITTEN))


def as_nobody():
    os.setgroups([])
    os.setgid(65534)
    os.setuid(65534)


def no_files(program, folder):
    for name, path, reason in [
        ("a folder", folder, "it is a folder, and a file is wanted"),
        ("a folder that is not there", os.path.join(folder, "no", "store"), MISSING),
        ("a device", "/dev/null", DEVICE),
        ("below a file", os.path.join(folder, "small", "store"), "Not a directory (os error 20)"),
    ]:
        got, listed = script(program, path, b"problem A 1\n"), run(program, ["store", path])
        yield f"the store is {name}", are_unusable(got, listed, path, reason), (got, listed)
    pipe = os.path.join(folder, "pipe")
    os.mkfifo(pipe)
    got, listed = script(program, pipe, b"problem A 1\n"), run(program, ["store", pipe])
    yield "the store is a pipe", are_unusable(got, listed, pipe, DEVICE), (got, listed)
    missing = os.path.join(folder, "missing")
    got = run(program, ["store", missing])
    yield "the lines of a store that is not there", is_told(got, 12, unusable(missing, MISSING, UNWRITTEN)) and not os.path.exists(missing), got
    data = small_file(program, folder)
    path = os.path.join(folder, "small")
    os.chmod(folder, 0o755)
    user = {"preexec_fn": as_nobody} if os.geteuid() == 0 else {}
    try:
        run(program, ["--version"], **user)
    except (OSError, subprocess.SubprocessError):
        yield "skipped: a file that may not be written, since nobody may run the program", True, None
        return
    os.chmod(path, 0o444)
    got, listed = script(program, path, b"tick 9\n", **user), run(program, ["store", path], **user)
    good = is_told(got, 12, unusable(path, DENIED)) and listed[0] == 0 and listed[1].count(b"\n") == len(held(data)[0])
    yield "a file that may be read alone", good and read(path) == data, (got, listed)
    os.chmod(path, 0o000)
    got, listed = script(program, path, b"tick 9\n", **user), run(program, ["store", path], **user)
    os.chmod(path, 0o644)
    yield "a file that may not be read", are_unusable(got, listed, path, DENIED) and read(path) == data, (got, listed)
    new = os.path.join(folder, "new")
    got = script(program, new, b"tick 9\n", **user)
    good = is_told(got, 12, unusable(new, MISSING)) and not os.path.exists(new) or os.geteuid() != 0 and got[0] == 0
    yield "a folder in which no file may be made", good, got


MANY = ["problem A 1"] + ["submit A"] * 500


def fills(program, folder):
    """A disk that takes no more: a limit on the size of files, and a small file system."""
    def few():
        signal.signal(signal.SIGXFSZ, signal.SIG_IGN)
        resource.setrlimit(resource.RLIMIT_FSIZE, (3000, 3000))

    texts, replies, _ = replayed({}, MANY)
    whole = text_of(reply for line in replies for reply in line)

    def look(store, **more):
        got = script(program, store, "\n".join(MANY).encode(), **more)
        now = held(read(store))[0]
        answered = 1 + got[1].count(b"\n")
        good = got[0] == 12 and got[2] == failing(store).encode() and whole.startswith(got[1]) and answered <= len(now) and now == texts[: len(now)]
        return good and len(now) > 20, got, len(now)

    store = os.path.join(folder, "few")
    good, got, count = look(store, preexec_fn=few)
    yield f"a file that may have no more bytes, behind {count} records", good, got[::2]
    got = script(program, store, "\n".join(MANY[count - 1 :]).encode())
    yield "and may have more again", got[0] == 0 and read(store) == file_of(texts), (got[0], got[2])
    place = os.path.join(folder, "disk")
    os.mkdir(place)
    mounted = subprocess.run(["mount", "-t", "tmpfs", "-o", "size=4k", "tmpfs", place], capture_output=True, check=False)
    if mounted.returncode:
        yield "skipped: a disk that is full, since none may be mounted", True, None
        return
    try:
        store = os.path.join(place, "store")
        good, got, count = look(store)
        yield f"a disk that is full, behind {count} records", good, got[::2]
        subprocess.run(["mount", "-o", "remount,size=80k", place], check=True)
        got = script(program, store, "\n".join(MANY[count - 1 :]).encode())
        yield "and has room again", got[0] == 0 and read(store) == file_of(texts), (got[0], got[2])
    finally:
        subprocess.run(["umount", place], check=True)


def at_once(program, folder):
    store = os.path.join(folder, "shared")
    first = subprocess.Popen([program, "script", "--store", store], stdin=subprocess.PIPE, stdout=subprocess.PIPE)
    first.stdin.write(b"problem A 1\n")
    first.stdin.flush()
    answered = first.stdout.readline()
    data = read(store)
    got, listed = script(program, store, b"problem B 1\n"), run(program, ["store", store])
    good = answered == b"problem A version 1\n" and are_unusable(got, listed, store, "another program has it open as a store")
    yield "two programs at once", good and read(store) == data, (got, listed)
    rest = first.communicate(b"submit A\n")[0]
    yield "and the first one goes on", rest == b"submission 1 judging 1\n" and first.returncode == 0, rest
    got = script(program, store, b"show 1\n")
    yield "and then the second one", got == (0, b"pending\n", b""), got


def streams(program, folder):
    store = os.path.join(folder, "streams")
    with open("/dev/full", "wb") as full:
        done = subprocess.run([program, "script", "--store", store], input=b"problem A 1\n", stdout=full, stderr=subprocess.PIPE, check=False)
    yield "an output that is full: what was not answered may be stored", done.returncode == 5 and len(held(read(store))[0]) in (1, 2), done
    with open("/dev/full", "wb") as full:
        done = subprocess.run([program, "store", store], stdout=full, stderr=subprocess.PIPE, check=False)
    yield "and of the listing", done.returncode == 5, done
    write(store, b"no store at all")
    with open("/dev/full", "wb") as full:
        done = subprocess.run([program, "store", store], stdout=full, stderr=subprocess.PIPE, check=False)
    yield "and of what is wrong with a file", done.returncode == 5 and read(store) == b"no store at all", done
    os.remove(store)
    first = script(program, store, b"problem A 1")
    second = script(program, store, b"")
    third = script(program, store, b"\n\n# nothing\nno line\nshow 1\n")
    good = first == (0, b"problem A version 1\n", b"") and second == (0, b"", b"") and third == (0, b"bad-line\nno-judging 1\n", b"")
    yield "no line feed, no line, and no event", good and read(store) == file_of([config_line(), b"problem A 1"]), (first, second, third)
    relative = run(program, ["script", "--store=here"], b"tick 1\n", cwd=folder)
    yield "a path without a folder", relative[0] == 0 and os.path.exists(os.path.join(folder, "here")), relative


def looks(program, folder, seed, killed):
    yield from streams(program, folder)
    yield from configurations(program, folder)
    yield from at_once(program, folder)
    yield from broken(program, folder, seed)
    yield from no_files(program, folder)
    yield from fills(program, folder)
    yield from plays_on(program, folder, seed)
    yield from kills(program, folder, seed, killed)


def main():
    program, numbers = program_and_numbers(sys.argv[1:])
    seed, killed = (numbers + [1, 300][len(numbers) :])[:2]
    sound = True
    with tempfile.TemporaryDirectory() as folder:
        for name, good, got in looks(program, folder, seed, killed):
            print(f"{'ok  ' if good else 'NOT '} {name}{'' if good else f': {got}'}", flush=True)
            sound = sound and good
    return 0 if sound else 1


if __name__ == "__main__":
    sys.exit(main())
