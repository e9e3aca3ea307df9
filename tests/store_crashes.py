#!/usr/bin/env python3
"""Crashes stores at each call of their disk, and opens what a crash may leave.

    tests/store_crashes.py [PROGRAM] [IMAGES [SEED]]

PROGRAM is the built program, `crates/farm/out/farm` of this repository if none is given. Scripts are played by `farm script
--store`, by a client that waits for the replies to some lines before it writes the next ones. What the program asks of its disk
and puts on its output is written down in one order by `calls.c`, which a C compiler makes a shared object of. From this the
moments of the disk are computed here: a write is pending until the next sync. A crash may leave any bytes in what is pending, and
any length from the synced one to the greatest that was written; of these a family is taken: each length, and in what is pending
the old bytes, the new ones, zeros, ones, random bytes, and old and new ones mixed.

Each image is opened by the program, which answers questions about its farm. Wanted is that it holds a prefix of the events that are
stored, with each to whose line a part of the reply was put before the crash, and that the answers and the file that the opening
leaves are those of the model of the farm and of stores (`farm_model.py`, `store.py`), which were written apart from the program.
Some images are played on to the end of their script, and some are crashed again while they are opened. Where a first opening was
crashed, so that the gate is neither 0 nor 1, and the next one too, the file may be refused as one that is no store: nothing was
answered by then, and nothing is written to it.

A rejudging is taken at every moment with every image, and random scripts with IMAGES images, 3,000 if not said. Besides, each
write and each sync of the rejudging fails in turn: wanted is status 12 with a prefix of the replies, no call of the disk behind the
one that failed, and a store that holds each event that was answered. The status is 1 where something else than is wanted was seen.
"""

import concurrent.futures
import os
import random
import shutil
import subprocess
import sys
import tempfile

sys.dont_write_bytecode = True

from farm_model import Farm  # noqa: E402
from place import OUT, TOP, program_and_numbers  # noqa: E402
from random_scripts import draw_settings, random_script  # noqa: E402
from store import QUESTIONS, Played, config_line, failing, file_of, held, is_unborn, look_at_list, no_store, read, run, text_of, write  # noqa: E402

REJUDGING = """problem A 1
submit A
submit A
record 1 1 correct
record 2 1 wrong-answer
rejudge 1,2
record 3 1 wrong-answer
apply 1
board
record 4 1 correct
matrix 1
apply 1
board""".splitlines()

ASKED = "\n".join(QUESTIONS).encode()
FILLS = ["old", "new", "zeros", "ones", "random", "mixed"]


def make_recorder():
    """The shared object that writes calls down."""
    compiler = shutil.which("cc") or shutil.which("gcc")
    if compiler is None:
        sys.exit("no C compiler here")
    library = os.path.join(OUT, "calls.so")
    subprocess.run([compiler, "-O1", "-shared", "-fPIC", "-o", library, os.path.join(TOP, "tests", "calls.c")], check=True)
    return library


class Script:
    """A script, and what the models say of it."""

    def __init__(self, name, lines, said=b"", kept=None):
        self.name, self.lines, self.said, self.kept = name, lines, said, kept or {}
        played = Played(said, **self.kept)
        self.replies, self.counts = [], []
        for line in lines:
            self.replies.append(played.answer(line.encode()))
            self.counts.append(len(played.lines))
        self.texts = played.lines
        self.whole = text_of(reply for line in self.replies for reply in line)
        farm = Farm(**self.kept)
        self.answers = [answers_of(farm)] * 2
        for text in self.texts[1:]:
            farm.answer(text)
            self.answers.append(answers_of(farm))

    def acknowledged(self, put):
        """How many records are held at least once so many bytes of the replies were put."""
        count, written = 0, 0
        for replies, reached in zip(self.replies, self.counts):
            if written >= put:
                break
            written += len(text_of(replies))
            count = reached
        return count

    def words(self, path, settings):
        """The words that play it, with the settings of a file."""
        if not self.said:
            return ["script", "--store", path]
        write(settings, self.said)
        return ["script", "--store", path, "--config", settings]


def answers_of(farm):
    return text_of(reply for question in QUESTIONS for reply in farm.answer(question.encode()))


# The calls of a run.


def calls_in(data):
    """The calls that were written down: a word each, with an offset or without, and with bytes or without."""
    at = 0
    while at < len(data):
        end = data.index(b"\n", at)
        word, *numbers = data[at:end].split()
        at = end + 1
        size = int(numbers[-1]) if word in (b"write", b"put") else 0
        yield word, int(numbers[0]) if word == b"write" else 0, data[at : at + size]
        at += size


def fed(program, library, words, lines, replies, sizes, fail=0):
    """The calls of a run with these words, and how it ended: status, standard output and standard error. Its client waits for the
    replies to some lines, as many as a size says, before it writes the next ones."""
    with tempfile.TemporaryDirectory() as folder:
        path = os.path.join(folder, "calls")
        env = dict(os.environ, LD_PRELOAD=library, CALLS=path, FAIL=str(fail))
        client = subprocess.Popen([program, *words], stdin=subprocess.PIPE, stdout=subprocess.PIPE, stderr=subprocess.PIPE, env=env)
        at, text = 0, b""
        try:
            while at < len(lines):
                size = next(sizes)
                client.stdin.write(b"".join(line.encode() + b"\n" for line in lines[at : at + size]))
                client.stdin.flush()
                wanted = text_of(reply for line in replies[at : at + size] for reply in line)
                got = client.stdout.read(len(wanted)) if wanted else b""
                text += got
                if got != wanted:
                    break
                at += size
            client.stdin.close()
        except OSError:
            pass
        text += client.stdout.read()
        said = client.stderr.read()
        for stream in (client.stdout, client.stderr):
            stream.close()
        return list(calls_in(read(path) if os.path.exists(path) else b"")), (client.wait(), text, said)


def recorded(program, library, words, lines, replies, sizes):
    """The calls of a run that answers all of these lines so."""
    calls, end = fed(program, library, words, lines, replies, sizes)
    if end != (0, text_of(reply for line in replies for reply in line), b""):
        sys.exit(f"{words} ended with {end[0]}: {end[1][-100:]}, {end[2]}")
    return calls


# The disk.


class Disk:
    def __init__(self, data):
        self.seen = self.synced = data
        self.pending = []

    def call(self, word, at, data):
        if word == b"sync":
            self.synced, self.pending = self.seen, []
        else:
            assert at <= len(self.seen)
            self.seen = self.seen[:at] + data + self.seen[at + len(data) :]
            self.pending = self.pending + [(at, len(data))]

    def lengths(self):
        """The lengths that a crash may leave."""
        greatest = max([len(self.synced)] + [at + size for at, size in self.pending])
        return range(len(self.synced), greatest + 1)

    def image(self, fill, length, draw):
        """What a crash may leave, with this in what is pending."""
        data = bytearray(self.synced.ljust(self.lengths()[-1], b"\0"))
        for at, size in self.pending:
            for place in range(at, at + size):
                old, new = data[place], self.seen[place]
                mixed = draw.choice([old, new])
                data[place] = {"old": old, "new": new, "zeros": 0, "ones": 1, "random": draw.randrange(256), "mixed": mixed}[fill]
        return bytes(data[:length])

    def images(self, draw):
        """All of the family."""
        if not self.pending:
            return [self.synced]
        return [self.image(fill, length, draw) for fill in FILLS for length in self.lengths()]


def moments(data, calls):
    """The disk, which had these bytes, behind each of its calls, and how many bytes were put by then."""
    disk, put = Disk(data), 0
    yield disk, put
    for word, at, given in calls:
        if word == b"put":
            put += len(given)
        else:
            disk.call(word, at, given)
        yield disk, put


# What is looked at.


def opened_file(script, data):
    """The file that an opening leaves."""
    lines, at = held(data)
    if not lines:
        begun = file_of([config_line(script.said)])
        return begun + data[len(begun) :]
    return data[:at] + (b"\0" if data[at] == 1 else data[at : at + 1]) + data[at + 1 :]


def look(program, folder, script, data, least, deeper, again=False):
    """What is otherwise than wanted of an image in which so many records are held at least. None where nothing is."""
    path, settings = os.path.join(folder, "store"), os.path.join(folder, "settings.json")
    lines, _ = held(data)
    count = len(lines)
    if lines != script.texts[:count] or count < least:
        return script.name, "held", least, lines[-2:], data
    words = script.words(path, settings)
    if not lines and not is_unborn(data):
        write(path, data)
        got = run(program, words, ASKED)
        told = got == (13, b"bad store: record 1\n", no_store(path).encode()) and read(path) == data
        return None if told and again and data[0] > 1 else (script.name, "refused", got, data)
    if deeper:
        found = look_at_list(program, path, data)
        if found:
            return script.name, "listed", found
    write(path, data)
    got = run(program, words, ASKED)
    if got != (0, script.answers[max(count, 1)], b"") or read(path) != opened_file(script, data):
        return script.name, "opened", count, got, data, read(path)
    if deeper:
        at = next((place for place, reached in enumerate(script.counts) if reached > max(count, 1)), len(script.lines))
        rest = text_of(reply for line in script.replies[at:] for reply in line)
        got = run(program, words, "\n".join(script.lines[at:]).encode())
        all_of_it = file_of(script.texts)
        if got != (0, rest, b"") or read(path)[: len(all_of_it)] != all_of_it:
            return script.name, "played on", count, got[0], got[2], data
    return None


def look_at_all(program, script, images, again):
    """The first things that are otherwise than wanted of these images, each with how many records are held at least."""
    wrong = []
    with tempfile.TemporaryDirectory() as folder:
        for number, (data, least) in enumerate(images):
            found = look(program, folder, script, data, least, number % 8 == 0, again)
            if found:
                wrong.append(found)
    return wrong[:2]


def crashed_again(program, library, script, images):
    """Opens these images, and gives what crashes of the openings may leave, some of each. What was held before them is held
    behind them."""
    draw, crashed = random.Random(f"again {script.name} {len(images)}"), []
    with tempfile.TemporaryDirectory() as folder:
        path, settings = os.path.join(folder, "store"), os.path.join(folder, "settings.json")
        for data, _ in images:
            write(path, data)
            calls = recorded(program, library, script.words(path, settings), [], [], None)
            least = len(held(data)[0])
            for disk, _ in moments(data, calls):
                if disk.pending:
                    crashed += [(disk.image(fill, draw.choice(disk.lengths()), draw), least) for fill in FILLS]
    return crashed


def all_images(script, calls, draw):
    """Each image at each moment."""
    return [(image, script.acknowledged(put)) for disk, put in moments(b"", calls) for image in disk.images(draw)]


def some_images(script, calls, draw, count):
    """Images at moments that are drawn."""
    places = sorted(draw.randrange(len(calls) + 1) for _ in range(count))
    images = []
    for number, (disk, put) in enumerate(moments(b"", calls)):
        for _ in range(places.count(number)):
            data = disk.image(draw.choice(FILLS), draw.choice(disk.lengths()), draw)
            images.append((data, script.acknowledged(put)))
    return images


def calls_of(program, library, script, sizes):
    with tempfile.TemporaryDirectory() as folder:
        words = script.words(os.path.join(folder, "store"), os.path.join(folder, "settings.json"))
        calls = recorded(program, library, words, script.lines, script.replies, sizes)
        put = b"".join(given for word, _, given in calls if word == b"put")
        *_, (disk, _) = moments(b"", calls)
        if put != script.whole or disk.pending or not disk.seen == read(os.path.join(folder, "store")) == file_of(script.texts):
            sys.exit(f"{script.name}: the run is not as wanted, or was not written down")
        return calls


def fail_each(program, library, script):
    """Lets each call of the disk fail in turn: how many there are, and what is otherwise than wanted."""
    wrong, number = [], 1
    while True:
        with tempfile.TemporaryDirectory() as folder:
            store = os.path.join(folder, "store")
            words = script.words(store, os.path.join(folder, "settings.json"))
            calls, end = fed(program, library, words, script.lines, script.replies, iter(lambda: 1, 0), number)
            places = [place for place, (word, _, _) in enumerate(calls) if word == b"failed"]
            if not places:
                return number - 1, wrong + ([] if end == (0, script.whole, b"") else [(script.name, "none failed", end)])
            told = end[0] == 12 and script.whole.startswith(end[1]) and end[2] == failing(store).encode()
            if not told or places != [len(calls) - 1]:
                wrong.append((script.name, f"call {number} fails", end, calls[-3:]))
            least = script.acknowledged(len(end[1]))
            found = look(program, folder, script, read(store) if os.path.exists(store) else b"", least, True)
            wrong += [(f"call {number} failed", found)] if found else []
            number += 1


def pieces(images, count=100):
    return [images[at : at + count] for at in range(0, len(images), count)]


def look_by_many(pool, name, program, tasks, again=False):
    """Looks at images, several at a time, and prints what was seen."""
    looking = [pool.submit(look_at_all, program, script, piece, again) for script, images in tasks for piece in pieces(images)]
    wrong = [found for done in looking for found in done.result()]
    print(f"{'NOT ' if wrong else 'ok  '} {name}: {sum(len(images) for _, images in tasks):,} images{''.join(map(str, wrong[:2]))}", flush=True)
    return not wrong


def drawn(program, library, turn, count):
    """A random script, and some images of its run."""
    kept, _ = draw_settings(random.Random(f"settings {turn}"))
    said, lines, _ = random_script(turn)
    script, draw = Script(f"script {turn}", lines, said.encode(), kept), random.Random(f"images {turn}")
    calls = calls_of(program, library, script, iter(lambda: draw.choice([1, 1, 3, 20]), 0))
    return script, some_images(script, calls, draw, count)


def in_parts(pool, work, *words):
    """What this gives for each part, several at a time."""
    return [pair for done in [pool.submit(work, *words[:-1], part) for part in words[-1]] for pair in done.result()]


def main():
    program, numbers = program_and_numbers(sys.argv[1:])
    count, seed = (numbers + [3_000, 1][len(numbers) :])[:2]
    library, draw = make_recorder(), random.Random(f"images {seed}")
    rejudging = Script("rejudging", REJUDGING)
    calls = calls_of(program, library, rejudging, iter(lambda: 1, 0))
    syncs = sum(word == b"sync" for word, _, _ in calls)
    every = all_images(rejudging, calls, draw)
    with concurrent.futures.ProcessPoolExecutor(os.cpu_count()) as pool:
        sound = look_by_many(pool, f"a rejudging, at each moment of {syncs} syncs", program, [(rejudging, every)])
        begun = [pair for pair in every if not held(pair[0])[0]]
        again = in_parts(pool, crashed_again, program, library, rejudging, pieces(draw.sample(begun, min(len(begun), 100)), 25))
        name = "a store that is crashed while it is begun, and again while it is opened"
        sound = look_by_many(pool, name, program, [(rejudging, again)], again=True) and sound
        scripts = max(1, min(40, count // 100))
        making = [pool.submit(drawn, program, library, turn, -(-count // scripts)) for turn in range(seed * 1000, seed * 1000 + scripts)]
        sound = look_by_many(pool, f"{scripts} random scripts", program, [made.result() for made in making]) and sound
        count, wrong = pool.submit(fail_each, program, library, rejudging).result()
    print(f"{'NOT ' if wrong else 'ok  '} each of {count} writes and syncs fails{''.join(map(str, wrong[:2]))}", flush=True)
    return 0 if sound and not wrong else 1


if __name__ == "__main__":
    sys.exit(main())
