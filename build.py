#!/usr/bin/env python3
"""Builds programs of this repository, which proves all that they stand on, several crates at a time.

    ./farm --build [--jobs N] [NAME ..]

NAME is `farm` (if none is named), `validate`, `rvrun` or `package_info`; the program is then at crates/NAME/out/NAME. At most
N crates are proved at a time: if N is not said, as many as there are processors, and memory of 2.5 GB for each.

`rt` lets one command at a time work in a crate and in those below it. So each worker has a copy of the crates, and the
libraries that one has built are linked into the copies of the others. The copies stay, in `~/.cache/farm-build` or the
folder that FARM_BUILD names: a build that was interrupted goes on, and a later one proves what has changed and the crates
above it. The output of the command for each crate is in the folder `log` there.
"""

import contextlib
import fcntl
import filecmp
import hashlib
import json
import os
import re
import shutil
import signal
import subprocess
import sys
import threading
import time

TOP = os.path.dirname(os.path.abspath(__file__))
# What must hold of the toolchain: the proofs were seen to pass with this logic.
LOGIC = "dac8208d650f15bf"
# Each program, and words with which it ends at once.
PROGRAMS = {"farm": ["script"], "validate": [], "rvrun": [], "package_info": []}
PARTS = ("src", "specs", "proofs")
# What the check of a crate takes at the most, in KiB.
MEMORY = 2_500_000
USAGE = "usage: ./farm --build [--jobs N] [NAME ..], where NAME is one of " + ", ".join(PROGRAMS)


def say(text):
    # (where nobody reads it any more, the build goes on)
    with contextlib.suppress(OSError):
        print(f"farm: {text}", file=sys.stderr, flush=True)


def stop(text):
    say(text)
    sys.exit(1)


def toolchain():
    """Says where the toolchain is not as it must be, and returns what it calls itself."""
    if not shutil.which("rt"):
        stop(
            "the command `rt` of the Rattle toolchain is not on the path, so nothing can be proved or built: add the folder"
            " `bin` of the toolchain to PATH, and call this again"
        )
    ran = subprocess.run(["rt", "version"], capture_output=True, text=True, check=False)
    said = ran.stdout.strip()
    if ran.returncode != 0 or not said:
        stop(f"`rt version` failed, so nothing can be built: {ran.stderr.strip() or 'it said nothing'}")
    logic = re.search(r"\blogic ([0-9a-f]+)", said)
    if not logic or logic[1] != LOGIC:
        say(
            f"the toolchain is `{said}`, and the proofs were seen to pass with `logic {LOGIC}`; with another logic some may not,"
            " which would then be said of a crate. Going on"
        )
    return said


class Crates:
    """The crates of crates.txt: what each stands on, and a digest of all that its proof reads."""

    def __init__(self, version):
        self.below, self.lines, self.digests = {}, {}, {}
        with open(f"{TOP}/crates.txt", encoding="utf-8") as lines:
            for line in lines:
                name, _, rest = line.split("#")[0].partition(":")
                if name.strip():
                    self.below[name.split()[0]], self.lines[name.split()[0]] = rest.split(), line
        self.below = {name: [it for it in on if it in self.below] for name, on in self.below.items()}
        self.version = version

    def all_below(self, names):
        """The crates and all that they stand on, lowest first."""
        found = []

        def add(name):
            for it in self.below[name]:
                add(it)
            if name not in found:
                found.append(name)

        for name in names:
            add(name)
        return found

    def digest(self, name):
        if name not in self.digests:
            text = hashlib.sha256(f"{self.version}\n{self.lines[name]}".encode())
            for path in files_of(f"{TOP}/crates/{name}"):
                with open(path, "rb") as file:
                    text.update(f"{os.path.relpath(path, TOP)}\n".encode() + hashlib.sha256(file.read()).digest())
            for it in self.below[name]:
                text.update(f"{it} {self.digest(it)}\n".encode())
            self.digests[name] = text.hexdigest()
        return self.digests[name]


def files_of(crate):
    found = []
    for part in PARTS:
        for folder, _, names in os.walk(f"{crate}/{part}"):
            found += [f"{folder}/{it}" for it in names]
    return sorted(found)


def mirror(source, target):
    """Makes a folder the same as another, and leaves alone what is the same already."""
    wanted = os.listdir(source) if os.path.isdir(source) else []
    for name in set(os.listdir(target) if os.path.isdir(target) else []) - set(wanted):
        path = f"{target}/{name}"
        shutil.rmtree(path) if os.path.isdir(path) else os.remove(path)
    for name in wanted:
        one, other = f"{source}/{name}", f"{target}/{name}"
        if os.path.isdir(one):
            mirror(one, other)
        elif not (os.path.isfile(other) and filecmp.cmp(one, other, shallow=False)):
            os.makedirs(target, exist_ok=True)
            shutil.copy2(one, other)


def link_or_copy(source, target):
    try:
        os.link(source, target)
    except OSError:
        shutil.copy2(source, target)


def text_of(path):
    try:
        with open(path, encoding="utf-8") as file:
            return file.read()
    except OSError:
        return None


def memory():
    """The memory that is free for programs, in KiB."""
    found = re.search(r"MemAvailable:\s+(\d+)", text_of("/proc/meminfo") or "")
    return int(found[1]) if found else 4 * MEMORY


def clock(seconds):
    return f"{int(seconds) // 60}:{int(seconds) % 60:02}"


class Place:
    """The folder in which the copies are, which one build at a time uses."""

    def __init__(self):
        cache = os.environ.get("XDG_CACHE_HOME") or os.path.expanduser("~/.cache")
        home = os.environ.get("FARM_BUILD") or f"{cache}/farm-build"
        self.folder = f"{home}/{hashlib.sha256(TOP.encode()).hexdigest()[:12]}"
        try:
            for it in ("log", "built"):
                os.makedirs(f"{self.folder}/{it}", exist_ok=True)
            self.lock = open(f"{self.folder}/lock", "w", encoding="utf-8")
        except OSError as error:
            stop(f"{error}: nothing can be built there; name another folder in FARM_BUILD")
        try:
            fcntl.flock(self.lock, fcntl.LOCK_EX | fcntl.LOCK_NB)
        except BlockingIOError:
            say("another build of this checkout is at work; waiting for it")
            fcntl.flock(self.lock, fcntl.LOCK_EX)

    def crate(self, copy, name):
        return f"{self.folder}/copy-{copy}/crates/{name}"

    def log(self, name):
        return f"{self.folder}/log/{name}.log"

    def made(self, copy, name):
        """What the crate's command makes in a copy: a program or a library."""
        return f"{self.crate(copy, name)}/out/{name if name in PROGRAMS else 'rlib/stamp'}"

    def lay_out(self, copy, names):
        """Brings a copy of the sources up to date."""
        to = f"{self.folder}/copy-{copy}"
        os.makedirs(to, exist_ok=True)
        for name in names:
            for part in PARTS:
                mirror(f"{TOP}/crates/{name}/{part}", f"{to}/crates/{name}/{part}")
        for it in ("crates.txt", "HANDLES"):
            shutil.copy2(f"{TOP}/{it}", f"{to}/{it}")

    def copy_with(self, name, digest):
        """The copy in which this text of the crate was built, if it was."""
        with contextlib.suppress(TypeError, ValueError, KeyError):
            kept = json.loads(text_of(f"{self.folder}/built/{name}"))
            if kept["digest"] == digest and os.path.isfile(self.made(kept["copy"], name)):
                return kept["copy"]
        return None

    def keep(self, name, digest, copy):
        with open(f"{self.folder}/built/{name}", "w", encoding="utf-8") as file:
            json.dump({"digest": digest, "copy": copy}, file)

    def bring(self, name, source, copy):
        """Links a library that was built in one copy into another."""
        one, other = (f"{self.crate(it, name)}/out/rlib" for it in (source, copy))
        if source != copy and text_of(f"{one}/stamp") != text_of(f"{other}/stamp"):
            shutil.rmtree(other, ignore_errors=True)
            shutil.copytree(one, other, copy_function=link_or_copy)


class Build:
    """A build: which crates are done, and in which copy, and which are at work."""

    def __init__(self, crates, names, place, jobs):
        self.crates, self.place, self.jobs = crates, place, jobs
        self.wanted = crates.all_below(names)
        self.copies = {it: place.copy_with(it, crates.digest(it)) for it in self.wanted}
        self.todo = [it for it in self.wanted if self.copies[it] is None]
        self.chains = self.chains_of(self.todo)
        self.running, self.children, self.failed, self.stopped = {}, {}, None, False
        self.turn, self.began = threading.Condition(), time.time()

    def chains_of(self, names):
        """How long each crate takes with the longest chain of those that wait for it, by the size of their files."""
        chains = {}
        for name in reversed(names):
            above = [chains[it] for it in chains if name in self.crates.below[it]]
            chains[name] = sum(map(os.path.getsize, files_of(f"{TOP}/crates/{name}"))) + max(above, default=0)
        return chains

    def ready(self):
        """The crates whose turn it is, the one first for which most others wait."""
        left = [it for it in self.todo if self.copies[it] is None and it not in self.running]
        found = [it for it in left if all(self.copies[below] is not None for below in self.crates.below[it])]
        return sorted(found, key=self.chains.get, reverse=True)

    def is_over(self):
        return self.failed or all(self.copies[it] is not None for it in self.todo)

    def take(self):
        """Waits for a crate, and gives it and how many processors its check may use; None where the build is over."""
        with self.turn:
            while True:
                if self.is_over():
                    return None
                ready = self.ready()
                if ready:
                    break
                self.turn.wait()
            self.running[ready[0]] = time.time()
            beside = min(self.jobs, len(self.running) + len(ready) - 1)
            return ready[0], max(1, min(4, self.jobs // beside))

    def prove(self, copy, name, processors):
        """Proves and builds a crate, and returns whether it was built."""
        made, words = self.place.made(copy, name), ["--jobs", str(processors)]
        if name in PROGRAMS:
            words = ["rt", "run", *words, "--", *PROGRAMS[name]]
        else:
            words = ["rt", "lib", *words]
        for it in self.crates.all_below([name])[:-1]:
            self.place.bring(it, self.copies[it], copy)
        if name in PROGRAMS and os.path.isfile(made):
            # (`rt run` ends as the program does, so that it was built is seen by its file)
            os.remove(made)
        child = self.begin(words, name, self.place.crate(copy, name))
        status = child.wait() if child else 1
        return os.path.isfile(made) and (name in PROGRAMS or status == 0)

    def begin(self, words, name, folder):
        """Starts a crate's command, unless the build was stopped."""
        with self.turn, open(self.place.log(name), "wb") as log:
            if self.stopped:
                return None
            self.children[name] = subprocess.Popen(
                words, cwd=folder, stdin=subprocess.DEVNULL, stdout=log, stderr=log, start_new_session=True
            )
            return self.children[name]

    def work(self, copy):
        while True:
            taken = self.take()
            if not taken:
                return
            name, processors = taken
            try:
                is_built = self.prove(copy, name, processors)
            except OSError as error:
                is_built = False
                self.note(name, f"build.py: {error}")
            with self.turn:
                seconds = time.time() - self.running.pop(name)
                self.children.pop(name, None)
                if is_built:
                    self.copies[name] = copy
                    with contextlib.suppress(OSError):
                        self.place.keep(name, self.crates.digest(name), copy)
                    self.tell(name, seconds)
                else:
                    self.failed = self.failed or name
                self.turn.notify_all()

    def note(self, name, line):
        """Puts a line behind what a crate's command said, if it can be put anywhere."""
        with contextlib.suppress(OSError), open(self.place.log(name), "a", encoding="utf-8") as log:
            log.write(f"{line}\n")

    def count(self):
        return sum(self.copies[it] is not None for it in self.todo)

    def tell(self, name, seconds):
        """Where nobody watches, a line for each crate."""
        if not sys.stderr.isatty():
            say(f"{self.count()} of {len(self.todo)} crates: {name} is proved, in {clock(seconds)}")

    def show(self):
        """On a terminal, one line says which crates are being proved, and for how long."""
        now = time.time()
        running = sorted(self.running.items(), key=lambda it: it[1])
        at_work = ", ".join(f"{name} {clock(now - since)}" for name, since in running)
        line = f"farm: {self.count()} of {len(self.todo)} crates are proved, {clock(now - self.began)}; at work: {at_work}"
        print("\r\033[K" + line[: shutil.get_terminal_size().columns - 1], end="", file=sys.stderr, flush=True)

    def end_children(self):
        with self.turn:
            self.stopped = True
            for child in self.children.values():
                with contextlib.suppress(ProcessLookupError):
                    os.killpg(child.pid, signal.SIGTERM)

    def run(self):
        """Builds all, and returns whether it could."""
        workers = [threading.Thread(target=self.work, args=(copy,), daemon=True) for copy in range(self.jobs)]
        for it in workers:
            it.start()
        try:
            while not self.is_over():
                if sys.stderr.isatty():
                    self.show()
                with self.turn:
                    self.turn.wait(1)
        finally:
            if sys.stderr.isatty():
                print("\r\033[K", end="", file=sys.stderr, flush=True)
            self.end_children()
            for it in workers:
                it.join()
        return not self.failed


def tell_failure(place, name):
    log = place.log(name)
    said = (text_of(log) or "").splitlines()[-20:]
    print("\n".join(said), file=sys.stderr)
    killed = any("killed" in it for it in said)
    stop(
        f"the crate {name} was not proved or not built; all that was said of it is in {log}. "
        + (
            "Its check was killed, most likely for memory: call this again with --build --jobs 1, it goes on where it stopped"
            if killed
            else f"Where its sources or those below it were changed, `rt check` in crates/{name} says what is missing; where they"
            f" were not, see that `rt version` says logic {LOGIC}, and call this again, it goes on where it stopped"
        )
    )


def install(place, build, names, began):
    """Puts the programs where they are looked for. They are as old as the sources that were read."""
    for name in names:
        to = f"{TOP}/crates/{name}/out"
        os.makedirs(to, exist_ok=True)
        shutil.copy2(place.made(build.copies[name], name), f"{to}/{name}.new")
        os.utime(f"{to}/{name}.new", (began, began))
        os.replace(f"{to}/{name}.new", f"{to}/{name}")


def words_of(words):
    """The programs that are to be built, and how many crates at a time, if it is said."""
    names, jobs = [], None
    while words:
        word = words.pop(0)
        if word == "--jobs" and words and words[0].isdigit() and int(words[0]) > 0:
            jobs = int(words.pop(0))
        elif word in PROGRAMS:
            names.append(word)
        else:
            print(USAGE, file=sys.stderr)
            sys.exit(2)
    return names or ["farm"], jobs


def main():
    names, jobs = words_of(sys.argv[1:])
    crates, place, began = Crates(toolchain()), Place(), time.time()
    jobs = jobs or max(1, min(len(os.sched_getaffinity(0)), memory() // MEMORY))
    build = Build(crates, names, place, jobs)
    if build.todo:
        for copy in range(jobs):
            place.lay_out(copy, crates.below)
        say(
            f"building {' '.join(names)}: {len(build.todo)} of {len(build.wanted)} crates are to be proved, {jobs} at a time;"
            f" the logs are in {place.folder}/log"
        )
        if not build.run():
            tell_failure(place, build.failed)
        say(f"built {' '.join(names)} in {clock(time.time() - began)}")
    install(place, build, names, began)


def interrupted(*_):
    raise KeyboardInterrupt


if __name__ == "__main__":
    for it in (signal.SIGTERM, signal.SIGHUP):
        signal.signal(it, interrupted)
    try:
        main()
    except KeyboardInterrupt:
        stop("interrupted; call this again, and it goes on where it stopped")
