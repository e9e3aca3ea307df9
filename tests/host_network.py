#!/usr/bin/env python3
"""Runs `farm serve` and its judgehosts in two network namespaces, with delay and loss between them.

    tests/host_network.py [PROGRAM [SEED]]

PROGRAM is the built program, `crates/farm/out/farm` of this repository if none is given. It is run by hand, and wants root and
iproute2. Packets are late and lost by the kernel's netem; where it has none, the namespaces are joined by two tun devices, and
this script carries their packets. One line is printed for each look, and the status is 1 where one shows something else
than is wanted, and 77 where this machine cannot show it.
"""

import contextlib
import ctypes
import fcntl
import heapq
import http.client
import os
import random
import select
import shutil
import struct
import subprocess
import sys
import tempfile
import threading
import time

sys.dont_write_bytecode = True

from host import contest, table_of  # noqa: E402
from place import program_and_numbers  # noqa: E402
from serve import ask  # noqa: E402

NEAR, FAR = f"farm-near-{os.getpid()}", f"farm-far-{os.getpid()}"
ADDRESS, OTHER = "10.77.0.1", "10.77.0.2"
PORT = 8080
# of one way, in seconds, and of a hundred packets
DELAY, JITTER, LOSS = 0.02, 0.005, 2


def ip(*words):
    subprocess.run(["ip", *words], check=True, capture_output=True)


def refuse(why):
    print(f"host_network.py: {why}")
    sys.exit(77)


class Relay:
    """Two tun devices whose packets go from one to the other, each late, and some of them not at all."""

    def __init__(self, seed):
        self.draw, self.loss, self.passed, self.lost = random.Random(f"packets {seed}"), LOSS, 0, 0
        self.ends = [self.end("farm-tun-a", NEAR), self.end("farm-tun-b", FAR)]
        self.ended = False
        self.thread = threading.Thread(target=self.carry, daemon=True)

    @staticmethod
    def end(name, namespace):
        device = os.open("/dev/net/tun", os.O_RDWR | os.O_NONBLOCK)
        # TUNSETIFF, with IFF_TUN and IFF_NO_PI
        fcntl.ioctl(device, 0x400454CA, struct.pack("16sH", name.encode(), 0x1001))
        ip("link", "set", "dev", name, "netns", namespace)
        return device

    def start(self):
        self.thread.start()

    def carry(self):
        waiting, count = [], 0
        while not self.ended:
            now = time.monotonic()
            left = min(0.1, max(0.0, waiting[0][0] - now)) if waiting else 0.1
            for device in select.select(self.ends, [], [], left)[0]:
                packet = os.read(device, 65536)
                if self.draw.uniform(0, 100) < self.loss:
                    self.lost += 1
                    continue
                count += 1
                due = time.monotonic() + DELAY + self.draw.uniform(-JITTER, JITTER)
                heapq.heappush(waiting, (due, count, self.ends[1 - self.ends.index(device)], packet))
            while waiting and waiting[0][0] <= time.monotonic():
                _, _, device, packet = heapq.heappop(waiting)
                with contextlib.suppress(OSError):
                    os.write(device, packet)
                    self.passed += 1

    def lose(self, loss):
        self.loss = loss

    def said(self):
        return f"{self.passed} packets passed, {self.lost} lost"

    def end_all(self):
        self.ended = True
        self.thread.join()
        for device in self.ends:
            os.close(device)


class Netem:
    """Two ends of a veth pair, each with the kernel's own delay and loss."""

    def __init__(self):
        ip("link", "add", "farm-tun-a", "netns", NEAR, "type", "veth", "peer", "name", "farm-tun-b", "netns", FAR)
        self.lose(LOSS, "add")

    def start(self):
        pass

    def lose(self, loss, verb="change"):
        for namespace, name in [(NEAR, "farm-tun-a"), (FAR, "farm-tun-b")]:
            words = ["delay", f"{DELAY * 1000}ms", f"{JITTER * 1000}ms", "loss", f"{loss}%"]
            done = subprocess.run(["tc", "-n", namespace, "qdisc", verb, "dev", name, "root", "netem", *words], capture_output=True, check=False)
            if done.returncode:
                ip("-n", namespace, "link", "del", "dev", name)
                raise OSError(done.stderr.decode())

    def said(self):
        done = subprocess.run(["tc", "-s", "-n", FAR, "qdisc", "show", "dev", "farm-tun-b"], capture_output=True, check=True)
        return " ".join(done.stdout.decode().split()[-16:])

    def end_all(self):
        pass


@contextlib.contextmanager
def network(seed):
    """The two namespaces, and what joins them."""
    ip("netns", "add", NEAR)
    ip("netns", "add", FAR)
    try:
        try:
            line = Netem()
        except OSError:
            line = Relay(seed)
        for namespace, name, address in [(NEAR, "farm-tun-a", ADDRESS), (FAR, "farm-tun-b", OTHER)]:
            ip("-n", namespace, "addr", "add", f"{address}/24", "dev", name)
            ip("-n", namespace, "link", "set", name, "up")
            ip("-n", namespace, "link", "set", "lo", "up")
        line.start()
        yield line
        line.end_all()
    finally:
        ip("netns", "del", NEAR)
        ip("netns", "del", FAR)


@contextlib.contextmanager
def inside(namespace):
    """What this thread opens is in the namespace."""
    library = ctypes.CDLL(None, use_errno=True)
    with open("/proc/thread-self/ns/net") as own, open(f"/run/netns/{namespace}") as other:
        if library.setns(other.fileno(), 0):
            raise OSError(ctypes.get_errno(), "setns")
        try:
            yield
        finally:
            library.setns(own.fileno(), 0)


def board():
    """The board's verdicts, as who is beside the server sees them."""
    with inside(NEAR):
        client = http.client.HTTPConnection(ADDRESS, PORT, timeout=10)
        rows = ask(client, "GET", "/board")[1]
        client.close()
    return table_of(rows)


@contextlib.contextmanager
def served(program, folder, *options):
    words = ["ip", "netns", "exec", NEAR, program, "serve", folder, "--address", ADDRESS, "--port", str(PORT), "--lanes", "16", "--connections", "100000", *options]
    with subprocess.Popen(words, stdout=subprocess.DEVNULL, stderr=subprocess.PIPE) as server:
        said = b"note: "
        while said.startswith(b"note: "):
            said = server.stderr.readline()
        try:
            yield server
        finally:
            server.kill()
            server.communicate()


def start(program, number, *words):
    command = ["ip", "netns", "exec", FAR, program, "host", ADDRESS, "--port", str(PORT), "--name", f"h{number}", "--fuel", "100000", *words]
    return subprocess.Popen(command, stdout=subprocess.PIPE, stderr=subprocess.PIPE)


def looks(program, folder, seed, line):
    verdicts = contest(program, os.path.join(folder, "contest"), 3)
    with served(program, os.path.join(folder, "contest")):
        begun = time.monotonic()
        said, told = start(program, 1).communicate()
        seconds, words = time.monotonic() - begun, said.decode().split()
        yield f"one host in {seconds:.1f} s: {said.decode().strip()}", words[-1:] == ["idle"] and not told and board() == verdicts, (said, told, board(), verdicts)
    draw, killed = random.Random(f"network {seed}"), 0
    with served(program, os.path.join(folder, "contest")):
        # one lane is for who asks for the board
        hosts = [start(program, number, "--wait", "1") for number in range(1, 16)]
        begun, shown, wrong = time.monotonic(), None, []
        while time.monotonic() - begun < 120:
            shown = board()
            if shown == verdicts and killed >= 30:
                break
            time.sleep(draw.random() * 0.3)
            if killed < 30:
                at, killed = draw.randrange(len(hosts)), killed + 1
                hosts[at].kill()
                wrong.append(hosts[at].communicate()[1])
                hosts[at] = start(program, at + 1, "--wait", "1")
        seconds = time.monotonic() - begun
        for it in hosts:
            it.kill()
            wrong.append(it.communicate()[1])
        yield f"fifteen hosts in {seconds:.1f} s, {killed} times one of them killed", shown == verdicts and not any(wrong), (shown, verdicts, wrong)
    yield line.said(), True, None
    with served(program, os.path.join(folder, "contest"), "--patience", "20") as server:
        silent = start(program, 1, "--wait", "1")
        while silent.poll() is None and board() != verdicts:
            time.sleep(0.5)
        line.lose(100)
        begun = time.monotonic()
        said, told = silent.communicate(timeout=200)
        seconds = time.monotonic() - begun
        good = silent.returncode == 10 and said == b"" and told.count(b"\n") == 1 and server.poll() is None
        yield f"a line that is cut for good: the host ends after {seconds:.0f} s", good, (silent.returncode, said, told)


def main():
    program, numbers = program_and_numbers(sys.argv[1:])
    if os.geteuid() != 0:
        refuse("wants root, for network namespaces")
    if not (shutil.which("ip") and shutil.which("tc")):
        refuse("wants iproute2: the programs ip and tc")
    seed, sound = (numbers or [1])[0], True
    with tempfile.TemporaryDirectory() as folder, network(seed) as line:
        print(f"a line of {2000 * DELAY:.0f} ms there and back that loses {LOSS} packets of a hundred, by {type(line).__name__.lower()}", flush=True)
        for name, good, got in looks(program, folder, seed, line):
            print(f"{'ok  ' if good else 'NOT '} {name}{'' if good else f': {got}'}", flush=True)
            sound = sound and good
    return 0 if sound else 1


if __name__ == "__main__":
    sys.exit(main())
