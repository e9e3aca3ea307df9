#!/usr/bin/env python3
"""Times what the public sees of `farm serve`, on this machine.

    bench/http/board.py [PROGRAM [SECONDS]] [--beside PROGRAM]

PROGRAM is the built program, `crates/farm/out/farm` of this repository if none is given. Printed are the results a second
that are counted from one judgehost, which takes 16 tests at a time and sends their results at once, in contests of 1,000,
10,000 and 100,000 submissions of 20 tests, over SECONDS seconds (10) at the most each; with `--beside` those of another
program too, in turn. Then how often a second `GET /public` of 1,000 submissions is answered over 4 connections, by `wrk`,
beside nginx, which sends the same bytes: while nobody else asks, and while a judgehost works. Wants `wrk` and `nginx`.
"""

import json
import os
import re
import shutil
import socket
import subprocess
import sys
import tempfile
import threading
import time

sys.dont_write_bytecode = True
sys.path.insert(0, os.path.join(os.path.dirname(os.path.abspath(__file__)), "..", "..", "tests"))

from judge import write  # noqa: E402
from place import program_and_numbers  # noqa: E402
from serve import FILES, Server, request  # noqa: E402

TESTS = 20
NGINX = """
daemon off; worker_processes 2; pid {folder}/pid; error_log {folder}/error.log;
events {{ worker_connections 1024; }}
http {{
  access_log off; keepalive_requests 100000000; default_type application/json; server_tokens off; sendfile on;
  client_body_temp_path {folder}/a; proxy_temp_path {folder}/b; fastcgi_temp_path {folder}/c; uwsgi_temp_path {folder}/d;
  scgi_temp_path {folder}/e; open_file_cache max=10;
  server {{ listen 127.0.0.1:{port} reuseport; root {folder}/www; }}
}}
"""


def contest(folder, count):
    """A contest of so many submissions, each of 20 tests."""
    tests = {f"problems/echo/data/secret/{n:02}.{end}": "7\n" for n in range(1, TESTS + 1) for end in ("in", "ans")}
    lines = "".join(f"{n} otters echo a.rv32\n" for n in range(1, count + 1))
    write(folder, {name: text for name, text in FILES.items() if "/data/" not in name} | tests | {"submissions.txt": lines, "farm.json": "{}"})


class Host:
    """A judgehost that takes tests and sends results as fast as it can, without running anything."""

    def __init__(self, server):
        self.conn = server.connect()
        self.got = b""
        self.counted = 0
        self.ask([request("POST", "/judgehosts", '{"hostname":"h1"}')])

    def ask(self, requests):
        """Sends all of these at once, and gives the bodies of their responses."""
        self.conn.sendall(b"".join(requests))
        bodies = []
        while len(bodies) < len(requests):
            head = self.got.find(b"\r\n\r\n")
            size = int(re.search(rb"content-length: (\d+)", self.got[:head])[1]) if head >= 0 else 0
            if head < 0 or len(self.got) < head + 4 + size:
                self.got += self.conn.recv(1 << 20)
            else:
                bodies.append(self.got[head + 4:head + 4 + size])
                self.got = self.got[head + 4 + size:]
        return bodies

    def turn(self):
        """Takes tests and sends their results; whether there were any."""
        batch = json.loads(self.ask([request("POST", "/judgehosts/fetch-work", '{"hostname":"h1","max":16}')])[0])
        if batch["reply"] != "batch":
            return False
        run = '{{"hostname":"h1","judging":{},"test":{},"result":"correct"}}'
        runs = [request("POST", "/judgehosts/add-judging-run", run.format(batch["judging"], test)) for test in batch["tests"]]
        self.counted += sum(body == b'{"reply":"counted"}' for body in self.ask(runs))
        return True


def results(program, count, seconds):
    """The results a second that are counted, in a contest of so many submissions."""
    with tempfile.TemporaryDirectory() as folder:
        contest(folder, count)
        with Server(program, folder, lanes=2) as server:
            host, begun = Host(server), time.monotonic()
            while time.monotonic() - begun < seconds and host.turn():
                pass
            return host.counted / (time.monotonic() - begun)


def wrk(port, path, seconds):
    done = subprocess.run(
        ["wrk", "-t", "2", "-c", "4", "-d", f"{seconds}s", f"http://127.0.0.1:{port}{path}"], capture_output=True, text=True, check=True)
    return float(re.search(r"Requests/sec:\s+([\d.]+)", done.stdout)[1])


def work_on(host, stop):
    while not stop.is_set() and host.turn():
        pass


def readers(program, seconds):
    """Requests a second for what the public sees: alone, while a judgehost works, and of nginx; and that host's results."""
    with tempfile.TemporaryDirectory() as folder, socket.socket() as free:
        contest(folder, 1000)
        free.bind(("127.0.0.1", 0))
        port = free.getsockname()[1]
        free.close()
        with Server(program, folder, lanes=6) as server:
            conn = server.connect()
            conn.sendall(request("GET", "/public"))
            got = b""
            while not got.endswith(b"]}"):
                got += conn.recv(1 << 20)
            conn.close()
            os.mkdir(os.path.join(folder, "www"))
            with open(os.path.join(folder, "www", "public"), "wb") as file:
                file.write(got[got.index(b"\r\n\r\n") + 4:])
            with open(os.path.join(folder, "nginx.conf"), "w") as file:
                file.write(NGINX.format(folder=folder, port=port))
            nginx = subprocess.Popen(["nginx", "-c", os.path.join(folder, "nginx.conf"), "-e", os.path.join(folder, "error.log")])
            time.sleep(1)
            try:
                alone, peer = wrk(server.port, "/public", seconds), wrk(port, "/public", seconds)
                host, stop = Host(server), threading.Event()
                worker = threading.Thread(target=work_on, args=(host, stop))
                begun = time.monotonic()
                worker.start()
                busy = wrk(server.port, "/public", min(seconds, 3))
                stop.set()
                worker.join()
                return alone, busy, host.counted / (time.monotonic() - begun), peer
            finally:
                nginx.terminate()
                nginx.wait()


def main():
    words = sys.argv[1:]
    beside = words.pop(words.index("--beside") + 1) if "--beside" in words else None
    words = [word for word in words if word != "--beside"]
    program, numbers = program_and_numbers(words)
    seconds = (numbers + [10])[0]
    programs = {"farm serve": program} | ({"beside": beside} if beside else {})
    for count in (1_000, 10_000, 100_000):
        rates = {name: results(path, count, seconds) for name, path in programs.items()}
        for name, rate in rates.items():
            print(f"{count:,} submissions, {name}: {rate:,.0f} results a second", flush=True)
        if beside:
            print(f"  {rates['farm serve'] / rates['beside']:.2f} times the other", flush=True)
    if not shutil.which("wrk") or not shutil.which("nginx"):
        print("skipped: wrk and nginx are not there")
        return 0
    for name, path in programs.items():
        alone, busy, counted, peer = readers(path, seconds)
        print(f"/public of 1,000 submissions, {name}: {alone:,.0f} a second, {alone / peer:.2f} times nginx ({peer:,.0f});"
              f" {busy:,.0f} while {counted:,.0f} results a second are counted")
    return 0


if __name__ == "__main__":
    sys.exit(main())
