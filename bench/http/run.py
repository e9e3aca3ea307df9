#!/usr/bin/env python3
"""Times `farm serve` by `wrk` beside nginx, which sends the same small JSON, on this machine.

    bench/http/run.py [PROGRAM [SECONDS]]

PROGRAM is the built program, `crates/farm/out/farm` of this repository if none is given. Printed are requests a second over
4 connections that are kept, with the time within which 50% and 99% are answered, for SECONDS seconds (10) each, in turn;
`GET /judgements/1` of a contest of one submission, and a file with the same bytes. Then, beside nginx too, connections one
after the other with a request each, a second; 1,000 clients that come to 4 lanes, ask and keep their connections: how long
each waited at the most, and the most memory with them; and the most memory after 100,000 and after 1,000,000 requests of
one connection, sent 100 at a time. Wants `wrk` and `nginx`, from the system's packages.
"""

import os
import re
import shutil
import socket
import subprocess
import sys
import tempfile
import time

sys.dont_write_bytecode = True
sys.path.insert(0, os.path.join(os.path.dirname(os.path.abspath(__file__)), "..", "..", "tests"))

from judge import write  # noqa: E402
from place import program_and_numbers  # noqa: E402
from serve import FILES, Server, is_answered, request  # noqa: E402

PATH = "/judgements/1"
NGINX = """
daemon off; worker_processes 2; pid {folder}/pid; error_log {folder}/error.log;
events {{ worker_connections 1024; }}
http {{
  access_log off; keepalive_requests 100000000; default_type application/json; server_tokens off;
  client_body_temp_path {folder}/a; proxy_temp_path {folder}/b; fastcgi_temp_path {folder}/c; uwsgi_temp_path {folder}/d;
  scgi_temp_path {folder}/e;
  server {{ listen 127.0.0.1:{port} reuseport; location / {{ return 200 '{body}'; }} }}
}}
"""


def wrk(port, seconds, connections=4, fields=()):
    threads = min(2, connections)
    more = [word for field in fields for word in ("-H", field)]
    done = subprocess.run(
        ["wrk", "-t", str(threads), "-c", str(connections), "-d", f"{seconds}s", "--latency", *more, f"http://127.0.0.1:{port}{PATH}"],
        capture_output=True, text=True, check=True)
    rate = float(re.search(r"Requests/sec:\s+([\d.]+)", done.stdout)[1])
    half, most = (re.search(rf"{part}%\s+(\S+)", done.stdout)[1] for part in (50, 99))
    return rate, half, most


def one_by_one(port):
    """Connections a second, of a client that closes each behind its one request."""
    return max(wrk(port, 3, 1, ["connection: close"])[0] for _ in range(2))


def keep_alive(program, folder, count=1000):
    """So many clients come one after the other, ask and keep their connections: how many milliseconds the slowest waited, and
    the most memory."""
    worst, clients = 0, []
    with Server(program, folder, lanes=4, connections=2 * count) as server:
        for _ in range(count):
            begin = time.monotonic()
            clients.append(server.client())
            if not is_answered(clients[-1]):
                return float("inf"), memory(server)
            worst = max(worst, time.monotonic() - begin)
        return 1000 * worst, memory(server)


def memory(server):
    with open(f"/proc/{server.process.pid}/status") as file:
        return int(re.search(r"VmHWM:\s+(\d+)", file.read())[1])


def pipelined(server, count):
    """Sends so many requests over one connection, 100 at a time."""
    text, size = request("GET", PATH) * 100, None
    with server.connect() as conn:
        for _ in range(count // 100):
            conn.sendall(text)
            got = conn.recv(65536)
            size = size or got.index(b"\r\n\r\n") + 4 + len('{"reply":"pending"}')
            while len(got) < 100 * size:
                got += conn.recv(65536)


def main():
    program, numbers = program_and_numbers(sys.argv[1:])
    seconds = (numbers + [10])[0]
    if not shutil.which("wrk") or not shutil.which("nginx"):
        print("skipped: wrk and nginx are not there")
        return 0
    with tempfile.TemporaryDirectory() as folder:
        write(folder, FILES)
        with socket.socket() as free:
            free.bind(("127.0.0.1", 0))
            port = free.getsockname()[1]
        with open(os.path.join(folder, "nginx.conf"), "w") as file:
            file.write(NGINX.format(folder=folder, port=port, body='{"reply":"pending"}'))
        with Server(program, folder, lanes=4, connections=100_000) as server:
            nginx = subprocess.Popen(["nginx", "-c", os.path.join(folder, "nginx.conf"), "-e", os.path.join(folder, "error.log")])
            time.sleep(1)
            try:
                best = {}
                for _ in range(3):
                    for name, at in [("farm serve", server.port), ("nginx", port)]:
                        best[name] = max(best.get(name, (0, "", "")), wrk(at, seconds))
                one = {name: one_by_one(at) for name, at in [("farm serve", server.port), ("nginx", port)]}
            finally:
                nginx.terminate()
                nginx.wait()
            for name, (rate, half, most) in best.items():
                print(f"{name}: {rate:,.0f} requests/s over 4 connections, 50% within {half}, 99% within {most}")
            print(f"  {best['farm serve'][0] / best['nginx'][0]:.2f} times nginx")
            print(f"connections one after the other: {one['farm serve']:,.0f} a second, nginx {one['nginx']:,.0f}")
            pipelined(server, 100_000)
            before = memory(server)
            pipelined(server, 900_000)
            print(f"most memory: {before:,} KiB after 100,000 requests more, {memory(server):,} KiB after 1,000,000")
        worst, kib = keep_alive(program, folder)
        print(f"1,000 clients that keep their connections, 4 lanes: each waits {worst:.1f} ms at the most, most memory {kib:,} KiB")
    return 0


if __name__ == "__main__":
    sys.exit(main())
