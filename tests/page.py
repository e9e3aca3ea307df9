#!/usr/bin/env python3
"""Looks at the page for people, and at the names of the contest, as `farm serve` gives them.

    tests/page.py [PROGRAM] [--pictures FOLDER]

PROGRAM is the built program, `crates/farm/out/farm` of this repository if none is given. One line is printed for each look,
and the status is 1 where one shows something else than is wanted.

With --pictures a headless Chromium (`chromium`, or the program that CHROMIUM names) makes pictures of the page in FOLDER, for
a person to look at: of an empty, a running and a finished contest, light and dark, on a wide window and on a phone, and of
names that no contest can have. What the browser then has in the page is looked at too.
"""

import base64
import hashlib
import html
import http.server
import json
import os
import random
import re
import shutil
import subprocess
import sys
import tempfile
import threading

sys.dont_write_bytecode = True

from judge import write  # noqa: E402
from place import TOP, program_and_numbers  # noqa: E402
from serve import H1, ONE_TEST, Server, ask, request, sent  # noqa: E402

KINDS = ["correct", "wrong-answer", "run-error", "timelimit", "no-output", "output-limit", "memory-limit", "judging-error"]
LONG = "abcdefghijklmnopqrstuvwxyz_-0123"
TEAMS = ["A" * 32, LONG, "-", "otters"]
# Names that no contest can have.
HOSTILE = ["<script>alert(1)</script>", "\"'><img src=x onerror=alert(1)>", "&amp;<b>bold", "a" * 32, "", " ", "</td></tr>"]


def contest(count, teams=TEAMS):
    """The files of a contest with so many submissions of these teams to two problems."""
    files = {path.replace("echo", LONG): text for path, text in ONE_TEST.items()} | ONE_TEST
    lines = [f"{n} {teams[n % len(teams)]} {('echo', LONG)[n % 3 == 0]} a.rv32\n" for n in range(1, count + 1)]
    return files | {"submissions.txt": "".join(lines)}, [line.split()[1:3] for line in lines]


def parts():
    """What stands before the rows of the page and behind them, as the source has it."""
    with open(os.path.join(TOP, "crates", "contest_page", "src", "page.rt")) as file:
        return re.findall(r'&str = r##"(.*?)"##;', file.read(), re.DOTALL)


def policy():
    """The policy of the page, by the digests of its style and its script."""
    style, script = (re.search(rf"<{mark}>(.*?)</{mark}>", text, re.DOTALL)[1] for mark, text in zip(("style", "script"), parts()))
    style, script = (base64.b64encode(hashlib.sha256(text.encode()).digest()).decode() for text in (style, script))
    return (f"default-src 'none'; style-src 'sha256-{style}'; script-src 'sha256-{script}'; connect-src 'self'; "
            "base-uri 'none'; form-action 'none'; frame-ancestors 'none'")


def row(number, team, problem, word):
    team, problem = html.escape(team), html.escape(problem)
    return f'<tr><th scope="row">{number}</th><td>{team}</td><td>{problem}</td><td class="{word}">{word}</td></tr>\n'


def page_of(entries, words):
    """The bytes of the page."""
    before, behind = parts()
    rows = "".join(row(at, *entry, word) for at, (entry, word) in enumerate(zip(entries, words), 1))
    return (before + rows + behind).encode()


def response(body, last=""):
    return (f"HTTP/1.1 200 OK\r\ncontent-length: {len(body)}\r\ncontent-type: text/html; charset=utf-8\r\n"
            f"content-security-policy: {policy()}\r\nx-content-type-options: nosniff\r\n{last}\r\n").encode() + body


def names(entries, problems):
    rows = [{"problem": problem, "submission": at, "team": team} for at, (team, problem) in enumerate(entries, 1)]
    body = json.dumps({"problems": problems, "reply": "contest", "submissions": rows}, separators=(",", ":"))
    return f"HTTP/1.1 200 OK\r\ncontent-length: {len(body)}\r\ncontent-type: application/json\r\n\r\n{body}".encode()


def judge(client, share):
    """Judges that share of the submissions that are open, and gives the verdicts by their numbers."""
    found, seen = {}, random.Random(7)
    ask(client, "POST", "/judgehosts", H1)
    while (got := ask(client, "POST", "/judgehosts/fetch-work", H1)[1])["reply"] == "task":
        if seen.random() < share:
            found[got["judging"]] = seen.choice(KINDS[:1] * 4 + KINDS)
            ask(client, "POST", "/judgehosts/add-judging-run",
                H1 | {"judging": got["judging"], "test": got["test"], "result": found[got["judging"]]})
    return found


def looks(program):
    """The page and the names, byte for byte."""
    with tempfile.TemporaryDirectory() as folder:
        files, entries = contest(30)
        write(folder, files)
        with Server(program, folder, connections=100) as server:
            got = sent(server, request("GET", "/"))
            yield "the page of a contest of which nothing is judged", got == response(page_of(entries, ["pending"] * 30)), got[:500]
            got = sent(server, request("GET", "/contest"))
            yield "the names of the contest", got == names(entries, sorted(["echo", LONG])), got[:500]
            client = server.client()
            found = judge(client, 0.5)
            client.close()
            words = [found.get(at, "pending") for at in range(1, 31)]
            got = sent(server, request("GET", "/"))
            yield f"the page where {len(found)} of 30 are judged", got == response(page_of(entries, words)), got[:500]
            got = sent(server, request("GET", "/?again", fields="connection: close\r\n"))
            yield "the page, whatever stands behind its path", got == response(page_of(entries, words)), got[:500]
            for method, path in (("HEAD", "/"), ("DELETE", "/contest")):
                got = sent(server, request(method, path))
                yield f"{method} {path} is none of its methods", got.startswith(b"HTTP/1.1 405 ") and b"no-method" in got, got
    with tempfile.TemporaryDirectory() as folder:
        write(folder, contest(0)[0])
        with Server(program, folder, connections=100) as server:
            got = sent(server, request("GET", "/"))
            yield "the page of an empty contest", got == response(page_of([], [])), got[:500]
            got = sent(server, request("GET", "/contest"))
            yield "its names", got == names([], sorted(["echo", LONG])), got


class Hostile(http.server.BaseHTTPRequestHandler):
    """Gives the page of an empty contest, and then names that no contest can have."""

    protocol_version = "HTTP/1.1"

    def do_GET(self):
        rows = [{"submission": at, "verdict": KINDS[at % len(KINDS)]} for at in range(1, len(HOSTILE) + 1)]
        entries = [{"problem": name, "submission": at, "team": name} for at, name in enumerate(HOSTILE, 1)]
        body = {
            "/": page_of([], []),
            "/public": json.dumps({"reply": "public", "rows": rows}).encode(),
            "/contest": json.dumps({"problems": HOSTILE, "reply": "contest", "submissions": entries}).encode(),
        }.get(self.path, b"")
        self.send_response(200)
        self.send_header("content-length", str(len(body)))
        self.send_header("content-type", "text/html; charset=utf-8" if self.path == "/" else "application/json")
        if self.path == "/":
            self.send_header("content-security-policy", policy())
        self.end_headers()
        self.wfile.write(body)

    def log_message(self, *_):
        pass


def browse(port, *words):
    """What a browser writes of the page at the port, and what it complains of."""
    browser = os.environ.get("CHROMIUM", "chromium")
    fixed = ["--headless=new", "--no-sandbox", "--disable-gpu", "--hide-scrollbars", "--enable-logging=stderr", "--virtual-time-budget=4000"]
    got = subprocess.run([browser, *fixed, *words, f"http://127.0.0.1:{port}/"], capture_output=True, text=True, timeout=120)
    return got.stdout, [line for line in got.stderr.splitlines() if "CONSOLE" in line]


def pictures_of(name, port, folder):
    """Pictures of a page, light and dark, wide and on a phone."""
    complaints = []
    for kind, size, words in (("wide", "1000,900", ()), ("phone", "390,844", ()), ("dark", "1000,900", ("--blink-settings=preferredColorScheme=0",))):
        file = os.path.join(folder, f"{name}-{kind}.png")
        complaints += browse(port, f"--window-size={size}", f"--screenshot={file}", *words)[1]
    yield f"pictures of the page: {name}", not complaints, complaints


def pictures(program, folder):
    os.makedirs(folder, exist_ok=True)
    for name, count, share in (("empty", 0, 0), ("running", 300, 0.5), ("finished", 300, 1)):
        with tempfile.TemporaryDirectory() as place:
            files, entries = contest(count, TEAMS + [f"team-{n}" for n in range(1, 23)])
            write(place, files)
            with Server(program, place, connections=1000) as server:
                client = server.client()
                found = judge(client, share)
                client.close()
                yield from pictures_of(name, server.port, folder)
                dom = browse(server.port, "--dump-dom")[0]
                cells = re.findall(r'<td class="([a-z-]+)">([a-z-]+)</td>', dom)
                wanted = [(found.get(at, "pending"),) * 2 for at in range(1, count + 1)]
                yield f"the browser has the verdicts of all {len(entries)}", cells == wanted, cells[:3]
    server = http.server.ThreadingHTTPServer(("127.0.0.1", 0), Hostile)
    threading.Thread(target=server.serve_forever, daemon=True).start()
    yield from pictures_of("hostile", server.server_port, folder)
    dom = browse(server.server_port, "--dump-dom")[0]
    cells = [html.unescape(cell) for cell in re.findall(r"<td>(.*?)</td>", dom, re.DOTALL)]
    yield "names that no contest can have are texts", cells == [name for name in HOSTILE for _ in range(2)], cells
    server.shutdown()


def main():
    words, folder, sound = sys.argv[1:], None, True
    if "--pictures" in words:
        at = words.index("--pictures")
        folder = words[at + 1]
        del words[at:at + 2]
    program, _ = program_and_numbers(words)
    found = [looks(program)]
    if folder is not None and shutil.which(os.environ.get("CHROMIUM", "chromium")):
        found.append(pictures(program, folder))
    for made in found:
        for name, good, got in made:
            print(f"{'ok  ' if good else 'NOT '} {name}{'' if good else f': {got!r}'}")
            sound = sound and good
    return 0 if sound else 1


if __name__ == "__main__":
    sys.exit(main())
