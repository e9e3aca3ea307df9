#!/usr/bin/env python3
"""Runs `farm serve` and talks to it as judgehosts and the jury do, and as hostile clients do.

    tests/serve.py [PROGRAM]

PROGRAM is the built program, `crates/farm/out/farm` of this repository if none is given. One line is printed for each
look, and the status is 1 where one shows something else than is wanted.
"""

import http.client
import json
import os
import re
import signal
import socket
import subprocess
import sys
import tempfile
import threading
import time

sys.dont_write_bytecode = True

from judge import write  # noqa: E402
from place import TOP, program_and_numbers  # noqa: E402

FILES = {
    "problems/echo/problem.yaml": "name: Echo\n",
    "problems/echo/data/secret/1.in": "7\n",
    "problems/echo/data/secret/1.ans": "7\n",
    "problems/echo/data/secret/2.in": "8\n",
    "problems/echo/data/secret/2.ans": "8\n",
    "submissions/a.rv32": "\x13\0\0\0",
    "submissions.txt": "1 otters echo a.rv32\n2 newts echo a.rv32\n",
    "farm.json": '{"lease": 1000, "problem_modes": {"echo": "full"}}',
}


class Server:
    """A running `farm serve` of a folder, at a port that it has found."""

    def __init__(self, program, folder, lanes=4, connections=1000, port=0, stdout=None, options=(), stdin=None):
        words = [program, "serve", folder, "--port", str(port), "--lanes", str(lanes), "--connections", str(connections), *options]
        # a pipe would be full behind some thousands of lines
        self.out = tempfile.TemporaryFile()
        self.process = subprocess.Popen(words, stdin=stdin, stdout=stdout or self.out, stderr=subprocess.PIPE)
        self.said = "note: "
        while self.said.startswith("note: "):
            self.said = self.process.stderr.readline().decode()
        found = re.fullmatch(r"farm: listening at port (\d+)(?: of \S+)?\n", self.said)
        self.port = int(found[1]) if found else None

    def __enter__(self):
        return self

    def __exit__(self, *_):
        if self.process.poll() is None:
            self.process.kill()
        self.process.communicate()
        self.out.close()

    def connect(self):
        return socket.create_connection(("127.0.0.1", self.port), timeout=10)

    def client(self):
        return http.client.HTTPConnection("127.0.0.1", self.port, timeout=10)

    def ended(self):
        """The status, and what was written, once the server has ended."""
        self.process.wait(timeout=20)
        self.out.seek(0)
        return self.process.returncode, self.out.read().decode()

    def ended_in_order(self):
        """The same of one that was started with --until-input-ends, once its input has ended."""
        self.process.stdin.close()
        self.process.stdin = None
        return self.ended()


def ask(client, method, path, body=None):
    """The status and the reply, by a client that keeps its connection."""
    client.request(method, path, None if body is None else json.dumps(body))
    response = client.getresponse()
    return response.status, json.loads(response.read())


def sent(server, text):
    """All that comes for these bytes, until the server ends the connection, whose end of writing is closed at once. It
    ends it when it has waited for it: at once where it has one lane, or no connection is to come any more.
    """
    with server.connect() as conn:
        conn.sendall(text)
        conn.shutdown(socket.SHUT_WR)
        got = b""
        while more := conn.recv(65536):
            got += more
        return got


def request(method, path, body=None, fields=""):
    length = f"content-length: {len(body)}\r\n" if body is not None else ""
    return f"{method} {path} HTTP/1.1\r\nhost: x\r\n{length}{fields}\r\n{body or ''}".encode()


def response(status, phrase, body):
    return f"HTTP/1.1 {status} {phrase}\r\ncontent-length: {len(body)}\r\ncontent-type: application/json\r\n\r\n{body}".encode()


H1 = {"hostname": "h1"}
# Each request behind those before it, with its status and some of its reply; a field that is None is not there.
TALK = [
    ("POST", "/judgehosts", H1, 200, {"reply": "host", "host": "h1"}),
    ("POST", "/judgehosts", H1, 409, {"reply": "known"}),
    ("POST", "/judgehosts/fetch-work", {"hostname": "h2"}, 404, {"reply": "no-host"}),
    ("POST", "/judgehosts/fetch-work", H1, 200, {"reply": "task", "judging": 1, "test": 1}),
    ("GET", "/judgehosts/job/1/1", None, 200, {"reply": "job", "judging": 1, "test": 1, "image": "EwAAAA==", "input": "Nwo=", "answer": "Nwo=", "check": "default"}),
    ("GET", "/judgehosts/job/2/2", None, 200, {"reply": "job", "judging": 2, "test": 2, "input": "OAo="}),
    ("GET", "/judgehosts/job/1/1/rest", None, 200, {"reply": "job", "judging": 1, "test": 1, "image": None, "input": "Nwo=", "answer": "Nwo=", "check": "default"}),
    ("GET", "/judgehosts/job/2/2/rest", None, 200, {"reply": "job", "judging": 2, "test": 2, "image": None, "input": "OAo="}),
    ("GET", "/judgehosts/job/1/3", None, 404, {"reply": "no-job"}),
    ("GET", "/judgehosts/job/1/3/rest", None, 404, {"reply": "no-job"}),
    ("GET", "/judgehosts/job/1/65537", None, 404, {"reply": "no-job"}),
    ("GET", "/judgehosts/job/3/1", None, 404, {"reply": "no-judging", "judging": 3}),
    ("GET", "/judgehosts/job/3/1/rest", None, 404, {"reply": "no-judging", "judging": 3}),
    ("GET", "/judgehosts/job/1", None, 404, {"reply": "no-route"}),
    ("GET", "/judgehosts/job/1/x", None, 404, {"reply": "no-route"}),
    ("GET", "/judgehosts/job/1/1/image", None, 404, {"reply": "no-route"}),
    ("GET", "/judgehosts/job/1/rest", None, 404, {"reply": "no-route"}),
    ("POST", "/judgehosts/job/1/1", {}, 405, {"reply": "no-method"}),
    ("POST", "/judgehosts/job/1/1/rest", {}, 405, {"reply": "no-method"}),
    ("POST", "/judgehosts/renew", H1 | {"judging": 1, "test": 1}, 200, {"reply": "until"}),
    ("POST", "/judgehosts/renew", H1 | {"judging": 1, "test": 2}, 409, {"reply": "no-lease"}),
    ("POST", "/judgehosts/fetch-work", H1 | {"max": 16}, 200, {"reply": "batch", "judging": 1, "tests": [2]}),
    ("POST", "/judgehosts/fetch-work", H1 | {"max": 17}, 400, {"reply": "bad-body", "why": "bad max"}),
    ("POST", "/judgehosts/add-judging-run", H1 | {"judging": 1, "test": 1, "result": "correct"}, 200, {"reply": "counted"}),
    ("POST", "/judgehosts/add-judging-run", H1 | {"judging": 1, "test": 1, "result": "correct"}, 200, {"reply": "repeat"}),
    ("POST", "/judgehosts/add-judging-run", H1 | {"judging": 9, "test": 1, "result": "correct"}, 404, {"reply": "no-judging"}),
    ("POST", "/judgehosts/add-judging-run", H1 | {"judging": 1, "test": 3, "result": "correct"}, 404, {"reply": "no-test"}),
    ("POST", "/judgehosts/add-judging-run", H1 | {"judging": 1, "test": 2, "result": "right"}, 400, {"why": "bad result"}),
    ("POST", "/judgehosts/add-judging-run", H1 | {"judging": 1}, 400, {"why": "missing test"}),
    ("GET", "/judgements/1", None, 200, {"reply": "pending"}),
    ("POST", "/judgehosts/add-judging-run", H1 | {"judging": 1, "test": 2, "result": "wrong-answer"}, 200, {"reply": "counted"}),
    ("GET", "/judgements/1", None, 200, {"reply": "final", "verdict": "wrong-answer"}),
    ("GET", "/judgements/1?strict=true", None, 200, {"reply": "final"}),
    ("GET", "/judgements/9", None, 404, {"reply": "no-judging"}),
    ("GET", "/judgements/one", None, 404, {"reply": "no-route"}),
    ("GET", "/judgements/%31", None, 404, {"reply": "no-route"}),
    ("GET", "/judgements/1/submission", None, 200, {"reply": "owner", "submission": 1}),
    ("POST", "/judgements/2/ask", {}, 409, {"reply": "already"}),
    ("POST", "/judgements/1/verify", {"who": "ann"}, 200, {"reply": "verified"}),
    ("POST", "/judgements/1/verify", {"who": "ann"}, 409, {"reply": "already"}),
    ("POST", "/judgements/2/verify", {}, 409, {"reply": "not-final"}),
    ("POST", "/rejudgings", {"submissions": [1]}, 200, {"reply": "rejudging", "number": 1, "first": 3, "last": 3}),
    ("GET", "/judgehosts/job/3/2", None, 200, {"reply": "job", "judging": 3, "test": 2, "image": "EwAAAA==", "input": "OAo="}),
    ("POST", "/rejudgings", {"submissions": []}, 409, {"reply": "empty-set"}),
    ("POST", "/rejudgings", {"submissions": [3]}, 404, {"reply": "no-submission"}),
    ("POST", "/rejudgings", {"submissions": [1, "2"]}, 400, {"why": "bad submissions"}),
    ("GET", "/rejudgings/1", None, 200, {"reply": "matrix"}),
    ("GET", "/rejudgings/2", None, 404, {"reply": "no-rejudging"}),
    ("POST", "/rejudgings/1/apply", {}, 409, {"reply": "unfinished"}),
    ("POST", "/rejudgings/1/cancel", {"who": "bob"}, 200, {"reply": "cancelled"}),
    ("POST", "/rejudgings/1/cancel", {"who": "bob"}, 409, {"reply": "closed"}),
    ("GET", "/audit", None, 200, {"reply": "audit"}),
    ("GET", "/board", None, 200, {"reply": "board"}),
    ("DELETE", "/board", None, 405, {"reply": "no-method"}),
    ("GET", "/public", None, 200, {"reply": "public", "rows": [{"submission": 1, "verdict": "wrong-answer"}, {"submission": 2, "verdict": "pending"}]}),
    ("GET", "/public?again", None, 200, {"reply": "public"}),
    ("POST", "/public", {}, 405, {"reply": "no-method"}),
    ("GET", "/contest", None, 200, {"reply": "contest", "problems": ["echo"], "submissions": [
        {"problem": "echo", "submission": 1, "team": "otters"}, {"problem": "echo", "submission": 2, "team": "newts"}]}),
    ("POST", "/", {}, 405, {"reply": "no-method"}),
    ("GET", "/boards", None, 404, {"reply": "no-route"}),
    # a result that differs from one that was counted puts its host down
    ("POST", "/judgehosts/add-judging-run", H1 | {"judging": 1, "test": 1, "result": "timelimit"}, 409, {"reply": "differs"}),
    ("POST", "/judgehosts/fetch-work", H1, 404, {"reply": "no-host"}),
    ("POST", "/judgehosts", H1, 200, {"reply": "host"}),
    ("POST", "/judgehosts/down", H1, 200, {"reply": "ended"}),
    ("POST", "/judgehosts/down", H1, 404, {"reply": "no-host"}),
]

BOARD = request("GET", "/board")
# The name, the bytes of a whole connection, and how often each status comes.
BYTES = [
    ("one request", BOARD, {200: 1}),
    ("three requests at once", BOARD * 3, {200: 3}),
    ("empty lines before a request", b"\r\n\r\n" + BOARD, {200: 1}),
    ("close, in any case", request("GET", "/board", fields="Connection: CLOSE\r\n") + BOARD, {200: 1}),
    ("version 1.0", b"GET /board HTTP/1.0\r\n\r\n" + BOARD, {200: 1}),
    ("no head", b"no head at all\r\n\r\n" + BOARD, {400: 1}),
    ("two lengths", request("POST", "/judgehosts", "{}", "Content-Length: 2\r\n"), {400: 1}),
    ("a length that is none", b"POST /judgehosts HTTP/1.1\r\ncontent-length: +2\r\n\r\n{}", {400: 1}),
    ("no length", b"POST /judgehosts HTTP/1.1\r\nhost: x\r\n\r\n", {411: 1}),
    ("a transfer coding", request("POST", "/judgehosts", "{}", "Transfer-Encoding: chunked\r\n"), {411: 1}),
    ("64 fields", b"GET /board HTTP/1.1\r\n" + b"a: b\r\n" * 64 + b"\r\n", {200: 1}),
    ("65 fields", b"GET /board HTTP/1.1\r\n" + b"a: b\r\n" * 65 + b"\r\n", {400: 1}),
    ("a head of 16,384 bytes", b"GET /board HTTP/1.1\r\na: " + b"b" * (16_384 - 28) + b"\r\n\r\n", {200: 1}),
    ("a head of 16,385 bytes", b"GET /board HTTP/1.1\r\na: " + b"b" * (16_385 - 28) + b"\r\n\r\n", {431: 1}),
    ("a body of 32 MiB", request("POST", "/judgehosts", " " * (1 << 25)), {400: 1}),
    ("a body of a byte more", b"POST /judgehosts HTTP/1.1\r\ncontent-length: 33554433\r\n\r\n", {413: 1}),
    ("a body that is no JSON", request("POST", "/judgehosts", "{"), {400: 1}),
    ("an empty body", request("POST", "/judgehosts", ""), {400: 1}),
    ("a request that is cut", BOARD + BOARD[:-2], {200: 1}),
]


def statuses_in(got):
    found = {}
    for status in re.findall(rb"HTTP/1\.1 (\d+) ", got):
        found[int(status)] = found.get(int(status), 0) + 1
    return found


def talks(program, folder):
    """Every route, by a client that keeps its connection, and every reply that they have."""
    with Server(program, folder, connections=1) as server:
        client = server.client()
        for method, path, body, status, reply in TALK:
            got = ask(client, method, path, body)
            good = got[0] == status and all(got[1].get(key) == value and (value is not None or key not in got[1]) for key, value in reply.items())
            yield f"{method} {path} {json.dumps(body) if body else ''}: {status} {reply.get('reply', reply.get('why'))}", good, got
        client.close()
        got = server.ended()
        yield "the line of the connection, and the board", got == (0, f"conn 1 requests {len(TALK)} end\n1 wrong-answer\n2 pending\nboard 2\n"), got


def whole_connections(program, folder):
    with Server(program, folder, lanes=1, connections=len(BYTES)) as server:
        for name, text, statuses in BYTES:
            got = sent(server, text)
            yield name, statuses_in(got) == statuses, got[:300]
        got = server.ended()
        ends = [line.split(" ")[-1] for line in got[1].splitlines()[:len(BYTES)]]
        wanted = ["end"] * 3 + ["closed"] * 2 + ["bad-request"] * 5 + ["end", "bad-request"] * 3 + ["end"] * 2 + ["cut"]
        yield "how each connection ended", got[0] == 0 and ends == wanted, ends


def exact_bytes(program, folder):
    with Server(program, folder, connections=1) as server:
        got = sent(server, request("GET", "/judgements/2") + request("GET", "/x"))
        wanted = response(200, "OK", '{"reply":"pending"}') + response(404, "Not Found", '{"reply":"no-route"}')
        yield "the bytes of two responses", got == wanted, got


HOST, OTHER = '{"hostname":"h1"}', '{"hostname":"h2"}'
RUN = '{"hostname":"%s","judging":1,"test":1,"result":"%s"}'
# What two connections say, request by request, and what each is answered, where the time is left out.
ANSWERED = [
    ("one host that says its result twice", [
        (request("POST", "/judgehosts", HOST), response(200, "OK", '{"host":"h1","reply":"host"}')),
        (request("POST", "/judgehosts/fetch-work", HOST), response(200, "OK", '{"judging":1,"reply":"task","test":1,"until":0}')),
        (request("POST", "/judgehosts/add-judging-run", RUN % ("h1", "correct")), response(200, "OK", '{"reply":"counted"}')),
        (request("POST", "/judgehosts/add-judging-run", RUN % ("h1", "correct")),
         response(200, "OK", '{"kept":"correct","reply":"repeat"}')),
    ]),
    ("two hosts that disagree", [
        (request("POST", "/judgehosts", HOST), response(200, "OK", '{"host":"h1","reply":"host"}')),
        (request("POST", "/judgehosts", OTHER), response(200, "OK", '{"host":"h2","reply":"host"}')),
        (request("POST", "/judgehosts/fetch-work", HOST), response(200, "OK", '{"judging":1,"reply":"task","test":1,"until":0}')),
        (request("POST", "/judgehosts/add-judging-run", RUN % ("h1", "correct")), response(200, "OK", '{"reply":"counted"}')),
        (request("POST", "/judgehosts/add-judging-run", RUN % ("h2", "wrong-answer")),
         response(409, "Conflict", '{"given":"wrong-answer","kept":"correct","reply":"differs"}')),
        (request("POST", "/judgehosts/fetch-work", OTHER), response(404, "Not Found", '{"name":"h2","reply":"no-host"}')),
        (request("POST", "/judgehosts", OTHER), response(200, "OK", '{"host":"h2","reply":"host"}')),
    ]),
]
ONE_TEST = {
    "problems/echo/problem.yaml": "",
    "problems/echo/data/secret/01.in": "7\n",
    "problems/echo/data/secret/01.ans": "7\n",
    "submissions/a.rv32": "\x13\0\0\0",
    "submissions.txt": "1 alpha echo a.rv32\n",
}


# What one connection asks of a contest with three tests and one submission, and what it is answered.
BATCHES = [
    (request("POST", "/judgehosts", HOST), response(200, "OK", '{"host":"h1","reply":"host"}')),
    (request("POST", "/judgehosts/fetch-work", '{"hostname":"h1","max":2}'),
     response(200, "OK", '{"judging":1,"reply":"batch","tests":[1,2],"until":0}')),
    (request("POST", "/judgehosts/fetch-work", '{"hostname":"h1","max":17}'),
     response(400, "Bad Request", '{"reply":"bad-body","why":"bad max"}')),
    (request("GET", "/judgements/1/submission"), response(200, "OK", '{"reply":"owner","submission":1}')),
    (request("POST", "/judgements/1/ask", ""), response(409, "Conflict", '{"judging":1,"reply":"already"}')),
]


def without_time(got):
    """The same bytes with 0 in place of the end of a lease, and the length of the body as it then is."""
    got = re.sub(rb'"until":\d+', b'"until":0', got)
    return re.sub(rb"content-length: \d+(\r\n[^{]*)(\{[^}]*until[^}]*\})",
                  lambda found: b"content-length: %d" % len(found[2]) + found[1] + found[2], got)


def batches(program, _):
    """A host fetches two of three tests, and no more than 16."""
    files = dict(ONE_TEST)
    for test in ("02", "03"):
        files |= {f"problems/echo/data/secret/{test}.{ending}": "7\n" for ending in ("in", "ans")}
    with tempfile.TemporaryDirectory() as folder:
        write(folder, files)
        with Server(program, folder, lanes=1, connections=1) as server:
            got = without_time(sent(server, b"".join(asked for asked, _ in BATCHES)))
            yield "batches and what a judging is of", got == b"".join(answer for _, answer in BATCHES), got


def cut_anywhere(program, _):
    """Conversations of which the client sends the first bytes alone, up to each place: whole requests are answered, and
    one that is cut makes no event."""
    with tempfile.TemporaryDirectory() as folder:
        write(folder, ONE_TEST)
        for name, talk in ANSWERED:
            whole = b"".join(asked for asked, _ in talk)
            ends = [sum(len(asked) for asked, _ in talk[:count]) for count in range(len(talk) + 1)]
            wrong = []
            for place in range(len(whole) + 1):
                count = sum(end <= place for end in ends) - 1
                with Server(program, folder, lanes=1, connections=1) as server:
                    got = without_time(sent(server, whole[:place]))
                    end = server.ended()
                wanted = b"".join(answer for _, answer in talk[:count])
                verdict = "correct" if b'"counted"' in wanted else "pending"
                line = f"conn 1 requests {count} {'end' if place in ends else 'cut'}"
                if got != wanted or end != (0, f"{line}\n1 {verdict}\nboard 1\n"):
                    wrong.append((place, got, end))
            yield f"{name}, cut at each of {len(whole) + 1} places", not wrong, wrong[:2]


def page(program):
    """The requests of the page for those who write a judgehost, with what stands behind each there."""
    with open(os.path.join(TOP, "examples", "server.md")) as file:
        lines = [line.strip() for line in file]
    with Server(program, os.path.join(TOP, "examples", "contest")) as server:
        for line, wanted in zip(lines, lines[1:]):
            found = re.fullmatch(r"\$ curl (?:-X (\w+) )?(?:-d '(.*)' )?http://localhost:8080(\S+)", line)
            if found:
                client = server.client()
                method, body, path = found.groups()
                client.request(method or ("POST" if body else "GET"), path, body)
                response = client.getresponse()
                got = f"{response.read().decode()} {response.status}"
                client.close()
                same = [re.sub(r'"until":\d+', '"until":0', text) for text in (got, wanted)]
                yield f"the page: {line[7:]}", same[0] == same[1], got


def is_answered(client):
    begin = time.monotonic()
    return ask(client, "GET", "/judgements/1") == (200, {"reply": "pending"}) and time.monotonic() - begin < 2


def memory_of(server, what="VmRSS"):
    """The memory that the running server holds, in KiB; or as VmHWM the most that it held."""
    with open(f"/proc/{server.process.pid}/status") as file:
        return int(re.search(rf"{what}:\s+(\d+)", file.read())[1])


def hostile(program, folder):
    """Clients that hold up their lanes, while the other lane goes on."""
    with Server(program, folder, lanes=4, connections=1000) as server:
        other = server.client()
        yield "a client that keeps its connection", is_answered(other), None
        slow = server.connect()
        for byte in BOARD[:-1]:
            slow.sendall(bytes([byte]))
        yield "a byte at a time", is_answered(other), None
        endless = server.connect()
        endless.sendall(b"GET /board HTTP/1.1\r\n" + b"a: b\r\n" * 50)
        yield "a head that does not end", is_answered(other), None
        waiting = server.connect()
        waiting.sendall(b"POST /judgehosts HTTP/1.1\r\ncontent-length: 33554432\r\n\r\n")
        yield "a body that does not come", is_answered(other), None
        for conn, last in [(slow, BOARD[-1:]), (endless, b"\r\n")]:
            conn.sendall(last)
            yield "the slow one is answered in the end", statuses_in(conn.recv(4096)) == {200: 1}, None
            conn.close()
        waiting.close()
        other.close()
        for _ in range(50):
            conn = server.connect()
            conn.sendall(BOARD + BOARD[:10])
            tear_off(conn)
        yield "and so is the next behind 50 that are torn off", is_answered(server.client()), None


ROUTES = [
    "/judgehosts", "/judgehosts/fetch-work", "/judgehosts/renew", "/judgehosts/add-judging-run", "/judgehosts/down",
    "/judgements/1/verify", "/judgements/1/ask", "/rejudgings", "/rejudgings/1/apply", "/rejudgings/1/cancel",
]
# What a body begins with, with what it is filled (numbers, empty strings, empty objects, a string, one of escapes, and
# white space), how it ends, and why it is refused.
KINDS = [
    ('"submissions":[1', ",1", "]", b"too-many-values"), ('"x":[""', ',""', "]", b"too-many-values"),
    ('"x":[{}', ",{}", "]", b"too-many-values"), ('"hostname":"', "h", '"', b"too-long-strings"),
    ('"who":"', "\\n", '"', b"too-long-strings"), ('"hostname":7,"who":7,"submissions":7', " ", "", b"bad "),
]


def bodies():
    """Bodies of at most 32 MiB, one of each kind, and why it is refused."""
    for front, piece, end, why in KINDS:
        count = ((1 << 25) - len(front) - len(end) - 2) // len(piece)
        yield f"{{{front}{piece * count}{end}}}", why


def large(program, folder):
    """A list of as many numbers as there may be submissions, and bodies of 32 MiB on each route."""
    # it is to run on behind both
    with Server(program, folder, lanes=1, connections=3) as server:
        body = '{"submissions":[1' + ",1" * 99_999 + "]}"
        got = sent(server, request("POST", "/rejudgings", body))
        yield "a list of 100,000 numbers", got.endswith(b'\r\n\r\n{"number":1,"reply":"not-final"}'), got[-200:]
        refused, most = [], []
        with server.connect() as conn:
            for body, why in bodies():
                refused.append(0)
                for path in ROUTES:
                    conn.sendall(request("POST", path, body))
                    refused[-1] += b'"why":"' + why in conn.recv(4096)
                most.append(memory_of(server, "VmHWM"))
        yield "each body of 32 MiB is refused by name on each route", refused == [len(ROUTES)] * len(KINDS), refused
        yield f"  unread, with no more memory than the body: {most[-2]} KiB", most[-2] < 40_000, most
        yield f"  read, where it is white space, with twice the body: {most[-1]} KiB", most[-1] < 70_000, most


def silent(program, folder):
    """Clients that say nothing: more than the lanes, and more than the system holds for the server."""
    with Server(program, folder, lanes=4, connections=5000) as server:
        other = server.client()
        yield "a client that was there before", is_answered(other), None
        # the system holds some of them for the server, and the others go on asking it
        clients = [socket.socket() for _ in range(1000)]
        for conn in clients:
            conn.setblocking(False)
            conn.connect_ex(("127.0.0.1", server.port))
        yield "is let go where 1,000 come that say nothing", other.sock.recv(10) == b"", None
        kib = memory_of(server)
        yield f"which take no memory: {kib} KiB", kib < 20_000, kib
        for conn in [other, *clients]:
            conn.close()
        yield "a client that comes once they have gone", is_answered(server.client()), None
    with Server(program, folder, lanes=4, connections=100) as server:
        clients = [server.connect() for _ in range(100)]
        kib = memory_of(server)
        yield f"100 that say nothing: {kib} KiB", kib < 20_000 and server.process.poll() is None, kib
        for conn in clients:
            conn.close()
        got = server.ended()
        lines = got[1].splitlines()
        wanted = [f"conn {n} requests 0 end" for n in range(1, 101)] + ["1 pending", "2 pending", "board 2"]
        yield "and each has its line", got[0] == 0 and lines == wanted, lines[:3]


def lanes(program, folder):
    """Where all lanes are taken and others wait, the client that was connected longest is let go."""
    with Server(program, folder, lanes=2, connections=4) as server:
        first, second = server.client(), server.client()
        both = is_answered(first) and is_answered(second)
        third = server.client()
        yield "two that keep their connections, and a third one", both and is_answered(third), None
        yield "for which the first was let go", first.sock.recv(10) == b"", None
        second.sock.sendall(BOARD[:-1])
        time.sleep(0.3)
        last = server.connect()
        time.sleep(0.3)
        second.sock.sendall(BOARD[-1:])
        got = b"".join(iter(lambda: second.sock.recv(4096), b""))
        good = statuses_in(got) == {200: 1} and b"\r\nconnection: close\r\n" in got
        yield "the second is within a request: it is answered, and its connection ends", good, got
        for conn in (first, second, third, last):
            conn.close()
        lines = server.ended()[1].splitlines()
        wanted = ["conn 1 requests 1 end", "conn 2 requests 2 closed"]
        yield "their lines", lines[:2] == wanted and len(lines) == 7, lines


def stuck(program, folder):
    """Where the client that was connected longest is within a request that it does not end, the one behind it is let go."""
    with Server(program, folder, lanes=4, connections=100) as server:
        first = server.client()
        good = is_answered(first)
        first.sock.sendall(BOARD[:-1])
        others = [server.client() for _ in range(3)]
        good = good and all(is_answered(client) for client in others)
        worst = slowest(server, 10)
        name = f"one is stuck within a request, three keep their connections, and ten that come wait {worst:.3f} s at the most"
        yield name, good and worst < 1, worst
        yield "the one behind it was let go", others[0].sock.recv(10) == b"", None
        first.sock.sendall(BOARD[-1:])
        got = b"".join(iter(lambda: first.sock.recv(4096), b""))
        good = statuses_in(got) == {200: 1} and b"\r\nconnection: close\r\n" in got
        yield "it is answered once it has asked, and its connection ends", good, got
        for client in others:
            client.close()


def rows_of(client, path):
    """The rows of a board."""
    return ask(client, "GET", path)[1]["rows"]


def look_on(server, stop, seen):
    """Asks for what the public sees again and again, and keeps what is not as it was."""
    client = server.client()
    while not stop.is_set():
        rows = rows_of(client, "/public")
        if not seen or seen[-1] != rows:
            seen.append(rows)
    client.close()


def judge_all_as(client, result, boards):
    """Judges all that is open, and keeps the board behind each result; whether the public always sees the board."""
    same = True
    while (got := ask(client, "POST", "/judgehosts/fetch-work", H1)[1])["reply"] == "task":
        run = H1 | {"judging": got["judging"], "test": got["test"], "result": result}
        same = ask(client, "POST", "/judgehosts/add-judging-run", run)[1] == {"reply": "counted"} and same
        boards.append(rows_of(client, "/board"))
        same = rows_of(client, "/public") == boards[-1] and same
    return same


def rejudged(client, number, result, end, count, boards):
    """The same of a rejudging of all submissions, which is applied or cancelled in the end."""
    asked = ask(client, "POST", "/rejudgings", {"submissions": list(range(1, count + 1))})[0] == 200
    same = judge_all_as(client, result, boards)
    ended = ask(client, "POST", f"/rejudgings/{number}/{end}", {})[0] == 200
    boards.append(rows_of(client, "/board"))
    return asked and same and ended and rows_of(client, "/public") == boards[-1]


def in_order(seen, boards):
    """Whether all that was seen are some of these boards, none before one that was seen earlier."""
    later = iter(boards)
    return all(any(rows == board for board in later) for rows in seen)


def public(program, _):
    """What the public sees while results come in and rejudgings are applied and cancelled: no row goes back, and no
    rejudging is seen in part.
    """
    count = 40
    lines = "".join(f"{n} alpha echo a.rv32\n" for n in range(1, count + 1))
    with tempfile.TemporaryDirectory() as folder:
        write(folder, ONE_TEST | {"submissions.txt": lines})
        with Server(program, folder, lanes=5, connections=5) as server:
            judge, stop = server.client(), threading.Event()
            boards, seen = [rows_of(judge, "/board")], [[] for _ in range(4)]
            readers = [threading.Thread(target=look_on, args=(server, stop, rows)) for rows in seen]
            for reader in readers:
                reader.start()
            ask(judge, "POST", "/judgehosts", H1)
            yield "results are seen when they are answered", judge_all_as(judge, "correct", boards), boards[-1]
            yield "a cancelled rejudging is not seen", rejudged(judge, 1, "wrong-answer", "cancel", count, boards), boards[-1]
            yield "an applied one is seen at once", rejudged(judge, 2, "run-error", "apply", count, boards), boards[-1]
            yield "and so is another", rejudged(judge, 3, "timelimit", "apply", count, boards), boards[-1]
            stop.set()
            for reader in readers:
                reader.join()
            distinct = [board for at, board in enumerate(boards) if at == 0 or boards[at - 1] != board]
            yield "there was a board for each result, and for each rejudging", len(distinct) == count + 3, len(distinct)
            versions = [len(rows) for rows in seen]
            yield f"four others saw {versions} of them, in order", all(in_order(rows, distinct) for rows in seen), versions
            judge.close()
            yield "the board in the end", server.ended()[1].endswith(f"{count} timelimit\nboard {count}\n"), None


def judge_and_look(server, name, wrong):
    """Judges what is open as a host of this name, and looks behind each result; what the public did not see at once goes to
    `wrong`."""
    client, host = server.client(), {"hostname": name}
    ask(client, "POST", "/judgehosts", host)
    while (got := ask(client, "POST", "/judgehosts/fetch-work", host)[1])["reply"] == "task":
        run = host | {"judging": got["judging"], "test": got["test"], "result": "correct"}
        ask(client, "POST", "/judgehosts/add-judging-run", run)
        row = rows_of(client, "/public")[got["judging"] - 1]
        if row != {"submission": got["judging"], "verdict": "correct"}:
            wrong.append(row)
    client.close()


def judged_in(rows):
    """The submissions whose verdict is seen."""
    return {row["submission"] for row in rows if row["verdict"] != "pending"}


def public_by_many(program, _):
    """What the public sees while four hosts judge at the same time: each host sees its own result behind it, and nobody sees
    a result go.
    """
    count, hosts, others = 200, 4, 3
    lines = "".join(f"{n} alpha echo a.rv32\n" for n in range(1, count + 1))
    with tempfile.TemporaryDirectory() as folder:
        write(folder, ONE_TEST | {"submissions.txt": lines})
        with Server(program, folder, lanes=hosts + others, connections=hosts + others) as server:
            stop, wrong, seen = threading.Event(), [], [[] for _ in range(others)]
            readers = [threading.Thread(target=look_on, args=(server, stop, rows)) for rows in seen]
            judges = [threading.Thread(target=judge_and_look, args=(server, f"h{n}", wrong)) for n in range(hosts)]
            for thread in readers + judges:
                thread.start()
            for judge in judges:
                judge.join()
            yield "each of four hosts sees its results behind them", not wrong, wrong
            stop.set()
            for reader in readers:
                reader.join()
            stays = all(judged_in(old) <= judged_in(new) for rows in seen for old, new in zip(rows, rows[1:]))
            versions = [len(rows) for rows in seen]
            yield f"three others saw {versions} versions, and no result go", stays, versions
            yield "all are judged", server.ended()[1].endswith(f"{count} correct\nboard {count}\n"), None


class Others:
    """Two other clients that ask all the time while a block runs: one keeps its connection, one comes anew each time."""

    def __init__(self, server):
        self.server, self.stop, self.worst = server, threading.Event(), 0
        # the connections that were made, by each of them
        self.kept, self.came = [], []
        self.threads = [threading.Thread(target=self.ask_on, args=(made,)) for made in (self.kept, self.came)]

    def __enter__(self):
        for thread in self.threads:
            thread.start()
        return self

    def __exit__(self, *_):
        self.stop.set()
        for thread in self.threads:
            thread.join()

    def ask_on(self, made):
        client = self.server.client()
        while not self.stop.is_set():
            before = client.sock
            self.worst = max(self.worst, seconds_to_answer(client))
            if client.sock is not before:
                made.append(client.sock)
            if made is self.came:
                client.close()
            self.stop.wait(0.01)
        client.close()

    def look(self):
        """That each was answered within a second."""
        return f"  others wait {self.worst:.3f} s at the most", self.worst < 1, self.worst


def ask_again(client, *asked):
    """The same as `ask`; over a new connection, where the server has ended the one that was kept."""
    try:
        return ask(client, *asked)
    except ConnectionError:
        client.close()
        return ask(client, *asked)


def seconds_to_answer(client):
    """How long it takes until `GET /audit` is answered."""
    begun = time.monotonic()
    try:
        good = ask_again(client, "GET", "/audit")[0] == 200
    except (OSError, http.client.HTTPException):
        good = False
    return time.monotonic() - begun if good else float("inf")


def tear_off(conn):
    """Ends a connection as a machine does that knows nothing of it any more."""
    conn.setsockopt(socket.SOL_SOCKET, socket.SO_LINGER, b"\1\0\0\0\0\0\0\0")
    conn.close()


def lines_of(text):
    """How many requests each connection made, and how it ended; or none where a line is not in its place."""
    lines = [line.split(" ") for line in text.splitlines() if line.startswith("conn ")]
    ordered = all(line[1] == str(at) and line[2] == "requests" for at, line in enumerate(lines, 1))
    return [(int(line[3]), line[4]) for line in lines] if ordered else None


def slowest(server, count):
    """How long the slowest of so many clients waited, each of which comes, asks once and goes."""
    worst = 0
    for _ in range(count):
        begun = time.monotonic()
        client = server.client()
        if not is_answered(client):
            return float("inf")
        client.close()
        worst = max(worst, time.monotonic() - begun)
    return worst


def crowds(program, folder):
    """One that says nothing, and many that keep their connections, beside those that ask."""
    with Server(program, folder, lanes=16, connections=2000) as server:
        silent = server.client()
        yield "one asks and then says nothing", is_answered(silent), None
        worst = slowest(server, 1000)
        yield f"1,000 others wait {worst:.3f} s at the most", worst < 1, worst
        yield "the silent one is still there", is_answered(silent), None
    with Server(program, folder, lanes=4, connections=2000) as server:
        kept = []
        worst = 0
        for _ in range(1000):
            begun = time.monotonic()
            kept.append(server.client())
            if not is_answered(kept[-1]):
                worst = float("inf")
            worst = max(worst, time.monotonic() - begun)
        yield f"1,000 that keep their connections on 4 lanes wait {worst:.3f} s at the most", worst < 1, worst
        worst = slowest(server, 100)
        yield f"and so do 100 behind them: {worst:.3f} s", worst < 1, worst
        kib = memory_of(server)
        yield f"all take {kib} KiB", kib < 30_000, kib
        for client in kept:
            client.close()


def work_on(server, stop, seen):
    """Works as a judgehost, and keeps the reply to each result and how long it waited. Where its connection has ended, it comes
    up again over a new one, and goes on."""
    client = server.client()
    while not stop.is_set():
        begun = time.monotonic()
        if client.sock is None:
            ask(client, "POST", "/judgehosts", H1)
        try:
            got = ask(client, "POST", "/judgehosts/fetch-work", H1)[1]
            run = H1 | {"judging": got["judging"], "test": got["test"], "result": "correct"}
            reply = ask(client, "POST", "/judgehosts/add-judging-run", run)[1]["reply"]
        except ConnectionError:
            client.close()
            reply = None
        seen.append((reply, time.monotonic() - begun))
    client.close()


def among_many(program, _):
    """A judgehost that works on while 1,000 clients come that keep their connections."""
    lines = "".join(f"{n} alpha echo a.rv32\n" for n in range(1, 20_001))
    with tempfile.TemporaryDirectory() as folder:
        write(folder, ONE_TEST | {"submissions.txt": lines})
        with Server(program, folder, connections=10_000) as server:
            stop, seen, kept, worst = threading.Event(), [], [], 0
            host = threading.Thread(target=work_on, args=(server, stop, seen))
            host.start()
            for _ in range(1000):
                kept.append(server.client())
                worst = max(worst, seconds_to_answer(kept[-1]))
            stop.set()
            host.join()
            done = [reply for reply, _ in seen if reply]
            yield f"1,000 come while a judgehost works, and wait {worst:.3f} s at the most", worst < 1, worst
            worst = max(seconds for _, seconds in seen)
            good = set(done) == {"counted"} and len(done) > 100 and worst < 1
            yield f"it has {len(done)} results counted, and waits {worst:.3f} s at the most", good, (set(done), len(done), worst)
            for client in kept:
                client.close()


POST = request("POST", "/judgehosts", '{"hostname":"h9"}')
# What a client has sent when it ends: nothing, some of a head, a head, some of a body, a request, and many requests.
PHASES = [b"", POST[:10], POST[:-17], POST[:-1], BOARD, BOARD * 1000]


def killed(program, _):
    """Clients that end in the middle of each phase of their connections, as one that is killed and as one whose machine is."""
    times = 5
    with tempfile.TemporaryDirectory() as folder:
        write(folder, ONE_TEST | {"submissions.txt": "".join(f"{n} alpha echo a.rv32\n" for n in range(1, 1001))})
        with Server(program, folder, lanes=8, connections=10_000, options=["--until-input-ends"], stdin=subprocess.PIPE) as server:
            with Others(server) as others:
                for text in PHASES * times:
                    for end in (socket.socket.close, tear_off):
                        conn = server.connect()
                        conn.sendall(text)
                        if text == PHASES[-1]:
                            conn.recv(1000)
                        time.sleep(0.02)
                        end(conn)
            yield f"{2 * times} are killed or torn off in each of {len(PHASES)} phases", *others.look()[1:]
            status, text = server.ended_in_order()
            lines = lines_of(text) or []
            found = {(requests, how): lines.count((requests, how)) for requests, how in [(0, "end"), (0, "cut"), (0, "read-fault")]}
            good = status == 0 and len(lines) == 2 * times * len(PHASES) + len(others.kept) + len(others.came)
            good = good and list(found.values())[:2] == [times, 3 * times] and found[0, "read-fault"] >= 4 * times
            faults = sum(how in ("read-fault", "write-fault") for _, how in lines)
            good = good and faults <= 8 * times and {how for _, how in lines} <= {"end", "cut", "read-fault", "write-fault"}
            yield "  their lines, and those of the others", good, (status, len(lines), len(others.kept), len(others.came), found, faults)


def aborted(program, folder):
    """Clients that are gone before they are let in."""
    with Server(program, folder, lanes=2, options=["--until-input-ends"], stdin=subprocess.PIPE) as server:
        server.process.send_signal(signal.SIGSTOP)
        for end in (socket.socket.close, tear_off) * 50:
            end(server.connect())
        server.process.send_signal(signal.SIGCONT)
        took = seconds_to_answer(server.client())
        yield f"the next one behind 100 that were gone before they came in waits {took:.3f} s", took < 1, took
        status, text = server.ended_in_order()
        lines = lines_of(text) or []
        good = status == 0 and lines[-1] == (1, "end") and set(lines[:-1]) <= {(0, "end"), (0, "read-fault")}
        yield f"  the lines of {len(lines) - 1} of them", good, (status, set(lines), lines[-1:])


def comes_back(program, folder):
    """A judgehost that is gone, and comes back under its name while that is up."""
    with Server(program, folder, connections=10) as server:
        first = server.client()
        entered = ask(first, "POST", "/judgehosts", H1)[0]
        task = ask(first, "POST", "/judgehosts/fetch-work", H1)[1]
        tear_off(first.sock)
        again = server.client()
        got = ask(again, "POST", "/judgehosts", H1)
        yield "a judgehost that comes back while it is up", entered == 200 and got == (409, {"name": "h1", "reply": "known"}), got
        run = H1 | {"judging": task["judging"], "test": task["test"]}
        got = [ask(again, "POST", f"/judgehosts/{path}", run | more)[0] for path, more in [("renew", {}), ("add-judging-run", {"result": "correct"})]]
        yield "goes on with what it held", got == [200, 200], got
        got = ask(again, "POST", "/judgehosts/fetch-work", H1)
        yield "and is given more", got[0] == 200 and (got[1]["judging"], got[1]["test"]) == (1, 2), got


def one_by_one(program, folder):
    """Each request is answered before the next one is sent, over one connection."""
    with Server(program, folder, lanes=1, connections=1) as server, server.connect() as conn:
        answers = []
        for text in (b"GET /judgements/1 HTTP/1.1\r\nhost: x\r\n\r\n", BOARD, BOARD):
            conn.sendall(text)
            answers.append(conn.recv(65536))
        good = all(answer.startswith(b"HTTP/1.1 200 OK\r\n") for answer in answers)
        yield "an answer to each request, before the next is sent", good, answers


def time_goes_on(program, _):
    """While a connection stays open, the clock goes on: a lease ends, and a later one ends later."""
    with tempfile.TemporaryDirectory() as folder:
        write(folder, ONE_TEST | {"farm.json": '{"lease": 1}'})
        with Server(program, folder, lanes=1, connections=1) as server:
            client = server.client()
            for name in ("h1", "h2"):
                ask(client, "POST", "/judgehosts", {"hostname": name})
            first = ask(client, "POST", "/judgehosts/fetch-work", {"hostname": "h1"})[1]
            held = ask(client, "POST", "/judgehosts/fetch-work", {"hostname": "h2"})[1]
            time.sleep(2.1)
            late = ask(client, "POST", "/judgehosts/renew", {"hostname": "h1", "judging": 1, "test": 1})
            later = ask(client, "POST", "/judgehosts/fetch-work", {"hostname": "h2"})[1]
            client.close()
            yield "a lease that is held", (first["reply"], held["reply"]) == ("task", "nothing"), (first, held)
            yield "a lease ends while a connection stays open", late == (409, {"reply": "no-lease"}), late
            good = later["reply"] == "task" and later["until"] >= first["until"] + 2
            yield "and its task is handed out until later", good, (first, later)


def ends(program, folder):
    """The ends of the program."""
    with socket.socket() as taken:
        taken.bind(("", 0))
        taken.listen()
        port = taken.getsockname()[1]
        with Server(program, folder, port=port) as server:
            got = server.ended()
            yield "8: a port that is taken", got == (8, "") and str(port) in server.said, (got, server.said)
    with Server(program, os.path.join(folder, "none")) as server:
        got = server.ended()
        yield "3: no contest", got == (3, "bad contest: no submissions.txt\n"), got
    with open("/dev/full", "wb") as full, Server(program, folder, lanes=1, connections=2, stdout=full) as server:
        sent(server, BOARD)
        # a line is written when another connection comes
        with server.connect():
            got = server.process.wait(timeout=20)
        yield "5: a full device", got == 5, got
    with Server(program, folder, connections=3) as server:
        client = server.client()
        for _ in range(2000):
            ask(client, "GET", "/judgements/1")
        server.process.send_signal(signal.SIGTERM)
        yield "an end from outside", server.process.wait(timeout=10) == -signal.SIGTERM, None


def main():
    program, _ = program_and_numbers(sys.argv[1:])
    sound = True
    with tempfile.TemporaryDirectory() as folder:
        write(folder, FILES)
        looks = [look(program, folder) for look in (
            talks, whole_connections, exact_bytes, batches, cut_anywhere, one_by_one, time_goes_on, comes_back, hostile, killed,
            aborted, large, silent, lanes, stuck, public, public_by_many, crowds, among_many, ends)]
        for some in [*looks, page(program)]:
            for name, good, got in some:
                print(f"{'ok  ' if good else 'NOT '} {name}{'' if good else f': {got!r}'}")
                sound = sound and good
    return 0 if sound else 1


if __name__ == "__main__":
    sys.exit(main())
