#!/usr/bin/env python3
"""Runs `farm host` against servers that lie, behind a proxy, and against `farm serve` with hosts that are killed.

    tests/host.py [PROGRAM [SEED [LIES [KILLS [CONTEST]]]]]

PROGRAM is the built program, `crates/farm/out/farm` of this repository if none is given. LIES is how many talks are spoiled at
random (200 if it is left out), KILLS how often one of the 16 hosts is killed (40), and CONTEST the folder of the
contest that they judge, as `bench/judge/make.py` makes one; `examples/contest` if it is left out. One line is printed for each
look, and the status is 1 where one shows something else than is wanted.
"""

import base64
import http.client
import http.server
import itertools
import json
import os
import random
import re
import resource
import shutil
import socket
import subprocess
import sys
import tempfile
import threading
import time
from concurrent.futures import ThreadPoolExecutor

sys.dont_write_bytecode = True

from judge_model import ECHO, FAIL  # noqa: E402
from place import TOP, program_and_numbers  # noqa: E402
from serve import Server, ask, response  # noqa: E402


def compact(value):
    return json.dumps(value, separators=(",", ":"), sort_keys=True)


def job(**fields):
    """A job of the test 1 of the judging 1: ECHO on a 7, with these fields in place of its own."""
    text = {name: base64.b64encode(data).decode() for name, data in [("answer", b"7\n"), ("image", ECHO), ("input", b"7\n")]}
    flags = {"absolute": None, "relative": None, "case": False, "space": False}
    limits = {"instructions": 10_000_000, "pages": 16_384, "output": 8 << 20}
    whole = {"reply": "job", "judging": 1, "test": 1, "check": "default", "flags": flags, **limits, **text, **fields}
    return {name: value for name, value in whole.items() if value is not ...}


def answers(*bodies):
    return [response(200, "OK", body if isinstance(body, str) else compact(body)) for body in bodies]


ENTERED = {"host": "h1", "reply": "host"}
TASK = {"judging": 1, "reply": "task", "test": 1, "until": 60}
COUNTED, NOTHING = {"reply": "counted"}, {"reply": "nothing"}
TALK = answers(ENTERED, TASK, job(), COUNTED, NOTHING)


def post(path, body, fields=b""):
    return b"POST %b HTTP/1.1\r\nhost: farm\r\n%bcontent-length: %d\r\n\r\n%b" % (path, fields, len(body), body)


NAME = b'{"hostname":"h1"}'
RESULT = b'{"hostname":"h1","judging":1,"result":"correct","test":1}'


def requests_with(fields):
    """The requests of the talk, with further fields in each head."""
    return [
        post(b"/judgehosts", NAME, fields),
        post(b"/judgehosts/fetch-work", NAME, fields),
        b"GET /judgehosts/job/1/1 HTTP/1.1\r\nhost: farm\r\n%b\r\n" % fields,
        post(b"/judgehosts/add-judging-run", RESULT, fields),
        post(b"/judgehosts/fetch-work", NAME, fields),
    ]


REQUESTS = requests_with(b"")


def rest(**fields):
    """A job without its image."""
    return job(image=..., **fields)


def task(judging, test):
    return {"judging": judging, "reply": "task", "test": test, "until": 60}


def result(judging, test, kind="correct"):
    return post(b"/judgehosts/add-judging-run", b'{"hostname":"h1","judging":%d,"result":"%b","test":%d}' % (judging, kind.encode(), test))


FETCH = post(b"/judgehosts/fetch-work", NAME)
# Two tests of a judging, one of another whose program fails, a further one of that, and one of the first judging again.
IMAGES = [
    (task(1, 1), "", job(), "correct"),
    (task(1, 2), "/rest", rest(test=2), "correct"),
    (task(2, 1), "", job(judging=2, image=base64.b64encode(FAIL).decode()), "run-error"),
    (task(2, 2), "/rest", rest(judging=2, test=2), "run-error"),
    (task(1, 3), "", job(test=3), "correct"),
]
IMAGES_TALK = answers(ENTERED, *[body for handed, _, given, _ in IMAGES for body in (handed, given, COUNTED)], NOTHING)
IMAGES_REQUESTS = [
    post(b"/judgehosts", NAME),
    *[request for handed, path, _, kind in IMAGES for request in (
        FETCH,
        b"GET /judgehosts/job/%d/%d%b HTTP/1.1\r\nhost: farm\r\n\r\n" % (handed["judging"], handed["test"], path.encode()),
        result(handed["judging"], handed["test"], kind),
    )],
    FETCH,
]


def is_whole(request):
    head, found, body = request.partition(b"\r\n\r\n")
    length = re.search(rb"content-length: (\d+)", head)
    return bool(found) and len(body) >= (int(length[1]) if length else 0)


class Liar:
    """A server for one connection: it gives its answers one by one behind each whole request, in pieces of some bytes, or as they
    stand in its list where that has one for each request. Then it closes, unless it is to keep the connection; also where no
    request comes within its patience, in seconds."""

    def __init__(self, pieces, step=None, keeps=False, patience=50):
        self.listener = socket.create_server(("127.0.0.1", 0))
        self.port = self.listener.getsockname()[1]
        self.pieces, self.step, self.keeps, self.patience, self.requests = pieces, step, keeps, patience, []
        self.thread = threading.Thread(target=self.serve, daemon=True)
        self.thread.start()

    def serve(self):
        try:
            conn, _ = self.listener.accept()
        except OSError:
            return
        conn.setsockopt(socket.IPPROTO_TCP, socket.TCP_NODELAY, 1)
        conn.settimeout(self.patience)
        with conn:
            try:
                for piece in self.pieces:
                    if not self.take(conn):
                        return
                    for at in range(0, len(piece), self.step or max(1, len(piece))):
                        conn.sendall(piece[at : at + (self.step or len(piece))])
                if not self.keeps:
                    conn.shutdown(socket.SHUT_WR)
                while self.take(conn):
                    pass
            except OSError:
                pass

    def take(self, conn):
        request = b""
        while not is_whole(request):
            more = conn.recv(65536)
            if not more:
                if request:
                    self.requests.append(request)
                return False
            request += more
        self.requests.append(request)
        return True


def host(program, port, *words, name="h1", fuel=9, address="127.0.0.1", **more):
    """The status, standard output and standard error of a host."""
    command = [program, "host", address, "--port", str(port), "--name", name, "--fuel", str(fuel), *words]
    done = subprocess.run(command, capture_output=True, timeout=60, check=False, **more)
    if any(secret in done.stdout + done.stderr for secret in [PASSWORD.encode(), LOGIN.split(b" ")[-1]]):
        sys.exit(f"the password was said: {done}")
    return done.returncode, done.stdout, done.stderr


def met(program, pieces, *words, **more):
    """How a host ends that meets these answers, and the requests that it made."""
    fuel = more.pop("fuel", 9)
    liar = Liar(pieces, **more)
    got = host(program, liar.port, *words, fuel=fuel)
    # whoever never connected is waited for no more
    liar.listener.shutdown(socket.SHUT_RDWR)
    liar.thread.join(5)
    liar.listener.close()
    return got, liar.requests


def is_done(got, line):
    return got[0] == 0 and got[1] == line + b"\n" and got[2] == b""


def talks(program):
    got, requests = met(program, TALK)
    yield "a talk to its end", is_done(got, b"host h1 claims 2 posted 1 idle") and requests == REQUESTS, (got, requests)
    got, requests = met(program, TALK, step=1)
    yield "a byte at a time", is_done(got, b"host h1 claims 2 posted 1 idle") and requests == REQUESTS, got
    got, _ = met(program, [b"".join(TALK)])
    yield "answers that come before they are asked for", is_done(got, b"host h1 claims 2 posted 1 idle"), got
    got, requests = met(program, TALK[:4], fuel=1)
    yield "no fuel left", is_done(got, b"host h1 claims 1 posted 1 fuel") and requests == REQUESTS[:4], (got, requests)
    got, _ = met(program, answers({"name": "h1", "reply": "known"}, {"name": "h1", "reply": "no-host"}))
    yield "a name that is not entered any more", is_done(got, b"host h1 claims 1 posted 0 no-host"), got
    got, _ = met(program, answers(ENTERED, {"limit": 64, "reply": "holding"}))
    yield "a host that holds too many", is_done(got, b"host h1 claims 1 posted 0 holding"), got
    failing = job(image=base64.b64encode(FAIL).decode())
    got, requests = met(program, answers(ENTERED, TASK, failing, COUNTED, NOTHING))
    posted = b'{"hostname":"h1","judging":1,"result":"run-error","test":1}'
    yield "another result", got[0] == 0 and requests[3].endswith(posted), (got, requests)
    got, requests = met(program, IMAGES_TALK)
    yield "the image of a judging is asked for once", is_done(got, b"host h1 claims 6 posted 5 idle") and requests == IMAGES_REQUESTS, (got, requests)
    got, requests = met(program, IMAGES_TALK, step=7)
    yield "the same, some bytes at a time", is_done(got, b"host h1 claims 6 posted 5 idle") and requests == IMAGES_REQUESTS, got
    body = rest(test=2) | {"image": base64.b64encode(FAIL).decode()}
    got, requests = met(program, [*IMAGES_TALK[:5], *answers(body), *IMAGES_TALK[6:]])
    yield "an image that was not asked for", is_done(got, b"host h1 claims 6 posted 5 idle") and requests == IMAGES_REQUESTS, (got, requests)
    for refusal in [{"kept": "correct", "reply": "repeat"}, {"given": "correct", "kept": "no-output", "reply": "differs"}, {"reply": "dropped"}]:
        got, _ = met(program, answers(ENTERED, TASK, job(), refusal, NOTHING))
        yield f"a result that is answered {refusal['reply']}", is_done(got, b"host h1 claims 2 posted 1 idle"), got


# Bytes in place of one answer of a talk, and the status with which the host then ends.
CODE = "HTTP/1.1 200 OK\r\n"
HEADS = [
    ("no HTTP", b"hello\r\n\r\n", 11),
    ("another version", b"HTTP/9.1 200 OK\r\ncontent-length: 2\r\n\r\n{}", 11),
    ("no length", f"{CODE}host: x\r\n\r\n{{}}".encode(), 11),
    ("two lengths", f"{CODE}content-length: 2\r\ncontent-length: 2\r\n\r\n{{}}".encode(), 11),
    ("a length with a sign", f"{CODE}content-length: +2\r\n\r\n{{}}".encode(), 11),
    ("a length of nineteen digits", f"{CODE}content-length: {'0' * 18}2\r\n\r\n{{}}".encode(), 11),
    ("a length over the bound", f"{CODE}content-length: 100663297\r\n\r\n{{}}".encode(), 11),
    ("a transfer coding", f"{CODE}transfer-encoding: chunked\r\n\r\n2\r\n{{}}\r\n0\r\n\r\n".encode(), 11),
    ("65 fields", (CODE + "a: b\r\n" * 64 + "content-length: 2\r\n\r\n{}").encode(), 11),
    ("a head without an end", (CODE + "a: " + "b" * 20_000).encode(), 11),
    ("a status of three letters", b"HTTP/1.1 abc OK\r\ncontent-length: 2\r\n\r\n{}", 11),
    ("status 500", response(500, "Internal Server Error", '{"reply":"host"}'), 11),
    ("status 302", response(302, "Found", '{"reply":"host"}'), 11),
    ("status 100", b"HTTP/1.1 100 Continue\r\n\r\n", 11),
    ("status 204", response(204, "No Content", ""), 11),
    ("status 401", response(401, "Unauthorized", "{}"), 11),
    ("status 403", response(403, "Forbidden", "{}"), 11),
    ("a length that is too great", f"{CODE}content-length: 99\r\n\r\n{{}}".encode(), 11),
    ("no length at all", f"{CODE}content-length:\r\n\r\n{{}}".encode(), 11),
    ("a length below 0", f"{CODE}content-length: -2\r\n\r\n{{}}".encode(), 11),
    ("a length in hexadecimal", f"{CODE}content-length: 0x2\r\n\r\n{{}}".encode(), 11),
    ("a list of lengths", f"{CODE}content-length: 2, 2\r\n\r\n{{}}".encode(), 11),
    ("a length with a point", f"{CODE}content-length: 2.0\r\n\r\n{{}}".encode(), 11),
    ("two lengths that differ", f"{CODE}content-length: 2\r\nContent-Length: 3\r\n\r\n{{}}".encode(), 11),
    ("a length and a transfer coding", f"{CODE}content-length: 2\r\ntransfer-encoding: identity\r\n\r\n{{}}".encode(), 11),
    ("a length that is far too great", f"{CODE}content-length: 18446744073709551618\r\n\r\n{{}}".encode(), 11),
    ("a field without a colon", f"{CODE}content-length 2\r\n\r\n{{}}".encode(), 11),
    ("a field without a name", f"{CODE}: 2\r\ncontent-length: 2\r\n\r\n{{}}".encode(), 11),
    ("a name with a space", f"{CODE}content length: 2\r\ncontent-length: 2\r\n\r\n{{}}".encode(), 11),
    ("a field that is folded", f"{CODE}content-length: 2\r\nx: a\r\n b\r\n\r\n{{}}".encode(), 11),
    ("a NUL in a field", CODE.encode() + b"x: a\x00b\r\ncontent-length: 2\r\n\r\n{}", 11),
    ("a status line that is cut", b"HTTP/1.1 \r\ncontent-length: 2\r\n\r\n{}", 11),
    ("a status of two digits", b"HTTP/1.1 20 OK\r\ncontent-length: 2\r\n\r\n{}", 11),
    ("a status of four digits", b"HTTP/1.1 2000 OK\r\ncontent-length: 2\r\n\r\n{}", 11),
    ("a request", b"GET / HTTP/1.1\r\nhost: x\r\ncontent-length: 2\r\n\r\n{}", 11),
    ("HTTP/2", b"PRI * HTTP/2.0\r\n\r\nSM\r\n\r\n", 11),
    ("TLS", b"\x15\x03\x01\x00\x02\x02\x46", 11),
    ("nothing", b"", 11),
]
BODIES = ["", "{", "[]", "null", "{}", '{"reply":7}', '{"reply":"no"}', '{"reply":"bad-body","why":"not-json"}', "\xff", "[" * 200, '{"reply":"host"']
TASKS = [
    {"judging": 1, "reply": "task"},
    {"judging": 1, "reply": "task", "test": 0},
    {"judging": 1, "reply": "task", "test": 65_536},
    {"judging": -1, "reply": "task", "test": 1},
    {"judging": 1.5, "reply": "task", "test": 1},
    {"judging": 4_294_967_296, "reply": "task", "test": 1},
    {"judging": "1", "reply": "task", "test": 1},
    {"judging": 1, "reply": "batch", "tests": [1], "until": 60},
]
JOBS = [
    {"test": 2},
    {"judging": 2},
    {"reply": "jobs"},
    {"check": "any"},
    {"check": "custom"},
    {"check": "custom", "flags": "", "validator": base64.b64encode(b"abc").decode()},
    {"image": "AAA"},
    {"image": "A"},
    {"image": "===="},
    {"image": "AA==AA=="},
    {"image": "QUJD*A=="},
    {"image": "AAAA\n"},
    {"image": "AAB="},
    {"image": ""},
    {"image": base64.b64encode(b"abc").decode()},
    {"image": base64.b64encode(b"\x7fELF" + bytes(60)).decode()},
    {"image": base64.b64encode(bytes((1 << 20) + 4)).decode()},
    {"image": 7},
    {"image": ...},
    {"input": ...},
    {"answer": None},
    {"instructions": -1},
    {"instructions": "5"},
    {"pages": 4_294_967_296},
    {"output": 1e3},
    {"flags": ...},
    {"flags": {"absolute": None, "relative": None, "case": False}},
    {"flags": {"absolute": "007", "relative": None, "case": False, "space": False}},
    {"flags": {"absolute": str(1 << 127), "relative": None, "case": False, "space": False}},
    {"flags": {"absolute": "1", "relative": None, "case": False, "space": False}, "answer": base64.b64encode(b"1e12").decode()},
]


# Texts that are no Base64 of RFC 4648 with its padding.
BASE64 = ["A", "AA", "AAA", "AA=", "A===", "====", "=AAA", "A=AA", "AA=A", "AA==AA==", "AAAA=", "AAAA====", "QUJD*A==", "-_AA", "AAAA\n", "AAAA\r\n",
          " AAAA", "AA AA", "AAB=", "AB==", "AA==\0", "\u00e9AAA", "AAAA,AAAA"]
CUSTOM = {"check": "custom", "flags": "", "validator": base64.b64encode(ECHO).decode()}
# of the default validator, and of one of the problem's own
CODED = [({}, "image"), ({}, "input"), ({}, "answer"), (CUSTOM, "flags"), (CUSTOM, "validator")]


# How a person is told of a wrong answer to each request of the talk.
ASKED = ["POST /judgehosts", "POST /judgehosts/fetch-work", "GET /judgehosts/job/1/1", "POST /judgehosts/add-judging-run of test 1 of judging 1",
         "POST /judgehosts/fetch-work", "GET /judgehosts/job/1/2/rest"]


def is_refused(got, status, at=None):
    """It ended by name, wrote nothing on standard output, and told a person in one line, where it is a wrong answer to which request."""
    named = at is None or status != 11 or f" to {ASKED[at]}: ".encode() in got[2]
    return got[0] == status and got[1] == b"" and got[2].count(b"\n") == 1 and named


def lies(program):
    for at, what in enumerate(["the name", "a task", "the job", "the result", "the next task"]):
        wrong = []
        for name, bytes_, status in HEADS:
            got, requests = met(program, [*TALK[:at], bytes_])
            if not is_refused(got, status, at) or requests != REQUESTS[: at + 1]:
                wrong.append((name, got, len(requests)))
        for body in BODIES:
            got, requests = met(program, [*TALK[:at], response(200, "OK", body)])
            if not is_refused(got, 11, at) or requests != REQUESTS[: at + 1]:
                wrong.append((body, got, len(requests)))
        yield f"{len(HEADS) + len(BODIES)} wrong answers where it asks for {what}", not wrong, wrong[:3]
    wrong = []
    for body in TASKS:
        got, requests = met(program, [TALK[0], *answers(body)])
        if not is_refused(got, 11) or len(requests) != 2:
            wrong.append((body, got, len(requests)))
    yield f"{len(TASKS)} tasks that are none", not wrong, wrong[:3]
    wrong = []
    for fields in JOBS:
        got, requests = met(program, [*TALK[:2], *answers(job(**fields)), *TALK[3:]])
        if not is_refused(got, 11) or len(requests) != 3:
            wrong.append((fields, got, len(requests)))
    yield f"{len(JOBS)} jobs that are none, or another's", not wrong, wrong[:3]
    wrong = []
    for (fields, name), text in itertools.product(CODED, BASE64):
        got, requests = met(program, [*TALK[:2], *answers(job(**fields | {name: text})), *TALK[3:]])
        if not is_refused(got, 11) or len(requests) != 3:
            wrong.append((name, text, got, len(requests)))
    yield f"{len(BASE64)} texts that are no Base64, in {len(CODED)} fields", not wrong, wrong[:3]
    wrong = []
    for name, bytes_, status in [*HEADS, *[(body, response(200, "OK", body), 11) for body in BODIES]]:
        got, requests = met(program, [*IMAGES_TALK[:5], bytes_])
        if not is_refused(got, status, 5) or requests != IMAGES_REQUESTS[:6]:
            wrong.append((name, got, len(requests)))
    # a server without the route says so, and none of these names a program
    for body in [{"reply": "no-route"}, {"reply": "no-job"}]:
        got, requests = met(program, [*IMAGES_TALK[:5], response(404, "Not Found", compact(body)), *IMAGES_TALK[6:]])
        if not is_refused(got, 11, 5) or requests != IMAGES_REQUESTS[:6]:
            wrong.append((body, got, len(requests)))
    for fields in [it for it in JOBS if "image" not in it and it != {"test": 2}]:
        got, requests = met(program, [*IMAGES_TALK[:5], *answers(rest(**{"test": 2} | fields)), *IMAGES_TALK[6:]])
        if not is_refused(got, 11, 5) or requests != IMAGES_REQUESTS[:6]:
            wrong.append((fields, got, len(requests)))
    got, requests = met(program, [*IMAGES_TALK[:5], *answers(rest()), *IMAGES_TALK[6:]])
    if not is_refused(got, 11, 5) or requests != IMAGES_REQUESTS[:6]:
        wrong.append(("another test", got, len(requests)))
    yield "wrong answers where it asks for a job without its image", not wrong, wrong[:3]
    wrong = []
    for at, answer in enumerate(TALK):
        head, _, body = answer.partition(b"\r\n\r\n")
        for length in [0, 1, len(body) - 1]:
            lie = re.sub(rb"content-length: \d+", b"content-length: %d" % length, head) + b"\r\n\r\n" + body
            got, requests = met(program, [*TALK[:at], lie, *TALK[at + 1 :]])
            if not is_refused(got, 11) or requests != REQUESTS[: at + 1]:
                wrong.append((at, length, got, len(requests)))
        # what is left over is no answer to the next request
        got, requests = met(program, [*TALK[:at], answer + b"}", *TALK[at + 1 :]])
        if not (is_done(got, b"host h1 claims 2 posted 1 idle") if at == 4 else is_refused(got, 11)) or requests != REQUESTS[: at + 2]:
            wrong.append((at, "more", got, len(requests)))
    yield f"{4 * len(TALK)} lengths that lie", not wrong, wrong[:3]


def cuts(program):
    """A talk that the server ends behind each byte of it."""
    starts = [sum(map(len, TALK[:at])) for at in range(len(TALK) + 1)]

    def wrong_at(place):
        at = sum(start <= place for start in starts) - 1
        got, requests = met(program, [*TALK[:at], TALK[at][: place - starts[at]]])
        return None if is_refused(got, 11) and requests == REQUESTS[: at + 1] else (place, got, len(requests))

    with ThreadPoolExecutor(8) as pool:
        wrong = [it for it in pool.map(wrong_at, range(starts[-1])) if it]
    yield f"a talk that is cut at each of {starts[-1]} bytes", not wrong, wrong[:3]


def spoiled(draw, data):
    """The bytes, some of them changed, left out or doubled."""
    data = bytearray(data)
    for _ in range(draw.choice([1, 1, 2, 5])):
        at, size = draw.randrange(len(data) + 1), draw.choice([1, 1, 2, 16])
        how = draw.randrange(4)
        if how == 0 and at < len(data):
            data[at] = draw.randrange(256)
        elif how == 1:
            del data[at : at + size]
        elif how == 2:
            data[at:at] = data[at : at + size]
        else:
            data[at:at] = draw.choice([b"\r\n", b"=", b'"', b"}", b"0", b"content-length: 2\r\n", draw.randbytes(size)])
    return bytes(data)


def random_lies(program, seed, count):
    """Talks of which some bytes were spoiled. No result is posted twice, and none but of the job that was sent."""
    def wrong_in(turn):
        draw = random.Random(f"lies {seed} {turn}")
        pieces = list(TALK)
        at = draw.randrange(len(pieces))
        pieces[at] = spoiled(draw, pieces[at])
        # a length that is too great leaves both waiting for the other
        got, requests = met(program, pieces, step=draw.choice([None, None, 7, 100]), patience=2)
        sound = got[0] == 0 or is_refused(got, 10) or is_refused(got, 11)
        posts = [request for request in requests if b"add-judging-run" in request]
        # where the job was spoiled its value may be another one
        known = not posts or (len(posts) == 1 and (at in (1, 2) or posts[0] == REQUESTS[3]))
        return None if sound and known else (turn, at, pieces[at], got, posts)

    with ThreadPoolExecutor(8) as pool:
        wrong = [it for it in pool.map(wrong_in, range(count)) if it]
    yield f"{count} talks of which bytes were spoiled", not wrong, wrong[:2]


PASSWORD = "open sesame: 7"
LOGIN = b"authorization: Basic " + base64.b64encode(b"north:" + PASSWORD.encode())


class Proxy(http.server.ThreadingHTTPServer):
    """A proxy before a server, which lets through whoever says the user and the password that it wants, if it wants any. It
    keeps the reply to each result that is posted."""

    daemon_threads = True

    def __init__(self, port, wanted=None, status=401):
        super().__init__(("127.0.0.1", 0), Passing)
        self.behind, self.wanted, self.status, self.replies, self.refused = port, wanted, status, [], 0
        self.port = self.server_address[1]
        self.thread = threading.Thread(target=self.serve_forever, daemon=True)

    def __enter__(self):
        self.thread.start()
        return self

    def __exit__(self, *_):
        self.shutdown()
        self.server_close()

    def handle_error(self, *_):
        """Hosts are killed, and nobody has to be told."""


class Passing(http.server.BaseHTTPRequestHandler):
    protocol_version = "HTTP/1.1"
    disable_nagle_algorithm = True
    wbufsize = -1

    def setup(self):
        super().setup()
        self.behind = http.client.HTTPConnection("127.0.0.1", self.server.behind, timeout=60)

    def finish(self):
        super().finish()
        self.behind.close()

    def pass_on(self):
        body = self.rfile.read(int(self.headers.get("content-length", 0)))
        if self.server.wanted and self.headers.get_all("authorization") != [self.server.wanted]:
            self.server.refused += 1
            return self.answer(self.server.status, "text/html", b"<html>no</html>")
        status, data = self.asked(body)
        if self.path == "/judgehosts/add-judging-run":
            result = json.loads(body)
            self.server.replies.append((result["judging"], result["test"], json.loads(data)["reply"]))
        return self.answer(status, "application/json", data)

    def asked(self, body):
        """The server may end a connection that says nothing, where another one waits; then it is asked over a new one."""
        while True:
            try:
                self.behind.request(self.command, self.path, body or None)
                got = self.behind.getresponse()
                return got.status, got.read()
            except (http.client.RemoteDisconnected, ConnectionError):
                self.behind.close()

    def answer(self, status, kind, data):
        self.send_response(status)
        if status == 401:
            self.send_header("www-authenticate", 'Basic realm="farm"')
        self.send_header("content-type", kind)
        self.send_header("content-length", str(len(data)))
        self.end_headers()
        self.wfile.write(data)

    do_GET = do_POST = pass_on

    def log_message(self, *_):
        """Nothing is to be said of a request."""


def passwords(program, folder):
    """What a host says of the user and the password, and what it does where it has none."""
    path = os.path.join(folder, "password")

    def kept(data):
        with open(path, "wb") as file:
            file.write(data)
        return ["--user", "north", "--password-file", path]

    wanted = requests_with(LOGIN + b"\r\n")
    for name, end in [("", b""), (" and LF", b"\n"), (" and CR LF", b"\r\n")]:
        got, requests = met(program, TALK, *kept(PASSWORD.encode() + end))
        yield f"a password{name}: each request says it", is_done(got, b"host h1 claims 2 posted 1 idle") and requests == wanted, (got, requests)
    long = b"x" * 1024
    got, requests = met(program, TALK, *kept(long))
    said = b"authorization: Basic " + base64.b64encode(b"north:" + long) + b"\r\n"
    yield "a password of 1024 bytes", got[0] == 0 and requests == requests_with(said), (got, requests)
    for name, data, word in [
        ("no byte", b"", b"empty"),
        ("a line's end alone", b"\r\n", b"empty"),
        ("1025 bytes", long + b"x", b"too long"),
        ("more than a file may have", bytes((16 << 20) + 1), b"too long"),
        ("two lines", b"a\nb\n", b"control character"),
        ("a DEL", b"a\x7fb", b"control character"),
        ("no file", None, b"no file"),
    ]:
        words = kept(data or b"")
        if data is None:
            os.remove(path)
        got, requests = met(program, TALK, *words)
        good = got[0] == 3 and got[1] == b"bad password: " + word + b"\n" and got[2].count(b"\n") == 1 and path.encode() in got[2] and not requests
        yield f"a password's file with {name}", good, (got, requests)
    got, requests = met(program, TALK, "--user", "north", "--password-file", "/proc/self/mem")
    yield "a password's file that cannot be read", is_refused(got, 7) and b"/proc/self/mem" in got[2] and not requests, (got, requests)
    for words in [["--user", "north"], ["--password-file", path], ["--user", "no:rth", "--password-file", path], ["--user", "no\trth", "--password-file", path]]:
        got = host(program, 1, *words)
        yield f"words {words[:3:2]}", got[0] == 2 and got[1] == b"" and b"Usage: farm host" in got[2], got
    verdicts = contest(program, os.path.join(folder, "proxied"), 60)
    right, wrong = kept(PASSWORD.encode()), [*kept(PASSWORD.encode())[:-1], os.path.join(folder, "wrong")]
    with open(wrong[-1], "w") as file:
        file.write("another one")
    with Server(program, os.path.join(folder, "proxied")) as server:
        for status in [401, 403]:
            with Proxy(server.port, LOGIN.decode().partition(" ")[2], status) as proxy:
                for name, words in [("without a password", []), ("with a wrong one", wrong)]:
                    got = host(program, proxy.port, *words, fuel=100_000)
                    good = is_refused(got, 11) and str(status).encode() in got[2] and proxy.refused == 1 and not proxy.replies
                    yield f"a proxy that answers {status} to a host {name}", good, (got, proxy.refused)
                    proxy.refused = 0
                got = host(program, proxy.port, *right, fuel=100_000)
                yield f"the same proxy, and a host with its password: {got[1].decode().strip()}", got[0] == 0 and got[1].endswith(b" idle\n"), got
        yield "the contest behind it", table_of(ask(server.client(), "GET", "/board")[1]) == verdicts, verdicts


def nobody(program):
    with socket.create_server(("127.0.0.1", 0)) as taken:
        port = taken.getsockname()[1]
    got = host(program, port)
    yield "nobody listens there", is_refused(got, 10), got
    got = host(program, port, address="no-such-name.invalid")
    yield "a name that nobody has", is_refused(got, 10), got
    for words in [["--fuel", "0"], ["--fuel", "4294967296"], ["--port", "0"], ["--name", "a.b"], ["--wait", "0"], ["--wait", "61"]]:
        given = {"--port": str(port), "--name": "h1", "--fuel": "1"} | {words[0]: words[1]}
        command = [program, "host", "127.0.0.1", *[word for pair in given.items() for word in pair]]
        done = subprocess.run(command, capture_output=True, timeout=60, check=False)
        good = done.returncode == 2 and done.stdout == b"" and words[0].encode() in done.stderr
        yield f"words {words}", good, (done.returncode, done.stderr[:300])


def memory(program):
    """What a host takes for a length of 96 MiB of which nothing comes, and for a body of 96 MiB that is no JSON."""
    def few():
        resource.setrlimit(resource.RLIMIT_AS, (1 << 29, 1 << 29))

    length = 100_663_296
    liar = Liar([*TALK[:2], f"{CODE}content-length: {length}\r\n\r\n".encode() + b"[" * length])
    got = host(program, liar.port, preexec_fn=few)
    yield "a body of 96 MiB that is no job, in 512 MiB", is_refused(got, 11) or got[0] == 6, got
    mib = 1 << 20
    big = base64.b64encode(b"7\n" * (8 * mib)).decode()
    for name, body, most in [
        ("a length of 96 MiB of which nothing comes", f"{CODE}content-length: {length}\r\n\r\n".encode(), 110),
        ("a body of 96 MiB that is no JSON", f"{CODE}content-length: {length}\r\n\r\n".encode() + b"[" * length, 300),
        ("a body of 96 MiB of one text", response(200, "OK", '{"image":"' + "A" * (length - 12) + '"}'), 500),
        ("a body of 12 MiB of empty lists", response(200, "OK", '{"image":[' + "[]," * (4 * mib - 5) + "[]]}"), 512),
        ("the largest job", *answers(job(input=big, answer=big)), 300),
    ]:
        got, kib = most_memory(program, [*TALK[:2], body])
        yield f"{name} takes {kib // 1024} MiB", (is_refused(got, 11) or got[0] == 6) and kib <= most * 1024, (got, kib)


# A small process between, since what is told of a program's memory counts that of the process which has started it.
BETWEEN = """
import resource, subprocess, sys
status = subprocess.run(sys.argv[1:]).returncode
print(resource.getrusage(resource.RUSAGE_CHILDREN).ru_maxrss)
sys.exit(status)
"""


def most_memory(program, pieces):
    """How a host ends that meets these answers, and the most memory that it took, in KiB."""
    liar = Liar(pieces)
    command = [sys.executable, "-c", BETWEEN, program, "host", "127.0.0.1", "--port", str(liar.port), "--name", "h1", "--fuel", "9"]
    done = subprocess.run(command, capture_output=True, timeout=60, check=False)
    liar.listener.close()
    *said, kib = done.stdout.splitlines()
    return (done.returncode, b"".join(said), done.stderr), int(kib)


def table_of(board):
    return [row["verdict"] for row in board["rows"]]


def contest(program, folder, lease, of=os.path.join(TOP, "examples", "contest")):
    """A contest whose leases end soon, and its verdicts."""
    shutil.copytree(of, folder)
    path = os.path.join(folder, "farm.json")
    settings = json.load(open(path)) if os.path.exists(path) else {}
    with open(path, "w") as file:
        json.dump(settings | {"lease": lease}, file)
    done = subprocess.run([program, "judge", folder, "--hosts", "4"], capture_output=True, check=True)
    return [line.split(" ")[3] for line in done.stdout.decode().splitlines()]


def one_host(program, folder):
    """A host that works for a server until no test is left."""
    verdicts = contest(program, os.path.join(folder, "one"), 60)
    with Server(program, os.path.join(folder, "one"), connections=2) as server:
        got = host(program, server.port, fuel=100_000)
        board = ask(server.client(), "GET", "/board")[1]
        words = got[1].decode().split()
        good = got[0] == 0 and words[:2] == ["host", "h1"] and words[6] == "idle" and int(words[3]) == int(words[5]) + 1
        yield f"one host: {got[1].decode().strip()}", good and table_of(board) == verdicts, (got, table_of(board), verdicts)


def crowd(program, folder, seed, kills, of, count=16):
    """Hosts that work for a server, until its board is what `judge` says; one of them is killed at any moment, and started
    again. Who stands between them and the server sees each result that is counted."""
    verdicts = contest(program, os.path.join(folder, "many"), 1, of)
    draw, killed = random.Random(f"hosts {seed}"), 0
    with Server(program, os.path.join(folder, "many"), lanes=16, connections=100_000) as server, Proxy(server.port) as proxy:
        def start(number):
            words = ["--port", str(proxy.port), "--name", f"h{number}", "--fuel", "100000", "--wait", "1"]
            return subprocess.Popen([program, "host", "127.0.0.1", *words], stdout=subprocess.DEVNULL, stderr=subprocess.PIPE)

        hosts = [start(number) for number in range(1, count + 1)]
        begun, board, said = time.monotonic(), None, []
        while time.monotonic() - begun < 60 + 2 * kills:
            client = server.client()
            board = table_of(ask(client, "GET", "/board")[1])
            client.close()
            if board == verdicts and killed >= kills:
                break
            time.sleep(draw.random() * 0.1)
            at = draw.randrange(len(hosts))
            if killed < kills:
                hosts[at].kill()
                said.append(hosts[at].communicate()[1])
                hosts[at], killed = start(at + 1), killed + 1
        seconds = time.monotonic() - begun
        for it in hosts:
            it.kill()
            said.append(it.communicate()[1])
        counted = [(judging, test) for judging, test, reply in proxy.replies if reply == "counted"]
        again = sum(reply == "repeat" for _, _, reply in proxy.replies)
        odd = {reply for _, _, reply in proxy.replies} - {"counted", "repeat", "dropped"}
        good = board == verdicts and not any(said) and len(counted) == len(set(counted)) and not odd
        yield (f"{count} hosts, {killed} times one of them killed: {len(counted)} results counted, each once, and {again} posted again, "
               f"in {seconds:.0f} s"), good, (board, verdicts, said, odd, len(counted), len(set(counted)))


def looks(program, folder, numbers, of):
    seed, lies_count, kills = (numbers + [1, 200, 40][len(numbers) :])[:3]
    yield from talks(program)
    yield from nobody(program)
    yield from passwords(program, folder)
    yield from lies(program)
    yield from cuts(program)
    yield from random_lies(program, seed, lies_count)
    yield from memory(program)
    yield from one_host(program, folder)
    yield from crowd(program, folder, seed, kills, of)


def main():
    words, of = sys.argv[1:], os.path.join(TOP, "examples", "contest")
    if words and os.path.isdir(words[-1]):
        of = words.pop()
    program, numbers = program_and_numbers(words)
    sound = True
    with tempfile.TemporaryDirectory() as folder:
        for name, good, got in looks(program, folder, numbers, of):
            print(f"{'ok  ' if good else 'NOT '} {name}{'' if good else f': {got}'}", flush=True)
            sound = sound and good
    return 0 if sound else 1


if __name__ == "__main__":
    sys.exit(main())
