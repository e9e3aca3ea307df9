#!/usr/bin/env python3
"""Looks at where `farm serve` listens, how long it is patient with its clients, and how it ends in order.

    tests/serve_options.py [PROGRAM]

PROGRAM is the built program, `crates/farm/out/farm` of this repository if none is given. One line is printed for each
look, and the status is 1 where one shows something else than is wanted.
"""

import os
import re
import socket
import subprocess
import sys
import tempfile
import threading
import time

sys.dont_write_bytecode = True

from host import contest, table_of  # noqa: E402
from judge import write  # noqa: E402
from place import program_and_numbers  # noqa: E402
from serve import BOARD, FILES, Others, Server, ask, ask_again, is_answered, lines_of, tear_off  # noqa: E402


def reaches(address, port):
    """Whether something listens at the address and port."""
    family = socket.AF_INET6 if ":" in address else socket.AF_INET
    with socket.socket(family) as conn:
        conn.settimeout(2)
        return conn.connect_ex((address, port)) == 0


def has_ipv6():
    try:
        with socket.socket(socket.AF_INET6) as conn:
            conn.bind(("::1", 0))
            return True
    except OSError:
        return False


def addresses(program, folder):
    """The server listens at the address of its words alone, and where none is said at the machine itself."""
    with Server(program, folder) as server:
        yield "without --address: at 127.0.0.1", reaches("127.0.0.1", server.port), server.said
        yield "and not at another address", not reaches("127.0.0.2", server.port), None
    for words, at, elsewhere in (
        (["--address", "127.0.0.2"], "127.0.0.2", "127.0.0.1"),
        (["--address=127.0.0.3"], "127.0.0.3", "127.0.0.2"),
        (["--address", "0.0.0.0"], "127.0.0.2", None),
        *([(["--address", "::1"], "::1", "127.0.0.1")] if has_ipv6() else []),
    ):
        with Server(program, folder, options=words) as server:
            good = server.port and reaches(at, server.port)
            yield f"{' '.join(words)}: at {at}", good, server.said
            if elsewhere:
                yield f"and not at {elsewhere}", not reaches(elsewhere, server.port), None
    with Server(program, folder, options=["--address", "192.0.2.1"]) as server:
        got = server.ended()
        yield "8: an address of another machine", got == (8, "") and "192.0.2.1" in server.said, (got, server.said)
    for word in ("localhost", "127.0.0", "127.0.0.256", "127.0.0.1:80", "::1::", "01.2.3.4"):
        got = refused(program, folder, "--address", word)
        yield f"2: --address {word}", got[0] == 2 and not got[1] and "address" in got[2], got


def refused(program, folder, *words):
    """The status and what is written on both outputs, for words that are to be refused."""
    words = [program, "serve", folder, "--port", "0", "--lanes", "1", "--connections", "1", *words]
    ran = subprocess.run(words, capture_output=True, text=True, timeout=10, stdin=subprocess.DEVNULL, check=False)
    return ran.returncode, ran.stdout, ran.stderr


def silent(conn):
    """Says nothing."""
    conn.recv(1)


def halting(conn):
    """Says half a request."""
    conn.sendall(BOARD[:-1])
    conn.recv(1)


def trickling(conn):
    """Says a byte a second."""
    for byte in BOARD:
        conn.sendall(bytes([byte]))
        conn.settimeout(1)
        try:
            conn.recv(1)
            return
        except TimeoutError:
            conn.settimeout(15)


def deaf(conn):
    """Takes no answer."""
    while True:
        conn.sendall(BOARD * 100)


# Clients that are let go, and how their lines end.
IMPATIENT = [(silent, "read-fault"), (halting, "read-fault"), (trickling, "read-fault"), (deaf, "write-fault")]


def seconds_until_end(conn, behave):
    """How long it takes until the server has ended the connection of a client that behaves so."""
    begun = time.monotonic()
    conn.settimeout(15)
    try:
        behave(conn)
    except ConnectionError:
        pass
    except TimeoutError:
        return float("inf")
    return time.monotonic() - begun


def patience(program, folder):
    """Who says nothing, says no whole request or takes no response for so many seconds is let go, with a fault on its line."""
    options = ["--patience", "2", "--until-input-ends"]
    with tempfile.TemporaryDirectory() as large:
        # a board that fills what the system holds for a connection
        write(large, FILES | {"submissions.txt": "".join(f"{n} otters echo a.rv32\n" for n in range(1, 2001))})
        with Server(program, large, lanes=8, connections=10_000, options=options, stdin=subprocess.PIPE) as server:
            conns, took = [server.connect() for _ in IMPATIENT], {}

            def wait_for(conn, behave):
                took[behave] = seconds_until_end(conn, behave)

            threads = [threading.Thread(target=wait_for, args=(conn, behave)) for conn, (behave, _) in zip(conns, IMPATIENT)]
            with Others(server) as others:
                for thread in threads:
                    thread.start()
                for thread in threads:
                    thread.join()
            for behave, _ in IMPATIENT:
                what, seconds = behave.__doc__.lower().rstrip("."), took[behave]
                yield f"--patience 2: one that {what} is let go after {seconds:.1f} s", 1 < seconds < 8, took
            yield others.look()
            yield "  and one of them, which asks all the time, was never let go", len(others.kept) == 1, len(others.kept)
            for conn in conns:
                conn.close()
            status, text = server.ended_in_order()
            lines = lines_of(text) or []
            good = status == 0 and [how for _, how in lines[:4]] == [how for _, how in IMPATIENT]
            good = good and [requests for requests, _ in lines[:3]] == [0, 0, 0] and {how for _, how in lines[4:]} == {"end"}
            yield "  their lines", good, (status, lines[:6])
    with Server(program, folder, connections=1) as server:
        conn = server.connect()
        conn.settimeout(3)
        try:
            got = conn.recv(1)
        except TimeoutError:
            got = None
        yield "without --patience: one that says nothing for 3 s is still there", got is None, got
        conn.close()
    for number in ("0", "3601", "1.5", "+5", "060"):
        got = refused(program, folder, "--patience", number)
        yield f"2: --patience {number}", got[0] == 2 and not got[1] and "patience" in got[2], got


def ends_in_order(program, folder):
    """With --until-input-ends the end of standard input ends the server: what is being served ends, and the board stands."""
    options = ["--until-input-ends"]
    with Server(program, folder, options=options, stdin=subprocess.PIPE) as server:
        inside = server.client()
        good = is_answered(inside)
        server.process.stdin.write(b"some words\nand no end\n")
        server.process.stdin.flush()
        time.sleep(0.3)
        yield "what comes on standard input is not looked at", good and is_answered(server.client()), None
        server.process.stdin.close()
        server.process.stdin = None
        time.sleep(0.5)
        yield "behind its end no connection is let in", not reaches_and_is_answered(server), None
        status, reply = ask(inside, "POST", "/judgements/1/ask", {})
        yield "a client that is inside is answered", status in (200, 409), (status, reply)
        inside.close()
        status, text = server.ended()
        lines = text.splitlines()
        yield "0: it ends with its lines and its board", status == 0 and lines[-1] == "board 2" and lines[0].startswith("conn 1 requests 2 "), (status, lines)
    with Server(program, folder, options=options, stdin=subprocess.DEVNULL) as server:
        status, text = server.ended()
        yield "0: an input that has ended at once", (status, text.splitlines()[-1:]) == (0, ["board 2"]), (status, text)
    with Server(program, folder, stdin=subprocess.DEVNULL) as server:
        time.sleep(0.5)
        yield "without the option the end of the input is nothing", is_answered(server.client()), None


def host_on(program, server, name, stop):
    """A judgehost that is started again whenever it has ended."""
    words = ["--port", str(server.port), "--name", name, "--fuel", "100000", "--wait", "1"]
    while not stop.is_set():
        host = subprocess.Popen([program, "host", "127.0.0.1", *words], stdout=subprocess.DEVNULL, stderr=subprocess.DEVNULL)
        while host.poll() is None and not stop.wait(0.05):
            pass
        host.kill()
        host.wait()


def hold_up(server, stop):
    """Clients that come one after the other and hold up the server, for half a second or until it lets them go."""
    while not stop.is_set():
        for text, end in [(b"", socket.socket.close), (BOARD[:-1], tear_off), (BOARD * 1000, socket.socket.close), (BOARD, tear_off)]:
            conn = server.connect()
            conn.settimeout(0.5)
            try:
                conn.sendall(text)
                conn.recv(1)
            except OSError:
                pass
            end(conn)


def whole_contest(program, _):
    """Judgehosts that judge a whole contest, among clients that hold up the server: the board is the table of `judge`."""
    options = ["--patience", "2", "--until-input-ends"]
    with tempfile.TemporaryDirectory() as place:
        folder = os.path.join(place, "contest")
        verdicts = contest(program, folder, 1)
        with Server(program, folder, lanes=6, connections=100_000, options=options, stdin=subprocess.PIPE) as server:
            stop, begun, worst, board = threading.Event(), time.monotonic(), 0, None
            threads = [threading.Thread(target=host_on, args=(program, server, f"h{n}", stop)) for n in range(1, 4)]
            threads += [threading.Thread(target=hold_up, args=(server, stop)) for _ in range(2)]
            for thread in threads:
                thread.start()
            while board != verdicts and time.monotonic() - begun < 60:
                client, asked = server.client(), time.monotonic()
                board = table_of(ask_again(client, "GET", "/board")[1])
                worst = max(worst, time.monotonic() - asked)
                client.close()
                time.sleep(0.02)
            took = time.monotonic() - begun
            stop.set()
            for thread in threads:
                thread.join()
            yield f"a contest that is judged among clients that hold up the server, in {took:.1f} s", board == verdicts, (board, verdicts)
            yield f"  others wait {worst:.3f} s at the most", worst < 1, worst
            status, text = server.ended_in_order()
            wanted = [f"{n} {verdict}" for n, verdict in enumerate(verdicts, 1)] + [f"board {len(verdicts)}"]
            lines = lines_of(text)
            good = status == 0 and text.splitlines()[-len(wanted):] == wanted and lines is not None
            yield f"  {len(lines or [])} lines in order, and behind them the table of judge", good, (status, text[-300:])


def reaches_and_is_answered(server):
    try:
        with socket.create_connection(("127.0.0.1", server.port), timeout=2) as conn:
            conn.settimeout(1)
            conn.sendall(BOARD)
            return bool(conn.recv(1))
    except OSError:
        return False


def main():
    program, _ = program_and_numbers(sys.argv[1:])
    sound = True
    with tempfile.TemporaryDirectory() as folder:
        write(folder, FILES)
        for look in (addresses, patience, ends_in_order, whole_contest):
            for name, good, got in look(program, folder):
                print(f"{'ok  ' if good else 'NOT '} {name}{'' if good else f': {got!r}'}")
                sound = sound and good
    return 0 if sound else 1


if __name__ == "__main__":
    sys.exit(main())
