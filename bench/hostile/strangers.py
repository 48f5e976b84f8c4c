#!/usr/bin/env python3
"""Connects to the built program as those would who are no partners: probes, browsers, callers that stay, terminals that stopped.

    python3 bench/hostile/strangers.py [--program PATH]

A newcomer takes a place by a first line that may be a command, and by nothing else, also where twelve come at one look;
who connects while the program has no further descriptor is served later; one partner alone is served under each
combination of the words; who does not read standard error, or holds the control address, holds up nobody; a standard
error that is read at the end has all that was held; a pace counts lines and not connections; levels of the room are
told once each; the page and its events are refused to other names and other sites; what `--save` and `--keep` name is
left alone where it is something else's; and a journal is gone on from in a new file. The last line is `N cases, M
failed`; status 1 where one failed.
"""

import contextlib
import fcntl
import itertools
import os
import pathlib
import re
import resource
import signal
import socket
import subprocess
import sys
import tempfile
import threading
import time

from cases import KEPT_ELSEWHERE, KEPT_THERE, NO_PLAIN_FILE, PLAN, SCHEDULE, Cases, cause, ran, text, words

TICK = '{"cmd":"tick"}'
WORDS = ["--again", "--control", "--pace", "--keep"]


def free_port():
    with socket.create_server(("127.0.0.1", 0)) as server:
        return server.getsockname()[1]


class Board:
    """A program that serves a partner for each role. Its lines on standard error are gathered, or left in the pipe."""

    def __init__(self, program, options, roles=("APT",), is_heard=True):
        self.control = free_port()
        options = [str(self.control) if option == "PORT" else str(option) for option in options]
        command = [str(program), "serve", *options, *[f"{role}=127.0.0.1:0" for role in roles]]
        self.process = subprocess.Popen(command, stdout=subprocess.PIPE, stderr=subprocess.PIPE)
        listening = [self.process.stdout.readline().split() for _ in roles]
        self.ports = [int(words[3].rsplit(b":", 1)[1]) for words in listening]
        self.said = []
        if is_heard:
            threading.Thread(target=self.hear, daemon=True).start()

    def hear(self):
        for line in self.process.stderr:
            self.said.append(line.decode().rstrip("\n"))

    def connect(self, at=0, timeout=10):
        return socket.create_connection(("127.0.0.1", self.ports[at]), timeout=timeout)

    def ask(self, line, timeout=10):
        with socket.create_connection(("127.0.0.1", self.control), timeout=timeout) as caller:
            caller.sendall(line.encode() + b"\n")
            answer = b""
            while not answer.endswith((b"closing\n", b"unknown\n")) and b"last " not in answer:
                piece = caller.recv(4096)
                if not piece:
                    break
                answer += piece
            return answer.decode()

    def close(self):
        self.ask("close")
        return self.end()

    def end(self):
        try:
            return self.process.wait(20)
        except subprocess.TimeoutExpired:
            self.process.kill()
            return None


def asked(connection, line):
    """The reply to a line, or what came instead of one."""
    try:
        connection.sendall(line.encode() + b"\n")
        return replied(connection)
    except OSError as error:
        return f"{error}"


def replied(connection):
    came = b""
    while not came.endswith(b"\n"):
        try:
            piece = connection.recv(4096)
        except OSError as error:
            return came.decode() + type(error).__name__
        if not piece:
            break
        came += piece
    return came.decode()


def newcomers(program, cases):
    board = Board(program, ["--again", "--control", "PORT"])
    partner = board.connect()
    cases.expect("a partner is served", asked(partner, TICK) == "ok 0\n")
    for name, sent in [
        ("the head of a request", b"GET / HTTP/1.1\r\nHost: x\r\n\r\n" + TICK.encode() + b"\n"),
        ("a form", b"POST / HTTP/1.1\r\nHost: x\r\nContent-Length: 20\r\n\r\n" + TICK.encode() + b"\n"),
        ("an empty line", b"\n" + TICK.encode() + b"\n"),
        ("a list", b"[1]\n"),
        ("a long line that is no object", b"x" * 70_001),
    ]:
        with board.connect() as stranger:
            stranger.sendall(sent)
            cases.expect(f"{name} is answered", replied(stranger) == "bad 101\n")
    with board.connect() as stranger:
        stranger.sendall(TICK.encode())
        stranger.shutdown(socket.SHUT_WR)
        cases.expect("half a line is not answered", stranger.recv(100) == b"")
    with board.connect() as stranger:
        stranger.sendall(TICK.encode())
        time.sleep(0.3)
        stranger.shutdown(socket.SHUT_WR)
        came = replied(stranger)
        cases.expect("nor one whose end comes later", came == "", came)
    probes = [board.connect() for _ in range(20)]
    cases.expect("strangers do not take its place", asked(partner, TICK) == "ok 1\n")
    cases.expect("and nothing of theirs is entered", "entries 2 of" in board.ask("status"))
    newer = board.connect()
    newer.sendall(b'  {"cmd":')
    time.sleep(0.2)
    cases.expect("a line that is not whole takes no place", asked(partner, TICK) == "ok 2\n")
    newer.sendall(b'"tick"}\n' + TICK.encode() + b"\n")
    came = replied(newer)
    cases.expect("a whole one does", came.startswith("ok 3\n"), came)
    cases.expect("and the older connection ends", partner.recv(10) == b"")
    came += "" if came.count("\n") == 2 else replied(newer)
    cases.expect("and its next line is answered", came == "ok 3\nok 4\n", came)
    longest = board.connect()
    longest.sendall(b"{" + b"x" * 69_999)
    time.sleep(0.5)
    cases.expect("70,000 bytes of a line take no place", asked(newer, TICK) == "ok 5\n")
    longest.sendall(b"x")
    try:
        came = newer.recv(10)
    except OSError as error:
        came = error
    cases.expect("one more does", came == b"", came)
    cases.expect("and its line is too long", asked(longest, "") == "bad 105\n")
    for connection in [*probes, partner, newer, longest]:
        connection.close()
    cases.expect("the board closes", board.close() == 0)
    told = [line for line in board.said if line.startswith("here ")]
    cases.expect("who took no place is not told", len(told) == 3, told)


def ninth(program, cases):
    """At most eight newcomers wait at an address: for a ninth the one that has waited longest is closed, and no other."""
    board = Board(program, ["--again", "--control", "PORT"])
    waiting = [board.connect(timeout=5) for _ in range(9)]
    try:
        came = waiting[0].recv(10)
    except OSError as error:
        came = error
    cases.expect("for a ninth newcomer the first one is closed", came == b"", came)
    for number, at in enumerate([8, 7, 1]):
        came = asked(waiting[at], TICK)
        cases.expect(f"newcomer {at + 1} of nine is served", came == f"ok {number}\n", came)
    # (five of these still wait, the third one for the longest time, and four more come)
    waiting += [board.connect(timeout=5) for _ in range(4)]
    try:
        came = waiting[2].recv(10)
    except OSError as error:
        came = error
    cases.expect("then for a ninth the one is closed that waits longest", came == b"", came)
    for number, at in enumerate([12, 6, 3], 3):
        came = asked(waiting[at], TICK)
        cases.expect(f"and newcomer {at + 1} of thirteen is served", came == f"ok {number}\n", came)
    for connection in waiting:
        connection.close()
    cases.expect("the board closes", board.close() == 0)


def last_lines(program, cases, room):
    """A standard error that nobody reads until the board ends: what is held behind a slow write is written too."""
    log, places, turns = room / "log", 16, 8
    board = Board(program, ["--again", "--control", "PORT", "--log", log], ("APT",) * places, is_heard=False)
    # (with the least pipe, what is told of 16 places finds no room in it, and all of it in what is held)
    fcntl.fcntl(board.process.stderr, fcntl.F_SETPIPE_SZ, 4096)
    for _ in range(turns):
        with contextlib.ExitStack() as opened:
            partners = [opened.enter_context(board.connect(at)) for at in range(places)]
            for partner in partners:
                partner.sendall(TICK.encode() + b"\n")
            for partner in partners:
                replied(partner)
    board.ask("close")
    began = time.monotonic()
    while b'"close"' not in log.read_bytes() and time.monotonic() - began < 20:
        time.sleep(0.01)
    # (a board that ends waits for a second until its lines are written)
    time.sleep(0.1)
    board.hear()
    cases.expect("a board whose errors are read at its end ends", board.end() == 0)
    told = [sum(line.startswith(word) for line in board.said) for word in ("here ", "gone ")]
    logged = [log.read_bytes().count(word) for word in (b'"event":"here"', b'"event":"gone"')]
    cases.expect("and each line is there", told == logged == [places * turns] * 2, (told, logged, board.said[-1:]))


def alone(program, cases, room):
    for size in range(1, len(WORDS) + 1):
        for given in itertools.combinations(WORDS, size):
            file = room / "-".join(word[2:] for word in given)
            values = {"--again": [], "--control": ["PORT"], "--pace": ["600"], "--keep": [file]}
            board = Board(program, [part for word in given for part in [word, *values[word]]], ("APT", "NM", "GH"))
            with board.connect() as partner:
                cases.expect(f"one partner alone is served under {given}", asked(partner, TICK) == "ok 0\n")
            if "--control" in given:
                cases.expect(f"and the board closes under {given}", board.close() == 0)
            else:
                board.process.terminate()
                board.end()


def at_one_look(program, cases):
    """Twelve whose first lines are there at one look: nobody waits, so each takes the place, and the last one has it."""
    board = Board(program, ["--again", "--control", "PORT"])
    cases.expect("a board is there", "entries 0 of" in board.ask("status"))
    board.process.send_signal(signal.SIGSTOP)
    partners = [board.connect(timeout=30) for _ in range(12)]
    for partner in partners:
        partner.sendall(TICK.encode() + b"\n")
    board.process.send_signal(signal.SIGCONT)
    came = replied(partners[-1])
    cases.expect("the last of twelve is served", came.startswith("ok "), came)
    began = time.monotonic()
    while sum(line.startswith("here ") for line in board.said) < 12 and time.monotonic() - began < 30:
        time.sleep(0.02)
    told = [line.split()[0] for line in board.said]
    cases.expect("each of twelve is told, and as gone before the next", told == ["here", "gone"] * 11 + ["here"], told)
    for partner in partners:
        partner.close()
    cases.expect("the board closes", board.close() == 0)


def without_descriptors(program, cases):
    """Where the program has no further descriptor, who connects waits, at each kind of address, and is served once there is one."""
    ports = {word: free_port() for word in ("--watch", "--changes", "--web")}
    options = [part for word, port in ports.items() for part in (word, f"127.0.0.1:{port}")]
    board = Board(program, ["--again", "--control", "PORT", *options], ("APT", "APT"))
    first, number = board.connect(), board.process.pid
    cases.expect("a partner is there", asked(first, TICK) == "ok 0\n")
    before = resource.prlimit(number, resource.RLIMIT_NOFILE)
    taken = {int(it) for it in os.listdir(f"/proc/{number}/fd")}
    resource.prlimit(number, resource.RLIMIT_NOFILE, (min({*range(len(taken) + 1)} - taken), before[1]))
    late = {
        "partner": (board.ports[1], TICK.encode() + b"\n", b"ok 2\n"),
        "display": (ports["--watch"], b"", b"0 1 "),
        "client of the feed": (ports["--changes"], b"from 0\n", b'{"journal":"'),
        "browser": (ports["--web"], b"HEAD / HTTP/1.1\r\n\r\n", b"HTTP/1.1 200 "),
        "caller": (board.control, b"status\n", b"session 1 APT here "),
    }
    waiting = {name: sent(port, line) for name, (port, line, _) in late.items()}
    # (so long that the board looks several times for who connects)
    time.sleep(0.5)
    cases.expect("who was there is served on", asked(first, TICK) == "ok 1\n")
    resource.prlimit(number, resource.RLIMIT_NOFILE, before)
    for name, (_, _, wanted) in late.items():
        came = heard(waiting[name])
        cases.expect(f"a {name} that has waited for a descriptor is served", came.startswith(wanted), came)
    for connection in filter(None, (first, *waiting.values())):
        connection.close()
    cases.expect("the board closes", board.close() == 0)


def sent(port, line):
    """A connection at which a line was sent; none where nobody listens."""
    try:
        connection = socket.create_connection(("127.0.0.1", port), timeout=30)
        connection.sendall(line)
    except OSError:
        return None
    return connection


def heard(connection):
    """What comes first; nothing where nothing does."""
    try:
        return connection.recv(4096) if connection else b""
    except OSError:
        return b""


def silent_terminal(program, cases):
    board = Board(program, ["--again", "--control", "PORT"], is_heard=False)
    begun = time.monotonic()
    partner = board.connect()
    first = asked(partner, TICK)
    for _ in range(2_000):
        board.connect().close()
    for _ in range(60):
        with board.connect() as other:
            asked(other, TICK)
    with board.connect() as last:
        came = asked(last, TICK)
    cases.expect("who does not read errors stops nobody", first == "ok 0\n" and came == "ok 61\n", (first, came))
    cases.expect("nor the control address", "entries 62 of" in board.ask("status"))
    cases.expect("and the board closes", board.close() == 0)
    said = board.process.stderr.read().decode().splitlines()
    # (30 of a minute, and on a busy machine this may take some)
    most = 31 * (int(time.monotonic() - begun) // 60 + 2)
    cases.expect("not all connections are told", sum(line.startswith("here ") for line in said) <= most, len(said))
    partner.close()


def full_pipe(program, cases):
    board = Board(program, ["--again", "--control", "PORT"], ("APT",) * 60, is_heard=False)
    # (each place tells 30 a minute: 60 of them fill the pipe and the room behind it, which nobody reads)
    for _ in range(30):
        # (a newcomer waits until its place sees that who was there has left, so all places get one at once)
        with contextlib.ExitStack() as opened:
            partners = [opened.enter_context(board.connect(at)) for at in range(60)]
            for partner in partners:
                partner.sendall(TICK.encode() + b"\n")
            for partner in partners:
                replied(partner)
    cases.expect("a full pipe of errors holds up nobody", "entries 1800 of" in board.ask("status"))
    began = time.monotonic()
    cases.expect("nor the end", board.close() == 0 and time.monotonic() - began < 10)
    said = board.process.stderr.read().decode().splitlines()
    cases.expect("each line that was written is whole", all(re.match(r"(here|gone) \d+ |\.\. \d+ lines not written", line) for line in said[:-1]))


def late_terminal(program, cases, room):
    """Of a standard error that is read late: the lines that are there, and those that are counted, are all that was told."""
    log = room / "log"
    board = Board(program, ["--again", "--control", "PORT", "--log", log], ("APT",) * 64, is_heard=False)
    # (with the least pipe, what is told of 64 places finds no room in it and in what is held)
    fcntl.fcntl(board.process.stderr, fcntl.F_SETPIPE_SZ, 4096)
    for _ in range(31):
        with contextlib.ExitStack() as opened:
            partners = [opened.enter_context(board.connect(at)) for at in range(64)]
            for partner in partners:
                partner.sendall(TICK.encode() + b"\n")
            for partner in partners:
                replied(partner)
    began = time.monotonic()
    while " here " in board.ask("status") and time.monotonic() - began < 20:
        time.sleep(0.1)
    time.sleep(0.5)
    threading.Thread(target=board.hear, daemon=True).start()

    def counted():
        """How many lines were read, how many were counted, and how many events were logged."""
        lost = [re.fullmatch(r"\.\. (\d+) lines not written", line) for line in board.said]
        counts = sum(int(it[1]) for it in lost if it)
        return sum(it is None for it in lost), counts, log.read_bytes().count(b"\n")

    began = time.monotonic()
    while sum(counted()[:2]) < counted()[2] and time.monotonic() - began < 20:
        time.sleep(0.1)
    # (what is counted is counted once)
    time.sleep(0.5)
    written, lost, told = counted()
    cases.expect("lines that were not written are counted", lost > 0 and written + lost == told, (written, lost, told))
    cases.expect("and the board closes", board.close() == 0)


def held_control(program, cases):
    board = Board(program, ["--again", "--control", "PORT"])
    silent = [socket.create_connection(("127.0.0.1", board.control), timeout=30) for _ in range(8)]
    time.sleep(0.2)
    cases.expect("a ninth caller is answered", "entries 0 of" in board.ask("status"))
    for line in ["POST / HTTP/1.1", "Host: x", "", "stat us", "CLOSE"]:
        with socket.create_connection(("127.0.0.1", board.control), timeout=10) as caller:
            caller.sendall(line.encode() + b"\r\nclose\r\n")
            came = b""
            while piece := caller.recv(100):
                came += piece
            cases.expect(f"a caller that begins with {line!r} is let go", came == b"unknown\n", came)
    cases.expect("and does not close the board", board.process.poll() is None)
    with contextlib.ExitStack() as opened:
        asker, caller = (opened.enter_context(socket.create_connection(("127.0.0.1", board.control), timeout=6)) for _ in range(2))
        began = time.monotonic()
        caller.sendall(b"stat")
        try:
            caller.recv(1)
        except TimeoutError:
            asker.sendall(b"status\n")
            cases.expect("another caller is answered meanwhile", b"entries 0 of" in asker.recv(4096))
            # (a byte more gives it no further time)
            caller.sendall(b"u")
            caller.settimeout(20)
            caller.recv(1)
        took = time.monotonic() - began
        cases.expect("half a line is waited for ten seconds, also where a byte comes", 9 < took < 13, took)
        try:
            asker.sendall(b"status\n")
            came = asker.recv(4096)
        except OSError:
            came = b""
        cases.expect("who has sent a whole line has ten seconds for the next", b"entries 0 of" in came, came)
    for size, wanted in ((64, b"unknown\n"), (65, b"")):
        with socket.create_connection(("127.0.0.1", board.control), timeout=10) as caller:
            caller.sendall(b"x" * size + b"\n")
            try:
                came = caller.recv(100)
            except ConnectionError:
                came = b""
            cases.expect(f"a line of {size} bytes", came == wanted, came)
    for caller in silent:
        caller.close()
    longest_idle(board, cases)
    cases.expect("the board closes", board.close() == 0)


def longest_idle(board, cases):
    """Of eight callers the first one asks for something: for a ninth the second one is disconnected, and no other."""
    time.sleep(0.2)
    callers = [socket.create_connection(("127.0.0.1", board.control), timeout=5) for _ in range(8)]
    time.sleep(0.4)
    callers[0].sendall(b"status\n")
    cases.expect("the first of eight callers is answered", b"entries 0 of" in callers[0].recv(4096))
    callers.append(socket.create_connection(("127.0.0.1", board.control), timeout=5))
    for number, caller in enumerate(callers, 1):
        try:
            caller.sendall(b"status\n")
            came = caller.recv(4096)
        except OSError:
            came = b""
        cases.expect(f"caller {number} of nine", (b"entries 0 of" in came) == (number != 2), came)
        caller.close()


def pace(program, cases):
    board = Board(program, ["--again", "--control", "PORT", "--pace", "3"])
    for _ in range(12):
        board.connect().close()
    began = time.monotonic()
    with board.connect() as partner:
        came = [asked(partner, TICK) for _ in range(3)]
        took = time.monotonic() - began
        cases.expect("three lines are taken at once, whoever connected", came == ["ok 0\n", "ok 1\n", "ok 2\n"] and took < 5, (came, took))
        partner.settimeout(3)
        cases.expect("a fourth waits", "timeout" in asked(partner, TICK).lower())
    cases.expect("the board closes", board.close() == 0)


def levels(program, cases):
    board = Board(program, ["--again", "--control", "PORT", "--journal", "7"])
    with board.connect() as partner:
        partner.sendall(f"{TICK}\n".encode() * 7)
        while not replied(partner).endswith("ok 6\n"):
            pass
    cases.expect("the board closes", board.close() == 0)
    time.sleep(0.2)
    told = [line.split()[:2] for line in board.said if line.startswith("room ")]
    cases.expect("each level is told once", told == [["room", "80"], ["room", "95"]], told)


def web(program, cases):
    port = free_port()
    board = Board(program, ["--again", "--control", "PORT", "--web", f"127.0.0.1:{port}", "--web-name", "board.example"])

    def status(fields, path="/"):
        with socket.create_connection(("127.0.0.1", port), timeout=10) as browser:
            browser.sendall(f"GET {path} HTTP/1.1\r\n{fields}\r\n".encode())
            return browser.recv(12).decode()[9:]

    for fields, wanted in [
        (f"Host: 127.0.0.1:{port}\r\n", "200"),
        (f"Host: localhost:{port}\r\n", "200"),
        (f"Host: [::1]:{port}\r\n", "200"),
        ("Host: board.example\r\n", "200"),
        (f"Host: rebind.example:{port}\r\n", "421"),
        (f"Host: 127.0.0.1:{port}\r\nOrigin: http://127.0.0.1:{port}\r\n", "200"),
        (f"Host: 127.0.0.1:{port}\r\nOrigin: http://evil.example\r\n", "421"),
        (f"Host: 127.0.0.1:{port}\r\nOrigin: null\r\n", "421"),
    ]:
        cases.expect(f"the page by {fields!r}", status(fields) == wanted, status(fields))
        cases.expect(f"events by {fields!r}", status(fields, "/events") == wanted)
    cases.expect("the board closes", board.close() == 0)


def files(program, cases, room):
    line = text([f"1 29000580 APT {SCHEDULE}"]).encode()
    kept, saved = room / "k.part", room / "k"
    done = ran(program, ["run", "--keep", kept, "--save", saved], line)
    cases.expect("what is kept is not taken for the file beside", (done.returncode, done.stdout) == (0, b"ok 0\n"))
    cases.expect("and stands there", kept.read_bytes() == saved.read_bytes() != b"")
    given = room / "s.part"
    given.write_bytes(line)
    with open(given, "rb") as source:
        done = subprocess.run([program, "run", "--save", room / "s"], stdin=source, capture_output=True, timeout=60, check=False)
    cases.expect("an input of that name is answered", done.stdout == b"ok 0\n" and given.read_bytes() == line)
    target = room / "target"
    target.write_bytes(b"precious")
    (room / "l.part").symlink_to(target)
    done = ran(program, ["run", "--save", room / "l"], line)
    cases.expect("no link is followed", done.returncode == 0 and target.read_bytes() == b"precious")
    cases.expect("nothing is left beside but its tables", sorted(path.name for path in room.glob("l*")) == ["l", "l.part", "l.tables"])
    before = kept.read_bytes()
    done = ran(program, ["run", "--keep", kept, "--save", kept], line)
    cases.expect("one file is not kept and saved", (done.returncode, kept.read_bytes()) == (2, before))
    tables = room / "tables.toml"
    tables.write_bytes((pathlib.Path(__file__).resolve().parents[2] / "examples" / "tables.toml").read_bytes())
    before = tables.read_bytes()
    for word in ["--save", "--keep"]:
        done = ran(program, ["run", "--tables", tables, word, tables], line)
        cases.expect(f"tables are left alone by {word}", (done.returncode, tables.read_bytes()) == (2, before))
    pipes = {"stdin": subprocess.PIPE, "stdout": subprocess.PIPE, "stderr": subprocess.PIPE}
    saving = subprocess.Popen([program, "run", "--save", room / "held"], **pipes)
    saving.stdin.write(line)
    saving.stdin.flush()
    cases.expect("a run begins that saves", saving.stdout.readline() == b"ok 0\n")
    board = Board(program, ["--control", "PORT", "--keep", room / "held"])
    with board.connect() as partner:
        first = asked(partner, TICK)
        told = "acdm: save failed\n" + cause(f"--save {room / 'held'}", KEPT_THERE)
        ended = (*saving.communicate(timeout=60), saving.returncode)
        cases.expect("what a board has begun to keep meanwhile is not saved over", ended == (b"", told.encode(), 2), ended)
        done = ran(program, ["run", "--save", room / "held"], line)
        cases.expect("what another board keeps is not saved over", (done.returncode, done.stdout) == (2, b""), done)
        done = ran(program, ["run", "--keep", room / "held"], line)
        told = "acdm: the kept journal is in use\n" + cause(f"--keep {room / 'held'}", KEPT_ELSEWHERE)
        cases.expect("nor kept twice", (done.returncode, done.stderr) == (2, told.encode()), done)
        second = asked(partner, TICK)
    # (it ends by itself, since its one partner has left)
    cases.expect("the board goes on", (first, second) == ("ok 0\n", "ok 1\n") and board.end() == 0)
    cases.expect("with all of its entries", ran(program, ["audit", room / "held"]).stdout == b"legal 2\n")
    fifo = room / "fifo"
    os.mkfifo(fifo)
    for path in [fifo, "/dev/null", "/dev/full", room]:
        done = ran(program, ["run", "--keep", path], line, timeout=10)
        told = "acdm: keep failed\n" + cause(f"--keep {path}", NO_PLAIN_FILE)
        seen = done.returncode, done.stdout, done.stderr
        cases.expect(f"{path} is no file to keep in", seen == (2, b"", told.encode()), seen)


def going_on(program, cases, room):
    file, lines = room / "day", [f"1 29000580 APT {SCHEDULE}", f"2 29000580 NM {PLAN}"]
    ran(program, ["run", "--keep", file], text(lines[:1]).encode())
    file.chmod(0o640)
    if os.getuid() == 0:
        os.chown(file, 65_534, 65_533)
    owner = file.stat().st_uid, file.stat().st_gid
    inode, before = file.stat().st_ino, file.read_bytes()
    with open(file, "ab") as end:
        end.write(b"1 2 2900")
    (room / "link").symlink_to(file)
    done = ran(program, ["run", "--keep", room / "link"], text(lines[1:]).encode())
    cases.expect("a board goes on by a link", (done.returncode, done.stdout) == (0, b"ok 1\n"), done)
    cases.expect("in a new file", file.stat().st_ino != inode and (room / "link").is_symlink())
    cases.expect("of the same rights", file.stat().st_mode & 0o777 == 0o640)
    cases.expect("and of the same owner", (file.stat().st_uid, file.stat().st_gid) == owner, file.stat())
    cases.expect("which begins with the old text and has no cut line", file.read_bytes().startswith(before + b"1 2 2900058"))
    beside = sorted(path.name for path in room.iterdir())
    cases.expect("and nothing is left beside but their tables", beside == ["day", "day.tables", "link", "link.tables"], beside)
    faulty = room / "faulty"
    faulty.write_bytes(b"what is this\n")
    inode = faulty.stat().st_ino
    done = ran(program, ["run", "--keep", faulty], b"")
    cases.expect("what is no journal stays", (done.returncode, done.stdout, faulty.stat().st_ino) == (1, b"entry 0 401\n", inode))


def main():
    given = words(__doc__).parse_args()
    program, cases = given.program.resolve(), Cases()
    signal.signal(signal.SIGALRM, lambda *_: sys.exit("strangers: took too long"))
    signal.alarm(600)
    newcomers(program, cases)
    ninth(program, cases)
    at_one_look(program, cases)
    without_descriptors(program, cases)
    silent_terminal(program, cases)
    full_pipe(program, cases)
    held_control(program, cases)
    pace(program, cases)
    levels(program, cases)
    web(program, cases)
    for part in (late_terminal, last_lines, alone, files, going_on):
        with tempfile.TemporaryDirectory(prefix="acdm-") as room:
            part(program, cases, pathlib.Path(room))
    return cases.end()


if __name__ == "__main__":
    sys.exit(main())
