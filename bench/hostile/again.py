#!/usr/bin/env python3
"""Tries `acdm serve --again`, `--control` and `--pace` of the built program on a bad day.

    python3 bench/hostile/again.py [--program PATH]

A partner that comes back 100 times in the middle of lines while 63 others work; newer connections at one address;
probes before the day and during it; an absent partner; partners that never read, which are let go after 30 seconds or
when the board closes; `status` and `close`, at an address of either kind; lines whose ends come late, and connections
that fail in the middle of one; a bounded pace; SIGTERM and Ctrl-C through the script `acdm`, at an address of either
kind too; a journal that is nearly full, which is told; and, with none of these words, sessions whose connections are
closed as they end. The last line is `N cases, M failed`; status 1 where one failed.
"""

import contextlib
import pathlib
import random
import re
import signal
import socket
import struct
import subprocess
import sys
import tempfile
import threading
import time

from cases import ALERTS, PLAN, SCHEDULE, TOP, Cases, cause, ran, words

PORTS = random.sample(range(20_000, 32_000), 12_000)
SHOW = '{"cmd":"show","flight":7}'
ROLES = ["NM", "ATC", "APT", "AO", "GH", "DIC"]
HOSTS = ("127.0.0.2", "::1")
MOMENT = r"\d{4}-\d\d-\d\dT\d\d:\d\d:\d\dZ"
VERSION = (TOP / "VERSION").read_text(encoding="ascii").strip()
# What runs the program by the script at the top, whether it was proved by that or by the gate.
BY_SCRIPT = """
import importlib.machinery, importlib.util, pathlib, sys
loader = importlib.machinery.SourceFileLoader("script", sys.argv[1])
script = importlib.util.module_from_spec(importlib.util.spec_from_loader("script", loader))
loader.exec_module(script)
script.PROGRAM = pathlib.Path(sys.argv[2])
sys.exit(script.run_proved(sys.argv[3:]))
"""


def free_port():
    """A port at which nobody listens: another one each time, and none of those that the system gives by itself."""
    while True:
        port = PORTS.pop()
        with contextlib.suppress(OSError), socket.create_server(("127.0.0.1", port)):
            return port


def is_refused(host, port):
    """Whether nobody listens there."""
    try:
        socket.create_connection((host, port), timeout=5).close()
    except ConnectionRefusedError:
        return True
    return False


class Board:
    """A program that serves; what it says on its errors is gathered as it comes."""

    def __init__(self, command, arguments, roles):
        self.port = free_port()
        arguments = [str(self.port) if it == "PORT" else it for it in arguments]
        command = [*command, "serve", *arguments, *[f"{it}=127.0.0.1:0" for it in roles]]
        self.ran = subprocess.Popen(command, stdout=subprocess.PIPE, stderr=subprocess.PIPE, text=True)
        self.ports = [int(self.ran.stdout.readline().split()[3].rsplit(":", 1)[1]) for _ in roles]
        self.said = []
        self.listening = threading.Thread(target=self.listen, daemon=True)
        self.listening.start()

    def listen(self):
        for line in self.ran.stderr:
            self.said.append(line.rstrip("\n"))

    def connect(self, session, small=False):
        return Partner(self.ports[session - 1], small)

    def ask(self, line):
        """What is answered at the control address."""
        with socket.create_connection(("127.0.0.1", self.port), timeout=20) as it:
            it.sendall(f"{line}\n".encode())
            return it.recv(65536).decode()

    def waits_for(self, holds, seconds=20):
        end = time.monotonic() + seconds
        while time.monotonic() < end:
            if holds():
                return True
            time.sleep(0.02)
        return holds()

    def told(self, number, what):
        """How often it said that a session's partner is here, or gone."""
        return sum(it.startswith(f"{what} {number} ") for it in self.said)

    def ended(self, seconds=30):
        """The status, and the lines of sessions and entries."""
        timer = threading.Timer(seconds, self.ran.kill)
        timer.start()
        lines = self.ran.stdout.read().splitlines()
        status = self.ran.wait()
        timer.cancel()
        self.listening.join(5)
        return status, lines

    def close(self, seconds=30):
        answer = self.ask("close")
        status, lines = self.ended(seconds)
        return answer, status, lines


class Partner:
    def __init__(self, port, small=False):
        self.socket = socket.socket()
        if small:
            self.socket.setsockopt(socket.SOL_SOCKET, socket.SO_RCVBUF, 4096)
        self.socket.settimeout(20)
        self.socket.connect(("127.0.0.1", port))
        self.replies = self.socket.makefile("r", encoding="utf-8", newline="\n")

    def send(self, text):
        self.socket.sendall(text.encode())

    def asks(self, line):
        """The reply to a line; nothing where the connection has ended."""
        try:
            self.send(f"{line}\n")
        except OSError:
            return ""
        return self.hears()

    def hears(self):
        """The next reply; nothing where none comes."""
        try:
            return self.replies.readline().rstrip("\n")
        except OSError:
            return ""

    def reads_end(self):
        """Whether the connection ends, and what was sent before."""
        try:
            return self.replies.read() == ""
        except ConnectionError:
            return True
        except OSError:
            return False

    def address(self):
        """Its own address, as a board tells it."""
        return "{}:{}".format(*self.socket.getsockname())

    def close(self, reset=False):
        if reset:
            self.socket.setsockopt(socket.SOL_SOCKET, socket.SO_LINGER, struct.pack("ii", 1, 0))
        self.replies.close()
        self.socket.close()


def number_of(reply):
    return int(reply.split()[1]) if re.match(r"(ok|no|alerts|record|show) \d", reply) else None


def work(board, session, turns, wrong):
    """A partner that asks, and reads each reply before the next line."""
    partner = board.connect(session)
    last = -1
    for _ in range(turns):
        number = number_of(partner.asks(ALERTS))
        if number is None or number <= last:
            wrong.append((session, number, last))
            return
        last = number
    partner.close()


def comes_back(cases, program, room):
    """One comes back 100 times in the middle of lines, while 63 others work."""
    saved = room / "saved"
    roles = [ROLES[it % 6] for it in range(64)]
    board = Board([program], ["--again", "--control", "PORT", "--save", str(saved)], roles)
    wrong, whole = [], 0
    others = [threading.Thread(target=work, args=(board, it, 200, wrong)) for it in range(2, 65)]
    for it in others:
        it.start()
    last = -1
    for turn in range(100):
        partner = board.connect(1)
        number = number_of(partner.asks(ALERTS))
        if number is None or number <= last:
            wrong.append((1, turn, number, last))
        last = number or last
        whole += 1
        partner.send(ALERTS[: 1 + turn % len(ALERTS)])
        partner.close(reset=turn % 2 == 0)
        board.waits_for(lambda: "session 1 NM gone" in board.ask("status"))
    for it in others:
        it.join()
    cases.expect("replies while one comes back", not wrong, wrong[:3])
    told_all = board.waits_for(lambda: 30 <= board.told(1, "here") == board.told(1, "gone") <= 100)
    cases.expect("told of 30 that came, and of few more", told_all, board.said[-3:])
    total = 63 * 200 + whole
    cases.expect("status", f"entries {total} of 100000\n" in board.ask("status"), board.ask("status")[-80:])
    answer, status, lines = board.close()
    cases.expect("close is answered", answer == "closing\n", answer)
    sessions = [f"session {it} {whole if it == 1 else 200} end" for it in range(1, 65)]
    cases.expect("ends in good order", (status, lines) == (0, [*sessions, f"closed {total}"]), (status, lines[:2], lines[-1:]))
    done = ran(program, ["audit", str(saved)])
    cases.expect("its journal is legal", done.stdout.decode() == f"legal {total}\n", done.stdout.decode())


def two_at_one(cases, program):
    """A newer connection takes the place of an older one, and gets no reply of it."""
    board = Board([program], ["--again", "--control", "PORT"], ["APT", "NM"])
    first = board.connect(1)
    cases.expect("the first is served", first.asks(SCHEDULE) == "ok 0")
    first.send(f"{ALERTS}\n" * 5 + '{"cmd":"al')
    board.waits_for(lambda: "entries 6 of" in board.ask("status"))
    second = board.connect(1)
    reply = second.asks(ALERTS)
    cases.expect("the second gets its own reply", reply.startswith("alerts 6 "), reply)
    cases.expect("the first is closed", first.replies.read().count("\n") == 5)
    board.waits_for(lambda: board.told(1, "here") == 2)
    here = [it for it in board.said if it.split()[1] == "1"]
    shape = [re.sub(r"127\.0\.0\.1:\d+", "ADDR", re.sub(r"\d{4}-\d\d-\d\dT\d\d:\d\d:\d\dZ", "MOMENT", it)) for it in here]
    cases.expect("it tells who came", shape == ["here 1 ADDR MOMENT", "gone 1 MOMENT", "here 1 ADDR MOMENT"], here)
    both = [board.connect(2) for _ in range(8)]
    cases.expect("the last of eight is served", both[-1].asks(ALERTS).startswith("alerts 7 "))
    cases.expect("another of them by its own line", both[0].asks(ALERTS).startswith("alerts 8 "))
    cases.expect("and who was served is closed", both[-1].reads_end())
    second.send("x" * 80000 + f"\n{ALERTS}\n")
    cases.expect("a long line is told", second.replies.readline() == "bad 105\n")
    cases.expect("and the next is answered", second.replies.readline().startswith("alerts 9 "))
    third = board.connect(1)
    third.send(ALERTS)
    third.close()
    cases.expect("the rest of a line is not answered", board.connect(1).asks(ALERTS).startswith("alerts 10 "))
    cases.expect("ends", board.close()[1:] == (0, ["session 1 9 end", "session 2 2 end", "closed 11"]))


def states_of(board, *parts):
    """How often the state of a board is answered to one caller, who sends these parts of lines one after the other."""
    count = 0
    with socket.create_connection(("127.0.0.1", board.port), timeout=5) as it, it.makefile("rb") as answers:
        for part in parts:
            it.sendall(part)
            time.sleep(0.2)
        with contextlib.suppress(OSError):
            while count < 3 and (line := answers.readline()):
                count += line.startswith(b"last ")
    return count


def probes(cases, program):
    """Probes before the day and during it, an absent partner, and the state of the board."""
    board = Board([program], ["--again", "--control", "PORT"], ["APT", "NM", "GH"])
    for _ in range(5):
        for session in (1, 2):
            board.connect(session).close()
    cases.expect("status of an empty board", board.ask("status").endswith(f"entries 0 of 100000\nterm 1\nversion {VERSION}\nlast none\n"))
    cases.expect("probes are not told", board.told(1, "here") == 0, board.said)
    airport = board.connect(1)
    cases.expect("served after probes", airport.asks(SCHEDULE) == "ok 0")
    for _ in range(5):
        board.connect(2).close()
        board.connect(2).close(reset=True)
    cases.expect("and beside them", airport.asks(ALERTS) == "alerts 1 7:CDM13")
    told = board.ask("status").splitlines()
    cases.expect("status tells who is here", re.match(rf"session 1 APT here 127\.0\.0\.1:\d+ since {MOMENT} ", told[0]), told)
    cases.expect("and who never was", told[2].startswith("session 3 GH gone ") and told[3] == "entries 2 of 100000", told)
    cases.expect("and the last moment", re.fullmatch(r"last \d{4}-\d\d-\d\dT\d\d:\d\d:00Z", told[-1]), told)
    with socket.create_connection(("127.0.0.1", board.port), timeout=20) as it:
        it.sendall(b"nothing\nstatus\r\nx")
        cases.expect("control answers each line", it.recv(65536).startswith(b"unknown\n"))
    with socket.create_connection(("127.0.0.1", board.port), timeout=20) as it:
        it.sendall(b"status\r\n")
        came = it.recv(65536)
        cases.expect("and passes over a carriage return", came.startswith(b"session 1 APT here "), came)
    came = states_of(board, b"status\nstatus\nsta", b"tus\n")
    cases.expect("and answers two lines at once, and one in two parts", came == 3, came)
    with socket.create_connection(("127.0.0.1", board.port), timeout=5) as it, it.makefile("rb") as answer:
        it.sendall(b"stat")
        it.shutdown(socket.SHUT_WR)
        came = None
        with contextlib.suppress(TimeoutError):
            came = answer.read()
        cases.expect("control lets a caller go that has ended", came == b"", came)
    with socket.create_connection(("127.0.0.1", board.port), timeout=20) as it:
        it.sendall(b"x" * 1000)
        try:
            left = it.recv(1) == b""
        except ConnectionError:
            left = True
        cases.expect("control lets long lines go", left)
    cases.expect("ends", board.close()[1:] == (0, ["session 1 2 end", "session 2 0 end", "session 3 0 end", "closed 2"]))


def is_held_up(other):
    """Waits until no line of another partner is entered any more, since it takes no replies; says whether that came."""
    last, still, end = -10, 0, time.monotonic() + 240
    # (more than once in a row: a write that waits gives up after a while, with what was taken until then)
    while still < 3 and time.monotonic() < end:
        number = int(other.asks(SHOW).split(" ")[1])
        still = still + 1 if number == last + 1 else 0
        last = number
        time.sleep(0.7)
    return still == 3


def never_reads(cases, program, again):
    """A partner that never reads is cut off when the board closes."""
    board = Board([program], [*again, "--control", "PORT"], ["APT", "NM"])
    airport, deaf = board.connect(1), board.connect(2, small=True)
    replies = [airport.asks(SCHEDULE), airport.asks('{"cmd":"al')] if again else [airport.asks(SCHEDULE)]
    cases.expect("served beside", replies[0] == "ok 0", replies)
    threading.Thread(target=fill, args=(deaf,), daemon=True).start()
    cases.expect("it takes no more replies", is_held_up(airport))
    begun = time.monotonic()
    answer = board.ask("close")
    # (five seconds are left for who has not taken its replies)
    refused = board.waits_for(lambda: is_refused("127.0.0.1", board.ports[0]), 3)
    cases.expect("a board that closes accepts nobody", refused)
    status, lines = board.ended()
    took = time.monotonic() - begun
    ends = [it.split()[3] for it in lines[:-1]]
    cases.expect("who never reads holds nothing up", (answer, status, ends) == ("closing\n", 0, ["end", "end"]), (status, lines))
    cases.expect("for long", took < 12, took)


def fill(partner):
    try:
        partner.send(f"{SHOW}\n" * 60000)
    except OSError:
        pass


def let_go(cases, program, given, most):
    """A partner that takes nothing is let go after 30 seconds, and within so many once it took its last."""
    board = Board([program], given, ["APT", "NM"])
    airport, deaf = board.connect(1), board.connect(2, small=True)
    cases.expect("served beside", airport.asks(SCHEDULE) == "ok 0")
    threading.Thread(target=fill, args=(deaf,), daemon=True).start()
    begun = time.monotonic()
    cases.expect("it takes no more replies", is_held_up(airport))
    held = time.monotonic()
    if "--again" in given:
        gone = board.waits_for(lambda: board.told(2, "gone") == 1, most + 5)
        took = held - begun, time.monotonic() - held
        cases.expect("who takes nothing is let go", gone and 25 < sum(took) and took[1] < most, (gone, took, board.said))
        cases.expect("and may come back", number_of(board.connect(2).asks(ALERTS)) is not None)
        cases.expect("ends", board.close()[1] == 0)
    else:
        airport.close()
        status, lines = board.ended(most + 5)
        took = held - begun, time.monotonic() - held
        is_cut = status == 0 and lines[1].endswith(" write")
        cases.expect(f"its session ends, {given}", is_cut and 25 < sum(took) and took[1] < most, (status, lines, took))


def paced(cases, program):
    """So many lines of a session are taken in a minute; the others wait for nothing."""
    board = Board([program], ["--again", "--control", "PORT", "--pace", "120"], ["APT", "NM"])
    cases.expect("a port alone is of the loopback address", is_refused("127.0.0.2", board.port))
    many, other = board.connect(1), board.connect(2)
    begun = time.monotonic()
    many.send(f"{ALERTS}\n" * 124)
    replies, at = [], 0
    for turn in range(124):
        replies.append(many.replies.readline())
        if turn == 119:
            at = time.monotonic() - begun
            cases.expect("the other is not held up", other.asks(ALERTS) != "" and time.monotonic() - begun < at + 1)
    took = time.monotonic() - begun
    cases.expect("all are answered", all(it.startswith("alerts ") for it in replies))
    cases.expect("the first at once, the others by the pace", at < 1.5 <= took < 10, (at, took))
    anew, begun = board.connect(1), time.monotonic()
    cases.expect("and goes on where it comes anew", all(anew.asks(ALERTS) for _ in range(4)) and time.monotonic() - begun >= 1)
    many = anew
    many.send(f"{ALERTS}\n" * 100)
    begun = time.monotonic()
    answer, status, lines = board.close()
    cases.expect("no further line is taken at the end", status == 0 and time.monotonic() - begun < 5, (status, lines))
    board = Board([program], ["--again", "--control", "PORT", "--pace", "1"], ["APT"])
    airport = board.connect(1)
    cases.expect("a line is taken", airport.asks(ALERTS) == "alerts 0 -")
    airport.send(f"{ALERTS}\n")
    # (so that this line waits for the pace, which takes none for a minute)
    time.sleep(0.5)
    ended = board.close(20)[1:]
    cases.expect("a line that waits for its pace holds up no end", ended == (0, ["session 1 1 end", "closed 1"]), ended)
    cases.expect("and has no reply", airport.reads_end())
    for bad in ("0", "x", "-1", "4294967296"):
        done = ran(program, ["serve", "--pace", bad, "APT=127.0.0.1:0"])
        cases.expect(f"a pace of {bad} is refused", done.returncode == 2 and not done.stdout, done)


def once(cases, program):
    """Without --again: who is absent holds nothing up where there is a control address; closed as they end."""
    board = Board([program], ["--control", "PORT"], ["APT", "NM"])
    airport = board.connect(1)
    cases.expect("close without a partner", board.close()[1:] == (0, ["session 1 0 end", "session 2 0 end", "closed 0"]))
    cases.expect("who was there sees the end", airport.reads_end())
    board = Board([program], [], ["APT", "NM"])
    airport, manager = board.connect(1), board.connect(2)
    cases.expect("a partner is served", airport.asks(SCHEDULE) == "ok 0")
    airport.close(reset=True)
    manager.close()
    cases.expect("that it could not be read is told", board.ended() == (0, ["session 1 1 read", "session 2 0 end", "closed 1"]))
    board = Board([program], ["--control", "PORT"], ["APT", "NM"])
    airport, manager, silent = board.connect(1), board.connect(2), board.connect(2)
    airport.send(f"{SCHEDULE}\n{ALERTS}")
    airport.socket.shutdown(socket.SHUT_WR)
    cases.expect("a last line needs no line feed", airport.replies.read() == "ok 0\nalerts 1 7:CDM13\n")
    cases.expect("others go on", manager.asks(ALERTS) == "alerts 2 7:CDM13")
    cases.expect("a second connection is refused", is_refused("127.0.0.1", board.ports[1]))
    cases.expect("and one that waits there is closed", silent.reads_end())
    cases.expect("and the first one goes on still", manager.asks(ALERTS) == "alerts 3 7:CDM13")
    cases.expect("nor is there one behind an end", is_refused("127.0.0.1", board.ports[0]))
    manager.send('{"cmd":"al')
    cases.expect("ends", board.close()[1:] == (0, ["session 1 2 end", "session 2 2 end", "closed 4"]))
    board = Board([program], [], ["APT", "NM"])
    airport, manager = board.connect(1), board.connect(2)
    airport.send(f"{SCHEDULE}\n{ALERTS}")
    airport.socket.shutdown(socket.SHUT_WR)
    cases.expect("an ended session is closed at once", airport.replies.read() == "ok 0\nalerts 1 7:CDM13\n")
    cases.expect("while others go on", manager.asks(ALERTS) == "alerts 2 7:CDM13")
    cases.expect("a second connection is refused there too", is_refused("127.0.0.1", board.ports[1]))
    cases.expect("and the first one goes on", manager.asks(ALERTS) == "alerts 3 7:CDM13")
    manager.close()
    status, lines = board.ended()
    cases.expect("ends", (status, lines, board.said) == (0, ["session 1 2 end", "session 2 2 end", "closed 4"], []), lines)
    slow_end(cases, program)
    failed_end(cases, program)
    done = ran(program, ["serve", "--control", "nowhere", "APT=127.0.0.1:0"])
    told = "acdm: control address\n" + cause("--control nowhere", "neither an IP address with a port nor a port")
    cases.expect("a bad control address", (done.returncode, done.stderr) == (2, told.encode()), done)


def slow_end(cases, program):
    """Without --again, connections whose ends come some time behind what they sent: nothing, and lines without a line feed."""
    board = Board([program], ["--control", "PORT"], ["APT"])
    probe = board.connect(1)
    probe.socket.shutdown(socket.SHUT_WR)
    cases.expect("who sends nothing is closed, and sent nothing", probe.reads_end())
    airport = board.connect(1)
    airport.send(ALERTS)
    time.sleep(0.3)
    airport.socket.shutdown(socket.SHUT_WR)
    came = airport.hears()
    cases.expect("a first line without a line feed is answered at its end", came == "alerts 0 -", came)
    cases.expect("and its board ends", board.ended() == (0, ["session 1 1 end", "closed 1"]))
    board = Board([program], ["--control", "PORT"], ["APT"])
    airport = board.connect(1)
    cases.expect("a first line", airport.asks(ALERTS) == "alerts 0 -")
    for part in (ALERTS[:9], f"{ALERTS[9:]}\n{ALERTS[:9]}", ALERTS[9:]):
        airport.send(part)
        time.sleep(0.1)
    airport.socket.shutdown(socket.SHUT_WR)
    came = [airport.hears() for _ in range(3)]
    cases.expect("so is a later one behind a line feed, and nothing else", came == ["alerts 1 -", "alerts 2 -", ""], came)
    cases.expect("and its board ends too", board.ended() == (0, ["session 1 3 end", "closed 3"]))


def failed_end(cases, program):
    """Without --again a connection that fails behind a part of a line, or a whole one that lacks its line feed: that is no line."""
    for part in (ALERTS, ALERTS[:9]):
        board = Board([program], ["--control", "PORT"], ["APT", "NM"])
        airport, manager = board.connect(1), board.connect(2)
        cases.expect("both are served", (airport.asks(ALERTS), manager.asks(ALERTS)) == ("alerts 0 -", "alerts 1 -"))
        airport.send(part)
        # (so that it is read before the connection fails)
        time.sleep(0.2)
        airport.close(reset=True)
        gone = board.waits_for(lambda board=board: "session 1 APT gone lines 1 entries 1 " in board.ask("status"), 30)
        cases.expect(f"behind {part} a connection fails, and nothing of it is a line", gone, board.ask("status"))
        manager.close()
        status, lines = board.ended()
        owed = ["session 1 1 end", "session 2 1 end", "closed 2"]
        cases.expect("and its board ends with the other partner", (status, lines) == (0, owed), (status, lines))


def is_here(host):
    """Whether this machine has an address; else that is said."""
    try:
        socket.create_server((host, 0), family=socket.AF_INET6 if ":" in host else socket.AF_INET).close()
        return True
    except OSError:
        print(f"left out: there is no address {host} here")
        return False


def named(host, port):
    """An address as a command line has it."""
    return f"[{host}]:{port}" if ":" in host else f"{host}:{port}"


def controlled_at(cases, program):
    """A control address with an IP address of either kind is that one, and no other."""
    for host in HOSTS:
        port = free_port()
        if not is_here(host):
            continue
        board = Board([program], ["--again", "--control", named(host, port)], ["APT"])
        cases.expect(f"nobody answers elsewhere, {host}", is_refused("127.0.0.1", port))
        with socket.create_connection((host, port), timeout=20) as it:
            it.sendall(b"close\n")
            cases.expect(f"it is answered at {host}", it.recv(64) == b"closing\n")
        cases.expect(f"and closes the board, {host}", board.ended() == (0, ["session 1 0 end", "closed 0"]))


def by_script(cases, program, number, control="PORT"):
    """A signal to the script closes the board, wherever its control address is."""
    command = [sys.executable, "-c", BY_SCRIPT, str(TOP / "acdm"), str(program)]
    board = Board(command, ["--again", "--control", control], ["APT"])
    airport = board.connect(1)
    cases.expect(f"served through the script, {control}", airport.asks(SCHEDULE) == "ok 0")
    board.ran.send_signal(number)
    ended = board.ended()
    cases.expect(f"{number.name} closes, {control}", ended == (0, ["session 1 1 end", "closed 1"]), ended)
    cases.expect("and the partner sees the end", airport.reads_end())


def by_script_elsewhere(cases, program):
    """The same where the control address has an IP address of either kind."""
    for host in HOSTS:
        if is_here(host):
            by_script(cases, program, signal.SIGTERM, named(host, free_port()))


def nearly_full(cases, program):
    """The board says when 80 and 95 per cent of the journal's room are used, each once and at once."""
    for words in (["--again", "--control", "PORT"], ["--pace", "600"]):
        board = Board([program], [*words, "--journal", "20"], ["APT"])
        airport = board.connect(1)
        told = lambda board=board: [it.split()[:5] for it in board.said if it.startswith("room ")]
        first, second = ["room", "80", "16", "of", "20"], ["room", "95", "19", "of", "20"]
        entries = 0
        for number, wanted in ((15, []), (16, [first]), (18, [first]), (19, [first, second]), (20, [first, second])):
            while entries < number:
                entries += airport.asks(ALERTS) != ""
            time.sleep(0.2 if wanted == told() else 0)
            cases.expect(f"{number} of 20 entries, {words[0]}", board.waits_for(lambda wanted=wanted: told() == wanted), board.said)
        told_at = [it.split()[5] for it in board.said if it.startswith("room ")]
        cases.expect("and tells the moment", all(re.fullmatch(MOMENT, it) for it in told_at), told_at)
        airport.close()
        ended = board.close()[1:] if "--control" in words else board.ended()
        cases.expect("it ends as ever", ended == (0, ["session 1 20 end", "closed 20"]), ended)


def main():
    asked = words(__doc__).parse_args()
    program, cases = str(asked.program.resolve()), Cases()
    with tempfile.TemporaryDirectory() as room:
        control = ["--control", "PORT"]
        given = (([], 45), (control, 120), (["--again", *control], 45))
        slow = [threading.Thread(target=let_go, args=(cases, program, *it)) for it in given]
        for it in slow:
            it.start()
        comes_back(cases, program, pathlib.Path(room))
        two_at_one(cases, program)
        probes(cases, program)
        paced(cases, program)
        once(cases, program)
        controlled_at(cases, program)
        for number in (signal.SIGTERM, signal.SIGINT):
            by_script(cases, program, number)
        by_script_elsewhere(cases, program)
        nearly_full(cases, program)
        for again in ([], ["--again"]):
            never_reads(cases, program, again)
        for it in slow:
            it.join()
    return cases.end()


if __name__ == "__main__":
    sys.exit(main())
