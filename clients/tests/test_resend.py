#!/usr/bin/env python3
"""Cuts the connection of partner.py and partner.mjs at each place, and holds the journal against what they sent.

    ACDM=PROGRAM CUTS=200 python3 -m unittest discover -s clients/tests -p test_resend.py

CUTS is how many cuts there are in all, 40 where it is not given. Between a cut and the next connection a second partner
sets the target of the same flight: no command may be entered twice, and no target be undone.
"""
import contextlib
import json
import os
import shutil
import socket
import subprocess
import sys
import threading
import unittest
from time import sleep
from collections.abc import Callable
from typing import Any

from boards import CLIENTS, LIMIT, Caller, Serving, needs_program, ran

CUTS = int(os.environ.get("CUTS", "40"))
MOST_CUTS = 40
# Where the connection is cut: before the line is handed on, within it, behind it at once, the same with the side of the
# board left open, once it is entered, within its reply, behind its reply, and once it is entered and then in the look.
PLACES = ("before", "within", "behind", "held", "entered", "half", "replied", "again")
IS_ENTERED = {"entered", "half", "replied", "again"}
# In-block gives the flight a target: AIBT plus MTTT, and where that is past the moment of the report.
RULE = (
    "b7000000000000006112580000000000160205000000000069113800000000000f21000000000000ad31010000000000"
    "bf13000000000000bf300000000000009500000000000000"
)
OWN, RIVAL = "2025-02-20T10:00:00Z", "2025-02-20T10:20:00Z"
Command = dict[str, Any]


class Front:
    """Hands lines on to a board and replies back, and cuts the connection where a line's number is planned."""

    def __init__(self, port: int, plan: dict[int, str], between: Callable[[int], None]) -> None:
        self.board, self.plan, self.between = port, plan, between
        self.cuts, self.is_cutting_look = 0, False
        self.gate = threading.Lock()
        self.held: list[socket.socket] = []
        self.listener = socket.create_server(("127.0.0.1", 0))
        self.port = int(self.listener.getsockname()[1])
        threading.Thread(target=self.accept, daemon=True).start()

    def accept(self) -> None:
        while True:
            try:
                client = self.listener.accept()[0]
            except OSError:
                return
            with self.gate:
                board = socket.create_connection(("127.0.0.1", self.board), timeout=LIMIT)
            threading.Thread(target=self.serve, args=(client, board), daemon=True).start()

    def serve(self, client: socket.socket, board: socket.socket) -> None:
        """Serves a connection up to its end, or to its cut."""
        lines, replies = client.makefile("rb"), board.makefile("rb")
        while line := lines.readline():
            number = json.loads(line).get("n")
            place = self.plan.pop(number, None)
            if number is None and self.is_cutting_look:
                self.is_cutting_look, place, number = False, "half", -1
            if place:
                with self.gate:
                    self.cut(place, line, client, board)
                    lines.close()
                    client.close()
                    self.cuts += 1
                    if number >= 0:
                        self.between(number)
                break
            board.sendall(line)
            reply = replies.readline()
            if not reply:
                break
            client.sendall(reply)
        replies.close()
        if board not in self.held:
            board.close()
        lines.close()
        client.close()

    def cut(self, place: str, line: bytes, client: socket.socket, board: socket.socket) -> None:
        """Goes as far as the place of the cut."""
        if place == "before":
            return
        board.sendall(line[: len(line) // 2] if place == "within" else line)
        if place == "held":
            self.held.append(board)
        if place not in IS_ENTERED:
            return
        reply = board.makefile("rb").readline()
        if place == "half":
            client.sendall(reply[: len(reply) // 2])
        elif place == "replied":
            client.sendall(reply)
        elif place == "again":
            self.is_cutting_look = True

    def wait(self) -> None:
        """Waits until a cut that has begun has ended."""
        with self.gate:
            pass

    def close(self) -> None:
        self.listener.close()
        for stream in self.held:
            stream.close()


class Relay:
    """Stands before a feed, and then before another one."""

    def __init__(self, feed: int, other: int) -> None:
        self.feed, self.other = feed, other
        self.listener = socket.create_server(("127.0.0.1", 0))
        self.port = int(self.listener.getsockname()[1])
        threading.Thread(target=self.accept, daemon=True).start()

    def turn(self, _number: int) -> None:
        self.feed = self.other

    def accept(self) -> None:
        while True:
            try:
                client = self.listener.accept()[0]
            except OSError:
                return
            threading.Thread(target=self.hand_on, args=(client,), daemon=True).start()

    def hand_on(self, client: socket.socket) -> None:
        """Hands on the first line, and then what the feed sends."""
        with client, socket.create_connection(("127.0.0.1", self.feed), timeout=LIMIT) as feed:
            feed.sendall(client.makefile("rb").readline())
            with contextlib.suppress(OSError):
                while data := feed.recv(1 << 16):
                    client.sendall(data)

    def close(self) -> None:
        self.listener.close()


def report(flight: int, milestone: int, time: str | None) -> Command:
    return {"cmd": "report", "flight": flight, "milestone": milestone, "time": time}


def plan_of(flight: int) -> Command:
    texts = {"callsign": f"DLH{flight}", "type": "A320", "reg": "DAIBC", "dest": "EDDM"}
    return {**report(flight, 1, "2025-02-20T10:00:00Z"), **texts}


def schedule(flight: int) -> Command:
    texts = {"callsign": f"DLH{flight}", "type": "A320", "reg": "DAIBC", "dest": "EDDM"}
    numbers = {"mttt": 40, "exit": 5, "exot": 10, "stand": 12}
    return {"cmd": "schedule", "flight": flight, **texts, "sobt": "2025-02-20T10:00:00Z", **numbers}


class Client:
    """A client under test, its front, its flights, and the partner that reports in between."""

    def __init__(self, name: str, milestone: int, port: int, rival: int, feed: int, count: int, first: int) -> None:
        self.name, self.feed, self.flights = name, feed, [first + place for place in range(count)]
        self.commands = []
        for flight in self.flights:
            time = OWN if milestone == 9 else "2025-02-20T09:05:00Z"
            self.commands.append(report(flight, milestone, time))
            if flight % 5 == 0:  # the same command once more, by the will of the partner
                self.commands.append(self.commands[-1])
        self.places: dict[int, str] = {}
        cut = 0
        for number, command in enumerate(self.commands):
            if number and command == self.commands[number - 1]:
                continue
            self.places[number] = PLACES[(cut + first) % len(PLACES)]
            cut += 1
        self.rival, self.rivals = Caller(rival), 0
        self.front = Front(port, dict(self.places), self.between)
        self.done: Any = None

    def between(self, number: int) -> None:
        """The second partner sets the target of the flight."""
        reply = self.rival.ask(report(self.commands[number]["flight"], 9, RIVAL))
        self.rivals += reply.startswith("ok")

    def run(self) -> None:
        """Runs the client, up to the end of the last cut."""
        lines = [json.dumps({**command, "n": number}) for number, command in enumerate(self.commands)]
        words = (f"127.0.0.1:{self.front.port}", "--feed", f"127.0.0.1:{self.feed}")
        self.done = ran(self.name, *words, given="".join(line + "\n" for line in lines), limit=4 * LIMIT)
        self.front.wait()

    def close(self) -> None:
        self.front.close()
        self.rival.close()


@needs_program
class Resend(unittest.TestCase):
    ROLES = ("APT", "NM", "ATC", "AO", "GH", "AO", "GH", "APT", "AO", "APT", "AO")

    def test_cut_at_each_place(self) -> None:
        """In all CUTS cuts, on several boards, since each look goes through the journal of its board."""
        names = ["partner.py", "partner.mjs"] if shutil.which("node") else ["partner.py"]
        for turn, left in enumerate(range(CUTS, 0, -MOST_CUTS)):
            self.cut_at_each_place(names, turn, max(1, min(left, MOST_CUTS) // (2 * len(names))))

    def cut_at_each_place(self, names: list[str], turn: int, count: int) -> None:
        """So many cuts of each client, on a board of their own."""
        with Serving(self.ROLES) as board:
            clients = []
            for place, name in enumerate(names):
                for kind, milestone in enumerate((9, 7)):
                    own, rival = board.ports[3 + 4 * kind + 2 * place :][:2]
                    first = 1 + turn + 1000 * (2 * place + kind)
                    clients.append(Client(name, milestone, own, rival, board.changes, count, first))
            self.prepare(board, [flight for client in clients for flight in client.flights])
            threads = [threading.Thread(target=client.run) for client in clients]
            for thread in threads:
                thread.start()
            for thread in threads:
                thread.join()
            entries = board.entries()
            for place, client in enumerate(clients):
                session = 4 + 4 * (place % 2) + 2 * (place // 2)
                with self.subTest(client=client.name, milestone=client.commands[0]["milestone"]):
                    self.check(client, session, entries)
                client.close()

    def prepare(self, board: Serving, flights: list[int]) -> None:
        """Schedules, plans and lands the flights, and loads the rule."""
        apt, network, tower = (Caller(port) for port in board.ports[:3])
        rule = {"cmd": "load", "milestone": 7, "kind": "tobt", "program": RULE}
        replies = apt.ask_all([rule, *map(schedule, flights)]) + network.ask_all(
            [plan_of(flight) for flight in flights]
        )
        replies += tower.ask_all([report(flight, 6, "2025-02-20T09:00:00Z") for flight in flights])
        self.assertEqual([], [reply for reply in replies if not reply.startswith("ok ")])
        for caller in (apt, network, tower):
            caller.close()

    def check(self, client: Client, session: int, entries: list[dict[str, Any]]) -> None:
        done = client.done
        self.assertEqual((0, ""), (done.returncode, done.stderr))
        own = [line for line in entries if line["session"] == session and line["command"]["cmd"] != "show"]
        self.assertEqual(client.commands, [line["command"] for line in own], "each command is entered once, in order")
        numbers = [f"ok {line['entry']}" for line in own]
        replies = done.stdout.splitlines()
        self.assertEqual(numbers, [" ".join(reply.split()[:2]) for reply in replies], "each reply is that of its entry")
        self.assertGreaterEqual(client.front.cuts, len(client.places))
        self.assertEqual(len(client.places), client.rivals)
        notes = {"before": "sent again", "within": "sent again", "entered": "from the feed", "half": "from the feed"}
        notes |= {"again": "from the feed", "replied": ""}
        for number, place in client.places.items():
            note = replies[number].partition(" (")[2].rstrip(")")
            self.assertEqual(notes.get(place, note), note, f"{place}: {replies[number]}")
            self.check_target(client, client.commands[number], place, entries)

    def check_target(self, client: Client, command: Command, place: str, entries: list[dict[str, Any]]) -> None:
        """The target of a flight is that of the entry which set it last; one entered before the cut is the older."""
        flight = command["flight"]
        lines = [line for line in entries if line["command"].get("flight") == flight and line["changed"]]
        rival = next(index for index, line in enumerate(lines) if line["command"].get("time") == RIVAL)
        first = next(index for index, line in enumerate(lines) if line["command"] == command)
        if place in IS_ENTERED:
            self.assertLess(first, rival, "what was entered before the cut stands before the second partner's report")
        if client.commands.count(command) > 1:
            return
        last = lines[-1]["changed"][0]["tobt"]
        own = OWN if command["milestone"] == 9 else lines[-1]["minute"]
        self.assertEqual(RIVAL if first < rival else own, last, f"flight {flight}, cut {place}")

    def test_without_a_feed(self) -> None:
        for name in ["partner.py", "partner.mjs"] if shutil.which("node") else ["partner.py"]:
            with self.subTest(client=name), Serving(("APT",)) as board:
                front = Front(board.ports[0], {1: "entered", 3: "entered"}, lambda number: None)
                commands = [schedule(7), {"cmd": "tick"}, {"cmd": "show", "flight": 8}, schedule(8), schedule(9)]
                lines = [json.dumps({**command, "n": number}) for number, command in enumerate(commands)]
                done = ran(name, f"127.0.0.1:{front.port}", given="\n".join(lines))
                front.close()
                self.assertEqual(["ok 0", "ok 2 (sent again)", "no 3 202"], done.stdout.splitlines())
                said = (
                    f"{name}: line 4 has no reply and may have been entered, the last reply told of entry 3: {lines[3]}"
                    ": the connection broke, and without --feed nobody can say whether it was entered\n"
                )
                self.assertEqual((2, said), (done.returncode, done.stderr))
                self.assertEqual([0, 1, 2, 3, 4], [line["entry"] for line in board.entries()])

    def test_another_journal(self) -> None:
        """Where the feed is that of another board the client stops, and says which line is uncertain."""
        for name in ["partner.py", "partner.mjs"] if shutil.which("node") else ["partner.py"]:
            with self.subTest(client=name), Serving(("APT",)) as board, Serving(("APT",)) as other:
                caller = Caller(other.ports[0])
                self.assertEqual(["ok 0", "ok 1"], caller.ask_all([schedule(1), schedule(2)]))
                caller.close()
                front = Front(board.ports[0], {1: "entered"}, lambda number: None)
                lines = [json.dumps({**schedule(7 + number), "n": number}) for number in range(2)]
                relay = Relay(board.changes, other.changes)
                front.between = relay.turn
                done = ran(name, f"127.0.0.1:{front.port}", "--feed", f"127.0.0.1:{relay.port}", given="\n".join(lines))
                front.close()
                relay.close()
                self.assertEqual((2, "ok 0\n"), (done.returncode, done.stdout))
                self.assertIn("line 2 has no reply and may have been entered", done.stderr)
                self.assertIn("the board has another journal, ", done.stderr)

    def test_a_line_is_not_sent_again_to_another_journal(self) -> None:
        """Also where that has the same entries but the first, and the line that has no reply is not among them."""
        for name in ["partner.py", "partner.mjs"] if shutil.which("node") else ["partner.py"]:
            with self.subTest(client=name), Serving(("APT",)) as board, Serving(("APT",)) as other:
                relay, front = self.turning(board, other, {1: "entered"})
                lines = [json.dumps({**schedule(7 + number), "n": number}) for number in range(2)]
                done = ran(name, f"127.0.0.1:{front.port}", "--feed", f"127.0.0.1:{relay.port}", given="\n".join(lines))
                front.close()
                relay.close()
                self.assertEqual((2, "ok 1\n"), (done.returncode, done.stdout), done.stderr)
                self.assertIn(
                    "line 2 has no reply and may have been entered, the last reply told of entry 1", done.stderr
                )
                self.assertRegex(done.stderr, "the board has another journal, [0-9a-f]{32} for [0-9a-f]{32}\n$")
                self.assertEqual(["alerts", "schedule"], [line["command"]["cmd"] for line in other.entries()])

    def turning(self, board: Serving, other: Serving, plan: dict[int, str]) -> tuple[Relay, Front]:
        """Feed and address of a board, which are those of another one after a cut, with the same entry 1."""
        for each, command in ((board, {"cmd": "tick"}), (other, {"cmd": "alerts"})):
            caller = Caller(each.ports[0])
            caller.ask(command)
            caller.close()
        caller = Caller(other.ports[0])
        self.assertEqual("ok 1", caller.ask(schedule(7)))
        caller.close()
        relay = Relay(board.changes, other.changes)

        def turn(number: int) -> None:
            relay.turn(number)
            front.board = other.ports[0]

        front = Front(board.ports[0], plan, turn)
        return relay, front

    def test_a_new_connection_may_go_to_another_journal(self) -> None:
        """A line that comes after the break goes to the journal that there is, and its reply says so."""
        for name in ["partner.py", "partner.mjs"] if shutil.which("node") else ["partner.py"]:
            with self.subTest(client=name), Serving(("APT",)) as board, Serving(("APT",)) as other:
                relay, front = self.turning(board, other, {0: "replied", 2: "half"})
                command = ["node"] if name.endswith(".mjs") else [sys.executable]
                command += [str(CLIENTS / name), f"127.0.0.1:{front.port}", "--feed", f"127.0.0.1:{relay.port}"]
                with subprocess.Popen(command, stdin=subprocess.PIPE, stdout=subprocess.PIPE, text=True) as process:
                    assert process.stdin and process.stdout
                    replies = []
                    for number in range(4):
                        print(json.dumps({**schedule(7 + number), "n": number}), file=process.stdin, flush=True)
                        replies.append(process.stdout.readline().rstrip("\n"))
                        # (its end is told to the client before its next line)
                        sleep(0.3)
                        front.wait()
                    process.stdin.close()
                    self.assertEqual(0, process.wait(LIMIT))
                front.close()
                relay.close()
                self.assertEqual(["ok 1", "ok 2 (in another journal)", "ok 3 (from the feed)", "ok 4"], replies)
                self.assertEqual(5, len(other.entries()), "each once")

    def test_a_line_that_is_no_object(self) -> None:
        for name in ["partner.py", "partner.mjs"] if shutil.which("node") else ["partner.py"]:
            with self.subTest(client=name), Serving(("APT",)) as board:
                address = f"127.0.0.1:{board.ports[0]}"
                done = ran(name, address, given='{"cmd":"tick"}\n\n{"cmd":[]}\n{"cmd":\n{"cmd":"tick"}\n')
                self.assertEqual((2, "ok 0\nbad 102\n"), (done.returncode, done.stdout))
                self.assertEqual(1, done.stderr.count("\n"))
                self.assertTrue(done.stderr.startswith(f"{name}: line 4 is no JSON: "), done.stderr)
                done = ran(name, address, given=b'{"cmd":"tick"}\n{"cmd":"\xff"}\n')
                self.assertEqual((2, "ok 1\n"), (done.returncode, done.stdout))
                self.assertTrue(done.stderr.startswith(f"{name}: line 2 is no JSON: "), done.stderr)
                for line in ("[]", "null", '"tick"', "7"):
                    done = ran(name, address, given=f'{line}\n{{"cmd":"tick"}}\n')
                    said = f"{name}: line 1 is no object: {line}\n"
                    self.assertEqual((2, "", said), (done.returncode, done.stdout, done.stderr))
                self.assertEqual(["tick", "tick"], [line["command"]["cmd"] for line in board.entries()])


if __name__ == "__main__":
    unittest.main()
