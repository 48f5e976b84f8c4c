"""What board.py prints of a feed that is written by hand, and of servers that are no board."""
import json
import os
import pty
import select
import subprocess
import sys
import tempfile
import time
import unittest
from argparse import Namespace
from pathlib import Path

from boards import CLIENTS, LIMIT, Serving, free_port, needs_program, ran
from feeds import NAME, OTHER, Answering, Sending, board_line, entry, journal_line, record

# (boards.py has put the folder of the clients on the path)
from board import ROOM_FOR_ALERTS, Looking, columns_for, listed  # pylint: disable=wrong-import-order
from feed import Board as Flights  # pylint: disable=wrong-import-order
from words import REFUSALS  # pylint: disable=wrong-import-order

FLIGHTS = [
    record(
        7,
        callsign="DLH7",
        eobt="2025-02-20T10:00:00Z",
        tobt="2025-02-20T10:20:00Z",
        reached=[0, 1, 9],
        alerts=["CDM08"],
    ),
    record(12, callsign="SWR12", eobt="2025-02-20T09:30:00Z", stand=0, reached=[1], alerts=["LOC03"]),
    record(20, callsign="GONE20", reached=[0, 1, 16], alerts=["CDM11"]),
]


def until(terminal: int, wanted: bytes) -> bytes:
    """What a terminal was sent, up to a text."""
    found = b""
    end = time.monotonic() + LIMIT
    while wanted not in found and select.select([terminal], [], [], max(0, end - time.monotonic()))[0]:
        found += os.read(terminal, 1 << 16)
    assert wanted in found, found[-2000:]
    return found


class Board(unittest.TestCase):
    def test_a_board(self) -> None:
        with Sending(board_line(*FLIGHTS, next_entry=31)) as server:
            done = ran("board.py", f"127.0.0.1:{server.port}", "--once")
        self.assertEqual((0, ""), (done.returncode, done.stderr))
        title, heads, first, second = done.stdout.splitlines()
        self.assertIn(f"acdm 127.0.0.1:{server.port}  flights 2 of 3, alerted 2, entry 30 at ", title)
        moments = [time.strftime("at %H:%M", time.gmtime(time.time() - ago)) for ago in (0, LIMIT)]
        self.assertTrue(any(moment in title for moment in moments), title)
        self.assertEqual(
            ["FLIGHT", "CALLSIGN", "STND", "EOBT", "TOBT", "TSAT", "S1234567890123456", "ALERTS"], heads.split()
        )
        self.assertEqual(
            ["12", "SWR12", "-", "09:30", "-", "-", ".1...............", "local", "alert", "03"], first.split()
        )
        words = "7 DLH7 12 10:00 10:20 - S1.......9....... TOBT over 15 min from EOBT"
        self.assertEqual(words.split(), second.split())

    def test_a_board_whose_journal_gets_its_name(self) -> None:
        """It shows the first entries; where the name changes without a break it asks for the board again."""
        lines = board_line(next_entry=0, journal="") + journal_line()
        lines += entry(0, "09:00", "1 APT", {"cmd": "schedule"}, record(7, callsign="DLH7")).encode() + b"\n"
        with Sending(lines) as server:
            looking = Looking(Namespace(address=("127.0.0.1", server.port), flight=[], names=None))
            looking.begin(LIMIT)
            while not looking.board.next:
                looking.hear()
        self.assertEqual((NAME, ["DLH7"]), (looking.board.journal, [it["callsign"] for it in looking.flights()]))
        looking.lost("")
        with Sending(lines + journal_line(1, OTHER)) as server:
            done = ran("board.py", server.port, "--once")
        self.assertEqual(2, done.returncode)
        self.assertIn(f"board.py: 127.0.0.1:{server.port}: the board has another journal, {OTHER} for", done.stderr)

    def test_named_flights(self) -> None:
        with Sending(board_line(*FLIGHTS)) as server:
            done = ran("board.py", server.port, 7, "--once")
        self.assertEqual(3, len(done.stdout.splitlines()))
        self.assertIn("DLH7", done.stdout)

    def test_no_escapes(self) -> None:
        hostile = record(7, callsign="\x1b[2J\x07X", alerts=["LOC\x1b]0;\x07"])
        with Sending(board_line(hostile)) as server:
            done = ran("board.py", server.port, "--once")
        self.assertEqual(0, done.returncode)
        self.assertNotIn("\x1b", done.stdout)
        self.assertNotIn("\x07", done.stdout)
        self.assertIn("?[2J?X", done.stdout)

    def test_the_order_of_flights(self) -> None:
        """By TOBT, else EOBT, else SOBT; then by EOBT, then by number; those without a time last."""
        times: dict[int, dict[str, str]] = {5: {}, 4: {"sobt": "11:00"}, 2: {"tobt": "10:00"}}
        times |= {3: {"sobt": "09:00", "eobt": "12:00"}}
        times |= {9: {"tobt": "10:00", "eobt": "09:00"}, 8: {"tobt": "13:00", "eobt": "09:00"}, 1: {"tobt": "10:00"}}
        board = Flights()
        for number, fields in times.items():
            whole = {name: f"2025-02-20T{text}:00Z" for name, text in fields.items()}
            board.flights[number] = record(number, alerts=["CDM01"] if number in (3, 8) else [], **whole)
        board.flights[8]["reached"] = [16]
        self.assertEqual([9, 1, 2, 4, 3, 5], [it["flight"] for it in board.shown()])
        self.assertEqual([9, 1, 2, 4, 3, 8, 5], [it["flight"] for it in board.shown(departed=True)])
        self.assertEqual([3], [it["flight"] for it in board.shown(alerted=True)])

    def test_what_does_not_fit_is_counted(self) -> None:
        """Alerts by words, as many as fit; columns that leave room for them; no line is wider than the terminal."""
        names = [f"LOC0{number}" for number in range(4)]
        for width, shown in (
            (62, "local alert 00, local alert 01, local alert 02, local alert 03"),
            (61, "local alert 00, local alert 01, local alert 02 +1"),
            (48, "local alert 00, local alert 01 +2"),
            (17, "local alert 00 +3"),
            (16, "+4"),
        ):
            self.assertEqual(shown, "".join(text for text, _ in listed(names, width, {})))
        self.assertEqual(["MILESTONES", "TOBT", "TSAT"], sorted(columns_for(37 + ROOM_FOR_ALERTS, 6)))
        self.assertEqual([], columns_for(20, 6))
        looking = Looking(Namespace(address=("127.0.0.1", 1), flight=[], names=None))
        flights = [record(number, callsign="ABCDEFGH", alerts=names) for number in range(1, 30)]
        looking.board.take({"journal": NAME, "next": 1, "room": 9, "flights": flights})
        looking.top = 99
        for width in (20, 40, 60, 80):
            lines = looking.lines((width, 12), False)
            self.assertEqual((12, True), (len(lines), all(len(line) <= width for line in lines)))
            self.assertEqual(("    21", "    29"), (lines[2][:6], lines[10][:6]))

    def test_names_of_local_alerts(self) -> None:
        with tempfile.TemporaryDirectory() as folder, Sending(board_line(*FLIGHTS)) as server:
            names = Path(folder) / "names"
            names.write_text("LOC03 de-icing late\n", encoding="utf-8")
            done = ran("board.py", server.port, "--once", "--names", names)
            self.assertTrue(done.stdout.splitlines()[2].endswith(" de-icing late"), done)
            names.write_text("LOC03 de-icing late\nLOC99 no\n", encoding="utf-8")
            done = ran("board.py", server.port, "--once", "--names", names)
            said = f"board.py: {names}: line 2 is none as `LOC03 de-icing late`\n"
            self.assertEqual((2, said), (done.returncode, done.stderr))

    def test_servers_that_are_no_board(self) -> None:
        deep = b"[" * 100_000 + b"\n"
        wrong = [b"HTTP/1.1 400 Bad Request\r\n\r\n", b"[]\n", b"{}\n", b'{"flights":7,"next":1}\n', b"\xff\n", deep]
        wrong += [board_line(journal=""), board_line(journal=OTHER[1:]), b'{"next":1,"room":1,"flights":[]}\n']
        wrong += [board_line({"flight": 7}), b'{"entry":0}\n', board_line(record(7, tobt=5)), b"bad 101\n"]
        for data in wrong:
            with Sending(data) as server:
                done = ran("board.py", server.port, "--once")
            self.assertEqual((2, "", 1), (done.returncode, done.stdout, done.stderr.count("\n")), done.stderr)
            self.assertIn(f"board.py: 127.0.0.1:{server.port}: it sends ", done.stderr)

    def test_an_endless_line(self) -> None:
        with Sending(b'{"next":1,"flights":[', endless=b" " * (1 << 20)) as server:
            done = ran("board.py", server.port, "--once")
        said = "it sends a line without an end, so it is no feed of a board"
        self.assertEqual((2, f"board.py: 127.0.0.1:{server.port}: {said}\n"), (done.returncode, done.stderr))

    def test_words(self) -> None:
        port = free_port()
        done = ran("board.py", port, "--once")
        self.assertEqual((2, f"board.py: 127.0.0.1:{port}: Connection refused\n"), (done.returncode, done.stderr))
        given: list[list[object]] = [
            ["nowhere"],
            ["127.0.0.1:0"],
            ["127.0.0.1:99999"],
            [port, "0"],
            [port, "--names", "/nowhere"],
        ]
        for words in given:
            done = ran("board.py", *words, "--once")
            self.assertEqual((2, "", 1), (done.returncode, done.stdout, done.stderr.count("\n")), done.stderr)
            self.assertIn(str(words[-1]), done.stderr)

    def test_a_reader_that_leaves(self) -> None:
        flights = [record(number, callsign=f"AB{number}") for number in range(1, 3000)]
        with Sending(board_line(*flights)) as server:
            command = f"{sys.executable} {CLIENTS / 'board.py'} {server.port} --once | head -n 1"
            done = subprocess.run(command, shell=True, capture_output=True, text=True, timeout=LIMIT, check=False)
        self.assertEqual("", done.stderr)
        self.assertIn("flights 2999 of 2999", done.stdout)

    def test_in_a_terminal(self) -> None:
        """It draws the board, hides and shows departed flights by a key, and ends by another."""
        with Sending(board_line(*FLIGHTS), stays=True) as server:
            master, slave = pty.openpty()
            command = [sys.executable, str(CLIENTS / "board.py"), str(server.port)]
            environment = {**os.environ, "TERM": "xterm", "COLUMNS": "120", "LINES": "20"}
            with subprocess.Popen(command, stdin=slave, stdout=slave, stderr=slave, env=environment) as process:
                os.close(slave)
                shown = until(master, b"flights 2 of 3, alerted 2")
                shown += until(master, b"q ends, j and k scroll")
                self.assertNotIn(b"GONE20", shown)
                os.write(master, b"d")
                shown = until(master, b"flights 3 of 3") + until(master, b"q ends, j and k scroll")
                self.assertIn(b"GONE20", shown)
                os.write(master, b"q")
                until(master, b"\x1b[?25h\x1b[?1049l")
                self.assertEqual(0, process.wait(LIMIT))
            os.close(master)

    def test_after_a_break(self) -> None:
        """It tries again by itself, and has the board as it is then; by a key it has alerts alone."""
        refused = entry(1, "09:00", "4 AO", {"cmd": "tick"}, code=201) + "\n"
        refused += entry(2, "09:01", "5 GH", {"cmd": "tick"}, code=202) + "\n"
        later = record(30, callsign="LATER30")
        with Answering(board_line(*FLIGHTS) + refused.encode(), board_line(FLIGHTS[0], later)) as server:
            master, slave = pty.openpty()
            command = [sys.executable, str(CLIENTS / "board.py"), str(server.port)]
            environment = {**os.environ, "TERM": "xterm", "COLUMNS": "120", "LINES": "20"}
            with subprocess.Popen(command, stdin=slave, stdout=slave, stderr=slave, env=environment) as process:
                os.close(slave)
                shown = until(master, b"the server closed the connection; trying again")
                self.assertIn(b"flights 2 of 3, alerted 2", shown)
                os.write(master, b"a")
                shown = until(master, b"flights 1 of 2, alerted 1")
                self.assertNotIn(b"LATER30", shown)
                os.write(master, b"a")
                self.assertIn(b"LATER30", until(master, b"LATER30"))
                os.write(master, b"q")
                self.assertEqual(0, process.wait(LIMIT))
            os.close(master)
            self.assertEqual(["board", "board"], server.asked[:2])

    def test_the_last_refusal_is_told(self) -> None:
        looking = Looking(Namespace(address=("127.0.0.1", 1), flight=[], names=None))
        for number, code in enumerate((201, 202)):
            looking.board.take(json.loads(entry(number, "09:00", "4 AO", {"cmd": "tick"}, code=code)))
        self.assertTrue(looking.status().endswith(f"  entry 1 of AO: {REFUSALS[202]}"), looking.status())
        self.assertEqual({(4, "AO"): {"refused": 2, "last": "2025-02-20T09:00:00Z"}}, looking.board.partners)

    @needs_program
    def test_a_board_that_serves(self) -> None:
        with Serving(("APT",)) as board:
            done = ran("board.py", board.changes, "--once")
        self.assertEqual((0, ""), (done.returncode, done.stderr))
        self.assertIn("flights 0 of 0, alerted 0", done.stdout)


if __name__ == "__main__":
    unittest.main()
