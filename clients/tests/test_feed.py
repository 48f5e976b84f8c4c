"""What feed.py gives to displays and bridges: addresses, entries over breaks, names of local alerts."""
import itertools
import tempfile
import unittest
from pathlib import Path
from types import SimpleNamespace
from typing import Any
from unittest.mock import patch

from boards import LIMIT
from feed import BadAddress, Board, NoFeed, OtherJournal, Place, alert_names, entries, parse_address, parsed
from feeds import NAME, OTHER, Answering, Sending, board_line, entry, journal_line
import partner
from partner import is_same, minute_of, reply_of

TICK = {"cmd": "tick"}


class Addresses(unittest.TestCase):
    def test_addresses(self) -> None:
        right = {
            "127.0.0.1:4002": ("127.0.0.1", 4002),
            "4199": ("127.0.0.1", 4199),
            "[::1]:4002": ("::1", 4002),
            "board.example:65535": ("board.example", 65535),
        }
        for text, where in right.items():
            self.assertEqual(where, parse_address(text))
        for text in (
            "",
            ":4002",
            "host",
            "host:",
            "host:0",
            "host:65536",
            "host:-1",
            "host:4x",
            "::1:4002",
            "host:\u0664",
        ):
            with self.assertRaises(BadAddress, msg=text) as caught:
                parse_address(text)
            self.assertIsInstance(caught.exception, ValueError)
            self.assertIn(repr(text), str(caught.exception))


class Instants(unittest.TestCase):
    def test_instants(self) -> None:
        """The forms of docs/RULES.md, "Times", as the feed tells them."""
        ten = "2025-02-20T10:00:00Z"
        for text in ("2025-02-20T10:00:00Z", "2025-02-20T11:00:00+01:00", "20250220T100059.9Z", "2025-02-20 10:00z"):
            self.assertEqual(ten, minute_of(text), text)
        for text in (
            "2025-02-20T10Z",
            "2025-02-20t0930-0030",
            "2025-02-20T12+02",
            "2025-02-20T11:00+01:00[Europe/Berlin]",
        ):
            self.assertEqual(ten, minute_of(text), text)
        self.assertEqual("2024-12-31T23:30:00Z", minute_of("2025-01-01T00:30+01:00"))
        self.assertIsNone(minute_of("ten"))


def ticks(*numbers: int) -> bytes:
    return "".join(entry(number, "09:00", "1 APT", TICK) + "\n" for number in numbers).encode()


def numbers_of(server: Answering, place: Place, most: int) -> list[int]:
    """The numbers of the entries from a place on, so many at most."""
    lines = entries(("127.0.0.1", server.port), place)
    return [line["entry"] for line in itertools.islice(lines, most)]


class Entries(unittest.TestCase):
    def test_trials_go_on_while_there_is_patience(self) -> None:
        """Both addresses are tried in turn, at first at once and never late, until the patience is over."""
        moment, pauses = [100.0], list[float]()

        def sleep(seconds: float) -> None:
            pauses.append(seconds)
            moment[0] += seconds

        clock = SimpleNamespace(monotonic=lambda: moment[0], sleep=sleep)
        refused = ConnectionRefusedError(111, "Connection refused")
        with patch.object(partner, "time", clock), patch.object(partner.socket, "create_connection") as connecting:
            connecting.side_effect = refused
            connection = partner.Connection([("one", 1), ("two", 2)], 60)
            with self.assertRaisesRegex(partner.Stop, "^(one|two):[12]: Connection refused$"):
                connection.connect()
            asked = [call.args[0] for call in connecting.call_args_list]
        self.assertEqual([("one", 1), ("two", 2)] * (len(asked) // 2), asked[: len(asked) // 2 * 2])
        self.assertTrue(160 <= moment[0] <= 170 and pauses[0] <= 0.5 and max(pauses) <= 10, pauses)

    def test_commands_that_are_the_same(self) -> None:
        """The feed tells of a load how many instructions it has, and the length that no load names as 128."""
        load: dict[str, Any] = {"cmd": "load", "milestone": 9, "kind": "alert", "program": "95"}
        told: dict[str, Any] = {"cmd": "load", "milestone": 9, "kind": "alert", "instructions": 1, "length": 128}
        report: dict[str, Any] = {"cmd": "report", "flight": 7, "milestone": 9, "time": "2025-02-20T10:00:00Z"}
        for entered, sent, same in (
            (told, load, True),
            (told, {**load, "length": 128, "remark": 1}, True),
            (told, {**load, "length": 160}, False),
            ({**told, "length": 160}, load, False),
            ({**told, "length": 160, "layout": 2}, {**load, "length": 160}, True),
            (told, {**load, "kind": "tobt"}, False),
            (report, {**report, "time": "2025-02-20T11:00:59+01:00"}, True),
            (report, {**report, "time": "2025-02-20T10:01:00Z"}, False),
            (report, {**report, "time": None}, False),
            ({**report, "time": None}, {**report, "time": None}, True),
            ({**report, "time": None}, report, False),
            (report, {**report, "flight": 8}, False),
        ):
            self.assertEqual(same, is_same(entered, sent), (entered, sent))

    def test_entries_of_others_are_not_ones_own(self) -> None:
        """Of another session the same command is no reply, nor is the entry that was known before."""
        command = {"cmd": "report", "flight": 7, "milestone": 9, "time": "2025-02-20T10:00:00Z"}
        line = {"session": 4, "entry": 9, "command": command}
        asked: list[tuple[int, int, dict[str, Any]]] = [(4, 8, command), (5, 8, command), (4, 9, command)]
        asked.append((4, 8, {**command, "flight": 8}))
        self.assertEqual([True, False, False, False], [partner.is_own(line, *it) for it in asked])

    def test_a_line_that_was_not_handed_over_is_not_uncertain(self) -> None:
        """And one that was, without a reply, stays so over a connection that breaks before it."""
        rows: list[tuple[list[Any], bool]] = [([partner.Unsent], False), ([None, partner.Unsent], True)]
        for exchanged, uncertain in rows:
            asking = partner.Partner(("h", 1), None, 1)
            connects = [None] * len(exchanged) + [partner.Stop("no more")]
            with (
                patch.object(asking.connection, "connect", side_effect=connects),
                patch.object(asking.connection, "exchange", side_effect=exchanged),
                patch.object(asking, "find", return_value=None),
                self.assertRaisesRegex(partner.Stop, "no more"),
            ):
                asking.ask('{"cmd":"report"}')
            self.assertEqual(uncertain, asking.is_uncertain)

    def test_replies_that_the_feed_tells(self) -> None:
        refused: Any = {"code": 205, "name": "not_set"}
        for outcome, name, text in (
            ("ok", "report", "ok 4"),
            ("ok", "migrate", "migrated 4"),
            (refused, "migrate", "no 4 205"),
        ):
            self.assertEqual(text, reply_of({"entry": 4, "outcome": outcome, "command": {"cmd": name}}))

    def test_a_break(self) -> None:
        """After a break the feed is asked from the next entry on, and the connection before is closed."""
        place = Place(NAME, 3)
        with Answering(journal_line(3) + ticks(3, 4), journal_line(5) + ticks(5)) as server:
            found = numbers_of(server, place, 3)
            server.thread.join(LIMIT)
        self.assertEqual(([3, 4, 5], ["from 3", "from 5"], [b"", b""]), (found, server.asked, server.closed))
        self.assertEqual(Place(NAME, 6), place)

    def test_pauses_between_trials(self) -> None:
        """A second, twice as long each time, a minute at most; from an entry on a second again."""
        slept: list[float] = []
        answers = [b""] * 8 + [journal_line(0) + ticks(0), b"", journal_line(1) + ticks(1)]
        with Answering(*answers) as server, patch("feed.time.sleep", slept.append):
            self.assertEqual([0, 1], numbers_of(server, Place(), 2))
        self.assertEqual([1, 2, 4, 8, 16, 32, 60, 60, 1, 2], slept)

    def test_a_journal_gets_its_name(self) -> None:
        """A board without an entry has none; the one that is told then is kept."""
        place = Place()
        with Answering(b"", journal_line() + ticks(0), journal_line(1) + ticks(1)) as server:
            self.assertEqual([0, 1], numbers_of(server, place, 2))
        self.assertEqual((Place(NAME, 2), ["from 0", "from 0", "from 1"]), (place, server.asked))

    def test_another_journal_is_told(self) -> None:
        """After a break: one that goes on behind the place, one that ends before it, one without an entry."""
        for answer, told, text in (
            (journal_line(5, OTHER) + ticks(5), OTHER, f"the board has another journal, {OTHER} for {NAME}"),
            (board_line(next_entry=2, journal=OTHER) + ticks(2), OTHER, f"another journal, {OTHER} for {NAME}"),
            (board_line(next_entry=0, journal=""), "", "another journal, without an entry yet"),
            (board_line(next_entry=2), NAME, f"journal {NAME} ends before entry 5: it has 2"),
        ):
            place, found = Place(NAME, 3), []
            with Answering(journal_line(3) + ticks(3, 4), answer) as server:
                with self.assertRaisesRegex(OtherJournal, text) as caught:
                    for line in entries(("127.0.0.1", server.port), place):
                        found.append(line["entry"])
            self.assertEqual(([3, 4], Place(NAME, 5)), (found, place), "nothing of the other one")
            self.assertEqual((told, told == NAME), (caught.exception.journal, caught.exception.is_same))

    def test_what_no_feed_sends(self) -> None:
        """An entry before a name, a place that was not asked for, and names that are none."""
        wrong = [b"bad 101\n", ticks(0), journal_line(1), board_line(next_entry=0, journal=""), board_line()]
        wrong += [
            journal_line(0, name) for name in ("", "0" * 31, "0" * 33, "0" * 31 + "G", NAME.upper(), "\n" + NAME[1:])
        ]
        wrong += [board_line(journal=name) for name in ("", "x", NAME + "\n")] + [board_line(next_entry=0)]
        wrong += [journal_line().replace(b"100", b"-1"), journal_line().replace(b'"next": 0', b'"next": false')]
        wrong += [journal_line().replace(b'"room"', b'"entry": 0, "room"'), b'{"next":0,"room":1,"flights":[]}\n']
        for answer in wrong:
            with self.subTest(answer), Sending(answer) as server, self.assertRaises(NoFeed):
                next(entries(("127.0.0.1", server.port)))

    def test_a_board_takes_each_line(self) -> None:
        board = Board()
        for data in (board_line(next_entry=0, journal=""), journal_line(), ticks(0), ticks(1)):
            board.take(parsed(data))
        self.assertEqual((NAME, 2), (board.journal, board.next))
        self.assertFalse(board.take(parsed(journal_line(2))), "the same again is nothing new")
        with self.assertRaises(OtherJournal):
            board.take(parsed(journal_line(2, OTHER)))


class Names(unittest.TestCase):
    def test_names(self) -> None:
        with tempfile.TemporaryDirectory() as folder:
            file = Path(folder) / "names"
            file.write_text("LOC03 de-icing late\n\nLOC15\tlast\n", encoding="utf-8")
            self.assertEqual({"LOC03": "de-icing late", "LOC15": "last"}, alert_names(file))
            for text in ("LOC16 x", "LOC03", "CDM01 x"):
                file.write_text(f"LOC00 a\n{text}\n", encoding="utf-8")
                with self.assertRaisesRegex(ValueError, "names: line 2 "):
                    alert_names(file)


if __name__ == "__main__":
    unittest.main()
