"""What the bridges share: trying again, the file of a place, and the lines of a feed."""

import contextlib
import io
import json
import threading
import unittest
from typing import Any
from unittest.mock import patch

from feed_stub import FeedStub
from support import name_of, room_of, small_feed

import bridge


class Enough(Exception):
    """Ends a loop that has no end."""


class Forever(unittest.TestCase):
    """Waits and lines of the loop that tries again."""

    def waits(self, outcomes: list[str]) -> tuple[list[float], list[str]]:
        """The waits and the lines after tries that fail at once (`fail`) or after an entry (`carry`)."""
        slept: list[float] = []
        left = list(outcomes)

        def carry(carried: bridge.Carried) -> None:
            if not left:
                raise Enough
            if left.pop(0) == "carry":
                carried()
            raise ConnectionError("the broker\nis away")

        said = io.StringIO()
        with contextlib.redirect_stderr(said), self.assertRaises(Enough):
            bridge.forever("to_x", carry, (), slept.append)
        return slept, said.getvalue().splitlines()

    def test_waits_twice_as_long_each_time(self) -> None:
        """A second at first, 30 seconds at most."""
        slept, said = self.waits(["fail"] * 7)
        self.assertEqual(slept, [1, 2, 4, 8, 16, 30, 30])
        self.assertEqual(said[0], "to_x: the broker is away; the next try is in 1 s")
        self.assertEqual(said[6], "to_x: the broker is away; the next try is in 30 s")

    def test_begins_at_a_second_after_an_entry(self) -> None:
        """An entry that was carried ends the long waits."""
        self.assertEqual(self.waits(["fail", "fail", "fail", "carry", "fail"])[0], [1, 2, 4, 1, 2])

    def fail_otherwise(self, _carried: bridge.Carried) -> None:
        """Fails as a bridge with a fault does."""
        raise ZeroDivisionError

    def test_lets_other_errors_through(self) -> None:
        """A fault of the bridge itself is not tried again."""
        with self.assertRaises(ZeroDivisionError):
            bridge.forever("to_x", self.fail_otherwise, (), lambda seconds: None)


class Places(unittest.TestCase):
    """The file that keeps a place."""

    def setUp(self) -> None:
        self.path = room_of(self) / "next"

    def test_keeps_a_place(self) -> None:
        """Entry 0 without a file; then what was written last, and no other file."""
        state, name = bridge.StateFile(self.path), name_of(small_feed(1))
        self.assertEqual(state.place, bridge.Place())
        state.write(bridge.Place(name, 7))
        state.write(bridge.Place(name, 12))
        self.assertEqual(bridge.StateFile(self.path).place, bridge.Place(name, 12))
        self.assertEqual(self.path.read_bytes(), f"12 {name}\n".encode())
        self.assertEqual([file.name for file in self.path.parent.iterdir()], ["next"])

    def test_takes_over_what_an_older_bridge_has_kept(self) -> None:
        """A number alone, whose journal has no name yet."""
        self.path.write_bytes(b"12\n")
        state = bridge.StateFile(self.path)
        self.assertEqual(state.place, bridge.Place("", 12))
        state.write(state.place)
        self.assertEqual(self.path.read_bytes(), b"12\n")

    def test_refuses_what_is_no_place(self) -> None:
        """An empty file, a word, a sign, a number too long, a name that is none, a directory that is not there."""
        for text in ("", "x\n", "-1\n", "1 2\n", "1" * 21, "1 " + "0" * 31, "1 " + "G" * 32, "1  " + "0" * 32, "1 \n"):
            self.path.write_text(text, encoding="ascii")
            with self.assertRaisesRegex(ValueError, "next: it does not hold"):
                bridge.StateFile(self.path)
        with self.assertRaisesRegex(ValueError, "no directory"):
            bridge.StateFile(self.path.parent / "none" / "next")


class Lines(unittest.TestCase):
    """The lines of a feed."""

    def setUp(self) -> None:
        self.lines, self.others = small_feed(9), small_feed(12, session=2)
        self.journal, self.other = name_of(self.lines), name_of(self.others)

    def first_of(
        self, lines: list[str], place: bridge.Place, last: bridge.Line | None = None, **more: Any
    ) -> tuple[list[int], str]:
        """The numbers of the lines that come first from a place on, where `last` was handed over, and what is said."""
        feed, said = FeedStub(lines), io.StringIO()
        self.addCleanup(feed.close)
        with contextlib.redirect_stderr(said):
            found = next(bridge.feed_lines(bridge.parse_address(feed.address), place, last, **more))
        return [line["entry"] for line in found], said.getvalue()

    def test_goes_on_from_an_entry(self) -> None:
        """The first line is that of the entry asked for, and nothing is said."""
        self.assertEqual(self.first_of(self.lines, bridge.Place(self.journal, 6)), ([6, 7, 8], ""))
        place = bridge.Place()
        self.assertEqual(self.first_of(self.lines, place)[0][0], 0)
        self.assertEqual(place.journal, self.journal)

    def test_compares_the_entry_before(self) -> None:
        """The board has to have the entry that was handed over last."""
        place = bridge.Place(self.journal, 6)
        self.assertEqual(self.first_of(self.lines, place, json.loads(self.lines[5]))[0], [6, 7, 8])
        with self.assertRaisesRegex(bridge.Closed, "entry 5 is not the one that was handed over"):
            self.first_of(self.lines, place, json.loads(self.lines[5].replace('"session":1', '"session":2')))
        with patch.object(bridge, "ANSWER", 0.2):
            with self.assertRaisesRegex(bridge.Closed, "entry 9 was handed over and does not come"):
                self.first_of(self.lines, bridge.Place(self.journal, 10))
        with self.assertRaisesRegex(bridge.Closed, f"journal {self.journal} ends before entry 10: it has 9"):
            self.first_of(self.lines, bridge.Place(self.journal, 11))

    def test_a_feed_may_be_quiet(self) -> None:
        """What is to come soon is the entry before the place alone."""
        lines = self.lines[:6]
        feed = FeedStub(lines)
        self.addCleanup(feed.close)
        with patch.object(bridge, "ANSWER", 2):
            threading.Timer(4, lambda: lines.append(self.lines[6])).start()
            found = next(bridge.feed_lines(bridge.parse_address(feed.address), bridge.Place(self.journal, 6)))
        self.assertEqual([line["entry"] for line in found], [6])

    def test_another_journal_is_a_new_generation(self) -> None:
        """From entry 0 on, with one line; of a longer journal, of a shorter one, and where it has no entry yet."""
        for count in (12, 2):
            place = bridge.Place(self.journal, 6)
            found, said = self.first_of(self.others[:count], place, json.loads(self.lines[5]))
            self.assertEqual((found, place.journal), (list(range(count)), self.other))
            self.assertRegex(
                said,
                f"^[^ ]+: feed 127.0.0.1:[0-9]+: the board has another journal, {self.other} for {self.journal}: "
                "a new generation begins at its entry 0\n$",
            )
        place, lines = bridge.Place(self.journal, 6), list[str]()
        threading.Timer(0.5, lambda: lines.append(self.others[0])).start()
        found, said = self.first_of(lines, place)
        self.assertEqual((found, place.journal), ([0], self.other))
        self.assertIn("the board has another journal, without an entry yet: a new generation begins", said)

    def test_a_journal_that_was_there_before_goes_on(self) -> None:
        """Where a bridge knows what it has of it."""
        known = {self.other: (10, json.loads(self.others[9]))}
        found, said = self.first_of(self.others, bridge.Place(self.journal, 6), known=known.__getitem__)
        self.assertEqual(found, [10, 11])
        self.assertIn("a new generation begins at its entry 10\n", said)

    def test_a_place_without_a_name_gets_the_one_that_is_told(self) -> None:
        """One line says so; where the board's journal ends before the place, it is another one."""
        place = bridge.Place("", 6)
        found, said = self.first_of(self.lines, place)
        self.assertEqual((found, place.journal), ([6, 7, 8], self.journal))
        self.assertRegex(said, f"^[^ ]+: what was handed over has no name .* taken to be of {self.journal}\n$")
        found, said = self.first_of(self.others[:3], bridge.Place("", 6))
        self.assertEqual(found, [0, 1, 2])
        self.assertIn(f"the board has another journal, {self.other}: a new generation begins at its entry 0\n", said)

    def test_a_feed_that_changes_its_name_each_time_is_closed(self) -> None:
        """It is not asked again at once."""
        feed, names = FeedStub(self.lines), iter([self.other, "0" * 32, "1" * 32])
        self.addCleanup(feed.close)
        with contextlib.redirect_stderr(io.StringIO()), patch("feed_stub.name_of", lambda _: next(names)):
            with self.assertRaisesRegex(bridge.Closed, f"another journal, {'0' * 32} for {self.other}"):
                next(
                    bridge.feed_lines(
                        bridge.parse_address(feed.address), bridge.Place(self.journal, 6), None, lambda _: (3, None)
                    )
                )

    def test_refuses_what_is_no_feed(self) -> None:
        """No JSON, JSON that is no entry, a whole board, an entry out of order, one before the name of its journal."""
        board = f'{{"journal":"{self.journal}","next":1,"room":9,"flights":[]}}\n'
        for line, reason in (
            ("hello\n", "'hello', which is no line of the feed"),
            ("[1]\n", "'\\[1\\]', which is no line of the feed"),
            ('{"next":0,"room":9,"flights":[]}\n', "which is no line of the feed"),
            (board, "a board came in place of entry 0"),
            (small_feed(4)[3], "entry 3 came in place of entry 0"),
        ):
            with self.assertRaisesRegex(bridge.Closed, f"^feed 127.0.0.1:[0-9]+: .*({reason})"):
                self.first_of([line], bridge.Place())
        with patch("feed_stub.told", lambda *_, **__: b""):
            with self.assertRaisesRegex(bridge.Closed, "an entry before the name of its journal"):
                self.first_of(self.lines, bridge.Place())


if __name__ == "__main__":
    unittest.main()
