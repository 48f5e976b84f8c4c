#!/usr/bin/env python3
"""Worked journals with what an audit says of them by hand: `python3 bench/model/test_journal.py`."""

import io
import random
import unittest
from pathlib import Path

from journal import Unreadable, audit, read, written

EXAMPLES = Path(__file__).resolve().parents[2] / "examples"
PROGRAM = "69113c000000000057010000ff01000085000000020000009500000000000000"
THREE = """\
0 1 29000580 APT 0 0 schedule 7 DLH7 A320 DAIBC EDDM 29000760 40 5 10 12
1 2 29000580 NM 0 0 report 7 1 29000760 DLH7 A320 DAIBC EDDM
2 3 29000580 ATC 205 0 report 7 10 29000760
"""
FIVE = f"""\
0 1 29000580 APT 0 0 load 9 alert {PROGRAM}
1 1 29000580 APT 0 0 schedule 7 DLH7 A320 DAIBC EDDM 29000760 40 5 10 12
2 2 29000580 NM 0 0 report 7 1 29000760 DLH7 A320 DAIBC EDDM
3 5 29000580 GH 0 1 10 report 7 9 29000760
4 1 29000580 APT 0 0 alerts
"""
LINES = f"""\
1 29000580 APT {{"cmd":"load","milestone":9,"kind":"alert","program":"{PROGRAM}"}}
1 29000580 APT {{"cmd":"schedule","flight":7,"callsign":"DLH7","type":"A320","reg":"DAIBC","dest":"EDDM",\
"sobt":"2025-02-20T10:00:00Z","mttt":40,"exit":5,"exot":10,"stand":12}}
2 29000580 NM {{"cmd":"report","flight":7,"milestone":1,"time":"2025-02-20T10:00:00Z","callsign":"DLH7","type":"A320",\
"reg":"DAIBC","dest":"EDDM"}}
5 29000580 GH {{"cmd":"report","flight":7,"milestone":9,"time":"2025-02-20T10:00:00Z"}}
1 29000580 APT {{"cmd":"alerts"}}
"""


def lines(text):
    return io.BytesIO(text.encode("ascii"))


class Journals(unittest.TestCase):
    def said(self, text, old="", new=""):
        """What is said of a journal in which a text that stands once was changed."""
        self.assertTrue(not old or text.count(old) == 1, old)
        return audit(lines(text.replace(old, new) if old else text))[0]

    def test_what_is_written(self):
        self.assertEqual(b"".join(entry.line() for entry in written(lines(LINES))).decode(), FIVE)

    def test_legal_journals(self):
        self.assertEqual([self.said(text) for text in ("", THREE, FIVE)], ["legal 0", "legal 3", "legal 5"])

    def test_numbers_and_outcomes(self):
        self.assertEqual(self.said(THREE, "2 3 29", "3 3 29"), "entry 2 402")
        self.assertEqual(self.said(THREE, "205 0", "0 0"), "entry 2 405")
        self.assertEqual(self.said(THREE, "205 0", "205 1 10"), "entry 2 404")
        self.assertEqual(self.said(THREE, "2 3 29000580 ATC 205", "9 3 29000580 ATC 0"), "entry 2 402")

    def test_answers(self):
        for other in ("0 1 11", "0 0", "0 2 10 10", "0 1 61", "599 0"):
            self.assertEqual(self.said(FIVE, "0 1 10", other), "entry 3 404", other)
        self.assertEqual(self.said(FIVE, "0 1 10", "599 1 10"), "entry 3 405")

    def test_answers_outside_the_table_may_be_any_in_range(self):
        other = FIVE.replace("10 12\n", "10 13\n")
        for answer, expected in (("11", "legal 5"), ("60", "legal 5"), ("61", "entry 3 404"), ("0", "entry 3 404")):
            self.assertEqual(self.said(other, "0 1 10", f"0 1 {answer}"), expected)

    def test_deicing(self):
        exit_at_once = "b7000000000000009500000000000000"
        text = (
            THREE.replace("2 3 29000580 ATC 205 0 report 7 10 29000760", "2 1 29000580 APT 0 0 migrate")
            + "3 6 29000580 DIC 0 0 deice 7 eczt 29000760\n"
            + f"4 1 29000580 APT 0 0 load 7 tobt {exit_at_once} 160\n"
        )
        self.assertEqual(self.said(text), "legal 5")
        self.assertEqual(self.said(text, "APT 0 0 migrate", "APT 324 0 migrate"), "entry 2 405")
        self.assertEqual(self.said(text, "DIC 0", "DIC 325"), "entry 3 405")
        self.assertEqual(self.said(text, "2 1 29000580 APT 0 0 migrate", "2 1 29000580 APT 0 0 tick"), "entry 3 405")
        self.assertEqual(self.said(text, "eczt 29000760", "eczt 0"), "legal 5")
        for old, new in (("eczt", "ECZT"), (" 160", " 128"), (" 160", " 0160"), (" 160", " 160 160"), ("migrate", "migrate 2")):
            self.assertIn(" 401", self.said(text, old, new), new)
        self.assertEqual(self.said(text, exit_at_once + " 160", "9500000000000000 160"), "entry 4 403")
        self.assertEqual(self.said(text, exit_at_once + " 160", exit_at_once), "entry 4 405")

    def test_programs(self):
        for other in ("9500000000000000", "95", ""):
            self.assertEqual(self.said(FIVE, PROGRAM, other), "entry 0 403")
        for other in (PROGRAM.replace("ff", "FF"), PROGRAM + "0", "0x95"):
            self.assertEqual(self.said(FIVE, PROGRAM, other), "entry 0 401")

    def test_lines_that_cannot_be_read(self):
        changes = (
            ("report 7 9", "report 07 9"), ("3 5 29", "3  5 29"), ("GH", "XX"), ("3 5 2", "3 65 2"),
            ("GH 0 1 10 report 7 9 29000760", "GH 0 1 10 report 7 17 29000760"), ("GH 0 1", "GH 0 9"),
            ("9 29000760\n", "9 4294967296\n"), ("9 29000760\n", "9 29000760 \n"), ("9 29000760\n", "9\n"),
            ("3 5 29000580", "3 5 0"), ("GH 0 1 10", "GH 0 1 18446744073709551616"),
        )  # fmt: skip
        for old, new in changes:
            self.assertEqual(self.said(FIVE, old, new), "entry 3 401", new)
        self.assertEqual(self.said(FIVE, "alerts\n", "alerts"), "entry 4 401")
        self.assertEqual(self.said(FIVE, "4 1 29000580 APT 0 0 alerts", ""), "entry 4 401")
        self.assertEqual(self.said(FIVE, "DLH7 A320 DAIBC EDDM 29000760", "DLH7 A320 DAIBC EDDM 0"), "entry 1 401")

    def test_the_ranges_of_a_line(self):
        """docs/FORMATS.md, "The journal's text": each number at its least and its greatest, and beside them; each text."""
        word, minute = 2**64 - 1, 2**32 - 1
        schedule, head = "schedule 7 A B C D 5 0 0 0 0", "0 1 5 APT 0 0 "
        rows = [
            ("{} 1 5 APT 0 0 alerts", 0, word), ("0 {} 5 APT 0 0 alerts", 1, 64), ("0 1 {} APT 0 0 alerts", 1, minute),
            ("0 1 5 APT {} 0 alerts", 0, word), ("0 1 5 APT 0 1 {} alerts", 0, word), (head + "show {}", 1, word),
            (head + schedule.replace("7", "{}"), 1, word), (head + schedule.replace("5", "{}"), 1, minute),
            (head + "schedule 7 A B C D 5 {} 0 0 0", 0, 1440), (head + "schedule 7 A B C D 5 0 {} 0 0", 0, 255),
            (head + "schedule 7 A B C D 5 0 0 {} 0", 0, 1440), (head + "schedule 7 A B C D 5 0 0 0 {}", 0, 65535),
            (head + "report {} 3 5", 1, word), (head + "report 7 {} 5", 2, 16), (head + "report 7 3 {}", 1, minute),
            (head + "report 7 2 {}", 0, minute), (head + "report 7 9 {}", 0, minute), (head + "report 7 1 {} A B C D", 1, minute),
            (head + "load {} tobt 95", 1, 16), (head + "load 7 tobt 95 {}", 160, 160), (head + "unload {} alert", 1, 16),
            (head + "deice {} eczt 5", 1, word), (head + "deice 7 aezt {}", 0, minute),
        ]  # fmt: skip
        for form, least, most in rows:
            for number, is_read in ((least - 1, False), (least, True), (most, True), (most + 1, False)):
                self.assertEqual(self.is_read(form.format(number)), is_read, form.format(number))
        for place, most in enumerate((8, 4, 8, 4)):
            texts = ["A", "B", "C", "D"]
            for text, is_read in (("~" * most, True), ("!", True), ("~" * (most + 1), False), ("", False), ("\x7f", False)):
                line = head + " ".join(["schedule 7", *texts[:place], text, *texts[place + 1 :], "5 0 0 0 0"])
                self.assertEqual(self.is_read(line), is_read, line)

    def is_read(self, line):
        """Whether a line states an entry, which is the one that it is written as."""
        try:
            return read(line.encode() + b"\n").line() == line.encode() + b"\n"
        except Unreadable:
            return False

    def test_times_that_may_be_missing(self):
        self.assertEqual(self.said(FIVE, "9 29000760\n", "9 0\n"), "legal 5")
        self.assertEqual(self.said(THREE, "10 29000760", "10 0"), "entry 2 401")

    def test_the_length_of_a_line(self):
        slots = "b700000000000000" * 4095 + "9500000000000000"
        self.assertEqual(self.said(FIVE, PROGRAM, slots), "entry 3 404")
        self.assertEqual(self.said(FIVE, PROGRAM, "00" * 99_983), "entry 0 403")
        self.assertEqual(self.said(FIVE, PROGRAM, "00" * 99_984), "entry 0 401")

    def test_the_examples(self):
        for name, count in (("turn-round", 5), ("day", 85), ("rules-day", 33), ("winter", 34)):
            with (EXAMPLES / f"{name}.txt").open("rb") as stream:
                journal = [entry.line() for entry in written(stream)]
            self.assertEqual(audit(journal), (f"legal {count}", 0))
            shipped = EXAMPLES / "journal" / f"{name}.journal"
            self.assertTrue(not shipped.exists() or shipped.read_bytes() == b"".join(journal))

    def test_a_changed_byte_never_ends_it(self):
        draws = random.Random(5)
        for _ in range(400):
            text = bytearray(FIVE, "ascii")
            text[draws.randrange(len(text))] = draws.randrange(256)
            said, status = audit(io.BytesIO(text))
            self.assertIn((said.split()[0], status), (("legal", 0), ("entry", 1)))


if __name__ == "__main__":
    unittest.main()
