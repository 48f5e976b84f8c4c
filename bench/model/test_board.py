#!/usr/bin/env python3
"""Worked lines with the replies that the rules give by hand: `python3 bench/model/test_board.py`."""

import json
import sys
import unittest
from pathlib import Path

sys.path.insert(0, str(Path(__file__).resolve().parents[1] / "rows"))

import rows  # noqa: E402
from board import Board, Flight, alerts_of, names_of, replies  # noqa: E402

SCHEDULE = {
    "cmd": "schedule", "flight": 7, "callsign": "DLH7", "type": "A320", "reg": "DAIBC", "dest": "EDDM",
    "sobt": "2025-02-20T10:00:00Z", "mttt": 40, "exit": 5, "exot": 10, "stand": 12,
}  # fmt: skip
PLAN = {
    "cmd": "report", "flight": 7, "milestone": 1, "time": "2025-02-20T10:00:00Z",
    "callsign": "DLH7", "type": "A320", "reg": "DAIBC", "dest": "EDDM",
}  # fmt: skip
EXAMPLES = Path(__file__).resolve().parents[2] / "examples"
ALERTS, TICK, SHOW = {"cmd": "alerts"}, {"cmd": "tick"}, {"cmd": "show", "flight": 7}
START = [("APT", SCHEDULE), ("NM", PLAN)]
RECORD = (
    "0700000000000000444c48370000000041333230413332304441494243000000444149424300000045444"
    "44d4544444d030000000000000028000a000c0001053884ba013884ba01" + "0" * 112
)


EXIT = "9500000000000000"
NOW, BEFORE_NOW = "bf30000000000000" + EXIT, "bf3000000000000007000000ffffffff" + EXIT
IN_A_DAY, AFTER_A_DAY = ("bf3000000000000007000000" + more + EXIT for more in ("a0050000", "a1050000"))
IN_FIVE_MINUTES = "bf31000000000000b7020000050000008500000003000000" + EXIT
TAXI_TIME = "69113c000000000057010000ff0100008500000002000000" + EXIT


MIGRATE = {"cmd": "migrate"}
READS_LENGTH = "2502010080000000b700000000000000" + EXIT  # r0 is set only where r2 is more than 128
STAYS_SET = "b700000000000000" + EXIT


def load(milestone, kind, program, **more):
    return {"cmd": "load", "milestone": milestone, "kind": kind, "program": program, **more}


def deice(field, time, flight=7):
    instant = None if time is None else f"2025-02-20T{time}:00Z"
    return {"cmd": "deice", "flight": flight, "field": field, "time": instant}


def unload(milestone, kind):
    return {"cmd": "unload", "milestone": milestone, "kind": kind}


def report(milestone, time, flight=7):
    instant = None if time is None else f"2025-02-20T{time}:00Z"
    return {"cmd": "report", "flight": flight, "milestone": milestone, "time": instant}


ARRIVAL = [("ATC", report(6, "09:00")), ("APT", report(7, "09:00"))]


class Replies(unittest.TestCase):
    def replies(self, commands, moment=29_000_580, capacity=100_000):
        board = Board(capacity)
        lines = [f"1 {moment} {role} {json.dumps(command)}" for role, command in commands]
        return [board.reply(line.encode()) for line in lines]

    def test_a_scheduled_and_planned_flight(self):
        expected = ["ok 0", "ok 1", "alerts 2 -", f"rec 3 {RECORD}", "ok 4", f"rec 5 {RECORD}"]
        commands = START + [("APT", ALERTS), ("APT", SHOW), ("NM", PLAN), ("NM", SHOW)]
        self.assertEqual(self.replies(commands), expected)

    def test_refusals_change_nothing(self):
        commands = START + [
            ("AO", report(6, "09:00")), ("AO", report(6, "09:00", 8)), ("ATC", report(6, "09:00", 8)),
            ("APT", SCHEDULE), ("ATC", report(10, "10:00")), ("NM", TICK), ("NM", SHOW),
        ]  # fmt: skip
        expected = ["no 2 201", "no 3 201", "no 4 202", "no 5 207", "no 6 205", "no 7 201", f"rec 8 {RECORD}"]
        self.assertEqual(self.replies(commands)[2:], expected)

    def test_in_block_is_not_before_landing(self):
        commands = START + [("ATC", report(6, "09:00")), ("APT", report(7, "08:59"))]
        self.assertEqual(self.replies(commands)[2:], ["ok 2", "no 3 206"])
        again = commands + [("APT", report(7, "09:00")), ("ATC", report(6, "09:00"))]
        self.assertEqual(self.replies(again)[4:], ["ok 4", "no 5 204"])

    def test_a_target_that_is_taken_back(self):
        commands = START + [
            ("GH", report(9, "10:00")), ("ATC", report(10, "10:00")), ("GH", report(9, None)),
            ("APT", ALERTS), ("ATC", report(13, "10:00")), ("APT", SHOW),
        ]  # fmt: skip
        replies = self.replies(commands)
        self.assertEqual(replies[2:7], ["ok 2", "ok 3", "ok 4", "alerts 5 7:CDM10", "no 6 205"])
        self.assertEqual(replies[7].split()[2][96:104], "03060000")

    def test_a_flight_without_a_slot(self):
        commands = [("NM", PLAN), ("NM", ALERTS), ("APT", SCHEDULE), ("NM", ALERTS)]
        self.assertEqual(self.replies(commands), ["ok 0", "alerts 1 7:CDM01", "ok 2", "alerts 3 -"])

    def test_three_hours_before_departure(self):
        board = Board(10)
        lines = [(29_000_579, SCHEDULE), (29_000_579, ALERTS), (29_000_580, TICK), (29_000_580, ALERTS)]
        replies = [board.reply(f"1 {moment} APT {json.dumps(command)}".encode()) for moment, command in lines]
        self.assertEqual(replies, ["ok 0", "alerts 1 -", "ok 2", "alerts 3 7:CDM13"])

    def test_the_shipped_streams(self):
        for lines in EXAMPLES.glob("*.txt"):
            given = lines.read_bytes().splitlines(keepends=True)
            found = [reply + "\n" for reply in replies(given, 100_000)]
            self.assertEqual(found, lines.with_suffix(".out").read_text().splitlines(keepends=True), lines.name)

    def test_the_rows_of_the_rules(self):
        """Each cell of the tables of docs/RULES.md has rows there, whose replies were found by hand."""
        made = [row for _, row in rows.all_rows()]
        self.assertGreater(len(made), 300)
        for row in made:
            lines = rows.joined(row.lines).encode().splitlines(keepends=True)
            self.assertEqual(list(replies(iter(lines), row.capacity)), list(row.replies), row.name)

    def test_sums_do_not_wrap(self):
        flight = Flight(0, reached=2)
        flight.times["tobt"] = 2**32 - 1
        self.assertEqual(names_of(alerts_of(flight, 2**32 - 6)), ["CDM01", "CDM09"])

    def test_a_full_journal(self):
        self.assertEqual(self.replies(START, capacity=1), ["ok 0", "bad 502"])

    def in_block(self, program):
        """The replies to a load for milestone 7, an in-block report at 09:00, and questions about it."""
        commands = [("APT", load(7, "tobt", program)), *START, *ARRIVAL, ("APT", ALERTS), ("APT", SHOW)]
        return self.replies(commands, 29_000_700)

    def test_the_targets_that_are_usable(self):
        rows = (
            (BEFORE_NOW, "7:CDM14", 0),
            (NOW, "7:CDM08,CDM09,CDM07a", 29_000_700),
            (IN_A_DAY, "7:CDM08", 29_002_140),
            (AFTER_A_DAY, "7:CDM14", 0),
            (IN_FIVE_MINUTES, "7:CDM08,CDM09,CDM07a", 29_000_705),
        )
        for program, alerts, target in rows:
            replies = self.in_block(program)
            self.assertEqual(replies[:6], ["ok 0", "ok 1", "ok 2", "ok 3", "ok 4", f"alerts 5 {alerts}"])
            record = bytes.fromhex(replies[6].split()[2])
            self.assertEqual(int.from_bytes(record[96:100], "little"), target)
            self.assertEqual(record[49] >> 1 & 1, int(target > 0))

    def test_a_program_in_the_place_of_another(self):
        commands = [("APT", load(7, "tobt", BEFORE_NOW)), *START, *ARRIVAL, ("APT", ALERTS)]
        commands += [("APT", load(7, "tobt", NOW)), ("APT", report(7, "09:00")), ("APT", ALERTS)]
        expected = ["alerts 5 7:CDM14", "ok 6", "ok 7", "alerts 8 7:CDM08,CDM09,CDM07a"]
        self.assertEqual(self.replies(commands, 29_000_700)[5:], expected)

    def test_no_answer_changes_nothing(self):
        self.assertEqual(self.in_block("b700000000000000" + EXIT)[5], "alerts 5 -")

    def test_a_target_after_start_up_is_approved(self):
        times = ((9, "10:00"), (10, "10:00"), (13, "10:00"), (14, "10:00"))
        commands = [*START, *(("GH" if milestone == 9 else "ATC", report(milestone, time)) for milestone, time in times)]
        commands += [("APT", load(12, "tobt", NOW)), ("GH", report(12, "10:00")), ("APT", ALERTS), ("APT", SHOW)]
        replies = self.replies(commands)
        self.assertEqual(replies[-2], "alerts 8 7:CDM14")
        self.assertEqual(replies[-1].split()[2][192:200], "3884ba01")

    def test_local_alerts(self):
        commands = [("APT", load(9, "alert", TAXI_TIME)), *START, ("GH", report(9, "10:00")), ("APT", ALERTS)]
        expected = ["ok 0", "ok 1", "ok 2", "ok 3", "alerts 4 7:LOC01,LOC03"]
        self.assertEqual(self.replies(commands), expected)
        commands += [("APT", unload(9, "alert")), ("GH", report(9, "10:00")), ("APT", ALERTS)]
        self.assertEqual(self.replies(commands), expected + ["ok 5", "ok 6", "alerts 7 7:LOC01,LOC03"])

    def test_the_alert_program_sees_the_target(self):
        shows_tobt = "6110600000000000" + EXIT
        commands = [("APT", load(9, "alert", shows_tobt)), ("APT", load(9, "tobt", IN_FIVE_MINUTES)), *START]
        replies = self.replies(commands + [("GH", report(9, "10:00")), ("APT", SHOW)])
        record = bytes.fromhex(replies[-1].split()[2])
        self.assertEqual(int.from_bytes(record[96:100], "little"), 29_000_585)
        self.assertEqual(int.from_bytes(record[54:56], "little"), 29_000_585 % 65_536)

    def test_a_winter_morning(self):
        commands = [
            ("DIC", deice("eczt", "10:00")), ("APT", MIGRATE), ("APT", SHOW), ("DIC", deice("eczt", "10:00")),
            ("DIC", deice("eezt", "09:59")), ("DIC", deice("eezt", "10:00")), ("APT", MIGRATE),
            ("APT", load(7, "tobt", STAYS_SET)), ("APT", load(7, "tobt", STAYS_SET, length=160)),
        ]  # fmt: skip
        migrated = RECORD[:124] + "02" + RECORD[126:144] + "0" * 176
        expected = ["no 2 325", "migrated 3 -", f"rec 4 {migrated}", "ok 5", "no 6 206", "ok 7", "no 8 324", "no 9 323", "ok 10"]
        self.assertEqual(self.replies(START + commands)[2:], expected)

    def test_a_migrate_unloads_what_is_refused_beside_longer_records(self):
        commands = [
            ("APT", load(7, "tobt", READS_LENGTH)), ("APT", load(9, "alert", STAYS_SET)), ("APT", MIGRATE),
            ("APT", unload(7, "tobt")), ("APT", unload(9, "alert")),
        ]  # fmt: skip
        self.assertEqual(self.replies(commands), ["ok 0", "ok 1", "migrated 2 7:tobt:308:2", "no 3 321", "ok 4"])

    def test_deicing_is_refused_in_its_order(self):
        rows = (
            ("APT", deice("eczt", "10:00"), 201), ("DIC", deice("eczt", "10:00", 8), 202),
            ("DIC", deice("aczt", "10:00"), 0), ("DIC", deice("aezt", "09:59"), 206), ("DIC", deice("aezt", "10:00"), 0),
            ("DIC", deice("aczt", "10:01"), 206), ("DIC", deice("aezt", None), 0), ("DIC", deice("aczt", "10:01"), 0),
            ("NM", MIGRATE, 201), ("DIC", TICK, 201), ("DIC", ALERTS, 0),
        )  # fmt: skip
        replies = self.replies(START + [("APT", MIGRATE)] + [(role, command) for role, command, _ in rows])[3:]
        self.assertEqual([0 if reply[0] != "n" else int(reply.split()[2]) for reply in replies], [code for *_, code in rows])
        scheduled = [("APT", SCHEDULE), ("APT", MIGRATE), ("DIC", deice("eczt", "10:00"))]
        self.assertEqual(self.replies(scheduled)[2], "no 2 203")

    def test_lines_of_deicing(self):
        long, behind = "61109c0000000000" + EXIT, "61109d0000000000" + EXIT
        rows = (
            ({"cmd": "deice", "flight": 7, "time": None}, "bad 103"), (deice("aobt", "10:00"), "bad 104"),
            ({"cmd": "deice", "flight": 7, "field": "eczt"}, "bad 103"), (deice("eczt", "1000"), "bad 104"),
            (load(7, "tobt", STAYS_SET, length=None), "bad 103"), (load(7, "tobt", STAYS_SET, length="160"), "bad 103"),
            (load(7, "tobt", STAYS_SET, length=129), "bad 104"), (load(7, "tobt", "9", length=129), "bad 104"),
            (load(7, "tobt", STAYS_SET, length=128), "ok 0"), (load(7, "tobt", STAYS_SET, length=160), "no 0 323"),
            (load(7, "tobt", long), "bad 309 0"), (load(7, "tobt", long, length=160), "no 0 323"),
            (load(7, "tobt", behind), "bad 309 0"), (load(7, "tobt", behind, length=160), "bad 309 0"),
        )  # fmt: skip
        for command, expected in rows:
            self.assertEqual(self.replies([("APT", command)]), [expected])

    def test_slots_belong_to_the_airport(self):
        removed = unload(9, "alert")
        commands = [("APT", removed), ("NM", removed), ("NM", load(9, "alert", NOW)), ("APT", removed)]
        self.assertEqual(self.replies(commands), ["no 0 321", "no 1 201", "no 2 201", "no 3 321"])

    def test_programs_that_make_no_entry(self):
        rows = (
            (load(7, "tobt", EXIT), "bad 308 0"),
            (load(7, "tobt", ""), "bad 301 0"),
            (load(7, "tobt", "95"), "bad 301 0"),
            (load(7, "tobt", "9"), "bad 104"),
            (load(7, "tobt", "9g"), "bad 104"),
            (load(7, "tobt", 9), "bad 103"),
            (load(7, "other", "9"), "bad 104"),
            (load(0, "tobt", EXIT), "bad 104"),
            ({"cmd": "load", "milestone": 7, "program": EXIT}, "bad 103"),
            ({"cmd": "unload", "milestone": 7}, "bad 103"),
        )
        for command, expected in rows:
            self.assertEqual(self.replies([("APT", command)]), [expected])
        self.assertEqual(self.replies([("NM", load(7, "tobt", EXIT))], capacity=0), ["bad 308 0"])
        self.assertEqual(self.replies([("APT", load(7, "tobt", NOW.upper()))]), ["ok 0"])

    def test_lines_that_make_no_entry(self):
        rows = (
            (b'65 29000580 APT {"cmd":"alerts"}', 100),
            (b"", 100),
            (b"1 29000580 APT ", 101),
            (b'1 29000580 APT {"cmd":"tick"', 101),
            (b'1 29000580 APT {"cmd":"tack"}', 102),
            (b'1 29000580 APT {"cmd":"show","flight":"7"}', 103),
            (b'1 29000580 APT {"cmd":"show","flight":-7}', 103),
            (b'1 29000580 APT {"cmd":"show","flight":0}', 104),
            (b'1 29000580 APT {"cmd":"report","flight":7,"milestone":17}', 104),
            (b'1 29000580 APT {"cmd":"report","flight":7,"milestone":9}', 103),
            (b"x" * 70_001, 105),
        )
        for line, code in rows:
            board = Board(10)
            self.assertEqual(board.reply(line), f"bad {code}")
            self.assertEqual(board.length, 0)


if __name__ == "__main__":
    unittest.main()
