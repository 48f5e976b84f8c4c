"""Rows of the feed, written by hand from docs/FORMATS.md and docs/RULES.md: lines of journals, and what is told of each.

A text of a time stands here as a reader writes it; the minutes beside them are computed by Python's calendar, or where that ends
(after the year 9999) by `date -u -d @SECONDS`.
"""

import calendar
import hashlib
import json
import time

# (4294967295 minutes are 257698037700 seconds)
LAST = (4294967295, "10136-02-16T04:15:00Z")
MOST = 2**64 - 1
TIMES = "sobt eobt ctot otot eldt aldt aibt acgt tobt tsat asbt ardt asrt asat aobt atot".split()
DEICING = "eczt eezt aczt aezt".split()


def at(text):
    """The minute of a text as `2025-02-20T09:00Z`."""
    return calendar.timegm(time.strptime(text, "%Y-%m-%dT%H:%MZ")) // 60


def iso(text):
    """The same text with its seconds, as it is told."""
    return text[:-1] + ":00Z"


def record(flight, callsign, reached, alerts, layout=1, **given):
    """A record: what is not given is empty, `null` or 0."""
    told = {"flight": flight, "callsign": callsign}
    told |= {f"{half}_{key}": given.get(f"{half}_{key}", "") for key in ("type", "reg", "dest") for half in ("scheduled", "plan")}
    told |= {key: given.get(key) for key in TIMES}
    told |= {key: given.get(key, 0) for key in ("mttt", "exit", "exot", "stand")}
    told |= {"reached": reached, "alerts": alerts}
    return told | ({key: given.get(key) for key in DEICING} if layout == 2 else {})


def line(entry, minute, session, role, command, outcome="ok", answers=(), changed=()):
    told = {"entry": entry, "minute": minute, "session": session, "role": role, "command": command}
    told |= {"outcome": outcome, "answers": list(answers), "changed": list(changed)}
    return json.dumps(told, separators=(",", ":")) + "\n"


def no(code, name):
    return {"code": code, "name": name}


# ---- a night in which a leap day ends, with each command

EVE, LEAP, MARCH = "2028-02-28T23:59Z", "2028-02-29T23:59Z", "2028-03-01T00:00Z"
HOSTILE = "<b>&\"'"
SCHEDULE = {"cmd": "schedule", "flight": 7, "callsign": "DLH7", "type": "A320", "reg": "DAIBC", "dest": "EDDM"}
SCHEDULE |= {"sobt": iso(LEAP), "mttt": 40, "exit": 5, "exot": 10, "stand": 12}
OWN = {"scheduled_type": "A320", "scheduled_reg": "DAIBC", "scheduled_dest": "EDDM", "sobt": iso(LEAP)}
OWN |= {"mttt": 40, "exit": 5, "exot": 10, "stand": 12}
PLANNED = {"plan_type": "A320", "plan_reg": "DAIBC", "plan_dest": "EDDM", "eobt": iso(MARCH)}
# (the longest texts, and the bytes that HTML, JSON and shells make something of)
STRANGE = {"plan_type": "\\/`~", "plan_reg": "!\"#$%&'(", "plan_dest": "{}[]", "eobt": iso("1999-12-31T23:59Z")}
SMALL = {"scheduled_type": "0", "scheduled_reg": "!", "scheduled_dest": "~", "sobt": iso("2028-03-01T03:00Z")}
MOVE_EXIT = "b700000000000000" + "9500000000000000"
WIDE_EXIT = "1800000001000000" + "0000000000000000" + "9500000000000000"


def report(flight, milestone, text):
    return {"cmd": "report", "flight": flight, "milestone": milestone, "time": text}


NIGHT = [
    (
        f"0 1 1 APT 0 0 schedule 7 DLH7 A320 DAIBC EDDM {at(LEAP)} 40 5 10 12",
        line(0, "1970-01-01T00:01:00Z", 1, "APT", SCHEDULE, changed=[record(7, "DLH7", [0], [], **OWN)]),
    ),
    (
        f"1 2 {at(EVE)} NM 0 0 report 7 1 {at(MARCH)} DLH7 A320 DAIBC EDDM",
        line(
            1, iso(EVE), 2, "NM",
            report(7, 1, iso(MARCH)) | {"callsign": "DLH7", "type": "A320", "reg": "DAIBC", "dest": "EDDM"},
            changed=[record(7, "DLH7", [0, 1], ["CDM02"], **OWN, **PLANNED)],
        ),
    ),
    (
        f"2 3 {at(LEAP)} ATC 205 0 report 7 10 {at(LEAP)}",
        line(2, iso(LEAP), 3, "ATC", report(7, 10, iso(LEAP)), no(205, "not_set")),
    ),
    (
        f"3 1 {at('2028-02-29T20:00Z')} APT 0 0 tick",
        line(3, "2028-02-29T20:00:00Z", 1, "APT", {"cmd": "tick"}),
    ),
    (
        f"4 4 {at('2028-02-29T20:01Z')} AO 0 0 report 7 9 {at(LEAP)}",
        line(
            4, "2028-02-29T20:01:00Z", 4, "AO", report(7, 9, iso(LEAP)),
            changed=[record(7, "DLH7", [0, 1, 9], ["CDM02"], **OWN, **PLANNED, tobt=iso(LEAP))],
        ),
    ),
    (
        f"5 64 {at('2028-02-29T20:02Z')} NM 0 0 report {MOST} 1 {at('1999-12-31T23:59Z')} {HOSTILE} \\/`~ !\"#$%&'( {{}}[]",
        line(
            5, "2028-02-29T20:02:00Z", 64, "NM",
            report(MOST, 1, "1999-12-31T23:59:00Z")
            | {"callsign": HOSTILE, "type": "\\/`~", "reg": "!\"#$%&'(", "dest": "{}[]"},
            changed=[record(MOST, HOSTILE, [1], ["CDM01"], **STRANGE)],
        ),
    ),
    (
        f"6 1 {at('2028-02-29T23:50Z')} APT 0 0 tick",
        line(
            6, "2028-02-29T23:50:00Z", 1, "APT", {"cmd": "tick"},
            changed=[record(7, "DLH7", [0, 1, 9], ["CDM02", "CDM09"], **OWN, **PLANNED, tobt=iso(LEAP))],
        ),
    ),
    (
        f"7 1 {at('2028-02-29T23:51Z')} APT 0 0 schedule 9 X 0 ! ~ {at('2028-03-01T03:00Z')} 0 0 0 0",
        line(
            7, "2028-02-29T23:51:00Z", 1, "APT",
            {"cmd": "schedule", "flight": 9, "callsign": "X", "type": "0", "reg": "!", "dest": "~",
             "sobt": "2028-03-01T03:00:00Z", "mttt": 0, "exit": 0, "exot": 0, "stand": 0},
            changed=[record(9, "X", [0], [], **SMALL)],
        ),
    ),
    (
        f"8 5 {at('2028-02-29T23:52Z')} GH 0 0 report 7 11 {at('2028-02-29T23:52Z')}",
        line(
            8, "2028-02-29T23:52:00Z", 5, "GH", report(7, 11, "2028-02-29T23:52:00Z"),
            changed=[record(7, "DLH7", [0, 1, 9, 11], ["CDM02"], **OWN, **PLANNED, tobt=iso(LEAP), asbt="2028-02-29T23:52:00Z")],
        ),
    ),
    (
        f"9 3 {at('2028-02-29T23:53Z')} ATC 0 0 report 7 10 {at(LEAP)}",
        line(
            9, "2028-02-29T23:53:00Z", 3, "ATC", report(7, 10, iso(LEAP)),
            changed=[record(7, "DLH7", [0, 1, 9, 10, 11], ["CDM02"], **OWN, **PLANNED, tobt=iso(LEAP), tsat=iso(LEAP),
                            asbt="2028-02-29T23:52:00Z")],
        ),
    ),
    (
        # (CDM11 of the first, CDM13 of the third; the second has what it had)
        f"10 1 {at('2028-03-01T00:10Z')} APT 0 0 tick",
        line(
            10, "2028-03-01T00:10:00Z", 1, "APT", {"cmd": "tick"},
            changed=[record(7, "DLH7", [0, 1, 9, 10, 11], ["CDM02", "CDM11"], **OWN, **PLANNED, tobt=iso(LEAP), tsat=iso(LEAP),
                            asbt="2028-02-29T23:52:00Z"),
                     record(9, "X", [0], ["CDM13"], **SMALL)],
        ),
    ),
    (
        f"11 4 {at('2028-03-01T00:11Z')} AO 0 0 report 7 9 0",
        line(
            11, "2028-03-01T00:11:00Z", 4, "AO", report(7, 9, None),
            changed=[record(7, "DLH7", [0, 1, 9, 10, 11], ["CDM02", "CDM10"], **OWN, **PLANNED, asbt="2028-02-29T23:52:00Z")],
        ),
    ),
    (f"12 6 {LAST[0]} DIC 0 0 show 7", line(12, LAST[1], 6, "DIC", {"cmd": "show", "flight": 7})),
    (
        "13 2 2 NM 202 0 show 8",
        line(13, "1970-01-01T00:02:00Z", 2, "NM", {"cmd": "show", "flight": 8}, no(202, "unknown_flight")),
    ),
    (f"14 5 1439 GH 0 0 alerts", line(14, "1970-01-01T23:59:00Z", 5, "GH", {"cmd": "alerts"})),
    (
        f"15 1 1440 APT 0 0 load 9 alert {MOVE_EXIT}",
        line(15, "1970-01-02T00:00:00Z", 1, "APT",
             {"cmd": "load", "milestone": 9, "kind": "alert", "instructions": 2, "length": 128}),
    ),
    (
        f"16 1 1441 APT 0 0 load 16 tobt {WIDE_EXIT}",
        line(16, "1970-01-02T00:01:00Z", 1, "APT",
             {"cmd": "load", "milestone": 16, "kind": "tobt", "instructions": 2, "length": 128}),
    ),
    (
        f"17 1 1442 APT 0 0 unload 16 tobt",
        line(17, "1970-01-02T00:02:00Z", 1, "APT", {"cmd": "unload", "milestone": 16, "kind": "tobt"}),
    ),
    (
        f"18 1 1443 APT 321 0 unload 16 tobt",
        line(18, "1970-01-02T00:03:00Z", 1, "APT", {"cmd": "unload", "milestone": 16, "kind": "tobt"}, no(321, "empty_slot")),
    ),
    (
        f"19 6 1444 DIC 325 0 deice 7 eczt 1444",
        line(19, "1970-01-02T00:04:00Z", 6, "DIC",
             {"cmd": "deice", "flight": 7, "field": "eczt", "time": "1970-01-02T00:04:00Z"}, no(325, "first_layout")),
    ),
    ("20 1 1445 APT 0 0 migrate", line(20, "1970-01-02T00:05:00Z", 1, "APT", {"cmd": "migrate", "layout": 2})),
    (
        "21 1 1446 APT 324 0 migrate",
        line(21, "1970-01-02T00:06:00Z", 1, "APT", {"cmd": "migrate", "layout": 2}, no(324, "already_migrated")),
    ),
    (
        f"22 6 {at('2028-03-01T00:12Z')} DIC 0 0 deice 7 aezt {LAST[0]}",
        line(
            22, "2028-03-01T00:12:00Z", 6, "DIC", {"cmd": "deice", "flight": 7, "field": "aezt", "time": LAST[1]},
            changed=[record(7, "DLH7", [0, 1, 9, 10, 11], ["CDM02", "CDM10"], 2, **OWN, **PLANNED,
                            asbt="2028-02-29T23:52:00Z", aezt=LAST[1])],
        ),
    ),
    (
        f"23 6 {at('2028-03-01T00:12Z')} DIC 0 0 deice 7 aezt 0",
        line(
            23, "2028-03-01T00:12:00Z", 6, "DIC", {"cmd": "deice", "flight": 7, "field": "aezt", "time": None},
            changed=[record(7, "DLH7", [0, 1, 9, 10, 11], ["CDM02", "CDM10"], 2, **OWN, **PLANNED,
                            asbt="2028-02-29T23:52:00Z")],
        ),
    ),
    (
        # (a board that was migrated has its times of de-icing in what a tick tells too: CDM13 of the third is as before, and no
        # other alert asks for the time)
        f"24 1 {at('2028-03-01T00:13Z')} APT 0 0 tick",
        line(24, "2028-03-01T00:13:00Z", 1, "APT", {"cmd": "tick"}),
    ),
    (
        f"25 1 {at('2028-03-01T00:14Z')} APT 323 0 load 9 alert {MOVE_EXIT}",
        line(25, "2028-03-01T00:14:00Z", 1, "APT",
             {"cmd": "load", "milestone": 9, "kind": "alert", "instructions": 2, "length": 128}, no(323, "other_length")),
    ),
    (
        f"26 1 {at('2028-03-01T00:14Z')} APT 0 0 load 9 alert {MOVE_EXIT} 160",
        line(26, "2028-03-01T00:14:00Z", 1, "APT",
             {"cmd": "load", "milestone": 9, "kind": "alert", "instructions": 2, "length": 160}),
    ),
    (
        # (CDM13 is cleared by the plan; SOBT and EOBT are the same)
        f"27 2 {at('2028-03-01T00:15Z')} NM 0 0 report 9 1 {at('2028-03-01T03:00Z')} X 0 ! ~",
        line(
            27, "2028-03-01T00:15:00Z", 2, "NM",
            report(9, 1, "2028-03-01T03:00:00Z") | {"callsign": "X", "type": "0", "reg": "!", "dest": "~"},
            changed=[record(9, "X", [0, 1], [], 2, **SMALL, plan_type="0", plan_reg="!", plan_dest="~",
                            eobt="2028-03-01T03:00:00Z")],
        ),
    ),
    (
        f"28 1 {at('2028-03-01T00:16Z')} APT 207 0 schedule 9 X 0 ! ~ {at('2028-03-01T03:00Z')} 0 0 0 0",
        line(
            28, "2028-03-01T00:16:00Z", 1, "APT",
            {"cmd": "schedule", "flight": 9, "callsign": "X", "type": "0", "reg": "!", "dest": "~",
             "sobt": "2028-03-01T03:00:00Z", "mttt": 0, "exit": 0, "exot": 0, "stand": 0},
            no(207, "already_planned"),
        ),
    ),
    (
        f"29 3 {at('2028-03-01T00:17Z')} ATC 0 0 report 9 6 {at('2028-03-01T00:17Z')}",
        line(
            29, "2028-03-01T00:17:00Z", 3, "ATC", report(9, 6, "2028-03-01T00:17:00Z"),
            changed=[record(9, "X", [0, 1, 6], [], 2, **SMALL, plan_type="0", plan_reg="!", plan_dest="~",
                            eobt="2028-03-01T03:00:00Z", aldt="2028-03-01T00:17:00Z")],
        ),
    ),
    (
        f"30 2 {at('2028-03-01T00:18Z')} NM 204 0 report 9 3 {at('2028-03-01T00:18Z')}",
        line(30, "2028-03-01T00:18:00Z", 2, "NM", report(9, 3, "2028-03-01T00:18:00Z"), no(204, "barred")),
    ),
    (
        f"31 1 {at('2028-03-01T00:18Z')} APT 206 0 report 9 7 {at('2028-03-01T00:16Z')}",
        line(31, "2028-03-01T00:18:00Z", 1, "APT", report(9, 7, "2028-03-01T00:16:00Z"), no(206, "time_order")),
    ),
    (
        f"32 5 {at('2028-03-01T00:18Z')} GH 203 0 report 9 8 {at('2028-03-01T00:18Z')}",
        line(32, "2028-03-01T00:18:00Z", 5, "GH", report(9, 8, "2028-03-01T00:18:00Z"), no(203, "missing_milestone")),
    ),
    (
        f"33 5 {at('2028-03-01T00:18Z')} GH 201 0 tick",
        line(33, "2028-03-01T00:18:00Z", 5, "GH", {"cmd": "tick"}, no(201, "not_owner")),
    ),
]

# ---- a helper's answer: r1 is the type, loaded from the record, and the helper gives the least turn-round time

ANSWERS = [
    (
        # ldxw r1, [r1+16]; call 1; exit: a target of 45 minutes after 1970, for an A320
        "0 1 7 APT 0 0 load 6 tobt 6111100000000000" + "8500000001000000" + "9500000000000000",
        line(0, "1970-01-01T00:07:00Z", 1, "APT",
             {"cmd": "load", "milestone": 6, "kind": "tobt", "instructions": 3, "length": 128}),
    ),
    (
        "1 1 7 APT 0 0 schedule 7 DLH7 A320 DAIBC EDDM 29000760 40 5 10 12",
        line(1, "1970-01-01T00:07:00Z", 1, "APT", SCHEDULE | {"sobt": "2025-02-20T10:00:00Z"},
             changed=[record(7, "DLH7", [0], [], **(OWN | {"sobt": "2025-02-20T10:00:00Z"}))]),
    ),
    (
        "2 2 8 NM 0 0 report 7 1 29000760 DLH7 A320 DAIBC EDDM",
        line(2, "1970-01-01T00:08:00Z", 2, "NM",
             report(7, 1, "2025-02-20T10:00:00Z") | {"callsign": "DLH7", "type": "A320", "reg": "DAIBC", "dest": "EDDM"},
             changed=[record(7, "DLH7", [0, 1], [], **(OWN | {"sobt": "2025-02-20T10:00:00Z"}),
                             **(PLANNED | {"eobt": "2025-02-20T10:00:00Z"}))]),
    ),
]

# ---- moments, in any order: a minute is the moment of a question

DAYS = [
    ("1970-01-01T00:01Z", None), ("1970-02-28T23:59Z", None), ("1970-03-01T00:00Z", None), ("1970-12-31T23:59Z", None),
    ("1971-01-01T00:00Z", None), ("1972-02-28T23:59Z", None), ("1972-02-29T00:00Z", None), ("1972-02-29T23:59Z", None),
    ("1972-03-01T00:00Z", None), ("1999-12-31T23:59Z", None), ("2000-01-01T00:00Z", None), ("2000-02-28T23:59Z", None),
    ("2000-02-29T00:00Z", None), ("2000-03-01T00:00Z", None), ("2000-12-31T23:59Z", None), ("2024-12-31T23:59Z", None),
    ("2025-01-01T00:00Z", None), ("2025-02-20T09:00Z", 29000700), ("2025-04-30T23:59Z", None), ("2025-05-01T00:00Z", None),
    ("2025-06-30T23:59Z", None), ("2025-07-01T00:00Z", None), ("2025-07-31T23:59Z", None), ("2025-08-01T00:00Z", None),
    ("2025-08-31T23:59Z", None), ("2025-09-01T00:00Z", None), ("2025-10-31T23:59Z", None), ("2025-11-01T00:00Z", None),
    ("2028-02-29T23:59Z", None), ("2028-03-01T00:00Z", None), ("2100-02-28T23:59Z", None), ("2100-03-01T00:00Z", None),
    ("2399-12-31T23:59Z", None), ("2400-02-29T23:59Z", None), ("2400-03-01T00:00Z", None), ("9999-12-31T23:59Z", None),
]
DAYS = [(text[:-1] + ":00Z", at(text) if minute is None else minute) for text, minute in DAYS]
DAYS += [("10000-01-01T00:00:00Z", at("9999-12-31T23:59Z") + 1), (LAST[1], LAST[0])]
MOMENTS = [
    (f"{place} 1 {minute} NM 0 0 alerts", line(place, text, 1, "NM", {"cmd": "alerts"}))
    for place, (text, minute) in enumerate(DAYS)
]

# ---- the line of a journal for who is sent the entries from this number on, and that of a board: a journal, and the records that it ends
# with, in order of creation, of layout 1 and then of layout 2


def name_of(journal):
    """The name of a journal: the first 16 bytes of the SHA-256 of its first line, without the line feed."""
    return hashlib.sha256(journal[0].encode("ascii")).hexdigest()[:32] if journal else ""


def journal_line(journal, begun, room=100_000):
    return json.dumps({"journal": name_of(journal), "next": begun, "room": room}, separators=(",", ":")) + "\n"


def board(journal, flights, room=100_000):
    told = {"journal": name_of(journal), "next": len(journal), "room": room, "flights": flights}
    return json.dumps(told, separators=(",", ":")) + "\n"


LATE = {"scheduled_type": "B738", "scheduled_reg": "GABCD", "scheduled_dest": "EGLL", "sobt": "2025-02-20T11:00:00Z"}
LATE |= {"mttt": 45, "exit": 6, "exot": 11, "stand": 120}
FIRST_PLAN = PLANNED | {"eobt": "2025-02-20T10:00:00Z"}
# (9 was planned alone, and has a target; 8 was scheduled behind it; the greatest number of all comes before the least)
ORDERED = [
    "0 2 29000700 NM 0 0 report 9 1 29000760 DLH7 A320 DAIBC EDDM",
    f"1 2 29000700 NM 0 0 report {MOST} 1 29000760 DLH7 A320 DAIBC EDDM",
    "2 1 29000700 APT 0 0 schedule 8 BAW8 B738 GABCD EGLL 29000820 45 6 11 120",
    "3 4 29000700 AO 0 0 report 9 9 29000760",
    "4 1 29000700 APT 0 0 schedule 1 BAW8 B738 GABCD EGLL 29000820 45 6 11 120",
    "5 2 29000700 NM 201 0 report 8 9 29000760",
]
ORDERED_FLIGHTS = [
    (9, "DLH7", [1, 9], ["CDM01"], FIRST_PLAN | {"tobt": "2025-02-20T10:00:00Z"}),
    (MOST, "DLH7", [1], ["CDM01"], FIRST_PLAN),
    (8, "BAW8", [0], ["CDM13"], LATE),
    (1, "BAW8", [0], ["CDM13"], LATE),
]
WINTER = ["6 1 29000700 APT 0 0 migrate", "7 6 29000700 DIC 0 0 deice 9 eezt 29000761"]
BOARDS = [
    ("no entry", [], board([], [])),
    ("four flights", ORDERED, board(ORDERED, [record(*it[:4], **it[4]) for it in ORDERED_FLIGHTS])),
    (
        "four flights of layout 2",
        ORDERED + WINTER,
        board(ORDERED + WINTER, [record(*it[:4], 2, **it[4], **({"eezt": "2025-02-20T10:01:00Z"} if it[0] == 9 else {})) for it in ORDERED_FLIGHTS]),
    ),
]

# ---- 4,096 flights, and one more

FULL = [f"{place} 2 29000700 NM 0 0 report {place + 1} 1 29000760 DLH7 A320 DAIBC EDDM" for place in range(4096)]
FULL += ["4096 2 29000700 NM 503 0 report 4097 1 29000760 DLH7 A320 DAIBC EDDM"]
FULL_TOLD = line(
    4096, "2025-02-20T09:00:00Z", 2, "NM",
    report(4097, 1, "2025-02-20T10:00:00Z") | {"callsign": "DLH7", "type": "A320", "reg": "DAIBC", "dest": "EDDM"}, no(503, "full_board"),
)  # fmt: skip

# ---- what breaks off: lines of a journal, what is told of those before, and the first fault

TWO = NIGHT[:2]
FAULTY = [
    ("", "", None),
    ("no line feed", "0 1 7 APT 0 0 tick", "entry 0 401\n"),
    ("an empty line", "\n", "entry 0 401\n"),
    ("a number that is another", "1 1 7 APT 0 0 tick\n", "entry 0 402\n"),
    ("a program that is none", "0 1 7 APT 0 0 load 7 tobt \n", "entry 0 403\n"),
    ("an answer of none", "0 1 7 APT 0 1 5 tick\n", "entry 0 404\n"),
    ("another outcome", "0 1 7 APT 201 0 tick\n", "entry 0 405\n"),
    ("a control character", "0 1 7 APT 0 0 schedule 7 DL\x017 A320 DAIBC EDDM 9 0 0 0 0\n", "entry 0 401\n"),
    ("a tabulator", "0 1 7 APT 0 0 schedule 7 DL\t7 A320 DAIBC EDDM 9 0 0 0 0\n", "entry 0 401\n"),
    ("the byte 127", "0 1 7 APT 0 0 schedule 7 DL\x7f7 A320 DAIBC EDDM 9 0 0 0 0\n", "entry 0 401\n"),
    ("a byte over 127", "0 1 7 APT 0 0 schedule 7 DL\xe97 A320 DAIBC EDDM 9 0 0 0 0\n", "entry 0 401\n"),
    ("a moment of 0", "0 1 0 APT 0 0 tick\n", "entry 0 401\n"),
    ("a moment of 2^32", "0 1 4294967296 APT 0 0 tick\n", "entry 0 401\n"),
    ("a line too long", "0 1 7 APT 0 0 load 7 tobt " + "0" * 200_000 + "\n", "entry 0 401\n"),
]
