"""Rows of the tables: what partners send to an empty board, and what they are replied. It is no script: rows.py uses it.

A row is built from commands with the replies that the rules give them. Entry numbers are counted here, times are written
as texts, and the record that a show answers is laid out from the values of its fields, by docs/FORMATS.md.
"""

import datetime
import json

SESSIONS = {"APT": 1, "NM": 2, "ATC": 3, "AO": 4, "GH": 5, "DIC": 6}
ROLES = ["NM", "ATC", "APT", "AO", "GH", "DIC"]
# 2025-02-20T00:00Z.
DAY = 29000160

LAYOUT = [
    ("flight", 0, 8), ("callsign", 8, 8), ("scheduled type", 16, 4), ("plan type", 20, 4), ("scheduled registration", 24, 8),
    ("plan registration", 32, 8), ("scheduled destination", 40, 4), ("plan destination", 44, 4), ("reached", 48, 4),
    ("alerts", 52, 4), ("MTTT", 56, 2), ("EXOT", 58, 2), ("stand", 60, 2), ("layout", 62, 1), ("EXIT", 63, 1),
    ("SOBT", 64, 4), ("EOBT", 68, 4), ("CTOT", 72, 4), ("OTOT", 76, 4), ("ELDT", 80, 4), ("ALDT", 84, 4), ("AIBT", 88, 4),
    ("ACGT", 92, 4), ("TOBT", 96, 4), ("TSAT", 100, 4), ("ASBT", 104, 4), ("ARDT", 108, 4), ("ASRT", 112, 4),
    ("ASAT", 116, 4), ("AOBT", 120, 4), ("ATOT", 124, 4),
]
DEICING = [("ECZT", 128, 4), ("EEZT", 132, 4), ("ACZT", 136, 4), ("AEZT", 140, 4)]


def at(clock):
    """The minute of a clock time of that day, as 9:05; a number is a minute already."""
    if isinstance(clock, int):
        return clock
    hour, minute = clock.split(":")
    return DAY + 60 * int(hour) + int(minute)


def stamp(clock):
    moment = datetime.datetime(1970, 1, 1) + datetime.timedelta(minutes=at(clock))
    return moment.strftime("%Y-%m-%dT%H:%M:00Z")


def record(fields):
    """The bytes of a record as digits: 128, or 160 in layout 2."""
    is_long = fields.get("layout") == 2
    data, layout = bytearray(160 if is_long else 128), LAYOUT + DEICING * is_long
    for name, place, width in layout:
        value = fields.get(name, 1 if name == "layout" else 0)
        if isinstance(value, str) and ":" in value:
            value = at(value)
        part = value.encode().ljust(width, b"\0") if isinstance(value, str) else value.to_bytes(width, "little")
        data[place : place + width] = part
    assert set(fields) <= {name for name, _, _ in layout}, fields
    return data.hex()


def bits(*numbers):
    return sum(1 << it for it in numbers)


class Talk:
    """One row: its name, the cells of the tables that it meets, its lines and their replies."""

    def __init__(self, name, *cells, now="9:00", capacity=100):
        self.name, self.cells, self.capacity, self.now = name, cells, capacity, now
        self.lines, self.replies, self.said, self.entries = [], [], [], 0

    def starts(self):
        """Whether the row begins with the schedule and the flight plan at 9:00, which need not stand in it."""
        return self.lines[:2] == Talk("").start().lines

    def line(self, text, reply, said=None):
        kind, _, rest = reply.partition(" ")
        if kind != "bad":
            reply = " ".join([kind, str(self.entries)] + ([rest] if rest else []))
            self.entries += 1
        self.lines.append(text)
        self.replies.append(reply)
        self.said.append(said)
        return self

    def say(self, role, command, reply="ok", now=None):
        moment = at(self.now if now is None else now)
        text = json.dumps(command, separators=(",", ":"))
        return self.line(f"{SESSIONS[role]} {moment} {role} {text}", reply, (moment, role, command))

    def schedule(self, reply="ok", role="APT", now=None, **other):
        return self.say(role, {**SCHEDULE, **other}, reply, now)

    def plan(self, reply="ok", role="NM", now=None, **other):
        return self.say(role, {**PLAN, **other}, reply, now)

    def report(self, milestone, time="", reply="ok", role=None, now=None, flight=7):
        clock = PATH[milestone] if time == "" else time
        text = None if clock is None else stamp(clock)
        command = {"cmd": "report", "flight": flight, "milestone": milestone, "time": text}
        return self.say(role or OWNERS[milestone], command, reply, now)

    def alerts(self, names, now=None):
        return self.say("APT", {"cmd": "alerts"}, f"alerts {'7:' + names if names and ':' not in names else names or '-'}", now)

    def show(self, now=None, **fields):
        return self.say("AO", {"cmd": "show", "flight": 7}, "rec " + record({"flight": 7, **fields}), now)

    def tick(self, now=None, reply="ok", role="APT"):
        return self.say(role, {"cmd": "tick"}, reply, now)

    def load(self, milestone, kind, program, reply="ok", role="APT", now=None, **length):
        command = {"cmd": "load", "milestone": milestone, "kind": kind, "program": program, **length}
        return self.say(role, command, reply, now)

    def migrate(self, unloaded="-", reply=None, role="APT", now=None):
        return self.say(role, {"cmd": "migrate"}, reply or f"migrated {unloaded}", now)

    def deice(self, name, time, reply="ok", role="DIC", now=None, flight=7):
        text = None if time is None else stamp(time)
        return self.say(role, {"cmd": "deice", "flight": flight, "field": name, "time": text}, reply, now)

    def unload(self, milestone, kind, reply="ok", role="APT", now=None):
        return self.say(role, {"cmd": "unload", "milestone": milestone, "kind": kind}, reply, now)

    def reports(self, *milestones):
        for it in milestones:
            self.report(it)
        return self

    def start(self, *milestones):
        """The schedule, the flight plan, and reports of these milestones at the times of PATH."""
        return self.schedule().plan().reports(*milestones)


class Long(Talk):
    """A row of one line, a part of which is repeated, and of what is sent after it."""

    def __init__(self, name, *cells):
        super().__init__(name, *cells)
        self.parts = None

    def long(self, head, part, times, tail, reply):
        self.parts = head, part, times, tail
        return self.line(head + part * times + tail, reply)

    def starts(self):
        return False


class Crowd(Talk):
    """A row of so many flights, each made by one line from flight 1 on, with one alert each, and of what is sent after them."""

    def __init__(self, name, *cells, flights, alert, now):
        super().__init__(name, *cells, capacity=flights + 10, now=now)
        self.flights, self.alert = flights, alert
        for flight in range(1, flights + 1):
            self.schedule(flight=flight) if alert == "CDM13" else self.plan(flight=flight)
        self.alerts(";".join(f"{it}:{alert}" for it in range(1, flights + 1)))

    def starts(self):
        return False


SCHEDULE = {
    "cmd": "schedule", "flight": 7, "callsign": "DLH7", "type": "A320", "reg": "DAIBC", "dest": "EDDM", "sobt": stamp("10:00"),
    "mttt": 40, "exit": 5, "exot": 10, "stand": 12,
}
PLAN = {
    "cmd": "report", "flight": 7, "milestone": 1, "time": stamp("10:00"), "callsign": "DLH7", "type": "A320", "reg": "DAIBC",
    "dest": "EDDM",
}
# Who reports, and when: times that raise no alert at 9:00.
OWNERS = {2: "NM", 3: "NM", 4: "ATC", 5: "ATC", 6: "ATC", 7: "APT", 8: "GH", 9: "GH", 10: "ATC", 11: "GH", 12: "AO", 13: "ATC",
          14: "ATC", 15: "ATC", 16: "ATC"}
PATH = {2: "10:15", 3: "8:00", 4: "9:10", 5: "9:08", 6: "9:00", 7: "9:05", 8: "9:06", 9: "10:00", 10: "10:01", 11: "9:40",
        12: "9:55", 13: "9:58", 14: "10:02", 15: "10:03", 16: "10:12"}
# What the schedule and the flight plan set.
SCHEDULED = {"callsign": "DLH7", "scheduled type": "A320", "scheduled registration": "DAIBC", "scheduled destination": "EDDM",
             "SOBT": "10:00", "MTTT": 40, "EXIT": 5, "EXOT": 10, "stand": 12}
PLANNED = {"callsign": "DLH7", "plan type": "A320", "plan registration": "DAIBC", "plan destination": "EDDM", "EOBT": "10:00"}
BOTH = {**SCHEDULED, **PLANNED}
