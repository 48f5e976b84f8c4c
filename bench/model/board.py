#!/usr/bin/env python3
"""A second opinion on `acdm run`: the written rules of docs/RULES.md as a plain program.

    python3 bench/model/board.py [--journal N] < lines > replies
    python3 bench/model/board.py --against replies < lines

The second form compares, and names the first line where the replies differ. Nothing here is taken from the
Rattle sources. Two readers are narrower than those of `acdm`: times are read in the forms
`2025-02-20T10:00:00Z`, with a fraction of a second or an offset as `+01:00`, and JSON is what Python's `json`
reads, less what `serde_json` refuses. Programs are judged and run by `programs.py`. Left out are `bad 501`, since
memory is always there, and sessions that are served at once.
"""

import argparse
import json
import re
import sys
from dataclasses import dataclass, field
from datetime import datetime, timedelta, timezone

import programs

LONGEST_LINE = 70_000
DEEPEST = 127
MOST_FLIGHTS = 4096
MOST_MINUTES = 2**32 - 1
LAST_INSTANT = 4_223_370_120  # the last minute that `jiff` reads, 9999-12-30T22:00Z
DAY = 1440
ROLES = ("NM", "ATC", "APT", "AO", "GH", "DIC")
DEICING = ("eczt", "eezt", "aczt", "aezt")


class Bad(Exception):
    """The line makes no entry: `bad CODE`, or `bad CODE SLOT` for a program that is refused."""

    def __init__(self, code, slot=None):
        super().__init__(code)
        self.reply = f"bad {code}" if slot is None else f"bad {code} {slot}"


class Refused(Exception):
    """The command is refused, and its entry stands: `no N CODE`."""

    def __init__(self, code):
        super().__init__(code)
        self.code = code


# --- what a line means


class NoNumber:
    """A JSON number that is no whole number from 0 to 2^64 - 1."""


def json_float(text):
    if float(text) in (float("inf"), float("-inf")):
        raise ValueError("number out of range")
    return NoNumber()


def json_integer(text):
    other = json_float(text)
    return other if text.startswith("-") or int(text) >= 2**64 else int(text)


def json_constant(text):
    raise ValueError(text)


def check_json(value, depth):
    """Refuses what Python reads and serde_json does not: halves of surrogate pairs, and deep values."""
    if isinstance(value, str):
        value.encode("utf-8")
    elif isinstance(value, (dict, list)):
        if depth == DEEPEST:
            raise ValueError("nested too deep")
        for part in list(value) + (list(value.values()) if isinstance(value, dict) else []):
            check_json(part, depth + 1)


def read_json(raw):
    try:
        value = json.loads(
            raw.decode("utf-8"), parse_int=json_integer, parse_float=json_float, parse_constant=json_constant
        )
        check_json(value, 0)
    except (ValueError, RecursionError):
        raise Bad(101) from None
    return value


def decimal(text, least, most):
    if not re.fullmatch(rb"[1-9][0-9]{0,9}", text) or not least <= int(text) <= most:
        raise Bad(100)
    return int(text)


def number(fields, key, least, most):
    value = fields.get(key)
    if not isinstance(value, int) or isinstance(value, bool):
        raise Bad(103)
    if not least <= value <= most:
        raise Bad(104)
    return value


def text(fields, key, most):
    value = fields.get(key)
    if not isinstance(value, str):
        raise Bad(103)
    raw = value.encode("utf-8")
    if not 1 <= len(raw) <= most or not all(0x21 <= byte <= 0x7E for byte in raw):
        raise Bad(104)
    return raw


INSTANT = re.compile(
    r"(\d{4})-(\d\d)-(\d\d)T(\d\d):(\d\d):(\d\d)(?:\.\d{1,9})?(?:Z|([+-])(\d\d):(\d\d))", re.ASCII
)


def minute_of(instant):
    """The minute in which an instant lies, if it is one."""
    parts = INSTANT.fullmatch(instant)
    if not parts:
        return None
    *day_and_time, seconds = (int(part) for part in parts.groups()[:6])
    try:
        moment = datetime(*day_and_time, 59 if seconds == 60 else seconds, tzinfo=timezone.utc)
    except ValueError:
        return None
    minute = (moment - datetime(1970, 1, 1, tzinfo=timezone.utc)) // timedelta(minutes=1)
    if parts[7]:
        hours, minutes = int(parts[8]), int(parts[9])
        if hours > 25 or minutes > 59:
            return None
        minute += (-1 if parts[7] == "+" else 1) * (60 * hours + minutes)
    return minute if minute <= LAST_INSTANT else None


def time(fields, key, optional=False):
    if optional and key in fields and fields[key] is None:
        return 0
    value = fields.get(key)
    if not isinstance(value, str):
        raise Bad(103)
    minute = minute_of(value)
    if minute is None or not 1 <= minute <= MOST_MINUTES:
        raise Bad(104)
    return minute


def flight_of(fields):
    return number(fields, "flight", 1, 2**64 - 1)


def identity(fields):
    return {
        "callsign": text(fields, "callsign", 8),
        "type": text(fields, "type", 4),
        "reg": text(fields, "reg", 8),
        "dest": text(fields, "dest", 4),
    }


def read_schedule(fields):
    flight = flight_of(fields)
    given = identity(fields)
    given["sobt"] = time(fields, "sobt")
    given["mttt"] = number(fields, "mttt", 0, 1440)
    given["exit"] = number(fields, "exit", 0, 255)
    given["exot"] = number(fields, "exot", 0, 1440)
    given["stand"] = number(fields, "stand", 0, 65535)
    return flight, given


def read_report(fields):
    flight = flight_of(fields)
    milestone = number(fields, "milestone", 1, 16)
    minute = time(fields, "time", optional=milestone in (2, 9))
    return flight, milestone, minute, identity(fields) if milestone == 1 else None


def kind_of(fields):
    kind = fields.get("kind")
    if not isinstance(kind, str):
        raise Bad(103)
    if kind not in ("tobt", "alert"):
        raise Bad(104)
    return kind


def digits(fields, key):
    value = fields.get(key)
    if not isinstance(value, str):
        raise Bad(103)
    if not re.fullmatch(r"([0-9A-Fa-f]{2})*", value):
        raise Bad(104)
    return bytes.fromhex(value)


def read_slot(fields):
    return number(fields, "milestone", 1, 16), kind_of(fields)


def length_of(fields):
    length = number(fields, "length", 0, 2**64 - 1) if "length" in fields else 128
    if length not in programs.RECORD_LENGTHS:
        raise Bad(104)
    return length


def read_load(fields):
    place, code, length = read_slot(fields), digits(fields, "program"), length_of(fields)
    try:
        programs.accepted(code, length)
    except programs.Fault as fault:
        raise Bad(fault.code, fault.slot) from None
    return *place, code, length


def read_deice(fields):
    flight, name = flight_of(fields), fields.get("field")
    if not isinstance(name, str):
        raise Bad(103)
    if name not in DEICING:
        raise Bad(104)
    return flight, name, time(fields, "time", optional=True)


COMMANDS = {
    "schedule": read_schedule,
    "report": read_report,
    "load": read_load,
    "unload": read_slot,
    "migrate": lambda fields: (),
    "deice": read_deice,
    "tick": lambda fields: (),
    "show": lambda fields: (flight_of(fields),),
    "alerts": lambda fields: (),
}


def meaning(line):
    """The session, moment, role, command and arguments of a line."""
    if len(line) > LONGEST_LINE:
        raise Bad(105)
    words = line.split(b" ", 3)
    if len(words) < 4:
        raise Bad(100)
    session = decimal(words[0], 1, 64)
    moment = decimal(words[1], 1, MOST_MINUTES)
    if words[2] not in {role.encode() for role in ROLES}:
        raise Bad(100)
    fields = read_json(words[3])
    command = fields.get("cmd") if isinstance(fields, dict) else None
    if not isinstance(command, str) or command not in COMMANDS:
        raise Bad(102)
    return session, moment, words[2].decode(), command, COMMANDS[command](fields)


# --- milestones


@dataclass(frozen=True)
class Rule:
    """A milestone: who reports it, what its time sets, what must be reached and set, what bars it."""

    owners: tuple
    sets: str
    reached: tuple = (1,)
    needs: str = ""
    barred: int = 0


MILESTONES = {
    1: Rule(("NM",), "eobt", (), barred=15),
    2: Rule(("NM",), "ctot", barred=16),
    3: Rule(("NM",), "otot", barred=6),
    4: Rule(("ATC",), "eldt", barred=6),
    5: Rule(("ATC",), "eldt", barred=6),
    6: Rule(("ATC",), "aldt", barred=7),
    7: Rule(("APT",), "aibt", (1, 6), barred=15),
    8: Rule(("GH",), "acgt", (1, 7), barred=15),
    9: Rule(("AO", "GH"), "tobt", barred=14),
    10: Rule(("ATC",), "tsat", needs="tobt", barred=15),
    11: Rule(("AO", "GH"), "asbt", needs="tobt", barred=15),
    12: Rule(("AO", "GH"), "ardt", needs="tobt", barred=15),
    13: Rule(("ATC",), "asrt", (1, 10), "tsat", 15),
    14: Rule(("ATC",), "asat", (1, 10, 13), "tsat", 15),
    15: Rule(("APT", "ATC"), "aobt", (1, 14), barred=16),
    16: Rule(("ATC",), "atot", (1, 15), barred=16),
}

DEICING_ORDER = (("eczt", "eezt"), ("aczt", "aezt"))

TIME_ORDER = (("aldt", "aibt"), ("aibt", "acgt"), ("asrt", "asat"), ("aobt", "atot"))

TIMES = (
    "sobt eobt ctot otot eldt aldt aibt acgt tobt tsat asbt ardt asrt asat aobt atot"
).split()


@dataclass
class Flight:
    """The record of a flight. A time of 0 is not set."""

    number: int
    callsign: bytes = b""
    scheduled: dict = field(default_factory=lambda: {"type": b"", "reg": b"", "dest": b""})
    plan: dict = field(default_factory=lambda: {"type": b"", "reg": b"", "dest": b""})
    reached: int = 0
    alerts: int = 0
    mttt: int = 0
    exot: int = 0
    stand: int = 0
    exit: int = 0
    times: dict = field(default_factory=lambda: dict.fromkeys((*TIMES, *DEICING), 0))

    def has(self, *milestones):
        return all(self.reached >> milestone & 1 for milestone in milestones)

    def mark(self, milestone):
        self.reached |= 1 << milestone

    def record(self, layout=1):
        """The bytes of the record, 128 in layout 1 and 160 in layout 2."""
        parts = [self.number.to_bytes(8, "little"), self.callsign.ljust(8, b"\0")]
        for key, width in (("type", 4), ("reg", 8), ("dest", 4)):
            parts += [self.scheduled[key].ljust(width, b"\0"), self.plan[key].ljust(width, b"\0")]
        widths = ((self.reached, 4), (self.alerts, 4), (self.mttt, 2), (self.exot, 2), (self.stand, 2), (layout, 1), (self.exit, 1))
        parts += [value.to_bytes(width, "little") for value, width in widths]
        parts += [self.times[name].to_bytes(4, "little") for name in TIMES]
        if layout == 2:
            parts += [self.times[name].to_bytes(4, "little") for name in DEICING] + [bytes(16)]
        return b"".join(parts)


def out_of_order(times, pairs):
    """Whether the second time of a pair lies before the first, both set."""
    return any(times[first] and times[then] and times[then] < times[first] for first, then in pairs)


# --- alerts


NOT_POSSIBLE = 1 << 14
LOCAL = 0xFFFF << 16


def alerts_of(flight, now):
    """The alert word at a moment: bit k is CDM k, bit 15 is CDM07a. CDM14 and the local alerts stay."""
    times = flight.times
    sobt, eobt, tobt, tsat = times["sobt"], times["eobt"], times["tobt"], times["tsat"]
    asbt, asat, aobt = times["asbt"], times["asat"], times["aobt"]
    both = flight.has(0, 1)
    ready = None
    if times["aibt"]:
        ready = times["aibt"] + flight.mttt
    elif times["aldt"] or times["eldt"]:
        ready = (times["aldt"] or times["eldt"]) + flight.exit + flight.mttt
    conditions = {
        1: flight.has(1) and not flight.has(0),
        2: sobt and eobt and sobt != eobt,
        3: both and flight.scheduled["type"] != flight.plan["type"],
        4: both and flight.scheduled["reg"] != flight.plan["reg"],
        5: both and flight.scheduled["dest"] != flight.plan["dest"],
        7: ready is not None and eobt and ready > eobt,
        8: tobt and eobt and abs(tobt - eobt) > 15,
        9: tobt and not asbt and not aobt and now + 10 >= tobt,
        10: flight.has(9) and not tobt,
        11: tsat and not asat and now > tsat + 5,
        12: asat and tsat and abs(asat - tsat) > 5,
        13: flight.has(0) and not flight.has(1) and now + 180 >= sobt,
        15: ready is not None and tobt and ready > tobt,
    }
    return sum(1 << bit for bit, holds in conditions.items() if holds) | flight.alerts & (NOT_POSSIBLE | LOCAL)


def names_of(word):
    names = [f"CDM{bit:02}" for bit in range(1, 15) if word >> bit & 1]
    names += ["CDM07a"] if word >> 15 & 1 else []
    return names + [f"LOC{bit:02}" for bit in range(16) if word >> (16 + bit) & 1]


# --- the board


class Board:
    """The flights in order of creation, the programs by milestone and kind, and how many commands were taken.

    `used` has what the helpers answered the programs of the last command, and `layout` is that of all records.
    """

    def __init__(self, capacity):
        self.flights = {}
        self.programs = {}
        self.layout = 1
        self.length = 0
        self.capacity = capacity
        self.helpers = programs.HELPERS
        self.used = []

    def reply(self, line):
        """The reply to one line, without its line feed."""
        try:
            _, moment, role, command, arguments = meaning(line)
            if self.length == self.capacity:
                raise Bad(502)
        except Bad as bad:
            return bad.reply
        return self.enter(moment, role, command, arguments)[1]

    def enter(self, moment, role, command, arguments):
        """Takes a command as the next entry: 0 or the number of its refusal, and the reply."""
        entry = self.length
        self.length += 1
        self.used = []
        try:
            word, rest = getattr(self, command)(role, moment, *arguments)
        except Refused as refused:
            return refused.code, f"no {entry} {refused.code}"
        return 0, f"{word} {entry}{rest}"

    def known(self, number):
        if number not in self.flights:
            raise Refused(202)
        return self.flights[number]

    def found_or_new(self, number):
        if number not in self.flights and len(self.flights) == MOST_FLIGHTS:
            raise Refused(503)
        return self.flights.get(number) or Flight(number)

    def touch(self, flight, moment):
        self.flights[flight.number] = flight
        flight.alerts = alerts_of(flight, moment)
        return "ok", ""

    def schedule(self, role, moment, number, given):
        if role != "APT":
            raise Refused(201)
        if number in self.flights and self.flights[number].has(0, 1):
            raise Refused(207)
        flight = self.found_or_new(number)
        flight.callsign = given["callsign"]
        flight.scheduled = {key: given[key] for key in ("type", "reg", "dest")}
        flight.times["sobt"] = given["sobt"]
        flight.mttt, flight.exit, flight.exot, flight.stand = (given[key] for key in ("mttt", "exit", "exot", "stand"))
        flight.mark(0)
        return self.touch(flight, moment)

    def report(self, role, moment, number, milestone, minute, plan):
        rule = MILESTONES[milestone]
        if role not in rule.owners:
            raise Refused(201)
        flight = self.found_or_new(number) if milestone == 1 else self.known(number)
        times = dict(flight.times)
        if not flight.has(*rule.reached):
            raise Refused(203)
        if flight.has(rule.barred):
            raise Refused(204)
        if rule.needs and not times[rule.needs]:
            raise Refused(205)
        times[rule.sets] = minute
        if milestone == 9 and not minute:
            times["tsat"] = 0
        if out_of_order(times, TIME_ORDER):
            raise Refused(206)
        flight.times = times
        if plan:
            flight.callsign = plan["callsign"]
            flight.plan = {key: plan[key] for key in ("type", "reg", "dest")}
        flight.mark(milestone)
        self.ask_target(flight, moment, milestone)
        self.ask_alerts(flight, moment, milestone)
        return self.touch(flight, moment)

    def ask_target(self, flight, moment, milestone):
        """Runs the TOBT program of a milestone, if there is one."""
        answer = self.answer("tobt", flight, moment, milestone)
        if not answer:
            return
        if moment <= answer <= moment + DAY and answer <= MOST_MINUTES and not flight.times["asat"]:
            flight.times["tobt"] = answer
            flight.mark(9)
            flight.alerts &= ~NOT_POSSIBLE
        else:
            flight.alerts |= NOT_POSSIBLE

    def ask_alerts(self, flight, moment, milestone):
        """Runs the alert program of a milestone, if there is one."""
        answer = self.answer("alert", flight, moment, milestone)
        if answer is not None:
            flight.alerts = flight.alerts & ~LOCAL | (answer & 0xFFFF) << 16

    def answer(self, kind, flight, moment, milestone):
        program = self.programs.get((milestone, kind))
        if program is None:
            return None
        ended = programs.run(program, flight.record(self.layout), moment, milestone, self.helpers)
        self.used += ended.answers
        return ended.r0

    def load(self, role, moment, milestone, kind, code, length):
        if role != "APT":
            raise Refused(201)
        if length != programs.RECORD_LENGTHS[self.layout - 1]:
            raise Refused(323)
        self.programs[milestone, kind] = programs.decode(code)
        return "ok", ""

    def unload(self, role, moment, milestone, kind):
        if role != "APT":
            raise Refused(201)
        if (milestone, kind) not in self.programs:
            raise Refused(321)
        del self.programs[milestone, kind]
        return "ok", ""

    def migrate(self, role, moment):
        if role != "APT":
            raise Refused(201)
        if self.layout == 2:
            raise Refused(324)
        self.layout = 2
        unloaded = []
        for milestone, kind in sorted(self.programs, key=lambda place: (place[0], place[1] == "alert")):
            try:
                programs.verify(self.programs[milestone, kind], length=160)
            except programs.Fault as fault:
                del self.programs[milestone, kind]
                unloaded.append(f"{milestone}:{kind}:{fault.code}:{fault.slot}")
        return "migrated", f" {';'.join(unloaded) or '-'}"

    def deice(self, role, moment, number, name, minute):
        if role != "DIC":
            raise Refused(201)
        if self.layout == 1:
            raise Refused(325)
        flight = self.known(number)
        if not flight.has(1):
            raise Refused(203)
        if flight.has(16):
            raise Refused(204)
        times = flight.times | {name: minute}
        if out_of_order(times, DEICING_ORDER):
            raise Refused(206)
        flight.times = times
        return self.touch(flight, moment)

    def tick(self, role, moment):
        if role != "APT":
            raise Refused(201)
        for flight in self.flights.values():
            self.touch(flight, moment)
        return "ok", ""

    def show(self, role, moment, number):
        return "rec", f" {self.known(number).record(self.layout).hex()}"

    def alerts(self, role, moment):
        raised = [flight for flight in self.flights.values() if flight.alerts]
        listed = ";".join(f"{flight.number}:{','.join(names_of(flight.alerts))}" for flight in raised)
        return "alerts", f" {listed or '-'}"


def replies(stream, capacity):
    board = Board(capacity)
    for line in stream:
        yield board.reply(line.removesuffix(b"\n"))


def compare(given, expected):
    """The first line where the replies differ, if there is one."""
    place = 0
    for place, reply in enumerate(expected, 1):
        other = given.readline().decode("ascii", "replace")
        if other != reply + "\n":
            return f"line {place}: expected {reply!r}, found {other!r}"
    return f"line {place + 1}: expected no more" if given.read(1) else None


def main():
    words = argparse.ArgumentParser(description="The replies that `acdm run` owes to the lines on standard input.")
    words.add_argument("--journal", type=int, default=100_000, metavar="N", help="how many entries the journal takes")
    words.add_argument("--against", metavar="FILE", help="replies to compare with, in place of writing them")
    given = words.parse_args()
    expected = replies(sys.stdin.buffer, given.journal)
    if given.against is None:
        sys.stdout.writelines(reply + "\n" for reply in expected)
        return 0
    with open(given.against, "rb") as found:
        difference = compare(found, expected)
    print(difference or "no difference")
    return 1 if difference else 0


if __name__ == "__main__":
    sys.exit(main())
