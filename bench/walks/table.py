"""What each line of a partner sets, the alerts as conditions over that, and how a record is laid out. It is no script: run.py uses it.

Written by hand from the tables of milestones, alerts, local programs and de-icing (docs/RULES.md) and of the record and the feed
(docs/FORMATS.md), and from nothing else: not from the program, and not from bench/model. A walk is read line by line; the table says
which fields a line sets, which it takes back and what it marks as reached, and leaves all else as it was.
"""

import datetime
import functools
import re

EXIT = "9500000000000000"
# 2025-02-20T00:00Z, in minutes since 1970-01-01T00:00Z.
DAY = 29000160

# ---- what a line sets, in the order of its words; what it takes back; and what it marks as reached

SETS = {
    "schedule": (
        "callsign, scheduled type, scheduled registration, scheduled destination, SOBT, MTTT, EXIT, EXOT, stand", "", "0"
    ),
    "1": ("EOBT, callsign, plan type, plan registration, plan destination", "", "1"),
    "2": ("CTOT", "", "2"),
    "2 without a time": ("", "CTOT", "2"),
    "3": ("OTOT", "", "3"),
    "4": ("ELDT", "", "4"),
    "5": ("ELDT", "", "5"),
    "6": ("ALDT", "", "6"),
    "7": ("AIBT", "", "7"),
    "8": ("ACGT", "", "8"),
    "9": ("TOBT", "", "9"),
    "9 without a time": ("", "TOBT, TSAT", "9"),
    "10": ("TSAT", "", "10"),
    "11": ("ASBT", "", "11"),
    "12": ("ARDT", "", "12"),
    "13": ("ASRT", "", "13"),
    "14": ("ASAT", "", "14"),
    "15": ("AOBT", "", "15"),
    "16": ("ATOT", "", "16"),
    "eczt": ("ECZT", "", ""),
    "eczt without a time": ("", "ECZT", ""),
    "eezt": ("EEZT", "", ""),
    "eezt without a time": ("", "EEZT", ""),
    "aczt": ("ACZT", "", ""),
    "aczt without a time": ("", "ACZT", ""),
    "aezt": ("AEZT", "", ""),
    "aezt without a time": ("", "AEZT", ""),
}  # fmt: skip

# ---- the alerts, in the order of their bits, each with its condition on a flight at a moment


def expected_in_block(flight):
    """EIBT: in-block, else landed or landing with the time of the taxi in; none where nothing of these is known."""
    if flight["AIBT"]:
        return flight["AIBT"]
    if flight["ALDT"]:
        return flight["ALDT"] + flight["EXIT"]
    return flight["ELDT"] + flight["EXIT"] if flight["ELDT"] else None


def is_turned_round_after(flight, time):
    eibt = expected_in_block(flight)
    return eibt is not None and flight[time] != 0 and eibt + flight["MTTT"] > flight[time]


def are_apart(flight, one, other, minutes):
    return flight[one] != 0 and flight[other] != 0 and abs(flight[one] - flight[other]) > minutes


def differ(flight, what):
    return flight.has(0) and flight.has(1) and flight[f"scheduled {what}"] != flight[f"plan {what}"]


ALERTS = [
    ("CDM01", 1, lambda flight, now: flight.has(1) and not flight.has(0)),
    ("CDM02", 2, lambda flight, now: are_apart(flight, "SOBT", "EOBT", 0)),
    ("CDM03", 3, lambda flight, now: differ(flight, "type")),
    ("CDM04", 4, lambda flight, now: differ(flight, "registration")),
    ("CDM05", 5, lambda flight, now: differ(flight, "destination")),
    ("CDM07", 7, lambda flight, now: is_turned_round_after(flight, "EOBT")),
    ("CDM08", 8, lambda flight, now: are_apart(flight, "TOBT", "EOBT", 15)),
    ("CDM09", 9, lambda flight, now: flight["TOBT"] != 0 == flight["ASBT"] == flight["AOBT"] and now + 10 >= flight["TOBT"]),
    ("CDM10", 10, lambda flight, now: flight.has(9) and flight["TOBT"] == 0),
    ("CDM11", 11, lambda flight, now: flight["TSAT"] != 0 == flight["ASAT"] and now > flight["TSAT"] + 5),
    ("CDM12", 12, lambda flight, now: are_apart(flight, "ASAT", "TSAT", 5)),
    ("CDM13", 13, lambda flight, now: flight.has(0) and not flight.has(1) and now + 180 >= flight["SOBT"]),
    ("CDM14", 14, None),
    ("CDM07a", 15, lambda flight, now: is_turned_round_after(flight, "TOBT")),
] + [(f"LOC{number:02}", 16 + number, None) for number in range(16)]  # fmt: skip

# ---- the places of a record: name, first byte, bytes

LAYOUT = [
    ("flight", 0, 8), ("callsign", 8, 8), ("scheduled type", 16, 4), ("plan type", 20, 4), ("scheduled registration", 24, 8),
    ("plan registration", 32, 8), ("scheduled destination", 40, 4), ("plan destination", 44, 4), ("reached", 48, 4),
    ("alerts", 52, 4), ("MTTT", 56, 2), ("EXOT", 58, 2), ("stand", 60, 2), ("layout", 62, 1), ("EXIT", 63, 1), ("SOBT", 64, 4),
    ("EOBT", 68, 4), ("CTOT", 72, 4), ("OTOT", 76, 4), ("ELDT", 80, 4), ("ALDT", 84, 4), ("AIBT", 88, 4), ("ACGT", 92, 4),
    ("TOBT", 96, 4), ("TSAT", 100, 4), ("ASBT", 104, 4), ("ARDT", 108, 4), ("ASRT", 112, 4), ("ASAT", 116, 4), ("AOBT", 120, 4),
    ("ATOT", 124, 4),
]  # fmt: skip
DEICING = [("ECZT", 128, 4), ("EEZT", 132, 4), ("ACZT", 136, 4), ("AEZT", 140, 4)]
TEXTS = ("callsign", "type", "registration", "destination")
# The members of a record in the feed, in their order, with the fields that they tell.
MEMBERS = [
    ("flight", "flight"), ("callsign", "callsign"), ("scheduled_type", "scheduled type"), ("plan_type", "plan type"),
    ("scheduled_reg", "scheduled registration"), ("plan_reg", "plan registration"), ("scheduled_dest", "scheduled destination"),
    ("plan_dest", "plan destination"), *((name.lower(), name) for name, place, _ in LAYOUT if place >= 64),
    ("mttt", "MTTT"), ("exit", "EXIT"), ("exot", "EXOT"), ("stand", "stand"),
]  # fmt: skip

# ---- local programs: their bytes, and what they answer


def program(name):
    """The bytes of a program as digits: it answers a register, a field, a number, or the moment and so many minutes."""
    if re.fullmatch(r"r\d+", name):
        return f"bf{int(name[1:]):x}0000000000000" + EXIT
    if name.startswith("now"):
        return "bf30000000000000" + "07000000" + (int(name[3:]) % 2**32).to_bytes(4, "little").hex() + EXIT
    if name.isdigit():
        return "b7000000" + int(name).to_bytes(4, "little").hex() + EXIT
    place, width = next((place, width) for field, place, width in LAYOUT + DEICING if field == name.replace("_", " "))
    return {4: "61", 2: "69", 1: "71", 8: "79"}[width] + "10" + place.to_bytes(2, "little").hex() + "00000000" + EXIT


def answer(name, flight, now, milestone):
    """What it answers, of the record that it is handed."""
    if re.fullmatch(r"r\d+", name):
        handed = {1: 0x1_0000_0000, 2: 160 if flight["layout"] == 2 else 128, 3: now, 4: milestone, 10: 0x2_0000_0200}
        return handed[int(name[1:])]
    if name.startswith("now"):
        return (now + int(name[3:])) % 2**64
    if name.isdigit():
        return int(name)
    place, width = next((place, width) for field, place, width in LAYOUT + DEICING if field == name.replace("_", " "))
    return int.from_bytes(flight.record()[place : place + width], "little")


# ---- a flight


class Flight(dict):
    """The fields of a flight: texts, minutes or numbers, empty or 0 where nothing was said, and what it has reached."""

    def __init__(self, number, layout):
        super().__init__({name: b"" if name.endswith(TEXTS) else 0 for name, _, _ in LAYOUT + DEICING})
        self.update(flight=number, layout=layout)

    def has(self, milestone):
        return bool(self["reached"] & 1 << milestone)

    def takes(self, line, values=()):
        """The fields that a line sets, and takes back."""
        names, back, reached = SETS[line]
        for name, value in zip(names.split(", "), values, strict=bool(names)):
            self[name] = value
        for name in back.split(", ") if back else ():
            self[name] = 0
        if reached:
            self["reached"] |= 1 << int(reached)

    def suggested(self, target, now):
        """What comes of the answer of a program of kind `tobt`."""
        if target == 0:
            return
        if now <= target <= now + 1440 and target < 2**32 and self["ASAT"] == 0:
            self["TOBT"] = target
            self["reached"] |= 1 << 9
            self["alerts"] &= ~(1 << 14)
        else:
            self["alerts"] |= 1 << 14

    def raised(self, locals_):
        """What comes of the answer of a program of kind `alert`."""
        self["alerts"] = self["alerts"] & 0xFFFF | (locals_ & 0xFFFF) << 16

    def touched(self, now):
        """The built-in alerts at a moment."""
        for _, bit, condition in ALERTS:
            if condition:
                self["alerts"] = self["alerts"] & ~(1 << bit) | (1 << bit if condition(self, now) else 0)

    def record(self):
        """The bytes of the record: 128, or 160 in layout 2."""
        data = bytearray(160 if self["layout"] == 2 else 128)
        for name, place, width in LAYOUT + (DEICING if self["layout"] == 2 else []):
            value = self[name]
            data[place : place + width] = (
                value.ljust(width, b"\0") if isinstance(value, bytes) else value.to_bytes(width, "little")
            )
        return bytes(data)

    def names(self):
        """The names of the alerts, by rising bit."""
        return [name for name, bit, _ in ALERTS if self["alerts"] >> bit & 1]

    def told(self):
        """The record as the feed tells it."""
        times = [name for name, place, _ in LAYOUT if place >= 64]
        members = {}
        for member, name in MEMBERS:
            value = self[name]
            members[member] = value.decode() if isinstance(value, bytes) else iso(value) if name in times else value
        members |= {"reached": [number for number in range(17) if self.has(number)], "alerts": self.names()}
        return members | ({name.lower(): iso(self[name]) for name, _, _ in DEICING} if self["layout"] == 2 else {})


@functools.cache
def iso(minute):
    """The text of a minute, or none where it is not set."""
    if minute == 0:
        return None
    return (datetime.datetime(1970, 1, 1) + datetime.timedelta(minutes=minute)).strftime("%Y-%m-%dT%H:%M:00Z")


def minute(clock):
    """The minute of a clock time of that day, as 9:05; 0 for a hyphen."""
    if clock == "-":
        return 0
    hour, past = clock.split(":")
    return DAY + 60 * int(hour) + int(past)
