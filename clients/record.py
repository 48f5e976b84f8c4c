#!/usr/bin/env python3
"""Prints records of flights by the names of their fields, with times as days and clock times (UTC).

    ./acdm run < examples/day.txt | clients/record.py

Each line `rec N HEX` of standard input is printed so, and other lines are left out. Outside what is proved.
"""
import signal
import struct
import sys
from datetime import datetime, timedelta, timezone
from typing import Any

TIMES = "SOBT EOBT CTOT OTOT ELDT ALDT AIBT ACGT TOBT TSAT ASBT ARDT ASRT ASAT AOBT ATOT".split()
DEICING = "ECZT EEZT ACZT AEZT".split()
HALVES = ["type", "registration", "destination"]
FIELDS = ["flight", "callsign", *(f"{half} {name}" for name in HALVES for half in ("scheduled", "planned"))]
FIELDS += ["reached", "alerts", "MTTT", "EXOT", "stand", "layout", "EXIT", *TIMES]
LAYOUTS = {128: struct.Struct("<Q8s4s4s8s8s4s4s2I3H2B16I"), 160: struct.Struct("<Q8s4s4s8s8s4s4s2I3H2B20I16x")}
MILESTONES = 16
EPOCH = datetime(1970, 1, 1, tzinfo=timezone.utc)


Record = dict[str, Any]


def record_of(digits: str) -> Record:
    """The fields of a record by name, from its 256 or 320 hexadecimal digits: numbers, and texts without zeros."""
    data = bytes.fromhex(digits)
    values = LAYOUTS[len(data)].unpack(data)
    texts = (value.rstrip(b"\0").decode("ascii") if isinstance(value, bytes) else value for value in values)
    return dict(zip([*FIELDS, *DEICING], texts))


def clock(minute: int) -> str:
    """The clock time of a minute, and nothing for 0, which is no time."""
    return f"{minute // 60 % 24:02}:{minute % 60:02}" if minute else ""


def day_and_clock(minute: int) -> str:
    try:
        return (EPOCH + timedelta(minutes=minute)).strftime("%Y-%m-%d %H:%M") if minute else ""
    except OverflowError:
        return f"minute {minute}"


def alert_names(word: int) -> list[str]:
    """The names of an alert word, by rising bit."""
    names = [f"CDM{bit:02}" for bit in range(15)] + ["CDM07a"] + [f"LOC{bit:02}" for bit in range(16)]
    return [name for bit, name in enumerate(names) if word >> bit & 1]


def is_reached(record: Record, milestone: int) -> bool:
    """Whether a milestone was reached; 0 asks for the schedule."""
    return bool(record["reached"] >> milestone & 1)


def printed(name: str, record: Record) -> str:
    """What is printed for a field."""
    value = record[name]
    if name in TIMES or name in DEICING:
        value = day_and_clock(value)
    elif name == "alerts":
        value = " ".join(alert_names(value))
    elif name == "reached":
        places = [str(place) for place in range(1, MILESTONES + 1) if is_reached(record, place)]
        value = " ".join(["schedule"] * is_reached(record, 0) + places)
    elif name in ("MTTT", "EXOT", "EXIT"):
        value = f"{value} minutes"
    return str(value) or "-"


def main() -> int:
    signal.signal(signal.SIGPIPE, signal.SIG_DFL)
    for number, line in enumerate(sys.stdin, 1):
        words = line.split()
        if len(words) == 3 and words[0] == "rec":
            try:
                record = record_of(words[2])
            except (KeyError, ValueError):
                print(f"record.py: line {number} has no record of 256 or 320 hexadecimal digits", file=sys.stderr)
                return 2
            print(f"entry {words[1]}")
            for name in record:
                print(f"  {name:22} {printed(name, record)}")
    return 0


if __name__ == "__main__":
    sys.exit(main())
