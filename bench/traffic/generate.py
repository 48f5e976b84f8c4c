#!/usr/bin/env python3
"""Writes a day of traffic for `acdm run`: flights, each with a schedule and its milestones, in the order of time.

    python3 bench/traffic/generate.py [--flights N] [--seed S] > lines

The same words give the same lines. Each flight has about seventeen lines: a schedule, a flight plan and its milestones; about
one line in forty is refused, and the airport ticks and asks for alerts every ten minutes. Partners send as sessions 1
to 5. N is at most 4,096, the number of flights that a board takes.
"""

import argparse
import json
import random
import sys
from datetime import datetime, timedelta, timezone

MIDNIGHT = datetime(2025, 2, 20, tzinfo=timezone.utc)
FIRST_MINUTE = int(MIDNIGHT.timestamp()) // 60
DAY = 24 * 60
SESSIONS = {"APT": 1, "NM": 2, "ATC": 3, "AO": 4, "GH": 5}
TYPES = ("A319", "A320", "A321", "A333", "A388", "B738", "B77W", "BCS3", "CRJ9", "E190")
AIRLINES = ("AFR", "AUA", "BAW", "DLH", "EWG", "IBE", "KLM", "SAS", "SWR", "UAE")
PLACES = ("EDDF", "EGLL", "EHAM", "EKCH", "LEMD", "LFPG", "LIRF", "LOWW", "LSZH", "OMDB")


def instant(minute):
    return (MIDNIGHT + timedelta(minutes=minute)).strftime("%Y-%m-%dT%H:%M:%SZ")


def identity(chance, number):
    return {
        "callsign": f"{chance.choice(AIRLINES)}{number}",
        "type": chance.choice(TYPES),
        "reg": "D" + "".join(chance.choices("ABCDEFGHIJKLMNOPQRSTUVWXYZ", k=4)),
        "dest": chance.choice(PLACES),
    }


def report(number, milestone, minute, more=None):
    time = None if minute is None else instant(minute)
    return {"cmd": "report", "flight": number, "milestone": milestone, "time": time, **(more or {})}


def plans(chance, number, off_block):
    """The schedule, and the flight plan with what the network manager adds to it."""
    names = identity(chance, number)
    planned = dict(names)
    if chance.random() < 0.03:
        planned["reg"] = identity(chance, number)["reg"]
    schedule = {
        "cmd": "schedule", "flight": number, **names, "sobt": instant(off_block),
        "mttt": chance.choice((30, 35, 40, 45, 60)), "exit": chance.randint(3, 8),
        "exot": chance.randint(8, 20), "stand": chance.randint(1, 300),
    }  # fmt: skip
    estimate = off_block + chance.choice((0, 0, 0, 0, 5, 20))
    yield off_block - 240, "APT", schedule
    yield off_block - 200, "NM", report(number, 1, estimate, planned)
    yield off_block - 120, "NM", report(number, 2, chance.choice((None, off_block + 15)))


def arrival(chance, number, off_block):
    landing = off_block - chance.randint(50, 90)
    yield landing - 70, "NM", report(number, 3, landing - 75)
    yield landing - 25, "ATC", report(number, 4, landing + chance.randint(-5, 5))
    yield landing - 6, "ATC", report(number, 5, landing)
    yield landing, "ATC", report(number, 6, landing)
    yield landing + 6, "APT", report(number, 7, landing + 6)
    yield landing + 9, "GH", report(number, 8, landing + 9)


def departure(chance, number, off_block):
    target = off_block + chance.choice((0, 0, 0, 5, 20))
    company = chance.choice(("AO", "GH"))
    yield off_block - 45, company, report(number, 9, target)
    yield off_block - 40, "ATC", report(number, 10, target + 2)
    yield target - 28, company, report(number, 11, target - 28)
    yield target - 3, company, report(number, 12, target - 3)
    yield target - 1, "ATC", report(number, 13, target - 1)
    start = target + chance.choice((1, 2, 2, 3, 9))
    yield start, "ATC", report(number, 14, start)
    yield start + 2, chance.choice(("APT", "ATC")), report(number, 15, start + 2)
    yield start + 14, "ATC", report(number, 16, start + 14)


def misplaced(chance, number, off_block):
    """Now and then a line that is refused: a wrong sender, an unknown flight, a milestone too early."""
    if chance.random() < 0.4:
        yield chance.choice((
            (off_block - 100, "AO", report(number, 6, off_block - 100)),
            (off_block - 100, "ATC", report(number + 1_000_000, 6, off_block - 100)),
            (off_block - 100, "ATC", report(number, 16, off_block - 100)),
        ))  # fmt: skip


def questions():
    for minute in range(0, DAY + 60, 10):
        yield minute, "APT", {"cmd": "tick"}
        yield minute, "APT", {"cmd": "alerts"}


def day(flights, seed):
    """All lines of the day, in the order of time."""
    chance = random.Random(seed)
    events = list(questions())
    for number in range(1, flights + 1):
        off_block = chance.randint(300, DAY - 1)
        for part in (plans, arrival, departure, misplaced):
            events.extend(part(chance, number, off_block))
    events.sort(key=lambda event: event[0])
    for minute, role, command in events:
        yield f"{SESSIONS[role]} {FIRST_MINUTE + minute} {role} {json.dumps(command, separators=(',', ':'))}\n"


def main():
    words = argparse.ArgumentParser(description="Writes a day of traffic for `acdm run`.")
    words.add_argument("--flights", type=int, default=4000, metavar="N", help="1 to 4,096; 4,000 where it is not given")
    words.add_argument("--seed", type=int, default=1, metavar="S")
    given = words.parse_args()
    if not 1 <= given.flights <= 4096:
        words.error("flights: 1 to 4,096")
    sys.stdout.writelines(day(given.flights, given.seed))


if __name__ == "__main__":
    main()
