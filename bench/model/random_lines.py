#!/usr/bin/env python3
"""Writes lines for `acdm run` that no airport would send, to compare its replies with the model's.

    python3 bench/model/random_lines.py [--lines N] [--seed S] > lines

Commands, senders, fields, times and programs are drawn by chance, near enough to the rules that about half are
accepted. Some lines have a fault. The same words give the same lines.
"""

import argparse
import json
import random
import sys
from datetime import datetime, timedelta, timezone

from random_programs import Programs

OWNERS = {1: "NM", 2: "NM", 3: "NM", 7: "APT", 8: "GH", 9: "GH", 11: "AO", 12: "AO"}
ROLES = ("NM", "ATC", "APT", "AO", "GH", "DIC")
DEICING = ("eczt", "eezt", "aczt", "aezt")
EPOCH = datetime(1970, 1, 1, tzinfo=timezone.utc)
START = 29_000_580
FLIGHT_LINES = 60
MINUTES = ("00000000", "05000000", "a0050000", "ffffffff")


class Lines:
    """A flight or two at a time, each for about sixty lines."""

    def __init__(self, seed):
        self.chance = random.Random(seed)
        self.programs = Programs(self.chance)
        self.moment = START
        self.flight = 1
        self.length = 128

    def line(self):
        self.moment += self.chance.choice((-3, 0, 0, 1, 1, 2, 6))
        self.flight += self.chance.random() < 1 / FLIGHT_LINES
        draws = (self.report, self.schedule, self.question, self.load, self.unload, self.deice, self.migrate)
        role, command = self.chance.choices(draws, (24, 2, 8, 3, 1, 3, 0.02))[0]()
        if self.chance.random() < 0.03:
            role = self.chance.choice(ROLES)
        if self.chance.random() < 0.05:
            self.spoil(command)
        text = json.dumps(command, separators=(",", ":"))
        if self.chance.random() < 0.01:
            text = text[: self.chance.randrange(len(text))]
        return f"{self.chance.randint(1, 64)} {self.moment} {role} {text}\n"

    def some_flight(self):
        return max(1, self.flight + self.chance.choice((-1, -1, 0, 0, 0, 0, 1)))

    def instant(self, spread=40):
        minute = self.moment + self.chance.randint(-spread, spread)
        return (EPOCH + timedelta(minutes=minute)).strftime("%Y-%m-%dT%H:%M:%SZ")

    def identity(self):
        return {
            "callsign": self.chance.choice(("DLH7", "BAW952XY")),
            "type": self.chance.choice(("A320", "A320", "B77")),
            "reg": self.chance.choice(("DAIBC", "DAIBC", "~!")),
            "dest": self.chance.choice(("EDDM", "EDDM", "EGLL")),
        }

    def schedule(self):
        rest = {"mttt": self.chance.randint(0, 60), "exit": self.chance.randint(0, 9), "exot": 10, "stand": 12}
        command = {"cmd": "schedule", "flight": self.some_flight(), **self.identity()}
        return "APT", {**command, "sobt": self.instant(200), **rest}

    def report(self):
        milestone = self.chance.choices(range(1, 17), (4, 1, 1, 1, 1, 2, 2, 1, 3, 3, 1, 1, 2, 2, 1, 1))[0]
        command = {"cmd": "report", "flight": self.some_flight(), "milestone": milestone, "time": self.instant()}
        if milestone in (2, 9) and self.chance.random() < 0.3:
            command["time"] = None
        if milestone == 1:
            command.update(self.identity())
        return OWNERS.get(milestone, "ATC"), command

    def question(self):
        role = self.chance.choice(ROLES)
        return self.chance.choice(
            (("APT", {"cmd": "tick"}), (role, {"cmd": "alerts"}), (role, {"cmd": "show", "flight": self.some_flight()}))
        )

    def slot(self):
        milestone = self.chance.choice((1, 6, 7, 9, 9, 10, 12, 14))
        return {"milestone": milestone, "kind": self.chance.choice(("tobt", "alert"))}

    def load(self):
        """A program by chance, or one whose answer is a target near the moment."""
        near = f"bf3000000000000007000000{self.chance.choice(MINUTES)}9500000000000000"
        program = near if self.chance.random() < 0.3 else self.programs.program().hex()
        length = self.length if self.chance.random() < 0.9 else self.chance.choice((128, 160))
        named = {} if length == 128 and self.chance.random() < 0.7 else {"length": length}
        return "APT", {"cmd": "load", **self.slot(), "program": program, **named}

    def unload(self):
        return "APT", {"cmd": "unload", **self.slot()}

    def deice(self):
        time = None if self.chance.random() < 0.2 else self.instant()
        return "DIC", {"cmd": "deice", "flight": self.some_flight(), "field": self.chance.choice(DEICING), "time": time}

    def migrate(self):
        """From now on most programs are for the longer records."""
        self.length = 160
        return "APT", {"cmd": "migrate"}

    def spoil(self, command):
        """One key goes, gets another value, or stands under a name that nobody asks for."""
        key = self.chance.choice(list(command))
        values = (None, True, "", "x", "A320\u00e9", 0, -1, 7.5, 65_536, 2**64, [], {}, "2025-02-20T10:00:00", "1970-01-01T00:00:59Z")
        change = self.chance.randrange(3)
        if change == 0:
            del command[key]
        elif change == 1:
            command[key] = self.chance.choice(values)
        else:
            command["remark"] = self.chance.choice(values)


def main():
    words = argparse.ArgumentParser(description="Writes lines by chance for `acdm run`.")
    words.add_argument("--lines", type=int, default=10_000, metavar="N")
    words.add_argument("--seed", type=int, default=1, metavar="S")
    given = words.parse_args()
    lines = Lines(given.seed)
    sys.stdout.writelines(lines.line() for _ in range(given.lines))


if __name__ == "__main__":
    main()
