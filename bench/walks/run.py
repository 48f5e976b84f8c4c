#!/usr/bin/env python3
"""Walks flights through all sixteen milestones by `acdm run`, with `show` and `alerts` after each line.

    python3 bench/walks/run.py [--program PATH] [--short]

What each line sets is a table by hand (table.py), from which the reply to each question is laid out; the walks are in walks.py. The
journal of each walk is saved, and what `acdm tell` says of it is held against the same table. With --short an eighth of the walks is
made. The last line is `N cases, M failed`; the status is 1 where one failed, and 77 where there is no program.
"""

import argparse
import json
import pathlib
import subprocess
import sys
import tempfile
from concurrent.futures import ThreadPoolExecutor

import table
import walks

TOP = pathlib.Path(__file__).resolve().parents[2]
PROVED = TOP / "crates" / "acdm" / "out" / "acdm"
SESSIONS = {"APT": 1, "NM": 2, "ATC": 3, "AO": 4, "GH": 5, "DIC": 6}
KEYS = {
    "schedule": ("callsign", "type", "reg", "dest", "sobt", "mttt", "exit", "exot", "stand"),
    "1": ("time", "callsign", "type", "reg", "dest"),
}
NAMES = {
    201: "not_owner",
    203: "missing_milestone",
    204: "barred",
    205: "not_set",
    206: "time_order",
    325: "first_layout",
}
DEICING = ("eczt", "eezt", "aczt", "aezt")


def spelled(value):
    return json.dumps(value, separators=(",", ":"))


class Walk:
    """The board of one walk: its flights by the table, and the lines that were sent, with their replies and what is told of each."""

    def __init__(self):
        self.flights, self.programs, self.layout = {}, {}, 1
        self.sent, self.replies, self.told = [], [], []

    def send(self, now, role, command, reply, code=None, changed=()):
        """A line, the reply that is owed, without its number, and what is told."""
        kind, _, rest = reply.partition(" ")
        entry = len(self.replies)
        self.sent.append(f"{SESSIONS[role]} {now} {role} {json.dumps(command)}\n")
        self.replies.append(f"{kind} {entry}{' ' if rest else ''}{rest}\n")
        outcome = {"code": code, "name": NAMES[code]} if code else "ok"
        head = {"entry": entry, "minute": table.iso(now), "session": SESSIONS[role], "role": role}
        tail = {"outcome": outcome, "answers": [], "changed": [it.told() for it in changed]}
        self.told.append((spelled(head)[:-1], spelled(tail)[1:]))

    def line(self, text):
        """A line of a walk, and the questions behind it."""
        said, _, code = text.partition(" -> ")
        now, role, *words = said.split()
        flight = int(words.pop(0)[:-1]) if words[0].endswith(":") else 7
        now = table.minute(now)
        getattr(self, words[0] if words[0] in ("load", "unload", "migrate", "tick") else "sets")(
            now, role, words, flight, int(code) if code else None
        )
        for asked in sorted(self.flights):
            self.send(now, "AO", {"cmd": "show", "flight": asked}, f"rec {self.flights[asked].record().hex()}")
        listed = ";".join(f"{it['flight']}:{','.join(it.names())}" for it in self.flights.values() if it["alerts"])
        self.send(now, "NM", {"cmd": "alerts"}, f"alerts {listed or '-'}")

    def command(self, words, number):
        """The command that the words of a line make, and the values of its fields in their order."""
        head, *values = words
        if head in DEICING:
            return {"cmd": "deice", "flight": number, "field": head, "time": table.iso(table.minute(values[0]))}
        given = dict(zip(KEYS.get(head, ("time",)), values, strict=True))
        for key in given:
            given[key] = table.iso(table.minute(given[key])) if key in ("time", "sobt") else given[key]
            given[key] = int(given[key]) if key in ("mttt", "exit", "exot", "stand") else given[key]
        return {"cmd": "schedule" if head == "schedule" else "report", "flight": number} | (
            {} if head == "schedule" else {"milestone": int(head)}
        ) | given  # fmt: skip

    def sets(self, now, role, words, number, code):
        """A schedule, a report or a time of de-icing."""
        command, head = self.command(words, number), words[0]
        if head in DEICING and self.layout == 1:
            code = 325
        if code:
            return self.send(now, role, command, f"no {code}", code)
        flight = self.flights.setdefault(number, table.Flight(number, self.layout))
        if words[1] == "-":
            flight.takes(f"{head} without a time")
        else:
            flight.takes(head, [valued(it) for it in words[1:]])
        if head.isdigit():
            self.runs(flight, now, int(head))
        flight.touched(now)
        return self.send(now, role, command, "ok", changed=[flight])

    def runs(self, flight, now, milestone):
        """The programs of a milestone."""
        if (milestone, "tobt") in self.programs:
            flight.suggested(table.answer(self.programs[milestone, "tobt"], flight, now, milestone), now)
        if (milestone, "alert") in self.programs:
            flight.raised(table.answer(self.programs[milestone, "alert"], flight, now, milestone))

    def load(self, now, role, words, _number, _code):
        milestone, kind, name = int(words[1]), words[2], words[3]
        self.programs[milestone, kind] = name
        command = {"cmd": "load", "milestone": milestone, "kind": kind, "program": table.program(name)}
        self.send(now, role, command | ({"length": 160} if self.layout == 2 else {}), "ok")

    def unload(self, now, role, words, _number, _code):
        del self.programs[int(words[1]), words[2]]
        self.send(now, role, {"cmd": "unload", "milestone": int(words[1]), "kind": words[2]}, "ok")

    def migrate(self, now, role, _words, _number, _code):
        self.layout = 2
        for flight in self.flights.values():
            flight["layout"] = 2
        self.send(now, role, {"cmd": "migrate"}, "migrated -")

    def tick(self, now, role, _words, _number, code):
        if code:
            return self.send(now, role, {"cmd": "tick"}, f"no {code}", code)
        before = {number: it["alerts"] for number, it in self.flights.items()}
        for it in self.flights.values():
            it.touched(now)
        changed = [it for number, it in self.flights.items() if it["alerts"] != before[number]]
        return self.send(now, role, {"cmd": "tick"}, "ok", changed=changed)


def valued(word):
    """A word of a line as a value of a field: a time, a number or a text."""
    if ":" in word:
        return table.minute(word)
    return int(word) if word.isdigit() else word.encode()


def difference(name, sent, wanted, found):
    """The first line that was answered otherwise, or nothing."""
    for line, one, other in zip(sent, wanted, found):
        if one != other:
            return f"{name}: {line.rstrip()}\n  wanted {one.rstrip()}\n  found  {other.rstrip()}"
    return "" if len(sent) == len(found) else f"{name}: {len(found)} of {len(sent)} lines"


def tried(program, name, lines, folder):
    """Makes a walk by the program: how many lines were held against the table, and what differs."""
    walk = Walk()
    for line in lines:
        walk.line(line)
    saved = pathlib.Path(folder) / f"{abs(hash(name))}.journal"
    ran = subprocess.run(
        [program, "run", "--save", saved],
        input="".join(walk.sent),
        capture_output=True,
        text=True,
        timeout=60,
        check=False,
    )
    told = subprocess.run([program, "tell", saved], capture_output=True, text=True, timeout=60, check=False)
    saved.unlink(missing_ok=True)
    wrong = difference(name, walk.sent, walk.replies, ran.stdout.splitlines(keepends=True))
    if not wrong:
        # (what stands between is the command, of which bench/feed has rows)
        found = told.stdout.splitlines()
        wanted = [
            f"{head} .. {tail}" if not (it.startswith(head) and it.endswith(tail)) else it
            for (head, tail), it in zip(walk.told, found)
        ]
        wrong = difference(f"{name}, told", walk.sent, wanted, found)
    return 2 * len(walk.sent), wrong


def main():
    words = argparse.ArgumentParser(description="Walks flights through all sixteen milestones.")
    words.add_argument("--program", type=pathlib.Path, default=PROVED)
    words.add_argument("--short", action="store_true", help="make an eighth of the walks")
    asked = words.parse_args()
    if not asked.program.is_file():
        print(f"left out: there is no {asked.program}")
        return 77
    count = failed = 0
    with tempfile.TemporaryDirectory(prefix="acdm-walks-") as folder, ThreadPoolExecutor(2) as pool:
        made = [pool.submit(tried, asked.program, name, lines, folder) for name, lines in walks.all_walks(asked.short)]
        for it in made:
            lines, wrong = it.result()
            count += lines
            failed += bool(wrong)
            if wrong:
                print(f"FAILED {wrong}", flush=True)
    print(f"{count} cases, {failed} failed")
    return 1 if failed else 0


if __name__ == "__main__":
    sys.exit(main())
