#!/usr/bin/env python3
"""The feed of a journal, by docs/FORMATS.md and the model of `bench/model/board.py`.

    python3 bench/feed/feed.py < journal > feed

Nothing here is taken from the Rattle sources.
"""

import json
import sys
from datetime import datetime, timedelta
from pathlib import Path

sys.path.insert(0, str(Path(__file__).parent.parent / "model"))

from board import DEICING, TIMES, names_of  # noqa: E402
from journal import PLAN, SCHEDULE, Faulty, replay  # noqa: E402

EPOCH = datetime(1970, 1, 1)
REFUSALS = {
    201: "not_owner",
    202: "unknown_flight",
    203: "missing_milestone",
    204: "barred",
    205: "not_set",
    206: "time_order",
    207: "already_planned",
    503: "full_board",
    321: "empty_slot",
    322: "other_signatures",
    323: "other_length",
    324: "already_migrated",
    325: "first_layout",
}


# The calendar comes again after 400 years.
PERIOD = 146_097 * 1440


def minute_text(minute):
    """The text of a minute; Python's calendar ends with the year 9999."""
    if not minute:
        return None
    periods, rest = divmod(minute, PERIOD)
    moment = EPOCH + timedelta(minutes=rest)
    return f"{moment.year + 400 * periods:04}{moment:-%m-%dT%H:%M:%SZ}"


def instructions(code):
    """How many instructions a program has; one that loads 64 bits takes two slots."""
    count = at = 0
    while at < len(code):
        at += 16 if code[at] == 0x18 else 8
        count += 1
    return count


def fields_of(entry):
    """The command as an object."""
    arguments, told = entry.arguments, {"cmd": entry.command}
    match entry.command:
        case "schedule" | "report":
            told["flight"] = arguments[0]
            if entry.command == "report":
                told |= {"milestone": arguments[1], "time": minute_text(arguments[2])}
            given = arguments[-1] or {}
            told |= {key: given[key].decode("ascii") for key, _ in PLAN if given}
            told |= {key: minute_text(given[key]) if key == "sobt" else given[key] for key, _, _ in SCHEDULE if key in given}
        case "deice":
            told |= {"flight": arguments[0], "field": arguments[1], "time": minute_text(arguments[2])}
        case "load":
            told |= {"milestone": arguments[0], "kind": arguments[1], "instructions": instructions(arguments[2])}
            told["length"] = arguments[3]
        case "unload":
            told |= {"milestone": arguments[0], "kind": arguments[1]}
        case "migrate":
            told["layout"] = 2
        case "show":
            told["flight"] = arguments[0]
    return told


def record_of(flight, layout):
    told = {"flight": flight.number, "callsign": flight.callsign.decode("ascii")}
    for key in ("type", "reg", "dest"):
        told |= {f"scheduled_{key}": flight.scheduled[key].decode("ascii"), f"plan_{key}": flight.plan[key].decode("ascii")}
    told |= {name: minute_text(flight.times[name]) for name in TIMES}
    told |= {name: getattr(flight, name) for name in ("mttt", "exit", "exot", "stand")}
    told["reached"] = [bit for bit in range(17) if flight.reached >> bit & 1]
    told["alerts"] = names_of(flight.alerts)
    if layout == 2:
        told |= {name: minute_text(flight.times[name]) for name in DEICING}
    return told


def lines(journal):
    """The lines of the feed as values."""
    before = {}
    for entry, board in replay(journal):
        accepted, changed = entry.out == 0, []
        if accepted and entry.command in ("schedule", "report", "deice"):
            changed = [board.flights[entry.arguments[0]]]
        elif accepted and entry.command == "tick":
            changed = [flight for flight in board.flights.values() if flight.alerts != before[flight.number]]
        before |= {flight.number: flight.alerts for flight in changed}
        yield {
            "entry": entry.number,
            "minute": minute_text(entry.moment),
            "session": entry.session,
            "role": entry.role,
            "command": fields_of(entry),
            "outcome": "ok" if accepted else {"code": entry.out, "name": REFUSALS[entry.out]},
            "answers": entry.answers,
            "changed": [record_of(flight, board.layout) for flight in changed],
        }


def text_of(line):
    return json.dumps(line, separators=(",", ":")) + "\n"


def main():
    try:
        for line in lines(sys.stdin.buffer):
            sys.stdout.write(text_of(line))
    except Faulty as fault:
        print(f"entry {fault.place} {fault.code}", file=sys.stderr)
        return 1
    return 0


if __name__ == "__main__":
    sys.exit(main())
