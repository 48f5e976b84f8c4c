#!/usr/bin/env python3
"""Makes the lines by which a new board goes on from the open flights of an old one: for a journal that is full.

    clients/carry.py JOURNAL [--departed] [--tables FILE] > lines
    ./acdm run --keep next.journal < lines

JOURNAL is the text of a journal that was kept or saved. Printed are, as `SESSION MINUTE ROLE JSON`, the accepted
commands that made the records of the flights that have not taken off (of all flights with --departed), the loads,
unloads and the migrate, and the ticks that changed an alert of one of them; questions, refused commands and departed
flights stay behind. Each line keeps its moment, so the new board has the same records, alerts and programs; before them
stands a question of this moment, so that the new journal does not begin as the old one did. Nothing is
printed of a faulty journal, and the status is 1; it is 2 where the file can't be read. A board with --tables had FILE.
Outside what is proved.
"""
import json
import sys
import time
from pathlib import Path

from feed import Arguments, Board, Line, NoFeed, parsed
from programs import NoAnswer, lines_of


class Faulty(Exception):
    """The first fault of a journal."""


def entries_of(journal: Path, tables: Path | None) -> list[Line]:
    """The lines of the feed of a journal."""
    lines = lines_of("tell", *(["--tables", tables] if tables else []), journal)
    if lines and not lines[-1].startswith("{"):
        raise Faulty(lines[-1])
    return [parsed(line.encode()) for line in lines]


def is_carried(entry: Line, flights: set[int]) -> bool:
    """Whether a new board with these flights alone needs the command of an entry."""
    command, name = entry["command"], entry["command"]["cmd"]
    if entry["outcome"] != "ok" or name in ("show", "alerts"):
        return False
    if name == "tick":
        return any(record["flight"] in flights for record in entry["changed"])
    return name in ("load", "unload", "migrate") or command["flight"] in flights


def line_of(entry: Line, text: str) -> str:
    """The line that asks for an entry's command again; the text of the entry has the program that it loads."""
    command = {name: value for name, value in entry["command"].items() if name not in ("instructions", "layout")}
    if command["cmd"] == "load":
        command["program"] = text.split("load ")[1].split()[2]
    minute = text.split()[2]
    return f"{entry['session']} {minute} {entry['role']} {json.dumps(command, separators=(',', ':'))}"


def first_line(lines: list[str], before: int) -> str:
    """A question of this moment, or of one after the old journal's first: by its first entry a journal has its name."""
    session, _, role = lines[0].split()[:3] if lines else ("1", "", "APT")
    return f'{session} {max(int(time.time()) // 60, before + 1)} {role} {{"cmd":"alerts"}}'


def carried(journal: Path, departed: bool, tables: Path | None = None) -> list[str]:
    """The lines that make the open flights anew."""
    entries, board = entries_of(journal, tables), Board()
    for entry in entries:
        board.take(entry)
    flights = {flight["flight"] for flight in board.shown(departed=departed)}
    with open(journal, encoding="ascii") as file:
        texts = file.readlines()
    lines = [line_of(entry, text) for entry, text in zip(entries, texts) if is_carried(entry, flights)]
    return [first_line(lines, int(texts[0].split()[2]) if entries else 0), *lines]


def main() -> int:
    words = Arguments(description="Makes the lines by which a new board goes on from the open flights of an old one.")
    words.add_argument("journal", type=Path, metavar="JOURNAL")
    words.add_argument("--departed", action="store_true", help="all flights, those too that have taken off")
    words.add_argument("--tables", type=Path, metavar="FILE", help="the tables of the board, where it has some")
    given = words.parse_args()
    try:
        for line in carried(given.journal, given.departed, given.tables):
            print(line)
        return 0
    except Faulty as fault:
        print(f"carry.py: {given.journal}: {fault}", file=sys.stderr)
        return 1
    except (NoAnswer, NoFeed) as fault:
        print(f"carry.py: {given.journal}: {fault}", file=sys.stderr)
    except OSError as error:
        print(f"carry.py: {given.journal}: {error.strerror}", file=sys.stderr)
    return 2


if __name__ == "__main__":
    sys.exit(main())
