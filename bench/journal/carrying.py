#!/usr/bin/env python3
"""Carries the open flights of journals over to a new board, and compares their records, alerts and programs with the old board's.

    bench/journal/carrying.py [PROGRAM]

The journals are those of examples/journal, cut at twelve places each, and that of a day of 4,000 flights, cut in its middle.
The program is crates/acdm/out/acdm where none is named. Its last line is `N cases, M failed`; the status is 1 where one failed.
"""
import json
import pathlib
import subprocess
import sys
import tempfile

TOP = pathlib.Path(__file__).resolve().parents[2]
sys.path.insert(0, str(TOP / "clients"))
from feed import Board


def told(program, journal):
    """The board at the end of a journal, what is loaded then, and how many entries it has."""
    lines = subprocess.run([program, "tell", journal], capture_output=True, text=True, check=True).stdout.splitlines()
    board, loaded = Board(), {}
    for line in map(json.loads, lines):
        board.take(line)
        command = line["command"]
        if line["outcome"] == "ok" and command["cmd"] in ("load", "unload", "migrate"):
            at = command.get("milestone"), command.get("kind")
            loaded[at] = [command["cmd"], command.get("instructions"), command.get("length"), line["answers"]]
    return board, loaded, len(lines)


def is_carried(program, journal, room):
    """Whether the new board has the open flights of the old one, as they were, and its programs."""
    lines = subprocess.run([TOP / "clients" / "carry.py", journal], capture_output=True, check=True).stdout
    carried = room / "carried"
    replies = subprocess.run([program, "run", "--save", carried], input=lines, capture_output=True, check=True).stdout
    old, loaded, entries = told(program, journal)
    new, loaded_again, entries_again = told(program, carried)
    flights = {number: it for number, it in old.flights.items() if 16 not in it["reached"]}
    is_well = [*flights.items()] == [*new.flights.items()] and loaded == loaded_again and not any(it.startswith(b"no") for it in replies.splitlines())
    print(f"{journal.name}: {len(flights)} of {len(old.flights)} flights, {entries_again} of {entries} entries{'' if is_well else ': OTHERWISE'}")
    return is_well


def main():
    program = sys.argv[1] if len(sys.argv) > 1 else str(TOP / "crates" / "acdm" / "out" / "acdm")
    cases = failed = 0
    with tempfile.TemporaryDirectory() as folder:
        room = pathlib.Path(folder)
        day = subprocess.run([sys.executable, TOP / "bench" / "traffic" / "generate.py"], capture_output=True, check=True).stdout
        subprocess.run([program, "run", "--save", room / "day-of-4000"], input=day, stdout=subprocess.DEVNULL, check=True)
        shipped = [(it, range(1, 13)) for it in sorted((TOP / "examples" / "journal").glob("*.journal"))]
        for journal, parts in [*shipped, (room / "day-of-4000", [6])]:
            lines = journal.read_bytes().splitlines(keepends=True)
            for part in parts:
                cut = room / f"{journal.stem}-{part}"
                cut.write_bytes(b"".join(lines[: len(lines) * part // 12]))
                cases += 1
                failed += not is_carried(program, cut, room)
    print(f"{cases} cases, {failed} failed")
    return 1 if failed else 0


if __name__ == "__main__":
    sys.exit(main())
