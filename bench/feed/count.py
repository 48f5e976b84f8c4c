#!/usr/bin/env python3
"""Counts the instructions that `acdm tell` takes for an entry of a journal, beside those of `acdm audit` of the same one.

    python3 bench/feed/count.py [--flights N] [--acdm PROGRAM]...

The journal is that of a day of so many flights, and of as many flights that are scheduled with 50 ticks behind them. The
instructions are those of the program alone, by callgrind, which no other work on the machine changes. More programs than
one are counted one after the other. What the feed takes beside the audit is the difference.
"""

import argparse
import re
import subprocess
import sys
import tempfile
from pathlib import Path

TOP = Path(__file__).resolve().parents[2]
TICKS = 50


def counted(program, command, journal):
    """The instructions of a command on a journal."""
    words = ["valgrind", "--tool=callgrind", "--callgrind-out-file=/dev/null", program, command, journal]
    said = subprocess.run(words, capture_output=True, text=True, check=True).stderr
    return int(re.search(r"Collected : (\d+)", said)[1])


def saved(program, lines, journal):
    """Saves the journal of these lines, and returns how many entries it has."""
    subprocess.run(
        [program, "run", "--save", journal], input="\n".join(lines) + "\n", capture_output=True, text=True, check=True
    )
    return Path(journal).read_text(encoding="ascii").count("\n")


def main():
    words = argparse.ArgumentParser(description="Counts the instructions of acdm tell beside those of acdm audit.")
    words.add_argument("--flights", type=int, default=400, help="1 to 4,096")
    words.add_argument("--acdm", action="append", help="the program; crates/acdm/out/acdm where none is named")
    asked = words.parse_args()
    day = subprocess.run(
        [sys.executable, TOP / "bench/traffic/generate.py", "--flights", str(asked.flights)],
        capture_output=True,
        text=True,
        check=True,
    ).stdout.splitlines()
    schedules = [it for it in day if '"schedule"' in it][: asked.flights]
    tick = f'1 {int(schedules[-1].split()[1]) + 1} APT {{"cmd":"tick"}}'
    for program in asked.acdm or [str(TOP / "crates/acdm/out/acdm")]:
        with tempfile.TemporaryDirectory() as room:
            journal = f"{room}/journal"
            entries = saved(program, day, journal)
            audit, tell = (counted(program, it, journal) for it in ("audit", "tell"))
            took = f"{audit / entries:,.0f} instructions an entry for the audit, {tell / entries:,.0f} for the feed"
            print(f"{program}: a day of {asked.flights} flights, {entries:,} entries: {took}")
            both = []
            for lines in (schedules, schedules + [tick] * TICKS):
                saved(program, lines, journal)
                both.append(counted(program, "tell", journal) - counted(program, "audit", journal))
            print(
                f"{program}: a tick of {len(schedules)} flights: {(both[1] - both[0]) / TICKS:,.0f} instructions beside the audit"
            )


if __name__ == "__main__":
    main()
