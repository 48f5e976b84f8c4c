#!/usr/bin/env python3
"""Lines a second and memory of `acdm run` over journals of 1,000 to 1,000,000 entries, each with room for as many.

    python3 bench/traffic/lengths.py [--runs N] [ACDM]

Reports of one flight by two sessions in turn, as from a file, so nothing grows but the journal and what the two sessions' passes have made. Times are
processor time, the mean of some runs, less that of a run without a line.
ACDM is the built program, else crates/acdm/out/acdm.
"""

import argparse
import os
import subprocess
import sys
import tempfile
from pathlib import Path
from statistics import fmean

HERE = Path(__file__).resolve().parent
sys.path[:0] = [str(HERE.parent), str(HERE)]

from peak import peak_over  # noqa: E402
from reports import BEGIN, REPORT  # noqa: E402

TURNS = [REPORT, REPORT.replace("5 29000580 GH", "6 29000580 AO").replace("10:05", "10:10")]


def lines(entries):
    return [line.encode() for line in BEGIN.splitlines(keepends=True) + (TURNS * (entries // 2))[: entries - 2]]


def seconds(command, source):
    source.seek(0)
    child = subprocess.Popen(command, stdin=source, stdout=subprocess.DEVNULL)
    _, status, used = os.wait4(child.pid, 0)
    child.returncode = os.waitstatus_to_exitcode(status)
    if status:
        sys.exit(f"{command} ended with {child.returncode}")
    return used.ru_utime + used.ru_stime


def main():
    words = argparse.ArgumentParser(description="Lines a second and memory by the length of the journal.")
    words.add_argument("--runs", type=int, default=5, metavar="N")
    words.add_argument("acdm", nargs="?", default=str(HERE.parent.parent / "crates" / "acdm" / "out" / "acdm"))
    given = words.parse_args()
    for entries in (1_000, 10_000, 100_000, 1_000_000):
        command = [given.acdm, "run", "--journal", str(entries)]
        runs = given.runs * max(1, 100_000 // entries)
        with tempfile.TemporaryFile() as source, tempfile.TemporaryFile() as nothing:
            source.writelines(lines(entries))
            source.flush()
            took = fmean(seconds(command, source) for _ in range(runs)) - fmean(seconds(command, nothing) for _ in range(runs))
        found = peak_over(command, lines(entries))
        idle = peak_over(command, lines(2))
        print(
            f"{entries:9,} entries: {took / entries * 1e6:5.2f} us a line, {entries / took:9,.0f} lines a second, "
            f"{found / 2**20:6.1f} MiB, of which {idle / 2**20:5.1f} MiB before the third line, {(found - idle) / entries:4.0f} bytes an entry"
        )


if __name__ == "__main__":
    main()
