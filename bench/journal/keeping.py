#!/usr/bin/env python3
"""Times a day of 4,000 flights by `acdm run` with and without `--keep`, and how long it takes to go on from it and from a journal of
1,000,000 entries.

    python3 bench/journal/keeping.py [PROGRAM]

Each time is the least of seven runs; the program is crates/acdm/out/acdm where none is named. A board goes on in a new file, whose
text is on the disk before anything is replied: beside each time stands what a copy of the same bytes takes that is synced too. Where
valgrind is installed, the instructions of audit and going on are counted, which other work on the machine does not change.
"""

import os
import pathlib
import re
import resource
import shutil
import subprocess
import sys
import tempfile
import time

TOP = pathlib.Path(__file__).resolve().parents[2]


def least(words, given, before=lambda: None):
    """How long a command takes by the clock, and how many seconds of a processor: the least of seven each."""
    times, own = [], []
    for _ in range(7):
        before()
        start, used = time.monotonic(), resource.getrusage(resource.RUSAGE_CHILDREN)
        subprocess.run(words, input=given, stdout=subprocess.DEVNULL, check=True)
        times.append(time.monotonic() - start)
        later = resource.getrusage(resource.RUSAGE_CHILDREN)
        own.append(later.ru_utime + later.ru_stime - used.ru_utime - used.ru_stime)
    return min(times), min(own)


def copied(file):
    """How long a synced copy of a file takes, the least of seven."""
    times = []
    for _ in range(7):
        start = time.monotonic()
        with open(file, "rb") as old, open(f"{file}.copy", "wb") as new:
            while piece := old.read(65_536):
                new.write(piece)
            new.flush()
            os.fsync(new.fileno())
        times.append(time.monotonic() - start)
        os.unlink(f"{file}.copy")
    return min(times)


def lengthened(day):
    """The lines of a day, and behind them questions and its reports once more at its last minute, 1,000,000 in all."""
    lines = day.decode().splitlines()
    last = lines[-1].split()[1]
    more = lines[:]
    for number in range(1_000_000 - len(lines)):
        session, _, rest = lines[number % len(lines)].split(" ", 2)
        question = f'1 {last} AO {{"cmd":"show","flight":{number % 4000 + 1}}}'
        more.append(question if number % 2 else f"{session} {last} {rest}")
    return "".join(f"{line}\n" for line in more).encode()


def instructions(words):
    """How many instructions a program takes."""
    tool = ["valgrind", "--tool=callgrind", "--callgrind-out-file=/dev/null", *words]
    ran = subprocess.run(tool, stdin=subprocess.DEVNULL, stdout=subprocess.DEVNULL, stderr=subprocess.PIPE, text=True, check=True)
    return int(re.search(r"Collected : (\d+)", ran.stderr)[1])


def going_on_from(name, program, kept, room):
    """How long an audit of a kept journal takes, and going on from it, and how many instructions."""
    audit, going_on = [program, "audit", str(kept)], [program, "run", "--journal", str(room), "--keep", str(kept)]
    few, many, copy = least(audit, b""), least(going_on, b""), copied(kept)
    for what, own, other in zip(("", " of a processor"), many, few):
        print(f"going on from {name} {own:.3f} s{what}, its audit {other:.3f} s: {own / other:.2f} times")
    print(f"a synced copy of its file {copy:.3f} s")
    if shutil.which("valgrind"):
        few, many = instructions(audit), instructions(going_on)
        print(f"instructions of going on from {name} {many / 1e6:,.0f} million, of its audit {few / 1e6:,.0f}: {many / few:.2f} times")


def main():
    program = sys.argv[1] if len(sys.argv) > 1 else str(TOP / "crates" / "acdm" / "out" / "acdm")
    day = subprocess.run([sys.executable, TOP / "bench" / "traffic" / "generate.py"], capture_output=True, check=True).stdout
    with tempfile.TemporaryDirectory() as folder:
        kept = pathlib.Path(folder) / "kept"
        plain, _ = least([program, "run"], day)
        keeping, _ = least([program, "run", "--keep", str(kept)], day, lambda: kept.unlink(missing_ok=True))
        print(f"{len(day.splitlines())} lines: {plain:.3f} s, with --keep {keeping:.3f} s: {keeping / plain:.2f} times")
        going_on_from("a day", program, kept, 100_000)
        long = pathlib.Path(folder) / "long"
        subprocess.run([program, "run", "--journal", "1000000", "--save", str(long)], input=lengthened(day), stdout=subprocess.DEVNULL, check=True)
        going_on_from("1,000,000 entries", program, long, 1_000_000)


if __name__ == "__main__":
    main()
