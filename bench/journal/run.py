#!/usr/bin/env python3
"""Compares saved journals and their audits with the model's, and says how fast a journal is audited.

    python3 bench/journal/run.py [compare] [speed] [--changes N] [--flights N] [--acdm PROGRAM]

`compare` saves the journals of the shipped streams and of lines by chance by `acdm run --save`, and asks whether they are those that the
model in Python writes; then it changes one byte of one at N places, and asks whether `acdm audit` and the model say the same of each.
`speed` saves a day of traffic, and prints the processor time of `acdm run` without a file beside that of `acdm audit`, and the memory
of an audit of that journal and of one with ten times as many entries of the same flights.
"""

import argparse
import fcntl
import io
import os
import random
import subprocess
import sys
import tempfile
import termios
import time
from pathlib import Path

BENCH = Path(__file__).resolve().parents[1]
TOP = BENCH.parent
sys.path[:0] = [str(BENCH), str(BENCH / "model")]

import journal  # noqa: E402
from peak import peak  # noqa: E402


def printed(*words):
    """What a script of the repository prints."""
    return subprocess.run([sys.executable, *words], check=True, stdout=subprocess.PIPE).stdout


def saved(acdm, lines, folder):
    """The journal that `acdm run` saves of these lines."""
    file = folder / "journal"
    subprocess.run([acdm, "run", "--save", file], input=lines, stdout=subprocess.DEVNULL, check=True)
    return file.read_bytes()


def audited(acdm, text, folder):
    """What `acdm audit` says of a text, and its status."""
    file = folder / "audited"
    file.write_bytes(text)
    found = subprocess.run([acdm, "audit", file], stdout=subprocess.PIPE)
    return found.stdout.decode().strip(), found.returncode


def compare(acdm, folder, changes):
    streams = {path.name: path.read_bytes() for path in sorted((TOP / "examples").glob("*.txt"))}
    for seed in (2, 3):
        lines = printed(BENCH / "model/random_lines.py", "--lines", "400", "--seed", str(seed))
        streams[f"lines by chance {seed}"] = lines
    texts = []
    for name, lines in streams.items():
        text = saved(acdm, lines, folder)
        if text != b"".join(entry.line() for entry in journal.written(io.BytesIO(lines))):
            sys.exit(f"{name}: another journal than the model's")
        if audited(acdm, text, folder) != (f"legal {text.count(10)}", 0):
            sys.exit(f"{name}: not legal")
        texts.append(text)
    draws = random.Random(17)
    legal = 0
    for _ in range(changes):
        text = bytearray(draws.choice(texts))
        text[draws.randrange(len(text))] = draws.choice((draws.randrange(256), *b" 0123456789\n"))
        expected = journal.audit(io.BytesIO(text))
        legal += expected[1] == 0
        if audited(acdm, text, folder) != expected:
            (TOP / "differs.journal").write_bytes(text)
            sys.exit(f"differs.journal: {audited(acdm, text, folder)}, by the model {expected}")
    print(f"{len(texts)} journals and {changes:,} changed ones: no difference; {legal:,} of these are legal")


def seconds(command, source, runs=5):
    """The least processor time of some runs."""
    least = float("inf")
    for _ in range(runs):
        with open(source, "rb") as lines:
            child = subprocess.Popen(command, stdin=lines, stdout=subprocess.DEVNULL)
            _, status, used = os.wait4(child.pid, 0)
        child.returncode = os.waitstatus_to_exitcode(status)
        if child.returncode:
            sys.exit(f"{command}: status {child.returncode}")
        least = min(least, used.ru_utime + used.ru_stime)
    return least


def memory(acdm, text, folder):
    """The most memory of an audit of a text, which it reads from a pipe that stays open meanwhile."""
    pipe = folder / "pipe"
    os.mkfifo(pipe)
    child = subprocess.Popen([acdm, "audit", pipe], stdout=subprocess.PIPE)
    with open(pipe, "wb") as sink:
        sink.write(text)
        sink.flush()
        while int.from_bytes(fcntl.ioctl(sink, termios.FIONREAD, bytes(4)), "little"):
            time.sleep(0.01)
        time.sleep(0.2)
        found = peak(child.pid)
    said = child.communicate()[0].decode().strip()
    pipe.unlink()
    return found / 2**20, said


def speed(acdm, folder, flights):
    lines = folder / "lines"
    lines.write_bytes(printed(BENCH / "traffic/generate.py", "--flights", str(flights)))
    text = saved(acdm, lines.read_bytes(), folder)
    count = text.count(10)
    run = seconds([acdm, "run"], lines)
    audit = seconds([acdm, "audit", folder / "journal"], os.devnull)
    print(f"{count:,} entries, {len(text):,} bytes: run {run:.3f} s, audit {audit:.3f} s, {audit / run:.2f} times")
    more = b"".join(b"%d 4 29000000 AO 0 0 show 1\n" % number for number in range(count, 10 * count))
    for journal_text in (text, text + more):
        used, said = memory(acdm, journal_text, folder)
        print(f"memory of an audit, {said}: {used:.1f} MiB")


def main():
    words = argparse.ArgumentParser(description="Compares and times audits of journals.")
    words.add_argument("part", nargs="*", choices=("compare", "speed", []))
    words.add_argument("--changes", type=int, default=2000, metavar="N")
    words.add_argument("--flights", type=int, default=4000, metavar="N")
    words.add_argument("--acdm", metavar="PROGRAM", help="acdm, where it is built already")
    given = words.parse_args()
    acdm = given.acdm or TOP / "crates/acdm/out/acdm"
    if not given.acdm:
        subprocess.run([TOP / "acdm", "run"], stdin=subprocess.DEVNULL, check=True)
    parts = given.part or ("compare", "speed")
    with tempfile.TemporaryDirectory() as name:
        folder = Path(name)
        if "compare" in parts:
            compare(acdm, folder, given.changes)
        if "speed" in parts:
            speed(acdm, folder, given.flights)


if __name__ == "__main__":
    main()
