#!/usr/bin/env python3
"""Measures `acdm` beside its unverified peers, and prints all ratios in one run.

    python3 bench/ratios.py [PART ..] [--runs N] [--acdm PROGRAM]

The parts are `day`, `instructions`, `journal`, `fill`, `alerts`, `tick` and `memory` against the twin in Rust (bench/twin), and `verifier` and
`machine`, which call the scripts of these folders; all of them where none is named. A time is the least processor time of N runs, the two programs
in turn, of the program and of the system for it, and of the program alone; what a shorter stream takes is taken off. `instructions` counts those of
the program alone by callgrind, which no other work on the machine changes. Replies are compared byte by byte. A journal has room for just the
entries of its stream.

What is measured is the proved program, as LLVM built it for `./acdm prove`, or the one that is named: never the build of `rt try`, which has the
checks of an unproved one. Needed are `cargo`, the Debian packages librust-serde-json-dev, librust-indexmap-dev and librust-itoa-dev for the twin,
and for `instructions` valgrind.
"""

import argparse
import json
import os
import re
import subprocess
import sys
import tempfile
from pathlib import Path

from peak import peak_over

BENCH = Path(__file__).resolve().parent
TOP = BENCH.parent
PARTS = ("day", "instructions", "journal", "fill", "alerts", "tick", "memory", "verifier", "machine")
MOMENT = 29_000_700
MOST_FLIGHTS = 4096
LEAST = 0.08  # seconds
# valgrind counts one instruction for each byte that a string instruction clears: it is not to be chosen.
UNSTRUNG = {"GLIBC_TUNABLES": "glibc.cpu.x86_rep_stosb_threshold=1000000000"}


def line(role, **command):
    return f"1 {MOMENT} {role} {json.dumps(command, separators=(',', ':'))}\n".encode()


def plan(flight):
    names = {"callsign": f"DLH{flight}", "type": "A320", "reg": "DAIBC", "dest": "EDDM"}
    return line("NM", cmd="report", flight=flight, milestone=1, time="2025-02-20T10:00:00Z", **names)


def plans(count):
    """Flights without a schedule, each with an alert."""
    return [plan(flight) for flight in range(1, count + 1)]


class Peers:
    """The two programs, and what they cost on a stream of lines."""

    def __init__(self, acdm, twin, folder, runs):
        self.acdm, self.twin = acdm, twin
        self.folder, self.runs = Path(folder), runs

    def commands(self, entries):
        """The two commands, with room for so many entries."""
        room = str(max(entries, 1))
        return {"acdm": [self.acdm, "run", "--journal", room], "twin": [self.twin, room]}

    def once(self, name, command, to_pipe):
        """Processor time in seconds of one run over the file `lines`: with what the system did for it, and alone."""
        with open(self.folder / "lines", "rb") as source, open(self.folder / name, "wb") as sink:
            if to_pipe:
                reader = subprocess.Popen(["cat"], stdin=subprocess.PIPE, stdout=sink)
                child = subprocess.Popen(command, stdin=source, stdout=reader.stdin)
                reader.stdin.close()
            else:
                child = subprocess.Popen(command, stdin=source, stdout=sink)
            _, status, used = os.wait4(child.pid, 0)
            child.returncode = os.waitstatus_to_exitcode(status)
            if to_pipe:
                reader.wait()
        if child.returncode:
            sys.exit(f"{name}: status {child.returncode}")
        return used.ru_utime + used.ru_stime, used.ru_utime

    def costs(self, lines, entries, runs=None, to_pipe=False):
        """For each program its least times over these lines."""
        (self.folder / "lines").write_bytes(b"".join(lines))
        commands = self.commands(entries)
        least = dict.fromkeys(commands, (float("inf"), float("inf")))
        for _ in range(runs or self.runs):
            for name, command in commands.items():
                least[name] = tuple(map(min, least[name], self.once(name, command, to_pipe)))
        if (self.folder / "acdm").read_bytes() != (self.folder / "twin").read_bytes():
            sys.exit("the replies differ")
        return least

    def compared(self, title, more, less, count, unit, to_pipe=False, runs=None):
        """Prints what each of `count` things costs, by which one stream has more than another."""
        longer, shorter = (self.costs(lines, len(more), runs, to_pipe) for lines in (more, less))
        whole, alone = ({name: (longer[name][i] - shorter[name][i]) / count for name in longer} for i in (0, 1))
        # (the system tells a program's own part by ticks, of which a short run has none)
        is_long = min(times[1] for times in longer.values()) > LEAST
        told(title, whole, unit, f" (the program alone {alone['acdm'] / alone['twin']:.2f})" if is_long else "")

    def counted(self, lines, entries):
        """For each program how many instructions it takes for these lines."""
        (self.folder / "lines").write_bytes(b"".join(lines))
        found = {}
        for name, command in self.commands(entries).items():
            tool = ["valgrind", "--tool=callgrind", f"--callgrind-out-file={self.folder / 'calls'}"]
            with open(self.folder / "lines", "rb") as source:
                how = {"stdin": source, "stdout": subprocess.DEVNULL, "stderr": subprocess.PIPE, "text": True}
                how["env"] = {**os.environ, **UNSTRUNG}
                said = subprocess.run([*tool, *command], check=True, **how).stderr
            found[name] = int(re.search(r"Collected : (\d+)", said)[1])
        return found


UNITS = {"us": 1e6, "ms": 1e3, "bytes": 1, "instructions": 1}


def told(title, cost, unit, more=""):
    acdm, twin = (max(cost[name], 1e-12) * UNITS[unit] for name in ("acdm", "twin"))
    print(f"{title:42} {acdm:8,.2f} {unit}, twin {twin:8,.2f} {unit}: {acdm / twin:5.2f} times{more}", flush=True)


def days():
    """How many flights, and the lines of their day."""
    for flights in (10, 100, 1000, 4000):
        made = subprocess.run(
            [sys.executable, BENCH / "traffic/generate.py", "--flights", str(flights)], check=True, stdout=subprocess.PIPE
        )
        yield flights, made.stdout.splitlines(keepends=True)


def day(peers):
    for flights, lines in days():
        # (a short day would lie whole in a slow moment of a shared machine)
        runs = peers.runs * (10 if flights <= 100 else 4 if flights <= 1000 else 1)
        peers.compared(f"a line of a day of {flights:,} flights", lines, [], len(lines), "us", runs=runs)


def instructions(peers):
    for flights, lines in days():
        longer, shorter = peers.counted(lines, len(lines)), peers.counted([], len(lines))
        cost = {name: (longer[name] - shorter[name]) / len(lines) for name in longer}
        told(f"a line of a day of {flights:,} flights", cost, "instructions")


def targets(count):
    """So many targets of one flight, which are accepted."""
    return count * [line("AO", cmd="report", flight=1, milestone=9, time="2025-02-20T10:00:00Z")]


def journal(peers):
    for count in (100_000, 900_000):
        title = f"a report, of {count:,} in the journal"
        peers.compared(title, plans(1) + targets(count), plans(1), count, "us", runs=2)


def fill(peers):
    peers.compared("a board of 4,096 flights is filled", plans(MOST_FLIGHTS), [], 1, "ms")


def alerts(peers):
    many, few = plans(4000), plans(4000)
    for flight in range(4, 4001):
        names = {"callsign": "DLH", "type": "A320", "reg": "DAIBC", "dest": "EDDM"}
        times = {"sobt": "2025-02-20T10:00:00Z", "mttt": 40, "exit": 5, "exot": 10, "stand": 12}
        few.append(line("APT", cmd="schedule", flight=flight, **names, **times))
    asked = [line("APT", cmd="alerts")] * 200
    peers.compared("alerts, 4,000 of 4,000 alerted", many + asked, many, len(asked), "us")
    peers.compared("the same to a pipe", many + asked, many, len(asked), "us", to_pipe=True)
    peers.compared("alerts, 3 of 4,000 alerted", few + 100 * asked, few, 100 * len(asked), "us")


def tick(peers):
    ticks = [line("APT", cmd="tick")] * 1000
    peers.compared("tick, 4,000 flights", plans(4000) + ticks, plans(4000), len(ticks), "us")


def memory(peers):
    for title, given in (("show", line("AO", cmd="show", flight=1)), ("a report", targets(1)[0])):
        few, many = 100_000, 500_000
        cost = {}
        for name in ("acdm", "twin"):
            streams = (plans(1) + count * [given] for count in (few, many))
            less, more = (peak_over(peers.commands(len(lines))[name], lines) for lines in streams)
            cost[name] = (more - less) / (many - few)
        told(f"memory for an entry of {title}", cost, "bytes")


def program_of(named):
    """The program that is measured, and what it is."""
    if named:
        return named, "the program that was named"
    said = subprocess.run([TOP / "acdm", "--version"], check=True, stdout=subprocess.PIPE, text=True).stdout.strip()
    if not said.startswith("acdm: the proved program"):
        sys.exit(f"{said}: run ./acdm prove first, or name a program by --acdm")
    return TOP / "crates/acdm/out/acdm", said


def main():
    words = argparse.ArgumentParser(description="Measures acdm beside its unverified peers.")
    words.add_argument("part", nargs="*", choices=(*PARTS, []), help="what is measured; all where none is named")
    words.add_argument("--runs", type=int, default=9, metavar="N")
    words.add_argument("--acdm", metavar="PROGRAM", help="acdm as `rt run` built it, where ./acdm prove did not")
    given = words.parse_args()
    parts = given.part or PARTS
    acdm, what = program_of(given.acdm)
    print(f"{what}: {acdm}", flush=True)
    subprocess.run(["cargo", "build", "--release", "--offline", "--quiet"], cwd=BENCH / "twin", check=True)
    with tempfile.TemporaryDirectory() as folder:
        peers = Peers(acdm, BENCH / "twin/target/release/twin", folder, given.runs)
        for part in (day, instructions, journal, fill, alerts, tick, memory):
            if part.__name__ in parts:
                part(peers)
    for part, script in (("verifier", "run.py"), ("machine", "speed.py")):
        if part in parts:
            print(f"{part}:", flush=True)
            subprocess.run([sys.executable, BENCH / part / script], check=True)


if __name__ == "__main__":
    main()
