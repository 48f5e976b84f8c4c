"""What the scripts beside this one share: the program, lines and files that it is run on, and the count of cases."""

import argparse
import os
import pathlib
import subprocess

TOP = pathlib.Path(__file__).resolve().parents[2]
PROGRAM = TOP / "crates" / "acdm" / "out" / "acdm"

SCHEDULE = (
    '{"cmd":"schedule","flight":7,"callsign":"DLH7","type":"A320","reg":"DAIBC","dest":"EDDM",'
    '"sobt":"2025-02-20T10:00:00Z","mttt":40,"exit":5,"exot":10,"stand":12}'
)
PLAN = (
    '{"cmd":"report","flight":7,"milestone":1,"time":"2025-02-20T10:00:00Z","callsign":"DLH7","type":"A320",'
    '"reg":"DAIBC","dest":"EDDM"}'
)
TARGET = '{"cmd":"report","flight":7,"milestone":9,"time":"2025-02-20T10:00:00Z"}'
# The stand, its low nine bits, and the taxi time from there as the local alerts.
TAXI = "69113c000000000057010000ff01000085000000020000009500000000000000"
LOAD = f'{{"cmd":"load","milestone":9,"kind":"alert","program":"{TAXI}"}}'
ALERTS = '{"cmd":"alerts"}'

# A program is loaded, and asked by the report of the TOBT.
DAY = [
    f"1 29000580 APT {LOAD}",
    f"1 29000580 APT {SCHEDULE}",
    f"2 29000580 NM {PLAN}",
    f"5 29000580 GH {TARGET}",
    f"1 29000580 APT {ALERTS}",
]
DAY_REPLIES = ["ok 0", "ok 1", "ok 2", "ok 3", "alerts 4 7:LOC01,LOC03"]
DAY_JOURNAL = [
    f"0 1 29000580 APT 0 0 load 9 alert {TAXI}",
    "1 1 29000580 APT 0 0 schedule 7 DLH7 A320 DAIBC EDDM 29000760 40 5 10 12",
    "2 2 29000580 NM 0 0 report 7 1 29000760 DLH7 A320 DAIBC EDDM",
    "3 5 29000580 GH 0 1 10 report 7 9 29000760",
    "4 1 29000580 APT 0 0 alerts",
]
LISTING = "0: ldxh r1, [r1+60]\n1: and64 r1, 511\n2: call 2\n3: exit\naccepted 4\n"


# What the program itself says of a file that it does not use.
KEPT_ELSEWHERE = "another board keeps a journal in it"
KEPT_THERE = "a board keeps its journal in it"
NO_PLAIN_FILE = "no plain file"
NO_ROOM = "it has more entries than --journal says"
TAKEN = "it is a standard stream, or another file of this command"
CHANGED = "another file is there, or it has another length than was written"


def text(lines):
    return "".join(f"{line}\n" for line in lines)


def cause(word, reason):
    """The line that names the word that could not be used, and why: by the number of the system's error, or a text."""
    if isinstance(reason, int):
        reason = f"{os.strerror(reason)} (os error {reason})"
    return f"acdm: {word}: {reason}\n"


class Cases:
    """Counts cases, and prints those that failed."""

    def __init__(self):
        self.count = self.failed = 0

    def expect(self, name, holds, seen=""):
        self.count += 1
        if not holds:
            self.failed += 1
            print(f"failed: {name}: {seen}", flush=True)

    def end(self):
        """Prints the last line, and answers the status."""
        print(f"{self.count} cases, {self.failed} failed")
        return 1 if self.failed else 0


def words(about):
    """A parser of words with the one that all scripts take."""
    parser = argparse.ArgumentParser(description=about.splitlines()[0])
    parser.add_argument("--program", type=pathlib.Path, default=PROGRAM, help="the built program")
    return parser


def ran(program, arguments, given=b"", **how):
    """Runs the program on words and input, to its end."""
    how = {"input": given} | {"capture_output": True, "timeout": 120} | how
    return subprocess.run([str(program), *arguments], **how)
