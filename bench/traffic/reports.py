#!/usr/bin/env python3
"""The most memory that `acdm run` takes for 200,000 accepted reports under a program of 4,096 slots.

    python3 bench/traffic/reports.py [--reports N] [ACDM]

The first program calls no helper, the second calls one: an entry keeps the answers that its programs used, and no more.
ACDM is the built program, else crates/acdm/out/acdm.
"""

import argparse
import sys
from pathlib import Path

HERE = Path(__file__).resolve().parent
sys.path.insert(0, str(HERE.parent))

from peak import peak_over  # noqa: E402

MOV = "b700000000000000"
EXIT = "9500000000000000"
# the stand into r1, AND 511, helper 2
CALL = "69113c000000000057010000ff0100008500000002000000"
BEGIN = (
    '1 29000580 APT {"cmd":"schedule","flight":7,"callsign":"DLH7","type":"A320","reg":"DAIBC","dest":"EDDM",'
    '"sobt":"2025-02-20T10:00:00Z","mttt":40,"exit":5,"exot":10,"stand":12}\n'
    '2 29000580 NM {"cmd":"report","flight":7,"milestone":1,"time":"2025-02-20T10:00:00Z","callsign":"DLH7",'
    '"type":"A320","reg":"DAIBC","dest":"EDDM"}\n'
)
REPORT = '5 29000580 GH {"cmd":"report","flight":7,"milestone":9,"time":"2025-02-20T10:05:00Z"}\n'


def lines(program, reports):
    load = f'1 29000580 APT {{"cmd":"load","milestone":9,"kind":"alert","program":"{program}"}}\n'
    return [line.encode() for line in [load, *BEGIN.splitlines(keepends=True), *[REPORT] * reports]]


def main():
    words = argparse.ArgumentParser(description="Memory of reports under a program.")
    words.add_argument("--reports", type=int, default=200_000, metavar="N")
    words.add_argument("acdm", nargs="?", default=str(HERE.parent.parent / "crates" / "acdm" / "out" / "acdm"))
    given = words.parse_args()
    command = [given.acdm, "run", "--journal", str(given.reports + 10)]
    for title, program in (("no call", MOV * 4095 + EXIT), ("one call", MOV * 4092 + CALL + EXIT)):
        found = peak_over(command, lines(program, given.reports))
        print(f"{title}: {given.reports} reports, {found / 2**20:.1f} MiB, {found / given.reports:.0f} bytes a report")


if __name__ == "__main__":
    main()
