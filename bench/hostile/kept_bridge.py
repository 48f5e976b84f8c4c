#!/usr/bin/env python3
"""Cuts the power of a board between an entry and its sync, with a bridge to a real PostgreSQL beside it, and compares the two.

    python3 bench/hostile/kept_bridge.py [--program PATH] [--rounds N]

In each of N rounds (6) a partner of `serve --keep FILE --sync --changes` enters lines, then a sync does not return for a while
(held_sync.c, preloaded), and further lines are entered that wait for it. The board is killed, FILE is cut to what was synced, and the
board goes on with other lines, so that their numbers are given twice. The bridge runs all the while. In the end the table has each
entry once, and just as the journal has it. Without Debian's postgresql, python3-psycopg2 or cc it is left out. The last line is
`N cases, M failed`; status 1 where one failed.
"""

import importlib
import json
import os
import pathlib
import shutil
import subprocess
import sys
import tempfile
import time

from cases import TOP, Cases, words
from strangers import Board, asked, free_port

HERE = pathlib.Path(__file__).resolve().parent
sys.path.insert(0, str(TOP / "bridges" / "tests"))
# The bridge runs by Debian's Python, which has its library.
PYTHON = "/usr/bin/python3"
BEFORE, WAITING = 20, 5
SECONDS = 30


def schedule(flight, round_):
    """A line that is of its round alone."""
    own = {"flight": flight, "callsign": f"R{round_}F{flight}", "type": "A320", "reg": "DAIBC", "dest": "EDDM"}
    return json.dumps({"cmd": "schedule", **own, "sobt": "2030-01-01T10:00:00Z", "mttt": 40, "exit": 5, "exot": 10, "stand": 12})


def until(is_so):
    """Whether something comes to be so in its time."""
    end = time.monotonic() + SECONDS
    while time.monotonic() < end:
        if is_so():
            return True
        time.sleep(0.05)
    return False


class Site:
    """A board with its journal, begun anew after each cut, and the words by which a sync can be held."""

    def __init__(self, program, room):
        self.program, self.file, self.hold, self.shim = program, room / "day", room / "hold", room / "held_sync.so"
        subprocess.run(["cc", "-O2", "-shared", "-fPIC", "-o", self.shim, HERE / "held_sync.c"], check=True)
        self.feed = f"127.0.0.1:{free_port()}"

    def begin(self):
        held = {"LD_PRELOAD": str(self.shim), "HOLD": str(self.hold)}
        os.environ.update(held)
        board = Board(self.program, ["--again", "--keep", self.file, "--sync", "--changes", self.feed])
        for word in held:
            del os.environ[word]
        return board

    def told(self):
        """What the journal tells of each entry."""
        done = subprocess.run([self.program, "tell", self.file], capture_output=True, check=False)
        return [json.loads(it) for it in done.stdout.splitlines()]


def cut_power(cases, site, round_):
    """Lines that are synced, and lines that wait for it when the power goes."""
    board, first = site.begin(), 1 + 100 * round_
    with board.connect() as partner:
        replies = [asked(partner, schedule(first + number, round_)) for number in range(BEFORE)]
        cases.expect(f"round {round_}: the lines are entered", all(it.startswith("ok ") for it in replies), replies)
        synced = site.file.stat().st_size
        site.hold.touch()
        lines = [schedule(first + BEFORE + number, round_) for number in range(WAITING)]
        partner.sendall("".join(f"{line}\n" for line in lines).encode())
        is_written = until(lambda: site.file.stat().st_size > synced)
        cases.expect(f"round {round_}: an entry is written and not synced", is_written)
        # (time for the feed and the bridge, if they had it)
        time.sleep(0.5)
        board.process.kill()
        board.process.wait()
    site.hold.unlink()
    with open(site.file, "r+b") as it:
        it.truncate(synced)


def rows_of(server):
    """The entries of the table, by number."""
    rows = [it.partition("|") for it in server.rows("SELECT entry, line FROM entry ORDER BY entry")]
    return {int(number): json.loads(line) for number, _, line in rows}


def compare(cases, program, room, rounds):
    servers = importlib.import_module("servers")
    site, folder = Site(program, room), room / "server"
    folder.mkdir()
    room.chmod(0o755)
    server = servers.Postgresql(folder)
    server.start()
    bridge = subprocess.Popen([PYTHON, TOP / "bridges" / "to_postgresql.py", site.feed, server.dsn()], stderr=subprocess.DEVNULL)
    try:
        for round_ in range(rounds):
            cut_power(cases, site, round_)
        board = site.begin()
        with board.connect() as partner:
            cases.expect("the last line is entered", asked(partner, schedule(4_000, rounds)).startswith("ok "))
            count = rounds * BEFORE + 1
            cases.expect("the bridge has come to the end", until(lambda: len(rows_of(server)) >= count), len(rows_of(server)))
            told, rows = site.told(), rows_of(server)
            cases.expect("the journal has what was synced", len(told) == count, len(told))
            cases.expect("the table has each entry once", sorted(rows) == list(range(count)), sorted(rows)[-3:])
            other = [number for number, line in rows.items() if number < len(told) and line != told[number]]
            cases.expect("and as the journal has it", other == [], other)
        board.process.kill()
        board.process.wait()
    finally:
        bridge.kill()
        bridge.wait()
        server.stop()


def why_not():
    """What is not here."""
    if not list(pathlib.Path("/usr/lib/postgresql").glob("*/bin/initdb")):
        return "PostgreSQL"
    if not shutil.which("cc"):
        return "cc"
    has_library = subprocess.run([PYTHON, "-c", "import psycopg2"], capture_output=True, check=False).returncode == 0
    return "" if has_library else "python3-psycopg2"


def main():
    about = words(__doc__)
    about.add_argument("--rounds", type=int, default=6)
    asked_ = about.parse_args()
    cases = Cases()
    if lacking := why_not():
        print(f"left out: {lacking} is not here")
    else:
        with tempfile.TemporaryDirectory(dir="/tmp") as folder:
            compare(cases, asked_.program, pathlib.Path(folder), asked_.rounds)
    return cases.end()


if __name__ == "__main__":
    sys.exit(main())
