#!/usr/bin/env python3
"""Measures a second board that follows a first one, and takes over.

    python3 bench/serve/taking_over.py [--program PATH] [--entries N]

The first board goes on from a journal of N entries. A second one follows it from nothing: how long it takes until it has all, in
entries a second, and what it takes of a processor. Then the first is killed, the second promoted, and a partner connects and sends
a line: how long from `promote` to the reply. Last, how far behind a second board is while a partner is served: the milliseconds
from a reply until its entry stands in the second one's file, of 200 replies.
"""

import argparse
import os
import pathlib
import subprocess
import sys
import tempfile
import time

TOP = pathlib.Path(__file__).resolve().parents[2]
sys.path.insert(0, str(TOP / "bench" / "hostile"))

from cases import ALERTS, PLAN, SCHEDULE  # noqa: E402
from follow import TICK, First, Second  # noqa: E402

SHOW = '{"cmd":"show","flight":7}'
TICKS = os.sysconf("SC_CLK_TCK")


def journal(program, file, entries):
    """A journal of so many entries, of one flight, of which something is asked again and again."""
    begun = f"1 29000580 APT {SCHEDULE}\n2 29000580 NM {PLAN}\n"
    asked = f"1 29000580 APT {SHOW}\n1 29000580 APT {ALERTS}\n" * (entries // 2 - 1)
    made = [program, "run", "--keep", str(file), "--journal", str(entries)]
    subprocess.run(made, input=(begun + asked).encode(), stdout=subprocess.DEVNULL, check=True)


def taken(process):
    """The seconds of a processor that a process took."""
    fields = pathlib.Path(f"/proc/{process}/stat").read_text().rsplit(")", 1)[1].split()
    return (int(fields[11]) + int(fields[12])) / TICKS


def wait(second, entries):
    while second.entries() != entries:
        time.sleep(0.02)


def followed(program, room, entries):
    """How long it takes to follow all, and from `promote` to the first reply."""
    kept, copy = room / "first", room / "second"
    journal(program, kept, entries)
    first = First(program, kept, "--journal", str(entries + 1000))
    began = time.monotonic()
    second = Second(program, first.watch, copy, "--journal", str(entries + 1000))
    wait(second, entries)
    took = time.monotonic() - began
    print(f"{entries} entries followed from nothing in {took:.1f} s, {entries / took:.0f} a second, ", end="")
    print(f"{taken(second.ran.pid):.1f} s of a processor", flush=True)
    first.kill()
    time.sleep(2)
    began = time.monotonic()
    second.promote()
    reply = second.connect(1).asks(TICK)
    took = time.monotonic() - began
    if reply != f"ok {entries}":
        sys.exit(f"the second board answered {reply}")
    print(f"from promote to the first reply {took * 1000:.0f} ms", flush=True)
    second.close()


def behind(program, room):
    """How long behind a reply its entry stands in the file of the second board."""
    kept, copy = room / "third", room / "fourth"
    first = First(program, kept)
    second = Second(program, first.watch, copy)
    partner, late = first.connect(1), []
    for count in range(1, 201):
        partner.asks(TICK)
        began = time.monotonic()
        while copy.stat().st_size < kept.stat().st_size:
            time.sleep(0.0002)
        late.append((time.monotonic() - began) * 1000)
        time.sleep(0.003 * (count % 7))
    late.sort()
    print(f"an entry is there {late[100]:.1f} ms behind its reply, p99 {late[197]:.1f} ms, at most {late[-1]:.1f} ms")
    first.close()
    second.close()


def main():
    words = argparse.ArgumentParser(description="Measures a second board that follows a first one, and takes over.")
    words.add_argument("--program", default=str(TOP / "crates" / "acdm" / "out" / "acdm"), metavar="PATH")
    words.add_argument("--entries", type=int, default=900_000, metavar="N", help="even, from 2 to 998,000; 900000")
    asked = words.parse_args()
    with tempfile.TemporaryDirectory() as made:
        room = pathlib.Path(made)
        behind(asked.program, room)
        followed(asked.program, room, asked.entries)


if __name__ == "__main__":
    main()
