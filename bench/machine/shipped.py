#!/usr/bin/env python3
"""Measures the machine as the proved program has it against a threaded interpreter in C.

    python3 bench/machine/shipped.py [--runs N] [--acdm PROGRAM]

`acdm run` is sent a rule and then a flight plan of each of some flights, on which the rule runs; what the same lines take with a
rule of two slots is taken off. machine.c runs the same program on such a record as often. A time is the processor time of a run,
the least of N, the two in turn. Instructions are counted by callgrind, which no other work on the machine changes, and told for
each slot of the program: what twice as many runs take more, so that the reading of the rule is no part of them. Needed are a C
compiler and valgrind.
"""

import argparse
import random
import re
import resource
import subprocess
import sys
import tempfile
from pathlib import Path

HERE = Path(__file__).resolve().parent
TOP = HERE.parents[1]
sys.path.insert(0, str(HERE.parent))

from ratios import UNSTRUNG, line, plans
from speed import EXIT, arithmetic, mixed, slot

NOTHING = [slot(0xB7, 0), EXIT]
# Each instruction leads on by a jump of its own only without these.
FLAGS = ["-O2", "-fno-gcse", "-fno-crossjumping"]
TIMED, COUNTED = 4_000, 200


def calls(draws):
    """1,365 calls of helper 3, each with two arguments."""
    one = lambda: [slot(0xB7, 1, immediate=draws.randrange(1 << 20)), slot(0xB7, 2, immediate=draws.randrange(10_000)), slot(0x85, immediate=3)]
    return [it for _ in range(1_364) for it in one()]


def lines_of(slots, times):
    load = line("APT", cmd="load", milestone=1, kind="alert", program="".join(slots))
    return b"".join([load, *plans(times)])


def spent(command, given):
    """The processor time of a run, and what it printed."""
    before = resource.getrusage(resource.RUSAGE_CHILDREN)
    came = subprocess.run(command, input=given, capture_output=True, check=True)
    after = resource.getrusage(resource.RUSAGE_CHILDREN)
    return after.ru_utime - before.ru_utime, came.stdout


def counted(command, given, folder):
    """The instructions of a run."""
    tool = ["valgrind", "--tool=callgrind", f"--callgrind-out-file={folder}/calls"]
    came = subprocess.run([*tool, *command], input=given, capture_output=True, check=True, env=UNSTRUNG)
    return int(re.search(rb"Collected : (\d+)", came.stderr)[1])


def main():
    words = argparse.ArgumentParser(description="Measures the machine as it is shipped.")
    words.add_argument("--runs", type=int, default=7, metavar="N")
    words.add_argument("--acdm", default=str(TOP / "crates" / "acdm" / "out" / "acdm"), metavar="PROGRAM")
    given = words.parse_args()
    draws = random.Random(11)
    programs = {"arithmetic in turn": arithmetic(draws, True), "arithmetic by chance": arithmetic(draws, False), "mixed": mixed(draws), "calls": calls(draws)}
    with tempfile.TemporaryDirectory() as folder:
        built = f"{folder}/machine"
        subprocess.run(["cc", *FLAGS, "-o", built, HERE / "machine.c"], check=True)
        peers = {
            "acdm": ([given.acdm, "run"], lines_of),
            "C": ([built], lambda slots, times: f"{times}\n{''.join(slots)}\n".encode()),
        }
        for title, slots in programs.items():
            # (a rule of alerts ends with 0, or it raises one)
            slots = slots[:4094] + NOTHING
            least, number = {}, {}
            for _ in range(given.runs):
                for name, (command, text) in peers.items():
                    for of in (slots, NOTHING):
                        took, said = spent(command, text(of, TIMED))
                        if name == "acdm" and said.count(b"ok") != TIMED + 1:
                            sys.exit(f"{title}: {said[:200]}")
                        at = name, len(of)
                        least[at] = min(took, least.get(at, took))
            for name, (command, text) in peers.items():
                more = [counted(command, text(of, 2 * COUNTED), folder) - counted(command, text(of, COUNTED), folder) for of in (slots, NOTHING)]
                number[name] = (more[0] - more[1]) / COUNTED / len(slots)
            took = {name: (least[name, len(slots)] - least[name, 2]) / TIMED for name in peers}
            print(
                f"{title}: acdm {took['acdm'] * 1e6:.1f} us, C {took['C'] * 1e6:.1f} us, {took['acdm'] / took['C']:.2f} times; "
                f"instructions a slot {number['acdm']:.1f}, {number['C']:.1f}, {number['acdm'] / number['C']:.2f} times",
                flush=True,
            )


if __name__ == "__main__":
    main()
