#!/usr/bin/env python3
"""Measures `verify` as the proved program has it against the same pass in C.

    python3 bench/verifier/shipped.py [--runs N] [--acdm PROGRAM]

`acdm run` is sent loads of programs of 4,096 slots whose last slot the verifier refuses, as the program goes on behind it; what as
many loads take whose last slot is no instruction, which are refused before the verifier begins, is taken off. verifier.c judges
the same programs as often. Instructions are counted by callgrind, which no other work on the machine changes, and told for each
slot: what twice as many loads take more. A time is the processor time of a run, the least of N, the two in turn. Needed are a C
compiler and valgrind.
"""

import argparse
import os
import re
import resource
import subprocess
import sys
import tempfile
from pathlib import Path

HERE = Path(__file__).resolve().parent
TOP = HERE.parents[1]
sys.path.insert(0, str(HERE.parent))

from ratios import UNSTRUNG, line
from speed_programs import PROGRAMS

TIMED, COUNTED = 400, 20
# (r0 becomes 0, and no instruction follows; no instruction has this opcode)
GOES_ON, NO_INSTRUCTION = "b700000000000000", "ff00000000000000"


def loads(digits, times):
    return line("APT", cmd="load", milestone=1, kind="alert", program=digits) * times


def spent(command, given):
    """The processor time of a run, and what it printed."""
    before = resource.getrusage(resource.RUSAGE_CHILDREN)
    came = subprocess.run(command, input=given, capture_output=True, check=True)
    after = resource.getrusage(resource.RUSAGE_CHILDREN)
    return after.ru_utime - before.ru_utime, came.stdout


def counted(command, given, folder):
    """The instructions of a run."""
    tool = ["valgrind", "--tool=callgrind", f"--callgrind-out-file={folder}/calls"]
    came = subprocess.run([*tool, *command], input=given, capture_output=True, check=True, env={**os.environ, **UNSTRUNG})
    return int(re.search(rb"Collected : (\d+)", came.stderr)[1])


def main():
    words = argparse.ArgumentParser(description="Measures verify as it is shipped.")
    words.add_argument("--runs", type=int, default=7, metavar="N")
    words.add_argument("--acdm", default=str(TOP / "crates" / "acdm" / "out" / "acdm"), metavar="PROGRAM")
    given = words.parse_args()
    with tempfile.TemporaryDirectory() as folder:
        built = f"{folder}/verifier"
        subprocess.run(["cc", "-O2", "-o", built, HERE / "verifier.c"], check=True)
        acdm = [given.acdm, "run"]
        for title, code, _ in PROGRAMS:
            kept = code.hex()[:-16]
            refused, undecoded = kept + GOES_ON, kept + NO_INSTRUCTION
            slots = len(refused) // 16
            said = spent(acdm, loads(refused, 1))[1]
            if said != b"bad 307 %d\n" % (slots - 1):
                sys.exit(f"{title}: {said[:200]}")
            texts = {
                "acdm": lambda times, of=refused: loads(of, times),
                "decoded": lambda times, of=undecoded: loads(of, times),
                "C": lambda times, of=refused: f"verify {times}\n{of}\n".encode(),
            }
            commands = {"acdm": acdm, "decoded": acdm, "C": [built]}
            least, number = {}, {}
            for _ in range(given.runs):
                for name, command in commands.items():
                    took = spent(command, texts[name](TIMED))[0] - spent(command, texts[name](1))[0]
                    least[name] = min(took / (TIMED - 1), least.get(name, took))
            for name, command in commands.items():
                more = counted(command, texts[name](2 * COUNTED), folder) - counted(command, texts[name](COUNTED), folder)
                number[name] = more / COUNTED / slots
            took, ours = (it["acdm"] - it["decoded"] for it in (least, number))
            print(
                f"{title}: acdm {took * 1e6:.0f} us, C {least['C'] * 1e6:.0f} us, {took / least['C']:.2f} times; "
                f"instructions a slot {ours:.0f}, {number['C']:.0f}, {ours / number['C']:.2f} times",
                flush=True,
            )


if __name__ == "__main__":
    main()
