#!/usr/bin/env python3
"""Times the machine without tests against an interpreter in C and against the machine that tests each step.

    python3 bench/machine/speed.py [--runs N]

All three run the same programs on the same record, one after the other in turn, and print the same sum of r0. The time of a
process that runs the program no time is taken off. `machine.c` is built with the system's compiler at -O2, and speed.rt.txt is
proved and built by `rt run` in a small repository beside copies of the crates below it (`rt all check` first).
"""

import argparse
import random
import shutil
import subprocess
import sys
import tempfile
import time
from pathlib import Path

from compare import prepared

HERE = Path(__file__).resolve().parent


def slot(opcode, dst=0, src=0, offset=0, immediate=0):
    """A slot's hexadecimal digits."""
    number = opcode | (src << 4 | dst) << 8 | (offset & 0xFFFF) << 16 | (immediate & 0xFFFFFFFF) << 32
    return number.to_bytes(8, "little").hex()


EXIT = slot(0x95)


OPERATIONS = (0x07, 0x0F, 0x17, 0x1F, 0x27, 0x47, 0x57, 0x67, 0x77, 0xA7, 0xAF, 0xBF, 0x04, 0xA4)


def arithmetic(draws, in_turn):
    """4,096 slots of arithmetic on registers and immediates, the operations in turn or by chance."""
    slots = [slot(0xB7, r, immediate=draws.randrange(1 << 20)) for r in (0, 5, 6, 7, 8, 9)]
    while len(slots) < 4095:
        dst, src = draws.choice((0, 5, 6, 7, 8, 9)), draws.choice((0, 5, 6, 7, 8, 9))
        opcode = OPERATIONS[len(slots) % len(OPERATIONS)] if in_turn else draws.choice(OPERATIONS)
        is_register = opcode in (0x0F, 0x1F, 0xAF, 0xBF)
        immediate = draws.randrange(1, 32) if opcode in (0x67, 0x77) else draws.randrange(-1 << 31, 1 << 31)
        slots.append(slot(opcode, dst, src if is_register else 0, immediate=0 if is_register else immediate))
    return slots + [EXIT]


def mixed(draws):
    """4,096 slots of loads from the record, stores to the stack, loads from it and jumps over one slot."""
    slots = [slot(0xB7, 0), *(slot(0x7B, 10, 3, -8 * k) for k in range(1, 9))]
    while len(slots) < 4090:
        at = -8 * draws.randrange(1, 9)
        slots += [
            slot(draws.choice((0x61, 0x69, 0x71)), 6, 1, draws.randrange(124)),
            slot(0x0F, 0, 6),
            slot(0x7B, 10, 0, at),
            slot(0x79, 7, 10, -8 * draws.randrange(1, 9)),
            slot(draws.choice((0x25, 0x15, 0x45)), 7, 0, 1, draws.randrange(1 << 16)),
            slot(0xAF, 0, 7),
        ]
    return slots + [slot(0x05)] * (4095 - len(slots)) + [EXIT]


def seconds(command, given):
    """The time of one process, and what it printed."""
    begin = time.perf_counter()
    came = subprocess.run(command, input=given, capture_output=True, text=True, check=True)
    return time.perf_counter() - begin, came.stdout.strip()


def measured(peers, code, times, runs):
    """For each peer the nanoseconds of one run of the program, the least of some, and the sum that it printed."""
    least = {}
    for _ in range(runs):
        for name, (command, given) in peers.items():
            idle, _ = seconds(command, given(0, code))
            busy, total = seconds(command, given(times, code))
            spent, _ = least.get(name, (float("inf"), total))
            least[name] = (min(spent, (busy - idle) / times * 1e9), total)
    return least


def main():
    words = argparse.ArgumentParser(description="Times three machines.")
    words.add_argument("--runs", type=int, default=5, metavar="N")
    words.add_argument("--built", metavar="FILE", help="the program of speed.rt.txt, where it is built already")
    given = words.parse_args()
    draws = random.Random(11)
    programs = [
        ("exit", [slot(0xB7, 0), EXIT], 2_000_000),
        ("arithmetic in turn", arithmetic(draws, True), 20_000),
        ("arithmetic by chance", arithmetic(draws, False), 20_000),
        ("mixed", mixed(draws), 20_000),
    ]
    with tempfile.TemporaryDirectory() as name:
        folder = Path(name)
        if given.built:
            built = Path(given.built)
        else:
            crate = prepared(folder)
            shutil.copy(HERE / "speed.rt.txt", crate / "src" / "main.rt")
            (crate / "src" / "helpers.rt").unlink()
            subprocess.run(["rt", "run"], cwd=crate, stdin=subprocess.DEVNULL, stdout=subprocess.DEVNULL, check=True)
            built = crate / "out" / "machine_bench"
        subprocess.run(["cc", "-O2", "-o", folder / "machine", HERE / "machine.c"], check=True)
        peers = {
            "C": ([folder / "machine"], lambda times, code: f"{times}\n{code}\n"),
            "without tests": ([built], lambda times, code: f"untested {times}\n{code}\n"),
            "tested": ([built], lambda times, code: f"tested {times}\n{code}\n"),
        }
        for title, slots, times in programs:
            least = measured(peers, "".join(slots), times, given.runs)
            if len({total for _, total in least.values()}) != 1:
                sys.exit(f"{title}: the machines differ: {least}")
            figures = ", ".join(f"{name} {spent:,.1f} ns" for name, (spent, _) in least.items())
            ratio = least["without tests"][0] / max(least["C"][0], 1e-9)
            slower = least["tested"][0] / max(least["without tests"][0], 1e-9)
            print(f"{title}: {figures}; {ratio:.2f} times C, tested {slower:.1f} times that")


if __name__ == "__main__":
    main()
