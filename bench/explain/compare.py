#!/usr/bin/env python3
"""Compares what `acdm explain` says with the model's own states and reasons, on programs by chance.

  bench/explain/compare.py [--programs N] [--seed S] [PROGRAM]    with the proved program
  bench/explain/compare.py [--programs N] [--seed S] --write FOLDER
  bench/explain/compare.py [--programs N] [--seed S] --against FILE

The states are those of bench/model/programs.py, and the words are those of words.py, from docs/EXPLAIN.md. The second form
writes the programs, and the third compares with FILE, which is what `rt try --cases FOLDER -- explain {}` printed in the
folder of the crate `acdm`. Status 0 where all is alike.
"""
import argparse
import pathlib
import random
import subprocess
import sys
import tempfile
from collections import Counter

TOP = pathlib.Path(__file__).resolve().parents[2]
sys.path.insert(0, str(TOP / "bench" / "model"))

from random_programs import Programs  # noqa: E402
from words import explained  # noqa: E402


def mutated(code, chance):
    """A program, of four in ten with a byte that is another, or as text."""
    draw = chance.random()
    if draw < 0.3:
        changed = bytearray(code)
        changed[chance.choice((0, 1, 2, 4)) + 8 * chance.randrange(len(code) // 8)] = chance.randrange(256)
        return bytes(changed)
    if draw < 0.35:
        return code.hex().encode() + b"\n"
    return b"0x" + code.hex().encode() if draw < 0.37 else b'{"program":"%s"}' % code.hex().encode() if draw < 0.4 else code


def told(text):
    """What a program prints behind four spaces, and its last line."""
    lines = text.splitlines()
    return [line[4:] for line in lines if line.startswith("    ")] + lines[-1:]


def printed_each(program, codes):
    """What the program prints of each."""
    with tempfile.TemporaryDirectory() as room:
        file = pathlib.Path(room) / "rule.bin"
        for code in codes:
            file.write_bytes(code)
            yield subprocess.run([program, "explain", file], capture_output=True, text=True).stdout


def printed_before(file):
    """What `rt try` printed of each, in their order."""
    parts = pathlib.Path(file).read_text().split("== ")[1:]
    found = {int(part.split(".", 1)[0]): part.split("\n", 1)[1] for part in parts}
    return [found[place] for place in range(len(found))]


def compare(codes, texts):
    """Tells the first program of which something else is said."""
    lines, ends = 0, Counter()
    for code, text in zip(codes, texts, strict=True):
        owed, found = explained(code), told(text)
        if found != owed:
            print(code.hex(), "owed", *owed, "found", *found, sep="\n")
            return 1
        lines += len(owed)
        ends[owed[-1].rsplit(" ", 1)[0] if owed[-1].startswith("refused") else "accepted"] += 1
    print(f"{len(codes)} programs, {lines} lines alike:", *(f"{end} {count}," for end, count in sorted(ends.items())))
    return 0


def main():
    parser = argparse.ArgumentParser()
    parser.add_argument("program", nargs="?", default=TOP / "crates" / "acdm" / "out" / "acdm")
    parser.add_argument("--programs", type=int, default=1000)
    parser.add_argument("--seed", type=int, default=1)
    parser.add_argument("--write", type=pathlib.Path, metavar="FOLDER")
    parser.add_argument("--against", metavar="FILE")
    given = parser.parse_args()
    chance = random.Random(given.seed)
    draws = Programs(chance)
    codes = [mutated(draws.program(), chance) for _ in range(given.programs)]
    if given.write:
        given.write.mkdir(parents=True, exist_ok=True)
        for place, code in enumerate(codes):
            (given.write / f"{place}.bin").write_bytes(code)
        return 0
    return compare(codes, printed_before(given.against) if given.against else printed_each(given.program, codes))


if __name__ == "__main__":
    sys.exit(main())
