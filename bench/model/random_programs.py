#!/usr/bin/env python3
"""Writes BPF programs by chance, with the verdict that the model in programs.py gives them.

    python3 bench/model/random_programs.py [--programs N] [--seed S] FOLDER > verdicts
    python3 bench/model/random_programs.py [--programs N] [--seed S] --against FILE FOLDER

Program K, from 0, is the file FOLDER/K.bin. Printed is the last line that `acdm verify` owes to each of them. More than a
quarter are accepted. The same words give the same programs. The second form compares with FILE, which is what
`rt try --cases FOLDER -- verify {}` printed in the folder of the crate `acdm`.
"""

import argparse
import random
import struct
import sys
from pathlib import Path

from programs import Fault, accepted

EXIT = (0x95, 0, 0, 0, 0)
ARITHMETIC = (0x0, 0x1, 0x2, 0x3, 0x4, 0x5, 0x6, 0x7, 0x9, 0xA, 0xB, 0xC)
JUMPS = (0x1, 0x2, 0x3, 0x4, 0x5, 0x6, 0x7, 0xA, 0xB, 0xC, 0xD)
NUMBERS = (-(2**31), -8, -1, 0, 1, 3, 7, 60, 64, 120, 127, 128, 511, 999, 2**31 - 1)


def encoded(instructions):
    """The bytes of instructions: opcode, destination, source, offset and immediate of each."""
    return b"".join(
        struct.pack("<BBhi", opcode, source << 4 | destination, offset, immediate)
        for opcode, destination, source, offset, immediate in instructions
    )


class Programs:
    """Draws one instruction after the other, mostly of registers that were written."""

    def __init__(self, chance):
        self.chance = chance

    def program(self):
        """The bytes of one program."""
        self.written = [1, 2, 3, 4, 10]
        instructions = []
        if self.chance.random() < 0.9:
            instructions.append((0xB7, 0, 0, 0, self.number()))
            self.written.append(0)
        draws = (self.arithmetic, self.jump, self.load, self.stack, self.index, self.call, self.spill, self.rest)
        weights = (8, 6, 4, 3, 3, 2, 4, 2)
        for _ in range(self.chance.randint(1, 12)):
            instructions += self.chance.choices(draws, weights)[0]()
        code = bytearray(encoded(instructions + [EXIT]))
        if self.chance.random() < 0.08:
            code[self.chance.randrange(len(code))] ^= 1 << self.chance.randrange(8)
        return bytes(code)

    def number(self):
        return self.chance.choice(NUMBERS)

    def some(self):
        """A register that was written, mostly."""
        return self.chance.choice(self.written) if self.chance.random() < 0.985 else self.chance.randrange(11)

    def goal(self):
        """A register to be written."""
        goal = self.chance.choice((0, 0, 5, 6, 7, 8, 9, 3, 2))
        if self.chance.random() < 0.01:
            goal = self.chance.randrange(11)
        self.written.append(goal)
        return goal

    def arithmetic(self):
        code, family = self.chance.choice(ARITHMETIC), self.chance.choice((4, 7, 7))
        signs = self.chance.choice((0, 0, 0, 1)) if code in (3, 9) else 0
        first = []
        if code == 0xB:
            goal = self.goal()
        else:
            source, goal = self.some(), self.goal()
            first = [(0xBF, goal, source, 0, 0)] if source != goal else []
        if self.chance.random() < 0.5:
            return first + [(code * 16 + family, goal, 0, signs, self.number())]
        offset = self.chance.choice((0, 0, 8, 16)) if code == 0xB else signs
        return first + [(code * 16 + 8 + family, goal, self.some(), offset, 0)]

    def jump(self):
        code, family = self.chance.choice(JUMPS) * 16, self.chance.choice((5, 5, 6))
        over = self.chance.choice((0, 1, 1, 2, 2, 3, 5)) if self.chance.random() < 0.99 else -2
        if self.chance.random() < 0.6:
            return [(code + family, self.some(), 0, over, self.number())]
        return [(code + 8 + family, self.some(), self.some(), over, 0)]

    def load(self):
        opcode = self.chance.choice((0x61, 0x69, 0x71, 0x79, 0x81, 0x89, 0x91))
        base = 1 if self.chance.random() < 0.97 else self.some()
        place = self.chance.randrange(121) if self.chance.random() < 0.95 else self.chance.randint(-2, 130)
        return [(opcode, self.goal(), base, place, 0)]

    def stack(self):
        place = -self.chance.randint(1, 24)
        store = self.chance.choice(((0x62, 0), (0x6A, 0), (0x72, 0), (0x7A, 0), (0x7B, 1), (0x63, 1)))
        place -= 8 if self.chance.random() < 0.9 else 0
        value = self.some() if store[1] else 0
        stored = (store[0], 10, value, place, 0 if store[1] else self.number())
        if self.chance.random() < 0.4:
            return [stored]
        return [stored, (self.chance.choice((0x61, 0x69, 0x71, 0x71, 0x79)), self.goal(), 10, place, 0)]

    def index(self):
        """A read at an index that was bounded, or nearly."""
        index = self.chance.choice((6, 7, 8))
        self.written += [index, 0]
        bound = self.chance.choice((60, 63, 100, 119, 120, 127, 128))
        bounded = [(0x57, index, 0, 0, bound)] if self.chance.random() < 0.5 else [(0x25, index, 0, 2, bound)]
        opcode, size = self.chance.choice(((0x61, 4), (0x71, 1), (0x79, 8)))
        offset = 0 if self.chance.random() < 0.4 else max(0, 128 - size - bound)
        return [(0x71, index, 1, 63, 0), *bounded, (0x0F, index, 1, 0, 0), (opcode, 0, index, offset, 0)]

    def call(self):
        number = self.chance.choice((1, 2, 2, 3)) if self.chance.random() < 0.98 else 4
        self.written = [0, 6, 10] if 6 in self.written else [0, 10]
        arguments = [(0xBF, 6, 1, 0, 0), (0x69, 1, 6, 60, 0)]
        self.written.append(6)
        if number == 2:
            arguments.append((0x57, 1, 0, 0, self.chance.choice((127, 511, 511, 1023))))
        if number == 3:
            arguments.append((0xB7, 2, 0, 0, self.chance.choice((5, 10_000, 10_001, -1))))
        return arguments + [(0x85, 0, 0, 0, number), (0xBF, 1, 6, 0, 0)]

    def spill(self):
        """A value that goes to the stack and comes back, mostly whole, and is used as what it was."""
        place = -8 * self.chance.randint(1, 4)
        if self.chance.random() < 0.3:
            # A pointer across a call.
            self.written = [0, 1, 5, 10] + [number for number in self.written if number > 5 and number != 10]
            called = [(0x61, 1, 1, 16, 0), (0x85, 0, 0, 0, 1), *self.disturbance(place)]
            return [(0x7B, 10, 1, place, 0), *called, (0x79, 1, 10, place, 0), (0x71, 5, 1, 63, 0)]
        index, bound = self.chance.choice((7, 8)), self.chance.choice((60, 63, 120, 127))
        kept = [(0x71, index, 1, 63, 0), (0x57, index, 0, 0, bound), (0x7B, 10, index, place, 0)]
        if self.chance.random() < 0.2:
            kept = [(0x7A, 10, 0, place, self.number())]
        back = (0x79 if self.chance.random() < 0.95 else 0x61, index, 10, place, 0)
        self.written += [index, 0]
        return [*kept, *self.disturbance(place), back, (0x0F, index, 1, 0, 0), (0x71, 0, index, 0, 0)]

    def disturbance(self, place):
        """What may stand between: mostly nothing that touches the word."""
        return self.chance.choice(
            (
                [],
                [],
                [(self.chance.choice((0x72, 0x6A, 0x62, 0x7A)), 10, 0, place + self.chance.randint(-9, 9), self.number())],
                [(0x65, 10, 0, 1, 0), (0x7A, 10, 0, place, self.number())],
                [(0x45, 10, 0, 1, 1), (0x7A, 10, 0, place, self.chance.choice((0, 1, 64)))],
            )
        )

    def rest(self):
        goal, width = self.goal(), self.chance.choice((16, 32, 64))
        return self.chance.choice(
            (
                [(0x18, goal, 0, 0, self.number()), (0, 0, 0, 0, self.number())],
                [(0xB7, goal, 0, 0, self.number()), (0x87, goal, 0, 0, 0)],
                [(0x71, goal, 1, 63, 0), (self.chance.choice((0xD4, 0xDC, 0xD7)), goal, 0, 0, width)],
                [(0x05, 0, 0, self.chance.choice((0, 1, 2)), 0)],
                [(0x06, 0, 0, 0, self.chance.choice((0, 1, 2)))],
                [(0xB7, 0, 0, 0, 0), EXIT],
            )
        )


def verdict(code):
    """The last line that `acdm verify` owes to bytes."""
    try:
        return f"accepted {len(accepted(code))}"
    except Fault as fault:
        return f"refused {fault.code} {fault.slot}"


def told(lines):
    """The verdict that `rt try` printed of each program, by the program's number."""
    verdicts, place = {}, None
    for line in lines:
        if line.startswith("== "):
            place = int(line.split()[1].removesuffix(".bin"))
        elif line.startswith(("accepted ", "refused ")):
            verdicts[place] = line.rstrip("\n")
    return verdicts


def compare(expected, found):
    """Tells each program whose verdicts differ, and how many do."""
    differing = [place for place, line in enumerate(expected) if found.get(place) != line]
    for place in differing:
        print(f"{place}: expected {expected[place]!r}, found {found.get(place)!r}")
    print(f"{len(expected)} programs, {len(differing)} with another verdict")
    return 1 if differing else 0


def main():
    words = argparse.ArgumentParser(description="Writes programs by chance, and prints their verdicts.")
    words.add_argument("--programs", type=int, default=1000, metavar="N")
    words.add_argument("--seed", type=int, default=1, metavar="S")
    words.add_argument("--against", type=Path, metavar="FILE", help="what `rt try` printed, to compare with")
    words.add_argument("folder", type=Path)
    given = words.parse_args()
    given.folder.mkdir(parents=True, exist_ok=True)
    draws = Programs(random.Random(given.seed))
    codes = [draws.program() for _ in range(given.programs)]
    for place, code in enumerate(codes):
        (given.folder / f"{place}.bin").write_bytes(code)
    verdicts = [verdict(code) for code in codes]
    if given.against:
        with given.against.open() as printed:
            return compare(verdicts, told(printed))
    print(*verdicts, sep="\n")
    return 0


if __name__ == "__main__":
    sys.exit(main())
