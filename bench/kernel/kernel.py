#!/usr/bin/env python3
"""Asks the Linux kernel for a second opinion on programs: what they come to, and whether it takes for safe what is accepted here.

    python3 bench/kernel/kernel.py [--long] [--seed S]

Each form of instruction, over numbers at the limits of words, and programs by chance that the verifier accepts are loaded by bpf(2), as
root (kernel.c; nothing is attached), and run there. What comes of each is held against both machines of this project (main.rt.txt, built
by `rt try` without a proof). Programs that are accepted here and refused there are sorted by what the kernel says: where that is no
reason of its own it counts as a failure, and they are run by both machines as the model says. That no other program is accepted here is
seen by those that the model refuses. Where the kernel gives no BPF that is said, and the status is 0. With --long there are eight
times as many numbers and twenty times as many programs. The last line is `N cases, M failed`; the status is 1 where one failed.
"""

import argparse
import collections
import pathlib
import random
import re
import shutil
import subprocess
import sys
import tempfile

HERE = pathlib.Path(__file__).resolve().parent
TOP = HERE.parents[1]
for folder in ("model", "machine", "forms"):
    sys.path.insert(0, str(TOP / "bench" / folder))

import forms as f  # noqa: E402
from compare import prepared  # noqa: E402
from programs import (
    ARITHMETIC,
    CONDITIONS,
    FULL,
    HELPERS,
    Fault,
    accepted,
    edges,
    first_state,
    result_range,
    run,
    source_range,
    target,
)  # noqa: E402
from random_programs import Programs  # noqa: E402

# Limits of words, of their signs and of shifts, and numbers whose bytes differ.
NUMBERS = (
    0, 1, 2, 3, 7, 8, 15, 16, 31, 32, 33, 63, 64, 65, 127, 128, 255, 256, 2**15 - 1, 2**15, 2**16 - 1, 2**16, 2**31 - 1, 2**31, 2**31 + 1,
    2**32 - 1, 2**32, 2**32 + 1, 2**63 - 1, 2**63, 2**63 + 1, 2**64 - 2**31, 2**64 - 2**31 - 1, 2**64 - 2**32, 2**64 - 8, 2**64 - 2,
    2**64 - 1, 0x123456789ABCDEF0, 0xFEDCBA9876543210, 0x8000000080000000, 0x7FFFFFFF7FFFFFFF,
)  # fmt: skip
IMMEDIATES = (
    -(2**31),
    -(2**31) + 1,
    -128,
    -8,
    -1,
    0,
    1,
    2,
    3,
    7,
    8,
    16,
    31,
    32,
    33,
    63,
    127,
    128,
    255,
    65535,
    2**31 - 2,
    2**31 - 1,
)
REGISTERS = (6, 0, 2, 3, 4, 5, 7, 8, 9)

# What the kernel says where it refuses for a reason of its own.
OWN_REASONS = {
    "addresses are no numbers": r"leaks addr|pointer comparison prohibited|partial copy of pointer|pointer arithmetic|pointer operation|"
    r"bitwise operator|subtraction|prohibited|tried to (subtract|add)|attempt to corrupt|"
    r"makes .* pointer be out of bounds|pointer offset \S+ is not allowed|math between \w+ pointer|part of pointer|invalid size of register (spill|fill)|"
    r"invalid mem access 'scalar'",
    "the stack is aligned": r"misaligned stack access",
    "no edge leads there": r"unreachable insn",
    "a division or a shift by this number": r"division by zero|div by zero|invalid shift",
}


class Numbers(Programs):
    """Draws programs that do arithmetic on numbers alone, and use addresses to load and store."""

    def __init__(self, chance):
        super().__init__(chance)
        self.addresses = set()

    def program(self):
        self.addresses = {1, 10}
        return super().program()

    def some(self):
        return self.chance.choice([it for it in self.written if it not in self.addresses] or [3])

    def goal(self):
        goal = super().goal()
        self.addresses.discard(goal)
        return goal

    def stack(self):
        made = super().stack()
        # (the kernel's stack is aligned)
        most = max({0x00: 4, 0x08: 2, 0x10: 1, 0x18: 8}[it[0] & 0x18] for it in made)
        return [(code, goal, source, place - place % most, imm) for code, goal, source, place, imm in made]

    def index(self):
        first, (opcode, index, source, over, bound), *others = super().index()
        self.addresses.add(index)
        if opcode == 0x25 and self.chance.random() < 0.5:
            # (not above, said by not at least)
            opcode, bound = 0x35, bound + 1
        return [first, (opcode, index, source, over, bound), *others]

    def call(self):
        made = super().call()
        self.addresses.add(6)
        return made

    def spill(self):
        made = super().spill()
        self.addresses |= {it[1] for it in made if it[0] == 0x0F}
        return made


class Draws:
    """The forms with their numbers, and programs by chance; the same for the same words."""

    def __init__(self, seed, is_long):
        self.chance, self.is_long = random.Random(seed), is_long
        self.refused = []

    def some(self, numbers, share):
        """All of them, or that share by chance."""
        return [it for it in numbers if self.is_long or self.chance.random() < share]

    def registers(self):
        return self.chance.sample(REGISTERS, 2)

    def operations(self):
        """Each operation of a register and a register or an immediate: the program, and the pairs of numbers that it is run on."""
        for width in (64, 32):
            for name in f.ALU:
                one, other = self.registers()
                yield self.of_numbers(one, other, f.alu(name, width, one, src=other)), self.pairs()
                for imm in IMMEDIATES:
                    yield self.of_numbers(one, other, f.alu(name, width, one, imm=imm)), self.singles()
            one, other = self.registers()
            yield self.of_numbers(one, other, f.neg(width, one)), self.singles(1)
            for part in (8, 16, 32):
                if part < width:
                    yield self.of_numbers(one, other, f.movsx(part, width, one, one)), self.singles(1)
            for name in f.JUMPS:
                one, other = self.registers()
                yield self.of_jump(one, other, f.jump(name, width, one, 1, src=other)), self.pairs()
                for imm in IMMEDIATES:
                    yield self.of_jump(one, other, f.jump(name, width, one, 1, imm=imm)), self.singles()
        for order in f.ENDS:
            for bits in (16, 32, 64):
                one, other = self.registers()
                yield self.of_numbers(one, other, f.end(order, bits, one)), self.singles(1)

    def pairs(self):
        return self.some([(a, b) for a in NUMBERS for b in NUMBERS], 0.12)

    def singles(self, share=0.25):
        return self.some([(a, 0) for a in NUMBERS], share)

    def of_numbers(self, one, other, slot):
        """r0 is what an instruction makes of two numbers of the record."""
        read = f.slot(0x79, other, 1, 8) + f.slot(0x79, one, 1, 0)
        return read + slot + (b"" if one == 0 else f.alu("mov", 64, 0, src=one)) + f.exit_()

    def of_jump(self, one, other, slot):
        """r0 is whether a jump is taken: its register may be r0, so the answer is set behind it."""
        read = f.slot(0x79, other, 1, 8) + f.slot(0x79, one, 1, 0)
        no = f.alu("mov", 64, 0, imm=0) + f.exit_()
        slot = slot[:2] + (2).to_bytes(2, "little") + slot[4:]
        return read + slot + no + f.alu("mov", 64, 0, imm=1) + f.exit_()

    def memory(self):
        """Each load from the record and the stack, each store, and wide loads and jumps."""
        for opcode, count in {**f.LOADS, **f.SIGNED_LOADS}.values():
            for place in (0, 1, 3, 8, 15, 64, 128 - count):
                yield f.slot(opcode, 0, 1, place) + f.exit_(), None
            yield f.slot(0x79, 6, 1, 0) + f.slot(0x7B, 10, 6, -8) + f.slot(opcode, 0, 10, -8) + f.exit_(), self.singles(
                1
            )
        for opcode, count in f.STORES.values():
            for imm in IMMEDIATES:
                yield f.st("stdw", 10, -8, -1) + f.slot(opcode, 10, 0, -8, imm) + f.slot(
                    0x79, 0, 10, -8
                ) + f.exit_(), None
            yield f.slot(opcode, 10, 0, -512, 7) + f.slot(0x71, 0, 10, -512) + f.exit_(), None
        for opcode, count in f.STORES_X.values():
            for place in (-8, -512, -count):
                if place % count == 0:
                    head = f.st("stdw", 10, -8, -1) + f.st("stdw", 10, -512, -1) + f.slot(0x79, 6, 1, 0)
                    read = next(code for code, size in f.LOADS.values() if size == count)
                    yield head + f.slot(opcode, 10, 6, place) + f.slot(read, 0, 10, place) + f.exit_(), self.singles(1)
        for number in NUMBERS:
            yield f.lddw(0, number) + f.exit_(), None
        for jump in (f.ja(1), f.ja32(1)):
            yield f.alu("mov", 64, 0, imm=1) + f.jump("jeq", 64, 0, 2, imm=2) + jump + f.exit_() + f.alu(
                "add", 64, 0, imm=1
            ) + f.exit_(), None
        for helper, numbers in (
            (1, (808596289, 942880578, 943207233, 0, 2**32 - 1)),
            (2, (0, 12, 99, 100, 120, 499, 500, 900, 999)),
        ):
            for number in numbers:
                yield f.lddw(1, number) + f.call(helper) + f.exit_(), None
        for one, other in ((0, 0), (2**32 - 1, 10_000), (29_000_700, 60)):
            yield f.lddw(1, one) + f.lddw(2, other) + f.call(3) + f.exit_(), None

    def of_forms(self):
        """Each program with its runs: a record's bytes, r3 and r4."""
        for program, pairs in [*self.operations(), *self.memory()]:
            given = self.chance.randbytes(128)
            records = (
                [given] if pairs is None else [a.to_bytes(8, "little") + b.to_bytes(8, "little") for a, b in pairs]
            )
            if records:
                yield program, [(record, 7, 1) for record in records]

    def by_chance(self):
        """Programs that are accepted, each with a few runs; those drawn between that are not are kept with their faults."""
        draws, left = (Numbers(self.chance), Programs(self.chance)), 100_000 if self.is_long else 5000
        while left:
            # (one of eight does what it likes with addresses)
            program = draws[left % 8 == 0].program()
            try:
                accepted(program)
            except Fault as fault:
                self.refused.append((program, fault))
                continue
            left -= 1
            records = [self.chance.randbytes(128) for _ in range(2)]
            yield program, [
                (it, self.chance.choice((1, 29_000_700, 2**32 - 1)), self.chance.randint(1, 16)) for it in records
            ]


def answers(kernel, asked):
    """What the kernel says of each program."""
    given = "".join(
        f"{program.hex()} {' '.join(f'{record.hex()}:{now:x}:{milestone:x}' for record, now, milestone in runs)}\n"
        for program, runs in asked
    )
    said = subprocess.run(
        [kernel], input=given, capture_output=True, text=True, timeout=3000, check=True
    ).stdout.splitlines()
    return said[0], said[1:]


# `rt try` takes 64 MiB of input.
MOST_INPUT = 60_000_000


def portions(lines):
    """The lines in rows of neighbours, none of which is too long for a run."""
    found, size = [[]], 0
    for line in lines:
        size += len(line) + 1
        if size > MOST_INPUT:
            found, size = [*found, []], len(line) + 1
        found[-1].append(line)
    return found


def of_machines(lines):
    """What both machines say of lines: each of which something else came, with what came."""
    differing = []
    with tempfile.TemporaryDirectory() as name:
        crate = prepared(pathlib.Path(name), is_checked=False)
        shutil.copy(HERE / "main.rt.txt", crate / "src" / "main.rt")
        for portion in portions(lines):
            given = "".join(f"{line}\n" for line in portion)
            came = subprocess.run(
                ["rt", "try", "--seconds", "3000"], cwd=crate, input=given, capture_output=True, text=True, check=False
            )
            *said, last = came.stdout.splitlines() or [""]
            if last != f"compared {len(portion)}":
                return [f"the machines did not come to the end: {came.stderr[-1000:]}"]
            differing += [f"{it.split(' ', 2)[2]}: {portion[int(it.split()[1])]}" for it in said]
    return differing


def reason(text):
    """Why the kernel refuses a program, if that is its own affair."""
    return next((name for name, pattern in OWN_REASONS.items() if re.search(pattern, text)), None)


def states_of(program):
    """What is known before each slot, by the model; none where no way leads."""
    states = [first_state(128)] + [None] * (len(program) - 1)
    for slot, insn in enumerate(program):
        for goal, after in edges(insn, slot, states[slot], HELPERS) if insn and states[slot] else ():
            states[goal] = after if states[goal] is None else states[goal].join(after)
    return states


def bounds(low, high):
    """Jumps of one register and an immediate that are taken where it is not in a range, as far as immediates go.

    Where it has 32 bits it is moved to itself as such, which changes no number in the range.
    """
    if low == high and (high < 2**31 or high >= 2**64 - 2**31):
        return [(0x55, high)]
    found = (
        [(0x25, high)]
        if high < 2**31
        else [(0xBC, None)]
        if high < 2**32
        else [(0xC5, 0)]
        if high < 2**63
        else []
    )
    return found + ([(0xA5, min(low, 2**31 - 1))] if low > 0 else [])


def with_bounds(code):
    """The program with comparisons behind each operation, which answer otherwise where its result is not in the range known here.

    The kernel takes quotients, remainders, reversed bytes and shifts by more than the width for unknown, and then goes ways that no run
    goes. Told these bounds, it has to take the program; and each run tries them.
    """
    program = accepted(code)
    parts = []
    for slot, (insn, state) in enumerate(zip(program, states_of(program))):
        parts.append([code[8 * slot : 8 * slot + 8]])
        # (those three may make addresses, and the kernel knows their bounds itself)
        if insn and state and insn.kind in ARITHMETIC - {"mov", "add", "sub"}:
            low, high = result_range(insn, state.registers[insn.dst] or FULL, source_range(insn, state))
            parts[-1] += [(opcode, insn.dst, bound) for opcode, bound in bounds(low, high)]
    at = [sum(len(it) for it in parts[:slot]) for slot in range(len(parts) + 1)]
    made = []
    for slot, (insn, part) in enumerate(zip(program, parts)):
        if insn and (insn.kind in CONDITIONS or insn.kind in ("ja", "ja32")):
            over = at[target(insn, slot)] - at[slot] - 1
            offset, imm = (0, over) if insn.kind == "ja32" else (over, insn.imm)
            part[0] = f.slot(part[0][0], insn.dst, insn.src, offset, imm)
        made.append(part[0])
        for opcode, register, bound in part[1:]:
            over = at[-1] - len(made) - 1
            made.append(
                f.slot(opcode, register, 0, over, bound) if bound is not None else f.slot(opcode, register, register)
            )
    is_bounded = any(opcode != 0xBC for part in parts for opcode, _, _ in part[1:])
    return b"".join(made) + (f.alu("mov", 64, 0, imm=-559038737) + f.exit_() if is_bounded else b"")


def compared(kernel, asked, is_chance, told):
    """The lines for the machines, and the programs that are accepted here alone for no reason of the kernel's own."""
    first, said = answers(kernel, asked)
    assert first == "ready" and len(said) == len(asked), (first, len(said), len(asked))
    again = [place for place, text in enumerate(said) if text.startswith("refused") and reason(text) is None]
    for place, text in zip(
        again, answers(kernel, [(with_bounds(asked[place][0]), asked[place][1]) for place in again])[1]
    ):
        told["taken once the kernel is told the bounds of quotients and shifts"] += text.startswith("r0")
        said[place] = text if text.startswith("r0") else said[place] + ", and then " + text
    lines, wrong = [], []
    for (program, runs), text in zip(asked, said):
        kind, *rest = text.split(" ")
        if kind == "refused":
            why = reason(text)
            told[f"refused there, {why}" if why else "unsafe, as the kernel says"] += 1
            if why is None:
                wrong.append(f"{program.hex()}: {text}")
            # (such a program has to end too, as the model says)
            rest = [
                f"{run(accepted(program), record.ljust(128, bytes(1)), now, milestone).r0:x}"
                for record, now, milestone in runs
            ]
        else:
            told["taken by both, by chance" if is_chance else "taken by both, of a form"] += 1
        for (record, now, milestone), number in zip(runs, rest):
            if number.startswith("failed"):
                wrong.append(f"{program.hex()}: {number}")
                continue
            head = (
                now.to_bytes(4, "big") + bytes([milestone]) + int(number, 16).to_bytes(8, "big") + bytes([len(record)])
            )
            lines.append((head + record + program).hex())
    return lines, wrong


def reason_against(kernel):
    """Builds what asks the kernel, and answers why it can't be asked here, or nothing."""
    if not shutil.which("cc"):
        return "there is no cc"
    built = subprocess.run(["cc", "-O1", "-o", kernel, HERE / "kernel.c"], capture_output=True, text=True, check=False)
    if built.returncode:
        return f"kernel.c is not built: {built.stderr.splitlines()[0]}"
    said = answers(kernel, [])[0]
    return "" if said == "ready" else f"the system gives no BPF: {said.removeprefix('none ')}"


def main():
    words = argparse.ArgumentParser(description="Asks the Linux kernel for a second opinion on programs.")
    words.add_argument("--long", action="store_true")
    words.add_argument("--seed", type=int, default=1, metavar="S")
    asked = words.parse_args()
    draws, told = Draws(asked.seed, asked.long), collections.Counter()
    with tempfile.TemporaryDirectory(prefix="acdm-kernel-") as room:
        kernel = pathlib.Path(room) / "kernel"
        why = reason_against(kernel)
        if why:
            print(f"left out: {why}")
            return 0
        lines, wrong = compared(kernel, list(draws.of_forms()), False, told)
        count = len(lines)
        more, also = compared(kernel, list(draws.by_chance()), True, told)
    verdicts = [
        (bytes(5) + (fault.code << 16 | fault.slot).to_bytes(8, "big") + bytes(1) + program).hex() for program, fault in draws.refused
    ]  # fmt: skip
    differing = of_machines(lines + more + verdicts)
    for it in differing[:20]:
        print(f"FAILED the machines come to {it}")
    for it in (wrong + also)[:20]:
        print(f"FAILED refused by the kernel alone: {it}")
    print(f"{count} answers of forms, {len(more)} of programs by chance, {len(verdicts)} refused programs")
    for name, number in told.most_common():
        print(f"{number} programs: {name}")
    failed = len(differing) + len(wrong) + len(also)
    print(f"{len(lines) + len(more) + len(verdicts) + sum(told.values())} cases, {failed} failed")
    return 1 if failed else 0


if __name__ == "__main__":
    sys.exit(main())
