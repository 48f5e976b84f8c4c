#!/usr/bin/env python3
"""Changes the shipped rules by chance, and compares decoding, verifier and both machines with the model in bench/model.

    python3 bench/hostile/programs.py [--programs N] [--seed S] [--list]

Each program is a shipped rule with some bits, fields, slots or lengths changed, or slots of another rule or by chance put in. It is
decoded and encoded again, judged, and, where it is accepted, run by both machines on one record; all has to be as the model says,
with code and slot, r0, steps and the helpers' answers. What runs it is programs.rt.txt, built by `rt try` with the checks of a build
that is not proved, in a repository of its own beside copies of the crates below it. Then it says what was met: each form of
instruction, decoded, accepted and run, each fault, and each way of each jump; with --list what was not. The last line is
`N cases, M failed`; status 1 where one failed. The same words make the same programs.
"""

import argparse
import collections
import multiprocessing
import random
import shutil
import subprocess
import sys
import tempfile
from pathlib import Path

HERE = Path(__file__).resolve().parent
TOP = HERE.parents[1]
for name in ("model", "machine", "forms"):
    sys.path.insert(0, str(TOP / "bench" / name))

import forms  # noqa: E402
import programs as model  # noqa: E402
from compare import prepared  # noqa: E402
from random_programs import Programs  # noqa: E402

PLANNED = bytes.fromhex(
    "0700000000000000444c4837000000004133323041333230444149424300000044414942430000004544444d4544444d030000000000000028000a000c0001053884ba013884ba01"
).ljust(128, b"\0")
MOMENT, MILESTONE = 29_000_580, 7
OFFSETS = (-32768, -513, -512, -8, -1, 0, 1, 8, 16, 32, 120, 124, 127, 128, 32767)
NUMBERS = (-(2**31), -512, -8, -1, 0, 1, 2, 3, 4, 16, 32, 63, 64, 127, 128, 511, 999, 1000, 10_000, 2**31 - 1)
CODES = (*range(301, 316),)


def shipped():
    """The bytes of each rule and each pair of the examples."""
    return [bytes.fromhex(it.read_text().strip()) for it in sorted((TOP / "examples" / "rules").rglob("*.hex"))]


class Changes:
    """Draws programs: a rule, and some changes."""

    def __init__(self, seed):
        self.chance = random.Random(seed)
        self.rules = shipped()
        self.others = Programs(self.chance)

    def program(self):
        code = bytearray(self.chance.choice(self.rules))
        draws = (self.bit, self.field, self.opcode, self.moved, self.dropped, self.doubled, self.spliced, self.drawn, self.wide, self.cut)
        for _ in range(self.chance.choice((0, 1, 1, 1, 2, 2, 3, 5))):
            if len(code) >= 8:
                self.chance.choices(draws, (3, 6, 4, 2, 2, 2, 2, 4, 1, 0.3))[0](code)
        if self.chance.random() < 0.0005:
            code *= 4097 // max(len(code) // 8, 1) + self.chance.randrange(2)
        return bytes(code)

    def slot(self, code):
        return 8 * self.chance.randrange(len(code) // 8) if len(code) >= 8 else 0

    def bit(self, code):
        place = self.chance.randrange(len(code))
        code[place] ^= 1 << self.chance.randrange(8)

    def field(self, code):
        at = self.slot(code)
        kind = self.chance.randrange(4)
        if kind == 0:
            code[at + 1] = code[at + 1] & 0xF0 | self.chance.randrange(12)
        elif kind == 1:
            code[at + 1] = code[at + 1] & 0x0F | self.chance.randrange(12) << 4
        elif kind == 2:
            jump = code[at] & 7 in (5, 6) and self.chance.random() < 0.8
            offset = self.chance.randrange(-1, len(code) // 8 + 1) if jump else self.chance.choice(OFFSETS)
            code[at + 2 : at + 4] = offset.to_bytes(2, "little", signed=True)
        else:
            code[at + 4 : at + 8] = (self.chance.choice(NUMBERS) % 2**32).to_bytes(4, "little")

    def opcode(self, code):
        """Another opcode, mostly of the same family, so that its fields may still be allowed."""
        at = self.slot(code)
        if self.chance.random() < 0.8:
            code[at] = code[at] & 0x0F | self.chance.randrange(16) << 4
        else:
            code[at] = self.chance.randrange(256)

    def moved(self, code):
        one, other = self.slot(code), self.slot(code)
        code[one : one + 8], code[other : other + 8] = code[other : other + 8], code[one : one + 8]

    def dropped(self, code):
        at = self.slot(code)
        del code[at : at + 8]

    def doubled(self, code):
        at = self.slot(code)
        code[at:at] = code[at : at + 8]

    def spliced(self, code):
        other = self.chance.choice(self.rules)
        first = self.slot(other)
        at = self.slot(code)
        code[at:at] = other[first : first + 8 * self.chance.randint(1, 6)]

    def drawn(self, code):
        """Instructions by chance, of registers that are there at the start."""
        made = self.others.program()
        at = self.slot(code)
        code[at:at] = made[: len(made) - 8]

    def wide(self, code):
        """A wide load, or its first slot alone."""
        at = self.slot(code) if self.chance.random() < 0.7 else len(code) // 8 * 8
        made = forms.lddw(self.chance.randrange(11), self.chance.getrandbits(64))
        code[at:at] = made[: self.chance.choice((8, 16, 16))]

    def cut(self, code):
        del code[self.chance.randrange(len(code)) :]


def traced(program, slots):
    """How a program ends, with the slots that were run and the ways that jumps went."""
    machine = model.Machine(PLANNED, MOMENT, MILESTONE)
    slot, steps, met = 0, 0, set()
    while True:
        insn = program[slot]
        steps += 1
        met.add(f"run {slots[slot]}")
        if insn.kind == "exit":
            return (machine.read(0), steps, machine.answers), met
        if insn.kind in ("ja", "ja32"):
            slot = model.target(insn, slot)
        elif insn.kind in model.CONDITIONS:
            taken = model.holds(insn, machine.read(insn.dst), machine.value(insn))
            met.add(f"{'taken' if taken else 'passed'} {slots[slot]}")
            slot = model.target(insn, slot) if taken else slot + 1
        else:
            machine.step(insn, model.HELPERS)
            slot += insn.length()


def owed(code):
    """What is owed of a program, and what it met."""
    try:
        program = model.decode(code)
    except model.Fault as fault:
        return f"{fault.code} {fault.slot}", {f"fault {fault.code}"}
    slots = {slot: forms.Slot(code[8 * slot : 8 * slot + 8]).form() for slot, insn in enumerate(program) if insn}
    met = {f"decoded {name}" for name in slots.values()}
    try:
        model.verify(program)
    except model.Fault as fault:
        at = slots.get(fault.slot, "tail")
        return f"{fault.code} {fault.slot}", met | {f"fault {fault.code}", f"fault {fault.code} at {at}"}
    (r0, steps, answers), ran = traced(program, slots)
    text = " ".join(str(it) for it in ("ran", r0, steps, *answers))
    return text, met | ran | {f"accepted {name}" for name in slots.values()}


def judged(codes):
    """What the built program says of the numbers of those of which something else came, and how many it judged."""
    with tempfile.TemporaryDirectory() as name:
        crate = prepared(Path(name))
        shutil.copy(HERE / "programs.rt.txt", crate / "src" / "main.rt")
        given = "".join(f"{code.hex()} {text}\n" for code, text in codes)
        came = subprocess.run(["rt", "try", "--seconds", "3000"], cwd=crate, input=given, capture_output=True, text=True)
    said = came.stdout.splitlines()
    if not said or said[-1] != f"judged {len(codes)}":
        print(came.stderr[-2000:], file=sys.stderr)
        return ["it did not come to the end"]
    return said[:-1]


def told(met, unmet):
    """Says how much was met, and with `unmet` what was not."""
    jumps = [it for it in forms.all_forms() if it.split(" ")[0].removesuffix("32") in forms.JUMPS]
    kinds = {kind: forms.all_forms() for kind in ("decoded", "accepted", "run")}
    kinds |= {"taken": jumps, "passed": jumps, "fault": [str(code) for code in CODES]}
    for kind, names in kinds.items():
        left = [it for it in names if not met[f"{kind} {it}"]]
        print(f"{kind}: {len(names) - len(left)} of {len(names)}" + (f", not {', '.join(left)}" if unmet and left else ""))
    if unmet:
        for name in sorted(it for it in met if it.startswith("fault")):
            print(f"{name}: {met[name]} programs")


def main():
    words = argparse.ArgumentParser(description="Changes the shipped rules by chance.")
    words.add_argument("--programs", type=int, default=100_000, metavar="N")
    words.add_argument("--seed", type=int, default=1, metavar="S")
    words.add_argument("--list", action="store_true", help="what was not met, and each fault at each form")
    given = words.parse_args()
    changes = Changes(given.seed)
    codes = [changes.program() for _ in range(given.programs)]
    met = collections.Counter()
    texts = []
    with multiprocessing.Pool() as pool:
        for text, found in pool.imap(owed, codes, chunksize=200):
            texts.append(text)
            met.update(found)
    wrong = judged([*zip(codes, texts)])
    for line in wrong[:20]:
        number = line.split()[1]
        print(f"{line}: owed {texts[int(number)]} of {codes[int(number)].hex()}" if number.isdigit() else line)
    told(met, given.list)
    print(f"accepted: {sum(text.startswith('ran') for text in texts)} programs")
    print(f"{len(codes)} cases, {len(wrong)} failed")
    return 1 if wrong else 0


if __name__ == "__main__":
    sys.exit(main())
