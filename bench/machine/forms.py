#!/usr/bin/env python3
"""Tries forms of the machine's loop in C, against the threaded interpreter of machine.c.

    python3 bench/machine/forms.py [--runs N] [--cc COMPILER]

forms.c is the loop of `run` with instructions laid out as ours are. Its text is changed into the other forms, each is compiled
at -O2 for x86-64-v2 (the compiler of the kit is the clang of its `toolchain/bin`), and run on 4,096 slots of arithmetic in
turn: instructions a slot by callgrind, and the least processor time of N runs. All come to the same sum.
"""

import argparse
import random
import re
import resource
import subprocess
import sys
import tempfile
from pathlib import Path

from shipped import FLAGS, HERE, NOTHING
from speed import arithmetic

TIMES = 20_000
BY_VARIABLE = (
    ("    u64 slot;\n", ""),
    ("act(struct state *s,", "act(struct state *s, u64 slot, u64 *on,"),
    ("s->slot = ", "*on = "),
    ("s->slot", "slot"),
    ("    u64 r0;\n    for (;;) {\n        if (!act(&s, record, &program[s.slot], &r0)) return r0;\n",
     "    u64 r0, slot = 0;\n    for (;;) {\n        u64 on;\n        if (!act(&s, slot, &on, record, &program[slot], &r0)) return r0;\n        slot = on;\n"),
)
BY_COUNT = (
    *BY_VARIABLE,
    ("u64 slot, u64 *on,", "u64 *on,"),
    ("slot + ", ""),
    ("u64 r0, slot = 0;", "u64 r0;"),
    ("act(&s, slot, &on, record, &program[slot], &r0)) return r0;\n        slot = on;", "act(&s, &on, record, program, &r0)) return r0;\n        program += on;"),
)
BY_REST = (
    *BY_COUNT,
    ("u64 *on,", "const struct op **on,"),
    ("*on = ", "*on = o + "),
    ("        u64 on;", "        const struct op *on;"),
    ("program += on;", "program = on;"),
)
STEP = "        if (!act(&s, record, &program[s.slot], &r0)) return r0;\n"
STEP_BY_VARIABLE = "        if (!act(&s, slot, &on, record, &program[slot], &r0)) return r0;\n        slot = on;\n"
# What the operations on 64 bits are in C, by their numbers.
OPERATIONS = (
    "a + b", "a - b", "a * b", "b ? a / b : 0", "divided(a, b)", "b ? a % b : a", "rest(a, b)", "a | b", "a & b", "a ^ b",
    "a << (b & 63)", "a >> (b & 63)", "(u64)((i64)a >> (b & 63))", "b",
)
DIVISIONS = range(3, 7)


def by_kind(kind, arms):
    """The changes by which a byte a slot, beside the program, has the instruction's kind; the arms for it stand first."""
    told = f"program[k] = decoded(slot);\n        const struct op *o = &program[k];\n        kinds[k] = {kind};"
    return (
        ("ALWAYS int act(struct state *s,", "static uint8_t kinds[4096];\nALWAYS int act(struct state *s, uint8_t k,"),
        ("act(&s, record,", "act(&s, kinds[s.slot], record,"),
        ("program[k] = decoded(slot);", told),
        ("    switch (o->kind) {\n", f"    switch (k) {{\n{arms}    }}\n    switch (o->kind) {{\n"),
    )


def arm(kind, operand, operation):
    return f"    case {kind}: {{ u64 a = s->r[o->dst], b = {operand}; SET(s->slot + 1, o->dst, {operation}); return 1; }}\n"


IS_64 = "o->kind == ARITH && o->width == 1"
# The operation, with the operand told behind the jump; the operation and the operand. Any other kind is tested for before.
BY_OPERATION = by_kind(
    f"{IS_64} ? o->code : 40",
    "".join(arm(k, "operand(s, o)", it) for k, it in enumerate(OPERATIONS)) + "    default: break;\n",
)
BY_BOTH = by_kind(
    f"{IS_64} ? o->code + (o->is_immediate ? 0 : 14) : 40",
    "".join(arm(k, "(u64)(i64)o->immediate", it) + arm(k + 14, "s->r[o->src]", it) for k, it in enumerate(OPERATIONS))
    + "    default: break;\n",
)
# No more than 16 kinds, and nothing tested: the compiler copies the jump behind each arm.
FEW = [k for k in range(14) if k not in DIVISIONS]
BY_FEW = by_kind(
    f"{IS_64} && !(o->code >= 3 && o->code <= 6) ? (o->code < 3 ? o->code : o->code - 4)"
    " : o->kind == ARITH && o->width == 0 ? 10 : o->kind == LOAD ? 11 : o->kind == STORE ? 12 : o->kind == JUMP ? 13 : 14",
    "".join(arm(number, "operand(s, o)", OPERATIONS[k]) for number, k in enumerate(FEW))
    + """    case 10: { u64 a = s->r[o->dst], b = operand(s, o); SET(s->slot + 1, o->dst, (u64)operate32(o->code, (u32)a, (u32)b)); return 1; }
    case 11: SET(s->slot + 1, o->dst, AT < STACK ? number(record + (AT - RECORD), o->width) : number(s->stack + (AT - STACK), o->width)); return 1;
    case 12: put(s->stack + (s->r[o->dst] + (i64)o->offset - STACK), o->width, s->r[o->src]); s->slot = s->slot + 1; return 1;
    case 13: {
        u64 a = s->r[o->dst], b = operand(s, o);
        int holds = o->width == 1 ? compare(o->code, a, b) : compare(o->code, (u32)a, (u32)b);
        s->slot = s->slot + 1 + (holds ? (u32)(i32)o->offset : 0);
        return 1;
    }
    case 14: break;
    default: __builtin_unreachable();
""",
)


def by_variable(changes):
    """The same changes, with the slot in a variable of the loop."""
    return (
        *changes,
        ("    u64 slot;\n", ""),
        ("act(struct state *s, uint8_t k,", "act(struct state *s, uint8_t k, u64 slot, u64 *on,"),
        ("s->slot = ", "*on = "),
        ("s->slot", "slot"),
        ("    u64 r0;\n    for (;;) {\n        if (!act(&s, kinds[s.slot], record, &program[s.slot], &r0)) return r0;\n",
         "    u64 r0, slot = 0;\n    for (;;) {\n        u64 on;\n"
         "        if (!act(&s, kinds[slot], slot, &on, record, &program[slot], &r0)) return r0;\n        slot = on;\n"),
    )


# The kind of the slot behind is loaded before the jump by this one's.
AHEAD = (
    *by_variable(BY_FEW),
    ("kinds[4096]", "kinds[4097]"),
    ("    u64 r0, slot = 0;\n", "    u64 r0, slot = 0;\n    uint8_t k = kinds[0];\n"),
    ("        u64 on;\n", "        u64 on;\n        uint8_t n = kinds[slot + 1];\n"),
    ("act(&s, kinds[slot],", "act(&s, k,"),
    ("        slot = on;\n", "        k = on == slot + 1 ? n : kinds[on];\n        slot = on;\n"),
)
ARITHMETIC = """if (o->width == 1) {
                if (o->is_immediate == 1) s.r[o->dst] = operate64(o->code, s.r[o->dst], (u64)(i64)o->immediate);
                else s.r[o->dst] = operate64(o->code, s.r[o->dst], s.r[o->src]);
            } else {
                u64 b = o->is_immediate == 1 ? (u64)(i64)o->immediate : s.r[o->src];
                s.r[o->dst] = (u64)operate32(o->code, (u32)s.r[o->dst], (u32)b);
            }"""
FORMS = {
    "the slot in the state": (),
    "the slot in a variable": BY_VARIABLE,
    "how far on": BY_COUNT,
    "the rest of the program": BY_REST,
    "the rest, arithmetic in a loop of its own": (
        *BY_REST,
        ("        const struct op *on;\n", "        const struct op *on, *o;\n        while (o = program, o->kind == ARITH) {\n            " + ARITHMETIC + "\n            program++;\n        }\n"),
    ),
    "the slot in the state, arithmetic told first": (
        ("        if (!act(", "        const struct op *o = &program[s.slot];\n        if (o->kind == ARITH) {\n            " + ARITHMETIC + "\n            s.slot++;\n            continue;\n        }\n        if (!act("),
    ),
    "the slot in the state, the loop written twice": ((STEP, STEP * 2),),
    "the slot in the state, four times": ((STEP, STEP * 4),),
    "the slot in a variable, the loop written twice": (*BY_VARIABLE, (STEP_BY_VARIABLE, STEP_BY_VARIABLE * 2)),
    "the slot in a variable, four times": (*BY_VARIABLE, (STEP_BY_VARIABLE, STEP_BY_VARIABLE * 4)),
    "a byte a slot: the operation": BY_OPERATION,
    "the same, the slot in a variable": by_variable(BY_OPERATION),
    "a byte a slot: operation and operand": BY_BOTH,
    "operation and operand, the slot in a variable": by_variable(BY_BOTH),
    "a byte a slot: 15 kinds": BY_FEW,
    "15 kinds, the slot in a variable": by_variable(BY_FEW),
    "15 kinds, that of the next slot loaded ahead": AHEAD,
}


def changed(text, changes):
    for old, new in changes:
        if old not in text:
            sys.exit(f"forms.c has no {old!r}")
        text = text.replace(old, new)
    return text


def counted(program, given, folder):
    """The instructions of a run."""
    tool = ["valgrind", "--tool=callgrind", f"--callgrind-out-file={folder}/calls"]
    came = subprocess.run([*tool, program], input=given, capture_output=True, check=True)
    return int(re.search(rb"Collected : (\d+)", came.stderr)[1])


def spent(program, given):
    """The processor time of a run, and what it printed."""
    before = resource.getrusage(resource.RUSAGE_CHILDREN).ru_utime
    came = subprocess.run([program], input=given, capture_output=True, check=True)
    return resource.getrusage(resource.RUSAGE_CHILDREN).ru_utime - before, came.stdout


def main():
    words = argparse.ArgumentParser(description="Tries forms of the machine's loop.")
    words.add_argument("--runs", type=int, default=9, metavar="N")
    words.add_argument("--cc", default="clang", metavar="COMPILER")
    given = words.parse_args()
    slots = arithmetic(random.Random(11), True)[:4094] + NOTHING
    lines = lambda times: f"{times}\n{''.join(slots)}\n".encode()
    text = (HERE / "forms.c").read_text()
    headers = subprocess.run(["gcc", "-print-file-name=include"], capture_output=True, text=True, check=True).stdout.strip()
    with tempfile.TemporaryDirectory() as folder:
        built = {"threaded (machine.c)": f"{folder}/machine"}
        subprocess.run(["cc", *FLAGS, "-o", f"{folder}/machine", HERE / "machine.c"], check=True)
        for number, (form, changes) in enumerate(FORMS.items()):
            Path(f"{folder}/{number}.c").write_text(changed(text, changes))
            flags = ["-O2", "-march=x86-64-v2", "-fPIE", "-isystem", headers, "-I/usr/include", "-I/usr/include/x86_64-linux-gnu"]
            subprocess.run([given.cc, *flags, "-c", "-o", f"{folder}/{number}.o", f"{folder}/{number}.c"], check=True)
            subprocess.run(["cc", "-pie", "-o", f"{folder}/{number}", f"{folder}/{number}.o"], check=True)
            built[form] = f"{folder}/{number}"
        least, sums = {}, set()
        for _ in range(given.runs):
            for form, program in built.items():
                took, told = spent(program, lines(TIMES))
                least[form] = min(took, least.get(form, took))
                sums.add(told)
        if len(sums) != 1:
            sys.exit(f"the forms differ: {sums}")
        for form, program in built.items():
            more = (counted(program, lines(200), folder) - counted(program, lines(100), folder)) / 100 / len(slots)
            print(f"{form}: {more:.1f} instructions a slot, {least[form] / TIMES * 1e6:.1f} us", flush=True)


if __name__ == "__main__":
    main()
