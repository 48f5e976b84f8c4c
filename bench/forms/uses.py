#!/usr/bin/env python3
"""Says which forms of instruction the tests use, and which none uses; the status is 1 where there is one.

A form is used by a run where its result comes from outside (bpf_tests: machine.rt, and form_vectors.rt, vectors.rt and
forms.rt of machine/), and by a verdict where a program with it is accepted, or refused for a fault of its own slot
(bpf_tests: verifier.rt, and form_verdicts.rt of verifier/). With --table it prints each form with its three counts.
"""

import collections
import re
import sys
from pathlib import Path

import forms as f

CRATES = Path(__file__).resolve().parents[2] / "crates"
NUMBER = r"-?(?:0x[0-9a-f]+|[0-9_]+)"


def source(path):
    return (CRATES / path).read_text()


def rows(text, table):
    """The rows of numbers of a table."""
    body = text[text.index(f"static {table}:") :]
    body = body[body.index("= [") : body.index("\n];")]
    for row in re.findall(r"\(([^()]*)\)", body):
        yield [int(number.replace("_", ""), 0) for number in re.findall(NUMBER, row)]


def form_of(opcode, offset=0, imm=0):
    return f.Slot(f.slot(opcode, 0, 0, offset, imm)).form()


def forms_of(program):
    return [slot.form() for _, slot in f.slots(program)]


def runs():
    vectors = source("bpf_tests/src/machine/form_vectors.rt")
    for opcode, offset, imm, *_ in rows(vectors, "ARITHMETIC"):
        yield form_of(opcode, offset, imm)
    for opcode, *_ in rows(vectors, "JUMPS"):
        yield form_of(opcode)
    for opcode, *_ in rows(vectors, "LOADS"):
        yield form_of(opcode)
    for store, read, *_ in rows(vectors, "STORES"):
        yield from (form_of(store), form_of(read))
    for opcode, offset, imm, *_ in rows(source("bpf_tests/src/machine/vectors.rt"), "VECTORS"):
        yield form_of(opcode, offset, imm)
    for opcode, *_ in rows(source("bpf_tests/src/machine/forms.rt"), "JUMPS_ALWAYS"):
        yield form_of(opcode)
    yield from ("lddw", "exit")
    # A call's answer comes from the table of helpers.
    for text in re.findall(r'"((?:[0-9a-f]{16})+)"', source("bpf_tests/src/machine.rt")):
        yield from (form for form in forms_of(bytes.fromhex(text)) if form in ("call", "exit"))


def verdicts():
    """The forms of accepted programs, and those of slots that are at fault."""
    for opcode, _, offset, imm, fault in rows(source("bpf_tests/src/verifier/form_verdicts.rt"), "VERDICTS"):
        yield form_of(opcode, offset, imm), fault != 0
    text = source("bpf_tests/src/verifier.rt")
    program = r'"((?:[0-9a-f]{16})+)"'
    accepted = text[text.index("static ACCEPTED") : text.index("static REFUSED")]
    for found in re.findall(program + r",\n", accepted):
        yield from ((form, False) for form in forms_of(bytes.fromhex(found)))
    refused = text[text.index("static REFUSED") :]
    for found, _, slot in re.findall(program + r",\s*([0-9]+),\s*([0-9]+)", refused):
        here = dict(f.slots(bytes.fromhex(found))).get(int(slot))
        if here is not None:
            yield here.form(), True
    pairs = re.findall(program + r",\s*" + program, refused)
    for found, _ in pairs:
        yield from ((form, False) for form in forms_of(bytes.fromhex(found)))


def main():
    run = collections.Counter(runs())
    judged = collections.Counter(verdicts())
    missing = []
    for form in f.all_forms():
        counts = run[form], judged[form, False], judged[form, True]
        if "--table" in sys.argv:
            print(f"{form:16} {counts[0]:4} {counts[1]:4} {counts[2]:4}")
        missing += [f"{form}: no program {kind}" for kind, count in zip(("is run", "is accepted", "is refused"), counts) if not count]
    print("\n".join(missing) if missing else f"all {len(f.all_forms())} forms are run, accepted and refused")
    return 1 if missing else 0


if __name__ == "__main__":
    sys.exit(main())
