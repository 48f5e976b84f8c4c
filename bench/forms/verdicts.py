#!/usr/bin/env python3
"""Writes crates/bpf_tests/src/verifier/form_verdicts.rt: each form of instruction in programs that are accepted and refused.

    python3 verdicts.py > ../../crates/bpf_tests/src/verifier/form_verdicts.rt && (cd ../../crates/bpf_tests && rt fmt)

A row has the fields of one slot and the fault that it has there, 0 for none. Before it r0 and r6 are set and eight bytes of
the stack from r10 - 8 on are stored; behind it r0 is set, and then comes the exit. So the registers that are there are r0
to r4, r6 and r10, and the fault of each row is told by the table of faults in docs/FORMATS.md, without a program.
"""

import forms as f

SET, UNSET, LAST = 6, 7, 10


def row(slot, fault):
    data = f.Slot(slot)
    return data.opcode, data.dst | data.src << 4, data.offset, data.imm, fault


def arithmetic_rows():
    for width in (64, 32):
        for name in f.ALU:
            yield row(f.alu(name, width, 0, imm=3), 0)
            yield row(f.alu(name, width, LAST, imm=3), 314)
            # What is moved is read, and where to is not.
            yield row(f.alu(name, width, UNSET, imm=3), 0 if name == "mov" else 308)
            yield row(f.alu(name, width, 0, src=SET), 0)
            yield row(f.alu(name, width, UNSET, src=SET), 0 if name == "mov" else 308)
            yield row(f.alu(name, width, 0, src=UNSET), 308)
            yield row(f.alu(name, width, LAST, src=SET), 314)
        for part in (8, 16, 32):
            if part < width:
                yield row(f.movsx(part, width, UNSET, SET), 0)
                yield row(f.movsx(part, width, 0, UNSET), 308)
                yield row(f.movsx(part, width, LAST, SET), 314)
        yield row(f.neg(width, 0), 0)
        yield row(f.neg(width, UNSET), 308)
        yield row(f.neg(width, LAST), 314)
    for order in f.ENDS:
        for bits in (16, 32, 64):
            yield row(f.end(order, bits, 0), 0)
            yield row(f.end(order, bits, UNSET), 308)
            yield row(f.end(order, bits, LAST), 314)


def jump_rows():
    # The next slot, the exit, what lies behind the program, and the slot itself.
    targets = [(0, 0), (1, 0), (2, 306), (-1, 306)]
    for offset, fault in targets:
        yield row(f.ja(offset), fault)
        yield row(f.ja32(offset), fault)
    for width in (64, 32):
        for name in f.JUMPS:
            for offset, fault in targets:
                yield row(f.jump(name, width, 0, offset, imm=5), fault)
                yield row(f.jump(name, width, 0, offset, src=SET), fault)
            yield row(f.jump(name, width, UNSET, 0, imm=5), 308)
            yield row(f.jump(name, width, UNSET, 0, src=SET), 308)
            yield row(f.jump(name, width, 0, 0, src=UNSET), 308)


def memory_rows():
    for name, (_, count) in {**f.LOADS, **f.SIGNED_LOADS}.items():
        for base, offset, fault in (
            (1, 0, 0), (1, -1, 309), (1, 128 - count, 0), (1, 129 - count, 309),
            (LAST, -8, 0), (LAST, -count, 0), (LAST, 1 - count, 309), (LAST, -9, 310), (LAST, -512, 310), (LAST, -513, 309),
            (UNSET, 0, 308),
        ):
            yield row(f.ldx(name, 0, base, offset), fault)
        yield row(f.ldx(name, LAST, 1, 0), 314)
        yield row(f.ldx(name, UNSET, 1, 0), 0)
    for names, store in ((f.STORES, lambda n, b, o: f.st(n, b, o, -2)), (f.STORES_X, lambda n, b, o: f.stx(n, b, o, SET))):
        for name, (_, count) in names.items():
            for base, offset, fault in (
                (1, 0, 311), (1, 128 - count, 311), (1, 129 - count, 309),
                (LAST, -512, 0), (LAST, -513, 309), (LAST, -count, 0), (LAST, 1 - count, 309), (UNSET, 0, 308),
            ):
                yield row(store(name, base, offset), fault)
    for name in f.STORES_X:
        yield row(f.stx(name, LAST, -8, UNSET), 308)


def other_rows():
    yield row(f.call(2), 312)
    yield row(f.exit_(), 0)


def main():
    rows = list(dict.fromkeys([*arithmetic_rows(), *jump_rows(), *memory_rows(), *other_rows()]))
    print("//! Each form of instruction with its fault. Written by bench/forms/verdicts.py, by the table of faults.")
    print()
    print("/// Opcode, registers, offset and immediate of a slot, and the number of its fault, 0 for none.")
    print(f"pub(crate) static VERDICTS: [(u8, u8, i16, i32, u16); {len(rows)}] = [")
    for opcode, registers, offset, imm, fault in rows:
        print(f"    ({opcode:#04x}, {registers:#04x}, {offset}, {imm}, {fault}),")
    print("];")


if __name__ == "__main__":
    main()
