#!/usr/bin/env python3
"""Writes the C program that prints crates/bpf_tests/src/machine/form_vectors.rt: each form of instruction with its results.

Each row stands for a program (`arithmetic`, `compare`, `load` and `keep` below, and the functions of the same names in
crates/bpf_tests/src/machine/forms.rt). C is told of it by plain statements on integers of 64 and 32 bits, one for each
instruction, by RFC 9669, sections 3 to 5; what r0 is at the exit is printed by the program that cc builds of them:

    forms=$(mktemp) && python3 generate.py | cc -O1 -fwrapv -w -x c -o "$forms" -
    "$forms" > ../../crates/bpf_tests/src/machine/form_vectors.rt && (cd ../../crates/bpf_tests && rt fmt)

The record's byte k is (37 k + 129) mod 256. C has no answer for the least signed number over -1, so that is left out.
"""

import forms as f

MIN64, MAX64, ALL64 = 2**63, 2**63 - 1, 2**64 - 1
MIN32, ALL32 = 2**31, 2**32 - 1

# ---- what C says of an instruction


def unsigned(width, text):
    return text if width == 64 else f"(uint32_t){text}"


def signed(width, text):
    return f"(int{width}_t){text}"


def immediate(slot):
    """The immediate, sign-extended to 64 bits."""
    return "(uint64_t)(int64_t)INT32_MIN" if slot.imm == -(2**31) else f"(uint64_t)(int64_t)INT32_C({slot.imm})"


def operand(slot, width):
    """The second operand of an operation or a jump, as a C expression of the unsigned type of the width."""
    return f"(uint{width}_t)({f'r[{slot.src}]' if slot.opcode & 8 else immediate(slot)})"


def operation(slot, name, width):
    a, b = f"(uint{width}_t)r[{slot.dst}]", operand(slot, width)
    text = {
        "add": f"({a}) + ({b})",
        "sub": f"({a}) - ({b})",
        "mul": f"({a}) * ({b})",
        "div": f"({b}) == 0 ? 0 : ({a}) / ({b})",
        "mod": f"({b}) == 0 ? ({a}) : ({a}) % ({b})",
        "or": f"({a}) | ({b})",
        "and": f"({a}) & ({b})",
        "xor": f"({a}) ^ ({b})",
        "lsh": f"({a}) << (({b}) & {width - 1})",
        "rsh": f"({a}) >> (({b}) & {width - 1})",
        "arsh": f"{signed(width, f'({a})')} >> (({b}) & {width - 1})",
        "mov": b,
        "sdiv": f"({b}) == 0 ? 0 : {signed(width, f'({a})')} / {signed(width, f'({b})')}",
        "smod": f"({b}) == 0 ? {signed(width, f'({a})')} : {signed(width, f'({a})')} % {signed(width, f'({b})')}",
    }[name]
    return f"r[{slot.dst}] = (uint{width}_t)({text});"


def condition(slot, name, width):
    a, b = f"(uint{width}_t)r[{slot.dst}]", operand(slot, width)
    if name == "jset":
        return f"(({a}) & ({b})) != 0"
    sign = {"jeq": "==", "jne": "!=", "gt": ">", "ge": ">=", "lt": "<", "le": "<="}
    if name in sign:
        return f"({a}) {sign[name]} ({b})"
    if name.startswith("js"):
        return f"{signed(width, f'({a})')} {sign[name[2:]]} {signed(width, f'({b})')}"
    return f"({a}) {sign[name[1:]]} ({b})"


def loaded(slot, kind, bytes_loaded):
    """A load of a number of so many bytes, of the C integers `uint` or `int`; C extends it to 64 bits by its sign."""
    bits = 8 * bytes_loaded
    return f"{{ {kind}{bits}_t v; memcpy(&v, at(r[{slot.src}], {slot.offset}), sizeof v); r[{slot.dst}] = (uint64_t)(int64_t)v; }}"


def stored(slot, value, bytes_stored):
    """A store of the low bytes of a value."""
    bits = 8 * bytes_stored
    return f"{{ uint{bits}_t v = (uint{bits}_t)({value}); memcpy(at(r[{slot.dst}], {slot.offset}), &v, sizeof v); }}"


def statement(number, slot, tail):
    """The C statement of an instruction."""
    form = slot.form()
    name = form.split()[0]
    if form == "exit":
        return "return r[0];"
    if form == "lddw":
        return f"r[{slot.dst}] = UINT64_C({tail * 2**32 + slot.imm % 2**32});"
    if form == "ja":
        return f"goto L{number + 1 + slot.offset};"
    if form == "ja32":
        return f"goto L{number + 1 + slot.imm};"
    if name in ("neg64", "neg32"):
        width = int(name[3:])
        return f"r[{slot.dst}] = (uint{width}_t)(0 - (uint{width}_t)r[{slot.dst}]);"
    for order in f.ENDS:
        if slot.opcode == f.ENDS[order]:
            bits = slot.imm
            value = f"(uint{bits}_t)r[{slot.dst}]"
            return f"r[{slot.dst}] = {value};" if order == "le" else f"r[{slot.dst}] = __builtin_bswap{bits}({value});"
    if name in f.LOADS:
        return loaded(slot, "uint", f.LOADS[name][1])
    if name in f.SIGNED_LOADS:
        return loaded(slot, "int", f.SIGNED_LOADS[name][1])
    if name in f.STORES:
        return stored(slot, immediate(slot), f.STORES[name][1])
    if name in f.STORES_X:
        return stored(slot, f"r[{slot.src}]", f.STORES_X[name][1])
    if name.startswith("movsx"):
        part, width = name[5:].split("_")
        return f"r[{slot.dst}] = (uint{width}_t)(int{width}_t)(int{part}_t)r[{slot.src}];"
    if slot.opcode % 8 in (5, 6):
        width = 64 if slot.opcode % 8 == 5 else 32
        name = name if width == 64 else name[:-2]
        return f"if ({condition(slot, name, width)}) goto L{number + 1 + slot.offset};"
    return operation(slot, name[:-2], int(name[-2:]))


# ---- the programs, each with the row that stands for it


def arithmetic(opcode, offset, imm, a, b):
    """An operation on r0, with r1 or an immediate."""
    src = 1 if opcode & 8 and opcode & 7 in (4, 7) and opcode >> 4 != 0xD else 0
    program = f.lddw(0, a) + f.lddw(1, b) + f.slot(opcode, 0, src, offset, imm) + f.exit_()
    return "ARITHMETIC", (f"{opcode:#04x}", offset, imm, word(a), word(b)), program


def compare(opcode, imm, a, b):
    """r0 is 1 where the jump of r1, with r2 or an immediate, is taken, and else 0."""
    one, none = f.alu("mov", 64, 0, imm=1), f.alu("mov", 64, 0, imm=0)
    jump = f.slot(opcode, 1, 2 if opcode & 8 else 0, 1, imm)
    program = f.lddw(1, a) + f.lddw(2, b) + one + jump + none + f.exit_()
    return "JUMPS", (f"{opcode:#04x}", imm, word(a), word(b)), program


def load(opcode, offset):
    """A load from the record."""
    return "LOADS", (f"{opcode:#04x}", offset), f.slot(opcode, 0, 1, offset) + f.exit_()


def keep(store, read, offset, imm, value):
    """A store to the stack, of r6 or an immediate, and a load from there; the last 16 bytes were all ones."""
    ones = f.st("stdw", 10, -8, -1) + f.st("stdw", 10, -16, -1)
    write = f.slot(store, 10, 6 if store & 7 == 3 else 0, offset, imm)
    program = ones + f.lddw(6, value) + write + f.slot(read, 0, 10, offset) + f.exit_()
    return "STORES", (f"{store:#04x}", f"{read:#04x}", offset, imm, word(value)), program


def word(value):
    return str(value) if value < 1000 else f"{value:#x}"


SIGNS = [(1, 7), (-7, 0x80000005), (-(2**31), ALL64), (2**31 - 1, ALL64 - 9)]
PAIRS = [(7, 0), (ALL64 - 6, 2), (0x123456789ABCDEF0, 0xFEDCBA98)]


def arithmetic_rows():
    for width in (64, 32):
        low = 7 if width == 64 else 4
        for name, code in f.ALU.items():
            opcode, offset = 16 * code + low, 1 if name in ("sdiv", "smod") else 0
            if name in ("lsh", "rsh", "arsh"):
                for count in (0, 1, 31, 32, 40, 63, 64, -1):
                    yield arithmetic(opcode, 0, count, 0xF123456789ABCDEF, 0)
                for count in (32, 40, 64, ALL64):
                    yield arithmetic(opcode + 8, 0, 0, 0xF123456789ABCDEF, count)
                continue
            for imm, a in SIGNS:
                yield arithmetic(opcode, offset, imm, a, 0)
            yield arithmetic(opcode, offset, 0, 9, 0)
            for a, b in PAIRS:
                yield arithmetic(opcode + 8, offset, 0, a, b)
        for a in (0, 1, 0x80000000, ALL64):
            yield arithmetic(0x80 + low, 0, 0, a, 0)
        for part in (8, 16, 32):
            if part < width:
                for b in (2 ** (part - 1) - 1, 2 ** (part - 1), 0x1200000000 + 2**part - 1):
                    yield arithmetic(0xB8 + low, part, 0, 0, b)
    for opcode in f.ENDS.values():
        for bits in (16, 32, 64):
            yield arithmetic(opcode, 0, bits, 0x123456789ABCDEF0, 0)


COMPARED = [(1, 2), (2, 2), (3, 2), (ALL64, 2), (2, ALL64), (ALL64, ALL64)]
LOW_COMPARED = [(0x500000001, 2), (0x500000002, 2), (0x500000003, 2), (ALL32, 2), (2, ALL32), (MIN32, MIN32 - 1)]
WITH_IMMEDIATES = [(1, 2), (2, 2), (3, 2), (ALL64, -1), (0, -1)]
LOW_WITH_IMMEDIATES = [(0x500000001, 2), (0x500000002, 2), (ALL32, -1), (0, -1), (MIN32, -(2**31))]
BITS = [(6, 3), (4, 3), (12, 4), (ALL64, MIN64), (0x100000000, ALL32), (2, 2)]
BITS_OF_IMMEDIATES = [(6, 3), (4, 3), (2, -1), (0x100000000, -1), (0, -1)]


def jump_rows():
    for width in (64, 32):
        for name, code in f.JUMPS.items():
            opcode = 16 * code + (5 if width == 64 else 6)
            pairs, immediates = (COMPARED, WITH_IMMEDIATES) if width == 64 else (LOW_COMPARED, LOW_WITH_IMMEDIATES)
            if name == "jset":
                pairs, immediates = BITS, BITS_OF_IMMEDIATES
            for a, imm in immediates:
                yield compare(opcode, imm, a, 0)
            for a, b in pairs:
                yield compare(opcode + 8, 0, a, b)


def memory_rows():
    loads = {**f.LOADS, **f.SIGNED_LOADS}
    for opcode, count in loads.values():
        # Bytes 0 to 3 have their sign bits, byte 4 has none, nor has byte 119.
        for at in (0, 1, 4, 5, 120 - count, 128 - count):
            yield load(opcode, at)
    for opcode, count in loads.values():
        for value in (0xF1E2D3C4B5A69788, 0x7F6E5D4C3B2A1908):
            yield keep(0x7B, opcode, -8, 0, value)
        yield keep(0x7B, opcode, -512, 0, 0xF1E2D3C4B5A69788)
    read = {count: opcode for opcode, count in f.LOADS.values()}
    for opcode, count in f.STORES.values():
        for imm in (5, -2, -(2**31)):
            yield keep(opcode, 0x79, -8, imm, 0)
        for at in (-512, -count):
            yield keep(opcode, read[count], at, -2, 0)
    for opcode, count in f.STORES_X.values():
        yield keep(opcode, 0x79, -16, 0, 0x123456789ABCDEF0)
        for at in (-512, -count):
            yield keep(opcode, read[count], at, 0, 0xFEDCBA9887654321)


TABLES = {
    "ARITHMETIC": "(u8, i16, i32, u64, u64, u64)",
    "JUMPS": "(u8, i32, u64, u64, u64)",
    "LOADS": "(u8, i16, u64)",
    "STORES": "(u8, u8, i16, i32, u64, u64)",
}
MEANINGS = {
    "ARITHMETIC": "Opcode, offset and immediate of an operation, the words of both registers before it, and the result.",
    "JUMPS": "Opcode and immediate of a jump, the words of both registers, and 1 where it is taken.",
    "LOADS": "Opcode and offset of a load from the record, and the result.",
    "STORES": "Opcodes of a store and of a load, their offset, the immediate, the word, and what is loaded.",
}


# ---- the C program


def function(index, program):
    lines = [f"static uint64_t program_{index}(void) {{", "    uint64_t r[11] = { 0 };"]
    lines.append(f"    r[1] = UINT64_C({f.RECORD}); r[2] = 128; r[10] = UINT64_C({f.STACK_END});")
    for number, slot in f.slots(program):
        tail = int.from_bytes(program[8 * number + 12 : 8 * number + 16], "little") if slot.opcode == 0x18 else 0
        lines.append(f"L{number}: {statement(number, slot, tail)}")
    return "\n".join(lines + ["}"])


HEAD = """#include <inttypes.h>
#include <stdint.h>
#include <stdio.h>
#include <string.h>

static unsigned char the_record[128];
static unsigned char the_stack[512];

static unsigned char *at(uint64_t base, int64_t offset) {
    uint64_t address = base + (uint64_t)offset;
    if (address - UINT64_C(0x200000000) < 512) return the_stack + (address - UINT64_C(0x200000000));
    return the_record + (address - UINT64_C(0x100000000));
}

static void row(const char *fields, uint64_t r0) {
    printf(r0 < 1000 ? "    (%s, %" PRIu64 "),\\n" : "    (%s, %#" PRIx64 "),\\n", fields, r0);
}
"""


def main():
    rows = list(dict.fromkeys([*arithmetic_rows(), *jump_rows(), *memory_rows()]))
    print(HEAD)
    for index, (_, _, program) in enumerate(rows):
        print(function(index, program))
    print("int main(void) {")
    print("    for (int k = 0; k < 128; k++) the_record[k] = (unsigned char)(37 * k + 129);")
    print('    puts("//! Each form of instruction with its results. Written by bench/forms/generate.py, with what C says.");')
    for table, kind in TABLES.items():
        count = sum(1 for row in rows if row[0] == table)
        print(f'    puts("\\n/// {MEANINGS[table]}");')
        print(f'    puts("pub(crate) static {table}: [{kind}; {count}] = [");')
        for index, (name, fields, _) in enumerate(rows):
            if name == table:
                text = ", ".join(str(field) for field in fields)
                print(f'    row("{text}", program_{index}());')
        print('    puts("];");')
    print("    return 0;")
    print("}")


if __name__ == "__main__":
    main()
