#!/usr/bin/env python3
"""Writes src/machine/vectors.rt: arithmetic instructions with their results, computed here with Python's whole numbers.

Each row is (opcode, offset, immediate, destination, source, result): the instruction's fields, both registers before it
and the destination after it, by RFC 9669, sections 4.1 and 4.2. Run it again where a row is to be added:

    python3 vectors.py > ../src/machine/vectors.rt && (cd .. && rt fmt)
"""

EDGES = [0, 1, 7, 0x7F, 0x80, 0x7FFF, 0x8000, 2**31 - 1, 2**31, 2**32 - 1, 2**32, 2**63 - 1, 2**63, 2**64 - 7, 2**64 - 1]
PAIRS = [
    (0, 0), (7, 0), (2**63, 2**64 - 1), (2**31, 2**32 - 1), (2**64 - 1, 1), (2**64 - 7, 2), (0x123456789ABCDEF0, 0xFEDCBA9876543210),
    (2**63 - 1, 63), (0xFFFFFFFF80000000, 33), (10, 2**64 - 3),
]


def signed(value, bits):
    value %= 2**bits
    return value - 2**bits if value >= 2 ** (bits - 1) else value


def truncated(a, b):
    quotient = abs(a) // abs(b)
    return quotient if (a < 0) == (b < 0) else -quotient


def divide(a, b, bits):
    return 0 if b == 0 else a // b


def modulo(a, b, bits):
    return a if b == 0 else a % b


def signed_divide(a, b, bits):
    a, b = signed(a, bits), signed(b, bits)
    return 0 if b == 0 else truncated(a, b)


def signed_modulo(a, b, bits):
    a, b = signed(a, bits), signed(b, bits)
    return a if b == 0 else a - b * truncated(a, b)


# code of the operation, offset, result
BINARY = [
    (0x0, 0, lambda a, b, bits: a + b),
    (0x1, 0, lambda a, b, bits: a - b),
    (0x2, 0, lambda a, b, bits: a * b),
    (0x3, 0, divide),
    (0x3, 1, signed_divide),
    (0x4, 0, lambda a, b, bits: a | b),
    (0x5, 0, lambda a, b, bits: a & b),
    (0x6, 0, lambda a, b, bits: a << (b % bits)),
    (0x7, 0, lambda a, b, bits: a >> (b % bits)),
    (0x9, 0, modulo),
    (0x9, 1, signed_modulo),
    (0xA, 0, lambda a, b, bits: a ^ b),
    (0xB, 0, lambda a, b, bits: b),
    (0xC, 0, lambda a, b, bits: signed(a, bits) >> (b % bits)),
]


def rows():
    for bits, operation_class in ((64, 0x7), (32, 0x4)):
        for code, offset, result in BINARY:
            for a, b in PAIRS:
                value = result(a % 2**bits, b % 2**bits, bits) % 2**bits
                yield 16 * code + 8 + operation_class, offset, 0, a, b, value
        for width in (8, 16, 32) if bits == 64 else (8, 16):
            for b in EDGES[3:11]:
                yield 0xB8 + operation_class, width, 0, 0, b, signed(b, width) % 2**bits
        for a in EDGES[::3]:
            yield 0x80 + operation_class, 0, 0, a, 0, -a % 2**bits
    for opcode, is_reversed in ((0xD4, False), (0xDC, True), (0xD7, True)):
        for width in (16, 32, 64):
            for a in (0x123456789ABCDEF0, 2**64 - 2):
                low = a % 2**width
                value = int.from_bytes(low.to_bytes(width // 8, "little"), "big") if is_reversed else low
                yield opcode, 0, width, a, 0, value


def main():
    table = list(rows())
    print("//! Arithmetic with its results. Written by vectors/vectors.py, with Python's whole numbers.")
    print()
    print("/// Opcode, offset, immediate, destination and source before, and the destination after.")
    print("pub(crate) type Vector = (u8, u8, u8, u64, u64, u64);")
    print()
    print(f"pub(crate) static VECTORS: [Vector; {len(table)}] = [")
    for opcode, offset, immediate, a, b, value in table:
        print(f"    ({opcode:#04x}, {offset}, {immediate}, {a:#x}, {b:#x}, {value:#x}),")
    print("];")


if __name__ == "__main__":
    main()
