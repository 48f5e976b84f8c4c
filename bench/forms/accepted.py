#!/usr/bin/env python3
"""Writes tables of crates/bpf_tests/src/verifier: programs at the limits of each rule of ranges, accepted just inside and refused just outside.

    python3 accepted.py && (cd ../../crates/bpf_tests && rt fmt)

accepted_ranges.rt has the operations, loads and joins, accepted_edges.rt the comparisons, and accepted_programs.rt the accesses of
memory and whole programs. What is expected of a row comes from ranges.py or, of a whole program, is written beside it here. A slot is
written as its digits in their order, without the zeros at its end. The test that reads the tables is accepted.rt beside them.
"""

import itertools
import pathlib
import textwrap

import forms as f
import ranges as r

TABLES = pathlib.Path(__file__).resolve().parents[2] / "crates" / "bpf_tests" / "src" / "verifier"
WIDEST = 93
P31, P32, P63, P64 = 2**31, 2**32, 2**63, 2**64
# What the rows have in r6 and r7.
A, B = 6, 7
NO_SLOT = f.ja(0)
EXIT = f.exit_()


def mov(dst, imm=None, src=None):
    return f.alu("mov", 64, dst, imm, src)


def add(dst, imm=None, src=None):
    return f.alu("add", 64, dst, imm, src)


def digits(slots):
    """The slots of these bytes, each without the zeros at its end."""
    whole = [slots[at : at + 8].hex() for at in range(0, len(slots), 8)]
    trimmed = [it.rstrip("0") or "0" for it in whole]
    return " ".join(it + "0" * (len(it) % 2) for it in trimmed)


def immediate(b, width):
    """The immediate that stands for this range, if there is one."""
    if not r.is_single(b):
        return None
    number = r.signed(b[0], 64) if width == 64 else b[0]
    return number if -P31 <= number < (P31 if width == 64 else P32) else None


# Rows of two slots, the ranges before them, and behind them.


def measured(slots, a, b, after, b_after=None):
    return slots, a, b, after, b_after or b


def two(slot):
    return slot + NO_SLOT


def pairs_of(name, width):
    """Pairs of ranges at the limits of the rule of an operation."""
    top, half = 2**width, 2 ** (width - 1)
    last = top - 1
    few = (1, 3)
    shifts = [
        (few, (0, 0)), (few, (2, 2)), (few, (width - 2, width - 2)), ((1, 4), (width - 2, width - 2)), (few, (width - 1, width - 1)),
        ((0, 1), (width - 1, width - 1)), (few, (width, width)), (few, (width + 1, width + 1)), (few, (last, last)), (few, (1, 2)),
        ((half - 1, half), (1, 1)), ((half - 2, half - 1), (1, 1)), ((half, last), (0, 0)), ((half, last), (0, 1)), ((0, last), (width - 1, width - 1)),
    ]
    ways = {
        "mov": [((1, 3), (5, 9)), ((1, 3), (0, last)), ((1, 3), (half - 1, half)), ((1, 3), (last, last)), ((1, 3), (half, half))],
        "add": [
            ((0, 10), (1, 5)), ((top - 10, top - 5), (0, 4)), ((top - 10, top - 5), (0, 5)), ((top - 10, top - 5), (9, 20)),
            ((top - 10, top - 5), (10, 20)), ((half, half + 5), (half, half + 5)), ((half - 1, half), (half, half)), ((half - 1, half), (half - 1, half - 1)),
            ((0, half - 1), (0, half)), ((1, 5), (last, last)), ((0, 5), (last, last)), ((0, last), (0, 0)), ((0, last), (1, 1)),
        ],
        "sub": [
            ((5, 10), (0, 5)), ((5, 10), (0, 6)), ((5, 10), (5, 5)), ((5, 10), (6, 6)), ((0, 5), (6, 9)), ((0, 5), (5, 9)),
            ((0, 5), (last, last)), ((half, last), (half, half)), ((half, last), (half + 1, half + 1)), ((0, last), (0, 0)), ((0, last), (0, 1)),
        ],
        "mul": [
            ((2, 3), (5, 7)), ((0, 2 ** (width // 2)), (0, 2 ** (width // 2) - 1)), ((0, 2 ** (width // 2)), (0, 2 ** (width // 2))),
            ((1, 2), (half - 1, half - 1)), ((1, 2), (half, half)), ((1, last), (1, 1)), ((1, last), (0, 0)), ((1, 2), (last, last)),
        ],
        "div": [
            ((10, 20), (0, 5)), ((10, 20), (1, 5)), ((10, 20), (0, 0)), ((10, 20), (1, 1)), ((10, 20), (10, 10)), ((10, 20), (20, 20)),
            ((10, 20), (21, 30)), ((10, 20), (10, 20)), ((half, last), (2, 2)), ((half, last), (1, last)), ((7, 7), (2, 3)), ((7, 7), (0, 1)),
            ((0, last), (last, last)),
        ],
        "mod": [
            ((10, 20), (0, 5)), ((10, 20), (1, 5)), ((10, 20), (0, 0)), ((10, 20), (1, 1)), ((10, 20), (20, 25)), ((10, 20), (21, 25)),
            ((10, 20), (21, 21)), ((10, 20), (20, 20)), ((10, 20), (15, 18)), ((7, 7), (8, 9)), ((7, 7), (7, 9)), ((7, 7), (0, 9)),
            ((half, last), (last, last)), ((half, last - 1), (last, last)),
        ],
        "and": [
            ((5, 12), (3, 7)), ((5, 12), (3, 20)), ((5, 12), (12, 12)), ((half, last), (last, last)), ((half, last), (half, half)),
            ((half, last), (0, 5)), ((5, 12), (0, 0)), ((5, 5), (0, last)),
        ],
        "or": [
            ((5, 7), (1, 2)), ((5, 8), (1, 2)), ((1, 2), (5, 7)), ((1, 2), (5, 8)), ((0, 1), (0, 0)), ((0, half - 1), (1, 1)),
            ((0, half), (1, 1)), ((1, 3), (last, last)), ((3, 3), (0, 3)), ((0, 2), (4, 4)),
        ],
        "xor": [
            ((5, 7), (1, 2)), ((5, 8), (1, 2)), ((1, 2), (5, 7)), ((1, 2), (5, 8)), ((0, 1), (0, 0)), ((0, half - 1), (1, 1)),
            ((0, half), (1, 1)), ((1, 3), (last, last)), ((3, 3), (0, 3)), ((0, 2), (4, 4)),
        ],
        "lsh": shifts, "rsh": shifts,
        "arsh": [((1, 3), (0, 0)), ((1, 3), (1, 1)), ((0, 0), (1, 2)), ((half, half), (width - 1, width - 1)), ((half, half), (width, width))],
        "sdiv": [((5, 9), (2, 2)), ((0, 1), (1, 1)), ((5, 5), (1, 2)), ((top - 7, top - 7), (2, 2)), ((half, half), (last, last)), ((5, 5), (0, 0))],
        "smod": [((5, 9), (2, 2)), ((0, 1), (9, 9)), ((5, 5), (7, 8)), ((top - 7, top - 7), (2, 2)), ((half, half), (last, last)), ((5, 5), (0, 0))],
    }
    return ways[name]


# Pairs with numbers of more than 32 bits, and of single numbers.
BEYOND = {
    64: [((P32 + 5, P32 + 9), (3, 3)), ((5, 9), (P32 + 1, P32 + 3)), ((P63, P63), (P64 - 1, P64 - 1))],
    32: [
        ((P32 + 5, P32 + 9), (3, 3)), ((P32 - 1, P32), (3, 3)), ((5, 9), (P32 + 1, P32 + 1)), ((5, 9), (P32 - 1, P32 + 3)),
        ((P32 + P31, P32 + P31), (P32 - 1, P32 - 1)),
    ],
}


def arithmetic_rows():
    for width, name in itertools.product((64, 32), f.ALU):
        for a, b in pairs_of(name, width):
            after = r.of_ranges(name, width, a, b)
            yield measured(two(f.alu(name, width, A, src=B)), a, b, after)
            imm = immediate(b, width)
            if imm is not None:
                yield measured(two(f.alu(name, width, A, imm=imm)), a, (0, 0), after)
        for a, b in BEYOND[width]:
            yield measured(two(f.alu(name, width, A, src=B)), a, b, r.of_ranges(name, width, a, b))
        # A register with itself.
        for a in ((1, 3), (3, 3)):
            yield measured(two(f.alu(name, width, A, src=A)), a, (0, 0), r.of_ranges(name, width, a, a))


def negation_rows():
    for width in (64, 32):
        top = 2**width
        for a in ((0, 0), (0, 1), (1, 5), (5, 5), (top - 1, top - 1), (top // 2, top // 2), (top - 2, top - 1), (P32 + 5, P32 + 5)):
            yield measured(two(f.neg(width, A)), a, (0, 0), r.negated(width, a))


def sign_rows():
    for width in (64, 32):
        for part in (8, 16, 32):
            if part == width:
                continue
            half = 2 ** (part - 1)
            for b in (
                (0, half - 1), (0, half), (5, half - 1), (5, half), (half - 1, half - 1), (half, half), (half - 2, half - 1),
                (2 * half - 1, 2 * half), (2 * half, 2 * half + 1), (P32, P32 + half - 1), (P32, P32 + half), (P32 - 1, P32), (P64 - 1, P64 - 1),
            ):
                yield measured(two(f.movsx(part, width, A, B)), (1, 3), b, r.sign_extended(part, width, b))


def order_rows():
    for order, bits in itertools.product(f.ENDS, (16, 32, 64)):
        top = 2**bits
        some = [(1, 5), (1, top - 1), (top - 2, top - 1), (0x0102030405060708,) * 2, (top - 2, top - 2), (P32 + 1, P32 + 5), (P32 - 1, P32)]
        if bits < 64:
            some += [(1, top), (top - 1, top), (top, top + 1), (top, top)]
        for a in some:
            yield measured(two(f.end(order, bits, A)), a, (0, 0), r.in_order(order, bits, a))


def word_rows():
    """What is stored and loaded, by way of the stack."""
    for a in ((5, 9), (0, P64 - 1), (P63 - 1, P63), (P32, P32 + 5), (P64 - 1, P64 - 1)):
        yield measured(f.stx("stxdw", 10, -8, A) + f.ldx("ldxdw", A, 10, -8), a, (0, 0), a)
    for at in (-512, -504, -264, -256, -72, -64, -16, -8):
        yield measured(f.stx("stxdw", 10, at, B) + f.ldx("ldxdw", A, 10, at), (1, 3), (5, 9), (5, 9))
    for at in (-9, -10, -11, -12, -13, -14, -15, -511, -257):
        yield measured(f.stx("stxdw", 10, at, B) + f.ldx("ldxdw", A, 10, at), (1, 3), (5, 9), r.loaded(8))
    for imm in (0, 5, -1, -P31, P31 - 1):
        number = imm % P64
        yield measured(f.st("stdw", 10, -8, imm) + f.ldx("ldxdw", A, 10, -8), (1, 3), (0, 0), (number, number))
        yield measured(f.st("stdw", 10, -12, imm) + f.ldx("ldxdw", A, 10, -12), (1, 3), (0, 0), r.loaded(8))
    for (store, (_, stored)), (load, (_, size)) in itertools.product(f.STORES_X.items(), {**f.LOADS, **f.SIGNED_LOADS}.items()):
        if size <= stored and (stored, load) != (8, "ldxdw"):
            after = r.loaded(size, load in f.SIGNED_LOADS)
            yield measured(f.stx(store, 10, -8, A) + f.ldx(load, A, 10, -8), (5, 9), (0, 0), after)
            yield measured(f.stx(store, 10, -8, A) + f.ldx(load, A, 10, -8), (5, 5), (0, 0), after)
    for value in (0, 1, P31, P32 - 1, P32, P63 - 1, P63, P64 - 1, 0x0123456789ABCDEF):
        yield measured(f.lddw(A, value), (1, 3), (0, 0), (value, value))
    # Helper 2 again, whose answer was b.
    for b in ((5, 9), (0, P64 - 1), (5, 5)):
        yield measured(f.call(2) + f.alu("mov", 64, A, src=0), (1, 3), b, b)


def join_rows():
    """One way leaves a, the other moves b there."""
    for a, b in (
        ((1, 3), (5, 9)), ((5, 9), (1, 3)), ((1, 6), (4, 9)), ((4, 9), (1, 6)), ((1, 9), (4, 6)), ((4, 6), (1, 9)), ((4, 9), (4, 9)),
        ((0, 0), (P64 - 1, P64 - 1)), ((P63 - 1, P63 - 1), (P63, P63)), ((P32, P32), (P32 - 1, P32 - 1)), ((5, 5), (5, 5)), ((5, 9), (9, 9)),
    ):
        yield measured(f.jump("jset", 64, A, 1, src=B) + f.alu("mov", 64, A, src=B), a, b, r.hull(a, b), b)


# Comparisons: the way that is looked at, where r6 and r7 are seen, and the other, which ends.


def edge_row(name, width, a, b, is_taken, imm=None, src=B):
    jump = f.jump(name, width, A, 1 if is_taken else 4, imm, None if imm is not None else src)
    slots = jump + (f.exit_() if is_taken else NO_SLOT)
    if src == A:
        return measured(slots, a, b, a)
    if imm is None:
        edge = r.on_edge(name, width, a, b, is_taken)
    else:
        number = imm % 2**width
        edge = r.on_edge(name, width, a, (number, number), is_taken)
        edge = edge and (edge[0], b)
    return measured(slots, a, b, *edge) if edge else (slots, a, b)


# Ranges that are apart, side by side, that touch, that overlap, are equal, or lie one in the other.
PAIRS = [
    ((1, 3), (5, 9)), ((5, 9), (1, 3)), ((1, 4), (5, 9)), ((5, 9), (1, 4)), ((1, 5), (5, 9)), ((5, 9), (1, 5)), ((1, 6), (4, 9)),
    ((4, 9), (1, 6)), ((4, 9), (4, 9)), ((1, 9), (4, 6)), ((4, 6), (1, 9)),
]
NUMBERS = [
    ((4, 9), (3, 3)), ((4, 9), (4, 4)), ((4, 9), (6, 6)), ((4, 9), (9, 9)), ((4, 9), (10, 10)), ((4, 4), (4, 9)), ((9, 9), (4, 9)),
    ((4, 4), (4, 4)), ((4, 4), (5, 5)), ((4, 5), (5, 5)),
]


def comparison_rows():
    for width, name, is_taken in itertools.product((64, 32), r.COMPARISONS, (True, False)):
        top = 2**width
        limits = [((0, top - 1), (0, 0)), ((0, top - 1), (top - 1, top - 1)), ((0, 0), (0, top - 1)), ((top - 1, top - 1), (0, top - 1))]
        beyond = [((0, P32), (5, 9)), ((5, 9), (0, P32)), ((P32 + 5, P32 + 5), (5, 5)), ((4, 4), (P32 + 4, P32 + 4)), ((P32, P32), (0, 0))]
        for a, b in PAIRS + NUMBERS + limits + beyond[:1] if width == 64 else PAIRS[::3] + NUMBERS[1:6:2] + limits + beyond:
            yield edge_row(name, width, a, b, is_taken)
        for a, b in NUMBERS[1:4:2]:
            yield edge_row(name, width, a, (0, 0), is_taken, b[0])
        # Immediates at their limits, each an end of what is compared.
        yield edge_row(name, width, (top - 3, top - 1), (0, 0), is_taken, -1)
        for imm in (-P31, P31 - 1, 0):
            yield edge_row(name, width, (imm % top, imm % top + 2), (0, 0), is_taken, imm)
        if width == 32:
            yield edge_row(name, width, (5, P32), (0, 0), is_taken, 5)
            yield edge_row(name, width, (P64 - 1, P64 - 1), (0, 0), is_taken, -1)
        yield edge_row(name, width, (4, 9), (0, 0), is_taken, src=A)


def other_comparison_rows():
    for width, name, is_taken in itertools.product((64, 32), ("jset", "jsgt", "jsge", "jslt", "jsle"), (True, False)):
        for a, b in (((1, 2), (4, 8)), ((4, 8), (1, 2)), ((4, 4), (4, 4))):
            yield edge_row(name, width, a, b, is_taken)
        yield edge_row(name, width, (4, 9), (0, 0), is_taken, 4)


# Accesses: helper 1, without arguments, answers a range from which an address is made.


SIZES = {**f.LOADS, **f.SIGNED_LOADS, **f.STORES, **f.STORES_X}


def is_store(name):
    return name in f.STORES or name in f.STORES_X


def is_at_an_end(address):
    """Whether a byte of the stack is among the first 16 or the last."""
    return not r.STACK[0] + 16 <= address <= r.STACK[1] - 16


def region_rows():
    """Accesses at a range of addresses, where the first and the last 16 bytes of the stack are stored."""
    (record, record_last), (stack, stack_last) = r.RECORD, r.STACK
    for name, (opcode, size) in SIZES.items():
        bases = []
        for first, last in (r.RECORD, (stack, stack + 15), (stack_last - 15, stack_last)):
            end = last + 1 - size
            bases += [(first, end), (first - 1, end), (first, end + 1), (first - 1, first - 1), (end + 1, end + 1)]
        bases += [(record, stack), (record_last + 1 - size, stack), (stack_last, P64 - 1), (0, P64 - 1), (P64 - 1, P64 - 1), (stack, stack_last + 1 - size)]
        for base in bases:
            fault = r.address_fault(base, 0, size, is_store(name), is_at_an_end)
            yield byte(opcode), 0, *base, fault
    for name, offset in itertools.product(("ldxb", "ldxdw", "stb"), (-32768, -1, 1, 32767)):
        for start, more in ((record, -1), (record, 0), (record_last + 1, -1), (record_last + 1, 0), (stack, -1), (stack, 0), (stack_last + 1, 0)):
            address = start + more - (SIZES[name][1] if start in (record_last + 1, stack_last + 1) else 0)
            base = (address - offset, address - offset)
            fault = r.address_fault(base, offset, SIZES[name][1], is_store(name), is_at_an_end)
            yield byte(SIZES[name][0]), offset, *base, fault


# The word of eight bytes that is looked at below: its distance from the end of the stack.
WORD = -24


def overlap_rows():
    """Each store at each place near a word that is kept, at an address or at some more; whether the word is still known."""
    for name in [*f.STORES, *f.STORES_X]:
        opcode, size = SIZES[name]
        places = [(offset, 0) for offset in range(WORD - size, WORD + 10)]
        places += [(WORD - 7 - size, 7), (WORD - 6 - size, 7), (WORD + 7, 7), (WORD + 8, 7), (WORD, 1), (WORD - 1, 1)]
        for offset, more in places:
            is_apart = offset + more + size <= WORD or WORD + 8 <= offset
            yield byte(opcode), offset, more, 0 if is_apart else 309


def mark_rows():
    """Each store at the word, with loads of the bytes at both its ends, and each load of what it left."""
    for name in [*f.STORES, *f.STORES_X]:
        opcode, size = SIZES[name]
        for more, at in [(0, -1), (0, 0), (0, size - 1), (0, size), (1, 0), (1, size - 1)]:
            yield byte(opcode), more, byte(f.LOADS["ldxb"][0]), WORD + at, 0 if more == 0 and 0 <= at < size else 310
        for load, wanted in {**f.LOADS, **f.SIGNED_LOADS}.values():
            yield byte(opcode), 0, byte(load), WORD, 0 if wanted <= size else 310


def found_rows():
    """Each load at each place near a word that is kept, at an address or at some more; whether it finds the word."""
    for name in [*f.LOADS, *f.SIGNED_LOADS]:
        for offset, more in [(WORD, 0), (WORD, 1), (WORD - 8, 8)] + [(at, 0) for at in range(WORD - 8, WORD + 9) if name == "ldxdw" and at != WORD]:
            is_found = name == "ldxdw" and (offset, more) == (WORD, 0)
            yield byte(SIZES[name][0]), offset, more, 0 if is_found else 309


def base_rows():
    """A word by a base that is r10 and a number, loaded by the same base and by r10, and one that is no aligned word."""
    for more in (-4, -1, 1, 4, 8, -8, -24, -500, -512, 1000, -1000, 32000):
        for at, base, load, fault in ((WORD, 6, WORD - more, 0), (WORD, 10, WORD, 0), (WORD - 1, 10, WORD - 1, 309), (WORD + 1, 6, WORD + 1 - more, 309)):
            yield more, at - more, byte(base * 16 + 5), load, fault


# Whole programs, under the signatures of the three helpers of docs/FORMATS.md.


def beside(fault, slot, build, inside, outside):
    """A program with one number that is accepted, and with another that is refused."""
    yield 0, 0, build(inside)
    yield fault, slot, build(outside)


def slip_programs():
    """Programs that other rows do not tell from nearly the same rules, each beside its neighbours."""
    byte = f.ldx("ldxb", 5, 1, 63)
    reach = add(1, src=5) + f.ldx("ldxb", 0, 1, 0) + EXIT
    # A word by a base that is no multiple of 8.
    yield from beside(309, 5, lambda at: mov(6, src=10) + add(6, -4) + f.stx("stxdw", 6, at, 1) + mov(1, 0) + f.ldx("ldxdw", 1, 6, at) + f.ldx("ldxb", 0, 1, 63) + EXIT, -4, -5)
    # A load at sixteen addresses of the stack, all of them stored, and one below them.
    spread = f.st("stdw", 10, -8, 0) + f.st("stdw", 10, -16, 0) + mov(6, src=10) + f.alu("sub", 64, 6, src=4)
    yield from beside(310, 4, lambda at: spread + f.ldx("ldxb", 0, 6, at) + EXIT, 0, -1)
    yield from beside(309, 4, lambda at: spread + f.ldx("ldxb", 0, 6, at) + EXIT, 0, 1)
    # The right side of a comparison is not its greatest number.
    yield from beside(309, 7, lambda end: byte + f.alu("and", 64, 5, 127) + add(5, 1) + mov(6, end) + mov(0, 0) + f.jump("jeq", 64, 6, 2, src=5) + reach, 128, 127)
    # One register below another, in 32 bits.
    below = byte + f.ldx("ldxb", 6, 1, 62) + f.alu("and", 64, 6, 127) + mov(0, 0) + f.jump("jge", 32, 5, 2, src=6) + add(1, src=5)
    yield 0, 0, below + f.ldx("ldxb", 0, 1, 0) + EXIT
    yield from beside(309, 6, lambda at: below + f.ldx("ldxb", 0, 1, at) + EXIT, 1, 2)
    # A stand whose sign is extended, from 16 bits and from 8, and one more than there is.
    stand = f.ldx("ldxh", 2, 1, 60) + mov(0, 0)
    yield from beside(313, 4, lambda last: stand + f.jump("jgt", 64, 2, 2, last) + f.movsx(16, 64, 1, 2) + f.call(2) + EXIT, 999, 1000)
    yield from beside(313, 4, lambda part: stand + f.jump("jgt", 64, 2, 2, 999) + f.movsx(part, 64, 1, 2) + f.call(2) + EXIT, 32, 8)
    # Four bytes in another order of 64 bits and of 32, and eight bytes.
    yield from beside(313, 2, lambda name: f.ldx(name, 1, 1, 16) + f.end("le", 64, 1) + f.call(1) + EXIT, "ldxw", "ldxdw")
    yield from beside(313, 2, lambda bits: f.ldx("ldxdw", 1, 1, 16) + f.end("le", bits, 1) + f.call(1) + EXIT, 32, 64)
    # Counts past the width.
    yield from beside(309, 3, lambda count: byte + f.alu("rsh", 64, 5, count) + reach, 65, 64)
    back = f.alu("sub", 64, 4, 1) + add(1, src=4) + f.ldx("ldxb", 0, 1, 0) + EXIT
    yield from beside(309, 4, lambda count: f.alu("lsh", 64, 4, count) + f.alu("rsh", 64, 4, count) + back, 59, 60)


def start_programs():
    """What is known at the start: r2 is 128, r3 has 32 bits, r4 is from 1 to 16, and r1 and r10 are addresses."""
    later = f.call(3) + EXIT
    yield from beside(313, 3, lambda more: mov(1, src=3) + add(1, more) + mov(2, 0) + later, 0, 1)
    yield from beside(313, 3, lambda more: mov(1, 0) + mov(2, src=4) + add(2, more) + later, 9984, 9985)
    yield from beside(313, 3, lambda more: mov(1, 0) + mov(2, src=4) + add(2, more) + later, -1, -2)
    yield from beside(313, 2, lambda more: mov(1, 0) + add(2, more) + later, 9872, 9873)
    yield from beside(313, 2, lambda more: mov(1, 0) + add(2, more) + later, -128, -129)
    yield from beside(309, 1, lambda more: add(1, more) + f.ldx("ldxb", 0, 1, 0) + EXIT, 127, 128)
    yield from beside(309, 1, lambda more: add(1, more) + f.ldx("ldxb", 0, 1, 0) + EXIT, 0, -1)
    yield from beside(309, 2, lambda more: mov(5, src=10) + mov(0, 0) + f.st("stb", 5, more, 0) + EXIT, -1, 0)
    yield from beside(309, 2, lambda more: mov(5, src=10) + mov(0, 0) + f.st("stb", 5, more, 0) + EXIT, -512, -513)
    for register in range(11):
        is_set = register in (1, 2, 3, 4, 10)
        yield 0 if is_set else 308, 0, mov(0, src=register) + EXIT


def call_programs():
    """What a call reads and leaves: r0 is set, r1 to r5 are not, and the others and the stack stay."""
    for register in range(11):
        others = mov(1, 0) + mov(2, 0) + mov(register if register < 10 else 0, 0)
        yield 308 if 1 <= register <= 5 else 0, 4, others + f.call(3) + mov(0, src=register) + EXIT
    for helper, count in ((1, 1), (2, 1), (3, 2)):
        yield 0, 0, b"".join(mov(it, 0) for it in range(1, 1 + count)) + f.call(helper) + EXIT
    # Helper 3 takes r2 too, which a call before it made unknown.
    yield from beside(308, 3, lambda dst: mov(1, 0) + f.call(2) + mov(1, 0) + (mov(2, 0) if dst == 2 else b"") + f.call(3) + EXIT, 2, 1)
    # r6, r9, a byte and a word of the stack, behind a call.
    held = mov(6, src=1) + mov(9, src=10) + f.st("stb", 10, -9, 0) + f.stx("stxdw", 10, -8, 1) + mov(1, 0) + f.call(2)
    yield 0, 0, held + f.ldx("ldxb", 0, 6, 127) + EXIT
    yield 309, 6, held + f.ldx("ldxb", 0, 6, 128) + EXIT
    yield 0, 0, held + f.st("stb", 9, -1, 0) + EXIT
    yield 309, 6, held + f.st("stb", 9, 0, 0) + EXIT
    yield 0, 0, held + f.ldx("ldxb", 0, 10, -9) + EXIT
    yield 310, 6, held + f.ldx("ldxb", 0, 10, -10) + EXIT
    yield 0, 0, held + f.ldx("ldxdw", 5, 10, -8) + f.ldx("ldxb", 0, 5, 127) + EXIT
    yield 309, 7, held + f.ldx("ldxdw", 5, 10, -8) + f.ldx("ldxb", 0, 5, 128) + EXIT
    # The answers: from 1 to 1,440, from 1 to 60, up to 4,294,977,295.
    for helper, most in ((1, 1440), (2, 60)):
        for more, fault in ((10000 - most, 0), (10001 - most, 313), (-1, 0), (-2, 313)):
            yield fault, 5, mov(1, 0) + f.call(helper) + mov(2, src=0) + add(2, more) + mov(1, 0) + f.call(3) + EXIT


def joined_programs():
    """Where two ways meet: a register or a byte is there if it is on both, a word is kept if it is on both."""
    way = f.jump("jset", 64, 3, 1, 1)
    two_ways = f.jump("jset", 64, 3, 2, 1)
    use = f.ldx("ldxdw", 5, 10, -8) + f.st("stb", 5, -1, 0) + mov(0, 0) + EXIT
    keep, other = f.stx("stxdw", 10, -8, 10), f.st("stdw", 10, -8, 0)
    # A register that one way sets, and both.
    yield 308, 2, way + mov(0, 0) + EXIT
    yield 0, 0, mov(0, 1) + way + mov(0, 0) + EXIT
    yield 308, 4, f.jump("jset", 64, 3, 2, 1) + mov(0, 0) + f.ja(1) + mov(5, 0) + EXIT
    yield 0, 0, f.jump("jset", 64, 3, 2, 1) + mov(0, 0) + f.ja(1) + mov(0, 5) + EXIT
    # A byte that one way stores, and both; in the last rows each way stores bytes of its own.
    for first, second, at, fault in ((-8, -8, -8, 0), (-8, -7, -8, 310), (-7, -8, -8, 310), (-7, -8, -7, 310)):
        yield fault, 4, two_ways + f.st("stb", 10, first, 0) + f.ja(1) + f.st("stb", 10, second, 0) + f.ldx("ldxb", 0, 10, at) + EXIT
    # A word that is kept on both ways, on the first, on the second, and on none.
    for first, second, fault in ((keep, keep, 0), (keep, other, 309), (other, keep, 309), (other, other, 309)):
        yield fault, 5, two_ways + first + f.ja(1) + second + use
    # A word that only one way keeps, of which the other knows that it is stored.
    halves = f.st("stw", 10, -8, 0) + f.st("stw", 10, -4, 0)
    yield 309, 5, halves + way + keep + use
    yield 309, 4, keep + way + f.st("stb", 10, -5, 0) + use
    yield 0, 0, keep + way + f.st("stb", 10, -9, 0) + use
    yield 0, 0, keep + way + keep + use
    # The hull of two addresses in a word: within the stack, and one past its end.
    for first, second, fault in ((-512, -1, 0), (-513, -1, 309), (-512, 0, 309), (-1, -512, 0), (0, -512, 309), (-1, -513, 309)):
        addresses = mov(0, src=10) + add(0, first) + mov(6, src=10) + add(6, second)
        hull = f.stx("stxdw", 10, -8, 0) + f.jump("jgt", 64, 3, 1, 0) + f.stx("stxdw", 10, -8, 6)
        yield fault, 8, addresses + hull + f.ldx("ldxdw", 5, 10, -8) + f.st("stb", 5, 0, 0) + EXIT
    # Three ways: the least of one, the greatest of another.
    for least, middle, greatest, fault in ((0, 60, 127, 0), (60, 127, 0, 0), (0, 128, 60, 309), (128, 0, 60, 309), (60, 0, 128, 309), (-1, 60, 0, 309), (60, 0, -1, 309)):
        hull = mov(5, least) + f.jump("jset", 64, 3, 3, 1) + mov(5, middle) + f.jump("jset", 64, 3, 1, 2) + mov(5, greatest)
        yield fault, 6, hull + add(1, src=5) + f.ldx("ldxb", 0, 1, 0) + EXIT
    # No edge leads where a comparison can't hold, so what is there counts for nothing.
    yield 0, 0, mov(0, 0) + f.jump("jgt", 64, 4, 1, 16) + EXIT + mov(0, src=5) + EXIT
    yield 308, 3, mov(0, 0) + f.jump("jgt", 64, 4, 1, 15) + EXIT + mov(0, src=5) + EXIT
    yield 0, 0, mov(0, 0) + f.jump("jge", 64, 4, 1, 1) + mov(0, src=5) + EXIT
    yield 308, 2, mov(0, 0) + f.jump("jge", 64, 4, 1, 2) + mov(0, src=5) + EXIT


def kept_programs():
    """What narrowing, calls and later stores do to words and marks: nothing, but where they touch."""
    keep = f.stx("stxdw", 10, -8, 4)
    # A word stays as it was where the register that was stored is narrowed later.
    for at, fault in ((111, 0), (112, 309)):
        yield fault, 4, keep + f.jump("jgt", 64, 4, 2, 8) + f.ldx("ldxdw", 5, 10, -8) + add(1, src=5) + f.ldx("ldxb", 0, 1, at) + mov(0, 0) + EXIT
    # Narrowed before, it is stored so.
    for at, fault in ((119, 0), (120, 309)):
        yield fault, 5, mov(0, 0) + f.jump("jgt", 64, 4, 4, 8) + keep + f.ldx("ldxdw", 5, 10, -8) + add(1, src=5) + f.ldx("ldxb", 0, 1, at) + EXIT
    # No store takes marks away.
    word = f.st("stdw", 10, -8, 0)
    for store in (f.st("stb", 10, -8, 0), f.st("stw", 10, -12, 0), f.stx("stxdw", 10, -12, 1)):
        yield 0, 0, word + store + f.ldx("ldxdw", 0, 10, -8) + EXIT
    yield 310, 1, word + f.ldx("ldxdw", 0, 10, -9) + EXIT
    # Words side by side are kept apart, the last store counts.
    both = f.stx("stxdw", 10, -8, 1) + f.stx("stxdw", 10, -16, 2)
    yield 0, 0, both + f.ldx("ldxdw", 5, 10, -8) + f.ldx("ldxb", 0, 5, 0) + EXIT
    yield 309, 3, both + f.ldx("ldxdw", 5, 10, -16) + f.ldx("ldxb", 0, 5, 0) + EXIT
    yield 0, 0, both + f.stx("stxdw", 10, -16, 1) + f.ldx("ldxdw", 5, 10, -16) + f.ldx("ldxb", 0, 5, 0) + EXIT
    yield 309, 4, both + f.stx("stxdw", 10, -8, 2) + f.ldx("ldxdw", 5, 10, -8) + f.ldx("ldxb", 0, 5, 0) + EXIT
    # A word is copied to another, and found there.
    copy = f.stx("stxdw", 10, -8, 1) + f.ldx("ldxdw", 5, 10, -8) + f.stx("stxdw", 10, -256, 5) + f.ldx("ldxdw", 6, 10, -256)
    yield 0, 0, copy + f.ldx("ldxb", 0, 6, 127) + EXIT
    yield 309, 4, copy + f.ldx("ldxb", 0, 6, 128) + EXIT


def program_rows():
    for programs in (slip_programs(), start_programs(), call_programs(), joined_programs(), kept_programs()):
        for fault, slot, slots in programs:
            yield f"{fault} {slot if fault else 0} {digits(slots)}"


def comment(mark, text):
    return textwrap.wrap(text, 99, initial_indent=f"{mark} ", subsequent_indent=f"{mark} ")


def number(it):
    return it if isinstance(it, str) else f"{it:#x}" if it > 99999 else str(it)


def byte(it):
    return f"{it:#04x}"


def numbers(row):
    return f"({', '.join(number(it) for it in row)})"


def hexadecimal(slot):
    return f"0x{slot.hex()}"


def table(name, about, kind, rows):
    rows = list(dict.fromkeys(rows))
    longest = max(rows, key=len)
    assert len(longest) <= WIDEST, longest
    return [*comment("///", about), f"pub(crate) static {name}: [{kind}; {len(rows)}] = [", *(f"    {it}," for it in rows), "];"]


def write(name, title, *tables):
    text = comment("//!", f"{title} Written by bench/forms/accepted.py, by the tables of ranges and faults.")
    for it in tables:
        text += ["", *it]
    (TABLES / f"{name}.rt").write_text("\n".join(text) + "\n")


PLACES = "all by their places in LIMITS."
OF_ONE = f"A slot, the ranges of r6 and r7 before it, and behind it, {PLACES}"
OF_TWO = f"Two slots, the ranges of r6 and r7 before them, and behind them, {PLACES}"
OF_NONE = f"A slot, and the ranges of r6 and r7 before it, of which no edge leads there, {PLACES}"


def write_ranges():
    ones = [*arithmetic_rows(), *negation_rows(), *sign_rows(), *order_rows()]
    twos = [*word_rows(), *join_rows()]
    edges = [*comparison_rows(), *other_comparison_rows()]
    limits = sorted({a for row in ones + twos + edges for a in row[1:]})
    places = {a: at for at, a in enumerate(limits)}

    def texts(rows, slots, length):
        for row in rows:
            if len(row) == length:
                bytes_of = [row[0][at : at + 8] for at in range(0, 8 * slots, 8)]
                yield f"({', '.join([*map(hexadecimal, bytes_of), *(str(places[a]) for a in row[1:])])})"

    one, two = "(u64, u16, u16, u16, u16)", "(u64, u64, u16, u16, u16, u16)"
    about = "Ranges, each by its least and its greatest number."
    write("accepted_limits", "Ranges at limits.", table("LIMITS", about, "(u64, u64)", map(numbers, limits)))
    write("accepted_ranges", "What operations make of ranges.", table("RANGES", OF_ONE, one, texts(ones, 1, 5)))
    write("accepted_words", "What comes back from the stack, and what joins make of ranges.", table("WORDS", OF_TWO, two, texts(twos, 2, 5)))
    write(
        "accepted_edges", "What comparisons leave of ranges.",
        table("EDGES", OF_ONE, one, texts(edges, 1, 5)), table("NO_EDGES", OF_NONE, "(u64, u16, u16)", texts(edges, 1, 3)),
    )


def write_accesses():
    about = "Opcode and offset of a load or a store, the least and the greatest address of its base, and its fault, 0 for none."
    regions = table("REGIONS", about, "(u8, i16, u64, u64, u16)", map(numbers, region_rows()))
    about = "Opcode and offset of a store, up to how much more its base is than r10, and the fault where a word is used then."
    overlaps = table("OVERLAPS", about, "(u8, i16, u64, u16)", map(numbers, overlap_rows()))
    about = "Opcode of a store, up to how much more its base is than r10, opcode and offset of a load, and the fault of that."
    marks = table("MARKS", about, "(u8, u64, u8, i16, u16)", map(numbers, mark_rows()))
    about = "Opcode and offset of a load, up to how much more its base is than r10, and the fault where what it loads is used."
    found = table("FOUND", about, "(u8, i16, u64, u16)", map(numbers, found_rows()))
    about = "How much more r6 is than r10, the offset of a store there, registers and offset of a load, and the fault where that is used."
    bases = table("BASES", about, "(i32, i16, u8, i16, u16)", map(numbers, base_rows()))
    write("accepted_accesses", "Accesses of memory.", regions, overlaps, marks, found, bases)


def main():
    write_ranges()
    write_accesses()
    about = "The fault and its slot, 0 for none, and the slots, each without the zeros at its end."
    write("accepted_programs", "Whole programs.", table("PROGRAMS", about, "&str", (f'"{it}"' for it in program_rows())))


if __name__ == "__main__":
    main()
