"""Programs of 4,096 slots on which verifiers are timed, all of them accepted: PROGRAMS has of each
its name, its bytes and how often it is verified in one run."""
import random
import struct

SLOTS = 4096
EXIT = (0x95, 0, 0, 0, 0)
ZERO_R0 = (0xB7, 0, 0, 0, 0)


def encode(instructions):
    """The bytes of instructions: opcode, destination, source, offset and immediate of each."""
    return b"".join(
        struct.pack("<BBhi", opcode, source << 4 | destination, offset, immediate)
        for opcode, destination, source, offset, immediate in instructions
    )


def straight():
    """Arithmetic of both widths on registers and immediates, without a jump."""
    draws = random.Random(3)
    instructions = [(0xB7, r, 0, 0, draws.randrange(1 << 20)) for r in (0, 5, 6, 7, 8)]
    instructions.append((0xBF, 9, 3, 0, 0))
    while len(instructions) < SLOTS - 1:
        dst, src = draws.choice((0, 5, 6, 7, 8, 9)), draws.choice((0, 5, 6, 7, 8, 9))
        opcode = draws.choice((0x07, 0x0F, 0x17, 0x1F, 0x27, 0x47, 0x57, 0xAF, 0xBF, 0x04, 0xA4))
        is_register = opcode in (0x0F, 0x1F, 0xAF, 0xBF)
        immediate = 0 if is_register else draws.randrange(-1 << 31, 1 << 31)
        instructions.append((opcode, dst, src if is_register else 0, 0, immediate))
    return encode(instructions + [EXIT])


def mixed():
    """Loads, arithmetic of both widths, stores, jumps over one slot and wide loads, in turn."""
    turn = [
        (0x61, 5, 1, 60, 0),  # ldxw r5, [r1+60]
        (0x57, 5, 0, 0, 511),  # and64 r5, 511
        (0x07, 5, 0, 0, 3),  # add64 r5, 3
        (0xBC, 6, 5, 0, 0),  # mov32 r6, r5
        (0x2F, 6, 5, 0, 0),  # mul64 r6, r5
        (0x7B, 10, 6, -8, 0),  # stxdw [r10-8], r6
        (0x79, 7, 10, -8, 0),  # ldxdw r7, [r10-8]
        (0x25, 5, 0, 1, 124),  # jgt r5, 124, +1
        (0x77, 7, 0, 0, 3),  # rsh64 r7, 3
        (0x4F, 0, 7, 0, 0),  # or64 r0, r7
        (0x18, 8, 0, 0, 7),  # lddw r8, 0x0000000100000007
        (0x00, 0, 0, 0, 1),
        (0xAF, 0, 8, 0, 0),  # xor64 r0, r8
    ]
    instructions = [ZERO_R0]
    while len(instructions) + len(turn) < SLOTS:
        instructions += turn
    instructions += [ZERO_R0] * (SLOTS - 1 - len(instructions))
    return encode(instructions + [EXIT])


def stack():
    """Stores of each size to the stack, and loads of what was stored."""
    draws = random.Random(4)
    instructions = [ZERO_R0] + [(0x7A, 10, 0, -8 * k, k) for k in range(1, 65)]
    while len(instructions) < SLOTS - 1:
        size, at = draws.choice((0x70, 0x68, 0x60, 0x78)), -draws.randrange(8, 512)
        kind = draws.choice((1, 2, 3))
        dst, src = (0, 10) if kind == 1 else (10, 0)
        instructions.append((size + kind, dst, src, at, 0))
    return encode(instructions + [EXIT])


def ladder():
    """A conditional jump in each slot, with edges to the next two."""
    jumps = [(0xA5, 3, 0, 1, 1000 + rung) for rung in range(SLOTS - 3)]  # jlt r3, .., +1
    return encode([ZERO_R0] + jumps + [ZERO_R0, EXIT])


def fan():
    """Conditional jumps in the first half, each to a slot of its own in the second."""
    half = SLOTS // 2
    jumps = [(0x15, 3, 0, half - 2, 1000 + k) for k in range(half - 2)]  # jeq r3, .., +2046
    return encode([ZERO_R0] + jumps + [ZERO_R0] * (SLOTS - 2 - len(jumps)) + [EXIT])


def spills():
    """Eight words of the stack that are kept throughout, stored and loaded again, with a jump in each third slot."""
    instructions = [ZERO_R0] + [(0x7B, 10, 3, -8 * k, 0) for k in range(1, 9)]
    for turn in range((SLOTS - 2 - len(instructions)) // 3):
        place = -8 * (turn % 8 + 1)
        instructions += [(0x79, 5, 10, place, 0), (0xA5, 5, 0, 1, 1000 + turn), (0x7B, 10, 5, place, 0)]
    instructions += [ZERO_R0] * (SLOTS - 1 - len(instructions))
    return encode(instructions + [EXIT])


PROGRAMS = [
    ("straight line", straight(), 400),
    ("mixed", mixed(), 400),
    ("stack", stack(), 400),
    ("spills", spills(), 200),
    ("ladder of jumps", ladder(), 200),
    ("fan of jumps", fan(), 200),
]
