"""The forms of instructions (RFC 9669, and docs/FORMATS.md): how a slot is spelled, and what C says of it."""

ALU = {
    "add": 0x0, "sub": 0x1, "mul": 0x2, "div": 0x3, "or": 0x4, "and": 0x5, "lsh": 0x6, "rsh": 0x7,
    "mod": 0x9, "xor": 0xA, "mov": 0xB, "arsh": 0xC, "sdiv": 0x3, "smod": 0x9,
}
JUMPS = {
    "jeq": 0x1, "jgt": 0x2, "jge": 0x3, "jset": 0x4, "jne": 0x5, "jsgt": 0x6, "jsge": 0x7,
    "jlt": 0xA, "jle": 0xB, "jslt": 0xC, "jsle": 0xD,
}
LOADS = {"ldxw": (0x61, 4), "ldxh": (0x69, 2), "ldxb": (0x71, 1), "ldxdw": (0x79, 8)}
SIGNED_LOADS = {"ldxsw": (0x81, 4), "ldxsh": (0x89, 2), "ldxsb": (0x91, 1)}
STORES = {"stw": (0x62, 4), "sth": (0x6A, 2), "stb": (0x72, 1), "stdw": (0x7A, 8)}
STORES_X = {"stxw": (0x63, 4), "stxh": (0x6B, 2), "stxb": (0x73, 1), "stxdw": (0x7B, 8)}
ENDS = {"le": 0xD4, "be": 0xDC, "swap": 0xD7}

RECORD = 0x1_0000_0000
STACK_END = 0x2_0000_0200


def all_forms():
    """The name of each form of the table, in each width, with a register or an immediate."""
    names = []
    for width in ("64", "32"):
        for code in ALU:
            names += [f"{code}{width} imm", f"{code}{width} reg"]
        names += [f"movsx{part}_{width} reg" for part in (8, 16, 32) if part < int(width)]
        names.append(f"neg{width}")
        for code in JUMPS:
            suffix = "" if width == "64" else "32"
            names += [f"{code}{suffix} imm", f"{code}{suffix} reg"]
    names += [f"{order}{width}" for order in ENDS for width in (16, 32, 64)]
    names += ["ja", "ja32", "call", "exit", "lddw", *LOADS, *SIGNED_LOADS, *STORES, *STORES_X]
    return names


def slot(opcode, dst=0, src=0, offset=0, imm=0):
    """The eight bytes of a slot."""
    return (
        bytes([opcode, dst | src << 4])
        + offset.to_bytes(2, "little", signed=True)
        + (imm % 2**32).to_bytes(4, "little")
    )


def alu(name, width, dst, imm=None, src=None):
    """An operation of a register and an immediate or a register."""
    opcode = 16 * ALU[name] + (7 if width == 64 else 4)
    offset = 1 if name in ("sdiv", "smod") else 0
    if src is None:
        return slot(opcode, dst, 0, offset, imm)
    return slot(opcode + 8, dst, src, offset)


def movsx(part, width, dst, src):
    return slot(0xBF if width == 64 else 0xBC, dst, src, part)


def neg(width, dst):
    return slot(0x87 if width == 64 else 0x84, dst)


def end(order, bits, dst):
    return slot(ENDS[order], dst, 0, 0, bits)


def ja(offset):
    return slot(0x05, offset=offset)


def ja32(offset):
    return slot(0x06, imm=offset)


def jump(name, width, dst, offset, imm=None, src=None):
    opcode = 16 * JUMPS[name] + (5 if width == 64 else 6)
    if src is None:
        return slot(opcode, dst, 0, offset, imm)
    return slot(opcode + 8, dst, src, offset)


def call(helper):
    return slot(0x85, imm=helper)


def exit_():
    return slot(0x95)


def ldx(name, dst, base, offset):
    opcode, _ = {**LOADS, **SIGNED_LOADS}[name]
    return slot(opcode, dst, base, offset)


def st(name, base, offset, imm):
    return slot(STORES[name][0], base, 0, offset, imm)


def stx(name, base, offset, src):
    return slot(STORES_X[name][0], base, src, offset)


def lddw(dst, value):
    """A wide load has two slots."""
    return slot(0x18, dst, 0, 0, value % 2**32) + bytes(4) + (value // 2**32).to_bytes(4, "little")


class Slot:
    """A slot of a program, taken apart."""

    def __init__(self, data):
        self.opcode = data[0]
        self.dst, self.src = data[1] % 16, data[1] // 16
        self.offset = int.from_bytes(data[2:4], "little", signed=True)
        self.imm = int.from_bytes(data[4:8], "little", signed=True)

    def form(self):
        """The name of the slot's form, of a slot that is no tail."""
        low, high = self.opcode % 8, self.opcode // 16
        from_register = self.opcode & 8 != 0
        kind = " reg" if from_register else " imm"
        for table in (LOADS, SIGNED_LOADS, STORES, STORES_X):
            for name, (opcode, _) in table.items():
                if opcode == self.opcode:
                    return name
        fixed = {0x05: "ja", 0x06: "ja32", 0x85: "call", 0x95: "exit", 0x18: "lddw", 0x87: "neg64", 0x84: "neg32"}
        if self.opcode in fixed:
            return fixed[self.opcode]
        for order, opcode in ENDS.items():
            if opcode == self.opcode:
                return f"{order}{self.imm}"
        if low in (5, 6):
            name = next(n for n, c in JUMPS.items() if c == high)
            return name + ("" if low == 5 else "32") + kind
        width = 64 if low == 7 else 32
        if high == 0xB and self.offset != 0:
            return f"movsx{self.offset}_{width} reg"
        signed = {"div": "sdiv", "mod": "smod"}
        name = next(n for n, c in ALU.items() if c == high)
        return (signed[name] if self.offset == 1 else name) + str(width) + kind


def slots(program):
    """The slots of a program with their numbers, without the tails of wide loads."""
    number = 0
    while number < len(program) // 8:
        here = Slot(program[8 * number : 8 * number + 8])
        yield number, here
        number += 2 if here.opcode == 0x18 else 1
