"""What the tables of ranges in docs/FORMATS.md say, as plain functions of whole numbers.

accepted.py takes from here what each of its rows expects. This was read from the tables apart from the program and from
bench/model, so that a row in which two readings differ shows. A range is a pair of its least and its greatest number.
"""


def full(width):
    return 0, 2**width - 1


def is_single(a):
    return a[0] == a[1]


def reduced(a):
    """What an operation of 32 bits sees of an operand."""
    if a[0] // 2**32 == a[1] // 2**32:
        return a[0] % 2**32, a[1] % 2**32
    return full(32)


def signed(number, width):
    return number - 2**width if number >= 2 ** (width - 1) else number


def truncated(x, y):
    """The quotient, rounded toward zero."""
    return abs(x) // abs(y) * (1 if (x < 0) == (y < 0) else -1)


def of_numbers(name, width, x, y):
    """What the machine makes of two numbers below 2^width."""
    count = y % width
    sx, sy = signed(x, width), signed(y, width)
    made = {
        "mov": lambda: y,
        "add": lambda: x + y,
        "sub": lambda: x - y,
        "mul": lambda: x * y,
        "div": lambda: x // y if y else 0,
        "mod": lambda: x % y if y else x,
        "sdiv": lambda: truncated(sx, sy) if y else 0,
        "smod": lambda: sx - truncated(sx, sy) * sy if y else x,
        "or": lambda: x | y,
        "and": lambda: x & y,
        "xor": lambda: x ^ y,
        "lsh": lambda: x << count,
        "rsh": lambda: x >> count,
        "arsh": lambda: sx >> count,
    }[name]()
    return made % 2**width


def within_a_turn(least, greatest, width):
    """Both ends modulo 2^width, where no multiple of it lies between them."""
    if least // 2**width == greatest // 2**width:
        return least % 2**width, greatest % 2**width
    return full(width)


def filled(a, b):
    """The least 2^k - 1 that no greatest number of the two exceeds."""
    number = 0
    while number < max(a[1], b[1]):
        number = 2 * number + 1
    return number


def of_ranges(name, width, a, b):
    """The range of what an operation of ALU or ALU64 makes of a destination and an operand."""
    if width == 32:
        a, b = reduced(a), reduced(b)
    if name == "mov":
        return b
    if is_single(a) and is_single(b):
        return (of_numbers(name, width, a[0], b[0]),) * 2
    (al, ah), (bl, bh) = a, b
    if name == "add":
        return within_a_turn(al + bl, ah + bh, width)
    if name == "sub":
        return within_a_turn(al - bh, ah - bl, width)
    if name == "mul":
        return (al * bl, ah * bh) if ah * bh < 2**width else full(width)
    if name == "div":
        return (al // bh, ah // bl) if bl >= 1 else (0, ah)
    if name == "mod":
        if bl < 1:
            return 0, ah
        return a if ah < bl else (0, min(ah, bh - 1))
    if name == "and":
        return 0, min(ah, bh)
    if name == "or":
        return max(al, bl), filled(a, b)
    if name == "xor":
        return 0, filled(a, b)
    if name == "lsh":
        scale = 2 ** (bl % width)
        return (al * scale, ah * scale) if is_single(b) and ah * scale < 2**width else full(width)
    if name == "rsh":
        scale = 2 ** (bl % width)
        return (al // scale, ah // scale) if is_single(b) else (0, ah)
    assert name in ("arsh", "sdiv", "smod")
    return full(width)


def negated(width, a):
    if width == 32:
        a = reduced(a)
    return (-a[0] % 2**width,) * 2 if is_single(a) else full(width)


def sign_extended(part, width, b):
    """The range of a move that extends the low bits of its source."""
    if width == 32:
        b = reduced(b)
    if is_single(b):
        return (signed(b[0] % 2**part, part) % 2**width,) * 2
    return b if b[1] < 2 ** (part - 1) else full(width)


def in_order(order, bits, a):
    """The range of END."""
    if is_single(a):
        low = a[0] % 2**bits
        made = low if order == "le" else int.from_bytes(low.to_bytes(bits // 8, "little"), "big")
        return made, made
    return a if order == "le" and a[1] < 2**bits else full(bits)


def loaded(size, is_sign_extending=False):
    return full(64) if is_sign_extending else full(8 * size)


def without(a, b):
    """a without the number of b, where b has one and it is an end of a."""
    lo, hi = a
    if is_single(b):
        lo += b[0] == a[0]
        hi -= b[0] == a[1]
    return lo, hi


def is_less(a, b):
    return (a[0], min(a[1], b[1] - 1)), (max(b[0], a[0] + 1), b[1])


def is_at_most(a, b):
    return (a[0], min(a[1], b[1])), (max(b[0], a[0]), b[1])


def is_equal(a, b):
    both = max(a[0], b[0]), min(a[1], b[1])
    return both, both


def is_unequal(a, b):
    return without(a, b), without(b, a)


def exchanged(rule):
    return lambda a, b: rule(b, a)[::-1]


# What holds where each comparison is taken, and where it is not.
COMPARISONS = {
    "jeq": (is_equal, is_unequal),
    "jne": (is_unequal, is_equal),
    "jlt": (is_less, exchanged(is_at_most)),
    "jle": (is_at_most, exchanged(is_less)),
    "jgt": (exchanged(is_less), is_at_most),
    "jge": (exchanged(is_at_most), is_less),
}


def on_edge(name, width, a, b, is_taken):
    """Both sides on an edge of a conditional jump, or None where there is no such edge."""
    if name not in COMPARISONS or width == 32 and max(a[1], b[1]) >= 2**32:
        return a, b
    a, b = COMPARISONS[name][0 if is_taken else 1](a, b)
    return (a, b) if a[0] <= a[1] and b[0] <= b[1] else None


def hull(a, b):
    return min(a[0], b[0]), max(a[1], b[1])


RECORD = 0x1_0000_0000, 0x1_0000_007F
STACK = 0x2_0000_0000, 0x2_0000_01FF


def address_fault(base, offset, size, is_store, is_marked=lambda address: True):
    """The fault of an access of so many bytes at a range of addresses, 0 for none."""
    first, last = base[0] + offset, base[1] + offset + size - 1
    lies_in = [region for region in (RECORD, STACK) if region[0] <= first and last <= region[1]]
    if not lies_in:
        return 309
    if is_store:
        return 311 if lies_in == [RECORD] else 0
    if lies_in == [STACK] and not all(is_marked(address) for address in range(first, last + 1)):
        return 310
    return 0
