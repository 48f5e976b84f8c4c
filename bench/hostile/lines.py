#!/usr/bin/env python3
"""Sends the built `acdm run` lines that no partner would send, and compares its replies with the model in bench/model.

    python3 bench/hostile/lines.py [--program PATH] [--seed S] [--lines N] [--stride N]

Each change of one byte of thirteen worked lines, and each cut of them; bytes that are no UTF-8, of each kind; keys twice; numbers at each
limit and beside it; JSON nested 1 to 200 deep, and of each length below 2,100; lines of 70,000 bytes and of more; N lines with changes by
chance; and 10,000,000 bytes without a line feed, in bounded memory, in `run` and in a session. A case is a line. `--stride` takes every
N-th of the lines with a changed byte alone. The last line is `N cases, M failed`; status 1 where one failed. The same words send the same
lines.
"""

import itertools
import random
import socket
import subprocess
import sys

from cases import ALERTS, LOAD, PLAN, SCHEDULE, TARGET, TOP, Cases, ran, words

sys.path.insert(0, str(TOP / "bench" / "model"))
sys.path.insert(0, str(TOP / "bench"))

from board import replies  # noqa: E402
from peak import peak  # noqa: E402

CAPACITY = 1_000_000
PROGRAM = "b7000000000000009500000000000000"
WORKED = [
    (b"1 29000580 APT ", SCHEDULE),
    (b"2 29000580 NM ", PLAN),
    (b"3 29000700 ATC ", '{"cmd":"report","flight":7,"milestone":6,"time":"2025-02-20T09:00:00Z"}'),
    (b"5 29000580 GH ", TARGET),
    (b"64 29000580 GH ", '{"cmd":"report","flight":7,"milestone":9,"time":null}'),
    (b"1 29000580 APT ", LOAD),
    (b"1 29000580 APT ", '{"cmd":"unload","milestone":9,"kind":"alert"}'),
    (b"1 4294967295 APT ", '{"cmd":"tick"}'),
    (b"4 29000580 AO ", '{"cmd":"show","flight":7}'),
    (b"2 29000580 NM ", ALERTS),
    (b"1 29000580 APT ", '{"cmd":"migrate"}'),
    (b"6 29000580 DIC ", '{"cmd":"deice","flight":7,"field":"aezt","time":"2025-02-20T07:30:00Z"}'),
    (b"1 29000580 APT ", LOAD[:-1] + ',"length":160}'),
]
LINES = [front + json.encode() for front, json in WORKED]
START = LINES[:2]
# The model reads times in fewer forms than the program, so a byte of a time is changed to these alone, and none by chance.
OF_TIMES = b'0123456789:-+TZ."\\\x00\x7f\x80\xff'
BIG = 10_000_000
# What reading such lines may take of memory.
BOUND = 8 << 20


def answers(program, stream, capacity=CAPACITY):
    done = ran(program, ["run", "--journal", str(capacity)], stream)
    return done.returncode, done.stdout.decode().splitlines()


def compare(cases, program, name, lines):
    """All lines in one run; where it differs, the lines one by one after the start of a board."""
    stream = b"".join(line + b"\n" for line in lines)
    sent = stream.split(b"\n")[:-1]
    status, found = answers(program, stream)
    owed = list(replies(iter(sent), CAPACITY))
    if status == 0 and found == owed:
        cases.count += len(sent)
        return
    for line in sent:
        one = [*START, line]
        status, found = answers(program, b"".join(it + b"\n" for it in one), len(one))
        cases.expect(name, status == 0 and found == list(replies(iter(one), len(one))), (line[:400], found))


def time_places(line):
    """The places of a line in which a time stands."""
    places = set()
    for key in (b'"sobt":"', b'"time":"'):
        if key in line:
            first = line.index(key) + len(key)
            places |= {*range(first, line.index(b'"', first))}
    return places


def changed(line):
    """The line with each byte changed to each other one."""
    times = time_places(line)
    for place in range(len(line)):
        for byte in OF_TIMES if place in times else range(256):
            if byte != line[place]:
                yield line[:place] + bytes([byte]) + line[place + 1 :]


def cut(line):
    return [line[:place] for place in range(len(line) + 1)]


# Sequences that are no UTF-8: continuations alone, sequences cut, overlong forms, surrogates, above the last scalar, and bytes of none.
NO_TEXT = [bytes([byte]) for byte in (*range(0x80, 0xC2), *range(0xF5, 0x100))]
NO_TEXT += [bytes([lead]) for lead in range(0xC2, 0xF5)] + [bytes([lead, 0x28]) for lead in range(0xC2, 0xF5)]
NO_TEXT += [bytes([lead, 0x80]) for lead in range(0xC0, 0xC2)]
NO_TEXT += [bytes([0xE0, second, 0x80]) for second in range(0x80, 0xA0)]
NO_TEXT += [bytes([0xED, second, 0x80]) for second in range(0xA0, 0xC0)]
NO_TEXT += [bytes([0xF0, second, 0x80, 0x80]) for second in range(0x80, 0x90)]
NO_TEXT += [bytes([0xF4, second, 0x80, 0x80]) for second in range(0x90, 0xC0)]
NO_TEXT += [bytes([0xE2, 0x82]), bytes([0xE2, 0x82, 0x28]), bytes([0xF0, 0x90, 0x80]), bytes([0xF0, 0x90, 0x80, 0x28])]
TEXTS = ["\u0080", "\u07ff", "\u0800", "\ud7ff", "\ue000", "\uffff", "\U00010000", "\U0010ffff", "\ufeff"]


def around(part):
    """Lines with some bytes as a value, a key, a field, and beside the JSON."""
    yield b'1 29000580 APT {"cmd":"tick","x":"' + part + b'"}'
    yield b'1 29000580 APT {"cmd":"tick","' + part + b'":1}'
    yield b'1 29000580 APT {"cmd":"show","flight":7,"x":["' + part + b'"]}'
    yield START[0].replace(b"DLH7", b"D" + part)
    yield b'1 29000580 APT {"cmd":"tick"}' + part
    yield b"1 29000580 APT " + part
    yield part


def no_text():
    return [line for part in [*NO_TEXT, *(it.encode() for it in TEXTS)] for line in around(part)]


VALUES = ["0", "1", "7", "-1", "-0", "7.0", "7e0", "null", "true", '"7"', '""', "[]", "{}", "18446744073709551616"]


def twice():
    """Each key of each line once more behind and before, with other values."""
    for front, json in WORKED:
        keys = [part.rsplit('"', 2)[1] for part in json.split('":')[:-1]]
        for key in keys:
            for value in [*VALUES, '"tick"', '"alert"', '"2025-02-20T10:00:00Z"']:
                more = f'"{key}":{value}'
                yield front + f"{json[:-1]},{more}}}".encode()
                yield front + f"{{{more},{json[1:]}".encode()


LIMITS = {
    "flight": (1, 2**64 - 1), "milestone": (1, 16), "mttt": (0, 1440), "exit": (0, 255), "exot": (0, 1440), "stand": (0, 65535),
}  # fmt: skip
FORMS = ("{}", "-{}", "0{}", "{}.0", "{}e0", "+{}", '"{}"', " {} ")


def numbers():
    """Each number of each line at its limits, beside them, and in other forms."""
    for front, json in WORKED:
        for key, limits in LIMITS.items():
            if f'"{key}":' not in json:
                continue
            before, behind = json.split(f'"{key}":')
            rest = behind[behind.index(min("," + "}", key=lambda end: behind.find(end) % (1 << 30))) :]
            for limit in limits:
                for number in {max(limit - 1, 0), limit, limit + 1, 2**63, 2**64, 10**30}:
                    for form in FORMS:
                        yield front + f'{before}"{key}":{form.format(number)}{rest}'.encode()
    for session in (0, 1, 64, 65, 2**64):
        for minute in (0, 1, 2**32 - 1, 2**32, 2**64):
            for form in ("{}", "0{}", "+{}", " {}", "{} "):
                yield f'{form.format(session)} {minute} APT {{"cmd":"tick"}}'.encode()
                yield f'{session} {form.format(minute)} APT {{"cmd":"tick"}}'.encode()


def nested():
    for depth in range(1, 201):
        for first, last in ((b"[", b"]"), (b'{"x":', b"}")):
            yield b'1 29000580 APT {"cmd":"tick","x":' + first * depth + b"0" + last * depth + b"}"
            yield b'1 29000580 APT {"cmd":"tick","x":' + first * depth


def padded():
    for length in (69_999, 70_000, 70_001, 70_002, 140_000, 500_000):
        for line in (LINES[7], LINES[5], b"", b"\xff"):
            yield line.ljust(length, b" ")
            yield b" " * (length - len(line)) + line


def lengths():
    """JSON of each length below 2,100, and then of some: with ample memory there is room for each."""
    front, text = b"1 29000580 APT ", b'{"cmd":"show","flight":9'
    powers = (2**power + beside for power in range(11, 17) for beside in (-1, 0, 1))
    for length in (*range(len(text) + 1, 2_100), *powers, *range(2_100, 69_900, 509)):
        yield front + text.ljust(length - 1, b" ") + b"}"


def by_chance(chance, count):
    """Lines with some bytes changed, put in, taken out, or taken from another line."""
    for _ in range(count):
        line = chance.choice(LINES)
        times = sorted(time_places(line)) or [len(line), len(line) - 1]
        parts = [bytearray(line[: times[0]]), line[times[0] : times[-1] + 1], bytearray(line[times[-1] + 1 :])]
        for _ in range(chance.randint(1, 4)):
            part = parts[0] if chance.random() < len(parts[0]) / len(line) or len(parts[2]) < 2 else parts[2]
            if len(part) > 1:
                change(chance, part, chance.randrange(1, len(part)))
        yield b"".join(parts)


def change(chance, part, place):
    """Changes bytes from a place on, or puts some in."""
    kind = chance.randrange(4)
    if kind == 0:
        part[place : place + 1] = bytes([chance.randrange(256)])
    elif kind == 1:
        part[place:place] = bytes([chance.choice(b'{}[],:"0189\\ -.e\x00\x1f\x7f\xc3\xff')])
    elif kind == 2:
        del part[place : min(place + chance.randint(1, 8), len(part) - 1)]
    else:
        other = chance.choice(LINES)
        first = chance.randrange(len(other))
        part[place:place] = other[first : first + chance.randint(1, 12)]


def endless_line(cases, program):
    """A line of ten million bytes is one fault, and is not kept."""
    pipes = {"stdin": subprocess.PIPE, "stdout": subprocess.PIPE}
    with subprocess.Popen([str(program), "run"], **pipes) as server:
        server.stdin.write(LINES[7] + b"\n")
        server.stdin.flush()
        first = server.stdout.readline()
        before = peak(server.pid)
        server.stdin.write(b"x" * BIG + b"\n" + LINES[7] + b"\n")
        server.stdin.flush()
        told = [first, server.stdout.readline(), server.stdout.readline()]
        taken = peak(server.pid) - before
        server.stdin.write(b"x" * BIG)
        server.stdin.close()
        told.append(server.stdout.read())
        cases.expect("a long line", told == [b"ok 0\n", b"bad 105\n", b"ok 1\n", b"bad 105\n"], told)
        cases.expect("memory for a long line", taken <= BOUND, taken)
        cases.expect("status after a long line", server.wait() == 0)


def endless_session(cases, program):
    command = [str(program), "serve", "APT=127.0.0.1:0"]
    with subprocess.Popen(command, stdin=subprocess.DEVNULL, stdout=subprocess.PIPE) as server:
        port = int(server.stdout.readline().rsplit(b":", 1)[1])
        with socket.create_connection(("127.0.0.1", port)) as partner, partner.makefile("rb") as replies_of:
            partner.sendall(b'{"cmd":"tick"}\n')
            told = [replies_of.readline()]
            before = peak(server.pid)
            partner.sendall(b"x" * BIG + b'\n{"cmd":"tick"}\n')
            told += [replies_of.readline(), replies_of.readline()]
            taken = peak(server.pid) - before
        cases.expect("a session's long line", told == [b"ok 0\n", b"bad 105\n", b"ok 1\n"], told)
        cases.expect("memory for a session's long line", taken <= BOUND, taken)
        cases.expect("status after a session's long line", server.wait() == 0)


def main():
    parser = words(__doc__)
    parser.add_argument("--seed", type=int, default=1, metavar="S")
    parser.add_argument("--lines", type=int, default=100_000, metavar="N")
    parser.add_argument("--stride", type=int, default=1, metavar="N")
    given = parser.parse_args()
    cases, program = Cases(), given.program.resolve()
    for place, line in enumerate(LINES):
        compare(cases, program, f"a byte of line {place}", [*START, *itertools.islice(changed(line), 0, None, given.stride)])
        compare(cases, program, f"a cut of line {place}", [*START, *cut(line)])
    chance = random.Random(given.seed)
    for name, lines in (
        ("no text", no_text()), ("twice", twice()), ("numbers", numbers()), ("nested", nested()), ("padded", padded()),
        ("lengths", lengths()), ("by chance", by_chance(chance, given.lines)),
    ):  # fmt: skip
        compare(cases, program, name, [*START, *lines])
    endless_line(cases, program)
    endless_session(cases, program)
    return cases.end()


if __name__ == "__main__":
    sys.exit(main())
