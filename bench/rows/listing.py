#!/usr/bin/env python3
"""Holds what `acdm verify` prints of programs against rows that are written by hand: each form of the listing, numbers with letters, and
each instruction of RFC 9669 that programs may not have.

    python3 bench/rows/listing.py [--program PATH]

The last line is `N cases, M failed`; the status is 1 where one failed, and 77 where there is no program.
"""

import argparse
import pathlib
import re
import subprocess
import sys
import tempfile

PROVED = pathlib.Path(__file__).resolve().parents[2] / "crates" / "acdm" / "out" / "acdm"

# The bytes of each slot, and its text. All of it is one program, which is accepted: r0 is set first, and each jump leads to the next slot.
SLOTS = """
b7000000ffffff7f  mov64 r0, 2147483647
b700000000000080  mov64 r0, -2147483648
b4050000ffffffff  mov32 r5, -1
bf06000000000000  mov64 r6, r0
bc07000000000000  mov32 r7, r0
0700000005000000  add64 r0, 5
0f30000000000000  add64 r0, r3
0400000005000000  add32 r0, 5
0c30000000000000  add32 r0, r3
17000000f6ffffff  sub64 r0, -10
1f30000000000000  sub64 r0, r3
14000000f6ffffff  sub32 r0, -10
1c30000000000000  sub32 r0, r3
2700000002000000  mul64 r0, 2
2f30000000000000  mul64 r0, r3
2400000002000000  mul32 r0, 2
2c30000000000000  mul32 r0, r3
3700000002000000  div64 r0, 2
3f30000000000000  div64 r0, r3
3400000002000000  div32 r0, 2
3c30000000000000  div32 r0, r3
37000100feffffff  sdiv64 r0, -2
3f30010000000000  sdiv64 r0, r3
34000100feffffff  sdiv32 r0, -2
3c30010000000000  sdiv32 r0, r3
470000000f000000  or64 r0, 15
4f30000000000000  or64 r0, r3
440000000f000000  or32 r0, 15
4c30000000000000  or32 r0, r3
570000000f000000  and64 r0, 15
5f30000000000000  and64 r0, r3
540000000f000000  and32 r0, 15
5c30000000000000  and32 r0, r3
670000003f000000  lsh64 r0, 63
6f30000000000000  lsh64 r0, r3
640000001f000000  lsh32 r0, 31
6c30000000000000  lsh32 r0, r3
770000003f000000  rsh64 r0, 63
7f30000000000000  rsh64 r0, r3
740000001f000000  rsh32 r0, 31
7c30000000000000  rsh32 r0, r3
8700000000000000  neg64 r0
8400000000000000  neg32 r0
970000000a000000  mod64 r0, 10
9f30000000000000  mod64 r0, r3
940000000a000000  mod32 r0, 10
9c30000000000000  mod32 r0, r3
970001000a000000  smod64 r0, 10
9f30010000000000  smod64 r0, r3
940001000a000000  smod32 r0, 10
9c30010000000000  smod32 r0, r3
a7000000ff000000  xor64 r0, 255
af30000000000000  xor64 r0, r3
a4000000ff000000  xor32 r0, 255
ac30000000000000  xor32 r0, r3
c70000003f000000  arsh64 r0, 63
cf30000000000000  arsh64 r0, r3
c40000001f000000  arsh32 r0, 31
cc30000000000000  arsh32 r0, r3
bf30080000000000  movsx8_64 r0, r3
bf30100000000000  movsx16_64 r0, r3
bf30200000000000  movsx32_64 r0, r3
bc30080000000000  movsx8_32 r0, r3
bc30100000000000  movsx16_32 r0, r3
d400000010000000  le16 r0
d400000020000000  le32 r0
d400000040000000  le64 r0
dc00000010000000  be16 r0
dc00000020000000  be32 r0
dc00000040000000  be64 r0
d700000010000000  swap16 r0
d700000020000000  swap32 r0
d700000040000000  swap64 r0
0500000000000000  ja +0
0600000000000000  ja32 +0
15000000ffffffff  jeq r0, -1, +0
1d30000000000000  jeq r0, r3, +0
16000000ffffffff  jeq32 r0, -1, +0
1e30000000000000  jeq32 r0, r3, +0
2500000005000000  jgt r0, 5, +0
2d30000000000000  jgt r0, r3, +0
2600000005000000  jgt32 r0, 5, +0
2e30000000000000  jgt32 r0, r3, +0
3500000005000000  jge r0, 5, +0
3d30000000000000  jge r0, r3, +0
3600000005000000  jge32 r0, 5, +0
3e30000000000000  jge32 r0, r3, +0
4500000005000000  jset r0, 5, +0
4d30000000000000  jset r0, r3, +0
4600000005000000  jset32 r0, 5, +0
4e30000000000000  jset32 r0, r3, +0
5500000005000000  jne r0, 5, +0
5d30000000000000  jne r0, r3, +0
5600000005000000  jne32 r0, 5, +0
5e30000000000000  jne32 r0, r3, +0
65000000fbffffff  jsgt r0, -5, +0
6d30000000000000  jsgt r0, r3, +0
66000000fbffffff  jsgt32 r0, -5, +0
6e30000000000000  jsgt32 r0, r3, +0
75000000fbffffff  jsge r0, -5, +0
7d30000000000000  jsge r0, r3, +0
76000000fbffffff  jsge32 r0, -5, +0
7e30000000000000  jsge32 r0, r3, +0
a500000005000000  jlt r0, 5, +0
ad30000000000000  jlt r0, r3, +0
a600000005000000  jlt32 r0, 5, +0
ae30000000000000  jlt32 r0, r3, +0
b500000005000000  jle r0, 5, +0
bd30000000000000  jle r0, r3, +0
b600000005000000  jle32 r0, 5, +0
be30000000000000  jle32 r0, r3, +0
c5000000fbffffff  jslt r0, -5, +0
cd30000000000000  jslt r0, r3, +0
c6000000fbffffff  jslt32 r0, -5, +0
ce30000000000000  jslt32 r0, r3, +0
d5000000fbffffff  jsle r0, -5, +0
dd30000000000000  jsle r0, r3, +0
d6000000fbffffff  jsle32 r0, -5, +0
de30000000000000  jsle32 r0, r3, +0
61107c0000000000  ldxw r0, [r1+124]
69107e0000000000  ldxh r0, [r1+126]
71107f0000000000  ldxb r0, [r1+127]
7910780000000000  ldxdw r0, [r1+120]
8110000000000000  ldxsw r0, [r1+0]
8910010000000000  ldxsh r0, [r1+1]
9110020000000000  ldxsb r0, [r1+2]
7a0af8ff05000000  stdw [r10-8], 5
620af0fffbffffff  stw [r10-16], -5
6a0af0ff05000000  sth [r10-16], 5
720a00feffffffff  stb [r10-512], -1
7b3af8ff00000000  stxdw [r10-8], r3
633af0ff00000000  stxw [r10-16], r3
6b3af0ff00000000  stxh [r10-16], r3
733affff00000000  stxb [r10-1], r3
1805000010325476 0000000098badcfe  lddw r5, 0xfedcba9876543210
18060000efcdab89 0000000067452301  lddw r6, 0x0123456789abcdef
18070000ffffffff 00000000ffffffff  lddw r7, 0xffffffffffffffff
180800000a000000 0000000000000000  lddw r8, 0x000000000000000a
18090000abcdefAB 00000000CDEFabcd  lddw r9, 0xcdabefcdabefcdab
b70100000c000000  mov64 r1, 12
8500000002000000  call 2
9500000000000000  exit
"""

# Each instruction of the conformance groups of RFC 9669 that programs may not have, and those of callx, by which suites of tests know a
# call by a register: the group, the bytes, and the verdict of a program that begins with it.
OTHERS = """
base32    8510000001000000                   refused 304 0
base32    8520000001000000                   refused 304 0
base64    1810000001000000 0000000000000000  refused 304 0
base64    1820000001000000 0000000000000000  refused 304 0
base64    1830000001000000 0000000000000000  refused 304 0
base64    1840000001000000 0000000000000000  refused 304 0
base64    1850000001000000 0000000000000000  refused 304 0
base64    1860000001000000 0000000000000000  refused 304 0
atomic32  c31af8ff00000000                   refused 303 0
atomic32  c31af8ff01000000                   refused 303 0
atomic32  c31af8ff40000000                   refused 303 0
atomic32  c31af8ff41000000                   refused 303 0
atomic32  c31af8ff50000000                   refused 303 0
atomic32  c31af8ff51000000                   refused 303 0
atomic32  c31af8ffa0000000                   refused 303 0
atomic32  c31af8ffa1000000                   refused 303 0
atomic32  c31af8ffe1000000                   refused 303 0
atomic32  c31af8fff1000000                   refused 303 0
atomic64  db1af8ff00000000                   refused 303 0
atomic64  db1af8ff01000000                   refused 303 0
atomic64  db1af8ff40000000                   refused 303 0
atomic64  db1af8ff41000000                   refused 303 0
atomic64  db1af8ff50000000                   refused 303 0
atomic64  db1af8ff51000000                   refused 303 0
atomic64  db1af8ffa0000000                   refused 303 0
atomic64  db1af8ffa1000000                   refused 303 0
atomic64  db1af8ffe1000000                   refused 303 0
atomic64  db1af8fff1000000                   refused 303 0
packet    2000000000000000                   refused 303 0
packet    2800000000000000                   refused 303 0
packet    3000000000000000                   refused 303 0
packet    4000000000000000                   refused 303 0
packet    4800000000000000                   refused 303 0
packet    5000000000000000                   refused 303 0
callx     8d00000000000000                   refused 303 0
"""


def rows():
    """The bytes of all slots, and their lines."""
    code, lines = b"", []
    for line in SLOTS.split("\n")[1:-1]:
        digits, _, text = line.partition("  ")
        lines.append(f"{len(code) // 8}: {text}")
        code += bytes.fromhex(digits)
        if " " in digits:
            lines.append(f"{len(code) // 8 - 1}: -")
    return code, [*lines, f"accepted {len(lines)}"]


def others():
    """The bytes of each program that is refused for its first instruction, and its verdict."""
    for line in OTHERS.split("\n")[1:-1]:
        _, digits, verdict = re.fullmatch(r"(\w+) +([0-9a-f ]+?) +(refused \d+ \d+)", line).groups()
        yield bytes.fromhex(digits) + bytes.fromhex("b7000000000000009500000000000000"), verdict


def printed(program, code):
    """The lines that the program prints of these bytes."""
    with tempfile.NamedTemporaryFile() as file:
        file.write(code)
        file.flush()
        words = [program, "verify", file.name]
        return subprocess.run(words, capture_output=True, text=True, timeout=60, check=False).stdout.splitlines()


def main():
    words = argparse.ArgumentParser(description="Holds the listing of a program against rows by hand.")
    words.add_argument("--program", type=pathlib.Path, default=PROVED)
    program = words.parse_args().program
    if not program.is_file():
        print(f"left out: there is no {program}")
        return 77
    code, wanted = rows()
    found = printed(program, code)
    failed = abs(len(found) - len(wanted))
    for one, other in zip(wanted, found):
        if one != other:
            failed += 1
            print(f"FAILED wanted {one!r}, found {other!r}")
    count = len(wanted)
    for code, verdict in others():
        count += 1
        if printed(program, code) != [verdict]:
            failed += 1
            print(f"FAILED {code.hex()}: wanted {verdict!r}, found {printed(program, code)!r}")
    print(f"{count} cases, {failed} failed")
    return 1 if failed else 0


if __name__ == "__main__":
    sys.exit(main())
