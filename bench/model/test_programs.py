#!/usr/bin/env python3
"""Worked programs with the verdicts and answers that the rules give by hand: `python3 bench/model/test_programs.py`."""

import unittest
from pathlib import Path

from board import Flight
from programs import HELPERS, Fault, Insn, accepted, decode, holds, run, verify, word_result

EXIT = "9500000000000000"
ZERO = "b700000000000000"
EXAMPLES = Path(__file__).resolve().parents[2] / "examples" / "rules"


# Of a pointer or a number that is kept on the stack: with a change of each row beside it.
KEPT, BACK, READ = "7b1af8ff00000000", "79a1f8ff00000000", "71103f0000000000" + EXIT
CLEARED = "b701000000000000"
SPILLS = (
    (KEPT + CLEARED + BACK + READ, "accepted 5"),
    (KEPT + "720affff00000000" + CLEARED + BACK + READ, "309 4"),
    (KEPT + "720af7ff00000000" + CLEARED + BACK + READ, "accepted 6"),
    ((KEPT + CLEARED + BACK + READ).replace("f8ff", "f4ff"), "309 3"),
    (KEPT + "1504010001000000" "7b2af8ff00000000" + BACK + READ, "309 4"),
    (KEPT + "1504010001000000" + KEPT + BACK + READ, "accepted 6"),
    ("7a0af8ffffffffff" "79a0f8ff00000000" "5500010000000000" "b701000000000000" + READ, "accepted 6"),
)


def flight(kind=b"A320", stand=12, local=0, landed=False, **times):
    """The flight of the worked lines: scheduled and planned, MTTT 40, EXIT 5, EXOT 10, stand 12; or another."""
    made = Flight(7, b"DLH7", reached=67 if landed else 3, mttt=40, exot=10, stand=stand, exit=5)
    made.alerts = local << 16
    made.scheduled = made.plan = {"type": kind, "reg": b"DAIBC", "dest": b"EDDM"}
    made.times.update({"sobt": 29_000_760, "eobt": 29_000_760, **times})
    return made.record()


def verdict(digits, length=128):
    try:
        return f"accepted {len(accepted(bytes.fromhex(digits), length))}"
    except Fault as fault:
        return f"{fault.code} {fault.slot}"


def ended(digits, milestone=1, now=29_000_700):
    found = run(accepted(bytes.fromhex(digits)), flight(), now, milestone)
    return found.r0, found.steps


class Words(unittest.TestCase):
    """Arithmetic on words, by RFC 9669, sections 4.1 to 4.3."""

    def test_results(self):
        most, low, high = 2**64 - 1, 2**32 - 1, 2**63
        rows = (
            ("add", 64, 0, most, 1, 0), ("add", 32, 0, low, 1, 0), ("add", 32, 0, most, 0, low), ("sub", 64, 0, 0, 1, most),
            ("sub", 32, 0, 0, 1, low), ("mul", 64, 0, high, 3, high), ("mul", 32, 0, 0x10000, 0x10003, 0x30000),
            ("div", 64, 0, 7, 2, 3), ("div", 64, 0, most, 2, high - 1), ("div", 64, 0, 7, 0, 0), ("div", 32, 0, most, 2, low // 2),
            ("div", 64, 1, most - 6, 2, most - 2), ("div", 64, 1, 7, most - 1, most - 2), ("div", 64, 1, high, most, high),
            ("div", 32, 1, low - 6, 2, low - 2), ("div", 32, 1, 2**31, low, 2**31), ("div", 64, 1, most - 6, 0, 0),
            ("mod", 64, 0, 7, 2, 1), ("mod", 64, 0, most, 0, most), ("mod", 32, 0, most, 0, low), ("mod", 32, 0, most, 16, 15),
            ("mod", 64, 1, most - 6, 2, most), ("mod", 64, 1, 7, most - 1, 1), ("mod", 64, 1, high, most, 0),
            ("or", 64, 0, 12, 10, 14), ("and", 64, 0, 12, 10, 8), ("xor", 64, 0, 12, 10, 6), ("and", 32, 0, most, most, low),
            ("lsh", 64, 0, 3, 65, 6), ("lsh", 32, 0, 3, 33, 6), ("lsh", 32, 0, 3, 31, 2**31), ("rsh", 64, 0, most, 63, 1),
            ("rsh", 32, 0, most, 31, 1), ("arsh", 64, 0, most - 7, 1, most - 3), ("arsh", 32, 0, 2**31, 31, low),
            ("arsh", 64, 0, 8, 1, 4), ("neg", 64, 0, 1, 0, most), ("neg", 32, 0, 1, 0, low), ("mov", 64, 0, 1, most, most),
            ("mov", 32, 0, 1, most, low), ("mov", 64, 8, 1, 0x180, most - 127), ("mov", 64, 16, 1, 0x8000, most - 0x7FFF),
            ("mov", 64, 32, 1, 2**31, most - low // 2), ("mov", 64, 8, 1, 0x17F, 0x7F), ("mov", 32, 8, 1, 0x80, low - 127),
        )  # fmt: skip
        for kind, width, off, left, right, wanted in rows:
            self.assertEqual(word_result(Insn(kind, 1, 2, off, 0, width, True), left, right), wanted, (kind, width, off, left, right))
        word = 0x1122334455667788
        for kind, bits, wanted in (
            ("little", 16, 0x7788), ("little", 32, 0x55667788), ("little", 64, word), ("big", 16, 0x8877),
            ("big", 32, 0x88776655), ("swap", 16, 0x8877), ("swap", 64, 0x8877665544332211),
        ):  # fmt: skip
            self.assertEqual(word_result(Insn(kind, 1, 0, 0, bits), word, 0), wanted, (kind, bits))

    def test_comparisons(self):
        """Each with a smaller, the same and a greater word, unsigned and signed; of 32 bits the upper half counts not."""
        orders = {
            "jeq": "nyn", "jne": "yny", "jgt": "nny", "jge": "nyy", "jlt": "ynn", "jle": "yyn",
            "jsgt": "nny", "jsge": "nyy", "jslt": "ynn", "jsle": "yyn",
        }  # fmt: skip
        for kind, wanted in orders.items():
            for width in (32, 64):
                minus = 2**width - 1
                words = ((minus, 0), (0, 0), (0, minus)) if kind.startswith("js") else ((0, minus), (minus, minus), (minus, 0))
                found = "".join("ny"[holds(Insn(kind, 1, 2, 0, 0, width, True), *pair)] for pair in words)
                self.assertEqual(found, wanted, (kind, width))
        for left, right, wanted in ((6, 1, False), (6, 2, True), (2**32, 2**32, True)):
            self.assertEqual(holds(Insn("jset", 1, 2, 0, 0, 64, True), left, right), wanted)
        self.assertFalse(holds(Insn("jset", 1, 2, 0, 0, 32, True), 2**32, 2**32))

    def test_the_helpers_of_the_page(self):
        """docs/FORMATS.md, "Helpers": arguments, answers, tables, and the answers otherwise."""
        most = 2**32 - 1
        ranges = {number: (it.arguments, it.answer) for number, it in HELPERS.items()}
        minutes = ((0, most), (0, 10_000)), (0, 4_294_977_295)
        self.assertEqual(ranges, {1: (((0, most),), (1, 1440)), 2: (((0, 999),), (1, 60)), 3: minutes})
        tables = {1: {808596289: 45, 942880578: 45, 943207233: 120}, 2: {12: 10, 120: 15, 900: 20}, 3: {}}
        self.assertEqual({number: it.table for number, it in HELPERS.items()}, tables)
        for stand, taxi in ((0, 10), (12, 10), (99, 10), (100, 15), (120, 15), (499, 15), (500, 20), (900, 20), (999, 20)):
            self.assertEqual(HELPERS[2].code(stand), taxi, stand)
        self.assertEqual([HELPERS[1].code(kind) for kind in (0, 808596289, most)], [60, 45, 60])
        self.assertEqual(HELPERS[3].code(most, 10_000), 4_294_977_295)
        for stand, answer, wanted in ((13, 1, True), (13, 60, True), (13, 0, False), (13, 61, False), (12, 10, True), (12, 11, False)):
            self.assertEqual(HELPERS[2].promises((stand,), answer), wanted, (stand, answer))


class Encoding(unittest.TestCase):
    def test_first_faults_of_bytes(self):
        rows = (
            ("", "301 0"),
            ("00" * 12, "301 0"),
            ("b700000000000000" * 4097, "302 0"),
            ("ff00000000000000", "303 0"),
            ("9500010000000000", "304 0"),
            ("b70b000000000000", "305 0"),
            ("1800000001000000", "315 0"),
            ("1800000001000000" "0100000000000000", "304 1"),
            ("180b000001000000", "305 0"),
            ("b7b0000000000000", "304 0"),
            (ZERO + "c300000000000000" + EXIT, "303 1"),
            (ZERO + "df00000040000000" + EXIT, "303 1"),
            (ZERO + "9f00000000000000" + EXIT, "accepted 3"),
            (ZERO + "bf00200000000000" + EXIT, "accepted 3"),
            (ZERO + "bc00200000000000" + EXIT, "304 1"),
        )
        for digits, expected in rows:
            self.assertEqual(verdict(digits), expected, digits[:64])

    def test_a_wide_load_is_one_instruction_of_two_slots(self):
        program = decode(bytes.fromhex("1801000001000000" "0000000002000000" + ZERO + EXIT))
        self.assertEqual((program[0].kind, program[0].tail, program[0].imm, program[1]), ("wide", 2, 1, None))


class Verdicts(unittest.TestCase):
    def test_jumps_ends_and_registers(self):
        rows = (
            (ZERO + EXIT, "accepted 2"),
            (EXIT, "308 0"),
            (ZERO * 4095 + EXIT, "accepted 4096"),
            ("0500000000000000" * 4095 + EXIT, "308 4095"),
            ("0500ffff00000000" + EXIT, "306 0"),
            (ZERO + "0500010000000000" "1801000001000000" "0000000000000000" + EXIT, "306 1"),
            (ZERO + "0500030000000000" "1801000001000000" "0000000000000000" + EXIT, "306 1"),
            (ZERO + "0500020000000000" "1801000001000000" "0000000000000000" + EXIT, "accepted 5"),
            (ZERO, "307 0"),
            ("1800000001000000" "0000000000000000", "307 0"),
            ("1504010001000000" "b700000005000000" + EXIT, "308 2"),
            ("b700000009000000" "1504010001000000" "b700000005000000" + EXIT, "accepted 4"),
            ("070a0000f8ffffff" + EXIT, "314 0"),
            (ZERO + "0500010000000000" "b70a000000000000" + EXIT, "314 2"),
            (ZERO + "0500010000000000" "bf60000000000000" + EXIT, "accepted 4"),
        )
        for digits, expected in rows:
            self.assertEqual(verdict(digits), expected, digits[:64])

    def test_memory(self):
        bounded = "71153f0000000000" "250503007c000000" "0f51000000000000" "7110000000000000" + EXIT + ZERO + EXIT
        rows = (
            ("61107c0000000000" + EXIT, "accepted 2"),
            ("61107d0000000000" + EXIT, "309 0"),
            (bounded, "accepted 7"),
            (bounded.replace("7c000000", "7f000000"), "accepted 7"),
            (bounded.replace("7c000000", "80000000"), "309 3"),
            (bounded.replace("7c000000", "ff000000"), "309 3"),
            ("bfa1000000000000" "07010000f8ffffff" "7a01000000000000" + ZERO + EXIT, "accepted 5"),
            ("79a0f8ff00000000" + EXIT, "310 0"),
            ("7a01000000000000" + EXIT, "311 0"),
            ("7915400000000000" "0f51000000000000" "7110000000000000" + EXIT, "309 2"),
            ("620af8ff01000000" "79a0f8ff00000000" + EXIT, "310 1"),
            ("1504010001000000" "720affff05000000" "71a0ffff00000000" + EXIT, "310 2"),
            ("1504020001000000" "bfa1000000000000" "07010000f8ffffff" "7110000000000000" + EXIT, "309 3"),
        )
        for digits, expected in rows:
            self.assertEqual(verdict(digits), expected, digits[:64])

    def test_words_of_the_stack(self):
        for digits, expected in SPILLS:
            self.assertEqual(verdict(digits), expected, digits[:64])

    def test_narrowing_and_helpers(self):
        masked = "69113c0000000000" "57010000ff010000" "8500000002000000" + EXIT
        rows = (
            ("2d22010000000000" "b700000007000000" + EXIT, "308 2"),
            ("5502010080000000" "b700000007000000" + EXIT, "accepted 3"),
            ("2502010080000000" + ZERO + EXIT, "accepted 3"),
            ("69113c0000000000" "8500000002000000" + EXIT, "313 1"),
            (masked, "accepted 4"),
            (masked.replace("ff010000", "ff030000"), "313 2"),
            ("8500000004000000" + EXIT, "312 0"),
            ("8500000003000000" + EXIT, "313 0"),
            ("b701000005000000" "8500000002000000" "bf10000000000000" + EXIT, "308 2"),
        )
        for digits, expected in rows:
            self.assertEqual(verdict(digits), expected, digits[:64])

    def test_the_shipped_rules(self):
        for source in EXAMPLES.glob("*.hex"):
            listing = source.with_suffix(".lst").read_text().splitlines()
            found = verdict(source.read_text(), 160 if source.stem == "hold-over" else 128)
            self.assertEqual(found if found.startswith("accepted") else f"refused {found}", listing[-1], source.name)

    def test_the_shipped_pairs(self):
        """Each pair of a refused rule and a mended one has the verdict that stands beside it."""
        rows = [line.split(" ", 1) for line in (EXAMPLES / "pairs" / "verdicts.txt").read_text().splitlines()]
        self.assertEqual(len(rows), len([*EXAMPLES.glob("pairs/*.hex")]))
        for name, wanted in rows:
            found = verdict((EXAMPLES / "pairs" / f"{name}.hex").read_text())
            self.assertEqual(found if found.startswith("accepted") else f"refused {found}", wanted, name)

    def test_records_of_both_lengths(self):
        rows = (
            ("61109c0000000000", "309 0", "accepted 2"), ("61109d0000000000", "309 0", "309 0"),
            ("71107f0000000000", "accepted 2", "accepted 2"), ("7110800000000000", "309 0", "accepted 2"),
            ("2502010080000000" + ZERO, "accepted 3", "308 2"),
        )  # fmt: skip
        for digits, short, long in rows:
            self.assertEqual((verdict(digits + EXIT), verdict(digits + EXIT, 160)), (short, long), digits)
        self.assertEqual(verdict((EXAMPLES / "hold-over.hex").read_text()), "309 3")
        record = flight() + bytes(12) + bytes.fromhex("8483ba01") + bytes(16)
        for now, expected in ((29_000_610, 0), (29_000_611, 512)):
            program = accepted(bytes.fromhex((EXAMPLES / "hold-over.hex").read_text()), 160)
            self.assertEqual(run(program, record, now, 15).r0, expected)


class Runs(unittest.TestCase):
    def test_worked_runs(self):
        rows = (
            (ZERO + EXIT, (0, 2)),
            (ZERO * 4095 + EXIT, (0, 4096)),
            ("b700000009000000" "1504010001000000" "b700000005000000" + EXIT, (9, 3)),
            ("71153f0000000000" "250503007c000000" "0f51000000000000" "7110000000000000" + EXIT + ZERO + EXIT, (0, 5)),
            ("69113c0000000000" "57010000ff010000" "8500000002000000" + EXIT, (10, 4)),
            ("b700000007000000" "b702000000000000" "3f20000000000000" + EXIT, (0, 4)),
            ("1800000007000000" "0000000001000000" "b702000000000000" "9c20000000000000" + EXIT, (7, 4)),
            ("1800000000000000" "0000000000000080" "37000100ffffffff" + EXIT, (2**63, 3)),
            ("720affff05000000" "71a0ffff00000000" + EXIT, (5, 3)),
            ("7a0af8ff01000000" "79a0f8ff00000000" + EXIT, (1, 3)),
            ("5502010080000000" "b700000007000000" + EXIT, (7, 3)),
            (ZERO + "0500010000000000" "bf60000000000000" + EXIT, (0, 3)),
        )
        for digits, expected in rows:
            self.assertEqual(ended(digits), expected, digits[:64])
        self.assertEqual(ended(SPILLS[0][0]), (5, 5))
        self.assertEqual(ended(SPILLS[2][0]), (5, 6))
        self.assertEqual(ended(SPILLS[5][0]), (5, 5))
        self.assertEqual(ended(SPILLS[5][0], milestone=7), (5, 6))
        by_milestone = "b700000009000000" "1504010001000000" "b700000005000000" + EXIT
        self.assertEqual(ended(by_milestone, milestone=7), (5, 4))
        sum_of_minutes = "bf31000000000000" "b702000005000000" "8500000003000000" + EXIT
        self.assertEqual(ended(sum_of_minutes, now=7), (12, 4))

    def shipped(self, name, record, now=29_000_700):
        program = accepted(bytes.fromhex((EXAMPLES / f"{name}.hex").read_text()))
        return run(program, record, now, 7).r0

    def test_the_target_after_a_turn_round(self):
        rows = (
            ({"aibt": 29_000_700}, 29_000_760),
            ({"aibt": 29_000_720}, 29_000_765),
            ({"aibt": 29_000_700, "kind": b"A388"}, 29_000_820),
            ({"aibt": 29_000_720, "kind": b"E190"}, 29_000_780),
            ({"aibt": 29_000_100, "eobt": 0}, 29_000_700),
            ({"aibt": 29_000_700, "tobt": 29_000_770}, 0),
            ({}, 0),
        )
        for given, expected in rows:
            self.assertEqual(self.shipped("turn-round", flight(**given)), expected, given)

    def test_the_alerts_of_a_far_stand(self):
        slot = {"tobt": 29_000_760, "ctot": 29_000_775}
        rows = (
            ({}, 0),
            ({"stand": 900}, 1),
            ({"stand": 500}, 1),
            ({"stand": 499}, 0),
            ({"stand": 1000}, 0),
            ({"stand": 0, **slot}, 0),
            ({"stand": 12, **slot}, 0),
            ({"stand": 120, **slot}, 0),
            ({"stand": 120, **slot, "tobt": 29_000_761}, 2),
            ({"stand": 900, **slot}, 3),
            ({"stand": 900, **slot, "ctot": 0}, 1),
            ({"local": 0xFFFF}, 0xFFFC),
            ({"stand": 900, "local": 0xFFFE}, 0xFFFD),
            ({"stand": 1000, "local": 0x8003}, 0x8000),
        )
        for given, expected in rows:
            self.assertEqual(self.shipped("far-stand", flight(**given)), expected, given)

    def test_the_alert_of_a_missed_slot(self):
        rows = (
            ({}, 0),
            ({"tobt": 29_000_760, "ctot": 29_000_770}, 0),
            ({"tobt": 29_000_760, "ctot": 29_000_769}, 4),
            ({"tobt": 29_000_760, "ctot": 29_000_774, "stand": 120}, 4),
            ({"tobt": 29_000_760, "ctot": 29_000_700, "stand": 1000}, 0),
            ({"local": 0xFFFF}, 0xFFFB),
            ({"tobt": 29_000_760, "ctot": 29_000_769, "local": 0x8001}, 0x8005),
            ({"tobt": 29_000_760, "ctot": 29_000_770, "local": 0x8005}, 0x8001),
        )
        for given, expected in rows:
            self.assertEqual(self.shipped("slot", flight(**given)), expected, given)

    def test_the_alerts_of_a_late_target_and_of_no_stand(self):
        rows = (
            ({"tobt": 29_000_790}, 0),
            ({"tobt": 29_000_791}, 0x80),
            ({"tobt": 29_000_791, "eobt": 0}, 0),
            ({"stand": 0}, 0),
            ({"stand": 0, "landed": True}, 0x100),
            ({"tobt": 29_000_791, "stand": 0, "landed": True, "local": 1}, 0x181),
            ({"local": 0xFFFF}, 0xFE7F),
        )
        for given, expected in rows:
            self.assertEqual(self.shipped("alert", flight(**given)), expected, given)

    def test_the_alerts_of_two_rules_in_one_place(self):
        rows = (
            ({}, 0),
            ({"tobt": 29_000_790, "ctot": 29_000_800}, 0),
            ({"tobt": 29_000_790, "ctot": 29_000_799}, 4),
            ({"tobt": 29_000_791, "ctot": 29_000_801}, 0x80),
            ({"tobt": 29_000_791, "ctot": 29_000_800}, 0x84),
            ({"tobt": 29_000_791, "ctot": 29_000_800, "stand": 0, "landed": True}, 0x184),
            ({"tobt": 29_000_791, "ctot": 29_000_800, "stand": 1000, "landed": True}, 0x80),
            ({"local": 0xFFFF}, 0xFE7B),
            ({"tobt": 29_000_790, "ctot": 29_000_799, "local": 0x0181}, 5),
        )
        for given, expected in rows:
            self.assertEqual(self.shipped("joined", flight(**given)), expected, given)

    def test_the_margins_of_a_turn_round(self):
        rows = (
            ({}, 0),
            ({"aibt": 29_000_715}, 0),
            ({"aibt": 29_000_716}, 24),
            ({"aibt": 29_000_716, "sobt": 29_000_761}, 8),
            ({"aibt": 29_000_716, "eobt": 0, "sobt": 0}, 0),
            ({"aibt": 29_000_640, "kind": b"A388"}, 0),
            ({"aibt": 29_000_641, "kind": b"A388"}, 24),
            ({"aibt": 29_000_700, "ctot": 29_000_770}, 0),
            ({"aibt": 29_000_700, "ctot": 29_000_769}, 32),
            ({"aibt": 29_000_720, "ctot": 29_000_770}, 88),
            ({"aibt": 29_000_720, "ctot": 29_000_775}, 24),
            ({"aibt": 29_000_700, "ctot": 29_000_774, "stand": 120}, 32),
            ({"aibt": 29_000_720, "ctot": 29_000_700, "stand": 1000}, 0),
            ({"local": 0xFFFF}, 0xFF87),
            ({"aibt": 29_000_716, "local": 0x8000}, 0x8018),
            ({"stand": 1000, "local": 0x79}, 1),
        )
        for given, expected in rows:
            self.assertEqual(self.shipped("margins", flight(**given)), expected, given)

    def test_signed_arithmetic(self):
        negative = "b7000000f9ffffff"  # mov64 r0, -7
        rows = (
            (negative + "3700010002000000" + EXIT, 2**64 - 3),
            (negative + "9700010002000000" + EXIT, 2**64 - 1),
            (negative + "3400010002000000" + EXIT, 2**32 - 3),
            (negative + "c700000001000000" + EXIT, 2**64 - 4),
            (negative + "8400000000000000" + EXIT, 7),
            (negative + "bf00080000000000" + EXIT, 2**64 - 7),
            (negative + "dc00000010000000" + EXIT, 0xF9FF),
            (negative + "d400000010000000" + EXIT, 0xFFF9),
        )
        for digits, expected in rows:
            self.assertEqual(ended(digits)[0], expected, digits)


if __name__ == "__main__":
    unittest.main()
