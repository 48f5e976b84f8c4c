"""What check.py and record.py say of lines, by docs/RULES.md."""
import unittest

from boards import ran

# The digits of docs/RULES.md, "The record": flight 7 after the first two lines of "A first look".
RECORD = (
    "0700000000000000"
    "444c483700000000" + "41333230" * 2 + "4441494243000000" * 2 + "4544444d" * 2 + "03000000"
    "00000000"
    "2800"
    "0a00"
    "0c00"
    "01"
    "05" + "3884ba01" * 2 + "00000000" * 14
)
SCHEDULE = '{"cmd":"schedule","flight":7,"callsign":"%s","type":"A320","reg":"DAIBC","dest":"EDDM",'
SCHEDULE += '"sobt":"2025-02-20T10:00:00Z","mttt":40,"exit":5,"exot":10,"stand":%d}'
LINES = [
    ('{"cmd":"tick"}', "fits"),
    ('1 29000700 APT {"cmd":"tick"}', "fits"),
    ('{"cmd":"report","flight":7,"milestone":9,"time":null}', "fits"),
    ('{"cmd":"show","flight":18446744073709551615}', "fits"),
    ("", "100: "),
    ('0 29000700 APT {"cmd":"tick"}', "100: SESSION is 0"),
    ('1 29000700 ATP {"cmd":"tick"}', "100: ROLE is ATP"),
    ('{"cmd":"tick"', "101: "),
    ("[" * 100_000, "100: "),
    ('{"cmd":' + "[" * 100_000, "101: "),
    ("{}", "102: 'cmd' "),
    ('{"cmd":"Tick"}', "102: 'cmd' "),
    ('{"cmd":"show","flight":"7"}', "103: 'flight' "),
    ('{"cmd":"show","flight":-7}', "103: 'flight' "),
    ('{"cmd":"show","flight":18446744073709551616}', "103: 'flight' "),
    ('{"cmd":"show","flight":7.0}', "103: 'flight' "),
    ('{"cmd":"show","flight":true}', "103: 'flight' "),
    ('{"cmd":"show","flight":0}', "104: 'flight' "),
    ('{"cmd":"report","flight":7,"milestone":17}', "104: 'milestone' "),
    ('{"cmd":"report","flight":7,"milestone":9}', "103: 'time' "),
    ('{"cmd":"report","flight":7,"milestone":6,"time":null}', "103: 'time' "),
    ('{"cmd":"report","flight":7,"milestone":6,"time":"2025-02-20T10:00"}', "104: 'time' is no instant"),
    ('{"cmd":"report","flight":7,"milestone":6,"time":"2025-02-29T10:00Z"}', "104: 'time' is no day"),
    ('{"cmd":"report","flight":7,"milestone":6,"time":"2025-02-20T24:00:00Z"}', "104: 'time' is no day"),
    ('{"cmd":"report","flight":7,"milestone":6,"time":"2025-02-20T10:00:60Z"}', "fits"),
    ('{"cmd":"report","flight":7,"milestone":6,"time":"2025-02-20T10:00:61Z"}', "104: 'time' is no day"),
    ('64 4294967295 APT {"cmd":"tick"}', "fits"),
    ('65 29000700 APT {"cmd":"tick"}', "100: SESSION is 65"),
    ('1 4294967296 APT {"cmd":"tick"}', "100: MINUTE is 4294967296"),
    (SCHEDULE % ("ABCDEFGH", 65535), "fits"),
    (SCHEDULE % ("ABCDEFGH", 65536), "104: 'stand' is not from 0 to 65535"),
    (SCHEDULE % ("\u00e4\u00f6\u00fc\u00df\u00e9", 1), "104: 'callsign' has 10 bytes"),
    ('{"cmd":"load","milestone":7,"kind":"alert","program":"0g"}', "104: 'program' "),
    ('{"cmd":"load","milestone":7,"kind":"alert","program":"","length":null}', "103: 'length' "),
    ('{"cmd":"deice","flight":7,"field":"ECZT","time":null}', "104: 'field' is none of eczt, eezt, aczt, aezt"),
]


class Check(unittest.TestCase):
    def test_lines(self) -> None:
        done = ran("check.py", given="".join(line + "\n" for line, _ in LINES))
        self.assertEqual((1, ""), (done.returncode, done.stderr))
        for (line, expected), said in zip(LINES, done.stdout.splitlines(), strict=True):
            self.assertTrue(said.startswith(expected), f"{line[:80]}: {said[:120]}, and {expected} is right")

    def test_words(self) -> None:
        done = ran("check.py", '{"cmd":"tick"}', '{"cmd":"alerts"}')
        self.assertEqual((0, "fits\nfits\n", ""), (done.returncode, done.stdout, done.stderr))

    def test_bytes_that_are_no_text(self) -> None:
        done = ran("check.py", given=b'{"cmd":"\xff"}\n')
        self.assertEqual((1, "102"), (done.returncode, done.stdout[:3]))


class Record(unittest.TestCase):
    def test_a_record(self) -> None:
        done = ran("record.py", given=f"ok 0\nrec 2 {RECORD}\nno 3 202\nalerts 4 -\n")
        self.assertEqual((0, ""), (done.returncode, done.stderr))
        first, *lines = done.stdout.splitlines()
        self.assertEqual("entry 2", first)
        fields = {line[2:24].strip(): line[25:] for line in lines}
        expected = {
            "flight": "7",
            "callsign": "DLH7",
            "scheduled type": "A320",
            "planned registration": "DAIBC",
            "scheduled destination": "EDDM",
            "reached": "schedule 1",
            "alerts": "-",
            "MTTT": "40 minutes",
            "EXOT": "10 minutes",
            "EXIT": "5 minutes",
            "stand": "12",
            "layout": "1",
            "SOBT": "2025-02-20 10:00",
            "EOBT": "2025-02-20 10:00",
            "TOBT": "-",
        }
        self.assertEqual(expected, {name: fields[name] for name in expected})
        self.assertEqual(31, len(lines))

    def test_layout_2(self) -> None:
        """160 bytes: four times of de-icing more, and sixteen zeros; ECZT is minute 29000760."""
        digits = RECORD.replace("0c000105", "0c000205") + "3884ba01" + "00000000" * 3 + "00" * 16
        done = ran("record.py", given=f"rec 2 {digits}\n")
        self.assertIn("  ECZT                   2025-02-20 10:00\n", done.stdout)
        self.assertIn("  layout                 2\n", done.stdout)

    def test_alerts_and_a_time_beyond_the_calendar(self) -> None:
        """All alerts by rising bit, of which bit 15 is the last of CDM; the last minute is one of the year 10136."""
        done = ran("record.py", given=f"rec 2 {RECORD.replace('0300000000000000', '03000000ffffffff')}\n")
        names = [f"CDM{number:02}" for number in range(15)] + [f"CDM{7:02}a"]
        names += [f"LOC{number:02}" for number in range(16)]
        self.assertIn(f"  alerts                 {' '.join(names)}\n", done.stdout)
        done = ran("record.py", given=f"rec 2 {RECORD.replace('3884ba01' * 2, 'ffffffff' * 2)}\n")
        self.assertIn("  SOBT                   minute 4294967295\n", done.stdout)

    def test_what_is_no_record(self) -> None:
        for digits in ("00", "x" * 256, RECORD + "00"):
            done = ran("record.py", given=f"ok 0\nrec 1 {digits}\n")
            said = "record.py: line 2 has no record of 256 or 320 hexadecimal digits\n"
            self.assertEqual((2, "", said), (done.returncode, done.stdout, done.stderr))


if __name__ == "__main__":
    unittest.main()
