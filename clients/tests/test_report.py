"""What report.py makes of a feed that is written by hand, of a journal, and of what is neither."""
import re
import tempfile
import unittest
from pathlib import Path

from boards import TOP, needs_program, ran
from feeds import OTHER, board_line, entry, journal_line, record

SCHEDULE = {"cmd": "schedule", "flight": 7}
REPORT = {"cmd": "report", "flight": 7}
TOBT = "2025-02-20T10:00:00Z"


def page(*lines: str) -> str:
    done = ran("report.py", "-", given="".join(line + "\n" for line in lines))
    assert (done.returncode, done.stderr) == (0, ""), done
    return done.stdout


class Report(unittest.TestCase):
    def test_figures(self) -> None:
        """A flight without a plan for 8 minutes; a TOBT at 10:00 and off-block at 10:07; one refusal."""
        text = page(
            entry(0, "09:00", "1 APT", SCHEDULE, record(7, callsign="DLH7", sobt=TOBT, reached=[0], alerts=["CDM13"])),
            entry(1, "09:08", "2 NM", REPORT, record(7, callsign="DLH7", sobt=TOBT, eobt=TOBT, reached=[0, 1])),
            entry(2, "09:10", "4 AO", {**REPORT, "milestone": 6, "time": "2025-02-20T09:09:00Z"}, code=201),
            entry(3, "10:08", "1 APT", REPORT, record(7, sobt=TOBT, tobt=TOBT, aobt="2025-02-20T10:07:00Z")),
        )
        self.assertIn("A legal journal of 4 entries. 1 flights, 1 commands refused.", text)
        self.assertIn("2025-02-20 09:00 to 2025-02-20 10:08 (UTC)", text)
        rows = [
            '<td>session 1 APT</td><td class="number">2</td><td class="number">0</td>',
            '<td>session 4 AO</td><td class="number">0</td><td class="number">1</td>',
            '<td>AOBT after TOBT</td><td class="number">1</td><td>7</td><td>7 to 7</td><td>0 %</td>',
            '<td>CDM13</td><td>no flight plan</td><td class="number">1</td><td class="number">1</td><td>8</td>',
            "<td>report 7 6 09:09</td><td>201: the role does not own the command</td>",
        ]
        for row in rows:
            self.assertIn(row, text)

    @needs_program
    def test_the_shipped_report(self) -> None:
        """The page beside the shipped journal is the one that is made of it."""
        shipped = TOP / "examples" / "journal"
        done = ran("report.py", shipped / "day.journal")
        self.assertEqual((0, ""), (done.returncode, done.stderr))
        self.assertEqual((shipped / "day.html").read_text(encoding="utf-8").splitlines(), done.stdout.splitlines())

    def test_flights_by_name(self) -> None:
        lines = [
            entry(it, "09:00", "1 APT", {**SCHEDULE, "flight": it}, record(it, callsign=f"AB{it}X")) for it in (7, 8)
        ]
        done = ran("report.py", "-", 8, given="\n".join(lines) + "\n")
        self.assertEqual((0, False, True), (done.returncode, "AB7X" in done.stdout, "AB8X" in done.stdout))

    def test_partners_by_number_and_what_was_early(self) -> None:
        """Session 10 stands behind session 9; seven minutes early are not within five; the middle of two is half."""
        flights = [
            record(number, tobt=TOBT, aobt=f"2025-02-20T{off}:00Z") for number, off in enumerate(("09:53", "10:04"), 7)
        ]
        text = page(
            *(entry(number, "10:10", "9 AO", REPORT, flight) for number, flight in enumerate(flights)),
            entry(2, "10:11", "10 AO", {**REPORT, "milestone": 9, "time": None}, code=202),
            entry(3, "10:11", "9 AO", {"cmd": "tick"}, code=201),
        )
        self.assertIn('AOBT after TOBT</td><td class="number">2</td><td>-1.5</td><td>-7 to 4</td><td>50 %</td>', text)
        self.assertIn("<td>report 7 9 no time</td>", text)
        places = [text.index(f">{it}<") for it in ("Partners", "session 9 AO", "session 10 AO", "Punctuality")]
        self.assertEqual(sorted(places), places)
        bars = text[text.index("refused commands by partner") :]
        self.assertLess(bars.index("session 9 AO"), bars.index("session 10 AO"))

    def test_alerts_that_come_and_go(self) -> None:
        """One of two stands twice, three minutes and one, and the other one stays."""
        alerts = (["CDM01"], ["CDM01", "LOC03"], ["LOC03"], ["LOC03", "CDM01"], ["LOC03"])
        clocks = ("09:00", "09:01", "09:03", "09:04", "09:05")
        text = page(
            *(
                entry(place, clocks[place], "1 APT", REPORT, record(7, alerts=names))
                for place, names in enumerate(alerts)
            )
        )
        row = text[text.index("<td>CDM01</td>") :].partition("</tr>")[0]
        self.assertTrue(
            row.endswith('<td class="number">2</td><td class="number">1</td><td>2</td><td class="number">3</td>')
        )
        for title in ("from 09:00 to 09:03", "from 09:04 to 09:05", "from 09:01 to the end"):
            self.assertIn(f"{title}</title>", text)
        self.assertEqual((1, 2), (text.count(">LOC03 stays<"), text.count(">CDM01<") - text.count("<td>CDM01<")))

    def test_times_of_a_flight(self) -> None:
        """Replaced targets are strokes, an ELDT is of the milestone that set it last, a far time is at the edge."""
        first = record(7, tobt="2025-02-20T09:40:00Z", eldt="2025-02-20T09:00:00Z", reached=[4, 9])
        last = {
            **first,
            "tobt": TOBT,
            "eldt": "2025-02-20T09:05:00Z",
            "reached": [4, 5, 9],
            "ctot": "2025-02-25T09:00:00Z",
        }
        text = page(
            entry(0, "08:00", "1 APT", REPORT, first),
            entry(1, "08:10", "1 APT", REPORT, last),
            entry(2, "08:20", "4 AO", REPORT, code=201),
        )
        for part in (
            "<title>TOBT was 2025-02-20 09:40</title>",
            "<title>ELDT was 2025-02-20 09:00</title>",
            ">5 ELDT 09:05<",
        ):
            self.assertIn(part, text)
        self.assertIn("<title>entry 2, 08:20: AO report 7</title>", text)
        places = [float(it) for it in re.findall(r'<path d="M([\d.]+) \d+V', text)]
        self.assertEqual((True, True), (min(places) >= 20, max(places) <= 990))

    def test_a_year_of_five_digits(self) -> None:
        late = entry(0, "09:00", "1 APT", REPORT, record(7, tobt=TOBT)).replace("2025-02-20T", "10136-02-16T")
        self.assertIn("A legal journal of 1 entries.", page(late))

    def test_many_flights(self) -> None:
        """The first two hundred stand on one axis; each has its own picture."""
        text = page(*(entry(it, "09:00", "1 APT", {**REPORT, "flight": it}, record(it)) for it in range(1, 204)))
        self.assertIn(" The first 200 of 203 are shown.", text)
        whole = text[text.index("all flights") :].partition("</svg>")[0]
        self.assertEqual((True, False), (">1<" in whole, ">203<" in whole))
        self.assertIn('<h3 id="f203">', text)

    def test_texts_are_no_html(self) -> None:
        bad = record(7, callsign="<b>7</b>", plan_type='"><', alerts=["<script>1</script>"])
        text = page(entry(0, "09:00", "1 <i>", {"cmd": "schedule", "flight": 7, "reg": "<u>"}, bad, code=201))
        for tag in ("<b>", "<script>1", "<i>", "<u>", '"><"'):
            self.assertNotIn(tag, text)
        self.assertIn("&lt;script&gt;1&lt;/script&gt;", text)

    def test_a_faulty_entry(self) -> None:
        text = page(entry(0, "09:00", "1 APT", {"cmd": "tick"}), "entry 1 405", entry(2, "09:00", "1 APT", SCHEDULE))
        self.assertIn("Entry 1 breaks clause 405; nothing after it is shown. 0 flights, 0 commands refused.", text)

    def test_what_serve_sends(self) -> None:
        """The line of a journal before its entries; where another one begins, nothing is shown of it."""
        first, second = (entry(number, "09:00", "1 APT", {"cmd": "tick"}) for number in (0, 1))
        name, other = journal_line().decode().strip(), journal_line(2, OTHER).decode().strip()
        empty = board_line(next_entry=0, journal="").decode().strip()
        self.assertIn("A legal journal of 2 entries.", page(empty, name, first, second))
        text = page(name, first, second, other, entry(2, "09:00", "1 APT", SCHEDULE, record(7)))
        self.assertIn("Line 4 begins another journal; nothing after it is shown. 0 flights,", text)

    def test_what_is_no_feed(self) -> None:
        for line in ("{", '{"entry":0}', "[]", entry(0, "9:00", "1 APT", SCHEDULE), "GET / HTTP/1.1"):
            done = ran("report.py", "-", given=entry(0, "09:00", "1 APT", {"cmd": "tick"}) + "\n" + line + "\n")
            said = "report.py: -: line 2 is no line of the feed of changes\n"
            self.assertEqual((2, "", said), (done.returncode, done.stdout, done.stderr))
        done = ran("report.py", "/nowhere/day.journal")
        said = "report.py: /nowhere/day.journal: No such file or directory\n"
        self.assertEqual((2, "", said), (done.returncode, done.stdout, done.stderr))
        done = ran("report.py", "-", "seven")
        self.assertEqual((2, 1), (done.returncode, done.stderr.count("\n")))

    @needs_program
    def test_a_journal(self) -> None:
        journal = TOP / "examples" / "journal" / "day.journal"
        entries = len(journal.read_text(encoding="ascii").splitlines())
        done = ran("report.py", journal)
        self.assertEqual((0, ""), (done.returncode, done.stderr))
        self.assertIn(f"A legal journal of {entries} entries. 5 flights,", done.stdout)
        with tempfile.TemporaryDirectory() as folder:
            cut = Path(folder) / "cut.journal"
            cut.write_text("0 1 nonsense\n", encoding="ascii")
            done = ran("report.py", cut)
            self.assertEqual((0, ""), (done.returncode, done.stderr))
            self.assertIn("Entry 0 breaks clause 401; nothing after it is shown.", done.stdout)


if __name__ == "__main__":
    unittest.main()
