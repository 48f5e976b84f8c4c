"""That the words stand once, and are those of the documents."""
import json
import re
import unittest

from boards import CLIENTS, TOP, ran
from words import ALERTS, MILESTONES, REFUSALS, ROLES, WORDS

# The milestones of each role, by the A-CDM manual and this project's profile.
OWNERS = {
    "NM": [1, 2, 3],
    "ATC": [4, 5, 6, 10, 13, 14, 15, 16],
    "APT": [7, 15],
    "GH": [8, 9, 11, 12],
    "AO": [9, 11, 12],
    "DIC": [],
}


class Words(unittest.TestCase):
    def test_documents_are_in_step(self) -> None:
        for name, words in (("words.py", ["--check"]), ("web/embed.py", ["--check"])):
            done = ran(name, *words)
            self.assertEqual((0, "", ""), (done.returncode, done.stdout, done.stderr))
            done = ran(name, "--wrong")
            self.assertEqual((2, "", 1), (done.returncode, done.stdout, done.stderr.count("\n")))

    def test_owners(self) -> None:
        for role in ROLES:
            owned = [place["number"] for place in MILESTONES if role in place["owners"]]
            self.assertEqual(OWNERS[role], owned, role)
        self.assertEqual(list(range(1, 17)), [place["number"] for place in MILESTONES])

    def test_codes_are_complete(self) -> None:
        formats = (TOP / "docs" / "FORMATS.md").read_text(encoding="utf-8")
        names = re.findall(
            r"`(\w+)`\s(\d{3})", formats[formats.index("The names of refusals") :].partition("No journal")[0]
        )
        self.assertEqual(
            {int(code): name for name, code in names},
            {refusal["code"]: refusal["name"] for refusal in WORDS["refusals"]},
        )
        self.assertEqual(13, len(REFUSALS))
        self.assertEqual(list(range(301, 316)), [fault["code"] for fault in WORDS["program_faults"]])
        lines = ["100", "101", "102", "103", "104", "105", "106", "301 to 315", "501", "502"]
        self.assertEqual(lines, [fault["code"] for fault in WORDS["line_faults"]])

    def test_alerts_are_complete(self) -> None:
        text = (TOP / "docs" / "schema" / "feed.json").read_text(encoding="utf-8")
        named = set(re.findall(r"CDM\d\da?", text))
        self.assertEqual(named or set(ALERTS), set(ALERTS))
        self.assertEqual(14, len(ALERTS))

    def test_page_has_the_words(self) -> None:
        source = (TOP / "crates" / "acdm_web" / "src" / "page.rt").read_text(encoding="utf-8")
        found = re.search(r"^const WORDS=(.*);$", source, re.MULTILINE)
        assert found
        page_words = json.loads(found[1])
        self.assertEqual(
            (ALERTS, REFUSALS),
            (page_words["alerts"], {int(code): page_words["refusals"][code] for code in page_words["refusals"]}),
        )
        self.assertEqual("AO", page_words["milestones"][8]["owner"])

    def test_no_other_words(self) -> None:
        """No client has a text of the words in its own source."""
        texts = [text for text in (*ALERTS.values(), *REFUSALS.values()) if len(text) > 12]
        for file in [*CLIENTS.glob("*.py"), *CLIENTS.glob("*.mjs"), *CLIENTS.glob("web/*")]:
            source = file.read_text(encoding="utf-8") if file.is_file() else ""
            self.assertEqual([], [text for text in texts if text in source], str(file))


if __name__ == "__main__":
    unittest.main()
