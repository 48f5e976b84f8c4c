"""The script at the top in a small checkout, where a stand-in of rt builds: what is proved when, and what is left."""
from __future__ import annotations

import os
import shutil
import signal
import subprocess
import sys
import tempfile
import time
import unittest
from pathlib import Path

TOP = Path(__file__).resolve().parents[3]
LIMIT = 60
CRATES = "# NAME: below\nlow: byteorder\none: low\ntwo: low\nthree: low\nacdm: one two three # the program\n"
CRATES += "other_tests: acdm\n"
LIBRARIES = ("low", "one", "two", "three")
# It notes when it begins and ends, builds what a crate keeps, and does what a file of orders says of that.
RT = """#!{python}
import pathlib, sys, time
here, room = pathlib.Path.cwd(), pathlib.Path("{room}")
name, top = here.name, here.parents[1]
orders = dict(it.split(" ", 1) for it in (room / "orders").read_text().splitlines())
def note(word):
    with open(room / "noted", "a") as file:
        print(name, word, time.monotonic(), *sys.argv[1:], file=file)
below = [it.partition(":") for it in (top / "crates.txt").read_text().splitlines() if it and it[0] != "#"]
lacking = [it for it in dict((it[0], it[2]) for it in below)[name].split("#")[0].split() if it in ("low", "one", "two", "three")]
note("begins" if all((top / "crates" / it / "out" / "rlib" / "stamp").is_file() for it in lacking) else "lacks")
print("goals of", name, flush=True)
what, _, more = orders.get(name, "").partition(" ")
end = time.monotonic() + (30 if what == "until" else float(more) if what == "sleep" else 0)
while time.monotonic() < end and (what == "sleep" or more not in (room / "noted").read_text()):
    time.sleep(0.02)
time.sleep(1 if what == "until" else 0)
if orders.get(name) == "fail":
    sys.exit("a goal is not proved")
if orders.get(name) == "change":
    (room / "checkout" / "crates" / "low" / "src" / "lib.rt").write_text("fn other() {}")
(here / "out" / "rlib").mkdir(parents=True, exist_ok=True)
(here / "out" / "rlib" / "stamp").write_text(name)
if name == "acdm":
    (here / "out" / "acdm").write_text("#!/bin/sh\\necho the program $*\\nexit 5\\n")
    (here / "out" / "acdm").chmod(0o755)
note("ends")
"""
# It tells the words that it was begun with.
TOLD = "import sys\nprint(*sys.argv[1:])\nsys.exit({status})\n"


class Checkout(unittest.TestCase):
    """A checkout of five crates, and the script."""

    def setUp(self) -> None:
        self.room = Path(tempfile.mkdtemp(prefix="acdm-proving-")).resolve()
        self.addCleanup(shutil.rmtree, self.room)
        self.top = self.room / "checkout"
        for name in (*LIBRARIES, "acdm", "other_tests"):
            (self.top / "crates" / name / "src").mkdir(parents=True)
            (self.top / "crates" / name / "src" / "lib.rt").write_text(f"fn {name}() {{}}\n", encoding="ascii")
        (self.top / "crates.txt").write_text(CRATES, encoding="ascii")
        (self.top / "HANDLES").write_text("Threads\n", encoding="ascii")
        (self.top / "VERSION").write_text("7.8.9\n", encoding="ascii")
        shutil.copy(TOP / "acdm", self.top / "acdm")
        (self.room / "bin").mkdir()
        self.program("bin/rt", RT.replace("{python}", sys.executable).replace("{room}", str(self.room)))
        self.order()

    def program(self, name: str, text: str) -> None:
        """A program of the room."""
        file = self.room / name
        file.parent.mkdir(parents=True, exist_ok=True)
        file.write_text(text, encoding="ascii")
        file.chmod(0o755)

    def order(self, **orders: str) -> None:
        """What rt is to do with crates."""
        text = "".join(f"{name} {what}\n" for name, what in orders.items())
        (self.room / "orders").write_text(text, encoding="ascii")

    def command(self, *words: str) -> list[str]:
        return [sys.executable, str(self.top / "acdm"), *words]

    def environment(self) -> dict[str, str]:
        return {**os.environ, "PATH": f"{self.room / 'bin'}:/usr/bin:/bin"}

    def ran(self, *words: str) -> tuple[int, str, str]:
        """What came of these words: the status, and what was said."""
        done = subprocess.run(
            self.command(*words), env=self.environment(), capture_output=True, text=True, timeout=LIMIT, check=False
        )
        return done.returncode, done.stdout, done.stderr

    def noted(self) -> list[list[str]]:
        """What rt noted since this was asked last."""
        file = self.room / "noted"
        rows = [line.split() for line in file.read_text(encoding="ascii").splitlines()] if file.exists() else []
        file.unlink(missing_ok=True)
        return rows

    def until_begun(self, name: str, word: str = "begins") -> None:
        """Waits until rt has begun a crate; where those below it are not there, it notes another word."""
        end = time.monotonic() + LIMIT
        file = self.room / "noted"
        while not file.exists() or f"{name} {word}" not in file.read_text(encoding="ascii"):
            self.assertLess(time.monotonic(), end)
            time.sleep(0.02)


class Proving(Checkout):
    """All crates of the program, each once those below it are there."""

    def test_what_is_proved_and_what_is_run(self) -> None:
        said = self.ran("--version")
        self.assertRegex(said[1], r"^acdm: a build that is not proved, version 7\.8\.9 \(sources [0-9a-f]{16}; ")
        self.order(one="until two begins", two="until three ends", three="sleep 0.7")
        status, out, said_of = self.ran("prove", "2")
        self.assertEqual((0, ""), (status, out), said_of)
        rows = self.noted()
        self.assertEqual({*LIBRARIES, "acdm"}, {row[0] for row in rows})
        self.assertNotIn("lacks", [row[1] for row in rows], "those below a crate are there")
        self.assertEqual(["low", "acdm"], [rows[0][0], rows[-1][0]])
        counts = [sum(1 if row[1] == "begins" else -1 for row in rows[: end + 1]) for end in range(len(rows))]
        self.assertEqual((2, 0), (max(counts), counts[-1]), "two side by side")
        self.assertEqual({*(f"{it} lib" for it in LIBRARIES), "acdm run"}, {f"{row[0]} {row[3]}" for row in rows})
        lines = said_of.splitlines()
        self.assertEqual("acdm: proving 5 crates, up to 2 at a time", lines[0].partition(";")[0])
        self.assertRegex(lines[1], r"^acdm:  1 of 5: low, 0 min \d\d s so far")
        self.assertRegex(lines[-1], r"^acdm: proved in \d min \d\d s: \./acdm runs the proved program from now on$")
        self.assertEqual([], list((self.top / "target" / "prove").iterdir()), "no room is left")
        kept = {str(it.relative_to(self.top)) for it in (self.top / "crates").rglob("stamp")}
        self.assertEqual({f"crates/{it}/out/rlib/stamp" for it in (*LIBRARIES, "acdm")}, kept)
        said = self.ran("--version")
        self.assertRegex(
            said[1], r"^acdm: the proved program, version 7\.8\.9 \(crates/acdm/out/acdm, sources [0-9a-f]{16}\)\n$"
        )
        self.assertEqual((5, "the program run a b\n", ""), self.ran("run", "a b"))
        self.assertEqual((0, "", "acdm: the program is proved from these sources already\n"), self.ran("prove"))
        self.assertEqual([], self.noted())
        (self.top / "crates" / "other_tests" / "src" / "lib.rt").write_text("fn x() {}", encoding="ascii")
        self.assertIn(
            "acdm: the proved program,", self.ran("--version")[1], "what it does not stand on is no source of it"
        )
        (self.top / "HANDLES").write_text("Threads Net\n", encoding="ascii")
        self.assertIn("not proved", self.ran("--version")[1])

    def test_a_crate_that_is_not_proved(self) -> None:
        """It is told with the last lines of its log, what was proved stays, and nothing is run of the rest."""
        self.order(one="fail")
        status, out, said = self.ran("prove", "2")
        self.assertEqual((2, ""), (status, out))
        told = (
            "acdm: one was not built, as crates/one/out/prove.log says:\ngoals of one\na goal is not proved\nacdm: with"
        )
        self.assertIn(told, said)
        self.assertTrue((self.top / "crates" / "low" / "out" / "rlib" / "stamp").is_file())
        self.assertNotIn("acdm", [row[0] for row in self.noted()])
        self.assertEqual([], list((self.top / "target" / "prove").iterdir()))
        self.assertIn("not proved", self.ran("--version")[1])
        self.order()
        self.assertEqual(0, self.ran("prove", "2")[0])

    def test_a_source_that_changes_meanwhile(self) -> None:
        self.order(two="change")
        status, _, said = self.ran("prove", "2")
        self.assertEqual(
            (2, "acdm: a source changed meanwhile: run ./acdm prove again, which checks what changed"),
            (status, said.splitlines()[-1]),
        )
        self.assertIn("not proved", self.ran("--version")[1])

    def test_a_second_prove_and_a_stop(self) -> None:
        """The second one names the first, which ends with what it began where it is told to."""
        own = self.top / "crates" / "low" / "out" / "rlib" / "stamp"
        own.parent.mkdir(parents=True)
        own.write_text("of before", encoding="ascii")
        self.order(low="sleep 50")
        for number, status, told in (
            (signal.SIGINT, 130, "acdm: stopped; what is proved so far is kept"),
            (signal.SIGTERM, 143, ""),
            (signal.SIGHUP, 129, ""),
        ):
            with subprocess.Popen(
                self.command("prove", "2"),
                env=self.environment(),
                stderr=subprocess.PIPE,
                text=True,
                start_new_session=True,
            ) as first:
                assert first.stderr
                self.until_begun("low")
                self.assertFalse(own.exists(), "it is in the room of the build")
                why = f"acdm: another ./acdm prove is at work here (process {first.pid}): wait for its end"
                done = self.ran("prove")
                self.assertEqual((2, why), (done[0], done[2][: len(why)]))
                first.send_signal(number)
                self.assertEqual(status, first.wait(LIMIT), number)
                self.assertIn(told, first.stderr.read())
            # (what it has begun has ended: nobody is left in its session)
            left = subprocess.run(["pgrep", "-s", str(first.pid)], capture_output=True, text=True, check=False)
            self.assertEqual("", left.stdout)
            self.assertEqual([], list((self.top / "target" / "prove").iterdir()))
            self.assertEqual("of before", own.read_text(encoding="ascii"))
            self.noted()

    def test_a_stop_of_a_build_that_is_not_proved(self) -> None:
        """Nothing is told of proofs, of which none was begun."""
        self.order(acdm="sleep 50")
        with subprocess.Popen(
            self.command("verify", "x"), env=self.environment(), stderr=subprocess.PIPE, text=True
        ) as first:
            assert first.stderr
            self.until_begun("acdm", "lacks")
            first.send_signal(signal.SIGINT)
            self.assertEqual(130, first.wait(LIMIT))
            self.assertEqual("acdm: stopped", first.stderr.read().splitlines()[-1])

    def test_what_is_missing_is_told(self) -> None:
        (self.room / "bin" / "rt").unlink()
        for words in (("prove",), ("run",), ("demo",)):
            status, _, said = self.ran(*words)
            self.assertEqual(
                (2, "acdm: the kit's command rt is not on the path"), (status, said.partition(":\n")[0][:45])
            )


class Others(Checkout):
    """The scripts that it begins."""

    def test_package(self) -> None:
        self.program("checkout/tools/package.py", TOLD.format(status=3))
        self.assertEqual((3, "a b --program c\n", ""), self.ran("package", "a b", "--program", "c"))

    def test_demo(self) -> None:
        """By a build without proofs, which is said, and by the proved program once that is there."""
        self.program("checkout/tools/unproved.py", TOLD.format(status=0))
        self.program("checkout/clients/demo.py", TOLD.format(status=4))
        status, out, said = self.ran("demo", "--no-browser")
        self.assertEqual((4, f"--program {self.top}/target/unproved/acdm --unproved --no-browser\n"), (status, out))
        self.assertTrue(said.startswith("acdm: not proved yet: a build without proofs"), said)
        self.program("checkout/tools/unproved.py", TOLD.format(status=2))
        status, out, said = self.ran("demo")
        self.assertEqual((2, "", True), (status, out, "did not end well" in said))
        # (one at a time, in its place, where a killed run has left the room of one)
        (self.top / "target" / "prove" / "low" / "crates" / "low" / "out" / "rlib").mkdir(parents=True)
        self.assertEqual(0, self.ran("prove", "1")[0])
        self.assertEqual(["begins", "ends"] * 5, [row[1] for row in self.noted()])
        self.assertEqual([], list((self.top / "target" / "prove").iterdir()))
        done = self.ran("demo", "--seconds", "1")
        self.assertEqual((4, f"--program {self.top}/crates/acdm/out/acdm --seconds 1\n", ""), done)


if __name__ == "__main__":
    unittest.main()
