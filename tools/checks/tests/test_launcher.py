"""What the script at the top, ./acdm, does by itself: without a proof, and with stand-ins of rt and the program."""
from __future__ import annotations

import os
import shutil
import signal
import subprocess
import sys
import tempfile
import time
import unittest
from pathlib import Path
from unittest.mock import Mock, patch

CHECKS = Path(__file__).resolve().parents[1]
sys.path.insert(0, str(CHECKS))

# pylint: disable-next=wrong-import-position,import-error
from checkout import TOP, launcher  # noqa: E402

# It tells what it was given, as `rt try` does: what it says itself, what the program says, and how the run ended.
STAND_IN = """#!{python}
import pathlib, sys
words = sys.argv[1:]
given = dict(word.split("=", 1) for word in words if word.startswith("given="))
print(" ".join(words[: words.index("--")]).replace(given.get("given", "?"), "FILE"), words[words.index("--") + 1 :])
print("data", len(pathlib.Path(given["given"]).read_bytes()) if given else len(sys.stdin.buffer.read()))
print("checked: 3", "acdm: what the program says", sep="\\n", file=sys.stderr)
print("rt: no" if "fail" in words else "run=ended 3", file=sys.stderr)
sys.exit(3)
"""
RUN = """
import sys
sys.path.insert(0, sys.argv[1])
import checkout
sys.exit(checkout.launcher().run_unproved(sys.argv[2:]))
"""
BOARD = """#!{python}
import os, signal, sys, time
signal.signal(signal.SIGTERM, lambda *_: sys.exit(5))
print(*sys.argv[1:], os.getsid(0) == os.getpid(), flush=True)
time.sleep(60)
"""
SERVED = """
import pathlib, sys
sys.path.insert(0, sys.argv[1])
import checkout
script = checkout.launcher()
script.PROGRAM = pathlib.Path(sys.argv[2])
sys.exit(script.run_proved(sys.argv[3:]))
"""


class Room(unittest.TestCase):
    """A folder, and the script."""

    def setUp(self) -> None:
        self.room = Path(tempfile.mkdtemp(prefix="acdm-launcher-"))
        self.addCleanup(shutil.rmtree, self.room)
        self.script = launcher()

    def program(self, name: str, text: str) -> Path:
        """A program of these words."""
        file = self.room / name
        file.write_text(text.replace("{python}", sys.executable), encoding="ascii")
        file.chmod(0o755)
        return file


class Addresses(Room):
    """The control address that a board is given."""

    def test_of_words(self) -> None:
        for words, found in (
            (["serve", "--control", "4199"], ("127.0.0.1", "4199")),
            (["serve", "--control=4199", "APT=127.0.0.1:1"], ("127.0.0.1", "4199")),
            (["serve", "--control", "[::1]:4199"], ("::1", "4199")),
            (["follow", "h:1", "--control=board.example:4199"], ("board.example", "4199")),
            (["run", "--control", "4199"], None),
            (["serve", "--controls", "4199"], None),
            (["serve", "--control"], None),
            (["serve", "--config"], None),
            ([], None),
        ):
            self.assertEqual(found, self.script.control_of(words), words)

    def test_of_a_file_of_settings(self) -> None:
        """A text or a number; none where the file has none, is none, or is not there."""
        file = self.room / "board.toml"
        for text, found in (
            ('control = "[::1]:4199"\n', ("::1", "4199")),
            ("control = 4199\n", ("127.0.0.1", "4199")),
            ("journal = 5\n", None),
            ("control = \n", None),
        ):
            file.write_text(text, encoding="ascii")
            self.assertEqual(found, self.script.control_of(["serve", "--config", str(file)]), text)
            self.assertIsNone(self.script.control_of(["run", "--config", str(file)]))
        self.assertIsNone(self.script.control_of(["serve", "--config", str(self.room / "none")]))


class Proved(Room):
    """The program that was proved, or one that stands in for it."""

    def test_by_its_record(self) -> None:
        """Its record has the sum of the sources and that of the program: without either it is none."""
        program, record = self.program("program", "x"), self.room / "record"
        with patch.multiple(self.script, PROGRAM=program, RECORD=record):
            self.assertFalse(self.script.is_proved())
            record.write_text(self.script.record(self.script.digest()), encoding="ascii")
            self.assertTrue(self.script.is_proved())
            program.write_text("y", encoding="ascii")
            self.assertFalse(self.script.is_proved())
            record.write_text(self.script.record("0" * 64), encoding="ascii")
            self.assertFalse(self.script.is_proved())

    def test_a_board_that_can_not_be_asked_is_ended(self) -> None:
        """Nobody is at its control address: a signal to the script alone ends it, and the status is its own."""
        program = self.program("board", BOARD)
        for number, status in ((signal.SIGTERM, 5), (signal.SIGINT, 5), (signal.SIGHUP, 5)):
            command = [sys.executable, "-c", SERVED, str(CHECKS), str(program), "serve", "--control", "127.0.0.1:1"]
            with subprocess.Popen(command, stdout=subprocess.PIPE, text=True) as ran:
                assert ran.stdout
                self.assertEqual("serve --control 127.0.0.1:1 True\n", ran.stdout.readline())
                ran.send_signal(number)
                self.assertEqual(status, ran.wait(30), str(number))

    def test_a_board_that_is_killed(self) -> None:
        program = self.program("board", "#!/bin/sh\nkill -KILL $$\n")
        command = [sys.executable, "-c", SERVED, str(CHECKS), str(program), "serve", "--control", "127.0.0.1:1"]
        self.assertEqual(137, subprocess.run(command, check=False, timeout=30).returncode)


class Unproved(Room):
    """A build that is not proved, by a stand-in of rt."""

    def ran(self, *words: str, given: bytes = b"") -> subprocess.CompletedProcess[bytes]:
        """What came of these words."""
        self.program("rt", STAND_IN)
        environment = {**os.environ, "PATH": f"{self.room}:{os.environ['PATH']}"}
        command = [sys.executable, "-c", RUN, str(CHECKS), *words]
        return subprocess.run(command, input=given, capture_output=True, env=environment, timeout=60, check=False)

    def test_input_output_and_status_are_those_of_the_program(self) -> None:
        done = self.ran("run", "--quiet", given=b"0123456789")
        self.assertEqual((3, b"try --seconds 3600 ['run', '--quiet']\ndata 10\n"), (done.returncode, done.stdout))
        said = done.stderr.decode().splitlines()
        self.assertEqual((2, "acdm: what the program says"), (len(said), said[1]))
        self.assertIn("not proved yet", said[0])

    def test_a_file_is_given_as_data(self) -> None:
        """So it is read, which a build without proofs can't do by itself; of help and of no file there is none."""
        file = self.room / "day"
        file.write_bytes(b"12345")
        for word in ("verify", "explain", "audit"):
            done = self.ran(word, str(file))
            self.assertIn(f"--data given=FILE ['{word}', 'given']\ndata 5\n", done.stdout.decode())
        self.assertIn(b"['audit', '/nowhere']\ndata 0\n", self.ran("audit", "/nowhere").stdout)
        self.assertIn(b"['run', '--help']\ndata 0\n", self.ran("run", "--help", given=b"123").stdout)

    def test_what_needs_the_proved_program_is_told(self) -> None:
        needing = (["serve"], ["follow"], ["run", "--save", "x"], ["run", "--keep=x"], ["audit", "--tables", "t", "x"])
        for words in needing:
            with patch.object(self.script, "kit"), self.assertRaisesRegex(self.script.Stop, "needs the proved program"):
                self.script.run_unproved(words)

    def test_a_run_that_does_not_end_is_told(self) -> None:
        said = self.ran("verify", "fail").stderr.decode()
        self.assertRegex(said, "the build without proofs did not answer:\n(.*\n)*rt: no\nacdm: ./acdm prove builds")


class Proving(Room):
    """What is said where a proof does not begin or end well."""

    def test_words(self) -> None:
        for words in (["0"], ["x"], ["100"], ["1", "2"], ["-1"], [""]):
            with self.assertRaisesRegex(self.script.Stop, "one word at most"):
                self.script.prove(words)

    def test_why_a_build_failed(self) -> None:
        """A full disk, a prover that was killed, and anything else with the last lines of its log."""
        log = TOP / "target" / f"launcher-{os.getpid()}.log"
        log.parent.mkdir(exist_ok=True)
        self.addCleanup(log.unlink, missing_ok=True)
        build = Mock(log=log)
        build.name = "acdm_x"
        for text, status, said in (
            ("write: No space left on device\n", 1, "the disk is full"),
            ("x\n", -9, "killed, most likely for want of memory"),
            ("x\n", 137, "run ./acdm prove 1"),
            ("rt: the prover was killed\n", 1, "killed, most likely for want of memory"),
            ("\n".join(map(str, range(30))), 1, "\n18\n19\n"),
        ):
            log.write_text(text, encoding="ascii")
            build.ran.returncode = status
            with patch.object(self.script.shutil, "disk_usage", return_value=Mock(free=1 << 40)):
                told = self.script.why_not(build)
            self.assertIn(said, told)
            self.assertNotIn("\n17\n", told)
        with patch.object(self.script.shutil, "disk_usage", return_value=Mock(free=199_999_999)):
            self.assertIn("the disk is full", self.script.why_not(build))

    def test_what_a_killed_run_left_is_given_back(self) -> None:
        rooms, top = self.room / "rooms", self.room / "top"
        for part in ("rlib", "incremental"):
            made = rooms / "a" / "crates" / "a" / "out" / part
            made.mkdir(parents=True)
            (made / "new").touch()
        old = top / "crates" / "a" / "out" / "rlib"
        old.mkdir(parents=True)
        (old / "old").touch()
        with patch.multiple(self.script, TOP=top, ROOMS=rooms):
            self.script.give_back("a")
            self.script.give_back("a")
        found = sorted(str(it.relative_to(top)) for it in top.rglob("*") if it.is_file())
        self.assertEqual(["crates/a/out/incremental/new", "crates/a/out/rlib/new"], found)
        self.assertFalse((rooms / "a").exists())

    def test_crates_are_those_that_the_program_stands_on(self) -> None:
        graph = self.script.crates()
        self.assertEqual(set(graph), {"acdm", *self.script.below("acdm", graph)})
        self.assertTrue(all(it in graph for names in graph.values() for it in names))
        self.assertNotIn("session_tests", graph)
        self.assertEqual("61 min 01 s", self.script.time_of(3661.9))

    def test_jobs_are_for_the_longest_chain_and_for_two_crates(self) -> None:
        wide, narrow = Mock(is_wide=True), Mock(is_wide=False)
        chains = {"a": (5, 9), "b": (8, 10), "c": (9, 11)}
        self.assertTrue(self.script.gets_jobs("a", {}, chains))
        self.assertTrue(self.script.gets_jobs("a", {"b": wide}, chains))
        self.assertFalse(self.script.gets_jobs("a", {"c": narrow}, chains))
        self.assertFalse(self.script.gets_jobs("c", {"a": wide, "b": wide}, chains))


class Package(Room):
    """The archive."""

    def test_the_same_makes_the_same(self) -> None:
        """At another moment, of another file's times; by a link the program is found."""
        program = self.program("board", "#!/bin/sh\necho the program $*\n")
        archives = [self.room / f"{name}.tar.gz" for name in "ab"]
        for archive in archives:
            command = [sys.executable, str(TOP / "tools" / "package.py"), str(archive), "--program", str(program)]
            done = subprocess.run(command, capture_output=True, text=True, check=True)
            self.assertIn("This program is not proved: it is for a trial.", done.stdout)
            time.sleep(1.1 if archive == archives[0] else 0)
            os.utime(program, (1, 1))
        self.assertEqual(*(archive.read_bytes() for archive in archives))
        self.assertEqual([], list(self.room.glob("*.part")))
        subprocess.run(["tar", "-C", str(self.room), "-xzf", str(archives[0])], check=True)
        (top,) = (it for it in self.room.iterdir() if it.is_dir())
        link = self.room / "link"
        link.symlink_to(top / "acdm")
        done = subprocess.run([link, "run", "a b"], capture_output=True, text=True, check=True, cwd="/")
        self.assertEqual("the program run a b\n", done.stdout)


if __name__ == "__main__":
    unittest.main()
