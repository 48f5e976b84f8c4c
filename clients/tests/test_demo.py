"""The demo: a board in the browser that ends with Ctrl-C, and leaves nothing behind."""
import http.client
import json
import os
import signal
import subprocess
import sys
import time
import unittest

from boards import CLIENTS, LIMIT, PROGRAM, needs_program


def board_at(port: int) -> dict[str, object]:
    """The board that a browser is sent first."""
    link = http.client.HTTPConnection("127.0.0.1", port, timeout=LIMIT)
    link.request("GET", "/events")
    answer = link.getresponse()
    text = b""
    while not text.endswith(b"\n\n"):
        text += answer.readline()
    link.close()
    found = json.loads(text.split(b"data: ", 1)[1])
    assert isinstance(found, dict)
    return found


class Demo(unittest.TestCase):
    """A demo of the program."""

    @needs_program
    def test_it_shows_a_morning_and_ends_with_an_interrupt(self) -> None:
        for number, mark in ((signal.SIGINT, ""), (signal.SIGTERM, "--unproved")):
            command = [
                sys.executable,
                str(CLIENTS / "demo.py"),
                "--program",
                str(PROGRAM),
                "--no-browser",
                *mark.split(),
            ]
            with subprocess.Popen(command, stdout=subprocess.PIPE, stderr=subprocess.PIPE, text=True) as demo:
                assert demo.stdout is not None and demo.stderr is not None
                self.assertEqual(demo.stdout.readline(), "rules: slot, tobt, far-stand\n")
                said = demo.stdout.readline()
                self.assertEqual("not proved" in said, bool(mark))
                port = int(said.split("127.0.0.1:", 1)[1].split("/", 1)[0])
                flights = board_at(port)["flights"]
                assert isinstance(flights, list)
                self.assertGreaterEqual(len(flights), 4)
                today = time.strftime("%Y-%m-%d", time.gmtime(time.time() - 4 * 3600))
                self.assertTrue(all(flight["sobt"] >= today for flight in flights), "times are those of today")
                demo.send_signal(number)
                self.assertEqual(demo.stdout.read(), "the demo ends\n")
                self.assertEqual((demo.wait(LIMIT), demo.stderr.read()), (0, ""))
            with self.assertRaises(OSError):
                board_at(port)

    def test_a_program_that_is_not_there_is_told(self) -> None:
        command = [sys.executable, str(CLIENTS / "demo.py"), "--program", "/nowhere/acdm", "--no-browser"]
        done = subprocess.run(command, capture_output=True, text=True, timeout=LIMIT, check=False, env=dict(os.environ))
        self.assertEqual((done.returncode, done.stderr), (2, "demo.py: /nowhere/acdm: No such file or directory\n"))


if __name__ == "__main__":
    unittest.main()
