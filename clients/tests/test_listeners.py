"""Who listens at an address of this machine, of either kind, and what a board's words say of a port."""
import os
import socket
import tempfile
import unittest
from pathlib import Path

from boards import TOP, free_port
from listeners import Listener, host_of, listener_at, purpose

WORDS = ["acdm", "serve", "--again", "--control=[::1]:4199", "--changes", "127.0.0.1:0", "APT=127.0.0.1:4001"]


class Listeners(unittest.TestCase):
    def test_hosts_of_the_table(self) -> None:
        """Words of 32 bits, each with its last byte first."""
        digits = {"0100007F": "127.0.0.1", "00000000": "0.0.0.0", "0" * 32: "::", "0" * 24 + "01000000": "::1"}
        digits["B80D0120" + "0" * 16 + "01000000"] = "2001:db8::1"
        self.assertEqual(list(digits.values()), [host_of(it) for it in digits])

    def test_who_listens(self) -> None:
        """At an address of its own, or at all of them; nobody at a port at which nobody listens."""
        for family, host, asked in (
            (socket.AF_INET, "127.0.0.1", "127.0.0.1"),
            (socket.AF_INET, "0.0.0.0", "127.0.0.1"),
            (socket.AF_INET6, "::1", "::1"),
            (socket.AF_INET6, "::", "::1"),
            (socket.AF_INET6, "::", "127.0.0.1"),
        ):
            try:
                server = socket.create_server((host, 0), family=family)
            except OSError:
                continue
            with self.subTest(host=host), server:
                found = listener_at((asked, server.getsockname()[1]))
                self.assertEqual(os.getpid(), found and found.process)
                self.assertFalse(found and found.is_board())
        self.assertIsNone(listener_at(("127.0.0.1", free_port())))

    def test_words_of_a_board(self) -> None:
        """A port that is named is of that word alone; a port that the system chose may be of each that has 0."""
        board = Listener(1, WORDS)
        self.assertTrue(board.is_board())
        asked = [
            ("--control", 4199),
            ("--control", 4001),
            ("APT", 4001),
            ("--changes", 5),
            ("APT", 5),
            ("NM", 5),
            ("--changes", 4199),
        ]
        self.assertEqual([True, False, True, True, False, False, False], [board.may_be(*it) for it in asked])
        self.assertEqual(["--control", "APT", "--changes"], [board.word(it) for it in (4199, 4001, 5)])
        two = Listener(1, [*WORDS, "NM=127.0.0.1:0"])
        self.assertEqual((True, None), (two.may_be("NM", 5), two.word(5)))
        for words in (["acdm", "run", "APT=1"], ["acdm", "serve", "--control", "4199"], ["serve", "APT=1"]):
            self.assertFalse(Listener(1, words).is_board(), words)
        self.assertTrue(Listener(1, ["acdm", "follow", "h:1", "APT=127.0.0.1:1"]).is_board())
        self.assertEqual(
            ("the control address (--control)", "the address of NM"), (purpose("--control"), purpose("NM"))
        )

    def test_words_of_a_file_of_settings(self) -> None:
        """They are those that docs/FORMATS.md gives for each key, in the place of the two words that name the file."""
        with tempfile.TemporaryDirectory() as folder:
            file = Path(folder) / "board.toml"
            file.write_text(
                'again = true\nsync = false\njournal = 5\nkeep = "a b"\ncontrol = "[::1]:4199"\n'
                'changes = "127.0.0.1:0" # chosen\npartners = [\n  "APT=127.0.0.1:4001",\n]\n',
                encoding="utf-8",
            )
            board = Listener(os.getpid(), ["acdm", "serve", "NM=127.0.0.1:4002", "--config", str(file), "--pace", "9"])
            wanted = {"--again", "--journal=5", "--keep=a b", "--control=[::1]:4199", "--changes=127.0.0.1:0"}
            wanted |= {"acdm", "serve", "NM=127.0.0.1:4002", "APT=127.0.0.1:4001", "--pace", "9"}
            self.assertEqual((wanted, 11), (set(board.meant()), len(board.meant())))
            self.assertTrue(board.is_board())
            asked = [
                ("--control", 4199),
                ("APT", 4001),
                ("NM", 4002),
                ("--changes", 5),
                ("APT", 5),
                ("--control", 4001),
            ]
            self.assertEqual([True, True, True, True, False, False], [board.may_be(*it) for it in asked])
            file.write_text("no settings\n", encoding="utf-8")
            self.assertFalse(Listener(os.getpid(), ["acdm", "serve", "--config", str(file)]).is_board())
            file.unlink()
            self.assertFalse(Listener(os.getpid(), ["acdm", "serve", "--config", str(file)]).is_board())
        shipped = os.path.relpath(TOP / "examples" / "board.toml")
        self.assertTrue(Listener(os.getpid(), ["acdm", "serve", "--config", shipped]).may_be("--control", 4199))
        self.assertFalse(Listener(os.getpid(), ["acdm", "serve", "--config"]).is_board())


if __name__ == "__main__":
    unittest.main()
