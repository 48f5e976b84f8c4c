"""What control.py, load.py, partner.py and carry.py do at a board that serves, and at addresses that are none."""
import json
import os
import re
import shutil
import signal
import socket
import subprocess
import sys
import tempfile
import threading
import time
import unittest
from pathlib import Path
from typing import Any
from unittest.mock import patch

from boards import LIMIT, PROGRAM, TOP, Caller, Serving, free_port, needs_program, ran
from feeds import Sending

import control as asking
from listeners import Listener

RULES = TOP / "examples" / "rules"
TWO = """#include "helpers.h"
#define RULE __attribute__((section("entry")))
RULE u64 first(const struct flight *flight, u64 length, u64 now, u64 milestone) { return 0; }
RULE u64 second(const struct flight *flight, u64 length, u64 now, u64 milestone) { return 1; }
"""
UNSET = """#include "helpers.h"
__attribute__((section("entry")))
u64 rule(const struct flight *flight, u64 length, u64 now, u64 milestone)
{
    u64 others;
    return flight->alerts + others;
}
"""
SCHEDULE: dict[str, Any] = {
    "cmd": "schedule",
    "flight": 7,
    "callsign": "DLH7",
    "type": "A320",
    "reg": "DAIBC",
    "dest": "EDDM",
    "sobt": "2025-02-20T10:00:00Z",
    "mttt": 40,
    "exit": 5,
    "exot": 10,
    "stand": 12,
}


@needs_program
class Control(unittest.TestCase):
    def test_status(self) -> None:
        with Serving(("APT", "NM")) as board:
            caller = Caller(board.ports[1])
            self.assertEqual("no 0 201", caller.ask({"cmd": "tick"}))
            done = ran("control.py", board.control, "status")
            caller.close()
        lines = done.stdout.splitlines()
        self.assertEqual((0, "", 6), (done.returncode, done.stderr, len(lines)))
        none = "lines 0 entries 0 refused - bad -"
        self.assertEqual([f"session 1 APT gone {none}", "entries 1 of 5000"], [lines[0], lines[2]])
        one = r"lines 1 entries 1 refused 201:1 bad -"
        self.assertRegex(
            lines[1], rf"^session 2 NM here 127\.0\.0\.1:\d+ since \d{{4}}-\d\d-\d\dT\d\d:\d\d:\d\dZ {one}$"
        )
        self.assertEqual("term 1", lines[3])
        self.assertRegex(lines[4], r"^version \d+\.\d+\.\d+$")
        self.assertRegex(lines[5], r"^last \d{4}-\d\d-\d\dT\d\d:\d\d:00Z$")

    def test_a_start_right_after_the_close(self) -> None:
        """The same words again, with a display that holds the end up, and a kept journal."""
        with tempfile.TemporaryDirectory() as folder:
            control, changes, airport = free_port(), free_port(), free_port()
            words = [PROGRAM, "serve", "--again", "--keep", f"{folder}/day", "--control", control]
            words += ["--changes", f"127.0.0.1:{changes}", f"APT=127.0.0.1:{airport}"]
            for turn in range(3):
                command = [str(word) for word in words]
                with subprocess.Popen(command, stdout=subprocess.PIPE, stderr=subprocess.PIPE, text=True) as process:
                    assert process.stdout
                    self.assertEqual(f"listen 1 APT 127.0.0.1:{airport}\n", process.stdout.readline())
                    caller = Caller(airport)
                    self.assertEqual(f"ok {turn}", caller.ask({"cmd": "tick"}))
                    display = socket.create_connection(("127.0.0.1", changes), timeout=LIMIT)
                    display.sendall(b"board\n")
                    done = ran("control.py", control, "close")
                    self.assertEqual((0, "closing\n", ""), (done.returncode, done.stdout, done.stderr))
                    self.assertEqual(0, process.wait(1), "its program has ended")
                    caller.close()
                    display.close()

    def test_wrong_addresses_are_left_alone(self) -> None:
        """Nobody is thrown off, no entry is made, and nothing is sent to a page or a feed."""
        control, airport, tower, changes, web = (free_port() for _ in range(5))
        words = ["serve", "--again", "--control", control, "--changes", f"127.0.0.1:{changes}"]
        words += ["--web", f"127.0.0.1:{web}", f"APT=127.0.0.1:{airport}", f"ATC=127.0.0.1:{tower}"]
        command = [str(PROGRAM), *map(str, words)]
        with subprocess.Popen(command, stdout=subprocess.PIPE, stderr=subprocess.DEVNULL, text=True) as process:
            assert process.stdout
            for _ in range(2):
                process.stdout.readline()
            caller = Caller(tower)
            self.assertEqual("alerts 0 -", caller.ask({"cmd": "alerts"}))
            for port, what in ((tower, "the address of ATC"), (changes, "the feed of changes (--changes)")):
                done = ran("control.py", port, "close")
                said = f"control.py: 127.0.0.1:{port} is {what}, and no control address\n"
                self.assertEqual((2, "", said), (done.returncode, done.stdout, done.stderr))
                done = ran("load.py", RULES / "slot.c", "--milestone", 9, "--kind", "alert", port)
                said = f"load.py: 127.0.0.1:{port} is {what}, and no address of APT\n"
                self.assertEqual((2, "", said), (done.returncode, done.stdout, done.stderr))
            done = ran("control.py", web, "status")
            said = f"control.py: 127.0.0.1:{web} is the page for browsers (--web), and no control address\n"
            self.assertEqual((2, said), (done.returncode, done.stderr))
            self.assertEqual("alerts 1 -", caller.ask({"cmd": "alerts"}), "the tower is still connected")
            self.assertEqual((0, "closing\n"), ((done := ran("control.py", control, "close")).returncode, done.stdout))
            caller.close()


class Elsewhere(unittest.TestCase):
    """Servers of which nothing is known but what they answer."""

    def test_control(self) -> None:
        for data in (b"HTTP/1.1 400 Bad Request\r\n", b"bad 101\n", b"", b"entries\n"):
            with Sending(data) as server:
                done = ran("control.py", server.port, "close")
            self.assertEqual((2, "", 1), (done.returncode, done.stdout, done.stderr.count("\n")), done.stderr)
            self.assertIn(f"control.py: 127.0.0.1:{server.port} is no control address of a board: it ", done.stderr)
        port = free_port()
        done = ran("control.py", port, "status")
        self.assertEqual((2, f"control.py: 127.0.0.1:{port}: Connection refused\n"), (done.returncode, done.stderr))

    def test_a_board_elsewhere(self) -> None:
        """The end of a board on another machine can't be seen, which is said."""
        status = b"session 1 APT gone\nentries 0 of 10\nlast none\n"
        with Sending(status + b"closing\n") as server:
            done = ran("control.py", server.port, "close")
        said = f"control.py: 127.0.0.1:{server.port} closes, and when its program has ended can't be seen from here\n"
        self.assertEqual((1, "closing\n", said), (done.returncode, done.stdout, done.stderr))

    def test_what_is_answered_to_promote(self) -> None:
        """As docs/RULES.md has the answers; a board that serves, or was replaced, is told so."""
        status = b"following 10.0.0.1:4100\nentries 0 of 10\nlast none\n"
        later = "is not promoted: a board with another journal and the later term 29000580 has taken over"
        for answer, code, told in (
            (b"promoting\n", 0, ""),
            (b"serving\n", 2, "follows no board: it serves already"),
            (b"replaced 29000580\n", 2, later),
            (b"closing\n", 2, "did not say that the board serves"),
            (b"", 2, "did not say that the board serves"),
        ):
            with Sending(status + answer) as server:
                done = ran("control.py", server.port, "promote")
            said = f"control.py: 127.0.0.1:{server.port} {told}\n" if told else ""
            self.assertEqual((code, "" if code else "promoting\n", said), (done.returncode, done.stdout, done.stderr))
        with Sending(status + b"promoting\n") as server:
            done = ran("control.py", server.port, "close")
        said = f"control.py: 127.0.0.1:{server.port} did not say that the board closes\n"
        self.assertEqual((2, "", said), (done.returncode, done.stdout, done.stderr))

    def test_a_long_line_of_the_state(self) -> None:
        """A bad line is told by its first 200 bytes, each of which may take six."""
        here = "session 1 APT here 127.0.0.1:5 since 2026-11-26T17:40:12Z lines 1 entries 0 refused - bad 101:1 "
        text = here + "\\u{ff}" * 200 + "\nentries 0 of 10\nlast none\n"
        with Sending(text.encode()) as server:
            done = ran("control.py", server.port, "status")
        self.assertEqual((0, text, ""), (done.returncode, done.stdout, done.stderr))

    def test_a_program_that_has_not_ended(self) -> None:
        """The end of its process is waited for, and one that does not come is told."""
        with subprocess.Popen(["sleep", "60"]) as process:
            listener, handle = Listener(process.pid, []), os.pidfd_open(process.pid)
            told = f"process {process.pid}, has not ended after 0.1 seconds"
            with patch.object(asking, "END", 0.1), self.assertRaisesRegex(asking.Unseen, told):
                asking.wait_for_end(listener, handle)
            process.kill()
            asking.wait_for_end(listener, handle)
            os.close(handle)

    def test_words(self) -> None:
        for given in ("", "4199", "4199 stop", "nowhere status", "4199 status now"):
            done = ran("control.py", *given.split())
            self.assertEqual((2, "", 1), (done.returncode, done.stdout, done.stderr.count("\n")), done.stderr)

    def test_partner(self) -> None:
        for name in ["partner.py", "partner.mjs"] if shutil.which("node") else ["partner.py"]:
            for data in (b"HTTP/1.1 400 Bad Request\r\n", b"ok\n"):
                with Sending(data) as server:
                    done = ran(name, f"127.0.0.1:{server.port}", given='{"cmd":"tick"}\n')
                self.assertEqual((2, "", 1), (done.returncode, done.stdout, done.stderr.count("\n")), done.stderr)
                self.assertIn(f"127.0.0.1:{server.port} answers ", done.stderr)
            for words in (
                "",
                "nowhere",
                "127.0.0.1:1 --feed x",
                "127.0.0.1:1 --wrong",
                "127.0.0.1:1,nowhere",
                "127.0.0.1:1,127.0.0.1:2 --feed 127.0.0.1:3",
            ):
                done = ran(name, *words.split())
                self.assertEqual((2, "", 1), (done.returncode, done.stdout, done.stderr.count("\n")), done.stderr)
            done = ran(name, "127.0.0.1:1", "--patience", "0.2", given='{"cmd":"tick"}\n')
            self.assertEqual((2, ""), (done.returncode, done.stdout))
            self.assertRegex(done.stderr, rf"^{re.escape(name)}: line 1 was not sent: 127\.0\.0\.1:1: .*\n$")
            with Sending(b"ok 0\n", stays=True) as server:
                done = ran(name, f"127.0.0.1:1,127.0.0.1:{server.port}", given='{"cmd":"tick"}\n')
            self.assertEqual((0, "ok 0\n", ""), (done.returncode, done.stdout, done.stderr), "the second is tried too")

    def test_an_interrupt_names_the_line(self) -> None:
        """One that waits for its reply may have been entered, and it is said which."""
        for name in ["partner.py", "partner.mjs"] if shutil.which("node") else ["partner.py"]:
            with self.subTest(client=name), socket.create_server(("127.0.0.1", 0)) as server:
                command = ["node"] if name.endswith(".mjs") else [sys.executable]
                command += [str(TOP / "clients" / name), f"127.0.0.1:{server.getsockname()[1]}"]
                pipes = {"stdin": subprocess.PIPE, "stdout": subprocess.PIPE, "stderr": subprocess.PIPE}
                with subprocess.Popen(command, text=True, **pipes) as process:  # type: ignore[call-overload]
                    for number in range(2):
                        print(f'{{"cmd":"unload","n":{number}}}', file=process.stdin, flush=True)
                    with server.accept()[0] as stream, stream.makefile("rb") as lines:
                        lines.readline()
                        stream.sendall(b"no 7 201\n")
                        lines.readline()
                        process.send_signal(signal.SIGINT)
                        out, said = process.communicate(timeout=LIMIT)
                told = f"{name}: line 2 has no reply and may have been entered, the last reply told of entry 7: "
                self.assertEqual((2, "no 7 201\n", told), (process.returncode, out, said[: len(told)]))

    def test_who_wants_no_more_replies_ends_it(self) -> None:
        """As `head` does: nothing is said of it."""
        with socket.create_server(("127.0.0.1", 0)) as server:
            command = [sys.executable, str(TOP / "clients" / "partner.py"), f"127.0.0.1:{server.getsockname()[1]}"]
            pipes = {"stdin": subprocess.PIPE, "stdout": subprocess.PIPE, "stderr": subprocess.PIPE}
            with subprocess.Popen(command, text=True, **pipes) as process:  # type: ignore[call-overload]
                print('{"cmd":"tick"}\n{"cmd":"tick"}', file=process.stdin, flush=True)
                with server.accept()[0] as stream, stream.makefile("rb") as lines:
                    lines.readline()
                    stream.sendall(b"ok 0\n")
                    self.assertEqual("ok 0\n", process.stdout.readline())
                    process.stdout.close()
                    lines.readline()
                    stream.sendall(b"ok 1\n")
                    self.assertEqual((-signal.SIGPIPE, ""), (process.wait(LIMIT), process.stderr.read()))

    def test_lines_and_replies_of_any_length(self) -> None:
        """White space around a line is none of it; a reply of all flights with all their alerts is whole."""
        for name in ["partner.py", "partner.mjs"] if shutil.which("node") else ["partner.py"]:
            reply = b"alerts 0 " + b";".join(b"%d:CDM13" % flight for flight in range(200_000)) + b"\n"
            with Sending(reply, stays=True) as server:
                done = ran(name, f"127.0.0.1:{server.port}", given=b'\r\n\t{"cmd":"alerts"} \r\n')
            self.assertEqual((0, reply.decode(), ""), (done.returncode, done.stdout, done.stderr))
            with Sending(b"migrated 4 7:tobt:308:2\n", stays=True) as server:
                done = ran(name, f"127.0.0.1:{server.port}", given='{"cmd":"migrate"}\n')
            self.assertEqual((0, "migrated 4 7:tobt:308:2\n"), (done.returncode, done.stdout), "it was accepted")
            for line in ('{"cmd":NaN}', '{"cmd":-Infinity}', '{"cmd":"tick"}}', "{'cmd':1}"):
                done = ran(name, "127.0.0.1:1", given=f"\n{line}\n")
                told = f"{name}: line 2 is no JSON: "
                self.assertEqual((2, "", told), (done.returncode, done.stdout, done.stderr[: len(told)]), line)

    def test_patience_counts_for_each_line(self) -> None:
        """A break is tried anew, however long ago an earlier one was."""
        for name in ["partner.py", "partner.mjs"] if shutil.which("node") else ["partner.py"]:
            with self.subTest(client=name), socket.create_server(("127.0.0.1", 0)) as server:
                threading.Thread(target=breaks_twice, args=(server, 2.5), daemon=True).start()
                port = server.getsockname()[1]
                done = ran(name, f"127.0.0.1:{port}", "--patience", "2", given='{"cmd":"tick"}\n' * 2)
                self.assertEqual((0, ""), (done.returncode, done.stderr))
                self.assertEqual(["ok 0 (sent again)", "ok 1 (sent again)"], done.stdout.splitlines())


def breaks_twice(server: socket.socket, seconds: float) -> None:
    """Breaks off behind each of two lines, and replies to each as it comes again: to the first one after so long."""
    with server.accept()[0] as stream, stream.makefile("rb") as lines:
        lines.readline()
    with server.accept()[0] as stream, stream.makefile("rb") as lines:
        lines.readline()
        time.sleep(seconds)
        stream.sendall(b"ok 0\n")
        lines.readline()
    with server.accept()[0] as stream, stream.makefile("rb") as lines:
        lines.readline()
        stream.sendall(b"ok 1\n")
        lines.readline()


@needs_program
class Partner(unittest.TestCase):
    def test_replies(self) -> None:
        show = {"cmd": "show", "flight": 2**64 - 1}
        lines = [
            SCHEDULE,
            {"cmd": "alerts"},
            {**SCHEDULE, "flight": 2**64 - 1},
            show,
            {"cmd": "nothing"},
            {"cmd": "tick"},
        ]
        given = "".join(json.dumps(line) + "\n\n" for line in lines)
        for name in ["partner.py", "partner.mjs"] if shutil.which("node") else ["partner.py"]:
            with self.subTest(client=name), Serving(("APT",)) as board:
                done = ran(name, f"127.0.0.1:{board.ports[0]}", given=given)
                self.assertEqual((1, ""), (done.returncode, done.stderr))
                replies = done.stdout.splitlines()
                self.assertEqual(
                    ["ok 0", "alerts 1 7:CDM13", "ok 2", "rec 3 ffffffffffffffff", "bad 102", "ok 4"],
                    [*replies[:3], replies[3][:22], *replies[4:]],
                )
                done = ran(name, f"127.0.0.1:{board.ports[0]}", "--feed", f"127.0.0.1:{board.changes}", given=given[:0])
                self.assertEqual((0, "", ""), (done.returncode, done.stdout, done.stderr))


@needs_program
@unittest.skipUnless(shutil.which("clang") and shutil.which("llvm-objdump"), "there is no clang with LLVM's tools")
class Load(unittest.TestCase):
    def test_a_rule(self) -> None:
        """docs/RULES-IN-C.md has these verdicts."""
        done = ran("load.py", RULES / "slot.c")
        self.assertEqual((0, "accepted 20\n", ""), (done.returncode, done.stdout, done.stderr))
        done = ran("load.py", RULES / "slot-unbounded.c")
        lines = done.stdout.splitlines()
        self.assertEqual((1, "refused 313 9"), (done.returncode, lines[0]))
        self.assertIn("fault 313 at slot 9", lines[1])
        mend = "to mend 313: compare it last before the call; for sums write + (docs/RULES-IN-C.md, The numbers)"
        self.assertEqual(mend, lines[-1])

    def test_a_load(self) -> None:
        with Serving(("APT", "APT")) as board:
            words = ("--milestone", 9, "--kind", "alert", f"127.0.0.1:{board.ports[1]}", "--feed", board.changes)
            done = ran("load.py", RULES / "slot.c", *words)
            self.assertEqual((0, "accepted 20\nok 0\n", ""), (done.returncode, done.stdout, done.stderr))
            command = board.entries()[0]["command"]
        self.assertEqual({"cmd": "load", "milestone": 9, "kind": "alert", "instructions": 20, "length": 128}, command)

    def test_sources_that_are_no_rule(self) -> None:
        with tempfile.TemporaryDirectory() as folder:
            source = Path(folder) / "rule.c"
            source.write_text(TWO, encoding="ascii")
            done = ran("load.py", source)
            said = (
                f"load.py: {source}: the section entry has the functions first and second, and takes one rule alone\n"
            )
            self.assertEqual((2, "", said), (done.returncode, done.stdout, done.stderr))
            source.write_text("int other(void) { return 0; }\n", encoding="ascii")
            done = ran("load.py", source)
            said = f'load.py: {source}: no function has __attribute__((section("entry")))\n'
            self.assertEqual((2, said), (done.returncode, done.stderr))
            source.write_text(UNSET, encoding="ascii")
            done = ran("load.py", source)
            self.assertIn("warning: variable 'others' is uninitialized", done.stderr)
            done = ran("load.py", Path(folder) / "none.c")
            self.assertEqual((2, f"load.py: {folder}/none.c is no file\n"), (done.returncode, done.stderr))
            done = ran("load.py", source, "4001")
            self.assertEqual((2, "load.py: a load names --milestone and --kind\n"), (done.returncode, done.stderr))


@needs_program
class Carry(unittest.TestCase):
    def test_open_flights(self) -> None:
        """Of two flights one takes off; the other's commands stay, with the tick that raised its alert."""
        first = [json.dumps({**SCHEDULE, "flight": flight}, separators=(",", ":")) for flight in (1, 2)]
        plan = '{"cmd":"report","flight":%d,"milestone":1,"time":"2025-02-20T10:00:00Z",'
        plan += '"callsign":"DLH7","type":"A320","reg":"DAIBC","dest":"EDDM"}'
        report = '{"cmd":"report","flight":%d,"milestone":%d,"time":"2025-02-20T%s:00Z"}'
        lines = [f"1 29000700 APT {first[0]}", f"1 29000700 APT {first[1]}", f"2 29000700 NM {plan % 1}"]
        lines += [f"4 29000700 AO {report % (1, 9, '10:00')}", f"3 29000700 ATC {report % (1, 10, '10:00')}"]
        lines += [f"3 29000755 ATC {report % (1, 13, '09:55')}", f"3 29000756 ATC {report % (1, 14, '09:56')}"]
        lines += [f"3 29000757 ATC {report % (1, 15, '09:57')}", f"3 29000759 ATC {report % (1, 16, '09:59')}"]
        lines += [
            '1 29000760 APT {"cmd":"show","flight":2}',
            f"2 29000761 NM {plan % 2}",
            '1 29000762 APT {"cmd":"tick"}',
        ]
        with tempfile.TemporaryDirectory() as folder:
            journal = Path(folder) / "day"
            words = [str(PROGRAM), "run", "--save", str(journal)]
            made = subprocess.run(words, input="\n".join(lines) + "\n", capture_output=True, text=True, check=True)
            self.assertEqual(
                ["ok"] * 9 + ["rec"] + ["ok"] * 2, [reply.split()[0] for reply in made.stdout.splitlines()]
            )
            done = ran("carry.py", journal)
            self.assertEqual((0, ""), (done.returncode, done.stderr))
            # (a question of this moment comes first)
            first_line, *rest = done.stdout.splitlines()
            self.assertRegex(first_line, r'^1 \d{8,} APT \{"cmd":"alerts"\}$')
            self.assertLess(abs(int(first_line.split()[1]) - time.time() / 60), 5)
            self.assertEqual([lines[1], lines[10]], rest)
            # (and of one that is carried over in the same minute another moment: two journals begin with no same entry)
            again = Path(folder) / "again"
            words = [str(PROGRAM), "run", "--save", str(again)]
            subprocess.run(words, input=done.stdout, capture_output=True, text=True, check=True)
            second_line = ran("carry.py", again).stdout.splitlines()[0]
            self.assertGreater(int(second_line.split()[1]), int(first_line.split()[1]))
            done = ran("carry.py", journal, "--departed")
            self.assertEqual([*lines[:9], lines[10]], done.stdout.splitlines()[1:])
            journal.write_text("nothing\n", encoding="ascii")
            done = ran("carry.py", journal)
            self.assertEqual(
                (1, "", f"carry.py: {journal}: entry 0 401\n"), (done.returncode, done.stdout, done.stderr)
            )
        done = ran("carry.py", "/nowhere/day")
        self.assertEqual((2, "", 1), (done.returncode, done.stdout, done.stderr.count("\n")))
        self.assertIn("/nowhere/day", done.stderr)

    def test_programs_and_times_of_deicing(self) -> None:
        """All that loaded programs are of goes over, each with its length; what was refused and asked stays behind."""
        taxi = "69113c000000000057010000ff01000085000000020000009500000000000000"
        load = {"cmd": "load", "milestone": 9, "kind": "alert", "program": taxi}
        plan = {"cmd": "report", "flight": 7, "milestone": 1, "time": "2025-02-20T10:00:00Z"}
        plan |= {name: SCHEDULE[name] for name in ("callsign", "type", "reg", "dest")}
        target = {"cmd": "report", "flight": 7, "milestone": 9, "time": "2025-02-20T10:00:00Z"}
        deice = {"cmd": "deice", "flight": 7, "field": "eczt", "time": "2025-02-20T09:50:00Z"}
        rows: list[tuple[str, dict[str, Any], bool]] = [
            ("1 APT", load, True),
            ("1 APT", {**load, "milestone": 7}, True),
            ("1 APT", {"cmd": "unload", "milestone": 7, "kind": "alert"}, True),
            ("2 NM", load, False),
            ("1 APT", SCHEDULE, True),
            ("2 NM", plan, True),
            ("4 AO", target, True),
            ("4 AO", {**target, "time": None}, True),
            ("1 APT", {"cmd": "alerts"}, False),
            ("1 APT", {"cmd": "migrate"}, True),
            ("6 DIC", deice, True),
            ("6 DIC", {**deice, "field": "eezt"}, True),
            ("6 DIC", {**deice, "field": "eezt", "time": None}, True),
            ("1 APT", {**load, "milestone": 6, "kind": "tobt", "length": 160}, True),
        ]
        asked = '1 29000800 APT {"cmd":"show","flight":7}\n'
        given = "".join(
            f"{who.split()[0]} {29000700 + place} {who.split()[1]} {json.dumps(command)}\n"
            for place, (who, command, _) in enumerate(rows)
        )
        with tempfile.TemporaryDirectory() as folder:
            journal = Path(folder) / "day"
            words = [str(PROGRAM), "run", "--save", str(journal)]
            made = subprocess.run(words, input=given + asked, capture_output=True, text=True, check=True).stdout
            done = ran("carry.py", journal)
            found = [line.split(" ", 3) for line in done.stdout.splitlines()[1:]]
            wanted = [(place, *row[:2]) for place, row in enumerate(rows) if row[2]]
            self.assertEqual(
                [[*who.split(), 29000700 + place, command] for place, who, command in wanted],
                [
                    [
                        session,
                        role,
                        int(minute),
                        {k: v for k, v in json.loads(text).items() if (k, v) != ("length", 128)},
                    ]
                    for session, minute, role, text in found
                ],
            )
            words = [str(PROGRAM), "run"]
            again = subprocess.run(words, input=done.stdout + asked, capture_output=True, text=True, check=True).stdout
            replies = [text.splitlines()[-1].split() for text in (made, again)]
            self.assertEqual("rec", replies[0][0])
            self.assertEqual(replies[0][2], replies[1][2], "the record is the same")


if __name__ == "__main__":
    unittest.main()
