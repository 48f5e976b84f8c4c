#!/usr/bin/env python3
"""Tries clients of `acdm serve --watch`: what each is sent of the journal's text, by what it asked for first.

    python3 bench/feed/resume.py [--program PATH] [--lines N]

Two partners send N lines in turn (400). Meanwhile clients are sent the journal: two that say nothing, one whose sending side ends at once,
some that say `from N` before that entry is there or after, and one that is cut off at 40 moments by chance and goes on `from N` each time.
What they were sent is held against the saved journal: nothing before its text for who was silent; else the line of the journal, with the
digest of its first line and the number of the entry that comes next, and the text from there on. A first line that asks for nothing is
let go. The last line is `N cases, M failed`; the status is 1 where one failed.
"""

import argparse
import hashlib
import json
import pathlib
import random
import socket
import subprocess
import sys
import tempfile
import threading
import time

from run import Cases

TOP = pathlib.Path(__file__).resolve().parent.parent.parent
ROOM = 100_000
LINES = [b'{"cmd":"alerts"}\n', b'{"cmd":"show","flight":7}\n']
LET_GO = [
    b"hello\n", b"board\n", b"from\n", b"from x\n", b"from -1\n", b"from 01\n", b"from 18446744073709551616\n", b"from 1\r\n", b"from 1",
    b"GET / HTTP/1.1\r\n\r\n", b"x" * 4096,
]  # fmt: skip


def free_port():
    with socket.create_server(("127.0.0.1", 0)) as it:
        return it.getsockname()[1]


def connect(port, first=b""):
    for _ in range(400):
        try:
            stream = socket.create_connection(("127.0.0.1", port))
            break
        except ConnectionRefusedError:
            time.sleep(0.05)
    stream.sendall(first)
    return stream


def asking(number):
    return f"from {number}\n".encode()


class Reader(threading.Thread):
    """A client that is sent all to the end."""

    def __init__(self, port, first=b""):
        super().__init__(daemon=True)
        self.stream, self.data = connect(port, first), b""
        self.start()

    def run(self):
        while came := self.stream.recv(1 << 18):
            self.data += came


class Cut(threading.Thread):
    """A client that is cut off by chance, and goes on behind the last whole line that it had."""

    def __init__(self, port, chance, cuts):
        super().__init__(daemon=True)
        self.port, self.chance, self.cuts, self.lines, self.heads = port, chance, cuts, [], []
        self.start()

    def run(self):
        while True:
            asked = len(self.lines)
            stream = connect(self.port, asking(asked))
            left, rest, is_begun = self.chance.randrange(60, 2_000) if self.cuts > 0 else 1 << 60, b"", False
            self.cuts -= 1
            while left > 0:
                came = stream.recv(min(left, 1 << 16))
                if not came:
                    return
                left -= len(came)
                *whole, rest = (rest + came).split(b"\n")
                if whole and not is_begun:
                    self.heads.append((asked, whole.pop(0)))
                    is_begun = True
                self.lines += whole
            stream.close()


def play(streams, count, pause):
    """Sends so many lines, each once the one before is answered."""
    heard = [it.makefile("rb") for it in streams]
    for number in range(count):
        place = number % len(streams)
        streams[place].sendall(LINES[place])
        heard[place].readline()
        time.sleep(pause)


def let_go(cases, port):
    """First lines that ask for nothing."""
    for first in LET_GO:
        stream, came = connect(port, first), b""
        stream.settimeout(3)
        try:
            came = stream.recv(1 << 16)
            cases.case(f"{first[:30]!r} is let go", came)
        except ConnectionResetError:
            cases.case(f"{first[:30]!r} is let go", "")
        except TimeoutError:
            cases.case(f"{first[:30]!r} is let go", "it was not")
        stream.close()


def as_long_as_may_be(cases, port, journal):
    """A first line of 32 bytes, which is the most that one has, and one of 33."""
    for first, wanted in ((b"from 100 as 18446744073709551615\n", journal.head(100)), (b"from 1000 as 18446744073709551615\n", b"")):
        stream = connect(port, first)
        stream.settimeout(5)
        with stream.makefile("rb") as lines:
            try:
                came = lines.readline()
            except OSError:
                came = b""
        cases.same(f"a first line of {len(first) - 1} bytes", came.decode(), wanted.decode())
        stream.close()


def silent(cases, port):
    """A client that says nothing is waited for a quarter of a second, and sent nothing in that time. (The machine may be late.)"""
    took = []
    for _ in range(5):
        begun = time.monotonic()
        stream = connect(port)
        stream.settimeout(5)
        stream.recv(1)
        took.append(time.monotonic() - begun)
        stream.close()
    # (each of ten waits of 25 milliseconds may end a little sooner, by the system's clock)
    cases.case("who says nothing is waited for", "" if 0.22 <= min(took) <= 1 else f"{took}")


def ended_at_once(port, first=b""):
    """What one is sent whose sending side ends at once, or behind this."""
    it = Reader(port, first)
    it.stream.shutdown(socket.SHUT_WR)
    it.join(10)
    return it.data


class Journal:
    """What was saved, and what is sent of it."""

    def __init__(self, text):
        self.text, self.lines = text, text.splitlines(keepends=True)
        self.name = hashlib.sha256(self.lines[0].rstrip(b"\n")).hexdigest()[:32]

    def head(self, number):
        """The line of the journal for who is sent the entries from this number on."""
        return json.dumps({"journal": self.name, "next": number, "room": ROOM}, separators=(",", ":")).encode() + b"\n"

    def behind(self, number):
        return self.head(number) + b"".join(self.lines[number:])


def main():
    parser = argparse.ArgumentParser(description=__doc__, formatter_class=argparse.RawDescriptionHelpFormatter)
    parser.add_argument("--program", type=pathlib.Path, default=TOP / "crates" / "acdm" / "out" / "acdm")
    parser.add_argument("--lines", type=int, default=400)
    words = parser.parse_args()
    cases, count = Cases(), words.lines
    with tempfile.TemporaryDirectory(prefix="acdm-resume-") as room:
        saved, port, ports = pathlib.Path(room) / "journal", free_port(), [free_port(), free_port()]
        command = [str(words.program), "serve", "--save", str(saved), "--watch", f"127.0.0.1:{port}"]
        server = subprocess.Popen(command + [f"APT=127.0.0.1:{ports[0]}", f"NM=127.0.0.1:{ports[1]}"], stdout=subprocess.DEVNULL)
        streams = [connect(it) for it in ports]
        cases.same("an empty journal: nothing for who has ended", str(ended_at_once(port)), "b''")
        still, early = [Reader(port)], {it: Reader(port, asking(it)) for it in (0, 1, 30, 2**64 - 1)}
        # (each has asked before there is an entry)
        time.sleep(0.5)
        cut = Cut(port, random.Random(57), 40)
        playing = threading.Thread(target=play, args=(streams, count, 0.002))
        playing.start()
        time.sleep(0.2)
        still.append(Reader(port))
        let_go(cases, port)
        playing.join()
        last = {it: Reader(port, asking(it)) for it in (0, 1, 30, count - 1, count, count + 1, 2**64 - 1)}
        now = ended_at_once(port)
        sent = Journal(now)
        for first in (b"f", b"from 1", b"term"):
            cases.same(f"{first!r} without its end is let go", str(ended_at_once(port, first)), "b''")
        as_long_as_may_be(cases, port, sent)
        silent(cases, port)
        for it in streams:
            it.close()
        for it in (*still, *early.values(), *last.values(), cut):
            it.join(30)
        cases.same("status", str(server.wait(60)), "0")
        journal = Journal(saved.read_bytes())
    cases.same("all lines were entered", str(len(journal.lines)), str(count))
    for name, data in (("silent from the start", still[0].data), ("silent later", still[1].data), ("ended at once", now)):
        cases.same(f"{name}: the text alone", data.decode("ascii"), journal.text.decode("ascii"))
    for number, it in early.items():
        # (of a journal of no entry, so that it begins with the first one)
        cases.same(f"from {number} before any entry", it.data.decode("ascii"), journal.behind(0).decode("ascii"))
    for number, it in last.items():
        cases.same(f"from {number} of {count}", it.data.decode("ascii"), journal.behind(min(number, count)).decode("ascii"))
    cases.same("cut off: each entry once", str(cut.lines == journal.text.splitlines()), "True")
    cases.case("cut off: the journal each time", [it for it in cut.heads if it[1] + b"\n" != journal.head(it[0])])
    print(f"{cases.count} cases, {cases.failed} failed")
    return 1 if cases.failed else 0


if __name__ == "__main__":
    sys.exit(main())
