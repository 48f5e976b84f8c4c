#!/usr/bin/env python3
"""Measures `acdm serve --second N`: what it costs that other boards keep an entry before its reply is sent.

    python3 bench/serve/seconds.py [--program PATH] [--seconds N] [--partners N]

A board whose journal is kept serves 64 partners, each of which sends its next line once it has read the reply to the last
one. It does so alone, with one board that follows and with two, one after the other, all of them on this machine, over
the loopback interface. Printed are the lines a second of all partners together, and after how many milliseconds a reply
came: half of them, 99 of 100, and the last one. In the end all files are the same. The partners take processor time of
the same machine, and so do the boards that follow.
"""

import argparse
import pathlib
import selectors
import socket
import sys
import tempfile
import time

TOP = pathlib.Path(__file__).resolve().parents[2]
sys.path.insert(0, str(TOP / "bench" / "hostile"))

from followed import Boards  # noqa: E402

SHOW = b'{"cmd":"show","flight":7}\n'
ROOM = ["--journal", "1000000"]
# So many seconds are waited at most for a reply, or for a file that is to have all.
MOST = 60


class Partner:
    """A partner that sends a line, and the next one once it has the reply."""

    def __init__(self, port):
        self.stream = socket.create_connection(("127.0.0.1", port), timeout=MOST)
        self.stream.setsockopt(socket.IPPROTO_TCP, socket.TCP_NODELAY, 1)
        self.held, self.sent = b"", 0

    def send(self):
        self.sent = time.perf_counter()
        self.stream.sendall(SHOW)

    def hear(self):
        """The seconds that the reply took, once all of it is there."""
        part = self.stream.recv(4096)
        if not part:
            sys.exit("the board has gone")
        self.held += part
        if not self.held.endswith(b"\n"):
            return None
        if self.held.startswith(b"bad"):
            sys.exit(f"the reply was {self.held.decode().strip()}")
        self.held = b""
        return time.perf_counter() - self.sent


def replies(ports, seconds):
    """The seconds that each reply took, of partners at these ports, and how long all of it took."""
    partners, taken = [Partner(port) for port in ports], []
    with selectors.DefaultSelector() as ready:
        for it in partners:
            ready.register(it.stream, selectors.EVENT_READ, it)
        began = time.perf_counter()
        for it in partners:
            it.send()
        waiting = len(partners)
        while waiting:
            found = ready.select(MOST)
            if not found:
                sys.exit(f"no reply came in {MOST} seconds")
            for key, _ in found:
                took = key.data.hear()
                if took is None:
                    continue
                taken.append(took)
                if time.perf_counter() - began < seconds:
                    key.data.send()
                else:
                    waiting -= 1
        whole = time.perf_counter() - began
    for it in partners:
        it.stream.close()
    return sorted(taken), whole


def measured(boards, partners, followers, seconds):
    """A row of the table: a board that so many others follow."""
    arguments = ["--second", str(followers)] if followers else []
    first = boards.first(f"first of {followers}", *ROOM, *arguments, roles=["APT"] * partners)
    others = [boards.second(first, f"{number} of {followers}", *ROOM) for number in range(followers)]
    # (with the first reply all of them are there)
    first.caller(1).asks(SHOW.decode().strip())
    taken, whole = replies(first.ports, seconds)
    if first.turns():
        print(f"with {followers}: {', '.join(first.turns())}: what follows is not what it says")
    text = first.kept.read_bytes()
    for it in others:
        if not it.waits_for(lambda it=it: it.kept.stat().st_size == len(text)) or it.kept.read_bytes() != text:
            sys.exit(f"the file of a board that follows is another one: {it.said[-3:]}")
    boards.end()
    half, late = taken[len(taken) // 2], taken[len(taken) * 99 // 100]
    return [followers or "none", f"{len(taken) / whole:,.0f}", *(f"{it * 1e3:.2f}" for it in (half, late, taken[-1]))]


def main():
    words = argparse.ArgumentParser(description=__doc__.splitlines()[0])
    words.add_argument("--program", type=pathlib.Path, default=TOP / "crates" / "acdm" / "out" / "acdm", metavar="PATH")
    words.add_argument("--seconds", type=float, default=5, metavar="N", help="how long each is served; 5")
    words.add_argument("--partners", type=int, default=64, metavar="N", help="each with a line in flight; 64, which are the most")
    asked = words.parse_args()
    with tempfile.TemporaryDirectory() as made:
        boards = Boards(asked.program.resolve(), pathlib.Path(made))
        print("| Boards that follow | Lines a second | Half of the replies, ms | 99 of 100, ms | The last, ms |", flush=True)
        print("|---|---|---|---|---|", flush=True)
        try:
            for followers in range(3):
                row = measured(boards, asked.partners, followers, asked.seconds)
                print(f"| {' | '.join(str(it) for it in row)} |", flush=True)
        finally:
            boards.end()


if __name__ == "__main__":
    main()
