#!/usr/bin/env python3
"""Asks at the control address of `acdm serve --control ADDR`, or of `acdm follow`.

    clients/control.py [HOST:]PORT status       prints who is here, how many entries there are, and when the last was
    clients/control.py [HOST:]PORT close        closes the board in good order, and waits until the program has ended
    clients/control.py [HOST:]PORT promote      has a board that follows another one serve partners from then on

The end is that of the process, where the board runs on this machine; of one elsewhere it can't be seen, which is said,
with status 1. Another address of a board on this machine is told as that, without a connection to it. At an address of
which nothing is known `status` is sent, and nothing more where the answer is none of a board. Status 2 where the board
can't be asked. Outside what is proved.
"""
import os
import re
import select
import socket
import sys
from typing import BinaryIO

from feed import Address, Arguments, parse_address, shortened
from listeners import Listener, listener_at, purpose

ANSWER = 5
# (at the end partners are given 5 seconds and displays 5; a large journal is saved in less than the rest)
END = 120
# (a line of a session ends with the first 200 bytes of a bad line, each of which may take six)
LONGEST = 4096
LINE = re.compile(
    rb"(following |session \d+ [A-Z]+ (here|gone|ticks)|followers |entries \d+ of \d+|term \d+|version |last )[ -~]*\n"
)


class Fault(Exception):
    """Why the board is not asked, or what it does not do."""


class Unseen(Exception):
    """The board closes, and when its program has ended can't be seen."""


def status(stream: socket.socket, lines: BinaryIO) -> str:
    """What is told of the board."""
    stream.sendall(b"status\n")
    found = b""
    while not found.rpartition(b"\n")[0].rpartition(b"\n")[2].startswith(b"last "):
        line = lines.readline(LONGEST)
        if not LINE.fullmatch(line):
            said = f"answers {shortened(line.decode('ascii', 'replace'))!r}" if line else "closes the connection"
            raise Fault(f"is no control address of a board: it {said}")
        found += line
    return found.decode("ascii")


def close(stream: socket.socket, lines: BinaryIO) -> str:
    """Closes the board; its last word."""
    stream.sendall(b"close\n")
    stream.settimeout(END)
    answer = lines.readline(LONGEST)
    if answer != b"closing\n":
        raise Fault("did not say that the board closes")
    while lines.read(1 << 12):
        pass
    return answer.decode("ascii")


def promote(stream: socket.socket, lines: BinaryIO) -> str:
    """Has the board serve; its answer."""
    stream.sendall(b"promote\n")
    answer = lines.readline(LONGEST)
    if answer == b"serving\n":
        raise Fault("follows no board: it serves already")
    if answer.startswith(b"replaced "):
        term = answer.decode("ascii", "replace").strip().partition(" ")[2]
        raise Fault(f"is not promoted: a board with another journal and the later term {term} has taken over")
    if answer != b"promoting\n":
        raise Fault("did not say that the board serves")
    return answer.decode("ascii")


def wait_for_end(listener: Listener | None, handle: int | None) -> None:
    """Waits for the end of the process that listened."""
    if listener is None or handle is None:
        raise Unseen("closes, and when its program has ended can't be seen from here")
    if not select.select([handle], [], [], END)[0]:
        raise Unseen(f"closes, and its program, process {listener.process}, has not ended after {END} seconds")


def handle_of(listener: Listener | None) -> int | None:
    """What tells the end of the process of a board."""
    try:
        return os.pidfd_open(listener.process) if listener and listener.is_board() else None
    except OSError:
        return None


def checked(where: Address) -> Listener | None:
    """Who listens there, where that can be seen; where it is a board, this may be its control address."""
    listener = listener_at(where)
    if listener and listener.is_board() and not listener.may_be("--control", where[1]):
        word = listener.word(where[1])
        raise Fault(f"is {purpose(word) if word else 'of a board'}, and no control address")
    return listener


ASKING = {"close": close, "promote": promote}


def ask(where: Address, word: str) -> None:
    """Prints what the board answers; after `close` its program has ended."""
    listener = checked(where)
    handle = handle_of(listener)
    try:
        with socket.create_connection(where, timeout=ANSWER) as stream, stream.makefile("rb") as lines:
            answer = status(stream, lines)
            print(ASKING[word](stream, lines) if word in ASKING else answer, end="", flush=True)
        if word == "close":
            wait_for_end(listener, handle)
    finally:
        if handle is not None:
            os.close(handle)


def main() -> int:
    words = Arguments(description="Asks at the control address of acdm serve.")
    words.add_argument("address", type=parse_address, metavar="[HOST:]PORT")
    words.add_argument("word", choices=["status", "close", "promote"])
    given = words.parse_args()
    name = f"{given.address[0]}:{given.address[1]}"
    try:
        ask(given.address, given.word)
        return 0
    except Unseen as why:
        print(f"control.py: {name} {why}", file=sys.stderr)
        return 1
    except Fault as why:
        print(f"control.py: {name} {why}", file=sys.stderr)
    except OSError as error:
        print(f"control.py: {name}: {error.strerror or error}", file=sys.stderr)
    return 2


if __name__ == "__main__":
    sys.exit(main())
