#!/usr/bin/env python3
"""A live board for the terminal: a display of `acdm serve --changes`. It makes no entry.

    clients/board.py ADDRESS [FLIGHT ..] [--names FILE] [--once]

ADDRESS is that of --changes, as 127.0.0.1:4100. Shown are all flights, or those named, by TOBT; those that have taken
off are hidden. FILE has the airport's names of its local alerts, a line each, as `LOC03 de-icing late`. What comes from
the server is shown as text: of other than printable characters a question mark. Outside what is proved.
"""
import argparse
import os
import select
import shutil
import signal
import sys
import termios
import time
import tty
from pathlib import Path

from feed import (
    Arguments,
    Board,
    Closed,
    Line,
    Link,
    NoFeed,
    OtherJournal,
    alert_names,
    clock,
    parse_address,
    words_of,
)
from words import REFUSALS

MARKS = "S" + "".join(str(place % 10) for place in range(1, 17))
COLUMNS = {"CALLSIGN": 8, "STND": 4, "EOBT": 5, "TOBT": 5, "TSAT": 5, "MILESTONES": len(MARKS)}
FIRST_TO_GO = ("STND", "EOBT", "CALLSIGN", "MILESTONES", "TSAT", "TOBT")
ROOM_FOR_ALERTS = 22
PLAIN, RED, GREEN, YELLOW, REVERSE = "", "31", "32", "33", "7"
KEYS = {b"j": 1, b"\x1b[B": 1, b"k": -1, b"\x1b[A": -1, b" ": 10, b"\x1b[6~": 10, b"b": -10, b"\x1b[5~": -10}


Part = tuple[str, str]
Size = tuple[int, int]


def cell(name: str, flight: Line) -> str:
    """What stands in a column."""
    if name == "MILESTONES":
        return "".join(mark if place in flight["reached"] else "." for place, mark in enumerate(MARKS))
    if name == "STND":
        return f"{flight['stand'] or '-':>4}"
    return str(flight["callsign"]) if name == "CALLSIGN" else clock(flight[name.lower()]) or "-"


def listed(names: list[str], width: int, local: dict[str, str]) -> list[Part]:
    """As many alerts as fit, in words, and how many are left out."""
    words = [words_of(name, local) for name in names]
    shown, more = len(words), ""
    while shown and len(", ".join(words[:shown]) + more) > width:
        shown -= 1
        more = f" +{len(words) - shown}"
    parts: list[Part] = []
    for place, (name, word) in enumerate(zip(names[:shown], words)):
        parts += [(", " if place else "", PLAIN), (word, YELLOW if name.startswith("LOC") else RED)]
    return parts + [(more if shown else more.strip(), RED)]


def columns_for(width: int, first: int) -> list[str]:
    """The columns that leave room for alerts."""
    columns = list(COLUMNS)
    for name in FIRST_TO_GO:
        if first + sum(1 + COLUMNS[column] for column in columns) + 1 + ROOM_FOR_ALERTS > width:
            columns.remove(name)
    return columns


def plain(text: str) -> str:
    """A text that says nothing to a terminal but its letters."""
    return "".join(letter if letter.isprintable() else "?" for letter in text)


def painted(parts: list[Part], width: int, is_coloured: bool) -> str:
    """Parts of a line, each a text and its colour, cut to the width."""
    line = ""
    for text, colour in parts:
        text = plain(text)
        text, width = text[:width], width - len(text[:width])
        line += f"\x1b[{colour}m{text}\x1b[0m" if colour and text and is_coloured else text
    return line


def row_of(flight: Line, columns: list[str], first: int, width: int, local: dict[str, str]) -> list[Part]:
    parts = [(f"{flight['flight']:>{first}}", PLAIN)]
    for name in columns:
        colour = GREEN if name == "MILESTONES" else PLAIN
        parts.append((f" {cell(name, flight):{COLUMNS[name]}}", colour))
    left = width - sum(len(text) for text, _ in parts) - 1
    return parts + [(" ", PLAIN)] + listed(flight["alerts"], left, local)


class Screen:
    """Keys and pictures of a terminal."""

    def __init__(self) -> None:
        self.before = termios.tcgetattr(0)
        self.is_coloured = not os.environ.get("NO_COLOR") and os.environ.get("TERM") != "dumb"

    def __enter__(self) -> "Screen":
        tty.setcbreak(0)
        print("\x1b[?1049h\x1b[?25l", end="", flush=True)
        return self

    def __exit__(self, *_: object) -> None:
        termios.tcsetattr(0, termios.TCSADRAIN, self.before)
        print("\x1b[?25h\x1b[?1049l", end="", flush=True)

    def draw(self, lines: list[str]) -> None:
        body = "\r\n".join(f"{line}\x1b[K" for line in lines)
        print(f"\x1b[H{body}\x1b[J", end="", flush=True)


class Looking:
    """The board, the connection if there is one, and what is shown."""

    def __init__(self, given: argparse.Namespace) -> None:
        self.where, self.named = given.address, set(given.flight)
        self.local = alert_names(given.names) if given.names else {}
        self.board, self.heard, self.trouble = Board(), "", ""
        self.link: Link | None = None
        self.due, self.top = 0.0, 0
        self.departed = self.alerted = False

    def hear(self) -> None:
        """Takes the lines that have come."""
        if self.link:
            for line in self.link.lines():
                self.board.take(line)
                self.heard = time.strftime("%H:%M:%S", time.gmtime())

    def begin(self, seconds: float | None = None) -> None:
        """Connects; the board comes first then, whatever was there before."""
        self.due = time.monotonic() + 3
        link = Link(self.where, "board", seconds)
        self.board, self.link, self.trouble = Board(), link, ""

    def lost(self, why: str) -> None:
        if self.link:
            self.link.close()
        self.link, self.trouble = None, f"{why}; trying again"

    def flights(self) -> list[Line]:
        found = self.board.shown(self.departed, self.alerted)
        return [flight for flight in found if flight["flight"] in self.named] if self.named else found

    def title(self, count: int) -> str:
        alerted = len(self.board.shown(alerted=True))
        title = f"acdm {self.where[0]}:{self.where[1]}  flights {count} of {len(self.board.flights)}, alerted {alerted}"
        return title + (f", entry {self.board.next - 1} at {self.heard}" if self.heard and self.board.next else "")

    def lines(self, size: Size, is_coloured: bool) -> list[str]:
        """The picture, line by line."""
        width, height = size
        flights = self.flights()
        room = max(1, height - 3)
        self.top = max(0, min(self.top, len(flights) - room))
        first = max([6] + [len(str(flight["flight"])) for flight in flights])
        columns = columns_for(width, first)
        heads = [MARKS if name == "MILESTONES" else f"{name:{COLUMNS[name]}}" for name in columns]
        lines = [
            [(self.title(len(flights)), PLAIN)],
            [(" ".join([f"{'FLIGHT':>{first}}", *heads, "ALERTS"]).ljust(width), REVERSE)],
        ]
        lines += [row_of(flight, columns, first, width, self.local) for flight in flights[self.top : self.top + room]]
        lines.append([(self.status(), RED if self.trouble else PLAIN)])
        return [painted(parts, width, is_coloured) for parts in lines]

    def status(self) -> str:
        if self.trouble:
            return self.trouble
        last = self.board.refused[-1:]
        said = [
            f"entry {line['entry']} of {line['role']}: {REFUSALS.get(line['outcome']['code'], '')}" for line in last
        ]
        return "  ".join(["q ends, j and k scroll, d departed, a alerts only", *said])


def step(looking: Looking) -> bytes:
    """Waits for half a second, a line or a key, and gives the key."""
    try:
        if looking.link is None and time.monotonic() >= looking.due:
            looking.begin()
        sources = [0] + ([looking.link.stream.fileno()] if looking.link else [])
        ready = select.select(sources, [], [], 0.5)[0]
        if looking.link and looking.link.stream.fileno() in ready:
            looking.hear()
        return (os.read(0, 16) or b"q") if 0 in ready else b""
    except (Closed, NoFeed, OtherJournal) as why:
        looking.lost(str(why))
        return b""


def watch(looking: Looking) -> None:
    """Looks until q; what comes is drawn five times a second at most."""
    with Screen() as screen:
        key, drawn = b"", 0.0
        while b"q" not in key:
            if key or time.monotonic() - drawn >= 0.2:
                size = shutil.get_terminal_size()
                screen.draw(looking.lines(size, screen.is_coloured)[: size.lines])
                drawn = time.monotonic()
            key = step(looking)
            looking.top += sum(rows * key.count(code) for code, rows in KEYS.items())
            looking.departed ^= b"d" in key
            looking.alerted ^= b"a" in key


def once(looking: Looking) -> None:
    """Prints the board as it is now, without colours."""
    looking.begin(seconds=30)
    while not looking.heard:
        looking.hear()
    for line in looking.lines((shutil.get_terminal_size().columns, 5000), False)[:-1]:
        print(line.rstrip())


def flight_number(word: str) -> int:
    number = int(word) if word.isascii() and word.isdigit() else 0
    if not 1 <= number < 2**64:
        raise argparse.ArgumentTypeError(f"{word!r} is no flight: a number from 1 to 2^64 - 1 is wanted")
    return number


def arguments() -> argparse.Namespace:
    words = Arguments(description="A live board for the terminal.")
    words.add_argument("address", type=parse_address, help="that of acdm serve --changes, as 127.0.0.1:4100")
    words.add_argument("flight", nargs="*", type=flight_number, help="show these flights alone")
    words.add_argument("--names", type=Path, metavar="FILE", help="names of local alerts, as `LOC03 de-icing late`")
    words.add_argument("--once", action="store_true", help="print one picture, and end")
    return words.parse_args()


def main() -> int:
    given = arguments()
    signal.signal(signal.SIGTERM, lambda *_: sys.exit(0))
    try:
        looking = Looking(given)
        if given.once or not (sys.stdin.isatty() and sys.stdout.isatty()):
            signal.signal(signal.SIGPIPE, signal.SIG_DFL)
            once(looking)
        else:
            watch(looking)
        return 0
    except (Closed, NoFeed, OtherJournal) as why:
        print(f"board.py: {given.address[0]}:{given.address[1]}: {why}", file=sys.stderr)
    except OSError as error:
        print(f"board.py: {given.names}: {error.strerror}", file=sys.stderr)
    except ValueError as error:
        print(f"board.py: {error}", file=sys.stderr)
    except KeyboardInterrupt:
        return 0
    return 2


if __name__ == "__main__":
    sys.exit(main())
