#!/usr/bin/env python3
"""A partner of `acdm serve`: sends objects, and prints the reply to each.

    clients/partner.py ADDRESS[,ADDRESS..] [--feed ADDRESS[,ADDRESS..]] [--patience SECONDS] < objects

ADDRESS is the partner's own, as 127.0.0.1:4002, and behind commas those of boards that may take over (`acdm follow`),
which are tried in turn; standard input has one JSON object a line (docs/CONNECT.md). Each line waits for the reply to
the one before. After a break it connects again. Was a line sent whole and not replied, it may have been entered. With
--feed, the address of `serve --changes`, and those of the others, it is looked for there, and sent again only where it
made no entry; else its reply is that of the feed. Without --feed, or where the board has another journal by then, the
program stops, and names the line. A question and a tick are sent again in any case. Status 0 where each line was
accepted, 1 where one was not, 2 where it had to stop. Outside what is proved.
"""
import contextlib
import json
import re
import select
import signal
import socket
import sys
import time
from collections.abc import Callable, Iterator
from dataclasses import dataclass
from datetime import datetime, timedelta, timezone
from typing import Any, BinaryIO, NoReturn, TypeVar

from feed import (
    Address,
    Arguments,
    Closed,
    Line,
    Link,
    NoFeed,
    OtherJournal,
    Place,
    followed,
    parse_address,
    shortened,
)

# What changes the board: it is never sent again on a guess.
CHANGES = ("report", "schedule", "deice", "load", "unload", "migrate")
# (answered `bad 102`, behind all lines of the connection before, and makes no entry)
NO_COMMAND = "{}"
QUESTION = {"cmd": "show", "flight": 1}
REPLY = re.compile(rb"(?:(?:ok|no|rec|alerts|migrated) \d+|bad \d+)(?: [ -~]*)?\n")
# (4,096 flights with all alerts have less)
LONGEST_REPLY = 1 << 22
# Of a machine that vanished nothing is told: a connection is given up after so many seconds without an answer,
# where the system does that. By itself it would be after a quarter of an hour.
SILENT = 10
GIVEN_UP = {
    "TCP_KEEPIDLE": SILENT // 4,
    "TCP_KEEPINTVL": SILENT // 4,
    "TCP_KEEPCNT": 3,
    "TCP_USER_TIMEOUT": 1000 * SILENT,
}
INSTANT = re.compile(
    r"(\d{4})-?(\d\d)-?(\d\d)[Tt ](\d\d)(?::?(\d\d)(?::?\d\d(?:[.,]\d+)?)?)?"
    r"(?:[Zz]|([+-])(\d\d)(?::?(\d\d))?)(?:\[.*)?",
    re.ASCII,
)


Found = TypeVar("Found")


class Stop(Exception):
    """Why no line is sent any more."""


class Elsewhere(Stop):
    """The board has another journal than the one that a line was sent to."""


class Unsent(Exception):
    """The connection broke before a line was handed over: it is no line of a session that goes on."""


@dataclass
class Reply:
    """The reply to a line, and how it came, where that was in another way than usual."""

    text: str
    note: str = ""

    def is_accepted(self) -> bool:
        return self.text.split()[0] in ("ok", "rec", "alerts", "migrated")

    def number(self) -> int | None:
        """The number of its entry, if the line made one."""
        words = self.text.split()
        return int(words[1]) if words[0] != "bad" else None


def minute_of(instant: str) -> str | None:
    """An instant as the feed tells it, or nothing where it can't be read here."""
    found = INSTANT.fullmatch(instant)
    if not found:
        return None
    year, month, day, hour = (int(digits) for digits in found.groups()[:4])
    ahead = timedelta(hours=int(found[7] or 0), minutes=int(found[8] or 0)) * (-1 if found[6] == "-" else 1)
    try:
        moment = datetime(year, month, day, hour, int(found[5] or 0), tzinfo=timezone(ahead)).astimezone(timezone.utc)
    except (ValueError, OverflowError):
        return None
    return moment.strftime("%Y-%m-%dT%H:%M:00Z").zfill(20)


def is_same(entered: Line, command: Line) -> bool:
    """Whether the feed tells of this command: each field that it tells is the one that was sent."""
    for name, value in entered.items():
        sent = command.get(name, 128 if name == "length" else None)
        if name in ("time", "sobt") and isinstance(sent, str):
            sent = minute_of(sent) or value
        if name not in ("instructions", "layout") and sent != value:
            return False
    return True


def reply_of(entry: Line) -> str:
    """The reply to the command of an entry, as far as the feed tells it."""
    if entry["outcome"] != "ok":
        return f"no {entry['entry']} {entry['outcome']['code']}"
    return f"{'migrated' if entry['command']['cmd'] == 'migrate' else 'ok'} {entry['entry']}"


class Connection:
    """A connection to a partner's address, which is made again after a break: to the first of several that is there."""

    def __init__(self, where: Address | list[Address], patience: float) -> None:
        self.places, self.place, self.patience = where if isinstance(where, list) else [where], 0, patience
        self.stream: socket.socket | None = None
        self.replies: BinaryIO | None = None
        self.until: float | None = None
        # Whether it is not known yet which journal its lines go to.
        self.is_new = True

    @property
    def where(self) -> Address:
        return self.places[self.place]

    def close(self) -> None:
        stream, replies, self.stream, self.replies = self.stream, self.replies, None, None
        if stream is not None and replies is not None:
            replies.close()
            stream.close()

    def wait(self, seconds: float, why: str) -> None:
        """Waits before another trial, while there is patience: it counts from the first fault of a line on."""
        now = time.monotonic()
        self.until = self.until or now + self.patience
        if now >= self.until:
            raise Stop(why)
        time.sleep(seconds)

    def connect(self) -> tuple[socket.socket, BinaryIO]:
        pause = 0.1
        if self.stream is not None and has_ended(self.stream):
            self.close()
        while self.stream is None or self.replies is None:
            try:
                # (the answer may be long in coming: a board of many partners begins when all are there)
                self.stream, self.is_new = socket.create_connection(self.where, timeout=5), True
                self.stream.settimeout(None)
                give_up_late(self.stream)
                self.replies = self.stream.makefile("rb")
            except OSError as error:
                why = fault_of(self.where, error)
                self.place = (self.place + 1) % len(self.places)
                self.wait(pause, why)
                pause = min(2 * pause, 5)
        return self.stream, self.replies

    def exchange(self, line: str) -> Reply | None:
        """Sends a line on the connection that there is, and gives its reply.

        It gives nothing where the connection broke behind the line, and raises Unsent where it broke before.
        """
        stream, replies = self.stream, self.replies
        if stream is None or replies is None:
            raise Unsent
        try:
            stream.sendall(line.encode() + b"\n")
        except OSError as error:
            self.close()
            self.wait(0.1, fault_of(self.where, error))
            raise Unsent from None
        try:
            reply = replies.readline(LONGEST_REPLY)
        except OSError:
            reply = b""
        if REPLY.fullmatch(reply):
            return Reply(reply[:-1].decode("ascii"))
        self.close()
        if reply.endswith(b"\n") or len(reply) == LONGEST_REPLY:
            raise Stop(f"{named(self.where)} answers {shortened(reply.decode('ascii', 'replace'))!r}, as no board does")
        self.wait(0.1, f"{named(self.where)}: the connection broke before the reply")
        return None

    def insist(self, line: str) -> Reply:
        """The reply to a line that may be sent more than once."""
        reply: Reply | None = None
        while reply is None:
            self.connect()
            with contextlib.suppress(Unsent):
                reply = self.exchange(line)
        return reply


def give_up_late(stream: socket.socket) -> None:
    """Has a connection break where the machine on its other side does not answer any more."""
    stream.setsockopt(socket.SOL_SOCKET, socket.SO_KEEPALIVE, 1)
    for name, value in GIVEN_UP.items():
        if hasattr(socket, name):
            stream.setsockopt(socket.IPPROTO_TCP, getattr(socket, name), value)


def has_ended(stream: socket.socket) -> bool:
    """Whether the other side has closed a connection on which nothing is waited for."""
    try:
        return bool(select.select([stream], [], [], 0)[0]) and not stream.recv(1, socket.MSG_PEEK)
    except OSError:
        return True


class Partner:
    """A partner, each of whose lines is entered once."""

    def __init__(
        self, where: Address | list[Address], feed: Address | list[Address] | None = None, patience: float = 60
    ) -> None:
        self.connection = Connection(where, patience)
        self.feeds: list[Address | None] = [*feed] if isinstance(feed, list) else [feed]
        # The journal that the lines of this connection go to, by its name. Of it, the last entry that was replied here,
        # with its command, and the first one that may have the next line.
        self.journal = ""
        self.known: tuple[int, Any] | None = None
        self.first: int | None = None
        # Whether the line in hand may have been entered.
        self.is_uncertain = False

    @property
    def feed(self) -> Address | None:
        """The feed of the board that is connected to."""
        return self.feeds[self.connection.place % len(self.feeds)]

    def close(self) -> None:
        self.connection.close()

    def ask(self, line: str) -> Reply:
        """The reply to a line, which is entered once."""
        self.connection.until, self.is_uncertain, note = None, False, ""
        command = json.loads(line)
        is_change = command.get("cmd") in CHANGES
        while True:
            self.connection.connect()
            if self.feed and is_change and self.meet():
                note = "in another journal"
            was_sent, self.is_uncertain = self.is_uncertain, is_change
            try:
                reply = self.connection.exchange(line)
            except Unsent:
                self.is_uncertain = was_sent
                continue
            if reply:
                break
            entry = self.find(command) if is_change else None
            if entry:
                self.take(entry["entry"], command)
                return Reply(reply_of(entry), "from the feed")
            note = "sent again"
        reply.note, number = note, reply.number()
        # (an entry counts of a journal whose name is known)
        if number is not None and not (self.feed and self.connection.is_new):
            self.take(number, command)
        return reply

    def take(self, number: int, command: Any) -> None:
        self.known, self.first, self.is_uncertain = (number, command), number + 1, False

    def meet(self) -> bool:
        """Learns which journal the lines of a new connection go to, and says whether it is another than before."""
        before = self.journal
        # (a journal that was empty has got its name with its first entry)
        if not self.connection.is_new and (before or not self.known):
            return False
        # (behind this reply all lines before it are entered or dropped; it may come by another new connection)
        self.connection.insist(NO_COMMAND)
        told = self.board()
        if before not in ("", told["journal"]):
            self.go_over(told)
        if self.first is None:
            self.first = told["next"]
        self.journal, self.connection.is_new = told["journal"], False
        return self.journal != before != ""

    def go_over(self, told: Line) -> None:
        """Goes over to another journal: what is known of the one before counts no more."""
        self.known, self.first = None, told["next"]

    def find(self, command: Any) -> Line | None:
        """The entry of a command that was sent and not replied, once that is decided. Elsewhere where it can't be."""
        if not self.feed:
            raise Stop("the connection broke, and without --feed nobody can say whether it was entered")
        first, known = self.first or 0, self.known
        # Lines of a session are answered in order, over all its connections: behind this reply the line was entered or
        # dropped. Where no entry is known to be of this session, a question makes one.
        self.connection.insist(NO_COMMAND)
        self.check(self.board())
        if not known:
            # (it may come by a new connection; whether that has the same journal is asked behind it)
            number = self.connection.insist(json.dumps(QUESTION)).number()
            known = None if number is None else (number, QUESTION)
        lines = self.entries_from(min(first, known[0]) if known else first)
        self.connection.is_new = False
        if known is None:
            if any(is_same(line["command"], command) for line in lines):
                raise Stop("the feed has such an entry, and it is not known whose")
            return None
        session = self.session(lines, *known)
        return next(
            (line for line in lines if line["entry"] >= first and is_own(line, session, known[0], command)), None
        )

    def check(self, told: Line) -> None:
        """Elsewhere where a board has another journal than the one that lines went to."""
        if self.journal not in ("", told["journal"]):
            raise Elsewhere(f"the feed at {named(self.feed)}: {OtherJournal(Place(self.journal), told)}")
        self.journal = told["journal"]

    def session(self, lines: list[Line], number: int, command: Any) -> int:
        """The session of an entry that was replied here."""
        entry = next((line for line in lines if line["entry"] == number), None)
        if entry is None or not is_same(entry["command"], command):
            raise Stop(
                f"the feed at {named(self.feed)} is of another journal: its entry {number} is not the one replied"
            )
        return int(entry["session"])

    def count(self) -> int:
        """How many entries there are."""
        return int(self.board()["next"])

    def board(self) -> Line:
        """The board as it is now."""
        return self.read("board", first_board)

    def entries_from(self, first: int) -> list[Line]:
        """The entries from one on, of the journal that lines go to. Elsewhere where the board has another one."""
        told = self.board()
        self.check(told)
        place, wanted = Place(self.journal, first), told["next"] - first
        return self.read(f"from {first}", lambda link: first_entries(link, place, wanted)) if wanted > 0 else []

    def read(self, words: str, take: Callable[[Link], Found]) -> Found:
        """What is taken of the feed."""
        assert self.feed is not None
        while True:
            link: Link | None = None
            try:
                link = Link(self.feed, words, 5)
                return take(link)
            except Closed as closed:
                self.connection.wait(0.2, f"the feed at {named(self.feed)}: {closed}")
            except NoFeed as fault:
                raise Stop(f"the feed at {named(self.feed)}: {fault}") from None
            except OtherJournal as other:
                raise Elsewhere(f"the feed at {named(self.feed)}: {other}") from None
            finally:
                if link:
                    link.close()


def first_board(link: Link) -> Line:
    """The first line of a connection, which is that of a board."""
    while not (found := link.lines()):
        pass
    if "flights" not in found[0]:
        raise NoFeed("it sends no board where one is asked for")
    return found[0]


def first_entries(link: Link, place: Place, wanted: int) -> list[Line]:
    """So many entries from a place on."""
    found: list[Line] = []
    for lines in followed(link, place):
        found += lines
        if len(found) >= wanted:
            break
    return found[:wanted]


def is_own(line: Line, session: int, known: int, command: Any) -> bool:
    """Whether an entry is of this session, has this command, and is not the one that is known."""
    return line["session"] == session and line["entry"] != known and is_same(line["command"], command)


def named(where: Address | None) -> str:
    return "" if where is None else f"{where[0]}:{where[1]}"


def fault_of(where: Address, error: OSError) -> str:
    return f"{named(where)}: {error.strerror or error}"


def refuse_constant(name: str) -> NoReturn:
    raise ValueError(f"{name} is no value of JSON")


def lines_of(given: BinaryIO) -> Iterator[tuple[int, str]]:
    """The lines that have something, each with its number; each is an object."""
    for number, data in enumerate(given, 1):
        try:
            line = data.decode("utf-8").strip(" \t\r\n")
            value = json.loads(line, parse_constant=refuse_constant) if line else {}
        except (ValueError, RecursionError) as error:
            raise Stop(f"line {number} is no JSON: {error}") from None
        if not isinstance(value, dict):
            raise Stop(f"line {number} is no object: {shortened(line)}")
        if line:
            yield number, line


def stopped(partner: Partner, number: int, line: str, why: str) -> str:
    """What is said where a line has no reply."""
    if not partner.is_uncertain:
        return f"line {number} was not sent: {why}"
    last = f"the last reply told of entry {partner.known[0]}" if partner.known else "no reply came before it"
    return f"line {number} has no reply and may have been entered, {last}: {shortened(line, 200)}: {why}"


def run(partner: Partner, given: BinaryIO) -> int:
    """Sends all lines, and prints their replies."""
    status = 0
    for number, line in lines_of(given):
        try:
            reply = partner.ask(line)
        except Stop as why:
            raise Stop(stopped(partner, number, line, str(why))) from None
        except KeyboardInterrupt:
            raise Stop(stopped(partner, number, line, "interrupted")) from None
        print(reply.text + (f" ({reply.note})" if reply.note else ""), flush=True)
        status = status if reply.is_accepted() else 1
    partner.close()
    return status


def parse_addresses(text: str) -> list[Address]:
    """Addresses with commas between them."""
    return [parse_address(it) for it in text.split(",")]


def main() -> int:
    words = Arguments(description="A partner of acdm serve.")
    words.add_argument("address", type=parse_addresses, help="the partner's, as 127.0.0.1:4002; others behind commas")
    words.add_argument("--feed", type=parse_addresses, metavar="ADDRESS", help="that of serve --changes, of each board")
    words.add_argument("--patience", type=float, default=60, metavar="SECONDS", help="how long it tries anew; 60")
    given = words.parse_args()
    if given.feed and len(given.feed) != len(given.address):
        words.error("--feed has another number of addresses than the partner")
    signal.signal(signal.SIGPIPE, signal.SIG_DFL)
    try:
        return run(Partner(given.address, given.feed, given.patience), sys.stdin.buffer)
    except Stop as why:
        print(f"partner.py: {why}", file=sys.stderr)
        return 2


if __name__ == "__main__":
    sys.exit(main())
