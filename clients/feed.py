"""The feed of changes of `acdm serve --changes`, for displays and bridges: addresses, connections, boards.

Outside what is proved.
"""
import argparse
import json
import re
import socket
import time
from collections.abc import Callable, Iterator
from dataclasses import dataclass
from pathlib import Path
from typing import Any, NoReturn

from words import ALERTS

PATIENCE = 60
# (a board of 4,096 flights has 4 MB)
LONGEST_LINE = 1 << 24
# (the first half of the SHA-256 of a journal's first entry)
NAME = re.compile("[0-9a-f]{32}")
Address = tuple[str, int]
Line = dict[str, Any]


class Closed(Exception):
    """There is no connection."""


class NoFeed(Exception):
    """What answers does not speak the feed of changes."""


class OtherJournal(Exception):
    """The board has another journal than before, or one that ends before the entry that comes next."""

    def __init__(self, before: "Place", line: Line) -> None:
        self.journal, self.next = str(line["journal"]), int(line["next"])
        self.is_same = bool(self.journal) and self.journal == before.journal
        if self.is_same:
            text = f"journal {self.journal} ends before entry {before.next}: it has {self.next}"
        elif not self.journal:
            text = "the board has another journal, without an entry yet"
        else:
            text = f"the board has another journal, {self.journal}" + (
                f" for {before.journal}" if before.journal else ""
            )
        super().__init__(text)


class BadAddress(argparse.ArgumentTypeError, ValueError):
    """A word that is no address."""


class Arguments(argparse.ArgumentParser):
    """Reads the words of a command; one that is wrong is told in one line, with status 2."""

    def error(self, message: str) -> NoReturn:
        self.exit(2, f"{self.prog}: {message}\n")


def parse_address(text: str) -> Address:
    """The host and the port of HOST:PORT, [HOST]:PORT, or of a PORT of the loopback interface."""
    host, colon, port = text.rpartition(":")
    if host.startswith("[") and host.endswith("]"):
        host = host[1:-1]
    elif ":" in host or (colon and not host):
        raise BadAddress(f"{text!r} is no address, as 127.0.0.1:4002 or [::1]:4002")
    if not re.fullmatch(r"\d{1,5}", port, re.ASCII) or not 1 <= int(port) <= 65535:
        raise BadAddress(f"{text!r} is no address: its port is no number from 1 to 65535")
    return host or "127.0.0.1", int(port)


def alert_names(path: Path) -> dict[str, str]:
    """The airport's names of its local alerts: lines of a file, as `LOC03 de-icing late`."""
    names = {}
    for number, line in enumerate(path.read_text(encoding="utf-8").splitlines(), 1):
        found = re.fullmatch(r"(LOC(?:0\d|1[0-5]))\s+(.+)", line.strip())
        if found:
            names[found[1]] = found[2]
        elif line.strip():
            raise ValueError(f"{path}: line {number} is none as `LOC03 de-icing late`")
    return names


def words_of(alert: str, local: dict[str, str] | None = None) -> str:
    """An alert in words."""
    return ALERTS.get(alert) or (local or {}).get(alert) or f"local alert {alert[3:]}"


def clock(text: str | None) -> str:
    """The clock time of a time of the feed, or none."""
    return text[-9:-4] if text else ""


class Link:
    """A connection to the feed, from its first line on; with a time in which something has to come."""

    def __init__(self, where: Address, first: str, seconds: float | None = None) -> None:
        try:
            self.stream = socket.create_connection(where, timeout=5)
            self.stream.sendall(first.encode("ascii") + b"\n")
        except OSError as error:
            raise Closed(error.strerror or str(error)) from None
        self.stream.settimeout(seconds)
        self.rest: list[bytes] = []

    def lines(self) -> list[Line]:
        """The lines that have come, as values."""
        try:
            received = self.stream.recv(1 << 18)
        except OSError as error:
            raise Closed(error.strerror or str(error)) from None
        if not received:
            raise Closed("the server closed the connection")
        whole, feed, rest = received.rpartition(b"\n")
        if not feed:
            self.rest.append(received)
            if sum(map(len, self.rest)) > LONGEST_LINE:
                raise NoFeed("it sends a line without an end, so it is no feed of a board")
            return []
        lines = b"".join([*self.rest, whole]).split(b"\n")
        self.rest = [rest]
        return [parsed(line) for line in lines]

    def close(self) -> None:
        self.stream.close()


def parsed(text: bytes) -> Line:
    """A line of the feed, as a value."""
    try:
        line = json.loads(text)
    except (ValueError, RecursionError):
        line = None
    if not isinstance(line, dict) or not is_line(line):
        raise NoFeed(
            f"it sends {shortened(text.decode('ascii', 'replace'))!r}, which is no line of the feed of a board"
        )
    return line


def shortened(text: str, most: int = 60) -> str:
    return text if len(text) <= most else text[:most] + ".."


KINDS: dict[str, Any] = {"flight": int, "callsign": str, "stand": int, "reached": list, "alerts": list}


def is_record(record: Any) -> bool:
    """Whether a value is a record, as far as it is shown."""
    if not isinstance(record, dict) or any(not isinstance(record.get(name), kind) for name, kind in KINDS.items()):
        return False
    times = [record.get(name, 0) for name in ("sobt", "eobt", "tobt", "tsat")]
    return all(isinstance(time_of, (str, type(None))) for time_of in times) and (
        all(isinstance(place, int) for place in record["reached"])
        and all(isinstance(name, str) for name in record["alerts"])
    )


def is_count(value: Any) -> bool:
    return isinstance(value, int) and not isinstance(value, bool) and value >= 0


def is_named(line: Line) -> bool:
    """Whether a line tells of a journal: its name, the entry that comes next, and its room."""
    return (
        isinstance(line.get("journal"), str)
        and NAME.fullmatch(line["journal"]) is not None
        and is_count(line.get("next"))
        and is_count(line.get("room"))
    )


def is_empty(line: Line) -> bool:
    """Whether a line tells of a journal without an entry, which has no name yet."""
    return line.get("journal") == "" and line.get("next") == 0 and is_count(line["next"]) and is_count(line.get("room"))


def is_line(line: Line) -> bool:
    """Whether a value is a line of the feed: of a board, of a journal, or of an entry."""
    if "flights" in line:
        return (
            (is_empty(line) or (is_named(line) and line["next"] > 0))
            and isinstance(line["flights"], list)
            and all(map(is_record, line["flights"]))
        )
    if "journal" in line:
        return "entry" not in line and is_named(line)
    outcome, command, changed = line.get("outcome"), line.get("command"), line.get("changed")
    return (
        all(isinstance(line.get(name), kind) for name, kind in (("entry", int), ("session", int), ("role", str)))
        and isinstance(line.get("minute"), str)
        and isinstance(command, dict)
        and isinstance(command.get("cmd"), str)
        and (outcome == "ok" or (isinstance(outcome, dict) and isinstance(outcome.get("code"), int)))
        and isinstance(changed, list)
        and all(map(is_record, changed))
    )


@dataclass
class Place:
    """Where a reader stands: in which journal, by its name, empty until it was told, and before which entry."""

    journal: str = ""
    next: int = 0

    def meet(self, line: Line) -> None:
        """Takes the first line that comes for `from NEXT`. OtherJournal where one can't go on from here."""
        if "entry" in line:
            raise NoFeed("it sends an entry before the name of its journal, as boards before version 0.10.0 do")
        if "flights" in line and line["next"] < self.next:
            raise OtherJournal(self, line)
        if "flights" in line or line["next"] != self.next:
            raise NoFeed(f"it begins at entry {line['next']} in place of {self.next}")
        if self.journal not in ("", line["journal"]):
            raise OtherJournal(self, line)
        self.journal = line["journal"]


class Board:
    """All flights, in order of creation, the journal's name, and the entry that comes next."""

    def __init__(self) -> None:
        self.flights: dict[int, Line] = {}
        self.journal, self.next = "", 0
        self.minute = ""
        self.refused: list[Line] = []
        self.partners: dict[tuple[int, str], Line] = {}

    def take(self, line: Line) -> bool:
        """Takes a line, and says whether it was that of a board, or of an entry that was not known.

        OtherJournal where it is that of a journal, and of another one than before.
        """
        if "flights" in line:
            self.flights = {record["flight"]: record for record in line["flights"]}
            self.journal, self.next = line.get("journal", ""), line["next"]
            return True
        if "journal" in line:
            if self.journal not in ("", line["journal"]):
                raise OtherJournal(Place(self.journal, self.next), line)
            self.journal = line["journal"]
            return False
        if line["entry"] < self.next:
            return False
        self.next, self.minute = line["entry"] + 1, line["minute"]
        partner = self.partners.setdefault((line["session"], line["role"]), {"refused": 0})
        partner["last"] = line["minute"]
        if line["outcome"] != "ok":
            partner["refused"] += 1
            self.refused = [*self.refused[-19:], line]
        elif line["command"]["cmd"] == "migrate":
            for flight in self.flights.values():
                flight |= dict.fromkeys(("eczt", "eezt", "aczt", "aezt"))
        for flight in line["changed"]:
            self.flights[flight["flight"]] = flight
        return True

    def shown(self, departed: bool = False, alerted: bool = False) -> list[Line]:
        """The flights by TOBT, then EOBT and SOBT."""
        flights = [
            flight
            for flight in self.flights.values()
            if (departed or 16 not in flight["reached"]) and (flight["alerts"] or not alerted)
        ]
        return sorted(flights, key=board_order)


def board_order(flight: Line) -> tuple[str, str, int]:
    return flight["tobt"] or flight["eobt"] or flight["sobt"] or "~", flight["eobt"] or "~", flight["flight"]


def followed(link: Link, place: Place) -> Iterator[list[Line]]:
    """The entries of a connection that was asked for those from a place on, as many at a time as have come.

    The place learns the name of its journal, and is moved by who takes the entries. OtherJournal where they are not of
    its journal, Closed where they are out of order.
    """
    number, is_met = place.next, False
    while True:
        found = link.lines()
        if not is_met and found:
            place.meet(found.pop(0))
            is_met = True
        for line in found:
            if line.get("entry") != number:
                raise Closed(f"{what_came(line)} came in place of entry {number}")
            number += 1
        if found:
            yield found


def what_came(line: Line) -> str:
    return f"entry {line['entry']}" if "entry" in line else "a board" if "flights" in line else "the name of a journal"


def entries(where: Address, place: Place | None = None, is_wanted: Callable[[], bool] = lambda: True) -> Iterator[Line]:
    """The lines of the entries from a place on, over all breaks, each once and in order; the place moves with them.

    OtherJournal where the board has another journal by then: none of its entries was given.
    """
    place, pause = place or Place(), 1
    while is_wanted():
        link = None
        try:
            link = Link(where, f"from {place.next}")
            for lines in followed(link, place):
                pause = 1
                for line in lines:
                    place.next = line["entry"] + 1
                    yield line
        except Closed:
            pass
        finally:
            if link:
                link.close()
        time.sleep(pause)
        pause = min(2 * pause, PATIENCE)
