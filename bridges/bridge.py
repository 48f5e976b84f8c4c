"""What the bridges share: the words of a command line, the feed, trying again, and the file of a place in it.

Outside what is proved.
"""

import argparse
import json
import os
import re
import ssl
import sys
import time
from collections.abc import Callable, Iterator
from dataclasses import dataclass
from pathlib import Path
from typing import NoReturn

sys.path.insert(0, str(Path(__file__).resolve().parents[1] / "clients"))
# pylint: disable-next=wrong-import-position
from feed import (  # noqa: E402
    Address,
    Arguments,
    Closed,
    Line,
    Link,
    NoFeed,
    OtherJournal,
    Place,
    followed,
    parse_address,
)

FIRST_PAUSE, LONGEST_PAUSE = 1, 30
ANSWER = 5
PASSWORD = "BRIDGE_PASSWORD"
GREATEST = 2**64 - 1


def end(name: str, message: object) -> NoReturn:
    """Ends the program with one line on standard error and status 2."""
    print(f"{name}: {one_line(message)}", file=sys.stderr, flush=True)
    raise SystemExit(2)


def say(message: object) -> None:
    """Says one line on standard error."""
    print(f"{os.path.basename(sys.argv[0])}: {one_line(message)}", file=sys.stderr, flush=True)


def one_line(message: object) -> str:
    """A message without its line breaks."""
    return " ".join(str(message).split()) or type(message).__name__


class Words(Arguments):
    """The words of a bridge; the first one is the feed's address."""

    def __init__(self, description: str) -> None:
        super().__init__(description=description, formatter_class=argparse.RawDescriptionHelpFormatter)
        self.add_argument("feed", type=parse_address)

    def add_security(self) -> None:
        """Adds the words for TLS, user and password."""
        self.add_argument("--user", help="the user's name at the broker")
        about = f"a file whose first line is the password; without it the password is in the environment's {PASSWORD}"
        self.add_argument("--password-file", type=readable_file, metavar="FILE", help=about)
        about = "TLS: the certificates of the authorities that may sign the broker's, as PEM"
        self.add_argument("--cafile", type=readable_file, metavar="FILE", help=about)
        self.add_argument(
            "--cert", type=readable_file, metavar="FILE", help="TLS: the bridge's own certificate, as PEM"
        )
        self.add_argument("--key", type=readable_file, metavar="FILE", help="TLS: the key of that certificate, as PEM")

    def security_of(self, given: argparse.Namespace, has_tls: bool) -> "Security":
        """The words for TLS, user and password, which are checked together."""
        if given.user is None and given.password_file:
            self.error("--password-file: no --user is named")
        if given.user is not None and not given.password_file and PASSWORD not in os.environ:
            self.error(f"--user {given.user}: no --password-file is named, and {PASSWORD} is not set")
        if given.key and not given.cert:
            self.error("--key: no --cert is named")
        for word in ("cafile", "cert"):
            if getattr(given, word) and not has_tls:
                self.error(f"--{word}: the address is one without TLS")
        security = Security(given.user, given.password_file, given.cafile, given.cert, given.key)
        for file, load in ((given.cafile, security.trust), (given.cert, security.identify)):
            try:
                load(ssl.create_default_context())
            except (OSError, ValueError) as error:
                self.error(f"{file}: {error}")
        return security


@dataclass(frozen=True)
class Security:
    """What a bridge shows to a broker, and what the broker has to show."""

    user: str | None
    password_file: Path | None
    cafile: Path | None
    cert: Path | None
    key: Path | None

    def password(self) -> str | None:
        """The user's password, as the file has it now."""
        if self.user is None:
            return None
        if self.password_file:
            return (self.password_file.read_text(encoding="utf-8").splitlines() or [""])[0]
        return os.environ[PASSWORD]

    def trust(self, context: ssl.SSLContext) -> None:
        """Adds the authorities' certificates."""
        if self.cafile:
            context.load_verify_locations(self.cafile)

    def identify(self, context: ssl.SSLContext) -> None:
        """Adds the bridge's own certificate."""
        if self.cert:
            context.load_cert_chain(self.cert, self.key)

    def context(self) -> ssl.SSLContext:
        """TLS that checks the broker's name and certificate: by the authorities named, else by the system's."""
        context = ssl.create_default_context(cafile=self.cafile)
        self.identify(context)
        return context


def readable_file(text: str) -> Path:
    """A file that can be read."""
    try:
        with open(text, "rb"):
            return Path(text)
    except OSError as error:
        raise argparse.ArgumentTypeError(f"{text}: {error.strerror}") from None


def entry_number(text: str) -> int:
    """The number of an entry."""
    if not re.fullmatch("[0-9]{1,20}", text) or int(text) > GREATEST:
        raise argparse.ArgumentTypeError(f"{text!r} is no number of an entry")
    return int(text)


def text_of(value: object) -> str:
    """JSON without spaces, as the feed has it."""
    return json.dumps(value, separators=(",", ":"))


Known = Callable[[str], tuple[int, Line | None]]


def begun_never(_journal: str) -> tuple[int, Line | None]:
    """What a bridge has of a journal that it may have had before: nothing."""
    return 0, None


def feed_lines(
    feed: Address, place: Place, last: Line | None = None, known: Known = begun_never
) -> Iterator[list[Line]]:
    """The entries from a place on, in order, as many at a time as have come; the place moves once they are handed over.

    Where the board has another journal, one line says so, and its entries come from entry 0 on, or from where `known`
    says. Closed, with the reason, at each failure.
    """
    where, has_turned = f"feed {feed[0]}:{feed[1]}", False
    while True:
        try:
            for lines in lines_from(feed, place, last):
                has_turned = False
                yield lines
        except OtherJournal as other:
            if other.is_same or has_turned:
                raise Closed(f"{where}: {other}") from None
            has_turned, place.journal = True, other.journal
            place.next, last = known(other.journal) if other.journal else (0, None)
            say(f"{where}: {other}: a new generation begins at its entry {place.next}")
        except (Closed, NoFeed) as error:
            raise Closed(f"{where}: {error}") from None


def lines_from(feed: Address, place: Place, last: Line | None) -> Iterator[list[Line]]:
    """The entries of a connection from a place on.

    Where entries were handed over before, the one before the place is asked for as well. It has to come soon, and to be
    `last` where that is known. A place without a name has been kept by an older bridge: the name that comes is its own.
    """
    asked, is_checked = Place(place.journal, max(place.next - 1, 0)), not place.next
    link = Link(feed, f"from {asked.next}", None if is_checked else ANSWER)
    try:
        for lines in followed(link, asked):
            if not is_checked:
                check_last(lines.pop(0), last)
                is_checked = True
                link.stream.settimeout(None)
            if place.next and not place.journal:
                say(f"what was handed over has no name of a journal: it is taken to be of {asked.journal}")
            place.journal = asked.journal
            if lines:
                yield lines
                place.next = lines[-1]["entry"] + 1
    except Closed as error:
        if is_checked:
            raise
        raise Closed(f"entry {asked.next} was handed over and does not come ({error})") from None
    finally:
        link.close()


def check_last(line: Line, last: Line | None) -> None:
    """Closed where an entry is not the one that was handed over."""
    if last is not None and line != last:
        raise Closed(f"entry {line['entry']} is not the one that was handed over: the journal was changed")


Carried = Callable[[], None]
Failures = tuple[type[Exception], ...]


def forever(
    name: str, carry: Callable[[Carried], None], failures: Failures, sleep: Callable[[float], None] = time.sleep
) -> NoReturn:
    """Calls `carry` again after each failure, of which it says one line on standard error.

    It waits a second at first, twice as long after each further failure, and 30 seconds at most. `carry` is handed a
    function to be called after each entry: from there the waits begin at a second again.
    """
    pause = FIRST_PAUSE
    expected: Failures = (Closed, OSError, *failures)

    def carried() -> None:
        nonlocal pause
        pause = FIRST_PAUSE

    while True:
        try:
            carry(carried)
            reason = "the feed has ended"
        except expected as error:
            reason = one_line(error)
        print(f"{name}: {reason}; the next try is in {pause} s", file=sys.stderr, flush=True)
        sleep(pause)
        pause = min(2 * pause, LONGEST_PAUSE)


def run(main: Callable[[], None]) -> NoReturn:
    """Runs a bridge until it is interrupted at the keyboard."""
    try:
        main()
    except KeyboardInterrupt:
        pass
    raise SystemExit(130)


class StateFile:
    """A file that keeps the number of the entry that comes next, 0 where there is no file, and the journal's name."""

    def __init__(self, path: Path) -> None:
        """Reads the place; ValueError or OSError, with the file's name, where that can't be done."""
        self.path, self.place = path, Place()
        if not path.parent.is_dir():
            raise ValueError(f"{path}: there is no directory {path.parent}")
        if path.exists():
            place = place_of(path.read_bytes().decode("ascii", "replace").removesuffix("\n"))
            if place is None:
                raise ValueError(f"{path}: it does not hold the number of an entry and the name of a journal")
            self.place = place

    def write(self, place: Place) -> None:
        """Keeps another place, over a crash of the machine too."""
        part = self.path.with_name(self.path.name + ".part")
        with part.open("w", encoding="ascii") as file:
            file.write(f"{text_of_place(place)}\n")
            file.flush()
            os.fsync(file.fileno())
        os.replace(part, self.path)
        self.place = place


def text_of_place(place: Place) -> str:
    """A place as it is kept: the number of the entry that comes next, and the name of its journal."""
    return f"{place.next} {place.journal}".rstrip()


def place_of(text: str) -> Place | None:
    """The place that a text keeps, which has no name where it is of before version 0.10.0; nothing of another text."""
    found = re.fullmatch("([0-9]{1,20})(?: ([0-9a-f]{32}))?", text)
    return Place(found[2] or "", int(found[1])) if found else None
