"""The settings of the desk: a file of TOML that is read strictly. A fault names its line and its key."""
import ipaddress
import re
from collections.abc import Callable
from dataclasses import dataclass, field
from pathlib import Path
from typing import Any, NoReturn, TypeVar

import tomllib
from feed import Address, parse_address
from words import ROLES

from .scopes import ALL, NONE, Clause, Scope

KeyPath = tuple[str | int, ...]
Kind = TypeVar("Kind")
NAME = re.compile(r"[a-z0-9][a-z0-9._-]{0,39}", re.ASCII)
HOST = re.compile(r"[a-z0-9.-]{1,253}(:\d{1,5})?|\[[0-9a-f:]+\](:\d{1,5})?", re.ASCII)
HEADER = re.compile(r"[A-Za-z0-9-]{1,60}", re.ASCII)
FINGERPRINT = re.compile(r"sha256:[0-9A-Fa-f]{2}(:?[0-9A-Fa-f]{2}){31}", re.ASCII)
NOBODY = "none"
GREATEST_FLIGHT, GREATEST_STAND, LONGEST_FILE = 2**64 - 1, 65535, 1_000_000
MOST_KEY_DAYS = 366


class BadSettings(Exception):
    """Why the file is not taken: its name, a line, a key and a reason."""


@dataclass(frozen=True)
class Certificate:
    """Who may show which certificate: by the SHA-256 of its bytes, or by the names of its issuer and of its holder."""

    fingerprint: str = ""
    issuer: str = ""
    name: str = ""


@dataclass(frozen=True)
class Person:
    """Somebody who signs in at the desk. The role is that of an address of the board, or nobody's."""

    name: str
    role: str
    see: Scope
    send: Scope
    has_second_factor: bool = False


@dataclass(frozen=True)
class Partner:
    """A partner: by HTTP with an address of the board for its lines, and by lines over TLS with one for each client."""

    name: str
    role: str
    see: Scope
    send: Scope
    certificate: Certificate | None
    http: Address | None
    lines: tuple[Address, ...]

    @property
    def is_bound(self) -> bool:
        """Whether it does not see all flights, or may not send for all."""
        return not (self.see.is_unbounded and self.send.is_unbounded)


@dataclass(frozen=True)
class Limits:
    """How much in a minute: lines of a person, lines of a partner by HTTP, trials to sign in from one address.

    And how many connections at a time from one address, and how many days an `Idempotency-Key` is known.
    """

    lines: int = 60
    partner_lines: int = 600
    sign_ins: int = 10
    connections: int = 500
    key_days: int = 7


@dataclass(frozen=True)
class SignOn:
    """The header in which a proxy at these addresses names who has signed in at the airport's own single sign-on."""

    header: str
    proxies: tuple[ipaddress.IPv4Network | ipaddress.IPv6Network, ...]


@dataclass(frozen=True)
class Ports:
    """Where partners connect: by HTTP, by lines over TLS. The authorities have signed their certificates."""

    http: Address | None
    lines: Address | None
    authorities: Path
    revoked: Path | None


@dataclass(frozen=True)
class Settings:  # pylint: disable=too-many-instance-attributes
    """All that the file says."""

    path: Path
    listen: Address
    names: tuple[str, ...]
    certificate: Path
    key: Path
    data: Path
    log: Path
    health: Address | None
    changes: Address
    lines: dict[str, Address]
    people: dict[str, Person]
    partners: dict[str, Partner]
    limits: Limits = field(default_factory=Limits)
    sign_on: SignOn | None = None
    ports: Ports | None = None


def line_of(text: str, path: KeyPath) -> int:
    """The line, from 1, at which a key stands, or the one of the table that should have it."""
    table: list[str | int] = []
    counts: dict[str, int] = {}
    best, found = 0, 1
    for number, line in enumerate(text.splitlines(), 1):
        head = re.match(r"\s*(\[\[?)\s*([^\]]+?)\s*\]", line)
        if head:
            table = list(keys_of(head[2]))
            if head[1] == "[[":
                counts[head[2]] = counts.get(head[2], -1) + 1
                table.append(counts[head[2]])
            place: list[str | int] = table
        else:
            key = re.match(r"""\s*((?:[\w-]+|"[^"]*"|'[^']*')(?:\s*\.\s*(?:[\w-]+|"[^"]*"))*)\s*=""", line)
            if not key:
                continue
            place = [*table, *keys_of(key[1])]
        same = next(
            (at for at, (one, other) in enumerate(zip(place, path)) if one != other), min(len(place), len(path))
        )
        if same > best and same in (len(place), len(path)):
            best, found = same, number
    return found


def keys_of(text: str) -> list[str]:
    return [part.strip().strip("\"'") for part in text.split(".")]


def key_text(path: KeyPath) -> str:
    """A key as it is told: `partner[2].role`, numbered from 1."""
    parts = [f"[{part + 1}]" if isinstance(part, int) else f".{part}" for part in path]
    return "".join(parts).lstrip(".") or "the file"


class Table:
    """A table of the file, whose keys are taken one by one; one that nobody takes is a fault."""

    def __init__(self, file: "File", path: KeyPath, value: Any) -> None:
        self.file, self.path = file, path
        if not isinstance(value, dict):
            file.refuse(path, "is no table")
        self.left: dict[str, Any] = dict(value)

    def take(self, key: str, read: Callable[["File", KeyPath, Any], Kind]) -> Kind:
        """A key that has to be there."""
        if key not in self.left:
            self.file.refuse((*self.path, key), "is missing")
        return read(self.file, (*self.path, key), self.left.pop(key))

    def take_or(self, key: str, read: Callable[["File", KeyPath, Any], Kind], otherwise: Kind) -> Kind:
        """A key that may be left out."""
        return self.take(key, read) if key in self.left else otherwise

    def table(self, key: str) -> "Table":
        return self.take(key, Table)

    def end(self) -> None:
        """Refuses what was not taken."""
        for key in self.left:
            self.file.refuse((*self.path, key), "is not known")


class File:
    """The file that is read, for what is told of it."""

    def __init__(self, path: Path) -> None:
        self.path = path
        try:
            data = path.read_bytes()[: LONGEST_FILE + 1]
            self.text = data.decode("utf-8")
        except OSError as error:
            raise BadSettings(f"{path}: {error.strerror}") from None
        except UnicodeDecodeError:
            raise BadSettings(f"{path}: it is no UTF-8") from None
        if len(data) > LONGEST_FILE:
            raise BadSettings(f"{path}: it has more than {LONGEST_FILE} bytes")
        try:
            self.value = tomllib.loads(self.text)
        except tomllib.TOMLDecodeError as error:
            where = re.search(r"at line (\d+)", str(error))
            line = int(where[1]) if where else len(self.text.splitlines())
            reason = re.sub(r" \(at .*\)$", "", str(error))
            raise BadSettings(f"{path}: line {line}: it is no TOML: {reason}") from None

    def refuse(self, path: KeyPath, reason: str) -> NoReturn:
        """Says what is wrong, and where."""
        raise BadSettings(f"{self.path}: line {line_of(self.text, path)}: {key_text(path)} {reason}")

    def beside(self, text: str) -> Path:
        """A file that is named from the folder of the settings."""
        return self.path.resolve().parent / text


def plain_text(file: File, path: KeyPath, value: Any) -> str:
    if not isinstance(value, str) or not value:
        file.refuse(path, "is no text")
    return str(value)


def flag(file: File, path: KeyPath, value: Any) -> bool:
    if not isinstance(value, bool):
        file.refuse(path, "is neither true nor false")
    return bool(value)


def matched(pattern: re.Pattern[str], what: str) -> Callable[[File, KeyPath, Any], str]:
    """A text of a form."""

    def read(file: File, path: KeyPath, value: Any) -> str:
        if not isinstance(value, str) or not pattern.fullmatch(value):
            file.refuse(path, f"is no {what}: {value!r:.60}")
        return str(value)

    return read


def count(least: int, most: int) -> Callable[[File, KeyPath, Any], int]:
    """A whole number from one to another."""

    def read(file: File, path: KeyPath, value: Any) -> int:
        if isinstance(value, bool) or not isinstance(value, int) or not least <= value <= most:
            file.refuse(path, f"is no whole number from {least} to {most}: {value!r:.60}")
        return int(value)

    return read


def listed(read: Callable[[File, KeyPath, Any], Kind]) -> Callable[[File, KeyPath, Any], list[Kind]]:
    """A list that has something."""

    def read_all(file: File, path: KeyPath, value: Any) -> list[Kind]:
        if not isinstance(value, list) or not value:
            file.refuse(path, "is no list, or an empty one")
        return [read(file, (*path, place), each) for place, each in enumerate(value)]

    return read_all


def address(file: File, path: KeyPath, value: Any) -> Address:
    try:
        return parse_address(plain_text(file, path, value))
    except ValueError as error:
        return file.refuse(path, f"is no address: {error}")


def existing(file: File, path: KeyPath, value: Any) -> Path:
    """A file that is there and can be read."""
    found = file.beside(plain_text(file, path, value))
    try:
        with found.open("rb"):
            return found
    except OSError as error:
        return file.refuse(path, f"can't be read: {found}: {error.strerror}")


def made(file: File, path: KeyPath, value: Any) -> Path:
    """A file that the desk makes, in a folder that is there."""
    found = file.beside(plain_text(file, path, value))
    if not found.parent.is_dir():
        file.refuse(path, f"lies in no folder that is there: {found}")
    return found


def role(file: File, path: KeyPath, value: Any) -> str:
    if value not in ROLES and value != NOBODY:
        file.refuse(path, f"is none of {', '.join(ROLES)} and {NOBODY}: {value!r:.60}")
    return str(value)


def stand_range(file: File, path: KeyPath, value: Any) -> tuple[int, int]:
    """A stand, or a text as "10-19"."""
    found = re.fullmatch(r"(\d{1,5})-(\d{1,5})", value, re.ASCII) if isinstance(value, str) else None
    pair = (int(found[1]), int(found[2])) if found else (value, value)
    number = count(0, GREATEST_STAND)
    first, last = number(file, path, pair[0]), number(file, path, pair[1])
    if first > last:
        file.refuse(path, f"has no stand: {value!r:.60}")
    return first, last


def clause(file: File, path: KeyPath, value: Any) -> Clause:
    table = Table(file, path, value)
    airline = matched(re.compile(r"[!-~]{1,8}"), "beginning of a call sign")
    flights: list[int] = table.take_or("flights", listed(count(1, GREATEST_FLIGHT)), [])
    found = Clause(
        tuple(table.take_or("airlines", listed(airline), [])),
        frozenset(flights),
        tuple(table.take_or("stands", listed(stand_range), [])),
    )
    table.end()
    if found == Clause():
        file.refuse(path, 'names nothing: say "all" in place of the list')
    return found


def scope(file: File, path: KeyPath, value: Any) -> Scope:
    """Flights: "all", "none", or a list of clauses."""
    if value == "all":
        return ALL
    if value == NOBODY:
        return NONE
    if not isinstance(value, list):
        file.refuse(path, 'is neither "all" nor "none" nor a list of tables')
    return Scope(tuple(listed(clause)(file, path, value)))


def network(file: File, path: KeyPath, value: Any) -> ipaddress.IPv4Network | ipaddress.IPv6Network:
    try:
        return ipaddress.ip_network(plain_text(file, path, value))
    except ValueError:
        return file.refuse(path, f"is no address of a network: {value!r:.60}")


def certificate(file: File, path: KeyPath, value: Any) -> Certificate:
    """A fingerprint, or a table of issuer and name."""
    if isinstance(value, dict):
        table = Table(file, path, value)
        found = Certificate(issuer=table.take("issuer", plain_text), name=table.take("name", plain_text))
        table.end()
        return found
    fingerprint = matched(FINGERPRINT, "fingerprint as sha256:0123..")(file, path, value)
    return Certificate(fingerprint.removeprefix("sha256:").replace(":", "").lower())


def sign_on(file: File, path: KeyPath, value: Any) -> SignOn:
    table = Table(file, path, value)
    found = SignOn(
        table.take("header", matched(HEADER, "name of a header")), tuple(table.take("from", listed(network)))
    )
    table.end()
    return found


def limits(file: File, path: KeyPath, value: Any) -> Limits:
    table, usual, number = Table(file, path, value), Limits(), count(1, 1_000_000)
    found = Limits(
        table.take_or("lines", number, usual.lines),
        table.take_or("partner_lines", number, usual.partner_lines),
        table.take_or("sign_ins", number, usual.sign_ins),
        table.take_or("connections", number, usual.connections),
        table.take_or("key_days", count(1, MOST_KEY_DAYS), usual.key_days),
    )
    table.end()
    return found


def ports(file: File, path: KeyPath, value: Any) -> Ports:
    table = Table(file, path, value)
    found = Ports(
        table.take_or("http", address, None),
        table.take_or("lines", address, None),
        table.take("authorities", existing),
        table.take_or("revoked", existing, None),
    )
    table.end()
    if not (found.http or found.lines):
        file.refuse(path, "has neither http nor lines")
    return found


def person(file: File, path: KeyPath, value: Any) -> Person:
    table = Table(file, path, value)
    found = Person(
        table.take("name", matched(NAME, "name, of small letters and digits")),
        table.take("role", role),
        table.take("see", scope),
        table.take("send", scope),
        table.take_or("second_factor", flag, False),
    )
    table.end()
    if found.role == NOBODY and found.send != NONE:
        file.refuse((*path, "send"), f'has to be "{NOBODY}", as the role is')
    return found


def partner(file: File, path: KeyPath, value: Any) -> Partner:
    table = Table(file, path, value)
    found = Partner(
        table.take("name", matched(NAME, "name, of small letters and digits")),
        table.take("role", role),
        table.take("see", scope),
        table.take("send", scope),
        table.take_or("certificate", certificate, None),
        table.take_or("http", address, None),
        tuple(table.take_or("lines", listed(address), [])),
    )
    table.end()
    if found.lines and not found.certificate:
        file.refuse((*path, "certificate"), "is missing: a partner of lines shows one")
    if found.role == NOBODY and (found.send != NONE or found.http or found.lines):
        file.refuse((*path, "role"), f'is {NOBODY}: then send is "{NOBODY}", and there is no address of the board')
    if found.send != NONE and not (found.http or found.lines):
        file.refuse((*path, "send"), "has no address of the board, by http or by lines")
    return found


def by_name(file: File, key: str, values: list[Any]) -> dict[str, Any]:
    """People or partners by their names, of which none stands twice."""
    found: dict[str, Any] = {}
    for place, value in enumerate(values):
        if value.name in found:
            file.refuse((key, place, "name"), f"stands twice: {value.name}")
        found[value.name] = value
    return found


def board_lines(file: File, path: KeyPath, value: Any) -> dict[str, Address]:
    """The addresses at which the desk sends what people enter, one for each role."""
    table = Table(file, path, value)
    found = {name: table.take(name, address) for name in list(table.left) if name in ROLES}
    table.end()
    return found


def refuse_shared(file: File, settings: Settings) -> None:
    """Refuses an address of the board that is used twice: the second would take the place of the first."""
    used: dict[Address, str] = {}
    places: list[tuple[KeyPath, Address]] = [(("board", "lines", name), each) for name, each in settings.lines.items()]
    for place, owner in enumerate(settings.partners.values()):
        places += [(("partner", place, "http"), owner.http)] if owner.http else []
        places += [(("partner", place, "lines"), each) for each in owner.lines]
    for path, where in places:
        if where in used:
            file.refuse(path, f"is used by {used[where]} already: {where[0]}:{where[1]}")
        used[where] = key_text(path)
    for place, someone in enumerate(settings.people.values()):
        if someone.role != NOBODY and someone.role not in settings.lines:
            file.refuse(("person", place, "role"), f"has no address in board.lines: {someone.role}")
    for place, owner in enumerate(settings.partners.values()):
        if owner.http and not (settings.ports and settings.ports.http):
            file.refuse(("partner", place, "http"), "is of no use: partners.http is missing")
        if owner.lines and not (settings.ports and settings.ports.lines):
            file.refuse(("partner", place, "lines"), "is of no use: partners.lines is missing")


def read_settings(path: Path) -> Settings:
    """The settings in a file; BadSettings with the first fault."""
    file = File(path)
    whole = Table(file, (), file.value)
    desk, board = whole.table("desk"), whole.table("board")
    found = Settings(
        path=path,
        listen=desk.take("listen", address),
        names=tuple(desk.take("names", listed(matched(HOST, "name of a host, as desk.example:8443")))),
        certificate=desk.take("certificate", existing),
        key=desk.take("key", existing),
        data=desk.take("data", made),
        log=desk.take("log", made),
        health=desk.take_or("health", address, None),
        changes=board.take("changes", address),
        lines=board.take_or("lines", board_lines, {}),
        limits=whole.take_or("limits", limits, Limits()),
        sign_on=whole.take_or("sign_on", sign_on, None),
        ports=whole.take_or("partners", ports, None),
        people=by_name(file, "person", whole.take_or("person", listed(person), [])),
        partners=by_name(file, "partner", whole.take_or("partner", listed(partner), [])),
    )
    for table in (desk, board, whole):
        table.end()
    refuse_shared(file, found)
    return found
