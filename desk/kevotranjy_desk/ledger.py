"""Who did what: each line with person, address and moment, tied to the number of its entry.

A line is written down before it is sent, so that no entry comes of a line that is not here. The file is one of SQLite,
beside which each event is a line of JSON in the log. What the board has and this does not explain is said.
"""
import json
import os
import sqlite3
import sys
from collections.abc import Iterable
from dataclasses import dataclass
from datetime import datetime, timedelta, timezone
from pathlib import Path
from typing import Any

from partner import CHANGES, is_same

from .mirror import Entry
from .rates import MOST_NAMES, Rate

TABLES = """
create table if not exists line (
    number integer primary key, journal text not null, moment text not null, who text not null, kind text not null,
    client text not null, address text not null, text text not null, flight text, state text not null,
    entry integer, reply text, replied text, request text, place integer
);
create unique index if not exists line_entry on line (journal, entry) where entry is not null;
create index if not exists line_flight on line (flight);
create index if not exists line_open on line (address) where state = 'sent';
create index if not exists line_request on line (who, request);
create table if not exists session (
    journal text not null, address text not null, session integer not null, first integer not null,
    primary key (journal, address, session)
);
create table if not exists unexplained (
    journal text not null, entry integer not null, address text not null, minute text not null, command text not null,
    primary key (journal, entry)
);
create table if not exists request (
    who text not null, key text not null, digest text not null, moment text not null, primary key (who, key)
);
"""
SENT, REPLIED, FOUND, NOT_ENTERED, NOT_SENT = "sent", "replied", "from the feed", "not entered", "not sent"
# (of a line whose entry was there, and is no more in its journal)
LOST = "lost"


@dataclass(frozen=True)
class Author:
    """Who sends: a name, what he is (person, partner, desk), and the address that he comes from."""

    name: str
    kind: str
    client: str


@dataclass(frozen=True)
class Written:
    """A line of the log."""

    number: int
    moment: str
    who: str
    kind: str
    client: str
    address: str
    command: dict[str, Any]
    state: str
    entry: int | None
    reply: str | None


def now(days_ago: float = 0) -> str:
    """The moment so many days ago, in UTC, to the millisecond."""
    moment = datetime.now(timezone.utc) - timedelta(days=days_ago)
    return moment.isoformat(timespec="milliseconds").replace("+00:00", "Z")


class Ledger:  # pylint: disable=too-many-public-methods
    """The log of who did what."""

    def __init__(self, data: Path, log: Path | None) -> None:
        for file in (data, log):
            if file:
                # (nobody else on this machine reads it)
                os.close(os.open(file, os.O_CREAT | os.O_APPEND, 0o600))
        self._base = sqlite3.connect(data, isolation_level=None)
        self._base.execute("pragma journal_mode=wal")
        self._base.execute("pragma synchronous=normal")
        self._base.executescript(TABLES)
        # (it stays open as long as the desk runs)
        self._log = log.open("a", encoding="utf-8") if log else None  # pylint: disable=consider-using-with

        self._strangers, self._left_out = Rate(30), dict[str, int]()

    @property
    def base(self) -> sqlite3.Connection:
        """The file, for the other tables that the desk keeps there."""
        return self._base

    def close(self) -> None:
        self._base.close()
        if self._log:
            self._log.close()

    def tell(self, event: str, **facts: Any) -> None:
        """Writes an event as a line of JSON; control characters of what strangers sent are escaped."""
        line = json.dumps({"moment": now(), "event": event, **facts}, ensure_ascii=True)
        if self._log:
            self._log.write(line + "\n")
            self._log.flush()

    def tell_of_stranger(self, event: str, client: str, **facts: Any) -> None:
        """Writes an event that a stranger has caused: thirty a minute of each, so that he does not fill the disk."""
        name = f"{event} {client}"
        if self._strangers.takes(name):
            left_out = self._left_out.pop(name, 0)
            self.tell(event, client=client, **facts, **({"left_out": left_out} if left_out else {}))
        elif name in self._left_out or len(self._left_out) < MOST_NAMES:
            self._left_out[name] = self._left_out.get(name, 0) + 1

    def begin(
        self,
        journal: str,
        author: Author,
        address: str,
        command: dict[str, Any],
        request: tuple[str, int] | None = None,
    ) -> int:
        """Writes a line down before it is sent; its number here."""
        flight = command.get("flight")
        values: tuple[Any, ...] = (
            journal,
            now(),
            author.name,
            author.kind,
            author.client,
            address,
            json.dumps(command),
        )
        values += (str(flight) if isinstance(flight, int) else None, SENT, *(request or (None, None)))
        made = self._base.execute(
            "insert into line (journal, moment, who, kind, client, address, text, flight, state, request, place)"
            " values (?, ?, ?, ?, ?, ?, ?, ?, ?, ?, ?)",
            values,
        )
        return int(made.lastrowid or 0)

    def end(
        self,
        number: int,
        state: str,
        entry: int | None = None,
        reply: str | None = None,
        journal: str | None = None,
    ) -> None:
        """Writes down what became of a line, and in which journal, where that is told.

        An entry that another line has already is told, and left to that one.
        """
        try:
            self._base.execute(
                "update line set state = ?, entry = ?, reply = ?, replied = ?, journal = coalesce(?, journal)"
                " where number = ?",
                (state, entry, reply, now(), journal, number),
            )
        except sqlite3.IntegrityError:
            self._base.execute(
                "update line set state = ?, reply = ?, replied = ? where number = ?", (state, reply, now(), number)
            )
            self.tell("an entry has two lines", line=number, entry=entry)
        row = self._base.execute(f"select {COLUMNS} from line where number = ?", (number,)).fetchone()
        line = written(row)
        facts = {"who": line.who, "kind": line.kind, "client": line.client, "address": line.address}
        self.tell("line", **facts, line=line.command, state=state, entry=entry, reply=reply)

    def rename_journal(self, before: str, after: str) -> None:
        """Gives lines that were sent before the journal had an entry, or by an older desk, its name."""
        for table in ("line", "session", "unexplained"):
            self._base.execute(f"update or ignore {table} set journal = ? where journal = ?", (after, before))

    def lose(self, journal: str, count: int) -> None:
        """Unties lines from the entries from a number on, which the journal has lost, and will have others of."""
        lost = (journal, count)
        made = self._base.execute(
            "update line set state = ?, entry = null where journal = ? and entry >= ?", (LOST, *lost)
        )
        self._base.execute("delete from session where journal = ? and first >= ?", lost)
        self._base.execute("delete from unexplained where journal = ? and entry >= ?", lost)
        if made.rowcount:
            self.tell("the journal has lost entries", journal=journal, entries=count, lines=made.rowcount)

    def learn_session(self, journal: str, address: str, session: int, first: int) -> None:
        """Notes that a session is that of an address, from an entry on."""
        self._base.execute("insert or ignore into session values (?, ?, ?, ?)", (journal, address, session, first))

    def sessions(self, journal: str) -> dict[int, tuple[str, int]]:
        """The address of each session of a journal that is the desk's, and its first entry."""
        rows = self._base.execute("select session, address, first from session where journal = ?", (journal,))
        return {session: (address, first) for session, address, first in rows}

    def open_lines(self, journal: str) -> list[Written]:
        """The lines that have no reply, in the order in which they were sent."""
        rows = self._base.execute(
            f"select {COLUMNS} from line where state = ? and journal in (?, '') order by number", (SENT, journal)
        )
        return [written(row) for row in rows]

    def has_entry(self, journal: str, entry: int) -> bool:
        found = self._base.execute("select 1 from line where journal = ? and entry = ?", (journal, entry))
        return found.fetchone() is not None

    def who(self, journal: str, entries: Iterable[int]) -> dict[int, str]:
        """Who made these entries, as far as they were made here."""
        numbers = list(entries)
        marks = ", ".join("?" * len(numbers))
        rows = self._base.execute(
            f"select entry, who from line where journal = ? and entry in ({marks})", (journal, *numbers)
        )
        return dict(rows.fetchall())

    def lines_of(self, flight: int | None, who: str | None, most: int) -> list[Written]:
        """The last lines of a flight, of somebody, or of all, the oldest first."""
        asked = [("flight = ?", str(flight))] if flight is not None else []
        asked += [("who = ?", who)] if who else []
        where = " and ".join(text for text, _ in asked) or "1"
        rows = self._base.execute(
            f"select {COLUMNS} from line where {where} order by number desc limit ?", (*[v for _, v in asked], most)
        ).fetchall()
        return [written(row) for row in reversed(rows)]

    def unexplained(self, journal: str) -> list[int]:
        """The entries of the desk's sessions that no line explains."""
        rows = self._base.execute("select entry from unexplained where journal = ? order by entry", (journal,))
        return [entry for (entry,) in rows]

    def compare(self, journal: str, entries: Iterable[Entry]) -> list[int]:
        """Holds entries against the lines: ties what was not tied, and returns what no line explains.

        The entries are in order, and those of a session are all there from the first line on that has no reply.
        """
        ours, lines, found = self.sessions(journal), self.open_lines(journal), []
        for entry in entries:
            address, first = ours.get(entry.session, ("", 0))
            if not address or entry.number < first or self.has_entry(journal, entry.number):
                continue
            same = next((it for it in lines if it.address == address and is_same(entry.command, it.command)), None)
            if not same and self._asked_again(journal, address, entry):
                continue
            if same:
                lines.remove(same)
                reply = f"no {entry.number} {entry.code}" if entry.code else f"ok {entry.number}"
                self.end(same.number, FOUND, entry.number, reply)
            else:
                found.append(entry.number)
                self._note_unexplained(journal, address, entry)
        return found

    def _asked_again(self, journal: str, address: str, entry: Entry) -> bool:
        """Whether an entry is of a question or a tick that was sent again after a break: it gets a line of its own."""
        if entry.command["cmd"] in CHANGES:
            return False
        rows = self._base.execute(
            f"select {COLUMNS} from line where journal in (?, '') and address = ? and (state in (?, ?) or entry > ?)"
            " order by number limit 1000",
            (journal, address, NOT_SENT, NOT_ENTERED, entry.number),
        )
        same = next((it for it in map(written, rows) if is_same(entry.command, it.command)), None)
        if same:
            author = Author(same.who, same.kind, same.client)
            self.end(self.begin(journal, author, address, same.command), FOUND, entry.number, f"ok {entry.number}")
        return same is not None

    def drop_open(self, journal: str, address: str) -> None:
        """Notes of the lines of an address without a reply that they made no entry: that is decided by now."""
        for line in self.open_lines(journal):
            if line.address == address:
                self.end(line.number, NOT_ENTERED)

    def _note_unexplained(self, journal: str, address: str, entry: Entry) -> None:
        values = (journal, entry.number, address, entry.minute, json.dumps(entry.command))
        made = self._base.execute("insert or ignore into unexplained values (?, ?, ?, ?, ?)", values)
        if made.rowcount:
            self.tell("an entry that no line explains", entry=entry.number, address=address, command=entry.command)
            print(
                f"desk: entry {entry.number} at {address} was not made by this desk, as far as its log tells",
                file=sys.stderr,
                flush=True,
            )

    def request_of(self, who: str, key: str) -> str | None:
        """The digest of the request that somebody sent with a key."""
        row = self._base.execute("select digest from request where who = ? and key = ?", (who, key)).fetchone()
        return str(row[0]) if row else None

    def note_request(self, who: str, key: str, digest: str) -> None:
        self._base.execute("insert into request values (?, ?, ?, ?)", (who, key, digest, now()))

    def forget_requests(self, days: int) -> int:
        """Forgets the keys of requests that came so many days ago or before, and returns how many. Their lines stay."""
        with self._base:
            self._base.execute("begin immediate")
            old = self._base.execute("select who, key from request where moment < ?", (now(days),)).fetchall()
            # (a line that nobody knows the end of yet keeps its key, and with it its request)
            kept = {row for row in old if self._has_open(*row)}
            gone = [row for row in old if row not in kept]
            self._base.executemany("update line set request = null, place = null where who = ? and request = ?", gone)
            self._base.executemany("delete from request where who = ? and key = ?", gone)
        return len(gone)

    def _has_open(self, who: str, key: str) -> bool:
        query = "select 1 from line where who = ? and request = ? and state = ?"
        return self._base.execute(query, (who, key, SENT)).fetchone() is not None

    def lines_of_request(self, who: str, key: str) -> dict[int, Written]:
        """The lines of a request by their places in it."""
        rows = self._base.execute(
            f"select place, {COLUMNS} from line where who = ? and request = ? order by number", (who, key)
        )
        return {place: written(rest) for place, *rest in rows}


COLUMNS = "number, moment, who, kind, client, address, text, state, entry, reply"


def written(row: Any) -> Written:
    """A line of the log, from its columns."""
    number, moment, who, kind, client, address, text, state, entry, reply = row
    return Written(number, moment, who, kind, client, address, json.loads(text), state, entry, reply)
