#!/usr/bin/env python3
"""Keeps the feed of changes in PostgreSQL (Debian's python3-psycopg2).

    bridges/to_postgresql.py FEED DSN

FEED is the address of `acdm serve --changes`, as 127.0.0.1:4100. DSN is a connection string of libpq, as "dbname=acdm",
or "host=db.example dbname=acdm user=acdm sslmode=verify-full sslrootcert=FILE" for TLS. The password is in PGPASSWORD
or in the file that PGPASSFILE or `passfile` names. Tables, made where they are not there (bridges/postgresql.sql):
`journal`, `entry`, `flight` (the record as it is now) and `alert` (from when to when each stood).

Each entry is there exactly once: an entry and all that it changed are one transaction, the name of its journal and its
number are its key, and after a break the bridge goes on behind the greatest. Another journal is a new generation, which
one line on standard error says. Outside what is proved.
"""

import argparse
from contextlib import closing
from pathlib import Path
from typing import Any

from bridge import Address, Carried, Line, Place, Words, end, feed_lines, forever, run

try:
    import psycopg2
    from psycopg2.extensions import cursor as Cursor
    from psycopg2.extensions import make_dsn, parse_dsn
    from psycopg2.extras import Json
except ImportError as missing:
    end("to_postgresql.py", f"python3-psycopg2 is not there: {missing}")

WAIT = 10
TABLES = (Path(__file__).resolve().parent / "postgresql.sql").read_text(encoding="utf-8").partition("-- Queries")[0]
TIMES = "sobt eobt ctot otot eldt aldt aibt acgt tobt tsat asbt ardt asrt asat aobt atot eczt eezt aczt aezt".split()
TEXTS = "callsign scheduled_type plan_type scheduled_reg plan_reg scheduled_dest plan_dest".split()
COLUMNS = ["flight", *TEXTS, *TIMES, "mttt", "exit", "exot", "stand", "reached", "alerts", "entry"]
LIMITS = "SET lock_timeout = '30s'; SET idle_in_transaction_session_timeout = '60s'"
WITHOUT_JOURNALS = (
    "SELECT to_regclass('entry') IS NOT NULL AND NOT EXISTS (SELECT FROM pg_attribute "
    "WHERE attrelid = to_regclass('entry') AND attname = 'journal' AND NOT attisdropped)"
)
LATEST = "SELECT journal FROM journal ORDER BY generation DESC LIMIT 1"
LAST = "SELECT line FROM entry WHERE journal = %s ORDER BY entry DESC LIMIT 1"
NAME_JOURNAL = "UPDATE journal SET journal = %s WHERE journal = ''"
BEGIN_JOURNAL = (
    "INSERT INTO journal (journal, generation) SELECT %s, coalesce(max(generation), 0) + 1 FROM journal "
    "ON CONFLICT (journal) DO UPDATE SET generation = EXCLUDED.generation, begun = now()"
)
ENTRY_COLUMNS = "journal, entry, minute, session, role, command, flight, refused, line"
PUT_ENTRY = f"INSERT INTO entry ({ENTRY_COLUMNS}) VALUES (%s, %s, %s, %s, %s, %s, %s, %s, %s)"
PUT_FLIGHT = (
    f"INSERT INTO flight (journal, {', '.join(COLUMNS)}) VALUES (%s, {', '.join(['%s'] * len(COLUMNS))}) "
    f"ON CONFLICT (journal, flight) DO UPDATE SET {', '.join(f'{name} = EXCLUDED.{name}' for name in COLUMNS[1:])}"
)
END_ALERTS = "UPDATE alert SET until = %s WHERE journal = %s AND flight = %s AND until IS NULL AND NOT name = ANY(%s)"
BEGIN_ALERT = (
    "INSERT INTO alert (journal, flight, name, since) SELECT %s, %s, %s, %s "
    "WHERE NOT EXISTS (SELECT FROM alert WHERE journal = %s AND flight = %s AND name = %s AND until IS NULL)"
)


class Tables:
    """The tables, and the journal whose entries are written now; nothing where none was begun."""

    def __init__(self, cursor: Cursor) -> None:
        """Makes the tables where they are not there. OSError where they are those of an older bridge."""
        self.cursor = cursor
        cursor.execute(WITHOUT_JOURNALS)
        found = cursor.fetchone()
        if found is not None and found[0]:
            raise OSError("the tables have no journals yet: run bridges/postgresql-journal.sql once, as its page says")
        cursor.execute(TABLES)
        cursor.execute(LATEST)
        rows = cursor.fetchall()
        self.journal: str | None = rows[0][0] if rows else None

    def behind(self, journal: str) -> tuple[int, Line | None]:
        """The entry that comes next in a journal, and the line of the one before."""
        self.cursor.execute(LAST, (journal,))
        rows = self.cursor.fetchall()
        return (rows[0][0]["entry"] + 1, rows[0][0]) if rows else (0, None)

    def turn_to(self, journal: str, number: int) -> None:
        """Goes on in another journal; or gives that of an older bridge, which has none yet, its name."""
        self.cursor.execute(NAME_JOURNAL if self.journal == "" and number else BEGIN_JOURNAL, (journal,))
        self.journal = journal

    def put_entry(self, line: Line, journal: str) -> None:
        """Writes an entry, the records that it changed, and the alerts that began and ended."""
        if self.journal != journal:
            self.turn_to(journal, line["entry"])
        outcome, command = line["outcome"], line["command"]
        code = None if outcome == "ok" else outcome["code"]
        row = (journal, line["entry"], line["minute"], line["session"], line["role"], command["cmd"])
        self.cursor.execute(PUT_ENTRY, (*row, command.get("flight"), code, Json(line)))
        for record in line["changed"]:
            self.put_flight(record, line, journal)

    def put_flight(self, record: dict[str, Any], line: Line, journal: str) -> None:
        """Writes a flight's record and its alerts, as they are after an entry."""
        flight, minute = record["flight"], line["minute"]
        self.cursor.execute(PUT_FLIGHT, [journal, *(record.get(name) for name in COLUMNS[:-1]), line["entry"]])
        self.cursor.execute(END_ALERTS, (minute, journal, flight, record["alerts"]))
        for name in record["alerts"]:
            self.cursor.execute(BEGIN_ALERT, (journal, flight, name, minute, journal, flight, name))


def carry(feed: Address, dsn: str, carried: Carried) -> None:
    """Writes entries until the feed or the database fails."""
    words = {"connect_timeout": WAIT, **parse_dsn(dsn)}
    with closing(psycopg2.connect(make_dsn(**words))) as database, database.cursor() as cursor:
        cursor.execute(LIMITS)
        tables = Tables(cursor)
        place = Place(tables.journal or "")
        place.next, last = tables.behind(place.journal)
        database.commit()

        def known(journal: str) -> tuple[int, Line | None]:
            found = tables.behind(journal)
            # (a transaction is not left open while entries are waited for)
            database.commit()
            return found

        for lines in feed_lines(feed, place, last, known):
            for line in lines:
                tables.put_entry(line, place.journal)
                database.commit()
                carried()


def connection_string(text: str) -> str:
    """A connection string of libpq, without a password."""
    try:
        words = parse_dsn(text)
    except psycopg2.Error as error:
        raise argparse.ArgumentTypeError(f"{text!r} is no connection string: {' '.join(str(error).split())}") from None
    if "password" in words:
        raise argparse.ArgumentTypeError(
            "a password in DSN is seen by all users of this machine: say PGPASSWORD or passfile=FILE"
        )
    return text


def main() -> None:
    """Reads the words and writes entries."""
    words = Words(__doc__)
    words.add_argument("dsn", type=connection_string)
    given = words.parse_args()
    forever(words.prog, lambda carried: carry(given.feed, given.dsn, carried), (psycopg2.Error,))


if __name__ == "__main__":
    run(main)
