"""What to_postgresql.py does in a real PostgreSQL, whose statements go there by psql in the place of its library."""
import json
import os
import subprocess
import sys
import unittest
from types import SimpleNamespace
from typing import Any
from unittest.mock import patch

from servers import Postgresql
from support import BRIDGES, TESTS, name_of, room_of, small_feed

from bridge import Place

ONE, OTHER, THIRD = (name_of(small_feed(1, session)) for session in (1, 2, 3))
TIMES = "sobt eobt ctot otot eldt aldt aibt acgt tobt tsat asbt ardt asrt asat aobt atot".split()
TEXTS = "callsign scheduled_type plan_type scheduled_reg plan_reg scheduled_dest plan_dest".split()


class Json:
    """A value that is written as JSON."""

    def __init__(self, value: Any) -> None:
        self.value = value


def literal(value: Any) -> str:
    """A value as a statement has it."""
    if value is None:
        return "NULL"
    if isinstance(value, list):
        kind = "text[]" if all(isinstance(it, str) for it in value) else "int[]"
        return f"ARRAY[{','.join(map(literal, value))}]::{kind}"
    text = json.dumps(value.value) if isinstance(value, Json) else str(value)
    return "'" + text.replace("'", "''") + "'"


class Cursor:
    """Runs statements by psql, and keeps what the last one gave; of transactions what was told."""

    def __init__(self, dsn: str, schema: str) -> None:
        self.dsn, self.schema = dsn, schema
        self.rows: list[tuple[Any, ...]] = []
        self.told: list[str] = []
        self.waiting: list[str] = []

    def __enter__(self) -> "Cursor":
        return self

    def __exit__(self, *_: object) -> None:
        pass

    def execute(self, statement: str, values: Any = ()) -> None:
        """Runs a question at once, and keeps what is written for the end of its transaction."""
        parts = statement.split("%s")
        assert len(parts) == len(values) + 1, (statement, values)
        text = parts[0] + "".join(literal(value) + part for value, part in zip(values, parts[1:]))
        if text.startswith("SELECT"):
            # (it sees what its transaction has written, which is not committed here)
            before = "".join(f"{it};\n" for it in self.waiting)
            found = self.ran(f"{before}SELECT row_to_json(x) FROM ({text}) AS x;\nROLLBACK;")
            self.rows = [tuple(json.loads(row).values()) for row in found.splitlines()]
        else:
            self.told.append(text.split()[0])
            self.waiting.append(text)

    def ran(self, text: str) -> str:
        environment = {**os.environ, "PGOPTIONS": f"-c search_path={self.schema} -c client_min_messages=error"}
        command = ["/usr/bin/psql", "-qAtX", "-v", "ON_ERROR_STOP=1", self.dsn, "-f", "-"]
        given = f"BEGIN;\n{text};\nCOMMIT;\n"
        done = subprocess.run(command, input=given, capture_output=True, text=True, check=False, env=environment)
        assert not done.returncode, done.stderr
        return done.stdout

    def commit(self) -> None:
        """Writes what waits, in one transaction."""
        self.ran(";\n".join(self.waiting) + ";")
        self.waiting.clear()
        self.told.append("commit")

    def fetchone(self) -> Any:
        return self.rows[0] if self.rows else None

    def fetchall(self) -> list[Any]:
        return self.rows


def bridge() -> Any:
    """The bridge as a module, without its library."""
    extensions = SimpleNamespace(cursor=Cursor, make_dsn=lambda **words: words, parse_dsn=lambda text: {"dsn": text})
    library = {
        "psycopg2": SimpleNamespace(Error=OSError, extensions=extensions),
        "psycopg2.extensions": extensions,
        "psycopg2.extras": SimpleNamespace(Json=Json),
    }
    with patch.dict(sys.modules, library):
        sys.modules.pop("to_postgresql", None)
        return __import__("to_postgresql")


def record(flight: int, *alerts: str, **more: Any) -> dict[str, Any]:
    """A record with these alerts."""
    numbers = {"mttt": 40, "exit": 5, "exot": 10, "stand": 12}
    empty = {"flight": flight, **dict.fromkeys(TEXTS, ""), **dict.fromkeys(TIMES), **numbers, "reached": [0, 1]}
    return {**empty, "alerts": [*alerts], **more}


def entry(number: int, *changed: dict[str, Any], code: int = 0) -> dict[str, Any]:
    """The line of an entry, of the minute of its number."""
    outcome: Any = {"code": code, "name": "x"} if code else "ok"
    command = {"cmd": "report", "flight": 18446744073709551615, "milestone": 9}
    head = {"entry": number, "minute": f"2025-02-20T09:0{number}:00Z", "session": 4, "role": "AO"}
    return {**head, "command": command, "outcome": outcome, "answers": [], "changed": [*changed]}


LINES = [
    entry(0, record(7, callsign="DLH'7"), record(2**64 - 1, "CDM13")),
    entry(1, record(7, "CDM08", tobt="2025-02-20T10:20:00Z", callsign="DLH7")),
    entry(2, record(7, "CDM08", "LOC03")),
    entry(3, record(7, "LOC03", tsat="2025-02-20T10:25:00Z")),
    entry(4, code=201),
    entry(5, record(7, "LOC03")),
    entry(6, record(7, "CDM08", "LOC03")),
]


@unittest.skipUnless(Postgresql.is_there(), "there is no PostgreSQL")
class Tables(unittest.TestCase):
    """One database for all tests, each in a schema of its own."""

    server: Postgresql

    @classmethod
    def setUpClass(cls) -> None:
        case = unittest.TestCase()
        cls.addClassCleanup(case.doCleanups)
        try:
            cls.server = Postgresql(room_of(case))
            cls.server.start()
        except (OSError, subprocess.CalledProcessError) as error:
            raise unittest.SkipTest(f"PostgreSQL does not begin here: {error}") from None
        cls.addClassCleanup(cls.server.stop)

    def cursor(self, schema: str) -> Cursor:
        made = Cursor(self.server.dsn(), schema)
        made.ran(f"CREATE SCHEMA {schema}")
        return made

    def test_entries_flights_and_alerts(self) -> None:
        """An entry is a row, a flight its last record, an alert a row from when to when it stood."""
        cursor = self.cursor("tables")
        tables = bridge().Tables(cursor)
        cursor.commit()
        self.assertEqual((None, (0, None)), (tables.journal, tables.behind("")))
        for line in LINES:
            tables.put_entry(line, ONE)
        cursor.commit()
        self.assertEqual((7, LINES[6]), tables.behind(ONE))
        self.assertEqual((0, None), tables.behind(OTHER))
        tables.put_entry(entry(0, record(7)), OTHER)
        cursor.commit()
        rows = cursor.ran("SELECT journal, generation FROM journal ORDER BY generation").splitlines()
        self.assertEqual([f"{ONE}|1", f"{OTHER}|2"], rows)
        asked = "SELECT entry, to_char(minute AT TIME ZONE 'UTC', 'HH24:MI'), session, role, command, flight, refused"
        rows = cursor.ran(f"{asked} FROM entry WHERE journal = '{ONE}' ORDER BY entry").splitlines()
        self.assertEqual([f"{it}|09:0{it}|4|AO|report|{2**64 - 1}|{201 if it == 4 else ''}" for it in range(7)], rows)
        asked = "SELECT flight, callsign, tobt, to_char(tsat AT TIME ZONE 'UTC', 'HH24:MI'), reached, alerts, entry"
        rows = cursor.ran(f"{asked} FROM flight WHERE journal = '{ONE}' ORDER BY flight").splitlines()
        self.assertEqual(["7||||{0,1}|{CDM08,LOC03}|6", f"{2**64 - 1}||||{{0,1}}|{{CDM13}}|0"], rows)
        asked = "SELECT flight, name, to_char(since AT TIME ZONE 'UTC', 'MI'), to_char(until AT TIME ZONE 'UTC', 'MI')"
        rows = cursor.ran(f"{asked} FROM alert WHERE journal = '{ONE}' ORDER BY since, name").splitlines()
        self.assertEqual([f"{2**64 - 1}|CDM13|00|", "7|CDM08|01|03", "7|LOC03|02|", "7|CDM08|06|"], rows)
        self.assertEqual(
            "1", cursor.ran("SELECT count(*) FROM flight WHERE journal <> 'x' AND entry = 0 AND flight = 7").strip()
        )
        again = bridge().Tables(cursor)
        self.assertEqual(OTHER, again.journal, "the one that was begun last")
        again.put_entry(entry(7, record(8)), ONE)
        cursor.commit()
        self.assertEqual(ONE, bridge().Tables(cursor).journal)
        for query in (BRIDGES / "postgresql.sql").read_text(encoding="utf-8").partition("-- Queries")[2].split(";"):
            cursor.ran(query)

    def test_tables_of_before_journals(self) -> None:
        """They are refused until their statement was run; then the name that is told first is theirs, if it goes on."""
        for schema, number, journals in (("older", 5, [f"{ONE}|0"]), ("another", 0, ["|0", f"{ONE}|1"])):
            cursor = self.cursor(schema)
            cursor.ran((TESTS / "postgresql-0.9.0.sql").read_text(encoding="ascii"))
            values = "4, '2025-02-20T09:04:00Z', 1, 'APT', 'tick', '{\"entry\":4}'"
            cursor.ran(f"INSERT INTO entry (entry, minute, session, role, command, line) VALUES ({values})")
            cursor.ran("INSERT INTO flight (flight, reached, alerts, entry) VALUES (7, ARRAY[0], ARRAY['CDM01'], 4)")
            cursor.ran("INSERT INTO alert (flight, name, since) VALUES (7, 'CDM01', '2025-02-20T09:04:00Z')")
            with self.assertRaisesRegex(OSError, "run bridges/postgresql-journal.sql once"):
                bridge().Tables(cursor)
            cursor.waiting.clear()
            cursor.ran((BRIDGES / "postgresql-journal.sql").read_text(encoding="ascii"))
            tables = bridge().Tables(cursor)
            self.assertEqual(("", (5, {"entry": 4})), (tables.journal, tables.behind("")))
            tables.put_entry(entry(number, record(7)), ONE)
            cursor.commit()
            rows = cursor.ran("SELECT journal, generation FROM journal ORDER BY generation").splitlines()
            self.assertEqual(journals, rows)
            self.assertEqual((number + 1, entry(number, record(7))), tables.behind(ONE))
            # (the alert has ended with that entry where it is of the same journal, and else stands as it was)
            rows = cursor.ran("SELECT journal, name, until IS NULL FROM alert").splitlines()
            self.assertEqual([f"{ONE}|CDM01|f" if number else "|CDM01|t"], rows)
            rows = cursor.ran("SELECT journal, entry FROM flight ORDER BY journal, entry").splitlines()
            self.assertEqual([f"{ONE}|5"] if number else ["|4", f"{ONE}|0"], rows)

    def test_each_entry_is_a_transaction(self) -> None:
        """What follows is asked for, and counted as carried, once it is committed; another journal is asked about."""
        module, cursor, told = bridge(), self.cursor("carried"), list[Any]()
        database = SimpleNamespace(cursor=lambda: cursor, commit=cursor.commit, close=lambda: told.append("closed"))

        def lines_of(_feed: object, place: Place, last: Any, known: Any) -> Any:
            told.append((place.journal, place.next, last))
            first, place.journal = place.next, ONE
            yield LINES[first : first + 2]
            commits = cursor.told.count("commit")
            told.append(known(OTHER))
            self.assertEqual(commits + 1, cursor.told.count("commit"), "no transaction is left open")
            yield LINES[first + 2 : first + 3]

        def connect(words: Any) -> Any:
            told.append(words)
            return database

        module.psycopg2.connect = connect
        with patch.object(module, "feed_lines", lines_of):
            module.carry(("h", 1), "dbname=acdm", lambda: cursor.told.append("carried"))
            module.carry(("h", 1), "dbname=acdm", lambda: None)
        words = {"connect_timeout": 10, "dsn": "dbname=acdm"}
        begun = [words, ("", 0, None), (0, None), "closed"]
        self.assertEqual([*begun, words, (ONE, 3, LINES[2])], told[:6])
        place = cursor.told.index("carried")
        self.assertEqual(["commit", "carried", "INSERT"], cursor.told[place - 1 : place + 2])
        self.assertEqual(3, cursor.told.count("carried"))


if __name__ == "__main__":
    unittest.main()
