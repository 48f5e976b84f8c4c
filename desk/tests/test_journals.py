"""Another journal: the desk reads it from its first entry, and ties no entry of it to who sent a line before."""
import asyncio
import contextlib
import json
from collections.abc import AsyncIterator, Iterator
from pathlib import Path
from typing import Any

import pytest
from harness import PROGRAM, Board, Certificates, Client, Running, until

from kevotranjy_desk.board_line import Away, BoardLine
from kevotranjy_desk.exchange import AWAY
from kevotranjy_desk.ledger import LOST, REPLIED, SENT, Author, Ledger
from kevotranjy_desk.mirror import Mirror, older_name

ONE, OTHER = "0123456789abcdef" * 2, "fedcba9876543210" * 2
ANNA = Author("anna", "person", "127.0.0.1")
TARGET = {"cmd": "report", "flight": 7, "milestone": 9, "time": "2030-01-01T10:00:00Z"}


def feed_line(number: int, stand: int = 1) -> dict[str, Any]:
    """The line of an entry that makes a flight of its own number, by docs/FORMATS.md."""
    times = "sobt eobt ctot otot eldt aldt aibt acgt tobt tsat asbt ardt asrt asat aobt atot".split()
    texts = "callsign scheduled_type plan_type scheduled_reg plan_reg scheduled_dest plan_dest".split()
    numbers = {"mttt": 40, "exit": 5, "exot": 10, "stand": stand}
    record = {"flight": number + 1, **dict.fromkeys(texts, "X"), **dict.fromkeys(times), **numbers}
    command = {"cmd": "schedule", "flight": number + 1}
    head = {"entry": number, "minute": "2025-02-20T09:00:00Z", "session": 1, "role": "APT", "command": command}
    return {**head, "outcome": "ok", "answers": [], "changed": [{**record, "reached": [], "alerts": []}]}


class Feed:
    """A feed whose journal can be changed: all connections end then."""

    def __init__(self) -> None:
        self.journal, self.lines, self.port = "", list[dict[str, Any]](), 0
        self.asked: list[str] = []
        # What is told of the name in place of that of the journal, of a board and before its entries.
        self.told: dict[str, str] = {}
        self.writers: set[asyncio.StreamWriter] = set()
        self.changed = asyncio.Event()

    def turn_to(self, journal: str, count: int, stand: int = 1) -> None:
        """Begins anew with so many entries of a journal."""
        self.journal, self.lines = journal, [feed_line(number, stand) for number in range(count)]
        for writer in self.writers:
            writer.transport.abort()
        self.changed.set()

    def grow(self, count: int) -> None:
        """Has so many entries more."""
        self.lines += [feed_line(len(self.lines) + number) for number in range(count)]
        self.changed.set()

    def name(self, what: str) -> str:
        return self.told.get(what, self.journal)

    async def serve(self, reader: asyncio.StreamReader, writer: asyncio.StreamWriter) -> None:
        self.writers.add(writer)
        with contextlib.suppress(ConnectionError):
            words = (await reader.readline()).decode().split()
            self.asked.append(" ".join(words))
            lines, number = self.lines, len(self.lines) if words == ["board"] else int(words[1])
            is_named = False
            if words == ["board"] or number > len(lines):
                number, is_named = len(lines), bool(lines)
                self.send(writer, {**self.head("board", number), "flights": []})
            while lines is self.lines and not writer.transport.is_closing():
                if lines and not is_named and self.name("from"):
                    self.send(writer, self.head("from", number))
                is_named = bool(lines)
                for line in lines[number:]:
                    self.send(writer, line)
                number = len(lines)
                self.changed.clear()
                await self.changed.wait()
        self.writers.discard(writer)
        writer.close()

    def head(self, what: str, number: int) -> dict[str, Any]:
        return {"journal": self.name(what), "next": number, "room": 100}

    def send(self, writer: asyncio.StreamWriter, line: dict[str, Any]) -> None:
        writer.write(json.dumps(line).encode() + b"\n")


class Following:
    """A mirror that follows a feed, and what it has told."""

    def __init__(self, feed: Feed) -> None:
        self.feed, self.mirror = feed, Mirror(("127.0.0.1", feed.port))
        self.told: list[tuple[str, int]] = []
        self.lost: list[int] = []
        self.mirror.on_entry.append(lambda entry: self.told.append((self.mirror.journal, entry.number)))
        self.mirror.on_loss.append(self.lost.append)

    async def comes_to(self, journal: str, count: int) -> bool:
        """Whether it is live with so many entries of a journal, soon."""
        for _ in range(500):
            if self.mirror.is_live and (self.mirror.journal, self.mirror.next) == (journal, count):
                return True
            await asyncio.sleep(0.01)
        return False


@contextlib.asynccontextmanager
async def followed() -> AsyncIterator[Following]:
    feed = Feed()
    server = await asyncio.start_server(feed.serve, "127.0.0.1", 0)
    feed.port = server.sockets[0].getsockname()[1]
    found = Following(feed)
    task = asyncio.create_task(found.mirror.follow())
    try:
        yield found
    finally:
        task.cancel()
        await asyncio.gather(task, return_exceptions=True)
        feed.turn_to("", 0)
        server.close()


def numbers(journal: str, *entries: int) -> list[tuple[str, int]]:
    return [(journal, entry) for entry in entries]


def test_a_longer_journal_is_read_from_its_first_entry() -> None:
    async def main() -> None:
        async with followed() as found:
            found.feed.turn_to(ONE, 3)
            assert await found.comes_to(ONE, 3)
            found.feed.turn_to(OTHER, 5, stand=2)
            assert await found.comes_to(OTHER, 5)
            assert found.told == numbers(ONE, 0, 1, 2) + numbers(OTHER, 0, 1, 2, 3, 4)
            assert {record["stand"] for record in found.mirror.board.flights.values()} == {2}
            assert found.lost == [] and len(found.mirror.entries) == 5

    asyncio.run(main())


def test_the_same_journal_goes_on_after_a_break() -> None:
    async def main() -> None:
        async with followed() as found:
            found.feed.turn_to(ONE, 3)
            assert await found.comes_to(ONE, 3)
            found.feed.turn_to(ONE, 4)
            assert await found.comes_to(ONE, 4)
            found.feed.grow(2)
            assert await found.comes_to(ONE, 6)
            assert found.told == numbers(ONE, 0, 1, 2, 3, 4, 5)
            assert found.feed.asked[-2:] == ["board", "from 3"]

    asyncio.run(main())


def test_a_journal_without_an_entry_gets_its_name() -> None:
    async def main() -> None:
        async with followed() as found:
            assert await found.comes_to("", 0)
            found.feed.journal = ONE
            found.feed.grow(2)
            assert await found.comes_to(ONE, 2)
            found.feed.turn_to("", 0)
            assert await found.comes_to("", 0)
            found.feed.journal = OTHER
            found.feed.grow(1)
            assert await found.comes_to(OTHER, 1)
            assert found.told == numbers(ONE, 0, 1) + numbers(OTHER, 0)

    asyncio.run(main())


def test_a_journal_that_was_cut_back_is_told() -> None:
    async def main() -> None:
        async with followed() as found:
            found.feed.turn_to(ONE, 5)
            assert await found.comes_to(ONE, 5)
            found.feed.turn_to(ONE, 2)
            assert await found.comes_to(ONE, 2)
            assert (found.lost, sorted(found.mirror.board.flights)) == ([2], [1, 2])

    asyncio.run(main())


@pytest.mark.parametrize(
    "told",
    [{"from": OTHER}, {"board": OTHER}, {"from": ""}, {"from": ONE[1:]}, {"board": ""}, {"board": ONE + "0"}],
)
def test_nothing_is_taken_where_names_differ_or_are_none(told: dict[str, str]) -> None:
    async def main() -> None:
        async with followed() as found:
            found.feed.turn_to(ONE, 3)
            assert await found.comes_to(ONE, 3)
            found.feed.told = told
            found.feed.turn_to(ONE, 5)
            await asyncio.sleep(0.7)
            assert found.told == numbers(ONE, 0, 1, 2) and not found.mirror.is_live and found.mirror.trouble
            found.feed.told = {}
            assert await found.comes_to(ONE, 5)

    asyncio.run(main())


def test_lines_stay_in_the_journal_that_they_went_to(folder: Path) -> None:
    ledger = Ledger(folder / "desk.sqlite", None)
    first = ledger.begin(ONE, ANNA, "GH", TARGET)
    ledger.end(first, REPLIED, 4, "ok 4", ONE)
    second = ledger.begin(ONE, ANNA, "GH", TARGET)
    ledger.end(second, REPLIED, 5, "ok 5", OTHER)
    assert ledger.who(ONE, [4, 5]) == {4: "anna"} and ledger.who(OTHER, [4, 5]) == {5: "anna"}
    ledger.close()


def test_entries_that_a_journal_has_lost_are_nobodys(folder: Path) -> None:
    ledger = Ledger(folder / "desk.sqlite", None)
    for entry in (3, 7, 8):
        ledger.end(ledger.begin(ONE, ANNA, "GH", TARGET), REPLIED, entry, f"ok {entry}")
    ledger.end(ledger.begin(OTHER, ANNA, "GH", TARGET), REPLIED, 9, "ok 9")
    for session, start in ((1, 2), (2, 7)):
        ledger.learn_session(ONE, "GH", session, start)
    for _ in range(2):
        ledger.lose(ONE, 7)
        assert ledger.who(ONE, range(20)) == {3: "anna"} and ledger.who(OTHER, range(20)) == {9: "anna"}
        assert list(ledger.sessions(ONE)) == [1]
        ledger.end(ledger.begin(ONE, ANNA, "GH", TARGET), REPLIED, 7, "ok 7")
    states = [line.state for line in ledger.lines_of(7, "anna", 100)]
    assert states == [REPLIED, LOST, LOST, REPLIED, LOST, REPLIED], "who did what is not forgotten"
    ledger.close()


@pytest.fixture(name="own")
def _own(folder: Path, certificates: Certificates) -> Iterator[Running]:
    """A desk and a board for one test alone."""
    if not PROGRAM.is_file():
        pytest.skip(f"there is no program at {PROGRAM}, name it by ACDM")
    board = Board(folder)
    board.flight(7)
    running = Running(folder, certificates, board)
    try:
        yield running
    finally:
        running.stop()
        board.kill()


def test_a_log_of_an_older_desk_goes_on(own: Running) -> None:
    """Its names of journals were made here; each is the journal with the same first entry, whose name the board tells."""
    anna = Client(own).sign_in("anna")
    entry = anna.enter(7, 9, "now").value["entry"]
    own.in_step()
    journal = own.desk.exchange.mirror.journal
    older = older_name(own.desk.exchange.mirror.entries[0])
    own.stop()
    ledger = Ledger(own.settings.data, None)
    ledger.rename_journal(journal, older)
    assert len(journal) == 32 and len(older) == 16 and ledger.who(older, [entry]) == {entry: "anna"}
    sessions = ledger.sessions(older)
    own.start()
    assert ledger.who(journal, [entry]) == {entry: "anna"} and ledger.who(older, [entry]) == {}
    assert sessions.items() <= ledger.sessions(journal).items()
    ledger.close()


def test_entries_of_another_journal_are_nobodys(own: Running) -> None:
    """Of a longer journal, whose entries of the same numbers others have made."""
    anna = Client(own).sign_in("anna")
    before = [anna.enter(7, 9, "now").value["entry"] for _ in range(3)]
    journal = own.desk.exchange.mirror.journal
    own.board.kill()
    own.board.start("next.journal")
    own.board.ask("APT", cmd="alerts")
    for flight in range(7, 7 + max(before)):
        own.board.flight(flight)
    assert until(lambda: own.desk.exchange.mirror.journal not in ("", journal))
    assert until(own.is_ready)
    own.in_step()
    ledger, other = Ledger(own.settings.data, None), own.desk.exchange.mirror.journal
    assert ledger.who(journal, before) == dict.fromkeys(before, "anna")
    assert "anna" not in ledger.who(other, range(own.board.count())).values()
    told = anna.get("/flights/7/history")
    assert told.status != 200 or "anna" not in told.body.decode()
    entry = anna.enter(7, 9, "now").value["entry"]
    assert ledger.who(other, [entry]) == {entry: "anna"}
    ledger.close()


def test_a_line_goes_to_no_other_journal_than_the_desk_knows(own: Running) -> None:
    """The board has another journal before the feed has told of it: nothing is sent, and nothing is tied."""
    own.stop()
    board, other = own.board, BoardLine("GH", ("127.0.0.1", own.board.ports["GH"]), ("127.0.0.1", own.board.changes))
    asyncio.run(other.begin())
    journal = other.journal
    board.kill()
    board.start("next.journal")
    board.ask("APT", cmd="alerts")
    board.flight(7)
    count = board.count()
    with pytest.raises(Away, match="another journal"):
        asyncio.run(other.ask(TARGET))
    with pytest.raises(Away, match="another journal"):
        asyncio.run(other.begin())
    assert board.count() == count
    other.forget()
    asyncio.run(other.begin())
    answer = asyncio.run(other.ask(TARGET))
    assert answer.is_accepted and answer.journal == other.journal not in ("", journal)
    other.close()


def test_a_line_of_another_journal_than_that_of_the_feed_is_not_begun(own: Running) -> None:
    anna, exchange = Client(own).sign_in("anna"), own.desk.exchange
    own.in_step()
    seen, count = anna.last(7), own.board.count()
    exchange.mirror.journal, journal = OTHER, exchange.mirror.journal
    answer = anna.post("/enter", {"cmd": "report", "flight": "7", "milestone": 9, "time": "now", "seen": seen})
    exchange.mirror.journal = journal
    assert (answer.status, answer.words) == (503, AWAY) and own.board.count() == count
    ledger = Ledger(own.settings.data, None)
    assert not [line for line in ledger.lines_of(7, "anna", 10) if line.state == SENT]
    ledger.close()
