"""The board as the feed tells it: all flights, what became of each, and who waits for the next entry."""
import asyncio
import hashlib
import json
import time
from collections import Counter, deque
from collections.abc import Callable, Iterator
from dataclasses import dataclass, field, replace
from sys import intern
from typing import Any

from feed import LONGEST_LINE, Address, Board, Line, NoFeed, OtherJournal, Place, parsed

FIRST_PAUSE, LONGEST_PAUSE = 0.2, 5.0
ANSWER = 10.0
# (of each flight, and of all: what is kept for who asks for history, and for who comes back after a break)
HISTORY, KEPT_ENTRIES, KEPT_CHANGES = 100, 5000, 20000
ALERTS_ALONE = {"alerts"}


@dataclass(frozen=True, slots=True)
class Change:
    """What an entry changed of a flight: the fields that differ, and the record after it."""

    before: Line | None
    after: Line
    fields: dict[str, Any]


@dataclass(frozen=True, slots=True)
class Entry:
    """An entry of the journal, with the changes of its flights."""

    number: int
    minute: str
    session: int
    role: str
    command: Line
    code: int
    changes: tuple[Change, ...]


@dataclass
class Story:
    """What became of a flight: its last entries, the last that changed more than its alerts, who reported what last."""

    events: deque[Entry] = field(default_factory=lambda: deque(maxlen=HISTORY))
    last: int = -1
    reported: dict[int, str] = field(default_factory=dict)


def told_change(change: Change) -> Change:
    """A change with what is told of it alone: a history keeps no whole records."""
    names = {*change.fields, "alerts"}
    before = None if change.before is None else {name: change.before.get(name) for name in names}
    after = {"flight": change.after["flight"], **{name: change.after.get(name) for name in names}}
    return Change(before, after, after)


def shared(record: Line) -> Line:
    """An object whose names are shared with all others, which takes half the memory."""
    return {intern(name): value for name, value in record.items()}


def older_name(first: Entry) -> str:
    """What a desk before version 0.10.0 called the journal of a first entry."""
    parts = [first.minute, first.session, first.command]
    return hashlib.sha256(json.dumps(parts, sort_keys=True).encode()).hexdigest()[:16]


def fields_between(before: Line | None, after: Line) -> dict[str, Any]:
    """The fields of a record that differ from the one before it."""
    if before is None:
        return dict(after)
    return {name: value for name, value in after.items() if before.get(name, before) != value}


class Mirror:  # pylint: disable=too-many-instance-attributes
    """The board as the desk knows it. It follows the feed, over all breaks."""

    def __init__(self, where: Address) -> None:
        self.where, self.board = where, Board()
        self.stories: dict[int, Story] = {}
        self.entries: deque[Entry] = deque()
        self.room, self.journal, self.first_kept = 0, "", 0
        self.is_live, self.trouble = False, "not connected yet"
        self.is_ended = False
        self.entered: Counter[str] = Counter()
        self.refused: Counter[tuple[str, int]] = Counter()
        self.last_tick = ""
        self.on_entry: list[Callable[[Entry], None]] = []
        self.on_live: list[Callable[[bool], None]] = []
        # (told that the journal has so many entries alone, fewer than were known)
        self.on_loss: list[Callable[[int], None]] = []
        self._kept_changes = 0
        self._waiting: set[asyncio.Future[None]] = set()
        self._ready = asyncio.Event()

    @property
    def next(self) -> int:
        """The number of the entry that comes next."""
        return self.board.next

    def flight(self, number: int) -> Line | None:
        return self.board.flights.get(number)

    def last_of(self, number: int) -> int:
        """The last entry that changed more than the alerts of a flight; -1 where none did."""
        story = self.stories.get(number)
        return story.last if story else -1

    def reported_of(self, number: int) -> dict[int, str]:
        """The role that reported each milestone of a flight last."""
        story = self.stories.get(number)
        return story.reported if story else {}

    def events_of(self, number: int) -> list[Entry]:
        """The last entries that asked for a flight or changed it."""
        story = self.stories.get(number)
        return list(story.events) if story else []

    def after(self, number: int) -> Iterator[Entry] | None:
        """The entries from a number on; nothing where they are not kept any more."""
        if number < self.first_kept or number > self.next:
            return None
        start = len(self.entries) - (self.next - number)
        return (self.entries[place] for place in range(start, len(self.entries)))

    async def ready(self, seconds: float) -> bool:
        """Whether all entries that there were have been read within so many seconds."""
        try:
            async with asyncio.timeout(seconds):
                await self._ready.wait()
        except TimeoutError:
            return False
        return True

    async def reached(self, number: int, seconds: float, journal: str | None = None) -> bool:
        """Whether the entry with a number, of a journal where one is named, is known within so many seconds."""
        end = time.monotonic() + seconds
        while self.next <= number or journal not in (None, self.journal):
            left = end - time.monotonic()
            if left <= 0:
                return False
            await self.news(left)
        return True

    async def news(self, seconds: float) -> None:
        """Waits for an entry, or for so many seconds."""
        waiting: asyncio.Future[None] = asyncio.get_running_loop().create_future()
        self._waiting.add(waiting)
        try:
            async with asyncio.timeout(seconds):
                await waiting
        except TimeoutError:
            pass
        finally:
            self._waiting.discard(waiting)

    async def follow(self) -> None:
        """Follows the feed until it is cancelled."""
        pause = FIRST_PAUSE
        while True:
            try:
                await self._connect()
                pause = FIRST_PAUSE
            except (OSError, EOFError, NoFeed, ValueError) as error:
                self.trouble = str(error) or type(error).__name__
            if self.is_live:
                self._set_live(False)
                pause = FIRST_PAUSE
            await asyncio.sleep(pause)
            pause = min(2 * pause, LONGEST_PAUSE)

    def end(self) -> None:
        """Nobody is told of entries any more: who waits goes on."""
        self.is_ended = True
        self._wake()

    def _set_live(self, is_live: bool) -> None:
        self.is_live = is_live
        if is_live:
            self._ready.set()
        for tell in self.on_live:
            tell(is_live)
        self._wake()

    def _wake(self) -> None:
        for waiting in self._waiting:
            if not waiting.done():
                waiting.set_result(None)

    async def _board(self) -> Line:
        """The board as it is now."""
        reader, writer = await connected(self.where)
        try:
            writer.write(b"board\n")
            line = parsed(whole(await timely(reader)))
        finally:
            writer.close()
        if "flights" not in line:
            raise NoFeed("it sends no board where one is asked for")
        return line

    async def _connect(self) -> None:
        """Reads the feed from the entry that comes next on, until it ends."""
        told = await self._board()
        count, self.room = int(told["next"]), int(told["room"])
        if self.journal and self.journal == told["journal"] and count < self.next:
            for tell in self.on_loss:
                tell(count)
        if self.journal not in ("", told["journal"]) or count < self.next:
            self._forget()
        reader, writer = await connected(self.where)
        try:
            writer.write(f"from {self.next}\n".encode())
            if count:
                self._meet(parsed(whole(await timely(reader))), told["journal"])
            while True:
                if not self.is_live and self.next >= count:
                    self._set_live(True)
                line = parsed(whole(await (reader.readline() if self.is_live else timely(reader))))
                if not self.journal:
                    # (what an empty board tells first)
                    self._meet(line, "")
                elif line.get("entry") != self.next:
                    raise NoFeed(f"{line.get('entry', 'no entry')} came in place of entry {self.next}")
                else:
                    self.take(line)
        finally:
            writer.close()

    def _meet(self, line: Line, expected: str) -> None:
        """Takes the name of the journal, which comes before its entries, and is that which the board has told."""
        place = Place(expected, self.next)
        try:
            place.meet(line)
        except OtherJournal as other:
            # (it has come since the board was asked for)
            raise NoFeed(str(other)) from None
        self.journal = place.journal

    def _forget(self) -> None:
        """Begins anew: the board has another journal."""
        self.board, self.stories, self.journal = Board(), {}, ""
        self.entries.clear()
        self.first_kept = self._kept_changes = 0
        self.entered.clear()
        self.refused.clear()
        self.last_tick = ""

    def take(self, line: Line) -> None:
        """Takes an entry of the feed."""
        # (a migrate adds members to the records that are there, in place)
        migrated = line["command"]["cmd"] == "migrate" and line["outcome"] == "ok"
        line["changed"] = [shared(record) for record in line["changed"]]
        before = {record["flight"]: self.board.flights.get(record["flight"]) for record in line["changed"]}
        self.board.take(line)
        changes = [
            Change(before[record["flight"]], record, fields_between(before[record["flight"]], record))
            for record in line["changed"]
        ]
        if migrated:
            self.board.flights = {number: dict(record) for number, record in self.board.flights.items()}
            changes = [
                Change(record, record, dict.fromkeys(("eczt", "eezt", "aczt", "aezt")))
                for record in self.board.flights.values()
            ]
        code = 0 if line["outcome"] == "ok" else int(line["outcome"]["code"])
        entry = Entry(
            line["entry"],
            intern(line["minute"]),
            line["session"],
            intern(line["role"]),
            shared(line["command"]),
            code,
            tuple(changes),
        )
        self._count(entry)
        self._tell_stories(entry, migrated)
        self._keep(entry)
        for tell in self.on_entry:
            tell(entry)
        self._wake()

    def _count(self, entry: Entry) -> None:
        self.entered[entry.role] += 1
        if entry.code:
            self.refused[entry.role, entry.code] += 1
        elif entry.command["cmd"] == "tick":
            self.last_tick = entry.minute

    def _tell_stories(self, entry: Entry, migrated: bool) -> None:
        asked = entry.command.get("flight")
        told = set()
        for change in entry.changes if not migrated else ():
            number = change.after["flight"]
            told.add(number)
            story = self.stories.setdefault(number, Story())
            story.events.append(replace(entry, changes=(told_change(change),)))
            if set(change.fields) - ALERTS_ALONE or change.before is None or number == asked:
                story.last = entry.number
            if entry.command["cmd"] == "report" and number == asked:
                story.reported[entry.command["milestone"]] = entry.role
        if asked is not None and asked not in told and entry.command["cmd"] != "show" and asked in self.stories:
            self.stories[asked].events.append(entry)

    def _keep(self, entry: Entry) -> None:
        self.entries.append(entry)
        self._kept_changes += len(entry.changes)
        while len(self.entries) > KEPT_ENTRIES or (self._kept_changes > KEPT_CHANGES and len(self.entries) > 1):
            gone = self.entries.popleft()
            self._kept_changes -= len(gone.changes)
        self.first_kept = self.entries[0].number


async def connected(where: Address) -> tuple[asyncio.StreamReader, asyncio.StreamWriter]:
    """A connection to the feed, soon."""
    async with asyncio.timeout(ANSWER):
        return await asyncio.open_connection(*where, limit=LONGEST_LINE)


def whole(line: bytes) -> bytes:
    """A line without its line feed; EOFError where it has none."""
    if not line.endswith(b"\n"):
        raise EOFError("the board closed the feed")
    return line[:-1]


async def timely(reader: asyncio.StreamReader) -> bytes:
    """A line that has to come soon, since the entry is there."""
    async with asyncio.timeout(ANSWER):
        return await reader.readline()
