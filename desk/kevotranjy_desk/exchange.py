"""The desk between its users and the board: sends their lines, writes down who sent them, and follows the feed."""
import asyncio
import sys
import time
from collections.abc import Callable
from dataclasses import replace

from partner import QUESTION

from .board_line import Answer, Away, BoardLine, Command, Unanswered
from .ledger import FOUND, NOT_ENTERED, NOT_SENT, REPLIED, Author, Ledger
from .mirror import Entry, Mirror, older_name
from .settings import Settings

AWAY = "the board is away, nothing was sent"
MAYBE = "the board went away before it replied: what was sent may have been entered, and is looked for once it is back"
ITSELF = Author("desk", "desk", "")
LOOK, TRY_AGAIN = 10.0, 1.0


def partner_line(name: str) -> str:
    """What the address of a partner by HTTP is called in the log."""
    return f"partner {name}"


class Exchange:
    """The board's lines, the feed and the log."""

    def __init__(self, settings: Settings, ledger: Ledger) -> None:
        self.settings, self.ledger = settings, ledger
        self.mirror = Mirror(settings.changes)
        self.lines = {role: BoardLine(role, at, settings.changes) for role, at in settings.lines.items()}
        for partner in settings.partners.values():
            if partner.http:
                name = partner_line(partner.name)
                self.lines[name] = BoardLine(name, partner.http, settings.changes)
        self.partner_sessions: dict[int, str] = {}
        self.on_reply: Callable[[float], None] = lambda seconds: None
        self._begun: set[str] = set()
        self._open: dict[str, int] = {}
        self._ours: dict[int, tuple[str, int]] = {}
        self._unchecked: list[Entry] = []
        self._tasks: list[asyncio.Task[None]] = []
        self._journal = ""
        self.mirror.on_entry.append(self._notice)
        self.mirror.on_live.append(self._turn)
        self.mirror.on_loss.append(self._lose)

    async def start(self) -> None:
        """Begins to follow the feed, and to greet the board whenever it is there."""
        self._tasks = [asyncio.create_task(work()) for work in (self.mirror.follow, self._greet_forever, self._look)]

    async def stop(self) -> None:
        for task in self._tasks:
            task.cancel()
        await asyncio.gather(*self._tasks, return_exceptions=True)
        for line in self.lines.values():
            line.close()

    def is_away(self, address: str) -> bool:
        """Whether nothing can be sent at an address now."""
        return not self.mirror.is_live or address not in self._begun or address in self._open

    async def send(
        self, author: Author, address: str, command: Command, request: tuple[str, int] | None = None
    ) -> Answer:
        """The reply of the board to a line of somebody. Away where it was not sent, Unanswered where nobody knows."""
        line, journal = self.lines[address], self.mirror.journal
        # (an entry that its reply tells of is one of the journal that the line goes to)
        if self.is_away(address) or line.journal != journal:
            raise Away(AWAY)
        number = self.ledger.begin(journal, author, address, command, request)
        begun = time.monotonic()
        try:
            answer = await line.ask(command)
        except Away as why:
            self.ledger.end(number, NOT_SENT)
            raise Away(f"{AWAY} ({why})") from None
        except Unanswered as why:
            self._open[address] = number
            raise Unanswered(f"{MAYBE} ({why})") from None
        self.on_reply(time.monotonic() - begun)
        state = FOUND if answer.note == "from the feed" else REPLIED
        self.ledger.end(number, state, answer.entry, answer.text, answer.journal)
        return answer

    def _turn(self, is_live: bool) -> None:
        """The feed has come, or has gone: the board may be another one afterwards."""
        if is_live and self._journal and self._journal != self.mirror.journal:
            self._forget()
        if is_live and self.mirror.journal and not self._journal:
            # (it may have been cut back while no desk looked on)
            self.ledger.lose(self.mirror.journal, self.mirror.next)
        if not is_live:
            self._begun.clear()
        self._journal = self.mirror.journal or self._journal

    def _forget(self) -> None:
        """Forgets what was under way: the board has another journal, or has lost entries."""
        for line in self.lines.values():
            line.forget()
        self._open.clear()
        self.partner_sessions.clear()

    def _lose(self, count: int) -> None:
        """The journal has so many entries alone: those behind them are gone, and the next ones are others."""
        self._forget()
        self.ledger.lose(self.mirror.journal, count)

    def _notice(self, entry: Entry) -> None:
        """Keeps an entry of the desk's own sessions until it was held against the log."""
        if entry.number == 0:
            for before in ("", older_name(entry)):
                self.ledger.rename_journal(before, self.mirror.journal)
            self._unchecked.clear()
            self._ours = self.ledger.sessions(self.mirror.journal)
        if entry.session in self._ours:
            self._unchecked.append(replace(entry, changes=()))

    async def _greet_forever(self) -> None:
        while True:
            if self.mirror.is_live:
                for address in [name for name in self.lines if name not in self._begun or name in self._open]:
                    try:
                        await self._greet(address)
                    except (Away, Unanswered) as why:
                        self._begun.discard(address)
                        self.mirror.trouble = str(why)
            await asyncio.sleep(TRY_AGAIN if self.mirror.is_live else 0.05)

    async def _greet(self, address: str) -> None:
        """Settles what has no reply at an address, and asks which session it is."""
        line = self.lines[address]
        if line.has_open:
            await self._settle(address)
        number = self.ledger.begin(self.mirror.journal, ITSELF, address, QUESTION)
        try:
            answer = await line.begin()
        except Away:
            self.ledger.end(number, NOT_SENT)
            raise
        entry, session, journal = answer.entry, line.session, answer.journal
        assert entry is not None and session is not None and journal
        self.ledger.end(number, REPLIED, entry, answer.text, journal)
        if not await self.mirror.reached(entry, LOOK, journal):
            raise Away("the feed lags behind the board")
        self._journal = journal
        self.ledger.learn_session(journal, address, session, entry)
        self._ours = self.ledger.sessions(journal)
        # (behind this reply all lines before it are entered or dropped)
        self._compare(entry)
        self.ledger.drop_open(journal, address)
        self._open.pop(address, None)
        self._begun.add(address)

    async def _settle(self, address: str) -> None:
        answer = await self.lines[address].settle()
        number = self._open.pop(address, None)
        if number is not None:
            if answer:
                self.ledger.end(number, FOUND, answer.entry, answer.text, answer.journal)
            else:
                self.ledger.end(number, NOT_ENTERED)

    def _compare(self, before: int) -> None:
        """Holds the entries before one against the log."""
        told = [entry for entry in self._unchecked if entry.number < before]
        self._unchecked = [entry for entry in self._unchecked if entry.number >= before]
        self.ledger.compare(self.mirror.journal, told)

    async def _look(self) -> None:
        """Holds the entries of the desk's sessions against the log, some seconds after they came."""
        seen = 0
        while True:
            await asyncio.sleep(LOOK)
            if self._begun and not self._open:
                self._compare(seen)
            seen = self.mirror.next


def say(text: str) -> None:
    """A line for the operator, on standard error."""
    print(f"desk: {text}", file=sys.stderr, flush=True)
