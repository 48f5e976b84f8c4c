"""A session of the board: the desk's connection to one of its addresses, whose lines wait for one another.

After a break it looks at the feed before a line is sent again, as `clients/partner.py` does, of which it is made.
"""
import asyncio
import contextlib
import json
import socket
from collections.abc import Callable
from concurrent.futures import ThreadPoolExecutor
from dataclasses import dataclass
from typing import Any, TypeVar

from feed import Address, Line
from partner import CHANGES, QUESTION, Partner, Reply, Stop, is_same, reply_of

# (the board comes back within this after a break, or it is away)
PATIENCE = 2.0
ANSWER = 10.0
Command = dict[str, Any]
Found = TypeVar("Found")


class Away(Exception):
    """The board is away: nothing was sent."""


class Unanswered(Exception):
    """The board went away before it replied: the line may have been entered, which is looked for later."""


@dataclass(frozen=True)
class Answer:
    """The reply to a line, how it came, where that was in another way than usual, and the journal of its entry."""

    text: str
    note: str = ""
    journal: str | None = None

    @property
    def entry(self) -> int | None:
        """The number of its entry, if it made one."""
        words = self.text.split()
        return int(words[1]) if words[0] != "bad" else None

    @property
    def code(self) -> int:
        """The number of its refusal, 0 where it was accepted."""
        words = self.text.split()
        return int(words[1 if words[0] == "bad" else 2]) if words[0] in ("no", "bad") else 0

    @property
    def is_accepted(self) -> bool:
        return self.code == 0


def line_text(command: Command) -> str:
    """A command as one line: JSON in ASCII, whose texts have no line feed. ValueError where it can't be one."""
    return json.dumps(command, separators=(",", ":"), ensure_ascii=True, allow_nan=False)


class Staying(Partner):
    """A partner that goes over to no other journal by itself: the log ties its lines to one."""

    def go_over(self, told: Line) -> None:
        raise Stop("the board has another journal")


class BoardLine:
    """A session at an address of the board."""

    def __init__(self, name: str, where: Address, changes: Address) -> None:
        self.name, self.where = name, where
        self.session: int | None = None
        self._changes = changes
        self._partner = Staying(where, changes, PATIENCE)
        self._thread = ThreadPoolExecutor(1, thread_name_prefix=f"line-{name}")
        self._turn = asyncio.Lock()
        self._open: Command | None = None

    async def begin(self) -> Answer:
        """Asks one question, whose entry tells which session of the board this is. Away, where there is no board."""
        return await self._run(self._begin)

    async def ask(self, command: Command) -> Answer:
        """The reply to a line, which is entered once. Away where it was not sent, Unanswered where nobody knows."""
        text = line_text(command)
        return await self._run(lambda: self._ask(command, text))

    async def settle(self) -> Answer | None:
        """The reply to the line that had none, once the board is back; nothing where it was not entered."""
        return await self._run(self._settle)

    @property
    def has_open(self) -> bool:
        """Whether a line has no reply, and may have been entered."""
        return self._open is not None

    @property
    def journal(self) -> str:
        """The name of the journal that lines go to, empty before it is known."""
        return self._partner.journal

    def forget(self) -> None:
        """Forgets the session: the board has another journal. What is under way ends as one of the journal before."""
        before, self._partner = self._partner, Staying(self.where, self._changes, PATIENCE)
        self.session, self._open = None, None
        end_connection(before)

    def close(self) -> None:
        """Ends the session's connection; a thread that waits for a reply there goes on at once, and tries no more."""
        end_connection(self._partner)
        self._thread.shutdown(wait=False, cancel_futures=True)

    async def _run(self, work: Callable[[], Found]) -> Found:
        try:
            # (those before it are answered within milliseconds, or the board does not answer)
            async with asyncio.timeout(ANSWER):
                await self._turn.acquire()
        except TimeoutError:
            raise Away(f"{self.where[0]}:{self.where[1]} does not answer") from None
        busy = asyncio.get_running_loop().run_in_executor(self._thread, work)
        # (who is not answered in time leaves, and the next one's turn comes once his line has its reply)
        busy.add_done_callback(self._end_turn)
        try:
            async with asyncio.timeout(ANSWER):
                return await asyncio.shield(busy)
        except TimeoutError:
            raise Unanswered(f"{self.where[0]}:{self.where[1]} does not answer for {ANSWER:.0f} s") from None

    def _end_turn(self, done: "asyncio.Future[Any]") -> None:
        if not done.cancelled():
            # (what nobody waits for any more is told of by the feed)
            done.exception()
        self._turn.release()

    def _begin(self) -> Answer:
        partner, connection = self._partner, self._partner.connection
        connection.until = None
        try:
            connection.connect()
            partner.meet()
            reply = connection.insist(json.dumps(QUESTION))
            number = Answer(reply.text).entry
            if number is None:
                raise Away(f"the board answers {reply.text}")
            if connection.is_new:
                raise Away("the connection broke")
            partner.take(number, QUESTION)
            lines = partner.entries_from(number)
        except Stop as why:
            raise Away(str(why)) from None
        if not lines or lines[0]["entry"] != number or not is_same(lines[0]["command"], QUESTION):
            raise Away(f"entry {number} of the feed is not the question that was asked")
        self.session = int(lines[0]["session"])
        return Answer(reply.text, "", partner.journal)

    def _ask(self, command: Command, text: str) -> Answer:
        if self._open is not None:
            raise Away("a line before has no reply yet")
        partner = self._partner
        try:
            reply: Reply = partner.ask(text)
        except Stop as why:
            if partner.is_uncertain:
                if partner is self._partner:
                    self._open = command
                raise Unanswered(str(why)) from None
            raise Away(str(why)) from None
        return Answer(reply.text, reply.note, partner.journal)

    def _settle(self) -> Answer | None:
        partner, command = self._partner, self._open
        if command is None:
            return None
        partner.connection.until = None
        try:
            entry = partner.find(command) if command.get("cmd") in CHANGES else None
        except Stop as why:
            raise Away(str(why)) from None
        self._open = None
        partner.is_uncertain = False
        if entry is None:
            return None
        partner.take(entry["entry"], command)
        return Answer(reply_of(entry), "from the feed", partner.journal)


def end_connection(partner: Partner) -> None:
    """Ends a partner's connection; who waits for a reply there goes on at once, and tries no more."""
    connection = partner.connection
    connection.patience = 0.0
    if connection.until is not None:
        connection.until = 0.001
    stream = connection.stream
    if stream is not None:
        with contextlib.suppress(OSError):
            stream.shutdown(socket.SHUT_RDWR)
    partner.close()
