"""Partners of lines that are bound to some flights: each of their lines is read and judged before the board has it.

The process in front hands the desk their connections, since the desk knows the flights. What is judged is what is sent:
an object is written anew from what was read of it. A line for a flight of others is answered here and makes no entry.
"""
import asyncio
import json
import shutil
import tempfile
from pathlib import Path
from typing import Any

from feed import Address

from .board_line import line_text
from .exchange import Exchange
from .records import LISTED
from .rights import refusal, rights_of
from .settings import Partner, Settings

# (docs/RULES.md: a line has 70,000 bytes at most; a reply of `alerts` for 4,096 flights has less than 4 MiB)
LONGEST_LINE, LONGEST_REPLY = 70_000, 1 << 22
NO_JSON, NO_OBJECT, TOO_LONG = b"bad 101\n", b"bad 102\n", b"bad 105\n"
# The desk's own reply: not a flight of this partner. The board has no code of 601.
NOT_YOURS = b"bad 601\n"
LAG, CONNECTS = 5.0, 3.0


class Gone(Exception):
    """The connection ends: the partner or the board has left."""


async def next_line(reader: asyncio.StreamReader) -> bytes | None:
    """A line without its line feed; nothing for one that is too long, which is skipped. Gone at the end."""
    is_whole = True
    while True:
        try:
            line = await reader.readuntil(b"\n")
        except asyncio.LimitOverrunError as over:
            is_whole = False
            await reader.readexactly(over.consumed)
            continue
        except asyncio.IncompleteReadError:
            # (what stands behind the last line feed is dropped, as the board drops it)
            raise Gone from None
        return line[:-1] if is_whole and len(line) <= LONGEST_LINE + 1 else None


def read_command(line: bytes) -> Any:
    """What a line has as JSON. ValueError where it has none."""
    try:
        return json.loads(line.decode("utf-8"))
    except RecursionError:
        raise ValueError("nested too deep") from None


def entry_of(reply: bytes) -> int | None:
    words = reply.split()
    return int(words[1]) if words and words[0] != b"bad" else None


class Bound:
    """A client of a bound partner, with its connection to an address of the board."""

    def __init__(self, exchange: Exchange, partner: Partner, client: str) -> None:
        self.exchange, self.mirror = exchange, exchange.mirror
        self.partner, self.rights, self.client = partner, rights_of(partner), client
        self.last = -1

    async def answer(self, line: bytes | None, board: asyncio.StreamReader, sender: asyncio.StreamWriter) -> bytes:
        """The reply to a line: that of the board, where it may have the line."""
        if line is None:
            return TOO_LONG
        try:
            command = read_command(line)
            text = line_text(command)
        except ValueError:
            return NO_JSON
        if not isinstance(command, dict):
            return NO_OBJECT
        # (a flight that this partner has just begun is known once the feed has told it)
        if not self.mirror.is_live or not await self.mirror.reached(self.last, LAG):
            raise Gone
        why = refusal(self.rights, command, self.mirror)
        if why:
            facts = {"who": self.partner.name, "client": self.client, "line": command, "why": why}
            self.exchange.ledger.tell("not sent", **facts)
            return NOT_YOURS
        if len(text) > LONGEST_LINE:
            return TOO_LONG
        sender.write(text.encode("ascii") + b"\n")
        await sender.drain()
        reply = await board.readline()
        if not reply.endswith(b"\n"):
            raise Gone
        number = entry_of(reply)
        self.last = self.last if number is None else number
        return self.seen(reply)

    def seen(self, reply: bytes) -> bytes:
        """A reply without the flights of others."""
        kind, _, rest = reply.decode("ascii").strip().partition(" ")
        if kind != "alerts":
            return reply
        number, _, flights = rest.partition(" ")
        own = [
            f"{it}:{names}" for it, names in LISTED.findall(flights) if self.rights.sees(self.mirror.flight(int(it)))
        ]
        return f"alerts {number} {';'.join(own) or '-'}\n".encode("ascii")


class BoundLines:
    """What the process in front connects to for clients of bound partners: a socket in a folder of this user alone."""

    def __init__(self, settings: Settings, exchange: Exchange) -> None:
        self.settings, self.exchange = settings, exchange
        self.path = Path()
        self._server: asyncio.Server | None = None
        self._tasks: set[asyncio.Task[None]] = set()

    async def start(self) -> None:
        """Begins to listen, in a new folder."""
        self.path = Path(tempfile.mkdtemp(prefix="desk-lines-")) / "lines"
        self._server = await asyncio.start_unix_server(self.take, self.path, limit=LONGEST_LINE + 2)

    async def stop(self) -> None:
        """Ends all connections, and removes the folder."""
        if not self._server:
            return
        self._server.close()
        for task in list(self._tasks):
            task.cancel()
        await asyncio.gather(*self._tasks, return_exceptions=True)
        shutil.rmtree(self.path.parent, ignore_errors=True)

    def take(self, reader: asyncio.StreamReader, writer: asyncio.StreamWriter) -> None:
        task = asyncio.create_task(self.serve(reader, writer))
        self._tasks.add(task)
        task.add_done_callback(self._tasks.discard)

    async def serve(self, reader: asyncio.StreamReader, writer: asyncio.StreamWriter) -> None:
        """Serves a client: the first line of the process in front tells whose it is, and which address it has."""
        try:
            told = json.loads(await reader.readline())
            partner, where = self.settings.partners[told["partner"]], told["address"]
            await self.relay(Bound(self.exchange, partner, str(told["client"])), (where[0], where[1]), reader, writer)
        except (Gone, OSError, ValueError):
            pass
        finally:
            writer.close()

    async def relay(
        self, bound: Bound, where: Address, reader: asyncio.StreamReader, writer: asyncio.StreamWriter
    ) -> None:
        """Answers a client's lines in their order, until one side leaves."""
        async with asyncio.timeout(CONNECTS):
            board, sender = await asyncio.open_connection(*where, limit=LONGEST_REPLY)
        try:
            while True:
                writer.write(await bound.answer(await next_line(reader), board, sender))
                await writer.drain()
        finally:
            sender.close()
