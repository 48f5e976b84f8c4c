"""Server-Sent Events (the HTML standard): what each listener may see of the entries, as they come."""
import asyncio
import json
import re
from collections import OrderedDict
from collections.abc import Callable

from aiohttp import web

from feed import Line

from .guard import STALLED_SECONDS
from .mirror import Change, Entry, Mirror
from .scopes import Scope
from .wording import refusal_name

BEAT = 15.0
KEPT_TEXTS, KEPT_BYTES = 4096, 1 << 25


def text_of(value: object) -> str:
    return json.dumps(value, separators=(",", ":"))


def place_text(number: int, journal: str) -> str:
    """The id of an event: the number of the entry that comes next, and the name of its journal."""
    return f"{number}.{journal}" if journal else str(number)


class Told:
    """What an entry tells those who see the same flights, made once for all of them."""

    def __init__(self, make: Callable[[Entry, Scope], Line | None]) -> None:
        self._make = make
        self._texts: OrderedDict[tuple[str, int, Scope], bytes] = OrderedDict()
        self._size = 0

    def text_for(self, journal: str, entry: Entry, scope: Scope) -> bytes:
        """An event, or nothing where the entry is none of theirs."""
        key = (journal, entry.number, scope)
        text = self._texts.get(key)
        if text is None:
            value = self._make(entry, scope)
            event = f"id: {place_text(entry.number + 1, journal)}\ndata: {text_of(value)}\n\n"
            text = b"" if value is None else event.encode()
            self._texts[key] = text
            self._size += len(text)
            while len(self._texts) > KEPT_TEXTS or self._size > KEPT_BYTES:
                self._size -= len(self._texts.popitem(last=False)[1])
        return text


def page_change(change: Change, scope: Scope, entry: Entry) -> tuple[Line | None, str | None]:
    """What a page is told of a change: the fields that differ, and whether the flight has left its sight."""
    is_seen, was_seen = scope.has(change.after), change.before is not None and scope.has(change.before)
    if not is_seen:
        return None, str(change.after["flight"]) if was_seen else None
    fields = change.fields if was_seen else change.after
    # (a browser's numbers are exact below 2^53 alone: a flight is the text of its digits)
    told: Line = {**fields, "flight": str(change.after["flight"])}
    if set(change.fields) - {"alerts"}:
        told["last"] = entry.number
    if entry.command["cmd"] == "report" and change.after["flight"] == entry.command["flight"]:
        told["reported"] = {entry.command["milestone"]: entry.role}
    return told, None


def page_event(entry: Entry, scope: Scope) -> Line | None:
    """What a page is told of an entry: of the flights in sight alone, and only what differs."""
    found = [page_change(change, scope, entry) for change in entry.changes]
    flights = [fields for fields, _ in found if fields is not None]
    gone = [number for _, number in found if number is not None]
    if not flights and not gone:
        return None
    return {"entry": entry.number, "minute": entry.minute, "role": entry.role, "flights": flights, "gone": gone}


def partner_event(entry: Entry, scope: Scope) -> Line | None:
    """What a partner is told of an entry, as the feed has it, of the flights in sight alone."""
    changed = [change.after for change in entry.changes if scope.has(change.after)]
    gone = [
        change.after["flight"]
        for change in entry.changes
        if not scope.has(change.after) and change.before is not None and scope.has(change.before)
    ]
    asked = entry.command.get("flight")
    is_own = scope.is_unbounded or any(record["flight"] == asked for record in changed)
    if not scope.is_unbounded and not changed and not gone:
        return None
    outcome = {"code": entry.code, "name": refusal_name(entry.code)} if entry.code else "ok"
    command = entry.command if is_own else {"cmd": entry.command["cmd"]}
    line: Line = {
        "entry": entry.number,
        "minute": entry.minute,
        "role": entry.role,
        "command": command,
        "outcome": outcome,
    }
    return {**line, "changed": changed, **({"gone": gone} if gone else {})}


class Stream:
    """One listener's events, until he leaves, or takes nothing for 30 seconds."""

    def __init__(self, mirror: Mirror, told: Told, scope: Scope) -> None:
        self.mirror, self.told, self.scope = mirror, told, scope
        self.response = web.StreamResponse(
            headers={"Content-Type": "text/event-stream", "Cache-Control": "no-store", "X-Accel-Buffering": "no"}
        )

    async def write(self, data: bytes) -> None:
        async with asyncio.timeout(STALLED_SECONDS):
            await self.response.write(data)

    def has_news(self, number: int, was_live: bool | None) -> bool:
        """Whether there is something to be told, behind the entries before a number."""
        return self.mirror.next != number or self.mirror.is_live != was_live or self.mirror.is_ended

    async def run(
        self,
        request: web.Request,
        first: tuple[int, str],
        begin_anew: Callable[[], bytes],
        may_go_on: Callable[[], bool],
    ) -> web.StreamResponse:
        """Sends the events from an entry of a journal on; where they are not there any more, what begins anew."""
        await self.response.prepare(request)
        number, journal = first
        was_live: bool | None = None
        try:
            while may_go_on() and not self.mirror.is_ended:
                entries = self.mirror.after(number) if journal == self.mirror.journal else None
                if entries is None:
                    journal, number = self.mirror.journal, self.mirror.next
                    await self.write(begin_anew())
                    continue
                data = b"".join(self.told.text_for(journal, entry, self.scope) for entry in entries)
                number = self.mirror.next
                if was_live != self.mirror.is_live:
                    was_live = self.mirror.is_live
                    data += f"event: board\ndata: {text_of({'is_live': was_live})}\n\n".encode()
                if data:
                    await self.write(data)
                if self.has_news(number, was_live):
                    # (it came while this was written)
                    continue
                await self.mirror.news(BEAT)
                if not self.has_news(number, was_live):
                    await self.write(b": beat\n\n")
        except (ConnectionError, TimeoutError, asyncio.CancelledError):
            if request.transport:
                request.transport.abort()
        return self.response


def last_event(request: web.Request, otherwise: int, journal: str) -> tuple[int, str]:
    """The entry from which a listener goes on, with its journal: where he names none, those that are given."""
    text = str(request.headers.get("Last-Event-ID") or request.query.get("from", ""))
    found = re.fullmatch(r"([0-9]{1,20})(?:\.([0-9a-f]{32}))?", text)
    return (int(found[1]), found[2] or journal) if found else (otherwise, journal)
