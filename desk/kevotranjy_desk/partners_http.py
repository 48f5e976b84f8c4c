"""HTTP for partners: lines, flights, history, alerts and events below /v1, by certificate or bearer token.

What is answered is written down as OpenAPI 3 in docs/schema/desk.json, against which the running program is tried.
"""
import asyncio
import hashlib
import json
import re
import ssl
from typing import Any

from aiohttp import web

from feed import words_of
from . import guard, streams
from .accounts import Accounts
from .board_line import Answer, Away, Unanswered
from .certificates import holder_of, partner_with
from .entering import flight_number
from .exchange import AWAY, Exchange, partner_line
from .guard import Refused
from .ledger import FOUND, REPLIED, SENT, Author, Written
from .rates import Rate
from .records import alerted, shown_record, unloaded
from .rights import Rights, refusal, rights_of
from .settings import Partner, Settings
from .streams import Stream, Told, partner_event, text_of
from .wording import event_of, refusal_name, refusal_words

MOST_LINES = 100
KEY = re.compile(r"[!-~]{1,200}", re.ASCII)
NDJSON = "application/x-ndjson"
# What the desk itself answers in place of the board: the name of the outcome, and the status of HTTP.
STATUS = {"not_yours": 403, "away": 503, "unanswered": 504, "too_many": 429}


def own_outcome(name: str, words: str) -> dict[str, Any]:
    """A line that the board did not answer: by the desk's own word, which has no number."""
    return {"entry": None, "outcome": {"code": None, "name": name, "words": words}}


def reply_object(text: str, rights: Rights, sees_flight: Any) -> dict[str, Any]:
    """A reply of the board as an object."""
    answer = Answer(text)
    if answer.code:
        code = answer.code
        outcome = {"code": code, "name": refusal_name(code), "words": refusal_words(code)}
        words = text.split()
        if words[0] == "bad" and len(words) == 3:
            outcome["slot"] = int(words[2])
        return {"entry": answer.entry, "outcome": outcome}
    found: dict[str, Any] = {"entry": answer.entry, "outcome": "ok"}
    kind, _, rest = (*text.split(" ", 2), "")[:3]
    if kind == "rec":
        found["record"] = shown_record(rest)
    elif kind == "alerts":
        flights = alerted(rest)
        found["alerts"] = flights if rights.see.is_unbounded else [it for it in flights if sees_flight(it["flight"])]
    elif kind == "migrated":
        found["unloaded"] = unloaded(rest)
    return found


class PartnersHttp:
    """What partners ask by HTTP."""

    def __init__(self, settings: Settings, exchange: Exchange, accounts: Accounts) -> None:
        self.settings, self.exchange, self.accounts = settings, exchange, accounts
        self.mirror, self.ledger = exchange.mirror, exchange.ledger
        self.lines_rate = Rate(settings.limits.partner_lines)
        self.refused_rate = Rate(settings.limits.sign_ins * 6)
        self.told = Told(partner_event)
        self.under_way: set[tuple[str, str]] = set()
        self.turns: dict[str, asyncio.Lock] = {}

    def app(self, watch: guard.Watch) -> web.Application:
        """The routes."""
        app = web.Application(middlewares=[guard.outermost(self.settings.names)], client_max_size=1 << 20)
        app["watch"] = watch
        app.on_response_prepare.append(guard.on_prepare)
        app.add_routes(
            [
                web.post("/v1/lines", self.lines),
                web.get("/v1/flights", self.flights),
                web.get("/v1/flights/{flight}", self.flight),
                web.get("/v1/flights/{flight}/history", self.history),
                web.get("/v1/alerts", self.alerts),
                web.get("/v1/events", self.events),
            ]
        )
        return app

    def partner_of(self, request: web.Request) -> Partner:
        """Who asks, by his certificate or his token; Refused where neither is known."""
        connection: ssl.SSLObject | None = request.get_extra_info("ssl_object")
        shown = holder_of(connection) if connection else None
        partner = partner_with(shown, self.settings) if shown else None
        kind, _, token = request.headers.get("Authorization", "").partition(" ")
        if partner is None and kind.lower() == "bearer" and len(token) < 200:
            partner = self.settings.partners.get(self.accounts.partner_of(token) or "")
        if partner is None:
            if not self.refused_rate.takes(request.remote or ""):
                raise Refused(429, "too many trials: wait a minute")
            name = shown.name if shown else None
            self.ledger.tell_of_stranger("refused by HTTP", request.remote or "", certificate=name)
            raise Refused(401, "a certificate or a bearer token of a partner is asked for")
        return partner

    async def commands_of(self, request: web.Request) -> tuple[list[Any], bool, bytes]:
        """The objects that were sent, whether they are many, and the bytes of the request."""
        try:
            async with asyncio.timeout(guard.BODY_SECONDS):
                data = await request.read()
        except TimeoutError:
            raise Refused(408, "the request did not come to its end in time") from None
        try:
            if request.content_type == NDJSON:
                found: Any = [json.loads(line) for line in data.split(b"\n") if line.strip()]
            elif guard.is_json(request):
                found = json.loads(data)
            else:
                raise Refused(415, f"what is sent has to be application/json or {NDJSON}")
            json.dumps(found, allow_nan=False)
        except (ValueError, RecursionError):
            raise Refused(400, "the request has no JSON") from None
        commands = found if isinstance(found, list) else [found]
        if not 1 <= len(commands) <= MOST_LINES or not all(isinstance(it, dict) for it in commands):
            raise Refused(400, f"an object is asked for, or a list of 1 to {MOST_LINES} of them")
        return commands, isinstance(found, list), data

    async def lines(self, request: web.Request) -> web.Response:
        """Sends lines, and answers each with an object; with a key that was used, by the first reply."""
        partner = self.partner_of(request)
        if not partner.http:
            raise Refused(403, "this partner sends no lines by HTTP")
        commands, is_list, data = await self.commands_of(request)
        key = request.headers.get("Idempotency-Key")
        if key is not None and not KEY.fullmatch(key):
            raise Refused(400, "the key has 1 to 200 letters, digits or signs, and no space")
        if key is None:
            replies = await self.answered(partner, request, commands, None, {})
        else:
            replies = await self.answered_once(partner, request, commands, key, data)
        failed = [it for it in replies if isinstance(it["outcome"], dict) and it["outcome"]["code"] is None]
        status = 200
        if len(failed) == len(replies):
            status = STATUS[failed[0]["outcome"]["name"]]
        return web.json_response({"replies": replies} if is_list else replies[0], status=status)

    async def answered_once(
        self, partner: Partner, request: web.Request, commands: list[Any], key: str, data: bytes
    ) -> list[dict[str, Any]]:
        """Replies to a request with a key: those lines that have one keep it, the others are sent."""
        digest = hashlib.sha256(data).hexdigest()
        known = self.ledger.request_of(partner.name, key)
        if known is not None and known != digest:
            raise Refused(422, "the key was used with another request")
        if (partner.name, key) in self.under_way:
            raise Refused(409, "a request with this key is under way")
        self.under_way.add((partner.name, key))
        try:
            if known is None:
                self.ledger.note_request(partner.name, key, digest)
            before = self.ledger.lines_of_request(partner.name, key)
            return await self.answered(partner, request, commands, key, before)
        finally:
            self.under_way.discard((partner.name, key))

    async def answered(
        self, partner: Partner, request: web.Request, commands: list[Any], key: str | None, before: dict[int, Written]
    ) -> list[dict[str, Any]]:
        """The reply to each line, in order; after one that was not answered the others are not sent."""
        replies: list[dict[str, Any]] = []
        author, address, rights = (
            Author(partner.name, "partner", request.remote or ""),
            partner_line(partner.name),
            rights_of(partner),
        )
        stopped: dict[str, Any] | None = None
        async with self.turns.setdefault(partner.name, asyncio.Lock()):
            for place, command in enumerate(commands):
                reply = self.known_reply(before.get(place), rights) or stopped
                if reply is None:
                    reply = await self.sent(author, address, rights, command, (key, place) if key else None)
                    if isinstance(reply["outcome"], dict) and reply["outcome"]["name"] in (
                        "away",
                        "unanswered",
                        "too_many",
                    ):
                        stopped = own_outcome("away", AWAY) if reply["outcome"]["name"] != "too_many" else reply
                replies.append(reply)
        return replies

    def known_reply(self, line: Written | None, rights: Rights) -> dict[str, Any] | None:
        """The reply that a line of an earlier request had."""
        if line is None:
            return None
        if line.state == SENT:
            return own_outcome("unanswered", "the line was sent, and what became of it is looked for: ask again")
        if line.state in (REPLIED, FOUND) and line.reply:
            return reply_object(line.reply, rights, lambda number: rights.sees(self.mirror.flight(number)))
        return None

    async def sent(
        self, author: Author, address: str, rights: Rights, command: dict[str, Any], request: tuple[str, int] | None
    ) -> dict[str, Any]:
        """The reply to a line that is sent now, where that is this partner's to send."""
        why = refusal(rights, command, self.mirror)
        if why:
            self.ledger.tell("not sent", who=author.name, client=author.client, line=command, why=why)
            return own_outcome("not_yours", why)
        if not self.lines_rate.takes(author.name):
            return own_outcome("too_many", "too many lines: wait a moment")
        try:
            answer = await self.exchange.send(author, address, command, request)
        except Away:
            return own_outcome("away", AWAY)
        except Unanswered as unanswered:
            return own_outcome("unanswered", str(unanswered))
        return reply_object(answer.text, rights, lambda number: rights.sees(self.mirror.flight(number)))

    async def flights(self, request: web.Request) -> web.Response:
        """All flights in sight, by the names of the feed."""
        rights = rights_of(self.partner_of(request))
        found = [record for record in self.mirror.board.flights.values() if rights.sees(record)]
        return self.told_of(found, "flights")

    def told_of(self, found: Any, name: str) -> web.Response:
        value = {"next": self.mirror.next, "is_live": self.mirror.is_live, name: found}
        return web.json_response(value)

    async def flight(self, request: web.Request) -> web.Response:
        rights, number = rights_of(self.partner_of(request)), flight_number(request.match_info["flight"])
        record = self.mirror.flight(number)
        if not rights.sees(record):
            raise Refused(404, "no such flight")
        return self.told_of(record, "flight")

    async def history(self, request: web.Request) -> web.Response:
        """What became of a flight: each entry, by whom as far as this is his own desk."""
        partner, number = self.partner_of(request), flight_number(request.match_info["flight"])
        if not rights_of(partner).sees(self.mirror.flight(number)):
            raise Refused(404, "no such flight")
        entries = self.mirror.events_of(number)
        who = self.ledger.who(self.mirror.journal, [entry.number for entry in entries])
        # (people are named to the desk's own people alone; a partner knows himself)
        named = {entry: name for entry, name in who.items() if name == partner.name}
        return self.told_of([event_of(entry, number, named.get(entry.number)) for entry in entries], "events")

    async def alerts(self, request: web.Request) -> web.Response:
        rights = rights_of(self.partner_of(request))
        found = [
            {
                "flight": record["flight"],
                "callsign": record["callsign"],
                "alerts": [{"name": name, "words": words_of(name)} for name in record["alerts"]],
            }
            for record in self.mirror.board.flights.values()
            if record["alerts"] and rights.sees(record)
        ]
        return self.told_of(found, "flights")

    async def events(self, request: web.Request) -> web.StreamResponse:
        """The board first, then each entry as it comes; or those from `Last-Event-ID` on."""
        partner = self.partner_of(request)
        mirror = self.mirror
        first = streams.last_event(request, -1, mirror.journal)

        def whole_board() -> bytes:
            flights = [record for record in mirror.board.flights.values() if partner.see.has(record)]
            value = {"journal": mirror.journal, "next": mirror.next, "room": mirror.room, "flights": flights}
            return f"id: {streams.place_text(mirror.next, mirror.journal)}\ndata: {text_of(value)}\n\n".encode()

        stream = Stream(mirror, self.told, partner.see)
        return await stream.run(request, first, whole_board, lambda: True)
