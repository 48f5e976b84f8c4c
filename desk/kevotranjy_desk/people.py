"""The desk in the browser: signing in, the board, what a person enters, and what became of a flight."""
import gzip
import ipaddress
from pathlib import Path
from typing import Any

from aiohttp import web

from feed import Line
from words import ROLES

from . import guard, streams
from .accounts import Accounts, Session
from .board_line import Away, Unanswered
from .entering import command_of, flight_number, milestones_of
from .exchange import AWAY, Exchange
from .guard import Refused
from .ledger import Author, now
from .mirror import Entry
from .rates import Rate
from .rights import MAY_ONLY_LOOK, Rights, refusal
from .scopes import NONE, Scope
from .settings import NOBODY, Person, Settings
from .streams import Stream, Told, page_event, text_of
from .wording import answer_words, event_of, page_words, refusal_name, refusal_words

PAGES = Path(__file__).resolve().parent / "pages"
KINDS = {".html": "text/html", ".css": "text/css", ".js": "text/javascript", ".svg": "image/svg+xml"}
LAG = 1.0


class People:
    """What people ask of the desk, and what it answers."""

    def __init__(self, settings: Settings, exchange: Exchange, accounts: Accounts) -> None:
        self.settings, self.exchange, self.accounts = settings, exchange, accounts
        self.mirror, self.ledger = exchange.mirror, exchange.ledger
        self.lines = Rate(settings.limits.lines)
        self.sign_ins = Rate(settings.limits.sign_ins)
        self.names = Rate(2 * settings.limits.sign_ins)
        self.told = Told(page_event)
        self.boards: dict[tuple[Scope, Scope], tuple[tuple[str, int, bool], bytes]] = {}
        self.texts: dict[int, tuple[Line, int, str]] = {}
        self.files = {file.name: file.read_text(encoding="utf-8") for file in PAGES.iterdir() if file.suffix in KINDS}

    def app(self, watch: guard.Watch) -> web.Application:
        """The routes."""
        app = web.Application(middlewares=[guard.outermost(self.settings.names)], client_max_size=guard.LONGEST_BODY)
        app["watch"] = watch
        app.on_response_prepare.append(guard.on_prepare)
        app.add_routes(
            [
                web.get("/", self.page),
                web.get("/{name:desk\\.css|desk\\.js|sign-in\\.js|icon\\.svg}", self.file),
                web.get("/words.js", self.words),
                web.get("/sign-in", self.sign_in_page),
                web.post("/sign-in", self.sign_in),
                web.post("/sign-out", self.sign_out),
                web.get("/me", self.about_me),
                web.get("/board", self.board),
                web.get("/events", self.events),
                web.get("/flights/{flight}/history", self.history),
                web.post("/enter", self.enter),
            ]
        )
        return app

    def _answer_file(self, name: str) -> web.Response:
        return web.Response(text=self.files[name], content_type=KINDS[Path(name).suffix], charset="utf-8")

    async def file(self, request: web.Request) -> web.Response:
        return self._answer_file(request.match_info["name"])

    async def words(self, _request: web.Request) -> web.Response:
        return web.Response(text=page_words(), content_type="text/javascript", charset="utf-8")

    async def sign_in_page(self, _request: web.Request) -> web.Response:
        return self._answer_file("sign-in.html")

    async def page(self, request: web.Request) -> web.StreamResponse:
        """The desk, for who has signed in; a page that asks for name and password for others."""
        if self.session_of(request):
            return self._answer_file("desk.html")
        name = self.named_by_proxy(request)
        if name is None:
            raise web.HTTPSeeOther("/sign-in")
        response = self._answer_file("desk.html")
        key, session = self.accounts.begin(name)
        guard.set_cookie(response, key)
        self.ledger.tell("signed in", who=session.name, client=request.remote, by="the single sign-on")
        return response

    def named_by_proxy(self, request: web.Request) -> str | None:
        """Who has signed in at the airport's single sign-on, where a proxy that may say so does."""
        sign_on = self.settings.sign_on
        if sign_on is None or request.remote is None:
            return None
        if not any(ipaddress.ip_address(request.remote) in network for network in sign_on.proxies):
            return None
        named: list[str] = request.headers.getall(sign_on.header, [])
        return named[0] if len(named) == 1 and named[0] in self.settings.people else None

    def session_of(self, request: web.Request) -> Session | None:
        """The session of the browser that asks, where somebody has signed in who is still known."""
        session = self.accounts.session_of(request.cookies.get(guard.COOKIE, ""))
        return session if session and session.name in self.settings.people else None

    def signed_in(self, request: web.Request) -> tuple[Person, Session]:
        """Who asks; Refused where nobody has signed in."""
        session = self.session_of(request)
        if session is None:
            raise Refused(401, "sign in first")
        return self.settings.people[session.name], session

    def changing(self, request: web.Request) -> tuple[Person, Session]:
        """Who asks to change something: with the token of his page, and as JSON."""
        person, session = self.signed_in(request)
        if not guard.is_json(request):
            raise Refused(415, "what is sent has to be JSON")
        if not guard.has_token(request, session.token):
            raise Refused(403, "the page is of another session: load it again")
        return person, session

    def rights_of(self, person: Person) -> Rights:
        return Rights(person.role, person.see, person.send)

    async def sign_in(self, request: web.Request) -> web.Response:
        """Begins a session for name, password and second factor."""
        if not guard.is_json(request):
            raise Refused(415, "what is sent has to be JSON")
        asked = await guard.body_of(request)
        name, password, code = (
            (asked.get(key) if isinstance(asked, dict) else None) for key in ("name", "password", "code")
        )
        if not isinstance(name, str) or not isinstance(password, str) or not isinstance(code or "", str):
            raise Refused(400, "name, password and code are texts")
        client = request.remote or ""
        if not self.sign_ins.takes(client) or not self.names.takes(name[:40]):
            self.ledger.tell_of_stranger("too many trials to sign in", client, who=name[:40])
            raise Refused(429, "too many trials: wait a minute")
        person = self.settings.people.get(name)
        needs, known = bool(person and person.has_second_factor), person.name if person else ""
        if not await self.accounts.is_right(known, password, str(code or ""), needs) or person is None:
            self.ledger.tell_of_stranger("refused to sign in", client, who=name[:40])
            raise Refused(401, "name, password or code is not right")
        key, session = self.accounts.begin(name)
        response = guard.told(200, "signed in")
        guard.set_cookie(response, key)
        self.ledger.tell("signed in", who=session.name, client=client)
        return response

    async def sign_out(self, request: web.Request) -> web.Response:
        person, session = self.changing(request)
        self.accounts.end(session)
        self.ledger.tell("signed out", who=person.name, client=request.remote)
        response = guard.told(200, "signed out")
        guard.set_cookie(response, "", max_age=0)
        return response

    async def about_me(self, request: web.Request) -> web.Response:
        """Who has signed in, and what he may enter."""
        person, session = self.signed_in(request)
        return web.json_response(
            {
                "name": person.name,
                "role": person.role,
                "role_words": ROLES.get(person.role, "may only look"),
                "token": session.token,
                "milestones": milestones_of(person.role) if person.send != NONE else [],
                "may_schedule": person.role == "APT" and person.send != NONE,
                "may_deice": person.role == "DIC" and person.send != NONE,
                "is_bounded": not (person.see.is_unbounded and person.send.is_unbounded),
                "now": now(),
            }
        )

    async def board(self, request: web.Request) -> web.Response:
        """All flights that this person sees, each with its last entry and whether he sends for it."""
        person, _ = self.signed_in(request)
        response = web.Response(body=self._board_text(person), content_type="application/json", charset="utf-8")
        if "gzip" in request.headers.get("Accept-Encoding", ""):
            response = web.Response(body=self._board_zipped(person), content_type="application/json", charset="utf-8")
            response.headers["Content-Encoding"] = "gzip"
        return response

    def _board_zipped(self, person: Person) -> bytes:
        """The board as it is sent, made once for all who see and send the same."""
        key, state = (person.see, person.send), (self.mirror.journal, self.mirror.next, self.mirror.is_live)
        known = self.boards.get(key)
        if known is None or known[0] != state:
            known = self.boards[key] = state, gzip.compress(self._board_text(person), 1)
        return known[1]

    def _board_text(self, person: Person) -> bytes:
        mirror, rights = self.mirror, self.rights_of(person)
        seen = [record for record in mirror.board.flights.values() if rights.sees(record)]
        others = [] if rights.send.is_unbounded else [str(it["flight"]) for it in seen if not rights.sends_for(it)]
        place = streams.place_text(mirror.next, mirror.journal)
        head = text_of({"next": mirror.next, "place": place, "is_live": mirror.is_live, "others": others})
        return f'{head[:-1]},"flights":[{",".join(map(self._record_text, seen))}]}}'.encode()

    def _record_text(self, record: Line) -> str:
        """A record as the page has it, made once while it stays."""
        number, last = record["flight"], self.mirror.last_of(record["flight"])
        known = self.texts.get(number)
        if known is None or known[0] is not record or known[1] != last:
            known = self.texts[number] = (
                record,
                last,
                text_of({**record, "flight": str(number), "last": last, "reported": self.mirror.reported_of(number)}),
            )
        return known[2]

    async def events(self, request: web.Request) -> web.StreamResponse:
        """The entries as they come, of the flights that this person sees."""
        person, session = self.signed_in(request)
        first = streams.last_event(request, self.mirror.next, self.mirror.journal)
        key = request.cookies.get(guard.COOKIE, "")

        def may_go_on() -> bool:
            return self.accounts.session_of(key) == session

        def begin_anew() -> bytes:
            return b"event: anew\ndata: {}\n\n"

        stream = Stream(self.mirror, self.told, person.see)
        return await stream.run(request, first, begin_anew, may_go_on)

    async def history(self, request: web.Request) -> web.Response:
        """What became of a flight: each entry with its person, and why it was refused."""
        person, _ = self.signed_in(request)
        number = flight_number(request.match_info["flight"])
        if not self.rights_of(person).sees(self.mirror.flight(number)):
            raise Refused(404, "no such flight")
        return web.json_response({"events": self.events_of(number, self.mirror.events_of(number))})

    def events_of(self, number: int, entries: list[Entry]) -> list[dict[str, Any]]:
        who, partners = (
            self.ledger.who(self.mirror.journal, [it.number for it in entries]),
            self.exchange.partner_sessions,
        )
        return [event_of(it, number, who.get(it.number) or partners.get(it.session)) for it in entries]

    async def enter(self, request: web.Request) -> web.Response:
        """Sends what a person enters, where nothing has changed since he looked."""
        person, _ = self.changing(request)
        asked = await guard.body_of(request)
        command = command_of(asked, self.mirror)
        author = Author(person.name, "person", request.remote or "")
        why = MAY_ONLY_LOOK if person.role == NOBODY else refusal(self.rights_of(person), command, self.mirror)
        if why:
            self.ledger.tell("not sent", who=person.name, client=request.remote, line=command, why=why)
            raise Refused(403, why)
        if self.exchange.is_away(person.role):
            raise Refused(503, AWAY)
        self.refuse_unseen(command["flight"], asked.get("seen"))
        last = self.mirror.last_of(command["flight"])
        if not self.lines.takes(person.name):
            raise Refused(429, "too many lines: wait a moment")
        try:
            answer = await self.exchange.send(author, person.role, command)
        except Away as away:
            raise Refused(503, AWAY) from away
        except Unanswered as unanswered:
            raise Refused(504, str(unanswered)) from unanswered
        facts: dict[str, Any] = {"entry": answer.entry, "reply": answer.text.split(" ", 2)[:2]}
        if answer.code:
            facts |= {"code": answer.code, "name": refusal_name(answer.code), "why": refusal_words(answer.code)}
        if answer.entry is not None and await self.mirror.reached(answer.entry, LAG):
            # (what came in between could not be asked about any more: it is told)
            events = self.mirror.events_of(command["flight"])
            between = [it for it in events if last < it.number < answer.entry and it.changes]
            facts["between"] = self.events_of(command["flight"], between)
        return guard.told(200, answer_words(command, answer), is_accepted=answer.is_accepted, **facts)

    def refuse_unseen(self, number: int, seen: Any) -> None:
        """Refuses what is entered for a flight that has changed since the person looked, and says what has."""
        last = self.mirror.last_of(number)
        if not isinstance(seen, int) or isinstance(seen, bool):
            raise Refused(400, "it is not said which entry was seen last")
        if last > seen:
            since = [entry for entry in self.mirror.events_of(number) if entry.number > seen and entry.changes]
            events = self.events_of(number, since)
            raise Refused(409, "the flight has changed since you looked", events=events, last=last)
