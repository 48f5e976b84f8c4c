"""The desk as a whole: its listeners, its lines to the board, and the process in front of partners of lines."""
import asyncio
import contextlib
import json
import logging
import os
import signal
import ssl
import sys
from typing import Any

from aiohttp import web

from feed import Address

from . import TOP, guard
from .accounts import Accounts
from .bound_lines import BoundLines
from .certificates import own_context, partners_context
from .exchange import Exchange, say
from .health import Health
from .ledger import Ledger
from .partners_http import PartnersHttp
from .people import People
from .settings import BadSettings, Settings, read_settings

HEAD = {
    "max_line_size": guard.LONGEST_HEAD_LINE,
    "max_field_size": guard.LONGEST_HEAD_LINE,
    "max_headers": guard.LONGEST_HEAD,
}
FIRST_PAUSE, LONGEST_PAUSE = 0.5, 10.0
FORGETS_EACH = 3600.0
ANSWERS_WITHIN = 5.0
END, AGAIN = "end", "again"
# (what strangers send that is no request is answered, and fills no log of the operator's)
logging.getLogger("aiohttp").setLevel(logging.CRITICAL)


class Desk:  # pylint: disable=too-many-instance-attributes
    """All parts of the desk, from one file of settings."""

    def __init__(self, settings: Settings) -> None:
        self.settings = settings
        self.ledger = Ledger(settings.data, settings.log)
        self.accounts = Accounts(self.ledger.base)
        self.exchange = Exchange(settings, self.ledger)
        self.people = People(settings, self.exchange, self.accounts)
        self.partners = PartnersHttp(settings, self.exchange, self.accounts)
        self.bound = BoundLines(settings, self.exchange)
        self.watches: dict[str, guard.Watch] = {}
        self.health = Health(self.exchange, self.accounts, self.watches)
        self.listening: dict[str, int] = {}
        self.front_ready = asyncio.Event()
        self.front_sessions: dict[int, str] = {}
        self._stack = contextlib.AsyncExitStack()
        self._tasks: list[asyncio.Task[None]] = []

    async def start(self) -> None:
        """Begins to listen, and to follow the board. OSError where an address is taken."""
        settings, ports = self.settings, self.settings.ports
        context = own_context(settings.certificate, settings.key)
        await self.exchange.start()
        await self.listen("people", settings.listen, self.people.app, context)
        if ports and ports.http:
            own = partners_context(settings.certificate, settings.key, ports, is_required=False)
            await self.listen("partners", ports.http, self.partners.app, own)
        if settings.health:
            await self.listen("health", settings.health, lambda _watch: self.health.app(settings.names), None)
        if ports and ports.http:
            self._tasks.append(asyncio.create_task(self.forget_keys()))
        if ports and ports.lines:
            await self.bound.start()
            self._tasks.append(asyncio.create_task(self.keep_front()))

    async def forget_keys(self) -> None:
        """Forgets keys of requests that are too old, now and each hour."""
        while True:
            self.ledger.forget_requests(self.settings.limits.key_days)
            await asyncio.sleep(FORGETS_EACH)

    async def listen(self, name: str, where: Address, make: Any, context: ssl.SSLContext | None) -> None:
        """Listens at an address, with a watch over its connections."""
        watch = self.watches[name] = guard.Watch(self.settings.limits.connections)
        runner = web.AppRunner(make(watch), access_log=None, keepalive_timeout=30, handle_signals=False, **HEAD)
        await runner.setup()
        self._stack.push_async_callback(runner.cleanup)
        assert runner.server
        words: dict[str, Any] = {"ssl_handshake_timeout": guard.HANDSHAKE_SECONDS} if context else {}
        server = await asyncio.get_running_loop().create_server(
            watch.wrap(runner.server), *where, ssl=context, backlog=256, **words
        )
        # (last in, first out: nobody more is let in, who waits for an answer gets it, then all connections end)
        self._stack.callback(watch.end)
        self._stack.push_async_callback(runner.server.shutdown, ANSWERS_WITHIN)
        self._stack.callback(server.close)
        self._tasks.append(asyncio.create_task(watch.run()))
        self.listening[name] = server.sockets[0].getsockname()[1]

    async def keep_front(self) -> None:
        """Keeps the process for partners of lines running."""
        pause, self.health.front = FIRST_PAUSE, self.partners_of_lines()
        while True:
            process = await asyncio.create_subprocess_exec(
                sys.executable,
                str(TOP / "desk" / "desk"),
                "front",
                str(self.settings.path),
                str(self.bound.path),
                stdin=asyncio.subprocess.PIPE,
                stdout=asyncio.subprocess.PIPE,
            )
            try:
                assert process.stdout
                async for line in process.stdout:
                    self.hear_front(json.loads(line))
                    pause = FIRST_PAUSE
            finally:
                self.health.front = self.partners_of_lines()
                if process.returncode is None and process.stdin:
                    # (it may not have come so far that it reads its standard input)
                    process.stdin.close()
                    with contextlib.suppress(ProcessLookupError):
                        process.terminate()
                    await process.wait()
            say(f"the process for partners of lines has ended; the next one begins in {pause:.1f} s")
            await asyncio.sleep(pause)
            pause = min(2 * pause, LONGEST_PAUSE)

    def partners_of_lines(self) -> dict[str, int]:
        """How many clients each partner of lines has, before one has come."""
        return {name: 0 for name, partner in self.settings.partners.items() if partner.lines}

    def hear_front(self, told: dict[str, Any]) -> None:
        """Takes what the process in front tells: who has come, gone, and was refused."""
        event, partner = told.pop("event"), str(told.get("partner"))
        if event == "listens":
            self.listening["lines"] = told["port"]
            self.front_ready.set()
        elif event == "reply":
            asyncio.ensure_future(self.learn_session(partner, int(told["entry"])))
        else:
            if event in ("here", "gone"):
                count = self.health.front.get(partner, 0) + (1 if event == "here" else -1)
                self.health.front[partner] = max(0, count)
            if event == "refused":
                self.ledger.tell_of_stranger("lines: refused", str(told.pop("client", "")), **told)
            else:
                self.ledger.tell(f"lines: {event}", **told)

    async def learn_session(self, partner: str, number: int) -> None:
        """Notes whose session it is that made an entry."""
        mirror = self.exchange.mirror
        if await mirror.reached(number, 5):
            entry = next(iter(mirror.after(number) or ()), None)
            if entry:
                self.exchange.partner_sessions[entry.session] = partner

    async def stop(self) -> None:
        """Ends all: listeners first, then lines and log."""
        self.exchange.mirror.end()
        for task in self._tasks:
            task.cancel()
        await asyncio.gather(*self._tasks, return_exceptions=True)
        await self.bound.stop()
        await self._stack.aclose()
        await self.exchange.stop()
        self.ledger.close()


async def run(settings: Settings) -> int:
    """Runs the desk until SIGTERM or SIGINT. SIGHUP has it begin anew, with what the file of settings says by then."""
    words: asyncio.Queue[str] = asyncio.Queue()
    for number, word in ((signal.SIGTERM, END), (signal.SIGINT, END), (signal.SIGHUP, AGAIN)):
        asyncio.get_running_loop().add_signal_handler(number, words.put_nowait, word)
    while True:
        desk = Desk(settings)
        try:
            await desk.start()
            for name, port in desk.listening.items():
                print(f"listen {name} {port}", flush=True)
            desk.ledger.tell("the desk begins", process=os.getpid())
            following = await next_settings(settings, words)
            desk.ledger.tell("the desk ends", process=os.getpid(), begins_anew=following is not None)
        except (OSError, ssl.SSLError) as error:
            say(str(getattr(error, "strerror", None) or error))
            return 2
        finally:
            await desk.stop()
        if following is None:
            return 0
        settings = following


async def next_settings(settings: Settings, words: asyncio.Queue[str]) -> Settings | None:
    """Waits until the desk is to end, or to begin anew; faulty settings are told, and it goes on with those it has."""
    while await words.get() == AGAIN:
        try:
            found = read_settings(settings.path)
            own_context(found.certificate, found.key)
            if found.ports:
                partners_context(found.certificate, found.key, found.ports, is_required=True)
            return found
        except (BadSettings, OSError, ssl.SSLError) as why:
            say(f"{why}; it goes on as before")
    return None
