"""What keeps strangers and their pages out: names of the host, origins, tokens, headers, sizes, and waits.

Each defence is one function, so that a test can take it away and see the attack come through.
"""
import asyncio
import hmac
import json
import sys
import time
import traceback
from collections import Counter
from collections.abc import Awaitable, Callable
from typing import Any, cast

from aiohttp import web

Handler = Callable[[web.Request], Awaitable[web.StreamResponse]]
HEAD_SECONDS, BODY_SECONDS, STALLED_SECONDS, HANDSHAKE_SECONDS = 10.0, 10.0, 30.0, 5.0
LONGEST_BODY, LONGEST_HEAD_LINE, LONGEST_HEAD = 1 << 17, 4096, 16384
MOST_CONNECTIONS = 2000
COOKIE = "__Host-desk"
POLICY = (
    "default-src 'none'; script-src 'self'; style-src 'self'; connect-src 'self'; img-src 'self';"
    " form-action 'self'; base-uri 'none'; frame-ancestors 'none'"
)
HEADERS = {
    "Content-Security-Policy": POLICY,
    "X-Frame-Options": "DENY",
    "X-Content-Type-Options": "nosniff",
    "Referrer-Policy": "no-referrer",
    "Cross-Origin-Opener-Policy": "same-origin",
    "Cross-Origin-Resource-Policy": "same-origin",
    "Strict-Transport-Security": "max-age=31536000",
    "Permissions-Policy": "camera=(), geolocation=(), microphone=()",
    "Server": "desk",
}


class Refused(Exception):
    """Why a request is not answered: a status of HTTP, and words."""

    def __init__(self, status: int, words: str, **facts: Any) -> None:
        super().__init__(words)
        self.status, self.words, self.facts = status, words, facts


def host_name(text: str) -> str:
    """The host of a field `Host`, without its port."""
    name, colon, port = text.rpartition(":")
    return (name if colon and port.isdigit() and not name.endswith(":") else text).lower()


def is_own_host(request: web.Request, names: tuple[str, ...]) -> bool:
    """Whether the desk was asked for by a name of its own (against DNS rebinding)."""
    return host_name(request.headers.get("Host", "")) in names


def is_own_origin(request: web.Request) -> bool:
    """Whether a page of the desk itself sends the request: of another site it says so in `Origin`."""
    origin = request.headers.get("Origin")
    if origin is not None:
        return origin.lower() == f"https://{request.headers.get('Host', '')}".lower()
    return request.headers.get("Sec-Fetch-Site", "none") in ("same-origin", "none")


def is_navigation(request: web.Request) -> bool:
    """Whether a browser comes here by a link: then the page alone is answered, and `SameSite` keeps the cookie back."""
    return request.method == "GET" and request.headers.get("Sec-Fetch-Mode") == "navigate"


def has_token(request: web.Request, token: str) -> bool:
    """Whether the request has the token of its session, which no page of another site can read."""
    shown = request.headers.get("X-Desk-Token", "").encode("utf-8", "surrogatepass")
    return hmac.compare_digest(shown, token.encode())


def is_json(request: web.Request) -> bool:
    """Whether the body is said to be JSON, which no form of another site can say."""
    return request.content_type == "application/json"


def set_cookie(response: web.StreamResponse, value: str, max_age: int | None = None) -> None:
    """Keeps a session in the browser: by TLS alone, out of the reach of scripts, and not for other sites."""
    response.set_cookie(COOKIE, value, path="/", secure=True, httponly=True, samesite="Strict", max_age=max_age)


def set_headers(response: web.StreamResponse) -> None:
    """The headers of each answer: no frames, no scripts but the desk's own, nothing kept."""
    response.headers.update(HEADERS)
    response.headers.setdefault("Cache-Control", "no-store")


async def body_of(request: web.Request) -> Any:
    """The value that a request has as JSON; Refused where it has none, or is too long or too slow."""
    try:
        async with asyncio.timeout(BODY_SECONDS):
            data = await request.read()
    except TimeoutError:
        raise Refused(408, "the request did not come to its end in time") from None
    try:
        return json.loads(data)
    except (ValueError, RecursionError):
        raise Refused(400, "the request has no JSON") from None


def told(status: int, words: str, **facts: Any) -> web.Response:
    """An answer in words, as JSON."""
    return web.json_response({"words": words, **facts}, status=status)


def outermost(names: tuple[str, ...]) -> Any:
    """What each request goes through first."""

    @web.middleware
    async def guarded(request: web.Request, handler: Handler) -> web.StreamResponse:
        watch = cast("Watch | None", request.app.get("watch"))
        patient = watch.patient_of(request) if watch else None
        if patient:
            patient.begin()
        try:
            if not is_own_host(request, names):
                raise Refused(421, "this is not the desk of that name")
            if not is_own_origin(request) and not is_navigation(request):
                raise Refused(403, "a page of another site asks")
            return await handler(request)
        except Refused as why:
            return told(why.status, why.words, **why.facts)
        except web.HTTPRequestEntityTooLarge:
            return told(413, "the request is too long")
        except web.HTTPException as error:
            if error.status == 303:
                raise
            return told(error.status, error.reason)
        except Exception as error:  # pylint: disable=broad-exception-caught
            print(f"desk: {request.path!r:.80}: {type(error).__name__}: {error!r:.200}", file=sys.stderr, flush=True)
            traceback.print_exc()
            return told(500, "a fault of the desk; what became of this is in the flight's history")
        finally:
            if patient:
                patient.end()

    return guarded


async def on_prepare(_request: web.Request, response: web.StreamResponse) -> None:
    set_headers(response)


class Patient(asyncio.Protocol):
    """A connection whose head has to come in time, and whose answers have to be taken."""

    def __init__(self, inner: asyncio.Protocol, watch: "Watch") -> None:
        self.inner, self.watch = inner, watch
        self.transport: asyncio.Transport | None = None
        self.client = ""
        self.waits_since: float | None = None
        self.unsent, self.unsent_since = 0, 0.0
        self.requests = 0

    def connection_made(self, transport: asyncio.BaseTransport) -> None:
        self.transport = cast(asyncio.Transport, transport)
        peer = transport.get_extra_info("peername")
        self.client, self.waits_since = str(peer[0]) if peer else "", time.monotonic()
        self.inner.connection_made(transport)
        self.watch.add(self)

    def data_received(self, data: bytes) -> None:
        if not self.requests and self.waits_since is None:
            self.waits_since = time.monotonic()
        self.inner.data_received(data)

    def eof_received(self) -> bool | None:
        return self.inner.eof_received()

    def pause_writing(self) -> None:
        self.inner.pause_writing()

    def resume_writing(self) -> None:
        self.inner.resume_writing()

    def connection_lost(self, exc: Exception | None) -> None:
        self.watch.remove(self)
        self.inner.connection_lost(exc)

    def begin(self) -> None:
        self.requests, self.waits_since = self.requests + 1, None

    def end(self) -> None:
        self.requests -= 1

    def is_too_slow(self, moment: float) -> bool:
        """Whether its head does not come, or nothing of what it is sent is taken."""
        if self.waits_since is not None and moment - self.waits_since > HEAD_SECONDS:
            return True
        unsent = self.transport.get_write_buffer_size() if self.transport else 0
        if not unsent or unsent < self.unsent:
            self.unsent_since = moment
        self.unsent = unsent
        return moment - self.unsent_since > STALLED_SECONDS

    def abort(self) -> None:
        if self.transport:
            self.transport.abort()


class Watch:
    """All connections of a listener: how many there are of each client, and which are too slow."""

    def __init__(self, most_of_one: int) -> None:
        self.most_of_one = most_of_one
        self.connections: dict[int, Patient] = {}
        self.of_client: Counter[str] = Counter()
        self.let_go = 0
        self.has_ended = False

    def wrap(self, make: Callable[[], asyncio.BaseProtocol]) -> Callable[[], asyncio.BaseProtocol]:
        return lambda: Patient(cast(asyncio.Protocol, make()), self)

    def add(self, patient: Patient) -> None:
        patient.unsent_since = time.monotonic()
        self.connections[id(patient.inner)] = patient
        self.of_client[patient.client] += 1
        if self.has_ended:
            patient.abort()
        elif self.is_full(patient.client):
            self.let_go += 1
            patient.abort()

    def end(self) -> None:
        """Ends all connections, and those whose handshake comes to its end later."""
        self.has_ended = True
        for patient in list(self.connections.values()):
            patient.abort()

    def is_full(self, client: str) -> bool:
        return len(self.connections) > MOST_CONNECTIONS or self.of_client[client] > self.most_of_one

    def remove(self, patient: Patient) -> None:
        if self.connections.pop(id(patient.inner), None):
            self.of_client[patient.client] -= 1
            if not self.of_client[patient.client]:
                del self.of_client[patient.client]

    def patient_of(self, request: web.Request) -> Patient | None:
        return self.connections.get(id(request.protocol))

    async def run(self) -> None:
        """Lets go who is too slow, until it is cancelled."""
        while True:
            await asyncio.sleep(1)
            moment = time.monotonic()
            for patient in list(self.connections.values()):
                if patient.is_too_slow(moment):
                    self.let_go += 1
                    patient.abort()
