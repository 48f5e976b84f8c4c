#!/usr/bin/env python3
"""Has pages of other sites attack a running board in headless Chromium: its partners, control address and page.

    /usr/bin/python3 bench/web/strangers.py [--program PATH]

It needs Debian's chromium and nothing else. A page at another port of 127.0.0.1, and one at a name that leads there
and counts as of the public internet, send lines by forms, `fetch`, beacons, images, frames, WebSockets and TLS, and
try to read the board's page and events. A third site comes to be the board's own address under another name (DNS
rebinding). Each attempt goes through a relay, which holds what Chromium sent and what the board answered. No entry
may be made, no partner lose its place, and nothing of the board be read; its own page works as before. Chromium's
checks of the local network are turned off, but for one page more. What Chromium does not send is printed, and judged
by what was read alone. The last line is `N cases, M failed`; status 1 where one failed.
"""

import contextlib
import dataclasses
import functools
import html
import http.server
import json
import os
import pathlib
import queue
import re
import shutil
import signal
import socket
import subprocess
import sys
import tempfile
import threading
import time
from collections.abc import Callable, Iterator

sys.path.append(str(pathlib.Path(__file__).resolve().parents[1] / "hostile"))
from cases import PLAN, SCHEDULE, Cases, words  # noqa: E402 pylint: disable=import-error,wrong-import-position

HERE = "127.0.0.1"
BOARD_NAME, OTHER_SITE, REBOUND = "board.example", "elsewhere.test", "rebind.test"
CALLSIGN = b'"DLH7"'
TICK = '{"cmd":"tick"}'
# Bodies as a form sends them: a name, `=` and a value.
TICK_FORM, CLOSE_FORM = '{"cmd":"tick","x":"="}', "x=\nclose\n"
HEAD = b"HTTP/1.1 200 OK\r\nContent-Type: text/html\r\nConnection: close\r\n\r\n"
NO_COMMAND, UNKNOWN = b"bad 101\n", b"unknown\n"
# All that is told under another name, which is the same of each board.
NO_NAME = "This board has no such name. Its operator gives names by --web-name.\n"

NAMES = [f"MAP {name} {HERE}" for name in (BOARD_NAME, OTHER_SITE, REBOUND)]
FLAGS = [
    "--headless=new",
    "--no-sandbox",
    "--disable-gpu",
    "--no-first-run",
    "--disable-background-networking",
    "--disable-component-update",
    "--disable-breakpad",
    f"--host-resolver-rules={','.join([*NAMES, 'MAP * ~NOTFOUND', f'EXCLUDE {HERE}', 'EXCLUDE localhost'])}",
]
LOCAL_CHECKS_OFF = (
    "--disable-features=HttpsUpgrades,LocalNetworkAccessChecks,LocalNetworkAccessChecksWebSockets,"
    "BlockInsecurePrivateNetworkRequests"
)
LOCAL_CHECKS_ON = "--disable-features=HttpsUpgrades"

# Each kind of attempt takes an address and a body, and comes to the text that the page could read. Attempts begin one
# after the other, so that few wait at an address at once.
ATTACK = """<!DOCTYPE html><title>another site</title><body><script>
const pause = (time) => new Promise((done) => setTimeout(done, time));
const add = (tag, fields, parent = document.body) => {
  return parent.appendChild(Object.assign(document.createElement(tag), fields));
};
const framed = async (frame) => {
  await pause(2000);
  return frame.contentDocument.documentElement.innerText;
};
const streamed = async (answer) => {
  if (!answer.body) return "";
  const part = await answer.body.getReader().read();
  return new TextDecoder().decode(part.value);
};
const heard = (target, names) => new Promise((done) => {
  for (const name of names) target.addEventListener(name, (event) => done(event.data || name));
  target.addEventListener("error", () => done(""));
});
const kinds = {
  form: (url, body) => {
    const at = body.indexOf("="), frame = add("iframe", {name: url});
    const form = add("form", {action: url, method: "post", enctype: "text/plain", target: url});
    add("textarea", {name: body.slice(0, at), value: body.slice(at + 1)}, form);
    form.submit();
    return framed(frame);
  },
  post: async (url, body) => streamed(await fetch(url, {method: "POST", mode: "no-cors", body})),
  typed: async (url, body) => {
    return streamed(await fetch(url, {method: "POST", headers: {"Content-Type": "application/json"}, body}));
  },
  beacon: async (url, body) => (navigator.sendBeacon(url, body), ""),
  image: (url) => heard(add("img", {src: url}), ["load"]),
  script: (url) => heard(add("script", {src: url}), ["load"]),
  frame: (url) => framed(add("iframe", {src: url})),
  socket: (url) => heard(new WebSocket(url.replace("http", "ws")), ["open", "message"]),
  events: (url) => heard(new EventSource(url), ["open", "message"]),
  read: async (url) => streamed(await fetch(url)),
  blind: async (url) => streamed(await fetch(url, {mode: "no-cors"})),
  request: (url) => {
    const request = new XMLHttpRequest(), answer = heard(request, ["progress", "load"]);
    request.open("GET", url);
    request.send();
    return answer.then((name) => name && request.responseText);
  },
};
const one = async ([kind, url, body], index) => {
  await pause(50 * index);
  try {
    return await Promise.race([kinds[kind](url, body), pause(3000).then(() => "")]);
  } catch {
    return "";
  }
};
(async () => {
  const texts = await Promise.all(ATTEMPTS.map(one));
  await fetch("REPORT", {method: "POST", mode: "no-cors", body: JSON.stringify(texts)});
})();
</script>"""


@dataclasses.dataclass
class Conversation:
    """What a browser sent by one connection, and what it was answered."""

    sent: bytearray
    answered: bytearray


def pump(source: socket.socket, target: socket.socket, seen: bytearray) -> None:
    """Passes on what comes, to its end."""
    try:
        while piece := source.recv(65_536):
            seen.extend(piece)
            target.sendall(piece)
        target.shutdown(socket.SHUT_WR)
    except OSError:
        for side in (source, target):
            with contextlib.suppress(OSError):
                side.shutdown(socket.SHUT_RDWR)


class Relay:
    """Passes connections on to an address of the board, and holds what was said. One that has a page is the server of
    that page as well, as what a name led to before it led to the board."""

    def __init__(self, target: int) -> None:
        self.target = target
        self.page = b""
        self.conversations: list[Conversation] = []
        self.server = socket.create_server((HERE, 0))
        self.port: int = self.server.getsockname()[1]
        threading.Thread(target=self.accept, daemon=True).start()

    def accept(self) -> None:
        while True:
            browser, _ = self.server.accept()
            threading.Thread(target=self.carry, args=(browser,), daemon=True).start()

    def carry(self, browser: socket.socket) -> None:
        with contextlib.suppress(OSError), browser:
            first = browser.recv(65_536) if self.page else b""
            if first.startswith(b"GET /attack "):
                browser.sendall(HEAD + self.page)
                return
            conversation = Conversation(bytearray(first), bytearray())
            self.conversations.append(conversation)
            with socket.create_connection((HERE, self.target)) as board:
                board.sendall(first)
                back = threading.Thread(target=pump, args=(board, browser, conversation.answered), daemon=True)
                back.start()
                pump(browser, board, conversation.sent)
                back.join()

    def said(self) -> list[tuple[bytes, bytes]]:
        """What was sent and answered by each connection that was used."""
        return [(bytes(one.sent), bytes(one.answered)) for one in self.conversations if one.sent]

    def answers(self) -> list[bytes]:
        return [answer for _, answer in self.said()]

    def has_answered(self, text: bytes) -> bool:
        return any(text in answer for answer in self.answers())

    def is_answered(self) -> bool:
        answers = self.answers()
        return bool(answers) and all(answers)


@dataclasses.dataclass
class Attempt:
    """One attempt of a page at an address of the board. Each answer begins with ANSWER, which is all of it at the
    addresses that take lines."""

    kind: str
    place: str
    relay: Relay
    body: str
    answer: bytes
    path: str = "/"
    scheme: str = "http"

    def name(self) -> str:
        path = "" if self.path == "/" else f" of {self.path}"
        return f"{self.kind}{path}{' by TLS' if self.scheme == 'https' else ''} at {self.place}"

    def words(self) -> tuple[str, str, str]:
        """What its page is given."""
        return self.kind, f"{self.scheme}://{HERE}:{self.relay.port}{self.path}", self.body

    def is_settled(self) -> bool:
        """Whether there is nothing to wait for. What TLS says may hold no whole line."""
        return not self.relay.said() or self.relay.is_answered() or self.scheme == "https"

    def is_answered_well(self) -> bool:
        answers = self.relay.answers()
        if self.answer.startswith(b"HTTP"):
            return all(answer.startswith(self.answer) for answer in answers)
        return all(answer == self.answer or (self.scheme == "https" and not answer) for answer in answers)


def free_port() -> int:
    with socket.create_server((HERE, 0)) as server:
        port: int = server.getsockname()[1]
        return port


class Board:
    """A board with a page, a control address, and addresses of the airport and the network manager."""

    def __init__(self, program: pathlib.Path, *options: str) -> None:
        self.control, self.web = free_port(), free_port()
        command = [str(program), "serve", "--again", "--control", str(self.control), "--web", f"{HERE}:{self.web}"]
        command += [*options, f"APT={HERE}:0", f"NM={HERE}:0"]
        self.process = subprocess.Popen(  # pylint: disable=consider-using-with
            command, stdin=subprocess.DEVNULL, stdout=subprocess.PIPE, stderr=subprocess.PIPE, text=True
        )
        assert self.process.stdout
        listening = [self.process.stdout.readline() for _ in range(2)]
        self.ports = [int(line.rsplit(":", 1)[1]) for line in listening if line]
        self.entries = 0

    def __enter__(self) -> "Board":
        return self

    def __exit__(self, *_: object) -> None:
        if self.process.poll() is None:
            self.process.kill()
        self.process.communicate()

    def connect(self, place: int) -> socket.socket:
        return socket.create_connection((HERE, self.ports[place]), timeout=5)

    def ask(self, line: str) -> str:
        """What the control address answers."""
        answer = b""
        with contextlib.suppress(OSError), socket.create_connection((HERE, self.control), timeout=5) as caller:
            caller.sendall(line.encode() + b"\n")
            while b"closing\n" not in answer and b"last " not in answer and (piece := caller.recv(4096)):
                answer += piece
        return answer.decode()

    def is_next(self, partner: socket.socket, line: str) -> bool:
        """Whether a partner's line makes the next entry, behind those that partners made."""
        try:
            partner.sendall(line.encode() + b"\n")
            reply = partner.recv(4096)
        except OSError:
            return False
        self.entries += 1
        return reply == f"ok {self.entries - 1}\n".encode()

    def close(self) -> tuple[bool, list[str]]:
        """Whether the board closes as it should, and who took a place, as it told."""
        is_closing = self.ask("close") == "closing\n"
        try:
            _, said = self.process.communicate(timeout=10)
        except subprocess.TimeoutExpired:
            return False, []
        places_taken = [line for line in said.splitlines() if line.startswith("here ")]
        return is_closing and self.process.returncode == 0, places_taken


class Site(http.server.ThreadingHTTPServer):
    """The server of a page of another site, and of what its pages report."""

    def __init__(self) -> None:
        super().__init__((HERE, 0), SiteRequest)
        self.page = b""
        self.reports: queue.Queue[list[str]] = queue.Queue()
        threading.Thread(target=self.serve_forever, daemon=True).start()

    def server_close(self) -> None:
        self.shutdown()
        super().server_close()

    def attack_page(self, attempts: list[tuple[str, str, str]]) -> bytes:
        report = f"http://{HERE}:{self.server_port}/report"
        return ATTACK.replace("ATTEMPTS", json.dumps(attempts)).replace("REPORT", report).encode()

    def reported(self, url: str, is_settled: Callable[[], bool], *options: str) -> list[str]:
        """What a page could read by each of its attempts, once they have settled: nothing where it does not report."""
        with chromium(url, *options):
            try:
                texts = self.reports.get(timeout=15)
            except queue.Empty:
                return []
            waited(is_settled, 5)
            return texts


class SiteRequest(http.server.BaseHTTPRequestHandler):
    server: Site

    def do_GET(self) -> None:  # pylint: disable=invalid-name
        self.send_response(200)
        self.send_header("Content-Type", "text/html; charset=utf-8")
        self.send_header("Content-Length", str(len(self.server.page)))
        self.end_headers()
        self.wfile.write(self.server.page)

    def do_POST(self) -> None:  # pylint: disable=invalid-name
        self.server.reports.put(json.loads(self.rfile.read(int(self.headers["Content-Length"]))))
        self.send_response(204)
        self.end_headers()

    def log_message(self, format: str, *args: object) -> None:  # pylint: disable=redefined-builtin
        """Requests are not logged."""


@contextlib.contextmanager
def chromium(url: str, *options: str) -> Iterator[None]:
    """Chromium at an address, with a profile of its own."""
    with tempfile.TemporaryDirectory(prefix="acdm-", ignore_cleanup_errors=True) as profile:
        command = ["chromium", *FLAGS, f"--user-data-dir={profile}", *(options or [LOCAL_CHECKS_OFF]), url]
        quiet = subprocess.DEVNULL
        process = subprocess.Popen(  # pylint: disable=consider-using-with
            command, stdin=quiet, stdout=quiet, stderr=quiet, start_new_session=True
        )
        try:
            yield
        finally:
            with contextlib.suppress(ProcessLookupError):
                os.killpg(process.pid, signal.SIGKILL)
            process.wait(10)


def waited(holds: Callable[[], bool], seconds: float) -> bool:
    """Whether something comes to hold within so many seconds."""
    end = time.monotonic() + seconds
    while not holds():
        if time.monotonic() > end:
            return False
        time.sleep(0.02)
    return True


def places(board: Board) -> list[tuple[str, int, str, bytes]]:
    """The addresses that take lines, with what is sent there and the answer to it."""
    return [
        ("a partner", board.ports[0], TICK_FORM, NO_COMMAND),
        ("a free place", board.ports[1], TICK_FORM, NO_COMMAND),
        ("the control address", board.control, CLOSE_FORM, UNKNOWN),
    ]


def attempts_of_lines(board: Board) -> list[Attempt]:
    """Attempts at the addresses that take lines."""
    attempts = []
    for kind in ("form", "post", "typed", "beacon", "image", "frame", "socket", "events"):
        for place, port, body, answer in places(board):
            attempts.append(Attempt(kind, place, Relay(port), body, answer))
    for place, port, body, answer in places(board):
        attempts.append(Attempt("image", place, Relay(port), body, answer, scheme="https"))
    return attempts


def attempts_to_read(board: Board) -> list[Attempt]:
    """Attempts to read the page and the events. A browser sends no `Origin` with the last five, and keeps their answers
    from the page that asked."""
    attempts = []
    for kind, path, status in (
        ("read", "/events", b"421"),
        ("request", "/events", b"421"),
        ("events", "/events", b"421"),
        ("socket", "/events", b"421"),
        ("typed", "/events", b"421"),
        ("beacon", "/events", b"421"),
        ("read", "/", b"421"),
        ("form", "/", b"421"),
        ("blind", "/events", b"200"),
        ("frame", "/events", b"200"),
        ("frame", "/", b"200"),
        ("script", "/", b"200"),
        ("image", "/", b"200"),
    ):
        attempts.append(Attempt(kind, "the web address", Relay(board.web), TICK_FORM, b"HTTP/1.1 " + status, path))
    return attempts


def attacked(cases: Cases, site: Site, board: Board, page: str, url: str, *options: str) -> None:
    """Has Chromium load a page that makes all attempts, and judges those that Chromium made."""
    attempts = attempts_of_lines(board) + attempts_to_read(board)
    site.page = site.attack_page([attempt.words() for attempt in attempts])
    texts = site.reported(url, lambda: all(attempt.is_settled() for attempt in attempts), *options)
    cases.expect(f"{page} reports", len(texts) == len(attempts))
    unsent = []
    for attempt, text in zip(attempts, texts):
        name, said = f"{attempt.name()} by {page}", attempt.relay.said()
        cases.expect(f"{name} reads nothing", text == "", text[:200])
        if not said:
            unsent.append(attempt.name())
            continue
        cases.expect(f"{name} is answered", attempt.is_answered_well(), said)
        if attempt.kind == "frame":
            cases.expect(f"{name} runs nothing", len(said) == 1, said)
    if unsent:
        print(f"Chromium sends nothing in {len(unsent)} attempts of {page}: {', '.join(unsent)}", flush=True)
    if LOCAL_CHECKS_ON not in options:
        cases.expect(f"{page} is not held back by Chromium", len(unsent) < len(attempts) / 2)


def unharmed(cases: Cases, board: Board, partner: socket.socket, page: str) -> None:
    """Holds the board and its partner against what they were before a page."""
    served = f"session 1 APT here {HERE}:{partner.getsockname()[1]} since "
    status = board.ask("status")
    lines = status.splitlines()
    held = lines[0].startswith(served) and lines[1].startswith("session 2 NM gone ")
    is_same = held and lines[2].startswith(f"entries {board.entries} of")
    cases.expect(f"no entry is made and no place taken by {page}", is_same, status)
    cases.expect(f"the partner is served after {page}", board.is_next(partner, TICK))
    cases.expect(f"the board is not closed by {page}", board.process.poll() is None)


def submitted(cases: Cases, site: Site, board: Board) -> None:
    """Has pages submit themselves as forms, so that the answer would take the place of the page."""
    for place, port, body, answer in places(board):
        relay = Relay(port)
        name, value = body.split("=", 1)
        site.page = (
            f'<!DOCTYPE html><form action="http://{HERE}:{relay.port}/" method="post" enctype="text/plain">'
            f'<textarea name="{html.escape(name)}">\n{html.escape(value)}</textarea></form>'
            "<script>document.forms[0].submit()</script>"
        ).encode()
        with chromium(f"http://{OTHER_SITE}:{site.server_port}/"):
            waited(relay.is_answered, 10)
        said = relay.said()
        sent = f"\r\n\r\n{name}={value}\n".replace("\r\n", "\n").replace("\n", "\r\n").encode()
        cases.expect(f"a form has its line sent to {place}", any(head.endswith(sent) for head, _ in said), said)
        cases.expect(f"a form is answered at {place}", all(heard == answer for _, heard in said), said)


def rebound(cases: Cases, site: Site, board: Board) -> None:
    """Has the name of a site lead to the board once its page is there, so that page and board are of one origin."""
    reads = [("read", "/events"), ("request", "/events"), ("events", "/events"), ("socket", "/events")]
    reads += [("frame", "/events"), ("read", "/"), ("frame", "/"), ("typed", "/")]
    lines = [("typed", "/"), ("read", "/"), ("request", "/"), ("frame", "/")]
    for place, port, tries, answer in (
        ("the web address", board.web, reads, b"HTTP/1.1 421 "),
        ("a partner", board.ports[0], lines, NO_COMMAND),
    ):
        relay = Relay(port)
        own = f"http://{REBOUND}:{relay.port}"
        relay.page = site.attack_page([(kind, own + path, TICK_FORM) for kind, path in tries])
        texts = site.reported(own + "/attack", relay.is_answered)
        cases.expect(f"a page whose name leads to {place} reports", len(texts) == len(tries), texts)
        for (kind, path), text in zip(tries, texts):
            is_told = text in ("", NO_NAME)
            cases.expect(f"{kind} of {path} reads nothing where its name leads to {place}", is_told, text[:200])
        answers = relay.answers()
        is_refused = len(answers) >= len(tries) and all(heard.startswith(answer) for heard in answers)
        cases.expect(f"what is asked under another name of {place} is refused", is_refused, answers)
    relay = Relay(board.web)
    with chromium(f"http://{REBOUND}:{relay.port}/"):
        waited(relay.is_answered, 10)
    answers = relay.answers()
    is_refused = bool(answers) and all(heard.startswith(b"HTTP/1.1 421 ") for heard in answers)
    cases.expect("the page is refused under another name", is_refused, answers)


def other_sites(cases: Cases, program: pathlib.Path) -> None:
    """Has pages of other sites attack a board."""
    with Board(program) as board, Site() as site:
        if not board.ports:
            cases.expect("a board starts", False, board.process.communicate()[1])
            return
        port = site.server_port
        public = f"--ip-address-space-overrides={HERE}:{port}=public"
        with board.connect(0) as partner:
            cases.expect("a partner is served", board.is_next(partner, SCHEDULE))
            for page, host, options in (
                ("a page of another port", HERE, [LOCAL_CHECKS_OFF]),
                ("a page of the public internet", OTHER_SITE, [LOCAL_CHECKS_OFF, public]),
                ("such a page in Chromium as it is", OTHER_SITE, [LOCAL_CHECKS_ON, public]),
            ):
                attacked(cases, site, board, page, f"http://{host}:{port}/", *options)
                unharmed(cases, board, partner, page)
            submitted(cases, site, board)
            unharmed(cases, board, partner, "forms in place of pages")
            rebound(cases, site, board)
            unharmed(cases, board, partner, "rebinding")
            with board.connect(1) as other:
                cases.expect("the free place takes its partner", board.is_next(other, PLAN))
        is_closed, places_taken = board.close()
        cases.expect("the board closes", is_closed)
        cases.expect("no stranger is told to be here", len(places_taken) == 2, places_taken)


def own_page(cases: Cases, site: Site, board: Board, host: str) -> None:
    """Has a page of the board's own site, by one of its names, show the board's page in a frame and read the events."""
    relay = Relay(board.web)
    own = f"http://{host}:{relay.port}"
    relay.page = site.attack_page([("frame", own + "/", ""), ("read", own + "/events", "")])
    shown, read = site.reported(own + "/attack", relay.is_answered) or ["", ""]
    cases.expect(
        f"the page is live and shows the flight at {host}", "\nlive\n" in shown and "DLH7" in shown, shown[:200]
    )
    cases.expect(f"its site may read the events at {host}", CALLSIGN.decode() in read, read[:200])


def own_names(cases: Cases, program: pathlib.Path) -> None:
    """Looks at the board's page by each name that it has."""
    with Board(program, "--web-name", BOARD_NAME) as board, Site() as site:
        if not board.ports:
            cases.expect("a board with a name starts", False, board.process.communicate()[1])
            return
        with board.connect(0) as partner:
            # (the page hides what was over three hours ago)
            soon = time.strftime("%Y-%m-%dT%H:%M:00Z", time.gmtime(time.time() + 3600))
            cases.expect(
                "a flight has its schedule",
                board.is_next(partner, re.sub('"sobt":"[^"]*"', f'"sobt":"{soon}"', SCHEDULE)),
            )
            relay = Relay(board.web)
            with chromium(f"http://{HERE}:{relay.port}/"):
                waited(functools.partial(relay.has_answered, CALLSIGN), 10)
            # (the page may have begun to read back what was before it, by events of their own)
            heads = list(dict.fromkeys(answer.split(b"; ")[0] for answer in relay.answers()))
            wanted = [
                f"HTTP/1.1 200 OK\r\nContent-Type: {kind}".encode() for kind in ("text/html", "text/event-stream")
            ]
            cases.expect("the page and its events are answered", heads == wanted, heads)
            cases.expect("the events have the flight", relay.has_answered(CALLSIGN))
            for host in (HERE, "localhost", BOARD_NAME):
                own_page(cases, site, board, host)
        cases.expect("a board with a name closes", board.close()[0])


def main() -> int:
    program = words(__doc__).parse_args().program.resolve()
    if not (program.is_file() and os.access(program, os.X_OK)):
        print(f"strangers: {program} is no program", file=sys.stderr)
        return 2
    cases = Cases()
    if not shutil.which("chromium"):
        print("strangers: Chromium is not installed")
        return cases.end()
    signal.signal(signal.SIGALRM, lambda *_: sys.exit("strangers: took too long"))
    signal.signal(signal.SIGTERM, lambda *_: sys.exit("strangers: stopped"))
    signal.alarm(180)
    other_sites(cases, program)
    own_names(cases, program)
    return cases.end()


if __name__ == "__main__":
    sys.exit(main())
