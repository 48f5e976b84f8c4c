#!/usr/bin/env python3
"""What browsers are answered by `acdm serve --web`, over sockets: the page, events, refusals, and who is let go.

    bench/feed/browse.py [PROGRAM]

The program is crates/acdm/out/acdm where none is named. The last line is `N cases, M failed`; the status is 1 where one failed.
"""
import calendar
import datetime
import hashlib
import json
import pathlib
import re
import socket
import subprocess
import sys
import time

TOP = pathlib.Path(__file__).resolve().parents[2]
sys.path.append(str(TOP / "clients" / "web"))
from embed import page  # noqa: E402

PAGE = page().encode()
MOST_BROWSERS = 64
SCHEDULE = {
    "cmd": "schedule", "flight": 18446744073709551615, "callsign": '<b>&"\'', "type": "A320", "reg": "DAIBC", "dest": "EGLL",
    "sobt": "2030-02-20T10:00:00Z", "mttt": 45, "exit": 5, "exot": 10, "stand": 12,
}  # fmt: skip


def free_port():
    with socket.socket() as it:
        it.bind(("127.0.0.1", 0))
        return it.getsockname()[1]


class Board:
    """A board with one partner, the airport, and a page."""

    def __init__(self, program):
        self.web = free_port()
        words = [program, "serve", "--web", f"127.0.0.1:{self.web}", "APT=127.0.0.1:0"]
        self.server = subprocess.Popen(words, stdin=subprocess.DEVNULL, stdout=subprocess.PIPE, stderr=subprocess.PIPE, text=True)
        host, port = self.server.stdout.readline().split()[-1].rsplit(":", 1)
        self.partner = socket.create_connection((host, int(port)), timeout=30)
        self.replies = self.partner.makefile("r", encoding="ascii")

    def ask(self, command):
        self.partner.sendall(json.dumps(command).encode() + b"\n")
        return self.replies.readline().rstrip()

    def browser(self, sent=b""):
        it = socket.create_connection(("127.0.0.1", self.web), timeout=20)
        it.sendall(sent)
        return it

    def answer(self, sent):
        """All that is answered, until the connection ends."""
        with self.browser(sent) as it:
            it.shutdown(socket.SHUT_WR) if not sent.startswith(b"GET /events") else None
            parts = []
            while part := it.recv(1 << 16):
                parts.append(part)
            return b"".join(parts)

    def end(self):
        self.replies.close()
        self.partner.close()
        status = self.server.wait(30)
        self.server.stdout.close()
        self.server.stderr.close()
        return status


def get(path, *fields):
    return "\r\n".join([f"GET {path} HTTP/1.1", "Host: localhost", *fields, "", ""]).encode()


def events(browser, count):
    """The head of an answer, and so many events behind it, each with its id and the value of its data."""
    came = b""
    while True:
        head, ends, rest = came.partition(b"\r\n\r\n")
        part = b"" if ends and rest.count(b"\n\n") >= count else browser.recv(1 << 16)
        if not part:
            break
        came += part
    return head, events_in(rest)


def events_behind(browser, count):
    """So many events more."""
    came = b""
    while came.count(b"\n\n") < count and (part := browser.recv(1 << 16)):
        came += part
    return events_in(came)


def events_in(text):
    pairs = [it.split("\n") for it in text.decode().split("\n\n")[:-1]]
    return [(first.removeprefix("id: "), json.loads(second.removeprefix("data: "))) for first, second in pairs]


def is_let_go(browser, within):
    """Whether a connection ends in so many seconds, with nothing sent."""
    browser.settimeout(within)
    try:
        return browser.recv(1) == b""
    except ConnectionError:
        return True
    except TimeoutError:
        return False


def answers(board):
    page = board.answer(get("/"))
    head, _, body = page.partition(b"\r\n\r\n")
    yield "the page is that of its file", body == PAGE
    yield "its length is told", f"Content-Length: {len(PAGE)}".encode() in head
    yield "it may load nothing else", b"default-src 'none'" in head and b"connect-src 'self'" in head
    yield "nothing of it is kept", b"Cache-Control: no-store" in head
    yield "its moment is told", abs(moment_of(page) - time.time()) < 3
    yield "a question mark is no part of the path", board.answer(get("/?x")).partition(b"\r\n\r\n")[2] == PAGE
    for path, begins in (("/", head), ("/events", b"HTTP/1.1 200 "), ("/nope", b"HTTP/1.1 404 ")):
        alone = board.answer(get(path).replace(b"GET", b"HEAD", 1))
        is_one = undated(alone).startswith(undated(begins)) and alone.index(b"\r\n\r\n") == len(alone) - 4
        yield f"the head of {path} is answered alone", is_one
    for path in ("/favicon.ico", "/event", "//", "/index.html"):
        yield f"{path} is not there, in words", is_in_words(board.answer(get(path)), b"404", b"The board is at /")
    for method in (b"POST", b"PUT", b"OPTIONS"):
        said = board.answer(method + b" / HTTP/1.1\r\nHost: localhost\r\n\r\n")
        yield f"{method.decode()} is refused", is_in_words(said, b"405", b"GET or HEAD") and b"Allow: GET, HEAD\r\n" in said
    for bytes_, name in ((b"GET / HTTP/2.0\r\n\r\n", "another version"), (b"\x16\x03\x01\x00\xa5", "TLS"), (b"hello\r\n\r\n", "words")):
        yield f"{name} is no request", board.answer(bytes_).startswith(b"HTTP/1.1 400 ")
    many = board.answer(get("/", *[f"A{it}: 1" for it in range(80)]))
    yield "a request of 80 fields is none", many.startswith(b"HTTP/1.1 400 ")
    yield "a head in parts is heard", in_parts(board)


def undated(head):
    """A head without its date."""
    return re.sub(rb"Date: [^\r]*\r\n", b"", head)


def moment_of(answer):
    """The moment of an answer, in seconds since 1970-01-01T00:00:00Z; 0 where it has none."""
    date = re.search(rb"\r\nDate: ([^\r]*) GMT\r\n", answer)
    return calendar.timegm(time.strptime(date[1].decode(), "%a, %d %b %Y %H:%M:%S")) if date else 0


def is_in_words(answer, status, words):
    """Whether it has this status, and a text of the told length with these words."""
    head, _, body = answer.partition(b"\r\n\r\n")
    is_told = b"text/plain" in head and f"Content-Length: {len(body)}\r\n".encode() in head
    return head.startswith(b"HTTP/1.1 " + status + b" ") and words in body and is_told


def in_parts(board):
    with board.browser() as it:
        for byte in get("/nope"):
            it.sendall(bytes([byte]))
            time.sleep(0.002)
        return it.recv(1 << 16).startswith(b"HTTP/1.1 404 ")


def name_by(minute):
    """The name of a journal that begins with the schedule of session 1 at this minute."""
    moment, sobt = (
        int(datetime.datetime.fromisoformat(it[:-1] + "+00:00").timestamp()) // 60 for it in (minute, SCHEDULE["sobt"])
    )
    words = [SCHEDULE[it] for it in ("flight", "callsign", "type", "reg", "dest")]
    words += [sobt, *(SCHEDULE[it] for it in ("mttt", "exit", "exot", "stand"))]
    line = f"0 1 {moment} APT 0 0 schedule " + " ".join(map(str, words))
    return hashlib.sha256(line.encode("ascii")).hexdigest()[:32]


def told(board):
    with board.browser(get("/events")) as it:
        head, found = events(it, 1)
        yield "events are a stream", b"Content-Type: text/event-stream" in head
        yield "an empty board comes first", found == [("0", {"journal": "", "next": 0, "room": 100_000, "flights": []})]
        yield "a schedule is taken", board.ask(SCHEDULE) == "ok 0"
        found = events_behind(it, 2)
        name = name_by(found[1][1]["minute"])
        yield "the journal's name comes", found[0] == ("0", {"journal": name, "next": 0, "room": 100_000})
        yield "its event comes", [(id_, line["entry"]) for id_, line in found[1:]] == [("1", 0)]
        yield "with the record", [line["changed"][0]["callsign"] for _, line in found[1:]] == ['<b>&"\'']
        board.ask({"cmd": "tick"})
        board.ask({"cmd": "show", "flight": 7})
        found = events_behind(it, 2)
        yield "refused entries are told", [line["outcome"] for _, line in found] == ["ok", {"code": 202, "name": "unknown_flight"}]
    for last, wanted in (("0", ["0", "1", "2", "3"]), ("2", ["2", "3"]), ("4", ["3"]), ("99999", ["3"]), ("x", ["3"]), ("18446744073709551616", ["3"])):
        with board.browser(get("/events", f"Last-Event-ID: {last}")) as it:
            _, found = events(it, len(wanted))
            is_board = "flights" in found[0][1] if found else None
            yield f"behind {last}", [id_ for id_, _ in found] == wanted and is_board == (last not in ("0", "2"))
            yield f"behind {last}: the journal", (found[0][1]["journal"], found[0][1]["next"]) == (name, int(wanted[0]))
    with board.browser(get("/events", "Last-Event-ID: 3")) as it:
        head, found = events(it, 1)
        yield "one that has had all is told the journal", found == [("3", {"journal": name, "next": 3, "room": 100_000})]
        board.ask({"cmd": "tick"})
        yield "for what comes", [id_ for id_, _ in events_behind(it, 1)] == ["4"]


def let_go(board):
    with board.browser(b"GET / HTTP/1.1\r\n" + b"A: " + b"x" * 9000) as it:
        yield "a head of more than 8 KiB", is_let_go(it, 5)
    for size in (8192, 8193):
        head = get("/nope", "A: ")
        head = head.replace(b"A: ", b"A: " + b"x" * (size - len(head)))
        try:
            said = board.answer(head)
        except ConnectionError:
            said = b""
        yield f"a head of {size} bytes", said.startswith(b"HTTP/1.1 404 ") == (size == 8192)
    with board.browser(b"GET / HTTP/1.1\r\n") as it:
        began = time.monotonic()
        yield "a head that does not come", is_let_go(it, 20)
        yield "after 8 to 18 seconds", 8 <= time.monotonic() - began <= 18
    browsers = [board.browser(get("/events")) for _ in range(MOST_BROWSERS - 1)]
    yield "64 browsers are served", all(len(events(it, 1)[1]) == 1 for it in browsers)
    for name, sent in (("one more", get("/events")), ("one that asks for nothing", b"")):
        with board.browser(sent) as it:
            said = b"".join(iter(lambda link=it: link.recv(1 << 16), b""))
        yield f"{name} is told that no place is left", is_in_words(said, b"503", b"Try again") and b"Retry-After: 60\r\n" in said
        yield f"{name} is told the moment", abs(moment_of(said) - time.time()) < 3
    for it in browsers:
        it.close()
    time.sleep(0.5)
    yield "their places are given back", board.answer(get("/")).endswith(PAGE)


def main():
    board = Board(sys.argv[1] if len(sys.argv) > 1 else str(TOP / "crates" / "acdm" / "out" / "acdm"))
    cases = failed = 0
    with board.browser(get("/events")) as last:
        events(last, 1)
        for name, is_well in [it for part in (answers, told, let_go) for it in part(board)]:
            cases += 1
            if not is_well:
                failed += 1
                print(f"FAILED: {name}", flush=True)
        status = board.end()
        came = b""
        while part := last.recv(1 << 16):
            came += part
    for name, is_well in (("the board ends with status 0", status == 0), ("a browser is sent all", came.count(b"id: ") == 5)):
        cases += 1
        failed += not is_well
        if not is_well:
            print(f"FAILED: {name}")
    print(f"{cases} cases, {failed} failed")
    return 1 if failed else 0


if __name__ == "__main__":
    sys.exit(main())
