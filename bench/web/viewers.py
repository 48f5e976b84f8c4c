#!/usr/bin/env python3
"""Has as many viewers as are served look at a board at once, and holds what each was sent against the journal.

    bench/web/viewers.py [--program PATH] [--seconds N]

Four partners enter lines at a steady rate, for N seconds (6) without viewers and for as long with them: 64 browsers' events, one of
them those of Chromium where it is installed, 64 clients of the feed and 64 displays of the journal. One of each kind reads nothing,
and so many entries come first that the board has to wait for that of the feed and for that browser.
Every other one has to be sent all: the journal's text to the byte, each line of the feed and each event, from the first entry on or
from the board on, whose flights have to be those of the entries before. Chromium has to show each flight as it is. The partner's time
to its reply is printed, with and without viewers; nothing is asked of it. The last line is `N cases, M failed`; the status is 1 where
one failed.
"""
import argparse
import contextlib
import hashlib
import json
import multiprocessing
import os
import pathlib
import resource
import selectors
import shutil
import socket
import subprocess
import sys
import tempfile
import threading
import time

TOP = pathlib.Path(__file__).resolve().parents[2]
sys.path.insert(0, str(TOP / "bench" / "web"))
from browser import DRIVER, Page, free_port, webdriver  # noqa: E402

MOST, FLIGHTS, RATE = 64, 24, 20
# How many entries there are before anybody looks: their lines and events are more than the system holds for who reads nothing.
BEFORE = 20_000
PARTNERS = ("AO", "AO", "GH", "GH")
# (viewers tell entries on processors that they share: where these are busy with other work it takes longer)
PATIENCE = 60
HEAD = "GET /events HTTP/1.1\r\nHost: localhost\r\n"
# What a viewer says first, by its kind: to be sent all, and to begin with the board.
FIRST = {
    "journal": ("", ""),
    "feed": ("from 0\n", "board\n"),
    "events": (f"{HEAD}Last-Event-ID: 0\r\n\r\n", f"{HEAD}\r\n"),
}


class Viewer:
    """A viewer: what it is sent is kept up to the first line, and of the rest its length and its digest."""

    def __init__(self, kind, port, has_board, is_slow=False):
        self.kind, self.has_board, self.is_slow = kind, has_board, is_slow
        self.stream = socket.socket()
        if is_slow:
            # (with small windows and segments the system keeps little for it, so that the board has to wait)
            self.stream.setsockopt(socket.SOL_SOCKET, socket.SO_RCVBUF, 4096)
            self.stream.setsockopt(socket.IPPROTO_TCP, socket.TCP_MAXSEG, 536)
        self.stream.connect(("127.0.0.1", port))
        self.stream.sendall(FIRST[kind][has_board].encode())
        self.first, self.rest, self.length = b"", None, 0

    def read(self):
        """Reads what has come, and says whether more may come."""
        try:
            data = self.stream.recv(1 << 18)
        except ConnectionError:
            data = b""
        if self.rest is None:
            self.first += data
            end = self.end_of_first()
            if end:
                self.rest = hashlib.sha256(self.first[end:])
                self.first, self.length = self.first[:end], len(self.first) - end
        else:
            self.rest.update(data)
            self.length += len(data)
        return data != b""

    def end_of_first(self):
        """How many bytes the first line or event has, with the head of an answer; 0 where it is not whole yet."""
        if self.kind != "events":
            return self.first.find(b"\n") + 1
        head, ends, rest = self.first.partition(b"\r\n\r\n")
        event, has_end, _ = rest.partition(b"\n\n")
        return len(head + ends + event + has_end) if has_end else 0

    def found(self):
        return self.kind, self.has_board, self.first, self.length, self.rest.digest() if self.rest else b""


def look(viewers, link):
    """Reads what comes for all viewers but the slow ones, in a process of its own, to the end; then what the slow ones were sent."""
    own = {0, 1, 2, link.fileno(), *(it.stream.fileno() for it in viewers)}
    for number in map(int, os.listdir("/proc/self/fd")):
        if number not in own:
            # (a partner's connection would not end with that of the process before)
            with contextlib.suppress(OSError):
                os.close(number)
    selector = selectors.DefaultSelector()
    waiting = [it for it in viewers if not it.is_slow]
    for it in waiting:
        selector.register(it.stream, selectors.EVENT_READ, it)
    unseen, told, until, last = set(waiting), ["quiet", "seen"], None, time.monotonic()
    while selector.get_map() and (until is None or time.monotonic() < until):
        for key, _ in selector.select(0.2):
            it, last = key.data, time.monotonic()
            if not it.read():
                selector.unregister(it.stream)
            if it.rest is not None:
                unseen.discard(it)
        # (all have begun; and then all were sent what there is, for nothing has come for a second)
        if told and not unseen and (told[-1] == "seen" or time.monotonic() > last + 1):
            link.send(told.pop())
        if until is None and link.poll():
            link.recv()
            until = time.monotonic() + PATIENCE
    slow = []
    for it in viewers:
        if it.is_slow:
            it.stream.settimeout(5)
            slow.append((it.kind, taken(it.stream)))
    link.send(([it.found() for it in waiting], len(selector.get_map()), slow))


def taken(stream):
    """All that a connection still has."""
    data = b""
    try:
        while part := stream.recv(1 << 18):
            data += part
    except OSError:
        pass
    return data


class Board:
    """A board with the flights of a morning, and its partners."""

    def __init__(self, program, folder):
        self.program, self.file = program, folder / "day.journal"
        self.ports = dict(zip(FIRST, (free_port() for _ in FIRST)))
        words = [program, "serve", "--keep", str(self.file), "--watch", self.at("journal"), "--changes", self.at("feed")]
        words += ["--web", self.at("events"), *(f"{role}=127.0.0.1:0" for role in ("APT", "NM", *PARTNERS))]
        self.server = subprocess.Popen(words, stdin=subprocess.DEVNULL, stdout=subprocess.PIPE, stderr=subprocess.DEVNULL, text=True)
        self.links, self.refused = [], []
        for _ in range(2 + len(PARTNERS)):
            host, port = self.server.stdout.readline().split()[3].rsplit(":", 1)
            stream = socket.create_connection((host, int(port)))
            stream.setsockopt(socket.IPPROTO_TCP, socket.TCP_NODELAY, 1)
            self.links.append((stream, stream.makefile("rb")))
        texts = {"type": "A320", "reg": "DAIBC", "dest": "EGLL"}
        for flight in range(1, FLIGHTS + 1):
            own = {"flight": flight, "callsign": f"DLH{flight}", **texts}
            times = {"sobt": instant(60), "mttt": 40, "exit": 5, "exot": 10, "stand": flight}
            self.ask(0, {"cmd": "schedule", **own, **times})
            self.ask(1, {"cmd": "report", "milestone": 1, "time": instant(60), **own})
        for number in range(BEFORE):
            self.ask(2, {"cmd": "report", "flight": 1 + number % FLIGHTS, "milestone": 9, "time": instant(30 + number % 300)})

    def at(self, kind):
        return f"127.0.0.1:{self.ports[kind]}"

    def ask(self, place, command):
        """Has a line entered, and gives the seconds to its reply."""
        stream, replies = self.links[place]
        line = json.dumps(command).encode() + b"\n"
        begun = time.perf_counter()
        stream.sendall(line)
        reply = replies.readline()
        seconds = time.perf_counter() - begun
        if not reply.startswith(b"ok "):
            self.refused.append(reply)
        return seconds

    def work(self, seconds):
        """Has each partner enter lines at its rate for so long, and gives the times to their replies."""
        times = []

        def enter(place):
            own = range(1 + place, FLIGHTS + 1, len(PARTNERS))
            begun = time.monotonic()
            for number in range(int(RATE * seconds)):
                time.sleep(max(0.0, begun + number / RATE - time.monotonic()))
                target = {"cmd": "report", "flight": own[number % len(own)], "milestone": 9, "time": instant(30 + number % 300)}
                times.append(self.ask(2 + place, target))

        partners = [threading.Thread(target=enter, args=(place,)) for place in range(len(PARTNERS))]
        for it in partners:
            it.start()
        for it in partners:
            it.join()
        return times

    def end(self):
        """Has all partners leave, and gives the status of the program."""
        for stream, replies in self.links:
            replies.close()
            stream.close()
        status = self.server.wait(60)
        self.server.stdout.close()
        return status

    def told(self, *words):
        return subprocess.run([self.program, *words, str(self.file)], capture_output=True, check=False).stdout


def instant(minutes):
    return time.strftime("%Y-%m-%dT%H:%M:00Z", time.gmtime(time.time() + 60 * minutes))


class Wanted:
    """What viewers have to be sent, by the journal's text and by what `acdm tell` tells of it."""

    def __init__(self, board):
        self.text, self.lines = board.file.read_bytes(), board.told("tell").splitlines(keepends=True)
        self.name = hashlib.sha256(self.text.split(b"\n")[0]).hexdigest()[:32]
        self.boards, flights = [{}], {}
        for line in map(json.loads, self.lines):
            flights = {**flights, **{record["flight"]: record for record in line["changed"]}}
            self.boards.append(flights)

    def rest(self, kind, number):
        """What stands behind the first line, of entries from a number on."""
        if kind == "journal":
            return self.text.partition(b"\n")[2]
        if kind == "feed":
            return b"".join(self.lines[number:])
        return b"".join(b"id: %d\ndata: %s\n" % (entry, line) for entry, line in enumerate(self.lines[number:], number + 1))

    def is_first(self, kind, has_board, first):
        """Whether the first line is right, and the number of the entry behind it."""
        if kind == "journal":
            return first == self.text.partition(b"\n")[0] + b"\n", 0
        identity = 0
        if kind == "events":
            lines = first.partition(b"\r\n\r\n")[2].splitlines()
            identity, first = int(lines[0].removeprefix(b"id: ")), lines[1].removeprefix(b"data: ")
        line = json.loads(first)
        number, flights = line["next"], line.pop("flights", None)
        is_right = line["journal"] == self.name and line["room"] == 100000 and (kind == "feed" or identity == number)
        is_board = (flights is not None) == has_board and (not has_board or flights == list(self.boards[number].values()))
        return is_right and is_board and (has_board or number == 0), number

    def cases(self, found):
        """A case for each viewer: whether it was sent all."""
        known = {}
        for place, (kind, has_board, first, length, digest) in enumerate(found):
            try:
                is_first, number = self.is_first(kind, has_board, first)
            except (ValueError, KeyError, IndexError, TypeError):
                is_first, number = False, 0
            if (kind, number) not in known:
                rest = self.rest(kind, number)
                known[kind, number] = len(rest), hashlib.sha256(rest).digest()
            yield f"viewer {place} of the {kind} begins as it has to", is_first
            yield f"viewer {place} of the {kind} is sent all from entry {number} on", known[kind, number] == (length, digest)

    def slow_case(self, kind, data):
        """Whether what a viewer was sent that read nothing is a beginning of all, and not all where the board had to wait."""
        head = data.partition(b"\r\n\r\n")[2] if kind == "events" else data
        first = json.dumps({"journal": self.name, "next": 0, "room": 100000}, separators=(",", ":")).encode() + b"\n"
        whole = {"journal": self.text, "feed": first + self.rest("feed", 0), "events": b"id: 0\ndata: " + first + b"\n" + self.rest("events", 0)}
        print(f"of the {kind} {len(head)} of {len(whole[kind])} bytes had been sent to who read nothing")
        # (the text of so many entries fits into what the system holds)
        has_waited = kind == "journal" or len(head) < len(whole[kind])
        return head != b"" and whole[kind].startswith(head) and has_waited


def of_page(page, count):
    """The flights as a page has them, once it has so many entries; nothing where it does not come to them."""
    if page is None or not page.wait(lambda: page.driver.execute_script("return next") == count, PATIENCE):
        return None
    shown = page.driver.execute_script("return [...flights.values()].map((it) => [it.flight, it.tobt, it.alerts, it.reached])")
    return sorted([int(flight), *rest] for flight, *rest in shown)


def told_times(name, times):
    times = sorted(times)
    p50, p99 = (1000 * times[len(times) * share // 100] for share in (50, 99))
    print(f"a partner's time to its reply {name}: p50 {p50:.2f} ms, p99 {p99:.2f} ms, longest {1000 * times[-1]:.1f} ms, of {len(times)}")


def started(board, has_page):
    """Viewers of each kind, of which one is slow; a page takes the place of one. They look on in a process of their own."""
    viewers = []
    for kind, port in board.ports.items():
        count = MOST - 1 - (kind == "events" and has_page)
        viewers += [Viewer(kind, port, kind != "journal" and place % 2 == 1) for place in range(count)]
        viewers.append(Viewer(kind, port, False, is_slow=True))
    link, other = multiprocessing.Pipe()
    looking = multiprocessing.get_context("fork").Process(target=look, args=(viewers, other), daemon=True)
    looking.start()
    for it in viewers:
        # (the other process has them)
        it.stream.close()
    return len(viewers), link, looking


def cases(asked, folder):
    """The cases: each a name, and whether it is well."""
    board = Board(asked.program, folder)
    without = board.work(asked.seconds)
    page = None
    if webdriver is None or not shutil.which("chromium") or not os.path.exists(DRIVER):
        print("left out: Chromium; Debian's chromium, chromium-driver or python3-selenium is not here")
    elif not asked.no_page:
        page = Page(board.ports["events"])
        page.wait(lambda: page.driver.execute_script("return flights.size") == FLIGHTS)
        page.wait(lambda: page.driver.execute_script("return isComplete()"), 5)
    count, link, looking = started(board, page is not None)
    yield "all viewers are there", link.poll(PATIENCE) and link.recv() == "seen"
    yield "and sent what there is", link.poll(2 * PATIENCE) and link.recv() == "quiet"
    looked = board.work(asked.seconds)
    entries = BEFORE + len(without) + len(looked) + 2 * FLIGHTS
    shown = of_page(page, entries)
    yield "the board ends with status 0", board.end() == 0
    link.send("ended")
    found, left, slow = link.recv() if link.poll(2 * PATIENCE) else ([], count, [])
    looking.join(PATIENCE)
    told_times("without viewers", without)
    told_times(f"with {count + (page is not None)} of them", looked)
    wanted = Wanted(board)
    yield "each line was accepted", board.refused == []
    yield "each entry is told", len(wanted.lines) == entries
    yield "the journal is legal", board.told("audit").startswith(b"legal ")
    yield "no viewer is left behind", left == 0 and len(found) + len(slow) == count
    yield from wanted.cases(found)
    for kind, data in slow:
        yield f"a viewer of the {kind} that reads nothing was sent a beginning", wanted.slow_case(kind, data)
    if page is not None:
        last = [[it["flight"], it["tobt"], it["alerts"], it["reached"]] for it in wanted.boards[-1].values()]
        yield "Chromium shows each flight as it is", shown == sorted(last)
        yield "without a fault", [it for it in page.faults() if "ERR_" not in it] == []
        page.driver.quit()


def main():
    words = argparse.ArgumentParser(description="Has as many viewers as are served look at a board at once.")
    words.add_argument("--program", default=str(TOP / "crates" / "acdm" / "out" / "acdm"))
    words.add_argument("--no-page", action="store_true", help="without Chromium")
    words.add_argument("--seconds", type=float, default=6, help="how long partners work without viewers, and with them")
    asked = words.parse_args()
    resource.setrlimit(resource.RLIMIT_NOFILE, (1024, resource.getrlimit(resource.RLIMIT_NOFILE)[1]))
    count = failed = 0
    with tempfile.TemporaryDirectory() as folder:
        for name, is_well in cases(asked, pathlib.Path(folder)):
            count += 1
            if not is_well:
                failed += 1
                print(f"FAILED: {name}", flush=True)
    print(f"{count} cases, {failed} failed")
    return 1 if failed else 0


if __name__ == "__main__":
    sys.exit(main())
