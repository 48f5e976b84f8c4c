#!/usr/bin/python3
"""Attacks a desk in front of a running board: pages of other sites in Chromium, floods, and requests by chance.

    bench/hostile/desk.py [--program PATH]

Somebody has signed in at the desk, and opens a page of another site in the same browser. It sends forms, requests,
beacons, images, frames, WebSockets and streams to the desk, to its ports for partners, and to the board's own addresses
on the same machine. So does a page of another port, and one whose name leads to the desk (DNS rebinding). No entry may
be made, and nothing be read. Then strangers open many connections, send heads without an end and bytes by chance, and
somebody who has signed in sends values by chance: the desk answers all the while, and no answer is a fault of its own.
What Chromium is not there for is left out, with a line. The last line is `N cases, M failed`; the status is 1 where one
failed.
"""
import argparse
import contextlib
import json
import queue
import random
import shutil
import socket
import ssl
import sys
import tempfile
import threading
import time
from pathlib import Path
from typing import Any

TOP = Path(__file__).resolve().parents[2]
sys.path[:0] = [str(TOP / "desk" / "tests"), str(TOP / "bench" / "web")]

try:
    import harness
    from cases import Cases
    from conftest import MORE, partners_text
    from harness import Board, Certificates, Client, Running, until
except ImportError as absent:
    print(f"left out: {absent}\n0 cases, 0 failed")
    sys.exit(0)

HERE, OTHER, REBOUND = "127.0.0.1", "elsewhere.test", "rebind.test"
ENTRY = '{"cmd":"report","flight":"7","milestone":9,"time":"now","seen":1000000000}'
TICK = '{"cmd":"tick","x":"="}'
KINDS = ("form", "post", "typed", "beacon", "image", "script", "frame", "socket", "events", "read", "blind", "request")
RESOLVING = f"--host-resolver-rules=MAP {OTHER} {HERE},MAP {REBOUND} {HERE}"
UNCHECKED = (
    "--disable-features=HttpsUpgrades,LocalNetworkAccessChecks,LocalNetworkAccessChecksWebSockets,"
    "BlockInsecurePrivateNetworkRequests"
)


def attempts_at(running: Running) -> list[tuple[str, str, str]]:
    """What a page of another site tries: each kind of request at each place."""
    desk, board = f"https://localhost:{running.listen}", running.board
    places = [(desk + path, ENTRY + "=") for path in ("/enter", "/sign-out", "/board", "/events", "/me", "/")]
    places += [(f"https://localhost:{running.http_port}/v1/{name}", TICK) for name in ("lines", "flights", "events")]
    places += [(f"https://localhost:{running.lines_port}/", TICK)]
    places += [(f"http://{HERE}:{board.ports[name]}/", TICK) for name in ("APT", "APT other", "GH")]
    places += [(f"http://{HERE}:{board.control}/", "x=\nclose\n"), (f"http://{HERE}:{running.health_port}/health", "=")]
    return [(kind, url, body) for url, body in places for kind in KINDS]


def by_pages(cases: Cases, running: Running, _chance: random.Random) -> None:
    """Has pages of other sites attack while somebody is signed in."""
    try:
        from browser import Browser  # pylint: disable=import-outside-toplevel
        from strangers import Site  # pylint: disable=import-outside-toplevel
    except ImportError as missing:
        print(f"left out: pages of other sites: {missing}", flush=True)
        return
    if not shutil.which("chromedriver"):
        print("left out: pages of other sites: chromedriver is not installed", flush=True)
        return
    attempts, count = attempts_at(running), running.board.count()
    with Site() as site, Browser(f"https://localhost:{running.listen}", 1280, 800, RESOLVING, UNCHECKED) as browser:
        browser.sign_in("anna")
        site.page = site.attack_page(attempts)
        for host in (OTHER, "localhost", HERE):
            browser.driver.get(f"http://{host}:{site.server_port}/")
            try:
                texts = site.reports.get(timeout=60)
            except queue.Empty:
                texts = []
            cases.expect(f"a page at {host} reports", len(texts) == len(attempts), len(texts))
            for (kind, url, _), text in zip(attempts, texts):
                # (a frame that is refused shows Chromium's own page, which is none of the desk's)
                is_read = any(word in text for word in ("DLH", "anna", "token", "Filter", "is_board_live"))
                cases.expect(f"{kind} of {url} by a page at {host} reads nothing", not is_read, text[:100])
            cases.expect(f"no entry is made by a page at {host}", running.board.count() == count)
        browser.driver.get(f"https://{REBOUND}:{running.listen}/")
        shown = browser.driver.page_source
        cases.expect("under another name nothing is shown", "DLH" not in shown and "not the desk" in shown, shown[:200])
        browser.driver.get(f"https://localhost:{running.listen}/")
        cases.expect("who has signed in still is", browser.until(lambda: browser.text("state") == "live"))
        cases.expect("and enters", entered(running))


def entered(running: Running) -> bool:
    """Whether somebody can enter a time."""
    client = Client(running).sign_in("anna")
    return bool(client.enter(7, 9, "now").value.get("is_accepted"))


def opened(port: int) -> socket.socket | None:
    with contextlib.suppress(OSError):
        return socket.create_connection((HERE, port), timeout=5)
    return None


def floods(cases: Cases, running: Running, _chance: random.Random) -> None:
    """Many connections, that say nothing or do not come to an end."""
    for name, port in (("people", running.listen), ("partners", running.http_port), ("lines", running.lines_port)):
        links = [link for link in (opened(port) for _ in range(400)) if link]
        for place, link in enumerate(links):
            with contextlib.suppress(OSError):
                link.sendall(b"\x16\x03\x01" if place % 2 else b"GET / HTTP/1.1\r\n")
        cases.expect(f"the desk enters while 400 strangers are at {name}", entered(running))
        for link in links:
            link.close()
    context, slow = running.certificates.context(), []
    for _ in range(60):
        with contextlib.suppress(OSError):
            link = context.wrap_socket(socket.create_connection((HERE, running.listen)), server_hostname="localhost")
            link.sendall(b"POST /sign-in HTTP/1.1\r\nHost: localhost\r\nContent-Length: 100\r\nX: ")
            slow.append(link)
    cases.expect("the desk enters while heads do not come to an end", entered(running))
    watch = running.desk.watches["people"]
    cases.expect("they are let go", until(lambda: len(watch.connections) < 10, 20), len(watch.connections))
    for link in slow:
        link.close()


def bytes_by_chance(cases: Cases, running: Running, chance: random.Random) -> None:
    """Bytes that are no requests, and requests that nearly are."""
    context = running.certificates.context()
    words = [
        b"GET",
        b"POST",
        b"/enter",
        b"/board",
        b" ",
        b"\r\n",
        b"HTTP/1.1",
        b"Host: localhost",
        b"Content-Length: ",
        b"9" * 30,
    ]
    words += [
        b"Transfer-Encoding: chunked",
        b"\x00",
        b"\xff",
        b":",
        b"Cookie: __Host-desk=",
        b"{}",
        b"0\r\n\r\n",
        b"Upgrade: websocket",
    ]
    faults = 0
    for _ in range(300):
        data = b"".join(chance.choice(words) for _ in range(chance.randint(1, 30))) + b"\r\n\r\n"
        with contextlib.suppress(OSError, ssl.SSLError):
            stream = socket.create_connection((HERE, chance.choice([running.listen, running.http_port])), timeout=5)
            with context.wrap_socket(stream, server_hostname="localhost") as link:
                link.sendall(data)
                link.settimeout(0.05)
                answer = link.recv(1000)
                faults += answer.startswith((b"HTTP/1.1 500", b"HTTP/1.1 200"))
    cases.expect("no bytes by chance are a request or a fault", faults == 0, faults)
    for port in (running.listen, running.http_port, running.lines_port):
        for _ in range(50):
            link = opened(port)
            if link:
                with contextlib.suppress(OSError):
                    link.sendall(chance.randbytes(chance.randint(1, 3000)))
                link.close()
    cases.expect("the desk enters behind bytes by chance", entered(running))


def values_by_chance(cases: Cases, running: Running, chance: random.Random) -> None:
    """Values of any kind, of somebody who has signed in, and of a partner."""
    values: list[Any] = [
        None,
        True,
        -1,
        0,
        7,
        2**70,
        1.5,
        "",
        "7",
        "now",
        "+5",
        "10:20",
        "\ud800",
        "\n",
        "x" * 5000,
        [],
        {},
    ]
    names = [
        "cmd",
        "flight",
        "milestone",
        "time",
        "seen",
        "field",
        "callsign",
        "stand",
        "name",
        "password",
        "code",
        "\n",
    ]
    client, statuses = Client(running).sign_in("anna"), set()
    partner = Client(running, "swiss", running.http_port)
    for _ in range(300):
        body: Any = {chance.choice(names): chance.choice(values) for _ in range(chance.randint(0, 8))}
        if chance.random() < 0.7:
            body |= {"cmd": chance.choice(["report", "deice", "schedule"]), "flight": "7", "seen": 10**9}
        body = chance.choice([body, body, body, [body], "x", 7])
        statuses.add(client.post(chance.choice(["/enter", "/sign-in"]), body).status)
        statuses.add(partner.post("/v1/lines", body, Origin=None).status)
        path = chance.choice(["/flights/{}/history", "/{}", "/v1/flights/{}"])
        name = chance.choice(["7", "%00", "..", "%2e%2e/desk.toml", "9" * 400, "-1", "%ff"])
        statuses.add(chance.choice([client, partner]).get(path.format(name)).status)
    cases.expect("no value by chance is a fault of the desk", not {it for it in statuses if it >= 500}, statuses)
    cases.expect("and the desk enters behind them", entered(running))


def guesses(cases: Cases, running: Running, _chance: random.Random) -> None:
    """Guesses at a password from many threads: so many in a minute are looked at, and no more."""
    running.desk.people.sign_ins.in_a_minute, running.desk.people.names.in_a_minute = 10, 20
    running.desk.people.sign_ins._left.clear()  # pylint: disable=protected-access
    statuses: list[int] = []

    def guess() -> None:
        for number in range(10):
            answer = Client(running).post("/sign-in", {"name": "anna", "password": f"a guess {number} of many"})
            statuses.append(answer.status)

    work = [threading.Thread(target=guess) for _ in range(8)]
    for thread in work:
        thread.start()
    for thread in work:
        thread.join()
    cases.expect("80 guesses are answered", len(statuses) == 80, len(statuses))
    cases.expect("ten of them are looked at", 10 <= statuses.count(401) <= 12, statuses.count(401))


def main() -> int:
    words = argparse.ArgumentParser(description="Attacks a desk in front of a running board.")
    words.add_argument("--program", type=Path, default=harness.PROGRAM)
    asked = words.parse_args()
    harness.PROGRAM = asked.program.resolve()
    if not harness.PROGRAM.is_file():
        print(f"desk.py: there is no program at {harness.PROGRAM}", file=sys.stderr)
        return 2
    cases, chance = Cases(), random.Random(20250220)
    with tempfile.TemporaryDirectory(prefix="acdm-hostile-", ignore_cleanup_errors=True) as name:
        folder = Path(name)
        certificates, board = Certificates(folder), Board(folder, MORE)
        board.flight(7)
        board.flight(8, "SWR8")
        running = Running(folder, certificates, board, partners_text(board, certificates))
        try:
            for attack in (by_pages, floods, bytes_by_chance, values_by_chance, guesses):
                attack(cases, running, chance)
                print(f"{attack.__name__}: {cases.count} cases, {cases.failed} failed", flush=True)
            begun = time.monotonic()
            lines = [json.loads(line) for line in (folder / "desk.log").read_text(encoding="ascii").splitlines()]
            cases.expect("each line of the log is one event", all("event" in line for line in lines), begun)
        finally:
            running.stop()
            board.kill()
    return cases.end()


if __name__ == "__main__":
    sys.exit(main())
