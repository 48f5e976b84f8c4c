#!/usr/bin/python3
"""Measures what the TLS in front of a board adds to the time from a partner's line to its reply.

    bench/desk/front.py [--program PATH] [--partners 64] [--rate 10] [--seconds 6] [--keep] [--sync]

So many partners each send a line at this rate a second, at moments of their own. They send straight to a board, through
the desk's front to another, and by stunnel to a third where that is installed. The boards run side by side, and the
turns alternate three times. The client is one process
for both ways, and TLS's work at the client counts as time of the front. Printed are the half and the 99th hundredth of
the times, and their ratios.
"""
import argparse
import contextlib
import os
import random
import selectors
import shutil
import signal
import socket
import ssl
import subprocess
import sys
import tempfile
import time
from pathlib import Path
from typing import Any

TOP = Path(__file__).resolve().parents[2]
sys.path.insert(0, str(TOP / "desk" / "tests"))

from harness import PROGRAM, Certificates, free_ports, listens, until  # noqa: E402

LINE = b'{"cmd":"report","flight":7,"milestone":9,"time":"2030-01-01T10:00:00Z"}\n'
ROUNDS = 3


def begin_board(
    program: Path, folder: Path, partners: int, words: list[str]
) -> tuple[subprocess.Popen[bytes], list[int]]:
    """A board with so many handlers."""
    changes, *ports = free_ports(1 + partners)
    command = [str(program), "serve", "--again", "--journal", "1000000", *words]
    command += ["--changes", f"127.0.0.1:{changes}", *(f"GH=127.0.0.1:{port}" for port in ports)]
    process = subprocess.Popen(command, cwd=folder, stdout=subprocess.DEVNULL, stderr=subprocess.DEVNULL)
    assert until(lambda: listens(changes))
    return process, ports


def settings(certificates: Certificates, port: int, ports: list[int]) -> str:
    """One partner, of whom each client has an address of its own."""
    folder = certificates.folder
    lines = ", ".join(f'"127.0.0.1:{each}"' for each in ports)
    return f"""[desk]
listen = "127.0.0.1:1"
names = ["localhost"]
certificate = "{folder}/desk.pem"
key = "{folder}/desk.key"
data = "desk.sqlite"
log = "desk.log"
[board]
changes = "127.0.0.1:1"
[partners]
lines = "127.0.0.1:{port}"
authorities = "{folder}/partners.pem"
[[partner]]
name = "handler"
role = "GH"
see = "all"
send = "all"
lines = [{lines}]
certificate = "{certificates.prints["handler"]}"
"""


def begin_stunnel(certificates: Certificates, folder: Path, boards: list[int]) -> list[int]:
    """The same by stunnel, to compare: a port for each partner."""
    keys = certificates.folder
    ports = free_ports(len(boards))
    text = f"foreground = no\npid = {folder}/stunnel.pid\ndebug = 0\ncert = {keys}/desk.pem\nkey = {keys}/desk.key\n"
    text += f"CAfile = {keys}/partners.pem\nverifyChain = yes\nsocket = l:TCP_NODELAY=1\nsocket = r:TCP_NODELAY=1\n"
    text += "".join(
        f"[p{port}]\naccept = 127.0.0.1:{port}\nconnect = 127.0.0.1:{board}\n" for port, board in zip(ports, boards)
    )
    (folder / "stunnel.conf").write_text(text, encoding="ascii")
    subprocess.run(["stunnel", str(folder / "stunnel.conf")], check=True, capture_output=True)
    assert until(lambda: listens(ports[-1]))
    return ports


def end_stunnel(folder: Path) -> None:
    with contextlib.suppress(OSError, ValueError):
        os.kill(int((folder / "stunnel.pid").read_text(encoding="ascii")), signal.SIGTERM)


def connected(port: int, context: ssl.SSLContext | None) -> Any:
    stream = socket.create_connection(("127.0.0.1", port))
    stream.setsockopt(socket.IPPROTO_TCP, socket.TCP_NODELAY, 1)
    return context.wrap_socket(stream, server_hostname="localhost") if context else stream


def talk(links: list[Any], rate: float, seconds: float) -> list[float]:
    """The times to the replies, where each partner sends at a rate of its own."""
    selector, chance, taken = selectors.DefaultSelector(), random.Random(1), []
    sent: dict[Any, float] = {}
    start = time.perf_counter()
    due = sorted((start + chance.random() / rate, place) for place in range(len(links)))
    for link in links:
        link.setblocking(False)
        selector.register(link, selectors.EVENT_READ, link)
    end = start + seconds
    while time.perf_counter() < end:
        moment = time.perf_counter()
        while due and due[0][0] <= moment:
            at, place = due.pop(0)
            link = links[place]
            if link not in sent:
                sent[link] = time.perf_counter()
                link.send(LINE)
            due.append((at + 1 / rate, place))
        for key, _ in selector.select(max(0.0, min(due[0][0], end) - time.perf_counter())):
            link = key.data
            try:
                data = link.recv(4096)
            except (ssl.SSLWantReadError, BlockingIOError):
                continue
            assert data, "a connection ended"
            if data.endswith(b"\n") and link in sent:
                taken.append(time.perf_counter() - sent.pop(link))
    for link in links:
        selector.unregister(link)
    return taken


def hundredth(times: list[float], part: int) -> float:
    ordered = sorted(times)
    return ordered[min(len(ordered) - 1, len(ordered) * part // 100)]


def main() -> int:
    words = argparse.ArgumentParser(description="Measures the TLS front.")
    words.add_argument("--program", type=Path, default=PROGRAM)
    words.add_argument("--partners", type=int, default=64)
    words.add_argument("--rate", type=float, default=10)
    words.add_argument("--seconds", type=float, default=6)
    words.add_argument("--keep", action="store_true", help="boards that keep their journals")
    words.add_argument("--sync", action="store_true", help="and have them on the disk")
    asked = words.parse_args()
    kept = ["--keep", "journal"] + ["--sync"] * asked.sync if asked.keep or asked.sync else []
    with tempfile.TemporaryDirectory(prefix="acdm-front-") as name:
        folder = Path(name)
        for part in ("certificates", "straight", "through"):
            (folder / part).mkdir()
        certificates = Certificates(folder / "certificates")
        parts = ["straight", "through"] + ["stunnel"] * bool(shutil.which("stunnel"))
        (folder / "stunnel").mkdir()
        boards = [begin_board(asked.program, folder / part, asked.partners, kept) for part in parts]
        (port,) = free_ports(1)
        (folder / "front.toml").write_text(settings(certificates, port, boards[1][1]), encoding="utf-8")
        command = [sys.executable, str(TOP / "desk" / "desk"), "front", str(folder / "front.toml")]
        front = subprocess.Popen(command, stdin=subprocess.PIPE, stdout=subprocess.PIPE)
        try:
            assert front.stdout and b"listens" in front.stdout.readline()
            straight = [connected(each, None) for each in boards[0][1]]
            context = certificates.context("handler")
            through = [connected(port, context) for _ in range(asked.partners)]
            for link in through:
                link.sendall(b"{}\n")
                assert link.recv(100) == b"bad 102\n"
            ways = {"straight": straight, "through": through}
            if "stunnel" in parts:
                ports = begin_stunnel(certificates, folder, boards[2][1])
                ways["stunnel"] = [connected(each, context) for each in ports]
            times: dict[str, list[float]] = {way: [] for way in ways}
            for _ in range(ROUNDS):
                for way, links in ways.items():
                    times[way] += talk(links, asked.rate, asked.seconds / ROUNDS)
        finally:
            if front.stdin:
                front.stdin.close()
            front.wait(10)
            end_stunnel(folder)
            for process, _ in boards:
                process.kill()
                process.wait()
    how = " ".join(kept[:1] + kept[2:]) or "in memory"
    print(f"{asked.partners} partners, {asked.rate:g} lines a second each, {how}")
    for part, label in ((50, "half"), (99, "99 of 100")):
        one, *others = (hundredth(times[way], part) * 1e6 for way in ways)
        told = [
            f"{each:,.0f} us {name} ({each / one:.2f} times)"
            for each, name in zip(others, ("by the desk", "by stunnel"))
        ]
        print(f"  {label}: {one:,.0f} us straight, over TLS {', '.join(told)}")
    return 0


if __name__ == "__main__":
    sys.exit(main())
