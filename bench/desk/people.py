#!/usr/bin/python3
"""Measures the desk with many people: from a person's click to the other browsers, and what it takes of a core.

    bench/desk/people.py [--program PATH] [--people 200] [--lines 20000] [--seconds 30] [--flights 400]

So many people have the desk's page open (each a stream of events over TLS). Lines are entered at so many an hour, each
by another of them, and each is timed: from its sending to the reply, and to the moment at which all other people have
its event. The desk is a program of its own, bound to one core. Printed are the half and the 99th hundredth, the share
of the core that the desk took, and its memory.
"""
import argparse
import asyncio
import http.client
import json
import os
import subprocess
import sys
import tempfile
import time
from pathlib import Path

import aiohttp

TOP = Path(__file__).resolve().parents[2]
sys.path.insert(0, str(TOP / "desk" / "tests"))

import harness  # noqa: E402
from harness import Board, Certificates, Client, Running, listens, until  # noqa: E402


class Eyes:
    """The streams of events of all people: when each entry has come to each."""

    def __init__(self) -> None:
        self.come: dict[int, list[float]] = {}
        self.is_open = 0

    async def look(self, session: aiohttp.ClientSession, url: str, cookie: str) -> None:
        """Reads one person's events."""
        headers = {"Cookie": cookie}
        async with session.get(f"{url}/events", headers=headers) as answer:
            assert answer.status == 200
            self.is_open += 1
            async for line in answer.content:
                if line.startswith(b"id: "):
                    self.come.setdefault(int(line[4:]) - 1, []).append(time.perf_counter())


def signed_in(running: Running, count: int) -> list[Client]:
    """So many sessions, of handlers."""
    return [Client(running).sign_in("anna") for _ in range(count)]


async def enter_all(
    running: Running, clients: list[Client], lines: int, seconds: float, flights: int
) -> tuple[list[float], list[float]]:
    """Enters lines at a rate; the times to the replies, and to the last of the other people."""
    context = running.certificates.context()
    connector = aiohttp.TCPConnector(limit=0, ssl=context)
    url, eyes, begun, replied = f"https://localhost:{running.listen}", Eyes(), {}, []
    timeout = aiohttp.ClientTimeout(total=None)
    async with aiohttp.ClientSession(connector=connector, timeout=timeout) as session:
        looking = [asyncio.create_task(eyes.look(session, url, client.cookie)) for client in clients]
        while eyes.is_open < len(clients):
            await asyncio.sleep(0.05)
            for task in looking:
                if task.done():
                    task.result()

        async def enter(number: int) -> None:
            client = clients[number % len(clients)]
            headers = {"Cookie": client.cookie, "X-Desk-Token": client.token, "Origin": url}
            body = {
                "cmd": "report",
                "flight": str(10 + number % flights),
                "milestone": 9,
                "time": "now",
                "seen": 10**9,
            }
            start = time.perf_counter()
            async with session.post(f"{url}/enter", json=body, headers=headers) as answer:
                told = await answer.json()
            assert answer.status == 200 and told["is_accepted"], (told, health_of(running.health_port))
            replied.append(time.perf_counter() - start)
            begun[told["entry"]] = start

        pause, count, work = 3600 / lines, int(seconds * lines / 3600), []
        first = time.perf_counter()
        for number in range(count):
            await asyncio.sleep(max(0.0, first + number * pause - time.perf_counter()))
            work.append(asyncio.create_task(enter(number)))
        await asyncio.gather(*work)
        await asyncio.sleep(1)
        for task in looking:
            task.cancel()
    missing = [entry for entry in begun if len(eyes.come.get(entry, [])) < len(clients)]
    assert not missing, f"{len(missing)} of {len(begun)} entries did not come to all"
    return replied, [max(eyes.come[entry]) - start for entry, start in begun.items()]


def hundredth(times: list[float], part: int) -> float:
    ordered = sorted(times)
    return ordered[min(len(ordered) - 1, len(ordered) * part // 100)] * 1000


def taken_of(process: int) -> float:
    """The seconds of processor time that a process has taken."""
    words = Path(f"/proc/{process}/stat").read_text(encoding="ascii").rpartition(")")[2].split()
    return (int(words[11]) + int(words[12])) / os.sysconf("SC_CLK_TCK")


def memory_of(process: int) -> float:
    """The memory of a process, in MiB."""
    text = Path(f"/proc/{process}/status").read_text(encoding="ascii")
    return int(next(line.split()[1] for line in text.splitlines() if line.startswith("VmHWM"))) / 1024


def health_of(port: int) -> object:
    link = http.client.HTTPConnection("127.0.0.1", port, timeout=5)
    link.request("GET", "/health")
    return json.loads(link.getresponse().read())


def is_ready(port: int) -> bool:
    link = http.client.HTTPConnection("127.0.0.1", port, timeout=5)
    try:
        link.request("GET", "/health")
        return bool(json.loads(link.getresponse().read())["is_ready"])
    except OSError:
        return False
    finally:
        link.close()


def main() -> int:
    words = argparse.ArgumentParser(description="Measures the desk with many people.")
    words.add_argument("--program", type=Path, default=harness.PROGRAM)
    words.add_argument("--people", type=int, default=200)
    words.add_argument("--lines", type=int, default=20000, help="lines an hour")
    words.add_argument("--seconds", type=float, default=30)
    words.add_argument("--flights", type=int, default=400)
    asked = words.parse_args()
    harness.PROGRAM = asked.program
    with tempfile.TemporaryDirectory(prefix="acdm-people-") as name:
        folder = Path(name)
        board = Board(folder)
        for number in range(10, 10 + asked.flights):
            board.flight(number)
        running = Running(folder, Certificates(folder), board)
        running.stop()
        desk = subprocess.Popen(
            ["taskset", "-c", "0", sys.executable, str(TOP / "desk" / "desk"), "run", "--settings", str(running.file)],
            stdout=subprocess.DEVNULL,
        )
        try:
            assert until(lambda: listens(running.listen) and is_ready(running.health_port))
            clients = signed_in(running, asked.people)
            before, start = taken_of(desk.pid), time.perf_counter()
            replied, seen = asyncio.run(enter_all(running, clients, asked.lines, asked.seconds, asked.flights))
            share = (taken_of(desk.pid) - before) / (time.perf_counter() - start)
            memory = memory_of(desk.pid)
        finally:
            desk.terminate()
            desk.wait(20)
            board.kill()
    print(f"{asked.people} people, {asked.lines:,} lines an hour, {len(seen)} lines of {asked.flights} flights")
    print(f"  to the reply: {hundredth(replied, 50):.1f} ms (half), {hundredth(replied, 99):.1f} ms (99 of 100)")
    print(
        f"  to the last of all browsers: {hundredth(seen, 50):.1f} ms (half), {hundredth(seen, 99):.1f} ms (99 of 100)"
    )
    print(f"  the desk: {100 * share:.0f} per cent of one core, {memory:.0f} MiB")
    return 0


if __name__ == "__main__":
    sys.exit(main())
