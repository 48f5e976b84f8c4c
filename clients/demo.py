#!/usr/bin/env python3
"""Opens a board to look at: five partners, three local rules, and a morning at today's time, in the browser.

    clients/demo.py [--program PATH] [--web PORT] [--no-browser] [--seconds N]

All ports are free ones of the loopback interface; nothing is kept. What the morning of examples/day.txt has up to 08:50
is there at the begin, and then it goes on, an entry each N seconds (3); the airport ticks once a minute.
Ctrl-C ends it. `./acdm demo` runs it, also before anything is proved. PATH is the program; without it the variable ACDM
names it, or it is the `acdm` at the top. Outside what is proved.
"""
import json
import os
import re
import signal
import socket
import subprocess
import sys
import threading
import time
import webbrowser
from datetime import datetime, timedelta, timezone
from typing import NoReturn

from feed import Arguments
from programs import TOP

ROLES = ("NM", "ATC", "APT", "AO", "GH")
INSTANT = re.compile(r'"(\d{4}-\d\d-\d\dT\d\d:\d\d:\d\dZ)"')
FORM = "%Y-%m-%dT%H:%M:%SZ"
BEFORE = 170
FLIGHTS, AIRLINES = 12, ("DLH", "SWR", "EWG", "AUA")
# A local rule, its milestone and its kind.
RULES = (("slot", 9, "alert"), ("tobt", 6, "tobt"), ("far-stand", 7, "alert"))


def free_ports(count: int) -> list[int]:
    """Ports of the loopback interface at which nobody listens."""
    listeners = [socket.create_server(("127.0.0.1", 0)) for _ in range(count)]
    ports = [int(listener.getsockname()[1]) for listener in listeners]
    for listener in listeners:
        listener.close()
    return ports


class Partner:
    """A partner, who waits for each reply."""

    def __init__(self, port: int) -> None:
        end = time.monotonic() + 30
        while True:
            try:
                self.stream = socket.create_connection(("127.0.0.1", port), timeout=30)
                break
            except OSError:
                if time.monotonic() > end:
                    raise
                time.sleep(0.05)
        self.replies = self.stream.makefile("rb")

    def ask(self, line: str) -> str:
        """The reply to a line; OSError where there is no board any more."""
        self.stream.sendall(line.encode() + b"\n")
        reply = self.replies.readline()
        if not reply:
            raise ConnectionError("the board has ended")
        return reply.decode("ascii").strip()


def morning() -> list[tuple[int, str, str]]:
    """The lines of the shipped morning: minutes from its begin, role, and text with its times."""
    rows = []
    for text in (TOP / "examples" / "day.txt").read_text(encoding="utf-8").splitlines():
        _, minute, role, line = text.split(" ", 3)
        rows.append((int(minute), role, line))
    return [(minute - rows[0][0], role, line) for minute, role, line in rows]


def moved(line: str, later: timedelta) -> str:
    """A line with its times as much later."""
    return INSTANT.sub(lambda it: '"' + (datetime.strptime(it[1], FORM) + later).strftime(FORM) + '"', line)


def load(partner: Partner) -> list[str]:
    """Loads the rules; the names of those that the board has taken."""
    names = []
    for name, milestone, kind in RULES:
        program = (TOP / "examples" / "rules" / f"{name}.hex").read_text(encoding="ascii").strip()
        command = {"cmd": "load", "milestone": milestone, "kind": kind, "program": program}
        names += [name] if partner.ask(json.dumps(command)).startswith("ok ") else []
    return names


def after(moment: datetime, minutes: int) -> str:
    """The instant so many minutes after a moment."""
    return (moment + timedelta(minutes=minutes)).strftime(FORM)


def wave(partners: dict[str, Partner], now: datetime) -> None:
    """The flights of the next hours beside those of the morning: some are late, and some plans differ."""
    for number in range(FLIGHTS):
        flight, off = 601 + number, 25 + 9 * number
        texts = {
            "callsign": f"{AIRLINES[number % 4]}{flight}",
            "type": "A320",
            "reg": f"DAI{chr(65 + number)}",
            "dest": "EGLL",
        }
        own = {"sobt": after(now, off), "mttt": 40, "exit": 5, "exot": 10, "stand": 10 + number}
        planned = {**texts, "type": "A319"} if number % 5 == 2 else texts
        reports = [("NM", 1, off + 20 * (number % 4 == 1), planned)]
        if off < 90:
            reports += [("ATC", 6, off - 60, {}), ("APT", 7, off - 55, {}), ("GH", 8, off - 54, {})]
            reports += [("AO", 9, off + 18 * (number % 3 == 1), {}), ("ATC", 10, off + 2, {})]
        partners["APT"].ask(json.dumps({"cmd": "schedule", "flight": flight, **texts, **own}))
        for role, milestone, minutes, more in reports:
            report = {"cmd": "report", "flight": flight, "milestone": milestone, "time": after(now, minutes)}
            partners[role].ask(json.dumps({**report, **more}))


def play(ports: dict[str, int], seconds: float, said: threading.Event) -> None:
    """Plays the morning, and ticks on."""
    partners = {role: Partner(port) for role, port in ports.items()}
    print(f"rules: {', '.join(load(partners['APT']))}", flush=True)
    rows = morning()
    now = datetime.now(timezone.utc).replace(second=0, microsecond=0)
    wave(partners, now)
    later = now - timedelta(minutes=BEFORE) - datetime(2025, 2, 20, 6, 0, tzinfo=timezone.utc)
    for minute, role, line in rows:
        if minute > BEFORE and not said.is_set():
            partners["APT"].ask('{"cmd":"tick"}')
            said.set()
        if minute > BEFORE:
            time.sleep(seconds)
        partners[role].ask(moved(line, later))
    said.set()
    while True:
        partners["APT"].ask('{"cmd":"tick"}')
        time.sleep(60)


def played(ports: dict[str, int], seconds: float, said: threading.Event) -> None:
    """Plays until the board has ended."""
    try:
        play(ports, seconds, said)
    except OSError:
        said.set()


def close(board: "subprocess.Popen[bytes]", control: int) -> None:
    """Closes the board in good order, or ends it."""
    try:
        with socket.create_connection(("127.0.0.1", control), timeout=5) as stream:
            stream.sendall(b"close\n")
            stream.recv(64)
        board.wait(15)
    except (OSError, subprocess.TimeoutExpired):
        board.kill()
        board.wait()


def demo(program: str, web: int, is_opened: bool, is_proved: bool, seconds: float) -> int:
    """Runs the board until Ctrl-C, or until it ends by itself."""
    control, *rest = free_ports(1 + len(ROLES))
    ports = dict(zip(ROLES, rest))
    words = [program, "serve", "--again", "--control", str(control), "--web", f"127.0.0.1:{web}"]
    words += [f"{role}=127.0.0.1:{port}" for role, port in ports.items()]
    null = subprocess.DEVNULL
    # (in a session of its own, so that Ctrl-C comes to this alone)
    board = subprocess.Popen(  # pylint: disable=consider-using-with
        words, stdin=null, stdout=null, stderr=null, start_new_session=True
    )
    said = threading.Event()
    try:
        threading.Thread(target=played, args=(ports, seconds, said), daemon=True).start()
        said.wait(120)
        where = f"http://127.0.0.1:{web}/" + ("" if is_proved else "#unproved")
        about = "" if is_proved else " (this program is not proved, which the page says too)"
        print(f"the board is at {where}{about}; Ctrl-C ends it", flush=True)
        if is_opened:
            webbrowser.open(where)
        status = board.wait()
        print(f"the board has ended, with status {status}", file=sys.stderr)
        return 2
    except KeyboardInterrupt:
        print("the demo ends", flush=True)
        return 0
    finally:
        close(board, control)


def interrupted(*_: object) -> NoReturn:
    raise KeyboardInterrupt


def main() -> int:
    words = Arguments(description="Opens a board to look at, with a morning at today's time.")
    words.add_argument("--program", default=os.environ.get("ACDM") or str(TOP / "acdm"), metavar="PATH")
    words.add_argument("--web", type=int, metavar="PORT", help="where browsers have it; a free port without it")
    words.add_argument("--no-browser", action="store_true", help="open no browser")
    words.add_argument("--unproved", action="store_true", help="say that the program is not proved")
    words.add_argument("--seconds", type=float, default=3, metavar="N", help="from entry to entry; 3")
    given = words.parse_args()
    signal.signal(signal.SIGTERM, interrupted)
    try:
        web = given.web or free_ports(1)[0]
        return demo(given.program, web, not given.no_browser, not given.unproved, given.seconds)
    except OSError as error:
        print(f"demo.py: {error.filename or given.program}: {error.strerror}", file=sys.stderr)
        return 2


if __name__ == "__main__":
    sys.exit(main())
