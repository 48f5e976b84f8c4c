"""What the tests of `inbound.py` share: lines with ids, the bridge, and the board that they go to."""

import json
import os
import sys
import time
from pathlib import Path
from typing import Any

from support import BRIDGES, PYTHON, Bridge

TOP = BRIDGES.parent
PLACES = [TOP / "crates/acdm/out/acdm", TOP / "target/unproved/acdm"]
PROGRAM = Path(os.environ["ACDM"]) if os.environ.get("ACDM") else next((it for it in PLACES if it.is_file()), PLACES[0])
os.environ["ACDM"] = str(PROGRAM)
sys.path.insert(0, str(TOP / "clients" / "tests"))

from boards import Caller, Serving  # noqa: E402  pylint: disable=wrong-import-position

FLIGHT = 7
__all__ = ["Caller", "Serving"]


def instant(minutes: int) -> str:
    """The instant so many minutes from now."""
    return time.strftime("%Y-%m-%dT%H:%M:00Z", time.gmtime(time.time() + 60 * minutes))


class Lines(Serving):
    """A board of a handler whose lines come by a broker, and of others who speak for themselves."""

    def __init__(self) -> None:
        super().__init__(["GH", "APT", "NM", "AO"])
        airport, manager = Caller(self.ports[1]), Caller(self.ports[2])
        texts = {"callsign": "DLH7", "type": "A320", "reg": "DAIBC", "dest": "EGLL"}
        place = {"mttt": 40, "exit": 5, "exot": 10, "stand": 12}
        airport.ask({"cmd": "schedule", "flight": FLIGHT, "sobt": instant(60), **texts, **place})
        manager.ask({"cmd": "report", "flight": FLIGHT, "milestone": 1, "time": instant(60), **texts})
        airport.close()
        manager.close()

    def __enter__(self) -> "Lines":
        return self

    def bridge(self, url: str, state: Path, *words: object, replies: str = "replies") -> Bridge:
        """The bridge from a queue or topic to the handler's address."""
        feed, partner = f"127.0.0.1:{self.changes}", f"127.0.0.1:{self.ports[0]}"
        bridge = Inbound(feed, partner, url, state, "--replies", replies, *words)
        bridge.begin()
        return bridge

    def commands(self) -> list[dict[str, Any]]:
        """The commands of the handler's session, in order, but for the questions that a bridge asks."""
        entries = [entry for entry in self.entries() if entry["session"] == 1]
        return [entry["command"] for entry in entries if entry["command"]["cmd"] != "show"]


class Inbound(Bridge):
    """A bridge that takes lines."""

    def __init__(self, *words: object) -> None:  # pylint: disable=super-init-not-called
        self.command = [PYTHON, str(BRIDGES / "inbound.py"), *map(str, words)]
        self.environment = dict(os.environ)
        self.said: list[str] = []


def target(number: int) -> str:
    """The line of message NUMBER: each has a time of its own, so that entries tell which message made them."""
    line = {"id": f"m{number}", "cmd": "report", "flight": FLIGHT, "milestone": 9}
    return json.dumps({**line, "time": instant_of(number)})


def instant_of(number: int) -> str:
    return f"2030-01-{1 + number // 1440:02}T{number // 60 % 24:02}:{number % 60:02}:00Z"


def check_once(board: Lines, count: int) -> str:
    """Nothing where each message made one entry, in order; else what is wrong."""
    times = [command["time"] for command in board.commands()]
    wanted = [instant_of(number) for number in range(count)]
    if times == wanted:
        return ""
    return f"{len(times)} entries of {count}, {len(set(times))} of them different"


def check_replies(replies: list[str], count: int) -> str:
    """Nothing where each message has its reply, each time the same; else what is wrong."""
    told: dict[str, set[str]] = {}
    for text in replies:
        reply = json.loads(text)
        told.setdefault(reply["id"], set()).add(reply["reply"])
    if set(told) != {f"m{number}" for number in range(count)}:
        return f"replies to {len(told)} of {count} messages"
    if any(len(texts) != 1 or not next(iter(texts)).startswith("ok ") for texts in told.values()):
        return "a message has two replies, or was refused"
    return ""
