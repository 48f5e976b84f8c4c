"""Lines of the feed for tests, by docs/FORMATS.md, and a server that sends what it is given."""
import json
import socket
import threading
from typing import Any

NAME, OTHER = "0123456789abcdef" * 2, "fedcba9876543210" * 2
TIMES = "sobt eobt ctot otot eldt aldt aibt acgt tobt tsat asbt ardt asrt asat aobt atot".split()
TEXTS = "callsign scheduled_type plan_type scheduled_reg plan_reg scheduled_dest plan_dest".split()


def record(flight: int, **fields: Any) -> dict[str, Any]:
    """A record with nothing set but these fields."""
    numbers = {"mttt": 40, "exit": 5, "exot": 10, "stand": 12}
    empty = {
        "flight": flight,
        **dict.fromkeys(TEXTS, ""),
        **dict.fromkeys(TIMES),
        **numbers,
        "reached": [],
        "alerts": [],
    }
    return {**empty, **fields}


def entry(number: int, clock: str, who: str, command: dict[str, Any], *changed: dict[str, Any], code: int = 0) -> str:
    """The line of an entry at a clock time of 2025-02-20, of a session and a role."""
    session, role = who.split()
    line = {"entry": number, "minute": f"2025-02-20T{clock}:00Z", "session": int(session), "role": role}
    outcome: Any = {"code": code, "name": "not_owner"} if code else "ok"
    return json.dumps({**line, "command": command, "outcome": outcome, "answers": [], "changed": changed})


def board_line(*flights: dict[str, Any], next_entry: int = 1, journal: str = NAME) -> bytes:
    return json.dumps({"journal": journal, "next": next_entry, "room": 100, "flights": flights}).encode() + b"\n"


def journal_line(next_entry: int = 0, journal: str = NAME) -> bytes:
    return json.dumps({"journal": journal, "next": next_entry, "room": 100}).encode() + b"\n"


class Answering:
    """A feed whose callers are sent, one after another, what is given for each; it keeps what each asked for."""

    def __init__(self, *answers: bytes) -> None:
        self.answers, self.asked = list(answers), list[str]()
        self.closed: list[bytes] = []
        self.listener = socket.create_server(("127.0.0.1", 0))
        self.port = int(self.listener.getsockname()[1])
        self.thread = threading.Thread(target=self.accept, daemon=True)
        self.thread.start()

    def __enter__(self) -> "Answering":
        return self

    def __exit__(self, *_: object) -> None:
        self.listener.close()

    def accept(self) -> None:
        for answer in self.answers:
            try:
                stream = self.listener.accept()[0]
            except OSError:
                return
            with stream:
                stream.settimeout(60)
                try:
                    self.asked.append(stream.makefile().readline().rstrip("\n"))
                    stream.sendall(answer)
                    stream.shutdown(socket.SHUT_WR)
                    self.closed.append(stream.recv(1))
                except OSError:
                    pass


class Sending:
    """A server that sends each caller the same, and closes, or goes on for ever with a part of a line."""

    def __init__(self, data: bytes, endless: bytes = b"", stays: bool = False) -> None:
        self.data, self.endless, self.stays = data, endless, stays
        self.listener = socket.create_server(("127.0.0.1", 0))
        self.port = int(self.listener.getsockname()[1])
        self.thread = threading.Thread(target=self.accept, daemon=True)
        self.thread.start()

    def __enter__(self) -> "Sending":
        return self

    def __exit__(self, *_: object) -> None:
        self.listener.close()

    def accept(self) -> None:
        while True:
            try:
                stream = self.listener.accept()[0]
            except OSError:
                return
            with stream:
                try:
                    stream.sendall(self.data)
                    while self.endless:
                        stream.sendall(self.endless)
                    if not self.stays:
                        stream.shutdown(socket.SHUT_WR)
                    stream.settimeout(5)
                    while stream.recv(100):
                        pass
                except OSError:
                    pass
