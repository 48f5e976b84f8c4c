"""A stand-in for `acdm serve --changes`, for tests."""

import contextlib
import json
import socket
import time

from listening import Listening
from support import name_of


class FeedStub:
    """Sends the lines of a feed as `serve --changes` does; they come one by one, over so many seconds."""

    def __init__(self, lines: list[str], seconds: float = 0) -> None:
        self.lines, self.begun, self.seconds = lines, time.monotonic(), seconds
        self.streams: set[socket.socket] = set()
        self.listening = Listening(self.send)
        self.address = f"127.0.0.1:{self.listening.port}"

    def count(self) -> int:
        """How many lines there are by now."""
        passed = time.monotonic() - self.begun
        return len(self.lines) if passed >= self.seconds else int(len(self.lines) * passed / self.seconds)

    def turn_to(self, lines: list[str]) -> None:
        """Begins anew with other lines, as another board does: all connections end."""
        self.lines = lines
        for stream in list(self.streams):
            with contextlib.suppress(OSError):
                stream.shutdown(socket.SHUT_RDWR)

    def send(self, stream: socket.socket) -> None:
        """Sends the lines from the number that the first line names, behind the name of the journal."""
        lines = self.lines
        self.streams.add(stream)
        try:
            number, count = int(stream.makefile("r").readline().split()[1]), self.count()
            is_named = number > count > 0
            if number > count:
                stream.sendall(told(lines[:count], count, flights=[]))
                number = count
            while self.lines is lines:
                count = self.count()
                if count and not is_named:
                    stream.sendall(told(lines, number))
                    is_named = True
                stream.sendall("".join(lines[number:count]).encode())
                number = count
                time.sleep(0.02)
        except (OSError, IndexError, ValueError):
            pass
        self.streams.discard(stream)
        stream.close()

    def close(self) -> None:
        """Takes no further connections."""
        self.listening.close()


def told(lines: list[str], number: int, **more: object) -> bytes:
    """The line of a journal, or of a board."""
    line = {"journal": name_of(lines), "next": number, "room": 100, **more}
    return json.dumps(line, separators=(",", ":")).encode() + b"\n"
