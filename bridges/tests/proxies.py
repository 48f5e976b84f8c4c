"""Proxies before a broker, for tests: one is slow to reply, and one kills the bridge in the middle of its talk."""

import contextlib
import random
import socket
import threading
import time
from collections.abc import Callable
from itertools import count

from listening import Listening


class Proxy:
    """Passes on what comes, piece by piece, both ways."""

    def __init__(self, port: int) -> None:
        self.target = port
        self.listening = Listening(self.join)
        self.port = self.listening.port

    def join(self, near: socket.socket) -> None:
        """Joins a connection with one to the broker."""
        far = socket.create_connection(("127.0.0.1", self.target))
        treat = self.treatment()
        threading.Thread(target=self.pass_on, args=(near, far, lambda data: treat(data, False)), daemon=True).start()
        self.pass_on(far, near, lambda data: treat(data, True))

    def treatment(self) -> Callable[[bytes, bool], bytes]:
        """What is made of each piece of a connection, by whether it is a reply: OSError ends the connection."""
        raise NotImplementedError

    def pass_on(self, source: socket.socket, sink: socket.socket, treat: Callable[[bytes], bytes]) -> None:
        """Passes pieces on, one way."""
        try:
            while data := source.recv(1 << 16):
                sink.sendall(treat(data))
            sink.shutdown(socket.SHUT_WR)
        except OSError:
            for stream in (source, sink):
                with contextlib.suppress(OSError):
                    stream.shutdown(socket.SHUT_RDWR)


class SlowProxy(Proxy):
    """The first reply passes, and the next are held back until so many seconds are over."""

    def __init__(self, port: int, seconds: float) -> None:
        super().__init__(port)
        self.seconds = seconds

    def treatment(self) -> Callable[[bytes, bool], bytes]:
        """Waits with each reply but the first."""
        begun, replies = time.monotonic(), count()

        def treat(data: bytes, is_reply: bool) -> bytes:
            if is_reply and next(replies) > 0:
                time.sleep(max(0.0, begun + self.seconds - time.monotonic()))
            return data

        return treat


class KillingProxy(Proxy):
    """Kills the bridge at a piece by chance of each connection, which passes or not, so many times."""

    PIECES = range(4, 24)

    def __init__(self, port: int, chance: random.Random, times: int) -> None:
        super().__init__(port)
        self.chance, self.left = chance, times
        self.kill: Callable[[], None] = lambda: None

    def treatment(self) -> Callable[[bytes, bool], bytes]:
        """Counts pieces to the one that is the last."""
        last, passes, pieces = self.chance.choice(self.PIECES), self.chance.random() < 0.5, count(1)

        def treat(data: bytes, _is_reply: bool) -> bytes:
            piece = next(pieces)
            if piece < last or not self.left:
                return data
            if piece == last and passes:
                threading.Timer(0.01, self.end).start()
                return data
            if piece == last:
                self.end()
            raise ConnectionError

        return treat

    def end(self) -> None:
        """Kills the bridge."""
        self.left -= 1
        self.kill()
