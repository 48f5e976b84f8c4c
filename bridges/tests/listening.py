"""A port of the loopback interface, for tests."""

import socket
import threading
from collections.abc import Callable


class Listening:
    """Listens, and serves each connection in a thread of its own."""

    def __init__(self, serve: Callable[[socket.socket], None], port: int = 0) -> None:
        self.serve = serve
        self.listener = socket.create_server(("127.0.0.1", port))
        self.port: int = self.listener.getsockname()[1]
        threading.Thread(target=self.accept, daemon=True).start()

    def accept(self) -> None:
        """Takes connections until it is closed."""
        while True:
            try:
                stream = self.listener.accept()[0]
            except OSError:
                return
            threading.Thread(target=self.serve, args=(stream,), daemon=True).start()

    def close(self) -> None:
        """Takes no further connections."""
        self.listener.shutdown(socket.SHUT_RDWR)
        self.listener.close()
