"""A broker that is away, refuses, or closes: each bridge says so and tries again, and ends at none of these."""

import socket
import unittest
from functools import partial

from feed_stub import FeedStub
from listening import Listening
from support import LIBRARIES, Bridge, has_library, room_of, small_feed, until

NOT_AUTHORISED = bytes([0x20, 2, 0, 5])


class Refusing:
    """A port whose connections get some bytes and are closed."""

    def __init__(self, reply: bytes = b"") -> None:
        self.reply, self.count = reply, 0
        self.listening = Listening(self.refuse)
        self.port = self.listening.port

    def refuse(self, stream: socket.socket) -> None:
        """Replies to the first bytes of a connection, and closes it."""
        self.count += 1
        with stream:
            stream.recv(4096)
            stream.sendall(self.reply)


class Again(unittest.TestCase):
    """What each bridge says at its tries."""

    def setUp(self) -> None:
        self.state = room_of(self) / "next"
        self.feed = FeedStub(small_feed(3))
        self.addCleanup(self.feed.close)

    def bridge_to(self, name: str, port: int) -> Bridge:
        """A bridge to a port."""
        target = {
            "amqp": f"amqp://127.0.0.1:{port}/acdm",
            "postgresql": f"host=127.0.0.1 port={port} dbname=acdm sslmode=disable",
        }
        words = [target.get(name, f"127.0.0.1:{port}"), *([self.state] if name == "amqp" else [])]
        bridge = Bridge(name, self.feed.address, *words)
        self.addCleanup(bridge.kill)
        return bridge

    def check(self, port: int) -> None:
        """Each bridge fails twice at a port, says so in a line each time, and runs on."""
        bridges = {name: self.bridge_to(name, port) for name in filter(has_library, LIBRARIES)}
        for name, bridge in bridges.items():
            with self.subTest(name):
                self.assertTrue(until(partial(bridge.has_said, "the next try is in 2 s")), bridge.said)
                self.assertEqual([line.rpartition(" is in ")[2] for line in bridge.said[:2]], ["1 s\n", "2 s\n"])
                self.assertTrue(all(line.startswith(f"to_{name}.py: ") for line in bridge.said), bridge.said)
                self.assertIsNone(bridge.process.poll())

    def test_nobody_listens(self) -> None:
        """The broker is away."""
        with socket.create_server(("127.0.0.1", 0)) as listener:
            port = listener.getsockname()[1]
        self.check(port)

    def test_the_connection_is_closed(self) -> None:
        """Something listens, and closes."""
        refusing = Refusing()
        self.addCleanup(refusing.listening.close)
        self.check(refusing.port)

    @unittest.skipUnless(has_library("mqtt"), "python3-paho-mqtt is not there")
    def test_mqtt_refuses(self) -> None:
        """A CONNACK that says: not authorised."""
        refusing = Refusing(NOT_AUTHORISED)
        self.addCleanup(refusing.listening.close)
        bridge = self.bridge_to("mqtt", refusing.port)
        self.assertTrue(until(lambda: refusing.count == 2), bridge.said)
        self.assertIn("the broker refuses: Connection Refused: not authorised", bridge.said[0])


if __name__ == "__main__":
    unittest.main()
