"""The bridge to Kafka over a stand-in for a broker that asks for TLS, user and password."""

import ssl
import unittest

from feed_stub import FeedStub
from kafka_stub import KafkaStub
from support import PASSWORD, Bridge, has_library, make_certificates, room_of, small_feed, until

LINES = small_feed(40)


@unittest.skipUnless(has_library("kafka"), "python3-confluent-kafka is not there")
class KafkaOverTls(unittest.TestCase):
    """A broker that asks for TLS, the bridge's certificate, and user and password."""

    def test_a_wrong_password_is_said_and_tried_again(self) -> None:
        """The password's file is put right while the bridge waits."""
        room = room_of(self)
        make_certificates(room)
        context = ssl.SSLContext(ssl.PROTOCOL_TLS_SERVER)
        context.load_cert_chain(room / "server.pem", room / "server.key")
        context.load_verify_locations(room / "ca.pem")
        context.verify_mode = ssl.CERT_REQUIRED
        broker = KafkaStub(context=context, users={"bridge": PASSWORD}).start()
        self.addCleanup(broker.stop)
        feed = FeedStub(LINES)
        self.addCleanup(feed.close)
        password = room / "password"
        password.write_text("wrong\n", encoding="ascii")
        words = ["--security-protocol", "sasl_ssl", "--user", "bridge", "--cafile", room / "ca.pem"]
        words += ["--cert", room / "server.pem", "--key", room / "server.key"]
        bridge = Bridge("kafka", feed.address, f"127.0.0.1:{broker.port}", *words, "--password-file", password)
        self.addCleanup(bridge.kill)
        self.assertTrue(until(lambda: bridge.has_said("wrong user or password"), 40), bridge.said)
        self.assertEqual(broker.partitions[0].end(), 0)
        foreign = Bridge("kafka", feed.address, f"localhost:{broker.port}", *words, "--password-file", password)
        self.addCleanup(foreign.kill)
        self.assertTrue(until(lambda: foreign.has_said("certificate verify failed"), 40), foreign.said)
        password.write_text(f"{PASSWORD}\n", encoding="ascii")
        self.assertTrue(until(lambda: sum(batch.count for batch in broker.partitions[0].batches) > 40), bridge.said)


if __name__ == "__main__":
    unittest.main()
