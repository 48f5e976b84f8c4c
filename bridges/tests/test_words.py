"""Bad words: each bridge ends with one line on standard error that names the word and the cause, and status 2."""

import os
import subprocess
import unittest

from support import BRIDGES, LIBRARIES, PYTHON, has_library, make_certificates, room_of

FEED = "127.0.0.1:9"
GOOD = {
    "amqp": [FEED, "amqp://127.0.0.1:9/acdm", "STATE"],
    "kafka": [FEED, "127.0.0.1:9"],
    "mqtt": [FEED, "127.0.0.1:9"],
    "postgresql": [FEED, "host=127.0.0.1 port=9 dbname=acdm"],
}
WITHOUT_TLS = "the address is one without TLS"


class BadWords(unittest.TestCase):
    """One line and status 2."""

    def setUp(self) -> None:
        self.room = room_of(self)

    def ends(self, bridge: str, words: list[str], *parts: str) -> None:
        """Runs a bridge, whose line has to have these parts."""
        words = [str(self.room / "next") if word == "STATE" else word for word in words]
        command = [PYTHON, str(BRIDGES / f"to_{bridge}.py"), *words]
        environment = {name: value for name, value in os.environ.items() if name != "BRIDGE_PASSWORD"}
        done = subprocess.run(command, capture_output=True, text=True, timeout=20, check=False, env=environment)
        self.assertEqual(done.returncode, 2, done)
        self.assertEqual(done.stdout, "")
        self.assertEqual(done.stderr.count("\n"), 1, done.stderr)
        self.assertTrue(done.stderr.startswith(f"to_{bridge}.py: "), done.stderr)
        for part in parts:
            self.assertIn(part, done.stderr)

    def test_addresses(self) -> None:
        """The feed's address is none, or a word is missing or one too many."""
        for bridge in filter(has_library, LIBRARIES):
            for word in (":4100", "host:70000"):
                self.ends(bridge, [word, *GOOD[bridge][1:]], "argument feed", repr(word), "is no address")
            self.ends(bridge, GOOD[bridge][:1], "required")
            self.ends(bridge, [*GOOD[bridge], "--none"], "--none")

    @unittest.skipUnless(has_library("amqp"), "python3-qpid-proton is not there")
    def test_amqp(self) -> None:
        """URLs and files of the number."""
        for url in (
            "127.0.0.1:5672/acdm",
            "http://h:1/q",
            "amqp://h:1",
            "amqp://h:1/",
            "amqp://:1/q",
            "amqp://h:x/q",
            "amqp://h:70000/q",
        ):
            self.ends("amqp", [FEED, url, "STATE"], "argument url", url, "amqp://HOST:PORT/QUEUE")
        self.ends("amqp", [FEED, "amqp://me:secret@h:1/q", "STATE"], "argument url", "--user")
        (self.room / "next").write_text("seven\n", encoding="ascii")
        self.ends("amqp", GOOD["amqp"], "/next: it does not hold the number of an entry")
        self.ends("amqp", [*GOOD["amqp"][:2], str(self.room)], str(self.room))
        self.ends("amqp", [*GOOD["amqp"][:2], str(self.room / "none" / "next")], "there is no directory")

    @unittest.skipUnless(has_library("kafka"), "python3-confluent-kafka is not there")
    def test_kafka(self) -> None:
        """Brokers, protocols and numbers."""
        self.ends("kafka", [FEED, "h:1,h"], "argument servers", "'h'", "is no address")
        self.ends("kafka", [*GOOD["kafka"], "--security-protocol", "tls"], "--security-protocol", "'tls'")
        self.ends("kafka", [*GOOD["kafka"], "--security-protocol", "sasl_ssl"], "--user")
        self.ends("kafka", [*GOOD["kafka"], "--first", "-1"], "--first")
        self.ends("kafka", [*GOOD["kafka"], "--first", "x"], "--first", "'x'")
        self.ends("kafka", [*GOOD["kafka"], "--topic", "a b"], "--topic", "'a b'")

    @unittest.skipUnless(has_library("mqtt"), "python3-paho-mqtt is not there")
    def test_mqtt(self) -> None:
        """Topics, files and users."""
        self.ends("mqtt", [FEED, "h"], "argument broker", "'h'", "is no address")
        self.ends("mqtt", [*GOOD["mqtt"], "--topic", "a/#"], "--topic", "'a/#'")
        self.ends("mqtt", [*GOOD["mqtt"], "--user", "me"], "--user me", "BRIDGE_PASSWORD")
        self.ends("mqtt", [*GOOD["mqtt"], "--password-file", "/etc/hostname"], "--password-file", "--user")

    @unittest.skipUnless(has_library("postgresql"), "python3-psycopg2 is not there")
    def test_postgresql(self) -> None:
        """Connection strings."""
        self.ends("postgresql", [FEED, "nonsense"], "argument dsn", "'nonsense'")
        self.ends("postgresql", [FEED, "dbname=acdm nowhere=1"], "argument dsn", "nowhere")
        self.ends("postgresql", [FEED, "dbname=acdm password=secret"], "argument dsn", "PGPASSWORD")

    def test_certificates(self) -> None:
        """Files that are not there, are none, or are asked for without TLS."""
        make_certificates(self.room)
        bad, good, key = self.room / "bad.pem", str(self.room / "server.pem"), str(self.room / "server.key")
        bad.write_text("no certificate\n", encoding="ascii")
        tls = {"amqp": [FEED, "amqps://127.0.0.1:9/acdm", "STATE"], "mqtt": [*GOOD["mqtt"], "--tls"]}
        tls["kafka"] = [*GOOD["kafka"], "--security-protocol", "ssl"]
        for bridge, words in tls.items():
            if has_library(bridge):
                self.ends(bridge, [*words, "--cafile", "/none.pem"], "--cafile", "/none.pem: No such file")
                self.ends(bridge, [*words, "--cafile", str(bad)], str(bad))
                self.ends(bridge, [*words, "--cert", str(bad)], str(bad))
                self.ends(bridge, [*words, "--cert", good, "--key", "/none.key"], "--key", "/none.key: No such file")
                self.ends(bridge, [*words, "--key", key], "--key: no --cert")
        for bridge in ("amqp", "kafka"):
            if has_library(bridge):
                self.ends(bridge, [*GOOD[bridge], "--cafile", good], "--cafile", WITHOUT_TLS)


if __name__ == "__main__":
    unittest.main()
