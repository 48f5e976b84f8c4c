"""Parts of the bridges that need no broker and no library of one: places, ids, replies that are kept, batches."""

import argparse
import json
import sys
import unittest
from types import SimpleNamespace
from typing import Any
from unittest.mock import MagicMock, patch

from support import name_of, room_of, small_feed

import bridge
import inbound

NAMES = [name_of(small_feed(1, session)) for session in (1, 2, 3)]
# (what stands for the libraries, of which nothing is called)
STAND_INS: dict[str, Any] = {name: MagicMock() for name in ("proton", "proton.utils", "confluent_kafka", "paho")}
STAND_INS["paho.mqtt"] = STAND_INS["paho"].mqtt
STAND_INS["paho.mqtt.client"] = STAND_INS["paho"].mqtt.client
STAND_INS["paho"].mqtt.client.Client = type("Client", (), {"__init__": lambda *_, **__: None})


def module(name: str) -> Any:
    """A bridge as a module, without its library."""
    with patch.dict(sys.modules, STAND_INS):
        sys.modules.pop(name, None)
        return __import__(name)


class State(unittest.TestCase):
    """What a bridge knows without asking."""

    def test_a_place_that_was_kept_is_the_one_to_go_on_from(self) -> None:
        """Also in the bridge that has kept it, after a break."""
        state = bridge.StateFile(room_of(self) / "next")
        state.write(bridge.Place(NAMES[0], 7))
        self.assertEqual(bridge.Place(NAMES[0], 7), state.place)
        self.assertEqual("0", bridge.text_of_place(bridge.Place()))

    def test_numbers_of_entries(self) -> None:
        self.assertEqual((0, 2**64 - 1), (bridge.entry_number("0"), bridge.entry_number(str(2**64 - 1))))
        for text in (str(2**64), "-1", "", "1.0", "\u0661", "1" * 21):
            with self.assertRaises(argparse.ArgumentTypeError, msg=text):
                bridge.entry_number(text)

    def test_a_password_is_the_first_line_as_it_is_now(self) -> None:
        file = room_of(self) / "password"
        security = bridge.Security("me", file, None, None, None)
        for text, password in (("one\ntwo\n", "one"), ("three", "three"), ("", ""), (" a b \n", " a b ")):
            file.write_text(text, encoding="utf-8")
            self.assertEqual(password, security.password())
        with patch.dict("os.environ", {bridge.PASSWORD: "four"}):
            self.assertEqual("four", bridge.Security("me", None, None, None, None).password())
        self.assertIsNone(bridge.Security(None, None, None, None, None).password())

    def test_what_is_said_is_one_line(self) -> None:
        self.assertEqual("a b c", bridge.one_line("a\nb  c\r\n"))
        self.assertEqual("TimeoutError", bridge.one_line(TimeoutError()))


class In(unittest.TestCase):
    """Messages that come by a broker."""

    def test_ids(self) -> None:
        """A number is another id than its text; one of 1 to 200 printable characters is kept."""
        self.assertEqual(["1", "int:1", None], [inbound.id_text(it) for it in ("1", 1, None)])
        for identity in ("x", "x" * 200, "\u00e4 b"):
            self.assertEqual(identity, inbound.checked(identity))
        for identity in ("", "x" * 201, "a\nb", "\x7f"):
            with self.assertRaisesRegex(inbound.NoLine, "1 to 200 printable"):
                inbound.checked(identity)
        self.assertEqual("a", inbound.own_id({"id": "a"}))
        commands: tuple[dict[str, Any], ...] = ({"id": 7}, {}, {"id": None})
        for command in commands:
            with self.assertRaisesRegex(inbound.NoLine, "it has no id"):
                inbound.own_id(command)

    def test_a_message_of_kafka_without_an_id_is_known_by_its_place(self) -> None:
        bodies = (b'{"cmd":"tick"}', b'{"cmd":"tick","id":"a"}', b"{", None, b'{"id":7}')
        self.assertEqual(["2/5", None, "2/5", "2/5", "2/5"], [inbound.offset_id(it, 2, 5) for it in bodies])

    def test_bytes_of_a_message(self) -> None:
        given = ("\u00e4", b"a", memoryview(b"b"), 7, None)
        self.assertEqual(["\u00e4".encode(), b"a", b"b", b"", b""], [inbound.data_of(it) for it in given])

    def test_a_line_has_70000_bytes_at_most_and_no_line_feed(self) -> None:
        body = json.dumps({"a": "x" * 69_991}).encode()
        self.assertEqual(70_000, len(body))
        self.assertEqual(69_999, len(inbound.line_of(body)[1]))
        with self.assertRaisesRegex(inbound.NoLine, "more than 70000 bytes"):
            inbound.line_of(body + b" ")
        self.assertEqual('{"a":"\\n\\u00e4"}', inbound.line_of('{ "a" :\n"\\n\u00e4" }'.encode())[1])

    def test_what_is_kept_of_messages(self) -> None:
        """Over a new beginning: what was replied and may not be told yet, and behind which offset it goes on."""
        file = room_of(self) / "state"
        inbox = inbound.Inbox(file)
        for identity in "abc":
            inbox.begin(identity, "{}", 3, NAMES[0])
        for identity in "ab":
            inbox.finish(identity, f"ok {identity}")
        inbox.tell("a")
        self.assertEqual([(None, None), (0, 9)], [(inbox.following(0), inbox.following(1)), self.follows(inbox, 9)])
        inbox.base.close()
        inbox = inbound.Inbox(file)
        self.assertEqual([("b", "ok b")], inbox.untold())
        self.assertEqual(("{}", 3, NAMES[0], None), inbox.known("c"))
        self.assertEqual((None, (0, 12)), (inbox.known("d"), self.follows(inbox, 12)))
        inbox.finish("a", "ok again")
        self.assertEqual([("a", "ok again"), ("b", "ok b")], sorted(inbox.untold()))
        inbox.base.close()

    def follows(self, inbox: inbound.Inbox, offset: int) -> tuple[int, int]:
        """What follows in two partitions, once one has come to an offset."""
        inbox.follow(0, 0)
        inbox.follow(1, offset)
        return inbox.following(0) or 0, inbox.following(1) or 0

    def test_each_kind_of_broker_has_its_port(self) -> None:
        ports = {"amqp": 5672, "amqps": 5671, "mqtt": 1883, "mqtts": 8883, "kafka": 9092, "kafkas": 9093}
        for kind, port in ports.items():
            found = inbound.place_at(f"{kind}://broker.example/a.b")
            wanted = (kind.removesuffix("s"), kind.endswith("s"), f"broker.example:{port}", "a.b")
            self.assertEqual(wanted, found)
        found = inbound.place_at("mqtts://[::1]/t")
        self.assertEqual(("[::1]:8883", ("::1", 8883)), (found.servers, found.address()))
        self.assertEqual(("::1", 99), inbound.place_at("mqtt://[::1]:99/t").address())


class Out(unittest.TestCase):
    """The bridges that hand entries over."""

    def test_a_queue_of_amqp(self) -> None:
        queue_at = module("to_amqp").queue_at
        for url, found in (
            ("amqp://h/q", ("amqp://h:5672", "q", False)),
            ("amqps://h/a/b", ("amqps://h:5671", "a/b", True)),
            ("amqp://[::1]/q", ("amqp://[::1]:5672", "q", False)),
            ("amqps://[::1]:99/q", ("amqps://[::1]:99", "q", True)),
        ):
            self.assertEqual(found, queue_at(url))

    def test_brokers_of_kafka(self) -> None:
        kafka = module("to_kafka")
        self.assertEqual("a:1,[::1]:2,127.0.0.1:3", kafka.servers("a:1,[::1]:2,3"))
        self.assertEqual("a" * 249, kafka.topic_name("a" * 249))
        with self.assertRaises(argparse.ArgumentTypeError):
            kafka.topic_name("a" * 250)

    def test_a_name_is_checked_and_a_key_may_stand_by_its_certificate(self) -> None:
        kafka, room = module("to_kafka"), room_of(self)
        given = SimpleNamespace(servers="h:1", security_protocol="ssl", sasl_mechanism="PLAIN")
        for key in (None, room / "key"):
            found = kafka.settings_of(given, bridge.Security(None, None, room / "ca", room / "cert", key))
            self.assertEqual("https", found["ssl.endpoint.identification.algorithm"])
            self.assertEqual(str(key or room / "cert"), found["ssl.key.location"])
            self.assertEqual((str(room / "ca"), False), (found["ssl.ca.location"], "sasl.username" in found))
        given.security_protocol = "sasl_plaintext"
        with patch.dict("os.environ", {bridge.PASSWORD: "word"}):
            found = kafka.settings_of(given, bridge.Security("me", None, None, None, None))
        self.assertEqual(
            ("me", "word", "PLAIN"), tuple(found[f"sasl.{it}"] for it in ("username", "password", "mechanism"))
        )
        self.assertFalse([it for it in found if it.startswith("ssl.")])

    def test_all_entries_go_to_kafka_in_batches(self) -> None:
        kafka, lines = module("to_kafka"), [json.loads(line) for line in small_feed(401)]
        sent: list[list[int]] = []
        given = SimpleNamespace(topic="acdm", transactional_id=None, first=None, feed=("h", 1))
        parts: dict[str, Any] = {
            "settings_of": MagicMock(),
            "producer_at": MagicMock(),
            "going_on": lambda *_: (bridge.Place(NAMES[0], 0), None),
            "feed_lines": lambda *_: iter([lines]),
            "hand_over": lambda _producer, _topic, batch, _journal: sent.append([it["entry"] for it in batch]),
        }
        carried = MagicMock()
        kafka.KafkaException = type("KafkaException", (Exception,), {})
        with patch.multiple(kafka, **parts):
            kafka.carry(given, None, carried)
        self.assertEqual([200, 200, 1], [len(batch) for batch in sent])
        self.assertEqual((list(range(401)), 3), (sum(sent, []), carried.call_count))

    def test_the_last_entries_are_looked_for_from_the_end_in_growing_parts(self) -> None:
        kafka = module("to_kafka")
        asked: list[int] = []

        def entries_from(_consumer: object, start: Any, _high: int) -> list[str]:
            asked.append(start)
            return ["found"] if start <= 100 else []

        with patch.multiple(kafka, entries_from=entries_from, TopicPartition=lambda _topic, _number, start: start):
            partition = SimpleNamespace(topic="acdm", partition=0)
            self.assertEqual(["found"], kafka.last_entries(None, partition, 7, 1000))
            self.assertEqual([936, 744, 7], asked)
            asked.clear()
            self.assertEqual([], kafka.last_entries(None, partition, 5, 5))
            self.assertEqual([], kafka.last_entries(None, partition, 990, 1000))
        self.assertEqual([990], asked)

    def test_places_that_mqtt_tells(self) -> None:
        """Of one journal the greatest number counts, of one that was left none; another one is taken."""
        mqtt = module("to_mqtt")
        broker = mqtt.Broker("a/b", None)
        for text, place in (
            (f"7 {NAMES[0]}", (NAMES[0], 7)),
            (f"5 {NAMES[0]}", (NAMES[0], 7)),
            (f"9 {NAMES[0]}", (NAMES[0], 9)),
            (f"2 {NAMES[1]}", (NAMES[1], 2)),
        ):
            broker.take_place(text)
            self.assertEqual(place, (broker.place.journal, broker.place.next))
        broker.turn_to(NAMES[2], 3)
        broker.take_place(f"50 {NAMES[1]}")
        self.assertEqual((NAMES[2], 3), (broker.place.journal, broker.place.next))
        with self.assertRaisesRegex(OSError, "a/b/next does not hold"):
            broker.take_place("seven")

    def test_what_mqtt_brings(self) -> None:
        """A place, a flight that is retained, and the token of this connection alone."""
        broker = module("to_mqtt").Broker("a", None)
        for topic, text, retain in (
            ("a/next", f"7 {NAMES[0]}", True),
            ("a/next", "", True),
            ("a/flight/7", "{}", True),
            ("a/flight/8", "{}", False),
            ("a/flight/9", "", True),
            ("a/bridge", "another", True),
            ("a/bridge", broker.token, False),
        ):
            broker.receive(None, None, SimpleNamespace(topic=topic, payload=text.encode(), retain=retain))
        found = [broker.events.get() for _ in range(broker.events.qsize())]
        self.assertEqual([("place", f"7 {NAMES[0]}"), ("flight", "flight/7"), ("token", broker.token)], found)


if __name__ == "__main__":
    unittest.main()
