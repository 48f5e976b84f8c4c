"""Lines that come by a broker: each message is entered once and replied, over a stand-in for Kafka and by itself."""

import contextlib
import io
import json
import sqlite3
import unittest
from functools import partial
from pathlib import Path
from typing import Any

from brokers_in import FLIGHT, PROGRAM, Caller, Inbound, Lines, check_once, check_replies, instant_of, target
from inbound import Entering, Inbox, place_at
from kafka_stub import KafkaStub
from support import has_library, read_by, room_of, until

COUNT = 30


@unittest.skipUnless(PROGRAM.is_file(), f"there is no program at {PROGRAM}")
class Entered(unittest.TestCase):
    """What becomes of a message, without a broker."""

    def setUp(self) -> None:
        self.board = Lines()
        self.addCleanup(self.board.__exit__)
        self.file = room_of(self) / "state"
        self.again()

    def again(self) -> None:
        """A bridge that begins, with what the one before has kept."""
        partner, feed = ("127.0.0.1", self.board.ports[0]), ("127.0.0.1", self.board.changes)
        self.inbox = Inbox(self.file)
        self.entering = Entering(partner, feed, self.inbox)
        self.addCleanup(self.entering.partner.close)

    def journal(self) -> str:
        return str(self.entering.partner.board()["journal"])

    def reply(self, identity: str | None, line: Any) -> dict[str, Any]:
        body = (
            line if isinstance(line, bytes) else line.encode() if isinstance(line, str) else json.dumps(line).encode()
        )
        found: dict[str, Any] = json.loads(self.entering.answer(identity, body)[1])
        return found

    def test_a_message_that_comes_twice_is_entered_once(self) -> None:
        first = self.reply("a", target(0))
        self.assertEqual(self.reply("a", target(0)), first)
        self.again()
        self.assertEqual(self.reply("a", target(0)), first)
        self.assertEqual(self.reply("b", target(0))["reply"].split()[0], "ok")
        self.assertEqual(len(self.board.commands()), 2)

    def test_a_message_has_its_own_id_or_is_told_that_it_has_none(self) -> None:
        self.assertEqual(self.reply(None, target(3))["id"], "m3")
        self.assertIn("no id", self.reply(None, {"cmd": "alerts"})["error"])
        self.assertIn("another line", self.reply("m3", target(4))["error"])
        for identity in ("", "\ud800", "a\nb", "x" * 201):
            self.assertIn("id", self.reply(None, {"cmd": "alerts", "id": identity})["error"])
        self.assertIn("printable", self.reply("\ud800", {"cmd": "alerts"})["error"])

    def test_what_is_no_line_is_told(self) -> None:
        count = len(self.board.entries())
        for body, why in (
            (b"{", "no JSON"),
            (b"\xff", "no JSON"),
            (b"[1]", "no object"),
            (b"{" * 80000, "70000 bytes"),
        ):
            self.assertIn(why, self.reply("x", body)["error"])
        self.assertIn("no JSON", self.reply("x", b'{"cmd":"tick","x":NaN}')["error"])
        self.assertEqual(self.reply("x", b'{\n"cmd"\n:\n"tick"\n}')["reply"].split()[0], "no")
        self.assertEqual(len(self.board.entries()), count + 1)

    def test_a_line_whose_reply_was_lost_is_found_in_the_feed(self) -> None:
        self.reply("a", target(0))
        # (as after a crash behind the line: it is known, and entered, and has no reply)
        count = len(self.board.entries())
        self.inbox.begin("b", json.dumps(json.loads(target(1)), separators=(",", ":")), count, self.journal())
        self.entering.partner.close()
        caller = Caller(self.board.ports[0])
        told = caller.ask(json.loads(target(1)))
        caller.close()
        other = Caller(self.board.ports[3])
        other.ask({"cmd": "report", "flight": FLIGHT, "milestone": 9, "time": instant_of(500)})
        other.close()
        self.again()
        self.assertEqual(self.reply("b", target(1))["reply"], told)
        self.assertEqual(len(self.board.commands()), 2)

    def test_a_line_that_did_not_come_through_is_sent(self) -> None:
        self.reply("a", target(0))
        line, count = json.dumps(json.loads(target(1)), separators=(",", ":")), len(self.board.entries())
        self.inbox.begin("b", line, count, self.journal())
        self.again()
        self.assertEqual(self.reply("b", target(1))["reply"].split()[0], "ok")
        self.assertEqual(check_once(self.board, 2), "")

    def test_a_line_that_went_to_another_journal_is_not_sent_again(self) -> None:
        """Its error says so each time that it comes, and one line on standard error; other messages are entered."""
        line, said = json.dumps(json.loads(target(1)), separators=(",", ":")), io.StringIO()
        self.inbox.begin("b", line, 3, "0" * 32)
        with contextlib.redirect_stderr(said):
            for _ in range(2):
                told = self.reply("b", target(1))
                self.assertIn("has no reply and may have been entered: the feed at", told["error"])
                self.assertIn(f"the board has another journal, {self.journal()} for {'0' * 32}", told["error"])
        self.assertEqual((2, 2), (said.getvalue().count("\n"), said.getvalue().count(": message b has no reply")))
        self.assertEqual([], self.board.commands())
        self.assertEqual("ok", self.reply("c", target(2))["reply"].split()[0])

    def test_the_file_of_an_older_bridge_is_taken_over(self) -> None:
        """Its messages have no journal: that of the board is theirs."""
        older = room_of(self) / "older"
        with contextlib.closing(sqlite3.connect(older)) as base:
            base.execute(
                "create table message (id text primary key, line text not null, first integer not null, reply text, "
                "is_told integer not null default 0)"
            )
            line = json.dumps(json.loads(target(1)), separators=(",", ":"))
            base.execute("insert into message (id, line, first) values ('b', ?, 0)", (line,))
            base.commit()
        self.file = older
        self.again()
        self.assertEqual("ok", self.reply("b", target(1))["reply"].split()[0])
        self.assertEqual("ok", self.reply("c", target(2))["reply"].split()[0])
        self.again()
        known = self.inbox.known("c")
        self.assertTrue(known and known.journal == self.journal(), known)


@unittest.skipUnless(PROGRAM.is_file() and has_library("kafka"), "there is no program, or no confluent_kafka")
class FromKafka(unittest.TestCase):
    """Messages of a topic of the stand-in for Kafka."""

    def test_each_message_is_entered_once_though_the_bridge_is_killed(self) -> None:
        with Lines() as board:
            broker = KafkaStub("lines", more=("replies",)).start()
            self.addCleanup(broker.stop)
            servers, state = f"127.0.0.1:{broker.port}", room_of(self) / "state"
            produce(servers, [target(number) for number in range(COUNT)])
            bridge = board.bridge(f"kafka://{servers}/lines", state)
            self.addCleanup(bridge.kill)
            for count in (5, 12, 20):
                self.assertTrue(until(partial(has_commands, board, count)), bridge.said)
                bridge.kill()
                bridge.begin()
            self.assertTrue(until(lambda: len(board.commands()) >= COUNT), bridge.said)
            self.assertTrue(until(lambda: check_replies(replies_of(servers), COUNT) == "", 30), bridge.said)
            self.assertEqual(check_once(board, COUNT), "")


def has_commands(board: Lines, count: int) -> bool:
    return len(board.commands()) >= count


def produce(servers: str, lines: list[str]) -> None:
    """Puts lines into the topic, as one transaction of a producer."""
    from confluent_kafka import Producer  # pylint: disable=import-outside-toplevel,import-error

    producer = Producer({"bootstrap.servers": servers, "transactional.id": "test"})
    producer.init_transactions(20)
    producer.begin_transaction()
    for line in lines:
        producer.produce("lines", value=line, partition=0)
    producer.commit_transaction(20)


def replies_of(servers: str) -> list[str]:
    return [line.split(" ", 3)[3] for line in read_by("kafka", servers, "replies")]


class Words(unittest.TestCase):
    """The words of the command line."""

    def test_urls_name_a_broker(self) -> None:
        self.assertEqual(place_at("amqps://broker.example/acdm").servers, "broker.example:5671")
        self.assertEqual(place_at("mqtt://127.0.0.1:99/a/b"), ("mqtt", False, "127.0.0.1:99", "a/b"))
        self.assertEqual(place_at("kafka://a,b:1/t").servers, "a:9092,b:1")
        for text in ("http://a/b", "amqp://a", "mqtt://a,b/t", "amqp://u:p@a/q", "kafka://a:x/t", "amqp://a/q?x"):
            with self.assertRaises(Exception, msg=text):
                place_at(text)

    @unittest.skipUnless(has_library("amqp"), "python3-qpid-proton is not there")
    def test_bad_words_end_it_with_a_line(self) -> None:
        bridge = Inbound("127.0.0.1:1", "127.0.0.1:2", "amqp://a/q", "/nowhere/at/all/state", "--replies", "r")
        bridge.begin()
        self.assertEqual(bridge.process.wait(20), 2)
        self.assertTrue(until(lambda: len(bridge.said) == 1), bridge.said)
        self.assertIn("/nowhere/at/all/state", bridge.said[0])


if __name__ == "__main__":
    assert Path(__file__).is_file()
    unittest.main()
