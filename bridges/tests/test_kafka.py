"""The bridge to Kafka over a stand-in for the broker: it is killed, barred by another, and loses replies."""

import signal
import time
import unittest
from functools import partial

from feed_stub import FeedStub
from kafka_stub import END_TRANSACTION, PRODUCE, KafkaStub, Partition
from support import Bridge, has_library, name_of, read_by, small_feed, until

LINES = small_feed(40)


def committed(broker: KafkaStub, partition: int = 0, journal: str = name_of(LINES)) -> list[tuple[int, str]]:
    """Number and line of each committed message of a journal in a partition, in order."""
    parts = [line.split(" ", 3) for line in read_by("kafka", f"127.0.0.1:{broker.port}", "acdm")]
    return [
        (int(key), value + "\n") for number, key, name, value in parts if (int(number), name) == (partition, journal)
    ]


@unittest.skipUnless(has_library("kafka"), "python3-confluent-kafka is not there")
class Kafka(unittest.TestCase):
    """Counts what is committed."""

    def setUp(self) -> None:
        self.broker = KafkaStub().start()
        self.servers = f"127.0.0.1:{self.broker.port}"

    def tearDown(self) -> None:
        self.broker.stop()

    def bridge_of(self, feed: FeedStub, *words: object) -> Bridge:
        """A bridge that is killed at the end of the test, as is its feed."""
        bridge = Bridge("kafka", feed.address, self.servers, *words)
        self.addCleanup(feed.close)
        self.addCleanup(bridge.kill)
        return bridge

    def wait_for(self, count: int) -> None:
        """Waits until so many messages are committed."""
        self.assertTrue(until(lambda: sum(partition.committed for partition in self.broker.partitions) >= count))

    def test_is_killed_at_each_place_of_a_transaction(self) -> None:
        """Before and after a batch is stored, and before and after the commit: no entry is lost or there twice."""
        bridge = self.bridge_of(FeedStub(LINES, 2))
        places = [(PRODUCE, "before"), (PRODUCE, "after"), (END_TRANSACTION, "before"), (END_TRANSACTION, "after")]
        left, killed = list(places), []

        def kill(request: int, moment: str) -> bool:
            if left and (request, moment) == left[0]:
                killed.append(left.pop(0))
                bridge.kill()
                return False
            return True

        self.broker.hook = kill
        for number in range(len(places)):
            self.assertTrue(until(partial(lambda least: len(killed) > least, number)))
            bridge.begin()
        self.wait_for(40)
        self.assertEqual(committed(self.broker), list(enumerate(LINES)))
        self.assertEqual(killed, places)
        self.assertTrue(any(partition.aborted for partition in self.broker.partitions))

    def test_loses_the_reply_of_a_commit_and_the_broker(self) -> None:
        """A commit whose reply is lost, and a broker that is away for a while."""
        lost: list[int] = []

        def lose(request: int, moment: str) -> bool:
            if (request, moment) == (END_TRANSACTION, "after") and not lost:
                lost.append(request)
                return False
            return True

        self.broker.hook = lose
        bridge = self.bridge_of(FeedStub(LINES, 2))
        self.assertTrue(until(lambda: bool(lost)))
        self.broker.stop()
        time.sleep(0.5)
        self.broker.start()
        self.wait_for(40)
        self.assertEqual(committed(self.broker), list(enumerate(LINES)))
        self.assertIsNone(bridge.process.poll())

    def test_an_older_bridge_is_barred(self) -> None:
        """A bridge that slept between batch and commit can't commit when another has begun."""
        feed = FeedStub(LINES, 2)
        older = self.bridge_of(feed)
        asleep: list[int] = []

        def stop(request: int, moment: str) -> bool:
            if (request, moment) == (END_TRANSACTION, "before") and not asleep:
                older.process.send_signal(signal.SIGSTOP)
                asleep.append(request)
                return False
            return True

        self.broker.hook = stop
        self.assertTrue(until(lambda: bool(asleep)))
        newer = Bridge("kafka", feed.address, self.servers)
        self.addCleanup(newer.kill)
        self.wait_for(40)
        older.process.send_signal(signal.SIGCONT)
        self.assertTrue(until(lambda: older.has_said("fenced")), older.said)
        self.assertEqual(committed(self.broker), list(enumerate(LINES)))

    def test_another_journal_is_a_new_generation(self) -> None:
        """A shorter journal, then a longer one: all their entries come, each once, also where it is begun again."""
        feed, shorter, longer = FeedStub(LINES), small_feed(9, session=2), small_feed(60, session=3)
        bridge = self.bridge_of(feed)
        self.wait_for(40)
        feed.turn_to(shorter)
        self.wait_for(49)
        bridge.kill()
        feed.turn_to(longer)
        bridge.begin()
        self.wait_for(109)
        for lines in (LINES, shorter, longer):
            self.assertEqual(committed(self.broker, 0, name_of(lines)), list(enumerate(lines)))
        said = [line for line in bridge.said if "a new generation begins at its entry 0" in line]
        self.assertEqual(2, len(said), bridge.said)
        self.assertIn(f"another journal, {name_of(longer)} for {name_of(shorter)}: ", said[1])

    def test_a_topic_of_an_older_bridge_is_taken_over(self) -> None:
        """Its entries have no journal: the name that is told is theirs, which one line says."""
        from confluent_kafka import Producer  # pylint: disable=import-outside-toplevel,import-error

        producer = Producer({"bootstrap.servers": self.servers, "transactional.id": "older"})
        producer.init_transactions(20)
        producer.begin_transaction()
        for number, line in enumerate(LINES[:25]):
            producer.produce("acdm", key=str(number), value=line.rstrip("\n"), partition=0)
        producer.commit_transaction(20)
        bridge = self.bridge_of(FeedStub(LINES))
        self.wait_for(40)
        self.assertEqual(committed(self.broker), list(enumerate(LINES))[25:])
        self.assertTrue(bridge.has_said(f"it is taken to be of {name_of(LINES)}"), bridge.said)
        self.assertEqual(1, len(bridge.said), bridge.said)

    def test_the_greatest_key_of_all_partitions_counts(self) -> None:
        """A topic of three partitions, whose entries so far stand in the last."""
        self.broker.partitions += [Partition(), Partition()]
        first = self.bridge_of(FeedStub(LINES[:25]))
        self.wait_for(25)
        first.kill()
        self.broker.partitions.reverse()
        self.bridge_of(FeedStub(LINES))
        self.wait_for(40)
        self.assertEqual(committed(self.broker), list(enumerate(LINES))[25:])
        self.assertEqual(committed(self.broker, 2), list(enumerate(LINES))[:25])

    def test_a_topic_that_has_let_its_entries_go(self) -> None:
        """It is not begun anew, but where --first says."""
        first = self.bridge_of(FeedStub(LINES[:25]))
        self.wait_for(25)
        first.kill()
        self.broker.partitions[0].let_go()
        silent = self.bridge_of(FeedStub(LINES))
        self.assertTrue(until(lambda: silent.has_said("say by --first")), silent.said)
        self.assertEqual(committed(self.broker), [])
        silent.kill()
        self.bridge_of(FeedStub(LINES), "--first", 25)
        self.wait_for(40)
        self.assertEqual(committed(self.broker), list(enumerate(LINES))[25:])


if __name__ == "__main__":
    unittest.main()
