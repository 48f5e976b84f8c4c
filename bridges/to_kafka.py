#!/usr/bin/env python3
"""Hands the feed of changes to Kafka (Debian's python3-confluent-kafka).

    bridges/to_kafka.py FEED SERVERS [--topic acdm]

FEED is the address of `acdm serve --changes`, as 127.0.0.1:4100, SERVERS the brokers, as 127.0.0.1:9092. Each entry is
one message in partition 0 of the topic, which has to be there: its number is the key, its line of the feed the value,
and the name of its journal the header `journal`.

A reader with isolation.level=read_committed gets each entry exactly once and in order. Entries are handed over in
transactions. At the start and after each failure the bridge registers its transactional id, which bars each older
producer of that id and ends what it had begun. Only then it reads the last committed message of the topic, and goes on
behind that one. No file is kept. Of another journal all entries are handed over, from entry 0 on, which one line on
standard error says. Outside what is proved.
"""

import argparse
import json
import re
from collections import deque
from typing import Any, NamedTuple

from bridge import (
    Carried,
    Line,
    Place,
    Security,
    Words,
    end,
    entry_number,
    feed_lines,
    forever,
    parse_address,
    run,
    text_of,
)

try:
    from confluent_kafka import Consumer, KafkaError, KafkaException, Message, Producer, TopicPartition
except ImportError as missing:
    end("to_kafka.py", f"python3-confluent-kafka is not there: {missing}")

WAIT, STEP = 30, 2
BATCH = 200
WINDOW = 64
LONGEST_MESSAGE = 16 << 20
PROTOCOLS = ("plaintext", "ssl", "sasl_plaintext", "sasl_ssl")
MECHANISMS = ("PLAIN", "SCRAM-SHA-256", "SCRAM-SHA-512")

Settings = dict[str, Any]


class Topic(NamedTuple):
    """A topic, and the settings of a client that reads or writes it."""

    name: str
    settings: Settings


class Entry(NamedTuple):
    """An entry that is committed, and the name of its journal, empty where an older bridge has handed it over."""

    line: Line
    journal: str


def settings_of(given: argparse.Namespace, security: Security) -> Settings:
    """The settings that producer and consumers share."""
    settings: Settings = {"bootstrap.servers": given.servers, "security.protocol": given.security_protocol}
    settings |= {"reconnect.backoff.max.ms": 2000, "log_level": 0}
    if security.user is not None:
        settings |= {
            "sasl.mechanism": given.sasl_mechanism,
            "sasl.username": security.user,
            "sasl.password": security.password(),
        }
    if given.security_protocol.endswith("ssl"):
        settings["ssl.endpoint.identification.algorithm"] = "https"
    files = {
        "ssl.ca.location": security.cafile,
        "ssl.certificate.location": security.cert,
        "ssl.key.location": security.key,
    }
    if security.cert and not security.key:
        files["ssl.key.location"] = security.cert
    return settings | {name: str(file) for name, file in files.items() if file}


def producer_at(topic: Topic, identity: str, failed: deque[KafkaError]) -> Producer:
    """A producer that bars all older ones of this transactional id; what they had begun is committed or taken back."""
    own: Settings = {"transactional.id": identity, "compression.type": "gzip", "message.max.bytes": LONGEST_MESSAGE}
    producer = Producer({**topic.settings, **own, "error_cb": failed.append})
    for seconds in range(STEP, WAIT + STEP, STEP):
        try:
            producer.init_transactions(STEP)
            break
        except KafkaException:
            producer.poll(0)
            if failed or seconds >= WAIT:
                raise
    return producer


def going_on(topic: Topic, first: int | None) -> tuple[Place, Line | None]:
    """The place of the entry that comes next, and the entry before it.

    It is behind the last committed message of partition 0, to which all entries go that have the name of their journal.
    Where that one has no name, all partitions are read, of which the greatest key counts. Where they have no key,
    `first` comes next, which has to be named where they had some.
    """
    settings: Settings = {
        **topic.settings,
        "group.id": f"acdm-bridge-{topic.name}",
        "enable.auto.commit": False,
        "enable.partition.eof": True,
    }
    everything = Consumer({**settings, "isolation.level": "read_uncommitted"})
    committed = Consumer({**settings, "isolation.level": "read_committed"})
    try:
        known = committed.list_topics(topic.name, timeout=WAIT).topics[topic.name]
        if known.error or not known.partitions:
            raise OSError(f"the brokers have no topic {topic.name}: make it")
        found: list[Entry] = []
        was_cut = False
        for number in sorted(known.partitions):
            low, high = everything.get_watermark_offsets(TopicPartition(topic.name, number), timeout=WAIT)
            last = last_entries(committed, TopicPartition(topic.name, number), low, high)
            if last and last[-1].journal and not number:
                return behind(last[-1])
            found += last
            was_cut |= low > 0
    finally:
        everything.close()
        committed.close()
    if found:
        return behind(max(found, key=lambda entry: entry.line["entry"]))
    if was_cut and first is None:
        raise OSError(f"the topic {topic.name} has let its entries go: say by --first which one comes next")
    return Place("", first or 0), None


def behind(entry: Entry) -> tuple[Place, Line]:
    """The place behind an entry, and the entry."""
    return Place(entry.journal, entry.line["entry"] + 1), entry.line


def last_entries(consumer: Consumer, partition: TopicPartition, low: int, high: int) -> list[Entry]:
    """The last committed entries of a partition, in order, looked for from its end backwards."""
    window, start = WINDOW, high
    found: list[Entry] = []
    while start > low and not found:
        start = max(low, high - window)
        window *= 4
        found = entries_from(consumer, TopicPartition(partition.topic, partition.partition, start), high)
    return found


def entries_from(consumer: Consumer, start: TopicPartition, high: int) -> list[Entry]:
    """The committed entries from an offset to the end of its partition, in order."""
    found: list[Entry] = []
    consumer.assign([start])
    while True:
        message = consumer.poll(WAIT)
        if message is None:
            raise TimeoutError(f"the end of {start.topic} does not come for {WAIT} s")
        if not message.error():
            found.append(entry_of(message, start.topic))
        elif message.error().code() != KafkaError._PARTITION_EOF:  # pylint: disable=protected-access
            raise KafkaException(message.error())
        elif message.offset() < high:
            raise OSError(f"a transaction of another producer is open in {start.topic}")
        else:
            return found


def entry_of(message: Message, topic: str) -> Entry:
    """The entry that a message is."""
    try:
        line = json.loads(message.value())
        journal = dict(message.headers() or []).get("journal", b"").decode("ascii")
        if line["entry"] == int(message.key()) and re.fullmatch("([0-9a-f]{32})?", journal):
            return Entry(line, journal)
    except (ValueError, TypeError, KeyError, AttributeError):
        pass
    raise OSError(f"the topic {topic} has a message that is no entry, at offset {message.offset()}")


def hand_over(producer: Producer, topic: str, lines: list[Line], journal: str) -> None:
    """Sends entries of a journal as one transaction, and waits until it is committed."""
    producer.begin_transaction()
    for line in lines:
        headers = [("journal", journal.encode("ascii"))]
        producer.produce(topic, key=str(line["entry"]), value=text_of(line), headers=headers, partition=0)
    if producer.flush(WAIT):
        raise TimeoutError(f"the brokers do not acknowledge for {WAIT} s")
    producer.commit_transaction(WAIT)


def carry(given: argparse.Namespace, security: Security, carried: Carried) -> None:
    """Hands entries over until the feed or the brokers fail."""
    topic = Topic(given.topic, settings_of(given, security))
    failed: deque[KafkaError] = deque(maxlen=1)
    try:
        producer = producer_at(topic, given.transactional_id or f"acdm-bridge-{given.topic}", failed)
        place, last = going_on(topic, given.first)
        for lines in feed_lines(given.feed, place, last):
            for start in range(0, len(lines), BATCH):
                hand_over(producer, topic.name, lines[start : start + BATCH], place.journal)
                carried()
    except KafkaException as error:
        raise OSError(reason_of(error, failed)) from None


def reason_of(error: KafkaException, failed: deque[KafkaError]) -> str:
    """What to say of a failure: of a wait that was too long, why it was."""
    reason = error.args[0]
    if not isinstance(reason, KafkaError):
        return str(error)
    if failed and reason.code() == KafkaError._TIMED_OUT:  # pylint: disable=protected-access
        return f"{reason.str()}: {failed[-1].str()}"
    return reason.str()


def main() -> None:
    """Reads the words and hands entries over."""
    words = Words(__doc__)
    words.add_argument("servers", type=servers)
    words.add_argument("--topic", type=topic_name, default="acdm")
    words.add_argument("--transactional-id", help="the producer's id; acdm-bridge-TOPIC without it")
    words.add_argument(
        "--first", type=entry_number, help="the entry to begin with where the topic has let its entries go"
    )
    words.add_argument("--security-protocol", type=str.lower, choices=PROTOCOLS, default="plaintext")
    words.add_argument("--sasl-mechanism", type=str.upper, choices=MECHANISMS, default="PLAIN")
    words.add_security()
    given = words.parse_args()
    if given.security_protocol.startswith("sasl") != (given.user is not None):
        words.error("--user: a user is named for the protocols sasl_plaintext and sasl_ssl, and for no other")
    security = words.security_of(given, given.security_protocol.endswith("ssl"))
    forever(words.prog, lambda carried: carry(given, security, carried), ())


def topic_name(text: str) -> str:
    """The name of a topic."""
    if not re.fullmatch("[A-Za-z0-9._-]{1,249}", text):
        raise argparse.ArgumentTypeError(f"{text!r} is no name of a topic")
    return text


def servers(text: str) -> str:
    """Brokers, as HOST:PORT,HOST:PORT."""
    brokers = [parse_address(broker) for broker in text.split(",")]
    return ",".join(f"[{host}]:{port}" if ":" in host else f"{host}:{port}" for host, port in brokers)


if __name__ == "__main__":
    run(main)
