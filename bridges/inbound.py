#!/usr/bin/env python3
"""Takes lines of a partner from a broker: AMQP 1.0, MQTT or Kafka, and sends the reply to each.

    bridges/inbound.py FEED PARTNER URL STATE --replies NAME

FEED is the address of `acdm serve --changes`, PARTNER the partner's own at `serve --again`, as 127.0.0.1:4002. URL is
amqp://HOST:PORT/QUEUE, mqtt://HOST:PORT/TOPIC or kafka://HOST:PORT,HOST:PORT/TOPIC; amqps, mqtts and kafkas are TLS.
Each message is a line: an object of JSON (docs/RULES.md). Its reply goes to the queue or topic NAME, as
{"id":"..","reply":"ok 12"}; of what is no line {"id":"..","error":".."}. STATE is a file of SQLite.

A message is acknowledged once its entry was replied, and one that comes twice is entered once. One that may have been
entered in a journal that the board has no more is not sent again: its error says so, and one line on standard error. A
message is known by its id:
of AMQP the message's own, of Kafka its key, else the member "id" of its line, which the board passes over. Kafka's
messages without one are known by their offsets. Of AMQP and MQTT one without an id is not entered, and told so. The
reply comes at least once. A line whose reply was lost is looked for in the feed. Outside what is proved.
"""

import argparse
import json
import re
import sqlite3
import sys
from collections.abc import Callable
from pathlib import Path
from typing import Any, NamedTuple
from urllib.parse import urlsplit

from bridge import Address, Carried, Security, Words, end, forever, one_line, parse_address, run, say

# (bridge.py has put the folder of the clients on the path)
from partner import CHANGES, Elsewhere, Partner, Stop, reply_of  # pylint: disable=wrong-import-order

PATIENCE, WAIT = 5.0, 30
LONGEST_ID, LONGEST_MESSAGE = 200, 70_000
PORTS = {"amqp": 5672, "amqps": 5671, "mqtt": 1883, "mqtts": 8883, "kafka": 9092, "kafkas": 9093}
TABLES = """
create table if not exists message (
    id text primary key, line text not null, first integer not null, reply text, is_told integer not null default 0,
    journal text not null default ''
);
create table if not exists place (partition integer primary key, following integer not null);
"""


WITH_JOURNAL = "alter table message add column journal text not null default ''"


class NoLine(Exception):
    """Why a message is no line that is sent."""


class Kept(NamedTuple):
    """A message that has come: its line, the first entry that may have it, in which journal, and its reply."""

    line: str
    first: int
    journal: str
    reply: str | None


class Place(NamedTuple):
    """A queue or a topic at a broker."""

    kind: str
    has_tls: bool
    servers: str
    name: str

    def address(self) -> Address:
        return parse_address(self.servers)


def place_at(text: str) -> Place:
    """The queue or topic that a URL names."""
    url = urlsplit(text)
    if "@" in url.netloc:
        raise argparse.ArgumentTypeError(
            "a user or password in the URL is seen by all users of this machine: say --user"
        )
    kind = url.scheme.removesuffix("s")
    if url.scheme not in PORTS or not url.netloc or not url.path[1:] or url.query or url.fragment:
        raise argparse.ArgumentTypeError(f"{text!r} is no URL as amqp://HOST:PORT/QUEUE, mqtt://.. or kafka://..")
    servers = [each if re.search(r":\d+$", each) else f"{each}:{PORTS[url.scheme]}" for each in url.netloc.split(",")]
    if kind != "kafka" and len(servers) > 1:
        raise argparse.ArgumentTypeError(f"{text!r} names more than one broker")
    for each in servers:
        parse_address(each)
    return Place(kind, url.scheme.endswith("s"), ",".join(servers), url.path[1:])


class Inbox:
    """The messages that have come, by their ids, over a crash of the machine too."""

    def __init__(self, path: Path) -> None:
        """Opens the file; sqlite3.Error where that can't be done."""
        self.base = sqlite3.connect(path, isolation_level=None, check_same_thread=False)
        self.base.execute("pragma journal_mode=wal")
        self.base.execute("pragma synchronous=full")
        self.base.executescript(TABLES)
        if "journal" not in (row[1] for row in self.base.execute("pragma table_info(message)")):
            # (the file is of an older bridge)
            self.base.execute(WITH_JOURNAL)

    def known(self, identity: str) -> Kept | None:
        """What is kept of a message."""
        row = self.base.execute("select line, first, journal, reply from message where id = ?", (identity,)).fetchone()
        return Kept(*row) if row else None

    def begin(self, identity: str, line: str, first: int, journal: str) -> None:
        values = (identity, line, first, journal)
        self.base.execute("insert into message (id, line, first, journal) values (?, ?, ?, ?)", values)

    def finish(self, identity: str, reply: str) -> None:
        self.base.execute("update message set reply = ?, is_told = 0 where id = ?", (reply, identity))

    def tell(self, identity: str) -> None:
        """Notes that the broker has the reply."""
        self.base.execute("update message set is_told = 1 where id = ?", (identity,))

    def untold(self) -> list[tuple[str, str]]:
        """The replies that the broker may not have."""
        rows = self.base.execute("select id, reply from message where reply is not null and not is_told")
        return [(str(identity), str(reply)) for identity, reply in rows]

    def following(self, partition: int) -> int | None:
        """The offset behind the last message of a partition that was replied."""
        row = self.base.execute("select following from place where partition = ?", (partition,)).fetchone()
        return int(row[0]) if row else None

    def follow(self, partition: int, offset: int) -> None:
        self.base.execute("insert or replace into place values (?, ?)", (partition, offset))


class Entering:
    """A partner of the board, whose messages are entered once."""

    def __init__(self, partner: Address, feed: Address, inbox: Inbox) -> None:
        self.partner, self.inbox = Partner(partner, feed, PATIENCE), inbox

    def answer(self, identity: str | None, body: bytes) -> tuple[str | None, str]:
        """The id of a message and the text that is sent for it; Stop where the board is away."""
        try:
            command, line = line_of(body)
            identity = checked(identity or own_id(command))
            return identity, text_of(identity, reply=self.reply(identity, command, line))
        except NoLine as why:
            return identity, text_of(identity, error=str(why))

    def reply(self, identity: str, command: dict[str, Any], line: str) -> str:
        """The reply to a line: the one that it has had, or that of the feed, or else the board's."""
        known = self.inbox.known(identity)
        if known is None:
            self.partner.connection.until = None
            self.partner.connection.connect()
            self.partner.meet()
            self.inbox.begin(identity, line, self.partner.first or 0, self.partner.journal)
        elif known.line != line:
            raise NoLine("this id was used with another line")
        elif known.reply is not None:
            return known.reply
        elif (reply := self.found(identity, command, known)) is not None:
            self.inbox.finish(identity, reply)
            return reply
        told = self.partner.ask(line).text
        self.inbox.finish(identity, told)
        return told

    def found(self, identity: str, command: dict[str, Any], kept: Kept) -> str | None:
        """The reply that the feed has to a line that was sent before a crash, if it was entered.

        NoLine where the board has another journal by now: in the one before it may have been entered.
        """
        if command.get("cmd") not in CHANGES:
            return None
        self.partner.connection.until = None
        self.partner.known, self.partner.first, self.partner.journal = None, kept.first, kept.journal
        try:
            entry = self.partner.find(command)
        except Elsewhere as why:
            self.partner.first, self.partner.journal, self.partner.connection.is_new = None, "", True
            say(f"message {identity} has no reply and may have been entered: {why}")
            raise NoLine(f"it has no reply and may have been entered: {why}") from None
        if entry is None:
            return None
        self.partner.take(entry["entry"], command)
        return reply_of(entry)


def line_of(body: bytes) -> tuple[dict[str, Any], str]:
    """The command that a message has, and its text as one line."""
    if len(body) > LONGEST_MESSAGE:
        raise NoLine(f"it has more than {LONGEST_MESSAGE} bytes")
    try:
        command = json.loads(body)
        line = json.dumps(command, separators=(",", ":"), allow_nan=False)
    except (ValueError, RecursionError) as error:
        raise NoLine(f"it is no JSON: {one_line(error)}") from None
    if not isinstance(command, dict):
        raise NoLine("it is no object")
    return command, line


def own_id(command: dict[str, Any]) -> str:
    """The id that a line has among its members."""
    identity = command.get("id")
    if not isinstance(identity, str):
        raise NoLine("it has no id: of its own, or as a member")
    return identity


def checked(identity: str) -> str:
    """An id that can be kept."""
    if not 0 < len(identity) <= LONGEST_ID or not identity.isprintable():
        raise NoLine(f"its id has not 1 to {LONGEST_ID} printable characters")
    return identity


def text_of(identity: str | None, **facts: str) -> str:
    return json.dumps({"id": identity, **facts}, separators=(",", ":"))


def id_text(value: Any) -> str | None:
    """The id of a message of AMQP, whose kind counts: the number 1 is another than the text "1"."""
    if value is None:
        return None
    return value if isinstance(value, str) else f"{type(value).__name__}:{value}"


def data_of(body: Any) -> bytes:
    """The bytes of a message of AMQP, which may have a text or bytes."""
    if isinstance(body, str):
        return body.encode()
    return bytes(body) if isinstance(body, (bytes, memoryview)) else b""


# pylint: disable-next=too-many-locals
def take_amqp(given: argparse.Namespace, security: Security, entering: Entering, carried: Carried) -> None:
    """Takes messages of a queue of AMQP 1.0 until the broker or the board fails."""
    # pylint: disable=import-outside-toplevel,import-error
    from proton import Delivery, Message, ProtonException, Timeout
    from to_amqp import Queue, connection_to

    has_tls, name = given.place.has_tls, given.place.name
    try:
        link = connection_to(Queue(f"amqp{'s' * has_tls}://{given.place.servers}", name, has_tls), security)
        try:
            sender, receiver = link.create_sender(given.replies), link.create_receiver(name, credit=1)
            while True:
                try:
                    message = receiver.receive(timeout=WAIT)
                except Timeout:
                    continue
                identity, text = entering.answer(id_text(message.id), data_of(message.body))
                own = {"correlation_id": message.id or identity, "content_type": "application/json"}
                if sender.send(Message(durable=True, body=text, **own)).remote_state != Delivery.ACCEPTED:
                    raise OSError(f"the broker does not take the reply to message {identity}")
                if identity is not None:
                    entering.inbox.tell(identity)
                receiver.accept()
                carried()
        finally:
            link.close()
    except ProtonException as error:
        raise OSError(one_line(error)) from None


def take_mqtt(given: argparse.Namespace, security: Security, entering: Entering, carried: Carried) -> None:
    """Takes messages of a topic of MQTT until the broker or the board fails.

    A message is acknowledged when the function that takes it returns. Its reply is kept by then, and sent until the
    broker has it.
    """
    # pylint: disable=import-outside-toplevel,import-error
    from paho.mqtt import client as mqtt

    place: Place = given.place
    client = mqtt.Client(client_id=given.client_id, clean_session=False, reconnect_on_failure=False)
    under_way: dict[int, str] = {}

    def send(identity: str | None, text: str) -> None:
        message = client.publish(given.replies, text, qos=1)
        if identity is not None:
            under_way[message.mid] = identity

    def connected(_client: Any, _data: Any, _flags: Any, code: int) -> None:
        if code:
            raise OSError(f"the broker refuses: {mqtt.connack_string(code)}")
        client.subscribe(place.name, qos=1)
        for identity, reply in entering.inbox.untold():
            send(identity, text_of(identity, reply=reply))

    def received(_client: Any, _data: Any, message: Any) -> None:
        send(*entering.answer(None, message.payload))
        carried()

    def published(_client: Any, _data: Any, number: int) -> None:
        if number in under_way:
            entering.inbox.tell(under_way.pop(number))

    client.on_connect, client.on_message, client.on_publish = connected, received, published
    if security.user is not None:
        client.username_pw_set(security.user, security.password())
    if place.has_tls:
        client.tls_set_context(security.context())
    client.connect(*place.address(), keepalive=60)
    try:
        client.loop_forever()
    finally:
        client.disconnect()
    raise ConnectionError("the connection to the broker is gone")


class Kafka:
    """A topic of Kafka, all of whose partitions are read, and the topic of the replies.

    What was replied is kept in the file STATE, as the offset that follows: no group of consumers is asked.
    """

    def __init__(self, given: argparse.Namespace, security: Security, inbox: Inbox) -> None:
        # pylint: disable=import-outside-toplevel,import-error
        import confluent_kafka
        from to_kafka import settings_of

        place: Place = given.place
        protocol = ("sasl_" if security.user is not None else "") + ("ssl" if place.has_tls else "plaintext")
        words = {"servers": place.servers, "security_protocol": protocol, "sasl_mechanism": given.sasl_mechanism}
        settings = settings_of(argparse.Namespace(**words), security)
        own = {"group.id": given.client_id, "enable.auto.commit": False, "isolation.level": "read_committed"}
        self.library, self.place, self.replies, self.inbox = confluent_kafka, place, given.replies, inbox
        self.failed: list[Any] = []
        self.consumer = confluent_kafka.Consumer({**settings, **own})
        producing = {"transactional.id": f"{given.client_id}-replies", "error_cb": self.failed.append}
        self.producer = confluent_kafka.Producer({**settings, **producing})

    def begin(self) -> None:
        """Bars an older bridge of this name, and goes on where it was."""
        self.producer.init_transactions(WAIT)
        known = self.consumer.list_topics(self.place.name, timeout=WAIT).topics[self.place.name]
        if known.error or not known.partitions:
            raise OSError(f"the brokers have no topic {self.place.name}: make it")
        places = []
        for number in known.partitions:
            following = self.inbox.following(number)
            first = self.library.OFFSET_BEGINNING if following is None else following
            places.append(self.library.TopicPartition(self.place.name, number, first))
        self.consumer.assign(places)

    def message(self) -> Any:
        """The next message; OSError where the brokers are away."""
        while True:
            message = self.consumer.poll(1)
            if message is None and self.failed:
                raise OSError(self.failed[-1].str())
            if message is not None and message.error():
                raise self.library.KafkaException(message.error())
            if message is not None:
                return message

    def reply(self, message: Any, identity: str | None, text: str) -> None:
        """Sends the reply to a message, and notes that it has it."""
        self.producer.begin_transaction()
        self.producer.produce(self.replies, key=identity, value=text, partition=0)
        if self.producer.flush(WAIT):
            raise TimeoutError(f"the brokers do not acknowledge for {WAIT} s")
        self.producer.commit_transaction(WAIT)
        self.inbox.follow(message.partition(), message.offset() + 1)


def take_kafka(given: argparse.Namespace, security: Security, entering: Entering, carried: Carried) -> None:
    """Takes messages of a topic of Kafka until the brokers or the board fail."""
    kafka = Kafka(given, security, entering.inbox)
    try:
        kafka.begin()
        while True:
            message = kafka.message()
            key, body = message.key(), message.value() or b""
            identity = key.decode("utf-8", "replace")[:LONGEST_ID] if key else None
            identity = identity or offset_id(body, message.partition(), message.offset())
            kafka.reply(message, *entering.answer(identity, body))
            carried()
    except kafka.library.KafkaException as error:
        reason = error.args[0]
        raise OSError(reason.str() if hasattr(reason, "str") else str(error)) from None
    finally:
        kafka.consumer.close()


def offset_id(body: bytes | None, partition: int, offset: int) -> str | None:
    """The id of a message without a key: nothing where its line has one, else its place."""
    try:
        own_id(line_of(body or b"")[0])
        return None
    except NoLine:
        return f"{partition}/{offset}"


TAKERS: dict[str, tuple[str, Callable[..., None]]] = {
    "amqp": ("proton", take_amqp),
    "mqtt": ("paho.mqtt.client", take_mqtt),
    "kafka": ("confluent_kafka", take_kafka),
}
PACKAGES = {"amqp": "python3-qpid-proton", "mqtt": "python3-paho-mqtt", "kafka": "python3-confluent-kafka"}


def carry(given: argparse.Namespace, security: Security, inbox: Inbox, carried: Carried) -> None:
    """Takes messages until something fails."""
    entering = Entering(given.partner, given.feed, inbox)
    try:
        TAKERS[given.place.kind][1](given, security, entering, carried)
    except Stop as why:
        raise OSError(one_line(why)) from None
    finally:
        entering.partner.close()


def main() -> None:
    """Reads the words and takes messages."""
    words = Words(__doc__ or "")
    words.add_argument("partner", type=parse_address)
    words.add_argument("place", type=place_at, metavar="url")
    words.add_argument("state", type=Path)
    words.add_argument("--replies", required=True, metavar="NAME", help="the queue or topic of the replies")
    words.add_argument("--client-id", default="", help="of MQTT and Kafka; acdm-inbound-NAME without it")
    words.add_argument("--sasl-mechanism", default="PLAIN", help="of Kafka: PLAIN, SCRAM-SHA-256 or SCRAM-SHA-512")
    words.add_security()
    given = words.parse_args()
    security = words.security_of(given, given.place.has_tls)
    given.client_id = given.client_id or f"acdm-inbound-{re.sub('[^A-Za-z0-9._-]', '-', given.place.name)}"
    module = TAKERS[given.place.kind][0]
    try:
        __import__(module)
    except ImportError as missing:
        end(words.prog, f"{PACKAGES[given.place.kind]} is not there: {missing}")
    try:
        inbox = Inbox(given.state)
    except sqlite3.Error as error:
        end(words.prog, f"{given.state}: {error}")
    forever(words.prog, lambda carried: carry(given, security, inbox, carried), (sqlite3.Error,))


if __name__ == "__main__":
    sys.path.insert(0, str(Path(__file__).resolve().parent))
    run(main)
