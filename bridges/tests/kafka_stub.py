"""A stand-in for a Kafka broker, of topics in memory, for tests: as much of the protocol as the bridges need.

It has transactions as KIP-98 describes them: producer ids and epochs, sequence numbers of batches, markers of commit
and abort, the last stable offset. It asks for TLS and SASL/PLAIN where they are given. A test can look on at each
request, before and after it is carried out, and have its reply lost.
"""

import socket
import ssl
import struct
import threading
from collections.abc import Callable
from dataclasses import dataclass, field

from listening import Listening

PRODUCE, FETCH, LIST_OFFSETS, METADATA, FIND_COORDINATOR = 0, 1, 2, 3, 10
HANDSHAKE, VERSIONS, INIT_PRODUCER, ADD_PARTITIONS, END_TRANSACTION, AUTHENTICATE = 17, 18, 22, 24, 26, 36
SPOKEN = {
    PRODUCE: (3, 3),
    FETCH: (4, 4),
    LIST_OFFSETS: (2, 2),
    METADATA: (1, 1),
    FIND_COORDINATOR: (1, 1),
    VERSIONS: (0, 0),
}
SPOKEN |= {
    INIT_PRODUCER: (0, 0),
    ADD_PARTITIONS: (0, 0),
    END_TRANSACTION: (0, 0),
    HANDSHAKE: (0, 1),
    AUTHENTICATE: (0, 0),
}
UNKNOWN_TOPIC, UNSUPPORTED_VERSION, OUT_OF_ORDER, OLD_EPOCH, WRONG_STATE, WRONG_PASSWORD = 3, 35, 45, 47, 48, 58
TRANSACTIONAL, CONTROL = 0x10, 0x20
LONGEST_WAIT = 0.1

Hook = Callable[[int, str], bool]


class Reader:
    """Reads the fields of a request."""

    def __init__(self, data: bytes) -> None:
        self.data, self.place = data, 0

    def take(self, count: int) -> bytes:
        """So many bytes."""
        self.place += count
        return self.data[self.place - count : self.place]

    def number(self, form: str) -> int:
        """A number, by its letter of `struct`."""
        return struct.unpack(">" + form, self.take(struct.calcsize(">" + form)))[0]

    def text(self) -> str:
        """A text, or an empty one where there is none."""
        return self.take(max(0, self.number("h"))).decode()

    def block(self) -> bytes:
        """Bytes after their length."""
        return self.take(max(0, self.number("i")))


def text(value: str) -> bytes:
    """A text as it is sent."""
    return struct.pack(">h", len(value.encode())) + value.encode()


@dataclass
class Batch:
    """A batch of messages in a partition."""

    offset: int
    count: int
    producer: int
    data: bytes

    def end(self) -> int:
        """The offset behind it."""
        return self.offset + self.count


@dataclass
class Partition:
    """A partition: its batches, how many messages are committed, and which transactions are open or were taken back."""

    low: int = 0
    committed: int = 0
    batches: list[Batch] = field(default_factory=list)
    opened: dict[int, int] = field(default_factory=dict)
    aborted: list[tuple[int, int, int]] = field(default_factory=list)

    def end(self) -> int:
        """The offset behind the last batch."""
        return self.batches[-1].end() if self.batches else self.low

    def stable(self) -> int:
        """The offset up to which all transactions are decided."""
        return min(self.opened.values(), default=self.end())

    def let_go(self) -> None:
        """Deletes all batches, as the time of retention does."""
        self.low, self.batches = self.end(), []

    def append(self, data: bytes, count: int, producer: int) -> int:
        """Appends a batch, and says its offset."""
        offset = self.end()
        self.batches.append(Batch(offset, count, producer, struct.pack(">q", offset) + data[8:]))
        return offset

    def decide(self, producer: int, epoch: int, is_commit: bool) -> None:
        """Ends a transaction by a marker."""
        first = self.opened.pop(producer, None)
        if first is None:
            return
        count = sum(batch.count for batch in self.batches if batch.producer == producer and batch.offset >= first)
        offset = self.append(marker(producer, epoch, is_commit), 1, producer)
        if is_commit:
            self.committed += count
        else:
            self.aborted.append((producer, first, offset))


def marker(producer: int, epoch: int, is_commit: bool) -> bytes:
    """A batch that says that a transaction was committed or taken back; its checksum, which is not read, is 0."""
    key, value = struct.pack(">hh", 0, int(is_commit)), struct.pack(">hi", 0, 0)
    record = b"\0\0\0" + bytes([len(key) * 2]) + key + bytes([len(value) * 2]) + value + b"\0"
    records = bytes([len(record) * 2]) + record
    rest = struct.pack(">ibIhiqqqhii", 0, 2, 0, TRANSACTIONAL | CONTROL, 0, 0, 0, producer, epoch, -1, 1) + records
    return struct.pack(">qi", 0, len(rest)) + rest


@dataclass
class Producer:
    """A transactional id: its epoch, the partitions of its transaction, and what it has sent of each."""

    number: int
    epoch: int = -1
    partitions: set[tuple[str, int]] = field(default_factory=set)
    sent: dict[tuple[str, int], tuple[int, int, int]] = field(default_factory=dict)


class KafkaStub:
    """The broker: `start` and `stop` it as often as is wanted; what was stored stays."""

    def __init__(
        self,
        topic: str = "acdm",
        partitions: int = 1,
        context: ssl.SSLContext | None = None,
        users: dict[str, str] | None = None,
        more: tuple[str, ...] = (),
    ) -> None:
        self.context, self.users = context, users
        self.partitions = [Partition() for _ in range(partitions)]
        self.topics = {topic: self.partitions, **{name: [Partition()] for name in more}}
        self.producers: dict[str, Producer] = {}
        self.changed = threading.Condition()
        self.hook: Hook = lambda _request, _moment: True
        self.port = 0
        self.listening: Listening | None = None
        self.streams: set[socket.socket] = set()
        self.answers = {
            PRODUCE: self.produce,
            FETCH: self.fetch,
            LIST_OFFSETS: self.list_offsets,
            METADATA: self.metadata,
        }
        self.answers |= {FIND_COORDINATOR: self.coordinator, INIT_PRODUCER: self.init_producer}
        self.answers |= {ADD_PARTITIONS: self.add_partitions, END_TRANSACTION: self.end_transaction}

    def start(self) -> "KafkaStub":
        """Listens, at the same port as before."""
        self.listening = Listening(self.serve, self.port)
        self.port = self.listening.port
        return self

    def stop(self) -> None:
        """Closes all connections and the port."""
        assert self.listening is not None
        self.listening.close()
        for stream in list(self.streams):
            stream.close()

    def serve(self, stream: socket.socket) -> None:
        """Answers the requests of a connection until it fails or a reply is lost."""
        try:
            if self.context:
                stream = self.context.wrap_socket(stream, server_side=True)
            self.streams.add(stream)
            with stream, stream.makefile("rb") as requests:
                self.answer_all(stream, requests.read)
        except (OSError, struct.error, ValueError):
            stream.close()
        finally:
            self.streams.discard(stream)

    def answer_all(self, stream: socket.socket, read: Callable[[int], bytes]) -> None:
        """Answers request by request."""
        is_known = not self.users
        while True:
            request = Reader(read(struct.unpack(">i", read(4))[0]))
            kind, version, number, _ = request.number("h"), request.number("h"), request.number("i"), request.text()
            if kind == VERSIONS:
                reply = self.versions(version)
            elif kind == HANDSHAKE:
                reply = struct.pack(">hi", 0, 1) + text("PLAIN")
            elif kind == AUTHENTICATE:
                is_known = self.knows(request.block())
                reply = (
                    struct.pack(">h", 0 if is_known else WRONG_PASSWORD)
                    + text("" if is_known else "wrong user or password")
                    + struct.pack(">i", 0)
                )
            elif not is_known or not self.hook(kind, "before"):
                return
            else:
                with self.changed:
                    reply = self.answers[kind](request)
                    self.changed.notify_all()
                if not self.hook(kind, "after"):
                    return
            stream.sendall(struct.pack(">ii", len(reply) + 4, number) + reply)

    def knows(self, token: bytes) -> bool:
        """Whether a user and password of SASL/PLAIN are right."""
        _, user, password = token.decode().split("\0")
        return (self.users or {}).get(user) == password

    def versions(self, version: int) -> bytes:
        """The versions of requests that are spoken."""
        listed = b"".join(struct.pack(">hhh", kind, *spoken) for kind, spoken in SPOKEN.items())
        return struct.pack(">hi", 0 if version == 0 else UNSUPPORTED_VERSION, len(SPOKEN)) + listed

    def metadata(self, _request: Reader) -> bytes:
        """The one broker and the topics."""
        found = struct.pack(">ii", 1, 0) + text("127.0.0.1") + struct.pack(">ihii", self.port, -1, 0, len(self.topics))
        for name, partitions in self.topics.items():
            found += struct.pack(">h", 0) + text(name) + struct.pack(">bi", 0, len(partitions))
            found += b"".join(struct.pack(">hiiiiii", 0, number, 0, 1, 0, 1, 0) for number in range(len(partitions)))
        return found

    def coordinator(self, _request: Reader) -> bytes:
        """The one broker."""
        return struct.pack(">ihhi", 0, 0, -1, 0) + text("127.0.0.1") + struct.pack(">i", self.port)

    def init_producer(self, request: Reader) -> bytes:
        """Bars older producers of the id, and takes back what they had begun."""
        name = request.text()
        producer = self.producers.setdefault(name, Producer(1000 + len(self.producers)))
        self.decide(producer, False)
        producer.epoch += 1
        producer.sent = {}
        return struct.pack(">ihqh", 0, 0, producer.number, producer.epoch)

    def decide(self, producer: Producer, is_commit: bool) -> None:
        """Ends the transaction of a producer."""
        for name, number in producer.partitions:
            self.topics[name][number].decide(producer.number, producer.epoch, is_commit)
        producer.partitions = set()

    def add_partitions(self, request: Reader) -> bytes:
        """Adds partitions to a transaction."""
        producer = self.producers[request.text()]
        _, epoch, count = request.number("q"), request.number("h"), request.number("i")
        assert count == 1
        name = request.text()
        numbers = [request.number("i") for _ in range(request.number("i"))]
        error = 0 if epoch == producer.epoch else OLD_EPOCH
        if not error:
            producer.partitions |= {(name, number) for number in numbers}
        each = b"".join(struct.pack(">ih", number, error) for number in numbers)
        return struct.pack(">ii", 0, 1) + text(name) + struct.pack(">i", len(numbers)) + each

    def end_transaction(self, request: Reader) -> bytes:
        """Commits a transaction or takes it back."""
        producer = self.producers[request.text()]
        _, epoch, is_commit = request.number("q"), request.number("h"), request.number("b")
        error = 0 if epoch == producer.epoch else OLD_EPOCH
        if not error:
            self.decide(producer, bool(is_commit))
        return struct.pack(">ih", 0, error)

    def produce(self, request: Reader) -> bytes:
        """Stores batches."""
        name = request.text()
        request.take(2 + 4)
        replies = b""
        assert request.number("i") == 1
        topic, count = request.text(), request.number("i")
        for _ in range(count):
            number = request.number("i")
            error, offset = self.store(self.producers.get(name), (topic, number), request.block())
            replies += struct.pack(">ihqq", number, error, offset, -1)
        return struct.pack(">i", 1) + text(topic) + struct.pack(">i", count) + replies + struct.pack(">i", 0)

    def store(self, producer: Producer | None, place: tuple[str, int], data: bytes) -> tuple[int, int]:
        """Stores a batch of a transaction once: an error or 0, and its offset."""
        attributes, last = struct.unpack(">hi", data[21:27])
        identity, epoch, sequence = struct.unpack(">qhi", data[43:57])
        partition = self.topics[place[0]][place[1]]
        if producer is None or producer.number != identity or epoch != producer.epoch:
            return OLD_EPOCH, -1
        if not attributes & TRANSACTIONAL or place not in producer.partitions:
            return WRONG_STATE, -1
        first, following, stored = producer.sent.get(place, (-1, 0, -1))
        if sequence == first:
            return 0, stored
        if sequence != following:
            return OUT_OF_ORDER, -1
        partition.opened.setdefault(identity, partition.end())
        offset = partition.append(data, last + 1, identity)
        producer.sent[place] = (sequence, sequence + last + 1, offset)
        return 0, offset

    def list_offsets(self, request: Reader) -> bytes:
        """The first offset of a partition, or the one behind the last."""
        _, is_committed, count = request.number("i"), request.number("b"), request.number("i")
        assert count == 1
        topic, numbers = request.text(), request.number("i")
        each = b""
        for _ in range(numbers):
            number, moment = request.number("i"), request.number("q")
            partition = self.topics[topic][number]
            offset = partition.low if moment == -2 else partition.stable() if is_committed else partition.end()
            each += struct.pack(">ihqq", number, 0, -1, offset)
        return struct.pack(">ii", 0, 1) + text(topic) + struct.pack(">i", numbers) + each

    def fetch(self, request: Reader) -> bytes:
        """The batches of partitions from offsets on."""
        request.take(4 + 4 + 4 + 4)
        is_committed, count = request.number("b"), request.number("i")
        wanted: dict[str, list[tuple[int, int, int]]] = {}
        for _ in range(count):
            name = request.text()
            wanted[name] = [
                (request.number("i"), request.number("q"), request.number("i")) for _ in range(request.number("i"))
            ]
        places = [(name, number, offset) for name, each in wanted.items() for number, offset, _ in each]
        if not any(self.topics[name][number].end() > offset for name, number, offset in places):
            self.changed.wait(LONGEST_WAIT)
        found = struct.pack(">ii", 0, len(wanted))
        for name, each in wanted.items():
            found += text(name) + struct.pack(">i", len(each))
            found += b"".join(self.fetched(name, number, offset, bool(is_committed)) for number, offset, _ in each)
        return found

    def fetched(self, name: str, number: int, offset: int, is_committed: bool) -> bytes:
        """The batches of a partition from an offset on."""
        partition = self.topics[name][number]
        limit = partition.stable() if is_committed else partition.end()
        batches = [batch for batch in partition.batches if offset < batch.end() <= limit]
        aborted = (
            [(producer, first) for producer, first, last in partition.aborted if last >= offset] if is_committed else []
        )
        data = b"".join(batch.data for batch in batches)
        head = struct.pack(">ihqqi", number, 0, partition.end(), partition.stable(), len(aborted))
        return head + b"".join(struct.pack(">qq", *pair) for pair in aborted) + struct.pack(">i", len(data)) + data
