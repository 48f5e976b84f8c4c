#!/usr/bin/env python3
"""Tries the bridges against real servers on this machine, which it starts and ends itself.

    bridges/tests/try_bridges.py [--program PATH] [--feed FILE] [mqtt] [postgresql] [amqp] [kafka]
    bridges/tests/try_bridges.py --quick

It needs Debian's mosquitto and python3-paho-mqtt, postgresql and python3-psycopg2, rabbitmq-server (with its plugin
for AMQP 1.0) and python3-qpid-proton, python3-confluent-kafka, and openssl; what is not there is said and left out.
Kafka has no broker in Debian: it is a stand-in (kafka_stub.py), and a real one too where KAFKA_SERVERS names one. The
feed is that of examples/journal/day.journal, as `acdm tell` tells it, sent as `serve --changes` does. Bridge and broker
are killed at random moments and begun again; then the entries are compared. Each server is also tried with TLS and
passwords, and with boards that have another journal.

--quick runs the tests that need no server, at the same time as many as there are files. The last line is
`N passed, M failed`.
"""

import argparse
import json
import os
import random
import re
import subprocess
import sys
import tempfile
import threading
import time
from collections.abc import Callable
from concurrent.futures import ThreadPoolExecutor
from functools import partial
from itertools import groupby
from pathlib import Path

from feed_stub import FeedStub
from kafka_stub import KafkaStub
from proxies import KillingProxy, SlowProxy
from servers import Mosquitto, Postgresql, RabbitMq, Server
from support import BRIDGES, PASSWORD, PYTHON, TESTS, Bridge, has_library, name_of, read_by, small_feed, until

from bridge import Arguments, readable_file

TOP = BRIDGES.parent
SECONDS, KILLS = 6, 12
Lines = list[str]


class Failed(Exception):
    """A case has failed."""


def check(is_right: bool, message: str) -> None:
    """Fails the case where something is not so."""
    if not is_right:
        raise Failed(message)


def run_and_kill(
    bridge: Bridge, feed: FeedStub, chance: random.Random, restart: Callable[[], None] | None = None
) -> None:
    """Kills a bridge at random moments until the feed has ended, and the broker once; then lets it run."""
    while feed.count() < len(feed.lines):
        time.sleep(chance.uniform(0.2, 0.9))
        bridge.kill()
        if restart and feed.count() > len(feed.lines) // 2:
            restart()
            restart = None
        bridge.begin()


def run_and_cut(proxy: KillingProxy, bridge: Bridge) -> None:
    """Has a proxy kill a bridge in the middle of its talk with the broker, and begins it again each time."""
    proxy.kill = bridge.kill

    def is_over() -> bool:
        if bridge.process.poll() is None:
            return False
        bridge.begin()
        return not proxy.left

    check(until(is_over, 60), f"the bridge was killed {KILLS - proxy.left} times of {KILLS}: {bridge.said}")


def crash_and_start(server: Server) -> None:
    """Crashes a server and starts it again."""
    server.crash()
    server.start()


def check_entries(found: Lines, lines: Lines, is_exact: bool) -> str:
    """Compares what is there with the feed: each entry once, or at least once and in order."""
    if is_exact:
        check(found == lines, f"{len(found)} entries of {len(lines)}, or not the same")
        return f"{len(found)} entries, each once"
    numbers = [json.loads(line)["entry"] for line in found]
    check(all(line == lines[number] for number, line in zip(numbers, found)), "an entry is not that of the feed")
    check(set(numbers) == set(range(len(lines))), f"{len(set(numbers))} of {len(lines)} entries")
    check(all(after <= before + 1 for before, after in zip(numbers, numbers[1:])), "an entry was passed over")
    return f"{len(lines)} entries in {len(found)} messages"


def try_wrong_password(server: Server, bridge: Bridge, reason: str) -> None:
    """A wrong password is said and tried again; then the file is put right."""
    check(until(lambda: bridge.has_said("the next try is in 2 s"), 60), f"no further try: {bridge.said}")
    check(bridge.has_said(reason), f"the refusal is not said: {bridge.said}")
    check(all(line.startswith("to_") for line in bridge.said), f"more than a line each: {bridge.said}")
    check(bridge.process.poll() is None, "the bridge has ended at a wrong password")
    server.write_password(PASSWORD)


def wait_for_end(bridge: Bridge, is_done: Callable[[], bool]) -> None:
    """Waits until the last entry is there."""
    check(until(is_done, 60), f"it does not come to the end: {bridge.said}")


def check_refused(bridges: dict[str, Bridge]) -> None:
    """Each of these bridges says the reason for which it is refused, or refuses, and tries again."""
    try:
        for reason, bridge in bridges.items():
            check(until(partial(bridge.has_said, "the next try is in 2 s")), f"no further try: {bridge.said}")
            check(all(line.startswith("to_") for line in bridge.said), f"more than a line each: {bridge.said}")
            check(all(reason in line for line in bridge.said), f"{reason} is not said: {bridge.said}")
    finally:
        for bridge in bridges.values():
            bridge.kill()


class MqttReader:
    """A client that is told every message from now on."""

    def __init__(self, port: int, wanted: str = "acdm/#", identity: str = "reader") -> None:
        self.messages: list[list[str]] = []
        command = [PYTHON, str(TESTS / "readers.py"), "mqtt", f"127.0.0.1:{port}", wanted, identity]
        # pylint: disable-next=consider-using-with
        self.process = subprocess.Popen(command, stdout=subprocess.PIPE, text=True)
        threading.Thread(target=self.listen, daemon=True).start()
        check(until(lambda: bool(self.messages)), "the reader does not connect")

    def listen(self) -> None:
        """Collects retained, topic and payload."""
        assert self.process.stdout
        with self.process.stdout as output:
            self.messages.extend(line.rstrip("\n").split(" ", 2) for line in output)

    def payloads(self, topic: str) -> Lines:
        """The payloads of a topic, in order."""
        return [message[2] for message in self.messages if message[1:2] == [topic]]

    def close(self) -> None:
        """Ends it."""
        self.process.kill()
        self.process.wait()


def states_of(lines: Lines) -> dict[str, Lines]:
    """The records of each flight, in order, without repetitions."""
    states: dict[str, Lines] = {}
    for line in lines:
        for record in json.loads(line)["changed"]:
            text = json.dumps(record, separators=(",", ":"))
            known = states.setdefault(f"acdm/flight/{record['flight']}", [])
            if known[-1:] != [text]:
                known.append(text)
    return states


def check_flights(reader: MqttReader, lines: Lines, port: int) -> None:
    """No flight's record went back in time, and what is retained is the last of each."""
    for topic, states in states_of(lines).items():
        seen = reader.payloads(topic)
        seen = [text for text, _ in groupby(seen)]
        check(seen == states, f"{topic} is not told in order")
    late = MqttReader(port, "acdm/flight/#", "late")
    expected = {topic: states[-1] for topic, states in states_of(lines).items()}
    until(lambda: len(late.messages) > len(expected))
    late.close()
    check(
        {message[1]: message[2] for message in late.messages if message[0] == "1"} == expected,
        "what is retained is not the last of each flight",
    )


def end_of(lines: Lines) -> str:
    """The place behind a feed, as bridges keep it."""
    return f"{len(lines)} {name_of(lines)}"


def told_entries(reader: MqttReader, lines: Lines) -> Lines:
    """The entries of the journal of a feed that a reader was told, as lines of the feed."""
    own = f'{{"journal":"{name_of(lines)}",'
    return [f"{{{text.removeprefix(own)}\n" for text in reader.payloads("acdm/entry") if text.startswith(own)]


def check_topics(reader: MqttReader, lines: Lines, port: int, bridge: Bridge) -> str:
    """Waits for the end, and compares all topics with the feed."""
    wait_for_end(bridge, lambda: reader.payloads("acdm/next")[-1:] == [end_of(lines)])
    check_flights(reader, lines, port)
    return check_entries(told_entries(reader, lines), lines, False)


def others(lines: Lines) -> tuple[Lines, Lines]:
    """The feeds of two other journals: one that is shorter, with some of the flights, and one that is longer."""
    shorter = [line.replace('"session":', '"session":1', 1) for line in lines[: len(lines) // 3]]
    longer = [line.replace('"session":', '"session":2', 1) for line in lines]
    return shorter, longer + small_feed(len(lines) + 60)[len(lines) :]


def check_said(bridge: Bridge, journals: list[Lines]) -> None:
    """A bridge has said of each journal but the first that it is another one, in a line."""
    said = [line for line in bridge.said if "a new generation begins at its entry 0" in line]
    told = [f"another journal, {name_of(own)} for {name_of(before)}: " for before, own in zip(journals, journals[1:])]
    check(len(said) == len(told) and all(map(str.__contains__, said, told)), f"not each journal is said: {bridge.said}")


def through_journals(bridge: Bridge, feed: FeedStub, journals: list[Lines], is_there: Callable[[Lines], bool]) -> None:
    """Has a bridge go through journals, and begins it again at each second one."""
    for number, lines in enumerate(journals):
        if number % 2 == 0 and number:
            bridge.kill()
        feed.turn_to(lines)
        if number % 2 == 0 and number:
            bridge.begin()
        wait_for_end(bridge, partial(is_there, lines))
    check_said(bridge, journals)


def mqtt_killed(lines: Lines, chance: random.Random, room: Path) -> str:
    """Bridge and broker are ended at random moments."""
    server = Mosquitto(room)
    server.start()
    reader, feed = MqttReader(server.port), FeedStub(lines, SECONDS)
    bridge = Bridge("mqtt", feed.address, f"127.0.0.1:{server.port}")
    try:
        run_and_kill(bridge, feed, chance, lambda: crash_and_start(server))
        return check_topics(reader, lines, server.port, bridge)
    finally:
        bridge.kill()
        reader.close()
        server.stop()


def mqtt_cut(lines: Lines, chance: random.Random, room: Path) -> str:
    """The bridge is killed in the middle of its talk with the broker."""
    server = Mosquitto(room)
    server.start()
    reader, proxy = MqttReader(server.port), KillingProxy(server.port, chance, KILLS)
    bridge = Bridge("mqtt", FeedStub(lines).address, f"127.0.0.1:{proxy.port}")
    try:
        run_and_cut(proxy, bridge)
        return check_topics(reader, lines, server.port, bridge)
    finally:
        bridge.kill()
        reader.close()
        server.stop()


def mqtt_slow(lines: Lines, _chance: random.Random, room: Path) -> str:
    """The broker is slow to say which number is retained."""
    server, half = Mosquitto(room), len(lines) // 2
    server.start()
    reader, proxy = MqttReader(server.port), SlowProxy(server.port, 5)
    first = Bridge("mqtt", FeedStub(lines[:half]).address, f"127.0.0.1:{server.port}")
    second = first
    try:
        check(
            until(lambda: reader.payloads("acdm/next")[-1:] == [f"{half} {name_of(lines)}"]),
            f"the first half does not come: {first.said}",
        )
        first.kill()
        second = Bridge("mqtt", FeedStub(lines).address, f"127.0.0.1:{proxy.port}")
        check(
            until(lambda: reader.payloads("acdm/next")[-1:] == [end_of(lines)], 60),
            f"the second half does not come: {second.said}",
        )
        return check_entries(told_entries(reader, lines), lines, True)
    finally:
        second.kill()
        reader.close()
        proxy.listening.close()
        server.stop()


def mqtt_guarded(lines: Lines, _chance: random.Random, room: Path) -> str:
    """TLS and passwords."""
    server = Mosquitto(room, True)
    server.start()
    server.write_password("wrong")
    reader, feed = MqttReader(server.open_port), FeedStub(lines).address
    bridge = Bridge("mqtt", feed, f"127.0.0.1:{server.port}", *server.security_words())
    try:
        try_wrong_password(server, bridge, "not authorised")
        refused = {
            "": Bridge("mqtt", feed, f"127.0.0.1:{server.port}", *server.security_words()[:-4]),
            "certificate verify failed": Bridge("mqtt", feed, f"127.0.0.1:{server.port}", "--tls"),
            "Hostname mismatch": Bridge("mqtt", feed, f"localhost:{server.port}", *server.security_words()),
        }
        check_refused(refused)
        return check_topics(reader, lines, server.open_port, bridge)
    finally:
        bridge.kill()
        reader.close()
        server.stop()


def mqtt_another(lines: Lines, _chance: random.Random, room: Path) -> str:
    """The board has another journal, shorter and then longer; what is retained is that of the one that there is."""
    server, journals = Mosquitto(room), [lines, *others(lines)]
    server.start()
    reader, feed = MqttReader(server.port), FeedStub(lines)
    bridge = Bridge("mqtt", feed.address, f"127.0.0.1:{server.port}")
    retained: list[set[str]] = []

    def is_there(own: Lines) -> bool:
        if reader.payloads("acdm/next")[-1:] != [end_of(own)]:
            return False
        retained.append(flights_retained(server.port))
        return True

    try:
        through_journals(bridge, feed, journals, is_there)
        check(retained == [set(states_of(own)) for own in journals], "flights of another journal are retained")
        return ", ".join(check_entries(told_entries(reader, own), own, True) for own in journals)
    finally:
        bridge.kill()
        reader.close()
        server.stop()


def flights_retained(port: int) -> set[str]:
    """The topics of the flights that a broker retains."""
    late = MqttReader(port, "acdm/flight/#", "late")
    time.sleep(1)
    late.close()
    return {message[1] for message in late.messages if message[0] == "1"}


def mqtt_older(lines: Lines, _chance: random.Random, room: Path) -> str:
    """A number that an older bridge has retained is taken over."""
    server, half = Mosquitto(room), len(lines) // 2
    server.start()
    reader = MqttReader(server.port)
    publish = "import paho.mqtt.publish as p; p.single('acdm/next', '{}', 1, True, port={})"
    subprocess.run([PYTHON, "-c", publish.format(half, server.port)], check=True)
    bridge = Bridge("mqtt", FeedStub(lines).address, f"127.0.0.1:{server.port}")
    try:
        wait_for_end(bridge, lambda: reader.payloads("acdm/next")[-1:] == [end_of(lines)])
        check(bridge.has_said(f"it is taken to be of {name_of(lines)}"), f"it is not said: {bridge.said}")
        check(told_entries(reader, lines) == lines[half:], "it does not go on at the number")
        return f"{len(lines) - half} entries, each once"
    finally:
        bridge.kill()
        reader.close()
        server.stop()


def check_tables(server: Postgresql, lines: Lines) -> str:
    """Compares all tables with the feed."""
    entries, where = [json.loads(line) for line in lines], f"WHERE journal = '{name_of(lines)}'"
    check(
        [json.loads(row) for row in server.rows(f"SELECT line FROM entry {where} ORDER BY entry")] == entries,
        "the entries are not those of the feed",
    )
    flights = {str(record["flight"]): record for entry in entries for record in entry["changed"]}
    kept = dict(row.split("|", 1) for row in server.rows(f"SELECT flight, array_to_json(alerts) FROM flight {where}"))
    check(
        {key: json.loads(text) for key, text in kept.items()}
        == {key: record["alerts"] for key, record in flights.items()},
        "the flights are not those of the feed",
    )
    rows = server.rows(f"SELECT flight, name FROM alert {where} AND until IS NULL")
    standing = {tuple(row.split("|")) for row in rows}
    check(
        standing == {(key, name) for key, record in flights.items() for name in record["alerts"]},
        "the alerts are not those of the feed",
    )
    queries = (BRIDGES / "postgresql.sql").read_text(encoding="utf-8").partition("-- Queries")[2].split(";")[:2]
    check(all(server.rows(query) for query in queries), "a query of postgresql.sql gives no row")
    return f"{len(entries)} entries, each once"


def postgresql_carried(lines: Lines, chance: random.Random, server: Postgresql, is_torn: bool) -> str:
    """Carries a feed into a database."""
    server.start()
    feed = FeedStub(lines, SECONDS if is_torn else 0)
    if server.is_guarded:
        server.write_password("wrong")
    bridge = Bridge("postgresql", feed.address, server.dsn())
    try:
        if server.is_guarded:
            try_wrong_password(server, bridge, "password authentication failed")
            dsn = server.dsn()
            refused = {
                "certificate verify failed": dsn.replace("/ca.pem", "/server.pem"),
                "does not match host name": dsn.replace("host=127.0.0.1", "host=localhost"),
                "no encryption": dsn.replace("verify-full", "disable"),
            }
            check_refused({reason: Bridge("postgresql", feed.address, words) for reason, words in refused.items()})
        if is_torn:
            run_and_kill(bridge, feed, chance, lambda: crash_and_start(server))
        wait_for_end(bridge, lambda: server.rows("SELECT count(*) FROM entry") == [str(len(lines))])
        return check_tables(server, lines)
    finally:
        bridge.kill()
        server.stop()


def postgresql_cut(lines: Lines, chance: random.Random, room: Path) -> str:
    """The bridge is killed in the middle of its talk with the database."""
    server = Postgresql(room)
    server.start()
    proxy = KillingProxy(server.port, chance, KILLS)
    dsn = server.dsn().replace(f"port={server.port}", f"port={proxy.port} sslmode=disable")
    bridge = Bridge("postgresql", FeedStub(lines).address, dsn)
    try:
        run_and_cut(proxy, bridge)
        wait_for_end(bridge, lambda: server.rows("SELECT count(*) FROM entry") == [str(len(lines))])
        return check_tables(server, lines)
    finally:
        bridge.kill()
        server.stop()


def postgresql_killed(lines: Lines, chance: random.Random, room: Path) -> str:
    """Bridge and database crash at random moments."""
    return postgresql_carried(lines, chance, Postgresql(room), True)


def postgresql_guarded(lines: Lines, chance: random.Random, room: Path) -> str:
    """TLS and passwords."""
    return postgresql_carried(lines, chance, Postgresql(room, True), False)


def postgresql_another(lines: Lines, _chance: random.Random, room: Path) -> str:
    """The board has another journal, shorter and then longer, and then again the first one, which has grown."""
    server, journals = Postgresql(room), [lines[:-9], *others(lines)]
    server.start()
    feed = FeedStub(journals[0])
    bridge = Bridge("postgresql", feed.address, server.dsn())
    count = "SELECT count(*) FROM entry WHERE journal = '{}'"

    def is_there(own: Lines) -> bool:
        return server.rows(count.format(name_of(own))) == [str(len(own))]

    try:
        through_journals(bridge, feed, journals, is_there)
        feed.turn_to(lines)
        wait_for_end(bridge, partial(is_there, lines))
        check(bridge.has_said(f"begins at its entry {len(lines) - 9}"), f"it is not said: {bridge.said}")
        names = [name_of(own) for own in (*journals[1:], lines)]
        check(server.rows("SELECT journal FROM journal ORDER BY generation") == names, "the order of the journals")
        return ", ".join(check_tables(server, own) for own in (*journals[1:], lines))
    finally:
        bridge.kill()
        server.stop()


def postgresql_older(lines: Lines, _chance: random.Random, room: Path) -> str:
    """Tables of an older bridge: it is said that they have no journals, and one statement gives them some."""
    server, half = Postgresql(room), len(lines) // 2
    server.start()
    server.rows((TESTS / "postgresql-0.9.0.sql").read_text(encoding="ascii"))
    for entry in map(json.loads, lines[:half]):
        text = json.dumps(entry).replace("'", "''")
        server.rows(f"INSERT INTO entry VALUES ({entry['entry']}, '{entry['minute']}', 1, 'APT', 'x', 1, 0, '{text}')")
    flight = next(record["flight"] for line in lines[:half] for record in json.loads(line)["changed"])
    server.rows(f"INSERT INTO flight (flight, reached, alerts, entry) VALUES ({flight}, '{{}}', '{{CDM01}}', 0)")
    server.rows(f"INSERT INTO alert VALUES ({flight}, 'CDM01', now(), NULL)")
    bridge = Bridge("postgresql", FeedStub(lines).address, server.dsn())
    try:
        check(until(partial(bridge.has_said, "run bridges/postgresql-journal.sql once")), f"not said: {bridge.said}")
        command = ["/usr/bin/psql", "-v", "ON_ERROR_STOP=1", "-f", str(BRIDGES / "postgresql-journal.sql")]
        command.append(server.dsn())
        subprocess.run(command, capture_output=True, check=True)
        count = f"SELECT count(*) FROM entry WHERE journal = '{name_of(lines)}'"
        wait_for_end(bridge, lambda: server.rows(count) == [str(len(lines))])
        check(bridge.has_said(f"it is taken to be of {name_of(lines)}"), f"it is not said: {bridge.said}")
        columns = (
            "SELECT table_name, column_name, data_type, is_nullable, column_default FROM information_schema.columns"
        )
        columns += " WHERE table_name IN ('journal', 'entry', 'flight', 'alert') ORDER BY 1, 2"
        found = server.rows(columns)
        server.rows("DROP TABLE alert, flight, entry, journal")
        server.rows((BRIDGES / "postgresql.sql").read_text(encoding="utf-8").partition("-- Queries")[0])
        check(found == server.rows(columns), "the tables are not those of today")
        return f"{len(lines)} entries"
    finally:
        bridge.kill()
        server.stop()


def amqp_another(lines: Lines, _chance: random.Random, room: Path) -> str:
    """The board has another journal, shorter and then longer; at first the state is that of an older bridge."""
    server, state, journals = RabbitMq(room), room / "next", [lines, *others(lines)]
    server.start()
    feed, half = FeedStub(lines), len(lines) // 2
    state.write_text(f"{half}\n", encoding="ascii")
    bridge = Bridge("amqp", feed.address, f"{server.url()}/acdm", state)

    def is_there(own: Lines) -> bool:
        return state.read_text(encoding="ascii") == f"{end_of(own)}\n"

    try:
        through_journals(bridge, feed, journals, is_there)
        check(bridge.has_said(f"it is taken to be of {name_of(lines)}"), f"it is not said: {bridge.said}")
        found = [line.split(" ", 2)[1:] for line in read_by("amqp", server.open_url(), "acdm")]
        told = {name_of(own): [text + "\n" for name, text in found if name == name_of(own)] for own in journals}
        check(told[name_of(lines)] == lines[half:], "it does not go on at the number")
        return ", ".join(check_entries(told[name_of(own)], own, True) for own in journals[1:])
    finally:
        bridge.kill()
        server.stop()


def check_queue(server: RabbitMq, state: Path, lines: Lines, bridge: Bridge) -> str:
    """Waits for the end, and compares the queue with the feed."""
    wait_for_end(bridge, lambda: state.exists() and state.read_text(encoding="ascii") == f"{end_of(lines)}\n")
    found = [line.split(" ", 2)[1:] for line in read_by("amqp", server.open_url(), "acdm")]
    check(all(name == name_of(lines) for name, _ in found), "a message is of another journal")
    return check_entries([text + "\n" for _, text in found], lines, False)


def amqp_killed(lines: Lines, chance: random.Random, room: Path) -> str:
    """Bridge and broker are killed at random moments."""
    server, feed, state = RabbitMq(room), FeedStub(lines, SECONDS), room / "next"
    server.start()
    bridge = Bridge("amqp", feed.address, f"{server.url()}/acdm", state)
    try:
        run_and_kill(bridge, feed, chance, lambda: crash_and_start(server))
        return check_queue(server, state, lines, bridge)
    finally:
        bridge.kill()
        server.stop()


def amqp_cut(lines: Lines, chance: random.Random, room: Path) -> str:
    """The bridge is killed in the middle of its talk with the broker."""
    server, state = RabbitMq(room), room / "next"
    server.start()
    proxy = KillingProxy(server.port, chance, KILLS)
    bridge = Bridge("amqp", FeedStub(lines).address, f"amqp://127.0.0.1:{proxy.port}/acdm", state)
    try:
        run_and_cut(proxy, bridge)
        return check_queue(server, state, lines, bridge)
    finally:
        bridge.kill()
        server.stop()


def amqp_guarded(lines: Lines, _chance: random.Random, room: Path) -> str:
    """TLS and passwords; a bridge without a user is refused, and a broker without a right certificate is."""
    server, feed, state = RabbitMq(room, True), FeedStub(lines), room / "next"
    server.start()
    server.write_password("wrong")
    bridge = Bridge("amqp", feed.address, f"{server.url()}/acdm", state, *server.security_words())
    words = server.security_words()
    try:
        try_wrong_password(server, bridge, "Authentication failed [mech=PLAIN]")
        other, there = room / "other", f"{server.url()}/acdm"
        refused = {
            "": Bridge("amqp", feed.address, there, other, *words[:-4]),
            "Authentication failed [mech=none]": Bridge("amqp", feed.address, there, other, *words[:2], *words[-4:]),
            "certificate verify failed": Bridge("amqp", feed.address, there, other),
            "SSL Failure": Bridge("amqp", feed.address, there.replace("127.0.0.1", "localhost"), other, *words),
        }
        check_refused(refused)
        check(not other.exists(), "the broker takes entries of a bridge that it refuses")
        return check_queue(server, state, lines, bridge)
    finally:
        bridge.kill()
        server.stop()


def read_kafka(servers: str, topic: str) -> Lines:
    """The values of the committed messages."""
    return [line.split(" ", 3)[3] + "\n" for line in read_by("kafka", servers, topic)]


def kafka_carried(
    lines: Lines, chance: random.Random, servers: str, topic: str, restart: Callable[[], None] | None
) -> str:
    """Kills the bridge at random moments."""
    feed = FeedStub(lines, SECONDS)
    bridge = Bridge("kafka", feed.address, servers, "--topic", topic)
    try:
        run_and_kill(bridge, feed, chance, restart)
        wait_for_end(bridge, lambda: read_kafka(servers, topic)[-1:] == lines[-1:])
        return check_entries(read_kafka(servers, topic), lines, True)
    finally:
        bridge.kill()


def kafka_stand_in(lines: Lines, chance: random.Random, _room: Path) -> str:
    """Bridge and stand-in are ended at random moments."""
    broker = KafkaStub().start()

    def restart() -> None:
        broker.stop()
        broker.start()

    try:
        return kafka_carried(lines, chance, f"127.0.0.1:{broker.port}", "acdm", restart)
    finally:
        broker.stop()


def kafka_real(lines: Lines, chance: random.Random, _room: Path) -> str:
    """A broker that stands elsewhere, with a topic that nobody has used."""
    return kafka_carried(lines, chance, os.environ["KAFKA_SERVERS"], f"acdm-{time.time_ns()}", None)


Case = Callable[[Lines, random.Random, Path], str]
CASES: dict[str, tuple[Callable[[], bool], list[Case]]] = {
    "mqtt": (Mosquitto.is_there, [mqtt_killed, mqtt_cut, mqtt_slow, mqtt_guarded, mqtt_another, mqtt_older]),
    "postgresql": (
        Postgresql.is_there,
        [postgresql_killed, postgresql_cut, postgresql_guarded, postgresql_another, postgresql_older],
    ),
    "amqp": (RabbitMq.is_there, [amqp_killed, amqp_cut, amqp_guarded, amqp_another]),
    "kafka": (lambda: True, [kafka_stand_in, *([kafka_real] if "KAFKA_SERVERS" in os.environ else [])]),
}


def try_case(case: Case, lines: Lines, seed: int) -> bool:
    """Runs a case in a directory of its own, and says what came of it."""
    with tempfile.TemporaryDirectory(prefix="acdm-bridge-", ignore_cleanup_errors=True) as room:
        begun = time.monotonic()
        try:
            said, is_right = case(lines, random.Random(seed), Path(room)), True
        except (Failed, OSError, subprocess.SubprocessError) as error:
            said, is_right = f"FAILED: {error}", False
    print(f"{case.__name__}: {said} ({time.monotonic() - begun:.0f} s)", flush=True)
    return is_right


def try_quickly(file: Path) -> tuple[int, int]:
    """Runs a file of tests: how many passed, and how many failed."""
    done = subprocess.run([sys.executable, str(file)], capture_output=True, text=True, check=False, cwd=TESTS)
    ran = re.search(r"^Ran (\d+) tests?", done.stderr, re.MULTILINE)
    bad = sum(int(count) for count in re.findall(r"(?:failures|errors)=(\d+)", done.stderr))
    skipped = sum(int(count) for count in re.findall(r"skipped=(\d+)", done.stderr))
    if done.returncode:
        print(done.stderr, end="")
        bad = bad or 1
    note = f", {skipped} left out: a library is not there" if skipped else ""
    print(f"{file.name}: {bad} failed{note}", flush=True)
    return (int(ran[1]) if ran else 0) - bad - skipped, bad


def feed_of(words: argparse.Namespace) -> Lines:
    """The lines of the feed."""
    if words.feed:
        return words.feed.read_text(encoding="ascii").splitlines(keepends=True)
    command = [words.program, "tell", TOP / "examples" / "journal" / "day.journal"]
    return subprocess.run(command, capture_output=True, text=True, check=True).stdout.splitlines(keepends=True)


def try_servers(words: argparse.Namespace, lines: Lines) -> tuple[int, int]:
    """Runs the cases of the bridges named: how many passed, and how many failed."""
    results = []
    for name in words.bridge or CASES:
        is_there, cases = CASES[name]
        if not is_there() or not has_library(name):
            print(f"{name}: left out, its server or library is not there")
            continue
        results += [try_case(case, lines, words.seed) for case in cases]
    if "KAFKA_SERVERS" not in os.environ and "kafka" in (words.bridge or CASES):
        print("kafka_real: left out, KAFKA_SERVERS names no broker")
    return results.count(True), results.count(False)


def main() -> int:
    """Runs what the words say."""
    parser = Arguments(description=__doc__, formatter_class=argparse.RawDescriptionHelpFormatter)
    parser.add_argument("--program", type=Path, default=TOP / "crates" / "acdm" / "out" / "acdm")
    parser.add_argument("--feed", type=readable_file, help="a feed in place of that of the program")
    parser.add_argument("--seed", type=int, default=4, help="of the random moments")
    parser.add_argument("--quick", action="store_true", help="only what needs no server")
    parser.add_argument("bridge", nargs="*", help=", ".join(CASES))
    words = parser.parse_args()
    if wrong := [name for name in words.bridge if name not in CASES]:
        parser.error(f"{wrong[0]} is no bridge")
    if words.quick:
        with ThreadPoolExecutor() as pool:
            counts = list(pool.map(try_quickly, sorted(TESTS.glob("test_*.py"))))
        passed, failed = map(sum, zip(*counts))
    else:
        try:
            lines = feed_of(words)
        except OSError as error:
            parser.error(f"{words.program}: {error.strerror}")
        except subprocess.CalledProcessError as error:
            parser.error(f"{words.program}: tell ends with {error.returncode}: {error.stderr}")
        passed, failed = try_servers(words, lines)
    print(f"{passed} passed, {failed} failed")
    return 1 if failed else 0


if __name__ == "__main__":
    sys.exit(main())
