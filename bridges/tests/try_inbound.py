#!/usr/bin/python3
"""Tries `inbound.py` against real brokers on this machine, which it starts and ends itself.

    bridges/tests/try_inbound.py [--program PATH] [mqtt] [amqp]

It needs Debian's mosquitto and python3-paho-mqtt, rabbitmq-server (with its plugin for AMQP 1.0) and
python3-qpid-proton; what is not there is said and left out. Lines are sent to a queue or a topic while the bridge is
killed at moments by chance, and the broker is ended and begun again. Each message has then made one entry, in order,
and has its reply. Each broker is also tried with TLS and a password. The last line is `N cases, M failed`.
"""

import argparse
import contextlib
import json
import os
import random
import sys
import tempfile
import threading
import time
from collections.abc import Callable, Iterator
from functools import partial
from pathlib import Path
from typing import Any

if "--program" in sys.argv[1:-1]:
    os.environ["ACDM"] = str(Path(sys.argv[sys.argv.index("--program") + 1]).resolve())

# pylint: disable=wrong-import-position
from brokers_in import PROGRAM, Inbound, Lines, check_once, check_replies, target  # noqa: E402
from servers import Mosquitto, RabbitMq, Server  # noqa: E402
from support import Bridge, has_library, until  # noqa: E402
from try_bridges import MqttReader  # noqa: E402

COUNT, KILLS = 1000, 8


class Failed(Exception):
    """A case has failed."""


def check(is_right: object, message: object) -> None:
    if not is_right:
        raise Failed(str(message))


@contextlib.contextmanager
def started(server: Server) -> Iterator[None]:
    """A broker that runs, and is ended whatever comes of the case."""
    try:
        server.start()
        yield
    finally:
        server.stop()


def kill_at_random(bridge: Bridge, chance: random.Random, is_over: Callable[[], bool]) -> int:
    """Kills the bridge at moments by chance, until it is over."""
    kills = 0
    while not is_over() and kills < KILLS:
        time.sleep(chance.uniform(0.2, 0.8))
        bridge.kill()
        bridge.begin()
        kills += 1
    return kills


def send_mqtt(port: int, count: int) -> None:
    """Publishes lines, each once the broker has the one before."""
    from paho.mqtt import client as mqtt  # pylint: disable=import-outside-toplevel,import-error

    client = mqtt.Client(client_id="sender", clean_session=False)
    client.connect("127.0.0.1", port)
    client.loop_start()
    for number in range(count):
        client.publish("lines", target(number), qos=1).wait_for_publish(30)
        # (a message that comes twice)
        if number % 10 == 0:
            client.publish("lines", target(number), qos=1).wait_for_publish(30)
    client.disconnect()
    client.loop_stop()


def has_come(port: int, board: Lines) -> bool:
    """Whether a message that is sent comes to the board."""
    send_mqtt(port, 1)
    return bool(board.commands())


def mqtt_carried(room: Path, is_guarded: bool) -> str:
    """Lines of a topic: the bridge is killed, and the broker is ended and begun again."""
    server, chance = Mosquitto(room, is_guarded), random.Random(7)
    with started(server), Lines() as board:
        url = f"mqtt{'s' if is_guarded else ''}://127.0.0.1:{server.port}/lines"
        bridge = board.bridge(url, room / "state", *server.security_words())
        reader = MqttReader(server.open_port, "replies")
        try:
            # (the broker keeps messages for the bridge from its first subscription on)
            check(until(partial(has_come, server.open_port, board)), bridge.said)
            sender = threading.Thread(target=send_mqtt, args=(server.open_port, COUNT))
            sender.start()
            kills = 0 if is_guarded else kill_at_random(bridge, chance, lambda: len(board.commands()) >= COUNT)
            sender.join()
            if not is_guarded:
                server.stop()
                server.start()
            check(until(lambda: len(board.commands()) >= COUNT, 60), f"{len(board.commands())} entries: {bridge.said}")
            check(
                until(lambda: not check_replies(reader.payloads("replies"), COUNT), 30),
                check_replies(reader.payloads("replies"), COUNT),
            )
            check(not check_once(board, COUNT), check_once(board, COUNT))
            return f"{COUNT} messages entered once, the bridge killed {kills} times"
        finally:
            bridge.kill()
            reader.close()


LINES, REPLIES = "/amq/queue/lines", "/amq/queue/replies"


def amqp_link(url: str) -> Any:
    """A connection of the test itself, without TLS, with the user and password of the URL."""
    from proton.utils import BlockingConnection  # pylint: disable=import-outside-toplevel,import-error

    mechanisms = {"allow_insecure_mechs": True, "allowed_mechs": "PLAIN"} if "@" in url else {}
    return BlockingConnection(url, timeout=30, **mechanisms)


def make_queues(url: str) -> None:
    """Makes the queues, which last over a crash: RabbitMQ makes one for who asks for a durable target of that name."""
    # pylint: disable=import-outside-toplevel,import-error
    from proton import Terminus
    from proton.reactor import SenderOption

    class Durable(SenderOption):  # type: ignore[misc]
        def apply(self, sender: Any) -> None:
            sender.target.durability = Terminus.DELIVERIES

    link = amqp_link(url)
    for name in ("lines", "replies"):
        link.create_sender(name, options=[Durable()])
    link.close()


def send_amqp(url: str, count: int) -> None:
    """Sends lines to the queue, each with its id, each once the broker has accepted the one before."""
    from proton import Message  # pylint: disable=import-outside-toplevel,import-error

    link = amqp_link(url)
    sender = link.create_sender(LINES)
    for number in range(count):
        for _ in range(2 if number % 10 == 0 else 1):
            sender.send(Message(id=f"m{number}", durable=True, body=target(number)))
    link.close()


def read_amqp(url: str) -> list[str]:
    """Takes the replies that are there."""
    from proton import Timeout  # pylint: disable=import-outside-toplevel,import-error

    link, found = amqp_link(url), []
    receiver = link.create_receiver(REPLIES, credit=100)
    try:
        while True:
            found.append(str(receiver.receive(timeout=1).body))
            receiver.accept()
    except Timeout:
        link.close()
    return found


def amqp_carried(room: Path, is_guarded: bool) -> str:
    """Lines of a queue: the bridge and the broker are killed."""
    server, chance = RabbitMq(room, is_guarded), random.Random(7)
    with started(server), Lines() as board:
        make_queues(server.open_url())
        bridge = board.bridge(f"{server.url()}/{LINES}", room / "state", *server.security_words(), replies=REPLIES)
        try:
            sender = threading.Thread(target=send_amqp, args=(server.open_url(), COUNT))
            sender.start()
            kills = 0 if is_guarded else kill_at_random(bridge, chance, lambda: len(board.commands()) >= COUNT)
            sender.join()
            if not is_guarded:
                server.crash()
                server.start()
            check(until(lambda: len(board.commands()) >= COUNT, 60), f"{len(board.commands())} entries: {bridge.said}")
            replies: list[str] = []

            def all_replied() -> bool:
                replies.extend(read_amqp(server.open_url()))
                return not check_replies(replies, COUNT)

            check(until(all_replied, 30), check_replies(replies, COUNT))
            check(not check_once(board, COUNT), check_once(board, COUNT))
            return f"{COUNT} messages entered once, the bridge killed {kills} times"
        finally:
            bridge.kill()


def board_away(room: Path, _is_guarded: bool) -> str:
    """While the board is away a message is not acknowledged, and the bridge says so and tries again."""
    server = Mosquitto(room)
    server.start()
    bridge = Inbound(
        "127.0.0.1:1", "127.0.0.1:2", f"mqtt://127.0.0.1:{server.port}/lines", room / "state", "--replies", "replies"
    )
    bridge.begin()
    try:
        check(until((room / "state").exists), "no state")
        time.sleep(1)
        send_mqtt(server.port, 1)
        check(until(lambda: bridge.has_said("the next try is in 1 s"), 30), f"nothing is said: {bridge.said}")
        check(all("Traceback" not in line for line in bridge.said), bridge.said)
        bridge.kill()
        with Lines() as board:
            late = board.bridge(f"mqtt://127.0.0.1:{server.port}/lines", room / "state")
            try:
                check(until(lambda: len(board.commands()) == 1, 30), f"it is not entered later: {late.said}")
            finally:
                late.kill()
        return "a message waits for the board"
    finally:
        bridge.kill()
        server.stop()


CASES: list[tuple[str, str, type[Server], Callable[[Path, bool], str], bool]] = [
    ("mqtt", "killed at random", Mosquitto, mqtt_carried, False),
    ("mqtt", "TLS and a password", Mosquitto, mqtt_carried, True),
    ("mqtt", "the board is away", Mosquitto, board_away, False),
    ("amqp", "killed at random", RabbitMq, amqp_carried, False),
    ("amqp", "TLS and a password", RabbitMq, amqp_carried, True),
]


def main() -> int:
    """Runs the cases, and counts them."""
    words = argparse.ArgumentParser(description="Tries inbound.py against real brokers.")
    words.add_argument("--program", type=Path, help="the board's program")
    words.add_argument("kinds", nargs="*", metavar="KIND", help="mqtt, amqp")
    asked = words.parse_args()
    if not PROGRAM.is_file():
        print(f"there is no program at {PROGRAM}, name it by --program", file=sys.stderr)
        return 2
    count = failed = 0
    for kind, name, server, case, is_guarded in CASES:
        if asked.kinds and kind not in asked.kinds:
            continue
        if not server.is_there() or not has_library(kind):
            print(f"left out: {kind}, {name}: the broker or its library is not there", flush=True)
            continue
        count += 1
        with tempfile.TemporaryDirectory(prefix="acdm-inbound-", ignore_cleanup_errors=True) as room:
            begun = time.monotonic()
            try:
                told = case(Path(room), is_guarded)
                print(f"passed: {kind}, {name}: {told}, {time.monotonic() - begun:.0f} s", flush=True)
            except (Failed, OSError, json.JSONDecodeError) as why:
                failed += 1
                print(f"failed: {kind}, {name}: {why}", flush=True)
    print(f"{count} cases, {failed} failed")
    return 1 if failed else 0


if __name__ == "__main__":
    sys.exit(main())
