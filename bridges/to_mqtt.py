#!/usr/bin/env python3
"""Hands the feed of changes to an MQTT broker (Debian's python3-paho-mqtt).

    bridges/to_mqtt.py FEED BROKER [--topic acdm]

FEED is the address of `acdm serve --changes`, as 127.0.0.1:4100, BROKER that of the broker, as 127.0.0.1:1883. --tls or
--cafile asks for TLS. Topics:

    TOPIC/entry           each entry, as its line of the feed, with the member `journal` before: the journal's name
    TOPIC/flight/NUMBER   the record of a flight as it is now, retained
    TOPIC/next            the number of the entry that comes next and the name of its journal, with a space between,
                          retained: from there the bridge goes on after a break
    TOPIC/bridge          what a bridge sends itself when it begins

Messages have quality of service 1, and each entry waits until the one before is acknowledged with all its flights. Each
entry is handed over at least once: an entry that was cut off before its TOPIC/next comes again, with the same number
and journal. No retained record goes back in time, as long as the broker keeps what is retained. Of another journal all
entries are handed over, from entry 0 on, which one line on standard error says; before them what is retained of flights
is removed. Outside what is proved.
"""

import argparse
import contextlib
import queue
import re
import time
import uuid
from collections.abc import Callable
from typing import Any

from bridge import (
    Address,
    Carried,
    Line,
    Place,
    Security,
    Words,
    end,
    feed_lines,
    forever,
    one_line,
    parse_address,
    place_of,
    run,
    text_of,
    text_of_place,
)

try:
    from paho.mqtt import client as mqtt
except ImportError as missing:
    end("to_mqtt.py", f"python3-paho-mqtt is not there: {missing}")

WAIT = 60
ASK_AGAIN = 5
REFUSED = 128


class Client(mqtt.Client):
    """A client whose thread hands on why it has ended."""

    def __init__(self, identity: str, lose: Callable[[str], None]) -> None:
        super().__init__(client_id=identity, clean_session=True, reconnect_on_failure=False)
        self.lose = lose

    def loop_forever(self, *words: Any, **named: Any) -> int:
        """Reads and writes until the connection ends."""
        reason = "the broker has closed it"
        try:
            return super().loop_forever(*words, **named)
        except (OSError, ValueError) as error:
            reason = one_line(error)
            return mqtt.MQTT_ERR_CONN_LOST
        finally:
            self.lose(reason)


class Broker:
    """One connection to the broker, which is not made again after a break: nothing of it is sent late."""

    def __init__(self, topic: str, security: Security | None) -> None:
        self.topic, self.lost = topic, ""
        # What TOPIC/next says, the journals that this bridge has gone on from, and the flights that are retained.
        self.place: Place | None = None
        self.left: set[str] = set()
        self.flights: set[str] = set()
        self.token = uuid.uuid4().hex
        self.events: queue.SimpleQueue[tuple[str, Any]] = queue.SimpleQueue()
        identity = f"acdm-bridge-{topic.replace('/', '-')}"
        self.client = Client(identity, self.lose)
        if security and security.user is not None:
            self.client.username_pw_set(security.user, security.password())
        self.client.on_connect = lambda _client, _data, _flags, code: self.events.put(("connected", code))
        self.client.on_subscribe = lambda _client, _data, _number, granted: self.events.put(("subscribed", granted))
        self.client.on_message = self.receive

    def lose(self, reason: str) -> None:
        """Notes that the connection is gone."""
        self.lost = f"the connection to the broker is gone: {reason}"
        self.events.put(("lost", self.lost))

    def receive(self, _client: Any, _data: Any, message: Any) -> None:
        """Notes what TOPIC/next says, which flights are retained, and the token of this connection in TOPIC/bridge."""
        text, name = message.payload.decode("utf-8", "replace"), message.topic.removeprefix(f"{self.topic}/")
        if name == "next" and text:
            self.events.put(("place", text))
        elif name.startswith("flight/") and text and message.retain:
            self.events.put(("flight", name))
        elif text == self.token:
            self.events.put(("token", text))

    def open(self, broker: Address) -> None:
        """Connects, and waits until the broker accepts."""
        self.client.connect(*broker, keepalive=30)
        self.client.loop_start()
        code = self.wait_for("connected", WAIT)
        if code:
            raise OSError(f"the broker refuses: {mqtt.connack_string(code)}")

    def wait_for(self, kind: str, seconds: float) -> Any:
        """What an event of this kind brings; OSError at a break, TimeoutError where none comes."""
        last = time.monotonic() + seconds
        while True:
            try:
                event, value = self.events.get(timeout=max(0.0, last - time.monotonic()))
            except queue.Empty:
                raise TimeoutError(f"the broker does not answer for {seconds} s") from None
            if event == "lost":
                raise ConnectionError(value)
            self.take(event, value)
            if event == kind:
                return value

    def take(self, event: str, value: Any) -> None:
        """Takes what came of TOPIC/next and TOPIC/flight."""
        if event == "place":
            self.take_place(value)
        elif event == "flight":
            self.flights.add(value)

    def take_place(self, text: str) -> None:
        """Takes what stands in TOPIC/next: of one journal the greatest number counts, of one that was left none."""
        told = place_of(text)
        if told is None:
            raise OSError(f"{self.topic}/next does not hold the number of an entry and a journal: {text[:60]!r}")
        if self.place and self.place.journal == told.journal:
            self.place.next = max(self.place.next, told.next)
        elif told.journal not in self.left:
            self.place = told

    def subscribe(self, *names: str) -> None:
        """Subscribes to topics, and waits until the broker has granted that."""
        self.client.subscribe([(f"{self.topic}/{name}", 1) for name in names])
        if REFUSED in self.wait_for("subscribed", WAIT):
            raise OSError(f"the broker does not let this user subscribe to {self.topic}/{' or /'.join(names)}")

    def begin(self) -> Place:
        """The place that TOPIC/next retains, or entry 0 where there is none.

        That there is none is known only once the broker has answered: the token is retained after the broker has
        granted TOPIC/next, and is asked for behind TOPIC/next, so that a retained number comes before it.
        """
        self.subscribe("next")
        self.publish("bridge", self.token, retain=True)
        last = time.monotonic() + WAIT
        while True:
            self.subscribe("next", "bridge")
            try:
                self.wait_for("token", ASK_AGAIN)
                break
            except TimeoutError:
                if time.monotonic() > last:
                    raise
        self.publish("bridge", "", retain=True)
        self.place = self.place or Place()
        return Place(self.place.journal, self.place.next)

    def check_place(self, journal: str, first: int) -> None:
        """OSError where the broker has a place that another bridge has published."""
        while not self.events.empty():
            self.take(*self.events.get())
        assert self.place is not None
        if self.place.journal != journal or self.place.next > first:
            own = text_of_place(Place(journal, first))
            raise OSError(f"{self.topic}/next says {text_of_place(self.place)} where this bridge has come to {own}")

    def turn_to(self, journal: str, first: int) -> None:
        """Goes on in a journal that has another name than TOPIC/next says: of another one no flight is there yet."""
        assert self.place is not None
        if self.place.next > first == 0:
            self.remove_flights()
        self.left = (self.left | {self.place.journal}) - {journal}
        self.place = Place(journal, first)

    def remove_flights(self) -> None:
        """Removes what is retained of flights; a broker may tell of some of them at a time."""
        while True:
            self.flights.clear()
            self.publish("bridge", self.token, retain=True)
            self.subscribe("flight/+", "bridge")
            try:
                self.wait_for("token", ASK_AGAIN)
            except TimeoutError:
                if not self.flights:
                    raise
            if not self.flights:
                break
            self.wait_until_acknowledged([self.send(name, "", True) for name in self.flights])
        self.publish("bridge", "", retain=True)
        self.client.unsubscribe(f"{self.topic}/flight/+")

    def publish(self, name: str, payload: str, retain: bool = False) -> None:
        """Publishes a message, and waits until it is acknowledged."""
        self.wait_until_acknowledged([self.send(name, payload, retain)])

    def send(self, name: str, payload: str, retain: bool) -> mqtt.MQTTMessageInfo:
        """Publishes a message."""
        return self.client.publish(f"{self.topic}/{name}", payload, qos=1, retain=retain)

    def wait_until_acknowledged(self, messages: list[mqtt.MQTTMessageInfo]) -> None:
        """Waits until the broker has acknowledged all of these."""
        last = time.monotonic() + WAIT
        for message in messages:
            while not message.is_published():
                if self.lost:
                    raise ConnectionError(self.lost)
                if time.monotonic() > last:
                    raise TimeoutError(f"the broker does not acknowledge for {WAIT} s")
                message.wait_for_publish(1)

    def hand_over(self, line: Line, journal: str) -> None:
        """Publishes an entry of a journal, the flights that it changed, and then the place of the next."""
        if self.place and self.place.journal != journal:
            self.turn_to(journal, line["entry"])
        self.check_place(journal, line["entry"])
        self.publish("entry", text_of({"journal": journal, **line}))
        records = {f"flight/{record['flight']}": text_of(record) for record in line["changed"]}
        self.wait_until_acknowledged([self.send(name, text, True) for name, text in records.items()])
        self.publish("next", text_of_place(Place(journal, line["entry"] + 1)), retain=True)

    def close(self) -> None:
        """Ends the connection."""
        with contextlib.suppress(OSError, ValueError):
            self.client.disconnect()
        self.client.loop_stop()


def carry(given: argparse.Namespace, security: Security, carried: Carried) -> None:
    """Hands entries over until the feed or the broker fails."""
    broker = Broker(given.topic, security)
    if given.has_tls:
        broker.client.tls_set_context(security.context())
    try:
        broker.open(given.broker)
        place = broker.begin()
        for lines in feed_lines(given.feed, place):
            for line in lines:
                broker.hand_over(line, place.journal)
                carried()
    except (RuntimeError, ValueError) as error:
        raise OSError(f"the broker: {error}") from None
    finally:
        broker.close()


def topic_name(text: str) -> str:
    """The beginning of a topic's name."""
    if not text or re.search("[+#\0]", text):
        raise argparse.ArgumentTypeError(f"{text!r} is no name of a topic")
    return text


def main() -> None:
    """Reads the words and hands entries over."""
    words = Words(__doc__)
    words.add_argument("broker", type=parse_address)
    words.add_argument("--topic", type=topic_name, default="acdm")
    words.add_argument("--tls", action="store_true", help="TLS, with the authorities that this system trusts")
    words.add_security()
    given = words.parse_args()
    given.has_tls = given.tls or given.cafile is not None or given.cert is not None
    security = words.security_of(given, given.has_tls)
    forever(words.prog, lambda carried: carry(given, security, carried), ())


if __name__ == "__main__":
    run(main)
