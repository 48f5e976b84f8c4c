#!/usr/bin/env python3
"""Hands the feed of changes to a broker that speaks AMQP 1.0, as SWIM does (Debian's python3-qpid-proton).

    bridges/to_amqp.py FEED URL STATE

FEED is the address of `acdm serve --changes`, as 127.0.0.1:4100. URL is that of a queue, as amqp://127.0.0.1:5672/acdm,
or amqps://.. for TLS. Each entry is one durable message: its number is the message's id, `cmd` its subject, its line of
the feed the body, and the name of its journal the property `journal`. STATE is a file that keeps the number of the
entry that comes next and that name.

Each entry is handed over at least once: STATE is written after the broker has accepted an entry, so that an entry may
come again after a break, with the same id and journal. Of another journal all entries are handed over, from entry 0 on,
which one line on standard error says. Outside what is proved.
"""

import argparse
from pathlib import Path
from typing import NamedTuple
from urllib.parse import urlsplit

from bridge import Carried, Line, Place, Security, StateFile, Words, end, feed_lines, forever, run, text_of

try:
    from proton import Delivery, Message, ProtonException, SSLDomain
    from proton.utils import BlockingConnection, BlockingSender
except ImportError as missing:
    end("to_amqp.py", f"python3-qpid-proton is not there: {missing}")

WAIT = 30
PORTS = {"amqp": 5672, "amqps": 5671}


class Queue(NamedTuple):
    """A queue at a broker."""

    broker: str
    name: str
    has_tls: bool


def queue_at(text: str) -> Queue:
    """The queue that a URL names."""
    try:
        url = urlsplit(text)
        port = url.port
    except ValueError:
        url, port = urlsplit(""), None
    if "@" in url.netloc:
        raise argparse.ArgumentTypeError(
            "a user or password in the URL is seen by all users of this machine: say --user"
        )
    if url.scheme not in PORTS or not url.hostname or not url.path[1:] or url.query or url.fragment:
        raise argparse.ArgumentTypeError(f"{text!r} is no amqp://HOST:PORT/QUEUE or amqps://HOST:PORT/QUEUE")
    host = f"[{url.hostname}]" if ":" in url.hostname else url.hostname
    return Queue(f"{url.scheme}://{host}:{port or PORTS[url.scheme]}", url.path[1:], url.scheme == "amqps")


def connection_to(queue: Queue, security: Security) -> BlockingConnection:
    """A connection to the broker, over TLS and with user and password where they are asked for."""
    domain = None
    if queue.has_tls:
        domain = SSLDomain(SSLDomain.MODE_CLIENT)
        if security.cafile:
            domain.set_trusted_ca_db(str(security.cafile))
        if security.cert:
            domain.set_credentials(str(security.cert), str(security.key or security.cert), None)
        domain.set_peer_authentication(SSLDomain.VERIFY_PEER_NAME)
    if security.user is None:
        return BlockingConnection(queue.broker, timeout=WAIT, ssl_domain=domain)
    words = {"user": security.user, "password": security.password(), "allowed_mechs": "PLAIN"}
    return BlockingConnection(queue.broker, timeout=WAIT, ssl_domain=domain, **words)


def hand_over(sender: BlockingSender, line: Line, journal: str) -> None:
    """Sends an entry of a journal, and waits until the broker has accepted it."""
    message = Message(
        id=line["entry"],
        properties={"journal": journal},
        subject=line["command"]["cmd"],
        durable=True,
        content_type="application/json",
        body=text_of(line),
    )
    delivery = sender.send(message)
    if delivery.remote_state != Delivery.ACCEPTED:
        raise OSError(f"the broker does not accept entry {line['entry']}: {delivery.remote_state}")


def carry(given: argparse.Namespace, security: Security, state: StateFile, carried: Carried) -> None:
    """Hands entries over until the feed or the broker fails."""
    link = connection_to(given.queue, security)
    try:
        sender = link.create_sender(given.queue.name)
        place = Place(state.place.journal, state.place.next)
        for lines in feed_lines(given.feed, place):
            for line in lines:
                hand_over(sender, line, place.journal)
                state.write(Place(place.journal, line["entry"] + 1))
                carried()
    finally:
        link.close()


def main() -> None:
    """Reads the words and hands entries over."""
    words = Words(__doc__)
    words.add_argument("queue", type=queue_at, metavar="url")
    words.add_argument("state", type=Path)
    words.add_security()
    given = words.parse_args()
    security = words.security_of(given, given.queue.has_tls)
    try:
        state = StateFile(given.state)
    except (OSError, ValueError) as error:
        end(words.prog, error)
    forever(words.prog, lambda carried: carry(given, security, state, carried), (ProtonException,))


if __name__ == "__main__":
    run(main)
