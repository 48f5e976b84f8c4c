#!/usr/bin/env python3
"""Prints what a broker has, for tests.

    bridges/tests/readers.py kafka SERVERS TOPIC                partition, key, journal and value
    bridges/tests/readers.py mqtt HOST:PORT FILTER IDENTITY     retained (0 or 1), topic and payload
    bridges/tests/readers.py amqp URL QUEUE                     id, journal and body

Printed are these of each message, of Kafka of each that is committed. That of AMQP takes them. That of MQTT reads until
it is ended, the others until nothing is left.
"""

import importlib
import sys
from collections.abc import Callable
from typing import Any


def read_kafka(servers: str, topic: str) -> None:
    """Reads all partitions to their ends."""
    kafka = importlib.import_module("confluent_kafka")
    settings = {"bootstrap.servers": servers, "group.id": "reader", "isolation.level": "read_committed"}
    consumer = kafka.Consumer(settings | {"enable.auto.commit": "false", "enable.partition.eof": "true"})
    partitions = list(consumer.list_topics(topic, timeout=10).topics[topic].partitions)
    consumer.assign([kafka.TopicPartition(topic, number, kafka.OFFSET_BEGINNING) for number in partitions])
    while partitions:
        message = consumer.poll(10)
        if message.error():
            partitions.remove(message.partition())
        else:
            journal = dict(message.headers() or []).get("journal", b"-").decode()
            print(message.partition(), message.key().decode(), journal, message.value().decode())
    consumer.close()


def print_message(_client: Any, _data: Any, message: Any) -> None:
    """Prints a message of MQTT."""
    print(int(message.retain), message.topic, message.payload.decode(), flush=True)


def read_mqtt(broker: str, wanted: str, identity: str) -> None:
    """Reads as a client whose session the broker keeps."""
    mqtt = importlib.import_module("paho.mqtt.client")
    client = mqtt.Client(client_id=identity, clean_session=False)
    client.on_connect = lambda *_: client.subscribe(wanted, qos=1)
    client.on_subscribe = lambda *_: print("subscribed", flush=True)
    client.on_message = print_message
    host, _, port = broker.partition(":")
    client.connect(host, int(port))
    client.loop_forever(retry_first_connection=True)


def read_amqp(url: str, queue: str) -> None:
    """Takes messages until none comes for two seconds."""
    proton = importlib.import_module("proton")
    mechanisms = {"allow_insecure_mechs": True, "allowed_mechs": "PLAIN"} if "@" in url else {}
    link = importlib.import_module("proton.utils").BlockingConnection(url, timeout=10, **mechanisms)
    receiver = link.create_receiver(queue, credit=100)
    try:
        while True:
            message = receiver.receive(timeout=2)
            print(message.id, (message.properties or {}).get("journal", "-"), message.body)
            receiver.accept()
    except proton.Timeout:
        link.close()


READERS: dict[str, Callable[..., None]] = {"kafka": read_kafka, "mqtt": read_mqtt, "amqp": read_amqp}

if __name__ == "__main__":
    READERS[sys.argv[1]](*sys.argv[2:])
