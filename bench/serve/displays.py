#!/usr/bin/env python3
"""Tries displays of `acdm serve --watch` on a bad day, over connections of this machine with itself.

    python3 bench/serve/displays.py [--program PATH] [--megabytes N] [silent] [stopped] [last]

`silent`: a display that takes nothing is let go after 30 seconds, measured from the last entry of a journal of so many
megabytes on. `stopped`: the program is stopped and goes on (SIGSTOP, SIGCONT), and a display that waits and one that takes
a long journal meanwhile are sent all. `last`: the only partner leaves at once after a display has connected, 40 times, and each
display is sent all. Prints what came of each, and ends with status 1 where one was not as it is documented.
"""

import argparse
import os
import pathlib
import signal
import socket
import subprocess
import sys
import threading
import time

TOP = pathlib.Path(__file__).resolve().parents[2]
# 4,095 times r0 = 0, and the end: an accepted program, and an entry of 65,600 bytes.
PROGRAM = "b700000000000000" * 4095 + "9500000000000000"
LOAD = f'{{"cmd":"load","milestone":7,"kind":"alert","program":"{PROGRAM}"}}\n'.encode()
TICK = b'{"cmd":"tick"}\n'
PATIENCE = 30


def free_port():
    with socket.create_server(("127.0.0.1", 0)) as it:
        return it.getsockname()[1]


def connect(port):
    for _ in range(200):
        try:
            return socket.create_connection(("127.0.0.1", port))
        except ConnectionRefusedError:
            time.sleep(0.05)
    sys.exit("nobody listens")


class Served:
    """`serve` with one partner, and where displays connect."""

    def __init__(self, program):
        self.port = free_port()
        words = [program, "serve", "--watch", f"127.0.0.1:{self.port}", "APT=127.0.0.1:0"]
        self.server = subprocess.Popen(words, stdin=subprocess.DEVNULL, stdout=subprocess.PIPE, text=True)
        self.partner = connect(int(self.server.stdout.readline().rsplit(":", 1)[1]))
        self.partner.setsockopt(socket.IPPROTO_TCP, socket.TCP_NODELAY, 1)
        self.replies = self.partner.makefile("rb")
        connect(self.port).close()

    def enter(self, line, times=1):
        for _ in range(times):
            self.partner.sendall(line)
            if not self.replies.readline().startswith(b"ok"):
                sys.exit("a line was refused")

    def sockets(self):
        """How many sockets it has."""
        room = pathlib.Path(f"/proc/{self.server.pid}/fd")
        return sum(os.readlink(it).startswith("socket:") for it in list(room.iterdir()))

    def until(self, count, seconds):
        """How long it takes until it has so many sockets."""
        start = time.monotonic()
        while self.sockets() != count:
            if time.monotonic() - start > seconds:
                return None
            time.sleep(0.05)
        return time.monotonic() - start

    def leave(self):
        self.partner.shutdown(socket.SHUT_RDWR)
        self.partner.close()
        self.replies.close()

    def end(self):
        self.leave()
        return self.server.wait()


class Reading(threading.Thread):
    """Reads all that a display is sent."""

    def __init__(self, stream):
        super().__init__()
        self.stream, self.heard, self.failed = stream, bytearray(), None
        self.start()

    def run(self):
        try:
            while part := self.stream.recv(65536):
                self.heard += part
        except OSError as failed:
            self.failed = failed
        self.stream.close()

    def has(self, entries):
        return self.failed is None and self.heard.count(b"\n") == entries and self.heard.endswith(b"\n")


def silent(program, megabytes):
    it = Served(program)
    time.sleep(0.5)
    before = it.sockets()
    display = connect(it.port)
    time.sleep(0.5)
    it.enter(LOAD, megabytes * 1_000_000 // len(LOAD) + 1)
    taken = it.until(before, 5 * PATIENCE)
    said = "not in 150 s" if taken is None else f"{taken:.1f} s after the last entry"
    print(f"silent: a display that takes nothing is let go {said}")
    display.close()
    it.end()
    return taken is not None and taken < PATIENCE + 3


def stopped(program, megabytes):
    it = Served(program)
    waits, takes = Reading(connect(it.port)), connect(it.port)
    time.sleep(0.5)
    it.enter(TICK)
    count = megabytes * 1_000_000 // len(LOAD) + 1
    it.enter(LOAD, count)
    for _ in range(5):
        it.server.send_signal(signal.SIGSTOP)
        time.sleep(0.3)
        it.server.send_signal(signal.SIGCONT)
        time.sleep(0.3)
    it.enter(TICK)
    takes = Reading(takes)
    for _ in range(600):
        if waits.has(count + 2) and takes.has(count + 2):
            break
        time.sleep(0.1)
    it.end()
    waits.join()
    takes.join()
    print(f"stopped: one that waits was sent {len(waits.heard):,} bytes, one that was slow {len(takes.heard):,}")
    return waits.has(count + 2) and takes.has(count + 2)


def last(program, megabytes):
    sent = 0
    for _ in range(40):
        it = Served(program)
        it.enter(TICK, 3)
        display = Reading(connect(it.port))
        it.end()
        display.join()
        sent += display.has(3)
    print(f"last: {sent} of 40 displays that connected just before the end were sent all")
    return sent == 40


def main():
    words = argparse.ArgumentParser(description="Tries displays on a bad day.")
    words.add_argument("--program", default=str(TOP / "crates/acdm/out/acdm"))
    words.add_argument("--megabytes", type=int, default=20)
    words.add_argument("tries", nargs="*", default=["silent", "stopped", "last"])
    asked = words.parse_args()
    tries = {"silent": silent, "stopped": stopped, "last": last}
    return 0 if all([tries[it](asked.program, asked.megabytes) for it in asked.tries]) else 1


if __name__ == "__main__":
    sys.exit(main())
