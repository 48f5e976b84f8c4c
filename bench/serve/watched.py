#!/usr/bin/env python3
"""Measures what displays of the feed cost the board and its partners.

    python3 bench/serve/watched.py [--program PATH ..] [--viewers N] [--lines N]

For each program `acdm serve --changes` is started twice: without a display, and with N of them (64), each a process of its own
that reads what it is sent and drops it (`cat`). One partner sends so many lines (40,000), each a new schedule of one of 1,000 flights,
and reads the replies beside. Printed are its lines a second, and the seconds of a processor that the board took for them, until
all displays had the last entry or ten seconds were over. The machine is shared by all of them.
"""

import argparse
import os
import pathlib
import socket
import subprocess
import sys
import tempfile
import threading
import time

TOP = pathlib.Path(__file__).resolve().parents[2]
FLIGHTS = 1_000


def free_ports(count):
    """Ports at which nothing listens."""
    probes = [socket.create_server(("127.0.0.1", 0)) for _ in range(count)]
    ports = [it.getsockname()[1] for it in probes]
    for it in probes:
        it.close()
    return ports


def connected(port):
    """A connection, once somebody listens."""
    for _ in range(400):
        try:
            return socket.create_connection(("127.0.0.1", port))
        except OSError:
            time.sleep(0.05)
    sys.exit(f"nobody listens at port {port}")


def schedule(flight, stand):
    """The line of a schedule."""
    names = f'"callsign":"KVT{flight}","type":"A320","reg":"DAI{flight % 1000}","dest":"EGLL"'
    sobt = time.strftime("%Y-%m-%dT%H:%M:00Z", time.gmtime(time.time() + 7_200 + 60 * (flight % 300)))
    minutes = '"mttt":45,"exit":5,"exot":12'
    return f'{{"cmd":"schedule","flight":{flight},{names},"sobt":"{sobt}",{minutes},"stand":{stand}}}\n'


def processor_seconds(process):
    """What a process took of processors, in seconds."""
    fields = pathlib.Path(f"/proc/{process.pid}/stat").read_text().rpartition(")")[2].split()
    return (int(fields[11]) + int(fields[12])) / os.sysconf("SC_CLK_TCK")


def drained(stream, count):
    """Reads so many lines, and says how many of them are no `ok`."""
    left, bad, rest = count, 0, b""
    while left > 0:
        data = stream.recv(1 << 20)
        if not data:
            sys.exit(f"the board has closed the connection, {left} replies before the end")
        lines = (rest + data).split(b"\n")
        rest = lines.pop()
        left -= len(lines)
        bad += sum(not it.startswith(b"ok") for it in lines)
    return bad


def sent(stream, lines):
    """Sends these lines while their replies are read, and says how many seconds that took, and how many were refused."""
    began, bad = time.monotonic(), []
    reader = threading.Thread(target=lambda: bad.append(drained(stream, len(lines))))
    reader.start()
    stream.sendall("".join(lines).encode())
    reader.join()
    return time.monotonic() - began, bad[0]


def measured(program, viewers, count):
    """Lines a second, seconds of a processor for each 1,000 of them, and how many were refused."""
    port, changes = free_ports(2)
    words = [program, "serve", "--journal", str(FLIGHTS + 4 * count), "--changes", f"127.0.0.1:{changes}", f"APT=127.0.0.1:{port}"]
    with tempfile.TemporaryFile() as said, subprocess.Popen(words, stdout=said, stderr=said) as board:
        stream = connected(port)
        sent(stream, [schedule(it, 1) for it in range(1, FLIGHTS + 1)])
        displays = []
        for _ in range(viewers):
            display = connected(changes)
            display.sendall(b"board\n")
            displays.append(subprocess.Popen(["cat"], stdin=display.fileno(), stdout=subprocess.DEVNULL))
            display.close()
        time.sleep(3)
        before = processor_seconds(board)
        lines = [schedule(it % FLIGHTS + 1, it % 89 + 1) for it in range(count)]
        took, bad = sent(stream, lines)
        time.sleep(10 if viewers else 0)
        seconds = processor_seconds(board) - before
        stream.close()
        board.terminate()
        for it in displays:
            it.kill()
            it.wait()
    return count / took, 1_000_000 * seconds / count, bad


def main():
    words = argparse.ArgumentParser(description="Measures what displays of the feed cost.")
    words.add_argument("--program", nargs="+", default=[str(TOP / "crates" / "acdm" / "out" / "acdm")])
    words.add_argument("--viewers", type=int, default=64)
    words.add_argument("--lines", type=int, default=40_000)
    asked = words.parse_args()
    for program in asked.program:
        for viewers in (0, asked.viewers):
            speed, each, bad = measured(program, viewers, asked.lines)
            print(f"{program}: {viewers} displays: {speed:,.0f} lines a second, {each:.1f} us of a processor a line, {bad} refused", flush=True)


if __name__ == "__main__":
    main()
