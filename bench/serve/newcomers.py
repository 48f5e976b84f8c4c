#!/usr/bin/env python3
"""Measures the time to a partner's reply while others connect to the board's addresses, as many as ten thousand a second.

    python3 bench/serve/newcomers.py [--program PATH] [--seconds N] [--rate N]

One partner of `serve --again --control --keep` has a line entered each five milliseconds, for N seconds (10) while nobody else
connects, and as long while four processes connect and leave at once, N times a second (10,000) in all: at the partner's own
address, at that of another, and at the control address in turn. Printed are the times to the reply of both, how many connections
were made a second, and what the board took of the processors meanwhile. Nothing is asked of them; the status is 1 where a line was
not entered or the board did not end well.
"""

import argparse
import multiprocessing
import os
import pathlib
import resource
import socket
import subprocess
import sys
import tempfile
import time

TOP = pathlib.Path(__file__).resolve().parents[2]
sys.path.insert(0, str(TOP / "bench" / "web"))
from browser import free_port  # noqa: E402

PROCESSES, PAUSE = 4, 0.005
TICK = b'{"cmd":"tick"}\n'


def connect(ports, rate, seconds, found):
    """Connects and leaves at once, at this rate for so long, and tells how often it did. Where the board has many who wait to be
    accepted the system drops who comes, which is not waited for."""
    begun, made = time.monotonic(), 0
    while (passed := time.monotonic() - begun) < seconds:
        if made >= rate * passed:
            time.sleep(0.001)
            continue
        with socket.socket() as stream:
            stream.setblocking(False)
            stream.connect_ex(("127.0.0.1", ports[made % len(ports)]))
        made += 1
    found.put(made)


def times_of(partner, seconds):
    """The times to the reply, in milliseconds and in order, and whether all lines were entered."""
    stream, replies = partner
    times, until, is_well = [], time.monotonic() + seconds, True
    while time.monotonic() < until:
        start = time.perf_counter()
        stream.sendall(TICK)
        is_well = replies.readline().startswith(b"ok ") and is_well
        times.append(1000 * (time.perf_counter() - start))
        time.sleep(PAUSE)
    return sorted(times), is_well


def say(name, times):
    p50, p99 = (times[len(times) * share // 100] for share in (50, 99))
    print(f"{name}: p50 {p50:.2f} ms, p99 {p99:.2f} ms, longest {times[-1]:.1f} ms, of {len(times)} replies", flush=True)


def processor_seconds(process):
    fields = pathlib.Path(f"/proc/{process.pid}/stat").read_text().rpartition(")")[2].split()
    return (int(fields[11]) + int(fields[12])) / os.sysconf("SC_CLK_TCK")


def measure(asked, folder):
    control, own, other = free_port(), free_port(), free_port()
    words = [asked.program, "serve", "--again", "--control", str(control), "--keep", str(folder / "day")]
    words += [f"AO=127.0.0.1:{own}", f"GH=127.0.0.1:{other}"]
    server = subprocess.Popen(words, stdout=subprocess.PIPE, stderr=subprocess.DEVNULL)
    for _ in range(2):
        server.stdout.readline()
    stream = socket.create_connection(("127.0.0.1", own))
    stream.setsockopt(socket.IPPROTO_TCP, socket.TCP_NODELAY, 1)
    partner = stream, stream.makefile("rb")
    alone, is_well = times_of(partner, asked.seconds)
    say("nobody else connects", alone)
    found = multiprocessing.Queue()
    words = ([own, other, control], asked.rate / PROCESSES, asked.seconds, found)
    crowd = [multiprocessing.Process(target=connect, args=words, daemon=True) for _ in range(PROCESSES)]
    before, begun = processor_seconds(server), time.monotonic()
    for it in crowd:
        it.start()
    beside, was_well = times_of(partner, asked.seconds)
    made, passed = sum(found.get() for _ in crowd), time.monotonic() - begun
    say(f"{made / asked.seconds:,.0f} connections a second", beside)
    print(f"the board took {(processor_seconds(server) - before) / passed:.2f} processors meanwhile, of {os.cpu_count()}")
    with socket.create_connection(("127.0.0.1", control)) as it:
        it.sendall(b"close\n")
        it.recv(64)
    status = server.wait(30)
    server.stdout.close()
    return is_well and was_well and status == 0


def main():
    words = argparse.ArgumentParser(description="Measures a partner's replies while others connect.")
    words.add_argument("--program", default=str(TOP / "crates" / "acdm" / "out" / "acdm"))
    words.add_argument("--seconds", type=float, default=10)
    words.add_argument("--rate", type=int, default=10_000, help="how many connections a second")
    asked = words.parse_args()
    resource.setrlimit(resource.RLIMIT_NOFILE, (1024, resource.getrlimit(resource.RLIMIT_NOFILE)[1]))
    with tempfile.TemporaryDirectory() as folder:
        return 0 if measure(asked, pathlib.Path(folder)) else 1


if __name__ == "__main__":
    sys.exit(main())
