#!/usr/bin/env python3
"""Measures `acdm serve` with lines in flight, beside a plain threaded server, and prints the ratios of one run.

    python3 bench/serve/pipelined.py [--flights N] [--runs N] [--acdm PROGRAM]

The lines of a day are dealt to 1, 8 and 64 partners, each of which sends so many lines at once, 64 or 1, and reads
their replies before it sends more. The plain server is `twin serve` (bench/twin): the same board without proofs, a
thread for each partner, a reply flushed once no whole line is held. The two take turns, and of N runs the best of each
counts. At last one partner asks for the alerts of 4,000 flights, one reply after the other. The partners take
processor time of the same machine. Needed is what bench/ratios.py needs for the twin.
"""

import argparse
import multiprocessing
import pathlib
import socket
import subprocess
import sys
import time

from load import ROLES, TOP, dealt

sys.path.insert(0, str(TOP / "bench"))
from ratios import plans  # noqa: E402


def exchange(stream, lines):
    """Sends these lines at once, and reads a reply to each."""
    stream.sendall(b"".join(lines))
    missing = len(lines)
    while missing > 0:
        held = stream.recv(1 << 20)
        if not held:
            raise EOFError("a server that has gone")
        missing -= held.count(b"\n")


def play(address, commands, flight, begin, results):
    """Sends the lines of one partner, so many at once."""
    with socket.create_connection(address) as stream:
        stream.setsockopt(socket.IPPROTO_TCP, socket.TCP_NODELAY, 1)
        begin.wait()
        for place in range(0, len(commands), flight):
            exchange(stream, commands[place:place + flight])
        results.put(time.perf_counter())


def started(program, roles):
    """The server with a partner of each of these roles, and where it listens."""
    words = [program, "serve", "--journal", "1000000", *(f"{role}=127.0.0.1:0" for role in roles)]
    if pathlib.Path(program).name == "twin":
        words = [program, "serve", "1000000", *roles]
    server = subprocess.Popen(words, stdin=subprocess.DEVNULL, stdout=subprocess.PIPE, text=True)
    heard = [server.stdout.readline().split()[3].rsplit(":", 1) for _ in roles]
    return server, [(host, int(port)) for host, port in heard]


def lines_a_second(program, lines, count, flight):
    roles = [ROLES[k % len(ROLES)] for k in range(count)]
    server, addresses = started(program, roles)
    begin, results = multiprocessing.Event(), multiprocessing.Queue()
    partners = []
    for address, share in zip(addresses, dealt(lines, roles)):
        partners.append(multiprocessing.Process(target=play, args=(address, share, flight, begin, results)))
        partners[-1].start()
    time.sleep(0.3)
    first = time.perf_counter()
    begin.set()
    last = max(results.get() for _ in partners)
    for partner in partners:
        partner.join()
    if server.wait() != 0:
        sys.exit(f"{program}: status {server.returncode}")
    return len(lines) / (last - first)


def alerts(program):
    """Half of the replies to `alerts` of 4,000 flights came in so many seconds."""
    server, addresses = started(program, ["NM"])
    with socket.create_connection(addresses[0]) as stream:
        stream.setsockopt(socket.IPPROTO_TCP, socket.TCP_NODELAY, 1)
        for line in plans(4000):
            exchange(stream, [line.split(b" ", 3)[3]])
        taken = []
        for _ in range(101):
            first = time.perf_counter()
            exchange(stream, [b'{"cmd":"alerts"}\n'])
            taken.append(time.perf_counter() - first)
    server.wait()
    return sorted(taken)[50]


def main():
    words = argparse.ArgumentParser(description=__doc__.splitlines()[0])
    words.add_argument("--flights", type=int, default=1000)
    words.add_argument("--runs", type=int, default=3)
    words.add_argument("--acdm", default=str(TOP / "crates/acdm/out/acdm"))
    asked = words.parse_args()
    subprocess.run(["cargo", "build", "--release", "--offline", "--quiet"], cwd=TOP / "bench/twin", check=True)
    programs = (asked.acdm, str(TOP / "bench/twin/target/release/twin"))
    day = subprocess.run(
        [sys.executable, TOP / "bench/traffic/generate.py", "--flights", str(asked.flights)],
        check=True, stdout=subprocess.PIPE)
    lines = day.stdout.splitlines(keepends=True)
    for flight in (64, 1):
        for count in (1, 8, 64):
            best = [max(those) for those in zip(*(
                [lines_a_second(program, lines, count, flight) for program in programs] for _ in range(asked.runs)))]
            print(f"{flight:2} in flight, {count:2} partners: {best[0]:,.0f} lines a second of {best[1]:,.0f}:"
                  f" {best[0] / best[1]:.2f}", flush=True)
    half = [min(those) for those in zip(*([alerts(program) for program in programs] for _ in range(asked.runs)))]
    print(f"alerts of 4,000 flights: {half[0] * 1e3:.2f} ms beside {half[1] * 1e3:.2f} ms")


if __name__ == "__main__":
    main()
