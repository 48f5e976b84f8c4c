#!/usr/bin/env python3
"""Loads `acdm serve` with a day of traffic, over connections of this machine with itself.

    python3 bench/serve/load.py [--flights N] [--partners P ..]

For each P one `serve` is started, and the lines of the day are dealt to P partners: those of a role to its
partners in turn, and to any partner where none has it. Each partner sends its next line once it has read
the reply to the last. Printed are the lines a second of all partners together, the 50th and 99th hundredth
and the greatest of the times from line to reply, and the most memory that `serve` took. The partners take
processor time of the same machine.
"""

import argparse
import multiprocessing
import pathlib
import socket
import subprocess
import sys
import time

TOP = pathlib.Path(__file__).resolve().parents[2]
sys.path.insert(0, str(TOP / "bench"))
from peak import peak  # noqa: E402

ROLES = ("APT", "ATC", "AO", "GH", "NM")


def dealt(lines, roles):
    """The JSON of the lines for each partner."""
    shares = [[] for _ in roles]
    turns = dict.fromkeys(ROLES, 0)
    for line in lines:
        _, _, role, command = line.split(b" ", 3)
        role = role.decode()
        those = [k for k, own in enumerate(roles) if own == role] or list(range(len(roles)))
        shares[those[turns[role] % len(those)]].append(command)
        turns[role] += 1
    return shares


def play(address, commands, begin, results, end):
    """Sends the lines of one partner, tells how long each reply took, and stays until the end."""
    with socket.create_connection(address) as stream:
        stream.setsockopt(socket.IPPROTO_TCP, socket.TCP_NODELAY, 1)
        replies = stream.makefile("rb")
        begin.wait()
        taken = []
        for command in commands:
            sent = time.perf_counter()
            stream.sendall(command)
            if not replies.readline():
                break
            taken.append(time.perf_counter() - sent)
        results.put(taken)
        end.wait()


def load(lines, count):
    """One `serve` with so many partners."""
    roles = [ROLES[k % len(ROLES)] for k in range(count)]
    words = [str(TOP / "crates/acdm/out/acdm"), "serve", "--journal", "1000000"]
    words += [f"{role}=127.0.0.1:0" for role in roles]
    server = subprocess.Popen(words, stdin=subprocess.DEVNULL, stdout=subprocess.PIPE, text=True)
    begin, results, end = multiprocessing.Event(), multiprocessing.Queue(), multiprocessing.Event()
    partners = []
    for share in dealt(lines, roles):
        host, port = server.stdout.readline().split()[3].rsplit(":", 1)
        words = ((host, int(port)), share, begin, results, end)
        partners.append(multiprocessing.Process(target=play, args=words))
        partners[-1].start()
    time.sleep(0.5)
    first = time.perf_counter()
    begin.set()
    taken = sorted(seconds for _ in partners for seconds in results.get())
    whole = time.perf_counter() - first
    memory = peak(server.pid)
    end.set()
    for partner in partners:
        partner.join()
    told = server.stdout.read().splitlines()
    if server.wait() != 0 or told[-1] != f"closed {len(taken)}":
        sys.exit(f"serve: status {server.returncode}, {told[-1]}, {len(taken)} replies")
    middle, late, last = taken[len(taken) // 2], taken[len(taken) * 99 // 100], taken[-1]
    print(f"{count:2} partners: {len(taken) / whole:,.0f} lines a second; reply after"
          f" {middle * 1e6:,.0f} us (half), {late * 1e6:,.0f} us (99 of 100),"
          f" {last * 1e3:,.1f} ms (all); {memory / 2**20:,.1f} MiB")


def main():
    words = argparse.ArgumentParser(description=__doc__.splitlines()[0])
    words.add_argument("--flights", type=int, default=1000)
    words.add_argument("--partners", type=int, nargs="+", default=[1, 4, 16, 64])
    asked = words.parse_args()
    subprocess.run([TOP / "acdm", "run"], stdin=subprocess.DEVNULL, check=True)
    day = subprocess.run(
        [sys.executable, TOP / "bench/traffic/generate.py", "--flights", str(asked.flights)],
        check=True, stdout=subprocess.PIPE)
    lines = day.stdout.splitlines(keepends=True)
    for count in asked.partners:
        load(lines, count)


if __name__ == "__main__":
    main()
