#!/usr/bin/env python3
"""Starts `acdm serve` and plays a morning as five partners over TCP.

    examples/serve/play.py [STREAM] [--web PORT] [--pause SECONDS]

STREAM is a file of lines `SESSION MINUTE ROLE JSON`, as `examples/day.txt`, which is the default. Each
line's JSON is sent by the partner of its role; the minute before it is not sent, since the clock of
`acdm serve` tells the moment. Each reply is waited for before the next line is sent, and is printed
beside its line. With --web browsers see the morning as it goes at `http://127.0.0.1:PORT/`, and the board
stays until Enter is pressed. Outside what is proved.
"""
import argparse
import pathlib
import socket
import subprocess
import sys
import time

TOP = pathlib.Path(__file__).resolve().parents[2]
ROLES = ["NM", "ATC", "APT", "AO", "GH"]


def connect(server):
    """One connection for each role, in the order of the printed addresses."""
    partners = {}
    for _ in ROLES:
        line = server.stdout.readline()
        if not line:
            sys.exit(server.wait())
        _, _, role, address = line.split()
        host, port = address.rsplit(":", 1)
        stream = socket.create_connection((host, int(port)))
        partners[role] = stream.makefile("rw", encoding="utf-8", newline="\n")
    return partners


def play(lines, partners, pause):
    """Sends each line by its role, and prints the reply."""
    for line in lines:
        _, _, role, command = line.rstrip("\n").split(" ", 3)
        partner = partners[role]
        partner.write(command + "\n")
        partner.flush()
        print(f"{role:3} {command[:72]}")
        print(f"    {partner.readline().rstrip()[:72]}")
        time.sleep(pause)


def main():
    words = argparse.ArgumentParser(description="Plays a morning as five partners over TCP.")
    words.add_argument("stream", nargs="?", type=pathlib.Path, default=TOP / "examples" / "day.txt")
    words.add_argument("--web", type=int, metavar="PORT", help="the port at which browsers have the board")
    words.add_argument("--pause", type=float, default=0, metavar="SECONDS", help="how long it waits after a line")
    asked = words.parse_args()
    command = [str(TOP / "acdm"), "serve"] + [f"{role}=127.0.0.1:0" for role in ROLES]
    command += ["--web", f"127.0.0.1:{asked.web}"] if asked.web else []
    server = subprocess.Popen(command, stdin=subprocess.DEVNULL, stdout=subprocess.PIPE, text=True)
    partners = connect(server)
    if asked.web:
        print(f"the board is at http://127.0.0.1:{asked.web}/", flush=True)
    with asked.stream.open(encoding="utf-8") as lines:
        play(lines, partners, asked.pause)
    if asked.web:
        input("the morning is over; Enter ends the board ")
    for partner in partners.values():
        partner.close()
    print(server.stdout.read(), end="")
    sys.exit(server.wait())


if __name__ == "__main__":
    main()
