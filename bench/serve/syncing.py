#!/usr/bin/env python3
"""Measures `acdm serve --keep FILE --sync`: lines a second of 1, 8 and 64 partners with one line in flight each.

    bench/serve/syncing.py [--program PATH] [--seconds N] [--folder FOLDER]

FILE lies in FOLDER, the temporary one where none is named; a sync costs what the disk below it takes. Beside it the same without
--sync, and without --keep. With one partner each line is synced by itself; with 64 one sync serves all who wait.
"""
import argparse
import pathlib
import socket
import subprocess
import tempfile
import threading
import time

TOP = pathlib.Path(__file__).resolve().parents[2]
LINE = b'{"cmd":"show","flight":7}\n'


def asks(port, end, counts, at):
    with socket.create_connection(("127.0.0.1", port), timeout=30) as stream:
        stream.setsockopt(socket.IPPROTO_TCP, socket.TCP_NODELAY, 1)
        while time.monotonic() < end:
            stream.sendall(LINE)
            while not stream.recv(64).endswith(b"\n"):
                pass
            counts[at] += 1


def lines_a_second(program, partners, words, seconds):
    command = [str(program), "serve", "--journal", "1000000", *words, *["APT=127.0.0.1:0"] * partners]
    with subprocess.Popen(command, stdin=subprocess.DEVNULL, stdout=subprocess.PIPE, stderr=subprocess.DEVNULL, text=True) as server:
        ports = [int(server.stdout.readline().split()[3].rsplit(":", 1)[1]) for _ in range(partners)]
        counts, end = [0] * partners, time.monotonic() + seconds
        threads = [threading.Thread(target=asks, args=(port, end, counts, at)) for at, port in enumerate(ports)]
        for it in threads:
            it.start()
        for it in threads:
            it.join()
        server.stdout.read()
    return sum(counts) / seconds


def main():
    words = argparse.ArgumentParser(description="Measures serve --keep --sync.")
    words.add_argument("--program", type=pathlib.Path, default=TOP / "crates" / "acdm" / "out" / "acdm")
    words.add_argument("--seconds", type=float, default=5)
    words.add_argument("--folder", type=pathlib.Path)
    asked = words.parse_args()
    single = None
    with tempfile.TemporaryDirectory(dir=asked.folder) as folder:
        for partners in (1, 8, 64):
            found = []
            for number, more in enumerate((["--keep", "FILE", "--sync"], ["--keep", "FILE"], [])):
                file = pathlib.Path(folder) / f"kept-{partners}-{number}"
                found.append(lines_a_second(asked.program, partners, [str(file) if it == "FILE" else it for it in more], asked.seconds))
            single = single or found[0]
            print(f"{partners:2} partners: {found[0]:8.0f} lines a second with --sync, {found[0] / single:.1f} times one; {found[1]:.0f} with --keep, {found[2]:.0f} without")


if __name__ == "__main__":
    main()
