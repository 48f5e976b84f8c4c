#!/usr/bin/env python3
"""Serves many partners at once, with displays that are sent the journal meanwhile.

    examples/serve/watch.py [--partners N] [--displays N] [--lines N] [-- COMMAND..]

Starts `acdm serve --watch --save` (or what COMMAND says in the place of `./acdm`), with so many partners (64) that send
so many lines each (200), and so many displays (4). One display more connects and never reads, and one leaves at once.
At the end each display has to have been sent what was saved, byte by byte, and `acdm audit` has to take it; the status
is 1 where that is not so. Prints how long the partners took, and how long after the last reply the displays had all.
Outside what is proved.
"""
import argparse
import pathlib
import socket
import subprocess
import sys
import tempfile
import threading
import time

TOP = pathlib.Path(__file__).resolve().parents[2]


def free_port():
    with socket.create_server(("127.0.0.1", 0)) as it:
        return it.getsockname()[1]


def connect(port):
    for _ in range(600):
        try:
            return socket.create_connection(("127.0.0.1", port))
        except ConnectionRefusedError:
            time.sleep(0.1)
    sys.exit("nobody listens")


def talk(stream, lines):
    partner = stream.makefile("rw", encoding="utf-8", newline="\n")
    for number in range(lines):
        partner.write('{"cmd":"tick"}\n' if number % 2 else '{"cmd":"show","flight":8}\n')
        partner.flush()
        partner.readline()
    stream.shutdown(socket.SHUT_RDWR)


def read_all(stream, heard):
    parts = []
    while part := stream.recv(65536):
        parts.append(part)
    heard.append((b"".join(parts), time.monotonic()))


def started(work, *words):
    it = threading.Thread(target=work, args=words)
    it.start()
    return it


def main():
    words = argparse.ArgumentParser(description="Serves many partners, with displays.")
    words.add_argument("--partners", type=int, default=64)
    words.add_argument("--displays", type=int, default=4)
    words.add_argument("--lines", type=int, default=200)
    words.add_argument("command", nargs="*", default=[str(TOP / "acdm")])
    asked = words.parse_args()
    with tempfile.TemporaryDirectory() as room:
        saved, port = pathlib.Path(room) / "journal.txt", free_port()
        command = asked.command + ["serve", "--save", str(saved), "--watch", f"127.0.0.1:{port}"]
        command += ["APT=127.0.0.1:0"] * asked.partners
        server = subprocess.Popen(command, stdin=subprocess.DEVNULL, stdout=subprocess.PIPE, text=True)
        ports = [int(server.stdout.readline().rsplit(":", 1)[1]) for _ in range(asked.partners)]
        heard, silent = [], connect(port)
        silent.setsockopt(socket.SOL_SOCKET, socket.SO_RCVBUF, 4096)
        connect(port).close()
        displays = [started(read_all, connect(port), heard) for _ in range(asked.displays)]
        streams = [connect(it) for it in ports]
        start = time.monotonic()
        partners = [started(talk, it, asked.lines) for it in streams]
        for it in partners:
            it.join()
        served = time.monotonic()
        for it in displays:
            it.join()
        sys.stdout.write(server.stdout.read().splitlines()[-1] + "\n")
        ended, status = time.monotonic(), server.wait()
        text = saved.read_bytes()
        same = [it == text for it, _ in heard]
        late = max((at - served for _, at in heard), default=0)
        print(f"served in {served - start:.2f} s, sent {late:.2f} s later, ended {ended - served:.2f} s later")
        print(f"{sum(same)} of {len(same)} displays were sent what was saved, {len(text)} bytes")
        audit = subprocess.run(asked.command + ["audit", str(saved)], stdout=subprocess.PIPE, text=True, check=False)
        print("audit:", audit.stdout.strip())
        silent.close()
    return 0 if all(same) and len(same) == asked.displays and not status and not audit.returncode else 1


if __name__ == "__main__":
    sys.exit(main())
