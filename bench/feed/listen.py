#!/usr/bin/env python3
"""Tries clients of `acdm serve --changes`: what each is sent, by what it asked for first.

    python3 bench/feed/listen.py [--program PATH] [--lines N]

Five partners play examples/day.txt and then send N lines more (400). Meanwhile clients listen: one that says nothing, one that says `from 0`,
two from entries that are not there yet, one that begins with the board, one that is cut off at 40 moments by chance and goes on `from N`
each time, and one that never reads; at the end some from an entry in the middle, from the one that comes next and from one behind it.
What they were sent is held against `acdm tell` of the saved journal, with its name by its first line; a board against what its lines made
of the records before it. A first line that asks for nothing is let go. A board ends right behind a burst of entries, and has all sent. The clients of
clients/ are run against the same server. The last line is `N cases, M failed`; the status is 1 where one failed.
"""

import argparse
import hashlib
import importlib.util
import json
import pathlib
import random
import shutil
import socket
import subprocess
import sys
import tempfile
import threading
import time

from run import Cases

TOP = pathlib.Path(__file__).resolve().parent.parent.parent
# (there is a feed.py here too; that of clients/ stands on others there)
sys.path.append(str(TOP / "clients"))
SPEC = importlib.util.spec_from_file_location("clients_feed", TOP / "clients" / "feed.py")
clients = importlib.util.module_from_spec(SPEC)
SPEC.loader.exec_module(clients)

ROLES = ["APT", "NM", "ATC", "AO", "GH", "AO", "AO"]
QUESTION = '{"cmd":"alerts"}'
ENTRIES = 100_000


def free_port():
    with socket.create_server(("127.0.0.1", 0)) as it:
        return it.getsockname()[1]


def connect(port, first=None):
    for _ in range(400):
        try:
            stream = socket.create_connection(("127.0.0.1", port))
            break
        except ConnectionRefusedError:
            time.sleep(0.05)
    if first is not None:
        stream.sendall(first)
    return stream


def all_of(stream):
    data = b""
    while came := stream.recv(1 << 18):
        data += came
    return data


def is_head(line):
    """Whether a line is that of a journal or of its board."""
    return line.startswith(b'{"journal":')


def head(name, begun):
    """The line of a journal for who is sent the entries from this number on."""
    return json.dumps({"journal": name, "next": begun, "room": ENTRIES}, separators=(",", ":")).encode("ascii")


def next_of(port):
    """The number of the entry that comes next, by the line of the board."""
    stream = connect(port, b"board\n")
    line = stream.makefile("rb").readline()
    stream.close()
    return json.loads(line)["next"]


class Listener(threading.Thread):
    """A client that is sent all to the end."""

    def __init__(self, port, first):
        super().__init__(daemon=True)
        self.stream, self.data = connect(port, first), b""

    def run(self):
        self.data = all_of(self.stream)


class Cut(threading.Thread):
    """A client that is cut off by chance, and goes on where it was."""

    def __init__(self, port, chance, cuts):
        super().__init__(daemon=True)
        self.port, self.chance, self.cuts, self.lines, self.heads = port, chance, cuts, [], []

    def run(self):
        while True:
            asked = len(self.lines)
            stream = connect(self.port, f"from {asked}\n".encode())
            stream.settimeout(5)
            rest, left = b"", self.chance.randrange(200, 60_000) if self.cuts else 1 << 60
            self.cuts -= 1
            while left > 0:
                try:
                    came = stream.recv(min(left, 1 << 16))
                except TimeoutError:
                    return
                if not came:
                    return
                left -= len(came)
                *whole, rest = (rest + came).split(b"\n")
                self.heads += [(asked, it) for it in whole if is_head(it)]
                self.lines += [it for it in whole if not is_head(it)]
            stream.close()


def boards(data):
    """What a client that began with the board has: the entry that came next then, and the records it knows at the end."""
    first, *rest = data.splitlines()
    rest = [line for line in rest if not is_head(line)]
    board = clients.Board()
    board.take(json.loads(first))
    begun = board.next
    for line in rest:
        board.take(json.loads(line))
    return begun, board.flights, len(rest)


def known(lines, upto=None):
    board = clients.Board()
    for line in lines[:upto]:
        board.take(json.loads(line))
    return board.flights


def play(partners, count):
    """Plays the morning, and then sends so many lines more, each partner for itself."""
    for line in (TOP / "examples" / "day.txt").read_text(encoding="utf-8").splitlines():
        role, command = line.split(" ", 3)[2:]
        partner = partners[role]
        partner.write(command + "\n")
        partner.flush()
        partner.readline()
    for number in range(count):
        partner = partners[ROLES[number % 5]]
        partner.write(QUESTION + "\n")
        partner.flush()
        partner.readline()


def refused(cases, port):
    """First lines that ask for nothing."""
    for first in (b"hello\n", b"from\n", b"from x\n", b"from -1\n", b"from 18446744073709551616\n", b"boards\n", b"from 1\r\n", b"GET / HTTP/1.1\r\n\r\n", b"from 1"):
        stream = connect(port, first)
        stream.settimeout(3)
        try:
            cases.case(f"{first!r} is let go", all_of(stream)[:60])
        except ConnectionResetError:
            cases.case(f"{first!r} is let go", "")
        except OSError:
            cases.case(f"{first!r} is let go", "it was not")
        stream.close()


def other_clients(cases, port, ports, room):
    """The clients that are shipped."""
    time.sleep(1)
    given = '{"cmd":"tick"}\n{"cmd":"alerts"}\n{"cmd":"show","flight":1}\n'
    commands = [("partner.py", [sys.executable, str(TOP / "clients" / "partner.py"), f"127.0.0.1:{ports[0]}"])]
    if shutil.which("node"):
        commands.append(("partner.mjs", ["node", str(TOP / "clients" / "partner.mjs"), f"127.0.0.1:{ports[1]}"]))
    # (both at once: nobody is served before all are there)
    file = pathlib.Path(room) / "given"
    file.write_text(given, encoding="ascii")
    both = [subprocess.Popen(command, stdin=file.open(), stdout=subprocess.PIPE, text=True) for _, command in commands]
    if len(both) == 1:
        connect(ports[1]).close()
    for (name, _), ran in zip(commands, both):
        said = ran.communicate(timeout=60)[0]
        cases.same(f"{name}: replies", str([it.split()[0] for it in said.splitlines()]), "['no', 'alerts', 'no']")
        cases.same(f"{name}: status", str(ran.returncode), "1")
    shown = subprocess.run(
        [sys.executable, str(TOP / "clients" / "board.py"), f"127.0.0.1:{port}", "--once"], capture_output=True, text=True, timeout=60, check=False
    )
    cases.same("board.py: status", str(shown.returncode), "0")
    cases.case("board.py: flights", "" if "DLH4PK" in shown.stdout or "EWG6CA" in shown.stdout else shown.stdout + shown.stderr)


def schedule(number):
    """The line of a schedule of one of 400 flights."""
    names = '"callsign":"KVT1","type":"A320","reg":"DAIBC","dest":"EGLL","sobt":"2026-12-02T10:00:00Z"'
    return f'{{"cmd":"schedule","flight":{1 + number % 400},{names},"mttt":45,"exit":5,"exot":12,"stand":{1 + number % 89}}}\n'


def burst(cases, program, count=30_000):
    """Displays are sent all entries where the board ends right behind a burst of them, in the order of the entries."""
    port, changes = free_port(), free_port()
    words = [str(program), "serve", "--journal", str(ENTRIES), "--changes", f"127.0.0.1:{changes}", f"APT=127.0.0.1:{port}"]
    with subprocess.Popen(words, stdout=subprocess.DEVNULL) as server:
        partner = connect(port)
        displays = [Listener(changes, first) for first in (b"board\n", b"from 0\n", b"from 9\n")]
        for it in displays:
            it.start()
        time.sleep(1)
        reader = threading.Thread(target=lambda: partner.makefile("rb").readlines())
        reader.start()
        partner.sendall("".join(map(schedule, range(count))).encode("ascii"))
        partner.shutdown(socket.SHUT_WR)
        reader.join(60)
        for it in displays:
            it.join(60)
        cases.same("a burst at the end: status", str(server.wait(60)), "0")
        partner.close()
    for name, it in zip(("board", "from 0", "from 9"), displays):
        numbers = [json.loads(line)["entry"] for line in it.data.splitlines() if not is_head(line)]
        cases.case(f"a burst at the end: {name}", "" if numbers == [*range(count)] else f"{len(numbers)} of {count}")


def main():
    parser = argparse.ArgumentParser(description=__doc__, formatter_class=argparse.RawDescriptionHelpFormatter)
    parser.add_argument("--program", type=pathlib.Path, default=TOP / "crates" / "acdm" / "out" / "acdm")
    parser.add_argument("--lines", type=int, default=400)
    words = parser.parse_args()
    cases, chance = Cases(), random.Random(38)
    with tempfile.TemporaryDirectory(prefix="acdm-listen-") as room:
        saved, port = pathlib.Path(room) / "journal", free_port()
        ports = [free_port() for _ in ROLES]
        command = [str(words.program), "serve", "--save", str(saved), "--changes", f"127.0.0.1:{port}"]
        server = subprocess.Popen(command + [f"{role}=127.0.0.1:{it}" for role, it in zip(ROLES, ports)], stdout=subprocess.DEVNULL)
        partners = {role: connect(it).makefile("rw", encoding="utf-8", newline="\n") for role, it in zip(ROLES[:5], ports)}
        # (the clients of clients/ are the last two partners)
        late = threading.Thread(target=other_clients, args=(cases, port, ports[5:], room))
        first = [Listener(port, None), Listener(port, b"from 0\n"), Listener(port, b"from 30\n"), Listener(port, b"from 300\n")]
        never = connect(port, b"from 0\n")
        cut = Cut(port, chance, 40)
        for it in (*first, cut):
            it.start()
        playing = threading.Thread(target=play, args=(partners, words.lines))
        playing.start()
        late.start()
        time.sleep(0.5)
        board = Listener(port, b"board\n")
        board.start()
        late.join()
        refused(cases, port)
        playing.join()
        count = next_of(port)
        last = Listener(port, b"board\n")
        behind = {it: Listener(port, f"from {it}\n".encode()) for it in (1, 30, count - 1, count, count + 1)}
        for it in (last, *behind.values()):
            it.start()
        time.sleep(0.3)
        for partner in partners.values():
            partner.close()
        for it in (*first, board, last, *behind.values(), cut):
            it.join(30)
        cases.same("status", str(server.wait(60)), "0")
        never.close()
        told = subprocess.run([str(words.program), "tell", str(saved)], capture_output=True, check=True).stdout
        named = hashlib.sha256(saved.read_bytes().split(b"\n")[0]).hexdigest()[:32]
    lines = told.splitlines()
    cases.case("entries", "" if len(lines) >= words.lines else f"{len(lines)}")
    cases.same("all entries are there at the end", str(len(lines)), str(count))
    from_on = [("nothing", first[0], 0), ("from 0", first[1], 0), *((f"from {at}", it, at) for at, it in behind.items() if at <= count)]
    for name, it, at in from_on:
        wanted = [head(named, at), *lines[at:]]
        cases.same(f"asked {name}", it.data.decode("ascii"), b"".join(line + b"\n" for line in wanted).decode("ascii"))
    cases.same("cut off", str(cut.lines == lines), "True")
    cases.case("cut off: the journal each time", [it for it in cut.heads if it[1] != head(named, it[0])])
    cases.same("beyond the end: the board", behind[count + 1].data.decode("ascii"), last.data.decode("ascii"))
    early = [("from 30 at once", first[2]), ("from 300 at once", first[3])]
    for name, it in (("board in the middle", board), ("board at the end", last), *early):
        begun, flights, rest = boards(it.data)
        heads = [line for line in it.data.splitlines()[1:] if is_head(line)]
        cases.same(f"{name}: the journal behind an empty board alone", str(heads), str([] if begun else [head(named, 0)]))
        cases.same(f"{name}: the name", json.loads(it.data.splitlines()[0])["journal"], named if begun else "")
        cases.same(f"{name}: as many lines as entries since", str(rest), str(len(lines) - begun))
        cases.case(f"{name}: records then", json.loads(it.data.splitlines()[0])["flights"] != [*known(lines, begun).values()])
        cases.case(f"{name}: records at the end", flights != known(lines))
    burst(cases, words.program)
    print(f"{cases.count} cases, {cases.failed} failed")
    return 1 if cases.failed else 0


if __name__ == "__main__":
    sys.exit(main())
