#!/usr/bin/env python3
"""Kills the built `acdm` while it serves partners and keeps their journal, and says what it then goes on from.

    python3 bench/hostile/keep_serving.py [--program PATH] [--kills N] [--seed S]

`serve --keep FILE` under 8 partners, killed at N moments by chance, a quarter of them with `--sync`, and begun again each time with
the same words: every reply that a partner read has its entry in FILE, FILE is a legal journal with the rest of a line at most behind
it, and the numbers go on. Then a file system that takes no more after so many bytes: no reply without its entry, the board closes by
itself, with status 2 and its line, and displays are sent what stands in FILE; a board that follows without room; journals with each
kind of fault, another that has the file, too little room, a journal that is nearly full; partners whose lines come at once, again and
again; and `--watch` beside it, which sends the same text. The last line is `N cases, M failed`; status 1 where one failed.
"""

import errno
import pathlib
import random
import socket
import subprocess
import sys
import tempfile
import threading
import time

from cases import ALERTS, DAY, DAY_JOURNAL, KEPT_ELSEWHERE, NO_ROOM, PLAN, SCHEDULE, TARGET
from cases import Cases, cause, ran, text, words
from follow import JOURNAL, Server, head
from keep import FAULTY, came, legal, limited, numbers_of, whole_of

PARTNERS = 8
ROLES = ["APT", "NM", *["GH"] * (PARTNERS - 2)]
TICK = b'{"cmd":"tick"}\n'


def free_port():
    with socket.create_server(("127.0.0.1", 0)) as it:
        return it.getsockname()[1]


def rest_of(display):
    """All that a display is sent."""
    with display:
        sent = b""
        while part := display.recv(65536):
            sent += part
        return sent


class Board:
    """A board that keeps its journal, and one partner for each role."""

    def __init__(self, program, file, more=(), roles=ROLES, **how):
        command = [str(program), "serve", "--keep", str(file), *more, *(f"{it}=127.0.0.1:0" for it in roles)]
        self.ran = subprocess.Popen(command, stdin=subprocess.DEVNULL, stdout=subprocess.PIPE, stderr=subprocess.PIPE, text=True, **how)
        self.ports = []
        for _ in roles:
            line = self.ran.stdout.readline()
            if not line:
                break
            self.ports.append(int(line.split()[3].rsplit(":", 1)[1]))

    def connect(self):
        return [socket.create_connection(("127.0.0.1", it), timeout=30) for it in self.ports]

    def end(self, seconds=30):
        """Its status, and what it said."""
        try:
            said, errors = self.ran.communicate(timeout=seconds)
        except subprocess.TimeoutExpired:
            self.ran.kill()
            said, errors = self.ran.communicate()
            return "no end", said, errors
        return self.ran.returncode, said, errors


def talk(stream, lines, replies, window=8):
    """Sends lines, some at once, and keeps the replies, until the connection ends."""
    try:
        held = b""
        sent = got = 0
        while got < len(lines):
            while sent < len(lines) and sent - got < window:
                stream.sendall(lines[sent].encode() + b"\n")
                sent += 1
            part = stream.recv(65536)
            if not part:
                return
            held += part
            *whole, held = held.split(b"\n")
            got += len(whole)
            replies += [it.decode() for it in whole]
    except OSError:
        pass


def lines_of(role, is_first):
    if role == "APT":
        return ([SCHEDULE] if is_first else []) + [ALERTS] * 3000
    return [PLAN if role == "NM" else TARGET] * 3000


def killed_once(program, file, chance, more, **how):
    """Serves partners until the program is killed at a moment by chance; answers what each read until then."""
    board = Board(program, file, more, **how)
    streams = board.connect()
    replies = [[] for _ in streams]
    is_first = not whole_of(file)
    talks = [threading.Thread(target=talk, args=(it, lines_of(role, is_first), got)) for it, role, got in zip(streams, ROLES, replies)]
    for it in talks:
        it.start()
    time.sleep(chance.uniform(0.0, 0.06))
    board.ran.kill()
    board.ran.communicate()
    for it in talks:
        it.join()
    for it in streams:
        it.close()
    return replies


def kills(cases, program, room, count, seed):
    file, chance = room / "kept", random.Random(seed)
    told_ever = 0
    for turn in range(count):
        before = len(whole_of(file)) if file.exists() else 0
        replies = killed_once(program, file, chance, ["--sync"] if turn % 4 == 3 else [])
        told = [numbers_of(text(it)) for it in replies]
        after = len(whole_of(file)) if file.exists() else 0
        name = f"killed {turn}, seed {seed}"
        flat = sorted(it for numbers in told for it in numbers)
        told_ever += len(flat)
        cases.expect(name, all(it < after for it in flat), (after, flat[-1:]))
        cases.expect(name, len({*flat}) == len(flat) and all(it >= before for it in flat), (before, flat[:1]))
        cases.expect(name, all(it == sorted(it) for it in told), told)
        cases.expect(name, legal(program, file, room), after)
        if after > 60_000:
            file.unlink()
    cases.expect("many replies were read", told_ever > 10 * count, told_ever)
    before = len(whole_of(file)) if file.exists() else 0
    board = Board(program, file, roles=["APT"])
    (stream,) = board.connect()
    got = []
    talk(stream, [ALERTS], got)
    stream.close()
    cases.expect("gone on", got[0].startswith(f"alerts {before} "), got)
    ended = board.end()
    cases.expect("ended", ended[0] == 0 and ended[1].endswith(f"closed {before + 1}\n"), ended)


def full_disk(cases, program, room):
    for size in [0, 1, 60, 61, *range(200, 4000, 199)]:
        file, port = room / f"full-{size}", free_port()
        board = Board(program, file, ["--watch", f"127.0.0.1:{port}"], preexec_fn=limited(size))
        # (where its tables have no room either, it listens nowhere)
        display = socket.create_connection(("127.0.0.1", port), timeout=30) if board.ports else None
        streams = board.connect()
        replies = [[] for _ in streams]
        talks = [threading.Thread(target=talk, args=(it, lines_of(role, True), got)) for it, role, got in zip(streams, ROLES, replies)]
        for it in talks:
            it.start()
        ended = board.end()
        for it in talks:
            it.join()
        for it in streams:
            it.close()
        name = f"no more than {size} bytes"
        told = sorted(it for got in replies for it in numbers_of(text(got)))
        kept = len(whole_of(file))
        owed = "acdm: keep failed\n" + cause(f"--keep {file}", errno.EFBIG)
        cases.expect(name, ended[0] == 2 and ended[2].endswith(owed), ended)
        cases.expect(name, all(it < kept for it in told), (kept, told[-1:]))
        cases.expect(name, legal(program, file, room), kept)
        shown = rest_of(display) if display else b""
        cases.expect(f"{name}: a display is sent what stands there", file.read_bytes().startswith(shown), shown[-100:])
        cases.expect(f"{name}: all that was replied to", all(it < shown.count(b"\n") for it in told), (shown[-100:], told[-1:]))


def follower_without_room(cases, program, room):
    """A board that follows another one and can keep nothing ends, and says why."""
    file = room / "copy"
    file.write_bytes(b"")
    (room / "copy.tables").write_text("# the tables that are built in\n")
    server = Server([head(JOURNAL, 0) + text(JOURNAL)])
    done = came(ran(program, ["follow", f"127.0.0.1:{server.port}", "--keep", file, "APT=127.0.0.1:0"], preexec_fn=limited(0)))
    told = "acdm: keep failed\n" + cause(f"--keep {file}", errno.EFBIG)
    cases.expect("a board that follows without room ends", done[:2] == (2, "") and done[2].endswith(told), done)
    cases.expect("and keeps nothing", file.read_bytes() == b"", file.read_bytes())
    server.close()


def faulty(cases, program, room):
    file = room / "faulty"
    serve = ["serve", "--keep", file, "APT=127.0.0.1:0"]
    for lines, told in FAULTY:
        file.write_text(text(lines) + "a rest")
        done = came(ran(program, serve))
        cases.expect(told, done == (1, told, ""), done)
        cases.expect(f"untouched, {told}", file.read_text() == text(lines) + "a rest")
    file.write_text(text(DAY_JOURNAL))
    done = came(ran(program, ["serve", "--journal", "4", "--keep", file, "APT=127.0.0.1:0"]))
    told = "acdm: the kept journal needs a larger --journal\n" + cause(f"--keep {file}", NO_ROOM)
    cases.expect("too little room", done == (2, "", told), done)
    nowhere = room / "no-folder" / "file"
    done = came(ran(program, ["serve", "--keep", nowhere, "APT=127.0.0.1:0"]))
    told = "acdm: keep failed\n" + cause(f"--keep {nowhere}", errno.ENOENT)
    cases.expect("no folder", done == (2, "", told), done)
    done = came(ran(program, ["serve", "--keep", file, "APT=nowhere"]))
    told = "acdm: address 1\n" + cause("APT=nowhere", "no IP address with a port")
    cases.expect("no address", done == (2, "", told), done)
    cases.expect("untouched", file.read_text() == text(DAY_JOURNAL))


def in_use(cases, program, room):
    file = room / "used"
    # (the second time it has entries, and a new file of that name)
    for number, line in enumerate([SCHEDULE, PLAN]):
        board = Board(program, file, roles=["APT"])
        for other in (["serve", "--keep", file, "APT=127.0.0.1:0"], ["run", "--keep", file]):
            done = came(ran(program, other))
            told = "acdm: the kept journal is in use\n" + cause(f"--keep {file}", KEPT_ELSEWHERE)
            cases.expect(f"in use, {other[0]}, {number} entries", done == (2, "", told), done)
        (stream,) = board.connect()
        got = []
        talk(stream, [line], got)
        stream.close()
        cases.expect("the first goes on", len(got) == 1 and got[0].split()[1] == str(number), got)
        cases.expect("and ends", board.end()[0] == 0)
    done = came(ran(program, ["run", "--keep", file], text(DAY[1:2]).encode()))
    cases.expect("the next goes on", done[0] == 0 and done[1] == "ok 2\n", done)


def all_at_once(cases, program, room):
    """Eight partners whose lines come at once, again and again: who waits for another one's write is told of it, each of them."""
    for more in ([], ["--sync"]):
        board = Board(program, room / f"at-once{len(more)}", more, roles=["APT"] * PARTNERS)
        streams = board.connect()
        for turn in range(20):
            for it in streams:
                it.sendall(TICK)
            silent = [at for at, it in enumerate(streams) if not is_told(it)]
            if silent:
                break
        cases.expect(f"each of eight is told whose lines come at once, {more}", not silent, (turn, silent))
        for it in streams:
            it.close()
        ended = board.end()
        cases.expect(f"and their board ends, {more}", ended[0] == 0 and ended[1].endswith("closed 160\n"), ended)


def is_told(stream):
    """Whether a reply comes that reports an entry."""
    try:
        return stream.recv(100).startswith(b"ok ")
    except OSError:
        return False


def watched(cases, program, room):
    """What displays are sent is the text of the file, from its first entry on."""
    file = room / "watched"
    file.write_text(text(DAY_JOURNAL))
    port = free_port()
    board = Board(program, file, ["--watch", f"127.0.0.1:{port}", "--save", str(room / "saved")], roles=["APT", "GH"])
    display = socket.create_connection(("127.0.0.1", port), timeout=30)
    streams = board.connect()
    for stream, line in zip(streams, (ALERTS, TARGET)):
        talk(stream, [line] * 50, [])
        stream.close()
    ended = board.end()
    sent = rest_of(display)
    cases.expect("ended", ended[0] == 0 and ended[1].endswith(f"closed {len(DAY_JOURNAL) + 100}\n"), ended)
    cases.expect("displays are sent the file's text", sent == file.read_bytes(), len(sent))
    cases.expect("and so is what is saved", (room / "saved").read_bytes() == file.read_bytes())


def nearly_full(cases, program, room):
    """A board that goes on beyond 80 or 95 per cent of its room says so at once, of each that it is beyond."""
    for begun, levels in ((15, []), (16, ["80"]), (18, ["80"]), (19, ["80", "95"]), (20, ["80", "95"])):
        file = room / f"full-{begun}"
        file.write_text("".join(f"{it} 1 29000580 APT 0 0 tick\n" for it in range(begun)))
        board = Board(program, file, ["--journal", "20"], roles=["APT"])
        (stream,) = board.connect()
        talk(stream, ["{}"], [])
        time.sleep(0.2)
        stream.close()
        _, _, errors = board.end()
        told = [it.split()[:5] for it in errors.splitlines()]
        cases.expect(f"{begun} of 20 entries", told == [["room", level, str(begun), "of", "20"] for level in levels], told)


def main():
    parser = words(__doc__)
    parser.add_argument("--kills", type=int, default=200, help="how often it is killed")
    parser.add_argument("--seed", type=int, default=1)
    given = parser.parse_args()
    cases = Cases()
    with tempfile.TemporaryDirectory(prefix="acdm-keep-") as folder:
        room = pathlib.Path(folder)
        for part in (faulty, in_use, all_at_once, watched, nearly_full, full_disk, follower_without_room):
            part(cases, given.program, room)
        kills(cases, given.program, room, given.kills, given.seed)
    return cases.end()


if __name__ == "__main__":
    sys.exit(main())
