#!/usr/bin/env python3
"""Takes the file of a kept journal away from the built program, and looks at what is told before an entry is kept.

    python3 bench/hostile/kept_file.py [--program PATH]

First part: the file is removed, renamed, replaced, cut or lengthened under `run --keep` and `serve --keep`; nothing is
replied any more, the board ends within a second by itself, with `acdm: keep failed`, a line that says why, and status
2, and what was replied stands in the file, where it was not taken away. Second part, by held_sync.c, preloaded: as long
as a sync does not return, neither the partner nor a display of the journal, of the feed or of the events is sent the
entry; they are once it does, and where the board is killed before, nobody has seen it. A line that makes no entry is
answered meanwhile. Third part: a journal that is standard error too has no line of the program's. The last line is `N cases, M failed`; status 1 where one failed.
"""

import errno
import os
import pathlib
import signal
import socket
import subprocess
import sys
import tempfile
import time

from cases import CHANGED, Cases, cause, ran, words
from strangers import TICK, Board, asked, free_port, replied

HERE = pathlib.Path(__file__).resolve().parent
LINE = '{minute} APT {"cmd":"tick"}'
KEEP_FAILED = "acdm: keep failed\n"
# How long a board takes at most to see what became of its file: a second, and the end of its threads.
SECONDS = 3.0


def removed(file):
    file.unlink()


def renamed(file):
    file.rename(file.with_name("yesterday"))


def replaced(file):
    other = file.with_name("other")
    other.write_bytes(file.read_bytes())
    other.rename(file)


def cut(file):
    with open(file, "r+b") as it:
        it.truncate(10)


def lengthened(file):
    with open(file, "ab") as it:
        it.write(b"acdm: a line of somebody else\n")


HARMS = [removed, renamed, replaced, cut, lengthened]


def run_without_file(program, cases, room):
    """A line that comes after the file was taken away has no reply."""
    for harm in HARMS:
        folder = room / f"run-{harm.__name__}"
        folder.mkdir()
        file = folder / "day"
        pipe = subprocess.PIPE
        with subprocess.Popen([program, "run", "--keep", file], stdin=pipe, stdout=pipe, stderr=pipe) as board:
            for number in range(3):
                board.stdin.write(f'1 {29000580 + number} APT {TICK}\n'.encode())
                board.stdin.flush()
                cases.expect(f"{harm.__name__}: a reply before", board.stdout.readline() == f"ok {number}\n".encode())
            kept = file.read_bytes()
            harm(file)
            board.stdin.write(f"1 29000590 APT {TICK}\n".encode())
            board.stdin.flush()
            out, errors = board.communicate(timeout=30)
            ended = (board.returncode, out, errors)
        told = KEEP_FAILED + cause(f"--keep {file}", CHANGED)
        cases.expect(f"run, {harm.__name__}: no reply", ended == (2, b"", told.encode()), ended)
        if harm is renamed:
            cases.expect("what was replied stands there", (folder / "yesterday").read_bytes().startswith(kept))


def unread_tables(program, cases, room):
    """A journal whose tables can't be read is not gone on from: the line names them, and nothing is changed."""
    folder = room / "tables"
    folder.mkdir()
    file, beside = folder / "day", folder / "day.tables"
    file.write_bytes(b"0 1 29000580 APT 0 0 tick\n")
    for name, make, number in (
        ("a folder", beside.mkdir, errno.EISDIR),
        ("a link to itself", lambda: beside.symlink_to(beside), errno.ELOOP),
    ):
        make()
        for given in (["run", "--keep", file], ["audit", file], ["tell", file], ["run", "--save", file]):
            done = subprocess.run([program, *given], input=b"", capture_output=True, timeout=60, check=False)
            told = done.stderr.decode()
            holds = (done.returncode, done.stdout) == (2, b"") and str(beside) in told and os.strerror(number) in told
            cases.expect(f"tables that are {name}, {given[0]} {given[1]}", holds, done)
        if beside.is_symlink():
            beside.unlink()
        else:
            beside.rmdir()
        cases.expect(f"tables that were {name}: the journal stays", file.read_bytes() == b"0 1 29000580 APT 0 0 tick\n")


def serve_without_file(program, cases, room):
    """A board whose partner is silent sees it too; and one whose partner sends all the time replies nothing then."""
    for harm in HARMS:
        for is_busy in (False, True):
            folder = room / f"serve-{harm.__name__}-{is_busy}"
            folder.mkdir()
            file = folder / "day"
            board = Board(program, ["--again", "--keep", file])
            name = f"serve, {harm.__name__}, {'busy' if is_busy else 'silent'}"
            with board.connect() as partner:
                cases.expect(f"{name}: a reply before", asked(partner, TICK) == "ok 0\n")
                harm(file)
                begun = time.monotonic()
                # (that a file grew is seen by the next entry alone)
                if is_busy or harm is lengthened:
                    cases.expect(f"{name}: no reply", asked(partner, TICK) in ("", "ConnectionResetError"))
                status = board.end()
                passed = time.monotonic() - begun
            said = [it for it in board.said if it.startswith("acdm:")]
            told = (KEEP_FAILED + cause(f"--keep {file}", CHANGED)).splitlines()
            cases.expect(f"{name}: the board ends", (status, said) == (2, told), (status, board.said))
            cases.expect(f"{name}: soon", passed < SECONDS, passed)


class Shown:
    """Who is sent the journal, the feed and the events of a board."""

    def __init__(self, ports):
        self.streams = [socket.create_connection(("127.0.0.1", port), timeout=5) for port in ports]
        for stream in self.streams[:2]:
            stream.sendall(b"from 0\n")
        self.streams[2].sendall(b"GET /events HTTP/1.1\r\nHost: localhost\r\nLast-Event-ID: 0\r\n\r\n")
        self.came = [b"", b"", b""]

    def look(self, seconds):
        """Reads what comes in this time."""
        end = time.monotonic() + seconds
        for at, stream in enumerate(self.streams):
            stream.settimeout(0.05)
            while time.monotonic() < end:
                try:
                    piece = stream.recv(65536)
                except TimeoutError:
                    if at == 2 or time.monotonic() > end - seconds * (2 - at) / 3:
                        break
                    continue
                if not piece:
                    break
                self.came[at] += piece
        return self.came

    def entries(self):
        """How many entries each has been sent."""
        journal, feed, events = self.came
        return [journal.count(b" tick\n"), feed.count(b'"entry":'), events.count(b'"entry":')]


def held(program, cases, room, is_killed):
    """A sync that does not return for a while."""
    shim, hold, file = room / "held_sync.so", room / "hold", room / f"held-{is_killed}"
    subprocess.run(["cc", "-O2", "-shared", "-fPIC", "-o", shim, HERE / "held_sync.c"], check=True)
    ports = [free_port() for _ in range(3)]
    options = ["--again", "--keep", file, "--sync"]
    for word, port in zip(["--watch", "--changes", "--web"], ports):
        options += [word, f"127.0.0.1:{port}"]
    held_words = {"LD_PRELOAD": str(shim), "HOLD": str(hold)}
    os.environ.update(held_words)
    board = Board(program, options, ["APT", "NM"])
    for word in held_words:
        del os.environ[word]
    with board.connect() as partner, board.connect(1) as other:
        cases.expect("a reply before", asked(partner, TICK) == "ok 0\n")
        cases.expect("and to a bad line", asked(other, "{}") == "bad 102\n")
        shown = Shown(ports)
        shown.look(0.6)
        cases.expect("an entry that is kept is shown", shown.entries() == [1, 1, 1], shown.came)
        hold.touch()
        partner.sendall(TICK.encode() + b"\n")
        shown.look(1.2)
        late = Shown(ports)
        late.look(0.6)
        cases.expect("one that is not kept is shown to nobody", shown.entries() == [1, 1, 1], shown.came)
        cases.expect("nor to who comes then", late.entries() == [1, 1, 1], late.came)
        partner.settimeout(0.2)
        try:
            early = partner.recv(100)
        except TimeoutError:
            early = b""
        cases.expect("and not replied", early == b"", early)
        cases.expect("a line that makes no entry is", asked(other, "{}") == "bad 102\n")
        if is_killed:
            board.process.kill()
            board.process.wait()
            hold.unlink()
            shown.look(0.5)
            cases.expect("nor after a kill", shown.entries() == [1, 1, 1], shown.came)
            return
        hold.unlink()
        partner.settimeout(10)
        cases.expect("replied once it is kept", replied(partner) == "ok 1\n")
        shown.look(0.9)
        cases.expect("and shown then", shown.entries() == [2, 2, 2], shown.came)
    board.process.kill()
    board.process.wait()


def standard_error(program, cases, room):
    """A journal that standard error goes to as well stays as it is, also one with an equals sign in its name."""
    for name in ("errors", "errors=1"):
        standard_error_of(program, cases, room, name)


def standard_error_of(program, cases, room, name):
    """The same of a file of this name."""
    file = room / name
    ran(program, ["run", "--keep", file], f"1 29000580 APT {TICK}\n".encode())
    before = file.read_bytes()
    for arguments in (["--keep", file], ["--save", file], [f"--keep={file}"], ["--save", f"{room}/./{name}"]):
        with open(file, "ab") as errors:
            done = subprocess.run(
                [program, "run", *arguments], input=b"", stdout=subprocess.PIPE, stderr=errors, timeout=60, check=False
            )
        seen = (done.returncode, done.stdout, file.read_bytes())
        cases.expect(f"standard error is the file {name} of {arguments[0]}", seen == (2, b"", before), seen)
    with open(file, "ab") as errors:
        done = subprocess.run([program, "audit", file], stdout=subprocess.PIPE, stderr=errors, timeout=60, check=False)
    cases.expect("an audit of it goes on", (done.returncode, done.stdout, file.read_bytes()) == (0, b"legal 1\n", before))


def main():
    given = words(__doc__).parse_args()
    program, cases = given.program.resolve(), Cases()
    signal.signal(signal.SIGALRM, lambda *_: sys.exit("kept_file: took too long"))
    signal.alarm(300)
    with tempfile.TemporaryDirectory(prefix="acdm-") as room:
        room = pathlib.Path(room)
        run_without_file(program, cases, room)
        serve_without_file(program, cases, room)
        held(program, cases, room, False)
        held(program, cases, room, True)
        standard_error(program, cases, room)
        unread_tables(program, cases, room)
    return cases.end()


if __name__ == "__main__":
    sys.exit(main())
