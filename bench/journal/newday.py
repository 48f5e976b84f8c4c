#!/usr/bin/env python3
"""Goes from day to day by clients/newday.py, three times, under eight partners who never stop sending.

    bench/journal/newday.py [--program PATH] [--days 3] [--seconds 3]

Each partner sends line by line, 100 a second, each with a number that no other line has, and comes back where its
connection breaks; a line without a reply is not sent again. At the end each reply that was read has to stand in one of the journals, at the
number that it names, with the command that it answers, and no line in two of them. What is kept has its tables, its
report and the rights of the journal, and nothing else is left. So it is for a board that a file of settings begins, with
tables of its own, and as root for one of another user. Then what newday.py refuses is tried: a board without a kept
journal, an address that is none of a board, flights that can't be carried. The last line is `N cases, M failed`; the
status is 1 where one failed.
"""
import argparse
import json
import os
import pathlib
import pwd
import re
import resource
import socket
import subprocess
import sys
import tempfile
import threading
import time

TOP = pathlib.Path(__file__).resolve().parents[2]
NEWDAY = TOP / "clients" / "newday.py"
sys.path.insert(0, str(TOP / "clients"))
from feed import Board as Known  # noqa: E402

ROLES = ("AO", "AO", "GH", "GH", "ATC", "APT", "NM", "DIC")
TARGET_EACH = 50
LIMIT, PAUSE = 60, 0.01


def free_ports(count):
    held = [socket.create_server(("127.0.0.1", 0)) for _ in range(count)]
    found = [it.getsockname()[1] for it in held]
    for it in held:
        it.close()
    return found


def until(holds, seconds=LIMIT):
    end = time.monotonic() + seconds
    while not holds():
        if time.monotonic() > end:
            return False
        time.sleep(0.02)
    return True


def listens(port):
    rows = [it.split() for it in pathlib.Path("/proc/net/tcp").read_text(encoding="ascii").splitlines()[1:]]
    return any(row[3] == "0A" and int(row[1].rpartition(":")[2], 16) == port for row in rows)


class Partner(threading.Thread):
    """A partner who never stops sending: what it sent, and the reply to each line that it read."""

    def __init__(self, number, port):
        super().__init__(daemon=True)
        self.number, self.port, self.stop = number, port, threading.Event()
        self.sent, self.replies, self.breaks = {}, {}, 0

    def line(self, count):
        """A line that nobody else sends: mostly a question on a flight of that number, which is on no board."""
        own = 1_000_000 * (self.number + 1) + count
        if count % TARGET_EACH == 0:
            minute = time.strftime("%Y-%m-%dT%H:%M:00Z", time.gmtime(1_900_000_000 + 60 * own))
            return {"cmd": "report", "flight": 1 + self.number, "milestone": 9, "time": minute}
        return {"cmd": "show", "flight": own}

    def run(self):
        count = 0
        while not self.stop.is_set():
            try:
                with socket.create_connection(("127.0.0.1", self.port), timeout=LIMIT) as stream, stream.makefile("rb") as lines:
                    while not self.stop.is_set():
                        count += 1
                        self.sent[count] = self.line(count)
                        stream.sendall(json.dumps(self.sent[count]).encode() + b"\n")
                        reply = lines.readline()
                        if not reply.endswith(b"\n"):
                            break
                        self.replies[count] = reply.decode().split()
                        time.sleep(PAUSE)
            except OSError:
                pass
            self.breaks += not self.stop.is_set()
            self.stop.wait(0.02)


class Board:
    """A board of eight partners, and of two more, in the roles APT and NM, who make the flights."""

    def __init__(self, program, folder, *words, settings=None, **how):
        self.program, self.folder = program, folder
        self.control, *self.ports = free_ports(3 + len(ROLES))
        self.journal = folder / "day.journal"
        partners = [f"{role}=127.0.0.1:{port}" for role, port in zip((*ROLES, "APT", "NM"), self.ports)]
        command = [program, "serve", "--again", "--journal", "1000000", "--control", str(self.control), *words, *partners]
        if settings is not None:
            told = {**settings, "again": True, "journal": 1000000, "control": f"127.0.0.1:{self.control}", "partners": partners}
            text = "".join(f"{name} = {json.dumps(value)}\n" for name, value in told.items())
            (folder / "board.toml").write_text(text, encoding="ascii")
            command = [program, "serve", "--config", "board.toml"]
        null = subprocess.DEVNULL
        self.process = subprocess.Popen(command, cwd=folder, stdin=null, stdout=null, stderr=null, **how)
        if not until(lambda: listens(self.control)):
            raise SystemExit("the board does not begin")

    def make_flights(self):
        """Eight flights with their plans."""
        time_of_all = "2030-03-01T10:00:00Z"
        texts = {"type": "A320", "reg": "DAIBC", "dest": "EGLL"}
        own = {"sobt": time_of_all, "mttt": 40, "exit": 5, "exot": 10, "stand": 12}
        plan = {"milestone": 1, "time": time_of_all}
        found = []
        for port, command, fields in ((self.ports[-2], "schedule", own), (self.ports[-1], "report", plan)):
            lines = [{"cmd": command, "flight": it, "callsign": f"DLH{it}", **texts, **fields} for it in range(1, 9)]
            with socket.create_connection(("127.0.0.1", port), timeout=LIMIT) as stream, stream.makefile("rb") as replies:
                stream.sendall(b"".join(json.dumps(it).encode() + b"\n" for it in lines))
                found += [replies.readline().startswith(b"ok ") for _ in lines]
        return all(found)

    def end(self):
        subprocess.run([sys.executable, TOP / "clients" / "control.py", str(self.control), "close"], capture_output=True, check=False)


def newday(program, *words):
    environment = {**os.environ, "ACDM": str(program), "TZ": "Asia/Kolkata"}
    command = [sys.executable, str(NEWDAY), *map(str, words)]
    return subprocess.run(command, capture_output=True, text=True, env=environment, timeout=300, check=False)


def told(program, journal, *words):
    lines = subprocess.run([program, "tell", *words, journal], capture_output=True, text=True, check=True).stdout.splitlines()
    return [json.loads(line) for line in lines]


def flights_of(entries):
    known = Known()
    for entry in entries:
        known.take(json.loads(json.dumps(entry)))
    return known.flights


def key(command):
    return json.dumps(command, sort_keys=True)


def carried_count(said):
    """How many entries of open flights the next journal begins with, as newday.py says."""
    words = said.split()
    return int(words[words.index("has") + 1]) if "has" in words else -1


def days(program, folder, count, seconds):
    """The days, and what each reply of theirs says."""
    board = Board(program, folder, "--keep", "day.journal")
    board.journal.chmod(0o640)
    yield "the flights are there", board.make_flights()
    partners = [Partner(number, port) for number, port in enumerate(board.ports[: len(ROLES)])]
    for it in partners:
        it.start()
    first = [0]
    for day in range(count):
        time.sleep(seconds)
        done = newday(program, board.control, "--wait", 30)
        print(done.stdout, end="", flush=True)
        if done.returncode:
            print(done.stderr)
        yield f"day {day + 1} ends", done.returncode == 0 and "8 of 8 are back" in done.stdout
        yield f"its report {day + 1} is made", any("report: " in line and pathlib.Path(line.split(": ", 1)[1]).stat().st_size > 1000 for line in done.stdout.splitlines())
        first.append(carried_count(done.stdout))
    time.sleep(seconds)
    for it in partners:
        it.stop.set()
    for it in partners:
        it.join(LIMIT)
    board.end()
    old = sorted((folder / "old").glob("*.journal"), key=lambda it: it.stat().st_mtime)
    yield "each old journal is kept", len(old) == count
    yield from left(program, folder, old)
    journals = [told(program, it) for it in [*old, board.journal]]
    yield from judged(partners, journals, first)


def left(program, folder, old):
    """What stands there behind days: each journal with its tables, the reports, the log, all with the rights of the first journal."""
    moments = [time.strftime("%Y-%m-%dT%H%MZ", time.gmtime(it.stat().st_mtime + 60 * later)) for it in old for later in range(-2, 6)]
    yield "each is named by its moment, in UTC", all(any(moment in it.name for moment in moments) for it in old)
    beside = [f"{it.name}{end}" for it in old for end in ("", ".html", ".tables")]
    names = [{it.name for it in place.iterdir()} for place in (folder, folder / "old")]
    yield f"nothing else is left: {names}", names == [{"day.journal", "day.journal.tables", "day.journal.log", "old"}, set(beside)]
    modes = {it.name: it.stat().st_mode & 0o777 for it in [*folder.glob("old/*"), folder / "day.journal", folder / "day.journal.log"]}
    yield f"with the rights of the journal: {modes}", set(modes.values()) == {0o640}
    for it in old:
        words = [program, "audit", "--tables", f"{it}.tables", it]
        yield "an old journal is audited by its tables", subprocess.run(words, capture_output=True, check=False).returncode == 0


def by_settings(program, folder):
    """A board that a file of settings begins, with tables of its own, where those of another day were left."""
    tables = (TOP / "examples" / "tables.toml").read_text(encoding="ascii")
    (folder / "tables.toml").write_text(tables, encoding="ascii")
    (folder / "day.journal.next.tables").write_text("# others\n", encoding="ascii")
    board = Board(program, folder, settings={"keep": "day.journal", "tables": "tables.toml"})
    yield "by settings: the flights are there", board.make_flights()
    done = newday(program, board.control, "--wait", 0)
    yield f"by settings: the next day is begun: {done.stderr}", done.returncode == 0
    (old,) = [*(folder / "old").glob("*.journal")] or [folder / "none"]
    yield "by settings: with its flights", len(flights_of(told(program, board.journal, "--tables", folder / "tables.toml"))) == 8
    kept = pathlib.Path(f"{old}.tables")
    yield "by settings: the old tables are kept", kept.is_file() and kept.read_text(encoding="ascii") == tables
    yield "by settings: nothing else is left", not [*folder.glob("*.next*")]
    command = [sys.executable, str(TOP / "clients" / "control.py"), str(board.control), "close"]
    done = subprocess.run(command, capture_output=True, text=True, check=False)
    yield f"by settings: its end is seen: {done.stderr}", (done.returncode, done.stdout) == (0, "closing\n")


def of_another_user(program, folder):
    """Root goes to the next day for a board of another user: that board is begun as this user again, in whose groups it is."""
    reached = ["setpriv", "--reuid=nobody", "--clear-groups", "test", "-x", str(program)]
    if os.geteuid() or subprocess.run(reached, check=False, capture_output=True).returncode:
        print("left out: a board of another user, which takes root, and a program that all may start")
        return
    user = pwd.getpwnam("nobody")
    os.chown(folder, user.pw_uid, user.pw_gid)
    own = {"user": user.pw_uid, "group": user.pw_gid, "extra_groups": [user.pw_gid], "umask": 0o077}
    own |= {"env": {**os.environ, "OWN": "of this board"}, "preexec_fn": lambda: resource.setrlimit(resource.RLIMIT_NOFILE, (300, 400))}
    board = Board(program, folder, "--keep", "day.journal", **own)
    yield "of another user: the flights are there", board.make_flights()
    done = newday(program, board.control, "--wait", 0)
    yield f"of another user: the next day is begun: {done.stderr}", done.returncode == 0
    board.process.wait(LIMIT)
    owners = {it.name: (it.stat().st_uid, it.stat().st_mode & 0o777) for it in folder.rglob("*") if it.is_file()}
    yield f"of another user: all is his alone: {owners}", set(owners.values()) == {(user.pw_uid, 0o600)}
    found = []
    for it in pathlib.Path("/proc").glob("[0-9]*"):
        try:
            words, status = (it / "cmdline").read_bytes().split(b"\0"), (it / "status").read_text() + (it / "limits").read_text()
            environment = (it / "environ").read_bytes().split(b"\0")
        except OSError:
            continue
        if str(board.control).encode() in words and str(program).encode() in words[:1]:
            told = re.findall(r"^(?:Uid:|Gid:|Groups:|Umask:|Max open files)\s+(\w+(?: +400)?)", status, re.M)
            found.append([*map(str.split, told), b"OWN=of this board" in environment])
    wanted = [[["0077"], [str(user.pw_uid)], [str(user.pw_gid)], [str(user.pw_gid)], ["300", "400"], True]]
    yield f"of another user: it runs as before: {found}", found == wanted
    board.end()


def judged(partners, journals, first):
    """Holds what partners read against the journals: of each journal what behind its carried flights."""
    places = {}
    twice = 0
    for day, entries in enumerate(journals):
        for entry in entries[first[day] :]:
            twice += key(entry["command"]) in places
            places[key(entry["command"])] = day, entry["entry"]
    read = lost = otherwise = unread = 0
    for partner in partners:
        for count, command in partner.sent.items():
            place, reply = places.get(key(command)), partner.replies.get(count)
            unread += reply is None and place is not None
            if reply is None or reply[0] == "bad":
                continue
            read += 1
            lost += place is None
            otherwise += place is not None and place[1] != int(reply[1])
    breaks = min(partner.breaks for partner in partners)
    print(f"{read} replies were read, {unread} lines without one were entered; {[len(it) for it in journals]} entries, {first[1:]} carried")
    yield "partners never stopped", read > 20 * len(partners) and breaks >= len(journals) - 1
    yield "each reply that was read stands in a journal", lost == 0
    yield "at the number that it names", otherwise == 0
    yield "no line stands twice", twice == 0
    yield "the next journal does not begin as the first one", journals[0][0]["command"] != journals[1][0]["command"]
    for day in range(1, len(journals)):
        before, after = flights_of(journals[day - 1]), flights_of(journals[day][: first[day]])
        tobts = [it["tobt"] for it in after.values() if it["tobt"]]
        yield f"day {day + 1} begins with the open flights as they were", before == after and len(before) == 8
        yield f"and with the targets that were reported {day}", len(tobts) >= 2


def of_a_follower(program, folder):
    """A board that follows another one has no next day of its own."""
    control, partner = free_ports(2)
    words = ["--again", "--control", str(control), "--keep", str(folder / "followed"), f"APT=127.0.0.1:{partner}"]
    null = subprocess.DEVNULL
    with subprocess.Popen([program, "follow", "127.0.0.1:1", *words], stdin=null, stdout=null, stderr=null) as follower:
        until(lambda: listens(control))
        done = newday(program, control)
        yield "a board that follows is refused", done.returncode == 2 and "begun by `follow`" in done.stderr
        yield "and goes on", follower.poll() is None
        follower.kill()


def refusals(program, folder):
    """What is refused, and that a day that can't be carried goes on."""
    (port,) = free_ports(1)
    done = newday(program, port)
    yield "no board is told", done.returncode == 2 and "no control address" in done.stderr
    plain = folder / "plain"
    plain.mkdir()
    board = Board(program, plain)
    done = newday(program, board.control)
    yield "a board without a journal that is kept is refused", done.returncode != 0 and "keeps no journal" in done.stderr
    yield "and serves on", board.process.poll() is None
    done = newday(program, board.ports[0])
    yield "a partner's address is no control address", done.returncode == 2 and "address of AO" in done.stderr
    board.end()
    kept = folder / "kept"
    kept.mkdir()
    board = Board(program, kept, "--keep", "day.journal")
    board.make_flights()
    (kept / "day.journal.next").mkdir()
    done = newday(program, board.control)
    yield "where the next journal can't be made, the board goes on", done.returncode == 1 and "goes on with the old journal" in done.stderr
    yield "with its flights", len(flights_of(told(program, board.journal))) == 8 and until(lambda: listens(board.control), 5)
    (kept / "day.journal.next").rmdir()
    elsewhere = pathlib.Path("/dev/shm")
    if elsewhere.is_dir() and elsewhere.stat().st_dev != kept.stat().st_dev:
        with tempfile.TemporaryDirectory(dir=elsewhere) as other:
            done = newday(program, board.control, "--old", other)
        yield "a folder on another disk is refused", done.returncode == 2 and "on another disk" in done.stderr and listens(board.control)
    with socket.create_connection(("127.0.0.1", board.ports[-1]), timeout=LIMIT) as partner:
        partner.sendall(b'{"cmd":"alerts"}\n')
        partner.recv(100)
        done = newday(program, board.control, "--wait", 0.2)
    yield "a partner who does not come back is told", done.returncode == 1 and "not back after 0 s: NM (session 10)" in done.stderr
    yield from of_a_follower(program, folder)
    done = newday(program, board.control, "--start", "false")
    yield "a command that does not begin the board is told", done.returncode == 1 and "is not begun" in done.stderr
    yield "and the next day's journal is there", len(flights_of(told(program, board.journal))) == 8


def main():
    words = argparse.ArgumentParser(description="Goes from day to day under partners who never stop.")
    words.add_argument("--program", type=pathlib.Path, default=TOP / "crates" / "acdm" / "out" / "acdm")
    words.add_argument("--days", type=int, default=3)
    words.add_argument("--seconds", type=float, default=3)
    asked = words.parse_args()
    cases = failed = 0
    with tempfile.TemporaryDirectory(prefix="acdm-newday-") as room:
        folder = pathlib.Path(room)
        folder.chmod(0o755)
        for name in ("days", "settings", "another"):
            (folder / name).mkdir()
        program = asked.program.resolve()
        more = (by_settings(program, folder / "settings"), of_another_user(program, folder / "another"))
        for found in (days(program, folder / "days", asked.days, asked.seconds), *more, refusals(program, folder)):
            for name, is_well in found:
                cases += 1
                if not is_well:
                    failed += 1
                    print(f"FAILED: {name}", flush=True)
    print(f"{cases} cases, {failed} failed")
    return 1 if failed else 0


if __name__ == "__main__":
    sys.exit(main())
