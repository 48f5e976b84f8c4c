#!/usr/bin/env python3
"""Tries `acdm follow` of the built program: a second board that keeps the journal of a first one, and takes over.

    python3 bench/hostile/follow.py [--program PATH] [--kills N]

A day that is followed, its first board killed and the second promoted, N times; connections that are cut at each byte; a
follower that is killed and begun again; a chain of two; a first board that comes back; addresses that are no board's; other
journals, boards that are behind, lines that are not legal; last entries that differ late; the names of two followers; what is
said again, also of a first board that ends each connection; a promotion and a close while it is connected, and both at once;
who is connected at its control address then; a log that can't be written; attempts a second apart; a file that is taken away
while it follows; words and files that are refused; `close`. The last line is `N cases, M failed`; status 1 where one
failed.
"""

import contextlib
import hashlib
import json
import os
import pathlib
import random
import re
import shutil
import socket
import subprocess
import sys
import tempfile
import threading
import time

from again import Board, Partner, free_port
from cases import ALERTS, CHANGED, PLAN, SCHEDULE, Cases, cause, ran, text, words

TICK = '{"cmd":"tick"}'
CLIENTS = pathlib.Path(__file__).resolve().parents[2] / "clients"
MOMENT = r"\d{4}-\d\d-\d\dT\d\d:\d\d:\d\dZ"
ROLES = ["APT", "NM"]
# Five entries, as an audit takes them.
JOURNAL = [
    "0 1 29000580 APT 0 0 schedule 7 DLH7 A320 DAIBC EDDM 29000760 40 5 10 12",
    "1 2 29000580 NM 0 0 report 7 1 29000760 DLH7 A320 DAIBC EDDM",
    "2 1 29000580 APT 0 0 alerts",
    "3 1 29000581 APT 0 0 tick",
    "4 1 29000582 APT 0 0 tick",
]
OTHER = ["0 1 29000999 APT 0 0 tick"]


class First(Board):
    """A first board, whose journal is kept and may be watched."""

    def __init__(self, program, kept, *arguments):
        self.watch = free_port()
        super().__init__(
            [program], ["--again", "--control", "PORT", "--keep", str(kept), "--watch", f"127.0.0.1:{self.watch}", *arguments], ROLES
        )

    def kill(self):
        self.ran.kill()
        self.ran.wait()


class Second(Board):
    """A board that follows another one: it listens for partners once it was promoted."""

    def __init__(self, program, first, kept, *arguments, watch=None):
        self.kept, self.port, self.watch = pathlib.Path(kept), free_port(), watch or free_port()
        self.ports, self.said, self.lines = [free_port() for _ in ROLES], [], []
        command = [str(program), "follow", f"127.0.0.1:{first}", "--keep", str(kept), "--control", str(self.port)]
        command += ["--watch", f"127.0.0.1:{self.watch}", *arguments]
        command += [f"{role}=127.0.0.1:{port}" for role, port in zip(ROLES, self.ports)]
        self.ran = subprocess.Popen(command, stdout=subprocess.PIPE, stderr=subprocess.PIPE, text=True)
        self.listening = threading.Thread(target=self.listen, daemon=True)
        self.listening.start()
        self.waits_for(lambda: self.is_open() or self.ran.poll() is not None)

    def is_open(self):
        try:
            return "entries" in self.ask("status")
        except OSError:
            return False

    def entries(self):
        found = re.search(r"^entries (\d+) of", self.ask("status"), re.M)
        return int(found[1]) if found else None

    def has(self, count):
        """Whether it gets so many entries, and its file as many lines."""
        return self.waits_for(lambda: self.entries() == count and self.kept.read_bytes().count(b"\n") == count)

    def says(self, pattern):
        return self.waits_for(lambda: any(re.fullmatch(pattern, it) for it in self.said))

    def promote(self):
        """The answer, and whether the listeners were told then."""
        answer = self.ask("promote")
        told = [self.ran.stdout.readline().split()[:3] for _ in ROLES]
        return answer, told == [["listen", str(number), role] for number, role in enumerate(ROLES, 1)]

    def kill(self):
        self.ran.kill()
        self.ran.wait()


class Server:
    """Sends each that connects what it is handed, cut off behind so many bytes, and hears what was sent first, but for a
    line that asks for its term, which it sends, where it has one."""

    def __init__(self, answers, term=1, port=0):
        self.answers, self.heard, self.term = list(answers), [], term
        self.listener = socket.create_server(("127.0.0.1", port))
        self.port = self.listener.getsockname()[1]
        self.thread = threading.Thread(target=self.serve, daemon=True)
        self.thread.start()

    def serve(self):
        while True:
            try:
                stream, _ = self.listener.accept()
            except OSError:
                return
            stream.settimeout(5)
            answer = self.answers.pop(0) if len(self.answers) > 1 else self.answers[0]
            try:
                with stream.makefile("rb") as lines:
                    self.heard.append(lines.readline())
                    if self.heard[-1] == b"term\n" and self.term is not None:
                        stream.sendall(f"term {self.term}\n".encode())
                        self.heard[-1] = lines.readline()
                given = answer(self.heard[-1]) if callable(answer) else answer
                stream.sendall(given.encode() if isinstance(given, str) else given)
                if self.answers == [answer]:
                    self.last = stream
                    continue
            except OSError:
                pass
            stream.close()

    def close(self):
        # (before its number is another socket's, for which the thread would accept then)
        self.listener.shutdown(socket.SHUT_RDWR)
        self.thread.join(10)
        self.listener.close()


def name_of(lines):
    """The name of a journal, by the rule of docs/FORMATS.md."""
    return hashlib.sha256(lines[0].encode()).hexdigest()[:32]


def head(lines, following, name=None):
    return f'{{"journal":"{name or name_of(lines)}","next":{following},"room":100000}}\n'


def from_line(lines):
    """What a board with these entries sends who asks for those from a number on."""

    def answer(heard):
        asked = int(re.fullmatch(rb"from (\d+)(?: as \d+)?\n", heard)[1])
        start = min(asked, len(lines))
        return head(lines, start) + text(lines[start:])

    return answer


def behind(lines, answer):
    """What a board with these entries sends who asks for the last one, and else this answer."""
    return lambda heard: from_line(lines)(heard) if heard.startswith(f"from {len(lines) - 1}\n".encode()) else answer


def audited(cases, program, name, kept, count):
    done = ran(program, ["audit", str(kept)])
    cases.expect(f"{name}: legal", done.stdout.decode() == f"legal {count}\n", done.stdout.decode() + done.stderr.decode())


def logged(cases, second, log, watch):
    """The log of a board that followed: each event as it was said, and its members."""
    found = [json.loads(line) for line in log.read_text().splitlines()]
    moments = [it.pop("at") for it in found]
    parted = [re.fullmatch(rf"parted (.*) {MOMENT}", line) for line in second.said]
    owed = [
        {"event": "following", "address": f"127.0.0.1:{watch}", "next": 0},
        *({"event": "parted", "why": it[1]} for it in parted if it),
        {"event": "promoted", "entries": 3},
    ]
    cases.expect("its log has what it said", found[: len(owed)] == owed and len(owed) == 4, (found, owed))
    cases.expect("with its moments", all(re.fullmatch(MOMENT, it) for it in moments), moments)
    closes = [at for at, it in enumerate(found, 1) if it["event"] == "close"]
    cases.expect("and that it has closed, once, at the end", closes == [len(found)], found)


def day(cases, program, room):
    """A day is followed; the first board is killed, and the second goes on."""
    kept, copy, log = room / "first", room / "second", room / "second.log"
    first = First(program, kept)
    airport, network = first.connect(1), first.connect(2)
    cases.expect("the first replies", airport.asks(SCHEDULE) == "ok 0")
    second = Second(program, first.watch, copy, "--log", str(log))
    cases.expect("it says that it follows", second.says(rf"following 127\.0\.0\.1:{first.watch} 0 {MOMENT}"), second.said)
    cases.expect("status says so too", second.ask("status").startswith(f"following 127.0.0.1:{first.watch}\nentries "))
    cases.expect("it has what was there", second.has(1))
    cases.expect("the first replies on", network.asks(PLAN) == "ok 1" and airport.asks(ALERTS).startswith("alerts 2 "))
    cases.expect("it has that too", second.has(3))
    cases.expect("both files are the same", copy.read_bytes() == kept.read_bytes())
    with socket.create_connection(("127.0.0.1", second.watch)) as display:
        display.settimeout(5)
        cases.expect("its display has the journal", display.makefile("rb").readline() == kept.read_bytes().splitlines(True)[0])
    refused = socket.socket()
    cases.expect("no partner is listened for", refused.connect_ex(("127.0.0.1", second.ports[0])) != 0)
    refused.close()
    first.kill()
    cases.expect("it says that the connection has ended", second.says(rf"parted the connection has ended {MOMENT}"), second.said)
    cases.expect("and that nobody is there", second.says(rf"parted .*refused.* {MOMENT}"), second.said)
    cases.expect("so does status", second.ask("status").startswith(f"following 127.0.0.1:{first.watch} parted\nentries "))
    began = time.monotonic()
    answer, told = second.promote()
    cases.expect("promote is answered", answer == "promoting\n" and told, answer)
    airport = second.connect(1)
    cases.expect("it replies as the next entry", airport.asks(TICK) == "ok 3")
    cases.expect("within a second", time.monotonic() - began < 1, time.monotonic() - began)
    cases.expect("it says so", second.says(rf"promoted 3 {MOMENT}"), second.said)
    cases.expect("status has no line of it any more", "following" not in second.ask("status"), second.ask("status"))
    cases.expect("once more it serves already", second.ask("promote") == "serving\n")
    cases.expect("it goes on", second.connect(2).asks(ALERTS).startswith("alerts 4 "))
    _, status, lines = second.close()
    cases.expect("it ends in good order", (status, lines) == (0, ["session 1 1 end", "session 2 1 end", "closed 5"]), lines)
    logged(cases, second, log, first.watch)
    audited(cases, program, "its file", copy, 5)
    cases.expect("which begins with the first one's", copy.read_bytes().startswith(kept.read_bytes()))
    again = First(program, copy)
    cases.expect("and may be gone on from", again.connect(1).asks(TICK) == "ok 5")
    again.close()


def work(port, turns, told, wrong):
    """A partner that reads each reply before the next line, until its board is gone."""
    try:
        partner = Partner(port)
        for _ in range(turns):
            reply = partner.asks(ALERTS)
            if not reply:
                return
            told.append(int(reply.split()[1]))
    except (OSError, ValueError, IndexError) as error:
        wrong.append(error)


def killed(cases, program, room, turn, chance):
    """The first board is killed at some moment under load: what the second has is a beginning of its file, or all of it."""
    kept, copy = room / f"first{turn}", room / f"second{turn}"
    first = First(program, kept)
    second = Second(program, first.watch, copy)
    first.connect(1).asks(SCHEDULE)
    told, wrong = [], []
    threads = [threading.Thread(target=work, args=(port, 100_000, told, wrong)) for port in first.ports]
    for it in threads:
        it.start()
    time.sleep(chance.uniform(0.05, 0.5))
    first.kill()
    for it in threads:
        it.join()
    second.says(rf"parted the connection has (ended|failed) {MOMENT}")
    second.promote()
    reply = second.connect(1).asks(TICK)
    cases.expect("it goes on behind what it has", reply.startswith("ok "), reply)
    count = int(reply.split()[1]) if reply.startswith("ok ") else -1
    text_of = copy.read_bytes().splitlines(True)
    cases.expect("which the first had", b"".join(text_of[:count]) == b"".join(kept.read_bytes().splitlines(True)[:count]))
    second.close()
    audited(cases, program, f"kill {turn}", copy, count + 1)


def cuts(cases, program, room):
    """Connections that are cut at each byte: each entry comes once, whole, and in order."""
    whole = head(JOURNAL, 0) + text(JOURNAL)
    points = sorted(random.Random(7).sample(range(1, len(whole)), 24))
    answers = []
    for cut in points:
        answers.append(lambda heard, cut=cut: from_line(JOURNAL)(heard)[:cut])
    server = Server([*answers, from_line(JOURNAL)])
    copy = room / "cuts"
    second = Second(program, server.port, copy)
    cases.expect("after all cuts it has all", second.waits_for(lambda: second.has(5), 60), (second.entries(), second.said[-3:]))
    cases.expect("each was asked for once", copy.read_text() == text(JOURNAL), copy.read_text())
    asked = [int(it.split()[1]) for it in server.heard]
    # (before each connection the entry before the next one is asked for)
    grow = asked[0] == 0 and all(after >= before - 1 for before, after in zip(asked, asked[1:]))
    cases.expect("the numbers asked for grow", grow, asked)
    second.close()
    server.close()


def names(cases, program, room):
    """Two boards that begin to follow at once: each has a name of its own, the nanoseconds of a second, at each connection."""
    server = Server([*(from_line(JOURNAL[:count]) for count in (1, 2, 3, 4)), from_line(JOURNAL)])
    boards = [Second(program, server.port, room / f"named{number}") for number in range(2)]
    cases.expect("both have all", all(it.has(len(JOURNAL)) for it in boards), [it.said for it in boards])
    found = [it.split()[3] for it in list(server.heard) if b" as " in it]
    cases.expect("they have two names", len(set(found)) == 2 < len(found), found)
    cases.expect("which are nanoseconds", all(int(it) < 10**9 for it in found), found)
    for it in boards:
        it.close()
    server.close()


def compared(cases, program, room):
    """The last entry is compared, also where the other one comes a second late, or is another one at its end alone."""
    mine, other = (f"1 1 29000580 APT 0 0 load 9 alert {'b700000000000000' * 3000}b70000000{end}0000009500000000000000" for end in (1, 2))
    differing = [JOURNAL[0], "1 2 29000580 NM 0 0 alerts", *JOURNAL[2:]]

    def late(heard):
        time.sleep(1)
        return from_line(differing)(heard)

    for name, own, answer in (("late", JOURNAL[:2], late), ("long", [JOURNAL[0], mine], from_line([JOURNAL[0], other]))):
        begun = room / f"compared {name}"
        begun.write_text(text(own))
        server = Server([answer])
        second = Second(program, server.port, begun)
        why = "another journal is sent there: entry 1 is another one"
        cases.expect(f"{name}: another last entry is told", second.says(rf"parted {why} {MOMENT}"), second.said)
        cases.expect(f"{name}: nothing is kept of it", begun.read_text() == text(own) and second.entries() == 2)
        second.close()
        server.close()


def others(cases, program, room):
    """Who is no board, another journal, a board that is behind, and lines that are not legal."""
    good, begun = text(JOURNAL[:2]), room / "begun"
    other = [JOURNAL[0], "1 2 29000580 NM 0 0 alerts", *JOURNAL[2:]]
    faulty = [*JOURNAL[:2], "2 1 29000580 APT 0 0 alerts 7", *JOURNAL[3:]]
    no_board = "no board's term is sent there"
    for name, answer, why in (
        ("HTTP", "HTTP/1.1 400 Bad Request\r\nConnection: close\r\n\r\n", no_board),
        ("a partner's address", "bad 101\n", no_board),
        ("the control address", "unknown\n", no_board),
        ("no number", "term two\n", no_board),
        ("a long number", f"term {'1' * 40}\n", no_board),
        ("half a term", "term 1", no_board),
        ("nothing at all", "", no_board),
        ("a board of before, without terms", head(JOURNAL, 2), no_board),
        ("a journal without its line", text(JOURNAL[2:]), "no journal is sent there"),
        ("one that says nothing", "", "the connection has ended"),
        ("half a line", head(JOURNAL, 2)[:40], "the connection has ended"),
        ("a long line", "x" * 5000 + "\n", "no journal is sent there"),
        ("another journal", head(OTHER, 2), "another journal is sent there"),
        ("another last entry", from_line(other), "another journal is sent there: entry 1 is another one"),
        ("a board that is behind", head(JOURNAL, 1), "there are only 1 entries"),
        ("a board that is ahead", head(JOURNAL, 4) + text(JOURNAL[4:]), "entries before 4 are not sent"),
        ("a board that is far ahead", head(JOURNAL, 10) + "10 1 29000580 APT 0 0 alerts\n", "entries before 10 are not sent"),
        ("a line that is not legal", head(JOURNAL, 2) + text(faulty[2:]), r"entry 2: .+"),
        ("an entry of another number", head(JOURNAL, 2) + text(JOURNAL[3:]), r"entry 2: .+"),
        ("bytes that are no text", head(JOURNAL, 2).encode() + b"\xff\xfe\n", r"entry 2: .+"),
        ("a line without an end", head(JOURNAL, 2) + "2 1 " + "x" * 8_000_000, r"entry 2: .+"),
    ):
        begun.write_text(good)
        # (what comes behind the last entry is heard where that is the same)
        sent = behind(JOURNAL[:2], answer) if why.startswith("entry 2") else answer
        server = Server([sent] * 4 + [""], None if why == no_board else 1)
        second = Second(program, server.port, begun)
        cases.expect(f"{name}: told", second.says(rf"parted {why} {MOMENT}"), second.said)
        cases.expect(f"{name}: nothing is kept of it", begun.read_text() == good and second.entries() == 2, begun.read_text())
        answer, status, lines = second.close()
        cases.expect(f"{name}: closed in good order", (answer, status, lines) == ("closing\n", 0, []), (status, lines))
        server.close()
    empty = room / "empty"
    server = Server([head(JOURNAL, 0, "0" * 32) + text(JOURNAL)])
    second = Second(program, server.port, empty)
    cases.expect("a name that is not the first entry's", second.says(rf"parted another journal is sent there {MOMENT}"), second.said)
    cases.expect("nothing of it is kept", empty.read_text() == "", empty.read_text())
    second.close()
    server.close()


def ahead_of_faulty(cases, program, room):
    """A legal line that comes at once with one that is not: it is entered, and in the file, though nothing more is followed."""
    begun = room / "ahead-of-faulty"
    begun.write_text(text(JOURNAL[:2]))
    server = Server([behind(JOURNAL[:2], head(JOURNAL, 2) + text([JOURNAL[2], "3 1 29000580 APT 0 0 alerts 7"]))] * 20 + [""])
    second = Second(program, server.port, begun)
    cases.expect("ahead of a faulty line: that one is told", second.says(rf"parted entry 3: .+ {MOMENT}"), second.said)
    cases.expect("ahead of a faulty line: the one before is kept", second.has(3), (second.entries(), begun.read_text()))
    cases.expect("ahead of a faulty line: and nothing else", begun.read_text() == text(JOURNAL[:3]), begun.read_text())
    second.close()
    server.close()


def reasons(cases, program, room):
    """Why it does not follow is said once, and again where it is another reason."""
    begun, port = room / "reasons", free_port()
    begun.write_text(text(JOURNAL[:2]))
    second = Second(program, port, begun)
    nobody, differs = rf"parted .*refused.* {MOMENT}", rf"parted another journal is sent there: entry 1 is another one {MOMENT}"
    cases.expect("nobody is there, which is said", second.says(nobody), second.said)
    server = Server(["unknown\n"], None, port)
    cases.expect("then who is no board, which is said", second.says(rf"parted no board's term is sent there {MOMENT}"), second.said)
    server.close()
    cases.expect("then nobody", second.waits_for(lambda: len(second.said) == 3), second.said)
    server = Server([from_line([JOURNAL[0], "1 2 29000580 NM 0 0 alerts"])], port=port)
    cases.expect("then another journal is there, which is said too", second.says(differs), second.said)
    time.sleep(2.5)
    server.close()
    told = lambda pattern: sum(re.fullmatch(pattern, it) is not None for it in second.said)
    cases.expect("then nobody again", second.waits_for(lambda: len(second.said) == 5), second.said)
    time.sleep(2.5)
    # (a connection of a server that ends is reset)
    cases.expect("each is said once", (told(nobody) >= 2, told(differs), len(second.said)) == (True, 1, 5), second.said)
    second.close()


def changed(cases, program, room):
    """The same reason is said again where something else was said between, and so is that it follows."""
    begun, answer = room / "changed", head(JOURNAL, 1)
    begun.write_text(text(JOURNAL[:2]))
    server = Server([answer] * 100 + [""])
    second = Second(program, server.port, begun)
    only, nobody = "parted there are only 1 entries", "parted nobody"

    def told():
        """What was said, without the moments; it may be said in two ways that nobody is there."""
        found = [it.rsplit(" ", 1)[0] for it in second.said]
        return [nobody if re.search(r"refused|reset", it) else it for it in found]

    cases.expect("a board that is behind is told", second.waits_for(lambda: told() == [only]), second.said)
    status = second.ask("status")
    cases.expect("and that it is not followed", status.startswith(f"following 127.0.0.1:{server.port} parted\n"), status)
    server.close()
    cases.expect("then nobody is there", second.waits_for(lambda: nobody in told()), second.said)
    server = Server([answer] * 100 + [""], port=server.port)
    cases.expect("then it is told again that it is behind", second.waits_for(lambda: told().count(only) == 2), second.said)
    cases.expect("and never that it is followed", [*dict.fromkeys(told())] == [only, nobody], second.said)
    cases.expect("nothing is kept", begun.read_text() == text(JOURNAL[:2]), begun.read_text())
    second.close()
    server.close()


def unlike(cases, program, room):
    """Where the last entry is not there when it is asked for, nothing of another history is entered behind it."""
    begun = room / "unlike"
    begun.write_text(text(JOURNAL[:2]))
    other = [JOURNAL[0], "1 2 29000580 NM 0 0 alerts", *JOURNAL[2:]]

    def answer(heard):
        """The first line alone where the last entry is asked for, and all of the other journal behind it else."""
        return head(other, 1) if heard.startswith(b"from 1") else from_line(other)(heard)

    server = Server([answer] * 100 + [""])
    second = Second(program, server.port, begun)
    cases.expect("unlike: it is told that the entry is not there", second.says(rf"parted there are only 1 entries {MOMENT}"), second.said)
    heard = len(server.heard)
    cases.expect("unlike: it is tried again", second.waits_for(lambda: len(server.heard) > heard + 2), server.heard)
    cases.expect("unlike: nothing is entered", begun.read_text() == text(JOURNAL[:2]) and second.entries() == 2, second.said)
    second.close()
    server.close()


def ends_following(cases, program, room):
    """A board that is promoted or closed while it is connected has not parted from anybody, and is not held up by who is silent."""
    for name, answer, count in (("connected", from_line(JOURNAL), len(JOURNAL)), ("silent", lambda heard: "", 2)):
        begun, server = room / f"ends {name}", Server([answer])
        begun.write_text(text(JOURNAL[:2]))
        second = Second(program, server.port, begun)
        heard = second.waits_for(lambda server=server, second=second, count=count: server.heard and second.entries() == count)
        cases.expect(f"{name}: it has what came", heard, second.said)
        began = time.monotonic()
        reply, told = second.promote()
        took = time.monotonic() - began
        cases.expect(f"{name}: it is promoted", reply == "promoting\n" and told, reply)
        cases.expect(f"{name}: soon", took < 4, took)
        cases.expect(f"{name}: which it says", second.says(rf"promoted {count} {MOMENT}"), second.said)
        cases.expect(f"{name}: and nothing of parting", not any(it.startswith("parted ") for it in second.said), second.said)
        cases.expect(f"{name}: it closes", second.close()[:2] == ("closing\n", 0))
        server.close()


def closed_at_once(cases, program, room):
    """A board is promoted and closed before it has seen either: it closes, and never serves."""
    kept, log = room / "at once", room / "at-once.log"
    kept.write_text(text(JOURNAL))
    # (it waits here for a term, which does not come)
    with socket.create_server(("127.0.0.1", 0)) as listener:
        second = Second(program, listener.getsockname()[1], kept, "--log", str(log))
        with socket.create_connection(("127.0.0.1", second.port), timeout=20) as control:
            control.sendall(b"promote\nclose\n")
            answer = b""
            while b"closing\n" not in answer and (part := control.recv(100)):
                answer += part
        status, lines = second.ended()
    cases.expect("promoted and closed at once, both are answered", answer == b"promoting\nclosing\n", answer)
    cases.expect("and it closes, without a word", (status, lines) == (0, []), (status, lines))
    cases.expect("in the term that it had", not kept.with_name("at once.term").exists())
    cases.expect("nor does it say that it was promoted", not any(it.startswith("promoted ") for it in second.said), second.said)
    last = json.loads(log.read_text().splitlines()[-1])
    told = {name: last.get(name) for name in ("event", "by", "entries")}
    cases.expect("its log says what closed it", told == {"event": "close", "by": "control", "entries": len(JOURNAL)}, last)


def followed_on(cases, program, room):
    """A connection that ends is said, and so is the next one."""
    server = Server([from_line(JOURNAL[:2]), from_line(JOURNAL)])
    second = Second(program, server.port, room / "followed-on")
    cases.expect("by the next connection it has all", second.has(len(JOURNAL)), second.said)
    following = rf"following 127\.0\.0\.1:{server.port}"
    wanted = [f"{it} {MOMENT}" for it in (f"{following} 0", "parted the connection has (?:ended|failed)", f"{following} 2")]
    said = second.waits_for(lambda: len(second.said) == 3) and all(map(re.fullmatch, wanted, second.said))
    cases.expect("which it says", said, second.said)
    second.close()
    server.close()


def flapping(cases, program, room):
    """A first board that ends each connection behind its journal: what does not change is printed once, and it is tried each second."""
    server = Server([from_line(JOURNAL)] * 100 + [""])
    second = Second(program, server.port, room / "flapping")
    cases.expect("flapping: it has what came", second.has(len(JOURNAL)), second.said)
    began, before = time.monotonic(), len(server.heard)
    # (at each try it connects twice: the last entry is compared first)
    cases.expect("flapping: it is tried again", second.waits_for(lambda: len(server.heard) >= before + 8, 60), server.heard)
    took, count = time.monotonic() - began, len(server.heard) - before
    cases.expect("flapping: a second later, and no sooner", count <= 2 * took + 4, (count, took))
    said = [re.sub(r"(has) (ended|failed)", r"\1 ended", it.rsplit(" ", 1)[0]) for it in second.said]
    address, parted = f"following 127.0.0.1:{server.port}", "parted the connection has ended"
    cases.expect("flapping: each is printed once", said == [f"{address} 0", parted, f"{address} 5", parted, f"{address} 5"], said)
    second.close()
    server.close()


def paced(cases, program, room):
    """A first board that ends each connection at once, and one that is not there: it is tried again a second later, and no sooner."""
    other = [JOURNAL[0], "1 2 29000580 NM 0 0 alerts"]
    # (where there is an entry it is asked for, and compared, before it connects once more)
    for name, lines, answer, most in (("nothing", [], "", 5), ("two entries", JOURNAL[:2], "", 10), ("others", JOURNAL[:2], from_line(other), 5)):
        begun = room / f"paced {name}"
        begun.write_text(text(lines))
        server = Server([answer] * 20 + ["x"])
        second = Second(program, server.port, begun)
        time.sleep(3)
        cases.expect(f"{name}: tried again, and not at each moment", 2 <= len(server.heard) <= most, len(server.heard))
        second.close()
        server.close()


def silent(cases, program, room):
    """A connection is made anew ten seconds behind what came last, and nothing is printed of that."""
    begun, server = room / "silent", Server([from_line(JOURNAL[:-1])])
    second = Second(program, server.port, begun)
    cases.expect("silence: it has what came", second.has(len(JOURNAL) - 1), second.said)
    heard = len(server.heard)
    time.sleep(8)
    server.answers = [from_line(JOURNAL)]
    server.last.sendall(text(JOURNAL[-1:]).encode())
    began = time.monotonic()
    cases.expect("silence: it has what came eight seconds later", second.has(len(JOURNAL)), second.said)
    cases.expect("silence: it connects anew", second.waits_for(lambda: len(server.heard) > heard, 25), server.heard)
    took = time.monotonic() - began
    cases.expect("silence: after ten seconds", 9 < took < 15, took)
    cases.expect("silence: and nothing is printed of it", [it.split(" ")[0] for it in second.said] == ["following"], second.said)
    # (the connection that was made stays, and says nothing)
    server.close()
    cases.expect("silence: then nobody is there", second.waits_for(lambda: len(second.said) == 2, 25), second.said)
    status = second.ask("status")
    cases.expect("silence: which status says", status.startswith(f"following 127.0.0.1:{server.port} parted\n"), status)
    server = Server([from_line(JOURNAL)], port=server.port)
    again = second.waits_for(lambda: [it.split(" ")[0] for it in second.said] == ["following", "parted", "following"])
    cases.expect("silence: and that it follows is said again", again, second.said)
    server.close()
    cases.expect("silence: and again that nobody is there", second.waits_for(lambda: len(second.said) == 4, 25), second.said)
    nobody = [it.rsplit(" ", 1)[0] for it in second.said[1::2]]
    cases.expect("silence: for the same reason", len(nobody) == 2 and nobody[0] == nobody[1] and nobody[0].startswith("parted "), nobody)
    second.close()


def callers(cases, program, room):
    """Who is connected at the control address as a board is promoted has asked for nothing for longer than who comes then."""
    begun, server = room / "callers", Server([from_line(JOURNAL)])
    second = Second(program, server.port, begun)
    cases.expect("callers: it follows", second.has(len(JOURNAL)), second.said)
    # (so long that the time which it counts by is later than what it takes to be promoted)
    time.sleep(3)
    with contextlib.ExitStack() as opened:

        def calls():
            return opened.enter_context(socket.create_connection(("127.0.0.1", second.port), timeout=30))

        def asks(caller, line):
            try:
                caller.sendall(line)
                return caller.recv(4096)
            except OSError:
                return b""

        old = [calls() for _ in range(8)]
        cases.expect("callers: eight are answered", all(b"entries 5 of" in asks(it, b"status\n") for it in old))
        cases.expect("callers: one promotes it", asks(old[7], b"promote\n") == b"promoting\n")
        told = [second.ran.stdout.readline().split()[:1] for _ in ROLES]
        cases.expect("callers: it serves", told == [["listen"]] * len(ROLES), told)
        new = [calls(), calls()]
        answers = [asks(it, b"status\n").startswith(b"session 1 ") for it in (*new, *new, old[7], old[2], old[0], old[1])]
        cases.expect("callers: for two more the first two are let go", answers == [True] * 6 + [False] * 2, answers)
    second.close()
    server.close()


def unlogged(cases, program, room):
    """A log that can't be written while a board follows: that is said, once, and what was lost is counted once it can be again."""
    folder, away, port = room / "logs", room / "logs-away", free_port()
    folder.mkdir()
    log = folder / "log"
    second = Second(program, port, room / "unlogged", "--log", str(log))
    cases.expect("unlogged: nobody is there", second.says(rf"parted .*refused.* {MOMENT}"), second.said)
    cases.expect("unlogged: which is logged", second.waits_for(lambda: log.read_bytes().count(b"\n") == 1), log.read_bytes())
    folder.rename(away)
    server = Server(["unknown\n"], None, port)
    cases.expect("unlogged: then who is no board", second.says(rf"parted no board's term is sent there {MOMENT}"), second.said)
    cases.expect("unlogged: that the log can't be written is said", second.says(rf"log failed {MOMENT}"), second.said)
    away.rename(folder)
    lost = second.waits_for(lambda: b'"event":"lost","lines":1}' in log.read_bytes(), 30)
    cases.expect("unlogged: what was lost is counted", lost, log.read_bytes())
    second.close()
    cases.expect("unlogged: it is said once", sum(it.startswith("log failed ") for it in second.said) == 1, second.said)
    events = [json.loads(line)["event"] for line in log.read_text(encoding="ascii").splitlines()]
    cases.expect("unlogged: and all else is logged", events == ["parted", "lost", "close"], events)
    server.close()


def taken(cases, program, room):
    """Its file is removed, moved, replaced or cut while nothing comes: it ends, and says why."""
    for name, harm in (
        ("removed", pathlib.Path.unlink),
        ("moved", lambda it: it.rename(it.with_name("moved"))),
        ("replaced", lambda it: (it.unlink(), it.write_text(text(JOURNAL)))),
        ("cut", lambda it: os.truncate(it, 10)),
    ):
        own = room / f"taken {name}"
        own.mkdir()
        server = Server([head(JOURNAL, 0) + text(JOURNAL)])
        second = Second(program, server.port, own / "day")
        cases.expect(f"{name}: it follows", second.has(len(JOURNAL)), second.said)
        harm(own / "day")
        timer = threading.Timer(20, second.ran.kill)
        timer.start()
        status = second.ran.wait()
        timer.cancel()
        second.listening.join(5)
        cases.expect(f"{name}: it ends", status == 2, status)
        told = ("acdm: keep failed\n" + cause(f"--keep {own / 'day'}", CHANGED)).splitlines()
        cases.expect(f"{name}: and says why", second.said[-2:] == told, second.said)
        server.close()


def again(cases, program, room):
    """A follower that is killed and begun again; a chain of two; a first board that comes back."""
    kept, copy, third = room / "origin", room / "copy", room / "chain"
    first = First(program, kept)
    airport = first.connect(1)
    airport.asks(SCHEDULE)
    second = Second(program, first.watch, copy)
    second.has(1)
    second.kill()
    for _ in range(3):
        airport.asks(TICK)
    second = Second(program, first.watch, copy)
    cases.expect("it goes on behind its own", second.says(rf"following 127\.0\.0\.1:{first.watch} 1 {MOMENT}"), second.said)
    cases.expect("and has all", second.has(4))
    last = Second(program, second.watch, third)
    cases.expect("one that follows a follower has all", last.has(4), last.said)
    airport.asks(TICK)
    cases.expect("also what comes", last.has(5), last.said)
    watch = first.watch
    first.close()
    second.says(rf"parted the connection has ended {MOMENT}")
    first = subprocess.Popen(
        [str(program), "serve", "--again", "--keep", str(kept), "--watch", f"127.0.0.1:{watch}", "APT=127.0.0.1:0"],
        stdout=subprocess.PIPE,
        text=True,
    )
    port = int(first.stdout.readline().split()[3].rsplit(":", 1)[1])
    cases.expect("a first board that comes back", Partner(port).asks(TICK) == "ok 5")
    cases.expect("is followed on", second.has(6) and last.has(6), second.said[-3:])
    cases.expect("status says so", second.ask("status").startswith(f"following 127.0.0.1:{watch}\nentries 6 "))
    cases.expect("all three files are the same", kept.read_bytes() == copy.read_bytes() == third.read_bytes())
    first.kill()
    first.wait()
    second.close()
    last.close()
    audited(cases, program, "the chain", third, 6)


def schedules(count):
    """Lines of a partner, of a flight each."""
    return [SCHEDULE.replace('"flight":7', f'"flight":{number}') for number in range(1, count + 1)]


def switched(cases, program, room):
    """A partner's client that knows both boards goes on at the second one: no line is lost, and none entered twice."""
    switched_by(cases, program, room, "partner.py", [sys.executable])
    if shutil.which("node"):
        switched_by(cases, program, room, "partner.mjs", ["node"])
    else:
        print("partner.mjs is left out: there is no node")


def switched_by(cases, program, room, client, command):
    """The same of one client."""
    kept, copy = room / f"from {client}", room / f"to {client}"
    feeds, lines = [free_port(), free_port()], schedules(400)
    first = First(program, kept, "--changes", f"127.0.0.1:{feeds[0]}")
    second = Second(program, first.watch, copy, "--changes", f"127.0.0.1:{feeds[1]}", "--again")
    second.has(0)
    places = f"127.0.0.1:{first.ports[0]},127.0.0.1:{second.ports[0]}"
    asked = [*command, str(CLIENTS / client), places, "--feed", f"127.0.0.1:{feeds[0]},127.0.0.1:{feeds[1]}"]
    process = subprocess.Popen(asked, stdin=subprocess.PIPE, stdout=subprocess.PIPE, stderr=subprocess.PIPE, text=True)
    process.stdin.write("".join(f"{it}\n" for it in lines[:120]))
    process.stdin.flush()
    replies = [process.stdout.readline() for _ in range(120)]
    cases.expect(f"{client}: the second board has what was replied", second.has(120), second.entries())
    first.kill()
    second.says(rf"parted the connection has (ended|failed) {MOMENT}")
    second.promote()
    process.stdin.write("".join(f"{it}\n" for it in lines[120:]))
    process.stdin.close()
    replies += process.stdout.readlines()
    said, status = process.stderr.read(), process.wait()
    cases.expect(f"{client} goes on at the second board", (status, len(replies)) == (0, len(lines)), (status, len(replies), said[-500:]))
    second.close()
    flights = re.findall(r" schedule (\d+) ", copy.read_text())
    cases.expect(f"{client}: each line is entered once", flights == [str(number) for number in range(1, len(lines) + 1)], len(flights))


def saved(cases, program, room):
    """A board that is closed while it follows saves what it has."""
    server = Server([from_line(JOURNAL)])
    copy, end = room / "kept", room / "saved"
    second = Second(program, server.port, copy, "--save", str(end))
    second.has(5)
    cases.expect("closed", second.close() == ("closing\n", 0, []))
    cases.expect("it has not parted from anybody", [it.split(" ")[0] for it in second.said] == ["following"], second.said)
    cases.expect("what it had is saved", end.read_text() == copy.read_text() == text(JOURNAL))
    small = Second(program, server.port, room / "small", "--journal", "3")
    status, lines = small.ended()
    cases.expect("a board with no room ends", (status, lines) == (2, []), (status, lines))
    cases.expect("and says so", "acdm: the kept journal needs a larger --journal" in small.said, small.said)
    cases.expect("and has kept what it took", (room / "small").read_text() == text(JOURNAL[:3]))
    server.close()


def refused(cases, program, room):
    """Words and files that are refused before anything is followed."""
    file = str(room / "words")
    done = ran(program, ["follow", "nowhere", "--keep", file, "APT=127.0.0.1:0"])
    said = "acdm: follow address\n" + cause("nowhere", "no IP address with a port")
    cases.expect("no address", (done.returncode, done.stderr.decode()) == (2, said), done.stderr.decode())
    for given in (["127.0.0.1:1", "APT=127.0.0.1:0"], ["--keep", file, "127.0.0.1:1"], []):
        done = ran(program, ["follow", *given])
        cases.expect(f"words {given}", done.returncode == 2 and done.stderr and not done.stdout, done.stderr.decode())
    done = ran(program, ["follow", "127.0.0.1:1", "--keep", file, "XYZ=127.0.0.1:0"])
    cases.expect("no role", done.returncode == 2 and done.stderr.decode().startswith("acdm: role 1\n"), done.stderr.decode())
    (room / "faulty").write_text("0 1 29000580 APT 0 0 nothing\n")
    done = ran(program, ["follow", "127.0.0.1:1", "--keep", str(room / "faulty"), "APT=127.0.0.1:0"])
    cases.expect("a file that is no journal", (done.returncode, done.stdout.decode()[:7]) == (1, "entry 0"), done.stdout.decode())


def main():
    parser = words(__doc__)
    parser.add_argument("--kills", type=int, default=10, help="how often the first board is killed under load")
    asked = parser.parse_args()
    program, cases = asked.program, Cases()
    with tempfile.TemporaryDirectory() as made:
        room = pathlib.Path(made)
        day(cases, program, room)
        cuts(cases, program, room)
        names(cases, program, room)
        compared(cases, program, room)
        others(cases, program, room)
        ahead_of_faulty(cases, program, room)
        reasons(cases, program, room)
        changed(cases, program, room)
        unlike(cases, program, room)
        ends_following(cases, program, room)
        closed_at_once(cases, program, room)
        followed_on(cases, program, room)
        flapping(cases, program, room)
        callers(cases, program, room)
        unlogged(cases, program, room)
        paced(cases, program, room)
        silent(cases, program, room)
        taken(cases, program, room)
        again(cases, program, room)
        switched(cases, program, room)
        saved(cases, program, room)
        refused(cases, program, room)
        chance = random.Random(11)
        for turn in range(asked.kills):
            killed(cases, program, room, turn, chance)
    return cases.end()


if __name__ == "__main__":
    sys.exit(main())
