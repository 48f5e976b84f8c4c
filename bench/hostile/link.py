#!/usr/bin/env python3
"""Tries `acdm follow` of the built program on two machines: namespaces of the network, with a link between them.

    python3 bench/hostile/link.py [--program PATH] [--times]

The link is cut both ways, for a while and until the first board lets the second one go. It is cut in one way only, in
silence. It is slow, and narrow. The second board is promoted while it is cut. The first machine vanishes and comes
back. Replies wait for the second board over a link that is cut, for the entries of a busy hour too, and over a slow one.
The second file is held against the first one, byte by byte. Where no such machines can be made this is left out, with a
line. The last line is `N cases, M failed`; status 1 where one failed.
"""

import contextlib
import ctypes
import itertools
import os
import pathlib
import queue
import re
import signal
import socket
import subprocess
import sys
import tempfile
import threading
import time

from again import Board, free_port
from cases import Cases, words
from follow import MOMENT, ROLES, First, Second, audited, schedules

FIRST, SECOND, NOBODY = "10.0.0.1", "10.0.0.2", "02:00:00:00:00:99"
WATCH, DEVICE = 4100, "cable"
NEW_NETWORK = 0x40000000
SYSTEM = ctypes.CDLL(None, use_errno=True)
NUMBERS = itertools.count()

# So many entries are there before a link is cut; so many are made meanwhile, or where that is not the matter, some.
BEFORE, MANY, SOME = 100, 3_000, 1_000
# A day of 69,883 lines has so many in a busy hour.
HOUR = 5_000
# Up to this number go the flights of the partners of a board that was promoted.
OTHERS = 10_000
SHOW, SHOW_FIRST = [f'{{"cmd":"show","flight":{it}}}' for it in (OTHERS, 1)]
# For so many seconds a link is cut. Where nothing comes for 10 the second board connects anew.
CUT, SILENT = 7, 10
# The first board lets a display go that takes nothing for 30 seconds. For that a link is cut for so many.
LONG_CUT = 34
# What is not answered the system sends again, after 0.2 seconds and then after twice as long each time. So a link that
# was cut is used again once it was whole for as long, at the latest; and so many seconds later all has come.
THEN = 10
# So many seconds late comes each byte over a slow link.
LATE = 0.2
# So many bytes come in a second over a narrow link, and so many at once.
NARROW, AT_ONCE = 8_000, 4_000


class Unmade(Exception):
    """A machine or a link can't be made here."""


def make(*command):
    """Runs a command that makes or changes something of the network."""
    try:
        done = subprocess.run(command, capture_output=True, text=True, check=False)
    except FileNotFoundError:
        raise Unmade(f"there is no {command[0]}") from None
    if done.returncode:
        raise Unmade(f"{' '.join(command[:3])}: {(done.stderr.splitlines() or ['failed'])[0]}")


def enter(network):
    """Has this thread go on in a namespace of the network."""
    if SYSTEM.setns(network.fileno(), NEW_NETWORK):
        raise Unmade(f"setns: {os.strerror(ctypes.get_errno())}")


class Machine:
    """A machine: a namespace of the network, in which sockets and programs are made."""

    def __init__(self, address):
        self.address = address
        self.name = f"acdm-{os.getpid()}-{next(NUMBERS)}"
        make("ip", "netns", "add", self.name)

    def ip(self, *arguments):
        make("ip", "-n", self.name, *arguments)

    def connect(self):
        """Sets its end of the link up."""
        self.ip("link", "set", "lo", "up")
        self.ip("address", "add", f"{self.address}/24", "dev", DEVICE)
        self.ip("link", "set", DEVICE, "up")

    def lose(self, address):
        """What it sends to this address is lost in silence."""
        self.ip("neighbour", "replace", address, "lladdr", NOBODY, "dev", DEVICE, "nud", "permanent")

    def find(self, address):
        """What it sends to this address comes there again."""
        self.ip("neighbour", "delete", address, "dev", DEVICE)

    @contextlib.contextmanager
    def inside(self):
        """What this thread makes meanwhile, sockets and programs, is on this machine."""
        with open("/proc/thread-self/ns/net", "rb") as own, open(f"/var/run/netns/{self.name}", "rb") as network:
            enter(network)
            try:
                yield
            finally:
                enter(own)

    def end(self):
        subprocess.run(["ip", "netns", "delete", self.name], capture_output=True, check=False)


class OnMachine:
    """A board on a machine, which is spoken to from there."""

    def ask(self, line):
        with self.machine.inside():
            return super().ask(line)

    def connect(self, session, small=False):
        with self.machine.inside():
            return super().connect(session, small)


class FirstThere(OnMachine, First):
    def __init__(self, machine, program, kept, given):
        self.machine = machine
        arguments = ["--again", "--control", "PORT", "--keep", str(kept), "--watch", f"{machine.address}:{WATCH}", *given]
        with machine.inside():
            Board.__init__(self, [program], arguments, ROLES)


class SecondThere(OnMachine, Second):
    def __init__(self, machine, program, kept, followed):
        self.machine, self.kept, self.said = machine, kept, []
        with machine.inside():
            self.port, self.watch, self.ports = free_port(), free_port(), [free_port() for _ in ROLES]
            command = [str(program), "follow", followed, "--keep", str(kept), "--control", str(self.port), "--again"]
            command += ["--watch", f"{machine.address}:{self.watch}"]
            command += [f"{role}=127.0.0.1:{port}" for role, port in zip(ROLES, self.ports)]
            self.ran = subprocess.Popen(command, stdout=subprocess.PIPE, stderr=subprocess.PIPE, text=True)
        self.listening = threading.Thread(target=self.listen, daemon=True)
        self.listening.start()
        self.waits_for(lambda: self.is_open() or self.ran.poll() is not None)

    def how_often(self, pattern):
        """How often it said such a line."""
        return sum(re.fullmatch(pattern, it) is not None for it in self.said)


class Link:
    """Two machines with a link between them, and their boards; all of it is gone at the end."""

    def __init__(self, program, room, given=()):
        self.program, self.kept, self.copy, self.given = program, room / "first", room / "second", given
        self.lines, self.count = iter(schedules(OTHERS)), 0
        self.at_end, self.is_over, self.faults = contextlib.ExitStack(), threading.Event(), []
        self.near = self.far = self.first = self.second = self.airport = None

    def begin(self):
        """There are machines and a link; the first board serves, and has some entries, where it waits for no other board."""
        self.join()
        self.serve()
        if not self.given:
            self.enter(BEFORE)

    def join(self):
        """Makes the machines and the link."""
        self.near, self.far = self.machine(FIRST), self.machine(SECOND)
        one, other = [["name", DEVICE, "netns", it.name] for it in (self.near, self.far)]
        make("ip", "link", "add", *one, "type", "veth", "peer", *other)
        self.near.connect()
        self.far.connect()

    def end(self):
        self.at_end.close()

    def machine(self, address):
        machine = Machine(address)
        self.at_end.callback(machine.end)
        return machine

    def serve(self):
        """The first board begins, or goes on in its file, and its partner connects."""
        self.first = FirstThere(self.near, self.program, self.kept, self.given)
        self.at_end.callback(self.first.kill)
        self.airport = self.first.connect(1)

    def follower(self, machine, kept, followed):
        follower = SecondThere(machine, self.program, kept, followed)
        self.at_end.callback(follower.kill)
        return follower

    def follow(self, port=WATCH):
        """The second board begins."""
        self.second = self.follower(self.far, self.copy, f"{FIRST}:{port}")
        looking = threading.Thread(target=self.look, daemon=True)
        looking.start()
        self.at_end.callback(looking.join)
        self.at_end.callback(self.is_over.set)

    def look(self):
        """Looks again and again whether the second file is a beginning of the first one."""
        while not self.faults and not self.is_over.wait(0.1):
            copy = self.copy.read_bytes()
            if not self.kept.read_bytes().startswith(copy):
                self.faults.append(copy[-200:])

    def enter(self, count, lines=None):
        """So many lines of the partner, each of which becomes an entry. Answers the longest time until one was replied."""
        longest = 0
        for line in itertools.islice(lines or self.lines, count):
            asked = time.monotonic()
            reply = self.airport.asks(line)
            longest = max(longest, time.monotonic() - asked)
            if not re.match(rf"(ok|rec) {self.count}(?: |$)", reply):
                raise ValueError(f"entry {self.count} was replied as {reply}")
            self.count += 1
        return longest

    def enter_surely(self, count):
        """The same, where each reply is to have its entry in the second file by then: those that have none."""
        lost = []
        for _ in range(count):
            self.enter(1)
            if self.copy.read_bytes().count(b"\n") < self.count:
                lost.append(self.count - 1)
        return lost

    def set(self, state):
        """Both ends of the link are set up, or down."""
        for machine in (self.near, self.far):
            machine.ip("link", "set", DEVICE, state)

    def vanish(self):
        """The first machine is gone, with all that it knew of connections; what it says at its end reaches nobody."""
        self.near.ip("link", "set", DEVICE, "down")
        self.first.kill()
        gone, self.near = self.near, self.machine(FIRST)
        gone.ip("link", "set", DEVICE, "netns", self.near.name)
        gone.end()

    def come_back(self):
        """The first machine is there again, at the same address, and its board goes on in its file."""
        self.near.connect()
        self.serve()


class Tried(Cases):
    """The cases of one link, each by its name."""

    def __init__(self, name):
        super().__init__()
        self.name, self.times = name, []

    def expect(self, name, holds, seen=""):
        super().expect(f"{self.name}: {name}", holds, seen)

    def expect_all(self, link, name, seconds, since=None):
        """All entries of the first board come to the second one within so many seconds, each once. Answers when."""
        began, second = time.monotonic(), link.second
        came = second.waits_for(lambda: link.copy.stat().st_size == link.kept.stat().st_size, seconds)
        moment = time.monotonic()
        self.times.append(f"{self.name}: {name}: {moment - (since or began):.1f} s")
        self.expect(f"{name}: all comes", came, (second.entries(), link.count, second.said[-3:]))
        self.expect(f"{name}: both files are the same", link.copy.read_bytes() == link.kept.read_bytes())
        self.expect(f"{name}: it has always been a beginning", not link.faults, link.faults)
        counted = second.waits_for(lambda: second.entries() == link.count)
        self.expect(f"{name}: and is counted", counted, second.ask("status"))
        audited(self, link.program, name, link.copy, link.count)
        return moment


def cut_for(cases, link, seconds):
    """The link is cut both ways for so many seconds, and a partner goes on at the first board meanwhile."""
    link.follow()
    cases.expect_all(link, "before the cut", THEN)
    began, had = time.monotonic(), link.copy.read_bytes()
    link.set("down")
    link.enter(MANY)
    time.sleep(seconds)
    cases.expect("nothing comes over a link that is cut", link.copy.read_bytes() == had)
    link.set("up")
    mended = time.monotonic()
    cases.expect_all(link, "after the cut", mended - began + THEN, mended)
    link.enter(BEFORE)
    cases.expect_all(link, "further on", THEN)


def cut_both_ways(cases, link):
    cut_for(cases, link, CUT)


def let_go(cases, link):
    """The first board lets the second one go meanwhile, which connects again, and goes on behind what it has."""
    cut_for(cases, link, LONG_CUT)
    again = link.second.how_often(rf"following {FIRST}:{WATCH} [1-9]\d* {MOMENT}")
    cases.expect("it has connected again", again == 1 and link.second.how_often("parted .*") == 1, link.second.said)


def silenced(cases, link, machine, address):
    """What one machine sends the other is lost in silence, as the second board begins, and then once more."""
    machine.lose(address)
    link.follow()
    cases.expect("none is reached where one way is cut", link.second.says(rf"parted .+ {MOMENT}"), link.second.said)
    machine.find(address)
    cases.expect_all(link, "at first", THEN)
    began = time.monotonic()
    machine.lose(address)
    link.enter(SOME)
    time.sleep(CUT)
    copy = link.copy.read_bytes()
    cases.expect("not all comes where one way is cut", len(copy) < link.kept.stat().st_size)
    cases.expect("and none but whole lines", copy.endswith(b"\n"), copy[-200:])
    machine.find(address)
    mended = time.monotonic()
    cases.expect_all(link, "after the cut", mended - began + THEN, mended)


def first_unheard(cases, link):
    silenced(cases, link, link.near, SECOND)


def second_unheard(cases, link):
    silenced(cases, link, link.far, FIRST)


class Late:
    """A port of a machine, from which connections go on to another one there: each byte comes late, either way."""

    def __init__(self, machine, port):
        self.machine, self.port_behind = machine, port
        with machine.inside():
            self.listener = socket.create_server((machine.address, 0))
        self.port = self.listener.getsockname()[1]
        threading.Thread(target=self.serve, daemon=True).start()

    def serve(self):
        with contextlib.suppress(OSError):
            while True:
                stream, _ = self.listener.accept()
                threading.Thread(target=self.join, args=(stream,), daemon=True).start()

    def join(self, stream):
        """Connects further, which comes late as well."""
        asked = self.heard(stream)
        time.sleep(LATE)
        with self.machine.inside():
            further = socket.create_connection((self.machine.address, self.port_behind))
        threading.Thread(target=self.tell, args=(stream, self.heard(further)), daemon=True).start()
        self.tell(further, asked)

    def heard(self, stream):
        """The parts that a stream gives, as they come, with the moment at which each is due on the other side."""
        parts = queue.Queue()
        threading.Thread(target=self.hear, args=(stream, parts), daemon=True).start()
        return parts

    def hear(self, stream, parts):
        part = b"more"
        while part:
            try:
                part = stream.recv(65_536)
            except OSError:
                part = b""
            parts.put((time.monotonic() + LATE, part))

    def tell(self, stream, parts):
        with contextlib.suppress(OSError):
            while True:
                due, part = parts.get()
                time.sleep(max(0, due - time.monotonic()))
                if not part:
                    stream.shutdown(socket.SHUT_WR)
                    return
                stream.sendall(part)


def slow(cases, link):
    """Each byte comes late, either way."""
    late = Late(link.near, WATCH)
    link.at_end.callback(late.listener.close)
    link.follow(late.port)
    cases.expect_all(link, "at first", THEN)
    for _ in range(10):
        link.enter(SOME // 10)
        time.sleep(LATE)
    cases.expect_all(link, "further on", THEN)
    began = time.monotonic()
    link.enter(1)
    came = cases.expect_all(link, "in the end", THEN, began)
    cases.expect("none comes before it can", came - began >= LATE, came - began)


def narrow(cases, link):
    """Few bytes come in a second, either way."""
    bound = ["tbf", "rate", f"{8 * NARROW}bit", "burst", str(AT_ONCE), "latency", "500ms"]
    try:
        for machine in (link.near, link.far):
            make("tc", "-n", machine.name, "qdisc", "add", "dev", DEVICE, "root", *bound)
    except Unmade as error:
        print(f"left out: a narrow link: {error}", flush=True)
        return
    link.follow()
    cases.expect_all(link, "at first", THEN)
    began, had = time.monotonic(), link.kept.stat().st_size
    link.enter(SOME)
    least = (link.kept.stat().st_size - had - AT_ONCE) / NARROW
    came = cases.expect_all(link, "in the end", 3 * least + THEN, began)
    cases.expect("not all comes before it can", came - began >= least, (came - began, least))


def promoted(cases, link):
    """The second board is promoted while the link is cut: there are two boards then, and neither touches the other."""
    link.follow()
    cases.expect_all(link, "before the cut", THEN)
    began = time.monotonic()
    link.set("down")
    link.enter(SOME)
    link.is_over.set()
    asked = time.monotonic()
    answer, told = link.second.promote()
    cases.expect("it is promoted", answer == "promoting\n" and told, answer)
    cases.expect("at once", time.monotonic() - asked < 3, time.monotonic() - asked)
    airport, network = link.second.connect(1), link.second.connect(2)
    replies = [airport.asks(it) for it in schedules(OTHERS)[-BEFORE:]]
    wanted = [f"ok {it}" for it in range(BEFORE, 2 * BEFORE)]
    cases.expect("it goes on from what it has", replies == wanted, replies[-1])
    kept, copy = link.kept.read_bytes(), link.copy.read_bytes()
    time.sleep(CUT)
    link.set("up")
    time.sleep(time.monotonic() - began + 1)
    cases.expect("nothing comes to the first one", link.kept.read_bytes() == kept)
    cases.expect("nothing comes to the second one", link.copy.read_bytes() == copy)
    link.enter(BEFORE)
    reply = network.asks(SHOW)
    cases.expect("the second replies on", reply.startswith(f"rec {2 * BEFORE} "), reply)
    cases.expect("behind its own", link.copy.read_bytes().startswith(copy) and link.second.entries() == 2 * BEFORE + 1)
    cases.expect("and so does the first", link.kept.read_bytes().startswith(kept))
    flights = [re.findall(r" schedule (\d+) ", it.read_text()) for it in (link.kept, link.copy)]
    own = [range(1, link.count + 1), [*range(1, BEFORE + 1), *range(OTHERS - BEFORE + 1, OTHERS + 1)]]
    cases.expect("each has the lines of its own partners once", flights == [[str(it) for it in row] for row in own])
    audited(cases, link.program, "the first file", link.kept, link.count)
    audited(cases, link.program, "the second file", link.copy, 2 * BEFORE + 1)
    apart(cases, link)


def apart(cases, link):
    """The second board is followed with the first one's file: that is refused, and the file stays as it was.

    Both have the same first entry. It is refused where more entries are there, and where the last one is another.
    """
    lines = link.kept.read_bytes().splitlines(True)
    for name, count, why in (
        ("with more", link.count, f"there are only {2 * BEFORE + 1} entries"),
        ("with as many", 2 * BEFORE, f"another journal is sent there: entry {2 * BEFORE - 1} is another one"),
        ("with fewer", BEFORE + 10, f"another journal is sent there: entry {BEFORE + 9} is another one"),
    ):
        kept = link.kept.with_name(f"third{count}")
        kept.write_bytes(b"".join(lines[:count]))
        third = link.follower(link.near, kept, f"{SECOND}:{link.second.watch}")
        cases.expect(f"{name}: it is told", third.says(rf"parted {why} {MOMENT}"), third.said)
        time.sleep(2)
        cases.expect(f"{name}: once", third.how_often(r"parted .*") == 1, third.said)
        same = kept.read_bytes() == b"".join(lines[:count]) and third.entries() == count
        cases.expect(f"{name}: nothing is kept of it", same, third.entries())
        cases.expect(f"{name}: it closes", third.close() == ("closing\n", 0, []))


def vanished(cases, link):
    """The first machine vanishes and comes back, before the second board connects anew, and then behind that.

    Nothing tells the second board at once. Where nothing came for 10 seconds it connects anew: to the machine that is
    back, of which nothing is printed, or to none.
    """
    link.follow()
    cases.expect_all(link, "at first", THEN)
    for away in (1, CUT, SILENT + 6):
        link.vanish()
        time.sleep(away)
        link.come_back()
        back = time.monotonic()
        link.enter(BEFORE)
        cases.expect_all(link, f"away for {away} s", SILENT + THEN, back)
        told = [link.second.how_often(it) for it in ("parted .*", rf"following {FIRST}:{WATCH} [1-9]\d* {MOMENT}")]
        wanted = [[1, 1]] if away > SILENT else [[0, 0], [1, 1]]
        cases.expect(f"away for {away} s: what is printed", told in wanted, link.second.said)


def given_up(cases, link):
    """The first machine stays away: the second board says so, and says it once."""
    link.follow()
    cases.expect_all(link, "at first", THEN)
    link.vanish()
    began = time.monotonic()
    gone = link.second.waits_for(lambda: link.second.how_often("parted .*") > 0, 2 * SILENT)
    cases.times.append(f"{cases.name}: told: {time.monotonic() - began:.1f} s")
    cases.expect("it says that it is gone", gone, link.second.said)
    time.sleep(SILENT)
    once = link.second.how_often("parted .*") == 1 and link.second.how_often("following .*") == 1
    cases.expect("and says it once", once, link.second.said)
    link.come_back()
    back = time.monotonic()
    link.enter(BEFORE)
    cases.expect_all(link, "it is back", THEN, back)


TRIES = (cut_both_ways, let_go, first_unheard, second_unheard, slow, narrow, promoted, vanished, given_up)


def strict_over_a_cut(cases, link):
    """No reply comes while the link is cut, where the board is strict, and it comes once the link is whole."""
    link.follow()
    lost = link.enter_surely(BEFORE)
    cases.expect("each reply has its entry there", not lost, lost)
    link.set("down")
    link.airport.send(next(link.lines) + "\n")
    link.airport.socket.settimeout(CUT)
    try:
        reply = link.airport.socket.recv(1)
    except TimeoutError:
        reply = None
    cases.expect("no reply comes over a link that is cut", reply is None, reply)
    cases.expect("it says that", link.first.waits_for(lambda: any(it.startswith("late ") for it in link.first.said)), link.first.said)
    link.airport.socket.settimeout(4 * THEN)
    link.set("up")
    reply = link.airport.replies.readline()
    cases.expect("it comes over one that is whole", reply == f"ok {link.count}\n", reply)
    link.count += 1
    lost = link.enter_surely(BEFORE)
    cases.expect("and each one after it", not lost, lost)
    cases.expect_all(link, "further on", THEN)


def turns(board):
    """What a board said of others: that they are late, one of which may still be connected, or how many are back."""
    return ["late" if it.startswith("late ") else it.rsplit(" ", 1)[0] for it in board.said if it.startswith(("late ", "back "))]


def alone_over_a_cut(cases, link):
    """One reply waits where the link is cut, those of a busy hour go alone; the second board has all once it is whole."""
    link.follow()
    lost = link.enter_surely(BEFORE)
    cases.expect("each reply has its entry there", not lost, lost)
    link.set("down")
    took = link.enter(1)
    cases.expect("the first reply waits, and comes", 4.5 <= took <= 12, took)
    had, began = link.copy.read_bytes(), time.monotonic()
    # (a board has room for fewer flights)
    longest = link.enter(HOUR, itertools.chain.from_iterable(zip(link.lines, itertools.repeat(SHOW_FIRST))))
    cases.expect("none of the others waits", longest < 4, longest)
    cases.expect("and none of them comes there", link.copy.read_bytes() == had)
    link.set("up")
    mended = time.monotonic()
    cases.expect_all(link, "after the cut", mended - began + 3 * THEN, mended)
    back = link.first.waits_for(lambda: turns(link.first) == ["late", "back 1 of 1"], 3 * THEN)
    cases.expect("it says that it was late, and is back", back, link.first.said)
    lost = link.enter_surely(BEFORE)
    cases.expect("and each reply has its entry again", not lost, lost)
    cases.expect("nobody is late then", turns(link.first) == ["late", "back 1 of 1"], link.first.said)
    cases.expect_all(link, "further on", THEN)


def sure_over_a_slow_one(cases, link):
    """Each byte comes late: a reply waits for its entry and for the word, and has its entry there when it comes."""
    late = Late(link.near, WATCH)
    link.at_end.callback(late.listener.close)
    link.follow(late.port)
    began = time.monotonic()
    lost = link.enter_surely(10)
    took = (time.monotonic() - began) / 10
    cases.expect("each reply has its entry there", not lost, lost)
    cases.expect("and waits for the way there and back", took >= 2 * LATE, took)
    cases.expect("but for not much more", took < 4 * LATE, took)
    cases.expect_all(link, "in the end", THEN)


# Whose first board waits for the second one, and by which words.
SURE = {
    strict_over_a_cut: ["--second", "1", "--strict"],
    alone_over_a_cut: ["--second", "1"],
    sure_over_a_slow_one: ["--second", "1", "--strict"],
}


def tried(cases, link, try_it):
    """One try, to its end or to its failure."""
    is_whole = False
    try:
        link.begin()
        try_it(cases, link)
        is_whole = True
    finally:
        link.end()
        cases.expect("to the end", is_whole)


def reason_against():
    """Why there can be no such machines here, or nothing."""
    link = Link(None, pathlib.Path())
    try:
        link.join()
        with link.near.inside():
            return ""
    except (Unmade, OSError) as error:
        return str(error)
    finally:
        link.end()


def main():
    parser = words(__doc__)
    parser.add_argument("--times", action="store_true", help="print how long each took until all had come")
    asked = parser.parse_args()
    total, running = Cases(), []
    why = reason_against()
    if why:
        print(f"left out: all that takes two machines: {why}")
        return total.end()
    signal.signal(signal.SIGTERM, lambda *_: sys.exit(1))
    with tempfile.TemporaryDirectory() as made:
        try:
            for try_it in (*TRIES, *SURE):
                room = pathlib.Path(made) / try_it.__name__
                room.mkdir()
                cases, link = Tried(try_it.__name__), Link(asked.program.resolve(), room, SURE.get(try_it, ()))
                thread = threading.Thread(target=tried, args=(cases, link, try_it), daemon=True)
                running.append((cases, link, thread))
                thread.start()
            for cases, _, thread in running:
                thread.join()
                total.count, total.failed = total.count + cases.count, total.failed + cases.failed
        finally:
            for _, link, _ in running:
                link.end()
    if asked.times:
        print(*[it for cases, _, _ in running for it in cases.times], sep="\n")
    return total.end()


if __name__ == "__main__":
    sys.exit(main())
