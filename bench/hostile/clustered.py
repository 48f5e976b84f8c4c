"""What cluster.py needs of two machines: the agent on each of them, called as a cluster manager does, and its board."""

import contextlib
import functools
import os
import pathlib
import pwd
import re
import signal
import socket
import subprocess
import sys
import time

from again import Partner
from cases import PLAN, SCHEDULE, TOP, ran
from follow import TICK
from link import FIRST, SECOND, WATCH, Link
from terms import term_of

AGENT = TOP / "examples" / "pacemaker" / "acdm"
OK, ERROR, BAD_HERE, UNKNOWN, MISSING, BAD, NOT_RUNNING, PROMOTED = 0, 1, 2, 3, 5, 6, 7, 8
# For how many seconds an action may take at most where a cluster manager asks for it; here it is waited for three times as
# long, so that one that is late is a failed case, and the scene goes on.
LIMIT = 60
# A connection in which nothing came for 10 seconds is made anew: so many seconds later it was.
LATEST = 20
# The bound of memory that the agent has where none is given, in KiB; and one for a build with the checks of a sanitizer,
# which takes 20 TiB of addresses.
MEMORY, WIDE = "2097152", str(32 << 30)


@functools.cache
def bears_a_bound(program):
    """Whether a program can be begun with a bound of memory: a build with the checks of a sanitizer can't."""
    command = ["sh", "-c", f'ulimit -v {MEMORY}; exec "$0" --help', str(program)]
    return subprocess.run(command, capture_output=True, check=False).returncode == 0


# Two hundred ports of this run alone, below those that the system gives to connections.
PORTS = list(range(15000 + os.getpid() % 85 * 200, 15200 + os.getpid() % 85 * 200))


def new_port():
    """A port at which nobody listens, for one board alone."""
    while True:
        port = PORTS.pop()
        try:
            socket.create_server(("127.0.0.1", port)).close()
            return port
        except OSError:
            continue


class Machine:
    """A machine of the cluster: a folder with the file of its board, and the parameters of the agent there.

    `watches` are the watch addresses of both. What is begun and connected there is made `inside` a namespace.
    """

    def __init__(self, room, name, program, watches, user=None, inside=contextlib.nullcontext):
        self.name, self.room, self.inside, self.longest = name, room / name, inside, (0, None)
        self.room.mkdir()
        self.kept, self.control, self.ports = self.room / "day.journal", new_port(), [new_port(), new_port()]
        self.words = self.room / "board.words"
        roles = " ".join(f"{role}=127.0.0.1:{port}" for role, port in zip(("APT", "NM"), self.ports))
        self.words.write_text(f"# the words of both machines\n--again --sync # partners come and go\n{roles}\n")
        self.state = self.room / "state"
        self.peer = " ".join(f"{other}={address}" for other, address in zip(watches, reversed(watches.values())))
        self.parameters = {
            "binary": str(program),
            "keep": str(self.kept),
            "control": str(self.control),
            "peer": self.peer,
            "watch": " ".join(f"{it}={address}" for it, address in watches.items()),
            "words": str(self.words),
            "user": user or pwd.getpwuid(os.geteuid()).pw_name,
            "memory": MEMORY if bears_a_bound(program) else WIDE,
            "CRM_meta_on_node": name,
        }
        commands = self.room / "commands"
        commands.mkdir()
        told = commands / "crm_attribute"
        told.write_text('#!/bin/sh\nprintf "%s\\n" "$*" >>"$TOLD"\n')
        told.chmod(0o755)
        self.told = self.room / "told"
        self.environment = {
            "PATH": f"{commands}:{pathlib.Path(sys.executable).parent}:{os.environ['PATH']}",
            "OCF_ROOT": str(self.room / "nothing"),
            "OCF_RESOURCE_INSTANCE": "board",
            "HA_RSCTMP": str(self.state),
            "TOLD": str(self.told),
        }

    def act(self, action, **other):
        """The status of an action, and what it says."""
        given = {f"OCF_RESKEY_{name}": value for name, value in (self.parameters | other).items() if value is not None}
        began = time.monotonic()
        with self.inside():
            done = subprocess.run(
                [str(AGENT), action],
                env=self.environment | given,
                capture_output=True,
                text=True,
                timeout=3 * LIMIT,
                check=False,
            )
        self.longest = max(self.longest, (time.monotonic() - began, action))
        return done.returncode, done.stdout + done.stderr

    def score(self):
        """How gladly it is promoted, as was told last."""
        told = self.told.read_text().splitlines() if self.told.exists() else ["-p board -D"]
        found = re.fullmatch(r"-p board (?:-v (\d+)|-D)", told[-1])
        return found and found[1] and int(found[1])

    def status(self):
        """What is answered at the control address; nothing where nobody is there."""
        try:
            with self.inside(), socket.create_connection(("127.0.0.1", self.control), timeout=20) as stream:
                stream.sendall(b"status\n")
                return stream.recv(65536).decode()
        except OSError:
            return ""

    def term(self):
        """The term of its board, as its status and its file have it; nothing where they differ, or nobody is there."""
        found = re.search(r"^term (\d+)$", self.status(), re.M)
        return int(found[1]) if found and int(found[1]) == term_of(self.kept) else None

    def says(self, pattern, seconds=20):
        """Whether the program comes to say such a line."""
        said = self.state / "acdm-board.said"
        return self.comes(lambda: re.search(pattern, said.read_text(), re.M), seconds)

    def comes(self, holds, seconds=10):
        end = time.monotonic() + seconds
        while not holds():
            if time.monotonic() > end:
                return False
            time.sleep(0.05)
        return True

    def has(self, count):
        return self.comes(lambda: self.kept.exists() and self.kept.read_bytes().count(b"\n") == count)

    def keeps(self, program, count):
        """Makes a file of so many entries."""
        lines = [f"1 29000580 APT {SCHEDULE}", *[f"1 29000580 APT {TICK}"] * count][:count]
        ran(program, ["run", "--keep", str(self.kept)], "".join(f"{it}\n" for it in lines).encode())

    def partner(self, session):
        with self.inside():
            return Partner(self.ports[session - 1])

    def process(self):
        return int((self.state / "acdm-board.pid").read_text())

    def about(self, name):
        """A file of /proc on its board."""
        return pathlib.Path(f"/proc/{self.process()}/{name}")

    def signal(self, number):
        os.kill(self.process(), number)

    def end(self):
        """Ends what is left of the board, whatever the agent did."""
        try:
            number = self.process()
            if str(self.kept) in pathlib.Path(f"/proc/{number}/cmdline").read_text().split("\0"):
                os.kill(number, signal.SIGKILL)
        except (OSError, ValueError):
            pass


def loopback():
    """The address of the loopback interface by IPv6, as a command line has it, where that is here; else by IPv4."""
    try:
        socket.create_server(("::1", 0), family=socket.AF_INET6).close()
        return "[::1]"
    except OSError:
        return "127.0.0.1"


@contextlib.contextmanager
def two_boards(room, program, name, host="127.0.0.1", **how):
    """Two machines of a folder, each with the other one as its peer; at the end nothing of their boards is left."""
    place = room / name
    place.mkdir()
    watches = {it: f"{host}:{new_port()}" for it in ("one", "two")}
    machines = [Machine(place, it, program, watches, **how) for it in watches]
    try:
        yield machines
    finally:
        for machine in machines:
            machine.end()


@contextlib.contextmanager
def two_machines(cases, program, room, name):
    """The same on two namespaces, and the link between them. No action may have taken longer than half of LIMIT."""
    place = room / name
    place.mkdir()
    link, machines = Link(program, place), []
    try:
        link.join()
        watches = {"one": f"{FIRST}:{WATCH}", "two": f"{SECOND}:{WATCH}"}
        places = zip(watches, (link.near, link.far))
        machines += [Machine(place, it, program, watches, inside=there.inside) for it, there in places]
        yield link, *machines
        for machine in machines:
            took = machine.longest
            cases.expect(f"{name}: {machine.name}: each action ends in time", took[0] < LIMIT / 2, took)
    finally:
        for machine in machines:
            machine.end()
        link.end()


def follows(machine):
    peers = dict(it.split("=") for it in machine.peer.split())
    told = f"following {peers[machine.name]}"
    return machine.status().startswith((f"{told}\n", f"{told} parted\n"))


def gets(machine, score):
    """Whether monitors find a board that follows, and come to tell how gladly it is promoted."""
    return machine.comes(lambda: machine.act("monitor")[0] == OK and machine.score() == score)


def begun(cases, one, two):
    """Both are begun, the first is promoted, and has two entries, as the second one then. Answers the term of both."""
    cases.expect("both are begun", [it.act("start")[0] for it in (one, two)] == [OK, OK])
    cases.expect("and have all", gets(one, 100) and gets(two, 100), (one.status(), two.status()))
    cases.expect("the first is promoted", one.act("promote")[0] == OK)
    replies = [one.partner(1).asks(SCHEDULE), one.partner(2).asks(PLAN)]
    cases.expect("partners are answered", replies == ["ok 0", "ok 1"], replies)
    cases.expect("the second has that", two.has(2) and gets(two, 100), two.status())
    term = is_later(cases, "begun", one, 1)
    is_same(cases, "begun", two, term)
    return term


def ends(cases, name, done, status, told=""):
    """How an action ends, and what it says."""
    cases.expect(name, done[0] == status and told in done[1], done)


def are(cases, name, one, two, wanted):
    """What monitors say of both boards."""
    seen = one.act("monitor")[0], two.act("monitor")[0]
    cases.expect(f"{name}: what monitors say", seen == wanted, (seen, one.status(), two.status()))


def is_same(cases, name, machine, term):
    """Whether a board that follows comes to this term, which it is told at the next connection to the other one."""
    same = machine.comes(lambda: machine.term() == term, LATEST)
    cases.expect(f"{name}: {machine.name}: in the same term", same, (machine.term(), term))


def is_later(cases, name, machine, term):
    """Whether the board of a machine is in a later term than this one. Answers it."""
    later = machine.term()
    cases.expect(f"{name}: in a later term", later and term and later > term, (later, term))
    return later
