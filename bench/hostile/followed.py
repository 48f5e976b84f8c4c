"""A first board, boards that follow it, and partners of both, for scripts that hold their files and replies together."""

import itertools
import random
import re
import socket
import subprocess
import threading
import time

from again import Board
from cases import ALERTS, PLAN, SCHEDULE, TARGET
from follow import MOMENT, TICK, First, Second

SHOW = '{"cmd":"show","flight":7}'
ROLES = ["APT", "NM", "ATC", "AO", "GH", "DIC", "AO", "GH"]
FEW = ROLES[:2]
# What a partner of each role sends, again and again. Some of it is refused, and that makes an entry too.
LINES = {"APT": [SCHEDULE, TICK, ALERTS, SHOW], "NM": [PLAN, SHOW, ALERTS]}
OTHERS = [TARGET, ALERTS, "{}", SHOW]

# So many seconds are waited at most for what is to come.
MOST = 60


def free_ports(count):
    """So many ports at which nobody listens, none of those that the system gives to connections."""
    found = set()
    while len(found) < count:
        port = random.randrange(10_000, 32_000)
        try:
            socket.create_server(("127.0.0.1", port)).close()
            found.add(port)
        except OSError:
            pass
    return list(found)


class Caller:
    """A connection on which lines are sent, and are read as they come, each within some seconds."""

    def __init__(self, port, small=False):
        self.stream = socket.socket()
        if small:
            self.stream.setsockopt(socket.SOL_SOCKET, socket.SO_RCVBUF, 4096)
            self.stream.setsockopt(socket.IPPROTO_TCP, socket.TCP_MAXSEG, 536)
        self.stream.settimeout(MOST)
        self.stream.connect(("127.0.0.1", port))
        self.stream.setsockopt(socket.IPPROTO_TCP, socket.TCP_NODELAY, 1)
        self.held, self.is_ended = b"", False

    def send(self, given):
        self.stream.sendall(given.encode() if isinstance(given, str) else given)

    def hears(self, seconds):
        """Whether more has come by then."""
        self.stream.settimeout(max(0.001, seconds))
        try:
            part = self.stream.recv(65536)
        except TimeoutError:
            return False
        except OSError:
            part = b""
        self.held, self.is_ended = self.held + part, not part
        return bool(part)

    def line(self, seconds=MOST):
        """The next line; nothing where none comes in this time."""
        end = time.monotonic() + seconds
        while b"\n" not in self.held:
            if self.is_ended or not self.hears(end - time.monotonic()):
                return None
        line, _, self.held = self.held.partition(b"\n")
        return line.decode()

    def asks(self, line, seconds=MOST):
        """The reply to a line; nothing where the connection has ended, or none comes in this time."""
        try:
            self.send(f"{line}\n")
        except OSError:
            return None
        return self.line(seconds)

    def is_silent(self, seconds):
        """Whether nothing comes for so long, and the connection stays."""
        return not self.held and not self.hears(seconds) and not self.is_ended

    def rest(self, seconds=MOST):
        """All that comes before the connection ends; nothing where it does not end in this time."""
        end = time.monotonic() + seconds
        while not self.is_ended:
            if not self.hears(end - time.monotonic()) and not self.is_ended:
                return None
        return self.held

    def gets(self, wanted, seconds=MOST):
        """Whether this comes, and nothing else."""
        end = time.monotonic() + seconds
        while len(self.held) < len(wanted) and not self.is_ended and time.monotonic() < end:
            self.hears(end - time.monotonic())
        return self.held == wanted

    def is_cut(self):
        """Whether the other side has thrown away what was sent last, since it has closed its socket."""
        return self.stream.getsockopt(socket.SOL_SOCKET, socket.SO_ERROR) != 0

    def close(self):
        self.stream.close()


class Waited:
    """A board that is waited for on a busy machine."""

    def waits_for(self, holds, seconds=MOST):
        return super().waits_for(holds, seconds)

    def caller(self, session=1):
        return Caller(self.ports[session - 1])

    def says(self, pattern):
        return self.waits_for(lambda: any(re.fullmatch(f"{pattern} {MOMENT}", it) for it in self.said))

    def turns(self):
        """What it said of boards that are late, and back, without the moments."""
        return [it.rsplit(" ", 1)[0] for it in self.said if it.startswith(("late ", "back "))]

    def followers(self):
        """The line of `status` on the boards that follow."""
        found = re.search(r"^followers .*$", self.ask("status"), re.M)
        return found and found[0]


class FirstBoard(Waited, First):
    """A first board; its displays are served at a port of its own, or at this one."""

    def __init__(self, program, kept, arguments, roles, watch):
        control, own = free_ports(2)
        self.kept, self.watch = kept, watch or own
        arguments = ["--again", "--control", str(control), "--keep", str(kept), "--watch", f"127.0.0.1:{self.watch}", *arguments]
        Board.__init__(self, [program], arguments, roles)
        self.port = control


class SecondBoard(Waited, Second):
    """A board that follows another one, and may be followed itself."""

    def __init__(self, program, port, kept, arguments, roles, **how):
        self.port, self.watch, *self.ports = free_ports(2 + len(roles))
        self.kept, self.said = kept, []
        command = [str(program), "follow", f"127.0.0.1:{port}", "--keep", str(kept), "--control", str(self.port), "--again"]
        command += ["--watch", f"127.0.0.1:{self.watch}", *arguments]
        command += [f"{role}=127.0.0.1:{port}" for role, port in zip(roles, self.ports)]
        self.ran = subprocess.Popen(command, stdout=subprocess.PIPE, stderr=subprocess.PIPE, text=True, **how)
        self.listening = threading.Thread(target=self.listen, daemon=True)
        self.listening.start()
        self.waits_for(lambda: self.ran.poll() is not None or self.is_open())
        if self.ran.poll() is not None:
            raise RuntimeError(f"it did not begin: {self.said}")

    def promote(self):
        """Whether it was asked to serve, and listens for partners."""
        answer = self.ask("promote")
        told = [self.ran.stdout.readline().split()[:2] for _ in self.ports]
        return answer == "promoting\n" and told == [["listen", str(number)] for number in range(1, len(told) + 1)]


class Boards:
    """The boards of a case, with their files in a folder; all of them end with the case."""

    def __init__(self, program, folder):
        self.program, self.folder, self.begun = program, folder, []

    def first(self, name, *arguments, roles=(), watch=None):
        self.begun.append(FirstBoard(self.program, self.folder / name, arguments, roles or FEW, watch))
        return self.begun[-1]

    def second(self, board, name, *arguments, roles=(), port=None, **how):
        """One that follows this board, at its own port or at one in front of it."""
        self.begun.append(SecondBoard(self.program, port or board.watch, self.folder / name, arguments, roles or FEW, **how))
        return self.begun[-1]

    def end(self):
        for it in self.begun:
            it.kill()


def number_of(reply):
    """The number of the entry that a reply tells of, if it tells of one."""
    found = re.match(r"(?:ok|no|rec|alerts) (\d+)(?: |$)", reply)
    return int(found[1]) if found else None


def ends_of(text):
    """The lines of a journal, and behind how many bytes each of them ends."""
    lines = text.splitlines(True)
    return lines, list(itertools.accumulate(len(it) for it in lines))


def missing(told, file):
    """The replies whose entries do not stand in a file, or did not when that was as long as it is said with the reply."""
    lines, ends = ends_of(file.read_bytes())
    found = []
    for session, reply, length in told:
        number = number_of(reply)
        if number is None:
            continue
        is_there = number < len(lines) and lines[number].startswith(b"%d %d " % (number, session)) and lines[number].endswith(b"\n")
        if not is_there or (length is not None and ends[number] > length):
            found.append((session, reply, length))
    return found


def work(caller, session, file, told, is_over):
    """A partner that sends lines, some of them five at once, and notes each reply that it reads, and how long a file was then."""
    lines = itertools.cycle(LINES.get(ROLES[session - 1], OTHERS))
    at_once = 5 if session % 3 == 0 else 1
    while not is_over.is_set():
        try:
            caller.send("".join(f"{it}\n" for it in itertools.islice(lines, at_once)))
        except OSError:
            return
        for _ in range(at_once):
            reply = caller.line()
            if reply is None:
                return
            told.append((session, reply, file.stat().st_size if file else None))


class Load:
    """Eight partners of a board that send lines until it is gone, or until this ends."""

    def __init__(self, board, file=None):
        self.told, self.is_over = [], threading.Event()
        self.callers = [board.caller(session) for session in range(1, len(ROLES) + 1)]
        self.threads = [
            threading.Thread(target=work, args=(caller, session, file, self.told, self.is_over), daemon=True)
            for session, caller in enumerate(self.callers, 1)
        ]
        for it in self.threads:
            it.start()

    def end(self):
        """Whether all partners have ended."""
        self.is_over.set()
        for it in self.threads:
            it.join(MOST)
        for it in self.callers:
            it.close()
        return not any(it.is_alive() for it in self.threads)
