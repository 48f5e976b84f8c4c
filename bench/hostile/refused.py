#!/usr/bin/env python3
"""Runs the built `acdm` once for each request for memory, which is refused, and says where more than that line was lost.

    python3 bench/hostile/refused.py [--program PATH] [--stride N] [WHAT ..]

WHAT is `run`, `again`, `starved`, `files`, `serve`, `threads`, `controlled` or `counted`, all by default. `run`: a stream of all commands with programs loaded; the replies and
the saved journal are those of a stream that never had the lines answered `bad 501`, by the model in bench/model. `again`: a line
answered so is sent again, and then all is as without a refusal. `starved`: each request from one on is refused. `files`: `audit`, `verify`
and `explain`. `serve`: two partners and a display. `threads`: three partners and a display, and in turn each
thread can't be started. `controlled`: the same of two partners beside a control address. `counted`: how often memory is asked for is counted, where nothing is refused: a journal of many
entries is saved with as many requests as one of one entry. `--stride` takes every N-th request for memory alone. What refuses is refuse.c, preloaded, so threads and the C
library are refused memory too. The last line is `N cases, M failed`; status 1 where one failed.
"""

import contextlib
import hashlib
import os
import pathlib
import socket
import subprocess
import sys
import tempfile
import time

from cases import ALERTS, DAY_JOURNAL, LISTING, PLAN, SCHEDULE, TARGET, TAXI, TOP, Cases, cause, text, words

sys.path.insert(0, str(TOP / "bench" / "model"))

import journal as model_journal  # noqa: E402
from board import replies  # noqa: E402

HERE = pathlib.Path(__file__).resolve().parent
NO_MEMORY = "acdm: no memory\n"
# The second is what the words of the command line are answered.
COMPLAINTS = (NO_MEMORY, "error: out of memory\n", "")
# All was done, and for the name of the tables beside the saved journal there was no memory.
SAVE_FAILED, NO_WATCH = "acdm: save failed\n", "acdm: watch address\n"
PATIENCE = 60
# How long a partner waits for a reply: a session that has no thread keeps its connection and says nothing.
SILENCE = 3
CAPACITY = 40
# Those of the three partners of `threads`.
ROLES = ("APT", "NM", "GH")

# The TOBT is five minutes after the in-block report, by helper 3.
LATER = "bf31000000000000b70200000500000085000000030000009500000000000000"
# A word goes to the stack and comes back, and a jump leaves a state that waits.
SPILLED = "7b1af8ff0000000015040100010000007b1af8ff0000000079a1f8ff0000000071103f00000000009500000000000000"


# r0 is set only beside records of at most 128 bytes, so a migrate unloads it. The other reads the end of de-icing.
SHORT_ALONE = "2502010080000000b7000000000000009500000000000000"
DEICED = "61108c00000000009500000000000000"


def at(minute, session, role, command):
    return f"{session} {minute} {role} {command}"


def report(flight, milestone, time_of_day):
    return f'{{"cmd":"report","flight":{flight},"milestone":{milestone},"time":"2025-02-20T{time_of_day}:00Z"}}'


def load(milestone, kind, program, more=""):
    return f'{{"cmd":"load","milestone":{milestone},"kind":"{kind}","program":"{program}"{more}}}'


def scene():
    """Lines with all commands, that look at the whole board in the end."""
    now = 29_000_700
    others = SCHEDULE.replace('"flight":7', '"flight":8'), PLAN.replace('"flight":7', '"flight":9')
    shown = [at(now, 1, "APT", f'{{"cmd":"show","flight":{flight}}}') for flight in (7, 8, 9, 10)]
    listed = at(now, 3, "ATC", ALERTS)
    return [
        at(now, 1, "APT", load(7, "tobt", LATER)),
        at(now, 1, "APT", load(9, "alert", TAXI)),
        at(now, 1, "APT", load(9, "tobt", SPILLED)),
        at(now, 1, "APT", SCHEDULE),
        at(now, 2, "NM", PLAN),
        at(now, 1, "APT", others[0]),
        at(now, 2, "NM", others[1]),
        at(now, 3, "ATC", report(7, 6, "09:00")),
        at(now, 1, "APT", report(7, 7, "09:00")),
        listed,
        at(now, 5, "GH", report(7, 9, "10:00")),
        at(now, 1, "APT", '{"cmd":"tick"}'),
        at(now, 1, "APT", load(9, "alert", "9500000000000000")),
        at(now, 1, "APT", load(9, "alert", LATER)),
        at(now, 4, "AO", report(7, 9, "10:10")),
        at(now, 1, "APT", '{"cmd":"unload","milestone":7,"kind":"tobt"}'),
        at(now, 1, "APT", '{"cmd":"unload","milestone":7,"kind":"tobt"}'),
        at(now, 1, "APT", SCHEDULE),
        at(now, 1, "APT", '{"cmd":"tack"}'),
        *shown,
        at(now, 1, "APT", load(16, "alert", SHORT_ALONE)),
        at(now, 1, "APT", '{"cmd":"migrate"}'),
        at(now, 1, "APT", load(8, "alert", DEICED, ',"length":160')),
        at(now, 6, "DIC", '{"cmd":"deice","flight":7,"field":"aezt","time":"2025-02-20T09:30:00Z"}'),
        at(now, 5, "GH", report(7, 8, "09:05")),
        *shown,
        listed,
    ]


def owed(lines):
    """The replies to lines, and the journal that they make."""
    stream = [f"{line}\n".encode() for line in lines]
    told = list(replies(iter(stream), CAPACITY))
    return told, "".join(entry.line().decode() for entry in model_journal.written(iter(stream)))


class Refusing:
    """Starts the program with requests refused, and tells whether one was; refuse.c has the words."""

    def __init__(self, program, folder, words=()):
        self.program, self.shim, self.words = program, pathlib.Path(folder) / "refuse.so", dict(words)
        command = ["cc", "-O2", "-shared", "-fPIC", "-o", self.shim, HERE / "refuse.c"]
        subprocess.run(command, check=True)

    def counted(self, arguments, given):
        """How often a run to its end asks for memory, where nothing is refused."""
        reading, writing = os.pipe()
        env = {"LD_PRELOAD": str(self.shim), "REFUSE_COUNTED": str(writing), "PATH": os.environ["PATH"]} | self.words
        try:
            command = [str(self.program), *map(str, arguments)]
            subprocess.run(command, input=given.encode(), env=env, pass_fds=(writing,), stdout=subprocess.DEVNULL, check=True)
        finally:
            os.close(writing)
        with open(reading, "rb") as told:
            return int(told.read() or -1)

    @contextlib.contextmanager
    def started(self, arguments, number, which="REFUSE_AT", **how):
        """The process, with a word that says at its end whether a request was refused."""
        reading, writing = os.pipe()
        env = {"LD_PRELOAD": str(self.shim), which: str(number), "REFUSE_TOLD": str(writing), "PATH": os.environ["PATH"]}
        env |= self.words
        pipes = {"stdin": subprocess.PIPE, "stdout": subprocess.PIPE, "stderr": subprocess.PIPE} | how
        process = subprocess.Popen([str(self.program), *map(str, arguments)], env=env, pass_fds=(writing,), **pipes)
        os.close(writing)
        process.was_refused = lambda: os.read(reading, 1) != b""
        try:
            yield process
        finally:
            if process.poll() is None:
                process.kill()
                process.wait()
            os.close(reading)

    def ran(self, arguments, given, number, which="REFUSE_AT"):
        """What came of a run to its end: status, output, errors; and whether a request was refused."""
        with self.started(arguments, number, which) as process:
            output, errors = process.communicate(given.encode(), timeout=PATIENCE)
            came = process.returncode, output.decode(), errors.decode()
            return came, process.was_refused()


def with_cause(failure, word):
    """A failure with the line that names the word, and without it, where memory for that was refused too."""
    return failure + cause(word, "out of memory"), failure


def front(part, whole):
    """Whether a text is the first so many lines of another."""
    return whole.startswith(part) and (part == "" or part.endswith("\n"))


def head_of(entries):
    """The line of the journal with this text, for who is sent all of it; of one with no entry it does not come."""
    if not entries:
        return ""
    name = hashlib.sha256(entries.split("\n")[0].encode()).hexdigest()[:32]
    return f'{{"journal":"{name}","next":0,"room":{CAPACITY}}}\n'


class Scenes:
    def __init__(self, cases, refusing, folder, stride):
        self.cases, self.refusing, self.stride = cases, refusing, stride
        self.folder = pathlib.Path(folder)
        self.saved = self.folder / "saved"
        self.lines = scene()
        self.count = 0

    def each(self, one):
        """Calls with each number until nothing is refused; how many were."""
        number, stride = 1, 1 if one.__name__ in ("threads", "controlled") else self.stride
        while one(number):
            number += stride
        self.count += number - 1
        print(f"{one.__name__}: {number - 1} requests", flush=True)

    def journal(self):
        return self.saved.read_text() if self.saved.exists() else ""

    def unsaved(self):
        """What is told where the journal could not be saved."""
        return with_cause(SAVE_FAILED, f"--save {self.saved}")

    def ends_for_memory(self, name, came, told, entries, is_whole=False):
        """The run ended for want of memory: what was answered is a first part, and nothing or a first part is saved."""
        status, output, errors = came
        is_unsaved = is_whole and errors in self.unsaved() and self.journal() == ""
        self.cases.expect(name, status == 2 and (errors in COMPLAINTS or is_unsaved), came)
        self.cases.expect(name, front(output, text(told)), came)
        self.cases.expect(f"{name}, the journal", front(self.journal(), entries), self.journal())

    def judge(self, name, came):
        """What was answered and saved is what the lines make that were not answered `bad 501`."""
        status, output, errors = came
        answers = output.splitlines()
        heard = [line for line, answer in zip(self.lines, answers) if answer != "bad 501"]
        told, entries = owed(heard)
        rest = [answer for answer in answers if answer != "bad 501"]
        if status == 0:
            self.cases.expect(name, (len(answers), rest, errors) == (len(self.lines), told, ""), came)
            self.cases.expect(f"{name}, the journal", self.journal() == entries, self.journal())
        else:
            self.ends_for_memory(name, (status, text(rest), errors), told, entries, len(answers) == len(self.lines))

    def run(self, number):
        self.saved.unlink(missing_ok=True)
        words = ["run", "--journal", CAPACITY, "--save", self.saved]
        came, refused = self.refusing.ran(words, text(self.lines), number)
        self.judge(f"run, request {number}", came)
        return refused

    def starved(self, number):
        self.saved.unlink(missing_ok=True)
        words = ["run", "--journal", CAPACITY, "--save", self.saved]
        came, refused = self.refusing.ran(words, text(self.lines), number, "REFUSE_FROM")
        self.judge(f"run, requests from {number}", came)
        return refused

    def again(self, number):
        self.saved.unlink(missing_ok=True)
        words = ["run", "--journal", CAPACITY, "--save", self.saved]
        name = f"run and again, request {number}"
        told, entries = owed(self.lines)
        with self.refusing.started(words, number) as process:
            answers = self.sent(name, process)
            with contextlib.suppress(BrokenPipeError):
                process.stdin.close()
            status, errors = process.wait(PATIENCE), process.stderr.read().decode()
            came = status, text(answers), errors
            if status == 0:
                self.cases.expect(name, (answers, errors) == (told, ""), came)
                self.cases.expect(f"{name}, the journal", self.journal() == entries, self.journal())
            else:
                self.ends_for_memory(name, came, told, entries, answers == told)
            return process.was_refused()

    def counted(self, _number):
        """A journal is saved by as many requests for memory as one entry is, whatever its entries are."""
        tick = at(29_000_700, 1, "APT", '{"cmd":"tick"}')
        one = self.more_to_save([tick])
        for name, lines in (("ticks", [tick] * 1000), ("all commands", self.lines)):
            found = self.more_to_save(lines)
            self.cases.expect(f"saving {name}", found == one, (one, found))
        return False

    def more_to_save(self, lines):
        """How many requests more a run over lines makes where the journal is saved, and no tables stand beside its file."""
        words, given = ["run", "--journal", 1000], text(lines)
        self.saved.unlink(missing_ok=True)
        self.saved.with_name(f"{self.saved.name}.tables").unlink(missing_ok=True)
        return self.refusing.counted([*words, "--save", self.saved], given) - self.refusing.counted(words, given)

    def sent(self, name, process):
        """Sends line by line, and again what was answered `bad 501`; the answers but for these."""
        answers = []
        for line in self.lines:
            for _ in range(2):
                try:
                    process.stdin.write(f"{line}\n".encode())
                    process.stdin.flush()
                except BrokenPipeError:
                    return answers
                answer = process.stdout.readline().decode().rstrip("\n")
                if answer != "bad 501":
                    break
            if answer == "":
                return answers
            answers.append(answer)
        return answers

    def files(self, number):
        """`audit`, `verify` and `explain`: what they say without a refusal, or want of memory."""
        refused = False
        for word, name, status, told in self.given:
            came, was = self.refusing.ran([word, name], "", number)
            wanted = [(status, told, ""), *((2, "", it) for it in COMPLAINTS)]
            if word == "explain":
                wanted = wanted[:1]
                for_memory = came[0] == 2 and front(came[1], told) and came[2] in COMPLAINTS
            else:
                for_memory = came in wanted[1:] and was
            self.cases.expect(f"{word}, request {number}", came == wanted[0] or for_memory and was, came)
            refused = refused or was
        return refused

    def give_files(self):
        """Makes the files of `files`, and says what is owed of each."""
        (self.folder / "journal").write_text(text(DAY_JOURNAL))
        (self.folder / "code").write_bytes(bytes.fromhex(TAXI))
        (self.folder / "faulty").write_bytes(bytes.fromhex("9500000000000000"))
        known = [("audit", "journal", 0, "legal 5\n"), ("verify", "code", 0, LISTING), ("verify", "faulty", 1, "refused 308 0\n")]
        self.given = [(word, self.folder / name, status, told) for word, name, status, told in known]
        for name in ("code", "faulty"):
            path = self.folder / name
            (status, told, _), _ = self.refusing.ran(["explain", path], "", 0)
            self.given.append(("explain", path, status, told))

    def serve(self, number):
        """Two partners and a display, which asks `from 0` each other time. A session may end for want of memory, a display may be let go,
        and each line that was answered with an entry is saved."""
        self.saved.unlink(missing_ok=True)
        ports = [free_port() for _ in range(3)]
        at_port = [f"127.0.0.1:{port}" for port in ports]
        words = ["serve", "--journal", CAPACITY, "--save", self.saved, "--watch", at_port[0], f"APT={at_port[1]}", f"NM={at_port[2]}"]
        name = f"serve, request {number}"
        with self.refusing.started(words, number, stdin=subprocess.DEVNULL) as process:
            first = b"from 0\n" if number % 2 else b""
            answered, seen = self.served(process, ports, first)
            output, errors = process.communicate(timeout=PATIENCE)
            came = process.returncode, output.decode(), errors.decode(), answered, seen
            entries = self.journal()
            status, told = model_journal.audit(line.encode() for line in entries.splitlines(keepends=True))[::-1]
            self.cases.expect(f"{name}, the journal", status == 0, (told, entries))
            wanted = head_of(entries) + entries if first else entries
            self.cases.expect(f"{name}, the display", front(seen[: seen.rfind("\n") + 1], wanted) or came[0] == 2, came)
            if came[0] == 0:
                made = [line.split(" ", 4)[3] for line in entries.splitlines()]
                wanted = [role for role, answer in answered if not answer.startswith("bad")]
                self.cases.expect(name, made == wanted and f"closed {len(made)}\n" in came[1], came)
                self.cases.expect(name, came[2] == "", came)
            else:
                is_unsaved = "\nclosed " in came[1] and came[2] in self.unsaved() and entries == ""
                known = *COMPLAINTS, *with_cause(NO_WATCH, f"--watch {at_port[0]}")
                self.cases.expect(name, came[0] == 2 and (is_unsaved or came[2] in known), came)
            return process.was_refused()

    def served(self, process, ports, first):
        """What the partners were answered, with the role of each line, and what the display was sent, which said this first."""
        own = [load(9, "alert", TAXI), SCHEDULE, ALERTS], [PLAN, '{"cmd":"show","flight":7}', ALERTS]
        answered, seen = [], b""
        with contextlib.ExitStack() as opened:
            parts = []
            for port in (*ports[1:], ports[0]):
                stream = connected(process, port)
                if stream is None:
                    return answered, ""
                parts.append((opened.enter_context(stream), opened.enter_context(stream.makefile("rb"))))
            display = parts.pop()
            with contextlib.suppress(OSError):
                display[0].sendall(first)
            gone = set()
            for lines in zip(*own):
                for role, (stream, heard), line in zip(("APT", "NM"), parts, lines):
                    if role not in gone:
                        answers, stays = asked(role, stream, heard, line)
                        answered += answers
                        gone |= set() if stays else {role}
            for stream, _ in parts:
                with contextlib.suppress(OSError):
                    stream.shutdown(socket.SHUT_WR)
            with contextlib.suppress(OSError):
                seen = display[1].read()
        return answered, seen.decode()


    def threads(self, number):
        """Three partners and a display, which connects when they were answered. The first thread accepts displays, three are those of the
        sessions, and the last is the display's: one of them can't be started."""
        self.saved.unlink(missing_ok=True)
        ports = [free_port() for _ in range(4)]
        at_port = [f"127.0.0.1:{port}" for port in ports]
        addresses = [f"{role}={address}" for role, address in zip(ROLES, at_port)]
        words = ["serve", "--journal", CAPACITY, "--save", self.saved, "--watch", at_port[3], *addresses]
        with self.refusing.started(words, number, "REFUSE_THREAD", stdin=subprocess.DEVNULL) as process:
            if number == 1:
                self.no_displays(process)
            else:
                self.all_but_one(process, ports, number)
            return process.was_refused()

    def no_displays(self, process):
        """Nobody can accept displays, so nobody is served."""
        output, errors = process.communicate(timeout=PATIENCE)
        came = process.returncode, output.decode(), errors.decode(), self.journal()
        self.cases.expect("no thread for displays", came == (2, "", NO_MEMORY, ""), came)

    def all_but_one(self, process, ports, number):
        """The session that has no thread is told as such, and its partner by a closed connection; the others, and the display, are served to their end."""
        name, lost = f"thread {number}", number - 2
        talks = [[load(9, "alert", TAXI), SCHEDULE], [PLAN], [TARGET]]
        lines = [(place, line) for place, own in enumerate(talks) for line in own]
        heard = [line for line in lines if line[0] != lost]
        told, entries = owed([at(29_000_700, place + 1, ROLES[place], line) for place, line in heard])
        with contextlib.ExitStack() as opened:
            streams = [opened.enter_context(connected(process, port)) for port in ports[:3]]
            readers = [opened.enter_context(stream.makefile("rb")) for stream in streams]
            if lost < 3:
                streams[lost].sendall(f"{talks[lost][0]}\n".encode())
            answers = []
            for place, line in heard:
                streams[place].sendall(f"{line}\n".encode())
                answers.append(readers[place].readline().decode().rstrip("\n"))
            self.cases.expect(f"{name}, the others", answers == told, answers)
            display = opened.enter_context(connected(process, ports[3]))
            if lost < 3:
                self.cases.expect(f"{name}, its partner", is_closed(streams[lost]))
            seen = rest_of(display) if lost == 3 else ""
            for place, stream in enumerate(streams):
                if place != lost:
                    stream.shutdown(socket.SHUT_WR)
            self.cases.expect(f"{name}, the end of all", [rest_of(stream) for stream in streams] == [""] * 3)
            seen += rest_of(display)
        output, errors = process.communicate(timeout=PATIENCE)
        counts = [sum(place == it for place, _ in heard) for it in range(3)]
        ends = ["start" if place == lost else "end" for place in range(3)]
        sessions = [f"session {place + 1} {count} {end}" for place, (count, end) in enumerate(zip(counts, ends))]
        came = process.returncode, output.decode().splitlines()[3:], errors.decode()
        self.cases.expect(name, came == (0, [*sessions, f"closed {len(heard)}"], ""), came)
        saved = self.journal()
        self.cases.expect(f"{name}, the journal", at_one_minute(saved) == at_one_minute(entries), saved)
        status, verdict = model_journal.audit(line.encode() for line in saved.splitlines(keepends=True))[::-1]
        self.cases.expect(f"{name}, the journal is legal", status == 0, (verdict, saved))
        self.cases.expect(f"{name}, the display", seen == ("" if lost == 3 else saved), seen)


    def controlled(self, number):
        """Two partners and a control address. The first thread tells the operator, the second one accepts partners and answers there, and
        two are those of the sessions: at the address of one that has none, who connects is closed, and the others are served."""
        ports = [free_port() for _ in range(3)]
        words = ["serve", "--control", ports[2], *(f"{role}=127.0.0.1:{port}" for role, port in zip(ROLES, ports[:2]))]
        with self.refusing.started(words, number, "REFUSE_THREAD", stdin=subprocess.DEVNULL) as process:
            if number <= 2:
                errors = process.communicate(timeout=PATIENCE)[1].decode()
                self.cases.expect(f"thread {number}: nobody is served", (process.returncode, errors) == (2, NO_MEMORY), errors)
                return process.was_refused()
            for _ in ROLES[:2]:
                process.stdout.readline()
            lost, ends = number - 3, []
            with contextlib.ExitStack() as opened:
                for place, port in enumerate(ports[:2]):
                    if place == lost:
                        closed = is_turned_away(port) and is_turned_away(port)
                        self.cases.expect(f"thread {number}: who connects is closed", closed)
                        ends.append(f"session {place + 1} 0 start")
                        continue
                    stream = opened.enter_context(connected(process, port))
                    heard = opened.enter_context(stream.makefile("rb"))
                    answer = asked(ROLES[place], stream, heard, ALERTS)
                    self.cases.expect(f"thread {number}: the others are served", answer[1] and answer[0][0][1].startswith("alerts "), answer)
                    ends.append(f"session {place + 1} 1 end")
                control = opened.enter_context(connected(process, ports[2]))
                control.sendall(b"close\n")
                output, errors = process.communicate(timeout=PATIENCE)
            came = process.returncode, output.decode().splitlines(), errors.decode()
            wanted = [*ends, f"closed {sum(it.endswith(' end') for it in ends)}"]
            self.cases.expect(f"thread {number}: it closes", came == (0, wanted, ""), came)
            return process.was_refused()


def is_turned_away(port):
    """Whether who connects and sends a line is closed, or refused, and sent nothing."""
    try:
        with socket.create_connection(("127.0.0.1", port), timeout=SILENCE) as stream:
            stream.sendall(f"{ALERTS}\n".encode())
            stream.settimeout(SILENCE)
            return stream.recv(1) == b""
    except (ConnectionRefusedError, ConnectionResetError, BrokenPipeError):
        return True
    except TimeoutError:
        return False


def at_one_minute(entries):
    """The lines of a journal without their minutes."""
    return [[*line.split(" ")[:2], *line.split(" ")[3:]] for line in entries.splitlines()]


def is_closed(stream):
    """Whether the other side has closed a connection, and sent nothing."""
    stream.settimeout(PATIENCE)
    try:
        return stream.recv(1) == b""
    except ConnectionError:
        return True
    except OSError:
        return False


def rest_of(stream):
    """What a partner is sent to the end. A connection that is closed while lines of the partner wait there ends by a reset."""
    parts = []
    stream.settimeout(PATIENCE)
    with contextlib.suppress(ConnectionResetError):
        while part := stream.recv(65_536):
            parts.append(part)
    return b"".join(parts).decode()


def asked(role, stream, heard, line):
    """The answers to a line, which is sent again where there was no memory for it, and whether the session still answers."""
    answers = []
    with contextlib.suppress(OSError):
        for _ in range(2):
            stream.sendall(f"{line}\n".encode())
            answer = heard.readline().decode()
            if answer == "":
                return answers, False
            answers.append((role, answer))
            if answer != "bad 501\n":
                return answers, True
    return answers, False


def free_port():
    with socket.create_server(("127.0.0.1", 0)) as it:
        return it.getsockname()[1]


def connected(process, port):
    """A connection, or none where the program ended."""
    while process.poll() is None:
        try:
            return socket.create_connection(("127.0.0.1", port), timeout=SILENCE)
        except OSError:
            time.sleep(0.002)
    return None


def main():
    parser = words(__doc__)
    parser.add_argument("--stride", type=int, default=1, metavar="N")
    parser.add_argument("what", nargs="*", metavar="WHAT")
    given = parser.parse_args()
    cases = Cases()
    with tempfile.TemporaryDirectory(prefix="acdm-") as folder:
        scenes = Scenes(cases, Refusing(given.program.resolve(), folder), folder, given.stride)
        scenes.give_files()
        for what in given.what or ("run", "again", "starved", "files", "serve", "threads", "controlled", "counted"):
            scenes.each(getattr(scenes, what))
    return cases.end()


if __name__ == "__main__":
    sys.exit(main())
