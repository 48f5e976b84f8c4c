#!/usr/bin/env python3
"""Runs what docs/OPERATING.md says of two machines as it stands there: on namespaces of the network, with a link.

    python3 bench/hostile/two_machines.py [--program PATH] [--times]

Each command of the section "Two machines" is run in the order of the page, on the machine that the text before it names
last. A partner's client, by the page's own command, sends lines through all of it: the second board begins to follow,
the first machine vanishes, the second board takes over, the first machine comes back, is refused, follows, and serves
again; then its board is killed and begun again. What the page says of each step is seen then. While both boards are
there, each reply has its entry in both files when it is read. No line is entered twice, and none of those that were
replied is lost; in the end both files are the same, and legal. The partner is on the second machine. Where no such
machines can be made this is left out, with a line. The last line is `N cases, M failed`; status 1 where one failed.
"""

import os
import pathlib
import re
import signal
import subprocess
import sys
import tempfile
import threading
import time
import traceback

from cases import TOP, Cases, words
from follow import MOMENT, schedules
from link import FIRST, SECOND, WATCH, Link, reason_against

PAGE, SECTION, FILE, CONTROL = TOP / "docs" / "OPERATING.md", "Two machines", "day.journal", "clients/control.py 4199"
PARTNER = "partner's"
NAMED = re.compile(r"\b(first|second|partner's) machine\b")
# So many lines the partner has, one in so many seconds; a board has room for as many flights.
LINES, PAUSE = 4_000, 0.02
# So many lines are replied before the next step, and for so many seconds something is waited for at most.
SOME, MOST = 100, 60
# Within so many seconds a client goes on at the other board, of a machine that vanished.
NOTICED = 40


def commands_of(page):
    """The commands of the section, each with the machine that the text before it names last."""
    section = page.partition(f"\n## {SECTION}\n")[2].partition("\n## ")[0]
    found, machine = [], ""
    for part in section.split("\n\n"):
        if part.startswith("    "):
            found += [(machine, it.strip()) for it in part.splitlines()]
        else:
            machine = [machine, *NAMED.findall(" ".join(part.split()))][-1]
    return found


def waits_for(holds, seconds=MOST):
    end = time.monotonic() + seconds
    while time.monotonic() < end:
        if holds():
            return True
        time.sleep(0.02)
    return holds()


class Begun:
    """What a command began, and goes on; its lines are gathered as they come, and each is handed to `taken`."""

    def __init__(self, place, command, taken=lambda line: None):
        self.printed, self.said = [], []
        with place.machine.inside():
            self.ran = subprocess.Popen(
                ["bash", "-c", command],
                cwd=place.folder,
                stdout=subprocess.PIPE,
                stderr=subprocess.PIPE,
                text=True,
                start_new_session=True,
            )
        self.threads = [
            threading.Thread(target=self.gather, args=given, daemon=True)
            for given in ((self.ran.stdout, self.printed, taken), (self.ran.stderr, self.said, lambda line: None))
        ]
        for it in self.threads:
            it.start()

    def gather(self, stream, lines, taken):
        for line in stream:
            taken(line.rstrip("\n"))
            lines.append(line.rstrip("\n"))

    def says(self, pattern, seconds=MOST):
        return waits_for(lambda: any(re.fullmatch(pattern, it) for it in self.said), seconds)

    def listens(self):
        return waits_for(lambda: sum(it.startswith("listen ") for it in self.printed) == 2)

    def ends(self, seconds=MOST):
        """The status at the end; nothing where it does not end in this time."""
        try:
            status = self.ran.wait(seconds)
        except subprocess.TimeoutExpired:
            return None
        for it in self.threads:
            it.join(5)
        return status

    def kill(self):
        try:
            os.killpg(self.ran.pid, signal.SIGKILL)
        except ProcessLookupError:
            pass
        self.ran.wait()


class Place:
    """A machine with a folder, where its commands run, beside the program and the clients."""

    def __init__(self, machine, folder, program):
        self.machine, self.folder, self.file = machine, folder, folder / FILE
        self.folder.mkdir()
        (folder / "acdm").symlink_to(program)
        (folder / "clients").symlink_to(TOP / "clients")

    def run(self, command):
        """Runs a command to its end: the status, and the lines that it printed and said."""
        ran = Begun(self, command)
        try:
            return ran.ends(), ran.printed, ran.said
        finally:
            ran.kill()

    def status(self):
        return self.run(f"{CONTROL} status")[1]

    def entries(self):
        """How many entries the board has, by its status."""
        found = [re.match(r"entries (\d+) of", it) for it in self.status()]
        return next((int(it[1]) for it in found if it), None)

    def term(self):
        """The term of the board, by its status."""
        return next((int(it.split()[1]) for it in self.status() if re.fullmatch(r"term \d+", it)), None)

    def has(self, entry):
        """Whether its file has this entry."""
        return self.file.exists() and self.file.read_bytes().count(b"\n") > entry


class Client:
    """The partner's client. Its lines come through a pipe; of each reply it is noted whether both files had its entry."""

    def __init__(self, place, command, files):
        self.lines, self.files, self.replies, self.missed = schedules(LINES), files, [], []
        self.is_over = threading.Event()
        os.mkfifo(place.folder / "objects")
        self.begun = Begun(place, command, self.take)
        self.feeding = threading.Thread(target=self.feed, args=(place.folder / "objects",), daemon=True)
        self.feeding.start()

    def feed(self, pipe):
        try:
            with pipe.open("w", encoding="ascii", buffering=1) as it:
                for line in self.lines:
                    if self.is_over.wait(PAUSE):
                        return
                    it.write(f"{line}\n")
        except OSError:
            pass

    def take(self, reply):
        found = re.match(r"ok (\d+)", reply)
        if not found or not all(it.has(int(found[1])) for it in self.files):
            self.missed.append(len(self.replies))
        self.replies.append(reply)

    def goes_on(self, count=SOME, seconds=MOST):
        """Whether so many more lines are replied."""
        wanted = len(self.replies) + count
        return waits_for(lambda: len(self.replies) >= wanted, seconds)

    def missed_in(self, first, last):
        """The replies of these numbers whose entries were not in both files when they were read."""
        return [(it, self.replies[it]) for it in self.missed if first <= it < last]

    def ends(self):
        self.is_over.set()
        return self.begun.ends()


class Day(Link):
    """What is there, and the steps of the page, each of which takes its command."""

    def __init__(self, program, room, cases):
        super().__init__(program, room)
        self.room, self.cases, self.times, self.places = room, cases, [], {}
        self.client, self.entered, self.term = None, None, 1

    def begin(self):
        self.join()
        for name, machine in (("first", self.near), ("second", self.far), (PARTNER, self.far)):
            self.places[name] = Place(machine, self.room / name, self.program)

    def expect(self, name, holds, seen=""):
        self.cases.expect(name, holds, seen)

    def begins(self, name, command):
        """The board of a machine begins, and goes on."""
        board = Begun(self.places[name], command)
        self.at_end.callback(board.kill)
        return board

    def both_have(self, name):
        """From then on each reply has its entry in both files."""
        begin = len(self.client.replies)
        self.expect(f"{name}: the client goes on", self.client.goes_on(), self.seen())
        missed = self.client.missed_in(begin, len(self.client.replies))
        self.expect(f"{name}: each reply has its entry in both files", not missed, missed[:3])

    def seen(self):
        return self.client.replies[-1:], self.client.begun.said, self.first.said[-3:], self.second.said[-3:]

    def catches_up(self, name, other):
        """Whether the board of a machine comes to as many entries as the other one has now."""
        wanted = self.places[other].entries()
        return wanted is not None and waits_for(lambda: (self.places[name].entries() or 0) >= wanted)

    def is_in_later_term(self, name):
        """Whether the board of a machine is in a later term than was known before."""
        before, self.term = self.term, self.places[name].term()
        return self.term is not None and self.term > before

    def same(self):
        first, second = (self.places[it].file for it in ("first", "second"))
        return first.read_bytes() == second.read_bytes()

    def set_up(self, command):
        self.first = self.begins("first", command)
        self.expect("the first board serves", self.first.listens(), self.first.said)
        unreached = self.first.says(rf"unreached {SECOND}:{WATCH}: .+ {MOMENT}")
        self.expect("and says that no other one is there", unreached, self.first.said)

    def follow(self, command):
        self.second = self.begins("second", command)
        follows = self.second.says(rf"following {FIRST}:{WATCH} 0 {MOMENT}")
        self.expect("the second board follows", follows, self.second.said)

    def send(self, command):
        self.client = Client(self.places[PARTNER], command, [self.places[it] for it in ("first", "second")])
        self.at_end.callback(self.client.begun.kill)
        self.at_end.callback(self.client.is_over.set)
        self.expect("the client is served", self.client.goes_on(), self.seen())
        self.both_have("set up")

    def look(self, command):
        second, first = (self.places[it].run(command) for it in ("second", "first"))
        told = f"following {FIRST}:{WATCH}" in second[1] and "term 1" in second[1]
        self.expect("its status says that it follows", second[0] == 0 and told, second)
        self.expect("that of the first board says so too", first[0] == 0 and "followers 1 of 1" in first[1], first)
        self.expect("it comes to as many entries", self.catches_up("second", "first"), second)

    def take_over(self, command):
        """The first machine vanishes, and the second one is to serve."""
        self.vanish()
        lost = time.monotonic()
        done = self.places["second"].run(command)
        self.expect("the second board is promoted", done[:2] == (0, ["promoting"]), done)
        self.expect("and serves", self.second.listens() and self.second.says(rf"promoted \d+ {MOMENT}"), self.second.said)
        self.expect("the client goes on there", self.client.goes_on(1, NOTICED), self.seen())
        self.times.append(f"the client goes on at the second board: {time.monotonic() - lost:.1f} s")
        self.expect("and on", self.client.goes_on(), self.seen())
        self.expect("in a later term", self.is_in_later_term("second"), self.term)

    def refuse(self, command):
        """The first machine is back, and begins its board by its words."""
        self.near.connect()
        self.places["first"].machine = self.near
        had = self.places["first"].file.read_bytes()
        status, printed, said = self.places["first"].run(command)
        self.expect("the first board is refused", (status, printed) == (2, []), (status, printed, said))
        why = [said[0], said[1].startswith(f"acdm: --peer {SECOND}:{WATCH}: ")] if len(said) == 2 else said
        self.expect("and says why", why == ["acdm: another board has taken over", True], said)
        self.expect("its file is as it was", self.places["first"].file.read_bytes() == had)
        self.expect("the client goes on meanwhile", self.client.goes_on(), self.seen())

    def move(self, command):
        done = self.places["first"].run(command)
        left = sorted(it.name for it in self.places["first"].folder.glob(f"{FILE}*"))
        self.expect("its file is moved away", done == (0, [], []) and not left, (done, left))

    def follow_back(self, command):
        self.first = self.begins("first", command)
        follows = self.first.says(rf"following {SECOND}:{WATCH} 0 {MOMENT}")
        self.expect("the first board follows", follows, self.first.said)
        self.expect("and the second one says so", self.second.says(rf"back 1 of 1 {MOMENT}"), self.second.said)
        self.both_have("it is back")
        self.expect("it has the other one's term", self.places["first"].term() == self.term, self.places["first"].status())

    def close(self, command):
        self.expect("it comes to as many entries", self.catches_up("first", "second"), self.seen())
        done = self.places["second"].run(command)
        self.expect("the second board closes", done[0] == 0 and self.second.ends() == 0, (done, self.second.said))
        closed = re.fullmatch(r"closed (\d+)", self.second.printed[-1])
        self.entered = int(closed[1]) if closed else None
        self.expect("and says how many entries it has", closed, self.second.printed)

    def serve_again(self, command):
        has_all = waits_for(lambda: self.places["first"].entries() == self.entered)
        self.expect("the first board has them all", has_all and self.same(), (self.places["first"].status(), self.entered))
        done = self.places["first"].run(command)
        self.expect("it is promoted", done[:2] == (0, ["promoting"]), done)
        serves = self.first.listens() and self.first.says(rf"promoted {self.entered} {MOMENT}")
        self.expect("and serves", serves, self.first.said)
        self.expect("the client goes on there again", self.client.goes_on(), self.seen())
        self.expect("in a later term once more", self.is_in_later_term("first"), self.term)

    def follow_again(self, command):
        self.second = self.begins("second", command)
        went_on = self.second.says(rf"following {FIRST}:{WATCH} {self.entered} {MOMENT}")
        self.expect("the second board goes on in its file", went_on, self.second.said)
        self.expect("and the first one says so", self.first.says(rf"back 1 of 1 {MOMENT}"), self.first.said)
        self.both_have("as at first")

    def begin_again(self, command):
        """The first board, which was promoted, is killed, and begins again by the words of the set-up."""
        self.first.kill()
        self.first = self.begins("first", command)
        self.expect("it begins again", self.first.listens(), self.first.said)
        self.expect("in its term", self.places["first"].term() == self.term, self.term)
        followed = waits_for(lambda: "followers 1 of 1" in self.places["first"].status())
        self.expect("and is followed", followed, self.seen())
        self.both_have("begun again")

    def end_of_day(self):
        """The client ends. Each of its lines was replied, and is in both files once."""
        status = self.client.ends()
        self.expect("the client ends, and each line was accepted", (status, self.client.begun.said) == (0, []), self.seen())
        replies, first = self.client.replies, self.places["first"]
        self.expect("both files are the same", waits_for(self.same), self.seen())
        entries = first.file.read_text(encoding="ascii").splitlines()
        flights = [int(it) for entry in entries for it in re.findall(r" schedule (\d+) ", entry)]
        is_once = flights == list(range(1, len(replies) + 1))
        self.expect("no line is there twice, and none is lost", is_once, (len(flights), len(replies)))
        lost = [it for flight, it in enumerate(replies, 1) if not self.is_entered(entries, flight, it)]
        self.expect("each reply is that of its entry", not lost, lost[:3])
        for name in ("first", "second"):
            done = self.places[name].run(f"./acdm audit {FILE}")
            self.expect(f"the {name} file is legal", done[:2] == (0, [f"legal {len(entries)}"]), done)
            term = self.places[name].file.with_name(f"{FILE}.term").read_text(encoding="ascii")
            self.expect(f"the {name} board is in the last term", term == f"term {self.term}\n", (term, self.term))
        self.times.append(f"{len(replies)} lines; in another way than usual: {[it for it in replies if '(' in it]}")

    def is_entered(self, entries, flight, reply):
        """Whether the entry that a reply tells of is that of this flight."""
        found = re.match(r"ok (\d+)", reply)
        return found and int(found[1]) < len(entries) and f" schedule {flight} " in entries[int(found[1])]


SERVE, FOLLOW, PROMOTE = "./acdm serve ", "./acdm follow ", f"{CONTROL} promote"
# The steps of the page: where a command is run, how it begins, and what is to come of it.
STEPS = (
    ("first", SERVE, Day.set_up),
    ("second", FOLLOW, Day.follow),
    (PARTNER, "clients/partner.py ", Day.send),
    ("second", f"{CONTROL} status", Day.look),
    ("second", PROMOTE, Day.take_over),
    ("first", SERVE, Day.refuse),
    ("first", "mkdir ", Day.move),
    ("first", FOLLOW, Day.follow_back),
    ("second", f"{CONTROL} close", Day.close),
    ("first", PROMOTE, Day.serve_again),
    ("second", FOLLOW, Day.follow_again),
)


def lead(day, commands):
    """Leads through the page, to its end or to a failure."""
    try:
        day.begin()
        for (_, command), (_, _, step) in zip(commands, STEPS):
            began = time.monotonic()
            step(day, command)
            day.times.append(f"{step.__name__}: {time.monotonic() - began:.1f} s")
        day.begin_again(commands[0][1])
        day.end_of_day()
    except Exception:
        day.expect("to the end", False, traceback.format_exc())
    finally:
        day.end()


def main():
    parser = words(__doc__)
    parser.add_argument("--times", action="store_true", help="print how long each step took")
    asked = parser.parse_args()
    cases, commands = Cases(), commands_of(PAGE.read_text(encoding="utf-8"))
    why = reason_against()
    if why:
        print(f"left out: all that takes two machines: {why}")
        return cases.end()
    signal.signal(signal.SIGTERM, lambda *_: sys.exit(1))
    is_known = [machine for machine, _ in commands] == [machine for machine, _, _ in STEPS] and all(
        command.startswith(begin) for (_, command), (_, begin, _) in zip(commands, STEPS)
    )
    cases.expect("the page has these steps", is_known, commands)
    with tempfile.TemporaryDirectory() as made:
        day = Day(asked.program.resolve(), pathlib.Path(made), cases)
        if is_known:
            lead(day, commands)
    if asked.times:
        print(*day.times, sep="\n")
    return cases.end()


if __name__ == "__main__":
    sys.exit(main())
