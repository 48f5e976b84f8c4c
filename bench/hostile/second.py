#!/usr/bin/env python3
"""Tries `acdm serve --second N` of the built program: a reply waits until other boards keep its entry too.

    python3 bench/hostile/second.py [--program PATH] [--kills N] [--only NAME] [--times]

Nobody follows: the first reply waits, the others do not, until a board is back. Each reply of 8 partners is held against
the file of the board that follows, at the moment at which it was read. The first board is killed N times under them, and
the other one goes on. With `--strict` none is sent without a board that follows, nor when it closes. Two boards, of which
one is late; one that is stopped; one whose word is lost, or whose disk is full; one that is promoted too early; a chain of
three. Clients that say what they do not keep, or are cut off while they are sent to, or speak once more as the board ends;
readers that say nothing, the board's own ticks, and words that are refused. The last line is `N cases, M failed`; status 1
where one failed.
"""

import json
import os
import pathlib
import random
import re
import shutil
import signal
import socket
import struct
import subprocess
import sys
import tempfile
import threading
import time
import traceback

from cases import ALERTS, Cases, ran, words
from follow import CLIENTS, JOURNAL, MOMENT, TICK, audited, schedules
from followed import MOST, ROLES, SHOW, Boards, Caller, Load, free_ports, missing, number_of
from keep import limited

# A board waits 5 seconds for others. By a busy machine's clock it is so many.
LEAST_LATE, MOST_LATE = 4.5, 12
# Within so many seconds a reply comes that waits for no board: sooner than boards are late.
AT_ONCE = 4
# Who sends entries to a board looks each 25 milliseconds for more where no reply waits; most replies come sooner.
A_LOOK = 0.02
# For so many seconds nothing is to come.
SHORT, LONG = 2, 8
# So many boards may follow at once.
MOST_FOLLOWERS = 8
# How often it is tried to be in time.
TRIALS = 3
# All of it ends after so many seconds, and so many more for each kill, whatever hangs.
LIMIT, LIMIT_A_KILL = 900, 30
# So many entries have room; after so many kills files begin anew.
ROOM = ["--journal", "400000"]
A_FILE = 8
# With these words beside `--second` boards are killed, so many of them with each.
KINDS = ([], ["--strict"], ["--sync"], ["--strict", "--sync"])


class Tried(Cases):
    """The cases, each by the name of what is tried."""

    def __init__(self):
        super().__init__()
        self.name = ""

    def expect(self, name, holds, seen=""):
        super().expect(f"{self.name}: {name}", holds, seen)


def replies_timed(caller, count):
    """The replies to so many lines, one after the other, and how long each took, the shortest time first."""
    replies, times = [], []
    for _ in range(count):
        began = time.monotonic()
        replies.append(caller.asks(TICK))
        times.append(time.monotonic() - began)
    return replies, sorted(times)


def expect_late(cases, name, caller, wanted):
    """A reply waits as long as one waits for other boards, and comes then."""
    began = time.monotonic()
    reply = caller.asks(TICK)
    took = time.monotonic() - began
    cases.expect(f"{name}: a reply waits", LEAST_LATE <= took <= MOST_LATE, took)
    cases.expect(f"{name}: and comes then", reply == wanted, reply)


def expect_soon(cases, name, caller, first, count, *files):
    """Replies come soon, with these numbers, and the entries stand in these files."""
    replies, times = replies_timed(caller, count)
    lengths = [it.stat().st_size for it in files]
    cases.expect(f"{name}: replies come", replies == [f"ok {it}" for it in range(first, first + count)], replies)
    cases.expect(f"{name}: and soon", times[-1] < AT_ONCE, times)
    for file, length in zip(files, lengths):
        told = [(1, replies[-1] or "", length)]
        cases.expect(f"{name}: they stand in {file.name}", not missing(told, file), file.read_bytes()[-200:])


def alone(cases, boards):
    """Nobody follows; then a board comes, while partners send lines; then it goes."""
    log, copy = boards.folder / "log", boards.folder / "copy"
    first = boards.first("alone", "--second", "1", "--log", str(log))
    airport, network = first.caller(1), first.caller(2)
    cases.expect("status before", first.followers() == "followers 0 of 1", first.followers())
    expect_late(cases, "nobody follows", airport, "ok 0")
    cases.expect("it says so", first.says("late 0 of 1"), first.said)
    cases.expect("status says so", first.followers() == "followers 0 of 1 late", first.followers())
    expect_soon(cases, "without others", airport, 1, 20)
    second, replies = boards.second(first, "copy"), []
    while "back 1 of 1" not in first.turns() and len(replies) < 20 * MOST:
        replies.append(network.asks(ALERTS))
        time.sleep(0.05)
    cases.expect("one is back while a partner sends lines", first.turns() == ["late 0 of 1", "back 1 of 1"], first.said[-3:])
    cases.expect("which are all replied to", None not in replies and not missing([(2, it, None) for it in replies], first.kept))
    cases.expect("status has no word of it", first.followers() == "followers 1 of 1", first.followers())
    count = 21 + len(replies)
    expect_soon(cases, "with another board", airport, count, 10, copy)
    replies, times = replies_timed(airport, 20)
    cases.expect("most replies wait for no look", replies[-1] == f"ok {count + 29}" and times[10] < A_LOOK, (replies[-1], times))
    second.kill()
    expect_late(cases, "it is gone", airport, f"ok {count + 30}")
    cases.expect("it says so again", first.waits_for(lambda: first.turns()[2:] == ["late 0 of 1"]), first.said[-3:])
    expect_soon(cases, "without it", airport, count + 31, 3)
    cases.expect("closed", first.close()[:2] == ("closing\n", 0))
    events = [json.loads(it) for it in log.read_text().splitlines()]
    told = [(it["event"], it["followers"], it["wanted"]) for it in events if it["event"] in ("late", "back")]
    cases.expect("the log", told == [("late", 0, 1), ("back", 1, 1), ("late", 0, 1)], told)
    moments = [it["at"] for it in events]
    cases.expect("its moments", moments == sorted(moments) and all(re.fullmatch(MOMENT, it) for it in moments), moments)
    audited(cases, boards.program, "its file", first.kept, count + 34)


def at_that_moment(cases, boards):
    """Each reply that a partner has read is in the other board's file when it was read."""
    first = boards.first("first", "--second", "1", *ROOM, roles=ROLES)
    copy = boards.folder / "copy"
    second = boards.second(first, "copy", *ROOM, roles=ROLES)
    cases.expect("the first reply", first.caller(1).asks(TICK) == "ok 0")
    load = Load(first, copy)
    many = first.waits_for(lambda: len(load.told) >= 8 * 200)
    cases.expect("all partners are served", load.end() and many, len(load.told))
    cases.expect("nobody was late", not first.turns(), first.turns())
    lost = missing(load.told, copy)
    cases.expect("each reply has its entry in the other file", not lost, (len(lost), len(load.told), lost[:3]))
    sessions = {session for session, _, _ in load.told}
    cases.expect("of all partners", sessions == set(range(1, 9)), sessions)
    count = len(copy.read_bytes().splitlines())
    cases.expect("the other board has it all", second.has(count), (count, second.entries()))
    cases.expect("both files are the same", copy.read_bytes() == first.kept.read_bytes())
    audited(cases, boards.program, "the other file", copy, count)


def expect_goes_on(cases, program, board, told):
    """A board that was promoted replies, and its file has all that was replied before."""
    airport = board.caller(1)
    reply = airport.asks(TICK) or ""
    airport.close()
    number = number_of(reply)
    numbers = [number_of(reply) for _, reply, _ in told]
    cases.expect("it goes on", reply == f"ok {number}" and all(it is None or it < number for it in numbers), reply)
    lost = missing([*told, (1, reply, None)], board.kept)
    cases.expect("each reply has its entry there", not lost, (len(lost), len(told), lost[:3]))
    audited(cases, program, "its file", board.kept, (number or 0) + 1)


def kills(cases, boards, count):
    """The first board is killed under eight partners, and the other one goes on, which a third one follows then, and so on."""
    chance, told_ever, late = random.Random(13), 0, 0
    for turn in range(count):
        if turn % A_FILE == 0:
            boards.end()
            words_of_it = KINDS[turn // A_FILE % len(KINDS)]
            arguments, is_strict = ["--second", "1", *words_of_it, *ROOM], "--strict" in words_of_it
            first = boards.first(f"first{turn}", *arguments, roles=ROLES)
            second = boards.second(first, f"second{turn}", *arguments, roles=ROLES)
            cases.expect("the first reply", first.caller(1).asks(TICK) == "ok 0")
        load = Load(first)
        time.sleep(chance.uniform(0.02, 0.6))
        first.kill()
        first.listening.join(MOST)
        cases.expect("all partners have ended", load.end())
        # (a board that was late, of a machine that stood still, may go on by itself: nothing is owed then)
        is_owed = is_strict or not first.turns()
        late += not is_owed
        told_ever += len(load.told)
        cases.expect("it is promoted", second.promote(), second.said)
        third = boards.second(second, f"third{turn}", *arguments, roles=ROLES)
        expect_goes_on(cases, boards.program, second, load.told if is_owed else [])
        first, second = second, third
    boards.end()
    cases.expect("boards were seldom late", late <= count // 8, late)
    cases.expect("many replies were read", told_ever > 10 * count, told_ever)


def switched(cases, boards):
    """A partner's client goes on at the other board, when the first one is killed between two replies: no line is lost."""
    feeds, lines = free_ports(2), schedules(200)
    first = boards.first("from", "--second", "1", "--changes", f"127.0.0.1:{feeds[0]}")
    second = boards.second(first, "to", "--changes", f"127.0.0.1:{feeds[1]}")
    places = f"127.0.0.1:{first.ports[0]},127.0.0.1:{second.ports[0]}"
    asked = [sys.executable, str(CLIENTS / "partner.py"), places, "--feed", f"127.0.0.1:{feeds[0]},127.0.0.1:{feeds[1]}"]
    client = subprocess.Popen(asked, stdin=subprocess.PIPE, stdout=subprocess.PIPE, stderr=subprocess.PIPE, text=True)
    timer = threading.Timer(3 * MOST, client.kill)
    timer.start()
    threading.Thread(target=feed_lines, args=(client.stdin, lines), daemon=True).start()
    replies = [client.stdout.readline() for _ in range(60)]
    first.kill()
    cases.expect("the other board serves", second.promote(), second.said)
    replies += client.stdout.readlines()
    said, status = client.stderr.read(), client.wait()
    timer.cancel()
    cases.expect("a client goes on there", (status, len(replies)) == (0, len(lines)), (status, len(replies), said[-500:]))
    flights = re.findall(r" schedule (\d+) ", second.kept.read_text())
    cases.expect("each line is entered once", flights == [str(it) for it in range(1, len(lines) + 1)], len(flights))
    numbers = [number_of(it) for it in replies]
    cases.expect("each has its own entry", numbers == sorted(set(numbers), key=numbers.index) and None not in numbers, numbers[-3:])


def feed_lines(stream, lines):
    try:
        stream.write("".join(f"{it}\n" for it in lines))
        stream.close()
    except OSError:
        pass


def strictly(cases, boards):
    """With `--strict` no reply is sent without another board: not before one comes, not while it is gone, not at the end."""
    first = boards.first("first", "--second", "1", "--strict", *ROOM, roles=ROLES)
    airport, older = first.caller(1), first.caller(2)
    airport.send(f"{TICK}\n")
    older.send(f"{ALERTS}\n")
    cases.expect("both lines are entered", first.waits_for(lambda: "entries 2 of" in first.ask("status")), first.ask("status"))
    older.close()
    newer = first.caller(2)
    newer.send(f"{SHOW}\n")
    cases.expect("nobody follows: no reply", airport.is_silent(LONG), airport.held)
    cases.expect("it says that", first.says("late 0 of 1") and first.followers() == "followers 0 of 1 late", first.said)
    second = boards.second(first, "copy", *ROOM, roles=ROLES)
    cases.expect("one comes: the reply comes", airport.line() in ("ok 0", "ok 1"), first.said)
    reply = newer.line() or ""
    cases.expect("who came back has the reply to its own line", number_of(reply) == 2, reply)
    cases.expect("and no other", newer.is_silent(0.5), newer.held)
    cases.expect("it is back", first.says("back 1 of 1") and first.followers() == "followers 1 of 1", first.said)
    load = Load(first)
    cases.expect("partners are served", first.waits_for(lambda: len(load.told) > 200), len(load.told))
    second.kill()
    time.sleep(1)
    count, had = len(load.told), second.kept.read_bytes()
    time.sleep(SHORT + 1)
    cases.expect("it is killed: no further reply", len(load.told) == count, (count, len(load.told)))
    lost = missing(load.told, second.kept)
    cases.expect("each reply has its entry in the file of who was killed", not lost, (len(lost), count, lost[:3]))
    second = boards.second(first, "copy", *ROOM, roles=ROLES)
    cases.expect("it is begun again: replies come", first.waits_for(lambda: len(load.told) > count + 200), (count, len(load.told)))
    cases.expect("it goes on in its own file", load.end() and second.kept.read_bytes().startswith(had))
    cases.expect("which has them all", not missing(load.told, second.kept))
    second.kill()
    closes_strictly(cases, first)


def closes_strictly(cases, first):
    """Nobody follows any more, a line waits, and the board is closed."""
    airport, network = first.caller(1), first.caller(2)
    airport.send(f"{TICK}\n")
    cases.expect("nobody follows any more: no reply", airport.is_silent(SHORT), airport.held)
    network.send(f"{ALERTS}\n{ALERTS}\n")
    time.sleep(0.2)
    began = time.monotonic()
    answer, status, lines = first.close(2 * MOST)
    took = time.monotonic() - began
    cases.expect("it closes", (answer, status) == ("closing\n", 0), (answer, status))
    cases.expect("within 15 seconds", took < 15, took)
    cases.expect("the reply was never sent", airport.rest() == b"" and network.rest() == b"", (airport.held, network.held))
    count = first.kept.read_bytes().count(b"\n")
    cases.expect("the entries stand in its file", lines[-1:] == [f"closed {count}"], (lines, count))


def closes_soon(cases, boards):
    """Without `--strict` a board that closes while a reply waits sends it in its time, and ends."""
    first = boards.first("first", "--second", "1")
    airport = first.caller(1)
    airport.send(f"{TICK}\n")
    cases.expect("a reply waits", airport.is_silent(1), airport.held)
    began = time.monotonic()
    answer, status, lines = first.close(2 * MOST)
    took = time.monotonic() - began
    cases.expect("it closes", (answer, status, lines[-1:]) == ("closing\n", 0, ["closed 1"]), (answer, status, lines))
    cases.expect("within 15 seconds", took < 15, took)
    cases.expect("the reply is sent, or not, but not in part", airport.rest() in (b"ok 0\n", b""), airport.held)
    cases.expect("that the other board is late is said as it closes", first.turns() == ["late 0 of 1"], first.said)


def closes_answering(cases, boards):
    """A board closes while a reply waits, and who follows says within the time that it keeps the entry: the line is answered."""
    first = boards.first("first", "--second", "1", "--strict")
    airport, second = first.caller(1), boards.second(first, "copy")
    expect_soon(cases, "before", airport, 0, 3, second.kept)
    second.ran.send_signal(signal.SIGSTOP)
    airport.send(f"{TICK}\n")
    cases.expect("a reply waits", airport.is_silent(1), airport.held)
    goes_on = threading.Timer(1, second.ran.send_signal, (signal.SIGCONT,))
    goes_on.start()
    answer, status, lines = first.close(2 * MOST)
    goes_on.join()
    cases.expect("it closes", (answer, status, lines[-1:]) == ("closing\n", 0, ["closed 4"]), (answer, status, lines))
    cases.expect("and the line in hand is answered", airport.rest() == b"ok 3\n", airport.held)


def closes_loaded(cases, boards):
    """A board closes under eight partners: who follows has all that was replied, and in the end all that there is."""
    first = boards.first("first", "--second", "1", "--strict", *ROOM, roles=ROLES)
    second = boards.second(first, "copy", *ROOM, roles=ROLES)
    load = Load(first)
    cases.expect("partners are served", first.waits_for(lambda: len(load.told) > 200), len(load.told))
    began = time.monotonic()
    answer, status, lines = first.close(2 * MOST)
    took = time.monotonic() - began
    cases.expect("it closes", (answer, status) == ("closing\n", 0), (answer, status))
    cases.expect("within 15 seconds", took < 15, took)
    lost = missing(load.told, second.kept) if load.end() else load.told
    cases.expect("each reply has its entry in the other file", not lost, (len(lost), len(load.told), lost[:3]))
    count = first.kept.read_bytes().count(b"\n")
    cases.expect("nothing else is in its own", lines[-1:] == [f"closed {count}"], (lines[-1:], count))
    cases.expect("who follows has all of it", second.has(count) and second.kept.read_bytes() == first.kept.read_bytes(), second.entries())


def parted(cases, boards):
    """A board that follows is waited for a second as the first one ends: what it says then does not cut it off."""
    # (on a busy machine it may hear too late that no more comes, so it may try more than once)
    waited_for = any(is_waited_for(cases, boards, f"first-{number}") for number in range(TRIALS))
    cases.expect("who follows is still there after 0.6 seconds", waited_for)


def is_waited_for(cases, boards, name):
    """Whether a client that follows such a board is not cut off by what it says soon after the end of what it is sent."""
    first = boards.first(name, "--second", "1")
    airport, client = first.caller(1), Caller(first.watch)
    client.send("from 0 as 5\n")
    airport.send(f"{TICK}\n")
    cases.expect("it is sent the entry", '"next":0,' in (client.line() or "") and client.line() is not None, client.held)
    client.send("kept 1\n")
    cases.expect("and the reply comes", airport.line() == "ok 0", first.said)
    cases.expect("the board closes", first.ask("close") == "closing\n")
    cases.expect("it is told that no more comes", client.rest() == b"", client.held)
    time.sleep(0.6)
    client.send("kept 1\n")
    is_cut = client.is_cut()
    client.close()
    ended = first.ended(2 * MOST)
    cases.expect("the first one ends", ended == (0, ["session 1 1 end", "session 2 0 end", "closed 1"]), ended)
    return not is_cut


def full(cases, boards):
    """There is no room for the file of the board that follows: its partners are not told of what it could not keep."""
    first = boards.first("first", "--second", "1", "--strict", *ROOM, roles=ROLES)
    second = boards.second(first, "copy", *ROOM, roles=ROLES, preexec_fn=limited(20_000))
    load = Load(first)
    status, _ = second.ended(2 * MOST)
    cases.expect("it ends by itself", status == 2 and "acdm: keep failed" in second.said, (status, second.said))
    time.sleep(1)
    count = len(load.told)
    time.sleep(SHORT)
    cases.expect("then no reply is sent", 0 < count == len(load.told), (count, len(load.told)))
    lost = missing(load.told, second.kept)
    cases.expect("each reply has its entry there", not lost, (len(lost), count, lost[:3]))
    second = boards.second(first, "copy", *ROOM, roles=ROLES)
    cases.expect("there is room: replies come", first.waits_for(lambda: len(load.told) > count + 200), (count, len(load.told)))
    cases.expect("and have their entries there", load.end() and not missing(load.told, second.kept))


def promoted(cases, boards):
    """The other board is promoted while the first one serves: with `--strict` that one replies no more."""
    first = boards.first("first", "--second", "1", "--strict")
    airport, second = first.caller(1), boards.second(first, "copy")
    expect_soon(cases, "before", airport, 0, 5, second.kept)
    cases.expect("it is promoted", second.promote(), second.said)
    airport.send(f"{TICK}\n")
    expect_soon(cases, "it serves", second.caller(1), 5, 5)
    cases.expect("the first one replies no more", airport.is_silent(SHORT), airport.held)
    again = boards.second(first, "copy of the first")
    cases.expect("but where another board follows it", airport.line() == "ok 5", again.said)


def two(cases, boards):
    """Two boards are to keep an entry: with one of them boards are late, with two replies come soon."""
    first = boards.first("first", "--second", "2")
    airport = first.caller(1)
    one = boards.second(first, "one")
    expect_late(cases, "one follows", airport, "ok 0")
    cases.expect("it says so", first.says("late 1 of 2"), first.said)
    cases.expect("status says so", first.followers() == "followers 1 of 2 late", first.followers())
    expect_soon(cases, "with one", airport, 1, 5)
    cases.expect("the one has them too", one.has(6), one.entries())
    other = boards.second(first, "other")
    cases.expect("both are there", first.says("back 2 of 2"), first.said)
    cases.expect("status has no word of it", first.followers() == "followers 2 of 2", first.followers())
    expect_soon(cases, "with two", airport, 6, 10, one.kept, other.kept)
    third = boards.second(first, "third")
    cases.expect("a third one follows", third.has(16), third.entries())
    cases.expect("status says so too", first.waits_for(lambda: first.followers() == "followers 3 of 2"), first.followers())
    one.kill()
    cases.expect("one of three is gone", first.waits_for(lambda: first.followers() == "followers 2 of 2"), first.followers())
    expect_soon(cases, "with two of three", airport, 16, 10, other.kept, third.kept)
    cases.expect("it has said nothing more", first.turns() == ["late 1 of 2", "back 2 of 2"], first.said)


def stopped(cases, boards):
    """A board that follows is stopped for a while, and goes on."""
    first = boards.first("first", "--second", "1")
    airport, second = first.caller(1), boards.second(first, "copy")
    expect_soon(cases, "before", airport, 0, 3, second.kept)
    second.ran.send_signal(signal.SIGSTOP)
    expect_late(cases, "it is stopped", airport, "ok 3")
    cases.expect("it says so", first.says("late 1 of 1"), first.said)
    cases.expect("status says so", first.followers() == "followers 1 of 1 late", first.followers())
    expect_soon(cases, "meanwhile", airport, 4, 3)
    second.ran.send_signal(signal.SIGCONT)
    cases.expect("it goes on", first.says("back 1 of 1"), first.said)
    expect_soon(cases, "then", airport, 7, 10, second.kept)


def reset(cases, boards):
    """Clients that follow are gone at once, while entries are sent to them: the places of all of them are free again."""
    # (so many are more than the system holds of a connection with small windows and segments that nobody reads)
    lines = [f"{number} {JOURNAL[0].partition(' ')[2]}" for number in range(2000)]
    (boards.folder / "first").write_text("".join(f"{it}\n" for it in lines))
    first = boards.first("first", "--second", "1")
    for number in range(MOST_FOLLOWERS):
        client = Caller(first.watch, small=True)
        client.send(f"from 0 as {number}\n")
        cases.expect(f"client {number} is sent something", client.hears(MOST), client.held)
        client.stream.setsockopt(socket.SOL_SOCKET, socket.SO_LINGER, struct.pack("ii", 1, 0))
        client.close()
    second = boards.second(first, "copy")
    cases.expect("there is a place for a board", first.waits_for(lambda: first.followers() == "followers 1 of 1"), first.followers())
    cases.expect("which has it all", second.has(len(lines)), second.said)
    expect_soon(cases, "then", first.caller(1), len(lines), 3, second.kept)


def ticking(cases, boards):
    """The ticks of a board wait for no other board, also where its partners do."""
    first = boards.first("first", "--second", "1", "--strict", "--tick", "1")
    airport = first.caller(1)
    airport.send(f"{ALERTS}\n")
    cases.expect("ticks are entered", first.waits_for(lambda: first.kept.read_bytes().count(b" tick\n") >= 3), first.kept.read_bytes())
    cases.expect("a reply waits", airport.is_silent(0.1), airport.held)
    answer, status, lines = first.close(2 * MOST)
    ticks = first.kept.read_bytes().count(b" tick\n")
    cases.expect("it closes", (answer, status) == ("closing\n", 0), (answer, status))
    cases.expect("its ticks end as they should", lines[-2:] == [f"session 3 {ticks} end", f"closed {ticks + 1}"], lines)


class Between:
    """A port in front of another one. What the second board says behind its first line may be lost there."""

    def __init__(self, port):
        self.behind, self.is_deaf, self.streams = port, False, []
        self.listener = socket.create_server(("127.0.0.1", 0))
        self.port = self.listener.getsockname()[1]
        threading.Thread(target=self.serve, daemon=True).start()

    def serve(self):
        try:
            while True:
                near, _ = self.listener.accept()
                far = socket.create_connection(("127.0.0.1", self.behind))
                self.streams += [near, far]
                for pair in ((near, far, True), (far, near, False)):
                    threading.Thread(target=self.hand_on, args=pair, daemon=True).start()
        except OSError:
            pass

    def hand_on(self, source, sink, is_said):
        try:
            while part := source.recv(65536):
                if not (is_said and self.is_deaf):
                    sink.sendall(part)
        except OSError:
            pass
        for it in (source, sink):
            self.cut(it)

    def cut(self, stream):
        try:
            stream.shutdown(socket.SHUT_RDWR)
        except OSError:
            pass

    def cut_all(self):
        for it in self.streams:
            self.cut(it)


def unheard(cases, boards):
    """What a board says that it keeps is lost on its way: it says so again once it has connected anew."""
    first = boards.first("first", "--second", "1", "--strict")
    airport, between = first.caller(1), Between(first.watch)
    second = boards.second(first, "copy", port=between.port)
    expect_soon(cases, "before", airport, 0, 3, second.kept)
    between.is_deaf = True
    airport.send(f"{TICK}\n")
    cases.expect("it has the entry", second.has(4), second.entries())
    cases.expect("and is not heard: no reply", airport.is_silent(SHORT), airport.held)
    between.is_deaf = False
    between.cut_all()
    cases.expect("it connects anew: the reply comes", airport.line() == "ok 3", second.said)
    expect_soon(cases, "then", airport, 4, 3, second.kept)
    airport.send(f"{TICK}\n")
    first.kill()
    count = first.kept.read_bytes().count(b"\n")
    between.cut_all()
    first = boards.first("first", "--second", "1", "--strict", watch=first.watch)
    cases.expect("a first board comes back, and replies", first.caller(1).asks(TICK) == f"ok {count}", (count, second.said))
    cases.expect("each file has it all", second.has(count + 1) and second.kept.read_bytes() == first.kept.read_bytes())
    between.listener.close()


# Lines that say nothing of the first entry of one.
NO_WORD = [
    *("kept 0", "kept 2", "kept 1000000", "kept 18446744073709551615", "kept 18446744073709551617", "kept -1", "kept +1", "kept 01"),
    *("kept 1.0", "kept 0x1", "kept one", "kept", "kept ", "kept 1 ", " kept 1", "kept  1", "kept\t1", "kept 1\r", "kept 1\0", "\0kept 1"),
    *("KEPT 1", "kept 1 kept 1", "kept 1,", "kept \uff11", "\ufeffkept 1", "from 1", "from 0", "board", "", "ok 0", TICK),
]


def junk(cases, boards):
    """A client asks as a board does that follows, and says what it does not keep; then it says that it keeps the entry."""
    first = boards.first("first", "--second", "1", "--strict")
    airport, client = first.caller(1), Caller(first.watch)
    client.send("from 0 as 5\nkept 1\nkept 1000000\n")
    time.sleep(0.5)
    client.send("kept 1\nkept 2\n")
    time.sleep(0.5)
    airport.send(f"{TICK}\n")
    head, entry = client.line() or "", client.line()
    cases.expect("it is sent a line of the journal", head.startswith('{"journal":"'), head)
    cases.expect("and the entry", f"{entry}\n".encode() == first.kept.read_bytes(), entry)
    cases.expect("what it said before does not count", airport.is_silent(1), airport.held)
    for line in NO_WORD:
        client.send(f"{line}\n")
        cases.expect(f"{line!r} lets no reply out", airport.is_silent(0.1), airport.held)
    for name, given in (
        ("bytes", bytes(range(256)) * 40 + b"\n"),
        ("no text", b"\xff\xfe\xfdkept 1\n"),
        ("10,000 bytes without a line feed", b"x" * 10_000),
        ("nor the line behind them", b"kept 1\n"),
        ("a line that is begun with another one", b"kept 1kept 1\n" + b"kept 1" * 2_000 + b"\n"),
        ("a line of 33 bytes", b"kept 1" + b" " * 27 + b"\n"),
        ("half a line", b"kept 1"),
    ):
        client.send(given)
        cases.expect(f"{name}: no reply", airport.is_silent(0.3), airport.held)
    cases.expect("none at all", airport.is_silent(SHORT) and first.followers() == "followers 0 of 1 late", first.followers())
    cases.expect("it goes on", first.ran.poll() is None and "entries 1 of" in first.ask("status"), first.said)
    speaks(cases, first, airport, client)


def speaks(cases, first, airport, client):
    """The same client ends a line by which it says that it keeps the entry; and so does another one, of later entries."""
    client.send("\n")
    cases.expect("the end of that line lets the reply out", airport.line() == "ok 0")
    cases.expect("and it is told as a board", first.says("back 1 of 1") and first.followers() == "followers 1 of 1", first.said)
    airport.send(f"{TICK}\n")
    cases.expect("the next reply waits", airport.is_silent(1), airport.held)
    for byte in b"kept 2\n":
        client.send(bytes([byte]))
        time.sleep(0.02)
    cases.expect("byte by byte it counts too", airport.line() == "ok 1")
    client.close()
    cases.expect("it is gone", first.waits_for(lambda: first.followers().startswith("followers 0 of 1")), first.followers())
    airport.send(f"{TICK}\n")
    cases.expect("then no reply comes", airport.is_silent(1), airport.held)
    client = Caller(first.watch)
    client.send("from 3 as 6\n")
    cases.expect("a newer one is told that it has all", '"next":3,' in (client.line() or ""))
    client.send("what\nkept 3\n")
    cases.expect("its word counts", airport.line() == "ok 2")
    client.close()
    closed = first.close(MOST)
    cases.expect("it closes", closed[:2] == ("closing\n", 0) and closed[2][-1:] == ["closed 3"], closed)


def named(cases, boards):
    """Of two boards that are to keep an entry each has its own name: two connections of one are one board."""
    first = boards.first("first", "--second", "2", "--strict")
    airport = first.caller(1)
    airport.send(f"{TICK}\n")
    cases.expect("an entry is kept", first.waits_for(first.kept.read_bytes), first.said)
    one, same, plain, other = (Caller(first.watch) for _ in range(4))
    for it, line in ((one, "from 0 as 7"), (same, "from 0 as 7"), (plain, "from 0"), (other, "from 0 as 8")):
        it.send(f"{line}\n")
        cases.expect(f"{line} has the entry", bool(it.line()) and it.gets(first.kept.read_bytes()), it.held)
    for it in (one, same, plain):
        it.send("kept 1\n")
    cases.expect("one board twice: no reply", airport.is_silent(SHORT), airport.held)
    cases.expect("it is told of as one", first.followers() in ("followers 1 of 2", "followers 1 of 2 late"), first.followers())
    other.send("kept 1\n")
    cases.expect("with another one the reply comes", airport.line() == "ok 0", first.said)
    one.close()
    same.close()
    cases.expect("it has left", first.waits_for(lambda: first.followers().startswith("followers 1 of 2")), first.followers())
    more = [Caller(first.watch) for _ in range(9)]
    for number, it in enumerate(more):
        it.send(f"from 0 as {number + 20}\n")
        cases.expect(f"board {number + 1} of nine is sent the journal", bool(it.line()) and it.gets(first.kept.read_bytes()), it.held)
    airport.send(f"{TICK}\n")
    for it in (more[7], more[8]):
        it.send("kept 2\n")
    cases.expect("for two more there is no place", airport.is_silent(SHORT), airport.held)
    for it in more[:2]:
        it.send("kept 2\n")
    cases.expect("two of the others let the reply out", airport.line() == "ok 1", first.said)
    for line in ("from 0 as", "from 0 as ", "from 0 as 01", "from 0 as x", "from  0 as 1", "from 0  as 1", "from 0 as 1 ", "from 0 AS 1"):
        it = Caller(first.watch)
        it.send(f"{line}\n")
        cases.expect(f"{line!r} is let go", it.rest() == b"", it.held)
    cases.expect("it closes", first.close(MOST)[:2] == ("closing\n", 0))


def chain(cases, boards):
    """A board that follows is followed itself, and its own replies wait for that one once it was promoted."""
    first = boards.first("first", "--second", "1")
    second = boards.second(first, "copy", "--second", "1", "--strict")
    third = boards.second(second, "chain", "--second", "1")
    expect_soon(cases, "the first one", first.caller(1), 0, 5, second.kept)
    cases.expect("the third one has them", third.has(5), third.entries())
    cases.expect("who follows does not tell of others", "followers " not in second.ask("status"), second.ask("status"))
    first.kill()
    cases.expect("it is promoted", second.promote(), second.said)
    expect_soon(cases, "the second one", second.caller(1), 5, 10, third.kept)
    cases.expect("it tells of the third", second.followers() == "followers 1 of 1", second.followers())
    term = Caller(second.watch).asks("term")
    cases.expect("who asks is told its new term", f"\n{term}\n" in second.ask("status") and term != "term 1", term)
    third.kill()
    airport = second.caller(1)
    airport.send(f"{TICK}\n")
    cases.expect("without the third no reply", airport.is_silent(SHORT), airport.held)
    third = boards.second(second, "chain", "--second", "1")
    cases.expect("with it the reply comes", airport.line() == "ok 15", second.said)
    cases.expect("the files are the same", third.has(16) and third.kept.read_bytes() == second.kept.read_bytes())


NO_NUMBER = "invalid value for '--second <N>': it is not a number from 1 to 8"
NO_FILE = "'--second <N>' needs '--keep <FILE>'"
NO_WATCH = "'--second <N>' needs '--watch <ADDR>'"
NO_SECOND = "'--strict' needs '--second <N>'"
NO_JOURNAL = "invalid value for '--journal <N>': it is not a number from 1 to 1000000"


def refused(cases, boards):
    """Words that are refused, before anything is begun; and a file of settings."""
    program, file, partner = boards.program, boards.folder / "kept", "APT=127.0.0.1:0"
    keep, follow = ["--keep", str(file)], ["follow", "127.0.0.1:1"]
    settings = boards.folder / "board.toml"
    for given, why in (
        (["serve", *keep, "--second", "0"], NO_NUMBER),
        (["serve", *keep, "--second", "9"], NO_NUMBER),
        (["serve", *keep, "--second", "x"], NO_NUMBER),
        (["serve", *keep, "--second="], NO_NUMBER),
        (["serve", *keep, "--second=-1"], NO_NUMBER),
        (["serve", *keep, "--second", "4294967297"], NO_NUMBER),
        (["serve", *keep, "--second", "0", "--strict"], NO_NUMBER),
        (["serve", "--second", "1"], NO_FILE),
        (["serve", "--second", "1", "--strict"], NO_FILE),
        (["serve", *keep, "--second", "1"], NO_WATCH),
        (["serve", *keep, "--second", "8", "--strict", "--changes", "127.0.0.1:0"], NO_WATCH),
        (["serve", "--watch", "127.0.0.1:0", "--second", "1"], NO_FILE),
        (["serve", *keep, "--strict"], NO_SECOND),
        (["serve", "--strict"], NO_SECOND),
        ([*follow, *keep, "--second", "0"], NO_NUMBER),
        ([*follow, *keep, "--strict"], NO_SECOND),
        ([*follow, "--second", "1"], "--keep"),
        (["serve", *keep, "--second"], "--second"),
        (["serve", *keep, "--strict=yes", "--second", "1"], "--strict"),
        (["serve", *keep, "--watch", "127.0.0.1:0", "--second", "1", "--strict", "--journal", "0"], NO_JOURNAL),
    ):
        done = ran(program, [*given, partner])
        name = " ".join(given).replace(str(file), "FILE")
        cases.expect(f"{name}: status", (done.returncode, done.stdout) == (2, b""), (done.returncode, done.stdout))
        cases.expect(f"{name}: why", why in done.stderr.decode(), done.stderr.decode())
    for text, why in (("second = 0", NO_NUMBER), ("strict = true", NO_SECOND), ('second = "1"', "second: not a whole number")):
        settings.write_text(f'keep = "{file}"\n{text}\npartners = ["{partner}"]\n')
        done = ran(program, ["serve", "--config", str(settings)])
        cases.expect(f"{text}: refused", (done.returncode, done.stdout) == (2, b"") and why in done.stderr.decode(), done.stderr.decode())
    cases.expect("no file was made", not file.exists())
    given = f'keep = "{file}"\nwatch = "127.0.0.1:0"\nagain = true\nsecond = 8\nstrict = true\npartners = ["{partner}"]\n'
    settings.write_text(given)
    given = [str(program), "serve", "--config", str(settings)]
    with subprocess.Popen(given, stdout=subprocess.PIPE, stderr=subprocess.DEVNULL, text=True) as board:
        try:
            airport = Caller(int(board.stdout.readline().split()[3].rsplit(":", 1)[1]))
            airport.send(f"{TICK}\n")
            cases.expect("8 boards of a file of settings: no reply without them", airport.is_silent(SHORT), airport.held)
        finally:
            board.kill()


def readers(cases, boards):
    """Readers of the journal that do not say what they keep count for nothing, and disturb nobody."""
    (changes,) = free_ports(1)
    first = boards.first("first", "--second", "1", "--strict", "--changes", f"127.0.0.1:{changes}")
    airport = first.caller(1)
    airport.send(f"{TICK}\n")
    cases.expect("an entry is kept", first.waits_for(first.kept.read_bytes), first.said)
    silent, askers, ahead, strange = ([Caller(first.watch) for _ in range(8)] for _ in range(4))
    feed = Caller(changes)
    feed.send("from 0\n")
    for it in askers:
        it.send("from 0\n")
    for it in ahead:
        it.send("from 7\n")
    for it, given in zip(strange, ("board\n", "kept 1\n", "GET / HTTP/1.0\r\n\r\n", "\n", "from\n", "x" * 40, "from -1\n", "\xff\n")):
        it.send(given)
    text = first.kept.read_bytes()
    cases.expect("who says nothing has the journal", all(it.gets(text) for it in silent), silent[0].held)
    heads = [it.line() or "" for it in (*askers, *ahead)]
    cases.expect("who asks has its line", all(it.startswith('{"journal":') for it in heads), heads[0])
    cases.expect("and what was asked for", all(it.gets(text) for it in askers), askers[0].held)
    cases.expect("another word is let go", all(it.rest() == b"" for it in strange))
    cases.expect("the feed is told", (feed.line() or "").startswith('{"journal":') and '"entry":0,' in (feed.line() or ""), feed.held)
    for it in (*silent, feed):
        it.send("kept 1\n")
    cases.expect("none of them lets a reply out", airport.is_silent(SHORT), airport.held)
    beside_readers(cases, boards, first, airport, [*silent, *askers])


def beside_readers(cases, boards, first, airport, callers):
    """A board follows beside readers, of whom some leave, and then the board does."""
    cases.expect("none of them counts", first.waits_for(lambda: first.followers() == "followers 0 of 1 late"), first.followers())
    second = boards.second(first, "copy")
    cases.expect("a board that follows lets it out", airport.line() == "ok 0", second.said)
    cases.expect("it alone counts", first.followers() == "followers 1 of 1", first.followers())
    expect_soon(cases, "beside the readers", airport, 1, 50, second.kept)
    text = first.kept.read_bytes()
    cases.expect("they have all of it", all(it.gets(text) for it in callers))
    for it in callers[:12]:
        it.close()
    expect_soon(cases, "without some of them", airport, 51, 10, second.kept)
    second.kill()
    airport.send(f"{TICK}\n")
    cases.expect("then none lets a reply out", airport.is_silent(SHORT), airport.held)
    second = boards.second(first, "copy")
    cases.expect("but a board that follows", airport.line() == "ok 61", second.said)
    cases.expect("it has said nothing else", first.turns() in (["late 0 of 1", "back 1 of 1"] * it for it in (1, 2)), first.said)
    cases.expect("it closes", first.close(MOST)[:2] == ("closing\n", 0))


TRIES = (
    *(alone, at_that_moment, switched, strictly, closes_soon, closes_answering, closes_loaded, parted, full, promoted, two),
    *(stopped, reset, ticking, unheard, junk, named, chain, refused, readers),
)


def tried(cases, boards, name, try_it, *arguments):
    """One try, to its end or to its failure."""
    cases.name, boards.folder = name, boards.folder / name
    boards.folder.mkdir()
    try:
        try_it(cases, boards, *arguments)
    except Exception:
        cases.expect("to the end", False, traceback.format_exc())
    finally:
        boards.end()
        boards.folder = boards.folder.parent
        boards.begun.clear()


def give_up(cases, boards, made):
    """Ends it all where something hangs."""
    cases.expect("it ends in its time", False)
    boards.end()
    shutil.rmtree(made, ignore_errors=True)
    cases.end()
    sys.stdout.flush()
    os._exit(1)


def main():
    parser = words(__doc__)
    parser.add_argument("--kills", type=int, default=40, help="how often the first board is killed under load")
    parser.add_argument("--only", choices=[*(it.__name__ for it in TRIES), "kills"], help="try this alone")
    parser.add_argument("--times", action="store_true", help="print how long each took")
    asked = parser.parse_args()
    signal.signal(signal.SIGTERM, lambda *_: sys.exit(1))
    with tempfile.TemporaryDirectory() as made:
        cases, boards = Tried(), Boards(asked.program.resolve(), pathlib.Path(made))
        timer = threading.Timer(LIMIT + LIMIT_A_KILL * asked.kills, give_up, (cases, boards, made))
        timer.daemon = True
        timer.start()
        given = {it.__name__: (it,) for it in TRIES} | {"kills": (kills, asked.kills)}
        for name, what in given.items():
            began = time.monotonic()
            if asked.only in (None, name):
                tried(cases, boards, name, *what)
            if asked.times:
                print(f"{name}: {time.monotonic() - began:.1f} s", flush=True)
        timer.cancel()
    return cases.end()


if __name__ == "__main__":
    sys.exit(main())
