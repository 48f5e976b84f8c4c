#!/usr/bin/env python3
"""Holds what partners, displays and the operator of `acdm serve` are sent against what is owed, where something is slow, late or many.

    python3 bench/hostile/serving.py [--program PATH]

A partner that reads late and little, under each word that keeps partners, of a program that is stopped meanwhile; a second connection
at an address that is taken; `close` with 2,000 lines in hand; replies that an older connection has not taken; a pace after silence;
levels of rooms that do not divide; moments beside the machine's clock; a display that reads late, one that reads nothing, and those
that connect at the end; a partner that reads, and a display that does not, once the board closes; who stays at the end, and has a
second there; ticks of the board's own, also seldom ones and where it slept. The last line is `N cases, M failed`; status 1 where one failed.
"""

import datetime
import hashlib
import pathlib
import signal
import socket
import sys
import tempfile
import threading
import time

from again import Board, free_port, is_held_up
from cases import ALERTS, SCHEDULE, Cases, cause, ran, words

SHOW = '{"cmd":"show","flight":7}'
TICK = '{"cmd":"tick"}'
MANY = 2000
# So many flights that 2,000 replies with all of them are more than the system holds of a connection that nobody reads.
FLIGHTS = range(1, 401)
FULL = ";".join(f"{number}:CDM13" for number in FLIGHTS)


BEGINNING = threading.Lock()


def opened(program, options, roles):
    """A board, and the port of its display where DISPLAY stands for its address; begun again where another took a port between."""
    for _ in range(5):
        with BEGINNING:
            port = free_port()
            given = [f"127.0.0.1:{port}" if it == "DISPLAY" else it for it in options]
            try:
                return Board([program], given, roles), port
            except IndexError:
                continue
    raise OSError("no board begins")


def sends(partner, lines):
    """Sends lines from a thread of its own, since the other side may not take them; an end of the connection is no fault."""

    def send():
        try:
            partner.send("".join(f"{line}\n" for line in lines))
        except OSError:
            pass

    sender = threading.Thread(target=send, daemon=True)
    sender.start()
    return sender


def fill_board(partner):
    """Schedules the flights, each of which has an alert from then on; says whether each was accepted."""
    lines = [SCHEDULE.replace('"flight":7', f'"flight":{number}') for number in FLIGHTS]
    sends(partner, lines)
    return all(partner.replies.readline().startswith("ok ") for _ in lines)


def received(connection, most):
    """The next bytes of a connection; none where it ends, fails, or gives nothing for long."""
    try:
        return connection.recv(most)
    except OSError:
        return b""


def rest_of(connection):
    """All bytes of a connection up to its end."""
    pieces = []
    while piece := received(connection, 1 << 20):
        pieces.append(piece)
    return b"".join(pieces)


def shape(reply):
    """A reply without what is the same in all replies of its kind: its word and its number."""
    return " ".join(reply.split(" ")[:2])


def late_reader(cases, program, given):
    """All replies come to a partner that begins to read once nothing more can be sent, and then takes a little at a time."""
    with tempfile.TemporaryDirectory() as room:
        options = {"--control": ["PORT"], "--keep": [f"{room}/kept"], "--pace": ["4000000000"]}
        board, _ = opened(program, [part for it in given for part in (it, *options.get(it, []))], ["APT", "NM"])
        late, other = board.connect(1, small=True), board.connect(2)
        other.asks(ALERTS)
        cases.expect(f"flights are there, {given}", fill_board(late))
        sender = sends(late, [ALERTS] * MANY)
        cases.expect(f"others go on beside a late reader, {given}", is_held_up(other))
        # (each stop of the program is told to the write that waits)
        for number in (signal.SIGSTOP, signal.SIGCONT) * 3:
            board.ran.send_signal(number)
            time.sleep(0.1)
        data = b""
        count = 0
        while count < MANY:
            piece = received(late.socket, 1000 if len(data) < 20_000 else 1 << 20)
            if not piece:
                break
            data, count = data + piece, count + piece.count(b"\n")
            time.sleep(0.05 if len(data) < 20_000 else 0)
        sender.join(20)
        numbers = [
            it.split(" ")[1]
            for it in data.decode().splitlines()
            if it.startswith("alerts ") and it.endswith(" " + FULL)
        ]
        rising = all(int(one) < int(then) for one, then in zip(numbers, numbers[1:]))
        cases.expect(
            f"a late reader has all replies, each whole, {given}",
            len(numbers) == MANY and rising,
            (len(numbers), len(data)),
        )
        late.close()
        other.close()
        if "--control" in given:
            cases.expect(
                f"and the board ends, {given}", board.close()[1] == 0 if "--again" in given else board.ended()[0] == 0
            )
        else:
            board.ran.terminate()
            board.ran.wait(20)


def second_connection(cases, program, given):
    """Without --again the address is taken by its first partner: another one there changes nothing."""
    board, _ = opened(program, given, ["APT", "NM"])
    first, manager = board.connect(1), board.connect(2)
    cases.expect(f"the first is served, {given}", first.asks(SCHEDULE) == "ok 0")
    for turn in (1, 2):
        try:
            second = board.connect(1)
            came = second.asks(TICK)
            second.close()
        except OSError:
            came = ""
        cases.expect(f"a second connection is not served, {given}", came == "", came)
        cases.expect(f"and the first goes on, {given}", first.asks(TICK) == f"ok {turn}")
    first.close()
    board.waits_for(lambda: board.ran.poll() is not None, 1)
    try:
        later = board.connect(1).asks(TICK)
    except OSError:
        later = ""
    cases.expect(f"nor one that comes when the first has left, {given}", later == "", later)
    cases.expect(f"the other partner goes on, {given}", shape(manager.asks(ALERTS)) == "alerts 3")
    manager.close()
    cases.expect(
        f"and the sessions end, {given}", board.ended() == (0, ["session 1 3 end", "session 2 1 end", "closed 4"])
    )


def close_in_hand(cases, program, given):
    """Of 2,000 lines in hand some are answered when the board closes: the first ones, each of them whole, and these are the journal."""
    with tempfile.TemporaryDirectory() as room:
        saved = pathlib.Path(room) / "saved"
        board, _ = opened(program, [*given, "--control", "PORT", "--save", str(saved)], ["APT", "NM"])
        many, manager = board.connect(1), board.connect(2)
        cases.expect(f"the other is served, {given}", manager.asks(ALERTS) == "alerts 0 -")
        sends(many, [SCHEDULE, *[SHOW] * MANY])
        replies = [many.replies.readline() for _ in range(20)]
        answer = board.ask("close")
        rest = many.replies.read()
        status, lines = board.ended()
        replies += rest.splitlines(keepends=True)
        cases.expect(f"close is answered, {given}", (answer, status) == ("closing\n", 0), (answer, status))
        owed = ["ok 1", *[f"rec {number}" for number in range(2, len(replies) + 1)]]
        cases.expect(
            f"the first lines are answered, in their order, {given}",
            [shape(it.rstrip("\n")) for it in replies] == owed,
            len(replies),
        )
        cases.expect(
            f"each reply is whole, {given}",
            all(it.endswith("\n") and len(it.split()[2]) == 256 for it in replies[1:]),
            replies[-1][-20:],
        )
        ends = [f"session 1 {len(replies)} end", "session 2 1 end", f"closed {len(replies) + 1}"]
        cases.expect(f"and each that was entered has its reply, {given}", lines == ends, (lines, len(replies)))
        done = ran(program, ["audit", str(saved)])
        cases.expect(
            f"which is the journal, {given}", done.stdout.decode() == f"legal {len(replies) + 1}\n", done.stdout
        )


def taken_late(cases, program):
    """A partner that takes nothing until three seconds after the close has each reply that is owed: it is cut off after five."""
    board, _ = opened(program, ["--again", "--control", "PORT"], ["APT", "NM"])
    late, other = board.connect(1, small=True), board.connect(2)
    cases.expect("flights are there", fill_board(late))
    sender = sends(late, [ALERTS] * MANY)
    cases.expect("it takes no more replies", is_held_up(other))
    begun = time.monotonic()
    cases.expect("close is answered", board.ask("close") == "closing\n")
    time.sleep(3)
    lines = rest_of(late.socket).decode().split("\n")
    status, ends = board.ended()
    took = time.monotonic() - begun
    cases.expect("the board has waited for it", status == 0 and 3 < took < 8, (status, took))
    calls = int(ends[0].split(" ")[2]) - len(FLIGHTS)
    whole = all(it.startswith("alerts ") and it.endswith(" " + FULL) for it in lines[:-1])
    cases.expect("each entry has its reply, whole", lines[-1] == "" and whole and len(lines) - 1 == calls, (len(lines), calls, ends))
    sender.join(20)


def older_replies(cases, program):
    """A newer connection gets the replies to its own lines, however many an older one has not taken."""
    board, _ = opened(program, ["--again", "--control", "PORT"], ["APT", "NM"])
    cases.expect("flights are there", fill_board(board.connect(1)))
    other = board.connect(2)
    for turn in range(3):
        older = board.connect(1, small=True)
        sender = sends(older, [ALERTS] * MANY)
        cases.expect(f"it takes no more replies, turn {turn}", is_held_up(other))
        newer = board.connect(1)
        first, second = newer.asks(SHOW), newer.asks(TICK)
        cases.expect(
            f"the newer one's first reply is its own, turn {turn}",
            len(first.split(" ")) == 3 and first.startswith("rec "),
            first[:60],
        )
        cases.expect(
            f"and the next, turn {turn}", shape(second).startswith("ok ") and len(second.split()) == 2, second[:60]
        )
        data = b""
        while piece := received(older.socket, 1 << 20):
            data += piece
        others = [
            it for it in data.decode().split("\n")[:-1] if not (it.startswith("alerts ") and it.endswith(" " + FULL))
        ]
        cases.expect(f"the older one has replies of its own alone, turn {turn}", not others, others[:1])
        sender.join(20)
        older.close()
        newer.close()
    cases.expect("the board ends", board.close()[1] == 0)


def pace_after_silence(cases, program):
    """Silence gives no more than N lines at once, and what was used comes back by N in a minute."""
    board, _ = opened(program, ["--again", "--control", "PORT", "--pace", "600"], ["APT"])
    partner = board.connect(1)
    cases.expect("a first line", partner.asks(TICK) == "ok 0")
    time.sleep(3)
    begun = time.monotonic()
    sends(partner, [TICK] * 640)
    for _ in range(640):
        partner.replies.readline()
    took = time.monotonic() - begun
    # (600 at once, and 10 a second after that)
    cases.expect("silence gives no more than a minute's lines at once", 3 < took < 20, took)
    time.sleep(2)
    begun = time.monotonic()
    sends(partner, [TICK] * 40)
    at = []
    for _ in range(40):
        partner.replies.readline()
        at.append(time.monotonic() - begun)
    cases.expect("two seconds give back 20 lines", at[14] < 1.2, at[14])
    cases.expect("and no more", at[39] > 1, at[39])
    cases.expect("the board ends", board.close()[1] == 0)


def levels(cases, program):
    """80 and 95 per cent of rooms that do not divide are reached by the first entry that is not below them."""
    for room, first, second in ((7, 6, 7), (11, 9, 11), (21, 17, 20), (1, 1, 1), (3, 3, 3), (5, 4, 5), (9, 8, 9)):
        board, _ = opened(program, ["--again", "--control", "PORT", "--journal", str(room)], ["APT"])
        partner = board.connect(1)

        def told(board=board):
            return [it.split()[:5] for it in board.said if it.startswith("room ")]

        wrong = []
        for number in range(1, room + 1):
            partner.asks(TICK)
            owed = [
                ["room", level, str(at), "of", str(room)]
                for level, at in (("80", first), ("95", second))
                if at <= number
            ]
            if not board.waits_for(lambda owed=owed, told=told: told() == owed, 3):
                wrong.append((number, told()))
            time.sleep(0.06 if number in (first - 1, second - 1) else 0)
            wrong += [(number, told())] if told() != owed else []
        cases.expect(f"the levels of {room} entries", not wrong, wrong)
        partner.close()
        cases.expect(f"a board of {room} ends", board.close()[1] == 0)


def two_at_once(cases, program):
    """Of two lines that come at once the second one's reply does not wait until the first one's has arrived."""
    for given in ([], ["--again", "--control", "PORT"]):
        board, _ = opened(program, given, ["APT"])
        partner = board.connect(1)
        took = []
        for _ in range(60):
            begun = time.monotonic()
            partner.send(f"{TICK}\n" * 2)
            replies = [partner.replies.readline() for _ in range(2)]
            took.append(time.monotonic() - begun)
            time.sleep(0.01)
        cases.expect(f"both are answered, {given}", replies == ["ok 118\n", "ok 119\n"], replies)
        # (a system holds back what it has received of a reply for some 40 milliseconds, once a connection has been used)
        cases.expect(f"at once, {given}", min(took) < 0.015, min(took))
        partner.close()
        cases.expect(f"the board ends, {given}", (board.close()[1] if given else board.ended()[0]) == 0)


def moments(cases, program):
    """Entries, connections and the last entry have the machine's own moment."""
    with tempfile.TemporaryDirectory() as room:
        kept = pathlib.Path(room) / "kept"
        kept.write_bytes(b"0 1 29000580 APT 0 0 tick\n")
        before = time.time()
        board, _ = opened(program, ["--again", "--control", "PORT", "--keep", str(kept)], ["APT"])
        cases.expect("the last entry is of the day before", board.ask("status").endswith("last 2025-02-20T07:00:00Z\n"))
        partner = board.connect(1)
        cases.expect("the board goes on", partner.asks(TICK) == "ok 1")
        last = board.ask("status").splitlines()[-1]
        partner.close()
        board.waits_for(lambda: board.told(1, "gone") == 1)
        cases.expect("the board ends", board.close()[1] == 0)
        after = time.time()
        minute = int(kept.read_text(encoding="ascii").splitlines()[1].split()[2])
        cases.expect("an entry has the minute of the clock", before // 60 <= minute <= after // 60, minute)
        cases.expect(
            "and the status tells it", last == time.strftime("last %Y-%m-%dT%H:%M:00Z", time.gmtime(60 * minute)), last
        )
        for line in board.said:
            if line.split()[0] in ("here", "gone"):
                told = datetime.datetime.strptime(line.split()[-1], "%Y-%m-%dT%H:%M:%SZ").replace(
                    tzinfo=datetime.timezone.utc
                )
                cases.expect(
                    "who comes and goes is told by the clock", before - 1 <= told.timestamp() <= after + 1, line
                )


def late_display(cases, program):
    """A display that begins to read late, and takes a little at a time, is told of all entries."""
    with tempfile.TemporaryDirectory() as room:
        saved = pathlib.Path(room) / "saved"
        given = ["--again", "--control", "PORT", "--save", str(saved), "--changes", "DISPLAY"]
        board, port = opened(program, given, ["APT"])
        display = socket.socket()
        display.setsockopt(socket.SOL_SOCKET, socket.SO_RCVBUF, 4096)
        display.settimeout(20)
        display.connect(("127.0.0.1", port))
        display.sendall(b"from 0\n")
        partner = board.connect(1)
        sends(partner, [SCHEDULE, *[SCHEDULE] * MANY])
        for _ in range(MANY + 1):
            partner.replies.readline()
        time.sleep(4)
        data = b""
        count = 0
        while count < MANY + 2:
            piece = received(display, 2000 if len(data) < 40_000 else 1 << 20)
            if not piece:
                break
            data, count = data + piece, count + piece.count(b"\n")
            time.sleep(0.02 if len(data) < 40_000 else 0)
        display.close()
        partner.close()
        cases.expect("the board ends", board.close()[1] == 0)
        told = ran(program, ["tell", str(saved)]).stdout
        head, _, lines = data.partition(b"\n")
        name = hashlib.sha256(saved.read_bytes().split(b"\n")[0]).hexdigest()[:32].encode("ascii")
        cases.expect("a late display is told the journal", head.startswith(b'{"journal":"' + name + b'","next":0,'), head)
        cases.expect("a late display has each line whole", lines == told, (len(data), len(told)))


def last_display(cases, program):
    """A display that takes nothing at the end is waited for five seconds, and what it was sent is a beginning of all."""
    with tempfile.TemporaryDirectory() as room:
        saved = pathlib.Path(room) / "saved"
        given = ["--again", "--control", "PORT", "--save", str(saved), "--changes", "DISPLAY"]
        board, port = opened(program, given, ["APT"])
        partner = board.connect(1)
        for _ in range(12):
            sends(partner, [SCHEDULE] * MANY)
            for _ in range(MANY):
                partner.replies.readline()
        display = socket.socket()
        # (what it is sent, 17 MB, is more than the system holds of a connection, 4 MB and some, so that the board has to wait)
        display.setsockopt(socket.SOL_SOCKET, socket.SO_RCVBUF, 65536)
        display.settimeout(20)
        display.connect(("127.0.0.1", port))
        display.sendall(b"from 0\n")
        time.sleep(3)
        partner.close()
        begun = time.monotonic()
        cases.expect("close is answered", board.ask("close") == "closing\n")
        status, _ = board.ended()
        took = time.monotonic() - begun
        cases.expect("the board has waited for the display", status == 0 and 4.5 < took < 15, (status, took))
        lines = rest_of(display).partition(b"\n")[2]
        told = ran(program, ["tell", str(saved)]).stdout
        cases.expect("which was sent a beginning", told.startswith(lines) and b"" < lines < told, (len(lines), len(told)))


def own_ticks(cases, program):
    """A board that ticks by itself: in a session of its own, in role APT, each so many seconds, until all others have ended."""
    for options in (["--again", "--control", "PORT"], ["--control", "PORT"], ["--keep"]):
        name = " ".join(options)
        with tempfile.TemporaryDirectory(prefix="acdm-ticks-") as folder:
            journal = pathlib.Path(folder) / "day"
            given = [*options, journal] if "--keep" in options else ["--save", journal, *options]
            began = time.monotonic()
            board, _ = opened(program, ["--tick", "1", *map(str, given)], ["GH"])
            partner = board.connect(1)
            time.sleep(3.6)
            number = int(partner.asks(SHOW).split(" ")[1])
            passed = int(time.monotonic() - began)
            cases.expect(f"{name}, a tick a second", 3 <= number <= passed, (number, passed))
            if "PORT" in options:
                status = board.ask("status")
                cases.expect(f"{name}, status names it", "session 2 APT ticks each 1 s\n" in status, status)
                partner.close()
                answer, status, lines = board.close() if "--again" in options else ("closing\n", *board.ended())
            else:
                partner.close()
                answer, (status, lines) = "closing\n", board.ended()
            entries = [line.split(" ") for line in journal.read_text().splitlines()]
            ticks = [it for it in entries if it[1] == "2"]
            cases.expect(f"{name}, it ends with the others", (answer, status) == ("closing\n", 0), (answer, status, lines))
            cases.expect(f"{name}, its end is told", f"session 2 {len(ticks)} end" in lines and "session 1 1 end" in lines, lines)
            cases.expect(f"{name}, ticks in role APT", all(it[3:] == ["APT", "0", "0", "tick"] for it in ticks), ticks)
            cases.expect(f"{name}, and nothing else", len(entries) == len(ticks) + 1, entries)
            cases.expect(f"{name}, no tick too many", number <= len(ticks) <= int(time.monotonic() - began) + 1, len(ticks))
    for seconds in ("0", "86401", "-1", "1.5", "x"):
        done = ran(program, ["serve", "--tick", seconds, "APT=127.0.0.1:0"])
        told = b"'--tick <SECONDS>': it is not a number from 1 to 86400" in done.stderr or seconds == "-1"
        cases.expect(f"--tick {seconds}", (done.returncode, done.stdout, told) == (2, b"", True), done)
    words_of_many = ["APT=127.0.0.1:0"] * 64
    done = ran(program, ["serve", "--tick", "60", *words_of_many])
    told = "acdm: address 64\n" + cause("APT=127.0.0.1:0", "more sessions than 64, of which ticks take one")
    cases.expect("64 partners and ticks", (done.returncode, done.stdout, done.stderr) == (2, b"", told.encode()), done)
    board, _ = opened(program, ["--tick", "60", "--again", "--control", "PORT"], ["GH"] * 63)
    status = board.ask("status")
    cases.expect("63 partners and ticks", "session 63 GH " in status and "session 64 APT ticks each 60 s\n" in status, status)
    answer, status, _ = board.close()
    cases.expect("63 partners and ticks end", (answer, status) == ("closing\n", 0), (answer, status))


def seldom(cases, program):
    """A board that ticks each four seconds enters the first tick after four."""
    began = time.monotonic()
    board, _ = opened(program, ["--tick", "4", "--again", "--control", "PORT"], ["GH"])
    before = int(board.ask("status").split("entries ")[-1].split(" ")[0])
    cases.expect("a board ticks", board.waits_for(lambda: "entries 0 of" not in board.ask("status")))
    took = time.monotonic() - began
    cases.expect("after four seconds", before == 0 and 3.9 < took < 12, (before, took))
    cases.expect("it ends", board.close()[1] == 0)


def slept(cases, program):
    """A board that slept: the ticks that it has missed are one."""
    board, _ = opened(program, ["--tick", "1", "--again", "--control", "PORT"], ["GH"])
    partner = board.connect(1)

    def number():
        return int(partner.asks(SHOW).split(" ")[1])

    cases.expect("a board ticks", board.waits_for(lambda: number() > 2))
    before = number()
    board.ran.send_signal(signal.SIGSTOP)
    time.sleep(5)
    board.ran.send_signal(signal.SIGCONT)
    time.sleep(0.5)
    # (one entry is that of the question before)
    ticks = number() - before - 1
    cases.expect("what it missed is one tick", 1 <= ticks <= 2, ticks)
    time.sleep(3)
    more = number() - before - 2 - ticks
    cases.expect("and it ticks on, each second", 2 <= more <= 4, more)
    partner.close()
    cases.expect("it ends", board.close()[1] == 0)


def by_its_start(cases, program):
    """Of a board that slept the next tick comes by the moment at which it began, and not so long behind the last one."""
    board, port = opened(program, ["--tick", "4", "--again", "--control", "PORT", "--watch", "DISPLAY"], ["GH"])
    with socket.create_connection(("127.0.0.1", port), timeout=30) as display, display.makefile("rb") as entries:
        came = [entries.readline()]
        board.ran.send_signal(signal.SIGSTOP)
        # (from 4 seconds behind its start to 10: the tick of the eighth second comes then, and the next in the twelfth)
        time.sleep(6)
        board.ran.send_signal(signal.SIGCONT)
        came.append(entries.readline())
        begun = time.monotonic()
        came.append(entries.readline())
        took = time.monotonic() - begun
    cases.expect("three ticks come", all(it.endswith(b" tick\n") for it in came), came)
    cases.expect("the last one sooner than a period behind the one that was missed", took < 3, took)
    cases.expect("it ends", board.close()[1] == 0)


def stopped_display(cases, program):
    """A display that takes nothing for half a minute is let go, and another one is sent all."""
    with tempfile.TemporaryDirectory() as room:
        saved = pathlib.Path(room) / "saved"
        board, port = opened(program, ["--journal", "400000", "--again", "--control", "PORT", "--save", str(saved), "--watch", "DISPLAY"], ["APT"])
        still, other = socket.socket(), socket.socket()
        still.setsockopt(socket.SOL_SOCKET, socket.SO_RCVBUF, 65536)
        for it in (still, other):
            it.settimeout(20)
            it.connect(("127.0.0.1", port))
        heard = []
        reading = threading.Thread(target=lambda: heard.append(rest_of(other)), daemon=True)
        reading.start()
        partner = board.connect(1)
        count = 0
        for _ in range(100):
            sends(partner, [SCHEDULE] * MANY)
            for _ in range(MANY):
                count += partner.replies.readline()[:3] in ("ok ", "no ")
        cases.expect("all lines are answered beside it", count == 100 * MANY, count)
        time.sleep(38)
        data = rest_of(still)
        partner.close()
        cases.expect("the board ends", board.close()[1] == 0)
        reading.join(20)
        text = saved.read_bytes()
        cases.expect("who took nothing was sent the first part", text.startswith(data) and len(data) < len(text), (len(data), len(text)))
        cases.expect("the other display has all", heard == [text], [len(it) for it in heard])


def deaf_board(cases, program):
    """A client that follows as a board, and takes nothing of what it is sent, delays the end by five seconds, as a display does."""
    with tempfile.TemporaryDirectory() as room:
        kept = pathlib.Path(room) / "kept"
        load = f"1 29000580 APT 0 0 load 9 alert {'b700000000000000' * 3000}b7000000010000009500000000000000"
        kept.write_text("".join(f"{number} {load}\n" for number in range(6)), encoding="ascii")
        options = ["--again", "--control", "PORT", "--keep", str(kept), "--watch", "DISPLAY", "--second", "1"]
        board, port = opened(program, options, ["APT"])
        with socket.socket() as client:
            # (with the least pieces a system holds little of a connection, and not all of this journal)
            client.setsockopt(socket.IPPROTO_TCP, socket.TCP_MAXSEG, 536)
            client.setsockopt(socket.SOL_SOCKET, socket.SO_RCVBUF, 4096)
            client.settimeout(30)
            client.connect(("127.0.0.1", port))
            client.sendall(b"from 0 as 5\n")
            cases.expect("it is sent the journal", client.recv(12, socket.MSG_PEEK) == b'{"journal":"')
            begun = time.monotonic()
            answer, status, lines = board.close(60)
            took = time.monotonic() - begun
            data = rest_of(client)
        ended = (answer, status, lines) == ("closing\n", 0, ["session 1 0 end", "closed 6"])
        cases.expect("a board ends beside it", ended, (answer, status, lines))
        cases.expect("and it had not taken all", len(data) < kept.stat().st_size, len(data))
        cases.expect("soon", took < 20, took)


def staying(cases, program):
    """At the end a display that was sent all, and stays, has a second, and a browser that has asked for nothing has none."""
    for word, kind, sent in (("--watch", "display", b""), ("--changes", "client of the feed", b"from 0\n"), ("--web", "browser", b"GET / HTTP/1.1\r\n")):
        board, port = opened(program, ["--again", "--control", "PORT", word, "DISPLAY"], ["APT"])
        board.connect(1).asks(TICK)
        with socket.create_connection(("127.0.0.1", port), timeout=20) as viewer:
            viewer.sendall(sent)
            came = word == "--web" or received(viewer, 1000) != b""
            begun = time.monotonic()
            answer, status, lines = board.close()
            took = time.monotonic() - begun
        cases.expect(f"a {kind} is there", came)
        cases.expect(f"a board ends beside a {kind}", (answer, status, lines[-1:]) == ("closing\n", 0, ["closed 1"]), (answer, status, lines))
        cases.expect(f"soon, although the {kind} stays", took < 4, took)


def last_second(cases, program):
    """At the end each kind of display sees that no more comes, and has a second from then on."""
    for name, word, first in (
        ("display", "--watch", b""),
        ("reader from an entry on", "--watch", b"from 0\n"),
        ("client of the feed", "--changes", b"from 0\n"),
        ("browser", "--web", b"GET /events HTTP/1.1\r\n\r\n"),
    ):
        # (on a busy machine the second may be over too soon, so it may be tried more than once)
        is_well = any(is_waited_for(cases, program, name, word, first) for _ in range(3))
        cases.expect(f"a {name} that has seen the end is waited for", is_well)


def is_waited_for(cases, program, name, word, first):
    """Whether a display's connection is still there once it has seen the end."""
    board, port = opened(program, ["--again", "--control", "PORT", word, "DISPLAY"], ["APT"])
    cases.expect(f"a partner is served beside a {name}", board.connect(1).asks(TICK) == "ok 0")
    with socket.create_connection(("127.0.0.1", port), timeout=30) as viewer:
        viewer.sendall(first)
        cases.expect(f"a {name} is sent something", received(viewer, 1000) != b"")
        cases.expect(f"close is answered beside a {name}", board.ask("close") == "closing\n")
        rest_of(viewer)
        # (what is sent to a socket that is closed comes back as an error)
        viewer.send(b"x")
        is_cut = viewer.getsockopt(socket.SOL_SOCKET, socket.SO_ERROR) != 0
    cases.expect(f"the board of a {name} ends", board.ended()[0] == 0)
    return not is_cut


def late_callers(cases, program):
    """Displays that have just connected as the only partner leaves are sent all, however many they are."""
    texts = []
    for _ in range(12):
        board, port = opened(program, ["--watch", "DISPLAY"], ["APT"])
        partner = board.connect(1)
        partner.asks(TICK)
        partner.asks(SHOW)
        displays = [socket.create_connection(("127.0.0.1", port), timeout=20) for _ in range(8)]
        partner.close()
        for it in displays:
            texts.append(rest_of(it))
            it.close()
        ended = board.ended()
        cases.expect("the board ends", ended == (0, ["session 1 2 end", "closed 2"]), ended)
    cases.expect("who has just connected is sent all", all(it.count(b"\n") == 2 for it in texts), [it for it in texts if it.count(b"\n") != 2])


def late_browsers(cases, program):
    """The same of browsers that asked for the events while the program was stopped, and its partner left."""
    texts = []
    for _ in range(4):
        board, port = opened(program, ["--web", "DISPLAY"], ["APT"])
        partner = board.connect(1)
        partner.asks(TICK)
        board.ran.send_signal(signal.SIGSTOP)
        browsers = [socket.create_connection(("127.0.0.1", port), timeout=20) for _ in range(20)]
        for it in browsers:
            it.sendall(b"GET /events HTTP/1.1\r\n\r\n")
        partner.close()
        board.ran.send_signal(signal.SIGCONT)
        for it in browsers:
            texts.append(rest_of(it))
            it.close()
        cases.expect("the board of browsers ends", board.ended()[0] == 0)
    short = [it for it in texts if not it.startswith(b"HTTP/1.1 200 ") or b'"flights":[' not in it]
    cases.expect("a browser that has just asked for the events is sent the board", not short, short[:3])


def tried(make, cases, *given):
    """Makes cases; a fault of the script itself is a case that failed."""
    try:
        make(cases, *given)
    except Exception as fault:  # pylint: disable=broad-exception-caught
        cases.expect(f"{make.__name__} of {given[1:]} comes to its end", False, repr(fault))


# They wait more than they work, and are made at once.
TOGETHER = (pace_after_silence, late_display, own_ticks, seldom, slept, by_its_start, deaf_board, stopped_display)


def main():
    asked = words(__doc__).parse_args()
    program, cases = str(asked.program.resolve()), Cases()
    late = [["--again", "--control"], ["--control"], ["--pace"], ["--keep"], []]
    waiting = [threading.Thread(target=tried, args=(late_reader, cases, program, given)) for given in late]
    waiting += [threading.Thread(target=tried, args=(it, cases, program)) for it in TOGETHER]
    for it in waiting:
        it.start()
    for given in ([], ["--control", "PORT"], ["--pace", "6000"]):
        tried(second_connection, cases, program, given)
    for given in ([], ["--again"]):
        tried(close_in_hand, cases, program, given)
    for it in (older_replies, levels, two_at_once, moments, late_callers, late_browsers):
        tried(it, cases, program)
    for it in waiting:
        it.join()
    # (by themselves, since they look at the time)
    for it in (taken_late, last_display, staying, last_second):
        tried(it, cases, program)
    return cases.end()


if __name__ == "__main__":
    sys.exit(main())
