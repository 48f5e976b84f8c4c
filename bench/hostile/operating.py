#!/usr/bin/env python3
"""Holds what the operator of `acdm serve` is told, by `status` at the control address and in the file of `--log`, against what happened.

    python3 bench/hostile/operating.py [--program PATH]

Lines, entries, refusals and bad lines by their codes, with a bad line of each byte; 64 sessions whose bad lines are told as long as
can be; each event in the log, bad lines that come one by one, a partner that is there at the close, and rooms that are full at the
first look, or by the last lines; the log moved away while partners come and go, also by logrotate, where that is installed; a log
whose disk is full, and has room again (where root may mount one), and one that fails for a second time; and files that can't be a log.
The last line is `N cases, M failed`; status 1 where one failed.
"""

import errno
import grp
import itertools
import json
import os
import pathlib
import pwd
import re
import shlex
import shutil
import signal
import socket
import subprocess
import sys
import tempfile
import threading
import time

from again import Board, free_port
from cases import ALERTS, NO_PLAIN_FILE, SCHEDULE, TAKEN, TARGET, TOP, Cases, cause, ran, words

SHOW = '{"cmd":"show","flight":9}'
TICK = '{"cmd":"tick"}'
MOMENT = r"\d{4}-\d\d-\d\dT\d\d:\d\d:\d\dZ"
EVERY_BYTE = bytes(it for it in range(256) if it != 10)


def events(*paths):
    """What logs tell, one after the other: each line an object, with its moment first."""
    found = []
    for path in paths:
        for line in path.read_bytes().decode("ascii").splitlines(keepends=True):
            event = json.loads(line)
            if not line.endswith("\n") or list(event)[:2] != ["at", "event"] or not re.fullmatch(MOMENT, event["at"]):
                raise ValueError(line)
            found.append({name: it for name, it in event.items() if name != "at"})
    return found


def raw(partner, line):
    """The reply to a line of bytes."""
    partner.socket.sendall(line + b"\n")
    return partner.replies.readline().rstrip("\n")


def counted(cases, program):
    """What `status` says of a session whose lines are known, here and gone, and of one where nobody came."""
    board = Board([program], ["--again", "--control", "PORT"], ["APT", "NM"])
    none = "lines 0 entries 0 refused - bad -"
    cases.expect("a session without lines", board.ask("status").startswith(f"session 1 APT gone {none}\nsession 2 NM gone {none}\n"))
    airport = board.connect(1)
    said = [raw(airport, it.encode()) for it in (SCHEDULE, TARGET, SHOW, SHOW, ALERTS, "{}", '{"cmd":"tick","x":1')]
    owed = ["ok 0", "no 1 201", "no 2 202", "no 3 202"]
    cases.expect("replies", said[:4] == owed and said[4].startswith("alerts 4 ") and said[5:] == ["bad 102", "bad 101"], said)
    line = board.ask("status").splitlines()[0]
    form = rf"session 1 APT here 127\.0\.0\.1:\d+ since ({MOMENT}) lines 7 entries 5 refused 201:1,202:2 bad 101:1,102:1 last (\".*\")"
    told = re.fullmatch(form, line)
    cases.expect("status counts lines by what came of them", told, line)
    cases.expect("and has the last bad one", told and json.loads(told[2]) == '{"cmd":"tick","x":1', line)
    now = time.strftime("%Y-%m-%dT%H:%M:%SZ", time.gmtime())
    cases.expect("since when a partner is here", told and told[1][:16] <= now[:16] and told[1][:13] >= now[:13], (told and told[1], now))
    for text, kept in ((EVERY_BYTE, 200), (b"{" + b"\xff" * 300, 200), (b'{"' + b"\\" * 300, 200), (b"{" + b"a" * 199, 200), (b"{" * 80_000, 200)):
        reply = raw(airport, text if text[:1] == b"{" else b"{" + text)
        wanted = (text if text[:1] == b"{" else b"{" + text)[:kept]
        line = board.ask("status").splitlines()[0]
        cases.expect(f"a bad line is told by its bytes, {text[:8]}", reply.startswith("bad ") and json.loads(line.split(" last ", 1)[1]).encode("latin-1") == wanted, line)
    airport.close()
    board.waits_for(lambda: "session 1 APT gone" in board.ask("status"))
    line = board.ask("status").splitlines()[0]
    cases.expect("counts stay when a partner has left", line.startswith("session 1 APT gone lines 12 entries 5 refused 201:1,202:2 bad 101:5,102:1,105:1 last "), line)
    airport = board.connect(1)
    cases.expect("and go on with the next", airport.asks(TICK) == "ok 5" and " lines 13 entries 6 " in board.ask("status").splitlines()[0])
    airport.close()
    cases.expect("ends", board.close()[1] == 0)


def many(cases, program):
    """64 sessions, each with a bad line whose text is as long as it can be: `status` comes whole."""
    board = Board([program], ["--again", "--control", "PORT"], ["APT"] * 64)
    partners = [board.connect(it) for it in range(1, 65)]
    said = {raw(it, b"{" + b"\xff" * 400) for it in partners}
    cases.expect("each is bad", said == {"bad 101"}, said)
    with socket.create_connection(("127.0.0.1", board.port), timeout=20) as it:
        it.sendall(b"status\n")
        text = b""
        while not text.endswith(b"Z\n") and not text.endswith(b"none\n"):
            piece = it.recv(1 << 20)
            if not piece:
                break
            text += piece
    lines = text.decode().splitlines()
    wanted = "{" + "\xff" * 199
    cases.expect("status of 64 sessions is whole", len(lines) == 68 and all(json.loads(it.split(" last ")[1]) == wanted for it in lines[:64]), len(text))
    for it in partners:
        it.close()
    cases.expect("ends", board.close()[1] == 0)


def each_event(cases, program, room):
    """What happens at a board, in the order in which it happens."""
    log = room / "log"
    board = Board([program], ["--again", "--control", "PORT", "--journal", "20", "--log", str(log)], ["APT", "NM"])
    cases.expect("the log is there", log.read_bytes() == b"")
    airport = board.connect(1)
    airport.asks(TICK)
    cases.expect("bad lines", [airport.asks("{"), airport.asks("{}")] == ["bad 101", "bad 102"])
    cases.expect("a bad line is logged at once", board.waits_for(lambda: "bad" in [it["event"] for it in events(log)]))
    for _ in range(18):
        airport.asks(TICK)
    board.waits_for(lambda: [it["event"] for it in events(log)].count("room") == 2)
    airport.close()
    board.waits_for(lambda: "gone" in [it["event"] for it in events(log)])
    cases.expect("ends", board.close()[1] == 0)
    found = events(log)
    here = found[0] if found else {}
    cases.expect("here", {name: it for name, it in here.items() if name != "address"} == {"event": "here", "session": 1, "role": "APT"}, here)
    cases.expect("by its address", re.fullmatch(r"127\.0\.0\.1:\d+", here.get("address", "")), here)
    bad = [it for it in found if it["event"] == "bad"]
    cases.expect("all bad lines are counted", sum(it["lines"] for it in bad) == 2, bad)
    last = {name: it for name, it in bad[-1].items() if name != "lines"} if bad else {}
    cases.expect("by session, code and bytes", last == {"event": "bad", "session": 1, "role": "APT", "code": 102, "line": "{}"}, bad)
    rooms = [it for it in found if it["event"] == "room"]
    cases.expect("each level of room once", [(it["percent"], it["room"]) for it in rooms] == [(80, 20), (95, 20)], rooms)
    cases.expect("with its entries", all(20 * it["percent"] <= 100 * it["entries"] <= 2000 for it in rooms), rooms)
    tail = [{"event": "gone", "session": 1, "role": "APT"}, {"event": "close", "by": "control", "entries": 19}]
    cases.expect("gone and close come last", found[-2:] == tail, found[-3:])
    kinds = [it["event"] for it in found if it["event"] != "bad"]
    cases.expect("nothing else is told", kinds == ["here", "room", "room", "gone", "close"], kinds)
    cases.expect("standard error is as without a log", [it.split(" ")[0] for it in board.said] == ["here", "room", "room", "gone"], board.said)


def bounded(cases, program, room):
    """More partners and bad lines in a minute than are logged one by one: the others are counted, and none is left out."""
    log = room / "log"
    board = Board([program], ["--again", "--control", "PORT", "--log", str(log)], ["APT", "NM"])
    for turn in range(45):
        partner = board.connect(1)
        cases.expect(f"partner {turn} is served", partner.asks(TICK) == f"ok {turn}")
        if turn == 44:
            line, address = board.ask("status").splitlines()[0], partner.address()
            cases.expect("who is not logged is here all the same", line.startswith(f"session 1 APT here {address} since "), line)
        partner.close()
    manager = board.connect(2)
    for turn in range(60):
        manager.asks(json.dumps({"cmd": "none", "turn": turn}))
        time.sleep(0.03)
    # (a line more in each two seconds is told)
    time.sleep(2.5)
    board.connect(1).asks(TICK)
    counted_now = board.waits_for(lambda: "untold" in [it["event"] for it in events(log)])
    cases.expect("those who were not told are counted once somebody is told again", counted_now, events(log)[-3:])
    # (and of these a few while the board serves, and the others as it ends)
    for turn in range(60, 80):
        manager.asks(json.dumps({"cmd": "none", "turn": turn}))
        time.sleep(0.03)
    manager.close()
    board.waits_for(lambda: board.told(2, "gone") == 1)
    manager = board.connect(2)
    manager.asks(TICK)
    back = board.waits_for(lambda: board.told(2, "here") == 2)
    cases.expect("who comes back behind many bad lines is told all the same", back, board.said[-3:])
    manager.close()
    cases.expect("ends", board.close()[1] == 0)
    found = events(log)
    here = [it for it in found if it["event"] == "here" and it["session"] == 1]
    untold = [it for it in found if it["event"] == "untold"]
    cases.expect("of who comes 30 in a minute are logged", 30 <= len(here) <= 34, len(here))
    cases.expect("and the others counted", len(here) + sum(it["connections"] for it in untold) == 46, (len(here), untold))
    cases.expect("by their session", all((it["session"], it["role"]) == (1, "APT") for it in untold), untold)
    told = [it["event"] for it in found if it.get("session") == 1]
    cases.expect("and before the one that is told next", "here" in told[told.index("untold") :] if untold else False, told[-4:])
    owed = [f".. {it['connections']} connections of 1 not told" for it in untold]
    cases.expect("as on standard error", [it for it in board.said if it.startswith("..")] == owed, (board.said[-5:], owed))
    bad = [it for it in found if it["event"] == "bad"]
    cases.expect("of bad lines 30 in a minute are logged", 1 < len(bad) <= 36, len(bad))
    cases.expect("and all counted, also those just before the end", sum(it["lines"] for it in bad) == 80, bad[-3:])
    cases.expect("the last of them is logged", bad and json.loads(bad[-1]["line"]) == {"cmd": "none", "turn": 79}, bad[-1:])
    cases.expect("and nothing behind the close", found[-1]["event"] == "close", found[-2:])


def counted_at_end(cases, program, room):
    """Partners that were not told are counted as the board ends, where nobody comes after them."""
    log = room / "counted-log"
    board = Board([program], ["--again", "--control", "PORT", "--log", str(log)], ["APT"])
    for turn in range(40):
        partner = board.connect(1)
        cases.expect(f"one of many is served, {turn}", partner.asks(TICK) == f"ok {turn}")
        partner.close()
    cases.expect("the board of many ends", board.close()[1] == 0)
    found = events(log)
    here, untold = ([it for it in found if it["event"] == event] for event in ("here", "untold"))
    cases.expect("all are told, or counted", len(here) + sum(it["connections"] for it in untold) == 40, (len(here), untold))
    owed = [f".. {it['connections']} connections of 1 not told" for it in untold]
    cases.expect("also on standard error", [it for it in board.said if it.startswith("..")] == owed, (board.said[-5:], owed))
    cases.expect("and nothing is told behind the close", found[-1]["event"] == "close", found[-2:])


def one_by_one(cases, program, room):
    """Bad lines that come one after the other, behind a silence: each is logged by itself, and at once."""
    log = room / "log"
    board = Board([program], ["--again", "--control", "PORT", "--log", str(log)], ["APT"])
    airport = board.connect(1)
    airport.asks(TICK)

    def bad():
        return [(it["lines"], it["code"]) for it in events(log) if it["event"] == "bad"]

    # (so long that a board which counts its looks would have counted a minute's thirty)
    time.sleep(1)
    begun = time.monotonic()
    for turn in range(20):
        airport.asks("{}" if turn % 2 else "{")
        if not board.waits_for(lambda turn=turn: len(bad()) > turn, 5):
            break
    took = time.monotonic() - begun
    cases.expect("20 bad lines are logged one by one", bad() == [(1, 101), (1, 102)] * 10, bad())
    cases.expect("within seconds", took < 20, took)
    airport.close()
    cases.expect("ends", board.close()[1] == 0)


def present(cases, program, room):
    """A partner that is there as the board closes: by its address, since one moment, and as gone before the close."""
    log = room / "log"
    board = Board([program], ["--again", "--control", "PORT", "--log", str(log)], ["APT", "NM"])
    manager = board.connect(2)
    cases.expect("served", manager.asks(ALERTS) == "alerts 0 -")
    address, first = manager.address(), board.ask("status").splitlines()[1]
    cases.expect("status has its own address", first.startswith(f"session 2 NM here {address} since "), first)
    time.sleep(1.1)
    then = board.ask("status").splitlines()[1]
    cases.expect("and the same moment a second later", then == first, (first, then))
    cases.expect("ends", board.close()[1] == 0)
    shape = [re.sub(MOMENT, "MOMENT", it) for it in board.said]
    cases.expect("standard error has it here and gone", shape == [f"here 2 {address} MOMENT", "gone 2 MOMENT"], board.said)
    session = {"session": 2, "role": "NM"}
    owed = [{"event": "here", **session, "address": address}, {"event": "gone", **session}, {"event": "close", "by": "control", "entries": 1}]
    cases.expect("and so has the log, before the close", events(log) == owed, events(log))
    manager.close()


def filled_at_end(cases, program, room):
    """A room that is filled by the last lines before the end: both levels are told all the same, before the close."""
    # (where nobody looks again between these lines and the end: they are all there once the board goes on, which was stopped)
    for turn in range(8):
        log = room / f"log{turn}"
        board = Board([program], ["--journal", "5", "--log", str(log)], ["APT"])
        partner = board.connect(1)
        cases.expect(f"its first line is answered, {turn}", partner.asks(TICK) == "ok 0")
        board.ran.send_signal(signal.SIGSTOP)
        partner.send(f"{TICK}\n" * 4)
        partner.socket.shutdown(socket.SHUT_WR)
        time.sleep(0.1)
        board.ran.send_signal(signal.SIGCONT)
        cases.expect(f"it ends with its partner, {turn}", board.ended() == (0, ["session 1 5 end", "closed 5"]))
        told = [it.split(" ")[:2] for it in board.said]
        cases.expect(f"both levels are told, {turn}", told == [["room", "80"], ["room", "95"]], board.said)
        kinds = [(it["event"], it.get("percent")) for it in events(log) if it["event"] in ("room", "close")]
        cases.expect(f"and logged before the close, {turn}", kinds == [("room", 80), ("room", 95), ("close", None)], kinds)
        partner.close()


def filled_before(cases, program, room):
    """A board that goes on from a journal beyond both levels says so as it begins, and once."""
    log, day = room / "log", room / "day"
    done = ran(program, ["run", "--keep", day], f"1 29000580 APT {TICK}\n".encode() * 19)
    cases.expect("19 entries are kept", done.stdout.count(b"ok ") == 19, done)
    board = Board([program], ["--journal", "20", "--again", "--control", "PORT", "--keep", str(day), "--log", str(log)], ["APT"])
    owed = [["room", level, "19", "of", "20"] for level in ("80", "95")]
    told = board.waits_for(lambda: [it.split(" ")[:5] for it in board.said] == owed)
    cases.expect("both levels are told, and nobody is here", told, board.said)
    partner = board.connect(1)
    cases.expect("it goes on", partner.asks(TICK) == "ok 19")
    partner.close()
    cases.expect("ends", board.close()[1] == 0)
    rooms = [(it["percent"], it["entries"], it["room"]) for it in events(log) if it["event"] == "room"]
    cases.expect("and are logged once", rooms == [(80, 19, 20), (95, 19, 20)], rooms)
    cases.expect("and told once", sum(it.startswith("room ") for it in board.said) == 2, board.said)


def unreached(cases, program, room):
    """A peer that is not there: the log has what standard error says of it."""
    log, peer, watch = room / "log", f"127.0.0.1:{free_port()}", f"127.0.0.1:{free_port()}"
    given = ["--peer", peer, "--watch", watch, "--keep", str(room / "day"), "--log", str(log), "--again", "--control", "PORT"]
    board = Board([program], given, ["APT"])
    cases.expect("it is logged", board.waits_for(lambda: "unreached" in [it["event"] for it in events(log)]), events(log))
    cases.expect("ends", board.close()[1] == 0)
    said = [re.fullmatch(rf"unreached ({re.escape(peer)}: .+) {MOMENT}", it) for it in board.said]
    owed = [{"event": "unreached", "why": it[1]} for it in said if it]
    found = [it for it in events(log) if it["event"] == "unreached"]
    cases.expect("by the reason that is said", len(owed) == 1 and found == owed, (found, board.said))


def follower(cases, program, room):
    """A board that follows another one, which is not there, and is closed: the log says by what, as that of one that serves."""
    log, port, first = room / "log", free_port(), f"127.0.0.1:{free_port()}"
    given = ["--keep", str(room / "day"), "--control", str(port), "--log", str(log)]
    with subprocess.Popen([program, "follow", first, *given, "APT=127.0.0.1:0"], stderr=subprocess.PIPE) as board:
        said = board.stderr.readline().decode()
        cases.expect("it could not reach the other one", said.startswith("parted "), said)
        with socket.create_connection(("127.0.0.1", port), timeout=20) as it:
            it.sendall(b"close\n")
            cases.expect("it closes", it.recv(64) == b"closing\n")
        cases.expect("ends", board.wait(20) == 0)
    found = [{name: it for name, it in event.items() if name != "why"} for event in events(log)]
    cases.expect("its log has both", found == [{"event": "parted"}, {"event": "close", "by": "control", "entries": 0}], found)


def plain(cases, program, room):
    """A log alone: partners are served as without it, and standard error says nothing of them."""
    log = room / "plain"
    board = Board([program], ["--log", str(log)], ["APT", "NM"])
    first, second = board.connect(1), board.connect(2)
    cases.expect("both are served", (first.asks(TICK), second.asks(SHOW)) == ("ok 0", "no 1 202"))
    first.close()
    second.close()
    cases.expect("it ends with its partners", board.ended() == (0, ["session 1 1 end", "session 2 1 end", "closed 2"]))
    cases.expect("nothing on standard error", board.said == [], board.said)
    found = events(log)
    kinds = sorted((it["event"], it.get("session", 0)) for it in found)
    cases.expect("who came and left is logged", kinds == [("close", 0), ("gone", 1), ("gone", 2), ("here", 1), ("here", 2)], found)
    cases.expect("and that they closed it", found[-1] == {"event": "close", "by": "partners", "entries": 2}, found[-1:])
    before = log.read_bytes()
    again = Board([program], ["--control", "PORT", "--log", str(log)], ["APT"])
    partner = again.connect(1)
    partner.asks(TICK)
    partner.close()
    again.ended()
    cases.expect("the next board goes on in it", log.read_bytes().startswith(before) and len(events(log)) == len(found) + 3, events(log))
    last = {"event": "close", "by": "partners", "entries": 1}
    cases.expect("and its partners closed it, not its control address", events(log)[-1] == last, events(log)[-1])


def kept(cases, program, room):
    """A kept file that is removed: the log says so, and that the board closed for it."""
    log, journal = room / "kept-log", room / "kept"
    board = Board([program], ["--again", "--keep", str(journal), "--log", str(log)], ["APT"])
    airport = board.connect(1)
    cases.expect("kept", airport.asks(TICK) == "ok 0")
    journal.unlink()
    status, _ = board.ended()
    found = [it for it in events(log) if it["event"] in ("keep", "close")]
    cases.expect("a removed file ends the board", status == 2, status)
    cases.expect("and is logged", [it["event"] for it in found] == ["keep", "close"] and found[0]["why"] and found[1]["by"] == "file", found)
    airport.close()


def limited(cases, program, room):
    """A kept file that can grow no further: the board ends, also beside a partner that is silent, and the log says why."""
    log, journal = room / "limited-log", room / "limited"
    board = Board(
        ["bash", "-c", 'trap "" XFSZ; ulimit -f 2; exec "$0" "$@"', program],
        ["--again", "--keep", str(journal), "--log", str(log)],
        ["APT", "NM"],
    )
    airport, manager, replies = board.connect(1), board.connect(2), []
    cases.expect("a partner is there that is silent then", manager.asks("{}") == "bad 102")
    while len(replies) < 200 and (reply := airport.asks(TICK)):
        replies.append(reply)
    status, _ = board.ended()
    kept_lines = journal.read_bytes().count(b"\n")
    cases.expect("a full file ends the board", (status, len(replies)) == (2, kept_lines) and kept_lines > 50, (status, len(replies), kept_lines))
    found = [it for it in events(log) if it["event"] == "keep"]
    why = f"{os.strerror(errno.EFBIG)} (os error {errno.EFBIG})"
    cases.expect("and the log says why", [it["why"] for it in found] == [why], found)
    airport.close()
    manager.close()


def moved(cases, program, room):
    """The log is moved away 20 times while partners come and go: each event is in one file, once and whole."""
    log = room / "moved"
    board = Board([program], ["--again", "--control", "PORT", "--log", str(log)], ["APT"] * 8)
    over = threading.Event()

    def comes(session):
        for turn in range(25):
            partner = board.connect(session)
            partner.asks("{}" if turn == 0 else TICK)
            partner.close()
            board.waits_for(lambda turn=turn: sum(it.startswith(f"gone {session} ") for it in board.said) > turn)

    threads = [threading.Thread(target=comes, args=(it,)) for it in range(1, 9)]

    def moves():
        for turn in range(20):
            if log.exists():
                log.rename(room / f"moved.{turn}")
            time.sleep(0.1)
        over.set()

    mover = threading.Thread(target=moves)
    for it in (*threads, mover):
        it.start()
    for it in (*threads, mover):
        it.join(120)
    cases.expect("moved to the end", over.is_set())
    cases.expect("ends", board.close()[1] == 0)
    found = events(*sorted(room.glob("moved*")))
    for session in range(1, 9):
        own = [it["event"] for it in found if it.get("session") == session]
        cases.expect(f"session {session} is logged once for each time", (own.count("here"), own.count("gone"), own.count("bad")) == (25, 25, 1), own)
    cases.expect("and the close once", [it["event"] for it in found].count("close") == 1)
    cases.expect("in several files", len(list(room.glob("moved*"))) > 3, list(room.glob("moved*")))


def rotated(cases, program, room):
    """The shipped file for logrotate, with this log in it: what was logged is in the file that it moved away, and the rest in the new one."""
    if not shutil.which("logrotate"):
        print("left out: logrotate is not here")
        return
    log, own = room / "board.log", room / "conf"
    shipped = (TOP / "examples" / "logrotate" / "acdm").read_text()
    user = pwd.getpwuid(os.getuid()).pw_name
    group = grp.getgrgid(os.getgid()).gr_name
    own.write_text(shipped.replace("/var/lib/acdm/board.log", str(log)).replace("su acdm acdm", f"su {user} {group}"))
    own.chmod(0o644)
    board = Board([program], ["--again", "--control", "PORT", "--log", str(log)], ["APT"])
    partner = board.connect(1)
    partner.asks(TICK)
    board.waits_for(lambda: "here" in [it["event"] for it in events(log)])
    done = subprocess.run(["logrotate", "--force", "--state", str(room / "state"), str(own)], capture_output=True, text=True, check=False)
    cases.expect("logrotate moves the log", done.returncode == 0 and not log.exists(), done)
    partner.close()
    cases.expect("the board makes it again", board.waits_for(log.exists))
    cases.expect("ends", board.close()[1] == 0)
    kinds = [[it["event"] for it in events(path)] for path in (room / "board.log.1", log)]
    cases.expect("each event is in one of both", kinds == [["here"], ["gone", "close"]], kinds)


def full_disk(cases, program, room):
    """A disk that is full: partners are served on, it is said once, and what was lost is counted once there is room again."""
    disk = room / "disk"
    disk.mkdir()
    if subprocess.run(["mount", "-t", "tmpfs", "-o", "size=16k", "tmpfs", str(disk)], capture_output=True, check=False).returncode:
        print("left out: no disk of its own may be mounted here for the log")
        return
    try:
        log, filler = disk / "log", disk / "filler"
        board = Board([program], ["--again", "--control", "PORT", "--log", str(log)], ["APT"])
        with open(filler, "wb", buffering=0) as it:
            try:
                while True:
                    it.write(b"x" * 512)
            except OSError:
                pass
        for turn in range(3):
            partner = board.connect(1)
            cases.expect(f"a partner is served beside a full disk, {turn}", partner.asks(TICK) == f"ok {turn}")
            partner.close()
            board.waits_for(lambda turn=turn: board.told(1, "gone") > turn)
        told = board.waits_for(lambda: any(re.fullmatch(rf"log failed {MOMENT}", it) for it in board.said))
        cases.expect("that the log failed is said", told, board.said)
        cases.expect("once", sum(it.startswith("log failed") for it in board.said) == 1, board.said)
        cases.expect("and no line is cut", events(log) == [], log.read_bytes())
        time.sleep(0.5)
        filler.unlink()
        told = board.waits_for(lambda: any(it["event"] == "lost" for it in events(log)))
        found = events(log)
        lost = sum(it.get("lines", 1) for it in found)
        cases.expect("what was lost is counted, with what was not", told and lost == 6, found)
        cases.expect("ends", board.close()[1] == 0)
        cases.expect("and what comes then is logged", events(log) == [*found, {"event": "close", "by": "control", "entries": 3}], events(log))
    finally:
        subprocess.run(["umount", str(disk)], capture_output=True, check=False)


def fails_again(cases, program, room):
    """A log that can't be written, can be, and can't be again: each time it is said once, and what was lost is counted, also
    where nothing else is written between."""
    folder, away = room / "there", room / "away"
    folder.mkdir()
    board = Board([program], ["--again", "--control", "PORT", "--log", str(folder / "log")], ["APT"])

    came = itertools.count()

    def comes():
        turn = next(came)
        partner = board.connect(1)
        cases.expect(f"partner {turn} is served, with a log or without", partner.asks(TICK) == f"ok {turn}")
        partner.close()
        board.waits_for(lambda: board.told(1, "gone") == turn + 1)
        return 2

    owed = 0
    for turn, is_quiet in enumerate((False, True, False), 1):
        folder.rename(away)
        owed += comes()
        failed = board.waits_for(lambda turn=turn: sum(it.startswith("log failed ") for it in board.said) == turn)
        cases.expect(f"that the log fails is said, time {turn}", failed, board.said)
        away.rename(folder)
        owed += 0 if is_quiet else comes()
        found = board.waits_for(lambda: sum(it.get("lines", 1) for it in events(folder / "log")) == owed)
        cases.expect(f"what was lost is counted, time {turn}", found, events(folder / "log"))
        # (until the board has looked whether it can be written again)
        time.sleep(0.2)
    cases.expect("ends", board.close()[1] == 0)
    cases.expect("it is said each time, and once", sum(it.startswith("log failed ") for it in board.said) == 3, board.said)


def fails_at_once(cases, program, room):
    """Events that come at once while the log can't be written: each of them is counted as lost."""
    folder, away = room / "at-once", room / "at-once-away"
    folder.mkdir()
    board = Board([program], ["--again", "--control", "PORT", "--log", str(folder / "log")], ["APT"] * 8)
    folder.rename(away)
    board.ran.send_signal(signal.SIGSTOP)
    partners = [board.connect(it) for it in range(1, 9)]
    for it in partners:
        it.send(f"{TICK}\n")
    board.ran.send_signal(signal.SIGCONT)
    cases.expect("all are served beside a log that fails", sorted(it.hears() for it in partners) == [f"ok {it}" for it in range(8)])
    told = board.waits_for(lambda: all(board.told(it, "here") for it in range(1, 9)) and any(it.startswith("log failed ") for it in board.said))
    cases.expect("that it fails is said", told, board.said)
    away.rename(folder)
    counted_all = board.waits_for(lambda: sum(it.get("lines", 1) for it in events(folder / "log")) == 8)
    cases.expect("each event that came at once is counted", counted_all, events(folder / "log"))
    for it in partners:
        it.close()
    cases.expect("ends", board.close()[1] == 0)


def bounded_file(cases, program, room):
    """A log that may grow no further in the middle of a line: what stands there is whole lines, and partners are served on."""
    log = room / "bounded-log"
    filler = "x" * 1000
    line = json.dumps({"at": "2026-01-01T00:00:00Z", "event": "other", "text": filler}, separators=(",", ":")) + "\n"
    log.write_text(line * 60)
    # (64 of 1,024 bytes: the rest has room for some lines, and no room for the next one whole)
    rest = 65_536 - log.stat().st_size
    board = Board(
        ["bash", "-c", 'trap "" XFSZ; ulimit -f 64; exec "$0" "$@"', program],
        ["--again", "--control", "PORT", "--log", str(log)],
        ["APT"],
    )
    for turn in range(rest // 60):
        partner = board.connect(1)
        cases.expect(f"a partner is served beside it, {turn}", partner.asks(TICK) == f"ok {turn}")
        partner.close()
        board.waits_for(lambda turn=turn: board.told(1, "gone") > turn)
        if any(it.startswith("log failed") for it in board.said):
            break
    told = board.waits_for(lambda: any(re.fullmatch(rf"log failed {MOMENT}", it) for it in board.said))
    cases.expect("that the log failed is said", told, board.said[-3:])
    cases.expect("there is no room for a line more", 65_536 - log.stat().st_size < 120, log.stat().st_size)
    text = log.read_text()
    cases.expect("no line is cut", text.endswith("}\n") and all(json.loads(it) for it in text.splitlines()), text[-200:])
    cases.expect("ends", board.close()[1] == 0)


def refused(cases, program, room):
    """Files that can't be a log: the line, the word and why, status 2, and nothing served."""
    tables, journal = room / "tables.toml", room / "day"
    tables.write_text("")
    (room / "link").symlink_to(journal)
    pipe = room / "pipe"
    os.mkfifo(pipe)
    for name, log, options, why in (
        ("no such folder", room / "none" / "log", [], 2),
        ("a folder", room, [], NO_PLAIN_FILE),
        ("a pipe", pipe, [], NO_PLAIN_FILE),
        ("a device", "/dev/full", [], NO_PLAIN_FILE),
        ("no name", "", [], 2),
        ("the kept journal", journal, ["--keep", str(journal)], TAKEN),
        ("the kept journal by a link", room / "link", ["--keep", str(journal)], TAKEN),
        ("the tables beside it", f"{journal}.tables", ["--keep", str(journal)], TAKEN),
        ("the saved journal", room / "saved", ["--save", str(room / "saved")], TAKEN),
        ("the saved journal by another path", f"{room}/./saved", ["--save", str(room / "saved")], TAKEN),
        ("the tables beside that", room / "saved.tables", ["--save", str(room / "saved")], TAKEN),
        ("the tables", tables, ["--tables", str(tables)], TAKEN),
    ):
        for before in ([], ["--again"]):
            done = ran(program, ["serve", *before, *options, f"--log={log}", "APT=127.0.0.1:0"], text=True, input="")
            owed = (2, "", "acdm: log file\n" + cause(f"--log {log}", why))
            cases.expect(f"{name} is refused, {before}", (done.returncode, done.stdout, done.stderr) == owed, (done, owed))
    told = room / "told"
    shell = f"{shlex.quote(str(program))} serve --log {shlex.quote(str(told))} APT=127.0.0.1:0 > {shlex.quote(str(told))}"
    done = ran("sh", ["-c", shell], text=True, input="")
    cases.expect("standard output is refused", (done.returncode, done.stderr) == (2, "acdm: log file\n" + cause(f"--log {told}", TAKEN)), done)
    cases.expect("and nothing was written there", told.read_bytes() == b"")


def main():
    asked = words("Holds what an operator is told against what happened.").parse_args()
    cases = Cases()
    counted(cases, asked.program)
    many(cases, asked.program)
    with tempfile.TemporaryDirectory() as room:
        for try_it in (
            each_event, bounded, counted_at_end, one_by_one, present, filled_at_end, filled_before, unreached, follower, plain, kept,
            limited, moved, rotated, full_disk, fails_again, fails_at_once, bounded_file, refused,
        ):  # fmt: skip
            own = pathlib.Path(room) / try_it.__name__
            own.mkdir()
            try_it(cases, asked.program, own)
    return cases.end()


if __name__ == "__main__":
    sys.exit(main())
