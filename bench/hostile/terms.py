#!/usr/bin/env python3
"""Tries the terms of two boards of the built program: which of them has taken over, and that the other one does not go on.

    python3 bench/hostile/terms.py [--program PATH] [--kills N]

A second board takes over; the first one refuses to go on beside it, goes on where that is not reached, and follows it. One
that serves meanwhile closes, as soon as it can be told. A board that was replaced is not promoted; one of an earlier term is not followed. A chain of two; two that took over without
each other; files of terms that are none, can't be written, or are cut off by a crash at the promotion, N times; peers that
are no boards, or slow; how often a peer is asked. The last line is `N cases, M failed`; status 1 where one failed.
"""

import contextlib
import errno
import json
import os
import pathlib
import random
import re
import signal
import socket
import subprocess
import sys
import tempfile
import threading
import time

from again import is_refused
from cases import SCHEDULE, Cases, cause, ran, words
from follow import JOURNAL, MOMENT, OTHER, TICK, First, Second, Server, from_line, head, text
from followed import free_ports

TAKEN_OVER = "acdm: another board has taken over\n"
LATER = "it has a later term than this journal"
NO_TERM = "it is no line `term N`"
LAST = 2**64 - 1


def file_of(kept):
    """The file of the term beside a journal."""
    return kept.with_name(kept.name + ".term")


def term_of(kept):
    """The term in the file beside a journal; the first one where there is none."""
    try:
        return int(re.fullmatch(r"term (\d+)\n", file_of(kept).read_text())[1])
    except FileNotFoundError:
        return 1


def told_by(board):
    """The term that `status` has."""
    return int(re.search(r"^term (\d+)$", board.ask("status"), re.M)[1])


def asked(port, given="term\n"):
    """All that is sent at the address of a board's journal where this is sent."""
    with socket.create_connection(("127.0.0.1", port), timeout=10) as stream:
        stream.sendall(given.encode())
        stream.shutdown(socket.SHUT_WR)
        heard = b""
        while part := stream.recv(65536):
            heard += part
        return heard.decode()


def served(program, kept, peer, *more):
    """What comes of a board that is begun beside this peer, which is to end at once."""
    return ran(program, ["serve", "--again", "--keep", str(kept), "--peer", peer, *more, "APT=127.0.0.1:0"])


def said(board, count):
    """What a board has said by the time that it is so many lines."""
    board.waits_for(lambda: len(board.said) >= count)
    return board.said


def takes_over(cases, program, room):
    """The second board takes over; the first one comes back in each way that there is."""
    kept, copy = room / "first", room / "second"
    first = First(program, kept)
    airport = first.connect(1)
    airport.asks(SCHEDULE)
    second = Second(program, first.watch, copy)
    cases.expect("it follows", second.has(1), second.said)
    cases.expect("both have the first term", (told_by(first), told_by(second)) == (1, 1))
    cases.expect("which needs no file", not file_of(kept).exists() and not file_of(copy).exists())
    cases.expect("who asks is told", asked(first.watch) == asked(second.watch) == "term 1\n", asked(first.watch))
    first.kill()
    before = int(time.time())
    answer, told = second.promote()
    cases.expect("it is promoted", answer == "promoting\n" and told, answer)
    term = term_of(copy)
    cases.expect("its term is the moment", before <= term <= time.time(), term)
    cases.expect("which is told", told_by(second) == term and asked(second.watch) == f"term {term}\n")
    airport = second.connect(1)
    cases.expect("it replies", airport.asks(TICK) == "ok 1")
    peer, was = f"127.0.0.1:{second.watch}", kept.read_bytes()
    done = served(program, kept, peer)
    wanted = TAKEN_OVER + cause(f"--peer {peer}", LATER)
    cases.expect("the first one refuses", (done.returncode, done.stdout, done.stderr.decode()) == (2, b"", wanted), done)
    cases.expect("and changes nothing", kept.read_bytes() == was and not file_of(kept).exists())
    first = Second(program, second.watch, kept, "--peer", peer)
    cases.expect("it follows the second one", first.has(2), first.said)
    cases.expect("in its term", term_of(kept) == told_by(first) == term, term_of(kept))
    third = Second(program, first.watch, room / "third")
    cases.expect("as who follows it does", third.has(2) and term_of(room / "third") == told_by(third) == term, third.said)
    third.kill()
    second.close()
    first.says(rf"parted .*refused.* {MOMENT}")
    answer, told = first.promote()
    cases.expect("back again", answer == "promoting\n" and told and first.connect(1).asks(TICK) == "ok 2", answer)
    cases.expect("in a later term", term_of(kept) == told_by(first) > term, term_of(kept))
    done = served(program, copy, f"127.0.0.1:{first.watch}")
    cases.expect("the second one refuses now", (done.returncode, done.stderr.decode()[: len(TAKEN_OVER)]) == (2, TAKEN_OVER), done.stderr)
    watch, later = first.watch, term_of(kept)
    first.close()
    began = subprocess.Popen(
        [str(program), "serve", "--again", "--keep", str(kept), "--peer", peer, "--watch", f"127.0.0.1:{watch}", "APT=127.0.0.1:0"],
        stdout=subprocess.PIPE,
        stderr=subprocess.PIPE,
        text=True,
    )
    cases.expect("with its own file it begins", began.stdout.readline().startswith("listen 1 APT "))
    cases.expect("in the term that it has", asked(watch) == f"term {later}\n", asked(watch))
    late = threading.Timer(20, began.kill)
    late.start()
    said = began.stderr.readline()
    late.cancel()
    began.kill()
    began.communicate()
    cases.expect("and says that its peer was not reached", re.match(rf"unreached {peer}: .*refused.* {MOMENT}\n", said), said)


def stale(cases, program, room):
    """A first board that served on is not promoted where it follows, and is not followed."""
    kept, copy = room / "stale", room / "later"
    first = First(program, kept)
    first.connect(1).asks(SCHEDULE)
    second = Second(program, first.watch, copy)
    second.has(1)
    # (stopped, it is as one behind a link that is cut)
    first.ran.send_signal(signal.SIGSTOP)
    second.promote()
    second.connect(1).asks(SCHEDULE.replace(":7,", ":8,"))
    first.ran.send_signal(signal.SIGCONT)
    cases.expect("the first one goes on", first.connect(1).asks(TICK) == "ok 1")
    term, was = term_of(copy), kept.read_bytes()
    third = Second(program, first.watch, room / "both")
    cases.expect("it may be followed by who knows no better", third.has(2), third.said)
    third.kill()
    second.kill()
    (room / "again").write_bytes(copy.read_bytes())
    file_of(room / "again").write_bytes(file_of(copy).read_bytes())
    again = Second(program, first.watch, copy)
    differs = "another journal is sent there: entry 1 is another one"
    cases.expect("the second one does not follow it", again.says(rf"parted {differs} {MOMENT}"), again.said)
    again.kill()
    # (also where its file is a beginning of the first one's)
    copy.write_bytes(b"".join(copy.read_bytes().splitlines(True)[:1]))
    again = Second(program, first.watch, copy)
    cases.expect("nor where it could", again.says(rf"parted term 1 is there, and {term} here {MOMENT}"), again.said)
    time.sleep(1.2)
    cases.expect("which is said once", sum(it.startswith("parted ") for it in again.said) == 1, again.said)
    cases.expect("and takes nothing of it", (again.entries(), term_of(copy)) == (1, term), again.entries())
    again.kill()
    first.kill()
    second = Second(program, free_ports(1)[0], room / "again")
    second.promote()
    cases.expect("a term is never gone back from", told_by(second) > term, told_by(second))
    late = Second(program, second.watch, kept)
    cases.expect("the first one does not follow it", late.says(rf"parted {differs} {MOMENT}"), late.said)
    answer = late.ask("promote")
    cases.expect("and is not promoted", answer == f"replaced {told_by(second)}\n", answer)
    cases.expect("it follows on", late.ask("status").startswith("following ") and told_by(late) == 1, late.ask("status"))
    cases.expect("nothing of it has changed", kept.read_bytes() == was and not file_of(kept).exists())
    asking = [sys.executable, str(pathlib.Path(__file__).resolve().parents[2] / "clients" / "control.py"), str(late.port), "promote"]
    done = subprocess.run(asking, capture_output=True, text=True, check=False)
    cases.expect("which the client says", done.returncode == 2 and "has taken over" in done.stderr, done.stderr)
    late.close()
    second.close()


def closed(cases, program, room):
    """A first board with a peer closes by itself once that has taken over, and is reached."""
    kept, copy, log, port = room / "kept", room / "copy", room / "log", free_ports(1)[0]
    first = First(program, kept, "--peer", f"127.0.0.1:{port}", "--log", str(log))
    airport = first.connect(1)
    cases.expect("without its peer it serves", airport.asks(SCHEDULE) == "ok 0")
    cases.expect("and says so once", [it.split(" ")[0] for it in said(first, 2)] == ["unreached", "here"], first.said)
    second = Second(program, first.watch, copy, watch=port)
    cases.expect("with a peer that follows too", second.has(1) and airport.asks(TICK) == "ok 1" and second.has(2), second.said)
    time.sleep(2.5)
    cases.expect("for longer than it asks", airport.asks(TICK) == "ok 2" and second.has(3), first.said)
    # (it can't be told before it runs again, as behind a link that is cut)
    first.ran.send_signal(signal.SIGSTOP)
    second.promote()
    term = term_of(copy)
    first.ran.send_signal(signal.SIGCONT)
    began = time.monotonic()
    status, lines = first.ended()
    took = time.monotonic() - began
    cases.expect("once it can be told it closes", (status, lines[-1:]) == (0, ["closed 3"]), (status, lines))
    cases.expect("within seconds", took < 8, took)
    cases.expect("and says why", sum(re.fullmatch(rf"replaced {term} {MOMENT}", it) is not None for it in first.said) == 1, first.said)
    events = [json.loads(it) for it in log.read_text().splitlines()]
    cases.expect("also in the log", [it["term"] for it in events if it["event"] == "replaced"] == [term], events[-3:])
    cases.expect("which has what closed it", events[-1]["event"] == "close" and events[-1]["by"] == "peer", events[-1])
    cases.expect("who was there sees the end", airport.reads_end())
    cases.expect("the second one serves", second.connect(1).asks(TICK) == "ok 3")
    second.close()


def promoted(cases, program, room):
    """A board that follows asks its peer only once it serves, and closes where that has a later term."""
    kept, server = room / "kept", Server([""], LAST)
    kept.write_text(text(JOURNAL))
    board = Second(program, free_ports(1)[0], kept, "--peer", f"127.0.0.1:{server.port}")
    time.sleep(1.5)
    cases.expect("while it follows it asks nobody", board.ran.poll() is None and server.heard == [], server.heard)
    answer, told = board.promote()
    cases.expect("it is promoted", answer == "promoting\n" and told, answer)
    status, lines = board.ended()
    cases.expect("and closes, since its peer is later", (status, lines[-1:]) == (0, [f"closed {len(JOURNAL)}"]), (status, lines))
    cases.expect("which it says", any(re.fullmatch(rf"replaced {LAST} {MOMENT}", it) for it in board.said), board.said)
    server.close()


def by_words(cases, program, room):
    """A peer of a later term, named by the words and by a file of settings."""
    kept, config = room / "day", room / "board.toml"
    # (a rest without a line feed, which a board drops that goes on)
    cut = text(JOURNAL) + "5 1 29"
    for own, term, is_later in (("", 2, True), ("", 1, False), ("term 7\n", 8, True), ("term 7\n", 7, False)):
        server = Server([""], term)
        peer = f"127.0.0.1:{server.port}"
        config.write_text(f'keep = "{kept}"\npeer = "{peer}"\nagain = true\npartners = ["APT=nowhere"]\n')
        file_of(kept).unlink(missing_ok=True)
        if own:
            file_of(kept).write_text(own)
        for given in (["--again", "--keep", str(kept), "--peer", peer, "APT=nowhere"], ["--config", str(config)]):
            kept.write_text(cut)
            done = ran(program, ["serve", *given])
            wanted = TAKEN_OVER if is_later else "acdm: address 1\n"
            cases.expect(f"{own!r} beside {term}, {given[0]}", done.returncode == 2 and done.stderr.decode().startswith(wanted), done.stderr)
            owed = cut if is_later else text(JOURNAL)
            cases.expect(f"{own!r} beside {term}, {given[0]}: the journal", kept.read_text() == owed, kept.read_text())
        server.close()


def behind(cases, program, room):
    """A first board that has entries which the second one has not is not in its term by following it."""
    kept = room / "ahead"
    kept.write_text(text(JOURNAL[:2]))
    server = Server([head(JOURNAL, 1)], 7)
    first = Second(program, server.port, kept)
    cases.expect("it says so", first.says(rf"parted there are only 1 entries {MOMENT}"), first.said)
    cases.expect("and stays in its own term", (told_by(first), term_of(kept)) == (1, 1), told_by(first))
    cases.expect("in which it is not promoted", first.ask("promote") == "replaced 7\n", first.ask("promote"))
    server.close()
    server = Server([from_line(JOURNAL)], 1, server.port)
    cases.expect("where a board of its own term is there it follows that", first.has(len(JOURNAL)), first.said)
    answer = first.ask("promote\nclose")
    cases.expect("and is promoted then", answer.startswith("promoting\n"), answer)
    cases.expect("and closed", first.ended()[0] == 0, first.said)
    server.close()
    for term, why in ((7, "in its term"), (LAST, "in the last one")):
        kept = room / f"ends {term}"
        kept.write_text(text(JOURNAL[:2]))
        server = Server([head(JOURNAL, 1) + text(JOURNAL[1:2]), head(JOURNAL, 2) + text(JOURNAL[2:])], term)
        first = Second(program, server.port, kept)
        cases.expect(f"where it is not behind it goes on {why}", first.has(5) and term_of(kept) == told_by(first) == term, first.said)
        if term == LAST:
            answer = first.ask("promote")
            status, lines = first.ended()
            cases.expect("and behind the last there is none", (answer, status, lines) == ("promoting\n", 2, []), (answer, status, lines))
            cases.expect("which is said", "acdm: keep failed" in first.said, first.said)
        else:
            first.close()
        server.close()


def unwritten(cases, program, room):
    """A later term that can't be written: the board does not follow before it can, and says why."""
    kept, server = room / "day", Server([head(JOURNAL, 1)] * 500 + [""])
    kept.write_text(text(JOURNAL[:2]))
    board = Second(program, server.port, kept)
    cases.expect("at first it is told of a board that is behind", board.says(rf"parted there are only 1 entries {MOMENT}"), board.said)
    file_of(kept).mkdir()
    server.term = 7
    # (one that it has connected to before is done with)
    heard = len(server.heard)
    board.waits_for(lambda: len(server.heard) >= heard + 3, 30)
    server.answers = [from_line(JOURNAL)]
    why = re.escape(os.strerror(errno.EISDIR))
    cases.expect("why is said", board.says(rf"parted .*{why}.* {MOMENT}"), board.said)
    said = len(board.said)
    # (for two attempts more)
    asked_for = len(server.heard)
    board.waits_for(lambda: len(server.heard) >= asked_for + 4)
    cases.expect("it does not follow meanwhile", kept.read_text() == text(JOURNAL[:2]) and told_by(board) == 1, board.said)
    cases.expect("nor says so", len(board.said) == said, board.said)
    file_of(kept).rmdir()
    cases.expect("then it follows", board.has(len(JOURNAL)) and term_of(kept) == told_by(board) == 7, board.said)
    board.close()
    server.close()
    left = sorted(it.name for it in room.glob(f"{file_of(kept).name}?*"))
    cases.expect("no attempt has left a file beside", not left, left)


def asks_on(cases, program, room):
    """A peer is asked about once a second while the board serves, and not more often."""
    kept, server = room / "day", Server([""])
    began = time.monotonic()
    board = First(program, kept, "--peer", f"127.0.0.1:{server.port}")
    cases.expect("a peer is asked again and again", board.waits_for(lambda: len(server.heard) >= 5), server.heard)
    count, took = len(server.heard), time.monotonic() - began
    # (it is asked as the board begins, and at once as it serves)
    cases.expect("about once a second", count <= took + 2, (count, took))
    board.close()
    server.close()


def slow_peer(cases, program, room):
    """A peer that takes a second to say its term, byte by byte, is heard."""
    kept = room / "day"
    kept.write_text(text(JOURNAL))
    with socket.create_server(("127.0.0.1", 0)) as listener:

        def say():
            stream, _ = listener.accept()
            with contextlib.suppress(OSError), stream:
                time.sleep(1.2)
                for byte in b"term 7\n":
                    stream.sendall(bytes([byte]))
                    time.sleep(0.01)

        saying = threading.Thread(target=say, daemon=True)
        saying.start()
        peer = f"127.0.0.1:{listener.getsockname()[1]}"
        done = ran(program, ["serve", "--again", "--keep", str(kept), "--peer", peer, "APT=nowhere"])
        saying.join(10)
    cases.expect("a term that comes after a second is heard", (done.returncode, done.stderr.decode()[: len(TAKEN_OVER)]) == (2, TAKEN_OVER), done)


def apart(cases, program, room):
    """Two boards that took over from one, neither with the term of the other: one of them does not go on beside the other."""
    boards = []
    for name in ("one", "other"):
        kept = room / name
        kept.write_text(text(JOURNAL if name == "one" else OTHER))
        boards.append(Second(program, free_ports(1)[0], kept))
        boards[-1].promote()
        time.sleep(1.1)
    one, other = boards
    cases.expect("the later one has the later term", 1 < told_by(one) < told_by(other), (told_by(one), told_by(other)))
    one.kill()
    done = served(program, one.kept, f"127.0.0.1:{other.watch}")
    cases.expect("the earlier one refuses", done.returncode == 2 and done.stderr.decode().startswith(TAKEN_OVER), done.stderr)
    other.close()


def files(cases, program, room):
    """Files that have no term, and such as can't be read or written."""
    kept = room / "day"
    kept.write_text(text(JOURNAL))
    for given in ("", "\n", "2\n", "term\n", "term 2", "term two\n", "term -2\n", "term 2 \n", "term +2\n", "term 02\n", "term 2\nterm 3\n", f"term {LAST + 1}\n", "x" * 5000):
        file_of(kept).write_text(given)
        done = ran(program, ["serve", "--again", "--keep", str(kept), "APT=127.0.0.1:0"])
        wanted = "acdm: keep failed\n" + cause(f"the term of --keep {kept}", NO_TERM)
        cases.expect(f"{given[:20]!r}: refused", (done.returncode, done.stdout, done.stderr.decode()) == (2, b"", wanted), done)
        cases.expect(f"{given[:20]!r}: stays", file_of(kept).read_text() == given and kept.read_text() == text(JOURNAL))
    file_of(kept).unlink()
    file_of(kept).mkdir()
    done = ran(program, ["serve", "--again", "--keep", str(kept), "APT=127.0.0.1:0"])
    cases.expect("a folder", (done.returncode, done.stderr.decode().splitlines()[0]) == (2, "acdm: keep failed"), done.stderr)
    file_of(kept).rmdir()
    # (it can't be opened, whoever asks, and is there all the same)
    file_of(kept).symlink_to(file_of(kept))
    done = ran(program, ["serve", "--again", "--keep", str(kept), "APT=nowhere"])
    wanted = "acdm: keep failed\n" + cause(f"the term of --keep {kept}", errno.ELOOP)
    cases.expect("one that can't be opened", (done.returncode, done.stdout, done.stderr.decode()) == (2, b"", wanted), done)
    file_of(kept).unlink()
    done = ran(program, ["serve", "--again", "--keep", str(kept), "--log", str(file_of(kept)), "APT=127.0.0.1:0"])
    cases.expect("it is no log", (done.returncode, done.stderr.decode().splitlines()[0]) == (2, "acdm: log file"), done.stderr)
    cases.expect("and is not made for one", not file_of(kept).exists())
    second = Second(program, free_ports(1)[0], kept)
    file_of(kept).mkdir()
    answer = second.ask("promote")
    status, lines = second.ended()
    cases.expect("where it can't be written nobody is served", (answer, status, lines) == ("promoting\n", 2, []), (answer, status, lines))
    wanted = "acdm: keep failed\n" + cause(f"--keep {kept}", errno.EISDIR)
    cases.expect("which is said", text(second.said).endswith(wanted), second.said)
    cases.expect("and no partner is listened for", is_refused("127.0.0.1", second.ports[0]))
    file_of(kept).rmdir()


def peers(cases, program, room):
    """Peers that are no boards, none that may be one, and words."""
    kept = room / "beside"
    kept.write_text(text(JOURNAL))
    own = text(JOURNAL)
    for peer in ("nowhere", "4100", "localhost:4100", "127.0.0.1", ""):
        done = served(program, kept, peer)
        wanted = "acdm: peer address\n" + cause(f"--peer {peer}", "no IP address with a port")
        cases.expect(f"{peer!r}: refused", (done.returncode, done.stderr.decode()) == (2, wanted), done.stderr)
    for given in (["serve", "--peer", "127.0.0.1:1"], ["run", "--keep", str(kept), "--peer", "127.0.0.1:1"], ["serve", "--keep", str(kept), "--peer"]):
        done = ran(program, [*given, "APT=127.0.0.1:0"])
        cases.expect(f"words {given}", done.returncode == 2 and done.stderr and not done.stdout, done.stderr)
    for name, answer, term in (
        ("HTTP", "HTTP/1.1 400 Bad Request\r\n\r\n", None),
        ("nothing", "", None),
        ("half a term", "term 9", None),
        ("no number", "term nine\n", None),
        ("a number with a sign", "term +9\n", None),
        ("a number with zeros", "term 09\n", None),
        ("the first term", "", 1),
        ("an earlier one", "", 0),
    ):
        server = Server([answer, "x"], term)
        peer = f"127.0.0.1:{server.port}"
        board = subprocess.Popen(
            [str(program), "serve", "--again", "--keep", str(kept), "--peer", peer, "APT=127.0.0.1:0"],
            stdout=subprocess.PIPE,
            stderr=subprocess.PIPE,
            text=True,
        )
        cases.expect(f"{name}: it goes on", board.stdout.readline().startswith("listen 1 APT "))
        time.sleep(0.1)
        board.kill()
        said = board.communicate()[1]
        pattern = rf"unreached {peer}: .+ {MOMENT}\n" if term is None else ""
        cases.expect(f"{name}: and says why it does not know", re.fullmatch(pattern, said), said)
        server.close()
    server = socket.create_server(("127.0.0.1", 0))
    began = time.monotonic()
    silent = f"127.0.0.1:{server.getsockname()[1]}"
    board = subprocess.Popen(
        [str(program), "serve", "--again", "--keep", str(kept), "--peer", silent, "APT=127.0.0.1:0"],
        stdout=subprocess.PIPE,
        stderr=subprocess.DEVNULL,
        text=True,
    )
    cases.expect("one that is silent is waited for a few seconds", board.stdout.readline().startswith("listen") and time.monotonic() - began < 6)
    board.kill()
    board.communicate()
    server.close()
    cases.expect("nothing of the journal has changed", kept.read_text() == own and not file_of(kept).exists())


def crashed(cases, program, room, turn, chance):
    """The board is killed while it is promoted: its term is the one that it had, or a later one, whole."""
    kept = room / f"crash{turn}"
    kept.write_text(text(JOURNAL))
    file_of(kept).write_text("term 5\n")
    second = Second(program, free_ports(1)[0], kept)
    with socket.create_connection(("127.0.0.1", second.port), timeout=20) as control:
        control.sendall(b"promote\n")
        time.sleep(chance.uniform(0, 0.06))
        second.kill()
    term = term_of(kept)
    cases.expect(f"kill {turn}", term == 5 or term > 1_700_000_000, term)
    told = second.ran.stdout.read()
    cases.expect(f"kill {turn}: nobody was listened for before", not told or term > 5, (told, term))
    again = Second(program, free_ports(1)[0], kept)
    cases.expect(f"kill {turn}: it begins again", told_by(again) == term, again.said)
    again.kill()


def main():
    parser = words(__doc__)
    parser.add_argument("--kills", type=int, default=20, help="how often a board is killed at its promotion")
    given = parser.parse_args()
    program, cases = given.program, Cases()
    with tempfile.TemporaryDirectory() as made:
        room = pathlib.Path(made)
        for tried in (takes_over, stale, closed, promoted, by_words, behind, unwritten, asks_on, slow_peer, apart, files, peers):
            (room / tried.__name__).mkdir()
            tried(cases, program, room / tried.__name__)
        chance = random.Random(5)
        for turn in range(given.kills):
            crashed(cases, program, room, turn, chance)
    return cases.end()


if __name__ == "__main__":
    sys.exit(main())
