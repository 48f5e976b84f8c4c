#!/usr/bin/env python3
"""Tries the built program with many entries, flights and programs at once, where memory is ample: none is said to be wanting.

    python3 bench/hostile/many.py [--program PATH] [--entries N]

A journal of N entries over 4,096 flights is entered by one partner, by `run` and by `serve`, each with `--keep`. It is gone
on from, audited, told, sent to displays from its first entry and from a later one, with the feed and the line of the board,
and asked for all alerts. A program stands at each milestone as both kinds, all unloaded in a row and loaded again, or all
unloaded by a migrate. The last line is `N cases, M failed`; status 1 where one failed.
"""

import json
import pathlib
import re
import socket
import sys
import tempfile
import threading

from again import Board, free_port
from cases import ALERTS, SCHEDULE, TAXI, Cases, ran, words

FLIGHTS = 4096
TICK = '{"cmd":"tick"}'
SHOW = '{"cmd":"show","flight":4096}'


def read(line):
    """The object of a line of the feed; an empty one where that is none."""
    try:
        return json.loads(line)
    except ValueError:
        return {}


def lines_of(entries):
    """A flight each as long as there is room for one, then questions on the last one."""
    for number in range(1, min(entries, FLIGHTS) + 1):
        yield SCHEDULE.replace('"flight":7', f'"flight":{number}')
    for _ in range(entries - FLIGHTS):
        yield SHOW


def replies_of(given, entries):
    """Whether each line was replied to by the entry of its number, and the last reply."""
    lines = given.splitlines()
    wrong = [it for number, it in enumerate(lines) if not re.match(rf"(ok|rec|alerts) {number}( |$)", it)]
    return len(lines) == entries and not wrong, (len(lines), wrong[:2])


def entered(port, lines):
    """The replies to lines that are sent by one partner, as fast as they are read."""
    with socket.create_connection(("127.0.0.1", port), timeout=120) as stream:

        def send():
            for at in range(0, len(lines), 500):
                stream.sendall("".join(f"{it}\n" for it in lines[at : at + 500]).encode())

        sender = threading.Thread(target=send)
        sender.start()
        heard, count = [], 0
        while count < len(lines) and (part := stream.recv(1 << 16)):
            heard.append(part)
            count += part.count(b"\n")
        sender.join()
        return b"".join(heard).decode()


def sent(port, first, size=0, lines=0):
    """What a display is sent that asks so: at least so many bytes, and so many lines."""
    with socket.create_connection(("127.0.0.1", port), timeout=120) as stream:
        stream.sendall(first.encode())
        heard, length, ends = [], 0, 0
        while (length < size or ends < lines) and (part := stream.recv(1 << 20)):
            heard.append(part)
            length += len(part)
            ends += part.count(b"\n")
        return b"".join(heard)


def by_run(cases, program, kept, entries):
    """All of it through standard input, in two runs."""
    given = "".join(f"{1 + number % 64} 29000580 APT {line}\n" for number, line in enumerate(lines_of(entries)))
    done = ran(program, ["run", "--journal", "1000000", "--keep", str(kept)], given.encode())
    came, seen = replies_of(done.stdout.decode(), entries)
    cases.expect("run: each line is an entry", came and (done.returncode, done.stderr) == (0, b""), (seen, done.stderr[:80]))
    done = ran(program, ["run", "--journal", "1000000", "--keep", str(kept)], f"1 29000580 APT {ALERTS}\n".encode())
    told = done.stdout.decode()
    listed = told.count(";") + 1
    cases.expect("run: gone on from, with the alerts of all flights", told.startswith(f"alerts {entries} 1:") and listed == FLIGHTS, told[:80])
    done = ran(program, ["audit", str(kept)])
    cases.expect("audit", done.stdout.decode() == f"legal {entries + 1}\n", (done.stdout[:80], done.stderr))
    done = ran(program, ["tell", str(kept)])
    told = done.stdout.splitlines()
    cases.expect("tell: a line for each entry", done.returncode == 0 and len(told) == entries + 1, (done.returncode, len(told), done.stderr[:80]))
    cases.expect("tell: the last one", read(told[-1]).get("entry") == entries, told[-1][:120])


def by_serve(cases, program, room, kept, entries):
    """All of it by one partner over a connection; then displays, and a board that goes on."""
    own = room / "served"
    watch, changes = free_port(), free_port()
    words_of = ["--again", "--journal", "1000000", "--control", "PORT", "--keep", str(own)]
    words_of += ["--watch", f"127.0.0.1:{watch}", "--changes", f"127.0.0.1:{changes}"]
    board = Board([program], words_of, ["APT"])
    came, seen = replies_of(entered(board.ports[0], list(lines_of(entries))), entries)
    cases.expect("serve: each line is an entry", came, seen)
    text, moments = own.read_bytes(), rb"(?m)^(\d+ )\d+ \d+ "
    same = re.sub(moments, rb"\1", text) == re.sub(moments, rb"\1", b"".join(kept.read_bytes().splitlines(True)[:entries]))
    cases.expect("serve: which stand in the file as those of run", same)
    cases.expect("a display is sent all", sent(watch, "", len(text)) == text)
    later = b"".join(text.splitlines(True)[-10:])
    found = sent(watch, f"from {entries - 10}\n", lines=11)
    cases.expect("and from a later entry on", found.endswith(later) and found.count(b"\n") == 11, found[:120])
    found = sent(changes, "board\n", lines=1)
    cases.expect("a display of the feed has all flights", len(read(found).get("flights", [])) == FLIGHTS, found[:120])
    found = sent(changes, f"from {entries - 1}\n", lines=2).splitlines()
    cases.expect("the feed from a later entry on", len(found) == 2 and read(found[1]).get("entry") == entries - 1, found[:2])
    answer, status, lines = board.close(120)
    cases.expect("serve: closed", (answer, status, lines[-1:]) == ("closing\n", 0, [f"closed {entries}"]), (answer, status, lines))
    board = Board([program], ["--again", "--journal", "1000000", "--control", "PORT", "--keep", str(own)], ["APT"])
    cases.expect("serve: gone on from", board.connect(1).asks(TICK) == f"ok {entries}")
    cases.expect("serve: closed again", board.close(120)[1:] == (0, ["session 1 1 end", f"closed {entries + 1}"]))


PLACES = [(number, kind) for number in range(1, 17) for kind in ("tobt", "alert")]
# It ends with 0, and reads a register that has nothing where a record has another length than 128 bytes.
SHORT = "5502020080000000" "b700000000000000" "9500000000000000" "bf90000000000000" "9500000000000000"


def outgrown(cases, program):
    """A program at each milestone as both kinds, all of which a migrate unloads."""
    loads = [f'{{"cmd":"load","milestone":{n},"kind":"{kind}","program":"{SHORT}"}}' for n, kind in PLACES]
    given = [*loads, '{"cmd":"migrate"}', ALERTS]
    done = ran(program, ["run"], "".join(f"1 29000580 APT {it}\n" for it in given).encode())
    unloaded = ";".join(f"{n}:{kind}:308:3" for n, kind in PLACES)
    wanted = [*(f"ok {number}" for number in range(32)), f"migrated 32 {unloaded}", "alerts 33 -"]
    replies = done.stdout.decode().splitlines()
    cases.expect("a migrate unloads all programs", replies == wanted, [it for it, other in zip(replies, wanted) if it != other][:3])


def programs(cases, program):
    """A program at each milestone as both kinds, all of them unloaded in a row, and loaded again."""
    # (an exit with 0, as a TOBT procedure)
    plain = "b7000000000000009500000000000000"
    places = PLACES
    asked = [(number, kind, TAXI if kind == "alert" else plain) for number, kind in places]
    lines = [f'{{"cmd":"load","milestone":{n},"kind":"{kind}","program":"{text}"}}' for n, kind, text in asked]
    off = [f'{{"cmd":"unload","milestone":{n},"kind":"{kind}"}}' for n, kind, _ in asked]
    given = [*lines, '{"cmd":"migrate"}', *off, *lines]
    done = ran(program, ["run"], "".join(f"1 29000580 APT {it}\n" for it in given).encode())
    replies = done.stdout.decode().splitlines()
    cases.expect("programs: none is wanting", len(replies) == len(given) and not any(it.startswith("bad 501") for it in replies), replies[:40])
    wrong = [it for number, it in enumerate(replies) if not re.match(rf"(ok|no|migrated) {number}( |$)", it)]
    cases.expect("programs: each is replied to by its entry", not wrong, wrong[:4])
    taken = [it for it in replies if it.startswith("ok ")]
    cases.expect("programs: as many loads are taken again as before", len(replies) >= 97 and replies[:32].count("") == 0 and len(taken) > 32, len(taken))


def main():
    parser = words(__doc__)
    parser.add_argument("--entries", type=int, default=110_000, help="how many entries")
    given = parser.parse_args()
    program, cases = given.program, Cases()
    with tempfile.TemporaryDirectory() as made:
        room = pathlib.Path(made)
        by_run(cases, program, room / "kept", given.entries)
        by_serve(cases, program, room, room / "kept", given.entries)
    programs(cases, program)
    outgrown(cases, program)
    return cases.end()


if __name__ == "__main__":
    sys.exit(main())
