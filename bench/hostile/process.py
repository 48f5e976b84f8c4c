#!/usr/bin/env python3
"""Runs the built `acdm` on a bad day of its own process, and says what did not come as it is documented.

    python3 bench/hostile/process.py [--program PATH]

Closed standard streams, in all combinations, for each command; words that are no text; SIGSTOP and SIGCONT while it waits for
lines, partners, files and displays; a full disk, and readers that went away, of a board with partners too; a file
without an end; an airport's own tables, and files of them that are wrong; files of settings; words that are refused,
and those that a command says that it takes; the line behind each failure, which names the file, the address or the
stream, and why. The last line is `N cases, M failed`; status 1 where one failed.
"""

import errno
import itertools
import os
import pathlib
import re
import signal
import socket
import struct
import subprocess
import sys
import tempfile
import threading
import time

from cases import ALERTS, DAY, DAY_JOURNAL, DAY_REPLIES, LISTING, TAXI, TOP
from cases import KEPT_ELSEWHERE, KEPT_THERE, NO_PLAIN_FILE, NO_ROOM, TAKEN, Cases, cause, ran, text, words

PATIENCE = 30
READ, WRITE, SAVE, KEEP = (f"acdm: {word} failed\n" for word in ("read", "write", "save", "keep"))
IN_USE = "acdm: the kept journal is in use\n"
ROOM = "acdm: the kept journal needs a larger --journal\n"
WATCH, CONTROL = "acdm: watch address\n", "acdm: control address\n"
# A closed stream fails as one that is opened for the other direction.
CLOSED_INPUT = READ + cause("standard input", errno.EBADF)
CLOSED_OUTPUT = WRITE + cause("standard output", errno.EBADF)
FULL_OUTPUT = WRITE + cause("standard output", errno.ENOSPC)
NO_READER = WRITE + cause("standard output", errno.EPIPE)


def without(streams):
    """Closes standard streams, in the process that is started."""

    def close():
        for number in streams:
            os.close(number)

    return close


def came(done):
    return done.returncode, done.stdout.decode(), done.stderr.decode()


class Room:
    """A folder with the files that commands are run on."""

    def __init__(self, folder):
        self.folder = pathlib.Path(folder)
        self.journal, self.code = self.folder / "journal", self.folder / "code"
        self.saved = self.folder / "saved"
        self.journal.write_text(text(DAY_JOURNAL))
        self.code.write_bytes(bytes.fromhex(TAXI))

    def unsaved(self):
        """Whether nothing stands in the file of `--save`."""
        return not self.saved.exists() or self.saved.read_bytes() == b""


def closed_streams(cases, program, room):
    """A closed output is a write fault, a closed input a read fault, where it is used; and no file takes its place."""
    for count in range(4):
        for streams in itertools.combinations(range(3), count):
            closed_run(cases, program, room, streams)
            for command, file, told in (
                ("audit", room.journal, "legal 5\n"),
                ("verify", room.code, LISTING),
                ("explain", room.code, None),
            ):
                closed_file(cases, program, (command, file, told), streams)
            closed_serve(cases, program, room, streams)


def closed_run(cases, program, room, streams):
    room.saved.unlink(missing_ok=True)
    done = came(ran(program, ["run", "--save", room.saved], text(DAY).encode(), preexec_fn=without(streams)))
    status, output, errors = done
    fault = CLOSED_INPUT if 0 in streams else CLOSED_OUTPUT if 1 in streams else ""
    name = f"run --save, closed {streams}"
    cases.expect(name, status == (2 if fault else 0), done)
    cases.expect(name, output == ("" if fault else text(DAY_REPLIES)), done)
    cases.expect(name, errors == ("" if 2 in streams else fault), done)
    if fault:
        cases.expect(f"{name}, the file", room.unsaved(), room.saved.exists() and room.saved.read_bytes())
    else:
        cases.expect(f"{name}, the file", room.saved.read_text() == text(DAY_JOURNAL), room.saved.read_bytes())


def closed_file(cases, program, command, streams):
    word, file, told = command
    before = file.read_bytes()
    done = came(ran(program, [word, file], preexec_fn=without(streams)))
    status, output, errors = done
    fault = CLOSED_OUTPUT if 1 in streams else ""
    name = f"{word}, closed {streams}"
    cases.expect(name, status == (2 if fault else 0), done)
    cases.expect(name, output == "" if fault else output == told or told is None and output != "", done)
    cases.expect(name, errors == ("" if 2 in streams else fault), done)
    cases.expect(f"{name}, the file", file.read_bytes() == before)


def free_port():
    with socket.create_server(("127.0.0.1", 0)) as it:
        return it.getsockname()[1]


def connected(port):
    for _ in range(PATIENCE * 20):
        try:
            return socket.create_connection(("127.0.0.1", port), timeout=PATIENCE)
        except ConnectionRefusedError:
            time.sleep(0.05)
    raise TimeoutError(f"nobody listens at {port}")


def ended(server):
    """What a program wrote, which is ended where it does not end by itself."""
    try:
        return server.communicate(timeout=PATIENCE)
    except subprocess.TimeoutExpired:
        server.kill()
        return server.communicate()


def closed_serve(cases, program, room, streams):
    """The partner's connection takes no standard stream's place, and neither does the listener."""
    room.saved.unlink(missing_ok=True)
    port = free_port()
    command = [str(program), "serve", "--save", str(room.saved), f"APT=127.0.0.1:{port}"]
    pipes = {"stdin": subprocess.DEVNULL, "stdout": subprocess.PIPE, "stderr": subprocess.PIPE}
    server = subprocess.Popen(command, preexec_fn=without(streams), **pipes)
    fault = 1 in streams
    reply = b""
    if not fault:
        with connected(port) as partner:
            partner.sendall(f"{ALERTS}\n".encode())
            reply = partner.makefile("rb").readline()
    output, errors = ended(server)
    done = server.returncode, output.decode(), errors.decode(), reply
    listening = f"listen 1 APT 127.0.0.1:{port}\nsession 1 1 end\nclosed 1\n"
    name = f"serve, closed {streams}"
    cases.expect(name, server.returncode == (2 if fault else 0), done)
    cases.expect(name, done[1] == ("" if fault else listening), done)
    cases.expect(name, done[2] == (CLOSED_OUTPUT if fault and 2 not in streams else ""), done)
    cases.expect(name, reply == (b"" if fault else b"alerts 0 -\n"), done)
    cases.expect(f"{name}, the file", room.unsaved() if fault else room.saved.read_text().count("\n") == 1)


def no_text(cases, program):
    """A word that is no text is told as such, wherever it stands."""
    for given in (b"\xff", b"a\xc3", b"\xed\xa0\x80", b"\xf5\x80\x80\x80"):
        for front in (["audit"], ["verify"], ["explain"], ["run", "--journal"], ["run", "--save"], ["serve"], []):
            done = came(ran(program, [*front, given]))
            cases.expect(f"{front} {given}", done == (2, "", "acdm: a word is not UTF-8\n"), done)
    done = came(ran(program, ["audit", b"\xff"], preexec_fn=without((2,))))
    cases.expect("no text, and no errors' stream", done == (2, "", ""), done)
    done = came(subprocess.run([b"\xff"], executable=program, capture_output=True, timeout=PATIENCE))
    cases.expect("a name that is no text", done == (2, "", "acdm: a word is not UTF-8\n"), done)


def pause(process):
    process.send_signal(signal.SIGSTOP)
    time.sleep(0.05)
    process.send_signal(signal.SIGCONT)
    time.sleep(0.02)


def told_between_pauses(process, send, receive, lines):
    replies = []
    for line in lines:
        pause(process)
        send(f"{line}\n".encode())
        replies.append(receive().decode().rstrip("\n"))
        pause(process)
    return replies


def stopped_run(cases, program):
    """Over pipes, and over one connection that is both streams and has a time limit, so that a stop is told to each call."""
    pipes = {"stdin": subprocess.PIPE, "stdout": subprocess.PIPE, "stderr": subprocess.PIPE, "bufsize": 0}
    server = subprocess.Popen([str(program), "run"], **pipes)
    replies = told_between_pauses(server, server.stdin.write, server.stdout.readline, DAY)
    server.stdin.close()
    done = server.wait(timeout=PATIENCE), replies, server.stderr.read()
    cases.expect("run over pipes, stopped", done == (0, DAY_REPLIES, b""), done)
    ours, theirs = socket.socketpair()
    ours.settimeout(PATIENCE)
    for limit in (socket.SO_RCVTIMEO, socket.SO_SNDTIMEO):
        theirs.setsockopt(socket.SOL_SOCKET, limit, struct.pack("ll", 10 * PATIENCE, 0))
    server = subprocess.Popen([str(program), "run"], stdin=theirs, stdout=theirs, stderr=subprocess.PIPE)
    theirs.close()
    replies = told_between_pauses(server, ours.sendall, ours.makefile("rb").readline, DAY)
    ours.shutdown(socket.SHUT_WR)
    done = server.wait(timeout=PATIENCE), replies, server.stderr.read()
    cases.expect("run over a connection, stopped", done == (0, DAY_REPLIES, b""), done)


def stopped_output(cases, program):
    """While a reply waits for its reader, and a line for the rest of it."""
    pipes = {"stdin": subprocess.PIPE, "stdout": subprocess.PIPE, "stderr": subprocess.PIPE}
    server = subprocess.Popen([str(program), "run", "--journal", "1"], **pipes)
    many = 40_000
    sender = threading.Thread(target=lambda: (server.stdin.write(f"{DAY[4]}\n".encode() * many), server.stdin.close()))
    sender.start()
    for _ in range(5):
        time.sleep(0.1)
        pause(server)
    replies = server.stdout.read().decode().splitlines()
    sender.join()
    done = server.wait(timeout=PATIENCE), len(replies), replies[:2]
    cases.expect("run with a slow reader, stopped", done == (0, many, ["alerts 0 -", "bad 502"]), done)


def stopped_audit(cases, program, room):
    """While it waits for the file to be opened, and for what stands in it."""
    pipe = room.folder / "pipe"
    os.mkfifo(pipe)
    for word, file, told in (("audit", room.journal, "legal 5\n"), ("verify", room.code, LISTING)):
        server = subprocess.Popen([str(program), word, pipe], stdout=subprocess.PIPE, stderr=subprocess.PIPE)
        pause(server)
        given = file.read_bytes()
        with open(pipe, "wb", buffering=0) as it:
            for part in (given[:9], given[9:]):
                pause(server)
                it.write(part)
                pause(server)
        output, errors = ended(server)
        done = server.returncode, output.decode(), errors.decode()
        cases.expect(f"{word} of a pipe, stopped", done == (0, told, ""), done)


def stopped_serve(cases, program, room):
    """While it waits for partners, for lines, and a display for entries."""
    ports = [free_port() for _ in range(3)]
    at = [f"127.0.0.1:{port}" for port in ports]
    command = [str(program), "serve", "--watch", at[0], f"APT={at[1]}", f"AO={at[2]}"]
    server = subprocess.Popen(command, stdin=subprocess.DEVNULL, stdout=subprocess.PIPE, stderr=subprocess.PIPE)
    lines, told = [ALERTS] * 4, []
    with connected(ports[1]) as airport:
        pause(server)
        with connected(ports[2]) as airline:
            pause(server)
            with connected(ports[0]) as display:
                seen = display.makefile("rb")
                for partner in (airport, airline):
                    told += told_between_pauses(server, partner.sendall, partner.makefile("rb").readline, lines)
                watched = [seen.readline().split()[0] for _ in range(8)]
    output, errors = ended(server)
    done = server.returncode, output.decode().splitlines()[2:], errors, told, watched
    owed = ["session 1 4 end", "session 2 4 end", "closed 8"]
    cases.expect("serve, stopped, how it ended", done[:3] == (0, owed, b""), done)
    cases.expect("serve, stopped, its partners", told == [f"alerts {k} -" for k in range(8)], done)
    cases.expect("serve, stopped, its display", watched == [str(k).encode() for k in range(8)], done)


def full_disk(cases, program, room):
    day = text(DAY).encode()
    with open("/dev/full", "wb", buffering=0) as full:
        for command, given in (
            (["run"], day), (["audit", room.journal], b""), (["verify", room.code], b""), (["explain", room.code], b""),
            (["serve", "APT=127.0.0.1:0"], b""),
        ):  # fmt: skip
            how = {"stdout": full, "capture_output": False}
            done = ran(program, command, given, stderr=subprocess.PIPE, **how)
            seen = done.returncode, done.stderr.decode()
            cases.expect(f"{command} on a full disk", seen == (2, FULL_OUTPUT), seen)
            done = ran(program, command, given, stderr=full, **how)
            cases.expect(f"{command} on a full disk, errors too", done.returncode == 2, done)
    done = came(ran(program, ["run", "--save", "/dev/full"], day))
    told = SAVE + cause("--save /dev/full", errno.ENOSPC)
    cases.expect("run --save on a full disk", done[0] == 2 and done[2] == told, done)


def gone_reader(cases, program):
    """Whoever reads the output goes away: a write fault and no signal."""
    for command, given in ((["run"], text(DAY[4:] * 20_000).encode()), (["--help"], b"")):
        reading, writing = os.pipe()
        os.close(reading)
        done = ran(program, command, given, stdout=writing, capture_output=False, stderr=subprocess.PIPE)
        os.close(writing)
        cases.expect(f"{command}, its reader gone", done.returncode == 2, done)
        # (help is told on standard error)
        if command == ["run"]:
            cases.expect("and it says so", done.stderr.decode() == NO_READER, done)


def gone_while_serving(cases, program, room):
    """Whoever reads what `serve` tells goes away: what its partners made is saved all the same, and kept."""
    for number, options in enumerate(([], ["--again"], ["--keep", "held"])):
        for has_file in (True, False):
            port, control = free_port(), free_port()
            words = [str(room.folder / it) if it == "held" else it for it in options]
            if options:
                words += ["--control", f"127.0.0.1:{control}"]
            saved = room.folder / f"saved{number}"
            saved.write_text("another day\n")
            words += ["--save", str(saved)] if has_file else []
            command = [str(program), "serve", *words, f"APT=127.0.0.1:{port}"]
            server = subprocess.Popen(command, stdin=subprocess.DEVNULL, stdout=subprocess.PIPE, stderr=subprocess.PIPE)
            server.stdout.readline()
            server.stdout.close()
            with connected(port) as partner:
                partner.sendall(f"{ALERTS}\n{ALERTS}\n".encode())
                with partner.makefile("rb") as answered:
                    replies = [answered.readline() for _ in range(2)]
                if options:
                    with connected(control) as it:
                        it.sendall(b"close\n")
                        it.recv(64)
            status, errors = server.wait(timeout=PATIENCE), server.stderr.read().decode()
            server.stderr.close()
            name = f"serve {' '.join(options)}, its reader gone, {'saved' if has_file else 'not saved'}"
            told = "".join(it for it in errors.splitlines(keepends=True) if it.startswith("acdm"))
            seen = status, told, len(replies[1])
            cases.expect(name, seen == (2, NO_READER, len(replies[0])), (status, errors, replies))
            before = 2 if has_file or "--keep" not in options else 4
            if has_file:
                done = came(ran(program, ["audit", saved]))
                cases.expect(f"{name}, its journal", done == (0, f"legal {before}\n", ""), done)
                cases.expect(f"{name}, nothing beside it", not saved.with_name(saved.name + ".part").exists())
            if "--keep" in options:
                done = came(ran(program, ["audit", room.folder / "held"]))
                cases.expect(f"{name}, what was kept", done == (0, f"legal {before}\n", ""), done)
    saved.write_text("another day\n")
    reading, writing = os.pipe()
    os.close(reading)
    command = ["serve", "--save", saved, f"APT=127.0.0.1:{free_port()}"]
    done = ran(program, command, stdout=writing, capture_output=False, stderr=subprocess.PIPE)
    os.close(writing)
    seen = done.returncode, done.stderr.decode(), saved.read_text()
    cases.expect("serve, nobody served, its reader gone", seen == (2, NO_READER, "another day\n"), seen)


# How many bytes of a line an audit keeps, and of how many one read is.
LINE, ONE_READ = 200_001, 65_536


def without_end(cases, program, room):
    """A line that is too long is told once so much of it is read; what comes behind is not waited for."""
    for front, count in ((b"", 0), (text(DAY_JOURNAL).encode(), 5)):
        for word in ("audit", "tell"):
            server = subprocess.Popen([str(program), word, "/dev/stdin"], stdin=subprocess.PIPE, stdout=subprocess.PIPE, stderr=subprocess.PIPE)
            server.stdin.write(front + b"0" * LINE)
            server.stdin.flush()
            # (its input stays open)
            watchdog = threading.Timer(PATIENCE, server.kill)
            watchdog.start()
            output = server.stdout.read().decode().splitlines()
            done = server.wait(timeout=PATIENCE), output[-1:], len(output), server.stderr.read()
            watchdog.cancel()
            server.stdin.close()
            owed = count + 1 if word == "tell" else 1
            cases.expect(f"{word} of a line without an end, behind {count}", done == (1, [f"entry {count} 401"], owed, b""), done)
        given = front + b"0" * (LINE - 1)
        server = subprocess.Popen([str(program), "audit", "/dev/stdin"], stdin=subprocess.PIPE, stdout=subprocess.PIPE)
        server.stdin.write(given)
        server.stdin.flush()
        time.sleep(0.2)
        cases.expect(f"audit of a line that may be one, behind {count}", server.poll() is None)
        output = server.communicate(b"\n")[0]
        cases.expect(f"audit of the longest line, behind {count}", output == f"entry {count} 401\n".encode(), output)
    for word in ("audit", "tell"):
        done = came(ran(program, [word, "/dev/zero"]))
        cases.expect(f"{word} of zeros without an end", done == (1, "entry 0 401\n", ""), done)


# Stand 12 is 5 minutes away: the bits 0 and 2.
OWN = "[turn_round]\nother = 75\ntypes = {A320 = 40}\n[[taxi]]\nfrom = 0\nminutes = 7\n[[taxi]]\nfrom = 12\nminutes = 5\n"
OWN_REPLIES = [*DAY_REPLIES[:4], "alerts 4 7:LOC00,LOC02"]
OWN_JOURNAL = [it.replace(" 0 1 10 report", " 0 1 5 report") for it in DAY_JOURNAL]
NO_ORDER = "the steps do not begin at stand 0 or do not rise"


def own_tables(cases, program, room):
    """The airport's own tables: each command works by them, and a journal is judged by those of its board."""
    tables, day = room.folder / "tables.toml", text(DAY).encode()
    # (a file of its own: beside the other one stand the tables that are built in)
    saved = room.folder / "saved-by-own"
    tables.write_text(OWN)
    done = came(ran(program, ["run", "--tables", tables, "--save", saved], day))
    cases.expect("run --tables", done == (0, text(OWN_REPLIES), ""), done)
    cases.expect("run --tables --save", saved.read_text() == text(OWN_JOURNAL), saved.read_text())
    shipped = ["--tables", TOP / "examples" / "tables.toml"]
    for command, told in (
        (["audit", "--tables", tables, saved], (0, "legal 5\n", "")),
        (["audit", saved], (2, "", f"acdm: {saved}.tables: other tables than those of this command\n")),
        (["audit", "--tables", tables, room.journal], (1, "entry 3 404\n", "")),
        (["audit", *shipped, room.journal], (0, "legal 5\n", "")),
        (["verify", "--tables", tables, room.code], (0, LISTING, "")),
        (["run", *shipped], (0, text(DAY_REPLIES), "")),
    ):
        done = came(ran(program, command, day))
        cases.expect(f"{command}", done == told, done)
    feed = came(ran(program, ["tell", "--tables", tables, saved]))
    cases.expect("tell --tables", feed[0] == 0 and feed[1].count("\n") == 5 and '"answers":[5]' in feed[1], feed)
    explained = came(ran(program, ["explain", "--tables", tables, room.code]))
    cases.expect("explain --tables", explained == came(ran(program, ["explain", room.code])), explained)


def sums(cases, program):
    """The third helper answers the sum of a moment and of minutes, also of more than a day, up to 10,000 (docs/FORMATS.md, "Helpers")."""
    for minutes in (0, 1, 1_440, 1_441, 10_000):
        # (it asks for the moment and so many minutes, and the low 16 bits of the answer are local alerts)
        code = f"bf31000000000000b7020000{minutes.to_bytes(4, 'little').hex()}85000000030000009500000000000000"
        day = [it.replace(TAXI, code) for it in DAY]
        alerts = ",".join(f"LOC{bit:02}" for bit in range(16) if 29_000_580 + minutes >> bit & 1)
        done = came(ran(program, ["run"], text(day).encode()))
        cases.expect(f"a sum of {minutes} minutes", done == (0, text([*DAY_REPLIES[:4], f"alerts 4 7:{alerts}"]), ""), done)


def wrong_tables(cases, program, room):
    """A file of tables that is wrong is told by its line or its key, before anything else is done."""
    tables, kept = room.folder / "tables.toml", room.folder / "kept"
    for given, told in (
        ("[turn_round]\nother 60\n", "line 2: not TOML"),
        ("turn_round.other = 60\n[[taxi]]\nfrom = 0\nminutes = \xe4\n", "line 4: not TOML"),
        ("taxi = []\ntaxi = [\n  {from = 0, minutes = 5},\n]\n", "line 2: not TOML"),
        ("[turnround]\n", "turnround: no such key"),
        ("[turn_round.types]\nA320 = 1441\n", "turn_round.types.A320: not minutes from 1 to 1440"),
        ("[turn_round.types]\nA320NEO = 45\n", "turn_round.types.A320NEO: not a type of 1 to 4 printable characters"),
        ("taxi = [{from = 0, minutes = 61}]\n", "taxi[1].minutes: not minutes from 1 to 60"),
        ("taxi = [{from = 1, minutes = 5}]\n", f"taxi: {NO_ORDER}"),
        ("[turn_round.types]\n" + text(f"{k:04} = 5" for k in range(1_001)), "turn_round.types.1000: more than 1000"),
        ("#" * 1_000_001, "more than 1000000 bytes"),
    ):
        tables.write_text(given, encoding="latin-1")
        room.saved.unlink(missing_ok=True)
        for command in (
            ["run", "--save", room.saved, "--keep", kept], ["serve", "--save", room.saved, "--keep", kept, "APT=127.0.0.1:0"],
            ["audit", "/no/such/file"], ["tell", room.journal], ["verify", room.code], ["explain", room.code],
        ):  # fmt: skip
            done = came(ran(program, [command[0], "--tables", tables, *command[1:]], text(DAY).encode()))
            cases.expect(f"{command[0]}, {told}", done == (2, "", f"acdm: {tables}: {told}\n"), done)
            cases.expect(f"{command[0]}, {told}, its files", not room.saved.exists() and not kept.exists())
    for path, number in (("/no/such/file", errno.ENOENT), (room.folder, errno.EISDIR)):
        done = came(ran(program, ["run", "--tables", path], text(DAY).encode()))
        cases.expect(f"tables of {path}", done == (2, "", READ + cause(path, number)), done)
    done = came(ran(program, ["run", "--tables", "/dev/zero"]))
    cases.expect("tables without an end", done == (2, "", "acdm: /dev/zero: more than 1000000 bytes\n"), done)


# As many types and steps as there may be, of the first and the last stand, with the least and the most minutes; and types
# of the first and the last byte that one may have.
MOST_TABLES = (
    "[turn_round]\nother = 1440\n[turn_round.types]\n'!' = 1\n'~~~~' = 1440\n"
    + text(f"{k:04} = 5" for k in range(998))
    + text(f"[[taxi]]\nfrom = {k}\nminutes = {1 + k % 60}" for k in range(1_000))
)


def most_tables(cases, program, room):
    """Tables at all of their limits are right: a rule is judged beside them, and asks for the taxi time from stand 12."""
    tables = room.folder / "most.toml"
    tables.write_text(MOST_TABLES)
    done = came(ran(program, ["verify", "--tables", tables, room.code]))
    cases.expect("verify beside tables at their limits", done == (0, LISTING, ""), done)
    done = came(ran(program, ["run", "--tables", tables], text(DAY).encode()))
    cases.expect("run beside them", done == (0, text([*DAY_REPLIES[:4], "alerts 4 7:LOC00,LOC02,LOC03"]), ""), done)


def settings(cases, program, room):
    """A board is served by the words of a file, and by those beside it."""
    file, kept, port = room.folder / "board.toml", room.folder / "kept-by-settings", free_port()
    given = f'again = true\nsync = true\ncontrol = "127.0.0.1:{port}"\njournal = 3\nkeep = "{kept}"\npartners = ["APT=127.0.0.1:0"]\n'
    file.write_text(given)
    for before, behind in (([], ["GH=127.0.0.1:0"]), (["GH=127.0.0.1:0"], [])):
        kept.unlink(missing_ok=True)
        command = [str(program), "serve", *before, "--config", str(file), *behind]
        server = subprocess.Popen(command, stdout=subprocess.PIPE, stderr=subprocess.PIPE, text=True)
        lines = [server.stdout.readline().split() for _ in range(2)]
        roles = ["GH", "APT"] if before else ["APT", "GH"]
        cases.expect(f"partners of a file and of words, {roles}", [it[2] for it in lines] == roles, lines)
        with connected(int(lines[roles.index("APT")][3].rpartition(":")[2])) as partner:
            partner.sendall(b'{"cmd":"tick"}\n' * 4)
            replies = partner.makefile("rb")
            came_back = [replies.readline() for _ in range(4)]
            cases.expect("its room is that of the file", came_back == [b"ok 0\n", b"ok 1\n", b"ok 2\n", b"bad 502\n"], came_back)
        with connected(port) as control:
            control.sendall(b"close\n")
            cases.expect("its control address too", control.makefile("rb").readline() == b"closing\n")
        server.communicate(timeout=PATIENCE)
        cases.expect("it ends", server.returncode == 0, server.returncode)
        cases.expect("its file is kept", kept.read_text().count("\n") == 3)
    shipped = (TOP / "examples" / "board.toml").read_text()
    file.write_text(re.sub(r":\d+\"", ':0"', shipped.replace("day.journal", str(room.folder / "kept-by-example"))))
    # Its log, which the file names by a name alone, lies where it is begun.
    server = subprocess.Popen([str(program), "serve", "--config", str(file)], cwd=room.folder, stdout=subprocess.PIPE, text=True)
    roles = [server.stdout.readline().split()[2:3] for _ in range(5)]
    server.kill()
    server.communicate()
    cases.expect("the shipped file of settings", roles == [["APT"], ["NM"], ["ATC"], ["AO"], ["GH"]], roles)
    file.write_text(given)
    for words_, told in (
        (["--config", file, "--config", file], "unexpected argument '--config'"),
        (["--config", file, "--keep", kept], "'--keep <FILE>' cannot be used multiple times"),
        (["--config", file, "--again"], "'--again' cannot be used multiple times"),
        ([f"--config={file}"], "unexpected argument '--config'"),
        (["APT=127.0.0.1:0", "--config"], "unexpected argument '--config'"),
        (["--", "--config", file], ""),
    ):
        done = came(ran(program, ["serve", *words_]))
        cases.expect(f"refused: {words_[1:]}", done[0] == 2 and done[1] == "" and told in done[2], done)
    for wrong, told in (
        ("again = true\njournal 5\n", "line 2: not TOML"),
        ("partners = []\npartners = [\n  'APT=127.0.0.1:0',\n]\n", "line 2: not TOML"),
        ("again = true\nfoo = 1\n", "foo: no such key"),
        ("config = 'a.toml'\n", "config: no such key"),
        ("sync = 'yes'\n", "sync: not true or false"),
        ("journal = 5.0\n", "journal: not a whole number"),
        ("keep = true\n", "keep: not a text"),
        ("partners = ['--again']\n", "partners: not a list of texts as APT=127.0.0.1:4001"),
        ("#" * 65_537, "more than 65536 bytes"),
    ):
        file.write_text(wrong)
        done = came(ran(program, ["serve", "--keep", room.folder / "none", "--config", file, "APT=127.0.0.1:0"]))
        cases.expect(f"settings, {told}", done == (2, "", f"acdm: {file}: {told}\n"), done)
        cases.expect(f"settings, {told}: nothing is begun", not (room.folder / "none").exists())
    file.write_text("tick = 86401\npartners = ['APT=127.0.0.1:0']\n")
    done = came(ran(program, ["serve", "--config", file]))
    cases.expect("a value of a file is judged as that of a word", done[0] == 2 and "'--tick <SECONDS>'" in done[2], done)
    done = came(ran(program, ["serve", "--config", "/no/such/file"]))
    cases.expect("no file of settings", done == (2, "", READ + cause("/no/such/file", errno.ENOENT)), done)
    file.write_text("")
    done = came(ran(program, ["run", "--config", file]))
    cases.expect("no other command has settings", done[0] == 2 and "unexpected argument" in done[2], done)


def settings_beside_errors(cases, program, room):
    """Nothing is written on standard error where that goes to a journal that words or settings name, also of settings that are wrong."""
    file, journal = room.folder / "beside.toml", room.folder / "beside-errors"
    partner = ["APT=127.0.0.1:0"]
    for name, given, words_ in (
        ("named by settings", f'keep = "{journal}"\n', []),
        ("settings that are wrong", "foo = 1\n", ["--keep", journal]),
        ("settings that are no TOML", "foo\n", [f"--keep={journal}"]),
        ("no settings", None, ["--save", journal]),
    ):
        journal.write_text(text(DAY_JOURNAL))
        file.unlink(missing_ok=True)
        if given is not None:
            file.write_text(given)
        with open(journal, "ab") as errors:
            how = {"stdout": subprocess.PIPE, "stderr": errors, "capture_output": False}
            done = ran(program, ["serve", *words_, "--config", file, *partner], **how)
        seen = done.returncode, done.stdout, journal.read_text()
        cases.expect(f"standard error is the journal, {name}", seen == (2, b"", text(DAY_JOURNAL)), seen)


def refused_words(cases, program, room):
    """A value that an option does not take, and an option without the one that it needs: the line names it, and what it takes."""
    kept, partner = str(room.folder / "kept-by-refused-words"), "APT=127.0.0.1:0"
    numbers = (("--journal", 1_000_000), ("--pace", 4_294_967_295), ("--tick", 86_400))
    for option, most in numbers:
        for given in ("0", str(most + 1), "x", "-1", "", "1.0"):
            for command in (["run"],) if option == "--journal" else (["serve", partner], ["follow", "127.0.0.1:1", "--keep", kept, partner]):
                done = came(ran(program, [command[0], f"{option}={given}", *command[1:]]))
                named = option in done[2] and re.search(rf"\b1 to {most}\b", done[2])
                cases.expect(f"{command[0]} {option}={given} is refused by its name and range", done[:2] == (2, "") and named, done)
    for word in ("verify", "explain"):
        for given in ("0", "127", "129", "161", "0128", "x", ""):
            done = came(ran(program, [word, f"--length={given}", room.code]))
            named = all(it in done[2] for it in ("--length", "128", "160"))
            cases.expect(f"{word} --length={given} is refused by its name and numbers", done[:2] == (2, "") and named, done)
    done = came(ran(program, ["serve", "--peer", "127.0.0.1:1", partner]))
    cases.expect("--peer alone is refused by the word that it needs", done[:2] == (2, "") and "'--keep <FILE>'" in done[2], done)
    cases.expect("and no file is made", not pathlib.Path(kept).exists())


# The words that a command takes, as docs/RULES.md has them, "Lines", "Partners over TCP" and "Local programs".
OF_RUN = ["--journal <N>", "--save <FILE>", "--keep <FILE>", "--sync", "--tables <FILE>"]
OF_SERVE = [
    *OF_RUN,
    *("--watch <ADDR>", "--changes <ADDR>", "--web <ADDR>", "--web-name <NAME>", "--again", "--control <ADDR>"),
    *("--pace <N>", "--tick <SECONDS>", "--log <FILE>", "--second <N>", "--strict", "--peer <ADDR>", "<ROLE=ADDR>"),
]
OF_PROGRAM = ["--length <N>", "--tables <FILE>", "<FILE>"]
WORDS_OF = {
    **{"run": OF_RUN, "serve": OF_SERVE, "follow": [*OF_SERVE, "<ADDR>"], "audit": OF_PROGRAM[1:], "tell": OF_PROGRAM[1:]},
    **{"verify": OF_PROGRAM, "explain": OF_PROGRAM},
}
# What else is said of a word: from which number to which one it is, or which ones it takes.
SAID_OF = {
    "--journal <N>": ["1 to 1000000", "100000"],
    "--pace <N>": ["1 to 4294967295"],
    "--tick <SECONDS>": ["1 to 86400"],
    "--second <N>": ["1 to 8", "--keep", "--watch"],
    "--strict": ["--second"],
    "--sync": ["--keep"],
    "--web-name <NAME>": ["With --web"],
    "--length <N>": ["128", "160"],
    "<ROLE=ADDR>": ["NM, ATC, APT, AO, GH or DIC"],
}


def helped(cases, program):
    """Each command says by `--help` which words it takes, with their values and bounds, and no others."""
    _, _, said = came(ran(program, ["--help"]))
    cases.expect("all commands are named", all(re.search(rf"^ +{it}\b", said, re.M) for it in WORDS_OF), said)
    for command, owed in WORDS_OF.items():
        status, output, said = came(ran(program, [command, "--help"]))
        # (each word begins a line, and what is said of it may go on in the lines behind that)
        parts = re.split(r"^ +(?=-|\[?<)", said, flags=re.M)
        told = {}
        for part in parts[1:]:
            name = re.match(r"(?:-\w, )?(--[\w-]+(?: <\w+>)?|<[\w=]+>)", part.lstrip("["))
            if name:
                told[name[1]] = " ".join(part.split())
        cases.expect(f"{command} --help is told on standard error", (status, output) == (2, ""), (status, output))
        others = {it for it in told if it not in ("--help", "--version")}
        cases.expect(f"{command} --help names its words", others == {*owed}, others ^ {*owed})
        for name, wanted in SAID_OF.items():
            if name in told:
                cases.expect(f"{command} --help, {name}", all(re.search(rf"{re.escape(it)}\b", told[name]) for it in wanted), told[name])


def told_cause(cases, program, command, told, given=b""):
    """A command ends with status 2 and these two lines, and nothing else is told."""
    done = came(ran(program, command, given, timeout=PATIENCE))
    cases.expect(f"the cause, {' '.join(map(str, command))[:100]}", done == (2, "", told), done)


def causes_of_files(cases, program, room):
    """Which file could not be read, kept or saved in, and why."""
    day, nowhere, no_folder = text(DAY).encode(), room.folder / "nowhere", room.folder / "no-folder" / "file"
    for word in ("audit", "tell", "verify", "explain"):
        for path, number in ((nowhere, errno.ENOENT), (room.folder, errno.EISDIR)):
            told_cause(cases, program, [word, path], READ + cause(path, number))
    kept, pipes = room.folder / "kept-by-another", {"stdin": subprocess.PIPE, "stdout": subprocess.PIPE}
    other = subprocess.Popen([str(program), "run", "--keep", str(kept)], **pipes)
    other.stdin.write(f"{DAY[0]}\n".encode())
    other.stdin.flush()
    cases.expect("another board keeps its journal", other.stdout.readline() == b"ok 0\n")
    own, many = room.folder / "own-tables.toml", room.folder / "many"
    own.write_text(OWN)
    for number in ("", *range(1, 99)):
        many.with_name(f"many.part{number}").touch()
    done = came(ran(program, ["run", "--save", many], day))
    cases.expect("the last name beside a file is free", done == (0, text(DAY_REPLIES), "") and many.exists(), done)
    many.with_name("many.part99").touch()
    for command in (["run"], ["serve", "APT=127.0.0.1:0"]):
        for words_, first, reason in (
            (["--keep", no_folder], KEEP, errno.ENOENT),
            (["--keep", room.folder], KEEP, NO_PLAIN_FILE),
            (["--keep", "/dev/null"], KEEP, NO_PLAIN_FILE),
            (["--keep", "/dev/full"], KEEP, NO_PLAIN_FILE),
            (["--keep", kept], IN_USE, KEPT_ELSEWHERE),
            (["--journal", "4", "--keep", room.journal], ROOM, NO_ROOM),
            (["--tables", own, "--keep", own], KEEP, TAKEN),
            (["--save", no_folder], SAVE, errno.ENOENT),
            (["--save", room.folder], SAVE, errno.EISDIR),
            (["--save", kept], SAVE, KEPT_THERE),
            (["--save", many], SAVE, "no name is free beside it"),
            (["--tables", own, "--save", own], SAVE, TAKEN),
            (["--keep", nowhere, "--save", nowhere], SAVE, TAKEN),
            (["--keep", nowhere, "--save", no_folder], SAVE, errno.ENOENT),
        ):  # fmt: skip
            told = first + cause(f"{words_[-2]} {words_[-1]}", reason)
            told_cause(cases, program, [command[0], *words_, *command[1:]], told, day)
            # (with nothing changed: no file is made that is kept, nor its tables)
            cases.expect(f"nothing is kept, {words_}", not nowhere.exists() and not nowhere.with_name("nowhere.tables").exists())
    other.stdin.close()
    cases.expect("the other board ends", other.wait(timeout=PATIENCE) == 0)
    with open(own, "rb") as given:
        done = came(ran(program, ["run", "--keep", own], None, stdin=given))
    cases.expect("the cause, --keep of standard input", done == (2, "", KEEP + cause(f"--keep {own}", TAKEN)), done)


def causes_of_addresses(cases, program, room):
    """Which address could not be listened at, and why: a bad one, one in use, and one of another machine."""
    no_role, no_address = "no role before =: NM, ATC, APT, AO, GH or DIC", "no IP address with a port"
    neither, settings_ = "neither an IP address with a port nor a port", room.folder / "partners.toml"
    settings_.write_text("partners = ['APT=127.0.0.1:0', 'GH=nowhere']\n")
    good, away = "APT=127.0.0.1:0", "192.0.2.1:4001"
    many, too_many = [good] * 64, "more sessions than 64, of which ticks take one"
    with socket.create_server(("127.0.0.1", 0)) as taken:
        port = taken.getsockname()[1]
        used = f"127.0.0.1:{port}"
        for words_, first, word, reason in (
            (["XX=127.0.0.1:0"], "acdm: role 1\n", "XX=127.0.0.1:0", no_role),
            ([good, "apt=127.0.0.1:0"], "acdm: role 2\n", "apt=127.0.0.1:0", no_role),
            ([good, "nowhere"], "acdm: role 2\n", "nowhere", no_role),
            (["APT=nowhere"], "acdm: address 1\n", "APT=nowhere", no_address),
            ([good, "GH=4001"], "acdm: address 2\n", "GH=4001", no_address),
            (["--config", settings_], "acdm: address 2\n", "GH=nowhere", no_address),
            ([good, f"GH={used}"], "acdm: address 2\n", f"GH={used}", errno.EADDRINUSE),
            ([f"APT={away}"], "acdm: address 1\n", f"APT={away}", errno.EADDRNOTAVAIL),
            ([*many, "GH=127.0.0.1:0"], "acdm: address 65\n", "GH=127.0.0.1:0", too_many),
            # (of several too many the first one is named)
            ([*many, "GH=127.0.0.1:0", "NM=127.0.0.1:0"], "acdm: address 65\n", "GH=127.0.0.1:0", too_many),
            (["--tick", "60", *many[1:], "GH=127.0.0.1:0", "NM=127.0.0.1:0"], "acdm: address 64\n", "GH=127.0.0.1:0", too_many),
            (["--control", str(port), good], CONTROL, f"--control {port}", errno.EADDRINUSE),
        ):
            told_cause(cases, program, ["serve", *words_], first + cause(word, reason))
        for option in ("--watch", "--changes", "--web", "--control"):
            first, bad = (CONTROL, neither) if option == "--control" else (WATCH, no_address)
            for address, reason in (("nowhere", bad), (used, errno.EADDRINUSE), (away, errno.EADDRNOTAVAIL)):
                told = first + cause(f"{option} {address}", reason)
                told_cause(cases, program, ["serve", option, address, good], told)
                kept = ["--keep", room.folder / "kept-by-nobody"]
                told_cause(cases, program, ["serve", *kept, option, address, good], told)


def two_causes(cases, program):
    """Standard output fails, and later a file: the line behind names the file, by which the command failed."""
    command, streams = [str(program), "serve", "--save", "/dev/full", "APT=127.0.0.1:0"], {"stdin": subprocess.DEVNULL}
    server = subprocess.Popen(command, stdout=subprocess.PIPE, stderr=subprocess.PIPE, **streams)
    port = int(server.stdout.readline().rpartition(b":")[2])
    server.stdout.close()
    with connected(port) as partner:
        partner.sendall(f"{ALERTS}\n".encode())
        with partner.makefile("rb") as answered:
            answered.readline()
    seen = server.wait(timeout=PATIENCE), server.stderr.read().decode()
    server.stderr.close()
    cases.expect("a stream failed before the file", seen == (2, SAVE + cause("--save /dev/full", errno.ENOSPC)), seen)


def causes_of_streams(cases, program, room):
    """Standard input that can't be read. (Standard output is tried by `full_disk` and `gone_reader`.)"""
    folder, told = os.open(room.folder, os.O_RDONLY), READ + cause("standard input", errno.EISDIR)
    for words_ in (["run"], ["run", "--save", room.folder / "none"], ["run", "--keep", room.folder / "kept-of-none"]):
        done = came(ran(program, words_, None, stdin=folder))
        cases.expect(f"the cause, {words_} of a folder", done == (2, "", told), done)
    os.close(folder)


def main():
    given = words(__doc__).parse_args()
    cases, program = Cases(), given.program.resolve()
    with tempfile.TemporaryDirectory(prefix="acdm-") as folder:
        room = Room(folder)
        closed_streams(cases, program, room)
        no_text(cases, program)
        stopped_run(cases, program)
        stopped_output(cases, program)
        stopped_audit(cases, program, room)
        stopped_serve(cases, program, room)
        full_disk(cases, program, room)
        gone_reader(cases, program)
        gone_while_serving(cases, program, room)
        without_end(cases, program, room)
        own_tables(cases, program, room)
        sums(cases, program)
        wrong_tables(cases, program, room)
        most_tables(cases, program, room)
        settings(cases, program, room)
        settings_beside_errors(cases, program, room)
        refused_words(cases, program, room)
        helped(cases, program)
        causes_of_files(cases, program, room)
        causes_of_addresses(cases, program, room)
        causes_of_streams(cases, program, room)
        two_causes(cases, program)
    return cases.end()


if __name__ == "__main__":
    sys.exit(main())
