#!/usr/bin/env python3
"""Has the built `acdm` keep its journal on a disk that fails for a moment, and says which replies stand in it then.

    python3 bench/hostile/failing_disk.py [--program PATH] [--rounds N]

Linux holds a page of a file whose writing failed as if it were on the disk, and later syncs succeed. So a board goes on
from a kept journal in a new file. First part: each of the first syncs fails once, by failing_disk.c, preloaded; the
board ends, and the calls of one that goes on have the order that a power cut can't harm, also those of a promotion and
of `--save`. Reads fail, there are no locks, and another file takes the place of the journal before it is locked. Writes
take a part, or signals interrupt them, and the board goes on; terms and tables are whole all the same. Second part,
where file systems may be mounted: `run --keep FILE --sync` on ext4 in an image that loses its room, until a sync fails
and the board ends; there is room again, the board goes on by the same words, and then the power is cut (a copy of the
image at that moment) or the file system is unmounted and mounted. FILE has the entry of every reply that was read. And
files of one number on two disks are two.
A part that is left out is told, and is no failure. The last line is `N cases, M failed`; status 1 where one failed.
"""

import errno
import json
import os
import pathlib
import re
import shutil
import signal
import socket
import subprocess
import sys
import tempfile
import time
import types
from collections.abc import Sequence

from cases import KEPT_ELSEWHERE, Cases, cause, ran, words
from keep import legal, whole_of

HERE = pathlib.Path(__file__).resolve().parent
# The image, and the room for all that stands beside it too.
IMAGE_SIZE, STORE_SIZE = 32 << 20, 40 << 20
# How many lines are answered before there is no room; a number for each fault of a round.
LINES_BEFORE = [(0,), (5,), (150,), (300, 20)]
# A block takes 140 entries or fewer: a file that gets none takes no more lines than so many.
MOST_LINES = 1_000
LINES_AFTER = 200
FIRST_MINUTE = 29_000_580
KEEP_FAILED, SAVE_FAILED, READ_FAILED = "acdm: keep failed\n", "acdm: save failed\n", "acdm: read failed\n"
IN_USE = "acdm: the kept journal is in use\n"


def put(name: str) -> list[str]:
    """The calls by which a file takes its place, whole: no power cut leaves a part of it."""
    return [f"write {name}.part", f"fsync {name}.part", f"rename {name}.part {name}", "fsync ."]


# What comes before the first reply of a board that goes on from the file `day`, in this order. The new file has the
# rights of the old one before it has its text, and nobody else keeps a journal there once it has the name.
OPENED = ["flock day", "fsync ."]
GOING_ON = [*OPENED, "fchmod day.part", "flock day.part", *put("day")]
# The same where its tables do not stand beside it yet.
GOING_ON_FIRST = [*OPENED, *put("day.tables"), *GOING_ON[len(OPENED) :]]
FOLDER_AT_FIRST, TABLES, FOLDER_OF_TABLES, NEW_FILE, FOLDER_AT_LAST = 1, 2, 3, 4, 5
# How often an image is copied at most, until two copies are the same.
MOST_COPIES = 20
# A tool of the system ends within so many seconds, the script within so many.
TOOL_SECONDS, ALL_SECONDS = 60, 300
ENDINGS = (signal.SIGINT, signal.SIGTERM, signal.SIGHUP, signal.SIGALRM)


def line(sent: int) -> str:
    """A line that is different from all others, by how many were sent before it."""
    return f'1 {FIRST_MINUTE + sent} APT {{"cmd":"tick"}}'


def entry(number: int, sent: int) -> bytes:
    """The line of the journal that this line makes, as the entry of a number."""
    return f"{number} 1 {FIRST_MINUTE + sent} APT 0 0 tick".encode()


def keeping(file: pathlib.Path) -> list[str]:
    return ["run", "--keep", str(file), "--sync"]


def failed(file: pathlib.Path, number: int = errno.EIO) -> tuple[int, bytes, bytes]:
    """How a board ends that keeps its journal in a file where a call fails by the error of this number."""
    return 2, b"", (KEEP_FAILED + cause(f"--keep {file}", number)).encode()


def lines_of(file: pathlib.Path) -> list[bytes]:
    """The whole lines of a kept journal; none where it is not there."""
    return whole_of(file) if file.exists() else []


class Board:
    """A program that is given a line once the one before it was answered."""

    def __init__(
        self,
        program: pathlib.Path,
        arguments: Sequence[str],
        env: dict[str, str] | None = None,
        pass_fds: Sequence[int] = (),
        folder: pathlib.Path | None = None,
    ) -> None:
        command, pipe = [str(program), *arguments], subprocess.PIPE
        # pylint: disable-next=consider-using-with
        self.process = subprocess.Popen(
            command, stdin=pipe, stdout=pipe, stderr=pipe, env=env, pass_fds=pass_fds, cwd=folder
        )

    def __enter__(self) -> "Board":
        return self

    def __exit__(self, *_: object) -> None:
        self.process.kill()
        self.process.communicate()

    def read(self) -> str:
        """The next line of standard output, without its line feed; empty where there is none."""
        assert self.process.stdout
        return self.process.stdout.readline().decode().rstrip("\n")

    def ask(self, given: str) -> str:
        """The reply to a line; empty where there is none."""
        assert self.process.stdin
        try:
            self.process.stdin.write(given.encode() + b"\n")
            self.process.stdin.flush()
        except BrokenPipeError:
            return ""
        return self.read()

    def end(self) -> tuple[int, bytes, bytes]:
        """Its status, and what more it said on standard output and on standard error, once its input has ended."""
        output, errors = self.process.communicate(timeout=30)
        return self.process.returncode, output, errors


class Day:
    """What is sent to the boards of a file, one after another, and the entries that replies told of."""

    def __init__(self) -> None:
        self.sent = 0
        self.told: dict[int, bytes] = {}

    def ask(self, board: Board) -> bool:
        """Whether the next line was answered."""
        sent = self.sent
        self.sent += 1
        reply = board.ask(line(sent))
        if not reply.startswith("ok "):
            return False
        number = int(reply.split()[1])
        self.told[number] = entry(number, sent)
        return True

    def lost(self, file: pathlib.Path) -> list[int]:
        """The numbers of the entries that were told and do not stand in a kept journal."""
        lines = lines_of(file)
        return [number for number, text in self.told.items() if number >= len(lines) or lines[number] != text]


def expect_kept(
    cases: Cases, name: str, program: pathlib.Path, file: pathlib.Path, day: Day, room: pathlib.Path
) -> None:
    lost = day.lost(file)
    seen = f"{len(lost)} of {len(day.told)} lost, from {lost[:1]} on"
    cases.expect(f"{name}: what was replied stands in the file", not lost, seen)
    cases.expect(f"{name}: the file is legal", file.exists() and legal(program, file, room), file)


def tool(*arguments: str | os.PathLike[str]) -> None:
    """Runs a tool of the system, which Ctrl-C at a terminal does not reach. `OSError` where it fails."""
    command = [os.fspath(argument) for argument in arguments]
    done = subprocess.run(
        command, capture_output=True, text=True, timeout=TOOL_SECONDS, check=False, start_new_session=True
    )
    if done.returncode != 0:
        raise OSError(done.stderr.partition("\n")[0] or f"{command[0]}: status {done.returncode}")


class Mounts:
    """Mounts file systems, and in the end unmounts all that it mounted. A loop device ends with its file system."""

    def __init__(self) -> None:
        self.places: list[pathlib.Path] = []

    def mount(self, place: pathlib.Path, *options: str | os.PathLike[str]) -> None:
        place.mkdir(exist_ok=True)
        self.places.append(place)
        tool("mount", *options, place)

    def unmount(self, place: pathlib.Path) -> None:
        tool("umount", place)
        self.places.remove(place)

    def end(self) -> None:
        for place in reversed(self.places):
            if os.path.ismount(place):
                try:
                    tool("umount", place)
                except OSError:
                    tool("umount", "--lazy", place)
        self.places.clear()


class Disk:
    """Ext4 in an image that has room for its own blocks, and for more as long as what it stands in has some."""

    def __init__(self, mounts: Mounts, room: pathlib.Path) -> None:
        self.mounts, self.room = mounts, room
        self.store, self.top = room / "store", room / "disk"
        self.image, self.filler, self.file = self.store / "image", self.store / "filler", self.top / "day"
        mounts.mount(self.store, "-t", "tmpfs", "-o", f"size={STORE_SIZE}", "tmpfs")
        self.image.write_bytes(bytes(IMAGE_SIZE))
        # (blocks as large as the pages of the store, so that none has room by the one beside it)
        tool("mkfs.ext4", "-q", "-b", "4096", "-E", "nodiscard,lazy_itable_init=0", self.image)
        # What was zeroed by taking its room away gets it again; then what no file has loses it.
        self.image.write_bytes(self.image.read_bytes())
        self.mount()
        self.trim()

    def mount(self) -> None:
        self.mounts.mount(self.top, "-o", "loop", self.image)

    def trim(self) -> None:
        tool("fstrim", self.top)

    def fill(self) -> None:
        """Leaves the image no room but for the blocks that it has."""
        self.trim()
        with open(self.filler, "wb", buffering=0) as filler:
            try:
                while True:
                    filler.write(bytes(65_536))
            except OSError:
                pass

    def make_room(self) -> None:
        self.filler.unlink()

    def names(self) -> list[str]:
        """What stands there but the tables of its journal."""
        return sorted(path.name for path in self.top.iterdir() if path.name != "day.tables")

    def after_unmount(self) -> pathlib.Path:
        """The file, once the file system was unmounted and mounted."""
        self.mounts.unmount(self.top)
        self.mount()
        return self.file

    def after_cut(self) -> pathlib.Path:
        """The file as it is where the power is cut now."""
        image, top = self.room / "copy", self.room / "cut"
        held, copied = b"", self.image.read_bytes()
        # (what is the same in two copies was there at one moment between them)
        for _ in range(MOST_COPIES):
            if held == copied:
                break
            held, copied = copied, self.image.read_bytes()
        image.write_bytes(copied)
        self.mounts.mount(top, "-o", "loop", image)
        return top / "day"


def fault(cases: Cases, name: str, program: pathlib.Path, disk: Disk, day: Day, lines: int) -> None:
    """A board answers so many lines, then it ends by a fault; one that begins while the disk has no room ends too."""
    # (a loop device hands on what its store says, or, by some versions of the kernel, that it failed)
    without = [failed(disk.file, number) for number in (errno.ENOSPC, errno.EIO)]
    with Board(program, keeping(disk.file)) as board:
        answered = [day.ask(board) for _ in range(lines)]
        cases.expect(f"{name}: lines are answered", all(answered), f"{answered.count(False)} are not")
        disk.fill()
        count = 0
        while count < MOST_LINES and day.ask(board):
            count += 1
        ended = board.end()
    cases.expect(f"{name}: a failed sync ends the board", ended in without, (count, ended))
    done = ran(program, keeping(disk.file), line(day.sent).encode() + b"\n")
    ended = (done.returncode, done.stdout, done.stderr)
    cases.expect(f"{name}: no board goes on without room", ended in without, ended)
    cases.expect(
        f"{name}: and it leaves nothing beside but its tables", disk.names() == ["day", "lost+found"], disk.names()
    )
    disk.make_room()


def round_of(cases: Cases, program: pathlib.Path, disk: Disk, turn: int, is_cut: bool) -> None:
    """Faults, a board that goes on after each, and then a power cut or an unmount."""
    name = f"{'a power cut' if is_cut else 'an unmount'}, round {turn}"
    day = Day()
    for lines in LINES_BEFORE[turn % len(LINES_BEFORE)]:
        fault(cases, name, program, disk, day, lines)
    kept = len(lines_of(disk.file))
    with Board(program, keeping(disk.file)) as board:
        answered = [day.ask(board) for _ in range(LINES_AFTER)]
        file = disk.after_cut() if is_cut else disk.file
        ended = board.end()
    cases.expect(f"{name}: the board goes on", all(answered), f"{answered.count(False)} lines are not answered")
    last = max(day.told, default=-1)
    cases.expect(f"{name}: behind what is kept", last == kept + LINES_AFTER - 1, (kept, last))
    cases.expect(f"{name}: nothing is left beside but its tables", disk.names() == ["day", "lost+found"], disk.names())
    cases.expect(f"{name}: and it ends", ended == (0, b"", b""), ended)
    if not is_cut:
        file = disk.after_unmount()
    expect_kept(cases, name, program, file, day, disk.room)


def is_mountable(mounts: Mounts, room: pathlib.Path) -> bool:
    """Whether there can be such a disk; the cause is told where there can't."""
    try:
        Disk(mounts, room)
        return True
    except OSError as error:
        print(f"left out: a disk without room ({error})", flush=True)
        return False
    finally:
        mounts.end()


def without_room(cases: Cases, program: pathlib.Path, rounds: int, mounts: Mounts, room: pathlib.Path) -> None:
    """The second part."""
    if not is_mountable(mounts, room):
        return
    for turn in range(rounds):
        for is_cut in (True, False):
            try:
                round_of(cases, program, Disk(mounts, room), turn, is_cut)
            finally:
                mounts.end()


def two_disks(cases: Cases, program: pathlib.Path, mounts: Mounts, room: pathlib.Path) -> None:
    """Files of one number on two disks are two files, of which one is kept and the other one saved."""
    kept, old = room / "one" / "day", room / "other" / "old"
    try:
        for file in (kept, old):
            mounts.mount(file.parent, "-t", "tmpfs", "-o", "size=1m", "tmpfs")
            file.write_bytes(entry(0, 0) + b"\n")
        if kept.stat().st_ino != old.stat().st_ino:
            print("left out: files of one number on two disks (the numbers differ)", flush=True)
            return
        done = ran(program, ["run", "--keep", str(kept), "--save", str(old)], line(1).encode() + b"\n")
        ended = (done.returncode, done.stdout, done.stderr)
        cases.expect("files of one number on two disks are two", ended == (0, b"ok 1\n", b""), ended)
        cases.expect(
            "each has the journal", kept.read_bytes() == old.read_bytes() == b"%b\n%b\n" % (entry(0, 0), entry(1, 1))
        )
    except OSError as error:
        print(f"left out: files of one number on two disks ({error})", flush=True)
    finally:
        mounts.end()


class Recorded:
    """Begins boards behind failing_disk.c, which has a call fail once, and reads what they called."""

    def __init__(self, program: pathlib.Path, room: pathlib.Path) -> None:
        self.program, self.room, self.folder = program, room, room / "kept"
        self.shim, self.record, self.file = room / "failing_disk.so", room / "calls", self.folder / "day"
        subprocess.run(["cc", "-O2", "-shared", "-fPIC", "-o", self.shim, HERE / "failing_disk.c"], check=True)

    def renew(self) -> None:
        """Has an empty folder for the next case."""
        shutil.rmtree(self.folder, ignore_errors=True)
        self.folder.mkdir()

    def names(self) -> list[str]:
        """What stands in the folder."""
        return sorted(path.name for path in self.folder.iterdir())

    def begin(self, *arguments: str, folder: pathlib.Path | None = None, **env: str) -> Board:
        """A board by these words, by those of `keeping` where there are none, begun in this folder."""
        with open(self.record, "wb") as calls:
            env |= {"LD_PRELOAD": str(self.shim), "CALLS_TO": str(calls.fileno()), "PATH": os.environ["PATH"]}
            return Board(self.program, arguments or keeping(self.file), env, (calls.fileno(),), folder)

    def calls(self) -> list[str]:
        """The calls so far, with names that begin in the folder; writes to one file in a row are one."""
        text = self.record.read_text(encoding="utf-8").replace(f"{self.folder}/", "").replace(str(self.folder), ".")
        calls = text.splitlines()
        return [call for at, call in enumerate(calls) if not call.startswith("write ") or calls[at - 1 : at] != [call]]

    def before_reply(self) -> list[str]:
        calls = self.calls()
        return calls[: calls.index("write 1")] if "write 1" in calls else [*calls, "no reply"]


def failed_sync(cases: Cases, recorded: Recorded, number: int) -> None:
    """The sync of this number fails, and a board goes on."""
    name, day = f"sync {number} fails", Day()
    recorded.renew()
    with recorded.begin(FAIL_FDATASYNC=str(number)) as board:
        answered = [day.ask(board) for _ in range(number)]
        ended = board.end()
    cases.expect(f"{name}: lines before it alone are answered", answered == [True] * (number - 1) + [False], answered)
    cases.expect(f"{name}: the board ends", ended == failed(recorded.file), ended)
    cases.expect(
        f"{name}: it calls nothing after it", recorded.calls()[-1:] == ["fdatasync day failed"], recorded.calls()
    )
    with recorded.begin() as board:
        answered = [day.ask(board) for _ in range(3)]
        ended = board.end()
    cases.expect(f"{name}: a board goes on", (all(answered), ended) == (True, (0, b"", b"")), (answered, ended))
    wanted = [*GOING_ON, "write day", "fdatasync day"]
    cases.expect(
        f"{name}: its first reply comes behind a new file", recorded.before_reply() == wanted, recorded.calls()
    )
    expect_kept(cases, name, recorded.program, recorded.file, day, recorded.room)


def failed_begin(cases: Cases, recorded: Recorded, number: int) -> None:
    """A board does not go on where a sync of its new file or of the folder fails."""
    name, text = f"sync {number} of going on fails", b"%b\n%b\n" % (entry(0, 0), entry(1, 1))
    recorded.renew()
    recorded.file.write_bytes(text)
    with recorded.begin(FAIL_FSYNC=str(number)) as board:
        reply = board.ask(line(2))
        ended = board.end()
    cases.expect(f"{name}: nothing is answered", (reply, ended) == ("", failed(recorded.file)), (reply, ended))
    cases.expect(f"{name}: the journal stays", recorded.file.read_bytes() == text, recorded.file.read_bytes())
    names = recorded.names()
    left = ["day"] if number < FOLDER_OF_TABLES else ["day", "day.tables"]
    cases.expect(f"{name}: nothing is left beside but tables that are named", names == left, names)
    wanted = [*GOING_ON_FIRST[: GOING_ON_FIRST.index("fsync day.part")], "fsync day.part failed"]
    if number == NEW_FILE:
        cases.expect(f"{name}: it does not take the place", recorded.calls() == wanted, recorded.calls())


def without_sync(cases: Cases, recorded: Recorded) -> None:
    """Also without `--sync` a board goes on in a new file."""
    recorded.renew()
    recorded.file.write_bytes(entry(0, 0) + b"\n")
    with recorded.begin("run", "--keep", str(recorded.file)) as board:
        reply = board.ask(line(1))
        ended = board.end()
    cases.expect("a board goes on without --sync", (reply, ended) == ("ok 1", (0, b"", b"")), (reply, ended))
    called = recorded.before_reply()
    cases.expect("its first reply comes behind a new file", called == [*GOING_ON_FIRST, "write day"], called)


def without_folder(cases: Cases, recorded: Recorded) -> None:
    """A file that is named by its name alone: it is the folder where the board was begun that is synced."""
    recorded.renew()
    recorded.file.write_bytes(entry(0, 0) + b"\n")
    with recorded.begin("run", "--keep", "day", "--sync", folder=recorded.folder) as board:
        reply = board.ask(line(1))
        ended = board.end()
    cases.expect("a board goes on by a name alone", (reply, ended) == ("ok 1", (0, b"", b"")), (reply, ended))
    wanted, called = [*GOING_ON_FIRST, "write day", "fdatasync day"], recorded.before_reply()
    cases.expect("its first reply comes behind its folder", called == wanted, called)


def without_entries(cases: Cases, recorded: Recorded) -> None:
    """A line that makes no entry waits for no sync."""
    recorded.renew()
    with recorded.begin() as board:
        replies = [board.ask(given) for given in (line(0), "1 29000580 APT {}", "", line(1))]
        ended = board.end()
    cases.expect("lines are answered", replies == ["ok 0", "bad 102", "bad 100", "ok 1"], replies)
    count = recorded.calls().count("fdatasync day")
    cases.expect("a sync for each entry, and one at the end at most", count in (2, 3) and ended[0] == 0, (count, ended))


def not_gone_on(cases: Cases, recorded: Recorded, name: str, told: str, **env: str) -> None:
    """A board does not go on from a file where this fails: it says so, and the file stays."""
    recorded.renew()
    text = entry(0, 0) + b"\n"
    recorded.file.write_bytes(text)
    for words_ in (["run"], ["serve", "APT=127.0.0.1:0"]):
        with recorded.begin(words_[0], "--keep", str(recorded.file), *words_[1:], folder=None, **env) as board:
            reply = board.ask(line(1)) if words_ == ["run"] else ""
            ended = board.end()
        cases.expect(f"{name}, {words_[0]}", (reply, ended) == ("", (2, b"", told.encode())), (reply, ended))
    cases.expect(f"{name}: the journal stays", recorded.file.read_bytes() == text, recorded.file.read_bytes())
    cases.expect(f"{name}: nothing is left beside", recorded.names() == ["day"], recorded.names())


def unusable(cases: Cases, recorded: Recorded) -> None:
    """A file that can't be read, and one on a file system that has no locks."""
    word = f"--keep {recorded.file}"
    told = READ_FAILED + cause(word, errno.EIO)
    not_gone_on(cases, recorded, "a file that can't be read", told, FAIL_READ=str(recorded.file))
    told = KEEP_FAILED + cause(word, errno.ENOLCK)
    not_gone_on(cases, recorded, "no locks", told, FAIL_FLOCK="1")


def without_null_device(cases: Cases, recorded: Recorded) -> None:
    """Where nothing could take the place of a closed standard stream nothing is done, closed or not."""
    recorded.renew()
    for words_ in (["run", "--keep", str(recorded.file)], ["audit", str(recorded.file)]):
        with recorded.begin(*words_, FAIL_OPEN="/dev/null") as board:
            ended = board.end()
        cases.expect(f"no null device, {words_[0]}", ended == (2, b"", b"acdm: no null device\n"), ended)
    cases.expect("no null device: no file is made", recorded.names() == [], recorded.names())


def replaced(cases: Cases, recorded: Recorded) -> None:
    """Another board puts its new file in the place of one that is just opened: that file is left to it."""
    recorded.renew()
    other, text = recorded.folder / "other", b"%b\n%b\n" % (entry(0, 0), entry(1, 1))
    recorded.file.write_bytes(text[: text.index(b"\n") + 1])
    other.write_bytes(text)
    with recorded.begin(PUT=str(other), OVER=str(recorded.file)) as board:
        reply = board.ask(line(2))
        ended = board.end()
    told = (IN_USE + cause(f"--keep {recorded.file}", KEPT_ELSEWHERE)).encode()
    cases.expect("a file that was just replaced is in use", (reply, ended) == ("", (2, b"", told)), (reply, ended))
    cases.expect("and the other one stays", recorded.file.read_bytes() == text, recorded.file.read_bytes())
    cases.expect("with nothing beside", recorded.names() == ["day"], recorded.names())


def answered(port: int, given: str) -> str:
    """What is answered at a control address, which may not be listened at yet."""
    last = time.monotonic() + 30
    while True:
        try:
            with socket.create_connection(("127.0.0.1", port), timeout=30) as caller:
                caller.sendall(given.encode() + b"\n")
                return caller.makefile().readline()
        except ConnectionRefusedError:
            if time.monotonic() > last:
                return "nobody listens"
            time.sleep(0.05)


def promoted(cases: Cases, recorded: Recorded) -> None:
    """The term of a board that is promoted is on the disk, whole, before it listens for partners."""
    recorded.renew()
    with socket.create_server(("127.0.0.1", 0)) as control, socket.create_server(("127.0.0.1", 0)) as nobody:
        ports = control.getsockname()[1], nobody.getsockname()[1]
    following = ["follow", f"127.0.0.1:{ports[1]}", "--keep", str(recorded.file), "--control", str(ports[0])]
    with recorded.begin(*following, "--again", "APT=127.0.0.1:0") as board:
        answer = answered(ports[0], "promote")
        listening = board.read()
        called = [call for call in recorded.before_reply() if "socket:" not in call]
        answered(ports[0], "close")
        ended = board.end()
    cases.expect("a board is promoted", (answer, listening[:9]) == ("promoting\n", "listen 1 "), (answer, listening))
    cases.expect(
        "its term is put in its place before", called == [*OPENED, *put("day.tables"), *put("day.term")], called
    )
    cases.expect("and it ends", ended[0] == 0, ended)


def replied(port: str, count: int) -> list[str]:
    """Sends lines to a board that serves, one at a time, and answers the reply to each; empty where there is none."""
    with socket.create_connection(("127.0.0.1", int(port)), timeout=30) as partner:
        replies = []
        for _ in range(count):
            try:
                partner.sendall(b'{"cmd":"tick"}\n')
                replies.append(partner.recv(100).decode())
            except ConnectionError:
                replies.append("")
        return replies


def served(cases: Cases, recorded: Recorded) -> None:
    """A board that serves ends by a failed sync too, and goes on in a new file."""
    recorded.renew()
    serving = ["serve", "--keep", str(recorded.file), "--sync", "APT=127.0.0.1:0"]
    with recorded.begin(*serving, FAIL_FDATASYNC="2") as board:
        replies = replied(board.read().rpartition(":")[2], 2)
        ended = board.end()
    cases.expect("serving, a failed sync is not replied to", replies == ["ok 0\n", ""], replies)
    cases.expect("serving, it ends the board", ended[::2] == failed(recorded.file)[::2], ended)
    with recorded.begin(*serving) as board:
        listening = board.read()
        replies = replied(listening.rpartition(":")[2], 1)
        called = recorded.calls()
        ended = board.end()
    wanted = [*GOING_ON, "write 1", "write day", "fdatasync day"]
    cases.expect("serving, the first reply comes behind a new file", called[: len(wanted)] == wanted, called)
    cases.expect("serving, the board goes on", (replies, ended[0]) == (["ok 2\n"], 0), (replies, ended))


def made_again(cases: Cases, recorded: Recorded, word: str) -> None:
    """Writes of the journal that take a part, or that signals interrupt, are gone on with, and nothing is said."""
    log, replies = recorded.room / "made_again.log", ["ok 0\n", "ok 1\n", "ok 2\n"]
    recorded.renew()
    log.write_bytes(b"")
    serving = ["serve", "--keep", str(recorded.file), "--log", str(log), "APT=127.0.0.1:0"]
    with recorded.begin(*serving, **{word: str(recorded.file)}) as board:
        came = replied(board.read().rpartition(":")[2], 3)
        ended = board.end()
    seen = (came, *ended[::2])
    cases.expect(f"{word}: each line is answered, and the board ends well", seen == (replies, 0, b""), (came, ended))
    kept = [it[:2] + it[3:] for it in map(bytes.split, lines_of(recorded.file))]
    wanted = [b"%d 1 APT 0 0 tick" % number for number in range(3)]
    cases.expect(f"{word}: all is kept", [b" ".join(it) for it in kept] == wanted, kept)
    told = [{**json.loads(it), "at": ""} for it in log.read_text(encoding="ascii").splitlines()]
    closed = {"at": "", "event": "close", "by": "partners", "entries": 3}
    is_all = [it["event"] for it in told] == ["here", "gone", "close"] and told[-1] == closed
    cases.expect(f"{word}: the log says nothing else", is_all, told)


def put_whole(cases: Cases, recorded: Recorded, word: str) -> None:
    """A term and tables whose writes take a part, or that signals interrupt, are whole where they take their place."""
    recorded.renew()
    with socket.create_server(("127.0.0.1", 0)) as control, socket.create_server(("127.0.0.1", 0)) as nobody:
        ports = control.getsockname()[1], nobody.getsockname()[1]
    following = ["follow", f"127.0.0.1:{ports[1]}", "--keep", str(recorded.file), "--control", str(ports[0])]
    with recorded.begin(*following, "APT=127.0.0.1:0", **{word: f"{recorded.file}.term.part"}) as board:
        answer = answered(ports[0], "promote")
        listening = board.read()
        answered(ports[0], "close")
        ended = board.end()
    cases.expect(
        f"{word}: a board is promoted", (answer, listening[:9]) == ("promoting\n", "listen 1 "), (answer, listening)
    )
    cases.expect(f"{word}: and it ends", ended[0] == 0, ended)
    term = recorded.folder / "day.term"
    text = term.read_text(encoding="ascii") if term.exists() else ""
    cases.expect(f"{word}: its term is there, whole", re.fullmatch(r"term [1-9]\d{9}\n", text), text)
    with recorded.begin("serve", "--keep", str(recorded.file), "APT=127.0.0.1:0") as board:
        listening = board.read()
        replies = replied(listening.rpartition(":")[2], 1) if listening else []
        ended = board.end()
    cases.expect(f"{word}: a board begins with it", (replies, ended[0]) == (["ok 0\n"], 0), (replies, ended))

    file, tables, texts = recorded.folder / "saved", recorded.folder / "saved.tables", list[bytes]()
    for path in ("", f"{tables}.part"):
        recorded.renew()
        with recorded.begin("run", "--save", str(file), **{word: path}) as board:
            reply = board.ask(line(0))
            ended = board.end()
        cases.expect(f"{word}: a journal is saved", (reply, ended) == ("ok 0", (0, b"", b"")), (reply, ended))
        texts.append(tables.read_bytes() if tables.exists() else b"")
    cases.expect(f"{word}: its tables are those of whole writes", len(texts[0]) > 1 and texts[0] == texts[1], texts)


def saved(cases: Cases, recorded: Recorded) -> None:
    """A saved journal is on the disk before it takes the place of an older one, and its tables are before that."""
    file = recorded.folder / "saved"
    recorded.renew()
    file.write_bytes(b"older\n")
    with recorded.begin("run", "--save", str(file)) as board:
        reply = board.ask(line(0))
        status, _, errors = board.end()
    seen = (reply, status, errors, file.read_bytes())
    cases.expect("a journal is saved", seen == ("ok 0", 0, b"", entry(0, 0) + b"\n"), seen)
    called = recorded.calls()
    called = called[called.index("write saved.part") :] if "write saved.part" in called else called
    wanted = [*put("saved")[:1], *put("saved.tables"), *put("saved")[1:]]
    cases.expect(
        "its tables take their place, and then it does", [it for it in called if it in wanted] == wanted, called
    )


def failed_save(cases: Cases, recorded: Recorded, number: int, left: list[str]) -> None:
    """The sync of this number fails, of the tables, of their folder or of the journal: the older journal stays."""
    name, file = f"sync {number} of a save fails", recorded.folder / "saved"
    recorded.renew()
    file.write_bytes(b"older\n")
    with recorded.begin("run", "--save", str(file), FAIL_FSYNC=str(number)) as board:
        reply = board.ask(line(0))
        status, _, errors = board.end()
    told = (SAVE_FAILED + cause(f"--save {file}", errno.EIO)).encode()
    cases.expect(f"{name}: it is told", (reply, status, errors) == ("ok 0", 2, told), (reply, status, errors))
    cases.expect(f"{name}: the older file stays", file.read_bytes() == b"older\n", file.read_bytes())
    cases.expect(
        f"{name}: nothing is left beside but tables that are named", recorded.names() == left, recorded.names()
    )


def failing_calls(cases: Cases, program: pathlib.Path, room: pathlib.Path) -> None:
    """The first part."""
    if not shutil.which("cc"):
        print("left out: syncs that fail by number (there is no cc)", flush=True)
        return
    recorded = Recorded(program, room)
    for number in range(1, 7):
        failed_sync(cases, recorded, number)
    for number in (FOLDER_AT_FIRST, TABLES, FOLDER_OF_TABLES, NEW_FILE, FOLDER_AT_LAST):
        failed_begin(cases, recorded, number)
    for try_it in (
        without_sync,
        without_folder,
        without_entries,
        without_null_device,
        unusable,
        replaced,
        promoted,
        served,
        saved,
    ):
        try_it(cases, recorded)
    for word in ("PIECES", "SIGNALS"):
        made_again(cases, recorded, word)
        put_whole(cases, recorded, word)
    for number, left in ((1, ["saved"]), (2, ["saved", "saved.tables"]), (3, ["saved", "saved.tables"])):
        failed_save(cases, recorded, number, left)


def stop(number: int, _: types.FrameType | None) -> None:
    """Ends the script. No other signal comes while what it mounted is unmounted."""
    ignore_endings()
    sys.exit("failing_disk: took too long" if number == signal.SIGALRM else "failing_disk: stopped")


def ignore_endings() -> None:
    for ending in ENDINGS:
        signal.signal(ending, signal.SIG_IGN)


def main() -> int:
    parser = words(__doc__ or "")
    parser.add_argument("--rounds", type=int, default=len(LINES_BEFORE), help="how many rounds of each kind")
    given = parser.parse_args()
    program, cases, mounts = given.program.resolve(), Cases(), Mounts()
    if not program.is_file() or not os.access(program, os.X_OK):
        print(f"failing_disk: {given.program}: no program", file=sys.stderr)
        return 2
    for ending in ENDINGS:
        signal.signal(ending, stop)
    signal.alarm(ALL_SECONDS)
    with tempfile.TemporaryDirectory(prefix="acdm-disk-") as folder:
        room = pathlib.Path(folder).resolve()
        try:
            failing_calls(cases, program, room)
            two_disks(cases, program, mounts, room)
            without_room(cases, program, given.rounds, mounts, room)
        finally:
            ignore_endings()
            mounts.end()
    return cases.end()


if __name__ == "__main__":
    sys.exit(main())
