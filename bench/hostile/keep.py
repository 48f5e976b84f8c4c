#!/usr/bin/env python3
"""Kills the built `acdm` while it keeps its journal, and says what it then goes on from.

    python3 bench/hostile/keep.py [--program PATH] [--kills N] [--seed S]

`run --keep FILE` over a stream, killed at N moments by chance and begun again each time: every reply that was read has its entry in
FILE, FILE is a legal journal with the rest of a line at most behind it, and the numbers go on. Then a file system that takes no
more after so many bytes, at many places; journals with each kind of fault, cut lines, one of another user, another that has the file,
too little room; `--save`, which leaves what was there until all of it is on the disk, and nothing beside it, and writes into a pipe;
files that are standard streams too, in which nothing is saved or kept; and the tables by which a journal was made, beside it, where a
command has others. The last line is `N cases, M failed`; status 1 where one failed.
"""

import errno
import os
import pathlib
import random
import resource
import shutil
import signal
import subprocess
import sys
import tempfile
import threading

from cases import ALERTS, DAY, DAY_JOURNAL, DAY_REPLIES, PLAN, SCHEDULE, TARGET, TOP
from cases import KEPT_ELSEWHERE, NO_ROOM, TAKEN, Cases, cause, ran, text, words

# Journals that are not legal, and what is told of them.
FAULTY = [
    (DAY_JOURNAL[1:], "entry 0 402\n"),
    (DAY_JOURNAL[:3] + ["3 5 29000580 GH 0 1 11 report 7 9 29000760"], "entry 3 404\n"),
    (DAY_JOURNAL[:2] + ["2 2 29000580 NM 201 0 report 7 1 29000760 DLH7 A320 DAIBC EDDM"], "entry 2 405\n"),
    (DAY_JOURNAL[:1] + ["what is this"], "entry 1 401\n"),
    (["0 1 29000580 APT 0 0 load 9 alert 9500000000000000"], "entry 0 403\n"),
]
MANY = [f"1 29000580 APT {SCHEDULE}", f"2 29000580 NM {PLAN}"] + [f"5 29000580 GH {TARGET}"] * 4000


def came(done):
    return done.returncode, done.stdout.decode(), done.stderr.decode()


def numbers_of(replies):
    """The numbers of the entries that whole replies tell of."""
    return [int(it.split()[1]) for it in replies.split("\n")[:-1] if not it.startswith("bad")]


def text_of(file):
    """What a kept journal has, which may not be there yet."""
    return file.read_bytes() if file.exists() else b""


def whole_of(file):
    """The whole lines of a kept journal."""
    data = text_of(file)
    return data.rpartition(b"\n")[0].split(b"\n") if b"\n" in data else []


def legal(program, file, room):
    """Whether the whole lines of a kept journal are legal, by an audit."""
    data = text_of(file)
    copy = room / "whole"
    copy.write_bytes(data[: data.rfind(b"\n") + 1])
    return came(ran(program, ["audit", copy])) == (0, f"legal {len(whole_of(file))}\n", "")


def killed_once(program, file, chance):
    """Sends lines until the program is killed at a moment by chance; answers what it replied until then."""
    it = subprocess.Popen([str(program), "run", "--keep", str(file)], stdin=subprocess.PIPE, stdout=subprocess.PIPE)
    timer = threading.Timer(chance.uniform(0.0, 0.05), it.kill)
    timer.start()
    lines = MANY if not whole_of(file) else [f"5 29000580 GH {TARGET}"] * 4000
    try:
        for line in lines:
            it.stdin.write(f"{line}\n".encode())
            if chance.random() < 0.3:
                it.stdin.flush()
        it.stdin.flush()
    except OSError:
        pass
    try:
        it.stdin.close()
    except OSError:
        pass
    replies = it.stdout.read().decode()
    it.wait()
    timer.cancel()
    return replies


def kills(cases, program, room, count, seed):
    file, chance = room / "kept", random.Random(seed)
    last = 0
    for turn in range(count):
        before = len(whole_of(file))
        replies = killed_once(program, file, chance)
        told = numbers_of(replies)
        after = len(whole_of(file))
        name = f"killed {turn}, seed {seed}"
        cases.expect(name, all(it < after for it in told), (after, told[-1:]))
        cases.expect(name, told == [*range(before, before + len(told))], (before, told[:1]))
        cases.expect(name, after >= before, (before, after))
        cases.expect(name, legal(program, file, room), after)
        last = after
    done = came(ran(program, ["run", "--keep", file], f"1 29000580 APT {ALERTS}\n".encode()))
    cases.expect("gone on", done[0] == 0 and done[1].startswith(f"alerts {last} "), done)


def limited(size):
    def limit():
        signal.signal(signal.SIGXFSZ, signal.SIG_IGN)
        resource.setrlimit(resource.RLIMIT_FSIZE, (size, size))

    return limit


def full_output(cases, program, room):
    """Where the output fails and the kept file does not, it is the output that is told of; what was replied to is kept."""
    file = room / "full-output"
    with open("/dev/full", "wb") as full:
        it = subprocess.run([str(program), "run", "--keep", str(file)], input=text(DAY).encode(), stdout=full,
                            stderr=subprocess.PIPE, timeout=60, check=False)
    told = "acdm: write failed\n" + cause("standard output", errno.ENOSPC)
    cases.expect("a full output", (it.returncode, it.stderr.decode()) == (2, told), it)
    cases.expect("a full output", bool(whole_of(file)) and legal(program, file, room), file.read_bytes())


def full_disk(cases, program, room):
    whole = len(text(DAY_JOURNAL))
    for size in [*range(0, whole, 17), whole - 1]:
        file = room / f"full-{size}"
        done = came(ran(program, ["run", "--keep", file], text(DAY).encode(), preexec_fn=limited(size)))
        name = f"no more than {size} bytes"
        told = "acdm: keep failed\n" + cause(f"--keep {file}", errno.EFBIG)
        cases.expect(name, done[0] == 2 and done[2] == told, done)
        cases.expect(name, len(numbers_of(done[1])) <= len(whole_of(file)), done)
        cases.expect(name, legal(program, file, room), file.read_bytes())


def gone_on(cases, program, room):
    file = room / "day"
    for at in range(len(DAY) + 1):
        file.write_text(text(DAY_JOURNAL[:at]) + "5 1 2900"[: at * 2])
        done = came(ran(program, ["run", "--keep", file], text(DAY[at:]).encode()))
        cases.expect(f"gone on at {at}", done == (0, text(DAY_REPLIES[at:]), ""), done)
        cases.expect(f"kept at {at}", file.read_text() == text(DAY_JOURNAL), file.read_text())
    file.write_text(DAY_JOURNAL[0][:-1])
    done = came(ran(program, ["run", "--keep", file], text(DAY).encode()))
    cases.expect("gone on behind a part of a first line", done == (0, text(DAY_REPLIES), ""), done)
    cases.expect("which is dropped", file.read_text() == text(DAY_JOURNAL), file.read_text())
    file.unlink()
    done = came(ran(program, ["run", "--keep", file, "--save", room / "saved"], text(DAY).encode()))
    cases.expect("kept and saved", done == (0, text(DAY_REPLIES), ""), done)
    cases.expect("the same", file.read_bytes() == (room / "saved").read_bytes())
    cases.expect("no file beside", not (room / "saved.part").exists())


def faulty(cases, program, room):
    file = room / "faulty"
    for lines, told in FAULTY:
        file.write_text(text(lines) + "a rest")
        done = came(ran(program, ["run", "--keep", file], text(DAY).encode()))
        cases.expect(told, done == (1, told, ""), done)
        cases.expect(f"untouched, {told}", file.read_text() == text(lines) + "a rest")
    file.write_text(text(DAY_JOURNAL))
    done = came(ran(program, ["run", "--journal", "4", "--keep", file], text(DAY).encode()))
    told = "acdm: the kept journal needs a larger --journal\n" + cause(f"--keep {file}", NO_ROOM)
    cases.expect("too little room", done == (2, "", told), done)
    cases.expect("untouched, room", file.read_text() == text(DAY_JOURNAL))
    nowhere = room / "no-folder" / "file"
    done = came(ran(program, ["run", "--keep", nowhere], text(DAY).encode()))
    told = "acdm: keep failed\n" + cause(f"--keep {nowhere}", errno.ENOENT)
    cases.expect("no folder", done == (2, "", told), done)


def of_another(cases, program, room):
    """A journal of another user, which one may write, in a folder where one may too: it is gone on from, in a file of one's own."""
    if os.getuid() != 0:
        print("left out: a journal of another user (that takes root)", flush=True)
        return
    with tempfile.TemporaryDirectory(prefix="acdm-keep-") as folder:
        own, file = pathlib.Path(folder) / "acdm", pathlib.Path(folder) / "day"
        shutil.copyfile(program, own)
        file.write_text(text(DAY_JOURNAL[:1]))
        for it, mode in ((own, 0o755), (file, 0o666), (own.parent, 0o777)):
            it.chmod(mode)
        done = came(ran(own, ["run", "--keep", file], text(DAY[1:]).encode(), user=65_534, group=65_534, extra_groups=[]))
        cases.expect("a journal of another user", done == (0, text(DAY_REPLIES[1:]), ""), done)
        cases.expect("is gone on from", file.read_text() == text(DAY_JOURNAL), file.read_text())
        cases.expect("in a file of one's own", file.stat().st_uid == 65_534 and file.stat().st_mode & 0o777 == 0o666, file.stat())


def in_use(cases, program, room):
    file = room / "used"
    first = subprocess.Popen([str(program), "run", "--keep", str(file)], stdin=subprocess.PIPE, stdout=subprocess.PIPE)
    first.stdin.write(f"{DAY[0]}\n".encode())
    first.stdin.flush()
    cases.expect("the first one", first.stdout.readline() == b"ok 0\n")
    done = came(ran(program, ["run", "--keep", file], text(DAY).encode()))
    told = "acdm: the kept journal is in use\n" + cause(f"--keep {file}", KEPT_ELSEWHERE)
    cases.expect("a second one", done == (2, "", told), done)
    first.stdin.close()
    cases.expect("the first one ends", first.wait() == 0)
    cases.expect("one entry", file.read_text() == text(DAY_JOURNAL[:1]), file.read_text())


def saved(cases, program, room):
    """What `--save` names stays until the journal that takes its place is whole."""
    file = room / "old"
    old = "0 1 29000580 APT 0 0 tick\n"
    link = room / "link"
    link.symlink_to(file)
    for name in (file, link):
        file.write_text(old)
        it = subprocess.Popen([str(program), "run", "--save", str(name)], stdin=subprocess.PIPE, stdout=subprocess.PIPE)
        it.stdin.write(f"{DAY[0]}\n".encode())
        it.stdin.flush()
        it.stdout.readline()
        it.kill()
        it.wait()
        cases.expect("killed before the end", file.read_text() == old, file.read_text())
        begun = pathlib.Path(f"{file}.part")
        cases.expect("what was begun is left beside", begun.read_bytes() == b"")
        begun.write_text("of somebody\n")
        done = came(ran(program, ["run", "--save", name], text(DAY).encode()))
        cases.expect("saved", done[0] == 0 and file.read_text() == text(DAY_JOURNAL), done)
        beside = sorted(room.glob("old.part*"))
        cases.expect("what is beside is not touched", (beside, begun.read_text()) == ([begun], "of somebody\n"), beside)
        begun.unlink()
    cases.expect("a link stays one", link.is_symlink())
    file.write_text(old)
    with open("/dev/full", "wb") as full:
        it = subprocess.run([str(program), "run", "--save", str(file)], input=text(DAY).encode(), stdout=full,
                            stderr=subprocess.PIPE, timeout=60)
    told = "acdm: write failed\n" + cause("standard output", errno.ENOSPC)
    seen = it.returncode, it.stderr.decode(), file.read_text()
    cases.expect("a write fault", seen == (2, told, old), seen)
    done = came(ran(program, ["serve", "--save", file, "XX=127.0.0.1:0"]))
    cases.expect("a wrong role", done[0] == 2 and file.read_text() == old, done)
    cases.expect("what failed leaves nothing beside", not [*room.glob("old.part*")], [*room.glob("old.part*")])
    done = came(ran(program, ["run", "--save", "/dev/null"], text(DAY).encode()))
    cases.expect("a device", done == (0, text(DAY_REPLIES), ""), done)
    done = came(ran(program, ["run", "--save", file], text(DAY).encode(), preexec_fn=limited(20)))
    told = "acdm: save failed\n" + cause(f"--save {file}", errno.EFBIG)
    cases.expect("a full disk", done[0] == 2 and done[2] == told and file.read_text() == old, done)
    cases.expect("nor does a full disk", not [*room.glob("old.part*")], [*room.glob("old.part*")])


def by_tables(cases, program, room):
    """By which tables a journal was made is said beside it: by others nothing is gone on from, saved, audited or told."""
    own = TOP / "examples" / "tables.toml"
    same = room / "same.toml"
    same.write_text(f"# The same tables by other words.\n{own.read_text()}")
    built_in = "# the tables that are built in\n"
    for option in ("--keep", "--save"):
        for named, others, beside in (([], ["--tables", own], built_in), (["--tables", own], [], own.read_text())):
            file = room / f"by-{option[2:]}-{len(named)}"
            tables = room / f"{file.name}.tables"
            name = f"{option} {' '.join(str(it) for it in named[:1])}"
            done = came(ran(program, ["run", *named, option, file], text(DAY[:2]).encode()))
            cases.expect(f"{name}, made", done == (0, text(DAY_REPLIES[:2]), ""), done)
            cases.expect(f"{name}, said beside", tables.read_text() == beside, tables.read_text())
            cases.expect(f"{name}, who may read it", tables.stat().st_mode & 0o777 == file.stat().st_mode & 0o777)
            before, told = file.read_bytes(), f"acdm: {tables}: other tables than those of this command\n"
            commands = [["audit", *others, file], ["tell", *others, file]]
            for word in ("--keep", "--save"):
                commands.append(["run", *others, word, file])
                commands.append(["serve", *others, word, file, "APT=127.0.0.1:0"])
            for command in commands:
                done = came(ran(program, command, text(DAY).encode()))
                cases.expect(f"{name}, {command[0]} with others", done == (2, "", told), done)
            left = (file.read_bytes(), tables.read_text())
            cases.expect(f"{name}, left as it was", left == (before, beside), left)
            again = ["--tables", same] if named else []
            for words in (again, ["--tables", tables]):
                done = came(ran(program, ["audit", *words, file]))
                cases.expect(f"{name}, audit with the same", done == (0, "legal 2\n", ""), done)
                done = came(ran(program, ["run", *words, "--keep", file], b""))
                cases.expect(f"{name}, gone on with the same", done == (0, "", ""), done)
            cases.expect(f"{name}, left so", (file.read_bytes(), tables.read_text()) == (before, beside))
    file, tables = room / "before", room / "before.tables"
    file.write_text(text(DAY_JOURNAL[:2]))
    for words in ([], ["--tables", own]):
        done = came(ran(program, ["audit", *words, file]))
        cases.expect("a journal that does not say it", done == (0, "legal 2\n", ""), done)
    cases.expect("and audit makes no file", not tables.exists())
    done = came(ran(program, ["run", "--tables", own, "--keep", file], b""))
    cases.expect("it says it once it was gone on from", done == (0, "", "") and tables.read_text() == own.read_text(), done)
    for given, told in (("turn_round = 1\n", "turn_round: not a table"), ("[turn_round\n", "line 1: not TOML")):
        tables.write_text(given)
        done = came(ran(program, ["run", "--keep", file], text(DAY).encode()))
        cases.expect(told, done == (2, "", f"acdm: {tables}: {told}\n"), done)
    tables.unlink()
    tables.mkdir()
    done = came(ran(program, ["audit", file]))
    cases.expect("a folder beside", (done[0], done[1]) == (2, "") and str(tables) in done[2], done)
    tables.rmdir()
    link = room / "link-by"
    link.symlink_to(file)
    done = came(ran(program, ["run", "--keep", link], b""))
    cases.expect("by a link, beside the link", done == (0, "", "") and (room / "link-by.tables").exists(), done)
    done = came(ran(program, ["run", "--save", "/dev/null"], text(DAY).encode()))
    cases.expect("a device has none", done[0] == 0 and not pathlib.Path("/dev/null.tables").exists(), done)


def onto_what_stands_beside(cases, program, room):
    """A journal is not saved where the tables or the term of a kept one stand, nor is one kept where those of a saved one do."""
    kept = room / "beside-day"
    for save, keep in ((f"{kept}.tables", kept), (f"{kept}.term", kept), (kept, f"{kept}.tables"), (kept, f"{kept}.term")):
        pathlib.Path(keep).write_text(text(DAY_JOURNAL))
        done = came(ran(program, ["run", "--save", str(save), "--keep", str(keep)], b""))
        told = "acdm: save failed\n" + cause(f"--save {save}", TAKEN)
        if keep == f"{save}.tables":
            # (it is read as the tables of what is to be saved)
            told = f"acdm: {keep}: line 1: not TOML\n"
        cases.expect(f"{pathlib.Path(save).name} beside {pathlib.Path(keep).name} is refused", done == (2, "", told), done)
        cases.expect("and the journal stays as it is", pathlib.Path(keep).read_text() == text(DAY_JOURNAL) and not pathlib.Path(save).exists(), save)
        pathlib.Path(keep).unlink()


def onto_streams(cases, program, room):
    """A journal is neither saved nor kept in a file that is also a standard stream, by whatever name; nothing is answered, and it stays."""
    file, hard, soft = room / "stream", room / "hard", room / "soft"
    for option, failed in (("--save", "acdm: save failed\n"), ("--keep", "acdm: keep failed\n")):
        for stream in ("stdin", "stdout", "stderr"):
            for path in (file, hard, soft):
                told = failed + cause(f"{option} {path}", TAKEN)
                for it in (file, hard, soft):
                    it.unlink(missing_ok=True)
                file.write_text(text(DAY))
                hard.hardlink_to(file)
                soft.symlink_to(file)
                with open(file, "r" if stream == "stdin" else "a", encoding="utf-8") as opened:
                    how = {"stdin": subprocess.DEVNULL, "stdout": subprocess.PIPE, "stderr": subprocess.PIPE, stream: opened}
                    done = subprocess.run([str(program), "run", option, str(path)], text=True, check=False, **how)
                name = f"{option} {path.name}, which is {stream}"
                # (standard error that goes to the file is left alone as well)
                said = (done.returncode, done.stdout or "", told if stream == "stderr" else done.stderr)
                cases.expect(name, said == (2, "", told), said)
                left = file.read_text()
                cases.expect(f"{name}, stays", left == text(DAY), left)
                cases.expect(f"{name}, nothing beside", sorted(it.name for it in room.glob("*.part")) == [])
    null = {"stdin": subprocess.DEVNULL, "stdout": subprocess.DEVNULL, "stderr": subprocess.DEVNULL}
    cases.expect("a device", subprocess.run([str(program), "run", "--save", "/dev/null"], check=False, **null).returncode == 0)
    done = came(ran(program, ["run", "--save", "/dev/stdout"], text(DAY).encode()))
    cases.expect("a pipe", done[0] == 0 and done[1].endswith(text(DAY_JOURNAL)), done)
    by_pipe(cases, program, room)


def by_pipe(cases, program, room):
    """A pipe that has a name is written into, for whoever reads there."""
    pipe, heard = room / "by-pipe", []
    os.mkfifo(pipe)
    reader = threading.Thread(target=lambda: heard.append(pipe.read_text()), daemon=True)
    reader.start()
    try:
        done = came(ran(program, ["run", "--save", pipe], text(DAY).encode(), timeout=30))
    except subprocess.TimeoutExpired as late:
        done = str(late)
    reader.join(10)
    cases.expect("a pipe that has a name", (done, heard) == ((0, text(DAY_REPLIES), ""), [text(DAY_JOURNAL)]), (done, heard))
    beside = sorted(it.name for it in room.glob("by-pipe*"))
    cases.expect("and nothing is beside it", beside == ["by-pipe"], beside)


def main():
    parser = words(__doc__)
    parser.add_argument("--kills", type=int, default=200, help="how often it is killed")
    parser.add_argument("--seed", type=int, default=1)
    given = parser.parse_args()
    cases = Cases()
    with tempfile.TemporaryDirectory(prefix="acdm-keep-") as folder:
        room = pathlib.Path(folder)
        for part in (gone_on, faulty, of_another, in_use, saved, by_tables, onto_what_stands_beside, onto_streams, full_output, full_disk):
            part(cases, given.program, room)
        kills(cases, given.program, room, given.kills, given.seed)
    return cases.end()


if __name__ == "__main__":
    sys.exit(main())
