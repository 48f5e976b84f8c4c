#!/usr/bin/env python3
"""Goes from one day's journal to the next: closes the board, carries the open flights over, and begins it again.

    clients/newday.py [HOST:]PORT [--old FOLDER] [--start COMMAND] [--wait SECONDS] [--departed] [--no-report]

The address is the control address of `acdm serve --keep FILE --control ADDR` on this machine, whose words it takes
from the process. The old journal is kept in FOLDER (beside FILE: `old`), under the day and moment at which it ended,
with its tables beside it, and FILE then has the open flights (all with --departed). COMMAND begins the board, as
`systemctl start acdm`; without it the board is begun with the same words, and what it says goes to FILE.log. Then it is
waited, 60 seconds at most, until the partners are back that were here, and the report of the old journal is made beside
it. Until FILE is replaced whole, the old journal stands there: where a step fails, the board goes on from it. Status 0
where all is done, 1 where something is missing that is named, 2 where nothing was changed. Outside what is proved.
"""
import os
import re
import resource
import shlex
import shutil
import socket
import subprocess
import sys
import time
from argparse import Namespace
from dataclasses import dataclass
from pathlib import Path

import control
from carry import Faulty, carried
from feed import Address, Arguments, NoFeed, parse_address
from listeners import Listener
from programs import TOP, NoAnswer

BEGINS = 60.0
HERE = re.compile(r"session (\d+) ([A-Z]+) here")
LIMITS = {"Max address space": resource.RLIMIT_AS, "Max open files": resource.RLIMIT_NOFILE}


class Stop(Exception):
    """Why nothing was changed, or what is missing at the end."""


@dataclass
class Running:
    """A board that serves: the words, the folder, the environment and the user of its process, and its journal.

    `meant` are its words with those of its file of settings. `rights` are a user, a group, more groups, and the mask of
    what it makes.
    """

    words: list[str]
    meant: list[str]
    folder: Path
    environment: dict[str, str]
    limits: dict[int, tuple[int, int]]
    rights: tuple[int, int, list[int], int]
    journal: Path

    def value(self, option: str) -> str | None:
        """The value of an option of its command line."""
        for place, word in enumerate(self.meant):
            if word == option and self.meant[place + 1 :]:
                return self.meant[place + 1]
            if word.startswith(f"{option}="):
                return word.partition("=")[2]
        return None

    def tables(self) -> Path | None:
        named = self.value("--tables")
        return self.folder / named if named else None


def words_of(process: int) -> list[str]:
    """The words that a process was started with."""
    return Path(f"/proc/{process}/cmdline").read_bytes().decode("utf-8", "replace").split("\0")[:-1]


def script_above(listener: Listener) -> list[str] | None:
    """The words of the script ./acdm, where it has started the board: it turns signals into a close in good order."""
    status = Path(f"/proc/{listener.process}/status").read_text(encoding="utf-8")
    parent = re.search(r"^PPid:\t(\d+)$", status, re.M)
    words = words_of(int(parent[1])) if parent and int(parent[1]) else []
    is_script = (
        any(Path(word).name == "acdm" for word in words[:2]) and words[-len(listener.words) + 1 :] == listener.words[1:]
    )
    return words if is_script else None


def limits_of(process: int) -> dict[int, tuple[int, int]]:
    """The limits of a process, soft and hard, by their kinds."""
    text = Path(f"/proc/{process}/limits").read_text(encoding="ascii")
    found = re.findall(r"^(Max [a-z ]+?) {2,}(\w+) +(\w+)", text, re.M)
    ends = {name: [resource.RLIM_INFINITY if it == "unlimited" else int(it) for it in pair] for name, *pair in found}
    return {kind: (ends[name][0], ends[name][1]) for name, kind in LIMITS.items()}


def at_most(limit: int, most: int) -> int:
    """A limit, and no more than another one."""
    if resource.RLIM_INFINITY in (limit, most):
        return most if limit == resource.RLIM_INFINITY else limit
    return min(limit, most)


def rights_of(process: int) -> tuple[int, int, list[int], int]:
    """The user, the group and the other groups as which a process runs, and its mask of what it makes."""
    status = Path(f"/proc/{process}/status").read_text(encoding="utf-8")
    found = {name: words.split() for name, _, words in (line.partition(":") for line in status.splitlines())}
    # (Linux before 4.7 does not tell the mask: then nobody else reads what the board makes)
    mask = int(found.get("Umask", ["0077"])[0], 8)
    return int(found["Uid"][1]), int(found["Gid"][1]), [int(it) for it in found["Groups"]], mask


def running_at(where: Address) -> Running:
    """The board at a control address of this machine. Stop where there is none that keeps a journal."""
    listener = control.checked(where)
    if listener is None or not listener.is_board():
        raise Stop("is no control address of a board that this user may see on this machine")
    place = f"/proc/{listener.process}"
    try:
        data = Path(f"{place}/environ").read_bytes().decode("utf-8", "surrogateescape")
        environment = dict(pair.split("=", 1) for pair in data.split("\0") if "=" in pair)
        limits = limits_of(listener.process)
        folder = Path(os.readlink(f"{place}/cwd"))
        rights = rights_of(listener.process)
        words = script_above(listener) or listener.words
    except OSError as error:
        raise Stop(f"is of process {listener.process}, of which nothing can be read: {error.strerror}") from None
    if "follow" in listener.words[1:]:
        raise Stop("is of a board that was begun by `follow`: close it, and begin the next day by `serve`")
    found = Running(words, listener.meant(), folder, environment, limits, rights, Path())
    kept = found.value("--keep")
    if not kept:
        raise Stop("is of a board that keeps no journal: begin it with --keep FILE")
    found.journal = folder / kept
    return found


def state(where: Address) -> str:
    """What the board tells of its state."""
    with socket.create_connection(where, timeout=control.ANSWER) as stream, stream.makefile("rb") as lines:
        return control.status(stream, lines)


def here(text: str) -> dict[str, str]:
    """The sessions whose partners are here, by number, with their roles."""
    return dict(HERE.findall(text))


def free_name(folder: Path, journal: Path) -> Path:
    """A name for the old journal that is not taken, by the moment of its end."""
    moment = time.strftime("%Y-%m-%dT%H%MZ", time.gmtime())
    names = (
        f"{journal.stem}-{moment}{mark}{journal.suffix}" for mark in ["", *(f".{number}" for number in range(2, 100))]
    )
    return next(folder / name for name in names if not (folder / name).exists())


def tables_beside(journal: Path) -> Path:
    """The file of the tables by which a journal is made."""
    return journal.with_name(journal.name + ".tables")


def remove(made: Path) -> None:
    """Removes a journal and its tables, where they are there."""
    for file in (made, tables_beside(made)):
        file.unlink(missing_ok=True)


def make_next(board: Running, departed: bool) -> tuple[Path, int]:
    """Makes the journal of the next day beside that of this one, from its open flights; its file and its entries."""
    made = board.journal.with_name(board.journal.name + ".next")
    remove(made)
    try:
        lines = carried(board.journal, departed, board.tables())
    except (Faulty, NoAnswer, NoFeed, OSError) as fault:
        raise Stop(f"{board.journal}: {fault}") from None
    program = os.environ.get("ACDM") or str(TOP / "acdm")
    words = [program, "run", "--keep", str(made), "--sync"]
    for option, value in (("--journal", board.value("--journal")), ("--tables", board.tables())):
        words += [option, str(value)] if value else []
    text = "".join(line + "\n" for line in lines)
    done = subprocess.run(words, input=text, capture_output=True, encoding="ascii", errors="replace", check=False)
    replies = done.stdout.splitlines()
    if (
        done.returncode
        or len(replies) != len(lines)
        or any(not reply.startswith(("ok ", "migrated ", "alerts ")) for reply in replies)
    ):
        remove(made)
        why = done.stderr.strip().splitlines()[-1:] or [
            next((it for it in replies if it[:2] in ("no", "ba")), "no reply")
        ]
        raise Stop(f"the open flights of {board.journal} can't be carried over: {why[0]}")
    return made, len(lines)


def synced(folder: Path) -> None:
    """Has the names in a folder on the disk."""
    handle = os.open(folder, os.O_RDONLY | os.O_DIRECTORY)
    try:
        os.fsync(handle)
    finally:
        os.close(handle)


def begin(board: Running, command: str | None) -> None:
    """Begins the board, by a command or as it was begun."""
    if command:
        done = subprocess.run(shlex.split(command), stdin=subprocess.DEVNULL, check=False)
        if done.returncode:
            raise Stop(f"{command}: ended with status {done.returncode}, and the board is not begun")
        return

    def bound() -> None:
        for kind, ends in board.limits.items():
            # (who may not raise a limit begins the board with that of his own)
            soft, hard = (at_most(it, resource.getrlimit(kind)[1]) for it in ends)
            resource.setrlimit(kind, (soft, hard))

    user, group, groups, mask = board.rights
    # (root alone begins a board as another user)
    is_root = os.geteuid() == 0
    said = board.journal.with_name(board.journal.name + ".log")
    with open(said, "ab") as log:
        give_to_owner(said, board.journal)
        # (it serves on when this has ended, with SIGXFSZ ignored, as Python has it: so it bears a limit of file sizes)
        subprocess.Popen(  # pylint: disable=consider-using-with,subprocess-popen-preexec-fn
            board.words, cwd=board.folder, env=board.environment, stdin=subprocess.DEVNULL, stdout=log, stderr=log,
            start_new_session=True, preexec_fn=bound, restore_signals=False, umask=mask,
            user=user if is_root else None, group=group if is_root else None, extra_groups=groups if is_root else None,
        )  # fmt: skip


def wait_for_start(where: Address) -> None:
    """Waits until the board answers at its control address."""
    end = time.monotonic() + BEGINS
    while True:
        try:
            state(where)
            return
        except (OSError, control.Fault) as fault:
            if time.monotonic() > end:
                raise Stop(f"the board was begun and does not answer after {BEGINS:.0f} s: {fault}") from None
        time.sleep(0.05)


def wait_for_partners(where: Address, before: dict[str, str], seconds: float) -> list[str]:
    """The partners that were here and are not back within so many seconds."""
    end = time.monotonic() + seconds
    while True:
        missing = [f"{role} (session {number})" for number, role in before.items() if number not in here(state(where))]
        if not missing or time.monotonic() > end:
            return missing
        time.sleep(0.1)


def make_report(old: Path, tables: Path | None) -> Path:
    """Makes the report of the old journal beside it."""
    made, program = old.with_name(old.name + ".html"), os.environ.get("ACDM") or str(TOP / "acdm")
    words = [program, "tell", *(["--tables", str(tables)] if tables else []), str(old)]
    told = subprocess.run(words, capture_output=True, check=False)
    report = [sys.executable, str(TOP / "clients" / "report.py"), "-"]
    done = subprocess.run(report, input=told.stdout, capture_output=True, check=False)
    if told.returncode or done.returncode:
        said = (told.stderr + done.stderr).decode("utf-8", "replace").strip().splitlines()
        raise Stop(f"the report of {old} was not made: {said[-1] if said else 'no word of why'}")
    made.write_bytes(done.stdout)
    give_to_owner(made, old)
    return made


def say(text: str) -> None:
    print(text, flush=True)


def give_to_owner(made: Path, journal: Path) -> None:
    """Gives what root has made to the owner of the journal, and a file the rights of that."""
    like = journal.stat()
    if os.geteuid() == 0:
        os.chown(made, like.st_uid, like.st_gid)
    if made.is_file():
        os.chmod(made, like.st_mode & 0o777)


def keep_tables(journal: Path, old: Path) -> None:
    """Keeps the tables of the old journal beside it, on the disk; they stay beside the next one too."""
    tables, copy = tables_beside(journal), tables_beside(old)
    if tables.is_file():
        shutil.copyfile(tables, copy)
        give_to_owner(copy, journal)
        with open(copy, "rb") as file:
            os.fsync(file.fileno())


def swap(board: Running, folder: Path, departed: bool) -> Path:
    """Keeps the old journal in the folder, and puts the next one in its place, whole; the old one's new file."""
    made, entries = make_next(board, departed)
    for file in (made, folder):
        give_to_owner(file, board.journal)
    old = free_name(folder, board.journal)
    keep_tables(board.journal, old)
    # (its file has two names until the next one takes its place)
    os.link(board.journal, old)
    synced(folder)
    os.replace(made, board.journal)
    tables_beside(made).unlink(missing_ok=True)
    synced(board.journal.parent)
    say(f"kept: {old}; {board.journal} has {entries} entries of open flights")
    return old


def old_folder(board: Running, named: Path | None) -> Path:
    """The folder of old journals. Stop where a journal can't be kept there by its name alone."""
    folder = named or board.journal.parent / "old"
    folder.mkdir(parents=True, exist_ok=True)
    if folder.stat().st_dev != board.journal.stat().st_dev:
        raise Stop(f"{folder} is on another disk than {board.journal}: name a folder of the same")
    return folder


def new_day(where: Address, board: Running, folder: Path, given: Namespace) -> None:
    """Goes over to the next day. Stop, with what is missing, where it can't be done as asked."""
    before = here(state(where))
    begun = time.monotonic()
    control.ask(where, "close")
    trouble: Stop | None = None
    old: Path | None = None
    try:
        old = swap(board, folder, given.departed)
    except (Stop, OSError) as fault:
        trouble = fault if isinstance(fault, Stop) else Stop(f"{fault.filename}: {fault.strerror}")
    begin(board, given.start)
    wait_for_start(where)
    say(f"begun: after {time.monotonic() - begun:.1f} s")
    missing = wait_for_partners(where, before, given.wait)
    if old and not given.no_report:
        say(f"report: {make_report(old, board.tables())}")
    if trouble:
        raise Stop(f"the board goes on with the old journal: {trouble}")
    if missing:
        raise Stop(f"not back after {given.wait:.0f} s: {', '.join(missing)}")
    say(f"partners: {len(before)} of {len(before)} are back")


def main() -> int:
    words = Arguments(description="Goes from one day's journal to the next, with the open flights.")
    words.add_argument("address", type=parse_address, metavar="[HOST:]PORT", help="the control address of the board")
    words.add_argument("--old", type=Path, metavar="FOLDER", help="where the old journal is kept; old beside it")
    words.add_argument("--start", metavar="COMMAND", help="what begins the board, as: systemctl start acdm")
    words.add_argument("--wait", type=float, default=60, metavar="SECONDS", help="how long for partners; 60")
    words.add_argument("--departed", action="store_true", help="carry all flights, those too that have taken off")
    words.add_argument("--no-report", action="store_true", help="make no report of the old journal")
    given = words.parse_args()
    name = f"{given.address[0]}:{given.address[1]}"
    status = 2
    try:
        board = running_at(given.address)
        folder = old_folder(board, given.old)
        state(given.address)
        status = 1
        new_day(given.address, board, folder, given)
        return 0
    except (Stop, control.Fault, control.Unseen) as why:
        print(f"newday.py: {name} {why}", file=sys.stderr)
    except OSError as error:
        print(f"newday.py: {error.filename or name}: {error.strerror or error}", file=sys.stderr)
    return status


if __name__ == "__main__":
    sys.exit(main())
