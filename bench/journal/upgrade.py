#!/usr/bin/env python3
"""Goes on with the built `acdm` from journals that version 0.9.0 kept, and holds its replies against those of that version.

    python3 bench/journal/upgrade.py [--program PATH] [--write FOLDER]

The sources of version 0.9.0 as they were before the work on 0.10.0 began, built without proofs, made what bench/journal/0.9.0 has, but
for the lines and tables.toml, which they were given. No archive of that version was kept. The words were

    acdm run --journal 1000 --keep day.journal < day.lines > day.replies
    acdm run --journal 1000 --keep day.journal < day.later.lines > day.later.replies

and `--tables tables.toml` with them for the second of three days:

    day       102 lines, then 56: six flights, rules of both kinds, layout 2, de-icing, and each refusal but that of a full board
    tables    an airport's own tables, and rules that ask for them
    served    six partners of `acdm serve --journal 1000 --keep served.journal`, each line sent once the one before was replied to

The lines of `served` are SESSION ROLE JSON, of which a partner sends the last. Their flights are long past, so that alerts are the same by
each clock. NAME.later.journal are the entries that the second command added. day.full.replies is what it replied with `--journal 100`, on
a copy, and served.told what `acdm tell served.journal` printed at the end. `--write FOLDER` makes all that anew by the program, and tries
nothing.

Tried are an audit and `tell`, and going on: from all entries and from fewer, also where a line is cut. Then records of flights, the same
lines from the first one on, outcomes that are turned, too little room, tables, and `serve` with displays. Where 0.9.0 did otherwise a
comment names the reason, which CHANGELOG.md tells. By the program of 0.9.0 those cases fail, 16 of them, and no others.
The last line is `N cases, M failed`; the status is 1 where one failed.
"""

import concurrent.futures
import functools
import hashlib
import json
import pathlib
import re
import shutil
import socket
import sys
import tempfile

TOP = pathlib.Path(__file__).resolve().parents[2]
sys.path.insert(0, str(TOP / "bench" / "hostile"))
from cases import NO_ROOM, Cases, cause, ran, text, words  # noqa: E402
from keep import came  # noqa: E402
from keep_serving import Board, talk  # noqa: E402

FILES = pathlib.Path(__file__).resolve().parent / "0.9.0"
TABLES = FILES / "tables.toml"
BUILT_IN = "# the tables that are built in\n"
ROOM, LITTLE_ROOM = 1000, 100


def lines_in(name):
    """The lines of a file, without their line feeds; one of them is empty."""
    return (FILES / name).read_text(encoding="ascii").split("\n")[:-1]


class Day:
    """A day that was kept: the lines and the replies that it came of, and the same of what came later, when it was gone on from."""

    def __init__(self, name, tables=None):
        self.name, self.tables = name, ["--tables", str(tables)] if tables else []
        self.beside = tables.read_text(encoding="ascii") if tables else BUILT_IN
        self.lines, self.later_lines = lines_in(f"{name}.lines"), lines_in(f"{name}.later.lines")

    @functools.cached_property
    def replies(self):
        return lines_in(f"{self.name}.replies")

    @functools.cached_property
    def later_replies(self):
        return lines_in(f"{self.name}.later.replies")

    @functools.cached_property
    def journal(self):
        return lines_in(f"{self.name}.journal")

    @functools.cached_property
    def later_journal(self):
        return lines_in(f"{self.name}.later.journal")

    @property
    def whole(self):
        """The journal that was gone on from, and what came behind it."""
        return self.journal + self.later_journal

    def run(self, program, file, lines, *more, option="--keep", journal=ROOM):
        """Runs the program over lines, with the journal in a file; answers status, replies and what it said."""
        command = ["run", "--journal", str(journal), *self.tables, *more, option, file]
        return came(ran(program, command, text(lines).encode("ascii")))

    def audit(self, program, file):
        return came(ran(program, ["audit", *self.tables, file]))


def copied(room, name, data):
    """A journal with this text in a folder of its own."""
    folder = room / name
    shutil.rmtree(folder, ignore_errors=True)
    folder.mkdir()
    file = folder / "kept"
    file.write_text(data, encoding="ascii")
    return file


def text_of(file):
    """What a file has, which may not be there."""
    return file.read_text(encoding="ascii") if file.exists() else None


def beside(file):
    """What stands beside a journal."""
    return sorted(it.name for it in file.parent.iterdir() if it != file)


def is_left(file, data):
    """Whether a journal is as it was, and nothing was made beside it."""
    return text_of(file) == data and beside(file) == []


def lines_before(replies, entries):
    """How many lines were sent until there were so many entries: a line that is bad makes none."""
    made = [number for number, it in enumerate(replies, 1) if not it.startswith("bad")]
    return made[entries - 1] if entries else 0


def audited(cases, program, room, days):
    """Each journal of 0.9.0 is legal, and an audit leaves it as it was."""
    for day in days:
        file = copied(room, day.name, text(day.journal))
        done = day.audit(program, file)
        cases.expect(f"{day.name}, audit", done == (0, f"legal {len(day.journal)}\n", ""), done)
        cases.expect(f"{day.name}, audit leaves it", is_left(file, text(day.journal)), beside(file))


def told(cases, program, room, served):
    """What `tell` prints of an old journal is what 0.9.0 printed."""
    lines = lines_in("served.told")
    for name, journal in (("told", served.journal), ("told later", served.whole)):
        done = came(ran(program, ["tell", copied(room, "told", text(journal))]))
        cases.expect(name, done == (0, text(lines[: len(journal)]), ""), done)


def gone_on(cases, program, room, days):
    """Going on from an old journal, each line is replied to as by 0.9.0 itself, and the file grows behind the old text."""
    for day in days:
        saved = room / f"{day.name}.saved"
        for more in ([], ["--sync"], ["--save", str(saved)]):
            name = " ".join([day.name, "gone on", *more[:1]])
            file = copied(room, day.name, text(day.journal))
            done = day.run(program, file, day.later_lines, *more)
            cases.expect(name, done == (0, text(day.later_replies), ""), done)
            grown = file.read_text(encoding="ascii")
            cases.expect(f"{name}, begins as it did", grown.startswith(text(day.journal)), grown[: len(text(day.journal))])
            cases.expect(f"{name}, goes on as it did", grown == text(day.whole), grown)
            done = day.audit(program, file)
            cases.expect(f"{name}, audit", done == (0, f"legal {len(day.whole)}\n", ""), done)
            # CHANGELOG.md, 0.10.0: the tables by which a journal was made stand beside it. Version 0.9.0 makes no such file.
            seen = beside(file), text_of(file.with_name("kept.tables"))
            cases.expect(f"{name}, its tables beside", seen == (["kept.tables"], day.beside), seen)
        cases.expect(f"{day.name}, saved", text_of(saved) == text(day.whole), text_of(saved))


def from_the_first(cases, program, room, days):
    """The lines from the first one on are replied to as by 0.9.0, and saved and kept is the same text."""
    for day in days:
        for option in ("--save", "--keep"):
            file = copied(room, day.name, "")
            file.unlink()
            done = day.run(program, file, day.lines, option=option)
            cases.expect(f"{day.name}, {option}", done == (0, text(day.replies), ""), done)
            cases.expect(f"{day.name}, the text by {option}", text_of(file) == text(day.journal), text_of(file))
        done = day.run(program, file, day.lines + day.later_lines, option="--save")
        cases.expect(f"{day.name}, in one", done == (0, text(day.replies + day.later_replies), ""), done)
        cases.expect(f"{day.name}, the text in one", text_of(file) == text(day.whole), text_of(file))


def at_each_entry(cases, program, room, days):
    """Going on from so many entries alone, and with a part of the next line behind them, which is dropped."""
    for day in days:
        for entries in range(len(day.journal) + 1):
            sent = lines_before(day.replies, entries)
            following = day.whole[entries]
            for part in (0, len(following) // 2):
                name = f"{day.name}, from {entries} entries and {part} bytes"
                file = copied(room, "part", text(day.journal[:entries]) + following[:part])
                done = day.run(program, file, day.lines[sent:] + day.later_lines)
                cases.expect(name, done == (0, text(day.replies[sent:] + day.later_replies), ""), done)
                cases.expect(f"{name}, the text", text_of(file) == text(day.whole), text_of(file))


def cut(cases, program, room, day):
    """A copy whose last line is cut is gone on from without that line, whatever is left of it; an audit tells of it."""
    *first, last = day.journal
    sent = lines_before(day.replies, len(first))
    for left in range(1, len(last) + 1):
        name, data = f"{day.name}, {left} bytes of the last line", text(first) + last[:left]
        file = copied(room, "cut", data)
        done = day.audit(program, file)
        cases.expect(f"{name}, audit", done == (1, f"entry {len(first)} 401\n", ""), done)
        done = day.run(program, file, [])
        cases.expect(f"{name}, dropped", (done, text_of(file)) == ((0, "", ""), text(first)), done)
        file.write_text(data, encoding="ascii")
        done = day.run(program, file, day.lines[sent:] + day.later_lines)
        cases.expect(name, done == (0, text(day.replies[sent:] + day.later_replies), ""), done)
        cases.expect(f"{name}, the text", text_of(file) == text(day.whole), text_of(file))


def records(cases, program, room, days):
    """A flight's record after going on is the one that 0.9.0 had; these questions begin what came later."""
    for day in days:
        known = {int(it.split()[7]) for it in day.journal if it.split()[4:7] == ["0", "0", "schedule"]}
        shown = [*zip(day.later_lines, day.later_replies)][: len(known)]
        asked = {json.loads(line.split(" ", 3)[3])["flight"] for line, _ in shown}
        cases.expect(f"{day.name}, each flight", known == asked, (known, asked))
        for line, reply in shown:
            done = day.run(program, copied(room, day.name, text(day.journal)), [line])
            same = f"rec {len(day.journal)} {reply.split()[2]}\n"
            cases.expect(f"{day.name}, record by {line}", done == (0, same, ""), done)


def turned(line):
    """A line of a journal with another outcome: refused where it was accepted, and the other way round."""
    number, session, minute, role, outcome, rest = line.split(" ", 5)
    return " ".join([number, session, minute, role, "201" if outcome == "0" else "0", rest])


def outcomes_turned(cases, program, room, days):
    """A journal in which one outcome is another one is refused at that entry, and nothing is changed."""
    for day in days:
        for at, line in enumerate(day.journal):
            data = text([*day.journal[:at], turned(line), *day.journal[at + 1 :]])
            file, refused = copied(room, "turned", data), (1, f"entry {at} 405\n", "")
            done = day.audit(program, file)
            cases.expect(f"{day.name}, entry {at} turned, audit", done == refused, done)
            done = day.run(program, file, day.later_lines)
            cases.expect(f"{day.name}, entry {at} turned", done == refused, done)
            cases.expect(f"{day.name}, entry {at} turned, left", is_left(file, data), beside(file))


def little_room(cases, program, room, day):
    """The room is that of all entries, the old ones too."""
    file = copied(room, "room", text(day.journal))
    done = day.run(program, file, day.later_lines, journal=len(day.journal) - 1)
    # CHANGELOG.md, 0.10.0: behind the line of such a failure stands a second one. Version 0.9.0 said the first alone.
    said = "acdm: the kept journal needs a larger --journal\n" + cause(f"--keep {file}", NO_ROOM)
    cases.expect("too little room", done == (2, "", said), done)
    cases.expect("too little room, left", is_left(file, text(day.journal)), beside(file))
    done = day.run(program, file, day.later_lines, journal=LITTLE_ROOM)
    cases.expect("full", done == (0, text(lines_in("day.full.replies")), ""), done)
    kept = day.whole[:LITTLE_ROOM]
    cases.expect("full, the text", text_of(file) == text(kept), text_of(file))


def by_tables(cases, program, room, day):
    """A journal of 0.9.0 does not say its tables: it is judged by those of the command, until a board has gone on from it."""
    file, given = copied(room, "by", text(day.journal)), text(day.later_lines).encode("ascii")
    # (the first entry with an answer that the tables built in do not promise)
    refused = (1, "entry 9 404\n", "")
    for command in (["audit", file], ["run", "--keep", file]):
        done = came(ran(program, command, given))
        cases.expect(f"{command[0]} without its tables", done == refused, done)
        cases.expect(f"{command[0]} without its tables, left", is_left(file, text(day.journal)), beside(file))
    day.run(program, file, day.later_lines[:1])
    tables = file.with_name("kept.tables")
    before = text_of(file), text_of(tables)
    cases.expect("its tables are said from then on", before[1] == day.beside, before[1])
    # CHANGELOG.md, 0.10.0: a command with other tables than those beside the journal does nothing. To 0.9.0 it was `entry 9 404`.
    said = (2, "", f"acdm: {tables}: other tables than those of this command\n")
    for command in (["audit", file], ["tell", file], ["run", "--keep", file], ["run", "--save", file]):
        done = came(ran(program, command, given))
        cases.expect(f"{' '.join(command[:-1])} with other tables", done == said, done)
        cases.expect(f"{' '.join(command[:-1])} with other tables, left", (text_of(file), text_of(tables)) == before)
    done = came(ran(program, ["audit", "--tables", tables, file]))
    cases.expect("the tables beside", done == (0, f"legal {len(day.journal) + 1}\n", ""), done)


def begun(program, file, lines, *more):
    """A board that keeps its journal in a file, for the partners of lines of SESSION ROLE JSON."""
    partners = sorted({tuple(it.split(" ", 2)[:2]) for it in lines})
    return Board(program, file, ["--journal", str(ROOM), *more], [role for _, role in partners])


def served_lines(board, lines):
    """Sends these lines, each when the one before was replied to; answers the replies, and how the board ended."""
    streams, replies = board.connect(), []
    for line in lines:
        session, _, said = line.split(" ", 2)
        talk(streams[int(session) - 1], [said], replies)
    for it in streams:
        it.close()
    return replies, board.end()


def all_of(port):
    """All that a display is sent."""
    with socket.create_connection(("127.0.0.1", port), timeout=60) as stream:
        data = b""
        while part := stream.recv(65536):
            data += part
    return data.decode("ascii")


def free_ports(count):
    held = [socket.create_server(("127.0.0.1", 0)) for _ in range(count)]
    ports = [it.getsockname()[1] for it in held]
    for it in held:
        it.close()
    return ports


def at_no_minute(line):
    """A line of a journal, or of the feed, without its minute, which is the clock's."""
    return re.sub(r'^(\d+ \d+) \d+ |"minute":"[^"]*"', r"\1 - ", line)


def serving(cases, program, room, day):
    """`serve` goes on from a journal of `serve`; displays are sent the old entries, and then the new ones."""
    file, ports = copied(room, day.name, text(day.journal)), free_ports(2)
    board = begun(program, file, day.lines, f"--watch=127.0.0.1:{ports[0]}", f"--changes=127.0.0.1:{ports[1]}")
    with concurrent.futures.ThreadPoolExecutor() as pool:
        watched, changes = (pool.submit(all_of, it) for it in ports)
        replies, ended = served_lines(board, day.later_lines)
        watched, changes = watched.result(), changes.result().split("\n")[:-1]
    cases.expect("served", replies == day.later_replies, replies)
    calls = [sum(it.split()[1] == str(session) for it in day.later_journal) for session in range(1, 7)]
    said = "".join(f"session {session} {count} end\n" for session, count in enumerate(calls, 1)) + f"closed {len(day.whole)}\n"
    cases.expect("served, the end", ended == (0, said, ""), ended)
    grown = file.read_text(encoding="ascii")
    cases.expect("served, begins as it did", grown.startswith(text(day.journal)), grown)
    later = grown.split("\n")[len(day.journal) : -1]
    cases.expect("served, goes on as it did", [*map(at_no_minute, later)] == [*map(at_no_minute, day.later_journal)], later)
    cases.expect("served, audit", day.audit(program, file) == (0, f"legal {len(day.whole)}\n", ""))
    cases.expect("served, its tables beside", text_of(file.with_name("kept.tables")) == BUILT_IN, beside(file))
    cases.expect("displays of the text", watched == grown, watched)
    # CHANGELOG.md, 0.10.0: before the entries of the feed comes a line with the journal's name. Version 0.9.0 sent the entries alone.
    name = hashlib.sha256(day.journal[0].encode("ascii")).hexdigest()[:32]
    head = json.dumps({"journal": name, "next": 0, "room": ROOM}, separators=(",", ":"))
    entries = [it for it in changes if it.startswith('{"entry":')]
    cases.expect("displays of changes, the name", changes == [head, *entries], changes[:1])
    old, count = lines_in("served.told"), len(day.journal)
    cases.expect("displays of changes, old entries", entries[:count] == old[:count], entries)
    new = [*map(at_no_minute, entries[count:])]
    cases.expect("displays of changes, new entries", new == [*map(at_no_minute, old[count:])], new)


def made(program, day, journal):
    """What a program makes of the two parts of a day, with its journal in a file: replies and text of each."""
    for part, lines in (("", day.lines), (".later", day.later_lines)):
        before = journal.read_text(encoding="ascii") if part else ""
        if day.name == "served":
            replies, ended = served_lines(begun(program, journal, lines), lines)
            done = (*ended[:1], text(replies), ended[2])
        else:
            done = day.run(program, journal, lines)
        if done[0] or done[2]:
            sys.exit(f"{day.name}{part}: {done}")
        yield f"{day.name}{part}.replies", done[1]
        yield f"{day.name}{part}.journal", journal.read_text(encoding="ascii")[len(before) :]


def write(program, days, folder):
    """Makes what a program itself replies and keeps, into a folder."""
    folder.mkdir(parents=True, exist_ok=True)
    with tempfile.TemporaryDirectory() as name:
        room = pathlib.Path(name)
        files = {it: data for day in days for it, data in made(program, day, room / day.name)}
        day, full = days[0], room / "full"
        full.write_text(files["day.journal"], encoding="ascii")
        files["day.full.replies"] = day.run(program, full, day.later_lines, journal=LITTLE_ROOM)[1]
        files["served.told"] = came(ran(program, ["tell", room / "served"]))[1]
    for it, data in files.items():
        (folder / it).write_text(data, encoding="ascii")


def main():
    parser = words(__doc__)
    parser.add_argument("--write", type=pathlib.Path, metavar="FOLDER", help="write what the program makes of the lines")
    given = parser.parse_args()
    days = [Day("day"), Day("tables", TABLES), Day("served")]
    if given.write:
        write(given.program, days, given.write)
        return 0
    day, tables, served = days
    cases, by_run = Cases(), [day, tables]
    with tempfile.TemporaryDirectory(prefix="acdm-upgrade-") as folder:
        room = pathlib.Path(folder)
        audited(cases, given.program, room, days)
        told(cases, given.program, room, served)
        for part in (gone_on, from_the_first, at_each_entry, records, outcomes_turned):
            part(cases, given.program, room, by_run)
        cut(cases, given.program, room, day)
        little_room(cases, given.program, room, day)
        by_tables(cases, given.program, room, tables)
        serving(cases, given.program, room, served)
    return cases.end()


if __name__ == "__main__":
    sys.exit(main())
