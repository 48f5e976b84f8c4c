#!/usr/bin/env python3
"""Holds what `acdm tell` says against rows that are written by hand, the model, and the schemas of docs/schema.

    python3 bench/feed/run.py [--program PATH] [--model]

Rows (rows.py), the lines of the board and of the journal that displays of `serve --changes` ask for, the journals of examples/ by the
model (feed.py), the feed of each of them by docs/schema/feed.json, and all lines of partners in examples/ by docs/schema/lines.json.
With --model the model is held against the rows instead. The schemas need `python3-jsonschema`; without it they are left out, and that is
said. The last line is `N cases, M failed`; the status is 1 where one failed.
"""

import argparse
import io
import json
import pathlib
import socket
import subprocess
import sys
import tempfile

import rows
from feed import Faulty, lines, text_of

TOP = pathlib.Path(__file__).resolve().parent.parent.parent
JOURNALS = sorted((TOP / "examples" / "journal").glob("*.journal"))
LINES = sorted((TOP / "examples").glob("*.txt"))


def schema_of(name):
    """A check of a value by a schema, which gives what is wrong; or none where the library is not there."""
    try:
        from jsonschema import Draft202012Validator
    except ImportError:
        return None
    validator = Draft202012Validator(json.loads((TOP / "docs" / "schema" / name).read_text(encoding="utf-8")))
    return lambda value: [f"{it.json_path}: {it.message}" for it in validator.iter_errors(value)]


def told_by(program, data):
    """What the program tells of a journal: its output and its status."""
    with tempfile.NamedTemporaryFile() as file:
        file.write(data)
        file.flush()
        ran = subprocess.run([str(program), "tell", file.name], capture_output=True, timeout=60, check=False)
    return ran.stdout.decode("latin-1") + ran.stderr.decode("latin-1"), ran.returncode


def told_by_model(data):
    told = ""
    try:
        for line in lines(io.BytesIO(data)):
            told += text_of(line)
    except Faulty as fault:
        return f"{told}entry {fault.place} {fault.code}\n", 1
    return told, 0


class Cases:
    def __init__(self):
        self.count = self.failed = 0

    def case(self, name, wrong):
        self.count += 1
        if wrong:
            self.failed += 1
            print(f"FAILED {name}: {wrong}")

    def same(self, name, found, wanted):
        if found == wanted:
            return self.case(name, "")
        place = next((at for at, (a, b) in enumerate(zip(found, wanted)) if a != b), min(len(found), len(wanted)))
        self.case(name, f"at {place}:\n  told   {found[max(0, place - 60) : place + 80]!r}\n  wanted {wanted[max(0, place - 60) : place + 80]!r}")


def rows_of(cases, tell):
    """Each row by itself, after all those before it."""
    for name, table in (("night", rows.NIGHT), ("answers", rows.ANSWERS), ("moments", rows.MOMENTS)):
        journal = "".join(f"{line}\n" for line, _ in table).encode("latin-1")
        told, status = tell(journal)
        cases.case(f"{name}: status", "" if status == 0 else f"{status}")
        found = told.splitlines(keepends=True)
        cases.same(f"{name}: how many", str(len(found)), str(len(table)))
        for (line, wanted), it in zip(table, found):
            cases.same(f"{name}: {line[:60]}", it, wanted)
    begin = "".join(f"{line}\n" for line, _ in rows.TWO)
    for name, text, fault in rows.FAULTY:
        told, status = tell(text.encode("latin-1"))
        cases.same(f"{name}: told", told, fault or "")
        cases.same(f"{name}: status", str(status), "1" if fault else "0")
    for name, text, fault in rows.FAULTY[1:]:
        later = text.replace("0 1", "2 1", 1).replace("1 1 7 APT 0 0 tick", "3 1 7 APT 0 0 tick", 1) if text != "\n" else text
        told, status = tell((begin + later).encode("latin-1"))
        wanted = "".join(line for _, line in rows.TWO) + fault.replace("entry 0", "entry 2")
        cases.same(f"{name}, behind two entries: told", told, wanted)
        cases.same(f"{name}, behind two entries: status", str(status), "1")


def full_board(cases, tell):
    """One flight more than the board has room for."""
    told, status = tell("".join(f"{it}\n" for it in rows.FULL).encode("ascii"))
    cases.same("a full board", told.splitlines(keepends=True)[-1], rows.FULL_TOLD)
    cases.same("a full board: status", str(status), "0")


def first_lines(program, journal, asked):
    """The first line that a display is sent for each of these first lines, where a board goes on from a journal."""
    with tempfile.TemporaryDirectory() as room, socket.create_server(("127.0.0.1", 0)) as free:
        port, kept = free.getsockname()[1], pathlib.Path(room) / "kept"
        free.close()
        kept.write_text("".join(f"{it}\n" for it in journal), encoding="ascii")
        words = [program, "serve", "--keep", kept, "--changes", f"127.0.0.1:{port}", "APT=127.0.0.1:0"]
        with subprocess.Popen(words, stdout=subprocess.PIPE, stderr=subprocess.DEVNULL) as serving:
            serving.stdout.readline()
            try:
                return [first_line(port, it) for it in asked]
            finally:
                serving.kill()


def first_line(port, asked):
    with socket.create_connection(("127.0.0.1", port), timeout=20) as display:
        display.sendall(f"{asked}\n".encode("ascii"))
        return display.makefile("r", encoding="ascii", newline="\n").readline()


def boards(cases, program, check):
    """The line of the board, and that of the journal: for who asks from 0 on, at the last entry, behind it and beyond it."""
    for name, journal, wanted in rows.BOARDS:
        count = len(journal)
        rows_of_it = [("board", wanted), (f"from {count + 1}", wanted), (f"from {2**64 - 1}", wanted)]
        if journal:
            rows_of_it += [(f"from {it}", rows.journal_line(journal, it)) for it in (0, 1, count - 1, count)]
        found = first_lines(program, journal, [it for it, _ in rows_of_it])
        for (asked, line), it in zip(rows_of_it, found):
            cases.same(f"{name}: {asked}", it, line)
            if check:
                cases.case(f"{name}: {asked}: by the schema", check(json.loads(it)))


def examples(cases, tell, check):
    for journal in JOURNALS:
        data = journal.read_bytes()
        told, status = tell(data)
        wanted, _ = told_by_model(data)
        cases.same(f"{journal.name}: by the model", told, wanted)
        cases.same(f"{journal.name}: status", str(status), "0")
        for line in told.splitlines() if check else []:
            cases.case(f"{journal.name}: by the schema", check(json.loads(line)))


def partners(cases, check):
    """All objects of lines in examples that were not `bad` fit the schema, and those that were 103 or 104 do not."""
    for file in LINES:
        replies = file.with_suffix(".out").read_text(encoding="utf-8").splitlines()
        for line, reply in zip(file.read_text(encoding="utf-8").splitlines(), replies):
            try:
                value = json.loads(line.split(" ", 3)[3])
            except (IndexError, ValueError):
                continue
            wrong = check(value)
            if reply.startswith("bad 10"):
                cases.case(f"{file.name}: {line[:70]}", "" if wrong else "fits, and was refused")
            else:
                cases.case(f"{file.name}: {line[:70]}", wrong)


def main():
    parser = argparse.ArgumentParser(description=__doc__, formatter_class=argparse.RawDescriptionHelpFormatter)
    parser.add_argument("--program", type=pathlib.Path, default=TOP / "crates" / "acdm" / "out" / "acdm")
    parser.add_argument("--model", action="store_true")
    words = parser.parse_args()
    tell = told_by_model if words.model else lambda data: told_by(words.program, data)
    cases = Cases()
    feed, asked = schema_of("feed.json"), schema_of("lines.json")
    if feed is None:
        print("the schemas are left out: python3-jsonschema is not there")
    rows_of(cases, tell)
    full_board(cases, tell)
    if not words.model:
        boards(cases, words.program, feed)
    examples(cases, tell, feed)
    if asked:
        partners(cases, asked)
    print(f"{cases.count} cases, {cases.failed} failed")
    return 1 if cases.failed else 0


if __name__ == "__main__":
    sys.exit(main())
