#!/usr/bin/env python3
"""A second opinion on the text of a journal, by docs/FORMATS.md and the model of `board.py`.

    python3 bench/model/journal.py write < lines > journal
    python3 bench/model/journal.py audit < journal

The first form writes the journal of the lines that `acdm run` reads. The second judges a journal: `legal N` with status 0, or
`entry N CODE` with status 1, the first faulty entry with the first clause that it breaks. Nothing here is taken from the
Rattle sources.
"""

import argparse
import re
import sys
from dataclasses import dataclass

import programs
from board import COMMANDS, DEICING, MILESTONES, MOST_MINUTES, ROLES, Bad, Board, meaning

LONGEST_LINE = 200_000
MOST_WORD = 2**64 - 1
PLAN = (("callsign", 8), ("type", 4), ("reg", 8), ("dest", 4))
SCHEDULE = (("sobt", 1, MOST_MINUTES), ("mttt", 0, 1440), ("exit", 0, 255), ("exot", 0, 1440), ("stand", 0, 65535))


class Faulty(Exception):
    """The entry at a place breaks a clause, of which this is the number."""

    def __init__(self, place, code):
        super().__init__(place, code)
        self.place, self.code = place, code


class Unreadable(Exception):
    """The line is no line of a journal."""


@dataclass
class Entry:
    """What a line states; the command and its arguments are those of `board.meaning`."""

    number: int
    session: int
    moment: int
    role: str
    out: int
    answers: list
    command: str
    arguments: tuple

    def line(self):
        head = [self.number, self.session, self.moment, self.role, self.out, len(self.answers), *self.answers]
        return " ".join(str(word) for word in [*head, *self.words()]).encode("ascii") + b"\n"

    def words(self):
        """The words of the command."""
        arguments = list(self.arguments)
        if self.command == "load":
            arguments[2] = arguments[2].hex()
            arguments = arguments[: 3 if arguments[3] == 128 else 4]
        elif self.command in ("schedule", "report"):
            given = arguments.pop() or {}
            arguments += [given[key].decode("ascii") for key, _ in PLAN if given]
            arguments += [given[key] for key, _, _ in SCHEDULE if key in given]
        return [self.command, *arguments]


def written(lines):
    """The entries that a stream of lines makes."""
    board = Board(1_000_000)
    for line in lines:
        try:
            session, moment, role, command, arguments = meaning(line.removesuffix(b"\n"))
        except Bad:
            continue
        number = board.length
        out, _ = board.enter(moment, role, command, arguments)
        yield Entry(number, session, moment, role, out, board.used, command, arguments)


class Words:
    """The words of a line, read one after the other."""

    def __init__(self, line):
        self.words = line.split(b" ")

    def next(self):
        if not self.words:
            raise Unreadable
        return self.words.pop(0)

    def number(self, least, most):
        word = self.next()
        if not re.fullmatch(rb"0|[1-9][0-9]{0,19}", word) or not least <= int(word) <= most:
            raise Unreadable
        return int(word)

    def text(self, most):
        word = self.next()
        if not re.fullmatch(rb"[!-~]{1,%d}" % most, word):
            raise Unreadable
        return word

    def one_of(self, names):
        word = self.next().decode("latin-1")
        if word not in names:
            raise Unreadable
        return word

    def plan(self):
        return {key: self.text(most) for key, most in PLAN}

    def place(self):
        return self.number(1, 16), self.one_of(("tobt", "alert"))

    def schedule(self):
        flight, given = self.number(1, MOST_WORD), self.plan()
        return flight, given | {key: self.number(least, most) for key, least, most in SCHEDULE}

    def report(self):
        flight, milestone = self.number(1, MOST_WORD), self.number(min(MILESTONES), max(MILESTONES))
        minute = self.number(0 if milestone in (2, 9) else 1, MOST_MINUTES)
        return flight, milestone, minute, self.plan() if milestone == 1 else None

    def load(self):
        place, digits = self.place(), self.next()
        if not re.fullmatch(rb"([0-9a-f]{2})*", digits):
            raise Unreadable
        if not self.words:
            return *place, bytes.fromhex(digits.decode()), 128
        return *place, bytes.fromhex(digits.decode()), self.number(160, 160)

    def deice(self):
        return self.number(1, MOST_WORD), self.one_of(DEICING), self.number(0, MOST_MINUTES)

    def arguments(self, command):
        match command:
            case "schedule" | "report" | "load" | "deice":
                return getattr(self, command)()
            case "unload":
                return self.place()
            case "show":
                return (self.number(1, MOST_WORD),)
        return ()


def read(line):
    """The entry that a line states, its line feed included."""
    if not line.endswith(b"\n") or len(line) > LONGEST_LINE + 1:
        raise Unreadable
    words = Words(line[:-1])
    number, session, moment = words.number(0, MOST_WORD), words.number(1, 64), words.number(1, MOST_MINUTES)
    role, out = words.one_of(ROLES), words.number(0, MOST_WORD)
    answers = [words.number(0, MOST_WORD) for _ in range(min(words.number(0, MOST_WORD), len(line)))]
    command = words.one_of(COMMANDS)
    entry = Entry(number, session, moment, role, out, answers, command, words.arguments(command))
    if words.words:
        raise Unreadable
    return entry


def judged(board, line):
    """The entry of a line that goes on with the journal of a board, which takes it."""
    place = board.length
    try:
        entry = read(line)
    except Unreadable:
        raise Faulty(place, 401) from None
    if entry.number != place:
        raise Faulty(place, 402)
    try:
        if entry.command == "load":
            programs.accepted(*entry.arguments[2:])
        left = list(entry.answers)
        board.helpers = programs.answered_by(left)
        out, _ = board.enter(entry.moment, entry.role, entry.command, entry.arguments)
    except programs.Fault:
        raise Faulty(place, 403) from None
    except programs.Unanswered:
        raise Faulty(place, 404) from None
    if left:
        raise Faulty(place, 404)
    if entry.out != out:
        raise Faulty(place, 405)
    return entry


def replay(lines):
    """Each entry of a journal with the board after it, until one that is faulty."""
    board = Board(None)
    for line in lines:
        yield judged(board, line), board


def audit(lines):
    """What is said of a journal, and the status."""
    try:
        return f"legal {sum(1 for _ in replay(lines))}", 0
    except Faulty as fault:
        return f"entry {fault.place} {fault.code}", 1


def main():
    words = argparse.ArgumentParser(description="Writes the text of a journal, or judges one.")
    words.add_argument("what", choices=("write", "audit"))
    if words.parse_args().what == "write":
        sys.stdout.buffer.writelines(entry.line() for entry in written(sys.stdin.buffer))
        return 0
    said, status = audit(sys.stdin.buffer)
    print(said)
    return status


if __name__ == "__main__":
    sys.exit(main())
