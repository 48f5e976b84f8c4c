#!/usr/bin/env python3
"""Compares docs/where.toml, which says where to change what, with the files that are there.

    tools/checks/where.py

Each file and each pattern of the table is there. And no file is missing: for each kind the table names examples, such
as the name of the newest role. A file that has one of them as a whole word stands among the places of the kind, or
beside them with a reason. So does a file that has all the older names of a list: where these are told one by one, a new
one is missing, though the newest is not there either. An example that no file has is told too, and so is what stands
beside a kind without need. In a pattern `*` is any part of one name, and `**` any folders. `tools/where` prints the
table.
"""
from __future__ import annotations

import re
import sys
import textwrap
from dataclasses import dataclass
from pathlib import Path

from checkout import TOP, ended, tracked

try:
    import tomllib
except ImportError:
    # (before Python 3.11: Debian's python3-tomli is the same library)
    import tomli as tomllib  # type: ignore[no-redef]

TABLE = "docs/where.toml"
WIDTH = 120
KINDS = ("alert", "role", "command", "field", "range", "instruction", "display", "option")
KEYS_OF_KIND = ("what", "examples", "older", "places", "beside", "note")


class Faulty(ValueError):
    """What is wrong with the table: its file, the key, and why."""


@dataclass(frozen=True)
class Group:
    """Files of one purpose, or those that stand beside a kind for one reason."""

    key: str
    words: str
    files: tuple[str, ...]
    note: str


@dataclass(frozen=True)
class Kind:
    """A kind of change: what it is, words to search by, older names, the places that it changes, what only uses it."""

    name: str
    what: str
    examples: tuple[str, ...]
    older: tuple[tuple[str, ...], ...]
    places: tuple[Group, ...]
    beside: tuple[Group, ...]
    note: str


# The table, read.


def fault(key: str, why: str) -> Faulty:
    return Faulty(f"{TABLE}: {key}: {why}")


def text_at(table: dict[str, object], key: str, name: str, is_needed: bool = True) -> str:
    """Returns the text that a table has at a name, or an empty one where it is not needed."""
    found = table.get(name, None if is_needed else "")
    if not isinstance(found, str) or (is_needed and not found.strip()):
        raise fault(f"{key}.{name}", "no text")
    return found


def texts_at(table: dict[str, object], key: str, name: str) -> tuple[str, ...]:
    """Returns the texts that a table has at a name, of which there is one or more."""
    found = table.get(name)
    if not isinstance(found, list) or not found or not all(isinstance(text, str) and text for text in found):
        raise fault(f"{key}.{name}", "no list of texts")
    twice = [text for text in found if found.count(text) > 1]
    if twice:
        raise fault(f"{key}.{name}", f"{twice[0]} stands there twice")
    return tuple(found)


def lists_at(table: dict[str, object], key: str, name: str) -> tuple[tuple[str, ...], ...]:
    """Returns the lists of texts that a table has at a name, where it has some."""
    found = table.get(name, [])
    if not isinstance(found, list):
        raise fault(f"{key}.{name}", "no list of lists")
    return tuple(texts_at({str(place): texts}, f"{key}.{name}", str(place)) for place, texts in enumerate(found, 1))


def refuse_others(table: dict[str, object], key: str, allowed: tuple[str, ...]) -> None:
    for name in table:
        if name not in allowed:
            raise fault(f"{key}.{name}", f"no such key; there are {', '.join(allowed)}")


def groups_at(table: dict[str, object], key: str, name: str, words: str) -> tuple[Group, ...]:
    """Returns the groups of files that a kind has at a name, each with its words at another."""
    found = table.get(name, [])
    if not isinstance(found, list) or not all(isinstance(group, dict) for group in found):
        raise fault(f"{key}.{name}", "no array of tables")
    groups = []
    for number, group in enumerate(found, 1):
        place = f"{key}.{name}[{number}]"
        refuse_others(group, place, (words, "files", "note"))
        said, note = text_at(group, place, words), text_at(group, place, "note", is_needed=False)
        groups.append(Group(place, said, texts_at(group, place, "files"), note))
    return tuple(groups)


def kind_of(name: str, table: object) -> Kind:
    """Returns a kind of the table."""
    if not isinstance(table, dict):
        raise fault(name, "no table")
    refuse_others(table, name, KEYS_OF_KIND)
    places = groups_at(table, name, "places", "purpose")
    if not places:
        raise fault(f"{name}.places", "no place")
    beside = groups_at(table, name, "beside", "why")
    what, note = text_at(table, name, "what"), text_at(table, name, "note", is_needed=False)
    return Kind(name, what, texts_at(table, name, "examples"), lists_at(table, name, "older"), places, beside, note)


def kinds_of(top: Path) -> dict[str, Kind]:
    """Returns the kinds of the table of a checkout by their names; raises `Faulty` where it is wrong."""
    try:
        read = tomllib.loads((top / TABLE).read_text(encoding="utf-8"))
    except (OSError, ValueError) as why:
        raise Faulty(f"{TABLE}: {why}") from why
    for name in KINDS:
        if name not in read:
            raise fault(name, "this kind is missing")
    return {name: kind_of(name, table) for name, table in read.items()}


# The table, compared with the files.


def pattern_of(glob: str) -> re.Pattern[str]:
    """Returns what matches the paths that a file or a pattern of the table stands for."""
    parts = {"**/": r"(?:[^/]+/)*", "**": r".*", "*": r"[^/]*"}
    return re.compile("".join(parts.get(part) or re.escape(part) for part in re.split(r"(\*\*/|\*\*|\*)", glob)))


def line_of(word: str, text: str) -> int:
    """Returns the first line of a text that has a word as a whole one, no part of a longer word or option, or 0."""
    if word not in text:
        return 0
    around = r"[\w-]" if word.startswith("-") else r"\w"
    found = re.search(rf"(?<!{around}){re.escape(word)}(?!{around})", text)
    return text.count("\n", 0, found.start()) + 1 if found else 0


def texts_of(top: Path) -> dict[str, str]:
    """Returns the files of a checkout with their texts, but the table itself; what is no text has none."""
    found = {}
    for name in tracked(top):
        held = (top / name).read_bytes()
        found[name] = "" if b"\0" in held else held.decode("utf-8", "replace")
    found.pop(TABLE, None)
    return found


def files_of(groups: tuple[Group, ...], names: list[str], faults: list[str]) -> dict[tuple[str, str], set[str]]:
    """Returns what each file and pattern of some groups stands for, and adds a fault for each that stands for none."""
    reach = {}
    for group in groups:
        for glob in group.files:
            matching = pattern_of(glob)
            reach[group.key, glob] = {name for name in names if matching.fullmatch(name)}
            if not reach[group.key, glob]:
                faults.append(f"{TABLE}: {group.key}.files: there is no {glob}")
    return reach


def faults_of(kind: Kind, texts: dict[str, str]) -> list[str]:
    """Returns what of a kind is not there, what is missing, and what stands there without need."""
    faults: list[str] = []
    places = files_of(kind.places, list(texts), faults)
    beside = files_of(kind.beside, list(texts), faults)
    found: dict[str, str] = {}
    for word in kind.examples:
        lines = {name: line_of(word, text) for name, text in texts.items()}
        having = {name: f"{name}:{line} has {word}" for name, line in lines.items() if line}
        if not having:
            faults.append(f"{TABLE}: {kind.name}.examples: no file has the word {word}")
        found = {**having, **found}
    for words in kind.older:
        told = f"has all of {', '.join(words)}"
        whole = {name: f"{name} {told}" for name, text in texts.items() if all(line_of(word, text) for word in words)}
        if not whole:
            faults.append(f"{TABLE}: {kind.name}.older: no file {told}")
        found = {**whole, **found}
    rest = set(found).difference(*places.values())
    for (key, glob), names in beside.items():
        if names and not names & rest:
            faults.append(f"{TABLE}: {key}.files: {glob} need not stand there: strike it")
    missing = sorted(rest.difference(*beside.values()))
    return faults + [f"{TABLE}: {kind.name}: {found[name]}, and is no place of it, nor beside" for name in missing]


# The table, printed.


def noted(note: str, indent: int) -> list[str]:
    """Returns a note as lines that stand so far to the right."""
    return textwrap.wrap(note, WIDTH, initial_indent=" " * indent, subsequent_indent=" " * indent)


def lines_of_kinds(kinds: dict[str, Kind]) -> list[str]:
    """Returns the kinds, each with what it is."""
    wide = max(len(name) for name in kinds)
    return [f"{kind.name:{wide}}  {kind.what}" for kind in kinds.values()]


def lines_of_kind(kind: Kind) -> list[str]:
    """Returns the places of a kind: its purposes to the left, the files of each to the right, and its notes."""
    wide = max(len(group.words) for group in kind.places) + 2
    words = ", ".join(f"`{word}`" for word in kind.examples)
    lines = noted(f"{kind.what}. Words to search by: {words}.", 0)
    lines += noted(kind.note, 0) + [""]
    for group in kind.places:
        first, *rest = group.files
        lines += [f"{group.words:{wide}}{first}", *(" " * wide + name for name in rest)]
        lines += noted(f"({group.note})", wide) if group.note else []
    return lines


def printed(words: list[str]) -> int:
    """Prints the kinds, or the places of the kind that is asked for, and returns the status."""
    try:
        kinds = kinds_of(TOP)
    except Faulty as why:
        print(f"where: {why}", file=sys.stderr)
        return 2
    there = ", ".join(kinds)
    if len(words) > 1:
        print(f"where: one kind at most, of {there}", file=sys.stderr)
        return 2
    if words and words[0] not in kinds:
        print(f"where: no kind {words[0]!r}; there are {there}", file=sys.stderr)
        return 2
    print("\n".join(lines_of_kind(kinds[words[0]]) if words else lines_of_kinds(kinds)))
    return 0


def main() -> int:
    """Compares, and returns the status."""
    try:
        kinds = kinds_of(TOP)
    except Faulty as why:
        return ended([str(why)], "")
    texts = texts_of(TOP)
    faults = [found for kind in kinds.values() for found in faults_of(kind, texts)]
    return ended(faults, f"all files of {len(kinds)} kinds of change stand in {TABLE}")


if __name__ == "__main__":
    sys.exit(main())
