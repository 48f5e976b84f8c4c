#!/usr/bin/env python3
"""Counts what makes the sources hard to live in: long parameter lists, names with two meanings, other names of definitions.

    python3 bench/gate/shape.py [--all]

Of all crates but those of tests it says: how many functions have more than six parameters beside `self`; which names of types are
declared in more than one crate; how many definitions have another name in a line `ghost use .. as ..`; how many functions
begin with `serve`; and how many types a session is over its life, by their fields, its reader and its writer. With --all each is
named with its file. The exit status is 1 where a function has more than six parameters, a name two meanings, or a session more
than four types.
"""

import argparse
import collections
import pathlib
import re
import sys

TOP = pathlib.Path(__file__).resolve().parents[2]
MOST = 6
MOST_OF_SESSION = 4
FUNCTION = re.compile(r"^ *(?:pub(?:\([a-z]+\))? )?(?:const )?(?:unsafe )?fn (\w+)", re.M)
TYPE = re.compile(r"^(?:pub(?:\([a-z]+\))? )?(?:struct|enum|trait|type) (\w+)", re.M)
SESSION = re.compile(r"^(?:pub(?:\([a-z]+\))? )?struct (\w+)[^{]*\{(?=[^}]*\breader: Source<)(?=[^}]*\bwriter: Sink<)", re.M)
ALIAS = re.compile(r"^ *ghost use [^;]*?\bas (\w+)", re.M)


def closing(text, start):
    """Where the bracket at a place is closed, over brackets of all kinds; of `<` only where it is no arrow's or comparison's."""
    depth = 0
    for place in range(start, len(text)):
        if text[place] in "([{" or text[place] == "<":
            depth += 1
        elif text[place] in ")]}" or (text[place] == ">" and text[place - 1] not in "-="):
            depth -= 1
            if depth == 0:
                return place
    raise ValueError("a bracket is not closed")


def parameters(text, end):
    """The parameters of a function whose name ends there."""
    start = closing(text, end) + 1 if text[end] == "<" else end
    inner = text[start + 1 : closing(text, start)]
    parts, depth = [""], 0
    for place, sign in enumerate(inner):
        depth += sign in "([{<"
        depth -= sign in ")]}" or (sign == ">" and inner[place - 1] not in "-=")
        if sign == "," and depth == 0:
            parts.append("")
        else:
            parts[-1] += sign
    return [it.strip() for it in parts if it.strip() and not re.fullmatch(r"(?:&(?:'\w+ )?)?(?:mut )?self", it.strip())]


def main():
    words = argparse.ArgumentParser(description="Counts what makes the sources hard to live in.")
    words.add_argument("--all", action="store_true", help="name each with its file")
    asked = words.parse_args()
    many, serving, aliases, lives, types = [], [], [], [], collections.defaultdict(set)
    for file in sorted(TOP.glob("crates/*/src/**/*.rt")):
        crate = file.relative_to(TOP).parts[1]
        if crate.endswith("_tests") or crate == "faulty_streams":
            continue
        text = re.sub(r"//[^\n]*", "", file.read_text())
        where = file.relative_to(TOP / "crates")
        for found in FUNCTION.finditer(text):
            count = len(parameters(text, found.end()))
            if count > MOST:
                many.append((count, f"{where}: {found[1]}"))
            if found[1].startswith("serve"):
                serving.append((0, f"{where}: {found[1]}"))
        for found in TYPE.finditer(text):
            types[found[1]].add(crate)
        if crate == "acdm_sessions":
            lives += [(0, f"{where}: {it}") for it in SESSION.findall(text)]
        aliases += [(0, f"{where}: {it}") for it in ALIAS.findall(text)]
    twice = [(len(it), f"{name}: {', '.join(sorted(it))}") for name, it in types.items() if len(it) > 1]
    for found, what in (
        (many, f"functions with more than {MOST} parameters beside self"),
        (twice, "names of types that are declared in more than one crate"),
        (aliases, "other names of definitions in lines of ghost use"),
        (serving, "functions whose name begins with serve"),
        (lives, "types that a session is over its life"),
    ):
        print(f"{len(found)} {what}")
        for count, name in sorted(found, key=lambda it: (-it[0], it[1])) if asked.all else []:
            print(f"    {f'{count} ' if count else ''}{name}")
    return 1 if many or twice or len(lives) > MOST_OF_SESSION else 0


if __name__ == "__main__":
    sys.exit(main())
