#!/usr/bin/env python3
"""Holds the examples against the schemas of docs/schema.

    tools/checks/schemas.py

A line of examples/*.txt fits docs/schema/lines.json exactly where its reply in the .out beside it is not one of a
faulty line (102, 103, 104). So does each whole object with a `cmd` that a document shows, but where its paragraph
names such a code. Each line of the feed that the model tells of the shipped journals fits docs/schema/feed.json. The
library is Debian's python3-jsonschema; where no Python here has it, this is left out, with status 77.
"""
from __future__ import annotations

import json
import os
import re
import subprocess
import sys
from typing import Any

from checkout import LEFT_OUT, TOP, ended, pages, paragraph_at

try:
    from jsonschema import Draft202012Validator
except ImportError:
    DEBIAN = "/usr/bin/python3"
    if os.path.exists(DEBIAN) and os.path.realpath(sys.executable) != os.path.realpath(DEBIAN):
        os.execv(DEBIAN, [DEBIAN, *sys.argv])
    print("no Python here has jsonschema (Debian: python3-jsonschema)")
    sys.exit(LEFT_OUT)

FAULTY = re.compile(r"bad 10[234]$")


def schema(name: str) -> Any:
    """Returns what tells the faults of a value by a schema."""
    return Draft202012Validator(json.loads((TOP / "docs" / "schema" / name).read_text(encoding="utf-8")))


def example_faults() -> list[str]:
    """Returns the lines of the examples that fit though they are refused as faulty, or the other way round."""
    by_schema, faults = schema("lines.json"), []
    for example in sorted(TOP.glob("examples/*.txt")):
        lines = example.read_text(encoding="utf-8").splitlines()
        replies = example.with_suffix(".out").read_text(encoding="utf-8").splitlines()
        if len(lines) != len(replies):
            faults.append(f"{example.name}: {len(lines)} lines, and {len(replies)} replies")
        for number, (line, reply) in enumerate(zip(lines, replies), 1):
            fits = by_schema.is_valid(json.loads(line.split(" ", 3)[3]))
            if fits == bool(FAULTY.match(reply)):
                faults.append(
                    f"{example.name}, line {number}: `{reply}`, and the schema {'takes' if fits else 'refuses'} it"
                )
    return faults


def shown_faults() -> list[str]:
    """Returns the whole objects with a command that a document shows and the schema refuses."""
    by_schema, faults = schema("lines.json"), []
    for page in pages():
        text = page.read_text(encoding="utf-8")
        for shown in re.finditer(r'\{"cmd":[^{}\n]*\}', text):
            is_form = any(part in shown[0] for part in ("%s", "$", ".."))
            if is_form or re.search(r"\b10[234]\b", paragraph_at(text, shown.start())):
                continue
            if not by_schema.is_valid(json.loads(shown[0])):
                faults.append(f"{page.relative_to(TOP)}: the schema refuses {shown[0]}")
    return faults


def feed_faults() -> list[str]:
    """Returns the lines of the feed of the shipped journals, by the model, that the schema refuses."""
    by_schema, faults = schema("feed.json"), []
    for journal in sorted((TOP / "examples" / "journal").glob("*.journal")):
        with journal.open("rb") as entries:
            words = [sys.executable, str(TOP / "bench" / "feed" / "feed.py")]
            told = subprocess.run(
                words, stdin=entries, stdout=subprocess.PIPE, text=True, timeout=60, check=True
            ).stdout
        for number, line in enumerate(told.splitlines()):
            messages = [error.message for error in by_schema.iter_errors(json.loads(line))]
            faults += [f"{journal.name}, entry {number}: {message}" for message in messages]
    return faults


def main() -> int:
    """Holds all against the schemas, and returns the status."""
    return ended(
        example_faults() + shown_faults() + feed_faults(), "the examples fit the schemas, and faulty ones do not"
    )


if __name__ == "__main__":
    sys.exit(main())
