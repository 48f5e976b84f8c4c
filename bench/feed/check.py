#!/usr/bin/env python3
"""Checks a feed: each line by `docs/schema/feed.json`, and all of them by the model.

    python3 bench/feed/check.py JOURNAL [FEED]

FEED is what a display was sent of the entries of that journal, with lines of the journal or its board before and between them or
without; without FEED the feed that the model writes is checked by the schema alone. The library is `python3-jsonschema`. The status is 1 where a line differs or does not fit.
"""

import json
import sys
from pathlib import Path

from jsonschema import Draft202012Validator

from feed import lines, text_of

SCHEMA = Path(__file__).parent.parent.parent / "docs" / "schema" / "feed.json"


def faults(journal, feed):
    """What is wrong with a feed, given as lines of text, or with that of the model."""
    validator = Draft202012Validator(json.loads(SCHEMA.read_text()))
    wanted = [text_of(line) for line in lines(journal)]
    told = wanted if feed is None else feed
    for line in told:
        for error in validator.iter_errors(json.loads(line)):
            yield f"{error.json_path}: {error.message}\n{line}"
    found = [line for line in told if not line.startswith('{"journal":')]
    if len(found) != len(wanted):
        yield f"{len(found)} lines, and the model has {len(wanted)}"
    for line, model in zip(found, wanted):
        if line != model:
            yield f"differs:\n{line}{model}"


def main():
    with open(sys.argv[1], "rb") as journal:
        feed = open(sys.argv[2], encoding="ascii").readlines() if len(sys.argv) > 2 else None
        told = list(faults(journal, feed))
    print(*told, sep="\n") if told else print("as the schema and the model say")
    return 1 if told else 0


if __name__ == "__main__":
    sys.exit(main())
