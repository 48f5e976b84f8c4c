#!/usr/bin/env python3
"""Says which sentences and lines of the documents are too long.

    tools/checks/sentences.py [PAGE ..]

A sentence has at most 30 words on the pages that a newcomer, an operator or a partner reads first; on the others that
is not asked yet. A line of prose has at most 120 characters on the pages at the top and in docs/; tables and blocks
of code have any. README and PROMISES have the headline word for word, which is one sentence of any length.
"""
from __future__ import annotations

import re
import sys
from pathlib import Path

from checkout import TOP, asked_pages, ended

HEADLINE = (
    "A program that the verifier accepts ends on every flight record, whatever answers the helpers give within their "
    "promise, without a trap and in at most as many steps as it has instructions; and for every interleaving of "
    "partners' commands, served by any threads, board, alerts and replies are those of the written milestone step "
    "with the programs then loaded, a refused command changing nothing."
)
HEADLINED = ("README.md", "docs/PROMISES.md")
MOST_WORDS = 30
LONGEST_LINE = 120
SHORT = (
    "README.md",
    "CHANGELOG.md",
    "CONTRIBUTING.md",
    "SECURITY.md",
    "docs/CONNECT.md",
    "docs/OPERATING.md",
    "docs/EMBEDDING.md",
)


def prose_of(text: str) -> str:
    """Returns a page's text without blocks of code, tables, pictures and headings."""
    text = re.sub(r"```.*?```", "\n\n", text, flags=re.S)
    text = text.replace(f"**{HEADLINE}**", "")
    lines = ["" if re.match(r"    (?! *-)|\||#|!\[", line) else line for line in text.split("\n")]
    return re.sub(r"\n(?=- |\d+\. )", "\n\n", "\n".join(lines))


def sentences_of(text: str) -> list[str]:
    """Returns the sentences of a page's prose: each ends with its paragraph, or with a stop, a question or a colon."""
    found = []
    for paragraph in re.split(r"\n\s*\n", prose_of(text)):
        whole = re.sub(r"`[^`]*`", lambda span: span[0].replace(".", "\u2024"), " ".join(paragraph.split()))
        found += [sentence for sentence in re.split(r"(?<=[.?!:;])\s+", whole) if sentence]
    return found


def faults_of(page: Path) -> list[str]:
    """Returns the sentences and lines of a page that are too long."""
    text, name = page.read_text(encoding="utf-8"), str(page.relative_to(TOP))
    faults = []
    if name in HEADLINED and HEADLINE not in " ".join(text.split()):
        faults.append(f"{name}: the headline does not stand there word for word")
    for line in prose_of(text).split("\n"):
        if len(line) > LONGEST_LINE and name.count("/") == name.startswith("docs/"):
            faults.append(f"{name}: a line of {len(line)} characters: {line[:60]} ..")
    if name in SHORT:
        long = [(len(sentence.split()), sentence) for sentence in sentences_of(text)]
        faults += [
            f"{name}: a sentence of {words} words: {sentence[:80]} .." for words, sentence in long if words > MOST_WORDS
        ]
    return faults


def main() -> int:
    """Looks at each page, and returns the status."""
    asked = asked_pages(sys.argv[1:])
    return ended(
        [fault for page in asked for fault in faults_of(page)], f"no sentence or line of {len(asked)} pages is too long"
    )


if __name__ == "__main__":
    sys.exit(main())
