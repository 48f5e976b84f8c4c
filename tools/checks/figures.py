#!/usr/bin/env python3
"""Compares the numbers and messages that stand in the sources with those that the documents say.

    tools/checks/figures.py

The table below has a row for each number: what it is, the source that decides it, how it is found there and what the
documents add to it, and for each page the words around it. The number has to stand there at least once, and be the
same wherever these words do. A page's text is read with its lines joined.
"""
from __future__ import annotations

import re
import sys
from dataclasses import dataclass
from pathlib import Path

from checkout import TOP, ended

NUMBER = r"([\d,]+)"


@dataclass(frozen=True)
class Number:
    """A number of the sources, and where documents say it: `#` stands for it in their words."""

    what: str
    source: str
    pattern: str
    pages: tuple[tuple[str, str], ...]
    more: int = 0
    unit: int = 1


NUMBERS = (
    Number(
        "passes that a desk keeps",
        "crates/acdm_board/src/passes.rt",
        r"MOST_PASSES: usize = ([\d_]+)",
        (
            ("docs/ARCHITECTURE.md", r"`passes`, at most #,"),
            ("docs/where.toml", r"its # is 64 sessions"),
            ("docs/DECISIONS.md", r"takes the place of its passes, at most #,"),
        ),
    ),
    Number(
        "flights of a board",
        "crates/acdm_step/src/verdicts.rt",
        r"MOST_FLIGHTS: usize = ([\d_]+)",
        (
            ("docs/DECISIONS.md", r"room for all # flights"),
            ("docs/RULES.md", r"\b# flights\b"),
            ("docs/PROMISES.md", r"at # flights"),
        ),
    ),
    Number(
        "slots of a program",
        "crates/bpf_decode/src/program.rt",
        r"MOST_SLOTS: usize = ([\d_]+)",
        (("docs/FORMATS.md", r"slots of 8 bytes, 1 to # of them"), ("docs/RULES-IN-C.md", r"over # slots")),
    ),
    Number(
        "bytes of a partner's line",
        "crates/acdm_wire/src/request.rt",
        r"LONGEST_REQUEST: usize = ([\d_]+)",
        (
            ("docs/RULES.md", r"longer than # bytes 70,"),
            ("docs/DECISIONS.md", r"The limit of # bytes"),
            ("docs/PROMISES.md", r"JSON of at most # bytes"),
        ),
    ),
    Number(
        "bytes of a partner's line that are kept",
        "crates/acdm_wire/src/request.rt",
        r"LONGEST_REQUEST: usize = ([\d_]+)",
        (
            ("docs/ARCHITECTURE.md", r"keeps at most # bytes of a line"),
            ("docs/RULES.md", r"bytes # are kept"),
            ("docs/PROMISES.md", r"read through it, at # bytes"),
        ),
        1,
    ),
    Number(
        "bytes of a file of settings",
        "crates/acdm_settings/src/reading.rt",
        r"MOST_TEXT: usize = ([\d_]+)",
        (
            ("docs/FORMATS.md", r"no longer than # bytes"),
            ("docs/FORMATS.md", r"board\.toml: more than # bytes"),
        ),
    ),
    Number(
        "bytes of a journal's line",
        "crates/acdm_journal/src/reading.rt",
        r"LONGEST_ENTRY: usize = ([\d_]+)",
        (
            ("docs/FORMATS.md", r"has at most # bytes, and a line feed"),
            ("docs/FORMATS.md", r"takes lines of at most # bytes"),
            ("docs/DECISIONS.md", r"whose lines have at most # bytes"),
        ),
    ),
    Number(
        "bytes of a journal's line that are kept",
        "crates/acdm_journal/src/reading.rt",
        r"LONGEST_ENTRY: usize = ([\d_]+)",
        (("docs/ARCHITECTURE.md", r"keeps at most # bytes, and reads"), ("CHANGELOG.md", r"a line of # bytes")),
        1,
    ),
    Number(
        "bytes of a program",
        "crates/acdm_judging/src/bytes.rt",
        r"MOST_BYTES: usize = ([\d_]+)",
        (
            ("docs/FORMATS.md", r"\| more than # bytes"),
            ("docs/FORMATS.md", r"until more than # bytes"),
            ("docs/DECISIONS.md", r"until more than # were read"),
            ("docs/DECISIONS.md", r"as no program has more than #\."),
        ),
    ),
    Number(
        "bytes of a file that are read at most, a piece more than a program's",
        "crates/acdm_judging/src/bytes.rt",
        r"MOST_BYTES: usize = ([\d_]+)",
        (("docs/DECISIONS.md", r"were read: at most #\."),),
        4096,
    ),
    Number(
        "sessions",
        "crates/acdm_sessions/src/sessions.rt",
        r"requires few \{ vec_len sessions ≤ ([\d_]+) \}",
        (
            ("README.md", r"Up to # partners"),
            ("docs/DECISIONS.md", r"At most # sessions"),
            ("docs/where.toml", r"is # sessions times"),
        ),
    ),
    Number(
        "entries of a journal",
        "crates/acdm_command_line/src/command_line.rt",
        r"MOST_ENTRIES: usize = ([\d_]+)",
        (
            ("docs/OPERATING.md", r"where it is not given and # at most"),
            ("docs/RULES.md", r"N, from 1 to # and"),
            ("docs/DECISIONS.md", r"The range of 1 to # is"),
        ),
    ),
    Number(
        "helpers",
        "crates/bpf_helpers/src/bank.rt",
        r"MAX_HELPERS: usize = ([\d_]+)",
        (("docs/EMBEDDING.md", r"room for # helpers"), ("docs/EMBEDDING.md", r"332 there are #\b")),
    ),
    Number(
        "bytes of an entry: 8 of its cell and 16 of malloc more than it has by itself",
        "crates/step_tests/src/step.rt",
        r"assert!\(rt; entry == ([\d_]+),",
        (
            ("docs/OPERATING.md", r"An entry takes # bytes of memory"),
            ("CHANGELOG.md", r"An entry takes # bytes of memory"),
        ),
        24,
    ),
    Number(
        "callers of the control address",
        "crates/acdm_partners/src/control.rt",
        r"MOST_CALLERS: usize = ([\d_]+)",
        (("docs/RULES.md", r"At most # are connected there"),),
    ),
    Number(
        "bytes of a line at the control address",
        "crates/acdm_partners/src/control.rt",
        r"LONGEST_LINE: usize = ([\d_]+)",
        (("docs/RULES.md", r"whole line of at most # bytes"),),
    ),
    Number(
        "connections at an address that have no first line yet",
        "crates/acdm_partners/src/newcomers.rt",
        r"MOST_NEWCOMERS: usize = ([\d_]+)",
        (("docs/RULES.md", r"at most # connections at an address wait"),),
    ),
    Number(
        "connections that are told in a minute",
        "crates/acdm_partners/src/doors.rt",
        r"MOST_TOLD: u32 = ([\d_]+)",
        (
            ("docs/RULES.md", r"address # of those who come"),
            ("docs/OPERATING.md", r"standard error, # a minute at each"),
        ),
    ),
    Number(
        "bytes of lines that are held for standard error",
        "crates/acdm_partners/src/held_lines.rt",
        r"MOST_HELD: usize = ([\d_]+)",
        (
            ("docs/RULES.md", r"are served: # bytes of them are held"),
            ("docs/DECISIONS.md", r"a store of # bytes that a thread"),
        ),
    ),
    Number(
        "bytes of a browser's request",
        "crates/acdm_web/src/hearing.rt",
        r"LONGEST_HEAD: usize = ([\d_]+)",
        (
            ("docs/RULES.md", r"whose head has more than # bytes"),
            ("docs/PROMISES.md", r"that its head has # bytes at most"),
        ),
    ),
    Number(
        "bytes of replies that are kept before an output",
        "crates/acdm/src/main.rt",
        r"BUFFER: usize = ([\d_]+)",
        (("docs/DECISIONS.md", r"keep # KiB of replies before their output"),),
        unit=1024,
    ),
)


def value_of(text: str) -> int:
    """Returns the number of digits in groups."""
    return int(text.replace("_", "").replace(",", ""))


def faults_of(number: Number, top: Path = TOP) -> list[str]:
    """Returns what is wrong with a number: in its source, and on each page."""
    found = re.findall(number.pattern, (top / number.source).read_text(encoding="utf-8"))
    if len(set(found)) != 1:
        return [f"{number.source}: {number.what}: `{number.pattern}` stands {len(set(found))} times"]
    wanted = value_of(found[0]) // number.unit + number.more
    faults = []
    for page, words in number.pages:
        text = " ".join((top / page).read_text(encoding="utf-8").split())
        said = re.findall(words.replace("#", NUMBER, 1), text)
        if not said:
            faults.append(f"{page}: {number.what}: nothing stands there as `{words}`")
        faults += [
            f"{page}: {number.what}: {told}, and {number.source} has {wanted:,}"
            for told in said
            if value_of(told) != wanted
        ]
    return faults


def passes_faults(top: Path = TOP) -> list[str]:
    """Returns what is wrong with the passes that a desk keeps: one for each session in each role."""
    roles = set(
        re.findall(
            r"^    (\w+),$",
            (top / "crates/acdm_milestones/src/role.rt")
            .read_text(encoding="utf-8")
            .partition("pub enum Role {")[2]
            .partition("\n}")[0],
            re.M,
        )
    )
    said = re.search(
        r"MOST_PASSES: usize = ([\d_]+)", (top / "crates/acdm_board/src/passes.rt").read_text(encoding="utf-8")
    )
    wanted = 64 * len(roles)
    return (
        []
        if said and value_of(said[1]) == wanted
        else [f"crates/acdm_board/src/passes.rt: 64 sessions in {len(roles)} roles are {wanted} passes"]
    )


def message_faults(top: Path = TOP) -> list[str]:
    """Returns the lines on standard error that docs/RULES.md does not have."""
    source = (top / "crates/acdm_failures/src/failure.rt").read_text(encoding="utf-8")
    text = " ".join((top / "docs/RULES.md").read_text(encoding="utf-8").split())
    messages = re.findall(r'b"(acdm: [^"]*?) ?"', source)
    return [f"docs/RULES.md lacks the line `{said}`" for said in messages if f"`{said}" not in text] or (
        [] if messages else ["crates/acdm_failures/src/failure.rt has no line that begins with acdm:"]
    )


def main() -> int:
    """Compares, and returns the status."""
    faults = [fault for number in NUMBERS for fault in faults_of(number)] + passes_faults() + message_faults()
    return ended(faults, f"{len(NUMBERS)} numbers and all messages of the sources are as the documents say")


if __name__ == "__main__":
    sys.exit(main())
