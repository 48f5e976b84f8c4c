#!/usr/bin/env python3
"""Looks up each name, file and type that the documents mention, in the tree.

    tools/checks/names.py [PAGE ..]

What stands between backticks is looked up: a path among the files, below the page's own folder, or below a crate that
the same paragraph names; an identifier among the words of the sources, without their comments; a name with a capital
as something that a source declares. Links of Markdown lead to a file, and to a heading of it. What a page names
though the tree has it not stands in a table below with its reason, which is checked as well: each is still named.
And what begins as a script can be started.
"""
from __future__ import annotations

import re
import subprocess
import sys
from pathlib import Path

from checkout import TOP, asked_pages, ended, pages, paragraph_at, tracked

SOURCES = (
    ".rt",
    ".antt",
    ".py",
    ".mjs",
    ".js",
    ".html",
    ".css",
    ".c",
    ".h",
    ".rs",
    ".json",
    ".toml",
    ".sql",
    ".sh",
    ".edit",
    ".txt",
    ".service",
)
PATH = re.compile(
    r"[\w./-]+\.(?:rt|antt|py|md|txt|json|hex|c|h|html|css|js|toml|lst|edit|rs|mjs|sql|png|journal|out|service|sh)"
)
NAME = re.compile(r"[A-Za-z_]\w*(?:(?:::|\.)[A-Za-z_]\w*)*")
LEMMA = re.compile(r"[a-z]\w*(?:-\w+)+")
COMMENTS = {
    ".rt": r"//[^\n]*",
    ".antt": r"--[^\n]*",
    ".rs": r"//[^\n]*",
    ".py": r"#[^\n]*",
    ".c": r"//[^\n]*|/\*.*?\*/",
}
DECLARED = re.compile(
    r"\b(?:struct|enum|trait|type|union|class|def|fn|const|static|mod|data|abbrev|record|syntax)\s+(?:pub\s+)?(\w+)"
)
VARIANT = re.compile(r"::([A-Z]\w*)")
# What pages name though no source has it, and why.
ELSEWHERE = {
    "http_server": "a crate of the kit that is not used",
    "logbook": "a crate of the kit that is not used",
    "RuledSeqCell": "a type of the kit's crossbeam_utils",
    "sights_of": "a lemma that was left out, as bench/gate/README.md tells",
    "OpDisplay::fmt": "a function of the compiler's own, as bench/gate/README.md tells",
    "OpDebug": "a derive that was left out, as bench/gate/README.md tells",
    "FormDebug": "a derive that was left out, as bench/gate/README.md tells",
    "serve_counted": "a function that was left out, as bench/gate/README.md tells",
}
# Names of other programs, of the kit and of the system, in groups.
OUTSIDE = {
    "programs": "clang-19 cron dmesg gcc-bpf logrotate nginx nice perf rbpf stunnel vmstat",
    "crates of the kit below those that crates.txt names": "jiff_core jiff_duration jiff_span jiff_strtime jiff_tz"
    " jiff_zoned ryu simdutf8 strsim toml_datetime toml_parser toml_writer unicode",
    "words of the kit": "Processes hides rattle-kit-13b rattle-kit-13f",
    "words of C and of the system": "EINTR kernel.sched_autogroup_enabled noreturn",
    "examples of a text": "T10Z app c3020000 failing",
    "types and traits of std": "Abort AllocError Arc Box Brand Copy Debug Display Drop Err Net PartialEq Proof Read"
    " Result Threads Value Vec Wait Write",
    "words of a proof's measurements": "App Lts Tie",
    "words of brokers and databases": "replication.factor min.insync.replicas unclean.leader.election.enable"
    " __transaction_state synchronous_commit sslcert sslkey",
    "fields of HTTP, and of its cookies": "Origin HttpOnly Secure",
}
# Files that a reader makes, or that an outside program has.
MADE = {
    "slot.o": "compiled by a command of its page",
    "slot.bin": "compiled by a command of its page",
    "slot.hex": "made by a command of its page",
    "day.journal": "the reader's own",
    "desk.toml": "the reader's own settings of the desk",
}


class Tree:
    """The files of a checkout, the words of its sources, and what they declare."""

    def __init__(self, top: Path) -> None:
        self.top = top
        self.files = set(tracked(top))
        self.folders = {str(parent) for name in self.files for parent in Path(name).parents}
        self.words: set[str] = set()
        self.declared: set[str] = set()
        self.words |= {Path(name).stem for name in self.files}
        for name in self.files:
            if Path(name).suffix in SOURCES or name in ("acdm", ".ci/run", ".ci/quick"):
                self.add(name)

    def add(self, name: str) -> None:
        """Adds the words of one source, without its comments."""
        text = (self.top / name).read_text(encoding="utf-8", errors="replace")
        comment = COMMENTS.get(Path(name).suffix)
        if comment:
            text = re.sub(comment, " ", text, flags=re.S)
        self.words |= set(re.findall(r"\w+", text))
        self.words |= set(LEMMA.findall(text))
        self.declared |= set(DECLARED.findall(text)) | set(VARIANT.findall(text))

    def has_path(self, path: str, page: Path, paragraph: str) -> bool:
        """Returns whether a path is one of a file, as the page means it."""
        if path in self.files or path.rstrip("/") in self.folders:
            return True
        below = (page.parent / path).resolve()
        if below.is_relative_to(self.top) and str(below.relative_to(self.top)) in self.files:
            return True
        crates = [
            name
            for name in re.findall(r"\b(?:acdm|bpf|\w+_tests|faulty)\w*", paragraph)
            if f"crates/{name}" in self.folders
        ]
        ends = (
            [f"crates/{name}/" for name in crates]
            if path.startswith(("src/", "specs/", "proofs/")) and crates
            else [""]
        )
        return any(file.startswith(start) and file.endswith(f"/{path}") for start in ends for file in self.files)

    def has_name(self, name: str) -> bool:
        """Returns whether the parts of a name stand in a source, and a source declares one that is a type's."""
        if re.fullmatch(r"[A-Z]\w*[a-z]\w*", name):
            return name in self.declared
        return name in self.words or all(part in self.words for part in re.split(r"::|\.", name))


def heading_names(text: str) -> set[str]:
    """Returns the anchors of a page's headings, as Markdown's readers make them."""
    heads = re.findall(r"^#+ (.*)$", text, re.M)
    return {re.sub(r"[^\w\- ]", "", head.replace("`", "").lower()).replace(" ", "-") for head in heads}


def link_faults(page: Path, text: str, tree: Tree) -> list[str]:
    """Returns the links of a page that lead to no file, or to no heading."""
    faults = []
    for target in re.findall(r"\]\(([^)\s]+)\)", re.sub(r"\s*\n\s*", "", text)):
        if re.match(r"[a-z]+:", target):
            continue
        path, _, anchor = target.partition("#")
        file = (page.parent / path).resolve() if path else page
        if not file.exists():
            faults.append(f"{page.relative_to(tree.top)}: no file for the link {target}")
        elif anchor and anchor not in heading_names(file.read_text(encoding="utf-8")):
            faults.append(f"{page.relative_to(tree.top)}: no heading for the link {target}")
    return faults


def faults_of(page: Path, tree: Tree, used: set[str]) -> list[str]:
    """Returns what a page names that is not there."""
    text, outside = page.read_text(encoding="utf-8"), {name for names in OUTSIDE.values() for name in names.split()}
    prose = re.sub(r"```.*?```", lambda block: re.sub(r"[^\n]", " ", block[0]), text, flags=re.S)
    faults = link_faults(page, prose, tree)
    for span in re.finditer(r"`([^`]+)`", prose):
        told = " ".join(span[1].split())
        if told in ELSEWHERE or told in MADE or told in outside:
            used.add(told)
            continue
        where = f"{page.relative_to(tree.top)}:{prose.count(chr(10), 0, span.start()) + 1}"
        if PATH.fullmatch(told):
            if "NAME" not in told and not tree.has_path(told, page, paragraph_at(prose, span.start())):
                faults.append(f"{where}: no file {told}")
        elif (NAME.fullmatch(told) or LEMMA.fullmatch(told)) and len(told) > 2:
            if not tree.has_name(told):
                faults.append(f"{where}: no source has {told}")
    return faults


def unstartable() -> list[str]:
    """Returns the files of the checkout that begin as scripts do, and that the system would not start."""
    listed = subprocess.run(["git", "ls-files", "-s"], cwd=TOP, capture_output=True, text=True, check=True).stdout
    faults = []
    for row in listed.splitlines():
        about, name = row.split("\t", 1)
        file = TOP / name
        if about.startswith("100644") and file.is_file() and file.read_bytes()[:2] == b"#!":
            faults.append(f"{name}: it begins with #! and is not executable")
    return faults


def main() -> int:
    """Looks up, and returns the status."""
    tree, used, asked = Tree(TOP), set[str](), asked_pages(sys.argv[1:])
    faults = [fault for page in asked for fault in faults_of(page, tree, used)]
    if asked == pages():
        struck = sorted({*ELSEWHERE, *MADE} - used)
        faults += [f"no page names {name} any more: strike it from tools/checks/names.py" for name in struck]
        faults += unstartable()
    return ended(faults, f"all names, files and links of {len(asked)} pages stand in the tree")


if __name__ == "__main__":
    sys.exit(main())
