#!/usr/bin/env python3
"""Begins each program of docs/EMBEDDING.md as the page says, builds it without proofs, and compares what it prints.

    tools/checks/embedding.py [--names] [--program FILE] [EXAMPLE ..]

The commands of the page are run in a copy of this checkout, so that each program stands on the crates that the page
copies, and on no other. What `rt try` prints there has to be what the page shows below. The board of a client is the
proved program where these sources are proved, else that of --program, or a build that is not proved; without any the
client has no board. With --names nothing is run, in a moment: the crates that are copied are those to which the line of
the example leads in crates.txt, the page shows that line and the example's output, and the line names what the program
uses. The last line is `N cases, M failed`; the status is 1 where one failed.
"""
from __future__ import annotations

import argparse
import re
import shutil
import subprocess
import sys
import tempfile
import time
from dataclasses import dataclass
from pathlib import Path

from checkout import LEFT_OUT, TOP, built_program, copy_to, place_program, run_line, stop, tracked
from commands import BEGINS, PORT, RUNS_BOARD, Board, Shared

PAGE = "docs/EMBEDDING.md"
FOLDER = "examples/embedding"
NEW_FOLDER = re.compile(r"mkdir -p \.\./\w+/crates/app/src")
BUILDS = re.compile(r"\(cd .*\brt try\b")
COPIED = re.compile(r"for crate in ([\w ]+?)\s*; do cp -r crates/\$crate ")
SECONDS = 600


@dataclass(frozen=True)
class Step:
    """A command of the page, and the block below it, which is what it prints where it builds a program."""

    command: str
    shown: str


@dataclass(frozen=True)
class Example:
    """A program of the page: its name, its commands, and the lines for a crates.txt that the page shows with them."""

    name: str
    steps: tuple[Step, ...]
    lines: tuple[str, ...]

    @property
    def copied(self) -> list[str]:
        """Returns the crates that a command of it copies."""
        found = [COPIED.search(step.command) for step in self.steps]
        return next((match[1].split() for match in found if match), [])

    @property
    def printed(self) -> str:
        """Returns what the page shows of its first run."""
        return next((step.shown for step in self.steps if BUILDS.match(step.command)), "")


def blocks_of(text: str) -> list[str]:
    """Returns the indented blocks of a page in their order, without their indent, broken lines put together."""
    prose = re.sub(r"```.*?```", "", text, flags=re.S)
    found = re.findall(r"(?:^    .*\n)+", prose, re.M)
    return [re.sub(r"\\\n\s*", "", re.sub(r"^    ", "", block, flags=re.M)).strip() for block in found]


def example_of(blocks: list[str]) -> Example:
    """Returns the example of some blocks, of which the first has the command with which it begins."""
    steps: list[Step] = []
    for place, block in enumerate(blocks):
        if BEGINS.match(block):
            commands = block.split("\n")
            below = blocks[place + 1] if place + 1 < len(blocks) else ""
            steps += [Step(command, "") for command in commands[:-1]] + [Step(commands[-1], below)]
    named = next(
        (found[1] for step in steps if (found := re.search(rf"{FOLDER}/(\w+)/main\.rt\.txt", step.command))), ""
    )
    return Example(named, tuple(steps), tuple(block for block in blocks if block.startswith("app:")))


def examples_of(text: str) -> list[Example]:
    """Returns the examples of a page."""
    blocks = blocks_of(text)
    starts = [place for place, block in enumerate(blocks) if NEW_FOLDER.match(block)]
    return [example_of(blocks[start:end]) for start, end in zip(starts, [*starts[1:], len(blocks)])]


def crates_below(line: str, listed: dict[str, list[str]]) -> set[str]:
    """Returns the crates of this repository to which a line of a crates.txt leads."""
    found, waiting = set[str](), line.partition(":")[2].split()
    while waiting:
        name = waiting.pop()
        if name in listed and name not in found:
            found.add(name)
            waiting += listed[name]
    return found


def listed_crates(text: str) -> dict[str, list[str]]:
    """Returns the crates of a crates.txt with those that each stands on."""
    rows = [line.split("#")[0].partition(":") for line in text.splitlines()]
    return {name.split()[0]: below.split() for name, found, below in rows if found}


def name_faults(example: Example, page: str, top: Path = TOP) -> list[str]:
    """Returns what the page and the folder of an example have otherwise than the sources."""
    folder, about = top / FOLDER / example.name, f"{PAGE}: {example.name}:"
    listed = listed_crates((top / "crates.txt").read_text(encoding="utf-8"))
    line = (folder / "crates.line").read_text(encoding="utf-8").strip()
    source = re.sub(r"//[^\n]*", "", (folder / "main.rt.txt").read_text(encoding="utf-8"))
    below, named = crates_below(line, listed), line.partition(":")[2].split()
    used = set(re.findall(r"\b(\w+)::", source))
    faults = [f"{about} {name} is copied without need" for name in example.copied if name not in below]
    faults += [f"{about} {name} is not copied" for name in listed if name in below and name not in example.copied]
    faults += [
        f"{FOLDER}/{example.name}/crates.line: the program does not use {name}" for name in named if name not in used
    ]
    faults += [
        f"{FOLDER}/{example.name}/crates.line: it lacks {name}" for name in listed if name in used and name not in named
    ]
    if line not in example.lines:
        faults.append(f"{about} the line of its crates.txt is not shown")
    if example.printed != (folder / "stdout").read_text(encoding="utf-8").strip():
        faults.append(f"{about} its first run prints otherwise than its stdout")
    if not re.search(rf"`{FOLDER}/{example.name}`.*\| {len(below)} crates\b", page):
        faults.append(f"{about} the table does not say that it stands on {len(below)} crates")
    return faults


class Room:
    """A copy of this checkout, in which the commands of the page are run, and the board that serves there."""

    def __init__(self, room: Path, program: Path | None) -> None:
        self.folder, self.program = room / "checkout", program
        self.ports = Shared()
        self.board: Board | None = None
        self.mapped: dict[str, str] = {}
        self.cases, self.failed = 0, 0
        copy_to(self.folder)
        if program:
            place_program(program, self.folder)

    def placed(self, command: str) -> str:
        """Returns a command with ports that are free."""
        for port in PORT.findall(command):
            self.mapped.setdefault(port, str(self.ports.claim(int(port))))
        return PORT.sub(lambda port: self.mapped[port[0]], command)

    def count(self, name: str, why: str | None, seconds: float) -> None:
        """Counts a case, and tells how it ended."""
        self.cases += 1
        self.failed += bool(why)
        print(f"{'FAILED' if why else 'ok':9}{seconds:6.1f} s  {name}" + (f": {why}" if why else ""), flush=True)

    def run(self, step: Step) -> str | None:
        """Runs a command of the page, and returns why it did not end as the page says."""
        command = self.placed(step.command)
        if RUNS_BOARD.search(command):
            board = Board(command, self.folder)
            why = board.fault_of_start()
            if why:
                board.fault_of_end()
            else:
                self.board = board
            return why
        if BUILDS.match(command):
            return self.fault_of_build(command, step.shown)
        status, said = run_line(command, self.folder, SECONDS)
        return None if status == 0 else f"ended with {status}: {said[-300:]}"

    def fault_of_build(self, command: str, shown: str) -> str | None:
        """Builds and runs a program, and returns why that failed or what it printed otherwise."""
        words = ["bash", "-c", command]
        try:
            ended = subprocess.run(
                words,
                cwd=self.folder,
                stdin=subprocess.DEVNULL,
                capture_output=True,
                text=True,
                timeout=SECONDS,
                check=False,
            )
        except subprocess.TimeoutExpired:
            return f"no end within {SECONDS} s"
        if ended.returncode:
            return f"ended with {ended.returncode}: {ended.stderr[-1000:]}"
        return None if ended.stdout.strip() == shown else f"it printed\n{ended.stdout}"

    def begin(self, example: Example) -> None:
        """Runs the commands of an example, and ends its board."""
        for step in example.steps:
            if RUNS_BOARD.search(step.command) and self.program is None:
                print(f"left out           {example.name}: `{step.command}` and what comes after it, without a program")
                break
            start, why = time.monotonic(), self.run(step)
            if why or BUILDS.match(step.command):
                self.count(f"{example.name}: {step.command}", why, time.monotonic() - start)
            if why:
                break
        board, self.board = self.board, None
        why = board.fault_of_end() if board else None
        if why:
            self.count(f"{example.name}: the end of its board", why, 0)


def built(examples: list[Example], asked: argparse.Namespace) -> int:
    """Begins, builds and runs examples, and returns the status."""
    if shutil.which("rt") is None:
        print("left out: the kit's command rt is not on the path")
        return LEFT_OUT
    program, _ = built_program()
    if program is None and asked.program:
        if not asked.program.is_file():
            stop(f"{asked.program}: no such program")
        program = asked.program.resolve()
    with tempfile.TemporaryDirectory(prefix="acdm-embedding-") as name:
        room = Room(Path(name), program)
        for example in examples:
            room.begin(example)
    print(f"{room.cases} cases, {room.failed} failed")
    return 1 if room.failed or not room.cases else 0


def asked_words() -> argparse.Namespace:
    """Reads the words of the command line."""
    words = argparse.ArgumentParser(description="Begins the programs of docs/EMBEDDING.md as it says, and runs them.")
    words.add_argument("--names", action="store_true", help="look up crates and names alone, and run nothing")
    words.add_argument("--program", type=Path, metavar="FILE", help="a program for the board, where none is proved")
    words.add_argument("examples", nargs="*", metavar="EXAMPLE")
    return words.parse_args()


def main() -> int:
    """Compares names, or builds what is asked for, and returns the status."""
    asked, page = asked_words(), (TOP / PAGE).read_text(encoding="utf-8")
    shown = examples_of(page)
    folders = {Path(name).parent.name for name in tracked() if re.fullmatch(rf"{FOLDER}/\w+/main\.rt\.txt", name)}
    names = {example.name for example in shown}
    faults = [f"{PAGE}: no commands for {FOLDER}/{name}" for name in sorted(folders - names)]
    faults += [f"{PAGE}: there is no {FOLDER}/{name}" for name in sorted(names - folders)]
    faults += [fault for example in shown if example.name in folders for fault in name_faults(example, page)]
    if asked.names or faults:
        print(*faults, f"{len(shown)} cases, {len(faults)} failed", sep="\n")
        return 1 if faults or not shown else 0
    for name in asked.examples:
        if name not in names:
            stop(f"{name}: no such example; there are {', '.join(sorted(names))}")
    return built([example for example in shown if not asked.examples or example.name in asked.examples], asked)


if __name__ == "__main__":
    sys.exit(main())
