#!/usr/bin/env python3
"""Runs all checks that need no proof, and says of each whether it passed.

    .ci/quick [--program FILE] [--no-build] [--rest] [--list]

Each check is one line: how it ended, how long it took, its name; what it printed follows where it failed. A check
that can't be made here, for want of a library or a file, is left out and says why. The last line is `N passed, M
failed`, and the status is 1 where one failed. Two checks run at a time.

The program is the proved one where these sources are proved, else that of --program, else a build that is not proved,
which is made first where the kit is there (tools/unproved.py, two minutes more, once for the same sources). With
--no-build none is made, and what needs the program is left out. With --rest, as .ci/run has it, those checks are left
out that .ci/run makes itself, and makes whole.
"""
from __future__ import annotations

import argparse
import os
import shutil
import subprocess
import sys
import threading
import time
from collections.abc import Callable
from concurrent.futures import ThreadPoolExecutor
from dataclasses import dataclass
from pathlib import Path

from checkout import LEFT_OUT, TOP, built_program, run_line, stop

PYTHON = sys.executable
DEBIAN = "/usr/bin/python3"
PACKAGES = "/usr/lib/python3/dist-packages"
TESTS = "-m unittest discover -s"
FOLDERS = ("clients", "bridges", "tools")
SECONDS = 300


@dataclass(frozen=True)
class Check:
    """A check: its name and command, a file and a tool that it can't do without, and whether .ci/run makes it whole."""

    name: str
    command: str
    file: str = ""
    tool: str = ""
    is_whole_there: bool = False


CHECKS = (
    Check("every command line of the documents runs", "tools/checks/commands.py{program}"),
    Check("tests of the clients", f"{{python}} {TESTS} clients/tests", "clients/tests"),
    Check("tests of the bridges", "{debian} bridges/tests/try_bridges.py --quick", "bridges/tests/try_bridges.py"),
    Check(
        "tests of the desk", "{debian} desk/tests/try_desk.py --quick", "desk/tests/try_desk.py", is_whole_there=True
    ),
    Check("names, files and links of the documents", "tools/checks/names.py"),
    Check("the kit's crates, the kit's line, the version", "tools/checks/trusted.py"),
    Check("numbers of sources and documents", "tools/checks/figures.py"),
    Check("sentences and lines of the documents", "tools/checks/sentences.py"),
    Check("where to change what, each file by purpose", "tools/checks/where.py"),
    Check("programs to begin with: what they stand on and print", "tools/checks/embedding.py --names"),
    Check("examples and the feed by their schemas", "tools/checks/schemas.py"),
    Check("tests of these checks", f"{{python}} {TESTS} tools/checks/tests", "tools/checks/tests"),
    Check(
        "the page in the program is that of clients/web",
        "{python} clients/web/embed.py --check",
        "clients/web/embed.py",
    ),
    Check("words of codes and alerts, written once", "{python} clients/words.py --check", "clients/words.py"),
    Check("rows of the rules, and cells without one", "{python} bench/rows/check.py"),
    Check("rows of the rules, replied by the program", "{python} bench/rows/ask.py{program}"),
    Check("the listing of each form of instruction", "{python} bench/rows/listing.py{program}", is_whole_there=True),
    Check(
        "walks through all milestones, an eighth of them",
        "{python} bench/walks/run.py --short{program}",
        is_whole_there=True,
    ),
    Check("the archive runs a day without the kit", "tools/checks/packaged.py{program}"),
    Check("edits stand on a line of the sources", "{python} bench/gate/stands.py"),
    Check("parameters, names of types, types of a session", "{python} bench/gate/shape.py"),
    Check("tests of the model: the board", "{python} bench/model/test_board.py"),
    Check("tests of the model: programs", "{python} bench/model/test_programs.py"),
    Check("tests of the model: journals", "{python} bench/model/test_journal.py"),
    Check("layout of the crates' sources, by rt fmt", "tools/checks/layout.py", "", "rt"),
    Check("layout of Python, by black", "black --quiet --check {folders}", "pyproject.toml", "black"),
    Check("Python, by pylint", "pylint --jobs 2 --score n {sources}", "pyproject.toml", "pylint"),
    Check("types of Python, by mypy", "mypy {each}", "pyproject.toml", "mypy"),
    Check("layout of the desk's Python, by black", "black --quiet --check desk", "desk", "black"),
    Check(
        "the desk's Python, by pylint",
        "cd desk && pylint --jobs 2 --score n kevotranjy_desk",
        f"{PACKAGES}/aiohttp",
        "pylint",
    ),
    Check(
        "types of the desk's Python, by mypy",
        "cd desk && mypy --python-executable {debian} kevotranjy_desk",
        f"{PACKAGES}/aiohttp",
        "mypy",
    ),
)


def sources() -> list[str]:
    """Returns the sources in Python below the folders that are linted."""
    return [str(file.relative_to(TOP)) for name in FOLDERS for file in sorted((TOP / name).rglob("*.py"))]


def words_of(check: Check, program: Path | None) -> str:
    """Returns the command of a check as a line for bash."""
    folders = " ".join(name for name in FOLDERS if (TOP / name).is_dir())
    debian = DEBIAN if os.path.exists(DEBIAN) else PYTHON
    given = f" --program {program}" if program else ""
    line = check.command.format(
        program=given, python=PYTHON, debian=debian, folders=folders, sources=" ".join(sources()), each="{each}"
    )
    if "{each}" not in line:
        return line
    # (two folders may each have a module of one name)
    return " && ".join(line.replace("{each}", name) for name in folders.split())


def reason_against(check: Check) -> str | None:
    """Returns why a check can't be made here."""
    if check.file and not (TOP / check.file).exists():
        return f"there is no {check.file}"
    if check.tool and shutil.which(check.tool) is None:
        return f"{check.tool} is not installed"
    return None


def run(check: Check, program: Path | None, say: Callable[[str], None]) -> str:
    """Makes a check, says how it ended, and returns that."""
    reason, start = reason_against(check), time.monotonic()
    if reason:
        say(f"left out          {check.name}: {reason}")
        return "left out"
    environment = {"PYTHONDONTWRITEBYTECODE": "1", **({"ACDM": str(program)} if program else {})}
    status, said = run_line(words_of(check, program), TOP, SECONDS, **environment)
    how = {0: "ok", LEFT_OUT: "left out", None: "FAILED"}.get(status, "FAILED")
    line = f"{how:9}{time.monotonic() - start:6.1f} s  {check.name}"
    last = said.rpartition("\n")[2]
    if how == "FAILED":
        line += f"\n{said}" if status is not None else f"\n{said}\nno end within {SECONDS} s"
    elif how == "left out" or "left out" in last:
        line += f": {last}"
    say(line)
    return how


def program_for(asked: argparse.Namespace) -> tuple[Path | None, str]:
    """Returns the program that checks use, and which one it is; builds one where there is none."""
    program, which = built_program()
    if program is None and asked.program:
        if not asked.program.is_file():
            stop(f"{asked.program}: no such program")
        return asked.program.resolve(), f"the program {asked.program}"
    if program is None and not asked.no_build and shutil.which("rt"):
        print("no program is built from these sources: building one without proofs", flush=True)
        if subprocess.run([PYTHON, "tools/unproved.py"], cwd=TOP, check=False).returncode == 0:
            return built_program()
    return program, which


def asked_words() -> argparse.Namespace:
    """Reads the words of the command line."""
    words = argparse.ArgumentParser(prog=".ci/quick", description="Runs all checks that need no proof.")
    words.add_argument(
        "--program", type=Path, metavar="FILE", help="a build of the program to run, where none is proved"
    )
    words.add_argument("--no-build", action="store_true", help="build no program where there is none")
    words.add_argument("--rest", action="store_true", help="leave out what .ci/run makes whole")
    words.add_argument("--list", action="store_true", help="print the checks with their commands, and run none")
    return words.parse_args()


def main() -> int:
    """Runs the checks, and returns the status."""
    asked, lock = asked_words(), threading.Lock()
    checks = [check for check in CHECKS if not (asked.rest and check.is_whole_there)]
    if asked.list:
        print("\n".join(f"{check.name}: {check.command}" for check in checks))
        return 0
    program, which = program_for(asked)
    print(f"checks with {which}", flush=True)

    def say(text: str) -> None:
        with lock:
            print(text, flush=True)

    with ThreadPoolExecutor(2) as pool:
        ends = list(pool.map(lambda check: run(check, program, say), checks))
    failed = ends.count("FAILED")
    print(f"{ends.count('ok')} passed, {failed} failed")
    return 1 if failed else 0


if __name__ == "__main__":
    sys.exit(main())
