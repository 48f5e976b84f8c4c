"""What the checks share: the files of this checkout, the pages among them, and the program that was built here."""
from __future__ import annotations

import importlib.machinery
import importlib.util
import os
import re
import shutil
import signal
import subprocess
import sys
from pathlib import Path
from types import ModuleType
from typing import NoReturn

TOP = Path(__file__).resolve().parents[2]
BUILT = Path("crates/acdm/out/acdm")
UNPROVED = Path("target/unproved/acdm")
# The status of a check that was left out.
LEFT_OUT = 77


def tracked(top: Path = TOP) -> list[str]:
    """Returns the files of a checkout, also those that are not committed yet, relative to its top."""
    words = ["git", "ls-files", "-z", "--cached", "--others", "--exclude-standard"]
    listed = subprocess.run(words, cwd=top, check=True, stdout=subprocess.PIPE, text=True).stdout
    return sorted(name for name in listed.split("\0") if name and (top / name).is_file())


def pages(top: Path = TOP) -> list[Path]:
    """Returns the documents of a checkout: all of Markdown, but the notes on proofs beside each crate."""
    names = [name for name in tracked(top) if name.endswith(".md") and not name.startswith("crates/")]
    return [top / name for name in sorted(names, key=lambda name: (name.count("/"), name))]


def stop(why: str) -> NoReturn:
    """Ends a check that can't be made, with one line that says why."""
    print(f"{Path(sys.argv[0]).name}: {why}", file=sys.stderr)
    sys.exit(2)


def asked_pages(words: list[str]) -> list[Path]:
    """Returns the pages that are named, or all of them; a name that is no page ends the check."""
    if not words:
        return pages()
    for word in words:
        if not (TOP / word).is_file():
            stop(f"{word}: no such page")
    return [TOP / word for word in words]


def copy_to(folder: Path) -> None:
    """Copies the files of this checkout into a folder, which becomes a repository of its own."""
    for name in tracked():
        target = folder / name
        target.parent.mkdir(parents=True, exist_ok=True)
        shutil.copy2(TOP / name, target, follow_symlinks=False)
    subprocess.run(["git", "init", "-q", folder], check=True)


def launcher(top: Path = TOP) -> ModuleType:
    """Returns the script `acdm` at the top of a checkout as a module."""
    sys.dont_write_bytecode = True
    loader = importlib.machinery.SourceFileLoader("launcher", str(top / "acdm"))
    spec = importlib.util.spec_from_loader("launcher", loader)
    assert spec is not None
    module = importlib.util.module_from_spec(spec)
    loader.exec_module(module)
    return module


def built_program() -> tuple[Path | None, str]:
    """Returns the program that was built from these sources, or nothing, and in words which one it is."""
    script = launcher()
    if script.is_proved():
        return TOP / BUILT, "the proved program"
    mark = TOP / UNPROVED.with_suffix(".sources")
    if (TOP / UNPROVED).is_file() and mark.is_file() and mark.read_text() == script.digest():
        return TOP / UNPROVED, "a build that is not proved"
    return None, "no program"


def place_program(program: Path, folder: Path) -> None:
    """Puts a program where the script `acdm` of a copy of this checkout runs it, with the record that it asks for."""
    target = folder / BUILT
    target.parent.mkdir(parents=True, exist_ok=True)
    shutil.copy2(program, target)
    os.chmod(target, 0o755)
    script = launcher(folder)
    (folder / "crates/acdm/out/acdm.proved").write_text(script.record(script.digest()))


def crates_of_kit(text: str) -> set[str]:
    """Returns the crates of the kit that a crates.txt names: those that it does not list as its own."""
    named: dict[str, list[str]] = {}
    for line in text.splitlines():
        name, found, below = line.split("#")[0].partition(":")
        if found:
            named[name.split()[0]] = below.split()
    return {crate for below in named.values() for crate in below if crate not in named}


def section(text: str, heading: str) -> str:
    """Returns what stands below a heading of a page, up to the next heading of its level or above."""
    found = re.search(rf"^(#+) {re.escape(heading)}\n(.*?)(?=^\1 |^# |\Z)", text, re.M | re.S)
    return found[2] if found else ""


def paragraph_at(text: str, place: int) -> str:
    """Returns the paragraph, or the row of a table, around a place of a page."""
    start, end = text.rfind("\n\n", 0, place), text.find("\n\n", place)
    paragraph = text[start + 1 : end if end > 0 else len(text)]
    if paragraph.lstrip().startswith("|"):
        start, end = text.rfind("\n", 0, place), text.find("\n", place)
        paragraph = text[start + 1 : end if end > 0 else len(text)]
    return paragraph


def run_line(line: str, folder: Path, seconds: float, **environment: str) -> tuple[int | None, str]:
    """Runs a line by bash, and returns its status, none where it did not end in time, and what it printed."""
    with subprocess.Popen(
        ["bash", "-o", "pipefail", "-c", line],
        cwd=folder,
        env={**os.environ, **environment},
        stdin=subprocess.DEVNULL,
        stdout=subprocess.PIPE,
        stderr=subprocess.STDOUT,
        start_new_session=True,
        text=True,
        errors="replace",
    ) as ran:
        try:
            said, _ = ran.communicate(timeout=seconds)
            return ran.returncode, said.strip()
        except subprocess.TimeoutExpired:
            os.killpg(ran.pid, signal.SIGKILL)
            said, _ = ran.communicate()
            return None, said.strip()


def ended(faults: list[str], passed: str) -> int:
    """Prints the faults, or that all is well, and returns the status."""
    print("\n".join(faults) if faults else passed)
    return 1 if faults else 0
