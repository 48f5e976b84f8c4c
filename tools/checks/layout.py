#!/usr/bin/env python3
"""Checks that the sources of all crates are in the layout of `rt fmt`, which `rt ci` asks of them.

    tools/checks/layout.py

It lays out a copy, and names each file that is another then. Without the kit it is left out.
"""
from __future__ import annotations

import shutil
import subprocess
import sys
import tempfile
from pathlib import Path

from checkout import LEFT_OUT, TOP


def copied(crate: Path, folder: Path) -> Path:
    """Copies the sources of a crate to a folder, and returns its copy."""
    copy = folder / "crates" / crate.name
    shutil.copytree(crate, copy, ignore=shutil.ignore_patterns("out"))
    return copy


def changed(crate: Path, copy: Path) -> list[str]:
    """Returns the sources of a crate that `rt fmt` lays out otherwise, and what it says where it fails."""
    ran = subprocess.run(["rt", "fmt"], cwd=copy, capture_output=True, text=True, check=False)
    if ran.returncode != 0:
        return [f"{crate.name}: {(ran.stdout + ran.stderr).strip()}"]
    sources = sorted((crate / "src").rglob("*.rt"))
    return [
        f"{it.relative_to(TOP)} is not in the layout: run rt fmt in {crate.relative_to(TOP)}"
        for it in sources
        if it.read_bytes() != (copy / it.relative_to(crate)).read_bytes()
    ]


def main() -> int:
    if shutil.which("rt") is None:
        print("left out: there is no kit")
        return LEFT_OUT
    crates = sorted(it for it in (TOP / "crates").iterdir() if (it / "src").is_dir())
    with tempfile.TemporaryDirectory() as room:
        top = Path(room)
        shutil.copy(TOP / "crates.txt", top)
        faults = [fault for crate in crates for fault in changed(crate, copied(crate, top))]
    for fault in faults:
        print(fault)
    print(f"{len(crates)} crates, {len(faults)} faults")
    return 1 if faults else 0


if __name__ == "__main__":
    sys.exit(main())
