#!/usr/bin/env python3
"""Compares what the documents say of the kit and of the version with what is there.

    tools/checks/trusted.py

The crates of the kit that README.md trusts, and those of the first table of NOTICES.md, are those that crates.txt
names. The kit's line in README.md is what `rt version` prints, where `rt` is on the path. The number of VERSION is
that of the newest entry of CHANGELOG.md, and is what `./acdm --version` prints.
"""
from __future__ import annotations

import re
import shutil
import subprocess
import sys
from pathlib import Path

from checkout import TOP, crates_of_kit, ended, section


def differences(place: str, found: set[str], wanted: set[str]) -> list[str]:
    """Returns a line for each crate that a page lacks, or has though no crate stands on it."""
    lacks = [f"{place} lacks {name}, which crates.txt names" for name in sorted(wanted - found)]
    return lacks + [f"{place} has {name}, which crates.txt does not name" for name in sorted(found - wanted)]


def crate_faults(top: Path) -> list[str]:
    """Returns what is wrong with the lists of the kit's crates."""
    wanted = crates_of_kit((top / "crates.txt").read_text(encoding="utf-8"))
    readme = (top / "README.md").read_text(encoding="utf-8")
    trusted = set(re.findall(r"`([a-z_0-9]+)`", section(readme, "What is trusted"))) - {"std"}
    notices = section((top / "NOTICES.md").read_text(encoding="utf-8"), "Ports that this repository names")
    noted = set(re.findall(r"^\| `([a-z_0-9]+)`", notices, re.M))
    return differences("README.md, What is trusted,", trusted, wanted) + differences("NOTICES.md", noted, wanted)


def kit_faults(top: Path) -> list[str]:
    """Returns what is wrong with the kit's line, where the kit is there."""
    if shutil.which("rt") is None:
        print("the kit's line is not compared: rt is not on the path")
        return []
    said = subprocess.run(["rt", "version"], capture_output=True, text=True, timeout=60, check=False).stdout.strip()
    lines = re.findall(r"rattle-kit-\S+ logic [0-9a-f]+", (top / "README.md").read_text(encoding="utf-8"))
    return [
        f"README.md says `{line}`, and rt version `{said}`" for line in lines or ["no line of a kit"] if line != said
    ]


def version_faults(top: Path) -> list[str]:
    """Returns what is wrong with the number of the version."""
    number = (top / "VERSION").read_text(encoding="utf-8").strip()
    if not re.fullmatch(r"\d+\.\d+\.\d+", number):
        return [f"VERSION: `{number}` is no number of three parts"]
    newest = re.search(r"^## (\S+), (\d{4}-\d\d-\d\d)$", (top / "CHANGELOG.md").read_text(encoding="utf-8"), re.M)
    said = subprocess.run([top / "acdm", "--version"], capture_output=True, text=True, timeout=60, check=False)
    faults = [] if newest and newest[1] == number else [f"CHANGELOG.md: its newest entry is not of {number}"]
    is_said = f"version {number} " in said.stdout.partition("\n")[0]
    return faults + ([] if is_said else [f"./acdm --version does not say {number}: {said.stdout}{said.stderr}"])


def main() -> int:
    """Compares, and returns the status."""
    faults = crate_faults(TOP) + kit_faults(TOP) + version_faults(TOP)
    return ended(faults, "the kit's crates, its line and the version are as the documents say")


if __name__ == "__main__":
    sys.exit(main())
