#!/usr/bin/env python3
"""Makes the archive by which a board is installed on a machine without the kit: the program, its record, all beside it.

    tools/package.py [FILE] [--program PATH]

FILE is target/kevotranjy-VERSION.tar.gz where none is named. In it is one folder: the proved program with its record,
`acdm`, which begins it, licences, clients, bridges, the desk, units for systemd, examples and documents, and SHA256SUMS
of all. `./acdm package`
runs it. With --program a build that is not proved is taken, for a trial: its record says so. The same sources and the
same program make the same archive. Status 2 where there is no proved program.
"""
from __future__ import annotations

import argparse
import gzip
import hashlib
import io
import sys
import tarfile
from pathlib import Path

sys.path.insert(0, str(Path(__file__).resolve().parent / "checks"))

from checkout import TOP, launcher, stop, tracked  # noqa: E402  pylint: disable=wrong-import-position

TEXTS = (
    "LICENSE-APACHE",
    "LICENSE-MIT",
    "NOTICES.md",
    "VERSION",
    "README.md",
    "SECURITY.md",
    "CHANGELOG.md",
    "HANDLES",
)
FOLDERS = ("bridges/", "clients/", "desk/", "docs/", "examples/")
# (what tests a part of it, and what writes the program's source)
LEFT_OUT = ("bridges/tests/", "clients/tests/", "clients/web/", "desk/tests/", "desk/pyproject.toml")
RECORD, PROGRAM = "acdm.proved", "program/acdm"
# (a signal that is ignored stays so in the program that takes the place of the shell)
START = """#!/bin/sh
# Begins the program with SIGXFSZ ignored, so that a limit of file sizes is an error of writing like any other.
trap '' XFSZ
exec "$(dirname "$(readlink -f "$0")")/program/acdm" "$@"
"""


def files() -> list[str]:
    """Returns the names of all files of the archive that stand in this checkout."""
    return [name for name in tracked() if name in TEXTS or (name.startswith(FOLDERS) and not name.startswith(LEFT_OUT))]


def record_of(program: Path | None) -> tuple[Path, str]:
    """Returns the program of the archive, and the text of its record. Ends where there is none that is proved."""
    script = launcher()
    if program:
        digest = hashlib.sha256(program.read_bytes()).hexdigest()
        return program, f"This program is not proved: it is for a trial.\nprogram {digest}\n"
    if not script.is_proved():
        stop("the program is not proved from these sources: run ./acdm prove first")
    return script.PROGRAM, script.RECORD.read_text(encoding="ascii")


def contents(program: Path | None) -> dict[str, tuple[bytes, bool]]:
    """Returns what each file of the archive has, and whether it can be started."""
    found = {name: ((TOP / name).read_bytes(), bool((TOP / name).stat().st_mode & 0o100)) for name in files()}
    binary, record = record_of(program)
    found["acdm"], found[PROGRAM] = (START.encode("ascii"), True), (binary.read_bytes(), True)
    found[RECORD] = record.encode("ascii"), False
    sums = "".join(f"{hashlib.sha256(data).hexdigest()}  {name}\n" for name, (data, _) in sorted(found.items()))
    found["SHA256SUMS"] = sums.encode("ascii"), False
    return found


def write(target: Path, folder: str, parts: dict[str, tuple[bytes, bool]]) -> None:
    """Writes the archive, with one owner and one moment for all."""
    text = io.BytesIO()
    with tarfile.open(fileobj=text, mode="w", format=tarfile.GNU_FORMAT) as archive:
        for name, (data, is_program) in sorted(parts.items()):
            entry = tarfile.TarInfo(f"{folder}/{name}")
            entry.size, entry.mode = len(data), 0o755 if is_program else 0o644
            archive.addfile(entry, io.BytesIO(data))
    target.parent.mkdir(parents=True, exist_ok=True)
    part = target.with_name(target.name + ".part")
    part.write_bytes(gzip.compress(text.getvalue(), mtime=0))
    part.replace(target)


def main(given: list[str]) -> int:
    """Makes the archive, and returns the status."""
    version = (TOP / "VERSION").read_text(encoding="ascii").strip()
    name = f"kevotranjy-{version}"
    words = argparse.ArgumentParser(prog="package.py", description="Makes the archive of the program.")
    words.add_argument("file", nargs="?", type=Path, default=TOP / "target" / f"{name}.tar.gz", metavar="FILE")
    words.add_argument("--program", type=Path, metavar="PATH", help="a build that is not proved, for a trial")
    asked = words.parse_args(given)
    try:
        parts = contents(asked.program)
        write(asked.file, name, parts)
    except OSError as error:
        stop(f"{error.filename}: {error.strerror}")
    about = parts[RECORD][0].decode("ascii").splitlines()[0]
    print(f"{asked.file}: {len(parts)} files, {asked.file.stat().st_size >> 10} KiB; {about}")
    return 0


if __name__ == "__main__":
    sys.exit(main(sys.argv[1:]))
