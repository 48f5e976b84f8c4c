#!/usr/bin/env python3
"""Installs the archive of `./acdm package` into an empty folder, and runs a day there without kit and checkout.

    tools/checks/packaged.py [--program FILE]

The program is the proved one where these sources are proved; else FILE, or a build that is not proved, of which an
archive for a trial is made. Nothing of this process's environment is there but a path with the system's own commands.
Tried are its sums, the shipped morning, its audit and report, a board that partners come to, its next day, its end, and
what systemd says of the units. The last line is `N cases, M failed`; the status is 1 where one failed, 77 where there
is no program.
"""
from __future__ import annotations

import argparse
import json
import re
import shutil
import socket
import subprocess
import sys
import tarfile
import tempfile
import time
from collections.abc import Iterator
from pathlib import Path

from checkout import LEFT_OUT, TOP, built_program
from units import boards, facts

Case = tuple[str, bool]
ENVIRONMENT = {"PATH": "/usr/bin:/bin"}
LIMIT = 60


def free_port() -> int:
    """Returns a port of this machine at which nothing listens."""
    with socket.socket() as probe:
        probe.bind(("127.0.0.1", 0))
        return int(probe.getsockname()[1])


class Installed:
    """What is installed in a folder that was empty."""

    def __init__(self, archive: Path, room: Path) -> None:
        with tarfile.open(archive) as opened:
            opened.extractall(room)
        (self.top,) = room.iterdir()

    def ran(self, *words: str, given: str = "") -> subprocess.CompletedProcess[str]:
        """A command of it, in its folder, that has ended."""
        return subprocess.run(
            words,
            cwd=self.top,
            env=ENVIRONMENT,
            input=given,
            capture_output=True,
            text=True,
            timeout=LIMIT,
            check=False,
        )


def whole(place: Installed) -> Iterator[Case]:
    """The sums, the licences, and nothing of the machine that made it."""
    sums = place.ran("sha256sum", "--quiet", "-c", "SHA256SUMS")
    yield "each file has its sum", sums.returncode == 0 and not sums.stdout
    record = (place.top / "acdm.proved").read_text(encoding="ascii")
    digest = place.ran("sha256sum", "program/acdm").stdout.split()[0]
    yield "the record is that of the program", f"program {digest}\n" in record
    yield "licences are there", all(
        (place.top / name).is_file() for name in ("LICENSE-APACHE", "LICENSE-MIT", "NOTICES.md")
    )
    program = place.top / "program/acdm"
    texts = [file for file in place.top.rglob("*") if file.is_file() and file != program]
    yield "no file names this checkout", not any(str(TOP).encode() in file.read_bytes() for file in texts)
    starts = [file for file in texts if file.read_bytes()[:2] == b"#!"]
    yield "what begins as a script can be started", bool(starts) and all(file.stat().st_mode & 0o100 for file in starts)


def day(place: Installed) -> Iterator[Case]:
    """The shipped morning, kept, audited, and told as a report."""
    lines = (place.top / "examples/day.txt").read_text(encoding="utf-8")
    done = place.ran("./acdm", "run", "--keep", "morning.journal", given=lines)
    wanted = (place.top / "examples/day.out").read_text(encoding="utf-8")
    yield "the morning has the replies that are shipped", done.stdout == wanted
    yield "its journal is legal", place.ran("./acdm", "audit", "morning.journal").returncode == 0
    limited = "ulimit -f 1; ./acdm run --keep limited.journal < examples/day.txt"
    done = place.ran("bash", "-c", limited)
    told = "acdm: keep failed\nacdm: --keep limited.journal: File too large (os error 27)\n"
    yield "a limit of file sizes is an error of writing", (done.returncode, done.stderr) == (2, told)
    report = place.ran("clients/report.py", "morning.journal")
    yield "a report is made of it", report.returncode == 0 and "DLH4PK" in report.stdout
    kinds = [reply.split()[0] for reply in wanted.splitlines()]
    played = place.ran("examples/serve/play.py").stdout.splitlines()
    # (its moments are those of now, so that other lines may be refused than in the morning that is shipped)
    replies = re.findall(r"^    (ok|no|rec|alerts|bad) \d+", "\n".join(played), re.M)
    entries = len(kinds) - kinds.count("bad")
    ended = len(replies), replies.count("bad"), played[-1:]
    yield "five partners play it", ended == (len(kinds), kinds.count("bad"), [f"closed {entries}"])
    watched = place.ran("examples/serve/watch.py", "--partners", "4", "--displays", "2", "--lines", "20")
    yield "displays are sent what is saved", watched.returncode == 0 and "2 of 2 displays were sent" in watched.stdout


def served(place: Installed) -> Iterator[Case]:
    """A board to which partners come, that goes to the next day, and closes."""
    control, changes, web, *ports = (free_port() for _ in range(5))
    command = ["./acdm", "serve", "--again", "--control", str(control), "--keep", "day.journal"]
    command += ["--changes", f"127.0.0.1:{changes}", "--web", f"127.0.0.1:{web}"]
    command += [f"{role}=127.0.0.1:{port}" for role, port in zip(("APT", "NM"), ports)]
    null = subprocess.DEVNULL
    with subprocess.Popen(command, cwd=place.top, env=ENVIRONMENT, stdin=null, stdout=null, stderr=null) as board:
        try:
            yield "its state is told", until(
                lambda: place.ran("clients/control.py", str(control), "status").returncode == 0
            )
            own = {"sobt": "2030-03-01T10:00:00Z", "mttt": 40, "exit": 5, "exot": 10, "stand": 12}
            texts = {"callsign": "DLH7", "type": "A320", "reg": "DAIBC", "dest": "EGLL"}
            line = json.dumps({"cmd": "schedule", "flight": 7, **texts, **own})
            reply = place.ran("clients/partner.py", f"127.0.0.1:{ports[0]}", given=line + "\n")
            yield "a partner is answered", reply.stdout == "ok 0\n"
            shown = place.ran("clients/board.py", f"127.0.0.1:{changes}", "--once")
            yield "the board is shown", "DLH7" in shown.stdout
            page = place.ran("curl", "-s", f"http://127.0.0.1:{web}/") if shutil.which("curl") else None
            yield "the page is there", page is None or "A-CDM board" in page.stdout
            next_day = place.ran("clients/newday.py", str(control), "--wait", "0")
            yield "the next day is begun", next_day.returncode == 0 and len(list(place.top.glob("old/*.journal"))) == 1
            shown = place.ran("clients/board.py", f"127.0.0.1:{changes}", "--once")
            yield "with the open flight", "DLH7" in shown.stdout
        finally:
            ended = place.ran("clients/control.py", str(control), "close")
            board.terminate()
    yield "it closes in good order", ended.returncode == 0
    yield "its journal is legal", place.ran("./acdm", "audit", "day.journal").returncode == 0


def until(holds: object) -> bool:
    """Returns whether something comes to hold within a minute."""
    assert callable(holds)
    end = time.monotonic() + LIMIT
    while not holds():
        if time.monotonic() > end:
            return False
        time.sleep(0.1)
    return True


def units(place: Installed) -> Iterator[Case]:
    """The units for systemd: what they start is in the archive, each is hardened, and systemd reads them."""
    found = sorted((place.top / "examples/systemd").glob("*.service"))
    yield "units for both boards, clock, next day, desk and bridges", len(found) == 6
    for file in found:
        text = file.read_text(encoding="utf-8")
        started = [word.replace("%i", "to_mqtt") for word in re.findall(r"/opt/kevotranjy/([\w/%.-]+)", text)]
        yield f"{file.name} starts what is there", bool(started) and all(
            (place.top / name).is_file() for name in started
        )
        yield f"{file.name} gains no privileges", "NoNewPrivileges=yes" in text and "ProtectSystem=strict" in text
    yield from facts(place.top)
    with tempfile.TemporaryDirectory(prefix="acdm-units-") as room:
        yield from boards(place.top, Path(room), free_port, ENVIRONMENT)
    if not shutil.which("systemd-analyze"):
        return
    with tempfile.TemporaryDirectory() as room:
        for file in sorted((place.top / "examples/systemd").glob("acdm*")):
            text = file.read_text(encoding="utf-8").replace("/opt/kevotranjy", str(place.top))
            (Path(room) / file.name.replace("@", "@to_mqtt")).write_text(text, encoding="utf-8")
        names = sorted(str(file) for file in Path(room).iterdir())
        said = place.ran("systemd-analyze", "verify", "--man=no", *names)
        faults = [line for line in said.stderr.splitlines() if room in line]
        print("\n".join(faults), end="\n" if faults else "")
        yield "systemd reads all units", not faults


def main() -> int:
    """Makes the archive, installs it, and tries it."""
    words = argparse.ArgumentParser(description="Tries the archive of the program without the kit.")
    words.add_argument("--program", type=Path, metavar="FILE", help="a build of the program, where none is proved")
    asked = words.parse_args()
    built, which = built_program()
    program = None if which == "the proved program" else asked.program or built
    if program is None and built is None:
        print("left out: there is no program")
        return LEFT_OUT
    cases = failed = 0
    with tempfile.TemporaryDirectory(prefix="acdm-package-") as room:
        archive, empty = Path(room) / "acdm.tar.gz", Path(room) / "machine"
        empty.mkdir()
        made = [sys.executable, str(TOP / "tools" / "package.py"), str(archive)]
        made += ["--program", str(program.resolve())] if program else []
        subprocess.run(made, check=True, stdout=subprocess.DEVNULL)
        installed = Installed(archive, empty)
        for part in (whole, day, served, units):
            for name, is_well in part(installed):
                cases += 1
                if not is_well:
                    failed += 1
                    print(f"FAILED: {name}", flush=True)
    print(f"{cases} cases, {failed} failed")
    return 1 if failed else 0


if __name__ == "__main__":
    sys.exit(main())
