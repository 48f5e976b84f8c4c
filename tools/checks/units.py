"""What stands in the units for systemd: who runs what, where it writes; and the boards that they begin, run without it.

packaged.py asks it of an archive that was installed. The units name addresses of two machines, which are ports of this
one here, and folders of the system, which are folders below a room.
"""
from __future__ import annotations

import configparser
import os
import re
import shlex
import subprocess
import sys
import time
from collections.abc import Callable, Iterator
from dataclasses import dataclass, field
from pathlib import Path

from checkout import TOP

sys.path.insert(0, str(TOP / "clients"))

from control import END  # noqa: E402  pylint: disable=wrong-import-position

Case = tuple[str, bool]
PREFIX, STATE = "/opt/kevotranjy", "/var/lib"
FIRST, SECOND = "10.0.0.1", "10.0.0.2"
ADDRESS = re.compile(r"\b(127\.0\.0\.1|10\.0\.0\.\d):(\d+)|((?:--control|control\.py|newday\.py) )(\d+)(?![\d.])")
# It is told what to begin, and begins the board by the words in a file, as systemd does.
SYSTEMCTL = '#!/bin/sh\necho "$*" >> {room}/asked\nsetsid sh -c "$(cat {room}/board)" > /dev/null 2>&1 &\n'
LIMIT = 60


def unit(file: Path) -> dict[str, dict[str, str]]:
    """The sections of a unit, of each key the last value."""
    found = configparser.RawConfigParser(strict=False, delimiters=("=",), comment_prefixes=("#",))
    found.optionxform = str  # type: ignore[assignment,method-assign]
    found.read_string(file.read_text(encoding="utf-8").replace("\\\n", " "))
    return {name: dict(found[name]) for name in found.sections()}


def facts(top: Path) -> Iterator[Case]:
    """What the pages and the units say of one another."""
    folder = top / "examples" / "systemd"
    units = {file.name: unit(file) for file in sorted(folder.glob("acdm*"))}
    services = {name: it["Service"] for name, it in units.items() if "Service" in it}
    page = (folder / "README.md").read_text(encoding="utf-8")
    told = set(re.findall(r"`(acdm[\w@-]*\.(?:service|timer))`", page))
    yield "the page names each unit", set(units) == told
    users = {name: it.get("User") for name, it in services.items()}
    newday = users.pop("acdm-newday.service")
    yield "each runs as acdm, and the next day's as root", set(users.values()) == {"acdm"} and newday is None
    enabled = {name for line in re.findall(r"systemctl enable --now (.*)", page) for name in line.split()}
    begun = {name: it.get("Install", {}).get("WantedBy") for name, it in units.items()}
    # (those that a timer begins are begun by nobody else)
    wanted: dict[str, str | None] = {name: "multi-user.target" for name in services}
    wanted |= {name: "timers.target" for name in units if name.endswith(".timer")}
    wanted |= dict.fromkeys(("acdm-newday.service", "acdm-tick.service"))
    yield "what is enabled begins with the machine", begun == wanted and all(begun[name] for name in enabled)
    yield from timing(units, page)
    yield "one machine has one of both boards", units["acdm-follow.service"]["Unit"].get("Conflicts") == "acdm.service"
    needs = {"Requisite", "Requires", "BindsTo", "PartOf"} & set(units["acdm-tick.service"]["Unit"])
    yield "the clock needs no unit, since either board may be promoted", not needs
    bridge = services["acdm-bridge@.service"]
    yield "a bridge has its words", (bridge["EnvironmentFile"], bridge["ExecStart"]) == (
        "/etc/acdm/%i.words",
        f"{PREFIX}/bridges/%i.py $WORDS",
    )
    yield from bounded(services)
    yield from writing(services)
    yield from beside(top, services)


def timing(units: dict[str, dict[str, dict[str, str]]], page: str) -> Iterator[Case]:
    """When the timers begin something."""
    hour = re.search(r"at (\d\d:\d\d) UTC", page)
    timer, tick = units["acdm-newday.timer"]["Timer"], units["acdm-tick.timer"]["Timer"]
    wanted = f"*-*-* {hour[1]}:00 UTC" if hour else ""
    yield "the next day begins at the hour of the page", timer["OnCalendar"] == wanted
    yield "a tick comes each minute", (tick["OnCalendar"], tick["AccuracySec"]) == ("*-*-* *:*:00", "1s")


def bounded(services: dict[str, dict[str, str]]) -> Iterator[Case]:
    """What is begun again, with which bounds, and how long its end may take."""
    again = [services[f"acdm{name}.service"].get("Restart") for name in ("", "-follow", "-desk", "-bridge@")]
    wanted = ["on-failure", "no", "on-failure", "always"]
    yield "a board that crashed begins again, and one that follows does not", again == wanted
    bounds = ("LimitAS", "LimitNOFILE", "LimitFSIZE", "Environment")
    both = [[services[name].get(key) for key in bounds] for name in ("acdm.service", "acdm-follow.service")]
    yield "both boards have the same bounds", both == [["2G", "4096", "infinity", "MALLOC_ARENA_MAX=1"]] * 2
    ends = [int(services[name]["TimeoutStopSec"]) for name in ("acdm.service", "acdm-follow.service")]
    yield "a board has the time to close that is waited for", all(seconds > END for seconds in ends)


def writing(services: dict[str, dict[str, str]]) -> Iterator[Case]:
    """Each writes below its own folder alone."""
    own = {name: it.get("StateDirectory") for name, it in services.items()}
    wanted = {"acdm.service": "acdm", "acdm-follow.service": "acdm", "acdm-desk.service": "acdm-desk"}
    wanted["acdm-bridge@.service"] = "acdm-bridge"
    yield "each has its folder", {name: it for name, it in own.items() if it} == wanted
    modes = {services[name].get("StateDirectoryMode") for name in wanted}
    yield "which nobody else reads", modes == {"0700"}
    places = {name: services[name].get("WorkingDirectory", f"{STATE}/{own[name]}") for name in wanted}
    yield "and is in it", places == {name: f"{STATE}/{folder}" for name, folder in wanted.items()}
    more = {name: it["ReadWritePaths"] for name, it in services.items() if "ReadWritePaths" in it}
    yield "the next day's writes in that of the board", more == {"acdm-newday.service": f"{STATE}/acdm"}
    files = [re.findall(r"--(?:keep|log) (\S+)", services[name]["ExecStart"]) for name in list(wanted)[:2]]
    yield "the boards' files are there", files == [[f"{STATE}/acdm/day.journal", f"{STATE}/acdm/board.log"]] * 2
    masks = {name for name, it in services.items() if it.get("UMask") == "0077"}
    yield "what they make nobody else reads", masks == {*services} - {"acdm-newday.service"}


def beside(top: Path, services: dict[str, dict[str, str]]) -> Iterator[Case]:
    """The other files that an operator installs."""
    rotated = (top / "examples/logrotate/acdm").read_text(encoding="utf-8")
    log = re.search(r"--log (\S+)", services["acdm.service"]["ExecStart"])
    user = services["acdm.service"]["User"]
    words = set(re.findall(r"^    (.*)$", rotated, re.M))
    kept = {"daily", "rotate 7", "missingok", "notifempty", "nocreate", f"su {user} {user}"}
    yield "a week of the board's log is kept", log is not None and f"\n{log[1]} {{" in rotated and words == kept
    settings = (top / "examples/board.toml").read_text(encoding="utf-8")
    ports = re.findall(r'^[^#]*?127\.0\.0\.1:(\d+)"', settings, re.M)
    yield "each address of the file of settings is another one", len(ports) == len(set(ports)) == 8
    tick = re.search(r"127\.0\.0\.1:\d+", services["acdm-tick.service"]["ExecStart"])
    for name in ("acdm.service", "acdm-follow.service"):
        words_ = services[name]["ExecStart"].split()
        yield f"{name}: the clock has an address of its own", tick is not None and words_.count(f"APT={tick[0]}") == 1


@dataclass
class Machines:
    """Two machines, whose addresses are free ports of this one, and the room of each."""

    top: Path
    room: Path
    free: Callable[[], int]
    environment: dict[str, str]
    ports: dict[tuple[str, str], int] = field(default_factory=dict)
    begun: list[subprocess.Popen[bytes]] = field(default_factory=list)

    def placed(self, text: str, machine: str) -> str:
        """A command as it is here, of a machine whose loopback interface is its own."""

        def port(found: re.Match[str]) -> str:
            host, number = (found[1], found[2]) if found[1] else ("127.0.0.1", found[4])
            key = (machine if host == "127.0.0.1" else host, number if host == "127.0.0.1" else f"{number} outside")
            if key not in self.ports:
                self.ports[key] = self.free()
            return f"127.0.0.1:{self.ports[key]}" if found[1] else f"{found[3]}{self.ports[key]}"

        own = text.replace(PREFIX, str(self.top)).replace(STATE, str(self.room / machine))
        return ADDRESS.sub(port, own)

    def read(self, name: str, key: str, machine: str, more: str = "") -> str:
        """A command of a unit, and more words, as it is here."""
        found = unit(self.top / "examples" / name)["Service"][key].lstrip("-")
        return self.placed(found + more, machine)

    def ran(self, command: str, given: str = "", **more: str) -> subprocess.CompletedProcess[str]:
        """A command of a unit that has ended."""
        return subprocess.run(
            shlex.split(command),
            input=given,
            cwd=self.room,
            env=self.environment | more,
            capture_output=True,
            text=True,
            timeout=LIMIT,
            check=False,
        )

    def begin(self, command: str, place: Path, **more: str) -> subprocess.Popen[bytes]:
        """A board that a unit begins."""
        place.mkdir(parents=True, exist_ok=True)
        null = subprocess.DEVNULL
        found = subprocess.Popen(  # pylint: disable=consider-using-with
            shlex.split(command), cwd=place, env=self.environment | more, stdin=null, stdout=null, stderr=null
        )
        self.begun.append(found)
        return found


def until(holds: Callable[[], bool], seconds: float = LIMIT) -> bool:
    """Whether something comes to hold."""
    end = time.monotonic() + seconds
    while not holds():
        if time.monotonic() > end:
            return False
        time.sleep(0.1)
    return True


def boards(top: Path, room: Path, free: Callable[[], int], environment: dict[str, str]) -> Iterator[Case]:
    """The boards of the units: begun, followed, ticked, gone over to the next day, and closed."""
    commands = room / "commands"
    commands.mkdir()
    (commands / "systemctl").write_text(SYSTEMCTL.format(room=room), encoding="utf-8")
    (commands / "systemctl").chmod(0o755)
    machines = Machines(top, room, free, environment | {"PATH": f"{commands}:{environment['PATH']}"})
    try:
        yield from two_boards(machines)
        yield from of_a_checkout(machines)
    finally:
        for board in machines.begun:
            board.kill()
            board.wait()


def two_boards(machines: Machines) -> Iterator[Case]:
    """One serves, and one follows it."""
    place, other = (machines.room / machine / "acdm" for machine in (FIRST, SECOND))
    # (the unit's comment says what is added where there are two machines)
    command = machines.read("systemd/acdm.service", "ExecStart", FIRST, f" --watch {FIRST}:4100")
    (machines.room / "board").write_text(f"cd {place}; exec {command}", encoding="utf-8")
    stop = {
        it: machines.read(f"systemd/{name}.service", "ExecStop", it)
        for it, name in ((FIRST, "acdm"), (SECOND, "acdm-follow"))
    }
    status = {machine: it.replace(" close", " status") for machine, it in stop.items()}
    board = machines.begin(command, place)
    yield "the unit begins a board", until(lambda: machines.ran(status[FIRST]).returncode == 0)
    follower = machines.begin(machines.read("systemd/acdm-follow.service", "ExecStart", SECOND), other)
    followed = machines.placed(f"{FIRST}:4100", SECOND)
    yield "that of the other machine follows it", until(
        lambda: machines.ran(status[SECOND]).stdout.startswith(f"following {followed}\n")
    )
    yield from ticked(machines)
    newday = machines.read("systemd/acdm-newday.service", "ExecStart", FIRST)
    (name, value) = machines.read("systemd/acdm-newday.service", "Environment", FIRST).split("=", 1)
    done = machines.ran(newday, **{name: value})
    asked = (machines.room / "asked").read_text(encoding="utf-8") if (machines.room / "asked").exists() else ""
    yield "the next day's unit has systemd begin the board", (done.returncode, asked) == (0, "start acdm.service\n")
    yield "the board before has ended in good order", board.wait(LIMIT) == 0
    yield "the old journal is kept", len(list((place / "old").glob("*.journal"))) == 1
    for machine in (FIRST, SECOND):
        yield f"the unit closes the board of {machine}", machines.ran(stop[machine]).returncode == 0
    yield "that which followed has ended in good order", follower.wait(LIMIT) == 0
    condition = machines.read("systemd/acdm-tick.service", "ExecCondition", FIRST)
    yield "the clock stands where no board is", 0 < machines.ran(condition).returncode < 255
    # (systemd asks for the end of a board behind its end too, where it was closed otherwise)
    for name in ("acdm", "acdm-follow"):
        text = unit(machines.top / f"examples/systemd/{name}.service")["Service"]["ExecStop"]
        yield f"{name}: that nobody is there to be closed is no failure", text.startswith("-")


def ticked(machines: Machines) -> Iterator[Case]:
    """The clock of either machine."""
    condition, tick = (
        [machines.read("systemd/acdm-tick.service", it, machine) for machine in (FIRST, SECOND)]
        for it in ("ExecCondition", "ExecStart")
    )
    given = unit(machines.top / "examples/systemd/acdm-tick.service")["Service"]["StandardInputText"]
    ticks = [machines.ran(tick[0], given + "\n").stdout for _ in range(2)]
    yield "the clock's unit ticks", (machines.ran(condition[0]).returncode, ticks) == (0, ["ok 0\n", "ok 1\n"])
    yield "and not where a board follows", 0 < machines.ran(condition[1]).returncode < 255


def of_a_checkout(machines: Machines) -> Iterator[Case]:
    """The unit for a board of a checkout, where the program of the archive stands for the script."""
    file = machines.top / "examples" / "serve" / "acdm.service"
    about = unit(file)["Service"]
    state = machines.room / "checkout"
    state.mkdir()
    command = machines.placed(about["ExecStart"], FIRST)
    control = re.search(r"--control 127\.0\.0\.1:(\d+)", command)
    assert control
    # (systemd sets the value there itself)
    words = command.replace("${STATE_DIRECTORY}", str(state)).replace("./acdm", str(machines.top / "acdm"))
    board = machines.begin(words, machines.top)
    asked = f"{machines.top}/clients/control.py {control[1]}"
    yield "that of a checkout begins a board", until(lambda: machines.ran(f"{asked} status").returncode == 0)
    yield "its journal stands in the unit's folder", (state / "day.journal").is_file() and about[
        "StateDirectory"
    ] == "acdm"
    yield "which closes", machines.ran(f"{asked} close").returncode == 0 and board.wait(LIMIT) == 0
    yield "by a signal to the script alone", (about["KillMode"], about["KillSignal"]) == ("mixed", "SIGTERM")
    yield "in its home", about["WorkingDirectory"] == "~" and os.access(file, os.R_OK)
