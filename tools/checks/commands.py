#!/usr/bin/env python3
"""Runs each command line that a document shows, in the order of its page, and says which did not end as they should.

    tools/checks/commands.py [--program FILE] [--jobs N] [PAGE ..]

A command is a line of an indented or fenced block that begins as a shell would run it, or a text between backticks
that runs a program of this checkout with words behind it. Each page has a copy of this checkout, in which its
commands run by bash, one after the other. A board (`./acdm serve`) is seen to listen at each of its ports, and serves
the commands that follow. It is ended before the next board, before a run that keeps its journal, or at the end of its
page: by its control address, else by SIGTERM. Where a command closes it, its end is waited for. A port that is taken
is replaced by a free one, in all commands of the page.

./acdm is the proved program where these sources are proved; else that of --program, or a build that is not proved
(tools/unproved.py). Without any, the commands that need it are left out, and counted; so are those that need clang or
another tool that is not installed. What is never run stands in a table below with its reason, and is known by how it
begins; that each row still begins a command is checked where all pages are asked for.
"""
from __future__ import annotations

import argparse
import http.client
import os
import re
import shutil
import signal
import socket
import subprocess
import sys
import tempfile
import threading
import time
from concurrent.futures import ThreadPoolExecutor
from dataclasses import dataclass, field
from pathlib import Path

from checkout import TOP, asked_pages, built_program, copy_to, pages, place_program, run_line, stop

LONG = "takes minutes to hours, and has a script or the gate of its own"
WAITS = "ends only with the board that it looks at"
PROVES = "proves, which the gate does"
CHANGES = "changes the machine"
TWO_MACHINES = "is of two machines; bench/hostile/two_machines.py tries it"
# How a command begins, and why it is not run.
NOT_RUN = {
    "./acdm prove": PROVES,
    "./acdm demo": "ends with Ctrl-C; clients/tests/test_demo.py tries it",
    "tar -xzf kevotranjy": CHANGES,
    "cp /opt/": CHANGES,
    "cd /opt/": CHANGES,
    "systemctl enable": CHANGES,
    "./acdm package": "needs the proved program; tools/checks/packaged.py tries it",
    "rt ": PROVES,
    "cd crates/": PROVES,
    "(cd ../": "builds by rt, which tools/checks/embedding.py does",
    ".ci/quick": "is what runs this",
    "python3 -m unittest discover": "is a check of .ci/quick by itself",
    "tools/checks/commands.py": "is this",
    "nc ": WAITS,
    "nft ": CHANGES,
    "apt-get ": CHANGES,
    "bpf-": "is of a package that few machines have",
    "./acdm verify gcc.bin": "is of the command before it",
    "bench/gate/": LONG,
    "bench/newcomer/": LONG,
    "bench/explain/compare.py": LONG,
    "bench/verifier/": LONG,
    "bench/traffic/run.sh": LONG,
    "python3 bench/hostile/": LONG,
    "python3 bench/rules/random_rules.py": LONG,
    "python3 bench/machine/": LONG,
    "python3 bench/serve/": LONG,
    "python3 bench/ratios.py": LONG,
    "python3 bench/journal/": LONG,
    "python3 bench/verifier/": LONG,
    "bench/journal/": LONG,
    "python3 bench/feed/": LONG,
    "bench/feed/": LONG,
    "/usr/bin/python3 bench/web/": LONG,
    "python3 ../../bench/model/random_programs.py": "belongs to a run of the command before it, by rt",
    "bridges/": "needs a broker or a database, with which bridges/tests tries it",
    "desk/tests/": "is a check of .ci/quick by itself",
    "echo 'a long pass-word'": "needs the settings of a desk, with which desk/tests tries it",
    "curl --cert swiss.pem": "needs a partner's certificate, with which desk/tests tries it",
    "clients/board.py ADDRESS": "says which words there are",
    "./acdm serve --peer 10.": TWO_MACHINES,
    "./acdm follow 10.": TWO_MACHINES,
    "clients/partner.py 10.": TWO_MACHINES,
    "mkdir replaced": TWO_MACHINES,
    "clients/control.py 4199 promote": "needs a board that follows another one; bench/hostile/follow.py tries it",
    "clients/newday.py": "ends the board of its page, and begins another; bench/journal/newday.py tries it",
    "clients/check.py 'LINE'": "says which words there are",
}
# How a command begins that ends so, as its page says.
STATUS = {
    'sed "2,3s/': 1,
    'sed "1s/': 1,
    "./acdm verify slot-unbounded.bin": 1,
    "./acdm explain slot-unbounded.bin": 1,
    "./acdm verify pair.bin": 1,
}
# The board that a page supposes to be there, since another one starts it.
SUPPOSED = {
    "docs/OPERATING.md": "./acdm serve --again --control 4199 APT=127.0.0.1:4001",
    "clients/README.md": "./acdm serve --again --control 4199 --changes 127.0.0.1:4100 APT=127.0.0.1:4003",
    "docs/CONNECT.md": "./acdm serve --again --changes 127.0.0.1:4100 ATC=127.0.0.1:4002",
}
# What is run for the first page that shows it, since it takes a while and needs nothing of its page.
ONCE = ("python3 bench/rules/verdicts.py",)
# What stands for a file of the reader's own, and what is taken for it; the text of a .hex as its bytes.
STANDS_FOR = {
    "lines": "examples/day.txt",
    "day.journal": "examples/journal/day.journal",
    "rule.bin": "examples/rules/slot.hex",
    "slot.bin": "examples/rules/slot.hex",
    "hold-over.bin": "examples/rules/hold-over.hex",
    "tables.toml": "examples/tables.toml",
}
# The objects of a partner, which every role may send.
OBJECTS = ("objects", b'{"cmd":"alerts"}\n')
TOOLS = (
    r"python3|nc|tar|cc|clang|llvm-[\w-]+|bpf-[\w-]+|xxd|sed|echo|printf|cd|cp|mv|mkdir|rm|cat|curl|date|for|while"
    r"|export|rt|apt-get|node|npm|pip3?|systemctl|journalctl|nft|iptables|openssl|docker|git|sudo|bash|sh|kill|diff"
    r"|mosquitto\w*|psql|createdb|/usr/bin/\w+|\w+=\S+ \./\S+"
)
BEGINS = re.compile(
    r"\(?(?:\./acdm|\.ci/\w+|(?:bench|clients|examples|bridges|tools|desk)/[\w./-]+\.(?:py|sh|mjs)"
    rf"|(?:{TOOLS})(?=\s|$))"
)
SPAN = re.compile(
    r"`((?:\./acdm|(?:python3 )?(?:bench|clients|examples|bridges|tools|desk)/[\w./-]+\.(?:py|sh|mjs)) [^`]+)`"
)
RUNS_BOARD = re.compile(r"(?:^|exec |\()\./acdm serve\b|^examples/serve/play\.py")
RUNS_PROGRAM = re.compile(
    r"\./acdm (?!prove|--version)|^examples/serve/|clients/(?:carry|load|report)\.py|bench/rules/verdicts\.py"
    r"|bench/explain/page\.py"
)
NEEDS_BOARD = re.compile(r"clients/(?:partner|board|control|load)\.(?:py|mjs)\b.*\b\d{4,5}\b")
CLOSES_BOARD = re.compile(r"clients/control\.py \S+ close\b")
# The tools that a command needs beside this checkout, and the files that it makes.
NEEDS_TOOL = re.compile(r"(?:^|\| )(clang|llvm-objcopy|llvm-objdump|xxd|node|openssl|psql)\b")
NEEDS_CLANG = re.compile(r"clients/load\.py \S+\.c\b|bench/explain/page\.py")
MAKES = re.compile(r"(?:-o|>) (\S+)|^llvm-objcopy .* (\S+)$")
FORM = re.compile(
    r"\s'?(?:\.\.(?!/)|\["
    r"|(?:ADDR|ADDRESS|CRATE|EDIT|FILE|FLIGHT|HOST|JOURNAL|LINE|NAME|PAGE|PORT|RULE|STREAM|URL|WORD)\b)"
)
PORT = re.compile(r"(?:(?<=127\.0\.0\.1:)|(?<=localhost:)|(?<=--control )|(?<=--web )|(?<=control\.py ))\d+(?![\d.])")
SECONDS = 120


@dataclass
class Counts:
    """What came of the commands of a page, and which rows of the tables were met."""

    ran: int = 0
    left: int = 0
    skipped: int = 0
    faults: list[str] = field(default_factory=list)
    used: set[str] = field(default_factory=set)


def commands_of(page: Path) -> list[str]:
    """Returns the commands of a page, each on one line, in their order."""
    text = page.read_text(encoding="utf-8").replace("\\\n", " ")
    found: list[tuple[int, str]] = []
    place, fence = 0, ""
    for line in text.split("\n"):
        if line.lstrip().startswith("```"):
            fence = "" if fence else line.strip() + "fence"
        elif (
            fence in ("```fence", "```shfence", "```bashfence") or not fence and line.startswith("    ")
        ) and BEGINS.match(line.strip()):
            found.append((place, line))
        place += len(line) + 1
    blocks = re.compile(r"```.*?```|^    [^\n]*$", re.S | re.M)
    prose = blocks.sub(lambda block: re.sub(r"[^\n]", " ", block[0]), text)
    found += [(span.start(), span[1]) for span in SPAN.finditer(prose)]
    return [re.sub(r"\s+", " ", command.strip()) for _, command in sorted(found)]


def begins(command: str, table: dict[str, str] | dict[str, int]) -> str | None:
    """Returns the row of a table with which a command begins."""
    return next((row for row in table if command.startswith(row)), None)


class Shared:
    """What pages that run at the same time share: their ports, each used by one of them, and what is run once."""

    def __init__(self) -> None:
        self.lock, self.claimed, self.run = threading.Lock(), set[int](), set[str]()

    def is_first(self, command: str) -> bool:
        """Returns whether a command is still to be run."""
        with self.lock:
            is_first = command not in ONCE or command not in self.run
            self.run.add(command)
            return is_first

    def claim(self, printed: int) -> int:
        """Returns the printed port where it is free, else another one."""
        with self.lock:
            port = printed
            while port in self.claimed or not is_free(port):
                with socket.socket() as probe:
                    probe.bind(("127.0.0.1", 0))
                    port = int(probe.getsockname()[1])
            self.claimed.add(port)
            return port

    def give_back(self, ports: set[int]) -> None:
        """Lets other pages have these ports."""
        with self.lock:
            self.claimed -= ports


def is_free(port: int) -> bool:
    """Returns whether nothing listens at a port of this machine."""
    with socket.socket() as probe:
        probe.setsockopt(socket.SOL_SOCKET, socket.SO_REUSEADDR, 1)
        try:
            probe.bind(("127.0.0.1", port))
        except OSError:
            return False
        return True


def listening() -> set[int]:
    """Returns the ports at which something listens here, by the system's table, so that nobody is disturbed."""
    found = set()
    for table in ("/proc/net/tcp", "/proc/net/tcp6"):
        if os.path.exists(table):
            rows = [line.split() for line in Path(table).read_text(encoding="ascii").splitlines()[1:]]
            found |= {int(row[1].rpartition(":")[2], 16) for row in rows if row[3] == "0A"}
    return found


class Board:
    """A board that a document's command starts."""

    def __init__(self, command: str, folder: Path) -> None:
        self.command = command
        self.ports = {int(port) for port in PORT.findall(command)}
        with open(folder / "board.said", "wb") as said:
            # (it serves the commands that follow)
            self.process = subprocess.Popen(  # pylint: disable=consider-using-with
                ["bash", "-c", command],
                cwd=folder,
                env={**os.environ, **environment_of(folder)},
                stdin=subprocess.DEVNULL,
                stdout=said,
                stderr=said,
                start_new_session=True,
            )
        self.said = folder / "board.said"

    def fault_of_start(self) -> str | None:
        """Waits until the board listens at all of its ports, and returns why it does not."""
        last = time.monotonic() + 20
        while not self.ports <= listening():
            if self.process.poll() is not None:
                return f"ended with {self.process.returncode}: {self.last_words()}"
            if time.monotonic() > last:
                return f"does not listen at {sorted(self.ports - listening())} after 20 s"
            time.sleep(0.02)
        web = re.search(r"--web (?:127\.0\.0\.1:)?(\d+)", self.command)
        return page_fault(int(web[1])) if web else None

    def last_words(self) -> str:
        """Returns the last line that the board said."""
        return self.said.read_text(errors="replace").strip().split("\n")[-1][:160]

    def fault_of_end(self) -> str | None:
        """Ends the board where it still runs, and returns how it ended otherwise than in good order."""
        control = re.search(r"--control (?:127\.0\.0\.1:)?(\d+)", self.command)
        if self.process.poll() is None and control:
            try:
                with socket.create_connection(("127.0.0.1", int(control[1])), timeout=5) as asked:
                    asked.sendall(b"close\n")
                    asked.recv(64)
            except OSError:
                pass
        elif self.process.poll() is None:
            self.signal(signal.SIGTERM)
        try:
            status = self.process.wait(timeout=20)
        except subprocess.TimeoutExpired:
            self.signal(signal.SIGKILL)
            self.process.wait()
            return "did not end within 20 s"
        self.signal(signal.SIGKILL)
        wanted = (0,) if control else (0, -signal.SIGTERM, 128 + signal.SIGTERM)
        return None if status in wanted else f"ended with {status}: {self.last_words()}"

    def signal(self, number: int) -> None:
        """Sends a signal to the board and to what it started."""
        try:
            os.killpg(self.process.pid, number)
        except ProcessLookupError:
            pass


def page_fault(port: int) -> str | None:
    """Returns why a browser gets no page at a port."""
    try:
        asked = http.client.HTTPConnection("127.0.0.1", port, timeout=10)
        asked.request("GET", "/")
        status = asked.getresponse().status
    except (OSError, http.client.HTTPException) as error:
        return f"has no page at port {port}: {error}"
    return None if status == 200 else f"answers a browser by {status}"


def stand_in(command: str, folder: Path) -> None:
    """Makes the files of the reader's own that a command reads, where they are not there yet."""
    for name, source in STANDS_FOR.items():
        is_read = re.search(rf"(?<!--keep )(?<!--save )(?<!> )(?<![\w./-]){re.escape(name)}(?![\w./-])", command)
        if is_read and not (folder / name).exists():
            data = (TOP / source).read_bytes()
            (folder / name).write_bytes(bytes.fromhex(data.decode()) if source.endswith(".hex") else data)
    (folder / OBJECTS[0]).write_bytes(OBJECTS[1])


def hide_kit(folder: Path) -> None:
    """Puts an `rt` that does nothing before the kit's, so that no script of a page begins to build or prove."""
    stub = folder / "target" / "bin" / "rt"
    stub.parent.mkdir(parents=True)
    stub.write_text("#!/bin/sh\necho 'rt is not run by the check of commands' >&2\nexit 2\n", encoding="ascii")
    stub.chmod(0o755)


def environment_of(folder: Path) -> dict[str, str]:
    """Returns what the commands of a page find in their environment beside that of this check."""
    return {"PATH": f"{folder / 'target' / 'bin'}:{os.environ.get('PATH', os.defpath)}"}


class Page:
    """The run of one page's commands in a copy of this checkout."""

    def __init__(self, page: Path, folder: Path, shared: Shared, program: Path | None) -> None:
        self.name, self.folder, self.shared = str(page.relative_to(TOP)), folder, shared
        self.program, self.counts, self.mapped = program, Counts(), dict[str, str]()
        self.board: Board | None = None
        self.unmade: set[str] = set()

    def fault(self, command: str, why: str) -> None:
        """Notes that a command did not end as it should."""
        self.counts.faults.append(f"{self.name}: `{command}` {why}")

    def placed(self, command: str) -> str:
        """Returns a command with ports that are free, or that this page already has."""
        for port in PORT.findall(command):
            if port not in self.mapped:
                self.mapped[port] = str(self.shared.claim(int(port)))
        return PORT.sub(lambda port: self.mapped[port[0]], command)

    def end_board(self) -> None:
        """Ends the board that serves, if there is one."""
        board, self.board = self.board, None
        why = board.fault_of_end() if board else None
        if board and why:
            self.fault(board.command, why)

    def lacks(self, command: str) -> bool:
        """Returns whether the program, a tool, or a file that they would have made is not here for a command."""
        tools = {*NEEDS_TOOL.findall(command), *(["clang"] if NEEDS_CLANG.search(command) else [])}
        is_lacking = any(shutil.which(tool) is None for tool in tools)
        if self.program is None:
            is_lacking |= bool(RUNS_PROGRAM.search(command) or NEEDS_BOARD.search(command))
        made = {name for names in MAKES.findall(command) for name in names if name}
        read = set(re.findall(r"[\w./-]+", command)) - made
        if is_lacking or read & self.unmade:
            self.unmade |= made
            return True
        self.unmade -= made
        return False

    def prepare(self) -> None:
        """Copies this checkout, where that is not done yet, with the program and without the kit."""
        if not self.folder.exists():
            copy_to(self.folder)
            hide_kit(self.folder)
            if self.program:
                place_program(self.program, self.folder)

    def is_served(self) -> bool:
        """Returns whether a board serves."""
        return self.board is not None and self.board.process.poll() is None

    def run(self, command: str) -> None:
        """Runs a command, or counts it as one that is not run."""
        reason = begins(command, NOT_RUN)
        if reason:
            self.counts.left += 1
            self.counts.used.add(reason)
        elif FORM.search(command.partition(" # ")[0]):
            self.fault(command, "is a form and no command: write one that runs")
        elif self.lacks(command):
            self.counts.skipped += 1
        elif self.shared.is_first(command):
            self.counts.ran += 1
            self.prepare()
            kept = re.search(r"\./acdm run .*--keep (\S+)", command)
            if RUNS_BOARD.search(command) or kept and self.board and kept[1] in self.board.command:
                self.end_board()
            elif NEEDS_BOARD.search(command) and not self.is_served() and self.name in SUPPOSED:
                self.end_board()
                self.run_here(self.placed(SUPPOSED[self.name]), SUPPOSED[self.name])
            stand_in(command, self.folder)
            self.run_here(self.placed(command), command)

    def run_here(self, placed: str, command: str) -> None:
        """Starts a board, or runs a command to its end."""
        if RUNS_BOARD.search(command):
            board = Board(placed, self.folder)
            why = board.fault_of_start()
            if why:
                self.fault(command, why)
                board.fault_of_end()
            self.board = None if why else board
            return
        key = begins(command, STATUS)
        if key:
            self.counts.used.add(key)
        status, said = run_line(placed, self.folder, SECONDS, **environment_of(self.folder))
        if status is None:
            self.fault(command, f"did not end within {SECONDS} s")
        elif status != (STATUS[key] if key else 0):
            self.fault(command, f"ended with {status}: {said.rpartition(chr(10))[2][:160]}")
        elif CLOSES_BOARD.search(command):
            # (a board that was told to close runs on for a while, and hears no more)
            self.end_board()


def run_page(page: Path, shared: Shared, program: Path | None) -> Counts:
    """Runs the commands of a page, and returns what came of them."""
    shown = commands_of(page)
    with tempfile.TemporaryDirectory(prefix="acdm-commands-") as room:
        folder = Path(room) / "checkout"
        run = Page(page, folder, shared, program)
        try:
            for command in shown:
                run.run(command)
        finally:
            run.end_board()
            shared.give_back({int(port) for port in run.mapped.values()})
    return run.counts


def embedding_faults() -> list[str]:
    """Returns the examples of docs/EMBEDDING.md that are no longer the tests that they are, in order."""
    shown = re.findall(r"```rust\n(.*?)```", (TOP / "docs/EMBEDDING.md").read_text(encoding="utf-8"), re.S)
    tests = ("bpf_tests/src/machine/embedding.rt", "journal_tests/src/embedding.rt")
    faults = [] if len(shown) == len(tests) else ["docs/EMBEDDING.md: not one example for each test of it"]
    for example, test in zip(shown, tests):
        if example.strip() not in (TOP / "crates" / test).read_text(encoding="utf-8"):
            faults.append(f"docs/EMBEDDING.md: an example is not the test of {test}")
    return faults


def asked_words() -> argparse.Namespace:
    """Reads the words of the command line."""
    words = argparse.ArgumentParser(description="Runs the command lines of the documents.")
    words.add_argument(
        "--program", type=Path, metavar="FILE", help="a build of the program to run, where none is proved"
    )
    words.add_argument("--jobs", type=int, default=2, metavar="N", help="how many pages are run at a time")
    words.add_argument("pages", nargs="*", metavar="PAGE")
    return words.parse_args()


def main() -> int:
    """Runs the commands, and returns the status."""
    asked = asked_words()
    program, which = built_program()
    if program is None and asked.program:
        if not asked.program.is_file():
            stop(f"{asked.program}: no such program")
        program, which = asked.program.resolve(), "the program of --program"
    listed, shared = asked_pages(asked.pages), Shared()
    # (the longest page first, so that no other one waits for it at the end)
    order = sorted(listed, key=lambda page: len(commands_of(page)), reverse=True)
    with ThreadPoolExecutor(asked.jobs) as pool:
        counts = list(pool.map(lambda page: run_page(page, shared, program), order))
    faults = [fault for count in counts for fault in count.faults] + embedding_faults()
    if listed == pages():
        used = set().union(*(count.used for count in counts))
        met = {*NOT_RUN, *STATUS} if program else {*NOT_RUN}
        faults += [f"no document has a command that begins with `{row}` any more" for row in sorted(met - used)]
    print("\n".join(faults), end="\n" if faults else "")
    ran, left, skipped = (sum(getattr(count, name) for count in counts) for name in ("ran", "left", "skipped"))
    print(f"{ran} commands run with {which}, {left} not run with a reason, {len(faults)} faults", end="")
    print(f"; {skipped} left out for want of the program or of a tool (clang, LLVM, xxd)" if skipped else "")
    return 1 if faults else 0


if __name__ == "__main__":
    sys.exit(main())
