"""What the tests of the clients share: a board that serves, the clients as programs, and the shipped files."""
import itertools
import json
import os
import socket
import subprocess
import sys
import time
import unittest
from collections.abc import Callable, Sequence
from pathlib import Path
from typing import Any, TypeVar

TOP = Path(__file__).resolve().parents[2]
CLIENTS = TOP / "clients"
PROGRAM = Path(os.environ.get("ACDM", TOP / "crates" / "acdm" / "out" / "acdm"))
LIMIT = 60
# (on this machine it is half past five where it is midnight in UTC: a local time is no time of the board)
os.environ["TZ"] = "Asia/Kolkata"
time.tzset()
Test = TypeVar("Test", bound=Callable[..., Any])

sys.path.insert(0, str(CLIENTS))
if not PROGRAM.exists():
    print(f"there is no program at {PROGRAM}, name it by ACDM: tests that need one are skipped", file=sys.stderr)


def needs_program(test: Test) -> Test:
    """A test that is left out where there is no program."""
    return unittest.skipUnless(PROGRAM.exists(), f"there is no program at {PROGRAM}")(test)


def free_port() -> int:
    with socket.create_server(("127.0.0.1", 0)) as listener:
        return int(listener.getsockname()[1])


def ran(name: str, *words: object, given: str | bytes = b"", limit: float = LIMIT) -> subprocess.CompletedProcess[str]:
    """A client that has ended, with what it printed."""
    command = ["node"] if name.endswith(".mjs") else [sys.executable]
    data = given.encode() if isinstance(given, str) else given
    environment = {**os.environ, "ACDM": str(PROGRAM), "COLUMNS": "120"}
    done = subprocess.run(
        [*command, str(CLIENTS / name), *map(str, words)],
        input=data,
        capture_output=True,
        timeout=limit,
        check=False,
        env=environment,
    )
    return subprocess.CompletedProcess(done.args, done.returncode, done.stdout.decode(), done.stderr.decode())


class Caller:
    """A connection of a partner, whose lines are waited for one by one."""

    def __init__(self, port: int) -> None:
        self.stream = socket.create_connection(("127.0.0.1", port), timeout=LIMIT)
        self.replies = self.stream.makefile("rb")

    def ask(self, command: dict[str, Any]) -> str:
        return self.ask_all([command])[0]

    def ask_all(self, commands: Sequence[dict[str, Any]]) -> list[str]:
        self.stream.sendall("".join(json.dumps(command) + "\n" for command in commands).encode())
        return [self.replies.readline().decode().rstrip("\n") for _ in commands]

    def close(self) -> None:
        self.replies.close()
        self.stream.close()


class Serving:
    """A board that serves partners of these roles, its feed and its control address."""

    def __init__(self, roles: Sequence[str], *words: str) -> None:
        self.changes, self.control = free_port(), free_port()
        command = [str(PROGRAM), "serve", "--again", "--journal", "5000", *words]
        command += ["--changes", f"127.0.0.1:{self.changes}", "--control", str(self.control)]
        self.process = subprocess.Popen(  # pylint: disable=consider-using-with
            [*command, *[f"{role}=127.0.0.1:0" for role in roles]], stdout=subprocess.PIPE, stderr=subprocess.DEVNULL
        )
        assert self.process.stdout is not None
        lines = [self.process.stdout.readline().decode() for _ in roles]
        self.ports = [int(line.rsplit(":", 1)[1]) for line in lines]

    def __enter__(self) -> "Serving":
        return self

    def __exit__(self, *_: object) -> None:
        if self.process.poll() is None:
            with socket.create_connection(("127.0.0.1", self.control), timeout=LIMIT) as stream:
                stream.sendall(b"close\n")
                while stream.recv(100):
                    pass
        self.process.wait(LIMIT)
        if self.process.stdout is not None:
            self.process.stdout.close()

    def entries(self) -> list[dict[str, Any]]:
        """All entries that there are, as the feed tells them."""
        with socket.create_connection(("127.0.0.1", self.changes), timeout=LIMIT) as stream:
            stream.sendall(b"board\n")
            count = json.loads(stream.makefile("rb").readline())["next"]
        with socket.create_connection(("127.0.0.1", self.changes), timeout=LIMIT) as stream:
            stream.sendall(b"from 0\n")
            found = (json.loads(line) for line in stream.makefile("rb"))
            return list(itertools.islice((line for line in found if "entry" in line), count))
