"""What the tests of the bridges share: paths, a bridge that runs, its lines on standard error, a feed, certificates."""

import hashlib
import os
import shutil
import subprocess
import sys
import tempfile
import threading
import time
import unittest
from collections.abc import Callable
from pathlib import Path

TESTS = Path(__file__).resolve().parent
BRIDGES = TESTS.parent
SYSTEM = Path("/usr/bin/python3")
PYTHON = str(SYSTEM) if SYSTEM.exists() else sys.executable
LIBRARIES = {"amqp": "proton", "kafka": "confluent_kafka", "mqtt": "paho.mqtt.client", "postgresql": "psycopg2"}
PASSWORD = "a pass-word"
# (on this machine it is half past five where it is midnight in UTC: a local time is no time of the board)
os.environ["TZ"] = "Asia/Kolkata"
time.tzset()

sys.path.insert(0, str(BRIDGES))


def has_library(bridge: str) -> bool:
    """Whether the bridge's library is on this machine."""
    return (
        subprocess.run([PYTHON, "-c", f"import {LIBRARIES[bridge]}"], capture_output=True, check=False).returncode == 0
    )


def room_of(test: unittest.TestCase) -> Path:
    """A directory that is removed at the end of a test."""
    name = tempfile.mkdtemp(prefix="acdm-bridge-")
    test.addCleanup(shutil.rmtree, name, ignore_errors=True)
    return Path(name)


def until(condition: Callable[[], bool], seconds: float = 20) -> bool:
    """Waits until something is so, and says whether it is."""
    last = time.monotonic() + seconds
    while not condition():
        if time.monotonic() > last:
            return False
        time.sleep(0.05)
    return True


class Bridge:
    """A bridge that runs, and the lines that it has said on standard error."""

    def __init__(self, name: str, *words: object, environment: dict[str, str] | None = None) -> None:
        self.command = [PYTHON, str(BRIDGES / f"to_{name}.py"), *map(str, words)]
        self.environment = {**os.environ, **(environment or {})}
        self.said: list[str] = []
        self.begin()

    def begin(self) -> None:
        """Starts it."""
        # pylint: disable-next=consider-using-with
        self.process = subprocess.Popen(self.command, stderr=subprocess.PIPE, text=True, env=self.environment)
        threading.Thread(target=self.listen, args=(self.process,), daemon=True).start()

    def listen(self, process: subprocess.Popen[str]) -> None:
        """Collects its lines."""
        if process.stderr:
            with process.stderr as lines:
                self.said.extend(lines)

    def kill(self) -> None:
        """Kills it."""
        self.process.kill()
        self.process.wait()

    def has_said(self, text: str) -> bool:
        """Whether a line of it has this text."""
        return any(text in line for line in self.said)


def read_by(kind: str, *words: object, seconds: float = 60) -> list[str]:
    """The lines that `readers.py` prints."""
    command = [PYTHON, str(TESTS / "readers.py"), kind, *map(str, words)]
    return subprocess.run(command, capture_output=True, text=True, timeout=seconds, check=True).stdout.splitlines()


def make_certificates(room: Path) -> None:
    """Makes an authority, `ca.pem`, and `server.pem` with `server.key`, a certificate for 127.0.0.1 that it signs."""
    names = room / "names"
    names.write_text("subjectAltName=IP:127.0.0.1\n", encoding="ascii")
    key = ["-newkey", "ec", "-pkeyopt", "ec_paramgen_curve:prime256v1", "-nodes"]
    authority = ["-x509", "-days", "2", "-subj", "/CN=authority", "-keyout", "ca.key", "-out", "ca.pem"]
    request = ["-subj", "/CN=127.0.0.1", "-keyout", "server.key", "-out", "server.csr"]
    signing = ["-req", "-days", "2", "-in", "server.csr", "-CA", "ca.pem", "-CAkey", "ca.key", "-CAcreateserial"]
    for words in (
        ["req", *key, *authority],
        ["req", *key, *request],
        ["x509", *signing, "-extfile", "names", "-out", "server.pem"],
    ):
        subprocess.run(["openssl", *words], cwd=room, capture_output=True, check=True)


def small_feed(count: int, session: int = 1) -> list[str]:
    """The lines of a feed of so many entries, which change no flight; of another session it is another journal."""
    minute, result = '"minute":"2025-02-20T09:00:00Z"', '"outcome":"ok","answers":[],"changed":[]'
    rest = f'{minute},"session":{session},"role":"APT","command":{{"cmd":"tick"}},{result}'
    return [f'{{"entry":{number},{rest}}}\n' for number in range(count)]


def name_of(lines: list[str]) -> str:
    """The name of the journal of a feed, for tests: any that its first line decides."""
    return hashlib.sha256(lines[0].encode()).hexdigest()[:32] if lines else ""
