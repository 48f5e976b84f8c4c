"""The trial that the page tells of: it makes all, and what it says can be done."""
import os
import re
import shlex
import signal
import subprocess
import sys
from pathlib import Path

import pytest
from harness import PROGRAM, TOP, listens, until

PORTS = (8443, 8444, 8445, 9180)


@pytest.mark.skipif(not PROGRAM.is_file(), reason=f"there is no program at {PROGRAM}")
@pytest.mark.skipif(any(listens(port) for port in PORTS), reason="another trial listens on this machine")
def test_the_trial_opens_everything_and_ends(folder: Path) -> None:
    environment = {**os.environ, "ACDM": str(PROGRAM)}
    command = [sys.executable, str(TOP / "desk" / "desk"), "--demo"]
    # (what a shell begins in the background is not told of an interrupt, nor is what that begins)
    signal.signal(signal.SIGINT, signal.default_int_handler)
    with subprocess.Popen(command, cwd=folder, env=environment, stdout=subprocess.PIPE, text=True) as process:
        try:
            assert until(lambda: all(listens(port) for port in PORTS))
            assert process.stdout
            text = ""
            while "Ctrl-C ends the trial" not in text:
                text += process.stdout.readline()
            calls = [shlex.split(line) for line in text.splitlines() if line.startswith("  curl ")]
            assert len(calls) == 2
            assert until(lambda: '"SWR' in answered(calls[0]) and "DLH" not in answered(calls[0]))
            assert '"is_live": true' in answered(calls[1])
            (lines,) = [shlex.split(line) for line in text.splitlines() if line.startswith("  openssl ")]
            said = asked(lines)
            assert said.startswith("rec "), said
            assert re.search(r"the password of each is \S{12}\n", text)
            assert (folder / "desk-demo").stat().st_mode & 0o077 == 0
        finally:
            process.send_signal(signal.SIGINT)
            try:
                assert process.wait(20) == 0
            finally:
                process.kill()
    assert until(lambda: not any(listens(port) for port in PORTS))
    log = (folder / "desk-demo" / "board.log").read_text(encoding="ascii")
    assert "closed " in log, "the board has closed in good order"


def answered(call: list[str]) -> str:
    """What a call of the trial prints."""
    return subprocess.run([*call, "-s"], capture_output=True, text=True, timeout=10, check=False).stdout


def asked(lines: list[str]) -> str:
    """The reply to a line, by openssl's client."""
    with subprocess.Popen(
        lines, stdin=subprocess.PIPE, stdout=subprocess.PIPE, stderr=subprocess.DEVNULL, text=True
    ) as client:
        assert client.stdin and client.stdout
        client.stdin.write('{"cmd":"show","flight":3}\n')
        client.stdin.flush()
        said = client.stdout.readline()
        client.kill()
    return said
