#!/usr/bin/env python3
"""Runs a command over a file of lines, and prints how fast it read them and how much memory it took at most, in a run of its own.

    python3 bench/traffic/measure.py LINES REPLIES COMMAND...
"""

import os
import subprocess
import sys
import time
from pathlib import Path

sys.path.insert(0, str(Path(__file__).resolve().parents[1]))
from peak import peak_over  # noqa: E402


def main():
    lines, replies, *command = sys.argv[1:]
    text = Path(lines).read_bytes()
    with open(lines, "rb") as source, open(replies, "wb") as sink:
        begin = time.perf_counter()
        child = subprocess.Popen(command, stdin=source, stdout=sink)
        _, status, used = os.wait4(child.pid, 0)
        seconds = time.perf_counter() - begin
    child.returncode = os.waitstatus_to_exitcode(status)
    count = text.count(b"\n")
    print(f"{count:,} lines, {len(text):,} bytes in {seconds:.2f} s")
    print(f"{count / seconds:,.0f} lines a second, {len(text) / seconds:,.0f} bytes a second")
    memory = peak_over(command, text.splitlines(keepends=True))
    print(f"{memory / 2**20:,.1f} MiB of memory at most, {used.ru_utime + used.ru_stime:.2f} s of processor time")
    return child.returncode


if __name__ == "__main__":
    sys.exit(main())
