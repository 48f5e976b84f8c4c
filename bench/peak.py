"""The most memory that a program took, in bytes.

It is asked for while the program lives. What the system tells of a child that has ended is no less than what its parent held when it
started the child, which for a small program is the memory of Python.
"""

import subprocess
import threading
from pathlib import Path


def peak(pid):
    """The most memory that a living process has had in use."""
    lines = Path(f"/proc/{pid}/status").read_text().splitlines()
    return next(int(line.split()[1]) * 1024 for line in lines if line.startswith("VmHWM:"))


def peak_over(command, lines):
    """The most memory that a command had in use when it had replied to each of these lines."""
    child = subprocess.Popen(command, stdin=subprocess.PIPE, stdout=subprocess.PIPE)

    def send():
        child.stdin.writelines(lines)
        child.stdin.flush()

    sender = threading.Thread(target=send)
    sender.start()
    for _ in lines:
        child.stdout.readline()
    sender.join()
    found = peak(child.pid)
    child.stdin.close()
    child.wait()
    return found
