"""The program `acdm` that clients run: the one that the variable ACDM names, or the script at the top."""
import os
import subprocess
from pathlib import Path

TOP = Path(__file__).resolve().parents[1]


class NoAnswer(Exception):
    """Why the program told nothing: what it says itself."""


def lines_of(*words: object, most: int = 1) -> list[str]:
    """What the program prints on these words, as lines; its status is at most this one."""
    program = os.environ.get("ACDM") or str(TOP / "acdm")
    try:
        ran = subprocess.run(
            [program, *map(str, words)], capture_output=True, encoding="ascii", errors="replace", check=False
        )
    except OSError as error:
        raise NoAnswer(f"{program}: {error.strerror}") from None
    if not 0 <= ran.returncode <= most:
        said = ran.stderr.strip().splitlines()
        raise NoAnswer("; ".join(said) if said else f"{program} ended with status {ran.returncode}")
    return ran.stdout.splitlines()
