#!/usr/bin/env python3
"""Sends the rows of the rules to `acdm run`, and compares its replies with those that stand beside them.

    python3 bench/rows/ask.py [--program PATH]

They are the rows that crates/rule_tests has as tests; here no proof comes before. The last line is `N cases, M failed`; the status is 1
where one failed, and 77 where there is no program.
"""

import argparse
import pathlib
import subprocess
import sys
from concurrent.futures import ThreadPoolExecutor

import rows

PROVED = pathlib.Path(__file__).resolve().parents[2] / "crates" / "acdm" / "out" / "acdm"


def tried(program, row):
    """What is wrong with a row, or nothing."""
    words = [program, "run", "--journal", str(row.capacity)]
    ran = subprocess.run(words, input=rows.joined(row.lines), capture_output=True, text=True, timeout=120, check=False)
    for line, reply, found in zip(row.lines, row.replies, [*ran.stdout.splitlines(), *[""] * len(row.lines)]):
        if reply != found:
            return f"{row.name}: {line[:200]}\n  wanted {reply[:200]}\n  found  {found[:200]}"
    return ""


def main():
    words = argparse.ArgumentParser(description="Sends the rows of the rules to a program.")
    words.add_argument("--program", type=pathlib.Path, default=PROVED)
    program, failed = words.parse_args().program, 0
    if not program.is_file():
        print(f"left out: there is no {program}")
        return 77
    made = [row for _, row in rows.all_rows()]
    with ThreadPoolExecutor(2) as pool:
        for wrong in pool.map(lambda row: tried(program, row), made):
            failed += bool(wrong)
            if wrong:
                print(f"FAILED {wrong}")
    print(f"{len(made)} cases, {failed} failed")
    return 1 if failed else 0


if __name__ == "__main__":
    sys.exit(main())
