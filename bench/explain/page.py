#!/usr/bin/env python3
"""Compiles each rule of docs/EXPLAIN.md and compares what `acdm explain` prints of it with the text below it.

  bench/explain/page.py [PROGRAM]    with clang and its BPF target, llvm-objcopy, and the proved program

`acdm verify` has to end with the same line and status. Status 0 where all is alike.
"""
import pathlib
import re
import subprocess
import sys
import tempfile

TOP = pathlib.Path(__file__).resolve().parents[2]
PROGRAM = TOP / "crates" / "acdm" / "out" / "acdm"
RULES = TOP / "examples" / "rules"
SECTION = re.compile(r"^### (\d+)\n.*?```c\n(.*?)```\n\n((?:    [^\n]*\n)+)", re.MULTILINE | re.DOTALL)


def compiled(source, room):
    """The slots that clang makes of a rule, as a file."""
    (room / "rule.c").write_text(f'#include "helpers.h"\n{source}')
    clang = ["clang", "-O2", "-target", "bpf", "-mcpu=v3", "-w", f"-I{RULES}", "-c", "rule.c", "-o", "rule.o"]
    subprocess.run(clang, cwd=room, check=True)
    copy = ["llvm-objcopy", "-O", "binary", "--only-section=.text", "rule.o", "rule.bin"]
    subprocess.run(copy, cwd=room, check=True)
    return room / "rule.bin"


def printed(program, command, file):
    ran = subprocess.run([program, command, file], capture_output=True, text=True)
    return ran.returncode, ran.stdout


def compare(program, number, source, text, room):
    """Whether a section's text is what is printed, and ends as `verify` does with this number."""
    file = compiled(source, room)
    status, found = printed(program, "explain", file)
    judged, verdict = printed(program, "verify", file)
    wanted = "".join(line[4:] + "\n" for line in text.splitlines())
    alike = found == wanted and status == judged == 1
    return alike and found.endswith(verdict) and verdict.startswith(f"refused {number} ")


def main(program=PROGRAM):
    sections = SECTION.findall((TOP / "docs" / "EXPLAIN.md").read_text())
    wrong = []
    with tempfile.TemporaryDirectory() as room:
        for number, source, text in sections:
            if not compare(program, number, source, text, pathlib.Path(room)):
                wrong.append(number)
    numbers = [int(number) for number, _, _ in sections]
    print(f"{len(sections)} texts, other: {' '.join(wrong) or 'none'}")
    return 1 if wrong or numbers != list(range(306, 315)) else 0


if __name__ == "__main__":
    sys.exit(main(*sys.argv[1:]))
