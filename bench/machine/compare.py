#!/usr/bin/env python3
"""Compares the machine without tests with the one that tests each step, on accepted programs by chance.

    python3 bench/machine/compare.py [--programs N] [--seed S]

A small repository in a temporary folder gets copies of the crates below it, as they were checked last (`rt all check`), and the
program of main.rt.txt and helpers.rt.txt, which `rt try` runs without a proof. The same words give the same programs. It prints
how many came to the same, to something else, or were refused.
"""

import argparse
import random
import shutil
import subprocess
import sys
import tempfile
from pathlib import Path

HERE = Path(__file__).resolve().parent
ROOT = HERE.parent.parent
sys.path.insert(0, str(ROOT / "bench" / "model"))

from programs import Fault, accepted  # noqa: E402
from random_programs import Programs  # noqa: E402

BELOW = "acdm_record acdm_milestones bpf_decode bpf_helpers bpf_semantics bpf_regstate bpf_verifier bpf_run bpf_machine".split()


def prepared(folder, is_checked=True):
    """The folder of the program, in a repository of its own; what was checked of the crates below it comes along where that is asked for."""
    crate = folder / "crates" / "machine_bench"
    (crate / "src").mkdir(parents=True)
    for name in ("main.rt", "helpers.rt"):
        shutil.copy(HERE / f"{name}.txt", crate / "src" / name)
    left_out = None if is_checked else shutil.ignore_patterns("out")
    for name in BELOW:
        shutil.copytree(ROOT / "crates" / name, folder / "crates" / name, symlinks=True, ignore=left_out)
    lines = [line for line in (ROOT / "crates.txt").read_text().splitlines() if line.split(":")[0] in BELOW]
    lines.append(f"machine_bench: {' '.join(reversed(BELOW))} anyhow hex thiserror byteorder")
    (folder / "crates.txt").write_text("\n".join(lines) + "\n")
    subprocess.run(["git", "init", "-q"], cwd=folder, check=True)
    return crate


def programs(count, seed):
    """So many accepted programs, as hexadecimal digits."""
    draws = Programs(random.Random(seed))
    texts = []
    while len(texts) < count:
        code = draws.program()
        try:
            accepted(code)
        except Fault:
            continue
        texts.append(code.hex())
    return texts


def main():
    words = argparse.ArgumentParser(description="Compares both machines.")
    words.add_argument("--programs", type=int, default=10_000, metavar="N")
    words.add_argument("--seed", type=int, default=7, metavar="S")
    given = words.parse_args()
    lines = "".join(f"{text}\n" for text in programs(given.programs, given.seed))
    with tempfile.TemporaryDirectory() as name:
        crate = prepared(Path(name))
        came = subprocess.run(["rt", "try", "--seconds", "1800"], cwd=crate, input=lines, capture_output=True, text=True)
    answers = came.stdout.split("\n")
    same, differing, refused = (answers.count(word) for word in ("same", "differs", "refused"))
    print(f"{given.programs} programs: {same} the same, {differing} differ, {refused} refused")
    if same + differing + refused < given.programs:
        print(came.stderr, file=sys.stderr)
    return 0 if same == given.programs else 1


if __name__ == "__main__":
    sys.exit(main())
