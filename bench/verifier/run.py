#!/usr/bin/env python3
"""Times `verify` against the same pass in C, says what memory it takes, and compares verdicts.

    python3 bench/verifier/run.py [--runs N] [--programs N] [--count] [--built FILE]

`verifier.c` is built with the system's compiler at -O2, and speed.rt.txt is proved and built by
`rt run` in a small repository beside copies of the crates below it (`rt all check` first). Both
judge programs by chance as the model in Python does, and verify the same programs of 4,096 slots,
one after the other in turn. Of ours the time in which a program is copied is taken off, since
`verify` takes its program by value. Memory is what the pass holds at most beside the programs, as
peak.c counts it. With --count callgrind counts the instructions for each slot, which no other work
on the machine changes.
"""

import argparse
import os
import random
import shutil
import subprocess
import sys
import tempfile
import time
from pathlib import Path

HERE = Path(__file__).resolve().parent
ROOT = HERE.parent.parent
sys.path.insert(0, str(ROOT / "bench" / "model"))

from programs import Fault, accepted  # noqa: E402
from random_programs import Programs  # noqa: E402

from speed_programs import PROGRAMS  # noqa: E402

BELOW = ("bpf_decode", "bpf_helpers", "bpf_semantics", "bpf_regstate", "bpf_verifier")


def built(folder):
    """The program of speed.rt.txt, built in a repository of its own."""
    crate = folder / "crates" / "verifier_bench"
    (crate / "src").mkdir(parents=True)
    shutil.copy(HERE / "speed.rt.txt", crate / "src" / "main.rt")
    for name in BELOW:
        shutil.copytree(ROOT / "crates" / name, folder / "crates" / name, symlinks=True)
    listed = (ROOT / "crates.txt").read_text().splitlines()
    lines = [line for line in listed if line.split(":")[0] in BELOW]
    lines.append(f"verifier_bench: {' '.join(reversed(BELOW))} anyhow hex thiserror")
    (folder / "crates.txt").write_text("\n".join(lines) + "\n")
    subprocess.run(["git", "init", "-q"], cwd=folder, check=True)
    nothing = subprocess.DEVNULL
    subprocess.run(["rt", "run"], cwd=crate, stdin=nothing, stdout=nothing, check=True)
    return crate / "out" / "verifier_bench"


def spent(program, word, times, digits):
    """The seconds of one process, and what it printed."""
    text = f"{word} {times}\n{digits}\n"
    begin = time.perf_counter()
    came = subprocess.run([program], input=text, capture_output=True, text=True, check=True)
    return time.perf_counter() - begin, came.stdout.strip()


def microseconds(program, idle, times, digits, runs):
    """The least time of one pass, and the verdict."""
    least, verdict = float("inf"), ""
    for _ in range(runs):
        before, _ = spent(program, *idle, digits)
        after, verdict = spent(program, "verify", times, digits)
        least = min(least, (after - before) / times * 1e6)
    return least, verdict


def kilobytes(program, shim, digits):
    """What the pass holds at most beside the program and its copy."""
    peaks = []
    for word in ("copy", "verify"):
        text, preloaded = f"{word} 1\n{digits}\n", os.environ | {"LD_PRELOAD": shim}
        came = subprocess.run([program], input=text, capture_output=True, text=True, env=preloaded)
        peaks.append(int(came.stderr.split()[-1]))
    return (peaks[1] - peaks[0]) / 1000


def instructions(program, word, folder, digits):
    """The instructions of one pass for each slot: what twenty passes take more than ten."""
    told = []
    tool = ["valgrind", "--tool=callgrind", f"--callgrind-out-file={folder}/calls"]
    for times in (10, 20):
        text = f"{word} {times}\n{digits}\n"
        came = subprocess.run([*tool, program], input=text, capture_output=True, text=True, check=True)
        told.append(int(came.stderr.split("Collected : ")[1].split()[0]))
    return (told[1] - told[0]) / 10 / (len(digits) // 16)


def compared(peers, count):
    """Tells of so many programs by chance how many have another verdict than the model's."""
    draws, codes, owed = Programs(random.Random(16)), [], []
    while len(codes) < count:
        code = draws.program()
        try:
            verdict = f"accepted {len(accepted(code))}"
        except Fault as fault:
            if not 306 <= fault.code <= 314:
                continue  # The peer in C does not decode.
            verdict = f"refused {fault.code} {fault.slot}"
        codes.append(code.hex())
        owed.append(verdict)
    given = "verify 1\n" + "".join(f"{code}\n" for code in codes)
    for name, program in peers.items():
        came = subprocess.run([program], input=given, capture_output=True, text=True, check=True)
        told = came.stdout.splitlines()
        other = sum(a != b for a, b in zip(owed, told)) + abs(len(owed) - len(told))
        print(f"{name}: {count} programs by chance, {other} with another verdict than the model's")
        if other:
            sys.exit(1)


def main():
    words = argparse.ArgumentParser(description="Times two verifiers.")
    words.add_argument("--runs", type=int, default=5, metavar="N")
    words.add_argument("--programs", type=int, default=20_000, metavar="N", help="by chance")
    words.add_argument("--count", action="store_true", help="instructions, by callgrind")
    words.add_argument("--built", metavar="FILE", help="speed.rt.txt's program, where it is built")
    given = words.parse_args()
    with tempfile.TemporaryDirectory() as name:
        folder = Path(name)
        ours = Path(given.built) if given.built else built(folder)
        peer, shim = folder / "verifier", folder / "peak.so"
        subprocess.run(["cc", "-O2", "-o", peer, HERE / "verifier.c"], check=True)
        subprocess.run(["cc", "-O2", "-shared", "-fPIC", "-o", shim, HERE / "peak.c"], check=True)
        if given.programs:
            compared({"verify": ours, "C": peer}, given.programs)
        for title, code, times in PROGRAMS:
            digits = code.hex()
            theirs, owed = microseconds(peer, ("verify", 0), times, digits, given.runs)
            spent_here, verdict = microseconds(ours, ("copy", times), times, digits, given.runs)
            if verdict != owed:
                sys.exit(f"{title}: {verdict} here, {owed} in C")
            held = kilobytes(ours, str(shim), digits)
            ratio = spent_here / theirs
            times_told = f"C {theirs:,.0f} us, verify {spent_here:,.0f} us, {ratio:.2f} times C"
            print(f"{title}: {verdict}; {times_told}; {held:,.0f} KB")
            if given.count:
                mine = instructions(ours, "verify", folder, digits) - instructions(ours, "copy", folder, digits)
                print(f"  instructions a slot {mine:.0f}, in C {instructions(peer, 'verify', folder, digits):.0f}")


if __name__ == "__main__":
    main()
