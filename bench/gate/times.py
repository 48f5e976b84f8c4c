#!/usr/bin/env python3
"""Runs the gate, or a part of it, and says where its time went.

usage: bench/gate/times.py [--log FILE] [COMMAND..]      as bench/gate/times.py rt ci acdm_lines; with no command the whole gate, from nothing

The command runs at the top of the repository, and its output is passed on. Each run of the prover below it is seen in
/proc, with its crate and what it was for: the proofs of a crate (or its build), those of its tests, a check of the
crate as it stands that its edits begin or end with, or an edit of must-fail/. At the end
a table says for each crate the processor seconds of each kind, and when it began and ended, in seconds from the start;
below it stand the dearest edits. With --log each run is written to that file as it ends, so that a run of the gate that
is cut off leaves what it measured. It reads /proc, so it needs Linux.
"""
import os
import pathlib
import subprocess
import sys
import time

from kit import TOP, crates, gate, runs_anew

EVERY = 0.2
TICKS = os.sysconf("SC_CLK_TCK")
KINDS = ("proofs", "tests", "base", "edits")


class Run:
    """One run of the prover: its crate, its kind, its edit, when it was seen first and last, and its processor seconds."""

    def __init__(self, crate, kind, edit, now):
        self.crate, self.kind, self.edit = crate, kind, edit
        self.began = self.ended = now
        self.seconds = 0.0

    def __str__(self):
        return f"{self.crate} {self.kind} {self.edit or '-'} {self.seconds:.1f} {self.began:.0f} {self.ended:.0f}"


def processes():
    """Returns each process by its number: its parent, and the processor seconds of itself and its ended children."""
    found = {}
    for name in os.listdir("/proc"):
        if not name.isdigit():
            continue
        try:
            with open(f"/proc/{name}/stat", encoding="utf-8", errors="replace") as it:
                fields = it.read().rpartition(")")[2].split()
        except OSError:
            continue
        found[int(name)] = int(fields[1]), sum(map(int, fields[11:15])) / TICKS
    return found


def is_below(pid, top, found):
    while pid in found and pid != top:
        pid = found[pid][0]
    return pid == top


def words_of(pid):
    try:
        with open(f"/proc/{pid}/cmdline", "rb") as it:
            return it.read().decode(errors="replace").split("\0")
    except OSError:
        return []


def edited_texts():
    """Returns for each crate its edits by name, each with the texts of the files that it changes."""
    rt = gate()
    found = {}
    for crate in crates(rt).values():
        read = {pathlib.Path(it).stem: rt.read_edit(it, crate.folder)[0] for it in rt.edits_of(crate)[0]}
        found[crate.name] = {name: texts for name, texts in read.items() if texts}
    return found


def edit_in(folder, edits):
    """Returns the name of the edit that was made in this copy of its crate, or None where it is the crate as it stands."""
    for name, texts in edits.items():
        try:
            if all(pathlib.Path(folder, file).read_text(encoding="utf-8") == text for file, text in texts.items()):
                return name
        except OSError:
            continue
    return None


def run_of(pid, edits, now):
    """Returns the run that the process is, if it is one of the prover's own on a crate."""
    words = words_of(pid)
    if len(words) < 4 or os.path.basename(words[0]) != "rattle" or words[1] not in ("check", "build"):
        return None
    try:
        folder = os.readlink(f"/proc/{pid}/cwd")
    except OSError:
        return None
    crate = words[words.index("--crate-name") + 1] if "--crate-name" in words else ""
    if not os.path.basename(folder).startswith("rt-edit-"):
        return Run(crate, "tests" if "--test" in words else "proofs", None, now)
    edit = edit_in(folder, edits.get(crate, {}))
    return Run(crate, "edits" if edit else "base", edit, now)


def sample(top, edits, seen, runs, now):
    """Adds what the processes below top have used to the runs that they belong to."""
    found, sums = processes(), {}
    for pid, (parent, seconds) in found.items():
        if not is_below(pid, top, found):
            continue
        if pid not in seen:
            # (a copy that the prover forks of itself has its words, and is part of its run)
            own = seen.get(parent) or run_of(pid, edits, now)
            if own is None:
                continue
            seen[pid] = own
            if own not in runs:
                runs.append(own)
        run = seen[pid]
        sums[id(run)] = sums.get(id(run), 0.0) + seconds
        run.ended = now
    for run in runs:
        run.seconds = max(run.seconds, sums.get(id(run), 0.0))
    for pid in [it for it in seen if it not in found]:
        del seen[pid]


def watched(command, log):
    """Runs the command and returns its status, how long it took, and the runs of the prover below it."""
    start, seen, runs, told = time.monotonic(), {}, [], set()
    edits = edited_texts()

    def tell(is_over):
        for it in runs if log else ():
            if id(it) not in told and (is_over or it not in seen.values()):
                told.add(id(it))
                print(it, file=log, flush=True)

    with subprocess.Popen(command, cwd=TOP) as ran:
        while ran.poll() is None:
            sample(ran.pid, edits, seen, runs, time.monotonic() - start)
            tell(False)
            time.sleep(EVERY)
    tell(True)
    return ran.returncode, time.monotonic() - start, runs


def report(runs, whole):
    heads = "".join(f"{kind:>9}{'from':>7}{'to':>7}" for kind in KINDS)
    print(f"\n{'crate':18}{heads}{'number':>8}{'each':>7}")
    sums = dict.fromkeys(KINDS, 0.0)
    for crate in sorted({it.crate for it in runs if it.crate}):
        line = f"{crate:18}"
        for kind in KINDS:
            own = [it for it in runs if it.crate == crate and it.kind == kind]
            seconds = sum(it.seconds for it in own)
            sums[kind] += seconds
            ended = max((it.ended for it in own), default=0)
            line += f"{seconds:9.0f}{own[0].began:7.0f}{ended:7.0f}" if own else f"{'-':>9}{'':14}"
        tried = sorted(it.seconds for it in runs if it.crate == crate and it.kind == "edits")
        line += f"{len(tried):8}{tried[len(tried) // 2]:7.0f}" if tried else ""
        print(line)
    print(f"{'all':18}" + "".join(f"{sums[kind]:9.0f}{'':14}" for kind in KINDS))
    print(f"{sum(sums.values()) / 60:.1f} processor minutes in {whole / 60:.1f} minutes")
    dear = sorted((it for it in runs if it.edit), key=lambda it: -it.seconds)
    for it in dear[:20]:
        print(f"{it.seconds:7.0f}  {it.crate}/{it.edit}")


def main():
    words = sys.argv[1:]
    if words[:1] in (["-h"], ["--help"]):
        print(__doc__)
        return 0
    log = None
    if words[:1] == ["--log"] and len(words) > 1:
        log, words = open(words[1], "w", encoding="utf-8"), words[2:]
    status, whole, runs = watched(words or runs_anew(gate()), log)
    report(runs, whole)
    return status


if __name__ == "__main__":
    sys.exit(main())
