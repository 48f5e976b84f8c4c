#!/usr/bin/env python3
"""Says what each function of a crate cost in its last check from nothing, by the times of the files that it kept.

usage: bench/gate/functions.py CRATE [NUMBER]      as bench/gate/functions.py acdm_sessions 20

Before: rm -rf crates/CRATE/out/incremental, and then rt check --jobs 1 in the crate's folder (rt check --test --jobs 1
for its tests). A check writes a file for each part of each function as that part ends, so the time since the file
before is what the part took. The parts: Lts, the steps and each way out; Tie, how steps and clauses meet; Proof and
Answers, the goals without and with an answer of ours. What stands without parts is a file of lemmas or of
definitions, or what the prover does for the crate as a whole. Seconds of the clock, so nothing else should run.
"""
import collections
import pathlib
import re
import sys

TOP = pathlib.Path(__file__).resolve().parents[2]
OF_FUNCTION = re.compile(
    r"\w+-proofs\.(.+?)\.(Lts|Tie|Proof|Answers|Goals|Given|Statement|Layout|Met|Invariants|Kinds)\b"
)


def kept(crate):
    """Returns the files that the crate's checks kept, by the time at which each was written."""
    files = (TOP / "crates" / crate / "out" / "incremental").rglob("*.oantt")
    return sorted((it.stat().st_mtime, it.name) for it in files)


def main():
    words = sys.argv[1:]
    if not words or words[0] in ("-h", "--help"):
        print(__doc__)
        return 0 if words else 2
    files = kept(words[0])
    if not files:
        sys.exit(f"nothing is kept of {words[0]}: check it first")
    parts = collections.defaultdict(collections.Counter)
    for (before, _), (now, name) in zip(files, files[1:]):
        name = name.removeprefix("Rattle-").removesuffix(".oantt").removesuffix(".decls")
        of = OF_FUNCTION.match(name)
        parts[of[1] if of else name][of[2] if of else ""] += now - before
    print(f"{files[-1][0] - files[0][0]:7.1f}  in all")
    dear = sorted(parts.items(), key=lambda it: -it[1].total())
    for name, own in dear[: int(words[1]) if len(words) > 1 else 30]:
        told = ", ".join(f"{part} {seconds:.1f}" for part, seconds in own.most_common(4) if part and seconds >= 0.1)
        print(f"{own.total():7.1f}  {name}{f'  ({told})' if told else ''}")
    return 0


if __name__ == "__main__":
    sys.exit(main())
