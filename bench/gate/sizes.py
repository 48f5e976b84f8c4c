#!/usr/bin/env python3
"""Says how many lines of code, of specifications and of proofs the program has, by crate and in all.

usage: bench/gate/sizes.py [CRATE..]       as bench/gate/sizes.py acdm_step; with no CRATE those that ./acdm prove proves

Blank lines and comments are not counted. A contract in a source file (ghost items and clauses) counts as specification, as all of
specs/ does. Tests in a source file count as code. The last line is the ratio of specifications and proofs to code.
"""

import importlib.machinery
import importlib.util
import pathlib
import re
import sys

TOP = pathlib.Path(__file__).resolve().parents[2]
CLAUSE = re.compile(r"\s*(ghost|requires|ensures|decreases)\b")


def program_crates():
    """The crates of the program, as ./acdm prove has them."""
    loader = importlib.machinery.SourceFileLoader("acdm", str(TOP / "acdm"))
    module = importlib.util.module_from_spec(importlib.util.spec_from_loader("acdm", loader))
    loader.exec_module(module)
    return module.crates()


def of_source(text):
    """How many lines of a source file are code, and how many its contracts."""
    code = contracts = depth = 0
    inside = False
    for line in text.splitlines():
        bare = line.strip()
        if not bare or bare.startswith("//"):
            continue
        if not inside and CLAUSE.match(line):
            inside, depth = True, 0
        if inside:
            contracts += 1
            depth += bare.count("{") - bare.count("}")
            # (an item ends with its semicolon or comma, a clause with its last brace)
            if depth <= 0 and bare.endswith(("}", ";", ",")):
                inside = False
        else:
            code += 1
    return code, contracts


def of_proofs(folder):
    """How many lines the files of a folder have."""
    lines = (it.strip() for file in sorted(folder.rglob("*.antt")) for it in file.read_text().splitlines())
    return sum(1 for it in lines if it and not it.startswith("--"))


def sizes_of(crate):
    """Lines of code, of specifications and of proofs."""
    both = [of_source(it.read_text()) for it in sorted((crate / "src").rglob("*.rt"))]
    return sum(it[0] for it in both), sum(it[1] for it in both) + of_proofs(crate / "specs"), of_proofs(crate / "proofs")


def main():
    names = sys.argv[1:] or [*program_crates()]
    all_sizes = {name: sizes_of(TOP / "crates" / name) for name in names}
    print(f"{'':20} {'code':>7} {'specs':>7} {'proofs':>7}  (specs + proofs) / code")
    for name, (code, specs, proofs) in all_sizes.items():
        print(f"{name:20} {code:7} {specs:7} {proofs:7}  {(specs + proofs) / max(code, 1):.1f}")
    code, specs, proofs = (sum(it) for it in zip(*all_sizes.values()))
    print(f"{'all':20} {code:7} {specs:7} {proofs:7}  {(specs + proofs) / code:.1f}")
    return 0


if __name__ == "__main__":
    sys.exit(main())
