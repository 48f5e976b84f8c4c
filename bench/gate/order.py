#!/usr/bin/env python3
"""Estimates how long `./acdm prove` takes from nothing on some processors, by other numbers of crates at a time.

    python3 bench/gate/order.py [PROCESSORS]

A crate takes the processor seconds of its proofs in the table of README.md beside this, or two for each function where the table
lacks it: 12 of them on one processor, in which the libraries below are read, and the rest by as many jobs as it has. All jobs
that run share the processors evenly. The order and the choice of jobs are those of the script `acdm` at the top. What jobs at
once take from each other is left out, so compare the figures with each other alone.
"""

import importlib.util
import re
import sys
from importlib.machinery import SourceFileLoader
from pathlib import Path

TOP = Path(__file__).resolve().parents[2]
READING, JOBS, FUNCTION = 12, 4, 2


def script():
    """The script `acdm` at the top."""
    loader = SourceFileLoader("acdm_script", str(TOP / "acdm"))
    module = importlib.util.module_from_spec(importlib.util.spec_from_loader("acdm_script", loader))
    sys.dont_write_bytecode = True
    loader.exec_module(module)
    return module


def seconds_of(names):
    """The processor seconds of each crate's proofs."""
    table = dict(re.findall(r"^\| `(\w+)` \| (\d+) s \|", (TOP / "bench/gate/README.md").read_text(), re.M))
    functions = lambda name: sum(it.read_text().count("fn ") for it in (TOP / "crates" / name / "src").rglob("*.rt"))
    return {name: int(table.get(name, READING + FUNCTION * functions(name))) for name in names}


def minutes(graph, chains, seconds, processors, lanes, wide):
    """When the last crate is proved, with so many at a time, and so many of them with several jobs."""
    order, done, running, now = sorted(graph, key=lambda it: -chains[it][1]), set(), {}, 0.0
    while len(done) < len(graph):
        for name in [it for it in order if it not in done and it not in running and done.issuperset(graph[it])]:
            if len(running) == lanes:
                break
            is_longest = all(chains[name][1] > chains[it][0] for it in running)
            is_wide = is_longest and name != "acdm" and sum(it[2] > 1 for it in running.values()) < wide
            running[name] = [READING, max(seconds[name] - READING, 0.1), JOBS if is_wide else 1]
        jobs = {name: 1 if first > 0 else many for name, (first, _, many) in running.items()}
        share = min(1, processors / sum(jobs.values()))
        step = max(0.01, min((first if first > 0 else left / jobs[name]) / share for name, (first, left, _) in running.items()))
        now += step
        for name, of in [*running.items()]:
            part = 0 if of[0] > 0 else 1
            of[part] -= step * share * jobs[name]
            if of[0] < 1e-6 and of[1] < 1e-6:
                done.add(name)
                del running[name]
    return now / 60


def main():
    processors = int(sys.argv[1]) if sys.argv[1:] else 4
    acdm = script()
    graph = acdm.crates()
    seconds = seconds_of(graph)
    chains = acdm.behind(graph)
    whole, last = sum(seconds.values()), seconds["acdm"]
    print(f"{len(graph)} crates, {whole / 60:.0f} processor minutes; no order takes less than {((whole - last) / processors + last) / 60:.1f} minutes")
    for lanes, wide in ((3, 2), (3, 3), (4, 2), (4, 3), (4, 4)):
        print(f"{lanes} at a time, {wide} with several jobs: {minutes(graph, chains, seconds, processors, lanes, wide):.1f} minutes")
    return 0


if __name__ == "__main__":
    sys.exit(main())
