#!/usr/bin/env python3
"""Says how long the gate takes from nothing on some processors, by what its parts were measured to take.

usage: bench/gate/plan.py PROCESSORS GIGABYTES LOG..      as bench/gate/plan.py 4 23 first.log later.log

The logs are those that bench/gate/times.py writes with --log; of a part that stands in several, the last counts. So a
change can be judged by a run of the gate over the crates that it touched, where whole runs take an hour. The parts are
started in the order of this kit's gate, each with one job: those that have the longest chain of others behind them
first, edits and the checks that they begin with where nothing else is ready. Some kits try the edits of a crate one
after the other, in one part. The memory is what is free at the start. This kit's gate reckons what a check takes by the
lines of its crate and of those below, starts none that does not fit, and no edit while a proof waits for memory; what
that costs is told. What runs at the same time is taken to slow nothing down. Parts that no log has are counted and
left out. The longest chain of proofs is printed too: with one job each, no number of processors goes below it.
"""
import collections
import heapq
import pathlib
import sys

from kit import crates, gate, tries_apart

Task = collections.namedtuple("Task", "waits lines seconds needs")
PROOFS = "proof", "tests"
EDITS = "edits", "seed"
# The part of the free memory that the gate plans with.
FREE = 0.85


def measured(logs):
    """Returns the seconds of each part, by its crate, its kind and its edit, as often as it ran in the last log that has it."""
    found = {}
    for file in logs:
        own = collections.defaultdict(list)
        for line in pathlib.Path(file).read_text(encoding="utf-8").splitlines():
            crate, kind, edit, seconds, *_ = line.split()
            own[crate, kind, edit].append(float(seconds))
        found.update(own)
    return found


def tasks_of(rt, every, times):
    """Returns the gate's tasks by their names, lowest crates first, and the parts that no log has."""
    tasks, lacking = {}, []

    def took(crate, kind, edit="-", at=0):
        own = times.get((crate, kind, edit), [])
        if len(own) <= at:
            lacking.append(f"{crate} {kind} {edit}")
        return own[at] if len(own) > at else 0.0

    for crate in sorted(every.values(), key=lambda it: len(it.below())):
        name, lines = crate.name, crate.count(rb"\n")
        # (a kit that tries edits apart reckons the memory of a check)
        needs = rt.need(crate) if tries_apart(rt) else 0
        below = [(it.name, "proof") for it in crate.below()]
        edits = [pathlib.Path(it).stem for it in rt.edits_of(crate)[0]]
        tasks[name, "proof"] = Task(below, lines, took(name, "proofs"), needs)
        if crate.has_tests():
            tasks[name, "tests"] = Task(below, lines, took(name, "tests"), needs)
        own = [it for it in ((name, "proof"), (name, "tests")) if it in tasks]
        tried = {it: took(name, "edits", it) for it in edits}
        if not tries_apart(rt):
            around = took(name, "base") if len(edits) > 1 else 0.0
            tasks[name, "edits"] = Task(own, lines * bool(edits), sum(tried.values()) + around, 0)
            continue
        if len(edits) > 1:
            tasks[name, "seed"] = Task(below, 0, took(name, "base"), needs)
            own.append((name, "seed"))
            needs *= rt.OVER
        for edit in edits:
            tasks[name, "edits", edit] = Task(own, lines, tried[edit], needs)
        if len(edits) > 1:
            tasks[name, "sound"] = Task([(name, "edits", it) for it in edits], 0, took(name, "base", at=1), needs)
    return tasks, lacking


def order_of(tasks, are_last):
    """Returns the tasks in the order in which the gate looks for one that is ready, where edits may come after all else."""
    behind = dict.fromkeys(tasks, 0)
    for name in reversed([*tasks]):
        behind[name] += tasks[name].lines
        for it in tasks[name].waits:
            behind[it] = max(behind[it], behind[name])
    return sorted(tasks, key=lambda it: (are_last and it[1] in EDITS, -behind[it]))


def minutes_on(processors, memory, tasks, are_last):
    """Returns when the last task ends, in minutes from the start."""
    left, running, done, now = order_of(tasks, are_last), [], set(), 0.0
    while left or running:
        is_short = False
        for name in [it for it in left if done.issuperset(tasks[it].waits)]:
            if len(running) == processors or is_short and name[1] in EDITS:
                break
            if running and sum(tasks[it].needs for _, it in running) + tasks[name].needs > memory:
                is_short = is_short or name[1] in PROOFS
                continue
            left.remove(name)
            heapq.heappush(running, (now + tasks[name].seconds, name))
        now, name = heapq.heappop(running)
        done.add(name)
    return now / 60


def longest(every, times):
    """Returns the longest chain of proofs, in minutes."""
    found = {}
    for crate in sorted(every.values(), key=lambda it: len(it.below())):
        own = times.get((crate.name, "proofs", "-"), [0.0])[0]
        found[crate.name] = own + max((found[it.name] for it in crate.below()), default=0.0)
    return max(found.values()) / 60


def main():
    words = sys.argv[1:]
    if len(words) < 3 or not all(it.isdigit() for it in words[:2]):
        print(__doc__)
        return 0 if words[:1] in (["-h"], ["--help"]) else 2
    rt = gate()
    every, times = crates(rt), measured(words[2:])
    tasks, lacking = tasks_of(rt, every, times)
    whole = sum(it.seconds for it in tasks.values()) / 60
    processors, memory = int(words[0]), FREE * int(words[1]) * 10**9
    took, enough = (minutes_on(processors, it, tasks, tries_apart(rt)) for it in (memory, float("inf")))
    print(f"{whole:.0f} processor minutes, {took:.1f} minutes on {processors} processors, {enough:.1f} where memory is enough")
    print(f"{longest(every, times):.0f} minutes are the longest chain of proofs")
    if lacking:
        print(f"not measured: {len(lacking)}, as {', '.join(lacking[:5])}")
    return 0


if __name__ == "__main__":
    sys.exit(main())
