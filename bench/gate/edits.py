#!/usr/bin/env python3
"""Says of each wrong body that an edit of several has whether the prover refuses that body.

usage: bench/gate/edits.py [--after-ci] [CRATE..]       as bench/gate/edits.py acdm_step; with no CRATE all crates
       bench/gate/edits.py --left-out [CRATE..]
       bench/gate/edits.py --alone CRATE [EDIT..]        as bench/gate/edits.py --alone acdm_step command-commands_tell_other_numbers

An edit in crates/CRATE/must-fail-each/ has one wrong body or several, a pair of lines 'old:' and 'new:' for each; a
line 'and old:' in the place of 'old:' begins a further replacement of the same wrong body. rt ci does not try them:
each would cost it half a minute, and of several wrong bodies it would show only that one is refused. Here one check of
each crate has all pairs of all such edits at once (two or more checks have a part each where there are many), and each
function that a pair turns has to have a goal of its own that is not proved. A function is proved by its own body and by
the contracts of those that it calls, so such a goal is that pair's alone. The bodies of all other functions are left
out, which only saves time: what is asked is not whether they are proved, and the gate has proved them. Where two pairs
turn one function, the second stands in a copy of it in the same check: the function once more under another name, with
its contract, its attributes and its proof files. Only a function that a trait asks for has no copy, nor one whose proof
is written by hand: the second pair has a check of its own there. A pair whose function had no such goal is tried once
more, alone and over all bodies: its goals may have waited for the proof of a function that it calls. One that turns no
function's body (but a constant, a type or a contract) fails: make it an edit of must-fail/. What only a name that a
proof file misses refuses counts as not refused. The exit status is 1 if anything was not refused.

With --after-ci, as .ci/run has it, the libraries below are taken as the gate has just built them; else they are built
where they are not. With --left-out the pairs are left out, and no such function may have a goal that is not proved, and no
copy: so it is shown that what is refused is refused for its pair, and not for being a copy.

With --alone, edits of one crate are tried as the gate tries an edit, by the gate's own code, over a copy of what the
crate's last check kept (crates/CRATE/out/incremental); of an edit of several each pair alone.
"""
import collections
import contextlib
import copy
import pathlib
import re
import shutil
import signal
import sys
import tempfile
import threading
import time

sys.dont_write_bytecode = True
from kit import crates, gate, is_refusal, is_there
from turned import bared, can_be_copied, copy_proofs, is_merged, lacks_proofs, merged_edits, pairs_of, with_copies

FLAGS = ["--jobs", "1"]
# One of these checks was seen to take 2.7 GB at most. What rt reckons is for one that proves all bodies, and up to 9.6.
MOST = 3_000_000_000
# With more pairs a crate's check is two: one of 65 kept a processor for a quarter of an hour once all others were done.
TOGETHER = 48
SEARCHED = re.compile(r"fn (\S+): no proof: expected answers in (\S+); `search` did not prove `([^`]*)`")
ANSWERED = re.compile(r"(?:\./)?proofs/(\S+)/(?:Answers|Invariants|Proof)\.antt:\d+:\d+: error: (.*)")
# What a proof file says where it names what an edit took away, which tells nothing of the contract.
SHAPE = re.compile(r"has no field|is not in scope|has no `|was not admitted")


def edits_of(rt, crate, names=()):
    """Returns the edits with these names, or all of the crate's, or stops."""
    good = {it.stem: it for it in [*map(pathlib.Path, rt.edits_of(crate)[0]), *merged_edits(crate)]}
    wanted = [it.removesuffix(".edit") for it in names] or [*good]
    unknown = [it for it in wanted if it not in good]
    if unknown:
        sys.exit(f"{crate.name} has no edit {unknown[0]}")
    return [good[it] for it in wanted]


def refusals(said, crate, by_function):
    """Returns the first goal of its own that a check refused, for each of these functions, by what the check said, and those that miss a name, or a copy's proof files, alone."""
    found, shapes = {}, {}
    for line in said.split("\n"):
        searched, answered = SEARCHED.match(line), ANSWERED.match(line)
        of = searched[1] if searched else "::" + answered[1].replace("/", "::") if answered else ""
        for it in (it for it in by_function if of.endswith(f"::{it}")):
            is_shape = SHAPE.search(answered[2]) if answered else lacks_proofs(crate, by_function[it], searched[2])
            (shapes if is_shape else found).setdefault(it, answered[2] if answered else searched[3])
    return found, shapes


def rounds_of(crate, pairs):
    """Returns the pairs by the functions, or the copies of them, that have them, as many together as can be."""
    rounds, seen = [], collections.Counter()
    for it in pairs:
        seen[it.function] += 1
        behind = f"_copy{seen[it.function]}"
        if seen[it.function] > 1 and can_be_copied(crate, it, behind):
            it.behind = behind
        at = sum(it.name() in by_function for by_function in rounds)
        if at == len(rounds):
            rounds.append({})
        rounds[at][it.name()] = it
    return rounds


def parts_of(rounds):
    """Returns these rounds in parts that are judged side by side: the first one in several of equal size where it has more pairs than TOGETHER, the others with the first of them."""
    first, *later = rounds
    names = [*first]
    number = -(-len(names) // TOGETHER)
    parts = [[{it: first[it] for it in names[at::number]}] for at in range(number)]
    parts[0] += later
    return parts


def turned_by(rt, crate, pairs, are_left_out):
    """Returns the texts of the files with these pairs in them and their copies, or with the copies alone as they are without a pair, or says why that can't be."""
    own, copies = [it for it in pairs if not it.behind], collections.defaultdict(list)
    texts, why = rt.edited("".join(it.alone() for it in own), crate.folder) if own and not are_left_out else ({}, None)
    for it in (it for it in pairs if it.behind and not why):
        alone, why = rt.edited(it.alone(), crate.folder)
        text = pathlib.Path(crate.folder, it.file).read_text(encoding="utf-8")
        copies[it.file].append((it, text if why or are_left_out else alone[it.file]))
    if why:
        return {}, why
    for file, its in copies.items():
        texts[file] = with_copies(file, texts.get(file) or pathlib.Path(crate.folder, file).read_text(encoding="utf-8"), its)
    return texts, None


@contextlib.contextmanager
def with_proofs(rt, crate, pairs):
    """Gives the crate, or where some of the pairs stand in copies a crate in a folder of its own, with the proof files of the copies."""
    copies = [it for it in pairs if it.behind]
    if not copies:
        yield crate
        return
    with tempfile.TemporaryDirectory(prefix="edits-") as room:
        for part in (it for it in rt.rtlib.PARTS if pathlib.Path(crate.folder, it).is_dir()):
            shutil.copytree(f"{crate.folder}/{part}", f"{room}/{part}")
        for it in copies:
            copy_proofs(crate, room, it)
        other = copy.copy(crate)
        other.folder = room
        yield other


def judged(rt, crate, by_function, are_left_out, kept, with_bodies=False):
    """Checks the crate with these pairs together, or without them, over what an earlier check kept, and returns what is to be said of those that came to something else than they must."""
    texts, why = turned_by(rt, crate, by_function.values(), are_left_out)
    if why and len(by_function) > 1:
        # (one of them writes what another one takes away)
        parts = [*by_function.items()]
        halves = dict(parts[: len(parts) // 2]), dict(parts[len(parts) // 2 :])
        return [it for half in halves for it in judged(rt, crate, half, are_left_out, kept, with_bodies)]
    if why:
        return [f"the pair can't be put in: {why}"]
    for file in [] if with_bodies else sorted(pathlib.Path(crate.folder, "src").rglob("*.rt")):
        path = str(file.relative_to(crate.folder))
        texts[path] = bared(path, texts.get(path) or file.read_text(encoding="utf-8"), by_function)
    only = [word for it in by_function for word in ("--only", it)]
    with with_proofs(rt, crate, by_function.values()) as its:
        ran = rt.checked(its, texts, [*FLAGS, *only], kept)
        if ran.returncode == -signal.SIGKILL:
            # most likely for memory
            ran = rt.checked(its, texts, [*FLAGS, *only], None)
    lines = ran.stdout.rstrip("\n").split("\n")
    if ran.returncode not in (0, 1) or not lines[-1].startswith("only="):
        told = [it for it in lines if "error" in it][:4] or lines[-2:]
        return [f"the check with all pairs ended with {ran.returncode} and no verdict:", *told]
    found, shapes = refusals(ran.stdout, crate, by_function)
    wrong = []
    for function, pair in by_function.items():
        if not (are_left_out or with_bodies or function in {**shapes, **found}):
            # (its goals may wait for the proof of a function that it calls)
            wrong += judged(rt, crate, {function: pair}, False, kept, True)
            continue
        if are_left_out and function in {**shapes, **found}:
            wrong.append(f"{pair}: {function} is refused without it: {({**shapes, **found})[function]}")
        if not are_left_out and function not in found:
            how = f" (only a proof file, or a name in one, is missing: {shapes[function]})" if function in shapes else ""
            wrong.append(f"{pair}: NOT REFUSED by a goal of {function}{how}: {pair.told()}")
    return wrong


def judge_all(rt, every, are_left_out):
    """Judges the merged edits of these crates, side by side, and returns how many pairs were judged, and what came to something else than it must."""
    printing, tasks, count, bad = threading.Lock(), {}, 0, []
    well = ", nothing refused without them" if are_left_out else ", each refused by a goal of its own"

    def tell(began, crate, number, wrong):
        with printing:
            print(f"{time.monotonic() - began:5.0f} s  {crate.name}: {number} wrong bodies{'' if wrong else well}", flush=True)
            for it in wrong:
                print(f"         {it}", flush=True)
        bad.extend(wrong)

    def judge(crate, rounds):
        # (one after the other, since the second finds what the first has read of the crate and its libraries)
        with tempfile.TemporaryDirectory(prefix="edits-") as kept:
            for by_function in rounds:
                began = time.monotonic()
                tell(began, crate, len(by_function), judged(rt, crate, by_function, are_left_out, kept))

    for crate in every:
        pairs = [it for edit in merged_edits(crate) for it in pairs_of(crate, edit)]
        count += len(pairs)
        lost = [f"{it}: it turns no function's body, so make it an edit of its own: {it.told()}" for it in pairs if not it.function]
        if lost:
            tell(time.monotonic(), crate, len(lost), lost)
        rounds = rounds_of(crate, [it for it in pairs if it.function])
        for number, part in enumerate(parts_of(rounds) if rounds else []):
            run = lambda given, jobs, crate=crate, part=part: judge(crate, part)
            tasks[crate.name, "edits", number] = [], len(pairs), min(MOST, rt.need(crate)), run
    rt.in_lanes(tasks)
    return count, bad


def try_alone(rt, crate, edits):
    """Tries the edits, and each pair of a merged one, says what came of each, and returns how many tries were not refused."""
    number, bad = 0, []
    with tempfile.TemporaryDirectory(prefix="edits-") as room:
        kept, own = f"{room}/kept", pathlib.Path(crate.folder) / "out" / "incremental"
        if own.is_dir():
            shutil.copytree(own, kept)
        tries = []
        for edit in edits:
            for it in pairs_of(crate, edit) if is_merged(edit) else []:
                alone = pathlib.Path(room, f"{edit.stem}.{it.number}.edit")
                alone.write_text(it.alone(), encoding="utf-8")
                tries.append((alone, it.told()))
            if not is_merged(edit):
                tries.append((edit, ""))
        for file, told in tries:
            began = time.monotonic()
            came_to, said = rt.must_fail(crate, str(file), FLAGS, kept)
            print(f"{time.monotonic() - began:5.0f} s  {said}{told and f'''{chr(10)}         {told}'''}", flush=True)
            number += 1
            bad += [] if is_refusal(rt, came_to) else [file.stem]
    print(f"{number - len(bad)} of {number} were refused{': not ' if bad else ''}{', '.join(bad)}")
    return len(bad)


def main():
    words = sys.argv[1:]
    flags, names = [it for it in words if it.startswith("-")], [it for it in words if not it.startswith("-")]
    if flags not in ([], ["--alone"], ["--after-ci"], ["--left-out"]) or flags == ["--alone"] and not names:
        print(__doc__)
        return 0 if words[:1] in (["-h"], ["--help"]) else 2
    rt = gate()
    rt.rtlib.guarded()
    every = crates(rt)
    wanted = names[:1] if flags == ["--alone"] else names or [*every]
    unknown = [it for it in wanted if it not in every]
    if unknown:
        sys.exit(f"crates.txt names no crate {unknown[0]}")
    asked = [every[it] for it in wanted]
    for it in dict.fromkeys(below for crate in asked if edits_of(rt, crate) for below in crate.below()):
        if not (flags == ["--after-ci"] and is_there(it)) and it.build_rlib(FLAGS, anew=False):
            sys.exit(f"the library {it.name} is not proved")
    if flags == ["--alone"]:
        return 1 if try_alone(rt, asked[0], edits_of(rt, asked[0], names[1:])) else 0
    count, bad = judge_all(rt, asked, flags == ["--left-out"])
    print(f"{count} wrong bodies in edits of several, {len(bad) or 'none'} of them not as it must be")
    return 1 if bad else 0


if __name__ == "__main__":
    sys.exit(main())
