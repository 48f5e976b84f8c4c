#!/usr/bin/env python3
"""Calls the libraries once for each request for memory, which is refused, and says where more than that call was lost.

    python3 bench/hostile/calls.py [--after-ci] [--program PATH] [--stride N]

The calls: `decode`, `encode`, `verify`, `explain`, `EbpfVmRaw` with `set_program` and `execute_program`, `Desk::call` of all commands with
programs loaded, `Watch::new` and `advance`, `audit`, `run` and `run_sessions`, the last two over one line at a time. Those of the calls alone are
refused: calls.rt.txt and the files beside it mark where each begins and ends, and refuse.c, preloaded, counts between. A refused call has
to answer that there was no memory, and to leave board, journal, watch and machine as they were; made again, it has to answer what it
answers in a run that is not disturbed, as all calls after it. What that is, is told by the model in bench/model and by hand. The helpers of
`Desk::call` count how often one is asked, over all calls: a call that is refused asks none, so the count stays that of the answers in the journal.

The program is proved and built over the libraries as they were checked last, or, with `--after-ci`, as the gate has just built them; with
`--program` one that was built before is run, and where none stands there, it is left there. `--stride` takes every N-th request alone.
The last line is `N cases, M failed`; status 1 where one failed.
"""

import argparse
import functools
import pathlib
import shutil
import sys
import tempfile

from cases import ALERTS, DAY, SCHEDULE, TAXI, TOP, Cases, text
from refused import DEICED, LATER, SHORT_ALONE, SPILLED, Refusing, at, load, owed, report

sys.path.insert(0, str(TOP / "bench" / "gate"))

from kit import crates, gate, is_there  # noqa: E402

HERE = pathlib.Path(__file__).resolve().parent
NAME = "calls"
PARTS = ("marks", "programs", "boards", "streams", "sessions")
STANDS_ON = (
    "acdm_sessions acdm_tables acdm_judging acdm_wire acdm_watch acdm_journal acdm_lines acdm_board acdm_row acdm_step acdm_milestones acdm_record "
    "bpf_explain bpf_machine bpf_verifier bpf_regstate bpf_helpers bpf_decode"
).split()
OF_KIT = "hex once_cell".split()

NO_MEMORY = "no memory"
# What is told behind the answer to these is how things stand, also where they were refused.
STAND = {"set_program", "execute_program", "Watch::advance", "Desk::call", "run", "session"}

NOW = 29_000_580
# Programs, with what they come to on flight 7 at `NOW` in milestone 7: r0 and the steps.
PROGRAMS = ((TAXI, 10, 4), (LATER, NOW + 5, 4), (SPILLED, 5, 6))
# A program that answers 0 is set first.
FIRST = "stands 0 2"
# The three helpers, before there is a program.
ADDED = (("register_helper", "true", ()), ("register_helper", "true", ()), ("register_helper", "true", ("stands 334",)))


def scene():
    """The row with the alert program of milestone 9, and all other commands, with both programs of that milestone loaded."""
    others = SCHEDULE.replace('"flight":7', '"flight":8'), DAY[2].replace('"flight":7', '"flight":9')
    return [
        *DAY,
        at(NOW, 1, "APT", load(9, "tobt", LATER)),
        at(NOW, 5, "GH", report(7, 9, "10:00")),
        at(NOW, 1, "APT", '{"cmd":"tick"}'),
        at(NOW, 4, "AO", '{"cmd":"show","flight":7}'),
        at(NOW, 1, "APT", others[0]),
        others[1],
        at(NOW, 3, "ATC", ALERTS),
        at(NOW, 1, "APT", load(9, "alert", SPILLED)),
        at(NOW, 1, "APT", '{"cmd":"unload","milestone":9,"kind":"tobt"}'),
        at(NOW, 1, "APT", '{"cmd":"unload","milestone":9,"kind":"tobt"}'),
        at(NOW, 4, "AO", report(9, 9, "10:00")),
        at(NOW, 2, "NM", '{"cmd":"show","flight":9}'),
        at(NOW, 1, "APT", load(7, "tobt", SHORT_ALONE)),
        at(NOW, 1, "APT", '{"cmd":"migrate"}'),
        at(NOW, 1, "APT", load(7, "alert", DEICED, ',"length":160')),
        at(NOW, 6, "DIC", '{"cmd":"deice","flight":7,"field":"aezt","time":"2025-02-20T07:30:00Z"}'),
        at(NOW, 4, "AO", '{"cmd":"show","flight":7}'),
        at(NOW, 1, "APT", ALERTS),
    ]


def by_one_session(lines):
    """The same lines, as the first session of each run of sessions enters them."""
    return [f"1 {line.split(' ', 1)[1]}" for line in lines]


def built(folder, after_ci):
    """Proves and builds the program in a repository of its own, which has the built libraries of this one."""
    rt = gate()
    rt.rtlib.guarded()
    # (what a library was built from is reckoned from all below it, each time anew)
    rt.rtlib.Crate.stamp = functools.cache(rt.rtlib.Crate.stamp)
    every = crates(rt)
    below = dict.fromkeys(it for name in STANDS_ON for it in [*every[name].below(), every[name]])
    for it in below:
        if not (after_ci and is_there(it)) and it.build_rlib(["--jobs", "1"], anew=False):
            sys.exit(f"the library {it.name} is not proved")
        out = folder / "crates" / it.name / "out"
        out.mkdir(parents=True)
        (out.parent / "src").mkdir()
        (out / "rlib").symlink_to(pathlib.Path(it.folder) / "out" / "rlib")
    home = folder / "crates" / NAME
    (home / "src").mkdir(parents=True)
    (home / "out").mkdir()
    shutil.copy(HERE / f"{NAME}.rt.txt", home / "src" / "main.rt")
    shutil.copy(TOP / "bench" / "machine" / "helpers.rt.txt", home / "src" / "helpers.rt")
    for part in PARTS:
        shutil.copy(HERE / f"{NAME}_{part}.rt.txt", home / "src" / f"{part}.rt")
    lines = [line for line in (TOP / "crates.txt").read_text().splitlines() if line.split(":")[0] in {it.name for it in below}]
    (folder / "crates.txt").write_text(text([*lines, f"{NAME}: {' '.join([*STANDS_ON, *OF_KIT])}"]))
    crate = next(it for it in rt.rtlib.crates_below(str(folder)) if it.name == NAME)
    kit = ["--toolchain", f"{rt.KIT}/toolchain"]
    with open(folder / "said", "w+", encoding="utf-8") as crate.out:
        words = crate.words(["--jobs", "1"], keeps=False)
        status = crate.call(rt.rtlib.RATTLE, "build", *words, *kit, "--backend", "llvm", "-o", f"out/{NAME}.o")
        libraries = [f"{rt.KIT}/c/{it}" for it in ("libos_c.a", "liblibc_c.a")]
        link = ["--target", "x86_64-unknown-linux-gnu", *kit, "-o", f"out/{NAME}", f"out/{NAME}.o", *libraries]
        status = status or crate.call(f"{rt.KIT}/bin/rattle-link", *link)
        if status:
            crate.out.seek(0)
            sys.exit(f"{crate.out.read()[-6000:]}\nthe program over the library calls is not proved")
    return home / "out" / NAME


def told(output):
    """The calls that a run told of: name, answer, and how things stood."""
    calls = []
    for line in output.splitlines():
        word, _, rest = line.partition(" ")
        if word == "call":
            calls.append((rest, [], []))
        elif word == "answer" and calls:
            calls[-1][1].append(rest)
        elif calls:
            calls[-1][2].append(line)
    return [(name, answer[0] if answer else "", tuple(stands)) for name, answer, stands in calls]


class Scenes:
    def __init__(self, cases, refusing):
        self.cases, self.refusing = cases, refusing
        self.lines = scene()
        self.given = text([*(f"program {digits}" for digits, _, _ in PROGRAMS), *(f"line {line}" for line in self.lines)])
        self.calls = []
        # How many requests were refused with no call lost: those by which a call gives back what it has too much.
        self.spared = 0

    def ran(self, number):
        (status, output, errors), was_refused = self.refusing.ran([], self.given, number)
        self.cases.expect(f"request {number}, the end", (status, errors) == (0, ""), (status, errors))
        return told(output), was_refused

    def undisturbed(self):
        """What comes without a refusal, against the model and what was found by hand."""
        self.calls, was_refused = self.ran(0)
        self.cases.expect("no request", not was_refused)
        rest = list(self.calls)
        for digits, r0, steps in PROGRAMS:
            rest = self.of_program(rest, digits, r0, steps)
        rest = self.of_lines(rest, "board", "Desk::call", self.lines)
        rest = self.of_helpers(self.of_watch(rest))
        rest = self.of_lines(rest, "stream", "run", self.lines)
        rest = self.of_lines(rest, "sessions", "session", by_one_session(self.lines))
        self.cases.expect("no more calls", rest == [], rest[:1])

    def of_program(self, calls, digits, r0, steps):
        count = len(digits) // 16
        ends = f"stands {r0} {steps}"
        wanted = [
            (f"program {digits}", "", ()), ("decode", str(count), ()), ("encode", digits, ()), ("verify", str(count), ()),
            ("explain", None, None), ("EbpfVmRaw::new", "done", ()), *ADDED,
            ("set_program", "done", (FIRST,)), ("set_program", "done", (ends,)), ("execute_program", str(r0), (ends,)),
        ]  # fmt: skip
        for seen, known in zip(calls, wanted):
            if known[0] == "explain":
                self.cases.expect(f"explain {digits}", seen[0] == "explain" and seen[2][-1:] == (f"accepted {count}",), seen)
            else:
                self.cases.expect(f"{known[0]} of {digits}", seen == known, seen)
        return calls[len(wanted) :]

    def of_lines(self, calls, title, name, lines):
        answers, entries = owed(lines)
        self.cases.expect(title, calls[0][0] == title, calls[0])
        seen = calls[1 : 1 + len(lines)]
        self.cases.expect(f"{title}, the answers", [it[:2] for it in seen] == [(name, answer) for answer in answers], seen)
        journal = [line for line in seen[-1][2] if line.split(" ")[0].isdigit()]
        self.cases.expect(f"{title}, the journal", text(journal) == entries, journal)
        return calls[1 + len(lines) :]

    def of_helpers(self, calls):
        """Helpers were asked as often as the entries of the journal keep answers."""
        kept = [int(line.split(" ")[5]) for line in owed(self.lines)[1].splitlines()]
        self.cases.expect("the helpers asked", calls[0] == ("helpers", str(sum(kept)), ()) and sum(kept) > 0, (calls[0], kept))
        return calls[1:]

    def of_watch(self, calls):
        """A watch takes all entries of the desk before it, and its board is the desk's at last."""
        count = len(self.lines)
        desk = next(it for it in reversed(self.calls) if it[0] == "Desk::call")[2]
        board = tuple(line for line in desk if not line.split(" ")[0].isdigit())
        looks = calls[1 : 2 + count]
        answers = [*(["true"] * count), "false"]
        self.cases.expect("a watch", calls[0][:2] == ("Watch::new", "done"), calls[0])
        self.cases.expect("a watch's looks", [it[:2] for it in looks] == [("Watch::advance", it) for it in answers], looks)
        self.cases.expect("a watch's board", looks[-1][2] == (f"seen {count}", *board), looks[-1])
        audit = calls[2 + count]
        self.cases.expect("an audit", audit == ("audit", str(count), ()), audit)
        return calls[3 + count :]

    def refused(self, number):
        """One request is refused: one call more, which changed nothing; and whether there was such a request."""
        calls, was_refused = self.ran(number)
        lost = [place for place, it in enumerate(calls) if it[1].startswith(NO_MEMORY)]
        most = 1 if was_refused else 0
        self.cases.expect(f"request {number}, the calls lost", len(lost) <= most, [calls[it] for it in lost])
        self.spared += most - len(lost)
        for place in lost[:1]:
            name, _, stands = calls.pop(place)
            wanted = calls[place - 1][2] if name in STAND else ()
            self.cases.expect(f"request {number}, how things stand", stands == wanted, (name, stands, wanted))
            self.cases.expect(f"request {number}, made again", calls[place : place + 1] == self.calls[place : place + 1], (name, calls[place:]))
        self.cases.expect(f"request {number}, all else", calls == self.calls, [it for it in calls if it not in self.calls][:1])
        return was_refused


def main():
    parser = argparse.ArgumentParser(description=__doc__.splitlines()[0])
    parser.add_argument("--after-ci", action="store_true", help="take the libraries as the gate has just built them")
    parser.add_argument("--program", type=pathlib.Path, metavar="PATH", help="the program, built before or to be left there")
    parser.add_argument("--stride", type=int, default=1, metavar="N")
    given = parser.parse_args()
    cases = Cases()
    with tempfile.TemporaryDirectory(prefix="calls-") as name:
        folder = pathlib.Path(name)
        program = given.program and given.program.resolve()
        if not (program and program.is_file()):
            made = built(folder, given.after_ci)
            program = shutil.copy(made, program) if program else made
        scenes = Scenes(cases, Refusing(program, folder, {"REFUSE_MARKED": "1"}))
        scenes.undisturbed()
        number = 1
        while scenes.refused(number):
            number += given.stride
    print(f"{len(scenes.calls)} calls, {number - 1} requests, {scenes.spared} of them refused with no call lost", flush=True)
    return cases.end()


if __name__ == "__main__":
    sys.exit(main())
