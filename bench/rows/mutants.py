#!/usr/bin/env python3
"""Counts the slips in the rules that no row sees, by slips made in the model one at a time.

    python3 bench/rows/mutants.py [--walks] [--list FILE]

Each slip changes bench/model/board.py, from the table of milestones on: an operator, a number, a name of a field or a role, a part of
a condition, or a statement that is left out; or it adds one: a line that also sets or clears a field, an alert that is raised of some
flights alone, a need, a bar, a program or an order of times that counts for some alone. A slip is seen where a row of rows.py is
replied otherwise; with --walks also where a walk of bench/walks is. Some change nothing that a board can show: UNSEEABLE says which,
and why. With --list those that none sees, and are none of these, are written to a file. It takes minutes, and is no part of the gate.
"""

import argparse
import ast
import collections
import copy
import itertools
import pathlib
import re
import sys
import types

HERE = pathlib.Path(__file__).resolve().parent
sys.path[:0] = [str(HERE), str(HERE.parent / "model"), str(HERE.parent / "walks")]
MODEL = HERE.parent / "model" / "board.py"

import rows  # noqa: E402
import run as walking  # noqa: E402
import walks  # noqa: E402

# Slips that no board can show, by their names, and why not.
UNSEEABLE = [
    (r"(milestone \d+( without a time)?|deice) clears atot", "nothing is taken of a flight that has taken off"),
    (r"milestone ([13-9]|1[0-4])( without a time)? clears aobt", "it is not taken behind 15"),
    (r"milestone [345] clears (aldt|aibt|acgt)", "it is not taken behind 6"),
    (r"milestone 6 clears (aibt|acgt)", "it is not taken behind 7"),
    (r"milestone 9( without a time)? clears asat", "it is not taken behind 14"),
    (r"milestone 9 without a time clears t[os][ba]t|milestone 2 without a time clears ctot", "that is the rule"),
    (r"alert ([1-57-9]|1[0125]) only where (milestone 1 reached|eobt set)", "the alert needs 1, which sets EOBT"),
    (
        r"alert 1 only where (unscheduled|sobt not set|(stand|MTTT|EXIT) 0|SOBT is not EOBT)",
        "the flight has no schedule",
    ),
    (
        r"alert [2-5] only where (scheduled|sobt set)|alert 2 only where SOBT is not EOBT",
        "the alert needs a schedule, and CDM02 two times",
    ),
    (r"alert ([89]|1[125]) only where (milestone 9 reached|tobt set)", "TOBT is set, which marks 9"),
    (
        r"alert 9 only where (milestone 1[156] not reached|a[sto][bo]t not set|atot not set)",
        "boarding and off-block end it",
    ),
    (
        r"alert 10 only where (milestone 9 reached|t[os][ba]t not set|milestone 1[456] not reached|a[sot][abo]t not set)",
        "TOBT goes before 14 alone",
    ),
    (
        r"alert 11 only where (milestone 10 reached|tsat set|milestone 1[456] not reached|a[sot][abo]t not set)",
        "TSAT is set, and ASAT is not",
    ),
    (r"alert 12 only where (milestone 1[034] reached|(tsat|asrt|asat) set)", "ASAT is set, which needs these"),
    (
        r"alert 13 only where (scheduled|sobt set|milestone \d+ not reached|\w+ not set|SOBT is not EOBT)",
        "a flight without a plan has nothing else",
    ),
    (
        r"203 of 1 only|203 of ([2-6]|9|1[012]) only where scheduled",
        "it needs nothing, or 1, which a flight without a schedule has reached",
    ),
    (r"205 of ([1-9]|15|16) only", "it needs nothing that is set"),
    (r"ask_(target|alerts) only where (milestone 1 reached|eobt set)", "each report needs 1"),
    (r"a time of de-icing as a[ot][bo]t is no touch", "no alert asks for the moment behind off-block"),
    (r"a migrate keeps (30[1-7]|31[245])", "the length of a record changes none of these"),
    (r"MILESTONES: \(1, \d+(, 13)?\) -> \(\d+,( 13\))?", "what it needs needs 1"),
    (r"MILESTONES: \(1, 10, 13\) -> \(1, 13\)|MILESTONES: 10 -> 9", "13 needs 10"),
    (r"Rule: 0 -> |Flight: 1 -> [02]$", "each rule says its bar, and each record its layout"),
    (r"out_of_order: times\[first\] and", "nothing is below 0"),
    (r"alerts_of: (sum|NOT_POSSIBLE \| LOCAL)|Board: flight.alerts & ~LOCAL \|", "the bits of both are apart"),
    (
        r"alerts_of: (ready is not None and eobt|tobt and eobt|asat and tsat|flight.has\([01]\) and)",
        "what is left out is so with the others",
    ),
    (r"names_of: 1 -> 0|names_of: 16 -> 17", "such a bit is never set"),
    (r"Board: (self.used|0 -> |answer & 65535 -> answer)", "no reply has it"),
    (
        r"Board: .*(503|MOST_FLIGHTS|MOST_|number (not )?in self.flights)",
        "the rows of 4,096 flights see it, which are not sent here",
    ),
]

TIMES = "sobt eobt ctot otot eldt aldt aibt acgt tobt tsat asbt ardt asrt asat aobt atot".split()
DEICING = "eczt eezt aczt aezt".split()
ROLES = "NM ATC APT AO GH DIC".split()
ALERTS = (1, 2, 3, 4, 5, 7, 8, 9, 10, 11, 12, 13, 15)
COMPARISONS = {
    ast.Lt: (ast.LtE, ast.Gt), ast.LtE: (ast.Lt, ast.GtE), ast.Gt: (ast.GtE, ast.Lt), ast.GtE: (ast.Gt, ast.LtE),
    ast.Eq: (ast.NotEq,), ast.NotEq: (ast.Eq,), ast.In: (ast.NotIn,), ast.NotIn: (ast.In,),
}  # fmt: skip
OPERATORS = {
    ast.Add: (ast.Sub,), ast.Sub: (ast.Add,), ast.BitOr: (ast.BitAnd, ast.BitXor), ast.BitAnd: (ast.BitOr,), ast.LShift: (ast.RShift,),
    ast.RShift: (ast.LShift,),
}  # fmt: skip


def others(value):
    """What may stand in place of a constant."""
    if isinstance(value, bool) or value is None:
        return []
    if isinstance(value, int):
        return [value + 1, value - 1]
    if isinstance(value, str):
        for names in (TIMES + DEICING, ROLES, ["type", "reg", "dest"], ["tobt", "alert"]):
            if value in names:
                return [it for it in names if it != value]
    return []


def changes(node):
    """What may stand in place of a node."""
    if isinstance(node, ast.Compare):
        for place, operator in enumerate(node.ops):
            for other in COMPARISONS.get(type(operator), ()):
                made = copy.deepcopy(node)
                made.ops[place] = other()
                yield made
        if len(node.ops) > 1:
            yield ast.Compare(node.left, node.ops[:1], node.comparators[:1])
            yield ast.Compare(node.comparators[0], node.ops[1:], node.comparators[1:])
    if isinstance(node, ast.BoolOp):
        yield ast.BoolOp(ast.And() if isinstance(node.op, ast.Or) else ast.Or(), node.values)
        for place in range(len(node.values)):
            left = node.values[:place] + node.values[place + 1 :]
            yield ast.BoolOp(node.op, left) if len(left) > 1 else left[0]
    if isinstance(node, ast.BinOp):
        for other in OPERATORS.get(type(node.op), ()):
            yield ast.BinOp(node.left, other(), node.right)
        yield node.left
        yield node.right
    if isinstance(node, ast.UnaryOp) and isinstance(node.op, ast.Not):
        yield node.operand
    if isinstance(node, ast.Constant):
        for value in others(node.value):
            yield ast.Constant(value)
    if isinstance(node, ast.Tuple) and isinstance(node.ctx, ast.Load):
        for place in range(len(node.elts)):
            yield ast.Tuple(node.elts[:place] + node.elts[place + 1 :], node.ctx)
    if isinstance(node, (ast.If, ast.IfExp)):
        for value in (True, False):
            made = copy.deepcopy(node)
            made.test = ast.Constant(value)
            yield made
    if isinstance(node, (ast.Assign, ast.AugAssign, ast.Expr, ast.Raise, ast.Delete)):
        yield ast.Pass()


def places(tree):
    """The nodes of the rules, each with the name of its part, and the node and the field that it stands in."""
    begun = next(place for place, it in enumerate(tree.body) if isinstance(it, ast.ClassDef) and it.name == "Rule")
    ended = next(
        place for place, it in enumerate(tree.body) if isinstance(it, ast.FunctionDef) and it.name == "replies"
    )
    for top in tree.body[begun:ended]:
        named = top.name if hasattr(top, "name") else ast.unparse(top.targets[0]) if isinstance(top, ast.Assign) else ""
        for parent in ast.walk(top):
            for name, value in ast.iter_fields(parent):
                for place, node in enumerate(value) if isinstance(value, list) else [(None, value)]:
                    is_text = any(
                        isinstance(it, ast.Expr) and isinstance(it.value, ast.Constant) for it in (parent, node)
                    )
                    if isinstance(node, ast.AST) and not is_text:
                        yield named, parent, name, place, node


def standing_slips(text):
    """The slips in what stands in the model: a name, and the changed source's tree."""
    tree = ast.parse(text)
    for named, parent, name, place, node in list(places(tree)):
        for made in changes(node):
            ast.copy_location(made, node)
            if place is None:
                setattr(parent, name, made)
            else:
                getattr(parent, name)[place] = made
            said = f"{named}: {ast.unparse(node)[:60]} -> {ast.unparse(made)[:60]}"
            yield said.replace("\n", " "), ast.fix_missing_locations(tree)
            if place is None:
                setattr(parent, name, node)
            else:
                getattr(parent, name)[place] = node


# Flights and boards that a slip may hold for alone, each with its condition in the model.
SOME = {
    "unscheduled": "not flight.has(0)", "scheduled": "flight.has(0)",
    **{f"milestone {it} reached": f"flight.has({it})" for it in range(1, 17)},
    **{f"milestone {it} not reached": f"not flight.has({it})" for it in range(1, 17)},
    **{f"{it} set": f"flight.times['{it}']" for it in TIMES}, **{f"{it} not set": f"not flight.times['{it}']" for it in TIMES},
    "stand 0": "flight.stand == 0", "MTTT 0": "flight.mttt == 0", "EXIT 0": "flight.exit == 0",
    "SOBT is EOBT": "flight.times['sobt'] == flight.times['eobt']", "SOBT is not EOBT": "flight.times['sobt'] != flight.times['eobt']",
}  # fmt: skip
LAYOUTS = {"layout 1": "self.layout == 1", "layout 2": "self.layout == 2"}
HALF = {**{it: SOME[it] for it in ("unscheduled", "scheduled")}, **LAYOUTS}


class Source:
    """The model's text, and what is made of it: `instead` has other lines in the place of some that stand there once, and `before` more."""

    def __init__(self, text):
        self.text = text

    def instead(self, old, new):
        assert self.text.count(old) == 1 and old != new, (self.text.count(old), old)
        return self.text.replace(old, new)

    def before(self, old, line):
        at = self.text.index(old)
        indent = " " * (at - self.text.rindex("\n", 0, at) - 1)
        return self.instead(old, f"{line}\n{indent}{old}")


def clearing_slips(source):
    """A line that also clears a field: a report of each milestone, with a time and without, a schedule, a tick, a time of de-icing."""
    reported, scheduled, deiced = (
        "if plan:\n            flight.callsign",
        "flight.mark(0)",
        "return self.touch(flight, moment)\n\n    def tick",
    )
    ticked = "self.touch(flight, moment)\n        return"
    for name in TIMES + DEICING:
        cleared = f"flight.times['{name}'] = 0"
        for milestone in range(1, 17):
            if rows.RULES["sets"][str(milestone)].lower() != name:
                yield f"milestone {milestone} clears {name}", source.before(
                    reported, f"if milestone == {milestone} and minute: {cleared}"
                )
        for milestone in (2, 9):
            line = f"if milestone == {milestone} and not minute: {cleared}"
            yield f"milestone {milestone} without a time clears {name}", source.before(reported, line)
        if name != "sobt":
            yield f"schedule clears {name}", source.before(scheduled, cleared)
        yield f"tick clears {name}", source.before(ticked, cleared)
        yield f"deice clears {name}", source.before(deiced, f"if name != '{name}': {cleared}")


def alert_slips(source):
    """An alert that is raised of some flights alone."""
    for number in ALERTS:
        for name, condition in SOME.items():
            line = f"conditions[{number}] = conditions[{number}] and {condition}"
            yield f"alert {number} only where {name}", source.before("return sum(1 << bit", line)
        for name, condition in LAYOUTS.items():
            computed = "flight.alerts = alerts_of(flight, moment)"
            kept = f"{computed} & (-1 if {condition} else ~{1 << number})"
            yield f"alert {number} on {name} alone", source.instead(computed, kept)


def refusal_slips(source):
    """A need or a bar of one milestone that counts for some flights alone."""
    guards = {
        "203": "if not flight.has(*rule.reached):", "204": "if flight.has(rule.barred):", "205": "if rule.needs and not times[rule.needs]:",
    }  # fmt: skip
    for code, guard in guards.items():
        for name, condition in HALF.items():
            for milestone in range(1, 17):
                made = f"{guard[:-1]} and (milestone != {milestone} or {condition}):"
                yield f"{code} of {milestone} only where {name}", source.instead(guard, made)


def program_slips(source):
    """A program that does not run at a milestone, or for some flights alone, or is handed another moment or milestone."""
    for kind in ("ask_target", "ask_alerts"):
        call = f"        self.{kind}(flight, moment, milestone)\n"
        for milestone in range(1, 17):
            yield f"{kind} not at {milestone}", source.instead(
                call, f"        milestone == {milestone} or {call.strip()}\n"
            )
            line = f"        milestone == {milestone} and self.layout == 2 or {call.strip()}\n"
            yield f"{kind} not at {milestone} on layout 2", source.instead(call, line)
        for name, condition in {**SOME, **LAYOUTS, "no time": "not minute", "a time": "minute"}.items():
            yield f"{kind} only where {name}", source.instead(call, f"        ({condition}) and {call.strip()}\n")
    handed = "moment, milestone, self.helpers)"
    for milestone in range(1, 17):
        yield f"r3 of {milestone} is one more", source.instead(
            handed, f"moment + (milestone == {milestone}), milestone, self.helpers)"
        )
        yield f"r4 of {milestone} is one more", source.instead(
            handed, f"moment, milestone + (milestone == {milestone}), self.helpers)"
        )


def other_slips(source):
    """Times of de-icing that are no touch, faults at which a migrate keeps a program, and another order of flights."""
    given, done = "times = flight.times | {name: minute}", "return self.touch(flight, moment)\n\n    def tick"
    for name in TIMES + DEICING:
        line = f"if minute and flight.times['{name}'] == minute: return 'ok', ''"
        yield f"a time of de-icing as {name} is no touch", source.before(given, line)
    yield "a time of de-icing as it was is no touch", source.before(
        given, "if flight.times[name] == minute: return 'ok', ''"
    )
    yield "a time of de-icing taken back is no touch", source.before(done, "if not minute: return 'ok', ''")
    for code in range(301, 316):
        yield f"a migrate keeps {code}", source.before(
            "del self.programs[milestone, kind]\n                unl", f"if fault.code == {code}: continue"
        )
    listed = "for flight in self.flights.values() if flight.alerts"
    yield "flights by number", source.instead(
        listed, "for flight in sorted(self.flights.values(), key=lambda it: it.number) if flight.alerts"
    )


def added_slips(text):
    """The slips that add something."""
    for make in (clearing_slips, alert_slips, refusal_slips, program_slips, other_slips):
        yield from make(Source(text))


def module_of(code):
    """The changed model."""
    module = types.ModuleType("board")
    sys.modules["board"] = module
    exec(code, module.__dict__)  # pylint: disable=exec-used
    return module


def is_seen(model, talks):
    """The name of the first row that is replied otherwise, or none."""
    for name, capacity, lines, replies in talks:
        try:
            board = model.Board(capacity)
            for line, reply in zip(lines, replies):
                if board.reply(line) != reply:
                    return name
        except Exception:  # pylint: disable=broad-exception-caught
            return name
    return None


def talks_of_rows():
    """The rows, but those of thousands of lines."""
    return [
        (row.name, row.capacity, [it.encode() for it in row.lines], row.replies)
        for group, row in rows.all_rows()
        if group not in ("limits", "helpers")
    ]


def talks_of_walks():
    talks = []
    for name, lines in walks.all_walks(False):
        walk = walking.Walk()
        for line in lines:
            walk.line(line)
        talks.append(
            (name, 100_000, [it.rstrip("\n").encode() for it in walk.sent], [it.rstrip("\n") for it in walk.replies])
        )
    return talks


def main():
    words = argparse.ArgumentParser(description="Counts the slips in the rules that no row sees.")
    words.add_argument("--walks", action="store_true", help="let the walks look too")
    words.add_argument("--list", type=pathlib.Path, metavar="FILE")
    asked = words.parse_args()
    text, talks, further, unseen = (
        MODEL.read_text(encoding="utf-8"),
        talks_of_rows(),
        talks_of_walks() if asked.walks else [],
        [],
    )
    assert is_seen(module_of(text), talks + further) is None, "a row is replied otherwise by the model as it is"
    counts = collections.Counter()
    for name, source in itertools.chain(added_slips(text), standing_slips(text)):
        assert source != text, name
        counts["slips"] += 1
        try:
            model = module_of(compile(source, "board", "exec"))
        except Exception:  # pylint: disable=broad-exception-caught
            counts["no program"] += 1
            continue
        if is_seen(model, talks):
            counts["seen by a row"] += 1
        elif any(re.match(pattern, name) for pattern, _ in UNSEEABLE):
            counts["that no board can show"] += 1
        elif is_seen(module_of(compile(source, "board", "exec")), further):
            counts["seen by a walk alone"] += 1
        else:
            counts["seen by no row" + (" and no walk" if further else "")] += 1
            unseen.append(name)
    if asked.list:
        asked.list.write_text("".join(f"{it}\n" for it in unseen), encoding="utf-8")
    print(", ".join(f"{count} {name}" for name, count in counts.items()))
    return 0


if __name__ == "__main__":
    sys.exit(main())
