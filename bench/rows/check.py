#!/usr/bin/env python3
"""Says which cell of the tables in rules.json no row meets, and which row does not meet the cell that it names.

    python3 check.py

The status is 1 where there is one, or where crates/rule_tests/src/rows has other lines and replies than rows.py writes. Of
owners, needs, bars, orders of times, local names and codes it is computed here, from the lines and replies of a row and the
tables alone, that the row stands where it says, and all of what contexts.py says; of the other cells the name is trusted.
"""

import re
import sys

import contexts
import rows


# What a row may name beside the cells of the tables.
EXTRA = ["order no other"]


def cells():
    """Returns all cells of the tables."""
    rules = rows.RULES
    found = [f"owners {what} {role}" for what in rules["owners"] for role in rows.ROLES]
    found += [f"needs {it} {need}" for it, needs in rules["needs"].items() for need in needs]
    found += [f"needs set {it}" for it in rules["needs_set"]] + [f"bars {it}" for it in rules["barred_by"]]
    found += [f"order {it}" for _, _, it in rules["order"]] + [f"order behind {it}" for it in rules["order_behind"]]
    found += [f"sets {it}" for it in rules["sets"] if it != "1"] + [f"no time {it}" for it in rules["may_have_no_time"]]
    found += [f"schedule {it}" for it in rules["schedule_sets"]] + [f"plan {it}" for it in rules["plan_sets"]]
    found += [f"alert {it} {part}" for it, parts in rules["alerts"].items() if it != "CDM14" for part in parts]
    found += [f"target {it}" for it in rules["target"]] + [f"local {it}" for it in rules["local"]]
    found += [f"local rule {it}" for it in rules["local_rules"]] + [f"touch {it}" for it in rules["touch"]]
    found += [f"winter {it}" for it in rules["winter"]]
    found += [f"code {it}" for it in rules["codes"]] + [f"before {one} {other}" for one, other in rules["before"]]
    for number, helper in rules["helpers"].items():
        found += [f"helper {number} {kind} {key}" for kind in ("table", "else") for key in helper[kind]]
        found += [f"helper {number} {end} {place}" for end in ("least", "greatest") for place in range(len(helper[end]))]
        found.append(f"helper {number} answers")
    return found + contexts.cells(rules)


def reports(row):
    """Returns the milestone, its time and the reply of each report of flight 7, and what the accepted ones before set."""
    held, reached = {}, set()
    for said, reply in zip(row.said, row.replies):
        command = said and said[2]
        if not command or command["cmd"] not in ("report", "schedule"):
            continue
        kind, code = reply.split()[0], reply.split()[-1]
        if command["cmd"] == "report":
            milestone = command["milestone"]
            yield milestone, said[1], command["time"], None if kind == "ok" else code, dict(held), set(reached)
            if kind == "ok":
                reached.add(milestone)
                held[rows.RULES["sets"][str(milestone)]] = command["time"]
                if milestone == 9 and command["time"] is None:
                    held["TSAT"] = None


def stands(row, cell):
    """Whether the row stands where the cell says, or None where that is not computed."""
    rules, words, told = rows.RULES, cell.split(), list(reports(row))
    if words[0] == "owners" and words[1].isdigit():
        right = words[2] in rules["owners"][words[1]]
        return any(it[0] == int(words[1]) and it[1] == words[2] and (it[3] != "201") == right for it in told)
    if words[0] == "owners":
        right = words[2] in rules["owners"][words[1]]
        return any(said and said[2]["cmd"] == words[1] and said[1] == words[2] and (reply.split()[-1] != "201") == right
                   for said, reply in zip(row.said, row.replies))
    if words[0] == "needs" and words[1] != "set":
        def missing(it):
            return {need for need in rules["needs"][words[1]] if need not in it[5]}
        mine = [it for it in told if it[0] == int(words[1])]
        return any(it[3] == "203" and int(words[2]) in missing(it) for it in mine) and any(
            it[3] is None and not missing(it) for it in mine)
    if words[:2] == ["needs", "set"]:
        field = rules["needs_set"][words[2]]
        mine = [it for it in told if it[0] == int(words[2])]
        return any(it[3] == "205" and not it[4].get(field) for it in mine) and any(it[3] is None and it[4].get(field) for it in mine)
    if words[0] == "bars":
        bar = rules["barred_by"][words[1]]
        mine = [it for it in told if it[0] == int(words[1])]
        return any(it[3] == "204" and bar in it[5] for it in mine) and any(it[3] is None and bar not in it[5] for it in mine)
    if words[0] == "order" and words[1].isdigit():
        before = next(one for one, _, it in rules["order"] if it == words[1])
        return beside([(it[2], it[4].get(before), it[3]) for it in told if it[0] == int(words[1])], -1)
    if words[:2] == ["order", "behind"]:
        behind = rules["order_behind"][words[2]]
        return beside([(it[2], it[4].get(behind), it[3]) for it in told if it[0] == int(words[2])], 1)
    if words[0] == "local" and words[1] in rules["local"]:
        return any(re.fullmatch(rf"alerts \d+ 7:{words[1]}", it) for it in row.replies)
    if words[0] == "code":
        return any(it.split()[0] in ("bad", "no") and words[1] in (it.split()[1:2] if it.startswith("bad") else it.split()[2:])
                   for it in row.replies)
    return None


def beside(reports, minutes):
    """Whether one report was refused a minute past the other time, and one accepted at it."""
    def distance(time, other):
        return rows.at(minute(time)) - rows.at(minute(other))
    return any(code == "206" and other and distance(time, other) == minutes for time, other, code in reports) and any(
        code is None and other and distance(time, other) == 0 for time, other, code in reports)


def minute(text):
    clock = re.fullmatch(r"2025-02-20T(\d\d):(\d\d):00Z", text)
    return rows.at(f"{clock[1]}:{clock[2]}")


def is_written(name, text):
    """Whether a file has what rows.py writes, but for the white space that rt fmt changes."""
    def words(text):
        return re.sub(r"\s+|,(?=\s*[}\])])", "", text)
    return words((rows.TARGET / "rows" / f"{name}.rt").read_text()) == words(text)


def main():
    wanted, met, wrong, count = cells(), set(), [], 0
    for group, row in rows.all_rows():
        count += 1
        met |= contexts.shown(row)
        for cell in row.cells:
            if cell not in wanted and cell not in EXTRA:
                wrong.append(f"no cell {cell}: {row.name}")
            elif stands(row, cell) is False:
                wrong.append(f"does not meet {cell}: {row.name}")
            else:
                met.add(cell)
    wrong += [f"other rows are written in {it}.rt" for it, text in rows.texts().items() if not is_written(it, text)]
    still = [it for it in wanted if it not in met]
    for it in wrong + [f"open: {it}" for it in still]:
        print(it)
    print(f"{count} rows, {len(wanted)} cells, {len(still)} open")
    return 1 if wrong or still else 0


if __name__ == "__main__":
    sys.exit(main())
