#!/usr/bin/env python3
"""The words of the board for clients, and what is written from them in docs/RULES.md and docs/CONNECT.md.

    clients/words.py --write
    clients/words.py --check

docs/schema/words.json holds the roles, milestones, alerts and codes in words. What is written from it stands between
`<!-- words: NAME -->` and `<!-- end of words -->`. The page for browsers gets its words by clients/web/embed.py.
--check writes nothing; its status is 1 where a part differs, of docs/RULES-IN-C.md too. Outside what is proved.
"""
import json
import re
import sys
from pathlib import Path
from typing import Any

TOP = Path(__file__).resolve().parents[1]
FILE = TOP / "docs" / "schema" / "words.json"
DOCUMENTS = [TOP / "docs" / "RULES.md", TOP / "docs" / "CONNECT.md"]
RULES_IN_C = TOP / "docs" / "RULES-IN-C.md"
PART = re.compile(r"(<!-- words: (\w+) -->\n?)(.*?)(\n?<!-- end of words -->)", re.DOTALL)

WORDS: dict[str, Any] = json.loads(FILE.read_text(encoding="utf-8"))
ROLES: dict[str, str] = WORDS["roles"]
MILESTONES: list[dict[str, Any]] = WORDS["milestones"]
ALERTS: dict[str, str] = {alert["name"]: alert["words"] for alert in WORDS["alerts"]}
# (the roles that can end an alert, by the milestones that they own)
TURNS: dict[str, list[str]] = {alert["name"]: alert["turn"] for alert in WORDS["alerts"]}
REFUSALS: dict[int, str] = {refusal["code"]: refusal["words"] for refusal in WORDS["refusals"]}
MENDS: dict[int, str] = {fault["code"]: fault["mend"] for fault in WORDS["program_faults"]}


def row(cells: list[Any]) -> str:
    return "|" + "|".join(f" {cell} " if str(cell) else " " for cell in cells) + "|"


def table(heads: list[str], rows: list[list[Any]]) -> str:
    return "\n".join([row(heads), "|" + "---|" * len(heads), *map(row, rows)])


def milestones_table() -> str:
    heads = ["", "Milestone", "Owner", "Sets", "Needs reached", "Needs set", "Barred once reached"]
    rows = [
        [place["number"], place["name"], ", ".join(place["owners"]), place["sets"]]
        + [", ".join(map(str, place["needs"])), place["needs_set"], place["barred_by"]]
        for place in MILESTONES
    ]
    return table(heads, rows)


def alerts_table() -> str:
    rows = [[alert[name] for name in ("name", "bit", "subject", "words", "condition")] for alert in WORDS["alerts"]]
    rows.append(["LOC00 to LOC15", "16 to 31", "local alerts", "local alert 00 to 15", "set by local programs alone"])
    return table(["Alert", "Bit", "Subject", "In displays", "Condition at the moment `now`"], rows)


def codes_table(name: str) -> str:
    rows = [[code["code"], code["words"], code["remedy"]] for code in WORDS[name]]
    return table(["Code", "Meaning", "What to do"], rows)


def roles_text() -> str:
    return ", ".join(f"`{role}` {words}" for role, words in ROLES.items())


def owners_text() -> str:
    """The milestones of each role."""
    owned = {role: [str(place["number"]) for place in MILESTONES if role in place["owners"]] for role in ROLES}
    return "; ".join(f"`{role}` {', '.join(numbers)}" for role, numbers in owned.items() if numbers)


def parts() -> dict[str, str]:
    """What stands between marks, by name."""
    return {
        "roles": roles_text(),
        "owners": owners_text(),
        "milestones": milestones_table(),
        "alerts": alerts_table(),
        "line_faults": codes_table("line_faults"),
        "refusals": codes_table("refusals"),
    }


def written(text: str) -> str:
    """A document with its parts as they are to be."""
    return PART.sub(lambda found: found[1] + parts().get(found[2], found[3]) + found[4], text)


def differences() -> list[str]:
    """What is not written as the words say."""
    found = [
        f"{document.relative_to(TOP)}: differs from docs/schema/words.json"
        for document in DOCUMENTS
        if (text := document.read_text(encoding="utf-8")) != written(text)
    ]
    marked = {name for document in DOCUMENTS for _, name, *_ in PART.findall(document.read_text(encoding="utf-8"))}
    found += [f"no document has the part {name}" for name in parts() if name not in marked]
    faults = [row([fault["code"], fault["words"], fault["mend"]]) for fault in WORDS["program_faults"]]
    if "\n".join(faults) not in RULES_IN_C.read_text(encoding="utf-8"):
        found.append("docs/RULES-IN-C.md: its table of numbers differs from docs/schema/words.json")
    return found


def main(arguments: list[str]) -> int:
    if arguments not in (["--write"], ["--check"]):
        print("words.py: one word is wanted, --write or --check", file=sys.stderr)
        return 2
    if arguments == ["--write"]:
        for document in DOCUMENTS:
            document.write_text(written(document.read_text(encoding="utf-8")), encoding="utf-8")
    faults = differences()
    for fault in faults:
        print(f"words.py: {fault}", file=sys.stderr)
    return 1 if faults else 0


if __name__ == "__main__":
    sys.exit(main(sys.argv[1:]))
