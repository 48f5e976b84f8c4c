"""The board's words for the desk, from docs/schema/words.json, and how entries and replies are told in them."""
import json
from typing import Any

from feed import Line, clock, words_of
from words import ALERTS, MILESTONES, REFUSALS, ROLES, WORDS

from .board_line import Answer
from .mirror import Entry

DEICING = {
    "eczt": "estimated commencement of de-icing",
    "eezt": "estimated end of de-icing",
    "aczt": "actual commencement of de-icing",
    "aezt": "actual end of de-icing",
}
LINE_FAULTS = {
    int(code): fault["words"] for fault in WORDS["line_faults"] for code in [fault["code"]] if code.isdigit()
}
LINE_FAULT_NAMES = {
    100: "words", 101: "no_json", 102: "no_command", 103: "field_kind", 104: "field_range", 105: "too_long",
    106: "no_clock", 501: "no_memory", 502: "full_journal",
}  # fmt: skip
REFUSAL_NAMES: dict[int, str] = {refusal["code"]: refusal["name"] for refusal in WORDS["refusals"]}
PROGRAM_FAULTS: dict[int, str] = {fault["code"]: fault["words"] for fault in WORDS["program_faults"]}
TIMES = "sobt eobt ctot otot eldt aldt aibt acgt tobt tsat asbt ardt asrt asat aobt atot eczt eezt aczt aezt".split()
TOLD = [*TIMES, "stand", "callsign", "scheduled_type", "plan_type", "scheduled_reg", "plan_reg"]


def milestone_words(number: int) -> str:
    return str(MILESTONES[number - 1]["short"]) if 1 <= number <= len(MILESTONES) else f"milestone {number}"


def command_words(command: Line) -> str:
    """What a command asks for."""
    name = command.get("cmd")
    if name == "report":
        return milestone_words(int(command.get("milestone", 0))) + (
            " taken back" if command.get("time") is None else ""
        )
    if name == "deice":
        text = DEICING.get(str(command.get("field")), "de-icing")
        return text + (" taken back" if command.get("time") is None else "")
    return str(name)


def refusal_name(code: int) -> str:
    return REFUSAL_NAMES.get(code) or LINE_FAULT_NAMES.get(code) or ("program" if code in PROGRAM_FAULTS else "refused")


def refusal_words(code: int) -> str:
    return REFUSALS.get(code) or LINE_FAULTS.get(code) or PROGRAM_FAULTS.get(code) or f"refused with {code}"


def answer_words(command: Line, answer: Answer) -> str:
    """A reply in words, for who entered the command."""
    what = command_words(command)
    if answer.code:
        return f"{what} refused: {refusal_words(answer.code)} ({answer.text})"
    time = f" {clock(command['time'])}" if isinstance(command.get("time"), str) else ""
    return f"{what}{time} entered" + (f" ({answer.note})" if answer.note else "")


def shown(name: str, value: Any) -> str:
    """A value of a record as people read it."""
    if name in TIMES:
        return clock(value) or "–"
    return str(value) if value not in ("", None) else "–"


def change_words(entry: Entry, number: int) -> list[str]:
    """What an entry changed of a flight."""
    change = next((it for it in entry.changes if it.after["flight"] == number), None)
    if change is None:
        return []
    before = change.before or {}
    found = []
    for name in TOLD:
        if (
            name in change.fields
            and change.fields[name] not in (None, "", 0, before.get(name))
            or (name in change.fields and before.get(name) not in (None, "", 0))
        ):
            label = name.upper() if name in TIMES else name.replace("_", " ")
            was = f"{shown(name, before.get(name))} → " if before.get(name) not in (None, "", 0) else ""
            found.append(f"{label} {was}{shown(name, change.fields[name])}")
    old, new = set(before.get("alerts", [])), set(change.after["alerts"])
    found += [f"+ {words_of(name)}" for name in sorted(new - old)]
    found += [f"− {words_of(name)}" for name in sorted(old - new)]
    return found


def event_of(entry: Entry, number: int, who: str | None) -> dict[str, Any]:
    """An entry of a flight's history: when, who, what, and what came of it."""
    return {
        "entry": entry.number,
        "minute": entry.minute,
        "role": entry.role,
        "who": who or f"{entry.role}, session {entry.session}",
        "what": command_words(entry.command),
        "changes": change_words(entry, number),
        "refused": refusal_words(entry.code) if entry.code else None,
        "code": entry.code or None,
    }


def page_words() -> str:
    """A script that has the words for the page."""
    found = {
        "roles": ROLES,
        "milestones": [
            {key: place[key] for key in ("number", "short", "owners", "sets", "barred_by")} for place in MILESTONES
        ],
        "alerts": ALERTS,
        "refusals": REFUSALS,
        "deicing": DEICING,
    }
    return f"const WORDS = {json.dumps(found, separators=(',', ':'))};\n"
