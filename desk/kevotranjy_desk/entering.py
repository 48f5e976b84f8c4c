"""What a person may enter for a flight, and the command that it becomes."""
import re
from datetime import datetime, timezone
from typing import Any

from words import MILESTONES

from .guard import Refused
from .mirror import Mirror
from .moments import BadTime, instant
from .rights import MILESTONES_OF
from .wording import DEICING

# (those that people report by hand; the plan is what the network manager's system sends)
BY_HAND = frozenset(range(2, 17))
MAY_BE_TAKEN_BACK = frozenset({2, 9})
SETS = {place["number"]: str(place["sets"]).lower() for place in MILESTONES}
TEXT_8, TEXT_4 = re.compile(r"[!-~]{1,8}", re.ASCII), re.compile(r"[!-~]{1,4}", re.ASCII)
GREATEST = 2**64 - 1


def milestones_of(role: str) -> list[int]:
    """The milestones that a person of a role enters, in order."""
    return sorted(MILESTONES_OF.get(role, frozenset()) & BY_HAND)


def flight_number(value: Any) -> int:
    """The number of a flight, which a page has as the text of its digits."""
    if isinstance(value, str) and re.fullmatch(r"[1-9]\d{0,19}", value, re.ASCII) and int(value) <= GREATEST:
        return int(value)
    raise Refused(400, "a flight is a whole number from 1 on")


def moment_of(entered: Any, stands: str | None, may_be_none: bool) -> str | None:
    """The instant that was entered; nothing where a time is taken back."""
    if entered is None:
        if not may_be_none:
            raise Refused(400, "this time can't be taken back")
        return None
    if not isinstance(entered, str):
        raise Refused(400, "write a time as 10:20, in UTC")
    try:
        return instant(entered, datetime.now(timezone.utc), stands)
    except BadTime as why:
        raise Refused(400, str(why)) from None


def report(asked: dict[str, Any], mirror: Mirror) -> dict[str, Any]:
    """A report of a milestone of a flight."""
    number, milestone = flight_number(asked.get("flight")), asked.get("milestone")
    if not isinstance(milestone, int) or isinstance(milestone, bool) or milestone not in BY_HAND:
        raise Refused(400, "no milestone that is entered by hand")
    record = mirror.flight(number) or {}
    time = moment_of(asked.get("time"), record.get(SETS[milestone]), milestone in MAY_BE_TAKEN_BACK)
    return {"cmd": "report", "flight": number, "milestone": milestone, "time": time}


def deice(asked: dict[str, Any], mirror: Mirror) -> dict[str, Any]:
    """A time of de-icing of a flight."""
    number, name = flight_number(asked.get("flight")), asked.get("field")
    if name not in DEICING:
        raise Refused(400, "no time of de-icing")
    record = mirror.flight(number) or {}
    return {
        "cmd": "deice",
        "flight": number,
        "field": name,
        "time": moment_of(asked.get("time"), record.get(name), True),
    }


def limited(asked: dict[str, Any], name: str, most: int) -> int:
    value = asked.get(name)
    if isinstance(value, bool) or not isinstance(value, int) or not 0 <= value <= most:
        raise Refused(400, f"{name.upper()} is a whole number from 0 to {most}")
    return value


def printable(asked: dict[str, Any], name: str, pattern: re.Pattern[str], most: int) -> str:
    value = asked.get(name)
    if not isinstance(value, str) or not pattern.fullmatch(value):
        raise Refused(400, f"{name} has 1 to {most} letters or digits, and no space")
    return value


def schedule(asked: dict[str, Any], mirror: Mirror) -> dict[str, Any]:
    """The schedule of a flight."""
    number = flight_number(asked.get("flight"))
    record = mirror.flight(number) or {}
    return {
        "cmd": "schedule",
        "flight": number,
        "callsign": printable(asked, "callsign", TEXT_8, 8),
        "type": printable(asked, "type", TEXT_4, 4),
        "reg": printable(asked, "reg", TEXT_8, 8),
        "dest": printable(asked, "dest", TEXT_4, 4),
        "sobt": moment_of(asked.get("time"), record.get("sobt"), False),
        "mttt": limited(asked, "mttt", 1440),
        "exit": limited(asked, "exit", 255),
        "exot": limited(asked, "exot", 1440),
        "stand": limited(asked, "stand", 65535),
    }


COMMANDS = {"report": report, "deice": deice, "schedule": schedule}


def command_of(asked: Any, mirror: Mirror) -> dict[str, Any]:
    """The command that was entered; Refused where something is wrong with it, with a word on what."""
    make = COMMANDS.get(str(asked.get("cmd"))) if isinstance(asked, dict) else None
    if make is None:
        raise Refused(400, "report, deice or schedule is entered by hand")
    return make(asked, mirror)
