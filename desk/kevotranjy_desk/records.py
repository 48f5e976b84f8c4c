"""A record as a reply of `show` has it, and the flights of a reply of `alerts`, by the names that the feed uses."""
import re
from datetime import datetime, timedelta, timezone
from typing import Any

from record import DEICING, TIMES, alert_names, record_of

EPOCH = datetime(1970, 1, 1, tzinfo=timezone.utc)
LISTED = re.compile(r"(\d+):([A-Za-z0-9,]+)")
SHORT = {"registration": "reg", "destination": "dest", "planned": "plan"}


def instant_of(minute: int) -> str | None:
    """A minute as an instant, or nothing for 0; ISO 8601, with five digits for a year after 9999."""
    if not minute:
        return None
    try:
        return (EPOCH + timedelta(minutes=minute)).strftime("%Y-%m-%dT%H:%M:00Z")
    except OverflowError:
        # (the calendar repeats after 400 years, which have 146,097 days)
        years, rest = divmod(minute, 146097 * 1440)
        moment = EPOCH + timedelta(minutes=rest)
        return f"{moment.year + 400 * years}{moment:-%m-%dT%H:%M:00Z}"


def field_name(name: str) -> str:
    """A name of the record as the feed has it: `planned registration` is `plan_reg`."""
    return "_".join(SHORT.get(word, word) for word in name.lower().split())


def shown_record(digits: str) -> dict[str, Any]:
    """The record of a reply `rec N HEX`, by the names of the feed. ValueError where it is none."""
    try:
        values = record_of(digits)
    except KeyError:
        raise ValueError(f"a record of {len(digits)} digits") from None
    found: dict[str, Any] = {}
    for name, value in values.items():
        if name in TIMES or name in DEICING:
            found[name.lower()] = instant_of(value)
        elif name == "reached":
            found[name] = [bit for bit in range(17) if value >> bit & 1]
        elif name == "alerts":
            found[name] = alert_names(value)
        elif name != "layout":
            found[field_name(name)] = value
    return found


def alerted(text: str) -> list[dict[str, Any]]:
    """The flights of a reply `alerts N LIST`, each with its alerts."""
    return [{"flight": int(flight), "alerts": names.split(",")} for flight, names in LISTED.findall(text)]


def unloaded(text: str) -> list[dict[str, Any]]:
    """The programs of a reply `migrated N LIST` that were unloaded, and why."""
    parts = [part.split(":") for part in text.split(";") if text != "-"]
    return [
        {"milestone": int(milestone), "kind": kind, "code": int(code), "slot": int(slot)}
        for milestone, kind, code, slot in parts
    ]
