"""What somebody may see and send. The board judges what a role may do; this judges which flights are his."""
from dataclasses import dataclass
from typing import Any

from words import MILESTONES, ROLES

from .mirror import Mirror
from .scopes import NONE, Record, Scope
from .settings import Partner

# What changes a flight, and what changes the board for all.
OF_A_FLIGHT = ("schedule", "report", "deice", "show")
OF_ALL = ("tick", "load", "unload", "migrate")
NOT_YOURS = "not a flight of yours"
MAY_ONLY_LOOK = "you may only look"
FOR_ALL_FLIGHTS = "it changes all flights, and yours are some"
MILESTONES_OF = {role: frozenset(place["number"] for place in MILESTONES if role in place["owners"]) for role in ROLES}


@dataclass(frozen=True)
class Rights:
    """What somebody is: his role at the board, the flights that he sees, and those for which he sends."""

    role: str
    see: Scope
    send: Scope

    def sees(self, record: Record | None) -> bool:
        return record is not None and self.see.has(record)

    def sends_for(self, record: Record) -> bool:
        return self.see.has(record) and self.send.has(record)


def rights_of(partner: Partner) -> Rights:
    """What a partner is, by the settings."""
    return Rights(partner.role, partner.see, partner.send)


# pylint: disable-next=too-many-return-statements
def refusal(rights: Rights, command: dict[str, Any], mirror: Mirror) -> str | None:
    """Why a command is not sent; nothing where the board may judge it.

    A flight that is not there is refused as one of others is, to whom not all flights are shown.
    """
    name, number = command.get("cmd"), command.get("flight")
    if name in OF_ALL:
        return None if rights.send.is_unbounded else MAY_ONLY_LOOK if rights.send == NONE else FOR_ALL_FLIGHTS
    if name == "alerts":
        return None if rights.see != NONE else NOT_YOURS
    if name not in OF_A_FLIGHT or isinstance(number, bool) or not isinstance(number, int):
        # (the board answers that it is no command, or that a field is of another kind, and makes no entry)
        return None
    record = mirror.flight(number)
    if name == "show":
        return None if rights.see.is_unbounded or rights.sees(record) else NOT_YOURS
    if rights.send == NONE:
        return MAY_ONLY_LOOK
    if record is not None and not rights.sends_for(record):
        return NOT_YOURS
    if name == "schedule" or (name == "report" and command.get("milestone") == 1):
        return None if begins_own(rights, command, record) else NOT_YOURS
    if record is None and not (rights.see.is_unbounded and rights.send.is_unbounded):
        return NOT_YOURS
    return None


def begins_own(rights: Rights, command: dict[str, Any], record: Record | None) -> bool:
    """Whether a flight is his as it would be after a schedule or a flight plan."""
    if rights.see.is_unbounded and rights.send.is_unbounded:
        return True
    callsign, number = command.get("callsign"), command["flight"]
    stand = command.get("stand") if command["cmd"] == "schedule" else record["stand"] if record else 0
    if not isinstance(callsign, str) or isinstance(stand, bool) or not isinstance(stand, int):
        return False
    return rights.see.has_flight(callsign, number, stand) and rights.send.has_flight(callsign, number, stand)
