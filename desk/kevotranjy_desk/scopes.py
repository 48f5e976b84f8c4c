"""Which flights somebody may see, and for which he may send: by call sign, by flight, by stand."""
from collections.abc import Mapping
from dataclasses import dataclass
from typing import Any

Record = Mapping[str, Any]


@dataclass(frozen=True)
class Clause:
    """Flights that meet each kind that is named: an empty one is not asked for."""

    airlines: tuple[str, ...] = ()
    flights: frozenset[int] = frozenset()
    stands: tuple[tuple[int, int], ...] = ()

    def has(self, callsign: str, flight: int, stand: int) -> bool:
        """Whether a flight meets it. A stand lies from the first to the last of a pair, both counted."""
        return (
            (not self.airlines or callsign.startswith(self.airlines))
            and (not self.flights or flight in self.flights)
            and (not self.stands or any(first <= stand <= last for first, last in self.stands))
        )


@dataclass(frozen=True)
class Scope:
    """Flights that meet one of its clauses; all flights where it is unbounded."""

    clauses: tuple[Clause, ...] = ()
    is_unbounded: bool = False

    def has(self, record: Record) -> bool:
        """Whether a record of the feed lies in it."""
        return self.has_flight(record["callsign"], record["flight"], record["stand"])

    def has_flight(self, callsign: str, flight: int, stand: int) -> bool:
        return self.is_unbounded or any(clause.has(callsign, flight, stand) for clause in self.clauses)


ALL = Scope(is_unbounded=True)
NONE = Scope()
