"""What rows show of flights without a schedule, of layout 2, of later milestones and of programs. It is no script: check.py uses it.

All of it is computed from the lines of a row and the replies beside them. An alert is shown in a context where a row is replied with it
and without it there, and as standing to the end where it is replied behind 15 and behind 16. A program is shown where it ran and the
next line asks for the alerts or the record.
"""

KINDS = ("tobt", "alert")
MILESTONES = range(1, 17)


def cells(rules):
    """All cells of this kind."""
    given = rules["contexts"]
    found = [f"alert {name} {context}" for context, names in given["alerts"].items() for name in names]
    found += [f"alert {name} standing behind {it}" for name in given["standing"] for it in (15, 16)]
    found += [f"layout 2 code {code}" for code in given["codes of layout 2"]]
    for kind in KINDS:
        found += [f"program {kind} of {it}{layout}" for it in MILESTONES for layout in ("", ", layout 2")]
        found += [f"program {kind} reads r{it}" for it in (1, 2, 3, 4)]
        found += [f"program {kind} of {it} without a time" for it in rules["may_have_no_time"]]
    return found


def registers(program):
    """The registers from r1 to r4 that the instructions of a program read."""
    data, found = bytes.fromhex(program), set()
    for at in range(0, len(data), 8):
        family, is_register = data[at] & 7, bool(data[at] & 8)
        if family == 1 or family in (4, 5, 6, 7) and is_register and data[at] != 0x95:
            found.add(data[at + 1] >> 4)
        if family in (5, 6) and data[at] not in (0x05, 0x06, 0x85, 0x95) or family in (4, 7) and data[at] >> 4 != 0xB:
            found.add(data[at + 1] & 15)
    return found & {1, 2, 3, 4}


class Flight:
    """What accepted lines have said of a flight."""

    def __init__(self):
        self.sobt = self.eobt = None
        self.reached = set()

    def contexts(self, layout):
        """The contexts that it stands in."""
        held = {
            "without a schedule": self.sobt is None and 1 in self.reached,
            "with SOBT other than EOBT": self.sobt and self.eobt and self.sobt != self.eobt,
            "of layout 2": layout == 2,
            "behind 10": 10 in self.reached,
            "behind 14": 14 in self.reached and 15 not in self.reached,
        }
        return [name for name, holds in held.items() if holds]


class Shown:
    """What a row shows, line by line."""

    def __init__(self):
        self.flights, self.programs, self.layout = {}, {}, 1
        self.met, self.with_it, self.without_it, self.ran = set(), set(), set(), set()

    def line(self, command, reply):
        kind, *rest = reply.split()
        if self.ran and command["cmd"] in ("alerts", "show"):
            self.met |= self.ran
        self.ran = set()
        if kind == "no":
            self.met |= {f"layout 2 code {rest[1]}"} if self.layout == 2 else set()
        elif kind != "bad":
            getattr(self, command["cmd"], self.other)(command, rest)

    def other(self, command, rest):
        pass

    def schedule(self, command, _rest):
        self.flights.setdefault(command["flight"], Flight()).sobt = command["sobt"]

    def report(self, command, _rest):
        flight, milestone = self.flights.setdefault(command["flight"], Flight()), command["milestone"]
        flight.reached.add(milestone)
        if milestone == 1:
            flight.eobt = command["time"]
        for kind in KINDS:
            program = self.programs.get((milestone, kind))
            if program:
                named = f"program {kind} of {milestone}"
                self.ran |= {named if self.layout == 1 else f"{named}, layout 2"}
                self.ran |= {f"program {kind} reads r{it}" for it in registers(program)}
                self.ran |= {f"{named} without a time"} if command["time"] is None else set()

    def load(self, command, _rest):
        self.programs[command["milestone"], command["kind"]] = command["program"]

    def unload(self, command, _rest):
        self.programs.pop((command["milestone"], command["kind"]), None)

    def migrate(self, _command, rest):
        self.layout = 2
        for one in rest[1].split(";") if rest[1] != "-" else ():
            milestone, kind = one.split(":")[:2]
            del self.programs[int(milestone), kind]

    def alerts(self, _command, rest):
        told = dict(it.split(":") for it in rest[1].split(";")) if rest[1] != "-" else {}
        for number, flight in self.flights.items():
            names = set(told.get(str(number), "").split(","))
            for context in flight.contexts(self.layout):
                self.with_it |= {(name, context) for name in names}
                self.without_it |= {(name, context) for name in ALERTS - names}
            last = max(flight.reached & {15, 16}, default=0)
            self.met |= {f"alert {name} standing behind {last}" for name in names}

    def all(self):
        return self.met | {f"alert {name} {context}" for name, context in self.with_it & self.without_it}


ALERTS = {f"CDM{number:02}" for number in range(1, 15)} | {"CDM07a"}


def shown(row):
    """The cells that a row shows."""
    found = Shown()
    for said, reply in zip(row.said, row.replies):
        if said:
            found.line(said[2], reply)
    return found.all()
