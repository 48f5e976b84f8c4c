"""The walks: flights that go through all sixteen milestones, one line of a partner after the other. It is no script: run.py uses it.

A line is `MOMENT ROLE WORDS`, and `-> CODE` behind it where it is refused. A moment and a time are clock times of 20 February 2025, and
`-` is no time. WORDS are `schedule CALLSIGN TYPE REG DEST SOBT MTTT EXIT EXOT STAND`, `M TIME` for milestone M, with `CALLSIGN TYPE REG
DEST` behind it for milestone 1, `eczt TIME` and the like, `load M KIND PROGRAM`, `unload M KIND`, `migrate` and `tick`; `F:` before them
names another flight than 7. Times of de-icing are refused with 325 before the board is migrated, which stands in no line.
"""

import table

# Each time is given, given again, and where it may be, taken back and given again. Nothing else is sent between.
PATH = """
8:01 NM 1 10:00 DLH7 A320 DAIBC EDDM
8:01 DIC eczt 9:40
8:01 DIC eezt 9:55
8:01 DIC aczt 9:41
8:01 DIC aezt 9:56
8:02 NM 2 -
8:02 NM 2 10:15
8:03 NM 2 -
8:04 NM 2 10:20
8:05 NM 3 7:30
8:06 NM 3 7:31
8:07 NM 1 10:01 BAW2 B738 GABCD EGLL
8:07 NM 1 10:00 DLH7 A320 DAIBC EDDM
8:08 ATC 4 8:40
8:09 ATC 5 8:41
8:10 ATC 4 8:42
8:10 ATC 5 8:39
8:11 ATC 6 8:43
8:12 ATC 6 8:44
8:12 NM 2 10:21
8:13 APT 7 8:50
8:14 APT 7 8:51
8:15 GH 8 8:55
8:16 GH 8 8:56
8:16 DIC eczt 9:50
8:16 DIC eezt 9:58
8:17 AO 9 -
8:17 AO 9 10:00
8:18 GH 9 -
8:19 GH 9 10:02
8:20 ATC 10 10:03
8:21 AO 9 -
8:22 AO 9 10:04
8:23 ATC 10 10:05
8:24 ATC 10 10:06
8:24 AO 9 10:03
8:25 NM 2 -
8:26 NM 2 10:25
8:26 DIC eczt -
8:26 DIC eczt 9:51
8:27 GH 11 9:40
8:27 AO 11 9:41
8:28 AO 12 9:55
8:28 GH 12 9:56
8:28 AO 9 -
8:28 AO 9 10:03
8:28 ATC 10 10:06
8:28 NM 1 10:02 DLH7 A320 DAIBC EDDM
8:29 ATC 13 9:57
8:29 ATC 13 9:58
8:29 GH 9 -
8:29 AO 9 10:02
8:29 ATC 10 10:06
8:30 NM 1 10:00 DLH7 A320 DAIBC EDDM
8:30 GH 8 8:57
8:30 APT 7 8:52
8:31 ATC 14 10:04
8:32 ATC 14 10:05
8:32 ATC 13 9:59
8:32 ATC 10 10:07
8:32 AO 11 9:42
8:32 GH 12 9:57
8:32 NM 1 10:00 DLH8 A320 DAIBC EDDM
8:32 DIC aczt 9:52
8:32 DIC aezt 9:57
8:32 DIC aezt -
8:32 DIC aezt 9:59
8:33 APT 15 10:06
8:34 ATC 15 10:07
8:34 NM 2 -
8:34 NM 2 10:26
8:34 DIC eezt -
8:34 DIC eezt 9:59
8:34 DIC aczt 9:52
8:35 ATC 16 10:15
8:36 APT tick
"""

# What belongs to the departure comes before what belongs to the arrival.
DEPARTURE_FIRST = """
8:01 NM 1 10:00 DLH7 A320 DAIBC EDDM
8:01 DIC eczt 9:40
8:01 DIC eezt 9:55
8:01 DIC aczt 9:41
8:01 DIC aezt 9:56
8:02 AO 9 10:00
8:02 ATC 10 10:01
8:02 GH 11 9:40
8:02 AO 12 9:55
8:02 ATC 13 9:58
8:02 ATC 14 10:02
8:03 NM 2 10:20
8:03 NM 2 -
8:03 NM 2 10:21
8:04 ATC 4 8:40
8:04 NM 3 7:30
8:05 ATC 5 8:41
8:05 NM 3 7:31
8:06 ATC 6 8:42
8:06 ATC 6 8:43
8:07 APT 7 8:50
8:08 GH 8 8:55
8:08 GH 8 8:56
8:08 APT 7 8:51
8:09 NM 1 10:00 DLH7 A320 DAIBC EDDM
8:10 ATC 15 10:03
8:11 ATC 16 10:15
8:12 APT tick
"""

# The same flight, each of whose alerts that asks for its fields is raised and cleared on its way, and raised again to the end.
ALERTED = """
8:01 NM 1 10:00 DLH7 A320 DAIBC EDDM
8:01 NM 1 10:05 DLH7 A320 DAIBC EDDM
8:01 NM 1 10:06 DLH7 A321 DAIBC EDDM
8:01 NM 1 10:04 DLH7 A320 DAIBD EDDM
8:01 NM 1 10:05 DLH7 A320 DAIBC EDDF
8:01 NM 1 10:00 DLH7 A320 DAIBC EDDM
8:02 ATC 4 9:15
8:02 ATC 4 9:16
8:02 ATC 5 9:59
8:02 ATC 5 10:00
8:02 ATC 5 10:01
8:02 ATC 5 9:20
8:02 ATC 5 9:21
8:03 ATC 6 9:16
8:03 ATC 6 9:15
8:03 ATC 6 10:00
8:03 ATC 6 10:01
8:03 ATC 6 9:00
8:04 APT 7 9:21
8:04 APT 7 10:00
8:04 APT 7 10:01
8:04 APT 7 9:20
8:05 AO 9 10:15
8:05 AO 9 10:16
8:05 AO 9 9:45
8:05 AO 9 9:44
8:05 AO 9 -
8:05 AO 9 9:59
8:05 AO 9 10:00
8:05 AO 9 10:01
8:05 NM 1 10:16 DLH7 A320 DAIBC EDDM
8:05 NM 1 10:17 DLH7 A320 DAIBC EDDM
8:05 NM 1 9:46 DLH7 A320 DAIBC EDDM
8:05 NM 1 9:45 DLH7 A320 DAIBC EDDM
8:05 NM 1 10:00 DLH7 A320 DAIBC EDDM
9:50 APT tick
9:51 APT tick
9:50 GH 8 10:02
8:06 AO 9 -
8:06 AO 9 10:01
9:51 AO 9 10:01
9:51 AO 9 10:02
8:07 ATC 10 10:03
10:08 APT tick
10:09 APT tick
10:08 ATC 10 10:03
10:09 ATC 10 10:03
8:07 ATC 10 10:03
8:07 NM 1 10:05 DLH7 A321 DAIBC EDDM
8:07 NM 1 10:00 DLH7 A320 DAIBD EDDM
8:07 NM 1 10:00 DLH7 A320 DAIBC EDDF
8:07 AO 9 -
8:07 AO 9 9:44
8:07 AO 9 9:45
8:07 ATC 10 10:03
8:07 APT 7 9:05
8:07 APT 7 9:06
9:35 GH 12 9:36
9:35 GH 11 9:36
8:08 NM 1 10:00 DLH7 A320 DAIBC EDDM
8:08 NM 1 10:05 DLH7 A321 DAIBD EDDF
8:08 ATC 13 9:00
10:09 ATC 13 9:57
8:09 AO 9 9:45
8:09 AO 9 9:44
8:10 ATC 14 10:08
10:09 APT tick
8:10 ATC 14 10:09
8:10 ATC 14 9:58
8:10 ATC 14 9:57
8:10 ATC 10 10:02
8:10 NM 1 10:05 DLH7 A320 DAIBC EDDM
8:10 NM 1 9:30 DLH7 A321 DAIBD EDDF
8:10 NM 1 9:29 DLH7 A321 DAIBD EDDF
8:11 APT 7 9:21
8:12 APT 15 10:06
8:12 APT 15 10:07
8:13 NM 2 10:20
8:14 ATC 16 10:15
10:30 APT tick
"""

# The last step is off-block: a target that stands, boarding not started, and no alert of it from then on.
UNBOARDED = """
8:01 NM 1 10:00 DLH7 A320 DAIBC EDDM
8:02 AO 9 10:00
9:49 ATC 10 10:01
9:50 ATC 10 10:01
9:50 ATC 13 9:58
10:07 APT tick
10:07 ATC 14 10:01
9:49 ATC 14 10:01
9:50 ATC 14 10:01
9:50 ATC 14 10:06
9:50 ATC 14 10:07
9:50 APT 15 10:03
9:51 NM 2 10:20
9:52 ATC 15 10:04
9:52 ATC 16 10:12
11:00 APT tick
"""

# What is refused where, and leaves the flight as it is.
SCHEDULED_ALONE = """
8:00 NM 2 10:20 -> 203
8:00 NM 2 - -> 203
8:00 NM 3 7:30 -> 203
8:00 ATC 4 8:40 -> 203
8:00 ATC 5 8:40 -> 203
8:00 ATC 6 8:40 -> 203
8:00 APT 7 8:40 -> 203
8:00 GH 8 8:40 -> 203
8:00 AO 9 10:00 -> 203
8:00 AO 9 - -> 203
8:00 ATC 10 10:00 -> 203
8:00 AO 11 10:00 -> 203
8:00 GH 12 10:00 -> 203
8:00 ATC 13 10:00 -> 203
8:00 ATC 14 10:00 -> 203
8:00 APT 15 10:00 -> 203
8:00 ATC 16 10:00 -> 203
8:00 DIC eczt 9:50 -> 203
"""

REFUSED = """
8:01 NM 1 10:00 DLH7 A320 DAIBC EDDM
8:01 AO 1 10:01 DLH8 A321 DAIBD EDDF -> 201
8:02 APT 7 8:50 -> 203
8:02 GH 8 8:50 -> 203
8:02 ATC 10 10:00 -> 205
8:02 AO 11 10:00 -> 205
8:02 GH 12 10:00 -> 205
8:02 ATC 13 10:00 -> 203
8:02 ATC 14 10:00 -> 203
8:02 ATC 15 10:00 -> 203
8:02 ATC 16 10:00 -> 203
8:03 ATC 6 8:43
8:03 NM 3 7:30 -> 204
8:03 ATC 4 8:30 -> 204
8:03 ATC 5 8:30 -> 204
8:04 APT 7 8:42 -> 206
8:04 APT 7 8:43
8:04 ATC 6 8:40 -> 204
8:05 GH 8 8:42 -> 206
8:05 GH 8 8:43
8:05 APT 7 8:44 -> 206
8:06 AO 9 10:00
8:06 NM 9 10:01 -> 201
8:06 ATC 13 9:58 -> 203
8:07 ATC 10 10:01
8:07 AO 9 -
8:07 ATC 10 10:00 -> 205
8:07 GH 11 10:00 -> 205
8:07 AO 12 10:00 -> 205
8:07 ATC 13 10:00 -> 205
8:08 AO 9 10:00
8:08 ATC 13 9:58 -> 205
8:08 ATC 14 9:58 -> 203
8:08 ATC 10 10:01
8:09 ATC 13 9:58
8:09 ATC 15 10:00 -> 203
8:09 AO 9 -
8:09 ATC 14 9:58 -> 205
8:09 ATC 13 9:58 -> 205
8:09 AO 9 10:00
8:09 ATC 14 9:58 -> 205
8:09 ATC 10 10:01
8:10 ATC 14 9:57 -> 206
8:10 ATC 14 9:58
8:10 ATC 13 9:59 -> 206
8:10 AO 9 10:05 -> 204
8:10 AO 9 - -> 204
8:10 GH 9 10:05 -> 204
8:11 ATC 16 10:12 -> 203
8:11 APT 15 10:03
8:11 NM 1 10:05 DLH8 A321 DAIBD EDDF -> 204
8:11 APT 7 8:43 -> 204
8:11 GH 8 8:43 -> 204
8:11 AO 9 10:05 -> 204
8:11 ATC 10 10:05 -> 204
8:11 AO 11 9:45 -> 204
8:11 GH 12 9:45 -> 204
8:11 ATC 13 9:45 -> 204
8:11 ATC 14 10:05 -> 204
8:12 ATC 16 10:02 -> 206
8:12 ATC 16 10:03
8:12 NM 2 10:20 -> 204
8:12 NM 2 - -> 204
8:12 ATC 15 10:03 -> 204
8:12 ATC 16 10:20 -> 204
8:12 NM 3 7:30 -> 204
8:12 ATC 4 7:30 -> 204
8:12 ATC 5 7:30 -> 204
8:12 ATC 6 7:30 -> 204
8:12 NM 1 10:05 DLH8 A321 DAIBD EDDF -> 204
8:13 NM tick -> 201
"""

# A time of de-icing computes the alerts anew, whichever time it is: at 9:49 there is none of the target, and from 9:50 on there is.
TOUCHES = """
8:01 NM 1 10:00 DLH7 A320 DAIBC EDDM
8:01 NM 2 10:15
8:01 NM 3 7:30
8:01 ATC 4 8:40
8:01 ATC 6 8:41
8:01 APT 7 8:42
8:01 GH 8 8:43
8:01 AO 9 10:00
8:01 ATC 10 10:01
8:01 AO 12 9:57
8:01 ATC 13 9:58
8:01 ATC 14 10:02
8:01 DIC eezt 10:30
8:01 DIC aczt 7:00
8:01 DIC aezt 10:31
"""


def touched_by_times():
    """The walk, with each time that stands, none, and each again as the estimated commencement, at both moments."""
    clocks = (
        "10:00",
        "10:05",
        "10:15",
        "7:30",
        "8:40",
        "8:41",
        "8:42",
        "8:43",
        "10:01",
        "9:57",
        "9:58",
        "10:02",
        "10:30",
        "7:00",
        "-",
        "-",
    )
    walk = lines(TOUCHES)
    for clock in clocks:
        walk += ["9:49 APT tick", f"9:50 DIC eczt {clock}", "9:49 APT tick", f"9:50 DIC eczt {clock}"]
    return walk + [
        "9:49 APT tick",
        "9:50 DIC aezt -",
        "9:49 APT tick",
        "9:50 DIC aezt 10:31",
        "9:49 APT tick",
        "9:50 DIC aezt 10:31",
    ]


# Two flights, the one of the greater number first, whose lines alternate.
TWO = """
7:00 APT 9: schedule DLH9 A320 DAIBC EDDM 10:05 40 5 10 12
7:00 NM 8: 1 10:00 BAW8 B738 GABCD EGLL
7:05 APT tick
8:01 NM 9: 1 10:00 DLH9 A320 DAIBC EDDM
8:02 APT 8: schedule BAW8 B738 GABCE EGLL 10:00 30 6 11 120
8:03 ATC 8: 6 9:00
8:03 ATC 9: 6 9:10
8:03 APT 9: 7 9:16
8:03 APT 8: 7 9:05
8:04 AO 9: 9 10:00
8:04 GH 8: 9 10:05
8:05 ATC 9: 10 10:02
8:05 ATC 8: 10 10:06
9:50 APT tick
9:55 APT tick
8:06 AO 9: 9 -
8:07 GH 8: 11 9:40
8:07 AO 9: 9 10:01
8:08 ATC 9: 10 10:02
10:08 APT tick
10:12 APT tick
8:09 ATC 8: 13 10:00
8:09 ATC 9: 13 10:00
8:10 ATC 9: 14 10:02
8:10 ATC 8: 14 10:12
8:10 DIC 9: eczt 9:50
8:10 DIC 8: aezt 9:50
8:11 APT 8: 15 10:13
8:11 ATC 8: 16 10:20
8:12 APT 9: 15 10:05
8:12 ATC 9: 16 10:21
12:00 APT tick
"""

SCHEDULES = {
    # (SOBT is another than EOBT, and what may be 0 is 0)
    "scheduled with zeros": "8:00 APT schedule DLH7 A320 DAIBC EDDM 10:05 0 0 0 0",
    "scheduled": "8:00 APT schedule DLH7 A320 DAIBC EDDM 10:05 40 5 10 12",
    "scheduled, an earlier SOBT": "8:00 APT schedule DLH7 A320 DAIBC EDDM 9:50 40 5 10 12",
    # (a second schedule before the plan sets all anew)
    "scheduled twice": "6:59 APT schedule BAW2 B738 GABCD EGLL 10:00 45 15 20 120\n7:05 APT schedule DLH7 A321 DAIBD EDDF 10:05 40 5 10 12",
}


def lines(text):
    return [line for line in text.splitlines() if line]


def scheduled_late(path, schedule, before=None):
    """The path with its schedule behind the flight plan, which is the first line, or before the first line that has a text."""
    path = lines(path)
    place = next(at for at, line in enumerate(path) if before in line) if before else 1
    return path[:place] + lines(schedule) + path[place:]


def migrated(walk, place):
    """The walk with the migrate before the line at a place."""
    moment = walk[min(place, len(walk) - 1)].split()[0]
    return [*walk[:place], f"{moment} APT migrate", *walk[place:]]


def with_programs(walk, of_milestone):
    """The walk behind the loads of programs of both kinds for each milestone."""
    return [
        f"7:30 APT load {it} {kind} {name}" for it in range(1, 17) for kind, name in of_milestone(it).items()
    ] + walk


def plain_walks():
    """Each path unscheduled and by each schedule, on layout 1."""
    for path, text in (
        ("path", PATH),
        ("alerts", ALERTED),
        ("unboarded", UNBOARDED),
        ("departure first", DEPARTURE_FIRST),
    ):
        yield f"{path}, unscheduled", lines(text)
        for name, schedule in SCHEDULES.items():
            yield f"{path}, {name}", lines(schedule) + lines(text)
        yield f"{path}, scheduled behind its plan", scheduled_late(text, SCHEDULES["scheduled"])
        yield f"{path}, scheduled before it is off-block", scheduled_late(text, SCHEDULES["scheduled"], " 15 ")
        yield f"{path}, scheduled at its end", lines(text) + lines(SCHEDULES["scheduled"])
    early = ["8:01 NM 2 10:20", "8:01 NM 3 7:30", "8:01 DIC aczt 9:50"]
    for name in ("scheduled", "scheduled with zeros"):
        first, *others = lines(ALERTED)
        yield f"alerts, {name}, with a slot and a take-off elsewhere", [*lines(SCHEDULES[name]), first, *early, *others]
    boarding = ["8:01 GH 11 9:40", "10:06 APT tick", "10:07 DIC eczt 9:40", "10:06 APT tick", "10:07 DIC eczt 9:40"]
    yield "touches by times of de-icing, boarding", [it for it in lines(TOUCHES) if " 14 " not in it] + boarding
    yield "refused", lines(SCHEDULES["scheduled with zeros"]) + lines(SCHEDULED_ALONE) + lines(REFUSED)
    yield "refused, unscheduled", lines(REFUSED)
    yield "touches by times of de-icing, unscheduled", touched_by_times()
    yield "touches by times of de-icing", lines(SCHEDULES["scheduled"]) + touched_by_times()
    yield "two flights", lines(TWO)


FIELDS = [name for name, _, _ in table.LAYOUT]
REGISTERS = ("r1", "r2", "r3", "r4", "r10")


def program_walks():
    """Programs of both kinds at every milestone, which answer a register, a number, a time from now on, or a field."""
    bases = [
        (name, walk) for name, walk in plain_walks() if name in ("path, unscheduled", "path, scheduled with zeros")
    ]
    for name, walk in bases:
        for one in (*REGISTERS, "0", "2", "now+1440", "now+1441", "now-1"):
            yield f"{name}, programs of {one}", with_programs(walk, lambda _, one=one: {"tobt": one, "alert": one})
        # Programs of one kind of a milestone that go on the way: what they raised stays, and those of the other kind run on.
        half, loaded = len(walk) // 2, with_programs(walk, lambda _: {"tobt": "now+1440", "alert": "r4"})
        gone = [f"8:20 APT unload {it} {('tobt', 'alert')[it % 2]}" for it in range(1, 17)]
        yield f"{name}, programs that are unloaded", loaded[: 32 + half] + gone + loaded[32 + half :]
        # A program of one kind alone, so that the other's part stays as it was.
        for only in range(1, 17):
            alone = {"tobt": "now+5", "alert": "r4"}
            yield f"{name}, programs of {only} alone", with_programs(
                walk, lambda it, only=only, alone=alone: alone if it == only else {}
            )
        yield f"{name}, targets of r3", with_programs(walk, lambda _: {"tobt": "r3"})
        yield f"{name}, alerts of r4", with_programs(walk, lambda it: {"alert": "r4"})
        # From milestone to milestone another field, so that each stands once at each.
        for first in range(len(FIELDS)):

            def fields(milestone, first=first):
                one = FIELDS[(first + milestone) % len(FIELDS)].replace(" ", "_")
                return {"tobt": one if first % 2 else "0", "alert": one}

            yield f"{name}, fields from the {FIELDS[first]} on", with_programs(walk, fields)


def programs_of_two():
    """Two flights: what a program answers of one is nothing of the other's."""
    for one in ("r4", "r3", "flight", "now+60", "SOBT"):
        yield f"two flights, programs of {one}", with_programs(
            lines(TWO), lambda _, one=one: {"tobt": "now+60", "alert": one}
        )


def all_walks(is_short):
    """Each walk with its name: on layout 1, on layout 2, and migrated on its way, at each line where the walk is a plain path.

    Of those with programs a short round has one of twelve, and each walk is migrated at one place.
    """
    for name, walk in plain_walks():
        yield name, walk
        yield f"{name}, layout 2", migrated(walk, 0)
        parts = (2,) if is_short else (1, 2, 3)
        near = name.startswith("path, ") and not is_short
        for place in range(1, len(walk)) if near else [part * len(walk) // 4 for part in parts]:
            yield f"{name}, migrated before line {place}", migrated(walk, place)
    for number, (name, walk) in enumerate([*programs_of_two(), *program_walks()]):
        if is_short and number % 12:
            continue
        yield name, walk
        yield f"{name}, layout 2", migrated(walk, 0)
        loads = sum("load" in line for line in walk)
        yield f"{name}, migrated", migrated(walk, loads + (7 * number) % 60)
