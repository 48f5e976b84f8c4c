#!/usr/bin/env python3
"""Writes the rows of the board's rules as tables of crates/rule_tests/src.

    python3 rows.py && (cd ../../crates/rule_tests && rt fmt)

Each row has its expected replies beside its lines, as the rules of docs/RULES.md give them; none comes from a program. The
cells of rules.json that a row meets stand in its first line. check.py says which cells no row meets.
"""

import json
import pathlib

from talk import BOTH, PATH, PLANNED, ROLES, SCHEDULE, SCHEDULED, Crowd, Long, Talk, at, bits, stamp

HERE = pathlib.Path(__file__).resolve().parent
TARGET = HERE.parents[1] / "crates" / "rule_tests" / "src"
RULES = json.loads((HERE / "rules.json").read_text())
EXIT = "9500000000000000"


def owner_rows():
    # On a board without flights an owner gets as far as 202; milestone 1 creates the flight.
    for milestone in range(1, 17):
        row = Talk(f"who reports milestone {milestone}", *(f"owners {milestone} {it}" for it in ROLES))
        owners = RULES["owners"][str(milestone)]
        for role in sorted(ROLES, key=lambda it: it in owners):
            reply = ("ok" if milestone == 1 else "no 202") if role in owners else "no 201"
            row.plan(reply, role) if milestone == 1 else row.report(milestone, "9:00", reply, role)
        yield row
    row = Talk("who schedules", *(f"owners schedule {it}" for it in ROLES))
    for role in ROLES:
        row.schedule("ok" if role == "APT" else "no 201", role)
    yield row
    row = Talk("who loads", *(f"owners load {it}" for it in ROLES))
    for role in ROLES:
        row.load(9, "alert", "b700000000000000" + EXIT, "ok" if role == "APT" else "no 201", role)
    yield row
    row = Talk("who unloads", *(f"owners unload {it}" for it in ROLES), "code 321")
    for role in ROLES:
        row.unload(9, "alert", "no 321" if role == "APT" else "no 201", role)
    yield row
    row = Talk("who ticks", *(f"owners tick {it}" for it in ROLES))
    for role in ROLES:
        row.tick(reply="ok" if role == "APT" else "no 201", role=role)
    yield row
    row = Talk("who migrates", *(f"owners migrate {it}" for it in ROLES), "code 324", "before 201 324")
    for role in sorted(ROLES, key=lambda it: it == "APT"):
        row.migrate(reply="migrated -" if role == "APT" else "no 201", role=role)
    yield row.migrate(reply="no 201", role="DIC").migrate(reply="no 324")
    row = Talk("who de-ices", *(f"owners deice {it}" for it in ROLES), "code 325", "before 201 325", "before 325 202")
    for role in ROLES:
        row.deice("eczt", "10:00", "no 325" if role == "DIC" else "no 201", role)
    yield row
    row = Talk("who asks", *(f"owners {what} {it}" for what in ("show", "alerts") for it in ROLES))
    for role in ROLES:
        row.say(role, {"cmd": "show", "flight": 7}, "no 202")
        row.say(role, {"cmd": "alerts"}, "alerts -")
    yield row


# Reports that reach what a milestone needs, beside the schedule and the flight plan; without what bars it.
BEFORE = {1: [], 2: [], 3: [], 4: [], 5: [], 6: [], 7: [6], 8: [6, 7], 9: [], 10: [9], 11: [9], 12: [9], 13: [9, 10],
          14: [9, 10, 13], 15: [9, 10, 13, 14], 16: [9, 10, 13, 14, 15]}
# The same without the second or third milestone of the column.
WITHOUT = {(7, 6): [], (8, 7): [6], (13, 10): [9], (14, 10): [9], (14, 13): [9, 10], (15, 14): [9, 10, 13],
           (16, 15): [9, 10, 13, 14]}


def report_again(row, milestone, reply="ok"):
    return row.plan(reply) if milestone == 1 else row.report(milestone, reply=reply)


def need_rows():
    for milestone in range(2, 17):
        row = Talk(f"milestone {milestone} needs 1", f"needs {milestone} 1").schedule()
        row.report(milestone, reply="no 203").plan().reports(*BEFORE[milestone])
        yield report_again(row, milestone)
    for (milestone, need), before in WITHOUT.items():
        row = Talk(f"milestone {milestone} needs {need}", f"needs {milestone} {need}").start(*before)
        row.report(milestone, reply="no 203")
        row.reports(*BEFORE[milestone][len(before):])
        yield report_again(row, milestone)
    for milestone in (10, 11, 12):
        row = Talk(f"milestone {milestone} needs TOBT", f"needs set {milestone}").start()
        row.report(milestone, reply="no 205").report(9).report(9, None).report(milestone, reply="no 205").report(9)
        yield row.report(milestone)
    for milestone, before in ((13, []), (14, [13])):
        row = Talk(f"milestone {milestone} needs TSAT", f"needs set {milestone}").start(9, 10, *before)
        row.report(9, None).report(milestone, reply="no 205").report(9).report(milestone, reply="no 205").report(10)
        yield row.report(milestone)


def bar_rows():
    # All that comes before the milestone that bars; then it may be reported again, and no longer once that is reached.
    before = {6: [], 7: [6], 14: [9, 10, 13], 15: [6, 7, 9, 10, 13, 14], 16: [9, 10, 13, 14, 15]}
    for milestone in range(1, 17):
        bar = RULES["barred_by"][str(milestone)]
        row = Talk(f"milestone {bar} bars {milestone}", f"bars {milestone}").start(*before[bar])
        if milestone != bar:
            report_again(row, milestone)
        row.report(bar)
        yield report_again(row, milestone, "no 204")


def order_rows():
    yield (Talk("in-block is not before landed", "order 7").start(6)
           .report(7, "8:59", "no 206").report(7, "9:00"))
    yield (Talk("ground handling is not before in-block", "order 8").start(6, 7).report(8, "9:04", "no 206").report(8, "9:05"))
    yield (Talk("in-block is not behind ground handling", "order behind 7").start(6, 7, 8)
           .report(7, "9:07", "no 206").report(7, "9:06"))
    yield (Talk("approval is not before the request", "order 14").start(9, 10, 13)
           .report(14, "9:57", "no 206").report(14, "9:58"))
    yield (Talk("the request is not behind the approval", "order behind 13").start(9, 10, 13, 14)
           .report(13, "10:03", "no 206").report(13, "10:02"))
    yield (Talk("take-off is not before off-block", "order 16").start(9, 10, 13, 14, 15)
           .report(16, "10:02", "no 206").report(16, "10:03"))
    yield Talk("other times have no order", "order no other").start(6, 7, 9, 10).report(11, "1:00").report(12, "0:30").report(
        13, "0:20").report(14, "10:00").report(15, "0:10").report(16, "0:10").report(2, "0:01", "no 204")


def field_rows():
    for milestone in range(2, 17):
        row = Talk(f"what milestone {milestone} sets", f"sets {milestone}").start(*BEFORE[milestone]).report(milestone)
        reached = BEFORE[milestone] + [milestone]
        fields = {RULES["sets"][str(it)]: PATH[it] for it in reached}
        yield row.show(**{**BOTH, **fields, "reached": bits(0, 1, *reached)})
    yield (Talk("a slot time is taken back", "no time 2").start(2).report(2, None)
           .show(**BOTH, reached=bits(0, 1, 2)))
    yield (Talk("a slot time that never was is taken back", "no time 2").start().report(2, None)
           .show(**BOTH, reached=bits(0, 1, 2)))
    yield (Talk("a target that never was is taken back", "no time 9").start().report(9, None)
           .show(**BOTH, reached=bits(0, 1, 9), alerts=bits(10)))
    yield (Talk("a target is taken back", "no time 9").start(9, 10).report(9, None)
           .show(**BOTH, reached=bits(0, 1, 9, 10), alerts=bits(10)))
    yield (Talk("a radar update and the approach set one field", "sets 4", "sets 5").start(4, 5)
           .show(**BOTH, ELDT=PATH[5], reached=bits(0, 1, 4, 5)).report(4).show(**BOTH, ELDT=PATH[4], reached=bits(0, 1, 4, 5)))
    # Numbers that are one in their low 32 bits, and the greatest.
    yield (Talk("flights of long numbers").schedule().plan(flight=2**32 + 7).plan(flight=2**63 + 7).plan(flight=2**64 - 1).schedule(flight=2**32 - 1)
           .alerts(f"7:CDM13;{2**32 + 7}:CDM01;{2**63 + 7}:CDM01;{2**64 - 1}:CDM01;{2**32 - 1}:CDM13")
           .schedule(flight=2**32 + 7).plan(flight=7).alerts(f"{2**63 + 7}:CDM01;{2**64 - 1}:CDM01;{2**32 - 1}:CDM13")
           .report(6, reply="no 202", flight=2**33 + 7))
    first = {"callsign": "ZZZZZZZZ", "type": "Q", "reg": "QQQQQQQQ", "dest": "Q"}
    others = {"sobt": stamp("11:00"), "mttt": 1, "exit": 2, "exot": 3, "stand": 4}
    yield (Talk("what a schedule sets", *(f"schedule {it}" for it in RULES["schedule_sets"]), now="6:00")
           .schedule().show(**SCHEDULED, reached=bits(0))
           .schedule(**first, **others)
           .show(**{"callsign": "ZZZZZZZZ", "scheduled type": "Q", "scheduled registration": "QQQQQQQQ",
                    "scheduled destination": "Q", "SOBT": "11:00", "MTTT": 1, "EXIT": 2, "EXOT": 3, "stand": 4, "reached": 1}))
    # One field at a time: a schedule that leaves one of them is seen for that one.
    for key, value, field, kept in (
        ("callsign", "BAW1", "callsign", "BAW1"), ("type", "B738", "scheduled type", "B738"),
        ("reg", "GABCD", "scheduled registration", "GABCD"), ("dest", "EGLL", "scheduled destination", "EGLL"),
        ("sobt", stamp("11:00"), "SOBT", "11:00"), ("mttt", 1440, "MTTT", 1440), ("exit", 255, "EXIT", 255),
        ("exot", 1440, "EXOT", 1440), ("stand", 65535, "stand", 65535),
    ):
        yield (Talk(f"a schedule changes the {field}", f"schedule {field}", now="6:00").schedule().schedule(**{key: value})
               .show(**{**SCHEDULED, field: kept, "reached": 1}))
    yield (Talk("what a flight plan sets", *(f"plan {it}" for it in RULES["plan_sets"]))
           .plan().show(**PLANNED, reached=bits(1), alerts=bits(1))
           .plan(**first, time=stamp("11:00"))
           .show(**{"callsign": "ZZZZZZZZ", "plan type": "Q", "plan registration": "QQQQQQQQ", "plan destination": "Q",
                    "EOBT": "11:00", "reached": bits(1), "alerts": bits(1)}))
    for key, value, field, kept in (
        ("callsign", "BAW1", "callsign", "BAW1"), ("type", "B738", "plan type", "B738"),
        ("reg", "GABCD", "plan registration", "GABCD"), ("dest", "EGLL", "plan destination", "EGLL"),
        ("time", stamp("11:00"), "EOBT", "11:00"),
    ):
        yield (Talk(f"a flight plan changes the {field}", f"plan {field}").plan().plan(**{key: value})
               .show(**{**PLANNED, field: kept, "reached": bits(1), "alerts": bits(1)}))
    yield (Talk("a flight plan keeps what the schedule set", "plan callsign").schedule(callsign="BAW1").plan()
           .show(**BOTH, reached=3))
    yield (Talk("a schedule keeps what the flight plan set", "schedule callsign").plan(callsign="BAW1").schedule()
           .show(**BOTH, reached=3))


    # Up to 13 once more, the later first: a report that clears another's field is seen by one of the two shows.
    talk = Talk("what reports leave alone").start(*range(2, 14))
    fields = {RULES["sets"][str(it)]: PATH[it] for it in range(2, 14)}
    talk.show(**BOTH, **fields, reached=bits(*range(14))).report(14)
    for milestone in (13, 12, 11, 10, 8, 2):
        talk.report(milestone)
    yield talk.plan().show(**BOTH, **fields, ASAT=PATH[14], reached=bits(*range(15)))
    # A flight plan that comes again, a schedule that comes late, and a slot time that goes.
    order = (9, 10, 11, 12, 13, 14, 2, 3, 4, 5, 6, 7, 8)
    late = {RULES["sets"][str(it)]: PATH[it] for it in order}
    yield (Talk("what a flight plan leaves alone").plan().reports(*order).plan().show(**PLANNED, **late, reached=bits(1, *order), alerts=bits(1))
           .schedule().show(**BOTH, **late, reached=bits(0, 1, *order)).report(2, None)
           .show(**BOTH, **{**late, "CTOT": 0}, reached=bits(0, 1, *order)))
    yield (Talk("what a target taken back leaves alone").start(2, 4, 6, 9, 10).report(9, None)
           .show(**BOTH, CTOT=PATH[2], ELDT=PATH[4], ALDT=PATH[6], reached=bits(0, 1, 2, 4, 6, 9, 10), alerts=bits(10)))


def unscheduled_rows():
    """Flights without a schedule, whose EXIT and MTTT are 0; CDM01 stands all the time."""
    def row(name, now="9:00"):
        return Talk(f"unscheduled: {name}", now=now)

    def told(*names):
        return ",".join(["CDM01", *names])

    yield (row("EIBT and EOBT").plan().report(4, "10:00").alerts(told()).report(5, "10:01").alerts(told("CDM07"))
           .report(6, "10:00").alerts(told()).report(6, "10:01").alerts(told("CDM07")).report(6, "9:00").report(7, "10:00").alerts(told())
           .report(7, "10:01").alerts(told("CDM07")))
    yield (row("EIBT and TOBT").plan(time=stamp("10:15")).report(9).report(4, "10:00").alerts(told()).report(5, "10:01")
           .alerts(told("CDM07a")).report(6, "10:00").alerts(told()).report(6, "10:01").alerts(told("CDM07a")).report(6, "9:00")
           .report(7, "10:00").alerts(told()).report(7, "10:01").alerts(told("CDM07a")))
    yield (row("EOBT and TOBT").plan().report(9, "10:15").alerts(told()).report(9, "10:16").alerts(told("CDM08"))
           .report(9, "9:45").alerts(told()).report(9, "9:44").alerts(told("CDM08")))
    yield (row("boarding, the target and start-up").plan().report(9).tick("9:49").alerts(told()).tick("9:50").alerts(told("CDM09"))
           .report(9, None).alerts(told("CDM10")).report(9).alerts(told()).report(11).report(10).tick("10:06").alerts(told())
           .tick("10:07").alerts(told("CDM11")).report(13, "9:56").report(14, "10:06").alerts(told()).report(14, "10:07")
           .alerts(told("CDM12")).report(14, "9:56").alerts(told()))
    yield row("an automatic target").load(6, "tobt", later(-1)).plan().alerts(told()).report(6).alerts(told("CDM14")).load(
        6, "tobt", later(60)).report(6).alerts(told())
    order = [2, 3, 4, 5, 6, 7, 8, 9, 10, 11, 12, 13, 14, 15, 16]
    yield row("all milestones").plan().reports(*order).show(
        **PLANNED, **{RULES["sets"][str(it)]: PATH[it] for it in order}, reached=bits(1, *order), alerts=bits(1))


ALL_BUT_TIME = "CDM02,CDM03,CDM04,CDM05,CDM07,CDM08,CDM07a"


def later_rows():
    """Alerts of a flight that has its start-up time, and is called off its stand."""
    other = {"time": stamp("10:05"), "type": "A321", "reg": "DAIBD", "dest": "EDDF"}
    talk = Talk("later: raised and cleared up to the approval").schedule().plan(**other).report(6).report(7, "9:26").report(9, "9:49")
    for milestone in (10, 13, 14):
        talk.report(milestone).alerts(ALL_BUT_TIME).plan().report(7, "9:05").alerts("").plan(**other).report(7, "9:26")
    yield talk.report(15).alerts(ALL_BUT_TIME).report(16).alerts(ALL_BUT_TIME)
    yield (Talk("later: no airport slot").plan().reports(9, 10).alerts("CDM01").reports(13, 14).alerts("CDM01").report(15)
           .alerts("CDM01").report(16).alerts("CDM01").schedule().alerts(""))
    for before in ([9, 10], [9, 10, 13, 14]):
        yield (Talk(f"later: scheduled behind {before[-1]}").plan().reports(*before).alerts("CDM01").schedule().alerts(""))
    # 10:00 and 10:05: EIBT and MTTT are held against EOBT, whichever of the two is the later.
    yield (Talk("later: SOBT behind EOBT").schedule(sobt=stamp("10:05")).plan().report(6, "9:15").alerts("CDM02").report(6, "9:16")
           .alerts("CDM02,CDM07").report(9, "9:44").alerts("CDM02,CDM07,CDM08,CDM07a").report(9, "10:15").alerts("CDM02,CDM07"))
    yield (Talk("later: SOBT before EOBT").schedule(sobt=stamp("9:55")).plan().report(6, "9:15").alerts("CDM02").report(6, "9:16")
           .alerts("CDM02,CDM07").report(9, "9:44").alerts("CDM02,CDM07,CDM08,CDM07a").report(9, "10:15").alerts("CDM02,CDM07"))


def alert_rows():
    def row(name, alert, conjunct, now="9:00"):
        return Talk(f"{alert}: {name}", f"alert {alert} {conjunct}", now=now)

    yield row("planned alone", "CDM01", "not scheduled").plan().alerts("CDM01").schedule().alerts("")
    yield row("scheduled alone", "CDM01", "milestone 1 reached", "6:59").schedule().alerts("")
    yield (row("a minute apart", "CDM02", "different").schedule().plan(time=stamp("10:01")).alerts("CDM02")
           .plan().alerts("").plan(time=stamp("9:59")).alerts("CDM02"))
    yield row("no SOBT", "CDM02", "SOBT set").plan().alerts("CDM01")
    yield row("no EOBT", "CDM02", "EOBT set", "6:59").schedule().alerts("")
    for alert, key, values in (
        ("CDM03", "type", ("A321", "B320", "A32", "a320")), ("CDM04", "reg", ("DAIBD", "CAIBC", "DAIBCDEF", "DAIB")),
        ("CDM05", "dest", ("EDDF", "LDDM", "EDD", "eDDM")),
    ):
        talk = row(f"the {key} differs", alert, "different").schedule()
        for value in values:
            talk.plan(**{key: value}).alerts(alert).plan().alerts("")
        yield talk
        yield row(f"no schedule with a {key}", alert, "scheduled").plan().alerts("CDM01")
        yield row(f"no flight plan with a {key}", alert, "milestone 1 reached", "6:59").schedule().alerts("")
    # EIBT + 40 against 10:00; landed, or landing, 5 minutes earlier.
    yield (row("in-block", "CDM07", "by AIBT").start(6).report(7, "9:20").alerts("").report(7, "9:21").alerts("CDM07"))
    yield row("landed", "CDM07", "by ALDT").start().report(6, "9:15").alerts("").report(6, "9:16").alerts("CDM07")
    yield row("radar update", "CDM07", "by ELDT").start().report(4, "9:15").alerts("").report(4, "9:16").alerts("CDM07")
    yield row("final approach", "CDM07", "above").start().report(5, "9:15").alerts("").report(5, "9:16").alerts("CDM07")
    yield (row("in-block counts before landed", "CDM07", "AIBT before ALDT").start().report(6, "9:16").alerts("CDM07")
           .report(7, "9:20").alerts(""))
    yield (row("landed counts before landing", "CDM07", "ALDT before ELDT").start().report(4, "9:16").alerts("CDM07")
           .report(6, "9:15").alerts(""))
    yield (row("landed counts, also where it is later", "CDM07", "ALDT before ELDT").start().report(4, "9:15").alerts("")
           .report(6, "9:16").alerts("CDM07"))
    yield (row("nothing of the arrival", "CDM07", "EIBT known").schedule(sobt=stamp(1)).plan(time=stamp(1)).alerts(""))
    yield (row("in-block against the target", "CDM07a", "by AIBT").schedule(sobt=stamp("10:10")).plan(time=stamp("10:10"))
           .report(9).report(6).report(7, "9:20").alerts("").report(7, "9:21").alerts("CDM07a"))
    yield (row("landed against the target", "CDM07a", "by ALDT").schedule(sobt=stamp("10:10")).plan(time=stamp("10:10"))
           .report(9).report(6, "9:15").alerts("").report(6, "9:16").alerts("CDM07a"))
    yield (row("landing against the target", "CDM07a", "by ELDT").schedule(sobt=stamp("10:10")).plan(time=stamp("10:10"))
           .report(9).report(4, "9:15").alerts("").report(4, "9:16").alerts("CDM07a"))
    yield (row("later than both", "CDM07a", "above").start(9, 6).report(7, "9:21").alerts("CDM07,CDM07a"))
    yield (row("no target", "CDM07a", "TOBT set").schedule(sobt=stamp("10:10")).plan(time=stamp("10:10")).report(6)
           .report(7, "9:21").alerts(""))
    yield (row("nothing of the arrival with a target", "CDM07a", "EIBT known").schedule(sobt=stamp(1)).plan(time=stamp(1))
           .report(9, 1).alerts("CDM09"))


def moment_rows():
    def row(name, alert, conjunct, now="9:00"):
        return Talk(f"{alert}: {name}", f"alert {alert} {conjunct}", now=now)

    yield row("later", "CDM08", "later").start().report(9, "10:15").alerts("").report(9, "10:16").alerts("CDM08")
    yield row("earlier", "CDM08", "earlier").start().report(9, "9:45").alerts("").report(9, "9:44").alerts("CDM08")
    yield row("no target", "CDM08", "TOBT set").start().alerts("").report(9, "10:16").report(9, None).alerts("CDM10")
    yield row("ten minutes before", "CDM09", "moment").start(9).tick("9:49").alerts("").tick("9:50").alerts("CDM09")
    yield row("no target", "CDM09", "TOBT set").start().tick("10:30").alerts("").report(9).report(9, None, now="10:30").alerts("CDM10")
    yield row("boarding", "CDM09", "ASBT not set").start(9).tick("9:50").alerts("CDM09").report(11, now="9:50").alerts("")
    yield (row("off-block", "CDM09", "AOBT not set").start(9, 10, 13, 14).tick("9:50").alerts("CDM09")
           .report(15, now="9:50").alerts("").tick("9:55").alerts(""))
    # The last moments: a target that a program sets, since no text has so late a time.
    last = 4294967295
    yield (row("at the last minute", "CDM09", "no wrap", last).load(1, "tobt", "bf30000000000000" + EXIT).schedule().plan()
           .alerts("CDM08,CDM09"))
    yield row("the target stands", "CDM10", "TOBT not set").start(9).alerts("").report(9, None).alerts("CDM10").report(9).alerts("")
    yield row("no target was ever set", "CDM10", "milestone 9 reached").start(6).alerts("")
    yield (row("five minutes late", "CDM11", "moment").start(9, 10, 11).tick("10:06").alerts("").tick("10:07").alerts("CDM11"))
    yield (row("approved", "CDM11", "ASAT not set").start(9, 10, 11, 13).tick("10:07").alerts("CDM11").report(14, now="10:07")
           .alerts(""))
    yield row("no start-up time", "CDM11", "TSAT set").start(9, 11).tick("10:07").alerts("")
    yield (row("a start-up time taken back", "CDM11", "TSAT set").start(9, 10, 11).report(9, None, now="10:07").alerts("CDM10"))
    yield row("later", "CDM12", "later").start(9, 10, 13).report(14, "10:06").alerts("").report(14, "10:07").alerts("CDM12")
    yield (row("earlier", "CDM12", "earlier").start(9, 10).report(13, "9:00").report(14, "9:56").alerts("")
           .report(14, "9:55").alerts("CDM12"))
    yield row("not approved", "CDM12", "ASAT set").start(9, 10, 13).alerts("")
    yield row("three hours before", "CDM13", "moment", "6:59").schedule().alerts("").tick("7:00").alerts("CDM13")
    yield row("planned", "CDM13", "milestone 1 not reached").schedule().alerts("CDM13").plan().alerts("")
    yield row("at the last minute", "CDM13", "no wrap", last).schedule().alerts("CDM13")
    yield row("planned alone", "CDM13", "milestone 1 not reached", last).plan().alerts("CDM01")


def le32(number):
    return (number % 2**32).to_bytes(4, "little").hex()


def answers(number):
    """A program that answers this number, up to 2^31 - 1."""
    return "b7000000" + le32(number) + EXIT


def wide(number, register=0):
    return f"180{register}0000" + le32(number) + "00000000" + le32(number >> 32)


def later(minutes):
    """A program that answers the moment and so many minutes, which may be fewer than none."""
    return "bf30000000000000" + "07000000" + le32(minutes) + EXIT


NOW = "bf30000000000000" + EXIT
# The word at a place of the record.
def word_at(place):
    return "6110" + place.to_bytes(2, "little").hex() + "00000000" + EXIT


def target_rows():
    """Programs of kind tobt, loaded for milestone 7 where nothing else is said. At 9:00."""
    def row(name, *cells, now="9:00"):
        return Talk(f"target: {name}", *(f"target {it}" for it in cells), now=now)

    base = {**BOTH, "ALDT": "9:00", "AIBT": "9:05"}
    reached = bits(0, 1, 6, 7)

    def single(name, program, tobt, alerts, *cells):
        talk = row(name, *cells).start().load(7, "tobt", program).reports(6, 7)
        fields = {**base, "TOBT": tobt, "reached": reached | (bits(9) if tobt else 0), "alerts": alerts}
        return talk.show(**fields)

    yield single("0 suggests nothing", answers(0), 0, 0, "0 with none standing")
    # 9:00 is an hour before EOBT, ten minutes before the moment and before 9:05 + 40.
    yield single("now", NOW, "9:00", bits(8, 9, 15), "now", "usable with CDM14 clear", "marks 9")
    yield single("a day later", later(1440), at("9:00") + 1440, bits(8), "now + 1440")
    yield single("a minute more than a day later", later(1441), 0, bits(14), "now + 1441", "unusable with CDM14 clear")
    yield single("a minute before", later(-1), 0, bits(14), "now - 1")
    yield single("2^32", wide(2**32) + EXIT, 0, bits(14), "2^32")
    yield single("2^32 and the moment", wide(2**32 + at("9:00")) + EXIT, 0, bits(14), "2^32 + now")
    yield single("2^64 - 1", wide(2**64 - 1) + EXIT, 0, bits(14), "greatest of 64 bits")
    yield single("1", answers(1), 0, bits(14), "now - 1")
    last = 2**32 - 1
    yield (row("the last minute", "greatest of 32 bits", now=last).start().load(4, "tobt", NOW).report(4)
           .show(**BOTH, ELDT=PATH[4], TOBT=last, reached=bits(0, 1, 4, 9), alerts=bits(8, 9)))
    yield (row("past the last minute", "2^32", now=last).start().load(4, "tobt", later(1)).report(4)
           .show(**BOTH, ELDT=PATH[4], reached=bits(0, 1, 4), alerts=bits(14)))
    # The program reads the AIBT that its report sets.
    yield single("its own report", word_at(88), "9:05", bits(8, 9, 15), "now")
    # With a target that stands, at 10:00.
    stood = {**base, "TOBT": "10:00", "reached": reached | bits(9)}
    yield (row("0 with a target", "0 with one standing").start().load(7, "tobt", answers(0)).reports(6, 9, 7).show(**stood))
    yield (row("unusable with a target", "unusable with one standing").start().load(7, "tobt", later(-1)).reports(6, 9, 7)
           .show(**stood, alerts=bits(14)))
    yield (row("usable with a target", "usable with one standing").start().load(7, "tobt", later(50)).reports(6, 9, 7)
           .show(**{**stood, "TOBT": "9:50"}))
    # After an unusable answer.
    yield (row("0 after an unusable one", "0 with CDM14 set", "unusable with CDM14 set").start().load(7, "tobt", later(-1)).reports(6, 7, 7)
           .alerts("CDM14").load(7, "tobt", answers(0)).report(7).alerts("CDM14")
           .show(**base, reached=reached, alerts=bits(14)))
    yield (row("usable after an unusable one", "usable with CDM14 set").start().load(7, "tobt", later(-1)).reports(6, 7).alerts("CDM14")
           .load(7, "tobt", later(60)).report(7).alerts("").show(**stood))
    yield (row("the target that stands, after an unusable one", "usable with CDM14 set", "usable with one standing").start(6, 9)
           .load(7, "tobt", later(-1)).report(7).alerts("CDM14").load(7, "tobt", later(60)).report(7).alerts("").show(**stood))
    yield (row("CDM14 stays at other touches", "unusable with CDM14 clear").start().load(7, "tobt", later(-1)).reports(6, 7).tick().alerts("CDM14")
           .unload(7, "tobt").report(7).alerts("CDM14").report(9).alerts("CDM14"))
    yield (row("CDM14 stays at a schedule", "unusable with CDM14 clear").load(1, "tobt", later(-1)).plan().alerts("CDM01,CDM14")
           .schedule().alerts("CDM14"))
    # Start-up approval: ASAT is set by milestone 14, AOBT by 15.
    gone = {**BOTH, "TOBT": "10:00", "TSAT": "10:01", "ASRT": "9:58"}
    yield (row("before the approval", "ASAT not set").start().load(13, "tobt", later(50)).reports(9, 10, 13)
           .show(**{**gone, "TOBT": "9:50"}, reached=bits(0, 1, 9, 10, 13)))
    yield (row("with the approval", "ASAT set by this report").start().load(14, "tobt", later(50)).reports(9, 10, 13, 14)
           .show(**gone, ASAT="10:02", reached=bits(0, 1, 9, 10, 13, 14), alerts=bits(14)))
    yield (row("after the approval", "ASAT set").start().load(12, "tobt", later(50)).reports(9, 10, 13, 14, 12)
           .show(**gone, ASAT="10:02", ARDT="9:55", reached=bits(0, 1, 9, 10, 12, 13, 14), alerts=bits(14)))
    yield (row("0 after the approval", "ASAT set").start().load(12, "tobt", answers(0)).reports(9, 10, 13, 14, 12)
           .show(**gone, ASAT="10:02", ARDT="9:55", reached=bits(0, 1, 9, 10, 12, 13, 14)))
    yield (row("off-block", "ASAT set").start().load(15, "tobt", later(50)).reports(9, 10, 13, 14, 15)
           .show(**gone, ASAT="10:02", AOBT="10:03", reached=bits(0, 1, 9, 10, 13, 14, 15), alerts=bits(14)))
    # Programs of milestone 9 do not run where a program of 7 sets the target.
    yield (row("no further program", "no program of 9 runs").start().load(7, "tobt", later(60)).load(9, "alert", answers(3))
           .load(9, "tobt", later(-1)).reports(6, 7).alerts("").show(**stood))
    # CDM02 stands before the report, CDM07 only after it: the low 16 bits of the word are bit 2.
    yield (row("the alert word is the old one", "the old alert word").load(4, "alert", word_at(52)).schedule()
           .plan(time=stamp("10:01")).report(4, "9:17").alerts("CDM02,CDM07,LOC02").report(4, "9:17")
           .alerts("CDM02,CDM07,LOC02,LOC07"))
    # 29000760 is 442 * 65536 + 33848, which has the bits 3, 4, 5, 10 and 15.
    yield (row("the alert program sees the target", "alert program afterwards").start().load(7, "tobt", later(60))
           .load(7, "alert", word_at(96)).reports(6, 7).alerts("LOC03,LOC04,LOC05,LOC10,LOC15"))
    # Bits 0, 1, 6, 7 and 9 are reached then.
    yield (row("the alert program sees milestone 9", "alert program afterwards").start().load(7, "tobt", later(60))
           .load(7, "alert", word_at(48)).reports(6, 7).alerts("LOC00,LOC01,LOC06,LOC07,LOC09"))
    # Bit 14 of the word.
    yield (row("the alert program sees CDM14", "alert program afterwards").start().load(7, "tobt", later(-1))
           .load(7, "alert", word_at(52)).reports(6, 7).alerts("CDM14,LOC14"))
    yield (row("a refused report runs no program", "refused report")
           .start().load(7, "tobt", later(60)).load(7, "alert", answers(1)).reports(6).report(7, "8:59", "no 206").alerts("").show(**BOTH, ALDT="9:00", reached=bits(0, 1, 6)))


# r0 is r3, r4 and r2, less the length of a record: the moment and so many minutes as the milestone has in its number.
def by_milestone(length):
    return "bf30000000000000" + "0f40000000000000" + "0f20000000000000" + "07000000" + le32(-length) + EXIT


# r0 has the minutes from 9:00 to TOBT in its low four bits and the milestone above them, where r3 is 9:00 and r2 the length of a record.
def minutes_ahead(length):
    start = "6110600000000000" + "0f30000000000000" + "6704000004000000" + "0f40000000000000" + "0f20000000000000"
    return start + "07000000" + le32(-2 * at("9:00") - length) + EXIT


def program_rows():
    """Programs of both kinds at each milestone, on both layouts: the target is as many minutes ahead as the milestone's number."""
    for layout, length in ((1, 128), (2, 160)):
        talk = Talk(f"programs: both kinds at each milestone, layout {layout}", capacity=200)
        given = {"length": 160} if layout == 2 else {}
        if layout == 2:
            talk.migrate()
        for milestone in range(1, 17):
            talk.load(milestone, "tobt", by_milestone(length), **given).load(milestone, "alert", minutes_ahead(length), **given)

        def told(milestone, ahead):
            # EOBT is at 10:00; boarding has not started before 11; 9:05 and more, and the 40 minutes, is behind the target from 4 on.
            names = ["CDM08"] + ["CDM09"] * (milestone <= 10) + ["CDM14"] * (milestone > 13) + ["CDM07a"] * (milestone > 3)
            return ",".join([*names, local_names(ahead + 16 * milestone)])

        talk.schedule().plan().alerts(told(1, 1)).report(2, None).alerts(told(2, 2))
        for milestone in range(3, 17):
            if milestone == 9:
                talk.report(9, None).alerts(told(9, 9))
            talk.report(milestone).alerts(told(milestone, min(milestone, 13)))
        yield talk
    # A target that goes, and the program of its report, or a slot time that goes.
    yield (Talk("programs: a report without a time").start(9).load(9, "tobt", later(60)).report(9, None).alerts("").load(2, "tobt", later(61))
           .report(2, None).alerts("").show(**BOTH, TOBT="10:01", reached=bits(0, 1, 2, 9)))
    # The milestone's number is no target: it lies far behind.
    yield (Talk("programs: the milestone as a target").start().load(6, "tobt", "bf40000000000000" + EXIT).report(6)
           .show(**BOTH, ALDT="9:00", reached=bits(0, 1, 6), alerts=bits(14)))
    yield (Talk("programs: the length as a target").start().load(6, "tobt", "bf20000000000000" + EXIT).report(6)
           .show(**BOTH, ALDT="9:00", reached=bits(0, 1, 6), alerts=bits(14)))


def local_rows():
    for name, bit in RULES["local"].items():
        number = bit - 16
        yield (Talk(f"local: {name}", f"local {name}").start().load(6, "alert", answers(1 << number)).reports(6).alerts(name)
               .show(**BOTH, ALDT="9:00", reached=bits(0, 1, 6), alerts=1 << bit))

    def row(name, cell):
        return Talk(f"local: {name}", f"local rule {cell}")

    names = ",".join(RULES["local"])
    yield row("all", "cleared").start().load(6, "alert", answers(65535)).reports(6).alerts(names).load(6, "alert", answers(0)).report(6).alerts("")
    yield row("the low 16 bits alone", "above 16 bits").start().load(6, "alert", answers(65536)).reports(6).alerts("")
    yield row("the low 16 bits of all", "above 16 bits").start().load(6, "alert", wide(0xffffffffffff0002) + EXIT).reports(6).alerts("LOC01")
    yield (row("they stay without a program", "stay without a program").start().load(6, "alert", answers(2)).reports(6).unload(6, "alert")
           .report(6).alerts("LOC01"))
    # LOC01 by the one that stays, and then the target by the other one.
    yield (row("an unload of one kind alone", "stay without a program").start().load(6, "tobt", later(60)).load(6, "alert", answers(2)).unload(6, "tobt")
           .report(6).alerts("LOC01").load(6, "tobt", later(60)).unload(6, "alert").report(6)
           .show(**BOTH, ALDT="9:00", TOBT="10:00", reached=bits(0, 1, 6, 9), alerts=bits(17)))
    yield (row("they stay at a report of another", "another milestone's program").start().load(6, "alert", answers(2)).reports(6).report(9)
           .alerts("LOC01"))
    yield (row("they stay at a schedule and a tick", "stay at a schedule and a tick").load(1, "alert", answers(2)).plan()
           .alerts("CDM01,LOC01").schedule().alerts("LOC01").tick().alerts("LOC01"))
    # r4 is 6: bits 1 and 2.
    yield row("the milestone", "milestone in r4").start().load(6, "alert", "bf40000000000000" + EXIT).reports(6).alerts("LOC01,LOC02")
    yield row("milestone 16", "milestone in r4").start().load(16, "alert", "bf40000000000000" + EXIT).reports(9, 10, 13, 14, 15, 16).alerts("LOC04")
    # 29000700 is 442 * 65536 + 33788.
    yield (row("the moment", "moment in r3").start().load(6, "alert", NOW).reports(6)
           .alerts(",".join(f"LOC{it:02}" for it in range(16) if 29000700 >> it & 1)))


def touch_rows():
    """Times pass from 6:59, where a schedule raises nothing, to 7:00, where it raises CDM13."""
    def row(name, *cells):
        return Talk(f"touch: {name}", *(f"touch {it}" for it in cells), now="6:59").schedule()

    yield row("time alone", "time alone").alerts("", "7:00").alerts("", "9:00")
    yield row("a tick", "tick").tick("7:00").alerts("CDM13", "7:00").tick("6:59").alerts("", "7:00")
    yield row("a refused tick", "refused tick").tick("7:00", "no 201", "NM").alerts("", "7:00")
    yield row("a question", "show").show(**SCHEDULED, reached=1, now="7:00").alerts("", "7:00")
    yield row("a schedule", "schedule").schedule(now="7:00").alerts("CDM13", "7:00")
    yield (row("another flight's schedule", "other flight").schedule(now="7:00", flight=8).alerts("8:CDM13", "7:00")
           .tick("7:00").alerts("7:CDM13;8:CDM13", "7:00"))
    yield row("a tick of all", "tick of all flights").schedule(flight=8).schedule(flight=3).tick("7:00").alerts(
        "7:CDM13;8:CDM13;3:CDM13", "7:00")
    yield row("a load", "load").load(6, "alert", answers(1), now="7:00").alerts("", "7:00")
    yield (row("an unload", "unload").load(6, "alert", answers(1)).unload(6, "alert", now="7:00").alerts("", "7:00"))
    yield row("a refused report", "refused report").report(6, reply="no 203", now="7:00").alerts("", "7:00")
    yield row("a refused schedule", "refused schedule").schedule("no 201", "NM", "7:00").alerts("", "7:00")
    yield (row("a schedule refused for its plan", "refused schedule").plan().report(9).schedule("no 207", now="9:50").alerts("", "9:50")
           .tick("9:50").alerts("CDM09", "9:50"))
    yield row("a report", "report").plan().report(9).report(2, now="9:49").alerts("", "9:50").report(2, now="9:50").alerts("CDM09", "9:50")
    yield (row("another flight's report", "other flight").plan().report(9).plan(flight=8).plan(flight=8, now="9:50")
           .alerts("8:CDM01", "9:50"))


# r0 is set only where r2 is at most 128.
SHORT_ALONE = "2502010080000000" + "b700000000000000" + EXIT


def winter_rows():
    def row(name, *cells, now="9:00"):
        return Talk(f"winter: {name}", *cells, now=now)

    yield (row("an empty board is migrated", "winter later flights").migrate().schedule()
           .show(layout=2, **SCHEDULED, reached=1, alerts=bits(13)))
    yield (row("a board with flights is migrated", "winter all flights").start().plan(flight=8).migrate().show(layout=2, **BOTH, reached=3)
           .alerts("8:CDM01"))
    for name in ("eczt", "eezt", "aczt", "aezt"):
        yield (row(f"{name} is set and taken back", f"winter {name}").start().migrate().deice(name, "10:00")
               .show(layout=2, **BOTH, reached=3, **{name.upper(): "10:00"}).deice(name, "1:00")
               .show(layout=2, **BOTH, reached=3, **{name.upper(): "1:00"}).deice(name, None).show(layout=2, **BOTH, reached=3))
    for first, then in (("eczt", "eezt"), ("aczt", "aezt")):
        yield (row(f"{then} is not before {first}", f"winter {then} behind {first}").start().migrate().deice(first, "10:00")
               .deice(then, "9:59", "no 206").deice(then, "10:00").deice(first, "10:01", "no 206").deice(then, None)
               .deice(first, "10:01").deice(then, "10:00", "no 206"))
    yield (row("the two pairs are apart", "winter pairs").start().migrate().deice("eczt", "10:00").deice("eezt", "10:30")
           .deice("aezt", "9:00").deice("aczt", "8:00")
           .show(layout=2, **BOTH, reached=3, ECZT="10:00", EEZT="10:30", ACZT="8:00", AEZT="9:00").deice("eezt", None).deice("aczt", None)
           .show(layout=2, **BOTH, reached=3, ECZT="10:00", AEZT="9:00"))
    yield (row("layout, flight, plan", "before 325 202", "winter 203", "winter 202").deice("eczt", "10:00", "no 325", flight=8).migrate()
           .deice("eczt", "10:00", "no 202").schedule().deice("eczt", "10:00", "no 203").plan().deice("eczt", "10:00"))
    yield (row("gone", "winter 204").start(9, 10, 13, 14, 15).migrate().deice("eczt", "10:00").report(16).deice("eezt", "9:00", "no 204")
           .deice("eczt", None, "no 204"))
    yield (row("a time is a touch", "touch deice", now="9:49").start(9).plan(flight=8).migrate().alerts("8:CDM01", "9:50")
           .deice("eczt", "10:00", now="9:50", flight=8).alerts("8:CDM01", "9:50").deice("eczt", "9:00", now="9:50")
           .alerts("7:CDM09;8:CDM01", "9:50"))
    yield (row("a migrate is no touch", "touch migrate", now="9:49").start(9).migrate(now="9:50").alerts("", "9:50").tick("9:50")
           .alerts("CDM09", "9:50").show(layout=2, **BOTH, TOBT="10:00", reached=bits(0, 1, 9), alerts=bits(9)))
    yield (row("local alerts and CDM14 stay", "winter local alerts").start().load(6, "alert", answers(2)).load(6, "tobt", later(-1)).reports(6)
           .alerts("CDM14,LOC01").migrate().alerts("CDM14,LOC01").deice("eczt", "10:00").alerts("CDM14,LOC01"))
    # r2 is 128, bit 7, and then 160, bits 5 and 7.
    yield (row("programs see the length", "winter programs stay").start().load(6, "alert", "bf20000000000000" + EXIT).reports(6)
           .alerts("LOC07").migrate().report(6).alerts("LOC05,LOC07").deice("eczt", "10:00").alerts("LOC05,LOC07"))
    # 29000760 is 442 * 65536 + 33848, which has the bits 3, 4, 5, 10 and 15.
    yield (row("a program reads a time of de-icing", "winter programs read").start().migrate().load(6, "alert", word_at(140), length=160)
           .deice("aezt", "10:00").alerts("").reports(6).alerts("LOC03,LOC04,LOC05,LOC10,LOC15"))
    yield (row("programs are unloaded", "winter programs go").load(16, "alert", SHORT_ALONE).load(9, "alert", answers(0)).load(16, "tobt", SHORT_ALONE)
           .load(1, "tobt", SHORT_ALONE).migrate("1:tobt:308:2;16:tobt:308:2;16:alert:308:2").unload(16, "tobt", "no 321")
           .unload(16, "alert", "no 321").unload(1, "tobt", "no 321").unload(9, "alert"))
    yield (row("an unloaded program runs no more", "winter programs go").start().load(6, "alert", "2502010080000000" + "b700000002000000" + EXIT).reports(6).alerts("LOC01").migrate("6:alert:308:2").report(6).alerts("LOC01")
           .show(layout=2, **BOTH, ALDT="9:00", reached=bits(0, 1, 6), alerts=bits(17)))
    yield (row("the same time again, and none, are touches", "touch deice", now="9:49").start(9).migrate().deice("eczt", "10:00")
           .deice("eczt", "10:00", now="9:50").alerts("CDM09", "9:50").deice("eczt", None, now="9:49").alerts("", "9:49")
           .deice("aezt", None, now="9:50").alerts("CDM09", "9:50"))
    # Each fault that the longer record may bring: where r2 is over 128, or by the address that is r2 below the stack's end.
    faults = {"308": "bf60000000000000", "309": "71a0000000000000", "310": "71a0f0ff00000000", "311": "7201000000000000", "313": "8500000002000000"}
    talk = row("each fault of a longer record", "winter programs go")
    for milestone, (code, slot) in zip((16, 3, 2, 9, 1), faults.items()):
        talk.load(milestone, "tobt" if code != "310" else "alert", "2502020080000000" + "b700000000000000" + EXIT + slot + "b700000000000000" + EXIT)
    yield (talk.load(6, "alert", "720a80ff00000000" + "bfa6000000000000" + "1f26000000000000" + "7160000000000000" + EXIT)
           .migrate("1:tobt:313:3;2:alert:310:3;3:tobt:309:3;6:alert:310:3;9:tobt:311:3;16:tobt:308:3").unload(6, "alert", "no 321"))
    # (a record that had 159 or 161 bytes would have r6 read, which is not set)
    exact = "150203009f000000" + "25020200a0000000" + "b700000000000000" + EXIT + "bf60000000000000" + EXIT
    yield row("the longer record has 160 bytes").load(6, "alert", exact).migrate().unload(6, "alert")
    yield (row("by milestone, and then by kind", "winter programs go").load(1, "alert", SHORT_ALONE).load(16, "tobt", SHORT_ALONE)
           .load(1, "tobt", SHORT_ALONE).migrate("1:tobt:308:2;1:alert:308:2;16:tobt:308:2"))
    yield (row("the length of a program", "code 323", "before 201 323", "before 309 323").load(7, "tobt", answers(0), "no 323", length=160)
           .load(7, "tobt", answers(0), "no 201", "NM", length=160).load(7, "tobt", answers(0), length=128).migrate()
           .load(7, "tobt", answers(0), "no 323").load(7, "tobt", answers(0), "no 323", length=128).load(7, "tobt", answers(0), length=160)
           .load(7, "tobt", word_at(156), "bad 309 0").load(7, "tobt", word_at(156), length=160).load(7, "tobt", word_at(157), "bad 309 0", length=160))
    yield (row("the fields of a load", "winter lengths").load(7, "tobt", answers(0), "bad 103", length=None).load(7, "tobt", answers(0), "bad 103", length="160")
           .load(7, "tobt", answers(0), "bad 104", length=127).load(7, "tobt", answers(0), "bad 104", length=129)
           .load(7, "tobt", answers(0), "bad 104", length=161).load(7, "tobt", EXIT, "bad 104", length=0).load(7, "tobt", "9z", "bad 104", length=None))
    deice = {"cmd": "deice", "flight": 7, "field": "eczt", "time": stamp("10:00")}
    talk = row("the fields of a time", "winter fields")
    for key, value, code in (
        ("flight", 0, 104), ("flight", "7", 103), ("field", "aobt", 104), ("field", "ECZT", 104), ("field", "", 104), ("field", 7, 103),
        ("field", None, 103), ("time", 7, 103), ("time", "10:00", 104),
    ):
        talk.say("DIC", {**deice, key: value}, f"bad {code}")
    yield talk.line('6 29000700 DIC {"cmd":"deice","flight":7,"field":"eczt"}', "bad 103").line('6 29000700 DIC {"cmd":"deice","flight":7}', "bad 103")


def layout_rows():
    """A board that is migrated before its first flight."""
    def row(name, now="9:00"):
        return Talk(f"layout 2: {name}", now=now).migrate()

    yield (row("refusals").report(6, reply="no 202").schedule("no 201", "NM").schedule().report(6, reply="no 203").plan()
           .report(7, reply="no 203").report(6, reply="no 201", role="AO").report(10, reply="no 205").report(11, reply="no 205").report(6)
           .report(3, reply="no 204").report(4, reply="no 204").report(7, "8:59", "no 206").schedule("no 207").unload(7, "tobt", "no 321")
           .reports(7, 8, 9).report(13, reply="no 203").report(10).report(9, None).report(13, reply="no 205").reports(9, 10, 13)
           .report(14, "9:57", "no 206").report(15, reply="no 203").reports(14, 15).report(9, reply="no 204").report(16, "10:02", "no 206")
           .report(16).report(2, reply="no 204"))
    other = {"time": stamp("10:05"), "type": "A321", "reg": "DAIBD", "dest": "EDDF"}
    yield (row("alerts").plan().alerts("CDM01").schedule().alerts("").plan(**other).alerts("CDM02,CDM03,CDM04,CDM05").plan().alerts("")
           .report(6, "9:16").alerts("CDM07").report(6, "9:15").alerts("").report(9, "9:59").alerts("CDM07a").report(9, "9:44")
           .alerts("CDM08,CDM07a").report(9, None).alerts("CDM10").report(9).alerts("").tick("9:50").alerts("CDM09").report(11).alerts("")
           .report(10).tick("10:06").alerts("").tick("10:07").alerts("CDM11").report(13).report(14, "10:07").alerts("CDM12").report(14).alerts(""))
    yield row("no flight plan").schedule().alerts("CDM13").plan().alerts("")
    stood = {**BOTH, "layout": 2, "ALDT": "9:00", "AIBT": "9:05", "TOBT": "10:00", "reached": bits(0, 1, 6, 7, 9)}
    yield (row("targets").start(6).load(7, "tobt", later(60), length=160).report(7).show(**stood).load(7, "tobt", later(-1), length=160).report(7)
           .show(**stood, alerts=bits(14)).load(7, "tobt", answers(0), length=160).report(7).alerts("CDM14").load(7, "tobt", later(50), length=160)
           .report(7).show(**{**stood, "TOBT": "9:50"}))
    yield (row("local alerts").start().load(6, "alert", answers(65535), length=160).report(6).alerts(",".join(RULES["local"]))
           .load(6, "alert", answers(65536), length=160).report(6).alerts(""))
    yield (Talk("layout 2: a target by a program of before").start(6).load(7, "tobt", later(60)).migrate().report(7).show(**stood))
    yield (Talk("layout 2: all fields stay").start(*range(2, 15)).migrate()
           .show(layout=2, **BOTH, **{RULES["sets"][str(it)]: PATH[it] for it in range(2, 15)}, reached=bits(*range(15)))
           .report(15).report(16).show(layout=2, **BOTH, **{RULES["sets"][str(it)]: PATH[it] for it in range(2, 17)}, reached=bits(*range(17))))


def code_rows():
    def row(name, *cells, capacity=100):
        return Talk(f"code: {name}", *cells, capacity=capacity)

    def lines(name, cells, *pairs):
        talk = row(name, *cells)
        for text, reply in pairs:
            talk.line(text, reply)
        return talk

    yield lines(
        "the words before the object", ["code 100", "before 100 101"], ("65 29000700 APT {", "bad 100"), ("0 29000700 APT {", "bad 100"),
        ("1 0 APT {", "bad 100"), ("1 4294967296 APT {", "bad 100"), ("1 29000700 apt {", "bad 100"), ("01 29000700 APT {", "bad 100"),
        ("1 29000700 DEI {", "bad 100"), ("1  29000700 APT {", "bad 100"), ("1 29000700 APT {", "bad 101"), ("64 4294967295 GH {", "bad 101"),
        ("1 1 AO {", "bad 101"))
    head = "1 29000700 APT "
    yield lines(
        "no object, and no command", ["code 101", "code 102", "before 101 102"], (head + '{"cmd":"tack"', "bad 101"),
        (head + '{"cmd":"tack"} x', "bad 101"), (head + '{"cmd":"tack"}', "bad 102"), (head + "[]", "bad 102"), (head + "{}", "bad 102"),
        (head + '{"cmd":7}', "bad 102"), (head + '{"cmd":"Tick"}', "bad 102"), (head + '{"cmd":"tick"}', "ok"))
    yield lines(
        "no command, and no field", ["before 102 103"], (head + '{"cmd":"tack","flight":"7"}', "bad 102"),
        (head + '{"cmd":"show","flight":"7"}', "bad 103"))
    yield lines(
        "the first faulty field", ["code 103", "code 104", "before 103 104", "before 104 103"],
        (head + '{"cmd":"unload","milestone":"7","kind":"both"}', "bad 103"), (head + '{"cmd":"unload","milestone":17,"kind":7}', "bad 104"),
        (head + '{"cmd":"unload","milestone":16,"kind":7}', "bad 103"), (head + '{"cmd":"unload","milestone":16,"kind":"both"}', "bad 104"),
        (head + '{"cmd":"unload","milestone":0,"kind":"tobt"}', "bad 104"), (head + '{"cmd":"unload","milestone":1}', "bad 103"),
        (head + '{"cmd":"show"}', "bad 103"), (head + '{"cmd":"show","flight":0}', "bad 104"),
        (head + '{"cmd":"show","flight":18446744073709551615}', "no 202"), (head + '{"cmd":"show","flight":18446744073709551616}', "bad 103"))
    schedule = []
    for key, out, wrong in (
        ("flight", 0, "7"), ("callsign", "123456789", 7), ("type", "A3200", 7), ("reg", "", 7), ("dest", "E DM", 7),
        ("sobt", "10:00", 7), ("mttt", 1441, "40"), ("exit", 256, "5"), ("exot", 1441, None), ("stand", 65536, -1),
    ):
        for value, code in ((out, 104), (wrong, 103)):
            schedule.append((head + json.dumps({**SCHEDULE, key: value}, separators=(",", ":")), f"bad {code}"))
    yield lines("the fields of a schedule", ["code 103", "code 104"], *schedule)
    talk = row("no time", "code 103")
    for milestone in range(3, 17):
        if milestone != 9:
            talk.report(milestone, None, "bad 103")
    yield talk.plan("bad 103", time=None)
    load = head + '{"cmd":"load","milestone":%s,"kind":"tobt","program":"%s"}'
    yield lines(
        "a field, and the program", ["before 104 302", "code 301", "before 301 303"], (load % (17, EXIT), "bad 104"), (load % (7, "9z"), "bad 104"),
        (load % (7, "950"), "bad 104"), (load % (7, ""), "bad 301 0"), (load % (7, "ff" * 9), "bad 301 0"), (load % (7, "ff" * 8), "bad 303 0"))
    zero = "b700000000000000"
    for code, slot, program, cells in PROGRAMS:
        yield row(f"{code} at {slot}: {program[:32]}", f"code {code}", *cells).load(7, "tobt", program, f"bad {code} {slot}")
    yield row("digits of either case").load(6, "alert", "B70000001A0000009500000000000000").start(6).alerts("LOC01,LOC03,LOC04")
    # A call of two arguments: one that is not set comes before one that is out of range, whichever stands first.
    call, second = "8500000002000000", "8500000003000000"
    yield (row("an argument, and another").load(6, "alert", wide(2**32, 1) + second + EXIT, "bad 313 2")
           .load(6, "alert", "b701000000000000" + call + wide(2**32, 1) + second + EXIT, "bad 308 4")
           .load(6, "alert", "b701000000000000" + call + wide(10_001, 2) + second + EXIT, "bad 308 4")
           .load(6, "alert", "b701000000000000" + wide(10_001, 2) + second + EXIT, "bad 313 3")
           .load(6, "alert", wide(2**32, 1) + wide(10_001, 2) + second + EXIT, "bad 313 4"))
    # A register whose answer is from 1 to 60 is never over 60, and may be over 59: then r6 is read, which is not set.
    talk = row("each register is narrowed by a number")
    for register in (0, 1, 2, 3, 4, 5, 7, 8, 9):
        moved = f"bf0{register:x}000000000000" if register else ""
        start, slot = "b701000000000000" + call + moved, 5 if register else 4
        for bound, reply in ((60, "ok"), (59, f"bad 308 {slot}")):
            talk.load(6, "alert", start + f"250{register:x}0100" + le32(bound) + EXIT + "bf60000000000000" + EXIT, reply)
    yield talk
    yield (row("a program, and the journal", "before 308 502", "code 502", "before 502 201", capacity=1)
           .tick().load(7, "tobt", EXIT, "bad 308 0").tick(reply="bad 502").tick(reply="bad 502", role="NM"))
    yield row("a program, and the owner", "before 308 201").load(7, "tobt", EXIT, "bad 308 0", "NM").load(7, "tobt", zero + EXIT, "no 201", "NM")
    yield (row("owner, flight, need", "code 201", "code 202", "code 203", "before 201 202", "before 202 203", "before 201 203")
           .report(7, reply="no 201", role="AO").report(7, reply="no 202").schedule().report(7, reply="no 201", role="AO")
           .report(7, reply="no 203"))
    yield row("need, and bar", "code 204", "before 203 204").start(9, 10, 13, 14, 15).report(7, reply="no 203").report(14, reply="no 204")
    yield row("need, and the start-up time", "code 205", "before 203 205").start(9).report(13, reply="no 203").report(10).report(9, None).report(
        13, reply="no 205")
    yield row("bar, and order", "code 206", "before 204 206").start(6, 7, 9, 10, 13, 14).report(7, "8:59", "no 206").report(15).report(
        7, "8:59", "no 204")
    yield (row("the start-up time, and order", "before 205 206").start(9, 10, 13).report(9, None).report(14, "9:57", "no 205").report(9)
           .report(10).report(14, "9:57", "no 206"))
    yield row("a schedule of another", "code 207", "before 201 207").start().schedule("no 201", "NM").schedule("no 207")
    yield row("an empty slot", "code 321", "before 201 321").unload(7, "tobt", "no 201", "NM").unload(7, "tobt", "no 321").load(
        7, "alert", zero + EXIT).unload(7, "tobt", "no 321").unload(8, "alert", "no 321").unload(7, "alert").unload(7, "alert", "no 321")


# A fault of each code, with its slot. Where a slot would have two, the other one is named too.
PROGRAMS = [
    (303, 0, "ff0f010001000000" + EXIT, ["before 303 304"]),
    (304, 0, "b70b010001000000" + EXIT, ["before 304 305"]),
    (305, 0, "b70b000001000000" + EXIT, []),
    (304, 0, "1810000001000000", ["before 304 315"]),
    (305, 0, "180b000001000000", ["before 305 315"]),
    (315, 0, "1800000001000000", []),
    (305, 1, "0500ffff00000000" + "b70b000001000000" + EXIT, ["before 305 306"]),
    (306, 0, "1d65ffff00000000" + EXIT, ["before 306 308"]),
    (307, 0, "bf60000000000000", ["before 307 308"]),
    (308, 0, EXIT, []),
    (308, 0, "7960080000000000" + EXIT, ["before 308 309"]),
    (309, 0, "79a0080000000000" + EXIT, []),
    (309, 0, "791a800000000000" + EXIT, ["before 309 314"]),
    (310, 0, "79a0f8ff00000000" + EXIT, []),
    (311, 0, "7a01000000000000" + EXIT, []),
    (312, 0, "8500000004000000" + EXIT, []),
    (308, 0, "bf60000000000000" + "8500000004000000" + EXIT, ["before 308 312"]),
    (313, 0, "8500000002000000" + EXIT, []),
    (314, 0, "070a0000f8ffffff" + EXIT, []),
]


def local_names(number):
    return ",".join(f"LOC{it:02}" for it in range(16) if number >> it & 1)


def helper_rows():
    for number, rules in RULES["helpers"].items():
        call = "85000000" + le32(int(number))
        keys = {**rules["table"], **rules["else"]}
        for key, answer in keys.items():
            words = [int(it) for it in key.split()]
            program = "".join(wide(word, place + 1) for place, word in enumerate(words)) + call + EXIT
            cell = f"helper {number} {'table' if key in rules['table'] else 'else'} {key}"
            yield Talk(f"helper {number} of {key}", cell).start().load(6, "alert", program).reports(6).alerts(local_names(answer))
        for place, most in enumerate(rules["greatest"]):
            talk = Talk(f"helper {number}: argument {place + 1}", f"helper {number} least {place}", f"helper {number} greatest {place}")
            others = "".join(wide(0, it + 1) for it in range(len(rules["greatest"])) if it != place)
            slots = 2 * len(rules["greatest"])
            for word, reply in ((0, "ok"), (most, "ok"), (most + 1, f"bad 313 {slots}"), (2**64 - 1, f"bad 313 {slots}")):
                talk.load(6, "alert", others + wide(word, place + 1) + call + EXIT, reply)
            yield talk
        # Behind the call an answer above r6 or below it would reach the slot that reads r7, which is not set.
        least, most = rules["answers"]
        start = "".join(wide(0, it + 1) for it in range(len(rules["greatest"]))) + call
        slot = 2 * len(rules["greatest"]) + 5
        talk = Talk(f"helper {number}: its answers", f"helper {number} answers")
        rows = [("2d", most, "ok"), ("2d", most - 1, f"bad 308 {slot}"), ("ad", least, "ok"), ("ad", least + 1, f"bad 308 {slot}")]
        for jump, bound, reply in rows:
            talk.load(6, "alert", start + wide(bound, 6) + f"{jump}60010000000000" + EXIT + "bf70000000000000" + EXIT, reply)
        yield talk


def limit_rows():
    """The longest lines and programs, and the most flights."""
    def fill(name, head, length, reply, *cells):
        return Long(f"limit: {name}", *cells).long(head, " ", length - len(head), "", reply)

    good, unknown = '1 29000700 APT {"cmd":"tick"}', '1 29000700 APT {"cmd":"tack"}'
    yield fill("a line of 70,000 bytes", good, 70_000, "ok")
    yield fill("a line of 70,001 bytes", good, 70_001, "bad 105", "code 105").tick()
    yield fill("no command in 70,000 bytes", unknown, 70_000, "bad 102").tick()
    yield fill("no command in 70,001 bytes", unknown, 70_001, "bad 105").tick()
    yield fill("no prefix in 70,000 bytes", "65 29000700 APT {", 70_000, "bad 100")
    yield fill("no prefix in 70,001 bytes", "65 29000700 APT {", 70_001, "bad 105", "before 105 100")

    def load(name, part, times, tail, reply, *cells):
        head = '1 29000700 APT {"cmd":"load","milestone":7,"kind":"tobt","program":"'
        return Long(f"limit: {name}", *cells).long(head, part, times, tail + '"}', reply)

    zero = "b700000000000000"
    yield load("4,096 slots", zero, 4095, EXIT, "ok")
    yield load("4,096 slots without an exit", zero, 4096, "", "bad 307 4095")
    yield load("no opcode in the last of 4,096 slots", zero, 4095, "ff" * 8, "bad 303 4095")
    yield load("4,096 slots of no opcode", "ff" * 8, 4096, "", "bad 303 0")
    yield load("4,097 slots", zero, 4096, EXIT, "bad 302 0", "code 302")
    yield load("4,097 slots of no opcode", "ff" * 8, 4097, "", "bad 302 0")
    yield load("a byte less than 4,096 slots", "b7", 32_767, "", "bad 301 0")
    yield load("a byte more than 4,096 slots", "b7", 32_769, "", "bad 302 0", "before 302 301")

    def nested(depth, reply):
        head = '1 29000700 APT {"cmd":"tick","more":'
        return Long(f"limit: {depth} lists in the object").long(head, "[", depth, "]" * depth + "}", reply)

    yield nested(100, "ok")
    yield nested(126, "ok")
    yield nested(127, "bad 101").tick()
    yield nested(200, "bad 101").tick()
    crowd = Crowd("limit: 4,096 flights that are scheduled", "code 503", flights=4096, alert="CDM13", now="7:00")
    crowd.schedule("no 503", flight=4097).schedule(flight=4096).plan("no 503", flight=4098).plan(flight=1)
    crowd.report(6, reply="no 202", flight=4097).schedule("no 201", "NM", flight=4097).schedule("no 207", flight=1)
    yield crowd
    crowd = Crowd("limit: 4,096 flights that are planned", "code 503", flights=4096, alert="CDM01", now="7:00")
    yield crowd.plan("no 503", flight=4097).plan(flight=1)


GROUPS = {
    "owners": owner_rows, "needs": need_rows, "bars": bar_rows, "order": order_rows, "fields": field_rows, "unscheduled": unscheduled_rows,
    "alerts": alert_rows, "moments": moment_rows, "later": later_rows, "targets": target_rows, "programs": program_rows, "local": local_rows,
    "touches": touch_rows, "winter": winter_rows, "layouts": layout_rows, "codes": code_rows, "helpers": helper_rows, "limits": limit_rows,
}
ABOUT = {
    "owners": "Who may send what.", "needs": "What a milestone needs.", "bars": "What a milestone bars.",
    "order": "The order of times.", "fields": "What a milestone, a schedule and a flight plan set.",
    "alerts": "Each condition of the alerts up to CDM07a, on both sides.",
    "moments": "Each condition of the alerts from CDM08 on, on both sides.", "targets": "What comes of the answer of a program of kind `tobt`.",
    "unscheduled": "Flights without a schedule.", "later": "Alerts behind a start-up time, and with SOBT other than EOBT.",
    "programs": "Programs of both kinds at each milestone.", "layouts": "A board that was migrated.", "local": "Local alerts.", "touches": "When alerts are computed anew.", "winter": "Migrates, and times of de-icing.", "codes": "Each code, and which of two comes first.",
    "helpers": "The entries and limits of the three helpers.", "limits": "The longest lines and programs, and the most flights.",
    "marks": "What one byte stands for in the tables.",
}


def all_rows():
    for group, make in GROUPS.items():
        for row in make():
            yield group, row


# One byte each in the tables for a longer text, since the prover takes 2 ms for a byte of a static. A # is the number of the
# next entry, from 0.
MARKS = {
    "!": '1 29000700 APT {"cmd":"', "$": '2 29000700 NM {"cmd":"', "%": '3 29000700 ATC {"cmd":"', "&": '4 29000700 AO {"cmd":"',
    "*": '5 29000700 GH {"cmd":"', "+": 'report","flight":7,"milestone":', "(": ',"time":"2025-02-20T', ")": ':00Z"}',
    "/": 'schedule","flight":7,"callsign":"DLH7","type":"A320","reg":"DAIBC","dest":"EDDM","sobt":"2025-02-20T10:00:00Z",'
         '"mttt":40,"exit":5,"exot":10,"stand":12}',
    "<": '1,"time":"2025-02-20T10:00:00Z","callsign":"DLH7","type":"A320","reg":"DAIBC","dest":"EDDM"}',
    "J": '"callsign":"DLH7","type":"A320","reg":"DAIBC","dest":"EDDM"', "K": '"sobt":"2025-02-20T10:00:00Z","mttt":40,"exit":5,"exot":10,',
    "=": 'alerts"}', ">": 'show","flight":7}', "X": 'tick"}', "S": 'load","milestone":', "?": 'load","milestone":7,"kind":"tobt","program":"',
    "@": 'load","milestone":6,"kind":"alert","program":"', "V": '9500000000000000"}', "U": "000000000000", "`": "000000",
    "Y": "0700000000000000444c4837000000004133323041333230444149424300000044414942430000004544444d4544444d",
    "j": "28000a000c0001053884ba013884ba01", "^": "ok #", "_": "no # ", "|": "alerts #", "~": "rec # ",
    "R": '6 29000700 DIC {"cmd":"', "q": 'deice","flight":7,"field":"', "v": "migrated #", ".": "28000a000c0002053884ba013884ba01",
}


def marked(text):
    """The text with a mark in the place of what each mark stands for, those of the longest texts first."""
    for mark, of in sorted(MARKS.items(), key=lambda it: -len(it[1])):
        if "#" not in of:
            text = text.replace(of, mark)
    return text


def meant(text):
    """What a text in marks stands for, but for the numbers of entries."""
    return "".join(it if "#" in MARKS.get(it, "#") else MARKS[it] for it in text)


def in_marks(lines):
    """Lines in marks, one a line."""
    text = joined(lines)
    assert not {*MARKS, "#"} & {*text}, f"a mark stands in {text}"
    assert meant(marked(text)) == text
    return marked(text)


def replies_in_marks(replies):
    """Replies in marks, one a line: those with a number of an entry are numbered from 0."""
    count, lines = 0, []
    for reply in replies:
        kind, _, rest = reply.partition(" ")
        mark = next((it for it, of in MARKS.items() if of.strip() == f"{kind} #"), None)
        if mark:
            number, _, rest = rest.partition(" ")
            assert number == str(count), reply
            count += 1
            reply = mark + ("" if kind in ("ok", "no", "rec") or not rest else " ") + rest
        lines.append(reply)
    return marked(joined(lines))


# How many bytes of lines and replies stand in one static at most.
MOST = 5000


def parts_of(group):
    """The rows of a group in parts, each with its place from 1."""
    parts, size = [], MOST
    for row in GROUPS[group]():
        length = len(in_marks(row.lines[2 * row.starts():]) + replies_in_marks(row.replies))
        if size + length > MOST:
            parts.append([])
            size = 0
        parts[-1].append(row)
        size += length
    return enumerate(parts, 1)


def joined(lines):
    return "".join(it + "\n" for it in lines)


def limit_text():
    """The table of the longest lines, and that of the most flights, each by its parts."""
    lines = [it for it in limit_rows() if isinstance(it, Long)]
    crowds = [it for it in limit_rows() if isinstance(it, Crowd)]
    parts = ["use crate::rows::{Crowd, Long, is_crowd_answered, is_long_answered};\n\n", f"static LINES: [Long; {len(lines)}] = [\n"]
    for row in lines:
        head, part, times, tail = row.parts
        parts.append(f'    Long {{\n        shows: "{row.name}",\n        head: r#"{head}"#,\n        part: "{part}",\n        times: {times},\n')
        parts.append(f'        tail: r#"{tail}"#,\n        more: r#"{joined(row.lines[1:])}"#,\n        replies: "{joined(row.replies)}",\n    }},\n')
    parts.append(f"];\n\nstatic CROWDS: [Crowd; {len(crowds)}] = [\n")
    for row in crowds:
        before, behind = row.lines[0].split('"flight":1,')
        parts.append(f'    Crowd {{\n        shows: "{row.name}",\n        flights: {row.flights},\n        capacity: {row.capacity},\n')
        parts.append(f'        before: r#"{before}"flight":"#,\n        behind: r#",{behind}"#,\n        alert: ":{row.alert}",\n')
        parts.append(f'        more: r#"{joined(row.lines[row.flights + 1:])}"#,\n        replies: "{joined(row.replies[row.flights + 1:])}",\n    }},\n')
    parts.append("];\n\n")
    for table, name, asserts in (("LINES", "the_longest_lines", "is_long_answered"), ("CROWDS", "the_most_flights", "is_crowd_answered")):
        parts.append(f"#[test]\nfn {name}(rt: HostRuntime) {{\n    for row in &{table} {{\n        {asserts}(&rt, rt.alloc(), row);\n    }}\n}}\n\n")
    return "".join(parts)


def table_text(group):
    parts = ["use crate::rows::{Row, is_answered};\n\n"]
    for place, rows in parts_of(group):
        parts.append(f"static ROWS_{place}: [Row; {len(rows)}] = [\n")
        for row in rows:
            parts.append(f'    Row {{\n        shows: "{row.name}",\n        capacity: {row.capacity},\n')
            parts.append(f"        starts: {str(row.starts()).lower()},\n")
            parts.append(f'        lines: r#"{in_marks(row.lines[2 * row.starts():])}"#,\n')
            parts.append(f'        replies: r#"{replies_in_marks(row.replies)}"#,\n    }},\n')
        parts.append("];\n\n#[test]\n")
        parts.append(f"fn part_{place}(rt: HostRuntime) {{\n    for row in &ROWS_{place} {{\n")
        parts.append("        is_answered(&rt, rt.alloc(), row);\n    }\n}\n\n")
    return "".join(parts)


def marks_text():
    rows = "".join(f'    (b\'{mark}\', r#"{of}"#),\n' for mark, of in MARKS.items())
    return f"/// Each mark, and what it stands for.\npub(crate) static MARKS: [(u8, &str); {len(MARKS)}] = [\n{rows}];\n"


def texts():
    """The text of each file, by its name."""
    made = {"limits": limit_text, "marks": marks_text}
    return {
        name: f"//! {ABOUT[name]} Written by `bench/rows/rows.py`.\n" + (made[name]() if name in made else table_text(name))
        for name in [*GROUPS, "marks"]
    }


def main():
    for name, text in texts().items():
        (TARGET / "rows" / f"{name}.rt").write_text(text)


if __name__ == "__main__":
    main()
