#!/usr/bin/env python3
"""Makes one HTML file of a journal: figures, the milestones and alerts of each flight as pictures, refused commands.

    clients/report.py JOURNAL [FLIGHT ..] > report.html
    ./acdm tell JOURNAL | clients/report.py - > report.html

JOURNAL is the text of a journal, which `./acdm tell` is asked to tell, or what it told, or what `serve --changes` sent
(docs/FORMATS.md, "The feed of changes"). All flights are shown, or those named. After a faulty entry, or where another
journal begins, nothing is shown. Outside what is proved.
"""
import functools
import html
import re
import statistics
import sys
from calendar import timegm
from collections import Counter, defaultdict
from collections.abc import Iterable, Iterator
from dataclasses import dataclass, field
from pathlib import Path
from typing import Any

from feed import Arguments, Line, NoFeed, parsed, words_of
from programs import NoAnswer, lines_of
from record import clock, day_and_clock
from words import MILESTONES, REFUSALS

TARGETS = ("sobt", "eobt", "ctot", "eldt", "tobt", "tsat", "eczt", "eezt")
# (the milestone that sets each time, of two the later one)
SETS = {place["sets"].lower(): place["number"] for place in MILESTONES}
TIMES = ("sobt", *SETS, "eczt", "eezt", "aczt", "aezt")
WIDTH, LEFT, RIGHT = 1080, 20, 90
HALF_A_DAY = 720
MOST_ROWS = 200
ACTUAL, TARGET, CDM, LOCAL, REFUSED = "#1d4e89", "#b35c00", "#c1272d", "#8a6d00", "#6b2d8b"
COLOURS = ("#6b2d8b", "#b35c00", "#1d4e89", "#2e7d32", "#c1272d", "#00798c", "#8a6d00", "#5d4037", "#455a64")
STYLE = """
body { font: 15px/1.5 "DejaVu Sans", Verdana, sans-serif; color: #222; background: #fff }
body { max-width: 1120px; margin: 2em auto; padding: 0 1em }
h1 { font-size: 1.5em } h2 { font-size: 1.2em; margin-top: 2em } h3 { font-size: 1em; margin: 1.4em 0 0.2em }
table { border-collapse: collapse; font-size: 0.9em; margin-top: 1em }
td, th { border-bottom: 1px solid #ddd; padding: 0.2em 0.9em 0.2em 0; text-align: left; vertical-align: top }
svg { display: block; max-width: 100%; height: auto } p { max-width: 48em }
section { content-visibility: auto; contain-intrinsic-size: auto 160px }
input { font: inherit; width: 24em; max-width: 100% }
.number { text-align: right } [hidden] { display: none }
"""
SCRIPT = """
const box = document.getElementById("filter"), rows = [...document.querySelectorAll("[data-text]")];
box.addEventListener("input", () => {
  const words = box.value.toLowerCase().split(/\\s+/).filter(Boolean);
  for (const row of rows) row.hidden = !words.every((word) => row.dataset.text.includes(word));
});
"""


@functools.cache
def minute(instant: str | None) -> int:
    """The minute of a time of the feed, 0 where it is none."""
    if not instant:
        return 0
    found = re.fullmatch(r"(\d{4,5})-(\d\d)-(\d\d)T(\d\d):(\d\d):00Z", instant, re.ASCII)
    if not found:
        raise ValueError(f"{instant!r} is no time of the feed")
    year, month, day, hour, part = (int(digits) for digits in found.groups())
    periods, year = divmod(year - 1970, 400)
    return timegm((year + 1970, month, day, hour, part, 0)) // 60 + periods * 146_097 * 1440


# (an alert, the moments at which it came and went, and whether it stayed to the end)
Span = tuple[str, int, int, bool]
Mark = tuple[int, str, str]
Picture = tuple[list[str], int]


@dataclass
class Story:
    """What a journal tells of a flight, up to its last moment."""

    number: int
    last: Line = field(default_factory=dict)
    end: int = 0
    times: dict[str, int] = field(default_factory=dict)
    words: list[str] = field(default_factory=list)
    moments: list[int] = field(default_factory=list)
    earlier: list[tuple[str, int]] = field(default_factory=list)
    refused: list[Line] = field(default_factory=list)
    open_alerts: dict[str, int] = field(default_factory=dict)
    alerts: list[tuple[str, int, int]] = field(default_factory=list)

    def touched(self, moment: int, record: Line) -> None:
        """Takes the record after an entry: times that were replaced, alerts that came and went."""
        if self.last:
            for name in TARGETS:
                before = self.last.get(name)
                if before and before != record.get(name):
                    self.earlier.append((name, minute(before)))
        if record["alerts"] != self.words:
            for name in self.words:
                if name not in record["alerts"]:
                    self.alerts.append((name, self.open_alerts.pop(name), moment))
            for name in record["alerts"]:
                if name not in self.words:
                    self.open_alerts[name] = moment
            self.words = record["alerts"]
        self.last = record

    def spans(self) -> list[Span]:
        """The alerts with the moments at which they came and went, and whether they stayed to the end."""
        gone = [(name, first, last, False) for name, first, last in self.alerts]
        still = [(name, first, self.end, True) for name, first in self.open_alerts.items()]
        return sorted(gone + still, key=lambda span: span[1])


@dataclass
class Day:
    """What a journal tells."""

    stories: dict[int, Story] = field(default_factory=dict)
    entries: int = 0
    first: int = 0
    end: int = 0
    accepted: Counter[str] = field(default_factory=Counter)
    refused: list[Line] = field(default_factory=list)
    journal: str = ""
    fault: str = ""

    def take(self, entry: Line) -> None:
        """Keeps what the feed tells of an entry."""
        moment = minute(entry["minute"])
        self.entries += 1
        self.first, self.end = min(self.first or moment, moment), max(self.end, moment)
        for record in entry["changed"]:
            self.stories.setdefault(record["flight"], Story(record["flight"])).touched(moment, record)
        story = self.stories.get(entry["command"].get("flight"))
        if story:
            story.moments.append(moment)
        if entry["outcome"] == "ok":
            self.accepted[partner(entry)] += 1
        else:
            self.refused.append(entry)
            if story:
                story.refused.append(entry)


def day_of(lines: Iterable[str]) -> Day:
    """Keeps what a feed tells; a last line that is no JSON tells the first fault."""
    day = Day()
    for number, line in enumerate(lines, 1):
        fault = re.fullmatch(r"entry (\d+) (\d+)\s*", line)
        if fault:
            day.fault = f"Entry {fault[1]} breaks clause {fault[2]}; nothing after it is shown."
            break
        try:
            told = parsed(line.encode())
            if "entry" in told:
                day.take(told)
            elif day.journal not in ("", told["journal"]):
                day.fault = f"Line {number} begins another journal; nothing after it is shown."
                break
            else:
                day.journal = told["journal"]
        except (NoFeed, KeyError, TypeError, ValueError, AttributeError):
            raise NoFeed(f"line {number} is no line of the feed of changes") from None
    for story in day.stories.values():
        story.end = day.end
        story.times = {name: minute(story.last.get(name)) for name in TIMES}
    return day


class Axis:
    """The minutes of a picture, and where they stand."""

    def __init__(self, minutes: list[int]) -> None:
        middle = sorted(minutes)[len(minutes) // 2]
        self.first = max(min(minutes), middle - HALF_A_DAY)
        self.last = min(max(minutes), middle + HALF_A_DAY)
        self.first, self.last = self.first - 5, max(self.last, self.first + 30) + 5

    def place(self, moment: int) -> float:
        """Where a minute stands; one that lies outside stands at the edge."""
        inside = min(max(moment, self.first), self.last)
        return round(LEFT + (inside - self.first) * (WIDTH - LEFT - RIGHT) / (self.last - self.first), 1)

    def hours(self, height: int) -> Iterator[str]:
        """Lines at whole hours, with their clock times."""
        steps = [step for step in (15, 30, 60, 120) if (self.last - self.first) / step <= 16] + [180]
        for moment in range(self.first // steps[0] * steps[0] + steps[0], self.last + 1, steps[0]):
            x = self.place(moment)
            yield f'<line x1="{x}" y1="14" x2="{x}" y2="{height}" stroke="#e4e4e4"/>'
            yield text(x, 10, clock(moment), "#777", "middle")


def text(x: float, y: float, words: str, colour: str = "#222", anchor: str = "start") -> str:
    return f'<text x="{x}" y="{y}" fill="{colour}" text-anchor="{anchor}" font-size="11">{html.escape(words)}</text>'


def svg(height: int, parts: list[str], title: str) -> str:
    size = f'viewBox="0 0 {WIDTH} {height}" width="{WIDTH}" height="{height}"'
    font = 'font-family="DejaVu Sans, Verdana, sans-serif"'
    return f'<svg {size} role="img" aria-label="{html.escape(title)}" {font}>' + "\n".join(parts) + "</svg>"


class Lanes:
    """Lanes of labels, so that none stands on another."""

    def __init__(self) -> None:
        self.ends: list[float] = []

    def place(self, first: float, last: float) -> int:
        """The first lane that is free from there on."""
        for lane, end in enumerate(self.ends):
            if end <= first:
                self.ends[lane] = last
                return lane
        self.ends.append(last)
        return len(self.ends) - 1


def milestone_of(name: str, record: Line) -> str:
    """The number of the milestone that set a time, if one did. Two may set an ELDT."""
    numbers = (5, 4) if name == "eldt" else (SETS.get(name),)
    return next((str(number) for number in numbers if number in record["reached"]), "")


def marks_of(story: Story) -> tuple[list[Mark], list[Mark]]:
    """The times of a flight with their milestones: actual ones and targets, each by time."""
    marks: list[Mark] = []
    for moment, name in sorted((moment, name) for name, moment in story.times.items() if moment):
        marks.append((moment, name, f"{milestone_of(name, story.last)} {name.upper()} {clock(moment)}".strip()))
    return [mark for mark in marks if mark[1] not in TARGETS], [mark for mark in marks if mark[1] in TARGETS]


def labelled(axis: Axis, marks: list[Mark]) -> Iterator[tuple[float, int, str]]:
    """Where labels stand: the place, the lane and the text of each."""
    lanes = Lanes()
    for moment, _, label in marks:
        x = axis.place(moment)
        yield x, lanes.place(x, x + 7 * len(label) + 12), label


def stem(x: float, line: int, y: int, label: str, colour: str) -> str:
    """A label, and the stem on which it stands."""
    return f'<path d="M{x} {line}V{y}" stroke="{colour}" opacity="0.35"/>' + text(x + 3, y + 2, label, colour)


def actual_marks(line: int, labels: list[tuple[float, int, str]]) -> Iterator[str]:
    """Actual times above the line."""
    for x, lane, label in labels:
        yield stem(x, line, line - 12 - 15 * lane, label, ACTUAL)
        yield f'<circle cx="{x}" cy="{line}" r="4.5" fill="{ACTUAL}"/>'


def earlier_marks(axis: Axis, line: int, earlier: list[tuple[str, int]]) -> Iterator[str]:
    """Targets and estimates that were replaced, as strokes on the line."""
    for name, moment in earlier:
        title = f"<title>{name.upper()} was {day_and_clock(moment)}</title>"
        stroke = f'stroke="{TARGET}" stroke-width="2" opacity="0.5"'
        yield f'<path d="M{axis.place(moment)} {line - 4}v8" {stroke}>{title}</path>'


def target_marks(line: int, labels: list[tuple[float, int, str]]) -> Iterator[str]:
    """Targets and estimates below the line."""
    for x, lane, label in labels:
        yield stem(x, line, line + 18 + 15 * lane, label, TARGET)
        yield f'<path d="M{x} {line - 5}l5 5l-5 5l-5 -5z" fill="#fff" stroke="{TARGET}" stroke-width="1.5"/>'


def milestone_line(story: Story) -> str:
    """The picture of a flight: actual times above its line, targets below, then refused commands and alerts."""
    actual, targets = marks_of(story)
    spans = story.spans()
    axis = Axis([moment for moment, *_ in actual + targets] + story.moments + [first for _, first, *_ in spans])
    above, below = list(labelled(axis, actual)), list(labelled(axis, targets))
    line = 48 + 15 * max((lane for _, lane, _ in above), default=0)
    parts = [f'<line x1="{LEFT}" y1="{line}" x2="{WIDTH - RIGHT}" y2="{line}" stroke="#999" stroke-width="2"/>']
    parts += [*actual_marks(line, above), *earlier_marks(axis, line, story.earlier), *target_marks(line, below)]
    under = line + 26 + 15 * max((lane for _, lane, _ in below), default=0)
    more, height = refusals_line(axis, story, under)
    bars, height = alert_bars(axis, spans, height)
    return svg(height + 4, list(axis.hours(height)) + parts + more + bars, f"flight {story.number}")


def refusals_line(axis: Axis, story: Story, top: int) -> Picture:
    """The refused commands about a flight as crosses, each with its number."""
    lanes, height = Lanes(), top
    parts: list[str] = []
    for entry in sorted(story.refused, key=lambda entry: minute(entry["minute"])):
        x = axis.place(minute(entry["minute"]))
        y = top + 6 + 15 * lanes.place(x, x + 50)
        title = html.escape(
            f"entry {entry['entry']}, {clock(minute(entry['minute']))}: {entry['role']} {command_text(entry)}"
        )
        cross = f'd="M{x - 4} {y - 4}l8 8m0 -8l-8 8" stroke="{REFUSED}" stroke-width="2"'
        parts.append(f"<path {cross}><title>{title}</title></path>")
        parts.append(text(x + 7, y + 4, f"no {entry['outcome']['code']}", REFUSED))
        height = max(height, y + 12)
    return parts, height


def alert_title(span: Span) -> str:
    """What an alert's bar says where the pointer rests on it."""
    name, first, last, stays = span
    until = "the end" if stays else clock(last)
    return f"<title>{html.escape(f'{name}, {words_of(name)}, from {clock(first)} to {until}')}</title>"


def alert_bars(axis: Axis, spans: list[Span], top: int) -> Picture:
    """Alerts as bars from the moment at which they came to the one at which they went."""
    lanes, height = Lanes(), top
    parts: list[str] = []
    for span in spans:
        name, first, last, stays = span
        x, end = sorted((axis.place(first), axis.place(last)))
        end = max(end, x + 3)
        y = top + 4 + 15 * lanes.place(x, end + 90)
        colour = LOCAL if name.startswith("LOC") else CDM
        shape = f'x="{x}" y="{y}" width="{round(end - x, 1)}" height="9"'
        parts.append(f'<rect {shape} fill="{colour}" opacity="0.75">{alert_title(span)}</rect>')
        parts.append(text(end + 4, y + 9, name + (" stays" if stays else ""), colour))
        height = max(height, y + 14)
    return parts, height


def overview_row(axis: Axis, story: Story, minutes: list[int], y: int) -> list[str]:
    """A flight on the axis of all."""
    times = story.times
    parts = [f'<path d="M{axis.place(min(minutes))} {y}H{axis.place(max(minutes))}" stroke="#bbb" stroke-width="2"/>']
    if times["aibt"]:
        first, last = axis.place(times["aibt"]), axis.place(times["aobt"] or max(story.end, times["aibt"]))
        parts.append(f'<path d="M{first} {y}H{last}" stroke="{ACTUAL}" stroke-width="10" opacity="0.6"/>')
    for _, *moments, _ in story.spans():
        first, last = sorted(axis.place(moment) for moment in moments)
        parts.append(f'<path d="M{first} {y + 7}H{max(last, first + 2)}" stroke="{CDM}" stroke-width="3"/>')
    return [*parts, text(WIDTH - RIGHT + 8, y + 4, str(story.number))]


def overview(stories: list[Story]) -> str:
    """All flights on one axis: the time at the stand, the times known, and when there were alerts."""
    rows = [(story, [moment for moment in story.times.values() if moment] + story.moments) for story in stories]
    axis = Axis([moment for _, minutes in rows for moment in minutes])
    parts = []
    for place, (story, minutes) in enumerate(rows):
        parts += overview_row(axis, story, minutes, 28 + 20 * place)
    height = 28 + 20 * len(rows)
    return svg(height, list(axis.hours(height - 8)) + parts, "all flights")


def command_text(entry: Line) -> str:
    """The words of a command, with times as clock times."""
    command = entry["command"]
    words = [str(command[key]) for key in command if key not in ("time", "sobt", "instructions", "length", "layout")]
    times = [clock(minute(command[key])) or "no time" for key in ("time", "sobt") if key in command]
    return " ".join(words + times)


def partner(entry: Line) -> str:
    return f"session {entry['session']} {entry['role']}"


def refusal_bar(y: int, name: str, codes: Counter[int], unit: float, colours: dict[int, str]) -> list[str]:
    """The bar of a partner."""
    x, parts = 140.0, [text(130, y + 13, name, anchor="end")]
    for code, count in sorted(codes.items()):
        shape = f'x="{round(x, 1)}" y="{y}" width="{round(count * unit, 1)}" height="18"'
        parts.append(f'<rect {shape} fill="{colours[code]}"/>')
        if count * unit >= 26:
            parts.append(text(round(x + count * unit / 2, 1), y + 13, str(code), "#fff", "middle"))
        x += count * unit
    said = ", ".join(f"{count} of {code}" for code, count in sorted(codes.items()))
    return [*parts, text(round(x + 8, 1), y + 13, said, "#555")]


def refusal_bars(refused: list[Line]) -> str:
    """For each partner a bar of its refused commands by number."""
    counts: dict[tuple[int, str], Counter[int]] = defaultdict(Counter)
    for entry in refused:
        counts[entry["session"], partner(entry)][entry["outcome"]["code"]] += 1
    colours = dict(zip(sorted({entry["outcome"]["code"] for entry in refused}), COLOURS * 2))
    unit = min(40, 700 / max(sum(codes.values()) for codes in counts.values()))
    parts = []
    for place, ((_, name), codes) in enumerate(sorted(counts.items())):
        parts += refusal_bar(8 + 26 * place, name, codes, unit, colours)
    return svg(16 + 26 * len(counts), parts, "refused commands by partner")


def table(heads: Iterable[str], rows: Iterable[Iterable[Any]]) -> str:
    """A table; a cell that is a pair is a text and where it leads."""
    lines = []
    for row in rows:
        cells = []
        for cell in row:
            if isinstance(cell, tuple):
                cells.append(f'<td><a href="#{html.escape(cell[1])}">{html.escape(str(cell[0]))}</a></td>')
            else:
                kind = ' class="number"' if isinstance(cell, (int, float)) else ""
                cells.append(f"<td{kind}>{html.escape(str(cell))}</td>")
        lines.append("".join(cells))
    head = "".join(f"<th>{name}</th>" for name in heads)
    return "<table>" + "".join(f"<tr>{line}</tr>\n" for line in [head, *lines]) + "</table>"


def refusals(refused: list[Line]) -> str:
    """The refused commands by partner, and one by one."""
    if not refused:
        return "<p>None.</p>"
    rows = []
    for entry in refused:
        code, moment = entry["outcome"]["code"], day_and_clock(minute(entry["minute"]))
        rows.append((entry["entry"], moment, partner(entry), command_text(entry), f"{code}: {REFUSALS.get(code, '')}"))
    return refusal_bars(refused) + table(("Entry", "Moment", "Partner", "Command", "Refused with"), rows)


def difference(stories: list[Story], target: str, actual: str) -> tuple[Any, ...]:
    """How far the actual times were from their targets, as cells of a row."""
    pairs = [(story.times[target], story.times[actual]) for story in stories]
    apart = [reached - wanted for wanted, reached in pairs if reached and wanted]
    name = f"{actual.upper()} after {target.upper()}"
    if not apart:
        return (name, 0, "-", "-", "-")
    near = sum(abs(minutes) <= 5 for minutes in apart)
    spread = f"{min(apart)} to {max(apart)}"
    return (name, len(apart), f"{statistics.median(apart):g}", spread, f"{100 * near // len(apart)} %")


PAIRS = (("tobt", "aobt"), ("tsat", "asat"), ("sobt", "aobt"), ("ctot", "atot"))


def alert_figures(stories: list[Story]) -> str:
    """Each alert: how often, for how many flights, and how long it stood."""
    stood = defaultdict(list)
    for story in stories:
        for name, first, last, _ in story.spans():
            stood[name].append((story.number, max(0, last - first)))
    rows = []
    for name, spans in sorted(stood.items()):
        minutes = [length for _, length in spans]
        flights = len({number for number, _ in spans})
        rows.append((name, words_of(name), len(spans), flights, f"{statistics.median(minutes):g}", max(minutes)))
    heads = ("Alert", "In words", "Raised", "Flights", "Median minutes", "Most")
    return table(heads, rows) if rows else "<p>None.</p>"


def figures(day: Day, stories: list[Story]) -> list[str]:
    """The first page: partners, punctuality, alerts."""
    refused = Counter(partner(entry) for entry in day.refused)
    names = sorted({*day.accepted, *refused}, key=lambda name: (len(name.split()[1]), name))
    partners = [(name, day.accepted[name], refused[name]) for name in names]
    punctuality = [difference(stories, *pair) for pair in PAIRS]
    return [
        "<h2>Partners</h2>",
        table(("Partner", "Accepted", "Refused"), partners),
        "<h2>Punctuality</h2>",
        table(("Minutes of", "Flights", "Median", "Spread", "Within 5"), punctuality),
        "<h2>Alerts</h2>",
        alert_figures(stories),
    ]


def half(record: Line, key: str) -> str:
    return str(record[f"plan_{key}"] or record[f"scheduled_{key}"])


def heading(story: Story) -> str:
    record = story.last
    return f"{story.number} {record['callsign']} {half(record, 'type')} {half(record, 'reg')} to {half(record, 'dest')}"


def searched(story: Story) -> str:
    """What the filter looks in."""
    names = sorted({name for name, *_ in story.spans()})
    return html.escape(" ".join([heading(story), f"stand {story.last['stand']}", *names]).lower())


def index(stories: list[Story]) -> str:
    """A table of the flights, each of which leads to its picture."""
    rows = []
    for story in stories:
        record, names = story.last, sorted({name for name, *_ in story.spans()})
        texts = [record["callsign"], half(record, "type"), half(record, "dest"), str(record["stand"] or "")]
        texts += [clock(story.times[name]) for name in ("eobt", "tobt", "tsat", "aobt")] + [" ".join(names)]
        cells = [f'<a href="#f{story.number}">{story.number}</a>', *map(html.escape, texts)]
        rows.append(f'<tr data-text="{searched(story)}">' + "".join(f"<td>{cell}</td>" for cell in cells) + "</tr>")
    heads = ("Flight", "Call sign", "Type", "To", "Stand", "EOBT", "TOBT", "TSAT", "AOBT", "Alerts")
    return "<table><tr>" + "".join(f"<th>{name}</th>" for name in heads) + "</tr>" + "\n".join(rows) + "</table>"


ALL = "Grey: from the first to the last time known. Blue: at the stand. Red: alerts."
FILTER = '<input id="filter" placeholder="call sign, registration, stand 12, CDM09">'
EACH = (
    "Above the line actual times, with the numbers of their milestones; below it targets and estimates, earlier ones as"
    " short strokes. Crosses are refused commands. Bars are alerts, from the command after which they stood to the one"
    " after which they were gone; those of local programs are darker yellow."
)


def flights_of(stories: list[Story]) -> list[str]:
    """The flights: all on one axis, as a table, and each by itself."""
    more = f" The first {MOST_ROWS} of {len(stories)} are shown." if len(stories) > MOST_ROWS else ""
    parts = [
        f"<h2>All flights</h2><p>{ALL}{more}</p>",
        overview(stories[:MOST_ROWS]),
        f"<h2>Flights</h2><p><label>Filter: {FILTER}</label></p>",
        index(stories),
        f"<h2>Flight by flight</h2><p>{EACH}</p>",
    ]
    for story in stories:
        title = f'<h3 id="f{story.number}">{html.escape(heading(story))}</h3>'
        parts.append(f'<section data-text="{searched(story)}">{title}{milestone_line(story)}</section>')
    return parts


def page(day: Day, name: str, chosen: set[int]) -> str:
    """The page of a day, or of some of its flights."""
    stories = [story for number, story in day.stories.items() if not chosen or number in chosen]
    span = f"{day_and_clock(day.first)} to {day_and_clock(day.end)} (UTC)" if day.entries else ""
    says = day.fault or f"A legal journal of {day.entries} entries."
    parts = [
        f"<!DOCTYPE html><html lang='en'><head><meta charset='utf-8'><title>{html.escape(name)}</title>",
        f"<style>{STYLE}</style></head><body>",
        f"<h1>Journal {html.escape(name)}</h1>",
        f"<p>{html.escape(says)} {len(day.stories)} flights, {len(day.refused)} commands refused. {span}</p>",
        *figures(day, stories),
        *(flights_of(stories) if stories else []),
        "<h2>Refused commands</h2>",
        refusals(day.refused),
        *([f"<script>{SCRIPT}</script>"] if stories else []),
        "</body></html>",
    ]
    return "\n".join(parts) + "\n"


def feed_of(file: Path) -> list[str]:
    """The lines of a feed, of standard input, of a file, or told by the program of a journal."""
    if str(file) == "-":
        return sys.stdin.buffer.read().decode("ascii", "replace").splitlines()
    given = file.read_bytes().decode("ascii", "replace")
    return given.splitlines() if given.startswith("{") else lines_of("tell", file)


def main() -> int:
    words = Arguments(description="Makes one HTML file of a journal.")
    words.add_argument("journal", type=Path, help="a journal, or what `acdm tell` told of it, - for standard input")
    words.add_argument("flight", nargs="*", type=int)
    given = words.parse_args()
    name = "of standard input" if str(given.journal) == "-" else given.journal.name
    try:
        print(page(day_of(feed_of(given.journal)), name, set(given.flight)), end="")
        return 0
    except (NoAnswer, NoFeed) as why:
        print(f"report.py: {given.journal}: {why}", file=sys.stderr)
    except OSError as error:
        print(f"report.py: {given.journal}: {error.strerror}", file=sys.stderr)
    return 2


if __name__ == "__main__":
    sys.exit(main())
