"use strict";
// The board in the browser, by the feed of changes at /events. WORDS is written before this by embed.py.
const TARGETS = ["sobt", "eobt", "ctot", "eldt", "tobt", "tsat", "eczt", "eezt"];
const TIMES = [
  "sobt", "eobt", "ctot", "otot", "eldt", "aldt", "aibt", "acgt", "tobt", "tsat",
  "asbt", "ardt", "asrt", "asat", "aobt", "atot", "eczt", "eezt", "aczt", "aezt",
];
// How many rows are made at first, and more each time that their end is scrolled to; and how many in a frame at most.
const STEP = 200, PART = 20;
const MINUTE = 60000, SILENT = 30 * MINUTE, OVER = 180 * MINUTE, UNTICKED = 5 * MINUTE;
const MANY = 500, SPACED = 100;
// How long after another journal was met it is read anew, and how long that is told.
const ANEW = 500, TOLD = 10 * MINUTE;
// How many entries are read back at first, how many in all at most, and what of alerts and refusals is listed.
const FIRST_BACK = 2000, MOST_BACK = 64000, LISTED = 100, REFUSED = 5;

const flights = new Map(), facts = new Map(), rows = new Map();
const partners = new Map(), reported = new Map(), stale = new Set();
// Since when each alert of a flight stands, and the minute of the earliest record of it that was seen.
const onsets = new Map(), earliest = new Map();
let journal = "", next = 0, room = 0, refused = [], heard = 0, alerted = 0, most = STEP, local = {};
let ticked = "", first = "", anew = "";
let isAll = true, isDue = true, isWaiting = false, opened = "", focused = "", known = Infinity, reading = null;
let zone = "UTC", order = "", isDown = false, hours, drawn = 0;

const kept = (name, otherwise) => {
  try {
    return JSON.parse(localStorage.getItem(name)) ?? otherwise;
  } catch {
    return otherwise;
  }
};
const keep = (name, value) => {
  try {
    localStorage.setItem(name, JSON.stringify(value));
  } catch {}
};
local = kept("names", {});

const element = (id) => document.getElementById(id);
// How far the board's clock is ahead of the browser's, in milliseconds.
let ahead = 0;
const now = () => Date.now() + ahead;
const half = (flight, key) => flight["plan_" + key] || flight["scheduled_" + key];
const words = (alert) => WORDS.alerts[alert] || local[alert] || "local alert " + alert.slice(3);
const turn = (alert) => WORDS.turns[alert] || ["APT"];
const milestone = (number) => WORDS.milestones[number - 1];
const hasDeparted = (flight) => flight.reached.includes(16);

// A clock time in the zone that is chosen; those of UTC are cut from the text.
function clock(time) {
  if (!time) return "–";
  return zone === "UTC" ? time.slice(-9, -4) : hours.format(Date.parse(time));
}

function tag(name, text, kind, role) {
  const node = document.createElement(name);
  if (text !== undefined) node.textContent = text;
  if (kind) node.className = kind;
  if (role) node.setAttribute("role", role);
  return node;
}

// A flight's number may be above 2^53: it is read as the text of its digits.
const parsed = (text) => JSON.parse(text.replace(/"flight":(\d+)/g, '"flight":"$1"'));

// The columns: a name, what a cell has of a flight, and by what they are put in order.
const late = (time) => time || "~";
const ordinal = (number) => String(number).padStart(5, "0");
const aircraft = (flight) => half(flight, "type") + " " + half(flight, "reg");
const COLUMNS = [
  ["Flight", callsign, (flight) => flight.callsign],
  ["Type, registration", (flight) => tag("td", aircraft(flight)), aircraft],
  ["To", (flight) => named("to", tag("td", half(flight, "dest"))), (flight) => half(flight, "dest")],
  ["Stand", (flight) => named("stand", tag("td", flight.stand || "–")), (flight) => ordinal(flight.stand)],
  ["Milestones", milestoneCells, (flight) => ordinal(99 - flight.reached.length)],
  ["ELDT or ALDT", landing, (flight) => late(flight.aldt || flight.eldt)],
  ["AIBT", (flight) => named("AIBT", tag("td", clock(flight.aibt))), (flight) => late(flight.aibt)],
  ["EOBT", offBlock, (flight) => late(flight.eobt || flight.sobt)],
  ["TOBT", (flight) => named("TOBT", target(flight.tobt, flight.aobt)), (flight) => late(flight.tobt)],
  ["TSAT", (flight) => named("TSAT", target(flight.tsat, flight.asat)), (flight) => late(flight.tsat)],
  ["CTOT", (flight) => named("CTOT", tag("td", clock(flight.ctot))), (flight) => late(flight.ctot)],
  ["Alerts", alertCells, (flight) => ordinal(99 - flight.alerts.length)],
];

function named(name, cell) {
  cell.dataset.name = name;
  return cell;
}

function callsign(flight) {
  const cell = tag("td");
  cell.append(tag("b", flight.callsign), " ", tag("small", flight.flight));
  return cell;
}

function landing(flight) {
  const cell = tag("td");
  cell.append(flight.aldt ? tag("b", clock(flight.aldt)) : clock(flight.eldt));
  return named("land", cell);
}

// A flight without a plan has the time of its schedule, in italics.
function offBlock(flight) {
  const cell = tag("td");
  if (flight.eobt) cell.append(clock(flight.eobt));
  else if (flight.sobt) cell.append(tag("i", clock(flight.sobt)));
  else cell.append("–");
  return named(flight.eobt || !flight.sobt ? "EOBT" : "SOBT", cell);
}

// A target, with the minutes that are left to it.
function target(time, isDone) {
  const cell = tag("td", clock(time));
  if (!time || isDone) return cell;
  const left = Math.floor((Date.parse(time) - now()) / MINUTE);
  if (Math.abs(left) >= 6000) return cell;
  cell.append(" ", tag("small", (left < 0 ? "" : "+") + left, left < 0 ? "past" : left <= 10 ? "soon" : ""));
  return cell;
}

// A milestone that was reached has the colour of who reported it; grey where the feed does not tell any more.
function milestoneCell(flight, number) {
  const isReached = flight.reached.includes(number), by = reported.get(flight.flight + "/" + number);
  const cell = tag("i", number);
  if (isReached) cell.className = "on" + (by ? " " + by.role : "");
  const who = by ? ": " + by.role + ", session " + by.session + ", at " + clock(by.minute) : ": reached";
  cell.title = number + " " + milestone(number).short + (isReached ? who : ": not reached");
  return cell;
}

function milestoneCells(flight) {
  const cell = tag("td", undefined, "cells wide"), cells = tag("span");
  const reached = flight.reached.filter(Boolean).map((number) => milestone(number).short);
  cells.setAttribute("aria-hidden", "true");
  for (let number = 1; number <= WORDS.milestones.length; number++) cells.append(milestoneCell(flight, number));
  cell.append(cells, tag("span", "reached: " + (reached.join(", ") || "none"), "unseen"));
  return cell;
}

function alertCells(flight) {
  const cells = tag("td", undefined, "alerts wide");
  for (const alert of flight.alerts) {
    const cell = tag("span", words(alert), "alert" + (alert.startsWith("LOC") ? " local" : ""));
    cell.title = alert + ", " + turn(alert).join(" or ") + since(flight, alert);
    cells.append(cell, " ");
  }
  return cells;
}

// Since when an alert stands, as far as the feed tells.
function since(flight, alert) {
  const onset = onsets.get(flight.flight)?.get(alert);
  if (!onset?.minute) return "";
  return (onset.isSure ? ", since " : ", since before ") + clock(onset.minute);
}

function row(flight) {
  const line = rows.get(flight.flight) || tag("tr", undefined, "", "row");
  rows.set(flight.flight, line);
  line.dataset.flight = flight.flight;
  line.tabIndex = flight.flight === focused ? 0 : -1;
  line.className = (flight.alerts.length ? "alerted" : "") + (hasDeparted(flight) ? " departed" : "");
  const cells = COLUMNS.map((column) => column[1](flight));
  for (const cell of cells) cell.setAttribute("role", "cell");
  line.replaceChildren(...cells);
  return line;
}

// What a flight is found and put in order by, and the last moment that it knows of.
function fact(flight) {
  const texts = [flight.callsign, flight.flight, half(flight, "type"), half(flight, "reg"), half(flight, "dest")];
  texts.push("stand " + flight.stand, ...flight.alerts, ...flight.alerts.map(words));
  const usual = late(flight.tobt || flight.eobt || flight.sobt) + late(flight.eobt);
  const column = COLUMNS.find((it) => it[0] === order);
  const last = TIMES.reduce((latest, name) => flight[name] > latest ? flight[name] : latest, "");
  return {
    search: texts.join(" ").toLowerCase(),
    order: (column ? column[2](flight) + " " : "") + usual + flight.flight.padStart(20, "0"),
    last: last ? Date.parse(last) : Infinity,
    isGone: hasDeparted(flight),
    id: flight.flight,
  };
}

function put(flight) {
  flights.set(flight.flight, flight);
  facts.set(flight.flight, fact(flight));
  stale.add(flight.flight);
  if (flight.flight === opened) fill(flight);
}

// What is chosen: which flights, those with alerts alone, by which words. A flight is over at this moment or before.
function choice() {
  return {
    show: element("show").value,
    only: element("only").checked,
    words: element("text").value.toLowerCase().split(/\s+/).filter(Boolean),
    over: now() - OVER,
  };
}

// Whether a flight is shown: one is over three hours after the last time that it knows of.
function isAsked(flight, fact, asked) {
  if (asked.show !== "all" && fact.last < asked.over || asked.show === "open" && fact.isGone) return false;
  if (asked.only && !flight.alerts.length) return false;
  return asked.words.every((word) => fact.search.includes(word));
}

// The flights to be shown, in order. (What was in order at the last drawing is nearly so now, and soon put in order.)
let list = [];
function shown() {
  const asked = choice(), before = new Set(list.map((it) => it.id)), found = [];
  alerted = 0;
  for (const it of list) {
    const fact = facts.get(it.id), flight = flights.get(it.id);
    if (fact && isAsked(flight, fact, asked)) found.push(fact);
  }
  for (const [id, flight] of flights) {
    const fact = facts.get(id);
    if (flight.alerts.length && !fact.isGone) alerted++;
    if (!before.has(id) && isAsked(flight, fact, asked)) found.push(fact);
  }
  const sign = isDown ? -1 : 1;
  list = found.sort((one, other) => one.order < other.order ? -sign : sign);
  return list;
}

// Rows are made for those in sight alone, a part of them in each frame; more come as the end of them is scrolled to.
function drawRows() {
  const focus = document.activeElement;
  const seen = new Set(list.slice(0, most).map((it) => it.id));
  for (const id of rows.keys()) {
    if (!seen.has(id)) {
      rows.get(id).remove();
      rows.delete(id);
    }
  }
  if (!seen.has(focused)) focused = list[0]?.id || "";
  let place = element("rows").firstChild, left = PART;
  for (const id of seen) {
    let line = rows.get(id);
    if (!line || stale.has(id)) {
      if (left > 0) {
        left--;
        line = row(flights.get(id));
        stale.delete(id);
      } else {
        soon();
        if (!line) continue;
      }
    }
    if (line === place) place = place.nextSibling;
    else element("rows").insertBefore(line, place);
  }
  // (a row that has the focus loses it where it is moved)
  if (rows.get(focused) === focus) focus.focus({ preventScroll: true });
  const first = rows.get(focused);
  if (first) first.tabIndex = 0;
}

function partnerCell([session, partner]) {
  const isOld = now() - Date.parse(partner.last) > SILENT;
  const text = partner.role + " " + session + " " + clock(partner.last) + (isOld ? " (silent)" : "");
  const count = partner.refused ? ", " + partner.refused + " refused" : "";
  return tag("span", text + count, "partner" + (isOld ? " old" : ""));
}

function refusal(line) {
  const flight = line.command.flight ? " " + line.command.flight : "";
  const why = WORDS.refusals[line.outcome.code] || line.outcome.name;
  return clock(line.minute) + " " + line.role + " " + line.command.cmd + flight + ": " + why;
}

// The alerts of flights that have not departed, the longest standing first: since when, and whose turn it is.
function alertList() {
  const list = [];
  for (const flight of flights.values()) {
    if (hasDeparted(flight)) continue;
    for (const alert of flight.alerts) {
      list.push({ flight, alert, onset: onsets.get(flight.flight)?.get(alert)?.minute || "" });
    }
  }
  return list.sort((one, other) => one.onset < other.onset ? -1 : one.onset > other.onset ? 1 : 0);
}

function alertItem({ flight, alert, onset }) {
  const item = tag("li"), button = tag("button", flight.callsign);
  button.type = "button";
  button.dataset.flight = flight.flight;
  const left = onset ? ", " + Math.max(0, Math.floor((now() - Date.parse(onset)) / MINUTE)) + " min" : "";
  item.append(button, " " + words(alert) + since(flight, alert) + left + "; turn of " + turn(alert).join(" or "));
  return item;
}

function drawAlerts() {
  element("alerting-count").textContent = alerted ? "Alerts of " + alerted + " flights" : "No alerts";
  if (!element("alerting").open) return;
  const list = alertList(), items = list.slice(0, LISTED).map(alertItem);
  if (list.length > LISTED) items.push(tag("li", list.length - LISTED + " more"));
  element("alerts").replaceChildren(...items);
}

// Asks for the board's clock, by the date of an answer. That has whole seconds, so that less is no difference.
async function askTime() {
  const begun = Date.now();
  try {
    const answer = await fetch("/", { method: "HEAD" });
    const found = Date.parse(answer.headers.get("Date")) + 500 - (begun + Date.now()) / 2;
    if (!isNaN(found)) ahead = Math.abs(found) < 1000 ? 0 : found;
  } catch {}
}

function drawClock() {
  const moment = new Date(now()), text = moment.toISOString().slice(11, 16) + "Z";
  const own = zone === "UTC" ? "" : " " + hours.format(moment) + " " + zone;
  if (element("clock").textContent !== text + own) element("clock").textContent = text + own;
}

function draw() {
  drawClock();
  drawTicks();
  drawAnew();
  if (isAll) {
    isAll = false;
    isDue = true;
    for (const flight of flights.values()) put(flight);
  }
  if (!isDue) return;
  isDue = false;
  shown();
  drawRows();
  drawAlerts();
  document.title = (alerted ? "(" + alerted + ") " : "") + "A-CDM board";
  element("more").hidden = list.length <= most;
  element("more").textContent = list.length - most + " more";
  element("none").hidden = list.length > 0;
  const entries = next + " of " + room + " entries" + (room && next >= 0.8 * room ? " (nearly full)" : "");
  const sums = list.length + " of " + flights.size + " flights, " + alerted + " with alerts";
  element("sums").textContent = entries + ", " + sums;
  const cells = [...partners].sort((one, other) => one[0] - other[0]).flatMap((pair) => [partnerCell(pair), " "]);
  element("partners").replaceChildren(...cells);
  element("refused").textContent = refused.length ? "Refused last: " + refused.map(refusal).join("; ") : "";
}

// Draws in the next frame; where there are many flights ten times a second at most, so that scrolling stays smooth.
function soon() {
  isDue = true;
  if (isWaiting) return;
  isWaiting = true;
  const left = flights.size > MANY ? drawn + SPACED - performance.now() : 0;
  const go = () => requestAnimationFrame(() => {
    isWaiting = false;
    draw();
    drawn = performance.now();
  });
  if (left > 0) setTimeout(go, left);
  else go();
}

// A new alert of a flight that is shown: told to a screen reader, by sound and notification where these are asked for.
function tellAlert(flight, alert) {
  const text = flight.callsign + ": " + words(alert) + ", turn of " + turn(alert).join(" or ");
  element("news").textContent = text;
  if (element("sound").checked) beep();
  const mayNotify = element("notify").checked && Notification.permission === "granted";
  if (mayNotify) new Notification(text, { tag: flight.flight + alert });
}

let audio = null;
function beep() {
  audio = audio || new AudioContext();
  const tone = audio.createOscillator(), volume = audio.createGain();
  volume.gain.setValueAtTime(0.2, audio.currentTime);
  volume.gain.exponentialRampToValueAtTime(0.001, audio.currentTime + 0.4);
  tone.frequency.value = 880;
  tone.connect(volume).connect(audio.destination);
  tone.start();
  tone.stop(audio.currentTime + 0.4);
}

// What a live record says of its alerts: those that it had not have begun in this minute.
function takeAlerts(flight, minute) {
  const before = flights.get(flight.flight)?.alerts || [], had = onsets.get(flight.flight) || new Map();
  const standing = new Map();
  for (const alert of flight.alerts) {
    const isNew = !before.includes(alert);
    standing.set(alert, isNew ? { minute, isSure: true } : had.get(alert) || { minute, isSure: false });
    if (isNew && isAsked(flight, facts.get(flight.flight), { ...choice(), words: [] })) tellAlert(flight, alert);
  }
  onsets.set(flight.flight, standing);
  if (!earliest.has(flight.flight)) earliest.set(flight.flight, minute);
}

// Alerts that come with time alone need a tick a minute.
function drawTicks() {
  const last = ticked || first, isMissing = last && now() - Date.parse(last) > UNTICKED;
  const text = isMissing ? "no tick since " + clock(last) + ": alerts that come with time are missing" : "";
  if (element("ticks").textContent !== text) element("ticks").textContent = text;
}

// That the board has another journal than before is told in a line for a while.
function drawAnew() {
  const isTold = anew && now() - Date.parse(anew) < TOLD;
  const text = isTold ? "another journal: read anew at " + clock(anew) : "";
  if (element("anew").textContent !== text) element("anew").textContent = text;
}

// What any entry says of its partner, and of who reported what: the newest one counts.
function learn(line) {
  const partner = partners.get(line.session) || { role: line.role, refused: 0, entry: -1 };
  if (line.entry > partner.entry) {
    partner.entry = line.entry;
    partner.last = line.minute;
  }
  partners.set(line.session, partner);
  if (line.command.cmd === "tick" && line.minute > ticked) ticked = line.minute;
  if (!first || line.minute < first) first = line.minute;
  if (line.outcome !== "ok") {
    partner.refused++;
    refused = [line, ...refused].sort((one, other) => other.entry - one.entry).slice(0, REFUSED);
  } else if (line.command.cmd === "report") {
    const place = line.command.flight + "/" + line.command.milestone, by = reported.get(place);
    if (!by || by.entry < line.entry) {
      reported.set(place, { entry: line.entry, role: line.role, session: line.session, minute: line.minute });
    }
  }
}

// Takes the name of the journal. Of another one, or of one that goes on behind what is known, everything is read anew.
function takeJournal(line) {
  if (journal && line.journal !== journal || line.next > next) {
    source.close();
    reading?.abort();
    tell("another journal, reading it anew", "lost");
    setTimeout(connect, ANEW);
    return;
  }
  journal = line.journal;
  room = line.room;
}

// Takes a line of the feed: a board, a journal's name, or an entry.
function take(line) {
  if (line.flights) {
    if (journal && line.journal !== journal) anew = new Date(now()).toISOString().slice(0, 17) + "00Z";
    journal = line.journal;
    for (const it of [flights, facts, rows, partners, reported, onsets, earliest]) it.clear();
    element("rows").replaceChildren();
    refused = [];
    ticked = first = "";
    for (const flight of line.flights) {
      put(flight);
      onsets.set(flight.flight, new Map(flight.alerts.map((alert) => [alert, { minute: "", isSure: false }])));
    }
    next = known = line.next;
    room = line.room;
    readBack();
    return;
  }
  if (line.entry === undefined) {
    takeJournal(line);
    return;
  }
  if (line.entry < next) return;
  next = line.entry + 1;
  learn(line);
  for (const flight of line.changed) {
    if (!facts.has(flight.flight)) facts.set(flight.flight, fact(flight));
    takeAlerts(flight, line.minute);
    put(flight);
  }
}

// What an older part of the feed says of alerts, from its first entry to its last one, of records that were not seen.
function trailOf(lines) {
  const trail = new Map();
  for (const line of lines) {
    for (const flight of line.changed) {
      const before = trail.get(flight.flight), isFirst = !before && line.command.cmd !== "schedule";
      const standing = flight.alerts.map((alert) => [
        alert,
        before?.standing.get(alert) || { minute: line.minute, isSure: !isFirst },
      ]);
      trail.set(flight.flight, { first: before ? before.first : line.minute, standing: new Map(standing) });
    }
  }
  return trail;
}

function takePart(lines) {
  for (const line of lines) learn(line);
  for (const [id, part] of trailOf(lines)) {
    for (const [alert, onset] of onsets.get(id) || []) {
      if (onset.isSure) continue;
      const older = part.standing.get(alert);
      onsets.get(id).set(alert, older || { minute: earliest.get(id) || "", isSure: earliest.has(id) });
    }
    earliest.set(id, part.first);
  }
}

// Whether the feed has told who reported what, and since when alerts stand, of the flights that have not departed.
function isComplete() {
  for (const [id, flight] of flights) {
    if (hasDeparted(flight)) continue;
    if (flight.reached.some((number) => number && !reported.has(id + "/" + number))) return false;
    if ([...onsets.get(id)?.values() || []].some((onset) => !onset.isSure)) return false;
  }
  return true;
}

// The entries from one to before another, by a connection of their own; nothing where the board has another journal.
async function entriesBetween(first, end, signal) {
  const answer = await fetch("/events", { headers: { "Last-Event-ID": String(first) }, signal });
  const reader = answer.body.pipeThrough(new TextDecoderStream()).getReader(), lines = [];
  for (let rest = ""; answer.ok;) {
    const piece = await reader.read();
    if (piece.done) return null;
    const events = (rest + piece.value).split("\n\n");
    rest = events.pop();
    for (const event of events) {
      const line = parsed(event.slice(event.indexOf("data: ") + 6));
      if (line.flights) return null;
      if (line.entry === undefined) {
        if (line.journal !== journal) return null;
        continue;
      }
      if (line.entry < end) lines.push(line);
      if (line.entry >= end - 1) return lines;
    }
  }
  return null;
}

// Reads what was before this page: entries are asked for backwards, in parts, until nothing is missing.
async function readBack() {
  reading?.abort();
  const own = reading = new AbortController(), last = known;
  for (let size = FIRST_BACK; known > 0 && last - known < MOST_BACK && !isComplete(); size *= 2) {
    const part = new AbortController(), first = Math.max(0, known - size);
    own.signal.addEventListener("abort", () => part.abort());
    try {
      const lines = await entriesBetween(first, known, part.signal);
      if (own.signal.aborted || !lines) return;
      takePart(lines);
    } catch {
      return;
    } finally {
      part.abort();
    }
    known = first;
    isAll = true;
    soon();
  }
}

function shape(name, attributes, text) {
  const node = document.createElementNS("http://www.w3.org/2000/svg", name);
  for (const key in attributes) node.setAttribute(key, attributes[key]);
  if (text !== undefined) node.textContent = text;
  return node;
}

// Where the times of a flight stand: place, side, lane and label of each, so that no label stands on another.
function marks(flight, times) {
  const first = times[0][0], span = Math.max(times[times.length - 1][0] - first, 1), ends = { up: [], down: [] };
  return times.map(([time, name]) => {
    const x = 20 + 760 * (time - first) / span, side = TARGETS.includes(name) ? "down" : "up";
    const label = name.toUpperCase() + " " + clock(flight[name]), lanes = ends[side];
    const free = lanes.findIndex((end) => end <= x), lane = free < 0 ? lanes.length : free;
    lanes[lane] = x + 7.2 * label.length + 10;
    return { x, side, lane, label };
  });
}

// The times of a flight on a line: actual ones above it, targets and estimates below.
function dayLine(flight) {
  const times = TIMES.filter((name) => flight[name]).map((name) => [Date.parse(flight[name]), name]);
  const picture = shape("svg", { width: "100%", role: "img", "aria-label": "the times of the flight" });
  if (!times.length) return picture;
  const all = marks(flight, times.sort((one, other) => one[0] - other[0]));
  const deepest = (side) => Math.max(0, ...all.filter((mark) => mark.side === side).map((mark) => mark.lane));
  const line = 28 + 15 * deepest("up");
  picture.setAttribute("viewBox", "0 0 900 " + (line + 34 + 15 * deepest("down")));
  picture.append(shape("line", { x1: 20, x2: 780, y1: line, y2: line, class: "axis" }));
  for (const { x, side, lane, label } of all) {
    const isUp = side === "up", y = isUp ? line - 14 - 15 * lane : line + 20 + 15 * lane;
    const diamond = "M" + x + " " + (line - 5) + "l5 5l-5 5l-5 -5z", kind = isUp ? "actual" : "target";
    picture.append(
      shape("path", { d: "M" + x + " " + line + "V" + y, class: "stem" }),
      isUp ? shape("circle", { cx: x, cy: line, r: 4.5, class: kind }) : shape("path", { d: diamond, class: kind }),
      shape("text", { x: x + 3, y: y + 3, class: kind }, label),
    );
  }
  return picture;
}

// A time with its day, in the zone that is chosen.
function minuteOf(time) {
  if (zone === "UTC") return time.slice(0, -4).replace("T", " ");
  return days.format(Date.parse(time)) + " " + clock(time);
}

// A milestone of a flight, with who reported it and when.
function reachedName(flight, number) {
  if (!number) return "schedule";
  const by = reported.get(flight.flight + "/" + number);
  return number + " " + milestone(number).short + (by ? " (" + by.role + " " + clock(by.minute) + ")" : "");
}

const alertText = (flight, alert) =>
  alert + " " + words(alert) + since(flight, alert) + ", turn of " + turn(alert).join(" or ");

// The record of a flight, as pairs of a name and a text.
function details(flight) {
  const texts = (half) => ["type", "reg", "dest"].map((key) => flight[half + "_" + key]).join(" ");
  return [
    ["call sign", flight.callsign],
    ["scheduled", texts("scheduled")],
    ["planned", texts("plan")],
    ["MTTT, EXIT, EXOT", [flight.mttt, flight.exit, flight.exot].join(", ") + " min"],
    ...TIMES.filter((name) => flight[name]).map((name) => [name.toUpperCase(), minuteOf(flight[name])]),
    ["milestones", flight.reached.map((number) => reachedName(flight, number)).join(", ")],
    ["alerts", flight.alerts.map((alert) => alertText(flight, alert)).join("; ") || "none"],
  ];
}

// The dialog of a flight, which follows it.
function fill(flight) {
  element("name").textContent = flight.callsign + ", flight " + flight.flight;
  element("detail").replaceChildren(...details(flight).map(([name, value]) => {
    const line = tag("tr", undefined, "", "row");
    line.append(tag("td", name, "", "rowheader"), tag("td", value, "", "cell"));
    return line;
  }));
  element("day").replaceChildren(dayLine(flight));
}

function open(id) {
  const flight = flights.get(id);
  if (!flight) return;
  opened = id;
  fill(flight);
  element("one").showModal();
}

function key(event) {
  const line = event.target.closest("tr");
  if (event.key === "Enter" || event.key === " ") {
    open(line.dataset.flight);
    event.preventDefault();
  }
  const beside = {
    ArrowDown: line.nextSibling,
    ArrowUp: line.previousSibling,
    Home: element("rows").firstChild,
    End: element("rows").lastChild,
  }[event.key];
  if (beside) {
    beside.focus();
    event.preventDefault();
  }
}

// The row that has the focus is the one that the tab key comes back to.
function focusOn(event) {
  const line = event.target.closest("tr"), before = rows.get(focused);
  if (before) before.tabIndex = -1;
  focused = line.dataset.flight;
  line.tabIndex = 0;
}

// A stroke goes to the filter.
function stroke(event) {
  if (event.key !== "/" || event.target.closest("input, select, dialog")) return;
  element("text").focus();
  event.preventDefault();
}

// Puts the flights in the order of a column; the same one again turns it.
function orderBy(name) {
  isDown = name === order && !isDown;
  order = name;
  keep("order", [order, isDown]);
  drawHeads();
  isAll = true;
  soon();
}

function drawHeads() {
  const heads = COLUMNS.map(([name]) => {
    const head = tag("th", undefined, "", "columnheader"), button = tag("button", name);
    button.type = "button";
    head.scope = "col";
    if (name === order) head.setAttribute("aria-sort", isDown ? "descending" : "ascending");
    head.append(button);
    return head;
  });
  const focus = [...element("heads").querySelectorAll("button")].indexOf(document.activeElement);
  element("heads").replaceChildren(...heads);
  if (focus >= 0) element("heads").querySelectorAll("button")[focus].focus();
  const options = [["", "TOBT, EOBT"], ...COLUMNS.map(([name]) => [name, name])].map(([value, text]) => {
    const option = tag("option", text);
    option.value = value;
    option.selected = value === order;
    return option;
  });
  element("by").replaceChildren(...options);
}

// Times in UTC, or in the airport's zone, as Europe/Berlin.
let days;
function setZone(name) {
  try {
    const words = { hour: "2-digit", minute: "2-digit", hourCycle: "h23", timeZone: name || "UTC" };
    hours = new Intl.DateTimeFormat("en-GB", words);
    days = new Intl.DateTimeFormat("en-CA", { timeZone: name || "UTC" });
    zone = name || "UTC";
    keep("zone", zone);
  } catch {}
  element("zone").value = zone === "UTC" ? "" : zone;
  isAll = true;
  soon();
}

// The airport's names of its local alerts, which stay in this browser.
async function nameAlerts(event) {
  const text = await event.target.files[0].text();
  const found = [...text.matchAll(/^(LOC\d\d)[ \t]+(\S.*)$/gm)].map((parts) => [parts[1], parts[2].trim()]);
  local = Object.fromEntries(found);
  keep("names", local);
  isAll = true;
  soon();
}

function tell(text, kind) {
  element("state").textContent = text;
  element("state").className = kind;
}

// The events of the board, the whole board first; a browser connects again by itself, and goes on where it was.
let source = null;
function connect() {
  source = new EventSource("/events");
  source.onopen = () => tell("live", "");
  source.onerror = () => tell("connection lost, trying again", "lost");
  source.onmessage = (event) => {
    heard++;
    take(parsed(event.data));
    soon();
  };
}
connect();
element("names").addEventListener("change", nameAlerts);
for (const id of ["text", "only", "show"]) element(id).addEventListener("input", soon);
element("controls").addEventListener("submit", (event) => event.preventDefault());
element("by").addEventListener("change", (event) => {
  order = "";
  orderBy(event.target.value);
});
element("zone").addEventListener("change", (event) => setZone(event.target.value.trim()));
element("sound").addEventListener("change", (event) => event.target.checked && beep());
element("notify").addEventListener("change", async (event) => {
  if (event.target.checked && await Notification.requestPermission() !== "granted") event.target.checked = false;
});
element("heads").addEventListener("click", (event) => {
  const head = event.target.closest("button");
  if (head) orderBy(head.textContent);
});
element("alerting").addEventListener("toggle", soon);
element("alerts").addEventListener("click", (event) => {
  const button = event.target.closest("button");
  if (button) open(button.dataset.flight);
});
element("one").addEventListener("close", () => {
  rows.get(opened)?.focus();
  opened = "";
});
element("rows").addEventListener("click", (event) => open(event.target.closest("tr").dataset.flight));
element("rows").addEventListener("keydown", key);
element("rows").addEventListener("focusin", focusOn);
document.addEventListener("keydown", stroke);
new IntersectionObserver((seen) => {
  if (!seen.some((entry) => entry.isIntersecting)) return;
  most += STEP;
  soon();
}, { rootMargin: "400px" }).observe(element("more"));
setInterval(() => {
  for (const id of rows.keys()) stale.add(id);
  soon();
}, MINUTE);
setInterval(draw, 1000);
setInterval(askTime, 30000);
askTime();
[order, isDown] = kept("order", ["", false]);
element("notify").parentNode.hidden = !("Notification" in window);
const legend = Object.entries(WORDS.roles).flatMap(([role, name]) => [tag("i", role, role), name + " "]);
element("legend").replaceChildren("Colours of milestones, by who reported: ", ...legend);
element("zones").replaceChildren(...[Intl.DateTimeFormat().resolvedOptions().timeZone, "UTC"].map((name) => {
  const option = tag("option");
  option.value = name;
  return option;
}));
const openOptions = () => element("options").open ||= innerWidth > 760;
addEventListener("resize", openOptions);
openOptions();
element("unproved").hidden = location.hash !== "#unproved";
drawHeads();
setZone(kept("zone", "UTC"));
