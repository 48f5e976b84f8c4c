"use strict";
// The desk in the browser: the flights that this person sees, and what is entered for them. WORDS comes from /words.js.
const TIMES = [
  "sobt", "eobt", "ctot", "otot", "eldt", "aldt", "aibt", "acgt", "tobt", "tsat",
  "asbt", "ardt", "asrt", "asat", "aobt", "atot", "eczt", "eezt", "aczt", "aezt",
];
// The fields of a flight's dialog, those that are entered most first.
const FIRST = [9, 10, 11, 12, 13, 14, 15, 16, 7, 8, 6, 5, 4, 2, 3];
const TAKEN_BACK = [2, 9];
// Times that are estimated or set, and so are moved; the others are what was seen.
const MOVED = ["EOBT", "CTOT", "ELDT", "TOBT", "TSAT", "ECZT", "EEZT"];
// How many rows are made at first, and more each time that their end is scrolled to; and how many in a frame at most.
const STEP = 200, PART = 60, FRESH = 4000;
const ORDERS = {
  tobt: (flight) => flight.tobt || flight.eobt || flight.sobt || "~",
  tsat: (flight) => flight.tsat || "~" + (flight.tobt || flight.eobt || flight.sobt || "~"),
  eobt: (flight) => flight.eobt || flight.sobt || "~",
  eldt: (flight) => flight.aldt || flight.eldt || "~",
  callsign: (flight) => flight.callsign,
};

const flights = new Map(), facts = new Map(), rows = new Map(), fresh = new Map(), stale = new Set();
// What is known of each flight, in the order of the last drawing, which is nearly that of the next one.
let ordered = [];
let me = null, others = new Set(), next = 0, mark = "0", ahead = 0, most = STEP, opened = "", seen = 0, source = null;
let isDue = false, isWaiting = false, isBoardLive = false, isConnected = false;

const element = (id) => document.getElementById(id);
const clock = (time) => time ? time.slice(-9, -4) : "–";
const half = (flight, key) => flight["plan_" + key] || flight["scheduled_" + key];
const words = (alert) => WORDS.alerts[alert] || "local alert " + alert.slice(3);
const milestone = (number) => WORDS.milestones[number - 1];
const moment = () => Date.now() + ahead;
const isMine = (flight) => !others.has(flight.flight);

function tag(name, text, kind) {
  const node = document.createElement(name);
  if (text !== undefined) node.textContent = text;
  if (kind) node.className = kind;
  return node;
}

// A time with the minutes that are left to it.
function target(time, isDone) {
  const cell = tag("td", clock(time), "main");
  if (!time || isDone) return cell;
  const left = Math.floor((Date.parse(time) - moment()) / 60000);
  if (Math.abs(left) >= 6000) return cell;
  cell.append(" ", tag("small", (left < 0 ? "" : "+") + left, left < 0 ? "past" : left <= 10 ? "soon" : ""));
  return cell;
}

function milestoneCells(flight) {
  const cells = tag("td", undefined, "cells wide");
  for (const { number, short } of WORDS.milestones) {
    const isReached = flight.reached.includes(number);
    // (one that a local rule has set was reported by nobody)
    const by = flight.reported[number], cell = tag("i", number, isReached ? "on " + (by || "") : "");
    cell.title = number + " " + short + (by ? ": reported by " + by : isReached ? ": reached" : ": not reached");
    cells.append(cell);
  }
  return cells;
}

function alertCells(flight) {
  const cells = tag("td", undefined, "alerts wide");
  for (const alert of flight.alerts) {
    const cell = tag("span", words(alert), "alert" + (alert.startsWith("LOC") ? " local" : ""));
    cell.title = alert;
    cells.append(cell);
  }
  return cells;
}

function row(flight) {
  const line = rows.get(flight.flight) || tag("tr");
  rows.set(flight.flight, line);
  line.tabIndex = 0;
  line.dataset.flight = flight.flight;
  line.className = [flight.alerts.length ? "alerted" : "", isMine(flight) ? "" : "others"].join(" ").trim();
  if ((fresh.get(flight.flight) || 0) > Date.now()) line.classList.add("fresh");
  const named = (name, cell) => {
    cell.dataset.name = name;
    return cell;
  };
  const first = tag("td");
  first.append(tag("b", flight.callsign), " ", tag("small", flight.flight + " · " + half(flight, "type") + " " + half(flight, "reg")));
  line.replaceChildren(
    first,
    named("to", tag("td", half(flight, "dest") || "–")),
    named("stand", tag("td", flight.stand || "–")),
    named(flight.aldt ? "ALDT" : "ELDT", tag("td", clock(flight.aldt || flight.eldt))),
    named("AIBT", tag("td", clock(flight.aibt))),
    named(flight.eobt ? "EOBT" : "SOBT", tag("td", clock(flight.eobt || flight.sobt))),
    named("TOBT", target(flight.tobt, flight.aobt)),
    named("TSAT", target(flight.tsat, flight.asat)),
    named("CTOT", tag("td", clock(flight.ctot))),
    milestoneCells(flight),
    alertCells(flight),
  );
  return line;
}

// What a flight is found and put in order by.
function fact(flight) {
  const texts = [flight.callsign, flight.flight, half(flight, "type"), half(flight, "reg"), half(flight, "dest")];
  texts.push("stand " + flight.stand, ...flight.alerts, ...flight.alerts.map(words));
  const place = flight.flight.padStart(20, "0");
  const orders = Object.fromEntries(Object.entries(ORDERS).map(([name, order]) => [name, order(flight) + " " + place]));
  return { search: texts.join(" ").toLowerCase(), orders };
}

function put(flight) {
  const id = flight.flight, known = facts.get(id) || { id };
  if (!facts.has(id)) ordered.push(known);
  facts.set(id, Object.assign(known, fact(flight), { flight }));
  flights.set(id, flight);
  stale.add(id);
}

function drop(id) {
  flights.delete(id);
  facts.delete(id);
  ordered = ordered.filter((known) => known.id !== id);
}

// The flights to be shown, in order.
function shown() {
  const asked = element("text").value.toLowerCase().split(/\s+/).filter(Boolean);
  const isAll = element("gone").checked, isAlerted = element("only").checked, isOwn = element("mine").checked;
  const by = element("order").value;
  ordered.sort((one, other) => one.orders[by] < other.orders[by] ? -1 : 1);
  return ordered.filter(({ flight, search }) => {
    if (flight.reached.includes(16) && !isAll) return false;
    if (isAlerted && !flight.alerts.length) return false;
    if (isOwn && !isMine(flight)) return false;
    return asked.every((word) => search.includes(word));
  }).map((known) => known.id);
}

// Rows are made for those in sight alone, a part of them in each frame; more come as the end of them is scrolled to.
function drawRows(list) {
  const wanted = new Set(list.slice(0, most));
  for (const id of rows.keys()) {
    if (!wanted.has(id)) {
      rows.get(id).remove();
      rows.delete(id);
    }
  }
  let place = element("rows").firstChild, left = PART;
  for (const id of wanted) {
    let line = rows.get(id);
    if (!line || stale.has(id)) {
      if (left > 0) {
        left--;
        line = row(flights.get(id));
        stale.delete(id);
      } else {
        soon();
        if (!line) continue;
      }
    }
    if (line === place) place = place.nextSibling;
    else element("rows").insertBefore(line, place);
  }
}

function tell() {
  const [text, kind] = !isConnected ? ["connection lost, trying again", "lost"]
    : isBoardLive ? ["live", ""] : ["the board is away", "lost"];
  element("state").textContent = text;
  element("state").className = kind;
}

function draw() {
  element("clock").textContent = new Date(moment()).toISOString().slice(11, 16) + "Z";
  if (!isDue) return;
  isDue = false;
  const list = shown(), alerted = list.filter((id) => flights.get(id).alerts.length).length;
  drawRows(list);
  element("more").hidden = list.length <= most;
  element("more").textContent = list.length - most + " more";
  element("none").hidden = list.length > 0;
  element("sums").textContent = list.length + " of " + flights.size + " flights, " + alerted + " with alerts";
  document.title = (alerted ? "(" + alerted + ") " : "") + "A-CDM desk";
}

function soon() {
  isDue = true;
  if (isWaiting) return;
  isWaiting = true;
  requestAnimationFrame(() => {
    isWaiting = false;
    draw();
  });
}

// Takes what an entry changed: the fields that differ, by flight.
function take(event) {
  for (const fields of event.flights) {
    const known = flights.get(fields.flight);
    if (!known && !fields.callsign) continue;
    const reported = { ...(known && known.reported), ...fields.reported };
    put({ last: -1, ...known, ...fields, reported });
    if (fields.last !== undefined) {
      fresh.set(fields.flight, Date.now() + FRESH);
      if (fields.flight === opened && element("one").open) changed(event, fields);
    }
  }
  event.gone.forEach(drop);
  next = event.entry + 1;
  soon();
}

// The board as it is, from which events go on.
async function load() {
  const answer = await fetch("/board");
  if (answer.status === 401) location.replace("/sign-in");
  if (!answer.ok) throw new Error(answer.status);
  const board = await answer.json();
  for (const known of [flights, facts, rows, fresh]) known.clear();
  ordered = [];
  element("rows").replaceChildren();
  others = new Set(board.others);
  for (const flight of board.flights) put(flight);
  next = board.next;
  mark = board.place;
  ahead = Date.parse(answer.headers.get("Date")) - Date.now();
  isBoardLive = board.is_live;
  if (element("one").open) fill();
  soon();
  follow();
}

function follow() {
  if (source) source.close();
  source = new EventSource("/events?from=" + mark);
  source.onopen = () => {
    isConnected = true;
    tell();
  };
  source.onerror = () => {
    isConnected = false;
    tell();
    // (a browser tries again by itself, but not after an answer as 401)
    if (source.readyState === EventSource.CLOSED) setTimeout(reload, 2000);
  };
  source.onmessage = (event) => take(JSON.parse(event.data));
  source.addEventListener("board", (event) => {
    isBoardLive = JSON.parse(event.data).is_live;
    isConnected = true;
    tell();
  });
  source.addEventListener("anew", reload);
}

async function reload() {
  if (source) source.close();
  try {
    await load();
  } catch {
    isConnected = false;
    tell();
    setTimeout(reload, 3000);
  }
}

// What is sent to change something, and the answer to it.
async function post(path, value) {
  const headers = { "Content-Type": "application/json", "X-Desk-Token": me.token };
  try {
    const answer = await fetch(path, { method: "POST", headers, body: JSON.stringify(value) });
    if (answer.status === 401) location.replace("/sign-in");
    return [answer.status, await answer.json()];
  } catch {
    return [0, { words: "the desk does not answer; whether it was sent is not known: look at the history" }];
  }
}

// A flight's dialog.
function fieldsOf(flight) {
  if (!isMine(flight)) return [];
  const found = FIRST.filter((number) => me.milestones.includes(number)).map((number) => {
    const { short, sets, barred_by: bar } = milestone(number), name = sets.toLowerCase();
    const isFinal = flight.reached.includes(bar) || (number === 16 && flight.reached.includes(16));
    return { key: String(number), name: short, label: sets, stands: flight[name], isFinal,
      mayBack: TAKEN_BACK.includes(number), command: { cmd: "report", milestone: number } };
  }).filter((field) => field.stands || !field.isFinal);
  if (me.may_deice && "eczt" in flight) {
    for (const [name, about] of Object.entries(WORDS.deicing)) {
      found.push({ key: name, name: about, label: name.toUpperCase(), stands: flight[name], mayBack: true,
        isFinal: flight.reached.includes(16), command: { cmd: "deice", field: name } });
    }
  }
  return found;
}

function button(text, kind, act) {
  const node = tag("button", text, kind);
  node.type = "button";
  node.addEventListener("click", act);
  return node;
}

function fieldNode(field) {
  const box = tag("div", undefined, "field"), form = tag("form"), reply = tag("div", undefined, "reply");
  box.dataset.key = field.key;
  reply.setAttribute("role", "status");
  const name = tag("span", undefined, "name"), stands = tag("span", clock(field.stands), "stands");
  name.append(tag("b", field.label), " ", tag("small", field.name === field.label ? "" : field.name));
  form.append(name, stands);
  // (the reply's place may be that of a dialog which was filled anew)
  const send = (time) => enter({ ...field.command, time }, box.querySelector(".reply"));
  if (field.isFinal) form.append(tag("small", "final"));
  else {
    const input = tag("input");
    input.placeholder = "10:20";
    input.inputMode = "numeric";
    input.setAttribute("aria-label", field.label + ", UTC");
    const go = tag("button", "Send");
    form.append(input, go, button("Now", "step", () => send("now")));
    if (MOVED.includes(field.label)) {
      const moves = ["+5", "+10"].map((text) => button(text, "step", () => send(text)));
      for (const node of moves) node.disabled = !field.stands;
      form.append(...moves);
    }
    if (field.mayBack && field.stands) form.append(button("Take back", "quiet", () => send(null)));
    form.addEventListener("submit", (event) => {
      event.preventDefault();
      if (input.value.trim()) send(input.value.trim());
    });
  }
  box.append(form, reply);
  return box;
}

function say(reply, kind, ...parts) {
  reply.className = "reply " + kind;
  reply.replaceChildren(...parts);
}

// Sends what was entered. Has the flight changed since this person looked, it is shown, and asked before it is sent.
async function enter(command, reply) {
  say(reply, "", "sending…");
  const flight = opened, [status, answer] = await post("/enter", { ...command, flight, seen });
  if (flight !== opened) return;
  if (status === 409) {
    const list = tag("ul");
    for (const event of answer.events) list.append(tag("li", eventText(event)));
    const again = () => {
      seen = answer.last;
      enter(command, reply);
    };
    const leave = () => {
      seen = answer.last;
      element("news").hidden = true;
      say(reply, "", "not sent");
    };
    say(reply, "bad", answer.words + ":", list, button("Send all the same", "", again), button("Leave it", "quiet", leave));
    reply.querySelector("button").focus();
    return;
  }
  if (status === 200 && answer.is_accepted) {
    seen = Math.max(seen, answer.entry);
    element("news").hidden = true;
  }
  const between = answer.between && answer.between.length ? tag("ul") : "";
  if (between) for (const event of answer.between) between.append(tag("li", "just before: " + eventText(event)));
  say(reply, status === 200 && answer.is_accepted ? "good" : "bad", answer.words, between);
  tellHistory();
}

function eventText(event) {
  const changes = event.refused ? ["refused: " + event.refused] : event.changes;
  // (what is asked for is the name of the time that it sets, mostly)
  const what = changes.length && changes[0].startsWith(event.what + " ") ? [] : [event.what];
  return clock(event.minute) + " " + event.who + ": " + [...what, ...changes].join(", ");
}

async function tellHistory() {
  const flight = opened, answer = await fetch("/flights/" + flight + "/history");
  if (!answer.ok || flight !== opened) return;
  const { events } = await answer.json();
  element("history").replaceChildren(...events.slice(-30).reverse().map((event) => {
    return tag("li", eventText(event), event.refused ? "refused" : "");
  }));
}

const minuteOf = (time) => time.slice(0, -4).replace("T", " ");
const reachedName = (number) => number ? number + " " + milestone(number).short : "schedule";

function details(flight) {
  const texts = (part) => ["type", "reg", "dest"].map((key) => flight[part + "_" + key]).join(" ").trim() || "–";
  return [
    ["scheduled", texts("scheduled")],
    ["planned", texts("plan")],
    ["MTTT, EXIT, EXOT", [flight.mttt, flight.exit, flight.exot].join(", ") + " min"],
    ...TIMES.filter((name) => flight[name]).map((name) => [name.toUpperCase(), minuteOf(flight[name])]),
    ["milestones", flight.reached.map(reachedName).join(", ")],
  ];
}

// Fills the dialog. What is being written, and what was replied, stays.
function fill() {
  const flight = flights.get(opened);
  if (!flight) return element("one").close();
  element("title").textContent = flight.callsign + " · " + flight.flight;
  const alerts = flight.alerts.map(words).join(", ");
  element("about").textContent = [half(flight, "type"), half(flight, "reg"), "to " + (half(flight, "dest") || "–"),
    "stand " + (flight.stand || "–"), "EOBT " + clock(flight.eobt), "TOBT " + clock(flight.tobt),
    "TSAT " + clock(flight.tsat), alerts].filter(Boolean).join(" · ");
  const kept = new Map([...element("fields").children].map((box) => [box.dataset.key, box]));
  element("fields").replaceChildren(...fieldsOf(flight).map((field) => {
    const box = fieldNode(field), old = kept.get(field.key), input = old && old.querySelector("input");
    if (old) box.replaceChild(old.querySelector(".reply"), box.querySelector(".reply"));
    if (input && box.querySelector("input")) {
      box.querySelector("input").value = input.value;
      if (document.activeElement === input) setTimeout(() => box.querySelector("input").focus());
    }
    return box;
  }));
  if (me.may_schedule && isMine(flight) && !(flight.reached.includes(0) && flight.reached.includes(1))) {
    element("fields").append(button("Schedule", "quiet", () => plan(flight)));
  }
  element("detail").replaceChildren(...details(flight).map(([name, value]) => {
    const line = tag("tr");
    line.append(tag("td", name), tag("td", value));
    return line;
  }));
}

// The flight in the dialog has changed while it was looked at.
function changed(event, fields) {
  const told = TIMES.filter((name) => name in fields).map((name) => name.toUpperCase() + " " + clock(fields[name]));
  if (fields.last > seen) {
    element("news").textContent = "Just now, by " + event.role + ": " + (told.join(", ") || "another change");
    element("news").hidden = false;
  }
  fill();
  tellHistory();
}

function open(id) {
  const flight = flights.get(id);
  if (!flight) return;
  opened = id;
  seen = flight.last;
  element("news").hidden = true;
  element("fields").replaceChildren();
  element("history").replaceChildren();
  fill();
  tellHistory();
  element("one").showModal();
  const input = element("fields").querySelector("input");
  if (input && innerWidth > 700) input.focus();
}

function plan(flight) {
  const form = element("plan-form");
  form.reset();
  element("plan-reply").textContent = "";
  form.elements.flight.readOnly = Boolean(flight);
  if (flight) {
    for (const [name, value] of Object.entries({
      flight: flight.flight, callsign: flight.callsign, type: half(flight, "type"), reg: half(flight, "reg"),
      dest: half(flight, "dest"), time: flight.sobt ? clock(flight.sobt) : "", stand: flight.stand, mttt: flight.mttt,
      exit: flight.exit, exot: flight.exot,
    })) form.elements[name].value = value;
  }
  form.dataset.seen = flight ? flight.last : "";
  form.dataset.sobt = flight && flight.sobt || "";
  element("plan").showModal();
}

async function schedule(event) {
  event.preventDefault();
  const form = element("plan-form"), asked = { cmd: "schedule" };
  for (const [name, value] of new FormData(form)) asked[name] = value.trim();
  for (const name of ["stand", "mttt", "exit", "exot"]) asked[name] = Number(asked[name]);
  for (const name of ["callsign", "type", "reg", "dest"]) asked[name] = asked[name].toUpperCase();
  asked.seen = form.dataset.seen === "" ? -1 : Number(form.dataset.seen);
  // (a clock time is one of the day about now: what was left as it stands keeps its own day)
  const sobt = form.dataset.sobt, known = flights.get(asked.flight);
  if (sobt && known && known.sobt === sobt && asked.time === clock(sobt)) asked.time = "+0";
  const [status, answer] = await post("/enter", asked), reply = element("plan-reply");
  if (status === 409) {
    const list = tag("ul");
    for (const change of answer.events) list.append(tag("li", eventText(change)));
    form.dataset.seen = answer.last;
    say(reply, "bad", answer.words + ":", list, "Press Schedule again to send it all the same.");
    return;
  }
  say(reply, status === 200 && answer.is_accepted ? "good" : "bad", answer.words);
  if (status === 200 && answer.is_accepted) form.dataset.seen = answer.entry;
}

function key(event) {
  const line = event.target.closest("tr");
  if (!line) return;
  if (event.key === "Enter") open(line.dataset.flight);
  const beside = { ArrowDown: line.nextSibling, ArrowUp: line.previousSibling }[event.key];
  if (beside) {
    beside.focus();
    event.preventDefault();
  }
}

// In the page: / goes to the filter, the arrow down from there to the first row.
function pageKey(event) {
  const isWriting = /^(INPUT|SELECT|TEXTAREA)$/.test(event.target.tagName);
  if (event.key === "/" && !isWriting && !document.querySelector("dialog[open]")) {
    element("text").focus();
    event.preventDefault();
  }
  if (event.key === "ArrowDown" && event.target === element("text") && element("rows").firstChild) {
    element("rows").firstChild.focus();
    event.preventDefault();
  }
}

async function begin() {
  const answer = await fetch("/me");
  if (answer.status === 401) return location.replace("/sign-in");
  me = await answer.json();
  element("me").append(tag("b", me.name), ", ", tag("span", me.role_words, "long"), tag("span", me.role, "short"));
  element("order").value = me.role === "ATC" ? "tsat" : me.role === "APT" ? "eobt" : "tobt";
  element("mine").checked = me.is_bounded;
  element("mine-label").hidden = !me.is_bounded;
  element("new").hidden = !me.may_schedule;
  await reload();
}

element("out").addEventListener("click", async () => {
  await post("/sign-out", {});
  location.replace("/sign-in");
});
for (const id of ["text", "order", "mine", "only", "gone"]) {
  element(id).addEventListener("input", () => {
    most = STEP;
    soon();
  });
}
element("rows").addEventListener("click", (event) => {
  const line = event.target.closest("tr");
  if (line) open(line.dataset.flight);
});
element("rows").addEventListener("keydown", key);
element("new").addEventListener("click", () => plan(null));
element("plan-form").addEventListener("submit", schedule);
element("plan-close").addEventListener("click", () => element("plan").close());
element("one").addEventListener("close", () => {
  // (it may be open for another flight by now)
  if (!element("one").open) opened = "";
});
document.addEventListener("keydown", pageKey);
new IntersectionObserver((entries) => {
  if (!entries.some((entry) => entry.isIntersecting)) return;
  most += STEP;
  soon();
}, { rootMargin: "400px" }).observe(element("more"));
setInterval(() => {
  for (const id of rows.keys()) stale.add(id);
  soon();
}, 60000);
setInterval(() => {
  for (const [id, until] of fresh) {
    if (until < Date.now()) {
      fresh.delete(id);
      stale.add(id);
      isDue = true;
    }
  }
  draw();
}, 1000);
begin();
