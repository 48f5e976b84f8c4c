"""The desk's page before answers that are written by hand: what it shows, and what it sends."""
import json
import shutil
import threading
from collections.abc import Iterator
from http.server import BaseHTTPRequestHandler, ThreadingHTTPServer
from typing import Any

import pytest
from harness import TOP

pytest.importorskip("selenium")
if not shutil.which("chromedriver"):
    pytest.skip("chromedriver is not installed", allow_module_level=True)
from browser import Browser  # noqa: E402  pylint: disable=wrong-import-position

from kevotranjy_desk.wording import page_words  # noqa: E402  pylint: disable=wrong-import-position

PAGES = TOP / "desk" / "kevotranjy_desk" / "pages"
ME = {"name": "anna", "role": "GH", "role_words": "ground handler", "token": "t", "milestones": [8, 9, 11, 12]}
ME |= {"may_schedule": True, "may_deice": True, "is_bounded": False}
BOARD = {"next": 5, "place": "5", "is_live": True, "others": [], "flights": []}

# A moment that stands still, flights, and what is asked for and answered.
BEGIN = r"""
source.close();
const NOW = Date.parse("2026-03-01T12:00:00Z");
Date.now = () => NOW;
setTimeout = (what, time) => later.push([what, time]);
ahead = 0;
window.later = [];
window.sent = [];
window.answers = [];
fetch = async (path, asked = {}) => {
  if (asked.method === "POST") sent.push([path, JSON.parse(asked.body)]);
  const found = answers.find((it) => path.startsWith(it[0]));
  if (!found) return new Response("{}", { status: 404 });
  if (found[1] === "broken") throw new TypeError("no");
  return new Response(JSON.stringify(found[2]), { status: found[1], headers: { Date: "Sun, 01 Mar 2026 12:00:00 GMT" } });
};
window.day = (time) => "2026-03-01T" + time + ":00Z";
window.rec = (flight, more) => ({
  flight: String(flight), callsign: "DLH" + flight, scheduled_type: "A320", plan_type: "", scheduled_reg: "DAIBC",
  plan_reg: "", scheduled_dest: "EGLL", plan_dest: "", ...Object.fromEntries(TIMES.slice(0, 16).map((name) => [name, null])),
  mttt: 45, exit: 5, exot: 10, stand: 0, reached: [0], alerts: [], last: 1, reported: {}, ...more,
});
window.at = (...those) => {
  for (const known of [flights, facts, rows, fresh, stale]) known.clear();
  ordered = [];
  element("rows").replaceChildren();
  others = new Set();
  for (const id of ["one", "plan"]) if (element(id).open) element(id).close();
  opened = "";
  for (const id of ["mine", "only", "gone"]) element(id).checked = false;
  element("text").value = "";
  element("order").value = "tobt";
  [sent.length, answers.length, later.length] = [0, 0, 0];
  for (const it of those) put(it);
};
window.drawn = () => { isDue = true; draw(); };
window.ids = () => shown().join(" ");
window.came = (entry, flights, gone = []) => take({ entry, minute: day("12:00"), role: "AO", flights, gone });
window.box = (key) => element("fields").querySelector(`[data-key="${key}"]`);
window.pressed = (key, text) => [...box(key).querySelectorAll("button")].find((it) => it.textContent === text).click();
window.turns = async () => { for (let turn = 0; turn < 5; turn++) await new Promise((done) => requestAnimationFrame(done)); };
window.same = (one, other) => JSON.stringify(one) === JSON.stringify(other) || JSON.stringify(one);
"""

CASES = {
    "a filter wants each of its words, in any case": """
        at(rec(1, { stand: 7, alerts: ["CDM09"] }), rec(2, { stand: 8, alerts: ["CDM01"] }));
        return same([" Dlh STAND 7 ", "cdm09", WORDS.alerts.CDM01.toUpperCase()].map((it) => (element("text").value = it, ids())), ["1", "1", "2"])""",
    "alerts alone, my own alone, and the departed": """
        at(rec(1), rec(2, { alerts: ["CDM01"] }), rec(3, { reached: [0, 16] }));
        others = new Set(["2"]);
        return same(["only", "mine", "gone"].map((it) => { element(it).checked = true; const found = ids(); element(it).checked = false; return found; }), ["2", "1", "1 2 3"])""",
    "each order, with those without a time last": """
        at(
          rec(1), rec(2, { callsign: "C", sobt: day("11:00") }), rec(3, { callsign: "A", sobt: day("10:00"), eobt: day("12:00"), eldt: day("08:00"), aldt: day("09:00") }),
          rec(4, { callsign: "B", tobt: day("10:30"), sobt: day("13:00"), eldt: day("08:30") }), rec(5, { callsign: "D", tobt: day("14:00"), tsat: day("14:00") }),
        );
        return same(["tobt", "tsat", "eobt", "eldt", "callsign"].map((it) => (element("order").value = it, ids())), ["4 2 3 5 1", "5 4 2 3 1", "2 3 4 1 5", "4 3 1 2 5", "3 4 2 5 1"])""",
    "minutes to a target: none once it was met, none beyond days": """
        const cells = [[day("12:10")], [day("12:11")], [day("11:59")], [day("12:10"), day("11:00")], [null], ["2026-03-06T00:00:00Z"]].map(([time, met]) => target(time, met));
        return same(cells.map((it) => [it.textContent, it.querySelector("small")?.className]), [["12:10 +10", "soon"], ["12:11 +11", ""], ["11:59 -1", "past"], ["12:10", null], ["–", null], ["00:00", null]])""",
    "a row is that of its flight: alerted, of others, changed just now": """
        at(rec(1), rec(2, { alerts: ["CDM01"] }), rec(3));
        others = new Set(["2"]);
        came(5, [{ flight: "3", tobt: day("12:30"), last: 5 }, { flight: "1", alerts: [] }]);
        drawn();
        return same([...element("rows").children].map((it) => it.dataset.flight + it.className), ["3fresh", "1", "2alerted others"])""",
    "a row tells the plan before the schedule, and what was seen before what was expected": """
        at();
        const it = row(rec(1, { plan_type: "A319", plan_dest: "LFPG", eldt: day("09:00"), aldt: day("09:05"), sobt: day("10:00") }));
        return same([it.children[0].textContent, it.children[1].textContent, it.children[2].textContent, it.children[3].textContent, it.children[3].dataset.name, it.children[5].dataset.name], ["DLH1 1 · A319 DAIBC", "LFPG", "–", "09:05", "ALDT", "SOBT"])""",
    "a milestone is told by who reported it": """
        const cells = milestoneCells(rec(1, { reached: [0, 6, 7], reported: { 6: "ATC" } })).children;
        return same([5, 6, 7].map((it) => cells[it].className + cells[it].title.replace(/^.*:/, ":")), ["on ATC: reported by ATC", "on : reached", ": not reached"])""",
    "an entry changes the fields that it tells, and what it says of who reported": """
        at(rec(1, { tobt: day("12:10"), reported: { 9: "AO", 8: "GH" } }), rec(2));
        came(5, [{ flight: "1", tobt: day("12:20"), last: 5, reported: { 9: "GH" } }, { flight: "7", stand: 4 }, { ...rec(8), last: undefined }], ["2"]);
        const it = flights.get("1");
        return same([it.tobt, it.callsign, it.last, it.reported, [...flights.keys()], ids(), next], [day("12:20"), "DLH1", 5, { 8: "GH", 9: "GH" }, ["1", "8"], "1 8", 6])""",
    "sums, and how many more there are": """
        at(rec(1, { alerts: ["CDM01"] }), rec(2), rec(3, { reached: [0, 16], alerts: ["CDM01"] }));
        drawn();
        const few = [element("sums").textContent, document.title, element("none").hidden, element("more").hidden];
        at(...Array.from({ length: 205 }, (_, place) => rec(place + 1)));
        most = 200;
        drawn();
        return same([few, element("more").textContent, element("more").hidden, document.title], [["2 of 3 flights, 1 with alerts", "(1) A-CDM desk", true, true], "5 more", false, "A-CDM desk"])""",
    "what is told of the board and of the connection": """
        const found = [];
        for (const [connected, live] of [[false, true], [true, false], [true, true]]) {
          [isConnected, isBoardLive] = [connected, live];
          tell();
          found.push(element("state").textContent + "/" + element("state").className);
        }
        return same(found, ["connection lost, trying again/lost", "the board is away/lost", "live/"])""",
    "a board that can't be read is asked for again": """
        at(rec(1));
        answers.push(["/board", 503, {}]);
        await reload();
        const lost = [element("state").textContent, later.map((it) => it[0] === reload)];
        answers[0] = ["/board", 200, { next: 9, place: "9", is_live: true, others: ["4"], flights: [rec(4)] }];
        await reload();
        source.close();
        return same([lost, [...flights.keys()], ids(), [...others], next, mark], [["connection lost, trying again", [true]], ["4"], "4", ["4"], 9, "9"])""",
    "the fields of a flight: what this person reports, final where it is barred, taken back where that may be": """
        at();
        me = { ...me, milestones: [8, 9, 11, 16], may_deice: true };
        const told = (more) => fieldsOf(rec(1, more)).map((it) => it.key + (it.isFinal ? "!" : "") + (it.mayBack ? "-" : "")).join(" ");
        const found = [told({}), told({ [TIMES[16]]: null }), told({ reached: Array.from({ length: 17 }, (_, it) => it), tobt: day("11:00"), atot: day("11:30") })];
        others = new Set(["1"]);
        found.push(told({}));
        me.may_deice = false;
        others = new Set();
        found.push(told({ [TIMES[16]]: null }));
        return same(found, ["9- 11 16 8", "9- 11 16 8" + TIMES.slice(16).map((it) => ` ${it}-`).join(""), "9!- 16!", "", "9- 11 16 8"])""",
    "a time that is not there is neither moved nor taken back": """
        at(rec(1), rec(2, { tobt: day("12:30") }));
        me = { ...me, milestones: [8, 9] };
        const texts = () => [...box("9").querySelectorAll("button")].map((it) => it.textContent + (it.disabled ? "!" : ""));
        open("1");
        const without = texts();
        element("one").close();
        open("2");
        const found = [without, texts(), [...box("8").querySelectorAll("button")].map((it) => it.textContent)];
        element("one").close();
        return same(found, [["Send", "Now", "+5!", "+10!"], ["Send", "Now", "+5", "+10", "Take back"], ["Send", "Now"]])""",
    "what is being written and what was replied stay where the flight changes": """
        at(rec(1), rec(2));
        open("1");
        box("9").querySelector("input").value = "12";
        say(box("9").querySelector(".reply"), "good", "entered");
        came(6, [{ flight: "2", stand: 5, last: 6 }]);
        const quiet = element("news").hidden;
        came(7, [{ flight: "1", tobt: day("12:40"), last: 7 }]);
        const first = element("news").textContent;
        came(8, [{ flight: "1", stand: 5, last: 8 }]);
        const found = [quiet, first, element("news").textContent, box("9").querySelector("input").value, box("9").querySelector(".reply").textContent, box("9").querySelector(".stands").textContent];
        element("one").close();
        return same(found, [true, "Just now, by AO: TOBT 12:40", "Just now, by AO: another change", "12", "entered", "12:40"])""",
    "what this person has entered is no news to him, and alerts alone are none": """
        at(rec(1, { last: 3 }));
        open("1");
        answers.push(["/enter", 200, { is_accepted: true, entry: 9, words: "TOBT 12:40 entered", between: [{ minute: day("12:00"), who: "otto", what: "TSAT", changes: ["TSAT 12:50"], refused: null }] }]);
        pressed("9", "Now");
        await turns();
        came(9, [{ flight: "1", tobt: day("12:40"), last: 9 }]);
        came(10, [{ flight: "1", alerts: ["CDM01"] }]);
        const found = [sent, element("news").hidden, box("9").querySelector(".reply").className, box("9").querySelector(".reply").textContent];
        element("one").close();
        return same(found, [[["/enter", { cmd: "report", milestone: 9, time: "now", flight: "1", seen: 3 }]], true, "reply good", "TOBT 12:40 enteredjust before: 12:00 otto: TSAT 12:50"])""",
    "a change that was not seen is asked about: sent all the same, or left": """
        at(rec(1, { last: 3 }));
        open("1");
        answers.push(["/enter", 409, { words: "changed", last: 7, events: [{ minute: day("11:58"), who: "AO", what: "TOBT", changes: [], refused: "too late" }] }]);
        pressed("9", "Now");
        await turns();
        const asked = box("9").querySelector(".reply").textContent;
        pressed("9", "Leave it");
        const left = [box("9").querySelector(".reply").textContent, seen, sent.length];
        seen = 3;
        pressed("9", "Now");
        await turns();
        pressed("9", "Send all the same");
        await turns();
        element("one").close();
        return same([asked, left, sent.map((it) => it[1].seen)], ["changed:11:58 AO: TOBT, refused: too lateSend all the sameLeave it", ["not sent", 7, 1], [3, 3, 7]])""",
    "an answer for a flight that is not looked at any more is not told at another": """
        at(rec(1), rec(2));
        open("1");
        answers.push(["/enter", 200, { is_accepted: true, entry: 99, words: "entered" }]);
        pressed("9", "Now");
        element("one").close();
        opened = "";
        open("2");
        await turns();
        const found = [box("9").querySelector(".reply").textContent, seen, sent[0][1].flight];
        element("one").close();
        return same(found, ["", 1, "1"])""",
    "a refusal is bad, and is no entry that was seen": """
        at(rec(1, { last: 3 }));
        open("1");
        answers.push(["/enter", 200, { is_accepted: false, entry: 8, words: "TOBT refused" }]);
        pressed("9", "Now");
        await turns();
        const reply = box("9").querySelector(".reply"), found = [reply.className, reply.textContent, seen];
        element("one").close();
        return same(found, ["reply bad", "TOBT refused", 3])""",
    "a desk that does not answer is told with what is not known": """
        at(rec(1));
        open("1");
        answers.push(["/enter", "broken"]);
        pressed("9", "Now");
        await turns();
        const reply = box("9").querySelector(".reply"), found = [reply.className, reply.textContent.includes("whether it was sent is not known")];
        element("one").close();
        return same(found, ["reply bad", true])""",
    "the history has the last thirty, the newest first, and marks what was refused": """
        at(rec(1));
        const events = Array.from({ length: 33 }, (_, place) => ({ minute: day("11:" + (10 + place)), who: "AO", what: "TOBT", changes: ["TOBT 12:00"], refused: place === 32 ? "later" : null }));
        answers.push(["/flights/1/history", 200, { events }]);
        open("1");
        await turns();
        const items = [...element("history").children];
        element("one").close();
        return same([items.length, items[0].textContent, items[0].className, items[29].textContent, items[1].className], [30, "11:42 AO: TOBT, refused: later", "refused", "11:13 AO: TOBT 12:00", ""])""",
    "the schedule of a flight begins as it stands": """
        at(rec(1, { sobt: day("13:20"), stand: 4, plan_type: "A319", last: 3 }));
        const form = element("plan-form");
        plan(flights.get("1"));
        const names = ["flight", "callsign", "type", "reg", "dest", "time", "stand", "mttt", "exit", "exot"];
        const filled = names.map((it) => form.elements[it].value);
        element("plan").close();
        return same([filled, form.elements.flight.readOnly], [["1", "DLH1", "A319", "DAIBC", "EGLL", "13:20", "4", "45", "5", "10"], true])""",
    "the schedule of a flight keeps its day where its time stays": """
        at(rec(1, { sobt: "2026-03-03T08:20:00Z", stand: 4, plan_type: "A319", last: 3 }), rec(2));
        answers.push(["/enter", 200, { is_accepted: true, entry: 12, words: "entered" }]);
        const form = element("plan-form"), submit = () => form.dispatchEvent(new Event("submit", { cancelable: true }));
        plan(flights.get("1"));
        const filled = [form.elements.time.value, form.elements.type.value, form.elements.flight.readOnly, form.elements.stand.value];
        form.elements.stand.value = "5";
        submit();
        await turns();
        form.elements.time.value = "09:00";
        submit();
        await turns();
        came(13, [{ flight: "1", sobt: day("09:00"), last: 13 }]);
        form.elements.time.value = "08:20";
        submit();
        await turns();
        element("plan").close();
        plan(flights.get("2"));
        form.elements.time.value = "08:20";
        submit();
        await turns();
        element("plan").close();
        return same([filled, sent.map((it) => [it[1].flight, it[1].time, it[1].stand, it[1].seen])], [["08:20", "A319", true, "4"], [["1", "+0", 5, 3], ["1", "09:00", 5, 12], ["1", "08:20", 5, 12], ["2", "08:20", 0, 1]]])""",
    "a new flight is scheduled in capitals, and one that changed is asked about": """
        at();
        const form = element("plan-form"), submit = () => form.dispatchEvent(new Event("submit", { cancelable: true }));
        plan(null);
        const isFree = !form.elements.flight.readOnly;
        for (const [name, value] of Object.entries({ flight: "900", callsign: " aua900 ", type: "a320", reg: "oelba", dest: "loww", time: "13:00", stand: "12" })) form.elements[name].value = value;
        answers.push(["/enter", 409, { words: "changed", last: 8, events: [] }]);
        submit();
        await turns();
        const asked = element("plan-reply").textContent;
        submit();
        await turns();
        element("plan").close();
        return same([isFree, asked, sent.map((it) => [it[1].callsign, it[1].dest, it[1].mttt, it[1].seen])], [true, "changed:Press Schedule again to send it all the same.", [["AUA900", "LOWW", 40, -1], ["AUA900", "LOWW", 40, 8]]])""",
    "the record tells what is not there, and whole times": """
        const pairs = Object.fromEntries(details(rec(1, { tobt: day("12:10"), reached: [0, 1], scheduled_type: "", scheduled_reg: "", scheduled_dest: "" })));
        return same([pairs.scheduled, pairs.planned, pairs.TOBT, pairs.milestones], ["–", "–", "2026-03-01 12:10", "schedule, 1 " + milestone(1).short])""",
    "a stroke in a dialog is none of the page's": """
        at(rec(1));
        const press = (node) => { const event = new KeyboardEvent("keydown", { key: "/", bubbles: true, cancelable: true }); node.dispatchEvent(event); return event.defaultPrevented; };
        const found = [press(document.body), press(element("text"))];
        open("1");
        found.push(press(element("one")));
        element("one").close();
        return same(found, [true, false, false])""",
}  # fmt: skip


class Answers(BaseHTTPRequestHandler):
    """The page and its files, and what the desk would answer."""

    def do_GET(self) -> None:  # pylint: disable=invalid-name
        """A file, or an answer."""
        name = self.path.partition("?")[0][1:] or "desk.html"
        told = {"words.js": page_words(), "me": json.dumps(ME), "board": json.dumps(BOARD), "events": "\n"}
        data = told[name].encode() if name in told else (PAGES / name).read_bytes()
        kinds = {"html": "text/html", "css": "text/css", "js": "text/javascript", "svg": "image/svg+xml"}
        kind = "text/event-stream" if name == "events" else kinds.get(name.rpartition(".")[2], "application/json")
        self.send_response(200)
        self.send_header("Content-Type", f"{kind}; charset=utf-8" if kind != "image/svg+xml" else kind)
        self.end_headers()
        self.wfile.write(data)

    def log_message(self, *_: Any) -> None:  # pylint: disable=arguments-differ
        """Nothing."""


@pytest.fixture(scope="module", name="page")
def _page() -> Iterator[Browser]:
    server = ThreadingHTTPServer(("127.0.0.1", 0), Answers)
    server.daemon_threads = True
    threading.Thread(target=server.serve_forever, daemon=True).start()
    try:
        with Browser(f"http://127.0.0.1:{server.server_port}") as browser:
            browser.driver.get(browser.origin)
            assert browser.until(lambda: browser.text("me") != "" and browser.run("return source !== null"))
            browser.run(BEGIN)
            yield browser
    finally:
        server.shutdown()
        server.server_close()


@pytest.mark.parametrize("name", CASES)
def test_by_hand(page: Browser, name: str) -> None:
    script = f"const done=arguments[0];(async()=>{{{CASES[name]}}})().then(done,(why)=>done(String(why.stack)))"
    assert page.driver.execute_async_script(script) is True
