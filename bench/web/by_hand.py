"""What bench/web/page.py asks of the page by lines of the feed that are written by hand, at a moment that stands still.

Each case is a name and a script that gives true; `at` begins a board of its own, with the flights that are named.
"""

BEGIN = r"""
const END = "2026-03-01T12:00:00Z";
source.close();
fetch = () => new Promise(() => {});
Date.now = () => Date.parse(END);
ahead = 0;
window.rec = (flight, more) => ({
  flight: String(flight), callsign: "DLH" + flight, scheduled_type: "A320", plan_type: "", scheduled_reg: "DAIBC",
  plan_reg: "", scheduled_dest: "EGLL", plan_dest: "", ...Object.fromEntries(TIMES.map((name) => [name, null])),
  mttt: 45, exit: 5, exot: 10, stand: 0, reached: [0], alerts: [], ...more,
});
window.at = (flights, next = 0, name = "0") => {
  for (const [id, value] of [["text", ""], ["show", "open"]]) element(id).value = value;
  for (const id of ["only", "sound", "notify"]) element(id).checked = false;
  [order, isDown, journal, anew, zone, list] = ["", false, "", "", "UTC", []];
  take({ journal: name.repeat(32), next, room: 1000, flights });
};
window.day = (time) => "2026-03-01T" + time + ":00Z";
window.said = (entry, minute, role, command, more) => ({
  entry, minute: day(minute), session: { NM: 1, ATC: 2, APT: 3, AO: 4, GH: 5 }[role], role, command, outcome: "ok", changed: [], ...more,
});
window.ids = () => shown().map((it) => it.id).join(" ");
window.drawn_now = () => { isAll = true; draw(); };
window.same = (one, other) => JSON.stringify(one) === JSON.stringify(other) || (console.log(JSON.stringify(one)), false);
window.press = (node, key) => {
  const event = new KeyboardEvent("keydown", { key, bubbles: true, cancelable: true });
  node.dispatchEvent(event);
  return event.defaultPrevented;
};
"""

CASES = [
    # Which flights are shown, and in which order.
    ("a filter wants each of its words, in any case", """
        at([rec(1, { callsign: "DLH1", stand: 7 }), rec(2, { callsign: "DLH2", stand: 8 })]);
        element("text").value = " Dlh  STAND 7 ";
        return same(ids(), "1")"""),
    ("a filter finds alerts by name and in words, and by the airport's name", """
        local = { LOC03: "De-icing late" };
        at([rec(1, { alerts: ["CDM09"] }), rec(2, { alerts: ["LOC03"] }), rec(3)]);
        const found = ["cdm09", WORDS.alerts.CDM09.toUpperCase(), "loc03", "de-icing"].map((it) => (element("text").value = it, ids()));
        local = {};
        return same(found, ["1", "1", "2", "2"])"""),
    ("flights with alerts alone", """
        at([rec(1), rec(2, { alerts: ["CDM09"] })]);
        element("only").checked = true;
        return same(ids(), "2")"""),
    ("a flight is over three hours after the last of its times", """
        at([rec(1, { sobt: day("06:00"), tobt: day("09:01") }), rec(2, { sobt: day("06:00"), tsat: day("08:59") }), rec(3)]);
        const open = ids();
        element("show").value = "all";
        return same([open, ids()], ["1 3", "2 1 3"])"""),
    ("flights stand by TOBT, then EOBT, then SOBT, and those without one last", """
        at([rec(1), rec(2, { sobt: day("11:30") }), rec(3, { sobt: day("10:00"), eobt: day("11:45") }), rec(4, { eobt: day("10:00"), tobt: day("12:00") })]);
        return same(ids(), "2 3 4 1")"""),
    ("of the same time they stand by number", """
        at([rec(10, { sobt: day("11:00") }), rec(9, { sobt: day("11:00") }), rec("18446744073709551615", { sobt: day("11:00") })]);
        return same(ids(), "9 10 18446744073709551615")"""),
    ("each head puts in the order of its column", """
        at([
          rec(1, { callsign: "B", plan_type: "A319", plan_dest: "LFPG", stand: 9, reached: [0], aldt: day("11:00"), eldt: day("09:00"), aibt: day("10:00"), sobt: day("11:00"), tobt: day("11:00"), tsat: day("11:00"), ctot: day("11:00") }),
          rec(2, { callsign: "A", plan_type: "B738", plan_dest: "EDDF", stand: 10, reached: [0, 1, 2], eldt: day("10:00"), aibt: day("11:00"), eobt: day("10:30"), alerts: ["CDM01"] }),
        ]);
        element("show").value = "all";
        const found = COLUMNS.map(([name]) => { orderBy(name); isDown = false; isAll = false; for (const it of flights.values()) put(it); return ids(); });
        return same(found, ["2 1", "1 2", "2 1", "1 2", "2 1", "2 1", "1 2", "2 1", "1 2", "1 2", "1 2", "2 1"])"""),
    ("the order stays in this browser, and so does its turn", """
        at([rec(1)]);
        orderBy("Stand");
        const once = kept("order", 0);
        orderBy("Stand");
        const twice = kept("order", 0);
        orderBy("TOBT");
        const other = kept("order", 0);
        orderBy("");
        return same([once, twice, other], [["Stand", false], ["Stand", true], ["TOBT", false]])"""),
    ("what another page has spoiled in this browser is passed over", """
        localStorage.setItem("spoiled", "{");
        return same([kept("spoiled", 5), kept("nothing", 6)], [5, 6])"""),
    # What a cell says.
    ("minutes to a target: none once it was met, none beyond days", """
        const texts = [[day("12:10")], [day("12:11")], [day("12:00")], [day("11:59")], [day("12:10"), day("11:00")], [null], ["2026-03-06T00:00:00Z"]];
        const cells = texts.map(([time, met]) => target(time, met)).map((it) => [it.textContent, it.querySelector("small")?.className]);
        return same(cells, [["12:10 +10", "soon"], ["12:11 +11", ""], ["12:00 +0", "soon"], ["11:59 -1", "past"], ["12:10", null], ["–", null], ["00:00", null]])"""),
    ("a row is that of its flight: alerted, departed, without a stand", """
        const line = (more) => { const it = row(rec(1, more)); return [it.className, it.children[3].textContent]; };
        return same([line({}), line({ alerts: ["CDM01"], stand: 12 }), line({ reached: [0, 16] })], [["", "–"], ["alerted", "12"], [" departed", "–"]])"""),
    ("the plan stands before the schedule, an actual landing before an estimate", """
        const it = row(rec(1, { plan_type: "A319", plan_dest: "LFPG", eldt: day("09:00"), aldt: day("09:05"), sobt: day("10:00") }));
        const texts = [1, 2, 5, 7].map((place) => it.children[place].textContent);
        return same([...texts, it.children[7].dataset.name, !!it.children[7].querySelector("i"), !!it.children[5].querySelector("b")], ["A319 DAIBC", "LFPG", "09:05", "10:00", "SOBT", true, true])"""),
    ("off-block is planned where there is a plan", """
        const cell = offBlock(rec(1, { eobt: day("10:10"), sobt: day("10:00") }));
        return same([cell.textContent, cell.dataset.name, offBlock(rec(1)).textContent], ["10:10", "EOBT", "–"])"""),
    ("a milestone is told by who reported it, as reached where nobody is known, or as not reached", """
        at([rec(1, { reached: [0, 6, 7] })]);
        learn(said(0, "11:00", "ATC", { cmd: "report", flight: "1", milestone: 6 }));
        const cells = [6, 7, 8].map((number) => milestoneCell(flights.get("1"), number)).map((it) => [it.className, it.title.replace(/^\\d+ [^:]*/, "")]);
        return same(cells, [["on ATC", ": ATC, session 2, at 11:00"], ["on", ": reached"], ["", ": not reached"]])"""),
    ("local alerts have the airport's name, or their number", """
        const own = local;
        local = { LOC03: "de-icing late" };
        const found = ["LOC03", "LOC07", "CDM01"].map(words);
        local = own;
        return same(found, ["de-icing late", "local alert 07", WORDS.alerts.CDM01])"""),
    ("a partner is silent after half an hour, and what was refused is counted", """
        const cells = [["11:29", 0], ["11:31", 2]].map(([last, refused]) => partnerCell([3, { role: "APT", last: day(last), refused }]));
        return same(cells.map((it) => [it.textContent, it.className]), [["APT 3 11:29 (silent)", "partner old"], ["APT 3 11:31, 2 refused", "partner"]])"""),
    ("partners stand by their numbers", """
        at([]);
        for (const session of [10, 9, 64]) learn({ ...said(session, "11:59", "APT", { cmd: "tick" }), session });
        drawn_now();
        return same(element("partners").textContent.match(/APT \\d+/g), ["APT 9", "APT 10", "APT 64"])"""),
    ("a refusal is told with its time, its partner, its flight and why", """
        const found = [14, 9999].map((code) => refusal({ ...said(1, "11:05", "GH", { cmd: "report", flight: "7" }), outcome: { code, name: "later" } }));
        return same(found, ["11:05 GH report 7: " + (WORDS.refusals[14] || "later"), "11:05 GH report 7: later"])"""),
    ("the last five refusals are told, the newest first", """
        at([]);
        for (let entry = 0; entry < 7; entry++) learn({ ...said(entry, "11:0" + entry, "GH", { cmd: "tick" }), outcome: { code: 1, name: "it" } });
        return same([refused.map((it) => it.entry), partners.get(5).refused], [[6, 5, 4, 3, 2], 7])"""),
    # Times in another zone.
    ("at midnight a zone begins a day at 00, with its own date", """
        at([]);
        setZone("Europe/Berlin");
        const found = [clock(day("23:05")), minuteOf(day("23:05")), minuteOf(day("22:05")), kept("zone", "")];
        setZone("");
        return same([...found, clock(day("23:05")), minuteOf(day("23:05"))], ["00:05", "2026-03-02 00:05", "2026-03-01 23:05", "Europe/Berlin", "23:05", "2026-03-01 23:05"])"""),
    ("a zone that there is not changes nothing", """
        setZone("Europe/Berlin");
        setZone("Berlin");
        const found = [zone, element("zone").value, clock(day("11:00"))];
        setZone("");
        return same([...found, element("zone").value], ["Europe/Berlin", "Europe/Berlin", "12:00", ""])"""),
    # Alerts: the list, what is heard, since when.
    ("alerts that stand longest come first, without those of the departed", """
        at([rec(1), rec(2), rec(3), rec(4, { alerts: ["CDM04"] })]);
        take(said(0, "11:30", "APT", { cmd: "tick" }, { changed: [rec(1, { alerts: ["CDM01"] })] }));
        take(said(1, "11:10", "APT", { cmd: "tick" }, { changed: [rec(2, { alerts: ["CDM02"] })] }));
        take(said(2, "11:20", "APT", { cmd: "tick" }, { changed: [rec(3, { alerts: ["CDM03"], reached: [0, 16] })] }));
        return same(alertList().map((it) => it.flight.flight + " " + it.alert + " " + it.onset.slice(11, 16)), ["4 CDM04 ", "2 CDM02 11:10", "1 CDM01 11:30"])"""),
    ("each says since when, how many minutes, and whose turn it is; its button opens the flight", """
        at([rec(1)]);
        take(said(0, "11:30", "APT", { cmd: "tick" }, { changed: [rec(1, { alerts: ["CDM09"] })] }));
        element("alerting").open = true;
        drawn_now();
        const text = element("alerts").textContent;
        element("alerts").querySelector("button").click();
        const isOpen = element("one").open && opened === "1";
        element("one").close();
        element("alerting").open = false;
        return same([text, isOpen], ["DLH1 " + WORDS.alerts.CDM09 + ", since 11:30, 30 min; turn of " + WORDS.turns.CDM09.join(" or "), true])"""),
    ("a hundred alerts are listed, and how many more there are", """
        at(Array.from({ length: 103 }, (_, place) => rec(place + 1, { alerts: ["CDM09"] })));
        element("alerting").open = true;
        drawn_now();
        const items = [...element("alerts").children].map((it) => it.textContent);
        element("alerting").open = false;
        return same([items.length, items[100], element("alerting-count").textContent, document.title], [101, "3 more", "Alerts of 103 flights", "(103) A-CDM board"])"""),
    ("without an alert none is told", """
        at([rec(1)]);
        drawn_now();
        return same([element("alerting-count").textContent, document.title, element("more").hidden, element("none").hidden], ["No alerts", "A-CDM board", true, true])"""),
    ("an alert is heard once, whatever the filter, and not of what is not shown", """
        at([rec(1), rec(2, { reached: [0, 16] })]);
        element("text").value = "another";
        const heard = [], own = beep;
        beep = () => heard.push(element("news").textContent.slice(0, 5));
        element("sound").checked = true;
        element("news").textContent = "";
        const come = (entry, ...changed) => take(said(entry, "11:30", "APT", { cmd: "tick" }, { changed }));
        come(0, rec(1, { alerts: ["CDM01"] }));
        come(1, rec(1, { alerts: ["CDM01"], stand: 5 }));
        come(2, rec(2, { alerts: ["CDM01"], reached: [0, 16] }));
        come(3, rec(1, { alerts: [] }));
        come(4, rec(1, { alerts: ["CDM01"] }));
        come(5, rec(3, { alerts: ["CDM02"] }));
        beep = own;
        return same(heard, ["DLH1:", "DLH1:", "DLH3:"])"""),
    ("and notified where that is allowed", """
        at([rec(1)]);
        const told = [], own = window.Notification;
        window.Notification = class { static permission = "granted"; constructor(text, words) { told.push([text.slice(0, 5), words.tag]); } };
        const come = (entry, alert) => take(said(entry, "11:30", "APT", { cmd: "tick" }, { changed: [rec(1, { alerts: [alert] })] }));
        come(0, "CDM01");
        element("notify").checked = true;
        come(1, "CDM02");
        Notification.permission = "denied";
        come(2, "CDM03");
        window.Notification = own;
        return same(told, [["DLH1:", "1CDM02"]])"""),
    ("an alert that goes and comes again stands since then", """
        at([rec(1)]);
        const come = (entry, minute, alerts) => take(said(entry, minute, "APT", { cmd: "tick" }, { changed: [rec(1, { alerts })] }));
        come(0, "11:10", ["CDM01"]);
        come(1, "11:20", ["CDM01", "CDM02"]);
        const both = ["CDM01", "CDM02"].map((it) => since(flights.get("1"), it));
        come(2, "11:25", ["CDM02"]);
        come(3, "11:30", ["CDM01", "CDM02"]);
        return same([both, ["CDM01", "CDM02"].map((it) => since(flights.get("1"), it))], [[", since 11:10", ", since 11:20"], [", since 11:30", ", since 11:20"]])"""),
    ("read back, an alert stands since the entry that brought it, or since before what is known", """
        at([rec(1, { alerts: ["CDM01", "CDM02"] }), rec(2, { alerts: ["CDM01"] })], 10);
        takePart([
          said(5, "11:00", "NM", { cmd: "report", flight: "1", milestone: 1 }, { changed: [rec(1, { alerts: ["CDM01"] })] }),
          said(6, "11:05", "NM", { cmd: "report", flight: "1", milestone: 2 }, { changed: [rec(1, { alerts: ["CDM01", "CDM02"] })] }),
          said(7, "11:06", "APT", { cmd: "schedule", flight: "2" }, { changed: [rec(2, { alerts: ["CDM01"] })] }),
        ]);
        const part = ["CDM01", "CDM02"].map((it) => since(flights.get("1"), it)).concat(since(flights.get("2"), "CDM01"));
        takePart([said(4, "10:00", "APT", { cmd: "schedule", flight: "1" }, { changed: [rec(1)] })]);
        return same([part, since(flights.get("1"), "CDM01")], [[", since before 11:00", ", since 11:05", ", since 11:06"], ", since 11:00"])"""),
    # What entries tell.
    ("of two reports of a milestone the newer counts, also where the older is read back", """
        at([rec(1, { reached: [0, 9] })], 20);
        learn(said(15, "11:15", "GH", { cmd: "report", flight: "1", milestone: 9 }));
        learn(said(5, "11:05", "AO", { cmd: "report", flight: "1", milestone: 9 }));
        const back = reported.get("1/9").role;
        learn(said(16, "11:16", "AO", { cmd: "report", flight: "1", milestone: 9 }));
        learn({ ...said(17, "11:17", "ATC", { cmd: "report", flight: "1", milestone: 9 }), outcome: { code: 1 } });
        return same([back, reported.get("1/9").role], ["GH", "AO"])"""),
    ("of a partner the last word counts, also where older ones are read back", """
        at([], 20);
        learn(said(15, "11:15", "GH", { cmd: "tick" }));
        learn(said(5, "11:05", "GH", { cmd: "tick" }));
        return same([partners.get(5).last, ticked], [day("11:15"), day("11:15")])"""),
    ("an entry that comes again is passed over", """
        at([rec(1)], 5);
        take({ ...said(4, "11:15", "GH", { cmd: "tick" }), outcome: { code: 1 } });
        take({ ...said(5, "11:16", "GH", { cmd: "tick" }), outcome: { code: 1 } });
        take({ ...said(5, "11:16", "GH", { cmd: "tick" }), outcome: { code: 1 } });
        return same([partners.get(5).refused, next], [1, 6])"""),
    ("of another journal nothing stays: flights, partners, reports, refusals, ticks", """
        at([rec(1, { alerts: ["CDM01"] })], 5);
        learn(said(1, "11:15", "GH", { cmd: "report", flight: "1", milestone: 8 }));
        learn(said(2, "11:15", "APT", { cmd: "tick" }));
        learn({ ...said(3, "11:15", "GH", { cmd: "report", flight: "1", milestone: 8 }), outcome: { code: 1 } });
        take(said(5, "11:20", "APT", { cmd: "tick" }, { changed: [rec(1, { alerts: ["CDM01", "CDM02"] })] }));
        journal = "0".repeat(32);
        take({ journal: "1".repeat(32), next: 3, room: 7, flights: [rec(2)] });
        const sizes = [flights, facts, partners, reported, earliest].map((it) => it.size);
        return same([sizes, onsets.has("1"), refused.length, ticked, first, next, room, anew], [[1, 1, 0, 0, 0], false, 0, "", "", 3, 7, day("12:00")])"""),
    ("that is told for ten minutes", """
        at([]);
        const found = ["11:51", "11:49"].map((it) => { anew = day(it); drawAnew(); return element("anew").textContent; });
        anew = "";
        drawAnew();
        return same([...found, element("anew").textContent], ["another journal: read anew at 11:51", "", ""])"""),
    ("that nobody ticks is told after five minutes, from the last tick on, or from the first entry", """
        at([], 9);
        const text = () => { drawTicks(); return element("ticks").textContent.slice(0, 19); };
        const found = [text()];
        learn(said(1, "11:54", "GH", { cmd: "report", flight: "1", milestone: 8 }));
        found.push(text());
        learn(said(2, "11:56", "GH", { cmd: "report", flight: "1", milestone: 8 }));
        found.push(text());
        learn(said(3, "11:55", "APT", { cmd: "tick" }));
        found.push(text());
        return same(found, ["", "no tick since 11:54", "no tick since 11:54", ""])"""),
    ("the name of another journal, or of more than is known, has all read anew", """
        const asked = [], own = [setTimeout, source];
        setTimeout = (what) => asked.push(what === connect);
        at([rec(1)], 5);
        const told = [["0", 5], ["0", 4], ["0", 6], ["1", 5]].map(([name, next]) => {
          asked.length = 0;
          tell("live", "");
          takeJournal({ journal: name.repeat(32), next, room: 9 });
          return [asked.length, room, element("state").textContent.slice(0, 7)];
        });
        setTimeout = own[0];
        return same(told, [[0, 9, "live"], [0, 9, "live"], [1, 9, "another"], [1, 9, "another"]])"""),
    ("what was before is read in parts until all is known, and no further", """
        const past = Array.from({ length: 9000 }, (_, entry) => said(entry, "11:00", "APT", entry === 3500 ? { cmd: "report", flight: 1, milestone: 7 } : { cmd: "tick" }));
        const asked = [];
        fetch = async (_, words) => {
          const first = Number(words.headers["Last-Event-ID"]);
          asked.push(first);
          const lines = [{ journal: "0".repeat(32), next: first, room: 1000 }, ...past.slice(first)];
          return new Response(lines.map((it) => "id: 1\\ndata: " + JSON.stringify(it) + "\\n\\n").join(""));
        };
        at([rec(1, { reached: [0, 7] }), rec(2, { reached: [0, 3, 16] })], 9000);
        for (let left = 200, before = 0; left > 0 && (!reported.has("1/7") || known !== before); left--) {
          before = known;
          await new Promise((done) => setTimeout(done, 20));
        }
        fetch = () => new Promise(() => {});
        return same([asked, known, reported.get("1/7")?.entry, partners.get(3).entry], [[7000, 3000], 3000, 3500, 8999])"""),
    ("a part has its entries alone, and none where the board has another journal", """
        let name = "0";
        fetch = async () => new Response([{ journal: name.repeat(32), next: 2, room: 9 }, ...[2, 3, 4, 5, 6].map((it) => said(it, "11:00", "APT", { cmd: "tick" }))].map((it) => "data: " + JSON.stringify(it) + "\\n\\n").join(""));
        at([], 0);
        const part = await entriesBetween(2, 5);
        name = "1";
        const none = await entriesBetween(2, 5);
        fetch = () => new Promise(() => {});
        return same([part.map((it) => it.entry), none], [[2, 3, 4], null])"""),
    ("the board's clock counts where it differs by a second or more, and where it is told", """
        const found = [];
        for (const date of ["Sun, 01 Mar 2026 12:00:00 GMT", "Sun, 01 Mar 2026 11:59:00 GMT", null]) {
          fetch = async () => new Response("", { headers: date ? { Date: date } : {} });
          await askTime();
          found.push(ahead);
        }
        fetch = () => new Promise(() => {});
        ahead = 0;
        return same(found, [0, -59500, -59500])"""),
    ("a break is told, and its end", """
        source.onerror();
        const lost = [element("state").textContent, element("state").className];
        source.onopen();
        return same([lost, [element("state").textContent, element("state").className]], [["connection lost, trying again", "lost"], ["live", ""]])"""),
    # The dialog, the keys, the airport's names.
    ("the record says what is not there, and a flight that is not there opens nothing", """
        at([rec(1, { reached: [0, 1], eobt: day("11:00") })]);
        learn(said(0, "10:00", "NM", { cmd: "report", flight: "1", milestone: 1 }));
        const pairs = Object.fromEntries(details(flights.get("1")));
        open("2");
        return same([pairs.alerts, pairs.milestones, pairs.EOBT, "TOBT" in pairs, element("one").open], ["none", "schedule, 1 " + milestone(1).short + " (NM 10:00)", "2026-03-01 11:00", false, false])"""),
    ("no label of a day stands on another, actual times above", """
        const it = rec(1, { sobt: day("11:00"), eobt: day("11:01"), tobt: day("11:02"), aobt: day("11:02"), asat: day("11:01"), atot: day("13:00"), eldt: day("11:08"), [TARGETS[6]]: day("12:30") });
        const times = TIMES.filter((name) => it[name]).map((name) => [Date.parse(it[name]), name]).sort((one, other) => one[0] - other[0]);
        const found = marks(it, times), boxes = found.map((mark) => [mark.side, mark.lane, mark.x, mark.x + 7.2 * mark.label.length]);
        const meet = boxes.some((one, place) => boxes.slice(place + 1).some((other) => one[0] === other[0] && one[1] === other[1] && one[2] < other[3] && other[2] < one[3]));
        return same([meet, found.map((mark) => mark.side + mark.lane).join(" "), Math.max(...found.map((mark) => mark.x))], [false, "down0 down1 up0 down2 up1 down3 down0 up0", 780])"""),
    ("Home, End, the arrows and the space go over the rows", """
        at([rec(1, { sobt: day("11:00") }), rec(2, { sobt: day("11:01") }), rec(3, { sobt: day("11:02") })]);
        drawn_now();
        const lines = [...element("rows").children], where = () => document.activeElement.dataset.flight;
        lines[0].focus();
        const found = ["End", "ArrowUp", "Home", "ArrowUp"].map((key) => (press(document.activeElement, key), where()));
        press(document.activeElement, " ");
        const isOpen = element("one").open && opened === "1";
        element("one").close();
        return same([found, isOpen, lines.map((it) => it.tabIndex)], [["3", "2", "1", "1"], true, [0, -1, -1]])"""),
    ("a stroke in a field is written there", """
        return same([press(element("text"), "/"), press(element("zone"), "/"), press(document.body, "x"), press(document.body, "/")], [false, false, false, true])"""),
    ("the focus is on the first row where its own is gone", """
        at([rec(1, { sobt: day("11:00") }), rec(2, { sobt: day("11:01") })]);
        drawn_now();
        element("rows").children[1].focus();
        take(said(0, "11:30", "ATC", { cmd: "report" }, { changed: [rec(2, { reached: [0, 16] })] }));
        drawn_now();
        return same([focused, [...element("rows").children].map((it) => it.dataset.flight + it.tabIndex)], ["1", ["10"]])"""),
    ("names of local alerts are read line by line, and stay in this browser", """
        const file = (text) => ({ target: { files: [new File([text], "names.txt")] } });
        await nameAlerts(file("LOC03 de-icing late\\r\\n\\nLOC4 no\\n# LOC05 no\\nLOC15\\t stand  too small \\nLOC06\\n"));
        const found = [local, kept("names", {})];
        await nameAlerts(file("LOC01 other"));
        const other = { ...local };
        await nameAlerts(file(""));
        return same([...found, other, local], [{ LOC03: "de-icing late", LOC15: "stand  too small" }, { LOC03: "de-icing late", LOC15: "stand  too small" }, { LOC01: "other" }, {}])"""),
    ("a flight that changes has another row", """
        at([rec(1, { sobt: day("11:00") }), rec(2, { sobt: day("11:01") })]);
        drawn_now();
        take(said(0, "11:30", "APT", { cmd: "report" }, { changed: [rec(1, { sobt: day("11:00"), stand: 77, tobt: day("11:50") })] }));
        isDue = true;
        draw();
        return same([...element("rows").children].map((it) => it.dataset.flight + " " + it.children[3].textContent), ["2 –", "1 77"])"""),
    ("how many flights are shown, and how many more there are", """
        const own = most;
        at([rec(1, { alerts: ["CDM01"] }), rec(2), rec(3, { reached: [0, 16] })], 4);
        drawn_now();
        const few = element("sums").textContent;
        at(Array.from({ length: 205 }, (_, place) => rec(place + 1)));
        most = 200;
        drawn_now();
        const many = [element("more").textContent, element("more").hidden];
        most = own;
        return same([few, many], ["4 of 1000 entries, 2 of 3 flights, 1 with alerts", ["5 more", false]])"""),
    ("a head keeps the focus, and the choice of an order follows it", """
        at([rec(1)]);
        const head = () => element("heads").querySelectorAll("button")[3];
        head().focus();
        head().click();
        const found = [document.activeElement === head(), element("by").value, head().parentNode.getAttribute("aria-sort")];
        orderBy("");
        return same([...found, element("by").value, document.querySelectorAll("th[aria-sort]").length], [true, "Stand", "ascending", "", 0])"""),
    ("the tone is heard where it is switched on, and not off", """
        const own = beep;
        let heard = 0;
        beep = () => heard++;
        for (const is of [true, false]) {
          element("sound").checked = is;
          element("sound").dispatchEvent(new Event("change"));
        }
        beep = own;
        return same(heard, 1)"""),
    ("no notification is promised that is not allowed", """
        const own = Notification.requestPermission;
        const found = [];
        for (const answer of ["denied", "granted"]) {
          Notification.requestPermission = async () => answer;
          element("notify").checked = true;
          element("notify").dispatchEvent(new Event("change"));
          await new Promise((done) => setTimeout(done, 0));
          found.push(element("notify").checked);
        }
        Notification.requestPermission = own;
        element("notify").checked = false;
        return same(found, [false, true])"""),
]  # fmt: skip

# (what the page has done again after a while, by how many milliseconds)
AGAIN = "window.again={};const own=setInterval;setInterval=(what,time)=>{(again[time]||=[]).push(what);return own(what,time)}"
KEPT = {"order": ["Stand", True], "zone": "Europe/Berlin", "names": {"LOC03": "de-icing late"}}
BEGUN = "return [order, isDown, zone, words('LOC03'), element('zone').value, element('by').value, element('unproved').checkVisibility()]"


def begun(page):
    """What a page begins with: what this browser has kept, and the mark of a program that is not proved."""
    port = page.driver.execute_script("return location.port")
    script = page.driver.execute_cdp_cmd("Page.addScriptToEvaluateOnNewDocument", {"source": AGAIN})
    page.driver.execute_script("for (const key in arguments[0]) keep(key, arguments[0][key])", KEPT)
    for mark in ("#unproved", ""):
        page.driver.get("about:blank")
        page.driver.get(f"http://127.0.0.1:{port}/{mark}")
        found = page.driver.execute_script(BEGUN)
        wanted = ["Stand", True, "Europe/Berlin", "de-icing late", "Europe/Berlin", "Stand", mark != ""]
        yield f"what this browser has kept is there at the begin{mark}", found == wanted
    legend = page.driver.execute_script("return Object.values(WORDS.roles).every((it) => element('legend').textContent.includes(it))")
    yield "the legend names each role", legend
    page.driver.execute_script("stale.clear();rows.set('1',tag('tr'));for (const it of again[MINUTE]) it()")
    yield "each minute all rows are made anew", page.driver.execute_script("return stale.has('1')")
    page.driver.execute_script("localStorage.clear()")
    page.driver.execute_cdp_cmd("Page.removeScriptToEvaluateOnNewDocument", script)
    page.driver.get("about:blank")
    page.driver.get(f"http://127.0.0.1:{port}/")
    found = page.driver.execute_script(BEGUN)
    yield "and without anything kept the usual", found == ["", False, "UTC", "local alert 03", "", "", False]


def by_hand(page):
    """The cases, each in the page as it is, whose events end here."""
    yield from begun(page)
    page.driver.execute_script(BEGIN)
    page.driver.set_script_timeout(20)
    for name, script in CASES:
        run = f"const done=arguments[0];(async()=>{{{script}}})().then(done,(why)=>done(String(why.stack)))"
        found = page.driver.execute_async_script(run)
        if found is not True:
            print(f"{name}: {found}: {page.driver.get_log('browser')[-1:]}", flush=True)
        yield name, found is True
