#!/usr/bin/env python3
"""Holds the page of `acdm serve --web` against what a display has to do: twelve widths, a reload, keyboard, screen readers.

    bench/web/page.py [--program PATH] [--files] [--pictures FOLDER]

At each of twelve widths from 360 to 3840 no column is cut, nothing overlaps and nothing has to be scrolled sideways. After
a reload the page knows who reported each milestone, each partner's last word and refusals, and since when alerts stand. The
open flight follows; the heads put in order; what is over for three hours is hidden; times are told in another zone. What
Chromium's accessibility tree and the contrast of texts say is asserted, and the frames of 4,000 flights by its trace. Then
boards with other journals take the place of this one: longer, shorter, and empty at first. At last the page is handed
lines of a feed that are written by hand (by_hand.py), at a moment that stands still. With --files the page is
that of clients/web, put before the program's events. It needs Debian's chromium, chromium-driver and
python3-selenium, and is left out without them. The last line is `N cases, M failed`; the status is 1 where one failed.
"""
import argparse
import contextlib
import datetime
import email.utils
import http.server
import json
import os
import pathlib
import shutil
import socket
import sys
import threading
import time
import urllib.request

TOP = pathlib.Path(__file__).resolve().parents[2]
sys.path.insert(0, str(TOP / "bench" / "web"))
sys.path.insert(0, str(TOP / "clients" / "web"))
from by_hand import by_hand  # noqa: E402
from browser import DRIVER, FORM, ROLES, Board, By, Page, free_port, webdriver  # noqa: E402
from embed import page as page_of_files  # noqa: E402

if webdriver is not None:
    # (Debian's python3-selenium stands on both)
    import trio
    import trio_websocket

WIDTHS = (360, 390, 480, 600, 768, 820, 960, 1024, 1280, 1440, 1920, 3840)
MANY = 4000
# (the standard's long task has 50 ms on a machine of its own)
LONGEST_TASK = 80.0
CATEGORIES = ("toplevel", "blink.user_timing")
CELLS = """
const faults = [], seen = document.documentElement.clientWidth;
const name = (node) => node.tagName + " " + (node.id || node.className || node.dataset?.name || "") + " " + node.textContent.slice(0, 30);
const box = (node) => node.getBoundingClientRect();
if (document.documentElement.scrollWidth > seen) faults.push("the page is wider than the screen by " + (document.documentElement.scrollWidth - seen));
const meet = (one, other) => one.left < other.right - 1 && other.left < one.right - 1 && one.top < other.bottom - 1 && other.top < one.bottom - 1;
const check = (nodes) => {
  const shown = nodes.filter((node) => box(node).width > 0 && !node.classList.contains("unseen"));
  for (const node of shown) {
    if (node.scrollWidth > node.clientWidth + 1 && node.clientWidth) faults.push("cut: " + name(node));
    if (box(node).left < -1 || box(node).right > seen + 1) faults.push("outside: " + name(node));
  }
  shown.forEach((one, place) => {
    for (const other of shown.slice(place + 1)) if (meet(box(one), box(other))) faults.push("overlap: " + name(one) + " / " + name(other));
  });
};
const line = document.querySelector("#rows tr");
for (const line of [...document.querySelectorAll("#rows tr")].slice(0, 8)) check([...line.children]);
const dialog = document.querySelector("dialog[open]");
if (dialog) for (const line of dialog.querySelectorAll("tr")) check([...line.children]);
else check([...document.querySelectorAll("header > :not(#controls):not(#partners), #controls > label, #options > label, #partners > span")]);
if (line && line.children.length !== 12) faults.push("a row has " + line.children.length + " cells");
return faults;
"""
CONTRAST = """
const light = (rgb) => {
  const [r, g, b] = rgb.map((c) => c / 255).map((c) => c <= .03928 ? c / 12.92 : ((c + .055) / 1.055) ** 2.4);
  return .2126 * r + .7152 * g + .0722 * b;
};
const numbers = (text) => text.match(/[\\d.]+/g).map(Number);
const back = (node) => {
  for (; node; node = node.parentElement) {
    const found = numbers(getComputedStyle(node).backgroundColor);
    if (found.length < 4 || found[3] > 0) return found.slice(0, 3);
  }
  return matchMedia("(prefers-color-scheme: dark)").matches ? [18, 18, 18] : [255, 255, 255];
};
const faults = new Set();
for (const node of document.querySelectorAll("body *")) {
  if (!node.checkVisibility() || node.closest(".unseen, option, svg") || ![...node.childNodes].some((it) => it.nodeType === 3 && it.data.trim())) continue;
  const one = light(numbers(getComputedStyle(node).color).slice(0, 3)), other = light(back(node));
  const ratio = (Math.max(one, other) + .05) / (Math.min(one, other) + .05);
  if (ratio < 4.5) faults.add(node.tagName + " " + node.className + " " + ratio.toFixed(2) + " " + node.textContent.slice(0, 20));
}
return [...faults].slice(0, 10);
"""


class Files(http.server.BaseHTTPRequestHandler):
    """The page of the files, before the events of a board."""

    board = 0
    links: list[socket.socket] = []

    @classmethod
    def cut(cls):
        """Ends all events, as a network does that breaks."""
        while cls.links:
            with contextlib.suppress(OSError):
                cls.links.pop().shutdown(socket.SHUT_RDWR)

    def do_GET(self):  # pylint: disable=invalid-name
        """The page, or what the board answers."""
        if self.path == "/":
            data = page_of_files().encode()
            self.send_response(200)
            self.send_header("Content-Type", "text/html; charset=utf-8")
            self.send_header("Content-Length", str(len(data)))
            self.end_headers()
            self.wfile.write(data)
            return
        with socket.create_connection(("127.0.0.1", self.board)) as board:
            self.links.append(board)
            last = self.headers.get("Last-Event-ID")
            field = f"Last-Event-ID: {last}\r\n" if last else ""
            board.sendall(f"GET {self.path} HTTP/1.1\r\nHost: localhost\r\n{field}\r\n".encode())
            try:
                while piece := board.recv(1 << 16):
                    self.wfile.write(piece)
            except OSError:
                pass

    def do_HEAD(self):  # pylint: disable=invalid-name
        """The time alone."""
        self.send_response(200)
        self.end_headers()

    def log_message(self, *_):  # pylint: disable=arguments-differ
        """Nothing."""


def served(board_port, is_of_files):
    """The port of the page."""
    if not is_of_files:
        return board_port
    handler = type("Own", (Files,), {"board": board_port})
    server = http.server.ThreadingHTTPServer(("127.0.0.1", 0), handler)
    server.daemon_threads = True
    threading.Thread(target=server.serve_forever, daemon=True).start()
    return server.server_port


def moment(minutes):
    return (datetime.datetime.now(datetime.timezone.utc) + datetime.timedelta(minutes=minutes)).strftime(FORM)


def morning(board):
    """Flights in all states: with long names and many alerts, without a plan, departed, over for long."""
    texts = {"type": "B77W", "reg": "DABCDEFG"[:7], "dest": "EDDF"}
    for number in range(1, 13):
        board.ask("APT", board.schedule(number, f"DLH{1000 + number}"[:7], 20 * number, number * 13, **texts))
        plan = {"cmd": "report", "flight": number, "milestone": 1, "time": moment(20 * number + 30 * (number % 2)), "callsign": f"DLH{1000 + number}"[:7]}
        if number != 12:
            board.ask("NM", json.dumps({**plan, **texts, "type": "A320" if number % 3 else "B77W", "reg": "DXXXX"}))
    for number in range(1, 9):
        for role, milestone, minutes in (("ATC", 5, -60), ("ATC", 6, -50), ("APT", 7, -45), ("GH", 8, -44), ("AO", 9, 10 + number), ("ATC", 10, 12 + number)):
            board.ask(role, json.dumps({"cmd": "report", "flight": number, "milestone": milestone, "time": moment(minutes)}))
    for role, milestone, minutes in (("GH", 11, -20), ("GH", 12, -15), ("ATC", 13, -14), ("ATC", 14, -12), ("APT", 15, -10), ("ATC", 16, -5)):
        board.ask(role, json.dumps({"cmd": "report", "flight": 1, "milestone": milestone, "time": moment(minutes)}))
    board.ask("APT", board.schedule(99, "OLD99", -500, 7))
    board.ask("GH", '{"cmd":"report","flight":2,"milestone":16,"time":"2030-01-01T10:00:00Z"}')
    board.ask("APT", '{"cmd":"tick"}')


def order_of(page, column):
    return page.driver.execute_script(f"return [...document.querySelectorAll('#rows tr')].map((it) => it.children[{column}].textContent)")


def after_a_reload(board, page):
    page.driver.refresh()
    ready = page.wait(lambda: page.text("state") == "live" and page.rows() >= 10)
    yield "it is there after a reload", ready
    page.wait(lambda: page.driver.execute_script("return isComplete()"))
    cells = page.driver.execute_script("return [...document.querySelectorAll('#rows tr[data-flight=\"3\"] .cells i')].map((it) => [it.className, it.title])")
    classes = [name for name, _ in cells]
    wanted = {1: "NM", 5: "ATC", 6: "ATC", 7: "APT", 8: "GH", 9: "AO", 10: "ATC"}
    date = "const done=arguments[0];fetch('/',{method:'HEAD'}).then((it)=>done(it.headers.get('Date')))"
    told = email.utils.parsedate_to_datetime(page.driver.execute_async_script(date))
    yield "it is told the board's time", abs((told - datetime.datetime.now(datetime.timezone.utc)).total_seconds()) < 3
    yield "who reported each milestone", all(classes[number - 1] == f"on {role}" for number, role in wanted.items())
    yield "and when", "AO, session 4, at " in cells[8][1]
    yield "nothing of the others", all(classes[number - 1] == "" for number in range(1, 17) if number not in wanted)
    yield "each partner's last word", all(role in page.text("partners") for role in ROLES)
    yield "and refusals", "GH 5" in page.text("partners") and "1 refused" in page.text("partners")
    yield "the refusal in words", "the role does not own the command" in page.text("refused")
    page.driver.execute_script("takePart([{ ...refused[0], entry: -1 }])")
    entries = page.driver.execute_script("return refused.map((it) => it.entry)")
    yield "an older one that is read back stands behind", len(entries) > 1 and entries == sorted(entries, reverse=True)
    page.driver.find_element(By.ID, "alerting-count").click()
    page.wait(lambda: "turn of" in page.text("alerts"))
    said = page.text("alerts")
    yield "alerts as a list", "DLH1002 " in said and "types differ" in said
    yield "since when, and whose turn", ", since " in said and "turn of AO or NM" in said and "since before" not in said
    page.driver.find_element(By.ID, "alerting-count").click()


def used(board, page):
    yield "the departed and what is over for long are hidden", not {"DLH1001", "OLD99"} & set(" ".join(order_of(page, 0)).split())
    page.driver.execute_script("element('show').value='departed';soon()")
    yield "departed ones are shown where asked for", page.wait(lambda: "DLH1001" in " ".join(order_of(page, 0))) and "OLD99" not in " ".join(order_of(page, 0))
    page.driver.execute_script("element('show').value='all';soon()")
    yield "and all", page.wait(lambda: "OLD99" in " ".join(order_of(page, 0)))
    gone = "return [...flights.values()].filter((it) => hasDeparted(it) && it.alerts.length).length"
    counted = f"Alerts of {page.driver.execute_script('return new Set(alertList().map((it) => it.flight.flight)).size')} flights"
    yield "departed ones have alerts, and are not counted", page.driver.execute_script(gone) > 0 and page.text("alerting-count") == counted
    page.driver.execute_script("element('show').value='open';soon()")
    page.driver.execute_script("document.querySelectorAll('#heads button')[3].click()")
    stands = lambda: [int(it) for it in order_of(page, 3) if it != "–"]
    yield "a head puts in order", page.wait(lambda: len(stands()) > 5 and stands() == sorted(stands()))
    page.driver.execute_script("document.querySelectorAll('#heads button')[3].click()")
    yield "and once more the other way", page.wait(lambda: stands() == sorted(stands(), reverse=True))
    yield "which a screen reader is told", page.driver.execute_script("return document.querySelectorAll('th[aria-sort=descending]').length") == 1
    page.driver.execute_script("document.querySelector('#rows tr').focus()")
    page.driver.execute_script("element('by').value='';element('by').dispatchEvent(new Event('change'))")
    page.wait(lambda: page.driver.execute_script("return !isWaiting && !isDue"))
    yield "a row keeps the focus in another order", page.driver.execute_script("return document.activeElement === rows.get(focused)")
    page.driver.execute_script("document.querySelector('#rows tr').focus()")
    page.driver.switch_to.active_element.send_keys("\ue015")
    second = page.wait(lambda: page.driver.execute_script("return document.activeElement === document.querySelectorAll('#rows tr')[1]"), 5)
    yield "the arrow goes to the next row", second
    page.driver.switch_to.active_element.send_keys("\ue007")
    flight = page.driver.execute_script("return document.activeElement.closest('dialog') ? opened : ''")
    yield "Enter opens a flight", flight != ""
    board.ask("AO", json.dumps({"cmd": "report", "flight": int(flight), "milestone": 9, "time": "2031-05-06T07:08:00Z"}))
    yield "the open flight follows", page.wait(lambda: "2031-05-06 07:08" in page.text("detail"))
    yield "with who reported", "TOBT (AO " in page.text("detail")
    page.driver.switch_to.active_element.send_keys("\ue00c")
    yield "Escape closes it, and the row has the focus", page.wait(lambda: page.driver.execute_script("return document.activeElement.dataset.flight || ''") == flight)
    page.driver.switch_to.active_element.send_keys("/")
    yield "a stroke goes to the filter", page.driver.execute_script("return document.activeElement.id") == "text"
    before = page.driver.execute_script("return rows.get('3').children[8].textContent")
    page.driver.execute_script("setZone('Asia/Kolkata')")
    hour, minute = (int(it) for it in before.split()[0].split(":"))
    wanted = f"{(hour * 60 + minute + 330) // 60 % 24:02}:{(minute + 30) % 60:02}"
    yield "times in the airport's zone", page.wait(lambda: page.driver.execute_script("return rows.get('3').children[8].textContent").startswith(wanted))
    yield "and in the clock", "Asia/Kolkata" in page.text("clock")
    page.driver.execute_script("setZone('')")
    answer = "{headers:{Date:new Date(Date.now()+7200000).toUTCString()}}"
    page.driver.execute_script(f"window.fetched=fetch;fetch=async()=>new Response('',{answer});askTime()")
    page.wait(lambda: page.driver.execute_script("return ahead>0"))
    hour = (datetime.datetime.now(datetime.timezone.utc) + datetime.timedelta(hours=2)).strftime("%H:")
    yield "the clock is that of the board", page.wait(lambda: page.text("clock").startswith(hour))
    page.driver.execute_script("fetch=()=>new Promise(()=>{});ahead=400000;draw()")
    yield "it warns where nobody ticks for five minutes", page.wait(lambda: "no tick since" in page.text("ticks"))
    page.driver.execute_script("fetch=fetched;ahead=0;draw()")
    yield "and not before", page.wait(lambda: page.text("ticks") == "")
    page.driver.execute_script("window.told=0;window.beep=()=>{window.told++};element('sound').checked=true")
    board.ask("APT", board.schedule(50, "NEW50", 30))
    board.ask("APT", '{"cmd":"tick"}')
    yield "a new alert is heard where asked for", page.wait(lambda: page.driver.execute_script("return told") > 0)
    yield "and told to a screen reader", page.wait(lambda: "NEW50" in page.driver.execute_script("return element('news').textContent"))


def at_each_width(page, folder):
    for width in WIDTHS:
        height = 800 if width < 1920 else width * 9 // 16
        page.driver.execute_cdp_cmd("Emulation.setDeviceMetricsOverride", {"width": width, "height": height, "deviceScaleFactor": 1, "mobile": width < 600})
        time.sleep(0.3)
        faults = page.driver.execute_script(CELLS)
        page.picture(folder, f"width-{width:04}")
        page.driver.execute_script("open('2')")
        time.sleep(0.1)
        faults += page.driver.execute_script(CELLS)
        page.picture(folder, f"dialog-{width:04}") if width in (360, 1024, 3840) else None
        page.driver.execute_script("element('one').close()")
        if faults:
            print(f"{width}: {faults[:6]}")
        yield f"nothing is cut and nothing overlaps at {width}", faults == []
    size = page.driver.execute_script("return parseFloat(getComputedStyle(document.body).fontSize)")
    yield "type grows with the screen", size >= 24
    page.driver.execute_cdp_cmd("Emulation.setDeviceMetricsOverride", {"width": 1500, "height": 800, "deviceScaleFactor": 1, "mobile": False})


def for_screen_readers(page):
    nodes = page.driver.execute_cdp_cmd("Accessibility.getFullAXTree", {})["nodes"]
    shown = [it for it in nodes if not it.get("ignored")]
    role, name = (lambda it: it.get("role", {}).get("value")), (lambda it: it.get("name", {}).get("value", ""))
    asked = ("button", "checkbox", "searchbox", "combobox", "textbox", "columnheader", "table", "link", "image", "ComboBox", "Comboboxgrouping")
    nameless = sorted({role(it) for it in shown if role(it) in asked and not name(it)})
    if nameless:
        print("without a name:", nameless)
    yield "each control has a name", nameless == []
    roles = [role(it) for it in shown]
    yield "the flights are a table with heads", "table" in roles and roles.count("columnheader") == 12 and roles.count("row") > 10
    yield "with cells", roles.count("cell") >= 100
    yield "milestones are told in words", any("reached: flight plan" in name(it) for it in shown)
    yield "there is a heading place and a status", {"main", "banner", "status", "log"} <= set(roles)
    yield "one row alone is met by the tab key", page.driver.execute_script("return document.querySelectorAll('#rows tr[tabindex=\"0\"]').length") == 1
    for scheme in ("light", "dark"):
        page.driver.execute_cdp_cmd("Emulation.setEmulatedMedia", {"features": [{"name": "prefers-color-scheme", "value": scheme}]})
        time.sleep(0.2)
        faults = page.driver.execute_script(CONTRAST)
        if faults:
            print(scheme, faults)
        yield f"texts stand out, {scheme}", faults == []
    page.driver.execute_cdp_cmd("Emulation.setEmulatedMedia", {"features": []})


def on_paper(page, folder):
    page.driver.execute_cdp_cmd("Emulation.setEmulatedMedia", {"media": "print"})
    page.driver.execute_cdp_cmd("Emulation.setDeviceMetricsOverride", {"width": 1062, "height": 733, "deviceScaleFactor": 1, "mobile": False})
    time.sleep(0.3)
    faults = page.driver.execute_script(CELLS)
    page.picture(folder, "paper")
    if faults:
        print("paper", faults[:6])
    yield "nothing is cut on paper", faults == []
    yield "and no control stands there", not page.driver.find_element(By.ID, "controls").is_displayed()
    page.driver.execute_cdp_cmd("Emulation.setEmulatedMedia", {"media": ""})
    page.driver.execute_cdp_cmd("Emulation.setDeviceMetricsOverride", {"width": 1500, "height": 800, "deviceScaleFactor": 1, "mobile": False})


def frames(board, port):
    """The frames while 4,000 flights are scrolled, and changed a hundred times a second, in a browser that traces."""
    for flight in range(1, MANY + 1):
        board.ask("APT", board.schedule(10_000 + flight, f"AB{flight}", flight % 600, flight % 90))
    page = Page(port)
    yield "4,000 flights", page.wait(lambda: page.shown() > MANY - 200, 90)
    page.wait(lambda: not page.driver.execute_script("return isWaiting"))
    stop = threading.Event()

    def work():
        flight = 0
        while not stop.is_set():
            flight = flight % MANY + 1
            texts = {"callsign": f"AB{flight}", "type": "A320", "reg": "DAIBC", "dest": "EGLL"}
            board.ask("NM", json.dumps({"cmd": "report", "flight": 10_000 + flight, "milestone": 1, "time": moment(flight % 600), **texts}))
            stop.wait(0.01)

    changing = threading.Thread(target=work)
    changing.start()
    trace = Trace(page.driver.capabilities["goog:chromeOptions"]["debuggerAddress"])
    page.driver.set_script_timeout(60)
    steps = page.driver.execute_async_script(
        "const done=arguments[0],found=[];let last=performance.now();const end=last+6000;performance.mark('begins');"
        "function f(t){found.push(t-last);last=t;window.scrollBy(0,found.length%120<60?40:-40);"
        "if(t<end)requestAnimationFrame(f);else{performance.mark('ends');done(found)}}requestAnimationFrame(f)"
    )
    stop.set()
    changing.join()
    tasks, steps = traced(trace.end()), sorted(steps[1:])
    page.driver.quit()
    print(
        f"4,000 flights, scrolled and changed: {len(steps)} frames, half {steps[len(steps) // 2]:.0f} ms, 99 of 100 "
        f"{steps[len(steps) * 99 // 100]:.0f} ms; of the page {len(tasks)} tasks by the trace, 99 of 100 "
        f"{tasks[len(tasks) * 99 // 100]:.1f} ms, longest {tasks[-1]:.0f} ms, load {os.getloadavg()[0]:.0f}"
    )
    # (where more than its cores are busy, a machine takes longer for each)
    share = max(1.0, os.getloadavg()[0] / (os.cpu_count() or 1))
    # (frames wait for other processes, tasks of the page do not)
    yield "half of the frames come in time", share > 1 or steps[len(steps) // 2] < 34
    yield "99 of 100 tasks of the page take less than two frames", tasks[len(tasks) * 99 // 100] < 33.4 * share
    yield "and none is a jerk", tasks[-1] < LONGEST_TASK * share


def filled(program, port, count, first=200, room=100_000):
    """A board in the place of another, with a journal of its own that has so many entries, and room for these."""
    board = Board(program, port, room)
    if count:
        board.ask("AO", '{"cmd":"alerts"}')
    for number in range(count - 1):
        board.ask("APT", board.schedule(first + number, f"NEW{first + number}"[:7], 60, number))
    return board


def other_journals(board, page, asked, port):
    """Boards with other journals take the place of this one; the last of them is left in the list."""
    known = page.driver.execute_script("return next")
    board[0].end()
    board[0] = filled(asked.program, port, known + 20)
    first = lambda it: it in " ".join(order_of(page, 0))
    yield "of a longer journal all is shown", page.wait(lambda: page.driver.execute_script("return flights.size") == known + 19)
    yield "from its first entries on", page.wait(lambda: first("NEW200")) and not first("DLH1002")
    yield "which one line says", page.wait(lambda: page.text("anew").startswith("another journal: read anew at "))
    yield "and how many entries it has", page.wait(lambda: f"{known + 20} of 100000 entries" in page.text("sums"))
    page.driver.execute_cdp_cmd("Emulation.setDeviceMetricsOverride", {"width": 360, "height": 800, "deviceScaleFactor": 1, "mobile": True})
    time.sleep(0.3)
    yield "which fits a phone", page.driver.execute_script(CELLS) == []
    page.driver.execute_cdp_cmd("Emulation.setDeviceMetricsOverride", {"width": 1500, "height": 800, "deviceScaleFactor": 1, "mobile": False})
    yield "with each partner's word", page.wait(lambda: "AO 4" in page.text("partners"))
    board[0].ask("APT", board[0].schedule(199, "LIVE199", 60))
    yield "and what comes", page.wait(lambda: first("LIVE199")) and page.text("state") == "live"
    if asked.files:
        page.driver.execute_script("anew='';window.asked=0;const own=readBack;readBack=()=>{window.asked++;own()}")
        Files.cut()
        page.wait(lambda: page.text("state") != "live")
        board[0].ask("APT", board[0].schedule(198, "LIVE198", 60))
        yield "over a break it goes on in the same journal", page.wait(lambda: first("LIVE198") and page.text("state") == "live")
        yield "and reads nothing anew", page.driver.execute_script("return window.asked===0 && anew===''")
    board[0].end()
    board[0] = filled(asked.program, port, 3, 300)
    yield "of a shorter journal all is shown", page.wait(lambda: first("NEW300") and page.driver.execute_script("return flights.size") == 2)
    page.driver.execute_script("anew=''")
    board[0].end()
    board[0] = filled(asked.program, port, 0)
    yield "of one without an entry none", page.wait(lambda: page.text("none") == "No flight to show." and page.text("anew") != "")
    page.driver.execute_script("anew=''")
    board[0].ask("APT", board[0].schedule(400, "NEW400", 60))
    yield "and then its first", page.wait(lambda: first("NEW400") and page.driver.execute_script("return journal.length") == 32)
    yield "which is not another journal", page.text("anew") == ""
    board[0].end()
    board[0] = filled(asked.program, port, 7, 500, 10)
    yield "of ten entries seven are not many", page.wait(lambda: page.text("sums").startswith("7 of 10 entries, "))
    board[0].ask("APT", board[0].schedule(520, "NEW520", 60))
    yield "and of eight it warns, which are 80 per cent", page.wait(lambda: page.text("sums").startswith("8 of 10 entries (nearly full), "))


class Trace:
    """A trace of Chromium, by its protocol for developers."""

    def __init__(self, address):
        self.begun, self.stop, self.events = threading.Event(), threading.Event(), []
        with urllib.request.urlopen(f"http://{address}/json/version") as told:
            self.url = json.load(told)["webSocketDebuggerUrl"]
        self.thread = threading.Thread(target=lambda: trio.run(self.record), daemon=True)
        self.thread.start()
        self.begun.wait(30)

    async def record(self):
        """Keeps all events until it is told to stop."""
        async with trio_websocket.open_websocket_url(self.url, max_message_size=1 << 28) as link:
            config = {"includedCategories": list(CATEGORIES)}
            await link.send_message(json.dumps({"id": 1, "method": "Tracing.start", "params": {"transferMode": "ReportEvents", "traceConfig": config}}))
            await link.get_message()
            self.begun.set()
            while not self.stop.is_set():
                await trio.sleep(0.05)
            await link.send_message('{"id":2,"method":"Tracing.end"}')
            while (message := json.loads(await link.get_message())).get("method") != "Tracing.tracingComplete":
                self.events += message["params"]["value"] if message.get("method") == "Tracing.dataCollected" else []

    def end(self):
        """All events."""
        self.stop.set()
        self.thread.join(60)
        return self.events


def traced(events):
    """How long the tasks of the page's thread took of the processor, in milliseconds, between its two marks."""
    marks = {it["name"]: it for it in events if it["name"] in ("begins", "ends") and "user_timing" in it["cat"]}
    begins, ends = marks["begins"], marks["ends"]
    place = begins["pid"], begins["tid"]
    own = [it for it in events if (it["pid"], it["tid"]) == place and it["ph"] == "X" and it["name"].endswith("RunTask")]
    found = [it.get("tdur", it.get("dur", 0)) / 1000 for it in own if begins["ts"] < it["ts"] < ends["ts"]]
    return sorted(found) or [float("inf")]


def main():
    words = argparse.ArgumentParser(description="Holds the page against what a display has to do.")
    words.add_argument("--program", default=str(TOP / "crates" / "acdm" / "out" / "acdm"))
    words.add_argument("--files", action="store_true", help="the page of clients/web, before the program's events")
    words.add_argument("--pictures", type=pathlib.Path)
    words.add_argument("--frames-alone", action="store_true", help="the 4,000 flights alone")
    words.add_argument("--no-frames", action="store_true", help="leave out the 4,000 flights")
    asked = words.parse_args()
    if webdriver is None or not shutil.which("chromium") or not os.path.exists(DRIVER):
        print("left out: Debian's chromium, chromium-driver or python3-selenium is not here")
        return 0
    if asked.pictures:
        asked.pictures.mkdir(parents=True, exist_ok=True)
    port = free_port()
    board = Board(asked.program, port)
    morning(board)
    seen = served(port, asked.files)
    page, boards = Page(seen), [board]
    cases = failed = 0
    page.wait(lambda: page.rows() >= 10)
    parts = [] if asked.frames_alone else [after_a_reload(board, page), used(board, page), at_each_width(page, asked.pictures), for_screen_readers(page), on_paper(page, asked.pictures)]
    if not asked.no_frames:
        parts.append(frames(board, seen))
    if not asked.frames_alone:
        parts += [other_journals(boards, page, asked, port), by_hand(page)]
    for part in parts:
        for name, is_well in part:
            cases += 1
            if not is_well:
                failed += 1
                print(f"FAILED: {name}", flush=True)
    faults = page.faults()
    cases, failed = cases + 1, failed + bool(faults)
    if faults:
        print(f"FAILED: no fault in the page: {faults[:3]}")
    page.driver.quit()
    boards[0].end()
    print(f"{cases} cases, {failed} failed")
    return 1 if failed else 0


if __name__ == "__main__":
    sys.exit(main())
