#!/usr/bin/env python3
"""Looks at the page of `acdm serve --web` in headless Chromium, and measures from a partner's line to the browser.

    python3 bench/web/browser.py [--program PATH] [--pictures FOLDER]

It needs Debian's chromium, chromium-driver and python3-selenium, and without them is left out with a line that says so. Shown are an empty board, the shipped morning with its times moved to
today, a call sign that would be HTML, 4,000 flights, a filter, a flight's day, a phone, dark colours, and a connection that is lost and
comes back. With --pictures a picture of each is kept. The last line is `N cases, M failed`; the status is 1 where one failed.
"""
import argparse
import datetime
import json
import os
import pathlib
import re
import shutil
import socket
import statistics
import subprocess
import sys
import time

DEBIAN, DRIVER = "/usr/bin/python3", "/usr/bin/chromedriver"
try:
    from selenium import webdriver
    from selenium.webdriver.chrome.options import Options
    from selenium.webdriver.chrome.service import Service
    from selenium.webdriver.common.by import By
except ImportError:
    # (another Python than Debian's has not what Debian's packages bring)
    if os.path.exists(DEBIAN) and os.path.realpath(sys.executable) != os.path.realpath(DEBIAN):
        os.execv(DEBIAN, [DEBIAN, *sys.argv])
    webdriver = By = None

# (on this machine it is half past five where it is midnight in UTC: a local time is no time of the board)
os.environ["TZ"] = "Asia/Kolkata"
time.tzset()
TOP = pathlib.Path(__file__).resolve().parents[2]
ROLES = ("NM", "ATC", "APT", "AO", "GH")
INSTANT = re.compile(r'"(\d{4}-\d\d-\d\dT\d\d:\d\d:\d\dZ)"')
FORM = "%Y-%m-%dT%H:%M:%SZ"
HOSTILE = '<b>&"\''
# (each would be an element, or the end of one)
HOSTILE_TEXTS = {"type": "<q>", "reg": "<u>x</u>", "dest": "<s>"}
MANY = 4000


def free_port():
    with socket.socket() as it:
        it.bind(("127.0.0.1", 0))
        return it.getsockname()[1]


class Board:
    """A board with a page and five partners."""

    def __init__(self, program, web, room=100_000):
        words = [program, "serve", "--web", f"127.0.0.1:{web}", "--journal", str(room), *(f"{role}=127.0.0.1:0" for role in ROLES)]
        self.server = subprocess.Popen(words, stdin=subprocess.DEVNULL, stdout=subprocess.PIPE, stderr=subprocess.DEVNULL, text=True)
        self.partners = {}
        for _ in ROLES:
            _, _, role, address = self.server.stdout.readline().split()
            host, port = address.rsplit(":", 1)
            stream = socket.create_connection((host, int(port)))
            self.partners[role] = stream, stream.makefile("r", encoding="ascii")

    def ask(self, role, line):
        stream, replies = self.partners[role]
        stream.sendall(line.encode() + b"\n")
        return replies.readline().rstrip()

    def schedule(self, flight, callsign, after, stand=12, **texts):
        sobt = (datetime.datetime.now(datetime.timezone.utc) + datetime.timedelta(minutes=after)).strftime(FORM)
        fields = {"flight": flight, "callsign": callsign, "type": "A320", "reg": "DAIBC", "dest": "EGLL", "sobt": sobt} | texts
        return json.dumps({"cmd": "schedule", **fields, "mttt": 45, "exit": 5, "exot": 10, "stand": stand})

    def play(self, lines, base):
        """Plays a day's lines, with its times moved so that BASE is now."""
        now = datetime.datetime.now(datetime.timezone.utc).replace(second=0, microsecond=0, tzinfo=None)
        moved = lambda it: '"' + (datetime.datetime.strptime(it[1], FORM) - base + now).strftime(FORM) + '"'
        for line in lines:
            _, _, role, command = line.split(" ", 3)
            self.ask(role, INSTANT.sub(moved, command))

    def end(self):
        for stream, replies in self.partners.values():
            replies.close()
            stream.close()
        status = self.server.wait(60)
        self.server.stdout.close()
        return status


class Page:
    """A page in a browser."""

    def __init__(self, port, size="1500,480", words=()):
        options = Options()
        for it in ("--headless=new", "--no-sandbox", "--disable-gpu", "--force-device-scale-factor=1", f"--window-size={size}", *words):
            options.add_argument(it)
        options.set_capability("goog:loggingPrefs", {"browser": "ALL"})
        self.driver = webdriver.Chrome(options=options, service=Service(DRIVER))
        self.driver.get(f"http://127.0.0.1:{port}/")

    def text(self, name):
        return self.driver.find_element(By.ID, name).text

    def rows(self):
        return self.driver.execute_script("return document.querySelectorAll('#rows tr').length")

    def shown(self):
        """How many flights are to be shown, as the page says."""
        said = re.search(r"(\d+) of \d+ flights", self.text("sums"))
        return int(said[1]) if said else 0

    def scroll_down(self):
        self.driver.execute_script("window.scrollTo(0, document.body.scrollHeight)")

    def wait(self, is_so, seconds=20):
        end = time.monotonic() + seconds
        while time.monotonic() < end:
            if is_so():
                return True
            time.sleep(0.05)
        return False

    def picture(self, folder, name):
        if folder:
            time.sleep(0.3)
            self.driver.save_screenshot(str(folder / f"{name}.png"))

    def faults(self):
        return [it["message"] for it in self.driver.get_log("browser") if it["level"] == "SEVERE" and "favicon" not in it["message"]]


def shown(board, page, folder):
    yield "an empty board", page.wait(lambda: page.text("none") == "No flight to show." and page.text("state") == "live")
    page.picture(folder, "empty")
    lines = (TOP / "examples" / "day.txt").read_text().splitlines()[:60]
    board.play(lines, datetime.datetime(2025, 2, 20, 8, 50))
    yield "the morning's flights", page.wait(lambda: page.rows() == 4 and "60 of 100000 entries" in page.text("sums"))
    yield "partners are told", page.wait(lambda: all(role in page.text("partners") for role in ROLES))
    yield "alerts in words", "SOBT and EOBT differ" in page.text("rows")
    page.picture(folder, "board")
    board.ask("APT", board.schedule(18446744073709551615, HOSTILE, 120))
    yield "a call sign is text", page.wait(lambda: HOSTILE in page.text("rows") and "18446744073709551615" in page.text("rows"))
    yield "and no element", not page.driver.find_elements(By.CSS_SELECTOR, "#rows td:first-child b b")
    board.ask("APT", board.schedule(666, HOSTILE, 120, **HOSTILE_TEXTS))
    yield "type, registration and destination are texts", page.wait(lambda: all(it in page.text("rows") for it in HOSTILE_TEXTS.values()))
    page.driver.find_element(By.CSS_SELECTOR, '#rows tr[data-flight="666"]').click()
    yield "and in the record", page.wait(lambda: all(it in page.text("detail") for it in HOSTILE_TEXTS.values()))
    yield "and none is an element", not page.driver.find_elements(By.CSS_SELECTOR, "q, u, s")
    page.driver.find_element(By.CSS_SELECTOR, "#one button").click()
    page.driver.find_element(By.ID, "text").send_keys("swr")
    yield "a filter", page.wait(lambda: page.rows() == 1)
    page.driver.find_element(By.ID, "text").clear()
    page.driver.find_element(By.ID, "text").send_keys(" ")
    page.wait(lambda: page.rows() > 1)
    page.driver.find_element(By.CSS_SELECTOR, "#rows tr").click()
    yield "a flight's day", page.wait(lambda: "milestones" in page.text("detail") and "EOBT" in page.text("day"))
    page.picture(folder, "day")
    page.driver.find_element(By.CSS_SELECTOR, "#one button").click()
    refused = board.ask("ATC", '{"cmd":"show","flight":999}')
    yield "a refusal in words", refused.startswith("no ") and page.wait(lambda: "the flight is not on the board" in page.text("refused"))


def many(board, page, folder):
    for flight in range(1, MANY + 1):
        board.ask("APT", board.schedule(10_000 + flight, f"AB{flight}", flight % 600, flight % 90))
    yield "4,000 flights", page.wait(lambda: page.shown() > MANY, 60)
    yield "a first part of them has rows", page.wait(lambda: page.rows() > 100) and page.rows() < 1000
    # (rows of the first part may still come below the end that was scrolled to: so it is scrolled to again)
    yield "and more where it is scrolled to", page.wait(lambda: page.scroll_down() or page.rows() >= 400)
    page.driver.execute_script("window.scrollTo(0, 0)")
    page.picture(folder, "many")
    times = []
    for flight in range(1, 101):
        page.driver.execute_script("window.came=0;const s=take;window.at=heard")
        began = time.monotonic()
        board.ask("NM", json.dumps({"cmd": "report", "flight": 10_000 + flight, "milestone": 1, "time": "2030-01-01T10:00:00Z",
                                    "callsign": f"AB{flight}", "type": "A320", "reg": "DAIBC", "dest": "EGLL"}))  # fmt: skip
        if page.wait(lambda: page.driver.execute_script("return heard>window.at"), 5):
            times.append(1000 * (time.monotonic() - began))
    times.sort()
    print(f"from a partner's line to the browser, at 4,000 flights: p50 {statistics.median(times):.1f} ms, p99 {times[98]:.1f} ms, with the asking")
    yield "each line comes within a second", len(times) == 100 and times[-1] < 1000
    page.driver.set_script_timeout(120)
    frame = page.driver.execute_async_script(
        "const done=arguments[0];let last=performance.now(),most=0,left=10;"
        "function f(t){most=Math.max(most,t-last);last=t;for(const id of rows.keys())stale.add(id);soon();--left?requestAnimationFrame(f):done(most)}"
        "requestAnimationFrame(f)"
    )
    print(f"the longest frame where all rows are made anew, as each minute: {frame:.0f} ms")


def other_pages(port, folder):
    for name, size, words in (("phone", "500,900", ()), ("dark", "1500,720", ("--blink-settings=preferredColorScheme=0",))):
        page = Page(port, size, words)
        yield name, page.wait(lambda it=page: it.rows() > 5)
        page.picture(folder, name)
        yield f"no fault on {name}", page.faults() == []
        page.driver.quit()


def main():
    words = argparse.ArgumentParser(description="Looks at the page in headless Chromium.")
    words.add_argument("--program", default=str(TOP / "crates" / "acdm" / "out" / "acdm"))
    words.add_argument("--pictures", type=pathlib.Path)
    asked = words.parse_args()
    if webdriver is None or not shutil.which("chromium") or not os.path.exists(DRIVER):
        print("left out: Debian's chromium, chromium-driver or python3-selenium is not here")
        return 0
    if asked.pictures:
        asked.pictures.mkdir(parents=True, exist_ok=True)
    port = free_port()
    board = Board(asked.program, port)
    page = Page(port)
    cases = failed = 0

    def hold(found):
        nonlocal cases, failed
        for name, is_well in found:
            cases += 1
            if not is_well:
                failed += 1
                print(f"FAILED: {name}", flush=True)

    hold(shown(board, page, asked.pictures))
    hold(many(board, page, asked.pictures))
    hold(other_pages(port, asked.pictures))
    hold([("no fault so far", page.faults() == []), ("the board ends with status 0", board.end() == 0)])
    hold([("a lost connection is told", page.wait(lambda: "lost" in page.text("state"))), ("and the board stays", page.shown() > MANY)])
    page.picture(asked.pictures, "lost")
    again = Board(asked.program, port)
    again.ask("APT", again.schedule(7, "DLH7", 60))
    hold([("the next board comes", page.wait(lambda: page.text("state") == "live" and page.rows() == 1, 30)), ("it ends with status 0", again.end() == 0)])
    page.driver.quit()
    print(f"{cases} cases, {failed} failed")
    return 1 if failed else 0


if __name__ == "__main__":
    sys.exit(main())
