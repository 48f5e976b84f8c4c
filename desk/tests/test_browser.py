"""The desk's pages in real Chromium, at the widths of phones, tablets, desks and walls."""
import os
import shutil
import time
from collections.abc import Iterator
from datetime import datetime, timedelta, timezone
from pathlib import Path

import pytest
from harness import Running, instant, until

pytest.importorskip("selenium")
if not shutil.which("chromedriver"):
    pytest.skip("chromedriver is not installed", allow_module_level=True)
from browser import Browser  # noqa: E402  pylint: disable=wrong-import-position

PICTURES = os.environ.get("DESK_PICTURES", "")
WIDTHS = {360: 760, 768: 1024, 1280: 800, 1920: 1080, 3840: 2160}


def origin(running: Running) -> str:
    return f"https://localhost:{running.listen}"


def picture(browser: Browser, name: str) -> None:
    """Keeps a picture, where a folder for them is named."""
    if PICTURES:
        time.sleep(0.3)
        browser.driver.save_screenshot(str(Path(PICTURES) / f"{name}.png"))


def clock_in(minutes: int) -> str:
    return (datetime.now(timezone.utc) + timedelta(minutes=minutes)).strftime("%H:%M")


@pytest.fixture(scope="module", name="busy")
def _busy(running: Running) -> Running:
    """A board as it looks in the morning: twenty flights in all states."""
    board = running.board
    for number in range(100, 120):
        board.flight(
            number, f"{('DLH', 'SWR', 'BAW', 'EWG')[number % 4]}{number}", number % 50, 10 + 6 * (number - 100)
        )
        if number < 112:
            board.ask("ATC", cmd="report", flight=number, milestone=6, time=instant(-20))
            board.ask("APT", cmd="report", flight=number, milestone=7, time=instant(-14))
        if number < 110:
            board.ask("GH", cmd="report", flight=number, milestone=9, time=instant(8 + 6 * (number - 100)))
        if number < 106:
            board.ask("ATC", cmd="report", flight=number, milestone=10, time=instant(12 + 6 * (number - 100)))
            board.ask("GH", cmd="report", flight=number, milestone=11, time=instant(-3))
    board.ask("APT", cmd="tick")
    running.in_step()
    return running


@pytest.fixture(scope="module", name="browser")
def _browser(busy: Running) -> Iterator[Browser]:
    with Browser(origin(busy)) as browser:
        browser.sign_in("anna")
        yield browser


def test_nothing_is_cut_at_any_width(busy: Running, browser: Browser) -> None:
    for width, height in WIDTHS.items():
        browser.resize(width, height)
        assert browser.until(lambda: "DLH" in browser.text("rows"))
        time.sleep(0.2)
        assert browser.cut() == [], width
        picture(browser, f"list-{width}")
        browser.open(104)
        assert browser.until(lambda: browser.text("history") != "")
        assert browser.cut() == [], f"dialog at {width}"
        picture(browser, f"flight-{width}")
        browser.run("document.getElementById('one').close()")
    browser.resize(1280, 800)
    assert browser.faults() == [] and busy


def test_a_target_is_entered_and_the_reply_stands_at_the_field(busy: Running, browser: Browser) -> None:
    browser.open(115)
    browser.find('[data-key="9"] input').send_keys(clock_in(50).replace(":", "") + "\n")
    assert browser.until(lambda: "entered" in browser.reply("9")), browser.reply("9")
    assert browser.until(lambda: clock_in(50) in browser.row(115) or clock_in(49) in browser.row(115))
    browser.press("9", "+5")
    assert browser.until(lambda: "TOBT" in browser.reply("9") and "entered" in browser.reply("9"))
    browser.press("12", "Now")
    assert browser.until(lambda: "ready" in browser.reply("12"))
    browser.press("8", "Now")
    assert browser.until(lambda: "refused: a milestone that this one needs was not reached" in browser.reply("8"))
    assert browser.until(lambda: "anna: ground handling, refused" in browser.text("history"))
    picture(browser, "entered")
    browser.press("9", "Take back")
    assert browser.until(lambda: "taken back entered" in browser.reply("9"))
    browser.run("document.getElementById('one').close()")
    assert browser.faults() == [] and busy


def test_a_change_meanwhile_is_shown_and_asked_about(busy: Running, browser: Browser) -> None:
    browser.open(116)
    busy.board.ask("AO", cmd="report", flight=116, milestone=9, time=instant(70))
    assert browser.until(lambda: "Just now, by AO: TOBT" in browser.text("news"))
    count = busy.board.count()
    browser.find('[data-key="9"] input').send_keys(clock_in(45) + "\n")
    assert browser.until(lambda: "has changed since you looked" in browser.reply("9"))
    assert "Send all the same" in browser.reply("9") and busy.board.count() == count
    picture(browser, "asked")
    browser.press("9", "Send all the same")
    assert browser.until(lambda: "entered" in browser.reply("9"))
    assert busy.board.count() == count + 1
    browser.run("document.getElementById('one').close()")


def test_another_browser_sees_it_at_once(busy: Running, browser: Browser) -> None:
    with Browser(origin(busy), 1280, 800) as other:
        other.sign_in("otto")
        assert other.find("#order").get_property("value") == "tsat"
        browser.open(117)
        browser.press("9", "Now")
        assert browser.until(lambda: "entered" in browser.reply("9"))
        assert other.until(lambda: clock_in(0) in other.row(117) or clock_in(-1) in other.row(117))
        browser.run("document.getElementById('one').close()")
        other.open(101)
        picture(other, "tower")
        assert [node.get_attribute("data-key") for node in other.driver.find_elements("css selector", ".field")][
            :3
        ] == [
            "10",
            "13",
            "14",
        ]


def test_the_keyboard_is_enough(busy: Running, browser: Browser) -> None:
    keys = browser.find("body")
    keys.send_keys("/")
    browser.driver.switch_to.active_element.send_keys("swr101")
    assert browser.until(lambda: browser.text("rows").count("SWR101") == 1 and "DLH" not in browser.text("rows"))
    browser.driver.switch_to.active_element.send_keys("\ue015")
    browser.driver.switch_to.active_element.send_keys("\n")
    assert browser.until(lambda: browser.text("title") == "SWR101 · 101")
    assert browser.driver.switch_to.active_element.get_attribute("aria-label") == "TOBT, UTC"
    browser.driver.switch_to.active_element.send_keys(clock_in(31) + "\n")
    assert browser.until(lambda: "entered" in browser.reply("9"))
    browser.driver.switch_to.active_element.send_keys("\ue00c")
    assert browser.until(lambda: not browser.run("return document.getElementById('one').open"))
    browser.run(
        "document.getElementById('text').value = ''; document.getElementById('text').dispatchEvent(new Event('input'))"
    )
    assert busy


def test_the_airport_schedules_a_flight(busy: Running) -> None:
    with Browser(origin(busy), 768, 1000) as browser:
        browser.sign_in("paula")
        browser.find("#new").click()
        for name, text in (
            ("flight", "900"),
            ("callsign", "aua900"),
            ("type", "a320"),
            ("reg", "oelba"),
            ("dest", "loww"),
            ("time", clock_in(80)),
            ("stand", "12"),
        ):
            browser.find(f"#plan-form [name={name}]").send_keys(text)
        picture(browser, "schedule")
        assert browser.cut() == []
        browser.find("#plan-form > button").click()
        assert browser.until(lambda: "entered" in browser.text("plan-reply")), browser.text("plan-reply")
        assert browser.until(lambda: "AUA900" in browser.row(900))


def test_bounds_and_a_board_that_is_away_are_shown(busy: Running) -> None:
    with Browser(origin(busy), 360, 760) as browser:
        picture(browser, "sign-in-before")
        browser.sign_in("lena")
        assert "BAW" not in browser.text("rows") and "DLH" in browser.text("rows")
        browser.open(100)
        busy.board.kill()
        try:
            assert browser.until(lambda: browser.text("state") == "the board is away")
            browser.press("9", "+5")
            assert browser.until(lambda: browser.reply("9") == "the board is away, nothing was sent")
            picture(browser, "away")
        finally:
            busy.board.start()
        assert until(busy.is_ready)
        assert browser.until(lambda: browser.text("state") == "live")


def test_the_page_that_asks_who_you_are(busy: Running) -> None:
    with Browser(origin(busy), 360, 760) as browser:
        for width in (360, 1280):
            browser.resize(width, 760)
            browser.driver.get(f"{origin(busy)}/sign-in")
            assert browser.cut() == []
            picture(browser, f"sign-in-{width}")
        browser.write("name", "anna")
        browser.write("password", "wrong pass-word")
        browser.find("#form button").click()
        assert browser.until(lambda: "not right" in browser.text("reply"))


def test_four_thousand_flights_are_shown_soon(busy: Running) -> None:
    texts = {"type": "A320", "reg": "DAIBC", "dest": "EGLL", "mttt": 40, "exit": 5, "exot": 10}
    board = busy.board
    for number in range(10000, 13900):
        board.ask(
            "APT", cmd="schedule", flight=number, callsign=f"DLH{number}", sobt=instant(number % 900), stand=1, **texts
        )
    busy.in_step()
    with Browser(origin(busy)) as browser:
        browser.sign_in("otto")
        begun = time.monotonic()
        browser.driver.refresh()
        assert browser.until(lambda: " of 39" in browser.text("sums"))
        # (where more than its cores are busy, a machine takes longer)
        share = max(1.0, os.getloadavg()[0] / (os.cpu_count() or 1))
        assert time.monotonic() - begun < 8 * share
        browser.write("text", "dlh13899")
        assert browser.until(lambda: browser.row(13899) != "")
        assert browser.run("return document.querySelectorAll('#rows tr').length") == 1
        picture(browser, "many")
