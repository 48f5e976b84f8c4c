#!/usr/bin/python3
"""Measures from a person's click in one Chromium to the frame in which another one shows it.

    bench/desk/screen.py [--program PATH] [--clicks 60] [--flights 400]

A handler presses `+5` at a TOBT again and again; a controller's page shows the board. Both are on this machine and have
its clock. The time ends with the frame after the one that the row has changed in. Printed are the half, the 99th
hundredth and the greatest.
"""
import argparse
import statistics
import sys
import tempfile
from pathlib import Path

TOP = Path(__file__).resolve().parents[2]
sys.path.insert(0, str(TOP / "desk" / "tests"))

import harness  # noqa: E402
from browser import Browser  # noqa: E402
from harness import Board, Certificates, Running  # noqa: E402

FLIGHT = 10
WATCH = """
window.frames_of_row = [];
const cell = () => document.querySelector('tr[data-flight="FLIGHT"] td[data-name=TOBT]').firstChild.textContent;
let last = cell();
new MutationObserver(() => {
  if (cell() === last) return;
  last = cell();
  requestAnimationFrame(() => requestAnimationFrame(() => window.frames_of_row.push([last, performance.timeOrigin + performance.now()])));
}).observe(document.getElementById("rows"), {childList: true, subtree: true});
"""
ORDER = """
const order = document.getElementById("order");
order.value = "callsign";
order.dispatchEvent(new Event("input"));
"""
CLICK = """
const press = [...document.querySelectorAll('[data-key="9"] button')].find((it) => it.textContent === "+5");
const moment = performance.timeOrigin + performance.now();
press.click();
return moment;
"""


def main() -> int:
    words = argparse.ArgumentParser(description="Measures from a click to another screen.")
    words.add_argument("--program", type=Path, default=harness.PROGRAM)
    words.add_argument("--clicks", type=int, default=60)
    words.add_argument("--flights", type=int, default=400)
    asked = words.parse_args()
    harness.PROGRAM, times = asked.program, []
    with tempfile.TemporaryDirectory(prefix="acdm-screen-", ignore_cleanup_errors=True) as name:
        folder = Path(name)
        board = Board(folder)
        for number in range(FLIGHT, FLIGHT + asked.flights):
            board.flight(number)
        board.ask("GH", cmd="report", flight=FLIGHT, milestone=9, time=harness.instant(5))
        running = Running(folder, Certificates(folder), board)
        url = f"https://localhost:{running.listen}"
        try:
            with Browser(url) as handler, Browser(url) as controller:
                handler.sign_in("anna").open(FLIGHT)
                controller.sign_in("otto")
                # (by call sign the row stays where it is)
                controller.run(ORDER)
                assert controller.until(lambda: controller.row(FLIGHT))
                controller.run(WATCH.replace("FLIGHT", str(FLIGHT)))
                for number in range(asked.clicks):
                    begun = handler.run(CLICK)
                    seen = controller.until(lambda: controller.run("return window.frames_of_row.length") > number)
                    assert (
                        seen
                    ), f"click {number} was not shown: {handler.reply('9')}, {controller.row(FLIGHT)}, {controller.text('state')}"
                    times.append(controller.run("return window.frames_of_row.at(-1)[1]") - begun)
                    assert handler.until(lambda: "entered" in handler.reply("9"))
        finally:
            running.stop()
            board.kill()
    times.sort()
    late = times[min(len(times) - 1, len(times) * 99 // 100)]
    print(
        f"{asked.clicks} clicks, {asked.flights} flights: {statistics.median(times):.0f} ms (half), {late:.0f} ms (99 of 100), {times[-1]:.0f} ms (all)"
    )
    return 0


if __name__ == "__main__":
    sys.exit(main())
