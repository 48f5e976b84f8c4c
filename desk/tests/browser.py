"""Chromium without a screen, for the tests of the desk's pages."""
import time
from collections.abc import Callable
from typing import Any

from harness import LIMIT, PASSWORD
from selenium import webdriver
from selenium.webdriver.chrome.options import Options
from selenium.webdriver.chrome.service import Service
from selenium.webdriver.common.by import By

WORDS = ("--headless=new", "--no-sandbox", "--disable-gpu", "--hide-scrollbars", "--force-device-scale-factor=1")


class Browser:
    """A window of Chromium."""

    def __init__(self, origin: str, width: int = 1280, height: int = 800, *words: str) -> None:
        options = Options()
        for word in (*WORDS, f"--window-size={width},{height}", *words):
            options.add_argument(word)
        options.accept_insecure_certs = True
        options.set_capability("goog:loggingPrefs", {"browser": "ALL"})
        self.driver = webdriver.Chrome(options=options, service=Service("/usr/bin/chromedriver"))
        self.origin = origin
        self.resize(width, height)

    def __enter__(self) -> "Browser":
        return self

    def __exit__(self, *_: object) -> None:
        self.driver.quit()

    def resize(self, width: int, height: int) -> None:
        """The width of what is seen, which a window can't have below 500: so the page is told that it is a phone."""
        metrics = {"width": width, "height": height, "deviceScaleFactor": 1, "mobile": width < 600}
        self.driver.execute_cdp_cmd("Emulation.setDeviceMetricsOverride", metrics)

    def sign_in(self, name: str) -> "Browser":
        """Signs in by the page."""
        self.driver.get(f"{self.origin}/")
        self.write("name", name)
        self.write("password", PASSWORD)
        self.find("#form button").click()
        assert self.until(lambda: self.text("state") == "live"), self.driver.page_source[:500]
        return self

    def find(self, selector: str) -> Any:
        return self.driver.find_element(By.CSS_SELECTOR, selector)

    def write(self, name: str, text: str) -> None:
        node = self.driver.find_element(By.ID, name)
        node.clear()
        node.send_keys(text)

    def text(self, name: str) -> str:
        found = self.driver.find_elements(By.ID, name)
        return str(found[0].text) if found else ""

    def run(self, script: str, *words: Any) -> Any:
        return self.driver.execute_script(script, *words)

    def row(self, flight: int) -> str:
        """What stands in the row of a flight."""
        return str(
            self.run(
                f"const row = document.querySelector('tr[data-flight=\"{flight}\"]'); return row ? row.innerText : ''"
            )
        )

    def open(self, flight: int) -> None:
        self.run(f"document.querySelector('tr[data-flight=\"{flight}\"]').click()")
        assert self.until(lambda: self.text("title").endswith(f"· {flight}"))

    def reply(self, key: str) -> str:
        return str(
            self.run(
                f"const box = document.querySelector('[data-key=\"{key}\"] .reply'); return box ? box.innerText : ''"
            )
        )

    def press(self, key: str, text: str) -> None:
        """Presses a button at a field."""
        self.run(
            '[...document.querySelectorAll(`[data-key="${arguments[0]}"] button`)].find((it) => it.textContent === arguments[1]).click()',
            key,
            text,
        )

    def until(self, holds: Callable[[], Any], seconds: float = LIMIT) -> bool:
        end = time.monotonic() + seconds
        while not holds():
            if time.monotonic() > end:
                return False
            time.sleep(0.02)
        return True

    def faults(self) -> list[str]:
        """What Chromium complains of."""
        return [str(it["message"]) for it in self.driver.get_log("browser") if it["level"] == "SEVERE"]

    def cut(self) -> list[str]:
        """What is cut off: texts wider than their place, and a page wider than its window."""
        return list(
            self.run(
                """
                const found = [];
                if (document.documentElement.scrollWidth > innerWidth + 1) found.push("the page");
                const dialog = document.querySelector("dialog[open]");
                const root = dialog || document;
                if (dialog && dialog.scrollWidth > dialog.clientWidth + 1) found.push("the dialog");
                for (const node of root.querySelectorAll("td, button, label, span, h2, li, input, th")) {
                  const box = node.getBoundingClientRect();
                  if (!box.width) continue;
                  if (box.right > innerWidth + 1 || box.left < -1) found.push(node.tagName + " " + node.innerText);
                  if (node.tagName !== "INPUT" && node.scrollWidth > node.clientWidth + 1 && getComputedStyle(node).overflow === "hidden")
                    found.push(node.tagName + " " + node.innerText);
                }
                return found.slice(0, 10);
                """
            )
        )
