"""Chromium without a window, and what the tests do in it."""
from __future__ import annotations

import os
import pathlib
import shutil
import unittest
from typing import Any

from selenium import webdriver
from selenium.webdriver.chrome.service import Service
from selenium.webdriver.common.action_chains import ActionChains
from selenium.webdriver.common.by import By
from selenium.webdriver.common.keys import Keys
from selenium.webdriver.remote.webelement import WebElement
from selenium.webdriver.support.select import Select
from selenium.webdriver.support.wait import WebDriverWait

FIRST = 1_767_225_600_000_000_000
SECOND = 1_000_000_000
# A scenario of ten lines; its ops stand in the lines 4 to 9.
TEXT = f"""{{"format":2,
 "first":[0,{FIRST}],
 "ops":[
  ["time"],
  ["start",1,0,"rel",1500,0,7],
  ["tick",{SECOND},{FIRST + SECOND}],
  ["read",1],
  ["tick",{2 * SECOND},{FIRST + 2 * SECOND}],
  ["turn",0]]}}
"""
FLAGS = ("--headless=new", "--disable-background-networking", "--disable-component-update", "--no-first-run", "--disable-dev-shm-usage")
# Seconds that something may take on a machine with other work.
PATIENCE = 30


def begun() -> webdriver.Chrome:
    """A browser."""
    options = webdriver.ChromeOptions()
    options.binary_location = shutil.which("chromium") or ""
    for flag in (*FLAGS, *["--no-sandbox"] * (os.geteuid() == 0)):
        options.add_argument(flag)
    options.set_capability("goog:loggingPrefs", {"browser": "ALL"})
    return webdriver.Chrome(service=Service(shutil.which("chromedriver") or ""), options=options)


class PageTest(unittest.TestCase):
    """A test of a page that was just opened, 1280 pixels wide and light."""

    browser: webdriver.Chrome
    address: str

    @classmethod
    def setUpClass(cls) -> None:
        cls.address = pathlib.Path(os.environ["PAGE"]).resolve().as_uri()
        cls.browser = begun()
        cls.addClassCleanup(cls.browser.quit)

    def setUp(self) -> None:
        self.see(1280, 860)
        self.visit(self.address)

    def tearDown(self) -> None:
        """No script failed, and nothing was kept from the page by its own policy."""
        self.assertEqual([it["message"] for it in self.browser.get_log("browser") if it["level"] != "INFO"], [])

    def see(self, width: int, height: int, scheme: str = "light", scale: float = 1) -> None:
        """The size of the window, and whether the machine's colours are light or dark."""
        size = {"width": width, "height": height, "deviceScaleFactor": scale, "mobile": False}
        self.browser.execute_cdp_cmd("Emulation.setDeviceMetricsOverride", size)
        features = [{"name": "prefers-color-scheme", "value": scheme}]
        self.browser.execute_cdp_cmd("Emulation.setEmulatedMedia", {"features": features})

    def visit(self, address: str) -> None:
        """A page, as if it were opened in a new tab."""
        self.browser.get("about:blank")
        self.browser.get(address)
        self.wait(lambda: self.run_script("return document.body.dataset.ready && document.querySelector('section:not([hidden])').ariaBusy === 'false'"))

    def wait(self, is_so: Any) -> Any:
        """Waits until something is so."""
        return WebDriverWait(self.browser, PATIENCE, 0.02).until(lambda _: is_so())

    def run_script(self, code: str, *words: Any) -> Any:
        """What a script gives."""
        return self.browser.execute_script(code, *words)

    def find(self, selector: str) -> WebElement:
        """What is in the tab in sight."""
        return self.browser.find_element(By.CSS_SELECTOR, f"section:not([hidden]) {selector}")

    @property
    def area(self) -> WebElement:
        """The text that is written."""
        return self.find("textarea")

    @property
    def text(self) -> str:
        """What is written."""
        return str(self.area.get_property("value"))

    def answered(self, act: Any) -> None:
        """Does something to the text, and waits for the answer to all that is there then."""
        act()
        self.wait(lambda: self.run_script("return document.querySelector('section:not([hidden])').ariaBusy") == "false")

    def press(self, *keys: str) -> None:
        """Keys for what has the focus."""
        ActionChains(self.browser).send_keys(*keys).perform()

    def chord(self, modifier: str, key: str) -> None:
        """A key with another one held."""
        ActionChains(self.browser).key_down(modifier).send_keys(key).key_up(modifier).perform()

    def write(self, text: str) -> None:
        """Types a text in the place of all that is there, and waits for the answer to it."""
        self.area.click()
        self.chord(Keys.CONTROL, "a")
        self.answered(lambda: self.press(text))

    def paste(self, text: str) -> None:
        """Puts a text in the place of all that is there."""
        code = "const [area, text] = arguments; area.focus(); area.select(); area.setRangeText(text); area.dispatchEvent(new InputEvent('input'));"
        self.answered(lambda: self.run_script(code, self.area, text))

    def choose(self, selector: str, name: str) -> None:
        """An item of a list, by what it begins with."""
        chosen = Select(self.find(selector))
        number = next(at for at, it in enumerate(chosen.options) if it.text == name or it.text.startswith(f"{name}:"))
        self.answered(lambda: chosen.select_by_index(number))

    def tab(self, name: str) -> None:
        """Shows a tab."""
        self.answered(self.browser.find_element(By.ID, f"tab-{name}").click)

    @property
    def said(self) -> str:
        """What is said below the text."""
        return self.find(".said").text

    @property
    def lines(self) -> list[str]:
        """The transcript, as far as it is in sight."""
        return list(self.run_script("return [...document.querySelectorAll('#transcript [data-row]')].map(it => it.textContent)"))

    def picture(self, code: str, *words: Any) -> Any:
        """What a script gives that has the picture as `svg`."""
        before = "const svg = document.querySelector('section:not([hidden]) .picture').shadowRoot.querySelector('svg');"
        return self.run_script(before + code, *words)

    def pointed(self, x: float, y: float) -> tuple[int, int]:
        """Where a place of the picture is from the middle of it, for the pointer."""
        code = "const box = svg.getBoundingClientRect(), {width, height} = svg.viewBox.baseVal;"
        code += "return [(arguments[0] / width - 0.5) * box.width, (arguments[1] / height - 0.5) * box.height]"
        across, down = self.picture(code, x, y)
        return round(across), round(down)

    @property
    def here(self) -> tuple[int, int, list[str]]:
        """What is marked as chosen: the first line of the text, the line of the transcript, and the ops in the picture."""
        code = "const row = document.querySelector('section:not([hidden]) .marks .here');"
        code += "return row ? Math.round((row.getBoundingClientRect().top - row.parentElement.getBoundingClientRect().top"
        code += " + document.querySelector('section:not([hidden]) textarea').scrollTop) / 20) + 1 : 0"
        line = int(self.run_script(code))
        row = self.run_script("return document.querySelector('#transcript .here')?.dataset.row ?? -1")
        ops = self.picture("return [...new Set([...svg.querySelectorAll('.chosen')].map(it => it.dataset.op))]")
        return line, int(row), ops
