"""Pictures of both tabs, as PNG, for the documents.

    python3 -m tests.page.shots FOLDER
"""
from __future__ import annotations

import pathlib
import sys

from selenium.webdriver.common.by import By
from selenium.webdriver.common.keys import Keys

from .chromium import PageTest

NAMES = ("playground_scenario.png", "playground_history.png")


class Shots(PageTest):
    """A page as somebody leaves it who has tried it."""

    def take(self, folder: pathlib.Path) -> None:
        """Both tabs."""
        self.see(1280, 820)
        if "frozen_clock" not in self.find(".shelf option:checked").text:
            self.choose(".shelf", "frozen_clock")
        self.area.click()
        self.chord(Keys.CONTROL, Keys.HOME)
        self.press(*[Keys.ARROW_DOWN] * 6, *[Keys.ARROW_RIGHT] * 10)
        self.wait(lambda: self.here[1] == 2)
        self.browser.save_screenshot(str(folder / NAMES[0]))
        self.tab("history")
        self.choose(".shelf", "cancelled_twice")
        self.area.click()
        self.chord(Keys.CONTROL, Keys.HOME)
        self.press(*[Keys.ARROW_DOWN] * 8)
        self.wait(lambda: self.find(".help").find_element(By.TAG_NAME, "code").text.startswith("cancel"))
        self.browser.save_screenshot(str(folder / NAMES[1]))


def main() -> None:
    """Takes the pictures."""
    Shots.setUpClass()
    shots = Shots("take")
    try:
        shots.setUp()
        shots.take(pathlib.Path(sys.argv[1]))
    finally:
        Shots.doClassCleanups()


if __name__ == "__main__":
    main()
