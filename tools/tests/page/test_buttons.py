"""The controls of the tab of scenarios, in a browser."""
from __future__ import annotations

import json
import pathlib

from selenium.webdriver.common.action_chains import ActionChains
from selenium.webdriver.common.by import By
from selenium.webdriver.common.keys import Keys

from playing import TOP
from playing.shelf import shelf

from .chromium import FIRST, SECOND, TEXT, PageTest


class Buttons(PageTest):
    """What one tries first. The clocks run evenly in the text, so a time of the axis is found by its share of it."""

    def put_point(self, time: str) -> None:
        """The point, as it is typed."""
        self.type_into(".at", time + Keys.TAB)

    def type_into(self, selector: str, keys: str) -> None:
        """Types into a field, in the place of what is there."""
        self.find(selector).click()
        self.chord(Keys.CONTROL, "a")
        self.press(Keys.DELETE, keys)

    def ops(self) -> list[list[object]]:
        """The ops that are written."""
        return list(json.loads(self.text)["ops"])

    def test_settings(self) -> None:
        self.paste(TEXT)
        self.choose(".mode", "multi")
        self.assertEqual(json.loads(self.text)["mode"], "multi")
        self.assertTrue(self.text.startswith('{"format":2,\n "mode":"multi",\n "first"'), self.text)
        self.answered(self.find(".correction").click)
        self.assertIs(json.loads(self.text)["correction"], False)
        self.assertIn("multi-time warp mode, without time correction", self.picture("return svg.textContent"))
        self.answered(self.find(".correction").click)
        self.assertIs(json.loads(self.text)["correction"], True)
        self.area.click()
        self.answered(lambda: self.chord(Keys.CONTROL, "z"))
        self.assertIs(json.loads(self.text)["correction"], False)
        self.assertFalse(self.find(".correction").is_selected())

    def test_format(self) -> None:
        self.paste('{"format":1,"first":[0,0],"ops":[["cancel_async",1,0],["read_async", 1, 0 ]]}')
        self.choose(".version", "2")
        self.assertEqual([op[3:] for op in self.ops()], [[True], [True]])
        self.assertTrue(self.said.startswith("ran: 2 ops"), self.said)
        self.choose(".version", "1")
        self.assertEqual([len(op) for op in self.ops()], [3, 3])
        self.answered(self.find(".format").click)
        self.assertEqual(self.text, '{"format":1,\n "first":[0,0],\n "ops":[\n  ["cancel_async",1,0],\n  ["read_async",1,0]]}\n')

    def test_tidied_texts_stay_the_same_scenario(self) -> None:
        """The examples are written so; and numbers of 64 bits stay as they are."""
        for row in shelf()["scenario"]:
            self.paste(json.dumps(json.loads(row["text"]), indent=1))
            self.answered(self.find(".format").click)
            self.assertEqual(self.text, row["text"], row["name"])
        self.paste('{"format":1,"start":-288230376151000000, "first":[4611686018427387903, 2305843009213693951],"ops":[]}')
        self.answered(self.find(".format").click)
        self.assertIn("[4611686018427387903,2305843009213693951]", self.text)
        self.assertIn("-288230376151000000", self.text)

    def test_what_is_no_time(self) -> None:
        """It is told, and the point stays."""
        self.paste(TEXT)
        self.put_point("1.25")
        for time in ("x", "-1", "", "1.0000000001"):
            self.put_point(time)
            self.assertEqual(self.find(".at").get_property("value"), "1.25")
            self.assertIn("The point is a time", self.browser.find_element(By.ID, "told").text)
        self.type_into(".by", "x" + Keys.ENTER)
        self.type_into(".of", "-5" + Keys.ENTER)
        self.assertEqual(self.text, TEXT)

    def test_leap(self) -> None:
        """From the point on OS system time is ten seconds less."""
        self.paste(TEXT)
        self.put_point("1.5")
        self.answered(self.find(".leap").click)
        ticks = [op for op in self.ops() if op[0] == "tick"]
        leapt = [(1.0, 0), (1.5, -10), (2.0, -10)]
        self.assertEqual(ticks, [["tick", int(at * SECOND), FIRST + int(at * SECOND) + by * SECOND] for at, by in leapt])
        self.assertIn("OS system time leaps \u221210 s", self.picture("return svg.textContent"))
        self.assertEqual(self.here[1], 4)
        self.put_point("7")
        self.answered(lambda: self.type_into(".by", "0.25" + Keys.ENTER))
        self.assertEqual(self.ops()[-1], ["tick", 7 * SECOND, FIRST + 7 * SECOND - 10 * SECOND + SECOND // 4])

    def test_timer_by_buttons(self) -> None:
        """It is started at the point, and at its deadline there are a reading and a turn."""
        self.paste(TEXT)
        self.put_point("1.25")
        self.answered(lambda: self.type_into(".of", "250" + Keys.ENTER))
        at = [["tick", int(it * SECOND), FIRST + int(it * SECOND)] for it in (1.25, 1.5)]
        self.assertEqual(self.ops()[4:8], [at[0], ["start", 2, 0, "rel", 250, 0, 2], at[1], ["turn", 0]])
        self.assertIn("turn 0 1500 2 2 0", self.lines)
        self.put_point("1")
        self.answered(lambda: self.type_into(".of", "500" + Keys.ENTER))
        self.assertEqual([op[0] for op in self.ops()], "time start tick read start tick start tick turn turn tick turn".split())

    def test_timer_by_a_drag(self) -> None:
        self.paste(TEXT)
        knots = self.picture("return svg.querySelector('.point') && [...svg.querySelectorAll('line')].length")
        self.assertTrue(knots)
        left, right = self.picture("return ['2', '4'].map(op => svg.querySelector(`[data-op=\"${op}\"]`).getBBox().x)")
        band = self.picture("return svg.querySelector('[data-op=\"3\"]').getBBox().x") - left
        start, end = left + 1.6 * band + (right - left - 1.6 * band) * 0.25, left + 1.6 * band + (right - left - 1.6 * band) * 0.75
        picture = self.picture("return svg")
        chain = ActionChains(self.browser).move_to_element_with_offset(picture, *self.pointed(start, 120)).click_and_hold()
        chain.move_by_offset(10, 0).move_to_element_with_offset(picture, *self.pointed(end, 120)).perform()
        self.assertRegex(self.picture("return svg.querySelector('.length').textContent"), r"^\d+ ms$")
        self.answered(ActionChains(self.browser).release().perform)
        tick, start_op, later, turn = self.ops()[4:8]
        self.assertEqual((tick[0], start_op[:4], later[0], turn), ("tick", ["start", 2, 0, "rel"], "tick", ["turn", 0]))
        self.assertEqual(int(str(later[1])) - int(str(tick[1])), int(str(start_op[4])) * 1_000_000)
        self.assertAlmostEqual(int(str(start_op[4])), 500, delta=40)
        self.assertAlmostEqual(int(str(tick[1])) / SECOND, 1.25, delta=0.04)

    def test_a_drag_is_dropped_by_escape(self) -> None:
        self.paste(TEXT)
        picture = self.picture("return svg")
        ActionChains(self.browser).move_to_element_with_offset(picture, *self.pointed(200, 120)).click_and_hold().move_by_offset(80, 0).perform()
        self.press(Keys.ESCAPE)
        ActionChains(self.browser).release().perform()
        self.assertEqual(self.text, TEXT)
        self.assertEqual(self.picture("return svg.querySelectorAll('.drag').length"), 0)

    def test_examples(self) -> None:
        """Each scenario of the guide by its name, with the transcript that stands beside it."""
        for row in shelf()["scenario"]:
            if row["text"] != self.text:
                self.choose(".shelf", row["name"])
            said = pathlib.Path(TOP / "examples/ertime" / f"{row['name']}.json.stdout").read_text()
            seen = self.lines
            self.assertEqual(seen, said.splitlines()[: len(seen)], row["name"])
            self.assertTrue(self.said.startswith("ran: "), row["name"])
