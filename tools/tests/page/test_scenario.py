"""The tab of scenarios, in a browser."""
from __future__ import annotations

import json

from selenium.webdriver.common.action_chains import ActionChains
from selenium.webdriver.common.by import By
from selenium.webdriver.common.keys import Keys

from .chromium import FIRST, SECOND, TEXT, PageTest

# The pause after which the page has a text judged, in milliseconds.
PAUSE = 200
LINES = ["time 0", "start ok", "tick 1000000000", "read 500", "tick 2000000000", "turn 0 2000 1 1 0", "end 2000000000"]


class Writing(PageTest):
    """What is written, and what comes of it."""

    def test_a_typed_scenario_runs_and_its_picture_changes(self) -> None:
        self.write('{"format":1,"first":[0,0],"ops":[["time"]]}')
        self.assertEqual(self.lines, ["time 0", "end 0"])
        self.assertEqual(self.picture("return svg.querySelectorAll('[data-op]').length"), 2)
        before = self.picture("return svg.outerHTML")
        self.press(Keys.ARROW_LEFT, Keys.ARROW_LEFT)
        self.answered(lambda: self.press(f',["tick",{SECOND},0]'))
        self.assertEqual(self.lines, ["time 0", "tick 1000000000", "end 1000000000"])
        self.assertNotEqual(self.picture("return svg.outerHTML"), before)
        self.assertIn("tick 1 s", self.picture("return svg.textContent"))

    def test_a_fault_is_marked_where_the_program_says(self) -> None:
        """The column counts bytes: what stands before it takes two and four of them a letter."""
        self.write('{"format":1,"first":[0,0],\n"ops":[["é𝄞", "x"], ["time"]]}')
        self.assertEqual(self.said, 'line 2, column 9: op 1: there is no op "\\xc3\\xa9\\xf0\\x9d\\x84\\x9e"')
        self.paste('{"format":1,"first":[0,0],\n"é𝄞":0, "ops":[["tikc"]]}')
        self.assertTrue(self.said.startswith("line 2, column 1: there is no field"), self.said)
        self.paste('{"format":1, "mode":"é𝄞",\n"first":[0,0],"ops":[["time"],["tikc"]]}')
        self.assertIn("line 1, column 21", self.said)
        self.assertEqual(self.find(".marks mark").get_property("textContent"), '"é𝄞"')
        self.paste('{"format":1,\n"mode":"é𝄞" xyz}')
        self.assertEqual(self.said, "line 2, column 17: expected ',' or '}' here")
        self.assertEqual(self.find(".marks mark").get_property("textContent"), "xyz")
        self.paste('{"format":1,"first":[0,0],\n"ops":[["time"],  ["tikc",1]]}')
        self.assertEqual(self.said, 'line 2, column 20: op 2: there is no op "tikc"; did you mean "tick"?')
        self.assertEqual(self.find(".marks mark").get_property("textContent"), '"tikc"')
        self.assertEqual(self.find(".gutter .bad").text, "2")
        self.assertEqual(self.area.get_attribute("aria-invalid"), "true")
        self.assertTrue(self.find(".stale").is_displayed())
        self.browser.find_element(By.ID, "copy").send_keys(Keys.F8)
        self.assertEqual(self.run_script("return [document.activeElement.tagName, arguments[0].selectionStart]", self.area), ["TEXTAREA", 46])
        self.paste('{"format":1,"first":[0,0],"ops":[]}')
        self.assertEqual(self.area.get_attribute("aria-invalid"), "false")
        self.assertFalse(self.find(".stale").is_displayed())

    def test_a_mark_stands_behind_its_text(self) -> None:
        """The marked word begins where the same word does in the text."""
        self.paste('{"format":1,"first":[0,0],\n"ops":[["tikc"]]}')
        code = "const mark = document.querySelector('#scenario .marks mark').getBoundingClientRect(), area = arguments[0].getBoundingClientRect();"
        code += "const probe = document.createElement('span'); probe.textContent = '0'.repeat(8); probe.style.cssText = `position: absolute; font: ${getComputedStyle(arguments[0]).font}`;"
        code += "document.body.append(probe); const wide = probe.getBoundingClientRect().width; probe.remove();"
        code += "return [mark.left - area.left - 8 - wide, mark.top - area.top - 28]"
        across, down = self.run_script(code, self.area)
        self.assertLess(abs(across), 1)
        self.assertLess(abs(down), 8)

    def test_choices_and_descriptions(self) -> None:
        self.write('{"format":2,"first":[0,0],"ops":[\n')
        self.press('  ["can')
        self.wait(lambda: self.find(".choices").is_displayed())
        names = [it.text.split()[0] for it in self.find(".choices").find_elements(By.TAG_NAME, "li")]
        self.assertEqual(names, ["cancel", "cancel_async", "cancel_quiet"])
        self.press('"')
        self.wait(lambda: not self.find(".choices").is_displayed())
        self.press(Keys.BACKSPACE)
        self.chord(Keys.CONTROL, Keys.SPACE)
        self.press(Keys.ARROW_DOWN, Keys.ARROW_UP, Keys.ARROW_UP, Keys.ENTER)
        self.assertTrue(self.text.endswith('["cancel_quiet",3]'), self.text)
        self.assertFalse(self.find(".choices").is_displayed())
        self.press(Keys.ARROW_LEFT)
        self.wait(lambda: self.find(".help b").text == "label")
        self.assertIn("The name of a timer", self.find(".help").text)
        self.press(Keys.END, "],")
        self.chord(Keys.CONTROL, Keys.HOME)
        self.press(Keys.ARROW_RIGHT, '"cor')
        self.wait(lambda: self.find(".choices").is_displayed())
        self.press(Keys.TAB, "f")
        self.wait(lambda: "Whether time correction is on" in self.find(".help").text)
        self.press(Keys.TAB, ",")
        self.assertTrue(self.text.startswith('{"correction":false,'), self.text)
        self.chord(Keys.CONTROL, Keys.SPACE)
        self.wait(lambda: self.find(".choices").is_displayed())
        self.press(Keys.ESCAPE)
        self.assertFalse(self.find(".choices").is_displayed())


class Both(PageTest):
    """An op in the text, in the picture and in the transcript."""

    def test_chosen_in_one_is_marked_in_all(self) -> None:
        self.paste(TEXT)
        self.assertEqual(self.lines, LINES)
        self.run_script("document.querySelector('#transcript [data-row=\"3\"]').click()")
        self.assertEqual(self.here, (7, 3, ["3"]))
        self.area.click()
        self.chord(Keys.CONTROL, Keys.HOME)
        self.press(*[Keys.ARROW_DOWN] * 4)
        self.wait(lambda: self.here == (5, 1, ["1"]))
        for op in ("5", "0", "4"):
            tick = f"svg.querySelector('[data-op=\"{op}\"]')"
            x, y = self.picture(f"const box = {tick}.getBBox(); return [box.x, box.y + 4]")
            picture = self.picture("return svg")
            ActionChains(self.browser).move_to_element_with_offset(picture, *self.pointed(x, y)).click().perform()
            self.assertEqual(self.here, (4 + int(op), int(op), [op]))

    def test_transcript_by_keys(self) -> None:
        self.paste(TEXT)
        self.find(".lines").click()
        self.press(Keys.HOME, Keys.ARROW_DOWN, Keys.ARROW_DOWN, Keys.ARROW_UP)
        self.assertEqual(self.here, (5, 1, ["1"]))
        self.press(Keys.END)
        self.assertEqual(self.here, (9, 5, ["5"]))
        self.press(Keys.ENTER)
        self.assertEqual(self.run_script("return document.activeElement.tagName"), "TEXTAREA")
        self.assertEqual(self.run_script("return document.getSelection().toString()"), '["turn",0]')


class Long(PageTest):
    """A scenario of 10,000 ops."""

    def test_ten_thousand_ops(self) -> None:
        """Its picture is no larger than what can be seen, and its transcript is there when one goes to it."""
        ops: list[list[object]] = []
        for number in range(1, 2_501):
            now = number * 7_000_000
            ops += [["tick", now, FIRST + now], ["start", number, 0, "rel", 1 + number % 200, 0, number], ["turn", 0], ["receive", 0]]
        text = json.dumps({"format": 2, "slots": 4096, "first": [0, FIRST], "ops": ops}, separators=(",", ":")).replace("],[", "],\n[")
        self.paste(text)
        self.assertTrue(self.said.startswith("ran: 10000 ops"), self.said)
        self.assertLess(len(self.picture("return svg.outerHTML")), 1_000_000)
        self.assertLess(self.run_script("return document.querySelectorAll('*').length"), 1_000)
        self.find(".lines").click()
        self.press(Keys.END)
        self.assertEqual(self.here[:2], (10_000, 9_999))
        self.press(Keys.ENTER)
        self.assertEqual(self.run_script("return document.getSelection().toString()"), '["receive",0]')
        self.report(text)

    def report(self, text: str) -> None:
        """Prints how long the answer takes, and the time from the last key to what is then drawn: the least of several."""
        asked = "const [text, done] = arguments; const begun = performance.now();"
        asked += "ertime.answer('scenario', text).then(() => done(performance.now() - begun))"
        drawn = "const [area, text, done] = arguments, place = area.closest('section'), begun = performance.now();"
        drawn += "const seen = new MutationObserver(() => { if (place.ariaBusy === 'false') { seen.disconnect();"
        drawn += " requestAnimationFrame(() => setTimeout(() => done(performance.now() - begun))); } });"
        drawn += "seen.observe(place, {attributes: true}); area.focus(); area.select(); area.setRangeText(text);"
        drawn += "area.dispatchEvent(new InputEvent('input'));"
        answer = min(self.browser.execute_async_script(asked, text) for _ in range(5))
        shown = min(self.browser.execute_async_script(drawn, self.area, text + " " * number) for number in range(1, 6))
        print(f"playground: a scenario of 10,000 ops is answered in {answer:.0f} ms, and seen {shown:.0f} ms after the last key, of which {PAUSE} are the pause")
