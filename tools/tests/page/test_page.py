"""The page as a whole, in a browser: links, histories, keys alone, narrow windows, dark colours, and no other place."""
from __future__ import annotations

import os
import pathlib
import re
import subprocess
import sys

from selenium.webdriver.common.action_chains import ActionChains
from selenium.webdriver.common.by import By
from selenium.webdriver.common.keys import Keys

from playing import TOP
from playing.link import fragment
from playing.shelf import shelf

from .chromium import PageTest

TEXT = '{"format":1,"first":[0,0],"ops":[["time"],\n["tick",5,5]]}'


class Links(PageTest):
    """The address has the text in it."""

    def test_a_link_opens_the_same(self) -> None:
        for text in (TEXT, "no JSON: é𝄞 <b>\n", ""):
            self.paste(text)
            self.wait(lambda: self.run_script("return location.hash.length > 2"))
            self.browser.find_element(By.ID, "copy").click()
            self.wait(lambda: self.browser.find_element(By.ID, "told").text)
            link, said, lines = self.run_script("return location.href"), self.said, self.lines
            self.visit(link)
            self.assertEqual((self.text, self.said, self.lines), (text, said, lines))

    def test_a_link_of_tools_playground(self) -> None:
        """What Python packs, the page opens; and tools/playground goes on to the page with a file, or with a link."""
        self.visit(f"{self.address}#{fragment(TEXT)}")
        self.assertEqual(self.text, TEXT)
        link = self.run_script("return location.href")
        if pathlib.Path(os.environ["PAGE"]).resolve() != TOP / "build/page/ertime.html":
            return
        path = TOP / "examples/ertaudit/early_expiry.txt"
        for what, text in ((link, TEXT), (str(path), path.read_text())):
            words = [sys.executable, str(TOP / "tools/playground"), "--no-browser", what]
            start = subprocess.run(words, stdout=subprocess.PIPE, text=True, check=True).stdout.strip()
            self.browser.get("about:blank")
            self.browser.get(start)
            self.wait(lambda: self.run_script("return document.body.dataset.ready"))
            self.assertEqual(self.text, text)

    def test_a_history_and_a_broken_link(self) -> None:
        history = shelf()["history"][0]["text"]
        self.visit(f"{self.address}#{fragment(history)}")
        self.assertEqual((self.text, self.find(".verdict").text), (history, "legal 9"))
        for tail in ("#s=!", "#s=AAAA", "#x", f"#{fragment(TEXT)[:-4]}", f"#{fragment('x' * 1_000_001)}"):
            self.visit(self.address + tail)
            self.assertEqual(self.browser.find_element(By.ID, "told").text, "The link can't be read")


class Histories(PageTest):
    """The tab that judges."""

    def test_the_illegal_entry_is_marked_and_told_why(self) -> None:
        self.tab("history")
        self.choose(".shelf", "early_expiry")
        self.assertEqual(self.find(".verdict").text, "illegal 7")
        self.assertEqual(self.said, "line 7: s0 w0 expire 0 0 1: the timer's deadline is 6 ms, and scheduler 0 last looked at 1 ms")
        self.assertEqual(self.find(".gutter .bad").text, "7")
        self.assertEqual(self.find(".marks mark").get_property("textContent"), "s0 w0 expire 0 0 1")
        red = self.picture("return [...new Set([...svg.querySelectorAll('circle.bad')].map(it => it.dataset.op))]")
        self.assertEqual(red, ["5"])
        self.area.click()
        self.chord(Keys.CONTROL, Keys.END)
        self.press(Keys.BACKSPACE, Keys.HOME)
        self.chord(Keys.SHIFT, Keys.END)
        self.answered(lambda: self.press("s0 w0 advanced 0 1\n"))
        self.assertEqual((self.find(".verdict").text, self.said), ("legal 6", "legal: 6 entries"))
        self.assertEqual(self.area.get_attribute("aria-invalid"), "false")

    def test_a_misspelled_line(self) -> None:
        self.tab("history")
        self.paste("settings no false 0 1 1 1 1 0 0\nc0 - look 00\n")
        self.assertEqual(self.find(".verdict").text, "refused 2")
        self.assertTrue(self.said.startswith("line 2, column 11: "), self.said)
        self.assertEqual(self.find(".marks mark").get_property("textContent"), "00")

    def test_both_ways(self) -> None:
        self.tab("history")
        for entry in (4, 1):
            x, y = self.picture(f"const box = svg.querySelector('circle[data-op=\"{entry}\"]').getBBox(); return [box.x + 4, box.y + 4]")
            ActionChains(self.browser).move_to_element_with_offset(self.picture("return svg"), *self.pointed(x, y)).click().perform()
            self.assertEqual((self.here[0], self.here[2]), (entry + 2, [f"{entry}"]))
        self.area.click()
        self.chord(Keys.CONTROL, Keys.HOME)
        self.press(*[Keys.ARROW_DOWN] * 3)
        self.wait(lambda: (self.here[0], self.here[2]) == (4, ["2"]))

    def test_examples(self) -> None:
        self.tab("history")
        for row in shelf()["history"]:
            if row["text"] != self.text:
                self.choose(".shelf", row["name"])
            said = pathlib.Path(TOP / "examples/ertaudit" / f"{row['name']}.txt.stdout").read_text()
            self.assertEqual(self.find(".verdict").text, said.strip())


class Keyboard(PageTest):
    """Everything without a pointer."""

    def focus(self) -> str:
        """What has the focus."""
        return str(self.run_script("const it = document.activeElement; return it.id || it.className || it.tagName"))

    def tab_to(self, name: str) -> None:
        """Goes on by the key Tab until something has the focus."""
        seen = []
        for _ in range(40):
            self.press(Keys.TAB)
            seen.append(self.focus())
            if name in seen[-1].split():
                return
        self.fail(f"Tab doesn't come to {name}: {seen}")

    def test_all_by_keys(self) -> None:
        self.tab_to("tab-scenario")
        self.tab_to("shelf")
        self.answered(lambda: self.press("slow_until"))
        self.assertTrue(self.said.startswith("ran: 5 ops"), self.said)
        self.tab_to("mode")
        self.answered(lambda: self.press("multi"))
        self.tab_to("correction")
        self.answered(lambda: self.press(" "))
        self.assertIn('"mode":"multi",\n "correction":false', self.text)
        self.tab_to("format")
        self.press(Keys.ENTER)
        self.tab_to("TEXTAREA")
        self.chord(Keys.CONTROL, "a")
        self.answered(lambda: self.press(TEXT.replace("tick", "tikc")))
        self.press(Keys.F8)
        self.answered(lambda: self.press(*[Keys.DELETE] * 6, '"tick"'))
        self.assertEqual(self.text, TEXT)
        self.tab_to("slide")
        self.press(Keys.HOME, *[Keys.ARROW_RIGHT] * 3)
        self.tab_to("at")
        self.tab_to("leap")
        self.answered(lambda: self.press(Keys.ENTER))
        self.assertIn("leaps", self.picture("return svg.textContent"))
        self.tab_to("start")
        self.answered(lambda: self.press(" "))
        self.assertIn("start ok", self.lines)
        self.tab_to("picture")
        self.tab_to("transcript")
        self.press(Keys.HOME, Keys.ARROW_DOWN)
        self.assertEqual(self.here[1], 1)
        self.tab_to("tab-scenario")
        self.press(Keys.ARROW_RIGHT)
        self.answered(lambda: self.wait(lambda: self.focus() == "tab-history"))
        self.assertEqual(self.find(".verdict").text, "legal 9")
        self.tab_to("copy")
        self.press(Keys.ENTER)
        self.wait(lambda: self.browser.find_element(By.ID, "told").text)

    def test_what_has_the_focus_is_seen(self) -> None:
        """Whatever Tab comes to has an outline, or its box a ring."""
        for _ in range(14):
            self.press(Keys.TAB)
            code = "const it = document.activeElement, ring = it.closest('.editor') ?? it;"
            code += "return it === document.body || getComputedStyle(it).outlineStyle !== 'none' || getComputedStyle(ring).boxShadow !== 'none'"
            self.assertTrue(self.run_script(code), self.focus())

    def test_names(self) -> None:
        """Each control has a name for who doesn't see it."""
        for kind in ("scenario", "history"):
            self.tab(kind)
            for it in self.browser.find_elements(By.CSS_SELECTOR, "button, select, input, textarea, [role=listbox], [role=group], summary"):
                if it.is_displayed():
                    self.assertTrue(it.accessible_name, it.get_attribute("outerHTML"))


class Looks(PageTest):
    """Narrow windows, and light and dark ones."""

    def test_four_hundred_pixels(self) -> None:
        for kind in ("scenario", "history"):
            self.see(400, 800)
            self.tab(kind)
            self.assertLessEqual(self.run_script("return document.documentElement.scrollWidth"), 400)
            for it in self.browser.find_elements(By.CSS_SELECTOR, "button, select, input, textarea, .picture, .said, .lines"):
                if it.is_displayed():
                    box = it.rect
                    self.assertTrue(box["x"] >= 0 and box["x"] + box["width"] <= 400, it.get_attribute("outerHTML"))
                    self.assertGreaterEqual(box["height"], 13)
        self.tab("scenario")
        self.write(TEXT)
        self.assertEqual(self.lines, ["time 0", "tick 5", "end 5"])

    def test_light_and_dark(self) -> None:
        """Text stands out from what is behind it: by 4.5 to 1, as WCAG 2.2 asks (1.4.3)."""
        for scheme, is_light in (("light", True), ("dark", False)):
            self.see(1280, 860, scheme)
            code = "const of = (it) => getComputedStyle(it); const shown = [...document.querySelectorAll('button, label, .said, .lines div, textarea, .gutter span, .help p, h1')].filter(it => it.checkVisibility());"
            code += "const behind = (it) => { while (of(it).backgroundColor === 'rgba(0, 0, 0, 0)') it = it.parentElement; return of(it).backgroundColor; };"
            code += "return shown.map(it => [it.className || it.tagName, of(it).color, behind(it)])"
            for name, ink, back in self.run_script(code):
                self.assertGreaterEqual(contrast(ink, back), 4.5, (scheme, name, ink, back))
                self.assertEqual(light(back) > 0.5, is_light, name)
            self.assertEqual(light(self.picture("return getComputedStyle(svg.querySelector('rect.page')).fill")) > 0.5, is_light)

    def test_nothing_comes_from_elsewhere(self) -> None:
        """Beside the page itself nothing was loaded but what it made; and the policy of the page keeps it so."""
        self.tab("history")
        names = self.run_script("return performance.getEntries().map(it => it.name).filter(it => it.includes(':'))")
        self.assertIn(self.address, {it.partition("#")[0] for it in names})
        self.assertEqual([it for it in names if not it.startswith((self.address, "blob:", "data:"))], [])
        asked = "const done = arguments[0]; fetch('https://example.org/').then(() => done('sent'), (it) => done(it.name))"
        self.assertEqual(self.browser.execute_async_script(asked), "TypeError")
        said = [it["message"] for it in self.browser.get_log("browser")]
        self.assertTrue(said and all("Content Security Policy" in it or "connect-src" in it for it in said), said)


def light(colour: str) -> float:
    """How light a colour is, from 0 to 1 (WCAG 2.2, relative luminance)."""
    parts = [int(it) / 255 for it in re.findall(r"\d+", colour)[:3]]
    red, green, blue = (it / 12.92 if it <= 0.04045 else float(((it + 0.055) / 1.055) ** 2.4) for it in parts)
    return 0.2126 * red + 0.7152 * green + 0.0722 * blue


def contrast(ink: str, back: str) -> float:
    """How far two colours are apart."""
    low, high = sorted((light(ink), light(back)))
    return (high + 0.05) / (low + 0.05)
