"""What is too long, takes too long or takes too much memory: it has an answer, and the page never waits."""
from __future__ import annotations

from selenium.webdriver.common.keys import Keys

from .chromium import PageTest

# Workers that are ready and then never answer.
LOOP = """const Plain = Worker;
const code = "onmessage = ({data}) => { if (data.module) postMessage({isReady: true}); else for (;;); };";
window.Worker = class extends Plain { constructor() { super(URL.createObjectURL(new Blob([code]))); } };"""
# Gives the answer to a text, and the longest time in milliseconds in which the page did nothing else.
ASKED = """const [head, part, count, tail, done] = arguments, text = head + part.repeat(count) + tail;
let [last, longest] = [performance.now(), 0];
const beat = setInterval(() => { longest = Math.max(longest, performance.now() - last); last = performance.now(); }, 10);
ertime.answer("scenario", text).then(({said, answer}) => {
  clearInterval(beat);
  done([answer.outcome, answer.message, said && said.status, longest]);
});"""
# The longest text that the programs take, in bytes.
MOST = 2**24
HEAD = '{"format":1,"first":[0,0],"ops":['
# Hostile texts, each as a beginning, a part that is repeated up to MOST, and an end: some are refused at once, some take
# more memory than there is, and some take long.
HOSTILE = (("", "[", ""), ("", '["time"],', ""), ("", HEAD, ""), ("", "9", ""), ("", " ", ""), (HEAD, "0,", "0]}"), (HEAD, '["time"],', '["time"]]}'), ('{"', "\\u0041", '":1}'))
# Milliseconds that the page may be busy on a machine with other work.
PATIENCE = 1500


class Limits(PageTest):
    """Hostile texts."""

    def test_a_text_that_is_too_long(self) -> None:
        """It is told, and not read; a shorter one is answered again. A paste of one, however long, changes nothing."""
        code = "const area = arguments[0]; area.focus(); area.select(); area.setRangeText(('['.repeat(127) + '\\n').repeat(7813));"
        code += "area.dispatchEvent(new InputEvent('input'));"
        self.answered(lambda: self.run_script(code, self.area))
        self.assertEqual(self.said, "The text is longer than 1,000,000 bytes.")
        self.paste('{"format":1,"first":[0,0],"ops":[]}')
        self.assertTrue(self.said.startswith("ran: 0 ops"), self.said)
        code = "const data = new DataTransfer(); data.setData('text/plain', '['.repeat(2 ** 24));"
        code += "arguments[0].dispatchEvent(new ClipboardEvent('paste', {clipboardData: data, bubbles: true, cancelable: true}));"
        self.run_script(code, self.area)
        self.wait(lambda: self.run_script("return document.getElementById('told').textContent") == "A text has 1,000,000 bytes at most")
        self.assertEqual(self.text, '{"format":1,"first":[0,0],"ops":[]}')

    def test_a_file_becomes_the_text(self) -> None:
        code = "const data = new DataTransfer(); data.items.add(new File([arguments[1]], 'it.json'));"
        code += "arguments[0].dispatchEvent(new DragEvent('drop', {dataTransfer: data, bubbles: true, cancelable: true}));"
        text = '{"format":1,"first":[0,0],"ops":[["time"]]}'
        self.run_script(code, self.area, text)
        self.wait(lambda: self.text == text and self.lines == ["time 0", "end 0"])

    def test_hostile_texts(self) -> None:
        """Each has an answer by name, or is stopped, and meanwhile the page is not held up."""
        for head, part, tail in HOSTILE:
            count = (MOST - len(head) - len(tail)) // len(part)
            outcome, message, status, longest = self.browser.execute_async_script(ASKED, head, part, count, tail)
            if outcome == "refused":
                self.assertEqual(status, 3)
            else:
                self.assertRegex(message, r"^ertime (ended with status 7: memory ran out|took more than 5 seconds and was stopped)$")
            self.assertLess(longest, PATIENCE, part)

    def test_a_text_that_is_longer_than_the_programs_take(self) -> None:
        outcome, message, status, _ = self.browser.execute_async_script(ASKED, "", " ", MOST + 1, "")
        self.assertEqual((outcome, message, status), ("failed", "ertime ended with status 8: the input is too long", 8))

    def test_a_loop_is_stopped(self) -> None:
        """Meanwhile one goes on writing."""
        added = self.browser.execute_cdp_cmd("Page.addScriptToEvaluateOnNewDocument", {"source": LOOP})
        self.addCleanup(self.browser.execute_cdp_cmd, "Page.removeScriptToEvaluateOnNewDocument", added)
        self.visit(self.address)
        self.assertEqual(self.said, "ertime took more than 5 seconds and was stopped")
        self.area.click()
        self.chord(Keys.CONTROL, "a")
        self.press("one")
        self.wait(lambda: self.run_script("return document.querySelector('#scenario').ariaBusy") == "true")
        self.press(" two")
        self.assertEqual(self.text, "one two")
        self.answered(lambda: None)
        self.assertEqual(self.said, "ertime took more than 5 seconds and was stopped")
