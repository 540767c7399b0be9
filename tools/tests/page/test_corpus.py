"""What the page says of texts, beside what the programs say that were built: each status, output and message is the same."""
from __future__ import annotations

import os
import pathlib
import sys
import unittest
from typing import Any

from playing import TOP

from .chromium import PageTest

sys.path.insert(0, str(TOP / ".ci"))

import texts  # noqa: E402

# How many changed texts there are, beside those that stand in files.
COUNT = 1000
SEED = 2
# How many texts the page is given at once.
BATCH = 50
KINDS = {"run": "scenario", "judge": "history"}
ASKED = """const [texts, done] = arguments, made = [];
(async () => {
  for (const [kind, text] of texts) {
    const {said, answer} = await ertime.answer(kind, text);
    made.push({said, outcome: answer.outcome, message: answer.message, fault: answer.fault, hasPicture: answer.picture !== undefined});
  }
  done(made);
})();"""


def written() -> list[tuple[texts.Text, str]]:
    """The texts of .ci/check_wasm that can be written into a page: UTF-8, and of a length that programs take."""
    texts.messages.BUILT.update({name: pathlib.Path(os.environ[name.upper()]) for name in ("ertime", "ertaudit")})
    found = []
    for it in texts.texts(COUNT, SEED):
        try:
            found.append((it, it.given.decode()))
        except UnicodeDecodeError:
            continue
    return [(it, text) for it, text in found if len(it.given) < texts.TOO_LONG]


class Corpus(PageTest):
    """The module in the page, and the programs."""

    def test_same_as_the_programs(self) -> None:
        asked = written()
        self.assertGreater(len(asked), 1_500)
        counts: dict[str, int] = {}
        wanted = texts.answers([it for it, _ in asked])
        for start in range(0, len(asked), BATCH):
            batch = asked[start : start + BATCH]
            answers = self.browser.execute_async_script(ASKED, [(KINDS[it.command], text) for it, text in batch])
            for (it, text), ran, answer in zip(batch, wanted[start:], answers):
                self.check(f"{it.command}: {text[:300]!r}", ran, answer)
                counts[answer["outcome"]] = counts.get(answer["outcome"], 0) + 1
        self.assertEqual(sum(counts.values()), len(asked))
        told = ", ".join(f"{count} {name}" for name, count in sorted(counts.items()))
        print(f"playground: {len(asked)} texts are answered as by the programs: {told}")

    def check(self, about: str, ran: Any, answer: dict[str, Any]) -> None:
        """One text."""
        said = {"status": ran.status, "output": ran.output.decode(), "errors": ran.errors.decode()}
        self.assertEqual(answer["said"], said, about)
        self.assertIn(answer["outcome"], ("ran", "legal", "illegal", "refused"), about)
        self.assertEqual(answer["fault"] is not None, answer["outcome"] in ("illegal", "refused"), about)
        self.assertEqual(answer["hasPicture"], answer["outcome"] != "refused", f"{answer['message']} {about}")


if __name__ == "__main__":
    unittest.main()
