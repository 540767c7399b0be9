"""Tests of `tools/picture` as a program: what it draws is XML, also of long inputs. (tools/web/tests has those of its parts.)"""
from __future__ import annotations

import json
import pathlib
import subprocess
import tempfile
import unittest
import xml.etree.ElementTree as ET
from typing import Any

TOP = pathlib.Path(__file__).resolve().parent.parent.parent
EXAMPLES = TOP / "examples"
# The most bytes of a picture, however long the input is.
MOST = 2_000_000


def drawn(*words: str | pathlib.Path) -> bytes:
    """The picture of these words."""
    return subprocess.run([TOP / "tools/picture", *words], stdout=subprocess.PIPE, check=True).stdout


def told(path: pathlib.Path) -> pathlib.Path:
    """What a program prints of an example."""
    return path.with_name(path.name + ".stdout")


class Examples(unittest.TestCase):
    """The examples of the repository."""

    def test_scenarios(self) -> None:
        for path in sorted((EXAMPLES / "ertime").glob("*.json")):
            if not told(path).read_text().startswith("refused"):
                ET.fromstring(drawn(path, told(path)))

    def test_histories(self) -> None:
        """One that isn't legal has something red, and no other has."""
        for path in sorted((EXAMPLES / "ertaudit").glob("*.txt")):
            verdict = told(path).read_text()
            if not verdict.startswith("refused"):
                root = ET.fromstring(drawn("--history", path, told(path)))
                red = [it for it in root.iter() if "bad" in it.get("class", "").split()]
                self.assertEqual(bool(red), verdict.startswith("illegal"), path.name)

    def test_same_bytes(self) -> None:
        words = (EXAMPLES / "ertime/frozen_clock.json", EXAMPLES / "ertime/frozen_clock.json.stdout")
        self.assertEqual(drawn(*words), drawn(*words))


class Long(unittest.TestCase):
    """Beyond what can be seen, neighbours are joined."""

    def drawn_of(self, text: str, lines: list[str], *words: str) -> None:
        """The picture of a text and what was printed of it is XML, and not long."""
        with tempfile.TemporaryDirectory() as room:
            files = [pathlib.Path(room) / name for name in ("given", "said")]
            files[0].write_text(text)
            files[1].write_text("\n".join(lines) + "\n")
            made = drawn(*words, *files)
        self.assertLess(len(made), MOST)
        ET.fromstring(made)

    def test_scenario(self) -> None:
        ops: list[list[Any]] = []
        lines: list[str] = []
        for step in range(1, 25_001):
            now = step * 1_000_000
            ops += [["tick", now, now], ["start", step, 0, "rel", 1 + step % 9, 0, 1], ["turn", 0], ["time"]]
            expired = sum(1 for it in range(max(1, step - 9), step) if it + 1 + it % 9 == step)
            lines += [f"tick {now}", "start ok", f"turn 0 {step} {expired} {expired} 0", f"time {now}"]
        lines.append(f"end {now}")
        self.drawn_of(json.dumps({"format": 2, "first": [0, 0], "slots": 65536, "ops": ops}), lines)

    def test_history(self) -> None:
        lines = ["settings no false 0 1 1 1 1 0 0"]
        for turn in range(1, 25_001):
            lines += ["c0 - look 0", f"c0 w0 arm 0 0 {turn} after 5 0 7 wrapped", "c0 - mark 0 false false"]
            lines += [f"c0 - cancel 0 0 {turn} 5"]
        self.drawn_of("\n".join(lines) + "\n", [f"legal {len(lines) - 1}"], "--history")


if __name__ == "__main__":
    unittest.main()
