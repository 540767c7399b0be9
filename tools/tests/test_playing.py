"""Tests of what the page is made of and by: its lists, links, joined scripts and bounded module."""
from __future__ import annotations

import base64
import json
import pathlib
import re
import shutil
import subprocess
import tempfile
import unittest
import zlib

from playing import TOP
from playing.limit import NoLimit, limited
from playing.link import BadFile, fragment_of
from playing.modules import CannotJoin, joined
from playing.shelf import shelf
from playing.spelling import spelling

EXAMPLES = TOP / "examples"
WEB = TOP / "tools/web"
# A module with a memory of one page, of 16,384 at most, and a custom section behind it.
MODULE = b"\0asm\1\0\0\0" + bytes([5, 6, 1, 1, 1, 0x80, 0x80, 1]) + bytes([0, 2, 1, 65])


def node(code: str) -> str:
    """What a script prints."""
    words = ["node", "--input-type=module", "-e", code]
    return subprocess.run(words, stdout=subprocess.PIPE, text=True, check=True, cwd=WEB).stdout


class Shelf(unittest.TestCase):
    """What the page begins with."""

    def test_guide(self) -> None:
        """The list has each scenario and history of which the guide has a picture."""
        shown = re.findall(r"pictures/(\w+)\.svg", (TOP / "docs/GUIDE.md").read_text())
        names = [row["name"] for row in shelf()["scenario"]] + [f"history_{row['name']}" for row in shelf()["history"]]
        self.assertEqual(set(shown) - set(names), set())
        self.assertEqual(len(names), len(set(names)))

    def test_spelling(self) -> None:
        """The settings and all parts of the fields are told."""
        self.assertEqual(spelling()["parts"].keys(), {"actor", "reading", "timer", "start", "request", "message", "settings"})

    @unittest.skipUnless(shutil.which("node"), "there is no node")
    def test_events(self) -> None:
        """Each event has its fields."""
        events = json.loads(node("const {FIELDS} = await import('./picture/written.mjs'); console.log(JSON.stringify(Object.keys(FIELDS)))"))
        self.assertEqual(set(spelling()["events"]), set(events))

    def test_fragments(self) -> None:
        for name, kind in (("ertime/frozen_clock.json", "s"), ("ertaudit/early_expiry.txt", "h")):
            path = EXAMPLES / name
            made = fragment_of(str(path))
            letter, packed = made.split("=")
            text = zlib.decompress(base64.urlsafe_b64decode(packed + "=" * (-len(packed) % 4)), -15)
            self.assertEqual((letter, text), (kind, path.read_bytes()))
            self.assertEqual(fragment_of(f"file:///elsewhere/ertime.html#{made}"), made)
        self.assertRaises(BadFile, fragment_of, "/no/such#x=1")


class Joined(unittest.TestCase):
    """Modules as one script."""

    def setUp(self) -> None:
        room = tempfile.TemporaryDirectory()
        self.addCleanup(room.cleanup)
        self.room = pathlib.Path(room.name)

    def write(self, name: str, text: str) -> pathlib.Path:
        """A module."""
        (self.room / name).write_text(text)
        return self.room / name

    @unittest.skipUnless(shutil.which("node"), "there is no node")
    def test_names_stay_apart(self) -> None:
        """Two modules have a name each that is the same, and one is used by two others but begins once."""
        self.write("low.mjs", 'const it = "low";\nconsole.log(import.meta.url + it);\nexport const low = () => it;\n')
        self.write("middle.mjs", 'import {low} from "./low.mjs";\n\nconst it = 1;\nexport class Middle {}\nexport async function both() { return low() + it; }\n')
        top = self.write("top.mjs", 'import {low} from "./low.mjs";\nimport {Middle, both} from "./middle.mjs";\n\nconsole.log(low(), await both(), Middle.name);\n')
        script = self.write("script.cjs", joined(top))
        said = subprocess.run(["node", script], stdout=subprocess.PIPE, text=True, check=True).stdout
        self.assertEqual(said, "low\nlow low1 Middle\n")

    def test_what_is_written_otherwise(self) -> None:
        for text in ('import it from "./it.mjs";\n', "export default 1;\n", "export {it};\n", 'import "node:fs";\n', "export let it = 1;\n"):
            self.assertRaises(CannotJoin, joined, self.write("other.mjs", text))
        self.write("a.mjs", 'import {b} from "./b.mjs";\nexport const a = b;\n')
        self.assertRaises(CannotJoin, joined, self.write("b.mjs", 'import {a} from "./a.mjs";\nexport const b = a;\n'))


class Limit(unittest.TestCase):
    """The memory of the module."""

    def test_limits(self) -> None:
        """The limit is the lesser one, and all else stays."""
        tail = bytes([0, 2, 1, 65])
        self.assertEqual(limited(MODULE, 2**30), MODULE)
        self.assertEqual(limited(MODULE, 2**24), b"\0asm\1\0\0\0" + bytes([5, 5, 1, 1, 1, 0x80, 2]) + tail)
        self.assertEqual(limited(MODULE, 100 * 65_536), b"\0asm\1\0\0\0" + bytes([5, 4, 1, 1, 1, 100]) + tail)
        without = (b"", b"\0asm\1\0\0\0", b"\0asm\1\0\0\0" + bytes([5, 3, 1, 0, 1]), b"\0asm\1\0\0\0" + bytes([5, 4, 1, 5, 1, 9]))
        for module in without:
            self.assertRaises(NoLimit, limited, module, 2**24)


class Files(unittest.TestCase):
    """What the page is made of."""

    def test_no_other_place(self) -> None:
        """The HTML has no code and no style in it, and nothing names another place."""
        text = (WEB / "page/index.html").read_text()
        self.assertIsNone(re.search(r"\son\w+\s*=|\sstyle\s*=|<style|<script(?![^>]*\s(?:src|id)=)|javascript:", text))
        for path in (*(WEB / "page").iterdir(), *(WEB / "picture").glob("*.mjs")):
            outside = re.findall(r"(?:https?:)?//[\w.]+\.\w+[^\s\"']*", re.sub(r"^\s*//.*", "", path.read_text(), flags=re.M))
            self.assertEqual([it for it in outside if not it.startswith("http://www.w3.org/")], [], path.name)


if __name__ == "__main__":
    unittest.main()
