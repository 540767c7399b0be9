"""The scenarios and histories that `docs/GUIDE.md` shows, by name."""
from __future__ import annotations

import pathlib
import re

from . import TOP

HEADING = re.compile(r"#{2,} (.*)")
PICTURE = re.compile(r"!\[([^\]]*)\]\(pictures/(history_)?(\w+)\.svg\)")
NAMED = re.compile(r"examples/ertime/(\w+)\.json")

Row = dict[str, str]


def _row(section: str, caption: str, path: pathlib.Path) -> Row:
    return {"name": path.stem, "section": section, "caption": caption, "text": path.read_text()}


def shelf(top: pathlib.Path = TOP) -> dict[str, list[Row]]:
    """The rows of both tabs, in the order of the guide: those with a picture, and then those that it only names."""
    scenarios: dict[str, Row] = {}
    histories: dict[str, Row] = {}
    section = ""
    text = (top / "docs/GUIDE.md").read_text()
    for line in text.splitlines():
        heading, shown = HEADING.fullmatch(line), PICTURE.fullmatch(line)
        if heading:
            section = heading[1]
        elif shown and shown[2]:
            path = top / "examples/ertaudit" / f"{shown[3]}.txt"
            histories.setdefault(shown[3], _row(section, shown[1], path))
        elif shown:
            path = top / "examples/ertime" / f"{shown[3]}.json"
            scenarios.setdefault(shown[3], _row(section, shown[1], path))
    for name in NAMED.findall(text):
        scenarios.setdefault(name, _row("Also named", "", top / "examples/ertime" / f"{name}.json"))
    return {"scenario": list(scenarios.values()), "history": list(histories.values())}
