"""How histories are spelled, by the tables of `docs/FORMATS.md` ("Written histories"), for who writes one."""
from __future__ import annotations

import pathlib
import re
from collections.abc import Iterator

from . import TOP

Spelling = dict[str, dict[str, str]]


def _rows(text: str, head: str) -> Iterator[tuple[str, str]]:
    """The rows of a table of two columns."""
    for line in text.partition(head + "\n")[2].splitlines()[1:]:
        if not line.startswith("|"):
            return
        name, said = line.strip("| ").split(" | ")
        yield name, said.replace("`", "")


def spelling(top: pathlib.Path = TOP) -> Spelling:
    """The fields of each event, and the words of each part of them; the settings are the part of that name."""
    text = (top / "docs/FORMATS.md").read_text()
    events = {
        name: fields for names, fields in _rows(text, "| event | fields |") for name in re.findall(r"`(\w+)`", names)
    }
    parts = dict(_rows(text, "| part | words |"))
    settings = re.search(r"^The settings are (.*)$", text, re.MULTILINE)
    if settings:
        parts["settings"] = settings[1].replace("`", "")
    return {"events": events, "parts": parts}
