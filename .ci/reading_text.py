"""The text of the reading base: lines of files with their numbers, and the comments in front of them."""
from __future__ import annotations

import pathlib
from typing import Iterable

BEFORE = ("--", "//", "#[")


def with_comments(lines: list[str], numbers: Iterable[int]) -> list[int]:
    """The numbers of these lines, and of the comments and attributes right in front of each."""
    found = set(numbers)
    for number in list(found):
        before = number - 1
        while before and lines[before - 1].strip().startswith(BEFORE):
            found.add(before)
            before -= 1
    return sorted(found)


def shown(file: pathlib.Path, name: str, numbers: Iterable[int]) -> list[str]:
    """A file by the name that is told, with these of its lines."""
    lines = file.read_text().splitlines()
    found, last = ["", f"== {name}"], 0
    for number in with_comments(lines, numbers):
        found += [""] if number > last + 1 else []
        found.append(f"{number:5}  {lines[number - 1]}".rstrip())
        last = number
    return found
