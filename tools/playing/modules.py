"""Joins modules of JavaScript into a plain script, since a page that is opened from a file can't import others, and
neither can its workers.

Each module becomes a function that is called once, after those that it imports from, and gives what it exports. A module
here imports names by lines `import {a, b} from "./c.mjs";` at its beginning, and exports each where it is declared; what
is written otherwise is refused. A plain script has no address of its own, so `import.meta.url` is the empty text in it.
"""
from __future__ import annotations

import pathlib
import re

IMPORT = re.compile(r'^import \{([\w, ]+)\} from "(\.{1,2}/[\w./]+\.mjs)";\n', re.MULTILINE)
EXPORT = re.compile(r"^export (?=(?:async )?(?:function|class|const) (\w+))", re.MULTILINE)
OTHER = re.compile(r"^\s*(?:import|export)\b(?! ?\().*", re.MULTILINE)


class CannotJoin(Exception):
    """A module that is written otherwise; the text says where."""


def _ordered(path: pathlib.Path, found: list[pathlib.Path], above: tuple[pathlib.Path, ...]) -> None:
    """Puts a module behind all that it imports from."""
    if path in above:
        raise CannotJoin(f"{path.name}: it imports itself")
    if path not in found:
        for _, name in IMPORT.findall(path.read_text()):
            _ordered((path.parent / name).resolve(), found, (*above, path))
        found.append(path)


def _function(path: pathlib.Path, numbers: dict[pathlib.Path, int]) -> str:
    """A module as the value of a function's call."""
    text = path.read_text()
    imports = [f"const {{{names}}} = m{numbers[(path.parent / name).resolve()]};\n" for names, name in IMPORT.findall(text)]
    exports = EXPORT.findall(text)
    body = EXPORT.sub("", IMPORT.sub("", text)).replace("import.meta.url", '""')
    other = OTHER.search(body)
    if other:
        raise CannotJoin(f"{path.name}: {other[0].strip()}")
    return f"await (async () => {{\n{''.join(imports)}{body}return {{{', '.join(exports)}}};\n}})();\n"


def joined(path: pathlib.Path) -> str:
    """A module with all that it imports from, as one script."""
    found: list[pathlib.Path] = []
    _ordered(path.resolve(), found, ())
    numbers = {it: number for number, it in enumerate(found)}
    functions = [f"// {it.name}\nconst m{number} = {_function(it, numbers)}" for it, number in numbers.items()]
    return f'"use strict";\n(async () => {{\n{"".join(functions)}}})();\n'
