"""What contracts reach outside of the repository: definitions and types of the toolchain's libraries, by file and line.

A definition is followed through the modules that pass it on to where it stands, and so is every name in it. Where the
libraries end and the logic begins (natural numbers, lists, equality, floats) nothing is followed.
"""
from __future__ import annotations

import collections
import functools
import pathlib
import re
import shutil
from typing import Callable, Iterable, Iterator, NamedTuple, Optional

USE = re.compile(r"^\s*(?:ghost |unfoldable )?(?:pub )?use (Rattle\.[\w.]+?)(?:\.\{(.*)\}| as (\w+))?;?$", re.M)
HANDED_ON = re.compile(r"^(?:unfoldable )?pub use .*$", re.M)
BEGIN = re.compile(r"(?:(?:abbrev |unfoldable )?pub (?!use|mod)|(?:abbrev )?mutual$|pub (?:enum|struct|trait|type) )")
HEADER = re.compile(r"\s*(?:(?:abbrev|unfoldable) )?pub (?:record |data |enum |struct |trait |type )?([^\s(:<]+)")
CASE = re.compile(r"\s+(?:pub )?([^\s(:]+) :")
# The libraries whose modules std passes on as its own.
PARTS_OF_STD = ("core", "std_alloc", "std_collections", "std_io", "std_heap")
# A file and a name in it; None for the whole file.
Target = tuple[pathlib.Path, Optional[str]]
Words = Callable[[Iterable[str]], list[str]]


class Block(NamedTuple):
    """Definitions that stand together, with the number of each line of code."""

    file: pathlib.Path
    lines: dict[int, str]


@functools.cache
def kit() -> pathlib.Path | None:
    """The folder of the toolchain, if it is there."""
    found = shutil.which("rt")
    return pathlib.Path(found).resolve().parent.parent if found else None


def pieces(name: str) -> list[str]:
    """The words by which a name is written: those between the places of its arguments."""
    return [piece for piece in name.split("◌") if piece]


def leaves(path: list[str], names: str) -> Iterator[tuple[list[str], str, str]]:
    """What a `use` line imports of a module and of those below it: the module of each name, the name, and how it is called."""
    for leaf in re.findall(r"[^\s,{}](?:[^,{}]|\{[^{}]*\})*", names):
        if leaf.endswith("}"):
            below, _, inner = leaf[:-1].partition(".{")
            yield from leaves([*path, *below.split(".")], inner)
            continue
        name, _, other = leaf.strip().partition(" as ")
        *below, last = [name] if "◌" in name else name.split(".")
        yield [*path, *below], last, other or last


def target_of(path: list[str], name: str | None) -> Target | None:
    """Where a name of the libraries stands; None for one of this repository or of the logic."""
    crate, rest = path[1], path[3:]
    top = kit()
    if top is None or crate.startswith("ert_") or path[2] != "specs":
        return None
    place = "specs/" + "/".join(rest) + ".antt"
    if rest[0] in ("declared", "contracts"):
        of_type = next((at for at, part in enumerate(rest) if part[0].isupper()), len(rest))
        place = "src/" + "/".join(rest[1:of_type]) + ".rt"
        name = rest[of_type] if of_type < len(rest) else name
    files = [top / "rattle" / it / place for it in (crate, *(PARTS_OF_STD if crate == "std" else ()))]
    return next(((it, name) for it in files if it.is_file()), None)


def targets(text: str) -> dict[str, Target]:
    """What the `use` lines of a text bring from the libraries."""
    found = {}
    for path, names, alias in USE.findall(text):
        parts = path.split(".")
        if not names:
            known = {alias or parts[-1]: target_of(parts, None)}
        else:
            known = {piece: target_of(module, name) for module, name, other in leaves(parts, names) for piece in pieces(other)}
        found.update({piece: it for piece, it in known.items() if it})
    return found


@functools.cache
def scope(file: pathlib.Path) -> dict[str, Target]:
    """What the names of a file mean that come from the libraries, and those that it defines."""
    own = {piece: (file, name) for name in blocks(file) for piece in pieces(name)}
    return targets(file.read_text()) | own


@functools.cache
def blocks(file: pathlib.Path) -> dict[str, Block]:
    """The blocks of a file by the names that they define, and by their cases and fields."""
    comment = "--" if file.suffix == ".antt" else "//"
    found: list[Block] = []
    inside = False
    for number, line in enumerate(file.read_text().splitlines(), 1):
        if line[:1].strip() and (BEGIN.match(line) or line.startswith(("use ", "pub use ", "pub mod ", "impl", "fn ", "ghost "))):
            inside = bool(BEGIN.match(line))
            if inside:
                found.append(Block(file, {}))
        if inside and line.strip() and not line.strip().startswith((comment, "#[")):
            found[-1].lines[number] = line
        inside = inside and not (line.startswith("}") and file.suffix == ".rt")
    named = {it[1]: block for block in found for line in block.lines.values() if (it := HEADER.match(line))}
    cases = {it[1]: block for block in found for line in block.lines.values() if (it := CASE.match(line))}
    return cases | named


def block_of(target: Target) -> Block | None:
    """The block that defines a name, by way of the modules that pass it on."""
    file, name = target
    if name in blocks(file):
        return blocks(file)[name]
    handed = targets("\n".join(HANDED_ON.findall(file.read_text())))
    return block_of(handed[name]) if name in handed and handed[name] != target else None


def named(lines: Iterable[str], known: dict[str, Target], words: Words) -> set[Target]:
    """The names of the libraries that some lines name."""
    found: set[Target] = set()
    module: Target | None = None
    for word in words(lines):
        after_dot, word = word.startswith("."), word.lstrip(".")
        target = (module[0], word) if after_dot and module else None if after_dot else known.get(word)
        module = target if target and target[1] is None else None
        if target and target[1]:
            found.add(target)
    return found


def reach(starts: Iterable[tuple[pathlib.Path, list[str]]], words: Words) -> dict[pathlib.Path, dict[int, str]]:
    """The lines of each file of the libraries that are reached from lines of files of the repository."""
    waiting = [it for file, lines in starts for it in named(lines, targets(file.read_text()), words)]
    found: dict[pathlib.Path, dict[int, str]] = collections.defaultdict(dict)
    seen: set[Target] = set()
    while waiting:
        target = waiting.pop()
        block = block_of(target) if target not in seen else None
        seen.add(target)
        if block and not block.lines.keys() <= found[block.file].keys():
            found[block.file].update(block.lines)
            waiting += named(block.lines.values(), scope(block.file), words)
    return dict(found)
