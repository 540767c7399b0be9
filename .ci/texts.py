"""Texts for the commands over memory, and what the programs that were built answer to them."""
from __future__ import annotations

import concurrent.futures
import importlib.machinery
import importlib.util
import json
import pathlib
import random
import sys
from typing import NamedTuple

TOP = pathlib.Path(__file__).resolve().parent.parent


def script(path: pathlib.Path):
    """A script of this folder as a module."""
    sys.dont_write_bytecode = True
    loader = importlib.machinery.SourceFileLoader(path.name, str(path))
    module = importlib.util.module_from_spec(importlib.util.spec_from_loader(path.name, loader))
    sys.modules[path.name] = module
    loader.exec_module(module)
    return module


messages = script(TOP / ".ci/check_messages")
# Each command: its program, and the words of that.
COMMANDS = {"run": ("ertime", ["run"]), "judge": ("ertaudit", [])}
NAMES = {program: name for name, (program, _) in COMMANDS.items()}
# One byte more than a text may have.
TOO_LONG = 16_777_217


class Text(NamedTuple):
    """A text, and the command that it is given to."""

    command: str
    given: bytes


def programs() -> dict[str, pathlib.Path]:
    """The programs that `rt ci` built; it ends where one isn't there."""
    for path in messages.BUILT.values():
        if not path.exists():
            sys.exit(f"{path} is missing: `rt ci` or `make` builds it")
    return messages.BUILT


def rows() -> list[Text]:
    """The worked inputs of examples/messages."""
    found = [row for path in sorted(messages.ROWS.glob("*.json")) for row in json.loads(path.read_text())]
    return [Text(NAMES[it["program"]], messages.whole(it["input"])) for it in found if it["words"] in ([], ["run"])]


def texts(count: int, seed: int) -> list[Text]:
    """The worked inputs, the examples, `count` examples that are damaged, a tenth as many of random bytes, and one that is
    too long; each example and each text of bytes to both commands."""
    examples = [it for it in messages.seeds(messages.BUILT) if it.words in ([], ["run"])]
    found = [*rows(), *(Text(name, it.given) for it in examples for name in COMMANDS)]
    rng = random.Random(seed)
    for number in range(count):
        it = examples[number % len(examples)]
        found.append(Text(NAMES[it.program], messages.changed(it.given, rng)))
    for _ in range(count // 10):
        given = rng.randbytes(rng.randint(0, 200))
        found += [Text(name, given) for name in COMMANDS]
    return [*found, *(Text(name, b" " * TOO_LONG) for name in COMMANDS)]


def answers(asked: list[Text]) -> list[messages.Ran]:
    """What the programs answer: status, output and message."""
    built = programs()

    def answer(text: Text) -> messages.Ran:
        program, words = COMMANDS[text.command]
        return messages.run(built[program], words, text.given)

    with concurrent.futures.ThreadPoolExecutor() as pool:
        return list(pool.map(answer, asked))


def shown(text: Text, wanted: messages.Ran, got: messages.Ran) -> str:
    """A text that is answered otherwise."""
    parts = [f"{it.status} {it.output[:200]!r} {it.errors[:200]!r}" for it in (wanted, got)]
    return f"{text.command} {text.given[:200]!r}\n  the program answers {parts[0]}\n  got                 {parts[1]}"
