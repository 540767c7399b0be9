#!/usr/bin/env python3
"""Judges a written history, read from standard input, and prints what `ertaudit` prints of it, with the same status:

    tools/oracle/judge.py < history.txt

It is written from the model in words (docs/MODEL.md) and docs/FORMATS.md alone, and shares nothing with the programs: where
both answer the same, neither has a fault that the other hasn't.
"""
from __future__ import annotations

import argparse
import sys
from typing import NamedTuple

from spelling import History, history_of
from state import State

LEGAL, ILLEGAL, REFUSED = 0, 1, 3


class Verdict(NamedTuple):
    """What is said of a text."""

    status: int
    line: str
    event: str | None = None


def first_illegal(history: History) -> int | None:
    """The place of the first entry that isn't legal after those before it."""
    state = State(history.settings)
    return next((at for at, entry in enumerate(history.entries) if not state.step(entry)), None)


def verdict(text: bytes) -> Verdict:
    """The verdict on a text, with the event of the first illegal entry."""
    history = history_of(text)
    if isinstance(history, int):
        return Verdict(REFUSED, f"refused {history}\n")
    at = first_illegal(history)
    if at is None:
        return Verdict(LEGAL, f"legal {len(history.entries)}\n")
    return Verdict(ILLEGAL, f"illegal {at + 2}\n", history.entries[at].event)


def main() -> int:
    argparse.ArgumentParser(description=__doc__, formatter_class=argparse.RawDescriptionHelpFormatter).parse_args()
    found = verdict(sys.stdin.buffer.read())
    print(found.line, end="")
    return found.status


if __name__ == "__main__":
    sys.exit(main())
