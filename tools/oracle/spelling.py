"""Written histories: their words and lines (docs/FORMATS.md, "Written histories").

What is read of an entry is a tuple of its fields, in their order; a field of several words is a tuple of these. So the
words of an entry are those of its parts, one after the other.
"""
from __future__ import annotations

import re
from typing import Any, Callable, NamedTuple

from model import Entry, Settings

Reader = Callable[[list[str]], Any]
NUMBER = re.compile(r"0|-?[1-9][0-9]{0,19}")
ACTOR = re.compile(r"k|[wismc](0|[1-9][0-9]{0,9})")
MODES = ("no", "single", "multi")
STATES = ("preliminary", "final", "volatile")
STATUSES = ("armed", "expired", "delivered", "cancelled", "orphaned", "dropped")


class Misspelled(Exception):
    """A line is none of its kind."""


def number(low: int, high: int) -> Reader:
    """Reads a number in a range."""

    def read(words: list[str]) -> int:
        word = words.pop() if words else ""
        if not NUMBER.fullmatch(word) or not low <= int(word) <= high:
            raise Misspelled(word)
        return int(word)

    return read


def one_of(*known: str) -> Reader:
    """Reads one of some words."""

    def read(words: list[str]) -> str:
        word = words.pop() if words else ""
        if word not in known:
            raise Misspelled(word)
        return word

    return read


def flag(words: list[str]) -> bool:
    """Reads whether something is so."""
    return bool(one_of("false", "true")(words) == "true")


def row(*parts: Reader) -> Reader:
    """Reads parts one after the other."""
    return lambda words: tuple(part(words) for part in parts)


def maybe(part: Reader) -> Reader:
    """Reads `none`, or a part."""

    def read(words: list[str]) -> Any:
        if words and words[-1] == "none":
            words.pop()
            return None
        return part(words)

    return read


N, M, I = number(0, 2**32 - 1), number(0, 2**64 - 1), number(-(2**63), 2**63 - 1)
LEFT = maybe(M)
READING = row(I, I)
TIMER = row(N, N, M)
START = row(one_of("after", "at"), I, N, M, one_of("wrapped", "bare"))
REQUEST = row(one_of("cancel", "read"), TIMER, N, flag)
MESSAGES = {
    "timeout": row(TIMER, M),
    "bare": row(M),
    "cancel_done": row(TIMER, LEFT),
    "read_done": row(TIMER, LEFT),
    "change": row(N, I),
}


def message(words: list[str]) -> tuple[Any, ...]:
    """Reads a message."""
    name = one_of(*MESSAGES)(words)
    return (name, *MESSAGES[name](words))


EVENTS: dict[str, tuple[Reader, ...]] = {
    "tick": (READING, one_of("plain", "force", "finalize"), I),
    "shift": (I, one_of(*STATES)),
    "look": (I,),
    "off": (I, one_of(*STATES)),
    "arm": (TIMER, START),
    "probe": (N, N, maybe(one_of(*STATUSES))),
    "peek": (TIMER, LEFT),
    "cancel": (TIMER, LEFT),
    "expire": (TIMER,),
    "orphan": (TIMER,),
    "deliver": (TIMER,),
    "drop": (TIMER,),
    "mark": (N, flag, flag),
    "advanced": (N, M),
    "ask": (N, REQUEST),
    "pick": (N, maybe(REQUEST)),
    "answer": (N, LEFT),
    "take": (N, maybe(message)),
    "unwatch": (N, N, flag),
    "watch": (N, N, I),
    "tell": (N, I),
}
SETTINGS = (one_of(*MODES), flag, I, N, N, N, N, READING)


def actor(word: str) -> str:
    """An actor, as it is written."""
    if not ACTOR.fullmatch(word) or int(word[1:] or 0) >= 2**32:
        raise Misspelled(word)
    return word


def whole(parts: tuple[Reader, ...], words: list[str]) -> tuple[Any, ...]:
    """Reads parts that are all the words."""
    words.reverse()
    found = tuple(part(words) for part in parts)
    if words:
        raise Misspelled(words[-1])
    return found


def settings_of(line: str) -> Settings:
    """The settings in the first line."""
    head, *words = line.split(" ")
    if head != "settings":
        raise Misspelled(head)
    found = Settings(*whole(SETTINGS, words))
    if not found.are_checked():
        raise Misspelled(line)
    return found


def entry_of(line: str) -> Entry:
    """The entry in a line."""
    words = line.split(" ")
    if len(words) < 3 or words[2] not in EVENTS:
        raise Misspelled(line)
    by, other, event = words[:3]
    return Entry(actor(by), other if other == "-" else actor(other), event, whole(EVENTS[event], words[3:]))


class History(NamedTuple):
    """What a text spells."""

    settings: Settings
    entries: list[Entry]


def history_of(text: bytes) -> History | int:
    """What the text spells, or the first line at which it is misspelled."""
    *lines, rest = text.decode("latin-1").split("\n")
    entries: list[Entry] = []
    settings = None
    for at, line in enumerate(lines, 1):
        try:
            if settings is None:
                settings = settings_of(line)
            else:
                entries.append(entry_of(line))
        except Misspelled:
            return at
    return len(lines) + 1 if rest or settings is None else History(settings, entries)


def words_of(value: Any) -> list[str]:
    """The words of a field."""
    if isinstance(value, tuple):
        return [word for part in value for word in words_of(part)]
    return ["none" if value is None else str(value).lower() if isinstance(value, bool) else str(value)]


def line_of(head: tuple[str, ...], fields: tuple[Any, ...]) -> str:
    """A line."""
    return " ".join([*head, *words_of(fields)]) + "\n"


def text_of(settings: Settings, entries: list[Entry]) -> str:
    """The text of a history."""
    return line_of(("settings",), tuple(settings)) + "".join(line_of(entry[:3], entry.fields) for entry in entries)
