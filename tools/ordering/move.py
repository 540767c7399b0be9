"""A move of a call, and what the moves have in common."""
from __future__ import annotations

from typing import Any, Callable, Hashable, NamedTuple

from .facts import Shown
from .log import Call
from .state import State


class Move(NamedTuple):
    """Entries of a call. `looks` only read the clock, each what it showed by that number, or take a request out of the
    shard's own inbox beside such a look; the others stand where the move does, and change `words`. With `part` the call goes
    on, and else it has ended. One that is `free` hinders no other call, whenever it is made.
    """

    looks: list[tuple[int, str]]
    entries: list[str]
    words: list[tuple[Hashable, Any]]
    part: Any = None
    is_free: bool = False


def spelled(words: tuple[Any, ...]) -> str:
    """The words of a timer, of a request or of a message."""
    return " ".join(map(str, words))


def look(actor: str, time: int) -> str:
    """The entry of a look."""
    return f"{actor} - look {time}"


def off(call: Call, shown: Shown) -> str:
    """The entry of a read of the offset."""
    return f"c{call.by} - off {shown.offset} {shown.state}"


def first_seen(state: State, call: Call, test: Callable[[Shown], bool]) -> int | None:
    """The number of the first that the clock showed since the call may have begun and that passes."""
    return next((number for number in state.seen(call.by) if test(state.shows[number])), None)


def looked(state: State, call: Call, actor: str, test: Callable[[int], bool]) -> list[tuple[int, str]]:
    """A look by an actor that found a time which passes, or nothing."""
    number = first_seen(state, call, lambda shown: test(shown.time))
    return [] if number is None else [(number, look(actor, state.shows[number].time))]


def now(state: State, call: Call) -> tuple[int, str]:
    """A look by the caller right here."""
    number = state.words["shown"]
    return number, look(f"c{call.by}", state.shows[number].time)
