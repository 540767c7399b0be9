"""What is known at a place of an order: the words of the model that the calls so far have left, and where each caller is.

Each change is noted, so that it can be undone.
"""
from __future__ import annotations

from typing import Any, Hashable, NamedTuple

from .facts import Facts
from .log import Call, Log, Timer


class Row(NamedTuple):
    """A timer that is armed, or expired and not yet handed over."""

    status: str
    deadline: int
    dest: int
    msg: int
    kind: str


class State:
    """The state after some calls. `words` has what the calls that are left depend on, and nothing else:

        ("next", C)         the number of the call at which caller C is
        ("part", C)         where it is inside of that call, if some of its entries were made
        ("since", C)        if that call may have begun, the number of what the clock showed then, or after what it did last,
                            if it has looked at the clock for that
        "shown"             the number of what the clock shows
        ("row", TIMER)      the row of a timer that is armed or expired
        ("slot", W, K)      the timer that takes a slot
        ("armed", W)        the armed timers of a wheel, in order of their starts
        ("expired", W)      its expired timers, in order
        ("inbox", W)        the requests to its shard that wait, in order
        ("exited", P)       whether a process has exited
        ("mail", P)         its messages, and so "monitors" with the offset last told, and "monitor", the next number
        ("put", P)          how many messages it got

    `places` tells by which move of the order that is so of a call and of what the clock shows. `key` is a number by which
    the words are remembered: two states have hardly ever the same.
    """

    def __init__(self, log: Log) -> None:
        self.log = log
        self.settings = log.settings
        self.facts = Facts(log)
        self.shows = self.facts.shows
        self.words: dict[Hashable, Any] = {("next", by): 0 for by in range(log.settings.callers)}
        self.words["shown"] = 0
        self.places: dict[Hashable, Any] = {("shown", 0): 0}
        self.key = 0
        self.noted: list[tuple[dict[Hashable, Any], Hashable, Any]] = []

    def put(self, name: Hashable, value: Any) -> None:
        """Sets a word, or takes it away if there is no value."""
        self.noted.append((self.words, name, self.words.get(name)))
        self._set(self.words, name, value)

    def put_place(self, name: Hashable, value: int) -> None:
        """Sets a place."""
        self.noted.append((self.places, name, self.places.get(name)))
        self._set(self.places, name, value)

    def undo(self, mark: int) -> None:
        """Takes back all changes but the first so many."""
        while len(self.noted) > mark:
            self._set(*self.noted.pop())

    def _set(self, words: dict[Hashable, Any], name: Hashable, value: Any) -> None:
        before = words.pop(name, None)
        if value is not None:
            words[name] = value
        if words is self.words:
            self.key ^= hash((name, before)) ^ hash((name, value))

    def get(self, *name: Hashable) -> Any:
        """A word that is a list, which is empty at first."""
        return self.words.get(name, ())

    def row(self, timer: Timer) -> Row | None:
        """The row of a timer that is armed or expired."""
        return self.words.get(("row", timer))

    def armed(self, timer: Timer) -> Row | None:
        """The row of a timer that is armed."""
        row = self.row(timer)
        return row if row and row.status == "armed" else None

    def call(self, by: int) -> Call | None:
        """The call at which a caller is, if one is left."""
        calls, number = self.log.calls[by], self.words["next", by]
        return calls[number] if number < len(calls) else None

    def seen(self, by: int) -> range:
        """The numbers of what the clock has shown since the caller's call may have begun."""
        return range(self.words["since", by], self.words["shown"] + 1)

    def with_mail(self, process: int, messages: tuple[Any, ...]) -> list[tuple[Hashable, Any]] | None:
        """What changes where messages are put into a mailbox, if those that are taken later are these."""
        count = self.words.get(("put", process), 0)
        for place, message in enumerate(messages, count):
            if self.facts.taken.get(process, [])[place : place + 1] not in ([], [message]):
                return None
        mail = (*self.get("mail", process), *messages)
        return [(("mail", process), mail), (("put", process), count + len(messages))] if messages else []

    def is_taken(self, process: int) -> bool:
        """Whether the next message that is put into a mailbox was taken."""
        return self.words.get(("put", process), 0) < len(self.facts.taken.get(process, []))

    def may_settle(self, timer: Timer) -> bool:
        """Whether nobody is left who reads the timer while it is armed."""
        return all(self.words["next", by] > number for by, number in self.facts.readers.get(timer, ()))
