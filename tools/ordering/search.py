"""The search for an order: depth first, with memory of the states from which none was found."""
from __future__ import annotations

from dataclasses import dataclass

from .log import Call, Log
from .move import Move
from .moves import moves
from .state import State


@dataclass(frozen=True)
class Found:
    """What came of a search: the entries in order, each with its call, if an order was found. Else the earliest call that
    no order could place, of those that were tried, and whether these were all. And how many moves were made.
    """

    entries: list[tuple[str, Call]] | None
    stuck: Call | None
    is_all: bool
    steps: int


@dataclass
class Frame:
    """A place of the search: what was noted and how many moves were made before it, and the moves that are left to try."""

    mark: int
    length: int
    choices: list[tuple[Call, Move]]


class Search:
    """A search in the calls of a log. `trail` has the moves made, each with its call and the places of its looks."""

    def __init__(self, log: Log) -> None:
        self.state = State(log)
        self.callers = range(log.settings.callers)
        self.trail: list[tuple[Call, Move, list[int]]] = []
        self.failed: set[int] = set()
        self.stuck: Call | None = None

    def first(self) -> Call | None:
        """Of the calls that haven't ended, the one that ends first in the log."""
        calls = [call for by in self.callers if (call := self.state.call(by))]
        return min(calls, key=lambda call: call.end, default=None)

    def open_calls(self) -> None:
        """Notes of each call that it may begin, once all that ended before it are placed."""
        first = self.first()
        for by in self.callers:
            call = self.state.call(by)
            if first and call and call.begin < first.end and ("since", by) not in self.state.words:
                self.state.put(("since", by), self.state.words["shown"])
                self.state.put_place(("since", by), len(self.trail))

    def make(self, call: Call, move: Move) -> None:
        """Makes a move of a call."""
        state, by = self.state, call.by
        places = [max(state.places["since", by], state.places["shown", number]) for number, _ in move.looks]
        self.trail.append((call, move, places))
        for name, value in move.words:
            state.put(name, value)
            if name == "shown":
                state.put_place(("shown", value), len(self.trail))
            elif name == ("since", by):
                state.put_place(name, len(self.trail))
        state.put(("part", by), move.part)
        if move.part is None:
            state.put(("next", by), state.words["next", by] + 1)
            state.put(("since", by), None)
            self.open_calls()

    def choices(self) -> list[tuple[Call, Move]]:
        """The moves to try: one that is free alone, as no order is lost by making it at once; else all, those of the calls
        that end first before the others. None from a state that has failed.
        """
        open_now = [call for by in self.callers if ("since", by) in self.state.words and (call := self.state.call(by))]
        found = []
        for call in sorted(open_now, key=lambda it: it.end):
            for move in moves(self.state, call):
                if move.is_free:
                    return [(call, move)]
                found.append((call, move))
        if found:
            if self.state.key in self.failed:
                return []
            self.failed.add(self.state.key)
        return found

    def run(self, limit: int) -> Found:
        """Searches, and makes so many moves at most."""
        self.open_calls()
        frames = [Frame(len(self.state.noted), 0, self.choices())]
        steps = 0
        while first := self.first():
            if self.stuck is None or first.end > self.stuck.end:
                self.stuck = first
            while frames and not frames[-1].choices:
                frames.pop()
            if not frames or steps == limit:
                return Found(None, self.stuck, not frames, steps)
            frame = frames[-1]
            self.state.undo(frame.mark)
            del self.trail[frame.length :]
            self.make(*frame.choices.pop(0))
            steps += 1
            frames.append(Frame(len(self.state.noted), len(self.trail), self.choices()))
        return Found(self.entries(), None, True, steps)

    def entries(self) -> list[tuple[str, Call]]:
        """The entries of the moves that were made, in order. A look stands before the move that was made at its place."""
        placed: list[tuple[tuple[int, int, int], str, Call]] = []
        for number, (call, move, places) in enumerate(self.trail):
            for place, (_, entry) in zip(places, move.looks):
                placed.append(((place, 0, number), entry, call))
            placed += [((number, 1, 0), entry, call) for entry in move.entries]
        return [(entry, call) for _, entry, call in sorted(placed, key=lambda it: it[0])]


def order(log: Log, limit: int) -> Found:
    """An order of the calls of a log, if one is found by so many moves."""
    return Search(log).run(limit)
