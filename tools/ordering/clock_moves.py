"""The moves of calls on the clock, and on monitors of its offset."""
from __future__ import annotations

from typing import Iterator

from .facts import is_move
from .log import Call
from .move import Move, first_seen, look, looked, off
from .state import State

MOST_MONITORS = 64


def tick(state: State, call: Call) -> Iterator[Move]:
    """A tick or a finalization: a Tick, and then a Shift if one was due."""
    number = state.words["shown"]
    shown = state.shows[number]
    if ("part", call.by) in state.words:
        to = state.shows[number + 1]
        yield Move([], [f"k c0 shift {to.offset} {to.state}"], [("shown", number + 1)])
    elif is_move(call):
        mono, sys, *act = call.asked
        time, shift = call.answer[-2:]
        if time >= shown.time:
            entry = f"k c0 tick {mono} {sys} {act[0] if act else 'finalize'} {time}"
            yield Move([], [entry], [("shown", number + 1)], part=shift != "none" or None)
    elif call.answer[0] in ("bad_reading", "offset_wide"):
        yield Move([], [], [], is_free=True)
    elif call.answer == (shown.state, shown.time, "none"):
        yield Move([], [f"k c0 off {shown.offset} {shown.state}"], [], is_free=True)


def time_told(state: State, call: Call) -> Iterator[Move]:
    """Monotonic time."""
    for found in looked(state, call, f"c{call.by}", lambda time: time == call.answer[0]):
        yield Move([found], [], [], is_free=True)


def offset_told(state: State, call: Call) -> Iterator[Move]:
    """The time offset."""
    number = first_seen(state, call, lambda shown: (shown.offset, shown.state) == call.answer)
    if number is not None:
        yield Move([(number, off(call, state.shows[number]))], [], [], is_free=True)


def system_told(state: State, call: Call) -> Iterator[Move]:
    """System time: the time, and then the offset."""
    for first in state.seen(call.by):
        time = state.shows[first].time
        for second in range(first, state.words["shown"] + 1):
            if time + state.shows[second].offset == call.answer[0]:
                looks = [(first, look(f"c{call.by}", time)), (second, off(call, state.shows[second]))]
                yield Move(looks, [], [], is_free=True)
                return


def offsets_seen(state: State, call: Call) -> list[tuple[int, int]]:
    """The offsets that the clock has shown since the call may have begun, each with the first number of its."""
    found: dict[int, int] = {}
    for number in state.seen(call.by):
        found.setdefault(state.shows[number].offset, number)
    return [(number, offset) for offset, number in found.items()]


def monitor(state: State, call: Call) -> Iterator[Move]:
    """A monitor of the offset is made."""
    process, number = call.asked[0], state.words.get(("monitor", call.asked[0]), 0)
    monitors = state.get("monitors", process)
    if call.answer == ("full",):
        if len(monitors) == MOST_MONITORS:
            yield Move([(state.words["shown"], off(call, state.shows[state.words["shown"]]))], [], [], is_free=True)
    elif call.answer == (number,) and len(monitors) < MOST_MONITORS:
        for shown, offset in offsets_seen(state, call):
            words = [(("monitors", process), (*monitors, (number, offset))), (("monitor", process), number + 1)]
            yield Move([(shown, f"c{call.by} m{process} watch {process} {number} {offset}")], [], words)


def demonitor(state: State, call: Call) -> Iterator[Move]:
    """A monitor of the offset is removed."""
    process, number = call.asked
    monitors = state.get("monitors", process)
    others = tuple(it for it in monitors if it[0] != number)
    has_stood = len(others) < len(monitors)
    if has_stood == (call.answer == ("done",)):
        entry = f"c{call.by} m{process} unwatch {process} {number} {'true' if has_stood else 'false'}"
        yield Move([], [entry], [(("monitors", process), others or None)], is_free=True)


def notify(state: State, call: Call) -> Iterator[Move]:
    """The monitors of a process are told the offset."""
    process = call.asked[0]
    monitors = state.get("monitors", process)
    for shown, offset in offsets_seen(state, call):
        news = tuple(("change", number, offset) for number, told in monitors if told != offset)
        mail = state.with_mail(process, news)
        if call.answer == (len(news),) and mail is not None:
            told = tuple((number, offset) for number, _ in monitors)
            entry = f"c{call.by} m{process} tell {process} {offset}"
            yield Move([(shown, entry)], [], [(("monitors", process), told or None), *mail])
