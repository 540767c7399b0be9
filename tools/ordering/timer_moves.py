"""The moves of starts, restarts, cancels and reads, and of what ends a process."""
from __future__ import annotations

from typing import Any, Hashable, Iterator

from .facts import deadline_of, left, names_timer
from .log import Call, Timer
from .move import Move, look, looked, now, spelled
from .state import Row, State


def start(state: State, call: Call) -> Iterator[Move]:
    """A start, and the cancel of its timer if its process has exited."""
    timer = call.started
    if state.words.get(("part", call.by)) == "orphan":
        assert timer is not None
        yield from orphaned(state, call, [timer])
    elif call.answer == ("bad_time",):
        for found in looked(state, call, f"c{call.by}", lambda time: deadline_of(state.settings, call, time) is None):
            yield Move([found], [], [], is_free=True)
    elif call.answer == ("full",):
        for probes in full(state, call):
            yield Move([now(state, call)], probes, [], is_free=True)
    elif timer and is_free(state, call, timer):
        for number in numbers(state, call, timer):
            yield armed(state, call, timer, number)


def restart(state: State, call: Call) -> Iterator[Move]:
    """A look at the time, by which the next timer has a deadline. Then the old one is cancelled and the next one started, by
    one step in the old one's slot, and else by two; or neither is.
    """
    timer, part = call.started, state.words.get(("part", call.by))
    if part == "orphan" or call.answer == ("bad_time",):
        yield from start(state, call)
    elif timer is None:
        for found in looked(state, call, f"c{call.by}", lambda time: deadline_of(state.settings, call, time) is not None):
            for move in refused(state, call, found[0]) if call.answer == ("full",) else unarmed(state, call):
                yield move._replace(looks=[found])
    elif part is not None:
        if is_free(state, call, timer):
            yield armed(state, call, timer, part)._replace(looks=[])
    elif timer[0] == call.by - 1 and state.armed(call.timer) and state.may_settle(call.timer):
        for number in numbers(state, call, timer):
            peek = peeked(state, call, number)
            entries = [f"c{call.by} - peek {peek}", f"c{call.by} - cancel {peek}"]
            if timer[:2] == call.timer[:2]:
                move = armed(state, call, timer, number)
                yield move._replace(entries=[*entries, *move.entries], words=[(("row", call.timer), None), *move.words])
            else:
                found = (number, look(f"c{call.by}", state.shows[number].time))
                yield Move([found], entries, settled(state, call.timer), part=number)


def refused(state: State, call: Call, number: int) -> Iterator[Move]:
    """A restart of an armed timer for which each slot is taken."""
    if state.armed(call.timer):
        for probes in full(state, call):
            yield Move([], [*probes, f"c{call.by} - peek {peeked(state, call, number)}"], [], is_free=True)


def full(state: State, call: Call) -> Iterator[list[str]]:
    """The probes that find each slot taken, if each is."""
    wheel, probes = call.by - 1, []
    for slot in range(state.settings.slots):
        timer = state.words.get(("slot", wheel, slot))
        if timer is None:
            return
        probes.append(f"c{call.by} w{wheel} probe {wheel} {slot} {state.words['row', timer].status}")
    yield probes


def is_free(state: State, call: Call, timer: Timer) -> bool:
    """Whether a timer can be started by a call, as nobody has its slot."""
    return timer[0] == call.by - 1 and ("slot", *timer[:2]) not in state.words


def peeked(state: State, call: Call, number: int) -> str:
    """What a call's timer has left by what the clock showed by a number."""
    row = state.armed(call.timer)
    assert row is not None
    return f"{spelled(call.timer)} {left(state.settings, row.deadline, state.shows[number].time)}"


def numbers(state: State, call: Call, timer: Timer) -> Iterator[int]:
    """The numbers of what the clock has shown by which a timer has each of its possible deadlines."""
    wanted = set(state.facts.deadlines[timer])
    for number in state.seen(call.by):
        deadline = deadline_of(state.settings, call, state.shows[number].time)
        if deadline in wanted:
            wanted.remove(deadline)
            yield number


def armed(state: State, call: Call, timer: Timer, number: int) -> Move:
    """A timer is armed, with the deadline by what the clock showed by a number. It has the slot of a call's timer if that is
    the same one.
    """
    form, milliseconds, dest, msg, kind = call.start
    time = state.shows[number].time
    deadline = deadline_of(state.settings, call, time)
    assert deadline is not None
    has_exited = ("exited", dest) in state.words
    entries = [
        f"c{call.by} w{timer[0]} arm {spelled(timer)} {form} {milliseconds} {dest} {msg} {kind}",
        f"c{call.by} - mark {dest} false {'true' if has_exited else 'false'}",
    ]
    others = tuple(it for it in state.get("armed", timer[0]) if it[:2] != timer[:2])
    words = [
        (("row", timer), Row("armed", deadline, dest, msg, kind)),
        (("slot", *timer[:2]), timer),
        (("armed", timer[0]), (*others, timer)),
    ]
    return Move([(number, look(f"c{call.by}", time))], entries, words, part="orphan" if has_exited else None)


def settled(state: State, timer: Timer) -> list[tuple[Hashable, Any]]:
    """What changes where a timer is cancelled."""
    others = tuple(it for it in state.get("armed", timer[0]) if it != timer)
    return [(("row", timer), None), (("slot", *timer[:2]), None), (("armed", timer[0]), others or None)]


def orphaned(state: State, call: Call, timers: list[Timer]) -> Iterator[Move]:
    """One of some timers, whose process has exited, is cancelled for that. The call ends with the last of those that are
    armed. One that a call cancels is left to that.
    """
    waiting = [timer for timer in timers if state.armed(timer)]
    if not waiting:
        yield Move([], [], [], is_free=True)
    for timer in waiting:
        if timer not in state.facts.cancelled and state.may_settle(timer):
            entry = f"c{call.by} w{timer[0]} orphan {spelled(timer)}"
            yield Move([], [entry], settled(state, timer), part="orphan" if len(waiting) > 1 else None)


def unarmed(state: State, call: Call) -> Iterator[Move]:
    """A cancel or a read that found nothing left."""
    if not names_timer(state.settings, call.timer):
        yield Move([now(state, call)], [], [], is_free=True)
    elif state.armed(call.timer) is None:
        yield Move([now(state, call)], [f"c{call.by} - peek {spelled(call.timer)} none"], [], is_free=True)


def cancel_or_read(state: State, call: Call) -> Iterator[Move]:
    """A cancel, or a read."""
    if not call.has_left:
        yield from unarmed(state, call)
        return
    row = state.armed(call.timer)
    if row is None:
        return
    words, rest = spelled(call.timer), call.answer[0]
    for found in looked(state, call, f"c{call.by}", lambda time: left(state.settings, row.deadline, time) == rest):
        peek = f"c{call.by} - peek {words} {rest}"
        if call.kind == "read":
            yield Move([found], [peek], [], is_free=True)
        elif state.may_settle(call.timer):
            yield Move([found], [peek, f"c{call.by} - cancel {words} {rest}"], settled(state, call.timer))


def alive(state: State, call: Call) -> Iterator[Move]:
    """Whether a process is alive."""
    process, is_alive = call.asked[0], call.answer == ("true",)
    if is_alive != (("exited", process) in state.words):
        yield Move([], [f"c{call.by} - mark {process} false {'false' if is_alive else 'true'}"], [], is_free=True)


def leave(state: State, call: Call) -> Iterator[Move]:
    """The exit of a process: it is marked, and then each of its timers is cancelled."""
    process, is_first = call.asked[0], call.answer == ("true",)
    mine = [timer for timer in state.get("armed", call.by - 1) if state.words["row", timer].dest == process]
    if state.words.get(("part", call.by)):
        yield from orphaned(state, call, mine)
    elif is_first != (("exited", process) in state.words):
        entry = f"c{call.by} - mark {process} true {'false' if is_first else 'true'}"
        if is_first:
            yield Move([], [entry], [(("exited", process), True)], part="orphan" if mine else None)
        else:
            yield Move([], [entry], [], is_free=True)
