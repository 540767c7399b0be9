"""The moves of requests to a shard's scheduler, and of their service."""
from __future__ import annotations

from typing import Iterator

from .facts import left, names_timer
from .log import Call, Timer
from .move import Move, look, spelled
from .state import State
from .timer_moves import settled


def ask(state: State, call: Call) -> Iterator[Move]:
    """A request is put into the inbox of the shard."""
    wheel = call.by - 1
    waiting = (*state.get("inbox", wheel), call.asked)
    entry = f"c{call.by} i{wheel} ask {wheel} {spelled(call.asked)}"
    yield Move([], [entry], [(("inbox", wheel), waiting)], is_free=True)


def serve(state: State, call: Call) -> Iterator[Move]:
    """A request is served, or there was none."""
    if call.served:
        yield from served(state, call)
    elif not state.get("inbox", call.by - 1):
        yield Move([], [picked(call, "none")], [], is_free=True)


def picked(call: Call, got: str) -> str:
    """The entry by which a scheduler takes the first request out of its inbox, or finds none."""
    return f"s{call.by - 1} i{call.by - 1} pick {call.by - 1} {got}"


def lefts(state: State, call: Call, timer: Timer) -> list[tuple[int, int | str]]:
    """What a look since the call may have begun can find left of a timer, each with the number of what the clock showed."""
    row = state.armed(timer)
    if row is None:
        return [(state.words["shown"], "none")]
    found: dict[int, int] = {}
    for number in state.seen(call.by):
        found.setdefault(left(state.settings, row.deadline, state.shows[number].time), number)
    return [(number, rest) for rest, number in found.items()]


def served(state: State, call: Call) -> Iterator[Move]:
    """The first request that waits is taken out of the inbox and answered, as is said by the answer if that was taken.

    The inbox and the mailbox are the shard's own, so all of this is one move. A cancel that finds nothing left hinders
    nobody only if its answer says so: otherwise it may be that the timer is started later, and then cancelled by it.
    """
    scheduler, waiting = f"s{call.by - 1}", state.get("inbox", call.by - 1)
    if not waiting:
        return
    kind, *words, process, info = waiting[0]
    timer = (words[0], words[1], words[2])
    is_told = info == "true" and state.is_taken(process)
    is_hit = kind == "cancel" and state.armed(timer) is not None
    if is_hit and not state.may_settle(timer):
        return
    for number, rest in lefts(state, call, timer):
        mail = state.with_mail(process, ((f"{kind}_done", *timer, rest),)) if info == "true" else []
        if mail is None:
            continue
        looks = [(number, picked(call, spelled(waiting[0]))), (number, look(scheduler, state.shows[number].time))]
        entries = [f"{scheduler} - peek {spelled(timer)} {rest}"] if names_timer(state.settings, timer) else []
        if is_hit:
            entries.append(f"{scheduler} - cancel {spelled(timer)} {rest}")
        entries.append(f"{scheduler} m{process} answer {call.by - 1} {rest}")
        changes = [(("inbox", call.by - 1), waiting[1:] or None), *mail, *(settled(state, timer) if is_hit else [])]
        yield Move(looks, entries, changes, is_free=not is_hit and (kind == "read" or is_told))
        return
