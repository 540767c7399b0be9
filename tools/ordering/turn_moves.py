"""The moves of turns and their parts, and of what finds and takes their messages."""
from __future__ import annotations

from typing import Any, Hashable, Iterator

from .facts import down
from .log import Call, Timer
from .move import Move, looked, spelled
from .request_moves import picked, served
from .state import State

SERVED_A_TURN = 64


def turn(state: State, call: Call) -> Iterator[Move]:
    """An advance or a turn: a turn serves requests first, one by one, and then timers expire, one by one. With the last of
    them the call ends.
    """
    part = state.words.get(("part", call.by), ("served", 0))
    if part[0] == "expired":
        yield from expired(state, call, [], part[1])
    elif part[1] < call.served:
        for move in served(state, call):
            since = (("since", call.by), state.words["shown"])
            yield move._replace(words=[*move.words, since], part=("served", part[1] + 1))
    else:
        yield from advanced(state, call)


def due_by(state: State, wheel: int, to: int) -> list[Timer]:
    """The armed timers of a wheel that are due by a millisecond, in order of their starts."""
    return [timer for timer in state.get("armed", wheel) if state.words["row", timer].deadline <= to]


def advanced(state: State, call: Call) -> Iterator[Move]:
    """The begin of an advance, which looks at the time. A turn that served fewer requests than it may found no other one."""
    assert call.advance is not None
    wheel, (to, count) = call.by - 1, call.advance
    looks = looked(state, call, f"s{wheel}", lambda time: down(state.settings, time) == to)
    left = [timer for timer in due_by(state, wheel, to) if timer not in state.facts.cancelled]
    if not looks or not sum(timer not in state.facts.unsure for timer in left) <= count <= len(left):
        return
    if call.kind == "turn" and call.served < SERVED_A_TURN:
        if state.get("inbox", wheel):
            return
        looks = [(looks[0][0], picked(call, "none")), *looks]
    yield from expired(state, call, looks, count)


def expired(state: State, call: Call, looks: list[tuple[int, str]], count: int) -> Iterator[Move]:
    """The first timer that is due expires, as so many are still to do. One that a call cancels is left to that."""
    assert call.advance is not None
    wheel = call.by - 1
    due = due_by(state, wheel, call.advance[0])
    if not due:
        if count == 0:
            yield from turned(state, call, Move(looks, [], []), state.get("expired", wheel))
        return
    timer = min(due, key=lambda it: state.words["row", it].deadline)
    if count == 0 or timer in state.facts.cancelled or not state.may_settle(timer):
        return
    expired = (*state.get("expired", wheel), timer)
    others = tuple(it for it in state.get("armed", wheel) if it != timer)
    row = state.words["row", timer]._replace(status="expired")
    words = [(("row", timer), row), (("armed", wheel), others or None), (("expired", wheel), expired)]
    move = Move(looks, [f"s{wheel} w{wheel} expire {spelled(timer)}"], words, part=("expired", count - 1))
    if len(due) > 1:
        yield move
    elif count == 1:
        yield from turned(state, call, move, expired)


def turned(state: State, call: Call, move: Move, expired: tuple[Timer, ...]) -> Iterator[Move]:
    """The end of an advance or a turn after a move: no timer is due any more, and a turn delivers what expired."""
    assert call.advance is not None
    wheel = call.by - 1
    entries = [*move.entries, f"s{wheel} w{wheel} advanced {wheel} {call.advance[0]}"]
    words = move.words
    if call.kind == "turn":
        handed = delivered(state, wheel, expired, call.answer[3:])
        if handed is None:
            return
        entries, words = entries + handed[0], words + handed[1]
    yield Move(move.looks, entries, words, is_free=not move.entries)


def delivered(
    state: State, wheel: int, expired: tuple[Timer, ...], counts: tuple[int, int]
) -> tuple[list[str], list[tuple[Hashable, Any]]] | None:
    """The entries of a delivery, and what they change, if so many messages are put and discarded by it."""
    entries: list[str] = []
    words: list[tuple[Hashable, Any]] = [(("expired", wheel), None)]
    mail: dict[int, tuple[Any, ...]] = {}
    for timer in expired:
        row = state.words["row", timer]
        words += [(("row", timer), None), (("slot", *timer[:2]), None)]
        if ("exited", row.dest) in state.words:
            entries += [f"s{wheel} - mark {row.dest} false true", f"s{wheel} - drop {spelled(timer)}"]
        else:
            message = ("bare", row.msg) if row.kind == "bare" else ("timeout", *timer, row.msg)
            mail[row.dest] = (*mail.get(row.dest, ()), message)
            entries += [f"s{wheel} - mark {row.dest} false false", f"s{wheel} m{row.dest} deliver {spelled(timer)}"]
    put = sum(map(len, mail.values()))
    changes = [state.with_mail(process, messages) for process, messages in mail.items()]
    if counts != (put, len(expired) - put) or None in changes:
        return None
    return entries, words + [word for change in changes for word in change or ()]


def deliver(state: State, call: Call) -> Iterator[Move]:
    """A delivery of all expired timers."""
    handed = delivered(state, call.by - 1, state.get("expired", call.by - 1), call.answer)
    if handed is not None:
        yield Move([], *handed, is_free=True)


def mark(state: State, call: Call, process: int) -> str:
    """The entry by which a caller looks whether a process has exited."""
    return f"c{call.by} - mark {process} false {'true' if ('exited', process) in state.words else 'false'}"


def take(state: State, call: Call) -> Iterator[Move]:
    """Messages of a process are taken: one, or some, until there are so many, or none is left."""
    process, *room = call.asked
    messages, ended = call.messages, call.answer[0]
    has_exited = ("exited", process) in state.words
    mail = state.get("mail", process)
    if mail[: len(messages)] != tuple(messages) or has_exited and messages:
        return
    entries = []
    for message in messages:
        entries += [mark(state, call, process), f"c{call.by} m{process} take {process} {spelled(message)}"]
    if ended in ("exited", "empty"):
        if has_exited != (ended == "exited") or not has_exited and len(mail) > len(messages):
            return
        entries.append(mark(state, call, process))
        if not has_exited:
            entries.append(f"c{call.by} m{process} take {process} none")
    if room and not (len(messages) == room[0] if ended == "most" else len(messages) < room[0]):
        return
    yield Move([], entries, [(("mail", process), mail[len(messages) :] or None)], is_free=True)


def next_mail(state: State, call: Call) -> Iterator[Move]:
    """A process of the shard that has mail and hasn't exited is found, or there is none. No answer tells which of those
    that have exited were looked at.
    """
    homes = state.facts.homes.get(call.by, set())
    found = [it for it in homes if state.get("mail", it) and ("exited", it) not in state.words]
    if call.answer == ("empty",):
        if not found:
            yield Move([], [], [], is_free=True)
    elif call.answer[0] in found:
        yield Move([], [mark(state, call, call.answer[0])], [], is_free=True)
