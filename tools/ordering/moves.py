"""How a call can go on in a state: the entries that it makes next, and what they change.

A call is one move where that loses no order. What only reads the clock may stand at any place since the call may have
begun. A cancel peeks right before it cancels, and one that answers `none` finds the timer not armed when it peeks. Where
a wheel is full, its slots are looked at right after the clock, since none is taken later. Looks at slots that no answer
tells are left out. A request is served by one move. A tick that sets the offset, a restart to another slot, a turn that
serves requests or in which timers expire, and the end of a process are more moves.
"""
from __future__ import annotations

from typing import Callable, Iterator

from .clock_moves import demonitor, monitor, notify, offset_told, system_told, tick, time_told
from .log import Call
from .move import Move
from .request_moves import ask, serve
from .state import State
from .timer_moves import alive, cancel_or_read, leave, restart, start
from .turn_moves import deliver, next_mail, take, turn

KINDS: dict[str, Callable[[State, Call], Iterator[Move]]] = {
    "tick": tick,
    "finalize": tick,
    "time": time_told,
    "system": system_told,
    "offset": offset_told,
    "start": start,
    "restart": restart,
    "cancel": cancel_or_read,
    "read": cancel_or_read,
    "alive": alive,
    "exit": leave,
    "take": take,
    "take_some": take,
    "next_mail": next_mail,
    "ask": ask,
    "serve": serve,
    "monitor": monitor,
    "demonitor": demonitor,
    "notify": notify,
    "advance": turn,
    "deliver": deliver,
    "turn": turn,
}


def moves(state: State, call: Call) -> list[Move]:
    """The moves that a call can make next."""
    return list(KINDS[call.kind](state, call))
