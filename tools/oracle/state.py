"""The state of a history, and which entry may come next (docs/MODEL.md, "The state", "Legal")."""
from __future__ import annotations

import collections
from typing import Any, NamedTuple

from model import ROUND, USE, Clock, Entry, Fields, Reading, Settings, Slot, Timer

MONITORS = 64
# Who makes an event, and with whom: `=` is the number that the event names first, no number any one that there is.
MAKERS = {
    **dict.fromkeys(("tick", "shift"), ("k c",)),
    **dict.fromkeys(("look", "peek", "cancel", "mark"), ("c -", "s -")),
    **dict.fromkeys(("arm", "orphan"), ("c w=",)),
    **dict.fromkeys(("expire", "advanced"), ("s= w=",)),
    **dict.fromkeys(("deliver", "answer"), ("s= m",)),
    **dict.fromkeys(("take", "unwatch", "watch", "tell"), ("c m=",)),
    "off": ("c -", "s -", "k c"),
    "probe": ("c w=", "s= w="),
    "drop": ("s= -",),
    "ask": ("c i=",),
    "pick": ("s= i=",),
}


class Row(NamedTuple):
    """What stays of a timer."""

    deadline: int
    process: int
    message: int
    kind: str


class Process:
    """Whether a process has exited, its mailbox, and its monitors with the offset last told."""

    def __init__(self) -> None:
        self.exited = False
        self.mail: collections.deque[Fields] = collections.deque()
        self.monitors: dict[int, int] = {}
        self.next = 0


class Scheduler:
    """The armed timers of a scheduler in order of starting, its expired ones, its inbox, its hand and its last result."""

    def __init__(self) -> None:
        self.armed: dict[Timer, Row] = {}
        self.expired: collections.deque[Timer] = collections.deque()
        self.inbox: collections.deque[Fields] = collections.deque()
        self.hand: Fields | None = None
        self.result: list[int | None] = []

    def first_armed(self) -> Timer | None:
        """The armed timer that comes first, by deadline and then by starting."""
        return min(self.armed, key=lambda it: self.armed[it].deadline, default=None)


def first_of(queue: collections.deque[Any]) -> Any:
    """The first of a queue, or none."""
    return queue[0] if queue else None


class State:
    """The state after some entries. `step` takes one more if it is legal, and else changes nothing."""

    def __init__(self, settings: Settings) -> None:
        self.settings = settings
        self.clock = Clock(settings)
        self.looks: dict[str, int] = {}
        self.slots: dict[tuple[int, int], Slot] = collections.defaultdict(Slot)
        self.rows: dict[Timer, Row] = {}
        self.status: dict[Timer, str] = {}
        self.processes: dict[int, Process] = collections.defaultdict(Process)
        self.schedulers: dict[int, Scheduler] = collections.defaultdict(Scheduler)

    def step(self, entry: Entry) -> bool:
        """Whether the entry is legal here; if so it is made."""
        if not self.is_made_by_its_actors(entry) or not self.is_in_range(entry):
            return False
        return bool(getattr(self, f"_{entry.event}")(entry, *entry.fields))

    def is_made_by_its_actors(self, entry: Entry) -> bool:
        """Whether the actors are those of the event."""
        return any(all(map(self.fits, made.split(), entry[:2], [entry] * 2)) for made in MAKERS[entry.event])

    def fits(self, made: str, actor: str, entry: Entry) -> bool:
        """Whether an actor is as the table says, and there is one of this number."""
        if made[0] != actor[0] or made in "k-":
            return made == actor
        settings, number, named = self.settings, int(actor[1:]), entry.fields[0]
        count = {"m": settings.processes, "c": settings.callers}.get(actor[0], settings.schedulers)
        first = named[0] if isinstance(named, tuple) else named
        return number < count and (made[-1] != "=" or number == first)

    def is_in_range(self, entry: Entry) -> bool:
        """Whether there is each scheduler, slot and process that the event names."""
        fields, processes = entry.fields, self.settings.processes
        if entry.event in ("arm", "peek", "cancel", "expire", "orphan", "deliver", "drop"):
            return self.has_slot(*fields[0][:2]) and (entry.event != "arm" or fields[1][2] < processes)
        if entry.event == "probe":
            return self.has_slot(*fields[:2])
        if entry.event == "mark":
            return bool(fields[0] < processes)
        return entry.event != "ask" or bool(fields[1][2] < processes)

    def has_slot(self, wheel: int, slot: int) -> bool:
        """Whether there is a slot."""
        return wheel < self.settings.schedulers and slot < self.settings.slots

    def names_timer(self, timer: Timer) -> bool:
        """Whether a reference may name a timer."""
        return self.has_slot(*timer[:2]) and (1 <= timer[2] <= ROUND or USE <= timer[2] < 2**61)

    def look_of(self, actor: str) -> int:
        """The last look of an actor."""
        return self.looks.get(actor, self.settings.start)

    def status_of(self, wheel: int, slot: int) -> str | None:
        """The status of the last timer of a slot."""
        return self.status.get((wheel, slot, self.slots[wheel, slot].last))

    def left(self, timer: Timer, actor: str) -> int | None:
        """What is left of a timer by the last look of an actor."""
        if self.status.get(timer) != "armed":
            return None
        return max(0, self.rows[timer].deadline - self.settings.up(self.look_of(actor)))

    def generation(self, wheel: int, slot: int, deadline: int, actor: str) -> int | None:
        """The generation of the next timer of a slot; none if it is taken or rests."""
        if self.status_of(wheel, slot) in ("armed", "expired"):
            return None
        return self.slots[wheel, slot].next(self.settings.down(self.look_of(actor)), deadline)

    def settle(self, timer: Timer, status: str) -> bool:
        """Settles an armed timer."""
        if self.status.get(timer) != "armed":
            return False
        self.status[timer] = status
        del self.schedulers[timer[0]].armed[timer]
        return True

    def hand_over(self, timer: Timer, status: str) -> bool:
        """Hands over an expired timer."""
        self.status[timer] = status
        self.schedulers[timer[0]].expired.popleft()
        return True

    def _tick(self, _: Entry, reading: Reading, act: str, now: int) -> bool:
        if not self.clock.can_tick(reading, act) or now != self.clock.time_after(reading):
            return False
        self.clock.tick(reading, act)
        return True

    def _shift(self, _: Entry, offset: int, state: str) -> bool:
        if self.clock.due != (offset, state):
            return False
        self.clock.offset, self.clock.state, self.clock.due = offset, state, None
        return True

    def _look(self, entry: Entry, now: int) -> bool:
        if now != self.clock.time:
            return False
        self.looks[entry.by] = now
        return True

    def _off(self, _: Entry, offset: int, state: str) -> bool:
        return (offset, state) == (self.clock.offset, self.clock.state)

    def _arm(self, entry: Entry, timer: Timer, start: tuple[str, int, int, int, str]) -> bool:
        wheel, slot, generation = timer
        when, amount, process, message, kind = start
        deadline = self.settings.deadline(when, amount, self.look_of(entry.by))
        if deadline is None or generation != self.generation(wheel, slot, deadline, entry.by):
            return False
        row = Row(self.slots[wheel, slot].use(generation, deadline), process, message, kind)
        self.rows[timer], self.status[timer] = row, "armed"
        self.schedulers[wheel].armed[timer] = row
        return True

    def _probe(self, _: Entry, wheel: int, slot: int, found: str | None) -> bool:
        return found == self.status_of(wheel, slot)

    def _peek(self, entry: Entry, timer: Timer, left: int | None) -> bool:
        if left != self.left(timer, entry.by):
            return False
        if entry.by[0] == "s":
            scheduler = self.schedulers[int(entry.by[1:])]
            if scheduler.hand and scheduler.hand[1] == timer:
                scheduler.result = [left]
        return True

    def _cancel(self, entry: Entry, timer: Timer, left: int | None) -> bool:
        if not self._peek(entry, timer, left):
            return False
        self.settle(timer, "cancelled")
        return True

    def _expire(self, entry: Entry, timer: Timer) -> bool:
        scheduler = self.schedulers[timer[0]]
        if self.status.get(timer) != "armed" or scheduler.first_armed() != timer:
            return False
        if self.rows[timer].deadline > self.settings.down(self.look_of(entry.by)):
            return False
        scheduler.expired.append(timer)
        return self.settle(timer, "expired")

    def _orphan(self, _: Entry, timer: Timer) -> bool:
        return timer in self.rows and self.processes[self.rows[timer].process].exited and self.settle(timer, "orphaned")

    def _deliver(self, entry: Entry, timer: Timer) -> bool:
        if first_of(self.schedulers[timer[0]].expired) != timer or entry.other != f"m{self.rows[timer].process}":
            return False
        row = self.rows[timer]
        message = ("timeout", timer, row.message) if row.kind == "wrapped" else ("bare", row.message)
        self.processes[row.process].mail.append(message)
        return self.hand_over(timer, "delivered")

    def _drop(self, _: Entry, timer: Timer) -> bool:
        if first_of(self.schedulers[timer[0]].expired) != timer or not self.processes[self.rows[timer].process].exited:
            return False
        return self.hand_over(timer, "dropped")

    def _mark(self, _: Entry, number: int, exits: bool, was: bool) -> bool:
        process = self.processes[number]
        if was != process.exited:
            return False
        process.exited = process.exited or exits
        return True

    def _advanced(self, entry: Entry, number: int, to: int) -> bool:
        first = self.schedulers[number].first_armed()
        return to == self.settings.down(self.look_of(entry.by)) and (first is None or self.rows[first].deadline > to)

    def _ask(self, _: Entry, number: int, request: Fields) -> bool:
        self.schedulers[number].inbox.append(request)
        return True

    def _pick(self, _: Entry, number: int, got: Fields | None) -> bool:
        scheduler = self.schedulers[number]
        if scheduler.hand or got != first_of(scheduler.inbox):
            return False
        scheduler.hand, scheduler.result = got, []
        if got:
            scheduler.inbox.popleft()
        return True

    def _answer(self, entry: Entry, number: int, left: int | None) -> bool:
        scheduler = self.schedulers[number]
        if not scheduler.hand:
            return False
        act, timer, reply_to, info = scheduler.hand
        results = scheduler.result if self.names_timer(timer) else [None]
        if entry.other != f"m{reply_to}" or [left] != results:
            return False
        scheduler.hand = None
        if info:
            self.processes[reply_to].mail.append((f"{act}_done", timer, left))
        return True

    def _take(self, _: Entry, number: int, got: Fields | None) -> bool:
        mail = self.processes[number].mail
        if got != first_of(mail):
            return False
        if mail:
            mail.popleft()
        return True

    def _unwatch(self, _: Entry, number: int, monitor: int, was: bool) -> bool:
        monitors = self.processes[number].monitors
        if was != (monitor in monitors):
            return False
        monitors.pop(monitor, None)
        return True

    def _watch(self, _: Entry, number: int, monitor: int, offset: int) -> bool:
        process = self.processes[number]
        if monitor != process.next or len(process.monitors) >= MONITORS or offset != self.clock.offset:
            return False
        process.monitors[monitor] = offset
        process.next += 1
        return True

    def _tell(self, _: Entry, number: int, offset: int) -> bool:
        process = self.processes[number]
        if offset != self.clock.offset:
            return False
        process.mail.extend(("change", it, offset) for it in sorted(process.monitors) if process.monitors[it] != offset)
        process.monitors = dict.fromkeys(process.monitors, offset)
        return True
