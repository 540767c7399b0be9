"""What a log tells in whatever order its calls were."""
from __future__ import annotations

import bisect
from typing import Any, Callable, Iterator, NamedTuple

from .log import Call, Log, Settings, Timer

MILLISECOND = 1_000_000
LATEST = 8_796_093_022_207
USES_OF_ROUND = 262_143
LAST_GENERATION = 2**61 - 1
# In which word, from the end, a call names a process that gets mail by it.
GETS_MAIL = {"start": -3, "restart": -3, "ask": -2, "notify": -1}


class Shown(NamedTuple):
    """What the clock shows."""

    time: int
    offset: int
    state: str


def first_shown(settings: Settings) -> Shown:
    """What the clock shows at the opening."""
    state = {"no": "final", "single": "preliminary", "multi": "volatile"}[settings.mode]
    return Shown(settings.start, settings.sys - settings.start, state)


def down(settings: Settings, time: int) -> int:
    """The milliseconds from the start time to a time, rounded down."""
    return (time - settings.start) // MILLISECOND


def up(settings: Settings, time: int) -> int:
    """The same, rounded up."""
    return -((settings.start - time) // MILLISECOND)


def left(settings: Settings, deadline: int, time: int) -> int:
    """The milliseconds from a time, rounded up, to a deadline."""
    return max(0, deadline - up(settings, time))


def deadline_of(settings: Settings, call: Call, time: int) -> int | None:
    """The deadline of a start or a restart that looked at a time, if it has one."""
    form, milliseconds = call.start[:2]
    deadline = milliseconds + (up(settings, time) if form == "after" else -settings.start // MILLISECOND)
    is_legal = 0 <= deadline <= LATEST and (form == "at" or milliseconds >= 0)
    return deadline if is_legal else None


def names_timer(settings: Settings, timer: Timer) -> bool:
    """Whether a reference may name a timer."""
    wheel, slot, generation = timer
    is_generation = 1 <= generation <= USES_OF_ROUND or LATEST < generation <= LAST_GENERATION
    return 0 <= wheel < settings.schedulers and 0 <= slot < settings.slots and is_generation


def is_answer(message: tuple[Any, ...]) -> bool:
    """Whether a message answers a request."""
    return message[0] in ("cancel_done", "read_done")


def is_move(call: Call) -> bool:
    """Whether a call of the hub moved the clock."""
    return call.kind == "tick" and len(call.answer) > 1 or call.kind == "finalize" and call.answer[0] == "preliminary"


class Facts:
    """What the clock shows, one after the other, since caller 0 alone moves it; of each timer who read it while it was armed,
    whether a call cancelled it, or may have done so by a request whose answer nobody took, and which deadlines it can have;
    of each process the messages that were taken, in order; and of each shard which of its processes may get mail.
    """

    def __init__(self, log: Log) -> None:
        self.settings = log.settings
        self.shows = [first_shown(log.settings)]
        self.begins, self.ends = [-1], [-1]
        self.readers: dict[Timer, list[tuple[int, int]]] = {}
        self.cancelled: set[Timer] = set()
        self.unsure: set[Timer] = set()
        self.homes: dict[int, set[int]] = {}
        self.taken: dict[int, list[tuple[Any, ...]]] = {}
        self.deadlines: dict[Timer, set[int]] = {}
        self.armed_at: dict[Timer, int] = {}
        self._follow_clock(log.calls[0])
        for calls in log.calls:
            for number, call in enumerate(calls):
                self._note(number, call)
        for calls in log.calls:
            for call in calls:
                if call.kind in ("cancel", "read") and call.has_left:
                    self._note_left(call, call.timer, call.answer[0])
        for calls in log.calls[1 : log.settings.schedulers + 1]:
            self._follow_requests(calls)
        for calls in log.calls[1 : log.settings.schedulers + 1]:
            self._narrow(calls)
            self._count(calls)

    def _follow_clock(self, calls: list[Call]) -> None:
        """Notes what the clock shows, and between which numbers of the counter that came."""
        for call in filter(is_move, calls):
            time, offset = call.answer[-2:]
            shown = self.shows[-1]
            self._show(call, Shown(time, shown.offset, shown.state))
            if offset != "none":
                self._show(call, Shown(time, offset, "final" if call.kind == "finalize" else shown.state))

    def _show(self, call: Call, shown: Shown) -> None:
        self.shows.append(shown)
        self.begins.append(call.begin)
        self.ends.append(call.end)

    def _note(self, number: int, call: Call) -> None:
        """Notes what a call tells by itself."""
        if call.started:
            found = {deadline_of(self.settings, call, time) for time in self._times(call)}
            self.deadlines[call.started] = {deadline for deadline in found if deadline is not None}
        if call.ended:
            self.cancelled.add(call.ended)
        if call.kind == "read" and call.has_left:
            self.readers.setdefault(call.timer, []).append((call.by, number))
        for message in call.messages:
            self.taken.setdefault(call.asked[0], []).append(message)
        if call.kind in GETS_MAIL:
            self.homes.setdefault(call.by, set()).add(call.asked[GETS_MAIL[call.kind]])

    def _note_left(self, call: Call, timer: Timer, rest: int) -> None:
        """Notes what a call found left of a timer, and that this was armed after the begin of the call."""
        times = self._times(call)
        self._keep(timer, lambda it: any(left(self.settings, it, time) == rest for time in times))
        self.armed_at[timer] = max(call.begin, self.armed_at.get(timer, 0))

    def _follow_requests(self, calls: list[Call]) -> None:
        """Notes what the answers to a shard's requests tell. They are served in their order, and so are the answers to a
        process.
        """
        waiting: list[tuple[Any, ...]] = []
        answers: dict[int, Iterator[tuple[Any, ...]]] = {}
        for number, call in enumerate(calls):
            if call.kind == "ask":
                waiting.append(call.asked)
            for asked in waiting[: call.served]:
                process, is_sent = asked[4], asked[5] == "true"
                taken = answers.setdefault(process, filter(is_answer, self.taken.get(process, [])))
                self._note_served(number, call, asked, next(taken, None) if is_sent else None)
            del waiting[: call.served]

    def _note_served(self, number: int, call: Call, asked: tuple[Any, ...], answer: tuple[Any, ...] | None) -> None:
        """Notes what a call that served a request found, if the answer was taken."""
        kind, timer = asked[0], (asked[1], asked[2], asked[3])
        if answer is None and kind == "cancel":
            self.unsure.add(timer)
        if answer is None or answer[-1] == "none":
            return
        self._note_left(call, timer, answer[-1])
        if kind == "cancel":
            self.cancelled.add(timer)
        elif call.kind == "serve":
            self.readers.setdefault(timer, []).append((call.by, number))

    def _narrow(self, calls: list[Call]) -> None:
        """Keeps the deadlines that the turns of a shard allow: one that had come when a timer's message was taken, and none
        that had come when an advance ended after which the timer was armed.
        """
        mine: list[Timer] = []
        last = -1
        for call in calls:
            if call.started:
                mine.append(call.started)
            elif call.advance:
                last = call.advance[0]
                for timer in mine:
                    if self.armed_at.get(timer, 0) > call.end:
                        self._keep(timer, lambda it: it > last)
            for kind, *words in call.messages:
                if kind == "timeout":
                    self._keep((words[0], words[1], words[2]), lambda it: it <= last)

    def _count(self, calls: list[Call]) -> None:
        """Keeps the deadlines with which as many timers of a shard expire in each turn as it tells, as long as these tell
        which.
        """
        waiting: dict[Timer, int] = {}
        exited: set[int] = set()
        for call in calls:
            if call.started and self._expires(call.started):
                waiting[call.started] = call.start[2]
            elif call.kind == "exit":
                exited.add(call.asked[0])
            elif call.advance:
                to, count = call.advance
                waiting = {timer: dest for timer, dest in waiting.items() if dest not in exited}
                may = [timer for timer in waiting if min(self.deadlines[timer]) <= to]
                must = [timer for timer in may if max(self.deadlines[timer]) <= to]
                if not self.unsure.isdisjoint(may):
                    count = len(must) if len(may) == len(must) else -1
                if count not in (len(may), len(must)):
                    return
                for timer in may:
                    self._keep(timer, lambda it: (it <= to) == (count == len(may) or timer in must))
                for timer in may if count == len(may) else must:
                    del waiting[timer]

    def _expires(self, timer: Timer) -> bool:
        """Whether a timer that was started expires, unless its process exits: it can be due, and no call cancelled it."""
        return bool(self.deadlines[timer]) and timer not in self.cancelled

    def _keep(self, timer: Timer, test: Callable[[int], bool]) -> None:
        """Keeps those deadlines of a timer that pass, if any does. If none does, the search finds which call is wrong."""
        kept = set(filter(test, self.deadlines.get(timer, ())))
        if kept:
            self.deadlines[timer] = kept

    def _times(self, call: Call) -> set[int]:
        """The times that the clock can have shown during a call."""
        first = bisect.bisect_left(self.ends, call.begin) - 1
        last = bisect.bisect_left(self.begins, call.end)
        return {shown.time for shown in self.shows[first:last]}
