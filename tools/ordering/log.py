"""A log: the calls that some threads made on a hub and its shards, with what they answered.

It is text of words with one blank between two. The first line has the settings, as that of a written history does
(`docs/FORMATS.md`, "Written histories"). Each other line is a call:

    c3 17 20 cancel 0 1 5 = 12

Its words are the caller, whose calls stand in their order; two numbers of one counter that all threads count on, the
first taken before the call and the second after it, so that a call whose second number is below the first of another
had ended before that began; what was called, and with what; and, after `=`, the answer. Caller 0 has the hub, callers 1
to the number of schedulers the shards of scheduler 0 on, and those after them seats. N is a number, B `true` or `false`,
TIMER three numbers, as in a history.

    tick MONO SYS plain|force = NOW none|OFFSET          the time after it, and the offset if it was set
    finalize MONO SYS = STATE NOW none|OFFSET            the state of the offset before, and as a tick
    tick .. = bad_reading|offset_wide                    so refused, and a finalize too
    time = NOW
    system = TIME
    offset = OFFSET STATE
    start after|at MILLISECONDS PROCESS MSG wrapped|bare = TIMER|full|bad_time
    restart TIMER after|at .. bare = TIMER|full|bad_time|none
    cancel TIMER = LEFT|none                             the milliseconds left, or that it wasn't armed
    read TIMER = LEFT|none
    alive PROCESS = B
    exit PROCESS = B                                     whether it hadn't exited before
    take PROCESS = MESSAGE|empty|exited                  the message as in a history
    take_some PROCESS ROOM = most|empty|exited MESSAGE.. how it ended, and the messages, at most ROOM
    next_mail = PROCESS|empty
    ask cancel|read TIMER PROCESS B = done               which process gets the answer, and whether one is sent
    serve = SERVED                                       whether there was a request: 1 or 0
    monitor PROCESS = NUMBER|full
    demonitor PROCESS NUMBER = done|none
    notify PROCESS = COUNT
    advance = TO EXPIRED
    deliver = PUT DROPPED
    turn = SERVED TO EXPIRED PUT DROPPED
"""
from __future__ import annotations

import re
from dataclasses import dataclass
from typing import Any

Timer = tuple[int, int, int]

SETTINGS = r"settings (no|single|multi) (true|false) (N) (N) (N) (N) (N) (N) (N)"
TIMER = "N N N"
START = "(after|at) N N N (wrapped|bare)"
STATE = "(preliminary|final|volatile)"
MOVED = "N (none|N)"
REFUSED = "(bad_reading|offset_wide)"
MESSAGE = rf"(timeout {TIMER} N|bare N|change N N|(cancel|read)_done {TIMER} (N|none))"
KINDS = {
    "tick": rf"N N (plain|force) = ({MOVED}|{REFUSED})",
    "finalize": rf"N N = ({STATE} {MOVED}|{REFUSED})",
    "time": r"= N",
    "system": r"= N",
    "offset": rf"= N {STATE}",
    "start": rf"{START} = ({TIMER}|full|bad_time)",
    "restart": rf"{TIMER} {START} = ({TIMER}|full|bad_time|none)",
    "cancel": rf"{TIMER} = (N|none)",
    "read": rf"{TIMER} = (N|none)",
    "alive": r"N = (true|false)",
    "exit": r"N = (true|false)",
    "take": rf"N = ({MESSAGE}|empty|exited)",
    "take_some": rf"N N = (most|empty|exited)( {MESSAGE})*",
    "next_mail": r"= (N|empty)",
    "ask": rf"(cancel|read) {TIMER} N (true|false) = done",
    "serve": r"= [01]",
    "monitor": r"N = (N|full)",
    "demonitor": r"N N = (done|none)",
    "notify": r"N = N",
    "advance": r"= N N",
    "deliver": r"= N N",
    "turn": r"= N N N N N",
}
OF_HUB = {"tick", "finalize"}
OF_MAIL = {"take", "take_some", "next_mail", "monitor", "demonitor", "notify"}
OF_SHARD = {"start", "restart", "exit", "ask", "serve", "advance", "deliver", "turn"} | OF_MAIL
NUMBER = r"-?\d+"
# How many words a message has.
WIDTHS = {"timeout": 5, "bare": 2, "change": 3, "cancel_done": 5, "read_done": 5}


class BadLog(Exception):
    """The text is no log; the text of this says why, in one line."""


@dataclass(frozen=True)
class Settings:
    """The settings, and the line that has them."""

    mode: str
    correction: bool
    start: int
    schedulers: int
    processes: int
    slots: int
    callers: int
    mono: int
    sys: int
    text: str


@dataclass(frozen=True)
class Call:
    """One line: who called, the numbers of before and after, what was called, and the words of it and of its answer."""

    by: int
    begin: int
    end: int
    kind: str
    asked: tuple[Any, ...]
    answer: tuple[Any, ...]
    line: int
    text: str

    @property
    def timer(self) -> Timer:
        """The timer that a cancel, a read or a restart is asked about."""
        return self.asked[0], self.asked[1], self.asked[2]

    @property
    def start(self) -> tuple[Any, ...]:
        """What a start or a restart is asked for: how its milliseconds count, these, the process, the message and its form."""
        return self.asked[-5:]

    @property
    def started(self) -> Timer | None:
        """The timer that was started by a start or a restart."""
        is_one = self.kind in ("start", "restart") and len(self.answer) > 1
        return (self.answer[0], self.answer[1], self.answer[2]) if is_one else None

    @property
    def ended(self) -> Timer | None:
        """The timer that was cancelled by a cancel or a restart."""
        is_one = self.kind == "cancel" and self.has_left or self.kind == "restart" and self.started is not None
        return self.timer if is_one else None

    @property
    def has_left(self) -> bool:
        """Whether a cancel or a read answers what was left."""
        return self.answer != ("none",)

    @property
    def messages(self) -> list[tuple[Any, ...]]:
        """The messages that were taken."""
        words = self.answer[1:] if self.kind == "take_some" else self.answer if self.kind == "take" else ()
        found = []
        while words and words[0] in WIDTHS:
            width = WIDTHS[words[0]]
            found.append(words[:width])
            words = words[width:]
        return found

    @property
    def served(self) -> int:
        """How many requests the call served."""
        return self.answer[0] if self.kind in ("serve", "turn") else 0

    @property
    def advance(self) -> tuple[int, int] | None:
        """If the call advanced the wheel, to which millisecond, and how many timers expired."""
        return {"advance": self.answer[:2], "turn": self.answer[1:3]}.get(self.kind)


@dataclass(frozen=True)
class Log:
    """The settings, and the calls of each caller in their order."""

    settings: Settings
    calls: list[list[Call]]


def pattern(text: str) -> re.Pattern[str]:
    """A pattern in which N stands for a number."""
    return re.compile(re.sub(r"\bN\b", lambda _: NUMBER, text))


PATTERNS = {kind: pattern(text) for kind, text in KINDS.items()}
HEAD = pattern(SETTINGS)
LINE = re.compile(r"c(\d+) (\d+) (\d+) ([a-z_]+) (.*)")


def words_of(text: str) -> tuple[Any, ...]:
    """The words of a text, those that are numbers as such."""
    return tuple(int(it) if re.fullmatch(NUMBER, it) else it for it in text.split())


def read_settings(line: str) -> Settings:
    """The settings of the first line."""
    found = HEAD.fullmatch(line)
    if found is None:
        raise BadLog("line 1: no settings")
    mode, correction, *numbers = found.groups()
    return Settings(mode, correction == "true", *map(int, numbers), text=line)


def read_call(settings: Settings, number: int, line: str) -> Call:
    """The call of a line."""
    found = LINE.fullmatch(line)
    if found is None or found[4] not in KINDS or not PATTERNS[found[4]].fullmatch(found[5]):
        raise BadLog(f"line {number}: no call: {line[:80]}")
    by, kind = int(found[1]), found[4]
    is_shard = 0 < by <= settings.schedulers
    if by >= settings.callers or (kind in OF_HUB and by != 0) or (kind in OF_SHARD and not is_shard):
        raise BadLog(f"line {number}: a call that c{by} can't make")
    asked, _, answer = found[5].partition("=")
    return Call(by, int(found[2]), int(found[3]), kind, words_of(asked), words_of(answer), number, line)


def read_log(text: str) -> Log:
    """The log that a text is."""
    lines = text.splitlines()
    settings = read_settings(lines[0] if lines else "")
    calls: list[list[Call]] = [[] for _ in range(settings.callers)]
    numbers: set[int] = set()
    for number, line in enumerate(lines[1:], 2):
        call = read_call(settings, number, line)
        before = calls[call.by][-1].end if calls[call.by] else -1
        if not before < call.begin < call.end or numbers & {call.begin, call.end}:
            raise BadLog(f"line {number}: its numbers aren't the next of its caller, or stand elsewhere too")
        numbers |= {call.begin, call.end}
        calls[call.by].append(call)
    return Log(settings, calls)
