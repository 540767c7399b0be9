"""Settings, the clock, and the uses of a slot (docs/MODEL.md, "The clock", "Timers")."""
from __future__ import annotations

from typing import Any, NamedTuple

MILLION = 1_000_000
MINUTE = 60_000_000_000
END = 8_796_093_022_207
ROUND = 262_143
USE = 2**43

Reading = tuple[int, int]
Timer = tuple[int, int, int]
Fields = tuple[Any, ...]


def is_reading(reading: Reading) -> bool:
    """Whether a reading of the OS clocks is valid."""
    mono, system = reading
    return 0 <= mono < 2**62 and -(2**61) < system < 2**61


class Settings(NamedTuple):
    """What a service is opened with."""

    mode: str
    correction: bool
    start: int
    schedulers: int
    processes: int
    slots: int
    callers: int
    first: Reading

    def are_checked(self) -> bool:
        """Whether a service can be opened with them."""
        counts = (
            1 <= self.schedulers <= 1024
            and 1 <= self.processes <= 524_288
            and self.schedulers * self.processes <= 67_108_864
            and 1 <= self.slots <= 16_777_216
            and self.schedulers * self.slots <= 67_108_864
            and 1 <= self.callers <= 1025
        )
        return self.start % MILLION == 0 and abs(self.start) <= 2**58 and is_reading(self.first) and counts

    def down(self, time: int) -> int:
        """The milliseconds from the start time to a time, rounded down."""
        return (time - self.start) // MILLION

    def up(self, time: int) -> int:
        """The same, rounded up."""
        return -((self.start - time) // MILLION)

    def deadline(self, when: str, amount: int, look: int) -> int | None:
        """The deadline of a start by a look, if it isn't refused."""
        found = self.up(look) + amount if when == "after" else amount - self.start // MILLION
        return None if when == "after" and amount < 0 or not 0 <= found <= END else found


class Entry(NamedTuple):
    """A step: who made it, with whom (`-` for nobody), what happened."""

    by: str
    other: str
    event: str
    fields: Fields


class Clock:
    """What a clock shows."""

    def __init__(self, settings: Settings) -> None:
        self.settings = settings
        self.time = settings.start
        self.offset = settings.first[1] - settings.start
        self.state = {"no": "final", "single": "preliminary", "multi": "volatile"}[settings.mode]
        self.mono = settings.first[0]
        self.base = (self.time, self.mono, 0)
        self.checked = settings.first
        self.due: tuple[int, str] | None = None

    def time_after(self, reading: Reading) -> int:
        """The time after a tick with this reading."""
        if not self.settings.correction:
            return max(self.time, reading[1] - self.offset)
        time, mono, rate = self.base
        passed = max(self.mono, reading[0]) - mono
        return time + passed + passed * rate // MILLION

    def is_check(self, reading: Reading, act: str) -> bool:
        """Whether a tick is a check."""
        mono, system = max(self.mono, reading[0]), reading[1]
        passed = mono - self.checked[0] if self.settings.correction else abs(system - self.checked[1])
        return act == "force" or act == "plain" and passed >= MINUTE

    def shift_after(self, reading: Reading, act: str) -> tuple[int, str] | None:
        """The shift that a tick makes due."""
        wanted = reading[1] - self.time_after(reading)
        if act == "finalize":
            return wanted, "final"
        moves = self.is_check(reading, act) and self.state == "volatile" and abs(wanted - self.offset) > MILLION
        return (wanted, "volatile") if moves else None

    def rate_after(self, reading: Reading) -> int:
        """The rate that a check sets."""
        off = reading[1] - (self.time_after(reading) + self.offset)
        strength = 10_000 if abs(off) > 100 * MILLION else 500 if abs(off) > MILLION else 0
        return 0 if self.state != "final" else strength if off > 0 else -strength

    def can_tick(self, reading: Reading, act: str) -> bool:
        """Whether a tick may be made, whatever its time."""
        if self.due or not is_reading(reading) or act == "finalize" and self.state != "preliminary":
            return False
        shift = self.shift_after(reading, act)
        return shift is None or abs(shift[0]) < 2**62

    def tick(self, reading: Reading, act: str) -> None:
        """Takes a reading."""
        self.due = self.shift_after(reading, act)
        now, mono = self.time_after(reading), max(self.mono, reading[0])
        if act == "finalize" or self.is_check(reading, act):
            self.base = (now, mono, 0 if act == "finalize" else self.rate_after(reading))
            self.checked = (mono, reading[1])
        self.time, self.mono = now, mono


class Slot:
    """What is known of the uses of a slot: its last generation, in which round, since when that may have timers, and one
    above the greatest deadline of all its timers."""

    def __init__(self) -> None:
        self.last = self.since = self.above = 0
        self.round = 1

    def turned(self) -> tuple[int, int, int]:
        """The round of its next timer, how many timers that had, and since when it may have any."""
        count = self.last if self.round == 1 else self.last // USE
        return (self.round, count, self.since) if count < ROUND else (self.round + 1, 0, self.above)

    def next(self, now: int, deadline: int) -> int | None:
        """The generation of its next timer by a look, in milliseconds; none if the slot rests."""
        number, count, since = self.turned()
        if now < since:
            return None
        return count + 1 if number == 1 else USE * (count + 1) + max(deadline, now)

    def use(self, generation: int, asked: int) -> int:
        """Takes a timer of this generation, for which a deadline was asked, and tells the deadline that it has."""
        self.round, _, self.since = self.turned()
        deadline = asked if self.round == 1 else generation % USE
        self.last, self.above = generation, max(self.above, deadline + 1)
        return deadline
