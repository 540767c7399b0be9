"""Random scenarios that are valid, in both formats and all modes."""
from __future__ import annotations

import random
from typing import Any, Callable

from histories import reading_by
from interpreter import UNITS, Scenario
from model import END, MILLION, Reading

MODES = ("no", "single", "multi")
Op = list[Any]


class Writer:
    """Writes ops."""

    def __init__(self, rng: random.Random, scenario: Scenario) -> None:
        self.rng, self.format = rng, scenario["format"]
        self.schedulers, self.processes = scenario.get("schedulers", 1), scenario.get("processes", 1)
        self.start = scenario.get("start", 0)
        self.reading: Reading = tuple(scenario["first"])
        # How far the time is ahead of OS monotonic time, where nothing corrects it.
        self.ahead = self.start - self.reading[0]
        self.labels: list[int] = []

    def label(self) -> int:
        """A label, mostly of a start before."""
        if self.labels and self.rng.random() < 0.9:
            return self.rng.choice(self.labels[-8:])
        return self.rng.choice((0, 1, 5, 999_999))

    def milliseconds(self) -> int:
        """The milliseconds of a start."""
        return self.rng.choice((0, 1, 3, 10, 50, 200, 60_000, 3_600_000, self.rng.randrange(10**6)))

    def edge(self) -> int:
        """A number that is great or negative."""
        return self.rng.choice((-1, END, END + 1, END + self.start // MILLION, 2**63 - 1, -(2**63)))

    def started(self) -> Op:
        """A start."""
        label = self.rng.choice([it for it in range(len(self.labels) + 3) if it not in self.labels])
        when = self.rng.choice(("rel", "rel", "abs"))
        amount = self.milliseconds() + (self.start // MILLION if when == "abs" else 0)
        amount = self.edge() if self.rng.random() < 0.05 else amount
        name = "send_after" if self.format == 2 and self.rng.random() < 0.3 else "start"
        self.labels.append(label)
        message = self.rng.choice((0, 7, 2**64 - 1, label))
        return [name, label, self.rng.randrange(self.schedulers), when, amount, self.rng.randrange(self.processes), message]

    def read(self) -> Op:
        """A reading of the clock."""
        self.reading = reading_by(self.rng, self.reading, lambda mono: mono + self.ahead)
        return [self.rng.choice(("tick", "tick", "tick", "check", "finalize")), *self.reading]

    def told(self) -> Op:
        """What the clock shows."""
        return [self.rng.choice(("time", "system", "offset", "info"))]

    def convert(self) -> Op:
        """A conversion."""
        units = (*UNITS, 1, 3, 44_100, 2**63 - 1)
        value = self.rng.choice((0, 1, -1, 2**63 - 1, -(2**63), self.rng.randrange(-(10**12), 10**12)))
        return ["convert", value, self.rng.choice(units), self.rng.choice(units)]

    def timer(self) -> Op:
        """A call on a timer."""
        names = ("cancel", "read", "cancel_quiet") if self.format == 2 else ("cancel", "read")
        return [self.rng.choice(names), self.label()]

    def ask(self) -> Op:
        """A request."""
        found = [self.rng.choice(("cancel_async", "read_async")), self.label(), self.rng.randrange(self.processes)]
        return [*found, self.rng.random() < 0.8] if self.format == 2 else found

    def turn(self) -> Op:
        """A call of a scheduler."""
        return [self.rng.choice(("turn", "turn", "serve", "advance", "deliver")), self.rng.randrange(self.schedulers)]

    def mail(self) -> Op:
        """A call of a process."""
        names = ("receive",) * 6 + ("alive", "monitor", "monitor", "notify", "notify") + ("exit",) * (self.rng.random() < 0.2)
        return [self.rng.choice(names), self.rng.randrange(self.processes)]

    def demonitor(self) -> Op:
        """The end of a monitor."""
        return ["demonitor", self.rng.randrange(self.processes), self.rng.choice((0, 1, 2, 63, 64, 2**32 - 1))]

    def burst(self) -> list[Op]:
        """Many ops of a kind: so many requests that a turn leaves some, so many monitors that there may be no more."""
        number = self.rng.randrange(self.processes)
        op = self.rng.choice((["monitor", number], ["receive", number], self.ask()))
        return [op] * self.rng.choice((3, 66, 70))


def ops(rng: random.Random, scenario: Scenario, count: int) -> list[Op]:
    """Some ops."""
    writer = Writer(rng, scenario)
    kinds: list[Callable[[], Op]] = [writer.started] * 4 + [writer.read] * 3 + [writer.turn] * 3 + [writer.timer] * 2 + [writer.mail] * 3
    kinds += [writer.told, writer.ask, writer.ask, writer.demonitor, writer.convert]
    found: list[Op] = []
    while len(found) < count:
        found += writer.burst() if rng.random() < 0.01 else [rng.choice(kinds)()]
    return found


def scenario_by(rng: random.Random, count: int) -> Scenario:
    """A scenario of about so many ops. Each field that may be left out is left out at times."""
    first = rng.choice(((0, 0), (0, 1_767_225_600_000_000_000), (rng.randrange(2**50), rng.randrange(-(2**60), 2**60))))
    found: Scenario = {
        "mode": rng.choice(MODES),
        "correction": rng.random() < 0.5,
        "start": MILLION * rng.choice((0, 1, -7, 10**6, -(2**58 // MILLION), 2**58 // MILLION)),
        "schedulers": rng.choice((1, 2, 3, 64)),
        "processes": rng.choice((1, 2, 3, 1024)),
        "slots": rng.choice((1, 2, 3, 8, 4096)),
    }
    found = {name: value for name, value in found.items() if rng.random() < 0.85}
    found |= {"format": rng.choice((1, 2)), "first": first}
    found["ops"] = ops(rng, found, count)
    return found
