"""Scenarios from a seed, of all ops. The seed tells the whole scenario."""
import random

MILLISECOND = 1_000_000
SECOND = 1_000_000_000
UNITS = ("second", "millisecond", "microsecond", "nanosecond", "native", 3, 1000, 44100, 2**63 - 1)
WEIGHTS = {
    "tick": 16, "check": 4, "finalize": 1, "time": 2, "system": 2, "offset": 2, "info": 1, "convert": 2,
    "start": 14, "send_after": 6, "cancel": 5, "cancel_quiet": 2, "read": 6, "cancel_async": 4, "read_async": 4,
    "serve": 1, "advance": 1, "deliver": 1, "turn": 4, "receive": 14, "exit": 1, "alive": 2,
    "monitor": 3, "demonitor": 2, "notify": 2,
}


def scenario_of(seed):
    """A scenario of 20 to 300 ops."""
    draw = random.Random(seed)
    return Maker(draw).scenario(draw.randint(20, 300))


class Maker:
    """What the ops so far have come to, as far as the next one asks."""

    def __init__(self, draw):
        self.draw = draw
        self.opening = draw.choice((0, 0, 1, -1, 2000, -5000, 86400_000)) * MILLISECOND
        self.os_monotonic = draw.choice((0, 0, 5 * SECOND, draw.randrange(10 * SECOND)))
        self.os_system = draw.choice((0, 1767225600 * SECOND, -3 * SECOND, draw.randrange(10 * SECOND)))
        self.first = [self.os_monotonic, self.os_system]
        self.passed = 0
        self.schedulers = draw.choice((1, 1, 2, 4))
        self.processes = draw.choice((1, 2, 3, 8))
        self.label = 0
        self.monitors = 0

    def scenario(self, count):
        draw = self.draw
        names, weights = list(WEIGHTS), list(WEIGHTS.values())
        made = {
            "format": 2,
            "mode": draw.choice(("no", "single", "multi")),
            "correction": draw.random() < 0.35,
            "start": self.opening,
            "schedulers": self.schedulers,
            "processes": self.processes,
            "first": self.first,
        }
        made["ops"] = [getattr(self, name, self.plain)(name) for name in draw.choices(names, weights, k=count)]
        return made

    def plain(self, name):
        """An op without arguments, or one whose only argument is a scheduler or a process."""
        if name in ("serve", "advance", "deliver", "turn"):
            return [name, self.draw.randrange(self.schedulers)]
        if name in ("receive", "exit", "alive", "monitor", "notify"):
            self.monitors += name == "monitor"
            return [name, self.process()]
        return [name]

    def process(self):
        return self.draw.randrange(self.processes)

    def known_label(self):
        """Mostly a label that a start had, and sometimes one of none."""
        return self.draw.randrange(self.label + 1) if self.draw.random() < 0.95 else 900_000 + self.draw.randrange(3)

    # Readings.

    def reading(self, name):
        step = self.draw.choice((
            0, 1, 500_000, MILLISECOND, self.draw.randrange(5 * MILLISECOND),
            self.draw.randrange(1, 60) * MILLISECOND, self.draw.randrange(SECOND), self.draw.randrange(20 * SECOND)))
        self.os_monotonic += step
        self.os_system += step
        self.passed += step
        if self.draw.random() < (0.4 if name == "check" else 0.15):
            self.os_system += self.draw.choice((-1, 1)) * self.draw.choice((
                1000, 400_000, 3 * MILLISECOND, self.draw.randrange(SECOND), self.draw.randrange(5 * SECOND),
                40 * SECOND))
        return [name, self.os_monotonic, self.os_system]

    tick = check = finalize = reading

    def convert(self, name):
        value = self.draw.choice((
            self.draw.randrange(-10**6, 10**6), self.draw.randrange(-2**63, 2**63), self.draw.choice((-1, 0, 1))))
        return [name, value, self.draw.choice(UNITS), self.draw.choice(UNITS)]

    # Timers.

    def start_timer(self, name):
        label, self.label = self.label, self.label + 1
        after = self.draw.choice((0, 1, 2, self.draw.randrange(100), self.draw.randrange(1100),
                                  self.draw.randrange(30_000), -1))
        kind = "rel"
        if self.draw.random() < 0.25:
            kind = "abs"
            after += (self.opening + self.passed) // MILLISECOND
        if self.draw.random() < 0.02:
            after = self.draw.choice((8796093022207, 8796093022208, 2**53, -2**63, 2**63 - 1, -2**40))
        message = self.draw.choice((label, self.draw.randrange(10), 2**64 - 1))
        return [name, label, self.draw.randrange(self.schedulers), kind, after, self.process(), message]

    start = send_after = start_timer

    def by_label(self, name):
        return [name, self.known_label()]

    cancel = cancel_quiet = read = by_label

    def request(self, name):
        return [name, self.known_label(), self.process(), self.draw.random() < 0.8]

    cancel_async = read_async = request

    def demonitor(self, name):
        return [name, self.process(), self.draw.randrange(self.monitors + 1)]
