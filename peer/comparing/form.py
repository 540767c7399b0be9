"""The form of a scenario that a live node determines.

A node has timers that expire by themselves, one order of calls, and no turn that ends half way. So a turn is put after
whatever may make a timer due, and the rest goes by the rules of docs/ERLANG-DIFFERENCES.md that have the mark `form`.
Each change is noted with its rule.
"""

from comparing.rules import GREATEST_DEADLINE, MILLISECOND

SECOND = 1_000_000_000
READINGS = ("tick", "check", "finalize")
STARTS = ("start", "send_after")
REQUESTS = ("cancel_async", "read_async")
PARTS_OF_TURNS = ("serve", "advance", "deliver")
# A leap of more than this may expire timers that the node keeps in its coarse wheel, in another order.
LEAP = 15 * SECOND
MOST_LEAPS = 2000
# A timer that is started with more milliseconds than this comes to stand in the coarse wheel.
FAR = 15000
# A check in multi time warp mode with correction moves the node's offset where the clocks are this far apart.
CLEARLY_APART = 100 * MILLISECOND


class Form:
    """The ops of a scenario in that form, its settings, and what was changed, by rule."""

    def __init__(self, scenario, left_out=()):
        """The scenario without the ops at the places of `left_out`, which ertime refuses."""
        self.settings = {
            "mode": scenario.get("mode", "no"),
            "correction": scenario.get("correction", True),
            "start": scenario.get("start", 0),
            "processes": scenario.get("processes", 1),
            "first": scenario["first"],
        }
        self.ops = []
        self.places = []
        self.changes = {}
        self.place = 0
        self.deadlines = {}
        self.starts = 0
        self.watchers = []
        self.exited = set()
        self._open()
        if scenario.get("schedulers", 1) != 1:
            self._note("one-scheduler", "settings")
        if scenario.get("slots", 1024) < sum(op[0] in STARTS for op in scenario["ops"]):
            self._note("room-for-timers", "settings")
        for self.place, op in enumerate(scenario["ops"], 1):
            if self.place in left_out:
                self._note("wide-offsets")
            else:
                self._bring(op)

    @property
    def slots(self):
        """Room for all timers."""
        return min(max(self.starts, 1), 65536)

    def _open(self):
        monotonic, system = self.settings["first"]
        if self._shifts():
            system = self._in_microseconds(system)
            monotonic = self._in_microseconds(monotonic)
        self.settings["first"] = [monotonic, system]
        self.reading = (monotonic, system)
        self.now = self.settings["start"]
        self.offset = system - self.now
        # With correction, how far OS system time is ahead of OS monotonic time while the clock is in step with it.
        self.in_step = system - monotonic
        self.is_preliminary = self.settings["mode"] == "single"

    def _shifts(self):
        return self.settings["mode"] != "no"

    def _note(self, rule, place=None):
        self.changes.setdefault(rule, []).append(self.place if place is None else place)

    def _put(self, *op):
        self.ops.append(list(op))
        self.places.append(self.place)

    def _turn(self):
        self._put("turn", 0)
        self._note("whole-turns")

    def _bring(self, op):
        name = op[0]
        if name in READINGS:
            self._bring_reading(op)
        elif name in PARTS_OF_TURNS:
            self._note("whole-turns")
        elif name == "turn":
            self._put("turn", 0)
        elif name in STARTS:
            self._bring_start(op)
        elif name in REQUESTS:
            told = op[3] if len(op) > 3 else True
            if name == "read_async" and not told:
                self._note("quiet-read")
            self._put(name, op[1], op[2], told)
            self._turn()
        else:
            if name == "monitor" and op[1] not in self.watchers:
                self.watchers.append(op[1])
            elif name == "exit":
                self.exited.add(op[1])
            self._put(*op)

    def _bring_start(self, op):
        name, label, _, kind, milliseconds, *rest = op
        self.starts += 1
        up = -(-(self.now - self.settings["start"]) // MILLISECOND)
        deadline = milliseconds + up if kind == "rel" else milliseconds - self.settings["start"] // MILLISECOND
        # How far ahead the timers of this deadline were started at most.
        while deadline < GREATEST_DEADLINE and self.deadlines.get(deadline, 0) > max(deadline - up, FAR):
            deadline += 1
            milliseconds += 1
            self._note("equal-deadlines")
        self.deadlines[deadline] = max(deadline - up, self.deadlines.get(deadline, 0))
        self._put(name, label, 0, kind, milliseconds, *rest)
        if kind == "abs" or milliseconds <= 0:
            self._turn()

    def _in_microseconds(self, nanoseconds):
        rounded = abs(nanoseconds) // 1000 * 1000 * (-1 if nanoseconds < 0 else 1)
        if rounded != nanoseconds:
            self._note("microseconds")
        return rounded

    # Readings.

    def _bring_reading(self, op):
        name, monotonic, system = op
        if name == "finalize" and not self.is_preliminary:
            if (max(monotonic, self.reading[0]), system) != self.reading:
                self._note("final-finalization")
            self._read(name, *self.reading)
            return
        if monotonic < self.reading[0]:
            self._note("monotonic-backwards")
            monotonic = self.reading[0]
        if self._shifts():
            monotonic, system = self._in_microseconds(monotonic), self._in_microseconds(system)
        if self.settings["correction"]:
            system = self._corrected(name, monotonic, system)
        elif self.settings["mode"] == "multi":
            name, system = self._uncorrected(name, system)
        if not -2**61 < system < 2**61:
            self._note("rates")
            return
        self._leap(monotonic, system)
        self._read(name, monotonic, system)

    def _corrected(self, name, monotonic, system):
        """OS system time, where the node's own rates and checks decide what another one would do."""
        in_step = monotonic + self.in_step
        if self.is_preliminary:
            return system
        if self.settings["mode"] == "multi" and name == "check" and abs(system - in_step) >= CLEARLY_APART:
            self._note("moments-of-checks")
            return system
        if system != in_step:
            self._note("rates")
        return in_step

    def _uncorrected(self, name, system):
        """In multi time warp mode without correction the node moves its offset at once where it would freeze."""
        behind = self.now + self.offset - system
        if behind <= 0:
            return name, system
        if behind <= MILLISECOND:
            self._note("offset-at-once")
            return name, self.now + self.offset
        if name == "tick":
            self._note("offset-at-once")
        return "check", system

    def _leap(self, monotonic, system):
        """Further readings, where several timers might expire in one leap of more than the node's fine wheel."""
        size = self._time_at(monotonic, system) - self.now
        count = -(-size // LEAP) - 1
        if self.starts < 2 or not 0 < count <= MOST_LEAPS:
            return
        self._note("far-leaps")
        first, now = self.reading[0], self.now
        for step in range(1, count + 1):
            between = first + (monotonic - first) * step // (count + 1)
            if self.settings["correction"]:
                self._read("tick", between, between + self.in_step)
            else:
                self._read("tick", between, now + size * step // (count + 1) + self.offset)

    def _time_at(self, monotonic, system):
        if self.settings["correction"]:
            return self.now + monotonic - self.reading[0]
        return max(self.now, system - self.offset)

    def _read(self, name, monotonic, system):
        self.now = self._time_at(monotonic, system)
        self.reading = (monotonic, system)
        may_move = self.settings["mode"] == "multi"
        if name == "finalize" and self.is_preliminary:
            self.is_preliminary = False
            may_move = True
        if may_move and name != "tick":
            self.offset = system - self.now
            self.in_step = system - monotonic
        self._put(name, monotonic, system)
        self._turn()
        if may_move:
            for process in self.watchers:
                if process not in self.exited:
                    self._put("notify", process)
                    self._note("change-messages")
