#!/usr/bin/env python3
"""Runs a scenario, read from standard input, and prints what `ertime run` prints of it:

    tools/oracle/interpreter.py < scenario.json

It is written from the model in words (docs/MODEL.md, and what the site tells with it of each call) and docs/FORMATS.md alone,
and shares nothing with the program. The scenario has to be a valid one: refusals aren't told. With --history it prints the history that the run makes, as `ertaudit` reads it.
"""
from __future__ import annotations

import argparse
import json
import sys
from typing import Any, Callable, Iterator

from model import END, MILLION, Clock, Entry, Fields, Reading, Settings, Timer
from spelling import text_of
from state import MONITORS, State, first_of

ME = "c0"
REQUESTS = 64
MOST_MONITORS = 2**32 - 1
UNITS = {"second": 1, "millisecond": 1000, "microsecond": MILLION, "nanosecond": 1000 * MILLION, "native": 1000 * MILLION}
Scenario = dict[str, Any]


def settings_of(scenario: Scenario) -> Settings:
    """The settings of a scenario."""
    counts = (scenario.get(name, one) for name, one in (("schedulers", 1), ("processes", 1), ("slots", 1024)))
    mode, correction = scenario.get("mode", "no"), scenario.get("correction", True)
    return Settings(mode, correction, scenario.get("start", 0), *counts, callers=1, first=tuple(scenario["first"]))


def told(value: int | None) -> str:
    """What is left of a timer, as a line tells it."""
    return "false" if value is None else str(value)


def word(value: bool) -> str:
    """Whether something is so, as a line tells it."""
    return "true" if value else "false"


class Run:
    """A run: the state, and the entries that were made. A start takes the first slot that is free."""

    def __init__(self, settings: Settings) -> None:
        self.settings = settings
        self.state = State(settings)
        self.entries: list[Entry] = []
        self.labels: dict[int, Timer] = {}

    @property
    def clock(self) -> Clock:
        """The clock as it is."""
        return self.state.clock

    def make(self, by: str, other: str, event: str, *fields: Any) -> None:
        """Makes an entry, which has to be legal."""
        entry = Entry(by, other, event, fields)
        if not self.state.step(entry):
            raise AssertionError(f"{entry} is illegal")
        self.entries.append(entry)

    def line(self, op: list[Any]) -> str:
        """Does an op, and tells its line."""
        name, *arguments = op
        return f"{name} {getattr(self, f'_{name}')(*arguments)}\n"

    def look(self, actor: str = ME) -> None:
        """Looks at the time."""
        self.make(actor, "-", "look", self.clock.time)

    def offset(self) -> None:
        """Reads the offset."""
        self.make(ME, "-", "off", self.clock.offset, self.clock.state)

    def exited(self, process: int, exits: bool = False, actor: str = ME) -> bool:
        """Whether a process had exited, which it may do now."""
        was = self.state.processes[process].exited
        self.make(actor, "-", "mark", process, exits, was)
        return was

    def tick(self, reading: Reading, act: str) -> str:
        """Takes a reading, and tells the time, and the offset if it moved."""
        shift = self.clock.shift_after(reading, act)
        if shift and abs(shift[0]) >= 2**62:
            return f"offset_wide {shift[0]}"
        state = f"{self.clock.state} " if act == "finalize" else ""
        self.make("k", ME, "tick", reading, act, self.clock.time_after(reading))
        if shift:
            self.make("k", ME, "shift", *shift)
        return f"{state}{self.clock.time}" + (f" offset {shift[0]}" if shift else "")

    def _tick(self, mono: int, system: int) -> str:
        return self.tick((mono, system), "plain")

    def _check(self, mono: int, system: int) -> str:
        return self.tick((mono, system), "force")

    def _finalize(self, mono: int, system: int) -> str:
        if self.clock.state == "preliminary":
            return self.tick((mono, system), "finalize")
        self.make("k", ME, "off", self.clock.offset, self.clock.state)
        return f"{self.clock.state} {self.clock.time}"

    def _time(self) -> str:
        self.look()
        return f"{self.clock.time}"

    def _system(self) -> str:
        self.look()
        self.offset()
        return f"{self.clock.time + self.clock.offset}"

    def _offset(self) -> str:
        self.offset()
        return f"{self.clock.offset} {self.clock.state}"

    def _info(self) -> str:
        self.offset()
        mode, correction, start = self.settings[:3]
        head = f"start {start} end {start + END * MILLION} mode {mode} correction {word(correction)}"
        return f"{head} offset {self.clock.offset} state {self.clock.state}"

    def _convert(self, value: int, from_unit: str | int, to_unit: str | int) -> str:
        before, after = (it if isinstance(it, int) else UNITS[it] for it in (from_unit, to_unit))
        found = value * after // before
        return f"{found}" if -(2**63) <= found < 2**63 else "too_wide"

    def start(self, kind: str, label: int, wheel: int, when: str, amount: int, process: int, message: int) -> str:
        """Starts a timer."""
        self.look()
        act = {"rel": "after", "abs": "at"}[when]
        deadline = self.settings.deadline(act, amount, self.clock.time)
        if deadline is None:
            return "badarg"
        taken = {it[1] for it in (*self.state.schedulers[wheel].armed, *self.state.schedulers[wheel].expired)}
        if len(taken) == self.settings.slots:
            return "full"
        slot = next(it for it in range(self.settings.slots) if it not in taken)
        timer = wheel, slot, self.state.slots[wheel, slot].last + 1
        self.make(ME, f"w{wheel}", "arm", timer, (act, amount, process, message, kind))
        self.labels[label] = timer
        if self.exited(process):
            self.make(ME, f"w{wheel}", "orphan", timer)
        return "ok"

    def _start(self, *arguments: Any) -> str:
        return self.start("wrapped", *arguments)

    def _send_after(self, *arguments: Any) -> str:
        return self.start("bare", *arguments)

    def timer(self, label: int) -> Timer:
        """The timer that a label stands for."""
        return self.labels.get(label, (0, label, 0))

    def request(self, act: str, timer: Timer, actor: str = ME) -> int | None:
        """Cancels or reads a timer, and tells what was left."""
        self.look(actor)
        if not self.state.names_timer(timer):
            return None
        left = self.state.left(timer, actor)
        self.make(actor, "-", "peek", timer, left)
        if act == "cancel" and left is not None:
            self.make(actor, "-", "cancel", timer, left)
        return left

    def _cancel(self, label: int) -> str:
        return told(self.request("cancel", self.timer(label)))

    def _cancel_quiet(self, label: int) -> str:
        self.request("cancel", self.timer(label))
        return "ok"

    def _read(self, label: int) -> str:
        return told(self.request("read", self.timer(label)))

    def ask(self, act: str, label: int, process: int, info: bool = True) -> str:
        """Asks the scheduler of a timer."""
        timer = self.timer(label)
        wheel = timer[0] if timer[0] < self.settings.schedulers else 0
        self.make(ME, f"i{wheel}", "ask", wheel, (act, timer, process, info))
        return "ok"

    def _cancel_async(self, *arguments: Any) -> str:
        return self.ask("cancel", *arguments)

    def _read_async(self, *arguments: Any) -> str:
        return self.ask("read", *arguments)

    def _serve(self, number: int) -> str:
        me, scheduler = f"s{number}", self.state.schedulers[number]
        self.make(me, f"i{number}", "pick", number, first_of(scheduler.inbox))
        if scheduler.hand is None:
            return "0"
        act, timer, reply_to, _ = scheduler.hand
        left = self.request(act, timer, me)
        self.make(me, f"m{reply_to}", "answer", number, left)
        return "1"

    def due(self, number: int) -> Iterator[Timer]:
        """The timers of a scheduler that are due, while they expire."""
        scheduler, to = self.state.schedulers[number], self.settings.down(self.clock.time)
        while (timer := scheduler.first_armed()) and scheduler.armed[timer].deadline <= to:
            yield timer

    def _advance(self, number: int) -> str:
        me, wheel, count = f"s{number}", f"w{number}", 0
        self.look(me)
        for timer in self.due(number):
            self.make(me, wheel, "expire", timer)
            count += 1
        to = self.settings.down(self.clock.time)
        self.make(me, wheel, "advanced", number, to)
        return f"{to} {count}"

    def _deliver(self, number: int) -> str:
        me, expired, ended = f"s{number}", self.state.schedulers[number].expired, [0, 0]
        while expired:
            timer = expired[0]
            process = self.state.rows[timer].process
            was = self.exited(process, actor=me)
            self.make(me, "-" if was else f"m{process}", "drop" if was else "deliver", timer)
            ended[was] += 1
        return f"{ended[0]} {ended[1]}"

    def _turn(self, number: int) -> str:
        served = 0
        while served < REQUESTS and self._serve(number) == "1":
            served += 1
        return f"{served} {self._advance(number)} {self._deliver(number)}"

    def _receive(self, process: int) -> str:
        if self.exited(process):
            return "exited"
        got = first_of(self.state.processes[process].mail)
        self.make(ME, f"m{process}", "take", process, got)
        return "empty" if got is None else self.shown(got)

    def shown(self, message: Fields) -> str:
        """A message as a line tells it."""
        kind, *parts = message
        if kind == "bare":
            return f"message {parts[0]}"
        if kind == "change":
            return f"change {parts[0]} {parts[1]}"
        label = next((it for it, timer in self.labels.items() if timer == parts[0]), parts[0][1])
        last = parts[1] if kind == "timeout" else told(parts[1])
        return f"{ {'timeout': 'timeout', 'cancel_done': 'cancel_timer', 'read_done': 'read_timer'}[kind] } {label} {last}"

    def _exit(self, process: int) -> str:
        if self.exited(process, exits=True):
            return "already"
        for number in range(self.settings.schedulers):
            for timer, row in list(self.state.schedulers[number].armed.items()):
                if row.process == process:
                    self.make(ME, f"w{number}", "orphan", timer)
        return "ok"

    def _alive(self, process: int) -> str:
        return word(not self.exited(process))

    def _monitor(self, number: int) -> str:
        process = self.state.processes[number]
        if len(process.monitors) == MONITORS or process.next > MOST_MONITORS:
            self.offset()
            return "full"
        self.make(ME, f"m{number}", "watch", number, process.next, self.clock.offset)
        return f"{process.next - 1}"

    def _demonitor(self, number: int, monitor: int) -> str:
        stood = monitor in self.state.processes[number].monitors
        self.make(ME, f"m{number}", "unwatch", number, monitor, stood)
        return word(stood)

    def _notify(self, number: int) -> str:
        mail = self.state.processes[number].mail
        before = len(mail)
        self.make(ME, f"m{number}", "tell", number, self.clock.offset)
        return f"{len(mail) - before}"


def run(scenario: Scenario) -> tuple[Run, str]:
    """Runs a valid scenario: what that makes, and its transcript."""
    made = Run(settings_of(scenario))
    text = "".join(made.line(op) for op in scenario["ops"])
    return made, f"{text}end {made.clock.time}\n"


def draws(seed: int) -> Callable[[int], int]:
    """Numbers below a bound, by a seed (docs/FORMATS.md, "A scenario from a number")."""
    x = seed

    def draw(bound: int) -> int:
        nonlocal x
        x = (x * 6364136223846793005 + 1442695040888963407) % 2**64
        return (x >> 33) % bound

    return draw


def stress(seed: int, count: int) -> str:
    """What `ertime stress` prints."""
    made, draw = Run(Settings("multi", False, 0, 4, 8, 4096, 1, (0, 0))), draws(seed)
    mono = system = label = 0
    for _ in range(count):
        d = draw(8)
        if d < 2:
            step = MILLION * (1 + draw(50))
            mono, system = mono + step, system + step
            if draw(64) == 0:
                system -= 1000 * MILLION
            made.line(["tick", mono, system])
        elif d < 4:
            wheel, amount, process = draw(4), draw(200), draw(8)
            made.line(["start", label, wheel, "rel", amount, process, label])
            label += 1
        elif d < 6:
            made.line([("cancel", "read")[d - 4], draw(label + 1)])
        else:
            made.line([("turn", "receive")[d - 6], draw((4, 8)[d - 6])])
    ends = list(made.state.status.values())
    names = ("armed", "expired", "delivered", "dropped", "cancelled", "orphaned")
    return f"settled {' '.join(f'{name} {ends.count(name)}' for name in names)}\nend {made.clock.time}\n"


def main() -> None:
    parser = argparse.ArgumentParser(description=__doc__, formatter_class=argparse.RawDescriptionHelpFormatter)
    parser.add_argument("--history", action="store_true", help="print the history of the run in place of its transcript")
    asked = parser.parse_args()
    made, text = run(json.load(sys.stdin))
    print(text_of(made.settings, made.entries) if asked.history else text, end="")


if __name__ == "__main__":
    main()
