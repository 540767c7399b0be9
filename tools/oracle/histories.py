"""Random histories: entries that may come next in a state, most of them legal, and changes of what was legal."""
from __future__ import annotations

import random
from typing import Callable, NamedTuple

from model import END, MILLION, ROUND, USE, Entry, Reading, Settings, Timer
from spelling import EVENTS, MODES, STATES, STATUSES, line_of, text_of
from state import State, first_of

# Numbers that a reading or an amount of milliseconds moves by.
STEPS = (0, 1, 999_999, MILLION, MILLION + 1, 5 * MILLION, 100 * MILLION + 1, 59_999_999_999, 60_000_000_000, 3_600_000_000_000)
EDGES = (-(2**63), -(2**62), -(2**62) - 1, -(2**61), -1, 0, 1, 2**43, 2**62 - 1, 2**62, 2**63 - 1)
GENERATIONS = (0, 1, 2, ROUND, ROUND + 1, USE - 1, USE, USE + 1, 2**61 - 1, 2**61, 2**64 - 1)
KINDS = (
    (*STATUSES, "none"), STATES, MODES, ("true", "false"), ("plain", "force", "finalize"), ("wrapped", "bare"), ("after", "at"),
    ("cancel", "read", "peek"), ("expire", "orphan", "deliver", "drop"), ("timeout", "bare"), ("cancel_done", "read_done"),
)  # fmt: skip
PIECES = (b"", b"\n", b" ", b"-", b"0", b"1", b"none", b"k", b"true", b"x", b"\xff", b"\r\n", b"18446744073709551616", b"-0")


def reading_by(rng: random.Random, before: Reading, time_at: Callable[[int], int]) -> Reading:
    """A reading that may come after one: both clocks move alike, or each for itself; or the offset comes to its limits."""
    if rng.random() < 0.03:
        mono = rng.choice((before[0], 2**61 + 2**60, 2**62 - 1))
        return mono, inside(time_at(mono) - 2**62 + rng.choice((-1, 0, 1, 2**60, -(2**60))))
    step = rng.choice(STEPS)
    off = rng.choice((step, step, rng.choice(STEPS), -rng.choice(STEPS)))
    return min(max(before[0] + step * rng.choice((1, 1, 1, -1)), 0), 2**62 - 1), inside(before[1] + off)


def inside(system: int) -> int:
    """The valid OS system time that is nearest."""
    return min(max(system, 1 - 2**61), 2**61 - 1)


def settings_by(rng: random.Random) -> Settings:
    """Small settings."""
    counts = [rng.randint(1, 3) for _ in range(4)]
    start = MILLION * rng.choice((0, 0, 1, -7, 1_000_000, -(2**58 // MILLION), 2**58 // MILLION))
    first = rng.choice(((0, 0), (rng.randrange(2**40), rng.randrange(-(2**40), 2**60)), (2**62 - 1, 1 - 2**61)))
    return Settings(rng.choice(MODES), rng.random() < 0.5, start, *counts, first=first)


class Maker:
    """Proposes entries in a state."""

    def __init__(self, rng: random.Random, state: State) -> None:
        self.rng, self.state, self.settings = rng, state, state.settings
        self.reading = state.settings.first

    def number(self, count: int) -> int:
        """A number below a count, and seldom one at or above it."""
        return self.rng.randrange(count) if self.rng.random() < 0.99 else self.rng.choice((count, count + 1, 2**32 - 1))

    def caller(self) -> str:
        """A caller."""
        return f"c{self.number(self.settings.callers)}"

    def user(self) -> str:
        """A caller or a scheduler."""
        return self.rng.choice((self.caller(), f"s{self.number(self.settings.schedulers)}"))

    def process(self) -> int:
        """A process."""
        return self.number(self.settings.processes)

    def scheduler(self) -> int:
        """A scheduler."""
        return self.number(self.settings.schedulers)

    def timer(self) -> Timer:
        """A timer that there was, or one that there wasn't."""
        known = self.state.rows
        if known and self.rng.random() < 0.9:
            return self.rng.choice(list(known)[-12:])
        return self.scheduler(), self.number(self.settings.slots), self.rng.choice(GENERATIONS)

    def tick(self) -> Entry:
        """A tick, of a reading that is kept where it is taken."""
        reading = reading_by(self.rng, self.reading, lambda mono: self.state.clock.time_after((mono, -(2**61))))
        act = self.rng.choice(("plain", "plain", "force", "finalize"))
        if self.state.clock.can_tick(reading, act):
            self.reading = reading
        return Entry("k", self.caller(), "tick", (reading, act, self.state.clock.time_after(reading)))

    def shift(self) -> Entry:
        """The shift that is due, or one that isn't."""
        clock = self.state.clock
        return Entry("k", self.caller(), "shift", clock.due or (clock.offset, self.rng.choice(STATES)))

    def look(self) -> Entry:
        """A look."""
        return Entry(self.user(), "-", "look", (self.state.clock.time,))

    def off(self) -> Entry:
        """A reading of the offset."""
        by, other = self.rng.choice(((self.user(), "-"), ("k", self.caller())))
        return Entry(by, other, "off", (self.state.clock.offset, self.state.clock.state))

    def arm(self) -> Entry:
        """A start."""
        wheel, slot, by = self.scheduler(), self.number(self.settings.slots), self.caller()
        amount = self.rng.choice((0, 1, 5, 5, 50, 60_000, END, END + 1, -1, *EDGES))
        when = self.rng.choice(("after", "at"))
        if when == "at" and self.rng.random() < 0.7:
            amount += self.settings.up(self.state.clock.time) + self.settings.start // MILLION
            amount = min(max(amount, -(2**63)), 2**63 - 1)
        deadline = self.settings.deadline(when, amount, self.state.look_of(by))
        generation = self.state.slots[wheel, slot].next(self.settings.down(self.state.look_of(by)), deadline or 0) or 1
        start = when, amount, self.process(), self.rng.choice((0, 7, 2**64 - 1)), self.rng.choice(("wrapped", "bare"))
        return Entry(by, f"w{wheel}", "arm", ((wheel, slot, generation), start))

    def probe(self) -> Entry:
        """A probe."""
        wheel, slot = self.scheduler(), self.number(self.settings.slots)
        by = self.rng.choice((self.caller(), f"s{wheel}"))
        return Entry(by, f"w{wheel}", "probe", (wheel, slot, self.state.status_of(wheel, slot)))

    def peek(self) -> Entry:
        """A peek, at times of the request in a hand by its scheduler."""
        by, timer = self.user(), self.timer()
        hand = self.state.schedulers[int(by[1:])].hand if by[0] == "s" else None
        timer = hand[1] if hand and self.rng.random() < 0.7 else timer
        return Entry(by, "-", self.rng.choice(("peek", "cancel")), (timer, self.state.left(timer, by)))

    cancel = peek

    def expire(self) -> Entry:
        """An expiry, mostly of the timer that comes first."""
        number = self.scheduler()
        timer = self.state.schedulers[number].first_armed()
        timer = timer if timer and self.rng.random() < 0.8 else self.timer()
        return Entry(f"s{timer[0]}", f"w{timer[0]}", "expire", (timer,))

    def orphan(self) -> Entry:
        """An orphan."""
        timer = self.timer()
        return Entry(self.caller(), f"w{timer[0]}", "orphan", (timer,))

    def deliver(self) -> Entry:
        """A delivery, mostly of the first that waits."""
        timer = first_of(self.state.schedulers[self.scheduler()].expired) or self.timer()
        process = self.state.rows[timer].process if timer in self.state.rows else 0
        return Entry(f"s{timer[0]}", f"m{process}", "deliver", (timer,))

    def drop(self) -> Entry:
        """The same, to an exited process."""
        made = self.deliver()
        return Entry(made.by, "-", "drop", made.fields)

    def mark(self) -> Entry:
        """Whether a process has exited."""
        process, exits = self.process(), self.rng.random() < 0.1
        return Entry(self.user(), "-", "mark", (process, exits, self.state.processes[process].exited))

    def advanced(self) -> Entry:
        """The end of an advance."""
        number = self.scheduler()
        to = self.settings.down(self.state.look_of(f"s{number}"))
        return Entry(f"s{number}", f"w{number}", "advanced", (number, to))

    def ask(self) -> Entry:
        """A request."""
        number, info = self.scheduler(), self.rng.random() < 0.8
        request = self.rng.choice(("cancel", "read")), self.timer(), self.process(), info
        return Entry(self.caller(), f"i{number}", "ask", (number, request))

    def pick(self) -> Entry:
        """A pick."""
        number = self.scheduler()
        return Entry(f"s{number}", f"i{number}", "pick", (number, first_of(self.state.schedulers[number].inbox)))

    def answer(self) -> Entry:
        """An answer."""
        number = self.scheduler()
        scheduler = self.state.schedulers[number]
        process = scheduler.hand[2] if scheduler.hand else self.process()
        return Entry(f"s{number}", f"m{process}", "answer", (number, scheduler.result[0] if scheduler.result else None))

    def take(self) -> Entry:
        """A message that is taken."""
        number = self.process()
        return Entry(self.caller(), f"m{number}", "take", (number, first_of(self.state.processes[number].mail)))

    def unwatch(self) -> Entry:
        """A monitor that ends."""
        number = self.process()
        process = self.state.processes[number]
        monitor = self.rng.randrange(process.next + 1)
        return Entry(self.caller(), f"m{number}", "unwatch", (number, monitor, monitor in process.monitors))

    def watch(self) -> Entry:
        """A monitor that begins."""
        number = self.process()
        return Entry(self.caller(), f"m{number}", "watch", (number, self.state.processes[number].next, self.state.clock.offset))

    def tell(self) -> Entry:
        """The offset is told."""
        number = self.process()
        return Entry(self.caller(), f"m{number}", "tell", (number, self.state.clock.offset))


class Made(NamedTuple):
    """A legal history: its lines, the first of them the settings, and what was proposed and refused behind so many lines."""

    lines: list[str]
    refused: list[tuple[int, str]]

    def text(self) -> bytes:
        """Its text."""
        return joined(self.lines)


def joined(lines: list[str]) -> bytes:
    """The text of lines."""
    return "".join(f"{line}\n" for line in lines).encode("latin-1")


def likely(maker: Maker) -> list[str]:
    """Events, those that can hardly be legal elsewhere several times where they can."""
    known = maker.state.schedulers.values()
    found = [*EVENTS, "arm", "arm", "tick"]
    found += ["shift"] * 8 if maker.state.clock.due else []
    found += ["look", "expire", "expire"] * 3 if any(it.armed for it in known) else []
    found += ["deliver", "drop"] * 4 if any(it.expired for it in known) else []
    found += ["cancel", "answer"] * 4 if any(it.hand for it in known) else []
    return found


def legal(rng: random.Random, count: int) -> Made:
    """A legal history that the judge makes: of so many proposals it takes those that are legal."""
    settings = settings_by(rng)
    maker = Maker(rng, State(settings))
    made = Made(text_of(settings, []).splitlines(), [])
    for _ in range(count):
        entry: Entry = getattr(maker, rng.choice(likely(maker)))()
        line = line_of(entry[:3], entry.fields)[:-1]
        if maker.state.step(entry):
            made.lines.append(line)
        else:
            made.refused.append((len(made.lines), line))
    return made


def other_word(rng: random.Random, word: str) -> str:
    """Another word of the kind of a word: a number beside it, another actor."""
    kind = rng.choice([it for it in KINDS if word in it] or [()])
    if kind:
        return rng.choice([it for it in kind if it != word])
    if word.lstrip("-").isdecimal():
        return str(rng.choice((int(word) + 1, int(word) - 1, rng.choice(EDGES))))
    if word[1:].isdecimal():
        return rng.choice((f"{rng.choice('wismc')}{word[1:]}", f"{word[0]}{int(word[1:]) + rng.choice((1, -1))}", "-", "k"))
    return rng.choice(("none", "0", "c0", "x", *EVENTS))


def other_line(rng: random.Random, lines: list[str], at: int) -> str:
    """A line with one word changed, or ended as another line of its event."""
    words = lines[at].split(" ")
    place = rng.randrange(len(words))
    if rng.random() < 0.8:
        words[place] = other_word(rng, words[place])
    else:
        words[place:] = rng.choice([it for it in (other.split(" ") for other in lines) if it[2] == words[2]])[place:]
    return " ".join(words)


def other_bytes(rng: random.Random, text: bytes) -> bytes:
    """A text with some bytes taken out, and others put there."""
    at = rng.randrange(len(text) + 1)
    return text[:at] + rng.choice(PIECES) + text[at + rng.choice((0, 0, 1, 1, 2, 9)) :]


def broken(rng: random.Random, made: Made) -> bytes:
    """A text that is one change away from a legal history."""
    lines, way = list(made.lines), rng.random()
    at = rng.randrange(len(lines))
    if way < 0.4 and made.refused:
        event = rng.choice(sorted({line.split(" ")[2] for _, line in made.refused}))
        lines.insert(*rng.choice([it for it in made.refused if it[1].split(" ")[2] == event]))
    elif way < 0.7:
        lines[at] = other_line(rng, lines, at)
    elif way < 0.9:
        line = lines.pop(at)
        lines[(to := rng.randrange(len(lines) + 1)):to] = [line] * rng.choice((0, 0, 1, 2))
    else:
        return other_bytes(rng, made.text())
    return joined(lines)


def rounds(rng: random.Random) -> bytes:
    """A history in which a slot is used up, rests, and has a second round, which ends with an entry that may be illegal."""
    last = rng.randrange(5)
    settings = Settings("no", False, 0, 1, 1, 1, 2, (0, 0))
    lines = text_of(settings, []).splitlines()
    for use in range(1, ROUND + 1):
        lines += [f"c0 w0 arm 0 0 {use} at {last if use == 9 else 0} 0 0 bare", f"c0 - cancel 0 0 {use} {last if use == 9 else 0}"]
    rests = rng.randrange(last + 1)
    lines += [f"k c0 tick 0 {rests * MILLION} plain {rests * MILLION}", f"c0 - look {rests * MILLION}"]
    now = (last + 1) * MILLION
    second = [f"k c0 tick 0 {now} plain {now}", f"c0 - look {now}"]
    first, after = USE + last + 1, 2 * USE + last + 8
    second += [f"c0 w0 arm 0 0 {first} at 0 0 0 bare", f"c0 - cancel 0 0 {first} 0"]
    wrong = rng.choice((1, ROUND + 1, first - 1, first + 1, first + USE, after))
    ends = (
        [f"c0 w0 arm 0 0 {USE + rests} at 0 0 0 bare"],
        [*second[:2], f"c0 w0 arm 0 0 {wrong} at 0 0 0 bare"],
        [*second, f"c1 w0 arm 0 0 {after} at {last + 8} 0 0 bare"],
        [*second, f"c0 w0 arm 0 0 {after} after 7 0 0 bare", f"s0 - look {now}", f"s0 w0 advanced 0 {last + 1}"],
        [*second, f"c1 - look {now}", f"c1 w0 arm 0 0 {after} after {rng.choice((6, 7))} 0 0 bare", f"c1 - peek 0 0 {after} 7"],
    )
    return joined(lines + rng.choice(ends))
