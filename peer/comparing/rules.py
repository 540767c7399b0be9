"""The known differences: those that a line may have. docs/ERLANG-DIFFERENCES.md has the table of all rules."""
import pathlib
import re

TABLE = pathlib.Path(__file__).resolve().parent.parent.parent / "docs/ERLANG-DIFFERENCES.md"
GREATEST_DEADLINE = 8796093022207
MILLISECOND = 1_000_000
# What the driver writes for a process that has exited and so has no monitors.
OF_EXITED = {"monitor": "monitor exited", "demonitor": "demonitor false", "notify": "notify 0"}


class Seen:
    """What the rules ask about ertime's lines so far."""

    def __init__(self, settings):
        self.start = self.now = settings["start"]
        self.offset = settings["first"][1] - settings["start"]
        self.exited = set()
        self.monitors = {}
        # The processes that were told since a finalization kept the offset; None before one.
        self.told = None

    def add(self, op, line):
        """Takes a line into account, after it was compared."""
        words = line.split()
        if op[0] == "exit":
            self.exited.add(op[1])
        elif op[0] == "monitor" and line != "monitor full":
            self.monitors[op[1]] = self.monitors.get(op[1], 0) + 1
        elif op[0] == "notify" and self.told is not None:
            self.told.add(op[1])
        elif op[0] in ("tick", "check", "finalize"):
            self.now = int(words[2 if op[0] == "finalize" else 1])
            if "offset" in words:
                offset = int(words[-1])
                if op[0] == "finalize" and offset == self.offset:
                    self.told = set()
                self.offset = offset

    def deadline(self, op):
        """The deadline of a start, in milliseconds after the start time."""
        if op[3] == "rel":
            return op[4] - (self.start - self.now) // MILLISECOND
        return op[4] - self.start // MILLISECOND


def change_at_finalization(op, ours, theirs, seen):
    if op[0] != "notify" or seen.told is None or op[1] in seen.told:
        return False
    return ours == "notify 0" and re.fullmatch(r"notify [1-9]\d*", theirs)


def exited_monitors(op, ours, theirs, seen):
    if OF_EXITED.get(op[0]) != theirs or op[1] not in seen.exited:
        return False
    made = seen.monitors.get(op[1], 0)
    if op[0] == "notify":
        return ours in (f"notify {count}" for count in range(1, made + 1))
    return ours in (f"monitor {made}", "monitor full", "demonitor true")


def greatest_deadline(op, ours, theirs, seen):
    if op[0] not in ("start", "send_after") or (ours, theirs) != (f"{op[0]} badarg", f"{op[0]} ok"):
        return False
    return seen.deadline(op) > GREATEST_DEADLINE


def end_time(op, ours, theirs, _seen):
    without = re.compile(r" end -?\d+ ")
    return op[0] == "info" and without.sub(" end ", ours, 1) == without.sub(" end ", theirs, 1)


def number_of_monitors(op, ours, theirs, _seen):
    return op[0] == "monitor" and ours == "monitor full" and re.fullmatch(r"monitor \d+", theirs)


OF_LINES = {
    "change-at-finalization": change_at_finalization,
    "exited-monitors": exited_monitors,
    "greatest-deadline": greatest_deadline,
    "end-time": end_time,
    "number-of-monitors": number_of_monitors,
}


def table():
    """The rules of the table, and how each shows: `line` or `form`."""
    found = {}
    for text in TABLE.read_text().splitlines():
        cells = [cell.strip() for cell in text.split("|")]
        if len(cells) > 3 and re.fullmatch(r"`[a-z-]+`", cells[1]):
            found[cells[1].strip("`")] = cells[2]
    return found


def rule_of(op, ours, theirs, seen, known):
    """The rule of the table by which the lines may differ, or None."""
    for rule, holds in OF_LINES.items():
        if known.get(rule) == "line" and holds(op, ours, theirs, seen):
            return rule
    return None
