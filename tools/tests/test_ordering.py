"""Tests of `tools/order`: which logs have an order, which call has no place, and what is said of it."""
from __future__ import annotations

import pathlib
import subprocess
import sys
import tempfile
import unittest

from ordering.log import BadLog, read_log
from ordering.search import Found, order

TOP = pathlib.Path(__file__).resolve().parent.parent
SETTINGS = "settings no true 0 2 2 2 5 0 0"
START = "c1 0 1 start after 5 0 7 wrapped = 0 0 1"
# Logs that have an order, with their settings left out.
LEGAL = {
    "nothing": [],
    "a cancel that begins before the start has ended": [
        "c1 0 5 start after 5 0 7 wrapped = 0 0 1",
        "c3 1 4 cancel 0 0 1 = 5",
        "c4 2 3 read 0 0 1 = 5",
    ],
    "of two cancels at once one finds it armed": [START, "c3 2 5 cancel 0 0 1 = none", "c4 3 4 cancel 0 0 1 = 5"],
    "a read from before a tick and one from after it": [
        START,
        "c0 2 7 tick 1000000 1000000 plain = 1000000 none",
        "c3 3 4 read 0 0 1 = 5",
        "c4 5 6 read 0 0 1 = 4",
    ],
    "a start that looked at the time before the tick": [
        "c0 0 3 tick 1000000 1000000 plain = 1000000 none",
        "c1 1 4 start after 5 0 7 wrapped = 0 0 1",
        "c3 5 6 read 0 0 1 = 4",
    ],
    "a turn that others see half done": [
        START,
        "c1 2 3 start after 6 0 8 bare = 0 1 1",
        "c0 4 5 tick 9000000 9000000 plain = 9000000 none",
        "c1 6 11 turn = 0 9 2 2 0",
        "c3 7 8 read 0 0 1 = none",
        "c4 9 10 read 0 1 1 = 0",
        "c1 12 13 take 0 = timeout 0 0 1 7",
        "c1 14 15 take 0 = bare 8",
        "c1 16 17 take 0 = empty",
    ],
    "a cancel between the exit and the end of its timers": [
        START,
        "c1 2 7 exit 0 = true",
        "c3 3 4 alive 0 = false",
        "c4 5 6 cancel 0 0 1 = 5",
        "c1 8 9 take 0 = exited",
        "c1 10 11 start after 5 0 7 wrapped = 0 1 1",
        "c4 12 13 read 0 1 1 = none",
    ],
    "a wheel that is full until a timer is cancelled": [
        START,
        "c1 2 3 start after 6 0 8 bare = 0 1 1",
        "c1 4 7 start after 6 0 9 bare = full",
        "c3 5 6 cancel 0 1 1 = 6",
        "c1 8 9 start after 6 0 9 bare = 0 1 2",
    ],
    "a restart between two reads, and one of another shard": [
        START,
        "c1 2 7 restart 0 0 1 after 6 0 8 bare = 0 0 2",
        "c3 3 4 read 0 0 1 = 5",
        "c4 5 6 read 0 0 2 = 6",
        "c3 8 9 cancel 0 0 1 = none",
        "c2 10 11 restart 0 0 2 after 7 1 9 bare = 1 0 1",
        "c2 12 13 restart 0 0 2 after 7 1 9 bare = none",
        "c2 14 15 restart 1 0 1 after -1 1 9 bare = bad_time",
        "c3 16 17 cancel 1 0 1 = 7",
    ],
    "a restart to another slot that others see half done": [
        START,
        "c1 2 7 restart 0 0 1 after 9 0 8 bare = 0 1 1",
        "c3 3 4 read 0 0 1 = none",
        "c4 5 6 read 0 1 1 = none",
    ],
    "a restart for which each slot is taken": [
        START,
        "c2 2 3 start after 5 1 7 bare = 1 0 1",
        "c2 4 5 start after 5 1 7 bare = 1 1 1",
        "c2 6 7 restart 0 0 1 after 7 1 9 bare = full",
        "c3 8 9 cancel 0 0 1 = 5",
        "c2 10 11 restart 0 0 1 after 7 1 9 bare = none",
    ],
    "a turn that serves what was asked, and then lets the other timer expire": [
        START,
        "c1 2 3 start after 5 0 8 bare = 0 1 1",
        "c1 4 5 ask cancel 0 0 1 0 true = done",
        "c1 6 7 ask read 0 1 1 0 true = done",
        "c0 8 9 tick 5000000 5000000 plain = 5000000 none",
        "c1 10 11 turn = 2 5 1 1 0",
        "c1 12 13 next_mail = 0",
        "c1 14 15 take_some 0 2 = most cancel_done 0 0 1 0 read_done 0 1 1 0",
        "c1 16 17 take_some 0 2 = empty bare 8",
        "c1 18 19 next_mail = empty",
    ],
    "a request for a timer of another shard, beside a cancel": [
        START,
        "c2 2 3 ask cancel 0 0 1 1 true = done",
        "c2 4 7 serve = 1",
        "c3 5 6 cancel 0 0 1 = none",
        "c2 8 9 serve = 0",
        "c2 10 11 take 1 = cancel_done 0 0 1 5",
    ],
    "two requests that are served at different times": [
        START,
        "c1 2 3 ask read 0 0 1 0 true = done",
        "c1 4 5 ask read 0 0 1 0 true = done",
        "c0 6 9 tick 1000000 1000000 plain = 1000000 none",
        "c1 7 8 turn = 2 1 0 0 0",
        "c1 10 11 take_some 0 3 = empty read_done 0 0 1 5 read_done 0 0 1 4",
    ],
    "a request that nobody answers, and that cancels a timer before it is due": [
        START,
        "c2 2 3 ask cancel 0 0 1 1 false = done",
        "c0 4 5 tick 5000000 5000000 plain = 5000000 none",
        "c2 6 7 serve = 1",
        "c1 8 9 turn = 0 5 0 0 0",
        "c1 10 11 take_some 0 1 = empty",
    ],
    "a request that nobody answers, and that comes late": [
        START,
        "c2 2 3 ask cancel 0 0 1 1 false = done",
        "c0 4 5 tick 5000000 5000000 plain = 5000000 none",
        "c2 6 9 serve = 1",
        "c1 7 8 turn = 0 5 1 1 0",
    ],
    "messages of a process that exits": [
        "c1 0 1 ask cancel 0 0 1 0 true = done",
        "c1 2 3 serve = 1",
        "c1 4 5 take_some 0 0 = most",
        "c1 6 7 exit 0 = true",
        "c1 8 9 next_mail = empty",
        "c1 10 11 take_some 0 1 = exited",
    ],
    "a refused tick, a start that is never due, and a name that no timer has": [
        "c0 0 1 tick -1 0 plain = bad_reading",
        "c1 2 3 start after -1 0 7 wrapped = bad_time",
        "c3 4 5 cancel 2 0 1 = none",
    ],
}
# Logs that have none, each with the line of the call that is named.
ILLEGAL = {
    "cancelled twice": (4, [START, "c3 2 3 cancel 0 0 1 = 5", "c4 4 5 cancel 0 0 1 = 5"]),
    "cancelled twice at once": (3, [START, "c3 2 5 cancel 0 0 1 = 5", "c4 3 4 cancel 0 0 1 = 5"]),
    "cancelled before it was started": (2, ["c3 0 1 cancel 0 0 1 = 5", "c1 2 3 start after 5 0 7 wrapped = 0 0 1"]),
    "the time falls": (
        4,
        ["c0 0 1 tick 2000000 2000000 plain = 2000000 none", "c3 2 3 time = 2000000", "c3 4 5 time = 1000000"],
    ),
    "the time falls at a tick": (
        3,
        ["c0 0 1 tick 2000000 2000000 plain = 2000000 none", "c0 2 3 tick 1000000 1000000 plain = 1000000 none"],
    ),
    "the time falls from a thread to another": (
        4,
        ["c0 0 7 tick 2000000 2000000 plain = 2000000 none", "c3 1 2 time = 2000000", "c4 3 4 time = 0"],
    ),
    "more is left than before": (4, [START, "c3 2 3 read 0 0 1 = 5", "c3 4 5 read 0 0 1 = 6"]),
    "it expires early": (
        4,
        [START, "c0 2 3 tick 4000000 4000000 plain = 4000000 none", "c1 4 5 turn = 0 4 1 1 0", "c1 6 7 take 0 = timeout 0 0 1 7"],
    ),
    "it expires, though a cancel ends it later": (
        4,
        [START, "c0 2 3 tick 5000000 5000000 plain = 5000000 none", "c1 4 5 turn = 0 5 1 1 0", "c3 6 7 cancel 0 0 1 = 0"],
    ),
    "it is due, and doesn't expire": (
        4,
        [START, "c0 2 3 tick 5000000 5000000 plain = 5000000 none", "c1 4 5 turn = 0 5 0 0 0", "c3 6 7 read 0 0 1 = 0"],
    ),
    "its message is lost": (
        5,
        [START, "c0 2 3 tick 5000000 5000000 plain = 5000000 none", "c1 4 5 turn = 0 5 1 1 0", "c1 6 7 take 0 = empty"],
    ),
    "cancelled by a request, and by a call before": (
        5,
        [START, "c3 2 3 cancel 0 0 1 = 5", "c1 4 5 ask cancel 0 0 1 0 true = done", "c1 6 7 serve = 1", "c1 8 9 take 0 = cancel_done 0 0 1 5"],
    ),
    "restarted, and then cancelled by its old name": (
        4,
        [START, "c1 2 3 restart 0 0 1 after 6 0 8 bare = 0 0 2", "c3 4 5 cancel 0 0 1 = 5"],
    ),
    "neither timer of a restart is seen": (
        5,
        [START, "c1 2 7 restart 0 0 1 after 6 0 8 bare = 0 0 2", "c3 3 4 read 0 0 1 = none", "c4 5 6 read 0 0 2 = none"],
    ),
    "a restart that loses its timer": (
        6,
        [
            START,
            "c2 2 3 start after 5 1 7 bare = 1 0 1",
            "c2 4 5 start after 5 1 7 bare = 1 1 1",
            "c2 6 7 restart 0 0 1 after 7 1 9 bare = full",
            "c3 8 9 cancel 0 0 1 = none",
        ],
    ),
    "served before it is asked": (2, ["c1 0 1 serve = 1", "c1 2 3 ask read 0 0 1 0 true = done"]),
    "not served by a turn": (4, [START, "c1 2 3 ask read 0 0 1 0 true = done", "c1 4 5 turn = 0 0 0 0 0"]),
    "an answer is lost": (
        4,
        ["c1 0 1 ask read 0 0 1 0 true = done", "c1 2 3 serve = 1", "c1 4 5 take_some 0 1 = empty"],
    ),
    "mail that isn't found": (
        4,
        ["c1 0 1 ask read 0 0 1 0 true = done", "c1 2 3 serve = 1", "c1 4 5 next_mail = empty"],
    ),
    "a process without mail is found": (2, ["c1 0 1 next_mail = 0"]),
    "more is taken than there is room for": (
        4,
        ["c1 0 1 ask read 0 0 1 0 true = done", "c1 2 3 serve = 1", "c1 4 5 take_some 0 0 = most read_done 0 0 1 none"],
    ),
    "a turn expires what its request has cancelled": (
        5,
        [
            START,
            "c1 2 3 ask cancel 0 0 1 0 true = done",
            "c0 4 5 tick 5000000 5000000 plain = 5000000 none",
            "c1 6 7 turn = 1 5 1 1 0",
            "c1 8 9 take 0 = cancel_done 0 0 1 0",
        ],
    ),
    "a slot is used while it is taken": (3, [START, "c1 2 3 start after 5 0 7 wrapped = 0 0 2"]),
    "an offset that the clock never had": (2, ["c3 0 1 offset = 1 final"]),
    "a sum of a time and an offset from before it": (
        4,
        [
            "c0 0 1 tick 2000000 9000000 force = 2000000 7000000",
            "c3 2 3 system = 9000000",
            "c3 4 5 system = 2000000",
        ],
    ),
}
# Texts that are no log.
MISSPELLED = {
    "no settings": "c1 0 1 time = 0\n",
    "no such call": f"{SETTINGS}\nc1 0 1 times = 0\n",
    "an answer of another call": f"{SETTINGS}\nc1 0 1 time = none\n",
    "a shard's call by a seat": f"{SETTINGS}\nc3 0 1 turn = 0 0 0 0 0\n",
    "a message of no kind": f"{SETTINGS}\nc1 0 1 take_some 0 1 = most bare\n",
    "a caller too many": f"{SETTINGS}\nc5 0 1 time = 0\n",
    "an end before the begin": f"{SETTINGS}\nc1 1 0 time = 0\n",
    "a number that stands twice": f"{SETTINGS}\nc1 0 1 time = 0\nc2 1 2 time = 0\n",
}
# A judge that finds everything legal, or the entry at line 3 illegal.
YES = "#!/bin/sh\necho legal $(($(wc -l) - 1))\n"
NO = "#!/bin/sh\ncat >/dev/null\necho illegal 3\necho 'history:3: why' >&2\nexit 1\n"


def found(lines: list[str], limit: int = 10_000) -> Found:
    """What comes of a search in a log."""
    return order(read_log("\n".join([SETTINGS, *lines]) + "\n"), limit)


class Orders(unittest.TestCase):
    """Which logs have an order."""

    def test_legal(self) -> None:
        for name, lines in LEGAL.items():
            with self.subTest(name):
                self.assertIsNotNone(found(lines).entries)

    def test_illegal(self) -> None:
        for name, (line, lines) in ILLEGAL.items():
            with self.subTest(name):
                got = found(lines)
                self.assertIsNone(got.entries)
                self.assertTrue(got.is_all)
                self.assertEqual(got.stuck and got.stuck.line, line)

    def test_given_up(self) -> None:
        got = found([START, "c3 2 3 read 0 0 1 = 5"], 1)
        self.assertEqual((got.entries, got.is_all, got.stuck and got.stuck.line), (None, False, 3))

    def test_misspelled(self) -> None:
        for name, text in MISSPELLED.items():
            with self.subTest(name), self.assertRaises(BadLog):
                read_log(text)


class Histories(unittest.TestCase):
    """The entries of an order, and what the program says."""

    def test_a_look_stands_where_the_clock_showed_it(self) -> None:
        entries = found(LEGAL["a start that looked at the time before the tick"]).entries or []
        self.assertEqual(
            [entry for entry, _ in entries],
            [
                "c1 - look 0",
                "k c0 tick 1000000 1000000 plain 1000000",
                "c1 w0 arm 0 0 1 after 5 0 7 wrapped",
                "c1 - mark 0 false false",
                "c3 - look 1000000",
                "c3 - peek 0 0 1 4",
            ],
        )

    def said(self, judge: str, lines: list[str], *words: str) -> tuple[int, str]:
        """What the program says of a log with this judge, and its status."""
        with tempfile.TemporaryDirectory() as room:
            program = pathlib.Path(room) / "judge"
            program.write_text(judge)
            program.chmod(0o755)
            command = [sys.executable, str(TOP / "order"), "--ertaudit", str(program), *words]
            text = "\n".join([SETTINGS, *lines]) + "\n"
            ran = subprocess.run(command, input=text, capture_output=True, text=True, check=False)
        return ran.returncode, ran.stdout + ran.stderr

    def test_statuses(self) -> None:
        self.assertEqual(self.said(YES, [START]), (0, "legal: 1 calls, 3 entries, 1 moves\n"))
        line, lines = ILLEGAL["cancelled twice"]
        self.assertEqual(self.said(YES, lines), (1, f"no order: this call can't be placed: line {line}: {lines[2]}\n"))
        self.assertEqual(self.said(YES, ["c1"]), (2, "order: line 2: no call: c1\n"))
        given_up = f"no order by 0 moves: this call can't be placed: line 2: {START}\n"
        self.assertEqual(self.said(YES, [START], "--steps", "0"), (3, given_up))
        self.assertEqual(self.said(NO, [START]), (4, f"illegal: history:3: why, of the call at line 2: {START}\n"))
        self.assertEqual(self.said("#!/bin/sh\nexit 7\n", [START])[0], 5)


if __name__ == "__main__":
    unittest.main()
