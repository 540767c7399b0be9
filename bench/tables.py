"""The tables of what was measured, and their places in the documents."""
import os
import pathlib
import re
import sys

TOP = pathlib.Path(__file__).resolve().parent.parent


def table(head, rows):
    """The lines of a table, whose first column has words and each other one numbers."""
    widths = [max(len(row[column]) for row in [head, *rows]) for column in range(len(head))]

    def line(cells):
        first = [cells[0].ljust(widths[0])]
        return "| " + " | ".join(first + [text.rjust(width) for text, width in zip(cells[1:], widths[1:])]) + " |"

    rule = "|" + "|".join(["-" * (widths[0] + 2)] + ["-" * (width + 1) + ":" for width in widths[1:]]) + "|"
    return [line(head), rule, *map(line, rows)]


def put(document, name, lines):
    """Puts lines between the two marks of that name of a document."""
    begin, end = f"<!-- {name} -->", f"<!-- end of {name} -->"
    path = TOP / document
    before, _, rest = path.read_text().partition(begin)
    _, _, after = rest.partition(end)
    if not after:
        sys.exit(f"{document} lacks {begin} or {end}")
    path.write_text("\n".join([before + begin, *lines, end + after]))


def processor():
    try:
        models = re.findall(r"^model name\s*:\s*(.*)$", pathlib.Path("/proc/cpuinfo").read_text(), re.MULTILINE)
        return f"{len(models)} x {models[0]}"
    except (OSError, IndexError):
        return "processor not told"


def raise_priority():
    """As root a measurement runs with a higher priority than usual, so that other work disturbs it less, but not under
    `nice`. Linux divides the processors among sessions first, so unless a shell has the script as a job, it gets a session
    of its own with that priority."""
    if os.geteuid() == 0 and os.getpriority(os.PRIO_PROCESS, 0) == 0:
        os.setpriority(os.PRIO_PROCESS, 0, -5)
        group = pathlib.Path("/proc/self/autogroup")
        if group.exists() and os.getpgrp() != os.getpid():
            os.setsid()
            group.write_text("-5")
