"""One scenario compared: what was changed, the lines that differ, and how many."""
import json
import subprocess

from comparing import rules
from comparing.form import Form
from comparing.node import NodeFault

SHOWN_PLACES = 12


class Refused(Exception):
    """ertime refused the scenario."""


def transcript(program, text):
    """The lines that `ertime run` writes of a scenario."""
    ended = subprocess.run([program, "run"], input=text, capture_output=True, check=False)
    written = ended.stdout.decode()
    if ended.returncode != 0:
        raise Refused(f"{written.strip()} (status {ended.returncode})")
    return written.splitlines()


class Comparison:
    """What came of one scenario: what to print, and the figures. `text` makes its text."""

    def __init__(self, name, text, build, program, known, both):
        self.name, self.program, self.known_rules, self.both = name, program, known, both
        self.said = []
        self.lines = self.others = 0
        self.known = {}
        self.changes = ()
        self.is_refused = False
        try:
            self._compare(text(), build)
        except Refused as refused:
            self.is_refused = True
            self.said.append(f"{name}: not compared: {refused}")
        except NodeFault as fault:
            self.others += 1
            self.said.append(f"{name}: DIFFERENT: {fault}")

    def _compare(self, text, build):
        transcript(self.program, text)
        form = self._formed(json.loads(text))
        rows = build.run(form.settings, form.ops)
        ops, put_in = _done_ops(form, rows)
        ours = transcript(self.program, _text(form, ops).encode())
        theirs = [line for _, _, line in rows]
        self.changes = form.changes
        self.said.append(f"{self.name}: {len(ours)} lines")
        self._say_changes(form, put_in)
        if len(ours) != len(theirs):
            self.others += 1
            self.said.append(f"  DIFFERENT: ertime wrote {len(ours)} lines, the node {len(theirs)}")
        self._compare_lines(form, ops, ours, theirs)

    def _formed(self, scenario):
        """The form, without the ops whose offset ertime would not take."""
        left_out = set()
        while True:
            form = Form(scenario, left_out)
            lines = transcript(self.program, _text(form, form.ops).encode())
            wide = {form.places[at] for at, line in enumerate(lines[:-1]) if " offset_wide " in line}
            if not wide:
                return form
            left_out |= wide

    def _say_changes(self, form, put_in):
        for rule, places in sorted(form.changes.items()):
            shown = ", ".join(map(str, places[:SHOWN_PLACES]))
            more = len(places) - SHOWN_PLACES
            self.said.append(f"  form {rule}: at {shown}" + (f" and {more} more" if more > 0 else ""))
            if self.known_rules.get(rule) != "form":
                self.others += 1
                self.said.append(f"  DIFFERENT: the table has no rule {rule} of the form")
        if put_in:
            self.said.append(f"  form moments-of-checks: {put_in} ops put in, until the node checked its clock")

    def _compare_lines(self, form, ops, ours, theirs):
        seen = rules.Seen(form.settings)
        for op, our, their in zip([*ops, ["end"]], ours, theirs):
            self.lines += 1
            verdict = ""
            if our != their:
                verdict = self._verdict(rules.rule_of(op, our, their, seen, self.known_rules))
            seen.add(op, our)
            if self.both or verdict:
                self.said.append(f"  {json.dumps(op, separators=(',', ':')):<44} {our:<44} {their}{verdict}")

    def _verdict(self, rule):
        if rule is None:
            self.others += 1
            return "  DIFFERENT"
        self.known[rule] = self.known.get(rule, 0) + 1
        return f"  known: {rule}"


def _text(form, ops):
    return json.dumps({"format": 2, **form.settings, "slots": form.slots, "ops": ops})


def _done_ops(form, rows):
    """The ops that the node did, of the rows of its driver, and how many of them weren't given."""
    given = iter(form.ops)
    ops = []
    for mark, text, _line in rows[:-1]:
        as_given = None if mark == "+" else next(given)
        ops.append(as_given if mark == "=" else json.loads(text))
    return ops, len(ops) - len(form.ops)
