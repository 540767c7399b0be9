"""The tables of docs/FORMATS.md that .ci/check_schema writes.

Those of fields, ops and arguments are of docs/scenario.schema.json, by the descriptions there; that of what can be wrong with
an entry of a history is of the judge's reasons and their texts, in the order in which they stand there.
"""
from __future__ import annotations

import json
import pathlib
import re
from collections.abc import Iterator
from typing import Any

from by_hand import with_part

TOP = pathlib.Path(__file__).resolve().parent.parent
PAGE = TOP / "docs/FORMATS.md"
JUDGE = TOP / "crates/ert_judge/src"
# The tables of ops, each with its ops in order.
GROUPS = {
    "ops of the clock": "tick check finalize time system offset info convert",
    "ops of timers": "start send_after cancel cancel_quiet read cancel_async read_async",
    "ops of processes": "serve advance deliver turn receive exit alive monitor demonitor notify",
}
ABSENT = re.compile(r" Where absent, (.*?)\.(?= |$)")
NEEDED = " It has to be there."


def cell(text: str) -> str:
    return text.replace("|", "\\|")


def code(text: str, values: tuple[str, ...] = ()) -> str:
    """A description for the page: what stands in quotes is code, and a value of a field keeps its quotes."""
    return re.sub(r'"([^"]*)"', lambda it: f"`{it[0]}`" if it[1] in values else f"`{it[1].strip()}`", text)


def table(*rows: tuple[str, ...]) -> str:
    head, *body = rows
    return "\n".join(f"| {' | '.join(map(cell, it))} |".replace("|  |", "| |") for it in [head, *body]).replace(
        "\n", f"\n|{'---|' * len(head)}\n", 1
    )


def fields(schema: dict[str, Any]) -> str:
    """The fields of a scenario."""
    rows = [("field", "value", "if absent")]
    for name, it in schema["properties"].items():
        said = it["description"]
        absent = ABSENT.search(said)
        values = tuple(map(str, it.get("enum", ())))
        missing = f"`{absent[1]}`" if absent else "refused, shape 0" if NEEDED in said else "none"
        rows.append((f"`{name}`", code(ABSENT.sub("", said).replace(NEEDED, ""), values), missing))
    return table(*rows)


def race_fields(schema: dict[str, Any]) -> str:
    """The fields of a race."""
    race = schema["properties"]["race"]["properties"]
    return table(("field", "value"), *((f"`{name}`", code(it["description"])) for name, it in race.items()))


def ops_by_name(schema: dict[str, Any]) -> dict[str, dict[int, dict[str, Any]]]:
    """Each op with its schemas, by the format that has it: 0 is both."""
    found: dict[str, dict[int, dict[str, Any]]] = {}
    for place, inner in schema["$defs"].items():
        version = int(place[-1]) if place.startswith("op_of_format_") else 0
        for it in inner.get("anyOf", [inner]):
            if "const" in it.get("prefixItems", [{}])[0]:
                found.setdefault(it["prefixItems"][0]["const"], {})[version] = it
    return found


def ops(schema: dict[str, Any], names: str) -> str:
    """A table of ops."""
    known = ops_by_name(schema)
    rows = [("op", "what it does, and its line")]
    for name in names.split():
        versions = known[name]
        it = versions.get(0) or versions[2]
        said = code(it["prefixItems"][0]["description"])
        if set(versions) == {2}:
            said += " In format 2 only."
        elif len(versions) == 2:
            said += " In format 1 without the last argument, which counts as `true`."
        rows.append((f"`{it['title']}`", said))
    return table(*rows)


def arguments(schema: dict[str, Any]) -> str:
    """The arguments of ops."""
    kinds = [it for it in schema["$defs"].values() if it.get("title") and not it["title"].startswith("[")]
    return table(("argument", "what it is"), *((it["title"] if '"' not in it["title"] else code(it["title"], ("rel", "abs")), code(it["description"], ("rel", "abs"))) for it in kinds))


def texts(body: str, functions: dict[str, str]) -> Iterator[str]:
    """The texts that a piece of code writes, as far as its own file says; a value is its name in capitals, or two dots."""
    for found in re.finditer(r'write!\(\s*page,\s*"((?:[^"\\]|\\.)*)"|\b(write_\w+)\(page', body):
        if found[1] is not None:
            yield re.sub(r"(?<![a-z])\{(\w+)\}", lambda it: it[1].upper(), found[1]).replace("{number}", "..").replace("{}", "..") + ".." * found[1].endswith(" ")
        elif found[2] in functions:
            yield from texts(functions[found[2]], functions)


def reasons() -> str:
    """What the judge says of an entry that can't follow: each text, and when it comes."""
    source = (JUDGE / "texts.rt").read_text()
    functions = {it[1]: it[2] for it in re.finditer(r"^(?:pub )?fn (\w+)\(.*?^\{\n(.*?)^\}", source, re.M | re.S)}
    arms = dict(re.findall(r"Reason::(\w+)[^=\n]*?(?:\{[^}]*\}|\([^)]*\))?\s*=>\s*(.*?)(?=\n        Reason::|\n        _ =>|\n    \})", source, re.S))
    variants = re.search(r"^pub enum Reason \{\n(.*?)^\}", (JUDGE / "reasons.rt").read_text(), re.M | re.S)
    rows = [("the message", "when")]
    for said, name in re.findall(r"((?: +///[^\n]*\n)+) +(\w+)", variants[1] if variants else ""):
        if name == "Other":
            continue
        when = " ".join(it.strip().removeprefix("///").strip() for it in said.strip().split("\n"))
        helpers = {it: body for it, body in functions.items() if not re.search(r"_reason$", it)}
        rows.append((", ".join(f"`{it.strip()}`" for it in dict.fromkeys(texts(arms[name], helpers))), when))
    return table(*rows)


def page(text: str) -> str:
    """docs/FORMATS.md, or a text with the same parts, with the tables as they are now."""
    schema = json.loads((TOP / "docs/scenario.schema.json").read_text())
    grouped = [name for names in GROUPS.values() for name in names.split()]
    if sorted(grouped) != sorted(ops_by_name(schema)):
        raise ValueError("the groups of ops aren't the ops of the schema")
    made = {"fields": fields(schema), "arguments": arguments(schema), "fields of a race": race_fields(schema), "reasons": reasons()}
    made |= {name: ops(schema, names) for name, names in GROUPS.items()}
    for name, it in made.items():
        text = with_part(text, name, it + "\n")
    return text
