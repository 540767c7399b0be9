"""Which part of a document people write, and which a script.

A script writes what stands between the line `<!-- NAME -->` and the line `<!-- end of NAME -->` (of the model and of the reading
base with an article), a transcript below the command `ertime run` that prints it, and the pages of WHOLE. The rest is by hand.
"""
import re

PART = re.compile(r"^<!-- (?:the )?([^>]+?) -->\n(.*?)^<!-- end of (?:the )?\1 -->\n?", re.M | re.S)
QUOTED = re.compile(r"^(    \$ ertime run < (examples/\S+)\n)(?:    .*\n)+", re.M)
WHOLE = ("READING-BASE.md",)


def by_hand(name: str, text: str) -> str:
    """What people write of a page."""
    return "" if name in WHOLE else QUOTED.sub(r"\1", PART.sub("", text))


def with_part(text: str, name: str, made: str) -> str:
    """A page with a part that was made anew. It has to have the place for it once."""
    begin, end = f"<!-- {name} -->\n", f"<!-- end of {name} -->"
    if text.count(begin) != 1 or text.count(end) != 1:
        raise ValueError(f"there is no one place for the part {name!r}")
    return text[: text.index(begin) + len(begin)] + "\n" + made + "\n" + text[text.index(end) :]
