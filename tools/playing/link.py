"""A text in the fragment of an address, as the page writes it (`web/page/link.mjs`): deflated, in the URL's base 64."""
from __future__ import annotations

import base64
import pathlib
import zlib

# The letters of a fragment: a scenario, and a history.
KINDS = ("s", "h")


class BadFile(Exception):
    """A file that the page can't begin with; the text says why."""


def fragment(text: str) -> str:
    """The fragment that opens the page with a text."""
    packer = zlib.compressobj(9, zlib.DEFLATED, -15)
    packed = packer.compress(text.encode()) + packer.flush()
    kind = "h" if text.startswith("settings ") else "s"
    return f"{kind}={base64.urlsafe_b64encode(packed).decode().rstrip('=')}"


def read_text(name: str) -> str:
    """The text of a file."""
    try:
        return pathlib.Path(name).read_bytes().decode()
    except OSError as error:
        raise BadFile(f"{name}: {error.strerror or 'it cannot be read'}") from error
    except UnicodeDecodeError as error:
        raise BadFile(f"{name}: not UTF-8") from error


def fragment_of(what: str) -> str:
    """The fragment of a link that a page made, or of a file with a scenario or a history."""
    _, mark, tail = what.partition("#")
    if mark and tail[:2] in {f"{kind}=" for kind in KINDS} and not pathlib.Path(what).exists():
        return tail
    return fragment(read_text(what))
