"""The page as one file, which a browser opens from the disk: nothing that it needs is elsewhere."""
from __future__ import annotations

import base64
import gzip
import hashlib
import html
import json
import pathlib
import re

from . import TOP
from .limit import limited
from .modules import joined
from .shelf import shelf
from .spelling import spelling

WEB = TOP / "tools/web"
PAGE = WEB / "page"
# The most bytes of memory that the programs take in the page.
MEMORY = 256 * 2**20
# What the page may do: run the scripts and styles that stand in it, and nothing with another place.
POLICY = (
    "default-src 'none'; script-src 'sha256-{script}' 'wasm-unsafe-eval'; style-src 'sha256-{style}'; img-src data:; "
    "worker-src blob:; base-uri 'none'; form-action 'none'"
)


def _sum(text: str) -> str:
    """The checksum of a script or a style by which the policy names it."""
    return base64.b64encode(hashlib.sha256(text.encode()).digest()).decode()


def _put(text: str, place: str, made: str) -> str:
    """A text with something in the place of what stands there once."""
    if text.count(place) != 1:
        raise ValueError(f"index.html has {place!r} {text.count(place)} times")
    return text.replace(place, made)


def _packed(data: bytes) -> str:
    """Data that can stand in HTML."""
    return base64.b64encode(gzip.compress(data, 9, mtime=0)).decode()


def _built(licences: str) -> bytes:
    """What the page is built with beside the module, as JSON."""
    built = {
        "worker": joined(PAGE / "worker.mjs"),
        "schema": json.loads((TOP / "docs/scenario.schema.json").read_text()),
        "spelling": spelling(),
        "shelf": shelf(),
        "marks": (PAGE / "marks.css").read_text(),
        "licences": licences,
    }
    return json.dumps(built, ensure_ascii=False, separators=(",", ":")).encode()


def one_file(module: bytes, licences: str, version: str) -> str:
    """The page with a module of the programs, the licences of what is linked, and the version of all."""
    script, style = "\n" + joined(PAGE / "page.mjs"), "\n" + (PAGE / "page.css").read_text()
    if re.search(r"</script|<!--", script, re.IGNORECASE) or "</style" in style:
        raise ValueError("a script or a style has the end of its element in it")
    policy = html.escape(POLICY.format(script=_sum(script), style=_sum(style)))
    icon = base64.b64encode((PAGE / "icon.svg").read_bytes()).decode()
    text = (PAGE / "index.html").read_text()
    text = _put(text, '<meta charset="utf-8">', f'<meta charset="utf-8">\n<meta http-equiv="Content-Security-Policy" content="{policy}">')
    text = _put(text, 'href="icon.svg"', f'href="data:image/svg+xml;base64,{icon}"')
    text = _put(text, '<link rel="stylesheet" href="page.css">', f"<style>{style}</style>")
    text = _put(text, "@VERSION@", version)
    for name, data in (("module", limited(module, MEMORY)), ("built", _built(licences))):
        text = _put(text, f' id="{name}"></script>', f' id="{name}">{_packed(data)}</script>')
    return _put(text, '<script type="module" src="page.mjs"></script>', f"<script>{script}</script>")
