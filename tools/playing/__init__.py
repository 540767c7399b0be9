"""What makes the page on which one plays with time: `packaging/page` calls it, and `tools/playground` opens the page.

`shelf` and `spelling` take the page's lists from the documents, `modules` joins its scripts, `one_file` puts everything
into one file, and `link` is a text in the fragment of an address.
"""
from __future__ import annotations

import pathlib

TOP = pathlib.Path(__file__).resolve().parent.parent.parent
