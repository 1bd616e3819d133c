"""Keeps a table that a bench has printed in bench/results, on the page of that bench, under the table's heading.

`make bench` does so; a bench that is run by itself only prints, unless RESULTS names a folder. The line that says
when and where a table was measured comes with it, and both are put in place of what the page has under the same
heading, up to the next line that begins no table. What else the page says stays. A page or a heading that is not
there yet is made.
"""

from __future__ import annotations

import os
import pathlib
import re
import sys
from typing import Any


def pasted(page: str, heading: str, table: str) -> Any:
    """The page with a table under a heading."""
    place = re.compile(rf"(^### {re.escape(heading)}\n\n)(?:Measured .*\n\n)?(?:\|.*\n|Not measured yet\.\n)+", re.M)
    if place.search(page):
        return place.sub(lambda found: found.group(1) + table, page, count=1)
    return f"{page.rstrip()}\n\n### {heading}\n\n{table}"


def keep(heading: str, table: str) -> None:
    """Puts a table, with the line that says when it was measured, on the page of the bench that is run."""
    folder = os.environ.get("RESULTS")
    if not folder:
        return
    name = pathlib.Path(sys.argv[0]).stem
    path = pathlib.Path(folder) / f"{name}.md"
    path.parent.mkdir(parents=True, exist_ok=True)
    page = path.read_text(encoding="utf-8") if path.exists() else f"# {name}\n\nBy `bench/{name}.py`.\n"
    path.write_text(pasted(page, heading, table), encoding="utf-8")
