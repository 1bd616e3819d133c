#!/usr/bin/env python3
"""What memory the reading of a map takes beside the length of its text.

    reading.py PROGRAM

Each map is refused for its epoch (12) once all of it has been read, so that nothing is made of it: the most bytes
that the program had in memory are the text, what was read of it, and the two or three million of the program itself.
It is no part of the gate.
"""

from __future__ import annotations

import json
from collections.abc import Iterator
from typing import Any

from maps import osds, whole
from running import Folder, found, greatest, heading, in_folder, judged, program, table

GOAL = 12
GROUPS = [f"{pool}.{number:x}" for pool in range(1, 33) for number in range(4096)]


def text_of(**parts: Any) -> str:
    """The text of a map that no map may be, with some of its parts: its epoch is 0."""
    return json.dumps({**whole([], [], [], [], epoch=0, max_osd=1), **parts}, separators=(",", ":"))


def exceptions(places: Any) -> str:
    """The text of such a map with explicit sets and pairs of so many places, for each of 131,072 groups."""
    sets: Any = [[group, [(at + place) % 1024 for place in range(places)]] for at, group in enumerate(GROUPS)]
    return text_of(pg_upmap=sets, pg_upmap_items=[[group, [[osd, 1023 - osd] for osd in some]] for group, some in sets])


def texts() -> Iterator[Any]:
    """What is read, and the map's text."""
    yield "262,144 exceptions of 3 places", exceptions(3)
    yield "262,144 exceptions of 10 places", exceptions(10)
    sets = [[group, [at % 1024] * 33] for at, group in enumerate(GROUPS)]
    yield "131,072 sets of 33 numbers", text_of(pg_upmap=sets)
    yield "one set of 10,000,000 numbers of one digit", text_of(pg_upmap=[["1.0", [1] * 10_000_000]])
    yield "1,000,000 OSDs", text_of(osds=osds(1_000_000))


def rows(runs: Folder) -> Iterator[Any]:
    """How long each text is, what it takes, and how many times its length that is."""
    for about, text in texts():
        took = found(greatest, runs.words(runs.file(text), ""))
        to_text = took if isinstance(took, str) else took / len(text)
        yield [about, len(text) / 1e6, took if isinstance(took, str) else took / 1e6, to_text, *judged(to_text, GOAL)]


def main() -> None:
    path = program(__doc__)
    heading("Memory of reading a map")
    in_folder(
        path, lambda runs: table(["map", "its text, MB", "the most at once, MB", "to the text", "goal", ""], rows(runs))
    )


if __name__ == "__main__":
    main()
