"""The changes that several benches measure: their parts as text, and the lines that make them, by the parts in turn."""

from __future__ import annotations

import json
from collections.abc import Iterable
from typing import Any

from running import Folder, output

# An OSD goes down and comes up again.
STATES = ['"down":[5]', '"up":[5]']


def change(base: int, part: str) -> str:
    """The line of a change."""
    return f'change {{"base":{base},{part}}}\n'


def changes(parts: Any, count: int, first: int) -> str:
    """Lines of changes, by the parts in turn."""
    return "".join(change(first + at, parts[at % len(parts)]) for at in range(count))


def pairs_of(groups: Iterable[str], leaves: int, comes: int = 63) -> str:
    """The part that gives groups a pair each."""
    return f'"new_items":{json.dumps([[group, [[leaves, comes]]] for group in groups], separators=(",", ":"))}'


def replaced(group: str) -> list[str]:
    """A pair of a group and another, neither of which moves it."""
    return [pairs_of([group], osd) for osd in (61, 60)]


def comes_and_goes(group: str) -> list[str]:
    """The first of these pairs there, and no pair."""
    return [replaced(group)[0], f'"old_items":["{group}"]']


def moving(runs: Folder, stated: Any) -> list[str]:
    """Two pairs of the first group, which move it to one OSD or another."""
    places = [int(osd) for osd in output(runs.words(stated, "up 1.0\n"))[0].split()[3].strip("[]").split(",")]
    others = [osd for osd in range(64) if osd not in places][:2]
    return [pairs_of(["1.0"], places[0], osd) for osd in others]


def reweights(osd: int) -> list[str]:
    """Two reweights of an OSD."""
    return [f'"weight":[[{osd},{weight}]]' for weight in (32_768, 65_536)]
