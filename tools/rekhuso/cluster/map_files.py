"""Maps in files, and sessions over them."""

from __future__ import annotations

import json

from ..faults import Refused, Trouble
from ..files import text_of
from ..program.answers import Up
from ..program.maps import Map, Program
from ..program.monitor import Monitor
from .dump_forms import dump_name


def dump_in(text: str) -> str | None:
    """Which dump a text is; None where it is none."""
    try:
        return dump_name(json.loads(text))
    except (ValueError, RecursionError):
        return None


def map_monitor(
    path: str, program: Program, stock: bool | None = None, store: str | None = None
) -> tuple[str, Monitor]:
    """The text of a map in a file, and a session over it, which is to be closed; with the path of a store, over the
    store that begins with it. A fault where the file has a dump, and `Refused` where its map is not lawful.
    """
    text = text_of(path)
    try:
        return text, Monitor(text, program, stock=stock, store=store)
    except Refused:
        dump = dump_in(text)
        if dump is None:
            raise
        raise Trouble(
            f"{path}: this is {dump}, and no map: most commands take both dumps, and import makes a map of them"
        ) from None


def map_in(path: str, program: Program) -> Map:
    """The map in a file, once the program has found it lawful."""
    text, monitor = map_monitor(path, program)
    with monitor:
        value: Map = json.loads(text)
        return value


def map_with_sets(path: str, program: Program) -> tuple[Map, dict[str, Up]]:
    """The map in a file and the up set of each of its groups, by one session."""
    text, monitor = map_monitor(path, program)
    with monitor:
        value: Map = json.loads(text)
        return value, monitor.pool_ups(value["pools"])
