"""How held groups are let go, in words."""

from __future__ import annotations

from ..plans.movement import PlaceBytes
from ..plans.release import Release
from ..words import counted, some
from .byte_words import bytes_moved
from .flow_words import move_words


def peak_words(found: Release, number: int) -> str:
    """How full OSDs get while a part moves."""
    own = found.peaks[number - 1]
    if own["osd"] is None:
        return "no OSD gets a place"
    return (
        f"of the OSDs that get places osd.{own['osd']} has most groups meanwhile, {own['groups']}, where none has gone "
        f"yet; the fullest has {found.before} before all parts, {found.after} at the end"
    )


def release_lines(found: Release, weights: PlaceBytes) -> list[str]:
    """What all parts move."""
    moving = weights.moving(found.steps)
    lines = [
        f"{move_words(moving['groups'], moving['places'])} in {counted(len(found.parts), 'part')}, each group once"
    ]
    lines[0] += bytes_moved(moving)
    if found.stay:
        verb, they = ("stays", "it") if len(found.stay) == 1 else ("stay", "they")
        words = f"{counted(len(found.stay), 'group')} {verb} held, as {they} would have fewer places without: "
        lines.append(words + some(found.stay))
    alone = [f"{own.name}: left as it is: {own.why()}" for own in found.alone.values()]
    return (lines if found.parts or found.stay else ["nothing is held"]) + alone
