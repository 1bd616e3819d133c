"""How full OSDs are by bytes while parts move, in words."""

from __future__ import annotations

from ..cluster.names import Names, named
from ..plans.byte_spread import ByteFill
from ..plans.json_forms import MovingParts
from ..words import share_words, size_words
from .fill_words import fill_words


def bytes_moved(found: MovingParts) -> str:
    """The bytes that move, behind what moves; nothing where they are not known."""
    if found["bytes"] is None or found["share"] is None:
        return ""
    return f"; some {size_words(found['bytes'])}, {share_words(found['share'])} of the data"


def byte_lines(found: ByteFill | None, names: Names) -> list[str]:
    """How full OSDs are before parts, after them and meanwhile; nothing where nobody tells what pools hold."""
    if found is None:
        return []
    lines = [
        f"by bytes: {fill_words(found.before.fill(True), names, True)}, before",
        f"by bytes: {fill_words(found.after.fill(True), names, True)}, after",
    ]
    if found.peak is None:
        return lines
    osd, ratio = found.peak
    return [
        *lines,
        f"by bytes meanwhile {named(names, 'osds', osd)} has {ratio:.2f} of its share, where none has gone yet",
    ]
