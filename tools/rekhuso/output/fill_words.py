"""How even a cluster and its OSDs are, in words."""

from __future__ import annotations

from ..cluster.json_forms import FillParts, OsdFillParts, UseParts
from ..cluster.names import Names, named
from ..plans.json_forms import PoolSpreadParts
from ..words import counted, size_words


def osd_words(fill: OsdFillParts, names: Names, is_bytes: bool = False) -> str:
    """What an OSD has beside its share."""
    has, share = counted(fill["has"], "group"), f"{fill['share']:.2f}"
    if is_bytes:
        has, share = size_words(fill["has"]), size_words(fill["share"])
    return f"{named(names, 'osds', fill['id'])} with {has} of a share of {share} ({fill['ratio']:.2f})"


def spread_words(found: PoolSpreadParts) -> str:
    """How even a pool is."""
    return (
        f"{found['least']} to {counted(found['greatest'], 'group')} an OSD, at most {found['farthest']:.2f} from a "
        f"share, standard deviation {found['deviation']:.2f}"
    )


def fill_words(fill: FillParts, names: Names, is_bytes: bool = False) -> str:
    """How even a cluster is, by groups or by bytes."""
    if fill["fullest"] is None or fill["emptiest"] is None:
        return "no OSD has a share"
    deviation = f"{100 * fill['deviation']:.1f} % of a share" if is_bytes else f"{fill['deviation']:.2f}"
    fullest, emptiest = (osd_words(own, names, is_bytes) for own in (fill["fullest"], fill["emptiest"]))
    return f"fullest {fullest}, emptiest {emptiest}, standard deviation {deviation}"


def use_words(use: UseParts, names: Names) -> str:
    """What of their disks the fullest OSD and the emptiest have in use."""
    found = [
        f"{word} {named(names, 'osds', own['id'])} with {100 * own['ratio']:.1f} % of {size_words(own['share'])}"
        for word, own in (("fullest", use["fullest"]), ("emptiest", use["emptiest"]))
    ]
    return ", ".join(found)


def room_words(before: int, after: int) -> str:
    """What a pool may still take, before and after."""
    more = ("-" if after < before else "+") + size_words(abs(after - before))
    return f"MAX AVAIL {size_words(before)} before, {size_words(after)} after ({more})"
