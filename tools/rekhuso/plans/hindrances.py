"""What keeps an OSD fuller than it is to be, once the last pass has ended, or steps of a plan have been taken back."""

from __future__ import annotations

from collections.abc import Callable, Collection, Iterable, Mapping, Sequence
from functools import partial

from ..cluster.evenness import Spread
from ..cluster.pool_data import BYTE_PARTS
from ..program.maps import group_key
from .byte_aims import ByteAims
from .json_forms import HindranceParts
from .last_pass import LastPass
from .rounds import Live
from .step_order import has_after
from .steps import PlanStep

# From which ratio to what it is to have it is told why an OSD has so much, and of how many pools.
TOLD, POOLS = 1.1, 3


def hindrance(found: LastPass, full: int, number: int) -> str:
    """Why no group of a pool goes from an OSD."""
    own = found.pools[number]
    if own.is_barred():
        return "monitor"
    if own not in found.movable or not found.leaving(own, full):
        return "not planned"
    near = set(found.near(own, full, len(found.ranked)))
    emptier = [osd for osd in found.emptier(own, full) if found.keeps(number, full, osd) and found.keeps_all(full, osd)]
    kept = [osd for osd in emptier if osd in near]
    if not kept:
        return "failure domains" if emptier or not near else "shares"
    sizes = {own.sizes[group] for group in found.leaving(own, full)}
    gains = [(osd, size) for osd in kept for size in sizes if found.full.gain(full, osd, size) > 0]
    if not gains:
        return "sizes"
    return "monitor" if any(found.stays_even(full, osd, 1, size) for osd, size in gains) else "evenness"


def most_of(
    on: Mapping[int, Collection[int]], sizes: Mapping[int, Sequence[int]], by: str | Callable[[int], str]
) -> list[HindranceParts]:
    """Of an OSD that has these groups of each pool, the pools of which it has most, and what keeps these there: by the
    pool's number, or the same of all.
    """
    held = {number: sum(sizes[number][group] for group in groups) for number, groups in on.items()}
    most = sorted((number for number, size in held.items() if size), key=lambda number: (-held[number], number))
    return [
        {
            "id": number,
            "groups": len(on[number]),
            "bytes": held[number] // BYTE_PARTS,
            "by": by if isinstance(by, str) else by(number),
        }
        for number in most[:POOLS]
    ]


def hindrances(found: LastPass) -> dict[int, list[HindranceParts]]:
    """Of each OSD that has far more than it is to have, the pools of which it has most, and what keeps these there."""
    found.ranked = sorted(found.full.osds(), key=lambda osd: (found.full.ratio(osd), osd))
    sizes, told = {number: own.sizes for number, own in found.pools.items()}, dict[int, list[HindranceParts]]()
    for full in (osd for osd in found.full.osds() if found.full.ratio(osd) > TOLD):
        on = {number: own.on.get(full, set()) for number, own in found.pools.items()}
        told[full] = most_of(on, sizes, partial(hindrance, found, full))
    return told


def hindrances_by_mending(
    lives: Iterable[Live], aims: ByteAims, steps: Sequence[PlanStep], kept: Sequence[PlanStep]
) -> dict[int, list[HindranceParts]]:
    """The same of each OSD that has far more once some of a plan's steps are left out: that groups or bytes would get
    less even where one of these would go from it, else that a monitor would not keep what does.
    """
    used, now = Spread(has_after(aims.has, aims.groups, kept), aims.want), {step.group: step.now for step in kept}
    on: dict[int, dict[int, list[int]]] = {osd: {} for osd in used.osds() if used.ratio(osd) > TOLD}
    for live in lives if on else ():
        for group, up in live.before.ups.items():
            number, at = group_key(group)
            for osd in on.keys() & {place for place in now.get(group, up.places) if place is not None}:
                on[osd].setdefault(number, []).append(at)
    out = {osd for step in steps if step.group not in now for osd in step.leaves()}
    return {osd: most_of(own, aims.sizes, "evenness" if osd in out else "monitor") for osd, own in on.items()}
