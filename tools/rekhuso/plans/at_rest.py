"""Pools of which it is known that they have no move, so that the program is not asked again.

A move goes between two OSDs that differ enough, from one that has a group of the pool. When a plan of a pool has ended,
no group could go between any two OSDs that differed enough then. As long as the pool lies as it did, that stays so for
these two OSDs, whatever others carry; so there is a move only if now two OSDs differ enough that did not then.
"""

from __future__ import annotations

from bisect import bisect_left
from collections.abc import Iterable, Mapping
from itertools import accumulate, islice
from operator import itemgetter

from .loads import Laid, STEP_PARTS

# By how much the program may see two OSDs differ otherwise than it is reckoned here: it asks for a little more than a
# difference, and where a pool's shares are not those by weight, what it is told of that is in whole steps.
ROUNDING = 2 * STEP_PARTS
# How far each OSD was above its share when a plan ended, and is now.
Ends = tuple[int, int]


def differ_more(full: list[Ends], low: list[Ends], apart: int, least: int) -> bool:
    """Whether an OSD of the first and one of the second, which ascend by what they are now, differ by more than the
    least now and did not before: neither surely by enough for a move, nor by as much as now.
    """
    lows: list[int] = [now for _, now in low]
    tops: list[int] = list(accumulate([was for was, _ in low], max))
    for was, now in full:
        count = bisect_left(lows, now - least)
        if count and was - tops[count - 1] <= apart + ROUNDING:
            near = (other for other in islice(low, count) if was - other[0] <= apart + ROUNDING)
            if any(was - was_low < now - now_low for was_low, now_low in near):
                return True
    return False


class AtRest:
    """The pools that had no move when they were looked at last, and how far each OSD was above its share of them."""

    def __init__(self, apart: int) -> None:
        """Takes by how many parts of a group two OSDs must differ for a move between them."""
        self.apart = apart
        self.found: dict[int, list[int]] = {}

    def put(self, number: int, above: Mapping[int, int]) -> None:
        """A pool has no move where OSDs are so far above their shares."""
        self.found[number] = list(above.values())

    def drop(self, numbers: Iterable[int]) -> None:
        """Some pools lie otherwise now, and may have moves."""
        for number in numbers:
            self.found.pop(number, None)

    def has_move(self, number: int, above: Mapping[int, int], laid: Laid, is_rough: bool = False) -> bool:
        """Whether a pool that lies so may have a move, or but for rounding might, where OSDs are so far above their
        shares. The OSDs stand in the same order at each look.
        """
        apart = self.apart - ROUNDING if laid.offset or is_rough else self.apart
        least = min(above.values(), default=0) + apart
        if max(above.values(), default=0) <= least:
            return False
        full = [osd for osd, count in laid.counts.items() if count > 0 and above.get(osd, least) > least]
        if number not in self.found or not full:
            return bool(full)
        was, most = dict(zip(above, self.found[number])), max(map(above.__getitem__, full)) - apart
        low = sorted(((was[osd], now) for osd, now in above.items() if now < most), key=itemgetter(1))
        return differ_more([(was[osd], above[osd]) for osd in full], low, self.apart, apart)
