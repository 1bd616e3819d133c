"""Which pools are planned, where they are chosen by the device classes of their OSDs: those whose rule takes OSDs of
these alone.
"""

from __future__ import annotations

from collections.abc import Sequence
from dataclasses import dataclass

from ..cluster.names import Names, named
from ..values import SLOTS
from ..words import some
from .rounds import Live


@dataclass(frozen=True, **SLOTS)
class ChosenPools:
    """The pools that lie on some OSDs alone, and those that lie on others too, by their numbers."""

    within: list[int]
    across: list[int]

    def of(self, pools: set[int]) -> ChosenPools:
        """Those among some pools; all, where these are none."""
        within, across = ([own for own in mine if own in pools or not pools] for mine in (self.within, self.across))
        return ChosenPools(within, across)

    def lines(self, names: Names) -> list[str]:
        """Which pools are not planned, as they lie on other OSDs too."""
        own = [named(names, "pools", number) for number in self.across]
        have = "has" if len(own) == 1 else "have"
        return [f"not planned: {some(own)}, which {have} places on OSDs of other device classes too"] if own else []


def pools_on(lives: Sequence[Live], osds: frozenset[int]) -> ChosenPools:
    """The pools that lie on some OSDs."""
    has = {number: live.before.weights_for(pool).keys() for live in lives for number, pool in live.pools.items()}
    there = {number: own for number, own in sorted(has.items()) if own & osds}
    within = [number for number, own in there.items() if own <= osds]
    return ChosenPools(within, [number for number in there if number not in within])
