"""Moves of a plan that cancel: sets of steps by which each OSD gets as much as it gives.

A cycle of moves of one pool, each of which carries as much, changes nothing but where groups are, and is taken out.
One of several pools is taken out where each of these is as even without it.
"""

from __future__ import annotations

from collections.abc import Iterable, Sequence

from ..cluster.evenness import Spread
from .measures import Measures
from .mend import ROUNDING, Squares
from .steps import PlanStep

# A move: the OSD from which a place goes, and what it carries: of which pool, where this is asked, and how much.
Key = tuple[int, int]
# The longest cycle of several pools that is looked for.
LONGEST = 3


class Moves:
    """Steps of one move each, by what they carry and from where they go."""

    def __init__(self, steps: Iterable[PlanStep], sizes: dict[str, int], is_by_pool: bool) -> None:
        """Takes the steps, what a place of each group holds, and whether moves of several pools are apart."""
        self.left: dict[Key, dict[int, dict[int, list[PlanStep]]]] = {}
        for step in steps:
            if len(step.comes()) == len(step.leaves()) == 1:
                key = step.pool if is_by_pool else -1, sizes[step.group]
                own = self.left.setdefault(key, {}).setdefault(step.leaves()[0], {})
                own.setdefault(step.comes()[0], []).append(step)

    @staticmethod
    def way(moves: dict[int, dict[int, list[PlanStep]]], most: int) -> list[PlanStep]:
        """The steps of a cycle of at most so many moves; nothing where there is none."""
        dead: set[int] = set()
        for first in moves:
            path, rows = [first], [iter(list(moves[first]))]
            while path:
                osd = next(rows[-1], None)
                if osd is None:
                    if most > len(moves):
                        dead.add(path[-1])
                    path.pop()
                    rows.pop()
                elif osd in path:
                    cycle = [*path[path.index(osd) :], osd]
                    return [moves[one][other][-1] for one, other in zip(cycle, cycle[1:])]
                elif osd in moves and osd not in dead and len(path) < most:
                    path.append(osd)
                    rows.append(iter(list(moves[osd])))
        return []

    @staticmethod
    def take(moves: dict[int, dict[int, list[PlanStep]]], steps: Iterable[PlanStep]) -> None:
        """Takes moves away."""
        for step in steps:
            leaves, comes = step.leaves()[0], step.comes()[0]
            moves[leaves][comes].remove(step)
            if not moves[leaves][comes]:
                del moves[leaves][comes]
            if not moves[leaves]:
                del moves[leaves]


def sizes_of(measures: Measures, steps: Iterable[PlanStep]) -> dict[str, int]:
    """What a place of each group holds, in whole bytes; 1 where nobody tells."""
    own = measures.sizes
    return {step.group: 1 if own is None else round(own[step.group]) for step in steps}


def same_pool(measures: Measures, steps: Sequence[PlanStep]) -> set[str]:
    """The groups of the moves that cancel within a pool."""
    moves, found = Moves(steps, sizes_of(measures, steps), True), set[str]()
    for own in moves.left.values():
        while cycle := moves.way(own, len(own) + 1):
            moves.take(own, cycle)
            found.update(step.group for step in cycle)
    return found


def even_without(measures: Measures, after: dict[int, Squares], cycle: list[PlanStep]) -> bool:
    """Whether each pool is as even without the moves of a cycle, which are taken out then."""
    rise: dict[int, float] = {}
    for number in {step.pool for step in cycle}:
        own = [step for step in cycle if step.pool == number]
        if number not in after:
            return False
        more: dict[int, float] = {}
        for step in own:
            for osd, size in ((step.comes()[0], -1.0), (step.leaves()[0], 1.0)):
                more[osd] = more.get(osd, 0.0) + size
        rise[number] = after[number].rise(more.items())
    if max(rise.values()) > ROUNDING:
        return False
    for step in cycle:
        after[step.pool].take(step, -1)
    return True


def other_pools(measures: Measures, steps: Sequence[PlanStep]) -> set[str]:
    """The groups of the moves that cancel over several pools, all of which are as even without them."""
    moves, found = Moves(steps, sizes_of(measures, steps), False), set[str]()
    after = {
        number: Squares(Spread(own, measures.shares[number]), None, False) for number, own in measures.counts.items()
    }
    for step in steps:
        after[step.pool].take(step, 1)
    for own in moves.left.values():
        while cycle := moves.way(own, LONGEST):
            moves.take(own, cycle)
            if even_without(measures, after, cycle):
                found.update(step.group for step in cycle)
    return found


def without_cycles(measures: Measures, steps: Sequence[PlanStep]) -> list[PlanStep]:
    """The steps of a plan without the moves that cancel."""
    gone = same_pool(measures, steps)
    left = [step for step in steps if step.group not in gone]
    gone = other_pools(measures, left) if measures.sizes is not None else set()
    return [step for step in left if step.group not in gone]
