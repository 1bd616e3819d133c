"""The plans of pools each by itself, as `plan --alone` asks for them: the whole greedy plan of each, or the shortest
beginning of it after which every OSD is near its share.
"""

from __future__ import annotations

from dataclasses import dataclass
from fractions import Fraction

from ..faults import Fault
from ..program.answers import balance_line
from ..program.maps import Pool
from ..program.session import MOST_MOVES
from ..values import SLOTS
from .loads import Laid, STEP_PARTS, counted_above, with_closed
from .move_order import Deviations, moves_within
from .pair_plans import PairPlanner
from .rounds import Live
from .steps import appended_pairs

# Half of what two OSDs must differ by for a move of such a plan, in 256ths of a group.
NEAREST = 128


@dataclass(frozen=True, **SLOTS)
class PoolPlan:
    """What a pool's plan is: its moves or why there are none, those that a deviation asks for (None where no number of
    them suffices), and those of the whole plan (None where no deviation is asked for).
    """

    moves: int
    refusal: str
    wanted: int | None
    whole: int | None


def loads_of(laid: Laid) -> dict[int, int]:
    """What the program is told that OSDs carry, so that it goes by what a pool's rule can give them."""
    loads = {**dict.fromkeys(laid.closed, 0), **laid.offset}
    return with_closed(laid, loads, NEAREST) if laid.closed else loads


def committed(live: Live, pool: Pool, most: int) -> PoolPlan:
    """Commits the plan of a pool with at most so many moves, which may be 0."""
    laid, by_pairs = live.lay(pool, 0, dict(live.before.counts_in[pool["id"]])), PairPlanner()
    if by_pairs.blocks(live, pool):
        above = counted_above(laid, loads_of(laid))
        return PoolPlan(by_pairs.plan(live, pool, above, 2 * NEAREST * STEP_PARTS, most), "", None, None)
    line = balance_line(pool["id"], most, 2 * NEAREST, loads_of(laid))
    answer = live.session.raw([line])[0] if most else "moved 0"
    if answer.startswith("err "):
        return PoolPlan(0, answer.removeprefix("err "), None, None)
    return PoolPlan(int(answer.split(" ")[1]), "", None, None)


def shortest_plans(live: Live, pools: list[Pool], deviation: Fraction, most: int) -> dict[int, PoolPlan]:
    """Commits of each pool's plan as many moves as bring every candidate within so many groups of its share, at most
    `most`. A fault where the program's plan is another than its whole plan's beginning.
    """
    wholes = {pool["id"]: committed(live, pool, MOST_MOVES) for pool in pools}
    come, found = appended_pairs(live.value, live.session.dump()), {}
    plans = {pool["id"]: come.get(pool["id"], {}) for pool in pools}
    live.take_back([group for plan in plans.values() for group in plan])
    for pool in pools:
        number, whole = pool["id"], wholes[pool["id"]]
        laid = live.lay(pool, 0, dict(live.before.counts_in[number]))
        deviations = Deviations(live.before.weights_for(pool), laid.counts, loads_of(laid))
        deviations.passed = laid.closed
        wanted = moves_within(deviations, plans[number], deviation)
        limit = min(whole.moves if wanted is None else wanted, most)
        own = committed(live, pool, limit)
        if own.moves != limit:
            raise Fault(f"pool {number}: a plan of {own.moves} moves, not {limit}: nothing is put out")
        found[number] = PoolPlan(limit, whole.refusal, wanted, whole.moves)
    return found


def pool_plans(live: Live, pools: list[Pool], deviation: Fraction | None, most: int) -> dict[int, PoolPlan]:
    """Commits the plan of each of some pools by itself."""
    if deviation is None:
        return {pool["id"]: committed(live, pool, most) for pool in pools}
    return shortest_plans(live, pools, deviation, most)
