"""Single moves of a pool's groups, each asked of the program.

Where one OSD counts as having far more of a pool and another as having far less, and two OSDs must differ by more than
either alone, the plan of one move is that of the lowest group that may go from the one to the other, or none. A move of
another group, of a pool whose rule has several blocks, and of one of many groups over many OSDs, whose plan takes long,
is a change of its pairs, whose set the program tells.
"""

from __future__ import annotations

from ..faults import Refused
from .pool_places import PoolPlaces
from .rounds import GAP, VAST

# Up to how many groups, times the OSDs that may have them, a single move is a plan.
SMALL = 1 << 16


def put_pairs(own: PoolPlaces, group: int) -> None:
    """Gives a group the pairs again that it had before a move that is not made."""
    name, pairs = own.name(group), own.pairs[group]
    own.live.session.change(old_items=[] if pairs else [name], new_items=[[name, pairs]] if pairs else [])


def moved_by_plan(own: PoolPlaces, group: int, leaves: int, comes: int) -> int | None:
    """The group that the plan of one move has taken from an OSD to another: the one that is thought of, or another of
    its size; None where there is none. The move of any other is taken back.
    """
    session = own.live.session
    try:
        moves = session.balance(own.number, 1, GAP, {leaves: VAST, comes: -VAST}).moves
    except Refused:
        moves = 0
    if not moves:
        return None
    if session.up(own.name(group)).places == own.with_move(group, leaves, comes):
        return group
    ups = session.ups([own.name(other) for other in sorted(own.on[leaves])])
    moved = next(other for other in sorted(own.on[leaves]) if ups[own.name(other)].places != own.sets[other])
    if own.sizes[moved] == own.sizes[group] and own.would_stay(moved, leaves, comes):
        return moved
    put_pairs(own, moved)
    return None


def moved_by_pair(own: PoolPlaces, group: int, leaves: int, comes: int) -> int | None:
    """A group, where one more pair has taken it from an OSD to another; None where that pair does something else, and
    has gone again.
    """
    session, name = own.live.session, own.name(group)
    session.change(new_items=[[name, [*own.pairs[group], [leaves, comes]]]])
    if session.up(name).places == own.with_move(group, leaves, comes):
        return group
    put_pairs(own, group)
    return None


def moved(own: PoolPlaces, group: int, leaves: int, comes: int) -> int | None:
    """The group that has gone from an OSD to another, and counts there: the one that is thought of, or another that
    holds as much; None where there is none.
    """
    lower = (other for other in sorted(own.on[leaves]) if other < group)
    is_small = len(own.blocks) == 1 and len(own.sets) * len(own.blocks[0].osds) <= SMALL
    by_plan = is_small and not any(own.may_go(other, leaves, comes) for other in lower)
    found = (moved_by_plan if by_plan else moved_by_pair)(own, group, leaves, comes)
    if found is not None:
        own.put(found, leaves, comes)
    return found


def take_back(own: PoolPlaces, group: int) -> None:
    """Takes the last move of a group back."""
    own.take_back(group)
    put_pairs(own, group)
