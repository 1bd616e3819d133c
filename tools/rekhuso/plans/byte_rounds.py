"""The rounds of a plan by data: the scheme over all pools, the last pass and the one by groups, in the order that is
asked for.
"""

from __future__ import annotations

from collections.abc import Callable
from contextlib import ExitStack
from dataclasses import dataclass

from ..values import SLOTS
from .byte_aims import ByteAims
from .group_pass import GroupPass
from .hindrances import hindrances
from .json_forms import HindranceParts
from .last_pass import LastPass
from .rooms import DATA_FIRST, Rooms, take_back_unfit
from .rounds import Planner


@dataclass(**SLOTS)
class Passed:
    """The groups that the first pass has moved, where it came before the scheme; those of all passes; and what keeps
    OSDs far above what they are to have.
    """

    first: list[str]
    moved: list[str]
    stays: dict[int, list[HindranceParts]]


def last_pass(
    planner: Planner, aims: ByteAims, is_first: bool, rooms: Rooms | None, tell: Callable[[str], None]
) -> tuple[list[str], LastPass]:
    """Makes the moves of the last pass, and where it does not come first those of the one by groups: the groups that
    have been moved, in the order in which they first were, and what lies where then.
    """
    with ExitStack() as stack:
        for live in planner.lives:
            stack.enter_context(live.all_up())
        found = LastPass(planner, aims, not is_first, rooms)
        found.play(tell)
        if not is_first:
            GroupPass(found, planner.half / 256).play(tell)
    return list(dict.fromkeys(found.moves)), found


def planned_by_data(
    planner: Planner, aims: ByteAims, is_room: bool, most: int | None, rooms: Rooms | None, tell: Callable[[str], None]
) -> Passed:
    """Plans pools by data. For room there is the last pass alone. Where no more than so many commands are wanted, it
    comes first too, and the scheme only where they are not enough. Where disks are to have room for all that comes, the
    moves of the scheme for which they have none are taken back before the last pass, which makes others; and the last
    pass may come before the scheme too.
    """
    first = list[str]()
    if is_room or most is not None:
        first, found = last_pass(planner, aims, True, rooms, tell)
        if is_room or most is None or len(first) >= most:
            return Passed(first, first, hindrances(found))
    early = list[str]()
    if rooms is not None and rooms.way == DATA_FIRST:
        early, found = last_pass(planner, aims, True, rooms, tell)
    planner.play(tell)
    if rooms is not None:
        take_back_unfit(planner, aims, rooms)
    more, found = last_pass(planner, aims, False, rooms, tell)
    return Passed(first, [*first, *early, *more], hindrances(found))
