"""What a script of `hold` says of itself, for `together.py`: of which cluster and CRUSH map it is, where groups that it
does not hold are then, and that it is whole.
"""

from __future__ import annotations

from collections.abc import Mapping, Sequence
from dataclasses import dataclass, replace

from ..cluster.cluster import Cluster
from ..cluster.judge import Places
from ..plans.guards import NO_GUARDS, Guards, end_lines, groups_asked, groups_named, guards_of, pools_asked
from ..plans.heads import COMMANDS_MAKE_IT, NOT_TOLD, Head, head_of_cluster, sum_of_crush
from ..plans.hold import Hold, Sides
from ..plans.holding import Held
from ..together import Given
from ..values import SLOTS
from .origins import Origin


@dataclass(frozen=True, **SLOTS)
class HoldChange:
    """How a change is made: already; by nothing but the CRUSH map; and by one map of it."""

    is_made: bool
    is_by_crush: bool
    is_one_map: bool


@dataclass(frozen=True, **SLOTS)
class HoldHead:
    """The head of a hold, or of the way back from one; the lines that tell which groups go elsewhere; where the scripts
    come from, and how their change is made; the guards of the first part; and what its groups are to have in the end,
    and the OSDs of those that would move.
    """

    is_undo: bool
    own: Head
    goes: list[str]
    origin: Origin
    change: HoldChange
    first: Guards
    goal: Mapping[str, Given]
    sets: Mapping[str, list[int]]

    def guards(self, part: int, before: Sequence[str]) -> Guards:
        """The guards of a part behind the commands of the one before: behind the change the CRUSH map is another one,
        and where that is one map, the next.
        """
        own, is_first = self.origin.guards, part == 1
        if self.is_undo:
            # Its first part takes the change back, where it is given the command for that.
            more = (0 if self.change.is_made else 1) if is_first else None
            return own.going_back().later(more if more == 0 or self.change.is_one_map else None)
        if is_first:
            return self.first
        more = 0 if self.change.is_made else 1
        asked = groups_asked(groups_named(before), self.goal, "pairs of the part before do not stand")
        return own.later(more if more == 0 or self.change.is_one_map else None).asking(asked)

    def ends(self, commands: Sequence[str]) -> list[str]:
        """What a hold asks in its end, where there are guards."""
        if self.is_undo or self.origin.guards == NO_GUARDS:
            return []
        return end_lines(set(groups_named(commands)) & self.goal.keys(), self.goal, self.sets)

    def lines(self, count: int, part: int, parts: int) -> list[str]:
        """The head of a part of so many commands."""
        kind = "undo of a hold" if self.is_undo else "hold"
        return [self.own.line(kind, count, part, parts), *self.goes]


def goes_elsewhere(own: Held, before: Places) -> bool:
    """Whether a group has other OSDs behind a hold than it had."""
    return own.now != list(before) if own.is_erasure else set(own.now) - {None} != set(before) - {None}


def goes_line(group: str, places: Sequence[int | None]) -> str:
    """Where a group is then."""
    return f"# rekhuso: goes: {group} [{','.join('none' if osd is None else str(osd) for osd in places)}]"


def crush_sums(sides: Sides, is_undo: bool, change: HoldChange) -> tuple[str, str]:
    """The sums of the CRUSH map that the cluster has before a hold or the way back from one, and of that which is given
    with it.
    """
    old, new = sum_of_crush(sides.old), sum_of_crush(sides.new)
    if is_undo:
        return new, old if change.is_made or change.is_by_crush else NOT_TOLD
    if change.is_made:
        return new, NOT_TOLD
    return (old, new) if change.is_by_crush and new != old else (old, COMMANDS_MAKE_IT)


def own_head(sides: Sides, is_undo: bool, change: HoldChange) -> Head:
    """What the scripts of a hold say of the cluster: as it is when they are given."""
    is_behind = is_undo or change.is_made or sides.old is None
    own = head_of_cluster(sides.new if is_behind or sides.old is None else sides.old)
    new_version = head_of_cluster(sides.new).version
    version = NOT_TOLD if is_undo and not change.is_made else new_version
    own = replace(own.with_crush(*crush_sums(sides, is_undo, change)), version=version)
    return own.behind() if is_undo else own


def first_guards(cluster: Cluster, origin: Origin) -> Guards:
    """The guards of the script with which a hold begins: exceptions, reweights, sizes and rules are as they were."""
    own = origin.guards
    if own == NO_GUARDS:
        return own
    return replace(guards_of(cluster), beside=own.beside).asking(pools_asked(cluster), True)


def goal_in(hold: Hold) -> dict[str, Given]:
    """The exceptions that groups have in the end, but for those that lose them again, as their pools shrink."""
    found, losing = dict[str, Given](), set(hold.losing())
    for own in hold.groups:
        if own.group not in losing:
            found[own.group] = (own.way.explicit, [osd for pair in own.way.pairs for osd in pair] or None)
    return found


def sets_told(hold: Hold, cluster: Cluster) -> dict[str, list[int]]:
    """The OSDs of the groups that would move by the change alone, as they are behind the hold, of those that are up."""
    up = {osd for osd, own in cluster.osds.items() if own["up"]}
    return {own.group: [osd for osd in own.now if osd in up] for own in hold.moving()}


def head_of(sides: Sides, hold: Hold, is_undo: bool, change: HoldChange, origin: Origin) -> HoldHead:
    """The head of the scripts of a hold, or of the way back from it."""
    before = {own.group: hold.would[own.group] if change.is_made else own.was for own in hold.groups}
    goes = [goes_line(own.group, own.now) for own in hold.groups if goes_elsewhere(own, before[own.group])]
    if is_undo:
        goes = [goes_line(own.group, own.was) for own in hold.groups if goes_elsewhere(own, own.was)]
        goes = [] if change.is_made else goes
    own = replace(own_head(sides, is_undo, change), epoch=hold.epoch)
    first = first_guards(sides.new if change.is_made or sides.old is None else sides.old, origin)
    return HoldHead(is_undo, own, goes, origin, change, first, goal_in(hold), sets_told(hold, sides.new))
