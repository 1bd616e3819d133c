"""A plan of reads: the fewest commands that name primaries, after which leads are even in each replicated pool, and
over all of these.

Nothing moves by it: reads of a group, and the first of each write, go to the OSD that leads it.
"""

from __future__ import annotations

from collections import Counter
from collections.abc import Collection, Mapping
from dataclasses import dataclass
from fractions import Fraction

from ..cluster.leaders import Leaders, mixes_classes
from ..cluster.view import ClusterView
from ..program.maps import Pool, Program, group_key, groups_in
from ..values import SLOTS
from .json_forms import LeadParts
from .leader_flow import LeaderChoice, even_leaders


@dataclass(frozen=True, **SLOTS)
class Leads:
    """How many groups each OSD leads, and its share of them."""

    counts: Mapping[int, int]
    shares: Mapping[int, Fraction]

    def parts(self) -> LeadParts:
        """How even they are, as JSON has it: the least and the greatest count, and how far one is from its share."""
        counts = [self.counts.get(osd, 0) for osd in self.shares]
        far = max((abs(self.counts.get(osd, 0) - own) for osd, own in self.shares.items()), default=Fraction(0))
        return {"least": min(counts, default=0), "greatest": max(counts, default=0), "farthest": round(float(far), 4)}


@dataclass(frozen=True, **SLOTS)
class PoolReads:
    """A pool that is planned: the shares of its OSDs, and the leaders of its groups before and after."""

    pool: Pool
    shares: Mapping[int, Fraction]
    before: Mapping[str, int]
    after: Mapping[str, int]

    def leads(self, is_after: bool) -> Leads:
        """Who leads how many groups, before or after."""
        return Leads(Counter((self.after if is_after else self.before).values()), self.shares)

    @property
    def changed(self) -> list[str]:
        """The groups that get another leader."""
        return [group for group, osd in self.before.items() if self.after[group] != osd]


@dataclass(frozen=True, **SLOTS)
class Reads:
    """A plan of reads: its pools; the commands and what takes them back; why other pools are left alone; and how many
    groups of its pools stay, as something temporary serves them.
    """

    pools: list[PoolReads]
    commands: list[str]
    undo: list[str]
    alone: Mapping[int, str]
    temporary: int

    def leads(self, is_after: bool) -> Leads:
        """Who leads how many groups of all pools."""
        counts: Counter[int] = Counter()
        shares: dict[int, Fraction] = {}
        for own in self.pools:
            counts.update(own.leads(is_after).counts)
            for osd, share in own.shares.items():
                shares[osd] = shares.get(osd, Fraction(0)) + share
        return Leads(counts, shares)


def why_alone(view: ClusterView, pool: Pool, named: Collection[int], is_anyway: bool) -> str | None:
    """Why the leaders of a pool are left as they are, where they are."""
    if pool["kind"] == "erasure":
        return "an erasure pool, where no command names a primary"
    if pool["id"] not in named and mixes_classes(view, pool):
        return "its rule takes OSDs of other device classes for its first places: --of-pool plans it nonetheless"
    unrest = view.unrest.get(pool["id"])
    return unrest.why() if unrest is not None and not is_anyway else None


def command_to(leaders: Leaders, group: str, osd: int) -> str:
    """The command by which an OSD leads a group: none names it any more where it leads without."""
    if osd == leaders.plain(group):
        return f"ceph osd rm-pg-upmap-primary {group}"
    return f"ceph osd pg-upmap-primary {group} {osd}"


def way_back(leaders: Leaders, group: str) -> list[str]:
    """The commands by which a group has its leader of now again, whether or not it got another. An entry that does
    nothing now is not given again: no monitor takes it.
    """
    found, osd = [f"ceph osd rm-pg-upmap-primary {group}"], leaders.named.get(group)
    if osd is not None and leaders.acts(group, osd) and osd == leaders.now[group].primary != leaders.plain(group):
        found.append(f"ceph osd pg-upmap-primary {group} {osd}")
    return found


def reads_of(leaders: Leaders, alone: Mapping[int, str]) -> Reads:
    """The plan of reads of some pools."""
    shares = {number: leaders.shares(pool) for number, pool in leaders.pools.items()}
    choices = {
        group: LeaderChoice(group_key(group)[0], up.primary, tuple(leaders.may_lead(group)))
        for group, up in leaders.now.items()
        if up.primary is not None
    }
    after = even_leaders(choices, shares)
    pools = []
    for number, pool in sorted(leaders.pools.items()):
        groups = [group for group in groups_in(pool) if group in choices]
        before = {group: choices[group].leader for group in groups}
        pools.append(PoolReads(pool, shares[number], before, {group: after[group] for group in groups}))
    changed = [group for own in pools for group in own.changed]
    commands = [command_to(leaders, group, after[group]) for group in changed]
    undo = [line for group in changed for line in way_back(leaders, group)]
    return Reads(pools, commands, undo, alone, len(leaders.temporary & choices.keys()))


def plan_of_reads(
    view: ClusterView, named: Collection[int], is_anyway: bool, program: Program
) -> tuple[Reads, Leaders]:
    """The plan of reads of a cluster, of some of its pools where these are named, and the leaders of now."""
    asked = [pool for pool in view.pools if not named or pool["id"] in named]
    told = {pool["id"]: why_alone(view, pool, named, is_anyway) for pool in asked}
    alone = {number: why for number, why in told.items() if why is not None}
    leaders = Leaders(view, [pool for pool in asked if pool["id"] not in alone], program)
    return reads_of(leaders, alone), leaders
