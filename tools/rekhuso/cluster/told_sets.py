"""Where a cluster says that its groups lie, by what `ceph pg dump -f json` prints, beside where its maps place them."""

from __future__ import annotations

from collections.abc import Iterable, Mapping
from dataclasses import dataclass

from ..faults import Fault
from ..files import JsonObject
from ..program.answers import Up
from ..program.maps import Pool, group_key, groups_in
from ..values import SLOTS
from .cleanup import NONE
from .cluster import Cluster
from .dump_forms import GROUP, is_kind, misfits
from .group_dumps import check_groups, stats_in
from .json_forms import VerifiedParts
from .moving import erasure_pools
from .names import set_words

# What a state says of a group whose set nobody knows at present.
UNKNOWN = ("stale", "unknown", "peering", "creating")
# What is read of each group.
TOLD = {"up": [int], "up_primary": int, "?state": str, "?reported_epoch": object}
# The part of all groups that must be told, so that anything follows.
ENOUGH = 0.9


@dataclass(frozen=True, **SLOTS)
class ToldSet:
    """The up set and primary of a group as the cluster tells them, its state, and the epoch at which that was told,
    None where it is not said.
    """

    places: list[int | None]
    primary: int | None
    state: str
    epoch: int | None

    @property
    def is_known(self) -> bool:
        """Whether the state says that the set is known."""
        return not any(word in self.state for word in UNKNOWN)

    def is_same(self, up: Up, is_erasure: bool) -> bool:
        """Whether a set and its primary are these. An empty place of a replicated set is none."""
        one, two = (
            list(own) if is_erasure else [osd for osd in own if osd is not None] for own in (self.places, up.places)
        )
        return one == two and self.primary == up.primary


@dataclass(frozen=True, **SLOTS)
class Verified:
    """What the maps of a cluster say of its groups beside what the cluster says: the epoch of the maps, the set of each
    group by them and by the cluster, the groups that differ, and those that are not told yet.
    """

    epoch: int
    ups: Mapping[str, Up]
    told: Mapping[str, ToldSet]
    differ: list[str]
    untold: list[str]

    @property
    def same(self) -> int:
        """How many groups lie where the cluster says."""
        return len(self.ups) - len(self.differ) - len(self.untold)

    @property
    def is_enough(self) -> bool:
        """Whether so many groups are told that anything follows."""
        return len(self.untold) <= (1 - ENOUGH) * len(self.ups)

    def counts(self) -> VerifiedParts:
        """The counts of it as JSON has them."""
        counts = len(self.ups), self.same, len(self.differ), len(self.untold)
        return {"groups": counts[0], "same": counts[1], "differ": counts[2], "untold": counts[3]}

    def summary(self) -> str:
        """How many groups lie where the cluster says, in words."""
        found = f"{self.same:,} of {len(self.ups):,} groups lie where the cluster says"
        found += f"; {len(self.differ):,} lie elsewhere" if self.differ else ""
        return found + (f"; {len(self.untold):,} not told yet" if self.untold else "")

    def against(self) -> list[str]:
        """Why nothing is to be done by these maps: groups that lie elsewhere, or too few that are told; none where they
        are the cluster's.
        """
        found, count = [], f"{len(self.ups):,}"
        if self.differ:
            first = self.differ[0]
            here, there = self.ups[first], self.told[first]
            found.append(
                f"{len(self.differ):,} of {count} groups lie elsewhere than these maps say, the first {first}: "
                f"{set_words(here.places)}, primary {osd_word(here.primary)}, here; {set_words(there.places)}, primary "
                f"{osd_word(there.primary)}, there; `rekhuso verify` tells more"
            )
        elif not self.is_enough:
            found.append(f"of {len(self.untold):,} of {count} groups the cluster does not tell yet where they lie")
        return found

    def later(self) -> list[str]:
        """The groups that differ and were told at a later epoch than that of the maps."""
        return [group for group in self.differ if (self.told[group].epoch or 0) > self.epoch]

    def earlier(self) -> list[str]:
        """The groups that differ and were told at an earlier epoch than that of the maps."""
        epochs = {group: self.told[group].epoch for group in self.differ}
        return [group for group, epoch in epochs.items() if epoch is not None and epoch < self.epoch]


def osd_word(osd: int | None) -> str:
    """An OSD, or that there is none."""
    return "none" if osd is None else f"osd.{osd}"


def epoch_in(value: object) -> int | None:
    """An epoch as a dump has it: older releases write it as a text."""
    if isinstance(value, str) and value.isascii() and value.isdigit() and len(value) < 20:
        return int(value)
    return value if isinstance(value, int) and is_kind(value, int) else None


def osd_in(number: int) -> int | None:
    """An OSD as a dump has it; None where it says that there is none."""
    return None if number in (NONE, -1) else number


def told_set(own: JsonObject) -> ToldSet:
    """The set of a group that a dump tells."""
    places = [osd_in(osd) for osd in own["up"]]
    return ToldSet(places, osd_in(own["up_primary"]), own.get("state", ""), epoch_in(own.get("reported_epoch")))


def told_sets_in(path: str, cluster: Cluster, is_whole: bool) -> dict[str, ToldSet] | None:
    """The set of each group of a cluster's pools that a file tells; None where it tells sets of none at all. A fault
    for each place of another form, and where the file is of another cluster.
    """
    stats = stats_in(path, {"pgid": GROUP})
    check_groups(path, stats, cluster, is_whole)
    own = [entry for entry in stats if group_key(entry["pgid"])[0] in cluster.sizes]
    if not any("up" in entry for entry in own):
        return None
    faults = [fault for at, entry in enumerate(stats) for fault in misfits(entry, TOLD, f"pg_stats[{at}]")]
    if faults:
        raise Fault(*(f"{path}: {fault}" for fault in faults[:20]))
    return {entry["pgid"]: told_set(entry) for entry in own}


def is_touched(cluster: Cluster, group: str, osds: Iterable[int | None], epoch: int) -> bool:
    """Whether something that is dated has touched a group behind an epoch: its pool, or that an OSD of its sets came up
    or went down. Of a dump whose pools have no dates nobody knows.
    """
    pool: Mapping[str, object] = next(own for own in cluster.pools if own["pool"] == group_key(group)[0])
    last = epoch_in(pool.get("last_change"))
    if last is None or last > epoch:
        return True
    dated: list[Mapping[str, object]] = [cluster.osds[osd] for osd in osds if osd in cluster.osds]
    found = [epoch_in(own.get(key)) for own in dated for key in ("up_from", "down_at", "lost_at")]
    return any(own is not None and own > epoch for own in found)


def verified(pools: Iterable[Pool], ups: Mapping[str, Up], told: Mapping[str, ToldSet], cluster: Cluster) -> Verified:
    """What sets of pools are beside those that are told. A group whose state says that nobody knows it, or that differs
    and has been touched since it was told, is not told yet.
    """
    pools, differ, untold = list(pools), list[str](), list[str]()
    erasure, own, epoch = erasure_pools(pools), dict[str, Up](), cluster.epoch
    for pool in pools:
        for group in groups_in(pool):
            own[group], said = ups[group], told.get(group)
            if said is None or not said.is_known:
                untold.append(group)
            elif not said.is_same(ups[group], pool["id"] in erasure):
                osds = [*said.places, *ups[group].places]
                at = epoch if said.epoch is None else said.epoch
                (untold if at < epoch and is_touched(cluster, group, osds, at) else differ).append(group)
    return Verified(epoch, own, told, differ, untold)
