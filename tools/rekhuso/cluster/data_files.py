"""The files that tell what a cluster holds: what `ceph df`, `ceph pg dump` and `ceph osd df` print, as JSON."""

from __future__ import annotations

from collections.abc import Iterable, Mapping
from dataclasses import dataclass, replace

from ..faults import Fault
from ..program.maps import Pool
from ..values import SLOTS
from .disks import Disks, disks_in
from .group_sizes import GroupSizes, group_sizes_in
from .pool_data import Data, data_in


@dataclass(frozen=True, **SLOTS)
class DataFiles:
    """The files, None for each that is not given."""

    df: str | None
    pgs: str | None
    osds: str | None

    @property
    def is_any(self) -> bool:
        """Whether one tells what pools hold."""
        return self.df is not None or self.pgs is not None


@dataclass(frozen=True, **SLOTS)
class KnownData:
    """What the files tell, not yet held against a cluster."""

    pools: Data | None
    groups: GroupSizes | None
    disks: Disks | None

    def of_cluster(
        self, pools: list[Pool], names: Mapping[str, str], is_whole: bool, rates: Mapping[int, float]
    ) -> Data | None:
        """What the pools of a cluster hold; None where nobody tells. A fault where a file is of another cluster, or
        lacks something of this one; `is_whole` says whether these are all pools of the cluster, and `rates` how many
        bytes erasure pools take for one that is stored, where the dumps tell that.
        """
        found = self.pools
        if found is not None:
            found.check(pools, names, is_whole)
        if found is not None and found.why_not_raw is not None and self.groups is None:
            raise Fault(f"{found.path}: {found.why_not_raw}: give --pgs too, which tells what each group holds")
        if self.groups is not None:
            self.groups.check(pools, is_whole)
            if found is None:
                found = Data(self.groups.path, self.groups.data(pools, {}), {}, {}, 0, 0, {}, {})
            elif found.why_not_raw is not None:
                found = replace(found, of_pool=self.groups.data(pools, rates), rates=rates)
            found = replace(found, parts=self.groups.parts(pools))
        return found

    def with_disks(self, data: Data, needed: Iterable[int], there: Iterable[int] | None) -> Data:
        """The same with the disks, where they are told: those of the OSDs that may have data must be. Which OSDs the
        cluster has is None where not all are known.
        """
        if self.disks is None:
            return data
        self.disks.check(needed, there)
        return replace(data, disks=self.disks.of_osd)


def known_data(files: DataFiles) -> KnownData:
    """What some files tell."""
    pools, groups = data_in(files.df), None if files.pgs is None else group_sizes_in(files.pgs)
    return KnownData(pools, groups, None if files.osds is None else disks_in(files.osds))
