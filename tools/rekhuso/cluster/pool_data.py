"""What the pools of a cluster hold, as `ceph df --format json` tells it, and of that each of their groups."""

from __future__ import annotations

from collections import Counter
from collections.abc import Iterable, Mapping
from dataclasses import dataclass, replace

from ..faults import Fault
from ..files import JsonObject, json_of
from ..program.maps import Pool, groups_in
from ..terminal import in_one_line
from ..values import SLOTS
from .binary_maps import is_binary_map
from .disks import Disk
from .dump_forms import DF, misfits
from .file_kinds import DF_FILE, check_kind
from .report_data import df_of_report
from .reports import DF_PART, beside_dumps, check_no_report, report_in

# The bytes of a weight of 1 in the CRUSH map, where `ceph df` does not tell those of all OSDs.
UNIT = 2**40
# The parts of a byte, so that what places hold is reckoned in whole numbers.
BYTE_PARTS = 65536


def hash_parts(groups: int) -> list[int]:
    """How many parts of the objects each of a pool's groups has: of groups of no power of two those that are still to
    be split have twice as many as the others (Ceph, `ceph_stable_mod`).
    """
    half = (1 << (groups - 1).bit_length()) >> 1
    return [2 if groups - half <= group < half else 1 for group in range(groups)] if groups > 1 else [1]


@dataclass(frozen=True, **SLOTS)
class Data:
    """Where it was read; the bytes that each pool takes on all OSDs, the name of each, how many bytes are taken for one
    that is stored, where that is told, and the bytes of all OSDs, 0 where these are not told. Beside it what all OSDs
    weigh in the CRUSH map, 0 where that is not known; of pools whose groups are known what these hold, one beside the
    other; the disks of the OSDs, where they are known; and why these bytes are not those on all OSDs, where they are
    not.
    """

    path: str
    of_pool: dict[int, int]
    names: dict[int, str]
    rates: dict[int, float]
    size: int
    weight: int
    parts: Mapping[int, list[int]]
    disks: Mapping[int, Disk]
    why_not_raw: str | None = None

    def parts_of(self, pool: Pool) -> list[int]:
        """What each group of a pool holds, one beside the other."""
        found = self.parts.get(pool["id"], [])
        return found if any(found) else hash_parts(pool["pg_num"])

    def sizes(self, pool: Pool) -> list[int]:
        """What a place of each of a pool's groups holds, in parts of a byte."""
        parts = self.parts_of(pool)
        whole, total = self.of_pool[pool["id"]] * BYTE_PARTS, sum(parts) * pool["size"]
        return [whole * own // total for own in parts]

    def group_bytes(self, pool: Pool) -> dict[str, float]:
        """The bytes of a place of each of a pool's groups."""
        parts = self.parts_of(pool)
        whole, total = self.of_pool[pool["id"]], sum(parts) * pool["size"]
        return {group: whole * own / total for group, own in zip(groups_in(pool), parts)}

    def rate(self, pool: Pool) -> float:
        """How many bytes a pool takes for one that is stored in it."""
        return pool["size"] if pool["kind"] == "replicated" else self.rates.get(pool["id"], pool["size"])

    def unit(self, weights: Iterable[int]) -> float:
        """The bytes of a part of 65,536 of a weight, where the OSDs have these weights in such parts, or all OSDs of
        the cluster the one that is known.
        """
        total = self.weight or sum(weights)
        return self.size / total if self.size and total else UNIT / 65536

    def weighed(self, weights: Iterable[int]) -> Data:
        """The same, where all OSDs of the cluster have these weights."""
        return replace(self, weight=sum(weights))

    def is_whole(self, pools: Iterable[int]) -> bool:
        """Whether some pools are all that it tells of."""
        return self.of_pool.keys() <= set(pools)

    def check(self, pools: Iterable[Pool], names: Mapping[str, str], is_whole: bool) -> None:
        """A fault where it is not that of a cluster of these pools: for each pool that it does not tell, or tells under
        another name, and, where these are all pools of the cluster, for each that is not there.
        """
        there = {pool["id"] for pool in pools}
        faults = [f"no pool {number}" for number in sorted(there - self.of_pool.keys())]
        for number in sorted(there & self.names.keys()):
            name = names.get(str(number), self.names[number])
            if name != self.names[number]:
                faults.append(f"pool {number} is {self.names[number]} there, and {name} in the cluster")
        if is_whole:
            faults += [f"the cluster has no pool {number}" for number in sorted(self.of_pool.keys() - there)]
        if faults:
            raise Fault(*(f"{self.path}: {fault}" for fault in faults))


def why_not_raw(stats: Mapping[str, int]) -> str | None:
    """Why the bytes that pools use are not those on all OSDs; None where they are, as far as is told. Of OSDs that have
    no statistics by pool Ceph sums what clients have stored, once (PGMap.h `use_per_pool_stats`).
    """
    count, own = stats.get("num_osds", 0), stats.get("num_per_pool_osds")
    if own is None or own >= count:
        return None
    return (
        f"{own} of {count} OSDs have statistics by pool (num_per_pool_osds), so bytes_used is what is stored, and not "
        "what lies on the disks"
    )


def df_in(path: str) -> JsonObject:
    """The object of a file with the output of `ceph df --format json`, or what a report tells of it. A fault where it
    is another file.
    """
    own, report = beside_dumps(path, DF_PART), report_in(path)
    if isinstance(own, dict):
        return own
    if report is not None:
        return df_of_report(path, report)
    value = json_of(path)
    check_kind(path, value, DF_FILE)
    return json_of(path, "pools")


def data_in(path: str | None) -> Data | None:
    """What a file with the output of `ceph df --format json` tells; None where there is no path. A fault for each
    place that has another form, and for a pool that stands there twice.
    """
    if path is None:
        return None
    if is_binary_map(path):
        check_no_report(path, "of the data of pools: give what `ceph df --format json` prints")
    value = df_in(path)
    faults = misfits(value, DF, "")
    if faults:
        raise Fault(*(f"{path}: {fault}" for fault in faults))
    pools = {own["id"]: own for own in value["pools"]}
    twice = [number for number, count in Counter(own["id"] for own in value["pools"]).items() if count > 1]
    if twice:
        raise Fault(*(f"{path}: pool {number} stands there twice" for number in twice))
    stats = {number: own["stats"] for number, own in pools.items()}
    used = {number: max(own["bytes_used"], 0) for number, own in stats.items()}
    rates = {number: used[number] / own["stored"] for number, own in stats.items() if own["stored"] > 0}
    names = {number: in_one_line(own["name"]) for number, own in pools.items() if "name" in own}
    total = value.get("stats", {})
    return Data(path, used, names, rates, max(total.get("total_bytes", 0), 0), 0, {}, {}, why_not_raw(total))
