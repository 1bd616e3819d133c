"""What a report of a cluster tells of the data of its pools, in the form of `ceph df` (PGMap.h `pool_stat_t`)."""

from __future__ import annotations

from ..faults import Fault
from ..files import JsonObject
from .dump_forms import misfits

# What a report has of pools, of all OSDs, and of the names of pools.
SUMS = {"num_osds": int, "num_per_pool_osds": int, "?num_per_pool_omap_osds": int, "statfs": {"total": int}}
POOL_STATS = {
    "poolid": int,
    "stat_sum": {"num_bytes": int, "?num_omap_bytes": int},
    "store_stats": {"allocated": int, "?omap_allocated": int},
}
DATA = {"pool_stats": [POOL_STATS], "osd_sum": SUMS, "osdmap": {"pools": [{"pool": int, "pool_name": str}]}}


def used_bytes(own: JsonObject, has_data: bool, has_omap: bool) -> int:
    """The bytes that a pool uses as `ceph df` tells them: those on all OSDs, where these have statistics by pool."""
    sums, stored = own["store_stats"], own["stat_sum"]
    data: int = sums["allocated"] if has_data else stored["num_bytes"]
    omap: int = sums.get("omap_allocated", 0) if has_omap else stored.get("num_omap_bytes", 0)
    return data + omap


def df_of_report(path: str, report: JsonObject) -> JsonObject:
    """What `ceph df --format json` would tell of the pools of a report. A fault for each place of another form."""
    faults = misfits({key: report.get(key) for key in DATA}, DATA, "")
    if faults:
        raise Fault(*(f"{path}: {fault}" for fault in faults[:20]))
    total, names = report["osd_sum"], {pool["pool"]: pool["pool_name"] for pool in report["osdmap"]["pools"]}
    count = total["num_osds"]
    has_data, has_omap = (total.get(key) == count for key in ("num_per_pool_osds", "num_per_pool_omap_osds"))
    pools = [
        {
            "id": own["poolid"],
            "name": names[own["poolid"]],
            "stats": {"bytes_used": used_bytes(own, has_data, has_omap), "stored": own["stat_sum"]["num_bytes"]},
        }
        for own in report["pool_stats"]
        if own["poolid"] in names
    ]
    stats = {
        "total_bytes": total["statfs"]["total"],
        "num_osds": count,
        "num_per_pool_osds": total["num_per_pool_osds"],
    }
    return {"stats": stats, "pools": pools}
