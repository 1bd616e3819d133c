"""A map as the two dumps that Ceph's tools would print of it: those of the tools, with the keys that make them long."""

from __future__ import annotations

import os
import sys
from typing import Any

import ceph

sys.path.insert(0, os.path.join(os.path.dirname(os.path.dirname(os.path.abspath(__file__))), "tools"))
from rekhuso.cluster.dump_types import DumpBucket, DumpOsd, DumpPool, DumpRule  # noqa: E402
from rekhuso.cluster.map_dumps import crush_dump_of, osd_dump_of  # noqa: E402
from rekhuso.cluster.shadows import total  # noqa: E402

TYPES = dict(enumerate("osd host chassis rack row pdu pod room datacenter zone region root".split()))
TUNABLES: dict[str, Any] = {**ceph.TUNABLES, "allowed_bucket_algs": 54, "profile": "jewel"}
ADDRESSES = ("public", "cluster", "heartbeat_back", "heartbeat_front")


def osd_entry(own: DumpOsd) -> dict[str, Any]:
    """An OSD of an OSD dump with what else Ceph prints of it."""
    number = own["osd"]
    more = {
        "uuid": f"00000000-0000-0000-0000-{number:012x}",
        "in": int(own["weight"] > 0),
        "primary_affinity": 1,
        "last_clean_begin": 0,
        "last_clean_end": 0,
        "up_from": 8,
        "up_thru": 900,
        "down_at": 0,
        "lost_at": 0,
        "state": ["exists", "up"],
    }
    for at, name in enumerate(ADDRESSES):
        address = f"10.{at}.{number // 256}.{number % 256}:6800"
        entries = [{"type": kind, "addr": address, "nonce": number} for kind in ("v2", "v1")]
        more.update({f"{name}_addrs": {"addrvec": entries}, f"{name}_addr": f"{address}/{number}"})
    return {**own, **more}


def pool_entry(own: DumpPool) -> dict[str, Any]:
    """A pool of an OSD dump with what else Ceph prints of it."""
    more = {
        "create_time": "2026-01-01T00:00:00.000000+0000",
        "flags_names": "hashpspool",
        "min_size": own["size"] - 1,
        "object_hash": 2,
        "options": {},
        "application_metadata": {"rbd": {}},
    }
    return {**own, **more}


def osd_dump(stated: Any) -> dict[str, Any]:
    """What `ceph osd dump -f json` would print of a map without exceptions, as a value."""
    own = osd_dump_of(stated, {"pools": {str(pool["id"]): f"pool{pool['id']}" for pool in stated["pools"]}})
    more = {"fsid": "00000000-0000-0000-0000-000000000000", "pg_temp": [], "primary_temp": []}
    return {**own, **more, "pools": list(map(pool_entry, own["pools"])), "osds": list(map(osd_entry, own["osds"]))}


def name_of(bucket: Any) -> str:
    """The name of a bucket."""
    return f"{TYPES[bucket['type']]}{-bucket['id']}"


def bucket_entry(own: DumpBucket) -> dict[str, Any]:
    """A bucket of a CRUSH dump with what else Ceph prints of it."""
    more = {"type_name": TYPES[own["type_id"]], "weight": total(own), "hash": "rjenkins1"}
    return {**own, **more, "items": [{**item, "pos": at} for at, item in enumerate(own["items"])]}


def rule_entry(own: DumpRule) -> dict[str, Any]:
    """A rule of a CRUSH dump with what else Ceph prints of it, and the types that it chooses by their names."""
    steps = [{**step, "type": TYPES[int(step["type"])]} if "type" in step else step for step in own["steps"]]
    return {**own, "ruleset": own["rule_id"], "min_size": 1, "max_size": 10, "steps": steps}


def crush_dump(stated: Any) -> dict[str, Any]:
    """What `ceph osd crush dump` would print of a map, as a value."""
    names = {str(bucket["id"]): name_of(bucket) for bucket in stated["buckets"]}
    rules = {str(rule["id"]): f"rule{rule['id']}" for rule in stated["rules"]}
    own = crush_dump_of(stated, {"buckets": names, "rules": rules})
    return {
        **own,
        "devices": [{**device, "class": "ssd"} for device in own["devices"]],
        "types": [{"type_id": number, "name": name} for number, name in TYPES.items()],
        "buckets": list(map(bucket_entry, own["buckets"])),
        "rules": list(map(rule_entry, own["rules"])),
        "tunables": TUNABLES,
    }
