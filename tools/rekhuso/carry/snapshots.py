"""A cluster at one moment: its map, where its data is, and a sum of all that a judgement goes by."""

from __future__ import annotations

import contextlib
import hashlib
import json
import pathlib
import tempfile
from collections.abc import Iterator, Mapping
from dataclasses import dataclass

from ..files import JsonObject
from ..values import SLOTS
from .connection import CarryConnection
from .states import Waiting

# What of the map a judgement goes by. Other parts may change meanwhile: temporary sets, snapshots, who is kept out.
MAP_KEYS = ("fsid", "crush_version", "max_osd", "require_min_compat_client", "require_osd_release")
EXCEPTIONS = ("pg_upmap", "pg_upmap_items", "pg_upmap_primaries")
OSD_KEYS = ("osd", "up", "in", "weight", "primary_affinity")
POOL_KEYS = (
    *("pool", "type", "size", "min_size", "crush_rule", "object_hash", "erasure_code_profile"),
    *("pg_num", "pg_placement_num", "pg_num_target", "pg_placement_num_target"),
)
# How often a cluster is asked again that changes while it is asked.
TRIES = 5


def pool_form(pool: JsonObject) -> list[object]:
    """What of a pool decides where its groups lie; of its flags one alone does."""
    return [*(pool.get(key) for key in POOL_KEYS), "hashpspool" in str(pool.get("flags_names"))]


def judged_sum(dump: Mapping[str, object], with_exceptions: bool = True) -> str:
    """The sum of what a judgement goes by in an OSD dump; also without exceptions, which commands change."""
    osds, pools = dump.get("osds"), dump.get("pools")
    own: JsonObject = {key: dump.get(key) for key in (*MAP_KEYS, *(EXCEPTIONS if with_exceptions else ()))}
    # A manager has 1.0 where JSON of monitors has 1.
    own["osds"] = [[float(osd.get(key, 0)) for key in OSD_KEYS] for osd in osds] if isinstance(osds, list) else None
    own["pools"] = [pool_form(pool) for pool in pools] if isinstance(pools, list) else None
    return hashlib.sha256(json.dumps(own, sort_keys=True).encode()).hexdigest()


@dataclass(frozen=True, **SLOTS)
class Snapshot:
    """A cluster at one moment: the dumps of its map, what is told of its groups and of their data, and the sum of what
    a judgement goes by.
    """

    osd: JsonObject
    crush: JsonObject
    groups: JsonObject
    data: Mapping[str, JsonObject]
    sum: str

    @property
    def epoch(self) -> int:
        """The epoch of the map."""
        return int(self.osd["epoch"])

    @property
    def stats(self) -> list[JsonObject]:
        """What is told of each group."""
        own = self.groups.get("pg_map", self.groups)
        found = own.get("pg_stats", []) if isinstance(own, dict) else []
        return list(found)

    def objects_of(self) -> dict[str, int]:
        """How many objects each group has."""
        return {own["pgid"]: int(own.get("stat_sum", {}).get("num_objects", 0)) for own in self.stats}

    def object_places(self) -> int:
        """How many places of objects the cluster has."""
        sizes = {str(pool["pool"]): int(pool["size"]) for pool in self.osd["pools"]}
        return sum(count * sizes.get(group.split(".")[0], 0) for group, count in self.objects_of().items())

    @contextlib.contextmanager
    def files(self) -> Iterator[dict[str, str]]:
        """All of it as files, by their names."""
        values = {"osd": self.osd, "crush": self.crush, "pgs": self.groups, **self.data}
        with tempfile.TemporaryDirectory(prefix="rekhuso-") as folder:
            paths = {name: pathlib.Path(folder, f"{name}.json") for name in values}
            for name, path in paths.items():
                path.write_text(json.dumps(values[name]), encoding="utf-8")
            yield {name: str(path) for name, path in paths.items()}


def taken(connection: CarryConnection, with_data: bool) -> Snapshot:
    """A cluster at one moment. Waiting where it changes whenever it is asked, and where its manager does not know all
    groups yet.
    """
    for _ in range(TRIES):
        first, crush = connection.ask("osd dump"), connection.ask("osd crush dump")
        groups = connection.ask("pg dump", True, dumpcontents=["pgs"])
        if not groups.get("pg_ready", True):
            raise Waiting("unknown", "the manager does not know all groups yet")
        data = {"df": connection.ask("df"), "osds": connection.ask("osd df", True)} if with_data else {}
        # What is told of groups may be of a later map, if that places no group otherwise.
        own = judged_sum(first)
        if judged_sum(connection.ask("osd dump")) == own:
            return Snapshot(first, crush, groups, data, own)
    raise Waiting("changing", "the map of the cluster changes whenever it is asked")
