"""A cluster of the tests' own for `carry`: it answers what a carrier asks of monitors and manager, takes its commands,
and has data that follows by steps. Between any two questions something may happen to it, or to the carrier.
"""

from __future__ import annotations

import functools
import json
import pathlib
import threading
from collections import Counter
from collections.abc import Callable
from typing import Any

from rekhuso.carry.connection import MISSING, CarryConnection, MonCommand, Reply
from rekhuso.cluster.cluster import Cluster
from rekhuso.cluster.view import view_of_cluster
from rekhuso.plans.question import sets_of_maps

from tests.clusters import STOCK, Json, copied

BUILT = "001-three-hosts"
FSID = "0a1c2f62-6f6e-4d4f-8a53-0f5d2a1f7c11"
# The greatest value of a key, as monitors have it, and the error of a greater one.
LONGEST, TOO_LONG = 65536, 27
# How many objects a group has.
OBJECTS = 100


@functools.lru_cache(maxsize=None)
def base_sets(program: pathlib.Path, name: str) -> dict[str, list[int]]:
    """The sets of all groups of a cluster without exceptions, by the program."""
    own = copied(STOCK[name])
    view = view_of_cluster(Cluster(own["osd_dump"], own["crush_dump"], frozenset(), {}))
    sets = sets_of_maps(view.maps, program).items()
    return {group: [osd for osd in up.places if osd is not None] for group, up in sets}


class Killed(BaseException):
    """A carrier is killed."""


class StandIn(CarryConnection):
    """A cluster, which its carriers take for a connection."""

    def __init__(self, program: pathlib.Path, name: str = BUILT) -> None:
        self.program, own = program, STOCK[name]
        self.dump, self.crush = copied(own["osd_dump"]), copied(own["crush_dump"])
        self.dump.update(fsid=FSID, crush_version=7, flags="sortbitwise", require_min_compat_client="luminous")
        self.keys, self.lock, self.base = dict[str, str](), threading.RLock(), base_sets(program, name)
        self.balancer: Json = {"active": False, "mode": "upmap"}
        self.ratios: Json = {}
        # What of its status is not told.
        self.untold = set[str]()
        # What was given, in its order; what is refused; what happens before a question of a prefix is answered.
        self.given, self.refused, self.lost = list[str](), dict[str, str](), set[str]()
        # Where groups are said to be that are where pairs send them.
        self.elsewhere = dict[str, list[int]]()
        self.before: dict[str, list[Callable[[], object]]] = {}
        # After how many questions the carrier is killed, None where it is not; and how many were asked.
        self.kill_at: int | None = None
        self.count, self.asked = 0, Counter[str]()
        self.acting = self.sets()
        self.most = 0.0

    def sets(self) -> dict[str, list[int]]:
        """The sets of all groups: what the program gives without pairs, and then their pairs."""
        found = {group: list(places) for group, places in self.base.items()}
        for own in self.dump["pg_upmap_items"]:
            pairs = {pair["from"]: pair["to"] for pair in own["mappings"]}
            found[own["pgid"]] = [pairs.get(osd, osd) for osd in found[own["pgid"]]]
        return found

    def moving(self) -> dict[str, list[int]]:
        """The places that are under way, by their groups."""
        sets = self.sets()
        found = {group: [osd for osd in up if osd not in self.acting[group]] for group, up in sets.items()}
        return {group: osds for group, osds in found.items() if osds}

    def misplaced(self) -> float:
        """Which share of all objects is misplaced."""
        return sum(map(len, self.moving().values())) / sum(map(len, self.acting.values()))

    def work(self, most: int = 999) -> None:
        """The data of some groups arrives."""
        with self.lock:
            sets = self.sets()
            for group in list(self.moving())[:most]:
                self.acting[group] = sets[group]

    def then(self, prefix: str, happens: Callable[[], object]) -> None:
        """Has something happen before the next question of a prefix is answered."""
        self.before.setdefault(prefix, []).append(happens)

    def changed(self, **parts: Any) -> None:
        """Another map."""
        self.dump.update(parts)
        self.dump["epoch"] += 1

    def reweight(self, osd: int, weight: float) -> None:
        """An OSD gets another reweight."""
        self.dump["osds"][osd]["weight"] = weight
        self.changed()

    # What a carrier asks

    def close(self) -> None:
        """Ends nothing."""

    def reply(self, asked: MonCommand, is_of_manager: bool = False) -> Reply:
        """What monitors and manager reply."""
        prefix = str(asked["prefix"])
        with self.lock:
            self.count += 1
            self.asked[prefix] += 1
            if self.kill_at is not None and self.count >= self.kill_at:
                raise Killed(prefix)
            while self.before.get(prefix):
                self.before[prefix].pop(0)()
            if prefix in self.refused:
                return Reply(-22, b"", self.refused[prefix])
            if prefix.startswith("config-key"):
                return self.key(prefix.split(" ")[1], asked)
            if "pg-upmap" in prefix:
                return self.take(prefix, asked)
            return Reply(0, json.dumps(self.answer(prefix, asked)).encode(), "")

    def key(self, word: str, asked: MonCommand) -> Reply:
        """What comes of a key."""
        key, value = str(asked["key"]), str(asked.get("val", ""))
        if not key.startswith("rekhuso/"):
            return Reply(-13, b"", "access denied")
        if word == "dump":
            found = {own: value for own, value in self.keys.items() if own.startswith(key)}
            return Reply(0, json.dumps(found).encode(), "")
        if word == "set":
            if len(value) > LONGEST:
                return Reply(-TOO_LONG, b"", "value too large")
            self.keys[key] = value
        elif key not in self.keys:
            return Reply(-MISSING, b"", "no such key")
        elif word == "rm":
            del self.keys[key]
        return Reply(0, self.keys.get(key, "").encode(), "")

    def take(self, prefix: str, asked: MonCommand) -> Reply:
        """Takes a command on exceptions; some are lost, as by a monitor that takes pairs away again."""
        group, osds = str(asked["pgid"]), asked.get("id", [])
        assert isinstance(osds, list)
        self.given.append(" ".join([prefix, group, *map(str, osds)]))
        if group not in self.lost:
            kept = [own for own in self.dump["pg_upmap_items"] if own["pgid"] != group]
            pairs = [{"from": was, "to": now} for was, now in zip(osds[::2], osds[1::2])]
            self.changed(pg_upmap_items=kept + [{"pgid": group, "mappings": pairs}] * bool(pairs))
            self.most = max(self.most, self.misplaced())
        return Reply(0, b"", "set")

    def answer(self, prefix: str, asked: MonCommand) -> Json:
        """The answer to a question."""
        if prefix == "pg map":
            self.most = max(self.most, self.misplaced())
            return {"up": self.elsewhere.get(str(asked["pgid"])) or self.sets()[str(asked["pgid"])]}
        if prefix == "config get":
            return 0.05
        if prefix == "status":
            own = {"num_pgs": len(self.acting), "misplaced_ratio": self.misplaced(), **self.ratios}
            return {key: value for key, value in {"pgmap": own}.items() if key not in self.untold}
        answers = {"osd dump": self.dump, "osd crush dump": self.crush, "balancer status": self.balancer}
        return self.groups() if prefix == "pg dump" else answers[prefix]

    def groups(self) -> Json:
        """What is told of all groups."""
        found, sets = [], self.sets()
        for group, up in sets.items():
            state = "active+clean" if set(up) == set(self.acting[group]) else "active+remapped+backfilling"
            held = {"num_bytes": 2**30, "num_objects": OBJECTS}
            own = {"pgid": group, "up": up, "up_primary": up[0], "acting": self.acting[group]}
            found.append({**own, "state": state, "stat_sum": held, "reported_epoch": self.dump["epoch"]})
        return {"pg_ready": True, "pg_map": {"pg_stats": found}}

    def state(self) -> Json:
        """The state that the carrier has kept."""
        return json.loads(self.keys["rekhuso/state"])
