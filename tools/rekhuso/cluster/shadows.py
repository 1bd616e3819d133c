"""The shadow buckets of device classes as Ceph makes them anew where a CRUSH map changes (Ceph 16.2 and 18.2,
CrushWrapper.cc `rebuild_roots_with_classes`): for each bucket and each class a bucket with the OSDs of that class
alone.
"""

from __future__ import annotations

from collections import Counter

from ..faults import Fault
from ..program.maps import altered
from .dump_types import CrushDump, DumpBucket, DumpItem

# What stands between the name of a bucket and the class of a shadow.
SIGN = "~"


def weight_of(item: DumpItem) -> int:
    """The weight of an item; from 2^31 on it is printed as a negative number."""
    return item["weight"] + 2**32 if item["weight"] < 0 else item["weight"]


def total(bucket: DumpBucket) -> int:
    """What the items of a bucket weigh together."""
    return sum(map(weight_of, bucket["items"]))


def classes_of(crush: CrushDump) -> list[str]:
    """The device classes in the order in which the cluster got to know them, which no dump tells. Ceph makes the
    shadows of a bucket in this order, so of two classes the earlier one mostly has the ids nearer to -1.
    """
    taken = (step.get("item_name", "") for rule in crush["rules"] for step in rule["steps"])
    found = {device["class"] for device in crush["devices"] if "class" in device}
    if not found:
        return []
    found |= {name.rsplit(SIGN, 1)[1] for name in taken if SIGN in name}
    ids: dict[str, dict[str, int]] = {}
    for bucket in crush["buckets"]:
        own, sign, kind = bucket["name"].rpartition(SIGN)
        if sign:
            ids.setdefault(own, {})[kind] = bucket["id"]
    before = Counter(
        kind for own in ids.values() for kind in own for other in own if own[kind] > own[other] and other in found
    )
    return sorted(found, key=lambda kind: (-before[kind], kind))


def free_id(taken: set[int]) -> int:
    """The first id of a bucket that is free, from -1 downwards."""
    return next(number for number in range(-1, -len(taken) - 2, -1) if number not in taken)


class Shadows:
    """The shadow buckets of a CRUSH map made anew. Each keeps its id; a new one gets the first that is free and was no
    shadow's before.
    """

    def __init__(self, crush: CrushDump) -> None:
        """Takes a CRUSH map, whose shadows may be those of an earlier one."""
        self.plain = {bucket["id"]: bucket for bucket in crush["buckets"] if SIGN not in bucket["name"]}
        self.ids = {bucket["name"]: bucket["id"] for bucket in crush["buckets"] if SIGN in bucket["name"]}
        self.classes = {device["id"]: device["class"] for device in crush["devices"] if "class" in device}
        self.order = classes_of(crush)
        self.made: dict[str, DumpBucket] = {}

    def shadow(self, number: int, kind: str) -> DumpBucket:
        """The shadow of a bucket for a class, with those of all buckets below it."""
        bucket = self.plain[number]
        name = f"{bucket['name']}{SIGN}{kind}"
        if name in self.made:
            return self.made[name]
        items: list[DumpItem] = []
        self.refuse(bucket, kind)
        for item in bucket["items"]:
            if item["id"] in self.plain:
                below = self.shadow(item["id"], kind)
                items.append({"id": below["id"], "weight": total(below)})
            elif self.classes.get(item["id"]) == kind:
                items.append(item)
        taken = self.plain.keys() | set(self.ids.values()) | {own["id"] for own in self.made.values()}
        own_id = self.ids[name] if name in self.ids else free_id(taken)
        self.made[name] = altered(bucket, id=own_id, name=name, items=items)
        return self.made[name]

    def refuse(self, bucket: DumpBucket, kind: str) -> None:
        """A fault for a uniform bucket that has anything of a class, of which Ceph makes no shadow (`EINVAL`)."""
        if bucket["alg"] == "uniform" and any(
            weight_of(item) and (item["id"] < 0 or self.classes.get(item["id"]) == kind) for item in bucket["items"]
        ):
            raise Fault(
                f"Ceph refuses this: bucket {bucket['name']} is uniform, and it makes no shadow of it for {kind}"
            )

    def all(self) -> list[DumpBucket]:
        """All shadows, in the order in which they are made."""
        inside = {item["id"] for bucket in self.plain.values() for item in bucket["items"]}
        for root in sorted(self.plain.keys() - inside):
            for kind in self.order:
                self.shadow(root, kind)
        return list(self.made.values())


def with_shadows(crush: CrushDump) -> CrushDump:
    """A CRUSH map with its shadow buckets made anew, where it has classes."""
    found = Shadows(crush)
    if not found.order:
        return crush
    return altered(crush, buckets=[*found.plain.values(), *found.all()])
