"""Clusters that are drawn, as the two dumps of Ceph's tools.

They have few hosts and many, disks of unlike sizes and of no weight, classes, reweights, OSDs that are out or down,
copies, coded parts and parts in racks, many small pools or a huge one.
"""

from __future__ import annotations

import random
from collections.abc import Callable, Iterator
from dataclasses import dataclass, field
from typing import Any

import maps
from dumps import crush_dump, osd_dump

OSD, HOST, RACK, ROOM, ROOT = 0, 1, 3, 7, 11
ONE = 65536
# The sizes of disks, in parts of a weight.
SIZES = (ONE // 2, ONE, 2 * ONE, 4 * ONE, 8 * ONE, 16 * ONE)
# The most groups, and places, of a cluster.
GROUPS, PLACES = 3000, 9000


@dataclass
class Tree:
    """The buckets of a cluster while they are made, and the weight, class and host of each OSD."""

    rng: random.Random
    buckets: list[dict[str, Any]] = field(default_factory=list)
    weights: list[int] = field(default_factory=list)
    classes: list[str] = field(default_factory=list)
    counts: dict[int, int] = field(default_factory=dict)

    def bucket(self, kind: int, items: list[list[int]]) -> list[int]:
        """A new bucket, as an item of the one above."""
        number = -1 - len(self.buckets)
        self.buckets.append({"id": number, "items": items, "kind": "straw2", "type": kind})
        self.counts[kind] = self.counts.get(kind, 0) + 1
        return [number, sum(weight for _, weight in items)]

    def host(self, sizes: list[int], kinds: list[str]) -> list[int]:
        """A host of disks of these sizes and classes."""
        first = len(self.weights)
        self.weights += sizes
        self.classes += kinds
        return self.bucket(HOST, [[first + at, size] for at, size in enumerate(sizes)])

    def shadow(self, number: int, name: str) -> list[int]:
        """The part of a bucket that has OSDs of a class, as an item."""
        own = next(bucket for bucket in self.buckets if bucket["id"] == number)
        items = [
            self.shadow(item, name) if item < 0 else [item, weight]
            for item, weight in own["items"]
            if item < 0 or self.classes[item] == name
        ]
        found = self.bucket(own["type"], items)
        self.counts[own["type"]] -= 1
        self.buckets[-1]["shadow"] = number, name
        return found


def disks_of(rng: random.Random) -> Callable[[], list[int]]:
    """How the disks of a host are drawn: all alike, of a size for each host, of unlike sizes, some of no weight."""
    many, one = rng.choice([(1, 3), (2, 6), (4, 12), (1, 12)]), rng.choice(SIZES)
    two = rng.sample(SIZES, 2)
    ways: list[Callable[[], list[int]]] = [
        lambda: [one] * many[1],
        lambda: [one] * rng.randint(*many),
        lambda: [rng.choice(two)] * rng.randint(*many),
        lambda: [rng.choice(SIZES) for _ in range(rng.randint(*many))],
        lambda: [rng.choice((one, one, one, 0, 7)) for _ in range(rng.randint(*many))],
        lambda: [round(one * rng.uniform(0.9, 1.1)) for _ in range(rng.randint(*many))],
    ]
    return rng.choice(ways)


def kinds_of(rng: random.Random) -> Callable[[int], list[str]]:
    """How the classes of a host's disks are drawn: one for all, one for each host, or one for each disk."""
    names = rng.sample(["hdd", "ssd", "nvme"], rng.choice((1, 1, 2, 2, 3)))
    if rng.random() < 0.5:
        return lambda count: [rng.choice(names)] * count
    return lambda count: [rng.choice(names) for _ in range(count)]


def tree_of(rng: random.Random) -> Tree:
    """The tree of a cluster: hosts below the root, below racks, or below racks in rooms; at times OSDs alone."""
    found, disks, kinds = Tree(rng), disks_of(rng), kinds_of(rng)

    def hosts(count: int) -> list[list[int]]:
        own = [disks() for _ in range(count)]
        return [found.host(sizes, kinds(len(sizes))) for sizes in own]

    shape = rng.choice(("flat", "hosts", "hosts", "few", "racks", "racks", "rooms"))
    if shape == "flat":
        count = rng.randint(4, 40)
        found.weights, found.classes = [rng.choice(SIZES[:4]) for _ in range(count)], kinds(count)
        found.bucket(ROOT, [[osd, weight] for osd, weight in enumerate(found.weights)])
    elif shape in ("hosts", "few"):
        found.bucket(ROOT, hosts(rng.randint(3, 5) if shape == "few" else rng.randint(6, 24)))
    elif shape == "racks":
        racks = [found.bucket(RACK, hosts(rng.randint(1, 6))) for _ in range(rng.randint(3, 8))]
        found.bucket(ROOT, racks)
    else:
        rooms = [
            found.bucket(ROOM, [found.bucket(RACK, hosts(rng.randint(1, 3))) for _ in range(rng.randint(1, 4))])
            for _ in range(rng.randint(2, 4))
        ]
        found.bucket(ROOT, rooms)
    return found


@dataclass(frozen=True)
class Rule:
    """A rule's steps, its kind, and the most places that it finds OSDs for."""

    kind: str
    steps: list[list[Any]]
    most: int


TRIES: list[list[Any]] = [["set_chooseleaf_tries", 5], ["set_choose_tries", 100]]


def rules_of(tree: Tree, roots: list[int]) -> Iterator[Rule]:
    """The rules that a tree has room for: copies and coded parts over hosts, racks or OSDs, of all or of a class, and
    coded parts in racks."""
    hosts, racks, rooms = (tree.counts.get(kind, 0) for kind in (HOST, RACK, ROOM))
    for at, root in enumerate(roots):
        osds = len(tree.weights) if at == 0 else len(tree.weights) // 3
        for kind, most in ((HOST, hosts if at == 0 else hosts // 2), (RACK, racks), (ROOM, rooms), (OSD, osds)):
            if most < 2:
                continue
            leaf = "chooseleaf" if kind != OSD else "choose"
            yield Rule("replicated", [["take", root], [f"{leaf}_firstn", 0, kind], ["emit"]], most)
            yield Rule("erasure", [*TRIES, ["take", root], [f"{leaf}_indep", 0, kind], ["emit"]], most)
    if racks >= 3 and hosts >= 2 * racks:
        steps: list[list[Any]] = [["take", roots[0]], ["choose_indep", racks - 1, RACK], ["chooseleaf_indep", 2, HOST]]
        yield Rule("erasure", [*TRIES, *steps, ["emit"]], 2 * racks - 2)
        steps = [["take", roots[0]], ["choose_indep", 2, RACK], ["choose_indep", 2, HOST], ["choose_indep", 1, OSD]]
        yield Rule("erasure", [*TRIES, *steps, ["emit"]], 4)
    if rooms >= 2:
        steps = [["take", roots[0]], ["choose_firstn", 2, ROOM], ["chooseleaf_firstn", 2, HOST], ["emit"]]
        yield Rule("replicated", steps, 4)


def counts_of(rng: random.Random) -> list[int]:
    """How many groups the pools have: many small ones, a huge one beside some, or some of all sizes, a few of which
    are no power of two."""
    way = rng.choice(("small", "small", "huge", "mixed", "mixed", "odd"))
    if way == "small":
        return [rng.choice((1, 2, 4, 8, 16)) for _ in range(rng.randint(20, 90))]
    if way == "huge":
        return [rng.choice((1024, 2048)), *(rng.choice((1, 8, 32)) for _ in range(rng.randint(0, 6)))]
    if way == "odd":
        return [rng.randint(1, 200) for _ in range(rng.randint(2, 12))]
    return [rng.choice((1, 8, 16, 32, 64, 128, 256)) for _ in range(rng.randint(2, 24))]


def pools_of(rng: random.Random, rules: list[Rule]) -> list[dict[str, Any]]:
    """Pools, each by one of the rules, with no more groups and places than a cluster may have."""
    used = rng.sample(range(len(rules)), min(len(rules), rng.randint(1, 4)))
    found: list[dict[str, Any]] = []
    groups = places = 0
    for number, count in enumerate(counts_of(rng), 1):
        rule = rng.choice(used)
        own, sizes = rules[rule], (2, 3, 3, 3, 4) if rules[rule].kind == "replicated" else (3, 4, 5, 6, 8, 11)
        size = min(rng.choice(sizes), own.most)
        groups, places = groups + count, places + count * size
        if groups > GROUPS or places > PLACES:
            break
        found.append(maps.pool(number, count, max(size, 2), own.kind, rule))
    return found


def osds_of(rng: random.Random, tree: Tree) -> list[dict[str, Any]]:
    """The OSDs: some reweighted, a few out or down, in some clusters."""
    reweighted, out, down = rng.choice((0, 0, 0.1, 0.4)), rng.choice((0, 0, 0.05)), rng.choice((0, 0, 0, 0.04))
    found = []
    for osd in range(len(tree.weights)):
        weight = round(ONE * rng.uniform(0.4, 1.0)) if rng.random() < reweighted else ONE
        weight = 0 if rng.random() < out else weight
        found.append(maps.osd(osd, rng.random() >= down, weight))
    return found


def drawn(seed: int) -> tuple[dict[str, Any], dict[str, Any]]:
    """The OSD dump and the CRUSH dump of a cluster, by the number of its draw."""
    rng = random.Random(seed)
    tree = tree_of(rng)
    root = tree.buckets[-1]["id"]
    names = sorted(set(tree.classes)) if len(set(tree.classes)) > 1 else []
    roots = [root, *(tree.shadow(root, name)[0] for name in names)]
    rules = list(rules_of(tree, roots))
    osds, pools = osds_of(rng, tree), pools_of(rng, rules)
    stated_rules = [maps.rule(own.steps, at, own.kind) for at, own in enumerate(rules)]
    stated = maps.whole(tree.buckets, stated_rules, pools, osds, epoch=1000)
    crush = crush_dump(stated)
    called = {own["id"]: own["name"] for own in crush["buckets"]}
    for bucket, own in zip(crush["buckets"], tree.buckets):
        if "shadow" in own:
            number, name = own["shadow"]
            bucket["name"] = f"{called[number]}~{name}"
    called = {own["id"]: own["name"] for own in crush["buckets"]}
    for rule in crush["rules"]:
        for step in rule["steps"]:
            step.update({"item_name": called[step["item"]]} if "item" in step else {})
    for device in crush["devices"]:
        device["class"] = tree.classes[device["id"]]
    return osd_dump(stated), crush
