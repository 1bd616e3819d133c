"""Reasons by buckets: their kinds, items and weights, and what stands below a root more than once."""

from __future__ import annotations

from collections import Counter
from itertools import chain, combinations

from ...program.map_forms import ITEMS, LOWEST_BUCKET
from ...words import listed, some
from ..cluster import Cluster
from .counts import buckets_reason, doubles, range_reason
from .kinds import BARE, Against

ALGS = ("uniform", "list", "tree", "straw", "straw2")


# Buckets


def kind_reasons(cluster: Cluster) -> list[Against]:
    """How many buckets are straw buckets, as stock clusters had them before straw2, which no map has."""
    count = sum(cluster.buckets[number]["alg"] == "straw" for number in cluster.kept)
    told = (
        f"{count} straw buckets, as a stock cluster has them"
        if count > 1
        else "1 straw bucket, as a stock cluster has it"
    )
    return [Against("straw-bucket", told)] if count else []


def bucket_reasons(cluster: Cluster) -> list[Against]:
    """What is wrong with single buckets, and how many there are."""
    found = kind_reasons(cluster)
    for number in cluster.kept:
        bucket, name = cluster.buckets[number], cluster.bucket_name(number)
        if bucket["alg"] not in ALGS:
            found.append(Against("bucket-kind", f"bucket {name} is of the unknown kind {bucket['alg']}"))
        if bucket.get("hash", "rjenkins1") != "rjenkins1":
            found.append(Against("bucket-hash", f"bucket {name} hashes by {bucket['hash']}, not by rjenkins1"))
        if not bucket["items"]:
            found.append(empty_reason(cluster, number))
        found += range_reason("bucket-id", f"bucket {name} has the id {number}", number, LOWEST_BUCKET, -1)
        kind = bucket["type_id"]
        found += range_reason("bucket-type", f"bucket {name} has the type {kind}", kind, 1, 15)
        found += size_reasons(cluster, number) + weight_reasons(cluster, number) + item_reasons(cluster, number)
    found += [
        Against("bucket-twice", f"bucket {cluster.bucket_name(number)} is listed twice in the CRUSH dump")
        for number in doubles(bucket["id"] for bucket in cluster.crush["buckets"])
        if number in cluster.kept
    ]
    return found + buckets_reason(cluster)


def size_reasons(cluster: Cluster, number: int) -> list[Against]:
    """More items of a bucket than a map has."""
    bucket, name, count = cluster.buckets[number], cluster.bucket_name(number), len(cluster.held[number])
    most = cluster.most_items(bucket)
    code = "bucket-items" + BARE * (most == ITEMS)
    found = range_reason(code, f"bucket {name} has {count} items", count, 0, most)
    return [Against(own.code, own.line, name) for own in found]


def empty_reason(cluster: Cluster, number: int) -> Against:
    """What an empty bucket is told as; in a stock cluster, where others are left out, with the rules that can still
    pick it.
    """
    rules = [rule["rule_name"] for rule in cluster.rules if number in cluster.below_rule(rule)]
    name = cluster.bucket_name(number)
    if not cluster.is_stock or not rules:
        return Against("bucket-empty", f"bucket {name} is empty")
    # The shadow of a bucket for a device class has the class behind this sign.
    code = "class-empty" if "~" in name else "bucket-empty"
    return Against(code, f"rule{'s' * (len(rules) > 1)} {listed(rules)} can pick the empty bucket {name}")


def weight_reasons(cluster: Cluster, number: int) -> list[Against]:
    """What is wrong with the weights in a bucket: one that is 0 or no number of 32 bits, their sum, unequal ones in
    a uniform bucket.
    """
    bucket, name = cluster.buckets[number], cluster.bucket_name(number)
    weights = [weight for _, weight in cluster.held[number]]
    found = [
        Against(weight_code(item, weight), f"bucket {name}: the weight of {cluster.bucket_name(item)} is {told}", name)
        for item, weight in cluster.held[number]
        for told in [f"{weight}, no number of 32 bits" if weight else "0"]
        if not 0 < weight < 2**32
    ]
    if not found and sum(weights) >= 2**32:
        line = f"bucket {name}: the weights come to {sum(weights)}, more than {2 ** 32 - 1}"
        found.append(Against("weights", line))
    if not found and bucket["alg"] == "uniform" and len(set(weights)) > 1:
        found.append(Against("unequal-weights", f"bucket {name} is uniform, but its items have unequal weights"))
    return found


def weight_code(item: int, weight: int) -> str:
    """The code of what is wrong with the weight of an item."""
    return "weight" if weight else "bucket-weightless" if item < 0 else "osd-weightless"


def item_reasons(cluster: Cluster, number: int) -> list[Against]:
    """Items of a bucket that are no bucket, or not of a type below its own."""
    bucket, name, found = cluster.buckets[number], cluster.bucket_name(number), list[Against]()
    for item in cluster.holds(number):
        own = cluster.buckets.get(item)
        if item < 0 and own is None and "buckets" not in cluster.torn:
            found.append(Against("no-bucket", f"bucket {name} holds {item}, which is no bucket"))
        elif own is not None and own["type_id"] >= bucket["type_id"]:
            types = [cluster.type_name(kind) for kind in (bucket["type_id"], own["type_id"])]
            holds = f"bucket {name} of type {types[0]} holds {own['name']} of type {types[1]}"
            found.append(Against("type-below", f"{holds}, which is not below it"))
    return found


def users(cluster: Cluster, root: int) -> list[int]:
    """The pools whose rule takes an item."""
    rules = {rule["rule_id"] for rule in cluster.rules if root in cluster.takes(rule)}
    return [pool["pool"] for pool in cluster.pools if pool["crush_rule"] in rules]


def root_reasons(cluster: Cluster, is_one: bool) -> list[Against]:
    """OSDs that pools take from two buckets, neither of which stands below the other: where `is_one` asks for one
    map, all of them, else those alone that one rule takes so.
    """
    found = []
    for root, other in combinations(cluster.roots(), 2):
        first, second = cluster.below(root), cluster.below(other)
        shared = sorted(number for number in first & second if number >= 0)
        in_one_rule = any({root, other} <= set(cluster.takes(rule)) for rule in cluster.rules)
        if shared and root not in second and other not in first and (is_one or in_one_rule or not cluster.pools):
            pools = [str(pool) for pool in sorted(set(users(cluster, root) + users(cluster, other)))]
            which = (
                f"the pools {listed(pools)} take"
                if len(pools) > 1
                else f"pool {pools[0]} takes"
                if pools
                else "its rules take"
            )
            names, osds = sorted(map(cluster.bucket_name, (root, other))), some([f"osd.{osd}" for osd in shared])
            found.append(Against("two-trees", f"{which} {osds} from two buckets: {listed(names)}"))
    return found


def holders_of_doubles(cluster: Cluster, root: int) -> list[tuple[int, list[int]]]:
    """The items that stand twice or more below a bucket, ascending, each with the buckets that hold it."""
    numbers = sorted((number for number in cluster.below(root) if number < 0), reverse=True)
    counts = Counter(chain.from_iterable(map(cluster.holds, numbers)))
    holders: dict[int, list[int]] = {item: [] for item in sorted(counts) if counts[item] > 1}
    for number in numbers if holders else []:
        for item in cluster.holds(number):
            if item in holders:
                holders[item].append(number)
    return list(holders.items())


def twice_reasons(cluster: Cluster) -> list[Against]:
    """Items that stand twice below one bucket that a rule takes, each with the buckets that hold it."""
    found: list[Against] = []
    seen: set[tuple[int, ...]] = set()
    for root in cluster.roots():
        for item, holding in holders_of_doubles(cluster, root):
            if (item, *holding) in seen:
                continue
            seen.add((item, *holding))
            names, name = [cluster.bucket_name(number) for number in dict.fromkeys(holding)], cluster.bucket_name(item)
            if len(names) > 1:
                many = "two" if len(names) == 2 else len(names)
                line = f"{name} stands below {many} buckets of {cluster.bucket_name(root)}: {listed(names)}"
                found.append(Against("stands-twice", line, name))
            elif len(holding) > 1:
                found.append(Against("stands-twice", f"{name} stands in {names[0]} twice", name))
    return found
