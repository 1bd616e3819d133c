"""Defects of a map, or of a change to a map, beyond their form."""

from __future__ import annotations

from collections import Counter
from typing import Any, Iterable, cast

from .map_forms import (
    EXCEPTIONS,
    FULL_WEIGHT,
    GROUPS,
    NEW_SETS,
    OSDS,
    PARTS,
    POOLS,
    Defect,
    Defects,
    Limits,
    change_form,
    key_of,
    limits_of,
    map_form,
    parts_of,
)
from .maps import Change, Entry, Map, Pool, Rule, entries_of, group_key
from .rule_grammar import rule_fault


def twice(numbers: Iterable[Any], path: str, number: int, what: str) -> Defects:
    """Keys that come again."""
    seen: set[Any] = set()
    for at, key in enumerate(numbers):
        if key in seen:
            yield Defect(number, path.format(at), f"{what} {key} comes again")
        seen.add(key)


def forest_defects(value: Map, max_osd: int, path: str = "") -> Defects:
    """Buckets that are no forest over so many devices."""
    buckets = value["buckets"]
    yield from twice((bucket["id"] for bucket in buckets), path + "buckets[{}].id", 13, "bucket")
    types = {bucket["id"]: bucket["type"] for bucket in buckets}
    seen: Counter[int] = Counter()
    for at, bucket in enumerate(buckets):
        own = f"{path}buckets[{at}]"
        weights = [weight for _, weight in bucket["items"]]
        if sum(weights) >= 2**32:
            yield Defect(13, f"{own}.items", f"the weights come to {sum(weights):,}, at most 4,294,967,295")
        if bucket["kind"] == "uniform" and len(set(weights)) > 1:
            yield Defect(13, f"{own}.items", "a uniform bucket with unequal weights")
        for place, (item, _) in enumerate(bucket["items"]):
            here = f"{own}.items[{place}][0]"
            seen[item] += 1
            if seen[item] == 2:
                yield Defect(13, here, f"{item} stands in the forest again")
            if item >= max_osd:
                yield Defect(13, here, f"device {item} is not below max_osd, {max_osd}")
            elif item < 0 and item not in types:
                yield Defect(13, here, f"{item} is no bucket of the list")
            elif item < 0 and types[item] >= bucket["type"]:
                yield Defect(13, here, f"bucket {item} of type {types[item]} below type {bucket['type']}")


def rule_defects(value: Map, path: str = "") -> Defects:
    """Rules that are none."""
    yield from twice((rule["id"] for rule in value["rules"]), path + "rules[{}].id", 14, "rule")
    buckets = {bucket["id"] for bucket in value["buckets"]}
    for at, rule in enumerate(value["rules"]):
        fault = rule_fault(rule["steps"], rule["kind"])
        if fault:
            yield Defect(14, f"{path}rules[{at}].steps", fault)
        for place, step in enumerate(rule["steps"]):
            if step[0] == "take" and step[1] not in buckets:
                yield Defect(
                    14, f"{path}rules[{at}].steps[{place}]", f"takes {step[1]}, which is no bucket of the list"
                )


def pool_defects(pools: list[Pool], rules: list[Rule], path: str) -> Defects:
    """Pools whose rule is not there, or of the other kind, or with more groups for placement than they have."""
    kinds = {rule["id"]: rule["kind"] for rule in rules}
    for at, pool in enumerate(pools):
        if pool["rule"] not in kinds:
            yield Defect(15, f"{path}[{at}].rule", f"no rule {pool['rule']}")
        elif kinds[pool["rule"]] != pool["kind"]:
            yield Defect(15, f"{path}[{at}].rule", f"rule {pool['rule']} is for the other kind of pool")
        if pool["pgp_num"] > pool["pg_num"]:
            yield Defect(15, f"{path}[{at}].pgp_num", f"{pool['pgp_num']}, above pg_num, {pool['pg_num']}")


def entry_faults(entry: Entry, size: int, is_set: bool) -> Iterable[str]:
    """What is wrong with the entries of an exception."""
    if not 1 <= len(entry) <= size:
        yield f"{len(entry)} entries, 1 to the pool's size, {size}"
    if is_set and len(set(entry)) < len(entry):
        yield "an OSD twice"
    if not is_set and any(left == right for left, right in entry):
        yield "a pair of equal sides"


def osds_in(entry: Entry) -> list[int]:
    """The OSDs that an exception names."""
    return [osd for part in entry for osd in (part if isinstance(part, list) else [part])]


def osds_named(key: str, entry: Any) -> list[int]:
    """The OSDs that an entry of a part of a change names: itself one, or in an exception; a bare group names none."""
    if PARTS[key].names == OSDS:
        return [key_of(entry)]
    return osds_in(entry[1]) if isinstance(entry, list) else []


def exception_defects(value: Map) -> Defects:
    """Exceptions of groups or OSDs that are not there, or that break their form."""
    pools = {pool["id"]: pool for pool in value["pools"]}
    there = {osd["id"] for osd in value["osds"] if osd["exists"]}
    for key, kind in EXCEPTIONS.items():
        entries = entries_of(value, key)
        yield from twice((entry[0] for entry in entries), key + "[{}][0]", 17, "group")
        for at, (group, entry) in enumerate(entries):
            pool, own = group_key(group)
            if pool not in pools or own >= pools[pool]["pg_num"]:
                yield Defect(17, f"{key}[{at}][0]", f"no group {group}")
                continue
            for why in entry_faults(entry, pools[pool]["size"], kind.is_set):
                yield Defect(17, f"{key}[{at}][1]", why)
            for osd in sorted(set(osds_in(entry)) - there):
                yield Defect(17, f"{key}[{at}][1]", f"osd.{osd} does not exist")


def map_defects(value: object, is_stock: bool = False) -> list[Defect]:
    """All places of a map that are at fault, under `--stock` or without it: those of form and limits, or where these
    hold all others.
    """
    has_tries = isinstance(value, dict) and value.get("version") == 2
    found = list(map_form(has_tries, is_stock)(value, ""))
    return found or lawless_defects(cast(Map, value))


def lawless_defects(value: Map) -> list[Defect]:
    """The places at fault of a map whose form and limits hold."""
    found: list[Defect] = []
    for places in (
        forest_defects(value, value["max_osd"]),
        rule_defects(value),
        twice((pool["id"] for pool in value["pools"]), "pools[{}].id", 15, "pool"),
        pool_defects(value["pools"], value["rules"], "pools"),
        twice((osd["id"] for osd in value["osds"]), "osds[{}].id", 16, "OSD"),
    ):
        found += places
    for at, osd in enumerate(value["osds"]):
        if osd["id"] >= value["max_osd"]:
            found.append(Defect(16, f"osds[{at}].id", f"{osd['id']} is not below max_osd, {value['max_osd']}"))
        if osd["up"] and not osd["exists"]:
            found.append(Defect(16, f"osds[{at}].up", "up, but does not exist"))
    return found + list(exception_defects(value))


class ChangeTest:
    """What a change is tested against: a map, and its pools after the change."""

    def __init__(self, value: Map, change: Change, limits: Limits) -> None:
        """Takes a lawful map, a change of the right form, and the limits of the map."""
        self.value, self.change, self.limits = value, change, limits
        self.there = {osd["id"] for osd in value["osds"] if osd["exists"]}
        self.before = {pool["id"]: pool for pool in value["pools"]}
        self.kept = {number: pool for number, pool in self.before.items() if number not in change.get("old_pools", [])}
        self.pools = {**self.kept, **{pool["id"]: pool for pool in change.get("new_pools", [])}}
        self.sizes = {number: pool["pg_num"] for number, pool in self.pools.items()}
        self.sizes.update({number: groups for number, groups, _ in change.get("grow_pool", []) if number in self.sizes})

    def osd_places(self) -> Defects:
        """OSDs that are not there, and reweights above the whole share."""
        for key in parts_of(OSDS, GROUPS):
            for at, entry in enumerate(self.change.get(key, [])):
                for osd in sorted(set(osds_named(key, entry)) - self.there):
                    yield Defect(21, f"{key}[{at}]", f"osd.{osd} does not exist")
                if key == "weight" and entry[1] > FULL_WEIGHT:
                    yield Defect(22, f"weight[{at}][1]", f"{entry[1]:,}, at most 65,536")

    def pool_places(self) -> Defects:
        """Pools that are not there, are there already, or would shrink."""
        for at, number in enumerate(self.change.get("old_pools", [])):
            if number not in self.before:
                yield Defect(23, f"old_pools[{at}]", f"no pool {number}")
        for at, pool in enumerate(self.change.get("new_pools", [])):
            if pool["id"] in self.kept:
                yield Defect(24, f"new_pools[{at}].id", f"pool {pool['id']} is there")
        for at, (number, groups, placed) in enumerate(self.change.get("grow_pool", [])):
            if number not in self.pools:
                yield Defect(23, f"grow_pool[{at}][0]", f"no pool {number}")
            elif groups < self.pools[number]["pg_num"] or placed < self.pools[number]["pgp_num"]:
                yield Defect(15, f"grow_pool[{at}]", f"fewer groups than pool {number} has")
            if placed > groups:
                yield Defect(15, f"grow_pool[{at}][2]", f"{placed}, above pg_num, {groups}")
        yield from self.count_places()
        rules = self.change.get("new_crush", self.value)["rules"]
        stay = [pool for pool in self.kept.values() if "new_crush" in self.change]
        for place in pool_defects(stay, rules, "the map's pools"):
            yield place
        yield from pool_defects(self.change.get("new_pools", []), rules, "new_pools")

    def count_places(self) -> Defects:
        """More pools, or more groups in all of them, than a map has; the groups of a pool that comes twice are not
        added up.
        """
        count, most = len(self.pools), self.limits
        if count > most.pools:
            yield Defect(15, "new_pools", f"{count} pools after the change, at most {most.pools}")
        total, new = sum(self.sizes.values()), [pool["id"] for pool in self.change.get("new_pools", [])]
        if total > most.total and len(set(new)) == len(new):
            path = "new_pools" if new else "grow_pool"
            yield Defect(15, path, f"{total:,} groups in all pools after the change, at most {most.total:,}")

    def group_places(self) -> Defects:
        """Groups that are not there, and exceptions that break their form."""
        for key in parts_of(GROUPS):
            for at, entry in enumerate(self.change.get(key, [])):
                group = key_of(entry)
                pool, own = group_key(group)
                if pool not in self.pools:
                    yield Defect(23, f"{key}[{at}]", f"no pool {pool}")
                elif own >= self.sizes[pool]:
                    yield Defect(25, f"{key}[{at}]", f"no group {group}")
                elif not isinstance(entry, str):
                    for why in entry_faults(entry[1], self.pools[pool]["size"], key in NEW_SETS):
                        yield Defect(26, f"{key}[{at}][1]", why)

    def double_places(self) -> Defects:
        """Keys that come twice in a part, or in both parts of a couple."""

        def keys(part: str) -> list[Any]:
            """The keys of a part's entries."""
            return [key_of(entry) for entry in self.change.get(part, [])]

        for part in parts_of(POOLS, OSDS, GROUPS):
            yield from twice(keys(part), part + "[{}]", 27, "the key")
        for left, right in ((key, part.beside) for key, part in PARTS.items() if part.beside):
            for key in sorted(set(keys(left)) & set(keys(right))):
                yield Defect(27, f"{left} and {right}", f"{key} stands in both")


def change_defects(value: Map, change: object, is_stock: bool = False) -> list[Defect]:
    """All places of a change to a lawful map that are at fault, under `--stock` or without it."""
    found = list(change_form(is_stock)(change, ""))
    return found or unfit_defects(value, cast(Change, change), limits_of(is_stock))


def unfit_defects(value: Map, change: Change, limits: Limits) -> list[Defect]:
    """The places at fault of a change whose form holds, and whose lists and numbers are within the limits."""
    found: list[Defect] = []
    if "new_crush" in change:
        crush = change["new_crush"]
        found += list(forest_defects(crush, value["max_osd"], "new_crush.")) + list(rule_defects(crush, "new_crush."))
    if change["base"] != value["epoch"]:
        found.append(Defect(20, "base", f"{change['base']}, the map's epoch is {value['epoch']}"))
    after = ChangeTest(value, change, limits)
    for places in (after.osd_places(), after.pool_places(), after.group_places(), after.double_places()):
        found += places
    return found
