"""A cluster as Ceph's tools dump it: which of it a map can hold, what is stated otherwise there, and what is left
out.
"""

from __future__ import annotations

import re
from functools import cached_property
from typing import Any, Callable

from ..program.map_forms import EXCEPTIONS, GROUP_PATTERN, ITEMS, LEAF_WORDS, Limits, SETTING, limits_of
from ..program.maps import Bucket, Entry, Exceptions, RuleStep, altered, entries_of, exceptions_where
from .disks import NEARFULL
from .dump_types import CrushDump, DumpBucket, DumpItem, DumpOsd, DumpRule, DumpStep, OsdDump
from .entry_forms import acting, exceptions_in
from .names import Names
from .tunables import steps_for
from .weight_sets import compat_weight_set, weight_sets_of

ERASURE = 3
# The greatest id of a pool; the limits that depend on buckets are in `map_forms`.
GREATEST_POOL = 65535


class Cluster:
    """What two dumps say, with the rules that pools use and the buckets below what these take."""

    def __init__(
        self,
        osd_dump: OsdDump,
        crush_dump: CrushDump,
        torn: frozenset[str] = frozenset(),
        gone: dict[int, int] | None = None,
    ) -> None:
        """Of dumps whose entries are all of the right form; `torn` names the keys of which some entries were not,
        and are gone. `gone` has the reweights, in units of 1/65,536, that OSDs have kept which do not exist any
        more.
        """
        self.osd_dump, self.crush, self.torn, self.gone = osd_dump, crush_dump, torn, gone or {}
        self.epoch, self.pools = osd_dump["epoch"], osd_dump["pools"]
        # Where pools were chosen of it: the cluster with all of them, and those that cannot be read.
        self.whole: Cluster | None = None
        self.unread: frozenset[int] = frozenset()

    # The dumps by numbers and names

    @cached_property
    def osds(self) -> dict[int, DumpOsd]:
        """The OSDs that the OSD dump lists."""
        return {osd["osd"]: osd for osd in self.osd_dump["osds"]}

    @cached_property
    def buckets(self) -> dict[int, DumpBucket]:
        """All buckets, also those that no pool uses."""
        return {bucket["id"]: bucket for bucket in self.crush["buckets"]}

    @cached_property
    def types(self) -> dict[str, int]:
        """The number of each type of buckets."""
        return {kind["name"]: kind["type_id"] for kind in self.crush["types"]}

    @cached_property
    def sizes(self) -> dict[int, int]:
        """How many groups each pool has."""
        return {pool["pool"]: pool["pg_num"] for pool in self.pools}

    @cached_property
    def nearfull(self) -> float:
        """Up to which part an OSD may be filled before it counts as nearly full."""
        own = self.osd_dump.get("nearfull_ratio", 0.0)
        return own if own > 0 else NEARFULL

    @cached_property
    def erasure_rates(self) -> dict[int, float]:
        """How many bytes erasure pools take for one that is stored, by the parts that hold data in their profiles."""
        profiles, found = self.osd_dump.get("erasure_code_profiles", {}), dict[int, float]()
        for pool in self.pools:
            own = profiles.get(pool.get("erasure_code_profile", ""))
            parts = own.get("k", "") if isinstance(own, dict) else ""
            if pool["type"] == ERASURE and isinstance(parts, str) and re.fullmatch("[1-9][0-9]?", parts):
                found[pool["pool"]] = pool["size"] / int(parts)
        return found

    def osd_weights(self) -> dict[int, int]:
        """The weights of all OSDs of the tree, also of those that no rule comes to."""
        return {item: weight for bucket in self.shown() for item, weight in bucket["items"] if item >= 0}

    @cached_property
    def is_stock(self) -> bool:
        """Whether there is a straw2 bucket, as stock clusters have them."""
        return any(bucket["alg"] == "straw2" for bucket in self.crush["buckets"])

    @cached_property
    def choose_args(self) -> dict[str, list[Any]]:
        """The weight sets that its pools have."""
        return weight_sets_of(self.crush, self.pools)

    @cached_property
    def weight_sets(self) -> dict[int, list[int]]:
        """The weights that a compat weight set gives the items of buckets."""
        return compat_weight_set(self.choose_args)

    # What a map holds of them

    @cached_property
    def rules(self) -> list[DumpRule]:
        """The rules that pools use; all rules where there is no pool."""
        used, are_all = {pool["crush_rule"] for pool in self.pools}, not self.pools and "pools" not in self.torn
        return [rule for rule in self.crush["rules"] if rule["rule_id"] in used or are_all]

    @cached_property
    def held(self) -> dict[int, list[tuple[int, int]]]:
        """The items of each bucket that a map holds, with their weights."""
        return {number: self.held_by(bucket) for number, bucket in self.buckets.items()}

    @cached_property
    def stands(self) -> set[int]:
        """All that stands below what the rules take, also what a map does not hold."""
        roots = [root for rule in self.rules for root in self.takes(rule)]
        return {number for root in roots for number in self.reached(root, self.listed_in)}

    @cached_property
    def in_use(self) -> set[int]:
        """All below what the rules take that a map holds."""
        return {number for rule in self.rules for number in self.below_rule(rule)}

    @cached_property
    def kept(self) -> list[int]:
        """The buckets that a map holds, from -1 downwards."""
        return sorted(self.in_use & self.buckets.keys(), reverse=True)

    @cached_property
    def devices(self) -> list[int]:
        """The devices that a map holds."""
        return sorted(number for number in self.in_use if number >= 0)

    @cached_property
    def max_osd(self) -> int:
        """One more than the greatest number of an OSD that a map may have."""
        return max(min(self.osd_dump["max_osd"], self.limits.osds), 1, *(device + 1 for device in self.devices))

    # Rules

    @staticmethod
    def takes(rule: DumpRule) -> list[int]:
        """What the steps of a rule take."""
        return [step["item"] for step in rule["steps"] if step["op"] == "take"]

    def roots(self) -> list[int]:
        """All that the rules take, each once, from -1 downwards."""
        return sorted({root for rule in self.rules for root in self.takes(rule)}, reverse=True)

    def sizes_of(self, rule: DumpRule) -> list[int]:
        """The sizes of the pools that use a rule."""
        return sorted({pool["size"] for pool in self.pools if pool["crush_rule"] == rule["rule_id"]})

    def step_of(self, step: DumpStep, size: int = 0) -> RuleStep:
        """A step of a rule in the map's form, for pools of a size; its type must be one of the CRUSH dump's. In a
        stock cluster a negative count becomes the size less it, and chooseleaf of OSDs becomes choose, as both are
        the same to Ceph.
        """
        op = step["op"]
        if op == "take":
            return ["take", step["item"]]
        if op in SETTING:
            return [op, step["num"]]
        if op == "emit":
            return ["emit"]
        count, kind = step["num"], self.types[step["type"]]
        if self.is_stock and op == "chooseleaf_firstn" and kind == 0:
            op = "choose_firstn"
        return [op, count + size if self.is_stock and count < 0 else count, kind]

    def steps_of(self, rule: DumpRule) -> list[RuleStep]:
        """The steps of a rule in the map's form, behind those that set tunables. A block that chooses as many as the
        size less as many or more, and takes nothing behind that, gives nothing: only the tries that it sets stay, since
        they hold for the blocks behind it.
        """
        steps: list[RuleStep] = []
        block: list[RuleStep] = []
        size, is_idle = (self.sizes_of(rule) or [0])[0], False
        for step in rule["steps"]:
            own = self.step_of(step, size)
            block.append(own)
            if own[0] == "take":
                is_idle = False
            elif own[0].startswith("choose") and step["num"] < 0 and own[1] <= 0 and self.is_stock:
                is_idle = True
            if step["op"] == "emit":
                steps += [own for own in block if own[0] in SETTING] if is_idle else block
                block, is_idle = [], False
        steps += block
        while self.is_stock and steps and steps[-1][0] in SETTING:
            steps.pop()
        return self.tunable_steps(rule) + steps if steps else []

    def tunable_steps(self, rule: DumpRule) -> list[RuleStep]:
        """The steps at the front of a rule that stand for tunables, in a stock cluster."""
        return steps_for(self.crush, rule) if self.is_stock else []

    def sets_leaves(self, rule: DumpRule) -> bool:
        """Whether a rule sets how leaves are sought, or tunables do."""
        own = {step[0] for step in self.tunable_steps(rule)} | {step["op"] for step in rule["steps"]}
        return not own.isdisjoint(LEAF_WORDS)

    # Buckets and what they hold

    @cached_property
    def limits(self) -> Limits:
        """The limits of its maps: those of stock clusters where a map has a straw2 bucket or sets how leaves are
        sought, by which alone the program is told to read it so.
        """
        has_straw2 = any(self.buckets[number]["alg"] == "straw2" for number in self.kept)
        return limits_of(has_straw2 or any(map(self.sets_leaves, self.rules)))

    def most_items(self, bucket: DumpBucket) -> int:
        """How many items a bucket has at most in a map."""
        return self.limits.items if bucket["alg"] == "straw2" else ITEMS

    def weights(self, bucket: DumpBucket) -> list[int]:
        """The weights by which a bucket picks: its own, or those of a weight set in force, which straw2 buckets
        alone look at.
        """
        own = self.weight_sets.get(bucket["id"], []) if bucket["alg"] == "straw2" else []
        return own if len(own) == len(bucket["items"]) else [self.weight(item) for item in bucket["items"]]

    def held_by(self, bucket: DumpBucket) -> list[tuple[int, int]]:
        """The items of a bucket that a map holds, each with its weight. An item of weight 0 draws the least number
        in a straw2 bucket, so it is never picked where another weighs more; where all weigh 0 the first one always
        is, and it stays at the least weight.
        """
        items = list(zip((item["id"] for item in bucket["items"]), self.weights(bucket)))
        if bucket["alg"] != "straw2":
            return items
        return [entry for entry in items if entry[1]] or [(item, 1) for item, _ in items[:1]]

    def holds(self, number: int) -> list[int]:
        """The items of a bucket that a map holds; none of a device."""
        return [item for item, _ in self.held.get(number, [])]

    def listed_in(self, number: int) -> list[int]:
        """All items of a bucket; none of a device."""
        return [item["id"] for item in self.buckets.get(number, {"items": []})["items"]]

    @staticmethod
    def reached(root: int, items_of: Callable[[int], list[int]]) -> set[int]:
        """An item with all that stands below it, where a function tells the items of each; below a device stands
        nothing.
        """
        found, left = {root}, [root] if root < 0 else []
        while left:
            items = items_of(left.pop())
            left += {item for item in items if item < 0} - found
            found.update(items)
        return found

    def below(self, root: int) -> set[int]:
        """An item with all below it that a map holds."""
        return self.reached(root, self.holds)

    def below_rule(self, rule: DumpRule) -> set[int]:
        """What a rule takes, with all below it that a map holds."""
        return {number for root in self.takes(rule) for number in self.below(root)}

    @cached_property
    def has_weight_set(self) -> bool:
        """Whether a weight set is in force that has other weights than the buckets themselves."""
        return any(
            self.weights(self.buckets[number]) != list(map(self.weight, self.buckets[number]["items"]))
            for number in self.kept
        )

    @staticmethod
    def weight(item: DumpItem) -> int:
        """The weight of an item; from 2^31 on it is printed as a negative number."""
        return item["weight"] + 2**32 if item["weight"] < 0 else item["weight"]

    def bucket_name(self, number: int) -> str:
        """The name of a bucket or a device."""
        return (
            f"osd.{number}" if number >= 0 else self.buckets[number]["name"] if number in self.buckets else str(number)
        )

    def type_name(self, number: int) -> str:
        """The name of a type of buckets."""
        return next((name for name, own in self.types.items() if own == number), str(number))

    def names(self) -> Names:
        """The names of all that a map has by number alone."""
        return {
            "buckets": {str(number): self.buckets[number]["name"] for number in self.kept},
            "classes": {str(device["id"]): device["class"] for device in self.crush["devices"] if "class" in device},
            "osds": {str(device["id"]): device["name"] for device in self.crush["devices"]},
            "pools": {str(pool["pool"]): pool["pool_name"] for pool in self.pools},
            "rules": {str(rule["rule_id"]): rule["rule_name"] for rule in self.rules},
            "types": {str(number): name for name, number in self.types.items()},
        }

    def all_names(self) -> Names:
        """The same with the names of buckets that no map has."""
        return dict(self.names(), buckets={str(number): bucket["name"] for number, bucket in self.buckets.items()})

    def shown(self) -> list[Bucket]:
        """The buckets of the cluster's tree in the map's form: from its roots, without shadow buckets, each item
        where it first stands and with its own weight, and no bucket below one of its own type or a lower one, as a
        dump may have it where no rule comes.
        """
        types = {
            number: own["type_id"]
            for number, own in self.buckets.items()
            if "~" not in own["name"] and 0 < own["type_id"] < 16
        }
        inside = {item for number in types for item in self.listed_in(number)}
        found: list[Bucket] = []
        seen: set[int] = set()
        left = sorted(types.keys() - inside)
        while left:
            number = left.pop()
            items: list[list[int]] = []
            for entry in self.buckets[number]["items"]:
                if (entry["id"] >= 0 or types.get(entry["id"], 16) < types[number]) and entry["id"] not in seen:
                    seen.add(entry["id"])
                    items.append([entry["id"], self.weight(entry)])
            left += [item for item, _ in reversed(items) if item < 0]
            found.append({"id": number, "items": items, "kind": self.buckets[number]["alg"], "type": types[number]})
        return found

    # Exceptions: those that can do nothing are left out

    def kept_exceptions(self) -> Exceptions:
        """All exceptions of groups that are there, as Ceph has them, in the map's form: also those that do nothing."""
        return exceptions_where(exceptions_in(self.osd_dump), self.is_group)

    def is_group(self, group: str) -> bool:
        """Whether a group is one of a pool's."""
        found = GROUP_PATTERN.fullmatch(group)
        return found is not None and int(found[2], 16) < self.sizes.get(int(found[1]), 0)

    @cached_property
    def exceptions(self) -> tuple[list[Entry], list[Entry]]:
        """The explicit sets and the pairs that may act."""
        return acting(self.kept_exceptions(), self.osds.__contains__)

    # Some pools alone

    def of_pools(self, chosen: set[int]) -> Cluster:
        """The cluster with some of its pools alone, their exceptions, and the primaries named for their groups."""
        others = {str(pool) for pool in self.sizes.keys() - chosen}
        parts = {
            key: [entry for entry in entries_of(self.osd_dump, key) if entry["pgid"].split(".")[0] not in others]
            for key in (*EXCEPTIONS, "pg_upmap_primaries")
            if key in self.osd_dump
        }
        pools = [pool for pool in self.pools if pool["pool"] in chosen]
        return Cluster(altered(self.osd_dump, **parts, pools=pools), self.crush, self.torn, self.gone)
