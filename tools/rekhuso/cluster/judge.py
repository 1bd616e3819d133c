"""How a Ceph monitor reads rules where it looks whether exceptions may stay (Ceph 16.2 and 18.2, CrushWrapper.cc
`verify_upmap` and `get_rule_weight_osd_map`).

It reads a rule otherwise than placement does: of a plain `choose` step it counts the buckets below which the whole
set stands, and lets them be as many as the number of that step alone.
"""

from __future__ import annotations

import math
from collections.abc import Mapping, Sequence
from dataclasses import dataclass

from ..program.maps import Map, Pool, RuleStep
from ..values import SLOTS
from .cluster import Cluster
from .names import Names, named, step_words

# The places of a set; None where one is empty.
Places = Sequence["int | None"]


# The codes of what is wrong with exceptions: by a step of the rule, by an OSD, by the group, by the exceptions; and of
# what keeps a group from being held or moved beside that.
CODES = (
    *("choose", "chooseleaf", "take", "no-rule", "out", "weightless", "gone", "no-group", "shrinks"),
    *("idle-set", "set-length", "idle-pairs", "not-chosen", "empty-place", "no-osd"),
)


@dataclass(frozen=True, **SLOTS)
class Reason:
    """Why exceptions of a group go: a code, by which step of the rule or which other part of the check, and what is
    wrong.
    """

    code: str
    step: str
    why: str

    def __str__(self) -> str:
        """Both in one line."""
        return f"{self.step}: {self.why}"


@dataclass(frozen=True, **SLOTS)
class CrushTree:
    """A CRUSH map as a monitor reads it: the items of each bucket with the weights that the bucket gives them, the
    type of each bucket, the steps of each rule, and names.
    """

    items: dict[int, list[tuple[int, int]]]
    types: dict[int, int]
    rules: dict[int, list[RuleStep]]
    names: Names


@dataclass(frozen=True, **SLOTS)
class Present:
    """What a monitor looks at beside the CRUSH map: the pools, the reweight of each OSD in units of 1/65,536, also of
    OSDs that do not exist any more, and max_osd.
    """

    pools: dict[int, Pool]
    reweights: dict[int, int]
    max_osd: int

    def is_out(self, osd: int | None) -> bool:
        """Whether an OSD has the reweight 0; an empty place and a number at or above max_osd have none."""
        return osd is not None and 0 <= osd < self.max_osd and self.reweights.get(osd, 0) == 0


class Judge:
    """How a monitor reads the rules of a CRUSH map. What it finds is kept, as many groups are asked for."""

    def __init__(self, tree: CrushTree, pending: Mapping[int, int]) -> None:
        """Takes the tree with the rules and, of pools that shrink, how many groups they are to have next."""
        self.tree, self.pending = tree, pending
        self._below: dict[int, frozenset[int]] = {}
        self._holders: dict[tuple[int, int], dict[int, int]] = {}
        self._weights: dict[int, dict[int, float]] = {}

    def below(self, item: int) -> frozenset[int]:
        """An item with all that stands below it."""
        if item not in self._below:
            found, left = {item}, [item]
            while left:
                inside = {own for own, _ in self.tree.items.get(left.pop(), [])} - found
                found |= inside
                left += inside
            self._below[item] = frozenset(found)
        return self._below[item]

    def of_type(self, item: int, kind: int) -> list[int]:
        """The highest buckets of a type at or below an item, in the order of the tree."""
        own = self.tree.types.get(item, 0)
        if item >= 0 or own <= kind:
            return [item] if item < 0 and own == kind else []
        return [found for inside, _ in self.tree.items[item] for found in self.of_type(inside, kind)]

    def takes(self, rule: int) -> list[int]:
        """What a rule takes, in its order."""
        return [step[1] for step in self.tree.rules[rule] if step[0] == "take"]

    def holders(self, rule: int, kind: int) -> dict[int, int]:
        """Below which bucket of a type each OSD stands; where it stands below several, the first by the number of
        what the rule takes.
        """
        if (rule, kind) not in self._holders:
            found: dict[int, int] = {}
            for root in sorted(set(self.takes(rule))):
                for bucket in self.of_type(root, kind):
                    for osd in self.below(bucket):
                        found.setdefault(osd, bucket)
            self._holders[rule, kind] = found
        return self._holders[rule, kind]

    def weights(self, rule: int) -> dict[int, float]:
        """The part of what a rule takes that each OSD weighs; no number where all of that weighs 0."""
        if rule not in self._weights:
            found: dict[int, float] = {}
            for root in self.takes(rule):
                own, total = ({root: 1.0}, 1.0) if root >= 0 else self.weights_below(root)
                for osd, weight in own.items():
                    found[osd] = found.get(osd, 0.0) + (weight / total if total else math.nan)
            self._weights[rule] = found
        return self._weights[rule]

    def weights_below(self, root: int) -> tuple[dict[int, float], float]:
        """The weight of each OSD below a bucket, and what these come to."""
        found: dict[int, float] = {}
        total, left = 0.0, [root]
        for bucket in left:
            for item, weight in self.tree.items.get(bucket, []):
                if item < 0:
                    left.append(item)
                else:
                    found[item] = float(weight)
                    total += weight
        return found, total

    # What breaks a rule

    def words(self, step: RuleStep) -> str:
        """A step of a rule in words."""
        return f"step {step_words(step, self.tree.names)}"

    def name(self, item: int) -> str:
        """A bucket or an OSD by its name."""
        return named(self.tree.names, "buckets", item) if item < 0 else f"osd.{item}"

    def step_fault(self, rule: int, step: RuleStep, count: int, places: Places) -> Reason | None:
        """What a step that chooses buckets of a type finds wrong with a set: by `chooseleaf`, two OSDs below one
        bucket; by `choose`, OSDs below more buckets than its own number, whatever steps stand before it.
        """
        holders = self.holders(rule, step[2])
        held = [holders[osd] for osd in {*places} if osd in holders]
        apart = len({*held})
        if apart == len(held) if step[0].startswith("chooseleaf") else apart <= count:
            return None
        inside: dict[int, set[int]] = {}
        for osd in places:
            if osd in holders:
                inside.setdefault(holders[osd], set()).add(osd)
        if step[0].startswith("chooseleaf"):
            crowded = next(bucket for bucket in sorted(inside) if len(inside[bucket]) > 1)
            osds = " and ".join(f"osd.{osd}" for osd in sorted(inside[crowded]))
            return Reason("chooseleaf", self.words(step), f"{osds} stand below {self.name(crowded)}")
        told = f"its set stands below {len(inside)} buckets of that type, {count} may be"
        return Reason("choose", self.words(step), told)

    def rule_fault(self, rule: int, size: int, places: Places) -> Reason | None:
        """How a set breaks a rule for pools of a size; None where it does not."""
        root, at = 0, 0
        counts: dict[int, int] = {}
        for step in self.tree.rules[rule]:
            if step[0] == "take":
                root = step[1]
            elif step[0].startswith("choose"):
                count = step[1] if step[1] > 0 else step[1] + size
                counts.setdefault(step[2], count)
                found = self.step_fault(rule, step, count, places) if step[2] else None
                if found is not None:
                    return found
            elif step[0] == "emit":
                end = min(len(places), at + max(0, math.prod(counts.values()))) if root < 0 else at
                for osd in places[at:end]:
                    if osd is None or osd not in self.below(root):
                        return self.outside(osd, root)
                root, at, counts = 0, end, {}
        return None

    def outside(self, osd: int | None, root: int) -> Reason:
        """That an OSD stands outside what a rule takes."""
        taken = f"step take {self.name(root)}"
        if osd is None:
            return Reason("take", taken, "an empty place counts as an OSD outside of it")
        return Reason("take", taken, f"osd.{osd} does not stand below it")

    def weight_fault(self, rule: int, places: Places, present: Present) -> Reason | None:
        """An OSD of a set that the rule's trees do not have, that weighs 0 there, or that is out; None where there is
        none.
        """
        weights = self.weights(rule)
        for osd in places:
            if osd is None or osd not in weights:
                return self.outside(osd, self.takes(rule)[0])
            if present.reweights.get(osd, 0) == 0:
                return Reason("out", "an OSD that is out", f"osd.{osd} is out")
            if weights[osd] == 0:
                return Reason("weightless", "an OSD that weighs 0", f"osd.{osd} weighs 0 in the CRUSH map")
        return None

    def fault(self, pool: Pool, places: Places, present: Present) -> Reason | None:
        """Why a monitor takes exceptions that give a group of a pool this set away; None where it lets them stay."""
        if pool["rule"] not in self.tree.rules:
            return Reason("no-rule", "a rule that is not there", f"pool {pool['id']} uses it")
        return self.rule_fault(pool["rule"], pool["size"], places) or self.weight_fault(pool["rule"], places, present)


def judge_of_map(value: Map, names: Names) -> Judge:
    """How a monitor reads the rules of a map."""
    items = {bucket["id"]: [(item, weight) for item, weight in bucket["items"]] for bucket in value["buckets"]}
    types = {bucket["id"]: bucket["type"] for bucket in value["buckets"]}
    return Judge(CrushTree(items, types, {rule["id"]: rule["steps"] for rule in value["rules"]}, names), {})


def judge_of_cluster(cluster: Cluster) -> Judge:
    """How a monitor reads the rules of a cluster, as its dumps have them, also where a map states them otherwise."""
    items = {
        number: [(item["id"], cluster.weight(item)) for item in bucket["items"]]
        for number, bucket in cluster.buckets.items()
    }
    rules: dict[int, list[RuleStep]] = {}
    for rule in cluster.rules:
        rules[rule["rule_id"]] = [
            [step["op"], step["num"], cluster.types[step["type"]]]
            if step["op"].startswith("choose")
            else [step["op"], step.get("item", step.get("num", 0))]
            for step in rule["steps"]
        ]
    types = {number: bucket["type_id"] for number, bucket in cluster.buckets.items()}
    pending = {pool["pool"]: pool["pg_num_pending"] for pool in cluster.pools if "pg_num_pending" in pool}
    return Judge(CrushTree(items, types, rules, cluster.all_names()), pending)


def present_of(value: Map) -> Present:
    """What a monitor looks at in a map."""
    reweights = {osd["id"]: osd["weight"] for osd in value["osds"]}
    return Present({pool["id"]: pool for pool in value["pools"]}, reweights, value["max_osd"])
