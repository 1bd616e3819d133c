"""Reasons by rules, tunables and weight sets."""

from __future__ import annotations

from ...files import JsonObject
from ...program.map_forms import RANGES, SETTING, STEP_LENGTHS, TRIES
from ...program.rule_grammar import rule_fault
from ...words import listed, some
from ..cluster import Cluster
from ..dump_forms import WEIGHT_SET, misfits
from ..dump_types import DumpRule, DumpStep
from ..entry_forms import KINDS_BY_TYPE
from ..map_parts import counted_steps
from ..tunables import SET_BY, TUNABLES, range_of
from .counts import doubles, range_reason, rules_reason
from .kinds import Against


def tunable_reasons(cluster: Cluster) -> list[Against]:
    """Tunables that no map has or that are not told, and sets of weights for single pools."""
    own, found = cluster.crush["tunables"], list[Against]()
    for name, wanted in TUNABLES.items():
        if name not in own and "tunables" not in cluster.torn:
            found.append(Against("no-tunable", f"no tunable {name}: is it a dump of an older release?"))
        elif own.get(name, wanted) != wanted:
            found += tunable_reason(cluster, name, own[name])
    return found + weight_set_reasons(cluster)


def tunable_reason(cluster: Cluster, name: str, number: int) -> list[Against]:
    """What is wrong with a tunable that is not jewel's: in a stock cluster nothing where steps of its rules set it."""
    if cluster.is_stock and name in SET_BY:
        return range_reason("tunable", f"tunable {name} is {number}", number, *range_of(name))
    return [Against("tunable", f"tunable {name} is {number}, not {TUNABLES[name]}")]


def weight_set_reasons(cluster: Cluster) -> list[Against]:
    """Weight sets that no map can take the place of: those for single pools, and a compat one that is by position,
    has ids of its own, or does not fit a bucket that pools use.
    """
    own = cluster.choose_args if cluster.is_stock else cluster.crush.get("choose_args")
    if not own:
        return []
    line = f"choose_args (weight sets of {len(own)})"
    if not cluster.is_stock:
        return [Against("weight-set", line)]
    if list(own) != ["-1"]:
        return [Against("weight-sets-of-pools", f"{line}: of pools {some(pools_with_sets(cluster))}")]
    entries = own["-1"] if isinstance(own["-1"], list) else [None]
    if any(misfits(entry, WEIGHT_SET, "") for entry in entries):
        return [Against("weight-set", "choose_args: the compat weight set is of another form")]
    return [own for entry in entries if is_in_force(cluster, entry) for own in compat_reasons(cluster, entry)]


def pools_with_sets(cluster: Cluster) -> list[str]:
    """The pools that have weight sets of their own, by their names."""
    names = {str(pool["pool"]): pool["pool_name"] for pool in cluster.pools}
    return [names.get(key, key) for key in cluster.choose_args if key != "-1"]


def is_in_force(cluster: Cluster, entry: JsonObject) -> bool:
    """Whether what a compat weight set has for a bucket is looked at: of straw2 buckets that pools use."""
    return entry["bucket_id"] in cluster.kept and cluster.buckets[entry["bucket_id"]]["alg"] == "straw2"


def compat_reasons(cluster: Cluster, entry: JsonObject) -> list[Against]:
    """What is wrong with what a compat weight set has for a bucket."""
    name, rows, found = cluster.bucket_name(entry["bucket_id"]), entry.get("weight_set", []), list[str]()
    if entry.get("ids"):
        found.append(f"gives the items of {name} other ids")
    if len(rows) > 1:
        found.append(f"of {name} is by position")
    elif rows and len(rows[0]) != len(cluster.listed_in(entry["bucket_id"])):
        found.append(f"of {name} does not fit its items")
    return [Against("weight-set", f"choose_args: the compat weight set {words}") for words in found]


def step_reasons(cluster: Cluster, rule: DumpRule) -> list[Against]:
    """Steps of a rule that no map has: unknown words, items and types, and counts outside their ranges."""
    found, name, words = list[Against](), f"rule {rule['rule_name']}", words_of(cluster)
    for step in rule["steps"]:
        number = step.get("num", 0)
        if step["op"] not in words:
            found.append(Against("rule-step", f"{name} has a step {step['op']}, which is not in the grammar"))
        elif step["op"] == "take" and step["item"] not in cluster.buckets and "buckets" not in cluster.torn:
            code = "rule-take" if step["item"] < 0 else "rule-take-osd"
            found.append(Against(code, f"{name} takes {step.get('item_name', step['item'])}, which is no bucket"))
        elif "num" in step and number < 0:
            found += negative_reasons(cluster, rule, step)
        elif "num" in step:
            low, high = RANGES.get(step["op"], [(0, cluster.limits.size)])[0]
            what = f"{name} has the number {number} in a step {step['op']}"
            found += range_reason("rule-count", what, number, low, high)
        if "type" in step and step["op"] in words:
            found += type_reasons(cluster, name, step["type"])
    return found


def words_of(cluster: Cluster) -> set[str]:
    """The words of the steps that a map of a cluster may have."""
    return {*STEP_LENGTHS, *(SETTING if cluster.is_stock else TRIES)}


def negative_reasons(cluster: Cluster, rule: DumpRule, step: DumpStep) -> list[Against]:
    """A negative count in a step; in a stock cluster one that is no count, or for no pool."""
    is_stated = cluster.is_stock and step["op"].startswith("choose") and cluster.sizes_of(rule)
    line = f"rule {rule['rule_name']} has the negative count {step['num']} in a step {step['op']}"
    return [] if is_stated else [Against("rule-count", line)]


def size_reasons(cluster: Cluster) -> list[Against]:
    """Negative counts in rules whose pools have several sizes, each of which takes a map of its own."""
    rules = {rule["rule_id"]: rule for rule in cluster.rules}
    sizes = {number: [str(size) for size in cluster.sizes_of(rules[number])] for number in counted_steps(cluster)}
    return [
        Against(
            "rule-sizes",
            f"rule {rules[number]['rule_name']} has the negative count {steps[0]['num']} in a step {steps[0]['op']}, "
            f"and its pools have the sizes {listed(sizes[number])}",
        )
        for number, steps in counted_steps(cluster).items()
        if len(sizes[number]) > 1
    ]


def type_reasons(cluster: Cluster, name: str, kind: str) -> list[Against]:
    """The type that a rule chooses, where there is none or its number is outside those of a map."""
    if kind in cluster.types:
        number = cluster.types[kind]
        what = f"{name} chooses the type {kind}, whose number is {number}"
        return range_reason("bucket-type", what, number, 0, 15)
    return [] if "types" in cluster.torn else [Against("rule-type", f"{name} chooses the unknown type {kind}")]


def length_reason(cluster: Cluster, rule: DumpRule) -> list[Against]:
    """A rule without steps, or with more than a map holds, those that set tunables among them."""
    front = len(cluster.tunable_steps(rule)) if rule["steps"] else 0
    what = f"rule {rule['rule_name']} has {len(rule['steps']) + front} steps"
    what += " with those that set tunables" * bool(front)
    return range_reason("rule-length", what, len(rule["steps"]) + front, 1, 16)


def rule_reasons(cluster: Cluster) -> list[Against]:
    """Rules of another kind, or whose steps are none, each by its name."""
    found, words = list[Against](), words_of(cluster)
    for rule in cluster.rules:
        name, number = f"rule {rule['rule_name']}", rule["rule_id"]
        found += step_reasons(cluster, rule) + range_reason("rule-id", f"{name} has the id {number}", number, 0, 255)
        found += length_reason(cluster, rule)
        if rule["type"] not in KINDS_BY_TYPE:
            found.append(Against("rule-kind", f"{name} is of the unknown type {rule['type']}"))
        elif all(step["op"] in words and step.get("type", "osd") in cluster.types for step in rule["steps"]):
            steps = cluster.steps_of(rule)
            fault = (
                rule_fault(steps, KINDS_BY_TYPE[rule["type"]])
                if steps or not rule["steps"]
                else "all its counts come to nothing"
            )
            line = f"{name}: its steps are not in the grammar: {fault}"
            found += [Against("rule-grammar", line)] if fault else []
    twice = doubles(rule["rule_id"] for rule in cluster.rules)
    found += [Against("rule-twice", f"rule {number} is listed twice") for number in twice]
    return found + rules_reason(cluster)
