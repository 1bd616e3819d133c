"""The types of what the tools pass on: maps and changes of the program, what Ceph's tools dump, names, and what is
told.

What has keys that are not fixed, or lists of several kinds as JSON has them, stands here under a name of its own.
"""

from __future__ import annotations

import math
import re
from collections.abc import Sequence
from itertools import chain
from typing import Any, Dict, NamedTuple, cast

from ..files import JsonObject
from ..program.map_forms import GROUP_PATTERN, STOCK

# The form of a dump: what stands at each key.
DumpForm = Dict[str, Any]
# What every number of a dump is below, whatever its sign: Ceph's own have 64 bits.
WIDEST = 2**64


class UpTo(NamedTuple):
    """The form of a number from 0 to another."""

    most: int

    def fault(self, value: object) -> str:
        """What is wrong with a value, or nothing."""
        is_part = is_kind(value, float) and 0 <= cast(float, value) <= self.most
        return "" if is_part else f"no number from 0 to {self.most}"


class Count(NamedTuple):
    """The form of a whole number from one to another."""

    least: int
    most: int

    def fault(self, value: object) -> str:
        """What is wrong with a value, or nothing."""
        is_count = is_kind(value, int) and self.least <= cast(int, value) <= self.most
        return "" if is_count else f"no whole number from {self.least} to {self.most:,}"


class Written(NamedTuple):
    """The form of a text, and what is told of another one."""

    pattern: re.Pattern[str]
    told: str

    def fault(self, value: object) -> str:
        """What is wrong with a value, or nothing."""
        return "" if isinstance(value, str) and self.pattern.fullmatch(value) else self.told


GROUP = Written(GROUP_PATTERN, "no group; one is written as 1.1f")
# A key that may be missing begins with a question mark; a list of one shape stands for any number of such entries.
GROUP_KEYS = {"pgid": GROUP}
OSD_DUMP = {
    "epoch": int,
    "max_osd": int,
    "pools": [
        {
            "pool": int,
            "pool_name": str,
            "type": int,
            "size": int,
            "crush_rule": int,
            "pg_num": int,
            "pg_placement_num": int,
            "?flags": int,
            "?object_hash": int,
            "?min_size": int,
            "?erasure_code_profile": str,
            "?pg_num_pending": Count(1, STOCK.groups),
            "?pg_num_target": Count(1, STOCK.groups),
            "?pg_placement_num_target": Count(1, STOCK.groups),
        }
    ],
    "osds": [{"osd": int, "up": int, "weight": float, "?state": [str], "?primary_affinity": UpTo(1)}],
    "?fsid": str,
    "?crush_version": int,
    "?pg_upmap": [dict(GROUP_KEYS, osds=[int])],
    "?pg_upmap_items": [dict(GROUP_KEYS, mappings=[{"from": int, "to": int}])],
    "?nearfull_ratio": float,
    "?erasure_code_profiles": {},
    "?osd_xinfo": [object],
    "?pg_temp": [object],
    "?primary_temp": [object],
    "?pg_upmap_primaries": [dict(GROUP_KEYS, primary_osd=int)],
    "?require_min_compat_client": object,
    "?require_osd_release": object,
}
CRUSH_DUMP = {
    "devices": [{"id": int, "name": str, "?class": str}],
    "types": [{"type_id": int, "name": str}],
    "buckets": [
        {"id": int, "name": str, "type_id": int, "alg": str, "?hash": str, "items": [{"id": int, "weight": int}]}
    ],
    "rules": [
        {
            "rule_id": int,
            "rule_name": str,
            "type": int,
            "steps": [{"op": str, "?item": int, "?item_name": str, "?num": int, "?type": str}],
        }
    ],
    "tunables": {
        "?choose_local_tries": int,
        "?choose_local_fallback_tries": int,
        "?choose_total_tries": int,
        "?chooseleaf_descend_once": int,
        "?chooseleaf_vary_r": int,
        "?chooseleaf_stable": int,
    },
    "?choose_args": {},
}
# What a weight set has for a bucket.
WEIGHT_SET = {"bucket_id": int, "?weight_set": [[float]], "?ids": [int]}
# What `ceph osd tree -f json` tells of OSDs, those that do not exist among them.
TREE = {"nodes": [{"id": int, "?exists": int, "?reweight": float}]}
# What `ceph df --format json` tells of all OSDs, and of the data of pools: bytes on all OSDs, and those that are
# stored.
DF = {
    "?stats": {"?total_bytes": int, "?num_osds": int, "?num_per_pool_osds": int},
    "pools": [{"id": int, "?name": str, "stats": {"bytes_used": int, "stored": int}}],
}
# What `ceph pg dump -f json` tells of each group: the bytes of its objects, and those of their keys.
PG_STATS = [{"pgid": GROUP, "stat_sum": {"num_bytes": int, "?num_omap_bytes": int}}]
# What `ceph osd df -f json` tells of OSDs; with `tree` also buckets stand there, with negative ids.
OSD_DF = {"nodes": [{"id": int, "kb": int, "kb_used": int, "kb_avail": int}]}
# What is said of the report of a cluster in place of a dump.
REPORT = "what `ceph report` prints, with the OSD dump at .osdmap and the CRUSH dump at .crushmap"
# What a step must have beside its word.
STEP_KEYS = {
    "take": ("item",),
    "choose_firstn": ("num", "type"),
    "choose_indep": ("num", "type"),
    "chooseleaf_firstn": ("num", "type"),
    "chooseleaf_indep": ("num", "type"),
    "set_choose_tries": ("num",),
    "set_chooseleaf_tries": ("num",),
    "set_chooseleaf_vary_r": ("num",),
    "set_chooseleaf_stable": ("num",),
}
# The steps of a rule that a monitor dumps by their numbers alone (Ceph, crush.h `crush_opcodes`).
OPCODES = {
    10: "set_choose_local_tries",
    11: "set_choose_local_fallback_tries",
    12: "set_chooseleaf_vary_r",
    13: "set_chooseleaf_stable",
}
TYPE_WORDS = {int: "whole number", float: "number", str: "text"}


def is_kind(value: object, kind: type) -> bool:
    """Whether a value is of a kind; a truth value is no number, nor is what JSON has no number for, and none has more
    than 64 bits.
    """
    if kind is object:
        return True
    if kind in (int, float):
        return is_number(value, kind) and abs(cast(float, value)) < WIDEST
    return isinstance(value, kind) and not isinstance(value, bool)


def is_number(value: object, kind: type) -> bool:
    """Whether a value is a whole number, or a number of any kind, however great it is."""
    if isinstance(value, float):
        return kind is float and math.isfinite(value)
    return isinstance(value, int) and not isinstance(value, bool)


def kind_fault(value: object, kind: type) -> str:
    """What is wrong with a value that is not of a kind."""
    is_wide = kind in (int, float) and is_number(value, kind)
    return "a number of more than 64 bits" if is_wide else f"no {TYPE_WORDS[kind]}"


def all_fit(values: Sequence[Any], shape: object) -> bool:
    """Whether values surely have a form: nearly all of long lists do, which is seen key by key of all at once. Steps of
    rules are looked at one by one.
    """
    if shape is object:
        return True
    kinds: set[type] = set(map(type, values))
    if isinstance(shape, list):
        return kinds <= {list} and all_fit([*chain.from_iterable(values)], shape[0])
    if isinstance(shape, dict):
        return kinds <= {dict} and "op" not in shape and all(all_at(values, key, own) for key, own in shape.items())
    if isinstance(shape, (UpTo, Count, Written)):
        return not any(map(shape.fault, set(values) if kinds <= {int, float, str} else values))
    if shape is str:
        return kinds <= {str}
    numbers: set[type] = {int} if shape is int else {int, float}
    return kinds <= numbers and all(-WIDEST < own < WIDEST for own in set(values))


def all_at(values: Sequence[dict[str, Any]], key: str, shape: object) -> bool:
    """Whether what stands in objects at a key surely has a form, and stands in each unless it may be missing."""
    name = key.removeprefix("?")
    own = [value[name] for value in values if name in value]
    return (name != key or len(own) == len(values)) and all_fit(own, shape)


def misfits(value: object, shape: object, place: str) -> list[str]:
    """Each place below one at which a value has another form than it must have, and what is wanted there."""
    if isinstance(shape, list):
        if not isinstance(value, list):
            return [f"{place}: no list"]
        if all_fit(value, shape[0]):
            return []
        return [found for at, own in enumerate(value) for found in misfits(own, shape[0], f"{place}[{at}]")]
    if isinstance(shape, dict):
        if not isinstance(value, dict):
            return [f"{place}: no object"]
        found = []
        for key, own in shape.items():
            name = key.removeprefix("?")
            below = f"{place}.{name}" if place else name
            if name in value:
                found += misfits(value[name], own, below)
            elif name == key:
                found.append(f"{below}: missing")
        if "op" in shape and not found:
            found += [f"{place}.{name}: missing" for name in STEP_KEYS.get(value["op"], ()) if name not in value]
        return found
    if isinstance(shape, (UpTo, Count, Written)):
        told = shape.fault(value)
        return [f"{place}: {told}"] if told else []
    kind = cast(type, shape)
    return [] if is_kind(value, kind) else [f"{place}: {kind_fault(value, kind)}"]


def fitting(value: object, shape: DumpForm) -> tuple[JsonObject, frozenset[str]]:
    """What of a dump is of its form: the entries of its lists that are, blanks for what is not; and the keys of
    which something is gone.
    """
    value, kept, torn = value if isinstance(value, dict) else {}, {}, set()
    for key, own in shape.items():
        name = key.removeprefix("?")
        if name in value and not misfits(value[name], own, ""):
            kept[name] = value[name]
        elif name in value or name == key:
            torn.add(name)
            kept[name] = fitting_parts(value.get(name), own)
    return kept, frozenset(torn)


def fitting_parts(value: object, shape: object) -> object:
    """The entries of a list or an object that are of their form; 1 in place of a number."""
    if isinstance(shape, list):
        entries = value if isinstance(value, list) else []
        is_whole = all_fit(entries, shape[0])
        return [entry for entry in entries if is_whole or not misfits(entry, shape[0], "")]
    if isinstance(shape, dict):
        return fitting(value, shape)[0]
    return 1


def with_words(step: object) -> object:
    """A step of a rule by its word and its number, where a monitor dumps it by the number of its word."""
    if not isinstance(step, dict) or "op" in step or not is_kind(step.get("opcode"), int):
        return step
    word = OPCODES.get(step["opcode"], f"of number {step['opcode']}")
    return dict(step, op=word, **({"num": step["arg1"]} if word in STEP_KEYS and "arg1" in step else {}))


def with_steps_by_word(crush_dump: JsonObject) -> JsonObject:
    """A CRUSH dump whose rules have all steps by their words."""
    rules = crush_dump.get("rules")
    if not isinstance(rules, list):
        return crush_dump
    return dict(
        crush_dump,
        rules=[
            dict(rule, steps=list(map(with_words, rule["steps"])))
            if isinstance(rule, dict) and isinstance(rule.get("steps"), list)
            else rule
            for rule in rules
        ],
    )


def is_crush_dump(value: object) -> bool:
    """Whether a value is what `ceph osd crush dump` prints, and no map."""
    return isinstance(value, dict) and {"devices", "tunables"} <= value.keys()


def is_osd_dump(value: object) -> bool:
    """Whether a value is what `ceph osd dump -f json` prints, and no map: a map has buckets too."""
    return isinstance(value, dict) and {"max_osd", "osds", "pools"} <= value.keys() and "buckets" not in value


def is_map(value: object) -> bool:
    """Whether a value is a map, as `import` writes it, and no dump: no dump has both buckets and OSDs."""
    return isinstance(value, dict) and {"buckets", "osds", "pools", "rules"} <= value.keys()


def is_report(value: object) -> bool:
    """Whether a value is what `ceph report` prints, in which both dumps stand (Ceph, OSDMonitor.cc `dump_info`)."""
    return isinstance(value, dict) and {"osdmap", "crushmap"} <= value.keys()


def dump_name(value: object) -> str | None:
    """Which dump a value is, in words; None where it is none."""
    if is_report(value):
        return REPORT
    return "an OSD dump" if is_osd_dump(value) else "a CRUSH dump" if is_crush_dump(value) else None
