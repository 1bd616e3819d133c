"""The form of a map and of a change: which places of a text are at fault, each with its number.

A number from 11 to 16 belongs to a place as docs/FORMATS.md has it. What only the whole map tells (17, and what a
change is tested for against a map) is in `defects`.
"""

from __future__ import annotations

import re
from dataclasses import dataclass
from typing import Any, Callable, Iterator, Literal

from ..values import SLOTS

REFUSALS = {
    10: "BadJson",
    11: "BadField",
    12: "BadLimit",
    13: "BadForest",
    14: "BadRule",
    15: "BadPool",
    16: "BadOsd",
    17: "BadException",
    20: "StaleEpoch",
    21: "UnknownOsd",
    22: "BadWeight",
    23: "UnknownPool",
    24: "PoolExists",
    25: "UnknownGroup",
    26: "BadException",
    27: "DuplicatePart",
}
STEP_LENGTHS = {
    "take": 1,
    "emit": 0,
    "choose_firstn": 2,
    "choose_indep": 2,
    "chooseleaf_firstn": 2,
    "chooseleaf_indep": 2,
}
TRIES = {"set_choose_tries": 1, "set_chooseleaf_tries": 1}
# The steps that set from which number on a leaf is sought, which stand in maps under `--stock` alone.
LEAF_WORDS = {"set_chooseleaf_vary_r": 1, "set_chooseleaf_stable": 1}
SETTING = {**TRIES, **LEAF_WORDS}
# The weight of 1, of an item or an OSD: the whole reweight; and the lowest id of a bucket.
FULL_WEIGHT, LOWEST_BUCKET = 65536, -65536
# The ranges of the numbers of a step; of one that chooses, those of its count and its type.
RANGES: dict[str, list[tuple[int, int]]] = {
    "take": [(LOWEST_BUCKET, -1)],
    "emit": [],
    **{op: [(1, 200)] for op in TRIES},
    "set_chooseleaf_vary_r": [(0, 4)],
    "set_chooseleaf_stable": [(0, 1)],
}
# A group's text; what has more digits names no pool, and Python reads not any number of them.
GROUP_PATTERN = re.compile(r"(0|[1-9][0-9]{0,19})\.(0|[1-9a-f][0-9a-f]*)")
LONG_PATTERN = re.compile(r"[1-9][0-9]{20,}\.(0|[1-9a-f][0-9a-f]*)")
POOL_KINDS = ("replicated", "erasure")


@dataclass(frozen=True, **SLOTS)
class Limits:
    """What a map may have at most that has other limits under `--stock`: groups of a pool and of all pools, entries of
    a list, items of a straw2 bucket, buckets, pools, rules, OSDs, and places of a pool.
    """

    groups: int
    total: int
    entries: int
    items: int
    buckets: int
    pools: int
    rules: int
    osds: int
    size: int


# A plain map has no straw2 bucket, and its 32 pools never reach the total.
PLAIN = Limits(
    groups=4096, total=1048576, entries=131072, items=64, buckets=512, pools=32, rules=32, osds=1024, size=10
)
STOCK = Limits(
    groups=65536, total=1048576, entries=1048576, items=4096, buckets=4096, pools=256, rules=256, osds=4096, size=20
)
# The items of a bucket of another kind.
ITEMS = 64


@dataclass(frozen=True, **SLOTS)
class Defect:
    """A place that is at fault: the number of the refusal, the path to the place, and why."""

    number: int
    path: str
    why: str

    def __str__(self) -> str:
        """The place in words, as `check` tells it."""
        return f"{self.path}: {self.why} ({self.number} {REFUSALS[self.number]})"


Defects = Iterator[Defect]
Form = Callable[[object, str], Defects]


def number_between(low: int, high: int) -> Form:
    """A whole number from low to high."""

    def form(value: object, path: str) -> Defects:
        """What is wrong with a value as such a number."""
        if isinstance(value, bool) or not isinstance(value, int) or not -(2**63) <= value < 2**64:
            yield Defect(11, path, "no whole number of 64 bits")
        elif not low <= value <= high:
            yield Defect(
                12, path, f"{value:,}, at {'least' if value < low else 'most'} {low if value < low else high:,}"
            )

    return form


def flag(value: object, path: str) -> Defects:
    """true or false."""
    if not isinstance(value, bool):
        yield Defect(11, path, "neither true nor false")


def one_of(*words: str) -> Form:
    """One of some words."""

    def form(value: object, path: str) -> Defects:
        """What is wrong with a value as such a word."""
        if value not in words:
            yield Defect(11, path, f"none of {', '.join(words)}")

    return form


def group(value: object, path: str) -> Defects:
    """A group's text."""
    text = value if isinstance(value, str) else ""
    match = GROUP_PATTERN.fullmatch(text)
    if match is None and not LONG_PATTERN.fullmatch(text):
        yield Defect(11, path, "no group; one is written as 1.1f")
    elif match is None or not 1 <= int(match[1]) <= 65535 or int(match[2], 16) >= 2**32:
        yield Defect(12, path, "the pool's id is outside 1 to 65,535, or the number has more than 32 bits")


def list_of(form: Form, least: int, most: int) -> Form:
    """A list of so many entries of a form."""

    def whole(value: object, path: str) -> Defects:
        """What is wrong with a value as such a list, and with its entries."""
        if not isinstance(value, list):
            yield Defect(11, path, "no list")
            return
        if not least <= len(value) <= most:
            yield Defect(
                12,
                path,
                f"{len(value):,} entries, at {'least' if len(value) < least else 'most'} "
                f"{least if len(value) < least else most:,}",
            )
        for at, entry in enumerate(value):
            yield from form(entry, f"{path}[{at}]")

    return whole


def tuple_of(*forms: Form) -> Form:
    """A list with an entry of each form."""

    def whole(value: object, path: str) -> Defects:
        """What is wrong with a value as such a list, and with its entries."""
        if not isinstance(value, list) or len(value) != len(forms):
            yield Defect(11, path, f"no list of {len(forms)}")
            return
        for at, (form, entry) in enumerate(zip(forms, value)):
            yield from form(entry, f"{path}[{at}]")

    return whole


def object_of(required: dict[str, Form], optional: dict[str, Form] | None = None) -> Form:
    """An object with these keys."""
    forms = {**required, **(optional or {})}

    def whole(value: object, path: str) -> Defects:
        """What is wrong with a value as such an object, and with what stands at its keys."""
        dot = f"{path}." if path else ""
        if not isinstance(value, dict):
            yield Defect(11, path or "the text", "no object")
            return
        for key in (key for key in required if key not in value):
            yield Defect(11, f"{dot}{key}", "missing")
        for key in (key for key in value if key not in forms):
            yield Defect(11, f"{dot}{key}", "an unknown key")
        for key in (key for key in forms if key in value):
            yield from forms[key](value[key], f"{dot}{key}")

    return whole


def rule_step(has_tries: bool, is_stock: bool) -> Form:
    """A step of a rule, which chooses at most as many items as a pool has places."""
    setting, size = SETTING if is_stock else TRIES, limits_of(is_stock).size
    words = {**STEP_LENGTHS, **(setting if has_tries else {})}

    def form(value: object, path: str) -> Defects:
        """What is wrong with a value as such a step."""
        if (
            not isinstance(value, list)
            or not value
            or not isinstance(value[0], str)
            or value[0] not in words
            or len(value) != 1 + words[value[0]]
        ):
            tries = (
                "; steps of tries stand in maps of version 2"
                if isinstance(value, list) and value[:1] in [[op] for op in setting]
                else ""
            )
            yield Defect(11, path, f"no step{tries}")
            return
        for at, ((low, high), entry) in enumerate(zip(RANGES.get(value[0], [(0, size), (0, 15)]), value[1:]), 1):
            yield from number_between(low, high)(entry, f"{path}[{at}]")

    return form


def limits_of(is_stock: bool) -> Limits:
    """The limits under `--stock`, or without it."""
    return STOCK if is_stock else PLAIN


def bucket(is_stock: bool) -> Form:
    """A bucket; of kind straw2 under `--stock` alone, where it may have more items."""
    kinds, limits = ("uniform", "list", "tree") + (("straw2",) if is_stock else ()), limits_of(is_stock)
    item = number_between(LOWEST_BUCKET, limits.osds - 1)
    plain, straw2 = (
        object_of(
            {
                "id": number_between(LOWEST_BUCKET, -1),
                "type": number_between(1, 15),
                "kind": one_of(*kinds),
                "items": list_of(tuple_of(item, number_between(1, 2**32 - 1)), 1, most),
            }
        )
        for most in (ITEMS, limits.items)
    )

    def form(value: object, path: str) -> Defects:
        """What is wrong with a value as such a bucket."""
        is_wide = isinstance(value, dict) and value.get("kind") == "straw2"
        yield from (straw2 if is_wide else plain)(value, path)

    return form


def buckets(is_stock: bool) -> Form:
    """The buckets of a map."""
    return list_of(bucket(is_stock), 1, limits_of(is_stock).buckets)


def pool_id(_: Limits) -> Form:
    """The id of a pool."""
    return number_between(1, 65535)


def pool(limits: Limits) -> Form:
    """A pool."""
    return object_of(
        {
            "id": pool_id(limits),
            "kind": one_of(*POOL_KINDS),
            "pg_num": number_between(1, limits.groups),
            "pgp_num": number_between(1, limits.groups),
            "rule": number_between(0, 255),
            "size": number_between(1, limits.size),
        }
    )


def pools(limits: Limits) -> Form:
    """The pools of a map, with the groups of all of them."""
    single = list_of(pool(limits), 0, limits.pools)

    def form(value: object, path: str) -> Defects:
        """What is wrong with a value as such pools; their groups are added up where nothing else is."""
        found = list(single(value, path))
        yield from found
        total = sum(own["pg_num"] for own in value) if isinstance(value, list) and not found else 0
        if total > limits.total:
            yield Defect(12, path, f"{total:,} groups in all pools, at most {limits.total:,}")

    return form


def osd_id(limits: Limits) -> Form:
    """The number of an OSD."""
    return number_between(0, limits.osds - 1)


def osd(limits: Limits) -> Form:
    """An OSD."""
    return object_of({"id": osd_id(limits), "exists": flag, "up": flag, "weight": number_between(0, FULL_WEIGHT)})


def explicit_sets(limits: Limits) -> Form:
    """Explicit sets."""
    return list_of(tuple_of(group, list_of(osd_id(limits), 0, limits.size)), 0, limits.entries)


def pairs(limits: Limits) -> Form:
    """The pairs of groups."""
    pair = tuple_of(osd_id(limits), osd_id(limits))
    return list_of(tuple_of(group, list_of(pair, 0, limits.size)), 0, limits.entries)


def rule(has_tries: bool, is_stock: bool) -> Form:
    """A rule."""
    steps = list_of(rule_step(has_tries, is_stock), 1, 16)
    return object_of({"id": number_between(0, 255), "kind": one_of(*POOL_KINDS), "steps": steps})


def rules(has_tries: bool, is_stock: bool) -> Form:
    """The rules of a map."""
    return list_of(rule(has_tries, is_stock), 1, limits_of(is_stock).rules)


def map_form(has_tries: bool, is_stock: bool) -> Form:
    """A map."""
    limits = limits_of(is_stock)
    return object_of(
        {
            "version": number_between(1, 2),
            "epoch": number_between(1, 2**31),
            "max_osd": number_between(1, limits.osds),
            "buckets": buckets(is_stock),
            "rules": rules(has_tries, is_stock),
            "pools": pools(limits),
            "osds": list_of(osd(limits), 0, 2**63),
        },
        {key: kind.form(limits) for key, kind in EXCEPTIONS.items()},
    )


def crush(limits: Limits) -> Form:
    """The forest and the rules that a change brings."""
    is_stock = limits == STOCK
    return object_of({"buckets": buckets(is_stock), "rules": rules(True, is_stock)})


def growth(limits: Limits) -> Form:
    """A pool and its numbers of groups."""
    return tuple_of(pool_id(limits), number_between(1, limits.groups), number_between(1, limits.groups))


def reweight(limits: Limits) -> Form:
    """An OSD and its reweight."""
    return tuple_of(osd_id(limits), number_between(0, 2**32 - 1))


def entries(entry: Callable[[Limits], Form]) -> Callable[[Limits], Form]:
    """A list of a change, by the form of an entry."""
    return lambda limits: list_of(entry(limits), 0, limits.entries)


# The keys of what a change brings as a whole, those in which maps may differ and that no change alters, and the numbers
# of a pool that a change lets grow, in the order of an entry of `grow_pool`.
CRUSH_KEYS: tuple[Literal["buckets", "rules"], ...] = ("buckets", "rules")
FIXED: tuple[Literal["max_osd"], ...] = ("max_osd",)
GROWING: tuple[Literal["pg_num", "pgp_num"], ...] = ("pg_num", "pgp_num")
ExceptionKey = Literal["pg_upmap", "pg_upmap_items"]


@dataclass(frozen=True, **SLOTS)
class ExceptionKind:
    """A kind of exceptions of groups: the form of a map's list of them, the parts of a change by which they go and
    come, the word that Ceph's commands have for it, and whether each of them is a set of OSDs, else pairs.
    """

    form: Callable[[Limits], Form]
    old: str
    new: str
    word: str
    is_set: bool


# The exceptions of a map by their keys: explicit sets, and pairs. Modules go by these for their parts and words.
EXCEPTIONS: dict[ExceptionKey, ExceptionKind] = {
    "pg_upmap": ExceptionKind(explicit_sets, "old_upmap", "new_upmap", "pg-upmap", True),
    "pg_upmap_items": ExceptionKind(pairs, "old_items", "new_items", "pg-upmap-items", False),
}
# The parts of a change that bring sets of OSDs.
NEW_SETS = frozenset(kind.new for kind in EXCEPTIONS.values() if kind.is_set)
# What the entries of a part of a change name: pools, OSDs, groups; or it is no list.
POOLS, OSDS, GROUPS, CRUSH = "pools", "osds", "groups", "crush"


@dataclass(frozen=True, **SLOTS)
class ChangePart:
    """A part of a change: what its entries name, its form, and the part in which none of its keys may stand too."""

    names: str
    form: Callable[[Limits], Form]
    beside: str | None = None


# The parts of a change by their keys, in the order of docs/FORMATS.md. Nowhere else in the tools stand all of them.
PARTS = {
    "old_pools": ChangePart(POOLS, entries(pool_id), "new_pools"),
    "new_crush": ChangePart(CRUSH, crush),
    "new_pools": ChangePart(POOLS, entries(pool), "grow_pool"),
    "grow_pool": ChangePart(POOLS, entries(growth)),
    "down": ChangePart(OSDS, entries(osd_id), "up"),
    "up": ChangePart(OSDS, entries(osd_id)),
    "weight": ChangePart(OSDS, entries(reweight)),
    "old_upmap": ChangePart(GROUPS, entries(lambda _: group), "new_upmap"),
    "old_items": ChangePart(GROUPS, entries(lambda _: group), "new_items"),
    "new_upmap": ChangePart(GROUPS, explicit_sets),
    "new_items": ChangePart(GROUPS, pairs),
}
CHANGE_KEYS = frozenset(["base", *PARTS])


def parts_of(*names: str) -> list[str]:
    """The parts of a change whose entries name any of these."""
    return [key for key, part in PARTS.items() if part.names in names]


def key_of(entry: Any) -> Any:
    """What an entry of a part names: itself, or its `id`, or what stands first in it."""
    return entry["id"] if isinstance(entry, dict) else entry[0] if isinstance(entry, list) else entry


def change_form(is_stock: bool) -> Form:
    """A change."""
    limits = limits_of(is_stock)
    return object_of({"base": number_between(0, 2**64 - 1)}, {key: part.form(limits) for key, part in PARTS.items()})
