"""What `whatif` is asked: words of the command line, in their order, as the commands that they stand for."""

from __future__ import annotations

import argparse
import json
import math
import re
from collections.abc import Sequence
from dataclasses import dataclass
from itertools import groupby

from ..cluster.aftermath import Arrival, Command, CrushWeights, StateChange
from ..cluster.cluster import Cluster
from ..cluster.dump_types import DumpBucket
from ..cluster.effects import Host, weight_units
from ..cluster.names import Names, named, pools_named
from ..cluster.new_crush import NewCrush, PoolChange, crush_in
from ..cluster.shadows import SIGN
from ..faults import Fault, Misuse, Trouble
from ..files import text_of
from ..program.map_forms import FULL_WEIGHT
from ..program.maps import Change, Map, entries_of
from ..running import tell
from ..values import SLOTS

# The words that each make one command of all that they name, with the reweight that they give.
REWEIGHTS = {"out": 0, "in": FULL_WEIGHT}
# The words of which those that stand together are one command.
TOGETHER = ("out", "in", "down", "up")
IN_FORCE = "a compat weight set (choose_args) is in force, which Ceph places by in place of weights"
# What of a pool may be changed.
OF_POOLS = ("rule", "size", "pg_num", "pgp_num")
# The name of the type of a host in Ceph.
HOST = "host"


@dataclass(frozen=True, **SLOTS)
class Word:
    """A word of the command line that stands for a command: which, and what stands behind it."""

    kind: str
    values: tuple[str, ...]


class WordAction(argparse.Action):
    """Keeps words with the others in the order of the command line."""

    def __call__(
        self,
        parser: argparse.ArgumentParser,
        namespace: argparse.Namespace,
        values: str | Sequence[object] | None,
        option: str | None = None,
    ) -> None:
        """Adds a word, or two, behind what is there."""
        own = (values,) if isinstance(values, str) else tuple(map(str, values or ()))
        setattr(namespace, "asked", [*getattr(namespace, "asked", []), Word(self.dest, own)])


# Numbers


def number_in(word: str) -> float:
    """The number that a word is; where it is none, one that is below and above no other."""
    try:
        return float(word)
    except ValueError:
        return math.nan


def is_change_text(word: str) -> bool:
    """Whether a word of the command line is a change itself; another one is the path of a file."""
    return word.lstrip().startswith(("{", "change "))


def change_value(text: str) -> Change:
    """The change that a text is, `change ` before it or not. ValueError with what is wrong where it is none."""
    try:
        value = json.loads(text.strip().removeprefix("change "))
    except (ValueError, RecursionError) as fault:
        raise ValueError(f"no change: no JSON: {fault}") from None
    if not isinstance(value, dict):
        raise ValueError("no change: no JSON object")
    return value


def change_in(word: str) -> Change:
    """The change that a word on the command line is, as a text or as a file; else an error of use, or a fault of the
    file.
    """
    if not is_change_text(word):
        try:
            return change_value(text_of(word))
        except ValueError as fault:
            raise Trouble(f"{word}: {fault}") from None
    try:
        return change_value(word)
    except ValueError as fault:
        raise Misuse(f"argument CHANGE: {fault}") from None


def reweight_in(word: str) -> int:
    """The reweight that a word from 0 to 1 is, in units of 1/65,536; else an error of use."""
    weight = number_in(word)
    if not 0 <= weight <= 1:
        raise Misuse(f"argument --reweight: {word}: a reweight is a number from 0 to 1")
    return int(weight * FULL_WEIGHT)


def weights_in(word: str) -> list[int]:
    """The weights that a word as 1,1,2.5 lists, in units of 1/65,536; else an error of use."""
    weights = [number_in(part) for part in word.split(",")]
    if not all(1 / FULL_WEIGHT <= weight < 65536 for weight in weights):
        raise Misuse(f"argument --add-host: {word}: weights are written as 1,1,2.5, each above 0 and below 65,536")
    return list(map(weight_units, weights))


def crush_weight_in(text: str) -> tuple[str, int]:
    """What a word as osd.5=1.8 names, and the weight behind it in units of 1/65,536; else an error of use."""
    word, _, weight = text.rpartition("=")
    number = number_in(weight)
    if not word or not 0 <= number < 65536:
        raise Misuse(f"argument --weight: {text}: a weight is written as osd.5=1.8, from 0 on and below 65,536")
    return word, weight_units(number)


def pool_words_in(text: str) -> dict[str, str]:
    """What a word as pg_num=64,pgp_num=64 gives a pool: of each thing what stands behind it; else an error of use."""
    parts = [part.partition("=")[::2] for part in text.split(",")]
    found = dict(parts)
    counts = [found[key] for key in ("size", "pg_num", "pgp_num") if key in found]
    is_number = all(re.fullmatch("[0-9]{1,9}", count) and int(count) for count in counts)
    if len(found) < len(parts) or not found.keys() <= set(OF_POOLS) or not all(found.values()) or not is_number:
        raise Misuse(f"argument --pool: {text}: of a pool change rule=NAME, size=N, pg_num=N, pgp_num=N")
    return found


# OSDs and buckets


def osds_below(value: Map, number: int) -> list[int]:
    """The OSDs at or below an item."""
    if number >= 0:
        return [number]
    items: list[list[int]] = next((bucket["items"] for bucket in value["buckets"] if bucket["id"] == number), [])
    return [osd for item, _ in items for osd in osds_below(value, item)]


def number_of(word: str, known: dict[str, str]) -> int | None:
    """The number that a word is, or that has it as its name; None where there is none."""
    if re.fullmatch("-?[0-9]{1,20}", word):
        return int(word)
    return next((int(number) for number, name in known.items() if name == word), None)


def osds_named(value: Map, names: Names, word: str) -> list[int]:
    """The OSDs that a word names: a number, `osd.N`, or a bucket by id or name. A fault where there are none."""
    number = number_of(word.removeprefix("osd."), names.get("buckets", {}))
    there = {osd["id"] for osd in value["osds"] if osd["exists"]}
    found = [osd for osd in ([] if number is None else osds_below(value, number)) if osd in there]
    if not found:
        raise Fault(f"{word}: no OSD of the map, nor a bucket with any")
    return found


def reweights_before(cluster: Cluster) -> dict[int, int]:
    """The reweights with which OSDs went out, in units of 1/65,536, where the dump tells them."""
    found: dict[int, int] = {}
    for entry in entries_of(cluster.osd_dump, "osd_xinfo"):
        osd, weight = (entry.get(key) for key in ("osd", "old_weight")) if isinstance(entry, dict) else (None, None)
        if isinstance(osd, int) and isinstance(weight, int) and weight > 0:
            found[osd] = weight
    return found


# A host that comes


def is_shadow(cluster: Cluster, bucket: DumpBucket) -> bool:
    """Whether a bucket is the shadow of another for a device class."""
    return SIGN in bucket["name"] and any("class" in device for device in cluster.crush["devices"])


def above_hosts(cluster: Cluster, kind: int, is_holding: bool) -> list[int]:
    """The buckets below which a host may come, or of them those that hold hosts; shadows of device classes aside."""
    types = {number: bucket["type_id"] for number, bucket in cluster.buckets.items()}
    return [
        number
        for number, bucket in sorted(cluster.buckets.items(), reverse=True)
        if types[number] > kind
        and not is_shadow(cluster, bucket)
        and (not is_holding or any(types.get(item) == kind for item in cluster.listed_in(number)))
    ]


def host_of(cluster: Cluster, names: Names, name: str, under: str | None, device_class: str | None) -> Host:
    """The host that comes. A fault where none, or none alone, is meant as the bucket below which it does, or as the
    class.
    """
    holding = [own for own in cluster.buckets.values() if any(item >= 0 for item in cluster.listed_in(own["id"]))]
    kind = cluster.types.get(HOST, min((own["type_id"] for own in holding), default=1))
    there = above_hosts(cluster, kind, True)
    if any(own["name"] == name for own in cluster.buckets.values()):
        raise Fault(f"{name}: a bucket of that name is there")
    meant = None if under is None else number_of(under, names.get("buckets", {}))
    chosen = there if under is None else [own for own in above_hosts(cluster, kind, False) if own == meant]
    if len(chosen) != 1:
        listed = ", ".join(named(names, "buckets", number) for number in there or above_hosts(cluster, kind, False))
        raise Fault(
            f"{name}: below which bucket? --under one of {listed}"
            if listed
            else f"{name}: no bucket of the map holds hosts"
        )
    alg = next((own["alg"] for own in holding if own["type_id"] == kind), "straw2")
    return Host(name, chosen[0], kind, "straw2" if cluster.is_stock else alg, class_of(cluster, name, device_class))


def class_of(cluster: Cluster, name: str, device_class: str | None) -> str | None:
    """The class of the OSDs of a host that comes, which may be a new one: that is told. A fault where it is not said
    and the cluster has several.
    """
    there = sorted({device["class"] for device in cluster.crush["devices"] if "class" in device})
    if device_class is not None and device_class not in there:
        others = f"the cluster has {', '.join(there)}" if there else "the cluster has none"
        tell(f"{name}: device class {device_class} is new: {others}")
    if device_class is None and len(there) > 1:
        raise Fault(f"{name}: of which device class? --class one of {', '.join(there)}")
    return device_class or (there[0] if there else None)


# All words


class WordReader:
    """The words of the command line as commands over a cluster, in their order. A fault, or an error of use, for a word
    that names nothing or contradicts another.
    """

    def __init__(self, cluster: Cluster, tree: Map, names: Names, has_weight_set: bool) -> None:
        """Takes the cluster, the tree in which OSDs and buckets are looked up, their names, and whether a weight set
        is in force.
        """
        self.cluster, self.tree, self.names, self.has_weight_set = cluster, tree, names, has_weight_set
        self.reweights: dict[tuple[bool, int], int] = {}
        self.now: dict[int, int] = {}
        self.weights: dict[int, int] = {}

    def reweighed(self, word: str, weight: int, is_state: bool = False) -> list[list[int]]:
        """OSDs with a reweight, or that of a state. An error of use where one has another already by such a word."""
        osds = osds_named(self.tree, self.names, word)
        for osd in osds:
            if self.reweights.setdefault((is_state, osd), weight) != weight:
                raise Misuse(f"osd.{osd} is given two reweights")
        if not is_state:
            self.now.update(dict.fromkeys(osds, weight))
        return [[osd, weight] for osd in osds]

    def is_out(self, osd: int) -> bool:
        """Whether an OSD is out by then, so that `ceph osd in` does something."""
        return osd in self.cluster.osds and self.now.get(osd, self.cluster.osds[osd]["weight"]) == 0

    def states(self, kind: str, words: list[str]) -> Command:
        """The command that puts OSDs out or in, or that they go down or come up. An OSD that comes in has the reweight
        again with which it went out.
        """
        if kind in ("down", "up"):
            named = {osd for word in words for osd in osds_named(self.tree, self.names, word)}
            there = {osd["id"]: bool(osd["up"]) for osd in self.tree["osds"]}
            return StateChange({kind: sorted(osd for osd in named if kind == "down" or not there[osd])})
        found = {osd: weight for word in words for osd, weight in self.reweighed(word, REWEIGHTS[kind], True)}
        if kind == "in":
            before = reweights_before(self.cluster)
            found = {osd: min(before.get(osd, FULL_WEIGHT), FULL_WEIGHT) for osd in found if self.is_out(osd)}
        return StateChange({"weight": [list(pair) for pair in sorted(found.items())]})

    def weighed(self, text: str) -> Command:
        """The command that gives OSDs another weight in the CRUSH map."""
        word, weight = crush_weight_in(text)
        if self.has_weight_set:
            raise Fault(f"--weight: {IN_FORCE}")
        osds = osds_named(self.tree, self.names, word)
        for osd in osds:
            if not any(osd in self.cluster.listed_in(number) for number in self.cluster.buckets):
                raise Fault(f"osd.{osd} stands in no bucket")
            if self.weights.setdefault(osd, weight) != weight:
                raise Misuse(f"osd.{osd} is given two weights")
        number = number_of(word.removeprefix("osd."), self.names.get("buckets", {}))
        return CrushWeights(dict.fromkeys(osds, weight), number is not None and number < 0)

    def arrived(self, word: Word, under: str | None, device_class: str | None) -> list[Command]:
        """The commands that bring a host, one for each OSD."""
        if self.has_weight_set:
            raise Fault(f"--add-host: {IN_FORCE}")
        name, weights = word.values[0], weights_in(word.values[1])
        host = host_of(self.cluster, self.names, name, under, device_class)
        return [Arrival(host, weight) for weight in weights]

    def pool_changed(self, name: str, text: str) -> Command:
        """The command that gives a pool another rule, size or number of groups."""
        names = {pool["pool"]: pool["pool_name"] for pool in self.cluster.pools}
        found = pool_words_in(text)
        pools = pools_named([name], names)
        if len(pools) > 1:
            raise Misuse(f"argument --pool: {name}: one pool at a time")
        size, groups, placed = (int(found[key]) if key in found else None for key in OF_POOLS[1:])
        return PoolChange(min(pools), found.get("rule"), size, groups, placed)

    def steps(self, words: Sequence[Word], under: str | None, device_class: str | None) -> list[Command]:
        """All commands; words of one kind that stand together are one command where Ceph takes many OSDs at once."""
        found: list[Command] = []
        for kind, run in groupby(words, key=lambda word: word.kind):
            if kind in TOGETHER:
                found.append(self.states(kind, [own for word in run for own in word.values[0].split(",")]))
            else:
                found += [step for word in run for step in self.single(word, under, device_class)]
        return found

    def single(self, word: Word, under: str | None, device_class: str | None) -> list[Command]:
        """The commands of a word by itself."""
        if word.kind == "reweight":
            pairs = self.reweighed(word.values[0], reweight_in(word.values[1]))
            return [StateChange({"weight": [pair]}) for pair in pairs]
        if word.kind == "weight":
            return [self.weighed(word.values[0])]
        if word.kind == "crush":
            return [NewCrush(crush_in(word.values[0]))]
        if word.kind == "pool":
            return [self.pool_changed(*word.values)]
        return self.arrived(word, under, device_class)
