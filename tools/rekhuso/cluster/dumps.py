"""Dumps as files: what of them is of its form, and which places are not."""

from __future__ import annotations

import re
from dataclasses import dataclass
from typing import cast

from ..faults import Fault, Trouble
from ..files import JsonObject, json_of
from ..program.map_forms import FULL_WEIGHT
from ..running import doing
from ..terminal import in_one_line
from ..values import SLOTS
from .binary_maps import is_binary_map
from .cluster import Cluster
from .dump_forms import (
    CRUSH_DUMP,
    DumpForm,
    OSD_DUMP,
    TREE,
    fitting,
    is_crush_dump,
    is_map,
    is_kind,
    is_osd_dump,
    misfits,
    with_steps_by_word,
)
from .dump_types import CrushDump, OsdDump, Tree
from .file_kinds import TREE_FILE, check_kind
from .names import pools_named
from .reasons.kinds import Against, lines_of
from .reports import CRUSH_PART, OSD_PART, check_no_report, dump_in_report, is_report_file
from .sources import DumpFiles

# Where a dump has names.
NAMES = (("pools", "pool_name"), ("buckets", "name"), ("devices", "name"), ("rules", "rule_name"))
# How many places at fault of one file are told one by one.
MOST_MISFITS = 20


@dataclass(frozen=True, **SLOTS)
class Misfit:
    """A place of a dump that is not of its form: the file, and the reason that it is; and which pool or rule it is in,
    where that is known.
    """

    path: str
    reason: Against
    pool: int | None
    rule: int | None

    def concerns(self, cluster: Cluster, is_part: bool) -> bool:
        """Whether a cluster needs what is not of its form; where it is a part of the pools of another, those of the
        others and their rules keep it not out.
        """
        if is_part and self.pool is not None and self.pool not in cluster.sizes:
            return False
        rules = {pool["crush_rule"] for pool in cluster.pools}
        is_known = bool(rules) and (is_part or "pools" not in cluster.torn)
        return self.rule is None or not is_known or self.rule in rules


def misfit_at(path: str, place: str, value: JsonObject) -> Misfit:
    """A place of the dump in a file that is not of its form."""
    found = re.match(r"(pools|rules)\[(\d+)\]", place)
    own = value[found[1]][int(found[2])] if found else None
    number = own.get("pool" if found and found[1] == "pools" else "rule_id") if isinstance(own, dict) else None
    code = "form"
    if place.endswith(".crush_rule: missing") and isinstance(own, dict) and "crush_ruleset" in own:
        code, place = "older-release", f"{place}, and crush_ruleset in its place: is it a dump of Ceph before 12.2?"
    reason = Against(code, f"{path}: {place}")
    if found is None or not is_kind(number, int):
        return Misfit(path, reason, None, None)
    return Misfit(path, reason, *((number, None) if found[1] == "pools" else (None, number)))


def read_dump(path: str, value: JsonObject, shape: DumpForm) -> tuple[JsonObject, frozenset[str], list[Misfit]]:
    """What of the dump of a file is of its form, the keys of which something is not, and each place that is not."""
    value = with_steps_by_word(value) if shape is CRUSH_DUMP else value
    found = misfits(value, shape, "")
    if not found:
        names = [key.removeprefix("?") for key in shape]
        return with_plain_names({name: value[name] for name in names if name in value}), frozenset(), []
    kept, torn = fitting(value, shape)
    return with_plain_names(kept), torn, [misfit_at(path, place, value) for place in found]


def with_plain_names(dump: JsonObject) -> JsonObject:
    """A dump in whose names no line ends."""
    for kind, key in NAMES:
        for own in dump.get(kind, []):
            own[key] = in_one_line(own[key])
    return dump


def first_reasons(faults: list[Misfit]) -> list[Against]:
    """The places that are not of their form, file by file, and of many the first alone."""
    found: list[Against] = []
    for path in dict.fromkeys(fault.path for fault in faults):
        own = [fault.reason for fault in faults if fault.path == path]
        left = len(own) - MOST_MISFITS
        found += own[:MOST_MISFITS] + ([Against("more", f"{path}: and {left} more")] if left > 0 else [])
    return found


def first_lines(faults: list[Misfit]) -> list[str]:
    """The same as lines."""
    return lines_of(first_reasons(faults))


def gone_in(tree: Tree, osd_dump: OsdDump) -> dict[int, int]:
    """The reweights, in units of 1/65,536, of the OSDs that a tree tells not to exist any more and that the OSD dump
    does not list.
    """
    there = {osd["osd"] for osd in osd_dump["osds"]}
    return {
        node["id"]: round(node["reweight"] * FULL_WEIGHT)
        for node in tree["nodes"]
        if node["id"] >= 0 and node.get("exists") == 0 and node.get("reweight", -1) >= 0 and node["id"] not in there
    }


@dataclass(frozen=True, **SLOTS)
class DumpFile:
    """The file of a dump, or a report in which it stands; its form; and the part of a report that it is."""

    path: str
    form: DumpForm
    part: str

    def value(self) -> JsonObject:
        """The object of the dump. A fault where there is none."""
        found = dump_in_report(self.path, self.part)
        return json_of(self.path) if found is None else found

    def place(self) -> str:
        """Where the dump stands."""
        return f"{self.path}: {self.part}" if is_report_file(self.path) else self.path


def objects_of(files: list[DumpFile]) -> list[JsonObject]:
    """The object of each file; a fault that tells of each that is no JSON object."""
    found, unread = [], list[str]()
    for own in files:
        try:
            found.append(own.value())
        except Fault as fault:
            unread += [line for line in fault.lines if line not in unread]
    if unread:
        raise Trouble(*unread)
    return found


def both_dumps(osd_dump: str, crush_dump: str, tree: str | None = None) -> tuple[Cluster, list[Misfit]]:
    """The cluster of two dumps, or of three, as far as these are of their forms, and each place that is not; a fault
    that tells of each file that is no JSON object, of each that is a map, or that the two are swapped.
    """
    doing("reading dumps")
    files = [DumpFile(osd_dump, OSD_DUMP, OSD_PART), DumpFile(crush_dump, CRUSH_DUMP, CRUSH_PART)]
    if tree is not None:
        check_no_report(tree, "the reweights of OSDs that were removed: give what `ceph osd tree -f json` prints")
    files += [] if tree is None else [DumpFile(tree, TREE, "")]
    values = objects_of(files)
    if tree is not None:
        check_kind(tree, values[2], TREE_FILE)
    maps = [own.path for own, value in zip(files, values) if is_map(value)]
    if maps:
        raise Trouble(*(f"{path}: this is a map, and no dump: give both dumps, or one map alone" for path in maps))
    if is_crush_dump(values[0]) and is_osd_dump(values[1]):
        raise Trouble(
            f"the dumps are swapped: {osd_dump} is the CRUSH dump, and {crush_dump} the OSD dump, which comes first"
        )
    found = [read_dump(own.place(), value, own.form) for own, value in zip(files, values)]
    osds, crush = cast(OsdDump, found[0][0]), cast(CrushDump, found[1][0])
    gone = {osd: kept for osd, kept in values[0].get("gone", []) if kept} if is_binary_map(osd_dump) else {}
    gone = gone if tree is None else gone_in(cast(Tree, found[2][0]), osds)
    return Cluster(osds, crush, found[0][1] | found[1][1], gone), [fault for _, _, faults in found for fault in faults]


def with_pools(cluster: Cluster, words: str | None) -> Cluster:
    """A cluster with some of its pools alone, by their ids or names with a comma between them. A fault for a word
    that is neither.
    """
    if words is None:
        return cluster
    return cluster.of_pools(pools_named([words], {pool["pool"]: pool["pool_name"] for pool in cluster.pools}))


def chosen_cluster(files: DumpFiles) -> tuple[Cluster, list[Misfit]]:
    """The cluster of two dumps, or of three, with the pools that are chosen, and each place that is not of its form
    and that it needs.
    """
    cluster, faults = both_dumps(files.osd_dump, files.crush_dump, files.tree)
    chosen = with_pools(cluster, files.pools)
    if files.pools is not None:
        unread = {fault.pool for fault in faults if fault.pool is not None}
        chosen.whole, chosen.unread = cluster, frozenset(unread - cluster.sizes.keys())
    return chosen, [fault for fault in faults if fault.concerns(chosen, files.pools is not None)]
