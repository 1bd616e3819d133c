"""The disks of OSDs, as `ceph osd df -f json` tells them."""

from __future__ import annotations

from collections import Counter
from collections.abc import Iterable
from dataclasses import dataclass

from ..faults import Fault
from ..files import json_of
from ..values import SLOTS
from .dump_forms import OSD_DF, misfits
from .file_kinds import OSD_DF_FILE, check_kind
from .reports import check_no_report
from .shares import Shares

KIB = 1024
# Up to which part an OSD may be filled before it counts as nearly full, where nobody tells (nearfull_ratio).
NEARFULL = 0.85


@dataclass(frozen=True, **SLOTS)
class Disk:
    """How many bytes an OSD has, and how many of them are in use and free."""

    size: int
    used: int
    free: int


@dataclass(frozen=True, **SLOTS)
class Disks:
    """Where they were read, and the disk of each OSD."""

    path: str
    of_osd: dict[int, Disk]

    def check(self, needed: Iterable[int], there: Iterable[int] | None) -> None:
        """A fault for each OSD that may have data and is not told there, or without a size; and, where all OSDs of the
        cluster are known, for each that the cluster does not have.
        """
        faults = []
        for osd in sorted(needed):
            if osd not in self.of_osd:
                faults.append(f"no osd.{osd}")
            elif self.of_osd[osd].size <= 0:
                faults.append(f"osd.{osd} has no size there")
        if there is not None:
            faults += [f"the cluster has no osd.{osd}" for osd in sorted(self.of_osd.keys() - set(there))]
        if faults:
            raise Fault(*(f"{self.path}: {fault}" for fault in faults))


def disks_of(path: str | None, shares: Shares, is_whole: bool) -> dict[int, Disk]:
    """The disks that a file tells of the OSDs that shares are told of, which may be all of a cluster; none where there
    is no path.
    """
    if path is None:
        return {}
    found = disks_in(path)
    found.check([osd for osd, share in shares.wanted.items() if share > 0], shares.osds if is_whole else None)
    return found.of_osd


def disks_in(path: str) -> Disks:
    """What a file with the output of `ceph osd df -f json` tells, also of its form as a tree. A fault for each place
    that has another form, and for an OSD that stands there twice.
    """
    check_no_report(path, "of disks one by one: give what `ceph osd df -f json` prints")
    check_kind(path, json_of(path), OSD_DF_FILE)
    value = json_of(path, "nodes")
    nodes = value["nodes"]
    stray = value.get("stray", [])
    if isinstance(nodes, list) and isinstance(stray, list):
        there = [*nodes, *stray]
        nodes = [own for own in there if not (isinstance(own, dict) and str(own.get("id", "")).startswith("-"))]
    faults = misfits({"nodes": nodes}, OSD_DF, "")
    if faults:
        raise Fault(*(f"{path}: {fault}" for fault in faults))
    found = {own["id"]: Disk(*(max(own[key], 0) * KIB for key in ("kb", "kb_used", "kb_avail"))) for own in nodes}
    twice = [osd for osd, count in Counter(own["id"] for own in nodes).items() if count > 1]
    if twice:
        raise Fault(*(f"{path}: osd.{osd} stands there twice" for osd in twice))
    return Disks(path, found)
