"""What one of two dumps has and the other has not: are both of one cluster?"""

from __future__ import annotations

from dataclasses import dataclass

from ...values import SLOTS
from ...words import listed, some
from ..cluster import Cluster
from .counts import FEW
from .exceptions import absent_reasons
from .kinds import Against

QUESTION = ": are both dumps of one cluster?"
# The codes of what the one dump has not, and the other.
NO_OSD, NO_ITEM = "not-in-osd-dump", "not-in-crush-dump"
# How what only one dump has is taken: an OSD of which the other tells no reweight, and one to which no rule comes.
OUT, FAR = "taken as out", "taken as out of reach"


# Whether both dumps are of one cluster


@dataclass(frozen=True, **SLOTS)
class Unmatched:
    """What one dump has and the other has not, by its code and in one line; how it is taken where the caller wants it
    so; what is asked where it is a reason against the cluster; and which OSDs it is, where the line tells their number
    alone.
    """

    code: str
    line: str
    taken: str
    question: str
    osds: str

    @property
    def is_note(self) -> bool:
        """Whether it keeps nothing out: a few OSDs to which no rule comes, and which so have no groups."""
        return self.taken == FAR and not self.osds

    def reason(self) -> Against:
        """It as a reason against the cluster."""
        return Against(self.code, self.line + self.question)

    def told(self) -> str:
        """The line of what is taken so."""
        return f"{self.taken}: {self.line}" + (f": {self.osds}" if self.osds else "")


def unlisted_devices(cluster: Cluster) -> list[Unmatched]:
    """Devices that a pool's rule reaches and that the OSD dump does not list; many of them in one line."""
    there = cluster.osds.keys() | cluster.gone.keys()
    gone = [device for device in cluster.devices if device not in there] if cluster.pools else []
    roots = listed([cluster.bucket_name(root) for root in cluster.roots() if cluster.below(root) & set(gone)] or [""])
    names = [f"osd.{device}" for device in gone]
    if len(gone) > FEW:
        return [
            Unmatched(
                NO_OSD,
                f"{len(gone)} devices stand below {roots}, but the OSD dump does not list them",
                OUT,
                QUESTION,
                some(names),
            )
        ]
    return [
        Unmatched(NO_OSD, f"{name} stands below {roots}, but the OSD dump does not list it", OUT, QUESTION, "")
        for name in names
    ]


def unlisted_osds(cluster: Cluster) -> list[Unmatched]:
    """OSDs that are up and in and that the CRUSH dump does not list among its devices; many of them in one line."""
    devices, why = {device["id"] for device in cluster.crush["devices"]}, "up and in, but the CRUSH dump does not list"
    names = [
        f"osd.{osd}"
        for osd, own in sorted(cluster.osds.items())
        if own["up"] and own["weight"] > 0 and osd not in devices
    ]
    if len(names) > FEW:
        return [Unmatched(NO_ITEM, f"{len(names)} OSDs are {why} them among its devices", FAR, QUESTION, some(names))]
    return [Unmatched(NO_ITEM, f"{name} is {why} it among its devices", FAR, QUESTION, "") for name in names]


def unmatched(cluster: Cluster) -> list[Unmatched]:
    """All that one dump has and the other has not. Nothing is told of lists that were not read whole."""
    has_osds = "osds" not in cluster.torn
    found = unlisted_devices(cluster) if has_osds else []
    if "devices" not in cluster.torn:
        found += unlisted_osds(cluster)
    if has_osds and "max_osd" not in cluster.torn:
        found += [Unmatched(own.code, own.line, OUT, "", "") for own in absent_reasons(cluster, False)]
    return found
