"""A cluster at one moment: its OSDMap as bytes and as both dumps, what its manager tells of its groups, and what its
pools hold, all of one epoch.

It is told as one file in the form of a report, which has both dumps: `osdmap` and `crushmap`. Beside these stand
`pg_stats`, as `ceph pg dump` prints them, `df`, as `ceph df` prints it, and `getmap`, the bytes in base64.
"""

from __future__ import annotations

import base64
import json
import time
from dataclasses import dataclass

from ..faults import Trouble, Wait
from ..files import JsonObject
from ..together import crush_sum
from ..values import SLOTS
from .binary_maps import report_of_bytes
from .connections import Connection
from .encoded import Misread

# How often a cluster is asked again whose epochs do not agree, and how long it is waited between, in seconds.
TRIES, PAUSE = 30, 0.2


@dataclass(frozen=True, **SLOTS)
class Moment:
    """Both dumps and the OSDMap of an epoch; and what the manager tells of groups, and what pools hold, where a manager
    is there.
    """

    osd_dump: JsonObject
    crush_dump: JsonObject
    osdmap: bytes
    groups: list[JsonObject] | None
    df: JsonObject | None

    @property
    def epoch(self) -> int:
        """The epoch."""
        return int(self.osd_dump["epoch"])

    def text(self) -> str:
        """The file of it."""
        told: JsonObject = {"osdmap": self.osd_dump, "crushmap": self.crush_dump}
        told.update({} if self.groups is None else {"pg_stats": self.groups})
        told.update({} if self.df is None else {"df": self.df})
        return json.dumps({**told, "getmap": base64.b64encode(self.osdmap).decode()}) + "\n"


def check_bytes(moment: Moment) -> None:
    """A fault where the OSDMap is not that of the dumps."""
    try:
        found = report_of_bytes(moment.osdmap)
    except Misread as fault:
        raise Trouble(f"the cluster's OSDMap is not read: {fault}") from None
    if found["osdmap"]["epoch"] != moment.epoch or crush_sum(found["crushmap"]) != crush_sum(moment.crush_dump):
        raise Trouble(f"the cluster's OSDMap of epoch {moment.epoch} and its dumps are not alike")


def moment_of(connection: Connection, is_whole: bool) -> Moment:
    """A cluster as it is now, whole or without what its pools hold and the bytes of its map. A fault where maps are
    made faster than they are read.
    """
    for _ in range(TRIES):
        dump, crush = connection.json("osd dump"), connection.json("osd crush dump")
        has_manager = connection.has_manager()
        groups = connection.groups() if has_manager else None
        df = connection.json("df") if has_manager and is_whole else None
        data = connection.ask({"prefix": "osd getmap", "epoch": dump["epoch"]}) if is_whole else b""
        if connection.json("osd dump")["epoch"] == dump["epoch"]:
            found = Moment(dump, crush, data, groups, df)
            if is_whole:
                check_bytes(found)
            return found
        time.sleep(PAUSE)
    raise Wait(f"in {TRIES} times that it was asked, the cluster has made a map meanwhile: nothing is written")
