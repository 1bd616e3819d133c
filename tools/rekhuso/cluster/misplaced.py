"""Whether a cluster moves data already: groups that are served from a temporary set (`pg_temp`) until their own OSDs
have all of their data, so that Ceph's balancer may wait.
"""

from __future__ import annotations

from collections.abc import Mapping
from dataclasses import dataclass

from ..faults import Wait
from ..program.answers import Up
from ..program.maps import entries_of
from ..running import tell
from ..values import SLOTS
from ..words import counted, share_words
from .json_forms import MisplacedParts
from .moving import coming
from .outage import filled

# The type of erasure pools in a dump.
ERASURE = 3
# The share of all places from which on Ceph's balancer waits (target_max_misplaced_ratio, where nobody sets it).
MOST = 0.05


@dataclass(frozen=True, **SLOTS)
class Misplaced:
    """How many groups have a temporary set, and how many places of theirs are still to move, of all places."""

    groups: int
    places: int
    of: int

    @property
    def share(self) -> float:
        """The share of all places that is still to move."""
        return self.places / max(self.of, 1)

    def __str__(self) -> str:
        """All of it in one line."""
        are = "1 group is" if self.groups == 1 else f"{self.groups} groups are"
        served = f"{are} served by temporary sets (pg_temp)"
        if not self.places:
            return f"{served}, from which no place is still to move"
        waits = ", so Ceph's balancer would wait until it is less than 5 %" if self.share >= MOST else ""
        return (
            f"the cluster moves already: {served}, and {self.places} of {counted(self.of, 'place')} "
            f"{'is' if self.places == 1 else 'are'} still to move, {share_words(self.share)}{waits}"
        )

    def parts(self) -> MisplacedParts:
        """The same as JSON has it."""
        return {"groups": self.groups, "places": self.places, "share": self.share}


def temporary_sets(dump: Mapping[str, object]) -> dict[str, list[int]]:
    """The temporary set of each group that has one; entries of another form aside, as no up set needs them."""
    entries = [entry for entry in entries_of(dump, "pg_temp") if isinstance(entry, dict)]
    return {
        entry["pgid"]: entry["osds"]
        for entry in entries
        if isinstance(entry.get("pgid"), str) and isinstance(entry.get("osds"), list)
    }


def misplaced_of(dump: Mapping[str, object], ups: Mapping[str, Up]) -> Misplaced | None:
    """What of a cluster is still to move to the OSDs of its up sets; None where no group has a temporary set."""
    temporary = {group: osds for group, osds in temporary_sets(dump).items() if group in ups}
    if not temporary:
        return None
    erasure = {str(pool["pool"]) for pool in entries_of(dump, "pools") if pool["type"] == ERASURE}
    places = sum(
        len(coming(osds, ups[group].places, group.split(".")[0] in erasure)) for group, osds in temporary.items()
    )
    return Misplaced(len(temporary), places, sum(map(filled, ups.values())))


def check_misplaced(found: Misplaced | None, is_asked: bool) -> None:
    """Tells before a plan that a cluster moves already. A fault where much does, and a plan is not asked for
    nonetheless.
    """
    if found is not None and found.share >= MOST and not is_asked:
        raise Wait(f"{found}; no plan is made: --anyway makes one")
    if found is not None:
        tell(found)
