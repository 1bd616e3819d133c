"""In how many moves of a part an OSD or a host takes part: as the one from which a group is read, and as each to which
a place of it comes.
"""

from __future__ import annotations

import sys
from collections import Counter
from collections.abc import Iterable, Mapping, Sequence
from dataclasses import dataclass

from ..program.maps import Map
from ..values import SLOTS

# As much as anyone asks for.
ALL = sys.maxsize


@dataclass(frozen=True, **SLOTS)
class MostBusy:
    """In how many moves of a part an OSD, and a host, takes part at most; and the bucket that holds each OSD."""

    osds: int | None
    hosts: int | None
    host_of: Mapping[int, int]

    @property
    def is_any(self) -> bool:
        """Whether there is a limit."""
        return self.osds is not None or self.hosts is not None


# Where nothing is asked for.
NO_LIMIT = MostBusy(None, None, {})


@dataclass(frozen=True, **SLOTS)
class PartSize:
    """How large a part is: at most so many commands, and in how many of its moves an OSD and a host takes part."""

    commands: int
    busy: MostBusy

    @property
    def is_whole(self) -> bool:
        """Whether no parts are asked for."""
        return self.commands == ALL and not self.busy.is_any


def reader(was: Sequence[int | None]) -> int | None:
    """The OSD from which a group is read: the first of its set."""
    return next((osd for osd in was if osd is not None), None)


def partakers(was: Sequence[int | None], come: Iterable[int]) -> set[int]:
    """The OSDs that take part in a move of a group from a set, of which places come to some OSDs; none where none
    comes.
    """
    found = set(come)
    first = reader(was)
    return found | {first} if found and first is not None else found


class Busy:
    """The moves of a part so far, by OSDs and hosts."""

    def __init__(self, most: MostBusy) -> None:
        """Of a part that begins."""
        self.most, self.is_counted = most, most.is_any
        self.osds: Counter[int] = Counter()
        self.hosts: Counter[int] = Counter()

    def hosts_of(self, osds: Iterable[int]) -> set[int]:
        """The hosts of some OSDs."""
        return {self.most.host_of[osd] for osd in osds if osd in self.most.host_of}

    def lets(self, osds: set[int]) -> bool:
        """Whether some OSDs may take part in one more move."""
        of_osds, of_hosts = self.most.osds, self.most.hosts
        is_free = of_osds is None or all(self.osds[osd] < of_osds for osd in osds)
        return is_free and (of_hosts is None or all(self.hosts[host] < of_hosts for host in self.hosts_of(osds)))

    def take(self, osds: set[int]) -> None:
        """Some OSDs take part in one more move."""
        if self.is_counted:
            self.osds.update(osds)
            self.hosts.update(self.hosts_of(osds))


def holders_in(tree: Map) -> dict[int, int]:
    """The bucket in which each OSD of a tree stands."""
    return {item: bucket["id"] for bucket in tree["buckets"] for item, _ in bucket["items"] if item >= 0}
