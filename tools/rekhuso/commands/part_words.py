"""The words by which commands are told how large a part is."""

from __future__ import annotations

import argparse
import re
from dataclasses import dataclass

from ..cluster.view import view_of_cluster
from ..cluster.cluster import Cluster
from ..faults import Misuse
from ..plans.busy import ALL, MostBusy, PartSize, holders_in
from ..program.maps import Map
from ..values import SLOTS
from .arguments import Arguments, putting

# A number of moves that nobody comes near.
MANY = 2**31


@dataclass(frozen=True, **SLOTS)
class PartWords:
    """At most how many commands stand in a part, and in how many of its moves an OSD and a host takes part; None where
    nothing is said.
    """

    batch: int | None
    osds: int | None
    hosts: int | None

    def busy(self, tree: Map) -> MostBusy:
        """The limits of OSDs and hosts over a tree."""
        return MostBusy(self.osds, self.hosts, {} if self.hosts is None else holders_in(tree))

    def size(self, cluster: Cluster) -> PartSize:
        """How large a part is over a cluster."""
        own = MostBusy(self.osds, None, {}) if self.hosts is None else self.busy(view_of_cluster(cluster).tree)
        return PartSize(self.batch or ALL, own)


def part_words(arguments: Arguments, is_parted: bool, how: str) -> PartWords:
    """The words of the command line. An error of use for limits of parts where there are none."""
    found = PartWords(arguments.batch, arguments.osd_most, arguments.host_most)
    if not is_parted and (found.osds is not None or found.hosts is not None):
        option = "--host-most" if found.osds is None else "--osd-most"
        raise Misuse(f"{option} is a limit of parts, and goes with {how}")
    return found


def number_of_moves(word: str) -> int:
    """A number of moves; an error of use where it is none."""
    number = int(word) if re.fullmatch("[0-9]{1,20}", word) else 0
    if not 1 <= number <= MANY:
        raise argparse.ArgumentTypeError(f"{word}: no number of moves from 1 on")
    return number


def add_part_words(own: argparse.ArgumentParser) -> None:
    """The options for OSDs and hosts."""
    group = putting(own)
    group.add_argument(
        "--osd-most",
        metavar="M",
        type=number_of_moves,
        help="in a part no OSD takes part in more than M moves: as the one from which a group is read, and as each to "
        "which a place comes",
    )
    group.add_argument("--host-most", metavar="M", type=number_of_moves, help="the same of hosts")
