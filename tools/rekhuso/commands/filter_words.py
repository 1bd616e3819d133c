"""The words by which `hold` and `release` are told which groups are held or let go."""

from __future__ import annotations

import argparse
from collections.abc import Iterable
from dataclasses import dataclass

from ..cluster.cluster import Cluster
from ..cluster.names import Names, pools_named
from ..cluster.view import view_of_cluster
from ..faults import Fault
from ..plans.group_filter import GroupFilter
from ..values import SLOTS
from .arguments import Arguments, rename
from .whatif_words import osds_named


@dataclass(frozen=True, **SLOTS)
class FilterWords:
    """Which groups are chosen: those with a place on one of some OSDs, below one of some buckets, or on an OSD of one
    of some device classes; those that leave some OSDs; those of some pools; and some groups; None for what is not
    given.
    """

    osd: str | None
    host: str | None
    device_class: str | None
    leaves: str | None
    pool: str | None
    pg: str | None

    def chosen(self, cluster: Cluster) -> GroupFilter:
        """The groups that are chosen of a cluster. A fault for a word that names nothing."""
        osds = [osds_in(cluster, text) for text in (self.osd, self.host) if text is not None]
        osds += [] if self.device_class is None else [osds_of_classes(cluster.all_names(), self.device_class)]
        names = {pool["pool"]: pool["pool_name"] for pool in cluster.pools}
        pools = None if self.pool is None else frozenset(pools_named([self.pool], names))
        groups = None if self.pg is None else frozenset(groups_in_words(cluster, self.pg))
        return GroupFilter(tuple(osds), None if self.leaves is None else osds_in(cluster, self.leaves), pools, groups)


def osds_in(cluster: Cluster, text: str) -> frozenset[int]:
    """The OSDs that words with commas between them name."""
    view = view_of_cluster(cluster)
    tree = view.named_tree()
    return frozenset(osd for word in text.split(",") for osd in osds_named(tree, view.names, word))


def osds_of_classes(names: Names, text: str) -> frozenset[int]:
    """The OSDs of some device classes. A fault for one that no OSD has."""
    classes = names.get("classes", {})
    there = sorted(set(classes.values()))
    for word in text.split(","):
        if word not in there:
            raise Fault(f"no OSD of device class {word}; there are {', '.join(there) or 'none'}")
    return frozenset(int(osd) for osd, own in classes.items() if own in text.split(","))


def groups_in_words(cluster: Cluster, text: str) -> Iterable[str]:
    """The groups that words with commas between them name. A fault for one that is not there."""
    for word in text.split(","):
        if not cluster.is_group(word):
            raise Fault(f"no group {word}")
        yield word


def filter_words(arguments: Arguments, leaves: str | None = None) -> FilterWords:
    """The words of the command line."""
    own = arguments
    return FilterWords(own.of_osd, own.of_host, own.of_class, leaves, own.of_pool, own.of_pg)


def add_filter_words(own: argparse.ArgumentParser, verb: str) -> None:
    """The options that choose groups, which are held or let go."""
    own.add_argument("--of-osd", metavar="OSD,..", help=f"only groups with a place on one of these OSDs are {verb}")
    own.add_argument("--of-host", metavar="BUCKET,..", help="only those with a place below one of these buckets")
    own.add_argument("--of-class", metavar="CLASS,..", help="only those with a place on an OSD of these device classes")
    own.add_argument("--of-pool", metavar="ID|NAME,..", help="only those of these pools")
    own.add_argument("--of-pg", metavar="PG,..", help="only these groups")
    rename(own, {"--osd": "--of-osd", "--host": "--of-host", "--pg": "--of-pg"})
