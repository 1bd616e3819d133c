"""`df`: the tree of buckets with the columns of `ceph osd df tree`, its totals, and the pools.

RATIO is that of an OSD's groups to its share, which is what its weight and reweight call for; DEVIATION is the
difference of the two, in groups. REACH, where it is not the share, is what the rules can give an OSD: a failure domain
holds one place of a group, whatever it weighs. LEADS is of how many groups an OSD is the primary, to which reads go. Of
two dumps the tree is the cluster's, without the shadow buckets of device classes, and with what weighs 0; groups and
shares are those of all pools. With --osds it has SIZE, RAW USE, AVAIL and %USE too. On a terminal that has room for it
a bar shows what an OSD has of its share, in lighter signs what it lacks, and in others what it has beyond.
"""

from __future__ import annotations

import sys
from collections import Counter
from collections.abc import Mapping
from dataclasses import dataclass

from ..cluster.affinity import told_affinities
from ..cluster.disks import Disk, disks_of
from ..cluster.json_forms import PoolRowParts
from ..cluster.names import Names, named
from ..cluster.shares import Shares
from ..cluster.sources import Source
from ..cluster.unrest import Unrest
from ..cluster.view import ClusterView, view_with_sets
from ..files import JsonObject, put
from ..output.df_table import full_words, node, nodes, summary, tree_lines
from ..output.fill_words import osd_words
from ..output.json_output import put_json
from ..output.metrics import metrics
from ..program.answers import Up
from ..terminal import columns_of
from ..values import SLOTS
from ..words import counted
from .arguments import Arguments, Commands, add_files, add_json, add_osds, putting, set_work, source_of


# What lets CRUSH look longer for places that it has not found.
LONGER = " (CRUSH looks longer by a step set_choose_tries of the rule, or by choose_total_tries)"


def pool_line(pool: PoolRowParts, names: Names, unrest: Mapping[int, Unrest]) -> str:
    """What is told of a pool, also what becomes of it where it is not at rest."""
    then = f"; {unrest[pool['id']]}" if pool["id"] in unrest else ""
    short = f", {pool['short']} with fewer places than its size{LONGER}" if pool["short"] else ""
    groups, full = counted(pool["groups"], "group"), full_words(pool["full"], names)
    words = f"{named(names, 'pools', pool['id'])}: {groups} of size {pool['size']} by rule {pool['rule']}{short}"
    return words + (f"; {full}" if full else "") + then


def summary_lines(total: JsonObject, names: Names) -> list[str]:
    """How even the OSDs are, in words."""
    groups = counted(total["max_pgs"], "group")
    found = [
        f"an OSD has {total['min_pgs']} to {groups}; MIN/MAX RATIO {total['min_ratio']:.2f}/{total['max_ratio']:.2f}; "
        f"standard deviation from the shares {total['deviation']}"
    ]
    ends = [f"{word} {osd_words(total[word], names)}" for word in ("fullest", "emptiest") if total[word]]
    return found + ([f"over all pools: {', '.join(ends)}"] if ends else [])


def put_df_json(view: ClusterView, sets: dict[str, Up], shares: Shares, disks: Mapping[int, Disk]) -> None:
    """Puts out the tree, the pools and the totals as one object, with how often each OSD is a primary."""
    names, primaries = view.names, Counter(up.primary for up in sets.values())
    tree, stray = nodes(shares, names, disks), [node(shares, row, names, disks) for row in shares.stray()]
    for own in (own for own in [*tree, *stray] if own["id"] >= 0):
        own["primaries"] = primaries[own["id"]]
    put_json(
        "df",
        view.tree["epoch"],
        nodes=tree,
        stray=stray,
        summary=summary(shares, disks),
        pools=[dict(pool, name=named(names, "pools", pool["id"])) for pool in shares.pools()],
        unrest=[own.parts() for own in view.unrest.values()],
        primary_affinity=told_affinities(view.affinities),
        **view.beside().parts(),
    )


@dataclass(frozen=True, **SLOTS)
class DfOptions:
    """What `df` works on, the file of disks if there is one, the file for metrics if there is one, and whether it is
    told as JSON.
    """

    source: Source
    osds: str | None
    metrics: str | None
    is_json: bool


def options_of(arguments: Arguments) -> DfOptions:
    """The options of the command line."""
    return DfOptions(source_of(arguments), arguments.osds, arguments.prometheus, arguments.json)


def work(options: DfOptions) -> None:
    """Tells the tree, the pools and the totals of a map or a cluster."""
    view, sets = view_with_sets(options.source)
    names, shares = view.names, view.shares(sets)
    disks = disks_of(options.osds, shares, options.source.has_dumps)
    if options.metrics is not None:
        put(options.metrics, metrics(shares, names, shares.osds.keys() | shares.counts.keys()))
    if options.is_json:
        put_df_json(view, sets, shares, disks)
        return
    total, stray = summary(shares, disks), [node(shares, row, names, disks) for row in shares.stray()]
    tree, primaries = nodes(shares, names, disks), Counter(up.primary for up in sets.values())
    leads = {own["id"]: sum(primaries[osd] for osd in shares.below(own["id"])) for own in [*tree, *stray]}
    lines = tree_lines(tree, stray, total, leads, columns_of(sys.stdout))
    lines += [pool_line(pool, names, view.unrest) for pool in shares.pools()]
    print("\n".join(lines + summary_lines(total, names)))


def add_to(commands: Commands) -> None:
    """The subcommand."""
    own = commands.add_parser("df", help="the tree with the groups of each OSD", description=__doc__)
    add_files(own)
    add_osds(own)
    putting(own).add_argument(
        "--prometheus",
        metavar="FILE",
        help="write groups, deviations and ratios of OSDs and pools into FILE too, in Prometheus' text format",
    )
    add_json(own)
    set_work(own, options_of, work)
