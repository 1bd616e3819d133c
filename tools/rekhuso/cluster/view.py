"""What a command works on: the map of a file, or a cluster of two dumps, which may take several maps and is told as
one.
"""

from __future__ import annotations

import json
from collections.abc import Mapping

from ..faults import Fault
from ..files import json_of, text_of
from ..program.answers import Up
from ..program.map_forms import list_of, number_between, object_of, one_of, tuple_of
from ..program.maps import Bucket, Map, Pool, Program, altered
from ..running import tell
from .advice import HELD
from .affinity import affinities_of, all_with_affinity
from .cluster import Cluster
from .conversion import bucket_of, map_of, monitor_of
from .dump_forms import is_crush_dump
from .imports import ImportedCluster, imported
from .map_files import map_in, map_with_sets
from .map_parts import map_clusters
from .names import Names, names_in
from .pools_beside import PoolsBeside, beside, beside_lines
from .primaries import NamedPrimaries, primaries_in
from .reach import ReachByRule
from .shares import Shares
from .sources import Source
from .unrest import unrest_of


def no_plan_words(moves: str) -> str:
    """That no plan is made where a weight set is in force, why, and what taking it away moves, if that is known."""
    return (
        "no plan: a compat weight set (choose_args) is in force, so a plan by its weights would undo what it was tuned "
        "for, and one by the weights themselves would start from sets that are not there. Turn Ceph's balancer off, "
        f"take the set away by `ceph osd crush weight-set rm-compat`, which moves data{moves}, and dump again; {HELD}"
    )


class ClusterView:
    """The maps of a cluster, or one map; the tree that is shown of it; its names; and the maps as its shares are
    reckoned, whose weights are the buckets' own also where a weight set is in force.
    """

    def __init__(self, maps: list[Map], names: Names, found: ImportedCluster | None = None) -> None:
        """Of one map, or of a cluster's maps."""
        self.maps, self.names, self.found = maps, names, found
        self.pools: list[Pool] = sorted(
            (pool for value in maps for pool in value["pools"]), key=lambda pool: int(pool["id"])
        )
        self.tree, self.is_cluster = self.tree_of(found.cluster) if found else maps[0], found is not None
        self.weighed = [own_weights(part, value) for part, value in zip(found.parts, maps)] if found else maps
        self.affinities = affinities_of(found.cluster) if found else {}
        self.unrest = unrest_of(found.cluster) if found else {}

    def tree_of(self, cluster: Cluster) -> Map:
        """The cluster as one value: the buckets that are no shadows of device classes, each item once and with its
        own weight, also those of weight 0; all OSDs, pools and rules.
        """
        osds = {osd["id"]: osd for value in self.maps for osd in value["osds"]}
        rules = {rule["id"]: rule for value in self.maps for rule in value["rules"]}
        return {
            "buckets": cluster.shown(),
            "epoch": cluster.epoch,
            "osds": list(osds.values()),
            "pools": self.pools,
            "rules": [rules[number] for number in sorted(rules)],
            "max_osd": max(value["max_osd"] for value in self.maps),
        }

    def named_tree(self) -> Map:
        """The tree with every bucket of the maps beside it, in which words are looked up."""
        there = {bucket["id"] for bucket in self.tree["buckets"]}
        more = {bucket["id"]: bucket for value in self.maps for bucket in value["buckets"] if bucket["id"] not in there}
        return altered(self.tree, buckets=[*self.tree["buckets"], *more.values()])

    def map_of(self, pool: int) -> Map:
        """The map that has a pool; where none has it, the first."""
        return next((value for value in self.maps if any(own["id"] == pool for own in value["pools"])), self.maps[0])

    @property
    def has_weight_set(self) -> bool:
        """Whether a weight set is in force, so that no plan is made."""
        if self.found is not None:
            return self.found.cluster.has_weight_set
        return self.is_cluster and has_other_weights(self.maps[0], self.tree["buckets"])

    def primaries(self, program: Program, group: str | None = None) -> NamedPrimaries:
        """The primaries that are named for its groups, or for one of them; none where it is a map."""
        dump = {} if self.found is None else primaries_in(self.found.cluster.osd_dump, group)
        return NamedPrimaries(dump, self.maps, program)

    def no_plan(self, program: Program) -> str:
        """That no plan is made of it, as a weight set is in force. What reckons how much it moves comes in here."""
        from .moving_advice import compat_words

        return no_plan_words(compat_words(self.found.cluster, program) if self.found else "")

    def beside(self, now: ClusterView | None = None, is_unknown: bool = False) -> PoolsBeside:
        """The pools that were left out, with what may move of them where it becomes another, or nobody knows which."""
        states = [] if now is None or now.found is None else [now.found.cluster]
        return PoolsBeside() if self.found is None else beside(self.found.cluster, states, is_unknown)

    def shares(self, ups: dict[str, Up]) -> Shares:
        """The shares of the whole."""
        if not self.is_cluster:
            return Shares(self.tree, ups)
        return ClusterShares(self.tree, self.weighed, self.maps, ups)


class ClusterShares(Shares):
    """The shares of a cluster that may take several maps: each pool's by its own map, over one tree."""

    def __init__(self, tree: Map, weighed: list[Map], maps: list[Map], ups: dict[str, Up]) -> None:
        """Takes the tree, the maps as shares are reckoned, the maps by which groups are placed, and the up set of each
        group.
        """
        self.of_pool, self.placed = shares_by_pool(weighed), shares_by_pool(maps)
        super().__init__(tree, ups)

    def trees_for(self, pool: Pool) -> list[dict[int, int]]:
        """The weights of the OSDs that may have groups of the pool, by the map that has it."""
        return self.of_pool[pool["id"]].trees_for(pool)

    def reach_for(self, pool: Pool) -> ReachByRule:
        """What the pool's rule can give OSDs, by the weights that place its groups: those of a weight set in force."""
        return self.placed[pool["id"]].reach_for(pool)


def shares_by_pool(maps: list[Map]) -> dict[int, Shares]:
    """Of each pool the shares of the map that has it, without any group."""
    found: dict[int, Shares] = {}
    for value in maps:
        own = Shares(altered(value, pools=[]), {})
        found.update(dict.fromkeys((pool["id"] for pool in value["pools"]), own))
    return found


def own_weights(part: Cluster, value: Map) -> Map:
    """A map with the buckets' own weights."""
    return altered(value, buckets=[bucket_of(part, number, True) for number in part.kept])


def tree_in(path: str | None) -> list[Bucket] | None:
    """The cluster's tree in a file of names, where `import` has put one; a fault where it has another form. None of
    standard input, which was read for the names.
    """
    tree = None if path in (None, "-") else json_of(str(path)).get("tree")
    if tree is None:
        return None
    form = list_of(
        object_of(
            {
                "id": number_between(-(2**31), -1),
                "type": number_between(1, 15),
                "kind": one_of("uniform", "list", "tree", "straw", "straw2"),
                "items": list_of(
                    tuple_of(number_between(-(2**31), 2**31), number_between(0, 2**32 - 1)), 0, 2**20
                ),
            }
        ),
        0,
        2**20,
    )
    faults = list(form(tree, "tree"))
    if faults:
        raise Fault(f"{path}: {faults[0].path}: {faults[0].why}")
    types = {bucket["id"]: bucket["type"] for bucket in tree}
    items = [(item, bucket["type"]) for bucket in tree for item, _ in bucket["items"]]
    if (
        len(types) < len(tree)
        or len(dict(items)) < len(items)
        or any(item < 0 and types.get(item, 16) >= above for item, above in items)
    ):
        raise Fault(f"{path}: tree: its buckets are no forest")
    found: list[Bucket] = tree
    return found


def below_tree(value: Map, tree: list[Bucket]) -> dict[int, int] | None:
    """The weights of the OSDs of a tree; None where a map has an OSD in its buckets that the tree has not."""
    weights = {item: weight for bucket in tree for item, weight in bucket["items"] if item >= 0}
    own = {item for bucket in value["buckets"] for item, _ in bucket["items"] if item >= 0}
    return weights if own <= weights.keys() else None


def has_other_weights(value: Map, tree: list[Bucket] | None) -> bool:
    """Whether a map has another weight for an OSD than the tree of its cluster, in which it weighs something: that
    of a weight set.
    """
    weights = {item: weight for bucket in tree or [] for item, weight in bucket["items"] if item >= 0}
    return any(
        weights.get(item, weight) not in (0, weight) for bucket in value["buckets"] for item, weight in bucket["items"]
    )


def under_tree(value: Map, names: Names, tree: list[Bucket] | None) -> ClusterView:
    """A map under the tree of the cluster from which it comes, where that is known and has all its OSDs: what weighs
    0 stands there, and shares go by the weights that it has.
    """
    weights = below_tree(value, tree) if tree is not None else None
    if tree is None or weights is None:
        return ClusterView([value], names)
    buckets = [
        altered(bucket, items=[[item, weights.get(item, weight)] for item, weight in bucket["items"]])
        for bucket in value["buckets"]
    ]
    whole = ClusterView([value], names)
    whole.tree, whole.weighed, whole.is_cluster = altered(value, buckets=tree), [altered(value, buckets=buckets)], True
    return whole


def view_of(source: Source) -> ClusterView:
    """What a command works on: one map, or the maps of a cluster. A fault where a map is not lawful, or the cluster
    stays out.
    """
    if source.has_dumps:
        return cluster_view(source)
    source.check_map()
    return under_tree(map_in(source.paths[0], source.program), names_in(source.names), tree_in(source.names))


def view_with_sets(source: Source) -> tuple[ClusterView, dict[str, Up]]:
    """The same with the up set of each group, by one session for each map, and the primaries that entries name and
    affinities choose.
    """
    if not source.has_dumps:
        source.check_map()
        value, sets = map_with_sets(source.paths[0], source.program)
        return under_tree(value, names_in(source.names), tree_in(source.names)), sets
    view = cluster_view(source)
    return view, sets_in(view, source.program)


def sets_in(view: ClusterView, program: Program) -> dict[str, Up]:
    """The up set of each group of a cluster, with the primaries that entries name and affinities choose."""
    sets: dict[str, Up] = {}
    for value in view.maps:
        with monitor_of(value, program) as monitor:
            sets.update(monitor.pool_ups(value["pools"]))
    return as_in_ceph(view, sets, program)


def as_in_ceph(view: ClusterView, sets: Mapping[str, Up], program: Program) -> dict[str, Up]:
    """Up sets of a cluster as the program has them, with the primaries that entries name and affinities choose."""
    return all_with_affinity(view.pools, view.primaries(program).applied(sets), view.affinities)


def view_of_cluster(cluster: Cluster) -> ClusterView:
    """A cluster against which nothing is found, by its own names."""
    parts = map_clusters(cluster)
    maps = [map_of(part) for part in parts]
    return ClusterView(maps, cluster.all_names(), ImportedCluster(cluster, parts, maps))


def cluster_view(source: Source) -> ClusterView:
    """The cluster of two dumps, by its own names where no others are given. A fault where it stays out."""
    found = imported(source.dumps())
    for line in beside_lines(found.cluster):
        tell(line)
    return ClusterView(found.maps, names_in(source.names) if source.names else found.cluster.all_names(), found)


def has_crush_dump(path: str) -> bool:
    """Whether a file has a CRUSH dump, and so no map."""
    try:
        return path != "-" and is_crush_dump(json.loads(text_of(path)))
    except (ValueError, RecursionError):
        return False
