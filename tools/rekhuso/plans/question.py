"""What moves if commands are given to a cluster: two runs over all groups, and their difference."""

from __future__ import annotations

from collections.abc import Sequence
from contextlib import ExitStack
from dataclasses import dataclass

from ..cluster.affinity import affinities_of, all_with_affinity, applied_words
from ..cluster.aftermath import Aftermath, Arrival, Command, NewMap, StateChange, aftermath
from ..cluster.cleanup import reason_words
from ..cluster.conversion import monitor_of
from ..cluster.difference import moved_parts
from ..cluster.entry_forms import exceptions_in
from ..cluster.followed import session_over
from ..cluster.flows import fewer_in, flows, fullest_by_count, fullest_by_share, short_in, thin_sets
from ..cluster.map_dumps import cluster_of_map
from ..cluster.misplaced import check_misplaced, misplaced_of
from ..cluster.moving import erasure_pools, other_sets, with_split_groups
from ..cluster.outage import check_outage, outage_of
from ..cluster.primaries import NamedPrimaries, rested_words
from ..cluster.unrest import told_unrest, unrest_lines
from ..cluster.view import ClusterView, view_of_cluster
from ..faults import Fault
from ..program.answers import Up
from ..program.map_forms import GROUPS, POOLS, change_form, key_of, parts_of
from ..program.maps import Change, Entry, Map, Program, excepted_groups, group_key, written
from ..values import SLOTS
from ..words import some
from .json_forms import FlowParts


@dataclass(frozen=True, **SLOTS)
class ClusterSets:
    """The sets of a cluster's groups by its maps, the primaries that are named for them, and the pools that could not
    be balanced, each with why.
    """

    ups: dict[str, Up]
    primaries: NamedPrimaries
    refused: list[Entry]


def sets_of_maps(maps: Sequence[Map], program: Program) -> dict[str, Up]:
    """What the program answers over the maps of a cluster."""
    found: dict[str, Up] = {}
    for value in maps:
        with session_over(value, program) as monitor:
            found.update(monitor.pool_ups(value["pools"]))
    return found


def sets_of(whole: ClusterView, program: Program) -> ClusterSets:
    """What the program answers over a cluster."""
    return ClusterSets(sets_of_maps(whole.maps, program), whole.primaries(program), [])


@dataclass(frozen=True, **SLOTS)
class Balance:
    """That a cluster is balanced after a change: also amid an outage, or not then."""

    is_anyway: bool


def balanced_sets(whole: ClusterView, program: Program, balance: Balance) -> ClusterSets:
    """The same once the cluster is balanced by the plan that `plan` makes. A fault where a weight set is in force, or
    amid an outage unless it is balanced anyway. What plans comes in here: it takes long, and few ask for it.
    """
    from .after_plan import after_steps
    from .plan import DEFAULT_WISH, misplaced_in, opened, outage_in, planned

    with ExitStack() as stack:
        lives = opened(stack, whole, program, balance.is_anyway)
        check_outage(outage_in(lives), balance.is_anyway)
        check_misplaced(misplaced_in(lives, whole), balance.is_anyway)
        outcome = planned(lives, DEFAULT_WISH)
    found = {group: up for live in lives for group, up in live.before.ups.items()}
    for step in outcome.steps:
        first = next((osd for osd in step.now if osd is not None), None)
        found[step.group] = found[step.group]._replace(places=step.now, primary=first)
    refused = [[parts["id"], parts["refused"]] for parts in outcome.pools if parts["refused"]]
    return ClusterSets(found, after_steps(whole, outcome.steps).primaries(program), refused)


def pool_in(entry: Entry | int | str) -> int:
    """The pool that an entry of a change names, by its id or by a group."""
    key = key_of(entry)
    return key if isinstance(key, int) else int(key.split(".")[0])


def change_for(value: Map, change: Change, maps: list[Map]) -> Change:
    """What of a change concerns one map of several: what it says of OSDs, and of pools and groups of this map; what
    it says of pools that are in none goes to the first, whose refusal tells it. A fault for a part that no cluster
    of several maps can be given.
    """
    if len(maps) == 1 or list(change_form(True)(change, "")):
        return change
    whole = [key for key in ("new_crush", "new_pools") if key in change]
    if whole:
        raise Fault(f"{whole[0]}: the cluster takes {len(maps)} maps: import one by --pools, and ask of that")
    own = {pool["id"] for pool in value["pools"]}
    others = {pool["id"] for each in maps for pool in each["pools"]} - own
    found = dict(change)
    for key in parts_of(POOLS, GROUPS):
        if key in change:
            mine = [
                entry
                for entry in change[key]
                if (number := pool_in(entry)) in own or number not in others and value is maps[0]
            ]
            found.pop(key)
            found.update({key: mine} if mine else {})
    return found


def accepted(maps: list[Map], change: Change, program: Program) -> Command:
    """A change as a command, once the program accepts it over each map. A fault where it does not."""
    change = {"base": maps[0]["epoch"], **change}
    for value in maps:
        with monitor_of(value, program) as monitor:
            answer = monitor.raw([f"change {written(change_for(value, change, maps))}"])[0]
            if not answer.startswith("ok "):
                raise Fault(f"the change is refused: {answer.removeprefix('err ')}")
            if "new_crush" in change:
                return NewMap(monitor.dump())
    return StateChange(change)


class Question:
    """A cluster, or the one that a map alone tells of, with the sets that it has before anything is changed."""

    def __init__(self, whole: ClusterView, program: Program, balance: Balance | None = None) -> None:
        """Takes what a command works on, and how the cluster is balanced after a change, if it is; asks the program for
        the sets.
        """
        self.whole, self.program, self.balance = whole, program, balance
        self.cluster = whole.found.cluster if whole.found else cluster_of_map(whole.maps[0], whole.names)
        self.affinities = affinities_of(self.cluster)
        answers = sets_of(whole, program)
        self.primaries, self.before = answers.primaries, self.as_in_ceph(whole, answers)
        self.outage = outage_of(whole.tree["osds"], whole.pools, self.before)
        self.misplaced = misplaced_of(self.cluster.osd_dump, self.before)

    def warnings(self) -> list[str]:
        """What is told before anything else: an outage, that the cluster moves already, and what becomes of pools that
        are not at rest.
        """
        return [str(found) for found in (self.outage, self.misplaced) if found is not None] + unrest_lines(self.cluster)

    def as_in_ceph(self, whole: ClusterView, answers: ClusterSets) -> dict[str, Up]:
        """The sets of a cluster with the primaries that are named, and those that affinities choose."""
        return all_with_affinity(whole.pools, answers.primaries.applied(answers.ups), self.affinities)

    def result(self, steps: list[Command]) -> tuple[FlowParts, ClusterView]:
        """What some commands move, and the cluster after them."""
        course = aftermath(self.cluster, steps, self.program)
        whole = view_of_cluster(course.cluster)
        if self.balance is None:
            answers = sets_of(whole, self.program)
        else:
            answers = balanced_sets(whole, self.program, self.balance)
        found = self.told(course, whole, answers)
        if not self.whole.found and any(isinstance(step, Arrival) for step in steps):
            found["notes"].append(
                "the id of the new host's bucket is a guess, by which the moves go: a map alone does not tell "
                "which ids are taken, the dumps do"
            )
        return found, whole

    def notes(self, course: Aftermath) -> list[str]:
        """What else is told of the cluster after some commands."""
        found = []
        if course.gone:
            found.append(
                f"{len(course.gone)} of {self.count()} groups with exceptions lose them, as Ceph's monitor takes them "
                f"away: {reason_words(course.gone.values())}"
            )
        if course.fewer:
            found.append(f"{some(course.fewer)} lose pairs that do nothing then")
        if course.later:
            found.append(f"{some(sorted(course.later, key=group_key))} lose exceptions at the map after it")
        return found + ([applied_words(self.affinities)] if self.affinities else [])

    def count(self) -> int:
        """How many groups have exceptions before anything is changed."""
        return len(excepted_groups(exceptions_in(self.cluster.osd_dump)))

    def told(self, course: Aftermath, whole: ClusterView, answers: ClusterSets) -> FlowParts:
        """All that is told of the cluster after some commands."""
        pools, erasure = whole.pools, erasure_pools(whole.pools)
        before = with_split_groups(self.before, self.whole.pools, pools)
        ups, rested = self.as_in_ceph(whole, answers), self.primaries.rested(answers.primaries)
        sizes = {pool["id"]: pool["size"] for pool in pools}
        least = {pool["pool"]: pool["min_size"] for pool in course.cluster.pools if "min_size" in pool}
        thin = thin_sets(ups, max([*sizes.values(), *least.values()], default=0))
        short, shares, other = short_in(thin, sizes), whole.shares(ups), other_sets(before, ups)
        moved, total = flows(other, erasure), moved_parts(other, erasure)
        return {
            "groups": total["groups"],
            "places": total["places"],
            "short": short,
            "short_anew": fewer_in(short, before, ups, sizes),
            "below_min_size": fewer_in(short_in(thin, least), before, ups, least),
            "fullest_by_count": fullest_by_count(shares.counts),
            "fullest_by_share": fullest_by_share(shares),
            "exceptions": {
                "before": self.count(),
                "gone": sorted(course.gone, key=group_key),
                "fewer": sorted(course.fewer, key=group_key),
            },
            "outage": None if self.outage is None else {"down": self.outage.down, "short": len(self.outage.short)},
            "misplaced": None if self.misplaced is None else self.misplaced.parts(),
            "unrest": told_unrest(self.cluster),
            "notes": self.notes(course) + ([rested_words(rested)] if rested else []),
            "idle_primaries": rested,
            "unbalanced": answers.refused,
            "flows": [[*pair, count] for pair, count in sorted(moved.items(), key=lambda own: (-own[1], own[0]))],
        }
