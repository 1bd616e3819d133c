"""What is looked at before OSDs are emptied: whether they are there and may be emptied, and whether a pool would be
short without them.
"""

from __future__ import annotations

from collections.abc import Iterable, Mapping, Sequence
from itertools import groupby, zip_longest

from ..cluster.cluster import Cluster
from ..cluster.judge import Judge, Places, judge_of_cluster
from ..cluster.names import pool_words, step_words
from ..faults import Fault
from ..program.maps import group_key
from ..words import counted, listed, some
from .guards import is_guard
from .printed_commands import FORM, PrintedCommand, defect

# Whose items all have one weight, so that none of them has another by itself.
UNIFORM = "uniform"
AT = "`hold --pgs PGS` stops what is moving still"


def osds_listed(osds: Iterable[int]) -> str:
    """OSDs by their numbers."""
    return listed([f"osd.{osd}" for osd in sorted(osds)])


def check_weights(cluster: Cluster, osds: frozenset[int]) -> None:
    """A fault for OSDs that no weight of their own can empty: those that are out already, that stand in no bucket, or
    beside others in a uniform bucket.
    """
    faults = []
    out = {osd for osd in osds if cluster.osds[osd]["weight"] == 0}
    if out:
        are = "is" if len(out) == 1 else "are"
        faults.append(f"{osds_listed(out)} {are} out already, and no exception keeps a group there: {AT}")
    for osd in sorted(osds - out):
        holders = [bucket for bucket in cluster.buckets.values() if osd in cluster.listed_in(bucket["id"])]
        if not holders:
            faults.append(f"osd.{osd} stands in no bucket")
        beside = {item for own in holders if own["alg"] == UNIFORM for item in cluster.listed_in(own["id"])} - osds
        if beside:
            faults.append(
                f"osd.{osd} stands in a uniform bucket, whose items all have one weight: {osds_listed(beside)} would "
                f"be emptied too"
            )
    if faults:
        raise Fault(*faults, "nothing is drained")


def lives_below(judge: Judge, bucket: int, gone: frozenset[int], weights: Mapping[int, float]) -> bool:
    """Whether an OSD of some weight is left below a bucket."""
    return any(weights.get(osd, 0.0) > 0 for osd in judge.below(bucket) - gone if osd >= 0)


def domain_words(judge: Judge, rule: int, gone: frozenset[int]) -> str:
    """How many buckets of each type that a rule chooses still have an OSD of some weight."""
    found, weights = [], judge.weights(rule)
    for step in judge.tree.rules[rule]:
        if step[0].startswith("choose"):
            buckets = {own for root in judge.takes(rule) for own in judge.of_type(root, step[2])} if step[2] else set()
            osds = {osd for osd in weights if weights[osd] > 0} - gone
            count = sum(lives_below(judge, own, gone, weights) for own in buckets) if step[2] else len(osds)
            found.append(f"{count} left for the step {step_words(step, judge.tree.names)}")
    return ", ".join(dict.fromkeys(found))


def check_rules(cluster: Cluster, osds: frozenset[int]) -> None:
    """A fault for pools whose rule would have no OSD left."""
    names, judge, faults = cluster.all_names(), judge_of_cluster(cluster), []
    for pool in cluster.pools:
        weights = judge.weights(pool["crush_rule"])
        has = {osd for osd, weight in weights.items() if weight > 0}
        if has and has <= osds:
            faults.append(f"{pool_words(names, pool['pool'])}: its rule takes these OSDs alone")
    if faults:
        raise Fault(*faults, "nothing is drained")


def taken(places: Places) -> int:
    """How many places of a set are taken."""
    return len(places) - list(places).count(None)


def short_lines(
    cluster: Cluster, osds: frozenset[int], was: Mapping[str, Places], then: Mapping[str, Places]
) -> list[str]:
    """The groups that would have fewer places without some OSDs, pool by pool, with what is left for their rules."""
    names, judge, found = cluster.all_names(), judge_of_cluster(cluster), []
    for pool in cluster.pools:
        own = [group for group in was if group_key(group)[0] == pool["pool"]]
        short = sorted((group for group in own if taken(then[group]) < taken(was[group])), key=group_key)
        if short:
            least = min(taken(then[group]) for group in short)
            why = domain_words(judge, pool["crush_rule"], osds)
            found.append(
                f"{pool_words(names, pool['pool'])}: {counted(len(short), 'group')} cannot go, and would have "
                f"{least} of {counted(pool['size'], 'place')}, with {why}: {some(short)}"
            )
    return found


def check_short(cluster: Cluster, osds: frozenset[int], was: Mapping[str, Places], then: Mapping[str, Places]) -> None:
    """A fault where pools would be short without some OSDs."""
    found = short_lines(cluster, osds, was, then)
    if found:
        raise Fault(*found, "nothing is drained")


def check_round(script: str, before: Sequence[str], behind: Sequence[str]) -> None:
    """A fault where a script has other lines before its commands on exceptions, or behind them, than it is to have;
    comments and guards aside.
    """
    own = [line for line in script.splitlines() if line and line[0] != "#" and line != "set -e" and not is_guard(line)]
    wanted = [*before, *(line for line in own if FORM.fullmatch(line)), *behind]
    unlike = next((one or other for one, other in zip_longest(own, wanted) if one != other), None)
    if unlike is not None:
        raise defect(unlike, "it stands elsewhere, or something stands where it should")


def check_each_once(parts: Sequence[Sequence[PrintedCommand]]) -> None:
    """A fault where the commands of a group do not all stand together in one part."""
    seen = set[str]()
    for group, commands in ((group, list(own)) for part in parts for group, own in groupby(part, key=group_named_by)):
        if group in seen:
            raise defect(commands[0].line, f"{group} has moved before")
        seen.add(group)


def group_named_by(command: PrintedCommand) -> str:
    """The group of a command."""
    return command.group


def check_once(words: Sequence[str], osds: Sequence[Sequence[int]]) -> None:
    """A fault for an OSD that several words name."""
    seen: dict[int, str] = {}
    for word, own in zip(words, osds):
        for osd in own:
            if osd in seen:
                raise Fault(f"osd.{osd} is named twice, by {seen[osd]} and {word}")
            seen[osd] = word
