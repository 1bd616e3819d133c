"""Plans in words."""

from __future__ import annotations

from fractions import Fraction

from ..cluster.names import Names, named
from ..plans.all_pools import AllPools
from ..plans.best_plan import TriedPlan
from ..plans.json_forms import MovingParts, PlanParts, StayParts
from ..plans.plan import Outcome
from ..plans.shared_by import SharedBy
from ..program.session import MOST_MOVES
from ..words import counted, size_words, some
from .fill_words import fill_words, osd_words, room_words, spread_words, use_words
from .refusal_words import refusal_words

# Of how many OSDs that stay too full it is told why, and the words for what keeps a pool's groups there.
MOST_STAYS = 5
# Of more pools than these, so many are told of, the least even ones.
MANY_POOLS, TOLD_POOLS = 20, 10
# For how many hundreds of places it is told what they gain.
MOST_ROWS = 4
BY = {SharedBy.REACH: "by reach", SharedBy.WEIGHT: "by weight", SharedBy.JOINT: "by all pools"}
KEPT_BY = {
    "not planned": "none of its groups is moved",
    "failure domains": "all emptier OSDs stand in failure domains that have copies already",
    "shares": "its pool or all pools would get far from their shares",
    "sizes": "they would fill another OSD as much",
    "evenness": "groups or bytes would be less even than before the plan",
    "monitor": "the program or Ceph's monitor would not keep them elsewhere",
}


def left_words(left: list[str], why: str) -> str:
    """How many groups are left out, and why, where some are."""
    if not left:
        return ""
    count = "1 group is" if len(left) == 1 else f"{len(left)} groups are"
    return f"; {count} left out, whose pairs Ceph's monitor would take away again, by {why}"


def length_words(parts: PlanParts, deviation: Fraction | None) -> str:
    """How long a plan is, beside the one that a deviation asks for and the whole one."""
    wanted, length = parts["moves_within"], parts["moves_whole"]
    if length is None or deviation is None:
        return ""
    most = f"{float(deviation):g}"
    whole = f"{length} in the whole plan" if length < MOST_MOVES else f"{MOST_MOVES} in a plan of at most {MOST_MOVES}"
    if wanted is None:
        return f"; {whole}, which does not come within {most} of each share"
    return f"; {counted(wanted, 'move')} {'comes' if wanted == 1 else 'come'} within {most} of each share, {whole}"


def all_pools_words(found: AllPools | None, names: Names) -> list[str]:
    """How even the cluster is by all pools that can be placed, where only some were read."""
    if found is None:
        return []
    before, after = fill_words(found.before, names), fill_words(found.after, names)
    line = f"cluster by groups of all {len(found.pools)} pools that can be placed: before {before}; after {after}"
    worse = "it gets less even by this plan: --of-pool in place of --pools plans beside what OSDs carry of the others"
    return [line, *([f"cluster by groups of all pools: {worse}"] if found.is_worse else [])]


def pool_plan_words(parts: PlanParts, deviation: Fraction | None) -> str:
    """What a pool's plan is."""
    if parts["refused"] and parts["left_alone"]:
        return refusal_words(parts["refused"])
    if parts["refused"]:
        return f"{refusal_words(parts['refused'])}; it has {spread_words(parts['before'])}"
    return (
        f"{counted(parts['moves'], 'move')} of {counted(parts['groups'], 'group')}{length_words(parts, deviation)}; "
        f"before {spread_words(parts['before'])}; "
        f"after {spread_words(parts['after'])}{left_words(parts['left_out'], parts['left_out_by'])}"
    )


def stay_words(own: StayParts, names: Names) -> str:
    """What keeps an OSD far above what it is to have."""
    pools = [
        f"{counted(pool['groups'], 'group')} of {named(names, 'pools', pool['id'])}, {size_words(pool['bytes'])}: "
        f"{KEPT_BY[pool['by']]}"
        for pool in own["pools"]
    ]
    return f"stays: {osd_words(own, names, True)}; there {'; '.join(pools)}"


def data_words(outcome: Outcome, names: Names) -> list[str]:
    """What is told of the data: how full disks are, by what it is known, and which OSDs stop a plan."""
    before, after, data, found = outcome.before, outcome.after, outcome.data, list[str]()
    if "use" in before and "use" in after:
        found.append(f"by disks: before {use_words(before['use'], names)}; after {use_words(after['use'], names)}")
    if data is not None and data["pools_beside"]:
        beside = some([str(pool) for pool in data["pools_beside"]])
        found.append(f"by bytes: nothing is told, and no last pass is made, as other pools hold data too: {beside}")
    if data is not None and data["by"] == "means":
        found.append("data: by the mean of each pool; --pgs tells what each group holds")
    found += [stay_words(own, names) for own in (data["stays"] if data is not None else [])[:MOST_STAYS]]
    for osd, count in sorted(outcome.stopped.items()):
        found.append(
            f"stopped: {named(names, 'osds', osd)} would get nearly full by {counted(count, 'more step')}, "
            "left out here; --batch N --to FOLDER takes what is left out in later parts, as far as there is room then"
        )
    return found


def way_words(outcome: Outcome) -> list[str]:
    """By which shares a plan goes, where several ways were tried, and how much less pools may take on the way."""
    found = list[str]()
    if outcome.chosen is not None:
        told = "; ".join(f"{goals_words(way)} {worth_of_way(way)}" for way in outcome.chosen.ways)
        found.append(f"shares: the plan goes {goals_words(outcome.chosen.best)}; the fullest to its weight: {told}")
    if outcome.falls is not None:
        count, part = outcome.falls
        found.append(
            f"room on the way: MAX AVAIL of a pool is {100 * part:.1f} % less after {counted(count, 'command')}"
        )
    return found


def goals_words(way: TriedPlan) -> str:
    """By which shares a plan goes."""
    return ", then ".join(BY[goal] for goal in way.goals)


def worth_of_way(way: TriedPlan) -> str:
    """What a plan that was tried is worth."""
    by_bytes = "" if way.bytes is None else f"{way.bytes:.2f} by bytes, "
    less = "" if way.keeps_room else ", and less room than before"
    return f"{by_bytes}{way.groups:.2f} by groups, {counted(way.places, 'place')}{less}"


def best_words(outcome: Outcome) -> list[str]:
    """How full any plan leaves the fullest OSD; nothing where that is its share, which says nothing."""
    least = None if outcome.chosen is None else outcome.chosen.least
    if outcome.least <= 0 or outcome.least < 1.005 and least is None:
        return []
    to_weight = "" if least is None else f", and one at {least:.2f} of its share by weight"
    return [f"at best: any plan leaves the fullest at {outcome.least:.2f} of its share{to_weight}, or fuller"]


def cluster_words(outcome: Outcome, names: Names) -> list[str]:
    """How even the cluster is before and after its plans, a line each by groups, by bytes, and for the pool with most
    data.
    """
    before, after = outcome.before, outcome.after
    found = [f"by groups: before {fill_words(before['groups'], names)}; after {fill_words(after['groups'], names)}"]
    if before["bytes"] is not None and after["bytes"] is not None:
        words = fill_words(before["bytes"], names, True), fill_words(after["bytes"], names, True)
        found.append(f"by bytes: before {words[0]}; after {words[1]}")
    if outcome.largest is not None and before["room"] is not None and after["room"] is not None:
        name = named(names, "pools", outcome.largest)
        found.append(f"room of {name}, the pool with most data: {room_words(before['room'], after['room'])}")
    found += data_words(outcome, names) + way_words(outcome)
    if outcome.taken_out:
        count = len(outcome.taken_out)
        groups = "1 group is left where it is" if count == 1 else f"{count} groups are left where they are"
        found.append(f"as a whole: {groups}, or it would get less even, or an OSD fuller than the fullest")
    if not outcome.steps:
        found.append("as a whole: nothing to gain")
    found += best_words(outcome)
    if outcome.rest:
        found.append(f"as a whole: a plan over this one begins with {counted(outcome.rest, 'command')}")
    return [f"cluster {line}" for line in found]


def worth_words(outcome: Outcome, moving: MovingParts) -> list[str]:
    """What a plan costs and what it gains in its order, in a line each; nothing where no order is worth more."""
    if outcome.worth is None:
        return []
    count, worth = sum(len(step.commands) for step in outcome.steps), outcome.worth
    size = "" if moving["bytes"] is None else f", {size_words(moving['bytes'])}"
    (_, before), *rest, (places, after) = worth.fullest
    gained = f"the first {worth.first[0]} of {count} bring the fullest from {before:.2f} to {worth.first[1]:.2f}"
    gained = f"all bring the fullest from {before:.2f} to {after:.2f}" if worth.first[0] in (0, count) else gained
    told = [f"{ratio:.2f} after {counted(own, 'place')}" for own, ratio in [*rest[:MOST_ROWS], (places, after)]]
    return [
        f"cluster by cost: {counted(count, 'command')}, {counted(places, 'place')}{size}",
        f"cluster by gain: {gained}; {', '.join(told)}",
    ]


def quiet_words(quiet: int | None) -> list[str]:
    """From which number on Ceph's own balancer leaves a plan alone, in a line, if that is known."""
    words = "cluster by Ceph's own balancer: left alone where its upmap_max_deviation is"
    return [] if quiet is None else [f"{words} {quiet} or more (5 where nobody sets it)"]


def page_words(outcome: Outcome, names: Names) -> list[str]:
    """What a page says of plans: of the cluster, and of the pools that get none."""
    refused = [parts for parts in outcome.pools if parts["refused"]]
    return cluster_words(outcome, names) + [
        f"{parts['name']}: {refusal_words(parts['refused'] or '')}" for parts in refused
    ]


def plan_lines(outcome: Outcome, names: Names, deviation: Fraction | None) -> list[str]:
    """All that is told of plans: first of the cluster, then of each pool; of many pools, of those that stay farthest
    from their shares, and of some that get no plan.
    """
    told, rest = outcome.pools, list[str]()
    if len(told) > MANY_POOLS:
        worst = sorted(told, key=lambda parts: (-parts["after"]["farthest"], parts["id"]))
        told = [own for is_refused in (False, True) for own in worst if bool(own["refused"]) is is_refused][:TOLD_POOLS]
        told += [parts for parts in worst if parts["refused"] and parts not in told][:TOLD_POOLS]
        told += [parts for parts in worst if parts["left_alone"] and parts not in told]
        left = [parts["after"]["farthest"] for parts in worst if parts not in told]
        rest = [f"pools: {len(left)} more, at most {max(left):.2f} from a share; --json tells each"] if left else []
    return cluster_words(outcome, names) + [f"{own['name']}: {pool_plan_words(own, deviation)}" for own in told] + rest
