"""Plans of a cluster's pools as steps, and how even the pools and the cluster are before and after them."""

from __future__ import annotations

from collections import Counter
from collections.abc import Callable
from contextlib import ExitStack
from dataclasses import dataclass, replace
from fractions import Fraction
from itertools import groupby

from ..cluster.cleanup import going, reason_words
from ..cluster.cluster import Cluster
from ..cluster.conversion import monitor_of
from ..cluster.disks import NEARFULL
from ..cluster.judge import Reason, judge_of_cluster, judge_of_map
from ..cluster.misplaced import Misplaced, misplaced_of
from ..cluster.names import named
from ..cluster.outage import Outage, outage_of
from ..cluster.pool_data import Data
from ..cluster.unrest import unrest_of
from ..cluster.view import ClusterView
from ..faults import Fault
from ..program.maps import Program, group_key
from ..program.session import MOST_MOVES
from ..values import SLOTS
from .again import after, moved_data, steps_between
from .best_plan import BesideWeights, Chosen, best_of
from .bounds import Measure
from .busy import ALL, MostBusy, NO_LIMIT
from .byte_aims import ByteAims
from .byte_rounds import Passed, planned_by_data
from .cycles import without_cycles
from .gains import command_count, gains
from .shared_by import SharedBy
from .hindrances import hindrances_by_mending
from .joint_shares import lay_joint, least_to_weight
from .json_forms import ClusterParts, DataParts, HindranceParts, PlanParts
from .last_pass import NEAR
from .least import least_of
from .max_avail import LESS
from .measures import Measures, counts_after, pool_spread
from .mend import mended
from .pair_plans import PairPlanner
from .parts import even_parts, first_steps, measure_of_steps, order_of_steps, ordered_parts
from .pool_plans import PoolPlan, pool_plans
from .rooms import DATA_FIRST, FITTED, Rooms, SCHEME_FIRST
from .rounds import Live, Planner, SMALL_CLUSTER, left_out
from .spare import spared
from .step_order import limited, parts_in_order
from .steps import PlanStep, appended_pairs, batches, steps_by_pool, steps_of
from .worth import Worth, kept_until, until, worth_of

# How many groups an OSD may be from its share after a plan, where nothing else is asked for.
DEVIATION = Fraction(1)


@dataclass(frozen=True, **SLOTS)
class Wish:
    """What plans are asked for: the pools that are named (all of several groups where none is), how near its shares a
    plan brings OSDs, how many commands or moves there are at most, how many commands stand in a part, whether each pool
    is planned by itself, whether the plan is for room alone, whether it goes by weights, whatever the rules can give,
    what the pools hold, how full a disk may get, in how many moves of a part OSDs take part at most, to which ratio to
    its share the fullest OSD is to come, if no further, whether the plan goes by what the rule of each pool can give,
    whatever else would be better, and whether pools may take less after it.
    """

    named: frozenset[int]
    deviation: Fraction | None
    most: int
    batch: int
    is_alone: bool
    is_room: bool
    is_by_weight: bool
    data: Data | None
    nearfull: float
    busy: MostBusy = NO_LIMIT
    until: float | None = None
    is_by_reach: bool = False
    is_free: bool = False

    def half(self) -> int:
        """Half of what two OSDs must differ by for a move, in 256ths of a group."""
        return round(256 * (DEVIATION if self.deviation is None else self.deviation))


# How many plans are made, one over the other, before the commands of a further one are told: of a cluster of as many
# pools, times the OSDs, as its last moves are looked for one by one, and of a greater one.
MOST_PLANS, FEW_PLANS = 32, 4
# How many plans that are each the best of several are made, one over the other, before the same is told.
MOST_TURNS = 4
# The plan of a whole cluster, where nothing else is asked for.
DEFAULT_WISH = Wish(frozenset(), None, ALL, ALL, False, False, False, None, NEARFULL)


@dataclass(frozen=True, **SLOTS)
class Outcome:
    """What plans are: the steps in the parts in which they are taken, the groups whose steps were taken out for the
    sake of the cluster, what is told of each pool and of the cluster before and after, the pool with most data, if it
    is known, the OSDs that would get nearfull by steps that are left for their sake, each with how many, what is told
    of the data, by what OSDs are full on the way, where the steps stand in an order, how many commands a further plan
    has over this one, what the commands are worth in their order, and how full any plan leaves the
    fullest OSD at least; by what OSDs share the places of pools, beside other ways that were tried; and after how many
    commands the pool that loses most may take least, by which part less than before, where one may take less.
    """

    parts: list[list[PlanStep]]
    taken_out: list[str]
    pools: list[PlanParts]
    before: ClusterParts
    after: ClusterParts
    largest: int | None
    stopped: dict[int, int]
    data: DataParts | None
    measure: Measure | None
    rest: int = 0
    worth: Worth | None = None
    least: float = 0.0
    chosen: Chosen | None = None
    falls: tuple[int, float] | None = None

    @property
    def steps(self) -> list[PlanStep]:
        """All steps in their order."""
        return [step for part in self.parts for step in part]


@dataclass(frozen=True, **SLOTS)
class PlannedSteps:
    """What has been planned: why a pool has no plan, the groups that are left out, each with the reason, the plans of
    pools by themselves, the steps, the groups whose steps come first, what keeps OSDs far above what they are to have,
    and whether all pools are at rest by the steps.
    """

    refusals: dict[int, str]
    left: dict[str, Reason]
    plans: dict[int, PoolPlan]
    steps: list[PlanStep]
    first: frozenset[str]
    stays: dict[int, list[HindranceParts]]
    is_at_rest: bool


def alone_steps(lives: list[Live], wanted: list[int], wish: Wish) -> PlannedSteps:
    """Plans pools each by itself, and takes back what is left out."""
    plans: dict[int, PoolPlan] = {}
    gone: dict[str, Reason] = {}
    steps: list[PlanStep] = []
    for live in lives:
        own = {number: PoolPlan(0, why, None, None) for number, why in live.refusals().items()}
        free = [pool for number, pool in live.pools.items() if number in wanted and number not in own]
        own.update(pool_plans(live, free, wish.deviation, wish.most))
        left = left_out(live, live.changed())
        come = appended_pairs(live.value, live.session.dump())
        if left:
            live.take_back(list(left))
        kept, lost = steps_in(live)
        left.update(lost)
        for number in own.keys() & set(wanted):
            plan = own[number]
            pairs = sum(len(pairs) for group, pairs in come.get(number, {}).items() if group in left)
            plans[number] = PoolPlan(plan.moves - pairs, plan.refusal, plan.wanted, plan.whole)
        gone.update(left)
        steps += kept
    refusals = {number: plan.refusal for number, plan in plans.items() if plan.refusal}
    return PlannedSteps(refusals, gone, plans, steps, frozenset(), {}, False)


def cluster_steps(
    lives: list[Live],
    wanted: list[int],
    wish: Wish,
    aims: ByteAims | None,
    rooms: Rooms | None,
    tell: Callable[[str], None],
) -> PlannedSteps:
    """Plans pools for the sake of the whole cluster, by data where it is known what all of them hold, and no more to
    any disk than it has room for.
    """
    planner, passed = Planner(lives, wanted, wish.data, wish.half()), Passed([], [], {})
    planner.by_pairs = PairPlanner()
    planner.is_one_of_several = wish.deviation is None and len(goals_of(lives, wish)) > 1
    if aims is not None and aims.is_whole:
        most = wish.most if wish.most < ALL else None
        passed = planned_by_data(planner, aims, wish.is_room, most, rooms, tell)
    else:
        planner.play(tell)
    for number in {group_key(group)[0] for group in passed.moved}:
        planner.refusals.pop(number, None)
    left, steps = planner.left, []
    for live in lives:
        kept, lost = steps_in(live)
        left.update(lost)
        steps += kept
    has_unfit = rooms is not None and bool(rooms.by_scheme)
    is_at_rest = planner.is_at_rest and not (left or passed.moved or has_unfit or planner.goes_on())
    return PlannedSteps(planner.refusals, left, {}, steps, frozenset(passed.first), passed.stays, is_at_rest)


def steps_in(live: Live) -> tuple[list[PlanStep], dict[str, Reason]]:
    """The steps from a map to what its session has now, with the fewest pairs; and the groups without a step, as a
    monitor would take away what it gives them, each with the reason. Afterwards no other session is like it.
    """
    ups, new = live.session.ups(live.changed()), live.settle()
    steps = steps_of(live.value, live.kept, new, live.before.ups, ups)
    lost = going(live.judge, live.session, new, [step.group for step in steps])
    return [step for step in steps if step.group not in lost], lost


def wanted_of(lives: list[Live], wish: Wish) -> list[int]:
    """The pools that are to be planned: those that are named, else all of several groups, and by themselves all."""
    pools = {number: pool for live in lives for number, pool in live.pools.items()}
    if wish.named or wish.is_alone:
        return sorted(number for number in pools if number in wish.named or not wish.named)
    return sorted(number for number, pool in pools.items() if pool["pg_num"] > 1)


def leave_alone(lives: list[Live], cluster: Cluster, is_anyway: bool) -> None:
    """Leaves the pools of a cluster alone that are not at rest, unless they are planned nonetheless."""
    for live in lives if not is_anyway else ():
        live.leave_alone({number: own.why() for number, own in unrest_of(cluster).items()})


def opened(stack: ExitStack, whole: ClusterView, program: Program, is_anyway: bool = False) -> list[Live]:
    """The maps of a cluster with a session each, which end with the stack, where pools that are not at rest are left
    alone unless they are planned nonetheless. A fault where a weight set is in force.
    """
    if whole.has_weight_set:
        raise Fault(whole.no_plan(program))
    sessions = [stack.enter_context(monitor_of(value, program, True)) for value in whole.maps]
    if whole.found:
        lives = [
            Live(value, part.kept_exceptions(), whole.names, judge_of_cluster(part), session)
            for value, part, session in zip(whole.maps, whole.found.parts, sessions)
        ]
        leave_alone(lives, whole.found.cluster, is_anyway)
        return lives
    return [
        Live(value, value, whole.names, judge_of_map(value, whole.names), session)
        for value, session in zip(whole.maps, sessions)
    ]


def outage_in(lives: list[Live]) -> Outage | None:
    """The outage that a cluster is amid; None where it is amid none."""
    osds = {osd["id"]: osd for live in lives for osd in live.value["osds"]}
    pools = [pool for live in lives for pool in live.pools.values()]
    return outage_of(osds.values(), pools, {group: up for live in lives for group, up in live.before.ups.items()})


def misplaced_in(lives: list[Live], whole: ClusterView) -> Misplaced | None:
    """What of a cluster is still to come to its OSDs; None where nothing is, or where it is a map."""
    ups = {group: up for live in lives for group, up in live.before.ups.items()}
    return misplaced_of(whole.found.cluster.osd_dump, ups) if whole.found else None


def silent(_: str) -> None:
    """Tells nobody how far a plan is."""


def kept_steps(measures: Measures, made: PlannedSteps, wish: Wish) -> list[PlanStep]:
    """The steps as the groups are numbered; for the sake of the cluster without those that leave it less even."""
    steps = sorted(made.steps, key=lambda step: group_key(step.group))
    return mended(measures.room_gauges(), steps) if wish.is_alone else mended(measures.gauges(), steps)


def without(steps: list[PlanStep], kept: list[PlanStep]) -> list[str]:
    """The groups whose steps are not kept."""
    return sorted({step.group for step in steps} - {step.group for step in kept}, key=group_key)


def outcome_of(
    measures: Measures,
    wanted: list[int],
    made: PlannedSteps,
    parts: list[list[PlanStep]],
    taken_out: list[str],
    stopped: dict[int, int],
) -> Outcome:
    """What plans are, with what is told of the pools that were planned and of the cluster, before and after the parts
    of what is kept.
    """
    steps = [step for part in parts for step in part]
    of_pool = steps_by_pool(steps)
    after = {number: counts_after(own, of_pool.get(number, [])) for number, own in measures.counts.items()}
    left = dict[int, dict[str, Reason]]()
    for group, why in made.left.items():
        left.setdefault(group_key(group)[0], {})[group] = why
    pools = [
        pool_parts(measures, number, replace(made, left=left.get(number, {})), after[number], of_pool.get(number, []))
        for number in wanted
    ]
    ends = measures.told(measures.counts), measures.told(after, steps)
    data = measures.data_parts(steps, made.stays)
    return Outcome(parts, taken_out, pools, *ends, measures.largest(), stopped, data, None)


@dataclass(frozen=True, **SLOTS)
class Pass:
    """One plan over a cluster as it is: what has been planned, the steps that are kept, those that were taken out for
    the sake of the cluster, and by what all is measured.
    """

    made: PlannedSteps
    steps: list[PlanStep]
    taken_out: list[str]
    measures: Measures

    def is_last(self) -> bool:
        """Whether a plan over what this one makes is empty, as far as is known without making it."""
        return not self.steps or self.made.is_at_rest and len(self.steps) == len(self.made.steps)


def passed_over(
    lives: list[Live], wanted: list[int], wish: Wish, rooms: Rooms | None, tell: Callable[[str], None]
) -> Pass:
    """Plans pools of a cluster once; nothing where nothing is gained."""
    lay_joint(lives, wanted, wish.data)
    aims = None if wish.data is None else ByteAims(lives, wish.data)
    if rooms is not None and aims is not None:
        rooms.begin(lives, aims)
    made = alone_steps(lives, wanted, wish) if wish.is_alone else cluster_steps(lives, wanted, wish, aims, rooms, tell)
    measures = Measures(lives, wish.data, aims, not wish.is_free)
    kept = kept_steps(measures, made, wish)
    taken_out = without(made.steps, kept)
    if aims is not None and aims.is_whole and not wish.is_alone:
        made = replace(made, stays={**hindrances_by_mending(lives, aims, made.steps, kept), **made.stays})
        kept = kept if wish.is_room else spared(measures, kept, made.first, wish.half() / 256)
    kept = without_cycles(measures, kept)
    return Pass(made, kept if gains(measures, kept, wish.is_alone) else [], taken_out, measures)


def most_plans(lives: list[Live], wanted: list[int]) -> int:
    """How many plans of some pools are made, one over the other, at most."""
    osds = {osd for live in lives for osd in live.before.wanted}
    return MOST_PLANS if len(wanted) * len(osds) <= SMALL_CLUSTER else FEW_PLANS


def fitted(own: Pass, nearfull: float) -> Pass:
    """A plan without the steps that would fill disks too far in one part, and without those that leave the cluster less
    even beside these.
    """
    order = order_of_steps(own.measures, own.steps, own.made.first, nearfull)
    kept = [step for part in parts_in_order(order, ALL, True) for step in part]
    return replace(own, steps=mended(own.measures.gauges(), kept) if order.left else own.steps)


def first_pass(
    lives: list[Live], wanted: list[int], wish: Wish, rooms: Rooms | None, tell: Callable[[str], None]
) -> Pass:
    """The first plan of a course; where a whole plan is to come first, what of it fits."""
    if rooms is not None and rooms.way == FITTED:
        return fitted(passed_over(lives, wanted, wish, None, tell), wish.nearfull)
    return passed_over(lives, wanted, wish, rooms, tell)


@dataclass(frozen=True, **SLOTS)
class PlanCourse:
    """Plans over one another until one is empty: these, what all of them make, how many commands a further one has that
    is not made, and how much could come to each disk.
    """

    passes: list[Pass]
    steps: list[PlanStep]
    rest: int
    rooms: Rooms | None

    def is_stopped(self) -> bool:
        """Whether steps are left for the sake of nearly full OSDs."""
        return self.rooms is not None and self.rooms.has_stopped

    def fullest(self) -> float:
        """How full all leave the fullest OSD by data, as it is told, where that is above what is near its share."""
        used = self.passes[0].measures.bytes(self.steps)
        return round(max(1 + NEAR, 0.0 if used is None else used.fullest()), 2)


def course_of(
    lives: list[Live], wanted: list[int], wish: Wish, rooms: Rooms | None, tell: Callable[[str], None]
) -> PlanCourse:
    """Plans pools of a cluster until a plan over what has been made is empty."""
    first, found, most = lives, [first_pass(lives, wanted, wish, rooms, tell)], most_plans(lives, wanted)
    is_cut = (wish.is_alone or wish.data is not None) and wish.most < (MOST_MOVES if wish.is_alone else ALL)
    while not (is_cut or found[-1].is_last()) and len(found) <= most:
        lives = [after(live, found[-1].steps) for live in lives]
        if wish.data is not None:
            wish = replace(wish, data=moved_data(wish.data, found[-1].measures.sizes, found[-1].steps))
        found.append(passed_over(lives, wanted, wish, rooms, tell))
    rest = command_count(found[-1].steps) if len(found) > most else 0
    applied = [own for own in found if own.steps][: most if rest else None]
    if len(applied) < 2:
        return PlanCourse(found[:1], found[0].steps, rest, rooms)
    if found[-1] is applied[-1]:
        lives = [after(live, found[-1].steps) for live in lives]
    steps = [step for one, other in zip(first, lives) for step in steps_between(one, other)]
    return PlanCourse(applied, steps, rest, rooms)


def best_course(lives: list[Live], wanted: list[int], wish: Wish, tell: Callable[[str], None]) -> PlanCourse:
    """The same within what may come to disks in one part; no parts are asked for then, behind each of which there is
    other room. Where steps are left for the sake of disks, and an OSD stays above what is near its share, the way is
    taken by which the fullest gets least full, in a cluster of not too many pools and OSDs.
    """
    lay_joint(lives, wanted, wish.data)
    has_disks = wish.data is not None and bool(wish.data.disks) and wish.batch == ALL and not wish.is_alone
    aims = ByteAims(lives, wish.data) if wish.data is not None and has_disks else None
    if aims is None or not aims.disks:
        return course_of(lives, wanted, wish, None, tell)
    found = [course_of(lives, wanted, wish, Rooms(lives, aims, wish.nearfull, SCHEME_FIRST), tell)]
    is_one = not found[0].is_stopped() or wish.most < ALL or most_plans(lives, wanted) < MOST_PLANS
    for way in () if is_one else (DATA_FIRST, FITTED):
        if min(map(PlanCourse.fullest, found)) > 1 + NEAR:
            again = [after(live, []) for live in lives]
            found.append(course_of(again, wanted, wish, Rooms(again, aims, wish.nearfull, way), tell))
    return min(found, key=PlanCourse.fullest)


def as_one(passes: list[Pass], steps: list[PlanStep]) -> PlannedSteps:
    """What several plans have planned, one over the other, as one plan of these steps."""
    made, moved = passes[0].made, {step.group for step in steps}
    plans = {
        number: replace(own, moves=sum(one.made.plans[number].moves for one in passes))
        for number, own in made.plans.items()
    }
    left = {group: why for one in passes for group, why in one.made.left.items() if group not in moved}
    first = frozenset().union(*(one.made.first for one in passes)) & moved
    return PlannedSteps(made.refusals, left, plans, steps, first, passes[-1].made.stays, True)


def with_later(lives: list[Live], wish: Wish, measures: Measures, found: Outcome) -> Outcome:
    """A plan that leaves steps for the sake of nearly full OSDs, with how many commands the plan over it has, once its
    data has moved. Where it has one part, it is told by how many of that plan's steps the OSDs get something, and none
    is stopped where that plan is empty.
    """
    if not found.steps:
        return found
    own = [after(live, found.steps) for live in lives]
    own_wish = wish if wish.data is None else replace(wish, data=moved_data(wish.data, measures.sizes, found.steps))
    later = planned_once(own, own_wish, silent).outcome.steps
    come = Counter(osd for step in later for osd in step.places_come() if osd in found.stopped)
    return replace(found, rest=command_count(later), stopped=dict(come) if wish.batch == ALL else found.stopped)


@dataclass(frozen=True, **SLOTS)
class PlanMade:
    """A plan, or the best of several toward other goals: what it is, how it was made, and whether steps are left for
    the sake of nearly full OSDs: what a plan over it has is not known then.
    """

    outcome: Outcome
    course: PlanCourse
    is_stopped: bool


def planned(lives: list[Live], wish: Wish, tell: Callable[[str], None] = silent) -> Outcome:
    """Plans pools of a cluster, and tells how far it is meanwhile."""
    found = planned_once(lives, wish, tell)
    if wish.most < ALL or wish.until is not None or not (found.is_stopped or found.outcome.chosen):
        return found.outcome
    if has_disks(wish):
        return with_later(lives, wish, found.course.passes[0].measures, found.outcome)
    return carried_on(lives, wish, found, tell)


def has_disks(wish: Wish) -> bool:
    """Whether the disks are known."""
    return wish.data is not None and bool(wish.data.disks)


def carried_on(lives: list[Live], wish: Wish, found: PlanMade, tell: Callable[[str], None]) -> Outcome:
    """A plan that is the best of several, and those over it as one with it, until one of them is empty: from where it
    ends the best may go by other shares.
    """
    row, rows = [found], [lives]
    while row[-1].outcome.steps and len(row) <= MOST_TURNS:
        rows.append([after(live, row[-1].outcome.steps) for live in rows[-1]])
        row.append(planned_once(rows[-1], wish, tell))
    rest, row = command_count(row[-1].outcome.steps), row[:-1]
    if len(row) < 2:
        return replace(found.outcome, rest=rest)
    steps = [step for one, other in zip(lives, rows[len(row)]) for step in steps_between(one, other)]
    for live, own in zip(lives, rows[len(row) - 1]):
        live.go_as(own)
    aims = None if wish.data is None else ByteAims(lives, wish.data)
    passes = [own for one in row for own in one.course.passes]
    passes[0] = replace(passes[0], measures=Measures(lives, wish.data, aims, not wish.is_free))
    made = outcome_toward(lives, wish, PlanCourse(passes, steps, rest, None)).outcome
    chosen = [one.outcome.chosen for one in row if one.outcome.chosen is not None]
    goals = [own for own, _ in groupby(goal for own in chosen for goal in own.best.goals)]
    return replace(made, chosen=chosen[0].with_best(BesideWeights(lives, wish.data).way(goals, made.steps)))


def goals_of(lives: list[Live], wish: Wish) -> list[SharedBy]:
    """What plans may go by: where the rules cannot give OSDs what they weigh, each of them is tried."""
    if wish.is_by_weight:
        return [SharedBy.WEIGHT]
    if wish.is_alone or wish.is_by_reach or all(live.is_by_weight() for live in lives):
        return [SharedBy.REACH]
    return [*SharedBy]


def planned_once(lives: list[Live], wish: Wish, tell: Callable[[str], None]) -> PlanMade:
    """The same; of the plans toward several goals it is the best."""
    goals, found, runs = goals_of(lives, wish), list[PlanMade](), list[list[Live]]()
    for goal in goals:
        runs.append([after(live, []) for live in lives] if runs else lives)
        for live in runs[-1]:
            live.go_toward(goal, wish.is_by_weight)
        course = best_course(runs[-1], wanted_of(runs[-1], wish), wish, tell)
        found.append(outcome_toward(runs[-1], wish, course))
    if len(goals) == 1:
        return found[0]
    ways = BesideWeights(lives, wish.data).ways(goals, [own.outcome.steps for own in found])
    best = best_of(ways)
    at = ways.index(best)
    for live, own in zip(lives, runs[at]):
        live.go_as(own)
    least = None if has_disks(wish) else least_to_weight(lives, wanted_of(lives, wish), wish.data)
    return replace(found[at], outcome=replace(found[at].outcome, chosen=Chosen(best, ways, least)))


def cut(measures: Measures, parts: list[list[PlanStep]], measure: Measure, wish: Wish) -> list[list[PlanStep]]:
    """The first commands of a plan, where no more are asked for: fewer of a number, and more up to a ratio, where pools
    might take less else than before the plan.
    """
    found = first_steps(parts, wish.most) if wish.until is None else until(parts, measure, wish.until)
    steps, count = [step for part in parts for step in part], sum(map(len, found))
    if wish.is_free or count == len(steps):
        return found
    kept = [at for at, fall in enumerate(measures.falls(steps)) if fall <= LESS]
    if wish.until is None:
        return kept_until(parts, max(at for at in kept if at <= count))
    return kept_until(parts, min((at for at in kept if at >= count), default=len(steps)))


def outcome_toward(lives: list[Live], wish: Wish, course: PlanCourse) -> PlanMade:
    """What is told of plans over one another, toward one goal."""
    wanted = wanted_of(lives, wish)
    passes, rooms, measures = course.passes, course.rooms, course.passes[0].measures
    steps = sorted(course.steps, key=lambda step: group_key(step.group))
    made = as_one(passes, steps)
    taken_out = sorted({*passes[-1].taken_out} - {step.group for step in steps}, key=group_key)
    least = least_of(measures, measures.pools.keys() - set(wanted) | made.refusals.keys())
    if wish.is_alone:
        alone = [own for part in batches(steps, wish.batch) for own in limited(part, wish.busy)]
        own = replace(outcome_of(measures, wanted, made, alone, taken_out, {}), least=least)
        return PlanMade(own, course, False)
    order = order_of_steps(measures, steps, made.first, wish.nearfull)
    order.limit(wish.busy)
    parts = ordered_parts(order, wish.batch, wish.until is not None)
    measure = measure_of_steps(measures, steps, wish.nearfull)
    parts = even_parts(measures, order, parts, wish.batch) if order.left else parts
    parts = cut(measures, parts, measure, wish)
    stopped = {**({} if rooms is None else rooms.stopped()), **order.stopped()}
    found = outcome_of(measures, wanted, made, parts, taken_out, stopped)
    found = replace(found, rest=course.rest, measure=measure, worth=worth_of(measure, found.steps), least=least)
    found = replace(found, falls=fall_of(measures, found.steps))
    return PlanMade(found, course, bool(order.left) or course.is_stopped())


def fall_of(measures: Measures, steps: list[PlanStep]) -> tuple[int, float] | None:
    """After how many commands of some steps the pool that loses most may take least, and by which part less than before
    them; None where none may take less than a thousandth, or it is not known.
    """
    if measures.aims is None:
        return None
    falls = measures.falls(steps)
    most = max(range(len(falls)), key=falls.__getitem__)
    return (command_count(steps[:most]), falls[most]) if falls[most] > LESS else None


def pool_parts(
    measures: Measures, number: int, made: PlannedSteps, after: dict[int, int], steps: list[PlanStep]
) -> PlanParts:
    """What is told of a pool's plan, of which these are the groups that are left out."""
    live, plan, shares, left = measures.lives[number], made.plans.get(number), measures.shares[number], made.left
    return {
        "id": number,
        "name": named(live.names, "pools", number),
        "moves": sum(len(step.places_come()) for step in steps) if plan is None else plan.moves,
        "groups": sum(map(PlanStep.is_moving, steps)),
        "refused": made.refusals.get(number),
        "left_alone": number in live.alone,
        "moves_within": None if plan is None else plan.wanted,
        "moves_whole": None if plan is None else plan.whole,
        "left_out": list(left),
        "left_out_by": reason_words(left.values()),
        "before": pool_spread(measures.counts[number], shares),
        "after": pool_spread(after, shares),
    }
