"""Which commands of a plan that is being carried out may be given now, by where the data of the cluster is.

A place is *under way* from when its group is sent elsewhere until the set that acts is the one that is up, and the
group is clean. Those under way count whatever sent them. Nothing is kept of what was given before: what the cluster
has, has been given.
"""

from __future__ import annotations

from collections import Counter
from collections.abc import Mapping, Sequence
from dataclasses import dataclass, field, replace

from ..cluster.aftermath import Command, CrushWeights, StateChange
from ..cluster.cluster import Cluster
from ..cluster.conversion import map_of
from ..cluster.evenness import Spread
from ..cluster.group_states import GroupState, erasure_groups
from ..cluster.map_parts import map_clusters
from ..cluster.moving import leaving
from ..cluster.outage import outage_of
from ..cluster.view import ClusterView, view_of_cluster
from ..faults import Changed, Fault, Trouble, Wait
from ..program.answers import Up
from ..program.maps import Map, Program, group_key
from ..values import SLOTS
from ..words import counted
from .bounds import Filling, Measure, Step
from .busy import Busy, MostBusy, partakers
from .carried import PlanPart, Settings, commands_by_group, groups_in_parts, part_in
from .courses import Course, Play
from .drain_stages import after_all, light_osds, weights_in
from .guards import NO_GUARDS, Guards, guarded, guards_of, pool_asked, pools_asked
from .heads import sum_of_crush
from .printed_commands import PrintedCommand
from .question import sets_of_maps
from .step_order import EVEN

# How a command ends: all is done, commands are put out, or what is under way comes first.
DONE, OUT, WAITS = 0, 10, 11
Places = list["int | None"]


@dataclass(frozen=True, **SLOTS)
class NextWish:
    """How many places are under way at most in all, None for those of a part; in how many moves under way an OSD and a
    host takes part; and the guards of what is put out, over the cluster as it is now.
    """

    most: int | None
    busy: MostBusy
    guards: Guards


@dataclass(frozen=True, **SLOTS)
class Amount:
    """Groups and places of a plan: so many groups, so many places that are still to come, and their bytes where these
    are known.
    """

    groups: int
    places: int
    size: int | None


@dataclass(frozen=True, **SLOTS)
class NextStep:
    """What is to be done now: the status, the text of the commands, and the part that they are of; how many groups are
    done, and what is under way and left; how many places are under way in the whole cluster; the commands that are left
    out, each with why; of each OSD how many places are under way to it, are left, and are still to go from it; and
    where the groups are that are still to be sent, once they are.
    """

    status: int
    text: str
    part: str
    done: int
    under_way: Amount
    left: Amount
    moving: int
    left_out: list[tuple[str, str]]
    by_osd: dict[int, tuple[int, int, int]]
    after: Mapping[str, Places]


@dataclass(**SLOTS)
class Now:
    """A cluster as it is now: its view, its up sets, the state of each group, those whose places are each of their own,
    and the OSDs to which places of groups are under way.
    """

    cluster: Cluster
    view: ClusterView
    ups: Mapping[str, Up]
    states: Mapping[str, GroupState]
    erasure: set[str]
    moving: dict[str, list[int]] = field(init=False)

    def __post_init__(self) -> None:
        """Find what is under way."""
        self.moving = {
            group: self.states[group].comes(up.places, group in self.erasure)
            for group, up in self.ups.items()
            if not self.states[group].is_at(up.places, group in self.erasure)
        }

    def place_size(self, group: str) -> int | None:
        """What a place of a group holds, if that is known."""
        size = self.states[group].size
        return None if size is None else size // self.parts_of(group_key(group)[0])

    def parts_of(self, pool: int) -> int:
        """In how many parts the data of a pool's groups is cut."""
        own = next(entry for entry in self.cluster.pools if entry["pool"] == pool)
        profiles = self.cluster.osd_dump.get("erasure_code_profiles", {})
        profile = profiles.get(own.get("erasure_code_profile", ""), {}) if isinstance(profiles, dict) else {}
        count = str(profile.get("k", "1"))
        return max(int(count), 1) if count.isdigit() else 1

    def progress(self, come: Mapping[str, Sequence[int]]) -> Amount:
        """What is still to come of some groups."""
        sizes = [self.place_size(group) for group, osds in come.items() for _ in osds]
        known = None if None in sizes else sum(size for size in sizes if size is not None)
        return Amount(len(come), len(sizes), known if sizes else 0)

    def holding(self) -> Counter[int]:
        """How many groups each OSD has data of, where it may still have that of groups under way."""
        found: Counter[int] = Counter()
        for group, up in self.ups.items():
            found.update({osd for osd in [*up.places, *self.states[group].acting] if osd is not None})
        return found


def now_of(cluster: Cluster, states: Mapping[str, GroupState], ups: Mapping[str, Up]) -> Now:
    """A cluster as it is now. A fault amid an outage."""
    view = view_of_cluster(cluster)
    osds = {osd["id"]: osd for value in view.maps for osd in value["osds"]}
    outage = outage_of(osds.values(), view.pools, ups)
    if outage is not None:
        raise Wait(f"{outage}; no command is given")
    return Now(cluster, view, ups, states, erasure_groups(cluster, list(ups)))


# What commands do


def changed(fault: Fault) -> Fault:
    """That the cluster is no longer the one for which a plan was made."""
    return Changed(
        *(f"the cluster has changed: {line.split(': a defect')[0]}" for line in fault.lines), "nothing is given"
    )


def courses_of(maps: Sequence[Map], commands: Sequence[PrintedCommand], program: Program) -> list[Course]:
    """The courses of commands over some maps. A fault where one is refused, where a set gets shorter, or where Ceph's
    monitor would not leave its exceptions.
    """
    sizes = {pool["id"]: pool["pg_num"] for value in maps for pool in value["pools"]}
    gone = [own.line for own in commands if group_key(own.group)[1] >= sizes.get(group_key(own.group)[0], 0)]
    if gone:
        raise changed(Fault(f"{gone[0]}: there is no such group"))
    found = []
    try:
        for value in maps:
            numbers = {pool["id"] for pool in value["pools"]}
            own = [command for command in commands if group_key(command.group)[0] in numbers]
            found.append(Course(value, own, program))
        Play(found, frozenset()).play([commands], None)
    except Trouble:  # The program is gone, and nothing is known of the cluster.
        raise
    except Fault as fault:
        raise changed(fault) from None
    last = {own.group: own.line for own in commands}
    left = [last[group] for course in found for group, what in course.left.items() if what != "all" and group in last]
    if left:
        raise changed(Fault(f"{left[0]}: Ceph's monitor would not leave it"))
    return found


def is_drained(command: PrintedCommand, cluster: Cluster, light: set[int]) -> str | None:
    """Why a command is left out: an OSD to which it leads is drained or out; None where none is."""
    targets = command.osds[1::2] if " pg-upmap-items " in command.line else command.osds
    for osd in targets:
        own = cluster.osds.get(osd)
        if own is None or own["weight"] == 0 or osd in light:
            return f"osd.{osd} is {'gone' if own is None else 'out' if own['weight'] == 0 else 'drained'}"
    return None


def steps_of_stage(part: PlanPart) -> list[Command]:
    """The change that a stage makes, by its commands."""
    steps: list[Command] = [CrushWeights({osd: weight}, False) for osd, weight in part.weights.items()]
    states = [[osd, 0] for osd in part.out] + [[osd, own] for osd, own in part.reweights.items()]
    return [*steps, StateChange({"weight": states})] if states else steps


class Choice:
    """Groups that are chosen to be sent now, one after the other, beside those that are under way."""

    def __init__(self, now: Now, wish: NextWish, end: Mapping[int, float]) -> None:
        """Takes the cluster as it is now, what is asked for, and what the OSDs have at the end of the plan."""
        self.now, self.wish, self.places = now, wish, sum(map(len, now.moving.values()))
        self.busy = Busy(wish.busy)
        for group, osds in now.moving.items():
            self.busy.take(partakers(now.states[group].acting, osds))
        share = now.view.shares(dict(now.ups)).reached
        self.high = dict[int, float](now.holding())
        self.fullness = Filling(Measure(Spread({}, share), None, end, {}), self.high)
        self.bound = max(self.fullness.fullest(self.high), self.fullness.fullest(end), EVEN)
        self.is_first = not now.moving

    def lets(self, group: str, come: Sequence[int]) -> bool:
        """Whether a group may be sent now; the first may, where nothing is under way."""
        own = partakers(self.now.states[group].acting, come)
        if self.is_first or not come:
            return True
        if self.wish.most is None:
            return self.busy.lets(own)
        high = dict(self.high)
        for osd in come:
            high[osd] = high.get(osd, 0) + 1
        is_full = self.fullness.fault(Step("", come, [], 1.0), high, self.bound) is not None
        return self.places + len(come) <= self.wish.most and self.busy.lets(own) and not is_full

    def take(self, group: str, come: Sequence[int]) -> None:
        """Sends a group."""
        self.is_first = self.is_first and not come
        self.places += len(come)
        self.busy.take(partakers(self.now.states[group].acting, come))
        for osd in come:
            self.high[osd] = self.high.get(osd, 0) + 1


# What is to be done


class Carrying:
    """A plan and the cluster on which it is carried out."""

    def __init__(self, now: Now, parts: Sequence[PlanPart], wish: NextWish, program: Program) -> None:
        """Takes the cluster as it is now, the plan, and what is asked for."""
        self.now, self.parts, self.wish, self.program = now, parts, wish, program
        self.settings, self.groups = Settings(now.cluster, parts), groups_in_parts(parts)
        self.light, self.left_out = light_osds(now.cluster), list[tuple[str, str]]()
        self.left = [self.commands_left(at) for at in range(len(parts))]
        self.at = next((at for at in range(len(parts)) if self.is_to_come(at)), len(parts))
        self.until = next((at for at in range(self.at + 1, len(parts)) if parts[at].is_stage), len(parts))
        self.after = self.sets_after()

    def is_to_come(self, at: int) -> bool:
        """Whether something of a part is still to be given."""
        return not self.settings.is_given(at) if self.parts[at].is_stage else bool(self.left[at])

    @property
    def is_at_stage(self) -> bool:
        """Whether a stage comes next."""
        return self.at < len(self.parts) and self.parts[self.at].is_stage

    def commands_left(self, at: int) -> dict[str, list[PrintedCommand]]:
        """The commands of a part that are still to be given, by their groups; none of a stage, which is given whole.
        Behind a stage that is to come all are: what a part takes away, that has not come yet.
        """
        found: dict[str, list[PrintedCommand]] = {}
        is_early = any(self.parts[one].is_stage and not self.settings.is_given(one) for one in range(at))
        for group, commands in {} if self.parts[at].is_stage else commands_by_group(self.parts[at]).items():
            if not is_early and self.settings.has_group(at, group):
                continue
            barred = [(one.line, is_drained(one, self.now.cluster, self.light)) for one in commands]
            why = next(((line, told) for line, told in barred if told is not None), None)
            if why is None:
                found[group] = commands
            else:
                self.left_out.append(why)
        return found

    def rest(self) -> dict[str, list[PrintedCommand]]:
        """The commands that are still to be given before the next stage but one, by their groups."""
        return {group: own for given in self.left[self.at : self.until] for group, own in given.items()}

    def maps(self) -> Sequence[Map]:
        """The maps of the cluster, as they are behind the change of the stage that comes next."""
        if not self.is_at_stage:
            return self.now.view.maps
        return [map_of(own) for own in map_clusters(after_all(self.now.cluster, steps_of_stage(self.parts[self.at])))]

    def sets_after(self) -> dict[str, Places]:
        """Where the groups are that are still to be sent, once they are."""
        commands = [*self.parts[self.at].commands] if self.is_at_stage else []
        commands += [one for own in self.rest().values() for one in own]
        courses = courses_of(self.maps(), commands, self.program) if commands else []
        return {group: places for course in courses for group, places in course.after.items()}

    def comes(self, group: str) -> list[int]:
        """The OSDs to which places of a group come that is still to be sent."""
        return self.now.states[group].comes(
            self.after.get(group, self.now.ups[group].places), group in self.now.erasure
        )

    def goes(self, group: str) -> list[int]:
        """The OSDs from which places of a group are still to go."""
        after = self.after.get(group, self.now.ups[group].places)
        return leaving(self.now.states[group].acting, after, group in self.now.erasure)

    def moving_before(self, at: int) -> dict[str, list[int]]:
        """The groups of the parts before one that are under way."""
        own = {group for groups in self.groups[:at] for group in groups}
        return {group: osds for group, osds in self.now.moving.items() if group in own}

    def chosen(self) -> list[str]:
        """The groups that are sent now, in their order."""
        end: Counter[int] = Counter()
        for group, up in self.now.ups.items():
            end.update({osd for osd in self.after.get(group, up.places) if osd is not None})
        choice, found = Choice(self.now, self.wish, dict[int, float](end)), []
        last = self.until if self.wish.most is not None else self.at + 1
        for group in (group for own in self.left[self.at : last] for group in own):
            if choice.lets(group, self.comes(group)):
                choice.take(group, self.comes(group))
                found.append(group)
        return found

    def text(self) -> str:
        """What is put out now, as the program has judged it: nothing, where groups of before come first."""
        if self.at == len(self.parts):
            return ""
        is_whole = self.is_at_stage or self.wish.most is None
        if is_whole and self.moving_before(self.at):
            return ""
        text = self.parts[self.at].text
        if not self.is_at_stage:
            own = self.rest()
            lines = [command.line for group in self.chosen() for command in own[group]]
            text = "\n".join(["set -e", *lines]) + "\n" if lines else ""
        guards = self.wish.guards
        text = guarded(text, guards.asking(pools_asked(self.now.cluster), True) if self.is_at_stage else guards)
        courses_of(self.maps(), part_in("", text).commands, self.program)
        return text

    def to_hold(self) -> set[str]:
        """The groups that a stage is still to hold, and that no part before it has sent."""
        stages = [at for at in range(self.at, len(self.parts)) if self.parts[at].is_stage and self.is_to_come(at)]
        before = [{group for own in self.groups[:at] for group in own} for at in stages]
        return {group for at, sent in zip(stages, before) for group in self.groups[at] if group not in sent}

    def step(self) -> NextStep:
        """What is to be done now."""
        own, text = {group for groups in self.groups for group in groups}, self.text()
        under = {group: osds for group, osds in self.now.moving.items() if group in own}
        rest = {group: self.comes(group) for given in self.left for group in given}
        under = {group: osds for group, osds in under.items() if group not in rest}
        to_come: Counter[int] = Counter(osd for osds in under.values() for osd in osds)
        to_send: Counter[int] = Counter(osd for osds in rest.values() for osd in osds)
        to_go: Counter[int] = Counter(osd for group in [*under, *rest] for osd in self.goes(group))
        is_done = not under and self.at == len(self.parts)
        return NextStep(
            OUT if text else DONE if is_done else WAITS,
            text,
            self.parts[self.at].name if self.at < len(self.parts) else "",
            len(own - under.keys() - rest.keys() - self.to_hold()),
            self.now.progress(under),
            self.now.progress(rest),
            sum(map(len, self.now.moving.values())),
            self.left_out,
            {osd: (to_come[osd], to_send[osd], to_go[osd]) for osd in sorted(to_come | to_send | to_go)},
            self.after,
        )


# Whether the cluster is that of the plan


def weighted_as(cluster: Cluster, part: PlanPart) -> Cluster:
    """A cluster whose OSDs have the weights that a part gives them, whichever of them are given."""
    now = weights_in(cluster)
    steps: list[Command] = [
        CrushWeights({osd: weight}, False) for osd, weight in part.weights.items() if now.get(osd) not in (None, weight)
    ]
    return after_all(cluster, steps)


def has_crush_map(cluster: Cluster, parts: Sequence[PlanPart]) -> bool:
    """Whether a cluster has the CRUSH map of a plan, or one that it has on its way, as between two weights of a stage;
    also where no part tells one.
    """
    told = [part for part in parts if part.own.crush is not None]
    return not told or any(sum_of_crush(weighted_as(cluster, part)) == part.own.crush for part in told)


def check_pools_of(cluster: Cluster, parts: Sequence[PlanPart]) -> None:
    """A fault where a pool that a plan asks for has other groups now, or is to be split or shrunk."""
    pools = guards_of(cluster).pools
    for number, groups, placed, is_at_rest in {own for part in parts for own in map(pool_asked, part.guards) if own}:
        now = pools.get(number)
        if now is None or (now.groups, now.placed) != (groups, placed) or is_at_rest > now.is_at_rest:
            name = number if now is None else now.name
            told = (
                f"pool {name} has no longer {counted(groups, 'group')} placed by {placed}, or is to be split or shrunk"
            )
            raise Changed(f"the cluster has changed: {told}", "nothing is given")


def check_cluster(cluster: Cluster, parts: Sequence[PlanPart]) -> None:
    """A fault where a plan says that it is of another cluster, or for another CRUSH map."""
    own = cluster.osd_dump.get("fsid")
    for part in parts:
        if part.own.fsid is not None and own is not None and part.own.fsid != own:
            told = f"its fsid is {part.own.fsid}, and that of the cluster {own}"
            raise Fault(f"{part.name}: of another cluster: {told}; nothing is given")
    check_pools_of(cluster, parts)
    if not has_crush_map(cluster, parts):
        raise Changed(
            f"{parts[0].name}: for another CRUSH map than the cluster has: make the plan anew; nothing is given"
        )


def carrying_over(now: Now, parts: Sequence[PlanPart], wish: NextWish, program: Program) -> Carrying:
    """A plan and the cluster on which it is carried out, as that is now. A fault where that is no longer the one for
    which it was made.
    """
    check_cluster(now.cluster, parts)
    fsid = next((part.own.fsid for part in parts if part.own.fsid is not None), None)
    if fsid is not None and wish.guards != NO_GUARDS:
        wish = replace(wish, guards=replace(wish.guards, fsid=fsid))
    return Carrying(now, parts, wish, program)


def step_over(now: Now, parts: Sequence[PlanPart], wish: NextWish, program: Program) -> NextStep:
    """What of a plan is to be done now, over a cluster as it is."""
    return carrying_over(now, parts, wish, program).step()


def carrying_of(
    cluster: Cluster, parts: Sequence[PlanPart], states: Mapping[str, GroupState], wish: NextWish, program: Program
) -> Carrying:
    """The same, where the sets of its groups are to be asked for."""
    check_cluster(cluster, parts)
    ups = sets_of_maps(view_of_cluster(cluster).maps, program)
    return carrying_over(now_of(cluster, states, ups), parts, wish, program)


def next_step(
    cluster: Cluster, parts: Sequence[PlanPart], states: Mapping[str, GroupState], wish: NextWish, program: Program
) -> NextStep:
    """What of a plan is to be done now. A fault where the cluster is no longer the one for which it was made."""
    return carrying_of(cluster, parts, states, wish, program).step()
