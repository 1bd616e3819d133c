"""What judges a cluster for `carry`, and makes its plans: what `verify`, `plan` and `next` do, in one Python.

The sets of all groups are asked of the program once for each map that is judged, and go on as long as its sum does. One
run of the program for each map stays open while a plan is carried, and follows the cluster by changes. A plan that is
made is judged by runs of its own.
"""

from __future__ import annotations

import json
import pathlib
import time
from collections.abc import Mapping
from dataclasses import dataclass

from ..carry.carrier import JudgedStep
from ..carry.patience import within
from ..carry.snapshots import Snapshot
from ..carry.states import Halted
from ..cluster.cluster import Cluster
from ..cluster.data_files import DataFiles, known_data
from ..cluster.followed import Followed, following
from ..cluster.group_states import GroupState, states_in
from ..cluster.sources import Source
from ..cluster.told_view import verified_view
from ..cluster.view import ClusterView, as_in_ceph, cluster_view
from ..faults import Fault, Untold
from ..files import JsonObject
from ..plans.carried import PlanPart, parts_of_plan
from ..plans.guards import guards_of
from ..plans.next_step import NextWish, now_of, step_over
from ..plans.question import sets_of_maps
from ..program.answers import Up
from ..program.maps import Program
from ..values import SLOTS
from .part_words import PartWords
from .plan import PlanOptions, check_printed, plan_of_dumps, plan_value, scripts_of
from .put_words import PutWords

# What of a plan is kept.
KEPT = ("commands", "undo", "cluster", "fsid", "crush_map")


@dataclass(frozen=True, **SLOTS)
class JudgedMap:
    """A map that is judged: its sum, its view, its cluster, and the set of each group as the program has it."""

    sum: str
    view: ClusterView
    cluster: Cluster
    sets: Mapping[str, Up]


@dataclass(frozen=True, **SLOTS)
class EngineWish:
    """What is asked of judgements: the program, the folder that is carried, if there is one, in how many moves OSDs and
    hosts take part, by what is planned, and for how many seconds it may take.
    """

    program: Program
    folder: str | None
    parts: PartWords
    by: str
    seconds: float


class CarryEngine:
    """What judges a cluster and makes plans."""

    def __init__(self, wish: EngineWish) -> None:
        """Takes what is asked for."""
        self.wish, self.followed = wish, Followed()
        self.judged: JudgedMap | None = None

    def source(self, files: Mapping[str, str]) -> Source:
        """The dumps of a snapshot."""
        return Source((files["osd"], files["crush"]), None, self.wish.program, None, None, False)

    def judged_map(self, snapshot: Snapshot, files: Mapping[str, str]) -> JudgedMap:
        """The map of a snapshot; its sets are asked for where another was judged before."""
        if self.judged is None or self.judged.sum != snapshot.sum:
            view = cluster_view(self.source(files))
            if view.found is None:
                raise Fault("no cluster comes in")
            self.judged = JudgedMap(snapshot.sum, view, view.found.cluster, sets_of_maps(view.maps, self.wish.program))
        return self.judged

    def check(self, snapshot: Snapshot, files: Mapping[str, str]) -> None:
        """Halted where groups lie elsewhere than the program says; a fault where too few are told."""
        self.followed.close_unused()
        with within(self.wish.seconds), following(self.followed):
            own = self.judged_map(snapshot, files)
            sets = as_in_ceph(own.view, own.sets, self.wish.program)
            found = verified_view(own.view, sets, files["pgs"], True)
        if found is None:
            raise Untold("the manager tells the set of no group")
        if found.differ:
            raise Halted("verify", found.against()[0])
        if not found.is_enough:
            raise Untold(found.against()[0])

    def plan(self, snapshot: Snapshot, files: Mapping[str, str]) -> JsonObject:
        """A plan, as `plan --json` tells it, which the program has judged as printed."""
        options = self.plan_options(files)
        with within(self.wish.seconds):
            told = plan_of_dumps(options, known_data(options.data))
            check_printed(told, scripts_of(told, options), options)
        value = plan_value(told)
        kept: JsonObject = {key: value.get(key) for key in KEPT}
        return {"command": "plan", "epoch": told.epoch, "made": round(time.time(), 3), **kept}

    def plan_options(self, files: Mapping[str, str]) -> PlanOptions:
        """What a plan is made by."""
        data = DataFiles(None, None, None)
        if self.wish.by != "groups":
            data = DataFiles(files["df"], files["pgs"], files["osds"])
        parts = PartWords(None, None, None)
        return PlanOptions(
            source=self.source(files),
            pools=(),
            classes=None,
            most=None,
            until=None,
            deviation=None,
            is_alone=False,
            is_room=self.wish.by == "room",
            is_by_weight=False,
            is_by_reach=False,
            is_anyway=False,
            data=data,
            output=PutWords(is_undo=False, parts=parts, to=None, is_json=True, is_guarded=True),
            is_state=False,
            picture=None,
        )

    def rest(self) -> None:
        """Ends the runs of the program."""
        self.followed.close()

    def parts(self, files: Mapping[str, str], plan: JsonObject | None) -> list[PlanPart]:
        """The parts of a plan, or of the one in the folder."""
        if plan is None:
            return parts_of_plan(self.wish.folder or "")
        path = pathlib.Path(files["osd"]).with_name("plan.json")
        path.write_text(json.dumps(plan), encoding="utf-8")
        return parts_of_plan(str(path))

    def next(self, snapshot: Snapshot, files: Mapping[str, str], plan: JsonObject | None, most: int) -> JudgedStep:
        """What of a plan is to be done now."""
        with within(self.wish.seconds), following(self.followed):
            parts, own = self.parts(files, plan), self.judged_map(snapshot, files)
            check_fsid(parts, snapshot)
            cluster = own.cluster
            states = states_in(files["pgs"], cluster, True)
            now = now_of(cluster, states, own.sets)
            busy = self.wish.parts.size(cluster).busy
            found = step_over(now, parts, NextWish(most, busy, guards_of(cluster)), self.wish.program)
        objects = snapshot.objects_of()

        def cost(group: str, places: list[int | None]) -> int:
            """How many places of objects come by it that a group is sent to some places."""
            state: GroupState = states[group]
            return objects.get(group, 0) * len(state.comes(places, group in now.erasure))

        moving = sum(objects.get(group, 0) * len(osds) for group, osds in now.moving.items())
        return JudgedStep(found, moving, {group: cost(group, places) for group, places in found.after.items()})


def check_fsid(parts: list[PlanPart], snapshot: Snapshot) -> None:
    """Halted where a plan is of another cluster."""
    own = snapshot.osd.get("fsid")
    for part in parts:
        if part.own.fsid not in (None, own):
            raise Halted("fsid", f"{part.name}: of another cluster: its fsid is {part.own.fsid}, and here it is {own}")
