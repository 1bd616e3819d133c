"""The changes with which OSDs are emptied: at the beginning they get next to no weight, and in the end none, and are
out; and the way back.
"""

from __future__ import annotations

from collections.abc import Iterable, Mapping, Sequence
from dataclasses import dataclass

from ..cluster.aftermath import Command, CrushWeights, StateChange, after_command, with_exceptions
from ..cluster.cluster import Cluster
from ..cluster.effects import weight_units
from ..cluster.reasons import reasons
from ..faults import Fault
from ..program.map_forms import EXCEPTIONS, FULL_WEIGHT
from ..program.maps import Exceptions, Program, entries_of, group_key
from ..values import SLOTS
from .hold import Hold, hold_of, sides_of_change
from .holding import exceptions_of

# The weight of an OSD that is emptied, as an operator writes it; where others weigh no more than a tenth, the least.
DRAINED, LEAST, TENTH = "0.0001", "0.00002", 6554


@dataclass(frozen=True, **SLOTS)
class Stage:
    """A change of OSDs: its commands, what holds the groups behind it, and the cluster then; and the groups whose
    exceptions the monitor takes away on the way.
    """

    change: list[str]
    hold: Hold
    cluster: Cluster
    lost: frozenset[str]


def weights_in(cluster: Cluster) -> dict[int, int]:
    """The weight of each OSD in the CRUSH map, in units of 1/65,536."""
    return {
        item["id"]: cluster.weight(item) for own in cluster.buckets.values() for item in own["items"] if item["id"] >= 0
    }


def weight_text(units: int) -> str:
    """A weight as Ceph reads it: the fewest digits that give it again."""
    texts = (f"{units / FULL_WEIGHT:.{digits}f}" for digits in range(1, 12))
    return next((text for text in texts if weight_units(float(text)) == units), f"{units / FULL_WEIGHT:.12f}")


def low_weight(weights: Mapping[int, int], osds: Sequence[int]) -> str:
    """The weight of an OSD that is emptied."""
    least = min((own for osd, own in weights.items() if own and osd not in osds), default=TENTH + 1)
    return DRAINED if least > TENTH else LEAST


def light_osds(cluster: Cluster) -> set[int]:
    """The OSDs of next to no weight, as those have that are drained, where others weigh more than a tenth."""
    weights, most = weights_in(cluster), weight_units(float(DRAINED))
    return {osd for osd, own in weights.items() if own <= most} if max(weights.values(), default=0) > TENTH else set()


def after_all(cluster: Cluster, steps: Iterable[Command]) -> Cluster:
    """A cluster after commands, whose exceptions stay. A fault where it then stays out."""
    known = set(reasons(cluster, True, False))
    for step in steps:
        cluster = after_command(cluster, step, known)
    return cluster


def stage_of(cluster: Cluster, steps: list[Command], change: list[str], program: Program) -> Stage:
    """A change with what holds the groups behind it."""
    sides = sides_of_change(cluster, steps, program)
    hold = hold_of(sides, program)
    return Stage(change, hold, with_exceptions(sides.new, exceptions_of(hold.groups)), sides.lost)


def first_stage(cluster: Cluster, osds: Sequence[int], program: Program) -> Stage:
    """The beginning: OSDs get next to no weight, and every group is held."""
    weights = weights_in(cluster)
    text = low_weight(weights, osds)
    units = weight_units(float(text))
    heavy = [osd for osd in osds if weights[osd] > units]
    steps: list[Command] = [CrushWeights({osd: units}, False) for osd in heavy]
    return stage_of(cluster, steps, [f"ceph osd crush reweight osd.{osd} {text}" for osd in heavy], program)


def ending(cluster: Cluster, osds: Sequence[int]) -> tuple[list[Command], list[str]]:
    """The commands after which OSDs take nothing: of the weight 0, and out; out alone, where the cluster would stay out
    with OSDs of that weight, as with buckets of older kinds.
    """
    out, weights = StateChange({"weight": [[osd, 0] for osd in osds]}), weights_in(cluster)
    gone = f"ceph osd out {' '.join(f'osd.{osd}' for osd in osds)}"
    heavy = [osd for osd in osds if weights.get(osd)]
    steps: list[Command] = [CrushWeights({osd: 0}, False) for osd in heavy]
    try:
        after_all(cluster, steps)
    except Fault:
        return [out], [gone]
    return [*steps, out], [*(f"ceph osd crush reweight osd.{osd} 0" for osd in heavy), gone]


def last_stage(cluster: Cluster, osds: Sequence[int], program: Program) -> Stage:
    """The end: OSDs take nothing any more."""
    return stage_of(cluster, *ending(cluster, osds), program)


# The way back


def back_change(cluster: Cluster, osds: Sequence[int]) -> list[str]:
    """The commands that give OSDs their weights and their reweights again."""
    weights = weights_in(cluster)
    found = [f"ceph osd crush reweight osd.{osd} {weight_text(weights[osd])}" for osd in osds]
    return found + [
        f"ceph osd reweight {osd} {weight_text(round(cluster.osds[osd]['weight'] * FULL_WEIGHT))}" for osd in osds
    ]


def back_commands(cluster: Cluster, stages: Sequence[Exceptions], lost: Iterable[str]) -> list[str]:
    """The commands that give groups the exceptions of the cluster again, whichever of some others they have: groups
    that have others at one of these, and those that may lose theirs on the way.
    """
    explicit, items = cluster.exceptions
    own: Exceptions = {"pg_upmap": explicit, "pg_upmap_items": items}
    found: list[tuple[str, bool, str]] = []
    for key, kind in EXCEPTIONS.items():
        now = dict(entries_of(own, key))
        others = [dict(entries_of(stage, key)) for stage in stages]
        groups = {
            group for other in others for group in other.keys() | now.keys() if other.get(group) != now.get(group)
        }
        for group in groups | (now.keys() & set(lost)):
            osds = now.get(group, []) if kind.is_set else [osd for pair in now.get(group, []) for osd in pair]
            given = f"{kind.word} {group} {' '.join(map(str, osds))}" if osds else f"rm-{kind.word} {group}"
            found.append((group, bool(osds), f"ceph osd {given}"))
    return [line for _, _, line in sorted(found, key=lambda one: (group_key(one[0]), one[1]))]
