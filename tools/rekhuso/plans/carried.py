"""Plans that are being carried out, read from what commands have put out: scripts, a folder of them, or JSON.

A plan is read as parts in their order. A part has commands on exceptions alone, or it is a *stage*, which changes OSDs
too or keeps data where it is meanwhile, and is given whole. What a part gives a group or an OSD is a *setting*; it is
given where the cluster has it, or what a later part gives.
"""

from __future__ import annotations

import os
import pathlib
import re
from collections.abc import Mapping, Sequence
from dataclasses import dataclass
from typing import Union

from ..cluster.cluster import Cluster
from ..cluster.effects import weight_units
from ..faults import Fault
from ..files import InMemory, json_of, text_of
from ..program.map_forms import FULL_WEIGHT
from ..program.maps import entries_of
from ..together import HEAD
from ..values import SLOTS
from .drain_stages import weights_in
from .guards import TELLING, is_guard
from .heads import COMMANDS_MAKE_IT, NOT_TOLD
from .printed_commands import FORM, PrintedCommand, command_in
from .printed_reads import NAMING

# The commands of a stage beside those on exceptions.
WEIGHT = re.compile(r"ceph osd crush reweight osd\.([0-9]+) ([0-9.]+)")
OUT = re.compile(r"ceph osd out((?: osd\.[0-9]+)+)")
REWEIGHT = re.compile(r"ceph osd reweight ([0-9]+) ([0-9.]+)")
AROUND = ("ceph balancer off", "ceph osd set norebalance", "ceph osd unset norebalance")
PASSED = ("", "set -e", *TELLING)
# Where a script without a head tells of which cluster it is: above its commands, or by what it asks.
TOLD_FSID = re.compile(r"^(?:# .*\bfsid ([0-9A-Za-z-]{36})$|has '\^fsid ([0-9A-Za-z-]+)\$' )", re.M)
# What a setting is of: a group's explicit set or its pairs, or an OSD's weight or state.
Key = tuple[str, Union[str, int]]
# The names of scripts in a folder, but for those that take a plan back; and the commands whose JSON is carried out.
FILES, COMMANDS = re.compile(r"(plan|hold|prepare|release|drain)-([0-9]+|end)\.sh"), (
    "plan",
    "hold",
    "release",
    "drain",
)


@dataclass(frozen=True, **SLOTS)
class Own:
    """What a part says of its cluster, as far as it is known: its fsid, and the sum of the CRUSH map that it
    has once the part is given.
    """

    fsid: str | None
    crush: str | None


@dataclass(frozen=True, **SLOTS)
class PlanPart:
    """A part of a plan: its name, its text, its commands on exceptions, the weights that it gives OSDs, those that it
    takes out, the reweights that it gives back, whether it is a stage, and what it says of the cluster.
    """

    name: str
    text: str
    commands: list[PrintedCommand]
    weights: dict[int, int]
    out: list[int]
    reweights: dict[int, int]
    is_stage: bool
    own: Own

    @property
    def guards(self) -> list[str]:
        """The guards of its script."""
        return [line for line in self.text.splitlines() if is_guard(line)]

    def settings(self) -> dict[Key, object]:
        """What it gives groups and OSDs."""
        found: dict[Key, object] = {("weight", osd): weight for osd, weight in self.weights.items()}
        found.update({("out", osd): True for osd in self.out})
        found.update({("reweight", osd): own for osd, own in self.reweights.items()})
        for command in self.commands:
            for key, own in command.change.items():
                kind = "pg_upmap" if key.endswith("upmap") else "pg_upmap_items"
                found[kind, command.group] = own[0][1] if key.startswith("new_") else None
        return found


def own_in(text: str) -> Own:
    """What a script says of its cluster: in its head, the last one of several that stand in one, or where an older one
    has none, in what it tells and asks.
    """
    heads = [found for found in map(HEAD.fullmatch, text.splitlines()) if found]
    if heads:
        head = heads[-1]
        fsid, crush, then = head.group(6), head.group(8), head.group(9)
        then = crush if then == NOT_TOLD else then
        return Own(None if fsid == NOT_TOLD else fsid, None if then in (NOT_TOLD, COMMANDS_MAKE_IT) else then)
    told = TOLD_FSID.search(text)
    return Own(None if told is None else told[1] or told[2], None)


def part_in(name: str, text: str, own: Own | None = None) -> PlanPart:
    """The part that a script is. A fault for a line that is of no script of these tools, and for a change that is still
    to come.
    """
    commands, weights, out, is_stage = list[PrintedCommand](), dict[int, int](), list[int](), False
    reweights = dict[int, int]()
    for line in text.splitlines():
        if line in PASSED or line.startswith("#") or is_guard(line):
            continue
        weight, gone, back = WEIGHT.fullmatch(line), OUT.fullmatch(line), REWEIGHT.fullmatch(line)
        is_stage = is_stage or not FORM.fullmatch(line)
        if '"$@"' in line or "$#" in line:
            raise Fault(
                f"{name}: its change is still to come: run the script with it, and then carry out what is behind"
            )
        if weight:
            weights[int(weight[1])] = weight_units(float(weight[2]))
        elif gone:
            out += [int(word.removeprefix("osd.")) for word in gone[1].split()]
        elif back:
            reweights[int(back[1])] = weight_units(float(back[2]))
        elif line not in AROUND:
            if NAMING.fullmatch(line):
                raise Fault(f"{name}: a plan of reads, by which no data moves: it is run whole, as it is")
            if not FORM.fullmatch(line):
                raise Fault(f"{name}: {line}: no line of a script of these tools")
            commands.append(command_in(line))
    own = own_in(text) if own is None else own
    return PlanPart(name, text, commands, weights, out, reweights, is_stage, own)


def part_text(lines: Sequence[str], is_stage: bool) -> str:
    """The text of a part that JSON tells."""
    around = [*AROUND[:2], *lines, AROUND[2]] if is_stage else lines
    return "\n".join(["set -e", *around]) + "\n"


def parts_in_json(path: str) -> list[PlanPart]:
    """The parts of a plan that a command has told as JSON. A fault where it is none."""
    value = json_of(path, "command")
    command = value["command"]
    if command not in COMMANDS:
        raise Fault(f"{path}: no plan: what `{command}` tells; there are {', '.join(COMMANDS)}")
    try:
        if command == "drain":
            stages = [value["begin"]["change"] + value["begin"]["commands"]]
            stages += [part["commands"] for part in value["parts"]]
            stages += [value["end"]["change"] + value["end"]["commands"]]
            forms = [(lines, at in (0, len(stages) - 1)) for at, lines in enumerate(stages)]
        elif command == "release":
            forms = [(part["commands"], False) for part in value["parts"]]
        else:
            forms = [(value["commands"], command == "hold")]
        texts = [part_text(lines, is_stage) for lines, is_stage in forms]
        sums = [value.get("crush_map")] * len(forms)
        if command == "drain":
            sums = [value["begin"].get("crush_map")] * (len(forms) - 1) + [value["end"].get("crush_map")]
        owns = [Own(value.get("fsid"), own) for own in sums]
    except (KeyError, TypeError, IndexError, AttributeError):
        raise Fault(f"{path}: no plan that `{command} --json` tells") from None
    return [part_in(f"{path}, part {at}", text, own) for at, (text, own) in enumerate(zip(texts, owns))]


def parts_in_folder(path: pathlib.Path) -> list[PlanPart]:
    """The parts of a plan in a folder of scripts; those that take one back are passed over. A fault where there is no
    script, where there are those of several plans, and where one is missing between others.
    """
    names = sorted(own.name for own in path.iterdir() if FILES.fullmatch(own.name))
    words = sorted({name.split("-")[0] for name in names})
    if len(words) != 1:
        raise Fault(
            f"{path}: {'no script of a plan' if not words else 'scripts of several plans: ' + ', '.join(words)}"
        )
    numbers = [int(name.split("-")[1][:-3]) for name in names if not name.endswith("-end.sh")]
    gap = next((at for at in range(min(numbers, default=0), max(numbers, default=0)) if at not in numbers), None)
    if gap is not None:
        raise Fault(f"{path}: part {gap} is missing")
    return [part_in(name, text_of(str(path / name))) for name in names]


def parts_of_plan(path: str) -> list[PlanPart]:
    """The parts of a plan: of a folder of scripts, of JSON, or of one script."""
    if not isinstance(path, InMemory) and os.path.isdir(path):
        return parts_in_folder(pathlib.Path(path))
    return parts_in_json(path) if path.endswith(".json") else [part_in(path, text_of(path))]


def check_whole(path: str, parts: Sequence[PlanPart]) -> None:
    """A fault where parts of one plan do not say of which cluster they are, or where one is left out among several."""
    for part in parts:
        if part.own.fsid is None:
            raise Fault(f"{part.name}: it does not say of which cluster it is: nothing is given")
    turns = [found for part in parts for found in map(HEAD.fullmatch, part.text.splitlines()) if found]
    if len(parts) < 2 or not turns:
        return
    numbers, count = [int(own.group(3)) for own in turns], max(int(own.group(4)) for own in turns)
    first = 0 if turns[0].group(1) == "drain" else 1
    missing = [at for at in range(first, count + 1) if at not in numbers]
    if missing or len({own.groups()[4:6] for own in turns}) > 1:
        told = f"part {missing[0]} of {count} is missing" if missing else "its parts are of several plans"
        raise Fault(f"{path}: {told}: nothing is given")


class Settings:
    """What a cluster has of all that a plan gives."""

    def __init__(self, cluster: Cluster, parts: Sequence[PlanPart]) -> None:
        """Takes the cluster as it is now, and the plan."""
        dump = cluster.osd_dump
        self.now: dict[Key, object] = {("weight", osd): own for osd, own in weights_in(cluster).items()}
        self.now.update({("out", osd): own["weight"] == 0 for osd, own in cluster.osds.items()})
        self.now.update({("reweight", osd): round(own["weight"] * FULL_WEIGHT) for osd, own in cluster.osds.items()})
        self.now.update({("pg_upmap", entry["pgid"]): entry["osds"] for entry in entries_of(dump, "pg_upmap")})
        for entry in entries_of(dump, "pg_upmap_items"):
            pairs = [[pair["from"], pair["to"]] for pair in entry["mappings"]]
            self.now["pg_upmap_items", entry["pgid"]] = pairs
        self.given = [part.settings() for part in parts]

    def has(self, at: int, key: Key) -> bool:
        """Whether the cluster has what a part gives, or what a later one gives in its place."""
        return any(key in own and self.now.get(key) == own[key] for own in self.given[at:])

    def is_given(self, at: int) -> bool:
        """Whether all of a part is given."""
        return all(self.has(at, key) for key in self.given[at])

    def has_group(self, at: int, group: str) -> bool:
        """Whether a group has what a part gives it."""
        keys = [key for key in self.given[at] if key[1] == group and key[0].startswith("pg_")]
        return all(self.has(at, key) for key in keys)


def groups_in_parts(parts: Sequence[PlanPart]) -> list[list[str]]:
    """The groups of each part, in their order."""
    return [list(dict.fromkeys(command.group for command in part.commands)) for part in parts]


def commands_by_group(part: PlanPart) -> Mapping[str, list[PrintedCommand]]:
    """The commands of each group of a part."""
    found: dict[str, list[PrintedCommand]] = {}
    for command in part.commands:
        found.setdefault(command.group, []).append(command)
    return found
