"""How OSDs are emptied, in words and as scripts."""

from __future__ import annotations

from dataclasses import replace

from ..cluster.names import Names
from ..plans.drain import Drain
from ..plans.drain_checks import osds_listed
from ..plans.drain_stages import Stage
from ..plans.guards import (
    AT_COMMANDS,
    NO_GUARDS,
    UNFLAGGED,
    Guards,
    after_commands,
    end_lines,
    groups_asked,
    groups_named,
    leading_asked,
)
from ..plans.heads import NOT_TOLD, sum_of_crush
from ..plans.holding import Held
from ..plans.movement import PlaceBytes
from ..together import exceptions_of_dump
from ..words import counted, some
from .byte_words import byte_lines, bytes_moved
from .fill_words import fill_words
from .flow_words import move_words
from .hold_heads import goal_in, sets_told
from .hold_words import BEGIN, ENDING
from .origins import Origin
from .plan_scripts import PlanScript, WATCH, balancer_words, client_words, comments, part_file

# What the files of a drain are named by, and the names of those before and behind its parts.
WORD, FIRST, LAST = "drain", "drain-000.sh", "drain-end.sh"
UNDO = "undo:   the same words with --undo, over the same files, which are to be kept: whichever script was run"
NEXT = [
    "after:  nothing moves: ceph status tells no misplaced group; then the parts in their order, each once the groups",
    "        of the one before have moved",
]
NEXT_BESIDE = [
    "after:  nothing moves of the pools that were read; once ceph status tells no misplaced group the parts in their",
    "        order, each once the groups of the one before have moved",
]
GONE = "after:  once ceph osd safe-to-destroy tells so: ceph osd purge, or the disk is replaced"


def osds_in(found: Drain) -> str:
    """The OSDs that are emptied."""
    return some([f"osd.{osd}" for osd in found.osds], 6)


def lost_words(left: list[Held]) -> list[str]:
    """The groups that move at once, by the reasons."""
    by_step: dict[str, list[Held]] = {}
    for own in left:
        by_step.setdefault(own.why.step if own.why else "", []).append(own)
    return [
        f"{counted(len(groups), 'group')} cannot be held: "
        f"{counted(sum(len(own.lost()) for own in groups), 'place')} of theirs come elsewhere, "
        f"by {step}: {some([own.group for own in groups])}"
        for step, groups in sorted(by_step.items(), key=lambda one: (-len(one[1]), one[0]))
    ]


def waiting_words(found: Drain) -> list[str]:
    """The groups that go in the end alone, by the reasons."""
    by_step: dict[str, list[str]] = {}
    for group, why in found.waiting.items():
        by_step.setdefault(why.step, []).append(group)
    return [
        f"{counted(len(groups), 'group')} cannot go before the end, by {step}: {some(groups)}"
        for step, groups in sorted(by_step.items(), key=lambda one: (-len(one[1]), one[0]))
    ]


def drain_lines(found: Drain, names: Names, weights: PlaceBytes) -> list[str]:
    """What a drain moves, how full OSDs get, and which groups cannot be held or go."""
    moving = weights.moving(found.steps)
    parts = counted(len(found.parts), "part")
    lie = f"{counted(found.places, 'place')} of groups lie{'s' if found.places == 1 else ''} on {osds_in(found)}"
    lines = [
        f"{lie}; {move_words(moving['groups'], moving['places'])} in {parts}, each group once{bytes_moved(moving)}"
        if found.places
        else f"nothing lies on {osds_in(found)}"
    ]
    lines += [f"at once, by {FIRST}: {line}" for line in lost_words(found.begin.hold.left())]
    lines += waiting_words(found)
    lines += [f"in the end, by {LAST}: {line}" for line in lost_words(found.end.hold.left())]
    peak = max((own for own in found.peaks if own["osd"] is not None), key=lambda own: own["groups"], default=None)
    lines.append(f"by the shares without them: {fill_words(found.before.fill(), names)}, before")
    lines.append(f"by the shares without them: {fill_words(found.after.fill(), names)}, after")
    if peak is not None:
        lines.append(f"meanwhile osd.{peak['osd']} has {counted(peak['groups'], 'group')}, where none has gone yet")
    return lines + byte_lines(found.fill, names)


def around(change: list[str]) -> tuple[list[str], list[str]]:
    """The lines before and behind the commands on exceptions of a script that makes a change."""
    return [*BEGIN, *change, AT_COMMANDS], ENDING


def guards_of_turn(found: Drain, own: Guards, part: int) -> Guards:
    """The guards of a script by its turn: what must stand before it."""
    last, begun = len(found.parts) + 1, found.begin.cluster
    if part == 0 or own == NO_GUARDS:
        return own
    parts = [[line for step in steps for line in step.commands] for steps in found.parts]
    has = exceptions_of_dump(dict(begun.osd_dump))
    for lines in parts[: part - 1]:
        has = after_commands(has, lines)
    before = groups_named(parts[part - 2] if part > 1 else found.begin.hold.commands)
    if part == last:
        before = groups_named(line for lines in parts for line in lines)
        asked = [leading_asked(found.osds, has, f"pairs lead to {osds_in(found)} still: a part is not given")]
    else:
        now = set(groups_named(parts[part - 1]))
        asked, before = [], [group for group in before if group not in now]
    asked += groups_asked(before, has, "pairs of the part before do not stand")
    return own.begun(len(found.begin.change)).asking([UNFLAGGED, *asked])


def turn_of(found: Drain, origin: Origin, part: int) -> Origin:
    """The origin of a script by its turn: 0 begins, the last one ends, and between them the CRUSH map stays."""
    origin = replace(origin, guards=guards_of_turn(found, origin.guards, part))
    if origin.head is None:
        return origin
    last, begun = len(found.parts) + 1, sum_of_crush(found.begin.cluster)
    crush = begun if part else origin.head.crush
    then = begun if not part else sum_of_crush(found.end.cluster) if part == last else NOT_TOLD
    head = replace(origin.head.with_crush(crush, then), version=NOT_TOLD if part else origin.head.version)
    return replace(origin, head=head).turned("drain", part, last)


def ends_of(stage: Stage) -> list[str]:
    """What the script of a change asks in its end."""
    goal = goal_in(stage.hold)
    return end_lines(set(groups_named(stage.hold.commands)) & goal.keys(), goal, sets_told(stage.hold, stage.cluster))


def round_script(title: str, notes: list[str], lines: list[str], origin: Origin) -> str:
    """A script of commands with those round them, and what is told above."""
    commands = [line for line in lines if "pg-upmap" in line]
    above = [*comments([title]), *origin.head_lines(len(commands)), *comments(notes)]
    return origin.closed("\n".join([*above, "set -e", *origin.guards.lines(commands), *lines]) + "\n")


def stage_script(title: str, notes: list[str], stage: Stage, origin: Origin) -> str:
    """The script of a change that keeps data where it is."""
    before, behind = around(stage.change)
    notes = [*origin.notes(), *client_words(stage.hold.client), *notes]
    ends = [] if origin.guards == NO_GUARDS else ends_of(stage)
    return round_script(title, notes, [*before, *stage.hold.commands, *ends, *behind], origin)


def first_script(found: Drain, origin: Origin) -> str:
    """The script with which a drain begins."""
    hold = found.begin.hold
    held, moving = hold.told()["held"], hold.told()["groups"]
    title = (
        f"Drains {osds_in(found)} over epoch {found.epoch}, the beginning: next to no weight, and {held} of {moving} "
        f"groups{origin.beside.of_read} held that would move, by {counted(len(hold.commands), 'command')}"
    )
    notes = [*(NEXT_BESIDE if origin.beside.pools else NEXT), UNDO]
    return stage_script(title, notes, found.begin, turn_of(found, origin, 0))


def last_script(found: Drain, origin: Origin) -> str:
    """The script with which a drain ends."""
    title = f"Drains {osds_in(found)} over epoch {found.epoch}, the end: of no weight and out, which moves "
    left = found.end.hold.left()
    title += (f"{counted(len(left), 'group')}" if left else "nothing") + origin.beside.of_read
    order = "order:  all parts are run before"
    return stage_script(title, [order, GONE, UNDO], found.end, turn_of(found, origin, len(found.parts) + 1))


def part_scripts(found: Drain, names: Names, weights: PlaceBytes, origin: Origin) -> list[str]:
    """The scripts of the parts."""
    count, texts = len(found.parts), []
    for number, part in enumerate(found.parts, 1):
        peak, words = found.peaks[number - 1], "no OSD gets a place"
        if peak["osd"] is not None:
            words = f"of the OSDs that get places osd.{peak['osd']} has most groups meanwhile, {peak['groups']}"
        before = part_file(WORD, number - 1, count) if number > 1 else FIRST
        notes = [
            *balancer_words(None),
            *client_words(found.begin.hold.client),
            *WATCH,
            f"peak:   {words}, where none has gone yet",
            f"order:  {before} is run before" + (", and its groups have moved" if number > 1 else ""),
            "stop:   give no further part",
            UNDO,
        ]
        title = f"Drains {osds_in(found)} over epoch {found.epoch}, part {number} of {count}"
        texts.append(PlanScript(title, notes, weights, names, turn_of(found, origin, number)).text(part))
    return texts


def undo_script(found: Drain, origin: Origin) -> str:
    """The script of the way back."""
    title = f"The way back from draining {osds_listed(found.osds)} over epoch {found.epoch}, whichever script was run"
    notes = [
        "after:  these OSDs have their weights and all groups the exceptions of that epoch; what has moved comes back"
    ]
    if origin.head is not None:
        origin = replace(origin, head=replace(origin.head.with_crush(NOT_TOLD), version=NOT_TOLD))
    before, behind = around(found.undo.change)
    lines = [*before, *found.undo.commands, *behind]
    return round_script(title, [*origin.notes(), *notes], lines, origin.turned("undo of a drain", 1, 1))
