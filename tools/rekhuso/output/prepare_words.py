"""What goes before a change, in words and as scripts."""

from __future__ import annotations

from ..cluster.names import Names
from ..plans.holding import Held
from ..plans.movement import place_bytes
from ..plans.prepare import Prepared
from ..plans.steps import PlanStep
from ..words import counted, some
from .flow_words import move_words
from .origins import Origin
from .plan_scripts import PlanScript, WATCH, balancer_words, client_words, part_file

BEFORE_WORD = "prepare"
NEXT = [
    "after:  once its groups have moved: dump again, and hold the change over the new dumps; then the hold covers them",
    "undo:   the same words with --undo, over the same files, which are to be kept",
]


def left_words(left: list[Held]) -> list[str]:
    """The groups that are elsewhere at the change nonetheless, by the reasons."""
    by_step: dict[str, list[str]] = {}
    for own in left:
        by_step.setdefault(own.why.step if own.why else "", []).append(own.group)
    return [
        f"{counted(len(groups), 'group')} cannot be prepared, as both sides allow no set by one place or two, "
        f"by {step}: {some(groups)}"
        for step, groups in sorted(by_step.items(), key=lambda one: (-len(one[1]), one[0]))
    ]


def prepare_lines(found: Prepared) -> list[str]:
    """What is moved before a change, and what is left."""
    steps = [step for step in found.steps if step.is_moving()]
    places = sum(len(step.places_come()) for step in steps)
    first = f"a hold would leave {counted(len(found.before), 'group')}"
    if not steps:
        return [first, *left_words(found.after)]
    parts = f"{move_words(len(steps), places)} before the change, in {counted(len(found.parts), 'part')}"
    return [f"{first}; {parts}; then it leaves {len(found.after)}", *left_words(found.after)]


def prepare_scripts(found: Prepared, names: Names, is_undo: bool, origin: Origin) -> list[str]:
    """The scripts of the parts, or of the way back from them."""
    weights, count, texts = place_bytes(found.pools, None), len(found.parts), []
    for number, part in enumerate(found.parts, 1):
        steps: list[PlanStep] = [step.undone() for step in part] if is_undo else part
        order = [f"order:  {part_file(BEFORE_WORD, number - 1, count)} is run before, and its groups have moved"]
        notes = [*balancer_words(None), *client_words(found.hold.client), *WATCH, *(order if number > 1 else []), *NEXT]
        title = "The way back from what was moved before" if is_undo else "Moves before"
        title += f" a change, over epoch {found.epoch}, part {number} of {count}"
        own = origin.turned("undo of a preparation" if is_undo else "preparation", number, count)
        texts.append(PlanScript(title, notes, weights, names, own).text(steps))
    return texts
