"""The grammar of a rule: blocks of a take, one to three choose steps, and an emit; tries are set before a take."""

from __future__ import annotations

from collections.abc import Callable

from .map_forms import SETTING
from .maps import RuleStep

LAST = (
    "the last choose step of a block is chooseleaf of a type above 0, or plain choose of type 0; those before it are "
    "plain"
)


def sets_tries(step: RuleStep) -> bool:
    """Whether a step sets how a rule tries."""
    return step[0] in SETTING


def chooses(step: RuleStep) -> bool:
    """Whether a step chooses, plainly or down to leaves."""
    return str(step[0]).startswith("choose")


def chooses_leaves(step: RuleStep) -> bool:
    """Whether a step chooses down to leaves."""
    return str(step[0]).startswith("chooseleaf")


def split(steps: list[RuleStep], is_first: Callable[[RuleStep], bool]) -> tuple[list[RuleStep], list[RuleStep]]:
    """The steps with which some begin that are of one kind, and the others."""
    count = next((at for at, step in enumerate(steps) if not is_first(step)), len(steps))
    return steps[:count], steps[count:]


def choice_fault(chosen: list[RuleStep], way: str) -> str | None:
    """What is wrong with the choose steps of a block, which choose in one way."""
    if any(not step[0].endswith(way) for step in chosen):
        return f"a rule of this kind chooses by {way}"
    if any(low[2] >= high[2] for high, low in zip(chosen, chosen[1:])):
        return "the types of choose steps fall"
    *before, last = chosen
    return LAST if any(map(chooses_leaves, before)) or chooses_leaves(last) != (last[2] > 0) else None


def first_block(steps: list[RuleStep], way: str) -> tuple[str | None, list[RuleStep]]:
    """What is wrong with the first block of some steps, and the steps behind it."""
    _, block = split(steps, sets_tries)
    if not block or block[0][0] != "take":
        return "a block begins with a take", []
    chosen, end = split(block[1:], chooses)
    if not 1 <= len(chosen) <= 3 or not end or end[0][0] != "emit":
        return "a block is a take, one to three choose steps and an emit", []
    return choice_fault(chosen, way), end[1:]


def rule_fault(steps: list[RuleStep], kind: str) -> str | None:
    """What is wrong with the first block at fault of a rule for pools of a kind; None where none is."""
    way = "firstn" if kind == "replicated" else "indep"
    fault, left = first_block(steps, way)
    while fault is None and left:
        fault, left = first_block(left, way)
    return fault
