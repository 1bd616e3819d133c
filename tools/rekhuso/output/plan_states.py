"""Which of three a plan is, for a script: there are commands, nothing is to do, or nothing can be planned, and why."""

from __future__ import annotations

from ..plans.plan import Outcome
from ..words import counted
from .refusal_words import why_words

PLANNED, NOTHING_TO_DO, BARRED = "planned", "nothing to do", "nothing can be planned"


def reasons_of(outcome: Outcome) -> list[str]:
    """Why pools get no plan, and groups are left where they are, a line each."""
    found = []
    for own in outcome.pools:
        if own["refused"]:
            found.append(f"{own['name']}: {why_words(own['refused'])}")
        if own["left_out"]:
            left = counted(len(own["left_out"]), "group")
            found.append(f"{own['name']}: {left} left out, whose pairs Ceph's monitor would take away again")
    if outcome.taken_out:
        found.append(f"{counted(len(outcome.taken_out), 'group')} left, or the cluster would get less even")
    return found


def state_of(outcome: Outcome) -> str:
    """Which of the three a plan is. Without commands nothing can be planned where no pool may be, or groups that are
    to move stay.
    """
    if outcome.steps:
        return PLANNED
    is_kept = bool(outcome.taken_out or outcome.stopped or any(own["left_out"] for own in outcome.pools))
    are_refused = bool(outcome.pools) and all(own["refused"] for own in outcome.pools)
    return BARRED if is_kept or are_refused else NOTHING_TO_DO


def state_line(outcome: Outcome) -> str:
    """The same in one line; with the reasons where nothing can be planned."""
    state = state_of(outcome)
    return f"{state}: {'; '.join(reasons_of(outcome))}" if state == BARRED else state
