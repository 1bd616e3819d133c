"""What of a plan is done, under way and left, as the page of `report` has it."""

from __future__ import annotations

from ..cluster.names import Names, named
from ..plans.next_step import NextStep
from ..words import escaped
from .next_words import next_lines

# What is told of each OSD: the places that are under way to it, that are still to be sent, and that are still to go.
NEXT_COLUMNS = ["OSD", "UNDER WAY", "LEFT", "TO GO"]


def next_rows(found: NextStep, names: Names) -> list[list[object]]:
    """Each OSD to which places of a plan are still to come, or from which they are still to go, as a row."""
    return [[named(names, "osds", osd), *counts] for osd, counts in found.by_osd.items()]


def next_head(found: NextStep) -> str:
    """How far a plan is: a bar of its groups, and what is told of it in words."""
    whole = found.done + found.under_way.groups + found.left.groups
    bar = f'<progress max="{max(whole, 1)}" value="{found.done if whole else 1}"></progress>'
    return f"{bar}{''.join(f'<p>{escaped(line)}</p>' for line in next_lines(found))}"
