"""Single questions: one session for some lines."""

from __future__ import annotations

from .answers import Up
from .maps import Map, Program
from .monitor import Monitor


def raw_answers(program: Program, value: Map | str, lines: list[str], stock: bool | None = None) -> list[str]:
    """The answer of each line over a map, refusals among them."""
    with Monitor(value, program, stock=stock) as monitor:
        return monitor.raw(lines)


def answers_of(program: Program, value: Map | str, lines: list[str]) -> list[str]:
    """The answer of each line over a map; a refusal ends this as `Refused`."""
    with Monitor(value, program) as monitor:
        return monitor.ask(lines)


def up_sets(program: Program, value: Map | str, groups: list[str]) -> dict[str, Up]:
    """The up set of each group of a map."""
    with Monitor(value, program) as monitor:
        return monitor.ups(groups)
