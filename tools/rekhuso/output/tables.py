"""Tables of text."""

from __future__ import annotations


def aligned(rows: list[list[str]]) -> list[str]:
    """The lines of a table whose columns end below one another; the last column begins so."""
    widths = [max(map(len, column)) for column in zip(*rows)][:-1]
    return ["  ".join([*map(str.rjust, row, widths), row[-1]]) for row in rows]
