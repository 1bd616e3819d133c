"""What of a plan is done, under way and left, in words."""

from __future__ import annotations

from ..plans.next_step import DONE, OUT, Amount, NextStep
from ..words import counted, size_words


def progress_words(own: Amount) -> str:
    """What is still to come of some groups."""
    words = f"{counted(own.groups, 'group')} and {counted(own.places, 'place')}"
    return words if not own.size else f"{words}, some {size_words(own.size)}"


def next_lines(found: NextStep) -> list[str]:
    """What is done, under way and left, what is put out, and what is left out."""
    lines = [
        f"done: {counted(found.done, 'group')}; under way: {progress_words(found.under_way)}; "
        f"left: {progress_words(found.left)}"
    ]
    others = found.moving - found.under_way.places
    if others > 0:
        lines.append(f"{counted(others, 'place')} of other groups {'is' if others == 1 else 'are'} under way too")
    lines += [f"left out: {line}: {why}" for line, why in found.left_out]
    if found.status == OUT:
        count = sum(line.startswith("ceph ") for line in found.text.splitlines())
        return [*lines, f"{counted(count, 'command')} out, from {found.part} on"]
    return [
        *lines,
        "all is done" if found.status == DONE else "nothing may be given now: what is under way comes first",
    ]
