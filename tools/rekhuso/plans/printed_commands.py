"""Commands on exceptions as a script prints them, read back from its text."""

from __future__ import annotations

import re
from collections.abc import Iterable
from dataclasses import dataclass

from ..faults import DEFECT, Misjudged
from ..program.maps import Change, Entry
from ..values import SLOTS
from .guards import is_guard

FORM = re.compile(r"ceph osd (rm-)?(pg-upmap|pg-upmap-items) ([0-9]+\.[0-9a-f]+)((?: [0-9]+)*)")
# The key of a change for each word.
KEYS = {"pg-upmap": "upmap", "pg-upmap-items": "items"}
# What is told of a script that is not put out.


def defect(line: str, why: str) -> Misjudged:
    """That a printed line is not what it should be."""
    return Misjudged(f"{line}: {why}: {DEFECT}")


@dataclass(frozen=True, **SLOTS)
class PrintedCommand:
    """A command: its line, its group, the OSDs that it names, and the change that it stands for."""

    line: str
    group: str
    osds: list[int]
    change: Change


def command_in(line: str) -> PrintedCommand:
    """The command of a line. A fault where it is none."""
    found = FORM.fullmatch(line)
    if found is None:
        raise defect(line, "no command on exceptions")
    gone, word, group, rest = found.groups()
    osds, is_pairs = list(map(int, rest.split())), word.endswith("-items")
    if bool(gone) == bool(osds) or is_pairs and len(osds) % 2:
        raise defect(line, "it names too few OSDs or too many")
    if gone:
        return PrintedCommand(line, group, osds, {f"old_{KEYS[word]}": [group]})
    entry: Entry = [group, [list(pair) for pair in zip(osds[::2], osds[1::2])] if is_pairs else osds]
    return PrintedCommand(line, group, osds, {f"new_{KEYS[word]}": [entry]})


def commands_in(text: str, others: Iterable[str] = ()) -> list[PrintedCommand]:
    """The commands of a script in their order. A fault for a line that is neither one nor a comment, nor a guard by its
    exact form, nor one of some others that the script may have.
    """
    passed = {"", "set -e", *others}
    lines = [line for line in text.splitlines() if line not in passed and not line.startswith("#")]
    lines = [line for line in lines if not is_guard(line)]
    return list(map(command_in, lines))
