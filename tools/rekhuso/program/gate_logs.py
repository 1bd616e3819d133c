"""What the log of a gate says at its end: that it has passed, of which tree, and the sums of what it has built.

The gate writes these lines (`tools/built.py`), `make dist` goes by them, and `proof` reads them of a release.
"""

from __future__ import annotations

import re
from collections.abc import Iterator, Mapping
from dataclasses import dataclass, field
from typing import Dict

from ..values import SLOTS

# What a gate tells that has passed: of the kit, and of the wrong bodies.
TESTS = re.compile(r"^\D*(\d+) passed, 0 failed", re.MULTILINE)
BODIES = re.compile(r"^wrong bodies: (\d+), faults: 0$", re.MULTILINE)
# The lines at its end.
END = re.compile(
    r"^gate: passed at commit (\w+) (with|without) changes\n"
    r"gate: by (.*)\n"
    r"((?:gate: built [\w.]+ [0-9a-f]{64}\n)*)\Z",
    re.MULTILINE,
)


@dataclass(frozen=True, **SLOTS)
class Gate:
    """A gate that has passed: the commit of its tree, whether that had changes, the kit, the sums of what it built by
    names, and how many parts of the kit's and how many wrong bodies it had.
    """

    commit: str
    is_changed: bool
    kit: str
    sums: Dict[str, str] = field(default_factory=dict)
    tests: int = 0
    bodies: int = 0

    def words(self) -> str:
        """It in words."""
        changes = "with changes" if self.is_changed else "without changes"
        return f"{self.tests} passed, 0 failed, {self.bodies} wrong bodies refused, at commit {self.commit} {changes}"


def end_of(commit: str, is_changed: bool, kit: str, sums: Mapping[str, str]) -> Iterator[str]:
    """The lines with which the log of a gate that has passed ends."""
    yield f"gate: passed at commit {commit} {'with' if is_changed else 'without'} changes"
    yield f"gate: by {kit}"
    yield from (f"gate: built {name} {found}" for name, found in sums.items())


def has_passed(text: str) -> bool:
    """Whether a log tells a gate without failures."""
    return TESTS.search(text) is not None and BODIES.search(text) is not None


def gate_in(text: str) -> Gate | None:
    """The gate of which a log tells; None where it has failed, or where the log does not end as one does."""
    tests, bodies, end = TESTS.search(text), BODIES.search(text), END.search(text)
    if tests is None or bodies is None or end is None:
        return None
    sums = dict(line.split(" ")[2:] for line in end[4].splitlines())
    return Gate(end[1], end[2] == "with", end[3], sums, int(tests[1]), int(bodies[1]))
