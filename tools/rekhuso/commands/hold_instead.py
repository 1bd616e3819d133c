"""What can be held in place of a change that cannot: other words of it, and what is moved before it. Each is tried over
the same cluster, and is told with what it holds.
"""

from __future__ import annotations

from collections.abc import Callable
from dataclasses import dataclass, replace

from ..cluster.aftermath import Command
from ..cluster.cluster import Cluster
from ..cluster.effects import weight_units
from ..cluster.view import view_of_cluster
from ..faults import Fault
from ..plans.busy import ALL, NO_LIMIT, PartSize
from ..plans.drain_stages import low_weight, weights_in
from ..plans.hold import hold_of_change
from ..plans.prepare import prepare_of
from ..program.maps import Program
from ..values import SLOTS
from ..words import counted
from .change_words import ChangeWords
from .whatif_words import Word, crush_weight_in, osds_named, reweight_in

DRAIN = "`drain` begins with that weight, and ends with 0 and out"


@dataclass(frozen=True, **SLOTS)
class Tried:
    """A cluster, the words of a change, and the commands that they stand for; and the program that is asked."""

    cluster: Cluster
    asked: ChangeWords
    steps: list[Command]
    program: Program

    def lighter(self, name: str) -> Word:
        """The word that gives OSDs next to no weight."""
        view = view_of_cluster(self.cluster)
        osds = osds_named(view.named_tree(), view.names, name)
        return Word("weight", (f"{name}={low_weight(weights_in(self.cluster), osds)}",))

    def instead(self, word: Word) -> list[Word]:
        """What may stand in place of a word."""
        if word.kind == "out":
            return [self.lighter(name) for name in word.values[0].split(",")]
        if word.kind == "reweight" and reweight_in(word.values[1]) == 0:
            return [self.lighter(word.values[0])]
        if word.kind == "weight":
            name, weight = crush_weight_in(word.values[0])
            return [word if weight > weight_units(0.0) else self.lighter(name)]
        return [word]

    def other_words(self) -> list[str]:
        """That other words of the change can be held, where OSDs weigh nothing or are out by it."""
        words = tuple(own for word in self.asked.words for own in self.instead(word))
        if words == self.asked.words:
            return []
        view = view_of_cluster(self.cluster)
        steps = replace(self.asked, words=words).commands(view, self.cluster, self.program)
        hold = hold_of_change(self.cluster, steps, self.program)
        told, given = hold.told(), " ".join(f"--{word.kind} {' '.join(word.values)}" for word in words)
        if not told["held"]:
            return []
        return [f"`{given}` in its place holds {told['held']} of {counted(told['groups'], 'group')}: {DRAIN}"]

    def prepared(self) -> list[str]:
        """That groups can be moved before the change, so that a hold covers them."""
        found = prepare_of(self.cluster, self.steps, PartSize(ALL, NO_LIMIT), self.program)
        moved = sum(step.is_moving() for step in found.steps)
        if not moved:
            return []
        left = f"and a hold then leaves {counted(len(found.after), 'group')}"
        return [f"`--prepare` moves {counted(moved, 'group')} before the change, {left}"]


def instead_of(tried: Tried) -> list[str]:
    """What can be held in place of a change, or before it; nothing of what is refused."""
    found: list[str] = []
    ways: tuple[Callable[[], list[str]], ...] = (tried.other_words, tried.prepared)
    for way in ways:
        try:
            found = found or way()
        except Fault:
            continue
    return found
