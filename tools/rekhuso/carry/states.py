"""The states of a carrier, and why it gives nothing: what waits, and what only a person lets go on."""

from __future__ import annotations

from dataclasses import dataclass

from ..faults import Fault, Trouble, Wait
from ..values import SLOTS

# All states, and what a run with --once ends with in each, where its code does not say another thing.
STATUSES = {"off": 11, "paused": 11, "quiet": 0, "planning": 11, "carries": 11, "waits": 11, "stopped": 1, "failed": 2}
# Commands are given; the program judges something to be another thing than is told; the program cannot be asked.
GIVEN, MISJUDGED, NO_PROGRAM = "given", "misjudged", "program"
OTHERS = {GIVEN: 10, MISJUDGED: 70, NO_PROGRAM: 2}
# After how many seconds of waiting it is told as a warning.
HOUR = 3600.0


class Waiting(Wait):
    """Nothing may be given now, and the plan is kept."""

    def __init__(self, code: str, words: str) -> None:
        """Takes the code of the reason, and the reason."""
        super().__init__(words)
        self.code = code


class Halted(Fault):
    """Nothing is given until a person says so."""

    def __init__(self, code: str, words: str) -> None:
        """Takes the code of the reason, and the reason."""
        super().__init__(words)
        self.code, self.status = code, OTHERS.get(code, 1)


class NoAnswer(Trouble):
    """The cluster gives no answer."""

    code = "cluster"


@dataclass(frozen=True, **SLOTS)
class CarrierState:
    """What a carrier does: one of the states, the code of the reason, and the reason in words."""

    state: str
    code: str
    words: str

    @property
    def status(self) -> int:
        """What a run with --once ends with."""
        return OTHERS.get(self.code, STATUSES[self.state])

    def is_warned(self, seconds: float) -> bool:
        """Whether a person is to look, once it is so for some seconds."""
        return self.state in ("stopped", "failed") or self.state == "waits" and seconds >= HOUR
