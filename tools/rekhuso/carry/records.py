"""What a carrier says of itself: its state, since when, and how far its plan is, as it is kept in the cluster."""

from __future__ import annotations

import json
import time
from collections import Counter
from collections.abc import Mapping
from dataclasses import dataclass, field

from ..faults import Fault
from ..files import JsonObject
from ..plans.next_step import Amount, NextStep
from ..values import SLOTS
from .kept import STATE, Keys
from .states import STATUSES, CarrierState

# The version of its form; after how many seconds it is told again, though nothing has changed; and how often a
# command may be given in vain; and how many commands are shown.
FORM, TOLD_AGAIN, MOST_VAIN, SHOWN = 1, 60.0, 3, 20
# What changes whenever it is told.
TIMES = ("at", "warning", "seconds")


def amount_of(own: Amount) -> dict[str, int | None]:
    """What is still to come of some groups."""
    return {"groups": own.groups, "places": own.places, "bytes": own.size}


@dataclass(**SLOTS)
class Record:
    """What is told of a carrier beside its state: since when it is in that; the map that it has judged, by its epoch,
    its cluster and its sum; the sum over which there was nothing to plan, and over which groups lay elsewhere, each
    since when; how far the plan is; how often commands were given that did not stand; by which word of a person it
    goes; how much it has given in all, and what last; and what comes next.
    """

    state: CarrierState = field(default_factory=lambda: CarrierState("off", "new", "no carrier was here yet"))
    since: float = field(default_factory=time.time)
    map: dict[str, object] = field(default_factory=dict)
    quiet: str = ""
    quiet_at: float = 0.0
    differs: str = ""
    differs_at: float = 0.0
    plan: JsonObject | None = None
    progress: dict[str, object] = field(default_factory=dict)
    vain: Counter[str] = field(default_factory=Counter)
    word: int = 0
    commands: int = 0
    last: list[str] = field(default_factory=list)
    coming: list[str] = field(default_factory=list)

    def enter(self, state: CarrierState) -> None:
        """Is in a state from now on; where it was in it for the same reason, it is since then."""
        if (state.state, state.code) != (self.state.state, self.state.code):
            self.since = time.time()
        self.state = state

    def go_on(self, found: NextStep) -> None:
        """Takes how far the plan is."""
        self.progress = {
            "done": found.done,
            "under_way": amount_of(found.under_way),
            "left": amount_of(found.left),
            "moving": found.moving,
        }

    def parts(self) -> dict[str, object]:
        """All of it as it is told."""
        seconds = max(0.0, time.time() - self.since)
        return {
            "state": self.state.state,
            "code": self.state.code,
            "words": self.state.words,
            "since": round(self.since, 3),
            "at": round(time.time(), 3),
            "warning": self.state.is_warned(seconds),
            "map": self.map or None,
            "plan": self.plan,
            "progress": self.progress or None,
            "commands": self.commands,
            "last": self.last[:SHOWN],
            "coming": self.coming[:SHOWN],
        }

    def text(self) -> str:
        """All of it as it is kept, with what a carrier behind this one needs."""
        vain = dict(own for own in self.vain.items() if own[1] > 1)
        own = {"quiet": self.quiet, "quiet_at": self.quiet_at, "vain": vain, "word": self.word}
        differs = {"differs": self.differs, "differs_at": self.differs_at}
        return json.dumps({"version": FORM, **self.parts(), **own, **differs})


def record_in(keys: Keys) -> Record:
    """What was kept of a carrier; a new one where that is nothing, or of another form."""
    own = keys.value(STATE)
    if own is None or own.get("version") != FORM or own.get("state") not in STATUSES:
        return Record()
    try:
        return Record(
            state=CarrierState(own["state"], str(own["code"]), str(own["words"])),
            since=float(own["since"]),
            map=dict(own["map"] or {}),
            quiet=str(own["quiet"]),
            quiet_at=float(own["quiet_at"]),
            differs=str(own["differs"]),
            differs_at=float(own["differs_at"]),
            plan=own["plan"],
            progress=dict(own["progress"] or {}),
            vain=Counter({str(line): int(count) for line, count in own["vain"].items()}),
            word=int(own["word"]),
            commands=int(own["commands"]),
            last=list(map(str, own["last"])),
            coming=list(map(str, own["coming"])),
        )
    except (KeyError, TypeError, ValueError, AttributeError):
        return Record()


class Teller:
    """Keeps what is told of a carrier in the cluster, where it has changed or was told long ago."""

    def __init__(self, keys: Keys) -> None:
        """Has told nothing yet."""
        self.keys, self.told, self.when = keys, dict[str, object](), 0.0

    def tell(self, own: Record) -> None:
        """Keeps it. A fault where the cluster does not take it."""
        parts = {key: value for key, value in own.parts().items() if key not in TIMES}
        if parts != self.told or time.monotonic() - self.when > TOLD_AGAIN:
            self.keys.put(STATE, own.text())
            self.told, self.when = parts, time.monotonic()

    def try_to_tell(self, own: Record) -> str:
        """Keeps it, where the cluster takes it: why it does not, or nothing."""
        try:
            self.tell(own)
        except Fault as fault:
            return str(fault)
        return ""


def told_of(own: Mapping[str, object]) -> str:
    """What is told of a carrier, in words for a log."""
    return f"{own['state']}: {own['words']} ({own['code']})"
