"""What a person says to a carrier, and asks of it: its state, that it pauses, goes on or stops, and the way back."""

from __future__ import annotations

import json
import time
from dataclasses import dataclass

from ..faults import Fault
from ..files import JsonObject
from ..plans.guards import NO_GUARDS, Guards
from ..values import SLOTS
from .carrier import OFF, ON, PAUSED
from .kept import STATE, WISH, Keys, kept_plan

# What a person may say, with what a carrier then is to be.
SAYINGS = {"pause": PAUSED, "resume": ON, "stop": OFF}
# After how many seconds a carrier that says nothing is told to be silent.
SILENT = 300.0


def say(keys: Keys, word: str) -> None:
    """Says something to the carrier, which takes it at its next look."""
    keys.put(WISH, json.dumps({"wish": SAYINGS[word], "number": time.time_ns()}))


@dataclass(frozen=True, **SLOTS)
class ToldState:
    """The state that a carrier has told, and for how many seconds it has told nothing."""

    parts: JsonObject
    silent: float


def told_state(keys: Keys) -> ToldState:
    """The state that a carrier has told last. A fault where none was ever there."""
    own = keys.value(STATE)
    if own is None:
        raise Fault("no carrier was here yet: `rekhuso carry CONF` is one")
    at = own.get("at")
    return ToldState(own, max(0.0, time.time() - at) if isinstance(at, (int, float)) else SILENT)


def way_back(keys: Keys) -> str:
    """The script that takes a kept plan back. A fault where none is kept, and while it is carried."""
    said = keys.value(WISH) or {}
    plan = kept_plan(keys, True)
    if plan is None:
        raise Fault("no plan is kept: of a folder the way back was written beside it")
    if said.get("wish") not in (PAUSED, OFF) and (keys.value(STATE) or {}).get("state") != "stopped":
        raise Fault("a carrier would give it again: `rekhuso carry pause` comes first")
    fsid, lines = plan.get("fsid"), [str(line) for line in plan.get("undo", [])]
    guards = Guards(str(fsid), None, {}) if fsid is not None else NO_GUARDS
    head = f"# The way back from the plan over epoch {plan.get('epoch')} that was carried, whichever part was given"
    return "\n".join(["#!/bin/sh", head, "set -e", *guards.lines(lines), *lines]) + "\n"
