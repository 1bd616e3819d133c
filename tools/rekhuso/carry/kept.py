"""What a carrier keeps in the monitors, below `rekhuso/`: its plan, its state, and what a person has said.

A value of a key may have 65,536 bytes. A longer one is refused by a monitor, and a manager loses it in silence. So a
plan is kept in chunks, with a head that is written last and has their sum. Two plans in turn have two slots: the head
tells which slot is in force, so that a plan that is cut off while it is written changes nothing.
"""

from __future__ import annotations

import hashlib
import json
from dataclasses import dataclass

from ..faults import Fault
from ..files import JsonObject
from ..values import SLOTS
from .connection import MISSING, CarryConnection, refusal

# How many characters a chunk has; they are ASCII, as JSON is written here.
CHUNK = 60000
HEAD, STATE, WISH, LEASE, STAGE = "plan", "state", "wish", "lease", "stage"
SLOTS_OF_PLANS = ("a", "b")


class Torn(Fault):
    """A plan that is not as it was kept."""

    code = "torn"


class Keys:
    """Values by keys below `rekhuso/`. In a dry run what is put stays here."""

    def __init__(self, connection: CarryConnection, is_dry: bool = False) -> None:
        """Takes the connection, and whether nothing is put into the cluster."""
        self.connection, self.is_dry = connection, is_dry
        self.own: dict[str, str | None] = {}

    def get(self, key: str) -> str | None:
        """A value; None where there is none."""
        if key in self.own:
            return self.own[key]
        found = self.connection.reply({"prefix": "config-key get", "key": f"rekhuso/{key}"})
        if abs(found.status) == MISSING:
            return None
        if found.status:
            raise refusal(f"config-key get rekhuso/{key}", found)
        return found.output.decode("utf-8", "replace")

    def put(self, key: str, text: str) -> None:
        """Sets a value. A fault where the cluster refuses it."""
        if self.is_dry:
            self.own[key] = text
            return
        found = self.connection.reply({"prefix": "config-key set", "key": f"rekhuso/{key}", "val": text})
        if found.status:
            raise refusal(f"config-key set rekhuso/{key}", found)

    def drop(self, key: str) -> None:
        """Takes a value away, where there is one."""
        if self.is_dry:
            self.own[key] = None
            return
        found = self.connection.reply({"prefix": "config-key rm", "key": f"rekhuso/{key}"})
        if found.status and abs(found.status) != MISSING:
            raise refusal(f"config-key rm rekhuso/{key}", found)

    def value(self, key: str) -> JsonObject | None:
        """A value that is a JSON object; None where there is none, or another."""
        try:
            found = json.loads(self.get(key) or "null")
        except ValueError:
            return None
        return found if isinstance(found, dict) else None


@dataclass(frozen=True, **SLOTS)
class PlanHead:
    """What is said of a plan that is kept: in which slot it is and in how many chunks, the sum of its text, and why it
    is carried no more, nothing where it still is.
    """

    slot: str
    chunks: int
    sum: str
    dropped: str

    def text(self) -> str:
        """As it is kept."""
        return json.dumps({"slot": self.slot, "chunks": self.chunks, "sum": self.sum, "dropped": self.dropped})


def head_in(keys: Keys) -> PlanHead | None:
    """The head of the plan that is kept, if there is one."""
    own = keys.value(HEAD)
    if own is None:
        return None
    slot, chunks, found, why = own.get("slot"), own.get("chunks"), own.get("sum"), own.get("dropped", "")
    if slot not in SLOTS_OF_PLANS or not isinstance(chunks, int) or not isinstance(found, str):
        return PlanHead(SLOTS_OF_PLANS[0], 0, "", "torn")
    return PlanHead(slot, chunks, found, str(why))


def chunk_key(slot: str, number: int) -> str:
    """The key of a chunk."""
    return f"{HEAD}.{slot}.{number}"


def sum_of(text: str) -> str:
    """The sum of a text."""
    return hashlib.sha256(text.encode()).hexdigest()


def kept_plan(keys: Keys, is_dropped: bool = False) -> JsonObject | None:
    """The plan that is carried, or also one that no longer is; None where there is none. Torn where it is not as it was
    kept.
    """
    head = head_in(keys)
    if head is None or head.dropped and not is_dropped or not head.chunks:
        return None
    text = "".join(keys.get(chunk_key(head.slot, number)) or "" for number in range(head.chunks))
    if sum_of(text) != head.sum:
        raise Torn("the plan that is kept is torn")
    found: JsonObject = json.loads(text)
    return found


def keep_plan(keys: Keys, plan: JsonObject) -> None:
    """Keeps a plan: its chunks beside those of the one before, then its head, and then those of before go."""
    text, before = json.dumps(plan), head_in(keys)
    chunks = [text[at : at + CHUNK] for at in range(0, len(text), CHUNK)]
    slot = SLOTS_OF_PLANS[before is not None and before.slot == SLOTS_OF_PLANS[0]]
    for number, own in enumerate(chunks):
        keys.put(chunk_key(slot, number), own)
    keys.put(HEAD, PlanHead(slot, len(chunks), sum_of(text), "").text())
    for number in range(before.chunks if before is not None else 0):
        keys.drop(chunk_key(before.slot if before is not None else "", number))


def drop_plan(keys: Keys, why: str) -> None:
    """A plan is carried no more; it stays to be looked at, and to be taken back."""
    head = head_in(keys)
    if head is not None and not head.dropped:
        keys.put(HEAD, PlanHead(head.slot, head.chunks, head.sum, why).text())
