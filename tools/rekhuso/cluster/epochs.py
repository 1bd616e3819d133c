"""What is other from epoch to epoch, by a first map and the changes since.

The maps themselves are the program's. Here stands only what tells whether a part of a change does something: who is up,
reweights, pools and exceptions. So all changes of a long journal are told in little time: no group is placed.
"""

from __future__ import annotations

import json
from collections.abc import Iterator
from typing import Any, cast

from ..faults import Unopened
from ..program.defects import map_defects
from ..program.map_forms import CRUSH_KEYS, EXCEPTIONS, ExceptionKey, FULL_WEIGHT, GROWING, change_form
from ..program.maps import Change, Map, Pool, altered, entries_of, group_key
from ..program.stores import StoredChange, StoredJournal
from .json_forms import CrushParts, EpochParts, ExceptionChangeParts, GrowthParts, grown_numbers

# The form of a change of a store, whose program reads all of them under `--stock`.
FORM = change_form(True)


def json_in(journal: StoredJournal, what: str, text: str) -> Any:
    """The value of a text of a store. `Unopened` where it is none."""
    try:
        return json.loads(text)
    except (ValueError, RecursionError):
        raise Unopened(journal.path, f"{what}: no JSON") from None


def first_of(journal: StoredJournal) -> Map:
    """The first map of a store. `Unopened` where it is not lawful."""
    found: Map = json_in(journal, "map", journal.text)
    defects = map_defects(found, True)
    if defects:
        raise Unopened(journal.path, f"map: {defects[0]}")
    if found["epoch"] != journal.epoch:
        raise Unopened(journal.path, f"map: its epoch is {found['epoch']}, and that of its row {journal.epoch}")
    return found


def stored_change(journal: StoredJournal, row: StoredChange) -> Change:
    """The change of a row. `Unopened` where it has not the form of one to the map before."""
    found: Change = json_in(journal, f"row {row.epoch}", row.text)
    defect = next(FORM(found, ""), None)
    if defect is not None:
        raise Unopened(journal.path, f"row {row.epoch}: {defect}")
    if found["base"] != row.epoch - 1:
        raise Unopened(journal.path, f"row {row.epoch}: its base is {found['base']}")
    return found


def is_growth(parts: GrowthParts) -> bool:
    """Whether a pool has other numbers of groups than before."""
    return any(was != now for was, now in grown_numbers(parts).values())


def counts_of(crush: Any) -> CrushParts:
    """How many buckets and rules a new CRUSH map has."""
    return cast(CrushParts, {key: len(crush[key]) for key in CRUSH_KEYS})


class Before:
    """What is known of the map before a change; each of its methods tells a part of the change, and takes it."""

    def __init__(self, first: Map) -> None:
        """Takes a first map."""
        self.up = {osd["id"] for osd in first["osds"] if osd["up"]}
        self.weights = {osd["id"]: osd["weight"] for osd in first["osds"]}
        self.pools: dict[int, Pool] = {pool["id"]: pool for pool in first["pools"]}
        self.tables = {key: dict(entries_of(first, key)) for key in EXCEPTIONS}

    def growth(self, number: int, *numbers: int) -> GrowthParts:
        """The numbers of groups of a pool, and those that it had."""
        pool = self.pools[number]
        now: dict[str, int] = dict(zip(GROWING, numbers))
        self.pools[number] = altered(pool, **now)
        before = {f"{key}_before": pool[key] for key in GROWING}
        return cast(GrowthParts, {"id": number, **now, **before})

    def take_pools(self, change: Change) -> list[GrowthParts]:
        """The pools that grow; those that go and come are told by the change itself."""
        for number in set(entries_of(change, "old_pools")):
            del self.pools[number]
        self.pools.update({pool["id"]: pool for pool in entries_of(change, "new_pools")})
        grown = [self.growth(*entry) for entry in entries_of(change, "grow_pool")]
        return [own for own in grown if is_growth(own)]

    def take_states(self, change: Change) -> tuple[list[int], list[int]]:
        """The OSDs that go down, and those that come up."""
        down = [osd for osd in entries_of(change, "down") if osd in self.up]
        up = [osd for osd in entries_of(change, "up") if osd not in self.up]
        self.up.difference_update(down)
        self.up.update(up)
        return down, up

    def take_weights(self, change: Change) -> list[tuple[int, int, int]]:
        """The OSDs whose reweight becomes another, with both in units of 1/65,536."""
        given: dict[int, int] = dict(entries_of(change, "weight"))
        found = [(osd, self.weights[osd], weight) for osd, weight in given.items() if self.weights[osd] != weight]
        self.weights.update(given)
        return found

    def take_exceptions(self, change: Change, key: ExceptionKey) -> ExceptionChangeParts:
        """The exceptions of one kind that come, become others and go."""
        table, gone = self.tables[key], set(entries_of(change, "old_pools"))
        removed = {group for group in entries_of(change, EXCEPTIONS[key].old) if group in table}
        if gone:
            removed |= {group for group in table if group_key(group)[0] in gone}
        for group in removed:
            del table[group]
        new = entries_of(change, EXCEPTIONS[key].new)
        added = [entry for entry in new if entry[0] not in table]
        changed = [[group, own] for group, own in new if group in table and table[group] != own]
        table.update(dict(new))
        return {"added": added, "changed": changed, "removed": sorted(removed, key=group_key)}

    def unknown(self, change: Change) -> list[str]:
        """The OSDs and pools that a change names and the map does not have."""
        osds = [*entries_of(change, "down"), *entries_of(change, "up"), *dict(entries_of(change, "weight"))]
        old, new = set(entries_of(change, "old_pools")), {pool["id"] for pool in entries_of(change, "new_pools")}
        gone = old - self.pools.keys()
        grown = {entry[0] for entry in entries_of(change, "grow_pool")} - (self.pools.keys() - old | new)
        return [f"no osd.{osd}" for osd in osds if osd not in self.weights] + [
            f"no pool {number}" for number in sorted(gone | grown)
        ]

    def take(self, row: StoredChange, change: Change) -> EpochParts:
        """What is other after the change of a row, and what stands beside it."""
        grown, weights, crush = self.take_pools(change), self.take_weights(change), change.get("new_crush")
        down, up = self.take_states(change)
        return {
            "epoch": row.epoch,
            "made": row.note.made or None if row.note else None,
            "by": row.note.by if row.note else None,
            "profile": row.profile,
            "went_down": down,
            "came_up": up,
            "went_out": [osd for osd, _, now in weights if now == 0],
            "came_in": [[osd, now / FULL_WEIGHT] for osd, was, now in weights if was == 0],
            "reweighted": [[osd, was / FULL_WEIGHT, now / FULL_WEIGHT] for osd, was, now in weights if was and now],
            "pools_removed": entries_of(change, "old_pools"),
            "pools_created": entries_of(change, "new_pools"),
            "pools_grown": grown,
            "new_crush": None if crush is None else counts_of(crush),
            "pg_upmap": self.take_exceptions(change, "pg_upmap"),
            "pg_upmap_items": self.take_exceptions(change, "pg_upmap_items"),
        }


def epochs_of(first: Map, journal: StoredJournal) -> Iterator[EpochParts]:
    """What is other in each epoch of a store than in the one before. `Unopened` at the first row that is no change to
    the map before.
    """
    before = Before(first)
    for row in journal.changes:
        change = stored_change(journal, row)
        unknown = before.unknown(change)
        if unknown:
            raise Unopened(journal.path, f"row {row.epoch}: {', '.join(unknown)}")
        yield before.take(row, change)
