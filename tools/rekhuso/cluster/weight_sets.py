"""Weight sets (choose_args) of a CRUSH dump."""

from __future__ import annotations

from typing import Any

from ..program.map_forms import FULL_WEIGHT
from .dump_forms import WEIGHT_SET, misfits
from .dump_types import CrushDump, DumpPool


def weight_sets_of(crush_dump: CrushDump, pools: list[DumpPool]) -> dict[str, list[Any]]:
    """The weight sets that some pools have: their own, and the compat one."""
    own = {"-1", *(str(pool["pool"]) for pool in pools)}
    return {key: entries for key, entries in crush_dump.get("choose_args", {}).items() if key in own or not pools}


def compat_weight_set(entries: dict[str, list[Any]]) -> dict[int, list[int]]:
    """The weights, in units of 1/65,536, that a compat weight set gives the items of each bucket: the one that is in
    force for all pools and all places of a set. None where weight sets are of another form.
    """
    found: dict[int, list[int]] = {}
    for entry in entries["-1"] if list(entries) == ["-1"] and isinstance(entries["-1"], list) else []:
        if not misfits(entry, WEIGHT_SET, "") and len(entry.get("weight_set", [])) == 1 and not entry.get("ids"):
            found[entry["bucket_id"]] = [round(weight * FULL_WEIGHT) for weight in entry["weight_set"][0]]
    return found
