"""What a carrier tells in Prometheus' text format."""

from __future__ import annotations

from collections.abc import Iterable, Mapping

from .metrics import Metrics

# What each metric is.
ABOUT = {
    "carry_state": "1 for the state in which the carrier is, and 0 for each other.",
    "carry_since_seconds": "When the carrier came into its state, in seconds since 1970.",
    "carry_look_seconds": "When the carrier last looked at the cluster, in seconds since 1970.",
    "carry_warning": "1 where a person is to look: it has stopped or failed, or has waited for an hour.",
    "carry_commands": "Commands that were given in all.",
    "carry_done_groups": "Groups of the plan whose data is where the plan sends it.",
    "carry_under_way_groups": "Groups of the plan that were sent and move.",
    "carry_left_groups": "Groups of the plan that are still to be sent.",
    "carry_osdmap_epoch": "The epoch of the map that was judged last.",
}


def number_in(own: object, key: str) -> float | None:
    """A number of an object, if it has one."""
    found = own.get(key) if isinstance(own, Mapping) else None
    return found if isinstance(found, (int, float)) else None


def carry_metrics(told: Mapping[str, object], states: Iterable[str]) -> str:
    """The text of all metrics of a carrier, of which all states there are."""
    found, progress = Metrics(ABOUT), told.get("progress")
    for state in states:
        found.add("carry_state", {"state": state}, int(told["state"] == state))
    values = {
        "carry_since_seconds": number_in(told, "since"),
        "carry_look_seconds": number_in(told, "at"),
        "carry_warning": number_in(told, "warning"),
        "carry_commands": number_in(told, "commands"),
        "carry_done_groups": number_in(progress, "done"),
        "carry_osdmap_epoch": number_in(told.get("map"), "epoch"),
    }
    for key in ("under_way", "left"):
        own = progress.get(key) if isinstance(progress, Mapping) else None
        values[f"carry_{key}_groups"] = number_in(own, "groups")
    for name, value in values.items():
        if value is not None:
            found.add(name, {}, int(value) if isinstance(value, bool) else value)
    return found.text()
