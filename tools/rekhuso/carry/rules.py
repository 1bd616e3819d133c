"""When nothing is given: flags, another balancer, groups that are not whole, data that moves, hours, and load."""

from __future__ import annotations

import datetime
from collections.abc import Mapping
from dataclasses import dataclass

from ..files import JsonObject
from ..values import SLOTS
from .connection import CarryConnection
from .states import Waiting

# Flags under which nothing is given.
FLAGS = ("pauserd", "pausewr", "noup", "nodown", "noin", "noout", "nobackfill", "norecover", "norebalance")
# What the manager says where groups are not whole, and the option by which Ceph's balancer waits.
RATIOS = {"unknown": "unknown_pgs_ratio", "inactive": "inactive_pgs_ratio", "degraded": "degraded_ratio"}
LIMIT = "target_max_misplaced_ratio"
# The share of a day that a window may have, by its hours and minutes.
Window = tuple[datetime.time, datetime.time]


@dataclass(frozen=True, **SLOTS)
class CarryLimits:
    """What is asked for: which share of all objects may be misplaced, None for what Ceph's balancer goes by; between
    which hours commands are given; and how many operations a second clients may have, None for any.
    """

    misplaced: float | None
    window: Window | None
    operations: int | None


def is_within(window: Window, now: datetime.time) -> bool:
    """Whether a time is within a window, which may go past midnight."""
    begin, end = window
    return begin <= now < end if begin <= end else now >= begin or now < end


def check_hours(limits: CarryLimits, now: datetime.datetime) -> None:
    """Waiting outside the window."""
    if limits.window is not None and not is_within(limits.window, now.time()):
        hours = "-".join(own.strftime("%H:%M") for own in limits.window)
        raise Waiting("window", f"it is {now:%H:%M}: commands are given at {hours} alone")


def check_map(dump: Mapping[str, object]) -> None:
    """Waiting for flags, and for OSDs that are in and down."""
    flags = str(dump.get("flags", "")).split(",")
    own = [flag for flag in FLAGS if flag in flags]
    if own:
        raise Waiting("flags", f"flags are set: {', '.join(own)}")
    osds = dump.get("osds")
    down = [f"osd.{osd['osd']}" for osd in osds if osd["in"] and not osd["up"]] if isinstance(osds, list) else []
    if down:
        more = f" and {len(down) - 5} more" if len(down) > 5 else ""
        raise Waiting("down", f"OSDs are down that are in: {', '.join(down[:5])}{more}")


def check_balancer(connection: CarryConnection) -> None:
    """Waiting where Ceph's own balancer is active."""
    own = connection.ask("balancer status", True)
    if own.get("active", True) and own.get("mode", "upmap") != "none":
        raise Waiting("balancer", "Ceph's own balancer is active: ceph balancer off")


@dataclass(frozen=True, **SLOTS)
class AtWork:
    """How a cluster is at work: the share of its objects that is misplaced, and how large it may be."""

    misplaced: float
    most: float

    @property
    def room(self) -> float:
        """Which share may be misplaced more."""
        return max(0.0, self.most - self.misplaced)


def check_groups(connection: CarryConnection, limits: CarryLimits) -> AtWork:
    """How a cluster is at work. Waiting where groups are unknown, inactive or degraded, where as much is misplaced as
    may be, and where clients ask for more than they may.
    """
    own: JsonObject | None = connection.ask("status").get("pgmap")
    if own is None:
        raise Waiting("unknown", "the monitors know of no groups yet")
    for code, key in RATIOS.items():
        if own.get(key, 0) > 0:
            raise Waiting(code, f"{code}: {own[key]:.4f} of all")
    busy = int(own.get("read_op_per_sec", 0)) + int(own.get("write_op_per_sec", 0))
    if limits.operations is not None and busy > limits.operations:
        raise Waiting("load", f"clients have {busy} operations a second, more than {limits.operations}")
    found = AtWork(float(own.get("misplaced_ratio", 0)), most_misplaced(connection, limits))
    if found.misplaced >= found.most:
        raise Waiting("misplaced", f"misplaced: {found.misplaced:.4f} of all objects, and at most {found.most:.4f}")
    return found


def most_misplaced(connection: CarryConnection, limits: CarryLimits) -> float:
    """Which share of all objects may be misplaced."""
    if limits.misplaced is not None:
        return limits.misplaced
    found = connection.reply({"prefix": "config get", "who": "mgr", "key": LIMIT})
    try:
        return float(found.output)
    except ValueError:
        raise Waiting("limit", f"{LIMIT} is not told: give --most-misplaced") from None


def check_all(connection: CarryConnection, dump: Mapping[str, object], limits: CarryLimits) -> AtWork:
    """How a cluster is at work. Waiting where nothing may be given."""
    check_map(dump)
    check_balancer(connection)
    return check_groups(connection, limits)
