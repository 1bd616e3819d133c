"""What `df` tells in Prometheus' text format: groups, shares, deviations and ratios of OSDs and of pools."""

from __future__ import annotations

import math
from collections.abc import Iterable, Mapping

from ..cluster.names import Names, named
from ..cluster.shares import Shares

Labels = Mapping[str, str]
# What each metric is.
HELP = {
    "osd_groups": "Groups that an OSD has.",
    "osd_share_groups": "Groups that the weight of an OSD calls for.",
    "osd_deviation_groups": "Groups that an OSD has above its share.",
    "osd_ratio": "Groups of an OSD to its share.",
    "pool_groups": "Places of groups that a pool has on OSDs.",
    "pool_deviation_groups": "Standard deviation of the OSDs of a pool from their shares.",
    "pool_ratio_most": "The greatest ratio of an OSD's groups of a pool to its share.",
    "pool_ratio_least": "The least ratio of an OSD's groups of a pool to its share.",
    "osd_pool_groups": "Groups of a pool that an OSD has.",
    "osd_pool_deviation_groups": "Groups of a pool that an OSD has above its share of it.",
    "osd_pool_ratio": "Groups of a pool that an OSD has, to its share of it.",
    "osdmap_epoch": "The epoch of the map of which all this is told.",
}


def escaped(text: str) -> str:
    """A value of a label as the format has it."""
    return text.replace("\\", "\\\\").replace('"', '\\"').replace("\n", "\\n")


def sample_line(name: str, labels: Labels, value: float) -> str:
    """A sample in a line."""
    own = ",".join(f'{key}="{escaped(word)}"' for key, word in labels.items())
    number = str(value) if isinstance(value, int) else repr(round(value, 6) + 0.0)
    return f"rekhuso_{name}{{{own}}} {number}" if own else f"rekhuso_{name} {number}"


class Metrics:
    """Samples by the names of their metrics, in the order in which these are told."""

    def __init__(self, told: Mapping[str, str]) -> None:
        """Has none yet; of each metric is told what it is."""
        self.told = told
        self.samples: dict[str, list[str]] = {name: [] for name in told}

    def add(self, name: str, labels: Labels, value: float) -> None:
        """One more sample."""
        self.samples[name].append(sample_line(name, labels, value))

    def add_osd(self, prefix: str, labels: Labels, groups: int, share: float) -> None:
        """What an OSD has, over all pools or of one; no ratio where it has no share."""
        self.add(f"{prefix}_groups", labels, groups)
        self.add(f"{prefix}_deviation_groups", labels, groups - share)
        if share > 0:
            self.add(f"{prefix}_ratio", labels, groups / share)

    def text(self) -> str:
        """All of them, each metric with what it is."""
        found = []
        for name, lines in self.samples.items():
            found += (
                [f"# HELP rekhuso_{name} {self.told[name]}", f"# TYPE rekhuso_{name} gauge", *lines] if lines else []
            )
        return "\n".join(found) + "\n"


def add_pool(found: Metrics, name: str, counts: Mapping[int, int], shares: Mapping[int, float]) -> None:
    """The samples of a pool, and of each OSD that has groups or a share of it."""
    for osd in sorted(counts.keys() | shares.keys()):
        found.add_osd("osd_pool", {"osd": str(osd), "pool": name}, counts.get(osd, 0), shares.get(osd, 0.0))
    away = [counts.get(osd, 0) - share for osd, share in shares.items()]
    ratios = [counts.get(osd, 0) / share for osd, share in shares.items() if share > 0]
    found.add("pool_groups", {"pool": name}, sum(counts.values()))
    found.add("pool_deviation_groups", {"pool": name}, math.sqrt(sum(gap * gap for gap in away) / max(len(away), 1)))
    if ratios:
        found.add("pool_ratio_most", {"pool": name}, max(ratios))
        found.add("pool_ratio_least", {"pool": name}, min(ratios))


def metrics(shares: Shares, names: Names, osds: Iterable[int]) -> str:
    """The text of all metrics over some OSDs, those of the tree and beside it."""
    found = Metrics(HELP)
    for osd in sorted(osds):
        share = shares.wanted.get(osd, 0.0)
        found.add_osd("osd", {"osd": str(osd)}, shares.counts.get(osd, 0), share)
        found.add("osd_share_groups", {"osd": str(osd)}, share)
    for number, counts in shares.counts_in.items():
        add_pool(found, named(names, "pools", number), counts, shares.shares_by[number])
    found.add("osdmap_epoch", {}, shares.value["epoch"])
    return found.text()
