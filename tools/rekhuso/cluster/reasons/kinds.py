"""Why a cluster stays out, as values: each reason has a code, by which it is known whatever its words say."""

from __future__ import annotations

from dataclasses import dataclass

from ...program.map_forms import PLAIN
from ...values import SLOTS
from ..cluster import Cluster

# What stands behind a code where the number is one of a map without straw2 buckets.
BARE = "-plain"
# The codes, by what they are of.
CODES = (
    *("form", "older-release", "more"),
    *("straw-bucket", "bucket-kind", "bucket-hash", "bucket-id", "bucket-type", "bucket-twice", "bucket-items"),
    *("bucket-items-plain", "bucket-empty", "class-empty", "bucket-weightless", "osd-weightless", "weight", "weights"),
    *("unequal-weights", "no-bucket", "type-below", "two-trees", "stands-twice"),
    *("tunable", "no-tunable", "weight-set", "weight-sets-of-pools"),
    *("rule-step", "rule-grammar", "rule-take", "rule-take-osd", "rule-type", "rule-kind", "rule-count", "rule-sizes"),
    *("rule-id", "rule-length", "rule-twice"),
    *("pool-groups", "pool-groups-plain", "pool-size", "pool-size-plain", "pool-kind", "pool-hashpspool"),
    *("pool-hash", "pool-id", "pool-placed", "pool-twice", "pool-rule", "pool-rule-kind"),
    *("buckets", "buckets-plain", "rules", "rules-plain", "pools", "pools-plain", "groups"),
    *("epoch", "osd-id", "osd-id-plain", "osd-max", "osd-twice", "osd-absent", "osd-reweight"),
    *("exception-form", "exception-twice", "exception-high", "exception-kept"),
    *("not-in-osd-dump", "not-in-crush-dump"),
)


@dataclass(frozen=True, **SLOTS)
class Against:
    """One reason: its code, the line in which it is told, and what it is told of, where several are told as one."""

    code: str
    line: str
    of: str = ""


def lines_of(found: list[Against]) -> list[str]:
    """The lines of reasons."""
    return [own.line for own in found]


def bare(cluster: Cluster, code: str) -> str:
    """The code of a number that is more than a map holds, where maps with straw2 buckets hold more."""
    return code + BARE if cluster.limits == PLAIN else code
