"""What keeps a cluster from being a map, or several: every reason, each in one line and in the cluster's own names."""

from __future__ import annotations

from ..cluster import Cluster
from .buckets import bucket_reasons, root_reasons, twice_reasons
from .exceptions import absent_reasons, exception_reasons, kept_reasons
from .kinds import Against
from .matches import unmatched
from .pools import osd_reasons, pool_reasons
from .rules import rule_reasons, tunable_reasons

__all__ = ["reasons"]


def reasons(cluster: Cluster, is_unmatched: bool, is_one: bool = True) -> list[Against]:
    """All that keeps a cluster from being a map, or where `is_one` is false several maps, each by its code; what
    only one dump has is none where `is_unmatched` says so.
    """
    found = bucket_reasons(cluster) + root_reasons(cluster, is_one)
    for part in (
        twice_reasons,
        tunable_reasons,
        rule_reasons,
        pool_reasons,
        osd_reasons,
        exception_reasons,
        kept_reasons,
    ):
        found += part(cluster)
    if not {"osds", "max_osd"} & cluster.torn:
        found += absent_reasons(cluster, True)
    return found if is_unmatched else found + [own.reason() for own in unmatched(cluster) if not own.is_note]
