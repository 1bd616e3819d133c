"""What a script says of itself in one line, and a plan that is told as JSON in one object: of which cluster it is, over
which CRUSH map it was made, and what else decides where the groups lie.
"""

from __future__ import annotations

from dataclasses import dataclass, replace

from ..cluster.cluster import Cluster
from ..together import Stop, crush_sum, exception_lines, exceptions_of_dump, lines_sum, reweight_lines, size_lines
from ..values import SLOTS

# What stands for what is not known or not asked, and for a CRUSH map that other commands make.
NOT_TOLD, COMMANDS_MAKE_IT = "-", "command"


@dataclass(frozen=True, **SLOTS)
class Head:
    """Of which epoch, cluster and version of its CRUSH map a script is, if they are known; the sums of the CRUSH map
    that the cluster has when the script is given, and of that which it leads to; the pools; and the sums of their sizes
    and rules, of the reweights and of the exceptions.
    """

    epoch: int
    fsid: str
    version: str
    crush: str
    then: str
    pools: str
    sizes: str
    reweights: str
    exceptions: str

    def line(self, kind: str, count: int, part: int, parts: int) -> str:
        """The line of a script of so many commands."""
        what = f"# rekhuso: {kind}, {count} commands, part {part} of {parts}"
        of = f"epoch {self.epoch}, fsid {self.fsid}, crush_version {self.version}"
        beside = f"pools {self.pools}, sizes {self.sizes}, reweights {self.reweights}, exceptions {self.exceptions}"
        return f"{what}; {of}; CRUSH map {self.crush}, then {self.then}; {beside}"

    def with_crush(self, crush: str, then: str = NOT_TOLD) -> Head:
        """The head of a script that goes from one CRUSH map to another, or stays with it."""
        return replace(self, crush=crush, then=then)

    def behind(self) -> Head:
        """The head of a script that is given behind others of its plan: which exceptions stand is not told."""
        return replace(self, exceptions=NOT_TOLD)


def sum_of_crush(cluster: Cluster | None) -> str:
    """The sum of the CRUSH map of a cluster, where it has one that is known."""
    try:
        return NOT_TOLD if cluster is None else crush_sum(dict(cluster.crush))
    except Stop:
        return NOT_TOLD


def head_of_cluster(cluster: Cluster) -> Head:
    """The head of scripts over a cluster of dumps."""
    dump = dict(cluster.osd_dump)
    pools = sorted(own["pool"] for own in cluster.pools)
    numbers = {str(number) for number in pools}
    return Head(
        epoch=cluster.epoch,
        fsid=str(dump.get("fsid") or NOT_TOLD),
        version=str(dump.get("crush_version", NOT_TOLD)),
        crush=sum_of_crush(cluster),
        then=NOT_TOLD,
        pools=",".join(map(str, pools)) or NOT_TOLD,
        sizes=lines_sum(size_lines(dump, pools)),
        reweights=lines_sum(reweight_lines(dump)),
        exceptions=lines_sum(exception_lines(exceptions_of_dump(dump), lambda group: group.split(".")[0] in numbers)),
    )
