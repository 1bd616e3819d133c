"""The words by which `release` and `drain` are told what the groups hold that they move."""

from __future__ import annotations

import argparse

from ..cluster.cluster import Cluster
from ..cluster.data_files import DataFiles, known_data
from ..cluster.entry_forms import pool_of
from ..cluster.pool_data import Data
from .arguments import Arguments, reading


def data_files(arguments: Arguments) -> DataFiles:
    """The files of the command line."""
    return DataFiles(arguments.df, arguments.pgs, None)


def data_of(files: DataFiles, cluster: Cluster, is_whole: bool) -> Data | None:
    """What the pools of a cluster hold; None where nobody tells. A fault where a file is of another cluster;
    `is_whole` says whether these are all its pools.
    """
    pools = [pool_of(pool) for pool in cluster.pools]
    return known_data(files).of_cluster(pools, cluster.names()["pools"], is_whole, cluster.erasure_rates)


def add_data_words(own: argparse.ArgumentParser) -> None:
    """The options for these files."""
    group = reading(own)
    group.add_argument(
        "--df",
        metavar="FILE",
        help="what `ceph df --format json` prints: tell the bytes that move, by means of pools without --pgs",
    )
    group.add_argument(
        "--pgs",
        metavar="FILE",
        help="what `ceph pg dump -f json` prints: go by what each group holds; erasure pools want --df too",
    )
