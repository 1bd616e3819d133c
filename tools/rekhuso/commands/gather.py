"""`gather`: one file of a cluster at one moment, which all commands take in place of its dumps.

It has both dumps, the groups one by one (`ceph pg dump`), what pools hold (`ceph df`), and the bytes of the OSDMap
(`ceph osd getmap`), all of one epoch: the cluster is asked again until the epochs agree. It is in the form of a report,
and stands for OSD_DUMP CRUSH_DUMP, and behind --pgs and --df too. Where no manager answers it has the dumps and the
bytes alone, and standard error says so.

It speaks to the cluster by librados' Python (Debian: python3-rados), or else by the `ceph` command, and only asks.
"""

from __future__ import annotations

import argparse
import sys
from dataclasses import dataclass

from ..cluster.connections import CONF, connection, go_on_where_librados_is
from ..cluster.moments import Moment, moment_of
from ..faults import Fault
from ..files import put
from ..together import Stop
from ..values import SLOTS
from .arguments import Arguments, Commands, putting, reading, set_work


@dataclass(frozen=True, **SLOTS)
class GatherOptions:
    """The configuration by which a cluster is found, and the file that is written; None for standard output."""

    conf: str
    path: str | None


def options_of(arguments: Arguments) -> GatherOptions:
    """The options of the command line."""
    return GatherOptions(arguments.conf, arguments.to)


def add_conf(own: argparse.ArgumentParser) -> None:
    """The option for a cluster's configuration."""
    about = f"the configuration by which the cluster is found ({CONF} where nothing is said)"
    reading(own).add_argument("--conf", metavar="FILE", default=CONF, help=about)


def gathered(conf: str) -> Moment:
    """A cluster as it is now."""
    own = None
    try:
        own = connection(conf)
        return moment_of(own, True)
    except Stop as fault:
        raise Fault(f"{fault}: nothing is written") from None
    finally:
        if own is not None:
            own.rados.shutdown()


def work(options: GatherOptions) -> None:
    """Writes the file."""
    go_on_where_librados_is()
    found = gathered(options.conf)
    if found.groups is None:
        print("no manager answers: neither groups nor what pools hold are told", file=sys.stderr)
    if options.path is None:
        print(found.text(), end="")
    else:
        put(options.path, found.text())


def add_to(commands_of: Commands) -> None:
    """The subcommand."""
    own = commands_of.add_parser("gather", help="one file of a cluster at one moment", description=__doc__)
    own.usage = "%(prog)s [--conf FILE] [--to FILE]"
    add_conf(own)
    about = "write it into FILE, whole or not at all, in place of standard output"
    putting(own).add_argument("--to", metavar="FILE", help=about)
    set_work(own, options_of, work)
