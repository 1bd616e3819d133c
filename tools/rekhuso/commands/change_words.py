"""The words by which `whatif` and `hold` are told of a change: its JSON, or options that stand for commands."""

from __future__ import annotations

import argparse
from dataclasses import dataclass

from ..cluster.aftermath import Command
from ..cluster.cluster import Cluster
from ..cluster.reports import with_both
from ..cluster.view import ClusterView
from ..faults import Fault, Misuse
from ..files import text_of
from ..plans.question import accepted
from ..program.map_forms import CHANGE_KEYS
from ..program.maps import Change, Program
from ..values import SLOTS
from .arguments import Arguments, Parser
from .whatif_words import TOGETHER, Word, WordAction, WordReader, change_in, change_value, is_change_text

# The options that stand for commands.
CHANGE_OPTIONS = {
    "out": "--out",
    "in": "--in",
    "down": "--down",
    "up": "--up",
    "reweight": "--reweight",
    "weight": "--weight",
    "add_host": "--add-host",
    "crush": "--crush",
    "pool": "--pool",
}


@dataclass(frozen=True, **SLOTS)
class ChangeWords:
    """A change: its JSON, if it is given so; the words that stand for commands; the bucket and the class of a host that
    comes.
    """

    change: Change | None
    words: tuple[Word, ...]
    under: str | None
    device_class: str | None

    def given(self) -> list[str]:
        """What is given, by its options."""
        return (["CHANGE"] if self.change is not None else []) + [CHANGE_OPTIONS[word.kind] for word in self.words]

    def check(self) -> None:
        """An error of use where options stand together of which one would be passed over."""
        hosts = [word for word in self.words if word.kind == "add_host"]
        for option, word in (("--under", self.under), ("--class", self.device_class)):
            if word is not None and not hosts:
                raise Misuse(f"{option} goes with --add-host alone")
        if len(hosts) > 1:
            raise Misuse("--add-host: one host at a time")
        if sum(word.kind == "crush" for word in self.words) > 1:
            raise Misuse("--crush: one CRUSH map at a time")

    def commands(self, view: ClusterView, cluster: Cluster, program: Program) -> list[Command]:
        """The commands that they stand for over a cluster: the change first, then words in their order."""
        reader = WordReader(cluster, view.named_tree(), view.names, view.has_weight_set)
        change = [] if self.change is None else [accepted(view.maps, self.change, program)]
        return change + reader.steps(self.words, self.under, self.device_class)


def change_words(arguments: Arguments, change: Change | None) -> ChangeWords:
    """The words of the command line. An error of use where one would be passed over."""
    words = tuple(getattr(arguments, "asked", ()))
    found = ChangeWords(change, words, arguments.under, getattr(arguments, "class"))
    found.check()
    return found


def files_and_change(words: list[str]) -> tuple[list[str], Change | None]:
    """The files that words name, and the change behind them if there is one: a last word that is a change, a third
    one, or a second one that is the file of a change. A fault, or an error of use, where it is none.
    """
    words = with_both(words)
    last, count = words[-1], len(words)
    is_change = count > 1 and (is_change_text(last) or count == 3 or count == 2 and has_change(last))
    return (words[:-1], change_in(last)) if is_change else (words, None)


def has_change(path: str) -> bool:
    """Whether a file has a change: its JSON object has a part of one, and else nothing."""
    try:
        value = change_value("" if path == "-" else text_of(path))
    except (Fault, ValueError):
        return False
    return bool(value) and value.keys() <= CHANGE_KEYS


def add_change_words(own: argparse.ArgumentParser) -> None:
    """The options that stand for commands."""
    if isinstance(own, Parser):
        own.repeated = frozenset(CHANGE_OPTIONS[word] for word in TOGETHER)
    for word, about in (
        ("out", "takes no groups"),
        ("in", "takes its share again, as before it went out"),
        ("down", "is down"),
        ("up", "comes back, as a host does behind an outage"),
    ):
        own.add_argument(
            f"--{word}", metavar="OSD|BUCKET", action=WordAction, help=f"it {about}; several as 1 2 or 1,2"
        )
    own.add_argument("--reweight", metavar=("OSD|BUCKET", "W"), nargs=2, action=WordAction, help="its reweight, 0 to 1")
    own.add_argument(
        "--weight",
        metavar="OSD|BUCKET=W",
        action=WordAction,
        help="its weight in the CRUSH map, 0 for a drain (of each OSD below a bucket); as `ceph osd crush reweight`",
    )
    own.add_argument(
        "--add-host",
        metavar=("NAME", "WEIGHTS"),
        nargs=2,
        action=WordAction,
        help="a host with new OSDs of these weights, as 1,1,2.5, which come one after the other",
    )
    own.add_argument("--under", metavar="BUCKET", help="the bucket below which the host comes")
    own.add_argument("--class", metavar="CLASS", help="the device class of its OSDs, where the cluster has several")
    own.add_argument(
        "--crush",
        metavar="FILE",
        action=WordAction,
        help="the CRUSH map that comes in place of this one, as `crushtool -i NEW --dump` prints it",
    )
    own.add_argument(
        "--pool",
        metavar=("NAME", "WHAT=.."),
        nargs=2,
        action=WordAction,
        help="another rule=, size= or pg_num=,pgp_num= of a pool, by its name or id; as `ceph osd pool set`",
    )
