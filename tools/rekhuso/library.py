"""A Ceph cluster from Python: what its commands print goes in as values, and what the tools tell comes back as values.

Nothing is read from a path and nothing is printed. Each call is by itself, so that several threads may call at once.
"""

from __future__ import annotations

import os
from collections.abc import Mapping
from typing import Any, Union

from .cluster.imports import imported
from .cluster.sources import Source
from .cluster.view import view_with_sets
from .command_line import parser
from .commands import COMMANDS
from .faults import Fault, Misuse
from .files import in_memory
from .program.answers import Up
from .program.maps import Map, Program
from .running import Object, Run, running

# What a command of Ceph prints: a value as JSON has it, or its bytes or its text.
Input = Union[Mapping[str, Any], bytes, str]
# The words that ask for help, which is no value.
HELP = ("-h", "--help", "--version")


class CephCluster:
    """A cluster by what `ceph osd dump -f json` and `ceph osd crush dump` print, or by one of what `ceph osd getmap`
    writes and `ceph report` prints: values as JSON has them, or bytes. Only some pools of it where these are named, by
    ids or names with a comma between them. `notes` has the lines that the tools told beside their answers.
    """

    def __init__(
        self,
        osd_dump: Input,
        crush_dump: Input | None = None,
        pools: str | None = None,
        unmatched: bool = False,
        program: Program = None,
    ) -> None:
        """Takes what was printed, and whether OSDs that only one dump has are taken as out."""
        both = {"osd_dump": osd_dump, "crush_dump": crush_dump}
        self.files = [in_memory(name, value) for name, value in both.items() if value is not None]
        self.pools, self.is_unmatched, self.program = pools, unmatched, program
        self.notes: list[str] = []

    def __repr__(self) -> str:
        """Of which pools it is."""
        return f"<CephCluster of {'all pools' if self.pools is None else self.pools}>"

    def _source(self) -> Source:
        """What a command would work on."""
        both = tuple(self.files * 2 if len(self.files) == 1 else self.files)
        return Source(both, None, self.program, None, self.pools, self.is_unmatched)

    def _run(self, found: list[Object]) -> Run:
        """A run whose lines are noted, and whose objects go to a list."""
        return Run(lambda line: self.notes.extend(line.splitlines()), found.append)

    def maps(self) -> list[Map]:
        """The maps that the cluster takes, as `import` makes them. A fault where it stays out.

        >>> [(value["epoch"], len(value["pools"])) for value in cluster.maps()]
        [(1000, 2)]
        """
        with running(self._run([])):
            return imported(self._source().dumps()).maps

    def sets(self) -> dict[str, Up]:
        """The up set of each group, with the primaries that Ceph would tell. A fault where the cluster stays out.

        >>> cluster.sets()["2.1f"]
        Up(epoch=1000, places=[0, 7, 8], primary=0)
        """
        with running(self._run([])):
            return view_with_sets(self._source())[1]

    def _words(self, words: tuple[str, ...], files: Mapping[str, Input]) -> list[str]:
        """The words of a command behind its name and its dumps."""
        found = [*words, "--json"]
        found += [] if self.program is None else ["--program", os.fspath(self.program)]
        found += [] if self.pools is None else ["--pools", self.pools]
        found += ["--unmatched"] if self.is_unmatched else []
        for name, value in files.items():
            found += [f"--{name}", in_memory(name, value)]
        return found

    def told(self, command: str, *words: str, **files: Input) -> Object:
        """What a command tells of the cluster with --json: `told("plan", "--until", "1.1", df=df)` has the words that
        are typed behind the dumps, and by the names of options what these would read of files. A fault where it tells
        no object but why it is refused, and `Misuse` for words that mean nothing.

        >>> cluster.told("whatif", "--out", "1")["places"]
        38
        """
        if command not in COMMANDS or any(word in HELP for word in words):
            raise Misuse(f"{command}: no command that tells an object")
        found: list[Object] = []
        with running(self._run(found)):
            options = parser((command,)).parse_args([command, *self.files, *self._words(words, files)])
            try:
                options.work(options)
            except Fault:
                if not found:
                    raise
        return found[0]

    def plan(self, *words: str, **files: Input) -> Object:
        """The plan of `plan` with its commands: `plan("--first", "20", df=df, pgs=pgs)`.

        >>> cluster.plan("--first", "1")["commands"]
        ['ceph osd pg-upmap-items 2.8 7 6']
        """
        return self.told("plan", *words, **files)

    def verify(self, pgs: Input) -> Object:
        """Which groups lie elsewhere than the cluster says by what `ceph pg dump -f json` prints.

        >>> told = cluster.verify(pgs)
        >>> told["same"], told["differ"]
        (129, [])
        """
        return self.told("verify", pgs=pgs)

    def next(self, plan: Input, pgs: Input, *words: str) -> Object:
        """The commands of a plan that may be given now, by where the data is: of what `plan`, `hold`, `release` or
        `drain` has told, or of the text of a script.

        >>> cluster.next(cluster.plan("--first", "1"), pgs)["commands"]
        ['ceph osd pg-upmap-items 2.8 7 6']
        """
        name = "plan.json" if isinstance(plan, Mapping) else "plan.sh"
        return self.told("next", in_memory(name, plan), *words, pgs=pgs)

    def diff(self, other: CephCluster, *words: str) -> Object:
        """What moves from this cluster to another, as the same one at a later time.

        >>> cluster.diff(cluster)["places"]
        0
        """
        return self.told("diff", *other.files, *words)
