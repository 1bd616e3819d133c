"""What made a script, of which files and for which cluster: told at its head and in JSON, and asked by its guards."""

from __future__ import annotations

import hashlib
import os
from collections.abc import Iterable
from dataclasses import dataclass, replace

from ..cluster.cluster import Cluster
from ..cluster.names import Names
from ..cluster.pools_beside import PoolsBeside, beside
from ..files import InMemory
from ..plans.guards import NO_GUARDS, Guards, guards_of, guards_of_map
from ..plans.heads import NOT_TOLD, Head, head_of_cluster
from ..program.maps import Map, Program
from ..program.process import chosen, told_by
from ..program.proofs import Proof, proof_of
from ..values import SLOTS
from ..version import VERSION

# What is told of a program of which nothing beside it says that it was proved.
NOT_KNOWN = "is not known to be proved: no file beside it says so of this sum"
# What is read at once of a file.
BLOCK = 1 << 20


@dataclass(frozen=True, **SLOTS)
class ReadFile:
    """A file that was read: its path, and its sum, where it can be read again."""

    path: str
    sum: str | None


@dataclass(frozen=True, **SLOTS)
class Origin:
    """Where scripts come from: the program that judged them, by its version and its sum, and that it was proved, where
    that is known; the files of the cluster, the first with its epoch, and the fsid that it tells, if it tells one; the
    guards, none where none are wanted; what a script says of the cluster and of its turn among others: of which kind it
    is, which part, and of how many; and the pools that are left out.
    """

    program: str
    sum: str | None
    proof: Proof | None
    files: list[ReadFile]
    epoch: int
    fsid: str | None
    guards: Guards
    head: Head | None
    kind: str = "plan"
    turn: int = 1
    turns: int = 1
    beside: PoolsBeside = PoolsBeside()

    def turned(self, kind: str, turn: int, turns: int) -> Origin:
        """The same of a script of a kind, with its part and how many there are; behind others of its plan, and on the
        way back, any exceptions may stand.
        """
        is_back, first = kind.startswith("undo"), 0 if kind == "drain" else 1
        head = self.head if self.head is None or turn <= first and not is_back else self.head.behind()
        guards = self.guards.going_back() if is_back else self.guards
        return replace(self, kind=kind, turn=turn, turns=turns, head=head, guards=guards)

    def head_lines(self, count: int) -> list[str]:
        """What a script of so many commands says of itself; nothing over a map, which knows of no cluster."""
        return [] if self.head is None else [self.head.line(self.kind, count, self.turn, self.turns)]

    def closed(self, text: str) -> str:
        """A script with a last line, which says that it is whole, where it has a head."""
        return text if self.head is None else with_end(text)

    def notes(self) -> list[str]:
        """What is told at the head of a script."""
        lines = [f"made by rekhuso {VERSION} with {self.program}{sum_words(self.sum)}"]
        lines.append(f"        which {NOT_KNOWN if self.proof is None else f'was {self.proof.words()}'}")
        fsid = "no fsid, so the script does not ask which cluster it is given to"
        of = f" of epoch {self.epoch}, {fsid if self.fsid is None else f'fsid {self.fsid}'}"
        for at, own in enumerate(self.files):
            lines.append(f"        {'and' if at else 'of'} {own.path}{sum_words(own.sum)}{'' if at else of}")
        return lines + self.beside.notes()

    def parts(self) -> dict[str, object]:
        """The same as JSON has it."""
        return {
            "made_by": {
                "rekhuso": VERSION,
                "program": self.program,
                "sha256": self.sum,
                "proved": self.proof is not None,
                "commit": None if self.proof is None else self.proof.commit,
            },
            "of": [{"file": own.path, "sha256": own.sum} for own in self.files],
            "fsid": self.fsid,
            "crush_map": None if self.head is None or self.head.crush == NOT_TOLD else self.head.crush,
            **self.beside.parts(),
        }

    def leaving(self, found: PoolsBeside) -> Origin:
        """The same, where pools are left out of a change, whose guards ask for their rules."""
        return replace(self, beside=found, guards=self.guards.leaving(found))

    def later(self, more: int | None) -> Origin:
        """The origin of a script that is run behind so many changes of the CRUSH map, or behind any number of them."""
        return replace(self, guards=self.guards.later(more))


def with_end(text: str) -> str:
    """A script with a last line, which says that the script is whole."""
    return f"{text}# rekhuso: end, sha256 {hashlib.sha256(text.encode()).hexdigest()}\n"


def sum_words(found: str | None) -> str:
    """A sum in words."""
    return "" if found is None else f" (sha256 {found})"


def sum_of_file(path: str) -> str | None:
    """The sum of a file; none of what is no file, as standard input, and of one that cannot be read any more."""
    if isinstance(path, InMemory):
        return hashlib.sha256(path.data).hexdigest()
    if not os.path.isfile(path):
        return None
    found = hashlib.sha256()
    try:
        with open(path, "rb") as file:
            for block in iter(lambda: file.read(BLOCK), b""):
                found.update(block)
    except OSError:
        return None
    return found.hexdigest()


def origin(program: Program, paths: Iterable[str | None], epoch: int, guards: Guards, is_guarded: bool) -> Origin:
    """Where scripts come from that are made now, with a program, of those files that are given, over a map."""
    own = chosen(program, "osdmapd")
    told = told_by([str(own), "--version"])
    version = next(iter(told.output.splitlines()), "a program that tells no version")
    files = [ReadFile(path, sum_of_file(path)) for path in dict.fromkeys(paths) if path is not None]
    found = sum_of_file(str(own))
    return Origin(
        program=version,
        sum=found,
        proof=proof_of(str(own), found),
        files=files,
        epoch=epoch,
        fsid=guards.fsid,
        guards=guards if is_guarded else NO_GUARDS,
        head=None,
    )


def origin_of(program: Program, paths: Iterable[str | None], cluster: Cluster, is_guarded: bool) -> Origin:
    """Where scripts over a cluster of dumps come from."""
    own = origin(program, paths, cluster.epoch, guards_of(cluster), is_guarded)
    return replace(own, head=head_of_cluster(cluster), beside=beside(cluster))


def origin_of_map(program: Program, paths: Iterable[str | None], value: Map, names: Names, is_guarded: bool) -> Origin:
    """Where scripts over a map come from."""
    guards = guards_of_map(value, names.get("pools", {}))
    return origin(program, paths, value["epoch"], guards, is_guarded)
