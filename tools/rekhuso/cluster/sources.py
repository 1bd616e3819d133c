"""Where a command reads from: the files of dumps, and the files of what it works on."""

from __future__ import annotations

from dataclasses import dataclass

from ..faults import Misuse
from ..files import unpacked_bytes
from ..program.maps import Program
from ..values import SLOTS
from .binary_maps import is_binary_map


@dataclass(frozen=True, **SLOTS)
class DumpFiles:
    """The files of a cluster's dumps, and how they are taken: the OSD dump, the CRUSH dump, the tree if there is one,
    the pools that are chosen by their ids or names (None for all), and whether OSDs that only one dump has are taken as
    out; and the program, which tells what advice moves.
    """

    osd_dump: str
    crush_dump: str
    tree: str | None
    pools: str | None
    is_unmatched: bool
    program: Program


@dataclass(frozen=True, **SLOTS)
class Source:
    """What a command works on: the file of a map, or the two of dumps; a file of names, if there is one; the program;
    and how dumps are taken.
    """

    paths: tuple[str, ...]
    names: str | None
    program: Program
    tree: str | None
    pools: str | None
    is_unmatched: bool

    @property
    def has_dumps(self) -> bool:
        """Whether it is two dumps."""
        return len(self.paths) == 2

    def dumps(self) -> DumpFiles:
        """The files of two dumps."""
        return DumpFiles(self.paths[0], self.paths[1], self.tree, self.pools, self.is_unmatched, self.program)

    def map_bytes(self) -> bytes | None:
        """The bytes of a cluster's own map, where both dumps are taken from one such file."""
        first, *others = self.paths
        return unpacked_bytes(first) if others == [first] and is_binary_map(first) else None

    def check_map(self) -> None:
        """An error of use where options for dumps stand beside a map."""
        if self.is_unmatched or self.tree is not None or self.pools is not None:
            raise Misuse("--unmatched, --tree and --pools go with two dumps alone")
