"""The commands that name primaries, read back from the text of a script, and judged before the script is put out.

Nothing of what made the text is asked. A command must be one that a monitor takes when it comes: of a group of a pool
that is planned, which nothing temporary serves, naming an OSD of its up set that does not lead it yet. Then the dumps
are read again with the entries of the end: every group has the OSDs that it had, and the leader that is told.
"""

from __future__ import annotations

import re
from collections.abc import Mapping, Sequence
from dataclasses import dataclass

from ..cluster.leaders import Leaders, read_again
from ..cluster.view import ClusterView
from ..faults import DEFECT, Misjudged
from ..program.answers import Up
from ..program.maps import Program
from ..values import SLOTS
from .guards import is_guard
from .printed_commands import defect
from .question import sets_of_maps

NAMING = re.compile(
    r"ceph osd (?:rm-pg-upmap-primary ([0-9]+\.[0-9a-f]+)|pg-upmap-primary ([0-9]+\.[0-9a-f]+) ([0-9]+))"
)


@dataclass(frozen=True, **SLOTS)
class Naming:
    """A command: its line, its group, and the OSD that it names; None where it has no entry name one any more."""

    line: str
    group: str
    osd: int | None


def naming_in(line: str) -> Naming:
    """The command of a line. A fault where it is none."""
    found = NAMING.fullmatch(line)
    if found is None:
        raise defect(line, "no command that names a primary")
    return Naming(line, found[1] or found[2], None if found[3] is None else int(found[3]))


def namings_in(text: str) -> list[Naming]:
    """The commands of a script in their order. A fault for a line that is neither one nor a comment, nor a guard by its
    exact form.
    """
    lines = [line for line in text.splitlines() if line not in ("", "set -e") and not line.startswith("#")]
    return [naming_in(line) for line in lines if not is_guard(line)]


def why_refused(leaders: Leaders, naming: Naming, entries: Mapping[str, int]) -> str | None:
    """Why a monitor refuses a command beside some entries; None where it takes it."""
    group, osd = naming.group, naming.osd
    if group not in leaders.sets:
        return "there is no such group in the pools that are planned"
    if group in leaders.temporary:
        return "something temporary serves the group"
    up = leaders.up_with(group, entries.get(group))
    if osd is not None and osd not in up.places:
        return f"osd.{osd} does not stand in its up set"
    return f"osd.{osd} leads it already" if osd is not None and osd == up.primary else None


def entries_after(leaders: Leaders, namings: Sequence[Naming], entries: Mapping[str, int]) -> dict[str, int]:
    """The entries once commands are given. A fault for one that a monitor refuses when it comes."""
    found = dict(entries)
    for own in namings:
        why = why_refused(leaders, own, found)
        if why is not None:
            raise defect(own.line, why)
        if own.osd is None:
            found.pop(own.group, None)
        else:
            found[own.group] = own.osd
    return found


def check_led(before: Mapping[str, Up], after: Mapping[str, Up], wanted: Mapping[str, int]) -> None:
    """A fault where a group has other OSDs afterwards, or another leader than is told; where none is told, than it
    had.
    """
    for group, up in after.items():
        was, goal = before[group], wanted.get(group, before[group].primary)
        if sorted(up.places, key=str) != sorted(was.places, key=str):
            raise Misjudged(f"{group} would have other OSDs: {DEFECT}")
        if up.primary != goal:
            raise Misjudged(f"{group} would be led by osd.{up.primary} and not by osd.{goal}: {DEFECT}")


@dataclass(frozen=True, **SLOTS)
class PrintedReads:
    """What printed commands are judged by: the cluster, its groups by those who lead them, and the program."""

    view: ClusterView
    leaders: Leaders
    program: Program

    def check(self, text: str, undo: str, wanted: Mapping[str, int]) -> None:
        """A fault where commands do not bring the leaders that are wanted, or where others do not bring those of now
        back, whether these commands were given or not.
        """
        ups, now = sets_of_maps(self.view.maps, self.program), self.leaders.named
        before = read_again(self.view, ups, now, self.program)
        then = entries_after(self.leaders, namings_in(text), now)
        check_led(before, read_again(self.view, ups, then, self.program), wanted)
        for entries in (now, then):
            back = entries_after(self.leaders, namings_in(undo), entries)
            check_led(before, read_again(self.view, ups, back, self.program), {})
