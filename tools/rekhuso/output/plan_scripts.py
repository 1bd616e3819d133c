"""The scripts of a plan: its commands group by group, and round them, as comments, what one must know before they are
run and what they move.
"""

from __future__ import annotations

import pathlib
from collections.abc import Mapping
from dataclasses import dataclass

from ..cluster.names import Names, named
from ..cluster.releases import knows_upmap
from ..faults import Trouble
from ..files import put_folder
from ..plans.json_forms import MovingParts
from ..plans.movement import PlaceBytes
from ..plans.steps import PlanStep
from ..values import SLOTS
from ..words import counted, share_words, size_words
from .origins import Origin
from .tables import aligned

# What is told above the commands of a plan.
CLIENTS = "before: ceph osd set-require-min-compat-client luminous (clients must know upmap; refused beside older ones)"
UNLESS = "        not where ceph osd get-require-min-compat-client tells a later release, which it would lower"
WATCH = [
    "watch:  data moves as soon as a command is given: ceph status, until no group backfills or is misplaced, and",
    "        ceph osd df tree, as an OSD to which groups come must not get nearfull",
]


def balancer_words(quiet: int | None) -> list[str]:
    """That Ceph's own balancer stays off, and from which number on it leaves a plan alone, if that is known."""
    found = ["before: ceph balancer off, and it stays off, or it will undo or extend the moves"]
    if quiet is not None:
        found.append(
            f"        (in mode upmap, with upmap_max_deviation {quiet} or more, it leaves the whole plan alone)"
        )
    return found


def client_words(release: str | None) -> list[str]:
    """How clients come to know upmap, of which release they must be at least as the dump tells; nothing where they
    know it.
    """
    if release is None:
        return [CLIENTS, UNLESS]
    return [] if knows_upmap(release) else [CLIENTS]


def moving_words(found: MovingParts) -> str:
    """What moves, in one phrase."""
    words = f"{counted(found['groups'], 'group')} and {counted(found['places'], 'place')} move"
    if found["bytes"] is None or found["share"] is None:
        return words
    return f"{words}, some {size_words(found['bytes'])}, {share_words(found['share'])} of the data"


def comments(lines: list[str]) -> list[str]:
    """Lines as comments of a shell, whatever characters names have."""
    return ["# " + "".join(sign if sign.isprintable() else "?" for sign in line) for line in lines]


def pool_table(weights: PlaceBytes, steps: list[PlanStep], names: Names) -> list[str]:
    """What moves of each pool, as a table of text."""
    rows, has_data = [["groups", "of", "places", "bytes", "of the data", "pool"]], weights.total is not None
    for own in weights.by_pool(steps):
        size = [size_words(own["bytes"] or 0), share_words(own["share"] or 0.0)] if has_data else ["", ""]
        counts = [str(own["groups"]), str(own["of"]), str(own["places"])]
        rows.append([*counts, *size, named(names, "pools", own["id"])])
    return aligned([row if has_data else [*row[:3], row[5]] for row in rows])


def osd_table(weights: PlaceBytes, steps: list[PlanStep], names: Names) -> list[str]:
    """How many places come to each OSD and go from it, as a table of text."""
    rows, total = [["come", "go", "more", "bytes more", "of the data", "OSD"]], weights.total
    for own in weights.by_osd(steps):
        more = (own["bytes_come"] or 0) - (own["bytes_go"] or 0)
        size = [f"{'-' * (more < 0)}{size_words(abs(more))}", share_words(more / max(total or 0, 1))]
        counts = [str(own["come"]), str(own["go"]), f"{own['come'] - own['go']:+d}"]
        rows.append([*counts, *size, named(names, "osds", own["id"])])
    return aligned([row if total is not None else [*row[:3], row[5]] for row in rows])


def movement_tables(weights: PlaceBytes, steps: list[PlanStep], names: Names) -> list[str]:
    """The table below a script: what moves, by pool and by OSD."""
    return [
        "What moves, by pool:",
        *pool_table(weights, steps, names),
        "By OSD, in places of groups:",
        *osd_table(weights, steps, names),
    ]


@dataclass(frozen=True, **SLOTS)
class PlanScript:
    """A script: its first line, what is told above its commands, what its steps weigh, names, and where it comes
    from.
    """

    title: str
    notes: list[str]
    weights: PlaceBytes
    names: Names
    origin: Origin

    def text(self, steps: list[PlanStep]) -> str:
        """The commands of some steps between what is told of them; the first that is refused ends the script."""
        lines = [line for step in steps for line in step.commands]
        moving = moving_words(self.weights.moving(steps))
        title = f"{self.title}: {moving}, by {counted(len(lines), 'command')}; a table stands at the end"
        above = comments([*self.origin.notes(), *self.notes])
        below = comments(movement_tables(self.weights, steps, self.names))
        head = [*comments([title]), *self.origin.head_lines(len(lines)), *above]
        own = "\n".join([*head, "set -e", *self.origin.guards.lines(lines), *lines, *below]) + "\n"
        return self.origin.closed(own)


def part_file(word: str, number: int, count: int) -> str:
    """The name of a file for one of so many parts, by which they stand in their order."""
    return f"{word}-{number:0{max(3, len(str(count)))}}.sh"


def put_scripts(folder: str, word: str, files: Mapping[str, str]) -> None:
    """Writes files of a word into a folder, all of them whole or none, and tells them; where there is none, nothing. A
    fault where the folder has such files, which would be run with those that come.
    """
    there = sorted(path.name for path in pathlib.Path(folder).glob(f"{word}-*.sh"))
    if there and files:
        raise Trouble(f"{pathlib.Path(folder, there[0])} is there already: name another folder")
    for path in put_folder(folder, files) if files else []:
        print(path)


def put_batches(path: str, word: str, texts: list[str]) -> None:
    """Writes each part into a file of a folder, by its number, and tells the files; where there is none, nothing."""
    put_scripts(path, word, {part_file(word, number, len(texts)): text for number, text in enumerate(texts, 1)})
