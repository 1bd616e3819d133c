"""A hold and its CRUSH map, given to a cluster within one map, as `together` gives it; and one that was given by half,
as where its giver was killed: then the CRUSH map stands, and what lacks of the pairs is given.
"""

from __future__ import annotations

import contextlib
import pathlib
import re
from concurrent.futures import ThreadPoolExecutor
from dataclasses import replace

from .. import together
from ..cluster.connections import Connection
from ..faults import Fault, Misuse
from ..files import text_of
from ..together import HEAD, Job, Stop, crush_sum, given_to, job_in
from .begun_note import BegunNote, begun_in, drop_note, is_flagged, put_note, settings_of, sum_of_text
from .carried import PlanPart, part_in, part_text

# The names of the parts of a hold in a folder.
HOLDS = re.compile(r"hold-[0-9]+\.sh")


def scripts_in(path: str) -> list[str]:
    """The scripts of a hold, or of the way back from one, in their order; none where it is another plan."""
    place = pathlib.Path(path)
    if place.is_dir():
        return sorted(str(own) for own in place.iterdir() if HOLDS.fullmatch(own.name))
    if path.endswith(".json"):
        return []
    heads = [found for found in map(HEAD.fullmatch, text_of(path).splitlines()) if found]
    return [path] if heads and heads[-1].group(1).endswith("hold") else []


def job_of(scripts: list[str], crush: str | None, moves: int | None) -> Job:
    """What scripts and a CRUSH map are to give. A fault where that is nothing whole."""
    head = next((found for found in map(HEAD.fullmatch, text_of(scripts[-1]).splitlines()) if found), None)
    is_hold = head is not None and not head.group(1).startswith("undo")
    if head is not None and is_hold and crush is None and head.group(9) not in ("-", "command"):
        raise Misuse("a hold that comes with a CRUSH map takes --crush FILE, the compiled map")
    try:
        return job_in([*([] if crush is None else [crush]), *scripts], moves)
    except Stop as fault:
        raise Fault(f"{fault}: nothing is given") from None


def is_given_by_half(connection: Connection, job: Job) -> bool:
    """Whether a cluster has the CRUSH map of a hold already."""
    return job.crush is not None and crush_sum(connection.json("osd crush dump")) == job.script.then


def rest_of(job: Job, scripts: list[str]) -> PlanPart:
    """A hold whose CRUSH map stands, as a part that has its commands alone."""
    lines = [line for path in scripts for line in text_of(path).splitlines()]
    head = next(line for line in lines if HEAD.fullmatch(line))
    commands = [line for line in lines if together.COMMAND.fullmatch(line)]
    # Of its exceptions some stand, and others are gone with the change.
    asked = re.sub(", exceptions [^ ]+$", ", exceptions -", head)
    asked = asked.replace(f"CRUSH map {job.script.crush}, then", f"CRUSH map {job.script.then}, then")
    return part_in(scripts[-1], f"{asked}\n{part_text(commands, True)}")


def text_in(scripts: list[str]) -> str:
    """The text of all scripts of a hold."""
    return "".join(map(text_of, scripts))


def rest_begun(connection: Connection, job: Job, scripts: list[str]) -> PlanPart:
    """A hold whose CRUSH map stands, as a part; what is noted of it as begun is so of the part."""
    part, note = rest_of(job, scripts), begun_in(connection)
    if note is not None and note.sum == sum_of_text(text_in(scripts)):
        put_note(connection, replace(note, sum=sum_of_text(part.text), settings={}))
    return part


class HoldGiver:
    """Gives a hold."""

    def __init__(self, connection: Connection, job: Job, seconds: float) -> None:
        """Takes the connection, what is given, and for how long a monitor gathers meanwhile at most."""
        self.connection, self.job, self.seconds = connection, job, seconds

    def check(self) -> int:
        """How many commands there are. A Stop where the hold is not for the cluster as it stands, and a fault where
        something is given by half.
        """
        note = begun_in(self.connection)
        if note is not None:
            note.check_own("")
        with ThreadPoolExecutor(together.ASKING) as threads:
            together.Giving(self.connection, self.job.script, self.job.crush, threads)
        return len(self.job.script.commands)

    def give(self, scripts: list[str]) -> str:
        """Gives all, and tells in a line what stands. A Stop where not all does, with how the cluster stands."""
        settings = settings_of(self.connection)
        is_set = not is_flagged(self.connection.json("osd dump"))
        name, leader = "a hold with its CRUSH map", self.connection.leader
        put_note(self.connection, BegunNote(sum_of_text(text_in(scripts)), name, is_set, leader, settings))
        try:
            return given_to(self.connection, self.job, self.seconds)
        finally:
            with contextlib.suppress(Stop):
                if not is_set or not is_flagged(self.connection.json("osd dump")):
                    drop_note(self.connection)
