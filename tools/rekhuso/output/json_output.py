"""The object that a command tells."""

from __future__ import annotations

from ..faults import Fault
from ..running import has_object, put_object

# The version of all forms: a key that comes leaves it, and one that goes or means something else raises it.
VERSION = 1


def put_json(command: str, epoch: int | None, **parts: object) -> None:
    """Puts out what a command tells as one object: which command it is, of which epoch it tells (None where there is
    no lawful map), the version of its form, and its own parts.
    """
    put_object({"command": command, "epoch": epoch, "version": VERSION, **parts})


def put_refusal(command: str, fault: Fault) -> None:
    """Puts out why a command is refused, where it has told nothing else: by its code, its status, and in lines."""
    if not has_object():
        put_json(command, None, refused={"code": fault.code, "status": fault.status, "why": fault.lines})
