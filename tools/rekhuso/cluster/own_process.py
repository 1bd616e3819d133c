"""Which process of which machine something is, so that another one there can tell that it is gone."""

from __future__ import annotations

import os


def place() -> str:
    """Where a process is by its number: which start of which machine, and which numbers of processes."""
    try:
        with open("/proc/sys/kernel/random/boot_id", encoding="ascii") as file:
            return f"{file.read().strip()} {os.readlink('/proc/self/ns/pid')}"
    except OSError:
        return ""


def began(process: int) -> str:
    """When a process began, in ticks of the machine; nothing where it is not there."""
    try:
        with open(f"/proc/{process}/stat", encoding="utf-8", errors="replace") as file:
            return file.read().rpartition(") ")[2].split(" ")[19]
    except (OSError, IndexError):
        return ""


def is_gone(where: object, process: object, when: object) -> bool:
    """Whether a process that was here, by its place, its number and when it began, is gone. Of one elsewhere nobody
    knows.
    """
    return where == place() != "" and isinstance(process, int) and began(process) != when
