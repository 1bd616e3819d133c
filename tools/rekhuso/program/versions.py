"""That the program is the one of these tools."""

from __future__ import annotations

import functools
import os
import pathlib
import select
import subprocess
import time

from ..faults import Trouble
from ..files import stamp_of
from ..version import VERSION
from .maps import Program
from .process import Postponed, chosen

# So many seconds may a program take to tell its version, and so many bytes of what it tells are read.
SECONDS, LONGEST = 30, 200


def program_of(program: Program, name: str) -> pathlib.Path:
    """The program that is run: the one that is given, else the one of this name that is found. A fault where it is
    none, or is not of the version of these tools.
    """
    found = chosen(program, name)
    check_version(str(found), name, stamp_of(str(found)))
    return found


@functools.lru_cache(maxsize=None)
def check_version(path: str, name: str, stamp: object) -> None:
    """A fault where a program is not the one of a name and of the version of these tools. It is asked once, as long as
    it is the same file.
    """
    wanted, told = f"{name} {VERSION}", version_line(path)
    if told != wanted:
        raise Trouble(f"{path}: another program: --version tells {told[:40]!r}, and these tools want {wanted!r}")


def version_line(path: str) -> str:
    """What a program tells as its version; nothing where it does not start. A fault where it takes too long."""
    null = subprocess.DEVNULL
    with Postponed() as held:
        try:
            process = subprocess.Popen(
                [path, "--version"], stdin=null, stdout=subprocess.PIPE, stderr=null, start_new_session=True
            )
        except OSError:  # The run that follows tells why.
            return ""
        with process:
            try:
                held.let_go()
                return read_line(process, path)
            finally:
                process.kill()


def read_line(process: subprocess.Popen[bytes], path: str) -> str:
    """The first line of a process, or as much of it as is read."""
    found, end = b"", time.monotonic() + SECONDS
    while process.stdout and b"\n" not in found and len(found) < LONGEST:
        if not select.select([process.stdout], [], [], max(0, end - time.monotonic()))[0]:
            raise Trouble(f"{path}: another program: it tells no version within {SECONDS} seconds")
        part = os.read(process.stdout.fileno(), LONGEST)
        if not part:
            break
        found += part
    return found.decode("utf-8", "replace").partition("\n")[0]
