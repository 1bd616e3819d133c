"""Scripts judged from the bytes of a cluster's own map, by `readmap --judge`: one proved program, with none of these
tools between. Where it is not there, or the map does not come in as one, nothing is asked.
"""

from __future__ import annotations

import pathlib
import subprocess
import tempfile
from collections.abc import Sequence

from ..faults import DEFECT, Misjudged, Trouble
from .maps import Program
from .process import found_in, places_of, temporary

# How long the program may take, how it says that all is to be given, and what it says of a line in doubt.
SECONDS, ALL, DOUBT = 600, "commands, all to be given", ": in doubt: "
# How it says that a map does not come in as one, and that it finds no memory.
STAYS_OUT, MEMORY = (": it does not come in: ", ": it is no map: "), "there is no memory for it"


def answer_of(judge: str, script: str, data: bytes) -> subprocess.CompletedProcess[str]:
    """What the program says of a script over the bytes of a map."""
    with temporary(), tempfile.TemporaryDirectory() as name:
        folder = pathlib.Path(name)
        own, osdmap = folder / "script", folder / "osdmap"
        own.write_bytes(script.encode())
        osdmap.write_bytes(data)
        words = [judge, "--judge", str(own), str(osdmap)]
        try:
            return subprocess.run(words, capture_output=True, text=True, timeout=SECONDS, check=False)
        except (OSError, subprocess.TimeoutExpired) as fault:
            raise Trouble(f"{judge}: {fault}") from None


def check_by_bytes(data: bytes, scripts: Sequence[str], count: int, program: Program) -> None:
    """A fault where scripts, run one after the other, have another number of commands than they are to have, or a line
    that is in doubt.
    """
    judge = found_in(places_of("readmap", program), "readmap")
    if judge is None:
        return
    text = "".join(scripts)
    done = answer_of(judge, text, data)
    last = (done.stdout.splitlines() or [""])[-1]
    if done.returncode == 1 and DOUBT in last:
        number, why = last.removeprefix("line ").split(DOUBT, 1)
        line = text.split("\n")[int(number) - 1]
        raise Misjudged(f"{line}: by the bytes of the map {why}: {DEFECT}")
    if done.returncode == 1 and not done.stdout and any(words in done.stderr for words in STAYS_OUT):
        return
    if done.returncode == 1 and MEMORY in done.stderr:
        raise Trouble(f"{judge}: {MEMORY}, so the script is not judged from the bytes of the map")
    if done.returncode or last != f"{count} {ALL}":
        told = last or done.stderr.strip() or f"status {done.returncode}"
        raise Misjudged(f"{judge} should say `{count} {ALL}`, and says `{told}`: {DEFECT}")
