"""Whether a script may be given to a cluster as it stands: by what it asks itself, as `sh` asks it, and by its head."""

from __future__ import annotations

import os
import pathlib
import subprocess
import tempfile
from collections.abc import Callable
from dataclasses import dataclass

from .. import together
from ..files import JsonObject
from ..together import HEAD
from ..values import SLOTS
from .guards import FLAGGED, is_guard
from .heads import NOT_TOLD

# What stands in the place of `ceph` while a script's guards are asked: the dump that the cluster has just printed.
PRINTS = 'ceph() { cat "$DUMP"; }'
REWEIGHTS_WORD = "a reweight is another"
SECONDS = 120


def guards_above(text: str) -> list[str]:
    """The guards of a script above its first command."""
    lines = text.splitlines()
    first = next((at for at, line in enumerate(lines) if line.startswith("ceph ")), len(lines))
    return [line for line in lines[:first] if is_guard(line)]


def unlike_by(guards: list[str], dump: str) -> str | None:
    """What the first guard tells that does not hold of a cluster, by what `ceph osd dump` prints; None where all do."""
    with tempfile.TemporaryDirectory() as folder:
        path = pathlib.Path(folder, "dump")
        path.write_text(dump, encoding="utf-8")
        words = ["sh", "-c", "\n".join(["set -e", PRINTS, *guards])]
        done = subprocess.run(
            words, env={**os.environ, "DUMP": str(path)}, capture_output=True, timeout=SECONDS, check=False
        )
    told = done.stderr.decode(errors="replace").strip().removesuffix(": nothing is done")
    return None if done.returncode == 0 else told or "what it asks does not hold"


@dataclass(frozen=True, **SLOTS)
class OwnBegun:
    """What of a script is given already: some of it; norebalance, which a giver has set; and OSDs that are out. And the
    sum of the CRUSH map that the cluster has.
    """

    is_begun: bool
    is_flagged: bool
    is_out: bool
    crush: str

    def explains(self, line: str) -> bool:
        """Whether what a guard asks is changed by the script itself, so that it does not hold where some of it is
        given. The version of the CRUSH map says less than its sum, which is asked.
        """
        if not self.is_begun or line.startswith("has '^crush_version "):
            return line.startswith("has '^crush_version ") and self.crush != NOT_TOLD
        is_exceptions = "'^pg_upmap(_items)? (" in line and ")[.].*'" in line
        is_flag = self.is_flagged and FLAGGED in line
        return line.startswith("same ") and (is_exceptions or is_flag or self.is_out and REWEIGHTS_WORD in line)


def unlike_by_head(text: str, dump: JsonObject, begun: OwnBegun) -> list[str]:
    """What the head of a script has otherwise than a cluster: the sizes and rules of pools, the reweights, and where
    nothing of it is given the CRUSH map and the exceptions. A way back is for a moment when something went wrong, and
    asks none.
    """
    heads = [found for found in map(HEAD.fullmatch, text.splitlines()) if found]
    if not heads or heads[-1].group(1).startswith("undo"):
        return []
    own, crush = together.Beside(*heads[-1].groups()[-4:]), heads[-1].group(8)
    own = own._replace(exceptions=None) if begun.is_begun else own
    is_other = not begun.is_begun and crush != NOT_TOLD and begun.crush not in (NOT_TOLD, crush)
    found = ["the CRUSH map"] if is_other else []
    return found + (own._replace(reweights=None) if begun.is_out else own).unlike(dump)


def why_not_its_turn(text: str, dump: JsonObject, printed: Callable[[], str], begun: OwnBegun) -> str | None:
    """Why a script is not to be given to a cluster, by its dump and by what prints that for people; None where it may
    be. Where some of it is given, what it changes itself is not asked.
    """
    unlike = unlike_by_head(text, dump, begun)
    if unlike:
        return f"{' and '.join(unlike)} is another than at its turn"
    guards = [line for line in guards_above(text) if not begun.explains(line)]
    return unlike_by(guards, printed()) if guards else None
