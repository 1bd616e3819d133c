"""Whether a program is known to be proved: by what was written beside it when it was."""

from __future__ import annotations

import json
import pathlib
from dataclasses import dataclass

from ..values import SLOTS

# What stands behind a program's name in that of the file.
PROVED = ".proved"


@dataclass(frozen=True, **SLOTS)
class Proof:
    """That a program was proved: of which commit, where that is known, and whether the tree had changes beside it."""

    commit: str | None
    is_changed: bool

    def words(self) -> str:
        """It in words."""
        of = "" if self.commit is None else f" at commit {self.commit[:12]}{' with changes' if self.is_changed else ''}"
        return f"proved{of}"


def proof_of(program: str, found: str | None) -> Proof | None:
    """What is said of a program whose file has a sum; None where nothing is, or of a file of another sum."""
    try:
        told = json.loads(pathlib.Path(program + PROVED).read_text(encoding="utf-8"))
    except (OSError, ValueError, RecursionError):
        return None
    if not isinstance(told, dict) or found is None or told.get("sha256") != found:
        return None
    commit = told.get("commit")
    is_known = isinstance(commit, str) and commit.isalnum()
    return Proof(commit if is_known else None, told.get("changed") is not False)
