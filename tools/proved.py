#!/usr/bin/env python3
"""Says beside a program that it was proved: the sum of its file, the commit of the tree, and the kit.

    proved.py PROGRAM

`make run` and `make store` run it once the kit has proved a program with everything below it and has built it; the
tools read `PROGRAM.proved`, and tell a program as proved where its sum is the one that stands there.
"""

from __future__ import annotations

import hashlib
import json
import pathlib
import subprocess
import sys

TOP = pathlib.Path(__file__).resolve().parent.parent


def told(*words: str) -> str:
    """What a command tells; nothing where it is not there or fails."""
    try:
        done = subprocess.run(words, cwd=TOP, stdout=subprocess.PIPE, text=True, check=False, timeout=60)
    except OSError:
        return ""
    return done.stdout.strip() if done.returncode == 0 else ""


def proof(program: bytes) -> dict[str, object]:
    """What is said of a program that was proved in this tree."""
    return {
        "sha256": hashlib.sha256(program).hexdigest(),
        "commit": told("git", "rev-parse", "HEAD") or None,
        "changed": told("git", "status", "--porcelain", "--untracked-files=no", "--", "crates") != "",
        "kit": told("rt", "version") or None,
    }


def main() -> None:
    """Writes it beside the program, whole."""
    if len(sys.argv) != 2:
        sys.exit((__doc__ or "").strip())
    program = pathlib.Path(sys.argv[1])
    new = program.with_name(f"{program.name}.proved.new")
    new.write_text(json.dumps(proof(program.read_bytes())) + "\n", encoding="utf-8")
    new.replace(program.with_name(f"{program.name}.proved"))


if __name__ == "__main__":
    main()
