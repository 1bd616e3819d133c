#!/usr/bin/env python3
"""Tells of each library that crates.txt names for a crate whose text does not use it: status 1 where there is one.

    libraries.py [ROOT]

A crate uses a library where a path of its `.rt` files begins with its name, or one of its `.antt` files with `Rattle.`
and its name.
"""

from __future__ import annotations

from collections.abc import Iterator
import pathlib
import re
import sys


def named(root: pathlib.Path) -> Iterator[tuple[str, list[str]]]:
    """Each crate with the libraries that crates.txt names for it."""
    for line in (root / "crates.txt").read_text().splitlines():
        head, colon, tail = line.split("#")[0].partition(":")
        if colon:
            yield head.split()[0], tail.split()


def paths_in(crate: pathlib.Path) -> set[str]:
    """The first words of all paths in a crate's text."""
    found: set[str] = set()
    for file in [*crate.rglob("*.rt"), *crate.rglob("*.antt")]:
        if "out" not in file.relative_to(crate).parts:
            text = file.read_text()
            found.update(re.findall(r"(?<![\w:])(\w+)::", text))
            found.update(re.findall(r"\bRattle\.(\w+)\.", text))
    return found


def main() -> int:
    """Tells what is named in vain; the status."""
    root = pathlib.Path(sys.argv[1] if len(sys.argv) > 1 else pathlib.Path(__file__).parent.parent)
    vain = [
        (crate, library)
        for crate, libraries in named(root)
        for used in [paths_in(root / "crates" / crate)]
        for library in libraries
        if library not in used
    ]
    for crate, library in vain:
        print(f"crates.txt names {library} for {crate}, which does not use it", file=sys.stderr)
    return 1 if vain else 0


if __name__ == "__main__":
    sys.exit(main())
