#!/usr/bin/env python3
"""Draws what stands on what, for docs/DESIGN.md: the crates by crates.txt, and the tools by their imports.

    layers.py [ROOT]

A crate has a line, with its floor: how many crates the longest chain below it has. Of the crates that it stands on,
those are named below which no other of them leads; the rest follow. So have the sub-packages of the tools, and what
stands beside them.
"""

from __future__ import annotations

import ast
import pathlib
import re
import sys
from collections.abc import Iterator
from typing import TypeVar

# What each name stands on.
Below = dict[str, set[str]]
# The modules beside the sub-packages of the tools: above them and below.
ABOVE, BESIDE = "the command line", "values, files, words"
# What callers of the package see comes from all of it, and what runs it has no import of its own.
KNOWN = dict.fromkeys(("__init__", "__main__"), ABOVE)
Key = TypeVar("Key")


def crates(root: pathlib.Path) -> Below:
    """The crates that each crate stands on, by crates.txt."""
    lines = re.findall(r"^(\w+)\b[^:\n#]*:(.*)$", (root / "crates.txt").read_text(encoding="utf-8"), re.MULTILINE)
    names = {name for name, _ in lines}
    return {name: names.intersection(below.split()) for name, below in lines}


def modules(folder: pathlib.Path) -> dict[pathlib.Path, set[pathlib.Path]]:
    """The modules of the package from which each of its modules takes names."""
    found: dict[pathlib.Path, set[pathlib.Path]] = {}
    for file in sorted(folder.rglob("*.py")):
        others = found.setdefault(file, set())
        for node in ast.walk(ast.parse(file.read_text(encoding="utf-8"))):
            if isinstance(node, ast.ImportFrom) and node.level:
                place = file.parents[node.level - 1].joinpath(*(node.module or "").split("."))
                others.update(taken(place, [name.name for name in node.names]))
    return found


def taken(place: pathlib.Path, names: list[str]) -> Iterator[pathlib.Path]:
    """The files that an import takes names from."""
    for name in names:
        ways = (place.with_suffix(".py"), place / f"{name}.py", place / "__init__.py")
        yield next(way for way in ways if way.is_file())


def tools(root: pathlib.Path) -> Below:
    """The sub-packages of the tools that each takes names from. The modules beside them are of two kinds: those that
    take names from a sub-package, also by another module, and those that take none.
    """
    folder = root / "tools" / "rekhuso"
    graph = modules(folder)

    def part(file: pathlib.Path) -> str:
        """The sub-package of a file, or of which kind it is beside them."""
        inner = file.relative_to(folder).parts
        takes = any(len(one.relative_to(folder).parts) > 1 for one in reach(graph, file))
        return inner[0] if len(inner) > 1 else KNOWN.get(file.stem, ABOVE if takes else BESIDE)

    parts = {file: part(file) for file in graph}
    below: Below = {name: set() for name in parts.values()}
    for file, others in graph.items():
        below[parts[file]] |= {parts[other] for other in others} - {parts[file]}
    return below


def floors(below: Below) -> dict[str, int]:
    """How many the longest chain below each has."""
    found: dict[str, int] = {}

    def floor(name: str) -> int:
        """How many the longest chain below one has."""
        if name not in found:
            found[name] = max((floor(other) + 1 for other in below[name]), default=0)
        return found[name]

    for name in below:
        floor(name)
    return found


def reach(below: dict[Key, set[Key]], name: Key) -> set[Key]:
    """All that a name stands on, directly or by others."""
    found: set[Key] = set()
    left = [*below[name]]
    while left:
        other = left.pop()
        if other not in found:
            found.add(other)
            left += below[other]
    return found


def nearest(below: Below, name: str) -> list[str]:
    """What a name stands on, but for what another of these stands on."""
    others = below[name]
    return sorted(one for one in others if not any(one in reach(below, other) for other in others))


def drawn(below: Below) -> Iterator[str]:
    """The lines of the picture, the highest floor first."""
    by_name = floors(below)
    wide = max(map(len, below))
    for name in sorted(below, key=lambda name: (-by_name[name], name)):
        on = nearest(below, name)
        yield f"    {by_name[name]:2}  {name:{wide}}  {'on ' if on else ''}{', '.join(on)}".rstrip()


def picture(root: pathlib.Path) -> str:
    """The whole picture."""
    return "\n".join([*drawn(crates(root)), "", *drawn(tools(root)), ""])


def main() -> None:
    """Puts the picture out."""
    print(picture(pathlib.Path(sys.argv[1] if len(sys.argv) > 1 else pathlib.Path(__file__).parent.parent)), end="")


if __name__ == "__main__":
    main()
