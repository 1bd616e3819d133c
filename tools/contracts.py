#!/usr/bin/env python3
"""Draws docs/CONTRACTS.md from the sources: of each public function of some crates its head and its clauses.

    contracts.py [--check]

It writes the page anew. With `--check` it writes nothing, and ends with status 1 where the page is another.
"""

from __future__ import annotations

import pathlib
import re
import sys
import textwrap
from collections.abc import Iterator
from dataclasses import dataclass

TOP = pathlib.Path(__file__).resolve().parent.parent
PAGE, WIDTH = TOP / "docs" / "CONTRACTS.md", 132
# The crates that a program names which uses the monitor as a library, then those that carry a program.
CRATES = ("mapjson", "osdmap", "monitor", "session", "server", "mapstore", "ticketlock")
HEAD = """# Contracts

What each public function promises, as its source says it. `tools/contracts.py` draws this page, and a test holds it
against the sources. `requires` is what a caller owes; `ensures` holds of each call that returns. `x.old` and `x.new`
are what a `&mut` parameter is before and after, `x.now` is what a `&` parameter is. The other names are definitions in
`specs/` of the crate or of one below it. [PROVED.md](PROVED.md) says what follows of all of them together, and
[LIBRARY.md](LIBRARY.md) how to call them.
"""


@dataclass(frozen=True)
class PublicFunction:
    """A public function: the type that has it, its name, the lines of its head, and what it is for."""

    owner: str
    name: str
    lines: tuple[str, ...]
    about: str


def owner_of(line: str) -> str:
    """The type of an `impl` block that a line begins; nothing where it begins none, or one of a trait."""
    found = re.match(r"impl(?:<.*?>)? (?!.* for )(\w+)", line)
    return found[1] if found else ""


def head_from(lines: list[str], place: int) -> tuple[str, ...]:
    """The head of a function, from its first line to the one before its body."""
    found: list[str] = []
    for line in lines[place:]:
        if line.strip() == "{":
            break
        found.append(line.removesuffix(" {"))
        if line.endswith(") {") or re.search(r"-> [^{}]* \{$", line):
            break
    return tuple(found)


def about(lines: list[str], place: int) -> str:
    """The first sentence of what stands above a function."""
    words: list[str] = []
    for line in reversed(lines[:place]):
        if line.strip().startswith("///"):
            words.insert(0, line.strip().removeprefix("///").strip())
        elif not line.strip().startswith("#["):
            break
    text = " ".join(words).split("  ")[0]
    return re.split(r"(?<=[.:])\s", text + " ")[0].rstrip(" .:") + "." if text else ""


def functions(text: str) -> Iterator[PublicFunction]:
    """The public functions of a source."""
    lines, owner = text.splitlines(), ""
    for place, line in enumerate(lines):
        if line.startswith("impl"):
            owner = owner_of(line)
        found = re.match(r"(    )?pub fn (\w+)", line)
        if found:
            yield PublicFunction(owner if found[1] else "", found[2], head_from(lines, place), about(lines, place))


def told(one: PublicFunction) -> Iterator[str]:
    """The lines of the page for a function."""
    cut = 4 if one.owner else 0
    yield f"\n### `{f'{one.owner}::' if one.owner else ''}{one.name}`\n"
    if one.about:
        yield f"{textwrap.fill(one.about, WIDTH, break_on_hyphens=False)}\n"
    yield from (f"    {line[cut:]}" for line in one.lines)


def page() -> str:
    """The whole page."""
    found = [HEAD]
    for crate in CRATES:
        found.append(f"\n## {crate}")
        for path in sorted((TOP / "crates" / crate / "src").rglob("*.rt")):
            for one in functions(path.read_text()):
                if any("ensures" in line for line in one.lines):
                    found += told(one)
    return "\n".join(found) + "\n"


def main() -> int:
    """Writes the page, or says whether it is another."""
    drawn = page()
    if sys.argv[1:] == ["--check"]:
        return int(not PAGE.exists() or PAGE.read_text() != drawn)
    if sys.argv[1:]:
        sys.exit((__doc__ or "").strip())
    PAGE.write_text(drawn)
    return 0


if __name__ == "__main__":
    sys.exit(main())
