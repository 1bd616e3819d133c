#!/usr/bin/env python3
"""Tells what the proofs stand on: by the log of a gate, of `rt check` or of `rt run`, and by the sources.

    trust.py LOG.. > bench/results/trust.md
    trust.py --sources

Of each log it reads the last line of each crate's check (`logic=proved ..`) and the lines above it that name C
functions (`axioms CRATE: ..`, or the lists of `--list-axioms`). A check names its crate itself (`crate NAME: ..`), a
gate before it (`== NAME`); what a gate says of the tests of a crate is passed over. A crate that stands in several logs
is told by the last: a gate cuts the names of C functions short, which a check by `--list-axioms` behind it tells. Of
the sources it counts the definitions of `specs/`: all, and those that the contracts of the promises cite, directly or
by another definition; those of each crate; and the lines of the tools. With `--sources` it makes anew what that page
says of the sources, and leaves what logs have told as it is: tests ask for it where the two are apart.
"""

from __future__ import annotations

import collections
import datetime
import pathlib
import re
import sys
from collections.abc import Iterable, Iterator
from typing import NamedTuple

# The functions whose contracts are the promises of README.md, by crate and file, and the law of its headline.
PROMISES = {
    "reading": ("mapjson/src/lib.rt read_map", "mapjson/src/lib.rt read_change"),
    "placement": ("osdmap/src/placement.rt up_of",),
    "state": (
        *(f"state/src/state.rt {name}" for name in ("commit", "map", "table")),
        *(f"pgtable/src/table.rt {name}" for name in ("up", "count", "count_in", "groups")),
    ),
    "plans": ("balancer/src/plans.rt plan",),
    "sessions, and what their store keeps": ("server/src/runs.rt serve", "server/src/runs.rt serve_map"),
    "a store's files": (
        *(f"mapstore/src/opening.rt {name}" for name in ("begin", "open")),
        *(f"journalstore/src/store.rt {name}" for name in ("append", "checkpoint", "is_running")),
        *(f"journalstore/src/{name}" for name in ("beginning.rt begin", "opening.rt open")),
    ),
    "headline": (
        "monitor_laws/src/lib.rt one_history",
        *(f"server_laws/src/lib.rt {name}" for name in ("runs_as_one", "prints_as_one", "tells_as_law")),
    ),
}
PAGE = "bench/results/trust.md"
# What the words of a verdict line mean.
WORDS = {
    "logic": "each proof of the crate was checked, in this run or in one from which the kit kept it",
    "logic-built": "the kit's logic is taken as checked by whoever made the kit",
    "libraries-built": "libraries below are taken as they were built: our own here, the kit's by whoever made the kit",
    "statements": "of the kit's libraries the statements alone are there, so their proofs are not checked again",
    "incremental": "what an earlier check of the crate kept was taken from its folder",
    "batches": "what copies of the prover checked was taken without a second check",
    "native": "large numbers, characters and strings are computed by the prover's own code",
    "target": "the machine that the program is built for, which nothing judges",
    "cpu": "its processor, which nothing judges",
    "axioms": "C functions whose contracts are assumed",
    "threads": "C functions by which threads are started, joined and put to sleep",
    "main": "what the program may do: start threads, and wait, so that it need not end",
    "may-wait": "functions that may wait for another thread, and need not return",
}
BEGIN = """\
# What the proofs stand on

By hand, on {today}, by `tools/trust.py` from a log of checks; and from the sources, by `tools/trust.py --sources`,
whenever these have moved on. `make bench` does not make it anew.
"""
# Words whose value is a number of the crate, so that no two are alike.
COUNTED = {"axioms", "may-wait"}
HEAD = re.compile(r"^(?:(?:abbrev|unfoldable|pub|record|data|deriving|open|infix\w*) +)*([^\s:({]+)")
NAME = re.compile(r"[^\W\d][\w'?!]*(?:\.TheVariants)?")


class Verdict(NamedTuple):
    """The last line of a crate's check, by its words; how many modules of statements it took of each library of the
    kit; and the C functions that it reached, by the library of each: how many, of how many, and which are named."""

    crate: str
    words: dict[str, str]
    libraries: dict[str, int]
    functions: dict[str, tuple[int, int, list[str]]]


class Definition(NamedTuple):
    """A definition: its module, its name, its lines, and the names in them."""

    module: str
    name: str
    lines: int
    names: frozenset[str]


class DefinitionFile(NamedTuple):
    """A file of definitions: by name what it defines, and from where what it uses comes."""

    own: dict[str, Definition]
    uses: dict[str, tuple[str, str]]


def verdicts_in(log: str) -> Iterator[Verdict]:
    """The verdicts of a log in their order, one for each line that says that a crate is proved; but for its tests."""
    crate, library = "", ""
    libraries: dict[str, int] = {}
    functions: dict[str, tuple[int, int, list[str]]] = {}
    for line in log.splitlines():
        if line.startswith("logic /"):
            libraries, functions = {}, {}
        elif found := re.match(r"statements (\w+): modules loaded=(\d+)", line):
            libraries[found[1]] = int(found[2])
        elif found := re.match(r"crate (\w+): modules|== (\w+)", line):
            crate = found[1] or found[2]
        elif found := re.match(r"axioms (\w+): (.*?)\(?(\d+) (?:reached )?of the (\d+) declared\)?$", line):
            library = found[1]
            functions[library] = (int(found[3]), int(found[4]), re.findall(r"[\w:]+::\w+", found[2]))
        elif found := re.match(r"  ([\w:]+) +reached$", line):
            functions[library][2].append(found[1])
        elif line.startswith("logic=proved") and " tests=" not in line:
            yield Verdict(crate, dict(word.split("=", 1) for word in line.split()), libraries, functions)


def imported(line: str) -> Iterator[tuple[str, tuple[str, str]]]:
    """The names that a `use` line brings in, each with its module and its name there."""
    found = re.match(r"\s*(?:pub |ghost )*use (Rattle\.[\w.]+?)\.\{(.*)\}", line)
    if found:
        for part in found[2].split(","):
            name, _, other = part.strip().partition(" as ")
            yield other or name, (found[1], name)


def module_of(name: str, text: str) -> DefinitionFile:
    """A file of definitions, read."""
    parts: dict[str, list[str]] = {}
    uses: dict[str, tuple[str, str]] = {}
    now = ""
    for line in text.splitlines():
        if re.match(r"(?:pub )?(?:use|mod) ", line):
            uses.update(imported(line))
        elif not line.strip() or line.lstrip().startswith("--"):
            continue
        else:
            head = HEAD.match(line)
            now = head[1] if head and line[0] not in " })]" else now
            parts.setdefault(now, []).append(line)
    own = {
        head: Definition(name, head, len(lines), frozenset(NAME.findall("\n".join(lines))))
        for head, lines in parts.items()
    }
    return DefinitionFile(own, uses)


def modules(root: pathlib.Path) -> dict[str, DefinitionFile]:
    """All files of definitions, by the names that imports have for them."""
    found = {}
    for path in sorted((root / "crates").glob("*/specs/**/*.antt")):
        crate, _, *inner = path.relative_to(root / "crates").with_suffix("").parts
        name = ".".join(["Rattle", crate, "specs", *inner])
        found[name] = module_of(name, path.read_text(encoding="utf-8"))
    return found


def cited_by(root: pathlib.Path, place: str) -> set[tuple[str, str]]:
    """The definitions that the contract of a function cites, each by its module and name."""
    file, function = place.split()
    text = (root / "crates" / file).read_text(encoding="utf-8")
    uses = dict(pair for line in text.splitlines() for pair in imported(line))
    heads = re.findall(rf"\bpub fn {function}\b(.*?)\n *{{[\n}}]", text, re.DOTALL)
    if len(heads) != 1:
        sys.exit(f"trust.py: {place} is no function, or more than one")
    clauses = re.split(r"\b(?:ensures|requires)\b", heads[0], maxsplit=1)[-1]
    return {uses[name] for name in NAME.findall(clauses) if name in uses}


def reached(known: dict[str, DefinitionFile], first: Iterable[tuple[str, str]]) -> set[Definition]:
    """The definitions of the repository that some names lead to."""
    found: set[Definition] = set()
    left = [*first]
    while left:
        place, name = left.pop()
        own = known[place].own.get(name) if place in known else None
        if own and own not in found:
            found.add(own)
            uses = known[place].uses
            left += [uses.get(word, (place, word)) for word in own.names]
    return found


def lines_of(definitions: Iterable[Definition]) -> int:
    """How many lines some definitions have."""
    return sum(own.lines for own in definitions)


def table(columns: list[str], rows: Iterable[Iterable[object]]) -> Iterator[str]:
    """The lines of a table."""
    yield f"| {' | '.join(columns)} |"
    yield f"|{'---|' + '--:|' * (len(columns) - 1)}"
    for row in rows:
        yield f"| {' | '.join(f'{cell:,}' if isinstance(cell, int) else str(cell) for cell in row)} |"


def definitions_told(root: pathlib.Path) -> Iterator[str]:
    """What a reader must believe of the definitions, promise by promise."""
    known = modules(root)
    all_lines = sum(lines_of(module.own.values()) for module in known.values())
    by_promise = {
        promise: reached(known, set().union(*(cited_by(root, place) for place in places)))
        for promise, places in PROMISES.items()
    }
    every = set().union(*by_promise.values())
    rows = [(promise, lines_of(found), len(found)) for promise, found in by_promise.items()]
    rows += [("all promises together", lines_of(every), len(every))]
    rows += [("all definitions", all_lines, sum(len(module.own) for module in known.values()))]
    yield from table(["promise", "lines", "definitions"], rows)


def crates_told(root: pathlib.Path) -> Iterator[str]:
    """The definitions of each crate, of all that crates.txt names."""
    counts = {name: [0, 0] for name in crates_of(root)}
    for name, module in modules(root).items():
        crate = name.split(".")[1]
        counts[crate] = [counts[crate][0] + lines_of(module.own.values()), counts[crate][1] + len(module.own)]
    yield from table(["crate", "lines of definitions", "definitions"], ([name, *own] for name, own in counts.items()))


def crates_of(root: pathlib.Path) -> list[str]:
    """The crates, in their order."""
    return re.findall(r"^(\w+)\b[^:\n]*:", (root / "crates.txt").read_text(encoding="utf-8"), re.MULTILINE)


def tools_told(root: pathlib.Path) -> Iterator[str]:
    """The lines of Python that stand between a cluster and the program."""
    folder = root / "tools" / "rekhuso"
    sizes: collections.Counter[str] = collections.Counter()
    for path in folder.rglob("*.py"):
        inner = path.relative_to(folder).parts
        sizes[inner[0] if len(inner) > 1 else "beside them"] += len(path.read_text(encoding="utf-8").splitlines())
    yield from table(["folder of tools/rekhuso", "lines"], [*sorted(sizes.items()), ("all tools", sum(sizes.values()))])


def words_told(verdicts: list[Verdict]) -> Iterator[str]:
    """What the lines of the verdicts say, word by word, and of how many crates."""
    said = {word: collections.Counter(own.words[word] for own in verdicts if word in own.words) for word in WORDS}
    yield from ("| words | crates | what they say |", "|---|--:|---|")
    for word, values in said.items():
        number = sum(values.values()) if word in COUNTED else 0
        rows = [(f"{word}=..", number)] if number else [(f"{word}={value}", count) for value, count in values.items()]
        yield from (f"| `{shown}` | {count} | {WORDS[word]} |" for shown, count in rows)


def libraries_told(root: pathlib.Path, verdicts: list[Verdict]) -> Iterator[str]:
    """The libraries of the kit whose statements the proofs cite: of each the most modules of one crate."""
    own_crates = {path.name for path in (root / "crates").iterdir()}
    most: dict[str, int] = {}
    for own in verdicts:
        for library, count in own.libraries.items():
            most[library] = max(count, most.get(library, 0))
    rows = [(f"`{name}`", count) for name, count in sorted(most.items()) if count and name not in own_crates]
    yield from table(["library of the kit", "modules of statements"], rows)


def functions_told(own: Verdict) -> Iterator[str]:
    """The C functions that a program reaches."""
    yield from ("| library | reached | declared | by name |", "|---|--:|--:|---|")
    for library, (count, declared, names) in own.functions.items():
        more = ["and others"] if 0 < len(names) < count else []
        yield f"| {library} | {count} | {declared} | {', '.join(names + more)} |"


def proved_told(root: pathlib.Path, counts: dict[str, int]) -> Iterator[str]:
    """How many functions of each crate were proved, and which crates the logs do not have."""
    yield from table(["crate", "functions"], [*counts.items(), ("all", sum(counts.values()))])
    missing = [name for name in crates_of(root) if name not in counts]
    yield f"\nCrates that the logs do not have: {', '.join(missing) or 'none'}."


def of_sources(root: pathlib.Path) -> Iterator[tuple[str, str]]:
    """What the page says of the sources, by its headings."""
    yield "Definitions that a reader must believe", "\n".join(definitions_told(root))
    yield "Definitions of each crate", "\n".join(crates_told(root))
    yield "Python between a cluster and the program", "\n".join(tools_told(root))


def of_logs(root: pathlib.Path, verdicts: list[Verdict]) -> Iterator[tuple[str, str]]:
    """What the page says of the logs, by its headings."""
    yield "What the verdicts say", "\n".join(words_told(verdicts))
    yield "Libraries of the kit", "\n".join(libraries_told(root, verdicts))
    for own in verdicts:
        if own.functions:
            yield f"C functions below {own.crate}", "\n".join(functions_told(own))
    yield "Functions that were proved", "\n".join(
        proved_told(root, {v.crate: int(v.words["functions"]) for v in verdicts})
    )


def read_again(root: pathlib.Path, page: str) -> Iterator[tuple[str, str]]:
    """What a page says of logs, by its headings; of the crates that these do not have, by the sources."""
    anew = {heading for heading, _ in of_sources(root)}
    for heading, said in re.findall(r"^## ([^\n]*)\n\n(.*?)\n*(?=^## |\Z)", page, re.MULTILINE | re.DOTALL):
        if heading == "Functions that were proved":
            rows = re.findall(r"^\| (\w+) \| ([\d,]+) \|$", said, re.MULTILINE)
            counts = {name: int(count.replace(",", "")) for name, count in rows if name != "all"}
            own = set(crates_of(root))
            said = "\n".join(proved_told(root, {name: count for name, count in counts.items() if name in own}))
        if heading not in anew:
            yield heading, said


def main() -> None:
    """Puts the page out, or what is of the sources into the one that is there."""
    if len(sys.argv) < 2:
        sys.exit((__doc__ or "").strip())
    root = pathlib.Path(__file__).resolve().parent.parent
    page = root / PAGE
    if sys.argv[1:] == ["--sources"]:
        text = page.read_text(encoding="utf-8")
        date = found[0] if (found := re.findall(r"on ([\d-]{10}),", text)) else "a day that nobody noted"
        begin, told = BEGIN.format(today=date), read_again(root, text)
    else:
        logs = [pathlib.Path(name).read_text(encoding="utf-8", errors="replace") for name in sys.argv[1:]]
        verdicts = {own.crate: own for log in logs for own in verdicts_in(log)}
        begin, told = BEGIN.format(today=datetime.date.today()), of_logs(root, [*verdicts.values()])
    parts = [begin.rstrip(), *(f"## {heading}\n\n{said}" for heading, said in (*of_sources(root), *told))]
    whole = "\n\n".join(parts) + "\n"
    if sys.argv[1:] == ["--sources"]:
        page.write_text(whole, encoding="utf-8")
    else:
        sys.stdout.write(whole)


if __name__ == "__main__":
    main()
