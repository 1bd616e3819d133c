"""What CONTRIBUTING.md says of the form of the crates' code, measured: parameters, bodies, loops, columns and names."""

from __future__ import annotations

import functools
import pathlib
import re
import sys
from collections import Counter, defaultdict
from typing import NamedTuple

from tests.cases import TOP, Case
from tests.pages import flat, found_in, sources, text

sys.path.append(str(TOP / "tools"))

import contracts  # noqa: E402

CRATES = TOP / "crates"
MOST_PARAMETERS, MOST_COLUMNS = 5, 120
# A body that has a line more still has about so many.
MOST_LINES = 31
HEAD = re.compile(r"^( *)(?:pub(?:\(\w+\))? )?fn (\w+)", re.M)
LOOP = re.compile(r"(?:^|\s)(?:for \S.* in |while |loop \{)")
# What a file states by itself; not the steps that stand in a module, whose names may be enough. And what it defines.
LEMMA = re.compile(r"(?:pub )?([^\s:]+) : ")
DEFINITION = re.compile(r" *(?:(?:abbrev|unfoldable) (?:pub )?|(?:pub )?(?:record|data) (?=.* where$))([^\s:]+) ")


class CountedFunction(NamedTuple):
    """A function of a crate, by its name: how many parameters, lines of its body and loops it has."""

    crate: str
    name: str
    parameters: int
    lines: int
    loops: int


def crate_of(path: pathlib.Path) -> str:
    """The crate of a file."""
    return path.relative_to(CRATES).parts[0]


def counted(rest: str) -> int:
    """How many parameters stand in the first brackets of a text, which begins behind a function's name."""
    depth, parts, is_within = 0, [""], False
    for before, sign in zip(" " + rest, rest):
        closes = sign in ")]}" or sign == ">" and before != "-"
        depth += (sign in "([<{") - closes
        if sign == "(" and depth == 1:
            is_within = True
        elif is_within and closes and not depth:
            break
        elif is_within and sign == "," and depth == 1:
            parts.append("")
        elif is_within:
            parts[-1] += sign
    return sum(bool(part.strip()) for part in parts)


def body_in(lines: list[str], at: int, indent: str) -> list[str]:
    """The lines of the body of a function whose head begins at a line; none where it has none."""
    begins = next((n for n in range(at, len(lines)) if re.match(rf"{indent}(?! ).*{{$", lines[n])), len(lines))
    ends = next((n for n in range(begins, len(lines)) if lines[n] == f"{indent}}}"), begins)
    has_body = not any(re.match(rf"{indent}(?:    )?\S.*;$", line) for line in lines[at:begins])
    return lines[begins + 1 : ends] if has_body else []


@functools.lru_cache(None)
def functions() -> list[CountedFunction]:
    """Each function of the crates, tests aside."""
    found = []
    for path, source in own_code().items():
        lines = source.splitlines()
        for head in HEAD.finditer(source):
            body = body_in(lines, source.count("\n", 0, head.start()), head[1])
            loops = sum(bool(LOOP.search(line)) for line in body)
            found.append(CountedFunction(crate_of(path), head[2], counted(source[head.end() :]), len(body), loops))
    return found


def own_code() -> dict[pathlib.Path, str]:
    """The code of the crates without comments and tests."""
    bare = {path: re.sub(r"//.*", "", source) for path, source in sources().items() if path.suffix == ".rt"}
    return {
        path: re.split(r"#\[cfg\(test\)\]\s*mod \w+ {", source)[0]
        for path, source in bare.items()
        if "integration_tests" not in path.parts and not {"tests", "tests.rt"} & {*path.parts}
    }


def untold(form: re.Pattern[str], texts: dict[pathlib.Path, str]) -> list[str]:
    """What a pattern finds at the front of lines that have no line of comment right above them, each with its file."""
    found = []
    for path, source in texts.items():
        lines = [line for line in source.splitlines() if not line.startswith("infix")]
        heads = [(above.strip(), form.match(line)) for above, line in zip(lines, lines[1:]) if line[:2] != "--"]
        found += [f"{path.relative_to(TOP)}: {head[1]}" for above, head in heads if head and above[:2] != "--"]
    return found


def twice(texts: dict[pathlib.Path, str], form: str) -> list[str]:
    """The names that a pattern finds in several files."""
    homes: dict[str, set[pathlib.Path]] = defaultdict(set)
    for path, source in texts.items():
        for name in re.findall(form, source, re.M):
            homes[name].add(path)
    return sorted(name for name, files in homes.items() if len(files) > 1)


class House(Case):
    """The form of the code."""

    is_form = True

    def said(self, form: str) -> str:
        """What the part on style of CONTRIBUTING.md says in a place."""
        return found_in(form, flat(TOP / "CONTRIBUTING.md"))

    def test_parameters(self) -> None:
        """Functions have at most five parameters, but for those that the page names by their crates"""
        self.assertGreater(len(functions()), 1500)
        many = {(own.crate, own.name) for own in functions() if own.parameters > MOST_PARAMETERS}
        self.assertEqual({own.parameters for own in functions() if own.parameters > MOST_PARAMETERS}, {6})
        said = self.said(r"at most five parameters with `self`, but for ([^.]*), which have six\.")
        pairs = re.findall(r"((?:`\w+`(?:, | and )?)+) of `(\w+)`", said)
        self.assertEqual(
            {(crate, name) for names, crate in pairs for name in re.findall(r"\w+", names.replace(" and ", " "))}, many
        )

    def test_bodies(self) -> None:
        """Bodies have about 30 lines at most, and one loop, but for the functions that the page names, and a crate"""
        long = [own for own in functions() if own.lines > MOST_LINES]
        self.assertEqual(long, [])
        said = self.said(r"about 30 lines at most, and one loop, tests aside; but for ([^.]*)\.")
        names, crate = {*re.findall(r"`(\w+)`", said)}, found_in(r"and what `(\w+)` prints", said)
        several = [own for own in functions() if own.loops > 1]
        self.assertEqual({own.name for own in several if own.crate != crate}, names - {crate})
        self.assertTrue([own for own in several if own.crate == crate])

    def test_sizes(self) -> None:
        """No crate but those that the page names has more functions than it says, and none of these has more than the
        most"""
        several = self.said(r"at most about 110 functions\. \w+ have more \(([^)]*)\), none")
        sizes = Counter(own.crate for own in functions())
        self.assertEqual({crate for crate, size in sizes.items() if size > 110}, {*re.findall(r"\w+", several)})
        self.assertEqual(max(sizes.values()), int(self.said(r"none of them more than (\d+)\.")))

    def test_columns(self) -> None:
        """No more lines of src/ and specs/ are wider than 120 columns than the page says"""
        wide = [
            f"{path.relative_to(TOP)}:{number}"
            for path, source in sources().items()
            if {"src", "specs"} & {*path.parts}
            for number, line in enumerate(source.splitlines(), 1)
            if len(line) > MOST_COLUMNS and not re.match(r"\s*(?:pub |ghost )*use ", line)
        ]
        most = int(self.said(r"at most 120 columns, imports aside; (\d+) (?:is|are) wider"))
        self.assertLessEqual(len(wide), most, wide)

    def test_names(self) -> None:
        """No more types and definitions have a name that one of another file has than the page says"""
        specs = {path: source for path, source in sources().items() if "specs" in path.parts}
        types = twice(own_code(), r"^pub(?:\(crate\))? (?:struct|enum|trait) (\w+)")
        definitions = twice(specs, r"^(?:(?:abbrev|unfoldable) pub|pub record) ([\w'-]+)")
        most = [int(self.said(rf"(\d+) {what}")) for what in ("types and", "definitions have a name")]
        self.assertLessEqual(len(types), most[0], types)
        self.assertLessEqual(len(definitions), most[1], definitions)

    def test_lines(self) -> None:
        """Each definition of specs/ and each lemma of proofs/, but for steps within a module, has a line above it that
        says what it says"""
        for folder, form in (("specs", DEFINITION), ("specs", LEMMA), ("proofs", LEMMA)):
            with self.subTest(folder=folder, form=form.pattern):
                texts = {path: source for path, source in sources().items() if path.parent.name == folder}
                self.assertGreater(
                    sum(bool(form.match(line)) for own in texts.values() for line in own.splitlines()), 9
                )
                self.assertEqual(untold(form, texts), [])

    def test_contracts(self) -> None:
        """The page of contracts is what `tools/contracts.py` draws, and has each public function of the library"""
        self.assertEqual(text("docs", "CONTRACTS.md"), contracts.page(), "tools/contracts.py draws it anew")
        for name in ("read_change", "OsdMap::apply", "Monitor::commit", "Follower::catch_up", "Lock::poll_write"):
            self.assertIn(f"\n### `{name}`\n", contracts.page())
