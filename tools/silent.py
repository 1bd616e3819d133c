#!/usr/bin/env python3
"""Lists the functions of the crates whose contract leaves open what they answer, in three kinds:

- no clause says what they answer or leave;
- no clause speaks of their answer, but for what an error is: they may answer anything where nothing is refused;
- they are public and may refuse, and no clause says when or why: they may refuse always. Those that refuse for memory
  alone are not told, as no clause can say that memory is there.

    silent.py [ROOT]

Tests are left out, with the crate that has nothing but tests. So are the functions of an `impl` of a trait, which have
the trait's clauses; those that a trait declares are not. Whether a clause that names the answer says all of it is for
`rt plant` and for tests.
"""

from __future__ import annotations

import pathlib
import re
import sys
from collections.abc import Callable, Iterator
from typing import NamedTuple

TESTS = "integration_tests"
# A function, with all in front of its body or of the end of its declaration. Behind clauses a body begins on a line of
# its own, as `rt fmt` has it.
FUNCTION = re.compile(
    r"^(?P<indent> *)(?P<public>pub(?:\([\w ]+\))? )?(?:const )?(?:unsafe )?fn (?P<name>\w+)(?P<rest>"
    r"(?:(?!\b(?:requires|ensures)\b).)*?(?:\{\}|\{|;)$|.*?(?:^(?P=indent)\{\}?|\};)$)",
    re.MULTILINE | re.DOTALL,
)
# What functions that are indented stand in.
OWNER = re.compile(
    r"^(?:pub(?:\(crate\))? )?(?:unsafe )?(?:impl|trait)\b(?:<(?:[^<>]|<[^<>]*>)*>)?(?P<head>[^{;]*)", re.MULTILINE
)
ANSWER = re.compile(r"->\s*(.*?)\s*(?:\b(?:where|requires|ensures)\b|\{\}?$|;$)", re.DOTALL)
# A clause with braces of two levels in it: a record, and one in that.
CLAUSE = re.compile(r"\bensures\b\*?\s*\w*\s*\{((?:[^{}]|\{(?:[^{}]|\{[^{}]*\})*\})*)\}")
# The errors of a function that refuses for memory alone.
MEMORY = re.compile(r"Result<.*,\s*(?:Memory|AllocError)\s*>", re.DOTALL)


class Function(NamedTuple):
    """A function, with the type that it belongs to: whether callers outside may name it, the type of what it answers,
    and the clauses on its answer and on what it leaves."""

    name: str
    is_public: bool
    answer: str
    clauses: list[str]

    def names_answer(self, word: str) -> bool:
        """Whether a clause names the answer other than behind one of these words."""
        return any(re.search(rf"\bresult\b(?<!\b(?:{word}) result)", text) for text in self.clauses)

    def has_no_clause(self) -> bool:
        """Whether no clause says what it answers or leaves."""
        return not self.clauses

    def names_errors_alone(self) -> bool:
        """Whether it answers something of which its clauses say no more than what an error is."""
        return bool(self.clauses) and self.answer != "" and not self.names_answer("IfErr")

    def may_refuse_always(self) -> bool:
        """Whether callers outside may be refused at any time, and not for memory alone."""
        may = self.answer.startswith("Result<") and not MEMORY.fullmatch(self.answer)
        return self.is_public and may and bool(self.clauses) and not self.names_answer("IfOk|OnOk")


# What is listed, with the head of its list.
KINDS: dict[str, Callable[[Function], bool]] = {
    "no clause": Function.has_no_clause,
    "errors alone": Function.names_errors_alone,
    "may always refuse": Function.may_refuse_always,
}


def without_tests(text: str) -> str:
    """A file's text up to its tests."""
    return re.split(r"#\[cfg\(test\)\]\s*mod \w+ {", text)[0]


def test_modules(root: pathlib.Path) -> set[pathlib.Path]:
    """The modules that are there for tests alone, by their paths without an ending."""
    found: set[pathlib.Path] = set()
    for file in (root / "crates").glob("*/src/**/*.rt"):
        names = re.findall(r"#\[cfg\(test\)\]\s*mod (\w+);", file.read_text(encoding="utf-8"))
        folder = file.parent if file.stem in ("lib", "main") else file.with_suffix("")
        found.update(folder / name for name in names)
    return found


def functions_in(text: str) -> Iterator[Function]:
    """The functions of a text that have clauses of their own, or could."""
    owners = [(found.start(), found["head"].strip()) for found in OWNER.finditer(text)]
    for found in FUNCTION.finditer(text):
        owner = ""
        if found["indent"]:
            owner = next((head for start, head in reversed(owners) if start < found.start()), "")
        if not re.search(r"\bfor\b", owner):
            kind = re.match(r"\w+", owner)
            name = f"{kind[0]}::{found['name']}" if kind else found["name"]
            answer = ANSWER.search(found["rest"])
            clauses = CLAUSE.findall(found["rest"])
            yield Function(name, found["public"] == "pub ", answer[1] if answer else "", clauses)


def functions(root: pathlib.Path) -> Iterator[tuple[str, Function]]:
    """The functions of all crates, tests aside, each with its crate."""
    tests = test_modules(root)
    for file in sorted((root / "crates").glob("*/src/**/*.rt")):
        crate = file.relative_to(root / "crates").parts[0]
        if crate != TESTS and tests.isdisjoint({file.with_suffix(""), *file.parents}):
            for found in functions_in(without_tests(file.read_text(encoding="utf-8"))):
                yield crate, found


def silent(root: pathlib.Path) -> dict[str, dict[str, list[str]]]:
    """The functions of each kind, of each crate that has some."""
    told: dict[str, dict[str, list[str]]] = {kind: {} for kind in KINDS}
    for crate, found in functions(root):
        for kind, is_of in KINDS.items():
            if is_of(found):
                told[kind].setdefault(crate, []).append(found.name)
    return told


def main() -> None:
    """Puts the lists out, a line for each crate."""
    root = pathlib.Path(sys.argv[1] if len(sys.argv) > 1 else pathlib.Path(__file__).parent.parent)
    for kind, crates in silent(root).items():
        print(f"{kind}, {sum(map(len, crates.values()))}:")
        for crate, names in crates.items():
            print(f"  {crate}: {', '.join(names)}")


if __name__ == "__main__":
    main()
