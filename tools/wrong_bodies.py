#!/usr/bin/env python3
"""Plants wrong bodies in copies of crates and asks the prover for the functions that they change, and for no other:
status 1 where it proves one of them.

    wrong_bodies.py [--long] [CRATE..]

A file `wrong-bodies/NAME.edit` of a crate has a line `only: FUNCTION`, the function as a check names it below its
crate, and behind it the lines of an edit of `must-fail/`: `file:`, `old:`, `new:`. An edit of `must-fail/` costs the
proof of its whole crate, one of these that of the function and of those of the crate that it calls. Where that takes
long too, a line `long` stands in the file, and `--long` tries it. The libraries below a crate are those that `rt ci`
has left in `out/`, so that comes first.
"""

from __future__ import annotations

import argparse
from collections.abc import Iterator
from concurrent.futures import ThreadPoolExecutor
import dataclasses
import os
import pathlib
import re
import shutil
import subprocess
import sys
import tempfile

import libraries

TOP = pathlib.Path(__file__).resolve().parent.parent
PARTS = ("src", "specs", "proofs")
# How what the prover says of a function begins: of one that it proves, of one that it refuses, and of one that it does
# not judge, as it has not proved a function which that one calls.
PROVED, REFUSED, ABOVE = "proved", ("not proved", "no proof: "), "no proof: it calls "


@dataclasses.dataclass(frozen=True)
class Body:
    """A wrong body: the function that it changes, what takes the place of what in which files, and whether it takes
    long to try."""

    name: str
    function: str
    changes: tuple[tuple[str, str, str], ...]
    is_long: bool

    def clashes_with(self, other: Body) -> bool:
        """Whether the two cannot be planted side by side."""
        lines = {(file, old) for file, old, _ in self.changes} & {(file, old) for file, old, _ in other.changes}
        return self.function == other.function or bool(lines)

    def plant(self, copy: pathlib.Path) -> None:
        """Changes the files of a copy of the crate."""
        for file, old, new in self.changes:
            text = (copy / file).read_text("utf-8")
            if text.count(old) != 1:
                raise ValueError(f"`{old}` stands {text.count(old)} times in {file}")
            (copy / file).write_text(text.replace(old, new), "utf-8")


def body_of(path: pathlib.Path) -> Body:
    """The wrong body of a file."""
    function, file, old, is_long, changes = "", "", "", False, []
    for line in path.read_text("utf-8").splitlines():
        key, _, value = line.partition(": " if ": " in line else ":")
        if key == "only":
            function = value
        elif key == "long":
            is_long = True
        elif key == "file":
            file = value
        elif key == "old":
            old = value
        elif key == "new":
            changes.append((file, old, value))
    if not function or not changes:
        sys.exit(f"{path} has no line `only:`, or changes nothing")
    return Body(path.stem, function, tuple(changes), is_long)


def below(crate: str, named: dict[str, list[str]]) -> set[str]:
    """The crates of the repository below one."""
    own = {name for name in named[crate] if name in named}
    return own.union(*(below(name, named) for name in own))


def words_of(crate: str, named: dict[str, list[str]]) -> list[str]:
    """The prover's command for a crate, over the libraries of the kit and those that the gate has built."""
    command = shutil.which("rt")
    if command is None:
        sys.exit("there is no rt on the path")
    kit = pathlib.Path(command).resolve().parent.parent
    words = [str(kit / "bin" / "rattle"), "check", "--crate-name", crate]
    words.append("src/main.rt" if (TOP / "crates" / crate / "src" / "main.rt").exists() else "src/lib.rt")
    for name in ["std", *named[crate]]:
        place = TOP / "crates" / name / "out" / "rlib" if name in named else kit / "rlibs"
        words += ["--extern", f"{name}={place / name}.rlib"]
    for name in sorted(below(crate, named)):
        words += ["-L", f"dependency={TOP / 'crates' / name / 'out' / 'rlib'}"]
    words += ["-L", f"dependency={kit / 'rlibs'}", "--logic-built", str(kit / "logic_built")]
    return [*words, "--antt-project", str(kit / "rattle" / "logic" / "antt-project.json"), "--jobs", "1"]


class Crate:
    """A crate whose wrong bodies are tried."""

    def __init__(self, name: str, named: dict[str, list[str]]) -> None:
        """Takes the crate of that name, among those that crates.txt names."""
        self.name, self.words = name, words_of(name, named)

    def told(self, planted: list[Body]) -> str:
        """What the prover tells of a copy with some bodies, when it is asked for their functions."""
        with tempfile.TemporaryDirectory(prefix="wrong-bodies-") as folder:
            copy = pathlib.Path(folder)
            for part in PARTS:
                if (TOP / "crates" / self.name / part).is_dir():
                    shutil.copytree(TOP / "crates" / self.name / part, copy / part)
            for body in planted:
                body.plant(copy)
            words = [*self.words, *(word for body in planted for word in ("--only", body.function))]
            return subprocess.run(
                words,
                cwd=copy,
                stdout=subprocess.PIPE,
                stderr=subprocess.STDOUT,
                text=True,
                errors="replace",
                check=False,
            ).stdout

    def faults(self, bodies: list[Body]) -> Iterator[str]:
        """What is wrong with the bodies. As many as can be are planted side by side; one whose function calls that of
        another is judged when that one has been."""
        left = bodies
        while left:
            planted: list[Body] = []
            for body in left:
                if not any(body.clashes_with(other) for other in planted):
                    planted.append(body)
            try:
                told = self.told(planted)
            except (OSError, ValueError) as error:
                yield f"{', '.join(body.name for body in planted)}: {error}"
                return
            verdicts = dict(re.findall(rf"^fn {self.name}::(\S+): (.*)$", told, re.MULTILINE))
            judged = [body for body in planted if not verdicts.get(body.function, "").startswith(ABOVE)]
            if not judged or not re.search(r"^only=\d+ proved=\d+$", told, re.MULTILINE):
                yield f"{', '.join(body.name for body in planted)}: the prover gives no verdict:\n{told[-1500:]}"
                return
            for body in judged:
                verdict = verdicts.pop(body.function, "no word of it")
                if not verdict.startswith(REFUSED):
                    yield f"{body.name}: the prover does not refuse `{body.function}`: {verdict}"
            for function, verdict in verdicts.items():
                if not verdict.startswith((PROVED, ABOVE)):
                    yield f"`{function}`, whose body is as it was: {verdict}"
            left = [body for body in left if body not in judged]


def bodies_of(crate: str, takes_long: bool) -> list[Body]:
    """The wrong bodies of a crate that are tried."""
    bodies = [body_of(path) for path in sorted((TOP / "crates" / crate / "wrong-bodies").glob("*.edit"))]
    return [body for body in bodies if takes_long or not body.is_long]


def main() -> int:
    """Tries the wrong bodies of the crates that are named, or of all; the status."""
    parser = argparse.ArgumentParser(description=(__doc__ or "").split("\n\n")[0])
    parser.add_argument("crates", nargs="*", metavar="CRATE")
    parser.add_argument("--long", action="store_true", help="also those that take long")
    options = parser.parse_args()
    named, failed = dict(libraries.named(TOP)), 0
    if unknown := sorted({*options.crates} - {*named}):
        parser.error(f"crates.txt has no {', '.join(unknown)}")
    found = {name: bodies_of(name, options.long) for name in options.crates or named}
    with ThreadPoolExecutor(int(os.environ.get("RT_JOBS", os.cpu_count() or 1))) as pool:
        tried = {
            name: pool.submit(lambda crate: [*crate.faults(found[crate.name])], Crate(name, named))
            for name, bodies in found.items()
            if bodies
        }
        for name, future in tried.items():
            faults = future.result()
            failed += len(faults)
            for fault in faults:
                print(f"{name}: {fault}")
            told = ", ".join(body.name for body in found[name])
            print(f"{name}: {'NOT AS IT MUST BE' if faults else 'refused'}: {told}", flush=True)
    print(f"wrong bodies: {sum(map(len, found.values()))}, faults: {failed}")
    return 1 if failed else 0


if __name__ == "__main__":
    sys.exit(main())
