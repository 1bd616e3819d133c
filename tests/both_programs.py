"""The program with checks in place of proofs beside the proved one: over the rows of the tables both put out the same
bytes and end with the same status. One compiler builds both of the same sources, and what it optimizes differs, as do
the checks: where it has built one of them wrong, a row may tell.

The one is what `make checked` keeps, or what the variable CHECKED names; the other is the program that is tested. Where
one of them is missing, is the other's kind, or is older than the sources of its crates, nothing is compared. Rows of
large texts are left out, and those that await in vain: the checks make these take longer than all others together.
What stays takes some 80 seconds of processor time, four runs at a time."""

from __future__ import annotations

import dataclasses
import os
import pathlib
import tempfile
from collections.abc import Iterable, Iterator

from tests.cases import BUILT, TOP, Case, RowCase
from tests.pages import stands_on
from tests.rows import table
from tests.runs import Check, Run, coded, difference
from tests.tables import examples

# Of a row with more bytes in its files and its output nothing is compared.
LARGE = 50_000
# What stands at the beginning of a program that `make checked` keeps.
MARK = b"with checks in place of proofs"


def checked() -> pathlib.Path:
    """The program with checks."""
    return pathlib.Path(os.environ.get("CHECKED", BUILT.with_name("osdmapd.checked"))).resolve()


def has_checks(program: pathlib.Path) -> bool:
    """Whether a program is one with checks."""
    with program.open("rb") as file:
        return MARK in file.read(1000)


def newest_source() -> float:
    """When the sources of the program were last changed: those of its crate and of all that it stands on."""
    below, asked = set(), {"osdmapd"}
    while asked:
        name = asked.pop()
        below.add(name)
        asked |= stands_on().get(name, set()) - below
    files = (path for name in below for path in (TOP / "crates" / name / "src").rglob("*.rt"))
    return max(path.stat().st_mtime for path in files)


def is_compared(run: Run) -> bool:
    """Whether a row is quick with checks too."""
    texts = [text for text in (*run.files.values(), run.output, run.typed) if text is not None]
    return sum(len(coded(text)) for text in texts) <= LARGE and "AwaitSpent" not in (run.output or "")


def ended(run: Run, program: pathlib.Path) -> tuple[int, bytes, bytes]:
    """What a program does in a run, in a folder of its own: its status, what it puts out, and what it tells. Where it
    tells how it is used it calls itself by the name of its file, which is the one thing that may differ."""
    with tempfile.TemporaryDirectory() as folder:
        run.put_files(pathlib.Path(folder))
        done = run.started(program, folder)
    name = f"{program.name}.program" if has_checks(program) else program.name
    own, same = f"Usage: {name} ".encode(), b"Usage: osdmapd "
    return done.returncode, (done.stdout or b"").replace(own, same), done.stderr.replace(own, same)


def differences(run: Run, program: pathlib.Path, other: pathlib.Path) -> list[str]:
    """What differs in a run of two programs, or else in the one that follows from it."""
    own, its = ended(run, program), ended(run, other)
    parts: list[tuple[str, int | bytes, int | bytes]] = [
        ("status, with checks and proved", own[0], its[0]),
        ("output, with checks and proved", own[1], its[1]),
        ("error, with checks and proved", own[2], its[2]),
    ]
    wrong = [told for what, here, there in parts if (told := difference(what, there, here))]
    return wrong or (differences(run.follow(own[1]), program, other) if run.follow else [])


def compared(runs: Iterable[Run]) -> Iterator[Check]:
    """A check for each run: that the program with checks does what the other does."""
    other = checked()

    def check(run: Run) -> Check:
        return Check(run.name, lambda program: differences(run, program, other), run.alone, run.place)

    yield from (check(run) for run in runs if is_compared(run))


class BothPrograms(RowCase):
    """A test a table; ROW chooses rows of it."""

    PROGRAMS = ("OSDMAPD", "CHECKED")

    def setUp(self) -> None:
        self.needs("program with checks: `make checked` builds it, or CHECKED names it", checked().is_file())
        self.needs("proved program: OSDMAPD is one with checks", not has_checks(self.program))
        self.needs("program with checks: CHECKED is another", has_checks(checked()))
        oldest = min(self.program.stat().st_mtime, checked().stat().st_mtime)
        self.needs("program of these sources: one of the two is older than they are", oldest >= newest_source())

    def check_same(self, runs: Iterable[Run]) -> None:
        """Asks that both programs do the same in each chosen run."""
        self.check_runs(compared(runs))

    def test_same_for_worked_rows(self) -> None:
        """Runs that were worked out, placements as Ceph's tools make them, and plans."""
        self.check_same(run for name in ("worked", "placements", "balance") for run in table(name))

    def test_same_for_histories(self) -> None:
        """Histories of changes, new CRUSH maps and pools that grow, and the examples."""
        self.check_same(run for runs in (table("changes"), table("growth"), examples()) for run in runs)

    def test_same_for_sessions(self) -> None:
        """Sessions beside one another, and followers."""
        self.check_same(table("sessions"))

    def test_same_for_limits(self) -> None:
        """Limits at their edges, and the order of refusals."""
        self.check_same(table("limits"))

    def test_same_for_texts(self) -> None:
        """Hostile texts."""
        self.check_same(table("texts"))

    def test_same_for_arguments(self) -> None:
        """Arguments, files, statuses."""
        self.check_same(table("program"))

    def test_same_for_stock(self) -> None:
        """Maps and changes with straw2 buckets, under `--stock` and without it."""
        self.check_same(table("stock"))


class Comparison(Case):
    """What is made of two programs."""

    is_form = True

    def test_difference(self) -> None:
        """Programs that differ in their output, errors or status are told to, and one that does as the other is not"""
        run = Run("one", {"map": "text"}, None, arguments=["map"])
        bodies = {
            "same": "cat map; echo none >&2",
            "output": "echo other; echo none >&2",
            "error": "cat map; echo some >&2",
            "status": "cat map; echo none >&2; exit 3",
        }
        with tempfile.TemporaryDirectory() as name:
            for what, body in bodies.items():
                path = pathlib.Path(name) / what
                path.write_text(f"#!/bin/sh\n{body}\n")
                path.chmod(0o755)
            first = pathlib.Path(name) / "same"
            told = {what: differences(run, first, pathlib.Path(name) / what) for what in bodies}
            follower = dataclasses.replace(run, follow=lambda output: dataclasses.replace(run, arguments=["no file"]))
            self.assertEqual(differences(follower, first, first), [])
        self.assertEqual({what: len(found) for what, found in told.items()}, {**dict.fromkeys(bodies, 1), "same": 0})
        self.assertEqual([what for what in ("output", "error", "status") if not told[what][0].startswith(what)], [])

    def test_most_rows(self) -> None:
        """More than nine of ten rows of each table are compared, but of growth, whose lists are long"""
        for name in ("worked", "placements", "balance", "changes", "sessions", "limits", "texts", "program", "stock"):
            found = [is_compared(run) for run in table(name)]
            self.assertGreater(sum(found), 0.9 * len(found), name)
