"""The tables of rows beside this file, each row answered byte by byte as it says (rows.py has their language)."""

from __future__ import annotations

import dataclasses
from collections.abc import Iterator

from tests.cases import EXAMPLES, RowCase
from tests.rows import table
from tests.runs import Run


def examples() -> Iterator[Run]:
    """Each example, answered as its answers beside it say. One with several scripts has them in the order of their
    names."""
    for answers in sorted(EXAMPLES.rglob("answers.txt")):
        folder = answers.parent
        scripts = {path.name: path.read_bytes() for path in sorted(folder.glob("script*.txt"))}
        files: dict[str, str | bytes | None] = {**scripts, "map": (folder / "map.json").read_bytes()}
        place = str(answers.relative_to(EXAMPLES.parent))
        yield Run(f"example: {folder.name}", files, answers.read_text(), arguments=["map", *scripts], place=place)


def stocked() -> Iterator[Run]:
    """Rows of one session, once more under `--stock`, which says nothing of maps and changes without straw2 buckets."""
    for name in ("worked", "changes", "texts", "balance"):
        for run in table(name):
            is_plain = run.arguments == ["map", "script"] and not any(
                "straw2" in str(run.files[key]) for key in run.files
            )
            if is_plain and "proper beginning" not in run.name:
                yield dataclasses.replace(run, name=f"--stock: {run.name}", arguments=["--stock", "map", "script"])


def typed() -> Iterator[Run]:
    """Each row of one session, as a live one."""
    tables = [table(name) for name in ("worked", "changes", "growth", "texts", "sessions", "balance", "limits")]
    for runs in [*tables, examples(), table("stock")]:
        for run in runs:
            scripts = [word for word in run.arguments if word in ("script", "script.txt")]
            if len(scripts) == 1 and run.status == 0 and run.sink == "pipe":
                words = ["-" if word in scripts else word for word in run.arguments]
                yield dataclasses.replace(run, name=f"live: {run.name}", arguments=words, typed=run.files[scripts[0]])


class Tables(RowCase):
    """A test a table; ROW chooses rows of it."""

    def test_worked(self) -> None:
        """Runs that were worked out from the rules."""
        self.check_runs(table("worked"))

    def test_placements(self) -> None:
        """Groups as Ceph's tools place them."""
        self.check_runs(table("placements"))

    def test_changes(self) -> None:
        """Histories of changes, with each map that they lead to."""
        self.check_runs(table("changes"))

    def test_growth(self) -> None:
        """Changes that bring new CRUSH maps, and pools that grow."""
        self.check_runs(table("growth"))

    def test_limits(self) -> None:
        """Limits at their edges, and the order of refusals."""
        self.check_runs(table("limits"))

    def test_texts(self) -> None:
        """Hostile texts."""
        self.check_runs(table("texts"))

    def test_sessions(self) -> None:
        """Sessions beside one another, and followers."""
        self.check_runs(table("sessions"))

    def test_balance(self) -> None:
        """Plans that were worked out from the rules."""
        self.check_runs(table("balance"))

    def test_program(self) -> None:
        """Arguments, files, statuses."""
        self.check_runs(table("program"))

    def test_stock(self) -> None:
        """Maps and changes with straw2 buckets, under `--stock` and without it."""
        self.check_runs(table("stock"))

    def test_examples(self) -> None:
        """The examples beside their answers."""
        self.check_runs(examples())

    def test_stocked(self) -> None:
        """Rows of one session answer the same under `--stock`."""
        self.check_runs(stocked())

    def test_typed(self) -> None:
        """Rows of one session answer the same where they are typed."""
        self.check_runs(typed())
