"""Rows of the tables once more, over a store that is begun with the map of the row: the program tells the epoch of that
map, and then what `osdmapd` answers."""

from __future__ import annotations

import dataclasses
import json
import pathlib
from collections.abc import Iterable, Iterator

from tests.cases import RowCase
from tests.rows import table
from tests.runs import Run, coded
from tests.stores import StoreCase
from tests.tables import examples


def stored(runs: Iterable[Run]) -> Iterator[Run]:
    """The runs that play scripts over a map, each over a store that it begins."""
    for run in runs:
        options = [word for word in run.arguments if word.startswith("--")]
        files = [word for word in run.arguments if not word.startswith("--")]
        if run.status == 0 and run.sink == "pipe" and files[:1] == ["map"] and set(options) <= {"--stock"}:
            words = [*options, "--begin", "map", "store", *files[1:]]
            epoch = json.loads(coded(run.files["map"] or ""))["epoch"]
            told = None if run.output is None else f"epoch {epoch}\n{run.output}"
            yield dataclasses.replace(run, name=f"store: {run.name}", arguments=words, output=told, follow=None)


class StoreTables(StoreCase, RowCase):
    """A test a table; ROW chooses rows of it."""

    @property
    def program(self) -> pathlib.Path:
        """The program over a store."""
        return self.command

    def test_examples_over_a_store(self) -> None:
        """The examples."""
        self.check_runs(stored(examples()))

    def test_rows_over_a_store(self) -> None:
        """Histories of changes, plans, sessions beside one another."""
        names = ("worked", "changes", "growth", "sessions", "balance", "stock")
        self.check_runs(run for name in names for run in stored(table(name)))
