"""The model against the placements of Ceph's own tools and worked logarithms, and its tables against those for C."""

from __future__ import annotations

import functools
import json
import pathlib
import re
from collections.abc import Iterator

from tests import model
from tests.cases import EXAMPLES, HERE, TOP, Case, RowCase
from tests.rows import Row, map_text
from tests.runs import Check

STOCK = json.loads((HERE / "stock.json").read_text())


def modelled(row: Row, _: pathlib.Path) -> list[str]:
    """What the model places otherwise than a table of sets says."""
    cluster = model.Cluster(json.loads(map_text(row.get("map", "one device"))))
    found = {group: model.placed(cluster, group) for group in row["sets"]}
    return [
        f"{group}: expected {row['sets'][group]}, got {own}"
        for group, own in found.items()
        if own != row["sets"][group]
    ]


def checks() -> Iterator[Check]:
    """A check for each row of sets."""
    for row in json.loads((HERE / "placements.json").read_text())["runs"] + STOCK["runs"]:
        if "sets" in row:
            yield Check(f"the model: {row['name']}", functools.partial(modelled, row))


class ModelPlacements(RowCase):
    """Rows of sets."""

    def test_sets(self) -> None:
        """The model places groups as the tables say."""
        self.check_runs(checks())


class Model(Case):
    """The model beside what was worked out, its tables, and an example."""

    def test_logarithms(self) -> None:
        """The model's logarithms are those that were worked out."""
        for number, wanted in STOCK["logarithms"]:
            self.assertEqual(model.logarithm(number), wanted, number)

    def test_example_of_balancing(self) -> None:
        """The model answers the example of balancing as its answers say."""
        folder = EXAMPLES / "balance"
        value, script = json.loads((folder / "map.json").read_text()), (folder / "script.txt").read_text().splitlines()
        self.assertEqual(model.answers(value, script), (folder / "answers.txt").read_text().splitlines()[1:])

    def test_tables_for_c(self) -> None:
        """The tables of the logarithm for C are those for Python."""
        header = re.sub(r"/\*.*?\*/", "", (TOP / "bench" / "logarithm.h").read_text(), flags=re.S)
        tables = re.findall(r"(\w+)\[.*?\] = {(.*?)};", header, re.S)
        found = {name: [int(entry) for entry in re.findall(r"(\d+)ll", entries)] for name, entries in tables}
        self.assertEqual(found["rh_lh"], model.TABLES["RH_LH"])
        self.assertEqual(found["ll"], model.TABLES["LL"])
