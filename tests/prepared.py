"""What goes before a change by `hold --prepare`: beside the program, and beside what real monitors made of it.

Monitors of Ceph 16.2.15 and 18.2.7 were given the commands over a cluster of operators.json.gz, two of whose hosts
change their racks; prepared.json.gz has the CRUSH map behind that, what was refused, the sets that were then others,
and which groups were elsewhere once the change and its hold were made in one map.
"""

from __future__ import annotations

import json
import pathlib

from tests.ceph_monitor import WORST
from tests.clusters import Json, commands, exceptions_in, exceptions_told, kept, raised, with_commands
from tests.drains import come_in
from tests.holds import sets_of
from tests.tool_cases import StockCase

DATA = kept("prepared.json.gz")


class Preparing(StockCase):
    """Commands of `hold --prepare`."""

    def files(self, dump: Json | None = None) -> list[object]:
        """The dumps of the cluster, and the words of the change."""
        own = WORST["racks"]
        files = self.tools.put("o", dump or own["osd_dump"]), self.tools.put("c", own["crush_dump"])
        return [*files, "--crush", self.tools.put("new", DATA["new_crush_dump"])]

    def sets_under(self, lines: list[str]) -> dict[str, list[int | None]]:
        """The sets of the cluster once commands are given."""
        value = raised(json.loads(self.output("import", *self.files()[:2])))
        return sets_of(super().sets(with_commands(value, lines)))

    def scripts(self, *words: object) -> list[list[str]]:
        """The commands of the scripts that `hold --prepare` writes."""
        paths = self.output("hold", *self.files(), "--prepare", *words).splitlines()
        return [commands(pathlib.Path(self.tools.folder, path).read_text()) for path in paths]

    def test_monitor(self) -> None:
        """The monitors took each command, each group moved by one place, as by the program; and at the change no group
        was elsewhere, where by itself its hold would have left as many as are told."""
        self.assertEqual({row["ceph"] for row in DATA["rows"]}, {"16.2.15", "18.2.7"})
        parts = self.scripts("--batch", 20, "--to", "parts")
        lines = [line for part in parts for line in part]
        self.assertGreater(len(parts), 1)
        left = self.json("hold", *self.files())["left"]
        for row in DATA["rows"]:
            was = {group: entry[0] for group, entry in row["up"].items()}
            come = come_in(WORST["racks"], was, {**was, **row["behind"]})
            self.assertEqual((lines, row["refused"]), (row["given"], 0))
            self.assertEqual(self.sets_under(lines), {**was, **row["behind"]})
            self.assertEqual(sorted(group for group, _ in come), sorted(own["group"] for own in left))
            self.assertEqual(row["elsewhere"], [])

    def test_hold(self) -> None:
        """Over the dumps behind the parts a hold of the change leaves no group."""
        output, error = self.ran("hold", *self.files(), "--prepare")
        self.assertIn("a hold would leave 37 groups; 37 groups and 37 places move before the change", error)
        self.assertIn("; then it leaves 0\n", error)
        dump = WORST["racks"]["osd_dump"]
        after = with_commands({**exceptions_in(dump), "pg_upmap": []}, commands(output))
        items = exceptions_told(**after)["pg_upmap_items"]
        told = self.json("hold", *self.files(dict(dump, pg_upmap_items=items)))
        self.assertEqual(told["left"], [])

    def test_undo(self) -> None:
        """The way back gives the groups the exceptions of the dump again."""
        lines = commands(self.output("hold", *self.files(), "--prepare"))
        undo = commands(self.output("hold", *self.files(), "--prepare", "--undo"))
        value = raised(json.loads(self.output("import", *self.files()[:2])))
        self.assertEqual(with_commands(with_commands(value, lines), undo), with_commands(value, []))

    def test_use(self) -> None:
        """Words of which one would be passed over are errors of use."""
        files = self.files()
        cases: list[tuple[list[object], str]] = [
            (["--prepare", "--json"], "--prepare goes before a change that is still to come"),
            (["--prepare", "--of-pg", "2.0"], "--prepare goes before a change that is still to come"),
            (["--prepare", "--to", "x"], "--prepare --to goes with --batch"),
            (["--prepare", "--osd-most", "2"], "--osd-most is a limit of parts, and goes with --prepare and --batch"),
            (["--osd-most", "2"], "--osd-most is a limit of parts, and goes with --prepare and --batch"),
        ]
        for words, told in cases:
            self.is_told(self.tools.run("hold", *files, *words), 2, told, words)
        four = ["hold", *files[:2], *files[:2], "--prepare"]
        self.is_told(self.tools.run(*four), 2, "--prepare goes before a change that is still to come", four)
