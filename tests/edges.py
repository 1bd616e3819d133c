"""Numbers at their edges: each number of each dump and file, and each number that an option takes.

Whatever a number is, a command ends soon, with a status and a line, and never with a fault of its own.
"""

from __future__ import annotations

import contextlib
import io
import json
import signal
import sys
from collections.abc import Iterator
from typing import Any

from rekhuso.command_line import main, parser

from tests.cases import EXAMPLE
from tests.clusters import STOCK, Json, copied, exceptions_told
from tests.tool_cases import ToolCase

# What stands in place of a number; JSON's own text has no end of digits.
EDGES: list[object] = [10**400, -(10**400), 1e308, -1e308, 2**64, -(2**63), 2**31, -1, 0.5, None, "1"]
DIGITS = "1" * 5000
GROUPS: list[object] = [f"{DIGITS}.0", f"1.{DIGITS}", "-1.0", "1", "x", "1.1F", "1.01", "1.1\n", "", None]
# What is told of a text that is no group as Ceph writes them.
NO_GROUP = "no group; one is written as 1.1f"
# What is done about a dump that is not of its form.
AGAIN = "no monitor dumps it so: take both dumps again"
SECONDS = 30


def places_in(value: Json, path: tuple[Any, ...] = ()) -> Iterator[tuple[Any, ...]]:
    """Where a value has numbers and groups; of each list in the first entry."""
    if isinstance(value, dict):
        for key, own in value.items():
            yield from places_in(own, (*path, key))
    elif isinstance(value, list):
        yield from places_in(value[0], (*path, 0)) if value else ()
    elif isinstance(value, (int, float)) or path[-1] == "pgid":
        yield path


def with_value(whole: Json, path: tuple[Any, ...], value: object) -> Json:
    """A value with another at one place."""
    found = own = copied(whole)
    for key in path[:-1]:
        own = own[key]
    own[path[-1]] = value
    return found


def cluster_files() -> dict[str, Json]:
    """What Ceph's tools tell of a cluster, with exceptions, a weight set, an OSD that is gone, and data."""
    own = copied(STOCK["001-three-hosts"])
    osd, crush = own["osd_dump"], own["crush_dump"]
    pool = osd["pools"][0]["pool"]
    osd["osds"][0]["primary_affinity"] = 1
    osd.update(exceptions_told([[f"{pool}.0", [0, 4, 8]]], [[f"{pool}.0", [[0, 1]]]]))
    osd["pg_upmap_primaries"] = [{"pgid": f"{pool}.0", "primary_osd": 1}]
    sets = [
        {"bucket_id": bucket["id"], "weight_set": [[item["weight"] / 65536 for item in bucket["items"]]]}
        for bucket in crush["buckets"]
    ]
    held = [own["pool"] for own in osd["pools"]]
    stat = {"num_bytes": 1000, "num_omap_bytes": 1}
    groups = [f"{own['pool']}.{at:x}" for own in osd["pools"] for at in range(own["pg_num"])]
    return {
        "osd": osd,
        "crush": dict(crush, choose_args={"-1": sets}),
        "tree": {"nodes": [{"id": 12, "exists": 0, "reweight": 0.5}]},
        "df": {
            "stats": {"total_bytes": 10**12},
            "pools": [{"id": pool, "stats": {"bytes_used": 3000, "stored": 1000}} for pool in held],
        },
        "pgs": {"pg_stats": [{"pgid": group, "stat_sum": stat} for group in groups]},
        "osds": {"nodes": [{"id": own["osd"], "kb": 9, "kb_used": 1, "kb_avail": 8} for own in osd["osds"]]},
    }


# Commands with an option to whose end a number is put.
NUMBERED: list[list[Any]] = [
    ["plan", EXAMPLE, "--first="],
    ["plan", EXAMPLE, "--until="],
    ["plan", EXAMPLE, "--deviation="],
    ["plan", EXAMPLE, "--alone", "--deviation="],
    ["plan", EXAMPLE, "--to", "parts", "--batch="],
    ["plan", EXAMPLE, "--to", "parts", "--batch", "5", "--osd-most="],
    ["plan", EXAMPLE, "--to", "parts", "--batch", "5", "--host-most="],
    ["next", EXAMPLE, EXAMPLE, EXAMPLE, "--pgs", EXAMPLE, "--most="],
    ["carry", "status", EXAMPLE, "--interval="],
    ["carry", "status", EXAMPLE, "--seconds="],
    ["carry", "status", EXAMPLE, "--most-misplaced="],
    ["carry", "status", EXAMPLE, "--osd-most="],
    ["carry", "status", EXAMPLE, "--host-most="],
    ["carry", "status", EXAMPLE, "--most-ops="],
    ["carry", "status", EXAMPLE, "--window="],
    ["explain", EXAMPLE, ""],
    ["history", EXAMPLE, "--at="],
    ["history", EXAMPLE, "--without-log="],
    ["together", EXAMPLE, EXAMPLE, EXAMPLE, "--seconds="],
    ["together", EXAMPLE, EXAMPLE, EXAMPLE, "--moves="],
    ["give", EXAMPLE, "--seconds="],
    ["give", EXAMPLE, "--moves="],
    ["whatif", EXAMPLE, "--out="],
    ["whatif", EXAMPLE, "--each="],
    ["whatif", EXAMPLE, "--weight=3="],
    ["whatif", EXAMPLE, "--weight", "=1"],
]


def number_options() -> set[str]:
    """The options whose words are read as numbers."""
    commands = next(action.choices for action in parser()._actions if isinstance(action.choices, dict))
    actions = [action for own in commands.values() for action in own._actions]
    return {option for action in actions if action.type for option in action.option_strings} - {"--program"}


class Edges(ToolCase):
    """Commands over files and options with numbers at their edges."""

    def ended(self, *words: object) -> tuple[int, str]:
        """How a command ends: its status, and what it tells on standard error. A fault of its own is one of the test,
        and so is a command that does not end."""
        told, before = io.StringIO(), sys.argv
        sys.argv = ["rekhuso", *map(str, words), "--program", str(self.tools.program)]
        signal.alarm(SECONDS)
        try:
            with contextlib.redirect_stdout(io.StringIO()), contextlib.redirect_stderr(told):
                return main(), told.getvalue()
        finally:
            signal.alarm(0)
            sys.argv = before

    def ends_at_edges(self, files: dict[str, Json], name: str, words: list[str]) -> None:
        """Asks that a command ends over files of which one has any number at each of its edges."""
        paths = {own: self.tools.put(own, value) for own, value in files.items()}
        for place in places_in(files[name]):
            for edge in GROUPS if place[-1] == "pgid" else EDGES:
                with self.subTest(name=name, place=place, edge=str(edge)[:20]):
                    self.tools.put(name, with_value(files[name], place, edge))
                    status, told = self.ended(*(paths.get(word, word) for word in words))
                    self.assertTrue(status == 0 or status == 1 and told, (status, told[-300:]))

    def test_numbers_of_dumps(self) -> None:
        """Each number and each group of the dumps of a cluster, and of what is told of its data."""
        files = cluster_files()
        for name in ("osd", "crush", "tree"):
            self.ends_at_edges(files, name, ["import", "osd", "crush", "--tree", "tree"])
        del files["crush"]["choose_args"]["-1"]
        for name in ("df", "pgs", "osds"):
            self.ends_at_edges(files, name, ["plan", "osd", "crush", "--df", "df", "--pgs", "pgs", "--osds", "osds"])

    def test_what_is_refused(self) -> None:
        """A number of more than 64 bits, and an affinity that is no part, are told by their places."""
        files = cluster_files()
        wide = "a number of more than 64 bits"
        cases: list[tuple[tuple[Any, ...], float, str]] = [
            (("osds", 0, "weight"), 1e308, f"osds[0].weight: {wide}"),
            (("osds", 0, "weight"), 10**400, f"osds[0].weight: {wide}"),
            (("pools", 0, "size"), -(2**64), f"pools[0].size: {wide}"),
            (("pg_upmap_items", 0, "mappings", 0, "to"), 2**64, f"pg_upmap_items[0].mappings[0].to: {wide}"),
            (("osds", 0, "primary_affinity"), 1.5, "osds[0].primary_affinity: no number from 0 to 1"),
            (("osds", 0, "primary_affinity"), -0.25, "osds[0].primary_affinity: no number from 0 to 1"),
            (("osds", 0, "primary_affinity"), 10**400, "osds[0].primary_affinity: no number from 0 to 1"),
        ]
        for place, number, told in cases:
            with self.subTest(told=told, number=str(number)[:20]):
                osd = self.tools.put("osd", with_value(files["osd"], place, number))
                status, error = self.ended("import", osd, self.tools.put("crush", files["crush"]))
                self.assertEqual((status, error.splitlines()), (1, [f"{osd}: {told}: {AGAIN}"]))

    def test_groups(self) -> None:
        """A group that is not written as Ceph writes them is told by its place, whichever command reads the dump, and
        whichever table has it."""
        files = cluster_files()
        del files["crush"]["choose_args"]["-1"]
        crush, pool = self.tools.put("crush", files["crush"]), files["osd"]["pools"][0]["pool"]
        commands: list[list[object]] = [
            ["import"],
            ["plan"],
            ["df"],
            ["explain", f"{pool}.0"],
            ["whatif", "--out", "1"],
            ["hold", "--weight", "osd.1=1"],
            ["release"],
        ]
        for group in ("x", f"{pool}.1F", f"{pool}.01", f"{pool}.1\n", ""):
            for table in ("pg_upmap", "pg_upmap_items", "pg_upmap_primaries"):
                osd = self.tools.put("osd", with_value(files["osd"], (table, 0, "pgid"), group))
                for command, *words in commands if table == "pg_upmap_items" else commands[:1]:
                    with self.subTest(command=command, table=table, group=group):
                        status, error = self.ended(command, osd, crush, *words)
                        self.assertEqual((status, error), (1, f"{osd}: {table}[0].pgid: {NO_GROUP}: {AGAIN}\n"))
        osd = self.tools.put("osd", files["osd"])
        for group in ("x", f"{pool}.1F", f"{pool}.01"):
            with self.subTest(group=group):
                pgs = self.tools.put("pgs", with_value(files["pgs"], ("pg_stats", 0, "pgid"), group))
                status, error = self.ended("plan", osd, crush, "--pgs", pgs)
                self.assertEqual((status, error), (1, f"{pgs}: pg_stats[0].pgid: {NO_GROUP}\n"))

    def test_numbers_of_maps(self) -> None:
        """Each number and each group of a map and of its names."""
        value = json.loads(EXAMPLE.read_text())
        value.update(pg_upmap=[["1.0", [0, 1, 2]]])
        for place in places_in(value):
            for edge in EDGES:
                with self.subTest(place=place, edge=str(edge)[:20]):
                    status, told = self.ended("check", self.tools.put("map", with_value(value, place, edge)))
                    self.assertTrue(status == 0 or status == 1 and told, (status, told[-300:]))
        for group in GROUPS:
            with self.subTest(group=str(group)[:20]):
                path = self.tools.put("map", dict(value, pg_upmap=[[group, [0, 1, 2]]]))
                self.assertEqual(self.ended("check", path)[0], 1)
        names = self.tools.put("names", {"osds": {DIGITS: "a"}})
        self.assertEqual(self.ended("df", EXAMPLE, "--names", names), (1, f"{names}: osds.{DIGITS}: no number\n"))

    def test_numbers_of_options(self) -> None:
        """Each option that takes a number, a group or an OSD, at its edges: one line, and a status that is not 0."""
        edges = ("1e9999999", "-1e9999999", "1e308", DIGITS, f"-{DIGITS}", "1/0", "nan", "")
        self.assertLessEqual(number_options(), {f"{word}".rstrip("=") for words in NUMBERED for word in words})
        for words in NUMBERED:
            for edge in edges:
                with self.subTest(words=words[2:], edge=edge[:20]):
                    last = f"{edge}{words[-1]}" if words[-1] == "=1" else f"{words[-1]}{edge}"
                    status, told = self.ended(*words[:-1], last)
                    self.assertIn((status, len(told.splitlines())), ((1, 1), (2, 1)), told[-300:])
        for own in (["--reweight", "3"], ["--add-host", "new"], ["--pool", "1"]):
            for edge in edges:
                with self.subTest(words=own, edge=edge[:20]):
                    status, told = self.ended("whatif", EXAMPLE, *own, f"size={edge}" if "1" in own else edge)
                    self.assertEqual((status, len(told.splitlines())), (2, 1), told[-300:])
