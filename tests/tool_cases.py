"""What tests of the tools stand on: runs of their commands in a folder of each test's own, beside the program's
answers."""

from __future__ import annotations

import json
import os
import pathlib
import re
import subprocess
import sys
import tempfile
from collections.abc import Iterable
from typing import Any

from rekhuso.version import VERSION

from tests.cases import TOP, Case
from tests.clusters import CLUSTERS, STOCK, Json, ceph_set, groups_of
from tests.runs import zipped
from tests.schemas import faults_of

TOOLS = TOP / "tools" / "rekhuso"
SECONDS = 300
# What a script begins with that stands in a program's place: the tools ask its version first.
SHELL = f'#!/bin/sh\n[ "$1" = --version ] && echo "{{}} {VERSION}" && exit\n'
AS_MONITOR, AS_STORE = SHELL.format("osdmapd"), SHELL.format("osdmapstore")


def without_names(error: str) -> str:
    """Reasons without the names that stand beside the numbers of pools, which one test of imports asks for."""
    beside = r"(?<=\d) \((?!\d\d [A-Z])[^()]*\)"
    return re.sub(r"\bpools? \d+ \(.*", lambda found: re.sub(beside, "", found[0]), error)


class Tools:
    """Runs of the commands in a folder, with the program."""

    def __init__(self, program: str | pathlib.Path, folder: str | pathlib.Path) -> None:
        self.program, self.folder = pathlib.Path(program).resolve(), pathlib.Path(folder)

    def words(self, *words: object) -> list[str]:
        """The words of a command."""
        return [sys.executable, "-B", str(TOOLS), *map(str, words), "--program", str(self.program)]

    def run(self, *words: object, stdin: str | None = None) -> tuple[int, str, str]:
        """A command's status, output and error, without the names of pools beside their numbers."""
        done = subprocess.run(
            self.words(*words),
            cwd=self.folder,
            capture_output=True,
            text=True,
            timeout=SECONDS,
            input=stdin,
            check=False,
        )
        return done.returncode, done.stdout, without_names(done.stderr)

    def put(self, name: str, value: object) -> pathlib.Path:
        """A file with a value as JSON, or a text."""
        path = self.folder / name
        path.write_text(value if isinstance(value, str) else json.dumps(value))
        return path

    def dumps(self, cluster: str) -> tuple[pathlib.Path, pathlib.Path]:
        """The two dumps of a cluster as files."""
        own = CLUSTERS[cluster]
        return self.put(f"{cluster}-osd", own["osd_dump"]), self.put(f"{cluster}-crush", own["crush_dump"])

    def map(self, cluster: str) -> Json:
        """The map of a cluster; what the OSD dump does not list is taken as out, as these clusters have it."""
        status, output, error = self.run("import", *self.dumps(cluster), "--unmatched")
        if status != 0:
            raise AssertionError(error)
        value: Json = json.loads(output)
        return value

    def answers(self, value: object, lines: Iterable[str], *options: str) -> list[str]:
        """The program's answers to lines over a map, under options."""
        files = self.put("asked-map", value), self.put("asked-lines", "".join(line + "\n" for line in lines))
        words: list[str | os.PathLike[str]] = [self.program, *options, *files]
        return subprocess.run(words, capture_output=True, text=True, timeout=SECONDS, check=True).stdout.splitlines()[
            1:
        ]

    def sets(self, value: Json, *options: str) -> dict[str, str]:
        """The answers for all groups, the epoch aside."""
        groups = groups_of(value)
        answers = self.answers(value, [f"up {group}" for group in groups], *options)
        return {group: answer.split(" ", 3)[3] for group, answer in zipped(groups, answers)}


class ToolCase(Case):
    """Tests of the tools' commands."""

    tools: Tools

    def setUp(self) -> None:
        folder = tempfile.TemporaryDirectory()
        self.addCleanup(folder.cleanup)
        self.tools = Tools(self.program, folder.name)

    def ran(self, *words: object, status: int = 0) -> tuple[str, str]:
        """The output of a command that ends with a status, and what it tells on standard error."""
        found, output, error = self.tools.run(*words)
        self.assertEqual(found, status, f"{' '.join(map(str, words))[:600]}: {error[-600:]}")
        return output, error

    def output(self, *words: object) -> str:
        """The output of a command that has done its work."""
        return self.ran(*words)[0]

    def is_told(self, found: tuple[int, str, str], status: int, text: str, what: object) -> None:
        """Asks that a command ended with a status and one line on standard error, which has a text in it, and with
        nothing else."""
        code, output, error = found
        self.assertEqual((code, output), (status, ""), (what, code, output[:100], error[-300:]))
        self.assertEqual(len(error.splitlines()), 1, (what, code, output[:100], error[-300:]))
        self.assertIn(text, error, (what, code, output[:100], error[-300:]))

    def with_names(self, cluster: str) -> tuple[pathlib.Path, pathlib.Path, Json, Json]:
        """The map of a cluster as a file, the file of its names, and both as values."""
        path, names = self.tools.folder / f"{cluster}-map", self.tools.folder / f"{cluster}-names"
        path.write_text(self.output("import", *self.tools.dumps(cluster), "--names", names))
        return path, names, json.loads(path.read_text()), json.loads(names.read_text())

    def json(self, *words: object) -> Any:
        """What a command that has done its work tells as JSON, as the schema of the command says."""
        told = json.loads(self.output(*words, "--json"))
        self.assertEqual(faults_of(told), [], words)
        return told


class StockCase(ToolCase):
    """Tests of the tools' commands over stock clusters."""

    def dumps(self, name: str, own: Json | None = None) -> tuple[pathlib.Path, pathlib.Path]:
        """The two dumps of a stock cluster as files, as they are or as they were changed to."""
        own = own or STOCK[name]
        return self.tools.put(f"{name}-osd", own["osd_dump"]), self.tools.put(f"{name}-crush", own["crush_dump"])

    def brought(self, name: str, *words: object) -> tuple[Json, pathlib.Path]:
        """The map of a stock cluster, and its file."""
        output = self.output("import", *self.dumps(name), *words)
        return json.loads(output), self.tools.put(f"{name}-map", output)

    def maps_of(self, name: str, *words: object) -> dict[str, Json]:
        """The maps of a stock cluster that may take several, by their files' names."""
        folder = self.tools.folder / f"{name}-maps"
        output = self.output("import", "--to", folder, *self.dumps(name), *words)
        self.assertEqual(sorted(output.splitlines()), sorted(map(str, folder.iterdir())))
        return {path.name: json.loads(path.read_text()) for path in sorted(folder.iterdir())}

    def sets(self, *maps: Json) -> dict[str, str]:
        """The answers for all groups of some maps under `--stock`, the epoch aside."""
        found: dict[str, str] = {}
        for value in maps:
            self.assertTrue(found.keys().isdisjoint(groups_of(value)), "two maps have a group")
            found.update(self.tools.sets(value, "--stock"))
        return found

    def has_ceph_sets(self, name: str, maps: Iterable[Json], pools: set[int] | None = None) -> None:
        """Asks that each group of a stock cluster, or of some of its pools, has Ceph's up set and primary in the
        maps."""
        own = STOCK[name]["up"].items()
        wanted = {group: ceph_set(entry) for group, entry in own if pools is None or int(group.split(".")[0]) in pools}
        self.are_alike(self.sets(*maps), wanted, name)

    def are_alike(self, found: Json, wanted: Json, name: str) -> None:
        """Asks that all groups have the sets that are wanted; some of those that have not are told."""
        unlike = {group: found.get(group) for group in wanted if found.get(group) != wanted[group]}
        some = dict(list(unlike.items())[:3])
        self.assertEqual(some, {group: wanted[group] for group in some}, f"{name}: {len(unlike)} groups")
        self.assertEqual(found.keys(), wanted.keys(), name)
