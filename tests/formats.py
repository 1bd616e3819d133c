"""Stores that earlier versions have made, as `made_by` keeps them: the present program and tools read each.

A folder has, by the version that made them, the file of a store whose run had an orderly end, and the file and the log
of one whose program was killed.
"""

from __future__ import annotations

import gzip
import json
import pathlib
import re

from rekhuso.version import VERSION

from tests import model
from tests.cases import TOP, example
from tests.clusters import Json
from tests.pages import text
from tests.stores import StoreCase
from tests.tool_cases import ToolCase
from tests.whole_maps import pool_of

MADE = TOP / "tests" / "made_by"
# What was changed in each of them, one change after the other; the first ones stand in that which ended in order.
CHANGES: list[Json] = [
    {"down": [2]},
    {"up": [2]},
    {"new_items": [["1.0", [[3, 1]]]]},
    {"weight": [[0, 32768]]},
    {"new_pools": [dict(pool_of(2, 8, 2))]},
    {"down": [1]},
]
ENDED, KILLED = ("ended", 4), ("killed", 6)
# When it was, and by whom, of the first change.
MADE_AT, BY = 1796068833704, "maker"


def changes(count: int) -> list[str]:
    """The first changes, as lines of a session."""
    return [f"change {json.dumps({**change, 'base': base})}" for base, change in enumerate(CHANGES[:count], 1)]


def dump_after(count: int, *more: str) -> str:
    """The map after the first changes and some lines more, as the independent program has it."""
    return model.answers(example(), [*changes(count), *more, "dump"])[-1].removeprefix("dump ")


def put(version: str, name: str, folder: pathlib.Path) -> pathlib.Path:
    """The file of a store of a version, with its log, in a folder."""
    for end in ("", "-wal"):
        packed = MADE / version / f"{name}{end}.gz"
        if packed.is_file():
            (folder / f"{name}{end}").write_bytes(gzip.decompress(packed.read_bytes()))
    return folder / name


def versions() -> list[str]:
    """The versions of which stores are kept."""
    return sorted(path.name for path in MADE.iterdir())


class Told(ToolCase):
    """What the tools tell of them."""

    def test_history(self) -> None:
        """`history` tells each change with its time and its maker, and the map behind them"""
        for version in versions():
            for name, count in (ENDED, KILLED):
                with self.subTest(version=version, name=name):
                    path = put(version, name, self.tools.folder)
                    told = self.json("history", path)
                    self.assertEqual((told["first_epoch"], told["epoch"]), (1, 1 + count))
                    first = told["changes"][0]
                    self.assertEqual((first["made"], first["by"]), (MADE_AT, BY))
                    self.assertEqual(self.output("history", path, "--at", 1 + count), f"{dump_after(count)}\n")

    def test_table(self) -> None:
        """docs/FORMATS.md has a row for each version of which stores are kept, and for the present one"""
        part = text("docs", "FORMATS.md").partition("\n## Which version reads what\n")[2].partition("\n## ")[0]
        named = set(re.findall(r"(?m)^\| (\d[\d.]*)", part))
        self.assertLessEqual({*versions(), VERSION}, named)


class Opened(StoreCase):
    """What the program makes of them."""

    def test_opened(self) -> None:
        """Each is opened with all its changes, takes more, and is one file then"""
        for version in versions():
            for name, count in (ENDED, KILLED):
                with self.subTest(version=version, name=name):
                    path = put(version, name, self.folder)
                    more = f'change {{"base":{1 + count},"down":[3]}}'
                    done = self.ran(path, "-", "--stock", text=f"{more}\ndump\n")
                    self.assertEqual((done.status, done.error), (0, ""))
                    epoch, session, answer, dump = done.output.splitlines()
                    self.assertEqual((epoch, session), (f"epoch {1 + count}", "session 1"))
                    self.assertStarts(answer, f"ok {2 + count} ")
                    self.assertEqual(dump, f"dump {dump_after(count, more)}")
                    self.assertEqual(self.ran(path).output, f"epoch {2 + count}\n")
