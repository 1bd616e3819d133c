"""Maps whose groups are placed in threads: pools about the size from which they are, in maps about the number of groups
from which there is more than one room; and many small pools, alone and beside a large one.

Each map is opened three times: on all processors that there are; on one; and with all threads refused that the program
asks for, but for that of its session. Then an OSD gets another reweight, another CRUSH map comes, in front of each pool
comes one of as many groups, and each group of the first pools gets a pair. What each change evaluates, the up set of
each group and the groups of each OSD, at the beginning and after each change, are those of model.py each time. How many
threads the program asks for is told by a library that is loaded before it (refuse_threads.c).
"""

from __future__ import annotations

import json
import os
import pathlib
import shutil
import subprocess
import tempfile
from typing import Any

from tests import model
from tests.cases import HERE, Case
from tests.clusters import Json, groups_of
from tests.rows import written
from tests.whole_maps import FULL, NO_EXCEPTIONS, ON_OSDS, crush_of, map_of, osd_of, pool_of, rule_of

OSDS, SECONDS = 5, 300
# A map of fewer groups has one room, and so has a pool of fewer unless rooms take whole pools. There are as many rooms
# as processors, 16 at most.
MANY, LARGE, MOST = 4096, 1024, 16
# So many changes touch pools as a whole; one more names all groups of the first pools.
WHOLE = 3
# Sizes of pools: about those limits, once fewer pools than there may be processors; many small ones that differ; and
# one that is large beside many small ones.
SIZES = ((1023, 1024, 2049), (4095,), (3, 1023, 3070), (1, 60, 3, 64, *(62,) * 64), (2050, *(66,) * 31))
# The processors that there are, and whether rooms get threads.
WAYS = (("on all processors", None, True), ("on one processor", 1, True), ("with threads refused", None, False))


def a_map(sizes: tuple[int, ...]) -> Json:
    """A map with pools of so many groups and even numbers, over OSDs of which one is down and one half out."""
    pools = [pool_of(2 * number, groups, 2) for number, groups in enumerate(sizes, 1)]
    osds = [osd_of(osd, osd != 4, 32768 if osd == 2 else FULL) for osd in range(OSDS)]
    root = {"id": -1, "items": [[osd, FULL * (1 + osd % 3)] for osd in range(OSDS)], "kind": "list", "type": 10}
    return map_of([root], [rule_of(ON_OSDS)], pools, osds, **NO_EXCEPTIONS)


def changes_of(value: Json) -> list[str]:
    """Changes of all groups of such a map: a reweight, another CRUSH map, as many pools more, and a pair for each."""
    items = [[osd, FULL * (3 - osd % 3)] for osd in range(OSDS)]
    pairs = [[group, [[0, 1 + int(group.split(".")[1], 16) % 3]]] for group in groups_of(value)]
    changes: list[Json] = [
        {"weight": [[0, 32768]]},
        {"new_crush": crush_of(value, buckets=[{**bucket, "items": items} for bucket in value["buckets"]])},
        {"new_pools": [{**pool, "id": pool["id"] - 1} for pool in value["pools"]]},
        {"new_items": pairs},
    ]
    return [f"change {json.dumps({'base': at, **change})}" for at, change in enumerate(changes, value["epoch"])]


def questions(ids: list[int], sizes: tuple[int, ...]) -> list[str]:
    """The lines that ask for the groups of pools of so many groups, and for those of each OSD."""
    asks = [f"up {pool}.{group:x}" for pool, groups in zip(ids, sizes) for group in range(groups)]
    return asks + [f"groups {osd}" for osd in range(OSDS)]


def lines_of(value: Json, sizes: tuple[int, ...]) -> list[str]:
    """The changes of such a map, with questions in front of the first and behind each: for the pools that come behind
    the change that brings them, else for the first ones."""
    first = [pool["id"] for pool in value["pools"]]
    own, theirs = questions(first, sizes), questions([pool - 1 for pool in first], sizes)
    changes = enumerate(changes_of(value), 1)
    behind = (line for at, change in changes for line in (change, *(theirs if at == WHOLE else own)))
    return [*own, *behind]


def processors() -> int:
    """The processors that a run may use, within the quota of its container."""
    quota = pathlib.Path("/sys/fs/cgroup/cpu.max")
    most, period = (quota.read_text() if quota.exists() else "max 100000").split()
    allowed = len(os.sched_getaffinity(0))
    return allowed if most == "max" else min(allowed, max(1, int(most) // int(period)))


class Rooms(Case):
    """Groups that are placed in threads."""

    def library(self, folder: pathlib.Path) -> pathlib.Path:
        """The library that counts and refuses threads, built into a folder."""
        self.needs("gcc", shutil.which("gcc") is not None)
        library = folder / "refuse_threads.so"
        source = HERE / "refuse_threads.c"
        subprocess.run(["gcc", "-shared", "-fPIC", "-O1", "-o", library, source, "-ldl"], check=True)
        return library

    def opened(
        self, files: list[pathlib.Path], library: pathlib.Path, most: int | None, spared: int
    ) -> tuple[str, str]:
        """What a run answers, and a letter for each thread that it asks for: where a number is spared, the thread of
        this number alone is made."""
        marks = files[0].parent / "threads"
        marks.unlink(missing_ok=True)
        given = {"LD_PRELOAD": str(library), "REFUSE_THREADS": str(1000 if spared else 0), "THREADS": str(marks)}
        given["SPARE_THREAD"] = str(spared)
        words: list[Any] = [self.program, "--stock", *files]
        if most is not None:
            words = ["taskset", "-c", str(min(os.sched_getaffinity(0))), *words]
        done = subprocess.run(words, env={**os.environ, **given}, timeout=SECONDS, capture_output=True, text=True)
        self.assertEqual((done.returncode, done.stderr), (0, ""))
        return done.stdout, marks.read_text() if marks.exists() else ""

    def asked_for(self, sizes: tuple[int, ...], most: int | None) -> tuple[int, int]:
        """How many threads a run asks for when it opens the map or a change touches pools as a whole, and when one
        names all groups: for each large pool as many as there are rooms but one, whose part is placed in the thread
        that opens or changes the map. Where no pool has more than a quarter of what a room is to place, the rooms take
        whole pools when the map is opened or the change touches them as a whole, and threads are asked for once."""
        rooms = min(most or MOST, processors(), MOST) if sum(sizes) >= MANY else 1
        for_large = (rooms - 1) * sum(1 for groups in sizes if groups >= LARGE)
        is_even = 4 * max(sizes) <= sum(sizes) // rooms + 1
        return rooms - 1 if is_even else for_large, for_large

    def test_sizes(self) -> None:
        """The groups of each map are where the model has them, however many threads place them."""
        self.needs("taskset", shutil.which("taskset") is not None)
        for sizes in SIZES:
            value = a_map(sizes)
            lines = lines_of(value, sizes)
            wanted = "".join(line + "\n" for line in ["session 1", *model.answers(value, lines)])
            with tempfile.TemporaryDirectory() as name:
                folder = pathlib.Path(name)
                library, files = self.library(folder), [folder / "map", folder / "script"]
                files[0].write_text(written(value))
                files[1].write_text("".join(line + "\n" for line in lines))
                for way, most, gets_threads in WAYS:
                    with self.subTest(f"pools of {sizes} groups {way}"):
                        first, named = self.asked_for(sizes, most)
                        # The thread of the session comes behind those that place the groups of the map.
                        answers, threads = self.opened(files, library, most, 0 if gets_threads else first + 1)
                        self.assertEqual(answers, wanted)
                        self.assertEqual(len(threads), first + WHOLE * first + named + 1)
