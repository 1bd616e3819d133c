"""What a line costs as a map grows by what the line does not touch, in instructions, so that a cost that grows with the
square of something is seen at once. Goals are ratios between sizes, which no other work on the machine moves."""

from __future__ import annotations

import json
import os
import pathlib
import re
import shutil
import subprocess
import tempfile

from tests.cases import Case
from tests.rows import Map
from tests.whole_maps import ON_HOSTS, map_of, osds_of, pool_of, rule_of

# The seconds that a run under valgrind may take.
LIMIT = 300
# How often a line stands in the script of a measure, and one that costs much.
MANY, HEAVY = 120, 12
# A filling that repeats one instruction is counted byte by byte; without it as many instructions as are run.
HONEST = {"GLIBC_TUNABLES": "glibc.cpu.x86_rep_stosb_threshold=10000000"}
# Parts of changes that are made in turn: of a state, of a reweight, of one that no rule reaches, of a pair of the first
# group.
STATES = ('"down":[5]', '"up":[5]')
WEIGHTS = ('"weight":[[5,32768]]', '"weight":[[5,65536]]')
SPARE = ('"weight":[[32,32768]]', '"weight":[[32,65536]]')
PAIRS = ('"new_items":[["1.0",[[29,31]]]]', '"new_items":[["1.0",[[28,31]]]]')


def changes(count: int, *parts: str) -> list[str]:
    """So many changes of the parts in turn, one upon the other."""
    return [f'change {{"base":{1 + at},{parts[at % len(parts)]}}}' for at in range(count)]


def pair_each(pools: int) -> list[str]:
    """Changes of a pair of the first group of each pool."""
    named = [",".join(f'["{number}.0",[[{osd},31]]]' for number in range(1, pools + 1)) for osd in (29, 28)]
    return changes(HEAVY, *(f'"new_items":[{pairs}]' for pairs in named))


def cluster(osds: int, pools: int, groups: int = 16) -> Map:
    """Hosts of four OSDs in straw2 buckets, and pools of so many groups under one rule. What is left of the OSDs stands
    in no bucket."""
    hosts = range(osds // 4)
    root = {"id": -1, "kind": "straw2", "type": 10, "items": [[-2 - host, 4 * 65536] for host in hosts]}
    below = [
        {"id": -2 - host, "kind": "straw2", "type": 1, "items": [[4 * host + osd, 65536] for osd in range(4)]}
        for host in hosts
    ]
    own = [pool_of(1 + number, groups, 3) for number in range(pools)]
    return map_of([root, *below], [rule_of(ON_HOSTS)], own, osds_of(osds), version=2)


class Sizes(Case):
    """Costs at two sizes."""

    def setUp(self) -> None:
        """A folder for the files of the runs; without valgrind nothing is measured."""
        if shutil.which("valgrind") is None:
            self.skipTest("there is no valgrind")
        folder = tempfile.TemporaryDirectory()
        self.addCleanup(folder.cleanup)
        self.folder = pathlib.Path(folder.name)

    def counted(self, stated: Map, lines: list[str]) -> int:
        """The instructions of a run over a map with a script."""
        map_file, script = self.folder / "map.json", self.folder / "script.txt"
        map_file.write_text(json.dumps(stated), "utf-8")
        script.write_text("".join(f"{line}\n" for line in lines), "utf-8")
        words = ["valgrind", "--tool=callgrind", "--callgrind-out-file=/dev/null", str(self.program)]
        words += ["--stock", "--journal", "65536", str(map_file), str(script)]
        done = subprocess.run(words, capture_output=True, text=True, timeout=LIMIT, env={**os.environ, **HONEST})
        self.assertEqual(done.returncode, 0, done.stderr[-300:])
        self.assertNotIn("\nerr ", f"\n{done.stdout}")
        return int(re.findall(r"Collected : (\d+)", done.stderr)[0])

    def cost(self, stated: Map, lines: list[str]) -> float:
        """The instructions of a line, where the script of so many is compared with that of a sixth."""
        few = len(lines) // 6
        return (self.counted(stated, lines) - self.counted(stated, lines[:few])) / (len(lines) - few)

    def compare(self, many: Map, few: Map, lines: dict[str, list[str]], most: dict[str, float]) -> None:
        """Each line costs at most so many times as much over the one map as over the other."""
        for name, own in lines.items():
            with self.subTest(name=name):
                self.assertLess(self.cost(many, own) / self.cost(few, own), most[name])

    def test_pools(self) -> None:
        """A line that names one pool, or none, costs little more where there are 256 pools than where there is one."""
        lines = {"up": ["up 1.7"] * MANY, "down": changes(MANY, *STATES), "pair": changes(MANY, *PAIRS)}
        self.compare(cluster(32, 256), cluster(32, 1), lines, {"up": 1.3, "down": 1.1, "pair": 1.3})

    def test_all_pools(self) -> None:
        """What looks at all pools, or names a group of each, costs as they do, and not as their square: a reweight that
        no rule reaches, and a pair of a group of each pool."""
        many, few = cluster(33, 256), cluster(33, 16)
        self.compare(many, few, {"weight": changes(HEAVY, *SPARE)}, {"weight": 16})
        with self.subTest(name="pairs"):
            self.assertLess(self.cost(many, pair_each(256)) / self.cost(few, pair_each(16)), 20)

    def test_groups(self) -> None:
        """What evaluates all groups costs as they do, and not as their square: 16 times as many cost less than 20 times
        as much, for a reweight and where the map is opened."""
        many, few = cluster(32, 256), cluster(32, 16)
        self.compare(many, few, {"weight": changes(HEAVY, *WEIGHTS)}, {"weight": 20})
        with self.subTest(name="opening"):
            self.assertLess(self.counted(many, []) / self.counted(few, []), 20)

    def test_osds(self) -> None:
        """A line that names a group or an OSD costs little more where there are 16 times as many OSDs. A pair, for
        which a rule draws each host, and a plan of one group cost as they do, and not as their square."""
        lines = {"up": ["up 1.0"] * MANY, "down": changes(MANY, *STATES), "pair": changes(MANY, *PAIRS)}
        lines["balance"] = ["balance 1 16"] * HEAVY
        most = {"up": 1.3, "down": 1.3, "pair": 20, "balance": 40}
        self.compare(cluster(4096, 1, 1), cluster(256, 1, 1), lines, most)
