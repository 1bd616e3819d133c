"""What moves by a change of the CRUSH map, of weights, or of the number of groups, as a real monitor has it.

The monitor (Ceph 16.2.15) made each change of moves.json.gz, which has its dumps and up sets before and after. Of the
pool that grows these are two monitors', each of which made the pool with so many groups.
"""

from __future__ import annotations

import collections
import itertools
import json
import pathlib

from tests.clusters import Json, kept
from tests.runs import zipped
from tests.tool_cases import ToolCase

RECORDS = {(own["cluster"], own["change"]): own for own in kept("moves.json.gz")}
ERASURE = 3


def source(group: str, count: int) -> str:
    """The group, of a pool of so many, that was split into a group (Ceph, `ceph_stable_mod`)."""
    pool, number = group.split(".")
    bits = len(bin(count - 1)) - 2
    low = int(number, 16) % 2**bits
    return f"{pool}.{low if low < count else low % 2 ** (bits - 1):x}"


def steps_of(record: Json) -> dict[str, list[tuple[int | None, int | None]]]:
    """From which OSD to which data goes, group by group: at each place of an erasure pool, and of a replicated one from
    those that leave to those that come."""
    old = {pool["pool"]: pool for pool in record["osd_dump"]["pools"]}
    found: dict[str, list[tuple[int | None, int | None]]] = {}
    for group, (now, _) in record["new_up"].items():
        pool = old[int(group.split(".")[0])]
        was = record["up"][source(group, pool["pg_num"])][0]
        if pool["type"] == ERASURE:
            found[group] = [pair for pair in zipped(was, now) if pair[0] != pair[1]]
        else:
            gone, come = [osd for osd in was if osd not in now], [osd for osd in now if osd not in was]
            found[group] = list(itertools.zip_longest(gone, come))
    return found


def by(way: str, step: Json) -> Json:
    """A step of a rule that chooses, in one of the two ways."""
    return [step[0].replace("firstn", way), *step[1:]]


class Moving(ToolCase):
    """Each change."""

    def files(self, record: Json) -> list[pathlib.Path]:
        """The dumps before and after it."""
        keys = ("osd_dump", "crush_dump", "new_osd_dump", "new_crush_dump")
        return [self.tools.put(key, record[key]) for key in keys]

    def moves_so(self, told: Json, record: Json, what: object) -> None:
        """Asks that what moves is told as the monitor has it."""
        steps = steps_of(record)
        moved = [group for group, own in steps.items() if own]
        pairs = collections.Counter(pair for own in steps.values() for pair in own if None not in pair)
        self.assertTrue(moved, what)
        self.assertEqual(told["groups"], len(moved), what)
        places = sum(own[1] is not None for group in moved for own in steps[group])
        self.assertEqual(told["places"], places, what)
        self.assertEqual({(own[0], own[1]): own[2] for own in told["flows"]}, pairs, what)

    def test_diff(self) -> None:
        """Between two dumps: places of erasure pools count one by one, replicated ones as sets, and a group that comes
        by a split has its data where the one is that was split."""
        for key, record in RECORDS.items():
            with self.subTest(key=key):
                self.moves_so(self.json("diff", *self.files(record)), record, key)

    def test_figures(self) -> None:
        """What was counted by hand of the monitor's sets: more places than sets tell where OSDs change places."""
        for key, groups, places in (("d_fourlevels", 59, 100), ("six_hosts", 182, 230)):
            told = self.json("diff", *self.files(RECORDS[key, "weight"]))
            self.assertEqual((told["groups"], told["places"]), (groups, places), key)

    def test_whatif(self) -> None:
        """The same by the words of `whatif`: a host that weighs twice as much, and a pool that grows."""
        heavy, grown = RECORDS["d_fourlevels", "weight"], RECORDS["b_shrink", "grow"]
        words = ["--weight", f"d0r0h0={1192230 / 65536}"]
        self.moves_so(self.json("whatif", *self.files(heavy)[:2], *words), heavy, words)
        pool = grown["new_osd_dump"]["pools"][-1]
        growth = [pool["pool"], pool["pg_num"], pool["pg_placement_num"]]
        self.assertNotEqual(grown["osd_dump"]["pools"][-1]["pg_num"], pool["pg_num"])
        told = self.json("whatif", *self.files(grown)[:2], json.dumps({"grow_pool": [growth]}))
        self.moves_so(told, grown, growth)

    def test_order_alone(self) -> None:
        """A replicated group whose order alone changes does not move; an erasure group then moves at both places."""
        value = self.tools.map("002-built")
        for kind, groups, places in (("replicated", 0, 0), ("erasure", 1, 2)):
            with self.subTest(kind=kind):
                pool = dict(value["pools"][0], kind=kind)
                way = {"replicated": "firstn", "erasure": "indep"}[kind]
                rules = [
                    dict(rule, kind=kind, steps=[by(way, step) for step in rule["steps"]]) for rule in value["rules"]
                ]
                old = dict(value, pools=[pool], rules=rules, pg_upmap=[], pg_upmap_items=[])
                one, two, *rest = json.loads(self.tools.sets(old)[f"{pool['id']}.4"].split(" ")[0])
                new = dict(old, pg_upmap=[[f"{pool['id']}.4", [two, one, *rest]]])
                told = self.json("diff", self.tools.put("old", old), self.tools.put("new", new))
                self.assertEqual((told["groups"], told["places"]), (groups, places))
                self.assertEqual(told["flows"], sorted([[one, two, 1], [two, one, 1]])[: 2 * groups])
