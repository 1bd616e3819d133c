"""Plans of clusters whose failure domains are unequal, so that rules cannot give OSDs what they weigh.

unequal.json.gz has four such clusters as a real monitor of Ceph 16.2.15 dumped them, each with what `ceph df` would
tell of made-up data: few hosts, datacenters, and three racks of which one is small. unequal_drawn.json.gz has two that
are drawn: four hosts, over which the best plan by data was followed by one that went another way, and three.
"""

from __future__ import annotations

import json
import pathlib
from collections.abc import Iterable, Mapping

from tests.clusters import Json, below, commands, kept, places, with_commands
from tests.tool_cases import StockCase
from tests.whole_maps import item_weights, reweights_of, steps_for

CLUSTERS, DRAWN = kept("unequal.json.gz"), kept("unequal_drawn.json.gz")
# How near the best plan the one that is printed is, by the fullest OSD.
NEAR = 1.02


def fullest(has: Mapping[int, float], share: Mapping[int, float]) -> float:
    """The greatest ratio to its share, of OSDs that weigh for half a place or more."""
    return max(has.get(osd, 0) / own for osd, own in share.items())


class Beside:
    """A map beside what its OSDs weigh: what pools hold, and their trees."""

    def __init__(self, value: Json, df: Json) -> None:
        self.value, self.used = value, {own["id"]: own["stats"]["bytes_used"] for own in df["pools"]}
        self.items, self.size = item_weights(value), df["stats"]["total_bytes"]
        reweights = reweights_of(value)
        self.trees = {
            pool["id"]: {
                osd: self.items[osd] * reweights[osd]
                for step in steps_for(value, pool)
                if step[0] == "take"
                for osd in below(value, step[1])
                if reweights.get(osd) and self.items[osd]
            }
            for pool in value["pools"]
        }

    def disks(self) -> dict[int, int]:
        """What OSDs weigh, reweights aside."""
        return {osd: own for osd, own in self.items.items() if osd >= 0}

    def held(self, sets: Mapping[str, str], is_bytes: bool) -> tuple[dict[int, float], dict[int, float]]:
        """What OSDs have, and their shares by weight, in bytes or in groups."""
        has, share = dict[int, float](), dict[int, float]()
        for pool in self.value["pools"]:
            number, tree = pool["id"], self.trees[pool["id"]]
            own = [osd for group, up in sets.items() if group.startswith(f"{number}.") for osd in places(up)]
            one = self.used[number] / (pool["pg_num"] * pool["size"]) if is_bytes else 1.0
            for osd in own:
                has[osd] = has.get(osd, 0.0) + one
            for osd, weight in tree.items():
                share[osd] = share.get(osd, 0.0) + one * len(own) * weight / sum(tree.values())
        return has, share

    def rooms(self, sets: Mapping[str, str]) -> dict[int, float]:
        """What all OSDs of each pool may take until its first is full, by the weights of OSDs (MAX AVAIL times the
        size of the pool)."""
        has, unit = self.held(sets, True)[0], self.size / sum(own for osd, own in self.items.items() if osd >= 0)
        found = dict[int, float]()
        for number, tree in self.trees.items():
            total = sum(self.items[osd] for osd in tree)
            left = ((0.95 * self.items[osd] * unit - has.get(osd, 0.0)) / self.items[osd] for osd in tree)
            found[number] = max(min(left) * total, 0.0)
        return found


class Unequal(StockCase):
    """The four clusters."""

    def brought_in(self, name: str) -> tuple[list[object], list[object], Beside]:
        """The dumps of a cluster, the words that tell what it holds, and what it is beside its weights."""
        own = {**CLUSTERS, **DRAWN}[name]
        files = self.dumps(name, own)
        beside = Beside(json.loads(self.output("import", *files)), own["df"])
        return list(files), ["--df", self.tools.put(f"{name}-df", own["df"])], beside

    def after(self, beside: Beside, lines: Iterable[str]) -> dict[str, str]:
        """The sets once commands are given."""
        return self.sets(with_commands(beside.value, lines))

    def less(self, before: Mapping[int, float], after: Mapping[int, float]) -> list[int]:
        """The pools that may take less than before, by more than a thousandth."""
        return [number for number, room in before.items() if after[number] < 0.999 * room]

    def test_no_plan_takes_room(self) -> None:
        """By no option a pool may take less after a plan than before it, in a cluster that has as much room as plans
        find; nor does a part of a plan take any. Without the promise a plan does."""
        ways: list[list[object]] = [[], ["--by-reach"], ["--by-weight"], ["--alone"], ["--room"], ["--max", 3]]
        ways.append(["--by-reach", "--anyway"])
        taken = 0
        for name in ("three-hosts", "small-rack"):
            files, words, beside = self.brought_in(name)
            lines = commands(self.output("plan", *files, *words, "--room"))
            made, crush = self.tools.put("made", given(CLUSTERS[name]["osd_dump"], lines)), files[1]
            start = self.after(beside, lines)
            there = beside.rooms(start)
            value = with_commands(beside.value, lines)
            for own in ways:
                more = commands(self.output("plan", made, crush, *words, *own))
                less = self.less(there, beside.rooms(self.sets(with_commands(value, more))))
                taken += bool(less)
                with self.subTest(name=name, words=own):
                    self.assertTrue(not less or "--anyway" in own, less)
        self.assertGreater(taken, 0)

    def test_best_of_plans(self) -> None:
        """The plan that is printed leaves no OSD fuller than the one by reach or by weight does, by more than a
        fiftieth: by bytes where they are known, else by groups. It tells of each, as it is."""
        for name in CLUSTERS:
            files, words, beside = self.brought_in(name)
            options = [words] if name in ("datacenters", "small-rack") else [words[:0], words]
            for own in options:
                told, found = self.json("plan", *files, *own), dict[str, float]()
                for way in ("reach", "weight"):
                    lines = commands(self.output("plan", *files, *own, f"--by-{way}"))
                    found[way] = fullest(*beside.held(self.after(beside, lines), bool(own)))
                best = fullest(*beside.held(self.after(beside, told["commands"]), bool(own)))
                ways = {way["by"]: way["bytes" if own else "groups"] for way in told["shares"]["ways"]}
                with self.subTest(name=name, words=own):
                    self.assertLessEqual(best, NEAR * min(found.values()) * (1 + 1e-3), (best, found))
                    self.assertLessEqual(told["shares"]["least"], best + 1e-3)
                    self.assertGreaterEqual(min(told["shares"]["least"], told["cluster"]["least"]), 0.9999)
                    self.assertAlmostEqual(ways[told["shares"]["by"]], best, delta=0.005 * best)

    def test_goes_on(self) -> None:
        """Where a plan over the best of several would go by other shares, the first has that too, and tells so: a
        plan over it is empty. No OSD is fuller than after the best of several, by more than a fiftieth, and no pool may
        take less."""
        files, words, beside = self.brought_in("four-hosts")
        told = self.json("plan", *files, *words)
        made = self.tools.put("made", given(DRAWN["four-hosts"]["osd_dump"], told["commands"]))
        self.assertEqual(self.json("plan", made, files[1], *words)["commands"], [])
        last = told["shares"]["ways"][-1]
        self.assertIn(", then ", told["shares"]["by"])
        self.assertEqual((last["by"], len(told["shares"]["ways"])), (told["shares"]["by"], 4))
        start, end = self.after(beside, []), self.after(beside, told["commands"])
        full = [fullest(*beside.held(end, is_bytes)) for is_bytes in (True, False)]
        self.assertLessEqual(full[0], NEAR * min(way["bytes"] for way in told["shares"]["ways"]), full)
        self.assertAlmostEqual(last["bytes"], full[0], delta=0.001 * full[0])
        self.assertAlmostEqual(last["groups"], full[1], delta=0.001 * full[1])
        self.assertLess(full[1], fullest(*beside.held(start, False)))
        self.assertEqual(self.less(beside.rooms(start), beside.rooms(end)), [])

    def test_small_disks(self) -> None:
        """Three hosts have one place each of each of 80 groups, though one has 4 of 25 parts of the weight. Of its 4
        disks, which are the fullest, none has more than 20 places after a plan, and a plan over that is empty."""
        files, _, beside = self.brought_in("small-disks")
        told = self.json("plan", *files)
        has, share = beside.held(self.after(beside, told["commands"]), False)
        self.assertEqual([has[osd] for osd in range(4)], [20.0] * 4)
        self.assertAlmostEqual(fullest(has, share), 20 / 9.6, places=9)
        made = self.tools.put("made", given(DRAWN["small-disks"]["osd_dump"], told["commands"]))
        self.assertEqual(self.json("plan", made, files[1])["commands"], [])

    def osds_of(self, name: str, beside: Beside) -> pathlib.Path:
        """What `ceph osd df` prints where disks are as large as they weigh, and hold what pools have there alone."""
        has, unit = beside.held(self.after(beside, []), True)[0], beside.size / sum(beside.disks().values()) / 1024
        rows = [(osd, round(own * unit), round(has.get(osd, 0) / 1024)) for osd, own in beside.disks().items()]
        nodes = [{"id": osd, "kb": kb, "kb_used": used, "kb_avail": kb - used} for osd, kb, used in rows]
        return self.tools.put(f"{name}-osds", {"nodes": nodes})

    def test_disks(self) -> None:
        """Where disks are as large as they weigh, a plan that knows them leaves groups and bytes as even as one that
        knows the data alone, by about as many commands."""
        for name in ("few-hosts", "three-hosts"):
            files, words, beside = self.brought_in(name)
            found: list[list[float]] = []
            ways: list[list[object]] = [[], ["--osds", self.osds_of(name, beside)]]
            for own in ways:
                told = self.json("plan", *files, *words, "--by-reach", *own)
                sets = self.after(beside, told["commands"])
                full = [fullest(*beside.held(sets, is_bytes)) for is_bytes in (True, False)]
                found.append([*full, len(told["commands"])])
            with self.subTest(name=name):
                for alone, with_disks in zip(*found):
                    self.assertLessEqual(with_disks, alone * 1.1 + 0.02, found)

    def test_told_ways(self) -> None:
        """Standard error tells by which shares a plan goes, and what the others are worth."""
        files, words, _ = self.brought_in("three-hosts")
        error = self.ran("plan", *files, *words)[1]
        self.assertRegex(
            error, r"cluster shares: the plan goes by weight; .* by reach 1\.[0-9]+ by bytes, .* by weight 1"
        )
        for own in ("--by-reach", "--by-weight", "--alone"):
            self.assertNotIn("cluster shares", self.ran("plan", *files, *words, own)[1])
        self.assertIn("do not go together", self.ran("plan", *files, "--by-reach", "--by-weight", status=2)[1])


def given(osd_dump: Json, lines: Iterable[str]) -> Json:
    """An OSD dump without exceptions of its own, once commands are given."""
    items = [{"pgid": line.split()[3], "mappings": [{"from": a, "to": b} for a, b in pairs_in(line)]} for line in lines]
    return dict(osd_dump, pg_upmap_items=items)


def pairs_in(line: str) -> list[tuple[int, int]]:
    """The pairs of a command."""
    numbers = list(map(int, line.split()[4:]))
    return list(zip(numbers[::2], numbers[1::2]))
