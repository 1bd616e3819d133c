"""The bytes that `release` and `drain` move, and how full OSDs get by them: beside what groups are made to hold."""

from __future__ import annotations

import json
import pathlib
import random
from collections.abc import Iterable

from tests.clusters import STOCK, Json, bucket_of, commands, exceptions_told
from tests.drains import BUILT, Sets, come_in, reweighted, weights_of
from tests.holds import RECORDS, WEIGHT, sets_of
from tests.tool_cases import StockCase

GIB = 2**30
HOSTS = ("node1", "node2", "node3")


def groups_in(own: Json) -> list[str]:
    """All groups of a cluster."""
    return [f"{pool['pool']}.{at:x}" for pool in own["osd_dump"]["pools"] for at in range(pool["pg_num"])]


def held(sets: Sets, sizes: dict[str, int]) -> dict[int, int]:
    """What each OSD has."""
    found: dict[int, int] = {}
    for group, places in sets.items():
        for osd in places:
            if osd is not None:
                found[osd] = found.get(osd, 0) + sizes[group]
    return found


class MovedBytes(StockCase):
    """A cluster of three hosts, whose groups hold from one GiB to nine."""

    own: Json
    sizes: dict[str, int]

    def setUp(self) -> None:
        super().setUp()
        self.own, rng = STOCK[BUILT], random.Random(7)
        self.sizes = {group: rng.randint(1, 9) * GIB for group in groups_in(self.own)}
        self.files = self.dumps(BUILT)
        self.pgs = self.put_pgs(self.sizes)

    def put_pgs(self, sizes: dict[str, int]) -> pathlib.Path:
        """What `ceph pg dump` tells of the groups."""
        stats = [{"pgid": group, "stat_sum": {"num_bytes": size}} for group, size in sizes.items()]
        return self.tools.put("pgs", {"pg_map": {"pg_stats": stats}})

    def sets_under(self, change: Iterable[str], lines: list[str]) -> Sets:
        """The sets once OSDs have other weights and groups other pairs."""
        crush = reweighted(self.own["crush_dump"], weights_of(list(change)))
        last = (line.split(" ") for line in {line.split(" ")[3]: line for line in lines}.values())
        pairs = [(words[3], [(int(a), int(b)) for a, b in zip(words[4::2], words[5::2])]) for words in last]
        dump = dict(self.own["osd_dump"], pg_upmap_items=exceptions_told((), pairs)["pg_upmap_items"])
        files = self.tools.put("asked-osd", dump), self.tools.put("asked-crush", crush)
        return sets_of(super().sets(json.loads(self.output("import", *files))))

    def shares(self) -> dict[int, float]:
        """What each OSD is to have without osd.7: a third of all on each host, evenly on its OSDs."""
        found: dict[int, float] = {}
        for host in HOSTS:
            osds = [item["id"] for item in bucket_of(self.own, host)["items"] if item["id"] != 7]
            found.update({osd: sum(self.sizes.values()) / len(osds) for osd in osds})
        return found

    def test_drain(self) -> None:
        """What the parts of a drain move in bytes, and how full OSDs get to what they are to have: by what the program
        says of the sets, before them, after them and meanwhile."""
        told = self.json("drain", *self.files, "osd.7", "--batch", 20, "--pgs", self.pgs)
        lines, was, high = list(told["begin"]["commands"]), self.sets_under([], []), list[tuple[float, int]]()
        first, share = was, self.shares()
        for part in told["parts"]:
            lines += part["commands"]
            now = self.sets_under(told["begin"]["change"], lines)
            come = come_in(self.own, was, now)
            self.assertEqual(part["moving"]["bytes"], sum(self.sizes[group] for group, _ in come))
            full = held(was, self.sizes)
            for group, osd in come:
                full[osd] += self.sizes[group]
            high += [(full[osd] / share[osd], -osd) for _, osd in come]
            was = now
        total = 3 * sum(self.sizes.values())
        self.assertAlmostEqual(told["moving"]["share"], told["moving"]["bytes"] / total, delta=1e-9)
        for key, sets in (("before", first), ("after", was)):
            has = held(sets, self.sizes)
            osd = max(share, key=lambda osd: (has[osd] / share[osd], -osd))
            fullest = told["data"][key]["fullest"]
            self.assertEqual((fullest["id"], fullest["has"]), (osd, has[osd]), key)
            self.assertAlmostEqual(fullest["share"], share[osd], delta=1)
        ratio, osd = max(high)
        self.assertEqual(told["data"]["peak"], {"osd": -osd, "ratio": round(ratio, 4)})

    def test_by_data(self) -> None:
        """Where it is known what groups hold, they go to where OSDs have least data: the fullest has no more than where
        they go by groups, and neither has more than the other would tell. Both are told in words."""
        words = ["drain", *self.files, "osd.7"]
        by_bytes, by_groups = self.json(*words, "--pgs", self.pgs), self.json(*words)
        self.assertIsNone(by_groups["data"])
        self.assertIsNone(by_groups["moving"]["bytes"])
        lines = by_groups["begin"]["commands"] + [line for part in by_groups["parts"] for line in part["commands"]]
        has, share = held(self.sets_under(by_groups["begin"]["change"], lines), self.sizes), self.shares()
        most = max(has[osd] / share[osd] for osd in share)
        self.assertLess(by_bytes["data"]["after"]["fullest"]["ratio"], most)
        self.assertGreater(by_bytes["fullest"]["after"]["fullest"]["ratio"], 1)
        output, error = self.ran(*words, "--pgs", self.pgs)
        size = by_bytes["moving"]["bytes"] / GIB
        self.assertIn(f", each group once; some {size:.1f} GiB, {100 * by_bytes['moving']['share']:.2f} % of ", error)
        fullest = by_bytes["data"]["after"]["fullest"]
        self.assertIn(f"by bytes: fullest osd.{fullest['id']} with {fullest['has'] / GIB:.1f} GiB of a share of", error)
        self.assertIn(f"by bytes meanwhile osd.{by_bytes['data']['peak']['osd']} has ", error)
        self.assertIn(f"some {size:.1f} GiB, ", output)

    def test_release(self) -> None:
        """So does a release, part by part; its commands are those of one that knows nothing of the data."""
        self.own = RECORDS[WEIGHT]
        dump = {**self.own["new_osd_dump"], **exceptions_told(**self.own["kept"])}
        files = self.tools.put("held", dump), self.tools.put("crush", self.own["new_crush_dump"])
        sizes = {group: (at % 7 + 1) * GIB for at, group in enumerate(groups_in(self.own))}
        erasure = [pool for pool in dump["pools"] if pool["type"] == 3]
        self.assertEqual(erasure, [])
        words = ["release", *files, "--pgs", self.put_pgs(sizes)]
        told, plain = self.json(*words, "--batch", 10), self.json("release", *files)
        lines = [line for part in told["parts"] for line in part["commands"]]
        self.assertEqual(sorted(lines), sorted(plain["parts"][0]["commands"]))
        self.assertIsNone(plain["data"])
        was = {group: entry[0] for group, entry in self.own["up"].items()}
        was.update({group: entry[0] for group, entry in self.own["held_up"].items()})
        bare = dict(dump, pg_upmap=[], pg_upmap_items=[])
        to = sets_of(self.tools.sets(json.loads(self.output("import", self.tools.put("b", bare), files[1])), "--stock"))
        moved = sum(sizes[group] for group, _ in come_in({"osd_dump": dump}, was, to))
        self.assertEqual(told["moving"]["bytes"], moved)
        self.assertEqual(sum(part["moving"]["bytes"] for part in told["parts"]), moved)
        for key, sets in (("before", was), ("after", to)):
            fullest = told["data"][key]["fullest"]
            self.assertEqual(fullest["has"], held(sets, sizes)[fullest["id"]], key)
        output, error = self.ran(*words)
        self.assertIn(f", each group once; some {moved / 2**40:.1f} TiB, ", error)
        self.assertEqual(sorted(commands(output)), sorted(lines))

    def test_other_files(self) -> None:
        """A file that lacks a group or a pool of the cluster is of another one, and nothing is put out."""
        few = self.put_pgs({group: size for group, size in self.sizes.items() if group != "2.0"})
        pools = [{"id": 1, "name": "x", "stats": {"stored": 1, "bytes_used": 1}}]
        df = self.tools.put("df", {"stats": {"total_bytes": 1}, "pools": pools})
        for command in (["drain", *self.files, "osd.7"], ["release", *self.files]):
            self.is_told(self.tools.run(*command, "--pgs", few), 1, f"{few}: no group 2.0", command)
            status, output, error = self.tools.run(*command, "--df", df)
            self.assertEqual((status, output), (1, ""))
            self.assertIn(f"{df}: no pool 2", error)

    def test_fuller_by_a_plan(self) -> None:
        """Where the fullest OSD by bytes would be fuller by `--to-plan`, that is told, and refused without --anyway;
        where it would not, nothing of it is told."""
        self.own = RECORDS[WEIGHT]
        dump = {**self.own["new_osd_dump"], **exceptions_told(**self.own["kept"])}
        files = self.tools.put("held", dump), self.tools.put("crush", self.own["new_crush_dump"])
        seen = set[bool]()
        for seed in range(12):
            rng = random.Random(seed)
            sizes = {group: rng.choice((1, 1, 1, 30)) * GIB for group in groups_in(self.own)}
            words = ["release", *files, "--to-plan", "--pgs", self.put_pgs(sizes)]
            told = self.json(*words, "--anyway")["data"]
            before, after = (round(told[key]["fullest"]["ratio"], 2) for key in ("before", "after"))
            if after > before:
                line = (
                    f"by bytes the fullest OSD has {before:.2f} of its share, and would have {after:.2f} by this plan"
                )
                status, output, error = self.tools.run(*words)
                self.assertEqual((status, output), (1, ""), error)
                self.assertIn(line, error)
                self.assertIn("nothing is released: --anyway does it nonetheless", error)
            elif False not in seen:
                self.assertNotIn("by this plan", self.ran(*words)[1])
            seen.add(after > before)
            if len(seen) == 2:
                return
        self.fail(f"all plans are alike: {seen}")
