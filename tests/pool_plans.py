"""Plans of pools over clusters of Ceph's and over small random maps, whose plans are reckoned by brute force
(plans.py)."""

from __future__ import annotations

import json
import random
import stat
from fractions import Fraction

from tests import plans
from tests.clusters import (
    CLUSTERS,
    Json,
    commands,
    copied,
    of_groups,
    places,
    pool_lines,
    pooled,
    raised,
    uneven,
    with_commands,
    with_groups,
)
from tests.tool_cases import AS_MONITOR, ToolCase, Tools


def cleaned(value: Json, raw: dict[str, list[int]]) -> Json:
    """A map as Ceph's monitor leaves it (Ceph, OSDMap.cc `check_pg_upmaps`): pairs stay whose first OSD stands in what
    the rule gives."""
    items = [[group, [pair for pair in pairs if pair[0] in raw[group]]] for group, pairs in value["pg_upmap_items"]]
    return dict(value, pg_upmap_items=[entry for entry in items if entry[1]])


def farthest(value: Json, host_of: dict[int, int], weight_of: dict[int, int], mapped: list[list[int]]) -> Fraction:
    """How many groups the candidate that is farthest off is from its share."""
    osds = {osd["id"]: osd for osd in value["osds"]}
    weights = {osd: weight_of[osd] * osds[osd]["weight"] for osd in host_of if osds[osd]["up"] and osds[osd]["weight"]}
    counts = {osd: sum(osd in own for own in mapped) for osd in weights}
    total, groups = sum(weights.values()), sum(counts.values())
    return max((abs(counts[osd] - Fraction(groups * weights[osd], total)) for osd in weights), default=Fraction(0))


def inner(script: str) -> str:
    """A script without what it is made of, which stands before its line on the balancer, and without the sum of all."""
    return script[script.index("# before: ") :].partition("# rekhuso: end, ")[0]


class PoolPlans(ToolCase):
    """What `plan` does of a pool."""

    def test_explicit_sets(self) -> None:
        """An explicit set goes before a plan's pairs come, and Ceph's monitor finds nothing to clean in them."""
        osd_dump, crush_dump = uneven()
        osd, crush = self.tools.put("o", osd_dump), self.tools.put("c", crush_dump)
        status, output, error = self.tools.run("import", osd, crush)
        self.assertEqual(status, 0, error)
        value = json.loads(output)
        status, output, error = self.tools.run("plan", osd, crush, "--alone")
        self.assertEqual(status, 0, error)
        lines, of = commands(output), of_groups(commands(output))
        pinned = {group for group, _ in value["pg_upmap"]} & of.keys()
        self.assertGreater(len(pinned), 10)
        for group in pinned:
            self.assertIn(of[group], (["rm-pg-upmap", "pg-upmap-items"], ["pg-upmap"], ["rm-pg-upmap"]))
        after = with_commands(value, lines)
        dump = json.loads(self.tools.answers(value, ["balance 1 1024", "dump"])[1].removeprefix("dump "))
        raw = {
            group: places(answer)
            for group, answer in self.tools.sets(dict(value, pg_upmap=[], pg_upmap_items=[])).items()
        }
        self.assertEqual(self.tools.sets(after), self.tools.sets(dump))
        self.assertEqual(cleaned(after, raw), after)
        status, page, error = self.tools.run("report", self.tools.put("m", value))
        self.assertEqual(status, 0, error)
        self.assertIn("<pre>" + "\n".join(commands(self.tools.run("plan", "m")[1])) + "</pre>", page, error)

    def test_idle_sets(self) -> None:
        """An explicit set that does nothing in Ceph, as its OSD is not there, goes before a plan's pairs come, which it
        would keep idle."""
        own = copied(CLUSTERS["002-built"])
        osd, crush = self.tools.put("o", own["osd_dump"]), self.tools.put("c", own["crush_dump"])
        plain = commands(self.tools.run("plan", osd, crush)[1])
        groups = [group for group, words in of_groups(plain).items() if words == ["pg-upmap-items"]]
        own["osd_dump"].update(
            max_osd=13, pg_upmap=[{"pgid": group, "osds": [0, 3, 12]} for group in groups[:3] + ["1.ff"]]
        )
        osd = self.tools.put("o", own["osd_dump"])
        self.assertEqual(self.tools.run("plan", osd, crush)[0], 1)
        status, output, error = self.tools.run("plan", osd, crush, "--unmatched")
        self.assertEqual(status, 0, error)
        self.assertIn("taken as out: ", error)
        of = of_groups(commands(output))
        self.assertGreater(len(groups), 3, of)
        self.assertTrue(all(of[group] == ["rm-pg-upmap", "pg-upmap-items"] for group in groups[:3]), of)
        self.assertEqual([line for line in commands(output) if " rm-pg-upmap " not in line], plain)
        self.assertEqual(len(commands(output)), len(plain) + 3)

    def test_uses(self) -> None:
        """A number of commands or moves that is none, a deviation that is none or has no plan, and a third file are
        errors of use."""
        path = self.tools.put("m", self.tools.map("009-classes"))
        wrong = [("--first", word) for word in ("0", "-1", "many")] + [
            ("--deviation", word) for word in ("-1", "x", "1/0", "0.49", "65537")
        ]
        for words in [*wrong, ("--first", "1025", "--alone"), ("--deviation", "65537", "--alone")]:
            with self.subTest(words=words):
                status, output, error = self.tools.run("plan", path, *words)
                self.assertEqual((status, output), (2, ""), (words, status, error))
                self.assertIn(words[0], error, (words, status, error))
                self.assertNotIn("Traceback", error, (words, status, error))
        status, output, error = self.tools.run("plan", path, path, path)
        self.assertEqual((status, output), (2, ""), error)
        self.assertIn("one map, or two dumps", error)

    def test_names(self) -> None:
        """A pool is chosen by its id or by its name, which a map has from a file of names and dumps have themselves."""
        dumps, name = self.tools.dumps("002-built"), CLUSTERS["002-built"]["osd_dump"]["pools"][0]["pool_name"]
        status, output, error = self.tools.run("import", *dumps, "--names", "names")
        self.assertEqual(status, 0, error)
        path = self.tools.put("m", output)
        by_id = self.tools.run("plan", path, "--of-pool", "1", "--no-guard")
        self.assertEqual(by_id[0], 0)
        self.assertTrue(by_id[1], by_id)
        self.assertStarts(pool_lines(by_id[2])[0], "pool 1: ")
        named = self.tools.run("plan", path, "--names", "names", "--of-pool", name)
        self.assertEqual(commands(named[1]), commands(by_id[1]))
        self.assertEqual(named[2], by_id[2].replace("pool 1: ", f"{name}: "))
        of_dumps = self.tools.run("plan", *dumps, "--of-pool", name, "--no-guard")
        self.assertEqual((commands(of_dumps[1]), of_dumps[2]), (commands(by_id[1]), named[2]))
        # A map does not tell which release clients have, so its script says when not to set one.
        unsure = [line for line in by_id[1].splitlines(keepends=True) if "get-require-min-compat-client" in line]
        self.assertEqual(len(unsure), 1)
        told, wanted = (inner(script) for script in (of_dumps[1], by_id[1]))
        self.assertEqual(told.replace(f"  {name}\n", "  pool 1\n"), wanted.replace(unsure[0], ""))
        bare = {key: value for key, value in json.loads(output).items() if not key.startswith("pg_upmap")}
        for words in ((), ("--deviation", "1")):
            with self.subTest(words=words):
                given = [self.tools.put("bare", bare), path]
                runs = [self.tools.run("plan", one, *words) for one in given]
                of_bare, of_whole = ((code, inner(script), why) for code, script, why in runs)
                self.assertEqual(of_bare, of_whole)
        for words in (("--of-pool", name), ("--names", "names", "--of-pool", "nobody"), ("--of-pool", "2")):
            with self.subTest(words=words):
                status, output, error = self.tools.run("plan", path, *words)
                self.assertEqual((status, output, error), (1, "", f"no pool {words[-1]}\n"))

    def test_one_session(self) -> None:
        """A plan, of a map or of two dumps, whole or shortened, and `net` and `df` ask one live session each."""
        counting = self.tools.put(
            "counting", f'{AS_MONITOR}echo start >> {self.tools.folder}/starts\nexec {self.tools.program} "$@"\n'
        )
        counting.chmod(counting.stat().st_mode | stat.S_IXUSR)
        path = self.tools.put("m", dict(self.tools.map("009-classes"), pg_upmap_items=[["1.0", [[0, 1], [1, 0]]]]))
        counted = Tools(counting, self.tools.folder)
        for words in (
            ("plan", path),
            ("plan", path, "--deviation", "1", "--alone"),
            ("plan", *self.tools.dumps("009-classes")),
            ("net", path),
            ("net", path, "--ceph"),
            ("df", path),
        ):
            with self.subTest(words=words):
                self.tools.put("starts", "")
                status, _, error = counted.run(*words)
                self.assertEqual(status, 0, (words, error))
                self.assertEqual((self.tools.folder / "starts").read_text(), "start\n", (words, error))

    def test_deviation(self) -> None:
        """A pool's plan by itself with a deviation is the shortest beginning of the greedy plan, reckoned by brute
        force, that comes so near, beside --first."""
        rng, lengths = random.Random(5), set()
        for case in range(10):
            value, host_of, rack_of, weight_of = plans.random_map(rng)
            most, limit = rng.choice(["0.5", "1", "1.25", "2"]), rng.choice([1, 1024])
            whole, _ = plans.plan(value, host_of, rack_of, weight_of, 1024)
            steps = [plans.plan(value, host_of, rack_of, weight_of, moves) for moves in range(whole + 1)]
            near = [moves for moves, mapped in steps if farthest(value, host_of, weight_of, mapped) <= Fraction(most)]
            wanted = min(near[0] if near else whole, limit)
            lengths.add((wanted, whole))
            status, output, error = self.tools.run(
                "plan", self.tools.put("m", value), "--alone", "--deviation", most, "--first", limit, "--anyway"
            )
            self.assertEqual(status, 0, (case, wanted, error))
            self.assertStarts(
                pool_lines(error)[0], f"pool 1: {wanted} move{'s' * (wanted != 1)} of ", (case, wanted, error)
            )
            self.assertIn(f"{whole} in the whole plan", error)
            self.assertIn(
                f"; {near[0]} move{'s come' if near[0] != 1 else ' comes'} within {most} of"
                if near
                else f"does not come within {most} of",
                error,
            )
            after = with_commands(value, commands(output))
            found = self.tools.sets(raised(after))
            self.assertEqual([places(found[group]) for group, _ in value["pg_upmap"]], steps[wanted][1], case)
        self.assertTrue(any(0 < wanted < whole for wanted, whole in lengths), lengths)
        self.assertTrue(any(wanted == 0 for wanted, _ in lengths), lengths)

    def test_deviation_of_a_cluster(self) -> None:
        """Over 48 OSDs a pool's plan by itself with a deviation of 5 comes within 5 groups of each share, and without
        its last move it would not."""
        status, output, error = self.tools.run("plan", *self.tools.dumps("001-built"), "--alone", "--deviation", "5")
        self.assertEqual(status, 0, error)
        self.assertIn("moves come within 5 of each share, 214 in the whole plan", error)
        moves, value = int(error.split(" moves of ")[0].split(" ")[-1]), self.tools.map("001-built")
        counts = {}
        for given in (moves - 1, moves):
            own = json.loads(self.tools.answers(value, [f"balance 1 {given}", "dump"])[1].removeprefix("dump "))
            sets = self.tools.sets(own)
            found = [osd for answer in sets.values() for osd in places(answer)]
            counts[given] = max(abs(found.count(osd) - len(found) / 48) for osd in range(48))
        self.assertLessEqual(counts[moves], 5)
        self.assertGreater(counts[moves - 1], 5)
        self.assertEqual(self.tools.sets(with_commands(value, commands(output))), sets, counts)

    def test_several_pools(self) -> None:
        """Plans of two and three pools by themselves leave each of them even, and of one pool leave the others as they
        are."""
        for count in (2, 3):
            with self.subTest(count=count):
                osd_dump, crush_dump = pooled(count)
                osd, crush = self.tools.put("o", osd_dump), self.tools.put("c", crush_dump)
                value = json.loads(self.tools.run("import", osd, crush)[1])
                ids = [pool["id"] for pool in value["pools"]]
                status, output, error = self.tools.run("plan", osd, crush, "--alone")
                self.assertEqual(status, 0, error)
                self.assertEqual(
                    [line.split(":")[0] for line in pool_lines(error)], [f"pool{number}" for number in ids]
                )
                after = with_commands(value, commands(output))
                balances = [f"balance {number} 1024" for number in ids]
                dump = json.loads(self.tools.answers(value, balances + ["dump"])[-1].removeprefix("dump "))
                self.assertEqual(self.tools.sets(after), self.tools.sets(dump))
                self.assertEqual({int(group.split(".")[0]) for group in of_groups(commands(output))}, set(ids))
                self.assertTrue(all(answer.startswith("moved 0 ") for answer in self.tools.answers(after, balances)))
                status, output, error = self.tools.run("plan", osd, crush, "--of-pool", "pool7", "--deviation", "1")
                self.assertEqual(status, 0, error)
                self.assertTrue(output, error)
                self.assertTrue(all(group.startswith("7.") for group in of_groups(commands(output))), error)
        status, output, error = self.tools.run("plan", osd, crush, "--of-pool", "40", "--of-pool", "pool1")
        self.assertEqual(status, 0, error)
        self.assertEqual({group.split(".")[0] for group in of_groups(commands(output))}, {"1", "40"}, error)

    def test_pools_by_words(self) -> None:
        """`--of-pool` and `--pools` mean the same pools by the same words: ids, names, and names that have commas
        themselves; what may be both is an id."""
        own = copied(CLUSTERS["001-built"])
        first = own["osd_dump"]["pools"][0]
        names = {5: "plain", 6: "with,commas", 7: "5"}
        own["osd_dump"]["pools"] = [
            dict(with_groups(first, 4), pool=number, pool_name=name) for number, name in names.items()
        ]
        for key in ("pg_upmap", "pg_upmap_items"):
            with self.subTest(key=key):
                own["osd_dump"].pop(key, None)
        files = self.tools.put("osd", own["osd_dump"]), self.tools.put("crush", own["crush_dump"])
        for words, wanted in (
            ("5", [5]),
            ("plain", [5]),
            ("with,commas", [6]),
            ("7,with,commas", [6, 7]),
            ("plain,6,7", [5, 6, 7]),
        ):
            with self.subTest(words=words):
                by_pool = json.loads(self.tools.run("plan", *files, "--json", "--unmatched", "--of-pool", words)[1])
                by_pools = json.loads(self.tools.run("plan", *files, "--json", "--unmatched", "--pools", words)[1])
                self.assertEqual(
                    [[pool["id"] for pool in found["pools"]] for found in (by_pool, by_pools)],
                    [wanted, wanted],
                    (words, wanted),
                )
        for option in ("--of-pool", "--pools"):
            with self.subTest():
                self.is_told(self.tools.run("plan", *files, option, "with,5"), 1, "no pool with", option)
