"""Plans by data: the last pass, plans for room alone, and pools whose rules have several blocks.

What pools hold is made up. Sets are the program's, and how full OSDs are is reckoned from them here.
"""

from __future__ import annotations

import pathlib
import random
from collections.abc import Mapping

from rekhuso.plans.blocks import MapBlocks
from rekhuso.plans.last_pass import is_near
from rekhuso.plans.loads import GROUP_PARTS

from tests.cluster_plans import Measured, Model, is_of, random_cluster, stats_of
from tests.clusters import STOCK, Json, below, commands, of_groups, places, with_commands
from tests.tool_cases import StockCase

MANY, HYBRID = "025-many-pools", "018-hybrid"
# Clusters of which plans leave OSDs too full, the draws of what their pools hold, and the words of the plans.
REASONS: tuple[tuple[str, int, tuple[str, ...]], ...] = (
    ("011-drained", 1, ("--room",)),
    ("011-drained", 3, ("--room",)),
)


def made_up(name: str, seed: int) -> dict[int, int]:
    """What the pools of a stock cluster hold: a hundredfold apart, those of one group nearly nothing."""
    rng = random.Random(seed)
    pools = STOCK[name]["osd_dump"]["pools"]
    return {
        pool["pool"]: round(2**40 * 10 ** rng.uniform(-1, 1)) if pool["pg_num"] > 1 else 2**20 for pool in pools
    }


def places_of(maps: list[Json], of_place: Mapping[int, float]) -> list[tuple[float, int]]:
    """What a place of each pool of some maps holds, and how many there are."""
    return [(of_place[pool["id"]], pool["pg_num"] * pool["size"]) for value in maps for pool in value["pools"]]


class DataPlans(StockCase):
    """What `plan --df` does by the data of the pools."""

    def with_data(self, name: str, held: Mapping[int, int]) -> tuple[list[pathlib.Path], list[Json], dict[int, float]]:
        """The words of a plan over a stock cluster whose pools hold so much, its maps, and what a place of each
        holds."""
        pools = STOCK[name]["osd_dump"]["pools"]
        rows = [{"id": own["pool"], "name": own["pool_name"], "stats": stats_of(held[own["pool"]])} for own in pools]
        files = [*self.dumps(name), pathlib.Path("--df"), self.tools.put("df", {"pools": rows})]
        of_place = {own["pool"]: held[own["pool"]] / (own["pg_num"] * own["size"]) for own in pools}
        return files, list(self.maps_of(name).values()), of_place

    def fullest(self, maps: list[Json], lines: list[str], of_place: Mapping[int, float]) -> float:
        """The greatest ratio of bytes to its share that an OSD has once commands are given."""
        after = [with_commands(value, [line for line in lines if is_of(line, value)]) for value in maps]
        return max(Measured(after, self.sets(*after), of_place).ratios(1))

    def test_spare(self) -> None:
        """None of the last commands of a plan by data, which are worth least, could be left out by which the sum that
        it lowers would rise no more than by a least move, unless an OSD would get fuller than the fullest is, or than
        the last pass leaves one."""
        files, maps, of_place = self.with_data(MANY, made_up(MANY, 3))
        lines = commands(self.output("plan", *files))
        mean = sum(size * count for size, count in places_of(maps, of_place)) / sum(
            count for _, count in places_of(maps, of_place)
        )

        def measured(kept: list[str]) -> tuple[float, list[float]]:
            sets = self.sets(*(with_commands(value, [line for line in kept if is_of(line, value)]) for value in maps))
            whole = Measured(maps, sets, of_place)
            found = [(weight, whole.has[at], whole.share[at]) for at, weight in enumerate((2, 10 / mean**2))]
            pools = [Measured([dict(value, pools=[pool])], sets, of_place) for value in maps for pool in value["pools"]]
            found += [(1, own.has[0], own.share[0]) for own in pools]
            sums = [
                sum((has.get(osd, 0) - share) ** 2 for osd, share in shares.items()) * weight
                for weight, has, shares in found
            ]
            return sum(sums), [max(whole.ratios(at)) for at in (0, 1)]

        least, fullest = measured(lines)
        could_go = []
        for line in lines[-12:]:
            more, worst = measured([own for own in lines if own != line])
            if more - least <= 2 and worst[0] <= fullest[0] and worst[1] <= max(fullest[1], 1.05):
                could_go.append(line)
        self.assertEqual(could_go, [])

    def test_room(self) -> None:
        """A plan for room has far fewer commands than the plan by data and brings the fullest OSD to its share; after
        each beginning of it no OSD is fuller than the fullest was before. These are the first commands too, where not
        all are wanted."""
        files, maps, of_place = self.with_data(MANY, made_up(MANY, 3))
        whole, room = (commands(self.output("plan", *files, *words)) for words in ((), ("--room",)))
        self.assertLess(len(room) * 3, len(whole))
        found = [self.fullest(maps, room[:most], of_place) for most in range(0, len(room) + 1, 4)]
        self.assertEqual(found, sorted(found, reverse=True))
        self.assertGreater(found[0], 1.3)
        for lines in (whole, room):
            self.assertLess(self.fullest(maps, lines, of_place), 1.06)
        for most in (5, len(room) + 10):
            with self.subTest(most=most):
                first = commands(self.output("plan", *files, "--first", most))
                self.assertEqual(len(first), most)
                self.assertLess(len(set(of_groups(first[: len(room)])) - set(of_groups(room))), 4)
        self.assertEqual(commands(self.output("plan", *files, "--first", 5)), room[:5])

    def test_reasons(self) -> None:
        """A plan tells of each OSD that it leaves above 1.1 of its share, and of no other, in which pools most of its
        bytes are and what keeps them there."""
        for name, seed, words in REASONS:
            with self.subTest(name=name, seed=seed, words=words):
                files, maps, of_place = self.with_data(name, made_up(name, seed))
                told = self.json("plan", *files, *words, "--by-reach")
                lines = told["commands"]
                after = [with_commands(value, [line for line in lines if is_of(line, value)]) for value in maps]
                measured = Measured(after, self.sets(*after), of_place)
                shares = {osd: share for osd, share in measured.share[1].items() if share > 0}
                full = {osd for osd, share in shares.items() if measured.has[1].get(osd, 0) > 1.1 * share}
                stays = told["data"]["stays"]
                self.assertEqual({own["id"] for own in stays}, full)
                self.assertGreater(len(full), 0)
                for own in stays:
                    self.assertLess(abs(own["ratio"] - measured.has[1][own["id"]] / shares[own["id"]]), 0.001)
                    self.assertGreater(sum(pool["bytes"] for pool in own["pools"]), own["has"] * 0.9)

    def test_several_blocks(self) -> None:
        """A pool whose rule has two blocks is planned by data: each place goes to an OSD of its own block, each copy
        on a host of its own, and the fullest OSD comes to its share. Without data the pool gets even by groups."""
        held = made_up(HYBRID, 1)
        files, maps, of_place = self.with_data(HYBRID, held)
        value = next(own for own in maps if own["pools"][0]["id"] == 2)
        output, error = self.ran("plan", *files, "--of-pool", "vms")
        lines = commands(output)
        self.assertNotIn("no plan", error)
        self.assertGreater(self.fullest(maps, [], of_place), 1.3)
        self.assertLess(self.fullest(maps, lines, of_place), 1.06)
        steps = next(rule["steps"] for rule in value["rules"] if rule["id"] == value["pools"][0]["rule"])
        fast, slow = (below(value, step[1]) for step in steps if step[0] == "take")
        hosts = {osd: bucket["id"] for bucket in value["buckets"] if bucket["type"] == 1 for osd, _ in bucket["items"]}
        after = self.sets(with_commands(value, lines))
        for group in of_groups(lines):
            first, *rest = places(after[group])
            self.assertIn(first, fast)
            self.assertEqual(set(rest) - slow, set())
            self.assertEqual(len({hosts[osd] for osd in rest}), 2, group)
        told = self.json("plan", *files)
        self.assertEqual([parts["refused"] for parts in told["pools"]], [None])
        for words in ((), ("--alone",)):
            lines = self.json("plan", *files[:2], *words)["commands"]
            given = [with_commands(own, [line for line in lines if is_of(line, own)]) for own in maps]
            measured = Measured(given, self.sets(*given), of_place)
            self.assertLess(measured.all()[0], 0.8, words)
            self.assertGreater(Measured(maps, self.sets(*maps), of_place).all()[0], 3)

    def test_where_a_group_may_go(self) -> None:
        """Over random maps a group may go, by the blocks of its rule, from one OSD to another where the definition of
        plans lets it."""
        rng, may = random.Random(5), 0
        for _ in range(30):
            cluster = random_cluster(rng)
            model, blocks = Model(cluster), MapBlocks(cluster[0])
            for pool in cluster[0]["pools"]:
                (block,) = blocks.of_pool(pool)
                for group in model.groups(pool["id"]):
                    for leaves in model.weights:
                        for comes in model.weights:
                            wanted = model.is_allowed(group, leaves, comes)
                            found = block.may_go(model.mapped[group], leaves, comes)
                            self.assertEqual(found, wanted, (group, leaves, comes))
                            may += wanted
        self.assertGreater(may, 1000)

    def test_near_shares(self) -> None:
        """Two OSDs stay near their shares where a group goes from one to the other and neither gets further than so
        many groups from its share; or where they get nearer together, or change places."""
        for more, less, most, wanted in (
            (1, 1, 2, True),
            (1, 1.5, 2, False),
            (-1.5, -3, 2, True),
            (-1.5, -2, 2, False),
            (4.5, 3.25, 2, True),
            (4.5, 3.5, 2, True),
            (4.5, 3.75, 2, False),
            (4.5, 3.75, 5, True),
        ):
            parts = [round(own * GROUP_PARTS) for own in (more, less, most)]
            self.assertEqual(is_near(*parts), wanted, (more, less, most))

    def test_words(self) -> None:
        """A plan for room without data, or with what would be passed over, is an error of use."""
        files = self.dumps(HYBRID)
        for words in (["--room"], ["--room", "--df", "df", "--alone"], ["--room", "--df", "df", "--deviation", "1"]):
            with self.subTest(words=words):
                told = "--room goes by the data that --df tells; --alone and --deviation do not go with it"
                self.is_told(self.tools.run("plan", *files, *words), 2, told, words)
