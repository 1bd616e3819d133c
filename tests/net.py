"""`net` leaves the sets of all groups as they are, by fewer exceptions, whatever was done before."""

from __future__ import annotations

import json
import random
from collections.abc import Iterable

from rekhuso import Monitor

from tests.clusters import Json, places, raised, with_commands
from tests.pool_plans import cleaned
from tests.tool_cases import ToolCase


class Net(ToolCase):
    """Exceptions that many rounds left, in rings, chains and orders of their own."""

    def raw(self, value: Json) -> dict[str, list[int]]:
        """What the rules of a map give its groups."""
        sets = self.tools.sets(dict(value, pg_upmap=[], pg_upmap_items=[]))
        return {group: places(answer) for group, answer in sets.items()}

    def all_act(self, raw: list[int], pairs: Iterable[list[int]]) -> None:
        """Asks that each pair of a group acts in its turn, from an OSD that the rule gives, and none undoes another."""
        osds = list(raw)
        for was, now in pairs:
            self.assertIn(was, raw, pairs)
            self.assertIn(was, osds, pairs)
            self.assertNotIn(now, osds, pairs)
            osds[osds.index(was)] = now
        self.assertEqual(sum(was != now for was, now in zip(raw, osds)), len(list(pairs)))

    def test_net(self) -> None:
        """After rounds of failing, returning and balancing `net` keeps every set, by pairs of which each acts."""
        rng, value = random.Random(7), self.tools.map("001-built")
        for _ in range(12):
            osd, base = rng.randrange(48), value["epoch"]
            lines = [f'change {{"base":{base},"weight":[[{osd},0]]}}', "balance 1 1024", "dump"]
            value = json.loads(self.tools.answers(value, lines)[-1].removeprefix("dump "))
            lines = [f'change {{"base":{value["epoch"]},"weight":[[{osd},65536]]}}', "balance 1 1024", "dump"]
            value = json.loads(self.tools.answers(value, lines)[-1].removeprefix("dump "))
        raw = self.raw(value)
        for words, made in ((("net",), None), (("net", "--ceph"), with_commands)):
            with self.subTest(words=words):
                status, output, error = self.tools.run(*words, self.tools.put("many", value))
                self.assertEqual(status, 0, error)
                if made:
                    after = made(value, output.splitlines())
                else:
                    after = json.loads(self.tools.answers(value, [output.strip(), "dump"])[-1].removeprefix("dump "))
                self.assertEqual(self.tools.sets(raised(after)), self.tools.sets(raised(value)))
                self.assertGreater(len(after["pg_upmap_items"]), 0)
                for group, pairs in after["pg_upmap_items"]:
                    self.all_act(raw[group], pairs)
                self.assertLess(
                    sum(len(pairs) for _, pairs in after["pg_upmap_items"]),
                    sum(len(pairs) for _, pairs in value["pg_upmap_items"]),
                )

    def test_many_rounds(self) -> None:
        """After 100 rounds of failing, returning and balancing `net` leaves every set as it was, by pairs of which each
        acts; `balance` goes on."""
        rng = random.Random(100)
        with Monitor(self.tools.map("002-built"), self.tools.program) as monitor:
            for _ in range(100):
                osd = rng.randrange(12)
                for weight in (0, 65536):
                    monitor.change(weight=[[osd, weight]])
                    monitor.balance(1)
            value = monitor.dump()
        raw = self.raw(value)
        self.assertTrue(any(pair[0] not in raw[group] for group, pairs in value["pg_upmap_items"] for pair in pairs))
        status, output, error = self.tools.run("net", self.tools.put("many", value))
        self.assertEqual(status, 0, error)
        after = json.loads(self.tools.answers(value, [output.strip(), "dump"])[-1].removeprefix("dump "))
        self.assertEqual(self.tools.sets(after), self.tools.sets(value))
        self.assertEqual(cleaned(after, raw)["pg_upmap_items"], after["pg_upmap_items"])
        self.assertLess(
            sum(len(pairs) for _, pairs in after["pg_upmap_items"]),
            sum(len(pairs) for _, pairs in value["pg_upmap_items"]),
        )
        for group, pairs in after["pg_upmap_items"]:
            self.all_act(raw[group], pairs)
        out = f'change {{"base":{after["epoch"]},"weight":[[3,0],[7,0]]}}'
        self.assertGreater(int(self.tools.answers(after, [out, "balance 1 1024"])[-1].split(" ")[1]), 0)

    def test_ring(self) -> None:
        """Pairs that go in a ring, or in a chain that ends where it began, become an explicit set or nothing, and the
        set stays."""
        value = self.tools.map("002-built")
        raw = {group: places(answer) for group, answer in self.tools.sets(value).items()}
        first, second, third = raw["1.4"]
        spare = next(osd for osd in range(12) if osd not in raw["1.4"])
        other = raw["1.5"][0]
        free = [osd for osd in range(12) if osd not in raw["1.5"]][:1]
        value["pg_upmap_items"] = [
            ["1.4", [[first, spare], [second, first], [spare, second]]],
            ["1.5", [[other, free[0]], [free[0], other]]],
        ]
        sets = self.tools.sets(value)
        self.assertEqual(places(sets["1.4"]), [second, first, third])
        self.assertEqual(places(sets["1.5"]), raw["1.5"])
        status, output, error = self.tools.run("net", self.tools.put("m", value), "--ceph")
        wanted = ["rm-pg-upmap-items 1.4", f"pg-upmap 1.4 {second} {first} {third}", "rm-pg-upmap-items 1.5"]
        self.assertEqual((status, output.splitlines()), (0, [f"ceph osd {command}" for command in wanted]), error)
        self.assertEqual(self.tools.sets(with_commands(value, output.splitlines())), sets)

    def test_order(self) -> None:
        """Where an OSD only changes its place, pairs say it in the order in which it leaves the one and comes to the
        other, and no explicit set stands beside them; the other order leads elsewhere, and is not kept."""
        value = self.tools.map("002-built")
        raw = {group: places(answer) for group, answer in self.tools.sets(value).items()}
        first, second, third = raw["1.6"]
        spare, other = [osd for osd in range(12) if osd not in raw["1.6"]][:2]
        value["pg_upmap"] = [["1.6", [spare, first, third]]]
        value["pg_upmap_items"] = [["1.6", [[third, other]]]]
        sets = self.tools.sets(value)
        self.assertEqual(places(sets["1.6"]), [spare, first, other])
        lines = self.output("net", self.tools.put("m", value), "--ceph").splitlines()
        pairs = f"pg-upmap-items 1.6 {first} {spare} {second} {first} {third} {other}"
        self.assertEqual(lines, ["ceph osd rm-pg-upmap 1.6", f"ceph osd {pairs}"])
        after = with_commands(value, lines)
        self.assertEqual(self.tools.sets(after), sets)
        value["pg_upmap"], value["pg_upmap_items"] = [], [["1.6", [[second, first], [first, spare]]]]
        self.assertEqual(places(self.tools.sets(value)["1.6"]), [spare, second, third])
        lines = self.output("net", self.tools.put("m", value), "--ceph").splitlines()
        self.assertEqual(lines, [f"ceph osd pg-upmap-items 1.6 {first} {spare}"])

    def test_pairs_in_another_order(self) -> None:
        """Pairs that are there already in another order are left as they are: `net` puts out nothing for them."""
        value = self.tools.map("002-built")
        raw = {group: places(answer) for group, answer in self.tools.sets(value).items()}
        pairs = {
            group: [
                [osd, other] for osd, other in zip(raw[group], [osd for osd in range(12) if osd not in raw[group]])
            ][:2]
            for group in ("1.4", "1.5", "1.6")
        }
        value["pg_upmap_items"] = [["1.4", pairs["1.4"]], ["1.5", pairs["1.5"][::-1]], ["1.6", pairs["1.6"][::-1]]]
        for words, wanted in (((), f'change {{"base":{value["epoch"]}}}\n'), (("--ceph",), "")):
            with self.subTest(words=words):
                self.assertEqual(self.tools.run("net", self.tools.put("m", value), *words), (0, wanted, ""))
