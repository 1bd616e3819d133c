"""What each command of the tools tells as JSON: one object, which says what the same command tells as text."""

from __future__ import annotations

import json
import pathlib

from tests.clusters import CLUSTERS, Json, commands, copied, places, with_commands
from tests.tool_cases import ToolCase, without_names
from tests.tool_output import Watched
from tests.whole_maps import device_weights


class JsonOutput(ToolCase):
    """A map of a cluster, and one with an OSD down, another out, and pairs."""

    def maps(self) -> tuple[pathlib.Path, pathlib.Path, Json, Json]:
        """The two maps, as files and as values."""
        path, _, value, _ = self.with_names("002-built")
        osds = [dict(osd, up=osd["id"] != 2, weight=0 if osd["id"] == 5 else osd["weight"]) for osd in value["osds"]]
        other = dict(value, osds=osds, pg_upmap_items=[["1.4", [[5, 1], [1, 5]]]])
        return path, self.tools.put("other", other), value, other

    def test_heads(self) -> None:
        """Each object begins with its command, the map's epoch and the version of its form."""
        path, other, value, _ = self.maps()
        for name, *words in (
            ("df", path),
            ("diff", path, other),
            ("plan", path),
            ("check", other),
            ("explain", other, "1.4"),
            ("net", other),
            ("whatif", path, "--out", "3"),
            ("whatif", path, "--each", "1"),
        ):
            with self.subTest(name=name):
                found = self.json(name, *words)
                head = [("command", name), ("epoch", value["epoch"]), ("version", 1)]
                self.assertEqual(list(found.items())[:3], head)

    def test_diff(self) -> None:
        """`diff` has the change, what no change says, what moves, and from where to where."""
        path, other, _, _ = self.maps()
        line, *flows, moved = self.output("diff", path, other).splitlines()
        told = self.json("diff", path, other)
        self.assertEqual(told["change"], json.loads(line.removeprefix("change ")))
        self.assertEqual(told["unsaid"], [])
        self.assertEqual(moved, f"{told['groups']} groups, {told['places']} places and {len(told['osds'])} OSDs move")
        wanted = [f"{count} from osd.{was} to osd.{now}" for was, now, count in told["flows"]]
        self.assertEqual(flows[:20], wanted[:20])

    def test_plan(self) -> None:
        """`plan` has the commands, and of each pool what it tells in words."""
        path, _, _, _ = self.maps()
        output, error = self.ran("plan", path)
        told = self.json("plan", path)
        self.assertEqual(told["commands"], commands(output))
        self.assertNotEqual(commands(output), [])
        pool = told["pools"][0]
        before, after = pool["before"]["least"], pool["after"]["least"]
        self.assertIn(f"\npool 1: {pool['moves']} moves of {pool['groups']} groups; before {before} to ", error)
        self.assertIn(f"; after {after} to ", error)

    def test_pools_after_a_plan(self) -> None:
        """What `plan` has of a pool after it is what the sets are that its commands lead to."""
        path, _, value, _ = self.maps()
        told = self.json("plan", path)
        after = told["pools"][0]["after"]
        sets = self.tools.sets(with_commands(value, told["commands"]))
        held = [osd for answer in sets.values() for osd in places(answer)]
        weights = device_weights(value)
        total = sum(weights.values())
        away = max(abs(held.count(osd) - len(held) * weight / total) for osd, weight in weights.items())
        self.assertAlmostEqual(after["farthest"], away, delta=1e-9)
        counts = [held.count(osd) for osd in weights]
        self.assertEqual((after["least"], after["greatest"]), (min(counts), max(counts)))

    def test_check(self) -> None:
        """`check` has whether a map is lawful."""
        told = self.json("check", self.maps()[1])
        self.assertEqual((told["lawful"], told["places"]), (True, []))

    def test_explain(self) -> None:
        """`explain` has the up set, what was passed over, and the exceptions."""
        _, path, _, other = self.maps()
        told = self.json("explain", path, "1.4")
        answer = self.tools.sets(other)["1.4"]
        self.assertEqual(f"[{','.join(map(str, told['up']))}] {told['up_primary']}", answer)
        self.assertEqual([own["osd"] for own in told["passed_over"]], Watched(other).met_by("1.4"))
        self.assertIsNone(told["pg_upmap"])
        self.assertEqual([(own["from"], own["to"]) for own in told["pg_upmap_items"]], [(5, 1), (1, 5)])

    def test_net(self) -> None:
        """`net` has the change, and the same as commands."""
        _, path, _, _ = self.maps()
        told = self.json("net", path)
        change = json.dumps(told["change"], separators=(",", ":"), sort_keys=True)
        self.assertEqual(self.output("net", path), f"change {change}\n")
        self.assertEqual(self.output("net", path, "--ceph").splitlines(), told["commands"])
        self.assertNotEqual(told["commands"], [])

    def test_json_of_what_is_unlawful(self) -> None:
        """Of a map that is not lawful `check --json` has every place at fault, and the status and standard error
        stay."""
        _, names, value, _ = self.with_names("002-built")
        value["pools"][0]["size"], value["max_osd"] = 11, 0
        for words in ((), ("--names", names)):
            with self.subTest(words=words):
                status, output, error = self.tools.run("check", self.tools.put("w", value), "--json", *words)
                told = json.loads(output)
                self.assertEqual(status, 1, (status, told))
                self.assertIs(told["lawful"], False, (status, told))
                self.assertEqual(told["refused"], {"number": 12, "name": "BadLimit"}, (status, told))
                self.assertEqual(
                    {(own["path"], own["number"]) for own in told["places"]}, {("pools[0].size", 12), ("max_osd", 12)}
                )
                self.assertEqual(len(error.splitlines()), 1 + len(told["places"]))

    def test_import(self) -> None:
        """`import --json` tells all maps, each with its pools, the names and what is left out; with `--check`
        whether a cluster comes in."""
        files = self.tools.dumps("002-built")
        status, output, _ = self.tools.run("import", *files, "--json")
        told, value = json.loads(output), json.loads(self.tools.run("import", *files)[1])
        self.assertEqual(
            (status, told["command"], told["epoch"], told["maps"][0]["map"]),
            (0, "import", value["epoch"], value),
            output[:300],
        )
        self.assertEqual(told["maps"][0]["pools"], [pool["id"] for pool in value["pools"]], output[:300])
        self.assertTrue(told["names"]["types"], output[:300])
        status, output, _ = self.tools.run("import", "--check", *files, "--json")
        self.assertEqual((status, json.loads(output)["comes_in"], json.loads(output)["reasons"]), (0, True, []))
        own = copied(CLUSTERS["002-built"])
        own["osd_dump"]["pools"][0]["size"] = 11
        status, output, error = self.tools.run(
            "import", "--check", self.tools.put("large", own["osd_dump"]), files[1], "--json"
        )
        told = json.loads(output)
        self.assertEqual((status, told["comes_in"], told["maps"]), (1, False, []), error)
        self.assertEqual([without_names(line) for line in told["reasons"]], error.splitlines()[:-1])
        own = told["against"]
        self.assertEqual([f"{one['why']}: {one['advice']}" for one in own], told["reasons"])
        self.assertEqual([one["code"] for one in own], ["pool-size-plain"])
        self.is_told(
            self.tools.run("import", *files, "--json", "--to", "folder"),
            2,
            "--json tells all maps at once: --to does not go with it",
            "out",
        )
