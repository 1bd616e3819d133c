"""Pools that are not at rest, as a live Ceph 16.2.15 dumped them: one that is to grow, one amid a split, and one before
it shrinks from 48 to 40 groups and behind that, with the exceptions that were left then.
"""

from __future__ import annotations

import pathlib

from tests.cases import TOP
from tests.clusters import Json, copied, kept
from tests.tool_cases import ToolCase

RECORDS: dict[str, Json] = kept("unrest.json.gz")
# What is said of each pool that is not at rest, by the numbers of its dump.
SAID = {
    "growing": "vm: it is to grow from 32 to 64 groups",
    "splitting": "rbd: it is being split, pgp_num 37 of 64",
    "shrinking": "vm: it is to shrink from 48 to 40 groups",
}
WHY = {
    "growing": "it is to grow from 32 to 64 groups; plan when it has",
    "splitting": "it is being split, pgp_num 37 of 64",
    "shrinking": "it is to shrink from 48 to 40 groups, and groups that are merged lose their exceptions; plan when it "
    "has",
}
FEWER = "pg_num_target"


def pairs_in(dump: Json) -> dict[str, Json]:
    """The groups that have pairs by a dump, with these."""
    return {entry["pgid"]: entry["mappings"] for entry in dump["pg_upmap_items"]}


class UnrestCase(ToolCase):
    """Tests over the dumps of these pools."""

    def files(self, name: str, **of_pool: object) -> list[pathlib.Path]:
        """The two dumps of a record, in which the pool that is not at rest may have other numbers."""
        own = copied(RECORDS[name])
        if of_pool:
            self.pool(own["osd_dump"]).update(of_pool)
        return [self.tools.put(f"{name}-osd", own["osd_dump"]), self.tools.put(f"{name}-crush", own["crush_dump"])]

    @staticmethod
    def pool(dump: Json) -> Json:
        """The pool that is not at rest: none other has several groups but the one of `SAID`."""
        names = {said.partition(":")[0] for said in SAID.values()}
        return next(pool for pool in dump["pools"] if pool["pool_name"] in names)


class Unrest(UnrestCase):
    """Pools that are not at rest."""

    def test_plan(self) -> None:
        """`plan` gives no command for such a pool and says why; --of-pool names it and is refused; --anyway plans
        it."""
        for name, said in SAID.items():
            with self.subTest(name=name):
                files, pool = self.files(name), said.partition(":")[0]
                number = self.pool(RECORDS[name]["osd_dump"])["pool"]
                output, error = self.ran("plan", *files)
                self.assertIn(f"{pool}: no plan: {WHY[name]}\n", error)
                self.assertNotIn(f"items {number}.", output)
                self.is_told(
                    self.tools.run("plan", *files, "--of-pool", pool), 1, f"{pool}: no plan: {WHY[name]}", name
                )
                self.assertIn(f"items {number}.", self.output("plan", *files, "--anyway"))

    def test_json(self) -> None:
        """As JSON the pool has its numbers, as the dump has them, and counts with all its places."""
        own = self.pool(RECORDS["splitting"]["osd_dump"])
        told = self.json("plan", *self.files("splitting"))
        self.assertEqual([pool["name"] for pool in told["pools"] if pool["left_alone"]], ["rbd"])
        wanted = {
            "id": own["pool"],
            "name": "rbd",
            "pg_num": own["pg_num"],
            "pg_num_pending": own["pg_num_pending"],
            "pg_num_target": own["pg_num_target"],
            "pgp_num": own["pg_placement_num"],
            "pgp_num_target": own["pg_placement_num_target"],
            "why": SAID["splitting"].partition(": ")[2],
        }
        self.assertEqual(told["unrest"], [wanted])
        places = sum(pool["pg_num"] * pool["size"] for pool in RECORDS["splitting"]["osd_dump"]["pools"])
        table = self.json("df", *self.files("splitting"))
        self.assertEqual((table["unrest"], table["summary"]["pgs"]), ([wanted], places))

    def test_other_pools(self) -> None:
        """The other pools are planned beside what the OSDs carry of it: no OSD gets farther from the share of all."""
        files = self.files("splitting")
        told = self.json("plan", *files)
        moved = {command.split(" ")[3].split(".")[0] for command in told["commands"]}
        self.assertNotIn(str(self.pool(RECORDS["splitting"]["osd_dump"])["pool"]), moved)
        self.assertLessEqual(
            told["cluster"]["after"]["groups"]["deviation"], told["cluster"]["before"]["groups"]["deviation"]
        )

    def test_told(self) -> None:
        """`df`, `whatif`, `import` and `import --check` tell of it."""
        for name, said in SAID.items():
            with self.subTest(name=name):
                files = self.files(name)
                pool, _, what = said.partition(": ")
                lines = self.output("df", *files).splitlines()
                self.assertTrue([line for line in lines if line.startswith(f"{pool}: ") and line.endswith(f"; {what}")])
                self.assertIn(said, self.output("whatif", *files, "--out", "osd.1").splitlines())
                self.assertIn(said, self.output("import", "--check", *files).splitlines())
                self.assertTrue(self.ran("import", *files)[1].splitlines()[-1].endswith(said))

    def test_at_rest(self) -> None:
        """A pool whose numbers are its targets is at rest, and one of a dump that tells none, whatever its pgp_num."""
        files = self.files("splitting")
        dump = copied(RECORDS["splitting"]["osd_dump"])
        for pool in dump["pools"]:
            for key in ("pg_num_target", "pg_num_pending", "pg_placement_num_target"):
                pool.pop(key)
        older = self.tools.put("older", dump)
        self.assertEqual(self.json("df", older, files[1])["unrest"], [])
        self.assertIn("osd pg-upmap-items 2.", self.output("plan", older, files[1]))
        behind = self.tools.put("behind", RECORDS["shrinking"]["new_osd_dump"])
        self.assertEqual(self.json("df", behind, self.files("shrinking")[1])["unrest"], [])

    def test_numbers(self) -> None:
        """A target of 0, above 65,536, or that is no number is refused by its place."""
        for key in ("pg_num_target", "pg_num_pending", "pg_placement_num_target"):
            for value in (0, 65537, -1, "64", 64.5, None, True):
                with self.subTest(key=key, value=value):
                    found = self.tools.run("df", *self.files("splitting", **{key: value}))
                    self.assertEqual(found[:2], (1, ""))
                    line = f"pools[1].{key}: no whole number from 1 to 65,536"
                    self.assertIn(line, found[2].splitlines()[0])
        self.assertIn(
            "it is to grow from 64 to 65536 groups", self.output("df", *self.files("splitting", **{FEWER: 65536}))
        )


class HeldPools(UnrestCase):
    """What is held and let go of such pools."""

    def test_losing(self) -> None:
        """The groups that lose their pairs are those that lost them in the live cluster, and no others."""
        own = RECORDS["shrinking"]
        before, after = pairs_in(own["osd_dump"]), pairs_in(own["new_osd_dump"])
        lost = before.keys() - after.keys()
        self.assertEqual((len(lost), len(after)), (16, 32))
        files = self.files("shrinking")
        groups = [
            {"pgid": group, "acting": entry, "state": "active+clean"} for group, entry in self.acting(files).items()
        ]
        path = self.tools.put("pgs", {"pg_stats": groups})
        told = self.json("hold", "--pgs", path, *files)
        self.assertEqual(set(told["losing"]), lost)
        self.assertEqual([pool["name"] for pool in told["unrest"]], ["vm"])
        error = self.ran("hold", "--pgs", path, *files)[1]
        self.assertIn("it is to shrink from 48 to 40 groups; 16 held groups lose their pairs on the way", error)

    def acting(self, files: list[pathlib.Path]) -> dict[str, list[int]]:
        """The up sets, where all data is."""
        value = self.json("import", *files)["maps"][0]["map"]
        sets = self.tools.sets(value, "--stock")
        return {group: [int(osd) for osd in own.partition("]")[0][1:].split(",")] for group, own in sets.items()}

    def test_growing(self) -> None:
        """While a pool grows nothing is held, with status 11; --anyway holds it."""
        for name in ("growing", "splitting"):
            with self.subTest(name=name):
                files = self.files(name)
                output, error = self.ran("hold", *files, "--weight", "osd.1=2", status=11)
                first, last = error.splitlines()[0], error.splitlines()[-1]
                self.assertEqual(output, "")
                self.assertStarts(first, f"{SAID[name]}, and each step of the manager makes other sets: hold when")
                self.assertEqual(last, "nothing is held: --anyway does it nonetheless")
                self.assertIn("pg-upmap-items", self.output("hold", *files, "--weight", "osd.1=2", "--anyway"))

    def test_release(self) -> None:
        """`release --to-plan` leaves the exceptions of such a pool as they are; --anyway lets go of them."""
        files = self.files("shrinking")
        output, error = self.ran("release", *files, "--to-plan")
        self.assertEqual(output, "")
        self.assertEqual(error.splitlines(), ["nothing is held", f"vm: left as it is: {WHY['shrinking']}"])
        told = self.json("release", *files, "--to-plan")
        self.assertEqual([pool["name"] for pool in told["left_alone"]], ["vm"])
        self.assertIn("rm-pg-upmap-items", self.output("release", *files, "--to-plan", "--anyway"))
        self.assertIn("rm-pg-upmap-items", self.output("release", *files))

    def test_after_growth(self) -> None:
        """Behind words that grow a pool it is at rest, and is balanced as any other."""
        files = self.files("splitting")
        told = self.json("whatif", *files, "--pool", "rbd", "pgp_num=64", "--balance")
        self.assertEqual(told["unbalanced"], [])
        told = self.json("whatif", *files, "--out", "osd.1", "--balance")
        self.assertEqual([why for _, why in told["unbalanced"]], [WHY["splitting"]])

    def test_task(self) -> None:
        """What docs/COMMANDS.md says of a split that was run on a live cluster is what commands tell of its dumps."""
        own, page = RECORDS["growing"], (TOP / "docs" / "COMMANDS.md").read_text()
        crush = self.tools.put("crush", own["crush_dump"])
        before, amid, grown, held = (
            self.tools.put(key, own[key]) for key in ("before", "osd_dump", "new_osd_dump", "held")
        )
        table = self.output("df", amid, crush).splitlines()
        told = [line for line in table if line.startswith("vm: ")]
        told += [line for line in self.ran("plan", amid, crush)[1].splitlines() if line.startswith("vm: ")]
        told += self.ran("hold", before, crush, amid, crush, status=11)[1].splitlines()[:1]
        output, error = self.ran("hold", before, crush, grown, crush)
        told += error.splitlines()
        told += self.ran("release", held, crush, "--to-plan", "--batch", 10, "--to", "let-go")[1].splitlines()
        self.assertEqual([line for line in told if line not in page], [])
        pairs = {
            line.split(" ")[3]: list(map(int, line.split(" ")[4:])) for line in output.splitlines() if "-items" in line
        }
        wanted = {
            group: [osd for pair in own for osd in (pair["from"], pair["to"])]
            for group, own in pairs_in(own["held"]).items()
        }
        self.assertEqual(pairs, wanted)
