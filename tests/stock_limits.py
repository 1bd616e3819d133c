"""The limits of maps and changes with straw2 buckets and of those without, as `check` and `import` tell them beside the
program."""

from __future__ import annotations

import json
from collections.abc import Iterable
from typing import Any

from tests.clusters import STOCK, Json, bucket_of, copied
from tests.stock_dumps import DumpCase
from tests.whole_maps import ON_OSDS, map_of, osds_of, pool_of, rule_of


def straws(items: Iterable[int], number: int = -1, kind: str = "straw2", level: int = 15) -> Json:
    """A bucket of items that weigh one part each."""
    return {"id": number, "items": [[item, 1] for item in items], "kind": kind, "type": level}


def chains(count: int, width: int, kind: str = "straw2") -> list[Json]:
    """So many buckets: a root over chains, which end in as many devices as it is wide."""
    ids = [-2 - at for at in range(count - 1)]
    made = [straws([at if at < width else ids[at - width]], own, kind, at // width + 1) for at, own in enumerate(ids)]
    return [straws(ids[-width:], kind=kind), *made]


def limits_map(groups: list[int], buckets: list[Json] | None = None, devices: int = 1, **more: Any) -> Json:
    """A map of version 1 with a pool of one copy for each number of groups, all of its devices up and in."""
    pools = [new_pool(at, count) for at, count in enumerate(groups, 1)]
    rules = [rule_of(ON_OSDS)]
    return map_of(buckets or [straws(range(devices))], rules, pools, osds_of(devices)) | more


def same_rules(count: int) -> list[Json]:
    """So many rules; of 257 one number comes again."""
    return [limits_map([])["rules"][0] | {"id": number % 256} for number in range(count)]


def new_pool(number: int, groups: int, **more: Any) -> Json:
    """A pool of one copy."""
    return pool_of(number, groups) | more


def groups_of(pools: int, count: int) -> list[str]:
    """The first groups of pools of 65,536 each."""
    return [f"{pool}.{number:x}" for pool in range(1, pools + 1) for number in range(65536)][:count]


LIMIT, POOL, TWICE, ALL = "12 BadLimit", "15 BadPool", "27 DuplicatePart", [65536] * 16
LIST = straws(range(2), kind="list")


class StockLimits(DumpCase):
    """Each limit at its edge and one past it."""

    def is_checked(self, value: Json, change: Json | None, refusal: str, *places: str) -> None:
        """Asks that `check` tells a map, or a change to it, as lawful, or the program's refusal and these places
        alone."""
        files = [self.tools.put("limits-map", value)] + (
            [self.tools.put("limits-change", change)] if change is not None else []
        )
        status, output, error = self.tools.run("check", *files)
        wanted = [f"{files[-1]}: refused: {refusal}", *(f"{place} ({refusal})" for place in places)] if refusal else []
        self.assertEqual((status, error.splitlines()), (int(bool(refusal)), wanted), (refusal, places, error[:600]))
        self.assertTrue(refusal or f"{files[-1]}: lawful" in output, output[:300])

    def test_groups_of_stock_maps(self) -> None:
        """A map with straw2 buckets is lawful with as many groups as a pool and all pools may have, and past these
        `check` tells the place, as the program refuses it."""
        for groups, place in (
            ([65536], ""),
            ([65537], "pools[0].pg_num: 65,537, at most 65,536"),
            (ALL, ""),
            ([32768] * 32, ""),
            ([*ALL, 1], "pools: 1,048,577 groups in all pools, at most 1,048,576"),
            ([32769] + [32768] * 31, "pools: 1,048,577 groups in all pools, at most 1,048,576"),
        ):
            with self.subTest(groups=groups):
                places = [place] if "pg_num" not in place else [place, place.replace("pg_num", "pgp_num")]
                status, _, error = self.tools.run("check", self.tools.put("m", limits_map(groups)))
                told = (
                    []
                    if not place
                    else [f"{self.tools.folder / 'm'}: refused: {LIMIT}", *(f"{own} ({LIMIT})" for own in places)]
                )
                self.assertEqual(status, int(bool(place)), (groups[:5], error[:600]))
                self.assertEqual(sorted(error.splitlines()), sorted(told), (groups[:5], error[:600]))

    def test_lists_of_stock_maps(self) -> None:
        """So it is with the items of a bucket, with buckets, pools and rules."""
        for items, place in ((4096, ""), (4097, "buckets[0].items: 4,097 entries, at most 4,096")):
            with self.subTest(items=items):
                own = [straws([*range(4096), -2][:items]), straws([0], -2, level=1)][: 2 if place else 1]
                self.is_checked(limits_map([8], own, 4096), None, place and LIMIT, *[place][: bool(place)])
        for count, place in ((4096, ""), (4097, "buckets: 4,097 entries, at most 4,096")):
            with self.subTest(count=count):
                self.is_checked(
                    limits_map([8], chains(count, 1024), 1024), None, place and LIMIT, *[place][: bool(place)]
                )
        for count, end in ((33, ""), (256, ""), (257, ": 257 entries, at most 256")):
            with self.subTest(count=count):
                self.is_checked(limits_map([1] * count), None, end and LIMIT, *[f"pools{end}"][: bool(end)])
                self.is_checked(
                    limits_map([1], rules=same_rules(count)), None, end and LIMIT, *[f"rules{end}"][: bool(end)]
                )
        for kind in ("uniform", "list", "tree"):
            with self.subTest(kind=kind):
                for items, place in ((64, ""), (65, "buckets[1].items: 65 entries, at most 64")):
                    own = [straws([-2]), straws(range(items), -2, kind, 1)]
                    self.is_checked(limits_map([8], own, 65), None, place and LIMIT, *[place][: bool(place)])

    def exceptions_are_checked(self, key: str, entry: Json) -> None:
        """Asks that all groups may have an exception, and one more is refused."""
        entries, value = [[group, entry] for group in groups_of(16, 1048576)], limits_map(ALL, devices=2)
        self.is_checked(value | {key: entries}, None, "")
        told = f"{key}: 1,048,577 entries, at most 1,048,576"
        self.is_checked(value | {key: entries + entries[:1]}, None, LIMIT, told)

    def test_explicit_sets_of_stock_maps(self) -> None:
        """So it is with explicit sets."""
        self.exceptions_are_checked("pg_upmap", [0])

    def test_pairs_of_stock_maps(self) -> None:
        """So it is with pairs."""
        self.exceptions_are_checked("pg_upmap_items", [[0, 1]])

    def test_limits_of_plain_maps(self) -> None:
        """A map without straw2 buckets has the limits that it had."""
        for value, place in (
            (limits_map([4096], [LIST], 2), ""),
            (
                limits_map([4097], [LIST], 2) | {"pools": [new_pool(1, 4097, pgp_num=1)]},
                "pools[0].pg_num: 4,097, at most 4,096",
            ),
            (limits_map([8], [straws(range(64), kind="list")], 64), ""),
            (limits_map([8], [straws(range(65), kind="list")], 65), "buckets[0].items: 65 entries, at most 64"),
            (limits_map([8], chains(512, 64, "list"), 64), ""),
            (limits_map([8], chains(513, 64, "list"), 64), "buckets: 513 entries, at most 512"),
            (
                limits_map([8], [LIST], 2, pg_upmap=[["1.0", [0]]] * 131073),
                "pg_upmap: 131,073 entries, at most 131,072",
            ),
            (limits_map([1] * 32, [LIST], 2, rules=same_rules(32)), ""),
            (limits_map([1] * 33, [LIST], 2), "pools: 33 entries, at most 32"),
            (limits_map([1], [LIST], 2, rules=same_rules(33)), "rules: 33 entries, at most 32"),
        ):
            with self.subTest(place=place):
                self.is_checked(value, None, place and LIMIT, *[place][: bool(place)])
        full, crush = limits_map([1] * 32, [LIST], 2), {"buckets": [LIST], "rules": same_rules(33)}
        self.is_checked(
            full, {"base": 1, "new_pools": [new_pool(33, 1)]}, POOL, "new_pools: 33 pools after the change, at most 32"
        )
        self.is_checked(full, {"base": 1, "new_crush": crush}, LIMIT, "new_crush.rules: 33 entries, at most 32")

    def are_checked(self, cases: Iterable[tuple[Json, Json, str, str]]) -> None:
        """Asks that `check` tells each change to a map as lawful, or the program's refusal and the place alone."""
        for own, parts, refusal, place in cases:
            with self.subTest(place=place):
                self.is_checked(own, {"base": 1} | parts, refusal, *[place][: bool(place)])

    def test_pools_of_stock_changes(self) -> None:
        """The pools after a change, and the groups of all, have the limits of the map, with the program's refusals."""
        value, many = limits_map([65536] * 15 + [65534, 1]), limits_map([1] * 255)
        total = "1,048,577 groups in all pools after the change, at most 1,048,576"
        cases: list[tuple[Json, Json, str, str]] = [
            (many, {"new_pools": [new_pool(256, 1)]}, "", ""),
            (
                many,
                {"new_pools": [new_pool(256, 1), new_pool(257, 1)]},
                POOL,
                "new_pools: 257 pools after the change, at most 256",
            ),
            (many, {"old_pools": [1], "new_pools": [new_pool(256, 1), new_pool(257, 1)]}, "", ""),
            (value, {"new_pools": [new_pool(18, 1)]}, "", ""),
            (value, {"new_pools": [new_pool(18, 2)]}, POOL, f"new_pools: {total}"),
            (value, {"grow_pool": [[17, 2, 2]]}, "", ""),
            (value, {"grow_pool": [[17, 3, 3]]}, POOL, f"grow_pool: {total}"),
            (value, {"grow_pool": [[17, 2, 2]], "new_pools": [new_pool(18, 1)]}, POOL, f"new_pools: {total}"),
            (value, {"old_pools": [17], "new_pools": [new_pool(18, 2)]}, "", ""),
            (value, {"new_pools": [new_pool(18, 2)] * 2}, TWICE, "new_pools[1]: the key 18 comes again"),
            (value, {"grow_pool": [[16, 65537, 1]]}, LIMIT, "grow_pool[0][1]: 65,537, at most 65,536"),
            (
                value,
                {"new_pools": [new_pool(18, 65537, pgp_num=1)]},
                LIMIT,
                "new_pools[0].pg_num: 65,537, at most 65,536",
            ),
        ]
        self.are_checked(cases)

    def test_lists_of_stock_changes(self) -> None:
        """The lists of a change have the limits of the map, with the program's refusals."""
        full, lists, many = limits_map(ALL), groups_of(16, 1048576), limits_map([1] * 255)
        few = limits_map([8], devices=1024)
        crush = {"rules": few["rules"]}
        cases: list[tuple[Json, Json, str, str]] = [
            (many, {"new_crush": {"buckets": many["buckets"], "rules": same_rules(256)}}, "", ""),
            (
                many,
                {"new_crush": {"buckets": many["buckets"], "rules": same_rules(257)}},
                LIMIT,
                "new_crush.rules: 257 entries, at most 256",
            ),
            (full, {"old_upmap": lists}, "", ""),
            (full, {"old_items": lists + ["1.0"]}, LIMIT, "old_items: 1,048,577 entries, at most 1,048,576"),
            (full, {"new_upmap": [[group, [0]] for group in lists]}, "", ""),
            (full, {"down": [0] * 1048577}, LIMIT, "down: 1,048,577 entries, at most 1,048,576"),
            (few, {"new_crush": crush | {"buckets": chains(4096, 1024)}}, "", ""),
            (
                few,
                {"new_crush": crush | {"buckets": chains(4097, 1024)}},
                LIMIT,
                "new_crush.buckets: 4,097 entries, at most 4,096",
            ),
            (
                few,
                {"new_crush": crush | {"buckets": [straws([0] * 4097)]}},
                LIMIT,
                "new_crush.buckets[0].items: 4,097 entries, at most 4,096",
            ),
        ]
        self.are_checked(cases)

    def test_limits_of_import(self) -> None:
        """A stock cluster past a wide limit stays out with the number and what to do; without straw2 buckets, past a
        plain one."""
        for groups, told in (
            (65536, ""),
            (
                65537,
                "pool 2 has 65537 groups, more than 65536: no map holds it; --pools 1 takes the pools that come in",
            ),
        ):
            with self.subTest(told=told):
                own = copied(STOCK["001-three-hosts"])
                own["osd_dump"]["pools"][1].update(pg_num=groups, pg_placement_num=groups)
                self.assertEqual(self.refused(own) if told else [], [told][: bool(told)], groups)
                self.assertTrue(
                    told or json.loads(self.output("import", *self.dumps("wide", own)))["pools"][1]["pg_num"] == groups
                )
        own = copied(STOCK["001-three-hosts"])
        pools = [
            dict(own["osd_dump"]["pools"][1], pool=at, pool_name=f"p{at}", pg_num=65536, pg_placement_num=65536)
            for at in range(2, 18)
        ]
        own["osd_dump"]["pools"][1:] = pools
        each = " and ".join(f"--pools {pools}" for pools in (",".join(map(str, range(1, 17))), "17"))
        self.assertEqual(
            self.refused(own),
            [
                "its pools have 1048577 groups together, more than 1048576; it takes 2 maps: --to FOLDER writes all, "
                f"{each} one each"
            ],
        )
        self.assertEqual(
            json.loads(self.output("import", *self.dumps("wide", own), "--pools", "2,3,4,5"))["pools"][3]["pg_num"],
            65536,
        )
        for alg, most in (("list", "more than 64: only a straw2 bucket holds more in a map"), ("straw2", "")):
            with self.subTest(alg=alg):
                own = copied(STOCK["021-flat-root"])
                bucket_of(own, "default")["alg"] = alg
                self.assertEqual(
                    self.refused(own) if most else [], [f"bucket default has 97 items, {most}"][: bool(most)]
                )
        for count, straw2, told in (
            (256, True, ""),
            (
                257,
                True,
                "257 pools, more than 256; it takes 2 maps: --to FOLDER writes all, which have 256 and 1 pools",
            ),
            (32, False, ""),
            (
                33,
                False,
                "33 pools, more than 32: only a map with straw2 buckets holds more; --pools takes some pools at a time",
            ),
        ):
            with self.subTest(told=told):
                own = copied(STOCK["001-three-hosts"])
                own["osd_dump"]["pools"] = [
                    dict(own["osd_dump"]["pools"][1], pool=at, pool_name=f"p{at}", pg_num=1, pg_placement_num=1)
                    for at in range(1, count + 1)
                ]
                for bucket in own["crush_dump"]["buckets"]:
                    bucket["alg"] = "straw2" if straw2 else "list"
                files = self.dumps("pools", own)
                output, error = self.ran("import", *files, *([] if straw2 else ["--check"]), status=int(bool(told)))
                self.assertEqual(
                    error.splitlines()[0] if told else output[:1],
                    told or ("{" if straw2 else "t"),
                    (count, output[:100], error),
                )
        own = copied(STOCK["028-many-buckets"])
        for bucket in own["crush_dump"]["buckets"]:
            bucket["alg"] = "list"
        reason = "630 buckets that pools use, more than 512: only a map with straw2 buckets holds more"
        self.assertIn(f"{reason}; --pools takes some pools at a time", self.refused(own, "--check"))

    def test_limits_of_maps_without_straw2(self) -> None:
        """Of a cluster that takes two maps, one of them without straw2 buckets, that one has the plain limits: past
        them it is told which map it is, and what to do; the pools of the other come in."""
        name, more = "005-openstack-mixed", "only a map with straw2 buckets holds more; --pools"
        cases: list[tuple[list[Json], str]] = [
            ([dict(pg_num=4096, pg_placement_num=4096)], ""),
            (
                [dict(pg_num=8192, pg_placement_num=8192)],
                f"pool 1 has 8192 groups, more than 4096: {more} 2,3,4 takes the pools that come in",
            ),
            ([{}, *(dict(pool=at) for at in range(5, 36))], ""),
            (
                [dict(pg_num=8192, pg_placement_num=8192), *(dict(pool=at) for at in range(5, 37))],
                f"pool 1 has 8192 groups, more than 4096: {more} 2,3,4,36 takes the pools that come in",
            ),
        ]
        for changes, told in cases:
            with self.subTest(told=told):
                own = copied(STOCK[name])
                pools = own["osd_dump"]["pools"]
                pools[:1] = [
                    dict(pools[0], pool_name=f"p{change.get('pool', 1)}", **change) if change else pools[0]
                    for change in changes
                ]
                for bucket in own["crush_dump"]["buckets"]:
                    bucket["alg"] = "straw2" if "~" in bucket["name"] else "list"
                files, end = self.dumps("mixed", own), "the cluster stays out, for 1 reason\n"
                numbers = ",".join(str(change.get("pool", 1)) for change in changes[:32])
                told = told and f"the map of the pools {numbers} has no straw2 bucket: {told}\n"
                for words, wanted in (
                    (["import", *files, "--check"], told + end if told else ""),
                    (["df", *files], told),
                    (["import", *files, "--to", f"maps-{len(changes)}-{bool(told)}"], told),
                ):
                    output, error = self.ran(*words, status=int(bool(told)))
                    self.assertTrue(error == wanted if told else output, (words, output[:200], error))
                if told:
                    value = json.loads(self.output("import", *files, "--pools", "2,3,4"))
                    self.has_ceph_sets(name, [value], {2, 3, 4})
                    lines = self.refused(own)
                    self.assertIn(told.strip(), lines)
                    self.assertTrue(any(f"it takes {2 + len(changes) // 33} maps: " in line for line in lines), lines)
