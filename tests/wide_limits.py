"""The limits of stock clusters: each at its edge and one past it, in maps and in changes, under `--stock`; and that
without it the same maps are refused."""

from __future__ import annotations

import json
import pathlib
import subprocess
import tempfile
from collections.abc import Callable, Iterable, Iterator, Sequence
from typing import Any, Optional

from tests.cases import Case, RowCase
from tests.clusters import Json
from tests.runs import Check, zipped
from tests.whole_maps import ON_OSDS, map_of, osd_of, osds_of, pool_of, rule_of

SECONDS = 120
GROUPS, TOTAL, ENTRIES, ITEMS, BUCKETS, POOLS, RULES = 65_536, 1_048_576, 1_048_576, 4_096, 4_096, 256, 256
OSDS, SIZE = 4_096, 20
# The limits of plain maps that are tested beside them.
PLAIN_POOLS, PLAIN_RULES, PLAIN_OSDS, PLAIN_SIZE = 32, 32, 1_024, 10
# How many OSDs the greatest forest has below chains of buckets, and how many pools have all groups that there may be.
CHAINS = 1_024
FULL_POOLS = TOTAL // GROUPS


def pool(number: int, groups: int, placed: int | None = None) -> Json:
    """A pool of one copy."""
    return pool_of(number, groups, placed=placed)


def a_map(pools: list[Json], buckets: list[Json] | None = None, devices: int = 1, **more: Any) -> Json:
    """A map of so many devices, all of them up and in."""
    made = buckets or [bucket(-1, range(devices), "list")]
    return map_of(made, [rule_of(ON_OSDS)], pools, osds_of(devices)) | more


def pools_of(numbers: Iterable[int]) -> list[Json]:
    """Pools of one group each."""
    return [pool(number, 1) for number in numbers]


def rules_of(count: int) -> list[Json]:
    """So many rules, the last of 257 under a number that comes again: there are 256 numbers."""
    return [a_map([])["rules"][0] | {"id": number % RULES} for number in range(count)]


def bucket(number: int, items: Iterable[int], kind: str = "straw2", level: int = 15) -> Json:
    """A bucket of items that weigh one part each."""
    return {"id": number, "items": [[item, 1] for item in items], "kind": kind, "type": level}


def chains(count: int) -> list[Json]:
    """So many buckets: below a root of 1,023 chains of four, and beside it a chain that has the rest."""
    made, root = [], []
    for device in range(CHAINS - 1):
        ids = [-(2 + 4 * device + level) for level in range(4)]
        made += [
            bucket(own, [below], level=level + 1) for level, (own, below) in enumerate(zip(ids, [device, *ids[:3]]))
        ]
        root.append(ids[3])
    first = -(2 + 4 * (CHAINS - 1))
    rest = [first - level for level in range(count - 1 - len(made))]
    made += [bucket(own, [below], level=level + 1) for level, (own, below) in enumerate(zip(rest, [CHAINS - 1, *rest]))]
    return [bucket(-1, root), *made]


Limited = Iterator[tuple[str, Json, Optional[str], Optional[str]]]


def osd_maps() -> Limited:
    """Maps of as many OSDs as there may be, and of one more, in each place that names one."""
    for count, refusal, plain in (
        (PLAIN_OSDS, None, None),
        (PLAIN_OSDS + 1, None, "BadLimit"),
        (OSDS, None, "BadLimit"),
        (OSDS + 1, "BadLimit", "BadLimit"),
    ):
        last = count - 1
        wide = a_map([pool(1, 8)]) | {"max_osd": min(count, OSDS)}
        listed = wide["osds"] + [osd_of(last)]
        yield f"a max_osd of {count:,}", wide | {"max_osd": count}, refusal, plain
        yield f"OSD {last:,}", wide | {"osds": listed}, refusal, plain
        yield f"OSD {last:,} in a bucket", wide | {"buckets": [bucket(-1, [0, last], "list")]}, refusal, plain
        there = wide | {"osds": listed if refusal is None else wide["osds"]}
        yield f"OSD {last:,} in an explicit set", there | {"pg_upmap": [["1.0", [last]]]}, refusal, plain
        for pair in ([0, last], [last, 0]):
            yield f"the pair {pair}", there | {"pg_upmap_items": [["1.0", [pair]]]}, refusal, plain


def size_maps() -> Limited:
    """Maps with pools of as many places as there may be, and of one more, and so with entries and counts."""
    for size, refusal, plain in (
        (PLAIN_SIZE, None, None),
        (PLAIN_SIZE + 1, None, "BadLimit"),
        (SIZE, None, "BadLimit"),
        (SIZE + 1, "BadLimit", "BadLimit"),
    ):
        wide = a_map([dict(pool(1, 8), size=min(size, SIZE))], devices=64)
        yield f"a pool of size {size}", a_map([dict(pool(1, 8), size=size)], devices=64), refusal, plain
        yield f"an explicit set of {size} OSDs", wide | {"pg_upmap": [["1.0", list(range(size))]]}, refusal, plain
        pairs = [[osd, osd + 32] for osd in range(size)]
        yield f"{size} pairs", wide | {"pg_upmap_items": [["1.0", pairs]]}, refusal, plain
        rule = {"id": 0, "kind": "replicated", "steps": [["take", -1], ["choose_firstn", size, 0], ["emit"]]}
        yield f"a step that chooses {size}", a_map([pool(1, 8)], devices=64, rules=[rule]), refusal, plain


def maps() -> Limited:
    """Maps with their names, and the words by which each is refused under the option and without it, or None."""
    yield "a pool of 65,536 groups", a_map([pool(1, GROUPS)]), None, "BadLimit"
    yield "a pool of 65,537 groups", a_map([pool(1, GROUPS + 1)]), "BadLimit", "BadLimit"
    yield "65,537 groups for placement", a_map([pool(1, GROUPS, GROUPS + 1)]), "BadLimit", "BadLimit"
    full = [pool(n, GROUPS) for n in range(1, FULL_POOLS + 1)]
    yield "16 pools of 65,536 groups", a_map(full), None, "BadLimit"
    yield "16 pools of 65,536 groups, and one of one", a_map([*full, pool(FULL_POOLS + 1, 1)]), "BadLimit", "BadLimit"
    more = [pool(1, 32_769)] + [pool(n, 32_768) for n in range(2, 33)]
    yield "32 pools of 32,768 groups, one of them with one more", a_map(more), "BadLimit", "BadLimit"
    yield "a straw2 bucket of 4,096 items", a_map([pool(1, 8)], [bucket(-1, range(ITEMS))], ITEMS), None, "BadField"
    items = [bucket(-1, [*range(ITEMS), -2]), bucket(-2, [0], level=1)]
    yield "a straw2 bucket of 4,097 items", a_map([pool(1, 8)], items, ITEMS), "BadLimit", "BadField"
    for kind in ("uniform", "list", "tree"):
        yield f"a {kind} bucket of 64 items", a_map([pool(1, 8)], [bucket(-1, range(64), kind)], 64), None, None
        yield f"a {kind} bucket of 65 items", a_map(
            [pool(1, 8)], [bucket(-1, range(65), kind)], 65
        ), "BadLimit", "BadLimit"
    yield "4,096 buckets", a_map([pool(1, 8)], chains(BUCKETS), CHAINS), None, "BadField"
    yield "4,097 buckets", a_map([pool(1, 8)], chains(BUCKETS + 1), CHAINS), "BadLimit", "BadField"
    yield from osd_maps()
    yield from size_maps()
    for count, refusal, plain in (
        (PLAIN_POOLS, None, None),
        (PLAIN_POOLS + 1, None, "BadLimit"),
        (POOLS, None, "BadLimit"),
        (POOLS + 1, "BadLimit", "BadLimit"),
    ):
        yield f"{count} pools", a_map(pools_of(range(1, count + 1))), refusal, plain
        yield f"{count} rules", a_map(pools_of([1]), rules=rules_of(count)), refusal, plain
    yield "256 pools of 4,096 groups", a_map([pool(n, 4_096) for n in range(1, POOLS + 1)]), None, "BadLimit"
    more = [pool(1, 4_097)] + [pool(n, 4_096) for n in range(2, POOLS + 1)]
    yield "256 pools of 4,096 groups, one of them with one more", a_map(more), "BadLimit", "BadLimit"
    for key, entry in (("pg_upmap", ["1.0", [0]]), ("pg_upmap_items", ["1.0", [[0, 0]]])):
        for count, refusal in ((ENTRIES, "BadException"), (ENTRIES + 1, "BadLimit")):
            yield f"{count:,} entries of {key}", a_map([pool(1, 1)]) | {key: [entry] * count}, refusal, "BadLimit"


def changes() -> Iterator[tuple[int, Json, str]]:
    """Changes over a map of 15 pools of 65,536 groups and one of 65,535, one after the other, with their answers."""
    base, crush = 1, {"rules": a_map([])["rules"]}
    last, next_pool, other = FULL_POOLS, FULL_POOLS + 1, FULL_POOLS + 2
    full = pool(last, GROUPS - 1)
    yield base, {"new_pools": [pool(next_pool, 1)]}, "ok 2 evals 1"
    yield base + 1, {"new_pools": [pool(other, 1)]}, "err 15 BadPool"
    yield base + 1, {"grow_pool": [[last, GROUPS, GROUPS]]}, "err 15 BadPool"
    yield base + 1, {"grow_pool": [[next_pool, 1, 1]]}, "ok 3 evals 1"
    yield base + 2, {"old_pools": [next_pool], "grow_pool": [[last, GROUPS, GROUPS]]}, f"ok 4 evals {GROUPS}"
    yield base + 3, {"grow_pool": [[last, GROUPS + 1, 1]]}, "err 12 BadLimit"
    yield base + 3, {"new_pools": [pool(other, GROUPS + 1)]}, "err 12 BadLimit"
    yield base + 3, {"old_pools": [last], "new_pools": [full, pool(other, 2)]}, "err 15 BadPool"
    yield base + 3, {
        "old_pools": [last],
        "new_pools": [full, pool(other, 2)],
        "new_upmap": [["99.0", [0]]],
    }, "err 23 UnknownPool"
    yield base + 3, {
        "old_pools": [last],
        "new_pools": [full, pool(other, 2)],
        "old_upmap": ["1.10000"],
    }, "err 15 BadPool"
    yield base + 3, {"new_pools": [pool(other, 2), pool(other, 2)]}, "err 27 DuplicatePart"
    yield base + 3, {"old_pools": [last], "new_pools": [pool(other, 1), full]}, "err 27 DuplicatePart"
    yield base + 3, {"old_pools": [last], "new_pools": [pool(other, GROUPS)]}, f"ok 5 evals {GROUPS}"
    yield base + 4, {"new_crush": crush | {"buckets": chains(BUCKETS)}}, "err 13 BadForest"
    yield base + 4, {"new_crush": crush | {"buckets": chains(BUCKETS + 1)}}, "err 12 BadLimit"
    yield base + 4, {
        "new_crush": crush | {"buckets": [bucket(-1, [*range(ITEMS), -2]), bucket(-2, [0], level=1)]}
    }, "err 12 BadLimit"


def counted(pools: int, rules: int) -> Iterator[tuple[int, Json, str]]:
    """Changes over a map of one pool fewer than there may be, one after the other, with their answers: as many pools
    and rules as there may be, and one more."""
    buckets, most = a_map([])["buckets"], pools
    yield 1, {"new_pools": pools_of([most, most + 1])}, "err 15 BadPool"
    yield 1, {"new_pools": pools_of([most])}, "ok 2 evals 1"
    yield 2, {"new_pools": pools_of([most + 1])}, "err 15 BadPool"
    yield 2, {"new_pools": pools_of([most + 1]), "down": [9]}, "err 21 UnknownOsd"
    yield 2, {"new_pools": pools_of([most + 1]), "old_items": ["1.1"]}, "err 15 BadPool"
    yield 2, {"new_pools": pools_of([1])}, "err 24 PoolExists"
    yield 2, {"old_pools": [1, 2], "new_pools": pools_of([most + 1, most + 2])}, "ok 3 evals 2"
    yield 3, {"old_pools": [3], "new_pools": pools_of([most + 3, most + 4])}, "err 15 BadPool"
    yield 3, {
        "old_pools": list(range(3, most + 1)),
        "new_pools": pools_of(range(most + 3, 2 * most + 1)),
    }, f"ok 4 evals {most - 2}"
    yield 4, {"new_crush": {"buckets": buckets, "rules": rules_of(rules + 1)}}, "err 12 BadLimit"
    yield 4, {"new_crush": {"buckets": buckets, "rules": rules_of(rules)}}, f"ok 5 evals {most}"
    yield 5, {
        "new_crush": {"buckets": buckets, "rules": rules_of(rules + 1)},
        "new_pools": pools_of([1]),
    }, "err 12 BadLimit"


def lists() -> Iterator[tuple[Json, str]]:
    """Lists of a change with as many entries as they may have, and one more, with their answers."""
    twice = "err 27 DuplicatePart"
    for key, entry, answer in (
        ("old_pools", 9, "err 23 UnknownPool"),
        ("down", 0, twice),
        ("weight", [0, 1], twice),
        ("old_upmap", "1.0", twice),
        ("new_items", ["1.0", [[0, 0]]], "err 26 BadException"),
    ):
        yield {key: [entry] * ENTRIES}, answer
        yield {key: [entry] * (ENTRIES + 1)}, "err 12 BadLimit"


def written(value: object) -> str:
    return json.dumps(value, separators=(",", ":"))


def run(
    command: pathlib.Path, value: Json, lines: list[str], words: Sequence[str] = ("--stock",)
) -> tuple[list[str], str]:
    """The output lines and the standard error of a run."""
    with tempfile.TemporaryDirectory() as folder:
        files = [pathlib.Path(folder) / name for name in ("map", "script")]
        files[0].write_text(written(value))
        files[1].write_text("".join(f"{line}\n" for line in lines))
        done = subprocess.run([command, *words, *files], capture_output=True, text=True, timeout=SECONDS)
    return done.stdout.split("\n")[1:-1], done.stderr.strip()


def of_map(value: Json, refusal: str | None, plain: str | None) -> Callable[[pathlib.Path], list[str]]:
    """What the program says otherwise than expected of a map under the option, and without it."""

    def work(command: pathlib.Path) -> list[str]:
        wrong = []
        for word, words in ((refusal, ("--stock",)), (plain, ())):
            expected: tuple[list[str], str] = ([], f"map: {word}") if word else (["epoch 1"], "")
            found = run(command, value, ["epoch"], words)
            wrong += [f"{words}: expected {expected}, got {found}"[:600]] * (found != expected)
        return wrong

    return work


def full_map() -> Json:
    """16 pools of three places with as many groups in all as there may be, each of which has an explicit set and a
    pair, and as many buckets as there may be. The rule takes one device, which the explicit sets replace."""
    names = [f"{number}.{group:x}" for number in range(1, FULL_POOLS + 1) for group in range(GROUPS)]
    sets = [[(7 * at + 3 * place) % CHAINS for place in range(3)] for at in range(CHAINS)]
    steps = [["take", -2], ["choose_firstn", 1, 0], ["emit"]]
    return a_map(
        [dict(pool(number, GROUPS), size=3) for number in range(1, FULL_POOLS + 1)],
        chains(BUCKETS),
        CHAINS,
        pg_upmap=[[name, sets[at % CHAINS]] for at, name in enumerate(names)],
        pg_upmap_items=[[name, [[sets[at % CHAINS][0], (at + 1) % CHAINS]]] for at, name in enumerate(names)],
        rules=[{"id": 0, "kind": "replicated", "steps": steps}],
    )


def placed(explicit: list[int], pairs: list[list[int]]) -> list[int]:
    """An explicit set under pairs, where every OSD is up and in."""
    for left, right in pairs:
        if left in explicit and right not in explicit:
            explicit = [right if osd == left else osd for osd in explicit]
    return explicit


class WideMaps(RowCase):
    """Maps at each limit."""

    def test_maps(self) -> None:
        """Maps are taken up to their limits, and refused past them."""
        self.check_runs(
            Check(
                f"{name}: {refusal or 'taken'} under --stock, {plain or 'taken'} without", of_map(value, refusal, plain)
            )
            for name, value, refusal, plain in maps()
        )


class WideLimits(Case):
    """Changes at each limit, and answers over the greatest maps."""

    def answers(self, value: Json, lines: list[str], expected: list[str], words: Sequence[str] = ("--stock",)) -> None:
        """Asks that lines over a map are answered so."""
        output, error = run(self.program, value, lines, words)
        self.assertEqual(error, "")
        for line, answer, wanted in zipped(lines, output, expected):
            self.assertEqual(answer, wanted, line[:100])

    def accepted(
        self, value: Json, cases: Iterable[tuple[int, Json, str]], words: Sequence[str] = ("--stock",)
    ) -> None:
        """Asks that changes are answered so, each made at an epoch."""
        made = list(cases)
        lines = [f"change {written({'base': base} | parts)}" for base, parts, _ in made]
        self.answers(value, lines, [answer for *_, answer in made], words)

    def test_groups_in_changes(self) -> None:
        """Changes to as many groups as there may be, and one more."""
        full = [pool(n, GROUPS) for n in range(1, FULL_POOLS)]
        self.accepted(a_map([*full, pool(FULL_POOLS, GROUPS - 1)]), changes())

    def test_pools_in_changes(self) -> None:
        """Changes to 256 pools and rules, and one more."""
        self.accepted(a_map(pools_of(range(1, POOLS))), counted(POOLS, RULES))

    def test_pools_in_plain_changes(self) -> None:
        """Changes to 32 pools and rules, and one more, without `--stock`."""
        self.accepted(a_map(pools_of(range(1, PLAIN_POOLS))), counted(PLAIN_POOLS, PLAIN_RULES), ())

    def test_lists_in_changes(self) -> None:
        """Lists of 1,048,576 entries, and of 1,048,577."""
        self.accepted(a_map([pool(1, 1)]), ((1, parts, answer) for parts, answer in lists()))

    def test_osds_in_changes(self) -> None:
        """Changes that name OSDs from 1,024 on, and more entries than plain ones have: refused by their limits without
        `--stock`, and with it judged as others."""
        value, crush = a_map([dict(pool(1, 8), size=10)], devices=64), {"rules": a_map([])["rules"]}
        parts: list[tuple[Json, list[str]]] = [
            ({part: [entry]}, [answer, "err 12 BadLimit"])
            for number, answer in ((PLAIN_OSDS, "err 21 UnknownOsd"), (OSDS, "err 12 BadLimit"))
            for part, entry in (
                ("down", number),
                ("up", number),
                ("weight", [number, 1]),
                ("new_upmap", ["1.0", [number]]),
                ("new_items", ["1.0", [[0, number]]]),
                ("new_items", ["1.0", [[number, 0]]]),
            )
        ]
        for size, answer in ((PLAIN_SIZE + 1, "err 26 BadException"), (SIZE + 1, "err 12 BadLimit")):
            parts.append(({"new_upmap": [["1.0", list(range(size))]]}, [answer, "err 12 BadLimit"]))
            parts.append(
                ({"new_items": [["1.0", [[osd, osd + 32] for osd in range(size)]]]}, [answer, "err 12 BadLimit"])
            )
        for item, answer in ((PLAIN_OSDS, "err 13 BadForest"), (OSDS, "err 12 BadLimit")):
            parts.append(
                ({"new_crush": crush | {"buckets": [bucket(-1, [item], "list")]}}, [answer, "err 12 BadLimit"])
            )
        for at, words in enumerate((("--stock",), ())):
            self.accepted(value, ((1, made, answers[at]) for made, answers in parts), words)

    def test_sizes_in_changes(self) -> None:
        """Pools of up to size 20 come and go, and rules that choose as many, where the option allows them."""
        value, crush = a_map([pool(1, 8)], devices=64), {"buckets": a_map([], devices=64)["buckets"]}
        rule = {"id": 0, "kind": "replicated", "steps": [["take", -1], ["choose_firstn", SIZE, 0], ["emit"]]}
        longer = rule | {"steps": [["take", -1], ["choose_firstn", SIZE + 1, 0], ["emit"]]}
        made: list[tuple[int, Json, str]] = [
            (1, {"new_pools": [dict(pool(2, 8), size=SIZE)]}, "ok 2 evals 8"),
            (2, {"new_pools": [dict(pool(3, 8), size=SIZE + 1)]}, "err 12 BadLimit"),
            (2, {"new_upmap": [["2.0", list(range(SIZE))]]}, "ok 3 evals 1"),
            (3, {"new_items": [["2.1", [[osd, osd + 32] for osd in range(SIZE)]]]}, "ok 4 evals 1"),
            (4, {"new_crush": crush | {"rules": [rule]}}, "ok 5 evals 16"),
            (5, {"new_crush": crush | {"rules": [longer]}}, "err 12 BadLimit"),
            (5, {"old_pools": [2]}, "ok 6 evals 0"),
        ]
        self.accepted(value, made)
        refused = [(1, parts, "err 12 BadLimit") for _, parts, _ in made[:5]]
        self.accepted(value, refused, ())

    def test_groups(self) -> None:
        """A pool of 65,536 groups is answered."""
        lines = ["up 1.ffff", "up 1.10000", "count 0", "change " + written({"base": 1, "down": [0]}), "count 0"]
        expected = ["up 1 1.ffff [0] 0", "err 25 UnknownGroup", f"count 1 0 {GROUPS}", "ok 2 evals 0", "count 2 0 0"]
        self.answers(a_map([pool(1, GROUPS)]), lines, expected)

    def test_places(self) -> None:
        """Two takes of a bucket put its OSD into each set twice. It has each group once, of more than a plain pool
        has."""
        groups, block = 5_000, [["take", -1], ["choose_firstn", 1, 0], ["emit"]]
        value = a_map([dict(pool(1, groups), size=2)], rules=[{"id": 0, "kind": "replicated", "steps": block * 2}])
        names = ",".join(f"1.{number:x}" for number in range(groups))
        changes = ["change " + written({"base": base, part: [0]}) for base, part in ((1, "down"), (2, "up"))]
        lines = ["up 1.1387", "count 0", "groups 0", changes[0], "count 0", changes[1], "count 0", "groups 0"]
        wanted = [
            "up 1 1.1387 [0,0] 0",
            f"count 1 0 {groups}",
            f"groups 1 0 [{names}]",
            "ok 2 evals 0",
            "count 2 0 0",
            "ok 3 evals 0",
            f"count 3 0 {groups}",
            f"groups 3 0 [{names}]",
        ]
        self.answers(value, lines, wanted)

    def test_every_maximum(self) -> None:
        """As many groups, exceptions and buckets as there may be, all at once: read, asked also by a follower, changed
        in each exception and in a state, written and read back."""
        value = full_map()
        asked = list(zip(value["pg_upmap"], value["pg_upmap_items"]))[::3_989]
        sets = [(name, placed(explicit, pairs)) for (name, explicit), (_, pairs) in asked]
        names = [name for name, _ in value["pg_upmap"]]
        parts = {"base": 1, "new_upmap": [[name, [5]] for name in names], "old_items": names}
        buckets = sorted(value["buckets"], key=lambda own: -int(own["id"]))
        after = value | {"epoch": 2, "pg_upmap": parts["new_upmap"], "pg_upmap_items": [], "buckets": buckets}
        dump = "dump " + json.dumps(after, separators=(",", ":"), sort_keys=True)
        lines = [f"{word} {name}" for name, _ in sets for word in ("up", "fup")]
        lines += ["change " + written(parts), "count 5", "count 6", "dump", "follow", f"fup {names[-1]}"]
        lines += ["apply " + written({"down": [5]}), "count 5", f"up {names[-1]}"]
        found = [(name, f"[{','.join(map(str, places))}] {places[0]}") for name, places in sets]
        wanted = [f"{word} 1 {name} {places}" for name, places in found for word in ("up", "fup")]
        wanted += [
            f"ok 2 evals {TOTAL}",
            f"count 2 5 {TOTAL}",
            "count 2 6 0",
            dump,
            "follow 2",
            f"fup 2 {names[-1]} [5] 5",
        ]
        wanted += ["ok 3 evals 0", "count 3 5 0", f"up 3 {names[-1]} [] -1"]
        self.answers(value, lines, wanted)
        self.answers(after, ["count 5", "dump"], [f"count 2 5 {TOTAL}", dump])

    def test_moves(self) -> None:
        """All groups of a pool are on the first OSD: each move goes from there to the next OSD that has fewest, and
        takes the lowest group."""
        hosts = [bucket(-2 - host, range(64 * host, 64 * host + 64), "list", 1) for host in range(ITEMS // 64)]
        buckets = [bucket(-1, [host["id"] for host in hosts], "list"), *hosts]
        value = a_map([pool(1, GROUPS)], buckets, ITEMS, pg_upmap=[[f"1.{number:x}", [0]] for number in range(GROUPS)])
        to = [1 + number % (ITEMS - 1) for number in range(1024)] + [0]
        wanted = ["moved 1024 epoch 2"] + [f"up 2 1.{number:x} [{osd}] {osd}" for number, osd in enumerate(to)]
        self.answers(value, ["balance 1 1024"] + [f"up 1.{number:x}" for number in range(len(to))], wanted)
