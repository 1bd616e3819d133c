"""Plans that end: a plan over what another has made is empty, and what gains nothing is no plan."""

from __future__ import annotations

import pathlib
import random
import re
from collections import Counter
from collections.abc import Iterable
from contextlib import ExitStack
from dataclasses import replace
from functools import partial
from itertools import combinations, product
from typing import Any

from rekhuso.cluster.conversion import monitor_of
from rekhuso.cluster.disks import Disk
from rekhuso.cluster.evenness import Spread
from rekhuso.cluster.moving import coming, leaving
from rekhuso.cluster.pool_data import BYTE_PARTS, Data
from rekhuso.cluster.sources import Source
from rekhuso.cluster.view import ClusterView, view_of
from rekhuso.plans.at_rest import AtRest
from rekhuso.plans.bounds import Measure
from rekhuso.plans.busy import ALL
from rekhuso.plans.cycles import without_cycles
from rekhuso.plans.exchanges import Backs, BestExchanges, Exchange, Limit, OsdPair
from rekhuso.plans.falling_order import Levels, Shift, falling, rise_of
from rekhuso.plans.fullness import Fullness
from rekhuso.plans.gains import gains
from rekhuso.plans.least import FittingPlaces, least_for
from rekhuso.plans.loads import Laid, STEP_PARTS
from rekhuso.plans.parts import ordered_parts
from rekhuso.plans.plan import DEFAULT_WISH, Outcome, opened, planned
from rekhuso.plans.step_order import StepOrder, parts_in_order
from rekhuso.plans.rounds import Live
from rekhuso.plans.steps import PlanStep, change_by
from rekhuso.plans.worth import fullest_after

from tests.clusters import STOCK, Json, commands, copied
from tests.tool_cases import StockCase

# Stock clusters of few groups.
FEW = ("002-proxmox", "005-openstack-mixed", "011-drained", "019-two-roots")


def step_of(group: str, leaves: int, comes: int) -> PlanStep:
    """A step by which a group goes from an OSD to another."""
    return PlanStep(group, [f"ceph osd pg-upmap-items {group} {leaves} {comes}"], [], [leaves, 90], [comes, 90], False)


class Cluster:
    """Measures of a cluster of one or two pools of equal shares, in place of those of maps."""

    def __init__(self, counts: dict[int, dict[int, int]], share: dict[int, float], sizes: dict[str, float] | None):
        self.counts, self.sizes, self.aims = counts, sizes, None
        self.shares = {number: share for number in counts}

    def groups_in(self, number: int) -> Spread:
        """What OSDs have of a pool."""
        return Spread(self.counts[number], self.shares[number])

    def groups(self, counts: Any) -> Spread:
        """What OSDs have of all pools."""
        osds = {osd for own in counts.values() for osd in own}
        shares = {osd: sum(own[osd] for own in self.shares.values()) for osd in osds}
        return Spread({osd: sum(own.get(osd, 0) for own in counts.values()) for osd in osds}, shares)

    def bytes(self, _: object = ()) -> None:
        """Nothing is known of data."""

    def mean_place(self) -> float:
        """What a place holds in the mean is not known either."""
        return 0.0


def with_lines(dump: Json, lines: list[str]) -> Json:
    """An OSD dump with the commands of a plan given, as a monitor dumps it then."""
    found = copied(dump)
    items = {own["pgid"]: own["mappings"] for own in found["pg_upmap_items"]}
    sets = {own["pgid"]: own["osds"] for own in found["pg_upmap"]}
    for line in lines:
        _, _, word, group, *numbers = line.split()
        osds = list(map(int, numbers))
        if word == "pg-upmap-items":
            items[group] = [{"from": one, "to": other} for one, other in zip(osds[::2], osds[1::2])]
        elif word == "pg-upmap":
            sets[group] = osds
        else:
            (items if word == "rm-pg-upmap-items" else sets).pop(group)
    found["pg_upmap_items"] = [{"pgid": group, "mappings": own} for group, own in items.items()]
    found["pg_upmap"] = [{"pgid": group, "osds": own} for group, own in sets.items()]
    return found


def rises_in(outcome: Outcome, is_parted: bool) -> list[float]:
    """By how much the fullest OSD gets fuller by steps of a plan, or of its parts: it counts as no less full than it is
    at the end of all, and of the part.
    """
    assert outcome.measure
    full, found, begin = fullest_after(outcome.measure, outcome.steps), list[float](), 0
    for part in outcome.parts if is_parted else [outcome.steps]:
        end = begin + len(part)
        own = [max(ratio, full[end], full[-1]) for ratio in full[begin : end + 1]]
        found += [after - before for before, after in zip(own, own[1:]) if after > before + 1e-9]
        begin = end
    return found


def nearly_full(lives: list[Live], data: Data) -> dict[int, Disk]:
    """Disks made up for a cluster: they are as its weights, four fifths of all is in use, and of none more than five
    sixths.
    """
    used, weights = Counter[int](), {osd: own for live in lives for osd, own in live.before.items.items() if osd >= 0}
    for live in lives:
        for pool in live.pools.values():
            for size, up in zip(data.group_bytes(pool).values(), live.before.ups_in(pool)):
                used.update({osd: round(size) for osd in up.places if osd is not None})
    unit, found = 1.25 * sum(used.values()) / sum(weights.values()), dict[int, Disk]()
    for osd, weight in weights.items():
        size = round(max(weight * unit, 1.2 * used[osd], 2**20))
        found[osd] = Disk(size, used[osd], size - used[osd])
    return found


class FullDisks:
    """A stock cluster whose disks are nearly full, and what lies on them once commands are given: four fifths of all is
    in use, and of no disk more than five sixths. What the groups of a pool hold varies by half.
    """

    def __init__(self, program: pathlib.Path, name: str) -> None:
        rng = random.Random(7)
        self.program, self.own = program, STOCK[name]
        self.held = {
            f"{pool['pool']}.{at:x}": round(2**28 * (1 + pool["pool"] % 5) ** 3 * rng.uniform(0.5, 1.5))
            for pool in self.own["osd_dump"]["pools"]
            for at in range(pool["pg_num"])
        }
        self.sizes: dict[int, int] = {}

    def df(self) -> Json:
        """What `ceph df` prints."""
        stats = {
            pool["pool"]: sum(self.held[f"{pool['pool']}.{at:x}"] for at in range(pool["pg_num"])) * pool["size"]
            for pool in self.own["osd_dump"]["pools"]
        }
        return {"pools": [{"id": pool, "stats": {"bytes_used": own, "stored": own}} for pool, own in stats.items()]}

    def pgs(self) -> Json:
        """What `ceph pg dump` prints."""
        return {"pg_stats": [{"pgid": group, "stat_sum": {"num_bytes": own}} for group, own in self.held.items()]}

    def sets(self, files: Iterable[pathlib.Path]) -> dict[str, list[int | None]]:
        """Where the groups are by some dumps, as the program answers."""
        whole, found = view_of(Source(tuple(map(str, files)), None, self.program, None, None, False)), {}
        for value in whole.maps:
            with monitor_of(value, self.program, True) as monitor:
                found.update({group: up.places for group, up in monitor.pool_ups(value["pools"]).items()})
        buckets = [bucket for value in whole.maps for bucket in value["buckets"]]
        weights = {osd: weight for bucket in buckets for osd, weight in bucket["items"] if osd >= 0}
        if not self.sizes:
            used = self.used(found)
            unit = 1.25 * sum(used.values()) / sum(weights.values())
            self.sizes = {osd: round(max(own * unit, 1.2 * used[osd], 2**30)) for osd, own in weights.items()}
        return found

    def used(self, sets: dict[str, list[int | None]]) -> Counter[int]:
        """What lies on disks."""
        found = Counter[int]()
        for group, places in sets.items():
            found.update({osd: self.held[group] for osd in places if osd is not None})
        return found

    def nearly_full(self, was: dict[str, list[int | None]], now: dict[str, list[int | None]]) -> list[int]:
        """The disks to which something comes, and which have more than 0.85 of their size once all has come and nothing
        has gone.
        """
        used, come = self.used(was), Counter[int]()
        for group, places in now.items():
            come.update({osd: self.held[group] for osd in coming(was[group], places, False)})
        return [osd for osd, size in come.items() if used[osd] + size > 0.85 * self.sizes[osd]]

    def osds(self, sets: dict[str, list[int | None]]) -> Json:
        """What `ceph osd df` prints."""
        used = self.used(sets)
        rows = [(osd, size // 1024, used[osd] // 1024) for osd, size in self.sizes.items()]
        return {"nodes": [{"id": osd, "kb": kb, "kb_used": own, "kb_avail": kb - own} for osd, kb, own in rows]}


class PlansEnd(StockCase):
    """Second plans, moves that cancel, and what gains nothing."""

    def data_of(self, name: str) -> pathlib.Path:
        """What the pools of a stock cluster hold: drawn, a hundredfold apart."""
        rng = random.Random(7)
        held = {pool["pool"]: round(2**40 * 10 ** rng.uniform(-1, 1)) for pool in STOCK[name]["osd_dump"]["pools"]}
        names = {pool["pool"]: pool["pool_name"] for pool in STOCK[name]["osd_dump"]["pools"]}
        pools = [
            {"id": pool, "name": names[pool], "stats": {"bytes_used": size, "stored": size}}
            for pool, size in held.items()
        ]
        return self.tools.put(f"{name}-df", {"stats": {"total_used_raw_bytes": 5}, "pools": pools})

    def test_second_plans(self) -> None:
        """A plan over dumps with the commands of a plan given has no command, or as many as the first has told."""
        for name in FEW:
            df = self.data_of(name)
            ways: list[list[object]] = [[], ["--alone"], ["--df", df], ["--df", df, "--room"]]
            for words in ways:
                own = STOCK[name]
                output, error = self.ran("plan", *self.dumps(name), *words, "--anyway")
                dump = with_lines(own["osd_dump"], commands(output))
                again = dict(own, osd_dump=dump)
                second = commands(self.output("plan", *self.dumps(name, again), *words, "--anyway"))
                with self.subTest(name=name, words=words[:1]):
                    self.assertTrue(output or "nothing to gain" in error)
                    if "a plan over this one begins with" not in error:
                        self.assertEqual(second, [])

    def test_plans_beside_full_disks(self) -> None:
        """Beside disks that are nearly full the first plan brings the fullest OSD near its share, and each plan over it
        has as many commands as the one before has told, until one has none; no disk gets nearly full where all of a
        plan has come and nothing has gone.
        """
        for name in ("001-three-hosts", "002-proxmox", "020-stretch"):
            own, dump, told = FullDisks(self.program, name), STOCK[name]["osd_dump"], [-1]
            data: list[object] = ["--df", self.tools.put("df", own.df()), "--pgs", self.tools.put("pgs", own.pgs())]
            while told[-1] and len(told) < 6:
                files = self.dumps(name, dict(STOCK[name], osd_dump=dump))
                was = own.sets(files)
                more = [*data, "--osds", self.tools.put("osds", own.osds(was)), "--anyway"]
                output, error = self.ran("plan", *files, *more)
                if len(told) == 1:
                    fullest = self.json("plan", *files, *more)["cluster"]["after"]["bytes"]["fullest"]["ratio"]
                    self.assertLessEqual(fullest, 1.07, name)
                self.assertIn(told[-1], (-1, len(commands(output))), (name, told))
                found = re.search(r"a plan over this one begins with (\d+) command", error)
                told.append(int(found[1]) if found else 0)
                dump = with_lines(dump, commands(output))
                now = own.sets(self.dumps(name, dict(STOCK[name], osd_dump=dump)))
                self.assertEqual(own.nearly_full(was, now), [], (name, told))
            self.assertLess(len(told), 6, (name, told))
            files = self.dumps(name, dict(STOCK[name], osd_dump=dump))
            more = [*data, "--osds", self.tools.put("osds", own.osds(own.sets(files))), "--anyway"]
            self.assertEqual(commands(self.output("plan", *files, *more)), [], (name, told))

    def test_first_commands(self) -> None:
        """`--until` takes as many commands as bring the fullest OSD to a ratio, and not one more; what is told of all
        is how full it is after so many places. Where it never gets there all are taken.
        """
        files = [*self.dumps("007-cephfs-ec"), "--anyway"]
        whole = self.json("plan", *files)
        self.assertEqual(self.json("plan", *files, "--until", "1")["commands"], whole["commands"])
        for ratio in (1.5, 1.2, 1.1):
            own = self.json("plan", *files, "--until", ratio)
            count = len(own["commands"])
            self.assertEqual(own["commands"], whole["commands"][:count])
            self.assertLessEqual(own["cluster"]["after"]["groups"]["fullest"]["ratio"], ratio)
            before = self.json("plan", *files, "--first", count - 1)
            self.assertGreater(before["cluster"]["after"]["groups"]["fullest"]["ratio"], ratio)
        worth, before, after = whole["worth"], *(whole["cluster"][when]["groups"] for when in ("before", "after"))
        self.assertEqual(worth["fullest"][0], [0, before["fullest"]["ratio"]])
        self.assertEqual(worth["fullest"][-1], [whole["moving"]["places"], after["fullest"]["ratio"]])
        self.assertLessEqual(whole["cluster"]["least"], after["fullest"]["ratio"])
        first = self.json("plan", *files, "--first", worth["first"]["commands"])
        self.assertEqual(first["cluster"]["after"]["groups"]["fullest"]["ratio"], worth["first"]["fullest"])

    def test_least(self) -> None:
        """How full the fullest OSD stays at least is what trying all numbers of places gives: whole places, no more in
        a failure domain than it may have, and what does not move stays.
        """
        rng = random.Random(3)
        for _ in range(150):
            wanted, fixed = ({osd: rng.uniform(1, 3) for osd in range(4)} for _ in range(2))
            fixed = {osd: own - 1 for osd, own in fixed.items()}
            size, domains = rng.uniform(0.4, 1.2), [((0, 1), rng.randint(1, 6)), ((2, 3), rng.randint(1, 6))]
            count = rng.randint(1, sum(most for _, most in domains))
            ways = (
                own
                for own in product(range(count + 1), repeat=4)
                if sum(own) == count and all(own[one] + own[two] <= most for (one, two), most in domains)
            )
            worst = min(
                max([(fixed[osd] + size * own) / wanted[osd] for osd, own in enumerate(way) if own]) for way in ways
            )
            found = least_for(partial(FittingPlaces(count, size, domains).fit, wanted, fixed))
            self.assertLessEqual(found, worst + 1e-9)
            self.assertGreater(found, worst - 1e-3)

    def test_order_that_is_cut(self) -> None:
        """Where each OSD only gives or only gets, the fullest never gets fuller on the way than it is at the end; and
        of two steps that the fullest OSD has, the one that makes another fuller than that comes last.
        """
        rng = random.Random(11)
        for _ in range(300):
            steps = [step_of(f"1.{at:x}", at % 4, 4 + rng.randrange(4)) for at in range(12)]
            spread = Spread(dict.fromkeys(range(8), 12), {osd: rng.uniform(9, 16) for osd in range(8)})
            own = [
                step for part in parts_in_order(StepOrder(spread, None, list(steps)), 10**6, False) for step in part
            ]
            self.assertEqual(sorted(step.group for step in own), sorted(step.group for step in steps))
            full = fullest_after(Measure(spread, None, {}, {}), own)
            self.assertTrue(all(other <= max(one, full[-1]) + 1e-9 for one, other in zip(full, full[1:])))
        steps = [step_of("1.0", 2, 1), step_of("1.1", 1, 0), step_of("1.2", 1, 0)]
        spread = Spread({0: 6, 1: 10, 2: 11}, {0: 10.0, 1: 10.0, 2: 10.0})
        own = [step for part in parts_in_order(StepOrder(spread, None, steps), 10**6, False) for step in part]
        self.assertEqual([step.group for step in own][0], "1.0")
        self.assertEqual(fullest_after(Measure(spread, None, {}, {}), own)[1:], [1.1, 1.0, 1.0])

    def test_order_beside_full_disks(self) -> None:
        """Where steps are left for the sake of disks that are nearly full, the fullest OSD gets fuller by none of those
        that are taken, unless it would by each of them; no disk gets too full by them.
        """
        rng, cut, kept = random.Random(7), 0, 0
        for _ in range(300):
            steps = [step_of(f"1.{at:x}", *rng.sample(range(5), 2)) for at in range(10)]
            spread = Spread(
                {osd: rng.randint(8, 14) for osd in range(5)}, {osd: rng.uniform(9, 12) for osd in range(5)}
            )
            limits = {osd: own + rng.randint(0, 3) for osd, own in spread.has.items()}
            order = StepOrder(spread, None, steps, limits=limits)
            own = [step for part in ordered_parts(order, ALL) for step in part]
            full = fullest_after(Measure(spread, None, {}, {}), own)
            come = Counter(osd for step in own for osd in step.comes())
            self.assertTrue(all(spread.has[osd] + count <= limits[osd] for osd, count in come.items()))
            if order.left and any(other > one + 1e-9 for one, other in zip(full, full[1:])):
                ways = [fullest_after(Measure(spread, None, {}, {}), [step])[1] for step in own]
                self.assertGreater(min(ways), full[0])
            cut += bool(order.left and len(own) + len(order.left) < len(steps))
            kept += bool(order.left and own)
        self.assertGreater(min(cut, kept - cut), 20)

    def test_order_of_rings(self) -> None:
        """Of small plans with rings an order is found in which the fullest OSD gets fuller by no step, of nine in ten
        that have one, as trying all orders shows; no order that is found is another plan.
        """
        rng, there, found = random.Random(5), 0, 0
        for _ in range(120):
            share = {osd: rng.uniform(8, 20) for osd in range(4)}
            has = {osd: own * rng.uniform(0.9, 1.2) for osd, own in share.items()}
            ways = [rng.sample(range(4), 2) for _ in range(6)]
            shifts = {f"1.{at}": Shift([come], [go], rng.uniform(0.1, 1)) for at, (go, come) in enumerate(ways)}

            def full(taken: Iterable[str], has: dict[int, float] = has, own: dict[str, Shift] = shifts) -> float:
                levels = dict(has)
                for group in taken:
                    levels[own[group].come[0]] += own[group].size
                    levels[own[group].go[0]] -= own[group].size
                return max(levels[osd] / share[osd] for osd in share)

            end, levels = full(shifts), Levels(has, share, full(shifts))
            for shift in shifts.values():
                levels.move(shift, 1)
            order = falling(levels, shifts)
            self.assertEqual(sorted(order), sorted(shifts))
            own = [max(full(order[:count]), end) for count in range(len(order) + 1)]
            rises = [after - before for before, after in zip(own, own[1:])]
            told = rise_of(Levels(has, share, end), map(shifts.__getitem__, order))
            self.assertAlmostEqual(told, max([0.0, *rises]))
            tops = {frozenset(own): max(full(own), end) for at in range(7) for own in combinations(shifts, at)}
            ends = {frozenset[str]()}
            for _ in shifts:
                more = ((taken, taken | {group}) for taken in ends for group in shifts.keys() - taken)
                ends = {after for before, after in more if tops[after] <= tops[before] + 1e-9}
            there += bool(ends)
            found += bool(ends) and max(rises) <= 1e-9
        self.assertGreater(there, 50)
        self.assertGreater(found, 0.9 * there)

    def test_order_of_plans(self) -> None:
        """The fullest OSD gets fuller by no command of a plan, however far it is carried out: by groups, by data and
        for room; and where it is made in parts, by none within a part.
        """
        for name in FEW:
            source = Source(tuple(map(str, self.dumps(name))), None, self.program, None, None, False)
            whole = view_of(source)
            held = {pool["id"]: 2**30 * (1 + pool["id"] % 5) ** 3 for pool in whole.pools}
            data = Data("", held, {}, {}, 0, 0, {}, {})
            ways: list[dict[str, Any]] = [{}, {"data": data}, {"data": data, "is_room": True}]
            for more in ways + [{**way, "batch": 6} for way in ways]:
                with ExitStack() as stack, self.subTest(name=name, more=sorted(more)):
                    outcome = planned(opened(stack, whole, self.program, True), replace(DEFAULT_WISH, **more))
                    self.assertIsNotNone(outcome.measure)
                    self.assertEqual(outcome.parts and rises_in(outcome, "batch" in more), [])

    def filled(self, whole: ClusterView, outcome: Outcome) -> list[float]:
        """How full the fullest OSD is before the commands of a plan, and after each that is the last of its group: by
        the sets that the program answers once it is given.
        """
        assert outcome.measure
        share, has = outcome.measure.spread.share, dict(outcome.measure.spread.has)
        found = [max(has.get(osd, 0) / own for osd, own in share.items() if own > 0)]
        with ExitStack() as stack:
            monitors = [stack.enter_context(monitor_of(value, self.program, True)) for value in whole.maps]
            of_pool = {pool["id"]: own for value, own in zip(whole.maps, monitors) for pool in value["pools"]}
            for step in outcome.steps:
                monitor, size = of_pool[step.pool], outcome.measure.size(step.group)
                was = monitor.up(step.group).places
                for line in step.commands:
                    monitor.change(None, **change_by([line]))
                now = monitor.up(step.group).places
                for osds, more in ((coming(was, now, False), size), (leaving(was, now, False), -size)):
                    has.update({osd: has.get(osd, 0) + more for osd in osds})
                found.append(max(has.get(osd, 0) / own for osd, own in share.items() if own > 0))
        return found

    def test_beginnings(self) -> None:
        """However many commands of a plan are given, the fullest OSD has got no fuller by any of them, by the sets that
        the program answers: by groups, by data, for room, and beside disks that are nearly full. It counts as no less
        full than it is at the end; where steps are left for the sake of disks, as what it is.
        """
        stopped = 0
        for name in FEW:
            whole = view_of(Source(tuple(map(str, self.dumps(name))), None, self.program, None, None, False))
            held = {pool["id"]: 2**30 * (1 + pool["id"] % 5) ** 3 for pool in whole.pools}
            data = Data("", held, {}, {}, 0, 0, {}, {})
            for way in range(5):
                with ExitStack() as stack, self.subTest(name=name, way=way):
                    lives = opened(stack, whole, self.program, True)
                    own = replace(data, disks=nearly_full(lives, data) if way > 2 else {}) if way else None
                    outcome = planned(lives, replace(DEFAULT_WISH, data=own, is_room=way in (2, 4)))
                    full = self.filled(whole, outcome)
                    floor = 0.0 if outcome.stopped else full[-1]
                    rises = [max(after, floor) - max(before, floor) for before, after in zip(full, full[1:])]
                    self.assertLessEqual(max(rises, default=0.0), 1e-9)
                    stopped += bool(outcome.stopped and outcome.steps)
        self.assertGreater(stopped, 0)

    def test_best_exchanges(self) -> None:
        """The best exchanges between two OSDs are those that a look at each two sizes finds, of which each pool offers
        the two nearest to the best at either side, and of which no more goes than may.
        """
        rng = random.Random(9)
        for at in range(300):
            full = Fullness({0: rng.uniform(5, 9), 1: rng.uniform(5, 9)})
            full.add({0: BYTE_PARTS * rng.randint(8, 12), 1: BYTE_PARTS * rng.randint(2, 8)})
            sizes, *backs = (sorted({BYTE_PARTS * rng.randint(1, 40) // 8 for _ in range(9)}) for _ in range(4))
            most, best = (BYTE_PARTS * rng.randint(1, 9) if at % 2 else 99 * BYTE_PARTS), full.best_size(0, 1)
            wanted: list[Exchange] = []
            for size, (other, less) in product(sizes, enumerate(backs)):
                below, above = ([own for own in less if (own < size - best) is is_low] for is_low in (True, False))
                own_gains = ((full.gain(0, 1, size - own), own) for own in below[-2:] + above[:2] if size - own <= most)
                wanted += [(-gain, 5, 1, size, other, own) for gain, own in own_gains if gain > 0]
            found, pair = BestExchanges(7), OsdPair(full, 0, 1, Limit(most.__ge__))
            for size in sizes:
                pair.put(found, 5, size, Backs(enumerate(backs)))
            self.assertEqual(found.found, sorted(wanted)[:7])

    def test_pools_at_rest(self) -> None:
        """Where it is known that a pool has no move there is none, whatever ways are open between OSDs that did not
        differ enough when its plan ended; and where OSDs are as they were it is known.
        """
        rng, osds, apart, known = random.Random(5), range(8), 6, 0
        for _ in range(3000):
            rest, counts = AtRest(apart * STEP_PARTS), {osd: rng.randint(0, 2) for osd in osds}
            laid = Laid(0, {}, counts, {}, frozenset())
            was, now = ({osd: STEP_PARTS * rng.randint(-6, 6) for osd in osds} for _ in range(2))
            near = {osd: own + STEP_PARTS * rng.randint(-1, 1) * rng.randint(0, 1) for osd, own in was.items()}
            open_ways = [(one, other) for one in osds for other in osds if was[one] - was[other] <= rest.apart]
            rest.put(1, was)
            self.assertFalse(rest.has_move(1, was, laid))
            for above in (now, near):
                moves = [way for way in open_ways if counts[way[0]] and above[way[0]] - above[way[1]] > rest.apart]
                is_known = not rest.has_move(1, above, laid)
                self.assertFalse(is_known and moves)
                self.assertTrue(is_known or rest.has_move(1, above, replace(laid, offset={0: 1})))
                known += is_known
            rest.drop([1])
            for parts, offset, may_move in ((apart, {}, False), (apart, {0: 1}, True), (apart + 1, {}, True)):
                one = replace(laid, counts={0: 1}, offset=offset)
                self.assertEqual(rest.has_move(1, {0: parts * STEP_PARTS, 1: 0}, one), may_move)
        self.assertGreater(known, 1000)

    def test_moves_that_cancel(self) -> None:
        """A cycle of moves of one pool goes, and no other move: of as many bytes, where these are known."""
        cycle = [step_of("1.0", 1, 2), step_of("1.1", 2, 3), step_of("1.2", 3, 1)]
        rest = [step_of("1.3", 1, 3), step_of("1.4", 4, 2), step_of("2.0", 2, 4)]
        counts = {pool: dict.fromkeys(range(1, 5), 3) for pool in (1, 2)}
        share = dict.fromkeys(range(1, 5), 3.0)
        without: Any = Cluster(counts, share, None)
        self.assertEqual(without_cycles(without, cycle + rest), rest)
        for last, left in ((8.0, rest), (9.0, cycle + rest)):
            sizes = {**{step.group: 8.0 for step in cycle}, "1.2": last, "1.3": 5.0, "1.4": 6.0, "2.0": 7.0}
            with_data: Any = Cluster(counts, share, sizes)
            self.assertEqual(without_cycles(with_data, cycle + rest), left)

    def test_moves_of_two_pools(self) -> None:
        """Moves of two pools that cancel go where each pool is as even without them, and stay where one is not."""
        steps = [step_of("1.0", 1, 2), step_of("2.0", 2, 1)]
        sizes, share = {"1.0": 8.0, "2.0": 8.0}, {1: 3.0, 2: 3.0}
        even: Any = Cluster({1: {1: 3, 2: 3}, 2: {1: 3, 2: 3}}, share, sizes)
        self.assertEqual(without_cycles(even, steps), [])
        uneven: Any = Cluster({1: {1: 5, 2: 1}, 2: {1: 1, 2: 5}}, share, sizes)
        self.assertEqual(without_cycles(uneven, steps), steps)

    def test_what_gains(self) -> None:
        """A plan gains where an OSD above its share gives to one below it, and not where two of equal ones change."""
        cluster: Any = Cluster({1: {1: 5, 2: 1, 3: 3}}, {1: 3.0, 2: 3.0, 3: 3.0}, None)
        self.assertTrue(gains(cluster, [step_of("1.0", 1, 2)], False))
        self.assertTrue(gains(cluster, [step_of("1.0", 1, 2)], True))
        flat: Any = Cluster({1: {1: 4, 2: 3, 3: 3}}, {1: 3.5, 2: 3.5, 3: 3.0}, None)
        self.assertFalse(gains(flat, [step_of("1.0", 1, 2)], False))
        self.assertFalse(gains(flat, [step_of("1.0", 1, 2)], True))
        self.assertFalse(gains(flat, [], False))
