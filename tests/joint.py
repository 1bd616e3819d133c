"""The shares of all pools together, beside the sum that they are to make least: random clusters of unequal hosts."""

from __future__ import annotations

import random
from collections.abc import Iterator, Mapping
from itertools import permutations
from math import inf

from rekhuso.cluster.joint import BYTES, GROUPS, OWN, JointPool, PlaceBound, joint_places, least_fullest
from tests.cases import Case

# What a pool's hosts and their OSDs weigh, by host.
Hosts = Mapping[int, Mapping[int, int]]
Places = Mapping[int, Mapping[int, float]]


def reach_of(hosts: Hosts, size: int) -> dict[int, float]:
    """What part of each group OSDs can have, where a host has one place of it."""
    weights, full = {host: sum(own.values()) for host, own in hosts.items()}, set[int]()
    while True:
        left, whole = size - len(full), sum(own for host, own in weights.items() if host not in full)
        more = {host for host, own in weights.items() if host not in full and left * own > whole}
        if not more:
            break
        full |= more
    parts = {host: 1.0 if host in full else left * own / whole for host, own in weights.items()}
    return {osd: parts[host] * own / weights[host] for host, osds in hosts.items() for osd, own in osds.items()}


def random_pools(rng: random.Random) -> tuple[dict[int, JointPool], Hosts]:
    """Pools over the same hosts, some of which are too small for their places."""
    hosts: dict[int, dict[int, int]] = {}
    for host in range(rng.randint(3, 5)):
        hosts[host] = {10 * host + osd: rng.choice((1, 2, 4, 8)) for osd in range(rng.randint(1, 3))}
    whole, pools = sum(sum(own.values()) for own in hosts.values()), dict[int, JointPool]()
    for number in range(rng.randint(2, 4)):
        size, groups = rng.randint(1, 3), rng.choice((16, 32, 128))
        bound = PlaceBound(inf, [PlaceBound(float(groups), (), list(own)) for own in hosts.values()])
        share = {osd: size * groups * own / whole for osds in hosts.values() for osd, own in osds.items()}
        reach = {osd: groups * part for osd, part in reach_of(hosts, size).items()}
        pools[number] = JointPool(rng.choice((0.0, 1.0, 5.0, 40.0)), [(float(size * groups), bound)], share, reach)
    return pools, hosts


def sum_of(pools: Mapping[int, JointPool], places: Places) -> float:
    """The sum that the shares are to make least."""
    count = sum(own.places() for own in pools.values())
    held = sum(own.place * own.places() for own in pools.values())
    by, near, own_part = (BYTES, GROUPS, OWN) if held else (0.0, 1.0, OWN / GROUPS)
    size = {number: own.place * count / held if held else 0.0 for number, own in pools.items()}
    total = 0.0
    for osd in next(iter(pools.values())).share:
        for weight, sizes in ((by, size), (near, dict.fromkeys(pools, 1.0))):
            due = sum(sizes[number] * own.share[osd] for number, own in pools.items())
            has = sum(sizes[number] * places[number][osd] for number in pools)
            total += weight * (has - due) ** 2 / due if due else 0.0
        own_sums = ((places[number][osd] - own.reach[osd]) ** 2 / own.reach[osd] for number, own in pools.items())
        total += own_part * sum(own_sums)
    return total


def shifts(places: Mapping[int, float], hosts: Hosts, groups: float, step: float) -> Iterator[dict[int, float]]:
    """A pool's places where a part of one goes from an OSD to another, as far as no host gets more than its groups."""
    host_of = {osd: host for host, osds in hosts.items() for osd in osds}
    there = {host: sum(places[osd] for osd in osds) for host, osds in hosts.items()}
    for leaves, comes in permutations(places, 2):
        is_within = host_of[leaves] == host_of[comes]
        if places[leaves] >= step and (is_within or there[host_of[comes]] + step <= groups):
            yield {**places, leaves: places[leaves] - step, comes: places[comes] + step}


class Joint(Case):
    """The shares of all pools together."""

    is_form = True

    def test_least_sum(self) -> None:
        """Over 40 random clusters each host has at most one place of a group, each pool its places, and no part of a
        place that goes elsewhere makes the sum less, but for what is no more than near."""
        rng = random.Random(5)
        for case in range(40):
            pools, hosts = random_pools(rng)
            found = joint_places(pools)
            least = sum_of(pools, found)
            self.assertLessEqual(least, sum_of(pools, {number: own.reach for number, own in pools.items()}) + 1e-9)
            for number, own in pools.items():
                groups = own.blocks[0][1].below[0].most
                self.assertAlmostEqual(sum(found[number].values()), own.places(), delta=1e-4)
                for osds in hosts.values():
                    self.assertLessEqual(sum(found[number][osd] for osd in osds), groups + 1e-4, case)
                for other in shifts(found[number], hosts, groups, 0.5):
                    self.assertGreaterEqual(sum_of(pools, {**found, number: other}), least - 1e-6, case)

    def test_order(self) -> None:
        """In whatever order pools and OSDs are told, shares are the same to the last bit."""
        rng = random.Random(6)
        for _ in range(10):
            pools, _ = random_pools(rng)
            turned = {
                number: JointPool(
                    own.place, own.blocks, dict(reversed(own.share.items())), dict(reversed(own.reach.items()))
                )
                for number, own in reversed(pools.items())
            }
            self.assertEqual(joint_places(turned), joint_places(pools))

    def test_by_weight(self) -> None:
        """Where every pool can have its shares by weight these are found."""
        share = {0: 8.0, 1: 4.0, 2: 4.0}
        bound = PlaceBound(inf, [PlaceBound(8.0, (), [osd]) for osd in share])
        pools = {number: JointPool(place, [(16.0, bound)], share, share) for number, place in ((1, 3.0), (2, 0.0))}
        self.assertEqual(joint_places(pools), {1: share, 2: share})

    def test_one_makes_up(self) -> None:
        """A pool that must lie on three hosts alike, of which one is small, is made up for by one that may lie
        anywhere: by bytes each host then has what it weighs for."""
        hosts, groups = {0: 4, 1: 4, 2: 1}, 90.0
        bound = PlaceBound(inf, [PlaceBound(groups, (), [osd]) for osd in hosts])
        rigid = JointPool(1.0, [(270.0, bound)], {o: 30.0 * w for o, w in hosts.items()}, dict.fromkeys(hosts, groups))
        by_weight = {osd: 60.0 * weight for osd, weight in hosts.items()}
        wide = PlaceBound(inf, [PlaceBound(540.0, (), [osd]) for osd in hosts])
        found = joint_places({1: rigid, 2: JointPool(1.0, [(540.0, wide)], by_weight, by_weight)})
        for osd, weight in hosts.items():
            self.assertAlmostEqual(found[1][osd], groups, delta=1e-3)
            self.assertAlmostEqual(found[2][osd], 90.0 * weight - groups, delta=2.0)

    def test_least_fullest(self) -> None:
        """A small host with a place of each group has three times its share, whatever a plan does. Over random clusters
        the bound is what the joint shares come to, where these go by one sum nearly alone, or a little less."""
        hosts, groups = {0: 4, 1: 4, 2: 1}, 90.0
        bound = PlaceBound(inf, [PlaceBound(groups, (), [osd]) for osd in hosts])
        share = {osd: 30.0 * weight for osd, weight in hosts.items()}
        pools = {1: JointPool(0.0, [(270.0, bound)], share, dict.fromkeys(hosts, groups))}
        self.assertAlmostEqual(least_fullest(pools, joint_places(pools)), 3.0)
        rng, near = random.Random(8), 0
        for _ in range(40):
            own, _ = random_pools(rng)
            found, full = joint_places(own), 0.0
            by_bytes = any(pool.place for pool in own.values())
            for osd in own[0].share:
                sizes = {number: pool.place if by_bytes else 1.0 for number, pool in own.items()}
                has = sum(size * found[number][osd] for number, size in sizes.items())
                full = max(full, has / sum(size * own[number].share[osd] for number, size in sizes.items()))
            least = least_fullest(own, found)
            self.assertLessEqual(least, full + 1e-6)
            self.assertGreaterEqual(least, 1 - 1e-9)
            near += full - least < 0.1
        self.assertGreater(near, 30)
