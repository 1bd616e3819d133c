"""Plans of whole clusters: beside a small model of their definition over random maps, and over stock clusters, of which
none may get less even.

In the model all is reckoned in fractions: what OSDs carry, in which order pools are planned, and the greedy plans
themselves. Each group has an explicit set, so that its mapped set is known without hashes.
"""

from __future__ import annotations

import collections
import copy
import json
import math
import pathlib
import re
import random
from collections.abc import Iterable, Mapping
from fractions import Fraction
from typing import Any, Optional

from rekhuso import Monitor
from rekhuso.cluster.evenness import Spread
from rekhuso.cluster.judge import Reason, judge_of_map
from rekhuso.plans import plan, rounds
from rekhuso.plans.mend import Gauge, mended
from rekhuso.plans.steps import PlanStep
from rekhuso.program.answers import balance_line

from tests import plans
from tests.clusters import (
    STOCK,
    Json,
    below,
    commands,
    copied,
    exceptions_told,
    object_parts,
    of_groups,
    places,
    pool_lines,
    pooled,
    raised,
    with_commands,
)
from tests.reaches import filled, reach_of
from tests.runs import zipped
from tests.tool_cases import StockCase
from tests.whole_maps import device_weights, item_weights, reweights_of, steps_for

# A map, the hosts of its OSDs, the racks of its hosts, and the weights of its OSDs; how many bytes each pool holds.
RandomCluster = tuple[Json, dict[int, int], Optional[dict[int, int]], dict[int, int]]
PoolBytes = dict[int, int]
MOST = 1024
# Stock clusters of few groups, that come in as one map or two, and one of many pools.
FEW = ["002-proxmox", "004-one-host", "005-openstack-mixed", "011-drained", "019-two-roots", "025-many-pools"]


def random_cluster(rng: random.Random) -> RandomCluster:
    """A random map of several pools of one rule, two of one group, whose groups all have explicit sets; and where its
    OSDs stand."""
    value, host_of, rack_of, weight_of = plans.random_map(rng)
    pool, hosts = value["pools"][0], sorted(set(host_of.values()))
    pools, sets = [], []
    for number in range(1, rng.randint(3, 6)):
        groups, size = 1 if number == 2 else rng.randint(2, 12), rng.randint(1, min(3, len(hosts)))
        pools.append(dict(pool, id=number, size=size, pg_num=groups, pgp_num=groups))
        for group in range(groups):
            osds = [rng.choice([osd for osd in host_of if host_of[osd] == host]) for host in rng.sample(hosts, size)]
            sets.append([f"{number}.{group:x}", osds])
    return dict(value, pools=pools, pg_upmap=sets), host_of, rack_of, weight_of


class Model:
    """The definition of a whole plan over a random cluster."""

    def __init__(self, cluster: RandomCluster, held: PoolBytes | None = None, is_by_weight: bool = False) -> None:
        self.is_by_weight = is_by_weight
        value, self.host_of, self.rack_of, weight_of = cluster
        self.sizes = {pool["id"]: pool["size"] for pool in value["pools"]}
        self.mapped, self.pairs = {}, {}
        for group, osds in value["pg_upmap"]:
            self.mapped[group], self.pairs[group] = list(osds), 0
        osds = reweights_of(value)
        self.weights = {osd: weight_of[osd] * osds[osd] for osd in sorted(self.host_of) if osds.get(osd)}
        held = held if held and any(held.values()) else None
        self.total, self.held, self.first = sum(self.weights.values()), held, copy.deepcopy(self.mapped)
        self.places = {pool["id"]: pool["pg_num"] * pool["size"] for pool in value["pools"]}
        self.several = [pool["id"] for pool in value["pools"] if pool["pg_num"] > 1]
        mean = Fraction(sum(held.values()) if held else 1, sum(self.places.values()) if held else 1)
        self.of_place = {
            pool: Fraction(held[pool], own) / mean if held else Fraction(0) for pool, own in self.places.items()
        }
        self.racks = [own for own in value["rules"][0]["steps"] if own[0] == "choose_firstn"]
        self.goals: dict[int, Mapping[int, int | Fraction]] = {
            pool: self.weights if is_by_weight else self.reach(size) for pool, size in self.sizes.items()
        }
        self.before = {pool: self.deviations(pool) for pool in self.places}

    def groups(self, pool: int) -> list[str]:
        """The groups of a pool."""
        return [group for group in self.mapped if group.startswith(f"{pool}.")]

    def counts(self, pool: int) -> dict[int, int]:
        """How many groups of a pool each candidate has."""
        return {osd: sum(osd in self.mapped[group] for group in self.groups(pool)) for osd in self.weights}

    def reach(self, size: int) -> dict[int, Fraction]:
        """What part of each group of a pool of a size its rule can give each candidate: racks and hosts get it by
        weight, at most one place each, and their OSDs by weight."""
        hosts: dict[int, int] = collections.defaultdict(int)
        for osd, weight in self.weights.items():
            hosts[self.host_of[osd]] += weight
        if not self.racks or self.rack_of is None:
            parts = filled(hosts, size)
        else:
            racks: dict[int, int] = collections.defaultdict(int)
            for host, weight in hosts.items():
                racks[self.rack_of[host]] += weight
            of_rack, parts = filled(racks, size), {}
            for rack, part in of_rack.items():
                own = {host: weight for host, weight in hosts.items() if self.rack_of[host] == rack}
                parts.update({host: part * more for host, more in filled(own, 1).items()})
        return {
            osd: parts[self.host_of[osd]] * weight / hosts[self.host_of[osd]] for osd, weight in self.weights.items()
        }

    def shares(self, pool: int, goals: Mapping[int, int | Fraction]) -> dict[int, Fraction]:
        """The places of a pool, by some goals of the candidates."""
        places, whole = sum(self.counts(pool).values()), Fraction(sum(goals.values()))
        return {osd: places * own / whole for osd, own in goals.items()}

    def deviations(self, pool: int, most: Fraction | None = None) -> dict[int, Fraction]:
        """How far each candidate is from what it can reach of a pool."""
        counts, shares = self.counts(pool), self.shares(pool, self.goals[pool])
        found = {osd: counts[osd] - own for osd, own in shares.items()}
        return found if most is None else {osd: max(-most, min(most, own)) for osd, own in found.items()}

    def closed(self, pool: int) -> list[int]:
        """The candidates that take no groups."""
        if self.is_by_weight:
            return []
        own = [self.shares(other, goals) for other, goals in self.goals.items()]
        reached = {osd: sum((shares[osd] for shares in own), Fraction(0)) for osd in self.weights}
        least = (min(Fraction(1), sum(reached.values()) / max(len(reached), 1)) - Fraction(1, 256)) / 2
        return [osd for osd, whole in reached.items() if whole < least]

    def told(self, pool: int, later: set[int], half: int) -> dict[int, int]:
        """What the program is told of each candidate: what it carries, and by how much its share by weight is above
        what it can reach; and of those that take no groups so much that none can come to them."""
        carried, shares = self.carried(pool, later, half), self.shares(pool, self.goals[pool])
        by_weight, counts, away = self.shares(pool, self.weights), self.counts(pool), self.deviations(pool)
        above = {osd: math.floor(256 * own) + carried[osd] for osd, own in away.items()}
        found = {
            osd: carried[osd] + math.floor(256 * (by_weight[osd] - shares[osd]) + Fraction(1, 2)) for osd in shares
        }
        closed = self.closed(pool)
        for osd in closed:
            least = max(above.values()) - 2 * half + 2 + 256 * max(counts[other] for other in closed)
            found[osd] += max(least - above[osd], 0)
        return found

    def carried(self, pool: int, later: set[int], half: int) -> dict[int, int]:
        """What each candidate carries from the other pools, where some are still to be planned; `half` is that of what
        two must differ by."""
        found, most = {}, Fraction(half, 256)
        others = {
            other: self.deviations(other, most if other in later else None) for other in self.places if other != pool
        }
        for osd in self.weights:
            groups = sum(own[osd] for own in others.values())
            data = sum(own[osd] * self.of_place[other] for other, own in others.items())
            more = (groups + 10 * self.of_place[pool] * data) / (2 + 10 * self.of_place[pool] ** 2)
            found[osd] = max(-half, min(half, math.floor(256 * more + Fraction(1, 2))))
        return found

    def is_allowed(self, group: str, leaves: int, comes: int) -> bool:
        """Whether a group may go from one candidate to another."""
        osds, hosts = self.mapped[group], self.host_of
        if osds.count(leaves) != 1 or comes in osds or self.pairs[group] >= self.sizes[int(group.split(".")[0])]:
            return False
        if self.rack_of is not None and self.rack_of[hosts[leaves]] != self.rack_of[hosts[comes]]:
            return False
        return all(hosts.get(osd) != hosts[comes] for osd in osds if osd != leaves)

    def above(self, pool: int, half: int) -> dict[int, Fraction]:
        """How far each candidate counts as above its share of a pool, beside the others as they lie."""
        told, by_weight = self.told(pool, set(), half), self.shares(pool, self.weights)
        shares, away = self.shares(pool, self.goals[pool]), self.deviations(pool)
        offset = {osd: math.floor(256 * (by_weight[osd] - shares[osd]) + Fraction(1, 2)) for osd in shares}
        return {osd: own + Fraction(told[osd] - offset[osd], 256) for osd, own in away.items()}

    def may_move(self, pool: int, half: int) -> bool:
        """Whether two candidates differ enough for a move of a pool."""
        above = self.above(pool, half).values()
        return max(above) - min(above) > Fraction(2 * half - 2, 256)

    def has_lowered(self, order: list[int], half: int) -> bool:
        """Whether a place has gone from the OSD that is fullest over all pools, by the best move by which the groups of
        the cluster gain as much as by any and its pool gains too."""
        shares = [self.shares(pool, self.goals[pool]) for pool in self.places]
        away = [self.deviations(pool) for pool in self.places]
        wanted = {osd: sum(own[osd] for own in shares) for osd in self.weights}
        groups = {osd: sum((own[osd] for own in away), Fraction(0)) for osd in self.weights}
        full = max((osd for osd in groups if wanted[osd]), key=lambda osd: (groups[osd] / wanted[osd], -osd))
        if 256 * groups[full] <= half:
            return False
        ways = []
        for pool in (pool for pool in order if self.counts(pool)[full]):
            above, closed = self.above(pool, half), self.closed(pool)
            low = [osd for osd in above if osd not in closed and 256 * (groups[full] - groups[osd]) > 2 * half]
            ways += [(above[osd] - above[full], pool, osd) for osd in low if above[full] - above[osd] > 1]
        for _, pool, osd in sorted(ways)[:64]:
            group = next((group for group in self.groups(pool) if self.is_allowed(group, full, osd)), None)
            if group is not None:
                self.put(group, full, osd)
                return True
        return False

    def put(self, group: str, leaves: int, comes: int) -> None:
        """A group goes from a candidate to another."""
        own = self.mapped[group]
        own[own.index(leaves)] = comes
        self.pairs[group] += 1

    def plan(self, pool: int, apart: int, carried: dict[int, int], most: int = MOST) -> int:
        """Makes the moves of the greedy plan of a pool, at most so many, and tells how many there are."""
        groups = self.groups(pool)
        for moves in range(most):
            counts = self.counts(pool)
            held = sum(counts.values())
            away = {
                osd: 256 * (counts[osd] * self.total - held * weight) + carried[osd] * self.total
                for osd, weight in self.weights.items()
            }
            good = [
                (away[comes] - away[leaves], leaves, comes, at)
                for leaves in away
                for comes in away
                if away[leaves] - away[comes] > apart * self.total + 255
                for at, group in enumerate(groups)
                if self.is_allowed(group, leaves, comes)
            ]
            if not good:
                return moves
            _, leaves, comes, at = min(good)
            own = self.mapped[groups[at]]
            own[own.index(leaves)] = comes
            self.pairs[groups[at]] += 1
        return most

    def play(self, wanted: list[int], half: int) -> None:
        """Plans some pools in rounds, where any has a move beside the others as they lie: the first one comes first.
        In the first round those count with less that may have more moves."""
        order = sorted(wanted, key=lambda pool: (-(self.of_place if self.held else self.places)[pool], pool))
        moves = any(self.plan(pool, 2 * half, self.told(pool, set(), half), 1) for pool in order)
        later = {pool for pool in order if self.may_move(pool, half)}
        while True:
            made = 0
            for pool in order if moves else []:
                made += self.plan(pool, 2 * half, self.told(pool, later, half))
                later.discard(pool)
            moves = True
            while not made and not self.held and self.has_lowered(order, half):
                moves = False
            if moves and not made:
                return
            moves = True


class LastPass:
    """The definition of the last pass of a plan over a model that knows what its pools hold, and of the one by groups;
    for room the last pass is the first, and does not keep groups as even as they are."""

    def __init__(self, model: Model, wanted: list[int], is_room: bool) -> None:
        held = model.held or {}
        self.model, self.wanted = model, wanted
        self.sizes: dict[str, int] = {}
        for pool, size in model.sizes.items():
            groups = model.groups(pool)
            for group, part in zipped(groups, object_parts(len(groups))):
                self.sizes[group] = math.floor(held.get(pool, 0) * 65536 * Fraction(part) / size)
        self.load: dict[int, int] = {
            osd: sum(size for group, size in self.sizes.items() if osd in model.mapped[group]) for osd in model.weights
        }
        self.want = dict.fromkeys(model.weights, Fraction(0))
        for pool, goals in model.goals.items():
            places = [self.sizes[group] for group in model.groups(pool) for osd in model.mapped[group] if osd in goals]
            for osd, goal in goals.items():
                self.want[osd] += sum(places) * Fraction(goal) / Fraction(sum(goals.values()))
        shares = [model.shares(pool, goals) for pool, goals in model.goals.items()]
        self.groups = {osd: sum((own[osd] for own in shares), Fraction(0)) for osd in model.weights}
        self.start, self.even = self.measures(model.first), [] if is_room else self.measures(model.mapped)[:1]
        self.is_far, self.most, self.most_all = False, dict.fromkeys(model.places, Fraction(2)), Fraction(3)

    def go_far(self) -> None:
        """From now on pools may get 4 groups from their shares and all together 5, or as far as they were before."""
        before = self.model.before
        self.is_far = True
        sums = [sum((own[osd] for own in before.values()), Fraction(0)) for osd in self.want]
        self.most = {pool: max(Fraction(4), *(abs(more) for more in own.values())) for pool, own in before.items()}
        self.most_all = max(Fraction(5), *(abs(more) for more in sums))

    def ratio(self, osd: int) -> Fraction:
        """What an OSD has to what it is to have."""
        return Fraction(self.load[osd]) / self.want[osd]

    def gain(self, leaves: int, comes: int, size: int) -> Fraction:
        """By how much the sum of squares falls where so much goes from an OSD to another, which is less full then than
        the first was; else 0."""
        if size <= 0 or (self.load[comes] + size) / self.want[comes] >= self.ratio(leaves):
            return Fraction(0)
        pairs = ((leaves, -size), (comes, size))
        away = [(self.load[osd] - self.want[osd], more, self.want[osd]) for osd, more in pairs]
        return sum(((own**2 - (own + more) ** 2) / want for own, more, want in away), Fraction(0))

    def measures(self, sets: Mapping[str, list[int]]) -> list[dict[int, tuple[Fraction, Fraction]]]:
        """By groups and by bytes, of each OSD the ratio to its share, and the square of how far it is from it."""
        found: list[dict[int, tuple[Fraction, Fraction]]] = [{}, {}]
        for osd, share in self.groups.items():
            here = [group for group, osds in sets.items() if osd in osds]
            has, load = Fraction(len(here)), Fraction(sum(self.sizes[group] for group in here))
            found[0].update({osd: (has / share, (has - share) ** 2)} if share else {})
            found[1].update({osd: (load / self.want[osd], (load / self.want[osd] - 1) ** 2)} if self.want[osd] else {})
        return found

    def stays_even(self, leaves: int, comes: int, groups: int, size: int) -> bool:
        """Whether by groups and by bytes all stays as even as before the plan, or gets no less even, where so much goes
        from an OSD to another; asked for the sake of OSDs that stay far above their shares, and at first by groups
        alone, which stay as even as before the pass."""
        start = self.start if self.is_far else self.even
        now = self.measures(self.model.mapped) if start else []
        for own, was, more, share in zip(now, start, (groups, size), (self.groups, self.want)):
            parts = {comes: Fraction(more) / share[comes], leaves: -Fraction(more) / share[leaves]}
            scale = {osd: share[osd] if share is self.groups else Fraction(1) for osd in parts}
            after = {osd: own[osd][0] + part for osd, part in parts.items()}
            rise = sum(((after[osd] - 1) * scale[osd]) ** 2 - own[osd][1] for osd in parts)
            whole = sum(square for _, square in own.values())
            if rise > 0 and whole + rise > sum(square for _, square in was.values()):
                return False
            if after[comes] > max(ratio for ratio, _ in was.values()):
                return False
        return True

    def keeps(self, pools: Iterable[int], leaves: int, comes: int, most: Fraction) -> bool:
        """Whether some pools together stay within so many groups of their shares, or get nearer, or no further."""
        found = [self.model.deviations(pool) for pool in pools]
        more, less = (sum(own[osd] for own in found) for osd in (leaves, comes))
        return more - less >= 1 or (less + 1 <= most and more - 1 >= -most)

    def on(self, pool: int, osd: int) -> set[int]:
        """What the groups of a pool hold that an OSD has."""
        return {self.sizes[group] for group in self.model.groups(pool) if osd in self.model.mapped[group]}

    def group(self, pool: int, size: int, leaves: int, comes: int) -> str | None:
        """The lowest group of a pool that holds so much and may go from an OSD to another."""
        groups = (group for group in self.model.groups(pool) if self.sizes[group] == size)
        return next((group for group in groups if self.model.is_allowed(group, leaves, comes)), None)

    def put(self, group: str, leaves: int, comes: int) -> None:
        """A group goes from an OSD to another."""
        own, size = self.model.mapped[group], self.sizes[group]
        own[own.index(leaves)] = comes
        self.model.pairs[group] += 1
        self.load[leaves] -= size
        self.load[comes] += size

    def has_moved(self, full: int) -> bool:
        """Whether a group has gone from an OSD, by the best move that is allowed."""
        ways = sorted(
            (-self.gain(full, osd, size), pool, osd, size)
            for pool in self.wanted
            for osd in self.want
            if osd != full and self.keeps([pool], full, osd, self.most[pool])
            if self.keeps(self.model.places, full, osd, self.most_all) and osd not in self.model.closed(pool)
            for size in self.on(pool, full)
            if self.stays_even(full, osd, 1, size)
        )
        for gain, pool, osd, size in ways:
            group = self.group(pool, size, full, osd) if gain < 0 else None
            if group is not None:
                self.put(group, full, osd)
                return True
        return False

    def has_exchanged(self, full: int) -> bool:
        """Whether two groups have changed places, by the best exchange that is allowed of the first 64."""
        ways = sorted(
            (-self.gain(full, osd, size - less), pool, osd, size, other, less)
            for pool in self.wanted
            for other in self.wanted
            for osd in self.want
            if osd != full
            if pool == other or self.keeps([pool], full, osd, self.most[pool])
            if pool == other or self.keeps([other], osd, full, self.most[other])
            if osd not in self.model.closed(pool) and full not in self.model.closed(other)
            for size in self.on(pool, full)
            for less in self.on(other, osd)
            if self.stays_even(full, osd, 0, size - less)
        )
        for _, pool, osd, size, other, less in [way for way in ways if way[0] < 0][:64]:
            group, back = self.group(pool, size, full, osd), self.group(other, less, osd, full)
            if group is not None and back is not None:
                self.put(group, full, osd)
                self.put(back, osd, full)
                return True
        return False

    def play(self) -> None:
        """Makes the moves, until what is fullest beyond 1.05 cannot be made less full, also with groups less even than
        before; and then, with pools further from their shares, what is fullest beyond 1.1."""
        stuck: set[int] = set()
        has_moved = False
        while any(self.want.values()):
            bound = Fraction(11, 10) if self.is_far else Fraction(21, 20)
            left = [osd for osd in self.want if osd not in stuck and self.ratio(osd) > bound]
            if not left:
                if not has_moved or not stuck:
                    if self.is_far:
                        return
                    if self.even:
                        self.even = []
                    else:
                        self.go_far()
                stuck, has_moved = set(), False
                continue
            full = max(left, key=lambda osd: (self.ratio(osd), -osd))
            if self.has_moved(full) or self.has_exchanged(full):
                has_moved = True
            else:
                stuck.add(full)

    def fall(self, pool: int, leaves: int, comes: int, size: int) -> Fraction:
        """By how much the squares fall of the pool, twice those of all groups, and ten times those of the data in
        places of the mean size, where so much of a pool goes from an OSD to another."""
        model = self.model
        places, whole = sum(model.places.values()), sum(
            held * model.sizes[int(group.split(".")[0])] for group, held in self.sizes.items()
        )
        away = {osd: model.deviations(pool)[osd] for osd in (leaves, comes)}
        groups = {osd: sum((model.deviations(own)[osd] for own in model.places), Fraction(0)) for osd in away}
        data = {osd: (self.load[osd] - self.want[osd]) * places / whole if whole else Fraction(0) for osd in away}
        held, found = Fraction(size * places, whole) if whole else Fraction(0), Fraction(0)
        for weight, own, more in ((1, away, Fraction(1)), (2, groups, Fraction(1)), (10, data, held)):
            after = {leaves: own[leaves] - more, comes: own[comes] + more}
            found += weight * sum(own[osd] ** 2 - after[osd] ** 2 for osd in own)
        return found

    def has_evened(self, full: int, least: Fraction) -> bool:
        """Whether a group has gone from an OSD, by the move by which the squares fall most, and by more than the least;
        to one that has more than a group less above its shares, and does not get beyond 1.05 by that."""
        model = self.model
        above = {osd: sum((model.deviations(own)[osd] for own in model.places), Fraction(0)) for osd in self.want}
        ways = sorted(
            (-self.fall(pool, full, osd, size), pool, osd, size)
            for pool in self.wanted
            for osd in self.want
            if above[full] - above[osd] > 1 and osd not in model.closed(pool)
            if self.keeps([pool], full, osd, self.most[pool])
            for size in self.on(pool, full)
            if not size or self.load[osd] + size <= Fraction(21, 20) * self.want[osd]
        )
        for fall, pool, osd, size in ways:
            group = self.group(pool, size, full, osd) if -fall > least else None
            if group is not None:
                self.put(group, full, osd)
                return True
        return False

    def play_groups(self, deviation: Fraction) -> None:
        """Makes the moves of the pass by groups, from the OSD that is most above its shares of all pools."""
        stuck, has_moved, model = set[int](), False, self.model
        while True:
            above = {osd: sum((model.deviations(own)[osd] for own in model.places), Fraction(0)) for osd in self.want}
            left = [osd for osd in self.want if osd not in stuck and above[osd] > 0 and self.want[osd]]
            if left:
                full = max(left, key=lambda osd: (above[osd], -osd))
                is_evened = self.has_evened(full, max(4 * deviation - 2, Fraction(1)))
                has_moved |= is_evened
                stuck |= set() if is_evened else {full}
            elif not has_moved or not stuck:
                return
            else:
                stuck, has_moved = set(), False


class Measured:
    """How even a cluster of some maps is by the sets of its groups: by groups, and by what these hold; beside what the
    rules can give OSDs, or what these weigh for."""

    def __init__(
        self, maps: Iterable[Json], sets: dict[str, str], of_place: Mapping[int, float], is_by_weight: bool = False
    ) -> None:
        # By groups, and by what these hold.
        self.has: tuple[dict[int, float], dict[int, float]] = ({}, {})
        self.share: tuple[dict[int, float], dict[int, float]] = ({}, {})
        for value in maps:
            items, osds = item_weights(value), reweights_of(value)
            for pool in value["pools"]:
                taken = [below(value, step[1]) for step in steps_for(value, pool) if step[0] == "take"]
                whole = set().union(*taken)
                mean = of_place[pool["id"]] * pool["pg_num"]
                own = [
                    (osd, mean * part)
                    for number, part in enumerate(object_parts(pool["pg_num"]))
                    for osd in places(sets[f"{pool['id']}.{number:x}"])
                ]
                weights = {osd: items[osd] * osds[osd] for osd in whole if osds.get(osd)}
                trees: list[Mapping[int, float | Fraction]] = [weights]
                if len(whole) == sum(map(len, taken)):
                    trees = [*reach_of(value, pool, weights)]
                    if is_by_weight:
                        trees = [{osd: weights[osd] for osd in own if osd in weights} for own in taken]
                for tree in trees:
                    self.add([entry for entry in own if entry[0] in tree], tree)

    def add(self, own: list[tuple[int, float]], weights: Mapping[int, float | Fraction]) -> None:
        """Counts the places of a pool, each with what it holds."""
        total = float(sum(weights.values()))
        for at in (0, 1):
            sizes = [(osd, size if at else 1) for osd, size in own]
            held = sum(size for osd, size in sizes if osd in weights)
            for osd, size in sizes:
                self.has[at][osd] = self.has[at].get(osd, 0) + size
            for osd, weight in weights.items():
                self.share[at][osd] = self.share[at].get(osd, 0) + held * float(weight) / total

    def ratios(self, at: int) -> list[float]:
        """What each OSD has to its share."""
        return [self.has[at].get(osd, 0) / share for osd, share in self.share[at].items() if share > 0]

    def all(self) -> list[float]:
        """The standard deviation of groups, that of the ratios of bytes, and the greatest ratios."""
        groups = [self.has[0].get(osd, 0) - share for osd, share in self.share[0].items() if share > 0]
        data = [ratio - 1 for ratio in self.ratios(1)]
        return [
            *(math.sqrt(sum(own * own for own in away) / len(away)) for away in (groups, data)),
            *(max(self.ratios(at)) for at in (0, 1)),
        ]


def stats_of(size: int) -> Json:
    """What `ceph df` tells of a pool that takes so many bytes."""
    return {"bytes_used": size, "stored": size}


def is_of(line: str, value: Json) -> bool:
    """Whether a command is for a group of a map."""
    return int(line.split(" ")[3].split(".")[0]) in {pool["id"] for pool in value["pools"]}


class ClusterPlans(StockCase):
    """What `plan` does of all pools."""

    def df_of(self, held: PoolBytes, name: str = "df") -> pathlib.Path:
        """A file as `ceph df` prints it, of pools that hold so many bytes."""
        stats = [
            {"id": pool, "name": f"pool{pool}", "stats": {"bytes_used": size, "stored": size}}
            for pool, size in held.items()
        ]
        return self.tools.put(name, {"stats": {"total_used_raw_bytes": 5}, "pools": stats})

    def planned(self, value: Json, *words: object) -> tuple[Any, dict[str, list[int]]]:
        """What `plan --json` tells over a map, and the sets after its commands, with all OSDs up."""
        status, output, error = self.tools.run("plan", self.tools.put("m", value), "--json", *words)
        self.assertEqual(status, 0, error)
        told = json.loads(output)
        found = self.tools.sets(raised(with_commands(value, told["commands"])))
        return told, {group: places(answer) for group, answer in found.items()}

    def test_plans_of_the_definition(self) -> None:
        """Over random maps a plan gives the sets of the definition: with data and without, at several deviations, of
        all pools and of one; and for room alone. By data a few groups stay where they were, as their moves gain next
        to nothing."""
        rng, same, moves, stay = random.Random(70), 0, 0, 0
        for case in range(20):
            cluster = random_cluster(rng)
            value, held = cluster[0], None
            if case % 2 or case >= 16:
                held = {pool["id"]: rng.choice([0, 1, 7, 10**6]) * rng.randint(1, 10**9) for pool in value["pools"]}
            deviation = None if case >= 16 else rng.choice(["0.5", "1", "1.25", None])
            words = (["--df", self.df_of(held)] if held else []) + (["--deviation", deviation] if deviation else [])
            words += ["--by-weight" if case % 5 == 4 else "--by-reach"]
            model = Model(cluster, held, case % 5 == 4)
            wanted = [1] if case % 8 == 2 else [2] if case % 8 == 4 else model.several
            words += ["--of-pool", wanted[0]] if len(wanted) == 1 and wanted != model.several else []
            words += ["--room"] if case >= 16 else []
            told, sets = self.planned(value, *words, "--anyway")
            if case < 16:
                model.play(wanted, round(256 * Fraction(deviation or 1)))
            if held:
                last = LastPass(model, wanted, case >= 16)
                last.play()
                if case < 16:
                    last.play_groups(Fraction(deviation or 1))
            self.assertEqual([parts["id"] for parts in told["pools"]], sorted(wanted))
            moves += told["moving"]["places"]
            if not told["taken_out"]:
                same += 1
                start = self.tools.sets(raised(value)) if held and case < 16 else {}
                stays = {group for group in start if places(start[group]) == sets[group] != model.mapped[group]}
                stay += len(stays)
                expected = {group: own for group, own in model.mapped.items() if group not in stays}
                self.assertEqual({group: sets[group] for group in sets if group not in stays}, expected, (case, words))
        self.assertLessEqual(stay, 8, (same, moves))
        self.assertGreaterEqual(same, 10, (same, moves))
        self.assertGreater(moves, 50, (same, moves))

    def test_lines_of_a_balance(self) -> None:
        """What is carried and how far OSDs must differ stand in the line only where they say something; a session
        commits such a plan."""
        self.assertEqual(balance_line(1, 9), balance_line(1, 9, 256, {3: 0}))
        self.assertEqual(balance_line(1, 9, 256, {3: 0}), "balance 1 9")
        self.assertEqual(balance_line(1, 9, 512), "balance 1 9 512 []")
        self.assertEqual(balance_line(1, 9, carried={7: -3, 2: 5, 4: 0}), "balance 1 9 256 [[2,5],[7,-3]]")
        with Monitor(self.tools.map("002-built"), self.tools.program, stock=True) as monitor:
            self.assertEqual(monitor.balance(1, apart=2**24).moves, 0)
            self.assertGreater(monitor.balance(1).moves, 0)
            before = monitor.counts(range(12))
            self.assertEqual(before, {osd: monitor.count(osd) for osd in range(12)})
            self.assertGreater(monitor.balance(1, carried={5: 2560}).moves, 5)
            self.assertLess(monitor.count(5), before[5] - 5)
            self.assertEqual(monitor.balance(1, apart=1024, carried={5: 2560}).moves, 0)

    def test_no_cluster_gets_less_even(self) -> None:
        """No stock cluster is less even by its plan, by groups or by bytes, beside the shares by which the plan goes,
        and what the plan tells of it is so; one of many pools gets far more even."""
        rng = random.Random(11)
        for name in FEW:
            with self.subTest(name=name):
                files = self.dumps(name)
                pools = STOCK[name]["osd_dump"]["pools"]
                held = {
                    pool["pool"]: round(2**40 * 10 ** rng.uniform(-2, 1)) if pool["pg_num"] > 1 else 2**20
                    for pool in pools
                }
                df = self.tools.put(
                    "df",
                    {
                        "pools": [
                            {"id": own["pool"], "name": own["pool_name"], "stats": stats_of(held[own["pool"]])}
                            for own in pools
                        ]
                    },
                )
                of_place = {pool["pool"]: held[pool["pool"]] / (pool["pg_num"] * pool["size"]) for pool in pools}
                self.ran("import", *files, "--to", f"maps-{name}")
                maps = [json.loads(path.read_text()) for path in sorted((self.tools.folder / f"maps-{name}").iterdir())]
                first = self.sets(*maps)
                for words in ((), ("--df", df)):
                    told = json.loads(self.output("plan", *files, "--json", *words))
                    goes_by = told.get("shares", {}).get("by")
                    is_by_weight = goes_by in ("weight", "all pools")
                    start = Measured(maps, first, of_place, is_by_weight).all()
                    after = [
                        with_commands(value, [line for line in told["commands"] if is_of(line, value)])
                        for value in maps
                    ]
                    end = Measured(after, self.sets(*after), of_place, is_by_weight).all()
                    by = (0, 1, 2, 3) if words else (0, 2)
                    if goes_by == "all pools":
                        # What OSDs are to have then is told by no weight: the fullest to its weight is no fuller.
                        self.assertLessEqual(end[by[-1]], start[by[-1]] * (1 + 1e-3), (name, words))
                        continue
                    self.assertTrue(all(end[at] <= start[at] * (1 + 1e-9) for at in by), (name, words, start, end))
                    for key, own in (("before", start), ("after", end)):
                        found = told["cluster"][key]
                        self.assertLess(abs(found["groups"]["deviation"] - own[0]), 0.006, (name, key))
                        self.assertLess(abs(found["groups"]["fullest"]["ratio"] - own[2]), 1e-4, (name, key))
                        self.assertTrue(
                            not words
                            or abs(found["bytes"]["deviation"] - own[1]) < 1e-4
                            and abs(found["bytes"]["fullest"]["ratio"] - own[3]) < 1e-4,
                            name,
                        )
                    self.assertTrue(
                        name != "025-many-pools" or end[0] < start[0] / 5 and (not words or end[1] < start[1] / 2),
                        (start, end),
                    )

    def test_parts_and_first_commands(self) -> None:
        """The first commands of a plan are a beginning of it; while its parts are run one after the other, no OSD gets
        fuller than the fullest was before, or is at the end, or 1.05 of its share, though what comes in a part is there
        before what goes."""
        name = "025-many-pools"
        files = self.dumps(name)
        value = json.loads(self.output("import", *files))
        output, error = self.ran("plan", *files)
        whole, pools = commands(output), [line for line in error.splitlines() if not line.startswith("cluster ")]
        self.assertEqual(len(pools), 11, error)
        self.assertTrue(
            re.fullmatch("pools: 26 more, at most [0-9.]+ from a share; --json tells each", pools[-1]), pools
        )
        away = [float(line.rpartition(" from a share")[0].rpartition(" ")[2]) for line in pools]
        self.assertEqual(away, sorted(away, reverse=True))
        for most in (1, 20, 10_000):
            with self.subTest(most=most):
                self.assertEqual(commands(self.output("plan", *files, "--first", most)), whole[:most])
        flat = dict.fromkeys((pool["id"] for pool in value["pools"]), 1)
        now, paths = value, self.output("plan", *files, "--batch", 25, "--to", "parts").splitlines()
        lines = [commands(pathlib.Path(self.tools.folder, path).read_text()) for path in paths]
        self.assertGreater(len(lines), 4)
        self.assertEqual(sorted(sum(lines, [])), sorted(whole))
        last = Measured([with_commands(value, whole)], self.sets(with_commands(value, whole)), flat).all()[2]
        for number, part in enumerate(lines):
            before, after = self.sets(now), self.sets(with_commands(now, part))
            high = Measured([now], before, flat)
            bound = max(high.all()[2], last, 1.05)
            for group in of_groups(part):
                for osd in set(places(after[group])) - set(places(before[group])):
                    high.has[0][osd] = high.has[0].get(osd, 0) + 1
            self.assertLessEqual(max(high.ratios(0)), bound + 1e-9, (number, max(high.ratios(0)), bound))
            now = with_commands(now, part)
            if number == 0:
                start, first = Measured([value], before, flat).all(), Measured([now], after, flat).all()
                self.assertLess(first[2], start[2])
                self.assertLess(first[0], start[0])

    def test_parts_beside_an_osd_of_no_weight(self) -> None:
        """Where an OSD with groups weighs next to nothing, so that it is full beyond any bound, every OSD has one of
        its own: while a part moves none has more than one group above the most that it has before the plan or after it.
        """
        own = copied(STOCK["025-many-pools"])
        for bucket in own["crush_dump"]["buckets"]:
            for item in bucket["items"]:
                item["weight"] = 1 if item["id"] == 3 else item["weight"]
        beside = next(
            {item["id"] for item in bucket["items"]} - {3}
            for bucket in own["crush_dump"]["buckets"]
            if any(item["id"] == 3 for item in bucket["items"])
        )
        value = json.loads(self.output("import", *self.dumps("few", own)))
        led = [
            [group, [[osd, 3]]]
            for group, answer in self.sets(value).items()
            for osd in beside.intersection(places(answer))
        ]
        own["osd_dump"].update(exceptions_told([], led[:4]))
        files = self.dumps("few", own)
        now = json.loads(self.output("import", *files))
        paths = self.output("plan", *files, "--batch", 10_000, "--to", "parts").splitlines()
        parts = [commands(pathlib.Path(self.tools.folder, path).read_text()) for path in paths]
        first, last = self.held(now), self.held(with_commands(now, sum(parts, [])))
        self.assertGreater(first[3], 0)
        for part in parts:
            before, now = self.sets(now), with_commands(now, part)
            high = collections.Counter(osd for answer in before.values() for osd in places(answer))
            for group, answer in self.sets(now).items():
                high.update(set(places(answer)) - set(places(before[group])))
            above = {osd: count - max(first[osd], last[osd]) for osd, count in high.items()}
            self.assertLessEqual(max(above.values()), 1, above)

    def held(self, value: Json) -> collections.Counter[int]:
        """How many groups each OSD has."""
        return collections.Counter(osd for answer in self.sets(value).values() for osd in places(answer))

    def test_steps_that_are_taken_out(self) -> None:
        """A step by which a small OSD would get the fullest is taken out of a plan, and so are those by which the
        deviation would rise; what helps stays, and where data counts what harms it goes too."""
        has, share = {0: 6, 1: 3, 2: 0, 3: 3}, {0: 4, 1: 4, 2: 0.1, 3: 3.9}
        good, small, worse = (
            PlanStep(f"1.{at}", ["x"], [], [was], [now], False)
            for at, (was, now) in enumerate(((0, 1), (0, 2), (3, 0)))
        )

        def left(steps: list[PlanStep], *more: Gauge) -> list[str]:
            return [step.group for step in mended([Gauge(Spread(has, share), None, False), *more], steps)]

        self.assertEqual(left([good, small]), ["1.0"])
        self.assertEqual(left([good]), ["1.0"])
        self.assertEqual(left([small, worse]), [])
        self.assertEqual(left([]), [])
        data = Gauge(Spread({0: 1.0, 1: 5.0, 2: 0.0, 3: 3.0}, {0: 3.0, 1: 3.0, 2: 0.1, 3: 2.9}), {"1.0": 1.0}, True)
        self.assertEqual(left([good], data), [])

    def test_groups_that_are_left_out(self) -> None:
        """Groups whose pairs Ceph would not keep, here every other one, stay where they are, with the pairs that they
        had; others are moved in their place, and what is told of the cluster is so."""
        osd_dump, crush_dump = pooled(3)
        osd_dump["osds"][4]["up"] = 0
        value = json.loads(self.output("import", self.tools.put("o", osd_dump), self.tools.put("c", crush_dump)))
        there = places(self.tools.sets(value)["1.2"])
        pair = [there[0], next(osd for osd in range(12) if osd not in there and osd != 4)]
        value["pg_upmap_items"] = [["1.2", [pair]]]
        keeps, before, why = rounds.left_out, self.tools.sets(value), Reason("choose", "a step", "why")
        rounds.left_out = lambda _, groups: {group: why for group in groups if int(group.split(".")[1], 16) % 2 == 0}
        try:
            with Monitor(value, self.tools.program, stock=True) as monitor:
                outcome = plan.planned(
                    [rounds.Live(value, value, {}, judge_of_map(value, {}), monitor)], plan.DEFAULT_WISH
                )
                pairs = dict(monitor.dump()["pg_upmap_items"])
        finally:
            rounds.left_out = keeps
        lines = [line for step in outcome.steps for line in step.commands]
        after = self.tools.sets(with_commands(value, lines))
        left = {group for parts in outcome.pools for group in parts["left_out"]}
        self.assertTrue(left)
        self.assertTrue(all(int(group.split(".")[1], 16) % 2 == 0 for group in left))
        self.assertGreater(len(lines), 10)
        self.assertTrue(all(int(group.split(".")[1], 16) % 2 for group in of_groups(lines)))
        self.assertEqual([group for group in pairs if int(group.split(".")[1], 16) % 2 == 0], ["1.2"])
        self.assertEqual(pairs["1.2"], [pair])
        flat = dict.fromkeys((pool["id"] for pool in value["pools"]), 1)
        for told, sets in ((outcome.before, before), (outcome.after, after)):
            with self.subTest(told=told):
                self.assertLess(abs(told["groups"]["deviation"] - Measured([value], sets, flat).all()[0]), 0.006)

    def test_room(self) -> None:
        """What the pool with most data may still take is what its fullest OSD leaves, by the weights of the OSDs:
        before the plan and after."""
        value, size = self.tools.map("002-built"), 3 * 2**40
        told, sets = self.planned(value, "--df", self.df_of({1: size}))
        pool, before = value["pools"][0], {
            group: places(answer) for group, answer in self.tools.sets(raised(value)).items()
        }
        weights = {item: weight / 65536 for item, weight in device_weights(value).items()}
        # A group that is not split yet, as the number of groups is no power of two, holds twice as much as another.
        half = 1 << ((pool["pg_num"] - 1).bit_length() - 1)
        place = size / (2 * half * pool["size"])
        for key, own in (("before", before), ("after", sets)):
            with self.subTest(key=key):
                has = dict.fromkeys(weights, 0.0)
                for group, osds in own.items():
                    number = int(group.split(".")[1], 16)
                    for osd in osds:
                        has[osd] += 2 * place if pool["pg_num"] - half <= number < half else place
                room = min(
                    (0.95 * weight * 2**40 - has[osd]) * sum(weights.values()) / weight
                    for osd, weight in weights.items()
                )
                self.assertLessEqual(abs(told["cluster"][key]["room"] - room / pool["size"]), 1)
        self.assertEqual(told["cluster"]["largest"], 1)
        self.assertGreater(told["cluster"]["after"]["room"], told["cluster"]["before"]["room"])
        self.assertGreater(told["cluster"]["before"]["room"], 0)

    def test_data_of_another_cluster(self) -> None:
        """A file of `ceph df` that lacks a pool, knows it by another name, has one twice, or one that is not there, is
        told by its line, and no plan is made by half the data; so it is also where the pool is not the one that is
        planned."""
        name = "025-many-pools"
        files, pools = self.dumps(name), STOCK[name]["osd_dump"]["pools"]
        rows = [{"id": pool["pool"], "name": pool["pool_name"], "stats": stats_of(1)} for pool in pools]
        last, first = rows[-1], rows[0]
        more = dict(last, id=999, name="beside")
        for changed, line in (
            (rows[:-1], f"no pool {last['id']}"),
            ([*rows, more], "the cluster has no pool 999"),
            ([*rows, last], f"pool {last['id']} stands there twice"),
            (
                [*rows[:-1], dict(last, name="other")],
                f"pool {last['id']} is other there, and {last['name']} in the cluster",
            ),
        ):
            with self.subTest(line=line):
                for words in ([], ["--of-pool", first["id"]]):
                    found = self.tools.run("plan", *files, *words, "--df", self.tools.put("w", {"pools": changed}))
                    self.assertEqual(found, (1, "", f"{self.tools.folder / 'w'}: {line}\n"))
        self.assertEqual(self.tools.run("plan", *files, "--df", self.tools.put("w", {"pools": rows}))[0], 0)

    def test_what_if_it_is_balanced(self) -> None:
        """`whatif --balance` tells what moves by a change and the plan of the cluster after it, as `plan` makes it over
        the map after the change."""
        osd_dump, crush_dump = pooled(3)
        value = json.loads(self.output("import", self.tools.put("o", osd_dump), self.tools.put("c", crush_dump)))
        change = dict(value, osds=[dict(own, weight=0 if own["id"] == 5 else own["weight"]) for own in value["osds"]])
        told = self.json("whatif", self.tools.put("m", value), "--out", 5, "--balance")
        plan = commands(self.tools.run("plan", self.tools.put("n", change))[1])
        before, after = self.tools.sets(value), self.tools.sets(with_commands(change, plan))
        self.assertTrue(plan, (told, plan))
        self.assertEqual(
            told["groups"], sum(places(before[group]) != places(after[group]) for group in before), (told, plan)
        )

    def test_what_is_told_of_the_cluster(self) -> None:
        """What a plan tells begins with the cluster, then come its pools by their names; a pool of one group is planned
        only where it is named."""
        name = "005-openstack-mixed"
        files = self.dumps(name)
        pools = {pool["pool_name"]: pool["pg_num"] for pool in STOCK[name]["osd_dump"]["pools"]}
        _, error = self.ran("plan", *files)
        self.assertStarts(error, "cluster by groups: before fullest osd.")
        self.assertEqual(
            [line.split(": ")[0] for line in pool_lines(error)], [own for own, groups in pools.items() if groups > 1]
        )
        one = next(own for own, groups in pools.items() if groups == 1)
        self.assertEqual(
            [line.split(": ")[0] for line in pool_lines(self.ran("plan", *files, "--of-pool", one)[1])], [one]
        )
