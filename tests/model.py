#!/usr/bin/env python3
"""Placement and balancing by their definitions, written apart from the program and with no care for speed.

    tests/model.py MAP SCRIPT

answers the lines `up`, `ups`, `count`, `groups`, `epoch`, `dump`, `balance`, `change`, `apply`, `follow`, `fup` and
`fups`, as far as nothing in them is refused. The answers of examples/balance and of the larger map of forty_osds.py
come from here; `model_placements.py` holds it against the placements that Ceph's own tools gave.
"""

from __future__ import annotations

import copy
import functools
import json
import pathlib
import sys
from collections.abc import Callable
from typing import Any, Optional

Json = Any
# A group by its pool and its number; the OSDs of a set, None for an empty place; a group, who leaves it and who comes.
Group = tuple[int, int]
Places = list[Optional[int]]
Move = tuple[Group, int, int]
WORD = 0xFFFFFFFF
# How a rule begins to try: how often it looks for an item and for a leaf, and from which number on for a leaf.
BEGINNING = {"set_choose_tries": 51, "set_chooseleaf_tries": 1, "set_chooseleaf_vary_r": 1, "set_chooseleaf_stable": 1}


# Hashes (Ceph, hash.c)


def mix(a: int, b: int, c: int) -> tuple[int, int, int]:
    a = (a - b - c & WORD) ^ c >> 13
    b = (b - c - a & WORD) ^ a << 8 & WORD
    c = (c - a - b & WORD) ^ b >> 13
    a = (a - b - c & WORD) ^ c >> 12
    b = (b - c - a & WORD) ^ a << 16 & WORD
    c = (c - a - b & WORD) ^ b >> 5
    a = (a - b - c & WORD) ^ c >> 3
    b = (b - c - a & WORD) ^ a << 10 & WORD
    c = (c - a - b & WORD) ^ b >> 15
    return a, b, c


@functools.lru_cache(maxsize=1 << 17)
def mixed(words: tuple[int, ...], order: str) -> int:
    """The hash of words: the places of an order name the words, x, y, and the hash itself."""
    values = dict(zip("abcd", (word & WORD for word in words)), x=231232, y=1232, h=1315423911)
    for word in words:
        values["h"] ^= word & WORD
    for pair in order.split():
        one, other = pair[0], pair[1]
        values[one], values[other], values["h"] = mix(values[one], values[other], values["h"])
    return values["h"]


def hash2(*words: int) -> int:
    return mixed(words, "ab xa by")


def hash3(*words: int) -> int:
    return mixed(words, "ab cx ya bx yc")


def hash4(*words: int) -> int:
    return mixed(words, "ab cd ax yb cx yd")


# Picks of a bucket


def uniform_pick(bucket: Json, x: int, r: int) -> int:
    count = len(bucket["items"])
    places = list(range(count))
    for p in range(count - 1):
        other = p + hash3(x, bucket["id"], p) % (count - p)
        places[p], places[other] = places[other], places[p]
    return int(bucket["items"][places[r % count]][0])


def list_pick(bucket: Json, x: int, r: int) -> int:
    items = bucket["items"]
    for place in range(len(items) - 1, 0, -1):
        item, weight = items[place]
        draw = hash4(x, item, r, bucket["id"]) % 65536
        if draw * sum(w for _, w in items[: place + 1]) // 65536 < weight:
            return int(item)
    return int(items[0][0])


def tree_pick(bucket: Json, x: int, r: int) -> int:
    weights = [weight for _, weight in bucket["items"]]
    half = 1 << (len(weights) - 1).bit_length()
    first = 0
    while half > 1:
        half //= 2
        left, right = (sum(weights[at : at + half]) for at in (first, first + half))
        if hash4(x, 2 * (first + half), r, bucket["id"]) * (left + right) >> 32 >= left:
            first += half
    return int(bucket["items"][first][0])


# The tables of the logarithm: entries in pairs, a reciprocal and a logarithm; and the logarithms between two of them.
TABLES: dict[str, list[int]] = json.loads((pathlib.Path(__file__).resolve().parent / "logarithm.json").read_text())


def logarithm(number: int) -> int:
    """Ceph's logarithm to the base 2 of a number of 16 bits and one more, times 2 ^ 44 (mapper.c, crush_ln)."""
    shift = max(0, 16 - (number + 1).bit_length())
    x = number + 1 << shift
    place = 2 * ((x >> 8) - 128)
    reciprocal, whole = TABLES["RH_LH"][place : place + 2]
    return (15 - shift << 44) + (whole + TABLES["LL"][(x * reciprocal >> 48) % 256] >> 4)


def shortfall(item: int, weight: int, x: int, r: int) -> int:
    """How far the straw of an item falls short of the longest that there may be. Ceph's straws are the negatives of
    these."""
    return (2**48 - logarithm(hash3(x, item, r) % 65536)) // weight


def straw2_pick(bucket: Json, x: int, r: int) -> int:
    return int(min(bucket["items"], key=lambda item: shortfall(item[0], item[1], x, r))[0])


PICKS = {"uniform": uniform_pick, "list": list_pick, "tree": tree_pick, "straw2": straw2_pick}


class Cluster:
    """A map as it stands after some changes."""

    def __init__(self, value: Json) -> None:
        self.value, self.epoch = value, value["epoch"]
        self.take_crush(value)
        self.pools = {pool["id"]: pool for pool in value["pools"]}
        self.osds = {osd["id"]: dict(osd) for osd in value["osds"]}
        self.explicit = {group_of(text): places for text, places in value.get("pg_upmap", [])}
        self.items = {group_of(text): pairs for text, pairs in value.get("pg_upmap_items", [])}
        self.raws: dict[Group, Places] = {}
        self.how = dict(BEGINNING)

    def take_crush(self, value: Json) -> None:
        """Puts other buckets and rules in the place of those that were."""
        buckets, rules = sorted(value["buckets"], key=lambda bucket: -int(bucket["id"])), sorted(
            value["rules"], key=lambda rule: int(rule["id"])
        )
        self.crush = {"buckets": buckets, "rules": rules}
        self.buckets = {bucket["id"]: bucket for bucket in value["buckets"]}
        self.parent = {item: bucket["id"] for bucket in value["buckets"] for item, _ in bucket["items"]}
        self.weight = {item: weight for bucket in value["buckets"] for item, weight in bucket["items"]}
        self.rules = {rule["id"]: rule["steps"] for rule in value["rules"]}

    def reweight(self, osd: int) -> int:
        return int(self.osds[osd]["weight"]) if osd in self.osds else 0

    def exists(self, osd: int) -> bool:
        return osd in self.osds and bool(self.osds[osd]["exists"])

    def is_up(self, osd: int) -> bool:
        return osd in self.osds and bool(self.osds[osd]["up"])

    # Rules

    def is_out(self, item: int | None, x: int) -> bool:
        """Whether an item is an OSD that is out."""
        return (
            item is not None
            and item >= 0
            and self.reweight(item) < 65536
            and hash2(x, item) % 65536 >= self.reweight(item)
        )

    def type_of(self, item: int) -> int:
        return int(self.buckets[item]["type"]) if item < 0 else 0

    def descend(
        self, item: int, level: int, x: int, r: int, coded: tuple[int, int] | None = None
    ) -> tuple[int | None, int]:
        """The item of a type to which the picks lead, None where they meet a device of another type; and the number of
        the last pick."""
        while True:
            bucket, number = self.buckets[item], r
            if coded is not None:
                count, rounds = coded
                number += rounds * (count + (bucket["kind"] == "uniform" and len(bucket["items"]) % count == 0))
            item = PICKS[bucket["kind"]](bucket, x, number)
            if self.type_of(item) == level:
                return item, number
            if item >= 0:
                return None, number

    def packed_leaf(self, item: int, x: int, r: int, leaves: Places) -> int | None:
        """The leaf of a bucket that was picked with a replica number, beside the leaves so far."""
        vary, first = self.how["set_chooseleaf_vary_r"], 0 if self.how["set_chooseleaf_stable"] else len(leaves)
        number = first + (r >> vary - 1 if vary else 0)
        found = (self.descend(item, 0, x, number + more)[0] for more in range(self.how["set_chooseleaf_tries"]))
        return next((leaf for leaf in found if leaf not in leaves and not self.is_out(leaf, x)), None)

    def firstn(self, start: int, count: int, level: int, leafwise: bool, x: int, room: int) -> Places:
        """What packing chooses below a bucket: the items, or their leaves."""
        items: Places = []
        leaves: Places = []
        for replica in range(count):
            for r in range(replica, replica + self.how["set_choose_tries"]):
                if len(items) == room:
                    return leaves
                item, _ = self.descend(start, level, x, r)
                if item is None:
                    break
                if item in items:
                    continue
                leaf = self.packed_leaf(item, x, r, leaves) if leafwise and item < 0 else item
                if leaf is not None and not self.is_out(leaf, x):
                    items.append(item)
                    leaves.append(leaf)
                    break
        return leaves

    def kept_leaf(self, item: int, x: int, number: int, count: int) -> int | None:
        """The leaf of a bucket for a position."""
        tries = range(self.how["set_chooseleaf_tries"])
        found = (self.descend(item, 0, x, number, (count, more))[0] for more in tries)
        return next((leaf for leaf in found if not self.is_out(leaf, x)), None)

    def indep(self, start: int, count: int, level: int, leafwise: bool, x: int, room: int) -> Places:
        """What choosing for positions gives below a bucket."""
        positions = min(count, room)
        items: Places = [None] * positions
        leaves: Places = [None] * positions
        decided = [False] * positions
        for rounds in range(self.how["set_choose_tries"]):
            for place in (place for place in range(positions) if not decided[place]):
                item, number = self.descend(start, level, x, place, (count, rounds))
                decided[place] = item is None
                if item is None or item in items:
                    continue
                leaf = self.kept_leaf(item, x, place + number, count) if leafwise and item < 0 else item
                if leaf is not None and not self.is_out(leaf, x):
                    items[place], leaves[place], decided[place] = item, leaf, True
        return leaves

    def run(self, steps: list[list[Any]], x: int, size: int) -> Places:
        """A rule's result."""
        result: Places = []
        working: Places = []
        self.how = dict(BEGINNING)
        for step in steps:
            if step[0] in self.how:
                self.how[step[0]] = step[1]
            elif step[0] == "take":
                working = [step[1]]
            elif step[0] == "emit":
                result, working = result + working[: size - len(result)], []
            else:
                choose = self.indep if step[0].endswith("indep") else self.firstn
                chosen: Places = []
                for start in working:
                    if start is not None and start < 0 and len(chosen) < size:
                        chosen += choose(
                            start, step[1] or size, step[2], step[0].startswith("chooseleaf"), x, size - len(chosen)
                        )
                working = chosen
        return result

    # Groups

    def raw(self, group: Group) -> Places:
        """What the rule gives, as long as nothing changes that it goes by."""
        if group not in self.raws:
            pool = self.pools[group[0]]
            mask = (1 << (pool["pgp_num"] - 1).bit_length()) - 1
            place = group[1] & mask if group[1] & mask < pool["pgp_num"] else group[1] & mask >> 1
            self.raws[group] = self.run(self.rules[pool["rule"]], hash2(place, group[0]), pool["size"])
        return self.without(group, self.raws[group], self.exists)

    def without(self, group: Group, places: Places, keeps: Callable[[int], bool]) -> Places:
        """A set without the OSDs that are not kept: closed up, or with holes."""
        kept = [osd if osd is not None and keeps(osd) else None for osd in places]
        return kept if self.pools[group[0]]["kind"] == "erasure" else [osd for osd in kept if osd is not None]

    def mapped(self, group: Group) -> Places:
        places, explicit = list(self.raw(group)), self.explicit.get(group)
        if explicit is not None and any(self.reweight(osd) == 0 for osd in explicit):
            return places
        if explicit is not None:
            places = list(explicit)
        for left, right in self.items.get(group, []):
            if left in places and right not in places and self.reweight(right) > 0:
                places[places.index(left)] = right
        return places

    def up(self, group: Group) -> Places:
        return self.without(group, self.mapped(group), self.is_up)

    def groups(self) -> list[Group]:
        return [(pool, number) for pool in sorted(self.pools) for number in range(self.pools[pool]["pg_num"])]

    # Changes

    def below(self, item: int) -> list[int]:
        """The devices under an item."""
        return [item] if item >= 0 else [osd for below, _ in self.buckets[item]["items"] for osd in self.below(below)]

    def reached(self, rule: int) -> set[int]:
        return {osd for step in self.rules[rule] if step[0] == "take" for osd in self.below(step[1])}

    def concerns(self, group: Group, osds: set[int]) -> bool:
        """Whether the rule of a group reaches one of some OSDs, or its exceptions name one."""
        named = set(self.explicit.get(group, [])) | {osd for pair in self.items.get(group, []) for osd in pair}
        return bool(osds & named) or bool(osds & self.reached(self.pools[group[0]]["rule"]))

    def take_pools(self, change: Json) -> None:
        """Lets pools go with their exceptions, come, and grow."""
        for number in change.get("old_pools", []):
            del self.pools[number]
            for entries in (self.explicit, self.items):
                for group in [group for group in entries if group[0] == number]:
                    del entries[group]
        for pool in change.get("new_pools", []):
            self.pools[pool["id"]] = pool
        for number, groups, placed_by in change.get("grow_pool", []):
            self.pools[number] = dict(self.pools[number], pg_num=groups, pgp_num=placed_by)

    def take_states(self, change: Json) -> None:
        """Puts OSDs down and up, and gives them other reweights."""
        for key, is_up in (("down", False), ("up", True)):
            for osd in change.get(key, []):
                self.osds[osd]["up"] = is_up
        for osd, weight in change.get("weight", []):
            self.osds[osd]["weight"] = weight

    def take_exceptions(self, change: Json) -> None:
        """Lets explicit sets and pairs go and come."""
        for old, new, entries in (("old_upmap", "new_upmap", self.explicit), ("old_items", "new_items", self.items)):
            for text in change.get(old, []):
                entries.pop(group_of(text), None)
            entries.update((group_of(text), own) for text, own in change.get(new, []))

    def change(self, change: Json) -> int:
        """The number of evaluations of a change that nothing refuses, which is then made."""
        self.take_pools(change)
        if "new_crush" in change:
            self.take_crush(change["new_crush"])
        self.take_states(change)
        self.take_exceptions(change)
        if not {"old_pools", "new_crush", "new_pools", "grow_pool", "weight"}.isdisjoint(change):
            self.raws = {}
        self.epoch += 1
        named = named_groups(change)
        return sum(self.is_new(group, change, named) for group in self.groups())

    def is_new(self, group: Group, change: Json, named: set[Group]) -> bool:
        """Whether a change that names these groups may place a group otherwise."""
        pools = {pool["id"] for pool in change.get("new_pools", [])} | {
            pool for pool, *_ in change.get("grow_pool", [])
        }
        osds = {osd for osd, _ in change.get("weight", [])}
        return "new_crush" in change or group in named or group[0] in pools or bool(osds) and self.concerns(group, osds)

    def written(self) -> str:
        """The map as text."""
        osds = [osd for _, osd in sorted(self.osds.items()) if osd["exists"] or osd["weight"]]
        exceptions = {
            key: [[group_text(group), own] for group, own in sorted(entries.items())]
            for key, entries in (("pg_upmap", self.explicit), ("pg_upmap_items", self.items))
        }
        pools = [pool for _, pool in sorted(self.pools.items())]
        after = {**self.value, **self.crush, **exceptions, "epoch": self.epoch, "osds": osds, "pools": pools}
        return json.dumps(after, sort_keys=True, separators=(",", ":"))

    # Balancing

    def ancestor(self, item: int, level: int) -> int | None:
        while item in self.parent:
            item = self.parent[item]
            if self.type_of(item) == level:
                return item
        return None

    def balance(self, pool: int, limit: int) -> int:
        """The greedy plan, put into the map; and how many moves it has."""
        board = Board(self, pool)
        moves = 0
        while moves < limit and (move := board.best()):
            board.make(move)
            moves += 1
        self.items.update(board.pairs)
        self.epoch += moves > 0
        return moves


class Board:
    """What moves of a pool go by: its mapped sets, pairs, and how far each candidate is from its share."""

    def __init__(self, cluster: Cluster, pool: int) -> None:
        self.cluster, self.size = cluster, cluster.pools[pool]["size"]
        steps = cluster.rules[cluster.pools[pool]["rule"]]
        self.levels = [step[2] for step in steps if step[0].startswith("choose")]
        candidates = sorted(cluster.below(steps[[step[0] for step in steps].index("take")][1]))
        self.share = {
            osd: cluster.weight[osd] * cluster.reweight(osd)
            for osd in candidates
            if cluster.is_up(osd) and cluster.reweight(osd) > 0
        }
        self.mapped = {group: cluster.mapped(group) for group in cluster.groups() if group[0] == pool}
        self.pairs = {group: list(cluster.items[group]) for group in self.mapped if group in cluster.items}
        self.total = sum(self.share.values())

    def counts(self) -> dict[int, int]:
        """How many groups each candidate has."""
        sets = [set(places) for places in self.mapped.values()]
        return {osd: sum(osd in places for places in sets) for osd in self.share}

    def deviations(self) -> dict[int, int]:
        """How far each candidate is from its share, times T."""
        counts = self.counts()
        places = sum(counts.values())
        return {osd: counts[osd] * self.total - places * share for osd, share in self.share.items()}

    def domain(self, osd: int | None) -> int | None:
        return osd if osd is None or self.levels[-1] == 0 else self.cluster.ancestor(osd, self.levels[-1])

    def is_allowed(self, group: Group, leaves: int, comes: int) -> bool:
        places, ancestor = self.mapped[group], self.cluster.ancestor
        if places.count(leaves) != 1 or comes in places or len(self.pairs.get(group, [])) >= self.size:
            return False
        if any(ancestor(leaves, level) != ancestor(comes, level) for level in self.levels[:-1]):
            return False
        domain = self.domain(comes)
        return domain is not None and all(self.domain(osd) != domain for osd in places if osd not in (leaves, None))

    def good(self) -> list[tuple[int, int, int]]:
        """The pairs of candidates whose deviations differ by more than T, by how much they differ, then by number."""
        away = self.deviations()
        return sorted(
            (away[comes] - away[leaves], leaves, comes)
            for leaves in away
            for comes in away
            if away[leaves] - away[comes] > self.total
        )

    def best(self) -> Move | None:
        """The good move that greed takes: group, who leaves and who comes; None where no good move is left."""
        for _, leaves, comes in self.good():
            for group in self.mapped:
                if leaves in self.mapped[group] and self.is_allowed(group, leaves, comes):
                    return group, leaves, comes
        return None

    def make(self, move: Move) -> None:
        group, leaves, comes = move
        self.mapped[group][self.mapped[group].index(leaves)] = comes
        self.pairs.setdefault(group, []).append([leaves, comes])


# Lines


def group_of(text: str) -> Group:
    pool, number = text.split(".")
    return int(pool), int(number, 16)


def group_text(group: Group) -> str:
    return f"{group[0]}.{group[1]:x}"


def named_groups(change: Json) -> set[Group]:
    """The groups whose exceptions a change names."""
    gone = {group_of(text) for key in ("old_upmap", "old_items") for text in change.get(key, [])}
    return gone | {group_of(text) for key in ("new_upmap", "new_items") for text, _ in change.get(key, [])}


def set_text(places: Places) -> str:
    return "[" + ",".join("none" if osd is None else str(osd) for osd in places) + "]"


def placed(cluster: Cluster, text: str) -> str:
    """The up set of a group and its primary."""
    places = cluster.up(group_of(text))
    return f"{set_text(places)} {next((osd for osd in places if osd is not None), -1)}"


def answer(cluster: Cluster, line: str) -> str:
    """The answer of a line."""
    word, _, rest = line.partition(" ")
    if word == "epoch":
        return f"epoch {cluster.epoch}"
    if word == "dump":
        return "dump " + cluster.written()
    if word == "up":
        return f"up {cluster.epoch} {rest} {placed(cluster, rest)}"
    if word == "ups":
        sets = [set_text(cluster.up(group)) for group in cluster.groups() if group[0] == int(rest)]
        return " ".join([f"ups {cluster.epoch} {rest}", *sets])
    if word in ("count", "groups"):
        found = [group for group in cluster.groups() if int(rest) in cluster.up(group)]
        text = len(found) if word == "count" else "[" + ",".join(map(group_text, found)) + "]"
        return f"{word} {cluster.epoch} {rest} {text}"
    if word in ("change", "apply"):
        evals = cluster.change(json.loads(rest))
        return f"ok {cluster.epoch} evals {evals}"
    pool, limit = map(int, rest.split())
    moves = cluster.balance(pool, limit)
    return f"moved {moves} epoch {cluster.epoch}"


def answers(value: Json, lines: list[str]) -> list[str]:
    """The answers of the lines of a session over a map."""
    cluster, follower = Cluster(value), Cluster(value)
    told: list[str] = []
    for line in filter(None, lines):
        if line == "follow":
            follower = copy.deepcopy(cluster)
            told.append(f"follow {follower.epoch}")
        elif line.startswith(("fup ", "fups ")):
            told.append("f" + answer(follower, line[1:]))
        else:
            told.append(answer(cluster, line))
    return told


def main() -> None:
    if len(sys.argv) != 3:
        sys.exit(__doc__.strip())
    with open(sys.argv[1], encoding="utf-8") as text, open(sys.argv[2], encoding="utf-8") as script:
        print("\n".join(["session 1"] + answers(json.load(text), script.read().splitlines())))


if __name__ == "__main__":
    main()
