#!/usr/bin/env python3
"""The plans of `rekhuso plan` beside those of Ceph's own balancer, pool by pool, over stock clusters.

    beside_ceph.py PROGRAM [PART OF A CLUSTER'S NAME]

The clusters are those of tests/stock.json.gz that come in and have no weight set. Of each pool with more than one
group a map of Ceph's is made (its CRUSH map by `crushtool`, the rest in the bytes of a map of `osdmaptool`), whose
up sets must be those that a real monitor gave. Both plan at deviation 1: `osdmaptool --upmap` with as many changes
as it likes, and `rekhuso plan --alone --deviation 1`. *Moves* are the places that another OSD has after the plan;
*farthest* is how many groups an OSD is from its share at most, *spread* the standard deviation from the shares, both
by Ceph's sets. *Taken back* are the commands by which `osdmaptool --upmap-cleanup` would clean a plan away, *unlike*
the groups that Ceph places otherwise after ours than the program does. It is no part of the gate.
"""

from __future__ import annotations

import gzip
import json
import os
import re
import struct
import subprocess
import sys
import time
from collections.abc import Iterator
from typing import Any

import ceph
from maps import exceptions_of, groups_of, reweights_of, trees_of, weights_of, with_commands
from running import Folder, found, heading, in_folder, output, table
from tools import commands, words

HERE = os.path.dirname(os.path.abspath(__file__))
STOCK = os.path.join(os.path.dirname(HERE), "tests", "stock.json.gz")
LIMIT = 300
NONE = 2147483647
EXISTS, UP = 1, 2


def ran(*command: Any) -> tuple[Any, Any]:
    """What a command puts out, and its seconds; None where it fails."""
    begin = time.perf_counter()
    done = subprocess.run(
        list(map(str, command)),
        stdin=subprocess.DEVNULL,
        stdout=subprocess.PIPE,
        stderr=subprocess.DEVNULL,
        text=True,
        check=False,
        timeout=LIMIT,
    )
    return done.stdout if done.returncode == 0 else None, time.perf_counter() - begin


# A map of Ceph's


def take_text(dump: Any, step: Any) -> Any:
    """A step that takes a bucket, which may be the shadow of another for a class of devices."""
    names = {bucket["name"]: bucket["id"] for bucket in dump["buckets"]}
    name, _, kind = step["item_name"].partition("~")
    return f"take {ceph.item_name(names[name])}" + (f" class {kind}" if kind else "")


def rule_text(dump: Any, rule: Any) -> str:
    """A rule; its types by their numbers."""
    types = {kind["name"]: kind["type_id"] for kind in dump["types"]}
    steps = []
    for step in rule["steps"]:
        if step["op"] == "take":
            steps.append(take_text(dump, step))
        elif step["op"].startswith("set_"):
            steps.append(f"{step['op']} {step['num']}")
        elif step["op"] == "emit":
            steps.append("emit")
        else:
            steps.append(f"{step['op'].replace('_', ' ')} {step['num']} type {ceph.type_name(types[step['type']])}")
    kind, lines = {1: "replicated", 3: "erasure"}[rule["type"]], "".join(f"    step {step}\n" for step in steps)
    head = (
        f"rule rule{rule['rule_id']} {{\n    id {rule['rule_id']}\n    type {kind}\n    min_size 1\n    max_size 10\n"
    )
    return f"{head}{lines}}}\n"


def bucket_text(dump: Any, bucket: Any) -> Any:
    """A bucket with the ids of its shadows."""
    shadows = {
        own["name"].partition("~")[2]: own["id"]
        for own in dump["buckets"]
        if own["name"].startswith(f"{bucket['name']}~")
    }
    text = ceph.bucket_text(
        {
            "id": bucket["id"],
            "type": bucket["type_id"],
            "kind": bucket["alg"],
            "items": [(item["id"], item["weight"]) for item in bucket["items"]],
        }
    )
    return text.replace(
        "    alg ", "".join(f"    id {number} class {kind}\n" for kind, number in shadows.items()) + "    alg ", 1
    )


def crush_text(dump: Any) -> Any:
    """The CRUSH map of a dump as text, each bucket behind those that stand in it."""
    buckets = sorted((own for own in dump["buckets"] if "~" not in own["name"]), key=lambda own: int(own["type_id"]))
    tunables = dict(
        ceph.TUNABLES, **{name: dump["tunables"][name] for name in ceph.TUNABLES if name in dump["tunables"]}
    )
    lines = [f"tunable {name} {value}" for name, value in tunables.items()]
    lines += [
        f"device {own['id']} osd.{own['id']}" + (f" class {own['class']}" if "class" in own else "")
        for own in dump["devices"]
    ]
    lines += [f"type {kind['type_id']} {ceph.type_name(kind['type_id'])}" for kind in dump["types"]]
    return (
        "\n".join(lines)
        + "\n"
        + "".join(bucket_text(dump, own) for own in buckets)
        + "".join(rule_text(dump, own) for own in dump["rules"])
    )


def with_pool(data: Any, pool: Any) -> tuple[Any, Any]:
    """The bytes of a map whose one pool is another, and where the next part begins. The whole and the part for
    clients begin with six bytes each, then come 36 bytes of an id, an epoch and two times, and then the pools (Ceph,
    OSDMap.cc `OSDMap::encode`)."""
    data, at = bytearray(data), 12 + 16 + 4 + 8 + 8
    assert struct.unpack_from("<I", data, at)[0] == 1, "one pool"
    struct.pack_into("<q", data, at + 4, pool["pool"])
    size = struct.unpack_from("<I", data, at + 14)[0]
    struct.pack_into("<BBB", data, at + 18, pool["type"], pool["size"], pool["crush_rule"])
    struct.pack_into("<II", data, at + 22, pool["pg_num"], pool["pg_placement_num"])
    at += 18 + size
    assert struct.unpack_from("<I", data, at)[0] == 1, "one name"
    struct.pack_into("<q", data, at + 4, pool["pool"])
    at += 16 + struct.unpack_from("<I", data, at + 12)[0]
    return data, at


def with_osds(data: Any, at: int, dump: Any, count: Any) -> Any:
    """The same with the states and the reweights of a dump's OSDs, which stand behind the greatest pool, the flags
    and max_osd."""
    at = next(place for place in range(at, at + 32) if struct.unpack_from("<II", data, place) == (count, count)) + 8
    osds = {osd["osd"]: osd for osd in dump["osds"]}
    states = [(EXISTS | UP * bool(osds[osd]["up"])) if osd in osds else 0 for osd in range(count)]
    weights = [round(osds[osd]["weight"] * 65536) if osd in osds else 0 for osd in range(count)]
    struct.pack_into(f"<{count}I", data, at, *states)
    assert struct.unpack_from("<I", data, at + 4 * count)[0] == count, "as many reweights"
    struct.pack_into(f"<{count}I", data, at + 4 * count + 4, *weights)
    return data


def with_exceptions(data: Any, crush: Any, explicit: Any, items: Any) -> Any:
    """The same with these explicit sets and pairs, which stand behind the CRUSH map and the profiles of erasure
    codes, and with the two lengths and the checksum made anew."""
    at = data.index(crush) + len(crush)
    at = behind_profiles(data, at)
    end = behind_lists(data, behind_lists(data, at, 4), 8)
    now = ceph.listed_bytes(explicit) + ceph.listed_bytes(items)
    more = len(now) - (end - at)
    data = data[:at] + now + data[end:]
    for place in (2, 8):
        struct.pack_into("<I", data, place, struct.unpack_from("<I", data, place)[0] + more)
    at = 12 + struct.unpack_from("<I", data, 8)[0]
    at += 6 + struct.unpack_from("<I", data, at + 2)[0]
    struct.pack_into("<I", data, at, ceph.checksum(data[:at] + data[at + 4 :]))
    return data


def behind_text(data: Any, at: int) -> Any:
    """Where the part behind a text begins."""
    return at + 4 + struct.unpack_from("<I", data, at)[0]


def behind_profiles(data: Any, at: int) -> Any:
    """Where the part behind the profiles of erasure codes begins."""
    profiles, at = struct.unpack_from("<I", data, at)[0], at + 4
    for _ in range(profiles):
        at = behind_text(data, at)
        entries, at = struct.unpack_from("<I", data, at)[0], at + 4
        for _ in range(2 * entries):
            at = behind_text(data, at)
    return at


def behind_lists(data: Any, at: int, size: int) -> Any:
    """Where the part behind a list of groups begins, each with entries of a size."""
    groups, at = struct.unpack_from("<I", data, at)[0], at + 4
    for _ in range(groups):
        at += 17
        at += 4 + size * struct.unpack_from("<I", data, at)[0]
    return at


class CephMap:
    """A map of Ceph's with one pool of a cluster, in files of a folder."""

    def __init__(self, own: Any, pool: Any, folder: Any, name: str) -> None:
        self.pool, self.path, self.crush = (
            pool["pool"],
            os.path.join(folder, f"{name}-{pool['pool']}"),
            os.path.join(folder, f"{name}-crush"),
        )
        dump = own["osd_dump"]
        with open(self.crush + ".txt", "w", encoding="utf-8") as out:
            out.write(crush_text(own["crush_dump"]))
        ceph.quietly("crushtool", "-c", self.crush + ".txt", "-o", self.crush)
        count = max(dump["max_osd"], *(device["id"] + 1 for device in own["crush_dump"]["devices"]))
        ceph.quietly("osdmaptool", "--createsimple", str(count), "--with-default-pool", "--clobber", self.path)
        ceph.quietly("osdmaptool", self.path, "--import-crush", self.crush)
        ceph.quietly("osdmaptool", self.path, "--export-crush", self.crush)
        data, at = with_pool(self.data(), pool)
        self.base = with_osds(data, at, dump, count)

    def data(self) -> Any:
        """The bytes of the map as it is."""
        with open(self.path, "rb") as file:
            return bytearray(file.read())

    def put(self, explicit: Any, items: Any) -> None:
        """Gives the map these exceptions."""
        with open(self.crush, "rb") as file:
            crush = file.read()
        with open(self.path, "wb") as out:
            out.write(with_exceptions(self.base, crush, explicit, items))

    def sets(self) -> dict[Any, Any]:
        """The up set of each group; an empty place is None."""
        done, _ = ran("osdmaptool", self.path, "--test-map-pgs-dump-all", "--pool", self.pool)
        found = re.findall(rf"^({self.pool}\.\S+) raw .* up \(\[([-\d,]*)\], p-?\d+\) acting", done or "", re.M)
        return {
            group: [None if int(osd) == NONE else int(osd) for osd in places.split(",") if osd]
            for group, places in found
        }


# What is measured


def moves(before: Any, after: Any) -> Any:
    """How many places another OSD has."""
    return sum(len(set(after[group]) - set(before[group]) - {None}) for group in before)


def evenness(value: Any, sets: Any) -> tuple[Any, Any]:
    """How many groups the OSDs of a map of one pool are from their shares: at most, and as a standard deviation."""
    weights, osds = weights_of(value), reweights_of(value)
    trees = trees_of(value, value["pools"][0])
    own = {osd: weights[osd] * osds[osd] for tree in trees for osd in tree if osds.get(osd)}
    places = [osd for group in sets.values() for osd in group if osd in own]
    away = [places.count(osd) - len(places) * weight / sum(own.values()) for osd, weight in own.items()]
    return max((abs(gap) for gap in away), default=0.0), (sum(gap * gap for gap in away) / max(len(away), 1)) ** 0.5


def program_sets(runs: Folder, value: Any) -> dict[Any, Any]:
    """The up sets of a map by the program, as Ceph's are."""
    groups = groups_of(value)
    answers = output(runs.words(runs.map(value), "".join(f"up {group}\n" for group in groups)))
    return {group: json.loads(answer.split(" ")[3].replace("none", "null")) for group, answer in zip(groups, answers)}


def ceph_plan(made: Any, value: Any, before: Any) -> list[Any]:
    """The cells of Ceph's balancer over a map, which keeps its plan; where that takes too long, this alone."""
    try:
        _, spent = ran(
            "osdmaptool",
            made.path,
            "--upmap",
            made.path + ".plan",
            "--upmap-deviation",
            "1",
            "--upmap-max",
            "100000",
            "--save",
        )
    except subprocess.TimeoutExpired:
        return ["", "", "", f"past {LIMIT}", ""]
    after, taken = made.sets(), len(ceph.taken_back(made.path))
    return [moves(before, after), *(f"{own:.2f}" for own in evenness(value, after)), f"{spent:.2f}", taken]


def compared(runs: Folder, name: str, own: Any, pool: Any) -> Any:
    """The cells of a pool's row, or why there are none."""
    files = [runs.file(json.dumps(own[key])) for key in ("osd_dump", "crush_dump")]
    number, text = str(pool["pool"]), None
    ways: list[list[str]] = [[], ["--unmatched"]]
    for more in ways:
        text = text or ran(*words(runs, "import", *files, "--pools", number, *more))[0]
    if text is None:
        return "does not come in"
    value, made = json.loads(text), CephMap(own, pool, runs.folder, name)
    explicit, items = (
        [entry for entry in entries if entry[0].startswith(f"{number}.")] for entries in exceptions_of(value)
    )
    made.put(explicit, items)
    before = made.sets()
    if "up" in own and any(
        before.get(group) != [None if osd == NONE else osd for osd in places]
        for group, (places, _) in own["up"].items()
        if group.startswith(f"{number}.")
    ):
        return "the map that is made gives other sets than the monitor's"
    told, seconds = ran(
        *words(runs, "plan", *files, "--pools", number, "--alone", "--deviation", "1", "--unmatched", "--anyway")
    )
    if told is None:
        return "no plan"
    after = with_commands(value, commands(told))
    made.put(*exceptions_of(after))
    ours, taken = made.sets(), len(ceph.taken_back(made.path))
    unlike = sum(ours[group] != places for group, places in program_sets(runs, after).items())
    made.put(explicit, items)
    start, one = (evenness(value, sets) for sets in (before, ours))
    return [
        f"{start[0]:.2f}",
        moves(before, ours),
        f"{one[0]:.2f}",
        f"{one[1]:.2f}",
        f"{seconds:.2f}",
        taken,
        unlike,
        *ceph_plan(made, value, before),
    ]


COLUMNS = [
    "cluster, pool",
    "groups",
    "farthest before",
    "moves",
    "farthest",
    "spread",
    "s",
    "taken back",
    "unlike",
    "Ceph: moves",
    "farthest",
    "spread",
    "s",
    "taken back",
]


def rows(runs: Folder, part: str) -> Iterator[Any]:
    """A row for each pool with more than one group of each cluster that has no weight set."""
    with gzip.open(STOCK) as file:
        clusters = json.load(file)
    for name, own in clusters.items():
        for pool in own["osd_dump"]["pools"] if part in name and not own["crush_dump"].get("choose_args") else []:
            if pool["pg_num"] > 1:
                cells = found(compared, runs, name, own, pool)
                about = [f"{name}, {pool['pool']}: size {pool['size']}", pool["pg_num"]]
                yield [*about, cells] if isinstance(cells, str) else [*about, *cells]


def main() -> None:
    if not 2 <= len(sys.argv) <= 3:
        sys.exit(__doc__.strip())
    heading("Plans beside Ceph's balancer")
    if not ceph.is_installed():
        print(f"Not measured: no {' and no '.join(ceph.TOOLS)} here.", flush=True)
        return
    part = sys.argv[2] if len(sys.argv) > 2 else ""
    in_folder(sys.argv[1], lambda runs: table(COLUMNS, rows(runs, part)))


if __name__ == "__main__":
    main()
