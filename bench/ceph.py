"""A map of one rule and one replicated pool in the form of Ceph's tools: a CRUSH map as text, which `crushtool`
compiles, put into a map that `osdmaptool` makes with a pool of the same number of groups. All OSDs are up and in.

The traps: the reader of the text wants each bucket after those in it; `osdmaptool` gives a pool a number of groups that
is the number of OSDs shifted to the left; it prints placements whole only into a file; and no name may begin with a
word of the text's own, such as `type`.

`osdmaptool` takes no exceptions but its own balancer's, so `with_exceptions` lets it write some and puts others in
their place, in the bytes of the map (Ceph, OSDMap.cc `OSDMap::encode`): two lengths in front of them and the
checksum behind are then made anew.
"""

from __future__ import annotations

import json
import os
import re
import shutil
import struct
import subprocess
from typing import Any

TOOLS = ("crushtool", "osdmaptool")
TUNABLES = {
    "choose_local_tries": 0,
    "choose_local_fallback_tries": 0,
    "choose_total_tries": 50,
    "chooseleaf_descend_once": 1,
    "chooseleaf_vary_r": 1,
    "chooseleaf_stable": 1,
    "straw_calc_version": 1,
    "allowed_bucket_algs": 46,
}


def is_installed() -> Any:
    return all(shutil.which(tool) for tool in TOOLS)


def item_name(item: int) -> Any:
    return f"osd.{item}" if item >= 0 else f"bucket{-item}"


def type_name(level: int) -> Any:
    return f"level{level}" if level else "osd"


def bucket_text(bucket: Any) -> str:
    """A bucket; its weights have sixteen binary places, so that their decimals are exact."""
    items = "".join(f"    item {item_name(item)} weight {weight / 65536:.16f}\n" for item, weight in bucket["items"])
    head = (
        f"{type_name(bucket['type'])} {item_name(bucket['id'])} {{\n    id {bucket['id']}\n    alg {bucket['kind']}\n"
    )
    return f"{head}    hash 0\n{items}}}\n"


def step_text(step: Any) -> str:
    if step[0] == "take":
        return f"take {item_name(step[1])}"
    if step[0] == "emit":
        return "emit"
    return f"{step[0].replace('_', ' ')} {step[1]} type {type_name(step[2])}"


def crush_text(stated: Any) -> Any:
    """The CRUSH map of a map as text."""
    buckets, rule = sorted(stated["buckets"], key=lambda bucket: int(bucket["type"])), stated["rules"][0]
    lines = [f"tunable {name} {value}" for name, value in TUNABLES.items()]
    lines += [f"device {osd} osd.{osd}" for osd in range(stated["max_osd"])]
    lines += [f"type {level} {type_name(level)}" for level in sorted({0} | {bucket["type"] for bucket in buckets})]
    steps = "".join(f"    step {step_text(step)}\n" for step in rule["steps"])
    rules = (
        f"rule placing {{\n    id {rule['id']}\n    type {rule['kind']}\n    min_size 1\n    max_size 10\n{steps}}}\n"
    )
    return "\n".join(lines) + "\n" + "".join(map(bucket_text, buckets)) + rules


def quietly(*words: Any) -> None:
    subprocess.run(words, check=True, stdout=subprocess.DEVNULL, stderr=subprocess.DEVNULL, timeout=60)


def osdmap(stated: Any, folder: Any) -> Any:
    """The file of a map in Ceph's form."""
    text, crush, path = (
        os.path.join(folder, f"{name}-{stated['pools'][0]['pg_num']}") for name in ("crush.txt", "crush", "osdmap")
    )
    with open(text, "w", encoding="utf-8") as out:
        out.write(crush_text(stated))
    shift = (stated["pools"][0]["pg_num"] // stated["max_osd"]).bit_length() - 1
    quietly("crushtool", "-c", text, "-o", crush)
    quietly(
        "osdmaptool",
        "--createsimple",
        str(stated["max_osd"]),
        "--pg-bits",
        str(shift),
        "--pgp-bits",
        str(shift),
        "--with-default-pool",
        f"--osd_pool_default_size={stated['pools'][0]['size']}",
        "--clobber",
        path,
    )
    quietly("osdmaptool", path, "--import-crush", crush)
    return path


def words(path: Any) -> list[Any]:
    """The words of a run that places each group and prints how many an OSD has."""
    return ["osdmaptool", path, "--mark-up-in", "--test-map-pgs", "--pool", "1"]


def sets(path: Any) -> Any:
    """The up set of each group, in order."""
    with open(path + ".sets", "w+", encoding="utf-8") as found:
        subprocess.run(
            ["osdmaptool", path, "--mark-up-in", "--test-map-pgs-dump-all", "--pool", "1"],
            check=True,
            stdout=found,
            timeout=60,
            stderr=subprocess.DEVNULL,
        )
        found.seek(0)
        return re.findall(r"^1\.\S+ raw .* up \((\[[-\d,]*\]), p-?\d+\) acting", found.read(), re.M)


# Exceptions

POLYNOMIAL = 0x82F63B78
TABLE = []
for byte in range(256):
    for _ in range(8):
        byte = byte >> 1 ^ (POLYNOMIAL if byte & 1 else 0)
    TABLE.append(byte)


def checksum(data: bytes) -> Any:
    """The CRC-32C that Ceph has of some bytes, which begins with all bits set and is not turned over at the end."""
    found = 0xFFFFFFFF
    for byte in data:
        found = found >> 8 ^ TABLE[(found ^ byte) & 255]
    return found


def group_bytes(group: str) -> Any:
    """A group as Ceph writes it: a version, its pool, its number, and no OSD that is preferred."""
    pool, number = group.split(".")
    return struct.pack("<BQIi", 1, int(pool), int(number, 16), -1)


def listed_bytes(entries: Any) -> Any:
    """A list of groups with a list of numbers, or of pairs of numbers, each."""
    found = [struct.pack("<I", len(entries))]
    for group, own in entries:
        numbers = [number for one in own for number in (one if isinstance(one, list) else [one])]
        found += [group_bytes(group), struct.pack(f"<I{len(numbers)}i", len(own), *numbers)]
    return b"".join(found)


def written_pairs(path: Any) -> list[Any]:
    """Lets Ceph's balancer write pairs into a map, all of whose OSDs are up and in from then on; the pairs."""
    quietly("osdmaptool", path, "--mark-up-in", "--save", "--upmap", os.devnull, "--upmap-deviation", "1")
    done = subprocess.run(
        ["osdmaptool", path, "--dump", "json"],
        check=True,
        stdout=subprocess.PIPE,
        stderr=subprocess.DEVNULL,
        timeout=60,
    )
    found = json.loads(done.stdout[done.stdout.index(b"{") :])["pg_upmap_items"]
    return [[entry["pgid"], [[pair["from"], pair["to"]] for pair in entry["mappings"]]] for entry in found]


def with_exceptions(path: Any, explicit: Any, items: Any) -> None:
    """Puts explicit sets and pairs in the place of all exceptions of a map, in the order of their groups."""
    was, now = listed_bytes([]) + listed_bytes(written_pairs(path)), listed_bytes(explicit) + listed_bytes(items)
    with open(path, "rb") as found:
        data = found.read()
    if data.count(was) != 1:
        raise ValueError("the exceptions are not found in the map")
    more = len(now) - len(was)
    data = bytearray(data.replace(was, now))
    # The whole and the part for clients begin with two bytes and a length each; then come the part for OSDs and the
    # checksum.
    for at in (2, 8):
        struct.pack_into("<I", data, at, struct.unpack_from("<I", data, at)[0] + more)
    at = 12 + struct.unpack_from("<I", data, 8)[0]
    at += 6 + struct.unpack_from("<I", data, at + 2)[0]
    struct.pack_into("<I", data, at, checksum(data[:at] + data[at + 4 :]))
    with open(path, "wb") as out:
        out.write(data)


def taken_back(path: Any) -> list[Any]:
    """The commands by which Ceph's monitor would clean exceptions away."""
    done = subprocess.run(
        ["osdmaptool", path, "--upmap-cleanup", "-"],
        check=True,
        stdout=subprocess.PIPE,
        stderr=subprocess.DEVNULL,
        text=True,
        timeout=60,
    )
    return [line for line in done.stdout.splitlines() if line.startswith("ceph osd ")]
