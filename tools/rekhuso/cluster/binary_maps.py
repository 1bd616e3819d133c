"""A cluster's binary OSDMap, as `ceph osd getmap -o FILE` writes it (Ceph 16.2 and 18.2: OSDMap.cc and osd_types.cc
`encode`). It is one file of one epoch, with a CRC over all of it, of which both dumps are told exactly, and beside them
what no dump tells: which reweights OSDs have kept that do not exist any more.

What stands in a section behind what is read here is passed by the section's length, as Ceph's own older clients do.
"""

from __future__ import annotations

import struct
from collections.abc import Callable
from uuid import UUID

from ..faults import Trouble
from ..files import JsonObject, remembered, unpacked_bytes
from ..program.map_forms import FULL_WEIGHT
from ..together import Binary
from .encoded import Encoded, Misread, crc32c
from .releases import RELEASES

# How a map begins: the version of its outermost section, and the least version by which it is read; and from which
# version on no release has had one.
HEAD, KNOWN, LATEST = b"\x08\x07", 7, 32
EXISTS, UP = 1, 2
# Each device of a CRUSH map is told, so that of many more no list is made.
MOST_DEVICES = 2**20
# What stands in a pool behind its flags, each by the version from which on it does: so many bytes, or what is read.
Way = Callable[[Encoded], object]


def passed(count: int) -> Way:
    """Passes so many bytes."""
    return lambda read: read.take(count)


BEHIND: tuple[tuple[int, str, Way], ...] = (
    (4, "", passed(4)),
    (7, "min_size", Encoded.byte),
    (8, "", passed(16)),
    (9, "", lambda read: read.items(read.long)),
    (9, "", passed(25)),
    (10, "", Encoded.texts),
    (11, "", Encoded.passed),
    (11, "", passed(8)),
    (12, "", passed(4)),
    (13, "", passed(32)),
    (14, "erasure_code_profile", Encoded.text),
    (15, "", passed(4)),
    (16, "", passed(4)),
    (17, "", passed(8)),
    (19, "", passed(4)),
    (20, "", passed(4)),
    (21, "", passed(1)),
    (22, "", passed(1)),
    (23, "", passed(8)),
    (24, "", Encoded.passed),
    (25, "", passed(4)),
    (26, "", lambda read: read.table(read.text, read.texts)),
    (27, "", passed(8)),
    (28, "pg_num_target", Encoded.word),
    (28, "pg_placement_num_target", Encoded.word),
    (28, "pg_num_pending", Encoded.word),
)
FIRST = (("type", 1), ("size", 1), ("crush_rule", 1), ("object_hash", 1), ("pg_num", 4), ("pg_placement_num", 4))


def pool_in(own: Encoded) -> JsonObject:
    """The next pool, but for its id and its name."""
    version, read = own.section(5)
    found: JsonObject = {key: read.number(count) for key, count in FIRST}
    read.take(24)
    read.table(read.long, read.passed)
    read.table(read.long, read.long)
    read.take(8)
    found["flags"] = read.long()
    for first, key, way in BEHIND:
        if version >= first:
            value = way(read)
            found.update({key: value} if key else {})
    return found


def group_in(read: Encoded) -> str:
    """The next group."""
    if read.byte() != 1:
        raise Misread("a group of an unknown form")
    pool, number = read.long(), read.word()
    read.take(4)
    return f"{pool}.{number:x}"


def pass_address(read: Encoded, kind: int) -> None:
    """Passes an address behind the byte that tells its kind."""
    if kind == 1:
        read.passed()
    else:
        read.take(135)


def pass_addresses(read: Encoded) -> None:
    """Passes the next list of addresses, of each OSD one or several."""
    for _ in range(read.word()):
        kind = read.byte()
        for _ in range(read.word() if kind == 2 else 1):
            pass_address(read, read.byte() if kind == 2 else kind)


def crush_in(data: bytes) -> JsonObject:
    """A CRUSH map as `ceph osd crush dump` prints it."""
    if int.from_bytes(data[12:16], "little") > MOST_DEVICES:
        raise Misread("its CRUSH map has more devices than any cluster")
    try:
        found = Binary(data).dump()
    except (struct.error, KeyError, IndexError, ValueError) as fault:
        raise Misread(f"its CRUSH map is not read: {fault}") from None
    names = {bucket["id"]: bucket["name"] for bucket in found["buckets"]}
    for step in (step for rule in found["rules"] for step in rule["steps"] if step["op"] == "take"):
        item = step.pop("num")
        step.update(item=item, item_name=names.get(item, f"osd.{item}"))
    for entries in found["choose_args"].values():
        entries[:] = [{key: own for key, own in entry.items() if own != []} for entry in entries]
        entries[:] = [entry for entry in entries if len(entry) > 1]
    return found


def osds_in(states: list[int], weights: list[int], affinities: list[int]) -> list[JsonObject]:
    """The OSDs that exist, as the dump of OSDs has them."""
    return [
        {
            "osd": osd,
            "up": int(bool(state & UP)),
            "weight": weight / FULL_WEIGHT,
            "primary_affinity": affinity / FULL_WEIGHT,
            "state": ["exists"],
        }
        for osd, (state, weight, affinity) in enumerate(zip(states, weights, affinities))
        if state & EXISTS
    ]


def with_pools(read: Encoded) -> list[JsonObject]:
    """The next pools, each with its name."""
    pools, names = read.table(read.long, lambda: pool_in(read)), dict(read.table(read.long, read.text))
    if any(number not in names for number, _ in pools):
        raise Misread("a pool without a name")
    return [{**pool, "pool": number, "pool_name": names[number]} for number, pool in pools]


def exceptions_of(read: Encoded) -> JsonObject:
    """The next explicit sets and pairs, as the dump of OSDs has them."""
    sets = read.table(lambda: group_in(read), lambda: read.items(read.signed))
    pairs = read.table(lambda: group_in(read), lambda: read.items(lambda: (read.signed(), read.signed())))
    return {
        "pg_upmap": [{"pgid": group, "osds": own} for group, own in sets],
        "pg_upmap_items": [
            {"pgid": group, "mappings": [{"from": was, "to": now} for was, now in own]} for group, own in pairs
        ],
    }


def temporary_in(read: Encoded) -> JsonObject:
    """The next temporary sets and primaries, as the dump of OSDs has them."""
    sets = read.table(lambda: group_in(read), lambda: read.items(read.signed))
    primaries = read.table(lambda: group_in(read), read.signed)
    return {
        "pg_temp": [{"pgid": group, "osds": own} for group, own in sets],
        "primary_temp": [{"pgid": group, "osd": osd} for group, osd in primaries],
    }


def for_clients(whole: Encoded) -> tuple[JsonObject, JsonObject]:
    """What a map has for clients, which is nearly all of it: as both dumps have it."""
    version, read = whole.section(1)
    if version < 8:
        raise Misread("it is of a release before Nautilus")
    found: JsonObject = {"fsid": str(UUID(bytes=read.take(16))), "epoch": read.word()}
    read.take(16)
    found["pools"] = with_pools(read)
    read.take(8)
    found["max_osd"], states, weights = read.word(), read.items(read.word), read.items(read.word)
    pass_addresses(read)
    found.update(temporary_in(read))
    osds = osds_in(states, weights, read.items(read.word) or [FULL_WEIGHT] * len(states))
    found["gone"] = [[osd, own] for osd, (own, state) in enumerate(zip(weights, states)) if not state & EXISTS]
    crush = crush_in(read.take(read.word()))
    found["erasure_code_profiles"] = {name: dict(own) for name, own in read.table(read.text, read.texts)}
    found.update(exceptions_of(read), osds=osds, crush_version=read.word())
    for _ in range(2):
        read.table(read.long, lambda: read.table(read.long, read.long))
    read.take(16 if version >= 9 else 0)
    named = read.table(lambda: group_in(read), read.signed) if version >= 10 else []
    found["pg_upmap_primaries"] = [{"pgid": group, "primary_osd": osd} for group, osd in named]
    return found, crush


def old_weight(own: Encoded) -> int:
    """The weight that the next OSD had before it was taken out of itself."""
    _, read = own.section(4)
    read.take(24)
    return read.word()


def for_osds(whole: Encoded) -> JsonObject:
    """What a map has for OSDs alone, as far as the dump of OSDs has it and it is asked for."""
    _, read = whole.section(1)
    pass_addresses(read)
    read.items(lambda: read.take(25))
    for _ in range(read.word()):
        pass_address(read, read.byte())
        read.take(8)
    pass_addresses(read)
    read.take(4)
    read.text()
    read.items(lambda: read.take(16))
    old = read.items(lambda: old_weight(read))
    pass_addresses(read)
    nearfull = read.single()
    read.take(8)
    releases = {key: read.byte() for key in ("require_min_compat_client", "require_osd_release")}
    told = {key: RELEASES[own - 1] for key, own in releases.items() if 0 < own <= len(RELEASES)}
    return {
        "nearfull_ratio": nearfull,
        "osd_xinfo": [{"osd": osd, "old_weight": weight} for osd, weight in enumerate(old)],
        **told,
    }


def check_crc(data: bytes) -> None:
    """Refuses a map whose CRC, which stands behind its two sections, is another one."""
    whole = Encoded(data)
    whole.take(6)
    whole.passed()
    whole.passed()
    at = whole.at
    if whole.word() != crc32c(data[whole.at :], crc32c(data[:at])):
        raise Misread("it is damaged: its CRC is another one")


@remembered(4)
def is_binary_map(path: str) -> bool:
    """Whether a file has a binary map, of whichever release. A fault where it cannot be read."""
    data = unpacked_bytes(path)
    length = int.from_bytes(data[2:6], "little")
    return data[:2] == HEAD or len(data) > 6 and data[0] < LATEST and data[1] <= data[0] and length == len(data) - 6


def report_of_bytes(data: bytes) -> JsonObject:
    """A binary map as the part of a report that has both dumps."""
    check_crc(data)
    _, whole = Encoded(data).section(KNOWN)
    osd, crush = for_clients(whole)
    return {"osdmap": {**osd, **for_osds(whole)}, "crushmap": crush}


@remembered(4)
def report_of_map(path: str) -> JsonObject:
    """The binary map in a file, as the part of a report that has both dumps. A fault where it cannot be read."""
    try:
        return report_of_bytes(unpacked_bytes(path))
    except Misread as fault:
        raise Trouble(f"{path}: a binary map that is not read: {fault}") from None
