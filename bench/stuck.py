"""Maps of 1,024 OSDs and 4,096 groups of size 10 whose plans find little to move, or move again and again what a
move has opened."""

from __future__ import annotations

from typing import Any

from maps import a_map, pool

OSDS, GROUPS, SIZE, BUCKET = 1024, 4096, 10, 64


def forest(step: Any, weight: Any = lambda osd: 65536, hosts: Any = 16) -> Any:
    """OSDs in lists of 64 under one root, the lists of type 1, and a pool placed by a step or several."""
    items = [[[osd, weight(osd)] for osd in range(host * BUCKET, (host + 1) * BUCKET)] for host in range(hosts)]
    buckets = [
        {
            "id": -1,
            "items": [[-2 - host, sum(own for _, own in below)] for host, below in enumerate(items)],
            "kind": "list",
            "type": 10,
        }
    ]
    buckets += [{"id": -2 - host, "items": below, "kind": "list", "type": 1} for host, below in enumerate(items)]
    stated = a_map(buckets, hosts * BUCKET, step, 1, GROUPS)
    stated["pools"] = [pool(1, GROUPS, SIZE)]
    return stated


def closed(room: int = 0) -> Any:
    """All groups stand on half of the OSDs, and each but so many has as many pairs as it may, none of which does
    anything."""
    stated = forest([["choose_firstn", 0, 0]])
    half = OSDS // 2
    stated["pg_upmap"] = [
        [f"1.{group:x}", [(group * SIZE + place) % half for place in range(SIZE)]] for group in range(GROUPS)
    ]
    pairs = [[OSDS - 1 - place, OSDS - 2 - place] for place in range(SIZE)]
    # The groups with room lie as far apart as may be.
    roomy = {number * GROUPS // room for number in range(room)}
    stated["pg_upmap_items"] = [[f"1.{group:x}", pairs[1:] if group in roomy else pairs] for group in range(GROUPS)]
    return stated


def shut() -> Any:
    """Nine racks, of which the last has half of the OSDs; each group stands in eight racks, and twice in the last,
    whose two OSDs that have groups have all: whatever comes would meet a member of the group in its rack."""
    stated = forest([["chooseleaf_firstn", 0, 3]])
    hosts, half = stated["buckets"][1:], OSDS // 2
    racks = [[[host["id"], BUCKET * 65536]] for host in hosts[:8]] + [
        [[host["id"], BUCKET * 65536] for host in hosts[8:]]
    ]
    stated["buckets"] = [
        {
            "id": -101,
            "items": [[-102 - rack, len(own) * BUCKET * 65536] for rack, own in enumerate(racks)],
            "kind": "list",
            "type": 10,
        }
    ]
    stated["buckets"] += [
        {"id": -102 - rack, "items": own, "kind": "list", "type": 3} for rack, own in enumerate(racks)
    ] + hosts
    stated["rules"][0]["steps"][0] = ["take", -101]
    stated["pg_upmap"] = [
        [f"1.{group:x}", [BUCKET * rack + group % BUCKET for rack in range(8)] + [half, half + 1]]
        for group in range(GROUPS)
    ]
    return stated


def nine_in_a_rack() -> Any:
    """Each group stands nine times in one rack and once in another, and its members stay in their racks."""
    return forest([["choose_firstn", 2, 1], ["choose_firstn", 9, 0]])


def apart() -> Any:
    """Each group stands nine times in one of eight racks and once in another, and the other eight racks, which
    members may not come to, are empty."""
    stated = nine_in_a_rack()
    stated["pg_upmap"] = [
        [
            f"1.{group:x}",
            [BUCKET * (group % 8) + (group // 8 * 9 + place) % BUCKET for place in range(9)]
            + [BUCKET * ((group + 1) % 8) + group // 8 % BUCKET],
        ]
        for group in range(GROUPS)
    ]
    return stated


def thousandfold() -> Any:
    """Every eighth OSD weighs a thousand times as much as the others."""
    return forest([["chooseleaf_firstn", 0, 1]], lambda osd: 4096 if osd % 8 else 4096 * 1000)


def opening() -> Any:
    """Sixteen hosts of which each group leaves six: a move into one of them opens the host that it left."""
    return forest([["chooseleaf_firstn", 0, 1]])


# What is hard of each map, the map, and how many moves its plan has where that is told by how the map is made.
CASES: tuple[tuple[str, Any, int | None], ...] = (
    ("all groups with as many pairs as they may have", closed, 0),
    ("64 of them with one pair less", lambda: closed(64), 64),
    ("all pairs of OSDs shut by racks", shut, 0),
    ("nine places of a group in one rack", nine_in_a_rack, None),
    ("the same, and half of the racks out of reach", apart, 0),
    ("weights that differ a thousandfold", thousandfold, None),
    ("each move opens others", opening, None),
)
