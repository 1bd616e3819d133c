"""The tree with the columns of `ceph osd df tree`, as `df` and the page tell it."""

from __future__ import annotations

from collections.abc import Iterable, Mapping, Sequence

from ..cluster.disks import Disk, KIB
from ..cluster.evenness import Spread
from ..cluster.json_forms import FullParts, RowParts
from ..cluster.names import Names, named
from ..cluster.shares import Shares, spread_parts
from ..files import JsonObject
from ..words import counted, listed, size_words
from .tables import aligned

COLUMNS = ["ID", "CLASS", "WEIGHT", "REWEIGHT", "SHARE", "REACH", "DEVIATION", "RATIO", "PGS", "STATUS", "TYPE NAME"]
# The columns of disks, which stand behind REWEIGHT where these are known, as in Ceph's table.
DISK_COLUMNS, DISKS_AT = ["SIZE", "RAW USE", "AVAIL", "%USE"], 4
# The state of an OSD as Ceph tells it: one that is out has the reweight 0.
STATUS = {"up": "up", "up,out": "up", "down": "down", "down,out": "down", "absent": "DNE"}
INDENT = "    "
# The signs of a bar and its head, and how many signs it has at least and at most.
HAS, LACKS, BEYOND, BAR_HEAD = "█", "░", "▓", "OF SHARE"
LEAST_BAR, MOST_BAR = 10, 30
# Of so many buckets at most it is told that they are full.
MOST_FULL = 4
# The keys of disks, by those that a row has: in the totals as Ceph has them there.
NODE_KEYS = {key: key for key in ("kb", "kb_used", "kb_avail", "utilization")}
SUMMARY_KEYS = {
    "kb": "total_kb",
    "kb_used": "total_kb_used",
    "kb_avail": "total_kb_avail",
    "utilization": "average_utilization",
}


def ratio(groups: int, share: float) -> float | None:
    """How many times its share an OSD has; None where it has groups and no share."""
    return groups / share if share > 0 else None if groups else 0.0


def disk_parts(osds: Iterable[int], disks: Mapping[int, Disk]) -> JsonObject:
    """What is told of the disks of some OSDs, under the keys of Ceph's own JSON; nothing where none is known."""
    if not disks:
        return {}
    own = [disks[osd] for osd in osds if osd in disks]
    size, used, free = (sum(getattr(disk, key) for disk in own) // KIB for key in ("size", "used", "free"))
    return {"kb": size, "kb_used": used, "kb_avail": free, "utilization": 100 * used / size if size else 0.0}


def node(shares: Shares, row: RowParts, names: Names, disks: Mapping[int, Disk]) -> JsonObject:
    """What is told of an OSD or a bucket, under the keys of Ceph's own JSON, and with its share."""
    number = row["id"]
    below = shares.below(number)
    filled = ratio(row["groups"], sum([shares.wanted.get(osd, 0.0) for osd in below]))
    found = {
        "id": number,
        "name": named(names, "buckets" if number < 0 else "osds", number),
        "crush_weight": row["weight"],
        "pgs": row["groups"],
        "share": row["share"],
        "reach": row["reach"],
        "ratio": None if filled is None else round(filled, 4),
        **disk_parts(below, disks),
    }
    if number < 0:
        kind = names.get("types", {}).get(str(row["type"]), f"type {row['type']}")
        return dict(found, type=kind, type_id=row["type"], reweight=-1)
    own = names.get("classes", {}).get(str(number), "")
    return dict(
        found,
        type="osd",
        type_id=0,
        reweight=row["reweight"],
        deviation=row["deviation"],
        status=STATUS[row["state"]],
        device_class=own,
    )


def nodes(shares: Shares, names: Names, disks: Mapping[int, Disk]) -> list[JsonObject]:
    """The tree, each bucket before what stands in it, with its depth."""
    rows = [entry for root in shares.roots() for entry in shares.rows(root)]
    return [dict(node(shares, row, names, disks), depth=depth) for depth, row in rows]


def summary(shares: Shares, disks: Mapping[int, Disk]) -> JsonObject:
    """The totals, how even the OSDs are that may have groups, the least and the greatest ratio to a share, and the OSDs
    that have them over all pools.
    """
    total, even, fill = shares.total(), spread_parts(shares), Spread(shares.counts, shares.wanted).fill()
    ratios = [shares.counts.get(osd, 0) / share for osd, share in shares.wanted.items() if share]
    return {
        "crush_weight": total["weight"],
        "pgs": total["groups"],
        "share": total["share"],
        "reach": total["reach"],
        "min_pgs": even["least"],
        "max_pgs": even["greatest"],
        "min_ratio": round(min(ratios, default=0.0), 4),
        "max_ratio": round(max(ratios, default=0.0), 4),
        "deviation": even["deviation"],
        "fullest": fill["fullest"],
        "emptiest": fill["emptiest"],
        **{SUMMARY_KEYS[key]: own for key, own in disk_parts(disks, disks).items()},
    }


def disk_cells(own: JsonObject, keys: Mapping[str, str]) -> list[str]:
    """What is told of disks, as Ceph's tables have it; nothing where none is known."""
    if keys["kb"] not in own:
        return []
    sizes = [size_words(own[keys[key]] * KIB) for key in ("kb", "kb_used", "kb_avail")]
    return [*sizes, decimal(own[keys["utilization"]], 2)]


def decimal(number: float, places: int) -> str:
    """A number as Ceph's tables have it: 0 without decimals."""
    return f"{number:.{places}f}" if number else "0"


def cells(own: JsonObject, depth: int) -> list[str]:
    """A row of the table, for an OSD or a bucket."""
    found = group_cells(own, depth)
    return [*found[:DISKS_AT], *disk_cells(own, NODE_KEYS), *found[DISKS_AT:]]


def group_cells(own: JsonObject, depth: int) -> list[str]:
    """The same without its disks."""
    weight, groups = decimal(own["crush_weight"], 5), str(own["pgs"])
    shares = [decimal(own[key], 2) for key in ("share", "reach")]
    filled = "-" if own["ratio"] is None else decimal(own["ratio"], 2)
    if own["id"] < 0:
        name = (
            f"{own['type']} {own['name']}" if not own["type"].startswith("type ") else f"{own['name']} of {own['type']}"
        )
        return [str(own["id"]), "", weight, "-", *shares, "-", filled, groups, "", INDENT * depth + name]
    return [
        str(own["id"]),
        own["device_class"],
        weight,
        decimal(own["reweight"], 5),
        *shares,
        f"{own['deviation']:+.2f}",
        filled,
        groups,
        own["status"],
        INDENT * depth + own["name"],
    ]


def total_row(total: JsonObject) -> list[str]:
    """The row of the totals."""
    weight, shares = decimal(total["crush_weight"], 5), [decimal(total[key], 2) for key in ("share", "reach")]
    disks = disk_cells(total, SUMMARY_KEYS)
    return ["", "", weight, "", *disks, *shares, "", "", str(total["pgs"]), "", "TOTAL"]


def full_words(full: Sequence[FullParts], names: Names) -> str:
    """Why a pool cannot be even by weight; nothing where it can."""
    rest = len(full) - MOST_FULL
    words = [
        f"{place_of(own, names)} holds {places_words(own['places'])} of each group ({own['wanted']:.2f} by weight)"
        for own in full[:MOST_FULL]
    ]
    more = [f"{counted(rest, 'bucket')} more"] if rest > 0 else []
    return f"it cannot be even by weight: {listed(words + more)}" if words else ""


def place_of(own: FullParts, names: Names) -> str:
    """A bucket by its type and name."""
    kind = names.get("types", {}).get(str(own["type"]), f"type {own['type']}")
    return f"{kind} {named(names, 'buckets', own['id'])}"


def places_words(places: int) -> str:
    """How many places of each group."""
    return "one place" if places == 1 else f"{places} places"


def with_reach(columns: list[str], rows: list[list[str]], told: Sequence[RowParts | JsonObject]) -> list[list[str]]:
    """Rows of these columns, of which that of the reach goes where it is the share of all that is told."""
    at = columns.index("REACH")
    is_other = any(own["reach"] != own["share"] for own in told)
    return rows if is_other else [row[:at] + row[at + 1 :] for row in rows]


def with_leads(columns: list[str], row: list[str], leads: int | str) -> list[str]:
    """A row of these columns with how many groups are led, behind how many are there."""
    at = columns.index("PGS") + 1
    return [*row[:at], str(leads), *row[at:]]


def bar(filled: float, greatest: float, width: int) -> str:
    """What an OSD has of its share, where the greatest of all has so many signs: what it has, what it lacks, and what
    it has beyond its share.
    """
    has, share = (round(width * own / greatest) for own in (filled, 1.0))
    return HAS * min(has, share) + LACKS * max(0, min(share, width) - has) + BEYOND * max(0, has - share)


def with_bars(lines: list[str], told: Sequence[JsonObject | None], room: int) -> list[str]:
    """Lines of a table, behind those of OSDs their bars, where a line may be so long."""
    osds = [own if own is not None and own["id"] >= 0 and own["share"] > 0 else None for own in told]
    ratios = [None if own is None else own["ratio"] for own in osds]
    greatest, left = max([own for own in ratios if own is not None], default=0.0), max(map(len, lines)) + 2
    if greatest <= 0 or room - left < LEAST_BAR:
        return lines
    width = min(MOST_BAR, room - left)
    bars = [BAR_HEAD, *("" if own is None else bar(own, greatest, width) for own in ratios[1:])]
    return [f"{line.ljust(left)}{own}".rstrip() for line, own in zip(lines, bars)]


def tree_lines(
    tree: list[JsonObject], stray: list[JsonObject], total: JsonObject, leads: Mapping[int, int], room: int = 0
) -> list[str]:
    """The tree as a table of text, then the OSDs outside every bucket, then the totals; with how many groups are led
    by each OSD, and by those below each bucket; and with bars, where a line may be so long.
    """
    columns = [*COLUMNS[:DISKS_AT], *(DISK_COLUMNS if "total_kb" in total else []), *COLUMNS[DISKS_AT:]]
    rows = [with_leads(columns, columns, "LEADS")]
    rows += [with_leads(columns, cells(own, own["depth"]), leads[own["id"]]) for own in tree]
    if stray:
        rows.append([""] * len(columns) + ["outside every bucket"])
    rows += [with_leads(columns, cells(own, 1), leads[own["id"]]) for own in stray]
    rows.append(with_leads(columns, total_row(total), sum(own for osd, own in leads.items() if osd >= 0)))
    lines = aligned(with_reach(columns, rows, [*tree, *stray]))
    return with_bars(lines, [None, *tree, *[None] * bool(stray), *stray, None], room)
