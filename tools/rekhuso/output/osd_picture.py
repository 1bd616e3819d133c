"""The picture of OSDs and their shares, as SVG."""

from __future__ import annotations

import math
from collections.abc import Mapping

from ..cluster.disks import Disk
from ..cluster.names import Names, named
from ..cluster.shares import Shares
from ..cluster.view import ClusterView
from ..plans.steps import PlanStep
from ..program.answers import Up
from ..words import counted, escaped, size_words

# Squares keep their colours in the dark, and so what stands in them.
PICTURE_STYLE = (
    "text{font:11px sans-serif;fill:#333}.r{font-weight:bold}.n{font-size:8px;text-anchor:middle;fill:#000}"
    ".w{fill:#fff}.g{fill:#fff}.c{stroke:#999;stroke-width:.5}"
    ".m{stroke:#111;stroke-width:1.5;fill:none}@media (prefers-color-scheme:dark){text{fill:#ddd}.n{fill:#000}"
    ".w{fill:#fff}.g{fill:#181818}}"
)
CELL, GAP, ROW, LABEL, ACROSS, TALL = 18, 2, 22, 90, 32, 640
# Where the first row begins, below a title and without one.
TITLED, BARE = 24, 4
# What the legend takes from left to right.
LEGEND = 370


def colour(groups: int, wanted: float) -> str:
    """Grey at the share, towards red at twice as much, towards blue at nothing; white where nothing is due."""
    if wanted <= 0:
        return "#ffffff" if groups == 0 else "#c0392b"
    away = max(-1.0, min(1.0, groups / wanted - 1))
    ends = (192, 57, 43) if away > 0 else (41, 98, 180)
    return "#" + "".join(f"{round(208 + (end - 208) * abs(away)):02x}" for end in ends)


def luminance(fill: str) -> float:
    """How bright a colour is, from 0 to 1 (WCAG 2.1, relative luminance)."""
    parts = [int(fill[at : at + 2], 16) / 255 for at in (1, 3, 5)]
    bright = [part / 12.92 if part <= 0.04045 else math.pow((part + 0.055) / 1.055, 2.4) for part in parts]
    return 0.2126 * bright[0] + 0.7152 * bright[1] + 0.0722 * bright[2]


def ink(fill: str) -> str:
    """The class of what stands on a colour: white on dark ones, black on others, whichever is read more easily."""
    own = luminance(fill) + 0.05
    return "n w" if 1.05 / own > own / 0.05 else "n"


def osd_told(shares: Shares, osd: int, names: Names, disks: Mapping[int, Disk]) -> str:
    """What a square says of its OSD: the groups beside the share, what is in use of its disk where that is known, and
    its state.
    """
    row, parts = shares.osd_row(osd), list[str]()
    if osd in disks and disks[osd].size:
        own = disks[osd]
        used = f"{size_words(own.used)} of {size_words(own.size)} in use ({100 * own.used / own.size:.1f} %)"
        parts.append(used)
    told = [counted(row["groups"], "group"), f"share {row['share']}", *parts, row["state"]]
    return f"{named(names, 'osds', osd)}: {', '.join(told)}"


def cell(shares: Shares, osd: int, left: int, top: int, told: str) -> str:
    """The square of an OSD, with what it says."""
    row, marks = shares.osd_row(osd), ""
    if "out" in row["state"] or row["state"] == "absent":
        marks += f'<path d="M{left} {top}l{CELL} {CELL}M{left + CELL} {top}l-{CELL} {CELL}" class="m"/>'
    if "down" in row["state"]:
        marks += f'<path d="M{left} {top + CELL // 2}h{CELL}" class="m"/>'
    fill = colour(row["groups"], row["share"])
    at = f'x="{left + CELL // 2}" y="{top + CELL // 2 + 3}"'
    number = "" if marks else f'<text {at} class="{ink(fill)}">{row["groups"]}</text>'
    return (
        f'<g><title>{escaped(told)}</title><rect x="{left}" y="{top}" width="{CELL}" height="{CELL}" '
        f'fill="{fill}" class="c"/>{marks}{number}</g>'
    )


def hosts_of(shares: Shares) -> list[tuple[str | int, int]]:
    """The buckets that hold devices, each behind the bucket above it, in the order of the tree."""
    found: list[tuple[str | int, int]] = []

    def walk(number: int, above: str | int) -> None:
        """Finds the hosts at or below a bucket that stands in another, or in none."""
        items = [item for item, _ in shares.buckets[number]["items"]]
        if any(item >= 0 for item in items):
            found.append((above, number))
        for item in items:
            if item < 0:
                walk(item, number)

    for root in shares.roots():
        walk(root, "")
    return found


def drawn(shares: Shares, names: Names, left: int, begin: int, disks: Mapping[int, Disk]) -> tuple[list[str], int, int]:
    """The parts of one map's picture, where it ends on the right, and its height. A rack that would begin far down
    begins a column.
    """
    hosts = hosts_of(shares)
    widest = max(
        (len([item for item, _ in shares.buckets[host]["items"] if item >= 0]) for _, host in hosts), default=1
    )
    column = LABEL + min(widest, ACROSS) * (CELL + GAP) + 24
    parts, top, height, last = [], begin, begin, None
    for above, host in hosts:
        if above != last and above != "":
            if top > TALL:
                left, top = left + column, begin
            parts.append(
                f'<text x="{left}" y="{top + 12}" class="r">{escaped(named(names, "buckets", int(above)))}</text>'
            )
            top += ROW
        last = above
        parts.append(f'<text x="{left}" y="{top + 13}">{escaped(named(names, "buckets", host))}</text>')
        devices = [item for item, _ in shares.buckets[host]["items"] if item >= 0]
        for at, osd in enumerate(devices):
            place = left + LABEL + at % ACROSS * (CELL + GAP), top + at // ACROSS * (CELL + GAP)
            parts.append(cell(shares, osd, *place, osd_told(shares, osd, names, disks)))
        top += max(ROW, ((len(devices) + ACROSS - 1) // ACROSS) * (CELL + GAP) + GAP)
        height = max(height, top)
    return parts, left + column, height


def plan_picture(whole: ClusterView, sets: dict[str, Up], steps: list[PlanStep]) -> str:
    """The SVG of the OSDs before a plan and after it, by the up sets before it."""
    after = {**sets, **{step.group: sets[step.group]._replace(places=step.now) for step in steps}}
    return osd_picture([whole.shares(sets), whole.shares(after)], whole.names, ["before", "after"])


def osd_picture(maps: list[Shares], names: Names, titles: list[str], disks: Mapping[int, Disk] | None = None) -> str:
    """The SVG of one map or two, each below its title if it has one, with the disks that are known."""
    parts, left, height = [], 8, 0
    for shares, title in zip(maps, titles):
        own, right, tall = drawn(shares, names, left, TITLED if title else BARE, disks or {})
        parts += [f'<text x="{left}" y="16" class="r">{escaped(title)}</text>'] if title else []
        parts += own
        left, height = right, max(height, tall)
    width = max(left, LEGEND)
    legend = "".join(
        f'<rect x="{8 + at * 24}" y="{height + 8}" width="24" height="10" fill="{colour(round(ratio * 100), 100)}"/>'
        for at, ratio in enumerate((0, 0.5, 1, 1.5, 2))
    )
    count = len(maps[0].osds) if maps else 0
    told = f"{counted(count, 'OSD')} in squares by their hosts, each with its groups" + "".join(
        f"; {title}" for title in titles if title
    )
    return (
        f'<svg xmlns="http://www.w3.org/2000/svg" role="img" aria-label="{escaped(told)}" width="{width}" '
        f'height="{height + 46}" viewBox="0 0 {width} {height + 46}">'
        f'<style>{PICTURE_STYLE}</style><rect width="100%" height="100%" class="g"/>{"".join(parts)}{legend}'
        f'<text x="136" y="{height + 17}">no groups .. the share .. twice as many</text>'
        f'<text x="8" y="{height + 34}">in a square its groups; cross: out; bar: down</text></svg>\n'
    )
