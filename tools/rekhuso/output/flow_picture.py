"""The picture of `whatif --picture`: which host gives places to which, as bands from left to right, as SVG."""

from __future__ import annotations


from ..cluster.names import Names, named
from ..program.maps import Map
from .flow_words import move_words
from ..words import escaped

FLOW_STYLE = (
    "text{font:11px sans-serif;fill:#333}.t{font-weight:bold}.b{fill:#555}.f{fill:none;stroke-opacity:.45}"
    ".g{fill:#fff}@media (prefers-color-scheme:dark){text{fill:#ddd}.b{fill:#aaa}.g{fill:#181818}}"
)
WIDTH, TALL, TOP, SIDE, BAR, SPACE, LEAST = 760, 520, 34, 170, 14, 4, 9


def holder_by_osd(value: Map) -> dict[int, int]:
    """The bucket in which each OSD stands; an OSD that stands in none stands for itself."""
    return {item: bucket["id"] for bucket in value["buckets"] for item, _ in bucket["items"] if item >= 0}


def between(flows: list[list[int]], hosts: dict[int, int]) -> dict[tuple[int, int], int]:
    """How many places go from each host to each other, or stay inside one."""
    found: dict[tuple[int, int], int] = {}
    for was, now, count in flows:
        pair = hosts.get(was, was), hosts.get(now, now)
        found[pair] = found.get(pair, 0) + count
    return found


def totals(pairs: dict[tuple[int, int], int], side: int) -> dict[int, int]:
    """How many places each host gives, or gets, the greatest first."""
    found: dict[int, int] = {}
    for pair, count in pairs.items():
        found[pair[side]] = found.get(pair[side], 0) + count
    return dict(sorted(found.items(), key=lambda entry: (-entry[1], -entry[0])))


def stacked(counts: dict[int, int], scale: float) -> dict[int, float]:
    """Where the bar of each host begins."""
    tops, top = {}, float(TOP)
    for host, count in counts.items():
        tops[host] = top
        top += count * scale + SPACE
    return tops


def bars(counts: dict[int, int], tops: dict[int, float], scale: float, names: Names, left: bool) -> list[str]:
    """The bars of one side, each with the host's name and number where there is room for it."""
    parts, edge = [], SIDE if left else WIDTH - SIDE - BAR
    for host, count in counts.items():
        name = escaped(f"{named(names, 'buckets' if host < 0 else 'osds', host)}: {count}")
        parts.append(
            f'<g><title>{name}</title><rect x="{edge}" y="{tops[host]:.1f}" width="{BAR}" '
            f'height="{max(count * scale, 0.5):.1f}" class="b"/></g>'
        )
        if count * scale + SPACE >= LEAST:
            at, anchor = (edge - 6, "end") if left else (edge + BAR + 6, "start")
            parts.append(
                f'<text x="{at}" y="{tops[host] + count * scale / 2 + 4:.1f}" text-anchor="{anchor}">{name}</text>'
            )
    return parts


def bands(
    pairs: dict[tuple[int, int], int], givers: dict[int, float], takers: dict[int, float], scale: float, names: Names
) -> list[str]:
    """The bands, in the order of the bars on both sides, each as wide as the places that go."""
    outs, ins, parts = dict(givers), dict(takers), []
    hues = {host: round(360 * at / max(len(givers), 1)) for at, host in enumerate(givers)}
    for was in givers:
        for now in takers:
            count = pairs.get((was, now), 0)
            if count:
                wide, half = count * scale, WIDTH / 2
                start, end = outs[was] + wide / 2, ins[now] + wide / 2
                outs[was], ins[now] = outs[was] + wide, ins[now] + wide
                told = escaped(
                    f"{count} from {named(names, 'buckets' if was < 0 else 'osds', was)} to "
                    f"{named(names, 'buckets' if now < 0 else 'osds', now)}"
                )
                parts.append(
                    f'<path d="M{SIDE + BAR} {start:.1f}C{half} {start:.1f} {half} {end:.1f} {WIDTH - SIDE - BAR} '
                    f'{end:.1f}" '
                    f'stroke="hsl({hues[was]},55%,50%)" stroke-width="{max(wide, 0.5):.1f}" class="f"><title>'
                    f"{told}</title></path>"
                )
    return parts


def flow_picture(value: Map, moved: list[list[int]], groups: int, names: Names) -> str:
    """The SVG of what moves: from which OSD to which, how many places, and groups of all."""
    pairs = between(moved, holder_by_osd(value))
    given, taken = totals(pairs, 0), totals(pairs, 1)
    most, whole = max(len(given), len(taken), 1), sum(pairs.values())
    tall = max(TALL, most * (SPACE + 2))
    scale = (tall - most * SPACE) / whole if whole else 0.0
    givers, takers = stacked(given, scale), stacked(taken, scale)
    parts = (
        bands(pairs, givers, takers, scale, names)
        + bars(given, givers, scale, names, True)
        + bars(taken, takers, scale, names, False)
    )
    height, told = (TOP + tall + 16, f"{move_words(groups, whole)}; left: who gives, right: who gets")
    return (
        f'<svg xmlns="http://www.w3.org/2000/svg" role="img" aria-label="{told}" width="{WIDTH}" height="{height}" '
        f'viewBox="0 0 {WIDTH} {height}">'
        f"<style>{FLOW_STYLE}</style>"
        f'<rect width="100%" height="100%" class="g"/><text x="{WIDTH // 2}" y="18" text-anchor="middle" class="t">'
        f'{told}</text>{"".join(parts)}</svg>\n'
    )
