"""The HTML page of a map or a cluster, without outside parts."""

from __future__ import annotations

import json
from collections.abc import Mapping
from contextlib import ExitStack
from dataclasses import dataclass

from ..cluster.disks import Disk
from ..cluster.flows import flows
from ..cluster.moving import erasure_pools, other_sets
from ..cluster.names import Names, named
from ..cluster.shares import Shares, spread_parts
from ..cluster.view import ClusterView
from ..plans.next_step import NextStep
from ..plans.plan import DEFAULT_WISH, misplaced_in, opened, outage_in, planned
from ..plans.steps import PlanStep
from ..program.answers import Up
from ..program.maps import Map, Program, excepted_groups, group_key, with_all_up, without_exceptions
from ..program.questions import up_sets
from ..values import SLOTS
from ..words import counted, escaped
from .df_table import DISK_COLUMNS, cells, full_words, node, nodes, summary, total_row, with_reach
from .flow_picture import flow_picture, holder_by_osd
from .next_page import NEXT_COLUMNS, next_head, next_rows
from .osd_picture import osd_picture, plan_picture
from .page_tables import SORT_SCRIPT, TABLE_STYLE, table, wide
from .plan_words import page_words

# The columns of `df` for OSDs, those first that a narrow screen shows; and those of them that buckets have.
PAGE_COLUMNS = ["PGS", "SHARE", "REACH", "DEVIATION", "RATIO", "STATUS", "WEIGHT", "REWEIGHT", "CLASS"]
OF_OSDS = {"DEVIATION", "STATUS", "REWEIGHT", "CLASS"}
PAGE_STYLE = """:root{color-scheme:light dark}body{font:15px/1.45 system-ui,sans-serif;margin:1rem auto;max-width:86rem;
padding:0 1rem}nav a{margin-right:1rem}progress{width:100%}
pre,figure{margin:0}h2{margin-top:2rem}figure svg{width:100%;height:auto;display:block}
.pair,.sides{display:grid;grid-template-columns:minmax(0,1fr);gap:1rem;align-items:start}
.tree{max-height:48rem;overflow:auto}
@media (max-width:40rem){body{padding:0 .4rem;font-size:12px}h1{font-size:1.5em}td,th{padding:.2rem}
th{font-size:10px}}
@media (min-width:75rem){.pair{grid-template-columns:minmax(16rem,1fr) fit-content(75%)}
.sides{grid-template-columns:minmax(0,1fr) minmax(0,1fr)}}"""
# How many times as wide as it is drawn a picture gets at most; at least, one of two maps and one of bands.
WIDER, BESIDE, OF_BANDS = 2.2, 0.8, 0.6


def page_row(row: list[str]) -> list[str]:
    """A row of `df` as the page has it: the name first, then the groups, so that a narrow screen shows both."""
    number, kind, weight, reweight, *disks, share, reach, deviation, var, groups, status, name = row
    return [name, groups, share, reach, deviation, var, status, weight, reweight, *disks, kind]


def page_columns(disks: Mapping[int, Disk]) -> list[str]:
    """The columns behind the name."""
    return [*PAGE_COLUMNS[:-1], *(DISK_COLUMNS if disks else []), PAGE_COLUMNS[-1]]


def tree_table(shares: Shares, names: Names, disks: Mapping[int, Disk]) -> str:
    """The buckets with their sums, and the totals, as `df` has them. The OSDs stand in a table of their own."""
    tree = [own for own in nodes(shares, names, disks) if own["id"] < 0]
    rows = [page_row([*cells(own, 0)[:-1], "  " * own["depth"] + own["name"]]) for own in tree]
    rows.append(page_row(total_row(summary(shares, disks))))
    columns = ["NAME", *page_columns(disks)]
    head, *rest = with_reach(columns, [columns, *rows], tree)
    kept = [at for at, column in enumerate(head) if column not in OF_OSDS]
    told = "Buckets with what their OSDs come to"
    return table(told, [head[at] for at in kept], [[row[at] for at in kept] for row in rest], "sums")


def osd_table(shares: Shares, names: Names, disks: Mapping[int, Disk]) -> str:
    """Each OSD as a row, by its number, with the bucket that holds it."""
    found = [node(shares, shares.osd_row(osd), names, disks) for osd in sorted(shares.osds)]
    rows, holders = [page_row([*cells(own, 0)[:-1], own["name"]]) for own in found], holder_by_osd(shares.value)
    columns = ["OSD", *page_columns(disks)]
    head, *rest = with_reach(columns, [columns, *rows], [shares.osd_row(osd) for osd in shares.osds])
    hosts = [named(names, "buckets", holders[own["id"]]) if own["id"] in holders else "none" for own in found]
    told = "OSDs, each with its groups beside its share"
    return table(told, [*head, "IN"], [[*row, host] for row, host in zip(rest, hosts)])


def pool_rows(shares: Shares, names: Names) -> list[list[object]]:
    """Each pool as a row."""
    return [
        [
            named(names, "pools", pool["id"]),
            pool["groups"],
            pool["size"],
            named(names, "rules", pool["rule"]),
            pool["places"],
            pool["short"],
        ]
        for pool in shares.pools()
    ]


def full_lines(shares: Shares, names: Names) -> list[str]:
    """Why pools cannot be even by weight, a line for each of them."""
    words = [(pool, full_words(pool["full"], names)) for pool in shares.pools()]
    return [f"{named(names, 'pools', pool['id'])}: {why}" for pool, why in words if why]


def exception_rows(value: Map, program: Program) -> list[list[str]]:
    """Each group with exceptions: what it would have without them, what it has, and whether they do anything."""
    groups = sorted(excepted_groups(value), key=group_key)
    up = with_all_up(value)
    with_them = up_sets(program, up, groups) if groups else {}
    without = up_sets(program, without_exceptions(up), groups) if groups else {}
    return [
        [
            group,
            json.dumps(without[group].places),
            json.dumps(with_them[group].places),
            "acts" if without[group].places != with_them[group].places else "does nothing",
        ]
        for group in groups
    ]


def figure(picture: str, told: str, least: float = 1) -> str:
    """A picture with what it shows, which fills its column, at least so many times as wide as it is drawn: of one that
    is wider than the column, this shows a part at a time.
    """
    width = int(picture.partition(' width="')[2].partition('"')[0])
    style = f'style="min-width:{round(width * least)}px;max-width:{round(width * WIDER)}px"'
    return f"<figure>{wide(picture.replace('<svg ', f'<svg {style} ', 1), told)}</figure>"


def plan_pictures(whole: ClusterView, sets: dict[str, Up], steps: list[PlanStep]) -> str:
    """The OSDs before a plan and after it, and what moves from which host to which."""
    after = {**sets, **{step.group: sets[step.group]._replace(places=step.now) for step in steps}}
    moved = flows(other_sets(sets, after), erasure_pools(whole.pools))
    pairs = [[*pair, count] for pair, count in sorted(moved.items())]
    sides = plan_picture(whole, sets, steps)
    between = flow_picture(whole.tree, pairs, sum(map(PlanStep.is_moving, steps)), whole.names)
    told = "Groups of each OSD before the plan and after it", "Places that hosts give to one another by the plan"
    return f'<div class="sides">{figure(sides, told[0], BESIDE)}{figure(between, told[1], OF_BANDS)}</div>'


def plan_part(whole: ClusterView, sets: dict[str, Up], program: Program) -> str:
    """The plan of the cluster as the page has it: what is said of it, as `plan` says it, what it moves, and its
    commands.
    """
    if whole.has_weight_set:
        return f"<p>{escaped(whole.no_plan(program))}</p>"
    with ExitStack() as stack:
        lives = opened(stack, whole, program)
        found, outcome = [outage_in(lives), misplaced_in(lives, whole)], planned(lives, DEFAULT_WISH)
    plan = [line for step in outcome.steps for line in step.commands]
    said = [str(own) for own in found if own is not None] + page_words(outcome, whole.names)
    told = "".join(f"<p>{escaped(line)}</p>" for line in said)
    if not plan:
        return f"{told}<p>Nothing is left to move.</p>"
    lines = wide(f"<pre>{escaped(chr(10).join(plan))}</pre>", "The commands of the plan")
    return f"{told}{plan_pictures(whole, sets, outcome.steps)}{lines}"


def next_part(found: NextStep, names: Names) -> str:
    """How far a plan is that is carried out, as the page has it."""
    rows = next_rows(found, names)
    told = "OSDs to which places of the plan still come, or from which they still go"
    return next_head(found) + (table(told, NEXT_COLUMNS, rows) if rows else "")


def heading(value: Map, shares: Shares, title: str) -> str:
    """What the page begins with."""
    even, pools = spread_parts(shares), len(value["pools"])
    return (
        f"<h1>{escaped(title)}</h1><p>Epoch {value['epoch']}; {counted(len(shares.osds), 'OSD')}, "
        f"{counted(pools, 'pool')}. "
        f"An OSD has {even['least']} to {counted(even['greatest'], 'group')}; the standard deviation from the shares "
        f"is {even['deviation']}.</p>"
    )


@dataclass(frozen=True, **SLOTS)
class PageParts:
    """What stands on a page beside a map: its title, the disks that are known, and how far a plan is."""

    title: str
    disks: Mapping[int, Disk]
    carried: NextStep | None


def exceptions_part(whole: ClusterView, program: Program) -> str:
    """The groups with exceptions as the page has them."""
    rows = [row for of in whole.maps for row in exception_rows(of, program)]
    told, columns = "Groups with exceptions, and their sets without and with these", ["GROUP", "WITHOUT", "WITH", "IT"]
    return table(told, columns, rows, "sorts long") if rows else "<p>None.</p>"


def pools_part(shares: Shares, names: Names) -> str:
    """The pools as the page has them, and why some cannot be even."""
    columns = ["POOL", "PGS", "SIZE", "RULE", "PLACES", "SHORT"]
    why = "".join(f"<p>{escaped(line)}</p>" for line in full_lines(shares, names))
    return table("Pools, with the groups that are short of places", columns, pool_rows(shares, names)) + why


def sections(parts: Mapping[str, str]) -> str:
    """The parts of the page by their headings, behind links to each."""
    keys = {title: f"part-{number}" for number, title in enumerate(parts, 1)}
    links = "".join(f'<a href="#{key}">{escaped(title)}</a>' for title, key in keys.items())
    texts = (
        f'<section aria-labelledby="{keys[title]}"><h2 id="{keys[title]}">{escaped(title)}</h2>{inner}</section>'
        for title, inner in parts.items()
    )
    return f'<nav aria-label="Parts of the page">{links}</nav></header><main>{"".join(texts)}</main>'


def page(whole: ClusterView, sets: dict[str, Up], program: Program, own: PageParts) -> str:
    """The page of a lawful map or of a cluster as HTML."""
    title, disks, names, shares = own.title, own.disks, whole.names, whole.shares(sets)
    picture = figure(osd_picture([shares], names, [""], disks), "Groups of each OSD, by hosts")
    parts = {} if own.carried is None else {"The plan that is carried out": next_part(own.carried, names)}
    parts["Where the groups are"] = f'<div class="pair">{picture}{tree_table(shares, names, disks)}</div>'
    parts["OSDs"] = osd_table(shares, names, disks)
    parts["Pools"] = pools_part(shares, names)
    parts["Exceptions"] = exceptions_part(whole, program)
    parts["The plan"] = plan_part(whole, sets, program)
    return (
        '<!doctype html><html lang="en"><meta charset="utf-8"><meta name="viewport" '
        'content="width=device-width,initial-scale=1">'
        f"<title>{escaped(title)}</title><style>{PAGE_STYLE}{TABLE_STYLE}</style><header>"
        f"{heading(whole.tree, shares, title)}{sections(parts)}<script>{SORT_SCRIPT}</script></html>\n"
    )
