"""A plan of reads in words and as a script: who leads, before and after, and what one must know before it is run."""

from __future__ import annotations

from collections.abc import Mapping, Sequence

from ..cluster.names import Names, named
from ..cluster.releases import PRIMARIES, knows_primaries
from ..plans.guards import NO_GUARDS, clients_line
from ..plans.json_forms import LeadParts
from ..plans.reads import Leads, Reads
from ..words import counted
from .origins import Origin
from .plan_scripts import comments
from .tables import aligned

RAISE = f"ceph osd set-require-min-compat-client {PRIMARIES}"
BALANCER = "before: Ceph's own balancer names primaries too in its modes read and upmap-read, and would undo these"
WATCH_READS = [
    "watch:  no data moves; a group that gets another leader peers once: ceph status, until all are active",
    "order:  behind plans that move groups, as these change who may lead; then dump anew and plan the reads again",
]
UNDO = "undo:   the same words with --undo, over the same files, which are to be kept"


def primaries_words(release: str | None) -> list[str]:
    """How clients come to know named primaries, of which release they must be at least as the dump tells; nothing
    where they know them.
    """
    told = f"before: {RAISE} (clients must know named primaries; refused beside older ones)"
    return [] if knows_primaries(release) else [told]


def leads_words(before: LeadParts, after: LeadParts) -> str:
    """How even leads are before and after."""
    return (
        f"an OSD leads {before['least']} to {before['greatest']} groups, then {after['least']} to {after['greatest']}; "
        f"the farthest from its share by {before['farthest']:.2f}, then by {after['farthest']:.2f}"
    )


def read_lines(found: Reads, names: Names) -> list[str]:
    """All that is told of a plan on standard error: over all pools that are planned, each of them, and the others."""
    whole = leads_words(found.leads(False).parts(), found.leads(True).parts())
    lines = [f"{counted(len(found.commands), 'command')}; {whole}"] if found.pools else []
    for own in found.pools:
        words = leads_words(own.leads(False).parts(), own.leads(True).parts())
        told = f"{counted(own.pool['pg_num'], 'group')}, {len(own.changed)} with another leader; {words}"
        lines.append(f"{named(names, 'pools', own.pool['id'])}: {told}")
    lines += [f"{named(names, 'pools', number)}: left as it is: {why}" for number, why in found.alone.items()]
    if found.temporary:
        are = "1 group keeps its leader, as a temporary set or primary serves it"
        many = f"{found.temporary} groups keep their leaders, as temporary sets or primaries serve them"
        lines.append(are if found.temporary == 1 else many)
    return lines or ["no pool to plan"]


def lead_table(before: Leads, after: Leads, names: Names) -> list[str]:
    """How many groups each OSD leads before and after, beside its share."""
    rows = [["leads", "then", "share", "OSD"]]
    for osd in sorted(before.shares):
        counts = [str(own.counts.get(osd, 0)) for own in (before, after)]
        rows.append([*counts, f"{float(before.shares[osd]):.2f}", named(names, "osds", osd)])
    return aligned(rows)


def script_text(found: Reads, names: Names, origin: Origin, notes: Sequence[str], is_undo: bool) -> str:
    """The script of a plan of reads, or of the way back from one; nothing where there are no commands."""
    lines = found.undo if is_undo else found.commands
    if not lines:
        return ""
    own = origin.turned("undo of a plan of reads" if is_undo else "plan of reads", 1, 1)
    what = "The way back from a plan of reads" if is_undo else "A plan of reads"
    title = f"{what} over epoch {own.epoch}: {counted(len(lines), 'command')}, by which no data moves"
    before, after = found.leads(False), found.leads(True)
    table = lead_table(after, before, names) if is_undo else lead_table(before, after, names)
    head = [*comments([title]), *own.head_lines(len(lines)), *comments([*own.notes(), *notes])]
    guards = own.guards.lines(lines) + ([] if own.guards == NO_GUARDS else [clients_line()])
    below = comments(["Who leads, over the pools of this plan:", *table])
    return own.closed("\n".join([*head, "set -e", *guards, *lines, *below]) + "\n")


def pool_parts(found: Reads, names: Names) -> list[Mapping[str, object]]:
    """What is told of the pools as JSON."""
    return [
        {
            "id": own.pool["id"],
            "name": named(names, "pools", own.pool["id"]),
            "groups": own.pool["pg_num"],
            "changed": len(own.changed),
            "before": own.leads(False).parts(),
            "after": own.leads(True).parts(),
        }
        for own in found.pools
    ]


def osd_parts(found: Reads) -> list[Mapping[str, object]]:
    """What is told of the OSDs as JSON: how many groups each leads of all pools that are planned, and its share."""
    before, after = found.leads(False), found.leads(True)
    return [
        {
            "id": osd,
            "share": round(float(share), 4),
            "before": before.counts.get(osd, 0),
            "after": after.counts.get(osd, 0),
        }
        for osd, share in sorted(before.shares.items())
    ]
