"""What moves between two maps, in words."""

from __future__ import annotations

from ..cluster.names import Names, named, pool_words
from ..plans.json_forms import FlowParts
from ..words import counted, some
from .refusal_words import why_words


def fullest_words(found: FlowParts) -> str:
    """The fullest OSDs, by count and by share, in words."""
    count, share = found["fullest_by_count"], found["fullest_by_share"]
    if count["osd"] is None:
        return "no OSD has a group"
    words = f"fullest by count is then osd.{count['osd']} with {counted(count['groups'], 'group')}"
    if share["osd"] is None or share["share"] is None:
        return words
    return (
        f"{words}, fullest by share osd.{share['osd']} with {share['groups']} where its share is {share['share']:.2f}"
    )


def move_words(groups: int, places: int) -> str:
    """How many groups and places move."""
    return f"{counted(groups, 'group')} and {counted(places, 'place')} {'moves' if groups == places == 1 else 'move'}"


def short_words(found: FlowParts) -> list[str]:
    """The groups that are left short, and those that fall below the min_size of their pool."""
    short, anew, low = found["short"], found["short_anew"], found["below_min_size"]
    if not short:
        told = ["no group has fewer places than its pool's size"]
    else:
        have = (
            "1 group has fewer places than its"
            if len(short) == 1
            else f"{len(short)} groups have fewer places than their"
        )
        since = f"{len(anew)} of them anew: {some(anew, 10)}" if anew else "as before the change"
        told = [f"{have} pool's size, {since}"]
    if low:
        fall = "1 group falls below the min_size of its pool, and serves"
        falls = fall if len(low) == 1 else f"{len(low)} groups fall below the min_size of their pool, and serve"
        told.append(f"{falls} nothing: {some(low, 10)}")
    return told


def pair_lines(flows: list[list[int]], names: Names, most: int = 20) -> list[str]:
    """How many places go from which OSD to which, the most first, at most so many pairs of OSDs."""
    found = [
        f"{count} from {named(names, 'osds', was)} to {named(names, 'osds', now)}" for was, now, count in flows[:most]
    ]
    if len(flows) > most:
        found.append(
            f"and {sum(flow[2] for flow in flows[most:])} more, between {counted(len(flows) - most, 'pair')} of OSDs"
        )
    return found


def unbalanced_words(found: FlowParts, names: Names) -> list[str]:
    """The pools that could not be balanced, each with why."""
    return [f"{pool_words(names, pool)} is not balanced: {why_words(why)}" for pool, why in found["unbalanced"]]


def flow_lines(found: FlowParts, names: Names, outage: str) -> list[str]:
    """What moves, as text."""
    told = ([outage] if outage else []) + [f"{move_words(found['groups'], found['places'])}; {fullest_words(found)}"]
    told += pair_lines(found["flows"], {})
    return told + unbalanced_words(found, names) + found["notes"] + short_words(found)
