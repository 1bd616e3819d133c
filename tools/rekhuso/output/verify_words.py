"""What a cluster says of its groups beside what its maps say, in words."""

from __future__ import annotations

from ..cluster.names import set_words
from ..cluster.told_sets import Verified, osd_word
from ..words import some

# How many groups that are not told yet, or were told later, are named.
MOST_NAMED = 20


def told_lines(found: Verified, group: str, story: list[str], parts_at: str) -> list[str]:
    """A group that lies elsewhere: what is said of it here, what the cluster says, and at which step the ways part."""
    own = found.told[group]
    when = "" if own.epoch is None else f" at epoch {own.epoch}"
    there = f"the cluster says{when} {set_words(own.places)}, its primary {osd_word(own.primary)}"
    return [*story, f"{there}; {own.state}" if own.state else there, f"the ways part at {parts_at}"]


def verify_lines(found: Verified, told: list[list[str]], beside: list[str]) -> list[str]:
    """All that is told: how many groups lie where the cluster says, the first that do not, and those that are not told;
    and the pools that stay out.
    """
    lines = [found.summary()]
    for own in told:
        lines += ["", *own]
    lines += [""] if told else []
    if len(found.differ) > len(told):
        more = len(found.differ) - len(told)
        lines.append(f"and {more:,} more: {some(found.differ[len(told):], MOST_NAMED)}")
    later = found.later()
    if later:
        told_at = f"told at a later epoch than {found.epoch}, that of the OSD dump: dump all three again"
        lines.append(f"{len(later):,} of them {'was' if len(later) == 1 else 'were'} {told_at}")
    earlier = found.earlier()
    if earlier:
        told_at = (
            f"told at an earlier epoch, and neither their pools nor their OSDs have changed since by {found.epoch}"
        )
        lines.append(f"{len(earlier):,} of them {'was' if len(earlier) == 1 else 'were'} {told_at}")
        lines.append("if pairs, reweights or the CRUSH map have changed just now, dump all three again")
    if found.untold:
        lines.append(f"not told yet: {some(found.untold, MOST_NAMED)}")
    return lines + ([f"not looked at, as they stay out (import --check says why): {some(beside)}"] if beside else [])
