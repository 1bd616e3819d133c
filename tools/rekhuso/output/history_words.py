"""What changes from epoch to epoch, in words: a line for each epoch."""

from __future__ import annotations

import time
from collections.abc import Iterable

from ..cluster.json_forms import EpochParts, ExceptionChangeParts, GrowthParts, grown_numbers
from ..cluster.names import Names, named, pool_words, set_words
from ..program.map_forms import EXCEPTIONS
from ..program.maps import Entry, Map, Pool, entries_of
from ..program.stores import StoredJournal
from ..words import counted, listed, some

# How many reweights or exceptions of a kind are told one by one.
MOST = 4
# The second behind the last that has a date of four digits.
LAST_DATE = 253402300800


def life_lines(journal: StoredJournal) -> list[str]:
    """What a store notes of itself, in a line, if it notes anything."""
    facts = journal.facts
    if facts is None:
        return []
    return [f"store {facts.life}: a start leaves the last {counted(facts.keep, 'change')}"]


def first_line(first: Map) -> str:
    """What the first map has."""
    groups = sum(pool["pg_num"] for pool in first["pools"])
    counts = [
        counted(sum(osd["exists"] for osd in first["osds"]), "OSD"),
        counted(len(first["pools"]), "pool"),
        counted(groups, "group"),
        counted(sum(len(entries_of(first, key)) for key in EXCEPTIONS), "exception"),
    ]
    return f"epoch {first['epoch']}: the first map, with {listed(counts)}"


def osd_names(osds: Iterable[int], names: Names) -> str:
    """OSDs by their names; of many the first only."""
    return some([named(names, "osds", osd) for osd in osds])


def state_words(parts: EpochParts, names: Names) -> list[str]:
    """Who goes down, up, out and in."""
    full = [osd for osd, weight in parts["came_in"] if weight == 1]
    told = {"down": parts["went_down"], "up": parts["came_up"], "out": parts["went_out"], "in": full}
    return [f"{osd_names(osds, names)} {word}" for word, osds in told.items() if osds]


def weight_words(parts: EpochParts, names: Names) -> list[str]:
    """Who comes in with a part of his share, and who is reweighted."""
    partly = [f"{named(names, 'osds', osd)} at {weight:.5f}" for osd, weight in parts["came_in"] if weight != 1]
    other = [f"{named(names, 'osds', osd)} from {was:.5f} to {now:.5f}" for osd, was, now in parts["reweighted"]]
    return [f"{word}: {some(own, MOST)}" for word, own in (("in", partly), ("reweighted", other)) if own]


def created_words(pool: Pool, names: Names) -> str:
    """A pool that comes."""
    groups = counted(pool["pg_num"], "group")
    return f"{pool_words(names, pool['id'])} created ({pool['kind']}, {groups} of size {pool['size']})"


def grown_words(growth: GrowthParts, names: Names) -> str:
    """A pool that grows, with the numbers that become others."""
    numbers = [f"{word} {was} to {now}" for word, (was, now) in grown_numbers(growth).items() if was != now]
    return f"{pool_words(names, growth['id'])} grown ({', '.join(numbers)})"


def map_words(parts: EpochParts, names: Names) -> list[str]:
    """Which pools go, come and grow, and whether the CRUSH map is another."""
    found = [f"{pool_words(names, number)} removed" for number in parts["pools_removed"]]
    found += [created_words(pool, names) for pool in parts["pools_created"]]
    found += [grown_words(growth, names) for growth in parts["pools_grown"]]
    crush = parts["new_crush"]
    if crush is not None:
        counts = counted(crush["buckets"], "bucket"), counted(crush["rules"], "rule")
        found.append(f"CRUSH map replaced ({listed(list(counts))})")
    return found


def entry_words(entry: Entry) -> str:
    """An exception: a group and its explicit set, or its pairs."""
    group, own = entry
    pairs = [f"{part[0]} to {part[1]}" for part in own if isinstance(part, list)]
    return f"{group} ({', '.join(pairs)})" if pairs else f"{group} {set_words(own)}"


def exception_words(key: str, parts: ExceptionChangeParts) -> list[str]:
    """Which exceptions of one kind come, become others and go."""
    told = {
        "added": list(map(entry_words, parts["added"])),
        "changed": list(map(entry_words, parts["changed"])),
        "removed": parts["removed"],
    }
    return [f"{key} {word}: {some(own, MOST)}" for word, own in told.items() if own]


def origin_words(parts: EpochParts) -> str:
    """When a change was made, and by whom, as far as that is told."""
    made, by = parts["made"], parts["by"]
    found = ""
    if made is not None and made // 1000 < LAST_DATE:
        found += time.strftime(" at %Y-%m-%dT%H:%M:%SZ", time.gmtime(made // 1000))
    return found if by is None else f"{found} by {by}"


def epoch_line(parts: EpochParts, names: Names) -> str:
    """What an epoch changes, in a line, and when and by whom."""
    found = map_words(parts, names) + state_words(parts, names) + weight_words(parts, names)
    for key in EXCEPTIONS:
        found += exception_words(key, parts[key])
    return f"epoch {parts['epoch']}{origin_words(parts)}: {'; '.join(found) or 'nothing changed'}"
