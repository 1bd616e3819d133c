"""Where the data of a group goes when its set becomes another.

In an erasure pool each place holds a part of its own of the data, so that sets are compared place by place. In a
replicated pool all places hold the same: what is another order of the same OSDs moves nothing. The data of a group that
is new in a pool that has grown is where the group is that was split (Ceph, `ceph_stable_mod`).
"""

from __future__ import annotations

from collections.abc import Iterable, Mapping, Sequence
from itertools import zip_longest

from ..program.answers import Up
from ..program.maps import Pool, group_key, groups_in

# The places of a set; None where one is empty.
Places = Sequence["int | None"]
# A group that has other places than before, with those before and those now.
OtherSet = tuple[str, Places, Places]


def other_sets(before: Mapping[str, Up], after: Mapping[str, Up]) -> list[OtherSet]:
    """The groups that are there before and after and have other places then, with both."""
    return [
        (group, up.places, now) for group, up in before.items() if (now := after.get(group, up).places) != up.places
    ]


def has_moved(was: Places, now: Places, is_erasure: bool) -> bool:
    """Whether a set has become another as its data sees it."""
    return list(was) != list(now) if is_erasure else set(was) - {None} != set(now) - {None}


def leaving(was: Places, now: Places, is_erasure: bool) -> list[int]:
    """The OSDs from which a place goes, in the order of the set before; in an erasure pool these may also get one."""
    if is_erasure:
        return [own for own, other in zip_longest(was, now) if own is not None and own != other]
    return [osd for osd in was if osd is not None and osd not in now]


def coming(was: Places, now: Places, is_erasure: bool) -> list[int]:
    """The OSDs to which a place comes, in the order of the set after."""
    return leaving(now, was, is_erasure)


def passed_on(was: Places, now: Places, is_erasure: bool) -> list[tuple[int, int]]:
    """From which OSD to which the places go: in an erasure pool those of each place, else those that leave and those
    that come in their order.
    """
    if not is_erasure:
        return list(zip(leaving(was, now, False), coming(was, now, False)))
    return [(own, other) for own, other in zip(was, now) if own is not None and other is not None and own != other]


def erasure_pools(pools: Iterable[Pool]) -> set[int]:
    """The pools whose places each hold a part of their own."""
    return {pool["id"] for pool in pools if pool["kind"] == "erasure"}


def split_group(group: str, count: int) -> str:
    """The group, of a pool of so many, in which the data of a group of the pool is once it has grown."""
    pool, number = group_key(group)
    mask = (1 << (count - 1).bit_length()) - 1
    return f"{pool}.{number & mask if number & mask < count else number & mask >> 1:x}"


def with_split_groups(sets: Mapping[str, Up], old: Iterable[Pool], new: Iterable[Pool]) -> dict[str, Up]:
    """The sets of groups, and of each group by which a pool has grown the set of the one that was split."""
    found, counts = dict(sets), {pool["id"]: pool["pg_num"] for pool in old}
    for pool in new:
        if pool["id"] in counts:
            for group in groups_in(pool)[counts[pool["id"]] :]:
                found[group] = sets[split_group(group, counts[pool["id"]])]
    return found
