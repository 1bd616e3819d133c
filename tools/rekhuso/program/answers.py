"""Answers of the program as values, and the line of a balance."""

from __future__ import annotations

import json
from collections.abc import Iterable, Iterator, Mapping
from itertools import chain, repeat
from typing import NamedTuple, cast

from ..faults import Refused


class Up(NamedTuple):
    """The up set of a group: its places, None where none could be chosen, and its primary, None where there is none."""

    epoch: int
    places: list[int | None]
    primary: int | None


class PoolSets(NamedTuple):
    """The places of the up sets of all groups of a pool, from group 0 on."""

    epoch: int
    sets: list[list[int | None]]


class Made(NamedTuple):
    """A change that was accepted: its epoch, and how many groups were evaluated for it."""

    epoch: int
    evals: int


class Moved(NamedTuple):
    """A balancer's plan that was committed: how many moves, and the epoch then."""

    moves: int
    epoch: int


class Left(NamedTuple):
    """What Ceph's monitor would leave of a group's exceptions at an epoch: `all`, `fewer` or `gone`; and why where they
    are gone, as the line `fkept` tells it: `out 3`.
    """

    epoch: int
    what: str
    why: str = ""


def up_of(answer: str) -> Up:
    """The up set that an answer tells."""
    _, epoch, _, places, primary = answer.split(" ")
    words = places[1:-1].split(",") if len(places) > 2 else []
    osds = [None if word == "none" else int(word) for word in words] if "none" in words else list(map(int, words))
    return Up(int(epoch), osds, None if primary == "-1" else int(primary))


def ups_of(answers: list[str]) -> list[Up]:
    """The up sets that many answers tell: as `up_of` of each, in less time."""
    words = " ".join(answers).split(" ")
    sets = json.loads(f"[{','.join(words[3::5])}]".replace("none", "null"))
    primaries = (None if word == "-1" else int(word) for word in words[4::5])
    return list(made_ups(map(int, words[1::5]), sets, primaries))


def pool_sets_of(answer: str) -> PoolSets:
    """The up sets of all groups of a pool that an answer tells, from group 0 on."""
    _, epoch, _, *told = answer.split(" ", 3)
    text = "".join(told).replace(" ", ",").replace("none", "null")
    return PoolSets(int(epoch), json.loads(f"[{text}]"))


def ups_in(own: PoolSets) -> Iterator[Up]:
    """The up set of each group of a pool: as `up_of` of each."""
    first = [places[0] if places else None for places in own.sets]
    return made_ups(repeat(own.epoch), own.sets, map(primary_of, own.sets) if None in first else first)


def made_ups(epochs: Iterable[int], sets: Iterable[list[int | None]], primaries: Iterable[int | None]) -> Iterator[Up]:
    """As `map(Up, epochs, sets, primaries)`, in half the time: what makes a tuple is called at once."""
    return cast("Iterator[Up]", map(tuple.__new__, repeat(Up), zip(epochs, sets, primaries)))


def primary_of(places: list[int | None]) -> int | None:
    """The first OSD of a set; None where all its places are empty."""
    first = places[0] if places else None
    return next((osd for osd in places if osd is not None), None) if first is None else first


def left_of(answer: str) -> Left:
    """What an answer tells of a group's exceptions."""
    _, epoch, _, what, *why = answer.split(" ")
    return Left(int(epoch), what, " ".join(why))


def balance_line(pool: int, most: int, apart: int = 256, carried: Mapping[int, int] | None = None) -> str:
    """The line by which a pool is balanced: in the short form where two OSDs must differ by no more than a group and
    nothing is carried.
    """
    own = [pair for pair in sorted((carried or {}).items()) if pair[1]]
    pairs = ",".join(["[%d,%d]"] * len(own)) % tuple(chain.from_iterable(own))
    return f"balance {pool} {most}" + (f" {apart} [{pairs}]" if own or apart != 256 else "")


def accepted_answer(answer: str) -> str:
    """An answer that is no refusal; one that is ends this as `Refused`."""
    if answer.startswith("err "):
        _, number, name, *_ = answer.split(" ")
        raise Refused(name, int(number))
    return answer
