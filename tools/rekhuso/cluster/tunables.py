"""The tunables of a CRUSH map (Ceph, crush.h), which a map of the program has not: of those that are not jewel's, what
the rules look at is set by steps at their front.
"""

from __future__ import annotations

from ..program.map_forms import LEAF_WORDS, RANGES
from ..program.maps import RuleStep
from .dump_types import CrushDump, DumpRule

TUNABLES = {
    "choose_local_tries": 0,
    "choose_local_fallback_tries": 0,
    "choose_total_tries": 50,
    "chooseleaf_descend_once": 1,
    "chooseleaf_vary_r": 1,
    "chooseleaf_stable": 1,
}
# The tunables that a step sets, by its word; a step counts the first try too.
SET_BY = {"choose_total_tries": "set_choose_tries", **{word.removeprefix("set_"): word for word in LEAF_WORDS}}


def number_set(name: str, number: int) -> int:
    """What a step sets that stands for a tunable of this number."""
    return number + (name == "choose_total_tries")


def range_of(name: str) -> tuple[int, int]:
    """From which number to which a tunable can be set by a step."""
    low, high = RANGES[SET_BY[name]][0]
    return low - number_set(name, 0), high - number_set(name, 0)


def steps_for(crush: CrushDump, rule: DumpRule) -> list[RuleStep]:
    """The steps at the front of a rule that set tunables which are not jewel's: those that its choose steps look at,
    and that it does not set before its first take itself.
    """
    words = [step["op"] for step in rule["steps"]]
    first = words[: words.index("take")] if "take" in words else words
    looks = {word: "chooseleaf_firstn" in words for word in LEAF_WORDS}
    own = crush["tunables"]
    return [
        [word, number_set(name, own[name])]
        for name, word in SET_BY.items()
        if own.get(name, TUNABLES[name]) != TUNABLES[name] and word not in first and looks.get(word, True)
    ]
