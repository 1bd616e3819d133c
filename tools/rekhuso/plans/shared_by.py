"""By what OSDs are to share the places of pools."""

from __future__ import annotations

from enum import Enum


class SharedBy(Enum):
    """What the rule of each pool can give them, pool by pool; what they weigh, also where a rule never gives it; or
    what the rules can give them of all pools together.
    """

    REACH = "reach"
    WEIGHT = "weight"
    JOINT = "all pools"
