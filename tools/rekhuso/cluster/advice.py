"""What an operator does about each reason that keeps a cluster out; and of many reasons of one kind, one line."""

from __future__ import annotations

from dataclasses import dataclass
from typing import NamedTuple

from ..program.map_forms import ITEMS, STOCK
from ..values import SLOTS
from ..words import some
from .json_forms import AgainstParts
from .reasons.counts import FEW
from .reasons.kinds import Against


class Advice(NamedTuple):
    """What is done about a kind of reason; and how many of it are told as one, if they are."""

    done: str
    many: str = ""


@dataclass(frozen=True, **SLOTS)
class Advised:
    """A reason, or several of one kind, as told: the code, why the cluster stays out, and what is done about it."""

    code: str
    why: str
    done: str

    def line(self) -> str:
        """All of it in one line."""
        return f"{self.why}{'' if self.why.endswith('?') else ':' if self.done else ''} {self.done}".rstrip()

    def parts(self) -> AgainstParts:
        """It as told as JSON."""
        return {"code": self.code, "why": self.why, "advice": self.done or None}


# What keeps data where it is where it would move by what is advised.
HELD = "under norebalance, `hold --pgs` behind it keeps the data where it is"
# What stands for the words that take the pools that come in, where some do.
POOLS = "{pools}"
# What stands for the words that say how much it moves.
MOVES = "{moves}"
SOME = "--pools takes some pools at a time"
AGAIN = "no monitor dumps it so: take both dumps again"
# What keeps a cluster out whose maps have no straw2 bucket.
BARE = "only a map with straw2 buckets holds more"
UNLINKED = "`ceph osd crush unlink` takes "
ADVICES = {
    **dict.fromkeys(
        ("form", "bucket-kind", "bucket-twice", "weight", "no-bucket", "rule-take", "rule-type", "rule-twice"),
        Advice(AGAIN),
    ),
    **dict.fromkeys(("pool-twice", "osd-max", "osd-twice", "osd-absent"), Advice(AGAIN)),
    "older-release": Advice("the tools take the dumps of later ones alone"),
    "bucket-items-plain": Advice(
        f"only a straw2 bucket holds more in a map; {POOLS}",
        f"{{count}} buckets have more than {ITEMS} items: {{names}}",
    ),
    "bucket-items": Advice(
        f"no map holds so many; {POOLS}", f"{{count}} buckets have more than {STOCK.items} items: {{names}}"
    ),
    "bucket-weightless": Advice(
        "no map holds it; `ceph osd crush reweight` gives the OSDs below it a weight, and `ceph osd crush rm` takes an "
        "empty bucket away",
        "{count} buckets below buckets that are not straw2 have the weight 0: in {names}",
    ),
    "osd-weightless": Advice(
        "no map holds it; `ceph osd crush reweight` gives it a weight",
        "{count} items of buckets that are not straw2 have the weight 0: in {names}",
    ),
    **dict.fromkeys(("pool-groups-plain", "pool-size-plain"), Advice(f"{BARE}; {POOLS}")),
    **dict.fromkeys(("pool-groups", "pool-size"), Advice(f"no map holds it; {POOLS}")),
    **dict.fromkeys(("buckets-plain", "pools-plain", "rules-plain"), Advice(f"{BARE}; {SOME}")),
    **dict.fromkeys(("buckets", "pools", "rules", "groups"), Advice(f"no map holds so many; {SOME}")),
    "straw-bucket": Advice(
        "`ceph osd crush set-all-straw-buckets-to-straw2` makes them straw2 (Nautilus or later), and moves what these "
        f"place otherwise; {HELD}"
    ),
    "tunable": Advice(f"`ceph osd crush tunables jewel` sets all of them, and moves data once; {HELD}"),
    "no-tunable": Advice("take the dump by Ceph 10.2 or later"),
    "pool-hashpspool": Advice(
        f"`ceph osd pool set POOL hashpspool true --yes-i-really-mean-it` sets it, and moves its data once; {HELD}; "
        f"{POOLS}"
    ),
    "weight-sets-of-pools": Advice(
        f"`ceph osd crush weight-set rm POOL` takes each away, once the balancer is off{MOVES}; {HELD}; {POOLS}"
    ),
    "weight-set": Advice(
        f"`ceph osd crush weight-set rm-compat` takes it away, once the balancer is off, which moves data; {HELD}"
    ),
    "class-empty": Advice(
        "no OSD of the class is left; `ceph osd pool set POOL crush_rule RULE` gives a pool of that rule another, "
        f"which moves its data; {POOLS}"
    ),
    "bucket-empty": Advice("`ceph osd crush rm` takes it away, or `ceph osd crush reweight-all` gives it the weight 0"),
    "osd-id-plain": Advice(BARE),
    "osd-id": Advice("no map holds an OSD of such a number"),
    "not-in-osd-dump": Advice(
        "take both dumps at one time; where the OSD was removed, --tree tells its reweight (`ceph osd tree -f "
        "json`), --unmatched takes it as out, which is right where it was, and `ceph osd crush rm` takes it away"
    ),
    "not-in-crush-dump": Advice("take both dumps at one time; --unmatched takes it as out of reach of every rule"),
    **dict.fromkeys(
        ("rule-step", "rule-grammar", "rule-take-osd", "rule-kind", "two-trees", "pool-kind"), Advice(POOLS)
    ),
    "type-below": Advice(f"{UNLINKED}the lower one out of the other, which moves data; {POOLS}"),
    "stands-twice": Advice(
        f"{UNLINKED}it out of one of them, which moves data; {POOLS}",
        "{count} items stand below a root more than once: {names}",
    ),
    **dict.fromkeys(
        ("exception-form", "exception-high", "exception-kept"),
        Advice("`ceph osd rm-pg-upmap` and `ceph osd rm-pg-upmap-items` take it away"),
    ),
}


def with_free_pools(done: str, pools: str) -> str:
    """What is done about a reason, with the words that take the pools that come in; without them where none does."""
    words = f"--pools {pools} takes the pools that come in" if pools else ""
    return done.replace(POOLS, words).removesuffix("; ")


def as_one(same: list[Against], many: str) -> str:
    """How many reasons of one kind are told as one."""
    return many.format(count=len(same), names=some(list(dict.fromkeys(own.of for own in same))))


def advised(reasons: list[Against], pools: str, moves: list[str] | None = None) -> list[Advised]:
    """Each reason with what is done about it, where some pools come in, and what that moves; and of those kinds that
    are told as one, more than a few in one.
    """
    moved = dict(zip(reasons, moves or []))
    found: list[Advised] = []
    told: set[str] = set()
    for reason in reasons:
        code, why = reason.code, reason.line
        kind = ADVICES.get(code, Advice(""))
        same = [own for own in reasons if own.code == code] if kind.many else []
        if len(same) > FEW:
            why = as_one(same, kind.many)
        if code not in told:
            found.append(Advised(code, why, with_free_pools(kind.done, pools).replace(MOVES, moved.get(reason, ""))))
        told |= {code} if len(same) > FEW else set()
    return found
