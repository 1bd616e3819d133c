"""Guards: the lines at the head of a script by which it ends, with nothing done, where the cluster is another one than
that of the dumps, its CRUSH map has changed since, or a pool has other groups or is split or shrunk. And the lines of a
script that sets norebalance by which it tells how the cluster stands where it ends before its last command.

They are plain `sh`, need the `ceph` command and `grep` alone, and ask the cluster once. `ceph osd dump` prints a line
for each pool with its name in quotes before all numbers, so behind the last quote no name is taken for a number.
"""

from __future__ import annotations

import re
import shlex
from collections.abc import Iterable, Mapping
from dataclasses import dataclass, replace

from ..cluster.cluster import Cluster
from ..cluster.pools_beside import PoolsBeside
from ..cluster.releases import PRIMARIES
from ..cluster.unrest import unrest_of
from ..program.maps import Map, group_key
from ..together import (
    REWEIGHTS,
    Given,
    commands_among,
    exception_lines,
    exceptions_of_dump,
    goal_of,
    lines_sum,
    reweight_lines,
)
from ..values import SLOTS
from ..words import counted

# What asks the cluster, and what ends a script where a line is not there, or lines have another sum.
ASKS = "now=$(ceph osd dump)"
IS_SUM = '[ "$(printf "%s\\n" "$now" | grep -E -o -e "$1" | sha256sum)" = "$2  -" ]'
ASKING = [
    ASKS,
    'has() { printf "%s\\n" "$now" | grep -q -e "$1" || { echo "$2: nothing is done" >&2; exit 1; }; }',
    f'same() {{ {IS_SUM} || {{ echo "$3: nothing is done" >&2; exit 1; }}; }}',
]
# What ends a script in its end, where lines have another sum, or an OSD is not in the set of a group.
STANDING = [
    f"stand() {{ {IS_SUM} || exit 1; }}",
    'lie() { now=$(ceph pg map "$1") || exit 1; shift; for osd in "$@"; do printf "%s\\n" "$now" |'
    ' grep -E -q "up [[]([0-9]+,)*$osd[],]" || exit 1; done; }',
]
FSID = re.compile(r"\^fsid [0-9A-Za-z-]+\$")
VERSION = re.compile(r"\^crush_version (?:[0-9]+|\\\([0-9]+(?:\\\|[0-9]+)*\\\))\$")
PLACED = r"(?:size [0-9]+ min_size \[0-9\]\* crush_rule [0-9]+ object_hash \[\^ \]\* )?"
POOL = re.compile(rf"\^pool [0-9]+ \.\* {PLACED}pg_num [0-9]+ pgp_num [0-9]+ (\[al\])?\[\^'\]\*\$")
# What finds the exceptions of groups, or of pools; those that lead to OSDs; and a flag.
OF_GROUPS = re.compile(r"\^pg_upmap\(_items\)\? \([0-9a-f.|\[\]]+\) \.\*|\^pg_upmap\(_items\)\? \([0-9|]+\)\[\.\]\.\*")
LEADING = re.compile(r"\^pg_upmap_items \[\^ \]\+ \\\[\(\[0-9\]\+,\[0-9\]\+,\)\*\[0-9\]\+,\([0-9|]+\)\[\],\]\.\*")
FLAGGED = "^flags .*norebalance.*"
STANDS = re.compile(r"stand '([^']+)' [0-9a-f]{64}")
LIES = re.compile(r"lie [0-9]+\.[0-9a-f]+(?: [0-9]+)+")
# How many groups a guard asks for at most, and of how many the sets are asked for in the end.
MOST, SAMPLE = 400, 8
BESIDE = re.compile(r"\^pool [0-9]+ \.\* crush_rule [0-9]+ object_hash \[\^'\]\*\$")
# Releases have names in the order of the alphabet: from reef on clients know named primaries.
KNOWING = "^require_min_compat_client [r-z]"
CLIENTS = re.compile(re.escape(KNOWING))
FORMS = (FSID, VERSION, POOL, BESIDE, CLIENTS)
ASKED_POOL = re.compile(rf"has '\^pool ([0-9]+) \.\* {PLACED}pg_num ([0-9]+) pgp_num ([0-9]+) (\[al\])?")
# What tells, where a command is refused or a signal comes, how the cluster stands.
TRAPS = ["trap 'exit 1' HUP INT TERM", "trap '[ $? = 0 ] || echo \"stopped: $at\" >&2' EXIT"]
AT_FIRST = 'at="nothing of it is given"'
AT_FLAG = 'at="norebalance is set, and nothing else is given"'
AT_COMMANDS = 'at="norebalance is set, and what stands above the refused command is given: give the rest, or go back"'
AT_LAST = 'at="all is given, and norebalance is set"'
AT_END = 'at="norebalance is set, as pairs do not stand or groups are elsewhere, though all is given: go back, or dump"'
# A norebalance that was set before stays; the last of several parts is told so.
WAS = 'was=$(ceph osd dump | grep "^flags .*norebalance" || true)'
STAYS, STAYS_BEHIND_PARTS = '[ -z "$was" ] || exit 0', '[ -z "$KEEP_NOREBALANCE" ] || exit 0'
ASKS_TO_STAY = '[ -z "$was" ] || echo "norebalance was set before: give the last part KEEP_NOREBALANCE=1" >&2'
TELLING = (*TRAPS, AT_FIRST, AT_FLAG, AT_COMMANDS, AT_END, AT_LAST, WAS, STAYS, STAYS_BEHIND_PARTS, ASKS_TO_STAY)


@dataclass(frozen=True, **SLOTS)
class GuardedPool:
    """A pool: its name, how many groups it has and by how many they are placed, whether it is at rest, and its size and
    rule, where they are asked for.
    """

    name: str
    groups: int
    placed: int
    is_at_rest: bool
    placing: tuple[int, int] | None = None


@dataclass(frozen=True, **SLOTS)
class Lines:
    """Lines of a cluster's dump: what finds them, their sum, and what is told where it is another."""

    pattern: str
    sum: str
    words: str


@dataclass(frozen=True, **SLOTS)
class Guards:
    """Of which cluster a script is, for which version of its CRUSH map, and over which pools, as far as that is known
    and asked; the pools that are left out; how many changes of the CRUSH map may stand between; other lines that are to
    be as they were; and whether all pools are asked for, and not only those of groups that are named.
    """

    fsid: str | None
    crush_version: int | None
    pools: Mapping[int, GuardedPool]
    beside: PoolsBeside = PoolsBeside()
    changes: int = 0
    asked: tuple[Lines, ...] = ()
    is_whole: bool = False

    def leaving(self, found: PoolsBeside) -> Guards:
        """The guards of a script that leaves pools out, where there are any guards."""
        return self if self == NO_GUARDS else replace(self, beside=found)

    def later(self, more: int | None) -> Guards:
        """The guards of a script that is run behind so many changes of the CRUSH map, or behind any number of them."""
        version = None if more is None or self.crush_version is None else self.crush_version + more
        return replace(self, crush_version=version)

    def begun(self, changes: int) -> Guards:
        """The guards of a script that is run behind one change of the CRUSH map or more, by so many commands."""
        return replace(self.later(1), changes=changes - 1) if changes else self

    def asking(self, more: Iterable[Lines], is_whole: bool = False) -> Guards:
        """The guards of a script that asks for more, where there are any guards."""
        return self if self == NO_GUARDS else replace(self, asked=(*self.asked, *more), is_whole=is_whole)

    def going_back(self) -> Guards:
        """The guards of a script that goes back, whatever has come meanwhile beside the CRUSH map and the pools."""
        pools = {number: replace(own, placing=None) for number, own in self.pools.items()}
        return replace(self, asked=(), is_whole=False, pools=pools)

    def version_line(self, version: int) -> str:
        """The guard of the version of the CRUSH map."""
        versions = [str(version + more) for more in range(self.changes + 1)]
        either = "\\|".join(versions)
        which = f"\\({either}\\)" if self.changes else either
        told = f"the CRUSH map is not that of the dump, whose crush_version is {version}"
        if self.changes:
            told = f"the CRUSH map is not that of its turn, whose crush_version is {version} to {versions[-1]}"
        return guard(f"^crush_version {which}$", told)

    def lines(self, commands: Iterable[str]) -> list[str]:
        """The guards of a script with some commands, which name groups; none where nothing is known."""
        found = []
        if self.fsid is not None:
            found.append(guard(f"^fsid {self.fsid}$", f"this is another cluster, its fsid is not {self.fsid}"))
        if self.crush_version is not None:
            found.append(self.version_line(self.crush_version))
        named = {group_key(line.split(" ")[3])[0] for line in commands if " pg-upmap" in line or " rm-pg-" in line}
        # A name with a line break stands in two lines of a dump, and here with a backslash.
        plain = {number for number, own in self.pools.items() if "\\" not in own.name}
        found += [self.pool_line(number) for number in sorted(plain if self.is_whole else named & plain)]
        found += [f"same {shlex.quote(own.pattern)} {own.sum} {shlex.quote(own.words)}" for own in self.asked]
        # A pool that is left out is to stay where it is, as far as its rule says so.
        still = [own for own in self.beside.pools if own.rule is not None and not own.is_touched]
        found += [beside_line(own.number, own.rule, own.name) for own in still if "\\" not in own.name]
        return [*ASKING, *found] if found else []

    def pool_line(self, number: int) -> str:
        """The guard of a pool."""
        own = self.pools[number]
        # Where a pool is at rest no target stands behind its two numbers, but `autoscale_mode` or `last_change`.
        rest = "[al]" if own.is_at_rest else ""
        told = f"pool {own.name} has no longer {counted(own.groups, 'group')} placed by {own.placed}"
        placing = ""
        if own.placing is not None:
            size, rule = own.placing
            placing = f"size {size} min_size [0-9]* crush_rule {rule} object_hash [^ ]* "
            told += f", size {size} and rule {rule}"
        told += ", or is to be split or shrunk" if own.is_at_rest else ""
        return guard(f"^pool {number} .* {placing}pg_num {own.groups} pgp_num {own.placed} {rest}[^']*$", told)


# Where nothing is asked.
NO_GUARDS = Guards(None, None, {})


def guard(pattern: str, words: str) -> str:
    """A line that ends a script where no line of the cluster's dump is of a form. No sign of the words ends a line."""
    shown = "".join(sign if sign.isprintable() else "?" for sign in words)
    return f"has {shlex.quote(pattern)} {shlex.quote(shown)}"


def beside_line(number: int, rule: int | None, name: str) -> str:
    """The guard of a pool that is left out."""
    told = f"pool {name}, which was left out, has another rule than the dump"
    return guard(f"^pool {number} .* crush_rule {rule} object_hash [^']*$", told)


def is_lines(pattern: str) -> bool:
    """Whether a pattern finds lines that guards ask for."""
    return pattern in (REWEIGHTS, FLAGGED) or any(form.fullmatch(pattern) is not None for form in (OF_GROUPS, LEADING))


def clients_line() -> str:
    """The guard of a script that names primaries."""
    told = f"clients need not know named primaries: ceph osd set-require-min-compat-client {PRIMARIES} comes first"
    return guard(KNOWING, told)


def is_guard(line: str) -> bool:
    """Whether a line is of the exact form of a guard, or of what asks in the end, and so does nothing but ask."""
    if line in (*ASKING, *STANDING, AT_END) or LIES.fullmatch(line):
        return True
    stands = STANDS.fullmatch(line)
    if stands is not None:
        return is_lines(stands[1])
    if not line.startswith(("has ", "same ")):
        return False
    try:
        words = shlex.split(line)
    except ValueError:
        return False
    if line != " ".join([words[0], *map(shlex.quote, words[1:])]) or not words[-1].isprintable():
        return False
    if words[0] == "same":
        return len(words) == 4 and is_lines(words[1]) and re.fullmatch("[0-9a-f]{64}", words[2]) is not None
    return len(words) == 3 and any(form.fullmatch(words[1]) for form in FORMS)


# What scripts ask for beside that


def reweights_asked(cluster: Cluster) -> Lines:
    """The reweights of a cluster."""
    return Lines(REWEIGHTS, lines_sum(reweight_lines(dict(cluster.osd_dump))), "a reweight is another than in the dump")


def pools_asked(cluster: Cluster) -> list[Lines]:
    """The exceptions of all groups of a cluster's pools."""
    pools = {str(own["pool"]) for own in cluster.pools}
    found = exception_lines(exceptions_of_dump(dict(cluster.osd_dump)), lambda group: group.split(".")[0] in pools)
    pattern = f"^pg_upmap(_items)? ({'|'.join(sorted(pools, key=int))})[.].*"
    return [Lines(pattern, lines_sum(found), "an exception is another than in the dump")] if pools else []


def groups_named(commands: Iterable[str]) -> list[str]:
    """The groups that commands name."""
    return list(dict.fromkeys(own.group for own in commands_among(commands)))


def groups_asked(groups: Iterable[str], has: Mapping[str, Given], words: str) -> list[Lines]:
    """The exceptions that some groups are to have, of so many at a time."""
    own, found = sorted(set(groups), key=group_key), []
    for at in range(0, len(own), MOST):
        some = own[at : at + MOST]
        pattern = f"^pg_upmap(_items)? ({'|'.join(some).replace('.', '[.]')}) .*"
        found.append(Lines(pattern, lines_sum(exception_lines(dict(has), set(some).__contains__)), words))
    return found


def after_commands(has: Mapping[str, Given], lines: Iterable[str]) -> dict[str, Given]:
    """The exceptions behind commands."""
    return {**has, **goal_of(commands_among(lines), dict(has))}


def leading_asked(osds: Iterable[int], has: Mapping[str, Given], words: str) -> Lines:
    """The pairs that lead to some OSDs."""
    gone = set(osds)
    own = {group for group, (_, pairs) in has.items() if pairs is not None and not gone.isdisjoint(pairs[1::2])}
    pairs: dict[str, Given] = {group: (None, has[group][1]) for group in own}
    pattern = f"^pg_upmap_items [^ ]+ \\[([0-9]+,[0-9]+,)*[0-9]+,({'|'.join(map(str, sorted(gone)))})[],].*"
    return Lines(pattern, lines_sum(exception_lines(pairs, own.__contains__)), words)


UNFLAGGED = Lines(FLAGGED, lines_sum([]), "norebalance is set, as by a script that ended before its end")


def end_lines(groups: Iterable[str], has: Mapping[str, Given], sets: Mapping[str, list[int]]) -> list[str]:
    """What a script asks in its end: that the exceptions of its groups stand, and that some of them have their OSDs."""
    found = [f"stand {shlex.quote(own.pattern)} {own.sum}" for own in groups_asked(groups, has, "")]
    own = sorted(sets, key=group_key)
    some = own[:: max(1, len(own) // SAMPLE)][:SAMPLE]
    lies = [f"lie {group} {' '.join(map(str, sets[group]))}" for group in some if sets[group]]
    return [AT_END, *STANDING, ASKS, *found, *lies] if found else []


def pool_asked(line: str) -> tuple[int, int, int, bool] | None:
    """What a guard asks of a pool: its number, how many groups it has and by how many they are placed, and whether it
    is at rest; None for another guard.
    """
    found = ASKED_POOL.match(line)
    return None if found is None else (int(found[1]), int(found[2]), int(found[3]), found[4] is not None)


def guarded(text: str, guards: Guards) -> str:
    """A script with guards behind its first `set -e`, in place of those that it has."""
    lines = text.splitlines()
    if "set -e" not in lines:
        return text
    ends = [at for at, line in enumerate(lines) if line.startswith("ceph ")]
    first = ends[0] if ends else len(lines)
    lines = [line for line in lines[:first] if not is_guard(line)] + lines[first:]
    at = lines.index("set -e") + 1
    return "\n".join([*lines[:at], *guards.lines(lines), *lines[at:]]) + "\n"


def guards_of(cluster: Cluster) -> Guards:
    """The guards of scripts over a cluster of dumps."""
    dump, unrest = cluster.osd_dump, unrest_of(cluster)
    fsid = dump.get("fsid")
    pools = {
        own["pool"]: GuardedPool(
            own["pool_name"],
            own["pg_num"],
            own["pg_placement_num"],
            own["pool"] not in unrest,
            (own["size"], own["crush_rule"]),
        )
        for own in dump["pools"]
    }
    is_known = fsid is not None and FSID.fullmatch(f"^fsid {fsid}$") is not None
    asked = (reweights_asked(cluster),)
    return Guards(fsid if is_known else None, dump.get("crush_version"), pools, asked=asked)


def guards_of_map(value: Map, names: Mapping[str, str]) -> Guards:
    """The guards of scripts over a map, which tells of its pools alone."""
    pools = {
        own["id"]: GuardedPool(names.get(str(own["id"]), str(own["id"])), own["pg_num"], own["pgp_num"], True)
        for own in value["pools"]
    }
    return Guards(None, None, pools)
