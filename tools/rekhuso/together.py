"""Gives a hold and its CRUSH map to a monitor within one map, so that no group is elsewhere at any epoch.

    python3 together.py CEPH_CONF CRUSH_FILE SCRIPT

SCRIPT is what `hold --to FILE` wrote, whole and as it is, or all parts of `hold --batch` in their order; CRUSH_FILE is
the compiled CRUSH map that it was made for. A hold behind a change that is made is given without one; a script of
`hold --undo` with the CRUSH map from before, or without any. A monitor gathers what it is told for
some time (paxos_propose_interval) into one map, and looks at exceptions only when that map is made. The interval of the
leading monitor is made longer for as long as this takes. It is asked which commands it has taken; once it has all, the
map is made at once. Its settings are put back whatever comes between.

Before anything is given, the script is asked whether it is whole, the file whether it is the CRUSH map that the hold
was made for, and the cluster whether it is the one that was dumped and takes pairs at all. The pairs come first, and
the CRUSH map only where none was refused. Then the cluster is asked for each exception and for the set of each group.
Where the CRUSH map stands and pairs do not, as when the leading monitor ends meanwhile, these are given once more.
norebalance is unset where all stand, and only if it was set here. Otherwise a line tells how the cluster stands.

Alone of all tools this one speaks to a cluster. The file runs by itself on Python 3.6 or later with librados' Python
(Debian: python3-rados), and needs a keyring that may do what `ceph osd setcrushmap` does.

Status 0: all stands. Status 1: it does not, and a line tells how the cluster stands. Status 2: wrong words.
"""

import argparse
import contextlib
import hashlib
import importlib
import json
import os
import re
import signal
import struct
import sys
import threading
import time
from concurrent.futures import FIRST_COMPLETED, Future, ThreadPoolExecutor, wait
from typing import Any, Callable, Dict, Iterable, Iterator, List, NamedTuple, NoReturn, Optional, Sequence, Set, Tuple

# For how long a monitor gathers behind a map, and how long at least; and what keeps data where it is.
INTERVAL, LEAST, FLAG = "paxos_propose_interval", "paxos_min_wait", "norebalance"
# How long an answer may take, in seconds; how much of the stack a thread needs that waits for one; and how many ask.
PATIENCE, STACK, ASKING = 120, 256 * 1024, 16
# How long it takes until a monitor is asked again what it has taken, and for how long refusals of one are waited for
# that does not tell it, in seconds.
AGAIN, PAUSE = 0.05, 1.0
# Below which key of a cluster those stand who give to it.
CLAIMS = "rekhuso/giver/"
# What a command waits for that is taken, in monitors up to Ceph 17 and in later ones.
TAKEN = "wait_for_finished_proposal", "wait_for_commit"
# The signals that end this in order, and what is told of one.
INTERRUPTED = "interrupted"
SIGNALS = (signal.SIGINT, signal.SIGTERM, signal.SIGHUP)
# How many groups are told by their names.
MOST = 5
Words = Dict[str, object]
SET_CRUSH = {"prefix": "osd setcrushmap"}  # type: Words
Json = Dict[str, Any]
Answer = Future  # type: Any
# A group's explicit set and its pairs; None where it has none.
Given = Tuple[Optional[Sequence[int]], Optional[Sequence[int]]]

SUM = "[0-9a-f]{64}"
KINDS = "plan of reads", "plan", "hold", "release", "drain", "preparation"
# What a script says of itself; the end, what else than the CRUSH map decides where groups lie, older ones have not.
HEAD = re.compile(
    rf"# rekhuso: ((?:undo of a )?(?:{'|'.join(KINDS)})), ([0-9]+) commands, part ([0-9]+) of ([0-9]+); "
    rf"epoch ([0-9]+), fsid (\S+), crush_version ([0-9]+|-); CRUSH map ({SUM}|-), then ({SUM}|-|command)"
    rf"(?:; pools ([0-9,]+|-), sizes ({SUM}|-), reweights ({SUM}|-), exceptions ({SUM}|-))?"
)
GOES = re.compile(r"# rekhuso: goes: ([0-9]+\.[0-9a-f]+) \[([0-9none,]*)\]")
END = re.compile(rf"# rekhuso: end, sha256 ({SUM})")
POOL = re.compile(r"has '\^pool ([0-9]+) \.\* (?:size .* )?pg_num ([0-9]+) pgp_num ([0-9]+) (\[al\])?")
OPERATION = re.compile(r"mon_command\((.*) v [0-9]+\)")
COMMAND = re.compile(r"ceph osd ((?:rm-)?pg-upmap(?:-items)?) ([0-9]+\.[0-9a-f]+)((?: [0-9]+)*)")


class Stop(Exception):
    """Why nothing more is done, in one line."""


# CRUSH maps


OPCODES = {
    **{"noop": 0, "take": 1, "choose_firstn": 2, "choose_indep": 3, "emit": 4},
    **{"chooseleaf_firstn": 6, "chooseleaf_indep": 7, "set_choose_tries": 8, "set_chooseleaf_tries": 9},
    **{"set_choose_local_tries": 10, "set_choose_local_fallback_tries": 11},
    **{"set_chooseleaf_vary_r": 12, "set_chooseleaf_stable": 13},
}
ALGORITHMS = {1: "uniform", 2: "list", 3: "tree", 4: "straw", 5: "straw2"}
TUNABLES = [
    *("choose_local_tries", "choose_local_fallback_tries", "choose_total_tries", "chooseleaf_descend_once"),
    *("chooseleaf_vary_r", "straw_calc_version", "allowed_bucket_algs", "chooseleaf_stable"),
]


def step_form(step: Json, types: Dict[str, int]) -> List[int]:
    """A step of a rule by numbers: what it does, and what it needs for that."""
    if "opcode" in step:
        return [step["opcode"], step["arg1"]]
    op = OPCODES[step["op"]]
    if "type" in step:
        return [op, step["num"], types[step["type"]]]
    return [op, *(step[key] for key in ("item", "num") if key in step)]


def weight_set_form(own: Json) -> List[Any]:
    """What a weight set has for a bucket: its number, its weights in units of 1/65,536, and other ids."""
    weights = [[round(weight * 65536) for weight in row] for row in own.get("weight_set", [])]
    return [own["bucket_id"], weights, own.get("ids", [])]


def crush_form(dump: Json) -> List[Any]:
    """What decides by a CRUSH dump where groups lie, and all names, in one order, whatever release has dumped it."""
    types = {own["name"]: own["type_id"] for own in dump["types"]}
    devices = [[own["id"], own["name"], own.get("class", "")] for own in dump["devices"]]
    buckets = [
        [
            *(own["id"], own.get("name", ""), own["type_id"], own["alg"], own.get("hash", "rjenkins1")),
            [[item["id"], item["weight"]] for item in own["items"]],
        ]
        for own in dump["buckets"]
    ]
    rules = [
        [own["rule_id"], own["rule_name"], own["type"], [step_form(step, types) for step in own["steps"]]]
        for own in dump["rules"]
    ]
    sets = [[int(name), sorted(map(weight_set_form, own))] for name, own in dump.get("choose_args", {}).items()]
    tunables = [[key, dump["tunables"][key]] for key in TUNABLES]
    return [sorted(devices), sorted(types.items()), sorted(buckets), sorted(rules), tunables, sorted(sets)]


def crush_sum(dump: Json) -> str:
    """The sum of a CRUSH map, by what `ceph osd crush dump` and `crushtool --dump` print. A Stop where that has not
    the form of one.
    """
    try:
        return hashlib.sha256(json.dumps(crush_form(dump)).encode()).hexdigest()
    except (KeyError, TypeError, ValueError, AttributeError) as fault:
        raise Stop(f"no CRUSH dump that is known: {fault!r}") from None


class Binary:
    """The bytes of a compiled CRUSH map, read from their beginning to their end."""

    def __init__(self, data: bytes) -> None:
        """Takes all bytes."""
        self.data, self.at = data, 0

    def number(self, form: str = "I") -> int:
        """The next number, by its form as `struct` has them."""
        return self.numbers(1, form)[0]

    def numbers(self, count: int, form: str = "I") -> Tuple[int, ...]:
        """The next numbers of one form."""
        own = f"<{count}{form}"
        found = struct.unpack_from(own, self.data, self.at)
        self.at += struct.calcsize(own)
        return found

    def text(self) -> str:
        """The next text. Old maps have numbers of 64 bits before texts, whose upper half is 0."""
        length = self.number() or self.number()
        found = self.data[self.at : self.at + length]
        self.at += length
        return found.decode()

    def table(self, value: Callable[[], Any]) -> Dict[int, Any]:
        """The next table: a value for each number."""
        # In a comprehension Python before 3.8 reads the value first.
        return dict((self.number("i"), value()) for _ in range(self.number()))

    def bucket(self) -> Optional[Json]:
        """The next bucket, but for its name; none where its place is empty."""
        if not self.number():
            return None
        own, (kind, alg, hashed), (_, size) = self.number("i"), self.numbers(1, "H") + self.numbers(2, "B"), self.pair()
        items = self.numbers(size, "i")
        if alg == 1:
            weights = self.numbers(1) * size
        elif alg == 3:
            weights = self.numbers(self.number("B"))[1::2]
        else:
            weights = self.numbers(size) if alg == 5 else self.numbers(2 * size)[::2]
        pairs = [{"id": item, "weight": weight} for item, weight in zip(items, weights)]
        name = "rjenkins1" if hashed == 0 else "unknown"
        return {"id": own, "type_id": kind, "alg": ALGORITHMS[alg], "hash": name, "items": pairs}

    def pair(self) -> Tuple[int, ...]:
        """The next two numbers."""
        return self.numbers(2)

    def rule(self) -> Optional[Json]:
        """The next rule, but for its name; none where its place is empty."""
        if not self.number():
            return None
        length, mask, steps = self.number(), self.numbers(4, "B"), []
        for _ in range(length):
            op, one, two = self.numbers(3, "i")
            named = {"op": op, "num": one, "type": two} if op in (2, 3, 6, 7) else {"op": op, "num": one}
            steps.append({"op": op} if op in (0, 4) else named)
        return {"type": mask[1], "steps": steps}

    def weight_set(self) -> Json:
        """The next bucket's part of a weight set."""
        bucket, positions = self.pair()
        rows = [[weight / 65536 for weight in self.numbers(self.number())] for _ in range(positions)]
        return {"bucket_id": -1 - bucket, "weight_set": rows, "ids": list(self.numbers(self.number(), "i"))}

    def dump(self) -> Json:
        """The map in the form of its dump."""
        if self.number() != 0x10000:
            raise ValueError("its first bytes are those of no compiled CRUSH map")
        buckets, rules, devices = self.numbers(3, "i")
        tree = [own for own in [self.bucket() for _ in range(buckets)] if own is not None]
        found = {at: own for at, own in enumerate([self.rule() for _ in range(rules)]) if own is not None}
        types, names, rule_names = (self.table(self.text) for _ in range(3))
        # Two of the eight tunables are bytes, and so is the last.
        tunables = [*self.numbers(4), *self.numbers(2, "B"), self.number(), self.number("B")]
        classes, class_names = self.table(lambda: self.number("i")), self.table(self.text)
        self.table(lambda: self.table(lambda: self.number("i")))
        sets = [(self.number("q"), [self.weight_set() for _ in range(self.number())]) for _ in range(self.number())]
        if self.at != len(self.data):
            raise ValueError("it has parts that are not known here")
        words = {0: "device", **types}
        ops = {number: word for word, number in OPCODES.items()}
        for step in (step for own in found.values() for step in own["steps"]):
            step["op"] = ops[step["op"]]
            step.update({"type": words[step["type"]]} if "type" in step else {})
        return {
            "devices": [
                dict(
                    {"id": osd, "name": names.get(osd, f"device{osd}")},
                    **({"class": class_names[classes[osd]]} if osd in classes else {}),
                )
                for osd in range(devices)
            ],
            "types": [{"type_id": own, "name": name} for own, name in words.items()],
            "buckets": [dict(own, name=names.get(own["id"], "")) for own in tree],
            "rules": [dict(own, rule_id=at, rule_name=rule_names.get(at, "")) for at, own in found.items()],
            "tunables": dict(zip(TUNABLES, tunables)),
            "choose_args": {str(number): own for number, own in sets},
        }


# What else decides where groups lie: by lines as `ceph osd dump` prints them, and what finds these


REWEIGHTS = "^osd[.][0-9]+ | (in|out) +weight [^ ]+"
EXCEPTIONS = "pg_upmap", "pg_upmap_items"
# What stands in a dump for no OSD.
NOBODY = 2**31 - 1


def lines_sum(lines: Iterable[str]) -> str:
    """The sum of lines, as `sha256sum` has it."""
    return hashlib.sha256("".join(line + "\n" for line in lines).encode()).hexdigest()


def reweight_lines(dump: Json) -> List[str]:
    """The reweight of each OSD, as `grep -o` finds them by REWEIGHTS."""
    found = []  # type: List[str]
    for own in sorted(dump["osds"], key=lambda own: int(own["osd"])):
        state = "in " if own["weight"] else "out"
        found += [f"osd.{own['osd']} ", f" {state} weight {own['weight']:g}"]
    return found


def osds_in_pairs(pairs: Iterable[Dict[str, int]]) -> List[int]:
    """The OSDs of pairs, as commands name them."""
    return [osd for pair in pairs for osd in (pair["from"], pair["to"])]


def exceptions_of_dump(dump: Json) -> Dict[str, Given]:
    """The explicit set and the pairs of each group that has any."""
    found = {}  # type: Dict[str, Given]
    for own in dump.get("pg_upmap", []):
        found[own["pgid"]] = (own["osds"], None)
    for own in dump.get("pg_upmap_items", []):
        found[own["pgid"]] = (found.get(own["pgid"], (None, None))[0], osds_in_pairs(own["mappings"]))
    return found


def exception_lines(own: Dict[str, Given], is_asked: Callable[[str], bool]) -> List[str]:
    """The exceptions of the groups that are asked for, in the order of a dump."""
    groups = sorted(filter(is_asked, own), key=place_of)
    kinds = [(kind, [(group, own[group][at]) for group in groups]) for at, kind in enumerate(EXCEPTIONS)]
    return [
        f"{kind} {group} [{','.join(str(NOBODY if osd is None else osd) for osd in osds)}]"
        for kind, found in kinds
        for group, osds in found
        if osds is not None
    ]


def place_of(group: str) -> Tuple[int, int]:
    """Where a group stands among all."""
    pool, number = group.split(".")
    return int(pool), int(number, 16)


def size_lines(dump: Json, pools: Iterable[int]) -> List[str]:
    """The size and the rule of each of some pools."""
    chosen = set(pools)
    own = {pool["pool"]: f"{pool['size']} {pool['crush_rule']}" for pool in dump["pools"] if pool["pool"] in chosen}
    return [f"{number} {own.get(number, 'gone')}" for number in sorted(chosen)]


# Scripts


class Command(NamedTuple):
    """A command on exceptions: its word, its group, and the OSDs that it names."""

    word: str
    group: str
    osds: List[int]

    def words(self) -> Words:
        """As a monitor takes it."""
        own = {"prefix": "osd " + self.word, "pgid": self.group}  # type: Words
        return dict(own, id=self.osds) if self.osds else own


class Beside(NamedTuple):
    """What else than the CRUSH map a script was made for: its pools, and the sums of their sizes and rules, of the
    reweights and of the exceptions; None by older tools, and - where any will do.
    """

    pools: Optional[str]
    sizes: Optional[str]
    reweights: Optional[str]
    exceptions: Optional[str]

    def unlike(self, dump: Json) -> List[str]:
        """What of it a cluster has otherwise."""
        numbers = (self.pools or "").replace("-", "").split(",")
        own = {
            "the size or the rule of a pool": lines_sum(
                size_lines(dump, [int(number) for number in numbers if number])
            ),
            "a reweight": lines_sum(reweight_lines(dump)),
            "an exception": lines_sum(
                exception_lines(exceptions_of_dump(dump), lambda group: group.split(".")[0] in numbers)
            ),
        }
        return [what for (what, found), told in zip(own.items(), self[1:]) if told not in (None, "-", found)]


class Script(NamedTuple):
    """A hold, or the way back from one: its commands, of which epoch, cluster and CRUSH map it is, for which CRUSH map
    it was made, if for any, which groups it leaves elsewhere, with the sets that they then have, and which pools it
    asks for: how many groups they have, by how many these are placed, and whether they are at rest.
    """

    is_hold: bool
    commands: List[Command]
    epoch: int
    fsid: str
    crush_version: str
    crush: str
    then: str
    goes: Dict[str, List[Optional[int]]]
    pools: Dict[int, Tuple[int, int, bool]]
    beside: Beside


def set_in(text: str) -> List[Optional[int]]:
    """The places of a set."""
    return [None if osd == "none" else int(osd) for osd in text.split(",") if osd]


def lines_of(text: str) -> List[str]:
    """The lines of a script. A Stop where it is not whole, or not as it was written."""
    if not text.strip():
        raise Stop("it is empty: was `hold` refused?")
    *lines, last, rest = ["", *text.split("\n")]
    if not any(HEAD.fullmatch(line) for line in [*lines, last, rest][1:3]):
        raise Stop("it is no hold: it has not the head that `rekhuso hold --to FILE` writes")
    end = END.fullmatch(last)
    if end is None or rest:
        raise Stop("it is cut off: its last line is not that of a whole hold")
    if hashlib.sha256("".join(line + "\n" for line in lines[1:]).encode()).hexdigest() != end.group(1):
        raise Stop("it is not as it was written: its sum is another; make it again")
    return lines[1:]


def commands_among(lines: Iterable[str]) -> List[Command]:
    """The commands on exceptions among lines."""
    found = [own for own in map(COMMAND.fullmatch, lines) if own]
    return [Command(own.group(1), own.group(2), list(map(int, own.group(3).split()))) for own in found]


def part_in(text: str) -> Tuple[Script, int, int]:
    """A part of a hold, which number it has, and of how many. A Stop where it is none, or not whole."""
    lines = lines_of(text)
    heads = [found for found in map(HEAD.fullmatch, lines) if found]
    kind, count, part, parts, epoch, fsid, version, crush, then, *beside = heads[0].groups()
    if not kind.endswith("hold"):
        raise Stop(f"it is no hold: it is of kind {kind}")
    commands = commands_among(lines)
    if len(heads) > 1 or len(commands) != int(count):
        raise Stop(f"it has {len(commands)} commands, and its head says {count}")
    goes = {own.group(1): set_in(own.group(2)) for own in map(GOES.fullmatch, lines) if own}
    asked = [tuple(own.groups()) for own in map(POOL.match, lines) if own]
    pools = {int(own[0]): (int(own[1]), int(own[2]), bool(own[3])) for own in asked}
    script = Script(kind == "hold", commands, int(epoch), fsid, version, crush, then, goes, pools, Beside(*beside))
    return script, int(part), int(parts)


def joined(parts: List[Tuple[Script, int, int]]) -> Script:
    """The hold of all its parts. A Stop where these are not all of one, in their order."""
    first, _, count = parts[0]
    if [number for _, number, _ in parts] != list(range(1, count + 1)):
        raise Stop(f"it is part {parts[-1][1]} of {count}: a hold is given whole, all its parts in their order")
    for own, _, of in parts:
        own_head, first_head = (one._replace(commands=[], pools={}) for one in (own, first))
        if of != count or own_head != first_head:
            raise Stop("it is not of the same hold as the parts before it")
    commands = [command for own, _, _ in parts for command in own.commands]
    pools = {number: pool for own, _, _ in parts for number, pool in own.pools.items()}
    return first._replace(commands=commands, pools=pools)


def script_in(text: str) -> Script:
    """The hold of a text. A Stop where it is none, a part of one, or not whole."""
    return joined([part_in(text)])


def text_in(path: str) -> str:
    """The text of a file. A Stop where there is none."""
    try:
        with open(path, encoding="utf-8", newline="") as file:
            return file.read()
    except OSError as fault:
        raise Stop(f"{path}: {fault.strerror}") from None
    except UnicodeDecodeError:
        raise Stop(f"{path}: no UTF-8") from None


def bytes_in(path: str) -> bytes:
    """The bytes of a file. A Stop where there is none."""
    try:
        with open(path, "rb") as file:
            return file.read()
    except OSError as fault:
        raise Stop(f"{path}: {fault.strerror}") from None


def crush_in(path: str, script: Script) -> bytes:
    """The compiled CRUSH map of a file. A Stop where it is not that for which a hold was made."""
    data = bytes_in(path)
    try:
        found = crush_sum(Binary(data).dump())
    except (ValueError, KeyError, IndexError, struct.error, MemoryError) as fault:
        raise Stop(f"{path}: no compiled CRUSH map that is known: {fault}") from None
    if script.then in ("-", "command"):
        raise Stop(f"{path}: this script goes with no CRUSH map")
    if found != script.then:
        raise Stop(f"{path}: not the CRUSH map that the hold was made for: give that of `hold --crush`")
    return data


# The cluster


class State(NamedTuple):
    """How a cluster stands: its OSDMap as it is dumped, the sum of its CRUSH map, and the set of each group."""

    dump: Json
    crush: str
    sets: Dict[str, List[Optional[int]]]

    def exceptions(self) -> Dict[str, Given]:
        """The explicit set and the pairs of each group that has any."""
        return exceptions_of_dump(self.dump)

    def up(self) -> Set[int]:
        """The OSDs that are up."""
        return {own["osd"] for own in self.dump["osds"] if own["up"]}

    def has_flag(self) -> bool:
        """Whether norebalance is set."""
        return FLAG in self.dump.get("flags", "").split(",")


def goal_of(commands: Iterable[Command], now: Dict[str, Given]) -> Dict[str, Given]:
    """What each group that commands name is to have once they are given."""
    found = {}  # type: Dict[str, Given]
    for own in commands:
        explicit, pairs = found.get(own.group, now.get(own.group, (None, None)))
        osds = own.osds or None
        found[own.group] = (explicit, osds) if own.word.endswith("-items") else (osds, pairs)
    return found


def back_of(group: str, was: Given, now: Given) -> List[Command]:
    """The commands that bring the exceptions of a group back."""
    found = []
    for word, before, own in zip(("pg-upmap", "pg-upmap-items"), was, now):
        if before != own:
            found.append(Command(word if before else "rm-" + word, group, list(before or [])))
    return found


def some(names: Iterable[str]) -> str:
    """The first names of several."""
    own = sorted(names)
    return ", ".join(own[:MOST]) + (f" and {len(own) - MOST} more" if len(own) > MOST else "")


class ConnectedCluster:
    """A cluster, by an open connection of librados, and its leading monitor."""

    def __init__(self, rados: Any) -> None:
        """Takes the connection."""
        self.rados = rados
        self.leader = str(self.json("quorum_status")["quorum_leader_name"])

    def ask(self, words: Words, body: bytes = b"", **more: object) -> bytes:
        """The answer to a command. A Stop where it is refused."""
        status, answer, why = self.rados.mon_command(json.dumps(words), body, timeout=PATIENCE, **more)
        if status:
            told = " ".join(str(own) for own in words.values())
            reason = str(why).strip() or "no reason"
            raise Stop(f"{told}: refused: {reason} (status {status})")
        return bytes(answer)

    def json(self, prefix: str, **words: object) -> Json:
        """The answer to a question, as JSON."""
        found = json.loads(self.ask(dict(words, prefix=prefix, format="json")))  # type: Json
        return found

    def epoch(self) -> int:
        """The epoch of the OSDMap."""
        return int(self.json("osd dump")["epoch"])

    def is_there(self) -> bool:
        """Whether the monitor that has led is one of those that decide."""
        return self.leader in self.json("quorum_status")["quorum_names"]

    def setting(self, name: str) -> str:
        """What the leading monitor has of a setting, in seconds."""
        answer = self.ask({"prefix": "config get", "var": name}, target=self.leader)
        return str(json.loads(answer)[name])

    def put(self, name: str, seconds: str) -> None:
        """Gives it a setting."""
        self.ask({"prefix": "config set", "var": name, "val": [seconds]}, target=self.leader)

    def taken(self) -> Optional[Set[str]]:
        """The commands that the leading monitor has taken for its next map, by their texts; None where it does not
        tell.
        """
        try:
            found = json.loads(self.ask({"prefix": "ops"}, target=self.leader))["ops"]
            told = {own["description"]: json.dumps(own["type_data"]) for own in found}
        except (Stop, ValueError, KeyError, TypeError):
            return None
        forms = [(OPERATION.match(text), events) for text, events in told.items()]
        return {form.group(1) for form, events in forms if form and any(own in events for own in TAKEN)}

    def state(self, threads: ThreadPoolExecutor) -> State:
        """How it stands, at one epoch: where a map is made meanwhile, it is asked again."""
        while True:
            dump, crush = self.json("osd dump"), crush_sum(self.json("osd crush dump"))
            groups = [f"{own['pool']}.{at:x}" for own in dump["pools"] for at in range(own["pg_num"])]
            places = threads.map(lambda group: self.json("pg map", pgid=group), groups)
            sets = {group: [None if osd == NOBODY else osd for osd in own["up"]] for group, own in zip(groups, places)}
            if self.json("osd dump")["epoch"] == dump["epoch"]:
                return State(dump, crush, sets)


def check_cluster(script: Script, state: State) -> None:
    """A Stop where a script is not for a cluster as it stands, or pairs cannot be taken there."""
    dump = state.dump
    if script.fsid not in ("-", dump["fsid"]):
        raise Stop(f"this is another cluster: its fsid is {dump['fsid']}, and the hold is for {script.fsid}")
    if dump["epoch"] < script.epoch:
        raise Stop(f"its epoch is {dump['epoch']}, before that of the hold, {script.epoch}")
    if script.is_hold and script.crush_version not in ("-", str(dump["crush_version"])):
        versions = f"version {dump['crush_version']}, and the hold is for {script.crush_version}"
        raise Stop(f"its CRUSH map has changed since: {versions}: dump again, and make the hold again")
    if script.crush != state.crush:
        raise Stop("its CRUSH map is not that which the script is for: dump again, and make it again")
    for key in ("require_min_compat_client", "require_osd_release"):
        if not "luminous" <= str(dump.get(key, "")) < "unknown":
            raise Stop(f"it takes no pairs: {key} is {dump.get(key) or 'not set'}, and luminous is needed")
    check_pools(script, dump)
    osds, pools = {own["osd"] for own in dump["osds"]}, {own["pool"]: own["pg_num"] for own in dump["pools"]}
    for own in script.commands:
        pool, number = own.group.split(".")
        if int(number, 16) >= pools.get(int(pool), 0):
            raise Stop(f"it has no group {own.group}: make the script again")
        if not osds.issuperset(own.osds):
            raise Stop(f"it has no osd.{min(set(own.osds) - osds)}: make the script again")
    changed = script.beside.unlike(dump)
    if changed:
        raise Stop(f"{' and '.join(changed)} is another than in the dump: dump again, and make the script again")


def check_pools(script: Script, dump: Json) -> None:
    """A Stop where a pool that a script asks for has other groups, or is to be split or shrunk."""
    for own in dump["pools"]:
        if own["pool"] in script.pools:
            has = own["pg_num"], own["pg_placement_num"]
            keys = ("pg_num_target", "pg_num_pending", "pg_placement_num_target")
            aims = tuple(own.get(key, has[at == 2]) for at, key in enumerate(keys))
            groups, placed, is_at_rest = script.pools[own["pool"]]
            if has != (groups, placed) or is_at_rest and aims != (groups, groups, placed):
                told = f"pool {own['pool']} has no longer {groups} groups placed by {placed}"
                raise Stop(f"{told}, or is to be split or shrunk: make the script again")


Places = Optional[Sequence[Optional[int]]]


def erasure_pools_of(dump: Json) -> Set[str]:
    """The pools whose places each hold a part of their own."""
    return {str(own["pool"]) for own in dump["pools"] if own["type"] == 3}


def is_elsewhere(places: Places, wanted: Places, alive: Set[int], is_erasure: bool) -> bool:
    """Whether a group has other places than wanted, as far as OSDs are up."""
    sets = [[osd if osd in alive else None for osd in own or ()] for own in (places, wanted)]
    return sets[0] != sets[1] if is_erasure else set(sets[0]) - {None} != set(sets[1]) - {None}


class Standing(NamedTuple):
    """How a cluster stands beside what a script foretells: which groups have not the exceptions that they are to have,
    which are elsewhere than foretold, and which have not the exceptions and the sets of before; and whether its CRUSH
    map is what it is to be, and what it was.
    """

    unlike: List[str]
    elsewhere: List[str]
    moved: List[str]
    is_then: bool
    is_before: bool

    @property
    def is_done(self) -> bool:
        """Whether all stands."""
        return self.is_then and not self.unlike and not self.elsewhere

    @property
    def is_as_it_was(self) -> bool:
        """Whether nothing of it is there."""
        return self.is_before and not self.moved

    @property
    def is_over(self) -> bool:
        """Whether it is one or the other."""
        return self.is_done or self.is_as_it_was

    def words(self) -> str:
        """How it stands, in one phrase."""
        which = (
            "the old one" if self.is_before else "the new one" if self.is_then else "neither the old nor the new one"
        )
        found = [f"the CRUSH map is {which}"]
        if self.unlike:
            found.append(f"{len(self.unlike)} groups lack their exceptions ({some(self.unlike)})")
        if self.elsewhere:
            found.append(f"{len(self.elsewhere)} groups are elsewhere ({some(self.elsewhere)})")
        return ", ".join(found)


class Giving:
    """What is given to a cluster: a script, and the CRUSH map with it, if there is one."""

    def __init__(
        self, cluster: ConnectedCluster, script: Script, crush: Optional[bytes], threads: ThreadPoolExecutor
    ) -> None:
        """Takes how the cluster stands. A Stop where the script is not for it."""
        self.cluster, self.script, self.crush, self.threads = cluster, script, crush, threads
        self.before = cluster.state(threads)
        check_cluster(script, self.before)
        self.is_flagged, self.is_begun, self.made = False, False, 0
        # What was given once more, and what is told of the way.
        self.again, self.notes = [], []  # type: Tuple[List[Command], List[str]]

    @property
    def is_foretold(self) -> bool:
        """Whether the script tells where each group is then: a way back by itself leads to what rules give."""
        return self.script.is_hold or self.crush is not None

    def compared(self, now: State) -> Standing:
        """How the cluster stands now."""
        has, was = now.exceptions(), self.before.exceptions()
        goal = goal_of(self.script.commands, was)
        nothing = (None, None)
        alive, erasure = now.up() & self.before.up(), erasure_pools_of(now.dump)

        def differ(group: str, wanted: Places) -> bool:
            """Whether a group has other places than wanted."""
            return is_elsewhere(now.sets[group], wanted, alive, group.split(".")[0] in erasure)

        told = {group: self.script.goes.get(group, self.before.sets.get(group)) for group in now.sets}
        moved = [group for group in now.sets if differ(group, self.before.sets.get(group))]
        changed = [group for group in goal if has.get(group, nothing) != was.get(group, nothing)]
        return Standing(
            [group for group, own in goal.items() if has.get(group, nothing) != own],
            [group for group in told if differ(group, told[group])] if self.is_foretold else [],
            sorted({*moved, *changed}),
            now.crush == (self.script.then if self.crush is not None else self.before.crush),
            now.crush == self.before.crush,
        )

    def until_taken(self, words: List[Words], waits: List[Answer]) -> bool:
        """Waits until the leading monitor has taken commands for its next map. It has not where an answer comes before,
        as where one is refused or a map is made.
        """
        wanted = {json.dumps(own) for own in words}
        while not wait(waits, 0, FIRST_COMPLETED).done:
            taken = self.cluster.taken()
            if taken is None:
                # What was sent before a question has been looked at when that is answered.
                self.cluster.epoch()
                return not wait(waits, PAUSE, FIRST_COMPLETED).done
            if wanted <= taken:
                return True
            wait(waits, AGAIN, FIRST_COMPLETED)
        return False

    def make_map(self) -> None:
        """Has the leading monitor make a map of what it has taken, at once."""
        self.cluster.put(LEAST, "0")
        self.cluster.put(INTERVAL, "0")
        self.cluster.ask({"prefix": "osd set", "key": FLAG})

    def give(self, commands: List[Command], crush: Optional[bytes]) -> None:
        """Gives commands at once, then the CRUSH map where none was refused. A Stop for the first that is refused."""
        threads, waits = ThreadPoolExecutor(len(commands) + 1), []  # type: Tuple[ThreadPoolExecutor, List[Answer]]
        words = [own.words() for own in commands]
        is_taken = False
        threading.stack_size(STACK)
        try:
            with postponed_signals():
                waits += [threads.submit(self.cluster.ask, own) for own in words]
            is_taken = self.until_taken(words, waits)
            if crush is not None and is_taken:
                with postponed_signals():
                    waits += [threads.submit(self.cluster.ask, SET_CRUSH, crush)]
                self.until_taken([*words, SET_CRUSH], waits)
            self.make_map()
            wait(waits)
        finally:
            # Whatever ends this, a signal just here too: only behind the answers it is known what stands.
            try:
                hold_back_signals()
            finally:
                self.end_waiting(waits)
                threads.shutdown(False)
        for own in waits:
            own.result()
        if crush is not None and not is_taken:
            raise Stop("a map was made before the CRUSH map was given: try again, with more --seconds")

    def end_waiting(self, waits: List[Answer]) -> None:
        """Waits for all answers; where some are still to come, the map is made for which they wait."""
        if wait(waits, 0).not_done:
            with contextlib.suppress(Stop):
                if self.cluster.is_there():
                    self.make_map()
        wait(waits, PATIENCE)

    def give_again(self, commands: List[Command]) -> None:
        """Gives commands at once, in as many maps as it takes. A Stop for the first that is refused."""
        with ThreadPoolExecutor(ASKING) as threads:
            waits = [threads.submit(self.cluster.ask, own.words()) for own in commands]
        for own in waits:
            own.result()

    def in_one_map(self, seconds: float) -> None:
        """Gives all within one map. A Stop where something is refused; the settings are back in any case."""
        before = {name: self.cluster.setting(name) for name in (LEAST, INTERVAL)}
        take_signals()
        try:
            self.is_flagged = not self.before.has_flag()
            # A map of its own, behind which a whole interval begins.
            self.cluster.ask({"prefix": "osd set", "key": FLAG})
            self.cluster.put(INTERVAL, str(seconds))
            epoch = self.cluster.epoch()
            self.is_begun = True
            self.give(self.script.commands, self.crush)
            self.made = self.cluster.epoch() - epoch
        finally:
            try:
                hold_back_signals()
            finally:
                self.put_back(before)

    def missing(self, goal: Dict[str, Given], now: State) -> List[Command]:
        """The commands that give groups the exceptions that they are to have and have not."""
        has, nothing = now.exceptions(), (None, None)
        return [own for group, to in goal.items() for own in back_of(group, to, has.get(group, nothing))]

    def take_back(self) -> None:
        """Brings the exceptions of before back where the CRUSH map is the old one, all at once."""
        now, was, nothing = self.cluster.state(self.threads), self.before.exceptions(), (None, None)
        goal = {own.group: was.get(own.group, nothing) for own in self.script.commands}
        if now.crush == self.before.crush:
            self.give_again(self.missing(goal, now))

    def finish(self) -> None:
        """Gives the pairs once more that do not stand, where the CRUSH map is the new one."""
        now = self.cluster.state(self.threads)
        if self.crush is not None and now.crush == self.script.then:
            self.again = self.missing(goal_of(self.script.commands, self.before.exceptions()), now)
            self.give_again(self.again)

    def end(self, is_refused: bool) -> Standing:
        """How the cluster stands once what can be taken back is taken back; data may move again where that is well."""
        if is_refused and self.is_begun:
            self.take_back()
        if self.is_begun:
            self.finish()
        now = self.cluster.state(self.threads)
        found = self.compared(now)
        self.is_flagged = self.is_flagged and now.has_flag()
        if self.is_flagged and found.is_over:
            self.cluster.ask({"prefix": "osd unset", "key": FLAG})
            self.is_flagged = False
        return found

    def put_back(self, before: Dict[str, str]) -> None:
        """Puts the settings back. A Stop where that is refused; a monitor that decides no more has lost them, unless it
        runs on by itself.
        """
        leader, faults = f"mon.{self.cluster.leader}", []
        for name, seconds in before.items():
            try:
                if not self.cluster.is_there():
                    self.notes.append(f"{leader} is gone: where it runs on, its {name} is to be {seconds}")
                elif self.cluster.setting(name) != seconds:
                    self.cluster.put(name, seconds)
            except Stop as fault:
                faults.append(f"{fault}; {name} of {leader} was {seconds} and is not put back")
        if faults:
            raise Stop("; ".join(faults))


class Ended(BaseException):
    """A signal that ends this from outside."""


def hold_back_signals() -> None:
    """From now on no signal ends this but one that cannot be held back."""
    for number in SIGNALS:
        signal.signal(number, signal.SIG_IGN)


def end_by_signal(number: int, _: object) -> NoReturn:
    """Ends this in order: no further signal comes between."""
    hold_back_signals()
    raise Ended(number)


def take_signals() -> None:
    """From now on a signal ends this in order, unless it is ignored already."""
    for number in SIGNALS:
        if signal.getsignal(number) is not signal.SIG_IGN:
            signal.signal(number, end_by_signal)


@contextlib.contextmanager
def postponed_signals() -> Iterator[None]:
    """Has a signal that ends this come behind what is done here: else something is given that nobody waits for."""
    come = []  # type: List[int]
    before = {number: own for number, own in zip(SIGNALS, map(signal.getsignal, SIGNALS)) if callable(own)}
    for number in before:
        signal.signal(number, lambda number, _: come.append(number))
    try:
        yield
    finally:
        for number, own in before.items():
            signal.signal(number, own)
    for found in come:
        before[signal.Signals(found)](found, None)


# The command line


OWN_USE = "CEPH_CONF [CRUSH_FILE] SCRIPT.. [--moves N] [--seconds S]"


def seconds_in(word: str) -> float:
    """A number of seconds; an error of use where it is none."""
    try:
        found = float(word)
    except ValueError:
        found = 0.0
    if not 3 <= found <= 600:
        raise argparse.ArgumentTypeError(f"{word}: no number of seconds from 3 to 600")
    return found


def groups_in(word: str) -> int:
    """A number of groups; an error of use where it is none."""
    if not re.fullmatch("[0-9]{1,9}", word):
        raise argparse.ArgumentTypeError(f"{word}: no number of groups")
    return int(word)


def add_words(own: argparse.ArgumentParser) -> None:
    """The words of the command line."""
    own.add_argument("conf", metavar="CEPH_CONF", help="the configuration by which the cluster is found")
    own.add_argument(
        "files", metavar="FILE", nargs="+", help="the compiled CRUSH map, then `hold`'s script or all its parts"
    )
    about = "give a hold also where so many groups move by it, as it does not hold them"
    own.add_argument("--moves", metavar="N", type=groups_in, help=about)
    about = "for how long the monitor gathers meanwhile at most (60 where nothing is said)"
    own.add_argument("--seconds", metavar="S", type=seconds_in, default=60.0, help=about)


def connected(conf: str) -> Any:
    """An open connection of librados. A Stop where there is none."""
    try:
        rados = importlib.import_module("rados")
    except ImportError:
        raise Stop("librados' Python is not there (Debian: python3-rados)") from None
    try:
        found = rados.Rados(conffile=conf)
        found.conf_set("rados_mon_op_timeout", str(PATIENCE))
        found.connect(timeout=30)
    except rados.Error as fault:
        raise Stop(f"{conf}: no connection to a cluster: {fault}") from None
    return found


def kept(path: str, data: bytes) -> None:
    """Writes a file, whole or not at all. A Stop where it cannot be written."""
    part = f"{path}.part"
    try:
        with open(part, "wb") as file:
            file.write(data)
        os.replace(part, path)
    except OSError as fault:
        if os.path.exists(part):
            os.remove(part)
        raise Stop(f"{path}: {fault.strerror}") from None


def old_crush(giving: Giving, path: str) -> str:
    """Keeps the CRUSH map of before in a file beside another, and tells its name. A Stop where it is not known."""
    data = giving.cluster.ask({"prefix": "osd getcrushmap"})
    try:
        is_known = crush_sum(Binary(data).dump()) == giving.before.crush
    except (ValueError, KeyError, IndexError, struct.error, MemoryError):
        is_known = False
    if not is_known:
        raise Stop("the CRUSH map of the cluster has a form that is not known here: nothing is given")
    name = f"{path}.before-{giving.before.dump['epoch']}"
    kept(name, data)
    return name


def hold_in(files: List[str]) -> Tuple[Script, List[str]]:
    """The hold of the last files, of as many as it has parts, and the files before them. A Stop where it is none."""
    path, text = files[-1], text_in(files[-1])
    try:
        parts = [part_in(text)]
        for own in reversed(files[-parts[0][2] : -1]):
            with contextlib.suppress(Stop):
                parts.insert(0, part_in(text_in(own)))
        return joined(parts), files[: -len(parts)]
    except Stop as fault:
        raise Stop(f"{path}: {fault}") from None


def check_moving(script: Script, path: str, moves: Optional[int]) -> None:
    """A Stop where other groups move by a hold than it was said: those that are not chosen, or cannot be held. Behind a
    change that is made already those that it tells of only go back.
    """
    count = len(script.goes) if script.then != "-" else 0
    if script.is_hold and count != (moves or 0):
        told = (
            f"{count} groups move by it, as it does not hold them ({some(script.goes)})" if count else "no group moves"
        )
        raise Stop(f"{path}: {told}: " + (f"--moves {count} gives it all the same" if count else "leave --moves out"))


class Job(NamedTuple):
    """What is given: a script, the CRUSH map with it, if there is one, and the file of that."""

    script: Script
    crush: Optional[bytes]
    crush_files: List[str]


def job_in(files: List[str], moves: Optional[int]) -> Job:
    """What files are to give. A Stop where that is nothing whole, and where other groups move by a hold than it was
    said.
    """
    script, crush_files = hold_in(files)
    path = files[-1]
    if script.then == "command":
        raise Stop(f"{path}: commands make its change: sh {path} COMMAND of the change")
    if len(crush_files) > 1 or script.is_hold and not crush_files and script.then != "-":
        raise Stop(f"{path}: give the compiled CRUSH map before it, and nothing else")
    check_moving(script, path, moves)
    return Job(script, crush_in(crush_files[0], script) if crush_files else None, crush_files)


def check_alone(cluster: ConnectedCluster) -> None:
    """A Stop where another giver of these tools is at work, by the claim that it has put into the cluster. A keyring
    that may not ask for that sees none.
    """
    claims = {}  # type: Json
    with contextlib.suppress(Stop):
        claims = cluster.json("config-key dump", key=CLAIMS)
    for own in map(json.loads, claims.values()):
        if own["until"] >= time.time():
            raise Stop(f"another giver is at work: process {own['process']} of {own['host']}, since {own['start']}")


def given(conf: str, files: List[str], seconds: float, moves: Optional[int] = None) -> str:
    """Gives a script, and a CRUSH map with it, and tells in a line what stands. A Stop where not all does, and where
    more groups move by a hold than it was said.
    """
    job, rados = job_in(files, moves), connected(conf)
    try:
        cluster = ConnectedCluster(rados)
        check_alone(cluster)
        return given_to(cluster, job, seconds)
    finally:
        rados.shutdown()


def given_to(cluster: ConnectedCluster, job: Job, seconds: float) -> str:
    """Gives a job to a cluster, and tells in a line what stands. A Stop where not all does."""
    with ThreadPoolExecutor(ASKING) as threads:
        giving = Giving(cluster, job.script, job.crush, threads)
        give_and_end(giving, job.crush_files, seconds)
    script = job.script
    what = "the CRUSH map and " if job.crush is not None else ""
    told = "all groups are where they were" if not script.goes else "all groups are where it was foretold"
    told = told if giving.is_foretold else "all exceptions stand"
    made = f"{giving.made} map{'s' * (giving.made != 1)}"
    again = f", {len(giving.again)} given once more" if giving.again else ""
    return "; ".join([f"{what}{len(script.commands)} commands in {made}, none refused{again}", told, *giving.notes])


def why_not(giving: Giving, seconds: float) -> str:
    """Gives all within one map: why it was not all given, or nothing where it was."""
    try:
        giving.in_one_map(seconds)
    except Stop as fault:
        return str(fault)
    except BaseException as fault:  # A signal, or what nobody has foreseen: how the cluster stands is told first.
        return repr(fault) if isinstance(fault, Exception) else INTERRUPTED
    return ""


def give_and_end(giving: Giving, crush_files: List[str], seconds: float) -> None:
    """Gives all, and looks at what stands. A Stop with one line where not all does."""
    old = "".join(old_crush(giving, path) for path in crush_files)
    why = why_not(giving, seconds)
    try:
        found = giving.end(bool(why))
    except Stop as fault:
        flag = f"; {FLAG} is left set" if giving.is_flagged else ""
        raise Stop(f"{why and why + '; '}how the cluster stands is not known: {fault}{flag}") from None
    if old and found.is_over:
        os.remove(old)
    if found.is_done and why in ("", INTERRUPTED):
        giving.notes += ["a signal came meanwhile"] if why else []
        return
    told = "the cluster is as it was" if found.is_as_it_was else found.words()
    if not found.is_over:
        told += f"; {FLAG} is set; to take all back, make the script again with --undo and give it by this"
        told += f" with the CRUSH map {old}" if old else ""
    raise Stop("; ".join([why or "not all stands", told, *giving.notes]))


def main() -> int:
    """Gives what the command line names to the cluster of a configuration."""
    parser = argparse.ArgumentParser(usage=f"%(prog)s {OWN_USE}", description=__doc__)
    parser.formatter_class = argparse.RawDescriptionHelpFormatter
    add_words(parser)
    own = parser.parse_args()
    try:
        take_signals()
        print(given(own.conf, own.files, own.seconds, own.moves))
    except Stop as fault:
        print(fault, file=sys.stderr)
        return 1
    except Ended:
        print("interrupted; nothing was given", file=sys.stderr)
        return 1
    return 0


if __name__ == "__main__":
    sys.exit(main())
