#!/usr/bin/env python3
"""`rekhuso carry` beside Ceph's own balancer, each from the same start, in live clusters of Ceph's daemons that keep
their data in memory.

    carried.py PROGRAM [looks|starts|kills..] [SEED..]

*Starts*: a cluster has four hosts, and its weights, pools, groups and objects are drawn by a seed (STARTS, if none is
given). First Ceph's balancer works, with a deviation of 5 groups (its default) and then of 1, until it finds nothing
more; then `rekhuso carry` until it is quiet. Before each all pairs are taken away, and all data comes back. Sets are
told by the manager at the start, and behind it reckoned by the pairs of each epoch; at the end the manager must tell
the same.

*Commands* are groups whose pairs change at an epoch, *places* and *objects* those that another OSD gets, by each epoch,
*deviation* is the standard deviation of groups over OSDs from what weight gives, *fullest* the greatest ratio to that.
*Till as even* is how many objects `carry` had moved once its deviation was no more than the balancer's at 1. Each wait
has a limit, behind which a row says so. *Most misplaced* is the share of all objects whose groups are not where their
pairs send them. What a look costs stands in `carry_looks.py`, and kills in `carry_kills.py`. Starts and kills need
ceph-mon, ceph-mgr, ceph-osd and python3-rados. It is no part of the gate.
"""

from __future__ import annotations

import contextlib
import json
import pathlib
import random
import statistics
import subprocess
import sys
import threading
import time
from collections import Counter
from collections.abc import Callable, Mapping, Sequence
from concurrent.futures import ThreadPoolExecutor
from dataclasses import dataclass, field
from typing import Any

from running import heading, program, table

TOP = pathlib.Path(__file__).resolve().parent.parent
sys.path[:0] = [str(TOP), str(TOP / "tools")]

from tests.live_cluster import LiveCluster, has_daemons, system_python  # noqa: E402

STARTS = (1, 2, 3, 4, 5)
# For how many seconds one way may be at work; how often Ceph's balancer looks, and how often a carrier, in seconds.
LIMIT, INTERVAL, OFTEN = 240.0, 5, 2
# For how many seconds an OSD sleeps between two objects that come, and how many clusters are at work side by side.
RECOVERY_SLEEP, JOBS = 0.02, 2
KIND_WEIGHTS = (1.0, 1.0, 1.0, 1.5, 2.0)
COLUMNS = ["cluster", "by", "commands", "places", "objects", "deviation", "fullest", "most misplaced, %", "seconds"]
COLUMNS += ["till as even"]
# Answers commands by librados, one line of JSON each; first it puts objects into pools.
WORKER = """
import json, rados, sys
own = rados.Rados(conffile=sys.argv[1], name="client.admin")
own.connect(timeout=60)
for pool, count in json.loads(sys.argv[2]).items():
    with own.open_ioctx(pool) as place:
        for begin in range(0, count, 64):
            several = [place.aio_write_full("o%d" % at, b"x" * 4096) for at in range(begin, min(count, begin + 64))]
            for one in several:
                one.wait_for_complete()
for line in sys.stdin:
    asked = json.loads(line)
    call = own.mgr_command if asked.pop("to_manager", False) else own.mon_command
    try:
        status, output, words = call(json.dumps(dict(asked, format="json")), b"", timeout=60)
    except rados.Error as fault:
        status, output, words = -110, b"", str(fault)
    print(json.dumps([status, output.decode("utf-8", "replace"), words]), flush=True)
"""
Sets = Mapping[str, Sequence[int]]
Pairs = Mapping[str, Sequence[Sequence[int]]]


@dataclass(frozen=True)
class Start:
    """What a cluster is drawn to be: OSDs of a host, weights, and pools by their names, each with its groups, its size
    (0 for an erasure pool of 2 and 1) and its objects."""

    seed: int
    disks: int
    weights: list[float]
    pools: dict[str, tuple[int, int, int]]


def drawn(seed: int) -> Start:
    """A start by a seed."""
    numbers = random.Random(seed)
    disks = numbers.choice((2, 3))
    weights = [numbers.choice(KIND_WEIGHTS) for _ in range(4 * disks)]
    pools = {
        name: (numbers.choice((16, 32, 64)), size, numbers.randrange(200, 1600))
        for name, size in (("vm", 3), ("files", numbers.choice((2, 3))), ("cold", 0), ("small", 3))[
            : numbers.choice((3, 4))
        ]
    }
    return Start(seed, disks, weights, pools)


class Asker:
    """Asks a cluster by librados, in a process of the system's Python."""

    def __init__(self, cluster: LiveCluster, objects: Mapping[str, int]) -> None:
        self.lock, self.cluster = threading.Lock(), cluster
        self.process = self.begun(objects)

    def begun(self, objects: Mapping[str, int]) -> subprocess.Popen[str]:
        """The process, which first puts objects into pools."""
        words = [str(system_python()), "-c", WORKER, str(self.cluster.conf), json.dumps(objects)]
        return subprocess.Popen(words, stdin=subprocess.PIPE, stdout=subprocess.PIPE, text=True)

    def ask(self, prefix: str, to_manager: bool = False, **words: object) -> Any:
        """What is answered, as JSON where it is; a failure where it is refused."""
        status, output, told = self.reply(prefix, to_manager, **words)
        if status:
            raise ValueError(f"{prefix}: {told} (status {status})")
        with contextlib.suppress(ValueError):
            return json.loads(output)
        return output

    def reply(self, prefix: str, to_manager: bool = False, **words: object) -> tuple[int, str, str]:
        """The status, the answer and the words."""
        with self.lock:
            if self.process.poll() is not None:  # librados may crash as a monitor is killed.
                self.process = self.begun({})
            assert self.process.stdin and self.process.stdout
            asked: dict[str, object] = {"prefix": prefix, **words, **({"to_manager": True} if to_manager else {})}
            self.process.stdin.write(json.dumps(asked) + "\n")
            self.process.stdin.flush()
            status, output, told = json.loads(self.process.stdout.readline())
        return int(status), str(output), str(told)

    def close(self) -> None:
        """Ends it."""
        self.process.kill()
        self.process.communicate()


def pairs_in(dump: Any) -> dict[str, list[list[int]]]:
    """The pairs of each group."""
    return {own["pgid"]: [[pair["from"], pair["to"]] for pair in own["mappings"]] for own in dump["pg_upmap_items"]}


def with_pairs(base: Sets, pairs: Pairs) -> dict[str, list[int]]:
    """Sets with their pairs, as Ceph takes them: one after the other, where its first OSD is there and its second is
    not."""
    found = {group: list(osds) for group, osds in base.items()}
    for group, own in pairs.items():
        for before, after in own:
            osds = found[group]
            if before in osds and after not in osds:
                osds[osds.index(before)] = after
    return found


@dataclass
class Course:
    """What came of one way: how much it has done, how even the cluster was behind each epoch, and why it ended."""

    commands: int = 0
    places: int = 0
    objects: int = 0
    evens: list[tuple[int, float]] = field(default_factory=list)
    most: float = 0.0
    seconds: float = 0.0
    fullest: float = 0.0
    why: str = ""

    @property
    def deviation(self) -> float:
        """How even the cluster is at the end."""
        return self.evens[-1][1]

    def till(self, deviation: float) -> int | str:
        """How many objects had moved once the cluster was as even as that."""
        return next((objects for objects, own in self.evens if own <= deviation + 1e-9), "never")

    def cells(self) -> list[Any]:
        """The cells of a row."""
        most = f"{100 * self.most:.1f}"
        end = f"{self.seconds:.0f}{' (' + self.why + ')' if self.why else ''}"
        found = [self.commands, self.places, self.objects, f"{self.deviation:.2f}", f"{self.fullest:.3f}"]
        return [*found, most, end]


class Loaded:
    """A live cluster with objects: where its groups are without pairs, and how many objects each has."""

    def __init__(self, cluster: LiveCluster, objects: Mapping[str, int]) -> None:
        """Takes a cluster that is clean, and puts objects into its pools."""
        self.cluster, self.asker = cluster, Asker(cluster, objects)
        cluster.ceph("config", "set", "osd", "osd_recovery_sleep_hdd", RECOVERY_SLEEP)
        # The manager tells late what groups hold.
        wanted = sum(objects.values())
        cluster.until(lambda: sum(self.told().values()) >= wanted and self.is_clean(), "all is told")
        self.base = {own["pgid"]: list(own["up"]) for own in self.groups()}
        self.objects = self.told()

    def groups(self) -> list[Any]:
        """What the manager tells of all groups."""
        found = self.asker.ask("pg dump", True, dumpcontents=["pgs"])
        return list(found.get("pg_map", found)["pg_stats"])

    def told(self) -> dict[str, int]:
        """How many objects the manager tells of each group."""
        return {own["pgid"]: int(own["stat_sum"]["num_objects"]) for own in self.groups()}

    def is_clean(self) -> bool:
        """Whether all groups are clean, and nothing is misplaced."""
        own = self.asker.ask("status")["pgmap"]
        states = [state["state_name"] for state in own.get("pgs_by_state", [])]
        return states == ["active+clean"] and not own.get("misplaced_objects")

    def reset(self) -> int:
        """Takes all pairs away, and waits until all data is back: the epoch."""
        for group in pairs_in(self.asker.ask("osd dump")):
            self.asker.ask("osd rm-pg-upmap-items", pgid=group)
        is_back: Callable[[], bool] = lambda: {own["pgid"]: own["up"] for own in self.groups()} == self.base
        self.cluster.until(lambda: is_back() and self.is_clean(), "all data is back")
        return int(self.asker.ask("osd dump")["epoch"])

    def close(self) -> None:
        """Ends what asks."""
        self.asker.close()


class Looker(threading.Thread):
    """Looks all the time which share of all objects is misplaced: those of groups that are not where their pairs send
    them, whole as long as one place is under way."""

    def __init__(self, own: Loaded) -> None:
        super().__init__(daemon=True)
        self.own, self.asker, self.most, self.ended = own, Asker(own.cluster, {}), 0.0, threading.Event()
        self.whole = sum(own.objects[group] * len(osds) for group, osds in own.base.items())

    def run(self) -> None:
        """Looks until it is ended. While monitor or manager are away nothing is told."""
        while not self.ended.wait(0.2):
            with contextlib.suppress(ValueError, KeyError, TypeError, OSError):
                self.look()

    def look(self) -> None:
        """Looks once: first for pairs, and then where data is, so that nothing counts that has arrived meanwhile."""
        wanted = with_pairs(self.own.base, pairs_in(self.asker.ask("osd dump")))
        told = self.asker.ask("pg dump", True, dumpcontents=["pgs"])
        acting = {own["pgid"]: own["acting"] for own in told.get("pg_map", told)["pg_stats"] if own["acting"]}
        away = {group: len({*osds} - {*acting[group]}) for group, osds in wanted.items() if group in acting}
        self.most = max(self.most, sum(self.own.objects[group] * count for group, count in away.items()) / self.whole)

    def end(self) -> float:
        """Ends it: the most that it has seen."""
        self.ended.set()
        self.join(90)
        self.asker.close()
        return self.most


def with_pools(start: Start, cluster: LiveCluster) -> LiveCluster:
    """A cluster with the weights and the pools of a start, once it is clean."""
    for osd, weight in enumerate(start.weights):
        cluster.ceph("osd", "crush", "reweight", f"osd.{osd}", weight)
    cluster.ceph("osd", "erasure-code-profile", "set", "k2m1", "k=2", "m=1", "crush-failure-domain=host")
    for name, (groups, size, _) in start.pools.items():
        kind = ["replicated"] if size else ["erasure", "k2m1"]
        cluster.ceph("osd", "pool", "create", name, groups, groups, *kind)
        if size:
            cluster.ceph("osd", "pool", "set", name, "size", size)
        cluster.ceph("osd", "pool", "application", "enable", name, "x")
    cluster.until(cluster.is_clean, "all groups are clean")
    return cluster


class Trial(Loaded):
    """A cluster in which several ways work, one after the other."""

    def __init__(self, start: Start, cluster: LiveCluster, path: str) -> None:
        super().__init__(with_pools(start, cluster), {name: count for name, (_, _, count) in start.pools.items()})
        self.path = path
        tree = self.asker.ask("osd crush tree")["nodes"]
        self.weights = {own["id"]: float(own["crush_weight"]) for own in tree if own["id"] >= 0}

    def even(self, sets: Sets) -> tuple[float, float]:
        """The deviation of groups over OSDs, and the fullest."""
        count = Counter(osd for osds in sets.values() for osd in osds)
        whole, weight = sum(count.values()), sum(self.weights.values())
        shares = {osd: whole * own / weight for osd, own in self.weights.items()}
        ratios = [count[osd] / share for osd, share in shares.items()]
        return statistics.pstdev(count[osd] - share for osd, share in shares.items()), max(ratios)

    def until(self, is_over: Callable[[], bool]) -> str:
        """Waits until something is over, and all is clean: why it is not, where it takes too long."""
        end = time.monotonic() + LIMIT
        while time.monotonic() < end:
            if is_over() and self.is_clean():
                return ""
            time.sleep(0.3)
        return f"past {LIMIT:.0f} s"

    def course(self, first: int) -> Course:
        """What has come about since an epoch."""
        last, found, before = int(self.asker.ask("osd dump")["epoch"]), Course(), dict[str, list[list[int]]]()
        sets = self.base
        found.evens.append((0, self.even(sets)[0]))
        for epoch in range(first + 1, last + 1):
            pairs = pairs_in(self.asker.ask("osd dump", epoch=epoch))
            now = with_pairs(self.base, pairs)
            come = {group: len({*osds} - {*sets[group]}) for group, osds in now.items()}
            found.commands += sum(pairs.get(group) != before.get(group) for group in pairs.keys() | before.keys())
            found.places += sum(come.values())
            found.objects += sum(count * self.objects[group] for group, count in come.items())
            found.evens.append((found.objects, self.even(now)[0]))
            sets, before = now, pairs
        told = {own["pgid"]: own["up"] for own in self.groups()}
        unlike = [group for group, osds in sets.items() if osds != told[group]]
        found.why = f"{len(unlike)} sets unlike the manager's" if unlike else ""
        found.fullest = self.even(sets)[1]
        return found

    def run(self, begins: Callable[[], object], is_over: Callable[[], bool], ends: Callable[[], object]) -> Course:
        """What comes of one way."""
        first, looker, begun = self.reset(), Looker(self), time.monotonic()
        looker.start()
        try:
            begins()
            why = self.until(is_over)
            seconds = time.monotonic() - begun
            ends()
        finally:
            most = looker.end()
        found = self.course(first)
        found.most, found.seconds, found.why = most, seconds, why or found.why
        return found

    def balancer(self, deviation: int) -> Course:
        """What comes of Ceph's own balancer."""
        last = self.asker.ask("balancer status", True)["last_optimize_started"]

        def begins() -> None:
            """Turns it on."""
            for name, value in (("sleep_interval", INTERVAL), ("upmap_max_deviation", deviation)):
                self.asker.ask("config set", who="mgr", name=f"mgr/balancer/{name}", value=str(value))
            self.asker.ask("balancer mode", True, mode="upmap")
            self.asker.ask("balancer on", True)

        looks = set[str]()

        def is_over() -> bool:
            """Whether it has looked twice and found nothing, as all was clean. It passes over groups that are not."""
            own = self.asker.ask("balancer status", True)
            if not own["optimize_result"].startswith("Unable to find") or not self.is_clean():
                looks.clear()
            elif own["last_optimize_started"] != last:
                looks.add(own["last_optimize_started"])
            return len(looks) > 1

        return self.run(begins, is_over, lambda: self.asker.ask("balancer off", True))

    def carry(self) -> Course:
        """What comes of `rekhuso carry`."""
        log = pathlib.Path(self.cluster.folder, "carry.log").open("wb")
        own: list[subprocess.Popen[bytes]] = []

        def begins() -> None:
            """Starts it."""
            words: list[object] = [system_python(), "-B", TOP / "tools" / "rekhuso", "carry", self.cluster.conf]
            words += ["--name", "client.admin", "--program", self.path, "--interval", OFTEN]
            own.append(subprocess.Popen(list(map(str, words)), stdin=subprocess.DEVNULL, stdout=log, stderr=log))

        def is_over() -> bool:
            """Whether it is quiet."""
            status, text, _ = self.asker.reply("config-key get", key="rekhuso/state")
            if own[0].poll() is not None:
                raise ValueError(pathlib.Path(log.name).read_text()[-600:])
            return not status and json.loads(text)["state"] == "quiet"

        def ends() -> None:
            """Ends it."""
            own[0].terminate()
            own[0].wait(60)

        try:
            return self.run(begins, is_over, ends)
        finally:
            for process in own:
                process.kill()
                process.wait()
            log.close()


def rows_of(start: Start, path: str) -> list[list[Any]]:
    """The rows of a cluster."""
    with LiveCluster(disks=start.disks) as cluster:
        trial = Trial(start, cluster, path)
        try:
            groups, objects = len(trial.base), sum(trial.objects.values())
            name = f"{start.seed}: {len(trial.weights)} OSDs, {groups} groups, {objects:,} objects"
            deviation, fullest = trial.even(trial.base)
            at_five, at_one, own = trial.balancer(5), trial.balancer(1), trial.carry()
            return [
                [name, "start", "", "", "", f"{deviation:.2f}", f"{fullest:.3f}"],
                [name, "Ceph's balancer, 5", *at_five.cells()],
                [name, "Ceph's balancer, 1", *at_one.cells()],
                [name, "`carry`", *own.cells(), own.till(at_one.deviation)],
            ]
        finally:
            trial.close()


def starts(path: str, seeds: Sequence[int]) -> None:
    """The table of the same starts."""
    heading("From the same start")
    with ThreadPoolExecutor(JOBS) as threads:
        found = threads.map(lambda seed: rows_of(drawn(seed), path), seeds)
        table(COLUMNS, (row for rows in found for row in rows))


def main() -> None:
    path, given = program(__doc__), sys.argv[2:] or ["looks", "starts", "kills"]
    if "looks" in given:
        import carry_looks

        carry_looks.looks(path)
    if not has_daemons() or system_python() is None:
        sys.exit("no live cluster: Debian has ceph-mon, ceph-mgr, ceph-osd, ceph-common and python3-rados")
    if "starts" in given:
        starts(path, [int(word) for word in given if word.isdigit()] or STARTS)
    if "kills" in given:
        import carry_kills

        carry_kills.kills(path)


if __name__ == "__main__":
    main()
