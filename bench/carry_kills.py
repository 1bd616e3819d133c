"""`rekhuso carry` in a live cluster of Ceph's daemons while it, its program, the manager and the monitor are killed: a
part of `carried.py`.

In rounds: from an uneven start a plan is carried until all is quiet, and meanwhile one of the four is killed after the
other, by SIGKILL and at moments by chance, and begun again at once; then all pairs are taken away, and the next round
begins, until there were so many kills (30). Of the carriers some are killed amid the chunks of a plan, which are made
small here, and some amid commands; a program is killed while it is at work. At the end of a round the cluster must have
the pairs that a dry run has foretold. By the monitors' own audit no command may have been taken twice. What is
misplaced is looked at all the time: objects of groups that are not where their pairs send them. `tests/carry.py` runs
it with few kills, and with 30 where LONG is set.
"""

from __future__ import annotations

import contextlib
import json
import os
import pathlib
import random
import re
import signal
import subprocess
import time
from collections import Counter
from collections.abc import Callable, Iterator
from dataclasses import dataclass, field
from typing import Any

from carried import TOP, Loaded, Looker, pairs_in
from running import heading, table

from tests.live_cluster import LiveCluster, system_python

KILLS, SEED = 30, 5
# At most so many kills has a round.
A_ROUND = 8
# At most this share of all objects may be misplaced; so many objects has a group; so many characters a chunk of a plan.
MOST, OBJECTS, CHUNK = 0.03, 40, 60
POOLS = {"vm": 64, "files": 32}
# For how many seconds a round may go on behind its last kill: a giver that was killed has its lock for two minutes; and
# how long a moment is waited for. The longest time between two kills.
LIMIT, SOON, BETWEEN = 420.0, 30.0, 5.0
KINDS = ("carrier", "program", "manager", "monitor")
# Which share of the kills of a carrier come amid commands, where they come amid no chunks.
AMID_COMMANDS = 0.7
# What is killed amid the chunks of a plan.
AMID_CHUNKS = {"carrier", "monitor"}
# A carrier whose plans are kept in many chunks.
RUNNER = """
import sys
sys.path.insert(0, sys.argv.pop(1))
from rekhuso.carry import kept
from rekhuso.command_line import main
kept.CHUNK = int(sys.argv.pop(1))
sys.exit(main())
"""
COLUMNS = ["round", "kills", "crashed", "amid chunks", "amid commands", "foretold", "given", "sent again", "twice"]
COLUMNS += ["most misplaced, %", "seconds", "it ends"]
TOLD = re.compile(r"ceph osd (pg-upmap-items [0-9a-f. ]+): 0 ")
AUDIT = re.compile(
    r"""from='(?P<who>[^']*)' .*cmd='\[(?P<what>\{"prefix": "osd (?:rm-)?pg-upmap-items".*\})\]': finished"""
)


@dataclass
class Round:
    """What came of a round: what was killed; how often a carrier crashed by itself; how many kills came amid chunks and
    amid commands; how many commands were foretold, given, sent again by librados and given twice; how much was
    misplaced at most; for how many seconds it went on; and what is amiss."""

    kills: Counter[str] = field(default_factory=Counter)
    crashed: int = 0
    chunks: int = 0
    amid: int = 0
    foretold: int = 0
    given: int = 0
    resent: int = 0
    twice: list[str] = field(default_factory=list)
    most: float = 0.0
    seconds: float = 0.0
    amiss: list[str] = field(default_factory=list)

    def cells(self) -> list[Any]:
        """The cells of its row."""
        kills = ", ".join(f"{count} {kind}" for kind, count in sorted(self.kills.items()))
        own = [
            kills,
            self.crashed,
            self.chunks,
            self.amid,
            self.foretold,
            self.given,
            self.resent,
            len(self.twice),
            f"{100 * self.most:.1f}",
        ]
        return [*own, f"{self.seconds:.0f}", "; ".join(self.amiss) or "as foretold"]


class Killing(Loaded):
    """A cluster in which a plan is carried, and in which something is killed."""

    def __init__(self, cluster: LiveCluster, path: str, numbers: random.Random) -> None:
        """Takes a cluster with pools, which is clean."""
        super().__init__(cluster, {name: count * OBJECTS for name, count in POOLS.items()})
        self.path, self.numbers, self.log = path, numbers, cluster.folder / "carry.log"
        self.process: subprocess.Popen[bytes] | None = None

    def words(self, *more: object) -> list[str]:
        """The words of a carrier."""
        own = [system_python(), "-B", "-c", RUNNER, TOP / "tools", CHUNK, "carry", self.cluster.conf]
        own += ["--name", "client.admin", "--program", self.path]
        return [*map(str, own), *map(str, more)]

    def foretold(self) -> set[str]:
        """The commands that a dry run tells."""
        done = subprocess.run(
            self.words("--dry-run", "--osd-most", 999, "--most-misplaced", 1),
            capture_output=True,
            text=True,
            timeout=120,
            check=False,
        )
        if done.returncode != 10:
            raise ValueError(f"a dry run ends with {done.returncode}: {done.stderr[-400:]}")
        return {line.removeprefix("ceph osd ") for line in done.stdout.splitlines()}

    def begin(self) -> None:
        """Begins a carrier, which looks each second."""
        with self.log.open("ab") as log:
            words = self.words("--interval", 1, "--most-misplaced", MOST)
            self.process = subprocess.Popen(words, stdin=subprocess.DEVNULL, stdout=log, stderr=log)

    def end(self, number: int) -> None:
        """Ends the carrier by a signal."""
        if self.process is not None:
            self.process.send_signal(number)
            self.process.wait(120)

    def state(self) -> str:
        """The state of the carrier; nothing where it is not told."""
        with contextlib.suppress(ValueError, KeyError, TypeError, OSError):
            return str(self.asker.ask("config-key get", key="rekhuso/state")["state"])
        return ""

    def soon(self, is_so: Callable[[], bool]) -> bool:
        """Whether something is so within some seconds."""
        end = time.monotonic() + SOON
        while time.monotonic() < end:
            with contextlib.suppress(ValueError, OSError):
                if is_so():
                    return True
            time.sleep(0.01)
        return False

    # Moments

    def is_amid_chunks(self) -> bool:
        """Whether some chunks of a plan are there, and its head does not tell of them yet."""
        keys = self.asker.ask("config-key dump", key="rekhuso/plan")
        head = json.loads(keys.get("rekhuso/plan", "{}"))
        slots = {key.split(".")[1] for key in keys if key.count(".") == 2}
        return bool(slots - {head.get("slot")}) and len(keys) > 3

    def is_giving(self) -> bool:
        """Whether a carrier has the lock of those who give."""
        return bool(self.asker.ask("config-key dump", key="rekhuso/giver/"))

    def children(self) -> list[int]:
        """The programs that the carrier runs."""
        own = self.process.pid if self.process is not None else 0
        return [int(word) for word in pathlib.Path(f"/proc/{own}/task/{own}/children").read_text().split()]

    def kill(self, kind: str, found: Round) -> bool:
        """Kills something, and has it go on: whether it was there."""
        if kind == "program":
            if not self.soon(lambda: bool(self.children())):
                return False
            time.sleep(self.numbers.uniform(0, 0.1))
            for process in self.children():
                with contextlib.suppress(ProcessLookupError):
                    os.kill(process, signal.SIGKILL)
                    found.kills[kind] += 1
                    return True
            return False
        found.kills[kind] += 1
        if kind == "carrier":
            self.end(signal.SIGKILL)
            self.begin()
        else:
            self.cluster.kill({"manager": "mgr.x", "monitor": "mon.a"}[kind])
            self.cluster.start(*{"manager": ("mgr", "x"), "monitor": ("mon", "a")}[kind])
        return True

    def moment(self, kind: str, number: int, found: Round) -> None:
        """Waits for the moment of a kill: the first of a round, of the carrier or the monitor, comes amid chunks; of
        others of the carrier most come amid commands."""
        if number == 0 and kind in AMID_CHUNKS:
            found.chunks += self.soon(self.is_amid_chunks)
        elif kind == "carrier" and self.numbers.random() < AMID_COMMANDS:
            found.amid += self.soon(self.is_giving)
        else:
            time.sleep(self.numbers.uniform(0.2, BETWEEN))

    # Rounds

    def audit(self, begin: int) -> Iterator[tuple[str, str]]:
        """The commands on pairs that the monitors have taken, with who gave them, behind so many lines of their log. A
        monitor that was killed writes its last lines once more, with their times and their numbers.
        """
        lines = (self.cluster.folder / "cluster.log").read_text(errors="replace").splitlines()
        for line in dict.fromkeys(lines[begin:]):
            own = AUDIT.search(line)
            if own is not None:
                told = json.loads(own["what"])
                words = [told["prefix"].removeprefix("osd "), told["pgid"], *map(str, told.get("id", []))]
                yield " ".join(words), own["who"]

    def round(self, kinds: list[str]) -> Round:
        """One round, in which these are killed, as far as it goes."""
        found, begun = Round(), time.monotonic()
        self.reset()
        self.asker.reply("config-key rm", key="rekhuso/state")
        wanted = self.foretold()
        found.foretold = len(wanted)
        log = len((self.cluster.folder / "cluster.log").read_text(errors="replace").splitlines())
        said, looker = len(self.log.read_text()) if self.log.exists() else 0, Looker(self)
        looker.start()
        self.begin()
        # The first one comes amid chunks, as long as one is left that can.
        kinds.insert(0, kinds.pop(next((at for at, kind in enumerate(kinds) if kind in AMID_CHUNKS), 0)))
        at = 0
        try:
            while kinds and at < A_ROUND and (at == 0 or self.state() != "quiet"):
                self.moment(kinds[0], at, found)
                at += 1
                if self.kill(kinds[0], found):
                    kinds.pop(0)
                elif self.state() == "quiet":
                    break
                self.go_on(found)
            self.finish(found)
        finally:
            self.end(signal.SIGTERM)
            found.most = looker.end()
        self.judge(found, wanted, log, said)
        found.seconds = time.monotonic() - begun
        return found

    def go_on(self, found: Round) -> None:
        """Begins the carrier anew where it has ended by itself, as its unit does; it may have crashed in librados."""
        status = None if self.process is None else self.process.poll()
        if status is not None:
            found.crashed += status < 0
            found.amiss += [f"a carrier has ended with {status}"] if status >= 0 else []
            self.begin()

    def finish(self, found: Round) -> None:
        """Waits until all is quiet."""
        end = time.monotonic() + LIMIT
        while time.monotonic() < end:
            self.go_on(found)
            if self.state() == "quiet" and self.is_clean():
                return
            time.sleep(0.5)
        found.amiss.append(f"not quiet within {LIMIT:.0f} s: {self.log.read_text()[-300:]}")

    def judge(self, found: Round, wanted: set[str], log: int, said: int) -> None:
        """Says what is amiss at the end of a round, which began behind so many lines of the monitors' log and so many
        characters of that of carriers. A command was given twice that two carriers sent, or one of them told twice.
        librados sends a command once more by itself where its connection breaks before the answer.
        """
        pairs = pairs_in(self.asker.ask("osd dump"))
        has = {f"pg-upmap-items {pg} {' '.join(str(osd) for pair in own for osd in pair)}" for pg, own in pairs.items()}
        taken, most = Counter(self.audit(log)), found.most
        found.given, found.resent = len(taken), sum(count > 1 for count in taken.values())
        clients = Counter(line for line, _ in taken)
        told = Counter(TOLD.findall(self.log.read_text()[said:]))
        found.twice = [line for line in wanted if clients[line] > 1 or told[line] > 1]
        found.amiss += [f"other pairs than foretold: {sorted(has ^ wanted)[:4]}"] if has != wanted else []
        found.amiss += [f"given twice: {found.twice[:3]}"] if found.twice else []
        found.amiss += [f"{100 * most:.1f} % misplaced, and at most {100 * MOST:g} % may be"] if most > MOST else []


def killed(path: str, kills: int, seed: int) -> Iterator[Round]:
    """What comes of rounds with so many kills."""
    numbers = random.Random(seed)
    kinds = [KINDS[at % len(KINDS)] for at in range(kills)]
    numbers.shuffle(kinds)
    with LiveCluster() as cluster:
        cluster.pools(**POOLS)
        own = Killing(cluster, path, numbers)
        try:
            while kinds:
                yield own.round(kinds)
        finally:
            own.end(signal.SIGKILL)
            own.close()


def kills(path: str) -> None:
    """The table of kills."""
    heading(f"{KILLS} kills")
    table(COLUMNS, ([number, *own.cells()] for number, own in enumerate(killed(path, KILLS, SEED), 1)))
