"""Cuts of the power: the calls that the program makes on a store's file and on its log are noted (refuse_write.c),
and what a cut may leave of them is opened.

A cut comes behind any of the calls. What was synced is on the disk. Of what was written since, a cut leaves all,
nothing, the last call alone, or any sectors; and past the old end of a file any bytes. Each change that was
answered by then is in what is left, and at most one more; the map is that of `osdmapd`. Where the store is begun it
may be none yet, and is then begun. Under `--wary`, which syncs each change twice, a cut may also leave any bytes where
something was written since the last sync.
"""

from __future__ import annotations

import dataclasses
import pathlib
import random
import tempfile
from collections.abc import Iterator
from concurrent.futures import ThreadPoolExecutor

from tests.cases import EXAMPLE
from tests.runs import AT_ONCE
from tests.store_failures import Call, Talk, calls_in, change_at, refuser, with_long_log
from tests.stores import Done, StoreCase, log_of

SECTOR, CHANGES, AGAIN = 512, 8, 4
# So many changes are left as a store is opened again.
KEPT = 3
# So many of the cuts are tried while a long log is copied into its file.
TRIED = 100
# So many changes has a log that is cut, and behind or within so many of them it is cut. The first page of a file may be
# written while it claims its log.
IN_LOG, CUT, PAGE_ONE = 120, 6, 4096
WAYS = ("nothing", "all", "the last", "sectors", "other sectors", "garbage")
WARY = ("torn sectors", "other torn sectors")


@dataclasses.dataclass
class Kept:
    """A file: what is on the disk for sure, and the calls since."""

    synced: bytes = b""
    since: list[Call] = dataclasses.field(default_factory=list)

    def take(self, call: Call) -> None:
        """Takes a call in."""
        if call.kind == "s":
            self.synced, self.since = self.left("all", random.Random(0)), []
        else:
            self.since.append(call)

    def left(self, way: str, rng: random.Random) -> bytes:
        """What a cut leaves."""
        content, calls = bytearray(self.synced), self.since
        if way == "nothing":
            return self.synced
        for call in calls[-1:] if way == "the last" else calls:
            if call.kind == "c":
                if way == "all" or rng.random() < 0.5:
                    del content[call.at :]
                    content.extend(bytes(call.at - len(content)))
                continue
            for at in range(0, len(call.data), SECTOR):
                if "sectors" not in way or rng.random() < 0.5:
                    sector = call.data[at : at + SECTOR]
                    is_torn = "torn" in way and rng.random() < 0.5
                    put(content, call.at + at, rng.randbytes(len(sector)) if is_torn else sector)
        if way == "garbage" and len(content) > len(self.synced):
            content[len(self.synced) :] = rng.randbytes(len(content) - len(self.synced))
        return bytes(content)


def put(content: bytearray, at: int, data: bytes) -> None:
    """Writes bytes at a place, behind zeros where that is past the end."""
    content.extend(bytes(max(0, at - len(content))))
    content[at : at + len(data)] = data


@dataclasses.dataclass(frozen=True)
class Cut:
    """What a cut leaves: the two files, and how many changes were answered before; None where nothing was told."""

    name: str
    file: bytes
    log: bytes
    answered: int | None


def syncs_of(calls: list[Call]) -> int:
    """How many of some calls sync a file."""
    return sum(call.kind == "s" for call in calls)


def commits_in(log: bytes) -> list[int]:
    """Where each commit of a log ends, by SQLite's form of one: a header of 32 bytes, and frames, each with the page
    that it has, how many pages the file has behind a commit (else 0), and the salts of the header."""
    size, salts, found = int.from_bytes(log[8:12], "big"), log[16:24], list[int]()
    for at in range(32, len(log) - size - 23, 24 + size):
        if log[at + 8 : at + 16] != salts:
            break
        if any(log[at + 4 : at + 8]):
            found.append(at + 24 + size)
    return found


class StoreCuts(StoreCase):
    """What is left when the power is cut."""

    is_alone = True
    own: tuple[str, ...] = ()

    def noted(self, words: list[object], first: int, count: int) -> tuple[list[Call], list[int]]:
        """The calls of a run that makes changes from an epoch on, and how many calls were made when the epoch was told
        and when each change was answered."""
        path = self.folder / "noted"
        path.unlink(missing_ok=True)
        given = {"LD_PRELOAD": str(refuser(self.folder)), "REFUSE_PATH": str(self.store), "NOTED": str(path)}
        talk, ends = Talk(words, given), list[int]()
        for epoch in range(first, first + count):
            ends.append(len([*calls_in(path.read_bytes())]))
            self.assertStarts(talk.ask(change_at(epoch)) or "", "ok ")
            talk.ask("up 1.0")
        ends.append(len([*calls_in(path.read_bytes())]))
        self.assertEqual(talk.end().done, Done(0, "", ""))
        return [*calls_in(path.read_bytes())], ends

    def cuts(self, calls: list[Call], ends: list[int], before: dict[str, bytes], made: int) -> Iterator[Cut]:
        """What cuts behind each of the calls leave of the files that were there before."""
        files = {name: Kept(before.get(name, b"")) for name in (self.store.name, log_of(self.store).name)}
        for number in range(len(calls) + 1):
            answered = sum(end <= number for end in ends) - 1
            seen = set[tuple[bytes, bytes]]()
            for way in WAYS + WARY * ("--wary" in self.own):
                rng = random.Random(f"{number}, {way}")
                file, log = [kept.left(way, rng) for kept in files.values()]
                if (file, log) not in seen:
                    seen.add((file, log))
                    is_told = made > 0 or answered >= 0
                    yield Cut(f"call {number}, {way}", file, log, made + max(answered, 0) if is_told else None)
            if number < len(calls) and calls[number].name in files:
                files[calls[number].name].take(calls[number])

    def fault(self, cut: Cut) -> str | None:
        """What is wrong with opening what a cut has left, or None."""
        with tempfile.TemporaryDirectory(dir=self.folder) as name:
            store = pathlib.Path(name) / "store"
            store.write_bytes(cut.file)
            # A log of which nothing is on the disk may have lost its name.
            if cut.log:
                log_of(store).write_bytes(cut.log)
            done = self.ran(*self.own, store, "-", text="dump\n")
            if cut.answered is None and done.status == 5:
                done = self.ran(*self.own, "--begin", EXAMPLE, store, "-", text="dump\n")
            answered = cut.answered or 0
            wanted = [self.opened.get(count) for count in range(answered, answered + 1 + (cut.answered is not None))]
            return None if done in wanted else f"{answered} changes were answered: {str(done)[:400]}"

    def judge(self, cuts: list[Cut]) -> None:
        """Asks that what each cut leaves is opened as it should."""
        with ThreadPoolExecutor(AT_ONCE) as pool:
            for cut, fault in zip(cuts, pool.map(self.fault, cuts)):
                with self.subTest(cut.name):
                    self.assertIsNone(fault)

    def files(self) -> dict[str, bytes]:
        """The store's file and its log."""
        return {path.name: path.read_bytes() for path in (self.store, log_of(self.store))}

    def know(self, lines: list[str]) -> None:
        """Takes in what opening tells behind each of some lines."""
        self.opened = {}
        for count in range(max(0, len(lines) - CHANGES - AGAIN), len(lines) + 1):
            dump = self.played(EXAMPLE, lines[:count])[-1]
            self.opened[count] = Done(0, f"epoch {count + 1}\nsession 1\ndump {dump}\n", "")

    def test_cuts(self) -> None:
        """The power is cut while a store is begun and changed, and while it is opened again, which leaves some changes,
        and changed. Each change has one sync."""
        self.assertEqual(self.cut_twice(), 1)

    def test_wary(self) -> None:
        """The same under `--wary`, where each change has two."""
        self.own = ("--wary",)
        self.assertEqual(self.cut_twice(), 2)

    def cut_twice(self) -> int:
        """Cuts the power in two runs over one store: how many syncs each change of the first has."""
        self.know([change_at(epoch) for epoch in range(1, 1 + CHANGES + AGAIN)])
        calls, ends = self.noted([self.command, *self.own, "--begin", EXAMPLE, self.store, "-"], 1, CHANGES)
        self.judge([*self.cuts(calls, ends, {}, 0)])
        # The first change also syncs the beginning of the log.
        before, (syncs,) = self.files(), {syncs_of(calls[one:other]) for one, other in zip(ends[1:], ends[2:])}
        calls, ends = self.noted([self.command, *self.own, "--keep", KEPT, self.store, "-"], 1 + CHANGES, AGAIN)
        self.judge([*self.cuts(calls, ends, before, CHANGES)])
        self.assertGreater(len(calls), 10)
        return syncs

    def test_long_log(self) -> None:
        """The power is cut while a store is opened whose log is copied into its file, and while it is changed."""
        lines = with_long_log(self)
        made = len(lines)
        self.know(lines + [change_at(epoch) for epoch in range(1 + made, 1 + made + AGAIN)])
        before = self.files()
        calls, ends = self.noted([self.command, "--keep", KEPT, self.store, "-"], 1 + made, AGAIN)
        cuts = [*self.cuts(calls, ends, before, made)]
        self.assertIn((self.store.name, "w"), {(call.name, call.kind) for call in calls}, "the log was not copied")
        self.judge(random.Random(3).sample(cuts, min(TRIED, len(cuts))))

    def test_cut_log(self) -> None:
        """A long log whose program was killed, none of which is in the file yet, is cut anywhere: what is left has each
        change whose last frame is whole, and none behind it"""
        talk = Talk([self.command, "--begin", EXAMPLE, self.store, "-"], {})
        before = self.store.read_bytes()
        for epoch in range(1, 1 + IN_LOG):
            self.assertEqual(talk.ask(change_at(epoch)), f"ok {1 + epoch} evals 1")
        talk.process.kill()
        talk.end()
        data, log = self.store.read_bytes(), log_of(self.store).read_bytes()
        self.assertEqual(data[PAGE_ONE:], before[PAGE_ONE:], "the log was copied")
        ends = commits_in(log)
        others = len(ends) - IN_LOG
        self.assertIn(others, range(3))
        for at in sorted({0, 1, len(ends) - 1, *random.Random(5).sample(range(len(ends)), CUT)}):
            for length, whole in ((ends[at], at + 1), (ends[at] - 1, at)):
                with self.subTest(commit=at, length=length):
                    log_of(self.store).write_bytes(log[:length])
                    self.store.write_bytes(data)
                    self.assertEqual(self.ran(self.store), Done(0, f"epoch {1 + max(0, whole - others)}\n", ""))
