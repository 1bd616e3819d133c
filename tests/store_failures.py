"""A store whose disk fails: each call that writes, cuts or syncs refused in turn (refuse_write.c), a full disk, and a
limit on the size of files.

What was answered `ok` is in the store afterwards; from the first change that was not taken on each is answered 35, and
look-ups go on; the run tells why in one line, and ends with status 6; and no run ends by a signal.
"""

from __future__ import annotations

import contextlib
import dataclasses
import errno
import os
import pathlib
import resource
import shutil
import signal
import subprocess
import tempfile
import unittest
from collections.abc import Callable, Iterator, Mapping
from typing import Optional

from tests.cases import EXAMPLE, HERE
from tests.live_sessions import Lines, limited
from tests.refused_memory import grown
from tests.stores import SECONDS, Done, StoreCase, copied, held

# The errors by their numbers, and the ways in which calls are refused.
ERRORS = {"EIO": "5", "ENOSPC": "28"}
WAYS: dict[str, tuple[str, ...]] = {
    "once": (),
    "from then on": ("REFUSE_ALL",),
    "half, then none": ("REFUSE_ALL", "REFUSE_HALF"),
}
REASONS = {"the disk failed", "the disk is full", "the file cannot be opened"}
NOT_STORED = "err 35 NotStored"
# How a run ends whose store has failed, and one whose log is not copied into its file at the end.
FAILED, NOT_COPIED = 6, 5
LOOKS = ("up 1.0", "count 3", "groups 1", "epoch")
# So many changes a swept run makes; and so many are made at most until a log is copied into its file.
CHANGES, MOST = 6, 5000
# So many changes are left as a store is opened.
KEPT = 1
KIB = 1 << 10


def change_at(epoch: int) -> str:
    """A change of the example at an epoch, which tells it from others. None is refused."""
    return f'change {{"base":{epoch},"weight":[[3,{epoch * 37 % 65536}]],"{("down", "up")[epoch % 2]}":[2]}}'


def refuser(folder: pathlib.Path) -> pathlib.Path:
    """The library that refuses and notes calls, built into a folder."""
    if shutil.which("gcc") is None:
        raise unittest.SkipTest("there is no gcc to build tests/refuse_write.c")
    library = folder / "refuse_write.so"
    subprocess.run(["gcc", "-shared", "-fPIC", "-O1", "-o", library, HERE / "refuse_write.c"], check=True)
    return library


@dataclasses.dataclass(frozen=True)
class Call:
    """A call that was made: of what kind, on which file, where, and the bytes that it wrote."""

    kind: str
    name: str
    at: int
    data: bytes


def calls_in(data: bytes) -> Iterator[Call]:
    """The calls that were noted."""
    while data:
        line, _, data = data.partition(b"\n")
        kind, name, at, count = line.decode().split(" ")
        yield Call(kind, name, int(at), data[: int(count)])
        data = data[int(count) :]


@dataclasses.dataclass
class Talked:
    """A run with a live session: what it told first, each line with its answer, and what it ended with."""

    head: str | None
    pairs: list[tuple[str, str | None]]
    done: Done

    def made(self) -> list[str]:
        """The changes that were answered `ok`."""
        return [line for line, answer in self.pairs if (answer or "").startswith("ok ")]

    def not_stored(self) -> list[str]:
        """The changes that the store did not take."""
        return [line for line, answer in self.pairs if answer == NOT_STORED]


class Talk:
    """A live session with a run, each line of which is put once the one before is answered."""

    def __init__(
        self, words: list[object], environment: Mapping[str, str], set_up: Callable[[], None] | None = None
    ) -> None:
        self.process = limited(
            subprocess.Popen(
                [str(word) for word in words],
                stdin=subprocess.PIPE,
                stdout=subprocess.PIPE,
                stderr=subprocess.PIPE,
                env={**os.environ, **environment},
                preexec_fn=set_up,
            )
        )
        assert self.process.stdin and self.process.stdout
        self.to, self.lines = self.process.stdin, Lines(self.process.stdout.fileno())
        self.head, self.pairs = self.lines.next(), list[tuple[str, Optional[str]]]()
        self.epoch = int(self.head.split(" ")[1]) if self.head else 0
        self.is_live = self.head is not None and self.lines.next() == "session 1"

    def ask(self, line: str) -> str | None:
        """The answer of a line; None where the run has ended."""
        with contextlib.suppress(BrokenPipeError):
            self.to.write(line.encode() + b"\n")
            self.to.flush()
        answer = self.lines.next()
        self.pairs.append((line, answer))
        return answer

    def turn(self) -> str | None:
        """The answer of a change, behind which there is a look-up."""
        answer = self.ask(change_at(self.epoch))
        self.epoch += (answer or "").startswith("ok ")
        self.ask(LOOKS[len(self.pairs) % len(LOOKS)])
        return answer

    def end(self) -> Talked:
        """What came of it all, once the input has ended."""
        output, error = self.process.communicate(timeout=SECONDS)
        told = (self.lines.left + output).decode()
        return Talked(self.head, self.pairs, Done(self.process.returncode, told, error.decode()))


def with_rows(case: StoreCase, count: int) -> list[str]:
    """Makes the store of a test with so many changes, and kills the program behind them."""
    lines = [change_at(epoch) for epoch in range(1, 1 + count)]
    talk = Talk([case.command, "--journal", "65536", "--begin", EXAMPLE, case.store, "-"], {})
    for line in lines:
        case.assertStarts(talk.ask(line) or "", "ok ")
    talk.process.kill()
    talk.end()
    return lines


def with_long_log(case: StoreCase) -> list[str]:
    """Makes the store of a test with so many changes that its log is copied into its file before the next one."""
    talk = Talk([case.command, "--journal", "65536", "--begin", EXAMPLE, case.store, "-"], {})
    data = case.store.read_bytes()
    while case.store.read_bytes() == data and talk.epoch < MOST:
        talk.epoch += 1
        case.assertEqual(talk.ask(change_at(talk.epoch - 1)), f"ok {talk.epoch} evals 1")
    talk.process.kill()
    talk.end()
    for path in case.folder.glob("store*"):
        path.unlink()
    return with_rows(case, talk.epoch - 2)


@dataclasses.dataclass
class Sweep:
    """Runs over copies of a store, in each of which a call is refused in some way. They begin the store where there is
    none."""

    case: "StoreFailures"
    library: pathlib.Path
    made: list[str]
    variables: dict[str, str]
    first: int = 0
    # Each run refuses so many calls behind the one before.
    stride: int = 1
    changes: int = CHANGES

    def difference(self, number: int) -> tuple[str | None, bool]:
        """What is wrong with the run in which a call is refused, or None; and whether it came to that call."""
        with tempfile.TemporaryDirectory(dir=self.case.folder) as name:
            folder = pathlib.Path(name)
            store, mark = folder / "store", folder / "refused"
            copied(self.case.store, store)
            given: dict[str, str] = {
                "LD_PRELOAD": str(self.library),
                "REFUSE_PATH": str(store),
                "REFUSED": str(mark),
                **self.variables,
            }
            given["REFUSE_NTH"] = str(1 + (number - 1) * self.stride)
            begin: list[object] = ["--keep", KEPT] if self.made else ["--begin", EXAMPLE]
            talk = Talk([self.case.command, *begin, store, "-"], given)
            for _ in range(self.changes * talk.is_live):
                talk.turn()
            try:
                self.case.judge(talk.end(), self.made, store)
            except AssertionError as fault:
                return str(fault), mark.exists()
            return None, mark.exists()


class StoreFailures(StoreCase):
    """Runs whose disk fails."""

    is_alone = True

    def judge(self, talked: Talked, before: list[str], store: pathlib.Path) -> None:
        """Asks that a run over a store with some changes is as it may be where its disk fails, and that the store then
        has all changes that were answered `ok`, and at most the first that was not taken."""
        self.judge_end(talked)
        if talked.head is not None:
            self.judge_answers(talked, before)
        self.judge_store(
            before + talked.made(), talked.not_stored()[:1], store, bool(before) or talked.head is not None
        )

    def judge_end(self, talked: Talked) -> None:
        """Asks that a run ends as one whose store is not opened, has failed or has not; and that it tells why."""
        status = FAILED if talked.not_stored() else talked.done.status
        if talked.head is not None and not talked.not_stored():
            self.assertIn(status, (0, NOT_COPIED))
        self.assertEqual((talked.done.status, talked.done.output), (status, ""), talked.done)
        if talked.done.status or talked.head is None:
            self.assertNotEqual(status, 0)
            self.assertIn(talked.done.error.removeprefix("store: ").removesuffix("\n"), REASONS)
        else:
            self.assertEqual(talked.done.error, "")

    def judge_answers(self, talked: Talked, before: list[str]) -> None:
        """Asks that all but the changes that were not stored is answered as plain `osdmapd` does, and that each change
        behind the first of those is one of them."""
        changes = [answer for line, answer in talked.pairs if line.startswith("change ")]
        stored = [answer != NOT_STORED for answer in changes]
        self.assertEqual(stored, sorted(stored, reverse=True), changes)
        others = [(line, answer) for line, answer in talked.pairs if answer != NOT_STORED]
        answers = self.played(EXAMPLE, [*before, *(line for line, _ in others)])
        self.assertEqual([answer for _, answer in others], answers[len(before) : -1])

    def judge_store(self, made: list[str], open_line: list[str], store: pathlib.Path, is_begun: bool) -> None:
        """Asks that a store, once the disk is well, has these changes, or these and the one that was not taken. One
        whose beginning failed may be none yet, and is then begun."""
        opened = self.ran(store, "-", text="dump\n")
        if not is_begun and opened.status == 5:
            opened = self.ran("--begin", EXAMPLE, store, "-", text="dump\n")
        wanted = []
        for lines in (made, [*made, *open_line]):
            dump = self.played(EXAMPLE, lines)[-1]
            wanted.append(Done(0, f"epoch {1 + len(lines)}\nsession 1\ndump {dump}\n", ""))
        self.assertIn(opened, wanted)
        self.assertIn(held(store).last, [1 + len(made), 1 + len(made) + len(open_line)])

    def sweeps(self, made: list[str], stride: int = 1, changes: int = CHANGES) -> None:
        """Refuses each call of runs in turn, in each way."""
        for error, number in ERRORS.items():
            for way, set_ in WAYS.items():
                variables = {"REFUSE_ERRNO": number, **{name: "1" for name in set_}}
                swept = Sweep(self, refuser(self.folder), made, variables, stride=stride, changes=changes)
                self.sweep(swept, f"{error}, {way}")

    def sweep(self, swept: Sweep, way: str) -> None:
        """Refuses each call of runs in turn."""
        count = 0
        for call, (wrong, came) in grown(swept):
            count += came
            if came or wrong:
                with self.subTest(f"{way}, call {1 + (call - 1) * swept.stride}"):
                    self.assertIsNone(wrong)
        self.assertGreater(count, 5, "calls that were refused")

    # Calls that are refused

    def test_begin(self) -> None:
        """A store that is begun and changed, with each call refused."""
        self.sweeps([])

    def test_open(self) -> None:
        """A store with three changes that is opened, which leaves one, and changed, with each call refused."""
        self.sweeps(with_rows(self, 3))

    def test_long_log(self) -> None:
        """A store whose log is copied into its file as it is opened, with some calls refused."""
        self.sweeps(with_long_log(self), stride=7, changes=2)

    def test_interrupted(self) -> None:
        """A store with three changes that is opened and changed, with each call interrupted by a signal once."""
        given = {"REFUSE_ERRNO": str(errno.EINTR)}
        self.sweep(Sweep(self, refuser(self.folder), with_rows(self, 3), given), "interrupted")

    def test_one_sync(self) -> None:
        """Before a change is answered it is written and then synced, once but for the first of a run; and nothing is
        written for a look-up or a change that is refused."""
        path = self.folder / "noted"
        given = {"LD_PRELOAD": str(refuser(self.folder)), "REFUSE_PATH": str(self.store), "NOTED": str(path)}
        talk = Talk([self.command, "--begin", EXAMPLE, self.store, "-"], given)
        for turn in range(20):
            path.write_bytes(b"")
            self.assertStarts(talk.ask(change_at(talk.epoch + turn)) or "", "ok ")
            kinds = "".join(call.kind for call in calls_in(path.read_bytes()))
            self.assertEqual((kinds[:1], kinds[-1:], kinds.count("s")), ("w", "s", 1 if turn else kinds.count("s")))
            path.write_bytes(b"")
            for line in (*LOOKS, "dump", "balance 1 1", change_at(99), 'change {"base":'):
                talk.ask(line)
            self.assertEqual(path.read_bytes(), b"")
        self.assertEqual(talk.end().done, Done(0, "", ""))

    # Disks without room

    @contextlib.contextmanager
    def disk(self, size: int) -> Iterator[pathlib.Path]:
        """A folder on a disk of so many bytes, which takes the store."""
        path = self.folder / "disk"
        path.mkdir(exist_ok=True)
        mount = ["mount", "-t", "tmpfs", "-o", f"size={size}", "tmpfs", str(path)]
        is_there = subprocess.run(mount, capture_output=True, check=False).returncode == 0
        self.needs("leave to mount a small disk", is_there)
        self.store = path / "store"
        try:
            yield path
        finally:
            subprocess.run(["umount", "-l", path], check=True)

    def make_room(self, size: int) -> None:
        """Gives the disk so many bytes."""
        subprocess.run(["mount", "-o", f"remount,size={size}", self.store.parent], check=True)

    def filled(self, talk: Talk) -> Talked:
        """Changes up to the first that is not taken, and twenty more."""
        for _ in range(2000):
            if talk.turn() == NOT_STORED:
                break
        for _ in range(20):
            talk.turn()
        talked = talk.end()
        self.assertGreater(len(talked.made()), 5)
        self.assertGreater(len(talked.not_stored()), 20)
        return talked

    def test_full_disk(self) -> None:
        """A disk that is full: what was taken stays, and once there is room all goes on."""
        with self.disk(700 * KIB):
            talked = self.filled(Talk([self.command, "--journal", "65536", "--begin", EXAMPLE, self.store, "-"], {}))
            self.assertEqual(talked.done, Done(FAILED, "", "store: the disk is full\n"))
            self.judge_answers(talked, [])
            made, open_line = talked.made(), talked.not_stored()[:1]
            self.judge_store(made, open_line, copied(self.store, self.folder / "copy"), True)
            done = self.ran(self.store)
            if done.status:  # It is not opened, or at the end there is no room for what its log holds.
                told = ("", f"epoch {1 + len(made)}\n")
                self.assertIn(done, [Done(5, text, "store: the disk is full\n") for text in told])
            self.judge_store(made, open_line, copied(self.store, self.folder / "copy"), True)
            self.make_room(8000 * KIB)
            self.judge_store(made, open_line, self.store, True)

    def test_no_room_to_begin(self) -> None:
        """On a disk that is full no store is begun, until there is room."""
        with self.disk(64 * KIB):
            done = self.ran("--begin", EXAMPLE, self.store, "-", text="epoch\n")
            self.assertEqual(done, Done(5, "", "store: the disk is full\n"))
            self.make_room(8000 * KIB)
            self.judge_store([], [], self.store, False)

    def test_limit_on_files(self) -> None:
        """Where the system refuses larger files, changes are not taken from there on; where it ends the program by a
        signal, what was answered is there."""
        for is_ignored in (True, False):
            with self.subTest(is_ignored=is_ignored):
                for path in self.folder.glob("store*"):
                    path.unlink()

                def limit(is_ignored: bool = is_ignored) -> None:
                    signal.signal(signal.SIGXFSZ, signal.SIG_IGN if is_ignored else signal.SIG_DFL)
                    resource.setrlimit(resource.RLIMIT_FSIZE, (400 * KIB, 400 * KIB))

                words = [self.command, "--journal", "65536", "--begin", EXAMPLE, self.store, "-"]
                if is_ignored:
                    talked = self.filled(Talk(words, {}, limit))
                    self.judge(talked, [], self.store)
                else:
                    talk = Talk(words, {}, limit)
                    while talk.turn() is not None:
                        self.assertLess(len(talk.pairs), 5000)
                    talked = talk.end()
                    self.assertEqual(talked.done.status, -signal.SIGXFSZ)
                    first_open = [line for line, answer in talked.pairs if answer is None][:1]
                    self.judge_store(talked.made(), first_open, self.store, True)
