"""Runs the built program over each example with one growth refused, for each growth in turn (refuse_nth.c).

A run with a growth refused ends with status 4, `memory` and nothing put out; or it puts out what a run without refusals
does, of a script in which the line that answers `err 30 Memory` is left out. The last run is the first without a
refusal. In a second round each line that may find no memory stands twice, so that after a refusal the same line has its
exact answer. In a third the script is a live session, whose answers before the refusal are out; in a fourth its
session's answers go to a file, which is standard output. A map of straw2 buckets and a change that brings others are
run in the first two ways under `--stock`. Then 63 sessions await what one changes that says each change twice, so that
it comes whatever is refused. Then `groups` answers an OSD that stands in 131,072 groups, and under `--stock` one in
262,144, with each growth refused that this line asks for; and a change brings a straw2 bucket of 1,024 items and 65,535
groups. At the end are lines that are refused: where nothing needs memory before its number is known, a line answers
that number whatever growth is refused.
"""

from __future__ import annotations

import json
import os
import pathlib
import shutil
import subprocess
import tempfile
from collections.abc import Callable, Iterator
from concurrent.futures import ThreadPoolExecutor
from typing import Protocol

from tests import model
from tests.cases import EXAMPLES, HERE, Case
from tests.clusters import Json
from tests.runs import AT_ONCE
from tests.whole_maps import NO_EXCEPTIONS, ON_HOSTS, ON_OSDS, crush_of, map_of, osds_of, pool_of, rule_of

WAYS = ("a script", "lines twice", "typed", "to a file")
REFUSED = b"err 30 Memory\n"
# So many growths are refused before it is looked whether the runs came to them.
SECONDS, STEP = 60, 64
TWICE = (b"change ", b"apply ", b"balance ", b"groups ", b"follow", b"dump", b"ups ", b"fups ")
# What may find no memory; `up`, `count`, `epoch` and `await` take none.
NEEDS = (*TWICE, b"fup ", b"fdump")


def refuser(folder: pathlib.Path) -> pathlib.Path:
    """The library that refuses a growth, built into a folder."""
    if shutil.which("gcc") is None:
        raise FileNotFoundError("NOT RUN, since there is no gcc to build tests/refuse_nth.c")
    library = folder / "refuse_nth.so"
    subprocess.run(["gcc", "-shared", "-fPIC", "-O1", "-o", library, HERE / "refuse_nth.c"], check=True)
    return library


class Sweep(Protocol):
    """Runs in each of which one growth is refused."""

    # Behind which growth they begin.
    first: int

    def difference(self, number: int) -> tuple[str | None, bool]:
        """What is wrong with the run in which a growth is refused, or None; and whether it came to that growth."""


def grown(swept: Sweep) -> Iterator[tuple[int, tuple[str | None, bool]]]:
    """Each growth with what is found where it is refused, up to the first that the runs do not come to; some at a
    time."""

    def found(number: int) -> tuple[str | None, bool]:
        try:
            return swept.difference(number)
        except subprocess.TimeoutExpired:
            return f"no end after {SECONDS} seconds", False

    number, came = swept.first, True
    with ThreadPoolExecutor(AT_ONCE) as pool:
        while came:
            numbers = range(number + 1, number + 1 + STEP)
            for number, (wrong, came) in zip(numbers, pool.map(found, numbers)):
                yield number, (wrong, came)
                if not came:
                    break


class Example:
    """An example, and what a run of it may put out."""

    OPTIONS: tuple[str, ...] = ()
    first = 0

    def __init__(
        self, command: pathlib.Path, library: pathlib.Path, example: pathlib.Path, folder: pathlib.Path, way: str
    ) -> None:
        self.command, self.library, self.example, self.folder = command, library, example, pathlib.Path(folder)
        self.typed, self.live, twice = way == "typed", way in ("typed", "to a file"), way == "lines twice"
        lines = (example / "script.txt").read_bytes().splitlines(keepends=True)
        self.lines = [line for own in lines for line in [own] * (2 if twice and own.startswith(TWICE) else 1)]
        self.script = self.folder / "script"
        self.script.write_bytes(b"".join(self.lines))
        self.whole = self.run(self.script)[0].stdout if twice else (example / "answers.txt").read_bytes()
        self.without = [self.left_out(place) for place in range(len(self.lines))]

    def run(
        self, script: pathlib.Path, refused: int | None = None
    ) -> "tuple[subprocess.CompletedProcess[bytes], bool]":
        """A run over a script; with a growth refused where a number is given, and whether it came to that growth."""
        environment = dict(os.environ)
        mark = self.folder / f"refused-{refused}"
        if refused is not None:
            environment.update(LD_PRELOAD=str(self.library), REFUSE_NTH=str(refused), REFUSED=str(mark))
        files = [self.example / "map.json", "-" if self.typed else script]
        words = [*map(str, [self.command, *self.OPTIONS, *files]), *["--to", "-"] * (self.live and not self.typed)]
        with open(script if self.typed else os.devnull, "rb") as typed:
            done = subprocess.run(words, env=environment, timeout=SECONDS, stdin=typed, capture_output=True)
        came = mark.exists()
        if came:
            mark.unlink()
        return done, came

    def left_out(self, place: int) -> bytes:
        """The output where the line at a place finds no memory: it changes nothing."""
        script = self.folder / f"without-{place}"
        script.write_bytes(b"".join(self.lines[:place] + self.lines[place + 1 :]))
        answers = self.run(script)[0].stdout.splitlines(keepends=True)
        return b"".join(answers[: place + 1] + [REFUSED] + answers[place + 1 :])

    def difference(self, number: int) -> tuple[str | None, bool]:
        """What is wrong with the run in which a growth is refused, or None; and whether it came to that growth."""
        done, came = self.run(self.script, number)
        got = (done.returncode, done.stdout, done.stderr)
        # What a live session has answered is out.
        begun = got[1] == b"" or (self.live and self.whole.startswith(got[1]))
        if got == (0, self.whole, b"") or (came and begun and (got[0], got[2]) == (4, b"memory\n")):
            return None, came
        answers = done.stdout.splitlines(keepends=True)
        place = answers.index(REFUSED) - 1 if REFUSED in answers else None
        if came and place is not None and self.lines[place].startswith(NEEDS) and got == (0, self.without[place], b""):
            return None, came
        return f"status {got[0]}, output {got[1][:200]!r}, error {got[2][:200]!r}", came


def straw2_forest(weights: list[int]) -> Json:
    """Six OSDs of some weights in three straw2 hosts under a straw2 root, and a rule."""
    hosts = [[[osd, weights[osd]] for osd in (2 * host, 2 * host + 1)] for host in range(3)]
    root = [[-2 - host, sum(weight for _, weight in items)] for host, items in enumerate(hosts)]
    buckets = [{"id": -1, "items": root, "kind": "straw2", "type": 10}]
    buckets += [{"id": -2 - host, "items": items, "kind": "straw2", "type": 1} for host, items in enumerate(hosts)]
    return {"buckets": buckets, "rules": [rule_of(ON_HOSTS)]}


class Stock(Example):
    """A map of straw2 buckets, and a change that brings others, answered as by the model."""

    OPTIONS = ("--stock",)

    def __init__(self, command: pathlib.Path, library: pathlib.Path, folder: pathlib.Path, way: str) -> None:
        forest = straw2_forest([65536, 65536, 131072, 131072, 65536, 262144])
        stated = map_of(forest["buckets"], forest["rules"], [pool_of(1, 8, 2)], osds_of(6), **NO_EXCEPTIONS)
        brought = {
            "base": 1,
            "new_crush": straw2_forest([1, 65536, 65537, 65536, 70000, 65536]),
            "weight": [[3, 30000]],
        }
        lines = ["up 1.0", "groups 2", f"change {json.dumps(brought)}", "up 1.0", "balance 1 2", "groups 2", "dump"]
        lines += ['apply {"down":[1],"new_items":[["1.0",[[0,5]]]]}', "up 1.0", "ups 1", "fups 1"]
        (folder / "map.json").write_text(json.dumps(stated))
        (folder / "script.txt").write_text("".join(f"{line}\n" for line in lines))
        (folder / "answers.txt").write_text(
            "".join(f"{line}\n" for line in ["session 1", *model.answers(stated, lines)])
        )
        super().__init__(command, library, folder, folder, way)


class Written(Example):
    """An example that is written here. The growths before its lines are those of an empty script."""

    def __init__(self, command: pathlib.Path, library: pathlib.Path, folder: pathlib.Path) -> None:
        self.written(folder)
        (folder / "nothing").write_text("")
        super().__init__(command, library, folder, folder, "a script")
        self.first = self.growths(folder / "nothing")

    def stated(self) -> tuple[Json, list[tuple[str, str]]]:
        """The map, and the lines with their answers."""
        raise NotImplementedError

    def written(self, folder: pathlib.Path) -> None:
        """Writes the map, the script, and its answers by their definition."""
        stated, lines = self.stated()
        script, answers = zip(*lines)
        (folder / "map.json").write_text(json.dumps(stated))
        for name, said in (("script.txt", script), ("answers.txt", ("session 1", *answers))):
            (folder / name).write_text("".join(f"{line}\n" for line in said))

    def growths(self, script: pathlib.Path) -> int:
        """How many growths a run over a script asks for, by halves."""
        least, most = 0, 1
        while self.run(script, most)[1]:
            least, most = most, 2 * most
        while most - least > 1:
            middle = (least + most) // 2
            least, most = (middle, most) if self.run(script, middle)[1] else (least, middle)
        return least


class Everywhere(Written):
    """`groups` of the one OSD of 32 pools of 4,096 groups."""

    POOLS, GROUPS = range(1, 33), range(4096)

    def stated(self) -> tuple[Json, list[tuple[str, str]]]:
        root = {"id": -1, "type": 10, "kind": "uniform", "items": [[0, 65536]]}
        pools = [pool_of(number, len(self.GROUPS)) for number in self.POOLS]
        stated = map_of([root], [rule_of(ON_OSDS)], pools, osds_of(1))
        groups = ",".join(f"{number}.{group:x}" for number in self.POOLS for group in self.GROUPS)
        return stated, [("groups 0", f"groups 1 0 [{groups}]")]


class EverywhereWide(Everywhere):
    """The same of 4 pools of 65,536 groups, under `--stock`."""

    OPTIONS = ("--stock",)
    POOLS, GROUPS = range(1, 5), range(65536)


class Grown(Written):
    """A change that brings a straw2 bucket of 1,024 items, and has a pool grow to 65,536 groups, all of which but two
    are on the last OSD."""

    OPTIONS = ("--stock",)
    GROUPS, OSDS = 65536, 1024

    def forest(self, weight: int) -> Json:
        """All OSDs but the last in a straw2 bucket, with a bucket for the last, which the rule takes."""
        last = self.OSDS - 1
        items = [[osd, weight] for osd in range(last)] + [[-2, weight]]
        buckets = [
            {"id": -1, "items": items, "kind": "straw2", "type": 10},
            {"id": -2, "items": [[last, weight]], "kind": "straw2", "type": 1},
        ]
        steps = [["take", -2], ["choose_firstn", 0, 0], ["emit"]]
        return {"buckets": buckets, "rules": [rule_of(steps)]}

    def stated(self) -> tuple[Json, list[tuple[str, str]]]:
        first = self.forest(1)
        stated = map_of(first["buckets"], first["rules"], [pool_of(1, 1)], osds_of(self.OSDS))
        last, end = self.OSDS - 1, f"{self.GROUPS - 1:x}"
        change = {
            "base": 1,
            "new_crush": self.forest(2),
            "grow_pool": [[1, self.GROUPS, self.GROUPS]],
            "new_upmap": [[f"1.{end}", [0]]],
            "new_items": [["1.0", [[last, 1]]]],
        }
        names = ",".join(f"1.{number:x}" for number in range(1, self.GROUPS - 1))
        return stated, [
            (f"change {json.dumps(change)}", f"ok 2 evals {self.GROUPS}"),
            ("up 1.0", "up 2 1.0 [1] 1"),
            (f"up 1.{end}", f"up 2 1.{end} [0] 0"),
            (f"count {last}", f"count 2 {last} {self.GROUPS - 2}"),
            (f"groups {last}", f"groups 2 {last} [{names}]"),
        ]


def two_blocks() -> Json:
    """Two OSDs, a pool that can be balanced, and one that cannot, since its rule takes twice."""
    steps = [["take", -1], ["choose_firstn", 1, 0], ["emit"]]
    root = {"id": -1, "items": [[0, 65536], [1, 65536]], "kind": "list", "type": 10}
    rules = [rule_of(steps * number, number) for number in (1, 2)]
    return map_of([root], rules, [pool_of(number, 2, 2, number) for number in (1, 2)], osds_of(2))


class Refused(Written):
    """Lines that are refused and need no memory: whatever growth is refused, each answers its own number."""

    def stated(self) -> tuple[Json, list[tuple[str, str]]]:
        return two_blocks(), [
            ("up 1.2", "err 25 UnknownGroup"),
            ("up 3.0", "err 23 UnknownPool"),
            ("count 2", "err 21 UnknownOsd"),
            ("groups 2", "err 21 UnknownOsd"),
            ("balance 3 1", "err 23 UnknownPool"),
            ("balance 2 1", "err 29 BalanceRule"),
            ("none", "err 33 BadCommand"),
        ]

    def difference(self, number: int) -> tuple[str | None, bool]:
        """What is wrong with the run in which a growth is refused, or None; and whether it came to that growth."""
        done, came = self.run(self.script, number)
        got = (done.returncode, done.stdout, done.stderr)
        fine = got == (0, self.whole, b"") or came and got == (4, b"", b"memory\n")
        return None if fine else f"status {got[0]}, output {got[1][:400]!r}, error {got[2][:200]!r}", came


class Judged(Written):
    """Changes, which need memory to be read, and from then on none until their refusal is known. So each finds no
    memory just where one like it does that is refused sooner: for its text, or, with the same lists, for its base."""

    OPTIONS = ("--journal", "1")
    # The first change has a longer number than those behind it: what a session keeps to read has room for these then.
    MADE, STALE = 'change {"base":1,"weight":[[0,65536]]}\n', "20 StaleEpoch 1"
    ENDS = {"its answer", "no memory", "no memory at all"}
    # A run has two threads, whose growths do not always come in the same order: so many runs may share no end.
    TIMES = 20

    def stated(self) -> tuple[Json, list[tuple[str, str]]]:
        return two_blocks(), [("epoch", "epoch 1")]

    def pairs(self) -> Iterator[tuple[tuple[str, ...], tuple[str, ...]]]:
        """Scripts with what their last lines answer: one that is refused sooner, and one like it."""
        crush = crush_of(two_blocks(), buckets=[{"id": -1, "items": [[2, 1]], "kind": "list", "type": 10}])
        yield ('change {"base":-1}', "12 BadLimit"), ('change {"base":0}', self.STALE)
        full = self.MADE + 'change {"base":2}', "28 JournalFull", self.STALE
        yield (self.MADE + 'change {"base":-1}', "12 BadLimit"), full
        cases: list[tuple[Json, str]] = [
            ({"down": [2]}, "21 UnknownOsd"),
            ({"weight": [[0, 65537]]}, "22 BadWeight"),
            ({"old_pools": [3]}, "23 UnknownPool"),
            ({"grow_pool": [[1, 1, 1]]}, "15 BadPool"),
            ({"new_pools": two_blocks()["pools"][:1]}, "24 PoolExists"),
            ({"new_crush": crush}, "13 BadForest"),
            ({"old_upmap": ["1.2"]}, "25 UnknownGroup"),
            ({"new_upmap": [["1.0", [0, 1, 0]]]}, "26 BadException"),
            ({"up": [0, 0]}, "27 DuplicatePart"),
        ]
        for parts, refusal in cases:
            stale, judged = (f"change {json.dumps({'base': base} | parts)}" for base in (0, 1))
            yield (stale, self.STALE), (judged, refusal)

    def ended(self, number: int, script: str, *refusals: str) -> tuple[str, bool]:
        """How the last line of a script ends with a growth refused, and whether a run came to that growth."""
        path = self.folder / f"script-{number}"
        path.write_text(f"{script}\n")
        done, came = self.run(path, number)
        path.unlink()
        last = done.stdout.split(b"\n")[-2:-1]
        if came and (done.returncode, done.stdout, done.stderr) == (4, b"", b"memory\n"):
            return "no memory at all", came
        if came and last == [REFUSED.strip()]:
            return "no memory", came
        is_its_own = last in [[f"err {refusal}".encode()] for refusal in refusals[: 1 + came]]
        return "its answer" if is_its_own else str(done)[-300:], came

    def of_pair(self, number: int, sooner: tuple[str, ...], later: tuple[str, ...]) -> tuple[str | None, bool]:
        """What is wrong with a pair with a growth refused, or None; and whether one came to that growth."""
        ones: set[bool] = set()
        others: set[bool] = set()
        for _ in range(self.TIMES):
            (one, _), (other, came) = self.ended(number, *sooner), self.ended(number, *later)
            if not {one, other} <= self.ENDS:
                break
            ones.add(one == "no memory")
            others.add(other == "no memory")
            if ones & others:
                return None, came
        return f"{later[0]}: {other}, but {sooner[0]}: {one}".replace("\n", "; "), came

    def difference(self, number: int) -> tuple[str | None, bool]:
        """What is wrong with the runs in which a growth is refused, or None; and whether one came to that growth."""
        wrong, came = zip(*(self.of_pair(number, *pair) for pair in self.pairs()))
        return "\n    ".join(filter(None, wrong)) or None, any(came)


class Awaited:
    """63 sessions that await the epoch that another makes, at its first attempt or its second."""

    first = 0
    CHANGE = '{"base":1,"down":[2]}'

    def __init__(self, command: pathlib.Path, library: pathlib.Path, folder: pathlib.Path) -> None:
        self.command, self.library, self.folder = command, library, pathlib.Path(folder)
        (self.folder / "makes").write_text(f"change {self.CHANGE}\n" * 2)
        (self.folder / "awaits").write_text("await 2\n")

    def difference(self, number: int) -> tuple[str | None, bool]:
        """What is wrong with the run in which a growth is refused, or None; and whether it came to that growth."""
        mark = self.folder / f"refused-{number}"
        environment = dict(os.environ, LD_PRELOAD=str(self.library), REFUSE_NTH=str(number), REFUSED=str(mark))
        words = [self.command, EXAMPLES / "map.json", self.folder / "makes"] + [self.folder / "awaits"] * 63
        done = subprocess.run(words, env=environment, timeout=SECONDS, stdin=subprocess.DEVNULL, capture_output=True)
        came = mark.exists()
        if came:
            mark.unlink()
        if came and (done.returncode, done.stdout, done.stderr) == (4, b"", b"memory\n"):
            return None, came
        waited = "".join(f"session {session}\nepoch 2\n" for session in range(2, 65))
        ends = ["ok 2 evals 0\nerr 20 StaleEpoch 2\n"] + [
            "err 30 Memory\nok 2 evals 0\n",
            "ok 2 evals 0\nerr 30 Memory\n",
        ] * came
        if done.returncode == 0 and done.stdout.decode() in [f"session 1\n{end}{waited}" for end in ends]:
            return None, came
        return f"status {done.returncode}, output {done.stdout[:200]!r}, error {done.stderr[:200]!r}", came


class RefusedMemory(Case):
    """A row a growth that is refused, in runs of examples and of maps that are written here. ROW may name one: `racks,
    typed, growth 7`."""

    is_alone = True
    has_rows = True
    folder: pathlib.Path
    library: pathlib.Path

    def setUp(self) -> None:
        folder = tempfile.TemporaryDirectory()
        self.addCleanup(folder.cleanup)
        self.folder = pathlib.Path(folder.name)
        self.library = refuser(self.folder)

    def own(self, name: str) -> pathlib.Path:
        """A folder of its own for a sweep."""
        path = self.folder / name
        path.mkdir()
        return path

    def sweep(self, name: str, make: Callable[[pathlib.Path], Sweep]) -> None:
        """Refuses each growth of the runs of a sweep in turn, up to the first that they do not come to."""
        row = os.environ.get("ROW", "")
        is_one = row.startswith(f"{name}, growth ")
        if row not in name and not is_one:
            return
        swept = make(self.own(name))
        if is_one:
            number = int(row.split(" ")[-1])
            rows = iter([(number, swept.difference(number))])
        else:
            rows = grown(swept)
        for number, (wrong, came) in rows:
            if came or wrong or is_one or number == swept.first + 1:
                with self.subTest(f"{name}, growth {number}"):
                    self.assertIsNone(wrong)
                    self.assertTrue(came, "no growth was refused")

    def examples(self, way: str) -> None:
        """Sweeps over each example, run in one way."""
        for script in sorted(EXAMPLES.rglob("script.txt")):
            folder = script.parent
            self.sweep(f"{folder.name}, {way}", lambda own: Example(self.program, self.library, folder, own, way))

    def test_scripts(self) -> None:
        """Examples as scripts."""
        self.examples("a script")

    def test_lines_twice(self) -> None:
        """Examples in which each line that may find no memory stands twice, so that behind a refusal the same line has
        its exact answer."""
        self.examples("lines twice")

    def test_typed(self) -> None:
        """Examples as live sessions, whose answers before the refusal are out."""
        self.examples("typed")

    def test_to_a_file(self) -> None:
        """Examples whose session's answers go to a file, which is standard output."""
        self.examples("to a file")

    def test_straw2(self) -> None:
        """A map of straw2 buckets, and a change that brings others."""
        for way in WAYS[:2]:
            self.sweep(f"straw2, {way}", lambda own: Stock(self.program, self.library, own, way))

    def test_awaiting_sessions(self) -> None:
        """63 sessions that await what one changes that says each change twice, so that it comes whatever is refused."""
        self.sweep("63 sessions that await", lambda own: Awaited(self.program, self.library, own))

    def test_groups_of_all(self) -> None:
        """`groups` of an OSD that stands in 131,072 groups."""
        self.sweep("groups of all", lambda own: Everywhere(self.program, self.library, own))

    def test_groups_of_all_in_stock_maps(self) -> None:
        """`groups` of an OSD that stands in 262,144 groups."""
        self.sweep("groups of all, stock", lambda own: EverywhereWide(self.program, self.library, own))

    def test_growing_pool(self) -> None:
        """A change that brings a straw2 bucket of 1,024 items and 65,535 groups."""
        self.sweep("a change to 65,536 groups", lambda own: Grown(self.program, self.library, own))

    def test_refused_lines(self) -> None:
        """Lines that are refused and need no memory before their number is known."""
        self.sweep("refused lines", lambda own: Refused(self.program, self.library, own))

    def test_refused_changes(self) -> None:
        """Changes that are refused, and need memory to be read."""
        self.sweep("refused changes", lambda own: Judged(self.program, self.library, own))
