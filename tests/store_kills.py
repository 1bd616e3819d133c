"""A store outlives its process: kills at random moments, beside scripts and live sessions that commit changes and look.

One store is used over all kills of a test. What each session was put and what came out of it is kept; after a kill the
store's rows are read by sqlite3, and each epoch that was told has the row of its change, in order and without a gap. An
epoch that nobody was told of is that of a line which was not answered yet, so a live session, which waits for each
answer, has at most one. Then the program opens the store, tells the epoch, and dumps the map that plain `osdmapd` makes
of the same lines; and what sessions saw at an epoch is what `osdmapd` answers there. Some kills come while the store is
opened. All is from a seed, but for what the machine is quick to do.
"""

from __future__ import annotations

import contextlib
import dataclasses
import json
import os
import pathlib
import random
import re
import subprocess
import threading
import time

from tests import soak
from tests.cases import EXAMPLE
from tests.clusters import Json
from tests.live_sessions import Lines, limited
from tests.runs import zipped
from tests.soak import epoch_of, is_made
from tests.store_failures import with_long_log
from tests.stores import SECONDS, Done, StoreCase, copied, held, written_change

POOLS, GROUPS = 6, 16
# The OSDs whose reweights tell changes apart. No rule reaches them.
MARKS, WORD = (25, 26), 65537
# So many epochs a script tries to make, and so many lines a live session puts, at most.
BASES, LIVE_LINES = 250, 400
# How a run is killed, and how often one in so many.
WAYS = {"while it opens": 5, "one live session": 4, "sessions": 11}
DELAYS = (0.01, 0.03, 0.1, 0.3)
# So many changes are left as a store is opened.
KEPT = 40
# Refusals that nothing here gives cause for: out of memory, no seat, not sealed, not stored.
NEVER = re.compile(r"err 3[0125] ")


def a_map(is_stock: bool) -> Json:
    """The map of the soak, and the OSDs that mark changes."""
    value = soak.a_map(POOLS, GROUPS, soak.STOCK if is_stock else soak.KINDS)
    marks = [{"exists": True, "id": osd, "up": True, "weight": 65536} for osd in MARKS]
    return {**value, "max_osd": MARKS[-1] + 1, "osds": value["osds"] + marks}


class Writer(soak.Writer):
    """What writes lines, no two changes of which are the same."""

    def __init__(self, seed: str, first: int, is_stock: bool) -> None:
        super().__init__(0, POOLS, GROUPS, is_stock)
        self.rng, self.number = random.Random(seed), first

    def change(self, base: int, is_safe: bool) -> str:
        """A change with its mark, and with a base: the histories that a store may have are told by bases."""
        _, _, text = super().change(base, is_safe).partition(" ")
        change: Json = {"base": base, **json.loads(text)}
        self.number += 1
        marks = [list(mark) for mark in zip(MARKS, divmod(self.number, WORD))]
        change["weight"] = [*change.get("weight", []), *marks]
        return "change " + json.dumps(change, separators=(",", ":"))

    def attempts(self, base: int) -> list[str]:
        """A script that tries to make each of some epochs: by a change that may be refused, then by one that is not."""
        return [
            line
            for number in range(base, base + BASES)
            for line in (self.look(), self.change(number, False), self.change(number, True))
        ]


@dataclasses.dataclass
class Session:
    """The lines that a session was put, and the answers that were read."""

    name: str
    asked: list[str]
    answers: list[str] = dataclasses.field(default_factory=list)

    def pairs(self) -> list[tuple[str, str]]:
        """Each line that was answered, with its answer."""
        return list(zip(self.asked, self.answers))

    def open_lines(self) -> list[str]:
        """The lines that were not answered."""
        return self.asked[len(self.answers) :]


class Talk(threading.Thread):
    """A live session: each line is put once the one before is answered."""

    def __init__(self, session: Session, to: int, lines: Lines, writer: Writer, epoch: int) -> None:
        super().__init__(daemon=True)
        self.session, self.to, self.lines, self.writer, self.epoch = session, to, lines, writer, epoch

    def line(self) -> str:
        """The next line: mostly a change of the newest map that was seen."""
        is_change = self.writer.rng.random() < 0.6
        return self.writer.change(self.epoch, self.writer.rng.random() < 0.7) if is_change else self.writer.look()

    def run(self) -> None:
        if self.lines.next() is None:  # its heading
            return
        for _ in range(LIVE_LINES):
            line = self.line()
            self.session.asked.append(line)
            with contextlib.suppress(BrokenPipeError):
                os.write(self.to, line.encode() + b"\n")
            answer = self.lines.next()
            if answer is None:
                return
            self.session.answers.append(answer)
            if not line.startswith("f"):
                self.epoch = max(self.epoch, epoch_of(answer) or 0)


@dataclasses.dataclass(frozen=True)
class Pair:
    """Two pipes, each with the end to read from first: for the lines of a live session, and for its answers."""

    lines: tuple[int, int]
    answers: tuple[int, int]


@dataclasses.dataclass
class Started:
    """A run that is to be killed, with its sessions."""

    process: subprocess.Popen[bytes]
    output: Lines
    sessions: list[Session]
    talks: list[Talk]
    files: dict[str, pathlib.Path]
    pipes: list[int]

    def kill(self) -> None:
        """Kills the run, and reads what it has put out."""
        self.process.kill()
        self.process.wait(SECONDS)
        for talk in self.talks:
            talk.join(SECONDS)
        for session in self.sessions:
            if session.name in self.files and self.files[session.name].exists():
                whole, _, _ = self.files[session.name].read_text().rpartition("\n")
                session.answers = whole.splitlines()[1:]
        for pipe in self.pipes:
            os.close(pipe)
        for stream in (self.process.stdin, self.process.stdout):
            if stream:
                stream.close()


class Story:
    """What became of a store so far: the line of each epoch, its row, and the maps between runs."""

    def __init__(self, first: Json) -> None:
        self.first = self.epoch = int(first["epoch"])
        self.lines: list[str] = []
        self.rows: dict[int, str] = {}
        self.maps: dict[int, str] = {}


class Kills(StoreCase):
    """Kills of a program over one store."""

    is_alone = True

    def kills(self, seed: int, rounds: int, is_stock: bool = False, is_wary: bool = False) -> None:
        """Kills so many runs over one store, and judges it after each."""
        self.options = ["--stock"] * is_stock
        self.own = self.options + ["--wary"] * is_wary
        self.is_stock, self.word, self.opening = is_stock, "stock" if is_stock else "plain", 0.1
        first = self.file("map", json.dumps(a_map(is_stock)))
        self.story = Story(a_map(is_stock))
        self.story.maps[self.story.epoch] = self.played(first, [], *self.options)[-1]
        self.assertEqual(self.ran(*self.own, "--begin", first, self.store).status, 0)
        rngs = [random.Random(f"{seed}, {number}") for number in range(rounds)]
        ways = [rng.choices([*WAYS], [*WAYS.values()])[0] for rng in rngs]
        ways[0], ways[-1] = "sessions", "sessions"
        for number, (rng, way) in enumerate(zip(rngs, ways)):
            is_right = False
            with self.subTest(f"seed {seed}, kill {number}: {way}"):
                self.kill(f"{seed}, {number}", number << 22, rng, way)
                if ways[number + 1 : number + 2] != ["while it opens"]:
                    self.open_again()
                is_right = True
            if not is_right:
                return  # What comes behind a kill that fails says nothing.
        self.assertGreater(len(self.story.lines), rounds, "changes that were made")
        *_, dump = self.played(first, self.story.lines, *self.options)
        self.assertEqual(dump, self.story.maps[self.story.epoch])

    # One run

    def kill(self, seed: str, mark: int, rng: random.Random, way: str) -> None:
        """Starts a run, kills it, and judges the store."""
        if way == "while it opens":
            started = self.start([], [], 65536)
            time.sleep(rng.uniform(0, self.opening))
            started.kill()
        else:
            started = self.start_sessions(seed, mark, way == "sessions", rng.choice([65536, 65536, 65536, 40]))
            time.sleep(rng.uniform(0, rng.choice(DELAYS)))
            started.kill()
        self.judge(started.sessions, way != "while it opens")

    def start(self, scripts: list[Session], writers: list[Writer], journal: int) -> Started:
        """Starts a run with scripts whose answers go to files, and with live sessions: the first over standard input,
        the others over pipes."""
        files = {session.name: self.folder / f"answers of {session.name}" for session in scripts}
        pairs = [Pair(os.pipe(), os.pipe()) for _ in writers[1:]]
        words = self.command_line(scripts, files, pairs, len(writers) > 0, journal)
        theirs = [pipe for pair in pairs for pipe in (pair.lines[0], pair.answers[1])]
        process = limited(
            subprocess.Popen(
                words, stdin=subprocess.PIPE, stdout=subprocess.PIPE, stderr=subprocess.DEVNULL, pass_fds=theirs
            )
        )
        for pipe in theirs:
            os.close(pipe)
        assert process.stdout and process.stdin
        output = Lines(process.stdout.fileno())
        ours = [(process.stdin.fileno(), output)] if writers else []
        ours += [(pair.lines[1], Lines(pair.answers[0])) for pair in pairs]
        live = [Session(f"live {number}", []) for number in range(len(writers))]
        talks = [
            Talk(session, pipe, lines, writer, self.story.epoch)
            for session, (pipe, lines), writer in zip(live, ours, writers)
        ]
        pipes = [pipe for pair in pairs for pipe in (pair.lines[1], pair.answers[0])]
        return Started(process, output, scripts + live, talks, files, pipes)

    def command_line(
        self, scripts: list[Session], files: dict[str, pathlib.Path], pairs: list[Pair], is_live: bool, journal: int
    ) -> list[str]:
        """The words of a run: its scripts, which are written here, then its live sessions."""
        words, to = [], []
        for session in scripts:
            files[session.name].unlink(missing_ok=True)
            words.append(str(self.file(session.name, "".join(f"{line}\n" for line in session.asked))))
            to.append(str(files[session.name]))
        words += ["-"] * is_live + [f"/dev/fd/{pair.lines[0]}" for pair in pairs]
        to += ["-"] * is_live + [f"/dev/fd/{pair.answers[1]}" for pair in pairs]
        options = [*self.own, f"--journal={journal}", f"--keep={KEPT}", *[f"--to={path}" for path in to]]
        return [str(self.command), *options, str(self.store), *words]

    def start_sessions(self, seed: str, mark: int, are_many: bool, journal: int) -> Started:
        """Starts a run with a live session, or with two and two scripts, and waits until it tells the epoch."""
        base, is_stock = self.story.epoch, self.is_stock
        writers = [Writer(f"{seed}, {place}", mark + (place << 16), is_stock) for place in range(4 if are_many else 1)]
        scripts = [Session(f"script {place}", writer.attempts(base)) for place, writer in enumerate(writers[2:])]
        begin = time.monotonic()
        started = self.start(scripts, writers[:2], journal)
        self.assertEqual(started.output.next(), f"epoch {base}")
        self.opening = time.monotonic() - begin
        for talk in started.talks:
            talk.start()
        return started

    # What is found behind it

    def judge(self, sessions: list[Session], is_open: bool) -> None:
        """Holds the store, as sqlite3 reads it, against all that was told."""
        found, before = held(self.store), self.story.epoch
        rows = dict(found.rows)
        self.assertEqual([*rows], [*range(found.first[0] + 1, found.last + 1)])
        self.assertEqual(found.first[1], self.map_at(found.first[0]), "the first map")
        self.assertEqual({epoch: self.story.rows.get(epoch, row) for epoch, row in rows.items()}, rows)
        if not is_open:
            self.assertEqual(found.last, before)
            return
        told = self.told(sessions)
        self.assertLessEqual(max(told, default=before), found.last, "the last epoch that was told")
        untold = [epoch for epoch in range(before + 1, found.last + 1) if epoch not in told]
        told.update({epoch: (line, "") for epoch, line in self.unanswered(sessions, untold, rows).items()})
        for epoch, (line, _) in told.items():
            if line.startswith("change "):
                change = json.loads(line.removeprefix("change "))
                # A plan may have either word. Its line, where nobody was told of it, is made of its row.
                word = self.word if change["weight"] else rows[epoch].split(" ")[0]
                self.assertEqual(rows[epoch], f"{word} {written_change(change)}", f"the row of {epoch}")
        self.story.rows.update(rows)
        self.play(sessions, told, found.last)

    def map_at(self, epoch: int) -> str:
        """The map of an epoch up to the last run's end, as `osdmapd` makes it."""
        base = max(known for known in self.story.maps if known <= epoch)
        lines = self.story.lines[base - self.story.first : epoch - self.story.first]
        return self.played(self.file("played", self.story.maps[base]), lines, *self.options)[-1]

    def told(self, sessions: list[Session]) -> dict[int, tuple[str, str]]:
        """The line and the answer of each epoch that a session was told to have made; no session goes back."""
        made: dict[int, tuple[str, str]] = {}
        for session in sessions:
            low = self.story.epoch
            for line, answer in session.pairs():
                epoch = epoch_of(answer)
                self.assertIsNone(NEVER.match(answer), f"{session.name}: {line}: {answer}")
                if is_made(answer) and epoch is not None:
                    self.assertNotIn(epoch, made, f"{session.name}: {line}: {answer}")
                    made[epoch] = (line, answer)
                if epoch is not None and not line.startswith("f"):
                    self.assertGreaterEqual(epoch, low, f"{session.name}: {line}: {answer}")
                    low = epoch
        return made

    def unanswered(self, sessions: list[Session], untold: list[int], rows: dict[int, str]) -> dict[int, str]:
        """The line of each epoch that nobody was told of: one that was put and not answered, in the order of its
        session. A plan is known by its pool."""
        lines: dict[int, str] = {}
        left = {session.name: session.open_lines() for session in sessions}
        for epoch in untold:
            change = json.loads(rows[epoch].split(" ", 1)[1])
            is_plan = not change["weight"]
            pool = change["new_items"][0][0].split(".")[0] if is_plan else ""
            for name, waiting in left.items():
                if is_plan and any(line.startswith(f"balance {pool} ") for line in waiting):
                    lines[epoch] = f"change {json.dumps(change)}"
                place = next((place for place, line in enumerate(waiting) if is_of(line, change)), None)
                if place is not None:
                    lines[epoch], left[name] = waiting[place], waiting[place + 1 :]
            self.assertIn(epoch, lines, f"nobody asked for the row of {epoch}: {rows[epoch][:300]}")
        return lines

    def play(self, sessions: list[Session], made: dict[int, tuple[str, str]], last: int) -> None:
        """Asks plain `osdmapd` what was asked, each line at its epoch, over the map of the last run's end."""
        before = self.story.epoch
        at: dict[int, dict[str, str]] = {}
        for session in sessions:
            for line, answer in session.pairs():
                epoch = epoch_of(answer)
                if epoch is not None and not is_made(answer) and line != "follow":
                    asked, own = [text[line.startswith("f") :] for text in (line, answer)]
                    self.assertEqual(at.setdefault(epoch, {}).setdefault(asked, own), own, f"{asked} at {epoch}")
        self.assertLessEqual(max(at, default=before), last, "an epoch that a session saw")
        lines: list[tuple[str, str]] = []
        for epoch in range(before, last + 1):
            lines += at.get(epoch, {}).items()
            lines += [made[epoch + 1]] if epoch < last else []
        *answers, dump = self.played(
            self.file("played", self.story.maps[before]), [line for line, _ in lines], *self.options
        )
        for (line, wanted), answer in zipped(lines, answers):
            self.assertEqual(answer, wanted or f"ok {epoch_of(answer)} evals {answer.split()[-1]}", line)
        self.story.lines += [made[epoch][0] for epoch in range(before + 1, last + 1)]
        self.story.epoch, self.story.maps[last] = last, dump

    def open_again(self) -> None:
        """Asks the program for the map of the store."""
        epoch = self.story.epoch
        done = self.ran(*self.own, self.store, "-", text="dump\n")
        wanted = f"epoch {epoch}\nsession 1\ndump {self.story.maps[epoch]}\n"
        self.assertEqual((done.status, done.output, done.error), (0, wanted, ""))
        self.assertEqual(held(self.store).last, epoch)

    def test_plain(self) -> None:
        """70 kills."""
        self.kills(1, 70)

    def test_stock(self) -> None:
        """50 kills under `--stock`."""
        self.kills(2, 50, is_stock=True)

    def test_wary(self) -> None:
        """40 kills where each change is synced twice."""
        self.kills(4, 40, is_wary=True)

    def test_long_log(self) -> None:
        """12 kills while a store is opened whose log is copied into its file, and of whose changes a few are kept."""
        lines = with_long_log(self)
        epoch, dump = 1 + len(lines), self.played(EXAMPLE, lines)[-1]
        whole = Done(0, f"epoch {epoch}\nsession 1\ndump {dump}\n", "")
        kept, rng, begin = copied(self.store, self.folder / "kept"), random.Random(3), time.monotonic()
        self.assertEqual(self.ran(f"--keep={KEPT}", self.store, "-", text="dump\n"), whole)
        opening = time.monotonic() - begin
        for number in range(12):
            with self.subTest(f"kill {number}"):
                copied(kept, self.store)
                with subprocess.Popen(
                    [self.command, f"--keep={KEPT}", self.store], stdout=subprocess.DEVNULL
                ) as process:
                    time.sleep(rng.uniform(0, opening))
                    process.kill()
                found = held(self.store)
                self.assertEqual(found.last, epoch)
                self.assertIn(len(found.rows), (KEPT, len(lines)))
                self.assertEqual(self.ran(f"--keep={KEPT}", self.store, "-", text="dump\n"), whole)


def is_of(line: str, change: Json) -> bool:
    """Whether a line asks for the change of a row."""
    return line.startswith("change ") and written_change(json.loads(line.removeprefix("change "))) == written_change(
        change
    )
