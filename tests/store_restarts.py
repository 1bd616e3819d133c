"""Many changes of one store through many restarts: what is left of its history; and 200,000 changes through three
restarts, each run with as many as one may take. That waits for as many syncs, so it is run where LONG is set
(`tests/run.py --long`). A supervisor starts a run again once its journal is full: then no change is refused, where LONG
is set of 200,000, and `rekhuso history --at` gives the map of any of their epochs."""

from __future__ import annotations

import contextlib
import os
import pathlib
import random
import subprocess
import sys
import threading
from collections.abc import Iterator

from tests import model
from tests.cases import EXAMPLE, TOP, example
from tests.live_sessions import Lines
from tests.stores import FULL, SECONDS as PATIENCE, Done, StoreCase, held, nearly, written_change

CHANGES, MOST, SECONDS = 200_000, 65_536, 1800
# So many starts, each with so many changes; and so many changes are left where there are more than twice so many.
STARTS, EACH, KEPT = 50, 23, 256
# A service has a journal for so many changes, and so many are made; a run that ends full has this status. Of so many
# epochs the map is asked for.
JOURNAL, ASKED, ENDED_FULL, EPOCHS = (MOST, CHANGES, 8, 20) if os.environ.get("LONG") else (23, 500, 8, 3)
RUNS = [range(first, min(first + MOST, CHANGES + 1)) for first in range(1, CHANGES + 1, MOST)]


def weight_at(epoch: int) -> list[list[int]]:
    """The reweight that the change of an epoch brings."""
    return [[epoch % 4, epoch * 37 % 65536]]


def line_at(epoch: int) -> str:
    """The change of an epoch."""
    return f'change {{"base":{epoch},"weight":{weight_at(epoch)}}}'


def map_at(epoch: int) -> str:
    """The map of an epoch, by the last reweight of each OSD up to it."""
    value = example()
    last = {own: made for at in range(max(1, epoch - 4), epoch) for own, made in weight_at(at)}
    osds = [{**osd, "weight": last.get(osd["id"], osd["weight"])} for osd in value["osds"]]
    return model.Cluster({**value, "epoch": epoch, "osds": osds}).written()


class Service:
    """A program over two named pipes, as a unit of systemd starts it, and starts it again where it has not ended
    well."""

    def __init__(self, command: pathlib.Path, store: pathlib.Path, folder: pathlib.Path) -> None:
        self.paths = [str(folder / name) for name in ("lines", "answers")]
        for path in self.paths:
            os.mkfifo(path)
        # Who asks has both pipes open all the time, so that what is in them stays there from one run to the next.
        self.to, self.own = (os.open(path, os.O_RDWR) for path in self.paths)
        self.answers, self.ends = Lines(self.own), list[Done]()
        options = ["--end-when-full", f"--journal={JOURNAL}", "--keep=1000000", f"--open-or-begin={EXAMPLE}"]
        self.words = [str(command), *options, f"--to={self.paths[1]}", str(store), self.paths[0]]

    def run(self) -> None:
        """Starts the program until it ends well."""
        while not self.ends or self.ends[-1].status:
            done = subprocess.run(self.words, capture_output=True, text=True, timeout=SECONDS)
            self.ends.append(Done(done.returncode, "", done.stderr))

    @contextlib.contextmanager
    def started(self) -> Iterator[None]:
        """The service, while it is asked. Its input then ends."""
        thread = threading.Thread(target=self.run)
        thread.start()
        yield
        os.close(self.to)
        thread.join(PATIENCE)
        os.close(self.own)

    def ask(self, line: str) -> str | None:
        """The answer of a line; a heading of a run is none."""
        os.write(self.to, line.encode() + b"\n")
        answer = self.answers.next()
        return self.answers.next() if answer == "session 1" else answer


class StoreRestarts(StoreCase):
    """Many changes of one store."""

    is_alone = True

    def test_restarts(self) -> None:
        """Each epoch of 200,000 changes is answered and has its row, and the map at the end is that of `osdmapd`; a run
        takes 65,536 changes and no more."""
        if not os.environ.get("LONG"):
            self.skipTest("it takes minutes, and LONG is not set")
        first, dump = EXAMPLE, self.played(EXAMPLE, [])[-1]
        for epochs in RUNS:
            begin = ["--begin", EXAMPLE] if epochs[0] == 1 else []
            is_full = len(epochs) == MOST
            lines = [line_at(epoch) for epoch in [*epochs, *[epochs[-1] + 1] * is_full]]
            script = self.file("script", "".join(f"{line}\n" for line in lines))
            done = self.ran("--journal", MOST, "--keep", 0, *begin, self.store, script, seconds=SECONDS)
            self.assertEqual((done.status, done.error), (0, (nearly(MOST) + FULL) * is_full))
            made = [f"ok {epoch + 1} evals 1" for epoch in epochs] + ["err 28 JournalFull"] * is_full
            self.assertEqual(done.output.splitlines(), [f"epoch {epochs[0]}", "session 1", *made])
            self.judge_rows(epochs, dump)
            *_, dump = self.played(first, lines[: len(epochs)])
            first = self.file("map", dump)
        self.assertGreaterEqual(len(RUNS), 4)
        done = self.ran(self.store, "-", text="dump\n", seconds=SECONDS)
        self.assertEqual(done.output.splitlines(), [f"epoch {CHANGES + 1}", "session 1", f"dump {dump}"])

    def test_history(self) -> None:
        """A store that has run through 50 starts still has its last changes, as many as `--keep` says and at most twice
        so many and those of a run, behind the map before them; none of them was lost before there were so many."""
        lines, first = [line_at(epoch) for epoch in range(1, 1 + STARTS * EACH)], 1
        for made in range(0, len(lines), EACH):
            begin: list[object] = ["--keep", KEPT] if made else ["--begin", EXAMPLE]
            first = made + 1 - KEPT if made + 1 - first > 2 * KEPT else first
            text = "".join(f"{line}\n" for line in lines[made : made + EACH])
            answers = [f"ok {epoch} evals 1\n" for epoch in range(made + 2, made + 2 + EACH)]
            told = "".join([f"epoch {made + 1}\n", "session 1\n", *answers])
            self.assertEqual(self.ran(*begin, self.store, "-", text=text), Done(0, told, ""))
            self.assertEqual(held(self.store).first[0], first)
        self.assertEqual(self.ran(self.store), Done(0, f"epoch {1 + len(lines)}\n", ""))
        self.assertGreater(first, EACH)
        self.judge_rows(range(first, 1 + len(lines)), self.played(EXAMPLE, lines[: first - 1])[-1])

    def test_service(self) -> None:
        """A service that ends once its journal is full, and is started again by whoever looks after it, takes many more
        changes than fit into one journal: none is refused, lost or made twice, and each end is told."""
        service = Service(self.command, self.store, self.folder)
        with service.started():
            for epoch in range(1, 1 + ASKED):
                self.assertEqual(service.ask(line_at(epoch)), f"ok {epoch + 1} evals 1")
                service.ask("up 1.0")
        runs = ASKED // JOURNAL
        full = Done(ENDED_FULL, "", nearly(JOURNAL) + FULL)
        self.assertEqual(service.ends, [*[full] * runs, Done(0, "", "")])
        self.judge_rows(range(1, 1 + ASKED), self.played(EXAMPLE, [])[-1])
        before = self.store.read_bytes()
        self.assertEqual(self.ran(self.store, seconds=SECONDS), Done(0, f"epoch {1 + ASKED}\n", ""))
        for epoch in (1, 1 + ASKED, *random.Random(ASKED).sample(range(2, 1 + ASKED), EPOCHS)):
            tool = [sys.executable, TOP / "tools" / "rekhuso", "history", self.store, "--at", str(epoch)]
            words = [str(word) for word in (*tool, "--program", self.program)]
            told = subprocess.run(words, capture_output=True, text=True, timeout=SECONDS)
            self.assertEqual((told.returncode, told.stdout, told.stderr), (0, f"{map_at(epoch)}\n", ""), epoch)
        self.assertEqual(self.store.read_bytes(), before)

    def test_scripts_when_full(self) -> None:
        """Scripts are answered to their end, also where the run ends as its journal is full; where it is not full, the
        end is any run's."""
        lines = [line_at(epoch) for epoch in range(1, 4)]
        script = self.file("script", "".join(f"{line}\n" for line in [*lines, "epoch"]))
        done = self.ran("--end-when-full", "--journal", 2, "--begin", EXAMPLE, self.store, script)
        answers = ["ok 2 evals 1", "ok 3 evals 1", "err 28 JournalFull", "epoch 3"]
        told = "".join(f"{line}\n" for line in ["epoch 1", "session 1", *answers])
        self.assertEqual(done, Done(ENDED_FULL, told, nearly(2) + FULL))
        one = self.file("one", f"{line_at(3)}\n")
        done = self.ran("--end-when-full", "--journal", 2, self.store, one)
        self.assertEqual(done, Done(0, "epoch 3\nsession 1\nok 4 evals 1\n", nearly(2)))

    def judge_rows(self, epochs: range, dump: str) -> None:
        """Asks that the store holds the map before some changes, and the row of each."""
        found = held(self.store)
        self.assertEqual(found.first, (epochs[0], dump))
        rows = [(epoch + 1, written_change({"base": epoch, "weight": weight_at(epoch)})) for epoch in epochs]
        self.assertEqual(found.rows, [(epoch, f"plain {row}") for epoch, row in rows])
