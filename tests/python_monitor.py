"""`Monitor`, by which a program in Python speaks with a live session, and the errors that it has."""

from __future__ import annotations

import doctest
import functools
import json
import os
import pathlib
import random
import re
import signal
import subprocess
import sys
import tempfile
from collections.abc import Callable
from concurrent.futures import ThreadPoolExecutor
from unittest import mock

from rekhuso import Closed, Fault, Monitor, Refused, Session
from rekhuso.faults import Trouble

from tests import model, soak
from tests.cases import EXAMPLE, EXAMPLES, TOP, Case, example
from tests.clusters import Json
from tests.runs import zipped
from tests.tool_cases import AS_MONITOR
from tests.whole_maps import FULL, ON_HOSTS, map_of, osds_of, pool_of, rule_of

SECONDS = 300


class PythonMonitor(Case):
    """Questions and changes by `Monitor`."""

    is_alone = True

    def test_monitor(self) -> None:
        """100 random changes by `Monitor`, each answer beside the model's."""
        value, made = json.loads((EXAMPLES / "balance" / "map.json").read_text()), random.Random(7)
        groups, script = [f"{pool['id']}.{n:x}" for pool in value["pools"] for n in range(pool["pg_num"])], []
        for base in range(value["epoch"], value["epoch"] + 100):
            key, osd = made.choice(["down", "up", "weight"]), made.choice(value["osds"])["id"]
            part = [[osd, made.choice([0, 20000, 65536])]] if key == "weight" else [osd]
            script += [
                "change " + json.dumps({"base": base, key: part}, separators=(",", ":")),
                f"up {made.choice(groups)}",
                f"count {osd}",
            ]
        with Monitor(value, self.program, timeout=SECONDS) as monitor:
            for line, wanted in zipped(script, model.answers(value, script)):
                self.assertEqual(monitor.raw([line]), [wanted])
            self.assertEqual(monitor.epoch(), value["epoch"] + 100)
            self.assertEqual(monitor.up(groups[0]).epoch, value["epoch"] + 100)
            self.assertEqual(len(monitor.groups(value["osds"][0]["id"])), monitor.count(value["osds"][0]["id"]))
            self.assertEqual(monitor.dump()["epoch"], value["epoch"] + 100)
            calls: list[tuple[str, int, Callable[[], object]]] = [
                ("StaleEpoch", 20, lambda: monitor.change(base=1)),
                ("UnknownPool", 23, lambda: monitor.up("999.0")),
            ]
            for name, number, call in calls:
                with self.assertRaises(Refused) as refused:
                    call()
                self.assertEqual((refused.exception.name, refused.exception.number), (name, number))

    def test_names(self) -> None:
        """What the package has is told before it comes in; a monitor says of which program it is, over what, and
        whether it is closed."""
        words = ["-c", "import rekhuso; print(sorted(set(rekhuso.__all__) - set(dir(rekhuso))))"]
        done = subprocess.run(
            [sys.executable, *words], capture_output=True, text=True, timeout=60, check=True, cwd=TOP / "tools"
        )
        self.assertEqual(done.stdout, "[]\n")
        with Monitor(EXAMPLE, self.program) as monitor:
            own = repr(monitor)
            self.assertEqual(own, f"<Monitor of {monitor.program} over a map>")
        self.assertEqual(repr(monitor), f"{own[:-1]}, closed>")

    def test_changes_without_a_base(self) -> None:
        """Changes without a base by two sessions in turn: each is made at the epoch that it finds; a line with a base
        is refused."""
        value = example()
        with Monitor(value, self.program, sessions=2, stock=True, timeout=SECONDS) as monitor:
            for turn in range(10):
                one = monitor.sessions[turn % 2]
                made = one.apply(down=[2]) if turn % 2 else one.apply(up=[2])
                self.assertEqual(made, (value["epoch"] + turn + 1, 0))
            self.assertEqual(monitor.raw(['apply {"base":11,"up":[2]}']), ["err 11 BadField"])

    def test_sessions(self) -> None:
        """Four clients in four threads over one monitor ask and change at random: all answers are those of one
        history."""
        with tempfile.TemporaryDirectory() as folder:
            value, scripts = soak.scripts(11, 4, 200, 4, 32)
            _, play = soak.run(self.program, pathlib.Path(folder), scripts, value)
            with Monitor(value, self.program, sessions=4, timeout=SECONDS) as monitor, ThreadPoolExecutor(4) as threads:
                asked = threads.map(
                    lambda pair: [pair[0].raw([line])[0] for line in pair[1]], zip(monitor.sessions, scripts)
                )
                output = "".join(
                    f"session {number}\n" + "".join(answer + "\n" for answer in answers)
                    for number, answers in enumerate(asked, 1)
                )
                self.assertEqual(monitor.epoch(), monitor.sessions[3].epoch())
            wrong, made, _ = soak.faults(scripts, output, play)
            self.assertFalse(wrong, (wrong[:3], made))
            self.assertTrue(made, (wrong[:3], made))
            with self.assertRaises(Refused) as refused:
                Monitor("{}", self.program, sessions=3, timeout=SECONDS)
            self.assertEqual(refused.exception.name, "BadField")

    def test_whole_pools(self) -> None:
        """The up sets of whole pools are those of their groups, under `stock` and without it: also where places are
        empty, where no OSD is left, in each of two sessions, and once OSDs are down."""
        hosts = [{"id": -2 - at, "items": [[at, FULL]], "kind": "list", "type": 1} for at in range(4)]
        root = {"id": -1, "items": [[-2 - at, FULL] for at in range(4)], "kind": "list", "type": 10}
        parts = [["take", -1], ["chooseleaf_indep", 0, 1], ["emit"]]
        pools: list[Json] = [pool_of(7, 5, 3), pool_of(1, 64, 6, 1, "erasure"), pool_of(2, 1, 2)]
        strange: list[Json] = [pool_of(3, 1), pool_of(2, 2)]
        value: Json = map_of([root, *hosts], [rule_of(ON_HOSTS), rule_of(parts, 1, "erasure")], pools, osds_of(4))
        groups = [f"{pool['id']}.{number:x}" for pool in pools for number in range(pool["pg_num"])]
        for stock in (False, True):
            with self.subTest(stock=stock), Monitor(value, self.program, sessions=2, stock=stock) as monitor:
                downs: list[list[int]] = [[], [3], [0, 1, 2]]
                for down in downs:
                    if down:
                        monitor.change(down=down)
                    for session in monitor.sessions:
                        ups = session.ups(groups)
                        self.assertEqual(list(session.pool_ups(pools).items()), list(ups.items()))
                        places = {group: up.places for group, up in ups.items()}
                        self.assertEqual(list(session.pool_sets(pools).items()), list(places.items()))
                self.assertEqual(session.pool_ups(pools[:0]), {})
                with self.assertRaises(Refused) as refused:
                    session.pool_ups(strange[:1])
                self.assertEqual(refused.exception.name, "UnknownPool")
                with self.assertRaises(Fault):
                    session.pool_sets(strange[1:])

    def test_timeout(self) -> None:
        """A question that takes longer than a monitor's timeout ends the program; so does a program that opens no
        pipe."""
        with tempfile.TemporaryDirectory() as folder:
            silent = pathlib.Path(folder) / "silent"
            silent.write_text(f"{AS_MONITOR}exec sleep 60\n")
            silent.chmod(0o755)
            for tried, sessions in ((self.program, 1), (self.program, 2), (silent, 1), (silent, 2)):
                with self.subTest(tried=tried.name, sessions=sessions), self.assertRaises(Fault) as fault:
                    with Monitor(EXAMPLE.read_text(), tried, sessions=sessions, timeout=0.2) as monitor:
                        # Each is answered after half a second and more, and all of them in many times the limit.
                        monitor.raw(["await 2"] * 20)
                self.assertEqual(str(fault.exception), "no answer within 0.2 seconds")

    def test_closed_monitor(self) -> None:
        """A monitor that was closed, or whose program has gone, has an error of its own for whatever is asked, in each
        of its sessions."""
        value = example()
        with Monitor(value, self.program, sessions=2, timeout=SECONDS) as closed:
            pass
        with Monitor(value, self.program, timeout=SECONDS) as gone:
            os.kill(gone._process.pid, signal.SIGKILL)
            with self.assertRaises(Fault) as fault:
                gone.epoch()
            self.assertEqual(type(fault.exception), Trouble)
            self.assertEqual(str(fault.exception), "the program ended with status -9")
            sessions = [*closed.sessions, gone]
            for session in sessions:
                asks: list[Callable[[], object]] = [
                    session.epoch,
                    functools.partial(session.up, "1.0"),
                    functools.partial(session.raw, ["epoch", "epoch"]),
                    functools.partial(session.change, down=[1]),
                    functools.partial(session.ups, ["1.0"]),
                    functools.partial(session.pool_ups, value["pools"]),
                    functools.partial(session.pool_sets, value["pools"]),
                ]
                for ask in asks:
                    with self.assertRaises(Closed) as closed_fault:
                        ask()
                    self.assertEqual(str(closed_fault.exception), "the monitor is closed")

    def test_names_of_a_monitor(self) -> None:
        """What a monitor shows beside what is its own are its questions, its program and its sessions."""
        with Monitor(example(), self.program, timeout=SECONDS) as monitor:
            shown = {name for name in dir(monitor) if not name.startswith("_")}
        self.assertEqual(
            shown,
            {
                "apply",
                "ask",
                "balance",
                "change",
                "close",
                "count",
                "counts",
                "dump",
                "epoch",
                "follow",
                "follower_kept",
                "found_epoch",
                "groups",
                "is_stock",
                "left",
                "one",
                "pool_sets",
                "pool_ups",
                "program",
                "raw",
                "sessions",
                "text",
                "up",
                "ups",
            },
        )

    def test_examples(self) -> None:
        """Each public function of a session and of a monitor has an example, and each example is as it says."""
        found = [own for kind in (Session, Monitor) for own in doctest.DocTestFinder().find(kind, globs={})]
        shown = {name for test in found for name in re.findall(r"monitor\.(\w+)\(", test.docstring or "")}
        public = {name for kind in (Session, Monitor) for name in vars(kind) if not name.startswith("_")}
        self.assertEqual(public - shown, set())
        for test in (test for test in found if test.examples):
            with self.subTest(test.name), Monitor(EXAMPLE, self.program, stock=True, timeout=SECONDS) as monitor:
                test.globs.update(monitor=monitor)
                told: list[str] = []
                self.assertEqual(doctest.DocTestRunner(verbose=False).run(test, out=told.append).failed, 0, told)

    def test_python_of_the_page(self) -> None:
        """Every line of Python of docs/LIVE.md."""
        with mock.patch("rekhuso.Monitor", functools.partial(Monitor, timeout=SECONDS)):
            done = doctest.testfile(
                str(TOP / "docs" / "LIVE.md"),
                module_relative=False,
                optionflags=doctest.FAIL_FAST,
                globs={"PROGRAM": self.program, "EXAMPLE": EXAMPLE, "CEPH": EXAMPLES / "ceph"},
            )
        self.assertGreater(done.attempted, 10)
        self.assertFalse(done.failed)
