"""The module of `carry` in ceph-mgr: what it tells and warns of, beside a manager of the tests' own; and in a live one,
where Ceph's daemons are there.
"""

from __future__ import annotations

import ast
import errno
import importlib.util
import json
import sys
import time
from collections.abc import Iterator
from contextlib import contextmanager
from types import ModuleType
from typing import Any
from unittest import mock

from rekhuso.carry.kept import Keys, drop_plan, keep_plan
from rekhuso.carry.persons import say
from rekhuso.carry.records import Record
from rekhuso.carry.states import CarrierState

from tests.carry_cluster import StandIn
from tests.cases import TOP, Case
from tests.clusters import Json
from tests.live_cluster import LiveCluster, has_daemons

sys.path.append(str(TOP / "tools"))

import packages  # noqa: E402

MODULE = TOP / "tools" / "rekhuso_mgr"
PLAN = {"commands": ["ceph osd pg-upmap-items 2.1 1 2"], "undo": ["ceph osd rm-pg-upmap-items 2.1"], "epoch": 9}


class Manager:
    """What a module finds of its manager: the keys of a cluster, and what it is told."""

    world: StandIn

    def __init__(self) -> None:
        self.checks: Json = {}
        self.calls: list[Any] = []
        self.log = mock.Mock()

    def mon_command(self, asked: Json) -> tuple[int, str, str]:
        """What the monitors reply."""
        found = self.world.reply(asked)
        return found.status, found.output.decode(), found.words

    def set_health_checks(self, checks: Json) -> None:
        """Takes warnings."""
        self.checks = checks

    def remote(self, *words: Any) -> None:
        """Takes a call of another module."""
        self.calls.append(words)

    def get_module_option(self, name: str) -> float:
        """An option."""
        return 0.01


def plain(_: str) -> Any:
    """What makes commands of methods."""
    return lambda method: method


@contextmanager
def module_of(world: StandIn) -> Iterator[Any]:
    """The module, beside a cluster."""
    door = ModuleType("mgr_module")
    own = type("MgrModule", (Manager,), {"world": world})
    names = {
        "MgrModule": own,
        "Option": lambda *words, **more: (words, more),
        "CLIReadCommand": plain,
        "CLIWriteCommand": plain,
    }
    vars(door).update(names)
    spec = importlib.util.spec_from_file_location("rekhuso_mgr_module", MODULE / "module.py")
    assert spec is not None and spec.loader is not None
    found = importlib.util.module_from_spec(spec)
    with mock.patch.dict(sys.modules, mgr_module=door), mock.patch.object(sys, "dont_write_bytecode", True):
        spec.loader.exec_module(found)
    yield found


class ManagerModule(Case):
    """The module beside a manager of the tests' own."""

    def setUp(self) -> None:
        self.world = StandIn(self.program)
        self.keys = Keys(self.world)

    def put(self, state: str, code: str, since: float = 0.0, ago: float = 0.0) -> None:
        """Has a carrier have told a state, which it has been in for some seconds, some seconds ago."""
        own = Record(state=CarrierState(state, code, "for this reason"), since=time.time() - since)
        own.plan = {"epoch": 9, "commands": 4, "sum": ""}
        amount = {"groups": 1, "places": 1, "bytes": 0}
        own.progress = {"done": 2, "under_way": amount, "left": amount, "moving": 1}
        own.coming = PLAN["commands"]  # type: ignore[assignment]
        told = dict(json.loads(own.text()), at=time.time() - ago)
        self.world.keys["rekhuso/state"] = json.dumps(told)

    def test_syntax(self) -> None:
        """It is Python of 3.6, has no import but of the standard library and the manager, and gives no command but on
        keys."""
        for path in MODULE.glob("*.py"):
            tree = ast.parse(path.read_text(), feature_version=(3, 6))
            names = {alias.name for node in ast.walk(tree) if isinstance(node, ast.Import) for alias in node.names}
            self.assertLessEqual(names, {"errno", "hashlib", "json", "threading", "time"})
        prefixes = [
            node.values[at].value  # type: ignore[attr-defined]
            for node in ast.walk(ast.parse((MODULE / "module.py").read_text()))
            if isinstance(node, ast.Dict)
            for at, key in enumerate(node.keys)
            if isinstance(key, ast.Constant) and key.value == "prefix"
        ]
        self.assertEqual({*prefixes}, {"config-key get", "config-key set"})

    def test_packed(self) -> None:
        """A package has it where a manager looks for modules, and the unit where systemd does."""
        own = {"tools/rekhuso_mgr/module.py": "usr/share/ceph/mgr/rekhuso/module.py"}
        own["packages/rekhuso-carry.service"] = "usr/lib/systemd/system/rekhuso-carry.service"
        for path, place in own.items():
            self.assertEqual([*packages.placed(path, b"x")], [(place, b"x")])

    def test_checks(self) -> None:
        """A person is warned where the carrier has stopped, failed or waited for an hour, and where it is silent, but
        not where a person has stopped it."""
        rows: list[tuple[str, float, float, str, set[str]]] = [
            ("stopped", 0, 0, "on", {"REKHUSO_STOPPED"}),
            ("failed", 0, 0, "on", {"REKHUSO_FAILED"}),
            ("waits", 3500, 0, "on", set()),
            ("waits", 3700, 0, "on", {"REKHUSO_WAITS"}),
            ("quiet", 9999, 290, "on", set()),
            ("carries", 9999, 310, "on", {"REKHUSO_STALE"}),
            ("paused", 9999, 310, "paused", {"REKHUSO_STALE"}),
            ("off", 9999, 310, "off", set()),
        ]
        with module_of(self.world) as found:
            self.assertEqual(found.checks_of(None, "on", time.time()), {})
            for state, since, ago, wish, names in rows:
                with self.subTest(state=state, since=since, ago=ago):
                    self.put(state, "code", since, ago)
                    checks = found.checks_of(self.world.state(), wish, time.time())
                    self.assertEqual({*checks}, names)
                    self.assertTrue(all(own["severity"] == "warning" for own in checks.values()))

    def test_loop(self) -> None:
        """It sets warnings and a progress at each look, ends that of a plan that is done, and goes on whatever
        comes."""
        with module_of(self.world) as found:
            own = found.Module()
            self.put("stopped", "vain")
            looks = iter([lambda: None, lambda: self.world.keys.pop("rekhuso/state"), own.shutdown])
            with mock.patch.object(own.event, "wait", lambda _: next(looks)()):
                own.serve()
            self.assertEqual(own.checks, {})
            self.assertEqual(
                own.calls[0][:5], ("progress", "update", "rekhuso", "rekhuso evens the cluster (2 of 4 groups)", 0.5)
            )
            self.assertEqual(own.calls[-1], ("progress", "complete", "rekhuso"))
            own.run, self.world.keys["rekhuso/state"] = True, '{"state": "quiet", "at": "never"}'
            with mock.patch.object(own.event, "wait", lambda _: own.shutdown()):
                own.serve()
            self.assertTrue(own.log.error.called)

    def test_commands(self) -> None:
        """What a person says by it the carrier takes; the way back comes of the kept plan once that is not carried."""
        with module_of(self.world) as found:
            own = found.Module()
            self.assertEqual(own.status_()[0], -errno.ENOENT)
            self.assertEqual(own.undo_()[0], -errno.ENOENT)
            for word, wish in (("pause", "paused"), ("resume", "on"), ("off", "off"), ("on", "on")):
                self.assertEqual(getattr(own, f"{word}_")()[0], 0)
                told = self.keys.value("wish") or {}
                self.assertEqual(told["wish"], wish)
            self.put("carries", "given")
            keep_plan(self.keys, {**PLAN, "more": "x" * 200000})
            self.assertEqual(own.undo_()[0], -errno.EBUSY)
            say(self.keys, "pause")
            self.assertEqual(own.undo_(), (0, PLAN["undo"][0], ""))  # type: ignore[index]
            drop_plan(self.keys, "off")
            self.assertEqual(own.undo_()[0], 0)
            self.assertEqual(own.next_(), (0, PLAN["commands"][0], ""))  # type: ignore[index]
            status, text, _ = own.status_()
            told = json.loads(text)
            self.assertEqual((status, told["state"], told["silent"]), (0, "carries", 0))
            self.assertNotIn("vain", told)

    def test_live(self) -> None:
        """In a live manager it tells the state that is kept, says what a person says, and warns."""
        self.needs("cluster of Ceph's daemons (Debian: ceph-mon, ceph-mgr, ceph-osd)", has_daemons())
        with LiveCluster({"rekhuso": MODULE}, 1) as cluster:
            self.put("stopped", "vain")
            path = cluster.folder / "state.json"
            path.write_text(self.world.keys["rekhuso/state"])
            cluster.ceph("config-key", "set", "rekhuso/state", "-i", path)
            cluster.ceph("config", "set", "mgr", "mgr/rekhuso/interval", "1")
            cluster.until(lambda: bool(cluster.json("rekhuso", "status")["code"] == "vain"), "it tells the state")
            cluster.until(lambda: "REKHUSO_STOPPED" in cluster.json("health")["checks"], "it warns")
            cluster.ceph("rekhuso", "pause")
            self.assertEqual(json.loads(cluster.ceph("config-key", "get", "rekhuso/wish"))["wish"], "paused")
            cluster.ceph("config-key", "rm", "rekhuso/state")
            cluster.until(lambda: "REKHUSO_STOPPED" not in cluster.json("health")["checks"], "it warns no more")
