"""Plans at real monitors: given to another cluster, in another order, or where something has changed since. No group
moves that it was not foretold of.
"""

from __future__ import annotations

import json
import pathlib
import shutil
from collections.abc import Callable

from tests.clusters import Json, commands
from tests.guards import ShellCase
from tests.reef_tools import ReefMonitor, reef_tools
from tests.together import NEW, OLD, OSDMAP, compiled

OUT = 10


class MonitorCase(ShellCase):
    """Tests at monitors: Ceph's of this machine, and that of 18.2 where REEF names its tools."""

    def folders(self) -> list[pathlib.Path]:
        """Where the tools of monitors are; the test is not run where there are none."""
        found, reef = shutil.which("ceph-mon"), reef_tools()
        own = [pathlib.Path(found).parent] if found is not None else []
        self.needs("ceph-mon", bool(own) or reef is not None)
        return own + ([reef] if reef is not None else [])

    def asked(self, monitor: ReefMonitor, *words: object) -> str:
        """What a monitor answers."""
        return monitor.run("ceph", "-c", monitor.conf, *words).stdout

    def state(self, monitor: ReefMonitor) -> Json:
        """The map of a monitor."""
        found: Json = json.loads(self.asked(monitor, "osd", "dump", "-f", "json"))
        return found

    def dumped(self, monitor: ReefMonitor, name: str = "") -> list[pathlib.Path]:
        """The dumps of a monitor as files."""
        crush = json.loads(self.asked(monitor, "osd", "crush", "dump"))
        return [self.tools.put(f"{name}osd.json", self.state(monitor)), self.tools.put(f"{name}crush.json", crush)]

    def report(self, monitor: ReefMonitor, name: str = "") -> pathlib.Path:
        """The report of a monitor as a file."""
        return self.tools.put(f"{name}report.json", self.asked(monitor, "report"))

    def has_ceph(self, monitor: ReefMonitor) -> None:
        """Has scripts find the `ceph` of a monitor. A monitor alone has no manager, which turns a balancer off."""
        ceph = f'[ "$*" = "balancer off" ] || exec {monitor.tools}/ceph -c {monitor.conf} "$@"'
        self.put_ceph(f"#!/bin/sh\n{ceph}\n")

    def places(self, monitor: ReefMonitor) -> dict[str, set[int]]:
        """The OSDs of each group; a group may have another primary and be where it was."""
        return {group: set(own[0]) for group, own in monitor.sets().items()}

    def changes_nothing(self, monitor: ReefMonitor, text: str, told: str, *words: object) -> None:
        """Asks that a script ends with status 1 and one line, and no epoch is made."""
        before = self.state(monitor)["epoch"]
        status, error = self.sh(text, *words)
        self.assertEqual((status, self.state(monitor)["epoch"]), (1, before), error)
        self.assertEqual(len(error.splitlines()), 1, error)
        self.assertIn(told, error)
        self.assertEnds(error, ": nothing is done\n")

    def changed_between(self, monitor: ReefMonitor, does: Callable[[str, str], object]) -> None:
        """Changes one thing after the other that decides where groups lie, asks for something each time, and puts it
        back: a reweight, exceptions, the size and the rule of a pool."""
        self.asked(monitor, "osd", "crush", "rule", "create-replicated", "other", "default", "osd")
        rule = self.asked(monitor, "osd", "pool", "get", "rbd", "crush_rule").split(" ")[1].strip()
        pairs = next(own for own in self.state(monitor)["pg_upmap_items"])
        given = [str(osd) for pair in pairs["mappings"] for osd in (pair["from"], pair["to"])]
        own, pool = ["pg-upmap-items", pairs["pgid"], *given], ["pool", "set", "rbd"]
        for change, back, told in (
            (["reweight", "5", "0.9"], ["reweight", "5", "1"], "a reweight is another"),
            (["rm-pg-upmap-items", pairs["pgid"]], own, "an exception is another"),
            ([*pool, "size", "2"], [*pool, "size", "3"], "pool rbd has no longer"),
            ([*pool, "crush_rule", "other"], [*pool, "crush_rule", rule], "pool rbd has no longer"),
        ):
            self.asked(monitor, "osd", *change)
            with self.subTest(change=change):
                does(told, " ".join(change))
            self.asked(monitor, "osd", *back)


class OtherClusters(MonitorCase):
    """Plans of another cluster with the same map."""

    def test_next(self) -> None:
        """`next` gives no command of a plan of one cluster over the dumps of another that has the same map, nor over
        those of its own once the CRUSH map is another; what it gives of its own changes nothing in the other."""
        for tools in self.folders():
            with self.subTest(tools=tools), ReefMonitor(tools, OSDMAP) as one, ReefMonitor(tools, OSDMAP) as other:
                script = self.tools.put("plan.sh", self.output("plan", *self.dumped(one), "--first", 12))
                told = self.tools.put("plan.json", self.output("plan", *self.dumped(one), "--first", 12, "--json"))
                own, wrong = self.report(one), self.report(other, "other-")
                for plan in (script, told):
                    found = self.tools.run("next", "--report", wrong, plan)
                    self.is_told(found, 1, ": of another cluster: its fsid is ", plan)
                    status, text, error = self.tools.run("next", "--report", own, plan)
                    self.assertEqual(status, OUT, error)
                    self.has_ceph(other)
                    before = self.state(other)["epoch"]
                    self.assertEqual(self.sh(text)[0], 1)
                    self.assertEqual(self.state(other)["epoch"], before)
                self.asked(one, "osd", "crush", "reweight", "osd.3", "3.5")
                for plan in (script, told):
                    found = self.tools.run("next", "--report", self.report(one), plan)
                    self.is_told(found, 1, ": for another CRUSH map than the cluster has", plan)


class Turns(MonitorCase):
    """The scripts of a drain, which know their turn."""

    def is_still(self, monitor: ReefMonitor, text: str) -> None:
        """Asks that a script is run and moves no group."""
        before = self.places(monitor)
        status, told = self.sh(text)
        self.assertEqual(status, 0, told)
        self.assertEqual(self.places(monitor), before)
        self.assertNotIn("norebalance", self.state(monitor)["flags"])

    def moves_its_own(self, monitor: ReefMonitor, text: str) -> None:
        """Asks that a part is run and moves its groups alone."""
        before = self.places(monitor)
        status, told = self.sh(text)
        self.assertEqual(status, 0, told)
        moved = {group for group, own in self.places(monitor).items() if own != before[group]}
        self.assertEqual(moved, {line.split(" ")[3] for line in commands(text)})

    def test_order(self) -> None:
        """In any other order than its own no script of a drain makes an epoch: a part before its turn, the end before a
        part, and any beside a norebalance that another has left. In their order they are run: the first and the last
        move no group, and each part its own; a part may be given twice."""
        for tools in self.folders():
            with self.subTest(tools=tools), ReefMonitor(tools, OSDMAP) as monitor:
                self.has_ceph(monitor)
                folder = self.tools.folder / f"drain-{len(list(self.tools.folder.iterdir()))}"
                paths = self.output("drain", *self.dumped(monitor), "osd.7", "--batch", 30, "--to", folder).splitlines()
                first, *parts, last = [pathlib.Path(path).read_text() for path in paths]
                self.assertGreater(len(parts), 1)
                for text in (*parts, last):
                    self.changes_nothing(monitor, text, "the CRUSH map is not that of ")
                self.is_still(monitor, first)
                for number, part in enumerate(parts):
                    self.changes_nothing(monitor, last, "pairs lead to osd.7 still: a part is not given")
                    for text in parts[number + 1 :]:
                        self.changes_nothing(monitor, text, "pairs of the part before do not stand")
                    self.asked(monitor, "osd", "set", "norebalance")
                    self.changes_nothing(monitor, part, "norebalance is set")
                    self.asked(monitor, "osd", "unset", "norebalance")
                    self.moves_its_own(monitor, part)
                self.assertEqual(self.sh(parts[-1])[0], 0)
                self.is_still(monitor, last)
                self.assertFalse(any(7 in own[0] for own in monitor.sets().values()))

    def test_changes_between(self) -> None:
        """What decides where groups lie and has changed since the dump keeps the first script of a drain back."""
        for tools in self.folders():
            with self.subTest(tools=tools), ReefMonitor(tools, OSDMAP) as monitor:
                self.has_ceph(monitor)
                self.asked(monitor, "osd", "crush", "rule", "create-replicated", "other", "default", "osd")
                folder = self.tools.folder / f"drain-{len(list(self.tools.folder.iterdir()))}"
                paths = self.output("drain", *self.dumped(monitor), "osd.7", "--batch", 60, "--to", folder).splitlines()
                first = pathlib.Path(paths[0]).read_text()
                self.changed_between(monitor, lambda told, _: self.changes_nothing(monitor, first, told))


class Holds(MonitorCase):
    """Scripts of `hold` by `sh`."""

    def hold(self, monitor: ReefMonitor) -> tuple[str, list[object]]:
        """A hold over a monitor's cluster, and the command of its change."""
        (self.tools.folder / "new").write_bytes(compiled(NEW))
        (self.tools.folder / "old").write_bytes(compiled(OLD))
        crush = self.tools.put("new.json", NEW["dump"])
        change = ["ceph", "osd", "setcrushmap", "-i", self.tools.folder / "new"]
        return self.output("hold", *self.dumped(monitor), "--crush", crush), change

    def test_changes_between(self) -> None:
        """What decides where groups lie and has changed since the dump keeps a hold back."""
        for tools in self.folders():
            with self.subTest(tools=tools), ReefMonitor(tools, OSDMAP) as monitor:
                self.has_ceph(monitor)
                self.asked(monitor, "osd", "crush", "rule", "create-replicated", "other", "default", "osd")
                text, change = self.hold(monitor)
                self.changed_between(monitor, lambda told, _: self.changes_nothing(monitor, text, told, *change))

    def test_end(self) -> None:
        """A hold asks in its end: where pairs do not stand, as where an OSD goes out behind the change, and where
        groups are elsewhere, as by another CRUSH map, norebalance stays set and the status is 1."""
        for tools in self.folders():
            for change in ('ceph osd setcrushmap -i "$1" && ceph osd out 5 9', "ceph osd crush reweight osd.2 9"):
                with self.subTest(tools=tools, change=change), ReefMonitor(tools, OSDMAP) as monitor:
                    self.has_ceph(monitor)
                    text, _ = self.hold(monitor)
                    status, told = self.sh(text, "sh", "-c", change, "change", self.tools.folder / "new")
                    self.assertEqual(status, 1, told)
                    self.assertIn("stopped: norebalance is set, as pairs do not stand or groups are elsewhere", told)
                    self.assertIn("norebalance", self.state(monitor)["flags"])
