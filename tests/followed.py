"""Sessions that stay open and follow a cluster by changes: they have Ceph's own sets, and are begun anew where they
have ended.
"""

from __future__ import annotations

import contextlib
from collections.abc import Iterator
from typing import Any
from unittest import mock

from rekhuso.carry import lease
from rekhuso.carry.carrier import Carrier, CarryWish
from rekhuso.carry.rules import CarryLimits
from rekhuso.cluster import followed
from rekhuso.cluster.cluster import Cluster
from rekhuso.cluster.followed import Followed, following, session_over
from rekhuso.cluster.view import view_of_cluster
from rekhuso.commands.carry_engine import CarryEngine, EngineWish
from rekhuso.commands.part_words import PartWords
from rekhuso.faults import Fault
from rekhuso.plans.courses import Course
from rekhuso.plans.printed_commands import commands_in
from rekhuso.program.monitor import Monitor

from tests.carry_cluster import StandIn
from tests.cases import Case
from tests.clusters import NOBODY, STOCK, Json

# Clusters with pairs: also of erasure pools, of OSDs that are gone, and in racks.
NAMES = ("002-proxmox", "005-openstack-mixed", "009-racks", "013-removed", "014-replaced")


class Following(Case):
    """Sessions that follow."""

    def setUp(self) -> None:
        self.starts, own = 0, Monitor._started
        self.followed = Followed()
        self.addCleanup(self.followed.close)

        def started(*given: Any) -> Any:
            """Starts the program, and counts it."""
            self.starts += 1
            return own(*given)

        patch = mock.patch.object(Monitor, "_started", started)
        patch.start()
        self.addCleanup(patch.stop)

    def maps(self, name: str) -> list[Json]:
        """The maps of a cluster."""
        own = STOCK[name]
        return list(view_of_cluster(Cluster(own["osd_dump"], own["crush_dump"], frozenset(), {})).maps)

    def sets(self, value: Json) -> dict[str, list["int | None"]]:
        """The sets of a map, by a session that follows."""
        with following(self.followed), session_over(value, self.program) as session:
            return session.pool_sets(value["pools"])

    def as_in_ceph(self, name: str, value: Json) -> None:
        """Asks that the sets of a map are those that Ceph tells of the cluster."""
        told = STOCK[name]["up"]
        for group, places in self.sets(value).items():
            self.assertEqual(places, [None if osd in NOBODY else osd for osd in told[group][0]], (name, group))

    def test_sets(self) -> None:
        """Brought from a map without pairs to one that has Ceph's, and there and back again, the sets are Ceph's, and
        the program has started once for each map."""
        for name in NAMES:
            with self.subTest(name=name):
                maps = self.maps(name)
                self.assertTrue(any(value["pg_upmap_items"] for value in maps))
                before = self.starts
                for value in maps:
                    bare = dict(value, pg_upmap=[], pg_upmap_items=[], epoch=value["epoch"] + 5)
                    first = self.sets(bare)
                    self.as_in_ceph(name, value)
                    self.assertEqual(self.sets(bare), first)
                    self.as_in_ceph(name, value)
                self.assertEqual(self.starts - before, len(maps))

    def test_course(self) -> None:
        """Commands that are given to a map leave it as it was for the next question: the sets are Ceph's again."""
        name = "002-proxmox"
        for value in self.maps(name):
            lines = [f"ceph osd rm-pg-upmap-items {group}" for group, _ in value["pg_upmap_items"]]
            with following(self.followed):
                own = Course(value, commands_in("\n".join(lines)), self.program)
            self.assertEqual(own.last["pg_upmap_items"], [])
            self.as_in_ceph(name, value)
        self.assertEqual(self.starts, len(self.maps(name)))

    def test_ended(self) -> None:
        """A session that was killed meanwhile, one whose journal is full and one in whose block something failed are
        begun anew."""
        name = "002-proxmox"
        value = self.maps(name)[0]
        bare = dict(value, pg_upmap_items=[])
        self.as_in_ceph(name, value)
        for own in self.followed.open.values():
            own.monitor._process.kill()
            own.monitor._process.wait()
        self.as_in_ceph(name, value)
        self.assertEqual(self.starts, 2)
        with mock.patch.object(followed, "MOST_CHANGES", 1):
            self.sets(bare)
            self.as_in_ceph(name, value)
        self.assertEqual(self.starts, 4)
        with contextlib.suppress(Fault), following(self.followed), session_over(value, self.program):
            raise Fault("something fails")
        self.assertEqual(self.followed.open, {})
        self.as_in_ceph(name, value)
        self.assertEqual(self.starts, 5)

    def test_unused(self) -> None:
        """A session that was not used from one time to the next is ended, and with `close` all are."""
        value = self.maps("002-proxmox")[0]
        self.sets(value)
        own = [one.monitor._process for one in self.followed.open.values()]
        self.followed.close_unused()
        self.assertEqual([process.poll() for process in own], [None])
        self.followed.close_unused()
        self.assertTrue(all(process.poll() is not None for process in own))
        self.sets(value)
        self.followed.close()
        self.assertEqual(self.followed.open, {})

    @contextlib.contextmanager
    def carrier(self, world: StandIn) -> Iterator[Carrier]:
        """A carrier beside a cluster of the tests' own."""
        engine = CarryEngine(EngineWish(self.program, None, PartWords(None, 2, None), "groups", 300))
        with mock.patch.object(lease, "settle"):
            own = Carrier(world, engine, CarryWish(False, "groups", False, CarryLimits(None, None, None)), print)
            with mock.patch.object(own, "log"):
                own.begin()
                yield own
                own.end()
        self.assertEqual(engine.followed.open, {})

    def test_looks(self) -> None:
        """A look at a cluster whose plan is carried starts no program, and once all is quiet none is left."""
        world = StandIn(self.program)
        with self.carrier(world) as own:
            self.assertEqual(own.look().code, "given")
            begun = self.starts
            for _ in range(3):
                world.work(4)
                self.assertEqual(own.look().code, "given")
            self.assertEqual(self.starts, begun)
            while own.record.state.state != "quiet":
                world.work()
                own.look()
            engine = own.engine
            assert isinstance(engine, CarryEngine)
            self.assertEqual(engine.followed.open, {})
