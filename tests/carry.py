"""`carry`: its states, its rules and its kills beside a cluster of the tests' own, and all of it beside a live cluster
of Ceph's daemons, where they are there.
"""

from __future__ import annotations

import contextlib
import datetime
import functools
import json
import os
import pathlib
import random
import shlex
import signal
import subprocess
import sys
import tempfile
import threading
import time
from collections import Counter
from collections.abc import Callable, Iterator, Mapping
from concurrent.futures import ThreadPoolExecutor
from typing import Any
from unittest import mock

from rekhuso.carry import carrier as carriers
from rekhuso.carry import lease
from rekhuso.carry.carrier import Carrier, CarryWish, Engine, JudgedStep
from rekhuso.carry.connection import ByCommand
from rekhuso.carry.kept import Keys, Torn, keep_plan, kept_plan
from rekhuso.carry.persons import say, told_state, way_back
from rekhuso.carry.rules import CarryLimits, is_within
from rekhuso.carry.snapshots import Snapshot, taken
from rekhuso.carry.states import CarrierState, Halted
from rekhuso.commands.carry_engine import CarryEngine, EngineWish
from rekhuso.commands.part_words import PartWords
from rekhuso.faults import Fault
from rekhuso.plans.next_step import DONE, OUT, WAITS, Amount, NextStep

from tests.carry_cluster import FSID, Killed, StandIn
from tests.cases import TOP, Case
from tests.clusters import Json
from tests.live_cluster import LiveCluster, has_daemons, system_python
from tests.schemas import faults_of
from tests.tool_cases import AS_MONITOR, ToolCase

sys.path.append(str(TOP / "bench"))

import carry_kills  # noqa: E402

# How many looks a plan takes at most.
LOOKS = 60
# A program that lies: each count behind a change is one more.
LIAR = """#!/usr/bin/env python3
import os, subprocess, sys
PROGRAM = {program!r}
if "--version" in sys.argv:
    os.execv(PROGRAM, [PROGRAM, *sys.argv[1:]])
own = subprocess.Popen([PROGRAM, *sys.argv[1:]], stdin=subprocess.PIPE, stdout=subprocess.PIPE)
sys.stdout.buffer.write(own.stdout.readline())
sys.stdout.flush()
changed = False
for line in sys.stdin.buffer:
    own.stdin.write(line)
    own.stdin.flush()
    if line == b"\\n":
        continue
    answer = own.stdout.readline()
    changed = changed or line.startswith(b"change")
    if changed and line.startswith(b"count"):
        words = answer.split()
        answer = b" ".join(words[:-1] + [b"%d" % (int(words[-1]) + 1)]) + b"\\n"
    sys.stdout.buffer.write(answer)
    sys.stdout.flush()
own.stdin.close()
sys.exit(own.wait())
"""
# A program that dies at its first change.
DYING = """#!/usr/bin/env python3
import os, subprocess, sys
PROGRAM = {program!r}
if "--version" in sys.argv:
    os.execv(PROGRAM, [PROGRAM, *sys.argv[1:]])
own = subprocess.Popen([PROGRAM, *sys.argv[1:]], stdin=subprocess.PIPE)
for line in sys.stdin.buffer:
    if line.startswith(b"change"):
        own.kill()
        sys.exit(9)
    own.stdin.write(line)
    own.stdin.flush()
own.stdin.close()
sys.exit(own.wait())
"""
NO_LIMITS = CarryLimits(None, None, None)
OWN_PLANS = CarryWish(False, "groups", False, NO_LIMITS)


class SimpleEngine:
    """An engine that asks no program: a plan that is there, whose commands come two at a time."""

    def __init__(self, plan: Json) -> None:
        self.made, self.count = plan, 0

    def check(self, snapshot: Snapshot, files: Mapping[str, str]) -> None:
        """Finds nothing against a cluster."""

    def rest(self) -> None:
        """Has nothing open."""

    def left(self, snapshot: Snapshot) -> list[str]:
        """The commands that the cluster has not."""
        found = {
            own["pgid"]: [osd for pair in own["mappings"] for osd in (pair["from"], pair["to"])]
            for own in snapshot.osd["pg_upmap_items"]
        }
        lines = [line.split(" ") for line in self.made["commands"]]
        return [" ".join(line) for line in lines if found.get(line[3]) != list(map(int, line[4:]))]

    def plan(self, snapshot: Snapshot, files: Mapping[str, str]) -> Json:
        """The plan, or an empty one where the cluster has it."""
        self.count += 1
        return dict(self.made, commands=self.left(snapshot))

    def next(self, snapshot: Snapshot, files: Mapping[str, str], plan: Json, most: int) -> JudgedStep:
        """Two commands."""
        lines, moves = self.left(snapshot), [own for own in snapshot.stats if own["up"] != own["acting"]]
        text = "".join(line + "\n" for line in lines[:2])
        status = OUT if text else WAITS if moves else DONE
        amounts = Amount(len(moves), len(moves), 0), Amount(len(lines), len(lines), 0)
        found = NextStep(status, text, "", 0, *amounts, len(moves), [], {}, {})
        return JudgedStep(found, 0, {})


class CarryCase(Case):
    """A carrier beside a cluster of the tests' own."""

    def setUp(self) -> None:
        own = mock.patch.object(lease, "settle")
        self.settle = lease.settle
        own.start()
        self.addCleanup(own.stop)
        self.world = StandIn(self.program)
        self.lines: list[str] = []

    def engine(
        self, program: "pathlib.Path | None" = None, seconds: float = 300, folder: str | None = None
    ) -> CarryEngine:
        """What judges, by the program."""
        wish = EngineWish(program or self.program, folder, PartWords(None, 2, None), "groups", seconds)
        found = CarryEngine(wish)
        self.addCleanup(found.rest)
        return found

    def carrier(self, engine: Engine | None = None, wish: CarryWish = OWN_PLANS) -> Carrier:
        """A carrier that has the lease."""
        found = Carrier(self.world, engine or self.engine(), wish, self.lines.append)
        found.begin()
        self.addCleanup(found.lease.ended.set)
        return found

    def looks(self, carrier: Carrier, code: str, most: int = LOOKS, work: int = 999) -> CarrierState:
        """Looks until a state has a code, while data follows."""
        for _ in range(most):
            state = carrier.look()
            if state.code == code:
                return state
            self.world.work(work)
        raise self.failureException(f"not {code} within {most} looks: {state}; {self.lines[-5:]}")

    def waits(self, carrier: Carrier, code: str, state: str = "waits") -> None:
        """Asks that a look gives nothing, for a reason."""
        before = len(self.world.given)
        found = carrier.look()
        self.assertEqual((found.state, found.code), (state, code), found.words)
        self.assertEqual(len(self.world.given), before)
        told = self.world.state()
        self.assertEqual((told["state"], told["code"]), (state, code))


@functools.lru_cache(maxsize=None)
def made_plan(program: pathlib.Path) -> str:
    """The plan for the cluster of the tests, as JSON."""
    world = StandIn(program)
    engine = CarryEngine(EngineWish(program, None, PartWords(None, 2, None), "groups", 300))
    snapshot = taken(world, False)
    with snapshot.files() as files:
        return json.dumps(engine.plan(snapshot, files))


class Courses(CarryCase):
    """Plans that are carried to their ends."""

    def test_course(self) -> None:
        """A plan is carried to its end, each command once, and never is more misplaced than was said; then all is
        quiet, and the program is asked no more. Each command has a line with the sum of the map that was judged."""
        limit = 0.012
        wish = CarryWish(False, "groups", False, CarryLimits(limit, None, None))
        carrier = self.carrier(wish=wish)
        self.assertEqual(self.looks(carrier, "quiet", work=2).status, 0)
        plan = json.loads(made_plan(self.program))
        given = {line.removeprefix("ceph ") for line in plan["commands"]}
        self.assertEqual(Counter(self.world.given), Counter(given))
        self.assertGreater(len(given), 10)
        self.assertLessEqual(self.world.most, limit)
        self.assertGreater(self.world.most, 0)
        told = [line for line in self.lines if line.startswith("ceph osd ")]
        self.assertEqual(len(told), len(given))
        self.assertTrue(all(len(line.rpartition("map ")[2]) == 64 for line in told), told[0])
        before = self.world.asked["osd crush dump"]
        with mock.patch.object(CarryEngine, "judged_map", side_effect=AssertionError):
            self.assertEqual(carrier.look().state, "quiet")
        self.assertEqual(self.world.asked["osd crush dump"], before + 1)

    def test_folder(self) -> None:
        """The script of a plan is carried to its end, and then all is quiet. One of another cluster, and one for
        another CRUSH map, stop the carrier."""
        plan = json.loads(made_plan(self.program))
        with tempfile.TemporaryDirectory() as folder:
            path = pathlib.Path(folder, "plan.json")
            path.write_text(json.dumps(plan))
            wish = CarryWish(True, "groups", False, NO_LIMITS)
            carrier = self.carrier(self.engine(folder=str(path)), wish)
            self.assertEqual(self.looks(carrier, "done").status, 0)
            self.assertEqual(len(self.world.given), len(plan["commands"]))
            self.assertNotIn("rekhuso/plan", self.world.keys)
            for key, value, code in (("fsid", "1" * 36, "fsid"), ("crush_map", "0" * 64, "changed")):
                path.write_text(json.dumps(dict(plan, **{key: value})))
                say(Keys(self.world), "resume")
                self.waits(carrier, code, "stopped")

    def test_dry_run(self) -> None:
        """A dry run tells what would be given, and gives and keeps nothing."""
        own = Carrier(self.world, self.engine(), CarryWish(False, "groups", True, NO_LIMITS), self.lines.append)
        own.begin()
        state = own.look()
        self.assertEqual((state.state, state.code, state.status), ("carries", "given", 10))
        self.assertTrue(own.lines)
        own.end()
        self.assertEqual((self.world.given, self.world.keys), ([], {}))


class Waits(CarryCase):
    """What a carrier waits for amid a plan: it gives nothing, keeps the plan, and goes on by itself."""

    def test_rows(self) -> None:
        """Flags, OSDs that are down, groups that are not whole, Ceph's balancer, and what is misplaced or asked for by
        clients."""
        limits = CarryLimits(None, None, 100)
        engine = SimpleEngine(json.loads(made_plan(self.program)))
        carrier = self.carrier(engine, CarryWish(False, "groups", False, limits))
        self.assertEqual(carrier.look().code, "given")
        world, osd = self.world, self.world.dump["osds"][4]
        rows: list[tuple[str, Callable[[], object], Callable[[], object]]] = [
            *(
                ("flags", lambda flag=flag: world.changed(flags=f"{flag},sortbitwise"), lambda: world.changed(flags=""))
                for flag in ("noout", "norebalance", "nobackfill", "pauserd")
            ),
            ("down", lambda: osd.update(up=0), lambda: osd.update(up=1)),
            *(
                (code, lambda key=key: world.ratios.update({key: 0.01}), world.ratios.clear)
                for code, key in carriers_ratios().items()
            ),
            ("misplaced", lambda: world.ratios.update(misplaced_ratio=0.06), world.ratios.clear),
            ("load", lambda: world.ratios.update(read_op_per_sec=90, write_op_per_sec=20), world.ratios.clear),
            ("balancer", lambda: world.balancer.update(active=True), lambda: world.balancer.update(active=False)),
            # What a monitor tells that has just begun.
            ("unknown", lambda: world.untold.add("pgmap"), world.untold.clear),
        ]
        for code, begins, ends in rows:
            with self.subTest(code=code):
                begins()
                self.waits(carrier, code)
                ends()
                self.assertIsNotNone(kept_plan(Keys(self.world)))
        self.looks(carrier, "quiet")
        self.assertEqual((len(self.world.given), engine.count), (len(engine.made["commands"]), 2))

    def test_hours(self) -> None:
        """Commands are given within a window alone, which may go past midnight; a plan is made and told all the
        same."""
        night = datetime.time(22), datetime.time(6)
        for hour, wanted in ((21, False), (22, True), (23, True), (0, True), (5, True), (6, False), (12, False)):
            self.assertEqual(is_within(night, datetime.time(hour)), wanted, hour)
        now = datetime.datetime.now()
        begin, end = ((now + datetime.timedelta(hours=hours)).time().replace(second=0) for hours in (2, 4))
        engine = SimpleEngine(json.loads(made_plan(self.program)))
        carrier = self.carrier(engine, CarryWish(False, "groups", False, CarryLimits(None, (begin, end), None)))
        self.waits(carrier, "window")
        self.assertIsNotNone(kept_plan(Keys(self.world)))

    def test_room(self) -> None:
        """Where the objects of one group are more than may be misplaced, it is not sent."""
        carrier = self.carrier(wish=CarryWish(False, "groups", False, CarryLimits(0.001, None, None)))
        self.waits(carrier, "room")

    def test_meanwhile(self) -> None:
        """Where an OSD gets another reweight between judgement and command, nothing is given; where another answers in
        the cluster's place, the carrier stops."""

        class Meddling(SimpleEngine):
            """An engine behind whose judgement something happens."""

            happens: Callable[[], object]

            def next(self, snapshot: Snapshot, files: Mapping[str, str], plan: Json, most: int) -> JudgedStep:
                """What is to be done, and then something happens."""
                found = super().next(snapshot, files, plan, most)
                self.happens()
                return found

        engine = Meddling(json.loads(made_plan(self.program)))
        carrier = self.carrier(engine)
        engine.happens = lambda: self.world.reweight(5, 0.9)
        self.waits(carrier, "meanwhile")
        engine.happens = lambda: self.world.changed(fsid="2" * 36)
        self.waits(carrier, "fsid", "stopped")

    def test_pairs_meanwhile(self) -> None:
        """An exception that comes between the last judgement and the guard is met too, at each question between."""
        plan = json.loads(made_plan(self.program))
        for prefix in ("status", "balancer status", "config-key get"):
            with self.subTest(prefix=prefix):
                self.world = StandIn(self.program)
                carrier = self.carrier(SimpleEngine(plan))
                pairs = [{"pgid": "2.5", "mappings": [{"from": 99, "to": 98}]}]
                engine = carrier.engine
                own = engine.next

                def late(*words: Any, own: Any = own, prefix: str = prefix, pairs: Any = pairs) -> Any:
                    """What is to be done; at the next question of a prefix an exception comes."""
                    self.world.then(prefix, lambda: self.world.changed(pg_upmap_items=pairs))
                    return own(*words)

                with mock.patch.object(engine, "next", late):
                    self.waits(carrier, "meanwhile")


def carriers_ratios() -> dict[str, str]:
    """What the manager says of groups that are not whole, by the code of each."""
    return {"unknown": "unknown_pgs_ratio", "inactive": "inactive_pgs_ratio", "degraded": "degraded_ratio"}


class Programs(CarryCase):
    """Programs that are not there, die, take too long, and lie."""

    def put(self, text: str) -> pathlib.Path:
        """A program with a text."""
        folder = tempfile.TemporaryDirectory()
        self.addCleanup(folder.cleanup)
        path = pathlib.Path(folder.name, "osdmapd")
        path.write_text(text)
        path.chmod(0o755)
        return path

    def test_program(self) -> None:
        """A program that is missing, dies or takes too long is waited for, before a plan and amid one, and the plan is
        kept; `--once` then says that it cannot be asked."""
        programs = {
            "missing": pathlib.Path("/nonexistent/osdmapd"),
            "dies": self.put(f"{AS_MONITOR}echo session 1; read line; exit 139\n"),
            "slow": self.put(f"{AS_MONITOR}exec sleep 60\n"),
        }
        carrier = self.carrier()
        for is_amid in (False, True):
            for name, program in programs.items():
                with self.subTest(name=name, is_amid=is_amid):
                    carrier.engine = self.engine(program, 2)
                    self.waits(carrier, "program")
                    self.assertEqual(carrier.record.state.status, 2)
                    self.assertEqual(kept_plan(Keys(self.world)) is not None, is_amid)
            carrier.engine = self.engine()
            self.assertEqual(self.looks(carrier, "given", 2).status, 10)

    def test_program_amid(self) -> None:
        """A program that dies as it judges commands is waited for too, and the plan is kept: nothing is known of the
        cluster by that."""
        carrier = self.carrier()
        self.assertEqual(carrier.look().code, "given")
        self.world.work()
        plan = kept_plan(Keys(self.world))
        carrier.engine = self.engine(self.put(DYING.format(program=str(self.program))))
        self.waits(carrier, "program")
        self.assertEqual(kept_plan(Keys(self.world)), plan)
        carrier.engine = self.engine()
        self.looks(carrier, "quiet")
        self.assertEqual([line for line, count in Counter(self.world.given).items() if count > 1], [])

    def test_liar(self) -> None:
        """A plan that the program judges to be false stops the carrier, with status 70, until a person says so; another
        carrier that comes after it stays stopped too."""
        liar = self.put(LIAR.format(program=str(self.program)))
        carrier = self.carrier(self.engine(liar))
        self.waits(carrier, "misjudged", "stopped")
        self.assertEqual(carrier.record.state.status, 70)
        carrier.engine = self.engine()
        self.waits(carrier, "misjudged", "stopped")
        carrier.end()
        other = self.carrier()
        self.waits(other, "misjudged", "stopped")
        say(Keys(self.world), "resume")
        self.assertEqual(other.look().code, "given")

    def test_elsewhere(self) -> None:
        """A group that lies elsewhere than it was foretold once its pair stands stops the carrier, with status 70."""
        carrier = self.carrier()
        group = json.loads(made_plan(self.program))["commands"][0].split(" ")[3]
        self.world.elsewhere[group] = [0, 4, 9]
        state = carrier.look()
        self.assertEqual((state.state, state.code, state.status), ("stopped", "misjudged", 70), state.words)
        self.assertIn(f"{group} has [0, 4, 9]", state.words)
        self.waits(carrier, "misjudged", "stopped")

    def test_verify(self) -> None:
        """Where groups lie elsewhere than the program says, nothing is given, and the carrier stops once they do for
        longer than OSDs take to tell."""
        carrier = self.carrier()
        own = self.world.base["2.7"]
        self.world.base = {**self.world.base, "2.7": [own[1], own[0], own[2]]}
        self.waits(carrier, "verify")
        with mock.patch.object(carriers, "LATE", 0.0):
            self.waits(carrier, "verify", "stopped")


class Persons(CarryCase):
    """What a person says."""

    def test_said(self) -> None:
        """Paused it keeps the plan, and goes on with the same; stopped it drops it, and makes another. The way back is
        told while it is not carried."""
        engine = SimpleEngine(json.loads(made_plan(self.program)))
        carrier, keys = self.carrier(engine), Keys(self.world)
        self.assertEqual(carrier.look().code, "given")
        with self.assertRaisesRegex(Fault, "a carrier would give it again"):
            way_back(keys)
        say(keys, "pause")
        self.waits(carrier, "said", "paused")
        text = way_back(keys)
        self.assertEqual([line for line in text.splitlines() if line.startswith("ceph ")], engine.made["undo"])
        self.assertIn(f"^fsid {FSID}$", text)
        self.assertIsNotNone(kept_plan(keys))
        say(keys, "resume")
        self.assertEqual((carrier.look().code, engine.count), ("given", 1))
        say(keys, "stop")
        self.waits(carrier, "said", "off")
        self.assertIsNone(kept_plan(keys))
        self.assertIn("ceph osd rm-pg-upmap-items", way_back(keys))
        say(keys, "resume")
        self.world.work()
        self.assertEqual((carrier.look().code, engine.count), ("given", 2))
        self.assertEqual(told_state(keys).parts["state"], "carries")

    def test_vain(self) -> None:
        """A command that the monitors take, and that does not stand, is given three times; then the carrier stops, also
        one that comes after it. Once a person says so it is given again."""
        plan = json.loads(made_plan(self.program))
        engine = SimpleEngine(plan)
        self.world.lost = {plan["commands"][0].split(" ")[3]}
        carrier = self.carrier(engine)
        for _ in range(3):
            state = carrier.look()
            self.assertEqual((state.state, state.code), ("waits", "not-taken"), state.words)
        self.waits(carrier, "vain", "stopped")
        carrier.end()
        other = self.carrier(engine)
        self.waits(other, "vain", "stopped")
        self.world.lost.clear()
        say(Keys(self.world), "resume")
        self.looks(other, "quiet")
        self.assertEqual(Counter(self.world.given)[plan["commands"][0].removeprefix("ceph ")], 4)

    def test_refused(self) -> None:
        """A command that the monitors refuse is waited for; a cluster that gives no answer is a failure, which ends
        once it does."""
        engine = SimpleEngine(json.loads(made_plan(self.program)))
        carrier = self.carrier(engine)
        self.world.refused["osd pg-upmap-items"] = "access denied"
        self.waits(carrier, "not-taken")
        self.world.refused.clear()
        self.world.refused["osd dump"] = "no"
        self.waits(carrier, "refused")
        self.world.refused.clear()
        self.looks(carrier, "quiet")

    def test_warning(self) -> None:
        """A person is warned where it waits for an hour, or has stopped."""
        self.assertFalse(CarrierState("waits", "flags", "").is_warned(3599))
        self.assertTrue(CarrierState("waits", "flags", "").is_warned(3600))
        self.assertTrue(CarrierState("stopped", "vain", "").is_warned(0))
        self.assertFalse(CarrierState("quiet", "quiet", "").is_warned(9999))


class Leases(CarryCase):
    """That one carrier alone is at work."""

    def test_two(self) -> None:
        """Beside a carrier at work a second one stops, and the first goes on. Once the lease has ended the second takes
        it; the first then gives nothing more, and stops."""
        engine = SimpleEngine(json.loads(made_plan(self.program)))
        first = self.carrier(engine)
        with self.assertRaises(Halted) as found:
            self.carrier(engine)
        self.assertEqual((found.exception.code, found.exception.status), ("carrier", 1))
        self.assertEqual(first.look().code, "given")
        own = json.loads(self.world.keys["rekhuso/lease"])
        self.world.keys["rekhuso/lease"] = json.dumps(dict(own, until=time.time() - 60))
        second = self.carrier(engine)
        before = len(self.world.given)
        self.assertEqual((first.look().code, len(self.world.given)), ("carrier", before))
        self.assertEqual(second.look().code, "given")
        self.assertEqual(self.world.state()["state"], "carries")

    def test_at_once(self) -> None:
        """Of two that begin at once one has the lease, and the other stops."""
        for at in range(3):
            with self.subTest(at=at), mock.patch.object(lease, "settle", self.settle):
                world = StandIn(self.program)
                own = [Carrier(world, SimpleEngine({}), OWN_PLANS, self.lines.append) for _ in range(2)]
                together = threading.Barrier(2)

                def begun(carrier: Carrier, together: Any = together) -> str:
                    """What comes of a carrier that begins."""
                    together.wait(60)
                    try:
                        carrier.lease.take()
                        carrier.lease.check_own()
                    except Fault as fault:
                        return fault.code
                    return "has it"

                with ThreadPoolExecutor(2) as threads:
                    found = list(threads.map(begun, own))
                self.assertEqual(sorted(found), ["carrier", "has it"])

    def test_slow(self) -> None:
        """Where the monitors take longer for a key than a lease waits, it is not taken."""
        put = Keys.put

        def slow(keys: Keys, key: str, text: str) -> None:
            """Keeps a value late."""
            time.sleep(0.05)
            put(keys, key, text)

        with mock.patch.object(Keys, "put", slow), mock.patch.object(lease, "SETTLED", 0.02):
            with self.assertRaisesRegex(Fault, "too long to write a key"):
                Carrier(self.world, SimpleEngine({}), OWN_PLANS, self.lines.append).begin()


class Kills(CarryCase):
    """A carrier that is killed, at any of its questions, and another that comes after it."""

    def dead(self) -> None:
        """Has the holder of the lease, and of the lock of givers, be gone: another process of its number has begun
        since."""
        text = self.world.keys.get("rekhuso/lease")
        if text is not None:
            self.world.keys["rekhuso/lease"] = json.dumps(dict(json.loads(text), began="0"))
        for key in [key for key in self.world.keys if key.startswith("rekhuso/giver/")]:
            self.world.keys[key] = json.dumps(dict(json.loads(self.world.keys[key]), began="0"))

    def test_kills(self) -> None:
        """Killed at 30 moments, also amid commands and keys, and carried on: the plan ends as foretold, and no command
        is given twice."""
        plan = json.loads(made_plan(self.program))
        wanted = Counter(line.removeprefix("ceph ") for line in plan["commands"])
        moments = sorted(random.Random(7).sample(range(4, 240), 30))
        for at in moments:
            with self.subTest(at=at):
                self.world = StandIn(self.program)
                self.world.kill_at = at
                with contextlib.suppress(Killed):
                    self.looks(self.carrier(SimpleEngine(plan)), "quiet")
                self.world.kill_at = None
                self.dead()
                other = Carrier(self.world, SimpleEngine(plan), OWN_PLANS, self.lines.append)
                other.begin()
                self.looks(other, "quiet")
                other.end()
                self.assertEqual(Counter(self.world.given), wanted)

    def test_chunks(self) -> None:
        """A plan of many chunks is kept as it is, each of them below what a key may have. Killed at any of the keys,
        the one before is there or the new one, whole; behind it the next one is kept."""
        keys = Keys(self.world)
        plans = [{"commands": [f"ceph osd pg-upmap-items 2.{at:x} {own} 5" for at in range(9000)]} for own in (1, 2, 3)]
        keep_plan(keys, plans[0])
        self.assertEqual(kept_plan(keys), plans[0])
        self.assertGreater(len([key for key in self.world.keys if key.startswith("rekhuso/plan.")]), 4)
        whole = dict(self.world.keys)
        for at in range(1, 40):
            self.world.keys, self.world.count, self.world.kill_at = dict(whole), 0, at
            is_killed = False
            try:
                keep_plan(keys, plans[1])
            except Killed:
                is_killed = True
            self.world.kill_at = None
            found = kept_plan(keys)
            self.assertIn(found, plans[:2], at)
            keep_plan(keys, plans[2])
            self.assertEqual(kept_plan(keys), plans[2], at)
            if not is_killed:
                self.assertEqual(found, plans[1])
                break
        self.assertFalse(is_killed)
        self.assertGreater(at, 12)

    def test_torn(self) -> None:
        """A plan of which a chunk is another is torn: it is dropped, and another is made."""
        engine = SimpleEngine(json.loads(made_plan(self.program)))
        carrier = self.carrier(engine)
        self.assertEqual(carrier.look().code, "given")
        key = next(key for key in self.world.keys if key.startswith("rekhuso/plan."))
        self.world.keys[key] = self.world.keys[key][:-9]
        with self.assertRaises(Torn):
            kept_plan(Keys(self.world))
        self.waits(carrier, "torn")
        self.looks(carrier, "quiet")
        self.assertEqual(len(self.world.given), len(engine.made["commands"]))


class Words(ToolCase):
    """The command line."""

    def test_use(self) -> None:
        """Words that mean nothing, and options that would be passed over, are an error of use; where there is no
        cluster, nothing can be asked."""
        for words, told in (
            (["begin", "conf"], "carry takes CONF, or one of status, pause, resume, stop, undo and CONF"),
            (["status", "conf", "--once"], "carry status takes CONF, --name, --keyring and --json alone"),
            (["conf", "--plan", "parts", "--by", "data"], "--by says how plans are made"),
            (["conf", "--json"], "--json goes with status, --once and --dry-run"),
            (["conf", "--window", "22-06"], "22-06: no hours of a day, as 22:00-06:00"),
            (["conf", "--most-misplaced", "5"], "5: no share of all objects from 0 to 1"),
            (["conf", "--interval", "0"], "0: no number of seconds from 0.1 to 86400"),
        ):
            self.is_told(self.tools.run("carry", *words), 2, told, words)
        found = self.tools.run("carry", self.tools.folder / "nothing.conf", "--once")
        self.assertEqual(found[:2], (2, ""), found)


class LiveCarrying(ToolCase):
    """The command beside a live cluster of 8 OSDs."""

    is_alone = True

    def words(self, cluster: LiveCluster, *words: object) -> list[str]:
        """The words of the command for a cluster, by the system's Python."""
        own = [*([] if "--name" in words else ["--name", "client.admin"]), "--program", self.program]
        said = words[:1] if words and words[0] in ("status", "pause", "resume", "stop", "undo") else ()
        first = [system_python() or "", "-B", TOP / "tools" / "rekhuso", "carry", *said, cluster.conf]
        return [*map(str, first), *map(str, own), *map(str, words[len(said) :])]

    def carry(self, cluster: LiveCluster, *words: object) -> tuple[int, str, str]:
        """What the command ends with and tells."""
        done = subprocess.run(
            self.words(cluster, *words), capture_output=True, text=True, timeout=300, check=False, cwd=self.tools.folder
        )
        return done.returncode, done.stdout, done.stderr

    def state(self, cluster: LiveCluster) -> Json:
        """The state of the carrier."""
        status, output, error = self.carry(cluster, "status", "--json")
        self.assertEqual(status, 0, error)
        told = json.loads(output)
        self.assertEqual(faults_of(told), [])
        return told

    def begun(self, cluster: LiveCluster, *words: object) -> subprocess.Popen[bytes]:
        """A carrier that looks each second."""
        log = (self.tools.folder / "log").open("ab")
        found = subprocess.Popen(
            self.words(cluster, "--interval", 1, *words), stdin=subprocess.DEVNULL, stdout=log, stderr=log
        )
        log.close()
        self.addCleanup(found.wait)
        self.addCleanup(found.kill)
        return found

    @property
    def log(self) -> str:
        """What carriers have told."""
        return (self.tools.folder / "log").read_text()

    def until(self, cluster: LiveCluster, is_so: Callable[[Json], bool], what: str) -> None:
        """Waits until the state is so."""

        def found() -> bool:
            """Whether it is."""
            with contextlib.suppress(AssertionError):
                return is_so(self.state(cluster))
            return False

        cluster.until(found, what, 240)

    @contextlib.contextmanager
    def cluster(self) -> Iterator[LiveCluster]:
        """A cluster with two pools, that is clean and uneven."""
        self.needs("cluster of Ceph's daemons (Debian: ceph-mon, ceph-mgr, ceph-osd)", has_daemons())
        self.needs("librados' Python (Debian: python3-rados)", system_python() is not None)
        with LiveCluster() as found:
            found.pools(vm=32, files=16)
            yield found

    def test_course(self) -> None:
        """A plan is carried to its end through kills of the carrier, flags, another balancer and a second carrier, and
        each command is given once; then all is quiet, and the cluster has what the plan foretold."""
        with self.cluster() as cluster:
            status, output, error = self.carry(cluster, "--dry-run")
            self.assertEqual(status, 10, error)
            self.assertTrue(output.startswith("ceph osd pg-upmap-items "), output)
            self.assertEqual(cluster.pairs(), {})
            cluster.ceph("osd", "set", "noout")
            self.assertEqual(self.carry(cluster, "--once")[0], 11)
            self.assertEqual(self.state(cluster)["code"], "flags")
            cluster.ceph("osd", "unset", "noout")
            first = self.begun(cluster)
            self.until(cluster, lambda own: bool(own["commands"] > 0), "commands are given")
            status, _, error = self.carry(cluster, "--once")
            self.assertEqual(status, 1, error)
            self.assertIn("another carrier is at work", error)
            first.send_signal(signal.SIGKILL)
            first.wait()
            cluster.ceph("balancer", "mode", "upmap")
            cluster.ceph("balancer", "on")
            second = self.begun(cluster)
            self.until(cluster, lambda own: bool(own["code"] == "balancer"), "it waits for the balancer")
            cluster.ceph("balancer", "off")
            self.until(cluster, lambda own: bool(own["state"] == "quiet"), "all is quiet")
            second.send_signal(signal.SIGTERM)
            self.assertEqual(second.wait(60), 0)
            self.assertEqual(self.carry(cluster, "--once")[0], 0)
            self.assertEqual([line for line, count in Counter(self.given()).items() if count > 1], [], self.log)
            self.assertGreater(len(cluster.pairs()), 3)
            self.by_command(cluster)

    def given(self) -> list[str]:
        """The commands that carriers have told to be taken."""
        found = [line.partition(" ceph osd ")[2].partition(": ") for line in self.log.splitlines()]
        return [line for line, _, told in found if told.startswith("0 ")]

    def test_kills(self) -> None:
        """Carrier, program, manager and monitor are killed at moments by chance, also amid chunks of a plan and amid
        commands (`bench/carry_kills.py`): the cluster has what the plan foretold, no command was taken twice, and never
        was more misplaced than may be. Where LONG is set there are 30 kills."""
        self.needs("cluster of Ceph's daemons (Debian: ceph-mon, ceph-mgr, ceph-osd)", has_daemons())
        self.needs("librados' Python (Debian: python3-rados)", system_python() is not None)
        kills = carry_kills.KILLS if os.environ.get("LONG") else 8
        rounds = list(carry_kills.killed(str(self.program), kills, int(os.environ.get("SEED", carry_kills.SEED))))
        for own in rounds:
            self.assertEqual(own.amiss, [], own)
            self.assertGreater(own.foretold, 3)
            self.assertGreater(own.most, 0)
        self.assertEqual(sum(sum(own.kills.values()) for own in rounds), kills)
        self.assertGreater(sum(own.chunks for own in rounds), 0)

    def test_drain(self) -> None:
        """A drain is carried to its end: the OSD is empty and out, norebalance is not set, and nothing is left."""
        with self.cluster() as cluster:
            files = [self.tools.folder / name for name in ("osd.json", "crush.json")]
            files[0].write_text(cluster.ceph("osd", "dump", "-f", "json"))
            files[1].write_text(cluster.ceph("osd", "crush", "dump"))
            self.output("drain", *files, "osd.7", "--batch", 4, "--to", "drained")
            carrier = self.begun(cluster, "--plan", self.tools.folder / "drained")
            self.until(cluster, lambda own: own["code"] in ("done", "stage"), "all is done")
            self.assertEqual(self.state(cluster)["state"], "quiet", self.log)
            carrier.send_signal(signal.SIGTERM)
            self.assertEqual(carrier.wait(60), 0)
            dump = cluster.json("osd", "dump")
            self.assertEqual([own["weight"] for own in dump["osds"] if own["osd"] == 7], [0])
            self.assertNotIn("norebalance", dump["flags"])
            stats = cluster.json("pg", "dump", "pgs")["pg_stats"]
            self.assertFalse([own["pgid"] for own in stats if 7 in own["acting"]])

    def test_key(self) -> None:
        """The key of docs/CARRY.md may do what a carrier does, and nothing else: no other command, and no other key."""
        self.needs("cluster of Ceph's daemons (Debian: ceph-mon, ceph-mgr, ceph-osd)", has_daemons())
        self.needs("librados' Python (Debian: python3-rados)", system_python() is not None)
        page = (TOP / "docs" / "CARRY.md").read_text().partition("## The key\n\n")[2].partition("\n\nIt can")[0]
        words = shlex.split(" ".join(page.partition(" > ")[0].split()))
        with LiveCluster(disks=0, has_keys=True) as cluster:
            path = cluster.folder / "own"
            path.write_text(cluster.ceph(*words[1:]))
            own = ["--name", "client.rekhuso", "--keyring", path]
            cluster.ceph("osd", "pool", "create", "rbd", 1, 1)
            status, _, error = self.carry(cluster, "--once", *own)
            self.assertNotIn("denied", error)
            self.assertIn(status, (0, 11), error)
            self.assertIn("rekhuso/state", cluster.ceph("config-key", "ls"))
            for asked, denied in (
                (["config-key", "set", "other", "x"], True),
                (["config-key", "set", "rekhuso/x", "x"], False),
                (["osd", "set", "noout"], True),
                (["osd", "out", "0"], True),
                (["osd", "pg-upmap-items", "1.0", "0", "1"], False),
                (["auth", "ls"], True),
            ):
                with self.subTest(asked=asked):
                    found = subprocess.run(
                        ["ceph", "-c", *map(str, [cluster.conf, *own]), *asked],
                        capture_output=True,
                        text=True,
                        check=False,
                    )
                    self.assertEqual("EACCES" in found.stderr, denied, found.stderr)

    def by_command(self, cluster: LiveCluster) -> None:
        """Asks that the connection by the command `ceph` answers and keeps as librados' does."""
        own = ByCommand(["ceph", "-c", str(cluster.conf), "--name", "client.admin"])
        keys = Keys(own)
        self.assertIsNone(keys.get("nothing"))
        keys.put("trial", '{"a": "b c"}')
        self.assertEqual(keys.value("trial"), {"a": "b c"})
        keys.drop("trial")
        self.assertIsNone(keys.get("trial"))
        snapshot = taken(own, True)
        self.assertEqual(len(snapshot.stats), 49)
        group, pairs = next(iter(cluster.pairs().items()))
        replies = own.give([{"prefix": "osd pg-upmap-items", "pgid": group, "id": pairs}])
        self.assertEqual([reply.status for reply in replies], [0], replies)
