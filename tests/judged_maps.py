"""`readmap --judge`, which tells what a script does to the map of a cluster's own bytes: plans, releases and holds that
the tools make of the same file stand, and lead where the program of sessions says; and a script in which a line is
changed is in doubt at that line.

The maps are those of `read_maps.py`, and the program is the one that it runs.
"""

from __future__ import annotations

import os
import pathlib
import random
import re
import shutil
import struct
import subprocess
from collections import Counter
from typing import Any

from rekhuso import Monitor, Refused
from rekhuso.cluster.cluster import Cluster
from rekhuso.cluster.conversion import map_of
from rekhuso.cluster.dumps import both_dumps
from rekhuso.plans.printed_commands import PrintedCommand, command_in, commands_in
from rekhuso.program.answers import Up
from rekhuso.program.maps import Entry, Map, with_all_up

from tests.binary_maps import maps_of, with_crc
from tests.read_maps import SECONDS, comes_in, given, reader
from tests.tool_cases import StockCase, Tools

# How many commands are drawn over each map, and one more over the odd one; what a map refuses of them; and why a
# monitor takes exceptions away, as the program tells it, by a session's reason, where {} stands for each of its
# numbers. Before the two last of these comes another reason, whatever a command by itself says.
DRAWN = 40
ODD = "ceph osd pg-upmap 3.0 4 8 0"
REFUSALS = ("UnknownGroup", "UnknownOsd", "BadException")
GONE = {
    "chooseleaf {} {} {}": "by step {} osd.{} and osd.{} stand below one bucket",
    "choose {} {}": "its set stands below {1} buckets, more than step {0} chooses",
    "take {} {}": "a place stands outside of what is taken before step {}",
    "unreached {}": "the rule does not reach osd.{}",
    "idle-set": "its set is what the rule gives",
    "set-length": "its set has another length than the pool's size",
    "idle-pairs": "none of its pairs does anything",
    "unreached none": "a place is empty",
    "out {}": "osd.{} is out",
}
# Of what goes by a part of a change, the kind of exceptions that stays.
OTHER = {"old_upmap": "items", "old_items": "upmap"}


def odd_map() -> bytes:
    """A map in which osd.0 weighs nothing, osd.3 is out, and replicated pools have more places than their rule."""
    data = maps_of("16.2.15")["few_hosts"]
    for old, new in (
        ([476898] * 4, [0] + [476898] * 3),
        ([12] + [65536] * 12, [12] + [65536] * 3 + [0] + [65536] * 8),
        ([6, 0, 1], [6, 2, 1]),
    ):
        own, other = (struct.pack(f"<{len(words)}I", *words) for words in (old, new))
        assert own in data, old
        data = data.replace(own, other)
    return with_crc(data)


def gone(why: str) -> tuple[str, str]:
    """The form of a session's reason, and what the program tells for it."""
    form = why if why in GONE else re.sub("[0-9]+|none", "{}", why)
    return form, GONE[form].format(*why.split(" ")[1:])


def exceptions_of(value: Map, group: str) -> dict[str, Entry | None]:
    """The exceptions of a group in a map, by their kind."""
    keys = {"upmap": value["pg_upmap"], "items": value["pg_upmap_items"]}
    return {kind: next((own for one, own in entries if one == group), None) for kind, entries in keys.items()}


def drawn(chance: random.Random, monitor: Monitor, value: Map) -> str:
    """A command on exceptions of a group, whose OSDs are drawn among those of its set and others."""
    pool, osds = chance.choice(value["pools"]), range(value["max_osd"] + 1)
    number = chance.randrange(pool["pg_num"])
    there = [osd for osd in monitor.up(f"{pool['id']}.{number:x}").places if osd is not None]
    group = f"{pool['id']}.{number if chance.random() < 0.95 else pool['pg_num']:x}"
    kind = chance.randrange(8)
    if kind < 2:
        return f"ceph osd rm-pg-upmap{'-items' * kind} {group}"
    if kind < 6:
        pairs = [(chance.choice([*there, chance.choice(osds)]), chance.choice(osds)) for _ in range(kind // 2)]
        return f"ceph osd pg-upmap-items {group} {' '.join(f'{one} {other}' for one, other in pairs)}"
    own = [chance.choice(osds) if chance.random() < 0.3 else osd for osd in [*there, chance.choice(osds)]]
    return f"ceph osd pg-upmap {group} {' '.join(map(str, own[: chance.randint(1, 9)]))}"


def shown(up: Up) -> str:
    """A set as the program tells it."""
    return "[" + ",".join("none" if osd is None else str(osd) for osd in up.places) + "]"


def counts_in(monitor: Monitor, value: Map) -> Counter[int]:
    """How many groups each OSD has."""
    return Counter(osd for up in monitor.pool_ups(value["pools"]).values() for osd in set(up.places) if osd is not None)


class JudgedMaps(StockCase):
    """Scripts over binary maps."""

    PROGRAMS = ("OSDMAPD", "READMAP")

    def setUp(self) -> None:
        self.needs(f"program {reader()} (READMAP names another)", os.access(reader(), os.X_OK))
        super().setUp()

    def judged(self, script: str, path: pathlib.Path) -> tuple[int, list[str], str]:
        """What the program tells of a script: its status, the lines of its output, and its error."""
        own = self.tools.put("script", script)
        words = [reader(), "--judge", own, path]
        done = subprocess.run(list(map(str, words)), capture_output=True, text=True, timeout=SECONDS, check=False)
        return done.returncode, done.stdout.splitlines(), done.stderr

    def is_as_told(self, script: str, path: pathlib.Path, cluster: Cluster) -> None:
        """A script stands, each command leads where a session says, and each OSD has as many groups then."""
        status, lines, error = self.judged(script, path)
        self.assertEqual((status, error), (0, ""))
        value, commands = with_all_up(map_of(cluster)), commands_in(script, others_of(script))
        own = {command.line for command in commands}
        numbers = [at for at, line in enumerate(script.splitlines(), 1) if line in own]
        with Monitor(value, program=self.program, stock=True) as monitor:
            before = counts_in(monitor, value)
            for at, command, line in zip(numbers, commands, lines):
                was = monitor.up(command.group)
                monitor.change(**command.change)
                now = monitor.up(command.group)
                self.assertEqual(line, f"line {at}: {command.group} goes from {shown(was)} to {shown(now)}")
            after = counts_in(monitor, value)
        osds = sorted(osd["id"] for osd in value["osds"] if osd["exists"])
        self.assertEqual(lines[len(commands) : -1], [f"osd.{osd} {before[osd]} {after[osd]}" for osd in osds])
        self.assertEqual(lines[-1], f"{len(commands)} commands, all to be given")

    def test_plans(self) -> None:
        """The plan of each map that comes in, and the way from the exceptions that it has."""
        plans = releases = commands = 0
        for name, data in given():
            path = self.tools.folder / "osdmap"
            path.write_bytes(data)
            cluster, faults = both_dumps(str(path), str(path))
            if faults or not comes_in(cluster):
                continue
            with self.subTest(name):
                status, plan, _ = self.tools.run("plan", path)
                if status == 0 and plan:
                    self.is_as_told(plan, path, cluster)
                    plans, commands = plans + 1, commands + len(commands_in(plan, others_of(plan)))
                status, release, _ = self.tools.run("release", path)
                if status == 0 and release:
                    self.is_as_told(release, path, cluster)
                    releases += 1
        self.assertGreater(plans, 10)
        self.assertGreater(releases, 0)
        self.assertGreater(commands, 100)

    def test_holds(self) -> None:
        """What holds groups behind another CRUSH weight, over the map that has it. Ceph's tools make that map."""
        self.needs("osdmaptool and crushtool", all(map(shutil.which, ("osdmaptool", "crushtool"))))
        old, new, crush = (self.tools.folder / name for name in ("old", "new", "crush"))
        for data in (old, new):
            data.write_bytes(maps_of("16.2.15")["four_hosts"])
        for words in (
            ["osdmaptool", new, "--export-crush", crush],
            ["crushtool", "-i", crush, "--reweight-item", "osd.0", "2.5", "-o", crush],
            ["osdmaptool", new, "--import-crush", crush],
        ):
            subprocess.run(list(map(str, words)), capture_output=True, timeout=SECONDS, check=True)
        status, hold, error = self.tools.run("hold", old, new)
        self.assertEqual((status, hold.count(" pg-upmap-items ")), (0, 58), error)
        self.is_as_told(hold, new, both_dumps(str(new), str(new))[0])
        self.assertEqual(self.judged(hold, old)[0], 1)

    def planned(self) -> tuple[str, pathlib.Path, Cluster]:
        """A plan of three commands or more, with the file of its map."""
        for _, data in given():
            path = self.tools.folder / "osdmap"
            path.write_bytes(data)
            cluster, faults = both_dumps(str(path), str(path))
            if not faults and comes_in(cluster):
                status, plan, _ = self.tools.run("plan", path)
                if status == 0 and plan.count(" pg-upmap-items ") > 2:
                    return plan, path, cluster
        self.fail("no map has such a plan")

    def is_in_doubt(self, script: str, path: pathlib.Path, at: int, why: str) -> None:
        """A script is in doubt at the line of a place, and only what stands before that line is told."""
        status, lines, error = self.judged(script, path)
        self.assertEqual((status, error), (1, ""))
        self.assertEqual(lines[-1], f"line {at + 1}: in doubt: {why}")
        own = [place for place, line in enumerate(script.splitlines()) if " pg-upmap-items " in line and place < at]
        self.assertEqual([line.split(":")[0] for line in lines[:-1]], [f"line {place + 1}" for place in own])

    def test_doubts(self) -> None:
        """A line of a plan that is changed, or one more."""
        plan, path, cluster = self.planned()
        lines = plan.splitlines()
        own = [at for at, line in enumerate(lines) if " pg-upmap-items " in line]
        group, (leaves, comes) = lines[own[1]].split(" ")[3], lines[own[1]].split(" ")[4:6]
        value = map_of(cluster)
        top, pool = value["max_osd"], max(pool["id"] for pool in value["pools"]) + 1
        number, groups = next((own["id"], own["pg_num"]) for own in value["pools"] if group.startswith(f"{own['id']}."))
        gone, known = "a monitor would take it away again: ", "no command that is known"
        with Monitor(with_all_up(value), program=self.program, stock=True) as monitor:
            there = monitor.up(group).places
        idle = next(osd["id"] for osd in value["osds"] if osd["exists"] and osd["id"] not in [*there, int(comes)])
        refused = "the map refuses it: "
        for line, why in {
            f"ceph osd pg-upmap-items {pool}.0 {leaves} {comes}": refused + "UnknownPool",
            f"ceph osd pg-upmap-items {number}.{groups:x} {leaves} {comes}": refused + "UnknownGroup",
            f"ceph osd pg-upmap-items {group} {leaves} {top}": refused + "UnknownOsd",
            f"ceph osd pg-upmap-items {group} {leaves} {leaves}": refused + "BadException",
            f"ceph osd pg-upmap {group} {comes} {comes}": refused + "BadException",
            f"ceph osd pg-upmap-items {group} {idle} {comes}": gone + "none of its pairs does anything",
            f"ceph osd pg-upmap-items {group} {leaves} {comes} {idle} {comes}": "a monitor would take some of its pairs"
            " away again",
            f"ceph osd pg-upmap {group} {' '.join(map(str, there))}": gone + "its set is what the rule gives",
            f"ceph osd pg-upmap-items {group} {leaves}": known,
            f"ceph osd pg-upmap-items {group}": known,
            f"ceph osd pg-upmap-items {group}  {leaves} {comes}": known,
            f"ceph osd pg-upmap-items {group} {leaves} {comes} ": known,
            f"ceph osd pg-upmap-items {group} {leaves} 0{comes}": known,
            f"ceph osd pg-upmap-items {group} {leaves} 65536": known,
            f"ceph osd pg-upmap-items {group}" + f" {leaves} {comes}" * 21: known,
            f"ceph osd rm-pg-upmap-items {group} {leaves}": known,
            f" ceph osd pg-upmap-items {group} {leaves} {comes}": known,
            f"ceph osd out {leaves}": known,
            f"now=$(ceph osd out {leaves})": known,
            f'has "$(ceph osd out {leaves})" it': known,
            f"has '^fsid' it; ceph osd out {leaves}": known,
            f"has `ceph osd out {leaves}` it": known,
            "has it > file": known,
            "has 'it": known,
            f'at="$(ceph osd out {leaves})"': known,
            "set +e": known,
            "set -e\r": known,
        }.items():
            with self.subTest(line):
                self.is_in_doubt("\n".join([*lines[: own[1]], line, *lines[own[1] + 1 :]]) + "\n", path, own[1], why)

    def wanted(self, monitor: Monitor, value: Map, command: PrintedCommand) -> tuple[str, str]:
        """How a command by itself is to be judged, which a session takes and gives back: in a word, and in the lines
        that are told of it."""
        group, had = command.group, exceptions_of(value, command.group)
        try:
            was, _ = monitor.up(group), monitor.change(**command.change)
        except Refused as refused:
            return refused.name, f"in doubt: the map refuses it: {refused.name}"
        now, _, left = monitor.up(group), monitor.follow(), monitor.follower_kept(group)
        has_some = any(part.startswith("new_") or had[OTHER[part]] for part in command.change)
        back: dict[str, Any] = {f"old_{kind}": [group] for kind, own in had.items() if own is None}
        back |= {f"new_{kind}": [[group, own]] for kind, own in had.items() if own is not None}
        monitor.change(**back)
        if not has_some or left.what == "all":
            return "all", f"{group} goes from {shown(was)} to {shown(now)}"
        if left.what == "fewer":
            return "fewer", "in doubt: a monitor would take some of its pairs away again"
        form, told = gone(left.why)
        return form, f"in doubt: a monitor would take it away again: {told}"

    def test_drawn(self) -> None:
        """Commands that are drawn, each by itself: what stands, what a map refuses, and each reason for which a monitor
        takes exceptions away, as a session has it."""
        chance, found = random.Random(3), Counter[str]()
        for name, data in [*given(), ("odd", odd_map())]:
            path = self.tools.folder / "osdmap"
            path.write_bytes(data)
            cluster, faults = both_dumps(str(path), str(path))
            if faults or not comes_in(cluster):
                continue
            value = with_all_up(map_of(cluster))
            if not value["pools"]:
                continue
            with Monitor(value, program=self.program, stock=True) as monitor:
                lines = [drawn(chance, monitor, value) for _ in range(DRAWN)]
                for line in [*lines, ODD] if name == "odd" else lines:
                    with self.subTest(f"{name}: {line}"):
                        how, told = self.wanted(monitor, value, command_in(line))
                        status, output, error = self.judged(f"# one\n{line}\n", path)
                        self.assertEqual((output[0], error), (f"line 2: {told}", ""))
                        self.assertEqual((status, len(output) > 1), (int(how != "all"), how == "all"))
                        found[how] += 1
        self.assertEqual({*[*GONE][:-2], "all", "fewer", *REFUSALS} - {*found}, set(), found)

    def test_passed(self) -> None:
        """Lines that give no command, and a script of none."""
        plan, path, cluster = self.planned()
        more = ["", "# ceph osd out 1", "set -e", "ceph balancer off", "ceph osd set norebalance", 'at="all is given"']
        more += ["has '^x $(y)' 'it is \"'", "same '$x' 0a 'words'", "lie 2.1f 3 4", "ceph osd unset norebalance"]
        self.is_as_told("\n".join([*more, plan]), path, cluster)
        status, lines, _ = self.judged("", path)
        self.assertEqual((status, lines[-1]), (0, "0 commands, all to be given"))


class BesideTools(StockCase):
    """Plans and releases of the tools, which have a program judge them that stands beside their own."""

    def planned_by(self, answer: str, *words: str) -> tuple[int, str, str]:
        """The plan of a map, where a program that answers so judges it, or none that answers anything."""
        folder = self.tools.folder / "programs"
        folder.mkdir(exist_ok=True)
        beside, judge = folder / "osdmapd", folder / "readmap"
        beside.write_text(f'#!/bin/sh\nexec {self.tools.program} "$@"\n')
        judge.write_text(f"#!/bin/sh\n{answer}\n")
        for program in (beside, judge):
            program.chmod(0o755)
        path = self.tools.folder / "osdmap"
        path.write_bytes(maps_of("16.2.15")["four_hosts"])
        return Tools(beside, self.tools.folder).run("plan", path, *words)

    def test_judged(self) -> None:
        """A line in doubt ends a plan, and so does an answer that is none; a map that does not come in does not."""
        defect = "a defect of the tools; nothing is put out"
        status, plan, _ = self.planned_by("exit 1")
        self.assertEqual((status, plan), (70, ""))
        status, plan, error = self.planned_by("echo osdmap: there is no memory for it >&2; exit 1")
        self.assertEqual((status, plan), (2, ""))
        self.assertIn("readmap: there is no memory for it, so the script is not judged", error)
        status, plan, _ = self.planned_by("echo osdmap: it does not come in: SeveralTrees >&2; exit 1")
        self.assertEqual(status, 0)
        commands = commands_in(plan, others_of(plan))
        at = next(at for at, line in enumerate(plan.splitlines(), 1) if line == commands[0].line)
        doubt = f'cp "$2" "$3" {self.tools.folder}; echo "line {at}: in doubt: the map refuses it: UnknownOsd"; exit 1'
        found = self.planned_by(doubt)
        told = f"{commands[0].line}: by the bytes of the map the map refuses it: UnknownOsd: {defect}"
        self.assertEqual((found[0], found[1]), (70, ""))
        self.assertIn(told, found[2])
        self.assertEqual((self.tools.folder / "script").read_text(), plan)
        self.assertEqual((self.tools.folder / "osdmap").read_bytes(), maps_of("16.2.15")["four_hosts"])
        one_less = f"{len(commands) - 1} commands, all to be given"
        status, output, error = self.planned_by(f"echo '{one_less}'")
        self.assertEqual((status, output), (70, ""))
        self.assertIn(f"and says `{one_less}`", error)
        self.assertEqual(self.planned_by(f"echo '{len(commands)} commands, all to be given'")[:2], (0, plan))
        parts = self.tools.folder / "parts"
        whole = self.planned_by(f"echo '{len(commands)} commands, all to be given'", "--batch", "2", "--to", str(parts))
        self.assertEqual((whole[0], whole[1].count("plan-")), (0, -(-len(commands) // 2)))


def others_of(script: str) -> set[str]:
    """The lines of a script that are neither commands on exceptions nor comments."""
    return {line for line in script.splitlines() if " pg-upmap" not in line and " rm-pg-upmap" not in line}
