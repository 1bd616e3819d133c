"""Scripts of `plan`, `hold`, `release` and `drain`, which the program judges before they are put out: faults are
planted in the tools, one at a time, and each ends in status 70 and no command. And what the program says of exceptions
(`fkept`): beside what a real monitor made of them, and beside the tools' own reading, which names the reasons."""

from __future__ import annotations

import contextlib
import io
import json
import random
from collections.abc import Callable, Iterator
from typing import Any
from unittest import mock

from rekhuso import Fault, Monitor
from rekhuso.cluster.cleanup import cleaned
from rekhuso.cluster.evenness import Spread
from rekhuso.cluster.judge import judge_of_map, present_of
from rekhuso.command_line import parser
from rekhuso.commands import drain as drain_command
from rekhuso.commands import hold as hold_command
from rekhuso.output import plan_scripts
from rekhuso.plans import drain, hold, plan, rounds, step_order, steps
from rekhuso.plans.bounds import Filling, Measure, Step
from rekhuso.plans.printed_commands import commands_in
from rekhuso.plans.steps import PlanStep
from rekhuso.program.maps import altered
from rekhuso.running import Run, running

from tests.ceph_monitor import RECORDS, WORST, with_given
from tests.clusters import CLUSTERS, STOCK, Json, copied, kept, pooled, raised, uneven
from tests.tool_cases import StockCase

DRAINED, EVEN = "011-drained", "001-three-hosts"
HELD = next(own for own in kept("holds.json.gz") if own["change"] == "out1")
# A fault: what it is, where it is planted, and what stands there instead of what was there.
Planted = tuple[str, Any, str, Callable[[Any], Any]]


# What exceptions by chance go by: a set with an OSD that is out, or that no take reaches, breaks a step before that.
CAUSES = {"chooseleaf", "choose", "take", "idle-set", "idle-pairs"}
# What the tools call what the program says that no take of a rule reaches.
OUTSIDE = {"unreached": "take"}


def excepted(value: Json) -> list[str]:
    """The groups of a map that have exceptions."""
    return sorted({entry[0] for key in ("pg_upmap", "pg_upmap_items") for entry in value[key]})


def none_of(_: Any) -> Any:
    """Finds nothing, whatever is asked."""
    return lambda *_: {}


def other_target(line: str, osds: int) -> str:
    """A command whose last OSD is another one, which it does not name."""
    words = line.split(" ")
    named = set(map(int, words[4:]))
    words[-1] = str(next(osd for osd in range(osds) if osd not in named))
    return " ".join(words)


def spoilt(change: Callable[[list[str]], list[str]]) -> Callable[[Any], Any]:
    """A function that tells commands, some of which are changed."""
    return lambda own: lambda *given: change(own(*given))


def first_spoilt(osds: int) -> Callable[[list[str]], list[str]]:
    """Commands of which the first that gives pairs leads elsewhere."""

    def changed(lines: list[str]) -> list[str]:
        at = next((at for at, line in enumerate(lines) if " pg-upmap-items " in line), None)
        return lines if at is None else [*lines[:at], other_target(lines[at], osds), *lines[at + 1 :]]

    return changed


def with_idle_pair(lines: list[str]) -> list[str]:
    """Commands that give pairs, each with one more that does nothing: it leads from where the last one leads."""
    found = []
    for line in lines:
        words = line.split(" ")
        is_one = " pg-upmap-items " in line and len(words) == 6
        found.append(f"{line} {words[5]} {words[4]}" if is_one else line)
    return found


def crossed(lines: list[str]) -> list[str]:
    """Commands of which the first two that give pairs name each other's groups."""
    at = [at for at, line in enumerate(lines) if " pg-upmap-items " in line][:2]
    if len(at) == 2:
        one, two = (lines[own].split(" ") for own in at)
        one[3], two[3] = two[3], one[3]
        lines = list(lines)
        lines[at[0]], lines[at[1]] = " ".join(one), " ".join(two)
    return lines


def without_last(own: Any) -> Any:
    """A text without its last command."""

    def text(self: Any, own_steps: list[PlanStep]) -> str:
        lines = own(self, own_steps).splitlines()
        last = max(at for at, line in enumerate(lines) if line.startswith("ceph "))
        return "\n".join(lines[:last] + lines[last + 1 :]) + "\n"

    return text


def cut(text: str) -> str:
    """A text without its last command that gives pairs."""
    lines = text.splitlines()
    last = max(at for at, line in enumerate(lines) if line.startswith("ceph osd pg-upmap-items"))
    return "\n".join(lines[:last] + lines[last + 1 :]) + "\n"


def to_drained(targets: dict[str, list[int | None]]) -> dict[str, list[int | None]]:
    """Where groups go, of which the first that may goes to osd.2, which is drained, and not from it."""
    group = next(group for group, places in targets.items() if 2 not in places)
    at = next(at for at, osd in enumerate(targets[group]) if osd is not None and osd < 4)
    return {**targets, group: [*targets[group][:at], 2, *targets[group][at + 1 :]]}


def with_first_again(texts: list[str]) -> list[str]:
    """The texts of parts, of which the last has the first command of the first once more."""
    line = next(line for line in texts[0].splitlines() if line.startswith("ceph osd pg-upmap-items "))
    return [*texts[:-1], f"{texts[-1]}{line}\n"]


def moved_line(text: str, word: str, to: int) -> str:
    """A text whose first line with a word stands elsewhere."""
    lines = text.splitlines()
    lines.insert(to, lines.pop(next(at for at, line in enumerate(lines) if word in line)))
    return "\n".join(lines) + "\n"


def with_text(change: Callable[[str], str]) -> Callable[[Any], Any]:
    """A function that makes a text, which is changed."""
    return lambda own: lambda *given: change(own(*given))


def lacking(text: str, word: str) -> str:
    """A text without its first line with a word."""
    return text.replace(next(line for line in text.splitlines() if word in line) + "\n", "", 1)


# Faults in a script of `drain` that changes weights.
STAGE_FAULTS: list[tuple[str, Callable[[str], str]]] = [
    ("a weight is not given", lambda text: lacking(text, "crush reweight")),
    ("weights come last", lambda text: moved_line(text, "crush reweight", len(text.splitlines()))),
    ("norebalance is not set", lambda text: lacking(text, "set norebalance")),
    ("norebalance is unset first", lambda text: moved_line(text, "unset norebalance", 0)),
    ("the balancer stays on", lambda text: lacking(text, "balancer off")),
]


def with_other_line(own: Any) -> Any:
    """A text with a command of another kind."""
    return lambda self, own_steps: own(self, own_steps) + "ceph osd out 1\n"


def undone_otherwise(change: Callable[[PlanStep], PlanStep]) -> Callable[[Any], Any]:
    """Steps back, each of which is another."""
    return lambda own: lambda self: change(own(self))


def forgetting(step: PlanStep) -> PlanStep:
    """A step back that does nothing in the first groups."""
    return altered_step(step, [] if step.group.endswith(("0", "4", "8")) else step.commands)


def altered_step(step: PlanStep, lines: list[str]) -> PlanStep:
    """A step by other commands."""
    return PlanStep(step.group, lines, step.undo, step.was, step.now, step.is_erasure)


# Faults in how `plan` makes its commands. The first two are of groups that Ceph's monitor would not keep.
PLAN_FAULTS: list[Planted] = [
    ("pairs lead to another OSD", steps, "exception_commands", spoilt(first_spoilt(12))),
    ("a pair does nothing", steps, "exception_commands", spoilt(with_idle_pair)),
    ("two groups' commands are crossed", steps, "exception_commands", spoilt(crossed)),
    ("the text lacks a command", plan_scripts.PlanScript, "text", without_last),
    ("the text has another command", plan_scripts.PlanScript, "text", with_other_line),
]
PAIR_FAULTS: list[Planted] = [
    ("pairs lead back", rounds, "settled", lambda own: lambda session, new: turned(own(session, new))),
    ("a pair is lost", rounds, "settled", lambda own: lambda session, new: shortened(own(session, new))),
]
UNDO_FAULTS: list[Planted] = [
    ("a step is not taken back", PlanStep, "undone", undone_otherwise(forgetting)),
    ("a step is taken again", PlanStep, "undone", undone_otherwise(lambda own: altered_step(own, own.undo))),
    ("the text lacks a command", plan_scripts.PlanScript, "text", without_last),
]


def turned(value: Json) -> Json:
    """A map in which each pair leads the other way."""
    items = [[group, [pair[::-1] for pair in pairs]] for group, pairs in value["pg_upmap_items"]]
    return altered(value, pg_upmap_items=items)


def shortened(value: Json) -> Json:
    """A map in which groups of several pairs lack the last of them."""
    items = [[group, pairs[:-1] if len(pairs) > 1 else pairs] for group, pairs in value["pg_upmap_items"]]
    return altered(value, pg_upmap_items=items)


def given(dump: Json, lines: list[str]) -> None:
    """Gives an OSD dump the pairs of commands."""
    for group, osds in ((line.split(" ")[3], line.split(" ")[4:]) for line in lines):
        for key in ("pg_upmap", "pg_upmap_items"):
            dump[key] = [entry for entry in dump[key] if entry["pgid"] != group]
        pairs = [{"from": int(was), "to": int(now)} for was, now in zip(osds[::2], osds[1::2])]
        dump["pg_upmap_items"] += [{"pgid": group, "mappings": pairs}] if pairs else []


class Judged(StockCase):
    """Scripts that are judged, and exceptions."""

    def printed(self, *words: object) -> tuple[str, Fault | None]:
        """What a command puts out, run in this process, and the fault in which it ends, if it does."""
        output = io.StringIO()
        options = parser().parse_args([*map(str, words), "--program", str(self.tools.program)])
        heard: list[str] = []
        run = Run(heard.append, lambda value: print(json.dumps(value)))
        with contextlib.redirect_stdout(output), running(run):
            try:
                options.work(options)
            except Fault as fault:
                return output.getvalue(), fault
        return output.getvalue(), None

    def is_refused(self, *words: object) -> None:
        """Asks that a command ends in status 70, as by a defect of the tools, and puts out nothing."""
        output, fault = self.printed(*words)
        self.assertEqual(output, "")
        self.assertIsNotNone(fault)
        self.assertEqual(fault.status if fault else 0, 70)
        self.assertEnds(str(fault), "nothing is put out")

    def are_refused(self, faults: list[Planted], *words: object) -> None:
        """Asks the same for each of some faults, and that the command works without them."""
        output, fault = self.printed(*words)
        self.assertTrue(output and fault is None, fault)
        for about, place, name, planted in faults:
            with self.subTest(about), mock.patch.object(place, name, planted(getattr(place, name))):
                self.is_refused(*words)

    def test_plans(self) -> None:
        """Each fault in how `plan` makes its commands ends in status 70 and no command."""
        files = self.dumps(EVEN)
        self.are_refused(PLAN_FAULTS, "plan", *files)
        self.are_refused(PLAN_FAULTS[:1], "plan", *files, "--json")
        with mock.patch.object(plan, "going", none_of(None)):
            self.are_refused(PAIR_FAULTS, "plan", *files)

    def test_explicit_sets(self) -> None:
        """So does a plan that leaves explicit sets beside its pairs."""
        osd_dump, crush_dump = uneven()
        files = self.tools.put("o", osd_dump), self.tools.put("c", crush_dump)
        stays = spoilt(lambda lines: [line for line in lines if " rm-pg-upmap " not in line])
        self.are_refused([("explicit sets stay", steps, "exception_commands", stays)], "plan", *files)

    def test_rounds(self) -> None:
        """So does a plan that moves groups whose pairs Ceph's monitor takes away, by a reading that finds none."""
        files = self.dumps(DRAINED)
        with mock.patch.object(rounds, "left_out", none_of(None)), mock.patch.object(plan, "going", none_of(None)):
            output, fault = self.printed("plan", *files)
        self.assertEqual(output, "")
        self.assertIn("Ceph's monitor takes its exceptions away, those of 3.", str(fault))

    def test_undo(self) -> None:
        """So does each fault in what takes a plan back."""
        files = self.dumps(EVEN)
        self.are_refused(UNDO_FAULTS, "plan", *files, "--undo")

    def test_holds(self) -> None:
        """So do faults in how `hold` makes its commands."""
        files = [self.tools.put(key, HELD[key]) for key in ("osd_dump", "crush_dump", "new_osd_dump", "new_crush_dump")]
        faults: list[Planted] = [
            ("pairs lead to another OSD", hold, "exception_commands", spoilt(first_spoilt(24))),
            ("a pair does nothing", hold, "exception_commands", spoilt(with_idle_pair)),
            ("the text lacks a command", hold_command, "hold_script", lambda own: lambda *given: cut(own(*given))),
        ]
        self.are_refused(faults, "hold", *files)
        self.are_refused(faults[2:], "hold", *files, "--undo")

    def test_releases(self) -> None:
        """So do faults in how `release` makes its commands."""
        own = WORST["four_hosts"]
        files = self.tools.put("o", own["osd_dump"]), self.tools.put("c", own["crush_dump"])
        faults: list[Planted] = [("the text lacks a command", plan_scripts.PlanScript, "text", without_last)]
        self.are_refused(faults, "release", *files)
        self.are_refused(UNDO_FAULTS[:1], "release", *files, "--undo")

    def test_drains(self) -> None:
        """So do faults in how `drain` makes its scripts: a place that comes to a drained OSD, a group that goes twice,
        a part or a command that is missing, a weight that is not given or too late, and groups that are not held."""
        words = ["drain", *self.dumps(EVEN), "osd.7", "osd.2", "--batch", 40, "--json"]
        parts: list[Planted] = [
            ("a place comes to a drained OSD", drain, "targets_of", lambda own: lambda *given: to_drained(own(*given))),
            ("a group goes twice", drain_command, "part_scripts", spoilt(with_first_again)),
            ("a part is missing", drain_command, "part_scripts", spoilt(lambda texts: texts[:-1])),
            ("a part comes twice", drain_command, "part_scripts", spoilt(lambda texts: [*texts, texts[0]])),
            ("the text lacks a command", plan_scripts.PlanScript, "text", without_last),
            ("pairs lead to another OSD", drain, "exception_commands", spoilt(first_spoilt(12))),
        ]
        stages: list[Planted] = [
            (f"{about}: {word}", drain_command, word, with_text(change))
            for word in ("first_script", "last_script", "undo_script")
            for about, change in STAGE_FAULTS
        ]
        self.are_refused([*parts, *stages], *words)
        self.are_refused([("a group is not held", hold, "exception_commands", spoilt(lambda lines: lines[1:]))], *words)

    def test_again(self) -> None:
        """A plan made again over the first may have more commands, and so may the next; soon there are none."""
        own = WORST["takes"]
        dump, crush, counts = copied(own["osd_dump"]), self.tools.put("c", own["crush_dump"]), list[int]()
        while not counts or counts[-1]:
            told = self.json("plan", self.tools.put("o", dump), crush)
            counts.append(len(told["commands"]))
            given(dump, told["commands"])
            self.assertLess(len(counts), 6, counts)
        self.assertGreater(counts[0], 10 * sum(counts[1:]), counts)

    def test_order(self) -> None:
        """So does a plan all of whose commands stand in one part, where an OSD then passes the bounds of a part."""
        osd_dump, crush_dump = pooled(3)
        files = self.tools.put("o", osd_dump), self.tools.put("c", crush_dump)
        always: Planted = ("all may come", step_order.StepOrder, "is_allowed", lambda _: lambda *_: True)
        self.are_refused([always], "plan", *files)

    def test_bounds(self) -> None:
        """In a part all that comes counts and nothing that goes: an OSD may get as full as the fullest before the part,
        the fullest at the end or 1.05 of its share, and to one place more than it has before the plan or after it. One
        step alone may pass that, and steps from which nothing goes."""
        share, limits = {osd: 10.0 for osd in range(4)}, dict[int, float]()

        def told(has: list[float], end: list[float], *moves: tuple[int | None, int]) -> str | None:
            """The fault of a part of some moves, each of one place from an OSD to another."""
            measure = Measure(Spread({}, share), None, dict(enumerate(end)), limits)
            part = [Step(f"step {at}", [to], [] if was is None else [was], 1) for at, (was, to) in enumerate(moves)]
            found = Filling(measure, dict(enumerate(has))).part(part)
            return None if found is None else found[0]

        full = [13.0, 10, 9, 8]
        self.assertIsNone(told(full, [11, 10, 9, 10], (0, 3), (0, 3)))
        self.assertIsNone(told(full, [11, 11, 9, 9], (0, 1), (3, 1), (0, 3)), None)
        self.assertEqual(told(full, [11, 11, 9, 9], (0, 1), (3, 1), (3, 1)), "step 2")
        self.assertEqual(told([10.0, 10, 10, 10], [10, 10, 10, 10], (0, 3), (3, 2)), "step 0")
        self.assertIsNone(told([10.0, 10, 10, 10], [10, 10, 10, 10], (0, 3)))
        self.assertIsNone(told([10.0, 10, 10, 10], [10, 10, 12, 12], (None, 3), (None, 3), (None, 2)))
        self.assertEqual(told([12.0, 10, 9, 9], [10, 10, 10, 10], (0, 2), (0, 2), (0, 2)), "step 2")
        limits.update({2: 10.5, 3: 12.5})
        self.assertEqual(told([12.0, 10, 9, 9], [10, 10, 10, 10], (0, 3), (0, 3), (0, 3), (0, 2), (0, 2)), "step 4")
        self.assertEqual(told([12.0, 10, 10, 9], [10, 10, 10, 10], (0, 2)), "step 0")

    def test_texts(self) -> None:
        """A line of a script that is no command, no comment and none of the others is a fault, however near it is."""
        lines = ["ceph osd pg-upmap-items 1.0 1 2", "ceph osd rm-pg-upmap 1.a", "# ceph", "set -e", "", "ceph status"]
        self.assertEqual(len(commands_in("\n".join(lines), ["ceph status"])), 2)
        for line in (
            *("ceph osd pg-upmap-items 1.0 1", "ceph osd pg-upmap-items 1.0", "ceph osd rm-pg-upmap 1.0 1"),
            *("ceph osd pg-upmap 1.0", "ceph osd pg-upmap-items 1.0  1 2", "ceph osd pg-upmap-items 1.G 1 2"),
            *("ceph osd pg-upmap-items 1.0 1 2;", " ceph osd rm-pg-upmap 1.0", "ceph osd out 1", "ceph status"),
        ):
            with self.subTest(line):
                self.assertRaises(Fault, commands_in, line)

    def left(self, value: Json) -> dict[str, str]:
        """What the program says of each group of a map that has exceptions."""
        with Monitor(value, self.tools.program, stock=True) as monitor:
            return monitor.left(excepted(value))

    def causes(self, value: Json) -> dict[str, str]:
        """By what the program says that all exceptions of a group go, of each group of which they do."""
        with Monitor(value, self.tools.program, stock=True) as monitor:
            monitor.follow()
            found = {group: monitor.follower_kept(group) for group in excepted(value)}
        return {group: left.why.split(" ")[0] for group, left in found.items() if left.what == "gone"}

    def test_beside_a_monitor(self) -> None:
        """What a real monitor took away of exceptions that it was given, whole or in part, is what the program says."""
        seen = set()
        for record in RECORDS:
            if record["words"] != ["{}"]:
                continue
            own = WORST[record["cluster"]]
            files = self.tools.put("o", with_given(record)), self.tools.put("c", own["crush_dump"])
            maps = [part["map"] for part in json.loads(self.output("import", *files, "--json"))["maps"]]
            found = {group: what for value in maps for group, what in self.left(value).items()}
            fewer = {group for key in record["other"] for group, _ in record["other"][key]}
            wanted = {
                group: "gone" if group in record["gone"] else "fewer" if group in fewer else "all" for group in found
            }
            self.assertEqual(found, wanted, (record["name"], record["cluster"]))
            self.assertLessEqual({*record["gone"], *fewer}, found.keys(), record["name"])
            seen |= {(record["name"], what) for what in found.values()}
        self.assertGreater(len(seen), 12, seen)

    def by_chance(self, value: Json, rng: random.Random) -> Json:
        """A map, some of whose groups have exceptions by chance: many that break a rule, or do nothing."""
        osds = [osd["id"] for osd in value["osds"] if osd["exists"]]
        explicit, items = dict(value["pg_upmap"]), dict(value["pg_upmap_items"])
        bare: Json = dict(raised(value), pg_upmap=[], pg_upmap_items=[])
        with Monitor(bare, self.tools.program, stock=True) as monitor:
            for pool in value["pools"]:
                for number in rng.sample(range(pool["pg_num"]), min(6, pool["pg_num"])):
                    group = f"{pool['id']}.{number:x}"
                    there = [osd for osd in monitor.up(group).places if osd is not None]
                    others = [osd for osd in osds if osd not in there]
                    if not there or not others:
                        continue
                    pairs = [[rng.choice(there), rng.choice(others)], [rng.choice(osds), rng.choice(others)]]
                    if pairs[0][0] != pairs[1][0] and pairs[0][1] != pairs[1][1] and rng.random() < 0.5:
                        items[group] = [pair for pair in pairs if pair[0] != pair[1]][: pool["size"]]
                    elif rng.random() < 0.6:
                        items[group] = pairs[:1]
                    elif len(there) == pool["size"]:
                        explicit[group] = [*there[:-1], rng.choice([there[-1], *others])]
        for osd in rng.sample(value["osds"], min(2, len(osds))):
            osd["weight"] = 0 if osd["exists"] else osd["weight"]
        return dict(
            value, pg_upmap=sorted(map(list, explicit.items())), pg_upmap_items=sorted(map(list, items.items()))
        )

    def clusters(self) -> Iterator[tuple[str, Json]]:
        """Maps of clusters, the larger ones and those that do not come in aside."""
        for kind in (WORST, STOCK, CLUSTERS):
            for name, own in kind.items():
                groups = sum(pool["pg_num"] for pool in own["osd_dump"]["pools"])
                if groups > 700 or len(own["osd_dump"]["osds"]) > 100:
                    continue
                files = self.tools.put("o", own["osd_dump"]), self.tools.put("c", own["crush_dump"])
                status, output, _ = self.tools.run("import", *files, "--json")
                if status == 0:
                    yield from ((name, part["map"]) for part in json.loads(output)["maps"])

    def test_beside_the_tools(self) -> None:
        """Of exceptions by chance over the clusters the program and the tools' own reading say the same, and why."""
        rng, seen, causes = random.Random(82), dict.fromkeys(("all", "fewer", "gone"), 0), set[str]()
        for name, first in self.clusters():
            value = self.by_chance(first, rng)
            bare: Json = dict(raised(value), pg_upmap=[], pg_upmap_items=[])
            found = self.left(value)
            with Monitor(bare, self.tools.program, stock=True) as monitor:
                raw = {group: up.places for group, up in monitor.ups(list(found)).items()}
            own = cleaned(judge_of_map(value, {}), present_of(value), raw, value)
            for group, what in found.items():
                wanted = "gone" if group in own.gone else "fewer" if group in own.fewer else "all"
                self.assertEqual(what, wanted, (name, group, own.gone.get(group), value["pg_upmap_items"]))
                seen[what] += 1
            for group, cause in self.causes(value).items():
                self.assertEqual(OUTSIDE.get(cause, cause), own.gone[group].code, (name, group, own.gone[group]))
                causes.add(cause)
        self.assertGreater(min(seen.values()), 50, seen)
        self.assertEqual(causes, CAUSES)
