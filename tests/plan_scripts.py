"""The scripts that `plan` puts out: what they tell, what takes them back, and how they are cut into parts."""

from __future__ import annotations

import json
import pathlib
import subprocess
from collections.abc import Iterable
from typing import Any

from rekhuso import Monitor

from tests.clusters import STOCK, Json, commands, named_pools, of_groups, places, uneven, with_commands, with_old_pairs
from tests.tool_cases import SECONDS, ToolCase


# The lines above a script's commands, and the rows of its two tables, each by its last word.
Told = tuple[list[str], dict[str, list[str]], dict[str, list[str]]]


def parts_of(line: str) -> dict[str, Any]:
    """The parts of a change that do what a command of Ceph's does."""
    _, _, word, group, *named = line.split(" ")
    osds, key = list(map(int, named)), "items" if word.endswith("-items") else "upmap"
    pairs = [list(pair) for pair in zip(osds[::2], osds[1::2])]
    return (
        {f"old_{key}": [group]}
        if word.startswith("rm-")
        else {f"new_{key}": [[group, pairs if key == "items" else osds]]}
    )


def played(monitor: Monitor, lines: Iterable[str]) -> Json:
    """The map once each of some commands was given to the program, which accepts each as a change."""
    for line in lines:
        monitor.change(**parts_of(line))
    return monitor.dump()


def exceptions(value: Json) -> tuple[Any, Any]:
    """The exceptions of a map."""
    return value["pg_upmap"], value["pg_upmap_items"]


def told_of(text: str) -> Told:
    """What a script tells above its commands, and the rows of its two tables, each by its last word."""
    above = [line for line in text.splitlines() if line.startswith("# ") and not line.startswith("# rekhuso: end")]
    at, by = above.index("# What moves, by pool:"), above.index("# By OSD, in places of groups:")
    pools, osds = (
        {words[-1]: words[:-1] for words in (line[2:].split() for line in part)}
        for part in (above[at + 2 : by], above[by + 2 :])
    )
    return above[:at], pools, osds


def moving(
    before: dict[str, str], after: dict[str, str], groups: Iterable[str]
) -> tuple[list[str], list[int], list[int]]:
    """Of some groups those whose sets differ, and how many places come to each OSD and go from it."""
    moved = [group for group in groups if before[group] != after[group]]
    come, gone = (
        [osd for group in moved for osd in set(places(one[group])) - set(places(other[group]))]
        for one, other in ((after, before), (before, after))
    )
    return moved, come, gone


class PlanScripts(ToolCase):
    """What stands in the scripts of plans, and what their commands do."""

    def dumped(self, name: str) -> tuple[list[pathlib.Path], Json]:
        """The dumps of a cluster as files, and its map."""
        files = with_old_pairs() if name == "old pairs" else [STOCK[name][key] for key in ("osd_dump", "crush_dump")]
        files = [
            self.tools.put(f"{place}-{at}", value) for at, (place, value) in enumerate(zip(("osd", "crush"), files))
        ]
        status, output, error = self.tools.run("import", *files)
        self.assertEqual(status, 0, error)
        return files, json.loads(output)

    def tells(self, text: str, title: str, before: dict[str, str], after: dict[str, str]) -> list[str]:
        """Asks that a script tells what its commands move between these sets, by pool and by OSD."""
        lines, pools, osds = told_of(text)
        moved, come, gone = moving(before, after, of_groups(commands(text)))
        count = len(commands(text))
        self.assertEqual(
            lines[0],
            f"# {title}: {len(moved)} group{'s' * (len(moved) != 1)} "
            f"and {len(come)} place{'s' * (len(come) != 1)} move, by {count} "
            f"command{'s' * (count != 1)}; a table stands at the end",
        )
        for name, row in pools.items():
            own = [group for group in moved if group.split(".")[0] == name.removeprefix("p")]
            self.assertEqual(int(row[0]), len(own), (name, row))
            self.assertEqual(int(row[1]), sum(group.split(".")[0] == name.removeprefix("p") for group in before))
        self.assertEqual(sum(int(row[2]) for row in pools.values()), len(come))
        self.assertEqual(sum(int(row[0]) for row in pools.values()), len(moved))
        wanted = {
            f"osd.{osd}": [str(come.count(osd)), str(gone.count(osd)), f"{come.count(osd) - gone.count(osd):+d}"]
            for osd in {*come, *gone}
        }
        self.assertEqual(osds, wanted)
        return lines

    def test_undo(self) -> None:
        """A plan and then its undoing, both given to the program command by command, leave the exceptions that there
        were, whichever part of the plan was run; over a map as over two dumps, and where groups had explicit sets,
        pairs, and chains of pairs before."""
        for name in ("old pairs", "009-racks"):
            with self.subTest(name=name):
                files, value = self.dumped(name)
                for words in (files, [self.tools.put("m", value)]):
                    lines, back = (
                        commands(self.tools.run("plan", *words, "--first", 60, *more)[1]) for more in ((), ("--undo",))
                    )
                    self.assertTrue([line.split(" ")[3] for line in lines if "rm-" not in line][:3], (lines, back))
                    self.assertNotEqual(lines, back)
                    parts: list[list[str]] = [lines, lines[: len(lines) // 2], []]
                    for part in parts:
                        with Monitor(value, self.tools.program, timeout=SECONDS) as monitor:
                            before = exceptions(monitor.dump())
                            self.assertTrue(exceptions(played(monitor, part)) != before or not part, name)
                            self.assertEqual(exceptions(played(monitor, back)), before, (name, len(part)))
        kinds = {line.split(" ")[2] for line in back}
        self.assertIn("rm-pg-upmap-items", kinds)
        self.assertIn("pg-upmap-items", kinds)

    def test_undo_of_sets_that_do_nothing(self) -> None:
        """What did nothing in the dump, as its OSD is not there, is not given back: Ceph would refuse the command; the
        sets are as they were."""
        osd_dump, crush_dump = uneven()
        osd_dump.update(max_osd=13, pg_upmap=[{"pgid": f"1.{group:x}", "osds": [0, 3, 12]} for group in range(192)])
        files = self.tools.put("o", osd_dump), self.tools.put("c", crush_dump)
        value = json.loads(self.tools.run("import", *files, "--unmatched")[1])
        lines, back = (commands(self.tools.run("plan", *files, "--unmatched", *more)[1]) for more in ((), ("--undo",)))
        self.assertTrue(lines)
        self.assertTrue(back)
        self.assertFalse([line for line in back if " 12" in line])
        self.assertEqual(set(of_groups(lines)), set(of_groups(back)))
        with Monitor(value, self.tools.program, timeout=SECONDS) as monitor:
            self.assertEqual(exceptions(played(monitor, [*lines, *back])), exceptions(value))
            self.assertEqual(exceptions(value), ([], []))

    def test_what_is_told_round_a_plan(self) -> None:
        """Above the commands stands what one must know before they are run, below them what moves by pool and by OSD,
        and sh runs the whole: the commands and nothing else, whatever characters the names have."""
        osd_dump, crush_dump = named_pools(3)
        files = self.tools.put("o", osd_dump), self.tools.put("c", crush_dump)
        value = json.loads(self.tools.run("import", *files)[1])
        text = self.tools.run("plan", *files)[1]
        before, after = self.tools.sets(value), self.tools.sets(with_commands(value, commands(text)))
        lines = "\n".join(self.tells(text, f"A plan over epoch {value['epoch']}", before, after))
        for word in (
            "ceph balancer off",
            "ceph osd set-require-min-compat-client luminous",
            "ceph status",
            "ceph osd df tree",
            "--undo",
            "--batch",
        ):
            with self.subTest(word=word):
                self.assertIn(word, lines)
        undone = self.tools.run("plan", *files, "--undo")[1]
        self.tells(undone, f"The way back from a plan over epoch {value['epoch']}", after, before)
        for pool in osd_dump["pools"]:
            pool["pool_name"] += "\ntouch one\r\u2028touch two `touch three` $(touch four); touch five"
        files = self.tools.put("o", osd_dump), self.tools.put("c", crush_dump)
        text = self.tools.run("plan", *files, "--no-guard")[1]
        self.tools.put("ceph", f'#!/bin/sh\necho ceph "$@" >> {self.tools.folder}/ran\n').chmod(0o755)
        done = subprocess.run(
            ["sh", self.tools.put("plan.sh", text)],
            env={"PATH": f"{self.tools.folder}:/bin:/usr/bin"},
            cwd=self.tools.folder,
            capture_output=True,
            text=True,
            timeout=SECONDS,
            check=False,
        )
        self.assertEqual((done.returncode, done.stdout, done.stderr), (0, "", ""))
        self.assertEqual((self.tools.folder / "ran").read_text().splitlines(), commands(text), done)
        self.assertGreater(len(commands(text)), 20)
        self.assertFalse(
            [path.name for path in self.tools.folder.iterdir() if path.name in ("one", "two", "three", "four", "five")]
        )
        alone = with_commands(value, commands(self.tools.run("plan", *files, "--alone")[1]))
        self.assertEqual(self.tools.run("plan", self.tools.put("m", alone), "--alone")[:2], (0, ""))

    def test_batches(self) -> None:
        """A plan in batches is the plan: files of at most so many commands; the program accepts each after the other,
        and each tells what it moves. A group's two commands stay in one file, and so does what takes a file back."""
        files, value = self.dumped("old pairs")
        whole, sets = commands(self.tools.run("plan", *files)[1]), [self.tools.sets(value)]
        pairs = {group for group, words in of_groups(whole).items() if len(words) == 2}
        self.assertGreater(len(pairs), 10, (len(pairs), len(whole)))
        self.assertGreater(len(whole), 60, (len(pairs), len(whole)))
        for size in (1, 2, 7, 50, 10_000):
            with self.subTest(size=size):
                status, output, error = self.tools.run("plan", *files, "--batch", size, "--to", f"by-{size}")
                texts = [pathlib.Path(self.tools.folder, path).read_text() for path in output.splitlines()]
                self.assertEqual(status, 0, (output, error))
                self.assertEqual(
                    output.splitlines(),
                    [f"by-{size}/plan-{at:03}.sh" for at in range(1, len(texts) + 1)],
                    (output, error),
                )
                lines = [commands(text) for text in texts]
                self.assertEqual(of_groups(sum(lines, [])), of_groups(whole), size)
                self.assertEqual(sorted(sum(lines, [])), sorted(whole), size)
                for own in lines:
                    self.assertTrue(own, (size, own))
                    self.assertTrue(len(own) <= size or size == 1 and len(of_groups(own)) == 1, (size, own))
                backs = self.tools.run("plan", *files, "--batch", size, "--to", f"by-{size}", "--undo")[1].splitlines()
                self.assertEqual(backs, [path.replace("plan-", "undo-") for path in output.splitlines()])
                for path, own in zip(backs, lines):
                    self.assertEqual(
                        of_groups(commands(pathlib.Path(self.tools.folder, path).read_text())).keys(),
                        of_groups(own).keys(),
                    )
        texts = [path.read_text() for path in sorted((self.tools.folder / "by-50").glob("plan-*.sh"))]
        with Monitor(value, self.tools.program, timeout=SECONDS) as monitor:
            for number, text in enumerate(texts, 1):
                sets.append(self.tools.sets(played(monitor, commands(text))))
                told = self.tells(
                    text.replace(" rbd", " p1"),
                    f"A plan over epoch {value['epoch']}, part {number} of {len(texts)}",
                    *sets[-2:],
                )
                self.assertTrue(any(f"undo-{number:03}.sh" in line for line in told), told)
                self.assertEqual(any("part 1 is run before" in line for line in told), number == 2)
        self.assertGreater(len(texts), 1)
        self.assertEqual(sets[-1], self.tools.sets(with_commands(value, whole)))

    def test_batches_that_cannot_be_written(self) -> None:
        """A number that is none, a number without a folder, and --json beside them are errors of use; a script alone
        goes into a file; a folder that has such files, or cannot be made, is told, and nothing is written into it."""
        files, _ = self.dumped("old pairs")
        for words in (
            ["--batch", "0", "--to", "x"],
            ["--batch", "-1", "--to", "x"],
            ["--batch", "some", "--to", "x"],
            ["--batch", "5"],
            ["--status", "--to", "x"],
            ["--json", "--to", "x"],
            ["--json", "--batch", "5", "--to", "x"],
            ["--json", "--undo"],
        ):
            with self.subTest(words=words):
                status, output, error = self.tools.run("plan", *files, *words)
                self.assertEqual((status, output, len(error.splitlines())), (2, "", 1), (words, error))
                self.assertIn("error: ", error, (words, error))
                self.assertFalse((self.tools.folder / "x").exists(), (words, error))
        self.assertEqual(self.output("plan", *files, "--to", "alone.sh"), "")
        self.assertEqual((self.tools.folder / "alone.sh").read_text(), self.output("plan", *files))
        (self.tools.folder / "full").mkdir()
        self.tools.put("full/plan-007.sh", "")
        for folder, told in (
            ("full", "full/plan-007.sh is there already: name another folder"),
            ("/dev/null/x", "/dev/null/x: Not a directory"),
        ):
            with self.subTest(told=told):
                status, output, error = self.tools.run("plan", *files, "--batch", 9, "--to", folder)
                self.assertEqual((status, output, error.splitlines()[-1]), (2, "", told), (folder, output, error))
        self.assertEqual([path.name for path in (self.tools.folder / "full").iterdir()], ["plan-007.sh"])
        done = self.tools.run("plan", *files, "--alone", "--undo", "--batch", 1000, "--to", "full")
        self.assertEqual(done[:2], (0, "full/undo-001.sh\n"))
        even = self.tools.put(
            "even", with_commands(self.dumped("old pairs")[1], commands(self.tools.run("plan", *files, "--alone")[1]))
        )
        self.assertEqual(self.tools.run("plan", even, "--alone", "--batch", 9, "--to", "none")[:2], (0, ""))
        self.assertFalse((self.tools.folder / "none").exists())
