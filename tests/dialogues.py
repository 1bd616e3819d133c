"""The dialogues that pages show are what the program and its tools answer, and so is what the shell answers to a
pipe."""

from __future__ import annotations

import json
import os
import pathlib
import re
import resource
import signal
import subprocess
import sys
import tempfile
from collections.abc import Iterator

from rekhuso.faults import Trouble
from rekhuso.files import put

from tests.cases import EXAMPLE, EXAMPLES, HERE, Case
from tests.clusters import STOCK, Json, copied, kept
from tests.live_sessions import ran
from tests.reach import with_weights
from tests.stores import StoreCase, store_program
from tests.tool_cases import TOOLS

SECONDS = 300


def shown(line: str) -> str:
    """A line of a page without the remark behind it."""
    return re.sub(r" {2,}\(.*\)$", "", line) + "\n"


def dialogues(page: str) -> Iterator[tuple[list[str], list[str], list[str]]]:
    """Of each block of a page that begins with a command behind `$`: the commands, what is typed, and what is put
    out."""
    for block in re.findall(r"(?:^ {4}.*\n)+", (HERE.parent / page).read_text(), re.M):
        lines = [line.removeprefix("    ") for line in block.splitlines()]
        if lines[0].startswith("$ "):
            commands = [shown(line[2:]) for line in lines if line.startswith("$ ")]
            typed = [shown(line) for line in lines if line.endswith("(typed)")]
            yield commands, typed, [
                shown(line) for line in lines if not line.startswith("$ ") and not line.endswith("(typed)")
            ]


def of_program(name: str, page: str) -> Iterator[tuple[list[str], list[str], list[str]]]:
    """The dialogues of a page in which a program is called, and no other."""
    return (found for found in dialogues(page) if any(command.startswith(f"{name} ") for command in found[0]))


def in_a_shell(programs: dict[str, pathlib.Path], commands: list[str], typed: list[str]) -> str:
    """What commands put out, in a folder with the examples and with the programs by these names. What they leave behind
    is ended."""
    with tempfile.TemporaryDirectory() as name:
        folder = pathlib.Path(name)
        for word, program in programs.items():
            (folder / word).symlink_to(program)
        (folder / "examples").symlink_to(HERE.parent / "examples")
        words = ["bash", "-c", "".join([*commands, "kill $! 2> /dev/null\n"])]
        shell = subprocess.Popen(
            words,
            cwd=folder,
            stdin=subprocess.PIPE,
            stdout=subprocess.PIPE,
            text=True,
            start_new_session=True,
            env=os.environ | {"PATH": f"{folder}:{os.environ['PATH']}"},
        )
        try:
            return shell.communicate("".join(typed), timeout=SECONDS)[0]
        except subprocess.TimeoutExpired:
            os.killpg(shell.pid, signal.SIGKILL)
            raise


def heavier(crush: Json, osds: set[int]) -> Json:
    """A CRUSH dump in which some OSDs weigh twice as much, and so each bucket above them."""
    found: Json = copied(crush)
    items = {bucket["id"]: bucket["items"] for bucket in crush["buckets"]}

    def weight(item: Json) -> int:
        """What an item weighs then."""
        if item["id"] >= 0:
            return int(item["weight"]) * (2 if item["id"] in osds else 1)
        return sum(map(weight, items[item["id"]]))

    for bucket in found["buckets"]:
        bucket["items"] = [dict(item, weight=weight(item)) for item in items[bucket["id"]]]
    return found


def held(osd_dump: Json, lines: list[str]) -> Json:
    """An OSD dump once commands on pairs were given."""
    found = {}
    for line in lines:
        _, _, word, group, *osds = line.split(" ")
        found[group] = [{"from": int(was), "to": int(now)} for was, now in zip(osds[::2], osds[1::2])]
        assert word == "pg-upmap-items", line
    pairs = [{"pgid": group, "mappings": own} for group, own in found.items()]
    return dict(osd_dump, pg_upmap_items=pairs)


def put_older(folder: pathlib.Path) -> None:
    """Puts the dumps of a cluster with hammer's tunables into a folder, and its CRUSH map with jewel's."""
    own = kept("operators.json.gz")["clusters"]["hammer"]
    newer = dict(own["crush_dump"], tunables=dict(own["crush_dump"]["tunables"], chooseleaf_stable=1))
    for name, dump in (("older-osd", own["osd_dump"]), ("older-crush", own["crush_dump"]), ("jewel", newer)):
        (folder / f"{name}.json").write_text(json.dumps(dump))


def put_others(folder: pathlib.Path) -> None:
    """Puts the dumps of a cluster of six racks into a folder, and of the one there an OSD dump in which a disk is out,
    and a dump of groups that tells where the data is."""
    own, cluster = kept("operators.json.gz")["clusters"]["racks"], copied(STOCK["001-three-hosts"])
    stats = [{"pgid": group, "acting": osds, "state": "active+clean"} for group, (osds, _) in cluster["up"].items()]
    cluster["osd_dump"]["osds"][3]["weight"] = 0
    for name, value in (
        ("racks-osd", own["osd_dump"]),
        ("racks-crush", own["crush_dump"]),
        ("out-osd", cluster["osd_dump"]),
        ("moving", {"pg_stats": stats}),
    ):
        (folder / f"{name}.json").write_text(json.dumps(value))


def like(answer: str, line: str) -> bool:
    """Whether a line that was put out is the one of a page, where two points at its end stand for the rest."""
    return answer.startswith(line[:-3]) if line.endswith("..\n") else answer == line


class Dialogues(Case):
    """Each page's blocks that begin with a command."""

    is_alone = True

    def test_shell(self) -> None:
        """The shell reads a pipe, answers line by line without a prompt, and writes the map for a later start."""
        with tempfile.TemporaryDirectory() as folder:
            words = [sys.executable, "-B", str(TOOLS), "--program", str(self.program), "shell"]
            text = 'up 1.0\nchange {"base":1,"down":[2]}\nsave after\nsave no/where\nhelp up\nnonsense\nquit\nepoch\n'
            done = subprocess.run(
                [*words, str(EXAMPLE)],
                input=text,
                capture_output=True,
                text=True,
                cwd=folder,
                timeout=SECONDS,
                check=False,
            )
            told = "save: no/where: No such file or directory\n"
            self.assertEqual((done.returncode, done.stderr), (2, told), "the map that was not saved")
            self.assertEqual(
                done.stdout.splitlines(),
                [
                    "up 1 1.0 [3,2,0] 3",
                    "ok 2 evals 0",
                    "saved after",
                    "no/where: No such file or directory",
                    "up PG: the up set of a group and its primary, as up 1.0",
                    "err 33 BadCommand",
                ],
            )
            done = subprocess.run(
                [*words, "after"],
                input="epoch\nup 1.0",
                capture_output=True,
                text=True,
                cwd=folder,
                timeout=SECONDS,
                check=True,
            )
            self.assertEqual(done.stdout.splitlines(), ["epoch 2", "up 2 1.0 [3,0] 3"])
            done = subprocess.run(
                [*words, str(EXAMPLE)],
                input="save /dev/full",
                capture_output=True,
                text=True,
                cwd=folder,
                timeout=SECONDS,
                check=False,
            )
            told = "/dev/full: No space left on device\n"
            self.assertEqual((done.returncode, done.stdout, done.stderr), (2, told, f"save: {told}"))
            after = pathlib.Path(folder, "after")
            held, (soft, hard) = after.read_text(), resource.getrlimit(resource.RLIMIT_FSIZE)
            try:
                resource.setrlimit(resource.RLIMIT_FSIZE, (100, hard))
                put(str(after), "x" * 101)
                raise AssertionError("a text beyond the limit of a file is written")
            except Trouble as fault:
                self.assertEqual(fault.lines, [f"{after}: File too large"])
            finally:
                resource.setrlimit(resource.RLIMIT_FSIZE, (soft, hard))
            self.assertEqual((os.listdir(folder), after.read_text()), (["after"], held))

    def test_dialogues_of_the_pages(self) -> None:
        """Every block of README.md and of docs/LIVE.md that shows a dialogue with `osdmapd` in a shell."""
        found = [*of_program("osdmapd", "README.md"), *of_program("osdmapd", "docs/LIVE.md")]
        self.assertEqual(len(found), 3)
        for commands, typed, answers in found:
            self.assertEqual(in_a_shell({"osdmapd": self.program}, commands, typed), "".join(answers))

    def test_guide(self) -> None:
        """Every block of docs/CEPH.md and of docs/COMMANDS.md that shows a dialogue, in their order in one folder, over
        clusters that a monitor of Ceph dumped. What is told on standard error is put out too."""
        with tempfile.TemporaryDirectory() as name:
            folder = pathlib.Path(name)
            other = copied(STOCK["008-rgw-ec83"])
            other["osd_dump"]["pools"][3]["size"] = 21
            for part in ("osd", "crush"):
                (folder / f"other-{part}.json").write_text(json.dumps(other[f"{part}_dump"]))
            for file in ("osd.json", "crush.json", "new.json", "pgs.json"):
                (folder / file).write_bytes((EXAMPLES / "ceph" / file).read_bytes())
            small = with_weights(json.loads((folder / "crush.json").read_text()), dict.fromkeys((10, 11), 29802))
            (folder / "small.json").write_text(json.dumps(small))
            put_older(folder)
            put_others(folder)
            command = folder / "rekhuso"
            command.write_text(f'#!/bin/sh\nexec {sys.executable} {TOOLS} --program {self.program} "$@"\n')
            command.chmod(0o755)
            words = [str(command), "hold", "osd.json", "crush.json", "--crush", "new.json", "--json"]
            done = subprocess.run(words, cwd=folder, capture_output=True, text=True, check=True, timeout=SECONDS)
            dump = held(STOCK["001-three-hosts"]["osd_dump"], json.loads(done.stdout)["commands"])
            (folder / "held.json").write_text(json.dumps(dump))
            (folder / "held-crush.json").write_text((folder / "new.json").read_text())
            found = [*dialogues("docs/CEPH.md"), *dialogues("docs/COMMANDS.md")]
            self.assertGreater(len(found), 7)
            for commands, _, answers in found:
                done = subprocess.run(
                    ["bash", "-c", "".join(commands)],
                    cwd=folder,
                    stdout=subprocess.PIPE,
                    stderr=subprocess.STDOUT,
                    text=True,
                    check=False,
                    timeout=4 * SECONDS,
                    env=os.environ | {"PATH": f"{folder}:{os.environ['PATH']}"},
                )
                told = done.stdout.splitlines(keepends=True)
                self.assertEqual(len(told), len(answers), (commands, told, answers))
                self.assertTrue(all(map(like, told, answers)), (commands, told, answers))

    def test_cluster_of_the_guide(self) -> None:
        """The files of examples/ceph are dumps of a monitor, the CRUSH map with a heavier host, and the sets that this
        monitor had"""
        cluster = STOCK["001-three-hosts"]
        wanted = cluster["osd_dump"], cluster["crush_dump"], heavier(cluster["crush_dump"], {0, 1, 2, 3})
        for name, dump in zip(("osd", "crush", "new"), wanted):
            self.assertEqual(json.loads((EXAMPLES / "ceph" / f"{name}.json").read_text()), dump)
        rows = json.loads((EXAMPLES / "ceph" / "pgs.json").read_text())["pg_map"]["pg_stats"]
        self.assertEqual({row["pgid"]: [row["up"], row["up_primary"]] for row in rows}, cluster["up"])

    def test_first_screen(self) -> None:
        """The script of README.md and its answers beside it, where two points stand for the rest of a line."""
        block = next(
            block
            for block in re.findall(r"(?:^ {4}.*\n)+", (HERE.parent / "README.md").read_text(), re.M)
            if block.startswith("    up ")
        )
        script, wanted = zip(*(re.split(" {2,}", line.strip()) for line in block.splitlines()))
        self.assertEqual("".join(line + "\n" for line in script), (HERE.parent / "examples" / "script.txt").read_text())
        status, output, _ = ran(self.program, HERE, "-", text="\n".join(script).encode())
        answers = output.splitlines()[1:]
        self.assertEqual((status, len(answers)), (0, len(wanted)))
        for answer, text in zip(answers, wanted):
            self.assertEqual(answer[: len(text) - 2] + ".." if text.endswith("..") else answer, text)


class StoreDialogues(StoreCase):
    """Those over a store."""

    is_alone = True

    def test_dialogues_over_a_store(self) -> None:
        """Every block of README.md and of docs/LIVE.md that shows a dialogue with `osdmapstore` in a shell."""
        found = [*of_program("osdmapstore", "README.md"), *of_program("osdmapstore", "docs/LIVE.md")]
        self.assertEqual(len(found), 2)
        for commands, typed, answers in found:
            self.assertEqual(in_a_shell({"osdmapstore": store_program()}, commands, typed), "".join(answers))
