"""The guards of scripts: they end a script, with nothing done, where the cluster is not as in the dumps; and what tells
how the cluster stands where a command is refused. Beside what monitors print, and at monitors where they are there.
"""

from __future__ import annotations

import json
import os
import pathlib
import shlex
import shutil
import subprocess
from collections.abc import Iterator

from rekhuso.plans.guards import GuardedPool, Guards, is_guard
from rekhuso.plans.printed_commands import commands_in

from tests.ceph_monitor import WORST
from tests.clusters import Json, commands, copied
from tests.reef_tools import ReefMonitor, reef_tools
from tests.together import NEW, OLD, OSDMAP, compiled, exceptions
from tests.tool_cases import StockCase

# As long may a script at a monitor take beside other work, a second or two for each of its commands.
LONG = 1200
FSID = "3360e166-03f7-4c83-ab03-2704d1bb31a8"
# What monitors of 16.2.15 and 18.2.7 printed for `ceph osd dump`; of the latter two pools are not at rest.
PRINTED = {
    "16.2.15": f"""epoch 3
fsid {FSID}
flags norebalance,sortbitwise,recovery_deletes,purged_snapdirs,pglog_hardlimit
crush_version 61
pool 1 'device_health_metrics' replicated size 3 min_size 2 crush_rule 0 object_hash rjenkins pg_num 1 pgp_num 1 \
autoscale_mode on last_change 1 flags hashpspool,creating stripe_width 0 application mgr_devicehealth
pool 2 'rbd' replicated size 3 min_size 2 crush_rule 0 object_hash rjenkins pg_num 512 pgp_num 512 \
autoscale_mode on last_change 1 flags hashpspool,creating stripe_width 0 application rbd
pool 3 'a 'b" pg_num 8 pgp_num 8 a' replicated size 3 min_size 2 crush_rule 0 object_hash rjenkins pg_num 4 pgp_num 4 \
autoscale_mode on last_change 29 flags hashpspool stripe_width 0
""",
    "18.2.7": f"""epoch 3
fsid {FSID}
flags sortbitwise,recovery_deletes,purged_snapdirs,pglog_hardlimit
crush_version 61
pool 1 '.mgr' replicated size 3 min_size 2 crush_rule 0 object_hash rjenkins pg_num 1 pgp_num 1 autoscale_mode on \
last_change 1 flags hashpspool,creating stripe_width 0 application mgr read_balance_score 23.08
pool 2 'rbd' replicated size 3 min_size 2 crush_rule 0 object_hash rjenkins pg_num 512 pgp_num 512 autoscale_mode on \
last_change 1 flags hashpspool,creating stripe_width 0 application rbd read_balance_score 2.63
pool 3 'vm' replicated size 2 min_size 1 crush_rule 0 object_hash rjenkins pg_num 4 pgp_num 4 autoscale_mode on \
last_change 1 flags hashpspool,creating stripe_width 0 application rbd read_balance_score 2.99
""",
}
POOLS = {1: GuardedPool("one", 1, 1, True), 2: GuardedPool("rbd", 512, 512, True), 3: GuardedPool("vm", 4, 4, True)}
OWN = Guards(FSID, 61, POOLS)
LINES = [f"ceph osd pg-upmap-items {pool}.0 1 2" for pool in POOLS]
# What stands at the head of a text that prints what a script has called.
CALLED = '#!/bin/sh\necho "$*" >> "$FOLDER/called"\n[ "$*" != "osd dump" ] || cat "$FOLDER/dump"\n'


class ShellCase(StockCase):
    """Scripts that `sh` runs, with a `ceph` of the tests' own or of a monitor."""

    def put_ceph(self, text: str) -> None:
        """Has scripts find a `ceph`."""
        (self.tools.folder / "bin").mkdir(exist_ok=True)
        self.tools.put("bin/ceph", text).chmod(0o755)

    def sh(self, text: str, *words: object) -> tuple[int, str]:
        """The status of a script, and what it tells on standard error."""
        folder = self.tools.folder
        environment = {**os.environ, "PATH": f"{folder}/bin:/usr/bin:/bin", "FOLDER": str(folder)}
        path = self.tools.put("script.sh", text)
        done = subprocess.run(
            ["sh", str(path), *map(str, words)],
            env=environment,
            cwd=folder,
            capture_output=True,
            text=True,
            timeout=LONG,
            check=False,
        )
        return done.returncode, done.stderr

    def called(self) -> list[str]:
        """What was called since the last time."""
        path = self.tools.folder / "called"
        found = path.read_text().splitlines() if path.exists() else []
        path.unlink(missing_ok=True)
        return found


class GuardLines(ShellCase):
    """Guards beside what monitors print."""

    def ran_over(self, dump: str, guards: Guards = OWN) -> tuple[int, str, list[str]]:
        """The status of a script over a cluster that prints a dump, what it tells, and what it called."""
        self.put_ceph(CALLED)
        self.tools.put("dump", dump)
        status, told = self.sh("\n".join(["set -e", *guards.lines(LINES), *LINES]) + "\n")
        return status, told, self.called()

    def test_right(self) -> None:
        """Where all is as in the dump, the commands are given, and the cluster is asked once."""
        for release, text in PRINTED.items():
            with self.subTest(release=release):
                status, told, called = self.ran_over(text)
                self.assertEqual((status, told), (0, ""))
                self.assertEqual(called, ["osd dump", *(line.removeprefix("ceph ") for line in LINES)])

    def test_wrong(self) -> None:
        """Another cluster or CRUSH map, and a pool with other groups, split, to be split or shrunk, or gone ends a
        script with status 1, one line, and nothing done."""
        for release, text in PRINTED.items():
            for was, now, words in (
                (FSID, FSID.replace("3360e166", "4360e166"), "this is another cluster"),
                ("crush_version 61", "crush_version 62", "the CRUSH map is not that of the dump"),
                ("crush_version 61", "crush_version 611", "the CRUSH map is not that of the dump"),
                ("pg_num 512 pgp_num 512", "pg_num 514 pgp_num 512", "pool rbd has no longer 512 groups placed by 512"),
                ("pgp_num 512", "pgp_num 511", "pool rbd has no longer"),
                ("pgp_num 512", "pgp_num 512 pg_num_target 256 pgp_num_target 256", "pool rbd has no longer"),
                ("pg_num 4 pgp_num 4", "pg_num 8 pgp_num 8", "pool vm has no longer 4 groups"),
                ("\npool 2 ", "\npool 4 ", "pool rbd has no longer"),
            ):
                with self.subTest(release=release, now=now):
                    status, told, called = self.ran_over(text.replace(was, now))
                    self.assertEqual((status, called, len(told.splitlines())), (1, ["osd dump"], 1), told)
                    self.assertStarts(told, words)
                    self.assertEnds(told, ": nothing is done\n")

    def test_no_answer(self) -> None:
        """A `ceph` that fails ends the script before anything is given."""
        self.put_ceph('#!/bin/sh\necho "$*" >> "$FOLDER/called"\necho no monitor >&2; exit 2\n')
        status, told = self.sh("\n".join(["set -e", *OWN.lines(LINES), *LINES]) + "\n")
        self.assertEqual((status, told, self.called()), (2, "no monitor\n", ["osd dump"]))

    def test_what_is_asked(self) -> None:
        """What is not known is not asked: an fsid, a version, pools that no command names, or that were not at rest."""
        self.assertEqual(Guards(None, None, {}).lines(LINES), [])
        lines = OWN.lines(LINES[:1])
        self.assertEqual([line for line in lines if "^pool 1 " in line], lines[-1:])
        self.assertFalse(any("^crush_version" in line for line in OWN.later(None).lines(LINES)))
        self.assertTrue(any("'^crush_version 62$'" in line for line in OWN.later(1).lines(LINES)))
        moving = Guards(None, None, {2: GuardedPool("rbd", 512, 512, False)})
        text = PRINTED["18.2.7"].replace("pgp_num 512", "pgp_num 512 pg_num_target 1024")
        self.assertEqual(self.ran_over(text, moving)[0], 0)

    def test_names(self) -> None:
        """Whatever signs the name of a pool has, `sh` takes them as they are, in one line."""
        for name in (
            "a b",
            "it's",
            '"; touch one; "',
            "$(touch two)",
            "`touch three`",
            "a\x1b[1mb",
            "''",
            "é",
            "a\u2028b",
        ):
            with self.subTest(name=name):
                own = Guards(None, None, {2: GuardedPool(name, 511, 512, True)})
                status, told, _ = self.ran_over(PRINTED["18.2.7"], own)
                shown = "".join(sign if sign.isprintable() else "?" for sign in name)
                self.assertEqual((status, told.splitlines()[0].split(" has no")[0]), (1, f"pool {shown}"))
                self.assertTrue(all(map(is_guard, own.lines(LINES))))
                self.assertLessEqual({path.name for path in self.tools.folder.iterdir()}, {"bin", "dump", "script.sh"})

    def test_forms(self) -> None:
        """The judge passes guards by their exact form alone."""
        for line in OWN.lines(LINES):
            self.assertTrue(is_guard(line), line)
        self.assertEqual(len(commands_in("\n".join(["set -e", *OWN.lines(LINES), *LINES]))), len(LINES))
        good = OWN.lines(LINES)[3]
        for line in (
            *(good + " ", good + "; ceph status", good + " x", good.replace("has ", "has  "), "has", "has a b"),
            *("now=$(ceph osd dump);", "now=$(ceph status)", "has '^pool 1 .*' 'x'", f"{good} $(touch x)"),
            *(
                "has ^fsid x",
                f"has '^fsid {FSID}$' $(touch x)",
                f"has '^fsid {FSID}$' \"$(touch x)\"",
                "has 'a",
                "has ''",
            ),
        ):
            with self.subTest(line=line):
                self.assertFalse(is_guard(line))


class HoldScripts(ShellCase):
    """Scripts of `hold` by `sh`."""

    def hold(self, *words: object) -> str:
        """The script of a hold."""
        dump = copied(WORST["four_hosts"]["osd_dump"])
        files = self.tools.put("o", dump), self.tools.put("c", OLD["dump"])
        return self.output("hold", *files, "--crush", self.tools.put("n", NEW["dump"]), "--no-guard", *words)

    def ran_refusing(self, text: str, refused: str, flags: str = "sortbitwise") -> tuple[int, str, list[str]]:
        """The status of a script of which a call is refused, what it tells, and what it called."""
        self.tools.put("dump", f"epoch 3\nflags {flags}\n")
        self.put_ceph(f'{CALLED}case "$*" in {shlex.quote(refused)}*) echo no >&2; exit 22;; esac\n')
        status, told = self.sh(text, "ceph", "osd", "setcrushmap", "-i", "new")
        return status, told, self.called()

    def test_right(self) -> None:
        """Nothing is refused: norebalance is set first, then the change is made, and norebalance is unset in the end,
        unless it was set before."""
        text = self.hold()
        own = [line.removeprefix("ceph ") for line in commands(text) if "pg-upmap" in line]
        begin = ["osd dump", "balancer off", "osd set norebalance", "osd setcrushmap -i new"]
        self.assertEqual(self.ran_refusing(text, "nothing"), (0, "", [*begin, *own, "osd unset norebalance"]))
        status, told, called = self.ran_refusing(text, "nothing", "norebalance,sortbitwise")
        self.assertEqual((status, told, called), (0, "", [*begin, *own]))

    def test_refused(self) -> None:
        """Whatever call is refused: the script ends there, and tells how the cluster stands."""
        text = self.hold()
        own = [line.removeprefix("ceph ") for line in commands(text) if "pg-upmap" in line]
        given = "norebalance is set, and what stands above the refused command is given: give the rest, or go back"
        for refused, words in (
            ("balancer off", "nothing of it is given"),
            ("osd set norebalance", "nothing of it is given"),
            ("osd setcrushmap", "norebalance is set, and nothing else is given"),
            *((line, given) for line in (own[0], own[-1])),
            ("osd unset norebalance", "all is given, and norebalance is set"),
        ):
            with self.subTest(refused=refused):
                status, told, called = self.ran_refusing(text, refused)
                self.assertEqual((status, told), (22, f"no\nstopped: {words}\n"))
                self.assertStarts(called[-1], refused)

    def test_parts(self) -> None:
        """Of several parts the last one is told of a norebalance that was set before, which then stays."""
        self.hold("--batch", 40, "--to", "parts")
        texts = [path.read_text() for path in sorted((self.tools.folder / "parts").iterdir())]
        self.assertGreater(len(texts), 1)
        _, told, _ = self.ran_refusing(texts[0], "nothing", "norebalance")
        self.assertEqual(told, "norebalance was set before: give the last part KEEP_NOREBALANCE=1\n")
        self.assertEqual(self.ran_refusing(texts[-1], "nothing")[2][-1], "osd unset norebalance")
        kept = self.ran_refusing("KEEP_NOREBALANCE=1\n" + texts[-1], "nothing")
        self.assertNotIn("osd unset norebalance", kept[2])

    def test_no_guard(self) -> None:
        """Guards are there unless they are not wanted, and ask for what the dump tells."""
        dump = dict(copied(WORST["four_hosts"]["osd_dump"]), fsid=FSID, crush_version=5)
        files = self.tools.put("o", dump), self.tools.put("c", OLD["dump"])
        change = ["--crush", self.tools.put("n", NEW["dump"])]
        for words in (
            ["plan", *files],
            ["hold", *files, *change],
            ["release", *files],
            ["hold", *files, *change, "--undo"],
        ):
            with self.subTest(words=words):
                text = self.output(*words)
                asked = [line for line in text.splitlines() if line.startswith("has '")]
                version = 6 if "--undo" in words else 5
                self.assertEqual(asked[0].split(" ")[:3], ["has", "'^fsid", f"{FSID}$'"])
                self.assertEqual(asked[1].split(" ")[:3], ["has", "'^crush_version", f"{version}$'"])
                pools = {line.split(" ")[3].split(".")[0] for line in commands(text) if "pg-upmap" in line}
                # A hold says of each group where it is then, and so asks for all pools.
                pools |= {"1"} if words[0] == "hold" and "--undo" not in words else set()
                self.assertEqual({line.split(" ")[2] for line in asked[2:]}, pools)
                self.assertNotIn("ceph osd dump)\nhas", self.output(*words, "--no-guard"))


class Monitors(ShellCase):
    """Scripts at real monitors: Ceph's of this machine, and that of 18.2 where REEF names its tools."""

    def folders(self) -> list[pathlib.Path]:
        """Where monitors are."""
        found, reef = shutil.which("ceph-mon"), reef_tools()
        own = [pathlib.Path(found).parent] if found is not None else []
        return own + ([reef] if reef is not None else [])

    def asked(self, monitor: ReefMonitor, *words: str) -> str:
        """What a monitor answers."""
        return monitor.run("ceph", "-c", monitor.conf, *words).stdout

    def state(self, monitor: ReefMonitor) -> Json:
        """The map of a monitor."""
        found: Json = json.loads(self.asked(monitor, "osd", "dump", "-f", "json"))
        return found

    def scripts(self, monitor: ReefMonitor) -> Iterator[tuple[str, str]]:
        """The scripts over the cluster of a monitor, each with its name."""
        files = [self.tools.put("osd.json", self.state(monitor))]
        files.append(self.tools.put("crush.json", json.loads(self.asked(monitor, "osd", "crush", "dump"))))
        new = ["--crush", self.tools.put("new.json", NEW["dump"])]
        yield "plan", self.output("plan", *files)
        yield "undo", self.output("plan", *files, "--undo")
        yield "hold", self.output("hold", *files, *new)
        yield "release", self.output("release", *files)
        folder = f"parts-{len(list(self.tools.folder.iterdir()))}"
        self.output("plan", *files, "--batch", 9, "--to", folder)
        yield "part", (self.tools.folder / folder / "plan-001.sh").read_text()

    def wrong(self, monitor: ReefMonitor, scripts: dict[str, str], what: str) -> None:
        """Asks that no script changes an epoch."""
        epoch = self.state(monitor)["epoch"]
        for name, text in scripts.items():
            status, told = self.sh(text, "ceph", "osd", "set", "noout")
            self.assertEqual((status, self.state(monitor)["epoch"]), (1, epoch), (name, what, told))
            self.assertEnds(told, ": nothing is done\n", (name, what))
            self.assertEqual(len(told.splitlines()), 1, (name, what, told))

    def test_monitors(self) -> None:
        """Another fsid, a CRUSH reweight in between, a pool grown, pgp_num moved: by each script no epoch changes. The
        right ones run."""
        self.needs("ceph-mon", bool(self.folders()))
        for tools in self.folders():
            with self.subTest(tools=tools), ReefMonitor(tools, OSDMAP) as monitor:
                # A monitor alone has no manager, which turns a balancer off.
                ceph = f'[ "$*" = "balancer off" ] || exec {tools}/ceph -c {monitor.conf} "$@"'
                self.put_ceph(f"#!/bin/sh\n{ceph}\n")
                scripts = dict(self.scripts(monitor))
                other = {name: text.replace("'^fsid ", "'^fsid 0") for name, text in scripts.items()}
                self.wrong(monitor, other, "another cluster")
                self.right(monitor, scripts)
                self.asked(monitor, "osd", "crush", "reweight", "osd.1", "3.5")
                self.wrong(monitor, scripts, "a reweight")
                scripts = dict(self.scripts(monitor))
                names = [own["pool_name"] for own in self.state(monitor)["pools"] if own["pg_num"] > 1]
                for name in names:
                    self.asked(monitor, "osd", "pool", "set", name, "pgp_num_actual", "100")
                self.wrong(monitor, scripts, "pgp_num moved")
                for name in names:
                    self.asked(monitor, "osd", "pool", "set", name, "pg_num_actual", "600")
                self.wrong(monitor, scripts, "a pool grown")

    def test_right_scripts(self) -> None:
        """Behind its guards a part runs and its undoing leads back; a hold runs with its change, and each group is
        where it was; a release runs over the dumps of then, and the exceptions are those that it leaves."""
        self.needs("ceph-mon", bool(self.folders()))
        for tools in self.folders():
            with self.subTest(tools=tools), ReefMonitor(tools, OSDMAP) as monitor:
                ceph = f'[ "$*" = "balancer off" ] || exec {tools}/ceph -c {monitor.conf} "$@"'
                self.put_ceph(f"#!/bin/sh\n{ceph}\n")
                scripts, before, sets = dict(self.scripts(monitor)), self.state(monitor), monitor.sets()
                self.assertEqual(self.sh(scripts["part"])[0], 0)
                self.assertNotEqual(exceptions(self.state(monitor)), exceptions(before))
                self.assertEqual(self.sh(scripts["undo"])[0], 0)
                self.assertEqual(exceptions(self.state(monitor)), exceptions(before))
                new = self.tools.folder / "new"
                new.write_bytes(compiled(NEW))
                status, told = self.sh(scripts["hold"], "ceph", "osd", "setcrushmap", "-i", new)
                now = self.state(monitor)
                self.assertEqual((status, now["crush_version"]), (0, before["crush_version"] + 1), told)
                self.assertNotIn("norebalance", now["flags"])
                self.assertEqual(monitor.sets(), sets)
                files = [self.tools.put("osd.json", now)]
                files.append(self.tools.put("crush.json", json.loads(self.asked(monitor, "osd", "crush", "dump"))))
                self.assertEqual(self.sh(self.output("release", *files))[0], 0)
                self.assertLess(len(exceptions(self.state(monitor))), len(exceptions(now)))

    def right(self, monitor: ReefMonitor, scripts: dict[str, str]) -> None:
        """Asks that a plan runs, and its undoing leads back."""
        before = self.state(monitor)
        self.assertEqual(self.sh(scripts["plan"])[0], 0)
        now = self.state(monitor)
        self.assertGreaterEqual(now["epoch"], before["epoch"] + len(commands(scripts["plan"])))
        self.assertEqual(self.sh(scripts["undo"])[0], 0)
        self.assertEqual(exceptions(self.state(monitor)), exceptions(before))
        self.assertGreater(len(commands(scripts["plan"])), 5)
