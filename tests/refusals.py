"""Commands that are refused: by which status and which code, and what they tell as JSON; files that stand in place of
others; and places at which nothing can be put, which are told before any work is done.
"""

from __future__ import annotations

import json
import pathlib

from rekhuso import faults

from tests.cases import EXAMPLE, TOP
from tests.ceph_monitor import WORST
from tests.clusters import Json
from tests.schemas import Validator, schema_of
from tests.tool_cases import StockCase, without_names

# What each file is told to be where it stands in place of another.
SAID = {
    "osd": "what `ceph osd dump -f json` prints",
    "crush": "what `ceph osd crush dump` prints",
    "map": "a map, as `import` writes it",
    "names": "names, as `import --names` writes them",
    "pgs": "what `ceph pg dump -f json` prints",
    "df": "what `ceph df --format json` prints",
    "osds": "what `ceph osd df -f json` prints",
    "tree": "what `ceph osd tree -f json` prints",
    "report": "what `ceph report` prints",
    "plan": "what `rekhuso plan --json` tells",
}
# What a file of names has.
TABLES = ("buckets", "classes", "osds", "pools", "rules", "types")


class Refusals(StockCase):
    """Statuses, codes and JSON."""

    def setUp(self) -> None:
        super().setUp()
        self.own = WORST["four_hosts"]
        self.files = [self.tools.put("osd", self.own["osd_dump"]), self.tools.put("crush", self.own["crush_dump"])]

    def changed(self, **parts: Json) -> list[pathlib.Path]:
        """The dumps with other parts of the first."""
        return [self.tools.put("other", dict(self.own["osd_dump"], **parts)), self.files[1]]

    def cases(self) -> list[tuple[list[object], int, str]]:
        """Words, their status and their code."""
        away = [
            {"pgid": f"{pool['pool']}.{at:x}", "osds": [1, 2, 3]}
            for pool in self.own["osd_dump"]["pools"]
            for at in range(pool["pg_num"])
        ]
        moving = self.changed(pg_temp=away)
        stats: list[Json] = []
        return [
            (["plan", *moving], 11, "wait"),
            (["drain", *moving, "osd.1"], 11, "wait"),
            (["hold", *moving, "--weight", "osd.1=1"], 11, "wait"),
            (["release", *moving], 11, "wait"),
            (["plan", *self.files, "--of-pool", "nobody"], 1, "refused"),
            (["df", self.tools.put("none", "{}")], 1, "refused"),
            (["df", "nowhere"], 2, "trouble"),
            (["verify", *self.files, "--pgs", self.tools.put("few", {"pg_stats": stats})], 1, "refused"),
        ]

    def test_json(self) -> None:
        """Under --json a refusal is told as one object too, by its code, its status and the lines of standard error;
        without it nothing is put out."""
        for words, status, code in self.cases():
            with self.subTest(words=words[0], code=code):
                found, output, error = self.tools.run(*words, "--json")
                told = json.loads(output)
                schema = schema_of("refusal")
                self.assertEqual(list(Validator(schema).faults(told, schema, "refusal")), [])
                self.assertEqual((found, told["refused"]["status"], told["refused"]["code"]), (status, status, code))
                self.assertEqual(told["command"], words[0])
                why = {without_names(line) for line in told["refused"]["why"]}
                self.assertEqual(why - set(error.splitlines()), set())
                self.assertEqual(self.tools.run(*words)[:2], (status, ""))
        found, output, _ = self.tools.run("df", *self.files, "--json", "--nothing")
        self.assertEqual((found, output), (2, ""))

    def test_codes(self) -> None:
        """Each code is in the schema, and with its status in docs/COMMANDS.md."""
        kinds = {
            own.code: own.status
            for own in vars(faults).values()
            if isinstance(own, type) and issubclass(own, faults.Fault)
        }
        told = schema_of("refusal")["properties"]["refused"]["properties"]["code"]["enum"]
        self.assertEqual(set(told), set(kinds))
        page = (TOP / "docs" / "COMMANDS.md").read_text()
        for code, status in kinds.items():
            self.assertRegex(page, rf"\| {status} \| `{code}` \|")

    def test_other_files(self) -> None:
        """Each option for a file tells what the file is that stands there in place of its own."""
        pool, osd = self.own["osd_dump"]["pools"][0], {"id": 0, "kb": 9, "kb_used": 1, "kb_avail": 8}
        whole = {"osdmap": self.own["osd_dump"], "crushmap": self.own["crush_dump"]}
        values: dict[str, Json] = {
            **{"osd": self.own["osd_dump"], "crush": self.own["crush_dump"], "map": json.loads(EXAMPLE.read_text())},
            **{"names": {key: {"1": "a"} for key in TABLES}, "pgs": {"pg_stats": []}},
            **{"df": {"stats": {}, "pools": []}, "osds": {"nodes": [osd], "summary": {}}},
            **{"tree": {"nodes": [{"id": -1, "children": [0]}, {"id": 0, "exists": 1, "reweight": 1.0}]}},
            **{"report": whole, "plan": {"command": "plan", "version": 1, "epoch": pool["pool"]}},
        }
        paths = {name: self.tools.put(f"as-{name}", value) for name, value in values.items()}
        options = {"pgs": "--pgs", "df": "--df", "tree": "--tree", "names": "--names"}
        for wanted, option in options.items():
            for name, path in paths.items():
                if name != wanted and (name, wanted) not in (("report", "df"), ("report", "names")):
                    with self.subTest(option=option, name=name):
                        found, output, error = self.tools.run("plan", *self.files, option, path)
                        self.assertEqual((found, output), (2, ""), error)
                        self.assertIn(f"{path}: this is {SAID[name]}", error)

    def test_places(self) -> None:
        """A place at which nothing can be put is told before any work: also where the program is not there."""
        folder = self.tools.folder / "folder"
        folder.mkdir()
        file, missing = self.tools.put("file", ""), self.tools.folder / "no" / "where"
        commands: list[list[object]] = [
            ["plan", *self.files],
            ["hold", *self.files, "--weight", "osd.1=1"],
            ["release", *self.files],
        ]
        self.tools.program = self.tools.folder / "nobody"
        for words in commands:
            for to, told in (
                ("", "'': no file"),
                ("-", "-: no file"),
                (folder, "a folder; --batch"),
                (missing, "is not there"),
            ):
                with self.subTest(words=words[0], to=to):
                    self.is_told(self.tools.run(*words, "--to", to), 2, told, words)
        for words in [
            *([*own, "--batch", 9] for own in commands),
            ["drain", *self.files, "osd.1"],
            ["import", *self.files],
        ]:
            for to, told in (
                ("", "'': no folder"),
                ("-", "-: no folder"),
                (file, "a file, and parts are written into a folder"),
            ):
                with self.subTest(words=words[0], to=to):
                    self.is_told(self.tools.run(*words, "--to", to), 2, told, words)
