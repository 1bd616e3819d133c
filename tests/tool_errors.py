"""The commands of the tools at their edges: whatever comes, a command that cannot do its work ends with one line and
its status.

A status is 0 where the work is done, 1 where something was refused, and 2 where the command was used wrongly, or a file
cannot be read or written, or the program is not there.
"""

from __future__ import annotations

import os
import re
import shutil
import subprocess
import sys
from collections.abc import Sequence

from rekhuso.command_line import parser
from rekhuso.commands import COMMANDS as COMMAND_NAMES
from rekhuso.running import Run, running
from rekhuso.version import VERSION

from tests.cases import EXAMPLE
from tests.clusters import CLUSTERS, STOCK, copied
from tests.tool_cases import AS_MONITOR, TOOLS, ToolCase, Tools

SECONDS = 30
# Runs a command once nobody reads its output any more, and tells its status.
UNREAD = '{ while (echo) 2> /dev/null; do sleep 0.01; done; "$@"; echo $? >&2; }'
# The commands that put scripts out, by the same words.
PUTTING = ("plan", "hold", "release", "drain")
# Options by the names that they have now, and had before.
OLDER = (
    ("plan", "--first", "--max"),
    ("plan", "--of-pool", "--pool"),
    ("plan", "--of-class", "--class"),
    ("hold", "--pgs", "--at"),
    *((word, f"--of-{own}", f"--{own}") for word in ("hold", "release") for own in ("osd", "host", "pg")),
    ("release", "--before", "--keep"),
    ("import", "--to", "--out"),
)

# Each command that puts something out over the example's map.
COMMANDS = [
    ["df"],
    ["df", "--json"],
    ["check"],
    ["net"],
    ["report"],
    ["picture"],
    ["explain", "1.0"],
    ["whatif", "--out", "3"],
    ["whatif", "--out", "3", "--json"],
    ["whatif", "--each", "10", "--json"],
    ["diff", str(EXAMPLE)],
]


def over_example(words: Sequence[object]) -> list[object]:
    """A command's words with the example's map behind its name."""
    return [words[0], EXAMPLE, *words[1:]]


class ToolErrors(ToolCase):
    """What cannot be written, read, started or understood."""

    def test_output_that_cannot_be_written(self) -> None:
        """Where standard output is full or closed, each command says so and has failed; where nobody reads it, it
        ends quietly."""
        osd, crush = self.tools.dumps("001-built")
        cases: list[list[object]] = [["import", osd, crush], ["plan", osd, crush], ["--help"], ["df", "--help"]]
        cases += [["--version"], *map(over_example, COMMANDS)]
        for words in cases:
            with self.subTest(words=words):
                for sink, told in ((">/dev/full", "No space left on device"), (">&-", "closed"), ("| exec true", None)):
                    line = f'"$@" {sink}' if not sink.startswith("|") else f"{UNREAD} | :"
                    done = subprocess.run(
                        ["bash", "-c", line, "sh", *self.tools.words(*words)],
                        capture_output=True,
                        text=True,
                        timeout=SECONDS,
                        check=False,
                        cwd=self.tools.folder,
                    )
                    lines = [
                        entry
                        for entry in done.stderr.splitlines()
                        if not entry.startswith(("left out: ", "cluster ", "p1: "))
                    ]
                    status = int(lines.pop()) if sink.startswith("|") else done.returncode
                    # 141: ended by SIGPIPE, as any tool before `| head`.
                    wanted = (2, [f"output: {told}"]) if told else (141, [])
                    self.assertEqual((status, lines), wanted, (words, sink, status, done.stderr[-300:]))

    def test_files_that_cannot_be_written(self) -> None:
        """A file beside the output that cannot be written is told by its path."""
        found = self.tools.run("whatif", EXAMPLE, "--out", "3", "--picture", "no/flows.svg")
        self.is_told(found, 2, "no/flows.svg: No such file or directory", "picture")
        self.is_told(
            self.tools.run("whatif", EXAMPLE, "--out", "3", "--picture", "/dev/full"),
            2,
            "/dev/full: No space left on device",
            "picture",
        )
        for path, told in (("no/names", "No such file or directory"), ("/dev/full", "No space left on device")):
            with self.subTest(told=told):
                status, _, error = self.tools.run("import", *self.tools.dumps("001-built"), "--names", path)
                self.assertEqual(status, 2, (status, error))
                self.assertEqual(error.splitlines()[-1], f"{path}: {told}", (status, error))

    def test_dumps_in_place_of_others(self) -> None:
        """Dumps that are swapped, a dump where a map is wanted, and a number of files that no command takes are told
        as that."""
        osd, crush = self.tools.dumps("001-built")
        for words in (["import"], ["import", "--check"], ["df"], ["plan"], ["whatif", "--out", "3"]):
            with self.subTest(words=words):
                told = f"the dumps are swapped: {crush} is the CRUSH dump, and {osd} the OSD dump, which comes first"
                self.is_told(self.tools.run(words[0], crush, osd, *words[1:]), 2, told, words)
        for path, kind in ((osd, "an OSD"), (crush, "a CRUSH")):
            with self.subTest(kind=kind):
                self.is_told(self.tools.run("check", path), 2, f"{path}: this is {kind} dump: use import", kind)
                told = f"{path}: this is {kind} dump, and no map: most commands take both dumps, and import makes a map"
                for words in (["df"], ["net"], ["plan"], ["shell"], ["whatif", "--out", "3"], ["explain", "1.0"]):
                    self.is_told(self.tools.run(words[0], path, *words[1:], stdin=""), 2, told, words)
        for files in ([EXAMPLE, crush], [osd, EXAMPLE]):
            with self.subTest(files=files):
                told = f"{EXAMPLE}: this is a map, and no dump: give both dumps, or one map alone"
                self.is_told(self.tools.run("df", *files), 2, told, files)
        for files in ([osd], [osd, crush, osd]):
            with self.subTest():
                self.is_told(self.tools.run("diff", *files), 2, "diff takes two maps, or the two dumps of each", files)

    def test_changes_as_texts_and_files(self) -> None:
        """`whatif` and `check` take a change as a text or as a file, and a file that is not there is told as that."""
        text = '{"base":1,"weight":[[3,0]]}'
        wanted = self.tools.run("whatif", EXAMPLE, "--out", "3", "--json")
        self.assertEqual(wanted[0], 0, wanted)
        lawful = self.tools.run("check", EXAMPLE, text)
        self.assertEqual(lawful, (0, "the change: lawful: ok 2 evals 1\n", ""))
        for change in (text, f"change {text}", f"  change {text}\n"):
            path = self.tools.put("change", change)
            for word in (change, path):
                with self.subTest(change=change, word=word):
                    self.assertEqual(self.tools.run("whatif", EXAMPLE, word, "--json"), wanted)
                    told = "the change" if word == change else path
                    self.assertEqual(self.tools.run("check", EXAMPLE, word), (0, f"{told}: lawful: ok 2 evals 1\n", ""))
        osd, crush = self.tools.dumps("001-built")
        for words in ([osd, "crash"], [osd, crush, "crash"]):
            with self.subTest(words=words):
                self.is_told(self.tools.run("whatif", *words, "--out", "3"), 2, "crash: No such file", words)
        for text, told in (("[]", "no change: no JSON"), ("{", "no change: no JSON"), ("", "empty")):
            with self.subTest(text=text):
                path = self.tools.put("none", text)
                self.is_told(self.tools.run("whatif", osd, crush, path), 2, f"{path}: {told}", text)

    def test_dumps_of_another_kind(self) -> None:
        """A report of a cluster in place of a map, and the pools of a release before Luminous, are told as what they
        are."""
        own = CLUSTERS["001-built"]
        report = self.tools.put("report", {"osdmap": own["osd_dump"], "crushmap": own["crush_dump"], "health": {}})
        told = "report: this is what `ceph report` prints, with the OSD dump at .osdmap and the CRUSH dump at .crushmap"
        for words in (["check", report], ["net", report]):
            with self.subTest(words=words):
                self.is_told(self.tools.run(*words), 2, told, words)
        osd = copied(STOCK["001-three-hosts"]["osd_dump"])
        for pool in osd["pools"]:
            pool["crush_ruleset"] = pool.pop("crush_rule")
        crush = self.tools.put("crush", STOCK["001-three-hosts"]["crush_dump"])
        status, _, error = self.tools.run("import", self.tools.put("osd", osd), crush)
        older = "missing, and crush_ruleset in its place: is it a dump of Ceph before 12.2?"
        self.assertEqual((status, error.count(older), error.count("no monitor dumps it so")), (1, len(osd["pools"]), 0))

    def test_changes_that_are_none(self) -> None:
        """A what-if without a change is an error of use, and so is what only a balance needs; a balance amid an
        outage is made where it is asked for."""
        osd, crush = self.tools.dumps("001-built")
        self.is_told(
            self.tools.run("whatif", osd, crush),
            2,
            "nothing is changed: give CHANGE, an option as --out, or --each TYPE",
            "no change",
        )
        self.is_told(
            self.tools.run("whatif", osd, crush, "--out", "3", "--anyway"),
            2,
            "--anyway goes with --balance alone",
            "anyway",
        )
        self.is_told(
            self.tools.run("whatif", osd, crush, "--down", "3", "--balance"),
            11,
            "no plan is made: --anyway makes one",
            "an outage",
        )
        status, output, error = self.tools.run("whatif", osd, crush, "--down", "3", "--balance", "--anyway")
        self.assertEqual(status, 0, (status, output, error))
        self.assertIn(" move", output, (status, output, error))
        self.assertStarts(error, "an outage: 1 OSD is down", (status, output, error))

    def test_names_of_another_form(self) -> None:
        """A file of names that has another form is told by its path and the place."""
        forms = [
            ("[]", "no JSON object"),
            ("{", "no JSON"),
            ('{"osds":[]}', "osds: no object"),
            ('{"osds":{"x":"y"}}', "osds.x: no number"),
            ('{"buckets":{"-1":5}}', "buckets.-1: no text"),
            ('{"pools":{"1":"\\ud800"}}', "pools.1: no text"),
            ('{"types":null}', "types: no object"),
            ('{"buckets":{"²":"a"}}', "buckets.²: no number"),
        ]
        for text, told in forms:
            for words in (["df"], ["whatif", "--out", "3"], ["explain", "1.0"], ["picture"], ["report"]):
                found = self.tools.run(*over_example(words), "--names", self.tools.put("names", text))
                status = 2 if told.startswith("no JSON") else 1
                self.is_told(found, status, f"{self.tools.folder / 'names'}: {told}", (words, text))
        (self.tools.folder / "bytes").write_bytes(b"\xff")
        self.is_told(self.tools.run("df", EXAMPLE, "--names", "bytes"), 2, "bytes: no UTF-8", "bytes")

    def test_words_of_another_form(self) -> None:
        """A word that is no number, group or change where one is asked for is an error of use."""
        for words in (
            ["whatif", "--reweight", "3", "abc"],
            ["whatif", "--reweight", "3", "nan"],
            ["whatif", "--reweight", "3", "inf"],
            ["whatif", "--reweight", "3", "1.5"],
            ["whatif", "--reweight", "3", "-1"],
            ["whatif", "5"],
            ["whatif", "[]"],
            ["whatif", "true"],
            ["whatif", "{"],
            ["whatif", "change 5"],
            ["whatif", "[" * 100_000],
            ["whatif", "--add-host", "new", "1,x"],
            ["whatif", "--add-host", "new", "inf"],
            ["whatif", "--add-host", "new", "nan"],
            ["whatif", "--add-host", "new", "0"],
            ["whatif", "--add-host", "new", "-1"],
            ["whatif", "--add-host", "new", "1e99"],
            ["explain", "1"],
            ["explain", "x.y"],
            ["explain", "1.²"],
            ["explain", "-1.0"],
            ["plan", "--first", "abc"],
            ["df", "--nothing"],
            ["nothing"],
            ["diff"],
            ["picture", "--names"],
        ):
            with self.subTest(words=words):
                self.is_told(self.tools.run(*over_example(words)), 2, "error: ", words)
        told = "--deviation 0.2: 0.5 is the whole plan; less goes with --alone"
        self.is_told(self.tools.run("plan", EXAMPLE, "--deviation", "0.2"), 2, told, told)
        for word in ("²", "--3", "osd.", "-", "1_0", "99"):
            with self.subTest(word=word):
                self.is_told(self.tools.run("whatif", EXAMPLE, f"--out={word}"), 1, f"{word}: no OSD of the map", word)

    def test_options_that_do_not_go_together(self) -> None:
        """What would be passed over in silence is an error of use."""
        host = ["--add-host", "new", "1"]
        for words in (
            ["--each", "1", "--out", "3"],
            ["--each", "1", "{}"],
            ["--each", "1", *host],
            ["--each", "1", "--picture", "f"],
            ["--under", "-1"],
            ["--class", "ssd"],
            [*host, *host],
            ["--out", "3", "--in", "3"],
            ["--weight", "3=1", "--weight", "3=2"],
            ["--reweight", "3", "1", "--reweight", "3", "0.5"],
            ["--js"],
        ):
            with self.subTest(words=words):
                self.is_told(self.tools.run("whatif", EXAMPLE, *words), 2, "error: ", words)

    def test_several_osds(self) -> None:
        """Several OSDs stand behind one option as behind `ceph osd out`, and words count in their order."""
        for words, other in (
            (["--out", "1", "2"], ["--out", "1", "--out", "2"]),
            (["--out", "1,osd.2"], ["--out", "1", "--out", "2"]),
            (["--out=1", "2", "--down", "0", "3"], ["--out", "1", "--out", "2", "--down", "0", "--down", "3"]),
            (["--reweight", "3", "0.5", "--out", "3"], ["--out", "3"]),
            (["--out", "3", "--reweight", "3", "0.5"], ["--reweight", "3", "0.5"]),
        ):
            with self.subTest(words=words):
                found, wanted = (self.json("whatif", EXAMPLE, *own) for own in (words, other))
                self.assertEqual(found, wanted)
        self.assertEqual(self.output("whatif", "--out", "1", "2", EXAMPLE), self.output("whatif", EXAMPLE, "--out=1,2"))

    def test_older_names(self) -> None:
        """An option by the name that it had before does what it does by its own, and tells that name; no help has the
        older one, and where it would mean another thing it is that."""
        for word, name, older in OLDER:
            with self.subTest(word=word, older=older):
                words = [word, "o", "c", *([name, "7"] if word != "plan" else [f"{name}=7"])]
                heard: list[str] = []
                with running(Run(heard.append, print)):
                    wanted = vars(parser((word,)).parse_args(words))
                    self.assertEqual(heard, [])
                    told = vars(parser((word,)).parse_args([own.replace(name, older) for own in words]))
                self.assertEqual({**told, "work": None}, {**wanted, "work": None})
                self.assertEqual(heard, [f"rekhuso {word}: {older} is {name} now; the older name goes"])
        self.assertNotIn("--max", self.output("plan", "--help", "--all"))
        self.is_told(self.tools.run("whatif", EXAMPLE, "--max", "3"), 2, "unrecognized arguments: --max", "")

    def test_named_programs(self) -> None:
        """A variable names the program where no option does."""
        words = [sys.executable, "-B", str(TOOLS), "check", str(EXAMPLE)]
        for name, status in ((str(self.tools.program), 0), ("nowhere", 2)):
            with self.subTest(name=name):
                own = os.environ | {"REKHUSO_PROGRAM": name}
                done = subprocess.run(words, env=own, capture_output=True, text=True, timeout=SECONDS, check=False)
                self.assertEqual((done.returncode, "nowhere: no program" in done.stderr), (status, status == 2))

    def test_program_with_checks(self) -> None:
        """Where no proved program is there, the tools take the one with checks of their repository, and say once that
        nothing of it is proved; a proved one in its place, on the path, or one that is named goes before it."""
        place = self.tools.folder / "repository"
        tools = shutil.copytree(TOOLS, place / "tools" / "rekhuso", ignore=shutil.ignore_patterns("__pycache__"))
        out, path = place / "crates" / "osdmapd" / "out", place / "path"
        for folder in (out, path):
            folder.mkdir(parents=True)
        (out / "osdmapd.checked").symlink_to(self.tools.program)
        dumps = map(str, self.tools.dumps("002-built"))
        words = [sys.executable, "-B", str(tools), "whatif", *dumps, "--out", "1", "--unmatched"]
        line = f"{out / 'osdmapd.checked'}: checks in place of proofs: nothing of it is proved; `make run` proves one"

        def errors(*more: str) -> list[str]:
            """What a command tells on standard error, once it has done its work."""
            named = {"PATH": f"{path}:/usr/bin:/bin"}
            done = subprocess.run(
                [*words, *more], env=os.environ | named, capture_output=True, text=True, timeout=SECONDS, check=True
            )
            return done.stderr.splitlines()

        self.assertEqual(errors().count(line), 1)
        self.assertNotIn(line, errors("--program", str(out / "osdmapd.checked")))
        for proved in (path / "osdmapd", out / "osdmapd"):
            proved.symlink_to(self.tools.program)
            self.assertNotIn(line, errors())
            proved.unlink()

    def test_help(self) -> None:
        """The help of a command keeps the paragraphs of its description, and ends with an example that the command
        understands."""
        for command in COMMAND_NAMES:
            with self.subTest(command=command):
                told = self.output(command, "--help", "--all")
                self.assertIn(f"\n\n`{command}`: ", told)
                _, example = told.split("\n\nfor example:\n\n    rekhuso ")
                self.assertStarts(example, f"{command} ")
                parser((command,)).parse_args(re.split(" [>|] ", example)[0].split())
        self.assertIn("\n\nComments above the commands", self.output("plan", "--help", "--all"))
        self.assertEqual(self.output("help", "plan"), self.output("plan", "--help"))
        self.assertEqual(self.output("help", "plan", "--all"), self.output("plan", "--all", "-h"))
        self.assertEqual(self.output("help"), self.output("--help"))

    def test_help_of_options(self) -> None:
        """A use has at most eight rows on a terminal of 80 columns; each option stands in the group of what it does."""
        for command in COMMAND_NAMES:
            with self.subTest(command=command):
                use = self.output(command, "--help", "--all").partition("\n\n")[0].splitlines()
                self.assertLessEqual(sum(-(-len(line) // 80) for line in use), 8, use)
        read, put = "options of what is read", "options of what is put out"
        places = (
            ("whatif", "--out", "options"),
            ("hold", "--out", "options"),
            ("import", "--to", put),
            ("import", "--names", put),
            ("df", "--names", read),
            ("hold", "--pgs", read),
            *((command, option, put) for command in PUTTING for option in ("--undo", "--batch", "--to", "--json")),
        )
        for command, option, title in places:
            with self.subTest(command=command, option=option):
                groups = re.split(r"(?m)^(options.*):$", self.output(command, "--help", "--all"))
                found = [name for name, text in zip(groups[1::2], groups[2::2]) if f"\n  {option} " in text]
                self.assertEqual(found, [title])

    def test_what_is_imported(self) -> None:
        """A command imports its own module and not those of other commands; a word that is none is told beside all
        commands."""
        own = "rekhuso.commands."
        script = "import sys; sys.path.insert(0, sys.argv.pop(1)); from rekhuso.command_line import main; main(); "
        script += f"print(*sorted(name for name in sys.modules if name.startswith({own!r})))"
        for words, wanted in (
            (f"df {EXAMPLE} --program {self.tools.program}", ["arguments", "df"]),
            (f"--program {self.tools.program} history nowhere", ["arguments", "history"]),
            ("--version", ["arguments"]),
        ):
            with self.subTest(words=words):
                line = [sys.executable, "-c", script, str(TOOLS.parent), *words.split(" ")]
                done = subprocess.run(line, capture_output=True, text=True, timeout=SECONDS, check=False)
                self.assertEqual(done.stdout.splitlines()[-1].split(), [own + name for name in wanted], done.stderr)
        for word in ("nothing", "--help"):
            told = "".join(self.tools.run(word)[1:])
            for name in ("import", "check", "plan", "hold", "release", "drain", "next", "history"):
                self.assertIn(name, told)

    def test_programs_that_are_none(self) -> None:
        """A program that is no program, does not start, is not this one, or has gone, is told in one line."""
        for name, text in (
            ("text", "no program\n"),
            ("other", f"{AS_MONITOR}exec yes\n"),
            ("endless", "#!/bin/sh\nexec yes\n"),
            ("older", "#!/bin/sh\necho osdmapd 0.1.0\n"),
            ("silent", f"{AS_MONITOR}exit 7\n"),
            ("gone", f"{AS_MONITOR}echo session 1\nread line\nkill -9 $$\n"),
        ):
            with self.subTest(name=name):
                self.tools.put(name, text).chmod(0o755)
        other = Tools(self.tools.program, self.tools.folder)
        for name in ("nowhere", ".", "text", "other", "endless", "older", "silent", "gone"):
            with self.subTest(name=name):
                other.program = self.tools.folder / name
                for words in (["df", EXAMPLE], ["check", EXAMPLE], ["plan", EXAMPLE]):
                    self.is_told(other.run(*words), 2, "program", (name, words))
        self.is_told(other.run("shell", EXAMPLE, stdin="epoch\nepoch\n"), 2, "program", "shell")
        other.program = self.tools.folder / "older"
        told = f"--version tells 'osdmapd 0.1.0', and these tools want 'osdmapd {VERSION}'"
        self.is_told(other.run("df", EXAMPLE), 2, f"{other.program}: another program: {told}", "older")

    def test_answers_of_another_program(self) -> None:
        """A program whose answers are not those of the questions is told as another: of another group or OSD, another
        epoch, or another form."""
        other = Tools(self.tools.program, self.tools.folder)
        for answer in (
            "up 1 1.1 [0,0,0] 0",
            "up 2 $2 [0,0,0] 0",
            "up $2 [0,0,0] 0",
            "up 1 $2 [0,0,x] 0",
            "up 1 $2 [0,0,0]",
            "up one $2 [0,0,0] 0",
            "count 1 $2 3",
        ):
            script = f'while read -r word group; do set -- "$word" "$group"; echo "{answer}"; done'
            other.program = self.tools.put("other", f"{AS_MONITOR}echo session 1\n{script}\n")
            other.program.chmod(0o755)
            for words in (["df", EXAMPLE], ["whatif", EXAMPLE, "--out", "3"], ["explain", EXAMPLE, "1.0"]):
                with self.subTest(answer=answer, words=words[0]):
                    self.is_told(other.run(*words), 2, "another program: to ", words)

    def test_answers_for_whole_pools(self) -> None:
        """So is one whose answer for a whole pool has another pool, another epoch, another form or another number of
        groups."""
        own = STOCK["004-one-host"]
        dumps = [self.tools.put(key, own[key]) for key in ("osd_dump", "crush_dump")]
        epoch, other = own["osd_dump"]["epoch"], Tools(self.tools.program, self.tools.folder)
        for answer in (
            f"ups {epoch} 99 [0,1,2]",
            f"ups {epoch + 1} $2 [0,1,2]",
            f"ups {epoch} $2",
            f"ups {epoch} $2 [0,1,2] [0,1,x]",
            f"ups {epoch} $2 [0,1,2],[0,1,2]",
            f"ups {epoch} $2 [0,1,2] [0,1,2]",
            f"ups {epoch} $2 0",
        ):
            script = f'while read -r word pool; do set -- "$word" "$pool"; echo "{answer}"; done'
            other.program = self.tools.put("other", f"{AS_MONITOR}echo session 1\n{script}\n")
            other.program.chmod(0o755)
            for words in (["df", *dumps], ["whatif", *dumps, "--out", "3"], ["plan", *dumps]):
                with self.subTest(answer=answer, words=words[0]):
                    self.is_told(other.run(*words), 2, "another program: to 'ups ", words)

    def test_standard_input_without_a_text(self) -> None:
        """Standard input that is closed, empty or no UTF-8 is told, and a shell without input has nothing to do."""
        for words, end, status, told in (
            ("df -", "<&-", 2, "standard input: empty"),
            ("df -", "</dev/null", 2, "standard input: empty"),
            ("df -", "< <(printf '\\xff')", 2, "standard input: no UTF-8"),
            ("df -", "< <(printf '{')", 1, "refused: BadJson"),
            (f"shell {EXAMPLE}", "<&-", 0, None),
        ):
            with self.subTest(words=words):
                done = subprocess.run(
                    ["bash", "-c", f'"$@" {end}', "sh", *self.tools.words(*words.split(" "))],
                    capture_output=True,
                    text=True,
                    timeout=SECONDS,
                    check=False,
                )
                if told is None:
                    self.assertEqual((done.returncode, done.stdout, done.stderr), (0, "", ""), (words, end, done))
                else:
                    self.is_told((done.returncode, done.stdout, done.stderr), status, told, (words, end))

    def test_bytes_in_the_pipe_of_the_shell(self) -> None:
        """Bytes that are no UTF-8, and paths that there cannot be, are answered in the shell, and the session goes
        on."""
        lines = [
            b"up \xff",
            b"help \xff",
            b"save a\0b",
            b"save \xff/\xff",
            b'change {"base":1,"down":[2]}\xff',
            b"epoch",
            b"await 9",
            b"epoch",
        ]
        words = self.tools.words("shell", EXAMPLE)
        done = subprocess.run(
            words, input=b"\n".join(lines), capture_output=True, timeout=SECONDS, check=False, cwd=self.tools.folder
        )
        answers = done.stdout.splitlines()
        self.assertEqual((done.returncode, len(answers)), (2, len(lines)))
        self.assertEqual([line.split(b":")[0] for line in done.stderr.splitlines()], [b"save"] * 2)
        self.assertStarts(answers[0], b"err ")
        self.assertStarts(answers[4], b"err 10 ")
        self.assertEqual(answers[5], answers[7])
        self.assertEqual(answers[7], b"epoch 1")
