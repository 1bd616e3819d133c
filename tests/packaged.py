"""tools/rekhuso as a package: each way to run it, what it brings into Python, and its types.

What needs a tool that is not there is not run, and that is told.
"""

from __future__ import annotations

import ast
import functools
import json
import os
import pathlib
import re
import shutil
import subprocess
import sys
import tarfile
import tempfile
import zipfile
from collections.abc import Iterable, Iterator

from tests.cases import EXAMPLE, TOP, Case, example
from tests.clusters import CLUSTERS
from tests.histories import TABLES, fill, rows, store_at
from tests.pages import text
from tests.releases import PACK, alone
from tests.static_programs import LinkedCase
from tests.tool_cases import AS_STORE

TOOLS = TOP / "tools"
SECONDS = 300
# The programs: the head of each in docs/FORMATS.md, and where it has options beside those of its own `line`.
ARGUMENTS = ("cli", "src", "arguments.rt")
PROGRAMS = {
    "osdmapd": ("## The program", ARGUMENTS),
    "osdmapstore": ("## The program with a store", ARGUMENTS),
    "readmap": ("## The program over a cluster's own map",),
}

# Puts out the names of all commands.
NAMES = """
from rekhuso.command_line import parser
print(*parser()._subparsers._group_actions[0].choices)
"""
# What bash answers to words, the last of which is not typed to its end.
COMPLETES = """
COMP_WORDS=("$@") COMP_CWORD=$(($# - 1))
_rekhuso
echo "${COMPREPLY[*]}"
"""
COMMANDS = [
    path.stem.rstrip("_") for path in (TOOLS / "rekhuso" / "commands").glob("*.py") if "def add_to(" in path.read_text()
]
NAMED = ["bash-completion/completions/rekhuso", "zsh/site-functions/_rekhuso", "man/man1/rekhuso.1"]
NAMED += ["fish/vendor_completions.d/rekhuso.fish"]
NAMED += [f"man/man1/rekhuso-{command}.1" for command in COMMANDS]
# What is brought in must change neither the path of modules nor what the plain names of modules mean.
BROUGHT = """
import importlib, pathlib, sys
path = list(sys.path)
top = pathlib.Path(sys.argv[1])
files = [file.relative_to(top).with_suffix("") for file in top.rglob("*.py") if not file.stem.startswith("__")]
for file in files:
    importlib.import_module(".".join(("rekhuso", *file.parts)))
print(len(files) > 10, sys.path == path, sorted({file.stem for file in files} & set(sys.modules)))
"""
# Makes a package for Debian of an archive, whichever its programs are.
DEB = """
import pathlib, sys, tempfile
sys.path.insert(0, sys.argv[1])
import packages
from rekhuso.program.releases import files_in
with tempfile.TemporaryDirectory() as folder:
    root = pathlib.Path(folder, "root")
    packages.lay_out(files_in(sys.argv[2]), root)
    print(packages.deb(root, pathlib.Path(sys.argv[3])))
"""
DUMPS = [f"examples/ceph/{part}.json" for part in ("osd", "crush")]


def shared(tools: pathlib.Path) -> dict[str, str]:
    """What a system keeps beside the command, by its path."""
    script = "import json; from rekhuso.manuals import shared; print(json.dumps(shared()))"
    status, told = ran([sys.executable, "-c", script], tools)
    assert status == 0, told
    found: dict[str, str] = json.loads(told)
    return found


def ran(words: Iterable[object], path: object = "", seconds: int = SECONDS) -> tuple[int, str]:
    """The status and the output of a command; PATH is where Python looks for modules beside its own places."""
    variables = os.environ | {"PYTHONPATH": str(path), "PYTHONDONTWRITEBYTECODE": "1"}
    ended = subprocess.run(
        list(map(str, words)),
        env=variables,
        cwd="/",
        stdin=subprocess.DEVNULL,
        capture_output=True,
        text=True,
        timeout=seconds,
        check=False,
    )
    return ended.returncode, ended.stdout + ended.stderr


def older_pythons() -> Iterator[tuple[str, str]]:
    """Each Python that is there and older than the tools are for, with its version: on the path, and of pyenv."""
    found = [shutil.which(f"python3.{minor}") for minor in (6, 7, 8)]
    found += sorted(map(str, pathlib.Path.home().glob(".pyenv/versions/3.[678].*/bin/python3")))
    for python in filter(None, found):
        status, told = ran([python, "-c", "import sys; print('%d.%d.%d' % sys.version_info[:3])"])
        if status == 0 and told.startswith(("3.6.", "3.7.", "3.8.")):
            yield python, told.strip()


def has_modules(python: object, *names: str) -> bool:
    """Whether a Python has modules of these names."""
    return ran([python, "-c", f"import {', '.join(names)}"])[0] == 0


@functools.lru_cache(None)
def builder() -> str | None:
    """A Python with pip and virtual environments, as Debian's is with python3-pip and python3-venv; or None."""
    found = [path for path in (sys.executable, "/usr/bin/python3") if has_modules(path, "pip", "ensurepip", "venv")]
    return found[0] if found else None


def copied(folder: pathlib.Path, name: str = "tools") -> pathlib.Path:
    """A copy of the tools in a folder, in which builds of other tools have left their files."""
    ignore = shutil.ignore_patterns("__pycache__", "build", "*.egg-info")
    place = pathlib.Path(shutil.copytree(TOOLS, folder / name, ignore=ignore))
    for left in ("build/lib/rekhuso/stale.py", "rekhuso.egg-info/SOURCES.txt", "rekhuso/__pycache__/stale.pyc"):
        (place / left).parent.mkdir(parents=True, exist_ok=True)
        (place / left).write_text("left\n")
    return place


def files_in(archive: pathlib.Path) -> dict[str, bytes]:
    """The files of a source archive, each with what it holds."""
    with tarfile.open(archive) as tar:
        files = {member.name: tar.extractfile(member) for member in tar if member.isfile()}
        return {name: file.read() for name, file in files.items() if file}


def commands_over(place: pathlib.Path) -> list[list[object]]:
    """Each command with its words, over files that are put into a folder: a map, another, the dumps of a cluster, and
    a store."""
    own, value = CLUSTERS["002-built"], example()
    with store_at(place / "store", *TABLES) as database:
        fill(database, value, rows())
    for name, what in (
        ("osd", own["osd_dump"]),
        ("crush", own["crush_dump"]),
        ("other", dict(value, osds=[dict(osd, up=osd["id"] != 2) for osd in value["osds"]])),
    ):
        (place / name).write_text(json.dumps(what))
    dumps, other, keeper = [place / "osd", place / "crush"], place / "other", place / "keeper"
    # In place of the program of a store, which would make the copy once.
    keeper.write_text(f"{AS_STORE}echo epoch 1\n")
    keeper.chmod(0o755)
    return [
        ["--version"],
        ["import", *dumps],
        ["import", "--check", *dumps],
        ["check", EXAMPLE],
        ["plan", *dumps],
        ["net", EXAMPLE],
        ["df", *dumps],
        ["df", EXAMPLE, "--json"],
        ["diff", EXAMPLE, other],
        ["whatif", EXAMPLE, "--out", "3"],
        ["hold", *dumps, "--weight", "osd.3=1"],
        ["together", "--help"],
        ["give", "--help"],
        ["gather", "--help"],
        ["verify", "--help"],
        ["next", "--help"],
        ["carry", "--help"],
        ["release", *dumps],
        ["drain", "--help"],
        ["explain", EXAMPLE, "1.0"],
        ["picture", EXAMPLE, other],
        ["report", EXAMPLE],
        ["shell", EXAMPLE],
        ["history", place / "store"],
        ["backup", place / "store", place / "copy", "--store-program", keeper],
        ["proof", "--help"],
        ["completion", "bash"],
    ]


class Packaged(Case):
    """The package, and how its files are written."""

    def builder(self) -> str:
        """The Python that builds packages."""
        found = builder()
        self.needs("Python with pip and venv (Debian: python3-pip, python3-venv)", found is not None)
        return found or ""

    def done(self, words: Iterable[object], path: object = "") -> str:
        """The output of a command that ends with status 0."""
        status, told = ran(words, path)
        self.assertEqual(status, 0, f"{words}: {told[-900:]}")
        return told

    def wheel_of(self, source: pathlib.Path, out: pathlib.Path) -> pathlib.Path:
        """The wheel that pip builds of a folder or of a source archive, without an index."""
        self.done([self.builder(), "-m", "pip", "wheel", "--no-index", "--no-deps", "-w", out, source])
        return next(out.glob("*.whl"))

    def archive_of(self, source: pathlib.Path, out: pathlib.Path) -> pathlib.Path:
        """The source archive that the backend builds of a folder."""
        out.mkdir()
        self.done([self.builder(), "-c", f"import backend; backend.build_sdist({str(out)!r})"], source)
        return next(out.glob("*.tar.gz"))

    def environment(self, folder: pathlib.Path, *options: str) -> pathlib.Path:
        """The Python of a fresh virtual environment."""
        self.done([self.builder(), "-m", "venv", *options, folder])
        return folder / "bin" / "python"

    def test_ways_to_run(self) -> None:
        """The tools run by their folder's name and as a module, and tell the program's version as theirs."""
        version = ran([self.program, "--version"])[1].split(" ")[1]
        ways: list[tuple[list[object], object]] = [
            ([sys.executable, TOOLS / "rekhuso"], ""),
            ([sys.executable, "-m", "rekhuso"], TOOLS),
        ]
        for words, path in ways:
            with self.subTest(words=words):
                self.assertEqual(ran([*words, "--version"], path), (0, f"rekhuso {version}"))
                self.assertEqual(
                    ran([*words, "--program", self.program, "check", EXAMPLE], path), (0, f"{EXAMPLE}: lawful\n")
                )
                self.assertEqual(
                    ran([*words, "check", EXAMPLE, "--program", self.program], path), (0, f"{EXAMPLE}: lawful\n")
                )

    def test_first_words(self) -> None:
        """What an older Python reads first has no word that it does not have: no annotation of a later form."""
        for name in ("backend.py", "rekhuso/__init__.py", "rekhuso/__main__.py"):
            with self.subTest(name=name):
                source = (TOOLS / name).read_text()
                ast.parse(source, feature_version=(3, 6))
                self.assertNotIn("from __future__ import annotations", source)
                first = source.partition("sys.version_info < (3, 9)")[0]
                self.assertEqual(re.findall("^(?:from|import|class|def) .*", first, re.M)[-1], "import sys")

    def test_older_pythons(self) -> None:
        """An older Python is told in one line, and nothing else: of a command, of a build, and where it is imported."""
        found = dict(older_pythons())
        self.needs("Python before 3.9", bool(found))
        for python, version in found.items():
            told = f"rekhuso needs Python 3.9 or later, and this is Python {version}"
            with self.subTest(python=python):
                self.assertEqual(ran([python, TOOLS / "rekhuso", "check", EXAMPLE]), (2, f"{told}\n"))
                self.assertEqual(ran([python, "-m", "rekhuso", "--version"], TOOLS), (2, f"{told}\n"))
                self.assertEqual(ran([python, "-c", "import backend"], TOOLS), (1, f"{told}\n"))
                status, error = ran([python, "-c", "import rekhuso"], TOOLS)
                self.assertEqual((status, error.splitlines()[-1]), (1, f"ImportError: {told}"))

    def test_modules_of_a_package(self) -> None:
        """The tools' modules come in below the package's name, and leave the path of modules as it was."""
        self.assertEqual(ran([sys.executable, "-c", BROUGHT, TOOLS / "rekhuso"], TOOLS), (0, "True True []\n"))

    def test_wheel(self) -> None:
        """Two builds of the wheel are the same bytes, also from the source archive, of which two are the same bytes
        too; it has the licence, the README, the types and one version, and nothing that another build has left."""
        with tempfile.TemporaryDirectory() as folder:
            place = pathlib.Path(folder)
            first, second = copied(place, "first"), copied(place, "second")
            archives = [self.archive_of(first, place / "a"), self.archive_of(second, place / "b")]
            wheels = [
                self.wheel_of(source, place / name)
                for source, name in ((first, "c"), (second, "d"), (archives[0], "e"))
            ]
            self.assertTrue(archives[0].read_bytes() == archives[1].read_bytes(), "the source archives differ")
            self.assertEqual({name for name in files_in(archives[0]) if "stale" in name or "egg-info" in name}, set())
            self.assertEqual(len({wheel.read_bytes() for wheel in wheels}), 1)
            version = ran([self.program, "--version"])[1].split(" ")[1].strip()
            beside = f"rekhuso-{version}.data/data/share/{{}}"
            self.assertEqual(
                (wheels[0].name, archives[0].name), (f"rekhuso-{version}-py3-none-any.whl", f"rekhuso-{version}.tar.gz")
            )
            with zipfile.ZipFile(wheels[0]) as wheel:
                names, metadata = wheel.namelist(), wheel.read(f"rekhuso-{version}.dist-info/METADATA").decode()
                licence = wheel.read(f"rekhuso-{version}.dist-info/LICENSE").decode()
        self.assertEqual({name for name in names if ".data/data/share/" in name}, set(map(beside.format, NAMED)))
        files = [path for path in (TOOLS / "rekhuso").rglob("*") if path.suffix in (".py", ".typed", ".json")]
        modules = {str(path.relative_to(TOOLS)) for path in files}
        self.assertEqual({name for name in names if not name.startswith("rekhuso-")}, modules)
        self.assertIn("rekhuso/py.typed", modules, metadata)
        self.assertIn("License :: OSI Approved :: MIT License", metadata)
        self.assertEnds(metadata, (TOOLS / "README.md").read_text())
        self.assertEqual(licence, (TOP / "LICENSE").read_text())

    def test_installed(self) -> None:
        """In a fresh environment the installed package does each command as the tools in the repository do, finds the
        program on the path, and says where it looked where there is none."""
        with tempfile.TemporaryDirectory() as folder:
            place = pathlib.Path(folder)
            python = self.environment(place / "fresh")
            self.done([python, "-m", "pip", "install", "--no-index", self.wheel_of(copied(place), place / "out")])
            (place / "bin").mkdir()
            (place / "bin" / "osdmapd").symlink_to(self.program)
            words = commands_over(place)
            self.assertEqual(
                sorted({own[0] for own in words} - {"--version"}), sorted(self.done([python, "-c", NAMES]).split())
            )
            for own in words:
                found = ran(["env", f"PATH={place / 'bin'}", place / "fresh" / "bin" / "rekhuso", *own])
                self.assertEqual(
                    (own, *found),
                    (
                        own,
                        *ran(
                            [
                                sys.executable,
                                TOOLS / "rekhuso",
                                *own,
                                *([] if own == ["--version"] else ["--program", self.program]),
                            ]
                        ),
                    ),
                )
                self.assertEqual(found[0], 0)
            status, told = ran(["env", f"PATH={folder}", place / "fresh" / "bin" / "rekhuso", "df", EXAMPLE])
            self.assertEqual(
                (status, told),
                (
                    2,
                    f"no program: no folder of PATH has osdmapd ({folder}); "
                    "`make run` in its repository proves and builds it, "
                    "and --program FILE names it\n",
                ),
            )

    def test_editable(self) -> None:
        """An editable install, in an environment that sees the system's packages, runs the files that it was made
        of."""
        with tempfile.TemporaryDirectory() as folder:
            place = pathlib.Path(folder)
            python, source = self.environment(place / "fresh", "--system-site-packages"), copied(place)
            self.done([python, "-m", "pip", "install", "--no-index", "--no-deps", "-e", source])
            self.assertEqual(
                self.done([python, "-c", "import rekhuso; print(rekhuso.__file__)"]),
                f"{source / 'rekhuso' / '__init__.py'}\n",
            )
            self.assertEqual(
                ran([place / "fresh" / "bin" / "rekhuso", "--program", self.program, "check", EXAMPLE]),
                (0, f"{EXAMPLE}: lawful\n"),
            )

    def test_completions(self) -> None:
        """bash completes commands, their own options, files and folders; zsh reads what is made for it, and ties it to
        the command where it is sourced."""
        told = shared(TOOLS)
        script = told["share/bash-completion/completions/rekhuso"] + COMPLETES
        for words, wanted in (
            (["pl"], "plan"),
            (["h"], "hold history help"),
            (["--program", "x", "plan", "--de"], "--deviation"),
            (["df", "--de"], ""),
            (["whatif", "--each", ""], ""),
            (["whatif", "--out", str(TOP / "exampl")], ""),
            (["import", "--to", str(TOP / "exampl")], str(TOP / "examples")),
            (["hold", "--to", str(TOP / "LICEN")], str(TOP / "LICENSE")),
            (["help", "pl"], "plan"),
            (["he"], "help"),
            (["plan", "--to", str(TOP / "exampl")], str(TOP / "examples")),
            (["df", str(TOP / "LICEN")], str(TOP / "LICENSE")),
            (["nothing", "--"], ""),
        ):
            with self.subTest(words=words):
                self.assertEqual(ran(["bash", "-c", script, "bash", "rekhuso", *words]), (0, f"{wanted}\n"))
        self.needs("zsh", shutil.which("zsh") is not None)
        with tempfile.TemporaryDirectory() as folder:
            path = pathlib.Path(folder, "_rekhuso")
            path.write_text(told["share/zsh/site-functions/_rekhuso"])
            self.assertEqual(ran(["zsh", "-n", path]), (0, ""))
            tied = f"autoload -Uz compinit; compinit -u -d {folder}/dump; source {path}; echo $_comps[rekhuso]"
            self.assertEqual(ran(["zsh", "-f", "-c", tied]), (0, "_rekhuso\n"))

    def test_completions_put_out(self) -> None:
        """`completion` puts out for each shell the script that a package has."""
        told = shared(TOOLS)
        for shell, name in zip(("bash", "zsh", "fish"), (NAMED[0], NAMED[1], NAMED[3])):
            with self.subTest(shell=shell):
                self.assertEqual(
                    ran([sys.executable, TOOLS / "rekhuso", "completion", shell]), (0, told[f"share/{name}"])
                )

    def test_completions_of_fish(self) -> None:
        """fish completes commands, their own options, files and folders, each with what it is for."""
        self.needs("fish", shutil.which("fish") is not None)
        with tempfile.TemporaryDirectory() as folder:
            path = pathlib.Path(folder, "rekhuso.fish")
            path.write_text(shared(TOOLS)["share/fish/vendor_completions.d/rekhuso.fish"])
            for line, wanted in (
                ("pl", ["plan"]),
                ("plan --de", ["--deviation"]),
                ("df --de", []),
                ("help dr", ["drain"]),
                (f"import --to {TOP}/exampl", [f"{TOP}/examples/"]),
                (f"hold --to {TOP}/LICEN", [f"{TOP}/LICENSE"]),
                (f"df {TOP}/LICEN", [f"{TOP}/LICENSE"]),
                ("whatif --each ", []),
            ):
                with self.subTest(line=line):
                    words = ["env", f"HOME={folder}", "fish", "-c", f"source {path}; complete -C 'rekhuso {line}'"]
                    status, said = ran(words)
                    self.assertEqual((status, [own.split("\t")[0] for own in said.splitlines()]), (0, wanted))

    def test_manuals_of_programs(self) -> None:
        """The page of each program has each of its options, and each of its statuses that docs/FORMATS.md has"""
        formats = text("docs", "FORMATS.md")
        for name, (head, *others) in PROGRAMS.items():
            with self.subTest(name=name):
                sources = [text("crates", *path) for path in (*others, (name, "src", "line.rt"))]
                wanted = set(re.findall(r'(?:\.long\(|_option\(alloc, |flag\(alloc, )"([\w-]+)"', "".join(sources)))
                page = text("packages", f"{name}.1").replace("\\-", "-")
                options = page.partition(".SH OPTIONS")[2].partition(".SH EXIT")[0]
                found = re.findall(r"(?m)^\.TP\n(?:\.BR? |\\fB)(?:-\w \", \" )?--([\w-]+)", options)
                self.assertEqual({*found}, wanted | {"help", "version"})
                part = formats.partition(f"\n{head}\n")[2].partition("\n## ")[0]
                statuses = re.findall(r"(?m)^\| ([0-9][0-9, to]*) \|", part)
                told = page.partition(".SH EXIT STATUS")[2].partition(".SH")[0]
                own = {*re.findall(r"[0-9]", "".join(re.findall(r"(?m)^\.TP\n([0-9, ]+)$", told)))}
                self.assertEqual(own, {*re.findall("[0-9]", " ".join(statuses).replace("0 to 4", "0 1 2 3 4"))})

    def test_manuals(self) -> None:
        """The page of each command tells each of its options, and what reads manual pages finds no fault."""
        pages = {path: page for path, page in shared(TOOLS).items() if "/man1/" in path}
        self.assertEqual({f"share/{name}" for name in NAMED if "/man1/" in name}, set(pages))
        for name in list(pages)[1:]:
            with self.subTest(name=name):
                command = name.partition("rekhuso-")[2].partition(".")[0]
                _, told = ran([sys.executable, TOOLS / "rekhuso", command, "--help", "--all"])
                wanted = set(re.findall(r"(?m)^  (?:-h, )?(--[a-z-]+)", told))
                found = set(re.findall(r"(?m)^\.TP\n(?:\\fB\\-h\\fR, )?\\fB(\S+)\\fR", pages[name]))
                self.assertEqual({option.replace("\\-", "-") for option in found}, wanted)
        table = re.findall(r"(?m)^\| ([0-9, ]+) \|[^|]+\|[^|]+\|$", (TOP / "docs" / "COMMANDS.md").read_text())
        statuses = re.findall(r"(?m)^\.TP\n([0-9, ]+)$", "".join(pages.values()))
        self.assertEqual(set(", ".join(statuses).split(", ")), set(", ".join(table).split(", ")))
        self.needs("man", shutil.which("man") is not None)
        pages.update({name: text("packages", name) for name in (f"{program}.1" for program in PROGRAMS)})
        for name, page in pages.items():
            with self.subTest(name=name), tempfile.TemporaryDirectory() as folder:
                path = pathlib.Path(folder, "page.1")
                path.write_text(page)
                words = ["env", "MANROFFSEQ=", "man", "--warnings=w", "-E", "UTF-8", "-l", "-Tutf8", "-Z", path]
                status, said = ran(words)
                self.assertEqual((status, "warning" in said), (0, False), said[-300:])


class Installed(LinkedCase):
    """The package for Debian in a root of its own."""

    def package(self, folder: pathlib.Path, program: bytes) -> pathlib.Path:
        """The package with a program, made in a folder."""
        self.needs("dpkg-deb", shutil.which("dpkg-deb") is not None)
        (folder / "osdmapd").write_bytes(program)
        (folder / "gate.log").write_text("no gate\n")
        words = [sys.executable, "-c", PACK, TOOLS, folder / "gate.log", folder, folder / "osdmapd"]
        archive = self.told(words).strip()
        return pathlib.Path(self.told([sys.executable, "-c", DEB, TOOLS, archive, folder]).strip())

    def told(self, words: Iterable[object]) -> str:
        """The output of a command that ends with status 0."""
        status, told = ran(words)
        self.assertEqual(status, 0, told[-900:])
        return told

    def check_first_commands(self, *inside: object, root: pathlib.Path) -> None:
        """Asks that README's first commands answer below a root as they do here."""
        there = pathlib.Path("/", "usr/share/doc/rekhuso") if inside else root / "usr/share/doc/rekhuso"
        where = pathlib.Path("/") if inside else root
        own = [sys.executable, TOOLS / "rekhuso"]
        for words in (["df", *DUMPS], ["whatif", *DUMPS, "--each", "host"], ["check", "examples/map.json"]):
            paths = [TOP / word if "/" in word else word for word in words]
            here = self.told([*own, *paths, "--program", self.program])
            files = [there / word if "/" in word else word for word in words]
            found = self.told([*inside, "env", f"PATH={where / 'usr/bin'}:/usr/bin:/bin", "rekhuso", *files])
            self.assertEqual(found.replace(str(there), str(TOP)), here)
        scripts = [there / "examples" / name for name in ("map.json", "script.txt")]
        self.assertEqual(self.told([*inside, where / "usr/bin/osdmapd", *scripts]), text("examples", "answers.txt"))

    def test_unpacked(self) -> None:
        """What it puts below a root answers, and has pages, completions, the unit and what was said of the program"""
        with tempfile.TemporaryDirectory() as name:
            folder = pathlib.Path(name).resolve()
            root = folder / "root"
            self.told(["dpkg-deb", "-x", self.package(folder, alone(self.program)), root])
            self.check_first_commands(root=root)
            pages = {path.name for path in (root / "usr/share/man/man1").iterdir()}
            names = [*PROGRAMS, *(path.stem for path in map(pathlib.Path, NAMED) if path.suffix == ".1")]
            self.assertEqual(pages, {f"{name}.1.gz" for name in names})
            for path in ("share/bash-completion/completions/rekhuso", "share/zsh/vendor-completions/_rekhuso"):
                self.assertTrue((root / "usr" / path).is_file(), path)
            unit = root / "usr/lib/systemd/system/osdmapstore.service"
            self.assertEqual(unit.read_text(), text("packages", "osdmapstore.service"))
            plan = self.told(
                ["env", f"PATH={root / 'usr/bin'}:/usr/bin:/bin", "rekhuso", "plan", *map(TOP.joinpath, DUMPS)]
            )
            self.assertIn("#         which was proved at commit ", plan)

    def test_installed(self) -> None:
        """On a system with an older C library it is installed, its first commands answer, and it goes again"""
        older = pathlib.Path(os.environ.get("OLDER_ROOT", "/nonexistent"))
        self.needs("OLDER_ROOT: a folder with an older C library", older.is_dir() and os.geteuid() == 0)
        with tempfile.TemporaryDirectory() as name:
            folder = pathlib.Path(name).resolve()
            root = folder / "root"
            self.told(["cp", "-a", "--reflink=auto", older, root])
            shutil.copy(self.package(folder, self.linked(self.program).read_bytes()), root / "tmp/rekhuso.deb")
            inside = ["chroot", root]
            self.told([*inside, "dpkg", "-i", "/tmp/rekhuso.deb"])
            self.assertStarts(self.told([*inside, "getent", "passwd", "osdmap"]), "osdmap:")
            self.check_first_commands(*inside, root=root)
            self.told([*inside, "dpkg", "-r", "rekhuso"])
            self.assertFalse((root / "usr/share/rekhuso").exists())
