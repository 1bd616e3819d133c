"""Programs that are linked with a C library of their own, as a release has them: what they need, and that they answer
as the built ones do. What needs the kit, gcc or an object that the kit has left is not run without it."""

from __future__ import annotations

import functools
import os
import pathlib
import shutil
import subprocess
import sys
import tempfile
from unittest import mock

from tests.cases import EXAMPLES, TOP, Case
from tests.read_maps import reader

SECONDS = 1200
# The tables and the modules that are run over a linked program, and over one with a store.
ROWS = "worked placements changes growth limits texts sessions balance program stock examples soak".split()
STORED = ("store_files", "store_kills")
# Those over one that reads a cluster's own map.
READ = ("read_maps", "judged_maps")
# A program for the tests alone: it tells the version that it is given, which starts a thread.
SOURCE = """
#include <pthread.h>
#include <stdio.h>

static void *tell(void *text) { return puts(text), NULL; }

int main(void) {
    pthread_t thread;
    return pthread_create(&thread, NULL, tell, "NAME VERSION") || pthread_join(thread, NULL);
}
"""


def ran(*words: object, seconds: int = SECONDS) -> "subprocess.CompletedProcess[str]":
    """A command, within a limit of time."""
    return subprocess.run([*map(str, words)], capture_output=True, text=True, check=False, timeout=seconds, cwd=TOP)


@functools.lru_cache(None)
def kit() -> pathlib.Path | None:
    """The folder of the kit, where its `rt` is on the path and gcc is there too."""
    found = shutil.which("rt")
    return pathlib.Path(found).resolve().parent.parent if found and shutil.which("gcc") else None


def made_program(kit_there: pathlib.Path, folder: pathlib.Path, name: str, version: str) -> pathlib.Path:
    """A program in a folder, with its object beside it, linked as the kit links what it has compiled."""
    source, program = folder / f"{name}.c", folder / name
    source.write_text(SOURCE.replace("NAME", name).replace("VERSION", version))
    made = ran("gcc", "-c", "-O1", "-fPIC", "-o", folder / f"{name}.o", source)
    assert made.returncode == 0, made.stderr
    own = ("--target", "x86_64-unknown-linux-gnu", "--toolchain", kit_there / "toolchain", "-o", program)
    beside = [kit_there / "c" / part for part in ("libos_c.a", "liblibc_c.a")]
    linked = ran(kit_there / "bin" / "rattle-link", *own, folder / f"{name}.o", *beside)
    assert linked.returncode == 0, linked.stderr
    return program


class Linked(Case):
    """`tools/static.py` over a program of the tests' own."""

    is_form = True

    def setUp(self) -> None:
        self.needs("kit, or no gcc", kit() is not None)
        place = tempfile.TemporaryDirectory()
        self.addCleanup(place.cleanup)
        self.folder = pathlib.Path(place.name).resolve()

    def program_in(self, folder: str, version: str = "1.0") -> pathlib.Path:
        """A program of the tests' own in a folder by itself."""
        place = self.folder / folder
        place.mkdir()
        there = kit()
        assert there is not None
        return made_program(there, place, "told", version)

    def test_linked(self) -> None:
        """What is linked needs no loader and no library, names no version of one, and is the same bytes each time"""
        programs = [self.program_in("one"), self.program_in("two")]
        done = ran(sys.executable, TOP / "tools" / "static.py", *programs)
        own = [program.parent / "static" / "told" for program in programs]
        self.assertEqual((done.returncode, done.stdout), (0, "".join(f"{path}\n" for path in own)), done.stderr)
        self.assertEqual(own[0].read_bytes(), own[1].read_bytes())
        self.assertEqual(ran(own[0]).stdout, "told 1.0\n")
        self.check_needs(programs[0], "GLIBC_")
        self.check_needs(own[0], None)

    def check_needs(self, program: pathlib.Path, named: str | None) -> None:
        """Asks what binutils find that a program asks of a machine."""
        self.needs("objdump", shutil.which("objdump") is not None)
        told = "".join(ran("objdump", option, program).stdout for option in ("-T", "-p"))
        told += ran("readelf", "-l", program).stdout
        for word in ("GLIBC_", "NEEDED", "INTERP"):
            self.assertEqual(word in told, named is not None, f"{program}: {word}")

    def test_another_object(self) -> None:
        """Nothing is linked of an object that is another's, or not there"""
        program, other = self.program_in("one"), self.program_in("two", "2.0")
        own = program.with_name("told.o")
        own.write_bytes(other.with_name("told.o").read_bytes())
        done = ran(sys.executable, TOP / "tools" / "static.py", program)
        self.assertEqual(
            (done.returncode, done.stderr),
            (1, f"static.py: {own} is not the object of {program}: the kit makes another program of it\n"),
        )
        own.unlink()
        done = ran(sys.executable, TOP / "tools" / "static.py", program)
        self.assertStarts(done.stderr, f"static.py: {own} is not there: ")
        self.assertEqual((done.returncode, (program.parent / "static").exists()), (1, False))


class LinkedCase(Case):
    """Tests of programs of this repository that are linked so."""

    def linked(self, program: pathlib.Path) -> pathlib.Path:
        """A program, linked in a folder of its own, where its object is there."""
        self.needs("kit, or no gcc", kit() is not None)
        self.needs(f"{program}.o", program.with_name(f"{program.name}.o").is_file())
        place = tempfile.TemporaryDirectory()
        self.addCleanup(place.cleanup)
        own = pathlib.Path(place.name)
        for path in (program, program.with_name(f"{program.name}.o")):
            shutil.copy(path, own)
        done = ran(sys.executable, TOP / "tools" / "static.py", own / program.name)
        self.assertEqual(done.returncode, 0, done.stderr)
        return own / "static" / program.name


class LinkedPrograms(LinkedCase):
    """The programs of this repository, linked so."""

    is_alone = True
    PROGRAMS = ("OSDMAPD", "OSDMAPSTORE", "READMAP")

    def run_tests(self, program: pathlib.Path, *tables: str, store: str = "") -> None:
        """Runs tables and modules of tests over programs."""
        for table in tables:
            with self.subTest(table=table):
                words = [sys.executable, TOP / "tests" / "run.py", "--table", table, program, *[store] * (store != "")]
                done = ran(*words)
                self.assertEqual(done.returncode, 0, f"{done.stdout[-2000:]}{done.stderr[-900:]}")

    def test_tables(self) -> None:
        """The linked program gives the answers of each table, and its sessions are judged by one history"""
        self.run_tests(self.linked(self.program), *ROWS)

    def test_store(self) -> None:
        """The linked program over a store begins one, is killed, and goes on"""
        store = pathlib.Path(os.environ.get("OSDMAPSTORE", TOP / "crates/osdmapstore/out/osdmapstore")).resolve()
        self.needs("osdmapstore", store.is_file())
        self.run_tests(self.program, *STORED, store=str(self.linked(store)))

    def test_reader(self) -> None:
        """The linked program that reads a cluster's own map tells its text, and judges scripts over it"""
        self.needs(f"program {reader()} (READMAP names another)", reader().is_file())
        with mock.patch.dict(os.environ, READMAP=str(self.linked(reader()))):
            self.run_tests(self.program, *READ)

    def test_older_library(self) -> None:
        """Where the C library is older than the built program asks for, that does not start, and the linked one
        answers the example"""
        root = pathlib.Path(os.environ.get("OLDER_ROOT", "/nonexistent"))
        self.needs("OLDER_ROOT: a folder with an older C library", root.is_dir() and os.geteuid() == 0)
        own, place = self.linked(self.program), tempfile.TemporaryDirectory(dir=root / "tmp")
        self.addCleanup(place.cleanup)
        there = pathlib.Path(place.name)
        for path in (own, EXAMPLES / "map.json", EXAMPLES / "script.txt"):
            shutil.copy(path, there)
        shutil.copy(self.program, there / "built")
        inside = pathlib.Path("/", there.relative_to(root))
        words = [inside / "map.json", inside / "script.txt"]
        refused = ran("chroot", root, inside / "built", *words)
        self.assertEqual(refused.returncode, 1)
        self.assertIn("GLIBC_2.34", refused.stderr)
        answered = ran("chroot", root, inside / own.name, *words)
        self.assertEqual((answered.returncode, answered.stdout), (0, (EXAMPLES / "answers.txt").read_text()))
