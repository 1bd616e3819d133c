"""The archive of a release: who unpacks it needs neither the kit nor a proof for the first `df`."""

from __future__ import annotations

import hashlib
import io
import json
import os
import pathlib
import subprocess
import shutil
import sys
import tarfile
import tempfile
import unittest
from collections.abc import Callable

from tests.cases import TOP, Case
from tests.static_programs import kit, made_program

sys.path.append(str(TOP / "tools"))

from rekhuso.version import VERSION  # noqa: E402

SECONDS = 120
LOG = "rt: 1 part\n120 passed, 0 failed\nwrong bodies: 17, faults: 0\n"
# Makes the archive of this tree as it is, whether it is committed or not.
PACK = """
import json, pathlib, sys
sys.path.insert(0, sys.argv[1])
import dist, proved
log, folder, program = map(pathlib.Path, sys.argv[2:])
content = program.read_bytes()
said = json.dumps(proved.proof(content)).encode()
print(dist.pack(log, {"bin/osdmapd": content, "bin/osdmapd.proved": said}, folder))
"""


def ran(*words: object, folder: pathlib.Path = TOP) -> "subprocess.CompletedProcess[str]":
    """A command, within a limit of time."""
    path = f"{folder / 'bin'}:{os.environ['PATH']}"
    return subprocess.run(
        [*map(str, words)],
        cwd=folder,
        env=os.environ | {"PATH": path},
        capture_output=True,
        text=True,
        check=False,
        timeout=SECONDS,
    )


def alone(program: pathlib.Path) -> bytes:
    """A program that runs wherever it is put: itself, or a script that runs it where it needs what stands beside it."""
    content = program.read_bytes()
    return content if content.startswith(b"\x7fELF") else f'#!/bin/sh\nexec "{program}" "$@"\n'.encode()


class Releases(Case):
    """`tools/dist.py`."""

    def test_archive(self) -> None:
        """Its checksums hold, its tools answer over the example cluster, and a second one is the same bytes"""
        with tempfile.TemporaryDirectory() as name:
            folder = pathlib.Path(name).resolve()
            log, program = folder / "gate.log", folder / "osdmapd"
            log.write_text(LOG)
            program.write_bytes(alone(self.program))
            program.chmod(0o755)
            made = []
            for place in ("one", "two"):
                done = ran(sys.executable, "-c", PACK, TOP / "tools", log, folder / place, program)
                self.assertEqual((done.returncode, done.stderr), (0, ""))
                made.append(pathlib.Path(done.stdout.strip()))
            self.assertEqual(made[0].read_bytes(), made[1].read_bytes())
            self.assertEqual(ran("tar", "-xzf", made[0], "-C", folder).returncode, 0)
            (release,) = (path for path in folder.glob("rekhuso-*") if path.is_dir())
            self.assertEqual(ran("sha256sum", "--quiet", "-c", "SHA256SUMS", folder=release).returncode, 0)
            self.assertEqual((release / "gate.log").read_text(), LOG)
            self.assertTrue([*release.glob("*.whl")])
            dumps = [f"examples/ceph/{part}.json" for part in ("osd", "crush")]
            done = ran(sys.executable, "tools/rekhuso", "df", *dumps, folder=release)
            self.assertEqual((done.returncode, done.stderr), (0, ""))
            guide = (TOP / "docs" / "CEPH.md").read_text()
            self.assertIn("".join(f"    {line}\n" for line in done.stdout.splitlines()[:18]), guide)
            commit = ran("git", "rev-parse", "HEAD").stdout.strip()
            self.tells_proof(release, dumps, True, f"was proved at commit {commit[:12]}")
            told = release / "bin" / "osdmapd.proved"
            told.write_text(told.read_text().replace('"sha256": "', '"sha256": "0'))
            self.tells_proof(release, dumps, False, "is not known to be proved")
            told.write_text("{")
            self.tells_proof(release, dumps, False, "is not known to be proved")

    def tells_proof(self, release: pathlib.Path, dumps: list[str], is_proved: bool, words: str) -> None:
        """Asks that a plan says of the program that judged it whether it was proved, in its head and as JSON."""
        plan = ran(sys.executable, "tools/rekhuso", "plan", *dumps, folder=release)
        self.assertIn(f"#         which {words}", plan.stdout, plan.stderr)
        told = json.loads(ran(sys.executable, "tools/rekhuso", "plan", *dumps, "--json", folder=release).stdout)
        own = told["made_by"]
        self.assertEqual((own["proved"], own["commit"] is not None), (is_proved, is_proved))

    def test_refusals(self) -> None:
        """No release of a log that tells no gate, or one with failures"""
        with tempfile.TemporaryDirectory() as name:
            folder = pathlib.Path(name)
            passed, failed = "120 passed, 0 failed\n", "119 passed, 1 failed\nwrong bodies: 17, faults: 0\n"
            for log in ("", failed, "rt: proved\n", passed, f"{passed}wrong bodies: 17, faults: 1\n"):
                (folder / "gate.log").write_text(log)
                done = ran(sys.executable, TOP / "tools" / "dist.py", folder / "gate.log", folder, self.program)
                self.assertEqual(done.returncode, 1)
                self.assertStarts(done.stderr, f"{folder / 'gate.log'} is no log of a gate without failures")
                self.assertEqual([path.name for path in folder.iterdir()], ["gate.log"])


PROGRAMS = ("osdmapd", "osdmapstore", "readmap")
# What the log of a gate says before its end.
PASSED = "120 passed, 0 failed\nwrong bodies: 17, faults: 0\n"
Change = Callable[["dict[str, bytes]"], None]


class OfATree(Case):
    """Releases of a tree of the tests' own: the files of this one, and programs that only tell their version."""

    def setUp(self) -> None:
        self.needs("kit, or no gcc", kit() is not None)
        place = tempfile.TemporaryDirectory()
        self.addCleanup(place.cleanup)
        self.folder = pathlib.Path(place.name).resolve()
        self.tree, self.log = self.folder / "tree", self.folder / "gate.log"
        for name in ran("git", "ls-files", "--cached", "--others", "--exclude-standard").stdout.splitlines():
            if not name.startswith(("crates/", "bench/results", "tests/")) and (TOP / name).is_file():
                (self.tree / name).parent.mkdir(parents=True, exist_ok=True)
                shutil.copy(TOP / name, self.tree / name)
        self.git("init", "-q")
        self.commit()
        self.programs = [self.made(name, VERSION) for name in PROGRAMS]
        self.gate()

    def git(self, *words: str) -> str:
        """Git's answer in the tree."""
        own = ("-c", "user.name=tests", "-c", "user.email=tests@localhost", "-c", "commit.gpgsign=false")
        done = ran("git", *own, *words, folder=self.tree)
        self.assertEqual(done.returncode, 0, done.stderr)
        return done.stdout.strip()

    def commit(self) -> None:
        """Commits all that is in the tree."""
        self.git("add", "-A")
        self.git("commit", "-q", "--allow-empty", "-m", "A tree")

    def made(self, name: str, version: str) -> pathlib.Path:
        """A program in its place in the tree, with its object."""
        place, there = self.tree / "crates" / name / "out", kit()
        place.mkdir(parents=True, exist_ok=True)
        assert there is not None
        program = made_program(there, place, name, version)
        return program

    def gate(self, before: str = "") -> None:
        """Writes a log as a gate of the tree does that has passed."""
        built = [sys.executable, "tools/built.py"]
        tree = before or ran(*built, folder=self.tree).stdout.strip()
        self.log.write_text(PASSED + ran(*built, tree, *self.programs, folder=self.tree).stdout)

    def dist(self, place: str = "dist") -> "subprocess.CompletedProcess[str]":
        """What makes an archive of the tree."""
        words = [sys.executable, "tools/dist.py", self.log, self.folder / place, *self.programs]
        return ran(*words, folder=self.tree)

    def archive(self, place: str = "dist") -> pathlib.Path:
        """The archive of the tree."""
        done = self.dist(place)
        self.assertEqual((done.returncode, done.stderr), (0, ""))
        return pathlib.Path(done.stdout.split()[1])

    def proof(self, path: object) -> tuple[int, str]:
        """The status of `rekhuso proof`, and what it tells."""
        done = ran(sys.executable, TOP / "tools" / "rekhuso", "proof", path)
        return done.returncode, done.stdout + done.stderr

    def test_refused(self) -> None:
        """No release by the log of another tree, nor of a program that its gate did not build"""
        again = f"make gate 2>&1 | tee {self.log}"
        first, whole = self.git("rev-parse", "HEAD"), self.log.read_text()
        for log, why in (
            (PASSED, f"{self.log} does not end with what the gate has built: {again}"),
            (f"{whole}more\n", f"{self.log} does not end with what the gate has built: {again}"),
            (
                whole.replace("120 passed, 0", "119 passed, 1"),
                f"{self.log} is no log of a gate without failures: {again}",
            ),
            (
                whole.replace(" without changes", " with changes"),
                f"{self.log} is of a gate of another tree, of commit {first} with changes: {again}",
            ),
        ):
            with self.subTest(why=why):
                self.log.write_text(log)
                done = self.dist()
                self.assertEqual((done.returncode, done.stderr), (1, f"{why}\n"))
        self.log.write_text(whole)
        (self.tree / "README.md").write_text("changed\n")
        self.assertEqual(self.dist().stderr, "the tree has changes that are not committed\n")
        self.commit()
        self.assertEqual(self.dist().stderr, f"{self.log} is of a gate of another tree, of commit {first}: {again}\n")
        # A program of an earlier commit, beside a log of the present one.
        old = self.programs[0].read_bytes()
        self.made("osdmapd", f"{VERSION}\\n(another)")
        self.gate()
        self.programs[0].write_bytes(old)
        self.assertEqual(self.dist().stderr, f"{self.programs[0]} is not the one that the gate built\n")
        self.assertFalse((self.folder / "dist").exists())

    def test_changed_meanwhile(self) -> None:
        """A tree that has changed while its gate worked is one with changes"""
        before = ran(sys.executable, "tools/built.py", folder=self.tree).stdout.strip()
        self.assertEqual(before, f"{self.git('rev-parse', 'HEAD')} without")
        self.commit()
        self.gate(before)
        self.assertIn(" with changes\n", self.log.read_text())
        self.assertEqual(self.dist().returncode, 1)

    def test_proof(self) -> None:
        """Of an archive, and of its folder, it tells what the gate said, what each program was linked of, and what is
        trusted"""
        archive, commit = self.archive(), self.git("rev-parse", "HEAD")
        status, told = self.proof(archive)
        self.assertEqual(status, 0, told)
        lines = told.splitlines()
        self.assertRegex(lines[0], "^sums: [0-9]{3} files are as SHA256SUMS says$")
        wanted = f"gate: 120 passed, 0 failed, 17 wrong bodies refused, at commit {commit} without changes"
        self.assertEqual(lines[1], wanted)
        for at, name in enumerate(PROGRAMS):
            self.assertRegex(
                lines[4 + at], f"^bin/{name}: linked of link/{name}.o with glibc .*; gate.log has its sum$"
            )
        self.assertEqual(lines[3], "signed: no, so SHA256SUMS is as good as the way by which it came")
        self.assertEqual(lines[4 + len(PROGRAMS)], "nothing in it shows")
        self.assertEqual(self.archive("again").read_bytes(), archive.read_bytes())
        self.assertEqual(ran("tar", "-xzf", archive, "-C", self.folder).returncode, 0)
        release = self.folder / f"rekhuso-{VERSION}"
        self.assertEqual(self.proof(release), (0, told))
        self.assertEqual(ran(release / "bin" / "osdmapd", "--version").stdout, f"osdmapd {VERSION}\n")
        (release / "bin" / "osdmapd").write_bytes(b"another")
        status, told = self.proof(release)
        self.assertEqual(status, 1)
        self.assertStarts(told, "bin/osdmapd: another file than SHA256SUMS says\n")

    def changed(self, archive: pathlib.Path, change: Change) -> pathlib.Path:
        """An archive with other files, whose sums are of these."""
        with tarfile.open(archive) as own:
            held = {member.name.partition("/")[2]: own.extractfile(member) for member in own}
            files = {name: file.read() for name, file in held.items() if file is not None and name != "SHA256SUMS"}
        change(files)
        lines = [f"{hashlib.sha256(content).hexdigest()}  {name}\n" for name, content in files.items()]
        files.setdefault("SHA256SUMS", "".join(lines).encode())
        new = self.folder / "changed.tar"
        with tarfile.open(new, "w") as archived:
            for name, content in files.items():
                entry = tarfile.TarInfo(f"rekhuso/{name}")
                entry.size = len(content)
                archived.addfile(entry, io.BytesIO(content))
        return new

    def test_faults(self) -> None:
        """It tells each thing that is not as the release says, by its file, whatever the sums are"""
        archive, tree = self.archive(), self.git("rev-parse", "HEAD")

        def put(name: str, old: bytes, new: bytes) -> Change:
            return lambda files: files.update({name: files[name].replace(old, new)})

        log, own = "gate.log", "bin/osdmapd"
        told = hashlib.sha256(self.programs[0].read_bytes()).hexdigest()
        cases: list[tuple[Change, list[str]]] = [
            (lambda files: None, []),
            (lambda files: files.update({"SHA256SUMS": b""}), ["README.md: SHA256SUMS does not name it"]),
            (put("COMMIT", tree[:9].encode(), b"123456789"), ["COMMIT: another commit than that of gate.log"]),
            (
                put(log, b"without changes", b"with changes"),
                [f"gate.log: its tree had changes beside commit {tree}", f"{own}: its gate has another log than {log}"],
            ),
            (put(log, b"faults: 0", b"faults: 2"), ["gate.log: no log of a gate that has passed and ends with"]),
            (lambda files: files.update({own: b"#!/bin/sh\n"}), [f"{own}: another program than {own}.proved says"]),
            (lambda files: files.update({"bin/more": b""}), ["bin/more: nothing says that it was proved"]),
            (lambda files: files.update({f"{own}.proved": b"{"}), [f"{own}: nothing says that it was proved"]),
            (put(f"{own}.proved", tree.encode(), b"0"), [f"{own}: proved at another commit than that of gate.log"]),
            (
                put(log, told.encode(), b"0" * 64),
                [f"{own}: its gate has another log", f"{own}: linked of a program that the gate did not build"],
            ),
            (
                lambda files: files.update({"link/osdmapd.o": b""}),
                [f"{own}: linked of another object than", f"{own}: the gate built another object than"],
            ),
        ]
        for change, lines in cases:
            with self.subTest(lines=lines):
                status, error = self.proof(self.changed(archive, change))
                self.assertEqual(status, 1 if lines else 0, error)
                for line in lines:
                    self.assertIn(line, error)
        for path, words in ((self.log, "no archive of a release"), (self.folder, "no release: it has no SHA256SUMS")):
            self.assertEqual(self.proof(path)[0], 2)
            self.assertIn(words, self.proof(path)[1])

    def signer(self, name: str) -> tuple[str, list[object]]:
        """A key of minisign or of gpg, and the command that holds a signature to it, but for the two files."""
        self.needs(name, shutil.which(name) is not None)
        if name == "minisign":
            public, own = self.folder / "public", self.folder / "key"
            made = ran("minisign", "-G", "-W", "-p", public, "-s", own)
            self.assertEqual(made.returncode, 0, made.stderr)
            return str(own), ["minisign", "-V", "-p", public, "-x"]
        home = self.folder / "gpg"
        home.mkdir(mode=0o700)
        os.environ["GNUPGHOME"] = str(home)
        self.addCleanup(lambda: (ran("gpgconf", "--kill", "all"), os.environ.pop("GNUPGHOME")))
        words = ["--batch", "--passphrase", "", "--quick-generate-key", "tests@localhost", "ed25519", "sign", "never"]
        made = ran("gpg", *words)
        self.assertEqual(made.returncode, 0, made.stderr)
        return "tests@localhost", ["gpg", "--verify"]

    def test_signed(self) -> None:
        """With a key the checksums are signed, and another file of checksums is not what was signed"""
        for name, end in (("minisign", "minisig"), ("gpg", "asc")):
            with self.subTest(name=name):
                key, verify = self.signer(name)
                done = ran(
                    sys.executable,
                    "tools/dist.py",
                    "--key",
                    key,
                    self.log,
                    self.folder / name,
                    *self.programs,
                    folder=self.tree,
                )
                self.assertEqual((done.returncode, done.stderr), (0, ""))
                archive = pathlib.Path(done.stdout.split()[1])
                self.assertEqual(ran("tar", "-xzf", archive, "-C", archive.parent).returncode, 0)
                sums = archive.parent / f"rekhuso-{VERSION}" / "SHA256SUMS"
                words = [*verify, f"{sums}.{end}", *["-m"] * (name == "minisign"), sums]
                self.assertEqual(ran(*words).returncode, 0)
                self.assertIn(f"signed: SHA256SUMS.{end}; {name} ", self.proof(archive)[1])
                sums.write_text(sums.read_text().replace("0", "1", 1))
                self.assertEqual(ran(*words).returncode, 1)

    def test_packages(self) -> None:
        """Packages of an archive have its programs, are the same bytes each time, and their checksums hold; none is
        made of an archive in which something is not as it says"""
        self.needs("dpkg-deb", shutil.which("dpkg-deb") is not None)
        made = []
        for place in ("one", "two"):
            archive = self.archive(place)
            done = ran(sys.executable, "tools/packages.py", archive, folder=self.tree)
            self.assertEqual((done.returncode, done.stderr), (0, ""))
            self.assertEqual(ran("sha256sum", "--quiet", "-c", "SHA256SUMS", folder=archive.parent).returncode, 0)
            made.append((archive.parent / "SHA256SUMS").read_text())
        self.assertEqual(made[0], made[1])
        package = self.folder / "one" / f"rekhuso_{VERSION}_amd64.deb"
        self.assertEqual(ran("dpkg-deb", "-x", package, self.folder / "root").returncode, 0)
        for name in PROGRAMS:
            self.assertEqual(ran(self.folder / "root/usr/bin" / name, "--version").stdout, f"{name} {VERSION}\n")
        if shutil.which("rpm"):
            listed = ran("rpm", "-qlp", self.folder / "one" / f"rekhuso-{VERSION}-1.x86_64.rpm").stdout.splitlines()
            there = [path for path in (self.folder / "root").rglob("*") if path.is_symlink() or path.is_file()]
            self.assertEqual(sorted(listed), sorted(f"/{path.relative_to(self.folder / 'root')}" for path in there))
        other = self.changed(self.archive(), lambda files: files.update({"bin/osdmapd": b"another"}))
        done = ran(sys.executable, "tools/packages.py", other, folder=self.tree)
        self.assertEqual(done.stderr, "bin/osdmapd: another program than bin/osdmapd.proved says\n")
        self.assertEqual((done.returncode, [*other.parent.glob("*.deb")]), (1, []))

    def test_contents(self) -> None:
        """The list of what is inside names each program by its sum, and the C library that it is linked with"""
        with tarfile.open(self.archive()) as archive:
            files = {member.name.partition("/")[2]: archive.extractfile(member) for member in archive}
            told = json.loads((files[f"rekhuso-{VERSION}.spdx.json"] or io.BytesIO()).read())
            sums = {
                name: hashlib.sha256((files[f"bin/{name}"] or io.BytesIO()).read()).hexdigest() for name in PROGRAMS
            }
        packages = {own["name"]: own for own in told["packages"]}
        self.assertEqual({*packages}, {"rekhuso", *PROGRAMS, "glibc", "libgcc", "rattle-kit"})
        for name, wanted in sums.items():
            self.assertEqual(packages[name]["checksums"], [{"algorithm": "SHA256", "checksumValue": wanted}])
            link = {
                "spdxElementId": f"SPDXRef-{name}",
                "relationshipType": "STATIC_LINK",
                "relatedSpdxElement": "SPDXRef-glibc",
            }
            self.assertIn(link, told["relationships"])
        self.assertEqual(packages["rekhuso"]["sourceInfo"], f"commit {self.git('rev-parse', 'HEAD')}")


if __name__ == "__main__":
    unittest.main()
