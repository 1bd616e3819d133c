"""What the tools read and write at its edges: files of another form, a full disk, errors that nobody reads, no memory,
and a defect of their own."""

from __future__ import annotations

import gzip
import json
import os
import pathlib
import resource
import subprocess
import sys
import tempfile
import xml.etree.ElementTree as trees
from collections.abc import Iterator
from contextlib import contextmanager

from rekhuso.faults import Trouble
from rekhuso.files import put_files

from tests.cases import EXAMPLE
from tests.clusters import CLUSTERS, copied
from tests.terminals import Terminal
from tests.tool_cases import AS_MONITOR, TOOLS, ToolCase
from tests.tool_errors import SECONDS

# What Ceph's commands print for people.
PLAIN = {
    "ceph osd dump": "epoch 12\nfsid 91ea8ff0\ncreated 2026-11-29T01:40:00.000000+0000\n",
    "ceph pg dump": "version 3085\nstamp 2026-11-29T01:40:00.000000+0000\nlast_osdmap_epoch 0\n",
    "ceph osd df": "ID  CLASS  WEIGHT   REWEIGHT  SIZE     RAW USE\n",
    "ceph osd tree": "ID  CLASS  WEIGHT    TYPE NAME             STATUS  REWEIGHT  PRI-AFF\n",
    "ceph df": "--- RAW STORAGE ---\nCLASS    SIZE   AVAIL    USED  RAW USED  %RAW USED\n",
}
# Runs a command in whose parser a defect is planted.
PLANTED = """
import sys
sys.path.insert(0, sys.argv.pop(1))
from rekhuso import command_line
def planted(*words):
    raise KeyError("planted")
command_line.parser = planted
sys.exit(command_line.main())
"""


@contextmanager
def full_disk(size: str) -> Iterator[pathlib.Path]:
    """A folder on a disk of a size; None stands for it where none can be made."""
    with tempfile.TemporaryDirectory() as folder:
        made = subprocess.run(["mount", "-t", "tmpfs", "-o", f"size={size}", "tmpfs", folder], capture_output=True)
        try:
            yield pathlib.Path(folder, "" if made.returncode == 0 else "none")
        finally:
            if made.returncode == 0:
                subprocess.run(["umount", folder], check=True)


class Streams(ToolCase):
    """Files and streams of the commands."""

    def told(self, line: str, *words: object, **more: str) -> tuple[int, str, str]:
        """How a command ends that a line of a shell runs as "$@"."""
        done = subprocess.run(
            ["bash", "-c", line, "sh", *self.tools.words(*words)],
            capture_output=True,
            text=True,
            timeout=SECONDS,
            cwd=self.tools.folder,
            env=os.environ | more,
        )
        return done.returncode, done.stdout, done.stderr

    def test_packed_files(self) -> None:
        """What gzip has packed is read as what it was, also in two parts: dumps, maps, standard input. A file that is
        cut off is told."""
        osd, crush = self.tools.dumps("001-built")
        wanted, packed = self.output("import", osd, crush), self.tools.folder / "osd.gz"
        data = osd.read_bytes()
        for own in (gzip.compress(data), gzip.compress(data[:100]) + gzip.compress(data[100:]) + b"\0" * 20):
            packed.write_bytes(own)
            self.assertEqual(self.output("import", packed, crush), wanted)
        packed.write_bytes(gzip.compress(EXAMPLE.read_bytes()))
        lawful = "lawful\n"
        self.assertEqual(self.output("check", packed), f"{packed}: {lawful}")
        self.assertEqual(self.told(f'"$@" < {packed}', "check", "-"), (0, f"-: {lawful}", ""))
        packed.write_bytes(gzip.compress(data)[:-9])
        told = f"{packed}: a gzip file that is cut off or damaged"
        self.is_told(self.tools.run("import", packed, crush), 2, told, "cut off")

    def test_other_forms(self) -> None:
        """An empty file, UTF-16, a byte order mark, and what Ceph prints for people, are told as what they are."""
        osd, crush = self.tools.dumps("001-built")
        text, path = osd.read_text(), self.tools.folder / "other"
        cases = [("empty", b""), ("it begins with a byte order mark", b"\xef\xbb\xbf" + text.encode())]
        cases += [("UTF-16, and not UTF-8", text.encode(form)) for form in ("utf-16", "utf-16-le", "utf-16-be")]
        cases += [(f"what `{command}` prints without -f json", own.encode()) for command, own in PLAIN.items()]
        for told, data in cases:
            with self.subTest(told=told, data=data[:4]):
                path.write_bytes(data)
                self.is_told(self.tools.run("import", path, crush), 2, f"{path}: {told}", told)
                self.is_told(self.tools.run("plan", osd, crush, "--df", path), 2, f"{path}: {told}", told)

    def test_errors_that_nobody_reads(self) -> None:
        """Where standard error is full or closed, or nobody reads it, the output is whole and the status the same."""
        osd, crush = self.tools.dumps("001-built")
        for words in (["plan", osd, crush], ["df", osd, crush], ["whatif", EXAMPLE, "--out", "3"]):
            status, output, _ = self.told('"$@"', *words)
            self.assertEqual(status, 0)
            for sink in ("2>/dev/full", "2>&-", "2> >(exec true)"):
                with self.subTest(words=words, sink=sink):
                    self.assertEqual(self.told(f'"$@" {sink}', *words), (0, output, ""))
        for sink in ("2>/dev/full", "2>&-"):
            self.assertEqual(self.told(f'"$@" {sink}', "df", "nothing"), (2, "", ""))

    def test_full_disks(self) -> None:
        """On a full disk no file is left half or empty, of a plan's parts none at all, and an older file stays."""
        osd, crush = self.tools.dumps("001-built")
        with full_disk("16k") as disk:
            self.needs("right to mount a disk", disk.is_dir())
            for words in (
                # Two of the parts have room, and the third has not.
                ["plan", osd, crush, "--batch", "1", "--to", disk / "parts"],
                ["import", osd, crush, "--to", disk / "maps"],
                ["import", osd, crush, "--names", disk / "names"],
                ["whatif", osd, crush, "--out", "1", "--picture", disk / "flows.svg"],
                ["hold", osd, crush, "--weight", "osd.3=1", "--to", disk / "hold.sh"],
            ):
                with self.subTest(words=words[-2:]):
                    (disk / "older").write_bytes(b"x" * (8192 if words[0] == "plan" else 16384))
                    status, _, error = self.tools.run(*words)
                    self.assertEqual(
                        (status, error.splitlines()[-1].partition(": ")[2]), (2, "No space left on device")
                    )
                    self.assertStarts(error.splitlines()[-1], str(words[-1]))
                    self.assertEqual([path.name for path in disk.iterdir()], ["older"])
            (disk / "older").unlink()
            status, output, error = self.told('"$@"', "df", EXAMPLE, TMPDIR=str(disk))
            self.assertEqual((status, error), (0, ""))
            # Room for one page: Python tries a place for temporary files with a few bytes.
            (disk / "older").write_bytes(b"x" * 12288)
            wide = self.tools.put("wide", EXAMPLE.read_text() + " " * 5000)
            status, output, error = self.told('"$@"', "df", wide, TMPDIR=str(disk))
            self.assertEqual((status, error), (2, f"temporary files in {disk}: No space left on device\n"))

    def test_all_or_none(self) -> None:
        """Of several files all are written or none; what is in the way stays, and so does an older file."""
        folder = self.tools.folder / "several"
        folder.mkdir()
        (folder / "old").write_text("old")
        (folder / "way").mkdir()
        with self.assertRaises(Trouble) as found:
            put_files({str(folder / name): "new" for name in ("first", "old", "no/where", "last")})
        self.assertEqual(found.exception.lines, [f"{folder}/no/where: No such file or directory"])
        self.assertEqual((sorted(os.listdir(folder)), (folder / "old").read_text()), (["old", "way"], "old"))
        put_files({str(folder / name): "new" for name in ("first", "old")})
        self.assertEqual(sorted(os.listdir(folder)), ["first", "old", "way"])
        self.assertEqual((folder / "old").read_text(), "new")

    def test_no_file(self) -> None:
        """`-` where a file or a folder is to be written is an error of use, and no file of that name comes."""
        osd, crush = self.tools.dumps("001-built")
        for words in (
            ["plan", osd, crush, "--batch", "1", "--to", "-"],
            ["import", osd, crush, "--to", "-"],
            ["import", osd, crush, "--names", "-"],
            ["whatif", osd, crush, "--out", "1", "--picture", "-"],
            ["hold", osd, crush, "--weight", "osd.3=1", "--to", "-"],
        ):
            with self.subTest(words=words[-2:]):
                status, _, error = self.tools.run(*words)
                self.assertEqual(status, 2)
                self.assertIn("error: -: no f", error.splitlines()[-1])
        self.assertFalse((self.tools.folder / "-").exists())

    def test_no_memory(self) -> None:
        """Where there is no memory left, one line says so."""
        value = json.loads(EXAMPLE.read_text())
        path = self.tools.put("large", {**value, "more": ["x" * 100] * 600_000})
        _, hard = resource.getrlimit(resource.RLIMIT_AS)
        words = [sys.executable, "-B", str(TOOLS), "df", str(path), "--names", str(path), "--program", "none"]
        done = subprocess.run(
            words,
            capture_output=True,
            text=True,
            timeout=SECONDS,
            preexec_fn=lambda: resource.setrlimit(resource.RLIMIT_AS, (90 << 20, hard)),
        )
        self.assertEqual((done.returncode, done.stdout, done.stderr), (2, "", "out of memory\n"))

    def test_defects(self) -> None:
        """A fault that nobody foresaw is told in one line, with versions and a status of its own."""
        done = subprocess.run(
            [sys.executable, "-c", PLANTED, str(TOOLS.parent), "df"], capture_output=True, text=True, timeout=SECONDS
        )
        self.assertEqual((done.returncode, done.stdout, len(done.stderr.splitlines())), (70, "", 1), done.stderr)
        version = "%d.%d.%d" % sys.version_info[:3]
        self.assertRegex(
            done.stderr,
            rf"^a defect of the tools \(rekhuso [\d.]+, Python {version}\S*\): KeyError at \S+:\d+: 'planted'",
        )

    def test_signs_of_pictures(self) -> None:
        """A picture and a page have no sign that XML forbids, whatever names have."""
        own = copied(CLUSTERS["001-built"])
        names = ["a\x01b", "\x1b[31m", "c\x7f", "\ud800", "\ufffe"]
        for bucket in own["crush_dump"]["buckets"]:
            bucket["name"] = f"{bucket['name']}{names[bucket['id'] % len(names)]}"
        files = [self.tools.put("osd", own["osd_dump"]), self.tools.put("crush", own["crush_dump"])]
        self.output("whatif", *files, "--out", "1", "--picture", self.tools.folder / "flows.svg")
        for text in ((self.tools.folder / "flows.svg").read_text(), self.output("picture", *files)):
            self.assertGreater(len(list(trees.fromstring(text).iter())), 5)

    def test_narrow_terminals(self) -> None:
        """What a long command does is cut to the terminal, and is not told to one that obeys nothing."""
        self.tools.put("slow", f"{AS_MONITOR}echo session 1\nexec sleep 4\n").chmod(0o755)
        words = self.tools.words("df", EXAMPLE)[:-1] + [str(self.tools.folder / "slow")]
        for term, wanted in (("xterm", True), ("dumb", False)):
            with self.subTest(term=term):
                line = 'stty cols 12; "$@" || echo "status $?"'
                shell = Terminal(["env", f"TERM={term}", "bash", "-c", line, "sh", *words], self.tools.folder)
                shown = shell.type("", "status 2")
                told = [part.replace("\x1b[K", "") for part in shown.split("\r") if part.startswith("df: ")]
                self.assertEqual(bool(told), wanted, shown)
                self.assertLessEqual(max(map(len, told), default=0), 11)
