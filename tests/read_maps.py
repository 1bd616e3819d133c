"""`readmap --map`, which tells the map of a cluster's own bytes as its text, beside what `import` makes of the same
file: the same text, or both refuse it. And files that are damaged, cut off, or lie about their lengths.

The maps are those that `binary_maps.py` has, and each `osdmap` below the folders that the variable REKHUSO_CLUSTERS
names, with colons between them. The program is `crates/readmap/out/readmap`, or the one that READMAP names; where that
is not there, nothing is run.
"""

from __future__ import annotations

import json
import os
import pathlib
import random
import resource
import subprocess
import tempfile
from collections.abc import Iterator

from rekhuso.cluster.cluster import Cluster
from rekhuso.cluster.conversion import map_of
from rekhuso.cluster.dumps import both_dumps
from rekhuso.cluster.reasons import reasons
from rekhuso.cluster.reasons.buckets import root_reasons
from rekhuso.cluster.reasons.counts import pools_reason, total_reason
from rekhuso.cluster.reasons.rules import size_reasons
from rekhuso.program.maps import altered, written
from rekhuso.version import VERSION

from tests.binary_maps import crc_at, maps_of, with_crc
from tests.cases import TOP, Case

SECONDS = 300
# More memory than any of these maps needs, and less than a list takes whose length lies.
MEMORY = 1 << 29
READMAP = TOP / "crates" / "readmap" / "out" / "readmap"


def reader() -> pathlib.Path:
    """Where the program is, if it is there."""
    return pathlib.Path(os.environ.get("READMAP", READMAP)).resolve()


def given() -> Iterator[tuple[str, bytes]]:
    """All maps, by their names."""
    for release in ("16.2.15", "18.2.7"):
        for name, data in maps_of(release).items():
            yield f"{name} of {release}", data
    for folder in filter(None, os.environ.get("REKHUSO_CLUSTERS", "").split(":")):
        for path in sorted(pathlib.Path(folder).rglob("osdmap")):
            yield str(path), path.read_bytes()


def comes_in(cluster: Cluster) -> bool:
    """Whether a cluster comes in as one map."""
    several = (root_reasons(cluster, True), size_reasons(cluster), pools_reason(cluster), total_reason(cluster))
    return not reasons(cluster, False) and not any(several)


def text_of(cluster: Cluster) -> str:
    """The text of a cluster's map, with its OSDs by their ids."""
    found = map_of(cluster)
    return written(altered(found, osds=sorted(found["osds"], key=lambda osd: osd["id"]))) + "\n"


def bounded() -> None:
    """Bounds the memory of the program."""
    resource.setrlimit(resource.RLIMIT_AS, (MEMORY, MEMORY))


class ReadMaps(Case):
    """The program over files of maps."""

    PROGRAMS = ("READMAP",)

    def setUp(self) -> None:
        self.needs(f"program {reader()} (READMAP names another)", os.access(reader(), os.X_OK))
        folder = tempfile.TemporaryDirectory()
        self.addCleanup(folder.cleanup)
        self.folder = pathlib.Path(folder.name)

    def put(self, name: str, data: bytes) -> str:
        """The path of a file with some bytes."""
        path = self.folder / name
        path.write_bytes(data)
        return str(path)

    def told(self, *paths: str) -> tuple[int, str, str]:
        """What the program tells of the maps of files: its status, output and error."""
        return self.ran("--map", *paths)

    def ran(self, *words: str) -> tuple[int, str, str]:
        """What the program answers to words: its status, output and error."""
        done = subprocess.run(
            [reader(), *words], capture_output=True, text=True, timeout=SECONDS, check=False, preexec_fn=bounded
        )
        return done.returncode, done.stdout, done.stderr

    def test_texts(self) -> None:
        """Of each map the program tells the text that `import` makes, or both refuse it."""
        texts = refused = 0
        for name, data in given():
            with self.subTest(name):
                path = self.put("osdmap", data)
                cluster, faults = both_dumps(path, path)
                self.assertEqual(faults, [])
                status, output, error = self.told(path)
                if comes_in(cluster):
                    self.assertEqual((status, output, error), (0, text_of(cluster), ""))
                    texts += 1
                else:
                    self.assertEqual((status, output), (1, ""))
                    self.assertStarts(error, (f"{path}: it does not come in: ", f"{path}: it is no map: "))
                    refused += 1
        self.assertGreater(texts, 15)
        self.assertGreater(refused, 3)

    def test_words(self) -> None:
        """The version and help are put out; of words that mean nothing standard error tells, with status 2"""
        self.assertEqual(self.ran("--version"), (0, f"readmap {VERSION}\n", ""))
        status, output, error = self.ran("--help")
        self.assertEqual((status, error), (0, ""))
        for word in ("--map <FILE>...", "--judge <SCRIPT> <FILE>...", "--version"):
            self.assertIn(word, output)
        path = self.put("osdmap", maps_of("16.2.15")["few_hosts"])
        wrong: list[list[str]] = [[], ["--map"], ["--judge", path], ["--maps", path], ["--map", path, "--map", path]]
        for words in wrong:
            with self.subTest(words=words):
                status, output, error = self.ran(*words)
                self.assertEqual((status, output), (2, ""))
                self.assertIn("--help", error)

    def test_missing(self) -> None:
        """A file that is not there is told, with status 1, and those behind it are read; where a script is not there,
        no map is"""
        missing, script = str(self.folder / "missing"), self.put("script", b"")
        path = self.put("osdmap", maps_of("16.2.15")["few_hosts"])
        whole = {words: self.ran(*words)[1] for words in ((path,), ("--map", path), ("--judge", script, path))}
        self.assertNotIn("", whole.values())
        for words, output in whole.items():
            status, told, error = self.ran(*words[:-1], missing, path)
            self.assertEqual((status, told), (1, output))
            self.assertStarts(error, f"{missing}: ")
        status, told, error = self.ran("--judge", missing, path)
        self.assertEqual((status, told), (1, ""))
        self.assertStarts(error, f"{missing}: ")

    def test_order(self) -> None:
        """What stands in files is told first, then maps, then what a script does, however the words stand"""
        script, path = self.put("script", b""), self.put("osdmap", maps_of("16.2.15")["few_hosts"])
        parts = ((path,), ("--map", path), ("--judge", script, path))
        whole = "".join(self.ran(*words)[1] for words in parts)
        for words in ([*parts[0], *parts[1], *parts[2]], [*parts[0], *parts[2], *parts[1]], [*parts[2], "--", path]):
            status, told, error = self.ran(*words)
            wanted = whole if "--map" in words else self.ran(path)[1] + self.ran(*parts[2])[1]
            self.assertEqual((status, told, error), (0, wanted, ""))

    def test_status(self) -> None:
        """The status is 1 wherever one of several maps is not told or a command is in doubt, whatever stands beside"""
        script, doubtful = self.put("script", b""), self.put("doubtful", b"ceph osd out 1\n")
        path, other = (self.put(name, maps_of("16.2.15")[name]) for name in ("few_hosts", "tiers"))
        for words, status in (
            (("--map", path, path), 0),
            (("--map", other, path), 1),
            (("--map", path, other), 1),
            (("--judge", script, path, path), 0),
            (("--judge", script, other, path), 1),
            (("--judge", doubtful, path), 1),
            ((path, "--map", other), 1),
            (("--map", other, "--judge", script, path), 1),
            (("--map", path, "--judge", doubtful, path), 1),
            ((path, "--map", path, "--judge", script, path), 0),
        ):
            with self.subTest(words=words):
                self.assertEqual(self.ran(*words)[0], status)

    def test_reasons(self) -> None:
        """What keeps a map out is told by its name, or the refusal of its parts by that of this."""
        told = {
            ("16.2.15", "takes"): "it does not come in: RuleCount",
            ("16.2.15", "tiers"): "it does not come in: SeveralTrees",
            ("18.2.7", "classes"): "it does not come in: SeveralTrees",
            ("18.2.7", "erasure"): "it is no map: BadRule",
        }
        for (release, name), why in told.items():
            path = self.put(name, maps_of(release)[name])
            self.assertEqual(self.told(path), (1, "", f"{path}: {why}\n"))

    def test_flips(self) -> None:
        """Of no map with a bit flipped is a text told."""
        chance, data = random.Random(7), maps_of("16.2.15")["few_hosts"]
        paths = []
        for number in range(300):
            at = chance.randrange(len(data))
            flipped = data[:at] + bytes([data[at] ^ 1 << chance.randrange(8)]) + data[at + 1 :]
            paths.append(self.put(f"flip-{number}", flipped))
        status, output, error = self.told(*paths)
        self.assertEqual((status, output, len(error.splitlines())), (1, "", len(paths)))

    def test_cuts(self) -> None:
        """Nor of one that is cut off, or has more behind its end."""
        data = maps_of("16.2.15")["takes"]
        lengths = [*range(40), *range(40, len(data), 37), len(data) - 1]
        paths = [self.put(f"cut-{length}", data[:length]) for length in lengths]
        status, output, error = self.told(*paths, self.put("longer", data + b"\0"))
        self.assertEqual((status, output, len(error.splitlines())), (1, "", len(paths) + 1))

    def test_lies(self) -> None:
        """Of a map whose sum is right and some length in which is not there is a text or a reason, within little
        memory; a text that is told is that of a map, and JSON."""
        chance, data = random.Random(5), maps_of("16.2.15")["few_hosts"]
        paths = []
        for number in range(100):
            at = chance.randrange(6, crc_at(data) - 4)
            for lie in (b"\xff\xff\xff\xff", b"\xff\xff\xff\x7f", b"\0\0\0\0"):
                lying = with_crc(data[:at] + lie + data[at + 4 :])
                paths.append(self.put(f"lie-{number}-{lie.hex()}", lying))
        status, output, error = self.told(*paths)
        self.assertIn(status, (0, 1))
        self.assertEqual(len(output.splitlines()) + len(error.splitlines()), len(paths))
        self.assertNotIn("there is no memory for it", error)
        self.assertGreater(len(error.splitlines()), 50)
        for line in output.splitlines():
            self.assertIn("buckets", json.loads(line))
