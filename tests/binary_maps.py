"""Binary maps, as `ceph osd getmap` writes them, beside the dumps of the same monitors; and maps that are damaged, cut
off, of another release, or lie about what they hold.

osdmaps.json.gz has the maps of clusters of operators.json.gz and reef.json.gz, by the release of their monitors; other
maps of reef.json.gz stand there.
"""

from __future__ import annotations

import base64
import gzip
import json
import pathlib
import random
import struct
import subprocess
import tempfile
import tracemalloc
from collections.abc import Iterator
from typing import Any

from rekhuso.cluster.affinity import affinities_of
from rekhuso.cluster.binary_maps import report_of_bytes
from rekhuso.cluster.cluster import Cluster
from rekhuso.cluster.conversion import map_of
from rekhuso.cluster.dump_forms import CRUSH_DUMP, OSD_DUMP
from rekhuso.cluster.dumps import read_dump
from rekhuso.cluster.encoded import Encoded, Misread, crc32c
from rekhuso.cluster.group_dumps import pg_dump_in
from rekhuso.cluster.map_parts import map_clusters
from rekhuso.cluster.reasons import reasons
from rekhuso.cluster.reports import report_in
from rekhuso.program.maps import written

from tests.cases import Case
from tests.clusters import Json, copied, kept
from tests.tool_cases import StockCase

OSDMAPS: dict[str, dict[str, str]] = kept("osdmaps.json.gz")
WORST: dict[str, Json] = kept("operators.json.gz")["clusters"]
REEF: dict[str, Json] = kept("reef.json.gz")["clusters"]
# Keys of a dump whose numbers the kept dumps have been given, or of which they have what is asked for alone.
GIVEN = ("epoch", "crush_version", "osd_xinfo", "primary_temp")
# By which of these a row of a list is known.
NAMED = ("pool", "osd", "pgid", "rule_id", "type_id", "bucket_id")


def maps_of(release: str) -> dict[str, bytes]:
    """The binary maps of a release, by the names of their clusters."""
    found = {name: base64.b64decode(text) for name, text in OSDMAPS[release].items()}
    there = {name: base64.b64decode(own["osdmap"]) for name, own in REEF.items() if "osdmap" in own}
    return {**found, **(there if release == "18.2.7" else {})}


def every_map() -> Iterator[tuple[str, bytes, Json]]:
    """All of them, each with the dumps of its cluster."""
    for release, clusters in (("16.2.15", WORST), ("18.2.7", REEF)):
        for name, data in maps_of(release).items():
            yield f"{name} of {release}", data, clusters[name]


def crc_at(data: bytes) -> int:
    """Where the CRC of a map stands: behind its two sections."""
    whole = Encoded(data)
    whole.take(6)
    whole.passed()
    whole.passed()
    return whole.at


def with_crc(data: bytes) -> bytes:
    """A map with the CRC that is right for it."""
    at = crc_at(data)
    return data[:at] + struct.pack("<I", crc32c(data[at + 4 :], crc32c(data[:at]))) + data[at + 4 :]


class BinaryMaps(Case):
    """The maps themselves."""

    is_form = True

    def read(self, report: Json) -> tuple[Cluster, Json, Json]:
        """The cluster of both dumps, and what the tools read of each."""
        osd, _, osd_faults = read_dump("osd", report["osdmap"], OSD_DUMP)
        crush, _, crush_faults = read_dump("crush", report["crushmap"], CRUSH_DUMP)
        self.assertEqual((osd_faults, crush_faults), ([], []))
        osd["epoch"] = 7
        own: Any = osd, crush
        return Cluster(*own), osd, crush

    def test_dumps(self) -> None:
        """What the tools read of each map is what they read of the dumps, and so are the maps that they make of it,
        the names, the tree and the affinities."""
        count = 0
        for name, data, own in every_map():
            with self.subTest(name=name):
                told = {"osdmap": copied(own["osd_dump"]), "crushmap": copied(own["crush_dump"])}
                one, osd, crush = self.read(told)
                other, osd_there, crush_there = self.read(copied(report_of_bytes(data)))
                for key in osd.keys() - set(GIVEN):
                    self.assertTrue(self.has(osd_there[key], osd[key]), (key, str(osd_there[key])[:300]))
                for key in crush:
                    self.assertTrue(self.has(crush_there[key], crush[key]), (key, str(crush_there[key])[:300]))
                found = [reasons(cluster, False, False) for cluster in (one, other)]
                self.assertEqual(found[0], found[1])
                for way in (Cluster.all_names, Cluster.shown, affinities_of):
                    self.assertEqual(way(other), way(one))
                if not found[0]:
                    texts = [[written(map_of(part)) for part in map_clusters(cluster)] for cluster in (one, other)]
                    self.assertEqual(texts[1], texts[0])
                    count += 1
        self.assertGreater(count, 20)

    def has(self, value: Any, wanted: Any) -> bool:
        """Whether a value of a dump is a kept one, as far as both have the same keys; rows of lists may stand in
        another order, and numbers are of 1/65,536."""
        if isinstance(wanted, float):
            return bool(round(value * 65536) == round(wanted * 65536))
        if isinstance(wanted, dict):
            return all(self.has(value[key], wanted[key]) for key in (wanted.keys() & value.keys()) - {"state"})
        if isinstance(wanted, list) and wanted and isinstance(wanted[0], dict):
            name = next((key for key in NAMED if key in wanted[0]), None)
            rows = {row[name]: row for row in value} if name else dict(enumerate(value))
            own = {row[name]: row for row in wanted} if name else dict(enumerate(wanted))
            return rows.keys() == own.keys() and all(self.has(rows[key], own[key]) for key in own)
        return bool(value == wanted)

    def test_flips(self) -> None:
        """A map with one bit turned is taken nowhere."""
        chance = random.Random(41)
        for name, data, _ in list(every_map())[::4]:
            with self.subTest(name=name):
                bits = [*range(0, 64, 3), *(chance.randrange(8 * len(data)) for _ in range(30))]
                for bit in bits:
                    turned = bytearray(data)
                    turned[bit // 8] ^= 1 << bit % 8
                    with self.assertRaises(Misread, msg=f"{name}: bit {bit}"):
                        report_of_bytes(bytes(turned))

    def test_cuts(self) -> None:
        """A map that is cut off is taken nowhere, nor one with more behind its end."""
        data = maps_of("16.2.15")["few_hosts"]
        for length in [*range(40), *range(40, len(data), 61), len(data) - 1]:
            with self.assertRaises(Misread, msg=str(length)):
                report_of_bytes(data[:length])
        with self.assertRaises(Misread):
            report_of_bytes(data + b"\0")

    def test_lies(self) -> None:
        """A map whose CRC is right and some length in which is not has an end, with little memory."""
        data, chance, seen = maps_of("16.2.15")["few_hosts"], random.Random(5), 0
        tracemalloc.start()
        self.addCleanup(tracemalloc.stop)
        for _ in range(200):
            at = chance.randrange(6, crc_at(data) - 4)
            for lie in (b"\xff\xff\xff\xff", b"\xff\xff\xff\x7f", b"\0\0\0\0"):
                with self.subTest(at=at, lie=lie):
                    try:
                        report_of_bytes(with_crc(data[:at] + lie + data[at + 4 :]))
                    except Misread:
                        seen += 1
        self.assertGreater(seen, 150)
        self.assertLess(tracemalloc.get_traced_memory()[1], 1 << 25)

    def test_files_that_change(self) -> None:
        """Who reads the same path twice is told what the file has then: a map, a report, or what groups have."""
        with tempfile.TemporaryDirectory() as folder:
            path = pathlib.Path(folder, "file")
            for name in ("takes", "tiers", "takes"):
                data = maps_of("16.2.15")[name]
                path.write_bytes(data)
                self.assertEqual(report_in(str(path)), report_of_bytes(data))
            for epoch in (1, 2):
                path.write_text(json.dumps({"osdmap": {"epoch": epoch}, "crushmap": {}}))
                self.assertEqual(report_in(str(path)), {"osdmap": {"epoch": epoch}, "crushmap": {}})
            for group in ("1.0", "1.1"):
                path.write_text(json.dumps({"pg_stats": [{"pgid": group}]}))
                self.assertEqual(pg_dump_in(str(path)), {"pg_stats": [{"pgid": group}]})

    def test_crc(self) -> None:
        """The CRC is Castagnoli's: of `123456789` it is e3069283 once its last turn is made (RFC 3720)."""
        self.assertEqual(crc32c(b"123456789") ^ 0xFFFFFFFF, 0xE3069283)


class BinaryMapFiles(StockCase):
    """Binary maps in place of dumps."""

    def files(self, name: str) -> tuple[pathlib.Path, list[pathlib.Path]]:
        """The binary map of a cluster, and its dumps at the epoch of that."""
        data, own = maps_of("16.2.15")[name], copied(WORST[name])
        binary = self.tools.folder / "osdmap"
        binary.write_bytes(data)
        report = report_of_bytes(data)
        own["osd_dump"].update({key: report["osdmap"][key] for key in ("epoch", "fsid", "crush_version")})
        return binary, [self.tools.put("osd", own["osd_dump"]), self.tools.put("crush", own["crush_dump"])]

    def ceph_lines(self, text: str) -> list[str]:
        """What of a script is no comment, and what it says of itself to other tools."""
        ends = ("# rekhuso: end", "# rekhuso: goes")
        heads = [line for line in text.splitlines() if line.startswith("# rekhuso: ") and not line.startswith(ends)]
        return [*heads, *(line for line in text.splitlines() if not line.startswith("#"))]

    def test_commands(self) -> None:
        """Each command tells of a map what it tells of the dumps, also where it is packed, or stands in a pipe."""
        binary, dumps = self.files("takes")
        words: list[list[object]] = [["df"], ["verify"], ["whatif"], ["explain"], ["import", "--to", "maps"]]
        more: dict[str, list[object]] = {"whatif": ["--out", "osd.3"], "explain": ["2.1"]}
        stats = [
            dict({"pgid": group, "state": "active+clean"}, up=up, acting=up, up_primary=first, acting_primary=first)
            for group, (up, first) in WORST["takes"]["up"].items()
        ]
        more["verify"] = ["--pgs", self.tools.put("pgs", {"pg_stats": stats})]
        for command, *own in words:
            with self.subTest(command=command):
                rest = [*more.get(str(command), []), *own]
                self.assertEqual(self.output(command, binary, *rest), self.output(command, *dumps, *rest))
        packed = self.tools.folder / "osdmap.gz"
        packed.write_bytes(gzip.compress(binary.read_bytes()))
        self.assertEqual(self.output("df", packed), self.output("df", *dumps))
        done = subprocess.run(
            self.tools.words("df", "-"), input=binary.read_bytes(), capture_output=True, timeout=300, check=True
        )
        self.assertEqual(done.stdout.decode(), self.output("df", *dumps))

    def test_scripts(self) -> None:
        """Scripts are the same, with the guards that the dumps give."""
        binary, dumps = self.files("tiers")
        for command, *rest in (["plan"], ["drain", "osd.1"], ["hold", "--weight", "osd.1=1"], ["release"]):
            with self.subTest(command=command):
                found = self.output(command, binary, *rest)
                self.assertEqual(self.ceph_lines(found), self.ceph_lines(self.output(command, *dumps, *rest)))
                self.assertTrue(not found or "has '^fsid " in found)
                self.assertLess(found.count(f"{binary} (sha256"), 2 + found.count("# Drains"))

    def test_gone(self) -> None:
        """The reweight that an OSD has kept which is gone, which dumps do not tell, is there, as by --tree."""
        binary, _ = self.files("takes")
        told = report_of_bytes(binary.read_bytes())["osdmap"]
        self.assertEqual({osd for osd, _ in told["gone"]} & {own["osd"] for own in told["osds"]}, set())

    def test_refused(self) -> None:
        """A damaged map, one that is cut off, one of a release that is not known: one line, which names the file and
        the reason. Where something else is wanted it is told what the file is."""
        binary, dumps = self.files("few_hosts")
        data = binary.read_bytes()
        cases = {
            data[:200] + b"\x5a" + data[201:]: "it is damaged: its CRC is another one",
            data[:-40]: "it is cut off",
            with_crc(b"\x0b\x09" + data[2:]): "it is of a release that is not known here",
        }
        for own, why in cases.items():
            binary.write_bytes(own)
            for words in (["df", binary], ["import", "--check", binary], ["plan", binary], ["drain", binary, "osd.1"]):
                told = f"{binary}: a binary map that is not read: {why}"
                self.is_told(self.tools.run(*words), 2, told, (words, why))
        binary.write_bytes(data)
        for option, what in (
            ("--pgs", "of groups one by one"),
            ("--df", "of the data of pools"),
            ("--osds", "of disks"),
        ):
            words = ["plan", *dumps, option, binary, *(["--df", binary] if option == "--osds" else [])]
            status, output, error = self.tools.run(*words)
            self.assertEqual((status, output), (2, ""))
            self.assertIn("this is what `ceph osd getmap` writes, which does not tell", error, option)
