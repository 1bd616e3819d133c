"""Ceph 18.2's own tools, where the variable REEF names a folder that has them in `bin`: ceph, ceph-mon, monmaptool and
osdmaptool, each as it is run. Without it the tests that need them are not run.
"""

from __future__ import annotations

import contextlib
import os
import pathlib
import random
import re
import socket
import subprocess
import tempfile
import uuid
from collections.abc import Iterable

from tests.clusters import Json

# How long a tool may take, and how long a monitor until it answers.
SECONDS = 240
NONE = 2147483647
GROUP = re.compile(r"(\d+\.[0-9a-f]+) raw \(.*?\) up \(\[([^\]]*)\], p(-?\d+)\) acting")
CONF = """[global]
fsid = {fsid}
mon_host = {hosts}
auth_cluster_required = none
auth_service_required = none
auth_client_required = none
run_dir = {folder}
admin_socket = {folder}/$name.$pid.asok
log_file = {folder}/$name.log
log_to_stderr = false
err_to_stderr = false
mon_cluster_log_file = {folder}/cluster.log
[mon]
mon_data = {folder}/mon-$id
mon_max_pg_per_osd = 1000000
mon_osd_report_timeout = 100000000
mon_osd_down_out_interval = 0
mon_osd_crush_smoke_test = false
mon_data_avail_crit = 1
mon_data_avail_warn = 1
mon_osd_prime_pg_temp = false
paxos_propose_interval = 0.01
paxos_min_wait = 0.01
"""


def reef_tools() -> "pathlib.Path | None":
    """The folder of the tools; None where there is none."""
    found = os.environ.get("REEF")
    path = None if found is None else pathlib.Path(found) / "bin"
    return path if path is not None and os.access(path / "ceph-mon", os.X_OK) else None


def free_port() -> int:
    """A port of this machine that nobody has, below those that connections are given meanwhile."""
    while True:
        port = random.randrange(10_000, 32_000)
        with socket.socket() as own, contextlib.suppress(OSError):
            own.bind(("127.0.0.1", port))
            return port


class ReefMonitor:
    """A monitor of Ceph 18.2 over a cluster's own binary map, or several, which end with the block."""

    def __init__(self, tools: pathlib.Path, osdmap: bytes, count: int = 1) -> None:
        self.tools, self.made = tools, tempfile.TemporaryDirectory()
        self.folder = pathlib.Path(self.made.name)
        self.conf, monmap, fsid = self.folder / "ceph.conf", self.folder / "monmap", uuid.uuid4()
        hosts = {name: f"[v2:127.0.0.1:{free_port()}]" for name in "abc"[:count]}
        (self.folder / "osdmap").write_bytes(osdmap)
        self.conf.write_text(CONF.format(fsid=fsid, hosts=",".join(hosts.values()), folder=self.folder))
        given = [word for name, host in hosts.items() for word in ("--addv", name, host)]
        self.run("monmaptool", "--create", "--fsid", fsid, *given, monmap)
        self.processes = {name: self.started(name, monmap) for name in hosts}

    def started(self, name: str, monmap: pathlib.Path) -> subprocess.Popen[bytes]:
        """A monitor of a name, which begins with the map."""
        (self.folder / f"mon-{name}").mkdir()
        own = "-i", name, "-c", self.conf
        self.run("ceph-mon", "--mkfs", *own, "--monmap", monmap, "--osdmap", self.folder / "osdmap")
        return subprocess.Popen(
            [str(self.tools / "ceph-mon"), "-f", *map(str, own)],
            stdout=subprocess.DEVNULL,
            stderr=subprocess.DEVNULL,
            stdin=subprocess.DEVNULL,
        )

    def __enter__(self) -> "ReefMonitor":
        return self

    def __exit__(self, *_: object) -> None:
        for process in self.processes.values():
            process.terminate()
        for process in self.processes.values():
            try:
                process.wait(20)
            except subprocess.TimeoutExpired:
                process.kill()
                process.wait()
        self.made.cleanup()

    def kill(self, name: str) -> None:
        """Kills a monitor."""
        self.processes[name].kill()
        self.processes[name].wait(20)

    def run(self, tool: str, *words: object, given: str = "") -> subprocess.CompletedProcess[str]:
        """What a tool has put out."""
        return subprocess.run(
            [str(self.tools / tool), *map(str, words)],
            input=given,
            capture_output=True,
            text=True,
            timeout=SECONDS,
            check=False,
        )

    def refused(self, lines: Iterable[str]) -> list[str]:
        """What the monitor says of commands that it refuses."""
        given = "".join(line.removeprefix("ceph ") + "\n" for line in lines)
        done = self.run("ceph", "-c", self.conf, "--connect-timeout", 30, given=given)
        return [line for line in done.stderr.splitlines() if line.startswith("Error")]

    def map_file(self) -> pathlib.Path:
        """A file with the monitor's map."""
        path = self.folder / "now"
        self.run("ceph", "-c", self.conf, "osd", "getmap", "-o", path)
        return path

    def sets(self) -> Json:
        """The up set and primary of each group."""
        text, found = self.run("osdmaptool", self.map_file(), "--test-map-pgs-dump-all").stdout, {}
        for line in text.splitlines():
            match = GROUP.match(line)
            if match:
                osds = [int(osd) for osd in match[2].split(",") if osd]
                found[match[1]] = [[None if osd == NONE else osd for osd in osds], int(match[3])]
        return found

    def balanced(self, most: int) -> int:
        """How many commands the balancer wants where OSDs may be so many groups from their shares."""
        out = self.folder / "balanced"
        self.run("osdmaptool", self.map_file(), "--upmap", out, "--upmap-deviation", most, "--upmap-max", 500)
        return len(out.read_text().splitlines())
