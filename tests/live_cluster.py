"""A live cluster of Ceph's own daemons on this machine, where they are there (Debian: ceph-mon, ceph-mgr, ceph-osd):
one monitor, one manager and a few OSDs that keep their data in memory.
"""

from __future__ import annotations

import contextlib
import json
import os
import pathlib
import shutil
import subprocess
import tempfile
import time
import uuid
from collections.abc import Callable, Mapping
from types import MappingProxyType

from tests.clusters import Json
from tests.reef_tools import free_port

# What a cluster needs, and where the modules of its manager are; how long it may take until something has come
# about, in seconds; and how long one command.
DAEMONS = ("ceph-mon", "ceph-mgr", "ceph-osd", "ceph", "monmaptool")
MODULES, PATIENCE, SECONDS = pathlib.Path("/usr/share/ceph/mgr"), 300.0, 120
CONF = """[global]
fsid = {fsid}
mon_host = [v2:127.0.0.1:{port}]
auth_cluster_required = {auth}
auth_service_required = {auth}
auth_client_required = {auth}
keyring = {folder}/keyring
run_dir = {folder}
admin_socket = {folder}/$name.$pid.asok
log_file = {folder}/$name.log
log_to_stderr = false
err_to_stderr = false
mon_cluster_log_file = {folder}/cluster.log
pid_file =
public_addr = 127.0.0.1
cluster_addr = 127.0.0.1
osd_pool_default_pg_autoscale_mode = off
[mon]
mgr_initial_modules = {modules}
mon_data = {folder}/mon
mon_max_pg_per_osd = 2000
mon_data_avail_crit = 1
mon_data_avail_warn = 1
mon_allow_pool_delete = true
[mgr]
mgr_data = {folder}/mgr
mgr_module_path = {folder}/modules
[osd]
osd_data = {folder}/osd$id
osd_objectstore = memstore
memstore_device_bytes = 1073741824
osd_heartbeat_grace = 90
osd_max_backfills = 1
osd_crush_initial_weight = 1.0
osd_mclock_override_recovery_settings = true
"""


def has_daemons() -> bool:
    """Whether Ceph's daemons are on this machine."""
    return all(shutil.which(name) is not None for name in DAEMONS)


class LiveCluster:
    """A cluster, which ends with the block; its manager has modules more, by the folders of these, and it may ask for
    keys.
    """

    def __init__(
        self, modules: Mapping[str, pathlib.Path] = MappingProxyType({}), disks: int = 2, has_keys: bool = False
    ) -> None:
        self.made = tempfile.TemporaryDirectory(prefix="rekhuso-live-")
        self.folder = pathlib.Path(self.made.name)
        self.conf, self.count = self.folder / "ceph.conf", 4 * disks
        self.has_keys = has_keys
        self.processes: dict[str, subprocess.Popen[bytes]] = {}
        own = CONF.format(fsid=uuid.uuid4(), port=free_port(), folder=self.folder, **self.words(modules))
        places = [f"[osd.{osd}]\ncrush_location = root=default host=h{osd // disks}\n" for osd in range(self.count)]
        self.conf.write_text(own + "".join(places))
        for name in ("mon", "mgr", *(f"osd{osd}" for osd in range(self.count))):
            (self.folder / name).mkdir()
        (self.folder / "modules").mkdir()
        for name, path in {**{path.name: path for path in MODULES.glob("*")}, **modules}.items():
            (self.folder / "modules" / name).symlink_to(path)

    def words(self, modules: Mapping[str, pathlib.Path]) -> dict[str, str]:
        """What the configuration says of modules and keys."""
        return {"modules": " ".join(modules), "auth": "cephx" if self.has_keys else "none"}

    def put_keys(self) -> list[object]:
        """Makes the keys of monitor, manager and administrator, where the cluster asks for some: the words of these."""
        path = self.folder / "keyring"
        rights = {"mon.": "mon", "client.admin": "mon mgr osd", "mgr.x": "mon mgr osd"}
        for name, own in rights.items() if self.has_keys else ():
            caps = [word for kind in own.split(" ") for word in ("--cap", kind, "allow *")]
            self.run("ceph-authtool", *([] if path.exists() else ["-C"]), path, "--gen-key", "-n", name, *caps)
        return ["--keyring", path] if self.has_keys else []

    def __enter__(self) -> LiveCluster:
        try:
            self.begin()
        except BaseException:
            self.__exit__()
            raise
        return self

    def __exit__(self, *_: object) -> None:
        for process in self.processes.values():
            process.kill()
        for process in self.processes.values():
            process.wait()
        shutil.rmtree(self.folder, ignore_errors=True)
        with contextlib.suppress(OSError):
            self.made.cleanup()

    def run(self, *words: object) -> str:
        """What a tool puts out; a failure of the test where it has failed."""
        done = subprocess.run(
            list(map(str, words)),
            capture_output=True,
            text=True,
            timeout=SECONDS,
            check=False,
            stdin=subprocess.DEVNULL,
        )
        assert done.returncode == 0, (words, done.stderr[-600:])
        return done.stdout

    def ceph(self, *words: object) -> str:
        """What `ceph` puts out."""
        return self.run("ceph", "-c", self.conf, "--connect-timeout", 60, *words)

    def json(self, *words: object) -> Json:
        """The same as JSON."""
        return json.loads(self.ceph(*words, "-f", "json"))

    def start(self, *words: str) -> None:
        """Starts a daemon, by its kind and its number."""
        self.processes[".".join(words)] = subprocess.Popen(
            [f"ceph-{words[0]}", "-f", "-i", words[1], "-c", str(self.conf)],
            stdin=subprocess.DEVNULL,
            stdout=subprocess.DEVNULL,
            stderr=subprocess.DEVNULL,
        )

    def begin(self) -> None:
        """Begins all daemons, and waits until all OSDs are up."""
        port = self.conf.read_text().partition("v2:127.0.0.1:")[2].partition("]")[0]
        fsid = self.conf.read_text().partition("fsid = ")[2].partition("\n")[0]
        monmap = self.folder / "monmap"
        self.run("monmaptool", "--create", "--fsid", fsid, "--addv", "a", f"[v2:127.0.0.1:{port}]", monmap)
        self.run("ceph-mon", "--mkfs", "-i", "a", "-c", self.conf, "--monmap", monmap, *self.put_keys())
        self.start("mon", "a")
        self.start("mgr", "x")
        for osd in range(self.count):
            own = str(uuid.uuid4())
            self.ceph("osd", "new", own)
            self.run("ceph-osd", "-i", osd, "--mkfs", "--osd-uuid", own, "-c", self.conf)
            self.start("osd", str(osd))
        self.until(lambda: bool(self.json("osd", "stat")["num_up_osds"] == self.count), "all OSDs are up")
        self.until(lambda: self.ceph("balancer", "off") == "", "the manager answers")
        self.ceph("osd", "set-require-min-compat-client", "luminous")

    def until(self, is_so: Callable[[], bool], what: str, seconds: float = PATIENCE) -> None:
        """Waits until something is so."""
        end = time.monotonic() + seconds
        while True:
            with contextlib.suppress(AssertionError):
                if is_so():
                    return
            assert time.monotonic() < end, f"not within {seconds} seconds: {what}"
            time.sleep(0.5)

    def pools(self, **groups: int) -> None:
        """Pools of so many groups, over OSDs of unequal weights."""
        for osd in range(0, self.count, 2):
            self.ceph("osd", "crush", "reweight", f"osd.{osd}", 2.0)
        for name, count in groups.items():
            self.ceph("osd", "pool", "create", name, count, count)
            self.ceph("osd", "pool", "application", "enable", name, "x")
        self.until(self.is_clean, "all groups are clean")

    def is_clean(self) -> bool:
        """Whether all groups are clean, and nothing is misplaced."""
        own = self.json("status")["pgmap"]
        states = [state["state_name"] for state in own.get("pgs_by_state", [])]
        return states == ["active+clean"] and not own.get("misplaced_objects")

    def pairs(self) -> dict[str, list[int]]:
        """The pairs of each group."""
        own = self.json("osd", "dump")["pg_upmap_items"]
        return {entry["pgid"]: [osd for pair in entry["mappings"] for osd in pair.values()] for entry in own}

    def kill(self, name: str) -> None:
        """Kills a daemon."""
        self.processes[name].kill()
        self.processes[name].wait()


def system_python() -> "str | None":
    """The Python of this system that has librados, if there is one."""
    python = "/usr/bin/python3"
    if not os.access(python, os.X_OK):
        return None
    done = subprocess.run([python, "-c", "import rados"], capture_output=True, check=False, timeout=SECONDS)
    return python if done.returncode == 0 else None
