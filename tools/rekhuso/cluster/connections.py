"""Connections to a cluster: by librados' Python where this Python has it, else by the `ceph` command, which is one
process for each question.
"""

from __future__ import annotations

import importlib.util
import json
import os
import pathlib
import shutil
import subprocess
import sys
import threading

from .. import together
from ..faults import Trouble
from ..files import JsonObject
from ..together import PATIENCE, Stop, Words

# The Python for which the system's packages are, and what it is asked: whether it has librados and runs these tools.
SYSTEM = "/usr/bin/python3"
ASKED = "import sys, rados; sys.exit(sys.version_info < (3, 9))"
# Where a cluster's configuration stands, unless another is named.
CONF = "/etc/ceph/ceph.conf"
# The status of a command that has no answer in time (ETIMEDOUT), and what is told of it.
LATE, NO_ANSWER = 110, f"no answer within {PATIENCE} s"
Answer = tuple[int, bytes, str]


def typed(words: Words) -> list[str]:
    """A command as `ceph` takes it, by its words as a monitor takes them."""
    found = str(words["prefix"]).split(" ")
    for key, own in words.items():
        if key not in ("prefix", "format"):
            found += map(str, own) if isinstance(own, list) else [str(own)]
    return found + (["--format", str(words["format"])] if "format" in words else [])


class CephCommand:
    """What librados' Python does, by the `ceph` command."""

    def __init__(self, conf: str) -> None:
        """Takes the configuration by which the cluster is found."""
        self.conf = conf

    def mon_command(self, text: str, body: bytes, timeout: int, target: str | None = None) -> Answer:
        """The status, the answer and the reason of a command."""
        to = [] if target is None else ["tell", f"mon.{target}"]
        words = ["ceph", "-c", self.conf, *to, *typed(json.loads(text)), *(["-i", "-"] if body else [])]
        try:
            done = subprocess.run(words, input=body, capture_output=True, timeout=timeout, check=False)
        except subprocess.TimeoutExpired:
            return -LATE, b"", NO_ANSWER
        return -done.returncode, done.stdout, done.stderr.decode(errors="replace").strip().replace("\n", "; ")

    def mgr_command(self, text: str, body: bytes) -> Answer:
        """The same of a command to the manager, which `ceph` finds by itself."""
        return self.mon_command(text, body, PATIENCE)

    def shutdown(self) -> None:
        """Ends the connection, which is none."""


class Connection(together.ConnectedCluster):
    """An open connection to a cluster, whose manager is asked too where there is one."""

    def has_manager(self) -> bool:
        """Whether a manager is there that answers."""
        return bool(self.json("mgr stat").get("available"))

    def manager(self, words: Words) -> bytes:
        """The answer of the manager. A Stop where that refuses, or does not answer in time."""
        found: list[Answer] = []
        own = threading.Thread(target=lambda: found.append(self.rados.mgr_command(json.dumps(words), b"")), daemon=True)
        own.start()
        own.join(PATIENCE)
        status, answer, why = found[0] if found else (-LATE, b"", NO_ANSWER)
        if status:
            raise Stop(f"{words['prefix']}: refused: {str(why).strip() or 'no reason'} (status {status})")
        return bytes(answer)

    def told(self, prefix: str) -> str:
        """The answer to a question as it is printed for people."""
        return self.ask({"prefix": prefix}).decode(errors="replace")

    def groups(self) -> list[JsonObject]:
        """What the manager tells of each group."""
        found = json.loads(self.manager({"prefix": "pg dump", "format": "json"}))
        stats: list[JsonObject] = found.get("pg_map", found)["pg_stats"]
        return stats


def go_on_where_librados_is() -> None:
    """Goes on with this command in the system's Python, where that has librados and this one has not."""
    if importlib.util.find_spec("rados") is not None or not os.access(SYSTEM, os.X_OK):
        return
    if os.path.realpath(SYSTEM) == os.path.realpath(sys.executable):
        return
    if subprocess.run([SYSTEM, "-c", ASKED], capture_output=True, check=False).returncode == 0:
        os.execv(SYSTEM, [SYSTEM, "-B", str(pathlib.Path(together.__file__).parent), *sys.argv[1:]])


def connection(conf: str) -> Connection:
    """An open connection to the cluster of a configuration. A Stop where there is none."""
    if importlib.util.find_spec("rados") is not None:
        return Connection(together.connected(conf))
    if shutil.which("ceph") is None:
        raise Trouble("neither librados' Python (Debian: python3-rados) nor the `ceph` command is there")
    return Connection(CephCommand(conf))
