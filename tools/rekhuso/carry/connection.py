"""A connection to a cluster: what is asked of its monitors and its manager, and commands that are given at once.

It goes by librados' Python where that is there (Debian: python3-rados), and else by the command `ceph`.
"""

from __future__ import annotations

import importlib
import json
import shutil
import subprocess
from abc import ABC, abstractmethod
from collections.abc import Mapping, Sequence
from concurrent.futures import ThreadPoolExecutor
from dataclasses import dataclass
from typing import Any, Dict

from ..faults import Fault, Trouble
from ..values import SLOTS
from .states import NoAnswer

# How long an answer may take, in seconds; and the errors of a cluster that has nothing of a name, that is gone, and
# that takes too long.
PATIENCE = 60
MISSING, GONE = 2, (107, 110)
MonCommand = Mapping[str, object]
Answered = Dict[str, Any]


@dataclass(frozen=True, **SLOTS)
class Reply:
    """What came of a command: its status, 0 where it is taken; what it puts out; and what is said of it."""

    status: int
    output: bytes
    words: str


class CarryConnection(ABC):
    """A connection to a cluster."""

    # How many commands are under way at once.
    at_once = 256

    @abstractmethod
    def reply(self, asked: MonCommand, is_of_manager: bool = False) -> Reply:
        """What the monitors, or the manager, reply to a command. NoAnswer where they do not."""

    @abstractmethod
    def close(self) -> None:
        """Ends it."""

    def ask(self, prefix: str, is_of_manager: bool = False, **words: object) -> Answered:
        """The answer to a question as JSON. A fault where it is refused, and NoAnswer where none comes."""
        found = self.reply({"prefix": prefix, **words, "format": "json"}, is_of_manager)
        if found.status:
            raise refusal(prefix, found)
        try:
            value: Answered = json.loads(found.output)
        except ValueError:
            raise NoAnswer(f"{prefix}: no JSON is answered") from None
        return value

    def give(self, commands: Sequence[MonCommand]) -> list[Reply]:
        """Gives commands at once: what came of each."""
        with ThreadPoolExecutor(max(1, min(len(commands), self.at_once))) as threads:
            return list(threads.map(self.outcome, commands))

    def outcome(self, command: MonCommand) -> Reply:
        """What came of a command, also where that is not known."""
        try:
            return self.reply(command)
        except NoAnswer as fault:
            return Reply(-GONE[1], b"", str(fault))


def refusal(prefix: str, found: Reply) -> Fault:
    """That a question is refused, or not answered."""
    words = f"{prefix}: {' '.join(found.words.split()) or 'no reason'} (status {found.status})"
    return NoAnswer(words) if abs(found.status) in GONE else Fault(words)


class ByRados(CarryConnection):
    """A connection by librados."""

    def __init__(self, rados: Any, own: Any) -> None:
        """Takes the module of librados and an open connection."""
        self.rados, self.own = rados, own

    def reply(self, asked: MonCommand, is_of_manager: bool = False) -> Reply:
        """What the monitors, or the manager, reply."""
        call = self.own.mgr_command if is_of_manager else self.own.mon_command
        try:
            status, output, words = call(json.dumps(asked), b"", timeout=PATIENCE)
        except self.rados.Error as fault:
            raise NoAnswer(f"{asked['prefix']}: {fault}") from None
        if abs(status) in GONE:
            raise NoAnswer(f"{asked['prefix']}: {words or 'no answer'} (status {status})")
        return Reply(status, bytes(output), str(words))

    def close(self) -> None:
        """Ends the connection."""
        self.own.shutdown()


class ByCommand(CarryConnection):
    """A connection by the command `ceph`, which is run for each question."""

    at_once = 16

    def __init__(self, words: Sequence[str]) -> None:
        """Takes the command with what finds the cluster."""
        self.words = [*words, f"--connect-timeout={PATIENCE}"]

    def reply(self, asked: MonCommand, is_of_manager: bool = False) -> Reply:
        """What the cluster replies; words stand in the order in which `ceph` takes them."""
        values = [own for key, own in asked.items() if key not in ("prefix", "format")]
        several = [str(one) for own in values for one in (own if isinstance(own, (list, tuple)) else [own])]
        words = [*self.words, *str(asked["prefix"]).split(" "), *several, "-f", "json"]
        null = subprocess.DEVNULL
        try:
            done = subprocess.run(words, stdin=null, capture_output=True, timeout=2 * PATIENCE, check=False)
        except (OSError, subprocess.TimeoutExpired) as fault:
            raise NoAnswer(f"{asked['prefix']}: {fault}") from None
        told = done.stderr.decode("utf-8", "replace").strip()
        if done.returncode and "Error E" not in told:
            raise NoAnswer(f"{asked['prefix']}: {told[-300:] or 'no answer'}")
        return Reply(MISSING if "ENOENT" in told else done.returncode, done.stdout, told)

    def close(self) -> None:
        """Ends nothing: each question has had a connection of its own."""


def connected(conf: str, name: str, keyring: str | None) -> CarryConnection:
    """A connection to the cluster of a configuration, by the name and the keys of a client. A fault where there is
    none.
    """
    own = {} if keyring is None else {"keyring": keyring}
    try:
        rados = importlib.import_module("rados")
    except ImportError:
        return by_command(conf, name, keyring)
    try:
        found = rados.Rados(conffile=conf, name=name, conf={**own, "rados_mon_op_timeout": str(PATIENCE)})
        found.connect(timeout=PATIENCE)
    except (rados.Error, OSError) as fault:
        raise NoAnswer(f"{conf}: no connection to a cluster: {fault}") from None
    return ByRados(rados, found)


def by_command(conf: str, name: str, keyring: str | None) -> CarryConnection:
    """The same by the command `ceph`."""
    ceph = shutil.which("ceph")
    if ceph is None:
        raise Trouble("neither librados' Python (Debian: python3-rados) nor the command `ceph` is there")
    keys = [] if keyring is None else ["--keyring", keyring]
    return ByCommand([ceph, "-c", conf, "--name", name, *keys])
