"""A cluster of the tests' own for `together.py`, in the form of librados' Python: it gathers what it is told into maps
as a monitor does, and refuses what it is told to.
"""

from __future__ import annotations

import contextlib
import json
import threading
import time
from collections.abc import Iterator
from types import SimpleNamespace
from typing import Any
from unittest import mock

from rekhuso import together

from tests.clusters import Json, copied

# How long the monitor gathers behind the last that has come, where its interval is a long one, and where it is its
# own, in seconds.
LONG, OWN = 20, 0.01
# What the leading monitor has before.
SETTINGS = {together.INTERVAL: "0.5", together.LEAST: "0.05"}
# The words that make a map.
WRITES = ("osd set", "osd unset", "osd setcrushmap", "osd pg-upmap", "osd rm-pg-upmap")


class World:
    """A cluster: its OSDMap, the CRUSH maps that it knows, by their bytes, and what it is to have so that each group is
    where it was: exceptions by the CRUSH map.
    """

    def __init__(self, dump: Json, maps: dict[bytes, Json], crush: bytes, home: dict[bytes, Json]) -> None:
        self.dump, self.maps, self.crush, self.home = copied(dump), maps, crush, home
        self.settings, self.given = dict(SETTINGS), list[Json]()
        # Whether it tells what it has taken, as monitors do from Ceph 15 on; and who decides.
        self.tells, self.quorum = True, ["a", "b", "c"]
        # What is refused, by its words: all that it says, or from which time on.
        self.refused = dict[str, tuple[int, int]]()
        self.pending, self.lock, self.made, self.came = list[tuple[str, Any]](), threading.Condition(), 0, 0.0
        self.thread = threading.Thread(target=self.make_maps, daemon=True)
        self.is_over = False
        self.thread.start()

    def end(self) -> None:
        """Ends what makes maps."""
        with self.lock:
            self.is_over = True
            self.lock.notify_all()
        self.thread.join(10)

    def make_maps(self) -> None:
        """Makes a map of what was gathered for some time."""
        while True:
            with self.lock:
                self.lock.wait_for(lambda: self.is_over or self.pending, 60)
                if self.is_over:
                    return
                self.gather()
                for _, own in self.pending:
                    own()
                self.pending, self.made = [], self.made + 1
                self.dump["epoch"] += 1
                self.lock.notify_all()

    def gather(self) -> None:
        """Waits until nothing more has come for some time, however late a busy machine brings what belongs together."""
        while not self.is_over:
            seconds = LONG if float(self.settings[together.INTERVAL]) > 1 else OWN
            left = self.came + seconds - time.monotonic()
            if left <= 0:
                return
            self.lock.wait(left)

    def exceptions(self, group: str) -> Any:
        """The exceptions of a group."""
        return [
            [own for own in self.dump.get(key, []) if own["pgid"] == group] for key in ("pg_upmap", "pg_upmap_items")
        ]

    def set_of(self, group: str) -> list[int]:
        """Where a group is: at home where it has what it is to have there, and else elsewhere."""
        home = self.home[self.crush]
        is_home = self.exceptions(group) == home["exceptions"].get(group, [[], []])
        # A pool may have got groups, of which nothing is known.
        places: list[int] = home["sets"].get(group, [0, 2, 4])
        return places if is_home else [osd ^ 1 for osd in places]

    def written(self, words: Json, body: bytes) -> Any:
        """What a command makes of the map."""

        def made() -> None:
            prefix = words["prefix"]
            if prefix == "osd setcrushmap":
                self.crush = body
                self.dump["crush_version"] += 1
            elif prefix in ("osd set", "osd unset"):
                flags = [own for own in self.dump["flags"].split(",") if own != words["key"]]
                self.dump["flags"] = ",".join(flags + [words["key"]] * (prefix == "osd set"))
            else:
                key = "pg_upmap_items" if prefix.endswith("-items") else "pg_upmap"
                own = [entry for entry in self.dump.get(key, []) if entry["pgid"] != words["pgid"]]
                osds = words.get("id", [])
                pairs = [{"from": was, "to": now} for was, now in zip(osds[::2], osds[1::2])]
                entry = {"mappings": pairs} if key == "pg_upmap_items" else {"osds": osds}
                self.dump[key] = own + [{"pgid": words["pgid"], **entry}] * ("id" in words)

        return made

    def answer(self, words: Json) -> object:
        """The answer to a question."""
        prefix = words["prefix"]
        if prefix == "pg map":
            return {"up": self.set_of(words["pgid"])}
        if prefix == "config set":
            self.settings[words["var"]] = words["val"][0]
            self.lock.notify_all()
        events = [{"event": "osdmap:wait_for_finished_proposal"}]
        taken = [{"description": f"mon_command({own} v 0)", "type_data": {"events": events}} for own, _ in self.pending]
        answers = {
            "quorum_status": {"quorum_leader_name": "b", "quorum_names": self.quorum},
            "osd dump": self.dump,
            "config-key dump": {},
            "osd crush dump": self.maps[self.crush],
            "config get": {words.get("var"): self.settings.get(words.get("var", ""))},
            "ops": {"ops": taken},
        }
        return answers.get(prefix, "")

    def mon_command(self, text: str, body: bytes, timeout: int, target: "str | None" = None) -> tuple[int, bytes, str]:
        """The status, the answer and the reason of a command."""
        words = json.loads(text)
        prefix = words["prefix"]
        with self.lock:
            self.given.append({**words, "target": target})
            count = sum(own["prefix"] == prefix for own in self.given)
            first, last = self.refused.get(prefix, (0, -1))
            if first <= count <= last:
                return -22, b"", "not today"
            if prefix == "osd getcrushmap":
                return 0, self.crush, ""
            if prefix == "ops" and not self.tells:
                return -22, b"", "command not known"
            if not prefix.startswith(WRITES):
                return 0, json.dumps(self.answer(words)).encode(), ""
            self.pending.append((text, self.written(words, body)))
            self.came = time.monotonic()
            made = self.made
            self.lock.notify_all()
            self.lock.wait_for(lambda: self.made > made or self.is_over, 30)
        return 0, b"", ""

    def conf_set(self, *_: str) -> None:
        """Takes an option."""

    def connect(self, **_: int) -> None:
        """Connects."""

    def shutdown(self) -> None:
        """Ends the connection."""


@contextlib.contextmanager
def joined(world: World) -> Iterator[None]:
    """Has `together` find a cluster, wait for refusals less long, and leave the signals of this process alone."""
    rados = SimpleNamespace(Error=OSError, Rados=lambda conffile: world)
    with mock.patch.dict("sys.modules", rados=rados), mock.patch.object(together, "PAUSE", 0.05):
        with mock.patch.object(together, "hold_back_signals"), mock.patch.object(together, "take_signals"):
            try:
                yield
            finally:
                world.end()
