"""One lock for a cluster: who gives to it. It is kept by the cluster's monitors, so that all givers see it.

A monitor has no command that writes a key only where it is not there. So each giver writes a claim of its own and then
reads all claims: the later of two sees both, and goes back. Where both begin at one moment both may go back; they try
again after times of their own. A claim says until when it holds, and is renewed meanwhile. One whose time is over, and
that is not renewed while it is looked at, is that of a giver that has ended, and is taken away; one of a process of
this machine that is gone, at once.
"""

from __future__ import annotations

import contextlib
import datetime
import json
import os
import random
import socket
import threading
import time
import uuid
from dataclasses import asdict, dataclass, replace

from ..faults import Fault, Wait
from ..together import CLAIMS, Stop
from ..values import SLOTS
from .connections import Connection
from .own_process import began, is_gone, place

# For how long a claim holds, how often it is renewed, and for how long one that is over is looked at, in seconds.
HOLDS, RENEWED, LOOKED = 120.0, 20.0, 45.0
# How often it is tried beside givers that begin at the same moment, and how long it then takes at most, in seconds.
TRIES, LONGEST = 6, 1.5


@dataclass(frozen=True, **SLOTS)
class Claim:
    """Who gives: the host, the process, when it began, and what it gives; until when the claim holds; how often it was
    renewed; whether the giver has seen that there is no other; and where the process is, and when it began there.
    """

    host: str
    process: int
    start: str
    what: str
    until: float
    renewals: int = 0
    is_held: bool = False
    place: str = ""
    began: str = ""

    def words(self) -> str:
        """Who it is, in one phrase."""
        return f"another giver is at work: process {self.process} of {self.host}, since {self.start}, gives {self.what}"


def claim_in(text: str) -> Claim:
    """The claim of a text; one of another form holds for ever, and nobody knows whose it is."""
    try:
        return Claim(**json.loads(text))
    except (ValueError, TypeError):
        return Claim("an unknown host", 0, "an unknown time", "something", float("inf"), 0, True)


class GiverLock:
    """The lock of a cluster, for one giver."""

    def __init__(self, connection: Connection, what: str) -> None:
        """Takes the connection, and what is given."""
        self.connection, self.key = connection, f"{CLAIMS}{uuid.uuid4().hex}"
        start = datetime.datetime.now(datetime.timezone.utc).strftime("%Y-%m-%d %H:%M:%S UTC")
        process = os.getpid()
        self.own = Claim(socket.gethostname(), process, start, what, 0.0, place=place(), began=began(process))
        self.is_over = threading.Event()
        self.renewer = threading.Thread(target=self.renew, daemon=True)

    def claims(self) -> dict[str, Claim]:
        """All claims, by their keys."""
        return {key: claim_in(own) for key, own in self.connection.json("config-key dump", key=CLAIMS).items()}

    def write(self, is_held: bool) -> None:
        """Writes the claim anew."""
        until, renewals = time.time() + HOLDS, self.own.renewals + 1
        self.own = replace(self.own, until=until, renewals=renewals, is_held=is_held)
        self.connection.ask({"prefix": "config-key set", "key": self.key, "val": json.dumps(asdict(self.own))})

    def drop(self, key: str) -> None:
        """Takes a claim away."""
        self.connection.ask({"prefix": "config-key rm", "key": key})

    def others(self) -> dict[str, Claim]:
        """The claims of others, without those of processes of this machine that are gone, which are taken away."""
        found = {key: own for key, own in self.claims().items() if key != self.key}
        gone = [key for key, own in found.items() if is_gone(own.place, own.process, own.began)]
        for key in gone:
            self.drop(key)
            del found[key]
        return found

    def end_dead(self, found: dict[str, Claim]) -> None:
        """Takes claims away whose time is over, and that are not renewed while they are looked at."""
        over = {key: own for key, own in found.items() if own.until < time.time()}
        until = time.monotonic() + LOOKED
        while over and time.monotonic() < until:
            time.sleep(1)
            over = {key: own for key, own in self.others().items() if over.get(key) == own}
        for key in over:
            self.drop(key)

    def take(self) -> None:
        """Takes the lock. A fault where another giver has it, by who that is."""
        for attempt in range(TRIES):
            self.write(False)
            found = self.others()
            if not found:
                self.write(True)
                self.renewer.start()
                return
            self.drop(self.key)
            held = [own for own in found.values() if own.is_held and own.until >= time.time()]
            if held or attempt == TRIES - 1:
                raise Wait(f"{(held or list(found.values()))[0].words()}: nothing is given")
            self.end_dead(found)
            time.sleep(random.uniform(0, LONGEST))

    def renew(self) -> None:
        """Renews the claim until the work is over."""
        while not self.is_over.wait(RENEWED):
            with contextlib.suppress(Stop):
                if self.key in self.claims():
                    self.write(True)

    def check(self) -> None:
        """A fault where the claim is gone, as where nobody could renew it in time and another giver came."""
        if self.key not in self.claims():
            raise Fault("the lock is lost: it was not renewed in time, as where no monitor answers")

    def leave(self) -> str:
        """Gives the lock back; what is told where that is refused."""
        self.is_over.set()
        try:
            if self.renewer.is_alive():
                self.renewer.join()
            self.drop(self.key)
        except Stop as fault:
            return f"the lock of this giver stays for {HOLDS:.0f} s: {fault}"
        return ""
