"""A carrier as a service: looks in a loop, until a signal ends it, with lines for a log and a file of metrics."""

from __future__ import annotations

import contextlib
import gc
import os
import signal
import socket
import sys
import threading
import time
from types import FrameType

from ..files import put
from ..faults import Fault
from ..output.carry_metrics import carry_metrics
from .carrier import ALL_DONE, Carrier
from .lease import ANOTHER
from .patience import interrupt
from .states import STATUSES, CarrierState

# For how many seconds at most a carrier waits between two looks while a plan is carried; and which share of its time a
# look may take, so that a large cluster is not asked all the time.
SOON, SHARE = 5.0, 0.2
# The signals that end it behind its look, and the one that has it look at once.
ENDING, AT_ONCE = (signal.SIGTERM, signal.SIGINT, signal.SIGHUP), signal.SIGUSR1


def log_line(line: str) -> None:
    """Puts out a line of the log, with the time."""
    print(f"{time.strftime('%Y-%m-%dT%H:%M:%S%z')} {line}", file=sys.stderr, flush=True)


def notify(words: str) -> None:
    """Tells systemd something, where it has started this."""
    path = os.environ.get("NOTIFY_SOCKET")
    if path:
        with contextlib.suppress(OSError), socket.socket(socket.AF_UNIX, socket.SOCK_DGRAM) as own:
            own.sendto(words.encode(), f"\0{path[1:]}" if path.startswith("@") else path)


class Service:
    """A carrier that looks again and again."""

    def __init__(self, carrier: Carrier, interval: float, metrics: str | None) -> None:
        """Takes the carrier, the seconds between two looks, and the file of metrics, if there is one."""
        self.carrier, self.interval, self.metrics = carrier, interval, metrics
        self.woken, self.is_ending, self.seconds = threading.Event(), False, 0.0
        self.warned_of: CarrierState | None = None

    def end_by_signal(self, number: int, _: FrameType | None) -> None:
        """A signal has come: this ends behind its look, of which a judgement is ended at once; or it looks at once."""
        self.is_ending = self.is_ending or number != AT_ONCE
        self.woken.set()
        if number != AT_ONCE:
            interrupt()

    def look(self) -> CarrierState:
        """One look; where all of a plan is there, another one, which plans anew."""
        begun = time.monotonic()
        state = self.carrier.look()
        if state.code == ALL_DONE and state.state != "quiet" and not self.is_ending:
            state = self.carrier.look()
        self.seconds = time.monotonic() - begun
        self.tell(state)
        return state

    def tell(self, state: CarrierState) -> None:
        """Tells metrics, and a warning where a person is to look."""
        told = self.carrier.record.parts()
        if self.metrics is not None:
            try:
                put(self.metrics, carry_metrics(told, STATUSES))
            except Fault as fault:
                self.carrier.log(f"metrics are not told: {fault}")
        if told["warning"] and state != self.warned_of:
            self.carrier.log(f"WARNING: {state.state} since {time.ctime(self.carrier.record.since)}: {state.words}")
        self.warned_of = state if told["warning"] else None
        notify(f"STATUS={state.state}: {state.words}"[:400])

    def pause(self, state: CarrierState) -> float:
        """For how many seconds it waits behind a look."""
        is_soon = state.state == "carries" or state.state == "waits" and self.carrier.record.plan is not None
        least = self.seconds * (1 / SHARE - 1)
        return min(max(SOON, least), self.interval) if is_soon else self.interval

    def run(self, is_once: bool) -> CarrierState:
        """Looks once, or until it is ended, or another carrier is at work: the last state."""
        before = {number: signal.signal(number, self.end_by_signal) for number in (*ENDING, AT_ONCE)}
        gc.enable()
        try:
            self.carrier.begin()
            notify("READY=1")
            while True:
                state = self.look()
                if is_once or self.is_ending or state.code == ANOTHER:
                    return state
                self.woken.wait(self.pause(state))
                self.woken.clear()
                if self.is_ending:
                    return state
        finally:
            self.carrier.end()
            for number, own in before.items():
                signal.signal(number, own)
