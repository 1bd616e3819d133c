"""The signals that end what gives to a cluster, in order: what is given by half is finished or taken back first."""

from __future__ import annotations

import contextlib
import signal
from collections.abc import Iterator

from ..together import SIGNALS, Ended


class GiverSignals:
    """Signals that are noted, and that end what is given only where that is said."""

    def __init__(self) -> None:
        """Has come none."""
        self.has_come, self.is_ending = False, False

    def note(self, number: int, _: object) -> None:
        """Notes a signal. The first one ends what may be ended."""
        self.has_come = True
        if self.is_ending:
            self.is_ending = False
            raise Ended(number)

    def take(self) -> None:
        """From now on signals come here, but for those that are ignored already."""
        for number in SIGNALS:
            if signal.getsignal(number) is not signal.SIG_IGN:
                signal.signal(number, self.note)

    @contextlib.contextmanager
    def ending(self) -> Iterator[None]:
        """Has a signal end what is done here; also one that came before."""
        self.is_ending = True
        try:
            if self.has_come:
                raise Ended(signal.SIGTERM)
            yield
        finally:
            self.is_ending = False
