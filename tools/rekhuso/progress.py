"""What a long command does, told on a terminal: after two seconds, in one line of standard error that other output
takes the place of.
"""

from __future__ import annotations

import contextlib
import io
import os
import sys
import threading
import time
from typing import TextIO

from .running import Run
from .terminal import Shown

# Seconds until a command is a long one, and between two looks at what it does.
LONG, TICK = 2.0, 0.5


def columns() -> int:
    """So many signs have room in a line of the terminal."""
    try:
        return os.get_terminal_size(2).columns or 80
    except OSError:
        return 80


class Progress:
    """What a command does at present, and whether that stands on the terminal."""

    def __init__(self, run: Run) -> None:
        """Tells nothing of a run until it is begun."""
        self.run, self.command, self.is_shown = run, "", False
        self.since, self.lock, self.ended = 0.0, threading.Lock(), threading.Event()

    def begin(self, command: str) -> None:
        """Begins to tell what a command does, on a terminal alone."""
        self.command, self.since = command, time.monotonic()
        self.ended.clear()
        sys.stdout, sys.stderr = (erasing(stream, self) for stream in (sys.stdout, sys.stderr))
        threading.Thread(target=self.tell, daemon=True).start()

    def tell(self) -> None:
        """Tells it from time to time, until the command ends."""
        while not self.ended.wait(TICK):
            seconds = time.monotonic() - self.since
            if seconds >= LONG:
                with self.lock:
                    line = f"{self.command}: {self.run.doing or 'at work'}, {seconds:.0f} s"
                    self.put(f"\r{line[: columns() - 1]}\x1b[K")
                    self.is_shown = True

    def put(self, text: str) -> None:
        """Puts text on the terminal, past all that holds output back; nothing where the terminal is gone."""
        with contextlib.suppress(OSError):
            os.write(2, text.encode())

    def erase(self) -> None:
        """Takes the line away, where it stands there."""
        with self.lock:
            if self.is_shown:
                self.put("\r\x1b[K")
                self.is_shown = False

    def end(self) -> None:
        """The command has ended."""
        self.ended.set()
        self.erase()


class Erasing(Shown):
    """A stream before whose output the line of a progress is taken away."""

    progress: Progress | None = None

    def write(self, text: str) -> int:
        """Writes a text in place of the line."""
        if self.progress is not None:
            self.progress.erase()
        return super().write(text)


def erasing(stream: TextIO, progress: Progress) -> TextIO:
    """A stream like another, which it takes the place of."""
    if not isinstance(stream, io.TextIOWrapper):
        return stream
    is_by_line, errors, is_terminal = stream.line_buffering, stream.errors, stream.isatty()
    found = Erasing(stream.detach(), encoding="utf-8", errors=errors, line_buffering=is_by_line)
    found.progress, found.is_terminal = progress, is_terminal
    return found
