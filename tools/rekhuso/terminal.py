"""Standard streams: what cannot be put out is told as that. On a terminal a sign that it would obey, as a name may have
it, is shown and not sent.
"""

from __future__ import annotations

import io
import os
import re
from typing import Any, TextIO

# Streams in whose place others stand.
KEPT: list[TextIO] = []
# Where a name would end its line.
BREAKS = re.compile("[\n\r\v\f\x1c-\x1e\x85\u2028\u2029]")


def shown_sign(sign: str) -> str:
    """A sign as Python writes it where it is none that is printed; what ends a line or sets columns stays."""
    return sign if sign.isprintable() or sign in "\n\t" else sign.encode("unicode_escape").decode()


def in_one_line(name: str) -> str:
    """A name in which nothing ends a line."""
    return BREAKS.sub(lambda found: found[0].encode("unicode_escape").decode(), name)


class Shown(io.TextIOWrapper):
    """A stream on which every sign is printed, where it goes to a terminal."""

    is_terminal = True

    def write(self, text: str) -> int:
        """Writes a text so."""
        if self.is_terminal and not text.replace("\n", "").isprintable():
            text = "".join(map(shown_sign, text))
        return super().write(text)


def shown(stream: TextIO) -> TextIO:
    """A stream in place of another, where that goes to a terminal."""
    if not isinstance(stream, io.TextIOWrapper) or not stream.isatty():
        return stream
    by_line, errors = stream.line_buffering, stream.errors
    return Shown(stream.detach(), encoding="utf-8", errors=errors, line_buffering=by_line)


class Named(io.FileIO):
    """Standard output, whose faults say that they are of it."""

    def write(self, data: Any) -> int:
        """Writes bytes. OSError with the name of the output where it cannot."""
        try:
            return super().write(data)
        except OSError as fault:
            raise OSError(fault.errno, fault.strerror, "output") from None


class Quiet(io.FileIO):
    """Standard error: where it cannot be written nothing is told, and what is put out is whole all the same."""

    def write(self, data: Any) -> int:
        """Writes bytes, or drops them."""
        try:
            return super().write(data)
        except OSError:
            return len(data)


def over(stream: TextIO, kind: type[io.FileIO]) -> TextIO:
    """A stream in place of another over the same file, by a kind of files; the other one where it has no file."""
    if not isinstance(stream, io.TextIOWrapper):
        return stream
    by_line, errors = stream.line_buffering, stream.errors
    # The other stream stays open, as the file is also its own.
    KEPT.append(stream)
    raw = kind(stream.fileno(), "w", closefd=False)
    return io.TextIOWrapper(io.BufferedWriter(raw), encoding="utf-8", errors=errors, line_buffering=by_line)


def columns_of(stream: TextIO) -> int:
    """So many columns has the terminal to which a stream goes; 0 where it goes to none, or to one that may not show
    what is beyond ASCII.
    """
    words = [os.environ.get(name, "") for name in ("LC_ALL", "LC_CTYPE", "LANG")]
    is_wide = "utf" in next(filter(None, words), "").lower()
    try:
        is_shown = stream.isatty() and is_wide and os.environ.get("TERM") != "dumb"
        return os.get_terminal_size(stream.fileno()).columns if is_shown else 0
    except (OSError, ValueError):
        return 0


def named_output(stream: TextIO) -> TextIO:
    """Standard output whose faults say that they are of it."""
    return over(stream, Named)


def quiet_errors(stream: TextIO) -> TextIO:
    """Standard error that fails at nothing."""
    return over(stream, Quiet)
