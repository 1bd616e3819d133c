"""English words for lists, counts, shares and sizes."""

from __future__ import annotations

import html
import re


def listed(words: list[str]) -> str:
    """Words as English lists them."""
    return words[0] if len(words) == 1 else ", ".join(words[:-1]) + " and " + words[-1]


def some(words: list[str], most: int = 8) -> str:
    """The same, but of many the first only."""
    return listed(words) if len(words) <= most else ", ".join(words[:most]) + f" and {len(words) - most} more"


def share_words(share: float) -> str:
    """A share of all data in percent; none is told as below 0 that is rounded to 0."""
    return f"{round(100 * share, 2) + 0.0:.2f} %"


def counted(count: float, word: str) -> str:
    """A number of things."""
    return f"{count} {word}{'s' * (count != 1)}"


UNITS = ("B", "KiB", "MiB", "GiB", "TiB", "PiB", "EiB")


def size_words(size: float) -> str:
    """A number of bytes, as `1.2 GiB`."""
    at = 0
    while size >= 1023.95 and at < len(UNITS) - 1:
        size, at = size / 1024, at + 1
    return f"{size:.1f} {UNITS[at]}" if at else f"{size:.0f} B"


# Signs that stand in no page and no picture: XML 1.0, 2.2.
NO_SIGNS = re.compile("[\x00-\x08\x0b\x0c\x0e-\x1f\x7f-\x9f\ud800-\udfff\ufffe\uffff]")


def escaped(text: str) -> str:
    """A text as a page or a picture has it; signs that neither may have are replaced."""
    return html.escape(NO_SIGNS.sub("\ufffd", text))
