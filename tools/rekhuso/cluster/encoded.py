"""Bytes as Ceph encodes values (encoding.h, 16.2 and 18.2): numbers from their lowest byte on, lists and texts behind
their lengths, and sections that tell by which version they are read and how long they are.
"""

from __future__ import annotations

import functools
import struct
from collections.abc import Callable
from typing import TypeVar

One = TypeVar("One")
Other = TypeVar("Other")
# The polynomial of CRC-32C, its lowest power first (RFC 3720, B.4).
CASTAGNOLI = 0x82F63B78


class Misread(Exception):
    """Bytes that end too early, or have what is not known here."""


class Encoded:
    """Bytes that are read from their beginning to their end."""

    def __init__(self, data: bytes) -> None:
        """Takes all bytes."""
        self.data, self.at = data, 0

    def take(self, count: int) -> bytes:
        """The next bytes, so many."""
        if count > len(self.data) - self.at:
            raise Misread("it is cut off")
        self.at += count
        return self.data[self.at - count : self.at]

    def number(self, count: int) -> int:
        """The next number, of so many bytes."""
        return int.from_bytes(self.take(count), "little")

    def byte(self) -> int:
        """The next number of 8 bits."""
        return self.number(1)

    def word(self) -> int:
        """The next number of 32 bits."""
        return self.number(4)

    def signed(self) -> int:
        """The next number of 32 bits that may be negative."""
        return int.from_bytes(self.take(4), "little", signed=True)

    def long(self) -> int:
        """The next number of 64 bits."""
        return self.number(8)

    def single(self) -> float:
        """The next number of a single's 32 bits."""
        found: float = struct.unpack("<f", self.take(4))[0]
        return found

    def text(self) -> str:
        """The next text."""
        return self.take(self.word()).decode("utf-8", "backslashreplace")

    def items(self, one: Callable[[], One]) -> list[One]:
        """The next list."""
        return [one() for _ in range(self.word())]

    def table(self, key: Callable[[], One], value: Callable[[], Other]) -> list[tuple[One, Other]]:
        """The next map, as the pairs that it has."""
        return [(key(), value()) for _ in range(self.word())]

    def texts(self) -> list[tuple[str, str]]:
        """The next map of texts."""
        return self.table(self.text, self.text)

    def section(self, known: int) -> tuple[int, Encoded]:
        """The next section: its version, and what is in it. Refused where a later version is wanted to read it."""
        version, least, size = self.byte(), self.byte(), self.word()
        if least > known:
            raise Misread(f"it is of a release that is not known here: a part of it wants version {least} to be read")
        return version, Encoded(self.take(size))

    def passed(self) -> None:
        """Passes the next section, whatever it has."""
        self.section(255)


@functools.lru_cache(maxsize=1)
def steps_by_byte() -> list[int]:
    """What each byte makes of a CRC."""
    found = []
    for value in range(256):
        for _ in range(8):
            value = value >> 1 ^ (CASTAGNOLI if value & 1 else 0)
        found.append(value)
    return found


def crc32c(data: bytes, found: int = 2**32 - 1) -> int:
    """The CRC of some bytes behind others, without the last turn of CRC-32C, as Ceph has it."""
    steps = steps_by_byte()
    for byte in data:
        found = steps[(found ^ byte) & 255] ^ found >> 8
    return found
