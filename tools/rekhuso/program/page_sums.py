"""The sums in which the pages of a database may end, those of SQLite's extension `cksumvfs`."""

from __future__ import annotations

import struct
from operator import mul
from typing import IO

# The bytes of a sum, and of the header of a database.
SUM, HEADER = 8, 100
# Where a database has the bytes by which it is locked: the page round it holds nothing.
LOCK = 1 << 30


def weights_of(count: int) -> list[int]:
    """How often each of so many words, and one behind them, counts in the last of their running sums, in which each sum
    is the two before it and its word.
    """
    found = [0, 1]
    while len(found) <= count:
        found.append((found[-2] + found[-1]) % 2**32)
    return found[::-1]


def sum_of(page: bytes, weights: list[int]) -> bytes:
    """The sum of a page: the last two running sums of its words, its own sum aside."""
    words = struct.unpack(f"<{len(weights) - 1}I", page[:-SUM])
    last = sum(map(mul, words, weights)), sum(map(mul, words, weights[1:]))
    return struct.pack("<II", last[1] % 2**32, last[0] % 2**32)


def wrong_page(file: IO[bytes]) -> int | None:
    """The number of the first page of a database, from 1 on, whose sum is wrong; None where no sum is, or pages have
    none.
    """
    header = file.read(HEADER)
    if len(header) < HEADER or header[20] != SUM:
        return None
    size = 65536 if header[16:18] == b"\0\1" else int.from_bytes(header[16:18], "big")
    weights = weights_of((size - SUM) // 4)
    file.seek(0)
    for number, page in enumerate(iter(lambda: file.read(size), b""), 1):
        is_whole = len(page) == size and sum_of(page, weights) == page[-SUM:]
        if not is_whole and number != LOCK // size + 1:
            return number
    return None
