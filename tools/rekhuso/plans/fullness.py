"""How full OSDs are by bytes, beside what each is to have."""

from __future__ import annotations

from collections.abc import Mapping

from ..cluster.pool_data import BYTE_PARTS


class Fullness:
    """What OSDs have, and what they are to have, in parts of a byte."""

    def __init__(self, want: Mapping[int, float]) -> None:
        """Of OSDs that have nothing yet, and are to have so many bytes."""
        self.want = {osd: own * BYTE_PARTS for osd, own in want.items()}
        self.load = dict.fromkeys(want, 0)
        self.wanting = [osd for osd, own in self.want.items() if own > 0]

    def add(self, load: Mapping[int, int]) -> None:
        """OSDs have so much more; those alone count that are to have something."""
        for osd, more in load.items():
            if osd in self.load:
                self.load[osd] += more

    def ratio(self, osd: int) -> float:
        """How many times what it is to have an OSD has."""
        return self.load[osd] / self.want[osd]

    def fullest(self) -> float:
        """The greatest ratio; 0 where no OSD is to have anything."""
        return max(map(self.ratio, self.wanting), default=0.0)

    def osds(self) -> list[int]:
        """The OSDs that are to have something."""
        return self.wanting

    def move(self, leaves: int, comes: int, size: int) -> None:
        """So much goes from an OSD to another."""
        self.load[leaves] -= size
        self.load[comes] += size

    def gain(self, full: int, osd: int, size: float) -> float:
        """By how much the sum of want * (ratio - 1) ** 2 falls where so much goes from an OSD to another; 0 where the
        other would be as full then.
        """
        has, own, low, other = self.load[full], self.want[full], self.load[osd], self.want[osd]
        if size <= 0 or (low + size) * own >= has * other:
            return 0.0
        return size * (2 * (has / own - low / other) - size * (1 / own + 1 / other))

    def best_size(self, full: int, osd: int) -> float:
        """By how much going from an OSD to another most is gained."""
        return (self.ratio(full) - self.ratio(osd)) / self.slope(full, osd)

    def slope(self, full: int, osd: int) -> float:
        """By how much the ratios of two OSDs get nearer for each part of a byte that goes from one to the other."""
        return 1 / self.want[full] + 1 / self.want[osd]
