"""The releases of Ceph by their names, which a dump tells, and which of them know upmap and named primaries."""

from __future__ import annotations

from .dump_types import OsdDump

# In their order.
RELEASES = (
    *("argonaut", "bobtail", "cuttlefish", "dumpling", "emperor", "firefly", "giant", "hammer", "infernalis"),
    *("jewel", "kraken", "luminous", "mimic", "nautilus", "octopus", "pacific", "quincy", "reef", "squid", "tentacle"),
)
# The first one whose clients know upmap.
UPMAP = "luminous"
# The first one whose clients know primaries that are named for groups, and whose monitors take them.
PRIMARIES = "reef"


def least_client(dump: OsdDump) -> str | None:
    """The release that clients must have at least; None where the dump does not tell it."""
    found = dump.get("require_min_compat_client")
    return found if isinstance(found, str) else None


def osd_release(dump: OsdDump) -> str | None:
    """The release that OSDs must have at least, and so all of the cluster has; None where the dump does not tell it."""
    found = dump.get("require_osd_release")
    return found if isinstance(found, str) else None


def knows_upmap(release: str) -> bool:
    """Whether clients of a release know upmap; those of one that is not known here are taken to be older."""
    return release in RELEASES and RELEASES.index(release) >= RELEASES.index(UPMAP)


def knows_primaries(release: str | None) -> bool:
    """The same of primaries that are named for groups; also of a release that is not told."""
    return release in RELEASES and RELEASES.index(release) >= RELEASES.index(PRIMARIES)
