"""The proved monitor from Python: `from rekhuso import Monitor`, with tools/ on the path or the package installed; and
`from rekhuso import CephCluster`, a cluster of Ceph by what its commands print.

The package by role: `commands/` has a module for each command, by its name, and their table; `cluster/` dumps, trees,
pools, weights, and what a Ceph monitor does with them; `plans/` what the balancer makes of a cluster; `program/` the
program's maps, sessions and answers; `output/` tables, JSON forms, pictures, scripts and the page.
"""

import sys

if sys.argv[:1] == ["-m"]:
    # What __main__.py does first, which Python brings in behind this.
    FIRST = __import__("_signal")
    try:
        if FIRST.getsignal(FIRST.SIGINT) is FIRST.default_int_handler:
            FIRST.signal(FIRST.SIGINT, FIRST.SIG_DFL)
    except KeyboardInterrupt:
        FIRST.signal(FIRST.SIGINT, FIRST.SIG_DFL)
        FIRST.raise_signal(FIRST.SIGINT)

# This file and __main__.py have no word that an older Python does not read, so that it comes to the sentence.
if sys.version_info < (3, 9):
    OLDER = "rekhuso needs Python 3.9 or later, and this is Python %d.%d.%d" % tuple(sys.version_info[:3])
    if sys.argv[:1] == ["-m"]:
        sys.stderr.write(OLDER + "\n")
        sys.exit(2)
    raise ImportError(OLDER)

from .version import VERSION as __version__

TYPE_CHECKING = False
if TYPE_CHECKING:
    from .faults import Closed, Fault, Refused, Unopened
    from .library import CephCluster
    from .program.answers import Left, Made, Moved, Up
    from .program.monitor import Monitor
    from .program.session import Session

__all__ = ["CephCluster", "Closed", "Fault", "Left", "Made", "Monitor", "Moved", "Refused", "Session", "Unopened", "Up"]
__all__ += ["__version__"]
# The module of each name; they come in once they are asked for, so that a command soon begins.
PLACES = {
    **dict.fromkeys(("Closed", "Fault", "Refused", "Unopened"), "faults"),
    **dict.fromkeys(("Left", "Made", "Moved", "Up"), "program.answers"),
    "CephCluster": "library",
    "Monitor": "program.monitor",
    "Session": "program.session",
}


def __dir__() -> list[str]:
    """What the package has, also what has not come in yet."""
    return sorted({*globals(), *__all__})


def __getattr__(name: str) -> object:
    """What the package has by a name."""
    import importlib

    if name not in PLACES:
        raise AttributeError(f"module {__name__!r} has no attribute {name!r}")
    return getattr(importlib.import_module(f".{PLACES[name]}", __name__), name)
