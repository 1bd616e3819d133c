"""`together`: gives a hold and its CRUSH map to a monitor within one map, so that no group is elsewhere at any epoch.

Alone of all commands it speaks to a cluster, by librados' Python (Debian: python3-rados). SCRIPT is what `hold --to`
wrote, whole and as it is, or all parts of `hold --batch` in their order, and CRUSH_FILE the compiled CRUSH map for
which it was made. A hold behind a change that is made is given without one, and a script of `hold --undo` with the
CRUSH map from before, or without any. The cluster is asked first whether it is the one that was dumped,
with the same CRUSH map, and takes pairs; and in the end for each exception and for the set of each group. norebalance
is set meanwhile. Where something is refused, or does not stand as it was foretold, a line tells how the cluster stands.

The file `together.py` does the same by itself, on a machine that has Python 3.6 or later.
"""

from __future__ import annotations

import importlib.util
import os
from dataclasses import dataclass

from .. import together
from ..faults import Fault
from ..together import OWN_USE, Stop, add_words, given
from ..values import SLOTS
from .arguments import Arguments, Commands, set_work

# The Python for which the system's packages are.
SYSTEM = "/usr/bin/python3"


@dataclass(frozen=True, **SLOTS)
class TogetherOptions:
    """The configuration by which a cluster is found; the files, of which the last is the script; for how long the
    monitor gathers meanwhile; and how many groups move by a hold that does not hold them.
    """

    conf: str
    files: list[str]
    seconds: float
    moves: int | None


def options_of(arguments: Arguments) -> TogetherOptions:
    """The options of the command line."""
    return TogetherOptions(arguments.conf, arguments.files, arguments.seconds, arguments.moves)


def work(options: TogetherOptions) -> None:
    """Gives all, and tells what stands. Where this Python has no librados, as in an environment of its own, the
    system's does it.
    """
    if importlib.util.find_spec("rados") is None and os.access(SYSTEM, os.X_OK):
        words = [options.conf, *options.files, "--seconds", str(options.seconds)]
        words += [] if options.moves is None else ["--moves", str(options.moves)]
        os.execv(SYSTEM, [SYSTEM, "-B", together.__file__, *words])
    try:
        print(given(options.conf, options.files, options.seconds, options.moves))
    except Stop as fault:
        raise Fault(str(fault)) from None


def add_to(commands_of: Commands) -> None:
    """The subcommand."""
    own = commands_of.add_parser("together", help="gives a hold and its CRUSH map in one map", description=__doc__)
    own.usage = f"%(prog)s {OWN_USE}"
    add_words(own)
    set_work(own, options_of, work)
