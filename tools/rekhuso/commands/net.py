"""`net`: the fewest pairs that lead each group to the set that it has now.

A balancer only appends pairs, so after many rounds a group's pairs may be chained over one another, or do nothing;
Ceph's monitor cleans such pairs away, which gives other sets. Here each group with pairs gets, place by place, one pair
from what its rule gives to what it has, and no explicit set beside them; the pairs stand in an order in which each OSD
has left its place before it comes to another. Where OSDs change places in a ring, an explicit set stands alone. Groups
with a place that is empty are left as they are, and so are pairs that are there already, in whatever order if they need
none. The program checks that every set stays. Primaries that are named for groups (`pg_upmap_primaries`) stand in no
map and no change says them; they stay as they are.
"""

from __future__ import annotations

import json
from dataclasses import dataclass

from ..cluster.difference import change_of, exception_commands
from ..cluster.map_files import map_monitor
from ..output.json_output import put_json
from ..plans.pairs import settled
from ..program.maps import Map, Program, written
from ..values import SLOTS
from .arguments import Arguments, Commands, add_json, putting, set_work


@dataclass(frozen=True, **SLOTS)
class NetOptions:
    """The file of a map, the program, and whether the pairs are told as JSON, or as Ceph's commands."""

    path: str
    program: Program
    is_json: bool
    is_ceph: bool


def options_of(arguments: Arguments) -> NetOptions:
    """The options of the command line."""
    return NetOptions(arguments.map, arguments.program, arguments.json, arguments.ceph)


def work(options: NetOptions) -> None:
    """Tells the change, or the commands."""
    text, monitor = map_monitor(options.path, options.program)
    with monitor:
        value: Map = json.loads(text)
        new = settled(monitor, value)
    change, _ = change_of(value, new)
    if options.is_json:
        put_json("net", value["epoch"], change=change, commands=exception_commands(value, new))
    elif options.is_ceph:
        for line in exception_commands(value, new):
            print(line)
    else:
        print(f"change {written(change)}")


def add_to(commands_of: Commands) -> None:
    """The subcommand."""
    own = commands_of.add_parser("net", help="the fewest pairs for the same sets", description=__doc__)
    own.add_argument("map", metavar="MAP", help="a map, as `import` writes it; - is standard input")
    putting(own).add_argument("--ceph", action="store_true", help="as Ceph's commands")
    add_json(own)
    set_work(own, options_of, work)
