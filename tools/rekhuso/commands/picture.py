"""`picture`: the OSDs of a map, or of two dumps, by host and rack, the share of each as its colour, as SVG; of two
maps, side by side.

Grey is an OSD's share, red more, blue less; in each square stands the number of its groups; a cross marks one that is
out, a bar one that is down.
"""

from __future__ import annotations

from ..cluster.reports import with_both
from ..cluster.sources import Source
from ..cluster.view import has_crush_dump, view_with_sets
from ..output.osd_picture import osd_picture
from .arguments import ABOUT_FILES, Arguments, Commands, add_names, set_work, source_of, usage


def sources_of(arguments: Arguments) -> list[Source]:
    """The two dumps of a cluster, or each map."""
    files: list[str] = arguments.files
    parts = [files] if len(files) == 2 and has_crush_dump(files[1]) else [with_both([path]) for path in files]
    return [source_of(arguments, part) for part in parts]


def work(sources: list[Source]) -> None:
    """Writes the picture on standard output."""
    views = [view_with_sets(source) for source in sources]
    titles = [source.paths[0] for source in sources]
    print(osd_picture([view.shares(sets) for view, sets in views], views[0][0].names, titles), end="")


def add_to(commands: Commands) -> None:
    """The subcommand."""
    own = commands.add_parser("picture", help="the OSDs and their shares as SVG", description=__doc__)
    own.usage = usage().replace("MAP [", "MAP [MAP ..] [")
    own.add_argument(
        "files", metavar="MAP .. | OSD_DUMP CRUSH_DUMP", nargs="+", help=f"{ABOUT_FILES}; of several maps, side by side"
    )
    add_names(own)
    set_work(own, sources_of, work)
