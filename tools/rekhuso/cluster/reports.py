"""What `ceph report` prints: one file, which has both dumps of a cluster at one time (Ceph 16.2 and 18.2, Monitor.cc
`handle_command` of "report"), and what its pools hold. A binary map has both dumps too, and stands wherever a report
does; and so does what `gather` writes, which has beside them what `ceph pg dump` and `ceph df` print.
"""

from __future__ import annotations

import json
import re
from collections.abc import Iterable

from ..faults import Fault, Trouble
from ..files import JsonObject, remembered, text_of
from .binary_maps import is_binary_map, report_of_map
from .dump_forms import is_map

# Where the two dumps stand in a report.
OSD_PART, CRUSH_PART = "osdmap", "crushmap"
PARTS = (OSD_PART, CRUSH_PART)
# What `gather` puts beside them: groups one by one, and what `ceph df` prints.
GROUPS_PART, DF_PART = "pg_stats", "df"
# What Ceph prints beside a report, on standard error, where both were put into one file.
HEAD = re.compile(r"\s*report \d+\r?\n")


def like_report(value: object) -> bool:
    """Whether a value is a report, or a part of one: no dump and no map has such keys."""
    return isinstance(value, dict) and any(part in value for part in PARTS) and not is_map(value)


@remembered(4)
def report_in(path: str) -> JsonObject | None:
    """The report in a file, or the binary map that has both dumps as a report has them; None where it is none. A fault
    where the file cannot be read.
    """
    if is_binary_map(path):
        return report_of_map(path)
    text = text_of(path)
    if not any(f'"{part}"' in text for part in PARTS):
        return None
    try:
        value = json.loads(HEAD.sub("", text, count=1) if HEAD.match(text) else text)
    except (ValueError, RecursionError):
        return None
    return value if like_report(value) else None


def is_report_file(path: str) -> bool:
    """Whether a file has a report or a binary map; not where it cannot be read, which is told by whoever reads it."""
    try:
        return is_binary_map(path) or report_in(path) is not None
    except Fault:
        return False


def with_both(paths: Iterable[str]) -> list[str]:
    """Paths in which a report stands for both dumps of its cluster, which are read of it."""
    return [own for path in paths for own in ([path] * (1 + is_report_file(path)))]


def dump_in_report(path: str, part: str) -> JsonObject | None:
    """A dump of the report in a file; None where the file is no report. A fault where a report lacks it."""
    report = report_in(path)
    if report is None:
        return None
    missing = [own for own in PARTS if own not in report]
    if missing:
        raise Trouble(f"{path}: no {missing[0]} in it, which `ceph report` prints")
    dump = report[part]
    if not isinstance(dump, dict):
        raise Trouble(f"{path}: {part}: no object")
    return dump


def beside_dumps(path: str, part: str) -> object:
    """What a file that `gather` wrote has beside both dumps; None where it has not that part, or is another file."""
    return None if path == "-" or not is_report_file(path) else (report_in(path) or {}).get(part)


def check_no_report(path: str, what: str) -> None:
    """A fault where a file is a report, and something is asked for that no report tells."""
    if path != "-" and is_report_file(path):
        made = "`ceph osd getmap` writes" if is_binary_map(path) else "`ceph report` prints"
        raise Trouble(f"{path}: this is what {made}, which does not tell {what}")
