"""Which of the files that operators have is given in place of another: by the keys that each has alone."""

from __future__ import annotations

from ..faults import Trouble
from .dump_forms import is_crush_dump, is_map, is_osd_dump, is_report

# What is told of each.
MAP, NAMES = "a map, as `import` writes it", "names, as `import --names` writes them"
REPORT, OSD_DUMP_FILE, CRUSH_DUMP_FILE = (
    f"what `{command}` prints" for command in ("ceph report", "ceph osd dump -f json", "ceph osd crush dump")
)
PG_DUMP, DF_FILE, OSD_DF_FILE, TREE_FILE = (
    f"what `ceph {command}` prints"
    for command in ("pg dump -f json", "df --format json", "osd df -f json", "osd tree -f json")
)
# Tables of a file of names, which has texts by numbers where a map and dumps have lists.
TABLES = ("buckets", "osds", "pools", "rules", "types", "classes")


def is_tree_row(row: object) -> bool:
    """Whether a row is one of `ceph osd tree`, which does not tell what is in use."""
    return isinstance(row, dict) and "kb" not in row and ("exists" in row or "children" in row)


def is_names(value: dict[str, object]) -> bool:
    """Whether a value is a file of names."""
    tables = [value[key] for key in TABLES if key in value]
    return len(tables) > 1 and all(isinstance(own, dict) for own in tables)


def kind_of(value: object) -> str | None:
    """Which file an object is of; None where that is not known."""
    if not isinstance(value, dict):
        return None
    nodes, told = value.get("nodes"), value.get("command")
    rows = nodes if isinstance(nodes, list) else []
    kinds = (
        # Its tables have the names of a map's lists.
        (NAMES, is_names(value)),
        (MAP, is_map(value)),
        (REPORT, is_report(value)),
        (OSD_DUMP_FILE, is_osd_dump(value)),
        (CRUSH_DUMP_FILE, is_crush_dump(value)),
        (PG_DUMP, "pg_stats" in value or "pg_map" in value),
        (TREE_FILE, any(map(is_tree_row, rows))),
        (OSD_DF_FILE, any(isinstance(row, dict) and "kb" in row for row in rows)),
        (DF_FILE, {"stats", "pools"} <= value.keys() and "osds" not in value),
        (f"what `rekhuso {told} --json` tells", isinstance(told, str) and "version" in value),
    )
    return next((kind for kind, is_so in kinds if is_so), None)


def check_kind(path: str, value: object, wanted: str) -> None:
    """A fault where a file is known to be another one than is asked for."""
    kind = kind_of(value)
    if kind is not None and kind != wanted:
        raise Trouble(f"{path}: this is {kind}, and not {wanted}")
