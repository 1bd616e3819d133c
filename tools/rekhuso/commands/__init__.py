"""Commands, a module for each, by its name; `import` is in `import_.py`.

`arguments.py` has what several of them take, and other modules the words of single ones. tools/README.md says what each
does.
"""

from __future__ import annotations

import importlib
from types import ModuleType

__all__ = ["COMMANDS", "EXAMPLES", "FIRST_OPTIONS", "GROUPS", "grouped", "module_of"]
# Each command in the order of the help, with what it is typed as.
EXAMPLES = {
    "df": "df osd.json crush.json",
    "explain": "explain osd.json crush.json 2.1f",
    "diff": "diff old-osd.json old-crush.json osd.json crush.json",
    "verify": "verify osd.json crush.json --pgs pgs.json",
    "report": "report osd.json crush.json > report.html",
    "picture": "picture osd.json crush.json > osds.svg",
    "plan": "plan osd.json crush.json --df df.json > plan.sh",
    "net": "net map.json --ceph",
    "whatif": "whatif osd.json crush.json --out 1 2",
    "hold": "hold osd.json crush.json --crush new.json --to hold.sh",
    "release": "release osd.json crush.json > release.sh",
    "drain": "drain osd.json crush.json node3 --batch 20 --to parts",
    "next": "next osd.json crush.json parts --pgs pgs.json --most 20 | sh",
    "give": "give parts --conf /etc/ceph/ceph.conf",
    "together": "together /etc/ceph/ceph.conf new hold.sh",
    "carry": "carry /etc/ceph/ceph.conf --plan parts --once",
    "gather": "gather --to now.json",
    "import": "import osd.json crush.json --names names.json > map.json",
    "check": "check map.json change.json",
    "shell": "shell osd.json crush.json",
    "history": "history cluster.store --json",
    "backup": "backup cluster.store copy.store",
    "proof": "proof rekhuso-0.2.0-x86_64.tar.gz",
    "completion": "completion fish | source",
}
COMMANDS = tuple(EXAMPLES)
# What they are for, each with its first command.
GROUPS = {"look": "df", "plan": "plan", "change": "whatif", "carry": "next", "files": "gather"}
# The options of each that most need, in the order of the first screen of its help.
FIRST_OPTIONS = {
    "df": ("--osds", "--names", "--pools", "--prometheus", "--json"),
    "explain": ("--names", "--json"),
    "diff": ("--names", "--json"),
    "verify": ("--pgs", "--case", "--pools", "--json"),
    "report": ("--osds", "--next", "--pgs", "--names"),
    "picture": ("--names",),
    "plan": ("--df", "--pgs", "--osds", "--of-pool", "--first", "--until", "--batch", "--to", "--undo"),
    "net": ("--ceph", "--json"),
    "whatif": ("--out", "--in", "--down", "--reweight", "--weight", "--add-host", "--crush", "--each", "--json"),
    "hold": ("--crush", "--out", "--pgs", "--of-osd", "--batch", "--to", "--undo"),
    "release": ("--from", "--to-plan", "--of-osd", "--osd-most", "--batch", "--to", "--undo"),
    "drain": ("--even", "--df", "--osd-most", "--batch", "--to", "--undo", "--json"),
    "next": ("--pgs", "--report", "--most", "--osd-most", "--json"),
    "carry": ("--name", "--keyring", "--plan", "--once", "--dry-run", "--interval", "--window", "--json"),
    "give": ("--conf", "--crush", "--moves", "--half", "--wait", "--dry-run", "--json"),
    "together": ("--moves", "--seconds"),
    "gather": ("--conf", "--to"),
    "import": ("--check", "--pools", "--names", "--to", "--json"),
    "check": ("--names", "--json"),
    "shell": ("--names", "--store"),
    "history": ("--at", "--names", "--json"),
    "backup": ("--restore",),
    "proof": (),
    "completion": (),
}


def grouped() -> dict[str, tuple[str, ...]]:
    """The commands by what they are for, in the order of the help."""
    ends = [*map(COMMANDS.index, GROUPS.values()), len(COMMANDS)]
    return {title: COMMANDS[ends[at] : ends[at + 1]] for at, title in enumerate(GROUPS)}


def module_of(command: str) -> ModuleType:
    """The module of a command, which is imported once it is asked for."""
    return importlib.import_module(f".{'import_' if command == 'import' else command}", __name__)
