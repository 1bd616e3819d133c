"""The help of the command line: the first screen of each command, which most need, and all commands by what they are
for.
"""

from __future__ import annotations

import argparse
import re
import textwrap
from collections.abc import Mapping, Sequence

from ..words import counted

# So many columns has a line of the first screen at most, and the options begin their texts in one column up to this.
WIDTH, TEXTS = 79, 28
# Where a text may be cut that is too long for its line, and how much of it is left at least.
BOUNDARY, LEAST = re.compile(r"[:;] | \(|, (?=(?:as|else|from|to|where|which|with|written)\b)"), 16
BOTH = (
    "OSD_DUMP and CRUSH_DUMP: `ceph osd dump -f json` and `ceph osd crush dump`, or in place of both one file of "
    "`ceph osd getmap -o FILE` or of `ceph report`."
)


def wrapped(text: str, first: str = "", more: str = "") -> list[str]:
    """A text in lines, the first of which and the others begin with some words."""
    return textwrap.wrap(
        text, WIDTH, initial_indent=first, subsequent_indent=more, break_on_hyphens=False, break_long_words=False
    )


def about_lines(head: str, text: str, column: int) -> list[str]:
    """What stands before a text, and the text from a column on: in one line where a cut leaves enough of it."""
    room = WIDTH - column
    cuts = [found.start() for found in BOUNDARY.finditer(text) if LEAST <= found.start() <= room]
    if len(text) > room and cuts:
        text = text[: cuts[-1]]
    if len(head) + 2 > column:
        return [head, *wrapped(text, " " * column, " " * column)]
    return wrapped(text, head.ljust(column), " " * column)


def option_head(action: argparse.Action) -> str:
    """An option with the words behind it."""
    words = action.metavar or action.dest.upper()
    values = () if action.nargs == 0 else (words,) if isinstance(words, str) else words
    return "  " + " ".join([action.option_strings[-1], *values])


def option_lines(own: argparse.ArgumentParser, options: Sequence[str]) -> list[str]:
    """Some options of a command, each in a line or two."""
    actions = [own._option_string_actions[name] for name in options]
    heads = [option_head(action) for action in actions]
    column = min(TEXTS, max(map(len, heads), default=0) + 2)
    texts = [" ".join((action.help or "").replace("%%", "%").split()) for action in actions]
    return [line for head, text in zip(heads, texts) for line in about_lines(head, text, column)]


def use_of(own: argparse.ArgumentParser) -> list[str]:
    """How a command is typed."""
    whole = re.sub(r"\[[^][]*\]", lambda found: found[0].replace(" ", "\xa0"), own.format_usage())
    lines = whole.rstrip("\n").splitlines()
    found = [part for line in lines for part in wrapped(line.strip(), " " * 7 * (line[0] == " "), " " * 15)]
    return [line.replace("\xa0", " ") for line in found]


def first_screen(own: argparse.ArgumentParser, options: Sequence[str], example: str) -> str:
    """The first screen of the help of a command: its use, what it does, the options that most need, and an example."""
    use, about = use_of(own), (own.description or "").split("\n\n")[0]
    both = wrapped(BOTH) if any("OSD_DUMP" in line for line in use) else []
    count = sum(bool(action.option_strings) for action in own._actions) - len(options) - 1
    rest = f", with {counted(count, 'option')} more" if count > 0 else ""
    more = f"`{own.prog} --help --all` tells all of it{rest}."
    parts = [use, wrapped(about), both, option_lines(own, options), ["for example:", f"    {example}"], [more]]
    return "\n\n".join("\n".join(part) for part in parts if part) + "\n"


def all_commands(own: argparse.ArgumentParser, about: Mapping[str, str], groups: Mapping[str, Sequence[str]]) -> str:
    """The help of the command line: what each command does, by what they are for."""
    column = max(map(len, about)) + 6
    found = [f"usage: {own.prog} COMMAND ..", "", *wrapped(own.description or "")]
    for title, commands in groups.items():
        found += ["", f"{title}:"]
        found += [line for name in commands for line in wrapped(about[name], f"    {name}".ljust(column), " " * column)]
    options = [action.option_strings[-1] for action in own._actions if action.option_strings]
    return "\n".join([*found, "", "options:", *option_lines(own, options)]) + "\n"
