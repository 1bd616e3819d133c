"""How the commands are used, by the parsers themselves: what shells complete and manual pages tell is made of it."""

from __future__ import annotations

import argparse
from collections.abc import Iterator
from typing import NamedTuple

from .command_line import parser


class Use(NamedTuple):
    """A command: its name, what it does in a few words, and its parser."""

    name: str
    about: str
    parser: argparse.ArgumentParser


class Option(NamedTuple):
    """An option: its words, what stands behind it, none where nothing does, and what it is for."""

    words: tuple[str, ...]
    values: tuple[str, ...]
    about: str


def top() -> argparse.ArgumentParser:
    """The parser of the whole command line."""
    return parser()


def uses() -> list[Use]:
    """Each command, in the order of the help."""
    commands = next(own for own in top()._actions if isinstance(own, argparse._SubParsersAction))
    about = {own.dest: own.help or "" for own in commands._choices_actions}
    return [Use(name, about[name], own) for name, own in commands.choices.items()]


def values_of(action: argparse.Action) -> tuple[str, ...]:
    """What stands behind an option, or the words that are given without one."""
    if action.nargs == 0:
        return ()
    words = action.metavar or action.dest.upper()
    return (words,) if isinstance(words, str) else tuple(words)


def about_of(action: argparse.Action) -> str:
    """What an option is for."""
    return " ".join((action.help or "").replace("%%", "%").split())


def option_groups(own: argparse.ArgumentParser) -> Iterator[tuple[str, list[Option]]]:
    """The options of a parser and the words without one, by their groups with the titles of these."""
    for group in own._action_groups:
        found = [
            Option(tuple(action.option_strings), values_of(action), about_of(action))
            for action in group._group_actions
            if not isinstance(action, argparse._SubParsersAction)
        ]
        if found:
            yield group.title or "", found


def options_in(own: argparse.ArgumentParser) -> list[Option]:
    """The options of a parser."""
    return [option for _, options in option_groups(own) for option in options if option.words]
