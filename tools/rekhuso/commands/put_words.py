"""The words by which commands are put out: as the way back, in one file or in parts, as JSON, or without guards. They
are the same for `plan`, `hold`, `release` and `drain`.
"""

from __future__ import annotations

import argparse
import os
import re
from dataclasses import dataclass

from ..cluster.sources import Source
from ..faults import Misuse, Trouble
from ..files import put
from ..output.plan_scripts import put_batches
from ..plans.printed import Asked
from ..program.bytes_judge import check_by_bytes
from ..values import SLOTS
from .arguments import Arguments, add_guard, add_json, putting
from .part_words import PartWords, add_part_words, part_words


@dataclass(frozen=True, **SLOTS)
class PutWords:
    """How commands are put out: as the way back, in parts of which size, into which file or folder, as JSON, and with
    guards.
    """

    is_undo: bool
    parts: PartWords
    to: str | None
    is_json: bool
    is_guarded: bool

    @property
    def is_parted(self) -> bool:
        """Whether there are parts of so many commands."""
        return self.parts.batch is not None

    def put(self, word: str, scripts: list[str]) -> None:
        """Puts scripts out: parts into files of a folder by a word, else all into a file or on standard output."""
        if self.to is None:
            print("".join(scripts), end="")
        elif self.is_parted:
            put_batches(self.to, "undo" if self.is_undo else word, scripts)
        else:
            put(self.to, "".join(scripts))


def check_bytes(source: Source, scripts: list[str], count: int, asked: Asked) -> None:
    """Has the scripts of so many commands judged from the bytes of the cluster's own map, where they are made from it,
    and the monitor judges exceptions by the weights that a map has.
    """
    data = None if asked is Asked.NONE else source.map_bytes()
    if data is not None:
        check_by_bytes(data, scripts, count, source.program)


def check_place(path: str, is_folder: bool) -> None:
    """An error of use where a path is none, or is not one of a file or a folder, whichever is to be written, so that
    nobody waits for what cannot be put there; a fault where the folder in which it is to stand is not there.
    """
    what = "folder" if is_folder else "file"
    if path in ("", "-"):
        raise Misuse(f"{path or repr(path)}: no {what}; without --to standard output has what is told")
    if is_folder and os.path.exists(path) and not os.path.isdir(path):
        raise Misuse(f"{path}: a file, and parts are written into a folder")
    if not is_folder and os.path.isdir(path):
        raise Misuse(f"{path}: a folder; --batch N writes files of N commands into it")
    above = os.path.dirname(os.path.abspath(path))
    if not is_folder and not os.path.isdir(above):
        raise Trouble(f"{path}: the folder {above} is not there")


def put_words(arguments: Arguments, tells_parts: bool, is_parted: bool, how: str, is_folder: bool = False) -> PutWords:
    """The words of the command line, where the JSON of a command tells parts or not, there are parts by some words, and
    all is put into a folder or not. An error of use for words of which one would be passed over.
    """
    own = arguments
    if own.batch is not None and own.to is None and not (own.json and tells_parts):
        raise Misuse("--batch goes with --to: files of so many commands, and their folder")
    if own.json and (own.to is not None or own.undo or own.batch is not None and not tells_parts):
        words = "--to and --undo" if tells_parts else "--batch, --to and --undo"
        raise Misuse(f"--json tells the commands and their undoing at once: {words} do not go with it")
    parts = part_words(own, is_parted, how)
    if own.to is not None:
        check_place(own.to, is_folder or own.batch is not None)
    return PutWords(is_undo=own.undo, parts=parts, to=own.to, is_json=own.json, is_guarded=not own.no_guard)


def commands_a_file(word: str) -> int:
    """A number of commands; an error of use where it is none."""
    number = int(word) if re.fullmatch("[0-9]{1,20}", word) else 0
    if not 1 <= number <= 2**31:
        raise argparse.ArgumentTypeError(f"{word}: no number of commands from 1 on")
    return number


def add_put_words(own: argparse.ArgumentParser, undo: str, to: str, is_folder: bool = False) -> None:
    """The options, with what undoes the commands, and where they are put."""
    group = putting(own)
    group.add_argument("--undo", action="store_true", help=undo)
    about = "parts of at most N commands each, to be run one after the other; those of one group stay together"
    group.add_argument("--batch", metavar="N", type=commands_a_file, help=about)
    group.add_argument("--to", metavar="FOLDER" if is_folder else "FILE|FOLDER", help=to)
    add_part_words(own)
    add_guard(own)
    add_json(own)


def file_or_folder(word: str) -> str:
    """What is told of `--to` where there is one script, or parts of a word."""
    return (
        f"the file of the script, written whole or not at all; with --batch the folder of {word}-001.sh, .. or "
        f"undo-001.sh, .."
    )
