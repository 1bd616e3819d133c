"""Arguments that several commands take: files, dumps, names, JSON."""

from __future__ import annotations

import argparse
import re
import sys
from collections.abc import Callable, Sequence
from itertools import takewhile
from typing import IO, TYPE_CHECKING, Any, NoReturn, TypeVar

from ..cluster.reports import with_both
from ..cluster.sources import Source
from ..faults import Misuse
from ..running import tell

# What the command line says; each command takes of it the options of its own.
Arguments = argparse.Namespace
if TYPE_CHECKING:
    Commands = argparse._SubParsersAction[argparse.ArgumentParser]
else:
    Commands = argparse._SubParsersAction

Own = TypeVar("Own")
# OSDs as Ceph takes several behind one another, or with a comma between them.
SEVERAL = re.compile(r"(osd\.)?[0-9]+(,(osd\.)?[0-9]+)*")


class Paragraphs(argparse.HelpFormatter):
    """Help whose texts keep their paragraphs; an example, which is indented, keeps its line."""

    def _fill_text(self, text: str, width: int, indent: str) -> str:
        """A text, each paragraph of its own."""
        parts = [part for part in text.split("\n\n") if part.strip()]
        return "\n\n".join(
            part.rstrip() if part.startswith("    ") else super(Paragraphs, self)._fill_text(part, width, indent)
            for part in parts
        )


class Parser(argparse.ArgumentParser):
    """A parser that tells an error of use in one line, fails where help cannot be written, and takes no option by its
    beginning.
    """

    def __init__(self, **forms: Any) -> None:
        """Takes what any parser takes."""
        super().__init__(**forms)
        self.allow_abbrev, self.formatter_class = False, Paragraphs
        self._option_string_actions["--help"].help = "tell the use; with --all all of it"
        # What makes the help, where it is another than argparse makes.
        self.made_help: Callable[[], str] | None = None
        self.repeated: frozenset[str] = frozenset()
        # Options by the names that they had before, which go on for one release.
        self.older: dict[str, str] = {}
        # Options stand in the group in which they are added; all others are of the command itself.
        self.of_reading = self.add_argument_group("options of what is read")
        self.of_output = self.add_argument_group("options of what is put out")

    def error(self, message: str) -> NoReturn:
        """Ends the reading of words, as an error of use."""
        raise Misuse(message).of_command(self.prog)

    def format_help(self) -> str:
        """The help: the first screen, all commands, or all of it."""
        return super().format_help() if self.made_help is None else self.made_help()

    def _check_value(self, action: argparse.Action, value: Any) -> None:
        """Asks that a value is one of those that an option or a word takes; a command that is none is told."""
        near = "" if action.choices is None or value in action.choices else meant(value, list(action.choices))
        if near and isinstance(action, argparse._SubParsersAction):
            self.error(f"{value}: no command{near}")
        super()._check_value(action, value)

    def renamed(self, words: list[str]) -> list[str]:
        """Words in which each option has the name of today; an older one is told."""
        found = []
        for word in words:
            name, sign, value = word.partition("=")
            if name in self.older:
                tell(f"{self.prog}: {name} is {self.older[name]} now; the older name goes")
                word = f"{self.older[name]}{sign}{value}"
            found.append(word)
        return found

    def check_options(self, words: list[str]) -> None:
        """An error of use for an option that is none and is like one, which is told."""
        commands = [
            name for own in self._actions if isinstance(own, argparse._SubParsersAction) for name in own.choices
        ]
        for word in takewhile(lambda word: word != "--" and word not in commands, words):
            name = word.partition("=")[0]
            if name.startswith("--") and name not in self._option_string_actions:
                near = meant(name, [*self._option_string_actions])
                if near:
                    self.error(f"{name}: no option{near}")

    def _print_message(self, message: str, file: IO[str] | None = None) -> None:
        """Writes a message. OSError where it cannot be written, which argparse would pass over."""
        (file or sys.stderr).write(message)

    def parse_known_args(self, args: Any = None, namespace: Any = None) -> Any:
        """Reads words, of which some options take several OSDs."""
        words = None if args is None else repeated_words(self.renamed(list(args)), self.repeated)
        self.check_options(words or [])
        return super().parse_known_args(words, namespace)


def meant(word: str, names: list[str]) -> str:
    """What may be meant by a word that is none, in words; nothing where no name is like it."""
    from difflib import get_close_matches

    near = get_close_matches(word, names, 1, 0.7)
    return f"; did you mean {near[0]}?" if near else ""


def repeated_words(words: list[str], options: frozenset[str]) -> list[str]:
    """Words in which each of several OSDs has the option before it, where one takes several."""
    found, option, is_first = list[str](), "", False
    for word in words:
        name, sign, _ = word.partition("=")
        if name in options:
            option, is_first = name, not sign
        elif option and not is_first and SEVERAL.fullmatch(word):
            found.append(option)
        else:
            option, is_first = option if is_first else "", False
        found.append(word)
    return found


def rename(own: argparse.ArgumentParser, older: dict[str, str]) -> None:
    """Has a command take options by older names too, each with the name of today."""
    if isinstance(own, Parser):
        own.older.update(older)


def reading(own: argparse.ArgumentParser) -> argparse._ActionsContainer:
    """Where the options of what a command reads stand in its help."""
    return own.of_reading if isinstance(own, Parser) else own


def putting(own: argparse.ArgumentParser) -> argparse._ActionsContainer:
    """Where the options of what a command puts out stand in its help."""
    return own.of_output if isinstance(own, Parser) else own


# What stands in a use for the options, which the help tells one by one.
MORE = "[OPTION ..]"
FILES = "MAP | OSD_DUMP CRUSH_DUMP | REPORT"
ABOUT_FILES = (
    "a map, as `import` writes it (- is standard input); or the two dumps of a cluster, what `ceph osd dump -f json` "
    "and `ceph osd crush dump` print, or one file that has both: what `ceph osd getmap -o FILE` writes, or `ceph "
    "report` prints; also packed by gzip"
)
DUMPS = "OSD_DUMP CRUSH_DUMP | REPORT"
ABOUT_DUMPS = (
    "what `ceph osd dump -f json` and `ceph osd crush dump` print; or one file that has both: what `ceph osd getmap "
    "-o FILE` writes, or `ceph report` prints"
)


class Files(argparse.Action):
    """One file or two, a report being two; an error of use where there are more."""

    counts: tuple[int, ...] = (1, 2)
    words = "one map, or two dumps"
    # Whether one may be standard input.
    has_input = True

    def __call__(
        self,
        parser: argparse.ArgumentParser,
        namespace: argparse.Namespace,
        values: str | Sequence[object] | None,
        option: str | None = None,
    ) -> None:
        """Keeps the words, or ends the command with status 2."""
        words = [str(word) for word in values or ()]
        files = with_both(words) if self.has_input or "-" not in words else words
        if len(files) not in self.counts:
            parser.error(f"{parser.prog.split(' ')[-1]} takes {self.words}")
        setattr(namespace, self.dest, files)


class Dumps(Files):
    """The two dumps of a cluster, or a report; an error of use where there are others."""

    counts, words = (2,), "the two dumps of a cluster, or a report"


def usage(*words: str) -> str:
    """The use of a command with its own words, a line for each form: over a map, and over two dumps."""
    own = " ".join([*words, MORE])
    return f"%(prog)s MAP {own}\n       %(prog)s OSD_DUMP CRUSH_DUMP {own}"


def add_map_files(own: argparse.ArgumentParser) -> None:
    """The files of a command over a map or two dumps."""
    own.add_argument("files", metavar=FILES, nargs="+", action=Files, help=ABOUT_FILES)


def add_files(own: argparse.ArgumentParser) -> None:
    """The same, and the options for dumps and names."""
    own.usage = usage()
    add_map_files(own)
    add_names(own)


def lost_epoch(word: str) -> int:
    """The epoch behind which a store may lose what its log had; an error of use where a word is none."""
    if not re.fullmatch("[0-9]{1,10}", word) or not 1 <= int(word) < 1 << 32:
        raise argparse.ArgumentTypeError(f"{word}: no epoch from 1 to {(1 << 32) - 1}")
    return int(word)


def add_without_log(own: argparse.ArgumentParser) -> None:
    """The option for a store whose log is missing."""
    about = "takes a store whose log is missing as its file has it: the epoch that was told of that"
    own.add_argument("--without-log", metavar="EPOCH", type=lost_epoch, help=about)


def add_names_file(own: argparse.ArgumentParser) -> None:
    """The option for names."""
    reading(own).add_argument("--names", metavar="FILE", help="names, as `import --names` wrote them")


def add_names(own: argparse.ArgumentParser) -> None:
    """The options for names and for dumps."""
    add_names_file(own)
    add_dump_options(own)


UNMATCHED = "take OSDs that only one of the dumps has as out, and tell which"


def add_dump_options(own: argparse.ArgumentParser) -> None:
    """The options of a command that takes dumps."""
    group = reading(own)
    group.add_argument("--unmatched", action="store_true", help=UNMATCHED)
    group.add_argument(
        "--tree",
        metavar="FILE",
        help="what `ceph osd tree -f json` prints: the reweights of OSDs that were removed and stand in CRUSH",
    )
    group.add_argument("--pools", metavar="ID|NAME,..", help="only these pools")


def add_leaving(own: argparse.ArgumentParser) -> None:
    """The option for pools that are left out although a change is of their rule or their OSDs."""
    about = "with --pools: these pools are left out although what places them changes, and may move at once"
    reading(own).add_argument("--leaving", metavar="ID|NAME,..", help=about)


def leaving_of(arguments: Arguments) -> tuple[str, ...]:
    """The pools that are left out although they may move. An error of use where none is left out."""
    if arguments.leaving is not None and arguments.pools is None:
        raise Misuse("--leaving goes with --pools, which leaves pools out")
    return () if arguments.leaving is None else (arguments.leaving,)


def add_osds(own: argparse.ArgumentParser) -> None:
    """The option for the disks of OSDs."""
    reading(own).add_argument("--osds", metavar="FILE", help="what `ceph osd df -f json` prints: tell the disks too")


def add_json(own: argparse.ArgumentParser) -> None:
    """The option for JSON."""
    putting(own).add_argument("--json", action="store_true", help="tell all of it as one JSON object")


def add_guard(own: argparse.ArgumentParser) -> None:
    """The option for scripts without guards."""
    about = "leave out the lines by which a script ends, with nothing done, where the cluster is not as in the dumps"
    putting(own).add_argument("--no-guard", action="store_true", help=about)


def source_of(arguments: Arguments, paths: Sequence[str] | None = None) -> Source:
    """What a command works on; its files are those of the arguments where none are given."""
    files = tuple(arguments.files if paths is None else paths)
    return Source(files, arguments.names, arguments.program, arguments.tree, arguments.pools, arguments.unmatched)


def set_work(
    own: argparse.ArgumentParser, options_of: Callable[[Arguments], Own], work: Callable[[Own], int | None]
) -> None:
    """What a command does, with the options that it takes of the command line; it may tell a status of its own."""
    own.set_defaults(work=lambda arguments: work(options_of(arguments)))
