"""The command line: one parser with a subcommand for each module that has `add_to` and `work`, and what a command ends
with.

Status 0: the work is done. Status 1: no; something was refused. Status 2: nothing can be said; the command was used
wrongly, a file cannot be read or written, or the program is not there. Status 3 is of `verify`, 10 is of `next`. Status
11: not now; the cluster is not at rest. Status 70: a defect of the tools. Status 143 or 129: the command was ended from
outside. Ctrl-C ends it as the signal ends any program, so that the loop of a shell ends too.
"""

from __future__ import annotations

import argparse
import contextlib
import functools
import gc
import io
import json
import os
import pathlib
import signal
import sys
from collections.abc import Callable
from types import FrameType
from typing import NoReturn

from .commands import COMMANDS, EXAMPLES, FIRST_OPTIONS, grouped, module_of
from .commands.arguments import Parser, reading
from .faults import Fault, Misuse, Trouble
from .output.json_output import put_refusal
from .progress import Progress
from .running import Object, Run, running
from .terminal import named_output, quiet_errors, shown
from .version import VERSION

# What ends a command from outside.
ENDING = (signal.SIGTERM, signal.SIGHUP)
# The status of a defect (`EX_SOFTWARE` of sysexits.h).
DEFECT = 70


def with_help(words: list[str]) -> list[str]:
    """The words of a command line in which `help` and a command behind it stand for the command's own `--help`."""
    return [*words[1:], "--help"] if words[:1] == ["help"] else words


def without_all(words: list[str]) -> tuple[list[str], bool]:
    """Words for help without `--all`, and whether all of the help is asked for."""
    is_all = "--all" in words and not {"--help", "-h"}.isdisjoint(words)
    return [word for word in words if word != "--all"] if is_all else words, is_all


def asked_commands(words: list[str]) -> tuple[str, ...]:
    """The command that words ask for; all, where they ask for none of them or for help before one, and none where they
    ask for the version.
    """
    if words[:1] == ["--version"]:
        return ()
    ahead = iter(words)
    for word in ahead:
        if word in COMMANDS:
            return (word,)
        if word == "--program":
            next(ahead, None)
        elif not word.startswith("--program="):
            break
    return COMMANDS


def first_help(own: argparse.ArgumentParser, command: str) -> str:
    """The first screen of the help of a command; what makes it comes in here, as few ask for it."""
    from .commands.help_words import first_screen

    return first_screen(own, FIRST_OPTIONS[command], f"rekhuso {EXAMPLES[command]}")


def top_help(own: argparse.ArgumentParser, about: dict[str, str]) -> str:
    """The help of the command line, with what each command does."""
    from .commands.help_words import all_commands

    return all_commands(own, about, grouped())


def parser(asked: tuple[str, ...] = COMMANDS, is_all: bool = True) -> argparse.ArgumentParser:
    """The command line: one parser with a subcommand for each module of the commands that are asked for. Their help is
    all of it, or the first screen.
    """
    about = "Tools beside osdmapd, for people with a cluster. `rekhuso help COMMAND` tells the use of each."
    top = Parser(prog="rekhuso", description=about)
    top.add_argument("--version", action="version", version=f"rekhuso {VERSION}", help="tell the version")
    about = "the built program (else that which REKHUSO_PROGRAM names, that of this repository, or of PATH)"
    top.add_argument("--program", type=pathlib.Path, help=about)
    commands = top.add_subparsers(dest="command", required=True, metavar="COMMAND")
    for command in asked:
        module_of(command).add_to(commands)
    for command, own in commands.choices.items():
        own.epilog = f"for example:\n\n    rekhuso {EXAMPLES[command]}"
        reading(own).add_argument("--program", type=pathlib.Path, default=argparse.SUPPRESS, help=about)
        if not is_all:
            own.made_help = functools.partial(first_help, own, command)
    if asked == COMMANDS:
        told = {own.dest: own.help or "" for own in commands._choices_actions}
        top.made_help = functools.partial(top_help, top, told)
    return top


def set_streams() -> None:
    """Sets standard streams to UTF-8, the two for output so that no character stops them; an input or errors that
    are closed are empty. On a terminal they show each sign. A fault where the output is closed.
    """
    sys.stdin = sys.stdin or open(os.devnull, encoding="utf-8")
    sys.stderr = quiet_errors(sys.stderr or open(os.devnull, "w", encoding="utf-8"))
    if sys.stdout is None:
        raise Trouble("output: closed")
    sys.stdout = named_output(sys.stdout)
    for stream, errors in ((sys.stdin, "strict"), (sys.stdout, "backslashreplace"), (sys.stderr, "backslashreplace")):
        if isinstance(stream, io.TextIOWrapper):
            stream.reconfigure(encoding="utf-8", errors=errors)
    sys.stdout, sys.stderr = shown(sys.stdout), shown(sys.stderr)


def put_out() -> None:
    """Puts out what standard output still holds. OSError where it cannot be written; what is left is then dropped,
    so that it is not tried again when Python ends.
    """
    try:
        sys.stdout.flush()
    except OSError:
        os.dup2(os.open(os.devnull, os.O_WRONLY), sys.stdout.fileno())
        raise


def end_by(number: signal.Signals) -> int:
    """Ends this as a signal ends any program: what still waits to be put out is dropped. The status that a shell then
    tells, where the signal is held back.
    """
    with contextlib.suppress(OSError, ValueError, AttributeError):
        os.dup2(os.open(os.devnull, os.O_WRONLY), sys.stdout.fileno())
    signal.signal(number, signal.SIG_DFL)
    signal.raise_signal(number)
    return 128 + number


def defect_line(fault: BaseException) -> str:
    """What is told of a fault that nobody foresaw: what it is and where, and the versions."""
    at, where, own = fault.__traceback__, "", os.path.dirname(__file__)
    while at is not None:
        file = at.tb_frame.f_code.co_filename
        where = f" at {os.path.relpath(file, own)}:{at.tb_lineno}" if file.startswith(own) else where
        at = at.tb_next
    versions = f"rekhuso {VERSION}, Python {sys.version.split()[0]}"
    text = " ".join(str(fault).split())[:200]
    return f"a defect of the tools ({versions}): {type(fault).__name__}{where}: {text}"


class EndedBySignal(BaseException):
    """A signal that ends the command from outside: what it has begun is put away before it does."""


def end_by_signal(number: int, _: FrameType | None) -> NoReturn:
    """Ends the command in order. Once it does, a signal more ends it at once."""
    for other in ENDING:
        signal.signal(other, signal.SIG_DFL)
    raise EndedBySignal(number)


def set_interrupt(old: object, new: signal.Handlers | Callable[[int, FrameType | None], object]) -> bool:
    """Has SIGINT do another thing, where it does what it is to have done till now: whether it did."""
    is_so = signal.getsignal(signal.SIGINT) is old
    if is_so:
        signal.signal(signal.SIGINT, new)
    return is_so


def set_signals() -> None:
    """Has the command end in order by those signals that are not held back."""
    for number in ENDING:
        if signal.getsignal(number) is signal.SIG_DFL:
            signal.signal(number, end_by_signal)


def work_of(options: argparse.Namespace) -> int:
    """Does the work of a command: its status. A fault goes on, and where JSON is asked for it is told so too, but for
    one of use.
    """
    try:
        return int(options.work(options) or 0)
    except Fault as fault:
        if getattr(options, "json", False) and not isinstance(fault, Misuse):
            put_refusal(options.command, fault)
            put_out()
        raise


def on_errors(line: str) -> None:
    """Puts a line out on standard error."""
    print(line, file=sys.stderr)


def on_output(value: Object) -> None:
    """Puts an object out on standard output."""
    print(json.dumps(value, indent=1))


def asked_work(words: list[str], progress: Progress) -> int:
    """Does what some words ask for, and tells the status. Faults and OSError go on to who asked."""
    try:
        words, is_all = without_all(words)
        options = parser(asked_commands(words), is_all).parse_args(words)
    except SystemExit as end:  # Help, or the version.
        return int(end.code or 0)
    if sys.stderr.isatty() and options.command != "shell" and os.environ.get("TERM") != "dumb":
        progress.begin(options.command)
    try:
        return work_of(options)
    except Misuse as fault:
        raise fault.of_command(f"rekhuso {options.command}") from None
    finally:
        progress.end()


def run() -> int:
    """Does what the words of the command line ask for, and tells the status. Faults and OSError go on to who asked."""
    with running(Run(on_errors, on_output)) as own:
        status = asked_work(with_help(sys.argv[1:]), Progress(own))
    put_out()
    return status


def done() -> tuple[list[str], int]:
    """Does the work: what is wrong, in lines, and the status."""
    try:
        set_signals()
        set_streams()
        return [], run()
    except Fault as fault:
        return fault.lines, fault.status
    except EndedBySignal as end:
        return [], 128 + int(end.args[0])
    except BrokenPipeError:
        return [], end_by(signal.SIGPIPE)
    except OSError as fault:
        return [": ".join([*([str(fault.filename)] if fault.filename else []), fault.strerror or str(fault)])], 2
    except MemoryError:
        return ["out of memory"], 2
    except Exception as fault:
        return [defect_line(fault)], DEFECT


def main() -> int:
    """Runs one command: its status, and where that is not 0 what is wrong on standard error."""
    # A command soon ends, and needs what it has made until then.
    gc.disable()
    try:
        is_ours = set_interrupt(signal.SIG_DFL, signal.default_int_handler)
        lines, status = done()
        if lines:
            print("\n".join(lines), file=sys.stderr)
        with contextlib.suppress(OSError, AttributeError):
            put_out()
        # What is left goes with the process: it is not looked through once more while Python ends.
        gc.freeze()
        # All is told; while Python ends, Ctrl-C is again what it was while Python began.
        set_interrupt(signal.default_int_handler if is_ours else None, signal.SIG_DFL)
        return status
    except KeyboardInterrupt:
        signal.signal(signal.SIGINT, signal.SIG_IGN)
        print("interrupted", file=sys.stderr, flush=True)
        return end_by(signal.SIGINT)
