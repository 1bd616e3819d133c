"""`completion`: what a shell completes behind `rekhuso`, as a script for bash, zsh or fish.

For this shell alone: `source <(rekhuso completion bash)`, the same with zsh behind `compinit`, and `rekhuso completion
fish | source`. To keep it, put the script where the shell looks: for bash the file `rekhuso` of the folder
`~/.local/share/bash-completion/completions`, for zsh the file `_rekhuso` in a folder of `fpath`, and for fish
`rekhuso.fish` in `~/.config/fish/completions`. A package and an environment have all three below `share`.
"""

from __future__ import annotations

import importlib
from dataclasses import dataclass

from ..values import SLOTS
from .arguments import Arguments, Commands, set_work

SHELLS = ("bash", "zsh", "fish")


@dataclass(frozen=True, **SLOTS)
class CompletionOptions:
    """The shell."""

    shell: str


def options_of(arguments: Arguments) -> CompletionOptions:
    """The options of the command line."""
    return CompletionOptions(arguments.shell)


def work(options: CompletionOptions) -> None:
    """Puts out the script. It is made of the parsers of all commands, which come in here: this one is one of them."""
    made = importlib.import_module("rekhuso.completions")
    print(getattr(made, options.shell)(), end="")


def add_to(commands: Commands) -> None:
    """The subcommand."""
    own = commands.add_parser("completion", help="what bash, zsh or fish completes", description=__doc__)
    own.add_argument("shell", metavar="bash|zsh|fish", choices=SHELLS, help="the shell")
    set_work(own, options_of, work)
