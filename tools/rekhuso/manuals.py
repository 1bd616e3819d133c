"""The manual pages of `rekhuso` and of each of its commands, in roff, and all files that a system keeps beside a
command.
"""

from __future__ import annotations

from .commands import EXAMPLES
from .completions import bash, fish, zsh
from .uses import Option, Use, option_groups, options_in, top, uses
from .version import VERSION

# The statuses of all commands, and those of single ones, as the reference has them too (docs/COMMANDS.md).
STATUSES = (
    ("0", "The work is done."),
    ("1", "No: a map, a change, a cluster or a plan is refused, or something is not as it is to be."),
    (
        "2",
        "Nothing can be said: words mean nothing, a file cannot be read or written or is another than was asked for, "
        "the program is not there, is another or has gone, or there is no memory.",
    ),
    ("70", "A defect of the tools, which is to be reported."),
    ("143, 129", "The command was ended from outside, by SIGTERM or SIGHUP; SIGINT ends it by the signal."),
)
OWN_STATUSES = {
    "verify": (("3", "The cluster tells of fewer than 90 % of the groups where they lie."),),
    "next": (("10", "Commands are put out."), ("11", "Nothing may be given now: what is under way comes first.")),
}


def roff(text: str) -> str:
    """A text whose signs stand for themselves."""
    found = text.replace("\\", "\\e").replace("-", "\\-").replace("'", "\\(aq").replace("`", "\\(ga")
    return f"\\&{found}" if found.startswith(".") else found


def status_text(command: str = "") -> str:
    """What the statuses of a command mean, or those of all."""
    told = sorted([*STATUSES, *OWN_STATUSES.get(command, ())], key=lambda own: int(own[0].split(",")[0]))
    return ".SH EXIT STATUS\n" + "".join(f".TP\n{status}\n{roff(text)}\n" for status, text in told)


def head(name: str, about: str) -> str:
    """What a page begins with."""
    return f'.TH {name.upper()} 1 "" "rekhuso {VERSION}" ""\n.SH NAME\n{roff(name)} \\- {roff(about)}\n'


def use_lines(use: Use) -> list[str]:
    """The forms in which a command is typed, a line each."""
    text = " ".join(use.parser.format_usage().removeprefix("usage: ").split())
    start = f"rekhuso {use.name} "
    return [(start + form).strip() for form in text.split(start) if form.strip()] or [start.strip()]


def paragraphs(text: str) -> str:
    """A text as paragraphs; an indented line is an example."""
    found = []
    for part in text.split("\n\n"):
        lines = [line for line in part.split("\n") if line.strip()]
        if lines and lines[0].startswith("    "):
            found.append(".PP\n.nf\n" + "\n".join(roff(line) for line in lines) + "\n.fi\n")
        elif lines:
            found.append(".PP\n" + "\n".join(roff(line.strip()) for line in lines) + "\n")
    return "".join(found)


def option_text(option: Option) -> str:
    """An option with what it is for."""
    words = ", ".join(f"\\fB{roff(word)}\\fR" for word in option.words)
    values = " ".join(f"\\fI{roff(value)}\\fR" for value in option.values)
    return f".TP\n{' '.join(part for part in (words, values) if part)}\n{roff(option.about)}\n"


def options_text(use: Use) -> str:
    """All options of a command, by their groups."""
    return ".SH OPTIONS\n" + "".join(
        f".SS {roff(title)}\n" + "".join(map(option_text, options)) for title, options in option_groups(use.parser)
    )


def page(use: Use) -> str:
    """The page of a command."""
    forms = "".join(f".PP\n{roff(line)}\n" for line in use_lines(use))
    return (
        head(f"rekhuso-{use.name}", use.about)
        + f".SH SYNOPSIS\n{forms}.SH DESCRIPTION\n{paragraphs(use.parser.description or '')}{options_text(use)}"
        + f".SH EXAMPLES\n{paragraphs('    rekhuso ' + EXAMPLES[use.name])}{status_text(use.name)}"
        + ".SH SEE ALSO\n.BR rekhuso (1)\n"
    )


def first_page() -> str:
    """The page of the whole."""
    commands = uses()
    names = "".join(f".TP\n.B {roff(use.name)}\n{roff(use.about)}\n" for use in commands)
    also = ",\n".join(f".BR {roff(f'rekhuso-{use.name}')} (1)" for use in commands)
    return (
        head("rekhuso", "tools beside osdmapd, for people with a Ceph cluster")
        + ".SH SYNOPSIS\n\\fBrekhuso\\fR \\fICOMMAND\\fR ..\n.SH DESCRIPTION\nEach command has a page of its own.\n"
        + f"{names}.SH OPTIONS\n{''.join(map(option_text, options_in(top())))}{status_text()}.SH SEE ALSO\n{also}\n"
    )


def shared() -> dict[str, str]:
    """What a system keeps beside the command, by the paths below its prefix: completions and manual pages."""
    pages = {f"share/man/man1/rekhuso-{use.name}.1": page(use) for use in uses()}
    return {
        "share/bash-completion/completions/rekhuso": bash(),
        "share/zsh/site-functions/_rekhuso": zsh(),
        "share/fish/vendor_completions.d/rekhuso.fish": fish(),
        "share/man/man1/rekhuso.1": first_page(),
        **pages,
    }
