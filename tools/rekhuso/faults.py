"""Why a command ends without what was asked for, with the status and the code of each: 1 is no, 2 that nothing can be
said.
"""

from __future__ import annotations


# What is said of commands that are not what is told of them.
DEFECT = "a defect of the tools; nothing is put out"


class Fault(Exception):
    """One line or several, each of which says one thing that is wrong."""

    status, code = 1, "refused"

    def __init__(self, *lines: str) -> None:
        """Takes the lines as they are told, one at least."""
        super().__init__("; ".join(lines))
        self.lines = list(lines)


class Trouble(Fault):
    """What keeps a command from its work, whatever the answer would be: a file that cannot be read or written, or is
    another than was asked for; a program that is not there, or is another.
    """

    status, code = 2, "trouble"


class Misuse(Trouble):
    """A command used wrongly: words that mean nothing, whatever the files say."""

    code = "use"

    def of_command(self, name: str) -> Misuse:
        """The same with the name of the command before it."""
        return Misuse(f"{name}: error: {self} (--help tells the use)")


class Untold(Fault):
    """Too little is told to say anything."""

    status, code = 3, "untold"


class Wait(Fault):
    """What is not done while a cluster is not at rest: amid an outage, while data moves, or while a pool grows."""

    status, code = 11, "wait"


class Changed(Fault):
    """A cluster that is no longer the one for which something was made."""

    code = "changed"


class Misjudged(Fault):
    """What the program judges to be another thing than is told: a defect of the tools."""

    status, code = 70, "misjudged"


class Closed(Trouble):
    """A question to a monitor that was closed, or whose program has gone."""

    def __init__(self) -> None:
        """Has one line, whichever the question was."""
        super().__init__("the monitor is closed")


class Refused(Fault):
    """An answer `err NUMBER NAME` of the program, or a map that it refuses by name, which then has no number."""

    def __init__(self, name: str, number: int | None = None) -> None:
        """Takes the name of the refusal and its number, as docs/FORMATS.md has them."""
        super().__init__(f"refused: {name}" if number is None else f"refused: {number} {name}")
        self.name, self.number = name, number


class Unopened(Trouble):
    """A store that is not begun or opened: its path, and the reason in the words of the program."""

    def __init__(self, path: str, reason: str) -> None:
        """Takes the path of the store and the reason, as `the store is in use`."""
        super().__init__(f"{path}: {reason}")
        self.path, self.reason = path, reason
