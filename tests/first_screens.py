"""The help of the tools: the first screen of each command, all commands by what they are for, and what was meant by
words that are misspelt."""

from __future__ import annotations

import os
import re
import subprocess
import sys

from tests.cases import TOP, Case

TOOLS, SECONDS = TOP / "tools" / "rekhuso", 60
# What an operator types most, by the jobs of docs/CEPH.md, and how many lines and columns a terminal has at least.
COMMONEST = "df explain diff verify report plan whatif hold release drain next import".split()
ROWS, COLUMNS = 24, 80
GROUPS = {
    "look": "df explain diff verify report picture",
    "plan": "plan net",
    "change": "whatif hold release drain",
    "carry": "next give together carry",
    "files": "gather import check shell history backup proof completion",
}


def told(*words: str, columns: int = COLUMNS) -> tuple[int, str, str]:
    """The status, the output and the errors of a command on a terminal of so many columns."""
    done = subprocess.run(
        [sys.executable, "-B", str(TOOLS), *words],
        capture_output=True,
        text=True,
        env=os.environ | {"COLUMNS": str(columns)},
        timeout=SECONDS,
        check=False,
    )
    return done.returncode, done.stdout, done.stderr


class FirstScreens(Case):
    """Help, and words that are wrong."""

    is_form = True

    def test_first_screens(self) -> None:
        """The first help of each command that is used most, and of all others, has at most 24 lines of 80 columns: its
        use, what it does, options that it has, and an example; and says how the rest is told."""
        commands = [name for names in GROUPS.values() for name in names.split()]
        self.assertEqual(set(COMMONEST) - set(commands), set())
        for command in commands:
            for columns in (COLUMNS, *[200] * (command in COMMONEST[:3])):
                with self.subTest(command=command, columns=columns):
                    status, output, errors = told(command, "--help", columns=columns)
                    lines = output.splitlines()
                    self.assertEqual((status, errors), (0, ""))
                    self.assertLessEqual(len(lines), ROWS, output)
                    self.assertLessEqual(max(map(len, lines)), COLUMNS, output)
                    self.assertStarts(output, f"usage: rekhuso {command} ")
                    self.assertIn(f"\n\n`{command}`: ", output)
                    self.assertIn(f"\nfor example:\n    rekhuso {command}", output)
                    self.assertStarts(lines[-1], f"`rekhuso {command} --help --all` tells all of it")

    def test_options_of_first_screens(self) -> None:
        """Each option of a first screen stands in all of the help, which has as many more as the screen says."""
        for command in COMMONEST:
            with self.subTest(command=command):
                first, whole = told(command, "--help")[1], told(command, "--help", "--all")[1]
                some, every = (re.findall(r"(?m)^  (?:-h, )?(--[\w-]+)", text) for text in (first, whole))
                self.assertEqual(set(some) - set(every), set())
                more = re.findall(r"with (\d+) options? more\.$", first)
                self.assertEqual(len(every) - 1, len(some) + int(more[0] if more else 0))

    def test_groups(self) -> None:
        """`rekhuso --help` has each command once, below what it is for."""
        status, output, _ = told("--help")
        self.assertEqual(status, 0)
        self.assertLessEqual(max(map(len, output.splitlines())), COLUMNS)
        found = {
            title: re.findall(r"(?m)^    (\w+)", text)
            for title, text in re.findall(r"(?ms)^(\w+):\n(.*?)(?:\n\n|\Z)", output)
        }
        found.pop("options")
        self.assertEqual(found, {title: names.split() for title, names in GROUPS.items()})

    def test_what_was_meant(self) -> None:
        """A command or an option that is misspelt is told with the one that was meant, wherever it stands; of what is
        like nothing all commands are told."""
        for words, error in (
            (["plna", "osd"], "rekhuso: error: plna: no command; did you mean plan?"),
            (["wahtif"], "rekhuso: error: wahtif: no command; did you mean whatif?"),
            (
                ["plan", "--firts", "3", "osd", "crush"],
                "rekhuso plan: error: --firts: no option; did you mean --first?",
            ),
            (
                ["plan", "osd", "crush", "--untill=1.1"],
                "rekhuso plan: error: --untill: no option; did you mean --until?",
            ),
            (["verify", "osd", "crush", "--pg", "x"], "rekhuso verify: error: --pg: no option; did you mean --pgs?"),
            (["--porgram", "x", "df"], "rekhuso: error: --porgram: no option; did you mean --program?"),
        ):
            with self.subTest(words=words):
                self.assertEqual(told(*words), (2, "", f"{error} (--help tells the use)\n"))
        for words in (["nothing"], ["df", "map", "--nothing"]):
            status, output, errors = told(*words)
            self.assertEqual((status, output, "did you mean" in errors), (2, "", False))
