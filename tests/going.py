"""Long commands of the repository tell that they go on, also where no terminal shows it."""

from __future__ import annotations

import re
import subprocess
import sys

from tests.cases import TOP, Case

GOING = TOP / "tools" / "going.py"
SECONDS = 60
# A command that takes two seconds, says something and has a status of its own.
WORDS = ["sh", "-c", "sleep 2; echo done; exit 3"]


class Going(Case):
    """Runs of tools/going.py."""

    is_form = True

    def test_lines(self) -> None:
        """Into a pipe lines tell for how long the command is at work; its output and its status are its own."""
        words = [sys.executable, "-B", str(GOING), "0.5", "make try", *WORDS]
        done = subprocess.run(words, capture_output=True, text=True, timeout=SECONDS, check=False)
        self.assertEqual((done.returncode, done.stdout), (3, "done\n"))
        lines = done.stderr.splitlines()
        self.assertTrue(2 <= len(lines) <= 4, lines)
        for line in lines:
            self.assertTrue(re.fullmatch(r"make try: at work for [0-2] s", line), line)

    def test_try(self) -> None:
        """`make try` runs the kit so."""
        words = ["make", "-n", "try"]
        done = subprocess.run(words, cwd=TOP, capture_output=True, text=True, timeout=SECONDS, check=True)
        self.assertIn("tools/going.py 15 'make try' rt try ", done.stdout)
