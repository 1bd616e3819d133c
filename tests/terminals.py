"""The shell at a terminal, and what long commands tell there."""

from __future__ import annotations

import fcntl
import os
import pathlib
import pty
import re
import select
import struct
import subprocess
import termios
import time
from collections import Counter
from unittest import mock

from tests.cases import EXAMPLE
from tests.clusters import CLUSTERS, STOCK, copied
from tests.tool_cases import AS_MONITOR, ToolCase, Tools
from tests.tool_errors import SECONDS


class Terminal:
    """A shell of the tools at a terminal of its own, of so many columns where these are said."""

    def __init__(self, words: list[str], folder: pathlib.Path, columns: int = 0) -> None:
        self.left, (self.child, self.end) = "", pty.fork()
        if self.child == 0:
            if columns:
                fcntl.ioctl(1, termios.TIOCSWINSZ, struct.pack("HHHH", 50, columns, 0, 0))
            os.chdir(folder)
            os.execvp(words[0], words)

    def type(self, text: str, wanted: str) -> str:
        """What is shown once a text was typed, up to the wanted one; what comes behind it is kept for the next."""
        os.write(self.end, text.encode())
        end = time.monotonic() + SECONDS
        while wanted not in self.left:
            ready, _, _ = select.select([self.end], [], [], max(0, end - time.monotonic()))
            assert ready, f"typed {text!r}: {wanted!r} does not come, only {self.left!r}"
            try:
                self.left += os.read(self.end, 4096).decode("utf-8", "replace")
            except OSError:  # The terminal has gone with its last user.
                raise AssertionError(f"typed {text!r}: ended after {self.left!r}") from None
        found, self.left = self.left.split(wanted, 1)
        return found + wanted

    def close(self) -> int:
        """The status of the shell once its input has ended."""
        os.write(self.end, b"\x04")
        try:
            while os.read(self.end, 4096):
                pass
        except OSError:
            pass
        os.close(self.end)
        return os.waitstatus_to_exitcode(os.waitpid(self.child, 0)[1])


class Terminals(ToolCase):
    """What is shown at a terminal alone."""

    def test_names_in_a_shell(self) -> None:
        """At a terminal the shell takes dumps, tells sets by their names, points at its help, and keeps the lines that
        were typed."""
        prompt, words = "osdmap> ", self.tools.words("shell", *self.tools.dumps("002-built"))
        with mock.patch.dict(os.environ, {"HOME": str(self.tools.folder)}):
            shell = Terminal(words, self.tools.folder)
        shell.type("", prompt)
        found = shell.type("up 1.0\n", prompt)
        for part in ("\r\nup ", "\r\n  ", " in "):
            self.assertIn(part, found)
        self.assertIn("\r\n  help tells the commands\r\n", shell.type("nonsense\n", prompt))
        self.assertEqual(shell.close(), 0)
        history = (self.tools.folder / ".rekhuso_history").read_text().splitlines()
        self.assertEqual(history[-2:], ["up 1.0", "nonsense"])

    def test_signs_in_names(self) -> None:
        """What a name has that a terminal would obey is shown there, and elsewhere stands as it is; a name ends no
        line."""
        name = "\x1b[31mred\nline\u202e\x9b"
        own = copied(CLUSTERS["006-random"])
        own["osd_dump"]["pools"][0]["pool_name"] = name
        own["crush_dump"]["buckets"][0]["name"] = name
        words = ["df", self.tools.put("osd", own["osd_dump"]), self.tools.put("crush", own["crush_dump"])]
        terminal = Terminal(self.tools.words(*words), self.tools.folder)
        found = terminal.type("", "over all pools")
        terminal.close()
        for sign in name.replace("\n", "").replace("[31mredline", ""):
            self.assertNotIn(sign, found.replace("\x1b[K", ""))
        self.assertIn("\\x1b[31mred\\nline\\u202e\\x9b: 16 groups", found)
        output = self.output(*words)
        self.assertIn("\x1b[31mred\\nline\u202e\x9b: 16 groups", output)
        self.assertEqual(
            self.output(*words, "--pools", name), self.output(*words, "--pools", own["osd_dump"]["pools"][0]["pool"])
        )

    def test_bars(self) -> None:
        """On a terminal that has room `df` has a bar of each OSD: as long as its groups by Ceph, and up to its share,
        which is the same for all, in other signs than beyond; where there is no room or no UTF-8 there is none."""
        own = STOCK["001-three-hosts"]
        groups = Counter(f"osd.{osd}" for places, _ in own["up"].values() for osd in places)
        words = self.tools.words("df", self.tools.put("o", own["osd_dump"]), self.tools.put("c", own["crush_dump"]))
        share, most = sum(groups.values()) / len(groups), max(groups.values())
        for columns, language, is_told in (
            (160, "C.UTF-8", True),
            (90, "C.UTF-8", False),
            (160, "en_US.ISO-8859-1", False),
        ):
            named = {"LC_ALL": language, "TERM": "xterm"}
            with self.subTest(columns=columns, language=language), mock.patch.dict(os.environ, named):
                terminal = Terminal(words, self.tools.folder, columns)
                found = terminal.type("", "over all pools")
                terminal.close()
                bars = dict(re.findall(r"(osd\.\d+) +([█░▓]+)\r", found))
                self.assertEqual(set(bars), set(groups) if is_told else set())
                for osd, bar in bars.items():
                    has, lacks, beyond = (bar.count(sign) for sign in "█░▓")
                    self.assertLessEqual(abs(has + beyond - 30 * groups[osd] / most), 1, (osd, bar))
                    self.assertLessEqual(abs(has + lacks - 30 * min(share, groups[osd] if beyond else share) / most), 1)
                    self.assertTrue(not beyond or groups[osd] > share, (osd, bar))
                    self.assertTrue(not lacks or groups[osd] < share, (osd, bar))
        self.assertNotIn("█", self.output("df", "o", "c"))

    def test_long_commands(self) -> None:
        """A command that takes more than two seconds tells on a terminal what it does, in a line that goes before its
        output comes; elsewhere nothing is told."""
        late = self.tools.put("late", f'{AS_MONITOR}sleep 3.5\nexec {self.tools.program} "$@"\n')
        late.chmod(0o755)
        words = Tools(late, self.tools.folder).words("df", EXAMPLE)
        terminal = Terminal(words, self.tools.folder)
        found = terminal.type("", "over all pools")
        self.assertRegex(found, "df: the program opens a map, ([2-9]|[1-9][0-9]+) s")
        self.assertIn("\r\x1b[K", found)
        terminal.close()
        done = subprocess.run(words, capture_output=True, text=True, timeout=SECONDS, check=True)
        self.assertEqual(done.stderr, "")
        self.assertNotIn("\x1b", done.stdout)
