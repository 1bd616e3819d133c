"""What `tools/wrong_bodies.py` makes of what a prover says of wrong bodies; the prover is a script of this test."""

from __future__ import annotations

import os
import pathlib
import shutil
import sys
import tempfile

from tests.cases import TOP, Case
from tests.packaged import ran

# Proves each function but those that hold the word `wrong`, and those that call one.
PROVER = """#!/usr/bin/env python3
import pathlib, re, sys
bodies = dict(re.findall(r"fn (\\w+) (.*)", pathlib.Path("src/lib.rt").read_text()))
asked = [word for flag, word in zip(sys.argv, sys.argv[1:]) if flag == "--only"]
if "unreadable" in str(bodies):
    sys.exit("error: this is no body")
verdicts = {name: "not proved" if "wrong" in body else "proved" for name, body in bodies.items()}
for name, body in bodies.items():
    if verdicts[name] == "proved" and any(verdicts.get(word, "proved") != "proved" for word in body.split()):
        verdicts[name] = "no proof: it calls another, which is not proved"
for name, verdict in verdicts.items():
    print(f"fn small::{name}: {verdict}")
print(f"only={len(asked)} proved={list(verdicts.values()).count('proved')}", flush=True)
"""
SOURCE = "fn low right\nfn high low\nfn alone right too\n"


class WrongBodies(Case):
    """The tool over a crate of three functions, of which one calls another."""

    is_form = True

    def setUp(self) -> None:
        """Makes the crate, and a kit with such a prover."""
        folder = tempfile.TemporaryDirectory()
        self.addCleanup(folder.cleanup)
        self.top = pathlib.Path(folder.name)
        for name in ("tools", "kit/bin", "crates/small/src", "crates/small/wrong-bodies"):
            (self.top / name).mkdir(parents=True)
        for name in ("wrong_bodies.py", "libraries.py"):
            shutil.copy(TOP / "tools" / name, self.top / "tools")
        (self.top / "crates.txt").write_text("small:\n")
        (self.top / "crates" / "small" / "src" / "lib.rt").write_text(SOURCE)
        for name, script in (("rt", ""), ("rattle", PROVER)):
            (self.top / "kit" / "bin" / name).write_text(script)
            (self.top / "kit" / "bin" / name).chmod(0o755)

    def put(self, name: str, function: str, old: str, new: str, more: str = "") -> None:
        """Adds a wrong body."""
        text = f"only: {function}\n{more}file: src/lib.rt\nold: {old}\nnew: {new}\n"
        (self.top / "crates" / "small" / "wrong-bodies" / f"{name}.edit").write_text(text)

    def tried(self, *words: str) -> tuple[int, list[str]]:
        """The status of the tool and its lines."""
        path = f"PATH={self.top / 'kit' / 'bin'}:{os.environ['PATH']}"
        status, told = ran(["env", path, sys.executable, self.top / "tools" / "wrong_bodies.py", *words])
        return status, told.splitlines()

    def test_refused(self) -> None:
        """Bodies that the prover refuses: two side by side, and two of one function after one another."""
        self.put("one", "low", "fn low right", "fn low wrong")
        self.put("two", "alone", "right too", "wrong too")
        self.put("three", "alone", "right too", "right wrong")
        self.assertEqual(self.tried(), (0, ["small: refused: one, three, two", "wrong bodies: 3, faults: 0"]))

    def test_above(self) -> None:
        """A body whose function calls another that is wrong too is judged when that one has been."""
        self.put("calls", "high", "fn high low", "fn high low wrong")
        self.put("is_called", "low", "fn low right", "fn low wrong")
        self.assertEqual(self.tried()[0], 0)
        self.put("calls", "high", "fn high low", "fn high low low")
        self.assertEqual(
            self.tried(), (1, self.told("calls: the prover does not refuse `high`: proved", "calls, is_called"))
        )

    def test_proved(self) -> None:
        """A body that the prover does not refuse, and one that makes another function fail."""
        self.put("right", "low", "fn low right", "fn low right as well")
        self.assertEqual(self.tried(), (1, self.told("right: the prover does not refuse `low`: proved", "right")))
        self.put("right", "low", "fn alone right", "fn alone wrong")
        status, told = self.tried()
        self.assertEqual(status, 1)
        self.assertIn("small: `alone`, whose body is as it was: not proved", told)

    def test_no_verdict(self) -> None:
        """A body that cannot be read, and one that has no place."""
        self.put("unread", "low", "fn low right", "fn low unreadable")
        status, told = self.tried()
        self.assertEqual((status, told[0]), (1, "small: unread: the prover gives no verdict:"))
        self.put("unread", "low", "fn nowhere", "fn low wrong")
        told = self.told("unread: `fn nowhere` stands 0 times in src/lib.rt", "unread")
        self.assertEqual(self.tried(), (1, told))

    def test_long(self) -> None:
        """A body that takes long is tried by `--long` alone."""
        self.put("slow", "low", "fn low right", "fn low wrong", "long\n")
        self.assertEqual(self.tried(), (0, ["wrong bodies: 0, faults: 0"]))
        self.assertEqual(self.tried("--long")[1][-1], "wrong bodies: 1, faults: 0")
        self.assertEqual(self.tried("--long", "small")[1][-1], "wrong bodies: 1, faults: 0")

    def test_unknown_crate(self) -> None:
        """A crate that is not there."""
        status, told = self.tried("small", "great")
        self.assertEqual((status, told[-1]), (2, "wrong_bodies.py: error: crates.txt has no great"))

    def told(self, fault: str, names: str) -> list[str]:
        """The lines of the tool that tell one fault of wrong bodies of these names."""
        count = names.count(",") + 1
        return [f"small: {fault}", f"small: NOT AS IT MUST BE: {names}", f"wrong bodies: {count}, faults: 1"]
