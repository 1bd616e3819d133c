"""What `run.py` makes of tests: of such as fail, are not run or are killed, over a folder of tests made up here."""

from __future__ import annotations

import os
import pathlib
import shutil
import sys
import tempfile

from tests.cases import HERE, TOP, Case
from tests.packaged import ran

# The modules of this folder that run tests, and what stands beside them.
OWN = ("__init__", "run", "workers", "cases", "runs")
HEAD = """import os, signal, unittest
from tests.cases import Case


class Own(Case):
    is_form = True
"""
# Of three rows two fail; behind them the rest is passed over.
SKIPPED = '''
    def test_rows(self) -> None:
        """Rows."""
        for number in range(3):
            with self.subTest(number):
                self.assertEqual(number, 1)
        self.skipTest("there is no rest")
'''
ROW_SKIPPED = '''
    def test_rows(self) -> None:
        """Rows."""
        for number in range(3):
            with self.subTest(number):
                self.needs("second row", number != 1)
'''
KILLED = '''
    def test_killed(self) -> None:
        """Is killed."""
        os.kill(os.getpid(), signal.SIGKILL)
'''
ALONE = '''
class Alone(Case):
    """Is alone."""

    is_form = is_alone = True

    def test_killed_too(self) -> None:
        """Is killed too."""
        with self.subTest("first"):
            pass
        os._exit(3)

    def test_then(self) -> None:
        """Passes."""
'''
PASSES = '''
    def test_passes(self) -> None:
        """Passes."""
'''
SURPRISES = '''
    @unittest.expectedFailure
    def test_surprises(self) -> None:
        """Passes, where it is to fail."""

    @unittest.expectedFailure
    def test_fails(self) -> None:
        """Fails, as it is to."""
        self.fail("as it is to")
'''
NEEDING = '''
    def test_needing(self) -> None:
        """Asks for the program."""
        self.program
'''


class Runner(Case):
    """The runner over tests that are made up."""

    is_form = True

    def told(self, module: str, *words: object) -> tuple[int, list[str]]:
        """The status and the lines of a run over a module of tests, the lines of faults, of times and of what is
        being run aside."""
        with tempfile.TemporaryDirectory() as folder:
            tests = pathlib.Path(folder, "tests")
            tests.mkdir()
            for name in OWN:
                shutil.copy(HERE / f"{name}.py", tests)
            (tests / "own.py").write_text(HEAD + module)
            status, told = ran([sys.executable, tests / "run.py", "--form", "--total", *words])
        lines = [line.split(" (")[0] for line in told.splitlines() if line[:1] not in (" ", "")]
        lines = [line for line in lines if " runs are done; now: " not in line]
        return status, [line for line in lines if not line.startswith(("FAILED: test_", "Traceback"))]

    def test_skip_behind_failed_rows(self) -> None:
        """A test that is passed over behind failed rows counts as these rows, and as NOT RUN."""
        status, lines = self.told(SKIPPED)
        self.assertEqual(status, 1)
        self.assertEqual(
            lines[:2], ["own: 1 of 3 runs passed, 1 NOT RUN", "own: NOT RUN, since there is no rest: Rows."]
        )
        self.assertEqual(lines[-1], "1 passed, 2 failed")

    def test_row_that_is_passed_over(self) -> None:
        """A row that is passed over is told, and the others count."""
        status, lines = self.told(ROW_SKIPPED)
        wanted = ["own: 2 of 2 runs passed, 1 NOT RUN", "own: NOT RUN, since there is no second row: Rows."]
        self.assertEqual((status, lines), (0, [*wanted, "2 passed, 0 failed"]))

    def test_killed(self) -> None:
        """A test whose process is killed has failed, and the others are run all the same."""
        status, lines = self.told(KILLED + PASSES + ALONE)
        self.assertEqual((status, lines[-1]), (1, "2 passed, 2 failed"))
        self.assertIn("FAILED: tests.own.Own.test_killed", lines)
        self.assertIn("FAILED: tests.own.Alone.test_killed_too", lines)
        self.assertIn("own: 2 of 4 runs passed", lines)

    def test_surprise(self) -> None:
        """A test that is marked as one that fails has failed where it passes, and has passed where it fails."""
        status, lines = self.told(SURPRISES)
        self.assertEqual((status, lines[0], lines[-1]), (1, "own: 1 of 2 runs passed", "1 passed, 1 failed"))

    def test_nothing_chosen(self) -> None:
        """Where no test has the text that chooses some, that is told, and the status is 2; so it is where there is no
        such table."""
        status, lines = self.told(PASSES, "--only", "nothing")
        self.assertEqual((status, lines[-1]), (2, "run.py: no test and no row has 'nothing' in its name"))
        self.assertEqual(self.told(PASSES, "--only", "passes"), (0, ["own: 1 of 1 runs passed", "1 passed, 0 failed"]))
        status, lines = self.told(PASSES, "--table", "nothing")
        self.assertEqual((status, lines), (2, ["run.py: there is no table or module nothing"]))

    def test_form(self) -> None:
        """A test of form that asks for the program fails, also where one is built."""
        status, lines = self.told(NEEDING)
        self.assertEqual((status, lines[0]), (1, "own: 0 of 1 runs passed"))

    def types_under(self, path: object) -> tuple[int, str]:
        """The test of types as a run of all tests has it, with what stands on a path of programs."""
        words = [sys.executable, HERE / "run.py", "--form", "--table", "python_files", "--only", "test_types"]
        return ran(["env", f"PATH={path}", *words])

    def test_what_is_not_run(self) -> None:
        """What is not run for want of a tool is told in the summary of all tests."""
        with tempfile.TemporaryDirectory() as folder:
            status, told = self.types_under(folder)
        first, reason = told.splitlines()
        self.assertEqual((status, first.split(" (")[0]), (0, "python_files: 0 of 0 runs passed, 1 NOT RUN"))
        self.assertStarts(reason, "python_files: NOT RUN, since there is no mypy: `mypy --strict` finds nothing")

    def test_what_has_failed(self) -> None:
        """The summary of all tests names at its end each test that has failed."""
        with tempfile.TemporaryDirectory() as folder:
            mypy = pathlib.Path(folder) / "mypy"
            mypy.write_text("#!/bin/sh\nexit 1\n")
            mypy.chmod(0o755)
            status, told = self.types_under(f"{folder}:{os.environ['PATH']}")
        head, name = told.splitlines()[-2:]
        self.assertEqual((status, head.split(",")[0]), (1, "FAILED: 3 runs"))
        self.assertEqual(name, "    tests.python_files.PythonFiles.test_types: 3")

    def test_targets(self) -> None:
        """The gate runs the tests of form before any proof, and `make form` runs them alone."""
        gate = (TOP / ".ci" / "gate").read_text()
        self.assertIn("\npython3 tests/run.py --form || exit 1\n", gate)
        self.assertLess(gate.index("run.py --form"), gate.index("rt ci"))
        self.assertIn("\nform:\n\t@python3 tests/run.py --form\n", (TOP / "Makefile").read_text())
