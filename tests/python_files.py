"""How the Python files of the tools, the tests and the benches are written: their types, their lines and their form.

What needs a tool that is not there is not run, and that is told.
"""

from __future__ import annotations

import ast
import shutil
import tempfile

from tests.cases import HERE, TOP, Case
from tests.packaged import ran

TOOLS, BENCH = TOP / "tools", TOP / "bench"
# So many seconds of a processor may a look at files take, however much others run beside it: types take long without
# the cache of another run. One that does nothing is ended after so many by the clock.
SECONDS, CLOCK = 600, 7200
# How many times a type of the tools may be told as `Any`, which says nothing.
ANYS = 60
OWN = [*sorted(TOOLS.glob("*.py")), *sorted((TOOLS / "rekhuso").rglob("*.py"))]
FILES = [*OWN, *sorted(HERE.glob("*.py")), *sorted(BENCH.glob("*.py"))]


def looked(*words: object) -> tuple[int, str]:
    """The status and the output of a command that has so many seconds of a processor."""
    return ran(["sh", "-c", f'ulimit -t {SECONDS}; exec "$@"', "sh", *words], seconds=CLOCK)


def has_black() -> bool:
    """Whether the formatter is there, of the year whose form the tools have: each year's black has a form of its
    own."""
    return shutil.which("black") is not None and ran(["black", "--version"])[1].startswith("black, 23.")


class PythonFiles(Case):
    """Files of Python."""

    is_form = True

    def test_types(self) -> None:
        """`mypy --strict` finds nothing in the tools, the tests and the benches, as Python 3.9 reads them."""
        self.needs("mypy", shutil.which("mypy") is not None)
        with tempfile.TemporaryDirectory() as folder:
            words = [
                "env",
                f"MYPYPATH={TOP}:{TOOLS}:{BENCH}",
                "mypy",
                "--strict",
                "--python-version",
                "3.9",
                "--cache-dir",
                folder,
            ]
            for name, files in (("tools", OWN), ("tests", [HERE]), ("bench", sorted(BENCH.glob("*.py")))):
                with self.subTest(name=name):
                    status, told = looked(*words, *files)
                    self.assertEqual(status, 0, told[-600:])

    def test_lines(self) -> None:
        """No line has more than 120 columns."""
        for path in FILES:
            lines = path.read_text().splitlines()
            long = [number for number, line in enumerate(lines, 1) if len(line) > 120]
            self.assertEqual(long, [], path.relative_to(TOP))

    def test_format(self) -> None:
        """`black`, as pyproject.toml of the tools sets it, finds nothing to do."""
        self.needs("black 23", has_black())
        status, told = looked("black", "--check", "--config", TOOLS / "pyproject.toml", *FILES)
        self.assertEqual(status, 0, told[-600:])

    def test_names(self) -> None:
        """pyflakes finds nothing: no name is imported or set in vain, and none is used that nothing sets."""
        flakes = next((name for name in ("pyflakes3", "pyflakes") if shutil.which(name)), "")
        self.needs("pyflakes (Debian: pyflakes3)", flakes != "")
        self.assertEqual(looked(flakes, *FILES), (0, ""))

    def test_docstrings(self) -> None:
        """Every module, class and function of the tools has its docstring."""
        for path in OWN:
            for node in ast.walk(ast.parse(path.read_text())):
                if isinstance(node, (ast.Module, ast.ClassDef, ast.FunctionDef)):
                    self.assertTrue(ast.get_docstring(node), f"{path.name}: {getattr(node, 'name', 'the module')}")

    def test_what_types_say(self) -> None:
        """`Any` stands for a type at few places, and forms of objects are told in one module of each sub-package that
        has some."""
        names, forms = [], set()
        for path in (TOOLS / "rekhuso").rglob("*.py"):
            for node in ast.walk(ast.parse(path.read_text())):
                names += [path.name] if isinstance(node, ast.Name) and node.id == "Any" else []
                is_form = isinstance(node, ast.ClassDef) and any(
                    isinstance(base, ast.Name) and base.id == "TypedDict" for base in node.bases
                )
                forms |= {path.name} if is_form else set()
        self.assertLessEqual(len(names), ANYS, (len(names), forms))
        self.assertEqual(forms, {"maps.py", "dump_types.py", "json_forms.py"})
