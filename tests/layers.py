"""How the modules of tools/rekhuso and the crates stand on one another, as docs/DESIGN.md draws it, and what the names
and values of the modules are."""

from __future__ import annotations

import ast
import copy
import dataclasses
import graphlib
import importlib
import inspect
import pathlib
import pickle
import re
import sys
import unittest
from collections import Counter, defaultdict
from collections.abc import Iterator

from tests.cases import TOP
from tests.pages import text

TOOLS = TOP / "tools"
sys.path.append(str(TOOLS))

import layers as drawing  # noqa: E402

PACKAGE = TOOLS / "rekhuso"
# Each sub-package stands on those before it, and all of them on the modules beside them.
LAYERS = ("program", "cluster", "plans", "output", "carry", "commands")
ABOVE = dict.fromkeys(("command_line", "uses", "completions", "manuals", "library"), len(LAYERS) + 1)
ABOVE["__init__"] = len(LAYERS) + 2
ABOVE["__main__"] = len(LAYERS) + 3

Import = tuple[pathlib.Path, pathlib.Path, str]


def imports() -> Iterator[Import]:
    """Each name that a module takes from another of the package: the one that takes it, the other, and the name."""
    for file in sorted(PACKAGE.rglob("*.py")):
        for node in ast.walk(ast.parse(file.read_text())):
            if isinstance(node, ast.ImportFrom) and node.level:
                place = file.parents[node.level - 1].joinpath(*(node.module or "").split("."))
                for name in (one.name for one in node.names):
                    ways = (place.with_suffix(".py"), place / f"{name}.py", place / "__init__.py")
                    yield file, next(way for way in ways if way.is_file()), name


def layer_of(file: pathlib.Path) -> int:
    """The layer of a module: 0 for those that stand beside the sub-packages."""
    first, *more = file.relative_to(PACKAGE).parts
    return LAYERS.index(first) + 1 if more else ABOVE.get(file.stem, 0)


def value_classes() -> list[type]:
    """All classes of values, with their fields."""
    found = []
    for file in sorted(PACKAGE.rglob("*.py")):
        parts = file.relative_to(TOOLS).with_suffix("").parts
        if parts[-1] != "__main__":
            module = importlib.import_module(".".join(parts).removesuffix(".__init__"))
            found += [own for own in vars(module).values() if getattr(own, "__module__", "") == module.__name__]
    return [own for own in found if inspect.isclass(own) and dataclasses.is_dataclass(own)]


def is_class(node: ast.AST, name: str) -> bool:
    """Whether a node is a class of a name."""
    return isinstance(node, ast.ClassDef) and node.name == name


def is_name(node: ast.AST, name: str) -> bool:
    """Whether a node is a name by itself."""
    return isinstance(node, ast.Name) and node.id == name


def written(tree: ast.AST) -> Iterator[ast.Attribute]:
    """The attributes that a tree sets, also where it sets an entry of one."""
    for node in ast.walk(tree):
        if isinstance(node, (ast.Attribute, ast.Subscript)) and isinstance(node.ctx, ast.Store):
            own: ast.AST = node
            while isinstance(own, ast.Subscript):
                own = own.value
            if isinstance(own, ast.Attribute):
                yield own


class Layers(unittest.TestCase):
    """Modules, their names and their values."""

    is_form = True

    def test_layers(self) -> None:
        """No module takes a name from a layer above its own."""
        upward = [(str(file), name) for file, other, name in imports() if layer_of(other) > layer_of(file)]
        self.assertEqual(upward, [])

    def test_picture(self) -> None:
        """The picture of docs/DESIGN.md is that of crates.txt and of the imports of the tools"""
        self.assertIn(f"\n\n{drawing.picture(TOP)}\n", text("docs", "DESIGN.md"), "tools/layers.py draws it anew")

    def test_circles(self) -> None:
        """No modules take names from one another in a circle, also not where a function brings them in."""
        below: dict[pathlib.Path, set[pathlib.Path]] = defaultdict(set)
        for file, other, _ in imports():
            below[file].add(other)
        self.assertGreater(len(list(graphlib.TopologicalSorter(below).static_order())), 100)

    def test_names(self) -> None:
        """A name that a module takes from another is of one module, and a class of tools/ has its name alone, so it
        means one thing"""
        homes: dict[str, set[pathlib.Path]] = defaultdict(set)
        for _, other, name in imports():
            homes[name].add(other)
        self.assertEqual({name for name, places in homes.items() if len(places) > 1}, set())
        files = sorted((TOP / "tools").rglob("*.py"))
        classes = Counter(name for file in files for name in re.findall(r"^class (\w+)", file.read_text(), re.M))
        self.assertGreater(len(classes), 100)
        self.assertEqual([name for name, count in classes.items() if count > 1], [])

    def test_doors(self) -> None:
        """Each package says what it offers: what others take from it itself, and no name that it lacks."""
        taken: dict[pathlib.Path, set[str]] = defaultdict(set)
        for _, other, name in imports():
            taken[other].add(name)
        for file in sorted(PACKAGE.rglob("__init__.py")):
            with self.subTest(package=str(file.parent.relative_to(TOOLS))):
                package = importlib.import_module(".".join(file.parent.relative_to(TOOLS).parts))
                self.assertEqual(taken[file] - {*package.__all__}, set())
                self.assertEqual([name for name in package.__all__ if not hasattr(package, name)], [])

    def test_owner(self) -> None:
        """What changes of a map while its pools are planned is changed by its own methods alone."""
        body = next(
            own for own in ast.parse((PACKAGE / "plans" / "rounds.py").read_text()).body if is_class(own, "Live")
        )
        names = {own.attr for own in written(body)}
        self.assertEqual([ast.unparse(own) for own in written(body) if not is_name(own.value, "self")], [])
        self.assertGreater(len(names), 10)
        for file in sorted((PACKAGE / "plans").glob("*.py")):
            others = [own for own in written(ast.parse(file.read_text())) if not is_name(own.value, "self")]
            self.assertEqual([own.lineno for own in others if own.attr in names], [], file.name)

    def test_values(self) -> None:
        """Values that stay as they are have slots, where Python makes them; they can be copied and kept."""
        classes = value_classes()
        self.assertGreater(len(classes), 40)
        for own in classes:
            with self.subTest(own=own.__name__):
                value: object = object.__new__(own)
                names = [field.name for field in dataclasses.fields(own)]
                for at, name in enumerate(names):
                    object.__setattr__(value, name, at)
                if sys.version_info >= (3, 10):
                    self.assertFalse(hasattr(value, "__dict__"), own)
                for other in (copy.copy(value), copy.deepcopy(value), pickle.loads(pickle.dumps(value))):
                    self.assertEqual([getattr(other, name) for name in names], list(range(len(names))))


if __name__ == "__main__":
    unittest.main()
