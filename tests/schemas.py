"""What commands tell as JSON beside the schemas of the package, which are files of JSON Schema.

The schemas leave room for keys to come; here a key that they do not tell is a fault.
"""

from __future__ import annotations

import ast
import functools
import json
import re
import sys
import unittest
from collections.abc import Iterator
from typing import Any

from tests.cases import TOP

from rekhuso.cluster import judge
from rekhuso.cluster.reasons import kinds

sys.path.append(str(TOP / "tools"))

import schemas as forms  # noqa: E402

SCHEMAS = TOP / "tools" / "rekhuso" / "schemas"
# What a schema may say here. What none of these tells is not looked at, so no schema has it.
KNOWN = {
    "$schema",
    "$comment",
    "$defs",
    "$ref",
    "title",
    "description",
    "type",
    "properties",
    "required",
    "items",
    "anyOf",
    "const",
}
KNOWN |= {"enum", "pattern", "minimum", "minItems", "maxItems"}
TYPES: dict[str, Any] = {
    "object": dict,
    "array": list,
    "string": str,
    "integer": int,
    "number": (int, float),
    "boolean": bool,
    "null": type(None),
}


@functools.lru_cache(maxsize=None)
def schema_of(command: str) -> Any:
    """The schema of what a command tells."""
    return json.loads((SCHEMAS / f"{command}.json").read_text(encoding="utf-8"))


def is_type(value: object, name: str) -> bool:
    """Whether a value is of a type of JSON Schema: true and false are no numbers."""
    return isinstance(value, TYPES[name]) and (name == "boolean" or not isinstance(value, bool))


class Validator:
    """Looks for what of a value is not as a schema says."""

    def __init__(self, top: Any) -> None:
        self.top = top

    def faults(self, value: Any, schema: Any, path: str) -> Iterator[str]:
        """Each place at fault, with why."""
        if "$ref" in schema:
            yield from self.faults(value, self.top["$defs"][schema["$ref"].rpartition("/")[2]], path)
        if "anyOf" in schema:
            ways = [list(self.faults(value, way, path)) for way in schema["anyOf"]]
            yield from min(ways, key=len)
        if "const" in schema and value != schema["const"] or value not in schema.get("enum", [value]):
            yield f"{path}: {value!r}"
        kinds = schema.get("type", [])
        if kinds and not any(is_type(value, kind) for kind in ([kinds] if isinstance(kinds, str) else kinds)):
            yield f"{path}: {value!r} is no {kinds}"
        elif isinstance(value, dict):
            yield from self.of_object(value, schema, path)
        elif isinstance(value, list):
            yield from self.of_list(value, schema, path)
        elif isinstance(value, str) and not re.search(schema.get("pattern", ""), value):
            yield f"{path}: {value!r} is not as {schema['pattern']}"
        elif isinstance(value, (int, float)) and value < schema.get("minimum", value):
            yield f"{path}: {value} is less than {schema['minimum']}"

    def of_object(self, value: Any, schema: Any, path: str) -> Iterator[str]:
        """What of an object is at fault; one without properties may have any."""
        known = schema.get("properties", {})
        yield from (f"{path}.{key}: missing" for key in schema.get("required", []) if key not in value)
        yield from (f"{path}.{key}: not told by the schema" for key in value if known and key not in known)
        for key in value.keys() & known.keys():
            yield from self.faults(value[key], known[key], f"{path}.{key}")

    def of_list(self, value: Any, schema: Any, path: str) -> Iterator[str]:
        """What of a list is at fault."""
        if not schema.get("minItems", 0) <= len(value) <= schema.get("maxItems", len(value)):
            yield f"{path}: {len(value)} entries"
        for at, entry in enumerate(value):
            yield from self.faults(entry, schema.get("items", {}), f"{path}[{at}]")


def faults_of(told: Any) -> list[str]:
    """What of an object that a command tells is not as the schema of the command says."""
    schema = schema_of(told["command"])
    return list(Validator(schema).faults(told, schema, told["command"]))


def parts(schema: Any) -> Iterator[Any]:
    """A schema and all schemas in it."""
    yield schema
    below = [*schema.get("$defs", {}).values(), *schema.get("properties", {}).values(), *schema.get("anyOf", [])]
    for part in below + ([schema["items"]] if "items" in schema else []):
        yield from parts(part)


class Schemas(unittest.TestCase):
    """The schemas themselves; the tests of commands hold what these tell to them."""

    is_form = True

    def test_commands(self) -> None:
        """Each command that has `--json` has a schema and a row in docs/COMMANDS.md, and no other; but for refusals."""
        files = (TOP / "tools" / "rekhuso" / "commands").glob("*.py")
        found = re.findall(r'put_json\(\s*"(\w+)"', "".join(file.read_text() for file in files))
        self.assertEqual({path.stem for path in SCHEMAS.glob("*")}, {*found, "refusal"})
        rows = (TOP / "docs" / "COMMANDS.md").read_text().split("\n## JSON\n")[1].split("\n### ")[0]
        self.assertEqual(set(re.findall(r"^\| `(\w+)` \|", rows, re.M)), set(found))

    def test_forms(self) -> None:
        """A schema says what is looked at here alone; what it requires it has, and what it has is used."""
        for path in sorted(SCHEMAS.glob("*.json")):
            with self.subTest(name=path.stem):
                schema = json.loads(path.read_text())
                every = list(parts(schema))
                self.assertEqual({key for part in every for key in part} - KNOWN, set())
                for part in every:
                    self.assertLessEqual(set(part.get("required", [])), set(part.get("properties", {})))
                used = {part["$ref"].removeprefix("#/$defs/") for part in every if "$ref" in part}
                self.assertEqual(used, set(schema.get("$defs", {})))

    def test_forms_of_the_tools(self) -> None:
        """What is a form of the tools is in each schema as `tools/schemas.py` writes it, and one definition by its name
        is one in all of them"""
        own, found = forms.forms_of(TOP), dict[str, Any]()
        for path in sorted(SCHEMAS.glob("*.json")):
            with self.subTest(name=path.stem):
                text = path.read_text(encoding="utf-8")
                self.assertEqual(forms.renewed(own, text), text, "tools/schemas.py writes it anew")
                for name, part in json.loads(text).get("$defs", {}).items():
                    if name in own:
                        self.assertEqual(found.setdefault(name, part), part, name)
        self.assertGreater(len(found), 30)

    def test_other_form(self) -> None:
        """A form with one more key, and one that is of another type, is told by the schema that is written anew"""
        own, text = forms.forms_of(TOP), (SCHEMAS / "whatif.json").read_text(encoding="utf-8")
        count, flow = own["count"], own["flow"]
        more = count._replace(types={**count.types, "more": ast.Name("str")}, required=[*count.required, "more"])
        others = {**own, "count": more, "flow": flow._replace(types={**flow.types, "notes": ast.Name("int")})}
        new = json.loads(forms.renewed(others, text))
        self.assertEqual(new["$defs"]["count"]["properties"]["more"], {"type": "string"})
        self.assertEqual(new["$defs"]["count"]["required"], ["groups", "places", "more"])
        self.assertEqual(new["$defs"]["bucket"]["properties"]["notes"], {"type": "integer"})

    def test_codes(self) -> None:
        """Each code of a reason stands in the schemas, in docs/COMMANDS.md, and in a module that gives it."""
        page = (TOP / "docs" / "COMMANDS.md").read_text()
        cluster, plans = TOP / "tools" / "rekhuso" / "cluster", TOP / "tools" / "rekhuso" / "plans"
        texts = "".join(path.read_text() for path in [*cluster.rglob("*.py"), *plans.rglob("*.py")])
        for codes, name in ((kinds.CODES, "import"), (judge.CODES, "hold"), (judge.CODES, "drain")):
            enums = [part["enum"] for part in parts(schema_of(name)) if "enum" in part]
            self.assertIn(list(codes), enums)
            for code in codes:
                with self.subTest(code=code):
                    self.assertIn(f"`{code}`", page)
                    self.assertGreater(texts.count(f'"{code.removesuffix(kinds.BARE)}"'), 1)

    def test_faults(self) -> None:
        """What is not as a schema says is found, and where."""
        good: dict[str, object] = {"command": "net", "epoch": 3, "version": 1, "change": {}, "commands": ["x"]}
        self.assertEqual(faults_of(good), [])
        cases: list[tuple[dict[str, object], list[str]]] = [
            ({"version": 2}, ["net.version: 2"]),
            ({"epoch": True}, ["net.epoch: True is no ['integer', 'null']"]),
            ({"epoch": -1}, ["net.epoch: -1 is less than 0"]),
            ({"commands": [1]}, ["net.commands[0]: 1 is no string"]),
            ({"more": 1}, ["net.more: not told by the schema"]),
        ]
        for other, told in cases:
            with self.subTest(told=told):
                self.assertEqual(faults_of({**good, **other}), told)
        self.assertEqual(faults_of({key: own for key, own in good.items() if key != "change"}), ["net.change: missing"])


if __name__ == "__main__":
    unittest.main()
