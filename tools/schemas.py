#!/usr/bin/env python3
"""Writes the parts of schemas that are forms of the tools anew from these, so that a form is told once.

    schemas.py [ROOT]

A form is a class of `json_forms.py` of a sub-package, and its part of a schema a definition by its name: `osd_fill` is
that of `OsdFillParts`. The form says which keys there are, in which order, of which types, and which of them must be
there; its docstring says what it is. What types do not say stays as it is in the schema: what single keys are, bounds,
words that may stand there, lengths of lists, and definitions of what has no form. A form that another names becomes a
definition too. An object that has the keys of a form beside others names it as its `$comment`.
"""

from __future__ import annotations

import ast
import json
import pathlib
import re
import sys
from typing import Any, NamedTuple

PACKAGE = pathlib.Path("tools", "rekhuso")
TYPES = {"int": "integer", "float": "number", "str": "string", "bool": "boolean"}
# What types of other modules are in JSON.
OTHERS = {"Entry": "array", "Pool": "object"}
# What a schema says of a value beside its type.
MORE = ("description", "enum", "pattern", "minimum", "minItems", "maxItems")


class Form(NamedTuple):
    """What a form says: what it is, the type of each key, and which keys must be there."""

    about: str
    types: dict[str, ast.expr]
    required: list[str]


def name_of(form: str) -> str:
    """The name of the definition of a form."""
    return re.sub(r"\B(?=[A-Z])", "_", form.removesuffix("Parts")).lower()


def about_of(node: ast.ClassDef) -> str:
    """What a form is, as JSON has it."""
    words = " ".join((ast.get_docstring(node) or "").split())
    return re.sub(r"\bNone\b", "null", words.replace("`", ""))


def forms_of(root: pathlib.Path) -> dict[str, Form]:
    """The forms by the names of their definitions. One that stands on another has the keys of that first."""
    found: dict[str, Form] = {}
    # A form stands on such as stand before it, and modules on those of lower layers.
    files = [root / PACKAGE / part / "json_forms.py" for part in ("cluster", "plans")]
    for node in (node for file in files for node in ast.parse(file.read_text(encoding="utf-8")).body):
        if isinstance(node, ast.ClassDef):
            bases = [base.id for base in node.bases if isinstance(base, ast.Name) and base.id != "TypedDict"]
            types, required = {}, list[str]()
            for base in (found[name_of(base)] for base in bases):
                types.update(base.types)
                required += base.required
            own = {
                one.target.id: one.annotation
                for one in node.body
                if isinstance(one, ast.AnnAssign) and isinstance(one.target, ast.Name)
            }
            is_total = not any(word.arg == "total" for word in node.keywords)
            found[name_of(node.name)] = Form(about_of(node), {**types, **own}, [*required, *(own if is_total else ())])
    return found


class SchemaWriter:
    """Writes the definitions of a schema anew."""

    def __init__(self, forms: dict[str, Form], schema: Any) -> None:
        """Takes the forms, and the schema as it was."""
        self.forms, self.schema, self.old = forms, schema, dict(schema.get("$defs", {}))
        self.new: dict[str, Any] = {name: own for name, own in self.old.items() if name not in forms}

    def written(self) -> Any:
        """The schema with each definition that is a form's, also such as others name. None is left that nothing
        names."""
        for name in [name for name in self.old if name in self.forms]:
            self.define(name, self.old[name])
        whole = self.extended({**self.schema, "$defs": self.new})
        self.new = whole.pop("$defs")
        order = [*self.old, *sorted(self.new.keys() - self.old.keys())]
        named = set(re.findall(r'"#/\$defs/(\w+)"', json.dumps([whole, self.new])))
        defs = {name: self.new[name] for name in order if name in named}
        return {**whole, "$defs": defs} if defs else whole

    def extended(self, part: Any) -> Any:
        """A part of the schema, in which each object that names a form has the keys of that."""
        if isinstance(part, list):
            return [self.extended(one) for one in part]
        if not isinstance(part, dict):
            return part
        found = {key: self.extended(one) for key, one in part.items()}
        if part.get("$comment") in self.forms:
            form, before = self.forms[part["$comment"]], found["properties"]
            found["properties"] = {
                **before,
                **{key: self.value(own, before.get(key, {})) for key, own in form.types.items()},
            }
            found["required"] = [*found["required"], *(key for key in form.required if key not in found["required"])]
        return found

    def define(self, name: str, old: Any) -> None:
        """Writes a definition, with what it said before beside types."""
        if name not in self.new:
            form, before = self.forms[name], old.get("properties", {})
            self.new[name] = {"type": "object", "description": form.about}
            parts = {key: self.value(own, before.get(key, {})) for key, own in form.types.items()}
            self.new[name].update(properties=parts, required=form.required)

    def value(self, kind: ast.expr, old: Any) -> Any:
        """What a schema says of a value of a type, and what it said beside that."""
        if isinstance(kind, ast.BinOp):
            found = self.value(kind.left, next(iter(old.get("anyOf", [])), old))
            if "type" in found and "enum" not in found:
                return {**found, "type": [found["type"], "null"]}
            return {"anyOf": [found, {"type": "null"}]}
        found = self.single(kind, old)
        kept = self.old.get(old.get("$ref", "").rpartition("/")[2], {})
        if "$ref" in old and "$ref" not in found and kept.get("type") == found["type"]:
            return old
        return {**found, **{key: old[key] for key in MORE if key in old}}

    def single(self, kind: ast.expr, old: Any) -> Any:
        """The type of a value, which is not null."""
        if isinstance(kind, ast.Subscript) and isinstance(kind.value, ast.Name) and kind.value.id == "list":
            return {"type": "array", "items": self.value(kind.slice, old.get("items", {}))}
        assert isinstance(kind, ast.Name), ast.unparse(kind)
        if kind.id in TYPES:
            return {"type": TYPES[kind.id]}
        if kind.id in OTHERS:
            return {"type": OTHERS[kind.id], **({"items": old["items"]} if "items" in old else {})}
        self.define(name_of(kind.id), self.old.get(name_of(kind.id), old))
        return {"$ref": f"#/$defs/{name_of(kind.id)}"}


def renewed(forms: dict[str, Form], text: str) -> str:
    """The text of a schema with its definitions written anew."""
    return json.dumps(SchemaWriter(forms, json.loads(text)).written(), indent=1, ensure_ascii=False) + "\n"


def main() -> None:
    """Writes all schemas anew."""
    root = pathlib.Path(sys.argv[1] if len(sys.argv) > 1 else pathlib.Path(__file__).parent.parent)
    forms = forms_of(root)
    for path in sorted((root / PACKAGE / "schemas").glob("*.json")):
        path.write_text(renewed(forms, path.read_text(encoding="utf-8")), encoding="utf-8")


if __name__ == "__main__":
    main()
