"""The keys of maps and changes: what the program reads is what docs/FORMATS.md tells and what the tools know."""

from __future__ import annotations

import re
import unittest

from rekhuso.program import maps
from rekhuso.program.map_forms import CHANGE_KEYS, PARTS, STOCK, Form, bucket, change_form, map_form, osd, pool, rule

from tests.cases import Case
from tests.pages import text

# The objects of texts: where their keys stand in `partjson`, the form that the tools have of each, and the tools' type.
FORMS: dict[str, tuple[str, Form]] = {
    "a map": ("map", map_form(True, True)),
    "a bucket": ("forest", bucket(True)),
    "a rule": ("rules", rule(True, True)),
    "a pool": ("pools", pool(STOCK)),
    "an OSD": ("pools", osd(STOCK)),
    "a change": ("change", change_form(True)),
}
TYPES: dict[str, type] = {
    "a map": maps.Map,
    "a bucket": maps.Bucket,
    "a rule": maps.Rule,
    "a pool": maps.Pool,
    "an OSD": maps.Osd,
}
# The keys of a map whose entries are objects of a kind.
OF_OBJECTS = {"buckets": "a bucket", "rules": "a rule", "pools": "a pool", "osds": "an OSD"}
# A key where it is read, behind its kind.
KEY = r'^ +(?:\w+: )?(?:[A-Z]|\$)\w+ "(\w+)",?\n'


def read_keys(module: str) -> list[set[str]]:
    """The keys of each object that a module of `partjson` reads, as they stand beside one another."""
    source = text("crates", "partjson", "src", f"{module}.rt")
    runs = [found[0] for found in re.finditer(f"(?:{KEY})+", source, re.M)]
    return [set(re.findall(KEY, run, re.M)) for run in runs]


def told_keys(heading: str) -> list[str]:
    """The keys of the first table below a heading of docs/FORMATS.md, in its order."""
    page = text("docs", "FORMATS.md").split(f"\n## {heading}\n")[1]
    rows = re.findall(r"^\| (`.*?`) \|", page.split("\n\n| Key |")[1].split("\n\n")[0], re.M)
    return [key for row in rows for key in re.findall(r"`(\w+)`", row)]


def known_keys(form: Form) -> set[str]:
    """The keys that a form asks for, or takes."""
    words = {key for module, _ in FORMS.values() for keys in read_keys(module) for key in keys}
    strange = {fault.path for fault in form(dict.fromkeys(words), "") if fault.why == "an unknown key"}
    return words - strange | {fault.path for fault in form({}, "") if fault.why == "missing"}


class Keys(Case):
    """The keys of objects."""

    is_form = True

    def test_forms(self) -> None:
        """The tools' form of each object has the keys that the program reads, and no other"""
        for what, (module, form) in FORMS.items():
            with self.subTest(what=what):
                known = known_keys(form)
                self.assertGreater(len(known), 2)
                self.assertIn(known, read_keys(module))

    def test_types(self) -> None:
        """The tools' type of each object has the keys of its form"""
        for what, own in TYPES.items():
            with self.subTest(what=what):
                self.assertEqual({*own.__annotations__}, known_keys(FORMS[what][1]))

    def test_page(self) -> None:
        """docs/FORMATS.md tells the keys of each object, those of a change in the order of its parts"""
        self.assertEqual(set(told_keys("The map")), known_keys(FORMS["a map"][1]))
        rows = re.findall(r"^\| `(\w+)` \|[^|]*objects `{(.*?)}`", text("docs", "FORMATS.md"), re.M)
        objects = {OF_OBJECTS[key]: set(re.findall(r"\w+", keys)) for key, keys in rows}
        self.assertEqual(objects, {what: known_keys(FORMS[what][1]) for what in OF_OBJECTS.values()})
        self.assertEqual(told_keys("A change"), ["base", *PARTS])
        self.assertEqual(CHANGE_KEYS, known_keys(FORMS["a change"][1]))


if __name__ == "__main__":
    unittest.main()
