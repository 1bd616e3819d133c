"""Names of what a map has by number: files of names, names in texts, rules and sets in words."""

from __future__ import annotations

import re
from collections.abc import Iterable, Mapping, Sequence
from typing import Dict

from ..faults import Fault
from ..files import is_text, json_of
from ..program.maps import RuleStep
from ..terminal import in_one_line
from .file_kinds import NAMES, check_kind

# Of each kind of thing, names by numbers as texts.
Names = Dict[str, Dict[str, str]]


def named(names: Names, kind: str, number: int) -> str:
    """The name of a thing, or what stands for it."""
    name: str = names.get(kind, {}).get(str(number), f"osd.{number}" if kind == "osds" else f"{kind[:-1]} {number}")
    return name


def pool_words(names: Names, number: int) -> str:
    """A pool by its number, with the name that it has beside it."""
    name = names.get("pools", {}).get(str(number))
    return f"pool {number}" if name is None else f"pool {number} ({name})"


def with_names(text: str, names: Names) -> str:
    """A text in which buckets, pools, rules and OSDs are told by their names, as far as they have some."""

    def name_of(found: re.Match[str]) -> str:
        """What stands in place of a kind and its number."""
        name: str | None = names.get(f"{found[1]}s", {}).get(found[2])
        return str(found[0]) if name is None else name if found[1] == "osd" else f"{found[1]} {name}"

    return re.sub(r"\b(bucket|pool|rule|osd)[ .](-?[0-9]+)", name_of, text)


NAME_TABLES = ("buckets", "classes", "osds", "pools", "rules", "types")


def names_in(path: str | None) -> dict[str, dict[str, str]]:
    """The names in a file as `import --names` writes it: of each kind, names by numbers as texts; none where there
    is no path. A fault that says the first place where it has another form.
    """
    names = {} if path is None else json_of(path)
    if path is not None:
        check_kind(path, names, NAMES)
    for kind in NAME_TABLES:
        own = names.get(kind, {})
        if not isinstance(own, dict):
            raise Fault(f"{path}: {kind}: no object")
        for number, name in own.items():
            if not re.fullmatch("-?[0-9]{1,20}", number):
                raise Fault(f"{path}: {kind}.{number}: no number")
            if not is_text(name):
                raise Fault(f"{path}: {kind}.{number}: no text")
    return {kind: {number: in_one_line(name) for number, name in names.get(kind, {}).items()} for kind in NAME_TABLES}


def set_words(places: Sequence[int | None]) -> str:
    """A set in brackets."""
    return "[" + ",".join("none" if osd is None else str(osd) for osd in places) + "]"


def step_words(step: RuleStep, names: Names) -> str:
    """A step of a rule in words."""
    if step[0] == "take":
        return f"take {named(names, 'buckets', step[1])}"
    if step[0] == "emit":
        return "emit"
    if step[0].startswith("set_"):
        return f"{step[0].removeprefix('set_').replace('_', ' ')} {step[1]}"
    word, way = step[0].split("_")
    count = "as many as the pool's size" if step[1] == 0 else str(step[1])
    return f"{word} {count} of type {named(names, 'types', step[2])} ({way})"


def with_pool_names(line: str, names: Mapping[int, str]) -> str:
    """A line in which pools that are told by their numbers have their names beside these."""

    def name_of(found: re.Match[str]) -> str:
        """A number with the name that it has."""
        name = names.get(int(found[0]))
        return found[0] if name is None else f"{found[0]} ({name})"

    said = r"(?<!-)\bpool \d+\b|(?<!-)\bpools \d+(?:(?:, | and )\d+)*(?= (?:take|have)\b)"
    return re.sub(said, lambda found: re.sub(r"\d+", name_of, found[0]), line)


def words_of_pools(text: str, known: Mapping[str, int]) -> list[str]:
    """The words of a text with a comma between them; a pool's name that has commas itself is one word, the longest
    that is known.
    """
    parts, found = text.split(","), []
    while parts:
        count = next((count for count in range(len(parts), 1, -1) if ",".join(parts[:count]) in known), 1)
        found.append(",".join(parts[:count]))
        parts = parts[count:]
    return found


def pools_named(texts: Iterable[str], names: Mapping[int, str]) -> set[int]:
    """The pools that texts name, each by an id or a name, or several with a comma between them; what may be both is an
    id. A fault for each word that is neither.
    """
    known = {**{name: number for number, name in names.items() if name}, **{str(number): number for number in names}}
    words = [word for text in texts for word in words_of_pools(in_one_line(text), known)]
    unknown = [word for word in words if word not in known]
    if unknown:
        raise Fault(*(f"no pool {word}" for word in unknown))
    return {known[word] for word in words}
