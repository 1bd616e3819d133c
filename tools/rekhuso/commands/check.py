"""`check`: whether a map, or a change to it, is lawful, by the program's own answer; where it is not, every place at
fault.

A place is a path into the text. Form and limits are told first, and what only a text of the right form can be asked for
once these hold.
"""

from __future__ import annotations

import json
import re
from dataclasses import asdict, dataclass, replace
from typing import Any

from ..cluster.dump_forms import dump_name
from ..cluster.names import Names, names_in, with_names
from ..faults import Fault, Refused, Trouble
from ..files import text_of
from ..output.json_output import put_json
from ..program.defects import change_defects, map_defects
from ..program.map_forms import Defect, REFUSALS
from ..program.maps import Program, needs_stock
from ..program.questions import answers_of, raw_answers
from ..values import SLOTS
from .arguments import MORE, Arguments, Commands, add_json, add_names_file, set_work
from .whatif_words import is_change_text

OWNERS = re.compile(r"(buckets|osds|pools|rules)\[([0-9]+)\]")
REFUSAL_NUMBERS = {name: number for number, name in reversed(REFUSALS.items())}


def whole_number(digits: str) -> int | float:
    """A whole number; what is none for the program either (`-0`, thousands of digits) as a fraction."""
    return int(digits) if digits != "-0" and len(digits) <= 20 else 0.5


def json_or_none(text: str) -> Any:
    """The value of a text, or None where it is none."""
    try:
        return json.loads(text, parse_int=whole_number)
    except (ValueError, RecursionError):
        return None


def owner(value: Any, place: Defect, names: Names) -> str | None:
    """The name of the bucket, OSD, pool or rule of a map in which a place stands; None where it has none."""
    found = OWNERS.match(place.path)
    entries = value.get(found[1]) if found and isinstance(value, dict) else None
    entry = entries[int(found[2])] if found and isinstance(entries, list) else None
    name: str | None = names.get(found[1], {}).get(str(entry.get("id"))) if found and isinstance(entry, dict) else None
    return name


def defect_words(value: Any, place: Defect, names: Names) -> str:
    """A place at fault in words, with the names of what it speaks of."""
    name = owner(value, place, names)
    return f"{replace(place, why=with_names(place.why, names))}" + (f": {name}" if name is not None else "")


class Unlawful(Fault):
    """A map or a change that the program refuses: its name for that, and every place at fault."""

    def __init__(self, path: str, number: int, name: str, value: Any, places: list[Defect], names: Names) -> None:
        """Of a file, where the places stand in a value; what it speaks of is told by its name."""
        super().__init__(f"{path}: refused: {number} {name}", *(defect_words(value, place, names) for place in places))
        found = [
            dict(
                asdict(place),
                name=REFUSALS[place.number],
                why=with_names(place.why, names),
                of=owner(value, place, names),
            )
            for place in places
        ]
        self.parts = {"refused": {"number": number, "name": name}, "places": found}


def check_map(path: str, program: Program, names: Names) -> str:
    """The text of a map that is lawful; `Unlawful` where it is not."""
    text = text_of(path)
    try:
        answers_of(program, text, ["epoch"])
    except Refused as refused:
        value = json_or_none(text)
        dump = dump_name(value)
        if dump is not None:
            raise Trouble(f"{path}: this is {dump}: use import") from None
        places = [] if refused.name == "BadJson" else map_defects(value, needs_stock(text))
        raise Unlawful(path, REFUSAL_NUMBERS[refused.name], refused.name, value, places, names) from None
    return text


@dataclass(frozen=True, **SLOTS)
class CheckOptions:
    """The files of a map and of names, and a change or its file, where there are these; the program; and whether it is
    told as JSON.
    """

    path: str
    change: str | None
    names: str | None
    program: Program
    is_json: bool

    @property
    def of_change(self) -> str:
        """What the change is told as: its path, where it is a file."""
        return "the change" if self.change is None or is_change_text(self.change) else self.change


def options_of(arguments: Arguments) -> CheckOptions:
    """The options of the command line."""
    return CheckOptions(arguments.map, arguments.change, arguments.names, arguments.program, arguments.json)


def checked(options: CheckOptions) -> tuple[str, str | None]:
    """The text of a map, and what the program answers to a change where there is one; `Unlawful` where it refuses
    either.
    """
    names = names_in(options.names)
    text = check_map(options.path, options.program, names)
    if options.change is None:
        return text, None
    is_text = is_change_text(options.change)
    change = (options.change if is_text else text_of(options.change)).strip().removeprefix("change ")
    change = change.replace("\n", " ")
    answer = raw_answers(options.program, text, [f"change {change}"])[0]
    if answer.startswith("err "):
        number, name = answer.split(" ")[1:3]
        found = [] if number == "10" else change_defects(json.loads(text), json_or_none(change), needs_stock(text))
        raise Unlawful(options.of_change, int(number), name, None, found, names)
    return text, answer


def work(options: CheckOptions) -> None:
    """Tells that a map or a change is lawful; as JSON, also that it is not, and where."""
    try:
        text, answer = checked(options)
    except Unlawful as fault:
        if options.is_json:
            put_json("check", None, lawful=False, answer=None, **fault.parts)
        raise
    if options.is_json:
        put_json("check", json.loads(text)["epoch"], lawful=True, answer=answer, refused=None, places=[])
    else:
        print(f"{options.path}: lawful" if answer is None else f"{options.of_change}: lawful: {answer}")


def add_to(commands: Commands) -> None:
    """The subcommand."""
    own = commands.add_parser("check", help="whether a map or a change is lawful, and where not", description=__doc__)
    own.usage = f"%(prog)s MAP [CHANGE] {MORE}"
    own.add_argument("map", metavar="MAP", help="a map, as `import` writes it; - is standard input")
    own.add_argument("change", metavar="CHANGE", nargs="?", help="a change as JSON, or a file with one")
    add_names_file(own)
    add_json(own)
    set_work(own, options_of, work)
