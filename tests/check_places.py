"""The places that `tools/rekhuso check` finds, beside the refusals of the tables.

Each refused map or change has a place of its refusal's number, and each that is accepted has none.
"""

from __future__ import annotations

import functools
from typing import Any

from rekhuso.commands.check import REFUSAL_NUMBERS, json_or_none
from rekhuso.program.defects import change_defects, map_defects

from tests.cases import Case
from tests.rows import table
from tests.runs import Run

# Texts of more bytes are passed over, since they take long and their places are those of shorter ones.
MOST = 100_000
# So many runs of one script over a map there are at least in the tables.
LEAST = 1_000
# A text that is none has no places; memory, the journal and commands are not the text's.
ELSEWHERE = ("10", "28", "29", "30", "31", "32", "33", "34")


@functools.lru_cache(maxsize=64)
def read(text: str) -> tuple[Any, list[int]]:
    """The value of a map's text, None where there is none, and the numbers of its places at fault."""
    value = json_or_none(text) if len(text) <= MOST else None
    return value, [] if value is None else [place.number for place in map_defects(value)]


def map_fault(run: Run) -> str | None:
    """What is wrong with the places of a run's map, or None; None too where the map is no JSON text."""
    (value, numbers), error = read(str(run.files["map"])), run.error or ""
    if value is None or not isinstance(error, str):
        return None
    if error.startswith("map: ") and error.strip() != "map: BadJson":
        wanted = REFUSAL_NUMBERS[error.strip().removeprefix("map: ")]
        return None if wanted == min(numbers, default=0) else f"{run.name}: wanted {wanted}, found {numbers[:5]}"
    return f"{run.name}: accepted, found {numbers[:5]}" if numbers and run.status == 0 else None


def change_faults(run: Run) -> list[str]:
    """What is wrong with the places of a run's changes, up to the first that is accepted."""
    found: list[str] = []
    value, places = read(str(run.files["map"]))
    if value is None or run.status != 0 or places:
        return found
    lines = [line for line in str(run.files["script"]).split("\n") if line]
    for line, answer in zip(lines, (run.output or "").split("\n")[1:]):
        change = (
            json_or_none(line.removeprefix("change ")) if line.startswith("change ") and len(line) <= MOST else None
        )
        number = answer.split(" ")[1] if answer.startswith("err ") else None
        if len(line) > MOST and number is None:
            break
        if change is None or number in ELSEWHERE:
            continue
        numbers = [place.number for place in change_defects(value, change)]
        if numbers and number is None or number is not None and int(number) not in numbers:
            found.append(f"{run.name}: {line[:100]}: wanted {number}, found {numbers[:5]}")
        if number is None:
            break
    return found


class CheckPlaces(Case):
    """What `check` finds, and what the program refuses."""

    def test_places(self) -> None:
        """The places at fault that `check` tells, beside the refusals of all tables."""
        compared = 0
        for run in (run for name in ("worked", "changes", "growth", "limits", "texts") for run in table(name)):
            is_text = all(isinstance(run.files.get(name), str) for name in ("map", "script"))
            if is_text and isinstance(run.output, str):
                self.assertIsNone(map_fault(run), run.place)
                self.assertEqual(change_faults(run), [], run.place)
                compared += 1
        self.assertGreaterEqual(compared, LEAST, "runs compared")
