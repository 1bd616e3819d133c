"""The language of the tables beside this file: each row of one becomes runs of the program.

A table is a JSON file of rows. A row has a name, a map (one device where it has none), a script (`epoch` where it has
none), and the answers, or by which name the map is refused. Whole maps stand in maps.json alone, each an object, or a
text where its order or its spaces matter. The map of a row is a name of it; or such a map (`of`) with values put at
paths (`values`) and texts replaced (`texts`); or a bare text that is no map (`raw`). A line of a script is a text, or a
change as an object; an answer is a text, or the dump of a map. Where a row stands for many runs, or for many lines, a
key says so: `each_values`, `each_text`, `each_kind` (at each of `paths`), `each_without`, `beginnings_of_map`; `lines`
(each with its answer), `each_line` (one answer to all), `sets` (groups and what they are placed on),
`beginnings_of_change`. A row with `sessions` has a script and the answers of each, and runs them at once. A row with
`stock` is run under `--stock`. A row with `arguments` says all itself: files, standard output, standard error, status.
OSDs, pools and entries repeated in a list are written as `filled` below reads them, and texts as `text_of` does.
"""

from __future__ import annotations

import dataclasses
import json
import pathlib
import re
from collections.abc import Callable, Iterable, Iterator
from typing import Any

from tests.runs import Run
from tests.whole_maps import osd_of, pool_of

HERE = pathlib.Path(__file__).resolve().parent
Row = dict[str, Any]
Map = dict[str, Any]


# Texts and maps of a table


def written(value: object) -> str:
    """The written form: compact, keys in byte order."""
    return json.dumps(value, separators=(",", ":"), sort_keys=True)


def numbered(value: Any, number: int) -> Any:
    """An entry with its number in place of `#`, its negative of `-#`; in a text, of `#d`, in hexadecimal `#x`."""
    if isinstance(value, str):
        if value in ("#", "-#"):
            return number if value == "#" else -number
        return value.replace("#x", f"{number:x}").replace("#d", str(number))
    if isinstance(value, list):
        return [numbered(entry, number) for entry in value]
    if isinstance(value, dict):
        return {key: numbered(entry, number) for key, entry in value.items()}
    return value


def whole(said: dict[str, Any]) -> dict[str, Any]:
    """An OSD or a pool, by its number and by what it has other than most have; else what is said."""
    if "osd" in said:
        return {**osd_of(said.pop("osd")), **said}
    if "pool" in said:
        return {**pool_of(said.pop("pool"), said.get("pg_num", 1)), **said}
    return said


def filled(value: Any) -> Any:
    """A value in which `{"osd": n}` stands for an OSD that is up and in, and `{"pool": n}` for a replicated pool of one
    copy and one group, with what else is said there in place of that; a pool's groups are placed by as many. In a list
    `{"every": entry, "times": n}` stands for n entries, and `{"every": entry, "from": a, "to": b}` for one for each
    number from a to b."""
    if isinstance(value, dict):
        return whole({key: filled(entry) for key, entry in value.items()})
    if not isinstance(value, list):
        return value
    entries: list[Any] = []
    for entry in value:
        if not (isinstance(entry, dict) and "every" in entry):
            entries.append(filled(entry))
        elif "times" in entry:
            entries += [filled(entry["every"])] * entry["times"]
        else:
            entries += [numbered(filled(entry["every"]), n) for n in range(entry["from"], entry["to"] + 1)]
    return entries


MAPS: dict[str, Any] = filled(json.loads((HERE / "maps.json").read_text()))


def text_of(parts: str | Iterable[tuple[str, int]]) -> str:
    """A text, or the text of parts `[text, times]`. A backtick stands for a double quote."""
    text = parts if isinstance(parts, str) else "".join(part * times for part, times in parts)
    return text.replace("`", '"')


def place_of(value: Any, path: str) -> tuple[Any, Any]:
    """What holds the last word of a path, as `pools/0/size`, and that word."""
    *way, last = [int(word) if word.isdigit() else word for word in path.split("/")]
    for word in way:
        value = value[word]
    return value, last


def with_values(value: Map, values: dict[str, Any]) -> Map:
    """A map with the values at some paths replaced, or put there."""
    copy: Map = json.loads(json.dumps(value))
    for path, new in values.items():
        place, last = place_of(copy, path)
        place[last] = filled(new)
    return copy


def without(value: Map, path: str) -> Map:
    """A map without the key at a path."""
    copy: Map = json.loads(json.dumps(value))
    place, last = place_of(copy, path)
    del place[last]
    return copy


def replaced(text: str, old: str, new: str) -> str:
    """A text with another for one that stands in it."""
    old, new = text_of(old), text_of(new)
    if old not in text:
        raise ValueError(f"{old} is not in the text")
    return text.replace(old, new, 1)


def map_text(about: str | Row) -> str:
    """The text of a map: by its name, as a bare text, or with values or texts replaced."""
    if isinstance(about, str):
        return written(MAPS[about]) if isinstance(MAPS[about], dict) else text_of(MAPS[about])
    if "raw" in about:
        return text_of(about["raw"])
    text = written(with_values(MAPS[about["of"]], about.get("values", {})))
    for old, new in about.get("texts", []):
        text = replaced(text, old, new)
    return text


def line_text(line: Any) -> str:
    """A line of a script or an answer: a text or its parts, a change as an object, or the dump of a map, which may be a
    follower's (`fdump`)."""
    if isinstance(line, dict):
        for word in ("dump", "fdump"):
            if word in line:
                return word + " " + map_text(line[word])
        return "change " + json.dumps(filled(line), separators=(",", ":"))
    return text_of(line)


def lines_text(lines: Iterable[Any]) -> str:
    """The text of some lines."""
    return "".join(line_text(line) + "\n" for line in filled(list(lines)))


# Runs of a row


def options_of(row: Row) -> list[str]:
    """The options that the runs of a row begin with."""
    return ["--stock"] * row.get("stock", False) + (["--journal", row["journal"]] if "journal" in row else [])


def one_run(row: Row, name: str = "", about: Any = None, **more: Any) -> Run:
    """The run of a row over one map, which may have another name, map, script or answers than the row."""
    row = {"map": "one device", "script": ["epoch"], **row, **more}
    script, text = row["script"], map_text(row["map"] if about is None else about)
    files: dict[str, Any] = {"map": text, "script": script if isinstance(script, str) else lines_text(script)}
    arguments = [*options_of(row), "map", "script"]
    if "refused" in row:
        return Run(name or row["name"], files, error=f"map: {row['refused']}\n", status=2, arguments=arguments)
    return Run(name or row["name"], files, "session 1\n" + lines_text(row["answers"]), arguments=arguments)


def of_sessions(row: Row, about: Any) -> Iterator[Run]:
    """The run of a row whose sessions have a script and answers each."""
    files: dict[str, Any] = {"map": map_text(about)}
    output = ""
    for number, (script, answers) in enumerate(filled(row["sessions"]), 1):
        files[f"script-{number}"] = lines_text(script)
        output += f"session {number}\n" + lines_text(answers)
    yield Run(row["name"], files, output, arguments=[*options_of(row), *files])


def of_arguments(row: Row, about: Any) -> Iterator[Run]:
    """The run of a row that says all itself."""
    files: dict[str, Any] = {"map": map_text(about), "script": "epoch\n"}
    for path, data in row.get("files", {}).items():
        if isinstance(data, dict):
            data = map_text(data["map"])
        files[path] = lines_text(data) if isinstance(data, list) else data
    for path in row.get("without", []):
        del files[path]
    wanted = {key: row[key] for key in ("output", "error", "status", "sink") if key in row}
    yield Run(row["name"], files, arguments=filled(row["arguments"]), **wanted)


def of_values(row: Row, about: Any) -> Iterator[Run]:
    """A run for each case of values that are put at paths of a map."""
    for case in row["each_values"]:
        yield one_run(row, f"{row['name']}: {json.dumps(case)[:150]}", {"of": about, "values": case})


def of_texts(row: Row, about: Any) -> Iterator[Run]:
    """A run for each case of a text that is replaced in a map's."""
    for case in row["each_text"]:
        yield one_run(row, f"{row['name']}: {json.dumps(case)[:150]}", {"of": about, "texts": [case]})


def of_sets(row: Row, about: Any) -> Iterator[Run]:
    """The run that asks for groups, each with its answer."""
    epoch = json.loads(map_text(about))["epoch"]
    answers = [f"up {epoch} {group} {places}" for group, places in row["sets"].items()]
    yield one_run(row, script=[f"up {group}" for group in row["sets"]], answers=answers)


def of_kinds(row: Row, about: Any) -> Iterator[Run]:
    """A run for each value at each of some paths."""
    for path in row["paths"]:
        for kind in row["each_kind"]:
            yield one_run(row, f"{row['name']}: {path} {json.dumps(kind)}", {"of": about, "values": {path: kind}})


def of_missing(row: Row, about: Any) -> Iterator[Run]:
    """A run for each key that a map is without."""
    for path in row["each_without"]:
        yield one_run(row, f"{row['name']}: {path}", {"raw": written(without(MAPS[about], path))})


def of_lines(row: Row, _: Any) -> Iterator[Run]:
    """The run of lines that stand beside their answers."""
    lines, answers = zip(*row["lines"])
    yield one_run(row, script=lines, answers=answers)


def of_each_line(row: Row, _: Any) -> Iterator[Run]:
    """The run of lines that all have one answer."""
    yield one_run(row, script=row["each_line"], answers=[row["answer"]] * len(row["each_line"]))


def of_map_beginnings(row: Row, about: Any) -> Iterator[Run]:
    """A run for each proper beginning of a map's text."""
    text = map_text(about)
    for length in range(len(text)):
        yield one_run(row, f"{row['name']}: {length} bytes", {"raw": text[:length]})


def of_change_beginnings(row: Row, _: Any) -> Iterator[Run]:
    """The run of all proper beginnings of a change's text."""
    text = text_of(row["beginnings_of_change"])
    lines = ["change " + text[:length] for length in range(len(text))] + ["epoch"]
    yield one_run(row, script=lines, answers=["err 10 BadJson"] * len(text) + ["epoch 1"])


# What a row with a key stands for.
KEYS: dict[str, Callable[[Row, Any], Iterator[Run]]] = {
    "sessions": of_sessions,
    "arguments": of_arguments,
    "each_values": of_values,
    "each_text": of_texts,
    "sets": of_sets,
    "each_kind": of_kinds,
    "each_without": of_missing,
    "lines": of_lines,
    "each_line": of_each_line,
    "beginnings_of_map": of_map_beginnings,
    "beginnings_of_change": of_change_beginnings,
}


def runs_of(row: Row) -> Iterator[Run]:
    """The runs of a row of a table."""
    made = next((make for key, make in KEYS.items() if key in row), None)
    return made(row, row.get("map", "one device")) if made else iter([one_run(row)])


def numbered_rows(text: str) -> Iterator[tuple[int, Row]]:
    """The rows of a table's text, each with the line at which it begins."""
    head, decoder = '\n "runs": [', json.JSONDecoder()
    end, line = text.index(head) + len(head), 1 + text.count("\n", 0, text.index(head) + len(head))
    while found := re.compile(r"[\s,]*(?=\{)").match(text, end):
        line += found.group().count("\n")
        row, end = decoder.raw_decode(text, found.end())
        yield line, row
        line += text.count("\n", found.end(), end)


def table(name: str) -> Iterator[Run]:
    """The runs of a table, each with the file and the line of its row."""
    for line, row in numbered_rows((HERE / f"{name}.json").read_text()):
        for run in runs_of(row):
            yield dataclasses.replace(run, place=f"tests/{name}.json:{line}")
