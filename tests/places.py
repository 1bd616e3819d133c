"""The lists of places in CONTRIBUTING.md hold both ways: each file that a search finds is listed, and each entry of a
list is found, or is known by hand, with its reason and what the file must have."""

from __future__ import annotations

import functools
import pathlib
import re
from collections.abc import Callable, Iterable

from rekhuso.program import maps
from rekhuso.program.map_forms import PARTS

from tests.cases import TOP, Case
from tests.limits_told import FILES, TOLD
from tests.pages import body_of, families, found_in, options_of_programs, pages_of_crates, sources, text

# The lists of places in CONTRIBUTING.md: of each the enums whose variants are looked for, and where each is declared.
# Out of memory is not looked for: it stands wherever a call allocates.
COMMAND, REPLY, QUESTION = "session/src/command.rt", "session/src/reply.rt", "monitor/src/question.rt"
LISTS = {
    "A kind of bucket": {"BucketKind": "buckets/src/bucket.rt"},
    "A line of a script": {
        "Question": QUESTION,
        "Answer": QUESTION,
        "Command": COMMAND,
        "Task": COMMAND,
        "Reply": REPLY,
    },
    "A refusal": {"Refusal": "refusal/src/refused.rt"},
}
NOT_LOOKED_FOR = {"Memory"}
# The words of each list, but for those that mean other things elsewhere, and what share of them a file of the tools,
# the tests, the benches or the pages has at least between quotes or by itself if it is a place of the list.
KEY_OF_MAP = "A key of a map"
PART_OF_CHANGE = "A part of a change"
OPTION, LIMIT = "An option of a program", "A limit that is raised"
# A file beside crates that has so many of the options of the programs has a place for one more.
MANY_OPTIONS = 6
# The types of what has keys of a map, by the files that declare them: what is stated of one, and what it has of an OSD.
TYPES_OF_KEYS = {
    "MapParts": "mapparts/src/parts.rt",
    "OsdPart": "mapparts/src/parts.rt",
    "PoolPart": "mapparts/src/parts.rt",
    "OsdState": "maptypes/src/osd.rt",
}
# The records of a map and of a pool, each with the struct that it is seen of, by the files that declare them.
RECORDS_OF_KEYS = {
    ("ClusterMap", "OsdMap"): "osdmap/specs/Maps.antt",
    ("PoolFacts", "Pool"): "maptypes/specs/Pools.antt",
}
CHANGE_KEYS = " ".join({*PARTS} - {"up"})
MAP_KEYS = " ".join(
    {*maps.Map.__annotations__, *maps.Pool.__annotations__, *maps.Osd.__annotations__}
    - {"version", "epoch", "id", "kind", "rule", "size", "up", "weight"}
)
LINES = "up ups count groups epoch dump change apply await balance follow fup fups fkept fdump"
WORDS_OF_LISTS = {
    "A kind of bucket": ("uniform list tree straw2", 0.75),
    "A line of a script": (LINES, 0.6),
    PART_OF_CHANGE: (CHANGE_KEYS, 0.6),
    KEY_OF_MAP: (MAP_KEYS, 0.75),
}
HEADINGS = [*WORDS_OF_LISTS, "A refusal", OPTION, LIMIT]
# The entries that no search finds: of each list the reasons, and by each reason the files, each with what it must have.
BY_HAND: dict[str, dict[str, dict[str, str]]] = {
    "A kind of bucket": {
        "a limit of a kind has a name of its own": {
            "crates/buckets/src/limits.rt": "MAX_STRAWS",
            "crates/buckets/specs/Limits.antt": "max_straws",
        },
        "only straw2 stands there, the one kind that needs --stock": {
            "tools/rekhuso/program/maps.py": "straw2",
            "tools/rekhuso/cluster/cluster.py": "straw2",
            "tools/rekhuso/cluster/imports.py": "straw2",
            "tools/rekhuso/cluster/advice.py": "straw2",
        },
        "it is C, where kinds are numbers": {"bench/plain.c": "straw2"},
        "the page tells of single kinds, and not by the words of texts": {
            "README.md": "straw2",
            "docs/COMMANDS.md": "straw2",
            "docs/PROVED.md": "straw2",
            "docs/SPEEDS.md": "straw2",
        },
    },
    "A line of a script": {
        "a call that answers a line has a name of its own": {
            "crates/state/src/answers.rt": "fn answer_count",
            "crates/state/specs/Answers.antt": "FindsCount",
            "crates/state/src/balancing.rt": "fn balance",
            "crates/state/specs/Balances.antt": "Balances",
            "crates/monitor/src/calls.rt": "fn balance",
            "crates/monitor/src/locked.rt": "fn balance",
            "crates/monitor/src/follower.rt": "fn kept",
            "crates/monitor/specs/Followers.antt": "record Followed",
            "crates/session/src/pool_sets.rt": "fn sets_of",
        },
        "it reads or writes a part of a line": {
            "crates/partjson/src/loads.rt": "RawLoad",
            "crates/partjson/specs/StatedLoads.antt": "RawLoad",
            "crates/mapjson/src/loads.rt": "fn list_loads",
            "crates/mapjson/specs/LoadTexts.antt": "RawLoad",
            "crates/session/specs/Texts.antt": "count_text",
            "tools/rekhuso/program/answers.py": "balance_line",
        },
        "it goes by questions, whatever they ask": {"crates/session/src/holding.rt": "asking.question"},
        "it has what a plan leaves of a session": {"crates/session/proofs/Asked.antt": "own_plan"},
        "it has some of the lines": {
            "bench/steps.py": "balance",
            "tests/maxima.py": "balance",
            "tests/worked.json": '"count ',
            "crates/integration_tests/src/members.rt": "monitor.count",
        },
        "the page tells of calls, or of some lines": {
            "docs/LIBRARY.md": "monitor.balance",
            "docs/LIVE.md": "monitor.balance",
            "crates/monitor/README.md": "`balance",
        },
    },
    "A refusal": {
        "a fault of a store has no number": {
            "crates/journalstore/src/error.rt": "pub enum StoreError",
            "crates/journalstore/specs/Faults.antt": "said : StoreError",
            "crates/mapstore/src/error.rt": "pub enum OpenError",
            "crates/mapstore/specs/Words.antt": "open_error_text",
            "crates/replay/src/fault.rt": "pub enum",
            "tests/store_files.py": "UNOPENED",
        },
        "only its comment tells when a refusal comes": {
            "crates/mapjson/src/lib.rt": "# Errors",
            "crates/monitor/src/follower.rt": "# Errors",
        },
        "a test has it by its number or its name": {
            "tests/store_failures.py": "err 35 NotStored",
            "tests/wide_limits.py": "refusal",
        },
        "the page tells of some refusals": {
            "docs/LIBRARY.md": "Refusal",
            "docs/PROVED.md": "BadField",
            "crates/refusal/README.md": "number_of",
        },
    },
    PART_OF_CHANGE: {
        "one family stands there": {"crates/osdmap/proofs/OthersStay.antt": "step.change.crush"},
        "a part that brings buckets needs a profile that has them": {
            "crates/partjson/src/profile.rt": "brings_kinds",
            "crates/partjson/specs/Profiles.antt": "change_allowed",
        },
        "limits have names of their own": {
            "crates/mapparts/src/limits.rt": "MAX_BASE",
            "crates/mapparts/specs/Limits.antt": "max_base",
        },
        "it goes by families, or by the keys of JSON forms": {
            "tools/rekhuso/program/defects.py": "grow_pool",
            "tools/rekhuso/cluster/json_forms.py": "GrowthParts",
            "tools/rekhuso/output/history_words.py": "grown_words",
        },
        "the page tells of some parts": {
            "docs/DECISIONS.md": "reweight",
            "docs/PROVED.md": "reweight",
            "crates/maptypes/README.md": "`Change`",
        },
    },
    KEY_OF_MAP: {
        "limits have names of their own": {
            "crates/mapparts/src/limits.rt": "MAX_POOL_ID",
            "crates/mapparts/specs/Limits.antt": "max_pool_id",
        },
        "it has some of the keys, or those of Ceph or of JSON forms": {
            "tools/rekhuso/cluster/entry_forms.py": "pg_num",
            "tools/rekhuso/cluster/conversion.py": '"max_osd"',
            "tools/rekhuso/cluster/map_dumps.py": '"pools"',
            "tools/rekhuso/cluster/difference.py": '"pools"',
            "tools/rekhuso/cluster/json_forms.py": "pg_num",
        },
        "the page tells of the types of parts and values": {
            "crates/mapparts/README.md": "MapParts",
            "crates/maptypes/README.md": "`Pool`",
        },
    },
    OPTION: {
        "it tells what is wrong with an option": {
            "crates/cli/src/ending.rt": "Usage",
            "crates/osdmapstore/src/ending.rt": r"\bWord\b",
            "crates/osdmapstore/src/word.rt": "fn is_word",
            "crates/osdmapstore/specs/Words.antt": "is_word",
        },
        "it has few of the options": {
            "README.md": "--stock",
            "CHANGELOG.md": "--stock",
            "tests/program.json": "--stock",
        },
    },
    LIMIT: {
        "the limit stands there as a number within a definition": {
            "crates/mapstore/specs/Kept.antt": "kept_count AsNoted None = ",
            "crates/osdmapstore/specs/Words.antt": "nat_le \\(length text\\)",
        },
        "it has rows at limits of another kind": {
            "tests/balance.json": r'"balance 1 \d+", "err 33',
            "tests/stock.json": r'"balance 1 \d+ 256 \[\]", "err 33',
            "tests/texts.json": "nested lists",
            "tests/sessions.json": "AwaitSpent",
            "tests/program.json": "too many scripts",
            "tests/store_files.py": "--keep=",
        },
    },
}


@functools.lru_cache(None)
def sources_of_things() -> dict[pathlib.Path, str]:
    """The sources but for tests and the folders of functions, which have any kind of thing and are no places of one."""
    texts = sources()
    tests = {
        (path.parent if path.stem in ("lib", "main") else path.with_suffix("")) / name
        for path, source in texts.items()
        for name in re.findall(r"#\[cfg\(test\)\]\s*mod (\w+);", source)
    }
    return {
        path: re.split(r"#\[cfg\(test\)\]\s*mod \w+ {", source)[0]
        for path, source in texts.items()
        if not tests & {path.with_suffix(""), *path.parents}
        and ("proofs" not in path.parts or path.parent.name == "proofs")
    }


@functools.lru_cache(None)
def entries_of(heading: str) -> dict[pathlib.Path, set[pathlib.Path]]:
    """The entries of a list of CONTRIBUTING.md, each with its files. A bare name in a crate's brackets is a file of
    src/ with the files below it, and one in other brackets a file of Python."""
    lines = found_in(rf"^### {heading}\n(.*?)(?=^##)", text("CONTRIBUTING.md"), re.MULTILINE | re.DOTALL)
    entries: dict[pathlib.Path, set[pathlib.Path]] = {}
    for owner, names in re.findall(r"`([\w/]+)` \(([^)]*)\)", " ".join(lines.split())):
        crate = TOP / "crates" / owner
        for name in re.findall("`([^`]+)`", names):
            if "." in name:
                entry, below = (crate if crate.exists() else TOP / owner) / name, []
            elif crate.exists():
                entry, below = crate / "src" / f"{name}.rt", [*(crate / "src" / name).rglob("*.rt")]
            else:
                entry, below = TOP / owner / f"{name}.py", []
            entries[entry] = {entry, *below}
    for name, folder in re.findall(r"each `([\w.]+)` below `(\w+)`", " ".join(lines.split())):
        entries[TOP / folder] = {*(TOP / folder).rglob(name)}
    return {**entries, **{TOP / name: {TOP / name} for name in re.findall(r"\b(?:\w+/)*[A-Z]+\.md\b", lines)}}


def listed(heading: str) -> set[pathlib.Path]:
    """The files of all entries of a list."""
    return set().union(*entries_of(heading).values())


def shown(paths: Iterable[pathlib.Path]) -> list[str]:
    """Paths from the top, in order."""
    return sorted(str(path.relative_to(TOP)) for path in paths)


def beside_crates() -> dict[pathlib.Path, str]:
    """The files of the tools, the tests and the benches, and the pages with those of crates, each with its text."""
    found = [
        path for folder in ("tests", "bench") for end in ("py", "json") for path in (TOP / folder).glob(f"*.{end}")
    ]
    found += [*(TOP / "crates").glob("*/data/*.json"), *(TOP / "examples").rglob("map.json")]
    found += [*(TOP / "tools" / "rekhuso").rglob("*.py"), *(TOP / "docs").glob("*.md"), TOP / "README.md"]
    return {
        path: path.read_text("utf-8") for path in [*found, *pages_of_crates()] if path.stem not in ("pages", "places")
    }


def has_most(source: str, words: list[str], share: float, flags: int = re.M) -> bool:
    """Whether a text has at least a share of some words, each behind a quote or as the name of a field."""
    return sum(bool(re.search(rf"[\"'`\\]{word}\b|^ *{word}: ", source, flags)) for word in words) >= share * len(words)


def code_in(path: pathlib.Path, source: str) -> str:
    """A source of a crate without its comments and the parts of changes, which have names of keys."""
    parts = "|".join(re.escape(part) for names in families().values() for part in names)
    return re.sub(rf"{'//' if path.suffix == '.rt' else '--'}.*|\b(?:{parts})\b", "", source)


@functools.lru_cache(None)
def keys_of_types() -> dict[str, list[str]]:
    """The fields of each type of what has keys of a map."""
    return {
        kind: re.findall(r"^    pub (\w+): ", body_of(kind, text("crates", *file.split("/"))), re.MULTILINE)
        for kind, file in TYPES_OF_KEYS.items()
    }


@functools.lru_cache(None)
def keys_of_records() -> dict[tuple[str, str], list[str]]:
    """The fields of the records of a map and of a pool."""
    found = {}
    for names, file in RECORDS_OF_KEYS.items():
        head = rf"^pub record {names[0]} : .*\n((?:  pub .*\n)+)"
        body = found_in(head, text("crates", *file.split("/")), re.MULTILINE)
        found[names] = re.findall(r"^  pub (\w+)", body, re.MULTILINE)
    return found


def used_of(code: str, fields: list[str], use: str) -> int:
    """How many of some fields code uses in a way."""
    return sum(bool(re.search(use.format(field), code)) for field in fields)


def has_keys(code: str) -> bool:
    """Whether code has a type of what maps have with two of its keys at least, as a source of one has no place for
    others; or sets, states or matches all fields of the record of a map or of a pool, or most of one that it names."""
    used, said = r"\.{0}\b|\b{0}(?: ?[=:](?![=:])|,|\s*}})", r"\b{0} ?[=:](?![=:])"
    if any(re.search(rf"\b{kind}\b", code) and used_of(code, own, used) > 1 for kind, own in keys_of_types().items()):
        return True
    for names, fields in keys_of_records().items():
        share = 0.75 if re.search(rf"\b(?:{'|'.join(names)})\b", code) else 1
        if used_of(code, fields, said) >= share * len(fields):
            return True
    return False


def looked_for(kind: str, declaration: str) -> set[str]:
    """The variants of an enum, but for those that are not looked for."""
    return set(re.findall(r"^    ([A-Z]\w+)", body_of(kind, declaration), re.MULTILINE)) - NOT_LOOKED_FOR


def named_in(source: str, kind: str, names: set[str]) -> set[str]:
    """Which of the names a source has: a variant by its path or in an import."""
    imports = re.findall(rf"\b{kind}\.TheVariants(?:\.{{([^}}]*)}}| as )", source)
    found = re.findall(rf"\b{kind}::(\w+)", source) + re.findall(r"(?:^|,)\s*(\w+)", "\n".join(imports), re.MULTILINE)
    return names if "" in imports else names.intersection(found)


def families_in(source: str) -> set[str]:
    """The families that a source names: by the type, or by a part."""
    return {
        kind
        for kind, parts in families().items()
        if re.search("|".join(rf"\b{re.escape(name)}\b" for name in (kind, *parts)), source)
    }


def integration_tests() -> dict[pathlib.Path, str]:
    """The sources of the tests that need public calls alone."""
    return {path: source for path, source in sources().items() if "integration_tests" in path.parts}


@functools.lru_cache(None)
def by_variants(heading: str) -> dict[str, dict[pathlib.Path, set[str]]]:
    """Of each enum of a list the files of crates that have variants of it, with these."""
    texts, found = {**sources_of_things(), **integration_tests()}, {}
    for kind, declaration in LISTS.get(heading, {}).items():
        names = looked_for(kind, text("crates", declaration))
        has = {path: named_in(source, kind, names) for path, source in texts.items()}
        found[kind] = {path: own for path, own in has.items() if own} | {TOP / "crates" / declaration: names}
    return found


@functools.lru_cache(None)
def by_families() -> set[pathlib.Path]:
    """The files of crates that name two families of the parts of a change: one of one family has no place for
    another."""
    return {path for path, source in sources_of_things().items() if len(families_in(source)) > 1}


def by_words(heading: str, words: list[str], share: float) -> set[pathlib.Path]:
    """The files beside crates that have most of the words of a list; of keys also those of crates, with their tests."""
    found = {
        path
        for path, source in beside_crates().items()
        if has_most(source, words, share, re.M | re.I if "crates" in path.parts else re.M)
    }
    if heading in (KEY_OF_MAP, PART_OF_CHANGE):
        whole = {path: own for path, own in sources().items() if path.stem not in ("Answers", "Invariants")}
        found |= {path for path, source in whole.items() if has_most(source, words, share)}
    return found


def by_refusals() -> set[pathlib.Path]:
    """The files beside crates that have most of the names of refusals, and the tables that have one by its number."""
    names = {*re.findall(r"^\| \d+ \| `?(\w+)`? \|", text("docs", "FORMATS.md"), re.MULTILINE)}
    texts = beside_crates().items()
    named = {path for path, own in texts if len(names.intersection(re.findall(r"\w+", own))) >= 0.6 * len(names)}
    tables = {path for path, own in texts if path.suffix == ".json" and re.search(r'"err \d\d\b', own)}
    return named | tables


def by_options() -> set[pathlib.Path]:
    """The files of crates that have an option of a program, or the type of all, and other files that have several of
    them; but for the word of a table of stores."""
    own = {*options_of_programs()}
    words = "|".join(sorted(own - {"journal"}))
    form = rf'"(?:{words})"|\b(?:Session)?Options\b'
    crates = {path for path, source in sources_of_things().items() if re.search(form, source)}
    beside = {
        path
        for path, source in beside_crates().items()
        if sum(bool(re.search(rf"--{word}(?![\w-])", source)) for word in own) >= MANY_OPTIONS
    }
    return crates | beside


def by_limits() -> set[pathlib.Path]:
    """The files that have limits: those of crates which declare or define them, as constants or as numbers by the names
    of limits; pages, help and errors that tell one; tests by their names; and the modules of the tools whose limits are
    held to those of the crates."""
    files = {TOP / "crates" / crate / "src" / f"{name}.rt" for crate, names in FILES.items() for name in names}
    declared = (
        r"^pub const (?:MAX|PLAIN)_|\.declared\.(?:limits|plain)\.TheConstants\b"
        r"|^abbrev pub (?:(?:max|most|least|plain)_\w+|lines_in_a_hold) : ℕ$"
    )
    files |= {path for path, source in sources_of_things().items() if re.search(declared, source, re.M)}
    imports = re.findall(r"^from rekhuso\.(\w+) import ([\w, ]+?)(?:  #.*)?$", text("tests", "limits_told.py"), re.M)
    files |= {TOP / "tools/rekhuso" / part / f"{own}.py" for part, names in imports for own in names.split(", ")}
    return files | {TOP / page for page, _, _ in TOLD} | {path for path in beside_crates() if "limits" in path.stem}


@functools.lru_cache(None)
def found_for(heading: str) -> set[pathlib.Path]:
    """The files that the searches find for a list."""
    found = set().union(*by_variants(heading).values())
    if heading in WORDS_OF_LISTS:
        words, share = WORDS_OF_LISTS[heading]
        found |= by_words(heading, words.split(), share)
    if heading == KEY_OF_MAP:
        found |= {path for path, source in sources_of_things().items() if has_keys(code_in(path, source))}
    return found | (OTHER_SEARCHES[heading]() if heading in OTHER_SEARCHES else set())


# The searches of single lists.
OTHER_SEARCHES: dict[str, Callable[[], set[pathlib.Path]]] = {
    PART_OF_CHANGE: by_families,
    "A refusal": by_refusals,
    OPTION: by_options,
    LIMIT: by_limits,
}


class ListsOfPlaces(Case):
    """Lists of places."""

    is_form = True

    def test_searches(self) -> None:
        """The searches find something for each list, each variant of its enums, and each family of parts"""
        for heading in HEADINGS:
            with self.subTest(list=heading):
                self.assertGreater(len(found_for(heading)), 10)
                for kind, declaration in LISTS.get(heading, {}).items():
                    others = [
                        own for path, own in by_variants(heading)[kind].items() if path != TOP / "crates" / declaration
                    ]
                    self.assertEqual(set().union(*others), looked_for(kind, text("crates", declaration)))
        self.assertGreater(len(families()), 2)
        named = [families_in(source) for source in sources_of_things().values()]
        self.assertEqual(set().union(*named), set(families()))

    def test_missing(self) -> None:
        """Each file that a search finds is listed, and each file that is listed is there"""
        for heading in HEADINGS:
            with self.subTest(list=heading):
                self.assertEqual(shown(path for path in listed(heading) if not path.exists()), [], "are not there")
                self.assertEqual(shown(found_for(heading) - listed(heading)), [], "are not listed")

    def test_stale(self) -> None:
        """Each entry of a list is found by a search or known by hand, and each that is known by hand is listed, not
        found, and has what it is listed for"""
        self.assertLessEqual({*BY_HAND}, {*HEADINGS})
        for heading in HEADINGS:
            with self.subTest(list=heading):
                entries, found = entries_of(heading), found_for(heading)
                rows = [(TOP / path, word) for own in BY_HAND.get(heading, {}).values() for path, word in own.items()]
                by_hand = dict(rows)
                self.assertEqual(len(by_hand), len(rows), "twice")
                known = {entry for entry, files in entries.items() if files & found}
                self.assertEqual(shown({*entries} - known - {*by_hand}), [], "are found by no search")
                self.assertEqual(shown({*by_hand} & known), [], "are found by a search")
                self.assertEqual(shown({*by_hand} - {*entries}), [], "are not listed")
                idle = [path for path, word in rows if not re.search(word, path.read_text("utf-8"))]
                self.assertEqual(shown(idle), [], "have nothing more of what they are listed for")
