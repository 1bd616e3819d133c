"""The pages say what stands in the repository: the program of docs/LIBRARY.md, the function of docs/PROVED.md, names,
calls, targets, options, files, links, crates and their files, the chain of proofs, and the edits that
must not prove. Figures are those of figures.py."""

from __future__ import annotations

import functools
import pathlib
import re
import unittest

from rekhuso.commands import COMMANDS
from rekhuso.program.map_forms import REFUSALS

from tests.cases import TOP, Case

# Names of other libraries, and of Ceph's options, that a page speaks of and no file has.
OF_OTHERS = {"dedup_by", "BufRead", "upmap_max_deviation"}
# Options of the kit, of Python's tools, of valgrind, of Debian and of Ceph's tools that pages speak of.
OPTIONS_OF_OTHERS = {
    "--include",
    "--variant",
    "--allow-holes",
    "--dump",
    "--anew",
    "--form",
    "--format",
    "--jobs",
    "--list-axioms",
    "--map",
    "--judge",
    "--long",
    "--only",
    "--reweight-item",
    "--sources",
    "--set-chooseleaf-stable",
    "--set-chooseleaf-vary-r",
    "--table",
    "--test",
    "--tool",
    "--test-map-pgs",
    "--upmap",
    "--upmap-cleanup",
}
# Paths of other libraries, and of a place that a page makes up.
PATHS_OF_OTHERS = {"Backoff", "Reader", "count"}
TYPES_OF_OTHERS = {"OSDMap"}
# Names of other libraries' functions and of types that the kit has, and words of scripts and answers.
OTHER_NAMES = {
    "append",
    "format",
    "get_mut",
    "insert",
    "keys",
    "lookup",
    "pop",
    "to_float",
    "to_i64",
    "to_u64",
    "Unknown",
    "Wary",
    "i128",
    "always_out_of_memory",
    "hold_always_gives_back",
    "await",
    "fup",
    "fups",
    "fkept",
    "fdump",
    "ups",
    "verify_upmap",
    "check_pg_upmaps",
    "ok",
    "osdmaptool",
}
# What a command line has of itself.
OF_PARSERS = {"--help", "--version"}
CHANGE = ("maptypes", "src", "change.rt")
# What the page of a crate has.
PARTS_OF_PAGES = ["Parts", "A caller", "Proved", "Tested", "Not promised"]
DIGITS = "one two three four five six seven eight nine ten eleven".split()
RESULTS = TOP / "bench" / "results"
# The pages whose sentences are short, and how many words one has at most.
SHORT = "CEPH COMMANDS REASONS PROVED FORMATS LIVE LIBRARY DECISIONS DESIGN SPEEDS CARRY".split()
MOST_WORDS = 35
NUMBERS = {word: str(number) for number, word in enumerate(DIGITS, 1)}
NUMBER = r"\d(?:[\d,]*\d)?(?:\.\d+)?"


def text(*names: str) -> str:
    """The text of a file by its path from the top."""
    return TOP.joinpath(*names).read_text(encoding="utf-8")


def pages() -> list[pathlib.Path]:
    """Each page by its path."""
    below = [TOP / folder / "README.md" for folder in ("examples", "tools", "crates", "tests", "bench")]
    docs = [*sorted((TOP / "docs").glob("*.md")), *sorted(RESULTS.glob("*.md"))]
    return [*sorted(TOP.glob("*.md")), *below, *pages_of_crates(), *docs]


def pages_of_crates() -> list[pathlib.Path]:
    """The pages of crates that callers meet."""
    return sorted((TOP / "crates").glob("*/README.md"))


def edits_of(crate: pathlib.Path) -> list[pathlib.Path]:
    """The edits of a crate that must not prove."""
    return [path for folder in ("must-fail", "wrong-bodies") for path in sorted((crate / folder).glob("*.edit"))]


def part_of(page: pathlib.Path, heading: str) -> str:
    """What stands below a heading of a page, up to the next one."""
    return found_in(rf"^## {heading}\n\n(.*?)\n*(?=^## |\Z)", page.read_text("utf-8"), re.MULTILINE | re.DOTALL)


def names_in(shown: str) -> set[str]:
    """The names between backticks in a page, but for those of files."""
    return set(re.findall(r"\w\w+", re.sub(r"\S+\.\w+", " ", " ".join(re.findall("`([^`\n]+)`", shown)))))


def stripped(code: str) -> str:
    """Code without the blanks before and behind its lines."""
    return "\n".join(line.strip() for line in code.splitlines())


def flat(page: pathlib.Path) -> str:
    """The text of a page in one line."""
    return " ".join(page.read_text(encoding="utf-8").split())


def stands_on() -> dict[str, set[str]]:
    """The crates that each crate stands on, by crates.txt."""
    lines = re.findall(r"^(\w+)\b[^:\n]*:(.*)$", text("crates.txt"), re.MULTILINE)
    crates = {name for name, _ in lines}
    return {name: crates.intersection(below.split()) for name, below in lines}


def sentences(page: pathlib.Path) -> list[str]:
    """The sentences of a page, tables and blocks of code aside; what stands between backticks is a word."""
    found = []
    for block in re.split(r"\n\s*\n|\n(?=\s*(?:[-*] |\d+\. ))", page.read_text(encoding="utf-8")):
        if not re.match(r" {4}(?!\s*[-*] )", block):
            lines = [line for line in block.splitlines() if not line.lstrip().startswith(("|", "#"))]
            bare = re.sub(r"`[^`]*`", "`_`", " ".join(" ".join(lines).split()))
            found += re.split(r"(?<=[.!?:])\*{0,2}\)?\s+", bare)
    return found


def code_of(page: pathlib.Path) -> str:
    """What a page shows as code: between backticks, and in blocks."""
    shown = page.read_text(encoding="utf-8")
    return "\n".join(re.findall("`[^`\n]+`", shown) + re.findall("^ {4}.*$", shown, re.MULTILINE))


def anchors(page: pathlib.Path) -> set[str]:
    """The headings of a page, as links name them."""
    headings = re.findall(r"^#+ (.*)$", page.read_text(encoding="utf-8"), re.MULTILINE)
    return {re.sub(r"[^\w\- ]", "", heading.lower()).replace(" ", "-") for heading in headings}


def found_in(pattern: str, page: str, flags: int = 0) -> str:
    """What the first group of a pattern finds in a page; without a group, what the pattern does."""
    found = re.search(pattern, page, flags)
    assert found, f"{pattern} is not in the page"
    return found[min(1, found.re.groups)]


@functools.lru_cache(None)
def sources() -> dict[pathlib.Path, str]:
    """Each file of code, definitions and proofs, with its text."""
    return {
        path: path.read_text("utf-8")
        for end in ("rt", "antt")
        for path in (TOP / "crates").rglob(f"*.{end}")
        if "out" not in path.relative_to(TOP).parts
    }


def declared() -> tuple[set[str], set[str]]:
    """The functions of the sources; and with them all else that they declare: types, modules, definitions."""
    texts = sources()
    code = "\n".join(text for path, text in texts.items() if path.suffix == ".rt")
    calls = set(re.findall(r"\bfn (\w+)", code))
    items = calls.union(
        re.findall(r"\b(?:struct|enum|trait|const|type|mod) (\w+)", code), (path.stem for path in texts)
    )
    items |= set(
        re.findall(
            r"^(?:abbrev |unfoldable )?(?:pub )?(?:record |data )?(\w+)", "\n".join(texts.values()), re.MULTILINE
        )
    )
    return calls, items


def members() -> dict[str, set[str]]:
    """What each type has in the files that declare it or have code of it: functions, constants, variants, fields."""
    found: dict[str, set[str]] = {}
    for path, source in sources().items():
        heads = re.findall(r"^(?:impl|pub(?:\(crate\))? (?:struct|enum|trait))\b[^{;]*", source, re.MULTILINE)
        names = re.findall(r"\b(?:fn|const) (\w+)|^    (?:pub )?(\w+)(?:: |,$|\()", source, re.MULTILINE)
        for kind in re.findall(r"\b[A-Z]\w+", " ".join(heads if path.suffix == ".rt" else [])):
            found.setdefault(kind, set()).update(name for pair in names for name in pair)
    return found


def options_of_programs() -> list[str]:
    """The options of the programs, without their hyphens."""
    files = (("cli", "arguments"), ("osdmapd", "line"), ("osdmapstore", "line"), ("readmap", "line"))
    lines = [text("crates", crate, "src", f"{name}.rt") for crate, name in files]
    return re.findall(r'(?:\.long\(|_option\(alloc, |flag\(alloc, )"([\w-]+)"', "".join(lines))


def body_of(kind: str, declaration: str) -> str:
    """What stands between the braces of an enum or a struct."""
    head = rf"^pub(?:\(crate\))? (?:enum|struct) {kind}(?:<[^>]*>)? {{\n(.*?)^}}"
    return found_in(head, declaration, re.MULTILINE | re.DOTALL)


@functools.lru_cache(None)
def families() -> dict[str, list[str]]:
    """Of each family of the parts of a change, by its type, each part that a change has of it: a field of the family
    behind one of the change."""
    own, theirs = text("crates", *CHANGE), text("crates", "mapparts", "src", "change.rt")
    parts: dict[str, list[str]] = {}
    for field, kind in re.findall(r"^    pub (\w+): (\w+Changes)<", body_of("ChangeParts", own), re.MULTILINE):
        fields = re.findall(r"^    pub (\w+): ", body_of(kind, theirs), re.MULTILINE)
        parts.setdefault(kind, []).extend(f"{field}.{name}" for name in fields)
    return parts


class Pages(Case):
    """What pages say, beside the repository."""

    is_form = True

    def test_program_of_the_library(self) -> None:
        """The program that docs/LIBRARY.md shows is the one that the gate proves and runs, and so is what it prints"""
        page = text("docs", "LIBRARY.md")
        for name in ("src/main.rt", "stdout"):
            with self.subTest(name=name):
                lines = text("crates", "library_example", name).splitlines(keepends=True)
                self.assertIn("".join(f"    {line}" if line.strip() else line for line in lines), page, name)

    def test_function_read_aloud(self) -> None:
        """The function that docs/PROVED.md reads aloud stands in its crate as it is shown, but for an attribute"""
        shown = text("docs", "PROVED.md").split("## One function, read aloud\n\n")[1].split("\n\n")[0]
        source = re.sub(r"^ *#\[tactic\(.*\n", "", text("crates", "osdmap", "src", "placement.rt"), flags=re.MULTILINE)
        self.assertStarts(shown, "    /// ")
        self.assertIn(f"{shown}\n    {{\n", source)

    def test_names(self) -> None:
        """A name that a page says between backticks stands in a file, is of others, or is that of a wrong body; but for
        the page that lists what the kit has"""
        forms = [
            (folder, end)
            for folder in ("crates", "tests", "tools", "bench")
            for end in ("rt", "antt", "edit", "py", "json", "c")
        ]
        files = [
            path
            for folder, end in forms
            for path in (TOP / folder).rglob(f"*.{end}")
            if "out" not in path.relative_to(TOP).parts
        ]
        wrong = re.findall(r"^\| (`.*?) \|", text("docs", "PROVED.md"), re.MULTILINE)
        known = OF_OTHERS.union(
            *(
                re.findall(r"\w+", part)
                for part in [text("crates.txt"), *wrong, *(f"{path.stem} {path.read_text('utf-8')}" for path in files)]
            )
        )
        for page in (page for page in pages() if page != RESULTS / "trust.md"):
            said = re.findall(r"\w+", " ".join(re.findall("`[^`\n]+`", page.read_text("utf-8"))))
            unknown = {name for name in said if re.match("[A-Z][a-z]+[A-Z]|.*_.", name) and name not in known}
            self.assertFalse(unknown, (page.name, unknown))

    def test_targets(self) -> None:
        """Each target of `make` that a page names is one of the Makefile"""
        known = set(found_in(r"^\.PHONY: (.*)$", text("Makefile"), re.MULTILINE).split())
        said = {
            (page.name, target) for page in pages() for target in re.findall(r"\bmake (?!the\b)([a-z]+)", code_of(page))
        }
        unknown = {named for named in said if named[1] not in known}
        self.assertGreater(len(said), 5, unknown)
        self.assertFalse(unknown)

    def test_options(self) -> None:
        """Each option that a page names is one of the programs, of the tools, or of others; and docs/FORMATS.md names
        each of the programs"""
        own = options_of_programs()
        known = OF_PARSERS | {f"--{name}" for name in own}
        for path in sorted((TOP / "tools" / "rekhuso").rglob("*.py")):
            known.update(re.findall(r'"(--[a-z][\w-]*)"', path.read_text(encoding="utf-8")))
        said = {
            (page.name, option) for page in pages() for option in re.findall(r"(?<![\w-])--[a-z][\w-]*", code_of(page))
        }
        unknown = {named for named in said if named[1] not in known | OPTIONS_OF_OTHERS}
        idle = OPTIONS_OF_OTHERS - {option for _, option in said}
        self.assertGreater(len({*own}), 5, (unknown, idle))
        self.assertLessEqual({("FORMATS.md", f"--{name}") for name in own}, said)
        self.assertFalse(unknown, (unknown, idle))
        self.assertFalse(idle, (unknown, idle))

    def test_tools(self) -> None:
        """tools/README.md has a row for each command, in the order of the help; docs/COMMANDS.md names each option of
        the tools, but for those that they hand to a program"""
        self.assertEqual(re.findall(r"^\| `(\w+)` \| `commands/", text("tools", "README.md"), re.M), [*COMMANDS])
        code = "".join(path.read_text("utf-8") for path in (TOP / "tools" / "rekhuso").rglob("*.py"))
        own = {*re.findall(r'"(--[a-z][\w-]*)"', code)} - {f"--{name}" for name in options_of_programs()} - OF_PARSERS
        self.assertGreater(len(own), 20)
        self.assertFalse(own - {*re.findall(r"(?<![\w-])--[a-z][\w-]*", text("docs", "COMMANDS.md"))}, "are not named")

    def test_files(self) -> None:
        """Each file of the repository that a page names is there"""
        paths = [path.relative_to(TOP) for path in TOP.rglob("*") if path.is_file()]
        there = [f"/{path}" for path in paths if not {".git", "out"} & {*path.parts}]
        form = r"(?<![\w./~-])(?:\w[\w-]*/)+[\w-]+\.(?:py|json|md|rt|antt|svg|txt|c)\b|\b\w+\.(?:py|rt|antt)\b(?!\.)"
        said = {
            (page.name, name)
            for page in pages()
            if page.name != "CHANGELOG.md"
            for name in re.findall(form, code_of(page))
        }
        missing = {named for named in said if not any(path.endswith(f"/{named[1]}") for path in there)}
        self.assertGreater(len(said), 50, missing)
        self.assertFalse(missing)

    def test_links(self) -> None:
        """Each link of a page leads to a file that is there, and to a heading that it has"""
        for page in pages():
            for link in re.findall(r"\]\(([^)]*)\)", page.read_text(encoding="utf-8")):
                name, _, anchor = link.partition("#")
                path = page.parent / name if name else page
                is_there = path.exists() and (not anchor or anchor in anchors(path))
                self.assertTrue(link.startswith("http") or is_there, (page.name, link))

    def test_tables_of_files(self) -> None:
        """The table of files with which a crate begins names each file of its src/, and no other"""
        tables = {}
        for page in sorted((TOP / "crates").glob("*/src/lib.rt")):
            entries = re.findall("^//! - ([^:]*):", page.read_text(encoding="utf-8"), re.MULTILINE)
            files = {path.relative_to(page.parent).with_suffix("").as_posix() for path in page.parent.rglob("*.rt")} - {
                "lib"
            }
            named = set(re.findall("`([^`]+)`", " ".join(entries)))
            self.assertTrue(not entries or named == files, (page.parent.parent.name, named ^ files))
            tables[page] = bool(entries) or len(files) < 2
        self.assertGreater(sum(tables.values()), 20)
        self.assertTrue(all(tables.values()), [page for page, is_there in tables.items() if not is_there])

    def test_crates(self) -> None:
        """crates/README.md and docs/DESIGN.md have a line for each crate, and for no other"""
        crates = set(re.findall(r"^(\w+)\b[^:\n]*:", text("crates.txt"), re.MULTILINE))
        floors = set(re.findall(r"\[`(\w+)`\]\(", text("crates", "README.md")))
        layers = set(
            re.findall(r"^\| `(\w+)` \|", text("docs", "DESIGN.md").split("\n## Libraries\n")[0], re.MULTILINE)
        )
        self.assertGreater(len(crates), 20, (floors ^ crates, layers ^ crates))
        self.assertEqual(floors, layers, (floors ^ crates, layers ^ crates))
        self.assertEqual(layers, crates, (floors ^ crates, layers ^ crates))

    def test_reasons_of_stores(self) -> None:
        """docs/FORMATS.md tells each reason for which a store is not opened or fails, and no other"""
        own = [text("crates", name, "src", "error.rt") for name in ("journalstore", "mapstore")]
        own = [*own, text("crates", "replay", "src", "fault.rt")]
        texts = re.findall(r'(?:=> |write!\(\s*f,\s*)"([^"]+)"', "".join(own))
        reasons = {re.sub(r"{\w+}", "#", reason) for reason in texts} - {"#"}
        rows = found_in(r"^### When a store is not opened\n\n(.*?)\n\n", text("docs", "FORMATS.md"), re.M | re.S)
        cells = re.findall(r"^\| (`.*?) \|", rows, re.M)
        said = {re.sub("EPOCH|NAME", "#", reason) for cell in cells for reason in re.findall("`([^`]+)`", cell)}
        self.assertGreater(len(reasons), 15)
        self.assertEqual(said, reasons)

    def test_numbers_of_refusals(self) -> None:
        """docs/FORMATS.md has a row for each number of a refusal, with its name, and the page of `refusal` tells the
        least and the greatest number of each of the two kinds"""
        own = text("crates", "refusal", "specs", "Refusals.antt")
        names = dict(re.findall(r'^name_of \(?(\w+).* = codes "(\w+)"$', own, re.M))
        numbers = {
            int(number): names[kind] for kind, number in re.findall(r"^number_of \(?(\w+).* = (\d+)$", own, re.M)
        }
        rows = re.findall(r"^\| (\d+) \| `?(\w+)`? \|", text("docs", "FORMATS.md"), re.M)
        self.assertEqual({int(number): name for number, name in rows}, numbers)
        self.assertLessEqual(REFUSALS.items(), numbers.items())
        of_maps, others = [own for own in numbers if own < 20], [own for own in numbers if own >= 20]
        said = found_in(r"`number` \(([^)]*)\)", flat(TOP / "crates" / "refusal" / "README.md"))
        ends = [int(found) for found in re.findall(r"\d+", said)]
        self.assertEqual(ends, [min(of_maps), max(of_maps), min(others), max(others)])

    def test_parts_of_a_change(self) -> None:
        """Each page that counts the parts of a change counts those of `ChangeParts`, where a family has several"""
        body = body_of("ChangeParts", text("crates", *CHANGE))
        alone = re.findall(r"^    pub (?!profile\b)\w+: (?!\w+Changes<)", body, re.M)
        count = len(alone) + sum(len(parts) for parts in families().values())
        said = {
            (page.name, word)
            for page in pages()
            for word in re.findall(r"(\w+) parts(?: of a change| \(`change_fault`\))", flat(page))
            if word in NUMBERS
        }
        self.assertGreater(len(said), 1)
        self.assertEqual({NUMBERS[word] for _, word in said}, {str(count)})

    def test_pages_of_crates(self) -> None:
        """Each crate that docs/LIBRARY.md names has a page with the parts of such pages, and crates/README.md leads to
        each of them"""
        there = [page.parent.name for page in pages_of_crates()]
        named = found_in(r"Its line in `crates\.txt` names `([\w ]+)`", flat(TOP / "docs" / "LIBRARY.md")).split()
        self.assertLessEqual(set(named), set(there))
        self.assertEqual(sorted(re.findall(r"\]\((\w+)/README\.md\)", text("crates", "README.md"))), there)
        for name in there:
            with self.subTest(crate=name):
                headings = re.findall("^## (.*)$", text("crates", name, "README.md"), re.MULTILINE)
                self.assertEqual(headings, PARTS_OF_PAGES)

    def test_callers_of_crates(self) -> None:
        """The code of a caller that the page of a crate shows stands in the file that it names before it"""
        for page in pages_of_crates():
            with self.subTest(crate=page.parent.name):
                caller = part_of(page, "A caller")
                about, code = caller.split("\n\n    ", 1)
                file = found_in(r"`([\w/]+\.rt)`", about)
                self.assertIn(stripped(code), stripped(text("crates", *file.split("/"))))

    def test_names_of_crates(self) -> None:
        """A name in the page of a crate is one of its sources, is declared in others, or is that of a crate, a test or
        an edit; and what is said to be proved is a clause, if it is not declared"""
        texts, tests = sources(), {path.stem for path in (TOP / "tests").iterdir()}
        known = declared()[1] | OTHER_NAMES | tests | set(re.findall(r"\w+", text("crates.txt")))
        for page in pages_of_crates():
            with self.subTest(crate=page.parent.name):
                own = "\n".join(source for path, source in texts.items() if page.parent in path.parents)
                edits = {path.stem for path in edits_of(page.parent)}
                unknown = names_in(page.read_text("utf-8")) - known - edits - set(re.findall(r"\w+", own))
                self.assertFalse(unknown)
                proved = {name for name in names_in(part_of(page, "Proved")) if name.islower()}
                self.assertFalse(proved - known - set(re.findall(r"(?:ensures\*?|ghost) (\w+)\b", own)))

    def test_edits_of_crates(self) -> None:
        """The page of a crate counts its edits that must not prove, or names them"""
        for page in pages_of_crates():
            with self.subTest(crate=page.parent.name):
                edits = {path.stem for path in edits_of(page.parent)}
                tested = " ".join(part_of(page, "Tested").split())
                said = re.findall(r"(\w+) edits? ([^.;]*?)(?:;[^.;]*)?must not prove", tested)
                self.assertEqual(len(said), 1 if edits else 0)
                for count, names in said:
                    if count == "The":
                        self.assertEqual(set(re.findall(r"`(\w+)`", names)), edits)
                    else:
                        self.assertEqual(NUMBERS[count.lower()], str(len(edits)))

    def test_items(self) -> None:
        """A bare name between backticks in the pages on the code is declared in the sources, a crate, a wrong body or a
        test, or of others"""
        known = declared()[1] | OTHER_NAMES | set(re.findall(r"\w+", text("crates.txt")))
        known.update(
            re.findall(
                r"^ *def (\w+)",
                "\n".join(path.read_text("utf-8") for path in (TOP / "tests").glob("*.py")),
                re.MULTILINE,
            )
        )
        known.update(
            *(re.findall(r"\w+", row) for row in re.findall(r"^\| (`.*?) \|", text("docs", "PROVED.md"), re.MULTILINE))
        )
        said = {
            (name, word)
            for name in ("DESIGN", "PROVED", "DECISIONS", "LIBRARY")
            for word in re.findall(r"`([a-z]\w+)`", text("docs", f"{name}.md"))
        }
        unknown = {named for named in said if named[1] not in known}
        self.assertGreater(len(said), 200, unknown)
        self.assertFalse(unknown)

    def test_calls(self) -> None:
        """What a page names by a path, and each call of the way that docs/DESIGN.md follows, stands in the sources"""
        calls, items = declared()
        ends = {
            (page.name, end)
            for page in pages()
            if page.name != "CHANGELOG.md"
            for end in re.findall(r"`[^`\n]*?\w::(\w+)`", page.read_text("utf-8"))
        }
        unknown = {end for end in ends if end[1] not in items | PATHS_OF_OTHERS}
        way = found_in(r"reaches its answer by these calls:.*?\n\n", text("docs", "DESIGN.md"), re.DOTALL)
        named = {name.rpartition("::")[2] for name in re.findall(r"`([\w:]+)`", way)}
        self.assertGreater(len(ends), 20, (unknown, named - calls))
        self.assertFalse(unknown, (unknown, named - calls))
        owners = members()
        strange = {
            (page.name, kind, name)
            for page in pages()
            if page.name != "CHANGELOG.md"
            for kind, name in re.findall(r"`[^`\n]*?\b([A-Z]\w+)::(\w+)`", page.read_text("utf-8"))
            if kind not in TYPES_OF_OTHERS and name not in owners.get(kind, ())
        }
        self.assertFalse(strange, "their types do not have")
        self.assertGreater(len(named), 15, (unknown, named - calls))
        self.assertLessEqual(named, calls, (unknown, named - calls))

    def test_chain(self) -> None:
        """The longest chain of proofs that docs/DESIGN.md names is one by crates.txt: each crate stands on the one
        before"""
        below = stands_on()
        length: dict[str, int] = {}
        for name in below:  # A crate stands in crates.txt behind those that it stands on.
            length[name] = 1 + max((length[one] for one in below[name]), default=0)
        chain = found_in(r"longest chain of proofs is ([\w, ]+)\.", flat(TOP / "docs" / "DESIGN.md")).split(", ")
        steps = [(one, two) for one, two in zip(chain, chain[1:]) if one not in below.get(two, ())]
        self.assertFalse(steps, chain)
        self.assertEqual(chain[-1], "osdmapd")
        self.assertEqual(len(chain), length["osdmapd"], "a longer chain ends there")

    def test_width(self) -> None:
        """A line of a page has at most 132 columns, but for tables"""
        wide = [
            (page.name, line)
            for page in pages()
            for line in page.read_text("utf-8").splitlines()
            if len(line) > 132 and not line.startswith("|")
        ]
        self.assertFalse(wide)

    def test_sentences(self) -> None:
        """A sentence of most pages of docs/ has at most 35 words"""
        for name in SHORT:
            told = sentences(TOP / "docs" / f"{name}.md")
            self.assertGreater(len(told), 20)
            self.assertEqual([one for one in told if len(one.split()) > MOST_WORDS], [], name)

    def test_guide(self) -> None:
        """docs/CEPH.md, the guide of operators, has at most 4,000 words, and no sentence of the pages on commands and
        on reasons"""
        self.assertLessEqual(len(text("docs", "CEPH.md").split()), 4000)
        guide, *others = ({*sentences(TOP / "docs" / f"{name}.md")} for name in ("CEPH", "COMMANDS", "REASONS"))
        for other in others:
            self.assertEqual({one for one in guide & other if len(one.split()) > 5}, set())

    def test_edits(self) -> None:
        """The table of wrong bodies in docs/PROVED.md names each edit that must not prove, at its crate, and which of
        them take long"""
        form = r"^\| (.*) \| edits? of `(\w+)`( by `--long`: .+)? \|$"
        rows = re.findall(form, text("docs", "PROVED.md"), re.MULTILINE)
        said = {(crate, name, long != "") for names, crate, long in rows for name in re.findall(r"`(\w+)`", names)}
        there = {
            (crate.name, path.stem, "long" in path.read_text("utf-8").splitlines())
            for crate in (TOP / "crates").iterdir()
            for path in edits_of(crate)
        }
        self.assertGreater(len(there), 20, said ^ there)
        self.assertEqual(said, there, said ^ there)

    def test_files_of_folders(self) -> None:
        """README.md of tests/ and of bench/ name each file of their folder, and examples/README.md the independent
        program"""
        for folder in ("tests", "bench"):
            with self.subTest(folder=folder):
                named = set(re.findall(r"`([\w.]+)`", text(folder, "README.md")))
                missing = {path.name for path in (TOP / folder).iterdir() if path.is_file()} - named - {"README.md"}
                self.assertFalse(missing, (folder, missing))
        self.assertIn("`tests/model.py`", text("examples", "README.md"))


if __name__ == "__main__":
    unittest.main()
