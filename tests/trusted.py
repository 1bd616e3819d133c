"""What docs/PROVED.md says that the proofs stand on, beside the sources and the form of a gate's log."""

from __future__ import annotations

import pathlib
import re
import sys
import tempfile

from tests.cases import TOP, Case
from tests.pages import part_of, text
from tests.runs import zipped

sys.path.append(str(TOP / "tools"))

import silent  # noqa: E402
import trust  # noqa: E402
import works  # noqa: E402

PAGE = TOP / "bench" / "results" / "trust.md"
# How far the page's numbers may be from those of the sources: lines, and definitions, of which a crate may have two
# more or less too. Which crates there are it says exactly.
NEAR, TWO = 0.1, 2
ANEW = "run tools/trust.py --sources"
LOG = """\
crate low: modules loaded=0 checked=9
logic=proved functions=15 sum=da native=nat,char,string logic-built=trusted
logic /kit/logic/antt-project.json: libraries=16 files=2756 sum=da
statements std: modules loaded=7 checked=0
crate demo: modules loaded=0 checked=220
axioms libc: libc::heap::alloc, libc::heap::dealloc, libc::heap::realloc, ... (6 of the 128 declared)
axioms os: 1 reached of the 22 declared
  os::c::fcntl
  os::c::errno   reached
axioms std: none reached of the 2 declared
logic=proved functions=7 axioms=7 target=x86_64 sum=da logic-built=trusted incremental=trusted
"""
# What a gate tells: it names a crate before its check, and the tests of one too.
GATE = """\
== low
logic=proved functions=15 sum=da
rt: low proved
== low: its tests
axioms std: std::process::c::abort (1 of the 2 declared)
logic=proved tests=3 functions=19 axioms=1
rt: low: its tests are proved
rt: other is kept: an earlier run on this machine proved the same files over the same libraries
== top
logic=proved functions=8 sum=da
"""

# Functions of all kinds, as `rt fmt` leaves them.
SOURCE = """\
fn nothing(number: u64) -> u64 {
    number
}

fn checked<R: Wait>(rt: &R) -> Result<Map, Ending>
    requires { 1 ≤ rt.now }
    ensures { IfErr result (λ e. 2 ≤ status_of e) }
{
    Ok(map)
}

pub fn opened(path: &str) -> Result<Map, OpenError>
    ensures holds { IfOk result (λ map. map ≡ path.now) }
{
    Ok(map)
}

pub fn recorded(path: &str) -> Result<(), OpenError>
    ensures holds { OnOk result (path.new ≡ record {
      path = path.old;
    }) }
{
    Ok(())
}

pub fn told(path: &str) -> Result<Map, OpenError>
    ensures holds { IfOk result (λ map. map ≡ path.now) }
    ensures only { IfErr result IsOfFile }
{
    Ok(map)
}

pub fn short(path: &str) -> Result<Map, Memory>
    ensures holds { IfOk result (λ map. map ≡ path.now) }
{
    Ok(map)
}

fn lent(member: &mut Member) -> Result<bool, Memory>
    ensures member { IsMemberOf member.new }
{
    Ok(true)
}

fn left(member: &mut Member)
    ensures { IsMemberOf member.new }
{
    member.leave();
}

impl Kept {
    fn quiet(&self) -> bool {
        true
    }

    fn loud(&self) -> bool
        ensures { result ≡ true }
    {
        true
    }
}

impl Read for Kept {
    fn read(&self) -> bool {
        true
    }
}
"""


def rows(lines: list[str]) -> dict[str, list[int]]:
    """The rows of a table by their first cells, with the numbers behind it."""
    cells = [line.strip("| ").split(" | ") for line in lines if line.startswith("| ")]
    return {name: [int(cell.replace(",", "")) for cell in more] for name, *more in cells[1:]}


def apart(page: str, lines: list[str]) -> list[str]:
    """Where a table of a page and the same table of the sources are apart: the rows that one of them lacks, and numbers
    that are not near."""
    now = rows(lines)
    told = rows([lines[0], *page.split(f"{lines[0]}\n")[1].split("\n\n")[0].splitlines()])
    numbers = [(name, *pair) for name in now if name in told for pair in zip(now[name], told[name])]
    far = [
        f"{name}: {before:,}, and now {number:,}"
        for name, number, before in numbers
        if abs(number - before) > max(TWO, NEAR * number)
    ]
    return sorted(set(now) ^ set(told)) + far


class Trusted(Case):
    """What the proofs stand on."""

    is_form = True

    def test_log(self) -> None:
        """Of a log are taken each crate's verdict by its words, the kit's libraries, and the C functions by name"""
        low, demo = trust.verdicts_in(LOG)
        self.assertEqual((low.crate, low.functions, low.libraries), ("low", {}, {}))
        self.assertEqual((demo.crate, demo.words["axioms"], demo.libraries), ("demo", "7", {"std": 7}))
        libc = ["libc::heap::alloc", "libc::heap::dealloc", "libc::heap::realloc"]
        self.assertEqual(demo.functions, {"libc": (6, 128, libc), "os": (1, 22, ["os::c::errno"])})
        gate = [(own.crate, own.words["functions"]) for own in trust.verdicts_in(GATE)]
        self.assertEqual(gate, [("low", "15"), ("top", "8")])

    def test_counted(self) -> None:
        """The definitions and lines that the page counts are about those of the sources, and its crates are theirs"""
        page = PAGE.read_text(encoding="utf-8")
        for count in (trust.definitions_told, trust.crates_told, trust.tools_told):
            self.assertEqual(apart(page, [*count(TOP)]), [], ANEW)

    def test_crates(self) -> None:
        """Each crate has a verdict in the page, or is named as one that the logs do not have; and no others are"""
        said = part_of(PAGE, "Functions that were proved")
        told = {name for name in rows(said.splitlines()) if name != "all"}
        missing = set(re.findall(r"\w+", said.rpartition("do not have: ")[2])) - {"none"}
        self.assertEqual(sorted(told | missing), sorted(trust.crates_of(TOP)), ANEW)
        self.assertEqual(told & missing, set())

    def test_apart(self) -> None:
        """A crate that is new, one that has another name, and one with many more definitions are seen; and not a line
        or a definition more"""
        head = "| crate | lines of definitions | definitions |"
        page = f"# Page\n\n{head}\n|---|--:|--:|\n| low | 100 | 30 |\n| laws | 40 | 10 |\n\n## Other\n"
        same = [head, "|---|--:|--:|", "| low | 101 | 31 |", "| laws | 43 | 12 |"]
        self.assertEqual(apart(page, same), [])
        new, renamed = [*same, "| more_laws | 5 | 1 |"], [*same[:3], "| some_laws | 43 | 12 |"]
        self.assertEqual(apart(page, new), ["more_laws"])
        self.assertEqual(apart(page, renamed), ["laws", "some_laws"])
        self.assertEqual(apart(page, [*same[:3], "| laws | 43 | 16 |"]), ["laws: 10, and now 16"])

    def test_from_sources(self) -> None:
        """What is made anew of the sources leaves what logs have told, but for crates that are no more"""
        page = PAGE.read_text(encoding="utf-8")
        told = dict(trust.read_again(TOP, page.replace("| crush | ", "| crushed | ")))
        self.assertEqual(set(told) & {heading for heading, _ in trust.of_sources(TOP)}, set())
        self.assertEqual(told["What the verdicts say"], part_of(PAGE, "What the verdicts say"))
        self.assertNotIn("crushed", told["Functions that were proved"])
        self.assertIn("crush", told["Functions that were proved"].rpartition("do not have: ")[2])

    def test_compiler(self) -> None:
        """What is taken of the compiler is told, with the words of the kit and with what looks for its faults"""
        said = part_of(TOP / "docs" / "PROVED.md", "What is trusted")
        row = next((line for line in said.splitlines() if line.startswith("| The Rattle compiler")), "")
        self.assertIn("The compiler has also built wrong code in rare cases", row)
        self.assertIn("`tests/both_programs.py`", row)

    def test_words(self) -> None:
        """Each word of the verdicts has its meaning, and the page of promises names those that take something"""
        said = part_of(TOP / "docs" / "PROVED.md", "What is trusted")
        taken = [word for word in re.findall(r"`([\w-]+)=", PAGE.read_text("utf-8")) if word != "logic"]
        self.assertGreater(len(taken), 4)
        self.assertEqual([word for word in taken if word not in trust.WORDS or f"`{word}=" not in said], [])

    def test_functions_in_c(self) -> None:
        """The page of promises has as many C functions of each program as the other counts, and that names each of them
        or says that its log has cut them short"""
        said = part_of(TOP / "docs" / "PROVED.md", "What is trusted")
        for program in ("osdmapd", "osdmapstore", "readmap"):
            table = part_of(PAGE, f"C functions below {program}")
            found = re.findall(r"^\| \w+ \| (\d+) \| \d+ \| (.*) \|$", table, re.MULTILINE)
            for number, names in found:
                named = len(re.findall(r"\w+::[\w:]+", names))
                self.assertTrue(named == int(number) or names.endswith("and others"), names)
            self.assertIn(f"[{sum(int(number) for number, _ in found)} of them below `{program}`]", said)

    def test_proofs_by_hand(self) -> None:
        """Each place of a whole proof by hand is named"""
        said = part_of(TOP / "docs" / "PROVED.md", "What is trusted")
        files = [path.relative_to(TOP / "crates").parts for path in (TOP / "crates").glob("*/proofs/**/Proof.antt")]
        places = {f"`{crate}/proofs/{module}`" for crate, _, module, *_ in files}
        missing = {place for place in places if place not in said and f"`{place[1:].split('/')[0]}`" not in said}
        self.assertGreater(len(places), 4)
        self.assertEqual(missing, set())

    def test_functions_without_a_clause(self) -> None:
        """The functions whose contract leaves open what they answer are those of the sources, in three lists, each with
        what holds it"""
        said = part_of(TOP / "docs" / "PROVED.md", "Functions without a clause")
        tables = re.findall(r"^\| Crate \|.*\n\|[-|]+\n((?:\|.*\n?)+)", said, re.MULTILINE)
        for (kind, crates), table in zipped(silent.silent(TOP).items(), tables):
            named: dict[str, list[str]] = {}
            crate = ""
            for first, names, *_, by in (line.strip("|").split("|") for line in table.splitlines()):
                crate = first.strip(" `") or crate
                named.setdefault(crate, []).extend(re.findall(r"`([\w:]+)`", names))
                self.assert_there(by)
            with self.subTest(kind):
                there = {name: sorted(own) for name, own in crates.items()}
                self.assertEqual({name: sorted(own) for name, own in named.items()}, there)

    def assert_there(self, by: str) -> None:
        """Asks that the files of tests which hold something are there, and the tests that are named in them."""
        files = [TOP / path for path in re.findall(r"`((?:tests|bench)/[\w/.]+)`", by)]
        self.assertEqual([path for path in files if not path.is_file()], [])
        told = "".join(path.read_text(encoding="utf-8") for path in files)
        self.assertEqual([name for name in re.findall(r"`(test_\w+)`", by) if f"def {name}(" not in told], [])

    def test_silent(self) -> None:
        """A function without a clause, one whose clauses are of errors alone, and one that may always refuse are told,
        and none that says what it answers"""
        told = {
            kind: [own.name for own in silent.functions_in(SOURCE) if is_of(own)]
            for kind, is_of in silent.KINDS.items()
        }
        expected = {
            "no clause": ["nothing", "Kept::quiet"],
            "errors alone": ["checked", "lent"],
            "may always refuse": ["opened", "recorded"],
        }
        self.assertEqual(told, expected)

    def test_works(self) -> None:
        """What makes a room for runs, a follower's place or a monitor is found where none may be, or one too many"""
        runs, asking = "server/src/runs.rt", "session/src/asking.rt"
        one = "fn open_monitor() -> Monitor {\n    Monitor::open_stored(rt)\n}\n"
        calls = "fn serve_map() {\n    let one = open_monitor();\n}\n"
        spare = "fn twice(follower: &mut Option<Follower>) {\n    follow(alloc, &mut None, task);\n}\n"
        work = "fn up(&self) {\n    let work = Work::new(alloc)?;\n}\n"
        cases: tuple[tuple[str, dict[str, str], list[str]], ...] = (
            ("one monitor", {runs: one + calls}, []),
            ("a second one", {runs: one + calls.replace("one", "one = open_monitor();\n    let two")}, [runs]),
            ("one in a loop", {runs: one + calls.replace("let", "for _ in parts { let")}, [runs]),
            ("one elsewhere", {runs: one + calls, asking: one}, [asking]),
            ("a spare follower", {asking: spare}, [asking]),
            (
                "one that is kept",
                {asking: spare.replace("follow(", "let old = follower.take();\n    follow(")},
                [asking],
            ),
            ("no follower", {asking: spare.replace("&mut None", "follower")}, []),
            ("a work", {asking: work}, [asking]),
        )
        for name, files, wrong in cases:
            with self.subTest(name), tempfile.TemporaryDirectory() as folder:
                for place, source in files.items():
                    path = pathlib.Path(folder) / "crates" / place
                    path.parent.mkdir(parents=True, exist_ok=True)
                    path.write_text(source)
                root = pathlib.Path(folder)
                found = [*works.makers(root), *works.places(root)]
                self.assertEqual(sorted({place for place, _, may_be in found if not may_be}), wrong)
        self.assertEqual([own for own in (*works.makers(TOP), *works.places(TOP)) if not own[2]], [])

    def test_libraries(self) -> None:
        """Each library of the kit that crates.txt names is one of those that are named as taken, or a part of one"""
        said = part_of(TOP / "docs" / "PROVED.md", "What is trusted")
        lines = [line.partition(":") for line in text("crates.txt").splitlines()]
        own = {head.split()[0] for head, _, _ in lines if head}
        named = {library for _, _, tail in lines for library in tail.split()} - own
        parts = {library for library in named if library.startswith("sqlite_")}
        self.assertGreater(len(named), 10)
        self.assertEqual({library for library in named - parts if f"`{library}`" not in said}, set())
